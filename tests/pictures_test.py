#!/usr/bin/env python3
"""Tests of the pictures and of the report: their numbers are those of the run, their texts harm nobody, and a browser shows them.

usage: tests/pictures_test.py [-v] [TEST ..]     from any folder; takes about a minute

Tests in Chromium are left out if it is not installed. The pictures that are kept in tests/pictures are compared byte by byte; `tests/pictures_test.py
--keep` writes them anew, to be looked at before they are committed.
"""
import re
import statistics
import subprocess
import sys
import unittest
import xml.etree.ElementTree as ElementTree
from unittest import mock

from support.live import PROGRAM, TOP, run_tests
from support import laboratory
import camac
from support import two_crates
from support.browser import CHROMIUM, Browser
from support.needs import needed
from support.rows import ROWS
from camac import __main__ as commands
from camac import pictures
from camac.bodies import calls_of, opened, parse_costs
from camac.columns import Naming
from camac.events import NEW_FILE, read_events, record
from camac.histograms import Spectrum
from camac.pictures import svg
from camac.pictures.costs import nodes_of
from camac.pictures.lines import line_of
from camac.pictures.spectra import LOGARITHMIC, Shown, draw_panel
from camac.printed import read_plan, read_responses, read_services
from camac.program import knows_option, output_of
from camac.report import report
from camac.runs import REASONS, Asked, Inputs, Run
from camac.simulate import FACTORS, Simulated, Simulation
from camac.texts import source_lines
from camac.values import BodyKind

KEPT = TOP / "tests/pictures"
OTHERS = KEPT / "others.html"
SHOWN = {*re.findall(r"tests/pictures/([\w-]+)\.svg", "".join(it.read_text(encoding="utf-8") for it in (TOP / "README.md", *TOP.glob("docs/*.md"))))}
FIGURE = re.compile(r"<svg .*?</svg>", re.S)


def number(text):
    return float(text.replace(",", "")) if text else None


class Numbers(laboratory.BenchCase):
    """The numbers of the page beside sums made apart, from the listing and from `camac events`."""

    @classmethod
    def setUpClass(cls):
        super().setUpClass()
        cls.made = report(Inputs(*cls.files))
        cls.page = laboratory.Page(cls.made.text)
        cls.events = cls.shared_room / "run.events"
        cls.sums = laboratory.Sums(*cls.files, cls.events)

    def test_run(self):
        self.assertEqual(self.made.status, 0)
        self.assertGreater(len(self.sums.services), 100)

    def test_tiles(self):
        sums = self.sums
        cycles, waits = sums.total("cycles"), sums.total("waits")
        wanted = {
            "events": len(sums.events),
            "cycles, waits counted": cycles,
            f"waits, {100 * waits / cycles:.0f} % of the cycles": waits,
            "event words": sum(len(event[4]) for event in sums.events),
            "cycles with X = 0": sums.total("no_x"),
            "cycles with Q = 0": sums.total("no_q"),
            "Q = 0 of transfers": sums.total("of_transfers"),
            "demands without a service": sums.idle,
        }
        self.assertEqual(self.page.tiles, wanted)
        self.assertEqual(cycles, sum(event[1] for event in sums.events))
        self.assertEqual(sums.total("no_x"), sum(event[2] for event in sums.events))

    def test_services_of_the_script(self):
        for row in self.page.table("The run"):
            pairs = [(it, event) for it, event in zip(self.sums.services, self.sums.events) if it.name == row["service"]]
            cycles, words = [it.cycles for it, _ in pairs], [len(event[4]) for _, event in pairs]
            bound = re.search(rf"service {row['service']} .* cycles (\d+) of (\d+) words (\d+) of", laboratory.call("check", *self.inputs[:2]))
            wanted = [len(pairs), min(cycles), sum(cycles) / len(pairs), max(cycles), int(bound[1]), int(bound[2])]
            wanted += [sum(it.waits for it, _ in pairs) / len(pairs), sum(words) / len(pairs), int(bound[3])]
            wanted += [sum(getattr(it, name) for it, _ in pairs) for name in ("no_q", "of_transfers", "no_x")]
            for found, value in zip(list(row.values())[2:], wanted):
                self.assertAlmostEqual(number(found), value, delta=0.05)

    def test_services_of_the_run(self):
        rows = self.page.table("Services")
        self.assertEqual(len(rows), len(self.sums.services))
        for at, (row, seen, event) in enumerate(zip(rows, self.sums.services, self.sums.events)):
            wanted = [at + 1, seen.name, seen.cycles, None, seen.waits, seen.locked, seen.no_q, seen.of_transfers, seen.no_x, len(event[4])]
            found = [cell if title == "service" else None if title == "of bound" else number(cell) for title, cell in row.items()]
            self.assertEqual(found, wanted)
            self.assertEqual(laboratory.NAMES[event[0]], seen.name)

    def test_commands(self):
        has_widths = knows_option("plan", "--commands", PROGRAM)
        rows = self.page.table("Commands that were sent")
        self.assertEqual(len(rows), len(self.sums.commands))
        for row in rows:
            at = tuple(int(it) for it in row["crate station A F"].replace("F", "").split())
            sent = self.sums.commands[at]
            width = laboratory.WIDTHS.get((at[0], at[1], at[3]), 24) if has_widths else 24
            words = [word & ((1 << width) - 1) for word in sent["words"]]
            wanted = [sent["count"], sent["no_q"], sent["no_x"], sent["waits"]]
            wanted += [min(words), sum(words) / len(words), max(words)] if words else [None] * 3
            for found, value in zip(list(row.values())[3:], wanted):
                self.assertTrue(number(found) is value is None or abs(number(found) - value) < 0.051, (row, wanted))

    def test_histograms(self):
        """What is in the bins and in the lines of a panel, beside what is counted here: bins from 0 on, at most 128 of one width."""
        page = self.page
        counts = page.parts["Cycles and words of an event"]["counts"]
        names = [it.name for it in self.sums.services]
        self.assertEqual([sum(it) for it in counts], [names.count(name) for name in ("adc", "tick", "adc", "tick")])
        cycles = [it.cycles for it in self.sums.services if it.name == "adc"]
        self.assertEqual(counts[0], [cycles.count(value) for value in range(43 + 1)])
        part = page.parts["By channel: the words that modules gave with Q = 1, and the words that were sent"]
        channels = [(at, it["words"]) for at, it in sorted(self.sums.commands.items()) if it["words"]]
        drawn = [(at, words) for at, words in channels if at[:2] != (2, 2)]
        self.assertEqual(len(part["counts"]), len(drawn))
        for found, (at, words) in zip(part["counts"], drawn):
            width = laboratory.WIDTHS[at[0], at[1], at[3]]
            each = max(1 << width >> 7, 1)
            words = [word & ((1 << width) - 1) for word in words]
            self.assertEqual(found, [sum(low <= word < low + each for word in words) for low in range(0, 1 << width, each)])
        self.assertEqual(part["texts"][:3], self.lines_of((1, 5, 0, 0)))

    def lines_of(self, at):
        """The lines above a spectrum of 12 bits."""
        words = [word & 0xFFF for word in self.sums.commands[at]["words"]]
        peak = min(statistics.multimode(words))
        figures = f"mean {statistics.mean(words):,.1f}, RMS {statistics.pstdev(words):,.1f}, peak at {peak:,}"
        return ["ADC-12 crate 1 station 5 A0", f"{len(words):,} words, F0", figures]

    def test_places_of_words(self):
        tips = [tip for tip in self.page.parts["By the place of the word in its event"]["tips"] if tip.startswith("word ")]
        wanted = []
        for gl in laboratory.NAMES:
            events = [event[4] for event in self.sums.events if event[0] == gl]
            for place in range(max(map(len, events))):
                words = [words[place] for words in events if len(words) > place]
                count = f"{len(words):,} event{'s' if len(words) > 1 else ''}"
                wanted.append(f"word {place}: {count}, {min(words):,} to {max(words):,}, mean {sum(words) / len(words):,.1f}")
        self.assertEqual(tips, wanted)

    def test_plan(self):
        used = {}
        for (crate, station, _, _), it in self.sums.commands.items():
            station = 24 if station in (28, 30) else station
            used[crate, station] = used.get((crate, station), 0) + it["count"]
        told = re.findall(r"crate (\d) stations? (\d+).*: .*\n(?:graded-L .*\n)?([\d,]+) cycles? in", "\n".join(self.page.parts["The plan"]["tips"]))
        self.assertEqual({(int(c), int(n)): int(number(cycles)) for c, n, cycles in told}, {**dict.fromkeys([(2, 23)], 0), **used})

    def test_timeline(self):
        tips = "\n".join(self.page.parts["The run"]["tips"])
        columns = re.findall(r"^service [\d,]+\ncycles: mean ([\d.]+), most ([\d,]+);", tips, re.M)
        self.assertEqual(sorted(float(mean) for mean, _ in columns), sorted(it.cycles for it in self.sums.services))
        for word, name in (("Q = 0", "no_q"), ("X = 0", "no_x")):
            missed = re.findall(rf"{word}: ([\d,]+) cycle", tips)
            self.assertEqual(sum(map(int, missed)), self.sums.total(name))

    def test_bounds(self):
        tips = self.page.parts["What was promised, and what was seen"]["tips"]
        for name in ("adc", "tick"):
            cycles = [it.cycles for it in self.sums.services if it.name == name]
            told = f"seen in {len(cycles)} services: least {min(cycles)}, mean {sum(cycles) / len(cycles):,.1f}, most {max(cycles)}"
            self.assertIn(told, tips)

    def test_strips(self):
        """Of each strip, its cells with Q and X."""
        titles = [it for it in self.page.parts["Some services cycle by cycle"]["texts"] if it.startswith("service ")]
        self.assertEqual(len(titles), 3)
        for title in titles:
            at, cycles = map(int, re.match(r"service (\d+), \w+: (\d+) of", title).groups())
            self.assertEqual(self.sums.services[at - 1].cycles, cycles)
        first = next(at for at, it in enumerate(self.sums.services) if it.no_x)
        self.assertTrue(titles[0].startswith(f"service {first + 1}, ") and "first X = 0" in titles[0], titles)

    def test_checks(self):
        rows = self.page.parts["Checks of this page"]["tables"][0]
        self.assertEqual([row[0] for row in rows], ["agrees"] * 6)

    def test_checks_that_differ(self):
        """Each number that is there twice, changed in one place."""
        services = camac.check(*self.files[:2])
        events = list(read_events(self.events))
        first = events[0]
        for wrong in (events[:-1], [first._replace(cycles=first.cycles + 1), *events[1:]], [first._replace(missed=9), *events[1:]]):
            with mock.patch("camac.runs.read_events", lambda _, wrong=wrong: iter(wrong)):
                made = report(self.inputs)
            self.assertEqual(made.status, 1)
            self.assertIn("DIFFERS", [row[0] for row in laboratory.Page(made.text).parts["Checks of this page"]["tables"][0]])
        low = [it._replace(words=0) for it in services]
        with mock.patch("camac.report.check", lambda *_: low):
            self.assertEqual(report(self.inputs).status, 1)

    def test_names_of_words(self):
        """Spectra of an event file by the names of a file and by those of the script, and two numbers against each other, beside counts made here."""
        self.inputs = self.inputs._replace(source=self.events)
        tick = [event[4] for event in self.sums.events if event[0] == 5]
        texts = laboratory.Page(report(self.inputs).text).parts["Event words by their names"]["texts"]
        for place in range(12):
            numbers = [words[place] for words in tick]
            at = texts.index(f"SCALER-12 crate 2 station 2 A{place}")
            self.assertEqual(texts[at + 1 : at + 3], [f"{len(tick)} words: values", f"mean {statistics.mean(numbers):,.1f}, RMS {statistics.pstdev(numbers):,.1f}"])
        words = self.write("words.toml", WORDS)
        page = laboratory.Page(report(self.inputs, naming=Naming(words, ("time", "count"))).text)
        packed = [word for event in self.sums.events if event[0] == 3 for word in event[4] if word >> 16 == 3]
        found = page.parts["Event words by their names"]["counts"]
        self.assertEqual(found[-1], [sum(word & 0xFFF >= low and word & 0xFFF < low + 32 for word in packed) for low in range(0, 4096, 32)])
        texts = page.parts["Event words by their names"]["texts"]
        charges = [0.5 * (word & 0xFFF) - 10 for word in packed]
        self.assertIn(f"mean {statistics.mean(charges):,.1f}, RMS {statistics.pstdev(charges):,.1f}", " ".join(texts))
        pairs = [event for event in self.sums.events if event[0] == 3 and len(event[4]) >= 2]
        self.assertIn(f"{len(pairs)} events with both", page.parts["Two numbers of an event"]["texts"])

    def test_event_file(self):
        """Of an event file alone the page shows what it holds, and the numbers are those of the listing."""
        self.inputs = self.inputs._replace(source=self.events)
        made = report(self.inputs)
        page = laboratory.Page(made.text)
        self.assertEqual(made.status, 0)
        wanted = {it: self.page.tiles[it] for it in ("events", "cycles, waits counted", "event words", "cycles with X = 0")}
        self.assertEqual(page.tiles, wanted)
        for heading in ("The run", "Services"):
            for ours, of_answers in zip(page.table(heading), self.page.table(heading)):
                self.assertEqual(ours, {title: of_answers[title] for title in ours})
        self.assertNotIn("Q = 0", page.table("Services")[0])


class Costs(laboratory.BenchCase):
    def test_what_is_told_without_the_program(self):
        """The texts of which the kept pictures are drawn are those that the program prints."""
        plan, script, _ = self.files
        printed = [output_of(*words) for words in (("plan", plan, "--commands"), ("check", plan, script), ("costs", plan, script))]
        self.assertEqual(printed, [two_crates.PLAN, two_crates.VERDICT, two_crates.COSTS])

    def test_shares(self):
        bodies = camac.costs(*self.files[:2])
        services = {it.name: it for it in camac.check(*self.files[:2])}
        for body in bodies:
            self.assertEqual(tuple(sum(row.share[k] for row in body.rows) for k in range(3)), body.most)
            self.assertTrue(all(0 <= row.waits + row.slack <= row.share.cycles for row in body.rows))
            if body.name in services:
                row = services[body.name]
                self.assertEqual((*body.most, *body.annotated[:2]), (row.cycles, row.words, row.steps, row.annotated_cycles, row.annotated_words))
        adc, tick = bodies[1], bodies[2]
        # 5 tests, 2 for the lock, and two cycles at the end may be waited for; in the lock are 12 reads and a scan of 8
        self.assertEqual((adc.most.cycles, adc.waits(), adc.slack()), (15 + 2 + 12 + 8 + 6, 10 + 2 + 4, 0))
        # 12 calls of 2 cycles, of which the body needs 1
        self.assertEqual((tick.most.cycles, tick.waits(), tick.slack()), (24 + 1 + 1, 0, 12))

    def bodies(self):
        """The bodies of the bench and of all worked rows of costs, each with all of its script."""
        worked = [one.printed.decode() for case in ROWS["costs"].values() for one in case]
        for printed in (two_crates.COSTS, *(it for it in worked if it.startswith(("service", "proc")))):
            bodies = parse_costs(printed)
            yield from ((body, bodies) for body in bodies)

    def test_lines_multiply(self):
        """On each line `times` times `each` is `cycles`, and the lines add up to the bound; so do those of a call, with what its heading promises."""
        tried = calls = 0
        for body, bodies in self.bodies():
            procedures = {it.name: it for it in bodies if it.kind is BodyKind.PROCEDURE}
            self.assertEqual(self.cycles_of(body), body.most.cycles)
            self.assertEqual(sum(row.share.cycles for row in opened(body, procedures)), body.most.cycles)
            self.assertEqual(sum(row.waits for row in opened(body, procedures)), body.waits())
            self.assertEqual(sum(row.slack for row in opened(body, procedures)), body.slack())
            tried += 1
            for it in calls_of(body, procedures):
                self.assertEqual(self.cycles_of(it.body) + it.promised(), it.times * it.each)
                calls += 1
        self.assertGreater(min(tried, calls), 4)

    def cycles_of(self, body):
        rows = {}
        for it in nodes_of(body.rows):
            rows.setdefault(it.row.line, []).append((it.row, it.cycles))
        parts = [part for of_line in rows.values() for part in line_of(of_line).parts]
        self.assertTrue(all(it.times * it.each == it.cycles for it in parts))
        return sum(it.cycles for it in parts)

    def test_lines_with_several_parts(self):
        """A lock on one line with what it holds, and a cycle that is made once beside one that is made four times."""
        rows = parse_costs(
            "service adc line 1 gl 3 at 1 5 12 cycles 9 of 9 words 0 of 0 steps 9\n"
            "line 2 depth 1 lock times 1 cycles 4 words 0 steps 2 share 2 0 1 crate 2\n"
            "line 2 depth 2 cfsa times 2 cycles 1 words 0 steps 1 share 2 0 2 at 2 5 0\n"
            "line 3 depth 1 cfsa times 1 cycles 1 words 0 steps 1 share 1 0 1 at 1 5 0\n"
            "line 3 depth 1 for times 1 cycles 4 words 0 steps 5 share 0 0 1 turns 4\n"
            "line 3 depth 2 cfsa times 4 cycles 1 words 0 steps 1 share 4 0 4 at 1 5 0\n"
        )
        texts = re.findall(r"<text[^>]*>([^<]*)</text>", pictures.draw_costs(rows[0], ["", "lock 2 {", "three"]).picture())
        table = texts[texts.index("lock 2 {") - 1 :]
        self.assertEqual(table[:14], ["2", "lock 2 {", "2", "1", "2", "22 %", "waits of the lock", "1", "2", "2", "22 %", "3", "three", "1"])
        self.assertEqual(table[14:], ["1", "1", "11 %", "of this line: cfsa", "4", "1", "4", "44 %"])

    def test_page(self):
        page = laboratory.Page(report(self.inputs).text)
        texts = page.parts["Cost by line"]["texts"]
        self.assertIn("service adc (line 11): at most 43 cycles of 64 annotated", texts)
        self.assertIn("at most 43 = 27 ours + 16 waits", texts)
        self.assertIn("at most 26 = 14 ours + 0 waits + 12 promised by procedures, not needed", texts)
        for line, text in enumerate(laboratory.SCRIPT.splitlines()[10:31], 11):
            self.assertIn(str(line), texts)
            self.assertIn(svg.cut(text, 70), texts)

    def test_pictures(self):
        out = self.room / "costs.svg"
        self.assertEqual(commands.main(["draw", "costs", *map(str, self.files), "-o", str(out)]), 0)
        self.assertEqual(sorted(it.name for it in self.room.iterdir()), ["costs.adc.svg", "costs.scaler.svg", "costs.tick.svg"])
        for path in self.room.iterdir():
            ElementTree.parse(path)


# Names of the words of the bench.
WORDS = """\
[[word]]
service = "adc"
name = "channel"
bits = "16..19"
[[word]]
service = "adc"
name = "charge"
of = "channel"
tag = 3
bits = "0..11"
scale = 0.5
offset = -10
unit = "pC"
[[word]]
service = "adc"
name = "time"
place = 1
bits = "12..15"
[[word]]
service = "adc"
name = "count"
place = 2
bits = "12..15"
"""


class Texts(laboratory.BenchCase):
    """Texts that would do harm are shown, and do none."""

    HARM = b'# </text></svg></style><script>document.title="harm"</script> "\' & \x00\x1b[31m \xff\xfe \t ]]> <!-- \xc2\x85 \xed\xa0\x80\n'

    def hostile(self, name):
        """The bench's script with harm in its comments, in a file of this name."""
        path = self.room / name
        lines = [line.replace(b"\n", b"  ") + self.HARM for line in laboratory.SCRIPT.encode().splitlines() if b"#" not in line]
        path.write_bytes(b"".join(lines))
        return path

    def pages(self):
        names = ['<img src=x onerror="document.title=1">.script', "a&b'\".script", "\x1b[31m\n\uffff.script"]
        for name in names:
            yield report(self.inputs._replace(script=self.hostile(name))).text
        yield report(self.inputs._replace(script=self.hostile(names[0]), plan=self.write("bad.toml", 'buffer = "<script>"'))).text
        harm = '<script>alert(1)</script> \u2028 \U0001f4a5 &amp; \\" ' + 32 * "x"
        words = self.write("words.toml", f'[[word]]\nservice = "tick"\nname = "{harm}"\nunit = "{harm}"\nplace = "1..2"\nof = "place"\nbits = "0..9"\n')
        yield report(self.inputs._replace(script=self.hostile(names[0])), naming=Naming(words)).text
        broken = self.hostile(names[0])
        broken.write_bytes(broken.read_bytes().replace(b"within 64", b"within 0"))
        yield report(self.inputs._replace(script=broken)).text

    def test_pages(self):
        for text in self.pages():
            for figure in FIGURE.findall(text):
                ElementTree.fromstring(figure)
            self.assertEqual(text.count("<script"), 1)
            self.assertEqual(text.count("<svg "), text.count("</svg>"))
            self.assertNotIn("<img", text)
            self.assertIsNone(re.search(svg.FORBIDDEN, text))
            text.encode()

    def test_nothing_is_fetched(self):
        for text in [*self.pages(), report(self.inputs).text]:
            self.assertEqual(re.findall(r"https?:|//|@import|url\(|\ssrc=[^x]|<link|<iframe|<object", FIGURE.sub("", text).replace("</script>", "")), [])
            self.assertTrue(all(it.startswith("#") for it in re.findall(r'\shref="([^"]*)"', text)))
            self.assertIn("default-src 'none'", text)

    def test_clean(self):
        self.assertEqual(svg.clean("a\x00\x08\t\n\r\x0e\x1f\x7f\x9f\ufffe\uffff\ud800z"), "a\ufffd\ufffd  \n\r" + "\ufffd" * 7 + "z")
        self.assertEqual(svg.escape('<a b="c">&'), "&lt;a b=&quot;c&quot;&gt;&amp;")

    def test_lines_are_counted_by_lf_alone(self):
        script = self.write("a.script", "")
        script.write_bytes(b"a\r\nb\rc\x0bd\xe2\x80\xa8e\nf")
        self.assertEqual(source_lines(script), ["a", "b\rc\x0bd\u2028e", "f"])

    def test_numbers_as_text(self):
        self.assertEqual([svg.count(it, "cycle") for it in (0, 1, 2, 12_345)], ["0 cycles", "1 cycle", "2 cycles", "12,345 cycles"])
        shares = [svg.share(part, 1000) for part in (0, 1, 99, 99.4, 99.5, 333, 1000)]
        self.assertEqual(shares, ["0 %", "0.1 %", "9.9 %", "9.9 %", "10 %", "33 %", "100 %"])
        self.assertEqual([svg.cut("abcdef", size) for size in (6, 5, 1)], ["abcdef", "abcd…", "…"])

    def test_contrast(self):
        def light(colour):
            parts = [int(colour[at : at + 2], 16) / 255 for at in (1, 3, 5)]
            red, green, blue = [part / 12.92 if part <= 0.03928 else ((part + 0.055) / 1.055) ** 2.4 for part in parts]
            return 0.2126 * red + 0.7152 * green + 0.0722 * blue

        def contrast(one, other):
            low, high = sorted((light(one), light(other)))
            return (high + 0.05) / (low + 0.05)

        def over(colour, ground, opacity):
            parts = [(int(colour[at : at + 2], 16), int(ground[at : at + 2], 16)) for at in (1, 3, 5)]
            return "#" + "".join(f"{round(above * opacity + below * (1 - opacity)):02x}" for above, below in parts)

        for theme in (svg.LIGHT, svg.DARK):
            colours = {name: pair[theme] for name, pair in svg.COLOURS.items()}
            areas = ("ours", "waits", "slack", "read", "write", "control", "controller", "lock", "noq", "nox")
            wanted = [(text, under, 4.5) for text in ("ink", "mute", "nox") for under in ("ground", "face")]
            wanted += [("control", "ground", 4.5), ("ours", "ground", 4.5)]
            wanted += [("ground", bar, 4.7) for bar in ("ours", "waits", "slack")] + [(area, "ground", 4.7) for area in areas]
            for one, other, least in wanted:
                self.assertGreaterEqual(round(contrast(colours[one], colours[other]), 1), least, (theme, one, other))
            self.assertGreaterEqual(contrast(colours["ink"], over(colours["waits"], colours["ground"], 0.4)), 4.5, "text on the hottest line")


LISTED_PLAN = """\
buffer 64
type ADC-12 commands 21 probes 4
command f 0 a 0 to 11 width 12
command f 0 a 12 to 15 probe
command f 9 a 0
command f 8 a 12
command f 10 a 12
type A-NAME-OF-32-CHARACTERS-IN-WHOLE commands 1 probes 0
command f 16 a 0 width 8
crate 1 waits 2
station 5 ADC-12 gl 3
station 23 A-NAME-OF-32-CHARACTERS-IN-WHOLE gl 24
crate 2 waits 0
"""
VERDICT = "accepted\nservice adc gl 3 cycles 20 of 24 words 5 of 5 steps 50\n"
# The example of the page: one procedure, called in a loop and once more.
COSTS = ROWS["costs"]["procedure_in_a_loop"][0]
SERVED = [
    "demand 000004 adc",
    "lock 1 wait 2",
    "cycle 1 5 0 0 in 000123 x1 q1 wait 0",
    "cycle 1 5 1 0 in 000fff x1 q0 wait 0",
    "unlock 1",
    "cycle 1 23 0 16 out 0000ff x0 q0 wait 1",
    "cycle 1 28 8 26 none x1 q0 wait 15",
    "demand 000000 -",
]


def small_run():
    """A run of two services with all that a strip can show, and of a third one without an end."""
    lines = [*SERVED, *SERVED[:-2], SERVED[-2].replace("15", "0"), *SERVED[:3], "short events 2"]
    events = [camac.Event(1, 3, 22, 1, (0x123, 0xFF)), camac.Event(2, 3, 7, 1, (0x123, 0xFF, 5))]
    return two_crates.collected(LISTED_PLAN, VERDICT, lines, events)


def rates_at(factor):
    """A simulation by hand, of which no program is needed: a service of 20 cycles at so many times 5,000 triggers a second."""
    rate, answered = 5000 * factor, 1000
    lost = round(answered * rate * 20 * 1.4e-6)
    adc = Simulated("adc", 3, rate, 20, 34)
    adc.came, adc.lost, adc.length, adc.waits = answered + lost, lost, 20 * answered, [20 + min(at * factor / 200, 13) for at in range(answered)]
    return Simulation([adc], 1.0, 0.5, None)


def kept_pictures():
    """The pictures that are kept, by name, drawn without the program."""
    rate = [next(it for it in two_crates.WORDS.columns(5) if it.name == name) for name in ("rate[1]", "rate[2]")]
    asked = Asked(two_crates.WORDS, (rate[0], rate[1]))
    plan, services, bodies, run = read_plan(two_crates.PLAN), read_services(two_crates.VERDICT), parse_costs(two_crates.COSTS), two_crates.long_run(200, asked)
    calls = parse_costs(COSTS.printed.decode())
    source, seen, responses = laboratory.SCRIPT.split("\n"), run.seen, read_responses(two_crates.RESPONSE)
    drawn = {
        "plan": pictures.draw_plan(plan, services, run),
        "plan-alone": pictures.draw_plan(read_plan(LISTED_PLAN)),
        "bounds": pictures.draw_bounds(services, run),
        "response": pictures.draw_response(responses, two_crates.run_of(responses, [(9, 7), (4, 3), (1, 5), (4, 3), (0, 0), (4, 3), (1, 5), (1, 5), (9, 7)])),
        "costs-scaler": pictures.draw_costs(bodies[0], source),
        "costs-adc": pictures.draw_costs(bodies[1], source, seen[3].cycles),
        "costs-tick": pictures.draw_costs(bodies[2], source, seen[5].cycles, bodies),
        "costs-call": pictures.draw_costs(calls[1], COSTS.inputs["SCRIPT"].decode().split("\n"), None, calls),
        "run": pictures.draw_run(two_crates.long_run(80), services),
        # Columns of two services each, of which few are drawn.
        "run-long": pictures.draw_run(two_crates.long_run(270, is_tick=lambda at: at % 20 > 3), services[:1]),
        "events": pictures.draw_groups("Cycles and words of an event", pictures.event_groups(run, services)),
        "words": pictures.draw_groups("Words by channel", pictures.command_groups(run, plan)),
        "words-log": pictures.draw_groups("Words by channel", pictures.command_groups(run, plan, LOGARITHMIC)[:1]),
        "channels": pictures.draw_groups("Event words by their names", pictures.channel_groups(run.list_channels())),
        "pairs": pictures.draw_pairs(run.channels),
        "rates": pictures.draw_rates([rates_at(factor) for factor in FACTORS], rates_at(1), 1.4e-6),
        "places": pictures.draw_places(run, services[0]),
    }
    for name, shown in (("", run), ("small-", small_run())):
        for (why, gl), kept in shown.kept.items():
            drawn[f"strip-{name}{why}-{gl}"] = pictures.draw_strip(kept, services[0] if gl != 5 else services[1], REASONS[why])
    return {name: canvas.picture() for name, canvas in drawn.items()}


def page_of_others(drawn):
    return "".join(f"<h2>{name}</h2>\n{text}" for name, text in drawn.items() if name not in SHOWN)


class Kept(unittest.TestCase):
    """Pictures of fixed values, without the program: those that a page shows are files, and the others are in one."""

    def test_kept(self):
        drawn = kept_pictures()
        self.assertEqual({it.stem for it in KEPT.glob("*.svg")}, SHOWN)
        self.assertEqual(page_of_others(drawn), OTHERS.read_text(encoding="utf-8"))
        for name, text in drawn.items():
            with self.subTest(name):
                if name in SHOWN:
                    self.assertEqual(text, (KEPT / f"{name}.svg").read_text(encoding="utf-8"))
                ElementTree.fromstring(text)
                self.assertEqual(ElementTree.fromstring(text).get("width"), "960")

    def test_readers_without_variables(self):
        """A picture alone has plain colours, and no rule that some readers of SVG do not know."""
        for text in kept_pictures().values():
            self.assertNotIn("var(", text)
            self.assertNotIn("white-space", text)

    def test_numbers(self):
        run = small_run()
        self.assertEqual((list(run.cycles), list(run.waits)), ([2 + 1 + 1 + 2 + 16, 7], [2 + 1 + 15, 3]))
        self.assertEqual((list(run.no_q), list(run.no_x), list(run.locked)), ([2, 2], [1, 1], [2, 2]))
        self.assertEqual(list(run.of_transfers), [0, 0])
        self.assertEqual([it.agrees for it in run.checks], [True, True, True, False])  # 22 cycles are above the bound of 20
        plan = pictures.draw_plan(read_plan(LISTED_PLAN), read_services(VERDICT), run).picture()
        for text in ("F0 A0 to A11: read group 1, 12 bits", "F0 A12 to A15: probe: no register", "F10 A12: clear LAM", "graded-L bit 24: no service"):
            self.assertIn(text, plan)
        costs = (KEPT / "costs-call.svg").read_text()
        self.assertIn("at most 20 = 5 ours + 10 waits + 5 promised by procedures, not needed", costs)
        self.assertIn("4 times at most 4 cycles: 16 cycles, 80 % of the bound\nof them 8 waits, 4 promised", costs)
        self.assertIn("15 cycles of auxiliary controllers before the next operation", kept_pictures()["strip-small-missed-0"])

    def test_seams(self):
        """Columns lie edge to edge on whole pixels."""
        run = Run(has_listing=True)
        for at in range(3000):
            run.gl.append(3)
            for column in (run.cycles, run.words):
                column.append(5)
            for column in (run.waits, run.no_q, run.of_transfers, run.no_x, run.locked):
                column.append(at % 2)
        drawn = pictures.draw_run(run, read_services(VERDICT)).picture()
        bars = re.findall(r"M(\S+) \S+v\S+h(\d+)V", re.search(r'<path d="([^"]*)" class="ours crisp"', drawn)[1])
        edges = [(int(x), int(x) + int(wide)) for x, wide in bars]
        self.assertEqual(len(edges), 250)
        self.assertTrue(all(right == left for (_, right), (left, _) in zip(edges, edges[1:])))


@needed("chromium", is_here=CHROMIUM)
class InChromium(laboratory.BenchCase):
    def opened(self, browser, text):
        browser.open(self.write("page.html", text))
        self.assertEqual(browser.said, [])
        self.assertEqual(browser.asked, [f"file://{self.room}/page.html"])

    def test_page(self):
        with Browser() as browser:
            self.opened(browser, report(self.inputs).text)
            widths = "(it => [it.scrollWidth, it.clientWidth])(document.querySelector('#run ~ .wrap'))"
            self.assertEqual(*browser.ask(widths), "the table of the services of a script needs no scrolling")
            self.sort(browser)
            self.bin_below_the_pointer(browser)
            self.theme(browser)
            self.assertEqual(browser.said, [])

    def sort(self, browser):
        """Each click on the head of a column sorts: the greatest first, then the least; services alike keep their order."""
        column = "Array.from(document.querySelector('#services ~ .wrap table').tBodies[0].rows).map(r => [+r.cells[2].dataset.v, +r.cells[0].dataset.v])"
        click = "document.querySelectorAll('#services ~ .wrap th button')[2].click()"
        state = "document.querySelectorAll('#services ~ .wrap th')[2].getAttribute('aria-sort')"
        rows = browser.ask(column)
        self.assertEqual(rows, sorted(rows, key=lambda row: row[1]))
        for way, sign in (("descending", -1), ("ascending", 1), ("descending", -1)):
            browser.ask(click)
            self.assertEqual(browser.ask(column), sorted(browser.ask(column), key=lambda row: sign * row[0]))
            self.assertEqual(browser.ask(state), way)
        browser.ask("document.querySelectorAll('#services ~ .wrap th button')[0].click();document.querySelectorAll('#services ~ .wrap th button')[0].click()")
        browser.ask(click)
        self.assertEqual(browser.ask(column), sorted(rows, key=lambda row: (-row[0], row[1])))

    def bin_below_the_pointer(self, browser):
        """The pointer is over the third bin of the first histogram."""
        browser.ask("window.r=document.querySelector('rect[data-counts]');r.scrollIntoView({block:'center'})")
        place = browser.ask("(b=>[b.left,b.top,b.width,b.height])(r.getBoundingClientRect())")
        first, width = (browser.ask(f"+r.dataset.{it}") for it in ("first", "width"))
        counts = [int(it) for it in browser.ask("r.dataset.counts").split()]
        browser.move_to(place[0] + place[2] * 2.5 / len(counts), place[1] + place[3] / 2)
        low = int(first + 2 * width)
        name = f"{low:,}" if width == 1 else f"{low:,} to {low + int(width) - 1:,}"
        self.assertEqual(browser.ask("document.getElementById('tip').textContent"), f"{name}: {counts[2]:,}")
        browser.move_to(1, 1)
        self.assertEqual(browser.ask("(it=>[it.textContent,it.offsetWidth,it.offsetHeight])(document.getElementById('tip'))"), ["", 0, 0])

    def theme(self, browser):
        """Dark where the reader wants it, and what the button says; light on paper."""

        def ground():
            red, green, blue = map(int, re.findall(r"\d+", browser.ask("getComputedStyle(document.body).backgroundColor"))[:3])
            return f"#{red:02x}{green:02x}{blue:02x}"

        light, dark = svg.COLOURS["ground"]
        for theme, colour, other in (("light", light, dark), ("dark", dark, light)):
            browser.media("", theme)
            self.assertEqual(ground(), colour)
            browser.ask("document.querySelector('.theme').click()")
            self.assertEqual(ground(), other)
            browser.media("print", theme)
            self.assertEqual(ground(), light)
            self.assertEqual(browser.ask("getComputedStyle(document.querySelector('.theme')).display"), "none")
            browser.ask("delete document.documentElement.dataset.theme")

    def test_zoom(self):
        """A drag over a spectrum, by the mouse or a finger, draws the numbers below it, a double click or the button by the keyboard all again."""
        values = [(at * at) % 4096 for at in range(3000)]
        events = self.room / "zoom.events"
        events.write_bytes(NEW_FILE + b"".join(record(camac.Event(at, 3, 2, 0, (it,))) for at, it in enumerate(values, 1)))
        text = "cdlam adc 1 1 5 12\nvar v\nservice adc within 3 cycles event 1 words {\n  cdreg r 1 1 5 0\n  cfsa 0 r -> v\n  put v\n}\n"
        made = report(Inputs("@sample", self.write("zoom.script", text), events), naming=Naming(over=events))
        with Browser() as browser:
            self.opened(browser, made.text)
            browser.ask("window.r=document.querySelector('rect[data-fine]')")
            shown = "[+r.dataset.first,+r.dataset.width,r.dataset.counts]"
            before = browser.ask(shown)

            def zoomed(begin, end, is_touch=False):
                browser.drag("r", begin, end, is_touch)
                first, width, counts = browser.ask(shown)
                wanted = [sum(first + k * width <= it < first + (k + 1) * width for it in values) for k in range(len(counts.split()))]
                self.assertEqual([int(it) for it in counts.split()], wanted)
                self.assertEqual([float(it) for it in browser.ask("r.dataset.line").split()], wanted)
                self.assertEqual(browser.ask("r.ownerSVGElement.querySelectorAll('.zoomed').length"), 1)
                return first, width, first + width * len(wanted)

            first, width, end = zoomed(0.5, 0.25)
            self.assertTrue(width == 8 and abs(first - 1024) < 40 and abs(end - 2048) < 40)
            again = zoomed(0.5, 0.55, True)
            self.assertTrue(again[1] == 1 and first < again[0] and again[2] < end)
            for count in (1, 2):
                browser.drag("r", 0.5, 0.5, count=count)
            self.assertEqual((browser.ask(shown), browser.ask("r.ownerSVGElement.querySelectorAll('.zoomed').length")), (before, 0))
            zoomed(0.1, 0.2)
            browser.ask("document.querySelector('.whole').focus()")
            browser.key("Enter")
            self.assertEqual((browser.ask(shown), browser.ask("document.querySelector('.whole').hidden")), (before, True))
            self.keys(browser, [sum(it // 32 == k for it in values) for k in range(128)])
            self.assertEqual(browser.said, [])

    def keys(self, browser, counts):
        """Arrow keys read a spectrum and other pictures as the pointer does, and mark a part, which Enter shows; the reading is told."""
        tip = "document.getElementById('tip').textContent"
        browser.ask("r.ownerSVGElement.focus()")
        for key, k in (("ArrowRight", 1), ("PageDown", 11), ("ArrowLeft", 10), ("End", 127), ("PageUp", 117), ("Home", 0), ("ArrowRight", 1)):
            browser.key(key)
            self.assertEqual(browser.ask(tip), f"{32 * k:,} to {32 * k + 31:,}: {counts[k]:,}; line {counts[k]}")
        browser.key("PageDown", "ArrowRight", "ArrowLeft", "Enter", shift=True)
        self.assertEqual(browser.ask("[+r.dataset.first,+r.dataset.width,r.dataset.counts.split(' ').length]"), [32, 4, 88])
        self.assertEqual(browser.ask("document.querySelector('[aria-live=polite]').textContent.split(':')[0]"), "32 to 35")
        browser.ask("document.querySelector('#plan ~ .figure svg').focus()")
        tips = browser.ask("Array.from(document.activeElement.querySelectorAll('rect>title')).map(it=>it.textContent)")
        for key, at in (("ArrowRight", 1), ("End", -1), ("ArrowLeft", -2), ("Enter", -2)):
            browser.key(key)
            self.assertEqual(browser.ask(tip), tips[at])
        self.assertTrue(browser.ask("document.activeElement.closest('.full')!==null"))
        browser.ask("document.activeElement.blur()")
        self.assertEqual([browser.ask(tip), browser.ask("document.querySelectorAll('.mark').length")], ["", 0])

    def test_narrow_window(self):
        """Tables and pictures scroll in their places, and a picture's words are large enough to read."""
        with Browser() as browser:
            browser.call("Emulation.setDeviceMetricsOverride", width=400, height=800, deviceScaleFactor=1, mobile=False)
            self.opened(browser, report(self.inputs).text)
            self.assertEqual(browser.ask("document.documentElement.scrollWidth"), 400)
            size = "Math.min(...Array.from(document.querySelectorAll('svg')).map(it=>it.getBoundingClientRect().width/it.width.baseVal.value))"
            self.assertGreaterEqual(browser.ask(size), 0.75)
            self.assertEqual(browser.ask("Array.from(document.querySelectorAll('.panels svg')).filter(it=>it.getBoundingClientRect().right>400).length"), 0)

    def test_logarithmic_counts(self):
        """A click shows the other axis of all spectra."""
        with Browser() as browser:
            self.opened(browser, report(self.inputs).text)
            shown = "['lin','log'].map(it=>Array.from(document.querySelectorAll('svg .'+it)).filter(g=>getComputedStyle(g).display!='none').length)"
            before = browser.ask(shown)
            browser.ask("document.querySelector('.scale').click()")
            self.assertEqual((before[1], browser.ask(shown)), (0, [0, before[0]]))

    @needed("poppler-utils")
    def test_paper(self):
        """No page of paper ends with a heading, none begins with what is said of the picture before, and the lines of calls are open."""
        events = self.room / "paper.events"
        laboratory.call("run", *self.inputs, events)
        headings = "Array.from(document.querySelectorAll('h2,h3,h4,summary')).map(it=>it.textContent)"
        with Browser() as browser:
            self.opened(browser, report(self.inputs).text)
            names = set(browser.ask(headings))
            browser.paper(self.room / "page.pdf")
            self.opened(browser, report(self.inputs._replace(source=events)).text)
            browser.paper(self.room / "events.pdf")
        told = subprocess.run(["pdftotext", self.room / "events.pdf", "-"], capture_output=True, text=True, check=True).stdout
        self.assertRegex(told, r"[^\f]An event file does not show how late")
        pages = subprocess.run(["pdftotext", "-layout", self.room / "page.pdf", "-"], capture_output=True, text=True, check=True).stdout.split("\f")
        self.assertGreater(len(pages), 5)
        for page in pages[:-1]:
            self.assertNotIn([line.strip() for line in page.splitlines() if line.strip()][-1], names)
        self.assertIn("promised by the heading, not needed", "".join(pages))

    def test_harm(self):
        harm = Texts()
        harm.files, harm.inputs, harm.room = self.files, self.inputs, self.room
        with Browser() as browser:
            for text in harm.pages():
                self.opened(browser, text)
                self.assertRegex(browser.ask("document.title"), r"\.script: re(port|fused)$")
                self.assertIsNone(browser.ask("document.querySelector('img,main script,svg script')"))

    def test_pictures(self):
        with Browser() as browser:
            for name, text in kept_pictures().items():
                browser.open(self.write(f"{name}.svg", text))
                self.assertEqual(browser.said, [], name)
                self.assertEqual(browser.ask("document.documentElement.getAttribute('width')"), "960")

    def test_labels_stay_inside(self):
        """No text of a picture begins left of it or ends right of it."""
        plan = self.write("largest.toml", laboratory.largest_plan())
        script = self.write("largest.script", laboratory.largest_script())
        answers = self.write("largest.answers", laboratory.random_answers(20_000, [1 << bit for bit in range(24)]))
        outside = "Array.from(document.querySelectorAll('svg text')).filter(t=>{const b=t.getBBox(),m=t.getAttribute('transform');"
        outside += "return !m&&(b.x<-1||b.x+b.width>t.ownerSVGElement.width.baseVal.value+1)}).map(t=>t.textContent)"
        with Browser() as browser:
            for inputs in (self.inputs, Inputs(plan, script, answers)):
                self.opened(browser, report(inputs).text)
                self.assertEqual(browser.ask(outside), [])
            many = Spectrum(8)
            many.add_all([5] * 99_999)
            self.opened(browser, f"<style>{svg.page_style()}</style>" + draw_panel(Shown("adc", "", many, "ours", "words")).figure())
            self.assertEqual((browser.ask("document.querySelector('.lin .r:last-of-type').textContent"), browser.ask(outside)), ("99,999", []))


def keep():
    KEPT.mkdir(exist_ok=True)
    for path in KEPT.glob("*.svg"):
        path.unlink()
    drawn = kept_pictures()
    OTHERS.write_text(page_of_others(drawn), encoding="utf-8")
    for name in SHOWN:
        (KEPT / f"{name}.svg").write_text(drawn[name], encoding="utf-8")


if __name__ == "__main__":
    if sys.argv[1:] == ["--keep"]:
        sys.exit(keep())
    run_tests()
