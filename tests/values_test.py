#!/usr/bin/env python3
"""Tests of the Python package on the program's texts, and of the tables and lists that it makes of them.

usage: tests/values_test.py [-v] [TEST ..]     from any folder; takes a few seconds
"""
import collections
import csv
import io
import os
import random
import re
import statistics
import unittest

from support.live import PROGRAM, TOP, Case, run_tests
import camac
from support import two_crates
from support.rows import ROWS
from camac import Cycle, Demand, Ending, Lock, Move, RunEnd, Unlock, bodies, explanations, printed, program
from camac.commands.annotate import annotate
from camac.histograms import Bins, Pairs, Series, Spectrum
from camac.printed import read_headings, read_plan, read_services
from camac.program import knows_command, lines_of, version
from camac.arrays import groups
from camac.commands.csv import write_listing
from camac.runs import transfer_commands
from camac.values import BodyKind, Command, Cost, Declaration, Station

COMMANDS = """\
buffer 4096
type ADC commands 20 probes 4
command f 0 a 0 to 11 width 12
command f 0 a 12 to 15 probe
command f 8 a 12
type REG commands 4 probes 0
crate 1 waits 2
station 5 ADC gl 3
station 6 REG gl -
crate 7 waits 0
"""
COSTS = """\
proc read line 4 cycles 3 of 4 words 1 of 1 steps 3 of 8
line 6 depth 1 cfsa times 1 cycles 3 words 0 steps 3 share 3 1 3 at 1 5 0..15
service adc line 9 gl 3 at 1 5 12 cycles 20 of 24 words 5 of 5 steps 50
line 10 depth 1 for times 1 cycles 16 words 4 steps 41 share 0 0 5 turns 4
line 11 depth 2 call times 4 cycles 4 words 1 steps 9 share 16 4 36 proc read
line 12 depth 1 lock times 1 cycles 3 words 0 steps 2 share 3 0 2 crate 1
line 13 depth 1 cfmad times 1 cycles 9 words 3 steps 4 share 9 3 4 at 1 5 0 to 1 7 15
line 14 depth 1 if times 0 cycles 0 words 0 steps 0 share 0 0 0
line 14 depth 1 else times 0 cycles 0 words 0 steps 0 share 0 0 0
"""
LISTING = """\
demand 000004 adc
lock 1 wait 2
cycle 1 5 0 0 in 123fff x1 q1 wait 0
unlock 1
cycle 7 23 15 16 out 0000ff x0 q0 wait 15
cycle 1 28 8 26 none x1 q0 wait 3
demand 000000 -
"""


def setUpModule():
    os.environ["CAMAC_PROGRAM"] = PROGRAM


class Values(Case):
    def test_plan(self):
        plan = read_plan(COMMANDS)
        self.assertEqual((plan.buffer, [crate.number for crate in plan.crates], plan.crates[0].waits), (4096, [1, 7], 2))
        self.assertEqual(plan.crates[0].stations, (Station(5, "ADC", 3), Station(6, "REG", None)))
        wanted = (Declaration(0, 0, 11, 12, False), Declaration(0, 12, 15, None, True), Declaration(8, 12, 12, None, False))
        self.assertEqual(plan.types["ADC"].declarations, wanted)
        self.assertEqual([plan.width(*at) for at in ((1, 5, 11, 0), (1, 5, 12, 0), (1, 6, 0, 0), (2, 5, 0, 0))], [12, 24, 24, 24])
        self.assertEqual([(gl, crate.number, it.number) for gl, crate, it in plan.demands()], [(3, 1, 5)])
        plain = read_plan("".join(line for line in COMMANDS.splitlines(True) if not line.startswith("command")))
        self.assertEqual((plain.types["ADC"].commands, plain.types["ADC"].probes, plain.types["ADC"].declarations), (20, 4, ()))
        self.assertEqual(read_plan("buffer 4096\n").crates, ())

    def test_sample_plan(self):
        self.assertEqual((TOP / "python/camac/sample_plan.toml").read_text(), (TOP / "examples/sample_plan.toml").read_text())
        plan = camac.plan("@sample")
        self.assertEqual(plan.crates[0].stations, (Station(5, "ADC", 3), Station(6, "REG", None)))
        self.assertEqual({name: it.commands for name, it in plan.types.items()}, {"ADC": 20, "REG": 4})

    def test_verdict_and_bounds(self):
        services = camac.check("@sample", TOP / "examples/straight_line.script")
        self.assertEqual(services, [camac.Service("adc", 3, 6, 6, 1, 1, 4)])
        self.assertEqual(read_services("accepted\n"), [])
        headings = camac.bounds("@sample", TOP / "examples/too_few_cycles.script")
        line = "service adc within 6 cycles event 1 words"
        self.assertEqual(headings, [camac.Heading("adc", True, 6, 1, None, line)])
        line = "proc read(channel in 0..15, b in 1..2) within 3 cycles event 1 words steps 3"
        self.assertEqual(read_headings(line + "\n"), [camac.Heading("read", False, 3, 1, 3, line)])

    def test_costs(self):
        read, adc = bodies.parse_costs(COSTS)
        self.assertEqual((read.kind, read.name, read.line, read.most, read.annotated), (BodyKind.PROCEDURE, "read", 4, Cost(3, 1, 3), (4, 1, 8)))
        self.assertEqual((adc.kind, adc.gl, adc.most, adc.annotated), (BodyKind.SERVICE, 3, Cost(20, 5, 50), (24, 5, None)))
        self.assertEqual([row.word for row in adc.rows], ["for", "call", "lock", "cfmad", "if", "else"])
        self.assertEqual([row.about for row in adc.rows], ["turns 4", "proc read", "crate 1", "at 1 5 0 to 1 7 15", "", ""])
        # Two of the three cycles of the read may be waited for; a call costs 4 and needs 3; a lock is waited for; a scan of 3 costs 9.
        self.assertEqual([(row.waits, row.slack) for row in read.rows], [(2, 0)])
        self.assertEqual([(row.waits, row.slack) for row in adc.rows], [(0, 0), (8, 4), (3, 0), (6, 0), (0, 0), (0, 0)])

    def test_costs_of_the_program(self):
        read, adc = camac.costs("@sample", TOP / "examples/procedure.script")
        self.assertEqual((read.most.cycles, read.waits(), adc.most.cycles, adc.waits(), adc.slack()), (3, 2, 23, 12, 5))

    def test_listing(self):
        wanted = [
            Demand(4, "adc"),
            Lock(1, 2),
            Cycle(Command(1, 5, 0, 0), Move.IN, 0x123FFF, 1, 1, 0),
            Unlock(1),
            Cycle(Command(7, 23, 15, 16), Move.OUT, 255, 0, 0, 15),
            Cycle(Command(1, 28, 8, 26), Move.NONE, 0, 1, 0, 3),
            Demand(0, None),
        ]
        for last, end in [
            ("ended events 1", RunEnd(Ending.ENDED, "ended events 1", 1)),
            ("short events 2", RunEnd(Ending.SHORT, "short events 2", 2)),
            ("overrun 1 wait 3 events 2", RunEnd(Ending.OVERRUN, "overrun 1 wait 3 events 2", 2, 1, 3)),
            ("refused A1 line 7: line shape", RunEnd(Ending.REFUSED, "refused A1 line 7: line shape")),
        ]:
            self.assertEqual(list(camac.parse_listing((LISTING + last).splitlines(True))), [*wanted, end])

    def test_what_is_no_line_of_a_listing(self):
        good = ["cycle 1 5 0 0 in 123fff x1 q1 wait 0", "cycle 1 30 15 31 none x0 q0 wait 15", "cycle 7 28 8 23 out 00000f x1 q0 wait 10"]
        self.assertEqual(len(list(camac.parse_listing([*good, "demand 00000f a_Z9", "lock 7 wait 15", "unlock 1", "ended events 10\n"]))), 7)
        wrong = ["", "demand", "demand 00000F adc", "demand 000004 9", "demand 000004 \xe9t\xe9", "lock 1", "lock 1 wait 16", "unlock 0"]
        wrong += ["ended events 01", "overrun 1 wait 16 events 0", "hello", "\udc80", "x", " x", "none x1 q1 wait 0", "demand 000004 adc x1 q1 wait 0"]
        for old, new in [
            *((" in 123fff", it) for it in (" in +12345", " in 12_345", " in 12345", " in 1234567", " in 123FFF", " in12345f", "", " none", " out 123fff")),
            *((" in 123fff", it) for it in (" in \u0661\u0662\u0663\u0664\u0665\u0666", " in\t123fff", " none 123fff", " in 123fff none")),
            *(("1 5 0 0", it) for it in ("8 5 0 0", "1 0 0 0", "1 24 0 0", "1 29 0 0", "1 05 0 0", "1 5 16 0", "1 5 0 32", "1 5 0 8", "1 \u0665 0 0")),
            *(("x1 q1 wait 0", it) for it in ("x2 q1 wait 0", "x1", "x1 q1 wait 16", "x1 q1 wait 00", "x1 q1 wait 0 ", "x1 q1 wait \u0660")),
        ]:
            wrong.append(good[0].replace(old, new))
        for line in wrong:
            with self.subTest(line), self.assertRaisesRegex(ValueError, "^line 2 is no line of a listing: "):
                list(camac.parse_listing(["unlock 1", line]))
        with self.assertRaises(ValueError) as raised:
            list(camac.parse_listing(["x" * 100_000]))
        self.assertEqual(str(raised.exception), f"line 1 is no line of a listing: '{'x' * 80}..'")

    def test_run(self):
        answers = self.write("answers", "0 0 000000 0 000004\n1 1 123fff 2 000000\n1 1 000000 1 000000\n")
        words = ["@sample", TOP / "examples/straight_line.script", answers, self.room / "events"]
        cycles = Cycle(Command(1, 5, 0, 0), Move.IN, 0x123FFF, 1, 1, 2), Cycle(Command(1, 5, 12, 10), Move.NONE, 0, 1, 1, 1)
        wanted = [Demand(4, "adc"), *cycles, RunEnd(Ending.ENDED, "ended events 1", 1)]
        self.assertEqual(list(camac.run(*words)), wanted)
        self.assertEqual([event.words for event in camac.read_events(words[3])], [(0xFFF,)])
        begun = camac.run(*words)
        self.assertEqual(next(begun), wanted[0])
        begun.close()

    def test_refusals_and_faults(self):
        bad = self.write("bad.script", "service service\n")
        good = TOP / "examples/straight_line.script"
        for call in (camac.check, camac.bounds):
            with self.assertRaises(camac.Refused) as raised:
                call("@sample", bad)
            self.assertEqual((str(raised.exception), raised.exception.code, raised.exception.line), ("refused S2 line 1: unexpected token", "S2", 1))
            with self.assertRaises(camac.ProgramFault) as raised:
                call("@sample", self.room / "none")
            self.assertEqual((raised.exception.text, raised.exception.status), (f"fault read\n  {self.room / 'none'}: No such file or directory", 3))
        with self.assertRaises(camac.Refused):
            list(camac.run("@sample", bad, bad, self.room / "events"))
        with self.assertRaises(camac.ProgramFault):
            list(camac.run("@sample", good, self.room / "none", self.room / "events"))
        with self.assertRaises(camac.UsageFault):
            list(lines_of("no-command"))
        with self.assertRaises(FileNotFoundError):
            camac.plan("@sample", program=self.room / "none")
        self.assertRegex(version(), r"^camac \d+\.\d+\.\d+$")
        self.assertEqual([knows_command(it) for it in ("check", "events", "Commands", "chec")], [True, True, False, False])


def head_of(it):
    """The line of a refusal."""
    place = "".join(f" {name} {number}" for name, number in (("line", it.line), ("column", it.column)) if number is not None)
    return f"refused {it.code}{place}: {it.rule}"


class Printed(Case):
    """The reader against the program's own text: what it prints in the worked rows, and its sentences."""

    def test_each_line_of_the_rows(self):
        readers = {"plan": printed.read_plan, "check": read_services, "bounds": read_headings, "costs": bodies.parse_costs, "response": printed.read_responses}
        readers["tell"] = lambda text: (read_services(text), bodies.parse_costs(printed.costs_in(text)))
        known, read = re.compile(r"(not )?reached(\n\w+( \d+(\.\.\d+)?){1,3}|\nlock \d)*\n"), collections.Counter()
        for row in (case for rows in ROWS.values() for cases in rows.values() for case in cases):
            text, command = row.printed.decode(), row.command.partition(" ")[0]
            lines = text.splitlines()
            if printed.is_refused(text):
                found = explanations.read_explanations(text)
                self.assertEqual(lines, [one for it in found for one in (head_of(it.refusal), *it.lines)])
                for it in found:
                    told = [*[it.sentence] * bool(it.sentence), *it.advice]
                    shown = it.lines[: len(it.lines) - len(told)]
                    parts = [one.partition(": ")[0] for one in it.advice if not one.startswith(("Turn: ", "Set: ", "Plan: ", "Waits: ", "also refused "))]
                    whole = ["Why", "Fix", "More"] if row.command in ("explain", "explain --bounds", "tell") else []
                    # A hint of a text's fault is its fix.
                    self.assertIn(parts, (whole, whole[it.refusal.code[0] == "S" :]))
                    self.assertEqual(it.lines, (*shown, *told))
                    self.assertEqual(len(shown), 0 if "P" in it.refusal.code or not told else 2)
                command = "refused"
            elif command == "run":
                self.assertEqual(len(list(camac.parse_listing(lines))), len(lines))
            elif command == "drive":
                self.assertEqual([it for it in lines if not printed.read_request(it.encode())], lines[-1:])
                self.assertTrue(printed.read_end(lines[-1]))
            elif "--at" in row.command:
                self.assertEqual(printed.is_known(text), not row.status)
                self.assertTrue(row.status or known.fullmatch(text), text)
            elif command != "explain":
                readers[command](text)
            read[command] += 1
        self.assertEqual({*readers, "refused", "run", "drive", "explain"}, {*read})

    def test_each_sentence(self):
        head = "cdlam adc 1 1 5 12\nvar v w\n"
        begun = head + "service adc within 3 cycles event 1 words {\n"
        for script, read, wanted in (
            ("cdlam adc 1 1 5 12\nservcie adc within 3 cycles event 1 words { }", explanations.NEAR.find, explanations.Near("service", None)),
            (head + "servcie acd within 3 cycles", explanations.NEAR.find, explanations.Near("service", "servcie")),
            (begun + "v = w", explanations.read_expected, ["a statement", "an operator", "`}`"]),
            (begun + "put u", explanations.NOT_DECLARED.find, {"kind": "variable"}),
            (begun + "put 1 put 2\n}\n", explanations.read_allowed, ("event", 2)),
            (begun + "while v > 0 turns 70000 by v { v = v - 1 }\n}\n", explanations.read_allowed, ("turns", 65_535)),
            (begun + "v = 9 while v > 0 turns 3 by v { v = v - 1 }\n}\n", explanations.read_allowed, ("turns", 9)),
        ):
            told = program.verdict("explain", "@sample", script.encode())
            self.assertEqual(read(told.text), wanted, told.text)


class Histograms(unittest.TestCase):
    def test_few_values(self):
        few = Spectrum(8)
        self.assertEqual((few.bins(), few.mean(), few.rms(), few.least, few.peak()), (Bins(0, 1, [0] * 8), 0.0, 0.0, None, None))
        for value in (5, 7, 5, 8):
            few.add_all([value])
        self.assertEqual((few.bins(), few.count, few.integral(), few.overflow, few.peak()), (Bins(0, 1, [0, 0, 0, 0, 0, 2, 0, 1]), 4, 3, 1, 5))
        self.assertEqual((few.mean(), few.least, few.greatest), (25 / 4, 5, 8))
        self.assertAlmostEqual(few.rms(), statistics.pstdev([5, 7, 5, 8]))

    def test_bins(self):
        """Whatever comes, one number after another or many at once, the bins hold what a count by hand gives."""
        chance = random.Random(1)
        for end in (None, 1, 44, 128, 129, 4096, 1 << 24):
            for greatest in (1, 127, 128, 4095, 0xFFFFFF):
                values = [chance.randint(0, greatest) for _ in range(300)]
                spectrum, one_by_one = Spectrum(end), Spectrum(end)
                spectrum.add_all(values[:100])
                spectrum.add_all(values[100:])
                for value in values:
                    one_by_one.add_all([value])
                first, width, counts = spectrum.bins()
                self.assertEqual((first, one_by_one.bins()), (0, (0, width, counts)))
                self.assertEqual(width, max(1, (spectrum.end if end is None else 1 << (end - 1).bit_length()) >> 16))
                self.assertEqual(width & (width - 1), 0)
                last = max(values) if end is None else end - 1
                for low, most in ((0, None), (0, 128), (100, 7)):
                    bins = spectrum.bins(low, most=most) if low < spectrum.end else Bins(low, 1, [])
                    self.assertTrue(most is None or len(bins.counts) <= most)
                    wanted = collections.Counter((value // width * width - low) // bins.width for value in values if low <= value // width * width and value <= last)
                    self.assertEqual(bins.counts, [wanted[at] for at in range(len(bins.counts))])
                self.assertEqual((sum(counts), spectrum.overflow), (spectrum.integral(), sum(value > last for value in values)))
                most = collections.Counter(value // width * width for value in values if value <= last).most_common()
                self.assertEqual(spectrum.peak(), min((at for at, count in most if count == most[0][1]), default=None))

    def test_series(self):
        """A counter is what its caller says is one, and rises through its last number; what only rises else is values."""
        for full, wanted in ((None, {0: 100, 2: 150, 3: 170, 5: 30}), (200, {2: 50, 3: 20, 5: 60})):
            series = Series(full)
            series.add_all([1, 3], [100, 150])
            series.add_all([4, 6], [170, 30])
            self.assertEqual((series.means(), series.mean()), (wanted, sum(wanted.values()) / len(wanted)))
        series = Series(1 << 24)
        numbers = list(range(1, 1001))
        series.add_all(numbers, [7 * number for number in numbers])
        self.assertEqual((series.per, set(series.means().values())), (8, {7.0}))

    def test_pairs(self):
        for most, shifts in ((64, (6, 11)), (100, (6, 11)), (512, (3, 8)), (9999, (3, 8))):
            self.pairs(Pairs(4096, None, most=most), *shifts)

    def pairs(self, histogram, *shifts):
        chance = random.Random(2)
        pairs = [(chance.randint(0, 4095), chance.randint(0, 99_999)) for _ in range(500)]
        for some in (pairs[:1], pairs[1:]):
            histogram.add_all(*zip(*some))
        self.assertEqual((histogram.ends, histogram.count), ([4096, 1 << 17], 500))
        wanted = collections.Counter((across >> shifts[0], up >> shifts[1]) for across, up in pairs)
        self.assertEqual(histogram.cells, wanted)


class Transfers(unittest.TestCase):
    def test_commands(self):
        """Those of transfers alone: not what a single cycle sends, too; a scan over two stations has all sub-addresses between its ends."""
        script = (
            "cdlam adc 1 1 5 12\nvar t v\nservice adc within 0 cycles event 0 words {\n  cdreg r 1 1 5 14  cdreg s 1 1 6 1  cdreg w 1 2 3 4\n"
            "  cfmad 2 r s max 5 tally t\n  cfubc 0 w max 9 tally t\n  cfsa 0 w -> v  cfubr 0 r max 2 limit 6 tally t\n  cfubr 1\n    w max 2 limit 6 tally t\n}\n"
        )
        printed = (
            "service adc line 3 gl 3 at 1 5 12 cycles 0 of 0 words 0 of 0 steps 9\n" + 3 * "line 4 depth 1 cdreg times 1 cycles 0 words 0 steps 1 share 0 0 1\n" +
            "line 5 depth 1 cfmad times 1 cycles 9 words 5 steps 9 share 9 5 9 at 1 5 14 to 1 6 1\n"
            "line 6 depth 1 cfubc times 1 cycles 9 words 9 steps 9 share 9 9 9 at 2 3 4\n"
            "line 7 depth 1 cfsa times 1 cycles 1 words 0 steps 1 share 1 0 1 at 2 3 4\n"
            "line 7 depth 1 cfubr times 1 cycles 6 words 2 steps 6 share 6 2 6 at 1 5..6 14\n"
            "line 8 depth 1 cfubr times 1 cycles 6 words 2 steps 6 share 6 2 6 at 2 3 4\n"
        )
        found = transfer_commands(bodies.parse_costs(printed), script.encode())
        wanted = [(1, 5, 14, 2), (1, 5, 15, 2), (1, 6, 0, 2), (1, 6, 1, 2), (1, 5, 14, 0), (1, 6, 14, 0), (2, 3, 4, 1)]
        self.assertEqual(found, {Command(*it) for it in wanted})


class Columns(unittest.TestCase):
    def test_many_events_at_once(self):
        """What `numbers` gives of many events is what `values` gives of each."""
        chance = random.Random(3)
        events = [camac.Event(at, chance.choice((3, 5, 9)), 9, 0, tuple(chance.getrandbits(24) for _ in range(chance.randint(0, 14)))) for at in range(1, 400)]
        for names in (two_crates.WORDS, camac.Words([camac.Field("a", 3, places=(2, 3), kind="value"), camac.Field("b", 3, bits=(3, 7), count=4), camac.Field("c", 9, of="place", places=(1, 4))])):
            wanted = collections.defaultdict(collections.Counter)
            for event in events:
                for value in names.values(event):
                    wanted[value.column][event.number if value.column.field.kind != "spectrum" else 0, value.number] += 1
            found = collections.defaultdict(collections.Counter)
            for column, numbers, values in names.numbers(groups(events, 1)):
                found[column].update(zip(numbers or [0] * len(values), values))
            self.assertEqual({it: sum(found[it].values()) for it in found}, {it: sum(wanted[it].values()) for it in wanted})
            self.assertEqual(found, wanted)


class Tables(Case):
    def test_listing(self):
        out = io.StringIO()
        write_listing((LISTING + "ended events 1\n").splitlines(True), out)
        rows = list(csv.DictReader(io.StringIO(out.getvalue())))
        self.assertEqual([row["operation"] for row in rows], ["demand", "lock", "cycle", "unlock", "cycle", "cycle", "demand"])
        self.assertEqual([row["service"] for row in rows], ["adc"] * 6 + [""])
        read = {"number": "3", "operation": "cycle", "service": "adc", "pattern": "", "crate": "1", "station": "5", "sub_address": "0"}
        self.assertEqual(rows[2], {**read, "function": "0", "move": "in", "word": str(0x123FFF), "x": "1", "q": "1", "wait": "0"})
        self.assertEqual((rows[5]["word"], rows[1]["wait"], rows[0]["pattern"]), ("", "2", "4"))

    def test_annotate(self):
        script = self.write("a.script", "cdlam adc 1 1 5 12\nvar v\nservice adc within 5 cycles event 0 words { lock 1 { cdreg r 1 1 5 0 cfsa 0 r -> v } }\n")
        lines = ["0 0 000000 0 000004", "0 0 000000 2 000000", "1 1 123fff 0 000000", "0 0 000000 0 000000"]
        answers = self.write("answers", "\n".join(lines) + "\n")
        self.assertEqual(
            [line for line, _ in annotate("@sample", script, answers)],
            [
                "      1  0 0 000000 0 000004  demand 000004 adc   (service 1)",
                "      2  0 0 000000 2 000000    lock 1 wait 2",
                "      3  1 1 123fff 0 000000    cycle 1 5 0 0 in 123fff x1 q1 wait 0",
                "         no answer              unlock 1",
                "      4  0 0 000000 0 000000  demand 000000 -",
                "                              ended events 1",
                "         the plan does not describe crate 1 station 5: 1 word above 12 bits",
            ],
        )
        overrun = self.write("overrun", "0 0 000000 0 000004\n0 0 000000 3 000000\n\n\n")
        self.assertEqual(
            [line for line, _ in annotate("@sample", script, overrun)][1:],
            ["      2  0 0 000000 3 000000  overrun 1 wait 3 events 0", "         2 answer lines were not used; the next is line 3"],
        )
        bad = self.write("bad", "0 0 000000 0 000004\n1 1\n1 1 000000 0 000000\n")
        self.assertEqual(
            [line for line, _ in annotate("@sample", script, bad)][1:],
            ["      2  1 1                  refused A1 line 2: line shape", "         1 answer line was not used; the next is line 3"],
        )
        with self.assertRaises(camac.Refused):
            list(annotate("@sample", answers, answers))


if __name__ == "__main__":
    run_tests()
