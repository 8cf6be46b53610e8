#!/usr/bin/env python3
"""Tests of how late services are said to be: the lines of `camac response`, the picture, and the part of the report.

usage: tests/late_test.py [-v] [TEST ..]     from any folder; takes a few seconds
"""
import os
import random
import re
import unittest
import xml.etree.ElementTree as ElementTree
from unittest import mock

from support.live import PROGRAM, TOP, command, run_tests
from support import laboratory
import camac
from support import two_crates
from camac import Harm, Response, Unkept
from camac import pictures
from camac.contradictions import Broken
from camac.pictures.response import NO_NUMBER, pieces_of
from camac.printed import read_responses
from camac.report import report

VETO, STRIP, SPILL, SLOW = read_responses(two_crates.RESPONSE)
# What is said of a script in which tick hides the look-at-me of adc, and does not clear its own.
NONE_KEPT = """service adc gl 3 cycles 43 once start - end - longest -
service tick gl 5 cycles 26 once start - end - longest - clears 2
unkept adc line 30: hidden by tick
unkept tick line 28: does not clear its look-at-me
unkept tick line 7: cleared by adc
"""
HIDDEN = Unkept("adc", 30, Harm.HIDDEN, "tick")


class Service:
    """A service of which the answers in time are sought by their definition: a bit, a bound, and a rate or None."""

    def __init__(self, gl, cycles, every):
        self.gl, self.cycles, self.every = gl, cycles, every

    def calls(self, elapsed):
        return 1 if self.every is None else elapsed // self.every + 1

    def response(self, all_of_them):
        first = max((it.cycles for it in all_of_them if it.gl > self.gl), default=0)

        def least(calls, bits):
            """The least number that still serves, or None above a limit."""
            e = 0
            while e < 100_000:
                wanted = first + calls * self.cycles + sum(it.calls(e) * it.cycles for it in all_of_them if it.gl in bits)
                if wanted == e:
                    return e
                e = wanted
            return None

        longest = least(0, range(self.gl + 1))
        if longest is None:
            return Response(f"s{self.gl}", self.gl, self.cycles, self.every, None, None, None)
        starts = [least(call, range(self.gl)) - call * (self.every or 0) for call in range(self.calls(longest))]
        return Response(f"s{self.gl}", self.gl, self.cycles, self.every, max(starts), max(starts) + self.cycles, longest)


def chosen(chance):
    """The responses of one to five services of small numbers."""
    services = [Service(gl, chance.randrange(9), chance.choice([None, chance.randrange(1, 60)])) for gl in sorted(chance.sample(range(1, 25), chance.randrange(1, 6)))]
    return [it.response(services) for it in services]


def ends_of(responses, operations):
    """By bit, how late each of its services ended, and None if a rate was broken before in its stretch; and the first that broke one
    (bit, call, cycles). Each is found anew from the whole run."""
    of, found = {it.gl: it for it in responses}, {it.gl: ([], []) for it in responses}
    for last, (gl, cycles) in enumerate(operations):
        for bit in of:
            if not 0 < gl <= bit:
                continue
            begin = last
            while begin and 0 < operations[begin - 1][0] <= bit:
                begin -= 1
            elapsed = [sum(it for _, it in operations[max(begin - 1, 0) : at]) for at in range(begin, last + 1)]
            bits = [it for it, _ in operations[begin : last + 1]]
            calls = [bits[: at + 1].count(it) for at, it in enumerate(bits)]
            is_kept = [call <= of[it].calls(e) for it, call, e in zip(bits, calls, elapsed)]
            if not is_kept[-1]:
                found[bit][1].append((gl, calls[-1], elapsed[-1]))
            if gl == bit:
                late = elapsed[-1] + cycles - (calls[-1] - 1) * (of[gl].every or 0)
                found[bit][0].append(late if all(is_kept) else None)
    return found


class Lines(unittest.TestCase):
    def test_forms(self):
        self.assertEqual(VETO, Response("veto", 1, 5, 15, 7, 12, 12))
        self.assertEqual(SLOW, Response("slow", 12, 7, 60, None, None, None))
        within = "service reg gl 7 cycles 6 once start 3 end 9 of 10 longest 12 clears 2\nservice adc gl 3 cycles 3 every 3 start - end - of 10 longest -\n"
        self.assertEqual(read_responses(within), [Response("reg", 7, 6, None, 3, 9, 12, (), True), Response("adc", 3, 3, 3, None, None, None)])
        self.assertEqual(read_responses(""), [])
        for line in ("service adc gl 3 cycles 3 start 3 end 9 longest 12", "refused E12 line 3: more cycles than annotated"):
            with self.assertRaises(ValueError):
                read_responses(line)
        self.assertEqual([VETO.calls(it) for it in (0, 14, 15, 30)], [1, 1, 2, 3])
        self.assertEqual(read_responses(within)[0].calls(1_000), 1)

    def test_unkept(self):
        """What a script does to look-at-mes is with the services whose they are."""
        adc, tick = read_responses(NONE_KEPT)
        self.assertEqual((adc, tick[:7]), (Response("adc", 3, 43, None, None, None, None, (HIDDEN,)), ("tick", 5, 26, None, None, None, None)))
        self.assertEqual(tick.unkept, (Unkept("tick", 28, Harm.LEFT, None), Unkept("tick", 7, Harm.CLEARED, "adc")))
        for line in ("unkept adc line 3: forgotten by tick", "unkept adc: hidden by tick"):
            with self.assertRaises(ValueError):
                read_responses(line)

    def test_program(self):
        """A service alone begins at once; and faults of the rates."""
        words = ("@sample", TOP / "examples/straight_line.script")
        with mock.patch.dict(os.environ, CAMAC_PROGRAM=PROGRAM):
            self.assertEqual(camac.response(*words), [Response("adc", 3, 6, None, 0, 6, 6)])
            self.assertEqual(camac.response(*words, {"adc": 7}), [Response("adc", 3, 6, 7, 0, 6, 6)])
            self.assertEqual(camac.response(*words, {"adc": 6}), [Response("adc", 3, 6, 6, None, None, None)])
            for every in ({"nobody": 4}, {"adc": 0}, {"--": 4}, {"": 4}):
                with self.assertRaises(camac.UsageFault):
                    camac.response(*words, every)


class Pieces(unittest.TestCase):
    """What the end of a service consists of."""

    def test_by_hand(self):
        responses = (VETO, STRIP, SPILL, SLOW)
        wanted = {
            VETO: [("slack", 7, "7 (spill, in progress)"), ("ours", 5, "5 (its own)")],
            # Before its second look-at-me, at 6, came 7 of spill, 3 of strip, 5 of veto: 9 of these 15 are left. Veto comes again at 15.
            STRIP: [("slack", 9, "9 (left from before, at call 2)"), ("waits", 5, "5 (veto)"), ("ours", 3, "3 (its own)")],
            SPILL: [("slack", 7, "7 (slow, in progress)"), ("waits", 20, "4 × 5 (veto)"), ("waits", 30, "10 × 3 (strip)"), ("ours", 7, "7 (its own)")],
        }
        for it, pieces in wanted.items():
            self.assertEqual([(piece.kind, piece.cycles, piece.term) for piece in pieces_of(it, responses)], pieces)
        tip = pieces_of(STRIP, responses)[0].tip
        self.assertEqual(tip, "Call 2 of a stretch ends latest. Before its look-at-me came 15 cycles:\n7 (spill) + 3 (strip) + 5 (veto)\nof which 6 have passed: 1 period of 6")

    def test_sums(self):
        """The pieces add up to the end, whichever call is the latest."""
        chance, later = random.Random(4), 0
        for _ in range(600):
            responses = chosen(chance)
            for response in responses:
                if response.end is not None:
                    pieces = pieces_of(response, responses)
                    self.assertEqual((sum(piece.cycles for piece in pieces), min([1, *(piece.cycles for piece in pieces)])), (response.end, 1))
                    later += any("left from before" in piece.term for piece in pieces)
        self.assertGreater(later, 0)

    def test_numbers_that_do_not_agree(self):
        with self.assertRaises(ValueError):
            pieces_of(STRIP._replace(start=15, end=18), (VETO, STRIP, SPILL, SLOW))


class Watched(unittest.TestCase):
    def test_by_hand(self):
        """Veto may call again after 15 cycles, strip after 6."""
        responses = (VETO, STRIP, SPILL)
        for operations, seen in [
            ([], {1: (0, 0, 0), 4: (0, 0, 0), 9: (0, 0, 0)}),
            ([(4, 3)], {1: (0, 0, 0), 4: (1, 3, 0), 9: (0, 0, 0)}),
            # Spill was in progress: 7 and 3 for strip, whose second look-at-me came 6 later, and which ends at 18.
            ([(9, 7), (4, 3), (1, 5), (4, 3)], {1: (1, 8, 0), 4: (2, 12, 0), 9: (1, 7, 0)}),
            # An operation that called nobody ends all stretches.
            ([(9, 7), (0, 0), (4, 2), (0, 0), (4, 3)], {1: (0, 0, 0), 4: (2, 3, 0), 9: (1, 7, 0)}),
            # Strip calls again after 3 cycles. A stretch of veto knows nothing of it, one of spill does.
            ([(4, 3), (4, 3), (1, 5), (9, 7)], {1: (1, 8, 0), 4: (1, 3, 1), 9: (0, 0, 1)}),
        ]:
            run = two_crates.run_of(responses, operations)
            self.assertEqual({gl: (it.count, it.most, it.left_out) for gl, it in run.late.items()}, seen)
            self.assertTrue(run.agrees())
        self.assertEqual([run.late[gl].broken for gl in (1, 4, 9)], [None, Broken("strip", 2, 3, 2), Broken("strip", 2, 3, 2)])

    def test_unfinished(self):
        """A service that did not come to its end is none."""
        lines = ["demand 000001 veto", "cycle 1 5 0 9 none x1 q1 wait 0", "demand 000008 strip", "cycle 1 5 0 9 none x1 q1 wait 0", "short events 1"]
        verdict = "accepted\nservice veto gl 1 cycles 5 of 9 words 0 of 0 steps 9\nservice strip gl 4 cycles 3 of 9 words 0 of 0 steps 9\n"
        run = two_crates.collected(two_crates.PLAN, verdict, lines, [camac.Event(1, 1, 1, 0, ())], (VETO, STRIP))
        self.assertEqual([(run.late[gl].count, run.late[gl].most) for gl in (1, 4)], [(1, 1), (0, 0)])

    def test_random_runs(self):
        """The numbers are those of the definition, and no end is above its bound while the rates are kept; some reach it."""
        chance, reached = random.Random(9), 0
        for _ in range(300):
            responses = chosen(chance)
            bounds = {0: 0, **{it.gl: it.cycles for it in responses}}
            operations = [(gl, bounds[gl] if chance.random() < 0.8 else chance.randint(0, bounds[gl])) for gl in chance.choices(list(bounds), k=25)]
            run = two_crates.run_of(responses, operations)
            for response in responses:
                ends, broken = ends_of(responses, operations)[response.gl]
                kept, late = [end for end in ends if end is not None], run.late[response.gl]
                self.assertEqual((late.count, late.most, late.left_out), (len(kept), max(kept, default=0), len(ends) - len(kept)))
                first = late.broken and (late.broken.name, late.broken.call, late.broken.elapsed)
                self.assertEqual(first, (f"s{broken[0][0]}", *broken[0][1:]) if broken else None)
                self.assertTrue(response.end is None or late.most <= response.end)
                reached += late.count > 0 and late.most == response.end
            self.assertTrue(run.agrees())
        self.assertGreater(reached, 20)

    def test_above_the_bound(self):
        run = two_crates.run_of((VETO._replace(start=0, end=4),), [(1, 5)])
        self.assertFalse(run.agrees())
        self.assertIn("no service ended later", run.checks[-1].text)


class Shown(laboratory.BenchCase):
    """The picture, and the part of the report."""

    RATES = ("--every", "adc=60", "--every", "tick=400")

    def call(self, *words, status=0):
        found, out, err = command(*words)
        self.assertEqual(found, status, err)
        return out + err

    def page(self, *rates, source=None):
        plan, script, answers = self.files
        self.assertEqual(self.call("report", plan, script, source or answers, *rates, "-o", self.room / "run.html"), "")
        return laboratory.Page((self.room / "run.html").read_text(encoding="utf-8"))

    def operations(self):
        """The bit and the cycles of each service of the bench's run, and (0, 0) if none was called."""
        found = []
        for line in laboratory.call("run", *self.files, self.room / "run.events").splitlines():
            words = line.split()
            if words[0] == "demand":
                found.append([{"adc": 3, "tick": 5, "-": 0}[words[2]], 0])
            elif words[0] in ("cycle", "lock"):
                found[-1][1] += int(words[-1]) + (words[0] == "cycle")
        return [tuple(it) for it in found]

    def test_page(self):
        """Adc may take 43 cycles and tick 26; with these rates each waits for the other once."""
        of = (Response("adc", 3, 43, 60, 26, 69, 112), Response("tick", 5, 26, 400, 43, 69, 112))
        ends = ends_of(of, self.operations())
        page = self.page(*self.RATES)
        rows = page.table("How late")
        for said, row in zip(of, rows):
            late, broken = ends[said.gl]
            kept = [end for end in late if end is not None]
            wanted = [said.name, said.gl, said.every, said.start, said.end, said.longest, max(kept) if kept else "", len(kept), len(late) - len(kept)]
            titles = ["service", "GL", "every", "start", "end", "longest stretch", "seen", "services", "left out"]
            self.assertEqual([row[title] for title in titles], [str(number) for number in wanted])
            gl, call, cycles = broken[0]
            self.assertRegex(row["a rate was broken first by"], rf"^{ {3: 'adc', 5: 'tick'}[gl]}: call {call} after {cycles} cycles, service \d+$")
        texts = page.parts["How late"]["texts"]
        for text in ("at most 69", "26 (tick, in progress) + 43 (its own)", "43 (adc) + 26 (its own)", f"seen {rows[0]['seen']}", "every 60"):
            self.assertIn(text, texts)
        self.assertIn("A rate was broken: ", " ".join(page.parts["How late"]["paragraphs"]))
        kept = sum(int(row["services"]) for row in rows)
        check = f"no service ended later after its look-at-me than its bound, of {kept} in whose stretch the rates were kept"
        self.assertIn(["agrees", check], page.parts["Checks of this page"]["tables"][0])

    def test_once_and_no_number(self):
        rows = self.page().table("How late")
        self.assertEqual([[row[title] for title in ("every", "start", "end", "longest stretch")] for row in rows], [["once", "26", "69", "69"], ["once", "43", "69", "69"]])
        page = self.page("--every", "adc=43")
        self.assertEqual([row["end"] for row in page.table("How late")], ["-", "-"])
        self.assertEqual(page.parts["How late"]["texts"].count(NO_NUMBER), 2)

    def test_events_alone(self):
        """An event file has the bounds alone."""
        self.operations()
        page = self.page(source=self.room / "run.events")
        part = page.parts["How late"]
        self.assertEqual(part["tables"], [])
        self.assertIn("at most 69", part["texts"])
        self.assertFalse([it for it in part["texts"] if it.startswith("seen")])
        self.assertIn("An event file does not show how late a service was: answers do.", part["paragraphs"])

    def test_no_operation(self):
        empty = self.write("empty.answers", "")
        self.assertEqual([(row["seen"], row["services"]) for row in self.page(source=empty).table("How late")], [("", "0"), ("", "0")])
        script = self.write("empty.script", "var v\n")
        self.call("report", self.files[0], script, empty, "-o", self.room / "run.html")
        page = laboratory.Page((self.room / "run.html").read_text())
        self.assertIn("The script has no service.", page.parts["How late"]["texts"])

    def test_picture(self):
        plan, script, answers = self.files
        self.operations()
        drawn = []
        for source in ((), (answers,), (self.room / "run.events",)):
            for out in (self.room / "1.svg", self.room / "2.svg"):
                self.assertEqual(self.call("draw", "response", *self.RATES, plan, script, *source, "-o", out), "")
            self.assertEqual((self.room / "1.svg").read_bytes(), (self.room / "2.svg").read_bytes())
            drawn.append((self.room / "1.svg").read_text(encoding="utf-8"))
            ElementTree.fromstring(drawn[-1])
        self.assertEqual(drawn[0], drawn[2])
        made = report(self.inputs, every={"adc": 60, "tick": 400}).text
        part = re.search(r'<h2 id="late">.*?(<svg .*?</svg>)', made, re.S)[1]
        # In a page its tips are read by keys.
        part = part.replace('<svg tabindex="0" aria-roledescription="picture" class="camac" role="application"', '<svg class="camac" role="img"')
        self.assertEqual(re.sub(r"<style>.*?</style><rect[^>]*/>", "", drawn[1].replace(' xmlns="http://www.w3.org/2000/svg"', "")), part + "\n")

    def test_words(self):
        plan, script, answers = self.files
        out = self.room / "x"
        for rates in (["adc"], ["=5"], ["adc="], ["adc=0"], ["adc=+5"], ["adc=4294967296"], ["adc=٣"], ["adc=5", "adc=6"], ["a=b=5"], ["<b>\x1b=x"]):
            words = [word for it in rates for word in ("--every", it)]
            for call in (("report", plan, script, answers), ("draw", "response", plan, script)):
                said = self.call(*call, *words, "-o", out, status=2)
                self.assertIn("usage: ", said)
                self.assertNotIn("\x1b", said)
        self.assertIn("--every is an option", self.call("draw", "bounds", plan, script, "--every", "adc=5", "-o", out, status=2))
        for call in (("report", plan, script, answers), ("draw", "response", plan, script)):
            self.assertEqual(self.call(*call, "--every", "nobody=5", "-o", out, status=2), "camac: fault --every nobody: no such service\n")
        self.call("draw", "response", plan, "-o", out, status=2)
        self.assertFalse(out.exists())

    def test_names_that_would_harm(self):
        """Whatever is in a name, or in the name of a file, harms nobody."""
        harm = '</text></svg><script>"\'&\x00\x1b'
        canvas = pictures.draw_response([it._replace(name=harm) for it in (VETO, STRIP, SPILL, SLOW)])
        ElementTree.fromstring(canvas.picture())
        self.assertNotIn("<script", canvas.picture())

    def test_unkept(self):
        """Why there is no number is said in words; from a service's bit on there is none. The status is 1, but nothing is refused."""
        self.write("told", NONE_KEPT)
        with self.another_program(f"response) cat '{self.room / 'told'}'; exit 1 ;;"):
            page = self.page()
            self.assertEqual(self.call("draw", "response", *self.files[:2], "-o", self.room / "x.svg"), "")
            self.assertEqual(camac.response(*self.files[:2])[0].unkept, (HIDDEN,))
        part = page.parts["How late"]
        first, others = "adc line 30: hidden by tick", "tick line 28: does not clear its look-at-me; tick line 7: cleared by adc"
        self.assertEqual(part["paragraphs"][1:4], [f"No number from bit {bit} on: {why}." for bit, why in [(3, first), *((5, it) for it in others.split("; "))]])
        for texts in (part["texts"], ElementTree.parse(self.room / "x.svg").getroot().itertext()):
            self.assertEqual([it for it in texts if it.startswith("no number: ")], 2 * [f"no number: {first}"])
        self.assertEqual([row["end"] for row in page.table("How late")], ["-", "-"])

    def test_an_older_program(self):
        """Without `response` the page says what it lacks; the picture is refused."""
        with self.another_program(f"--help) '{PROGRAM}' --help | grep -v '^  response ' ;;", "response) exit 2 ;;"):
            part = self.page("--every", "adc=60").parts["How late"]
            self.assertEqual(part["paragraphs"], ["This program has no response: how late each service can be is not known."])
            said = self.call("draw", "response", *self.files, "-o", self.room / "x.svg", status=3)
        self.assertEqual(said, "camac: this program has no `response`\n")


if __name__ == "__main__":
    run_tests()
