#!/usr/bin/env python3
"""Tries what camac proposes for loops (`camac-check --keeps`): on the loops of tests/loops, which beginners write, on scripts whose `keep`s are
taken out, and by hand. tools/oracle tries it on scripts made at random.

usage: tests/keeps_test.py [--whole] [-v] [TEST ..]     from any folder; takes some seconds

With --whole all loops are tried, not one of five, and the figures are printed. If the library for C is there (tests/support/of_c.py), it judges, else
the program: crates/camac/out/camac (cd crates/camac && rt run makes it), or what the environment variable CAMAC_PROGRAM names. CAMAC_SEED is another
seed than the usual one.
"""
import functools
import json
import os
import pathlib
import random
import re
import sys
import unittest

from support import of_c
from support.live import PROGRAM, TOP, Case, script
from support.program import is_within
import camac
from camac.loops.changes import LEAVES_OUT, Kind
from camac.loops.proposals import put_before_block
from camac.loops.search import MOST_CALLS, propose, turn_by_turn
from camac.program import IN_PROCESS, accepts, verdict
from camac.reader import read_script
from camac.texts import Edit, edited
from camac.tree import Loop, all_in
from oracle.maker.extremes import BY_CHANCE, GREATEST, LEAST, RISEN, SILENT, events
from oracle.reader.plan import read_plan, sample_plan

SEED = os.environ.get("CAMAC_SEED") or "camac"
HERE = TOP / "tests/loops"
# The sample of the gate: one of this number of loops.
EVERY = 5
# How many loops need `each` and nothing else; and those that another script helps, by the judgement of an expert.
BY_EACH = 168
LEFT = {"channels_by_while", "exponential_mean_by_parts", "ramp_that_is_too_long", "scaled_mean", "time_between_pulses"}
ROW = re.compile(r"^== (\w+)(?: on (\S+))?\n((?:.*\n)*?)(?=^== |\Z)", re.M)
# What begins loops that many rows have.
CHANNELS = re.compile(r"^( *)channels \{$", re.M), r"\1for i = 0 to 11 {\n\1  cdreg r 1 1 5 i\n\1  cfsa 0 r -> v"
READINGS = re.compile(r"^readings (\d+) \{$", re.M), r"cdreg r 1 1 5 0\nfor k = 1 to \1 {\n  cfsa 0 r -> v"
WRITES = re.compile(r"for (\w+) =|-> (\w+)|tally (\w+)|(\w+) = ")
BLOCK = re.compile(r"^```camac accepted([^\n]*)\n(.*?)^```$", re.M | re.S)
SUM = """cdlam adc 1 1 5 12
var i v sum top
service adc within 0 cycles event 0 words {
  for i = 0 to 11{
    cdreg r 1 1 5 i
    cfsa 0 r -> v
    sum = sum + v
    if v > top { top = v }
  }
  put sum / 12
  put top
  cclc adc
}
"""
# These change nothing that an accepted script does.
SAME = {Kind.EACH, Kind.KEEP, Kind.GUARD, Kind.COMPARISON, Kind.HEADING}
# The offset of a difference that is put as it is.
OFFSET = "more than the difference"
is_whole = False


@functools.lru_cache(maxsize=None)
def judge():
    """Who judges: the library, if it is there, else the program."""
    if of_c.lacking():
        return PROGRAM
    os.environ.update(of_c.environment())
    return IN_PROCESS


def rows():
    """Of each loop its name, its plan and the script."""
    for name, plan, text in ROW.findall((HERE / "loops.text").read_text()):
        lam = "clock 1 1 1 0" if plan else "adc 1 1 5 12"
        for form, whole in (CHANNELS, READINGS):
            text = form.sub(whole, text)
        if not text.startswith("cdlam "):
            body, service = text.rstrip(), lam.split()[0]
            variables = " ".join(dict.fromkeys("".join(it) for it in WRITES.findall(body)))
            text = f"cdlam {lam}\nvar {variables}\nservice {service} within 0 cycles event 0 words {{\n{body}\ncclc {service}\n}}\n"
        yield name, str(HERE / plan) if plan else "@sample", text.encode()


def loops_of(text):
    return [it for body in read_script(text).bodies for it in all_in(body.statements) if isinstance(it, Loop)]


def with_each(text):
    return edited(text, [put_before_block(text, it, "each") for body in read_script(text).bodies for it in turn_by_turn(body)])


def without_keeps(text):
    return edited(text, [Edit(it.keep, it.keeps[-1].end, "") for it in loops_of(text) if it.keeps])


def played(plan, text, dice, kind):
    """What two services of a script make, as the independent reader plays it, whether the script is accepted or not."""
    return events(sample_plan() if plan == "@sample" else read_plan(pathlib.Path(plan).read_bytes()), text, dice, kind)


class Loops(unittest.TestCase):
    def test_by_each(self):
        """All two hundred are refused as they are, and most are accepted with `each` alone."""
        loops = list(rows())
        self.assertEqual((len(loops), len({name for name, *_ in loops})), (200, 200))
        self.assertEqual([name for name, plan, text in loops if not verdict("bounds", plan, text, judge()).text.startswith("refused E")], [])
        helped = [name for name, plan, text in loops if verdict("bounds", plan, with_each(text), judge()).accepted]
        self.assertGreaterEqual(len(helped), BY_EACH)

    def test_solved(self):
        """What is proposed is accepted as it is, and nothing but `each` where that suffices."""
        left, calls = set(), []
        for name, plan, text in list(rows())[:: 1 if is_whole else EVERY]:
            found = propose(plan, text, judge())
            calls.append(found.calls)
            left |= {name} if found.remaining else set()
            with self.subTest(loop=name):
                self.assertEqual(accepts(plan, found.applied(text), judge()), found.remaining is None)
                if verdict("bounds", plan, with_each(text), judge()).accepted:
                    self.assertLessEqual({it.kind for it in found.proposals}, {Kind.EACH, Kind.HEADING})
        self.assertEqual(left - LEFT, set())
        self.assertLessEqual(max(calls), MOST_CALLS)
        if is_whole:
            print(f"loops: {len(calls) - len(left)} of {len(calls)} are solved; calls {max(calls)} at most, {sum(calls) / len(calls):.1f} in the mean")

    def test_events_stay_the_same(self):
        """A script with conditions and with other comparisons does what it did before, for the greatest words, the least ones, and some by chance; with
        other differences, if none is below 0."""
        dice, tried = random.Random(SEED), 0
        for name, plan, text in list(rows())[:: 1 if is_whole else EVERY]:
            found = propose(plan, text, judge())
            kinds = {it.kind for it in found.proposals}
            if found.remaining or not kinds <= {*SAME, Kind.DIFFERENCE} or any(OFFSET in it.text for it in found.proposals):
                continue
            tried += 1
            for given in [GREATEST, SILENT, LEAST, RISEN, *(BY_CHANCE if kinds <= SAME else ())]:
                seed = dice.random()
                with self.subTest(loop=name, given=given):
                    was, now = (played(plan, it, random.Random(seed), given) for it in (text, found.applied(text)))
                    self.assertEqual((was, was[0]), (now, 2))
        self.assertGreater(tried, 30)


class Written:
    """A script, the plan it is accepted on, and its `keep`s."""

    def __init__(self, plan, text):
        self.plan, self.text, self.bare = plan, text, without_keeps(text)
        self.kept = [{it.name: it.range for it in loop.keeps} for loop in loops_of(text)]

    def is_mended(self, found):
        kinds = {it.kind for it in found.proposals}
        return found.remaining is None and kinds <= {Kind.EACH, Kind.KEEP} and accepts(self.plan, found.applied(self.bare), judge())

    def wider(self, found):
        """What is found in a wider range than it had."""
        pairs = [(it, kept[it.name]) for loop, kept in zip(loops_of(found.applied(self.bare)), self.kept) for it in loop.keeps if it.name in kept]
        return [(it.name, it.range) for it, had in pairs if it.range[0] < had[0] or it.range[1] > had[1]]


def written_here():
    """Scripts of the examples and the pages that keep something."""
    plans = ["@sample", *sorted(map(str, (TOP / "examples").rglob("*.toml")))]
    texts = [it.read_bytes() for it in sorted((TOP / "examples").rglob("*.script"))]
    texts += [text.encode() for page in sorted((TOP / "docs").rglob("*.md")) for _, text in BLOCK.findall(page.read_text())]
    for text in texts:
        if re.search(rb"\bkeep\b", text):
            yield from [Written(plan, text) for plan in plans if accepts(plan, text, judge())][:1]


class TakenOut(Case):
    """Where ranges are taken out, something is found that helps as well."""

    def test_examples_and_pages(self):
        tried = 0
        for it in written_here():
            tried += 1
            found = propose(it.plan, it.bare, judge())
            with self.subTest(text=it.text):
                self.assertEqual((it.is_mended(found), it.wider(found)), (True, []))
        self.assertGreater(tried, 0)


class Proposed(Case):
    """What is proposed for single scripts: by hand."""

    def proposed(self, text, **how):
        return propose("@sample", text.encode() if isinstance(text, str) else text, judge(), **how)

    def test_bodies(self):
        read = "cdreg r 1 1 5 0 cfsa 0 r -> v"
        begin, end = ["t = 9", "while t > 0 turns 9 by t {"], ["t = t - 1 }", "put k"]
        kept, word = "while t > 0 turns 9 by t keep k in 0..16777215 {", f"  # {LEAVES_OUT.format(16777215)}"
        for body, wanted in [
            (["for i = 0 to 3 {", "k = k + 1 }"], [(4, "for i = 0 to 3 each {")]),
            (["for i = 1 to 7 # keep { \xff", "", "{", f"{read} k = v }}", "put k"], [(4, "for i = 1 to 7 each {")]),
            (["for i = 1 to 3 {", "for t = 1 to 3 { k = k + 1 }", "put k k = 0 }"], [(4, "for i = 1 to 3 each {"), (5, "for t = 1 to 3 each {")]),
            (["for i = 1 to 3 {", "k = 0 for t = 1 to 3 { k = k + 1 }", "put k }"], [(5, "for t = 1 to 3 each {")]),
            # too much in all, and no single numbers
            (["for i = 1 to 300 {", f"for t = 1 to 300 {{ {read} k = v }} }}", "put k"], [(4, "for i = 1 to 300 keep k in 0..4095 {"), (5, "for t = 1 to 300 each {")]),
            (["for i = (1) to 7 {", f"{read} k = v }}", "put k"], [(4, "for i = (1) to 7 keep k in 0..4095 {")]),
            (["t = 7", "for i = 1 to t{", f"{read} k = v }}", "put k"], [(5, "for i = 1 to t keep k in 0..4095 {")]),
            (["for i = 1 to 7 keep t in 0..1, k in 0..9 {", f"{read} k = v t = 1 }}", "put k"], [(4, "for i = 1 to 7 keep t in 0..1, k in 0..4095 {")]),
            (["k = 5", "for i = 1 to 7 keep k in 6..9 { k = 9 }", "put k"], [(5, "for i = 1 to 7 keep k in 5..9 {")]),
            (["for i = 1 to 7 keep t in 0..1 {", f"{read} k = v t = 1 }}", "put k + t"], [(4, "for i = 1 to 7 keep t in 0..1, k in 0..4095 {")]),
            ([*begin, "if k < 5 { k = k + 3 }", *end], [(5, "while t > 0 turns 9 by t keep k in 0..7 {")]),
            (["k = 5000", *begin, "if k > 300 { k = k - 10 }", *end], [(6, "while t > 0 turns 9 by t keep k in 291..5000 {")]),
            # conditions
            ([*begin, f"{read} k = k + v", *end], [(5, kept), (6, f"if k <= 16777215 - 4095 {{ k = k + v }}{word}")]),
            ([*begin, "k = k + 1", *end], [(5, kept), (6, f"if k < 16777215 {{ k = k + 1 }}{word}")]),
            ([*begin, f"{read} if v > 9 {{ k = k + v + v - 9 }}", *end], [(5, kept), (6, f"if k <= 16777215 - 8181 {{ k = k + v + v - 9 }}{word}")]),
            ([*begin, "for i = 0 to 3 { k = k + i }", *end], [(5, kept), (6, "for i = 0 to 3 each {"), (6, f"if k <= 16777215 - 3 {{ k = k + i }}{word}")]),
            ([*begin, read, "k = k + 1", "k = v + k", *end], [
                (5, kept), (7, f"if k <= 16777215 - 4095 {{ k = k + 1 }}{word}"), (8, f"if k <= 16777215 - 4095 {{ k = v + k }}{word}"),
            ]),
            ([*begin, f"{read} k = k + v * v", *end], [
                (6, f"if k <= 4294967295 - 16769025 {{ k = k + v * v }}  # {LEAVES_OUT.format(4294967295)}"),
                (8, "put k / 16777216  put k % 16777216  # two words, the high one first"),
            ]),
            (["t = 2", "for i = 1 to 3 {", "t = t - 1 }", "put t"], [(5, "for i = 1 to 3 each {"), (6, "if t >= 1 { t = t - 1 }  # true unless it would fall below 0")]),
            # other forms of a statement
            ([read, "for i = 1 to 2 {", "t = v - k", "k = v }", "put t"], [
                (5, "for i = 1 to 2 each {"), (6, "t = v + 4095 - k  if t >= 4095 { t = t - 4095 } else { t = 0 }  # 0 if it would be below 0"),
            ]),
            ([read, "for i = 1 to 2 {", "put v - k", "k = v }"], [(5, "for i = 1 to 2 each {"), (6, f"put v + 4095 - k  # 4095 {OFFSET}")]),
            ([read, "for i = 1 to 2 {", "if q and not v - k >= 9 { put 1 }", "k = v }"], [(5, "for i = 1 to 2 each {"), (6, "if q and not v >= k + 9")]),
            ([read, "for i = 1 to 2 {", "if 9 < v - k { put 1 }", "k = v }"], [(5, "for i = 1 to 2 each {"), (6, "if k + 9 < v")]),
            (["for i = 1 to 4096 {", read, "k = k + v + 1 }", "put k + 1"], [
                (4, "for i = 1 to 4096 each {"), (7, "put (k + 1) / 16777216  put (k + 1) % 16777216  # two words, the high one first"),
            ]),
        ]:
            with self.subTest(body=body):
                text = script(body).encode("latin-1")
                found = self.proposed(text)
                changes = [(it.line, it.text) for it in found.proposals if it.kind is not Kind.HEADING]
                self.assertEqual(changes, wanted)
                self.assertEqual((found.remaining, accepts("@sample", found.applied(text), judge())), (None, True))

    def test_nothing_is_proposed(self):
        for body, code in [
            (["put 1"], None), (["put v;"], "S1"), (["put 16777216"], "E16"), (["for i = 1 to 2 { i = 3 }"], "E17"), (["for i = 1 to 65536 { k = k + 1 }"], "E10"),
            (["k = 3", "while k > 0 turns 3 by k { k = k - 1 k = 9 }"], "E7"), (["k = 3", "while k > 0 turns 3 by k { k = k - 2 }"], "E4"),
            (["k = 1", "t = 9", "while t > 0 turns 9 by t { k = k * 2 t = t - 1 }"], "E4"),
        ]:
            with self.subTest(body=body):
                text = script(body).encode()
                found = self.proposed(text)
                self.assertEqual((found.applied(text), found.remaining and found.remaining.code), (text, code))

    def test_calls(self):
        """Where a single loop needs `each`, the checker is asked once more to see that, and once for the headings."""
        self.assertEqual(self.proposed(script(["for i = 1 to 2 { k = k + 1 }", "put k"])).calls, 3)

    def test_headings(self):
        """Headings that are too small are proposed, too, if nothing else is in the way. What makes a bound small enough comes first."""
        text = script(["for i = 1 to 2 { k = i }", "put k", "cclc adc"], 2, 0)
        self.assertEqual([it.text for it in self.proposed(text).proposals], ["service adc within 3 cycles event 1 words", "for i = 1 to 2 each {"])
        text = script(["for i = 1 to 2 { k = i }", "if k > 2 { cclc adc }"], 0, 0)
        self.assertEqual([it.text for it in self.proposed(text).proposals], ["for i = 1 to 2 each {"])
        text = script(["t = 2", "while t > 0 turns 2 by t { k = 1 t = t - 1 }", "if k > 2 { cclc adc }"], 0, 0)
        self.assertEqual([it.text for it in self.proposed(text).proposals], ["while t > 0 turns 2 by t keep k in 0..1 {"])

    def test_what_remains(self):
        text = script(["for i = 1 to 2 {", "k = i }", "put k", "put 16777216"])
        found = self.proposed(text)
        self.assertEqual([it.text for it in found.proposals], ["for i = 1 to 2 each {"])
        self.assertEqual(found.remaining, ("E16", 7, "word above 24 bits. The word may be 16777216, and 24 bits hold at most 16777215"))

    def test_plan(self):
        """A plan that is refused is no fault of the script."""
        with self.assertRaises(camac.Refused):
            propose(self.write("plan", "[[types]]\n"), b"", judge())


class Command(Case):
    def command(self, *words):
        status, out, err = self.package("check", *words)
        self.assertEqual(err, "")
        return status, out

    def test_keeps(self):
        self.write("a", SUM)
        wanted = (
            "a:7:5: refused E4: value out of range\na:3: proposed: service adc within 39 cycles event 2 words\na:4: proposed: for i = 0 to 11 each {\n"
        )
        self.assertEqual(self.command("--keeps", "@sample", "a"), (1, wanted))
        self.assertEqual(self.file("a").decode(), SUM)
        found = json.loads(self.command("--keeps", "--json", "@sample", "a")[1])[0]["found"]
        self.assertEqual([(it["kind"], it["line"], it["code"]) for it in found], [("refused", 7, "E4"), *(("proposed", line, None) for line in (3, 4))])
        told = self.command("--keeps", "--format", "github", "@sample", "a")[1].splitlines()
        self.assertEqual(told[-1], "::notice file=a,line=4,title=proposed::for i = 0 to 11 each {")

    def test_write(self):
        """What loops need is put into the script, with the headings, and nothing else changes. What needs another statement waits for it."""
        file = self.write("a", SUM.replace("put sum / 12", "put sum - top"))
        file.chmod(0o640)
        (self.room / "link").symlink_to("a")
        status, printed = self.command("--keeps", "--write", "@sample", "link")
        self.assertEqual((status, [line.split(": ")[1] for line in printed.splitlines()]), (1, ["written", "refused E4", "proposed", "proposed"]))
        file.write_text(SUM)
        printed = "link:4: written: for i = 0 to 11 each {\nlink:3: written: service adc within 39 cycles event 2 words\n"
        self.assertEqual(self.command("--keeps", "--write", "--strict", "@sample", "link"), (0, printed))
        text = SUM.replace("within 0 cycles event 0", "within 39 cycles event 2").replace("11{", "11 each {")
        self.assertEqual((self.file("a").decode(), file.stat().st_mode & 0o777, (self.room / "link").is_symlink()), (text, 0o640, True))
        before = file.stat()
        self.assertEqual(self.command("--keeps", "--write", "@sample", "a"), (0, ""))
        self.assertEqual((file.stat().st_ino, file.stat().st_mtime_ns), (before.st_ino, before.st_mtime_ns))
        self.assertEqual(sorted(it.name for it in self.room.iterdir()), ["a", "link"])

    def test_remaining(self):
        self.write("a", script(["for i = 1 to 2 {", "k = i }", "put k", "put 16777216"]))
        wanted = (
            "a:6:1: refused E16: word above 24 bits\na:4: proposed: for i = 1 to 2 each {\n"
            "a:7: remaining E16: word above 24 bits. The word may be 16777216, and 24 bits hold at most 16777215\n"
        )
        self.assertEqual(self.command("--keeps", "@sample", "a"), (1, wanted))
        self.write("b", script(["put v;"]))
        self.assertEqual(self.command("--keeps", "--write", "@sample", "b", "none"), (3, "b:4:6: refused S1: bad byte\nnone: fault: No such file or directory\n"))


class Long(unittest.TestCase):
    """Scripts of hundreds of lines take 200 calls at most, and some seconds."""

    def test_long_scripts(self):
        read = "cdreg r 1 1 5 i\ncfsa 0 r -> v\n"
        nested = "".join(f"for {it} = 0 to 9 {{\n" for it in "iklm") + "a = a + 1\nb = b + a\nc = c + b\n}\n}\n}\n}\n"
        various = "".join(
            "n = 0\nfor i = 0 to 11 {{\n{0}if v > 200 {{\nn = n + 1\n}}\n}}\nput n\n"
            "top = 0\nfor i = 0 to 11 {{\n{0}if v > top {{\ntop = v\n}}\n}}\nput top\n"
            "sum = 0\nfor k = 1 to 4 {{\nfor i = 0 to 11 {{\n{0}sum = sum + v\n}}\n}}\nput sum / 16\n"
            "for i = 0 to 11 {{\n{0}put v + 4095 - last\nlast = v\n}}\n".format(read)
        )
        for block, count, is_solved in [
            (various, 15, True),
            # sums that each go on where the one before ended, readings that each follow a difference, and what is given up
            (f"for i = 0 to 11 {{\n{read}sum = sum + v\nn = n + sum % 100\n}}\n", 80, True),
            (f"for i = 0 to 11 {{\n{read}put v - last\nlast = v\n}}\n", 80, True),
            (f"for i = 0 to 11 {{\n{read}a = a - a / 8 + v / 8\n}}\nput a\n", 80, False),
            (nested, 40, False),
        ]:
            with self.subTest(block=block):
                self.solve(block * count, is_solved)

    def solve(self, body, is_solved):
        text = f"cdlam adc 1 1 5 12\nvar i k l m v n last top sum a b c\nservice adc within 0 cycles event 0 words {{\n{body}cclc adc\n}}\n".encode()
        found = propose("@sample", text, judge())
        self.assertEqual(found.remaining is None, is_solved)
        self.assertEqual(accepts("@sample", found.applied(text), judge()), is_solved)
        self.assertLessEqual(found.calls, MOST_CALLS)
        if judge() == IN_PROCESS:
            self.assertTrue(is_within(3, lambda: propose("@sample", text, judge())))
        if is_whole:
            print(f"a script of {text.count(10)} lines: {found.calls} calls, {len(found.proposals)} proposals")


if __name__ == "__main__":
    if of_c.lacking() and not os.access(PROGRAM, os.X_OK):
        sys.exit(f"{PROGRAM} is not there: cd crates/camac && rt run makes it, or CAMAC_PROGRAM names another")
    is_whole = "--whole" in sys.argv
    unittest.main(argv=[it for it in sys.argv if it != "--whole"])
