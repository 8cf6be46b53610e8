#!/usr/bin/env python3
"""Tries whether the fixes of explanations help: scripts are broken at random, each fix that a program can apply is applied, and the refusal of the case
has to be gone.

usage: tests/fixes_test.py [--whole] [-v] [TEST ..]     from any folder; takes ten seconds of the processor

With --whole 2,000 refusals are tried, in place of 800. SEED begins them, 1 if it is not set. If the library for C is there (tests/of_c.py), it
judges, else the program: crates/camac/out/camac (cd crates/camac && rt run makes it), or what CAMAC_PROGRAM names.
"""
import collections
import os
import random
import re
import sys
import unittest

from support import of_c
from support.live import PROGRAM, Case
from camac.loops.search import propose
from camac.lsp.actions import OF_LOOPS, _of_refusal
from camac.lsp.documents import Text
from camac.lsp.refusals import refusals
from camac.lsp.workspace import Judge, Judged
from camac.reader import read_script
from camac.texts import SAMPLE, Edit, edited, plan_text
from camac.tokens import tokens_of
from camac.tree import Loop, all_in
from oracle.cases import script_case

REFUSALS, SEED = 800, os.environ.get("SEED", "1")
FRESH = "fresh_name"
# A script for the built-in plan, and what a beginner writes into its service, or into one that is made at random.
SCRIPT = """\
cdlam adc 1 1 5 12
var i t k
table g = 1 2 3
proc get(s in 0..11) within 9 cycles event 9 words steps 99 {
  put s
}
service adc within 99999 cycles event 4096 words {
  cdreg a 1 1 5 0
  cdreg r 1 1 6 0
"""
TROUBLES = [
    "put i + 4294967295", "put t * 100000", "t = 9 while t > 0 turns 3 by t { t = t - 1 }", "cfsa 0 a", "cfsa 8 a -> t", "cfsa 0 unset -> t", "if q { cdreg b 1 1 5 0 } cfsa 0 b -> t",
    "for i = 1 to 3 { i = 2 }", "putt t", "put tt", "t = 16777216 put t + 16777215", "cdreg a 2 1 5 0", "for i = 0 to 70000 { put 1 }", "lock 1 { lock 1 { } }", "cclc none", "call none(1)",
    "t = 1;", "put 99999999", "cdreg b 1 1 6 0 cfsa 0 b -> t cfsa 16 b <- t", "if t = 3 { put t }", "t == 3", "while t > 0 turns 70000 by t { t = t - 1 }",
    "cfsa 0 a -> t cfsa 0 a -> i put i - t", "cfsa 0 a -> t call get(t)", "call get(12)", "cfubc 16 r table g max 9 tally t", "lock 5 { put 1 }", "ccci 9 on", "cfsa 16 a", "cfsa 0 a <- 1",
    "while k > 0 turns 3 by t { k = k - 1 }", "for i = 1 to 3 keep k in 1..5 { k = 2 }", "for i = 0 to 9 keep k in 0..5 { k = k + 1 }", "for i = 1 to 9 { t = t + 1 } put i - t", "cfsa 0 r -> t put t * t",
    "for i = 1 to 9 { cfsa 0 r -> t k = k + t } put k", "cfsa 0 r -> t cfsa 0 r -> k put t + k", "cfsa 0 r -> t cfsa 16 r <- t + 1", "cssa 16 r <- 70000", "call get(i - 1)", "put t - 1",
]
# The least number of kinds that are tried: else explanations have other texts than this test looks for.
LEAST_KINDS = 28


def broken(chance):
    """A plan and a script that may be refused."""
    if chance.random() < 0.6:
        plan, script = None, SCRIPT + "".join(f"  {it}\n" for it in chance.sample(TROUBLES, chance.randrange(1, 4))) + "  cclc adc\n}\n"
    else:
        # What is no ASCII is in comments, and is left out.
        plan, script = (lambda it: (it.plan, it.script.decode("ascii", "ignore")))(script_case(chance).inputs)
    it = chance.choice(tokens_of(script.encode()))
    kind = chance.randrange(12)
    if kind == 0 and it.text.isalpha() and len(it.text) > 2:
        at = chance.randrange(it.start, it.end - 1)
        return plan, script[:at] + script[at + 1 : at + 2] + script[at : at + 1] + script[at + 2 :]
    if kind in (1, 2) and it.text.isdigit():
        number = int(it.text) * chance.choice((2, 1000, 10**6)) + 1 if kind == 1 else int(it.text) // 2
        return plan, f"{script[: it.start]}{number}{script[it.end :]}"
    if kind == 3:
        return plan, script[: it.start] + script[it.end :]
    if kind == 4:
        return plan, script[: it.start] + chance.choice("$;~") + script[it.start :]
    return plan, script


class Refused:
    """The first refusal of a script, and its fixes."""

    def __init__(self, judge, script):
        self.judge, self.data = judge, script
        self.judged = Judged(judge, Text(script.decode()))
        found = refusals(self.judged)
        self.first = found[0] if found else None

    def told(self):
        return self.first and (self.first.code, self.first.line, self.first.sentence)

    def is_gone(self, edits):
        """Whether the case is gone with a text that is changed so: lines may have come before it."""
        changed = edited(self.data, edits)
        more = sum(it.text.count("\n") for it in edits if it.start <= self.first.start)
        now = Refused(self.judge, changed).told()
        return now != (self.first.code, self.first.line + more, self.first.sentence)

    def fixes(self):
        """By kind, the edits of each fix that a program can apply."""
        first, text = self.first, self.data[self.first.start : self.first.end].decode()
        advice = " ".join(first.advice)
        for fix in _of_refusal(self.judged, first):
            if not fix.title.startswith("Write what helps"):
                yield f"{first.code} {re.sub('`[^`]*`|[0-9]+', '..', fix.title)}", fix.edits
        yield from self.of_text(text, advice)
        yield from self.of_statement(text, advice)
        yield from self.of_ranges(text)
        if "--keeps` finds" in advice and first.code in OF_LOOPS and self.is_of_a_loop():
            found = propose(self.judge.file, self.data, self.judge.program)
            edits = tuple(edit for one in found.proposals for edit in one.edits)
            if edits:
                yield f"{first.code} --keeps", edits

    def of_text(self, text, advice):
        """What fixes a fault of the text."""
        first = self.first
        put = lambda new: (Edit(first.start, first.end, new),)
        if "remove the byte" in advice:
            yield "S1 remove the byte", put("")
            yield "S1 begin a comment", (Edit(first.start, first.start, "#"),)
        if first.code == "S3" and (most := re.search(r"(?:at most|above) (\d+)", first.sentence)):
            yield "S3 write a number in the range", put(most[1])
        if "choose another name" in advice and text.isidentifier():
            yield "S4 choose another name", put(FRESH)
        if "declare it above" in advice and "as a variable" in first.sentence and not self.is_in_procedure():
            yield "S5 declare it above", (Edit(0, 0, f"var {text}\n"),)
        if first.code == "S7":
            yield "S7 write 1", put("1")

    def of_statement(self, text, advice):
        """What fixes a statement."""
        first = self.first
        put = lambda new: (Edit(first.start, first.end, new),)
        if "as in `v + 4095 - w`" in advice:
            yield from self.of_difference(text)
        value = re.fullmatch(r"(put|cfsa \d+ \w+ <-|cssa \d+ \w+ <-) (.*)", text, re.S)
        bits = 24 if first.code == "E16" else int((re.search(r"(\d+) bits?", first.sentence) or [0, 0])[1])
        if first.code in ("E5", "E16") and "%" in advice and value and bits:
            yield f"{first.code} bound the value by %", put(f"{value[1]} ({value[2]}) % {1 << bits}")
        if first.code == "E6" and (name := re.search(r"`(\w+)`", first.sentence)) and (there := re.search(rb"cdreg %b 1 \d+ \d+ \d+" % name[1].encode(), self.data)):
            yield "E6 set it before", (Edit(first.start, first.start, f"{there[0].decode()} "),)
        if first.code == "E3" and (head := re.match(r"(cfsa|cssa) \d+ \w+", text)):
            if "without an arrow" in advice:
                yield "E3 without an arrow", put(head[0])
            elif "write `-> v`" in advice:
                yield "E3 write -> v", (Edit(0, 0, f"var {FRESH}\n"), *put(f"{head[0]} -> {FRESH}"))
        if first.code == "E7" and (loop := re.compile(r"(?s)(?:(?!\bby\s).)*by\s+(\w+)[^{]*\{([^{}]*)\}").match(self.data.decode(), first.start)):
            # It is lowered there in place of all that is done.
            yield "E7 lower it once", (Edit(*loop.span(2), f" {loop[1]} = {loop[1]} - 1 "),)
        if first.code == "E14" and (has := re.search(r"the table has (\d+)", first.sentence)):
            if most := re.compile(r"[^<>{}]*?\bmax\s+(\d+)\s+(?:limit|tally)").match(self.data.decode(), first.start):
                yield "E14 a smaller max", (Edit(*most.span(1), has[1]),)
        if first.code == "E15" and "locked already" in first.sentence and (lock := re.compile(r"lock\s+\d+\s*\{([^{}]*)\}").match(self.data.decode(), first.start)):
            yield "E15 remove the inner lock", (Edit(*lock.span(), lock[1]),)
        if first.code == "E15" and "not one crate of the plan" in first.sentence and (crate := re.match(r"(\w+ )\d+", text)):
            yield "E15 a crate of the plan", (Edit(first.start, first.start + crate.end(), f"{crate[1]}{self.judged.plan.crates[0].number}"),)
        if first.code == "E17" and (name := re.match(r"\w+", text)):
            yield "E17 another variable", (Edit(0, 0, f"var {FRESH}\n"), Edit(first.start, first.start + len(name[0]), FRESH))

    def of_ranges(self, text):
        """A range that is made wider, or what has to be in it bounded: of an argument, and of what a loop keeps."""
        first, sentence = self.first, self.first.sentence
        argument = re.match(r"Argument 1 may be (\d+)(?: to (\d+))?, and `(\w+)` takes (\d+) to (\d+)", sentence)
        if argument:
            low, high, name, least, most = argument.groups()
            call = re.fullmatch(r"(call \w+ ?)\(([^,]*)\)", text)
            if call and least == "0":
                yield "E21 bound by %", (Edit(first.start, first.end, f"{call[1]}(({call[2]}) % {int(most) + 1})"),)
            called = re.match(r"call\s+(\w+)", text)[1]
            found = re.search(rf"\bproc\s+{called}\b[^{{]*?\b({name} in {least} ?\.\. ?{most})\b", self.data.decode())
            if found:
                wide = f"{name} in {min(int(low), int(least))}..{max(int(high or low), int(most))}"
                yield "E21 widen the range", (Edit(*found.span(1), wide),)
        entry = re.match(r"Before the loop `(\w+)` may be (\d+)(?: to (\d+))?, and it is kept in (\d+) to (\d+)", sentence)
        if entry:
            name, low, high, least, most = entry.groups()
            if int(least) <= int(most):
                yield "E8 set it before", (Edit(first.start, first.start, f"{name} = {least} "),)
                wide = f"{name} in {min(int(low), int(least))}..{max(int(high or low), int(most))}"
                kept = re.compile(rf"\b{name}\s+in\s+{least}\s*\.\.\s*{most}\b").search(self.data.decode(), first.start)
                yield from self.of_unwritten(name)
                if kept:
                    yield "E8 widen the range", (Edit(*kept.span(), wide),)

    def of_unwritten(self, name):
        """What a loop keeps, and does not write, is left out."""
        for loop in self.loops():
            names = [it.name for it in loop.keeps]
            if loop.start == self.first.start and name in names and name not in loop.written:
                at = names.index(name)
                start = loop.keeps[at - 1].end if at else loop.keep if len(names) == 1 else loop.keeps[0].start
                end = loop.keeps[1].start if at == 0 and len(names) > 1 else loop.keeps[at].end
                yield "E8 leave it out", (Edit(start, end, ""),)

    def loops(self):
        """The loops of the body that is refused."""
        starts = [it for it in read_script(self.data).bodies if it.start <= self.first.start]
        return [it for it in all_in(starts[-1].statements if starts else ()) if isinstance(it, Loop)]

    def is_of_a_loop(self):
        """Whether the loop itself writes the variable that it keeps, or a loop up to the line writes one of the statement and does not keep it."""
        first = self.first
        if first.code in ("E8", "E9"):
            kept = re.search(r"`(\w+)`", first.sentence)[1]
            return any(kept in it.written for it in self.loops() if it.start == first.start)
        names = {*re.findall(r"\w+", self.data[first.start : first.end].decode())}
        return any(names & it.written - {kept.name for kept in it.keeps} for it in self.loops() if it.start <= first.start)

    def is_in_procedure(self):
        block = self.judged.names.block_at(self.first.start)
        return block is not None and not block.is_service

    def of_difference(self, text):
        """The greatest number of the right side is added first, where one difference of two names is in the statement."""
        sides = re.findall(r"(\w+) - (\w+)", text)
        ranges = re.findall(r"(\d+) to (\d+)", self.first.sentence)
        if len(sides) == 1 and text.count("-") - text.count("->") - text.count("<-") == 1 and ranges:
            left, right = sides[0]
            made = text.replace(f"{left} - {right}", f"{left} + {ranges[-1][1]} - {right}")
            yield "E4 add the greatest number first", (Edit(self.first.start, self.first.end, made),)


class Fixes(Case):
    def judge(self, plan):
        return Judge(plan if plan is not None else plan_text(SAMPLE), str(self.room))

    def test_fixes_help(self):
        chance = random.Random(f"{SEED} fixes")
        tried, helped, failed, count = collections.Counter(), collections.Counter(), {}, 0
        while count < REFUSALS:
            plan, script = broken(chance)
            it = Refused(self.judge(plan), script.encode())
            if not it.first:
                continue
            count += 1
            for kind, edits in it.fixes():
                is_good = bool(edits) and it.is_gone(edits)
                tried[kind] += 1
                helped[kind] += is_good
                if not is_good:
                    failed.setdefault(kind, []).append((it.told(), script, edits))
        for kind in sorted(tried):
            print(f"{kind}: {helped[kind]} of {tried[kind]} help", file=sys.stderr)
        self.assertGreaterEqual(len(tried), LEAST_KINDS)
        for kind in sorted(tried):
            with self.subTest(kind=kind):
                self.assertEqual(helped[kind], tried[kind], shown(failed[kind][0]) if kind in failed else "")


def shown(case):
    told, script, edits = case
    lines = script.split("\n")
    return f"{told}\n{lines[told[1] - 1]}\n{edits}"


if __name__ == "__main__":
    if "--whole" in sys.argv:
        sys.argv.remove("--whole")
        REFUSALS = 2_000
    os.environ.update({"CAMAC_PROGRAM": PROGRAM} if of_c.lacking() else of_c.environment())
    if not of_c.lacking():
        os.environ.pop("CAMAC_PROGRAM", None)
    unittest.main()
