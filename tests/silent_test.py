#!/usr/bin/env python3
"""Puts mistakes that are accepted in silence into scripts at random places: each is told by its own code at its place, which the script itself does not
get.

usage: tests/silent_test.py [--whole] [-v] [TEST ..]     from any folder; takes less than a minute

The scripts are loops of beginners and scripts of the oracle's maker, without what is warned of in them: a few, and with --whole 300, of which the figures
are printed. If the library for C is there (tests/support/of_c.py), it judges, else the program. The seed is the day's date, or CAMAC_SEED.
"""
import collections
import datetime
import os
import random
import re
import sys
import unittest

from support import of_c
from support.live import PROGRAM, TOP, Case
import camac
from camac.loops.search import propose
from camac.program import IN_PROCESS
from camac.reader import read_script
from camac.texts import Edit, edited
from camac.warn import Code
from oracle.maker.beginners import make_beginner
from oracle.maker.nodes import text_of
from oracle.maker.scripts import ScriptMaker
from oracle.reader.plan import sample_plan

SEED = os.environ.get("CAMAC_SEED") or datetime.date.today().isoformat()
FEW, MANY = 12, 300
# The built-in plan with a second module that calls, and its service.
PLAN = (TOP / "examples/sample_plan.toml").read_text() + """
[[type]]
name = "CLOCK"
commands = [ { f = 8, a = 0 }, { f = 10, a = 0 }, { f = 24, a = 0 }, { f = 26, a = 0 } ]
[[crate.station]]
n = 7
type = "CLOCK"
gl = 9
"""
OTHER = "service other within 3 cycles event 0 words {\n  cclc other\n}\n"
MOST = "4294967295", "4096"
SILENT = {Code.UNKEPT, *list(Code)[list(Code).index(Code.DROPPED) :]}
READ = ["cdreg z0 1 1 5 0", "cfsa 0 z0 -> z1"]
SUM = ["z1 = 0", "cdreg z0 1 1 5 0", "for z2 = 1 to 32 keep z1 in 0..65520 {", "cfsa 0 z0 -> z3", "if z1 <= 65520 - 4095 { z1 = z1 + z3 }", "}", "put z1"]
# Mistakes that are put before any statement: their lines, of which one is wrong, and the code.
ANYWHERE = {
    "another's look-at-me is cleared": [(["cclc other"], 0, Code.UNKEPT)],
    "the demand output is switched off": [(["cccd 1 off"], 0, Code.UNKEPT)],
    "the look-at-me is disabled": [(["cclm {} off"], 0, Code.UNKEPT)],
    "a word is read and never used": [([*READ, "cfsa 0 z0 -> z2", "put z2"], 1, Code.DROPPED)],
    "a word is always one number": [
        (["put z1"], 0, Code.ONE_NUMBER), (["z1 = 7", "put z1 * 2"], 1, Code.ONE_NUMBER), ([*READ, "put z1 / 4096"], 2, Code.ONE_NUMBER),
    ],
    "a variable is used before it is set": [
        (["z1 = z2 + 1", "put z1"], 0, Code.UNSET), (["if z1 > 3 {", "put 1", "}"], 0, Code.UNSET), (["cdreg z0 1 1 5 z1"], 0, Code.UNSET),
    ],
    "two registers have one address": [(["cdreg z8 1 1 5 3", "cdreg z9 1 1 5 3", "cfsa 0 z8 -> z1", "cfsa 0 z9 -> z2", "put z1 + z2"], 1, Code.TWINS)],
    "a condition is decided": [
        ([*READ, "if z1 < 4096 {", "put z1", "}"], 2, Code.DECIDED),
        ([*READ, "if z1 / 16 == 256 {", "put 1", "} else {", "put z1", "}"], 2, Code.DECIDED),
    ],
    "a guard leaves something out": [(SUM, 4, Code.LEFT_OUT)],
    "a number has a 0 before it": [(["put 0777"], 0, Code.LEADING_ZERO), (["cdreg z0 1 1 5 010", "cfsa 0 z0 -> z1", "put z1"], 0, Code.LEADING_ZERO)],
    "a register is never used": [(["cdreg z0 1 1 5 0"], 0, Code.UNUSED_NAME)],
}
# A name that is never used, which is declared before all.
DECLARED = "var z9", "table z9 = 1 2", "cdlam z9 1 1 5 3", "proc z9() within 0 cycles event 0 words steps 0 { }"
is_whole = False


def without(text, it):
    """A script without what a warning is about, or with the clear that it asks for."""
    name, script = re.search(r"`(?:cclc )?(\w+)", it.text), read_script(text.encode())
    lines = text.split("\n")
    if it.code is Code.UNUSED_NAME and "register" not in it.text:
        procedure = next((body for body in script.bodies if body.name == name[1]), None)
        if procedure:
            return text[: procedure.start] + text[procedure.end :]
        lines[it.line - 1] = re.sub(rf" {name[1]}\b", "", lines[it.line - 1]) if lines[it.line - 1].startswith("var ") else ""
        return "\n".join(lines)
    if it.line in [body.line for body in script.bodies]:
        body = next(body for body in script.bodies if body.line == it.line)
        return f"{text[: body.end - 1]}cclc {name[1]}\n{text[body.end - 1 :]}"
    wrong = next(one for body in script.bodies for one in body.every if one.line == it.line)
    return text[: wrong.start] + text[wrong.end :]


class Silent(Case):
    def setUp(self):
        super().setUp()
        self.program = PROGRAM if of_c.lacking() else IN_PROCESS
        if self.program == IN_PROCESS:
            os.environ.update(of_c.environment())
        self.dice, self.plan = random.Random(SEED), self.write("plan.toml", PLAN)

    def warned(self, text):
        """What is warned of; None if the script is refused."""
        try:
            return camac.warnings(self.plan, self.write("a.script", text), self.program)
        except camac.Refused:
            return None

    def made(self):
        """A script that is accepted, mostly, with the least headings."""
        if self.dice.random() < 0.5:
            text = make_beginner(self.dice)
            return propose("@sample", text, self.program).applied(text).decode()
        maker = ScriptMaker(self.dice, sample_plan())
        maker.make()
        return text_of(maker.nodes) if maker.repair() else ""

    def clean(self):
        """A script of which nothing silent is warned, with headings that leave room; None if that is not found soon."""
        text = f"cdlam other 1 1 7 0\nvar z1 z2 z3\n{self.made()}{OTHER}"
        body = next((it for it in read_script(text.encode()).bodies if it.is_service), None)
        text = edited(text.encode(), [Edit(one.start, one.end, most) for one, most in zip(body.numbers, MOST)]).decode()
        for _ in range(40):
            found = self.warned(text)
            silent = [it for it in found or () if it.code in SILENT and not re.search("`z[123]`", it.text)]
            if found is None or "parameter" in "".join(it.text for it in silent):
                return None
            if not silent:
                return text
            text = without(text, silent[-1])
        return None

    def reached(self, text):
        """The name of the first service, its line, and those of its statements that are reached."""
        body = next(it for it in camac.costs(self.plan, self.write("a.script", text), self.program) if it.gl)
        return body.name, body.line, [it.line for it in body.rows if it.times and it.word != "else"]

    def mistakes(self, text):
        """Of each mistake ways to make it: the script with it, the line, and the code."""
        name, heading, places = self.reached(text)
        lines = text.split("\n")

        def put(new, which, code, at):
            new = [it.format(name) if it.startswith("cclm") else it for it in new]
            return "\n".join([*lines[: at - 1], *new, *lines[at - 1 :]]), at + which, code

        for what, ways in ANYWHERE.items():
            yield what, [put(*self.dice.choice(ways), self.dice.choice(places)) for _ in range(20)]
        yield "a flag comes before any cycle", [put([f"if {self.dice.choice(('q', 'not x'))} {{", "put 1", "}"], 0, Code.EARLY_FLAG, places[0])]
        yield "a name is never used", [put([self.dice.choice(DECLARED)], 0, Code.UNUSED_NAME, 1)]
        cleared = [it for at, it in enumerate(lines, 1) if it.strip() != f"cclc {name}"]
        if not re.search(r"cf?s?sa 10 |call ", text):
            yield "the look-at-me is never cleared", [("\n".join(cleared), heading, Code.UNKEPT)]

    def test_mistakes(self):
        tried, wanted, count = collections.Counter(), MANY if is_whole else FEW, 0
        while len(tried) < 14 or min(tried.values()) < wanted:
            text = self.clean()
            if text is None or len(self.reached(text)[2]) < 3:
                continue
            count += 1
            codes = {it.code for it in self.warned(text) if not re.search("`z[123]`", it.text)}
            for what, ways in self.mistakes(text):
                for wrong, line, code in ways:
                    found = self.warned(wrong)
                    if found is not None:
                        self.assertNotIn(code, codes, text)
                        self.assertIn((line, code), [(it.line, it.code) for it in found], f"{what}\n{wrong}")
                        tried[what] += 1
                        break
        if is_whole:
            print(f"{count} scripts\n" + "".join(f"{what}: {times}\n" for what, times in sorted(tried.items())))


if __name__ == "__main__":
    is_whole = "--whole" in sys.argv
    unittest.main(argv=[it for it in sys.argv if it != "--whole"])
