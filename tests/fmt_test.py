#!/usr/bin/env python3
"""Tries the layout of scripts (camac-fmt): the examples have it, it keeps tokens and comments, a second layout changes nothing, and the verdict and the event
file of a run are as before; so they are with a name that is another one (camac-lsp).

usage: tests/fmt_test.py [-v] [TEST ..]     from any folder; takes some seconds

CAMAC_CASES is how many random scripts are tried, 60 if it is not set; SEED begins them. If the library for C is there (tests/support/of_c.py), it
judges, else what needs it is left out.
"""
import os
import random
import re
import unittest

from support import of_c
from support.live import TOP, Case
from camac import library
from camac.layout import LayoutFault, _kept, formatted
from camac.lsp.documents import Text
from camac.lsp.protocol import ResponseError
from camac.lsp.symbols import renamed
from camac.lsp.workspace import Judge, Judged
from camac.names import Names
from camac.texts import SAMPLE, edited, plan_text
from camac.tokens import rows_of, tokens_of
from oracle.cases import edge_case, script_case

CASES = int(os.environ.get("CAMAC_CASES", "60"))
SEED = os.environ.get("SEED", "1")
HEAD = "cdlam adc 1 1 5 12\nservice adc within 9 cycles event 9 words {\n"
# What is in a service, and how it is laid out.
BODIES = [
    ("put 1  put 2", "  put 1\n  put 2\n"),
    ("put(1+2)*3-4/5", "  put (1 + 2) * 3 - 4 / 5\n"),
    ("if q{put 1}else{put 2}", "  if q { put 1 } else { put 2 }\n"),
    ("if q{put 1 put 2}", "  if q {\n    put 1\n    put 2\n  }\n"),
    ("if q{put 1}else{put 2 put 3}", "  if q {\n    put 1\n  } else {\n    put 2\n    put 3\n  }\n"),
    ("if q {\n put 1 }", "  if q {\n    put 1\n  }\n"),
    ("if q{ if x {} }", "  if q {\n    if x {}\n  }\n"),
    ("lock 1 { }", "  lock 1 {}\n"),
    ("lock 1 {\n\n\n}", "  lock 1 {}\n"),
    ("lock 1 { # a\n}", "  lock 1 {  # a\n  }\n"),
    ("if q { put 1 } # a\nelse { put 2 }", "  if q { put 1 }  # a\n  else { put 2 }\n"),
    ("put 1   #   a\t\nput 1000 # b", "  put 1     #   a\n  put 1000  # b\n"),
    ("put 1 # a\n\nput 1000 # b", "  put 1  # a\n\n  put 1000  # b\n"),
    ("\n\n# a\n\n\n# b\nput 1\n\n", "  # a\n\n  # b\n  put 1\n"),
    ("put 1 + # a\n 2 # b\n # c\n", "  put 1 +  # a\n      2    # b\n  # c\n"),
    ("put 1 +\n# a\n 2", "  put 1 +\n      # a\n      2\n"),
    ("for i=1 to 3 keep v in 0 .. 4,w in 1..2{v=1}", "  for i = 1 to 3 keep v in 0..4, w in 1..2 { v = 1 }\n"),
    ("for i=1 to 3 each{each=each+i}", "  for i = 1 to 3 each { each = each + i }\n"),
    ("while k>0 turns 3 by k{k=k-1}", "  while k > 0 turns 3 by k { k = k - 1 }\n"),
    ("call p ( 1,2 )", "  call p(1, 2)\n"),
    ("cfsa 0 r->v cfsa 16 r<-v v=v-1", "  cfsa 0 r -> v\n  cfsa 16 r <- v\n  v = v - 1\n"),
    ("put v < -1", "  put v < - 1\n"),
    ("put " + "+".join(["1234567890"] * 12), "  put " + " + ".join(["1234567890"] * 8) + " +\n      " + " + ".join(["1234567890"] * 4) + "\n"),
    ("\r\nput 1\r\nput 2\r\n", "  put 1\n  put 2\n"),
]
WHOLE = [
    ("", ""),
    ("# a", "# a\n"),
    ("\n\nvar a var b\n\n\n\nvar c", "var a\nvar b\n\nvar c\n"),
    ("table g=1 2\n3 table h = 4", "table g = 1 2 3\ntable h = 4\n"),
    ("proc p( a in 0..1,b in 0..2 )within 1 cycles event 0 words steps 1{}", "proc p(a in 0..1, b in 0..2) within 1 cycles event 0 words steps 1 {}\n"),
]


class Layout(unittest.TestCase):
    def test_examples(self):
        for it in sorted((TOP / "examples").rglob("*.script")):
            self.assertEqual(formatted(it.read_bytes()), it.read_bytes(), it)

    def test_bodies(self):
        for given, wanted in [*((f"{HEAD}{body}\n}}\n", f"{HEAD}{laid}}}\n") for body, laid in BODIES), *WHOLE]:
            with self.subTest(given=given):
                self.assertEqual(formatted(given.encode()).decode(), wanted)
                self.assertEqual(formatted(wanted.encode()).decode(), wanted)

    def test_bytes_of_comments(self):
        self.assertEqual(formatted(b"var a # \xff \xc3\xa4 \r\n"), b"var a  # \xff \xc3\xa4\n")

    def test_texts_without_layout(self):
        for text, line, said in [("var a\nvar $", 2, "the byte `$` begins no token"), ("var a }", 1, "this `}` closes nothing"), ("\nlock 1 {", 2, "this `{` is not closed")]:
            with self.assertRaises(LayoutFault) as why:
                formatted(text.encode())
            self.assertEqual((why.exception.line, str(why.exception)), (line, said))

    def test_blocks_in_blocks(self):
        """Sixteen may be open, and with one more no line is made."""
        self.assertEqual(formatted(b"if q {\n" * 16 + b"}" * 16).count(b"\n"), 31)
        for text, line in ((b"if q {\n" * 17 + b"}" * 17, 17), (b"{" * 1000 + b"}" * 1000, 1), (b"{" * 1000, 1)):
            with self.assertRaises(LayoutFault) as why:
                formatted(text)
            self.assertEqual((why.exception.line, str(why.exception)), (line, "more than 16 open `{`: deeper than a script may be"))

    def test_text_that_would_be_too_long(self):
        text = HEAD.encode() + b"if q {" + b"put 1\n" * 174_000 + b"}}"
        self.assertLess(len(text), 1_048_576)
        with self.assertRaises(LayoutFault):
            formatted(text)


class Command(Case):
    def test_files(self):
        bad = self.write("bad.script", "var a  var b")
        self.write("good.script", "var a\n")
        self.write("none.script", "var }")
        said = "camac: none.script:1: this `}` closes nothing\n"
        self.assertEqual(self.package("fmt", "--check", "bad.script", "good.script", "none.script"), (1, "bad.script: its layout is another one\n", said))
        self.assertEqual(bad.read_text(), "var a  var b")
        bad.chmod(0o640)
        self.assertEqual(self.package("fmt", "bad.script", "good.script"), (0, "", ""))
        self.assertEqual((bad.read_text(), bad.stat().st_mode & 0o777), ("var a\nvar b\n", 0o640))
        self.assertEqual(self.package("fmt", "none.script"), (1, "", said))
        self.assertEqual(self.file("none.script"), b"var }")
        lost = "camac: No such file or directory: lost.script\n"
        self.assertEqual(self.package("fmt", "lost.script"), (3, "", lost))
        bad.write_text("var a  var b")
        told = "bad.script: its layout is another one\n"
        self.assertEqual(self.package("fmt", "--check", "bad.script", "lost.script", "none.script", "bad.script"), (3, told + told, lost + said))
        self.assertEqual(self.package("fmt", "none.script", "lost.script", "bad.script"), (3, "", said + lost))
        self.assertEqual(bad.read_text(), "var a\nvar b\n")
        self.assertEqual(self.package("fmt"), (2, "", self.package("fmt")[2]))

    def test_standard_input(self):
        self.assertEqual(self.package("fmt", "-", given=b"var a var b"), (0, "var a\nvar b\n", ""))
        self.assertEqual(self.package("fmt", "-", given=b"var {"), (1, "", "camac: -:1: this `{` is not closed\n"))


@of_c.needed()
class RandomScripts(Case):
    """What the checker says of a script, and what a run of it does, stays with its layout and with other names."""

    @classmethod
    def setUpClass(cls):
        os.environ.update(of_c.environment())

    def cases(self):
        for number in range(CASES):
            chance = random.Random(f"{SEED} {number}")
            yield number, chance, (edge_case if number % 4 == 3 else script_case)(chance).inputs

    def told(self, plan, script, answers):
        """The verdict, without the lines of refusals, and what a run lists and writes."""
        verdict = library.tell("check", plan, script)
        run = library.run(plan, script, answers or b"") if verdict.accepted else None
        return re.sub(r" line \d+", "", verdict.text), run

    def test_layout(self):
        tried = 0
        for number, _, case in self.cases():
            with self.subTest(number=number):
                plan = plan_text(SAMPLE) if case.plan is None else case.plan
                try:
                    made = formatted(case.script)
                except LayoutFault:
                    self.assertRegex(library.tell("check", plan, case.script).text, "refused [SP]")
                    continue
                tried += 1
                self.assertEqual([it.text for it in tokens_of(made)], [it.text for it in tokens_of(case.script)])
                self.assertEqual(_kept(rows_of(made)), _kept(rows_of(case.script)))
                self.assertEqual(formatted(made), made)
                self.assertEqual(self.told(plan, made, case.answers), self.told(plan, case.script, case.answers))
        self.assertGreater(tried, CASES // 2)

    def test_rename(self):
        tried = 0
        for number, chance, case in self.cases():
            plan = plan_text(SAMPLE) if case.plan is None else case.plan
            text = Text(case.script.decode("utf-8", "replace"))
            judged = Judged(Judge(plan, str(self.room)), text)
            mentions = judged.names.mentions
            if not mentions or not judged.ask("check").accepted:
                continue
            with self.subTest(number=number):
                mention, new = chance.choice(mentions), chance.choice(("other", "cfs", "n" * 32, "Q", "service1"))
                try:
                    made = edited(text.data, renamed(judged, mention, new))
                except ResponseError:
                    self.assertIn(new, {it.symbol.name for it in mentions})
                    continue
                tried += 1
                name = mention.symbol.name
                told = self.told(plan, text.data, case.answers), self.told(plan, made, case.answers)
                self.assertNotIn(name, [it.symbol.name for it in Names(made).mentions if it.symbol.body == mention.symbol.body])
                self.assertEqual(*(re.sub(rf"\b({name}|{new})\b", "it", repr(one)) for one in told))
        self.assertGreater(tried, CASES // 4)


if __name__ == "__main__":
    unittest.main()
