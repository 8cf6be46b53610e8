#!/usr/bin/env python3
"""Tests of `python3 -m camac check`: its warnings (docs/REFUSALS.md), lines, JSON and statuses.

usage: tests/warn_test.py [-v] [TEST ..]     from any folder; takes a few seconds
"""
import json
import os
import re
from unittest import mock

from support.live import CLEARED, PROGRAM, TOP, Case, run_tests, script
from support.program import is_within
import camac
from camac.texts import edited
from camac.warn import Code

ACCEPTED = re.compile(r"^```camac accepted([^\n]*)\n(.*?)^```$", re.M | re.S)
PAGE = (TOP / "docs/REFUSALS.md").read_text()
READ = "cdreg r 1 1 5 0\ncfsa 0 r -> v"
# Two modules that may call.
TWO = """[[type]]
name = "T"
commands = [ { f = 10, a = 0 }, { f = 24, a = 0 }, { f = 26, a = 0 } ]
[[crate]]
number = 1
station = [ { n = 5, type = "T", gl = 3 }, { n = 6, type = "T", gl = 7 } ]
"""
# Headings over several lines, with comments, and numbers that are right in another spelling.
DRAFT = b"""cdlam adc 1 1 5 12  # service x within 9 cycles\r\nproc read(a in 0..15)\r
  within 90 # within 7 cycles {\r
  cycles event 001 words\tsteps 99{ cdreg r 1 1 5 a cfsa 0 r -> a put a }\r
\r
# \xff\xfe\r
service adc within 0 cycles event 2 words { call read(0)\rcall read(11) cclc adc }  # the end"""
LEAST = DRAFT.replace(b"within 90", b"within 3").replace(b"steps 99", b"steps 3").replace(b"within 0", b"within 9")


OF_BOUNDS = {*list(Code)[: list(Code).index(Code.DROPPED)]} - {Code.UNKEPT}
ODD = CLEARED.replace("event 0", "event 1").replace("cclc adc", "put 1")


def advice(code):
    """Why and what helps, as the page has it."""
    return [f"{word}: {text}" for word, text in re.findall(r"(?m)^- \*\*(Why|Fix):\*\* (.*)$", PAGE.partition(f"### {code}: ")[2].partition("\n### ")[0])]


class Warnings(Case):
    def setUp(self):
        super().setUp()
        patch = mock.patch.dict(os.environ, CAMAC_PROGRAM=PROGRAM)
        patch.start()
        self.addCleanup(patch.stop)

    def codes(self, text, *wanted, plan="@sample"):
        """The lines and codes of the warnings of a script: those that are wanted, or all that are about no name and no word."""
        found = camac.warnings(plan, self.write("a.script", text))
        return [(it.line, it.code.value) for it in found if it.code in (wanted or OF_BOUNDS)]

    def test_page(self):
        """It has a line that shows each code."""
        (odd,) = re.findall(r"(?ms)^```camac accepted odd.script on (\S+)\n(.*?)^```", PAGE)
        shown = [(line, code) for line, it in enumerate(odd[1].splitlines(), 1) for code in re.findall(r"W\d+", it)]
        found = {(it.line, it.code.value) for it in camac.warnings(TOP / odd[0], self.write("a.script", odd[1]))}
        self.assertEqual(found, set(shown))
        self.assertEqual({code for _, code in shown}, {it.value for it in Code} - {"W5"})

    def test_unreached(self):
        """The first statement of each block has a warning, and no statement in a block of it."""
        read = READ.split("\n")
        for body, wanted in [
            ([*read, "if v > 4095 { put v }", "cclc adc"], [(6, "W16")]),
            ([*read, "if v > 4095 {", "if q { put 1 }", "put 2 }", "if v > 5000", "{", "put 3 }"], [(6, "W16"), (9, "W16")]),
            ([*read, "if v < 4096 { put 1 }", "else {", "put 2 }"], [(6, "W16")]),
            ([*read, "if v < 4096 { }", "if v > 0 { if v == 0 { put v } else { } }"], [(6, "W16"), (7, "W16")]),
            ([*read, "for i = 5 to 4 {", "put 1", "put 2 }"], [(7, "W1")]),
            ([*read, "while k > 0 turns 4 by k { k = k - 1 }", "put 1"], [(6, "W16")]),
            ([*read, "if v < 4095 { put v }", "for i = 0 to 3 each { if i < 3 { put 1 } }", "for i = 0 to 3 each { if i < 4 { put 1 } }"], [(8, "W16")]),
        ]:
            with self.subTest(body=body):
                self.assertEqual(self.codes(script(body), Code.UNREACHED, Code.DECIDED), wanted)

    def test_empty_scan(self):
        backwards = script(["cdreg r 1 1 5 11", "cdreg last 1 1 5 0", "cfmad 0 r last max 12 tally t", "cclc adc"])
        self.assertEqual(self.codes(backwards), [(6, "W2")])
        self.assertEqual(self.codes(backwards.replace("last max 12", "r max 0")), [(6, "W2")])
        self.assertEqual(self.codes(backwards.replace("0 r last", "0 last r")), [])

    def unkept(self, plan, text):
        """The lines and sentences of W3."""
        found = camac.warnings(plan, self.write("a.script", text))
        return [(it.line, it.text) for it in found if it.code is Code.UNKEPT]

    def test_unkept(self):
        """Each line `unkept` of `response` is a warning at its line."""
        plan = self.write("plan", TWO)
        left = "this service does not clear its look-at-me on every way: write `cclc {0}`"
        cleared, hidden = "`{1}` may clear the look-at-me of `{0}`: leave that to `{0}`", "`{1}` may hide the look-at-me of `{0}`: leave it enabled, and the demand output on"
        for adc, reg, wanted in [
            ("cclc adc", "cclc reg", []),
            ("if q { cclc adc }", "cclc reg", [(2, left.format("adc"))]),
            ("", "cclc reg", [(2, left.format("adc"))]),
            ("cclc adc", "cclc reg\ncclc adc", [(7, cleared.format("adc", "reg"))]),
            ("cclc adc\ncclm adc off", "cclc reg", [(4, hidden.format("adc", "adc"))]),
            ("cclc adc", "cccd 1 off", [(5, left.format("reg")), (6, hidden.format("adc", "reg")), (6, hidden.format("reg", "reg"))]),
            ("cclc adc", "cclc reg cccz 1", [(6, cleared.format("adc", "reg")), (6, hidden.format("adc", "reg")), (6, hidden.format("reg", "reg"))]),
            # a script that initialises crates, and keeps nothing of it
            ("cccz 1 cclm adc on cclm reg on", "cccd 1 on call start()", []),
        ]:
            with self.subTest(adc=adc, reg=reg):
                start = "proc start() within 1 cycles event 0 words steps 1 { cccz 1 } "
                text = f"{start}cdlam adc 1 1 5 0 cdlam reg 1 1 6 0\n" + "".join(
                    f"service {name} within 9 cycles event 0 words {{\n{body}\n}}\n" for name, body in (("adc", adc), ("reg", reg))
                )
                self.assertEqual(self.unkept(plan, text), wanted)

    def test_deep_procedures(self):
        """Each procedure is looked at once: 13 of them, each of which calls the one before four times, take no second."""
        heads = [f"proc p{k}() within 0 cycles event 0 words steps 0 {{" for k in range(13)]
        bodies = ["", *("".join(f" call p{k}()" for _ in range(4)) for k in range(12))]
        text = script(["call p12()"]).replace("service", "".join(f"{head}{body} }}\n" for head, body in zip(heads, bodies)) + "service")
        for head, least in zip(heads, camac.bounds("@sample", self.write("a.script", text))):
            text = text.replace(head, f"{least.line} {{")
        self.assertTrue(is_within(1, lambda: self.assertEqual([line for line, _ in self.unkept("@sample", text)], [16])))

    def test_unused_and_wide_keep(self):
        loop = "for i = 0 to 3 keep {} {{ {} }}"
        for keep, body, after, wanted in [
            ("k in 0..9", "k = 1", "put v", [(4, "W4")]),
            ("k in 0..1", "k = 1", "put k", []),
            ("k in 0..9", "k = 1", "put k", [(4, "W8")]),
            ("k in 0..1, v in 0..9", "k = 1 v = 2", "put k", [(4, "W4")]),
            ("v in 0..9, k in 0..1", "k = 1 v = 2", "put k", [(4, "W4")]),
            ("v in 0..9,\n t in 0..3, k in 0..9", "k = 1 v = 2 t = 3", "put k", [(4, "W4"), (5, "W4"), (5, "W8")]),
            ("k in 0..1,\n v in 0..2", "k = 1 v = 2", "put k + v", []),
            ("k in 0..9,\n v in 0..9", "k = 1 v = 2", "put k + v", [(4, "W8"), (5, "W8")]),
            # the least ranges of two that go round together
            ("k in 0..9,\n v in 0..9", "t = k k = v v = t", "put k + v", [(4, "W8"), (5, "W8")]),
            # a range that is too wide because of a bound that is not needed is not shown while that bound is there
            ("k in 0..4095,\n v in 0..4095", "if k < v { k = k + 1 }", "put k", [(5, "W4")]),
            ("k in 0..16777215", "if k < 100 { k = k + 7 }", "put k", [(4, "W8")]),
            ("k in 0..106", "if k < 100 { k = k + 7 }", "put k", []),
        ]:
            with self.subTest(keep=keep, body=body, after=after):
                self.assertEqual(self.codes(script([loop.format(keep, body), after, "cclc adc"])), wanted)

    def test_least_ranges_are_told(self):
        text = script(["for i = 0 to 11", "keep k in 0..16777215 {", *READ.split("\n"), "if v > k { k = v } }", "put k", "cclc adc"])
        (found,) = [it for it in camac.warnings("@sample", self.write("a.script", text)) if it.code in OF_BOUNDS]
        self.assertEqual((found.line, found.text), (5, "this kept bound of `k` is wider than it has to be: `k in 0..4095` is accepted, too"))

    def test_each(self):
        """A loop whose turns do not cost the same pays for less turn by turn. What is less is told."""
        read = "cfsa 0 r -> v"
        for head, block, less in [
            ("for i = 0 to 15", f"put i if i < 8 {{ {read} }}", "24 cycles in place of 48"),
            ("for i = 0 to 15", f"if i >= 12 {{ {read} put v }}", "12 cycles in place of 48 and 5 words in place of 17"),
            ("for i = 0 to 15", f"if i / 8 == 0 {{ {read} }} else {{ put 1 }}", "24 cycles in place of 48 and 9 words in place of 17"),
            ("for i = 0 to 3", f"for k = 0 to i {{ {read} }}", "30 cycles in place of 48"),
            ("for i = 0 to 3 keep k in 0..4", f"if i < 2 {{ {read} if k < 4 {{ k = k + 1 }} }}", "6 cycles in place of 12"),
            # nothing is less, or it may not be judged so, or it is
            ("for i = 0 to 15", f"if i < 8 {{ {read} }} else {{ cfsa 0 r -> k }}", None),
            ("for i = 0 to k", f"if i < 8 {{ {read} }}", None),
            ("for i = 0 to 65534", f"if i < 8 {{ {read} }}", None),
            ("for i = 0 to 15", f"{read} if v < 8 {{ put 1 }}", None),
            ("for i = 0 to 15 each", f"if i < 8 {{ {read} }}", None),
        ]:
            with self.subTest(head=head, block=block):
                text = script(["cdreg r 1 1 5 0", f"{head} {{ {block} }}", "put k" if "keep" in head else "put 1"], 999_999, 99)
                found = [it for it in camac.warnings("@sample", self.write("a.script", text)) if it.code is Code.EACH]
                told = "judged turn by turn (`each`), this loop has a lower bound: `adc` then takes {}"
                self.assertEqual([it.text for it in found], [told.format(less)] if less else [])
                fixed = f"{head.partition(' keep')[0]} each {{"
                self.assertEqual([fixed in edited(text.encode(), it.edits).decode() for it in found], [True] * len(found))

    def test_each_in_a_procedure(self):
        body = "for s = 0 to 11 { if s < 4 { cdreg r 1 1 5 s cfsa 0 r -> v put v } }"
        procedure = f"proc get(s in 0..0, v in 0..0) within 36 cycles event 12 words steps 85 {{\n{body}\n}}\n"
        text = f"cdlam adc 1 1 5 12\n{procedure}service adc within 36 cycles event 12 words {{ call get(0, 0) }}\n"
        found = [(it.line, it.text) for it in camac.warnings("@sample", self.write("a.script", text)) if it.code is Code.EACH]
        told = "judged turn by turn (`each`), this loop has a lower bound: `get` then takes 12 cycles in place of 36 and 4 words in place of 12"
        self.assertEqual(found, [(3, told)])

    def test_no_service(self):
        for text in ("", "# nothing\n", "cdlam adc 1 1 5 12\nvar v\n", script(["cclc adc"]).replace("\n", "\r").replace("cdlam", "#\rcdlam")):
            with self.subTest(script=text):
                self.assertEqual(self.codes(text), [(1, "W5")])

    def test_held_up(self):
        """Services of a bit and so many cycles, each on a line. With the greatest bit for the longer one, `end` of `response` is less by what is
        in progress."""
        one = "(bit {}, cycles {})"
        for services, wanted in [
            ([(1, 3), (2, 25), (3, 10), (4, 2)], {(3, 10): ((2, 25), (4, 2))}),
            ([(4, 2), (3, 10), (2, 25), (1, 3)], {(3, 10): ((2, 25), (4, 2))}),
            # the longest has the greatest bit, or the lowest
            ([(1, 10), (2, 3), (3, 2), (4, 25)], {}),
            ([(1, 25), (2, 3), (3, 10), (4, 2)], {}),
            # nothing is in progress that counts
            ([(1, 3), (2, 25), (3, 10)], {}),
            ([(1, 3), (2, 25), (3, 10), (4, 0)], {}),
            # as long as itself is not longer; what is in progress may be as long as the longer one, and no longer
            ([(1, 3), (2, 10), (3, 10), (4, 2)], {}),
            ([(1, 3), (2, 11), (3, 10), (4, 11)], {(3, 10): ((2, 11), (4, 11))}),
            ([(1, 3), (2, 11), (3, 10), (4, 12)], {}),
            ([(1, 1), (2, 14), (3, 12), (5, 3), (7, 9), (9, 4)], {(3, 12): ((2, 14), (7, 9)), (5, 3): ((2, 14), (7, 9)), (7, 9): ((2, 14), (9, 4))}),
        ]:
            with self.subTest(services=services):
                plan, script = self.bits(services)
                found = {services[it.line - 1]: it.text for it in camac.warnings(plan, script) if it.code is Code.HELD_UP}
                self.assertEqual(found.keys(), wanted.keys())
                ends = {it.gl: it.end for it in camac.response(plan, script)}
                for it, (longer, later) in wanted.items():
                    both = f"`s{longer[0]}` {one.format(*longer)} and by `s{later[0]}` {one.format(*later)}"
                    self.assertEqual(found[it], f"this service {one.format(*it)} can be held up by {both}; with the greatest bit for `s{longer[0]}`, by one of them")
                    last = {at.gl: at.end for at in camac.response(*self.bits([(23 if at == longer else at[0], at[1]) for at in services]))}
                    self.assertEqual(ends[it[0]] - last[it[0]], later[1])

    def bits(self, services):
        """A plan and a script with these services, in a crate without waits."""
        stations = ", ".join(f'{{ n = {bit}, type = "T", gl = {bit} }}' for bit, _ in services)
        plan = f'[[type]]\nname = "T"\ncommands = [ {{ f = 10, a = 0 }} ]\n[[crate]]\nnumber = 1\nstation = [ {stations} ]\n'
        lams = " ".join(f"cdlam s{bit} 1 1 {bit} 0" for bit, _ in services)
        lines = [f"service s{bit} within 99 cycles event 0 words {{ {f'cclc s{bit} ' * cycles}}}\n" for bit, cycles in services]
        return self.write("plan", plan), self.write("a.script", f"{lams} {''.join(lines)}")

    def test_silent(self):
        """Bodies that get a code at a line, from 1, and such that do not."""
        read, guard = "cfsa 0 r -> v", "for i = 1 to {} keep k in 0..65520 {{\n cfsa 0 r -> v\n if k <= 65520 - 4095 {{ k = k + v }}{}\n }} put k"
        outer = "for t = 1 to {} keep k in 0..65520 {{ {}for i = 1 to 4 keep k in 0..65520 {{ cfsa 0 r -> v\n if k <= 61425 - 0 {{ k = v + k }} }} }} put k"
        proc = "proc p(s in 0..3, n in 0..3) within {} cycles event 0 words steps 4 {{ {} }}\n"
        for code, wrong, right in [
            (Code.DROPPED, {read: 2, f"{read} {read} put v": 2, f"for i = 1 to 3 {{ {read} }} put k": 2, f"put v {read}": 2, f"if q {{ {read} }} put k": 2}, [
                f"{read} if q {{ put 1 }}", f"{read} call p(1, 2)", f"for i = 1 to 3 each {{ put v {read} }}", f"{read} cdreg w 1 1 5 v % 12", "cfubc 0 r max 2 tally t",
                f"while t > 0 and not q turns 3 by t {{ t = t - 1 {read} }}", f"{read} if x {{ v = 1 }}", f"{read} for i = 1 to v % 8 {{ put i }}",
            ]),
            (Code.ONE_NUMBER, {"put v": 2, "v = 3 put v * 4": 2, f"{read} put v / 4096": 2, f"{read} k = v / 8192 put k + 2": 2, "for i = 1 to 9 { put k }": 2, "if q { k = 0 } put k": 2}, [
                "put 7", "put 4095 * 2", f"{read} put v / 4095", f"{read} put v % 2", "if q { k = 1 } put k", "for i = 1 to 9 each { put k k = 1 }", "for i = 1 to 2 { put i }",
            ]),
            (Code.UNSET, {"v = v + 1 put v": 2, "if k < 3 { put 1 }": 2, "for i = 1 to 3 { v = k + 1 } put v % 9": 2, "cdreg w 1 1 5 v": 2}, [
                "for i = 1 to 3 each { v = v + 1 } put v", "for i = 1 to 3 { if i > k { k = i % 4 } }", "put v", "v = 1 put v", "if q { v = 1 } put v", "cfubc 0 r max 2 tally t put t",
            ]),
            (Code.TWINS, {f"cdreg w 1 1 5 0\n{read} cfsa 0 w -> k": 2, f"k = 4 cdreg w 1 1 5 k - 4\n{read} cfsa 0 w -> k": 2}, [
                f"cdreg w 1 1 5 1 {read} cfsa 0 w -> k", "cdreg w 1 1 5 0 cfubc 0 w max 2 tally t", f"{read} cdreg r 1 1 5 1 cdreg w 1 1 5 0 cfsa 0 w -> k", f"cdreg r 1 1 5 0 {read}",
                f"cdreg w 1 1 5 15 cfmad 0 r w max 12 tally t {read}", f"for i = 0 to 3 {{ cdreg w 1 1 5 i cfsa 0 w -> k }} {read}",
            ]),
            (Code.EARLY_FLAG, {"if not q { put 1 }": 2, "for i = 1 to 3 { if x { put 1 } }": 2, "call none() if q { put 1 }": 2, "k = 2 while k > 0 and q turns 2 by k { k = k - 1 }": 2}, [
                "cclc adc if q { put 1 }", "call p(1, 2) if q { put 1 }", "for i = 1 to 3 { if x { put 1 } ctlm adc }", f"k = 2 while k > 0 and not q turns 2 by k {{ k = k - 1 {read} }}",
                f"if v == 0 {{ {read} }} if q {{ put 1 }}", "cfubc 0 r max 2 tally t if q { put 1 }",
            ]),
            (Code.LEADING_ZERO, {"put 0777": 2, "put 1 + 0010": 2}, ["put 0", "put 00", "put 07", "put 019", "put 777", "put 1 # 0777"]),
            (Code.LEFT_OUT, {guard.format(17, ""): 4, guard.format(1000, ""): 4, outer.format(5, ""): 3}, [
                guard.format(16, ""), guard.format(17, " else { t = 1 }"), guard.format(17, " else { }"), outer.format(4, ""), outer.format(9, "k = 0 "), "if k <= 9 - 4 { k = k + 4 } put k",
                "for i = 1 to 99 keep k in 0..4 { if k < 4 { k = k + 1 } } put k",
            ]),
        ]:
            for body, line in [*wrong.items(), *((it, None) for it in right)]:
                with self.subTest(code=code.value, body=body):
                    procedures = f"{proc.format(3, 'if q { s = 0 n = 1 } ctlm adc')}proc none() within 0 cycles event 0 words steps 0 {{ }}\n"
                    text = script(["cdreg r 1 1 5 0", *body.split("\n")], 99_999, 4096).replace("var", f"{procedures}var")
                    found = [it.line for it in camac.warnings("@sample", self.write("a.script", text)) if it.code is code and it.line > 3]
                    self.assertEqual(found, [line + 5] if line else [])

    def test_unused_names(self):
        """Each that is declared for nothing, and none that only a service, a table's write, a tally or a call uses."""
        used = "table g = 1\nvar t\nproc p(s in 0..1) within 0 cycles event 0 words steps 1 { s = 1 }\n"
        more = "table h = 1\ncdlam full 1 1 5 13\nvar v\nproc none(n in 0..1) within 0 cycles event 0 words steps 0 { }\n"
        body = "call p(1) cdreg r 1 1 6 0 cfubc 16 r table g max 1 tally t {}cclc adc"
        for declared, register, wanted in (("", "", []), (more, "cdreg w 1 1 5 0 ", ["table `h`", "LAM `full`", "variable `v`", "parameter `n`", "procedure `none`", "register `w`"])):
            text = declared + used + CLEARED.replace("within 3", "within 6").replace("cclc adc", body.format(register))
            found = sorted((it.line, it.text) for it in camac.warnings("@sample", self.write("a.script", text)))
            self.assertEqual([it for _, it in found], [f"the {it} is never used" for it in wanted])

    def test_comments_may_hold_anything(self):
        text = CLEARED.replace("cclc adc", "cclc adc  # keep x in {{ cdreg 0777 \xff").encode("latin-1")
        (self.room / "a.script").write_bytes(text)
        self.assertEqual(camac.warnings("@sample", self.room / "a.script"), [])

    def test_examples(self):
        """Nothing is found in them."""
        alone = {"too_few_cycles.script", "three_modules.script"}
        on_sample = [it for it in sorted((TOP / "examples").glob("*.script")) if it.name not in alone]
        for plan, scripts in [("@sample", on_sample), (TOP / "examples/three_crates.toml", [TOP / "examples/three_modules.script"])]:
            for it in scripts:
                with self.subTest(script=it.name):
                    self.assertEqual(camac.warnings(plan, it), [])
        for bench in sorted((TOP / "examples/benches").iterdir()):
            for name in ("start.script", "readout.script"):
                self.assertEqual(camac.warnings(bench / "plan.toml", bench / name), [])

    def test_pages(self):
        """The scripts of the pages that are accepted, on plans that are files or stand there, are meant, but for the examples of warnings."""
        tried = 0
        for page in [TOP / "README.md", *sorted((TOP / "docs").rglob("*.md"))]:
            text = page.read_text()
            plans = {name: self.write(name, plan) for name, plan in re.findall(r"(?ms)^```toml (\S+\.toml)\n(.*?)^```", text)}
            for words, script in ACCEPTED.findall(text) if page.name != "REFUSALS.md" else ():
                name = words.partition(" on ")[2] or "@sample"
                plan = plans.get(name, name if name == "@sample" else TOP / name)
                if name == "@sample" or plan.is_file():
                    tried += 1
                    with self.subTest(page=page.name, script=script):
                        self.assertEqual(self.codes(script, *set(Code) - {Code.UNKEPT}, plan=plan), [])
        self.assertGreater(tried, 15)


class Command(Case):
    def command(self, *words):
        status, out, err = self.package("check", *words)
        self.assertEqual(err if status != 2 else "", "")
        return status, out

    def test_no_program(self):
        """A program that is not there is no fault of the plan."""
        ran = self.package("check", "@sample", self.write("a.script", script(["cclc adc"])), CAMAC_PROGRAM=str(self.room / "nowhere"))
        self.assertEqual(ran, (3, "", f"camac: No such file or directory: {self.room}/nowhere\n"))

    def test_statuses(self):
        self.write("good", CLEARED)
        self.write("odd", ODD)
        self.write("bad", script(["put w"]))
        self.write("two", "proc p() within 0 cycles event 1 words steps 1 {\n  put 16777216\n}\n\nproc later() within 0 cycles event 0 words steps 9 { cdreg r 1 1 6 0  cfsa 27 r }\n")
        self.write("plan", "[[types]]\n")
        calling = "odd:2: warning W3: this service does not clear its look-at-me on every way: write `cclc adc`\n"
        for words, status, printed in [
            (["@sample", "good"], 0, ""),
            (["@sample", "odd"], 0, calling),
            (["--strict", "@sample", "odd"], 1, calling),
            (["--strict", "@sample", "good"], 0, ""),
            (["@sample", "bad", "good"], 1, "bad:4:5: refused S5: name not declared\n"),
            (["@sample", "none", "bad"], 3, "none: fault: No such file or directory\nbad:4:5: refused S5: name not declared\n"),
            (["@sample", "two"], 1, "two:2:3: refused E16: word above 24 bits\ntwo:5:1: refused E12: more cycles than annotated\n"),
            (["plan", "good", "odd"], 1, "plan:1:3: refused P2: unknown key\n"),
            (["good", "plan"], 1, "good:1:7: refused P1: not TOML (PLAN comes first, then SCRIPT)\n"),
            (["none", "good"], 3, "none: fault: No such file or directory\n"),
            (["@sample", "@in"], 2, ""),
            (["@sample"], 2, ""),
        ]:
            with self.subTest(words=words):
                self.assertEqual(self.command(*words), (status, printed))

    def test_json(self):
        self.write("odd", ODD)
        self.write("bad", script(["put w"]))
        status, printed = self.command("--json", "@sample", "odd", "bad")
        odd, bad = json.loads(printed)
        self.assertEqual((status, odd["accepted"], odd["found"][0]["code"], odd["services"][0]["words"]), (1, True, "W3", 1))
        self.assertEqual(odd["found"][0]["explanation"], [*advice("W3"), "More: docs/REFUSALS.md, W3"])
        explanation = bad["found"][0].pop("explanation")
        self.assertEqual((explanation[0], explanation[-1]), ("    4 | put w", "More: docs/REFUSALS.md, S5"))
        self.assertEqual(bad, {"file": "bad", "accepted": False, "found": [{"kind": "refused", "line": 4, "code": "S5", "text": "name not declared", "column": 5}], "services": []})
        self.write("plan", "[[types]]\n")
        plan = json.loads(self.command("--json", "plan", "odd")[1])
        self.assertIn("`types`", plan[0]["found"][0]["explanation"][0])
        self.assertEqual(self.command("--format", "json", "@sample", "odd", "bad")[1], printed)

    def test_github(self):
        """Workflow commands, in which a comma, a colon, a percent sign and the end of a line are escaped."""
        self.write("100%,a:b", ODD)
        self.write("bad", script(["put w  # 5%"]))
        status, printed = self.command("--format", "github", "@sample", "100%,a:b", "bad", "none")
        odd, bad, none = printed.splitlines()
        calling = "this service does not clear its look-at-me on every way: write `cclc adc`"
        self.assertEqual((status, odd), (3, "%0A".join([f"::warning file=100%25%2Ca%3Ab,line=2,title=warning W3::{calling}", *advice("W3"), "More: docs/REFUSALS.md, W3"])))
        self.assertTrue(bad.startswith("::error file=bad,line=4,col=5,title=refused S5::name not declared%0A    4 | put w  # 5%25%0A"), bad)
        self.assertEqual(none, "::error file=none,title=fault::No such file or directory")

    def test_write(self):
        """The least headings are put into the script, and nothing else of it changes."""
        file = self.room / "a.script"
        file.write_bytes(DRAFT)
        file.chmod(0o640)
        (self.room / "link").symlink_to("a.script")
        printed = "link:2: written: proc read(a in 0..15) within 3 cycles event 1 words steps 3\nlink:7: written: service adc within 9 cycles event 2 words\n"
        self.assertEqual(self.command("--write", "--strict", "@sample", "link"), (0, printed))
        self.assertEqual((file.read_bytes(), file.stat().st_mode & 0o777, (self.room / "link").is_symlink()), (LEAST, 0o640, True))
        before = file.stat()
        self.assertEqual(self.command("--write", "@sample", "a.script"), (0, ""))
        self.assertEqual((file.stat().st_ino, file.stat().st_mtime_ns), (before.st_ino, before.st_mtime_ns))
        self.assertEqual(sorted(it.name for it in self.room.iterdir()), ["a.script", "link"])

    def test_refused_headings(self):
        """A refusal that no heading fixes is shown, and the file is as it was. What a heading fixes is left out."""
        wide = DRAFT.replace(b"event 001", b"event 0").replace(b"call read(11)", b"put 16777216")
        for text, wanted, begins in (
            (wide, "refused E16: word above 24 bits", "    7 | service adc within 0 cycles event 2 words { call read(0)"),
            (wide.replace(b"event 0", b"event 1"), "refused E16: word above 24 bits", "    7 | service adc within 0 cycles event 2 words { call read(0)"),
            (b"service\n" + DRAFT, "refused S2: unexpected token", "    2 | cdlam adc 1 1 5 12  # service x within 9 cycles"),
        ):
            file = self.room / "a.script"
            file.write_bytes(text)
            before = file.stat()
            status, printed = self.command("--write", "--json", "@sample", "a.script")
            (found,) = json.loads(printed)[0]["found"]
            self.assertEqual((status, f"{found['kind']} {found['code']}: {found['text']}"), (1, wanted))
            self.assertEqual(found["explanation"][0][: len(begins)], begins)
            self.assertEqual((file.read_bytes(), file.stat().st_ino, file.stat().st_mtime_ns), (text, before.st_ino, before.st_mtime_ns))

    def test_write_many(self):
        """Each script is written for itself; a plan that is refused leaves all."""
        for name in ("a", "b"):
            (self.room / name).write_bytes(DRAFT)
        self.write("plan", "[[types]]\n")
        self.assertEqual(self.command("--write", "plan", "a", "b")[0], 1)
        self.assertEqual([self.file(it) for it in "ab"], [DRAFT] * 2)
        self.assertEqual(self.command("--write", "@sample", "a", "none", "b")[0], 3)
        self.assertEqual([self.file(it) for it in "ab"], [LEAST] * 2)


if __name__ == "__main__":
    run_tests()
