#!/usr/bin/env python3
"""Tests of what is told of wrong texts. Texts that are cut after each byte, and that have each byte changed: each refusal is explained in full. And a
hundred mistakes, by what they come from: answers, FORTRAN, C, Python, look-at-mes, the command line, TOML, number bases.

usage: tests/changes_test.py [-v] [TEST ..]     from any folder; takes some seconds
"""
import concurrent.futures
import re
import unittest

from support.program import Room, called, run_tests
from support.rows import SAMPLE

# A refusal with a whole explanation: the line of a script, a sentence of the case, and the texts of the rule or a hint.
SOURCE = rb"\Arefused ([PSLE]\d+)(?: line (\d+))?: [^\n]+\n(?(2) *\2 \| [^\n]*\n(?: *\| \s*\^\n)?)"
TOLD = rb"(?:[^\n]*[.?`]\nWhy: [^\n]+\nFix: [^\n]+|(?:[^\n]*[.?`]\n)?Fix: [^\n]+)\nMore: docs/REFUSALS\.md, \1\n"
EXPLANATION = re.compile(SOURCE + TOLD + rb"(?:(?:Set|Plan|Waits): [^\n]+\n)*\Z")

BYTES = (0x00, 0x0A, 0x21, 0x7B, 0xFF)

# A script with most forms of the language.
FORMS = b"""table g = 1 2 3
cdlam adc 1 1 5 12
proc get(s in 0..11) within 3 cycles event 1 words steps 3 {
cdreg r 1 1 5 s
cfsa 0 r -> s
put s
}
var v k t
service adc within 35 cycles event 6 words {
cdreg a 1 1 5 0
cdreg b 1 1 6 0
cfmad 0 a b max 3 tally t
cfubr 16 b table g max 3 limit 4 tally t
lock 1 { call get(3) }
k = 9
while k > 0 and not q turns 9 by k keep v in 0..4 { k = k - 1 }
if k < 3 and x { cclm adc on } else { ccci 1 off }
for v = 1 to 2 { put v % 3 * 2 }
}
"""


def answer(words, text):
    """Status, standard output and standard error of the program on this standard input."""
    return called(*words.split(), given=text)


def changed(text):
    """The text cut after each byte, and with each byte set to each of BYTES."""
    for size in range(len(text)):
        yield text[:size]
    for place in range(len(text)):
        for byte in BYTES:
            yield text[:place] + bytes([byte]) + text[place + 1 :]


class Changes(unittest.TestCase):
    def expect_sentences(self, words, text):
        """Each refusal of a changed text has its source line, a sentence of the case, and the texts of its rule."""
        with concurrent.futures.ThreadPoolExecutor(2) as pool:
            for made, (status, out, err) in zip(changed(text), pool.map(lambda it: answer(words, it), changed(text))):
                self.assertEqual((err, b"refused" in out), (b"", status == 1), made)
                if status:
                    self.assertRegex(out, EXPLANATION, made)

    def test_explanations(self):
        self.assertEqual(answer("check @sample @in", FORMS)[0], 0)
        self.expect_sentences("explain @sample @in", FORMS)

    def test_explanations_of_plans(self):
        self.expect_sentences("explain @in", SAMPLE)


# At least so many of a hundred are told right.
LEAST = 100
LINE = "1 1 123fff 0 000004\n"
FORM = "`x q word wait gl`, as `1 1 123fff 0 000004`"
PLAN = """[[type]]
name = "ADC"
commands = [ { f = 0, a = 0, to = 11, width = 12 }, { f = 10, a = 12 } ]
[[crate]]
number = 1
[[crate.station]]
n = 5
type = "ADC"
gl = 3
"""
SCRIPT = """cdlam adc 1 1 5 12
var v i
service adc within 9 cycles event 9 words {
  cdreg r 1 1 5 0
%s
}
"""

# The answers of a run, and what is told of them: the column, what stands there, and what has to.
ANSWERS = [
    ("1,1,123fff,0,000004\n", "column 2: found `,`; expected a space"),
    ("1\t1\t123fff\t0\t000004\n", "column 2: found a tab; expected a space"),
    ("1 1 123fff 0 000004\r\n", "column 20: found CR, which `tr -d '\\r'` removes; expected the end of the line"),
    ("# x q word wait gl\n" + LINE, "column 1: found a comment; expected x, 0 or 1"),
    ("CAMACEV2\n", "column 1: found an event file: ANSWERS comes before EVENTS; expected x, 0 or 1"),
    ("\n" + LINE, "column 1: found an empty line; expected x, 0 or 1"),
    ("1 1 123fff 10 000004\n", "column 13: found `0`; expected a space"),
    ("1 1 123ff 0 000004\n", "column 10: found a space; expected a hexadecimal digit of word"),
    ("2 1 123fff 0 000004\n", "column 1: found `2`; expected x, 0 or 1"),
    ("1 1 0x123f 0 000004\n", "column 6: found `x`; expected a hexadecimal digit of word"),
    ("1 1 123fff 0 4\n", "column 15: found the end of the line; expected a hexadecimal digit of gl"),
    ("1 1 123fff 0 000004 # first\n", "column 20: found a space; expected the end of the line"),
]

# What stands in a service below its register `r`, and what is told of it: of what is accepted, by `camac-check`.
FORTRAN = [
    ("CALL CFSA(0, R, V, Q)", "`cfsa 0 channel -> v`"),
    ("call cdreg(r, 1, 1, 5, 0)", "write this statement without it"),
    ("if (v .GT. 3) put v", "`>`"),
    ("if v.eq.3 { put v }", "`==`"),
    ("DO 10 I = 1, 12", "`for i = A to B { .. }`"),
    ("do i = 1, 12", "`for i = A to B { .. }`"),
    ("C  read the converter", "a comment begins with `#`"),
    ("! read the converter", "`#` before a comment"),
    ("write(*,*) v", "`put v`"),
    ("dimension words(12)", "several variables"),
    ("if (.not. q) put v", "`not`"),
    ("enddo", "`{` and `}`"),
]
C = [
    ("cfsa(0, r, &v, &q);", "`cfsa F REGISTER -> VARIABLE`"),
    ("cdreg(&r, 1, 1, 5, 0);", "`cdreg REGISTER 1 CRATE STATION SUB_ADDRESS`"),
    ("for (i = 0; i < 12; i++) { }", "`for VARIABLE = VALUE to VALUE { .. }`"),
    ("while (!q) { }", "`not`"),
    ("v = cfsa(0, r);", "`cfsa F REGISTER -> VARIABLE`"),
    ("unsigned short v = 0;", "`var`"),
    ('printf("%d", v);', "`put v`"),
    ("v |= 1;", "`v % 256`"),
    ("v = (v >> 8) & 255;", "`v % 256`"),
    ("if (v == 3 || v == 4) { }", "one `if` into the `else` of the other"),
    ("if (v > 3) { put v }", "Brackets are for expressions"),
    ("do { put v } while (q);", "`while c turns N by k { .. }`"),
]
PYTHON = [
    ("for i in range(12):", "`for i = A to B { .. }`"),
    ("while not q:", "`{` and `}`"),
    ("v = camac.read(5, 0, 0)", "`cfsa 0 r -> v`"),
    ("words.append(v)", "`put v`"),
    ("v = None", "0, since a variable is always a number"),
    ("v = [0] * 12", "several variables"),
    ("if v > 3: put v", "`{` and `}`"),
    ("else:", "`{` and `}`"),
    ("try:", "`q` or `x`"),
    ("raise ValueError", "`q` or `x`"),
]
LAM = [
    ("cclm adc", "`cclm LAM on`"),
    ("cclc 1 1 5 12", "name of a LAM"),
    ("cclc r", "name of a LAM"),
    ("ctlm adc -> q", "The answer is the flag `q`."),
    ("if adc { put v }", "`ctlm adc`"),
    ("wait adc", "`while` that polls"),
    ("cccd on 1", "`cccd CRATE on`"),
    ("cdlam other 1 1 6 0", "outside of services"),
    ("cclm adc = on", "`cclm LAM on`"),
    ("cfsa 10 adc", "`cdreg`"),
]
BASES = [
    ("put 0x10", "decimal digits"),
    ("put 0b101", "decimal digits"),
    ("put 0o17", "decimal digits"),
    ("put 0777", "W15"),
    ("put ffh", "decimal digits"),
    ("put $ff", "decimal digits"),
    ("put #ff", "decimal digits"),
    ("cfsa 0x0 r -> v", "decimal digits"),
    ("put 1_000", "decimal digits"),
    ("put Z'FF'", "decimal digits"),
]

# A plan, as what stands in PLAN in the place of what, and what is told of it.
TOML = [
    ("[[type]]", "[type]", "`[[type]]`"),
    ("[[crate]]", "[crate]", "`[[crate]]`"),
    ("number = 1\n[[crate.station]]", "[[crate.station]]\nnumber = 1", "It stands above the crate's first `[[crate.station]]`."),
    ('"ADC"\ncommands', "“ADC”\ncommands", "Line 2, column 8: invalid value, expected a string, number, boolean, date-time, array or inline table.\nFix: Curly quotes are none: write `\"`."),
    ("[[crate]]", "[[crate]", "Line 4, column 9: unclosed array table, expected `]]`."),
    ("a = 0, to = 11", "a = 0..11", "A range is written as `a = 0, to = 11`."),
    ("a = 0, to = 11", "a = [0, 11]", "A range is written as `a = 0, to = 11`."),
    ("f = 0", 'f = "0"', "a whole number"),
    ('name = "ADC"', "name = ADC", "double quotes"),
    ("width = 12", "width = 12 bits", "Line 3, column 50: missing comma between key-value pairs, expected `,` or `}`."),
    ("gl = 3", "GL = 3", "`gl`"),
    ("n = 5", "n = 25", "n: the value is 25; expected 1 to 23."),
    ('type = "ADC"', 'type = "adc"', "upper and lower case differ"),
    ("}, {", "} {", "Line 3, column 52: missing comma between array elements, expected `,` or `]`."),
    ("gl = 3", "gl = 3  // bit", "`#`"),
    ("n = 5", "n: 5", "Write `=` between a key and its value."),
    ("[[crate.station]]", "[[station]]", "It is a key of a `[[crate]]`."),
    ("gl = 3", "gl = 3\ngl = 4", "Line 10, column 1: duplicate key."),
]

# The words of a command line, and what is told of them.
WORDS = [
    ("version", "camac --version"),
    ("plan.toml a.script", "camac check"),
    ("check a.script plan.toml", "PLAN comes first, then SCRIPT"),
    ("check plan.toml", "<SCRIPT>"),
    ("explain e1", "E1: station may not be installed"),
    ("explain A1", FORM),
    ("explain w3", "write `cclc NAME` at the end of the service"),
    ("explain V7", "truncated"),
    ("response plan.toml a.script --every adc=1000Hz", "a whole number of dataway cycles, as in 'adc=200'"),
    ("response plan.toml a.script --every acd=100", "acd: no such service"),
    ("run plan.toml a.script answers", "<EVENTS>"),
    ("chekc plan.toml a.script", "'check'"),
    ("check plan.toml b.script", "b.script: No such file or directory"),
    ("check plan.toml a.script --strict", "camac-check"),
    ("simulate plan.toml a.script", "python3 -m camac simulate"),
    ("explain --at 6 plan.toml a.script", "'--at <LINE:COLUMN>' needs two numbers"),
]


class Mistakes(Room):
    def setUp(self):
        super().setUp()
        self.write("plan.toml", PLAN)
        self.write("a.script", SCRIPT % "  cclc adc")
        self.wrong = []
        self.right = 0

    def write(self, name, text):
        (self.room / name).write_bytes(text.encode())

    def told(self, *words):
        """What the program prints on both streams."""
        _, out, err = self.call(*words)
        return (out + err).decode()

    def judge(self, mistake, said, told):
        if said in told:
            self.right += 1
        else:
            self.wrong.append((mistake, said, told))

    def test_hundred(self):
        for body, said in FORTRAN + C + PYTHON + LAM + BASES:
            self.write("b.script", SCRIPT % f"  {body}")
            told = self.told("explain", "plan.toml", "b.script")
            self.judge(body, said, self.package("check", "plan.toml", "b.script")[1] if told.startswith("accepted") else told)
        for before, after, said in TOML:
            self.write("b.toml", PLAN.replace(before, after, 1))
            self.judge(after, said, self.told("explain", "b.toml"))
        for answers, said in ANSWERS:
            self.write("answers", answers)
            self.judge(answers, f"answers: {said}: {FORM}", self.told("run", "plan.toml", "a.script", "answers", "events"))
        (self.room / "b.script").unlink()
        for words, said in WORDS:
            self.judge(words, said, self.told(*words.split()))
        self.assertEqual(self.right + len(self.wrong), 100)
        self.assertGreaterEqual(self.right, LEAST, self.wrong)


if __name__ == "__main__":
    run_tests()
