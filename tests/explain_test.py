#!/usr/bin/env python3
"""Tests that each rule has a worked explanation, and the explanations of typical mistakes; compares the texts with docs/REFUSALS.md.

usage: tests/explain_test.py [-v] [TEST ..]     from any folder; takes some seconds
"""
import re
from typing import NamedTuple

from support import plans
from support.program import TOP, Room, run_tests
from support.rows import ROWS
from camac.events import MEANINGS as FLAWS
from camac.language import DECLARATIONS, STATEMENTS
from camac.warn import Code

PAGE = (TOP / "docs/REFUSALS.md").read_text()
NUMBERED = {"P": (*range(1, 10), 11), "S": range(1, 8), "L": range(1, 5), "E": (*range(1, 19), 21)}
RULES = [f"{letter}{n}" for letter, numbers in NUMBERED.items() for n in numbers]
# The codes of answers, of event files and of warnings.
OTHERS = ["A1", "A2", "A4", *FLAWS, *(it.value for it in Code)]


def service(*body, heading="within 100 cycles event 100 words", more=""):
    """A service from line 3 on, whose body begins on line 4."""
    lines = ["cdlam adc 1 1 5 12", f"var v k i t{more}", f"service adc {heading} {{", *(f"  {it}" for it in body), "}"]
    return "\n".join(lines) + "\n"


def procedure(call, numbers="within 3 cycles event 1 words steps 3", body="put s"):
    lines = ["cdlam adc 1 1 5 12", "var v", f"proc get(s in 0..11) {numbers} {{", "  cdreg r 1 1 5 s", "  cfsa 0 r -> s", f"  {body}", "}"]
    return "\n".join([*lines, "service adc within 9 cycles event 9 words {", f"  {call}", "}"]) + "\n"


def beside(statement):
    """A procedure with a statement on its line 3, whose parameters are at the places of the script's variables."""
    return f"var count k\nproc p(n in 0..5, i in 0..5) within 9 cycles event 99 words steps 99 {{\n  {statement}\n}}\n"


def deep(statement):
    """A statement in fourteen loops of 65535 turns each."""
    names = [f"n{i}" for i in range(14)]
    return service(*(f"for {it} = 1 to 65535 {{" for it in names), statement, "}" * 14, more=" " + " ".join(names))


# Two words of 24 bits.
READ_TWO = ("cdreg r 1 1 6 0", "cfsa 0 r -> v", "cfsa 0 r -> k")

# A register at sub-address 0 to 20 of the converter, and one at its last sub-address.
COMPUTED = ("cdreg r 1 1 6 0", "cfsa 0 r -> v", "v = v % 21", "cdreg a 1 1 5 v", "cdreg b 1 1 5 15")

TWO_PARAMETERS = """cdlam adc 1 1 5 12
proc get(s in 0..11, n in 1..8) within 3 cycles event 0 words steps 2 {
  cdreg r 1 1 5 s
  cfsa 0 r -> n
}
service adc within 3 cycles event 0 words {
  call get(3, 9)
}
"""

# What is told beside E12, since crates of `@sample` have waits.
WAITS = "\nWaits: auxiliary controllers may take up to the crate's `waits` before each of our cycles, and theirs count; several in one `lock` wait once."

# A mistake, a script with it, the rule and the line, and what is said of the case.
MISTAKES = [
    ("a letter too many in a statement", service("putt v"), "S5", 4, "The name `putt` is not declared above as a variable.\nFix: Did you mean `put`?"),
    ("two letters exchanged in a statement", service("cfas 0 r -> v"), "S5", 4, "The name `cfas` is not declared above as a variable.\nFix: Did you mean `cfsa`?"),
    ("a statement in upper case", service("PUT v"), "S5", 4, "The name `PUT` is not declared above as a variable.\nFix: Did you mean `put`?"),
    ("a letter missing in a heading", service(heading="withn 3 cycles event 1 words"), "S2", 3, "Found `withn`; expected `within`.\nFix: Did you mean `within`?"),
    ("a heading in upper case", service(heading="within 3 CYCLES event 1 words"), "S2", 3, "Found `CYCLES`; expected `cycles`.\nFix: Did you mean `cycles`?"),
    ("a heading without event", service(heading="within 3 cycles"), "S2", 3, "Found `{`; expected `event`.\nFix: Write `service NAME within C cycles event W words { .. }`."),
    ("a declaration mistyped after var", "cdlam adc 1 1 5 12\nvar v\nservcie adc within 3 cycles event 1 words { }\n", "S4", 3, "The name `adc` is taken: it is declared on line 1 as a LAM.\nFix: Did you mean `service` instead of `servcie`?"),
    ("a declaration mistyped, its LAM too", "cdlam adc 1 1 5 12\nvar v\nservcie acd within 3 cycles event 1 words { }\n", "S2", 3, "Found `within`; expected a declaration or a name.\nFix: Did you mean `service` instead of `servcie`?"),
    ("a declaration mistyped", "cdlam adc 1 1 5 12\nservcie adc within 3 cycles event 1 words { }\n", "S2", 2, "Found `servcie`; expected a declaration.\nFix: Did you mean `service`?"),
    ("no closing brace", service("put v")[:-2], "S2", 5, "Found the end of the script; expected a statement, an operator or `}`.\nFix: The `{` of line 3 is still open."),
    ("no closing brace before the next service", service("lock 1 {", "}")[:-2] + "service adc within 3 cycles event 1 words { }\n", "S2", 6, "Fix: `service` belongs outside of services and procedures, and the `{` of line 3 is still open."),
    ("a closing brace too many", service("put v") + "}\n", "S2", 6, "Found `}`; expected a declaration."),
    ("no opening brace", service("if v < 3", "  put v", "}"), "S2", 5, "Found `put`; expected an operator, `{` or `and`.\nFix: Write `if CONDITION { .. }`."),
    ("no turns", service("k = 5", "while k > 0 { k = k - 1 }"), "S2", 5, "Found `{`; expected an operator, `turns` or `and`.\nFix: Write `while CONDITION turns N by VARIABLE { .. }`."),
    ("no by", service("k = 5", "while k > 0 turns 5 { k = k - 1 }"), "S2", 5, "Found `{`; expected `by`.\nFix: Write `while CONDITION turns N by VARIABLE { .. }`."),
    ("hexadecimal digits", service("v = 0x10"), "S5", 4, "The name `x10` is not declared above as a variable.\nFix: Write numbers in decimal digits, as `255` for `0xff`."),
    ("hexadecimal digits in a heading", service(heading="within 0xff cycles event 1 words"), "S2", 3, "Found `xff`; expected `cycles`.\nFix: Write numbers in decimal digits, as `255` for `0xff`."),
    ("a semicolon", service("put v;"), "S1", 4, "Fix: camac has no `;`; write statements without a sign at their end."),
    ("conditions joined by &&", service("if v < 3 && q { }"), "S1", 4, "Fix: camac has no `&&`; write `and`."),
    ("a condition turned by !", service("if !q { }"), "S1", 4, "Fix: camac has no `!`; write `not` before a comparison or a flag, and `#` before a comment."),
    ("a byte order mark", "\xef\xbb\xbfvar v\n", "S1", 1, "The character `\xef\xbb\xbf` begins no token.\nFix: It is a byte order mark (BOM), which cannot be seen: save the script without it."),
    ("a declared word before a byte", service("write = 3;", more=" write"), "S1", 4, "Fix: camac has no `;`; write statements without a sign at their end."),
    ("a value without its name", service("put v k", "cclc adc"), "S2", 5, "Found `cclc`; expected `=`.\nFix: Write `VARIABLE = VALUE`."),
    ("conditions joined by or", service("if q or x { }"), "S2", 4, "Fix: camac has no `or`; write one `if` into the `else` of the other, or a variable that both set."),
    ("= to compare", service("if v = 3 { }"), "S2", 4, "Found `=`; expected an operator or a comparison.\nFix: Did you mean `==`?"),
    ("== to set a variable", service("v == 3"), "S2", 4, "Found `==`; expected `=`.\nFix: Did you mean `=`?"),
    ("+= to add", service("v += 1"), "S2", 4, "Fix: camac has no `+=`; write the whole, as in `v = v + 1`."),
    ("else if", service("if q { } else if x { }"), "S2", 4, "Found `if`; expected `{`.\nFix: Write the block of `else` in braces; an `if` may be in it."),
    ("a number below 0", service("v = -1"), "S2", 4, "Found `-`; expected an expression.\nFix: There are no numbers below 0."),
    ("division by a variable", service("v = v / k"), "S2", 4, "Found `k`; expected a number.\nFix: A divisor is a number of at least 1."),
    ("division by 0", service("v = v / 0"), "S2", 4, "Found `0`.\nFix: A divisor is a number of at least 1."),
    ("two points in a for", service("for i = 1 .. 3 { }"), "S2", 4, "Found `..`; expected an operator or `to`.\nFix: Did you mean `to`?"),
    ("no block behind two numbers", service("for i = 1 to 3 put i"), "S2", 4, "Found `put`; expected an operator, `{`, `keep` or `each`.\nFix: Write `for VARIABLE = VALUE to VALUE { .. }` or `for VARIABLE = NUMBER to NUMBER each { .. }`."),
    ("no block behind a variable", service("for i = 1 to k put i"), "S2", 4, "Found `put`; expected an operator, `{` or `keep`.\nFix: Write `for VARIABLE = VALUE to VALUE { .. }` or `for VARIABLE = NUMBER to NUMBER each { .. }`."),
    ("no block behind each", service("for i = 1 to 3 each put i"), "S2", 4, "Found `put`; expected `{`.\nFix: Write `for VARIABLE = VALUE to VALUE { .. }` or `for VARIABLE = NUMBER to NUMBER each { .. }`."),
    ("each behind a variable", service("for i = 1 to k each { }"), "S2", 4, "Found `each`; expected an operator, `{` or `keep`.\nFix: Before `each` stand two numbers, and no `keep`: `for i = 0 to 11 each { .. }`."),
    ("each behind brackets", service("for i = (1) to 3 each { }"), "S2", 4, "Found `each`; expected an operator, `{` or `keep`.\nFix: Before `each` stand two numbers, and no `keep`: `for i = 0 to 11 each { .. }`."),
    ("each behind a sum", service("for i = 1 to 1 + 2 each { }"), "S2", 4, "Found `each`; expected an operator, `{` or `keep`.\nFix: Before `each` stand two numbers, and no `keep`: `for i = 0 to 11 each { .. }`."),
    ("each behind a keep", service("for i = 1 to 3 keep k in 0..3 each { }"), "S2", 4, "Found `each`; expected `{` or `,`.\nFix: Before `each` stand two numbers, and no `keep`: `for i = 0 to 11 each { .. }`."),
    ("a keep behind each", service("for i = 1 to 3 each keep k in 0..3 { }"), "S2", 4, "Found `keep`; expected `{`.\nFix: Write `for VARIABLE = VALUE to VALUE { .. }` or `for VARIABLE = NUMBER to NUMBER each { .. }`."),
    ("each in upper case", service("for i = 1 to 3 EACH { }"), "S2", 4, "Found `EACH`; expected an operator, `{`, `keep` or `each`.\nFix: Did you mean `each`?"),
    ("each of a while", service("k = 5", "while k > 0 turns 5 by k each { k = k - 1 }"), "S2", 5, "Found `each`; expected `{` or `keep`.\nFix: Write `while CONDITION turns N by VARIABLE { .. }`."),
    ("half an arrow", service("cdreg r 1 1 5 0", "cfsa 0 r > v"), "S2", 5, "Found `>`; expected a statement, `}`, `->` or `<-`.\nFix: Did you mean `->`?"),
    ("a variable that is not declared", service("put w"), "S5", 4, "The name `w` is not declared above as a variable."),
    ("a variable mistyped", service("put tiem", more=" time"), "S5", 4, "The name `tiem` is not declared above as a variable.\nFix: Did you mean `time`?"),
    ("a variable in upper case", service("put V"), "S5", 4, "The name `V` is not declared above as a variable.\nFix: Did you mean `v`?"),
    ("a register without cdreg", service("cfsa 0 r -> v"), "S5", 4, "The name `r` is not declared above as a register."),
    ("a service without its LAM", "service adc within 3 cycles event 1 words { }\n", "S5", 1, "The name `adc` is not declared above as a LAM."),
    ("a procedure that is not there", procedure("call got(0)"), "S5", 9, "The name `got` is not declared above as a procedure.\nFix: Did you mean `get`?"),
    ("a variable of the script in a procedure", procedure("call get(0)", body="put v"), "S5", 6, "A procedure does not see the variable `v` of the script."),
    ("a call without its word", procedure("get(3)"), "S5", 9, "The name `get` is declared on line 3 as a procedure; expected a variable.\nFix: A procedure is called by `call get(..)`."),
    ("a call without brackets", procedure("call get 3"), "S2", 9, "Found `3`; expected `(`.\nFix: Write arguments in brackets: `call get(..)`."),
    ("a function's result", procedure("v = get(3)"), "S5", 9, "The name `get` is declared on line 3 as a procedure; expected a variable.\nFix: A procedure has no result: call it by `call get(..)`."),
    ("no argument", procedure("call get()"), "S2", 9, "Found `)`.\nFix: The procedure `get` takes 1 argument."),
    ("an argument too many", procedure("call get(0, 1)"), "S2", 9, "Found `,`.\nFix: The procedure `get` takes 1 argument."),
    ("a name twice", "cdlam adc 1 1 5 12\nvar v v\n", "S4", 2, "The name `v` is taken: it is declared on line 2 as a variable."),
    ("a word of the language as a name", "var on\n", "S2", 1, "Fix: `on` is a word of the language: choose another name."),
    ("a function above 31", service("cdreg r 1 1 5 0", "cfsa 42 r -> v"), "S3", 5, "The number `42` is above 31, the greatest allowed here."),
    ("the crate in the place of the branch", service("cdreg r 5 0 1 1"), "S7", 4, "The branch is `5` here, and there is only branch 1."),
    ("a LAM without the branch", "cdlam adc 1 5 12\nvar v\n", "S2", 2, "Found `var`; expected a number.\nFix: Write `cdlam NAME 1 CRATE STATION SUB_ADDRESS`."),
    ("a register without the branch", service("cdreg r 1 5 0", "cfsa 0 r -> v"), "S2", 5, "Found `cfsa`; expected an expression or an operator.\nFix: Write `cdreg REGISTER 1 CRATE STATION SUB_ADDRESS`."),
    ("an address in a cycle", service("cfsa 0 1 1 5 0 -> v"), "S2", 4, "Found `1`; expected a name.\nFix: Set a register to an address first, by `cdreg`."),
    ("a call as in FORTRAN", service("cfsa(0, r, v, q)"), "S2", 4, "Found `(`; expected a number.\nFix: Write `cfsa F REGISTER`, `cfsa F REGISTER -> VARIABLE` or `cfsa F REGISTER <- VALUE`."),
    ("a value after the arrow of a read", service("cdreg r 1 1 6 0", "cfsa 16 r -> 1"), "S2", 5, "Found `1`; expected a name.\nFix: A read sets a variable after `->`; a write has `<-` and a value."),
    ("a register in the place of a variable", service("cdreg r 1 1 5 0", "put r"), "S5", 5, "The name `r` is declared on line 4 as a register; expected a variable.\nFix: A register holds an address: `cfsa 0 r -> v` reads from it into `v`."),
    ("a flag that is compared", service("if q = 1 { }"), "S2", 4, "Found `=`; expected `{` or `and`.\nFix: Write a flag alone: `q`, or `not q`."),
    ("a condition in brackets", service("if (v > 3) { }"), "S2", 4, "Found `>`; expected an operator or `)`.\nFix: Brackets are for expressions, not for conditions."),
    ("a flag in brackets", service("if (q) { }"), "S2", 4, "Found `q`; expected an expression.\nFix: Brackets are for expressions, not for conditions."),
    ("a crate in the place of a LAM", service("cclc 1"), "S2", 4, "Found `1`; expected a name.\nFix: Write the name of a LAM here, which `cdlam` declares."),
    ("a dash in a name", "cdlam my-adc 1 1 5 12\n", "S2", 1, "Found `-`; expected a number.\nFix: A name has letters, digits and `_`, and no dash."),
    ("a test with an arrow", service("ctlm adc -> v"), "S2", 4, "Found `->`; expected a statement or `}`.\nFix: The answer is the flag `q`."),
    ("an assignment outside", "cdlam adc 1 1 5 12\nvar v\nv = 1\n", "S4", 3, "The name `v` is taken: it is declared on line 2 as a variable.\nFix: A statement belongs in the braces of a service or a procedure."),
    ("a word of the event outside", "cdlam adc 1 1 5 12\nput 1\n", "S2", 2, "Found `put`; expected a declaration.\nFix: A statement belongs in the braces of a service or a procedure."),
    ("a lock in a procedure", procedure("call get(0)", body="lock 1 { }"), "S2", 6, "Fix: A procedure has no `lock`: put the `call` into one."),
    ("a procedure that calls itself", procedure("call get(0)", body="call get(0)"), "S5", 6, "The procedure `get` can be called only after its end."),
    ("a variable that is kept twice", service("for i = 1 to 3 keep k in 0..3, k in 0..3 { }"), "S4", 4, "The variable `k` is kept twice."),
    ("an else mistyped after a block", service("if q { v = 1 } els { }"), "S5", 4, "The name `els` is not declared above as a variable.\nFix: Did you mean `else`?"),
    ("an else after a loop", service("for i = 1 to 3 { v = 1 } else { }"), "S2", 4, "Found `else`; expected a statement or `}`."),
    ("a second else", service("if q { } else { v = 1 } else { }"), "S2", 4, "Found `else`; expected a statement or `}`."),
    ("a number of 2 to the power of 32", service("v = 4294967296"), "S3", 4, "The number `4294967296` is above 4294967295, the greatest of all."),
    ("a statement too many", service(*["v = 1"] * 4097), "S6", 4100, "The limit is passed at `v`: a script has at most 4096 statements in all."),
    ("a parameter too many", "proc p(" + ",\n".join(f"a{n} in 0..1" for n in range(9)) + ") within 1 cycles event 1 words steps 1 { }\n", "S6", 9, "The limit is passed at `a8`: a procedure has at most 8 parameters."),
    ("an operator too many", service("v = 1" + "+1" * 33), "S6", 4, "The limit is passed at `+`: an expression has at most 32 operators."),
    ("a part of a condition too many", service("if x" + " and q" * 16 + " { }"), "S6", 4, "The limit is passed at `q`: a condition has at most 16 parts."),
    ("a block too many", service("if q { " * 16), "S6", 4, "The limit is passed at `{`: at most 16 brackets and braces are open at once, calls counted."),
    ("the wrong crate", "cdlam adc 1 2 5 12\n", "L1", 1, "The LAM `adc` is at crate 2, station 5, where the plan has no module."),
    ("a service on a station without bit", "cdlam reg 1 1 6 0\nservice reg within 3 cycles event 1 words { }\n", "L2", 2, "The LAM `reg` is at crate 1, station 6, which has no GL bit in the plan."),
    ("an event above the buffer", service(heading="within 3 cycles event 5000 words"), "L4", 3, "The event may have 5000 words, and the plan's buffer holds 4096."),
    ("the wrong station", service("cdreg r 1 1 7 0", "cfsa 0 r -> v"), "E1", 5, "The plan has no module at crate 1, station 7.\nSet: the `cdreg` of `r` is on line 4."),
    ("a crate that is not in the plan", service("cdreg r 1 3 5 0", "cfsa 0 r -> v"), "E1", 5, "The plan has no crate 3.\nSet: the `cdreg` of `r` is on line 4."),
    ("a command that the module has not", service("cdreg r 1 1 5 0", "cfsa 2 r -> v"), "E2", 5, "The plan declares no F2 at crate 1, station 5, A0.\nSet: the `cdreg` of `r` is on line 4."),
    ("a read without an arrow", service("cdreg r 1 1 5 0", "cfsa 0 r"), "E3", 5, "F0 reads, and the statement moves no data."),
    ("a counter below 0", service("k = k - 1"), "E4", 4, "The left of `-` may be 0, the right 1."),
    ("a value too wide", service("cdreg a 1 1 5 0", "cdreg r 1 1 6 0", "cfsa 0 a -> v", "cfsa 16 r <- v"), "E5", 7, "The value may be 4095, but has to fit in 8 bits."),
    ("a register of one arm", service("if q { cdreg r 1 1 5 0 }", "cfsa 0 r -> v"), "E6", 5, "The register `r` may be unset here."),
    ("a loop that does not count", service("k = 5", "while k > 0 turns 5 by k { cclc adc }"), "E7", 5, "The body itself has to lower `k` once by a number, and nothing else in it may write `k`."),
    ("too few turns", service("k = 500", "while k > 0 turns 100 by k { k = k - 1 }"), "E10", 5, "The loop may take 500 turns, and 100 are allowed."),
    ("too few words", service("put 1", "put 2", heading="within 0 cycles event 1 words"), "E11", 3, "The service may keep 2 event words, its heading allows 1."),
    ("the waits forgotten", service("for i = 1 to 10 { cclc adc }", heading="within 10 cycles event 0 words"), "E12", 3, "The service may take 30 dataway cycles, its heading allows 10." + WAITS),
    ("a call of a crate that is not in the plan", service("cccz 2"), "E15", 4, "The crate is 2 here, which is not one crate of the plan."),
    ("a lock in a lock", service("lock 1 { lock 1 { } }"), "E15", 4, "Crate 1 is locked already."),
    ("a later part of an if", service(*READ_TWO, "if v <= 10 and 10 - v > 3 and 5 - k > 0 { }"), "E4", 7, "The left of `-` may be 5, the right 0 to 16777215."),
    ("a later part of a while", service(*READ_TWO, "i = 5", "while v >= 5 and v - 5 < 100 and k - 5 < 3 turns 5 by i { i = i - 1 }"), "E4", 8, "The left of `-` may be 0 to 16777215, the right 5."),
    ("a part after a not", service(*READ_TWO, "if not v < 5 and v - 5 < 100 and k - 7 < 3 { }"), "E4", 7, "The left of `-` may be 0 to 16777215, the right 7."),
    ("a scan in one arm, a wrong function in the other", service(*COMPUTED, "if v > 3 { cdreg a 1 1 5 v", "cfmad 0 a b max 5 tally t } else {", "cfsa 9 r }"), "E2", 10, "The plan declares no F0 at crate 1, station 5, A16.\nSet: the `cdreg` of `a` is on line 9.\nPlan: F0 is at A0 A1 A2 A3 A4 A5 A6 A7 A8 A9 A10 A11 A12 A13 A14 A15."),
    ("a scan from past the last sub-address", service(*COMPUTED, "cfmad 0 a b max 5 tally t"), "E2", 9, "The plan declares no F0 at crate 1, station 5, A16.\nSet: the `cdreg` of `a` is on line 7.\nPlan: F0 is at A0 A1 A2 A3 A4 A5 A6 A7 A8 A9 A10 A11 A12 A13 A14 A15."),
    ("a sub-address far too great", service("cdreg r 1 1 5 20", "cfsa 0 r -> v"), "E2", 5, "The plan declares no F0 at crate 1, station 5, A20.\nSet: the `cdreg` of `r` is on line 4.\nPlan: F0 is at A0 A1 A2 A3 A4 A5 A6 A7 A8 A9 A10 A11 A12 A13 A14 A15."),
    ("a scan over sub-addresses without the command", service("cdreg a 1 1 5 0", "cdreg b 1 1 6 15", "cfmad 0 a b max 5 tally t"), "E2", 6, "The plan declares no F0 at crate 1, station 6, A1.\nSet: the `cdreg` of `a` is on line 4.\nPlan: F0 is at A0."),
    ("a scan that begins past a station's last sub-address", service("cdreg a 1 1 4 16", "cdreg b 1 1 7 0", "cfmad 0 a b max 5 tally t"), "E1", 6, "The plan has no module at crate 1, station 7.\nSet: the `cdreg` of `a` is on line 4."),
    ("a block write without a table", service("cdreg r 1 1 6 0", "cfubc 16 r max 3 tally t"), "E3", 5, "F16 writes, and the statement reads."),
    ("a difference of two words", service("cdreg r 1 1 5 0", "cfsa 0 r -> v", "cfsa 0 r -> k", "if v >= k { i = v - k }"), "E4", 7, "The left of `-` may be 0 to 4095, the right 0 to 4095."),
    ("a measure that falls by three", service("k = 30", "while k > 2 turns 9 by k { k = k - 3 }"), "E10", 5, "The loop may take 10 turns, and 9 are allowed."),
    ("a number after turns that no loop may have", service("k = 5", "while k > 0 turns 70000 by k { k = k - 1 }"), "E10", 5, "The number after `turns` is 70000, and no loop may take more than 65535 turns."),
    ("more turns than any loop may take", service("k = 100000", "while k > 0 turns 100 by k { k = k - 1 }"), "E10", 5, "The loop may take 100000 turns, and 100 are allowed."),
    ("more than all each may judge", service("for i = 1 to 300 each {", "for k = 1 to 300 each { }", "}"), "E10", 4, "The `each` loops of the service judge 90600 statements and turns, and 65536 are allowed."),
    ("a for with too many turns", service("for i = 0 to 70000 { }"), "E10", 4, "The loop may take 70001 turns, and 65535 are allowed."),
    ("words past 64 bits", deep("put 1"), "E11", 3, "The service may keep more than 18446744073709551615 event words, its heading allows 100."),
    ("cycles past 64 bits", deep("cclc adc"), "E12", 3, "The service may take more than 18446744073709551615 dataway cycles, its heading allows 100." + WAITS),
    ("steps past 64 bits", deep(""), "E18", 3, "The service may take more than 18446744073709551615 steps, and 4294967295 are allowed."),
    ("the second argument", TWO_PARAMETERS, "E21", 7, "Argument 2 may be 9, and `n` takes 1 to 8."),
    ("too few steps", procedure("call get(0)", numbers="within 3 cycles event 1 words steps 2"), "E18", 3, "The procedure may take 3 steps, its heading allows 2."),
    ("a LAM of a wrong station beside another", "cdlam adc 1 1 5 12\ncdlam wrong 1 1 7 0\n", "L1", 2, "The LAM `wrong` is at crate 1, station 7, where the plan has no module."),
    ("a served LAM beside another of its station", "cdlam unserved 1 1 6 0\ncdlam served 1 1 6 1\nservice served within 3 cycles event 1 words { }\n", "L2", 3, "The LAM `served` is at crate 1, station 6, which has no GL bit in the plan."),
    ("a measure of a procedure beside a variable", beside("while n > 0 turns 5 by n { put 1 }"), "E7", 3, "The body itself has to lower `n` once by a number, and nothing else in it may write `n`."),
    ("a kept parameter beside a variable", beside("for i = 1 to 3 keep n in 0..5 { n = n + 1 }"), "E9", 3, "After a turn `n` may be 1 to 6, and it is kept in 0 to 5."),
    ("a counted parameter beside a variable", beside("for n = 1 to 3 { n = i }"), "E17", 3, "A `for` around this line counts the variable `n`."),
    ("a near variable that a procedure does not see", beside("put conut"), "S5", 3, "The name `conut` is not declared above as a variable."),
    ("the second register of a scan", service("cdreg a 1 1 5 0", "cfmad 0 a b max 5 tally t"), "S5", 5, "The name `b` is not declared above as a register."),
    ("a declaration in two blocks", service("if q {", "cdlam more 1 1 6 0", "}"), "S2", 5, "Fix: `cdlam` belongs outside of services and procedures, and the `{` of line 4 is still open."),
    ("a lock mistyped", service("lok 1 { }"), "S5", 4, "The name `lok` is not declared above as a variable.\nFix: Did you mean `lock`?"),
    ("a lock mistyped in a procedure", procedure("call get(0)", body="lok 1 { }"), "S5", 6, "The name `lok` is not declared above as a variable."),
    ("a lock outside", "cdlam adc 1 1 5 12\nlock 1 { }\n", "S2", 2, "Found `lock`; expected a declaration.\nFix: A statement belongs in the braces of a service or a procedure."),
    ("a table too many", "".join(f"table g{n} = 1\n" for n in range(17)), "S6", 17, "The limit is passed at `table`: a script has at most 16 tables."),
    ("a word of a table too many", "table g = 0" + "\n1" * 1024 + "\n", "S6", 1025, "The limit is passed at `1`: a table has at most 1024 words."),
    ("a LAM too many", "".join(f"cdlam m{n} 1 1 5 12\n" for n in range(65)), "S6", 65, "The limit is passed at `cdlam`: a script has at most 64 LAMs."),
    ("a variable too many", "var" + "".join(f" v{n}\n" for n in range(65)), "S6", 65, "The limit is passed at `v64`: a script has at most 64 variables and parameters."),
    ("a procedure too many", "".join(f"proc p{n}() within 0 cycles event 0 words steps 0 {{ }}\n" for n in range(17)), "S6", 17, "The limit is passed at `proc`: a script has at most 16 procedures."),
    ("a service too many", "".join(f"cdlam m{n} 1 1 5 12 service m{n} within 0 cycles event 0 words {{ }}\n" for n in range(25)), "S6", 25, "The limit is passed at `service`: a script has at most 24 services."),
    ("a register too many", service(*(f"cdreg r{n} 1 1 5 0" for n in range(65))), "S6", 68, "The limit is passed at `r64`: a service with all procedures has at most 64 registers."),
    ("a name too long", f"var {'a' * 33}\n", "S6", 1, f"The limit is passed at `{'a' * 33}`: a name has at most 32 bytes."),
    ("a call too deep", "proc p() within 0 cycles event 0 words steps 0 { " + "if q { " * 10 + "} " * 11 + "\n" + service("if q { " * 10, "call p()"), "S6", 6, "The limit is passed at `p`: at most 16 brackets and braces are open at once, calls counted."),
    ("a declared name near a word", "cdlam adc 1 1 5 12\nvar out v\nservice adc within 3 cycles event 1 words {\n  v = out 3\n}\n", "S2", 4, "Found `3`; expected a statement, an operator or `}`."),
    ("an argument out of range", procedure("call get(12)"), "E21", 9, "Argument 1 may be 12, and `s` takes 0 to 11."),
]

# What begins a line that is told beside a rule.
BESIDE = ("Set: ", "Plan: ", "Waits: ")

# Those of them that are refused behind another statement of the line, and where.
INSIDE = {"a lock in a lock": "lock 1 { }", "a difference of two words": "i = v", "a counted parameter beside a variable": "n = i"}

# A refusal by E or L, and the script with a `^` before the token that is marked.
MARKED = [
    ("a LAM behind another declaration", "var v ^cdlam adc 1 1 4 12\n"),
    ("two LAMs, of which one is refused", "cdlam adc 1 1 5 12 ^cdlam bad 1 1 4 12\n"),
    ("a service behind its LAM", "cdlam reg 1 1 6 0 ^service reg within 0 cycles event 0 words { }\n"),
    ("a service behind a variable", "cdlam reg 1 1 6 0\nvar v ^service reg within 0 cycles event 0 words { }\n"),
    ("a heading whose service is on its line", "cdlam adc 1 1 5 12 ^service adc within 0 cycles event 1 words { put 1 put 2 }\n"),
    ("two headings", "proc p() within 0 cycles event 0 words steps 9 { } ^proc q1() within 0 cycles event 0 words steps 9 { put 1 }\n"),
    ("a heading behind a table", "cdlam adc 1 1 5 12\ntable g = 1 2 ^proc p() within 0 cycles event 0 words steps 9 { put 1 }\n"),
    ("a cycle among others", service("cdreg r 1 1 4 0 ^cfsa 0 r -> v put v")),
    ("two cycles", service("cdreg r 1 1 4 0 ^cfsa 0 r -> v cfsa 0 r -> v")),
    ("a transfer behind a word", service("cdreg r 1 1 4 0 put 1 ^cfubc 0 r max 3 tally t")),
    ("a call of a LAM", service("put 1 ^cclc adc").replace("adc 1 1 5 12", "adc 1 1 6 0").replace("service adc", "cdlam full 1 1 5 12 service full")),
    ("a word in a loop", service("for i = 0 to 3 { ^put 16777216 }")),
    ("an assignment behind a call of a LAM", service("cclc adc ^v = v - 1")),
    ("an assignment of a difference in a loop", service("for i = 0 to 3 { ^v = v - 1 }")),
    ("an assignment to a counted variable behind a word", service("for i = 0 to 3 {", "put i ^i = 1 }")),
    ("two assignments", service("k = 1 ^v = v - 1")),
    ("a loop whose body is on its line", service("k = 5", "put 1 ^while k > 0 turns 3 by k { k = k - 1 put 1 }")),
    ("a loop that keeps nothing after a turn", service("put 1 ^for i = 0 to 3 keep k in 0..2 { k = k + 1 }")),
    ("a scan behind its registers", service("cdreg a 1 1 5 0 cdreg b 1 2 5 0 ^cfmad 0 a b max 4 tally t")),
    ("a lock around calls", service("put 1 ^lock 2 { cclc adc }")),
    ("a call of a crate in a lock", service("lock 1 { ^ccci 2 on }")),
    ("a call of a procedure", procedure("put 1 ^call get(12)")),
    ("an if behind an assignment", service("v = 1 ^if v - 2 > 3 { }")),
    ("a statement behind a comment of the line before, and a tab", service("# v = v - 1", "\t^v = v - 1")),
    ("a statement at the end of a long line", service("cclc adc " * 25 + "^v = v - 1")),
    ("a variable in a heading's range", "proc p(a in 0..5) within 0 cycles event 0 words steps 9 { ^a = a - 6 }\n"),
]

# A case whose fix is one of several, the script, the fix's begin, the script with the fix.
FIXES = [
    ("a read without an arrow", service("cdreg r 1 1 5 0", "cfsa 0 r"), "with a function that reads, ", service("cdreg r 1 1 5 0", "cfsa 0 r -> v")),
    ("a read with a table", service("cdreg r 1 1 5 0", "cfubc 0 r table g max 1 tally t", more=" table g = 1"), "with a function that reads, ", service("cdreg r 1 1 5 0", "cfubc 0 r max 1 tally t")),
    ("a write with the other arrow", service("cdreg r 1 1 6 0", "cfsa 16 r -> v"), "with a function that writes, ", service("cdreg r 1 1 6 0", "cfsa 16 r <- v")),
    ("a write without a table", service("cdreg r 1 1 6 0", "cfubc 16 r max 1 tally t"), "with a function that writes, ", service("cdreg r 1 1 6 0", "cfubc 16 r table g max 1 tally t", more=" table g = 1")),
    ("a test with an arrow", service("cdreg r 1 1 6 0", "cfsa 27 r -> v"), "with a function that moves no data, ", service("cdreg r 1 1 6 0", "cfsa 27 r")),
    ("a known number less", service("cdreg r 1 1 5 0", "cfsa 0 r -> v", "put v - 3"), "test the variables by `if` ", service("cdreg r 1 1 5 0", "cfsa 0 r -> v", "if v >= 3 { put v - 3 }")),
    ("a sum", service("cdreg r 1 1 5 0", "cfsa 0 r -> v", "k = v * 4294967295"), "test the variables by `if` ", service("cdreg r 1 1 5 0", "cfsa 0 r -> v", "k = v % 2 * 4294967295")),
    ("two variables", service("cdreg r 1 1 5 0", "cfsa 0 r -> v", "cfsa 0 r -> k", "if v >= k { put v - k }"), "ranges know no relation ", service("cdreg r 1 1 5 0", "cfsa 0 r -> v", "cfsa 0 r -> k", "i = v + 4095 - k", "if i >= 4095 { put i - 4095 }")),
    ("a few turns more", service("k = 10", "while k > 0 turns 9 by k { k = k - 1 }"), "write a larger number after `turns`", service("k = 10", "while k > 0 turns 10 by k { k = k - 1 }")),
    ("far more turns", service("k = 70000", "while k > 0 turns 9 by k { k = k - 1 }"), "no larger number is allowed: ", service("k = 70000 % 100", "while k > 0 turns 99 by k { k = k - 1 }")),
    ("a for too long", service("for i = 1 to 70000 { }"), "no larger number is allowed: ", service("for i = 1 to 7 { for k = 1 to 10000 { } }")),
    ("a number that no loop may have", service("k = 5", "while k > 0 turns 100000 by k { k = k - 1 }"), "write at most 65535 ", service("k = 5", "while k > 0 turns 65535 by k { k = k - 1 }")),
    ("more than all each may judge", service("for i = 1 to 40000 each { k = 1 }"), "leave `each` out of the loop with the most turns ", service("for i = 1 to 40000 { k = 1 }")),
    ("a few words", service("put 1", heading="within 0 cycles event 0 words"), "write a larger number after `event`", service("put 1", heading="within 0 cycles event 1 words")),
    ("words without end", deep("put 1"), "keep fewer words: ", service("put 1")),
    ("a difference to the last reading", service("cdreg r 1 1 6 0", "for i = 1 to 3 {", "cfsa 0 r -> v", "t = v - k", "k = v", "}"), "a loop forgets what its body writes: let it `keep` such a right side ", service("cdreg r 1 1 6 0", "for i = 1 to 3 keep k in 0..16777215 {", "cfsa 0 r -> v", "t = v + 16777215 - k", "k = v", "}")),
    ("a count in a loop", service("for i = 1 to 3 { k = k + i }"), "bound the variable by `if` or `%` before. A loop forgets what its body writes: ", service("for i = 1 to 3 each { k = k + i }")),
    ("a value too wide", service("cdreg a 1 1 5 0", "cdreg r 1 1 6 0", "cfsa 0 a -> v", "cfsa 16 r <- v"), "bound the value by `%` or `if`, write ", service("cdreg a 1 1 5 0", "cdreg r 1 1 6 0", "cfsa 0 a -> v", "cfsa 16 r <- v % 256")),
    ("a value that a loop forgets", service("cdreg r 1 1 6 0", "for i = 1 to 3 { cfsa 16 r <- k", "k = i }"), "bound the value by `%` or `if`. A loop forgets what its body writes: ", service("cdreg r 1 1 6 0", "for i = 1 to 3 keep k in 0..3 { cfsa 16 r <- k", "k = i }")),
    ("a word too wide", service("v = 16777216", "put v"), "bound the value by `% 16777216`, or by an `if` ", service("v = 16777216", "put v % 16777216")),
    ("a word that a loop forgets", service("for i = 1 to 3 { put k", "k = i }"), "bound the value by `% 16777216` or `if`. A loop forgets what its body writes: write `each` ", service("for i = 1 to 3 each { put k", "k = i }")),
    ("a few cycles", service("cclc adc", heading="within 2 cycles event 0 words"), "write a larger number after `within`", service("cclc adc", heading="within 3 cycles event 0 words")),
    ("cycles without end", deep("cclc adc"), "make fewer cycles, ", service("cclc adc")),
    ("a few steps", procedure("call get(0)", numbers="within 3 cycles event 1 words steps 2"), "write a larger number after `steps`", procedure("call get(0)")),
    ("steps without end", deep(""), "make fewer turns: ", service("")),
]


class Mistake(NamedTuple):
    """A mistake of tests/mistakes.text: the text with it, its rule and line, and the words of its explanation."""

    kind: str
    text: str
    refused: str
    said: list[str]


def beginners():
    """The mistakes of tests/mistakes.text by their names."""
    found = {}
    for part in (TOP / "tests/mistakes.text").read_text().split("\n== ")[1:]:
        name, kind, text, refused, said = re.fullmatch(r"(.*?)\n(?:-- (\w+)\n)?(.*\n)-- (\w\d+(?: \d+)?)\n(.*)", part.strip("\n"), re.S).groups()
        if not kind:
            text = service(*text.rstrip("\n").split("\n"))
        found[name] = Mistake(kind, text, refused.replace(" ", " line "), said.split("\n"))
    return found


def part_of(rule):
    """What the page says of a rule."""
    return PAGE.partition(f"\n### {rule}: ")[2].partition("\n#")[0]


def example_of(rule, part):
    """The lines of the example of a rule, below what it is."""
    kind, head, example = re.search(r"(?s)```(\w+) ([^\n]*)\n(.*?)```", part).groups()
    above = "Example, a plan:" if kind == "toml" else f"Example on the plan @sample, refused on {head.removeprefix(f'{rule} ')}:"
    return above + "\n" + "".join(f"  {it}\n" for it in example.splitlines())


def unmarked(lines):
    """The lines of an explanation without the one of its mark."""
    return [it for it in lines if not it.startswith("      | ")]


def told(rule):
    """The texts of a rule on the page: why it is there, and each fix."""
    (why,) = re.findall(r"(?m)^- \*\*Why:\*\* (.*)$", part_of(rule))
    return why, re.findall(r"(?m)^- \*\*Fix(?:, [^*]*)?:\*\* (.*)$", part_of(rule))


class Explain(Room):
    def call(self, *words, given=""):
        """Status and standard output of the program, which has nothing to say on standard error."""
        status, out, err = super().call(*words, given=given.encode("latin-1"))
        self.assertEqual(err, b"")
        return status, out.decode("latin-1")

    def explain(self, script):
        """The lines of an explanation, which begins with what `check` prints."""
        checked = self.call("check", "@sample", "@in", given=script)
        status, text = self.call("explain", "@sample", "@in", given=script)
        self.assertEqual(status, checked[0])
        self.assertTrue(text.startswith(checked[1]))
        return text.splitlines()

    def assert_marked(self, source, mark, said):
        """The mark is below the first word or sign in quotes of the sentence, if it is the one that was found."""
        self.assertRegex(mark, r"^      \| [ \t]*\^$")
        found = re.match(r"(?:Found|The (?:name|number|byte|character|procedure)|The limit is passed at|The branch is) `([^`]*)`", said)
        if found:
            self.assertTrue(source[mark.index("^") :].startswith(found[1]), (source, mark, said))

    def assert_told(self, rule, *lines, has_hint=False):
        """The last lines of an explanation have the texts of the page; a hint takes the place of why and fix."""
        *advice, more = lines
        self.assertEqual(more, f"More: docs/REFUSALS.md, {rule}")
        if not has_hint:
            why, fix = advice
            self.assertEqual(why, f"Why: {told(rule)[0]}")
            self.assertIn(fix.removeprefix("Fix: "), told(rule)[1])
        else:
            self.assertEqual(advice, [])

    def test_explanations(self):
        """Each rule has its row, which tests/rows_test.py plays."""
        self.assertEqual([name.partition("_")[0] for name in ROWS["explanations"]], RULES)
        self.assertEqual([case.printed.split()[1].decode().rstrip(":") for (case,) in ROWS["explanations"].values()], RULES)

    def test_rules_by_their_codes(self):
        """What is told of a code, in either case, without a file: the headline and the texts of the page, and the example of a plan or script."""
        self.assertEqual(re.findall(r"(?m)^### ([AVW]\d+): ", PAGE), OTHERS)
        for rule in RULES + OTHERS:
            with self.subTest(rule=rule):
                part = re.search(rf"(?ms)^### {rule}: (.*?)\n(.*?)(?=^##|\Z)", PAGE)
                texts = [f"{it[1]}: {it[2]}\n" for it in re.finditer(r"(?m)^- \*\*((?:Why|Fix)[^:]*):\*\* (.*)$", part[2])]
                example = example_of(rule, part[2]) if rule in RULES else ""
                wanted = f"{rule}: {part[1]}\n{''.join(texts)}{example}More: docs/REFUSALS.md, {rule}\n"
                self.assertEqual(self.call("explain", rule), (0, wanted))
                self.assertEqual(self.call("explain", rule.lower()), (0, wanted))

    def test_mistakes(self):
        self.assertGreaterEqual(len(MISTAKES), 45)
        for what, script, rule, line, said in MISTAKES:
            with self.subTest(what=what):
                first, source, *rest = self.explain(script)
                self.assertRegex(first, rf"^refused {rule} line {line}: ")
                self.assertEqual(source, f"{line:5} | " + (script.split("\n")[line - 1] or "(end of the script)"))
                if rule[0] == "S":
                    self.assert_marked(source, rest.pop(0), said)
                else:
                    self.assertEqual(rest.pop(0), "      | ".ljust(source.index(INSIDE.get(what, source[8:].lstrip()))) + "^")
                head = [it for it in said.split("\n") if not it.startswith(BESIDE)]
                self.assertEqual([it for it in rest if it in head or it.startswith(BESIDE)], said.split("\n"))
                self.assert_told(rule, *(it for it in rest if it not in said.split("\n")), has_hint=head[-1].startswith("Fix: "))

    def test_marks(self):
        """A refusal of a rule or of linking has its mark below what it refuses."""
        for what, marked in MARKED:
            with self.subTest(what=what):
                first, source, mark, *_ = self.explain(marked.replace("^", ""))
                self.assertRegex(first, "^refused [EL]")
                # Of a long line the end is shown.
                self.assertTrue(marked.partition("^")[2].startswith(source[mark.index("^") :]), (source, mark))

    def test_mistakes_of_beginners(self):
        found = beginners()
        self.assertGreaterEqual(len(found), 100)
        for name, mistake in found.items():
            with self.subTest(mistake=name):
                of_plan = mistake.kind == "plan"
                (self.room / "text").write_text(mistake.text)
                status, text = self.call("explain", *(("text",) if of_plan else ("@sample", "text")))
                first, *lines = text.splitlines()
                self.assertEqual(status, 1)
                self.assertTrue(first.startswith(f"refused {mistake.refused}: "), first)
                for said in mistake.said:
                    self.assertTrue(any(said in line.encode("latin-1").decode() for line in lines), f"{said!r} is not in {lines}")

    def test_misspelt_statements(self):
        """Each word that begins a statement is meant by one with a `_` at its end."""
        language = (TOP / "docs/LANGUAGE.md").read_text()
        words = re.search(r"as its name:\n\n((?:    .*\n)+)", language)[1].split()
        begin = [it for it in words if self.explain(service(f"{it} }}"))[3].startswith("Found `}`")]
        self.assertEqual(len(begin), 22)
        for word in begin:
            with self.subTest(word=word):
                wrong = word + "_"
                said = [f"The name `{wrong}` is not declared above as a variable.", f"Fix: Did you mean `{word}`?"]
                self.assertEqual(self.explain(service(f"{wrong} 1"))[3:5], said)

    def test_absent(self):
        """The page shows the table of what the language does not have."""
        source = (TOP / "crates/camac_explain_text_words/src/absent.rt").read_text()
        text = r'"((?:[^"\\]|\\.)*)"'
        rows = re.findall(rf"\(\s*&\[(.*?)\],\s*{text},?\s*\)", source, re.S)
        table = [([it.replace('\\"', '"') for it in re.findall(text, words)], write) for words, write in rows]
        self.assertGreater(len(table), 35)
        shown = [f"| {', '.join(f'`{it}`' for it in words)} | {write} |".replace("`|", "`\\|").replace("||", "|\\|") for words, write in table]
        part = (TOP / "docs/LANGUAGE.md").read_text().partition("## What the language does not have")[2]
        self.assertEqual(part.split("|---|---|\n")[1].partition("\n\n")[0].splitlines(), shown)

    def test_forms(self):
        """The tables of both pages have the forms that are told, of each word that begins something."""
        source = (TOP / "crates/camac_explain_text_words/src/forms.rt").read_text()
        rows = re.findall(r'Keyword::(\w+),\s*"(.*?)"', source)
        self.assertEqual({word.lower() for word, _ in rows}, {*DECLARATIONS, *STATEMENTS, "table", "else"})
        for word, forms in rows:
            self.assertIn(word.lower(), forms.replace("`", "").split(), forms)
        told = sorted(re.findall("`(.*?)`", "".join(forms for _, forms in rows) + re.search(r'ASSIGNMENT: &str = "(.*)"', source)[1]))
        part = (TOP / "docs/LANGUAGE.md").read_text().partition("## Declarations")[2].partition("## What the language does not have")[0]
        self.assertEqual(sorted(re.findall("`(.*?)`", "".join(re.findall(r"(?m)^\| (`.*?`) \|", part)))), told)
        self.assertEqual(sorted(re.findall(r'(?m)^\.It Li "(.*)"$', (TOP / "man/camac-script.5").read_text())), told)

    def test_mistakes_in_plans(self):
        for what, plan, rule, said in plans.MISTAKES:
            with self.subTest(what=what):
                (self.room / "plan.toml").write_text(plan)
                status, text = self.call("explain", "plan.toml")
                first, *rest = text.splitlines()
                self.assertEqual((status, first), self.listed("plan.toml"))
                self.assertRegex(first, f"^refused {rule}: ")
                self.assertEqual("\n".join(rest)[: len(said)], said)
                self.assert_told(rule, *rest[1 + said.count("\n") :], has_hint="\n" in said)

    def listed(self, plan):
        """Status of `plan` and the line that it prints."""
        status, text = self.call("plan", plan)
        return status, text.rstrip("\n")

    def test_fixes(self):
        """Of several fixes of a rule the one that helps in this case is shown."""
        found = set()
        for what, script, fix, fixed in FIXES:
            with self.subTest(what=what):
                lines = [it for it in self.explain(script) if not it.startswith(BESIDE)]
                self.assertEqual(lines[-2][: len(f"Fix: {fix}")], f"Fix: {fix}")
                self.assertEqual(self.explain(fixed)[0], "accepted")
                found.add(lines[-2].removeprefix("Fix: "))
        several = [told(rule)[1] for rule in RULES if len(told(rule)[1]) > 1]
        self.assertEqual(found, {fix for fixes in several for fix in fixes})

    def test_page(self):
        """Each rule has its place on the page, with an example whose explanation has the texts of the page."""
        self.assertEqual(re.findall(r"(?m)^### ([PSLE]\w+): ", PAGE), RULES)
        for rule in RULES:
            with self.subTest(rule=rule):
                part = part_of(rule)
                meaning = part.partition("\n")[0]
                example = re.search(r"```(?:camac|toml) [^\n]*\n(.*?)```", part, re.S)[1]
                if rule[0] == "P":
                    (self.room / "plan.toml").write_text(example)
                    status, text = self.call("explain", "plan.toml")
                else:
                    status, text = self.call("explain", "@sample", "@in", given=example)
                first, *lines = [it for it in text.splitlines() if not it.startswith(BESIDE)]
                self.assertEqual(status, 1)
                has_hint = not lines[-3].startswith("Why: ")
                self.assert_told(rule, *lines[-1 if has_hint else -3 :], has_hint=has_hint)
                self.assertRegex(first, rf"^refused {rule}(?: line \d+)?: {re.escape(meaning)}$")

    def test_words(self):
        """The words of the language, on its page and in the order in which those that may be meant are sought."""
        language = (TOP / "docs/LANGUAGE.md").read_text()
        words = re.search(r"as its name:\n\n((?:    .*\n)+)", language)[1].split()
        table = (TOP / "crates/camac_tokens/src/words.rt").read_text()
        order = re.findall(r"Keyword::(\w+)", re.search(r"KEYWORDS: [^=]*= \[(.*?)\];", table, re.S)[1])
        spelling = dict(re.findall(r'Keyword::(\w+) => "(\w+)"', table))
        self.assertEqual([spelling[it] for it in order], words)

    def test_bounds(self):
        """What no heading allows is told as that with --bounds, where all headings have their greatest numbers."""
        names = [f"n{i}" for i in range(5)]
        loops = "".join(f"for {it} = 1 to 65535 {{ " for it in names) + "} " * len(names)
        long = f"proc p({', '.join(f'{it} in 0..65535' for it in names)}) within 0 cycles event 0 words steps 1 {{ {loops}}}\n"
        rows = (
            (deep("put 1"), "E11", "The service may keep more than 18446744073709551615 event words, and a heading allows at most 4294967295."),
            (deep("cclc adc"), "E12", "The service may take more than 18446744073709551615 dataway cycles, and a heading allows at most 4294967295."),
            (long, "E18", "The procedure may take more than 18446744073709551615 steps, and a heading allows at most 4294967295."),
        )
        for script, rule, said in rows:
            with self.subTest(rule=rule):
                status, text = self.call("explain", "--bounds", "@sample", "@in", given=script)
                first, _, sentence, *rest = unmarked(text.splitlines())
                self.assertEqual((status, first.partition(" line")[0], sentence), (1, f"refused {rule}", said))
                self.assert_told(rule, *rest)

    def test_accepted(self):
        self.assertEqual(self.explain(""), ["accepted"])
        self.assertEqual(self.explain("cdlam adc 1 1 5 12\nservice adc within 0 cycles event 0 words { }\n")[0], "accepted")

    def test_lines(self):
        """Tabs and bytes from 128 are as they are, other control bytes as `?`; a long line is cut."""
        shown = self.explain("\tput \x00\x7f\r\xc3\xa9 v\n")[1]
        self.assertEqual(shown, "    1 | \tput ???\xc3\xa9 v")
        self.assertEqual(self.explain("# \xc3\xa9\n\tvar \xc3\xa9")[1:3], ["    2 | \tvar \xc3\xa9", "      | \t    ^"])
        for length in (119, 120, 121):
            line = "!" + "a" * (length - 1)
            self.assertEqual(self.explain(line)[1], "    1 | " + (line if length <= 120 else line[:120] + ".."))
        for before, after in ((100, 100), (2, 300), (300, 2)):
            line = "v " * (before // 2) + "!" + " v" * (after // 2)
            shown, mark = (it[8:] for it in self.explain(line)[1:3])
            part = shown.removeprefix("..").removesuffix("..")
            begin = line.index(part)
            self.assertEqual(len(part), 120)
            self.assertEqual((".." * (begin > 0) + part)[mark.index("^")], "!")
            self.assertEqual(shown, ".." * (begin > 0) + part + ".." * (begin + 120 < len(line)))
        self.assertEqual(self.explain("\n" * 99_999 + "!")[1], "100000 | !")

    def test_long_line(self):
        """A fault at the end of a line of nearly 1 MB, with some 64,000 tokens: a search by parses of the text before it would take hours."""
        name = "a" * 32
        line = f"cdlam adc 1 1 5 12 var {name} service adc within 0 cycles event 0 words {{ " + f"{name} = {'+'.join([name] * 6)} " * 4000 + "put }"
        self.assertEqual(self.explain(line)[3:5], ["Found `}`; expected an expression.", "Fix: Write `put VALUE`."])

    def test_other_plans(self):
        (self.room / "plan.toml").write_text("buffer = 10\n[[crate]]\nnumber = 9\n")
        status, text = self.call("explain", "plan.toml")
        self.assertEqual((status, *text.splitlines()[:2]), (1, "refused P4: value out of range", "crate 9, number: the value is 9; expected 1 to 7."))
        (self.room / "plan.toml").write_text("buffer = true\n")
        self.assertEqual(self.call("explain", "plan.toml")[1].splitlines()[1], "buffer: the value is of the kind boolean; expected a whole number from 1 to 4096.")
        (self.room / "plan.toml").write_text("[[crate]]\nnumber = 1\n[[crate.station]]\nn = 5\n")
        self.assertEqual(self.call("explain", "plan.toml")[1].splitlines()[1], "crate 1, station 5, type: the key is missing; expected a text in double quotes.")


if __name__ == "__main__":
    run_tests()
