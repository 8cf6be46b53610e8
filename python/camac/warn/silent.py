"""What is surely not meant and changes no bound: by the flow of each body, its rows of `camac costs`, and what the checker knows at a place."""
import re
from collections import Counter
from typing import Dict, Iterable, Iterator, List, NamedTuple, Optional, Sequence, Set, Tuple

from camac.drive import File
from camac.kinds import PARAMETER, REGISTER, Kind
from camac.printed import CYCLES, PLACE_OF, TIMES, WORD_OF, Words, read_known, read_rows
from camac.program import verdict
from camac.subcommands import plan as ask_plan
from camac.texts import GREATEST_TEXT, Edit, edited, plan_text
from camac.tokens import tokens_of
from camac.tree import (
    FLAGS, OPERATIONS, Assign, Body, Cycle, Expression, For, If, Loop, Name, Number, Operation, Range, Script, SetRegister, Statement, Transfer, names_in,
)
from camac.values import range_of
from camac.warn.codes import Code, Warned
from camac.warn.flow import OPEN, Flow, is_put

# A number with a 0 before it, for which the tokens are looked through.
ZERO = re.compile(rb"\b0\d")
# What a function reads and clears may be read for the clear alone.
READ_AND_CLEAR = 2
# How often the checker is asked for what the flow leaves open.
MOST_ASKED = 50


def rows_with_arms(plan: File, text: bytes, script: Script, told: str, program: Optional[File] = None) -> List[List[Words]]:
    """The rows of an accepted script with an `else` for each `if`, so that each arm has one. No bound and no line changes. `told` is what
    `camac tell` prints of it."""
    arms = [Edit(it.end, it.end, " else { }") for body in script.bodies for it in body.every if isinstance(it, If) and not it.has_else]
    longer = edited(text, arms) if arms and "\nline " in told else b""
    return read_rows(verdict("costs", plan, longer, program).text if longer and len(longer) <= GREATEST_TEXT else told)


class Guard(NamedTuple):
    """An `if` that adds a step to a total while this is at most `most`."""

    it: If
    adds: Assign
    total: Name
    step: Expression
    most: int


class Silent:
    """An accepted script on a plan, with its `rows_with_arms`. `left` is how often the checker may still be asked."""

    def __init__(self, plan: File, text: bytes, script: Script, rows: Sequence[Sequence[Words]], program: Optional[File] = None) -> None:
        self.plan, self.text, self.script, self.rows, self.program, self.left = plan, text, script, rows, program, MOST_ASKED

    def found(self) -> Iterator[Warned]:
        flows: Dict[str, Flow] = {}
        for body, rows in zip(self.script.bodies, self.rows):
            flow = flows[body.name] = Flow(body, rows, flows)
            numbers = {it: self.number(it, flow) for it in filter(is_put, flow.value) if it in flow.made}
            yield from (Warned(it.line, Code.ONE_NUMBER, f"this word is always {number}") for it, number in numbers.items() if number is not None)
            yield from self.of_reads(flow)
            yield from _of_unset((it, name) for it, name in flow.unset if numbers.get(it) is None)
            yield from self.of_guards(flow)
            yield from _of_rows(flow)
            yield from _of_registers(flow)
            yield from () if body.is_service else _of_parameters(body)
        yield from self.of_tokens()

    def number(self, it: Statement, flow: Flow) -> Optional[int]:
        """The one number that a `put` of a variable puts; None if there are more."""
        value = flow.value[it] if it.names else None
        if value is OPEN and self.left:
            self.left -= 1
            low, high = self.range(it, it.expressions[0])
            return low if low == high else None
        return value if isinstance(value, int) else None

    def range(self, it: Statement, of: Expression) -> Range:
        """The range of an expression before a statement, by what the checker knows there of its names."""
        at = it.line, it.start - self.text.rfind(b"\n", 0, it.start)
        known = read_known(verdict("explain", self.plan, self.text, self.program, at).text)
        return span(of, {name: range_of(known[name][0]) for name in names_in(of)})

    def of_reads(self, flow: Flow) -> Iterator[Warned]:
        """Words that are read and never used."""
        for it in flow.row:
            is_dropped = it.writes and it not in flow.used and it in flow.made
            if is_dropped and isinstance(it, Cycle) and it.function != READ_AND_CLEAR and not self.clears(it, flow):
                yield Warned(it.line, Code.DROPPED, f"the word in `{it.into}` is read and never used")

    def clears(self, it: Cycle, flow: Flow) -> bool:
        """Whether the plan says that a cycle clears the look-at-me of its module."""
        if b"clears" not in plan_text(self.plan):
            return False
        at = [range_of(word)[0] for word in flow.row[it][PLACE_OF + 1 :]]
        declared = ask_plan(self.plan, self.program).declaration(at[0], at[1], at[2], it.function)
        return declared is not None and declared.clears

    def of_guards(self, flow: Flow) -> Iterator[Warned]:
        """Guards of sums that leave something out after many turns."""
        guards = {it.adds: it for one in flow.row if isinstance(one, If) for it in [guard_of(one)] if it and it.adds in flow.made}
        for adds, (it, _, total, step, most) in guards.items() if len(guards) <= MOST_ASKED else ():
            for loop in (one for one in flow.row if isinstance(one, Loop) and one.start < it.start < one.end):
                # The outermost loop in which nothing else sets the sum.
                setting = [one for one in flow.row if loop.start < one.start < loop.end and one.writes == adds.name]
                if all(one in guards for one in setting):
                    steps = [(self.range(one, guards[one].step)[1], int(flow.row[one][TIMES])) for one in setting if isinstance(one, Assign)]
                    added = [step_of * times // int(flow.row[loop][TIMES]) for step_of, times in steps]
                    after, bound = self.range(loop, total)[1] + sum(added), most + self.range(adds, step)[1]
                    if after > bound:
                        text = f"after all turns `{total.name}` may be {after}, and this condition lets it be {bound}: the rest is left out"
                        yield Warned(it.line, Code.LEFT_OUT, text)
                    break

    def of_tokens(self) -> Iterator[Warned]:
        """Names of the script that are never used, and numbers with a 0 before them."""
        times = Counter(self.script.words)
        yield from (_unused(line, kind, name) for name, line, kind in self.script.declared if times[name] == 1)
        for it in tokens_of(self.text) if ZERO.search(self.text) else ():
            if it.text[:1] == "0" and set(it.text) <= set("01234567") and int(it.text, 8) != int(it.text):
                yield Warned(it.line, Code.LEADING_ZERO, f"`{it.text}` is {int(it.text)} here, not {int(it.text, 8)}: numbers are decimal")


def _unused(line: int, kind: Kind, name: str) -> Warned:
    return Warned(line, Code.UNUSED_NAME, f"the {kind._value_} `{name}` is never used")


def _of_rows(flow: Flow) -> Iterator[Warned]:
    """Blocks that are never reached, and scans without a cycle."""
    for it, row in flow.made.items():
        first = it.blocks[0][0] if it.blocks and it.blocks[0] else it
        if row[WORD_OF] == "cfmad" and row[CYCLES] == "0":
            yield Warned(it.line, Code.EMPTY_SCAN, "this scan makes no cycle: its first address is after its last one, or `max` is 0")
        elif first not in flow.made and isinstance(it, For):
            yield Warned(first.line, Code.UNREACHED, f"`{flow.row[first][WORD_OF]}` is never reached")
        elif first not in flow.made:
            yield Warned(it.line, Code.DECIDED, f"this condition is always false: `{flow.row[first][WORD_OF]}` on line {first.line} is never reached")
        elif it in flow.always:
            other = it.blocks[1]
            rest = f"`{flow.row[other[0]][WORD_OF]}` on line {other[0].line} is never reached" if other else "its block is always made"
            yield Warned(it.line, Code.DECIDED, f"this condition is always true: {rest}")


def _of_unset(uses: Iterable[Tuple[Statement, str]]) -> Iterator[Warned]:
    """Conditions on a flag before any cycle, and the first use of each variable before it is set."""
    told: Set[str] = set()
    for it, name in uses:
        if name == FLAGS:
            yield Warned(it.line, Code.EARLY_FLAG, "`q` and `x` are 0 here: no cycle of this service comes before")
        elif name not in told:
            told.add(name)
            yield Warned(it.line, Code.UNSET, f"`{name}` is 0 here: nothing sets it before, and no variable lasts from service to service")


def _of_registers(flow: Flow) -> Iterator[Warned]:
    """Registers by which no cycle is made, and those by which the same cycle is made as by another one."""
    made = {register for it in flow.row if isinstance(it, (Cycle, Transfer)) for register in it.registers}
    set_by: Dict[str, SetRegister] = {}
    first: Dict[Tuple[str, int], SetRegister] = {}
    for it, row in flow.row.items():
        if isinstance(it, SetRegister):
            if it.register not in made and it.register not in set_by:
                yield _unused(it.line, REGISTER, it.register)
            set_by[it.register] = it
        elif isinstance(it, (Cycle, Transfer)) and len(it.registers) == 1 and it in flow.made:
            mine, at = set_by[it.registers[0]], " ".join(row[PLACE_OF:])
            other = first.get((at, it.function), mine)
            if other.register == mine.register or set_by[other.register] is not other:
                first[at, it.function] = mine
            elif ".." not in at:
                text = f"`{mine.register}` has the address of `{other.register}` (line {other.line}), and F{it.function} is sent by both"
                yield Warned(mine.line, Code.TWINS, text)


def _of_parameters(body: Body) -> Iterator[Warned]:
    named = {*(it.writes for it in body.every), *(name for it in body.every for name in it.names)}
    return (_unused(body.line, PARAMETER, it) for it in body.variables if it not in named)


def span(it: Expression, known: Dict[str, Range]) -> Range:
    """The least and the greatest result of an expression of names in these ranges, as the checker has them. A divisor is one number."""
    if isinstance(it, Number):
        return it.value, it.value
    if isinstance(it, Name):
        return known[it.name]
    (low, high), (least, most) = span(it.left, known), span(it.right, known)
    if it.sign == "%" and low // most < high // most:
        return 0, most - 1
    if it.sign == "-":
        least, most = most, least
    return OPERATIONS[it.sign](low, least), OPERATIONS[it.sign](high, most)


def guard_of(it: If) -> Optional[Guard]:
    """The guard that an `if` is: `if sum <= 16777215 - 4095 { sum = sum + v }`, as camac proposes it, with any numbers, and without an `else`."""
    adds = it.body[0] if len(it.body) == 1 else None
    if len(it.parts) > 1 or it.has_else or not it.parts[0].sides or it.parts[0].sign != "<=" or not isinstance(adds, Assign):
        return None
    (total, most), value = it.parts[0].sides, adds.value
    if not isinstance(value, Operation) or value.sign != "+" or not isinstance(most, Operation) or names_in(most):
        return None
    for one, step in ((value.left, value.right), (value.right, value.left)):
        if isinstance(total, Name) and isinstance(one, Name) and total.name == one.name == adds.name and adds.name not in names_in(step):
            return Guard(it, adds, total, step, span(most, {})[0])
    return None
