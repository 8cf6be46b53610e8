"""The checker's rules: what is known after each statement, what it costs, and the first rule that is broken."""
from __future__ import annotations

from contextlib import contextmanager, suppress
from typing import Dict, FrozenSet, Iterator, List, Set, Tuple

from oracle.reader import loops, transfers
from oracle.reader.plan import Plan, gl_of, kind_of, link_faults
from oracle.reader.ranges import STEP, Address, Cost, Known, Range, State, is_inside, join, one_cycle, test_values, value_of, where, widths_of
from oracle.reader.refusals import MOST, Refused
from oracle.reader.tree import (
    Assign, Body, Call, CrateCall, Cycle, Expression, For, ForEach, If, LamCall, Lock, Put, Scan, Script, SetRegister, Statement, While,
)
from oracle.reader.tree import Block as Transfer

GREATEST_WORD = 16_777_215
SHORT_WORD = 65_535
LAM_FUNCTIONS = {"cclm on": 26, "cclm off": 24, "cclc": 10, "ctlm": 8}


class Judged:
    """What was found while a block was judged once."""

    def __init__(self) -> None:
        # Of each statement that can be reached, by its identity: what was known before it, and what one time of it costs (nothing if it is refused).
        self.found: Dict[int, Tuple[Known, Cost]] = {}
        # Of each of these that is refused, or has a statement in it that is, the refusal.
        self.stopped: Dict[int, Refused] = {}
        # The choices whose `else` cannot be reached.
        self.never_else: Set[int] = set()
        # Of each `each` its turns.
        self.turns: Dict[int, List[Judged]] = {}

    def all(self) -> Iterator[Judged]:
        """This and each turn in it."""
        yield self
        for turns in self.turns.values():
            for one in turns:
                yield from one.all()

    def found_of(self, statement: Statement) -> Iterator[Tuple[Known, Cost]]:
        """What is known before a statement and what it costs, wherever it is judged: in an `each` once for each turn."""
        return (one.found[id(statement)] for one in self.all() if id(statement) in one.found)

    def known(self, statement: Statement) -> Iterator[Known]:
        return (known for known, _ in self.found_of(statement))


class Checker:
    """Judges the bodies of a script in text order. `costs` has those of the bodies that were judged.

    With `is_least` no heading's numbers are looked at: a call costs what its procedure's body does.
    """

    def __init__(self, script: Script, plan: Plan, is_least: bool = False) -> None:
        self.script, self.plan, self.is_least = script, plan, is_least
        self.costs: List[Cost] = []
        self.headings: Dict[str, Cost] = {}
        self.judged = Judged()
        # The variables of the `for` loops around.
        self.loop_variables: Tuple[str, ...] = ()

    def judge(self) -> None:
        for refused in self.refusals():
            raise refused

    def refusals(self) -> Iterator[Refused]:
        """The faults of linking, or else the first broken rule of each body that breaks one."""
        faults = list(link_faults(self.script, self.plan, not self.is_least))
        yield from faults
        for body in self.script.bodies if not faults else []:
            self.headings[body.name] = Cost(body.cycles, body.words, body.steps)
            try:
                cost = self.body(body)
            except Refused as refused:
                yield refused
                continue
            self.costs.append(cost)
            if self.is_least:
                self.headings[body.name] = cost

    def body(self, body: Body) -> Cost:
        self.loop_variables = ()
        loops.test_judged(body)
        variables: Dict[str, Range] = {it.name: (it.first, it.last) for it in body.parameters}
        if body.is_service:
            variables = {name: (0, 0) for name in self.script.variables}
        is_possible = all(first <= last for first, last in variables.values())
        _, cost = self.block(Known(variables, {}, frozenset()) if is_possible else None, body.block)
        most = Cost(body.cycles, body.words, MOST if body.is_service else body.steps)
        if self.is_least:
            most = Cost(MOST, MOST, MOST)
        if cost.words > most.words:
            raise Refused("E11", body.line, body)
        if self.is_least and body.is_service and cost.words > self.plan.buffer:
            raise Refused("L4", body.line, body)
        if cost.cycles > most.cycles:
            raise Refused("E12", body.line, body)
        if cost.steps > most.steps:
            raise Refused("E18", body.line, body)
        return cost

    def block(self, state: State, statements: List[Statement]) -> Tuple[State, Cost]:
        cost = Cost()
        for statement in statements:
            if state is None:
                break
            known = state
            self.judged.found[id(statement)] = known, Cost()
            try:
                state, one = RULES[type(statement)](self, known, statement)
            except Refused as refused:
                refused.what = refused.what or statement
                self.judged.stopped[id(statement)] = refused
                raise
            self.judged.found[id(statement)] = known, one
            cost = cost.plus(one)
        return state, cost

    @contextmanager
    def turn_of(self, loop: ForEach, number: int) -> Iterator[None]:
        """A turn, of which what is found is kept apart."""
        around, self.judged = self.judged, Judged()
        around.turns.setdefault(id(loop), []).append(self.judged)
        try:
            yield
        except Refused as refused:
            refused.turns.insert(0, f"{loop.name} = {number}")
            raise
        finally:
            self.judged = around

    def writes(self, name: str, line: int) -> None:
        """E17 if the variable of an enclosing `for` is written."""
        if name in self.loop_variables:
            raise Refused("E17", line)

    def address(self, known: Known, register: str, line: int) -> Address:
        if register not in known.registers:
            raise Refused("E6", line)
        return known.registers[register]

    def assign(self, known: Known, statement: Assign) -> Tuple[State, Cost]:
        value = value_of(known, statement.value, statement.line)
        self.writes(statement.name, statement.line)
        return known.with_variable(statement.name, value), STEP

    def set_register(self, known: Known, statement: SetRegister) -> Tuple[State, Cost]:
        address = Address(*(value_of(known, part, statement.line) for part in statement.address))
        return known._replace(registers={**known.registers, statement.register: address}), STEP

    def cycle(self, known: Known, statement: Cycle) -> Tuple[State, Cost]:
        value = value_of(known, statement.value, statement.line) if statement.value is not None else None
        if statement.into is not None:
            self.writes(statement.into, statement.line)
        address = self.address(known, statement.register, statement.line)
        widths = widths_of(self.plan, address, statement.function, statement.line)
        moves = "read" if statement.into is not None else "control" if value is None else "write"
        if kind_of(statement.function) != moves:
            raise Refused("E3", statement.line)
        if value is not None and (value[1] >= 2**widths.least or statement.is_short and value[1] > SHORT_WORD):
            raise Refused("E5", statement.line)
        cost = Cost(one_cycle(self.plan, address.crate, known.locked), 0, 1)
        if statement.into is not None:
            greatest = 2**widths.greatest - 1
            known = known.with_variable(statement.into, (0, min(greatest, SHORT_WORD) if statement.is_short else greatest))
        return known, cost

    def lam_call(self, known: Known, statement: LamCall) -> Tuple[State, Cost]:
        lam = self.script.lams[statement.lam]
        address = Address((lam.crate, lam.crate), (lam.station, lam.station), (lam.sub, lam.sub))
        widths_of(self.plan, address, LAM_FUNCTIONS[statement.call], statement.line)
        return known, Cost(one_cycle(self.plan, address.crate, known.locked), 0, 1)

    def one_crate(self, known: Known, expression: Expression, line: int, refused: FrozenSet[int]) -> Range:
        """The range of a crate that has to be one number, in the plan and not among the refused ones."""
        crate = value_of(known, expression, line)
        if crate[0] != crate[1] or crate[0] not in self.plan.crates or crate[0] in refused:
            raise Refused("E15", line)
        return crate

    def crate_call(self, known: Known, statement: CrateCall) -> Tuple[State, Cost]:
        crate = self.one_crate(known, statement.crate, statement.line, frozenset())
        return known, Cost(one_cycle(self.plan, crate, known.locked), 0, 1)

    def put(self, known: Known, statement: Put) -> Tuple[State, Cost]:
        if value_of(known, statement.value, statement.line)[1] > GREATEST_WORD:
            raise Refused("E16", statement.line)
        return known, Cost(0, 1, 1)

    def choice(self, known: Known, statement: If) -> Tuple[State, Cost]:
        test_values(known, statement.condition, statement.line)
        fails = where(known, statement.condition, False, statement.line)
        if fails is None:
            self.judged.never_else.add(id(statement))
        around = self.loop_variables
        try:
            after, cost = self.block(where(known, statement.condition, True, statement.line), statement.body)
        except Refused:
            self.loop_variables = around
            with suppress(Refused):
                self.block(fails, statement.otherwise or [])
            raise
        other, other_cost = self.block(fails, statement.otherwise or [])
        return join(after, other), STEP.plus(cost.greater(other_cost))

    def lock(self, known: Known, statement: Lock) -> Tuple[State, Cost]:
        crate, _ = self.one_crate(known, statement.crate, statement.line, known.locked)
        after, cost = self.block(known._replace(locked=known.locked | {crate}), statement.body)
        if after is not None:
            after = after._replace(locked=known.locked)
        return after, cost.plus(Cost(self.plan.waits(crate), 0, 2))

    def call(self, known: Known, statement: Call) -> Tuple[State, Cost]:
        values = [value_of(known, argument, statement.line) for argument in statement.arguments]
        parameters = self.script.procedures[statement.procedure].parameters
        if not all(is_inside(value, (one.first, one.last)) for value, one in zip(values, parameters)):
            raise Refused("E21", statement.line)
        return known, STEP.plus(self.headings[statement.procedure])

    def verdict(self) -> List[str]:
        lines = ["accepted"]
        for body, (cycles, words, steps) in zip(self.script.bodies, self.costs):
            if body.is_service:
                gl = gl_of(self.script, self.plan, body.name)
                lines.append(f"service {body.name} gl {gl} cycles {cycles} of {body.cycles} words {words} of {body.words} steps {steps}")
        return lines

    def least_headings(self) -> List[str]:
        """What `bounds` prints, once the script was judged with `is_least`."""
        lines = []
        for body, (cycles, words, steps) in zip(self.script.bodies, self.costs):
            numbers = f"within {cycles} cycles event {words} words"
            ranges = ", ".join(f"{one.name} in {one.first}..{one.last}" for one in body.parameters)
            lines.append(f"service {body.name} {numbers}" if body.is_service else f"proc {body.name}({ranges}) {numbers} steps {steps}")
        return lines


RULES = {
    Assign: Checker.assign, SetRegister: Checker.set_register, Cycle: Checker.cycle, LamCall: Checker.lam_call, Put: Checker.put,
    CrateCall: Checker.crate_call, If: Checker.choice, Lock: Checker.lock, Call: Checker.call,
    Scan: transfers.scan, Transfer: transfers.block, For: loops.for_, ForEach: loops.each, While: loops.while_,
}
