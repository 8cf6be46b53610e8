"""The checker's rules of the loops."""
from __future__ import annotations

from typing import TYPE_CHECKING, Iterator, List, Optional, Set, Tuple

from oracle.reader.ranges import STEP, Cost, Known, Range, State, hull, is_inside, test_values, value_of, where
from oracle.reader.refusals import MOST, Refused
from oracle.reader.tree import Assign, Block, Body, Cycle, For, ForEach, If, Keep, Lock, Operation, Scan, SetRegister, Statement, While

if TYPE_CHECKING:
    from oracle.reader.checker import Checker

TURNS = 65_535
# What all `each` loops of a body judge at most.
JUDGED = 65_536


def everything(statements: List[Statement]) -> Iterator[Statement]:
    """All statements of a block, at any depth."""
    for statement in statements:
        yield statement
        if isinstance(statement, If):
            yield from everything(statement.body + (statement.otherwise or []))
        elif isinstance(statement, (For, ForEach, While, Lock)):
            yield from everything(statement.body)


def written_by(statement: Statement) -> Optional[str]:
    """The variable that a statement itself writes."""
    if isinstance(statement, (Assign, For, ForEach)):
        return statement.name
    if isinstance(statement, (Scan, Block)):
        return statement.tally
    return statement.into if isinstance(statement, Cycle) else None


def head_of(known: Known, body: List[Statement], keeps: List[Keep], name: str, range_: Range) -> Known:
    """What is known before each turn: what the body writes is forgotten but for what is kept and for the loop's own variable."""
    written: Set[Optional[str]] = {written_by(it) for it in everything(body)}
    unset = {it.register for it in everything(body) if isinstance(it, SetRegister)}
    variables = {it: (0, MOST) if it in written else old for it, old in known.variables.items()}
    variables.update({it.name: (it.first, it.last) for it in keeps})
    variables[name] = range_
    return Known(variables, {it: old for it, old in known.registers.items() if it not in unset}, known.locked)


def test_keeps(state: State, keeps: List[Keep], code: str, line: int) -> None:
    """E8 at entry (also for a range without a number), E9 after a turn."""
    for it in keeps if state is not None else []:
        if it.first > it.last or not is_inside(state.variables[it.name], (it.first, it.last)):
            raise Refused(code, line)


def cost_of(turns: int, body: Cost) -> Cost:
    return STEP.plus(body.plus(STEP).times(turns))


def for_(checker: Checker, known: Known, loop: For) -> Tuple[State, Cost]:
    first, last = value_of(known, loop.first, loop.line), value_of(known, loop.last, loop.line)
    checker.writes(loop.name, loop.line)
    turns = max(0, last[1] - first[0] + 1)
    if turns > TURNS:
        raise Refused("E10", loop.line)
    test_keeps(known, loop.keeps, "E8", loop.line)
    if not turns:
        return known, STEP
    entry, own = known.variables[loop.name], (first[0], last[1])
    head = head_of(known, loop.body, loop.keeps, loop.name, own)
    around, checker.loop_variables = checker.loop_variables, (*checker.loop_variables, loop.name)
    after, cost = checker.block(head, loop.body)
    checker.loop_variables = around
    test_keeps(after, loop.keeps, "E9", loop.line)
    return head.with_variable(loop.name, hull(entry, own)), cost_of(turns, cost)


def turns_of(loop: ForEach) -> int:
    return max(0, loop.last - loop.first + 1)


def judged_in(loop: ForEach) -> int:
    """What is judged in an `each`: its turns, and in each of them the statements of its block."""
    return turns_of(loop) * (1 + judged_by(loop.body))


def judged_by(block: List[Statement]) -> int:
    """What is judged where a block is judged once."""
    count = 0
    for it in block:
        blocks = [it.body, it.otherwise or []] if isinstance(it, If) else [it.body] if isinstance(it, (For, While, Lock)) else []
        count += 1 + (judged_in(it) if isinstance(it, ForEach) else sum(judged_by(one) for one in blocks))
    return count


def outermost(block: List[Statement]) -> Iterator[ForEach]:
    """The `each` loops of a block that are in no other one, in text order."""
    for statement in block:
        if isinstance(statement, ForEach):
            yield statement
        elif isinstance(statement, If):
            yield from outermost(statement.body + (statement.otherwise or []))
        elif isinstance(statement, (For, While, Lock)):
            yield from outermost(statement.body)


def test_judged(body: Body) -> None:
    """E10 at the `each` with which those of a body judge too much, before anything of it is judged."""
    count = 0
    for loop in outermost(body.block):
        count += judged_in(loop)
        if count > JUDGED:
            raise Refused("E10", loop.line, loop)


def each(checker: Checker, known: Known, loop: ForEach) -> Tuple[State, Cost]:
    """Judges the block for each turn, from what the one before has left."""
    checker.writes(loop.name, loop.line)
    if turns_of(loop) > TURNS:
        raise Refused("E10", loop.line)
    state: State = known
    cost = STEP
    around, checker.loop_variables = checker.loop_variables, (*checker.loop_variables, loop.name)
    for number in range(loop.first, loop.last + 1):
        if state is None:
            break
        with checker.turn_of(loop, number):
            state, one = checker.block(state.with_variable(loop.name, (number, number)), loop.body)
        cost = cost.plus(STEP).plus(one)
    checker.loop_variables = around
    if state is not None and turns_of(loop):
        # A loop in the block may keep it in a wider range.
        state = state.with_variable(loop.name, (loop.last, loop.last))
    return state, cost


def falls_by(loop: While) -> Optional[int]:
    """What each turn takes from the measure, or None if the rule on measures is broken."""
    falls = [one for one in loop.body if isinstance(one, Assign) and one.name == loop.measure]
    written = [one for one in everything(loop.body) if written_by(one) == loop.measure]
    if len(falls) != 1 or len(written) != 1:
        return None
    value = falls[0].value
    if not isinstance(value, Operation) or value.sign != "-" or value.left != loop.measure or not isinstance(value.right, int):
        return None
    return value.right or None


def while_(checker: Checker, known: Known, loop: While) -> Tuple[State, Cost]:
    step = falls_by(loop)
    if step is None:
        raise Refused("E7", loop.line)
    most = known.variables[loop.measure][1]
    if loop.turns > TURNS or most // step > loop.turns:
        raise Refused("E10", loop.line)
    test_keeps(known, loop.keeps, "E8", loop.line)
    head = head_of(known, loop.body, loop.keeps, loop.measure, (0, most))
    test_values(head, loop.condition, loop.line)
    inside = where(head, loop.condition, True, loop.line)
    after, cost = checker.block(inside, loop.body)
    test_keeps(after, loop.keeps, "E9", loop.line)
    turns = 0 if inside is None else loop.turns
    return where(head, loop.condition, False, loop.line), cost_of(turns, cost)
