"""What each statement has of the bound of its body: the rows of `costs`, over what the checker found of the statement."""
from __future__ import annotations

from typing import Iterator, List, NamedTuple, Tuple

from oracle.reader.checker import Checker, Judged
from oracle.reader.plan import gl_of
from oracle.reader.ranges import STEP, Cost, Range, State, hull, value_of
from oracle.reader.tree import (
    Assign, Block, Body, Call, CrateCall, Cycle, For, ForEach, If, LamCall, Lock, Put, Scan, SetRegister, Statement, While,
)

NOTHING = Cost()
WORDS = {
    Assign: "=", SetRegister: "cdreg", Put: "put", Scan: "cfmad", If: "if", For: "for", ForEach: "for", While: "while", Lock: "lock", Call: "call",
}


class Counted(NamedTuple):
    """How often a block is made at most, and how often each of its numbers counts in the bound."""

    times: int
    weight: Cost


class Tail(NamedTuple):
    """Where the cycles of a statement go: a word, and ranges. Of a scan they are those of its first and of its last address, of turns up to their
    number."""

    word: str = ""
    ranges: Tuple[Range, ...] = ()

    def text(self) -> str:
        if len(self.ranges) == 6:
            crates, (station, _), (sub, _), _, (_, last_station), (_, last_sub) = self.ranges
            return " at {0} {1} {2} to {0} {3} {4}".format(range_text(crates), station, sub, last_station, min(last_sub, 15))
        if self.word == "turns":
            return f" turns {self.ranges[0][1]}"
        return "".join(f" {it}" for it in (self.word, *map(range_text, self.ranges)) if it)

    def wider(self, other: "Tail") -> "Tail":
        """What two turns tell. One that is not reached tells less."""
        if not self.ranges or not other.ranges:
            return self if self.ranges else other
        return Tail(self.word, tuple(hull(a, b) for a, b in zip(self.ranges, other.ranges)))


class Row(NamedTuple):
    line: int
    depth: int
    word: str
    times: int
    each: Cost
    share: Cost
    tail: Tail = Tail()

    def merged(self, other: "Row") -> "Row":
        """The row of one statement in two turns."""
        each, share = self.each.greater(other.each), self.share.plus(other.share)
        return self._replace(times=self.times + other.times, each=each, share=share, tail=self.tail.wider(other.tail))

    def text(self) -> str:
        each = "cycles {} words {} steps {}".format(*self.each)
        return f"line {self.line} depth {self.depth} {self.word} times {self.times} {each} share {'{} {} {}'.format(*self.share)}{self.tail.text()}"


def word_of(statement: Statement) -> str:
    if isinstance(statement, Cycle):
        return "cssa" if statement.is_short else "cfsa"
    if isinstance(statement, Block):
        return "cfubc" if statement.limit is None else "cfubr"
    if isinstance(statement, (CrateCall, LamCall)):
        return statement.call.split()[0]
    return WORDS[type(statement)]


def range_text(ends: Range) -> str:
    return str(ends[0]) if ends[0] == ends[1] else f"{ends[0]}..{ends[1]}"


def multiplied(a: Cost, b: Cost) -> Cost:
    return Cost(*(x * y for x, y in zip(a, b)))


class Shares:
    """The rows of the bodies that a checker has judged."""

    def __init__(self, checker: Checker) -> None:
        self.checker, self.judged = checker, checker.judged

    def found(self, statement: Statement) -> Tuple[State, Cost]:
        """What was known before a statement (None if it cannot be reached), and what one time of it costs."""
        return self.judged.found.get(id(statement), (None, NOTHING))

    def block_cost(self, block: List[Statement]) -> Cost:
        cost = NOTHING
        for it in block:
            cost = cost.plus(self.found(it)[1])
        return cost

    def turns(self, loop: For | ForEach | While) -> int:
        """A loop of T turns has 1 step and T times (1 + the steps of its block). Those of an `each` are known."""
        if isinstance(loop, ForEach):
            return len(self.judged.turns.get(id(loop), []))
        return (self.found(loop)[1].steps - 1) // (1 + self.block_cost(loop.body).steps)

    def rows(self, block: List[Statement], depth: int, counted: Counted) -> Iterator[Row]:
        for statement in block:
            known, each = self.found(statement)
            here = counted if known is not None else Counted(0, NOTHING)
            share = multiplied(self.own(statement, known, each), here.weight)
            yield Row(statement.line, depth, word_of(statement), here.times, each, share, self.tail(statement, known))
            yield from self.inside(statement, depth, here)

    def own(self, statement: Statement, known: State, each: Cost) -> Cost:
        """The cost of one time without its block."""
        if known is None:
            return NOTHING
        if isinstance(statement, If):
            return STEP
        if isinstance(statement, (For, ForEach, While)):
            return Cost(steps=1 + self.turns(statement))
        if isinstance(statement, Lock):
            return Cost(self.checker.plan.waits(value_of(known, statement.crate, statement.line)[0]), 0, 2)
        return each

    def inside(self, statement: Statement, depth: int, here: Counted) -> Iterator[Row]:
        if isinstance(statement, If):
            yield from self.arms(statement, depth, here)
        elif isinstance(statement, (For, While)):
            turns = self.turns(statement) if here.times else 0
            yield from self.rows(statement.body, depth + 1, Counted(here.times * turns, here.weight.times(turns)))
        elif isinstance(statement, ForEach):
            yield from self.each(statement, depth + 1, here)
        elif isinstance(statement, Lock):
            yield from self.rows(statement.body, depth + 1, here)

    def each(self, loop: ForEach, depth: int, here: Counted) -> List[Row]:
        """The rows of all turns as one; without a turn those of what cannot be reached."""
        around = self.judged
        self.judged = Judged()
        rows = list(self.rows(loop.body, depth, Counted(0, NOTHING)))
        for self.judged in around.turns.get(id(loop), []):
            rows = [one.merged(other) for one, other in zip(rows, self.rows(loop.body, depth, here))]
        self.judged = around
        return rows

    def arms(self, statement: If, depth: int, here: Counted) -> Iterator[Row]:
        """For each number the greater arm counts, the first if both are alike."""
        first, second = self.block_cost(statement.body), self.block_cost(statement.otherwise or [])
        of_first = Cost(*(int(a >= b) for a, b in zip(first, second)))
        yield from self.rows(statement.body, depth + 1, here._replace(weight=multiplied(here.weight, of_first)))
        if statement.otherwise is not None:
            is_reached = here.times and id(statement) not in self.judged.never_else
            yield Row(statement.line, depth, "else", here.times if is_reached else 0, second, NOTHING)
            of_second = Cost(*(1 - one for one in of_first))
            yield from self.rows(statement.otherwise, depth + 1, here._replace(weight=multiplied(here.weight, of_second)))

    def tail(self, statement: Statement, known: State) -> Tail:
        """The tail of a row. The address of a LAM and the name of a procedure are known in any case."""
        if isinstance(statement, LamCall):
            lam = self.checker.script.lams[statement.lam]
            return Tail(f"at {lam.crate} {lam.station} {lam.sub}")
        if isinstance(statement, Call):
            return Tail(f"proc {statement.procedure}")
        if known is None:
            return Tail()
        if isinstance(statement, (For, ForEach, While)):
            return Tail("turns", ((0, self.turns(statement)),))
        if isinstance(statement, (Lock, CrateCall)):
            return Tail("crate", (value_of(known, statement.crate, statement.line),))
        if isinstance(statement, Scan):
            return Tail("at", (*known.registers[statement.first], *known.registers[statement.last]))
        return Tail("at", known.registers[statement.register]) if isinstance(statement, (Cycle, Block)) else Tail()

    def head(self, body: Body, cost: Cost) -> str:
        cycles, words, steps = cost
        numbers = f"cycles {cycles} of {body.cycles} words {words} of {body.words} steps {steps}"
        if not body.is_service:
            return f"proc {body.name} line {body.line} {numbers} of {body.steps}"
        lam = self.checker.script.lams[body.name]
        gl = gl_of(self.checker.script, self.checker.plan, body.name)
        return f"service {body.name} line {body.line} gl {gl} at {lam.crate} {lam.station} {lam.sub} {numbers}"

    def lines(self) -> List[str]:
        lines = []
        for it, cost in zip(self.checker.script.bodies, self.checker.costs):
            lines.append(self.head(it, cost))
            lines += [row.text() for row in self.rows(it.block, 1, Counted(1, Cost(1, 1, 1)))]
        return lines
