"""The checker's rules of the transfers `cfmad`, `cfubc` and `cfubr`."""
from __future__ import annotations

from typing import TYPE_CHECKING, Tuple

from oracle.reader.plan import kind_of
from oracle.reader.ranges import SUB_ADDRESSES, Cost, Known, State, Window, one_cycle, value_of, widths_of
from oracle.reader.refusals import Refused
from oracle.reader.tree import Block, Scan

if TYPE_CHECKING:
    from oracle.reader.checker import Checker


def moved(known: Known, tally: str, cycles: int, dear: int, kept: int, words: int) -> Tuple[State, Cost]:
    """What is known after a transfer of this number of cycles, each of which costs `dear`, and its cost."""
    return known.with_variable(tally, (0, kept)), Cost(cycles * dear, words, 1 + cycles)


def scan(checker: Checker, known: Known, statement: Scan) -> Tuple[State, Cost]:
    most = value_of(known, statement.most, statement.line)[1]
    checker.writes(statement.tally, statement.line)
    first, last = checker.address(known, statement.first, statement.line), checker.address(known, statement.last, statement.line)
    if first.crate != last.crate or first.crate[0] != first.crate[1]:
        raise Refused("E13", statement.line)
    window = Window(first.crate[0], (first.station[0], first.sub[0]), (last.station[1], last.sub[1]))
    window.test(checker.plan, statement.function, statement.line)
    if max(first.sub[1], last.sub[1]) > SUB_ADDRESSES:
        raise Refused("E2", statement.line)
    if kind_of(statement.function) != "read":
        raise Refused("E3", statement.line)
    size = window.size()
    cycles = min(size, most + last.station[1] - first.station[0] + 1) if size and most else 0
    kept = min(most, size)
    return moved(known, statement.tally, cycles, one_cycle(checker.plan, first.crate, known.locked), kept, kept)


def block(checker: Checker, known: Known, statement: Block) -> Tuple[State, Cost]:
    most = value_of(known, statement.most, statement.line)[1]
    limit = value_of(known, statement.limit, statement.line)[1] if statement.limit is not None else most
    checker.writes(statement.tally, statement.line)
    address = checker.address(known, statement.register, statement.line)
    widths = widths_of(checker.plan, address, statement.function, statement.line)
    if kind_of(statement.function) != ("write" if statement.table else "read"):
        raise Refused("E3", statement.line)
    table = checker.script.tables[statement.table] if statement.table else []
    if statement.table and most > len(table):
        raise Refused("E14", statement.line)
    if any(word >= 2**widths.least for word in table):
        raise Refused("E5", statement.line)
    kept = min(most, limit)
    dear = one_cycle(checker.plan, address.crate, known.locked)
    return moved(known, statement.tally, limit if most else 0, dear, kept, 0 if statement.table else kept)
