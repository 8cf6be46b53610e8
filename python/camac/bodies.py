"""What the bound of a body consists of: the rows of `camac costs`, and which part of them is auxiliary controllers' or not needed."""
from typing import Dict, List, Mapping, Optional, Sequence

from camac.language import CYCLES, TRANSFERS
from camac.printed import read_bodies
from camac.texts import GREATEST_DEPTH
from camac.values import Body, Cost, Row

# The most rows of a body with its calls opened.
MOST = 2000


def parse_costs(printed: str) -> List[Body]:
    """Reads what `camac costs` prints, with the waits and the slack of each row."""
    procedures: Dict[str, Body] = {}
    for body in read_bodies(printed):
        procedures[body.name] = body._replace(rows=tuple(_with_parts(row, procedures) for row in body.rows))
    return list(procedures.values())


def _with_parts(row: Row, procedures: Dict[str, Body]) -> Row:
    """Tells waits and slack from our cycles, in the share of a row. A cycle of ours costs 1 and its wait; a transfer makes one step more
    than cycles of ours; a call costs what its procedure's heading says."""
    each, share = row.each.cycles, row.share.cycles
    if not each or not share:
        return row
    if row.word == "lock":
        return row._replace(waits=share)
    if row.word in CYCLES:
        return row._replace(waits=share * (each - 1) // each)
    if row.word in TRANSFERS:
        return row._replace(waits=share * (each - (row.each.steps - 1)) // each)
    if row.word == "call":
        body = procedures[row.called()]
        return row._replace(waits=share * body.waits() // each, slack=share * (body.slack() + each - body.most.cycles) // each)
    return row


def opened(body: Body, procedures: Mapping[str, Body]) -> List[Row]:
    """The rows of a body, with those of each called procedure below its call, as often as they are made there. The share of a call is then
    what its heading promises and its body does not need. A call stays closed that is never counted, or at which there were more than MOST
    rows, or below which a row were deeper than a block may be."""
    found: List[Row] = []

    def take(rows: Sequence[Row], times: int, depth: int) -> None:
        """Adds the rows of a body that is called so many times, below a statement of this depth."""
        for row in rows:
            row = _times(row, times)._replace(depth=depth + row.depth)
            procedure = called(row, procedures)
            if not procedure or not row.share.cycles or len(found) + len(procedure.rows) > MOST or row.depth >= GREATEST_DEPTH:
                found.append(row)
                continue
            counted = _counted(row)
            slack = counted * (row.each.cycles - procedure.most.cycles)
            found.append(row._replace(share=Cost(slack, 0, 0), waits=0, slack=slack))
            take(procedure.rows, counted, row.depth)

    take(body.rows, 1, 0)
    return found


def called(row: Row, procedures: Mapping[str, Body]) -> Optional[Body]:
    """The procedure that a row calls."""
    return procedures.get(row.called()) if row.word == "call" else None


def _counted(row: Row) -> int:
    """How many times a call is counted in the bound. In an `each` the greater arm of an `if` may be another one in each turn; all its calls cost the same."""
    return row.share.cycles // row.each.cycles


def _times(row: Row, times: int) -> Row:
    share = Cost(*(times * it for it in row.share))
    return row._replace(times=times * row.times, share=share, waits=times * row.waits, slack=times * row.slack)


class Call:
    """A call that is counted in a bound: its line, what is called with its rows as often as they are made there, how often, and what one
    time costs."""

    def __init__(self, line: int, body: Body, times: int, each: int) -> None:
        self.line, self.body, self.times, self.each = line, body, times, each

    def promised(self) -> int:
        """The cycles that the heading promises and the body does not need, of all times together."""
        return self.times * self.each - self.body.most.cycles


def calls_of(body: Body, procedures: Mapping[str, Body], most: int = 40) -> List[Call]:
    """The calls of a body, and those of the procedures that it calls below them; the first `most` of them."""
    found: List[Call] = []
    for row in body.rows:
        procedure = called(row, procedures)
        if procedure and row.share.cycles and len(found) < most:
            counted = _counted(row)
            rows = tuple(_times(it, counted) for it in procedure.rows)
            scaled = procedure._replace(rows=rows, most=Cost(*(counted * it for it in procedure.most)))
            found += [Call(row.line, scaled, counted, row.each.cycles), *calls_of(scaled, procedures, most - len(found) - 1)]
    return found
