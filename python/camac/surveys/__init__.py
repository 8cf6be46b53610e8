"""A survey: asks the crates which commands they accept, and compares that with the plan. What is sent is in scripts that the program has judged,
and none of it writes to a module."""
import enum
import itertools
import time
from typing import Callable, Iterator, List, NamedTuple, Optional, Sequence, Tuple, Union

from camac.drive import Answer, Branch, File, branch_of
from camac.functions import writes
from camac.surveys.asking import Asked, Reach, Script, ask, declared_plan, service
from camac.surveys.wiring import Wire
from camac.values import Command, Crate, Declaration, Plan, Station, ranges

# F8 and F27 change nothing, so they go to all sub-addresses; F0 and F1 to those that are declared.
TESTS, READS = (8, 27), (0, 1)
FUNCTIONS = READS + TESTS
STATIONS = range(1, 24)
# The most statements of a script are 4,096, and a range takes four.
MOST_REACHES = 1000


class Found(enum.Enum):
    """What an answer says of the plan. MORE is a command of a module that its type does not declare."""

    AGREES = "agrees"
    DIFFERS = "DIFFERS"
    MORE = "not declared"
    NOTHING = ""


class Row(NamedTuple):
    """Neighbouring sub-addresses that answered alike.

    type           that of the plan; "" if the plan has no module at this station
    declared       what the plan declares there; None if nothing
    x, q           of the replies
    bits           how many bits the words had at most
    found, why     what that says of the plan, and why it differs"""

    crate: int
    station: int
    type: str
    function: int
    first: int
    last: int
    declared: Optional[Declaration]
    x: int
    q: int
    bits: int
    found: Found
    why: str = ""

    def sub_addresses(self) -> str:
        return f"A{self.first}" if self.first == self.last else f"A{self.first} to A{self.last}"

    def place(self) -> str:
        return f"crate {self.crate} station {self.station}" + (f" ({self.type})" if self.type else "")


class Survey(NamedTuple):
    """What a survey found.

    at          when it began (UTC, ISO 8601)
    plan        the plan that the crates were compared with
    functions   those that were sent
    has_empty   whether stations without a module in the plan were asked, too
    asked       the scripts, with all that they made
    rows        the answers, by crate, station and function
    wires       the look-at-mes that were raised, if they were"""

    at: str
    plan: Plan
    functions: Tuple[int, ...]
    has_empty: bool
    asked: Tuple[Asked, ...]
    rows: Tuple[Row, ...]
    wires: Tuple[Wire, ...] = ()

    def count(self, found: Found) -> int:
        """How many commands were found so."""
        return sum(it.last - it.first + 1 for it in self.rows if it.found is found)

    def scripts(self) -> List[Asked]:
        """All scripts, with what they made."""
        return [*self.asked, *(it for wire in self.wires for it in wire.asked)]

    def sent(self) -> int:
        return sum(len(it.made) for it in self.scripts())

    def differences(self) -> List[str]:
        """What differs, in sentences: faults of the branch, and then by station. Nothing if plan and crates agree."""
        faults = [f"{it.script.name.replace('-', ' ')}: not all was asked: {it.fault}" for it in self.asked if it.fault]
        wires = [it.line() for it in self.wires if it.differs()]
        return faults + [line for _, rows in self.stations() for line in _differences(self.plan, rows)] + wires

    def stations(self) -> Iterator[Tuple[Tuple[int, int], List[Row]]]:
        """The rows of each station, by crate and station."""
        for place, rows in itertools.groupby(self.rows, key=lambda it: (it.crate, it.station)):
            yield place, list(rows)

    def not_tried(self) -> List[str]:
        """What was not asked, and why."""
        types = {at.type for crate in self.plan.crates for at in crate.stations}
        declared = {it.function for kind in types for it in self.plan.types[kind].declarations}
        left = sorted(declared - {*self.functions})
        written, others = [it for it in left if writes(it)], [it for it in left if not writes(it)]
        lines = [f"{_names(written)}: a survey writes nothing"] if written else []
        lines += [f"{_names(others)}: asked for by --also {','.join(f'F{it}' for it in others)}"] if others else []
        empty = sum(len(STATIONS) - len(it.stations) for it in self.plan.crates)
        lines += [f"{empty} stations without a module in the plan: asked for by --empty"] if empty and not self.has_empty else []
        lines += [it.line() for it in self.wires if not it.is_raised]
        return lines + ([] if self.wires or not self.plan.demands() else ["the bits of graded-L: asked for by --wiring"])


def survey(
    plan: File, branch: Union[Branch, str], *, functions: Sequence[int] = FUNCTIONS, has_empty: bool = False, program: Optional[File] = None,
    timeout: Optional[float] = None, tell: Optional[Callable[[str], None]] = None,
) -> Survey:
    """Asks the modules of a plan by checked scripts, and compares their answers with the plan. `plan` may be "@sample", and `branch` the name of a
    driver (`camac.driver`).

    Of `functions`, F8 and F27 go to all sub-addresses of each station, every other one to those where the plan declares it. Where `has_empty`, F8 and
    F27 also go to the stations that the plan leaves empty. `tell` is called with a line before each script.

    A branch that raises an exception, or waits longer than the plan permits, is a difference; the rest of its crate is not asked. Raises ValueError
    for functions that write (F16 to F23), and for the rest what `camac.call` raises."""
    if any(not 0 <= it < 32 or writes(it) for it in functions):
        raise ValueError("a survey sends F0 to F15 and F24 to F31: the others write")
    branch = branch_of(branch, plan)
    if not getattr(branch, "tells_x", True) and any(it >= 8 for it in functions):
        raise ValueError("this driver tells no X of functions that move no data: ask for F0 and F1 alone, or let it read to tell X (mcstd:LIBRARY,x)")
    listed = declared_plan(plan, program)
    at = time.strftime("%Y-%m-%dT%H:%M:%SZ", time.gmtime())
    asked = []
    for number, crate in enumerate(listed.crates, 1):
        for script in scripts(listed, crate, functions, has_empty):
            if tell:
                tell(f"crate {crate.number}, {number} of {len(listed.crates)}: {script.commands:,} commands")
            asked.append(ask(script, branch, program, timeout))
    answers = [cycle for it in asked for cycle in it.cycles()]
    return Survey(at, listed, tuple(functions), has_empty, tuple(asked), tuple(_rows(listed, answers)))


def _names(functions: Sequence[int]) -> str:
    return ", ".join(f"F{it}" for it in functions)


def reaches(plan: Plan, station: Station, functions: Sequence[int]) -> List[Reach]:
    """What is sent to a station with a module."""
    found = [Reach(station.number, it, 0, 15) for it in TESTS if it in functions]
    for function in sorted({*functions} - {*TESTS}):
        there = {a for f, a in plan.types[station.type].declared() if f == function}
        found += [Reach(station.number, function, *it) for it in ranges(there)]
    return found


def scripts(plan: Plan, crate: Crate, functions: Sequence[int], has_empty: bool) -> Iterator[Script]:
    """The scripts for a crate, each with a plan that permits what it sends, and nothing else."""
    of_station = {it.number: it for it in crate.stations}
    sent: List[Reach] = []
    for number in STATIONS:
        if number in of_station:
            sent += reaches(plan, of_station[number], functions)
        elif has_empty:
            sent += [Reach(number, it, 0, 15) for it in TESTS if it in functions]
    for part in range(0, len(sent), MOST_REACHES):
        batch = sent[part : part + MOST_REACHES]
        name = f"crate-{crate.number}" + (f"-part-{part // MOST_REACHES + 1}" if len(sent) > MOST_REACHES else "")
        commands = sum(it.last - it.first + 1 for it in batch)
        text = service((crate.number, batch[0].station, 0), commands * (1 + crate.waits), [it.statement(crate.number) for it in batch])
        yield Script(name, _plan_of(crate, batch), text, 1, commands)


def _plan_of(crate: Crate, sent: Sequence[Reach]) -> str:
    """A plan of one crate, in which each station has the commands that are sent to it."""
    lines: List[str] = []
    stations: List[str] = []
    for number, of_station in itertools.groupby(sent, key=lambda it: it.station):
        commands = ", ".join(f"{{ f = {it.function}, a = {it.first}, to = {it.last} }}" for it in of_station)
        lines.append(f'[[type]]\nname = "AT-{number}"\ncommands = [ {commands} ]\n')
        stations.append(f'  {{ n = {number}, type = "AT-{number}"{"" if stations else ", gl = 1"} }},\n')
    return "".join(lines) + f"[[crate]]\nnumber = {crate.number}\nwaits = {crate.waits}\nstation = [\n{''.join(stations)}]\n"


def _rows(plan: Plan, answers: Sequence[Tuple[Command, Answer]]) -> List[Row]:
    rows: List[Row] = []
    for command, answer in sorted(answers, key=lambda it: (it[0].crate, it[0].station, it[0].function, it[0].sub_address)):
        row, last = _row(plan, command, answer), rows[-1] if rows else None
        if last and row._replace(first=last.first, last=last.last, bits=last.bits) == last and row.first == last.last + 1:
            rows[-1] = last._replace(last=row.last, bits=max(last.bits, row.bits))
        else:
            rows.append(row)
    return rows


def _row(plan: Plan, command: Command, answer: Answer) -> Row:
    crate, station, a, f = command
    kind, declared = plan.type_at(crate, station), plan.declaration(*command)
    found, why = _judge(kind is not None, declared, answer)
    return Row(crate, station, kind.name if kind else "", f, a, a, declared, answer.x, answer.q, answer.word.bit_length(), found, why)


def _judge(has_module: bool, declared: Optional[Declaration], answer: Answer) -> Tuple[Found, str]:
    """What an answer says of the plan, and why it differs."""
    if not has_module:
        return (Found.DIFFERS, "accepted (X = 1), and the plan has no module here") if answer.x else (Found.NOTHING, "")
    if declared is None:
        return Found.MORE if answer.x else Found.NOTHING, ""
    if declared.is_probe:
        return (Found.DIFFERS, "a probe of the plan, and a register answers (Q = 1)") if answer.q else (Found.AGREES, "")
    if not answer.x:
        return Found.DIFFERS, "declared, and not accepted (X = 0)"
    if answer.word >> (declared.width or 24):
        return Found.DIFFERS, f"a word has more than the {declared.width} bits of the plan"
    return Found.AGREES, ""


def _differences(plan: Plan, rows: Sequence[Row]) -> Iterator[str]:
    """The sentences on a station."""
    place, differing = rows[0].place(), [it for it in rows if it.found is Found.DIFFERS]
    if differing and not any(it.x for it in rows):
        yield f"{place}: nothing answers: there is no module, or a dead one"
        return
    for it in differing:
        yield f"{place} F{it.function} {it.sub_addresses()}: {it.why}"
    # The types of the plan that declare just the tests that the station accepts, unless its own is one of them.
    accepted = {(it.function, a) for it in rows if it.x and it.function in TESTS for a in range(it.first, it.last + 1)}
    alike = [name for name, kind in plan.types.items() if accepted and {it for it in kind.declared() if it[0] in TESTS} == accepted]
    if differing and alike and rows[0].type not in alike:
        yield f"{place}: it accepts the tests of {' or '.join(alike)}"
