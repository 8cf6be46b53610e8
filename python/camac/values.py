"""What the program says, as values: each line that it prints, and each operation of a run. `camac.printed` reads them, and `camac-check --json` prints
those of its kinds by the names here."""
import enum
import re
from typing import Any, Dict, Iterable, List, NamedTuple, Optional, Tuple, Union

from camac.language import BLOCKS

# The numbers from the first to the second one.
Range = Tuple[int, int]


class BodyKind(enum.Enum):
    """What a body belongs to."""

    SERVICE = "service"
    PROCEDURE = "proc"


class Move(enum.Enum):
    """Which way a dataway cycle moves a word: from a module, to a module, or not at all."""

    IN = "in"
    OUT = "out"
    NONE = "none"


class Ending(enum.Enum):
    """How a run ended."""

    ENDED = "ended"
    SHORT = "short"
    OVERRUN = "overrun"
    REFUSED = "refused"


class Service(NamedTuple):
    """A service of an accepted script: the name of its LAM, its bit of the graded-L pattern, and the greatest number of dataway cycles
    (with those of auxiliary controllers), of event words and of steps that it can take. `annotated_` are the numbers of its heading."""

    name: str
    gl: int
    cycles: int
    annotated_cycles: int
    words: int
    annotated_words: int
    steps: int


class Heading(NamedTuple):
    """A heading with the least numbers that are accepted. `line` is the heading as it is written into a script; only a procedure's has
    steps."""

    name: str
    is_service: bool
    cycles: int
    words: int
    steps: Optional[int]
    line: str


class Harm(enum.Enum):
    """What a script does to a look-at-me, so that no number holds for it: its service may leave it up, or a service clears or hides it."""

    LEFT = "does not clear its look-at-me"
    CLEARED = "cleared by"
    HIDDEN = "hidden by"


class Unkept(NamedTuple):
    """A look-at-me for which a script does not do its part: the name of its service, the line of the statement (if it is left up, of the heading),
    why, and which service clears or hides it (None if it is left up)."""

    name: str
    line: int
    why: Harm
    other: Optional[str]

    def text(self) -> str:
        return f"{self.name} line {self.line}: {self.why.value} {self.other or ''}".rstrip()


class Response(NamedTuple):
    """How late a service of an accepted script can be, in dataway cycles (with those of auxiliary controllers): the name of its LAM, its
    bit of the graded-L pattern, and its own bound. `every` is how soon its module may raise its look-at-me again, None if nothing was
    said. `start` and `end` are the most cycles from a look-at-me until its service begins and has ended; within `longest` all look-at-mes
    up to this bit are answered. These three are None if there is no such number. `unkept` has what the script does to its look-at-me. A service that
    `clears_twice` may lose one that comes between."""

    name: str
    gl: int
    cycles: int
    every: Optional[int]
    start: Optional[int]
    end: Optional[int]
    longest: Optional[int]
    unkept: Tuple[Unkept, ...] = ()
    clears_twice: bool = False

    def calls(self, elapsed: int) -> int:
        """How often the service is called at most within so many cycles."""
        return 1 if self.every is None else elapsed // self.every + 1


class Cost(NamedTuple):
    """Dataway cycles (with those of auxiliary controllers), event words, and steps."""

    cycles: int
    words: int
    steps: int


def range_of(text: str) -> Range:
    """The range in a word of the program: "5" or "0..15"."""
    low, _, high = text.partition("..")
    return int(low), int(high or low)


def range_text(ends: Range) -> str:
    """The same the other way."""
    return str(ends[0]) if ends[0] == ends[1] else f"{ends[0]}..{ends[1]}"


def ranges(numbers: Iterable[int]) -> List[Range]:
    """Numbers as ranges, in order."""
    found: List[Range] = []
    for number in sorted(numbers):
        if found and found[-1][1] == number - 1:
            found[-1] = found[-1][0], number
        else:
            found.append((number, number))
    return found


class Address(NamedTuple):
    """Where a cycle may go: ranges of crates, stations and sub-addresses."""

    crate: Range
    station: Range
    sub_address: Range


class Row(NamedTuple):
    """A statement, or an `else`.

    line, depth   of its first token; 1 in the body itself, 1 more in each block
    word          the statement's word: "cfsa", "if", "=" ..
    times         the most times that one service or call makes it
    each          what one time costs at most, with its block
    share         its part of the body's bound, without its block
    about         what the program says of its place: "at 1 5 0..15", "at 1 5 0 to 1 6 3", "turns 4", "crate 1", "proc NAME", or ""
    waits, slack  of the cycles of its share: those that auxiliary controllers may take, and those that the headings of procedures promise
                  and their bodies do not need
    column        that of its first token, in bytes from 1, where `camac tell` was asked"""

    line: int
    depth: int
    word: str
    times: int
    each: Cost
    share: Cost
    about: str
    waits: int = 0
    slack: int = 0
    column: Optional[int] = None

    def own(self) -> int:
        """The cycles of one time without its block: of a `lock` the waits for it."""
        return self.each.cycles if self.word not in BLOCKS else self.share.cycles // self.times if self.times else 0

    def counted(self) -> int:
        """How many times are counted in the bound: as often as it is made at most, and never in the arm of an `if` that costs less."""
        return self.times if self.share.cycles else 0

    def addresses(self) -> List[Address]:
        """Where its cycles go; of a scan the first and the last place."""
        words = [range_of(it) for it in re.findall(r"\d\S*", self.about)] if self.about.startswith("at ") else []
        return [Address(*words[at : at + 3]) for at in range(0, len(words), 3)]

    def called(self) -> str:
        """The name of the procedure that a `call` calls."""
        return self.about[len("proc ") :]


class Body(NamedTuple):
    """A service or procedure: the name, the line of its heading, what it costs at most, the numbers of its heading (a service's steps are
    None there), and its statements in the order of the text. `gl` is the graded-L bit of a service."""

    kind: BodyKind
    name: str
    line: int
    most: Cost
    annotated: Tuple[int, int, Optional[int]]
    rows: Tuple[Row, ...]
    gl: Optional[int] = None

    def waits(self) -> int:
        return sum(row.waits for row in self.rows)

    def slack(self) -> int:
        return sum(row.slack for row in self.rows)


class Declaration(NamedTuple):
    """Commands that a module type declares: one function at the sub-addresses `first` to `last`. `width` is how many bits are moved, None
    if no data moves, and of a probe, which has no register. A command that `clears` takes the module's look-at-me away."""

    function: int
    first: int
    last: int
    width: Optional[int]
    is_probe: bool
    clears: bool = False


class ModuleType(NamedTuple):
    """A type of modules. `commands` and `probes` count its commands; `declarations` is empty if the program does not list them."""

    name: str
    commands: int
    probes: int
    declarations: Tuple[Declaration, ...] = ()

    def declared(self) -> Dict[Tuple[int, int], Declaration]:
        """What is declared, by function and sub-address."""
        return {(it.function, a): it for it in self.declarations for a in range(it.first, it.last + 1)}


class Station(NamedTuple):
    """A station with a module: its number from 1 to 23, its type, and its bit of the graded-L pattern from 1 to 24, if it has one."""

    number: int
    type: str
    gl: Optional[int]


class Crate(NamedTuple):
    """A crate: its number from 1 to 7, how many cycles auxiliary controllers may take before each of ours, and its stations by number."""

    number: int
    waits: int
    stations: Tuple[Station, ...] = ()


class Plan(NamedTuple):
    """The crates of a branch by number, the types of their modules, and the greatest number of words of an event."""

    buffer: int
    types: Dict[str, ModuleType]
    crates: Tuple[Crate, ...]

    def type_at(self, crate: int, station: int) -> Optional[ModuleType]:
        """The type of the module there; None if there is none."""
        names = (it.type for c in self.crates if c.number == crate for it in c.stations if it.number == station)
        return next((self.types[name] for name in names), None)

    def declaration(self, crate: int, station: int, sub_address: int, function: int) -> Optional[Declaration]:
        """What is declared of a command; None if nothing is."""
        there = self.type_at(crate, station)
        declarations = there.declarations if there else ()
        return next((it for it in declarations if it.function == function and it.first <= sub_address <= it.last), None)

    def width(self, crate: int, station: int, sub_address: int, function: int) -> int:
        """How many bits the register there has: 24 if it is not known."""
        declaration = self.declaration(crate, station, sub_address, function)
        return declaration.width or 24 if declaration else 24

    def demands(self) -> List[Tuple[int, Crate, Station]]:
        """The stations that have a bit of the graded-L pattern, by bit."""
        return sorted((it.gl, crate, it) for crate in self.crates for it in crate.stations if it.gl)


class Command(NamedTuple):
    """Where a dataway cycle goes: crate, station, sub-address, function."""

    crate: int
    station: int
    sub_address: int
    function: int


class Demand(NamedTuple):
    """A graded-L operation: its pattern, and the name of the service that it calls, if it calls one."""

    pattern: int
    service: Optional[str]


class Cycle(NamedTuple):
    """A dataway cycle: its command, the word that moved (all 24 bits; 0 if none did), X and Q of the reply, and how many cycles of
    auxiliary controllers came before."""

    command: Command
    move: Move
    word: int
    x: int
    q: int
    wait: int


class Lock(NamedTuple):
    """A crate was locked, after so many cycles of auxiliary controllers."""

    crate: int
    wait: int


class Unlock(NamedTuple):
    """The lock of a crate was released."""

    crate: int


class Abandoned(NamedTuple):
    """The service in progress was left without an event: the run goes on at a demand, as if that service had not been called."""

    service: str


class Contradiction(NamedTuple):
    """What a plan, or the rate that was told of a service, does not describe: the place ("crate 1 station 5", "GL 9", or the service), what came ("word above
    12 bits"), and how often."""

    place: str
    what: str
    times: int

    def text(self) -> str:
        """ "the plan does not describe crate 1 station 5: 10 words above 12 bits" """
        one, space, rest = self.what.partition(" ")
        of = "told rate" if one == "call" else "plan"
        return f"the {of} does not describe {self.place}: {self.times:,} {one}{'' if self.times == 1 else 's'}{space}{rest}"


class RunEnd(NamedTuple):
    """The end of a run.

    how           ENDED at a demand; SHORT inside a service, which left no event; OVERRUN at a wait that is not permitted; REFUSED at an
                  answer that the program could not take
    line          the program's last line
    events        how many events were written; None if the program does not say it (REFUSED)
    crate, wait   of an OVERRUN, else None
    contradictions  what in a live run contradicted the plan; None where that is not known"""

    how: Ending
    line: str
    events: Optional[int] = None
    crate: Optional[int] = None
    wait: Optional[int] = None
    contradictions: Optional[Tuple[Contradiction, ...]] = None

    def is_refused_script(self) -> bool:
        """Whether the plan or the script is refused, and not an answer: then nothing was run."""
        return self.how is Ending.REFUSED and not self.line.startswith("refused A")


Item = Union[Demand, Cycle, Lock, Unlock, Abandoned, RunEnd]


class Request(NamedTuple):
    """What a live run asks for: "demand", "cycle", "lock" or "unlock", and at which crate; a cycle also at which station, sub-address and function,
    and the word that it sends (None if it sends none)."""

    kind: str
    at: Tuple[Any, ...] = ()


class Refusal(NamedTuple):
    """A line that refuses: the code of the rule, the line (None for a plan), the rule in words, and the column from 1 where the line tells it."""

    code: str
    line: Optional[int]
    rule: str
    column: Optional[int] = None
