"""What a run did, in numbers of a fixed size: from the listing of `camac run` and its event file, or from an event file alone."""
import itertools
from array import array
from typing import TYPE_CHECKING, Dict, FrozenSet, Iterable, Iterator, List, NamedTuple, Optional, Sequence, Set, Tuple, Union

from camac.arrays import BATCH, EventArrays, Events, Group, batches, event_pieces, groups
from camac.contradictions import NO_X, Contradictions, Late
from camac.drive import File
from camac.events import EventFileFault, read_events
from camac.fits import Check, Fit
from camac.functions import CONTROLLERS
from camac.histograms import Pairs, Series, Spectrum
from camac.language import TRANSFERS
from camac.numbers import Numbers, chosen, ends, join, kinds, met, order, scaled, total, whole, within
from camac.output import Progress, passing_file
from camac.program import knows_command
from camac.subcommands import costs, run
from camac.texts import script_text
from camac.values import Abandoned, Body, Command, Contradiction, Cycle, Demand, Ending, Item, Lock, Move, Plan, Response, Row, RunEnd, Service, Unlock

if TYPE_CHECKING:
    from camac.words import Column, Words
else:
    Column = Words = object

Operation = Union[Cycle, Lock, Unlock]
# The operations that are kept of a service that is shown cycle by cycle.
KEPT_OPERATIONS = 150
GREATEST_MISSED = 65_535
# The bins of the words at a place: enough for a map.
PLACE_BINS = 128
# Why a service is shown cycle by cycle, and how that is said.
MISSED, UNFINISHED, LONGEST = "missed", "unfinished", "longest"
REASONS = {MISSED: "first X = 0", UNFINISHED: "it did not come to its end", LONGEST: "the longest of its kind"}
# The sub-addresses of a station.
SUB_ADDRESSES = 16
# What a word of all its bits holds at most.
FULL_WORD = (1 << 24) - 1


class Inputs(NamedTuple):
    """The files of a run: a plan, a script, and answers or an event file."""

    plan: File
    script: File
    source: File


class Seen:
    """How many numbers there are, one at least, the least, their mean and the greatest."""

    def __init__(self, numbers: Sequence[int]) -> None:
        self.count, self.mean = len(numbers), total(numbers) / len(numbers)
        self.least, self.most = ends(numbers)


class SeenOfBit:
    """What was seen of the services of a graded-L bit: their cycles and words, and in all of them together the cycles of auxiliary
    controllers, and those with Q = 0, Q = 0 of transfers, and X = 0, as `Run` has them."""

    def __init__(self, cycles: Seen, words: Seen, waits: int, no_q: int, of_transfers: int, no_x: int) -> None:
        self.cycles, self.words, self.waits, self.no_q, self.of_transfers, self.no_x = cycles, words, waits, no_q, of_transfers, no_x


class Sent:
    """What was sent of one command: dataway cycles of ours, of them with Q = 0 and with X = 0, cycles of auxiliary controllers before
    them, and the words: of a read those with Q = 1, cut to the register's width."""

    __slots__ = ("count", "no_q", "no_x", "waits", "words", "series", "mask", "recent", "numbers", "replies")

    def __init__(self, width: int, replies: List[int]) -> None:
        self.replies = replies
        self.count = self.no_q = self.no_x = self.waits = 0
        self.words = Spectrum(1 << width)
        self.mask = (1 << width) - 1
        self.series = Series() if self.mask == FULL_WORD else None
        self.recent: List[int] = []
        self.numbers: List[int] = []

    def add(self, word: int, number: int) -> None:
        """Takes a word of the service with this number in the run."""
        self.recent.append(word)
        self.numbers.append(number)
        if len(self.recent) == BATCH:
            self.settle()

    def settle(self) -> None:
        """Counts the words that came since."""
        self.words.add_all(self.recent)
        if self.series:
            self.series.add_all(self.numbers, self.recent)
        self.recent, self.numbers = [], []


class Cut(NamedTuple):
    """The numbers of a column from the first to the last one."""

    column: Column
    low: int
    last: int

    def select(self, names: "Words", of: Sequence[Group]) -> List[Group]:
        """The events that have such a number."""
        gathered = [it for it in names.numbers(of, {self.column.field}) if it.column == self.column]
        passed = join([within(it.numbers, self.low, self.last, it.events) for it in gathered]) if gathered else []
        found = []
        for it in of:
            numbers, cycles, missed, *words = chosen(it.numbers, passed, [it.numbers, it.cycles, it.missed, *it.words])
            found.append(Group(it.gl, it.size, numbers, cycles, missed, words))
        return [it for it in found if len(it.numbers)]


class Asked:
    """What is asked of the words of events: the columns that they have, two of these that are wanted against each other, the most bins, gates that an event
    has to pass, and regions that are measured."""

    def __init__(
        self, names: Optional[Words] = None, pair: Optional[Tuple[Column, Column]] = None, bins: Optional[int] = None, gates: Tuple[Cut, ...] = (),
        regions: Tuple[Cut, ...] = (),
    ) -> None:
        self.names, self.pair, self.bins, self.gates, self.regions = names, pair, bins, gates, regions

    def gated(self) -> str:
        """Of which events the words are, as the end of a title."""
        cuts = " and ".join(f"{it.column.name} from {it.low:,} to {it.last:,}" for it in self.gates)
        return cuts and f", of events with {cuts}"


class Channel:
    """The numbers of a column in the events of a run: a spectrum, and of what is shown over the run its line."""

    __slots__ = ("column", "spectrum", "series")

    def __init__(self, column: "Column") -> None:
        from camac.words import COUNTER, SPECTRUM

        self.column = column
        self.spectrum = Spectrum(None if column.greatest == FULL_WORD else column.greatest + 1)
        kind = column.field.kind
        self.series = None if kind == SPECTRUM else Series(column.greatest + 1 if kind == COUNTER else None)

    def add_all(self, events: Numbers, numbers: Numbers) -> None:
        self.spectrum.add_all(numbers)
        if self.series:
            self.series.add_all(*order(events, numbers))


class Channels(Dict[Column, Channel]):
    """The channels of a run, by their columns. `regions` have the numbers of each region, from its first one on, `pairs` those of two columns that are in
    one event."""

    def __init__(self, asked: Asked) -> None:
        super().__init__()
        self.asked = asked
        self.regions = {it: Spectrum(it.last - it.low + 1) for it in asked.regions}
        of_pair = [None if it.greatest == FULL_WORD else it.greatest + 1 for it in asked.pair or ()]
        self.pairs = Pairs(*of_pair, most=asked.bins or Pairs.USUAL) if of_pair else None

    def take(self, of: Sequence[Group]) -> None:
        """Takes the words of the events that pass the gates; of a pair, of each event that has both columns, the first number of both."""
        names, pair = self.asked.names, self.asked.pair or ()
        if names is None:
            return
        for gate in self.asked.gates:
            of = gate.select(names, of)
        sides: Dict[Column, Tuple[Numbers, Numbers]] = {}
        for column, events, numbers in names.numbers(of, {it.field for it in pair}):
            if column not in self:
                self[column] = Channel(column)
            self[column].add_all(events, numbers)
            for cut, spectrum in self.regions.items():
                if cut.column == column:
                    spectrum.add_all(scaled(within(numbers, cut.low, cut.last, numbers), cut.low, 1))
            if column in pair:
                sides[column] = events, numbers
        across, up = met(*(sides[it] for it in pair)) if pair and len(sides) == len({*pair}) else ([], [])
        if len(across) and self.pairs:
            self.pairs.add_all(across, up)

    def listed(self, bits: Iterable[int]) -> List[Channel]:
        """Those that have a number, in the order of the columns of these bits."""
        names = self.asked.names
        return [self[it] for gl in sorted(bits) for it in names.columns(gl) if it in self] if names else []


class Over:
    """Another run that is drawn over one: the name of its file, its channels, what its counts are multiplied by, by bit, and what that is for."""

    def __init__(self, name: str, channels: Channels, factors: Dict[int, float], why: str) -> None:
        self.name, self.channels, self.factors, self.why = name, channels, factors, why


class Served:
    """A service whose operations are read: what is counted of it, its number in the run if it is kept, its first operations, and how many more there are."""

    __slots__ = ("gl", "number", "cycles", "waits", "no_q", "of_transfers", "no_x", "locked", "locks", "operations", "more")

    def __init__(self, gl: int) -> None:
        self.gl = gl
        self.number = self.cycles = self.waits = self.no_q = self.of_transfers = self.no_x = self.locked = self.locks = self.more = 0
        self.operations: List[Operation] = []


class Run:
    """A run in numbers. The arrays have an element for each service that came to its end: its bit, its dataway cycles (with those of
    auxiliary controllers), of them those of auxiliary controllers, cycles with Q = 0, with Q = 0 of a transfer, with X = 0, inside a lock,
    and its event words. `no_q` leaves out the commands of controllers (N28, N30), whose Q nobody reads, and those of `of_transfers`: there
    Q = 0 ends a scan or a block, or has a command sent again.

    `has_listing` is False of an event file alone, which has no waits, no Q, no commands and no locks; `has_cycles` is False of one of
    version one. `end` is the end of a run, `fault` the fault of an event file. `kept` are services to be shown cycle by cycle.
    `by_place` has the words by the bit and by their place in the event, `channels` those of a column, `over` those of another run, `seen` what was seen of
    the services of each bit, and `late` how late they ended, where a listing and `camac response` show that. `contradictions` are those of the plan; None
    of an event file, which has no address, and words that are cut. `bodies` are those of the script, where its answers are played."""

    def __init__(self, has_listing: bool, asked: Optional[Asked] = None) -> None:
        self.has_listing, self.has_cycles = has_listing, True
        self.gl = array("B")
        self.cycles, self.waits, self.no_q, self.of_transfers, self.no_x, self.locked, self.words = (array("I") for _ in range(7))
        self.idle = self.left = 0
        self.end: Optional[RunEnd] = None
        self.fault: Optional[EventFileFault] = None
        self.commands: Dict[Command, Sent] = {}
        self.kept: Dict[Tuple[str, int], Served] = {}
        self.by_place: Dict[Tuple[int, int], Spectrum] = {}
        self.asked = asked or Asked()
        self.channels = Channels(self.asked)
        self.over: Optional[Over] = None
        self.seen: Dict[int, SeenOfBit] = {}
        self.late: Dict[int, Late] = {}
        self.contradictions: Optional[Tuple[Contradiction, ...]] = None
        self.bodies: List[Body] = []
        self.checks: List[Check] = []

    def last_line(self) -> str:
        """How the run, or the event file, came to its end."""
        if self.end:
            return self.end.line
        return str(self.fault) if self.fault else f"event file, {len(self.gl):,} event{'s' if len(self.gl) != 1 else ''}"

    def is_good(self) -> bool:
        """Whether nothing was refused and no wait was too long."""
        return self.fault is None and (self.end is None or self.end.how in (Ending.ENDED, Ending.SHORT))

    def agrees(self) -> bool:
        return all(check.agrees for check in self.checks)

    def take_events(self, events: Events) -> None:
        """Takes what an event file has of its events but their words."""
        if not isinstance(events, EventArrays):
            self.has_cycles &= all(it.cycles is not None for it in events)
            rows = zip(*((it.gl, it.cycles or 0, it.missed or 0, len(it.words)) for it in events))
            for numbers, values in zip((self.gl, self.cycles, self.no_x, self.words), rows):
                numbers.extend(values)
            return
        counts = events.first[1:] - events.first[:-1]
        for numbers, column in ((self.gl, events.gl), (self.cycles, events.cycles), (self.no_x, events.missed), (self.words, counts)):
            numbers.frombytes(column.astype(numbers.typecode).tobytes())

    def take_words(self, of: Sequence[Group]) -> None:
        by_place: Dict[Tuple[int, int], List[Numbers]] = {}
        for it in of:
            for at, words in enumerate(it.words):
                by_place.setdefault((it.gl, at), []).append(words)
        for key, parts in by_place.items():
            self.by_place.setdefault(key, Spectrum(None, PLACE_BINS)).add_all(join(parts))
        self.channels.take(of)

    def list_channels(self) -> List[Channel]:
        return self.channels.listed(kinds(whole(self.gl)))


def transfer_commands(bodies: Sequence[Body], script: bytes) -> FrozenSet[Command]:
    """The commands that only transfers of an accepted script send: a Q = 0 of such a command ends a scan or a block, or has it sent again, as is meant.
    `bodies` are what `camac.costs` gives."""
    if not any(row.word in TRANSFERS for body in bodies for row in body.rows):
        return frozenset()
    from camac import tree
    from camac.reader import read_script

    sent: Dict[bool, Set[Command]] = {True: set(), False: set()}
    for body, costs in zip(read_script(script).bodies, bodies):
        for it, row in zip(body.every, (row for row in costs.rows if row.word != "else")):
            if isinstance(it, (tree.Cycle, tree.Transfer)):
                sent[isinstance(it, tree.Transfer)].update(Command(*at, it.function) for at in _places(row))
    return frozenset(sent[True] - sent[False])


def _places(row: Row) -> Iterator[Tuple[int, int, int]]:
    """The crates, stations and sub-addresses that a row names: of a scan all from its first register to its last."""
    spans = [[range(low, high + 1) for low, high in it] for it in row.addresses()]
    if len(spans) < 2:
        for span in spans:
            yield from itertools.product(*span)
        return
    begin, end = spans
    order: List[Tuple[int, int]] = list(itertools.product(range(begin[1][0], end[1][-1] + 1), range(SUB_ADDRESSES)))
    for crate in range(begin[0][0], end[0][-1] + 1):
        yield from ((crate, *at) for at in order if (begin[1][0], begin[2][0]) <= at <= (end[1][-1], end[2][-1]))


def is_event_file(file: File) -> bool:
    """Whether a file begins as an event file does. Raises OSError if it cannot be read."""
    with open(file, "rb") as opened:
        return opened.read(6) == b"CAMACE"


def collect(
    inputs: Inputs, plan: Plan, services: List[Service], program: Optional[File] = None, responses: Sequence[Response] = (),
    asked: Optional[Asked] = None,
) -> Run:
    """Plays the answers, or reads the event file, and returns what the run did. `responses` are what `camac response` says of the script; without
    them it is not known how late services ended. `asked` has columns of the words of events. Raises OSError if a file cannot be read, and Refused and
    ProgramFault as `camac.run`."""
    if is_event_file(inputs.source):
        made = _read_event_file(inputs.source, services, asked)
    else:
        with passing_file() as events, open(inputs.source, "rb") as answers:
            bodies = costs(inputs.plan, inputs.script, program) if knows_command("costs", program) else []
            meant = transfer_commands(bodies, script_text(inputs.script))
            collector = _Collector(plan, {it.name: it.gl for it in services}, Contradictions(responses), meant, asked)
            collector.take(run(*inputs, events, program=program), answers)
            made = _compare(collector, events, services)
            made.bodies, made.contradictions = bodies, collector.seen.found(plan)
            if responses:
                late = made.late = collector.seen.watch.seen()
                kept = sum(it.count for it in late.values())
                is_within = all(it.end is None or late[it.gl].most <= it.end for it in responses)
                text = f"no service ended later after its look-at-me than its bound, of {kept:,} in whose stretch the rates were kept"
                made.checks.append(Check(text, is_within))
    its_columns = (getattr(made, name) for name in ("gl", "cycles", "words", "waits", "no_q", "of_transfers", "no_x"))
    made.seen = {gl: SeenOfBit(Seen(columns[0]), Seen(columns[1]), *map(total, columns[2:])) for gl, columns in by_bit(*its_columns)}
    return made


def by_bit(bits: Numbers, *columns: Numbers) -> Iterator[Tuple[int, List[Numbers]]]:
    """The numbers of columns by the bits of their services."""
    bits, *wholes = map(whole, (bits, *columns))
    found = kinds(bits)
    for gl in found:
        yield gl, wholes if len(found) == 1 else chosen(bits, [gl], wholes)


class _Collector:
    """Gathers a run from the items of its listing. The last service is left open: the listing alone does not show whether it ended."""

    def __init__(self, plan: Plan, bits: Dict[str, int], seen: Contradictions, meant: FrozenSet[Command], asked: Optional[Asked]) -> None:
        self.plan, self.bits, self.seen, self.meant = plan, bits, seen, meant
        self.run = Run(True, asked)
        self.longest: Dict[int, int] = {}
        self.open: Optional[Served] = None

    def take(self, items: Iterable[Item], answers: Iterable[bytes]) -> None:
        service = Served(0)
        commands = self.run.commands
        lines = iter(answers)
        for item in items:
            line = b"" if isinstance(item, Unlock) else next(lines, b"")
            if isinstance(item, Cycle):
                sent = commands.get(item.command)
                if sent is None:
                    sent = commands[item.command] = Sent(self.plan.width(*item.command), self.seen.counts_of(item.command))
                self.take_cycle(service, sent, item)
            elif isinstance(item, Lock):
                service.cycles += item.wait
                service.waits += item.wait
                service.locks += 1
            elif isinstance(item, Unlock):
                service.locks -= 1
            elif isinstance(item, Demand):
                self.close()
                self.seen.take(item, line)
                service = Served(self.bits.get(item.service or "", 0))
                self.open = service if item.service else None
                self.run.idle += item.service is None
                continue
            elif isinstance(item, Abandoned):
                self.seen.cycles = service.cycles
                self.seen.leave()
                self.open = None
                self.run.left += 1
                continue
            else:
                self.run.end = item
                continue
            if len(service.operations) < KEPT_OPERATIONS:
                service.operations.append(item)
            else:
                service.more += 1

    def close(self) -> None:
        """The service in progress came to its end."""
        service, run = self.open, self.run
        self.open = None
        if service is None:
            return
        self.seen.cycles = service.cycles
        for name in ("gl", "cycles", "waits", "no_q", "of_transfers", "no_x", "locked"):
            getattr(run, name).append(getattr(service, name))
        service.number = len(run.gl)
        if service.cycles > self.longest.get(service.gl, -1):
            self.longest[service.gl] = service.cycles
            run.kept[LONGEST, service.gl] = service
        if service.no_x:
            run.kept.setdefault((MISSED, 0), service)

    def take_cycle(self, service: Served, sent: Sent, item: Cycle) -> None:
        command, move, word, x, q, wait = item
        service.cycles += 1 + wait
        sent.count += 1
        sent.replies[word.bit_length() if x else NO_X] += 1
        if wait:
            service.waits += wait
            sent.waits += wait
        if not q:
            sent.no_q += 1
            if command in self.meant:
                service.of_transfers += 1
            elif command.station not in CONTROLLERS:
                service.no_q += 1
        if not x:
            service.no_x += 1
            sent.no_x += 1
        if service.locks:
            service.locked += 1
        if move is Move.OUT:
            sent.add(word, len(self.run.gl) + 1)
        elif q and move is Move.IN:
            sent.add(word & sent.mask, len(self.run.gl) + 1)


def _compare(collector: _Collector, path: File, services: List[Service]) -> Run:
    """Reads the event file of a run beside its listing. An event is there once its service ended."""
    run, fit = collector.run, Fit(services)
    count = alike = missed = 0
    for batch in batches(read_events(path)):
        of = groups(batch, count + 1)
        run.words.extend(len(it.words) for it in batch)
        run.take_words(of)
        fit.take(of)
        for at, event in enumerate(batch, count):
            count += 1
            if at == len(run.gl):
                collector.close()
                collector.seen.end()
            if at < len(run.gl):
                alike += event.gl == run.gl[at] and event.cycles == run.cycles[at]
                missed += event.missed == min(run.no_x[at], GREATEST_MISSED)
    run.words.extend([0] * (len(run.gl) - len(run.words)))
    for sent in run.commands.values():
        sent.settle()
    if collector.open:
        collector.open.number = len(run.gl) + 1
        run.kept[UNFINISHED, 0] = collector.open
    said = run.end.events if run.end else None
    total = len(run.gl)
    last = f"; the last line says {said:,}" if said is not None else ""
    run.checks = [
        Check(f"events in the file: {count:,}; services in the listing: {total:,}{last}", count == total and said in (None, total)),
        Check(f"cycles of the listing are those of the event file, {alike:,} of {count:,}", alike == count),
        Check(f"cycles with X = 0 are those of the event file, {missed:,} of {count:,}", missed == count),
        Check(fit.text(), fit.is_good()),
    ]
    return run


def _read_event_file(path: File, services: List[Service], asked: Optional[Asked]) -> Run:
    run, fit = Run(False, asked), Fit(services)
    try:
        for events in event_pieces(path, Progress()):
            run.take_events(events)
            of = groups(events, fit.count + 1)
            run.take_words(of)
            fit.take(of)
    except EventFileFault as fault:
        run.fault = fault
    nothing = array("I", [0]) * len(run.gl)
    run.waits, run.no_q, run.of_transfers, run.locked = nothing, nothing, nothing, nothing
    run.checks = [Check(fit.text(), fit.is_good())]
    return run
