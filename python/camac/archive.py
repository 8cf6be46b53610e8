"""Event files of many runs as one data set, in partitions of whole events: by dask and its client where that is installed, else one by one. It needs numpy."""
import functools
import glob
import importlib
import io
from typing import Any, BinaryIO, Callable, Dict, Iterator, List, NamedTuple, Optional, Sequence, Tuple, Union

from camac.arrays import Array, EventArrays, arrays_of, event_arrays, find_numpy, whole_records
from camac.drive import File
from camac.events import GREATEST_COUNT, GREATEST_GL, HEADER, MARKER, NEW_FILE, TWO, EventFileFault, read_from
from camac.export import About, Given, learn
from camac.record import beside
from camac.words import Column, Field, Words

PARTITION, LONGEST = 16 << 20, TWO.head.size + 4 * GREATEST_COUNT
numpy: Any = find_numpy()


class Partition(NamedTuple):
    """Whole events of a file: its bytes from `begin` to `end`, the number of the first event, and that of the first behind them, if there is one. All of a
    file of version one has the begin 0. `gates` are names with the first and the last number that an event has to have."""

    file: str
    words: Words
    begin: int
    end: int
    number: int
    after: Optional[int]
    gates: Tuple[Tuple[str, int, int], ...] = ()

    def read(self) -> EventArrays:
        """All its events. Raises EventFileFault at the first wrong field, and OSError if the file cannot be read."""
        if not self.begin:
            return event_arrays(self.file)
        with open(self.file, "rb") as file:
            file.seek(self.begin)
            data = file.read(self.end - self.begin)
        found = whole_records(numpy, data, self.number)
        events = found[0] if found and found[1] == len(data) else arrays_of([*read_from(io.BytesIO(), TWO, data, self.number, self.begin)], True)
        if self.after not in (None, self.number + len(events.gl)):
            raise EventFileFault("V4", self.end + 4)
        return events

    def events(self) -> EventArrays:
        """Those that pass the gates."""
        events = self.read()
        for name, low, last in self.gates:
            counts, found = numpy.diff(events.first), [self.words.values_of(it, events) for it in _named(self.words, name)]
            at = numpy.concatenate([numpy.zeros(0, "i8"), *(at[(low <= numbers) & (numbers <= last)] for at, numbers in found)])
            passed = numpy.isin(numpy.arange(len(counts)), numpy.searchsorted(events.first, at, "right") - 1)
            first = numpy.concatenate([[0], numpy.cumsum(counts[passed])])
            events = EventArrays(events.gl[passed], None, None, first, events.words[numpy.repeat(passed, counts)])
        return events


class Runs(NamedTuple):
    """Runs as one data set: of each what is known of it, and its partitions."""

    about: Tuple[About, ...]
    partitions: Tuple[Tuple[Partition, ...], ...]

    def gate(self, name: str, low: int, last: int) -> "Runs":
        """The events of these that have a number from the first to the last one in a word of this name."""
        self.greatest(name)
        return Runs(self.about, tuple(tuple(it._replace(gates=(*it.gates, (name, low, last))) for it in parts) for parts in self.partitions))

    def array(self, name: str) -> Array:
        """The values of the words of a name, in the order of the runs."""
        self.greatest(name)
        def of(part: Partition) -> Array:
            events = part.events()
            found = [(it, *part.words.values_of(it, events)) for it in _named(part.words, name)]
            order = numpy.concatenate([numpy.zeros(0, "i8"), *(at for _, at, _ in found)]).argsort(kind="stable")
            return numpy.concatenate([numpy.zeros(0, "u4"), *(it.value(numbers) for it, _, numbers in found)])[order]
        return _over(sum(self.partitions, ()), of, numpy.append)

    def histogram(self, name: str, low: int = 0, last: Optional[int] = None) -> Array:
        """How often each number from the first to the last one is there, as it is in the bits."""
        size = (self.greatest(name) if last is None else last) - low + 1
        def of(part: Partition) -> Array:
            events, counts = part.events(), numpy.zeros(size, "i8")
            for it in _named(part.words, name):
                numbers = part.words.values_of(it, events).numbers.astype("i8") - low
                counts += numpy.bincount(numbers[(0 <= numbers) & (numbers < size)], minlength=size)
            return counts
        return _over(sum(self.partitions, ()), of, numpy.add)

    def rates(self) -> Dict[str, Dict[str, float]]:
        """By run and service the events in a second of the time that its record has measured; NaN where it has none."""
        counts = [_over(parts, lambda it: numpy.bincount(it.events().gl, minlength=GREATEST_GL + 1), numpy.add) for parts in self.partitions]
        seconds = [(it.record.seconds() if it.record else 0) or float("nan") for it in self.about]
        return {it.events_file: {of.name: int(by_gl[of.gl]) / time for of in it.services} for it, by_gl, time in zip(self.about, counts, seconds)}

    def greatest(self, name: str) -> int:
        """The greatest number that words of this name hold. Raises KeyError if there are none."""
        found = [it.greatest for parts in self.partitions for it in _named(parts[0].words, name)]
        if not found:
            raise KeyError(f"no word has the name {name!r}; there are: {', '.join({it: 0 for parts in self.partitions for it in parts[0].words.by_name()})}")
        return max(found)


def open_runs(pattern: str, words: Optional[File] = None, partition: int = PARTITION) -> Runs:
    """The runs whose event files have such names, as "2026/*.events". The record beside each says what it is; `words` is a file of names. A partition has
    about so many bytes. Raises FileNotFoundError if there is none, and what `camac.export.learn` raises."""
    known: Dict[Tuple[str, ...], About] = {}
    found: List[About] = []
    for file in sorted(glob.glob(pattern)):
        record = beside(file)
        kind = (record.plan.sha256, record.script.sha256) if record else ()
        known[kind] = known.get(kind) or learn(Given(file, words=words))
        found.append(known[kind]._replace(events_file=file, record=record))
    if not found:
        raise FileNotFoundError(f"there is no file {pattern}")
    return Runs(tuple(found), tuple(tuple(_partitions(it.events_file, it.names(), partition)) for it in found))


def _partitions(path: str, words: Words, size: int) -> Iterator[Partition]:
    with open(path, "rb") as file:
        is_new, end = file.read(HEADER) == NEW_FILE, file.seek(0, 2)
        begins = {(HEADER, 1)}.union(*(_next_record(file, at) for at in range(HEADER + size, end, size))) if is_new else {(0, 1)}
    starts: List[Tuple[int, Optional[int]]] = [*sorted(begins), (end, None)]
    for (begin, number), (behind, after) in zip(starts, starts[1:]):
        yield Partition(path, words, begin, behind, number or 1, after)


def _next_record(file: BinaryIO, place: int) -> List[Tuple[int, int]]:
    """The place and the number of the first record from a place on that has another one behind it; nothing if there is none near."""
    file.seek(place)
    data = file.read(3 * LONGEST)
    at = data.find(mark := MARKER.to_bytes(2, "big"))
    while 0 <= at <= len(data) - TWO.head.size:
        _, gl, number, _, _, count = TWO.unpack(data, at)
        behind = data[at + TWO.head.size + 4 * count :][: TWO.head.size].ljust(TWO.head.size)
        if 0 < gl <= GREATEST_GL and TWO.unpack(behind, 0)[:3:2] == (MARKER, number + 1):
            return [(place + at, number)]
        at = data.find(mark, at + 1)
    return []


def _over(partitions: Sequence[Partition], of: Callable[[Partition], Array], both: Callable[[Any, Any], Array]) -> Array:
    """What is found in each partition, put together two by two."""
    try:
        delayed = importlib.import_module("dask").delayed
    except ImportError:
        return functools.reduce(both, map(of, partitions))
    found = [delayed(functools.partial(of, it))() for it in partitions]
    while len(found) > 1:
        found = [delayed(both)(*found[at : at + 2]) for at in range(0, len(found) - 1, 2)] + found[len(found) & ~1 :]
    return found[0].compute()


def _named(words: Words, name: str) -> Sequence[Union[Field, Column]]:
    """The fields of a name, else the columns of one, which has a tag behind it."""
    return words.by_name().get(name) or words.find(name)
