"""Event files as arrays of numpy, if numpy is there: an extra, which nothing else of this package needs."""
import importlib
import io
import itertools
import os
from typing import Any, Callable, Dict, Iterable, Iterator, List, NamedTuple, Optional, Tuple, Union

from camac.events import (
    GREATEST_COUNT, GREATEST_GL, GREATEST_WORD, HEADER, MARKER, NEW_FILE, TWO, Event, EventFileFault, File, Path, read_events, read_from,
)
from camac.numbers import Numbers

# The events that are counted at once as a list, and the bytes of a file as arrays; a shorter file is counted as lists.
BATCH, PIECE, LONG = 4096, 1 << 22, 1 << 20
# An array of numpy, which need not be here.
Array = Any


class EventArrays(NamedTuple):
    """All events of a file. Element k is of event k + 1: its bit of the graded-L pattern, the dataway cycles that it cost, and how many
    of them had no X. Its words are words[first[k]:first[k + 1]]. A file of version one has no cycles and no missed."""

    gl: Array
    cycles: Optional[Array]
    missed: Optional[Array]
    first: Array
    words: Array


# Events that follow each other.
Events = Union[EventArrays, List[Event]]


class Group(NamedTuple):
    """Events of one bit that have `size` words each, in the order of the file: their numbers in it, cycles and missed, and of each place the words
    there. A file of version one has no cycles and no missed."""

    gl: int
    size: int
    numbers: Numbers
    cycles: Numbers
    missed: Numbers
    words: List[Numbers]


def groups(events: Events, number: int) -> List[Group]:
    """The groups of events, of which the first has this number in the file."""
    found: List[Group] = []
    if not isinstance(events, EventArrays):
        alike: Dict[Tuple[int, int], List[Event]] = {}
        for it in events:
            alike.setdefault((it.gl, len(it.words)), []).append(it)
        for (gl, size), some in alike.items():
            usage = ([it.cycles for it in some], [it.missed for it in some]) if some[0].cycles is not None else ([], [])
            found.append(Group(gl, size, [it.number for it in some], *usage, [*zip(*(it.words for it in some))]))
        return found
    numpy = importlib.import_module("numpy")
    counts = numpy.diff(events.first)
    kinds = events.gl.astype("i8") << 32 | counts
    is_one, numbers = (kinds == kinds[:1]).all(), numpy.arange(number, number + len(kinds))
    for kind in (kinds[:1] if is_one else numpy.unique(kinds)).tolist():
        index = slice(None) if is_one else numpy.flatnonzero(kinds == kind)
        at = events.first[:-1][index]
        usage = (events.cycles[index], events.missed[index]) if events.cycles is not None and events.missed is not None else ([], [])
        size = kind & 0xFFFF
        words = [*events.words.reshape(-1, size).T.copy()] if size and is_one else [events.words[at + place] for place in range(size)]
        found.append(Group(kind >> 32, size, numbers[index], *usage, words))
    return found


def as_events(events: Events, number: int, most: Optional[int] = None) -> List[Event]:
    """Events one by one, or the last ones of them alone; the first of all has this number in the file."""
    if not isinstance(events, EventArrays):
        return events if most is None else events[-most:]
    begin = 0 if most is None else max(len(events.gl) - most, 0)
    first, words = events.first[begin:].tolist(), events.words[events.first[begin] :].tolist()
    usage = [[None] * (len(first) - 1) if it is None else it[begin:].tolist() for it in (events.cycles, events.missed)]
    rows = zip(itertools.count(number + begin), events.gl[begin:].tolist(), *usage, first, first[1:])
    return [Event(at, gl, cycles, missed, tuple(words[low - first[0] : end - first[0]])) for at, gl, cycles, missed, low, end in rows]


def event_arrays(file: File) -> EventArrays:
    """Reads an event file, named by its path or open for reading bytes, into arrays.

    Raises EventFileFault at the first wrong field, OSError if the file cannot be read, and ImportError if numpy is not there."""
    numpy = importlib.import_module("numpy")
    if hasattr(file, "read"):
        data = file.read()
    else:
        with open(file, "rb") as opened:
            data = opened.read()
    found = whole_records(numpy, memoryview(data)[HEADER:], 1) if data[:HEADER] == NEW_FILE else None
    return found[0] if found and found[1] == len(data) - HEADER else arrays_of([*read_events(io.BytesIO(data))], data[:HEADER] != b"CAMACEV1")


def event_pieces(path: Path, tell: Callable[[float], None] = lambda _: None) -> Iterator[Events]:
    """The events of a file, many at once: in arrays if numpy is there, and the file is of version two, good so far, and long enough that
    numpy pays for its loading; else in lists. What comes before a fault is given before it is raised. `tell` is told which part of the file is read.

    Raises EventFileFault at the first wrong field, and OSError if the file cannot be read."""
    with open(path, "rb") as file:
        size = os.fstat(file.fileno()).st_size
        numpy = find_numpy() if size >= LONG and file.read(HEADER) == NEW_FILE else None
        if numpy is None:
            file.seek(0)
            for batch in batches(read_events(file)):
                yield batch
                tell(file.tell() / max(size, 1))
            return
        number, place, data = 1, HEADER, b""
        while True:
            data += file.read(PIECE)
            found = whole_records(numpy, data, number) if data else None
            if found is None:
                yield from batches(read_from(file, TWO, data, number, place))
                return
            yield found[0]
            tell((place + found[1]) / size)
            number, place, data = number + len(found[0].gl), place + found[1], data[found[1] :]


def find_numpy() -> Any:
    """numpy, or None if it is not here."""
    try:
        return importlib.import_module("numpy")
    except ImportError:
        return None


def batches(events: Iterable[Event]) -> Iterator[List[Event]]:
    """Events by the thousands. What comes before a fault is given before it is raised."""
    batch: List[Event] = []
    try:
        for event in events:
            batch.append(event)
            if len(batch) == BATCH:
                yield batch
                batch = []
    except EventFileFault:
        yield batch
        raise
    yield batch


def whole_records(numpy: Any, data: Any, number: int) -> Optional[Tuple[EventArrays, int]]:
    """The whole records of version two at the begin of these bytes, the first of this number, and how many bytes they take. A record begins where a
    number of four bytes begins with the marker: no word does. None if there is none, or that is not the whole truth: the file is wrong, or
    another number looks like a marker."""
    head = TWO.head.size // 4
    numbers = numpy.frombuffer(data, ">u4", count=len(data) // 4)
    step = head + int(numbers[3] & 0xFFFF) if len(numbers) >= head else head
    alike = numbers[: len(numbers) // step * step].reshape(-1, step)
    # A row for each number of a head: what is done with it reads one after another.
    heads, rest = alike[:, :head].T.astype("u4", "C"), numbers[alike.size :]
    is_alike = (heads[0] >> 16 == MARKER).all() and (heads[3] & 0xFFFF == step - head).all() and (len(rest) < head or rest[3] & 0xFFFF == step - head)
    if is_alike:
        starts = numpy.arange(0, alike.size, step)
    else:
        numbers = numbers.astype("u4")
        starts = numpy.flatnonzero(numbers >> 16 == MARKER)
        starts = starts[starts + head <= len(numbers)]
        heads = numbers[starts + numpy.arange(head)[:, None]]
    ends = starts + head + (heads[3] & 0xFFFF)
    # The rest of the last record may not be read yet.
    kept = slice(None) if is_alike else ends <= len(numbers)
    starts, heads, ends = starts[kept], heads[:, kept], ends[kept]
    if not len(starts):
        return None
    gl, cycles, missed, counts = heads[0] & 0xFFFF, heads[2], heads[3] >> 16, heads[3] & 0xFFFF
    if is_alike:
        words = alike[:, head:].astype("u4").ravel()
    else:
        is_word = numpy.ones(ends[-1], bool)
        is_word[starts[:, None] + numpy.arange(head)] = False
        words = numbers[: ends[-1]][is_word]
    is_good = (
        starts[0] == 0
        and (ends[:-1] == starts[1:]).all()
        and ((gl >= 1) & (gl <= GREATEST_GL) & (missed <= cycles) & (counts <= GREATEST_COUNT)).all()
        and (heads[1] == numpy.arange(number, number + len(starts))).all()
        and words.max(initial=0) <= GREATEST_WORD
    )
    if not is_good:
        return None
    return EventArrays(gl.astype("u1"), cycles, missed.astype("u2"), numpy.concatenate([[0], numpy.cumsum(counts, dtype="i8")]), words), int(ends[-1]) * 4


def is_new(path: Path) -> bool:
    """Whether the events of a file have cycles and missed."""
    with open(path, "rb") as file:
        return file.read(HEADER) == NEW_FILE


def arrays_of(events: List[Event], has_usage: bool) -> EventArrays:
    """Events as arrays. Raises ImportError if numpy is not there."""
    numpy = importlib.import_module("numpy")
    return EventArrays(
        numpy.array([event.gl for event in events], "u1"),
        numpy.array([event.cycles for event in events], "u4") if has_usage else None,
        numpy.array([event.missed for event in events], "u2") if has_usage else None,
        numpy.cumsum([0, *(len(event.words) for event in events)]),
        numpy.array([word for event in events for word in event.words], "u4"),
    )
