"""Events and their words as two tables of comma-separated values (RFC 4180, with LF), one event after another."""
import csv
import importlib
import io
from typing import Any, BinaryIO, Dict, Iterable, Iterator, List, NamedTuple, Sequence, Tuple

from camac.arrays import Array, EventArrays, Events, as_events
from camac.events import Event
from camac.export import sources_of
from camac.words import Words

# A byte that is in no text.
NOTHING = 0xFF
# The most events whose rows numpy makes at once.
MANY = 1 << 12


class Table(NamedTuple):
    """What the tables have: cycles and missed, and the columns of words."""

    has_cycles: bool
    sources: Words
    words: Words

    def heads(self) -> Tuple[List[str], List[str]]:
        usage = ["cycles", "missed"] if self.has_cycles else []
        source = ["source"] if self.sources.fields else []
        return ["event", "gl", *usage, "first", "count"], ["event", "gl", "place", "word", *source, *self.words.by_name()]

    def rows(self, event: Event, plain: Dict[str, bool]) -> Iterator[List[object]]:
        """A row for each word of an event. `plain` says of each name whether its numbers mean themselves."""
        named: Dict[Tuple[int, str], object] = {}
        for column, place, number in self.words.values(event):
            name = column.field.name
            named[place, name] = number if plain[name] else column.value(float(number))
        for row in self.first_columns(event):
            yield [*row, *(named.get((row[2], name), "") for name in plain)]

    def first_columns(self, event: Event) -> Iterator[List[Any]]:
        sources = {place: column.field.name for column, place, _ in self.sources.values(event)}
        for place, word in enumerate(event.words, 1):
            yield [event.number, event.gl, place, word, *([sources.get(place, "")] if self.sources.fields else [])]


def write_events(pieces: Iterable[Events], table: Table, to_events: BinaryIO, to_words: BinaryIO) -> None:
    """Writes both tables of the events of a file."""
    plain = {name: all(it.is_plain for it in fields) for name, fields in table.words.by_name().items()}
    number, first = 1, 0
    for out, head in zip((to_events, to_words), table.heads()):
        out.write(_text([head]).encode())
    for piece in (some for piece in pieces for some in _parts(piece)):
        if isinstance(piece, EventArrays) and not plain:
            _write_arrays(piece, table, number, first, to_events, to_words)
            number, first = number + len(piece.gl), first + len(piece.words)
            continue
        rows: List[List[object]] = []
        for event in as_events(piece, number):
            usage = [event.cycles, event.missed] if table.has_cycles else []
            rows.append([event.number, event.gl, *usage, first, len(event.words)])
            to_words.write(_text(table.rows(event, plain) if plain else table.first_columns(event)).encode())
            first += len(event.words)
        to_events.write(_text(rows).encode())
        number += len(rows)


def _parts(piece: Events) -> Iterator[Events]:
    """The events of a piece, so many of arrays at once as a processor has near."""
    if not isinstance(piece, EventArrays):
        yield piece
        return
    for low in range(0, len(piece.gl), MANY):
        part = slice(low, low + MANY)
        cycles, missed = (it if it is None else it[part] for it in (piece.cycles, piece.missed))
        first = piece.first[low : low + MANY + 1]
        yield EventArrays(piece.gl[part], cycles, missed, first - first[0], piece.words[first[0] : first[-1]])


def _write_arrays(piece: EventArrays, table: Table, number: int, first: int, to_events: BinaryIO, to_words: BinaryIO) -> None:
    """Writes both tables of events whose words have no names of the user's."""
    numpy = importlib.import_module("numpy")
    counts = numpy.diff(piece.first)
    numbers = numpy.arange(number, number + len(counts))
    usage = [piece.cycles, piece.missed] if table.has_cycles else []
    to_events.write(_rows(numpy, [numbers, piece.gl, *usage, piece.first[:-1] + first, counts]))
    if len(piece.words):
        places = numpy.arange(len(piece.words)) - numpy.repeat(piece.first[:-1], counts)
        of_event = [numpy.repeat(_digits(numpy, it), counts, axis=0) for it in (numbers, piece.gl)]
        sources = [_sources(numpy, piece, places + 1, table.sources)] if table.sources.fields else []
        to_words.write(_rows(numpy, [*of_event, _digits(numpy, numpy.arange(1, counts.max() + 1))[places], piece.words, *sources]))


def _sources(numpy: Any, piece: EventArrays, places: Array, sources: Words) -> Array:
    """The texts of the sources of all words, whose places are from 1, in rows of bytes."""
    texts = numpy.array([_text([["", name]])[1:-1].encode() for name in ("", *(it.name for it in sources.fields))], "S")
    rows = texts.view("u1").reshape(len(texts), texts.itemsize)
    return numpy.where(rows, rows, NOTHING).astype("u1")[sources_of(numpy, piece, places, sources)]


def _digits(numpy: Any, numbers: Array) -> Array:
    """A row of decimal digits for each number, with NOTHING in place of each zero before it."""
    greatest = int(numbers.max())
    rows = numpy.empty((len(numbers), len(str(greatest))), "u1")
    rest = numbers.astype("u4" if greatest < 1 << 32 else "u8")
    for at in reversed(range(rows.shape[1])):
        more = rest // 10
        digits = (rest - 10 * more + ord("0")).astype("u1")
        rows[:, at] = digits if at == rows.shape[1] - 1 else numpy.where(rest > 0, digits, numpy.uint8(NOTHING))
        rest = more
    return rows


def _rows(numpy: Any, columns: Sequence[Array]) -> bytes:
    """The lines of rows, by their columns: of numbers, or of texts in rows of bytes."""
    parts = [it if it.ndim == 2 else _digits(numpy, it) for it in columns]
    whole = numpy.full((len(parts[0]), sum(it.shape[1] + 1 for it in parts)), ord(","), "u1")
    at = 0
    for it in parts:
        whole[:, at : at + it.shape[1]] = it
        at += it.shape[1] + 1
    whole[:, -1] = ord("\n")
    return bytes(whole[whole != NOTHING].tobytes())


def _text(rows: Iterable[Sequence[object]]) -> str:
    out = io.StringIO()
    csv.writer(out, lineterminator="\n").writerows(rows)
    return out.getvalue()
