"""What the words of events mean: their columns, each with a name and a unit.

A column is a number that is in words of a service: at a place in the event, in some bits, or chosen by a tag in the same word.
`read_words` reads columns from a file of the user's (words.toml); `words_of_script` takes them from a script, where the place of a word is
fixed."""
import importlib
from typing import Any, Collection, Dict, Iterator, List, NamedTuple, Optional, Sequence, Tuple, Union

from camac.arrays import Array, EventArrays, Group
from camac.events import GREATEST_COUNT, Event
from camac.numbers import Numbers, each, join, split

Range = Tuple[int, int]
Amount = Union[int, float]
WHOLE: Range = (0, 23)
# What a number is: counted by its value, shown over the run, or shown as what it rose since the event before.
SPECTRUM, VALUE, COUNTER = KINDS = ("spectrum", "value", "counter")
ANYWHERE: Range = (1, GREATEST_COUNT)
# The tag that every word has: its place in the event.
PLACE = "place"


class Field(NamedTuple):
    """A number in the words of a service.

    name, unit     as they are shown: any text
    gl             the bit of the graded-L pattern whose service it is, from 1 to 24
    bits           the first and last bit of the word; bit k has the value 2^k
    places         the first and last place in the event, from 1
    count          if it is not None, only events of exactly so many words have it
    of, tags       the name of the field of the same word, or PLACE, whose number chooses the column, and the first and last such number
    scale, offset  a number means scale * number + offset
    line           where it is in the file of the user, or in the script
    kind           one of KINDS: how its numbers are shown
    is_expression  whether nothing is known of it but the expression in the script"""

    name: str
    gl: int
    unit: str = ""
    bits: Range = WHOLE
    places: Range = ANYWHERE
    count: Optional[int] = None  # type: ignore[assignment]
    of: Optional[str] = None
    tags: Range = (0, 0)
    scale: Amount = 1
    offset: Amount = 0
    line: int = 0
    kind: str = SPECTRUM
    is_expression: bool = False

    @property
    def is_plain(self) -> bool:
        """Whether value and number are the same."""
        return (self.scale, self.offset) == (1, 0)

    @property
    def greatest(self) -> int:
        """The greatest number that the bits hold."""
        return int((1 << (self.bits[1] - self.bits[0] + 1)) - 1)

    def number(self, word: Any) -> Any:
        """The number in a word, or the numbers in an array of words."""
        return (word >> self.bits[0]) & self.greatest

    def value(self, number: Any) -> Any:
        """The value of a number, or of an array of them, in the unit."""
        return number if self.is_plain else self.scale * number + self.offset


class Column(NamedTuple):
    """The numbers of a field, or those of them that have one tag. Where a field has a column for each of several tags, the tag is behind
    the name: "adc[3]"."""

    field: Field
    tag: Optional[int] = None

    @property
    def name(self) -> str:
        field = self.field
        return field.name if self.tag is None or field.tags[0] == field.tags[1] else f"{field.name}[{self.tag}]"

    @property
    def unit(self) -> str:
        return self.field.unit

    @property
    def greatest(self) -> int:
        return self.field.greatest

    def value(self, number: Any) -> Any:
        return self.field.value(number)


class Value(NamedTuple):
    """A number in an event: its column, the place of its word from 1, and the number as it is in the bits."""

    column: Column
    place: int
    number: int


class Gathered(NamedTuple):
    """The numbers of a column in many events, and of each the number of its event, where that was asked for."""

    column: Column
    events: Numbers
    numbers: Numbers


class Values(NamedTuple):
    """The numbers of a column, or of all columns of a field, in the order of the file: the index of each one's word in `EventArrays.words`,
    and the numbers as they are in the bits."""

    at: Array
    numbers: Array


class _Reader:
    """Reads the numbers of a field. `columns` are by tag; a field that has no tag has one at 0."""

    def __init__(self, field: Field, tag: Optional[Field]) -> None:
        self.field, self.tag = field, tag
        first, last = field.tags
        self.columns = {it: Column(field, it) for it in range(first, last + 1)} if field.of else {0: Column(field)}

    def column(self, word: int, place: int) -> Optional[Column]:
        if self.tag is not None:
            return self.columns.get(self.tag.number(word))
        return self.columns.get(place if self.field.of else 0)

    def split(self, events: Numbers, words: Numbers, place: int) -> Iterator[Gathered]:
        """The numbers in the words of many events, by column. They are at this place, where the place chooses the column."""
        low, mask = self.field.bits[0], self.field.greatest
        if self.tag is None:
            column = self.column(0, place)
            if column is not None:
                yield Gathered(column, events, each(words, low, mask))
            return
        tags = each(words, self.tag.bits[0], self.tag.greatest)
        for tag, parts in split(tags, [words, events] if len(events) else [words]).items():
            if tag in self.columns:
                yield Gathered(self.columns[tag], parts[1] if len(events) else [], each(parts[0], low, mask))


class Words:
    """The columns of words, by the bit of their service. Fields are in the order of the file."""

    def __init__(self, fields: Sequence[Field] = ()) -> None:
        self.fields = tuple(fields)
        self._readers: Dict[int, List[_Reader]] = {}
        for it in self.fields:
            self._readers.setdefault(it.gl, []).append(_Reader(it, self.tag_of(it)))
        self._counts = {(it.gl, it.count) for it in self.fields if it.count is not None}
        self._layouts: Dict[Tuple[int, int], List[Tuple[_Reader, ...]]] = {}

    def tag_of(self, field: Field) -> Optional[Field]:
        """The field whose number chooses the column of another one: it is in the same words. None if none does."""
        named = (it for it in self.fields if it.gl == field.gl and it.name == field.of)
        return next((it for it in named if it.places[0] <= field.places[0] and field.places[1] <= it.places[1]), None)

    def columns(self, gl: int) -> Tuple[Column, ...]:
        """The columns of a service, in their order."""
        return tuple(column for it in self._readers.get(gl, ()) for column in it.columns.values())

    def by_name(self) -> Dict[str, List[Field]]:
        """The fields of each name, in the order of the names."""
        found: Dict[str, List[Field]] = {}
        for it in self.fields:
            found.setdefault(it.name, []).append(it)
        return found

    def find(self, name: str) -> List[Column]:
        """The columns of a name, in the order of the bits of their services."""
        return [it for gl in sorted(self._readers) for it in self.columns(gl) if it.name == name]

    def values(self, event: Event) -> Iterator[Value]:
        """The numbers in an event, by place. A word without a column has none."""
        layout = self._layout(event.gl, len(event.words))
        for place, (word, readers) in enumerate(zip(event.words, layout), 1):
            for reader in readers:
                column = reader.column(word, place)
                if column is not None:
                    yield Value(column, place, reader.field.number(word))

    def numbers(self, of: Sequence[Group], asked: Collection[Field] = ()) -> Iterator[Gathered]:
        """The numbers in groups of events, by column: what `values` gives of each event, far quicker. Those of fields that are shown over the run, and of
        fields that are asked for, have the numbers of their events."""
        gathered: Dict[Tuple[_Reader, int], Tuple[List[Numbers], List[Numbers]]] = {}
        for group in of:
            for place, (words, readers) in enumerate(zip(group.words, self._layout(group.gl, group.size)), 1):
                for reader in readers:
                    events, numbers = gathered.setdefault((reader, place if reader.field.of == PLACE else 0), ([], []))
                    numbers.append(words)
                    if reader.field.kind != SPECTRUM or reader.field in asked:
                        events.append(group.numbers)
        for (reader, place), (events, numbers) in gathered.items():
            yield from reader.split(join(events) if events else [], join(numbers), place)

    def _layout(self, gl: int, count: int) -> List[Tuple[_Reader, ...]]:
        """What reads the word at each place of an event of so many words. It is kept, since it is asked for each event."""
        key = gl, count if (gl, count) in self._counts else 0
        if key not in self._layouts:
            readers = [it for it in self._readers.get(gl, []) if it.field.count in (None, count)]
            last = max((it.field.places[1] for it in readers), default=0)
            self._layouts[key] = [tuple(it for it in readers if it.field.places[0] <= place <= it.field.places[1]) for place in range(1, last + 1)]
        return self._layouts[key]

    def values_of(self, of: Union[Field, Column], events: EventArrays) -> Values:
        """The numbers of a field, or of a column of one, in the events of a file. Raises ImportError if numpy is not there."""
        numpy = importlib.import_module("numpy")
        field, tags = (of, of.tags) if isinstance(of, Field) else (of.field, (of.tag or 0, of.tag or 0))
        places = field.places
        if field.of == PLACE:
            places = max(places[0], tags[0]), min(places[1], tags[1])
        at = _rows(numpy, field, places, events)
        words = events.words[at]
        tag = self.tag_of(field)
        if tag is not None:
            its_tags = tag.number(words)
            has_tag = (tags[0] <= its_tags) & (its_tags <= tags[1])
            at, words = at[has_tag], words[has_tag]
        return Values(at, field.number(words))


def _rows(numpy: Any, field: Field, places: Range, events: EventArrays) -> Array:
    """The indices of the words at these places, in events that have the field."""
    counts = numpy.diff(events.first)
    has_field = events.gl == field.gl
    if field.count is not None:
        has_field &= counts == field.count
    index = numpy.flatnonzero(has_field)
    starts = events.first[index] + places[0] - 1
    lengths = numpy.clip(numpy.minimum(counts[index], places[1]) - places[0] + 1, 0, None)
    before = numpy.cumsum(lengths) - lengths
    # Numbers of four bytes, if they are enough, take half of the memory; they count modulo 2^32.
    kind = "u4" if len(events.words) < 1 << 32 else "i8"
    found = numpy.repeat((starts - before).astype(kind), lengths)
    found += numpy.arange(len(found), dtype=kind)
    return found
