"""Event files of camac, of both versions and of any size."""
import contextlib
import functools
import io
import os
import struct
from typing import TYPE_CHECKING, Any, BinaryIO, Callable, Iterator, List, NamedTuple, Optional, Tuple, Union

if TYPE_CHECKING:
    Path = Union[str, bytes, os.PathLike[str], os.PathLike[bytes]]
else:
    # The first type in quotes that `typing` reads takes as long as fifteen classes.
    Path = Union[str, bytes, os.PathLike]
File = Union[Path, BinaryIO]
HEADER = 8
MARKER = 0xCA4D
GREATEST_GL = 24
GREATEST_COUNT = 4096
GREATEST_WORD = 0xFF_FFFF
MEANINGS = {
    "V1": "header", "V2": "marker", "V3": "GL number", "V4": "event number", "V5": "count", "V6": "word", "V7": "truncated", "V9": "X count"
}
# The bytes of one read.
BLOCK = 65_536


class Form:
    """How the head of a record is written: its numbers, and of each field the code of its fault, its place and its size in bytes.
    `unpack` gives marker, bit, event number, cycles, missed and count of the head at a place; cycles and missed None in version one."""

    def __init__(self, head: struct.Struct, fields: Tuple[Tuple[str, int, int], ...], unpack: Callable[[bytes, int], Tuple[Any, ...]]) -> None:
        self.head, self.fields, self.unpack = head, fields, unpack


_HEAD_ONE, _HEAD_TWO = struct.Struct(">HHIH"), struct.Struct(">HHIIHH")


def _unpack_one(data: bytes, at: int, unpack: Callable[[bytes, int], Tuple[Any, ...]] = _HEAD_ONE.unpack_from) -> Tuple[Any, ...]:
    marker, gl, number, count = unpack(data, at)
    return marker, gl, number, None, None, count


ONE = Form(_HEAD_ONE, (("V2", 0, 2), ("V3", 2, 2), ("V4", 4, 4), ("V5", 8, 2)), _unpack_one)
TWO = Form(_HEAD_TWO, (("V2", 0, 2), ("V3", 2, 2), ("V4", 4, 4), ("", 8, 4), ("V9", 12, 2), ("V5", 14, 2)), _HEAD_TWO.unpack_from)
NEW_FILE = b"CAMACEV2"
FORMS = {b"CAMACEV1": ONE, NEW_FILE: TWO}


class Event(NamedTuple):
    """What a service left: its number in the file from 1, its bit of the graded-L pattern from 1 to 24, the dataway cycles that it
    cost, how many of them had no X (at most 65,535), and its words of 24 bits. A file of version one has no cycles and no missed."""

    number: int
    gl: int
    cycles: Optional[int]
    missed: Optional[int]
    words: Tuple[int, ...]


def record(event: Event) -> bytes:
    """An event as it is in an event file of version two, behind the header `NEW_FILE` and the events before it."""
    head = TWO.head.pack(MARKER, event.gl, event.number, event.cycles, event.missed, len(event.words))
    return head + struct.pack(f">{len(event.words)}I", *event.words)


def record_size(event: Event) -> int:
    """How many bytes an event takes in its file."""
    return (ONE if event.cycles is None else TWO).head.size + 4 * len(event.words)


class EventFileFault(ValueError):
    """The first wrong field of an event file: its code, and the offset of its first byte. It reads as the program says it."""

    def __init__(self, code: str, byte: int) -> None:
        super().__init__(f"refused {code} byte {byte}: {MEANINGS[code]}")
        self.code, self.byte = code, byte


class Whole(NamedTuple):
    """The events of a file up to its first fault. `size` is the number of bytes that hold them, with the header: a file that is cut
    there is good. It is 0 if the header is not there. `fault` is None for a good file."""

    events: List[Event]
    size: int
    fault: Optional[EventFileFault]


@functools.lru_cache(maxsize=None)
def _words(count: int) -> Callable[[bytes, int], Tuple[int, ...]]:
    """What reads so many words at a place."""
    return struct.Struct(f">{count}I").unpack_from


class _Source:
    """A file that is read as its bytes come: what is there is given before more is waited for."""

    def __init__(self, file: BinaryIO) -> None:
        self.gives_what_is_there = hasattr(file, "read1") or isinstance(file, io.RawIOBase)
        self.read = getattr(file, "read1", file.read)

    def more(self, lacking: int) -> bytes:
        """Returns further bytes: at least one, and none at the end of the file. `lacking` is how many are needed."""
        return self.read(max(lacking, BLOCK) if self.gives_what_is_there else lacking) or b""


def read_events(file: File) -> Iterator[Event]:
    """Yields the events of a file, named by its path or open for reading bytes, one after another. Each event is given as soon as it is
    read, so a file may be longer than memory, and what is before a fault is not lost. Bytes behind it may have been read by then.

    Raises EventFileFault at the first wrong field, and OSError if the file cannot be read."""
    with contextlib.ExitStack() as opened:
        if isinstance(file, (str, bytes, os.PathLike)):
            file = opened.enter_context(open(file, "rb"))
        source = _Source(file)
        data = b""
        while len(data) < HEADER:
            piece = source.more(HEADER - len(data))
            if not piece:
                raise EventFileFault("V1", 0)
            data += piece
        form = FORMS.get(data[:HEADER])
        if form is None:
            raise EventFileFault("V1", 0)
        yield from read_from(file, form, data[HEADER:])


def read_further(form: Form, data: bytes, number: int, place: int) -> Iterator[Event]:
    """Yields the events of a file that grows: `data` are its bytes from `place` on, where the event of this number begins. A record that is not
    yet whole is left.

    Raises EventFileFault at the first wrong field."""
    try:
        yield from read_from(io.BytesIO(), form, data, number, place)
    except EventFileFault as fault:
        if fault.code != "V7":
            raise


def read_from(file: BinaryIO, form: Form, data: bytes, number: int = 1, place: int = HEADER) -> Iterator[Event]:
    """Yields the events of an open file from that of a number on, which begins at a place; `data` are the bytes of them that were read. Raises as
    `read_events`."""
    source, unpack, head = _Source(file), form.unpack, form.head.size
    at = 0
    while True:
        end, there = at + head, len(data)
        while end <= there:
            marker, gl, found, cycles, missed, count = unpack(data, at)
            if marker != MARKER or not 0 < gl <= GREATEST_GL or found != number or count > GREATEST_COUNT or (missed and missed > cycles):
                break
            words_at, end = end, end + 4 * count
            if end > there or any(data[words_at:end:4]):
                break
            yield Event(number, gl, cycles, missed, _words(count)(data, words_at))
            number, at, end = number + 1, end, end + head
        # The rest is no record, or not yet a whole one.
        _refuse(form, data[at : end if end <= there else at + head], number, place + at, is_whole=end <= there)
        piece = source.more(end - there)
        if not piece:
            _refuse(form, data[at:], number, place + at, is_whole=True)
            return
        data, at, place = data[at:] + piece, 0, place + at


def _refuse(form: Form, record: bytes, number: int, place: int, is_whole: bool) -> None:
    """Raises the fault of the first wrong field in a record. One of which more is to come (`is_whole` is False) has no end to judge."""
    found = _wrong_field(form, record, number) if record else None
    if found and (is_whole or found[0] != "V7"):
        raise EventFileFault(found[0], place + found[1])


def _wrong_field(form: Form, record: bytes, number: int) -> Optional[Tuple[str, int]]:
    """Returns the code and the place of the first wrong field; V7 is the one in which the bytes end."""
    head = form.head.size
    marker, gl, found, cycles, missed, count = form.unpack(record[:head].ljust(head, b"\0"), 0)
    right = {"V2": marker == MARKER, "V3": 1 <= gl <= GREATEST_GL, "V4": found == number, "V5": count <= GREATEST_COUNT}
    right["V9"] = not missed or missed <= cycles
    for code, place, size in form.fields:
        if len(record) < place + size:
            return "V7", place
        if not right.get(code, True):
            return code, place
    there = min(count, (len(record) - head) // 4)
    for at, word in enumerate(_words(there)(record, head)):
        if word > GREATEST_WORD:
            return "V6", head + 4 * at
    return ("V7", head + 4 * there) if there < count else None


def whole(file: File) -> Whole:
    """Returns the events of a file up to its first fault, and where it breaks: for a file that a full disk or a signal has cut.

    Raises OSError if the file cannot be read."""
    events: List[Event] = []
    size, fault = _take_whole(file, events.append)
    return Whole(events, size, fault)


def whole_size(file: File) -> int:
    """Returns the `size` of `whole`, in little memory however long the file is. Raises as `whole`."""
    return _take_whole(file, lambda _: None)[0]


def _take_whole(file: File, take: Callable[[Event], None]) -> Tuple[int, Optional[EventFileFault]]:
    """Hands on the events up to the first fault; returns how many bytes hold them, with the header, and the fault."""
    size = HEADER
    try:
        for event in read_events(file):
            take(event)
            size += record_size(event)
    except EventFileFault as fault:
        return 0 if fault.code == "V1" else size, fault
    return size, None
