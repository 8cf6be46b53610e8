"""Event files of both versions: what they list, and the first wrong field."""
from __future__ import annotations

import struct
from typing import List, NamedTuple

from oracle.reader.refusals import Refused

HEADERS = {b"CAMACEV1": 1, b"CAMACEV2": 2}
HEADER = b"CAMACEV2"
MARKER = 0xCA4D
GL_BITS = 24
MOST_WORDS = 4096
GREATEST_WORD = 16_777_215


class Event(NamedTuple):
    gl: int
    cycles: int
    missed: int
    words: List[int]


def record_of(number: int, event: Event) -> bytes:
    """The record of an event in version Two."""
    count = len(event.words)
    return struct.pack(f">HHIIHH{count}I", MARKER, event.gl, number, event.cycles, event.missed, count, *event.words)


class Fields:
    """The fields of a file, one after another."""

    def __init__(self, data: bytes) -> None:
        self.data, self.at = data, 0

    def stop(self, code: str) -> None:
        raise Refused(code, self.at)

    def take(self, size: int, code: str, least: int, most: int) -> int:
        """A number of `size` bytes. V7 if the bytes end in it, `code` if it is out of range."""
        if len(self.data) - self.at < size:
            self.stop("V7")
        number = int.from_bytes(self.data[self.at : self.at + size], "big")
        if not least <= number <= most:
            self.stop(code)
        self.at += size
        return number


def events_listing(data: bytes) -> List[str]:
    """The lines that `events` prints, or the first wrong field (`Refused`)."""
    version = HEADERS.get(data[:8])
    fields = Fields(data)
    if version is None:
        fields.stop("V1")
    fields.at = 8
    lines: List[str] = []
    while fields.at < len(data):
        number = len(lines) + 1
        fields.take(2, "V2", MARKER, MARKER)
        gl = fields.take(2, "V3", 1, GL_BITS)
        fields.take(4, "V4", number, number)
        usage = ""
        if version == 2:
            cycles = fields.take(4, "", 0, 2**32)
            usage = f" cycles {cycles} missed {fields.take(2, 'V9', 0, cycles)}"
        count = fields.take(2, "V5", 0, MOST_WORDS)
        words = [fields.take(4, "V6", 0, GREATEST_WORD) for _ in range(count)]
        lines.append(f"event {number} gl {gl}{usage} words {count}" + "".join(f" {it:06x}" for it in words))
    return [*lines, f"events {len(lines)}"]
