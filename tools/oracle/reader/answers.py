"""Answer lines."""
from __future__ import annotations

from typing import NamedTuple, Optional

from oracle.reader.refusals import Refused

SIZE = 19
SPACES = (1, 3, 10, 12)
LIMIT = 1_000_000
HEXADECIMAL = frozenset(b"0123456789abcdefABCDEF")
FLAG = frozenset(b"01")


class Answer(NamedTuple):
    x: int
    q: int
    word: int
    wait: int
    gl: int

    def line(self) -> str:
        return f"{self.x} {self.q} {self.word:06x} {self.wait:x} {self.gl:06x}"


def column_of(line: bytes) -> int:
    """Where a line stops being an answer, from 1: at the first byte that none has there, or behind its last one."""
    fits = [{32} if it in SPACES else FLAG if it < SPACES[1] else HEXADECIMAL for it in range(SIZE)]
    return next((it for it, byte in enumerate(line[:SIZE]) if byte not in fits[it]), min(len(line), SIZE)) + 1


class Abandoned(Exception):
    """The line `abandon`, in a service."""


class Answers:
    """The answers of a text, one at a time. `limit` is how many lines a run takes; `column` is where a refused one stops being an answer."""

    def __init__(self, text: bytes, limit: int = LIMIT) -> None:
        self.text, self.limit = text, limit
        self.at = self.line = self.column = 0

    def next(self, in_service: bool = False) -> Optional[Answer]:
        """The answer of the next line, or None at the end. A1, A2 or A4 if the line is none, `Abandoned` if it leaves the service in progress."""
        if self.at >= len(self.text):
            return None
        self.line += 1
        if self.line > self.limit:
            raise Refused("A4", self.line)
        end = self.text.find(b"\n", self.at)
        end = len(self.text) if end < 0 else end
        line, self.at = self.text[self.at : end], end + 1
        if in_service and line == b"abandon":
            raise Abandoned
        self.column = column_of(line)
        if len(line) != SIZE or any(line[it] != 32 for it in SPACES):
            raise Refused("A1", self.line)
        fields = line[:1], line[2:3], line[4:10], line[11:12], line[13:]
        for number, field in enumerate(fields):
            if set(field) - (FLAG if number < 2 else HEXADECIMAL):
                raise Refused("A2", self.line)
        return Answer(*(int(field, 16) for field in fields))
