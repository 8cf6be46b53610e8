"""Runs at the edges of what modules answer."""
from __future__ import annotations

from random import Random
from typing import NamedTuple, Optional, Tuple

from oracle.reader.answers import Answer, Answers
from oracle.reader.grammar import read_script
from oracle.reader.meaning import Run, Short
from oracle.reader.plan import Plan
from oracle.reader.tree import Body

RISING = -1
ANSWERS = 20_000


class Kind(NamedTuple):
    """The word of each answer, `RISING` for words that rise, and its Q. None comes by chance."""

    word: Optional[int]
    q: Optional[int]


GREATEST, LEAST, SILENT, RISEN = Kind(2**24 - 1, 1), Kind(0, 1), Kind(2**24 - 1, 0), Kind(RISING, 1)
BY_CHANCE = Kind(None, 1), Kind(None, None)


class Given(Answers):
    """Answers of a kind to each operation of a run."""

    def __init__(self, random: Random, kind: Kind) -> None:
        super().__init__(b"")
        self.random, self.kind, self.left, self.risen = random, kind, ANSWERS, 0

    def next(self, in_service: bool = False) -> Optional[Answer]:
        self.left -= 1
        if self.left < 0:
            return None
        word, q = self.kind
        if word is None:
            word = self.random.choice([0, 1, 200, 4095, self.random.randrange(2**24)])
        if word == RISING:
            self.risen += self.random.randrange(9)
            word = self.risen % 1024
        return Answer(1, self.random.randrange(2) if q is None else q, word, 0, 0xFFFFFF)


class Twice(Run):
    """A run that ends after two services."""

    def serve(self, bit: int, service: Body) -> None:
        if self.count == 2:
            raise Short
        super().serve(bit, service)


def events(plan: Plan, text: bytes, random: Random, kind: Kind) -> Tuple[int, bytes]:
    """How many events two services make, accepted or not, and the bytes of their file."""
    run = Twice(read_script(text), plan, Given(random, kind))
    run.play()
    return run.count, bytes(run.events)
