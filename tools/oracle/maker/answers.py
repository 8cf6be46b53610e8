"""Answers: each is made for the operation that a run wants, and then some lines are changed. Event files of both versions, whole, with wrong fields, and with changed bytes."""
from __future__ import annotations

import struct
from random import Random
from typing import Callable, List, Optional, Tuple

from oracle.maker.changes import change
from oracle.reader.answers import Abandoned, Answer, Answers
from oracle.reader.branch import Overrun
from oracle.reader.checker import Checker
from oracle.reader.meaning import Run, Short
from oracle.reader.plan import gl_of

WORDS = (0, 1, 0xFFF, 0x1000, 0x123FFF, 0xFFFF, 0x10000, 0x800000, 0xFFFFFF)
# A field: its size in bytes and its number.
Field = Tuple[int, int]


class Made(Answers):
    """Answers that are made one by one. Demands call services, and waits are mostly permitted."""

    def __init__(self, random: Random, checker: Checker, count: int, demands: int) -> None:
        super().__init__(b"")
        self.random, self.checker = random, checker
        self.left, self.demands = count, demands
        self.lines: List[str] = []
        self.run: Optional[Run] = None
        self.q = random.choice((0.2, 0.5, 0.8, 0.97, 1.0))
        self.served = [gl_of(checker.script, checker.plan, it.name) for it in checker.script.services()]

    def wait(self, request: List[str]) -> int:
        if request[0] == "demand" or self.random.random() < 0.03:
            return self.random.choice((0, 0, 1, 15))
        crate = int(request[1])
        most = 0 if crate in self.run.branch.locked else self.checker.plan.waits(crate)
        if self.random.random() < 0.015:
            return min(15, most + 1)
        return self.random.choice((0, 0, most, self.random.randrange(most + 1)))

    def gl(self) -> int:
        gl = sum(1 << bit - 1 for bit in self.served if self.random.random() < 0.6)
        return self.random.choice((gl, gl, gl, gl | self.random.randrange(2**24), self.random.randrange(2**24), 2**24 - 1))

    def next(self, in_service: bool = False) -> Optional[Answer]:
        request = self.run.requests[-1].split()
        self.demands -= request[0] == "demand"
        if not self.left or self.demands < 0:
            return None
        self.left -= 1
        chance = self.random.random
        if in_service and chance() < 0.01:
            self.lines.append("abandon")
            raise Abandoned
        word = self.random.choice((self.random.choice(WORDS), self.random.randrange(2**24)))
        answer = Answer(int(chance() < 0.85), int(chance() < self.q), word, self.wait(request), self.gl())
        self.lines.append(answer.line())
        return answer


def make_answers(random: Random, checker: Checker, steps: int) -> bytes:
    """Answers for an accepted script, whose run then takes at most about this number of steps."""
    longest = max([1] + [cost.steps for it, cost in zip(checker.script.bodies, checker.costs) if it.is_service])
    demands = min(random.choice((1, 2, 3, 8)), max(1, steps // longest))
    answers = Made(random, checker, random.choice((1, 4, 12, 40, 40, 150, 400)), demands)
    run = answers.run = Run(checker.script, checker.plan, answers)
    try:
        run.demands()
    except (Short, Overrun):
        pass
    more = [f"0 0 000000 0 {random.randrange(2**24):06x}"] * random.choice((0, 0, 0, 1, 2))
    return "".join(f"{it}\n" for it in answers.lines + more).encode()


def break_line(random: Random, text: bytes) -> bytes:
    """Changes one line: its end, its spaces, its digits, its case, or its bytes."""
    lines = text.split(b"\n")
    at = random.randrange(len(lines))
    ways: List[Callable[[bytes], bytes]] = [
        lambda it: it + b"\r", lambda it: it + b" ", lambda it: b"", lambda it: it.upper(), lambda it: it.replace(b" ", b"\t", 1),
        lambda it: it[:-1], lambda it: it + b"0", lambda it: b" " + it, lambda it: it[:4] + b"g" + it[5:], lambda it: b"2" + it[1:],
        lambda it: b"abandon", lambda it: it[:2] + b"f" + it[3:], lambda it: it[:11] + b"F" + it[12:], lambda it: it[:10] + b"0" + it[11:],
        lambda it: change(random, it),
    ]
    lines[at] = random.choice(ways)(lines[at])
    return b"\n".join(lines)


def make_changed_answers(random: Random, text: bytes) -> bytes:
    """The answers with a change in a line, or in bytes anywhere, or without the last line's end."""
    if random.random() < 0.2:
        return text[:-1]
    return break_line(random, text) if random.random() < 0.7 else change(random, text)


def record(random: Random, number: int, version: int) -> List[Field]:
    cycles = random.choice((0, 1, 3, 255, 65_535, 65_536, 2**32 - 1))
    missed = min(cycles, random.choice((0, 0, 1, 3, 256, 65_535)))
    if random.random() < 0.03:
        missed = min(65_535, cycles + 1)
    words = [random.choice((0, 1, 0xFFF, 0xFFFFFF, random.randrange(2**24))) for _ in range(random.choice((0, 1, 2, 3, 5)))]
    usage = [(4, cycles), (2, missed)] if version == 2 else []
    return [(2, 0xCA4D), (2, random.randrange(1, 25)), (4, number), *usage, (2, len(words)), *((4, it) for it in words)]


def break_field(random: Random, records: List[List[Field]]) -> None:
    """Gives a field a number that may be out of its range."""
    if records:
        fields = random.choice(records)
        at = random.randrange(len(fields)) if random.random() < 0.5 else random.randrange(min(6, len(fields)))
        size, number = fields[at]
        other = random.choice((0, 1, 2, 24, 25, 4096, 4097, 0xCA4E, 65_535, 2**24 - 1, 2**24, 2**32 - 1, number + 1, abs(number - 1)))
        fields[at] = size, other % 2 ** (8 * size)


def make_event_file(random: Random) -> bytes:
    version = random.choice((1, 2, 2))
    records = [record(random, number + 1, version) for number in range(random.choice((0, 1, 1, 2, 3)))]
    for _ in range(random.choice((0, 0, 1, 1, 2))):
        break_field(random, records)
    data = b"CAMACEV%d" % version
    for fields in records:
        data += b"".join(struct.pack({2: ">H", 4: ">I"}[size], number) for size, number in fields)
    return change(random, data) if random.random() < 0.4 else data
