"""Changes of bytes: each byte set to others, pieces moved, doubled and taken out, cuts at each place."""
from __future__ import annotations

from random import Random
from typing import Tuple

SET_TO = b"\x00\x0a\x21\x7b\xff"


def set_byte(random: Random, data: bytes) -> bytes:
    at = random.randrange(len(data))
    return data[:at] + bytes([random.choice(SET_TO)]) + data[at + 1 :]


def cut(random: Random, data: bytes) -> bytes:
    return data[: random.randrange(len(data))]


def piece(random: Random, data: bytes) -> Tuple[int, int]:
    """The ends of a piece, which is mostly short."""
    first = random.randrange(len(data))
    return first, min(len(data), first + random.choice((1, 1, 2, 3, 4, 8, 16, 20, 40, 100)))


def take_out(random: Random, data: bytes) -> bytes:
    first, after = piece(random, data)
    return data[:first] + data[after:]


def double(random: Random, data: bytes) -> bytes:
    first, after = piece(random, data)
    return data[:after] + data[first:]


def move(random: Random, data: bytes) -> bytes:
    first, after = piece(random, data)
    rest = data[:first] + data[after:]
    at = random.randrange(len(rest) + 1)
    return rest[:at] + data[first:after] + rest[at:]


def other_case(random: Random, data: bytes) -> bytes:
    first, after = piece(random, data)
    return data[:first] + data[first:after].swapcase() + data[after:]


def next_value(random: Random, data: bytes) -> bytes:
    """A byte one more or one less."""
    at = random.randrange(len(data))
    return data[:at] + bytes([(data[at] + random.choice((1, 255))) % 256]) + data[at + 1 :]


def change(random: Random, data: bytes) -> bytes:
    """The data with one change, or a few."""
    for _ in range(random.choice((1, 1, 1, 2, 4))):
        if data:
            data = random.choice((set_byte, set_byte, set_byte, cut, take_out, double, move, next_value, other_case))(random, data)
    return data
