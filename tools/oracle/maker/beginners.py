"""Loops as beginners write them, for the built-in plan: sums, counts, extremes, differences and polls that keep nothing."""
from __future__ import annotations

from random import Random
from typing import List, Sequence

VARIABLES = "sum", "n", "top", "last", "d", "left"
OPENING = "cdlam adc 1 1 5 12\nvar i k v {}\nservice adc within 0 cycles event 0 words {{\n"
CLOSING = "cclc adc\n}\n"
NUMBERS = {"c": (1, 1, 2, 10, 100, 4095, 65_536), "s": (2, 3, 4, 7, 12, 16)}
# What is done with a reading `v`, with other variables `a` and `b`, and with numbers `c` and `s`.
STEPS = (
    "{a} = {a} + v", "{a} = {a} + v", "{a} = {a} + 1", "{a} = {a} + 1", "{a} = {a} + {c}", "{a} = {a} + v * {s}", "{a} = {a} + v / {s}",
    "{a} = v", "{a} = v", "{a} = {b}", "{a} = {b} + {c}", "{a} = v - {b}", "{a} = {a} - 1", "{a} = {a} - {c}", "{a} = ({a} + 1) % {s}",
    "{a} = ({a} * {s} + v) / 8", "{a} = {a} * 2", "{a} = i", "{a} = {s}", "put {a}", "put {a} / {s}", "put v - {b}", "put {b} - {a}",
    "put {a} + {b}", "cdreg w 1 1 5 {a}", "cclc adc",
)
TESTS = "v > {a}", "v > {a}", "v > {c}", "{a} < {c}", "{a} > 0", "{a} >= {s}", "q", "not q and v < {a}", "v - {b} > {c}", "{a} != {b}"
ENDS = "put {a}", "put {a}", "put {a} / {s}", "put {a} % 65536", "put {a} - {b}", "put {a} * {s}", "for k = 1 to {a} {{\nput 1\n}}"


class Beginner:
    def __init__(self, random: Random) -> None:
        self.random = random
        self.names = random.sample(VARIABLES, random.choice((1, 1, 2, 2, 3)))

    def made(self, forms: Sequence[str]) -> str:
        """One of the forms, with names and numbers in it."""
        return self.random.choice(forms).format(**{it: self.random.choice(NUMBERS.get(it, self.names)) for it in "abcs"})

    def steps(self, depth: int) -> List[str]:
        lines = ["cdreg r 1 1 5 {}".format(self.random.choice((0, 3, "i % 12"))), "cfsa 0 r -> v"] if self.random.random() < 0.6 else []
        for _ in range(self.random.choice((1, 1, 2, 3))):
            chance = self.random.random()
            if chance < 0.2 and depth < 3:
                other = ["} else {", *self.steps(3)] if self.random.random() < 0.3 else []
                lines += [f"if {self.made(TESTS)} {{", *self.steps(3), *other, "}"]
            elif chance < 0.3 and depth < 2:
                lines += self.loop(depth + 1)
            else:
                lines.append(self.made(STEPS))
        return lines

    def loop(self, depth: int = 1) -> List[str]:
        name = "ik"[depth - 1]
        turns = self.random.choice((1, 2, 4, 11, 12, 100, 1000))
        if self.random.random() < 0.8:
            first = self.random.choice((0, 1))
            return [f"for {name} = {first} to {first + turns - 1} {{", *self.steps(depth), "}"]
        test = self.random.choice(("", "", f" and {self.made(TESTS)}"))
        return [f"{name} = {turns}", f"while {name} > 0{test} turns {turns} by {name} {{", *self.steps(depth), f"{name} = {name} - 1", "}"]


def make_beginner(random: Random) -> bytes:
    """A script that is mostly refused for what its loops forget."""
    beginner = Beginner(random)
    lines = [beginner.made(("{a} = {c}", "{a} = {s}"))] if random.random() < 0.3 else []
    for _ in range(random.choice((1, 1, 1, 2))):
        lines += beginner.loop()
    lines += [beginner.made(ENDS) for _ in range(random.choice((1, 1, 2)))]
    return (OPENING.format(" ".join(beginner.names)) + "".join(f"{one}\n" for one in lines) + CLOSING).encode()
