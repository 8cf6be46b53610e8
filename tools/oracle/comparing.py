"""Compares what the program tells with what the reader says, case after case, by one of the judges."""
from __future__ import annotations

import collections
import os
import pathlib
from random import Random
from typing import Callable, Counter, List, NamedTuple, Optional, Tuple

from oracle.calls import Hung, Program
from oracle.reader.engines import Inputs, Told
from oracle.reader.refusals import TEXTS, LeftOut


class Difference(NamedTuple):
    """What a command has to answer on inputs, and what it answered: None if it did not end, or was not asked."""

    number: int
    command: str
    inputs: Inputs
    wanted: Told
    answered: Optional[Told]


class Judge(NamedTuple):
    """Judges the case in hand of a comparison. `needs` is what has to be seen now and then, else the judge is blind."""

    name: str
    says: str
    judge: Callable[[Comparison], None]
    needs: Tuple[str, ...]


class Comparison:
    """Judges case after case. `judged` counts what was compared, `seen` what was met there, `left_out` the cases that the reader does not judge."""

    def __init__(self, program: Program, seed: str, judge: Judge) -> None:
        self.program, self.seed, self.judge = program, seed, judge
        self.seen: Counter[str] = collections.Counter()
        self.left_out: Counter[str] = collections.Counter()
        self.differences: List[Difference] = []
        self.cases = self.judged = self.number = 0

    def dice(self) -> Random:
        """The source of chance of the case in hand."""
        return Random(f"{self.seed}/{self.judge.name}/{self.number}")

    def asked(self, command: str, inputs: Inputs) -> Optional[Told]:
        """What the program answers; None if it does not end."""
        try:
            return self.program.call(command, inputs)
        except Hung:
            return None

    def differs(self, command: str, inputs: Inputs, wanted: Told, answered: Optional[Told] = None) -> None:
        self.differences.append(Difference(self.number, command, inputs, wanted, answered))

    def compare(self, command: str, inputs: Inputs, wanted: Told) -> None:
        self.judged += 1
        self.seen[wanted.reached] += 1
        answered = self.asked(command, inputs)
        if answered != wanted._replace(reached=""):
            self.differs(command, inputs, wanted, answered)

    def run(self, first: int, count: int, seconds: Optional[float] = None, most: int = 5) -> None:
        """Judges `count` cases, or as many as fit into `seconds` of processor time, and stops at `most` differences."""
        began = used()
        for self.number in range(first, first + count):
            if len(self.differences) >= most or seconds is not None and used() - began >= seconds:
                return
            self.cases += 1
            try:
                self.judge.judge(self)
            except LeftOut as why:
                self.left_out[str(why)] += 1

    def missing(self) -> List[str]:
        """What has to be seen, and was not."""
        return [it for it in self.judge.needs if not self.seen[it]]

    def told(self) -> str:
        left = "".join(f", {count} left out ({why})" for why, count in self.left_out.items())
        return f"{self.judge.name} by seed {self.seed}: {self.cases} cases, {self.judged} judged, {len(self.differences)} differ{left}"

    def table(self) -> str:
        """How often each code and each other thing was seen."""
        names = [*self.judge.needs, *sorted(it for it in self.seen if it not in self.judge.needs)]
        return "\n".join(f"{self.seen[it]:7}  {it} {TEXTS.get(it, '')}".rstrip() for it in names)


def used() -> float:
    """Processor seconds of this process and of the children that have ended."""
    times = os.times()
    return times.user + times.system + times.children_user + times.children_system


def keep(difference: Difference, comparison: Comparison, folder: pathlib.Path) -> pathlib.Path:
    """Writes the files of a difference into a folder of its own."""
    to = folder / f"{comparison.judge.name}-seed-{comparison.seed}-case-{difference.number}-{difference.command}"
    to.mkdir(parents=True, exist_ok=True)
    for name, data in difference.inputs._asdict().items():
        if data:
            (to / name).write_bytes(data)
    for name, told in (("wanted", difference.wanted), ("answered", difference.answered)):
        if told is not None:
            (to / f"{name}.out").write_bytes(told.out + told.err + f"status {told.status}\n".encode())
            if told.events is not None:
                (to / f"{name}.events").write_bytes(told.events)
    return to
