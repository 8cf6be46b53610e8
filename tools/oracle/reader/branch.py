"""The simulated branch: crates, replies, waits, locks and demands."""
from __future__ import annotations

from typing import NamedTuple, Optional, Set

from oracle.reader.answers import Answer
from oracle.reader.plan import CONTROLLER, Plan


class Overrun(Exception):
    def __init__(self, crate: int, wait: int) -> None:
        super().__init__(crate, wait)
        self.crate, self.wait = crate, wait


class Command(NamedTuple):
    """A command, and what is written: None if nothing is."""

    crate: int
    station: int
    sub: int
    function: int
    moves: str
    out: Optional[int] = None

    def address(self) -> str:
        return f"cycle {self.crate} {self.station} {self.sub} {self.function}"


class Reply(NamedTuple):
    x: int
    q: int
    word: int


class Branch:
    def __init__(self, plan: Plan) -> None:
        self.plan = plan
        self.inhibited: Set[int] = set()
        self.silent: Set[int] = set()
        self.locked: Set[int] = set()

    def copy(self) -> "Branch":
        """Another one as it is at a demand, where no crate is locked."""
        other = Branch(self.plan)
        other.inhibited, other.silent = set(self.inhibited), set(self.silent)
        return other

    def permit(self, crate: int, wait: int) -> None:
        """Overrun if a wait is not permitted."""
        if wait and (crate in self.locked or wait > self.plan.waits(crate)):
            raise Overrun(crate, wait)

    def cycle(self, command: Command, answer: Answer) -> Reply:
        self.permit(command.crate, answer.wait)
        effect = CONTROLLER.get((command.station, command.sub, command.function))
        if effect is None:
            return Reply(answer.x, answer.q, answer.word)
        return self.controlled(effect, command.crate, answer.gl & self.plan.bits(command.crate))

    def controlled(self, effect: str, crate: int, pattern: int) -> Reply:
        """What a controller replies, and how its crate is afterwards."""
        if effect == "read GL":
            return Reply(1, 1, pattern)
        if effect.startswith("test"):
            flags = {"test I": crate in self.inhibited, "test demand": crate not in self.silent, "test GL": pattern != 0}
            return Reply(1, int(flags[effect]), 0)
        if effect in ("set I", "initialise"):
            self.inhibited.add(crate)
        if effect in ("disable demand", "initialise"):
            self.silent.add(crate)
        if effect == "remove I":
            self.inhibited.discard(crate)
        if effect == "enable demand":
            self.silent.discard(crate)
        return Reply(1, 0, 0)

    def demand(self, gl: int) -> int:
        return gl & sum(self.plan.bits(it) for it in self.plan.crates if it not in self.silent)
