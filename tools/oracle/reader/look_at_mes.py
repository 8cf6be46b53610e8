"""What the services of a script do to look-at-mes: which ones do not clear their own, and which ones may clear or hide another's."""
from __future__ import annotations

import functools
from typing import Callable, Dict, Iterator, List, NamedTuple, Set, Tuple, Union

from oracle.reader.checker import LAM_FUNCTIONS, Checker
from oracle.reader.loops import everything
from oracle.reader.meaning import CRATE_COMMANDS
from oracle.reader.plan import CONTROLLER, Plan, gl_of
from oracle.reader.ranges import Address, hull, numbers, value_of
from oracle.reader.tree import Block, Body, Call, CrateCall, Cycle, For, ForEach, If, Lam, LamCall, Lock, Scan, Statement, While

CLEAR, DISABLE = LAM_FUNCTIONS["cclc"], LAM_FUNCTIONS["cclm off"]
# Crate, station, sub-address, function.
Command = Tuple[int, int, int, int]


class Unkept(NamedTuple):
    """A look-at-me for which the script does not do its part: its bit, a line, whose it is, and why."""

    bit: int
    line: int
    name: str
    why: str

    def text(self) -> str:
        return f"unkept {self.name} line {self.line}: {self.why}"


def must_clear(plan: Plan, lam: Lam, command: Command) -> bool:
    """Whether the look-at-me is down after a command."""
    crate, station, sub, function = command
    there = plan.station(crate, station)
    by_plan = there is not None and (function, sub) in there.module.clears
    return (crate, station) == (lam.crate, lam.station) and (by_plan or (sub, function) == (lam.sub, CLEAR))


def may_clear(plan: Plan, lam: Lam, command: Command) -> bool:
    """Whether the look-at-me may be down after a command."""
    if CONTROLLER.get(command[1:]) in ("initialise", "clear"):
        return command[0] == lam.crate
    return must_clear(plan, lam, command) or command == (lam.crate, lam.station, lam.sub, DISABLE)


def may_hide(plan: Plan, lam: Lam, command: Command) -> bool:
    """Whether the look-at-me may be missing in the pattern after a command."""
    if CONTROLLER.get(command[1:]) in ("initialise", "disable demand"):
        return command[0] == lam.crate
    return command == (lam.crate, lam.station, lam.sub, DISABLE)


WHYS: Tuple[Tuple[str, Callable[[Plan, Lam, Command], bool]], ...] = (("cleared by", may_clear), ("hidden by", may_hide))


class Looks:
    """Looks at the services of a script that a checker has accepted."""

    def __init__(self, checker: Checker) -> None:
        self.checker, self.script, self.plan = checker, checker.script, checker.plan
        # By body the commands that it may send, each with its first line, those of procedures that it calls too.
        self.sent: Dict[str, Dict[Command, int]] = {}
        # By procedure and look-at-me, how often it may clear it.
        self.called: Dict[Tuple[str, int, int, int], int] = {}

    def unkept(self) -> List[Unkept]:
        """In the order of bits, then of lines; on one line first what is not cleared, then what is cleared, then what is hidden, by the others' order."""
        for body in self.script.bodies:
            self.sent[body.name] = self.commands(body)
        return sorted((one for it in self.script.services() for one in self.of(it)), key=lambda it: (it.bit, it.line))

    def of(self, body: Body) -> Iterator[Unkept]:
        lam, bit = self.script.lams[body.name], gl_of(self.script, self.plan, body.name) or 0
        if not self.clears(body.block, lam):
            yield Unkept(bit, body.line, body.name, "does not clear its look-at-me")
        for why, test in WHYS:
            for other in self.script.services():
                lines = [line for command, line in self.sent[other.name].items() if test(self.plan, lam, command)]
                if lines and (other is not body or test is may_hide):
                    yield Unkept(bit, min(lines), body.name, f"{why} {other.name}")

    def clears(self, block: List[Statement], lam: Lam) -> bool:
        """Whether each way through a block clears the look-at-me, as its text shows."""
        return any(self.is_clearing(it, lam) for it in block)

    def is_clearing(self, statement: Statement, lam: Lam) -> bool:
        if isinstance(statement, Block) and not all(isinstance(it, int) and it >= 1 for it in (statement.most, statement.limit) if it is not None):
            return False
        if isinstance(statement, (LamCall, Cycle, Block)):
            commands = self.of_statement(statement)
            return bool(commands) and all(must_clear(self.plan, lam, command) for command in commands)
        if isinstance(statement, If):
            return self.clears(statement.body, lam) and self.clears(statement.otherwise or [], lam)
        if isinstance(statement, (For, ForEach)):
            first, last = statement.first, statement.last
            return isinstance(first, int) and isinstance(last, int) and first <= last and self.clears(statement.body, lam)
        if isinstance(statement, Call):
            return self.clears(self.script.procedures[statement.procedure].block, lam)
        return isinstance(statement, Lock) and self.clears(statement.body, lam)

    def may_clear_twice(self, body: Body) -> bool:
        return self.times(body.block, self.script.lams[body.name]) == 2

    def times(self, block: List[Statement], lam: Lam) -> int:
        """How often a way through a block may clear the look-at-me, up to two."""
        return min(2, sum(self.times_of(it, lam) for it in block))

    def times_of(self, statement: Statement, lam: Lam) -> int:
        if isinstance(statement, If):
            return max(self.times(statement.body, lam), self.times(statement.otherwise or [], lam))
        if isinstance(statement, (For, ForEach, While)):
            return self.turns(statement) * self.times(statement.body, lam)
        if isinstance(statement, Lock):
            return self.times(statement.body, lam)
        if isinstance(statement, Call):
            which = statement.procedure, lam.crate, lam.station, lam.sub
            if which not in self.called:
                self.called[which] = self.times(self.script.procedures[statement.procedure].block, lam)
            return self.called[which]
        commands = [command for command in self.of_statement(statement) if may_clear(self.plan, lam, command)]
        if not commands or not isinstance(statement, (Block, Scan)):
            return min(1, len(commands))
        most = max(cost.steps for _, cost in self.checker.judged.found_of(statement)) - 1
        return min(most, len({sub for _, _, sub, _ in commands})) if isinstance(statement, Scan) else most

    def turns(self, loop: Union[For, ForEach, While]) -> int:
        """The most turns of a loop; none where it, or its block, is not reached."""
        judged = [one for one in self.checker.judged.all() if loop.body and id(loop) in one.found]
        if isinstance(loop, ForEach):
            return max((len(one.turns.get(id(loop), [])) for one in judged), default=0)
        known = [one.found[id(loop)][0] for one in judged if id(loop.body[0]) in one.found]
        if isinstance(loop, While):
            return loop.turns if known else 0
        return max((value_of(one, loop.last, loop.line)[1] - value_of(one, loop.first, loop.line)[0] + 1 for one in known), default=0)

    def commands(self, body: Body) -> Dict[Command, int]:
        found: Dict[Command, int] = {}
        for statement in everything(body.block):
            sent = self.sent[statement.procedure] if isinstance(statement, Call) else dict.fromkeys(self.of_statement(statement), statement.line)
            for command, line in sent.items():
                found[command] = min(line, found.get(command, line))
        return found

    def of_statement(self, statement: Statement) -> Set[Command]:
        """The commands of a statement, by what is known before it. A scan counts for all of its stations, a LAM call also where it is not reached.
        In an `each` the addresses of all turns count together."""
        if isinstance(statement, LamCall):
            lam = self.script.lams[statement.lam]
            return {(lam.crate, lam.station, lam.sub, LAM_FUNCTIONS[statement.call])}
        addresses = self.addresses(statement)
        if not addresses:
            return set()
        crates, stations, subs = (functools.reduce(hull, ranges) for ranges in zip(*addresses))
        if isinstance(statement, CrateCall):
            return {(c, *CRATE_COMMANDS[statement.call]) for c in numbers(crates)}
        return {(c, n, a, statement.function) for c in numbers(crates) for n in numbers(stations) for a in numbers(subs)}

    def addresses(self, statement: Statement) -> List[Address]:
        """Where a statement goes each time that it is judged. That of a call of a controller has only a crate."""
        addresses = []
        for known in self.checker.judged.known(statement):
            if isinstance(statement, CrateCall):
                addresses.append(Address(value_of(known, statement.crate, statement.line), (0, 0), (0, 0)))
            elif isinstance(statement, (Cycle, Block)):
                addresses.append(known.registers[statement.register])
            elif isinstance(statement, Scan):
                first, last = known.registers[statement.first], known.registers[statement.last]
                addresses.append(Address(first.crate, (first.station[0], last.station[1]), (0, 15)))
        return addresses
