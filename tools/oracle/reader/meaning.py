"""What a script does with a list of answers: cycles, locks and events, as `run` lists and as `drive` asks for them."""
from __future__ import annotations

from typing import Callable, Dict, List, Tuple

from oracle.reader.answers import Abandoned, Answer, Answers
from oracle.reader.branch import Branch, Command, Overrun
from oracle.reader.event_file import HEADER, Event, record_of
from oracle.reader.plan import Plan, gl_of, kind_of
from oracle.reader.refusals import Refused
from oracle.reader.tree import (
    Assign, Block, Body, Call, Condition, CrateCall, Cycle, Expression, For, ForEach, If, Lam, LamCall, Lock, Put, Scan, Script, SetRegister,
    Statement, While,
)

MOST_MISSED = 65_535
SHORT_BITS = 16
LAST_SUB = 15
LAM_FUNCTIONS = {"cclm on": 26, "cclm off": 24, "cclc": 10, "ctlm": 8}
CRATE_COMMANDS = {
    "cccz": (28, 8, 26), "cccc": (28, 9, 26), "ccci on": (30, 9, 26), "ccci off": (30, 9, 24), "ctci": (30, 9, 27),
    "cccd on": (30, 10, 26), "cccd off": (30, 10, 24), "ctcd": (30, 10, 27), "ctgl": (30, 11, 27),
}
COMPARED: Dict[str, Callable[[int, int], bool]] = {
    "<": int.__lt__, "<=": int.__le__, ">": int.__gt__, ">=": int.__ge__, "==": int.__eq__, "!=": int.__ne__,
}
COMPUTED: Dict[str, Callable[[int, int], int]] = {
    "+": int.__add__, "-": int.__sub__, "*": int.__mul__, "/": int.__floordiv__, "%": int.__mod__,
}


class Short(Exception):
    """The answers are used up inside a service."""


class Run:
    """A run of an accepted script. `listing` has its lines, `requests` those of a live run, `events` the bytes of the event file."""

    def __init__(self, script: Script, plan: Plan, answers: Answers) -> None:
        self.script, self.plan, self.answers = script, plan, answers
        self.branch = Branch(plan)
        self.listing: List[str] = []
        self.requests: List[str] = []
        self.events = bytearray(HEADER)
        self.count = 0
        self.is_refused = False
        self.services = {gl_of(script, plan, it.name): it for it in script.services()}
        self.begin()

    def begin(self) -> None:
        """The state at a service's start."""
        self.variables: Dict[str, int] = dict.fromkeys(self.script.variables, 0)
        self.registers: Dict[str, Tuple[int, int, int]] = {}
        self.q = self.x = self.cost = self.missed = 0
        self.words: List[int] = []

    def play(self) -> None:
        """The whole run, to its last line."""
        try:
            how = self.demands()
        except Short:
            how = "short"
        except Overrun as overrun:
            how, self.is_refused = f"overrun {overrun.crate} wait {overrun.wait}", True
        except Refused as refused:
            how, self.is_refused = "", True
            last = refused.line()
        if how:
            last = f"{how} events {self.count}"
        self.listing.append(last)
        self.requests.append(last)

    def demands(self) -> str:
        while True:
            self.requests.append("demand")
            answer = self.answers.next()
            if answer is None:
                return "ended"
            pattern = self.branch.demand(answer.gl)
            called = [bit for bit in sorted(self.services) if pattern >> bit - 1 & 1]
            self.listing.append(f"demand {pattern:06x} {self.services[called[0]].name if called else '-'}")
            if called:
                kept = self.branch.copy()
                try:
                    self.serve(called[0], self.services[called[0]])
                except Abandoned:
                    self.branch = kept
                    self.listing.append(f"abandoned service {self.services[called[0]].name}")

    def serve(self, bit: int, service: Body) -> None:
        self.begin()
        self.block(service.block)
        self.count += 1
        self.events += record_of(self.count, Event(bit, self.cost, min(self.missed, MOST_MISSED), self.words))

    def answer(self) -> Answer:
        answer = self.answers.next(in_service=True)
        if answer is None:
            raise Short
        return answer

    def cycle(self, command: Command) -> int:
        """Makes a cycle, and returns the word of its reply."""
        move = f"out {command.out:06x}" if command.moves == "write" else "in" if command.moves == "read" else "none"
        self.requests.append(f"{command.address()} {move}")
        answer = self.answer()
        reply = self.branch.cycle(command, answer)
        self.q, self.x = reply.q, reply.x
        self.cost += 1 + answer.wait
        self.missed += not reply.x
        if command.moves == "read":
            move = f"in {reply.word:06x}"
        self.listing.append(f"{command.address()} {move} x{reply.x} q{reply.q} wait {answer.wait}")
        return reply.word

    def cut(self, word: int, command: Command, bits: int = 24) -> int:
        """The low bits of a word that a read keeps."""
        width = self.plan.width(command.crate, command.station, command.sub, command.function) or 24
        return word % 2 ** min(width, bits)

    def value(self, expression: Expression) -> int:
        if isinstance(expression, int):
            return expression
        if isinstance(expression, str):
            return self.variables[expression]
        return COMPUTED[expression.sign](self.value(expression.left), self.value(expression.right))

    def holds(self, condition: Condition) -> bool:
        for part in condition:
            if part.left is None:
                is_true = bool(self.q if part.sign == "q" else self.x)
            else:
                is_true = COMPARED[part.sign](self.value(part.left), self.value(part.right))
            if is_true == part.is_negated:
                return False
        return True

    def block(self, statements: List[Statement]) -> None:
        for it in statements:
            DOES[type(it)](self, it)

    def assign(self, statement: Assign) -> None:
        self.variables[statement.name] = self.value(statement.value)

    def set_register(self, statement: SetRegister) -> None:
        crate, station, sub = (self.value(part) for part in statement.address)
        self.registers[statement.register] = crate, station, sub

    def single(self, cycle: Cycle) -> None:
        moves = "read" if cycle.into is not None else "control" if cycle.value is None else "write"
        command = Command(*self.registers[cycle.register], cycle.function, moves, None if cycle.value is None else self.value(cycle.value))
        word = self.cycle(command)
        if cycle.into is not None:
            self.variables[cycle.into] = self.cut(word, command, SHORT_BITS if cycle.is_short else 24)

    def scan(self, statement: Scan) -> None:
        crate, station, sub = self.registers[statement.first]
        _, last_station, last_sub = self.registers[statement.last]
        most, kept = self.value(statement.most), 0
        while kept < most and (station, sub) <= (last_station, last_sub):
            command = Command(crate, station, sub, statement.function, "read")
            word = self.cycle(command)
            if self.q:
                self.words.append(self.cut(word, command))
                kept += 1
            station, sub = (station, sub + 1) if self.q and sub < LAST_SUB else (station + 1, 0)
        self.variables[statement.tally] = kept

    def transfer(self, statement: Block) -> None:
        """Q-stop ends after a Q = 0; Q-repeat goes on, up to its limit."""
        most, done, cycles = self.value(statement.most), 0, 0
        limit = most if statement.limit is None else self.value(statement.limit)
        table = self.script.tables[statement.table] if statement.table else []
        address = self.registers[statement.register]
        while done < most and cycles < limit:
            command = Command(*address, statement.function, "write" if statement.table else "read", table[done] if statement.table else None)
            word = self.cycle(command)
            cycles += 1
            if self.q and not statement.table:
                self.words.append(self.cut(word, command))
            done += self.q
            if not self.q and statement.limit is None:
                break
        self.variables[statement.tally] = done

    def put(self, statement: Put) -> None:
        self.words.append(self.value(statement.value))

    def crate_call(self, statement: CrateCall) -> None:
        station, sub, function = CRATE_COMMANDS[statement.call]
        self.cycle(Command(self.value(statement.crate), station, sub, function, kind_of(function)))

    def lam_call(self, statement: LamCall) -> None:
        lam: Lam = self.script.lams[statement.lam]
        self.cycle(Command(lam.crate, lam.station, lam.sub, LAM_FUNCTIONS[statement.call], "control"))

    def choice(self, statement: If) -> None:
        self.block(statement.body if self.holds(statement.condition) else statement.otherwise or [])

    def for_(self, loop: For) -> None:
        for number in range(self.value(loop.first), self.value(loop.last) + 1):
            self.variables[loop.name] = number
            self.block(loop.body)

    def each(self, loop: ForEach) -> None:
        self.for_(For(loop.line, loop.name, loop.first, loop.last, [], loop.body))

    def while_(self, loop: While) -> None:
        while self.holds(loop.condition):
            self.block(loop.body)

    def lock(self, statement: Lock) -> None:
        crate = self.value(statement.crate)
        self.requests.append(f"lock {crate}")
        answer = self.answer()
        self.branch.permit(crate, answer.wait)
        self.branch.locked.add(crate)
        self.cost += answer.wait
        self.listing.append(f"lock {crate} wait {answer.wait}")
        self.block(statement.body)
        self.branch.locked.discard(crate)
        self.listing.append(f"unlock {crate}")
        self.requests.append(f"unlock {crate}")

    def call(self, statement: Call) -> None:
        procedure = self.script.procedures[statement.procedure]
        values = [self.value(argument) for argument in statement.arguments]
        around = self.variables, self.registers
        self.variables, self.registers = {one.name: value for one, value in zip(procedure.parameters, values)}, {}
        self.block(procedure.block)
        self.variables, self.registers = around


DOES: Dict[type, Callable[..., None]] = {
    Assign: Run.assign, SetRegister: Run.set_register, Cycle: Run.single, Scan: Run.scan, Block: Run.transfer, Put: Run.put,
    CrateCall: Run.crate_call, LamCall: Run.lam_call, If: Run.choice, For: Run.for_, ForEach: Run.each, While: Run.while_, Lock: Run.lock, Call: Run.call,
}
