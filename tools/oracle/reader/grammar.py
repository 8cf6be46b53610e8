"""The tree of a script's text: declarations and statements, with the rules S1 to S7."""
from __future__ import annotations

from typing import Callable, Dict, List, Optional, Tuple, Union

from oracle.reader.cursor import LIMITS, Cursor
from oracle.reader.tokens import Token, read_tokens
from oracle.reader.tree import (
    Assign, Block, Body, Call, CrateCall, Cycle, Expression, For, ForEach, If, Keep, Lam, LamCall, Lock, Put, Scan, Script, SetRegister,
    Statement, While,
)

FUNCTIONS = 31
SUB_ADDRESSES = 15
WORD = 16_777_215
PLAIN_CRATE_CALLS = ("cccz", "cccc", "ctci", "ctcd", "ctgl")
SWITCHED_CRATE_CALLS = ("ccci", "cccd")
LAM_CALLS = ("cclm", "cclc", "ctlm")
# A word only between the last number and the block of a `for`, and else a name.
EACH = "each"


def read_script(text: bytes) -> Script:
    """The tree that a text spells, or the first fault (`Refused`)."""
    return Grammar(read_tokens(text)).whole()


class Grammar(Cursor):
    def __init__(self, tokens: List[Token]) -> None:
        super().__init__(tokens)
        self.procedure_registers = self.most_service_registers = 0
        self.parameters = 0

    def whole(self) -> Script:
        while not self.sees("end"):
            self.declaration()
        return self.script

    def declaration(self) -> None:
        readers: Dict[str, Callable[[], Union[Lam, Body, None]]]
        readers = {"table": self.table, "cdlam": self.lam, "var": self.variables, "proc": self.procedure, "service": self.service}
        if self.token.kind not in readers:
            self.stop("S2")
        start = self.token.start
        self.script.starts[start] = readers[self.token.kind]()

    def declare(self) -> str:
        name = self.free()
        self.declared.add(name)
        self.at += 1
        return name

    def table(self) -> None:
        self.within(len(self.script.tables), "tables")
        self.take("table")
        name = self.declare()
        self.take("=")
        words = [self.number(WORD)]
        while self.sees("number"):
            if self.token.value <= WORD:
                self.within(len(words), "words")
            words.append(self.number(WORD))
        self.script.tables[name] = words

    def lam(self) -> Lam:
        self.within(len(self.script.lams), "lams")
        line = self.take("cdlam").line
        name = self.declare()
        self.branch()
        lam = self.script.lams[name] = Lam(line, self.number(), self.number(), self.number(SUB_ADDRESSES))
        return lam

    def variable(self) -> str:
        """Takes the name of a variable or parameter."""
        self.free()
        self.within(len(self.script.variables) + self.parameters, "variables")
        return self.declare()

    def variables(self) -> None:
        self.take("var")
        if not self.sees("name"):
            self.stop("S2")
        while self.sees("name"):
            self.script.variables.append(self.variable())

    def heading(self) -> List[int]:
        """`within C cycles event W words`."""
        numbers = []
        for before, after in (("within", "cycles"), ("event", "words")):
            self.take(before)
            numbers.append(self.number())
            self.take(after)
        return numbers

    def procedure(self) -> Body:
        self.within(len(self.script.procedures), "procedures")
        line = self.take("proc").line
        name = self.declare()
        outside = set(self.declared)
        self.take("(")
        parameters = [] if self.sees(")") else [self.parameter(0)]
        while parameters and self.sees(","):
            self.take(",")
            parameters.append(self.parameter(len(parameters)))
        self.take(")")
        cycles, words = self.heading()
        self.take("steps")
        steps = self.number()
        seen, self.seen = self.seen, {it.name for it in parameters}
        self.is_procedure, self.deepest = True, 0
        block = self.body_block()
        self.procedure_registers += len(self.registers)
        self.is_procedure, self.seen, self.declared = False, seen, outside
        self.depths[name] = self.deepest
        body = Body(line, name, False, parameters, cycles, words, steps, block)
        self.script.procedures[name] = body
        self.script.bodies.append(body)
        return body

    def parameter(self, before: int) -> Keep:
        self.free()
        self.within(before, "parameters")
        name = self.variable()
        self.parameters += 1
        return self.range(name)

    def service(self) -> Body:
        self.within(len(self.script.services()), "services")
        line = self.take("service").line
        name = self.known(self.script.lams)
        cycles, words = self.heading()
        self.seen = set(self.script.variables)
        block = self.body_block()
        self.most_service_registers = max(self.most_service_registers, len(self.registers))
        body = Body(line, name, True, [], cycles, words, 0, block)
        self.script.bodies.append(body)
        return body

    def body_block(self) -> List[Statement]:
        self.registers = set()
        return self.block()

    def block(self) -> List[Statement]:
        self.open("{")
        statements: List[Statement] = []
        while not self.sees("}"):
            statements.append(self.statement())
        self.close("}")
        return statements

    def statement(self) -> Statement:
        kind = self.token.kind
        if kind not in READERS or (kind == "lock" and self.is_procedure):
            self.stop("S2")
        if kind == "name":
            self.known(self.seen)
            self.at -= 1
        self.within(self.statements, "statements")
        self.statements += 1
        line, start = self.token.line, self.token.start
        if kind != "name":
            self.at += 1
        statement = self.script.starts[start] = READERS[kind](self, line, kind)
        return statement

    def read_assign(self, line: int, _kind: str) -> Statement:
        name = self.known(self.seen)
        self.take("=")
        return Assign(line, name, self.expression())

    def read_register(self, line: int, _kind: str) -> Statement:
        name = self.free()
        if name not in self.registers:
            others = self.most_service_registers if self.is_procedure else 0
            self.within(self.procedure_registers + len(self.registers) + others, "registers")
            self.registers.add(name)
        self.at += 1
        self.branch()
        return SetRegister(line, name, (self.expression(), self.expression(), self.expression()))

    def function_and_register(self) -> Tuple[int, str]:
        return self.number(FUNCTIONS), self.known(self.registers)

    def read_cycle(self, line: int, kind: str) -> Statement:
        cycle = Cycle(line, kind == "cssa", *self.function_and_register())
        if self.sees("->"):
            self.take("->")
            cycle.into = self.known(self.seen)
        elif self.sees("<-"):
            self.take("<-")
            cycle.value = self.expression()
        return cycle

    def most(self, word: str = "max") -> Expression:
        self.take(word)
        return self.expression()

    def tally(self) -> str:
        self.take("tally")
        return self.known(self.seen)

    def read_scan(self, line: int, _kind: str) -> Statement:
        function, first = self.function_and_register()
        last = self.known(self.registers)
        return Scan(line, function, first, last, self.most(), self.tally())

    def read_transfer(self, line: int, kind: str) -> Statement:
        function, register = self.function_and_register()
        table: Optional[str] = None
        if self.sees("table"):
            self.take("table")
            table = self.known(self.script.tables)
        most = self.most()
        limit = self.most("limit") if kind == "cfubr" else None
        return Block(line, function, register, table, most, limit, self.tally())

    def read_put(self, line: int, _kind: str) -> Statement:
        return Put(line, self.expression())

    def switch(self) -> str:
        if self.token.kind not in ("on", "off"):
            self.stop("S2")
        return self.take(self.token.kind).kind

    def read_crate_call(self, line: int, kind: str) -> Statement:
        crate = self.expression()
        return CrateCall(line, f"{kind} {self.switch()}" if kind in SWITCHED_CRATE_CALLS else kind, crate)

    def read_lam_call(self, line: int, kind: str) -> Statement:
        lam = self.known(self.script.lams)
        return LamCall(line, f"{kind} {self.switch()}" if kind == "cclm" else kind, lam)

    def read_if(self, line: int, _kind: str) -> Statement:
        condition, body = self.condition(), self.block()
        if not self.sees("else"):
            return If(line, condition, body, None)
        self.take("else")
        return If(line, condition, body, self.block())

    def read_for(self, line: int, _kind: str) -> Statement:
        name = self.known(self.seen)
        self.take("=")
        ahead = self.tokens[self.at : self.at + 4]
        if [it.kind for it in ahead] == ["number", "to", "number", "name"] and ahead[3].text == EACH:
            self.at += 4
            return ForEach(line, name, ahead[0].value, ahead[2].value, self.block())
        first = self.expression()
        last = self.most("to")
        return For(line, name, first, last, self.keeps(name), self.block())

    def read_while(self, line: int, _kind: str) -> Statement:
        condition = self.condition()
        self.take("turns")
        turns = self.number()
        self.take("by")
        measure = self.known(self.seen)
        return While(line, condition, turns, measure, self.keeps(measure), self.block())

    def read_lock(self, line: int, _kind: str) -> Statement:
        return Lock(line, self.expression(), self.block())

    def read_call(self, line: int, _kind: str) -> Statement:
        """A call. Its depth is that of its procedure over what is open; too many arguments show after the last one wanted."""
        name = self.known(self.script.procedures)
        if self.depth + self.depths[name] > LIMITS["depth"]:
            self.at -= 1
            self.stop("S6")
        self.deepest = max(self.deepest, self.depth + self.depths[name])
        self.open("(")
        arguments = []
        for wanted in range(len(self.script.procedures[name].parameters)):
            if wanted:
                self.take(",")
            arguments.append(self.expression())
        self.close(")")
        return Call(line, name, arguments)


READERS: Dict[str, Callable[[Grammar, int, str], Statement]] = {
    "name": Grammar.read_assign, "cdreg": Grammar.read_register, "cfsa": Grammar.read_cycle, "cssa": Grammar.read_cycle,
    "cfmad": Grammar.read_scan, "cfubc": Grammar.read_transfer, "cfubr": Grammar.read_transfer, "put": Grammar.read_put,
    "if": Grammar.read_if, "for": Grammar.read_for, "while": Grammar.read_while, "lock": Grammar.read_lock, "call": Grammar.read_call,
    **{it: Grammar.read_crate_call for it in PLAIN_CRATE_CALLS + SWITCHED_CRATE_CALLS},
    **{it: Grammar.read_lam_call for it in LAM_CALLS},
}
