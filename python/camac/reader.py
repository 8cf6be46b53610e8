"""Reads a script that is no refused text into a tree."""
from typing import Callable, Dict, List, Tuple, TypeVar

from camac.kinds import LAM, PROCEDURE, TABLE, VARIABLE
from camac.language import BODIES, CRATE_CALLS, DECLARATIONS, EACH, LAM_CALLS, SINGLE, TRANSFERS
from camac.tokens import cut
from camac.tree import (
    FLAGS, Assign, Body, Cycle, Expression, For, If, Keep, Lock, Loop, Name, Number, Operation, Part, Plain, Range, Script, SetRegister, Statement,
    Transfer, While,
)

OPPOSITE = {"<": ">=", ">=": "<", "<=": ">", ">": "<=", "==": "!=", "!=": "=="}
# How close a sign binds its sides.
BINDS = {"+": 1, "-": 1, "*": 2, "/": 2, "%": 2}
Begun = TypeVar("Begun", bound=Statement)
# Makes a named tuple of a tuple in half the time of its own call.
new = tuple.__new__


def read_script(text: bytes) -> Script:
    return _Reader(text).script()


def read_headings(text: bytes) -> List[Body]:
    """The services and procedures of a script without their statements."""
    reader = _Reader(text)
    return [reader.heading(at) for at, word in enumerate(reader.words) if word in BODIES]


class _Reader:
    """The tokens of a script, of which those before `at` are read, with an empty one at their end; and of the statement that is read where it begins, its
    expressions and the names in them."""

    def __init__(self, text: bytes) -> None:
        self.words, self.starts, self.lines = cut(text)
        self.words.append("")
        self.at = self.first = 0
        self.variables: Dict[str, Range] = {}
        self.expressions: List[Expression] = []
        self.names: List[str] = []
        self.every: List[Statement] = []

    def next(self) -> str:
        self.at += 1
        return self.words[self.at - 1]

    def takes(self, word: str) -> bool:
        """Takes the next token if it is this one."""
        is_there = self.words[self.at] == word
        self.at += is_there
        return is_there

    def expect(self, word: str) -> None:
        if self.words[self.at] != word:
            raise ValueError(f"line {self.lines[self.at]}: `{self.words[self.at]}` in the place of `{word}`")
        self.at += 1

    def end(self) -> int:
        """Where the last token ends that was taken."""
        return self.starts[self.at - 1] + len(self.words[self.at - 1])

    def script(self) -> Script:
        script = Script(self.words)
        kind = {"cdlam": LAM, "table": TABLE, "proc": PROCEDURE}
        while self.words[self.at]:
            word = self.words[self.at]
            if word in kind:
                script.declared.append((self.words[self.at + 1], self.lines[self.at + 1], kind[word]))
            if word in BODIES:
                script.bodies.append(self.body())
                continue
            self.at += 1
            # The next declaration begins with a word of the language.
            while word == "var" and self.words[self.at] not in ("", "table") and self.words[self.at] not in DECLARATIONS:
                script.declared.append((self.words[self.at], self.lines[self.at], VARIABLE))
                self.variables[self.next()] = (0, 0)
        return script

    def heading(self, at: int) -> Body:
        is_service, self.at = self.words[at] == "service", at + 2
        variables = dict(self.variables) if is_service else self.parameters()
        body = Body(self.words[at + 1], is_service, self.lines[at], self.starts[at], variables)
        while self.words[self.at] != "{":
            word = self.next()
            if word.isdigit():
                body.numbers.append(Number(int(word), self.starts[self.at - 1], self.end()))
        return body

    def body(self) -> Body:
        body = self.heading(self.at)
        self.every = body.every
        self.block(body.statements)
        body.end = self.end()
        return body

    def parameters(self) -> Dict[str, Range]:
        found = {}
        self.expect("(")
        while not self.takes(")"):
            name = self.next()
            found[name] = self.range()
            self.takes(",")
        return found

    def range(self) -> Range:
        self.expect("in")
        low = int(self.next())
        self.expect("..")
        return low, int(self.next())

    def block(self, into: List[Statement]) -> None:
        self.expect("{")
        while self.words[self.at] != "}":
            into.append(self.statement())
        self.at += 1

    def statement(self) -> Statement:
        self.first = self.at
        word = self.next()
        made = READ.get(word, _Reader.assign)(self, word)
        made.end = self.end()
        return made

    def begun(self, it: Begun) -> Begun:
        """A statement of which all is read but its blocks."""
        it.line, it.start = self.lines[self.first], self.starts[self.first]
        it.expressions, it.names, self.expressions, self.names = self.expressions, self.names, [], []
        self.every.append(it)
        return it

    def assign(self, word: str) -> Statement:
        self.expect("=")
        return self.begun(Assign(word, self.expression()))

    def set_register(self, _: str) -> Statement:
        register = self.next()
        self.at += 1
        return self.begun(SetRegister(register, (self.expression(), self.expression(), self.expression())))

    def cycle(self, word: str) -> Statement:
        function, registers = int(self.next()), (self.next(),)
        into = self.next() if self.takes("->") else None
        value = self.expression() if self.takes("<-") else None
        return self.begun(Cycle(word == "cssa", function, registers, into, value))

    def transfer(self, word: str) -> Statement:
        function = int(self.next())
        registers = (self.next(), self.next()) if word == "cfmad" else (self.next(),)
        if self.takes("table"):
            self.next()
        self.expect("max")
        most = self.expression()
        limit = self.expression() if self.takes("limit") else None
        self.expect("tally")
        return self.begun(Transfer(function, registers, most, limit, self.next()))

    def plain(self, word: str) -> Statement:
        made = Plain(word, self.next()) if word in LAM_CALLS else Plain(word, "", (self.expression(),))
        if not self.takes("on"):
            self.takes("off")
        return self.begun(made)

    def call(self, word: str) -> Statement:
        name, values = self.next(), []
        self.expect("(")
        while not self.takes(")"):
            values.append(self.expression())
            self.takes(",")
        return self.begun(Plain(word, name, tuple(values)))

    def choice(self, _: str) -> Statement:
        made = self.begun(If(self.condition()))
        self.block(made.body)
        made.has_else = self.takes("else")
        if made.has_else:
            self.block(made.other)
        return made

    def lock(self, _: str) -> Statement:
        self.expression()
        made = self.begun(Lock())
        self.block(made.body)
        return made

    def loop(self, word: str) -> Statement:
        made = self.begun(self.for_() if word == "for" else self.while_())
        if self.takes("keep"):
            made.keep = self.starts[self.at - 1]
        while self.words[self.at] != "{":
            made.keeps.append(self.keep())
            self.takes(",")
        made.block, inside = self.starts[self.at], len(self.every)
        self.block(made.body)
        made.written = frozenset([it.writes for it in self.every[inside:] if it.writes]) - {made.name}
        return made

    def for_(self) -> Loop:
        name = self.next()
        self.expect("=")
        first_at, first = self.at, self.expression()
        self.expect("to")
        last_at, last = self.at, self.expression()
        is_plain = self.words[first_at].isdigit() and self.words[last_at].isdigit()
        turns = max(0, last.value + 1 - first.value) if is_plain and isinstance(first, Number) and isinstance(last, Number) else None
        return For(name, first, last, turns, self.takes(EACH))

    def while_(self) -> Loop:
        parts = self.condition()
        self.expect("turns")
        turns = int(self.next())
        self.expect("by")
        return While(self.next(), parts, turns)

    def keep(self) -> Keep:
        at, name, kept = self.at, self.next(), self.range()
        low, high = ((self.starts[it], self.starts[it] + len(self.words[it])) for it in (at + 2, at + 4))
        return Keep(name, kept, low, high, self.starts[at], high[1])

    def condition(self) -> Tuple[Part, ...]:
        parts = [self.part()]
        while self.takes("and"):
            parts.append(self.part())
        return tuple(parts)

    def part(self) -> Part:
        begin = self.starts[self.at]
        is_negated = self.takes("not")
        if self.takes("q") or self.takes("x"):
            self.names += () if FLAGS in self.names else (FLAGS,)
            return Part(None, "", begin, self.end())
        left, sign, right = self.expression(), self.next(), self.expression()
        return Part((left, right), OPPOSITE[sign] if is_negated else sign, begin, self.end())

    def expression(self, bound: int = -1) -> Expression:
        """An expression whose signs bind closer than so; without a bound one of the statement, that is no part of another one."""
        at, words = self.at, self.words
        word, start, self.at = words[at], self.starts[at], at + 1
        found: Expression
        if word == "(":
            found = self.expression(0)
            self.expect(")")
            found = found._replace(start=start, end=self.end())
        elif word.isdigit():
            found = new(Number, (int(word), start, start + len(word)))
        else:
            self.names.append(word)
            found = new(Name, (word, start, start + len(word)))
        while BINDS.get(words[self.at], -1) > bound:
            sign = self.next()
            right = self.expression(BINDS[sign])
            found = new(Operation, (sign, found, right, found.start, self.end()))
        if bound < 0:
            self.expressions.append(found)
        return found


# What reads a statement, by its first word.
READ: Dict[str, Callable[[_Reader, str], Statement]] = {
    "cdreg": _Reader.set_register, "put": _Reader.plain, "call": _Reader.call, "if": _Reader.choice, "lock": _Reader.lock, "for": _Reader.loop,
    "while": _Reader.loop, **dict.fromkeys(SINGLE, _Reader.cycle), **dict.fromkeys(TRANSFERS, _Reader.transfer),
    **dict.fromkeys(CRATE_CALLS | LAM_CALLS, _Reader.plain),
}
