"""The token in hand, the names in sight, the limits, and expressions and conditions: the common parts of the grammar's rules."""
from __future__ import annotations

from typing import Container, Dict, List, Set

from oracle.reader.refusals import Refused
from oracle.reader.tokens import Token
from oracle.reader.tree import Condition, Expression, Keep, Operation, Part, Script

COMPARISONS = ("<", "<=", ">", ">=", "==", "!=")
LIMITS = {
    "variables": 64, "registers": 64, "lams": 64, "tables": 16, "words": 1024, "services": 24, "procedures": 16, "parameters": 8,
    "statements": 4096, "depth": 16, "operators": 32, "parts": 16,
}


class Cursor:
    """Reads tokens from left to right, of which the last one is the end. The first fault is a `Refused` at the token in hand."""

    def __init__(self, tokens: List[Token]) -> None:
        self.tokens = tokens
        self.at = 0
        self.script = Script()
        # The names for S4: tables, LAMs, variables, procedures, and the parameters of the procedure in hand.
        self.declared: Set[str] = set()
        self.seen: Set[str] = set()
        self.registers: Set[str] = set()
        self.depths: Dict[str, int] = {}
        self.depth = self.deepest = self.operators = self.statements = 0
        self.is_procedure = False

    @property
    def token(self) -> Token:
        return self.tokens[self.at]

    def stop(self, code: str) -> None:
        raise Refused(code, self.token.line, self.token.start)

    def sees(self, kind: str) -> bool:
        return self.token.kind == kind

    def take(self, kind: str) -> Token:
        """Takes a token of this kind, S2 for another."""
        token = self.token
        if token.kind != kind:
            self.stop("S2")
        self.at += 1
        return token

    def number(self, most: int = -1) -> int:
        """Takes a number, S3 above `most`."""
        if self.sees("number") and 0 <= most < self.token.value:
            self.stop("S3")
        return self.take("number").value

    def branch(self) -> None:
        """Takes the number of the branch, which is 1."""
        if self.sees("number") and self.token.value != 1:
            self.stop("S7")
        self.take("number")

    def known(self, names: Container[str]) -> str:
        """Takes a name that is among these, S5 for another name."""
        if self.sees("name") and self.token.text not in names:
            self.stop("S5")
        return self.take("name").text

    def free(self) -> str:
        """The name in hand, which is not declared: it is not yet taken, since it may pass a limit."""
        if not self.sees("name"):
            self.stop("S2")
        if self.token.text in self.declared:
            self.stop("S4")
        return self.token.text

    def within(self, count: int, limit: str) -> None:
        """S6 at the token in hand if it is the one too many of `count` before it."""
        if count >= LIMITS[limit]:
            self.stop("S6")

    def open(self, bracket: str) -> None:
        if self.sees(bracket):
            self.within(self.depth, "depth")
        self.take(bracket)
        self.depth += 1
        self.deepest = max(self.deepest, self.depth)

    def close(self, bracket: str) -> None:
        self.take(bracket)
        self.depth -= 1

    def expression(self) -> Expression:
        """A whole expression, whose operators are counted."""
        outer, self.operators = self.operators, 0
        value = self.sum()
        self.operators = outer
        return value

    def operator(self) -> str:
        self.within(self.operators, "operators")
        self.operators += 1
        return self.take(self.token.kind).kind

    def sum(self) -> Expression:
        value = self.term()
        while self.token.kind in ("+", "-"):
            sign = self.operator()
            value = Operation(sign, value, self.term())
        return value

    def term(self) -> Expression:
        value = self.factor()
        while self.token.kind in ("*", "/", "%"):
            sign = self.operator()
            if sign != "*" and self.sees("number") and self.token.value == 0:
                self.stop("S2")
            value = Operation(sign, value, self.factor() if sign == "*" else self.number())
        return value

    def factor(self) -> Expression:
        if self.sees("("):
            self.open("(")
            value = self.sum()
            self.close(")")
            return value
        if self.sees("name"):
            return self.known(self.seen)
        return self.number()

    def condition(self) -> Condition:
        parts: List[Part] = [self.part()]
        while self.sees("and"):
            self.take("and")
            if len(parts) >= LIMITS["parts"]:
                self.begin_of_part()
            parts.append(self.part())
        return parts

    def begin_of_part(self) -> None:
        """The first token of a part too many: a lower code comes first."""
        if self.token.kind not in ("not", "q", "x", "number", "name", "("):
            self.stop("S2")
        if self.sees("name"):
            self.known(self.seen)
            self.at -= 1
        self.stop("S6")

    def part(self) -> Part:
        is_negated = self.sees("not")
        if is_negated:
            self.take("not")
        if self.token.kind in ("q", "x"):
            return Part(is_negated, self.take(self.token.kind).kind)
        left = self.expression()
        if self.token.kind not in COMPARISONS:
            self.stop("S2")
        sign = self.take(self.token.kind).kind
        return Part(is_negated, sign, left, self.expression())

    def range(self, name: str) -> Keep:
        """`in A..B` after a name."""
        self.take("in")
        first = self.number()
        self.take("..")
        return Keep(name, first, self.number())

    def keeps(self, own: str) -> List[Keep]:
        """The list after `keep`, if there is one. `own` is the loop's variable or measure, which it may not hold."""
        kept: List[Keep] = []
        while self.sees("," if kept else "keep"):
            self.take(self.token.kind)
            if self.sees("name") and self.token.text in [own, *(it.name for it in kept)]:
                self.stop("S4")
            kept.append(self.range(self.known(self.seen)))
        return kept
