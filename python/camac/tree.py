"""A script as a tree: its expressions and statements, and where they are in the text.

Statements compare by identity, so that each can be a key. (No dataclasses: they would take a call of camac-check 20 ms.)"""
import operator
from typing import TYPE_CHECKING, Callable, Dict, FrozenSet, Iterator, List, NamedTuple, Optional, Sequence, Tuple, Union

from camac.kinds import Kind
from camac.values import Range as Range

OPERATIONS: Dict[str, Callable[[int, int], int]] = {"+": operator.add, "-": operator.sub, "*": operator.mul, "/": operator.floordiv, "%": operator.mod}
# The flags q and x, which each cycle sets, are one name. No variable has it.
FLAGS = "q"


class Number(NamedTuple):
    value: int
    start: int
    end: int


class Name(NamedTuple):
    """A variable or a parameter. Where it is in brackets, they belong to its place, as to that of an operation."""

    name: str
    start: int
    end: int


if not TYPE_CHECKING:
    Expression = object


class Operation(NamedTuple):
    sign: str
    left: Expression
    right: Expression
    start: int
    end: int


Expression = Union[Number, Name, Operation]


class Part(NamedTuple):
    """A part of a condition: two sides with a sign, which is turned round where `not` is before it; or `q` or `x`, without sides."""

    sides: Optional[Tuple[Expression, Expression]]
    sign: str
    start: int
    end: int


class Keep(NamedTuple):
    """What a loop keeps: the variable, its range, and the places of the two numbers and of all of it."""

    name: str
    range: Range
    low: Range
    high: Range
    start: int
    end: int


class Statement:
    """A statement: the line and the place of its first token, where its last one ends, its expressions, without those of its blocks, the names in them and
    in its conditions, the variable that it writes itself, and its blocks."""

    line: int
    start: int
    end: int
    expressions: List[Expression]
    names: List[str]
    writes: Optional[str] = None
    blocks: "Sequence[List[Statement]]" = ()


class Assign(Statement):
    def __init__(self, name: str, value: Expression) -> None:
        self.name, self.value, self.writes = name, value, name


class SetRegister(Statement):
    """`cdreg`: crate, station and sub-address."""

    def __init__(self, register: str, address: Tuple[Expression, ...]) -> None:
        self.register, self.address = register, address


class Cycle(Statement):
    """`cfsa` and `cssa`, which has short words, with one register: what is read into a variable, or the value that is written."""

    def __init__(self, is_short: bool, function: int, registers: Tuple[str, ...], into: Optional[str], value: Optional[Expression]) -> None:
        self.is_short, self.function, self.registers, self.into, self.value, self.writes = is_short, function, registers, into, value, into


class Transfer(Statement):
    """`cfmad`, which has two registers, `cfubc`, and `cfubr`, which has a limit."""

    def __init__(self, function: int, registers: Tuple[str, ...], most: Expression, limit: Optional[Expression], tally: str) -> None:
        self.function, self.registers, self.most, self.limit, self.tally, self.writes = function, registers, most, limit, tally, tally


class Plain(Statement):
    """A statement that changes nothing that is known: `put`, the calls of a crate, of a LAM, and of a procedure. `name` is that of the LAM or the
    procedure."""

    def __init__(self, word: str, name: str = "", values: Tuple[Expression, ...] = ()) -> None:
        self.word, self.name, self.values = word, name, values


class If(Statement):
    """An `if`: `other` is the block of its `else`, which may be there without a statement."""

    def __init__(self, parts: Tuple[Part, ...]) -> None:
        self.parts, self.has_else = parts, False
        self.body: List[Statement] = []
        self.other: List[Statement] = []
        self.blocks = (self.body, self.other)


class Lock(Statement):
    def __init__(self) -> None:
        self.body: List[Statement] = []
        self.blocks = (self.body,)


class Loop(Statement):
    """A loop: its own variable (that of a `for`, the measure of a `while`), where the word `keep` is and what is kept, where its block begins,
    and the other variables that its block writes."""

    def __init__(self, name: str) -> None:
        self.name = name
        self.keep = self.block = 0
        self.keeps: List[Keep] = []
        self.body: List[Statement] = []
        self.blocks = (self.body,)
        self.written: FrozenSet[str] = frozenset()


class For(Loop):
    """A `for`, and its turns if both ends are single numbers. With `each` they are, and it keeps nothing."""

    def __init__(self, name: str, first: Expression, last: Expression, turns: Optional[int], is_each: bool) -> None:
        super().__init__(name)
        self.first, self.last, self.turns, self.is_each, self.writes = first, last, turns, is_each, name


class While(Loop):
    def __init__(self, name: str, parts: Tuple[Part, ...], turns: int) -> None:
        super().__init__(name)
        self.parts, self.turns = parts, turns


class Body:
    """A service or procedure: its name, the place of its heading, where it ends, the numbers of its heading, its statements, with those in their blocks
    in `every`, and the ranges that its variables have at its start."""

    def __init__(self, name: str, is_service: bool, line: int, start: int, variables: Dict[str, Range]) -> None:
        self.name, self.is_service, self.line, self.start, self.variables = name, is_service, line, start, variables
        self.end = 0
        self.numbers: List[Number] = []
        self.statements: List[Statement] = []
        self.every: List[Statement] = []


class Script:
    """The services and procedures in the order of the text, its tokens, and what declares a name of all of it: the name, its line, and what it stands for."""

    def __init__(self, words: List[str]) -> None:
        self.words = words
        self.bodies: List[Body] = []
        self.declared: List[Tuple[str, int, Kind]] = []


def all_in(statements: Sequence[Statement]) -> Iterator[Statement]:
    """All statements of a block, at any depth, in the order of the text."""
    for it in statements:
        yield it
        for block in it.blocks:
            yield from all_in(block)


def parts_of(it: Expression) -> Iterator[Expression]:
    """An expression and all that it is made of, what is evaluated first before the rest."""
    if isinstance(it, Operation):
        yield from parts_of(it.left)
        yield from parts_of(it.right)
    yield it


def names_in(it: Expression) -> List[str]:
    return [one.name for one in parts_of(it) if isinstance(one, Name)]
