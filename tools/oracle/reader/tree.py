"""The tree of a script. Names are in it as they are written, and brackets are not."""
from __future__ import annotations

from dataclasses import dataclass, field
from typing import Dict, List, Optional, Tuple, Union


@dataclass
class Operation:
    """An operator `+`, `-`, `*`, `/` or `%` over two expressions."""

    sign: str
    left: "Expression"
    right: "Expression"


# A number, a variable by its name, or an operation.
Expression = Union[int, str, Operation]


@dataclass
class Part:
    """A part of a condition: a flag (`left` is None) or a comparison."""

    is_negated: bool
    sign: str
    left: Optional[Expression] = None
    right: Optional[Expression] = None


Condition = List[Part]


@dataclass
class Keep:
    name: str
    first: int
    last: int


@dataclass
class Statement:
    """The line is that of the first token."""

    line: int


@dataclass
class Assign(Statement):
    name: str
    value: Expression


@dataclass
class SetRegister(Statement):
    register: str
    address: Tuple[Expression, Expression, Expression]


@dataclass
class Cycle(Statement):
    """`cfsa`, or `cssa` if it is short."""

    is_short: bool
    function: int
    register: str
    into: Optional[str] = None
    value: Optional[Expression] = None


@dataclass
class Scan(Statement):
    function: int
    first: str
    last: str
    most: Expression
    tally: str


@dataclass
class Block(Statement):
    """`cfubc`, or `cfubr` if it has a limit."""

    function: int
    register: str
    table: Optional[str]
    most: Expression
    limit: Optional[Expression]
    tally: str


@dataclass
class Put(Statement):
    value: Expression


@dataclass
class CrateCall(Statement):
    """A call of a crate's controller; `call` has its ` on` or ` off`."""

    call: str
    crate: Expression


@dataclass
class LamCall(Statement):
    """A call of a LAM; `call` has its ` on` or ` off`."""

    call: str
    lam: str


@dataclass
class If(Statement):
    condition: Condition
    body: List[Statement]
    otherwise: Optional[List[Statement]]


@dataclass
class For(Statement):
    name: str
    first: Expression
    last: Expression
    keeps: List[Keep]
    body: List[Statement]


@dataclass
class ForEach(Statement):
    """A `for` with the word `each`."""

    name: str
    first: int
    last: int
    body: List[Statement]


@dataclass
class While(Statement):
    condition: Condition
    turns: int
    measure: str
    keeps: List[Keep]
    body: List[Statement]


@dataclass
class Lock(Statement):
    crate: Expression
    body: List[Statement]


@dataclass
class Call(Statement):
    procedure: str
    arguments: List[Expression]


@dataclass
class Lam:
    line: int
    crate: int
    station: int
    sub: int


@dataclass
class Body:
    """A procedure (with parameters and steps) or a service (of the LAM that it is named by)."""

    line: int
    name: str
    is_service: bool
    parameters: List[Keep]
    cycles: int
    words: int
    steps: int
    block: List[Statement]


@dataclass
class Script:
    tables: Dict[str, List[int]] = field(default_factory=dict)
    lams: Dict[str, Lam] = field(default_factory=dict)
    variables: List[str] = field(default_factory=list)
    procedures: Dict[str, Body] = field(default_factory=dict)
    # Procedures and services in text order.
    bodies: List[Body] = field(default_factory=list)
    # What begins at a byte of the text: a statement, a `cdlam` or a heading, and None for another declaration.
    starts: Dict[int, Union[Statement, Lam, Body, None]] = field(default_factory=dict)

    def services(self) -> List[Body]:
        return [it for it in self.bodies if it.is_service]
