"""The names that a script itself gives to the words of its events: which register a word was read from, where its place is fixed.

A service is gone through statement by statement, loops with known ends turn by turn, calls with their arguments. Behind a transfer, places
are known in events alone that have the greatest number of words, since then each transfer moved all that it could."""
import itertools
import re
from collections import Counter
from typing import Dict, List, Mapping, NamedTuple, Optional, Sequence, Tuple, Union

from camac.drive import File
from camac.events import GREATEST_COUNT
from camac.functions import reads
from camac.reader import read_script
from camac.texts import script_text
from camac.values import Plan, Service
from camac.tree import (
    OPERATIONS, Assign, Body, Cycle, Expression, For, If, Lock, Loop, Name, Number, Plain, Script, SetRegister, Statement, Transfer, all_in,
)
from camac.words import SPECTRUM, VALUE, WHOLE, Field, Words

COMMENT = re.compile("#[^\n]*")
# The most characters of an expression in a name.
GREATEST_TEXT = 40
SHORT_BITS = 16
SUB_ADDRESSES = 16
# The most statements that are gone through for a service.
PATIENCE = 200_000


class Origin(NamedTuple):
    """The register that a word was read from, and how many of its bits."""

    crate: int
    station: int
    sub_address: int
    bits: int


# What is known of a variable or an expression: its number, or where it was read; None if nothing is.
Known = Union[int, Origin, None]
Address = Tuple[Known, Known, Known]


class Put(NamedTuple):
    """A word of an event: where it was read, the line that puts it, the text of its expression, and whether a transfer came before it, or
    is what puts it."""

    origin: Optional[Origin]
    line: int
    text: str
    is_behind: bool


class _Lost(Exception):
    """From here on no place of a word is known."""


class _State:
    """What is known of variables and registers."""

    def __init__(self, variables: Dict[str, Known], registers: Dict[str, Address]) -> None:
        self.variables, self.registers = variables, registers

    def copy(self) -> "_State":
        return _State(dict(self.variables), dict(self.registers))

    def forget(self, statements: Sequence[Statement]) -> None:
        """Forgets what these statements may change."""
        for statement in all_in(statements):
            if statement.writes is not None:
                self.variables[statement.writes] = None
            if isinstance(statement, SetRegister):
                self.registers.pop(statement.register, None)


class _Walk:
    """Goes through a service and gathers the words that it puts."""

    def __init__(self, script: Script, text: bytes, plan: Plan) -> None:
        self.procedures: Mapping[str, Body] = {it.name: it for it in script.bodies if not it.is_service}
        self.text, self.plan = text, plan
        self.puts: List[Put] = []
        self.is_behind, self.work = False, 0

    def block(self, statements: Sequence[Statement], state: _State) -> None:
        self.work += 1 + len(statements)
        if self.work > PATIENCE:
            raise _Lost
        for it in statements:
            self.statement(it, state)

    def statement(self, statement: Statement, state: _State) -> None:
        if isinstance(statement, Assign):
            state.variables[statement.name] = _known(statement.value, state)
        elif isinstance(statement, SetRegister):
            crate, station, sub_address = (_known(one, state) for one in statement.address)
            state.registers[statement.register] = crate, station, sub_address
        elif isinstance(statement, Cycle) and statement.into is not None:
            bits = SHORT_BITS if statement.is_short else 24
            state.variables[statement.into] = self.origin(statement.function, state.registers.get(statement.registers[0]), bits)
        elif isinstance(statement, Transfer):
            self.transfer(statement, state)
        elif isinstance(statement, Plain) and statement.word == "put":
            self.put(statement, state)
        elif isinstance(statement, Plain) and statement.word == "call":
            self.call(statement, state)
        elif isinstance(statement, If):
            self.choice(statement, state)
        elif isinstance(statement, Lock):
            self.block(statement.body, state)
        elif isinstance(statement, Loop):
            self.loop(statement, state)

    def origin(self, function: int, address: Optional[Address], most_bits: int = 24) -> Optional[Origin]:
        crate, station, sub_address = address or (None, None, None)
        if not (isinstance(crate, int) and isinstance(station, int) and isinstance(sub_address, int)):
            return None
        return Origin(crate, station, sub_address, min(most_bits, self.plan.width(crate, station, sub_address, function)))

    def put(self, statement: Plain, state: _State) -> None:
        value = statement.values[0]
        known = _known(value, state)
        text = self.text[value.start : value.end].decode("utf-8", "replace")
        self.puts.append(Put(known if isinstance(known, Origin) else None, statement.line, text, self.is_behind))

    def call(self, statement: Plain, state: _State) -> None:
        body = self.procedures[statement.name]
        parameters = dict(zip(body.variables, (_known(value, state) for value in statement.values)))
        self.block(body.statements, _State(parameters, {}))

    def choice(self, statement: If, state: _State) -> None:
        """Either arm is gone. Both have to put as many words; their columns stay unknown."""
        counts = [self.counted(block, state) for block in (statement.body, statement.other)]
        if counts[0] != counts[1]:
            raise _Lost
        self.puts += [Put(None, statement.line, "", self.is_behind)] * counts[0]
        state.forget([statement])

    def counted(self, block: Sequence[Statement], state: _State) -> int:
        """How many words a block puts."""
        begin, was_behind, self.is_behind = len(self.puts), self.is_behind, False
        self.block(block, state.copy())
        count = len(self.puts) - begin
        if self.is_behind:
            raise _Lost
        self.is_behind = was_behind
        del self.puts[begin:]
        return count

    def loop(self, statement: Loop, state: _State) -> None:
        first, last = (_known(statement.first, state), _known(statement.last, state)) if isinstance(statement, For) else (None, None)
        if isinstance(statement, For) and isinstance(first, int) and isinstance(last, int):
            for number in range(first, last + 1):
                state.variables[statement.name] = number
                self.block(statement.body, state)
            return
        state.forget([statement])
        if self.counted(statement.body, state):
            raise _Lost

    def transfer(self, statement: Transfer, state: _State) -> None:
        """A transfer that reads puts words: all that it can, in events that have the greatest number of words."""
        state.variables[statement.tally] = None
        if not reads(statement.function):
            return
        self.is_behind = True
        most, first = _known(statement.most, state), state.registers.get(statement.registers[0])
        limit = _known(statement.limit, state) if statement.limit is not None else most
        if not isinstance(most, int) or not isinstance(limit, int) or min(most, limit) > GREATEST_COUNT:
            raise _Lost
        origins: List[Optional[Origin]] = [self.origin(statement.function, first)] * min(most, limit)
        if len(statement.registers) == 2:
            origins = self.scan(statement, first, state.registers.get(statement.registers[1]), most)
        self.puts += [Put(origin, statement.line, "", True) for origin in origins]

    def scan(self, statement: Transfer, first: Optional[Address], last: Optional[Address], most: int) -> List[Optional[Origin]]:
        """The words of an address scan that moved all that it could. In several stations they are known where each register gave a word."""
        begin, end = self.origin(statement.function, first), self.origin(statement.function, last)
        if begin is None or end is None or begin.crate != end.crate:
            raise _Lost
        found: List[Optional[Origin]] = []
        for station in range(begin.station, end.station + 1):
            low = begin.sub_address if station == begin.station else 0
            high = end.sub_address if station == end.station else SUB_ADDRESSES - 1
            for at in range(low, high + 1):
                declaration = self.plan.declaration(begin.crate, station, at, statement.function)
                # A scan gets no word from a probe, which answers Q = 0.
                if declaration and not declaration.is_probe:
                    found.append(self.origin(statement.function, (begin.crate, station, at)))
        return found[:most] if len(found) <= most or begin.station == end.station else [None] * most

    def fields(self, gl: int) -> List[Field]:
        """What is known of the words of a service that was gone through. Neighbours of one origin, as a block of words has them, are one
        field; other fields of one name have their place behind it."""
        fields = []
        place = 1
        for put, alike in itertools.groupby(self.puts):
            end = place + len(list(alike)) - 1
            name, bits = self.name(put), (0, put.origin.bits - 1) if put.origin else WHOLE
            if name:
                kind = VALUE if put.origin and bits == WHOLE else SPECTRUM
                count = len(self.puts) if put.is_behind else None
                fields.append(Field(name, gl, "", bits, (place, end), count, line=put.line, kind=kind, is_expression=put.origin is None))
            place = end + 1
        counts = Counter(it.name for it in fields)
        return [it if counts[it.name] == 1 else it._replace(name=f"{it.name}, place {it.places[0]}") for it in fields]

    def name(self, put: Put) -> str:
        if put.origin is None:
            text = " ".join(COMMENT.sub(" ", put.text).split())
            return f"line {put.line}: {text if len(text) <= GREATEST_TEXT else text[:GREATEST_TEXT] + '…'}" if text else ""
        there = self.plan.type_at(put.origin.crate, put.origin.station)
        return f"{there.name if there else 'module'} crate {put.origin.crate} station {put.origin.station} A{put.origin.sub_address}"


def words_of_script(plan: Plan, script: File, services: Sequence[Service]) -> Words:
    """The columns of an accepted script, of which `services` are what `camac.check` gives. A column is a word whose place is fixed. It has the
    name of its module and its address, or the line and the text of the expression that is put.

    Raises ProgramFault if the script cannot be read."""
    text, found = script_text(script), []
    parsed = read_script(text)
    bits = {it.name: it.gl for it in services}
    for body in parsed.bodies:
        if body.name in bits and body.is_service:
            walk = _Walk(parsed, text, plan)
            try:
                walk.block(body.statements, _State({name: 0 for name in body.variables}, {}))
            except _Lost:
                # How many words an event has at most is not known.
                walk.puts = [it for it in walk.puts if not it.is_behind]
            found += walk.fields(bits[body.name])
    return Words(found)


def _known(expression: Expression, state: _State) -> Known:
    if isinstance(expression, Number):
        return expression.value
    if isinstance(expression, Name):
        return state.variables.get(expression.name)
    left, right = _known(expression.left, state), _known(expression.right, state)
    return OPERATIONS[expression.sign](left, right) if isinstance(left, int) and isinstance(right, int) else None
