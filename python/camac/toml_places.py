"""Where the keys and values of a plan are in its text. The text may have faults: what is before the first one is found."""
import contextlib
import functools
import re
from typing import Any, Callable, Dict, Iterator, List, NamedTuple, Optional, Tuple, Union

from camac.explanations import Step, read_place
from camac.values import Declaration, Plan

TOKEN = re.compile(
    r"(?P<skip>#[^\n]*|[ \t\r]+)|(?P<line>\n)|\"\"\"(?P<long>.*?)\"\"\"|\"(?P<text>(?:[^\"\\\n]|\\.)*)\"|'(?P<plain>[^'\n]*)'"
    r"|(?P<word>[A-Za-z0-9_+-]+)|(?P<sign>.)",
    re.S,
)


class Place(NamedTuple):
    """A part of a text, in signs."""

    start: int
    end: int


class Value:
    """A value and its place, with that of its key: a number, a text or a truth value, a list of values, or a table of values by their keys."""

    def __init__(self, value: Any, place: Place) -> None:
        self.value, self.place, self.key = value, place, place

    def at(self, key: str) -> Any:
        """What a table has at a key; None if it has nothing there."""
        return self.value[key].value if key in self.value else None

    def tables(self, key: str) -> "List[Value]":
        """The tables of an array of a table."""
        found = self.at(key)
        return [it for it in found if isinstance(it.value, dict)] if isinstance(found, list) else []


class _End(Exception):
    """The text has a fault here, or ends."""


class _Token(NamedTuple):
    kind: str
    text: str
    place: Place


class _Reader:
    """Tokens of a text, of which those before `at` are read."""

    def __init__(self, text: str) -> None:
        self.tokens = [
            _Token(it.lastgroup or "", it[it.lastgroup or 0], Place(it.start(), it.end())) for it in TOKEN.finditer(text) if it.lastgroup != "skip"
        ]
        self.at = 0
        self.root = Value({}, Place(0, len(text)))
        self.table = self.root

    def next(self) -> _Token:
        if self.at >= len(self.tokens):
            raise _End
        self.at += 1
        return self.tokens[self.at - 1]

    def takes(self, sign: str) -> bool:
        """Takes a sign if it comes next."""
        is_there = self.at < len(self.tokens) and self.tokens[self.at][:2] == ("sign", sign)
        self.at += is_there
        return is_there

    def pass_lines(self) -> None:
        while self.at < len(self.tokens) and self.tokens[self.at].kind == "line":
            self.at += 1

    def read(self) -> None:
        self.pass_lines()
        while self.at < len(self.tokens):
            if self.takes("["):
                self.header(self.takes("["))
            else:
                self.pair(self.table)
            self.pass_lines()

    def key(self, table: Value) -> Tuple[Value, _Token]:
        """Reads a key: the table that its first parts lead to, and its last part."""
        parts = [self.next()]
        while self.takes("."):
            parts.append(self.next())
        return functools.reduce(_below, parts[:-1], table), parts[-1]

    def header(self, is_array: bool) -> None:
        table, last = self.key(self.root)
        if is_array:
            array = table.value.setdefault(last.text, Value([], last.place))
            if not isinstance(array.value, list):
                raise _End
            self.table = Value({}, last.place)
            array.value.append(self.table)
        else:
            self.table = _below(table, last)
        while self.takes("]"):
            pass

    def pair(self, table: Value) -> None:
        table, last = self.key(table)
        if not self.takes("="):
            raise _End
        found = table.value[last.text] = self.value()
        found.key = last.place

    def value(self) -> Value:
        it = self.next()
        if it[:2] == ("sign", "["):
            values: List[Value] = []
            return Value(values, self.items(it.place.start, "]", lambda: values.append(self.value())))
        if it[:2] == ("sign", "{"):
            table = Value({}, it.place)
            table.place = self.items(it.place.start, "}", lambda: self.pair(table))
            return table
        return Value(_scalar(it.text) if it.kind == "word" else it.text, it.place)

    def items(self, start: int, sign: str, read: Callable[[], None]) -> Place:
        """Reads what is in brackets, up to the sign that ends it; returns the place of all of it."""
        self.pass_lines()
        while not self.takes(sign):
            read()
            self.pass_lines()
            self.takes(",")
            self.pass_lines()
        return Place(start, self.tokens[self.at - 1].place.end)


def _scalar(word: str) -> Union[int, bool, str]:
    if word in ("true", "false"):
        return word == "true"
    try:
        return int(word, 0)
    except ValueError:
        return word


def _below(table: Value, it: _Token) -> Value:
    """The table below another one, the last one of an array; made if it is not there."""
    found: Value = table.value.setdefault(it.text, Value({}, it.place))
    if isinstance(found.value, list) and found.value:
        found = found.value[-1]
    if not isinstance(found.value, dict):
        raise _End
    return found


def read_places(text: str) -> Value:
    reader = _Reader(text)
    with contextlib.suppress(_End):
        reader.read()
    return reader.root


# By array its key, and the key that its tables are known by.
ARRAYS = {"type": ("type", "name"), "command": ("commands", "f"), "crate": ("crate", "number"), "station": ("station", "n")}


def place_of(text: str, sentence: str) -> Place:
    """The place that a fault of a plan names: "crate 1, station 5, gl: the value is 25", or "Line 8, column 8: ..". The first line if it is
    not found."""
    said = read_place(sentence)
    if isinstance(said, tuple):
        starts = [0, *(it.end() for it in re.finditer("\n", text))]
        start = min(len(text), starts[min(said[0], len(starts)) - 1] + said[1] - 1)
        return Place(start, min(len(text), start + 1))
    found, place = read_places(text), Place(0, text.find("\n") if "\n" in text else len(text))
    for step in said:
        below = _stepped(found, step) if step and isinstance(found.value, dict) else None
        if below is None:
            break
        found, place = below, Place(below.key.start, below.place.end)
    return place


def _stepped(table: Value, step: Step) -> Optional[Value]:
    """The value of a step below a table."""
    if not step.array:
        return table.value.get(step.name)  # type: ignore[no-any-return]
    array, key = ARRAYS.get(step.array, ("", ""))
    fitting = table.tables(array)
    if step.place:
        fitting = fitting[step.place - 1 : step.place]
    else:
        # The second of two that are known by the same is the one that is refused.
        fitting = [it for it in fitting if key in it.value and str(it.at(key)) == step.name]
    return fitting[-1] if fitting else None


def declarations(text: str) -> Iterator[Tuple[str, Declaration]]:
    """The commands of a plan that the checker accepts, each with its type."""
    for it in read_places(text).tables("type"):
        for one in it.tables("commands"):
            last = one.at("a") if one.at("to") is None else one.at("to")
            is_probe, clears = (one.at(key) is True for key in ("probe", "clears"))
            yield it.at("name"), Declaration(one.at("f"), one.at("a"), last, one.at("width"), is_probe, clears)


def with_commands(plan: Plan, text: str) -> Plan:
    """A plan as the checker reads it, with the commands of its types as they are in its text."""
    found: Dict[str, List[Declaration]] = {it: [] for it in plan.types}
    for name, it in declarations(text):
        found.setdefault(name, []).append(it)
    return plan._replace(types={name: it._replace(declarations=tuple(found[name])) for name, it in plan.types.items()})
