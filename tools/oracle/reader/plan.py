"""A plan, as the tables of its TOML text spell it; and the links of a script to it: LAMs to stations and services to graded-L bits."""
from __future__ import annotations

import pathlib
import re
from typing import Any, Dict, Iterator, List, NamedTuple, Optional, Set, Tuple

from oracle.reader.refusals import Refused
from oracle.reader.toml_text import read_toml
from oracle.reader.tree import Script

NAME_BYTES = frozenset("ABCDEFGHIJKLMNOPQRSTUVWXYZabcdefghijklmnopqrstuvwxyz0123456789_-")
LONGEST_NAME = 32
TYPES = 64
WIDEST = 24
# Controller commands by station, sub-address and function, and what each does.
CONTROLLER = {
    (28, 8, 26): "initialise", (28, 9, 26): "clear", (30, 0, 0): "read GL",
    (30, 9, 24): "remove I", (30, 9, 26): "set I", (30, 9, 27): "test I",
    (30, 10, 24): "disable demand", (30, 10, 26): "enable demand", (30, 10, 27): "test demand", (30, 11, 27): "test GL",
}
CONTROLLER_STATIONS = (28, 30)
DEEPEST = 16
SAMPLE = (pathlib.Path(__file__).resolve().parents[3] / "examples/sample_plan.toml").read_bytes()
PIECES = re.compile(
    rb'(?s)"""(?:\\.|(?!""")[^\\])*"*|\'\'\'(?:(?!\'\'\').)*\'*'  # strings of several lines
    rb'|"(?:\\.|[^"\\\n])*"?|\'[^\'\n]*\'?|#[^\n]*'  # strings of one line, comments
    rb"|([][{}.,=\n])"
)


def kind_of(function: int) -> str:
    """Whether a function reads, writes, or moves no data."""
    return "read" if function <= 7 else "write" if 16 <= function <= 23 else "control"


class Module(NamedTuple):
    """A type: widths by (function, sub-address), how many of these are probes, and which ones clear the look-at-me."""

    name: str
    widths: Dict[Tuple[int, int], int]
    probes: int
    clears: Set[Tuple[int, int]]


class Station(NamedTuple):
    module: Module
    gl: Optional[int]


class Crate(NamedTuple):
    waits: int
    stations: Dict[int, Station]


class Plan:
    def __init__(self, buffer: int) -> None:
        self.buffer = buffer
        self.modules: Dict[str, Module] = {}
        self.crates: Dict[int, Crate] = {}

    def waits(self, crate: int) -> int:
        """Of a crate that is not in the plan 0."""
        return self.crates[crate].waits if crate in self.crates else 0

    def station(self, crate: int, station: int) -> Optional[Station]:
        return self.crates[crate].stations.get(station) if crate in self.crates else None

    def width(self, crate: int, station: int, sub: int, function: int) -> Optional[int]:
        """The width of an allowed command, None of any other."""
        if crate in self.crates and (station, sub, function) in CONTROLLER:
            return WIDEST
        there = self.station(crate, station)
        return there.module.widths.get((function, sub)) if there else None

    def bits(self, crate: int) -> int:
        """The graded-L bits of a crate's stations."""
        return sum(1 << it.gl - 1 for it in self.crates[crate].stations.values() if it.gl)

    def listing(self) -> List[str]:
        lines = [f"buffer {self.buffer}"]
        lines += [f"type {it.name} commands {len(it.widths)} probes {it.probes}" for it in self.modules.values()]
        for number, crate in sorted(self.crates.items()):
            lines.append(f"crate {number} waits {crate.waits}")
            lines += [f"station {n} {it.module.name} gl {it.gl or '-'}" for n, it in sorted(crate.stations.items())]
        return lines


class Table:
    """A table of the text: what each call asks for is one of its keys, in the order of docs/PLANS.md."""

    def __init__(self, values: Dict[str, Any], keys: str) -> None:
        self.values = values
        if set(values) - set(keys.split()):
            raise Refused("P2")

    def value(self, key: str, kind: type) -> Any:
        value = self.values.get(key)
        if type(value) is not kind:
            raise Refused("P3")
        return value

    def number(self, key: str, least: int, most: int, missing: Optional[int] = None) -> Optional[int]:
        """A whole number, or `missing` if the key is not there. If `missing` is None, the key must be there."""
        if key not in self.values and missing is not None:
            return missing
        number = self.value(key, int)
        if not least <= number <= most:
            raise Refused("P4")
        return number

    def tables(self, key: str, is_needed: bool = False) -> List[Dict[str, Any]]:
        if key not in self.values and not is_needed:
            return []
        tables = self.value(key, list)
        if any(type(it) is not dict for it in tables):
            raise Refused("P3")
        return tables


def judge_nesting(text: bytes) -> None:
    """P11 if more than 16 are in each other: brackets, dots of keys and the keys of the heading, strings and comments aside."""
    heading, dots, part = 0, 0, "key"
    # each bracket with the dots of the key that it is at
    brackets: List[Tuple[str, int]] = []
    for piece in PIECES.finditer(text):
        sign = (piece[1] or b"").decode()
        if sign == "[" and part != "value":
            heading, dots, part, brackets = 1, 0, "heading", []
        elif sign and sign in "[{":
            brackets.append((sign, dots))
            dots, part = 0, "value" if sign == "[" else "key"
        elif sign == ".":
            heading += part == "heading"
            dots += part == "key"
        elif sign == "=":
            part = "value"
        elif sign and sign in "]}" and part != "heading":
            dots, part = brackets.pop()[1] if brackets else 0, "value"
        elif sign == ",":
            dots, part = 0, "value" if brackets and brackets[-1][0] == "[" else "key"
        elif sign == "\n":
            dots, part = 0, part if brackets else "key"
        if heading + dots + sum(1 + it for _, it in brackets) > DEEPEST:
            raise Refused("P11")


def read_plan(text: bytes) -> Plan:
    """The plan of a text, or the first fault of the walk (`Refused`). `LeftOut` if this reader does not judge it."""
    judge_nesting(text)
    top = Table(read_toml(text), "buffer type crate")
    plan = Plan(top.number("buffer", 1, 4096, 4096))
    types, crates = top.tables("type"), top.tables("crate")
    for values in types:
        if len(plan.modules) == TYPES:
            raise Refused("P4")
        module = read_module(Table(values, "name commands"), plan)
        plan.modules[module.name] = module
    bits: List[int] = []
    for values in crates:
        read_crate(Table(values, "number waits station"), plan, bits)
    return plan


def read_module(table: Table, plan: Plan) -> Module:
    name = table.value("name", str)
    if not 1 <= len(name) <= LONGEST_NAME or set(name) - NAME_BYTES:
        raise Refused("P4")
    commands = table.tables("commands", True)
    if name in plan.modules:
        raise Refused("P8")
    widths: Dict[Tuple[int, int], int] = {}
    probes, clearing = 0, set()
    for values in commands:
        command = Table(values, "f a to probe width clears")
        function, first = command.number("f", 0, 31), command.number("a", 0, 15)
        last = command.number("to", first, 15, first)
        is_probe = "probe" in command.values and command.value("probe", bool)
        width = command.number("width", WIDEST if is_probe else 1, WIDEST, WIDEST)
        clears = "clears" in command.values and command.value("clears", bool)
        if clears and is_probe:
            raise Refused("P4")
        for sub in range(first, last + 1):
            if (function, sub) in widths:
                raise Refused("P8")
            widths[function, sub] = width
            probes += is_probe
            if clears:
                clearing.add((function, sub))
    return Module(name, widths, probes, clearing)


def read_crate(table: Table, plan: Plan, bits: List[int]) -> None:
    number, waits = table.number("number", 1, 7), table.number("waits", 0, 15, 0)
    stations = table.tables("station")
    if number in plan.crates:
        raise Refused("P5")
    crate = plan.crates[number] = Crate(waits, {})
    for values in stations:
        station = Table(values, "n type gl")
        n, name = station.number("n", 1, 23), station.value("type", str)
        gl = station.number("gl", 1, 24) if "gl" in values else None
        if n in crate.stations:
            raise Refused("P6")
        if name not in plan.modules:
            raise Refused("P7")
        if gl in bits and gl is not None:
            raise Refused("P9")
        bits.append(gl or 0)
        crate.stations[n] = Station(plan.modules[name], gl)


def sample_plan() -> Plan:
    """The plan that the word `@sample` stands for."""
    return read_plan(SAMPLE)


def link_faults(script: Script, plan: Plan, is_judging_events: bool = True) -> Iterator[Refused]:
    """L1 of each LAM, then the first of L2, L3 and L4 of each service. L4 by a heading can be left to who looks at no heading."""
    for lam in script.lams.values():
        if not plan.station(lam.crate, lam.station):
            yield Refused("L1", lam.line, lam)
    served: List[Tuple[int, int]] = []
    for service in script.services():
        lam = script.lams[service.name]
        if gl_of(script, plan, service.name) is None:
            yield Refused("L2", service.line, service)
        elif (lam.crate, lam.station) in served:
            yield Refused("L3", service.line, service)
        elif is_judging_events and service.words > plan.buffer:
            yield Refused("L4", service.line, service)
        served.append((lam.crate, lam.station))


def gl_of(script: Script, plan: Plan, name: str) -> Optional[int]:
    """The graded-L bit of the service of this LAM, or None."""
    lam = script.lams[name]
    station = plan.station(lam.crate, lam.station)
    return station.gl if station else None
