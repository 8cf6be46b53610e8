"""Plans: whole ones, ones with a fault in a key or value, and ones with changed bytes."""
from __future__ import annotations

import copy
from random import Random
from typing import Any, Callable, Dict, List

from oracle.maker.changes import change

Table = Dict[str, Any]
# Each number's least and greatest value.
RANGES = {"buffer": (1, 4096), "f": (0, 31), "a": (0, 15), "to": (0, 15), "width": (1, 24), "number": (1, 7), "waits": (0, 15), "n": (1, 23), "gl": (1, 24)}
WRONG_KINDS = (1.5, True, False, "x", "1", 0, 3, [], [1], [[]], {}, {"f": 0}, [{}], ["a"])
NAMES = ("ADC", "REG", "SCALER", "T-DC", "q_1", "a", "-", "_", "Z" * 31, "z" * 32)
WRONG_NAMES = ("", "a b", "a.b", "Z" * 33, "\u00e4", "a\n", "\u0661")
OPEN = "[{ a.b.c = " * 9
OTHER_KEYS = ("colour", "F", "name", "f", "type", "gl", "crate", "buffer", "")


def commands_of(random: Random) -> List[Table]:
    """The commands of a type, none of them twice."""
    free = {(f, a) for f in range(32) for a in range(16)}
    commands: List[Table] = []
    for _ in range(random.randrange(1, 9)):
        f = random.choice((0, 0, 0, 1, 2, 5, 16, 16, 17, 23, 8, 9, 10, 15, 24, 25, 26, 27, 31, random.randrange(32)))
        a = random.choice((0, 0, 0, 1, 11, 12, 15, random.randrange(16)))
        to = random.choice((a, a, min(15, a + 3), 11, 15))
        places = {(f, it) for it in range(a, to + 1)}
        if not places or not places <= free:
            continue
        free -= places
        command: Table = {"f": f, "a": a}
        if to > a or random.random() < 0.1:
            command["to"] = to
        if random.random() < 0.25:
            command["probe"] = random.random() < 0.8
        if not command.get("probe") and random.random() < 0.7:
            command["width"] = random.choice((1, 4, 8, 12, 15, 16, 17, 23, 24))
        if not command.get("probe") and random.random() < 0.2:
            command["clears"] = random.random() < 0.8
        commands.append(command)
    return commands


def stations_of(random: Random, types: List[Table], bits: List[int]) -> List[Table]:
    """The stations of a crate. Neighbours are often of one type."""
    first = random.randrange(1, 20)
    places = range(first, min(24, first + 6)) if random.random() < 0.7 else range(1, 24)
    stations: List[Table] = []
    names = [random.choice(types)["name"] for _ in range(random.choice((1, 2, 4)))]
    for n in random.sample(places, random.randrange(1, min(6, len(places)) + 1)):
        stations.append({"n": n, "type": random.choice(names)})
        if random.random() < 0.8:
            stations[-1]["gl"] = bits.pop()
    return stations


def tables_of(random: Random) -> Table:
    """The tables of a plan with no fault. Now and then crates have the same modules."""
    types = [{"name": name, "commands": commands_of(random)} for name in random.sample(NAMES, random.randrange(1, 5))]
    bits = random.sample(range(1, 25), 24)
    crates: List[Table] = []
    first = random.randrange(1, 6)
    are_alike = random.random() < 0.4
    numbers = range(first, first + random.choice((2, 3))) if are_alike else random.sample(range(1, 8), random.choice((1, 1, 2, 3)))
    for number in numbers:
        crate: Table = {"number": number, "station": stations_of(random, types, bits)}
        if crates and are_alike:
            crate["station"] = [{"n": it["n"], "type": it["type"]} for it in crates[0]["station"]]
        if random.random() < 0.8:
            crate["waits"] = random.choice((0, 1, 2, 2, 3, 7, 15))
        crates.append(crate)
    if are_alike:
        random.shuffle(crates)
    plan: Table = {"type": types, "crate": crates}
    if random.random() < 0.4:
        plan["buffer"] = random.choice((1, 2, 5, 20, 64, 4095, 4096))
    return plan


def all_tables(table: Table) -> List[Table]:
    """A table with all that are in it."""
    found = [table]
    for value in table.values():
        for it in value if isinstance(value, list) else [value]:
            if isinstance(it, dict):
                found += all_tables(it)
    return found


def unknown_key(random: Random, _plan: Table, table: Table) -> None:
    table[random.choice(OTHER_KEYS)] = copy.deepcopy(random.choice(WRONG_KINDS))


def lacking_key(random: Random, _plan: Table, table: Table) -> None:
    table.pop(random.choice(list(table) or [""]), None)


def wrong_kind(random: Random, _plan: Table, table: Table) -> None:
    table[random.choice(list(table) or ["buffer"])] = copy.deepcopy(random.choice(WRONG_KINDS))


def edge_number(random: Random, _plan: Table, table: Table) -> None:
    """A number at the edge of its range, or past it."""
    key = random.choice([it for it in [*table, *table, *RANGES] if it in RANGES])
    least, most = RANGES[key]
    table[key] = random.choice((least, most, least - 1, least - 1, most + 1, most + 1, -1, 2**31, 2**32 + least, 2**63 - 1, 2**63, -(2**63) - 1))


def other_name(random: Random, plan: Table, _table: Table) -> None:
    """The name of a type, or that of a station's type."""
    named = [(it, key) for it in all_tables(plan) for key in ("name", "type") if isinstance(it.get(key), str)]
    if named:
        table, key = random.choice(named)
        table[key] = random.choice((*WRONG_NAMES, *NAMES, table[key].swapcase()))


def value_twice(random: Random, plan: Table, _table: Table) -> None:
    """A number, name or bit of one table in another that has this key too."""
    key = random.choice(("number", "number", "n", "gl", "gl", "gl", "name", "f", "a"))
    tables = [it for it in all_tables(plan) if key in it]
    if len(tables) > 1:
        one, other = random.sample(tables, 2)
        one[key] = other[key]


def table_twice(random: Random, plan: Table, _table: Table) -> None:
    lists = [it[key] for it in all_tables(plan) for key in ("type", "crate", "station", "commands") if isinstance(it.get(key), list) and it[key]]
    if lists:
        tables = random.choice(lists)
        tables.insert(random.randrange(len(tables) + 1), copy.deepcopy(random.choice(tables)))


def nested_value(random: Random, _plan: Table, table: Table) -> None:
    """A value that is as deep as it may be, or deeper, in arrays, tables and dotted keys."""
    value: Any = random.choice((1, 1.5, OPEN, [[OPEN], {"x.y": 1}]))
    for _ in range(random.choice((2, 5, 8, 11, 12, 13, 14, 15, 16, 17, 30, 90))):
        value = [value] if random.random() < 0.6 else {random.choice(("x", "x.y", "x.y.z")): value}
    table[random.choice((*OTHER_KEYS, *table, "x.y", "x . y"))] = value


BREAKS: List[Callable[[Random, Table, Table], None]] = [
    unknown_key, lacking_key, wrong_kind, edge_number, edge_number, edge_number, other_name, value_twice, value_twice, value_twice, table_twice,
    nested_value, nested_value,
]


def break_plan(random: Random, plan: Table) -> None:
    """Puts a fault into a plan: a key that is unknown, missing, or has a wrong value; or something twice."""
    random.choice(BREAKS)(random, plan, random.choice(all_tables(plan)))


def inline(value: Any) -> str:
    """A value on one line."""
    if isinstance(value, bool):
        return str(value).lower()
    if isinstance(value, str):
        return '"' + value.replace("\n", "\\n") + '"'
    if isinstance(value, list):
        return f"[ {', '.join(inline(it) for it in value)} ]" if value else "[]"
    if isinstance(value, dict):
        return "{ " + ", ".join(f"{key or 'x'} = {inline(it)}" for key, it in value.items()) + " }" if value else "{}"
    return str(value)


class Writer:
    """Writes tables as a text: arrays of tables under headings or on one line, keys in any order, comments."""

    def __init__(self, random: Random) -> None:
        self.random = random
        self.lines: List[str] = []

    def is_under_headings(self, value: Any) -> bool:
        return isinstance(value, list) and bool(value) and all(isinstance(it, dict) for it in value) and self.random.random() < 0.8

    def table(self, table: Table, path: str) -> None:
        keys = list(table)
        if self.random.random() < 0.3:
            self.random.shuffle(keys)
        below = [key for key in keys if key in ("type", "crate", "station") and self.is_under_headings(table[key])]
        for key in keys:
            if key not in below:
                comment = self.random.choice(("", "", "", "", " # [[type]]", "   #"))
                self.lines.append(f"{key or 'x'} = {inline(table[key])}{comment}")
        for key in below:
            for it in table[key]:
                self.lines.append(f"[[{path}{key}]]")
                self.table(it, f"{path}{key}.")
        if self.random.random() < 0.1:
            self.lines.append("")


def text_of(random: Random, plan: Table) -> bytes:
    writer = Writer(random)
    writer.table(plan, "")
    return ("\n".join(writer.lines) + random.choice(("\n", "\n", ""))).encode("utf-8", "surrogatepass")


def make_plan(random: Random) -> bytes:
    return text_of(random, tables_of(random))


def make_many_types(random: Random) -> bytes:
    """64 types, or one more, of which one may be broken too."""
    count = random.choice((63, 64, 65, 66))
    types: List[Table] = [{"name": f"t{it}", "commands": []} for it in range(count)]
    if random.random() < 0.5:
        random.choice(types)["colour"] = 1
    return text_of(random, {"type": types})


def make_faulty_plan(random: Random) -> bytes:
    """A plan that is whole, has a fault or two, or changed bytes."""
    if random.random() < 0.02:
        return make_many_types(random)
    plan = tables_of(random)
    for _ in range(random.choice((0, 1, 1, 1, 1, 2))):
        break_plan(random, plan)
    text = text_of(random, plan)
    return change(random, text) if random.random() < 0.25 else text
