"""What the checker knows at a place: ranges of variables, addresses of registers, locks; expressions and conditions over it; what the plan says of
addresses: E1, E2 and the widths; what statements cost."""
from __future__ import annotations

from typing import Dict, FrozenSet, Iterator, NamedTuple, Optional, Tuple

from oracle.reader.plan import CONTROLLER_STATIONS, Plan
from oracle.reader.refusals import MOST, Refused
from oracle.reader.tree import Condition, Expression, Part

Range = Tuple[int, int]
SUB_ADDRESSES = 15
OPPOSITE = {"<": ">=", ">=": "<", "<=": ">", ">": "<=", "==": "!=", "!=": "=="}
TURNED = {"<": ">", ">": "<", "<=": ">=", ">=": "<=", "==": "==", "!=": "!="}


class Address(NamedTuple):
    """The ranges of a register's crate, station and sub-address."""

    crate: Range
    station: Range
    sub: Range


class Known(NamedTuple):
    """What is known at a place that can be reached; a register that may be unset is not among `registers`."""

    variables: Dict[str, Range]
    registers: Dict[str, Address]
    locked: FrozenSet[int]

    def with_variable(self, name: str, range_: Range) -> "Known":
        return self._replace(variables={**self.variables, name: range_})


# None: the place cannot be reached.
State = Optional[Known]


def hull(a: Range, b: Range) -> Range:
    return min(a[0], b[0]), max(a[1], b[1])


def meet(a: Range, b: Range) -> Optional[Range]:
    """The numbers in both ranges, or None."""
    both = max(a[0], b[0]), min(a[1], b[1])
    return both if both[0] <= both[1] else None


def is_inside(inner: Range, outer: Range) -> bool:
    return outer[0] <= inner[0] and inner[1] <= outer[1]


def join(a: State, b: State) -> State:
    """What is known where two ways come together, or at one place in two turns."""
    if a is None or b is None:
        return b if a is None else a
    variables = {name: hull(range_, b.variables[name]) for name, range_ in a.variables.items()}
    registers = {
        name: Address(*(hull(x, y) for x, y in zip(address, b.registers[name])))
        for name, address in a.registers.items()
        if name in b.registers
    }
    return Known(variables, registers, a.locked & b.locked)


def value_of(known: Known, expression: Expression, line: int) -> Range:
    """The range of an expression. E4 if it may leave 0 to 4,294,967,295."""
    if isinstance(expression, int):
        return expression, expression
    if isinstance(expression, str):
        return known.variables[expression]
    low, high = value_of(known, expression.left, line)
    if expression.sign in ("/", "%"):
        divisor = expression.right
        if expression.sign == "/":
            return low // divisor, high // divisor
        return (low, high) if high < divisor else (0, divisor - 1)
    other_low, other_high = value_of(known, expression.right, line)
    made = {
        "+": (low + other_low, high + other_high),
        "-": (low - other_high, high - other_low),
        "*": (low * other_low, high * other_high),
    }[expression.sign]
    if made[0] < 0 or made[1] > MOST:
        raise Refused("E4", line)
    return made


def narrow(sign: str, range_: Range, other: Range) -> Optional[Range]:
    """What is left of a range whose number meets the comparison with some number of the other range."""
    if sign == "!=":
        low, high = range_
        if other[0] == other[1]:
            low, high = low + (other[0] == low), high - (other[0] == high)
        return (low, high) if low <= high else None
    bounds = {"<": (0, other[1] - 1), "<=": (0, other[1]), ">": (other[0] + 1, MOST), ">=": (other[0], MOST), "==": other}[sign]
    return meet(range_, bounds) if bounds[0] <= bounds[1] else None


def part_known(known: Known, part: Part, is_true: bool, line: int) -> State:
    """What is known where a part is true, or is false."""
    if part.left is None:
        return known
    sign = part.sign if is_true != part.is_negated else OPPOSITE[part.sign]
    left, right = value_of(known, part.left, line), value_of(known, part.right, line)
    new_left, new_right = narrow(sign, left, right), narrow(TURNED[sign], right, left)
    if new_left is None or new_right is None:
        return None
    for side, new in ((part.left, new_left), (part.right, new_right)):
        if isinstance(side, str):
            both = meet(new, known.variables[side]) if part.left == part.right else new
            if both is None:
                return None
            known = known.with_variable(side, both)
    return known


def test_values(known: State, condition: Condition, line: int) -> None:
    """E4 of each part where all earlier ones are true."""
    for part in condition:
        if known is None:
            return
        for side in (part.left, part.right):
            if side is not None:
                value_of(known, side, line)
        known = part_known(known, part, True, line)


def where(known: State, condition: Condition, is_true: bool, line: int) -> State:
    """What is known where a condition is true, or is false."""
    false: State = None
    for part in condition:
        if known is None:
            break
        false = join(false, part_known(known, part, False, line))
        known = part_known(known, part, True, line)
    return known if is_true else false


class Widths(NamedTuple):
    least: int
    greatest: int


def numbers(range_: Range) -> Iterator[int]:
    return iter(range(range_[0], range_[1] + 1))


def is_there(plan: Plan, crate: int, station: int) -> bool:
    return crate in plan.crates and (station in CONTROLLER_STATIONS or plan.station(crate, station) is not None)


def widths_of(plan: Plan, address: Address, function: int, line: int) -> Widths:
    """The widths of a function at all addresses that a register may hold, once E1 and E2 are tested."""
    for crate in numbers(address.crate):
        for station in numbers(address.station):
            if not is_there(plan, crate, station):
                raise Refused("E1", line)
    widths = []
    for crate in numbers(address.crate):
        for station in numbers(address.station):
            for sub in numbers(address.sub):
                width = plan.width(crate, station, sub, function)
                if width is None:
                    raise Refused("E2", line)
                widths.append(width)
    return Widths(min(widths), max(widths))


class Window(NamedTuple):
    """All addresses from the least first one to the greatest last one, in the order of station and sub-address."""

    crate: int
    first: Tuple[int, int]
    last: Tuple[int, int]

    def subs(self, station: int) -> range:
        """The sub-addresses of a station that are in the window."""
        first = self.first[1] if station == self.first[0] else 0
        last = min(SUB_ADDRESSES, self.last[1] if station == self.last[0] else SUB_ADDRESSES)
        return range(first, last + 1)

    def stations(self) -> Iterator[int]:
        return (it for it in numbers((self.first[0], self.last[0])) if len(self.subs(it)))

    def size(self) -> int:
        return sum(len(self.subs(it)) for it in self.stations())

    def test(self, plan: Plan, function: int, line: int) -> None:
        """E1 for each station, then E2 for each address."""
        for station in self.stations():
            if not is_there(plan, self.crate, station):
                raise Refused("E1", line)
        for station in self.stations():
            for sub in self.subs(station):
                if plan.width(self.crate, station, sub, function) is None:
                    raise Refused("E2", line)


class Cost(NamedTuple):
    cycles: int = 0
    words: int = 0
    steps: int = 0

    def plus(self, other: "Cost") -> "Cost":
        return Cost(*(a + b for a, b in zip(self, other)))

    def times(self, count: int) -> "Cost":
        return Cost(*(count * it for it in self))

    def greater(self, other: "Cost") -> "Cost":
        """The greater of each number."""
        return Cost(*(max(a, b) for a, b in zip(self, other)))


STEP = Cost(steps=1)


def one_cycle(plan: Plan, crates: Range, locked: FrozenSet[int]) -> int:
    """What a cycle may cost: 1 and the greatest waits of these crates, of which a locked one has none."""
    waits = [it.waits for number, it in plan.crates.items() if crates[0] <= number <= crates[1] and number not in locked]
    return 1 + max([0, *waits])
