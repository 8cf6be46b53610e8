"""Statements: most keep the rules over the plan in hand, some do not."""
from __future__ import annotations

from random import Random
from typing import Callable, Dict, List, Optional, Tuple

from oracle.maker.nodes import Node
from oracle.reader.plan import CONTROLLER, Plan, Station, kind_of

Spot = Tuple[int, int, int]
EDGES = (0, 1, 2, 3, 11, 12, 15, 16, 23, 24, 255, 256, 4095, 4096, 65_534, 65_535, 65_536, 16_777_215, 16_777_216, 4_294_967_295)
COMPARISONS = ("<", "<=", ">", ">=", "==", "!=")


def after(spot: Spot) -> Spot:
    """The address that a scan goes on to after Q = 1."""
    crate, station, sub = spot
    return (crate, station, sub + 1) if sub < 15 else (crate, station + 1, 0)


class Maker:
    """Makes statements of one body, with the names that it sees."""

    def __init__(self, random: Random, plan: Plan, lams: List[str], tables: Dict[str, List[int]]) -> None:
        self.random, self.plan, self.lams, self.tables = random, plan, lams, tables
        self.procedures: Dict[str, List[Tuple[int, int]]] = {}
        self.is_careless = False
        self.begin(["v"], False)

    def begin(self, variables: List[str], is_procedure: bool) -> None:
        self.variables, self.is_procedure = variables, is_procedure
        self.registers: Dict[str, Spot] = {}
        self.spots: Dict[str, Spot] = {}
        self.busy: List[str] = []
        self.locked: List[int] = []
        self.depth = 1
        self.left = self.random.choice((3, 6, 10, 16))

    def odds(self, chance: float) -> bool:
        """Whether something is done that has this chance; what breaks a rule has small ones, and a careless maker breaks many."""
        return self.random.random() < (5 * chance if self.is_careless and chance < 0.1 else chance)

    def variable(self) -> str:
        return self.random.choice(self.variables)

    def free_variable(self) -> str:
        """One that no loop around has, mostly."""
        free = [it for it in self.variables if it not in self.busy]
        return self.random.choice(free) if free and not self.odds(0.02) else self.variable()

    def number(self) -> int:
        return self.random.choice((self.random.choice(EDGES), self.random.randrange(20), self.random.randrange(4)))

    def expression(self, depth: int = 2) -> str:
        if depth == 0 or self.odds(0.4):
            return self.variable() if self.odds(0.6) else str(self.number())
        left = self.expression(depth - 1)
        sign = self.random.choice(("+", "+", "-", "*", "/", "%", "%"))
        right = str(max(1, self.number())) if sign in "/%" else self.expression(depth - 1)
        made = f"{left} {sign} {right}"
        return f"({made})" if depth < 2 or self.odds(0.2) else made

    def at_most(self, most: int) -> str:
        """An expression that is at most this number, mostly at its edge."""
        if most < 0 or self.odds(0.04):
            return self.expression()
        if self.odds(0.04):
            return str(most + 1)
        divisor = min(most + 1, EDGES[-1])
        ways = [str(most), str(self.random.randrange(most + 1)), f"{self.variable()} % {divisor}", f"({self.expression(1)}) % {divisor}"]
        return self.random.choice(ways)

    def part(self) -> str:
        negated = "not " if self.odds(0.2) else ""
        if self.odds(0.25):
            return negated + self.random.choice("qx")
        sides = [self.variable() if self.odds(0.6) else self.expression(1), self.variable() if self.odds(0.25) else str(self.number())]
        if self.odds(0.2):
            sides.reverse()
        return f"{negated}{sides[0]} {self.random.choice(COMPARISONS)} {sides[1]}"

    def condition(self) -> str:
        return " and ".join(self.part() for _ in range(self.random.choice((1, 1, 1, 2, 3))))

    def spot(self) -> Spot:
        """An address at which something is declared, mostly."""
        crate = self.random.choice(list(self.plan.crates) or [1])
        stations = self.plan.crates[crate].stations if crate in self.plan.crates else {}
        if self.odds(0.1) or not stations:
            station, sub, _ = self.random.choice(list(CONTROLLER))
            return crate, station, sub
        station = self.random.choice(list(stations))
        subs = [a for _, a in stations[station].module.widths] or [0]
        return crate, station, self.random.choice(subs)

    def functions_at(self, spot: Spot, kinds: str) -> List[int]:
        functions = [f for f in range(32) if self.plan.width(*spot, f) is not None]
        return [f for f in functions if kind_of(f) in kinds]

    def function(self, spot: Spot, kinds: str = "read write control") -> int:
        functions = self.functions_at(spot, kinds)
        return self.random.choice(functions) if functions and not self.odds(0.03) else self.random.randrange(32)

    def set_register(self, name: str, spot: Spot, is_plain: bool = False) -> Node:
        crate, station, sub = (str(it) for it in spot)
        if not is_plain and self.odds(0.35):
            subs = [a for a in range(16) if any(self.plan.width(spot[0], spot[1], a, f) is not None for f in range(32))]
            sub = self.random.choice((self.variable(), self.at_most(len(subs) - 1 if subs else 0), f"{spot[2]} + {self.variable()} % 2"))
        if not is_plain and self.odds(0.3):
            station = self.one_of(lambda n: self.plan.station(spot[0], n), spot[1])
        if not is_plain and self.odds(0.3):
            crate = self.one_of(lambda c: self.plan.station(c, spot[1]), spot[0])
        if not is_plain and self.odds(0.04):
            crate, station = self.random.choice(((self.variable(), station), (crate, self.expression(1))))
        self.registers[name] = self.spots[name] = spot
        return Node(f"cdreg {name} 1 {crate} {station} {sub}")

    def one_of(self, module_at: Callable[[int], Optional[Station]], number: int) -> str:
        """A number, or an expression for it and those after it that have the same module."""
        module, count = module_at(number), 1
        while module and (neighbour := module_at(number + count)) and neighbour.module is module.module:
            count += 1
        if count == 1 and not self.odds(0.04):
            return str(number)
        return f"{number} + {self.variable()} % {count + self.odds(0.04)}"

    def register(self) -> Tuple[str, List[Node]]:
        """A register, and the statement before it that sets it, if none is set yet. Now and then one that may be unset."""
        if self.spots and self.odds(0.04):
            name = self.random.choice(list(self.spots))
            self.registers[name] = self.spots[name]
            return name, []
        if self.registers and self.odds(0.6):
            return self.random.choice(list(self.registers)), []
        name = self.random.choice(("r", "z", "w", "Reg_1"))
        return name, [self.set_register(name, self.spot())]

    def statements(self) -> List[Node]:
        """A statement, with those before it that it needs."""
        self.left -= 1
        ways: List[Tuple[int, Callable[[], List[Node]]]] = [
            (14, self.cycle), (8, self.assign), (7, self.put), (5, self.transfer), (5, self.scan), (5, self.crate_call), (3, self.lam_call),
        ]
        if self.depth < 4 and self.left > 0:
            ways += [(6, self.choice), (5, self.for_), (5, self.while_), (3, self.kept), (3, self.summed), (2, self.watch), (0 if self.is_procedure else 4, self.lock)]
        if self.procedures:
            ways.append((6, self.call))
        return self.random.choices([it for _, it in ways], [weight for weight, _ in ways])[0]()

    def block(self, count: Optional[int] = None) -> List[Node]:
        self.depth += 1
        made: List[Node] = []
        for _ in range(self.random.choice((0, 1, 1, 2, 3)) if count is None else count):
            if self.left > 0:
                made += self.statements()
        self.depth -= 1
        return made

    def assign(self) -> List[Node]:
        return [Node(f"{self.free_variable()} = {self.expression() if self.odds(0.6) else self.at_most(self.number())}")]

    def put(self) -> List[Node]:
        value = self.variable() if self.odds(0.5) else self.at_most(self.random.choice((4095, 16_777_215)))
        return [Node(f"put {value}")]

    def cycle(self) -> List[Node]:
        name, before = self.register()
        spot = self.registers[name]
        function, word = self.function(spot), self.random.choice(("cfsa", "cfsa", "cssa"))
        kind = self.random.choice(("read", "write", "control")) if self.odds(0.02) else kind_of(function)
        if kind == "read":
            return [*before, Node(f"{word} {function} {name} -> {self.free_variable()}")]
        if kind == "control":
            return [*before, Node(f"{word} {function} {name}")]
        widest = 2 ** (self.plan.width(*spot, function) or 24) - 1
        value = self.at_most(min(widest, 65_535) if word == "cssa" else widest)
        if word == "cssa" and widest > 65_535 and self.odds(0.3):
            value = self.random.choice(("65535", "65536"))
        written = Node(f"{word} {function} {name} <- {value}")
        if self.odds(0.2):
            variable = self.variable()
            written.head = f"{word} {function} {name} <- {variable}"
            return [*before, Node(f"if {variable} {self.random.choice(('<', '<='))} {widest + self.odds(0.6)}", [written])]
        return [*before, written]

    def transfer(self) -> List[Node]:
        """`cfubc` or `cfubr`, which mostly stays within its table."""
        name, before = self.register()
        reads = self.functions_at(self.registers[name], "read")
        writes = self.functions_at(self.registers[name], "write")
        table = self.random.choice(list(self.tables)) if self.tables and (writes or self.odds(0.1)) and (not reads or self.odds(0.6)) else None
        if self.odds(0.03):
            table = None if table else (list(self.tables) or [None])[0]
        function = self.function(self.registers[name], "write" if table else "read")
        most = self.at_most(len(self.tables[table]) if table else self.random.choice((0, 1, 2, 3, 12)))
        text = f"{'' if not table else ' table ' + table} max {most}"
        if self.odds(0.5):
            return [*before, Node(f"cfubc {function} {name}{text} tally {self.free_variable()}")]
        return [*before, Node(f"cfubr {function} {name}{text} limit {self.at_most(self.number() % 9)} tally {self.free_variable()}")]

    def scan(self) -> List[Node]:
        """`cfmad`, mostly over addresses that declare its function."""
        first = self.spot()
        reads = self.functions_at(first, "read")
        function = self.random.choice(reads) if reads else self.random.randrange(32)
        last = self.random.choice((first, self.spot(), (*first[:2], 15)))
        while self.odds(0.85) and self.plan.width(*after(last), function) is not None:
            last = after(last)
        if self.odds(0.05):
            first, last = last, first
        most = self.at_most(self.random.choice((0, 1, 2, 4, 12, 16, 17)))
        registers = [self.set_register("a", first, self.odds(0.8)), self.set_register("b", last, self.odds(0.8))]
        return [*registers, Node(f"cfmad {function} a b max {most} tally {self.free_variable()}")]

    def crate(self) -> str:
        crate = self.random.choice(list(self.plan.crates) or [1])
        return str(crate) if not self.odds(0.05) else self.random.choice((str(crate + 1), self.variable(), f"{crate} + 0"))

    def crate_call(self) -> List[Node]:
        call = self.random.choice(("cccz", "cccc", "ctci", "ctcd", "ctgl", "ccci", "cccd"))
        switch = self.random.choice((" on", " off")) if call in ("ccci", "cccd") else ""
        return [Node(f"{call} {self.crate()}{switch}")]

    def lam_call(self) -> List[Node]:
        call = self.random.choice(("cclm", "cclc", "ctlm"))
        return [Node(f"{call} {self.random.choice(self.lams)}{self.random.choice((' on', ' off')) if call == 'cclm' else ''}")]

    def choice(self) -> List[Node]:
        head, registers = f"if {self.condition()}", dict(self.registers)
        node = Node(head, self.block(), None)
        if self.odds(0.5):
            self.registers = dict(registers)
            node.other = self.block()
        if not self.odds(0.1):
            self.registers = registers
        return [node]

    def keeps(self, own: str) -> str:
        """A list of kept variables, which are what they are before the loop."""
        others = [it for it in self.variables if it != own]
        if not others or not self.odds(0.3):
            return ""
        kept = self.random.sample(others, 1 if self.odds(0.8) else min(2, len(others)))
        greatest = (4095, 0, 11, 4_294_967_295, self.number())
        return " keep " + ", ".join(f"{it} in {self.random.choice((0, 0, 0, 1))}..{self.random.choice(greatest)}" for it in kept)

    def for_(self) -> List[Node]:
        name = self.free_variable()
        if self.odds(0.06):
            first, last = str(self.number()), str(self.number())
        else:
            start = self.random.choice((0, 1, self.spot()[1], self.random.randrange(9)))
            turns = self.random.choice((1, 2, 2, 3, 4, 0, 12))
            first, last = str(start), self.random.choice((str(start + turns - 1 if start + turns else 0), self.at_most(start + turns)))
        head = f"for {name} = {first} to {last}{self.keeps(name)}"
        if last.isdigit() and self.odds(0.5) and (int(last) - int(first) < 100 or self.odds(0.05)):
            head = f"for {name} = {first} to {last} each"
        self.busy.append(name)
        registers = dict(self.registers) if self.odds(0.9) else {}
        node = Node(head, self.block())
        self.registers = registers
        self.busy.pop()
        return [node]

    def while_(self) -> List[Node]:
        """A loop with its measure, which is set before it."""
        measure, step = self.free_variable(), self.random.choice((1, 1, 1, 2, 3))
        turns = self.random.choice((1, 2, 3, 5, 10))
        most = turns * step + self.random.choice((0, 0, 0, step - 1))
        more = "" if self.odds(0.5) else f" and {self.part()}"
        promised = max(0, turns + self.random.choice((0, 0, 0, 0, 0, 3, -1)))
        head = f"while {measure} {self.random.choice(('> 0', f'>= {step}', f'>= {step}'))}{more} turns {promised} by {measure}{self.keeps(measure)}"
        self.busy.append(measure)
        registers = dict(self.registers)
        body = self.block()
        body.insert(self.random.randrange(len(body) + 1), Node(f"{measure} = {measure} - {step}"))
        self.registers = registers
        self.busy.pop()
        return [Node(f"{measure} = {most}"), Node(head, body)]

    def kept(self) -> List[Node]:
        """A loop that keeps the range of what it counts, or misses it by one."""
        count, turn = self.free_variable(), self.free_variable()
        if count == turn:
            return self.assign()
        step, most = self.random.choice((1, 1, 2, 5)), self.random.choice((5, 11, 255, 4_294_967_295))
        limit = most - step + self.random.choice((0, 0, 0, 1))
        counting = Node(f"if {count} {self.random.choice(('<=', '<='))} {limit}", [Node(f"{count} = {count} + {step}")])
        start = Node(f"{count} = {self.random.choice((0, most, most + 1 if most < 9999 else 0))}")
        return [start, Node(f"for {turn} = 0 to {self.random.randrange(4)} keep {count} in 0..{most}", [counting, *self.block()])]

    def summed(self) -> List[Node]:
        """A loop that is judged turn by turn, and adds to a variable what it read in each turn, or its own number."""
        total, turn = self.free_variable(), self.free_variable()
        if total == turn:
            return self.assign()
        step = self.random.choice((turn, self.variable(), f"{self.variable()} % {self.random.choice((2, 12, 4096))}"))
        adding = Node(f"{total} = {total} {self.random.choice('++++-')} {step}")
        return [Node(f"for {turn} = {self.random.randrange(3)} to {self.random.choice((0, 1, 2, 3, 11))} each", [*self.block(), adding])]

    def watch(self) -> List[Node]:
        """A loop whose cost shows the least or the greatest number of a variable."""
        turn, watched = self.free_variable(), self.variable()
        ends = self.random.choice((f"1 to {watched}", f"{watched} to 65000", f"{watched} to {self.variable()}", f"0 to {watched} % 65535"))
        return [Node(f"for {turn} = {ends}", [])]

    def lock(self) -> List[Node]:
        crate = self.crate()
        return [Node(f"lock {crate}", self.block())]

    def call(self) -> List[Node]:
        name = self.random.choice(list(self.procedures))
        ranges = self.procedures[name]
        arguments = [self.at_most(last) if first == 0 else f"{first} + {self.at_most(max(0, last - first))}" for first, last in ranges]
        return [Node(f"call {name}({', '.join(arguments)})")]
