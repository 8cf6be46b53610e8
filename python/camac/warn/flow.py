"""What may have set each name of a body where it is used, and what it then is: one pass over its statements, in the order of the text."""
from typing import AbstractSet, Dict, FrozenSet, List, Mapping, Sequence, Set, Tuple, Union

from camac.tree import FLAGS, OPERATIONS, Assign, Body, Cycle, Expression, For, If, Loop, Name, Number, Plain, Statement, Transfer
from camac.printed import DEPTH, TIMES, WORD_OF, Words

# Of a quotient by so much or less the checker is not asked whether it is one number: few registers are so narrow.
SMALL = 15


class Some:
    """What an expression is that is no one number: `MANY` is surely none, `OPEN` as far as the flow tells."""


MANY, OPEN = Some(), Some()
Value = Union[int, Some]


class Turn:
    """What a name holds when a turn of a loop begins: what it held before the loop, or what a turn left. It is known once the loop is passed."""

    def __init__(self, settings: "Settings") -> None:
        self.settings = settings
        self.value: Value = MANY


# What may have set a name: a statement, or nothing, so that it is 0. In a procedure the call gives its parameters, and an earlier cycle the flags.
Setting = Union[Statement, Turn, None]
Settings = FrozenSet[Setting]
GIVEN, EARLIER = Plain("call"), Plain("call")


def whole(settings: AbstractSet[Setting]) -> Set[Setting]:
    """These settings, with those that the turns among them stand for."""
    found = set(settings)
    left = [it for it in found if isinstance(it, Turn)]
    while left:
        new = left.pop().settings - found
        found |= new
        left += [it for it in new if isinstance(it, Turn)]
    return found


def is_set(settings: AbstractSet[Setting]) -> bool:
    for it in settings:
        if isinstance(it, Statement):
            return True
    return False


def is_put(it: Statement) -> bool:
    return isinstance(it, Plain) and it.word == "put"


class Flow:
    """The pass over a body, with its rows of `camac costs`. `flows` has the procedures before it.

    row     of each statement its row, and in `made` those of statements that are made at least once
    always  each `if` whose `else` is never reached
    used    what may have set what is used
    unset   the uses of names before which no statement sets them, on any way
    value   of each assignment and `put` what it is"""

    def __init__(self, body: Body, rows: Sequence[Words], flows: "Mapping[str, Flow]") -> None:
        self.rows, self.at, self.flows, self.makes_cycles = rows, 0, flows, False
        self.now: Dict[str, Settings] = dict.fromkeys(body.variables, frozenset((None if body.is_service else GIVEN,)))
        self.now[FLAGS] = frozenset((None if body.is_service else EARLIER,))
        self.row: Dict[Statement, Words] = {}
        self.made: Dict[Statement, Words] = {}
        self.always: Set[Statement] = set()
        self.used: Set[Setting] = set()
        self.value: Dict[Statement, Value] = {}
        self.uses: List[Tuple[Statement, str, Settings]] = []
        self.block(body.statements)
        self.used = whole(self.used)
        self.unset = [(it, name) for it, name, settings in self.uses if not is_set(whole(settings))]

    def block(self, statements: Sequence[Statement]) -> None:
        for it in statements:
            row = self.row[it] = self.rows[self.at]
            self.at += 1
            if row[TIMES] != "0":
                self.made[it] = row
            if isinstance(it, Loop):
                self.loop(it)
                continue
            self.use(it)
            if isinstance(it, If):
                self.branch(it)
            elif it.blocks:
                self.block(it.blocks[0])
            else:
                self.make(it)

    def use(self, it: Statement) -> None:
        """The names in the expressions of a statement, and the flags in its condition."""
        for name in it.names:
            settings = self.now[name]
            self.used |= settings
            if not is_set(settings) and it in self.made:
                self.uses.append((it, name, settings))

    def value_of(self, it: Expression) -> Value:
        if isinstance(it, Number):
            return it.value
        if isinstance(it, Name):
            return self.set_to(self.now[it.name])
        left, right = self.value_of(it.left), self.value_of(it.right)
        if isinstance(left, int) and isinstance(right, int):
            return OPERATIONS[it.sign](left, right)
        if it.sign == "/" and isinstance(right, int) and right > SMALL:
            return OPEN
        return MANY if MANY in (left, right) else OPEN

    def set_to(self, settings: AbstractSet[Setting]) -> Value:
        """What a name is that one of these may have set."""
        found = {0 if it is None else it.value if isinstance(it, Turn) else self.value.get(it, MANY) for it in settings}
        if MANY in found or len(found - {OPEN}) > 1:
            return MANY
        return OPEN if OPEN in found else found.pop()

    def make(self, it: Statement) -> None:
        """A statement without a block."""
        if isinstance(it, Assign) or is_put(it):
            self.value[it] = self.value_of(it.expressions[0])
        elif isinstance(it, Plain) and it.word == "call":
            flow = self.flows[it.name]
            if EARLIER in flow.used:
                self.used |= self.now[FLAGS]
            if flow.makes_cycles:
                self.now[FLAGS] |= {it}
                self.makes_cycles = True
        elif isinstance(it, (Cycle, Transfer, Plain)):
            self.now[FLAGS] = frozenset((it,))
            self.makes_cycles = True
        if it.writes is not None:
            self.now[it.writes] = frozenset((it,))

    def branch(self, it: If) -> None:
        before = dict(self.now)
        self.block(it.body)
        after, self.now = self.now, before
        row = self.rows[self.at] if self.at < len(self.rows) else self.row[it]
        if row[WORD_OF] == "else" and row[DEPTH] == self.row[it][DEPTH]:
            self.at += 1
            if row[TIMES] == "0":
                self.always.add(it)
        self.block(it.other)
        for name, settings in after.items():
            if settings is not self.now[name]:
                self.now[name] |= settings

    def loop(self, it: Loop) -> None:
        if isinstance(it, For):
            self.use(it)
        turns = {name: Turn(self.now[name]) for name in (*it.written, it.name, FLAGS)}
        self.now.update((name, frozenset((turn,))) for name, turn in turns.items())
        now = dict(self.now)
        if isinstance(it, For):
            self.now[it.name] = frozenset((it,))
        else:
            self.use(it)
        self.block(it.body)
        for name, turn in turns.items():
            turn.settings |= self.now[name]
            turn.value = self.set_to(turn.settings - {turn})
        self.now = now
