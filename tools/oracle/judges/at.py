"""What is known before the statement at a place: `explain --at`, with or without `--turn`."""
from __future__ import annotations

from random import Random
from typing import Dict, Iterable, List, NamedTuple, Optional

from oracle.cases import make_edge_inputs, make_inputs
from oracle.comparing import Comparison
from oracle.reader.checker import Checker, Judged
from oracle.reader.engines import GOOD, REFUSED, Inputs, Told, plan_of, told
from oracle.reader.grammar import read_script
from oracle.reader.loops import everything, test_judged, turns_of
from oracle.reader.ranges import Known, State, join
from oracle.reader.refusals import Refused
from oracle.reader.shares import range_text
from oracle.reader.tokens import Token, read_tokens
from oracle.reader.tree import Body, ForEach, If, SetRegister, Statement

PLACES = 8
# The tokens of a body that are in no statement.
BETWEEN = "{", "}", "else"


class Place(NamedTuple):
    line: int
    column: int


def make_place(random: Random, text: bytes, starts: Iterable[int]) -> Place:
    """A place at which a statement, a word or a blank begins, or one beside; or any one."""
    ends = [it for it in range(len(text) + 1) if text[it - 1 : it].isspace() != text[it : it + 1].isspace()]
    at = random.choice(random.choice(([*starts], ends, range(len(text) + 1))) or [0])
    line, column = text.count(b"\n", 0, at) + 1, at - text.rfind(b"\n", 0, at)
    if random.random() < 0.1:
        return Place(line + random.choice((0, 1, 2, 4_000_000_000)), random.choice((1, 2, 9, 4_294_967_295)))
    return Place(line, max(1, column + random.choice((0, 0, 0, -1, 1))))


def make_turns(random: Random, loops: List[ForEach]) -> List[int]:
    """Turns of some `each` loops, or numbers beside their turns."""
    most = random.choice((0, 0, 1, 2, 3)) if loops else random.choice((0, 0, 0, 1))
    chosen = [random.choice(loops) if loops else None for _ in range(most)]
    numbers = [random.choice((it.first, it.first + 1, it.last, it.last + 1, it.first - 1, (it.first + it.last) // 2)) if it else 0 for it in chosen]
    return [min(max(it, 0), 4_294_967_295) for it in numbers]


def is_in(statement: Statement, block: List[Statement]) -> bool:
    return any(it is statement for it in everything(block))


class Script:
    """A linked script, with what the checker knows at each place, and the refusals of its bodies."""

    def __init__(self, inputs: Inputs) -> None:
        self.text = inputs.script
        plan, tree = plan_of(inputs), read_script(inputs.script)
        self.tokens, self.starts = read_tokens(inputs.script)[:-1], tree.starts
        self.loops = [it for it in tree.starts.values() if isinstance(it, ForEach)]
        self.checker = Checker(tree, plan)
        self.refusals = list(self.checker.refusals())
        if self.refusals and self.refusals[0].code[0] == "L":
            raise self.refusals[0]

    def token_at(self, place: Place) -> Optional[Token]:
        """The last token of the line that begins at or before the column, or else its first one."""
        tokens = [it for it in self.tokens if it.line == place.line]
        before = [it for it in tokens if it.start - self.text.rfind(b"\n", 0, it.start) <= place.column]
        return before[-1] if before else tokens[0] if tokens else None

    def begun(self, start: int, kind: type) -> int:
        """Where the last thing of this kind begins, at this byte or before it; -1 if there is none."""
        return max((it for it, what in self.starts.items() if it <= start and isinstance(what, kind)), default=-1)

    def told(self, place: Place, turns: List[int]) -> Told:
        token = self.token_at(place)
        start = -1 if token is None or token.kind in BETWEEN else self.begun(token.start, object)
        statement = self.starts.get(start)
        if not isinstance(statement, Statement):
            return told([f"no statement at {place.line}:{place.column}"], REFUSED, "no statement")
        body = self.begun(start, Body)
        try:
            test_judged(self.starts[body])
            known = self.known(self.checker.judged, self.starts[body].block, statement, turns)
        except Refused as refused:
            return told([refused.line()], REFUSED, "refused")
        if known is None:
            return told(["not reached"], GOOD, "not reached")
        return told(["reached", *self.lines(known, body)], GOOD, "locked" if known.locked else "reached")

    def known(self, judged: Judged, block: List[Statement], statement: Statement, turns: List[int]) -> State:
        """What is known before a statement in a block that was judged, in these turns. Raises the refusal of one before it."""
        for outer in block:
            if is_in(statement, [outer]):
                return self.inside(judged, outer, statement, turns)
            if id(outer) in judged.stopped:
                raise judged.stopped[id(outer)]
        return None

    def inside(self, judged: Judged, outer: Statement, statement: Statement, turns: List[int]) -> State:
        refused = judged.stopped.get(id(outer))
        if outer is statement or id(outer) not in judged.found:
            return judged.found.get(id(outer), (None,))[0]
        if refused and refused.what is outer and refused.code != "E9":
            raise refused
        if isinstance(outer, If):
            return self.known(judged, outer.body if is_in(statement, outer.body) else outer.otherwise or [], statement, turns)
        if not isinstance(outer, ForEach):
            return self.known(judged, outer.body, statement, turns)
        if turns:
            return self.in_turn(judged, outer, statement, turns)
        known: State = None
        for turn in judged.turns.get(id(outer), []):
            known = join(known, self.known(turn, outer.body, statement, []))
        return known

    def in_turn(self, judged: Judged, loop: ForEach, statement: Statement, turns: List[int]) -> State:
        """The same in one turn of an `each`. Raises the refusal of a turn before it."""
        at, found = turns[0] - loop.first, judged.turns.get(id(loop), [])
        if not 0 <= at < turns_of(loop):
            return None
        if at < len(found):
            return self.known(found[at], loop.body, statement, turns[1:])
        if id(loop) in judged.stopped:
            raise judged.stopped[id(loop)]
        return None

    def lines(self, known: Known, body: int) -> List[str]:
        """The ranges of the variables, the registers in the order of their first `cdreg`, and the crates that are locked."""
        sets = [what for it, what in sorted(self.starts.items()) if it > body and isinstance(what, SetRegister)]
        names: Dict[str, None] = dict.fromkeys(it.register for it in sets if it.register in known.registers)
        lines = [f"{name} {range_text(it)}" for name, it in known.variables.items()]
        lines += [f"{name} {' '.join(range_text(it) for it in known.registers[name])}" for name in names]
        return lines + [f"locked {it}" for it in sorted(known.locked)]


def judge(comparison: Comparison) -> None:
    random = comparison.dice()
    inputs = (make_inputs if random.random() < 0.8 else make_edge_inputs)(random)
    script: Optional[Script] = None
    try:
        script = Script(inputs)
    except Refused as refused:
        wanted = told([refused.line()], REFUSED, "refused")
    for _ in range(PLACES if script else 1):
        place = make_place(random, inputs.script, script.starts if script else ())
        turns = make_turns(random, script.loops if script else [])
        if script:
            wanted = script.told(place, turns)
        words = f"--at {place.line}:{place.column}" + "".join(f" --turn {one}" for one in turns)
        comparison.compare("explain", inputs._replace(words=words.encode()), wanted)
