"""Finds what the loops of a script need, so that the checker accepts it: `each`, then ranges, then other statements. The search is not proved, and need not
be: the checker judges what it finds."""
import bisect
import re
from collections import Counter
from typing import AbstractSet, Callable, Container, Dict, Iterable, List, Optional, Sequence, Set, Tuple, Union

from camac.drive import File, Refused
from camac.loops.changes import MOST, MOST_STEP, WORD, Changes, Kind, grows
from camac.loops.proposals import Cause, Found, Proposal, Proposals, Remaining, least_headings
from camac.loops.trials import BOUNDS, CHECK, Stopped, Trials
from camac.output import read_original
from camac.printed import read_headings
from camac.program import verdict
from camac.reader import read_script
from camac.texts import GREATEST_TEXT, edited
from camac.tree import Assign, Body, For, Loop, Number, Range, Statement, parts_of

# The most calls of the checker; the last ones are for headings.
MOST_CALLS, LAST_CALLS = 200, 8
# A longer script is left as it is: with what is tried it might be too long.
MOST_BYTES = GREATEST_TEXT - 100_000
NOTHING, ANY = (0, 0), (0, MOST)
# How often a range grows as it is told; then it goes on to the next step, and is told once more.
FEW = 3
# Numbers that many a range ends with, besides those of the script.
USUAL = (0, 255, 4095, 65_535, WORD - 1, MOST)
# The most turns of a loop, and the most that all `each` of a body judge.
MOST_TURNS, MOST_JUDGED = 65_535, 65_536
OUT = re.compile(r"(?:Before the loop|After a turn) `(\w+)` may be (\d+)(?: to (\d+))?,")


def propose(plan: File, script: bytes, program: Optional[File] = None, keeps_only: bool = False) -> Proposals:
    """Returns what the loops of a script need, so that the checker accepts it, or that its first refusal comes later: the fewest that are judged turn by
    turn, and the fewest ranges. If that does not help, statements get another form, but for `keeps_only`. Nothing is proposed for a script that is
    accepted, or is refused for what no loop forgets. If its headings are too small, and else it would be accepted, the least ones are proposed, too.

    Raises ProgramFault and OSError as `camac.check`, and Refused if the plan is refused."""
    is_long = len(script) > MOST_BYTES
    answer = verdict("check" if is_long else BOUNDS, plan, script, program)
    refusal = None if answer.accepted else Refused(answer.text)
    if refusal and refusal.line is None:
        raise refusal
    if is_long or refusal and refusal.code[0] != "E":
        return Proposals((), Remaining(refusal.code, refusal.line, refusal.rule) if refusal else None, 1)
    search = _Search(plan, script, read_script(script).bodies, program, keeps_only)
    remaining = search.run(refusal is not None)
    proposals = sorted([*search.found.proposals(), *search.headings], key=lambda it: (it.line, it.edits))
    return Proposals(tuple(proposals), remaining, len(search.trials.told) + 1)


def write_keeps(plan: File, script: str, program: Optional[File] = None) -> List[Proposal]:
    """Puts what the loops of a script need into it, as `propose` finds it, and returns that. Nothing else of the text changes, and nothing that it does
    at run time. If there is nothing to put, the file is not touched.

    Raises as `propose`, with nothing written, and OSError if the file cannot be read or written, or changed meanwhile."""
    original = read_original(script)
    found = [it for it in propose(plan, original.data, program, keeps_only=True).proposals if it.kind in (Kind.EACH, Kind.KEEP)]
    if found:
        original.replace(edited(original.data, [edit for it in found for edit in it.edits]))
    return found


def least_ranges(plan: File, script: bytes, bodies: Sequence[Body], kept: AbstractSet[int], program: Optional[File] = None) -> Dict[int, Range]:
    """The ranges of an accepted script, of those that begin at these places, that are accepted in all, too, and are less; nothing if there is none."""
    search = _Search(plan, script, bodies, program, keeps_only=True)
    keeps = {(loop, it.name): it for loop, _ in search.given for it in loop.keeps if it.start in kept}
    search.found.kept = dict.fromkeys(keeps, NOTHING)
    stopped = search.stopped(BOUNDS) if keeps else None
    while stopped and search.may_ask() and search.widen(stopped):
        stopped = search.stopped(BOUNDS)
    inside = {cause: (low, high) for cause, (low, high) in search.found.kept.items() if search.given[cause][0] <= low and high <= search.given[cause][1]}
    search.found.kept = {cause: found for cause, found in inside.items() if found != search.given[cause]}
    is_good = not stopped and search.found.kept and search.stopped(CHECK) is None
    return {keeps[cause].start: found for cause, found in search.found.kept.items()} if is_good else {}


class _Search:
    def __init__(self, plan: File, text: bytes, bodies: Sequence[Body], program: Optional[File], keeps_only: bool = False) -> None:
        self.text, self.bodies, self.keeps_only = text, bodies, keeps_only
        self.trials = Trials(plan, text, self.bodies, program)
        self.changes = Changes(text)
        loops = [it for body in self.bodies for it in body.every if isinstance(it, Loop)]
        self.given: Dict[Cause, Range] = {(loop, it.name): it.range for loop in loops for it in loop.keeps}
        # What no range can keep, how often ranges grew, and what is added at once to the variables that have a condition where they grow.
        self.lost: Set[Cause] = set()
        self.grown: "Counter[Cause]" = Counter()
        self.guarded: "Counter[str]" = Counter()
        self.found = Found(text)
        self.headings: List[Proposal] = []

    def run(self, is_refused: bool) -> Optional[Remaining]:
        """Returns what still refuses the script."""
        stopped = self.help(BOUNDS) if is_refused else None
        if stopped is None:
            self.fit_headings()
            return None
        return Remaining(stopped.code, stopped.about.line if stopped.about else None, f"{stopped.rule}. {stopped.sentence}".rstrip(". "))

    def stopped(self, command: str) -> Optional[Stopped]:
        return self.trials.stopped(command, self.found.edits())

    def may_ask(self) -> bool:
        return len(self.trials.told) < MOST_CALLS - LAST_CALLS

    def help(self, command: str) -> Optional[Stopped]:
        """Finds what helps, and the least of it. Returns what refuses the script then."""
        before, found = self.found, self.found.copy()
        found.each.update((it, None) for body in self.bodies for it in turn_by_turn(body))
        self.found = found
        stopped = self.stopped(command)
        while stopped and self.may_ask() and (self.widen(stopped) or self.keep(stopped) or command == BOUNDS and self.change(stopped)):
            stopped = self.stopped(command)
        if stopped and (not self.may_ask() or self.is_as_good(command, stopped, before)):
            self.found = before
            return self.stopped(command)
        found.leave_out(lambda: self.is_as_good(command, stopped, found))
        for cause in [it for it in found.kept if self.grown[it] > FEW]:
            for side in (0, 1):
                self.narrow(cause, side, lambda: self.is_as_good(command, stopped, found))
        return stopped

    def narrow(self, cause: Cause, side: int, is_good: Callable[[], bool]) -> None:
        """Moves an end of a range that went on to a step towards the other end: by 1, 2, 4 and so on, then by halves of that."""
        low, high = self.found.kept[cause]
        moved, step, is_halving = 0, 1, False
        while step:
            by = min(moved + step, high - low)
            self.found.kept[cause] = (low + by, high) if side == 0 else (low, high - by)
            if by > moved and is_good():
                moved = by
            else:
                is_halving = True
            step = step // 2 if is_halving else step * 2
        self.found.kept[cause] = (low + moved, high) if side == 0 else (low, high - moved)

    def is_as_good(self, command: str, best: Optional[Stopped], found: Found) -> bool:
        """Whether the script gets as far with this."""
        if not self.may_ask():
            return False
        stopped = self.trials.stopped(command, found.edits())
        return (stopped and stopped[:2]) == (best and best[:2])

    def body_of(self, about: Union[Statement, Body]) -> Body:
        return next(it for it in self.bodies if it.start <= about.start < it.end)

    def widen(self, stopped: Stopped) -> bool:
        """Makes a range wider that is kept and does not hold, or gives it up."""
        out, loop = OUT.search(stopped.sentence), stopped.about
        if not out or not isinstance(loop, Loop):
            return False
        name, cause, told = out[1], (loop, out[1]), (int(out[2]), int(out[3] or out[2]))
        if told[1] >= WORD and 0 < self.guarded[name] <= MOST_STEP:
            self.guard(self.body_of(loop), name, self.guarded[name] + told[1] + 1 - WORD)
            return True
        old = self.found.kept.get(cause, self.given.get(cause, NOTHING))
        if stopped.code == "E8" and old is NOTHING:
            self.found.kept[cause] = told
            return True
        new = min(old[0], told[0]), max(old[1], told[1])
        self.grown[cause] += 1
        if self.grown[cause] > FEW and (self.grown[cause] - FEW) % 2:
            new = self.stepped(cause, old, new)
        self.found.kept[cause] = new
        if new == ANY:
            del self.found.kept[cause]
            self.lost.add(cause)
        return new != ANY or cause not in self.given

    def stepped(self, cause: Cause, old: Range, new: Range) -> Range:
        """The next range whose ends are numbers of the body, or beside one, where it grows."""
        loop, name = cause
        steps = {0, WORD - 1, MOST}
        if not self.guarded[name]:
            numbers = [one.value for it in self.body_of(loop).every for value in it.expressions for one in parts_of(value) if isinstance(one, Number)]
            steps.update(USUAL, (near for it in numbers for near in (it - 1, it, it + 1) if 0 <= near <= MOST))
        ends = sorted(steps)
        low = new[0] if new[0] == old[0] else ends[bisect.bisect_right(ends, new[0]) - 1]
        return low, new[1] if new[1] == old[1] else ends[bisect.bisect_left(ends, new[1])]

    def keep(self, stopped: Stopped) -> bool:
        """Begins to keep what loops forget before what is refused."""
        about = stopped.about
        if about is None:
            return False
        place = about.end if isinstance(about, Body) else about.start
        loops = [it for it in self.body_of(about).every if isinstance(it, Loop) and it.start <= place]
        causes = {(it, name) for it in loops if not (isinstance(it, For) and (it.is_each or it in self.found.each)) for name in sorted(it.written)}
        new = causes - self.given.keys() - self.found.kept.keys() - self.lost
        self.found.kept.update((it, NOTHING) for it in sorted(new, key=lambda it: (it[0].start, it[1])))
        return bool(new)

    def change(self, stopped: Stopped) -> bool:
        it = stopped.about
        if self.keeps_only or not isinstance(it, Statement) or it in self.found.changed:
            return False
        body = self.body_of(it)
        around = [one for one in body.every if isinstance(one, Loop) and one.start <= it.start < one.end]
        # A measure falls as it is written.
        change = None if isinstance(it, Assign) and any(it.name == one.name for one in around) else self.changes.at(it, stopped)
        if change is None:
            return False
        self.found.changed[it] = change
        if isinstance(it, Assign) and change.step:
            self.guard(body, it.name, max(change.step, self.guarded[it.name]))
        return True

    def guard(self, body: Body, name: str, step: int) -> None:
        """Makes room for so much at once wherever a variable grows, and keeps it anew."""
        self.guarded[name] = step
        self.lost = {one for one in self.lost if one[1] != name}
        growing = [it for it in body.every if isinstance(it, Assign) and it.name == name and grows(it)]
        changed = self.found.changed
        changed.update((it, self.changes.guard(it, step)) for it in growing if it not in changed or changed[it].step)

    def fit_headings(self) -> None:
        """Where the headings of a script refuse it, finds what lowers its costs, or proposes the least headings."""
        if self.stopped(CHECK) is None:
            return
        found = self.found
        if self.help(CHECK) is not None:
            self.found = found
            answer = self.trials.judged(BOUNDS, found.edits())
            self.headings = least_headings(self.text, read_headings(answer.text))


def _judged(statements: Iterable[Statement], chosen: Container[Statement]) -> Tuple[int, int]:
    """What is judged where a block is judged once, and how much of that in an `each`: a turn counts one, and each statement in it."""
    judged = in_each = 0
    for it in statements:
        blocks = [_judged(block, chosen) for block in it.blocks]
        inside, deeper = sum(one for one, _ in blocks), sum(one for _, one in blocks)
        if isinstance(it, For) and (it.is_each or it in chosen):
            inside = deeper = (it.turns or 0) * (1 + inside)
        judged, in_each = judged + 1 + inside, in_each + deeper
    return judged, in_each


def turn_by_turn(body: Body) -> List[For]:
    """The loops of a body that may all be judged turn by turn and are not: `for` loops between two numbers that keep nothing. Where that is too much,
    those that judge most are left out."""
    loops = [it for it in body.every if isinstance(it, For) and it.turns and it.turns <= MOST_TURNS and not it.keeps and not it.is_each]
    chosen = set(loops)
    loops.sort(key=lambda it: _judged([it], chosen)[1])
    least, most = 0, len(loops)
    while least < most:
        count = (least + most + 1) // 2
        if _judged(body.statements, set(loops[:count]))[1] <= MOST_JUDGED:
            least = count
        else:
            most = count - 1
    return loops[:least]
