"""What is proposed for a script: changes of its text; and the least headings of `camac bounds`, put into the script itself."""
from typing import Any, Callable, Dict, Iterable, Iterator, List, MutableMapping, NamedTuple, Optional, Sequence, Tuple

from camac import printed
from camac.drive import File, Refused
from camac.loops.changes import Change, Kind, one_line
from camac.output import read_original
from camac.program import verdict
from camac.reader import read_headings
from camac.texts import Edit, edited
from camac.tree import For, Loop, Range, Statement
from camac.values import Heading

# The most that are left out one by one.
FEW = 8
# A loop, and a variable that it forgets.
Cause = Tuple[Loop, str]


class Proposal(NamedTuple):
    """A change of a script that is proposed: what it is, the line of what it changes, that in one line as it is then, and the edits that make it.
    A remark is in the text as a comment. What a loop keeps, and `each`, change nothing at run time."""

    kind: Kind
    line: int
    text: str
    edits: Tuple[Edit, ...]


class Remaining(NamedTuple):
    """What still refuses a script: the rule, the line in the script as it was, if there is one, and the rule in words, with the case."""

    code: str
    line: Optional[int]
    text: str


class Proposals(NamedTuple):
    """What is proposed for a script, by lines; what refuses it with all of that, None if it is accepted; and how often the checker was asked."""

    proposals: Tuple[Proposal, ...]
    remaining: Optional[Remaining]
    calls: int

    def applied(self, script: bytes) -> bytes:
        """The script with all that is proposed."""
        return edited(script, [edit for it in self.proposals for edit in it.edits])


def put_before_block(text: bytes, loop: Loop, words: str) -> Edit:
    space = "" if text[loop.block - 1 : loop.block].isspace() else " "
    return Edit(loop.block, loop.block, f"{space}{words} ")


class Found:
    """What is found for a script: the ranges that loops keep, the loops that are judged turn by turn, and the statements that are changed."""

    def __init__(self, text: bytes) -> None:
        self.text = text
        self.kept: Dict[Cause, Range] = {}
        self.each: Dict[For, None] = {}
        self.changed: Dict[Statement, Change] = {}

    def copy(self) -> "Found":
        other = Found(self.text)
        other.kept, other.each, other.changed = dict(self.kept), dict(self.each), dict(self.changed)
        return other

    def edits(self) -> List[Edit]:
        return [edit for it in self.proposals() for edit in it.edits]

    def proposals(self) -> Iterator[Proposal]:
        loops: Dict[Loop, Dict[str, Range]] = {}
        for (loop, name), kept in self.kept.items():
            loops.setdefault(loop, {})[name] = kept
        of_each = [(Kind.EACH, it, [put_before_block(self.text, it, "each")]) for it in self.each]
        for kind, loop, edits in (*of_each, *((Kind.KEEP, it, self.keeps(it, kept)) for it, kept in loops.items())):
            yield Proposal(kind, loop.line, self.shown(loop.start, loop.block + 1, edits), tuple(edits))
        for it, change in self.changed.items():
            new = change.text if change.start == it.start else self.shown(it.start, change.end, [change.edit()])
            yield Proposal(change.kind, it.line, f"{new}  # {change.remark}" if change.remark else new, (change.edit(),))

    def keeps(self, loop: Loop, ranges: Dict[str, Range]) -> List[Edit]:
        given = {it.name: it for it in loop.keeps}
        old = [(given[name], ends) for name, ends in ranges.items() if name in given]
        edits = [edit for it, (low, high) in old for edit in (Edit(*it.low, str(low)), Edit(*it.high, str(high)))]
        new = ", ".join(f"{name} in {low}..{high}" for name, (low, high) in sorted(ranges.items()) if name not in given)
        if new:
            edits.append(Edit(loop.keeps[-1].end, loop.keeps[-1].end, f", {new}") if loop.keeps else put_before_block(self.text, loop, f"keep {new}"))
        return edits

    def shown(self, start: int, end: int, edits: Iterable[Edit]) -> str:
        """A part of the text with changes, in one line."""
        new = edited(self.text[start:end], [it._replace(start=it.start - start, end=it.end - start) for it in edits])
        return one_line(new, 0, len(new))

    def leave_out(self, is_good: Callable[[], bool]) -> None:
        """Leaves out what is there for nothing, so that the rest is good, as the whole is: once more if something may be for nothing only now. A single
        thing is not."""
        all_found: List[MutableMapping[Any, Any]] = [self.kept, self.each, self.changed]
        out = [False, True]
        while any(it < other for it, other in zip(out, out[1:])):
            parts = [(found, it) for found in all_found for it in found]
            out = _leave_out(parts, is_good) if len(parts) > 1 else []


def _leave_out(parts: Sequence[Tuple[MutableMapping[Any, Any], Any]], is_good: Callable[[], bool]) -> List[bool]:
    """Leaves out as many of these as may be: all at once if there are many, else one by one. Says of each whether it is left out."""
    if len(parts) == 1 or len(parts) > FEW:
        left_out = [found.pop(it) for found, it in parts]
        if is_good():
            return [True] * len(parts)
        for (found, it), value in zip(parts, left_out):
            found[it] = value
    at = len(parts) // 2 if len(parts) > FEW else 1
    return [*_leave_out(parts[:at], is_good), *_leave_out(parts[at:], is_good)] if len(parts) > 1 else [False] * len(parts)


def write_headings(plan: File, script: str, program: Optional[File] = None) -> List[Proposal]:
    """Puts the least numbers that are accepted into the headings of a script, and returns the headings that changed. Nothing else of the text
    changes. If no heading does, the file is not touched. Raises as `camac.bounds`, with nothing written, and OSError if the file cannot be read or
    written, or changed meanwhile."""
    original = read_original(script)
    answer = verdict("bounds", plan, original.data, program)
    if not answer.accepted:
        raise Refused(answer.text)
    written = least_headings(original.data, printed.read_headings(answer.text))
    if written:
        original.replace(edited(original.data, [edit for it in written for edit in it.edits]))
    return written


def least_headings(text: bytes, least: Sequence[Heading]) -> List[Proposal]:
    """The headings of a script that change where all get their least numbers, which are given in its order."""
    written: List[Proposal] = []
    for body, heading in zip(read_headings(text), least):
        numbers = [heading.cycles, heading.words] + ([] if heading.steps is None else [heading.steps])
        changed = [Edit(it.start, it.end, str(number)) for it, number in zip(body.numbers, numbers) if it.value != number]
        if changed:
            written.append(Proposal(Kind.HEADING, body.line, heading.line, tuple(changed)))
    return written
