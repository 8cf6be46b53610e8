"""Loops of an accepted script whose bounds are looser than they have to be, as it is tried: what is kept for nothing, or in a wide range, and what would
cost less if it were judged turn by turn."""
from typing import Iterator, List, Optional, Sequence, Tuple

from camac.drive import File
from camac.loops.proposals import put_before_block
from camac.loops.search import least_ranges
from camac.printed import read_headings
from camac.program import accepts, verdict
from camac.texts import Edit, edited
from camac.tree import Body, For, If, Keep, Loop, Transfer, While, all_in
from camac.warn.codes import Code, Warned

Bounds = Tuple[int, int]


def wide_keeps(plan: File, text: bytes, bodies: Sequence[Body], program: Optional[File] = None) -> Iterator[Warned]:
    """Warns of what the bodies of a script keep in wider ranges than they have to. Each that may be left out is tried alone, the least ranges of the
    others together. Raises ProgramFault and OSError as `camac.check`."""
    loops = [it for body in bodies for it in body.every if isinstance(it, Loop) and it.keeps]
    if not loops:
        return
    unused = {keep.start for loop in loops for keep in loop.keeps if accepts(plan, edited(text, [_without(text, loop, keep)]), program)}
    least = least_ranges(plan, text, bodies, {keep.start for loop in loops for keep in loop.keeps} - unused, program)
    for loop in loops:
        for keep in loop.keeps:
            line = loop.line + text.count(b"\n", loop.start, keep.start)
            if keep.start in unused:
                said = f"this kept bound of `{keep.name}` is not needed: the script is accepted without it"
                yield Warned(line, Code.UNUSED_KEEP, said, (_without(text, loop, keep),))
            elif keep.start in least:
                low, high = least[keep.start]
                said = f"this kept bound of `{keep.name}` is wider than it has to be: `{keep.name} in {low}..{high}` is accepted, too"
                yield Warned(line, Code.WIDE_KEEP, said, (Edit(*keep.low, str(low)), Edit(*keep.high, str(high))))


def _without(text: bytes, loop: Loop, keep: Keep) -> Edit:
    """Leaves out a variable that a loop keeps; its lines stay."""
    at = loop.keeps.index(keep)
    start, end = (keep.start, loop.keeps[at + 1].start) if at + 1 < len(loop.keeps) else (loop.keeps[at - 1].end, keep.end)
    if len(loop.keeps) == 1:
        start = loop.keep
        end += text[end : end + 1] == b" "
    return Edit(start, end, "\n" * text.count(b"\n", start, end))


def dear_loops(plan: File, text: bytes, bodies: Sequence[Body], program: Optional[File] = None) -> Iterator[Warned]:
    """Warns of loops in the bodies of a script that would cost less if they were judged turn by turn, each for itself: those whose own variable says
    how much a turn costs. Raises ProgramFault and OSError as `camac.check`."""
    loops = [(at, it) for at, body in enumerate(bodies) for it in body.every if isinstance(it, For) and _differs(it)]
    before = _bounds(plan, text, program) if loops else []
    for at, loop in loops:
        edit = put_before_block(text, loop, "each")
        if loop.keeps:
            end = loop.keeps[-1].end
            edit = Edit(loop.keep, end, "each" + "\n" * text.count(b"\n", loop.keep, end))
        after = _bounds(plan, edited(text, [edit]), program)
        if after and before and after[at] != before[at] and after[at][0] <= before[at][0] and after[at][1] <= before[at][1]:
            bounds = zip(after[at], before[at], ("cycles", "words"))
            less = " and ".join(f"{new} {word} in place of {old}" for new, old, word in bounds if new != old)
            said = f"judged turn by turn (`each`), this loop has a lower bound: `{bodies[at].name}` then takes {less}"
            yield Warned(loop.line, Code.EACH, said, (edit,))


def _differs(loop: For) -> bool:
    """Whether the turns of a loop between two numbers may cost different much."""
    inside = [it for it in all_in(loop.body) if isinstance(it, (If, For, While, Transfer))] if loop.turns and not loop.is_each else []
    return any(loop.name in it.names for it in inside)


def _bounds(plan: File, text: bytes, program: Optional[File]) -> List[Bounds]:
    """The least cycles and words of each service and procedure; nothing if the text is refused."""
    answer = verdict("bounds", plan, text, program)
    return [(it.cycles, it.words) for it in read_headings(answer.text)] if answer.accepted else []
