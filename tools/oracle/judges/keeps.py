"""What `camac-check --keeps` proposes: with all of it the script is accepted, each part of it is needed, and where `each` suffices there is nothing else."""
from __future__ import annotations

import pathlib
import re
import sys
from typing import Iterator, List, Optional, Tuple

from oracle.comparing import Comparison
from oracle.maker.beginners import make_beginner
from oracle.reader.checker import Checker
from oracle.reader.engines import GOOD, REFUSED, Inputs, told
from oracle.reader.grammar import read_script
from oracle.reader.plan import sample_plan
from oracle.reader.refusals import Refused

sys.path.append(str(pathlib.Path(__file__).resolve().parents[3] / "python"))
from camac.loops.changes import Kind
from camac.loops.proposals import put_before_block
from camac.loops.search import propose, turn_by_turn
from camac.reader import read_script as read_tree
from camac.texts import edited

PLAN = sample_plan()
KEEP = re.compile(rb" keep ([^{]*) \{")
HEADING = re.compile(rb"within (\d+) cycles event (\d+) words")
EACH = b" each {"


def judged(text: bytes, is_least: bool = False) -> Tuple[Checker, Optional[Refused]]:
    checker = Checker(read_script(text), PLAN, is_least)
    return checker, next(checker.refusals(), None)


def narrower(kept: bytes) -> List[bytes]:
    """A range with each of its bounds one less, and no range. What a condition keeps in one word may have room below that."""
    name, _, range_ = kept.split()
    low, high = (int(it) for it in range_.split(b".."))
    bounds = [(low + 1, high), *([(low, high - 1)] if high < 16_777_215 else [])] if low < high else []
    return [b"", *(b"%b in %d..%d" % (name, *it) for it in bounds)]


def lesser(text: bytes) -> Iterator[bytes]:
    """A script with one bound one less, or one range or one `each` left out."""
    for it in re.finditer(EACH, text):
        yield text[: it.start()] + b" {" + text[it.end() :]
    for found in KEEP.finditer(text):
        kept = found[1].split(b", ")
        for at, one in enumerate(kept):
            for other in narrower(one):
                left = b", ".join(filter(None, [*kept[:at], other, *kept[at + 1 :]]))
                yield text[: found.start()] + (b" keep " + left if left else b"") + b" {" + text[found.end() :]
    for found in HEADING.finditer(text):
        cycles, words = int(found[1]), int(found[2])
        for numbers in ((cycles - 1, words), (cycles, words - 1)):
            if min(numbers) >= 0:
                yield text[: found.start()] + b"within %d cycles event %d words" % numbers + text[found.end() :]


def with_each(text: bytes) -> bytes:
    """The script with all loops turn by turn that may be."""
    return edited(text, [put_before_block(text, it, "each") for body in read_tree(text).bodies for it in turn_by_turn(body)])


def judge(comparison: Comparison) -> None:
    random = comparison.dice()
    text = make_beginner(random)
    found = propose("@sample", text, comparison.program.program)
    applied = found.applied(text)
    comparison.judged += len(found.proposals)
    comparison.seen.update(one.kind.value for one in found.proposals)

    def differs(script: bytes, what: str, status: int) -> None:
        comparison.differs("check", Inputs(script=script, file=text), told([what], status, "keeps"))

    checker, refused = judged(applied, found.remaining is not None)
    remaining = found.remaining and Refused(found.remaining.code, found.remaining.line or 0)
    if (refused and refused.line()) != (remaining and remaining.line()):
        return differs(applied, remaining.line() if remaining else "accepted", REFUSED if remaining else GOOD)
    if refused:
        return
    for other in lesser(applied):
        comparison.seen["needed"] += 1
        if not judged(other)[1]:
            differs(other, "refused: less than was proposed", REFUSED)
    if {one.kind for one in found.proposals} - {Kind.EACH, Kind.HEADING}:
        comparison.seen["alone"] += 1
        if not judged(with_each(text), True)[1]:
            differs(text, "accepted with `each` alone", GOOD)
