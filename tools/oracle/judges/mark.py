"""The place of the `^` of an explanation: under the fault of the text, or under the statement, the `cdlam` or the heading that is refused; and the turn."""
from __future__ import annotations

import re
from typing import List, Optional

from oracle.cases import make_edge_inputs, make_inputs
from oracle.comparing import Comparison
from oracle.reader.checker import Checker
from oracle.reader.engines import REFUSED, plan_of, told
from oracle.reader.grammar import read_script
from oracle.reader.refusals import Refused
from oracle.reader.tree import Script

# What stands before the line of the source, and before the mark below it; and what stands for a part that is cut off.
MARGIN, CUT = len("    1 | "), b".."
CONTROL = bytes(ord("?") if it < 32 and it != 9 or it == 127 else it for it in range(256))


def start_of(refused: Refused, script: Optional[Script]) -> int:
    """Where what is refused begins, in bytes of the text."""
    if script is None:
        assert isinstance(refused.what, int)
        return refused.what
    return next(start for start, it in script.starts.items() if it is refused.what)


def places(shown: bytes, mark: bytes, line: bytes) -> List[int]:
    """The places of a line that a mark may be below: several if the line's beginning is not shown, and parts of the line are alike."""
    begins = [0]
    if shown.startswith(CUT) and not line.startswith(CUT):
        part = shown[len(CUT) : -len(CUT) if shown.endswith(CUT) else None]
        begins = [it - len(CUT) for it in range(len(line)) if line.startswith(part, it)]
    return [it + mark.index(b"^") for it in begins]


def judge(comparison: Comparison) -> None:
    random = comparison.dice()
    inputs = (make_inputs if random.random() < 0.7 else make_edge_inputs)(random)
    plan, script = plan_of(inputs), None
    try:
        script = read_script(inputs.script)
        Checker(script, plan).judge()
        return
    except Refused as refused:
        first = refused
    start = start_of(first, script)
    begin = inputs.script.rfind(b"\n", 0, start) + 1
    line = inputs.script[begin:].partition(b"\n")[0].translate(CONTROL)
    answered = comparison.asked("explain", inputs)
    _, shown, mark, *_ = [*(answered.out.split(b"\n") if answered else []), b"", b"", b""]
    comparison.judged += 1
    comparison.seen[first.code] += 1
    has_mark = b"^" in mark and mark[:MARGIN].strip() == b"|"
    if not has_mark or start - begin not in places(shown[MARGIN:], mark[MARGIN:], line):
        comparison.differs("explain", inputs, told([first.line(), f"a ^ below byte {start - begin + 1} of the line"], REFUSED, first.code), answered)
    turn = f"Turn: {', '.join(first.turns)}\n" if first.turns else ""
    if answered and turn != "".join(re.findall("^Turn: .*\n", answered.out.decode("latin-1"), re.M)):
        comparison.differs("explain", inputs, told([first.line(), turn], REFUSED, "turn"), answered)
