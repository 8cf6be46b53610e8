"""The further refusals that an explanation tells: of linking, or of each procedure and service judged alone."""
from __future__ import annotations

import re

from oracle.cases import make_inputs
from oracle.comparing import Comparison
from oracle.judges.mark import start_of
from oracle.maker.scripts import make_troubled
from oracle.reader.checker import Checker
from oracle.reader.engines import REFUSED, plan_of, told
from oracle.reader.grammar import read_script
from oracle.reader.refusals import Refused
from oracle.reader.tree import Script

LINE = re.compile(r"^also (refused \w+ line \d+ column \d+: .*)$", re.M)


def placed_line(refused: Refused, text: bytes, script: Script) -> str:
    """The line of a refusal with its column, in bytes from 1."""
    start = start_of(refused, script)
    column = start - text.rfind(b"\n", 0, start)
    return refused.line().replace(":", f" column {column}:", 1)


def judge(comparison: Comparison) -> None:
    inputs = make_inputs(comparison.dice(), make_troubled)
    plan = plan_of(inputs)
    try:
        script = read_script(inputs.script)
    except Refused:
        return
    refusals = list(Checker(script, plan).refusals())
    # A service of a LAM at no station has no bit for the same reason, which is told once.
    absent = [one.what for one in refusals if one.code == "L1"]
    same = [one.line for one in script.services() if script.lams[one.name] in absent]
    wanted = [placed_line(one, inputs.script, script) for one in refusals[1:] if one.code != "L2" or one.place not in same]
    answered = comparison.asked("explain", inputs)
    found = LINE.findall(answered.out.decode("latin-1")) if answered else None
    comparison.judged += bool(refusals)
    comparison.seen.update(f"also {one.code[0]}" for one in refusals[1:])
    if found != wanted:
        comparison.differs("explain", inputs, told([f"also {one}" for one in wanted], REFUSED, "also"), answered)
