"""What `response` prints. Its law along runs is tried by tests/look_at_mes_test.py."""
from __future__ import annotations

from oracle.comparing import Comparison
from oracle.maker.responses import make_inputs
from oracle.reader.engines import REFUSED, tell

UNKEPT = "does not clear", "cleared by", "hidden by"


def judge(comparison: Comparison) -> None:
    inputs = make_inputs(comparison.dice())
    wanted = tell("response", inputs)
    comparison.compare("response", inputs, wanted)
    for why in UNKEPT:
        comparison.seen[why] += why.encode() in wanted.out
    comparison.seen["without a number"] += b" end - " in wanted.out and b"unkept" not in wanted.out
    comparison.seen["above a promise"] += wanted.reached == "response" and wanted.status == REFUSED and b"unkept" not in wanted.out
