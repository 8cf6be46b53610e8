"""The judges, each of one thing that the program tells."""
from __future__ import annotations

from oracle.cases import make_case
from oracle.comparing import Comparison, Judge
from oracle.judges import also, at, expected, keeps, mark, response
from oracle.reader.engines import tell
from oracle.reader.refusals import TEXTS

CODES = *TEXTS, "G4"
LATE = "response", "E12", "words", "without a number", "above a promise", *response.UNKEPT


def judge_answers(comparison: Comparison) -> None:
    case = make_case(comparison.seed, comparison.number)
    for command in case.commands:
        comparison.compare(command, case.inputs, tell(command, case.inputs))


JUDGES = {
    it.name: it
    for it in (
        Judge("answers", "what plan, check, bounds, costs, run, drive and events answer, and the event file", judge_answers, CODES),
        Judge("at", "explain --at: what is known at a place", at.judge, ("reached", "locked", "not reached", "no statement", "refused")),
        Judge("mark", "explain: the place of ^", mark.judge, ("L1", "E4")),
        Judge("also", "explain: the further refusals", also.judge, ("also L", "also E")),
        Judge("expected", "explain: the words and signs that would fit in the place of the one found", expected.judge, ("set",)),
        Judge("keeps", "camac-check --keeps: each proposal", keeps.judge, ("each", "keep", "guard", "heading", "needed", "alone")),
        Judge("response", "response: its lines", response.judge, LATE),
    )
}
