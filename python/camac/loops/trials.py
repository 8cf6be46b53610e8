"""Tries changes of a script on the checker, each by one call."""
from typing import Dict, List, NamedTuple, Optional, Sequence, Tuple, Union

from camac.drive import File
from camac.explanations import read_explanation
from camac.program import Verdict, verdict
from camac.texts import Edit, edited
from camac.tree import Body, Statement

# With BOUNDS headings are not looked at. Both say more of a refusal than its rule.
CHECK, BOUNDS = "explain", "explain --bounds"


class Stopped(NamedTuple):
    """What refuses a script: the rule, the statement or body that it is about, if one is known, the rule in words, and the case in a sentence."""

    code: str
    about: Union[Statement, Body, None]
    rule: str
    sentence: str


class Trials:
    """A script on a plan, with which changes are tried. Each of its statements is judged on a line of its own, so that a refusal names one."""

    def __init__(self, plan: File, text: bytes, bodies: Sequence[Body], program: Optional[File]) -> None:
        self.plan, self.text, self.program = plan, text, program
        self.told: Dict[Tuple[str, Tuple[Edit, ...]], Verdict] = {}
        self.breaks: List[Edit] = []
        self.at: Dict[int, Union[Statement, Body]] = {}
        for body in bodies:
            self.at[body.line + len(self.breaks)] = body
            for it in body.every:
                self.breaks.append(Edit(it.start, it.start, "\n"))
                self.at[it.line + len(self.breaks)] = it

    def judged(self, command: str, edits: Sequence[Edit]) -> Verdict:
        """What camac says of the script with these changes. It is asked once."""
        key = command, tuple(edits)
        if key not in self.told:
            # What is replaced keeps its lines.
            kept = [it._replace(text=it.text + "\n" * self.text.count(b"\n", it.start, it.end)) for it in edits]
            self.told[key] = verdict(command, self.plan, edited(self.text, [*self.breaks, *kept]), self.program)
        return self.told[key]

    def stopped(self, command: str, edits: Sequence[Edit]) -> Optional[Stopped]:
        """What refuses the script with these changes; None if it is accepted."""
        explained = read_explanation(self.judged(command, edits).text)
        return explained and Stopped(explained.refusal.code, self.at.get(explained.refusal.line or 0), explained.refusal.rule, explained.sentence)
