"""The scripts that a survey asks a branch by: plans of its own, texts that the program judges, and what the branch answered."""
import time
from typing import Iterable, List, NamedTuple, Optional, Tuple

from camac.drive import Answer, Branch, File, ProgramFault, add_note
from camac.functions import reads
from camac.mock import Operation, Recorder
from camac.output import passing_file
from camac.subcommands import call, plan as read_plan
from camac.values import Command, Ending, Plan

# The name of the look-at-me that calls the one service of a script.
SERVICE = "asked"


def declared_plan(plan: File, program: Optional[File]) -> Plan:
    """The plan with all that its types declare. Raises ProgramFault if the library alone reads it, which does not list that, and for the rest as
    `camac.plan`."""
    listed = read_plan(plan, program)
    if any(it.commands and not it.declarations for it in listed.types.values()):
        raise ProgramFault("the library does not list what a plan declares: this needs the program camac", 3)
    return listed


class Reach(NamedTuple):
    """A function at the sub-addresses from the first to the last one of a station."""

    station: int
    function: int
    first: int
    last: int

    def statement(self, crate: int) -> str:
        move = " -> v" if reads(self.function) else ""
        return f"  for a = {self.first} to {self.last} {{ cdreg r 1 {crate} {self.station} a  cfsa {self.function} r{move} }}"


class Script(NamedTuple):
    """A script with the plan on which it is judged, the bit of its service, and how many commands it sends at most."""

    name: str
    plan: str
    text: str
    bit: int
    commands: int


class Asked(NamedTuple):
    """What came of a script: the operations that were made, with their answers and seconds, and how it ended: "" if all of it was made."""

    script: Script
    made: List[Operation]
    seconds: List[float]
    fault: str = ""

    def answers(self) -> str:
        """The answer file with which `camac run` plays the script again."""
        lines = [Answer(gl=1 << (self.script.bit - 1)), *(it.answer for it in self.made)]
        return "".join(f"{it.line()}\n" for it in lines if it)

    def cycles(self) -> List[Tuple[Command, Answer]]:
        """Each cycle with its answer."""
        made = [(it.request.split(), it.answer) for it in self.made]
        return [(Command(*map(int, words[1:5])), answer) for words, answer in made if words[0] == "cycle" and answer]


class _Watched(Recorder):
    """Hands all on to a branch, and keeps what that took, and what it raised."""

    def __init__(self, branch: Branch) -> None:
        super().__init__(branch)
        self.seconds: List[float] = []
        self.raised: Optional[Exception] = None

    def keep(self, request: str, answer: Optional[Answer]) -> None:
        if not isinstance(answer, Answer) and not request.startswith("unlock"):
            raise TypeError(f"the branch answered {answer!r}, which is no Answer")
        super().keep(request, answer)

    def cycle(self, c: int, n: int, a: int, f: int, data: Optional[int]) -> Answer:
        begun = time.perf_counter()
        try:
            return super().cycle(c, n, a, f, data)
        except Exception as why:
            self.raised = why
            add_note(why, f"at crate {c} station {n} A{a} F{f}")
            raise
        finally:
            self.seconds.append(time.perf_counter() - begun)

    def lock(self, c: int) -> Answer:
        try:
            return super().lock(c)
        except Exception as why:
            self.raised = why
            raise


def service(lam: Tuple[int, int, int], cycles: int, body: Iterable[str]) -> str:
    """The text of a script with one service, which puts no word into its event."""
    crate, station, sub_address = lam
    head = f"cdlam {SERVICE} 1 {crate} {station} {sub_address}\nvar a k v\nservice {SERVICE} within {cycles} cycles event 0 words {{\n"
    return head + "".join(f"{line}\n" for line in body) + "}\n"


def ask(script: Script, branch: Branch, program: Optional[File] = None, timeout: Optional[float] = None) -> Asked:
    """Has the branch make a script, if the program accepts it. What the branch raises, and a wait that the plan does not permit, is the fault of what
    is returned. Raises what `camac.call` raises."""
    watched = _Watched(branch)
    with passing_file(script.plan.encode()) as plan, passing_file(script.text.encode()) as text:
        try:
            end = call(plan, text, SERVICE, watched, program=program, timeout=timeout)
            fault = "" if end.how is Ending.ENDED else f"a wait of {end.wait} cycles, which the plan does not permit"
        except Exception as why:
            if watched.raised is not why:
                raise
            fault = f"{type(why).__name__}: {why}"
    return Asked(script, watched.operations, watched.seconds, fault)
