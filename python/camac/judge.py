"""`camac-check`: many scripts on one plan, each place as FILE:LINE or FILE:LINE:COLUMN, with warnings about what is accepted."""
import contextlib
from typing import TYPE_CHECKING, Callable, Dict, List, NamedTuple, Optional, Sequence, Tuple

from camac.drive import File, ProgramFault, Refused, UsageFault, one_line
from camac.explanations import Explanation, read_explanations
from camac.program import advice_on, output_of
from camac.texts import TextFile
from camac.values import Service
from camac.warn import look

if TYPE_CHECKING:
    from camac.loops.proposals import Proposal

ACCEPTED, REFUSED, FAULT = 0, 1, 3
# Rules that the numbers of a heading break.
OF_HEADINGS = frozenset(("E11", "E12", "E18"))
FORMATS = ("text", "json", "github", "sarif")
LEVELS = {"refused": "error", "fault": "error", "warning": "warning", "written": "notice", "proposed": "notice", "remaining": "error"}
# The characters that GitHub wants escaped in a message, and in a property.
MESSAGE, PROPERTY = "%\r\n", "%\r\n:,"
# How an explanation ends of a script in the place of the plan, or a plan in that of the script.
SWAPPED = "PLAN comes first, then SCRIPT"


class Found(NamedTuple):
    """What was found in a file: `kind` is "refused", "warning", "fault", "written" (a heading or a loop that was changed), "proposed" (a change that
    helps) or "remaining" (what refuses it with all that is proposed). `line` and `code` are None if there is none. `explanation` has what `camac
    explain` says of a refusal, or why a warning is given, by lines. `column` is that of its first token, or of a plan's key, in characters from 1."""

    kind: str
    line: Optional[int]
    code: Optional[str]
    text: str
    explanation: Tuple[str, ...] = ()
    column: Optional[int] = None

    def title(self) -> str:
        return f"{self.kind} {self.code}" if self.code else self.kind


class Judged(NamedTuple):
    """A plan or script, what was found in it, and the services of an accepted script."""

    file: str
    found: List[Found]
    services: List[Service]

    def status(self) -> int:
        kinds = {it.kind for it in self.found}
        return FAULT if "fault" in kinds else REFUSED if "refused" in kinds else ACCEPTED

    def text(self) -> str:
        """For people, and for editors that look for FILE:LINE: or FILE:LINE:COLUMN:."""
        numbers = ((it, "" if it.line is None else f":{it.line}", "" if it.column is None else f":{it.column}") for it in self.found)
        return "".join([f"{self.file}{line}{column}: {it.title()}: {it.text}\n" for it, line, column in numbers])

    def github(self) -> str:
        """For GitHub, which shows it at the line (workflow commands)."""
        lines = []
        for it in self.found:
            numbers = ",".join(f"{name}={number}" for name, number in (("line", it.line), ("col", it.column)) if number is not None)
            place = f"file={_escaped(self.file, PROPERTY)}" + (f",{numbers}" if numbers else "")
            message = _escaped("\n".join([it.text, *it.explanation]), MESSAGE)
            lines.append(f"::{LEVELS[it.kind]} {place},title={it.title()}::{message}\n")
        return "".join(lines)

    def value(self) -> Dict[str, object]:
        """For JSON."""
        found, services = [it._asdict() for it in self.found], [it._asdict() for it in self.services]
        return {"file": self.file, "accepted": self.status() == ACCEPTED, "found": found, "services": services}


def judge(plan: str, scripts: Sequence[str], program: Optional[File] = None, writes: bool = False, keeps: bool = False) -> List[Judged]:
    """Judges scripts on a plan. If `keeps`, what helps the loops of a refused script is proposed; if `writes`, the least headings are put into each
    script before, and with `keeps` what its loops need. A plan that is refused or cannot be read is reported alone, since no script can be
    judged then."""
    plan_file = TextFile(plan, is_plan=True)
    found = _faults(lambda: _look_at_plan(plan_file, program), [plan_file])
    if found:
        return [Judged(plan, found, [])]
    return [_judge_script(plan_file, it, program, writes, keeps) for it in scripts]


def _look_at_plan(plan: TextFile, program: Optional[File]) -> List[Found]:
    plan.text()
    output_of("explain", "--", plan, program=program)
    return []


def _judge_script(plan: TextFile, name: str, program: Optional[File], writes: bool, keeps: bool) -> Judged:
    services: List[Service] = []
    written: List[Found] = []
    script = TextFile(name)

    def write() -> List[Found]:
        # Few calls need these modules, so they are loaded here.
        from camac.loops.proposals import write_headings
        from camac.loops.search import write_keeps

        if keeps:
            written.extend(_changes("written", write_keeps(plan, name, program)))
        # What no heading fixes is found below.
        with contextlib.suppress(Refused):
            written.extend(_changes("written", write_headings(plan, name, program)))
        return []

    def judged() -> List[Found]:
        script.text()
        accepted, warned = look(plan, script, program)
        services.extend(accepted)
        return [Found("warning", it.line, it.code._value_, it.text) for it in warned]

    files = [plan, script]
    found = (_faults(write, files) if writes else []) or _faults(judged, files)
    if writes:
        found = [it for it in found if it.code not in OF_HEADINGS] or found
    is_refused = any(it.kind == "refused" for it in found)
    proposed = _faults(lambda: _proposed(plan, script, program), files) if keeps and is_refused else []
    return Judged(name, [*written, *found, *proposed], services)


def _proposed(plan: TextFile, script: TextFile, program: Optional[File]) -> List[Found]:
    from camac.loops.search import propose

    found = propose(plan, script.text(), program)
    left = found.remaining if found.proposals else None
    return _changes("proposed", found.proposals) + ([Found("remaining", left.line, left.code, left.text)] if left else [])


def _changes(kind: str, proposals: "Sequence[Proposal]") -> List[Found]:
    return [Found(kind, it.line, None, it.text) for it in proposals]


def _faults(call: Callable[[], List[Found]], files: List[TextFile]) -> List[Found]:
    """What a call finds in files, or the refusal or fault that ends it."""
    try:
        return call()
    except Refused as refusal:
        return [_refused(files[0], it) for it in read_explanations(refusal.printed)]
    except UsageFault:
        raise
    except ProgramFault as fault:
        return [Found("fault", None, None, one_line(fault))]
    except OSError as fault:
        if fault.filename not in [it.file for it in files]:
            raise
        return [Found("fault", None, None, str(fault.strerror or fault))]


def _refused(plan: TextFile, explained: Explanation) -> Found:
    code, line, rule, column = explained.refusal
    if line is None:
        # Few calls need this module, so it is loaded here.
        from camac.toml_places import place_of

        its_text = plan.text().decode("utf-8", "replace")
        start = place_of(its_text, explained.sentence).start
        line, column = its_text.count("\n", 0, start) + 1, start - its_text.rfind("\n", 0, start)
    text = f"{rule} ({SWAPPED})" if any(it.endswith(f"{SWAPPED}.") for it in explained.lines) else rule
    return Found("refused", line, code, text, explained.lines, column)


def advised(judged: Sequence[Judged], program: Optional[File] = None) -> List[Judged]:
    """The same, with what `camac explain` says of each warning: the program is called once for a code."""

    def of(it: Found) -> Found:
        return it._replace(explanation=advice_on(it.code, program)) if it.kind == "warning" and it.code else it

    return [it._replace(found=[of(one) for one in it.found]) for it in judged]


def text_of(judged: Sequence[Judged], form: str) -> str:
    """The output on all files, in one of `FORMATS`."""
    if form == "json":
        import json

        return json.dumps([it.value() for it in judged], indent=2) + "\n"
    return "".join(it.github() if form == "github" else it.text() for it in judged)


def _escaped(text: str, signs: str) -> str:
    return "".join(f"%{ord(sign):02X}" if sign in signs else sign for sign in text)


def status(judged: Sequence[Judged], is_strict: bool) -> int:
    """The greatest status of all files; where `is_strict`, a warning counts as a refusal."""
    worst = max(it.status() for it in judged)
    return max(worst, REFUSED) if is_strict and any(found.kind == "warning" for it in judged for found in it.found) else worst


