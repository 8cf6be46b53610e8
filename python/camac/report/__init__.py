"""The report: one page of HTML with all that is known of a run. It fetches nothing, and opens from a file."""
import contextlib
from typing import List, Mapping, NamedTuple, Optional, Tuple

from camac.columns import Naming, gather
from camac.drive import File, Refused
from camac.program import knows_command, lines_of
from camac.proof import told
from camac.pictures.svg import escape
from camac.report.page import figure, header, page
from camac.fits import Check
from camac.runs import Inputs, Run
from camac.subcommands import check, costs, plan as read_plan, response
from camac.texts import hashed, plan_text, source_lines
from camac.values import Body

# The lines that are shown before and behind the place of a refusal.
AROUND = 6


class Report(NamedTuple):
    """The page, and the status: 0; 1 if plan, script, an answer or the event file is refused, if a wait was not permitted, or if
    numbers that have to agree differ."""

    text: str
    status: int


def report(
    inputs: Inputs, program: Optional[File] = None, every: Optional[Mapping[str, int]] = None, naming: Naming = Naming(),
    survey: Optional[File] = None,
) -> Report:
    """Makes the page of a run, or of the refusal of plan or script. `every` are the rates of modules, as `camac.response` takes them; `naming`
    says what the words of events are, and `survey` is a file that camac-survey made.

    Raises OSError if a file cannot be read, UsageFault if a rate is none of a service or a name none of a word, WordsFault,
    ValueError if the file is no survey, and ProgramFault as `camac.run`."""
    return report_with_run(inputs, program, every, naming, survey)[0]


def report_with_run(
    inputs: Inputs, program: Optional[File], every: Optional[Mapping[str, int]], naming: Naming, survey: Optional[File]
) -> Tuple[Report, Optional[Run]]:
    """The same with the run, if plan and script are not refused."""
    try:
        plan = read_plan(inputs.plan, program)
        services = check(inputs.plan, inputs.script, program)
        responses = response(inputs.plan, inputs.script, every, program) if knows_command("response", program) else None
        run = gather(inputs, plan, services, program, responses or (), naming)
    except Refused as refusal:
        return Report(_refused_page(inputs, str(refusal), program), 1), None
    bodies = run.bodies or (costs(inputs.plan, inputs.script, program) if knows_command("costs", program) else None)
    if bodies is not None:
        run.checks.append(_shares_check(bodies))
    if survey is not None:
        from camac.surveys.summary import read_summary

        found, digest = read_summary(survey), hashed(plan_text(inputs.plan)).hexdigest()
        run.checks.append(Check(f"crates and plan: {'; '.join([found.line(digest), *found.differences])}", found.is_good(digest)))
    from camac.report import sections

    facts = sections.Facts(inputs, told(program), plan, services, bodies, responses, run)
    text = page(f"{sections.base_name(inputs.script)}: report", sections.head(facts), [it(facts) for it in sections.PARTS])
    return Report(text, 0 if run.agrees() and run.is_good() else 1), run


def _shares_check(bodies: List[Body]) -> Check:
    """Whether the shares of each body's statements add up to its bound."""
    wrong = [body for body in bodies if any(sum(row.share[k] for row in body.rows) != body.most[k] for k in range(3))]
    differ = [f"{body.kind.value} {body.name}" for body in wrong]
    text = f"the shares of the lines add up to the bounds ({len(bodies)} bodies; cycles, words and steps)"
    return Check(text + (f", but for {', '.join(differ)}" if differ else ""), not differ)


def _refused_page(inputs: Inputs, line: str, program: Optional[File] = None) -> str:
    """The page where plan or script is refused; `line` is what the program says. It has what `camac explain` says, the lines around the place, and the
    plan if it is good."""
    from camac.pictures.plan import draw_plan
    from camac.report.sections import base_name

    explanation = "\n".join(lines_of("explain", "--", inputs.plan, inputs.script, program=program)) or line
    parts = [
        f'<p class="bad">{escape(line)}</p>',
        f"<p>A script that is refused has no run. The program explains:</p><pre>{escape(explanation)}</pre>",
    ]
    at = Refused(line).line
    if at:
        source, lines = source_lines(inputs.script), []
        for number in range(max(1, at - AROUND), min(len(source), at + AROUND) + 1):
            text = f"{number:>6} {'&gt;' if number == at else ' '} {escape(source[number - 1])}\n"
            lines.append(f'<b class="bad">{text}</b>' if number == at else text)
        parts.append(f"<h2>The place</h2><pre>{''.join(lines)}</pre>")
    with contextlib.suppress(Refused):
        parts.append("<h2>The plan</h2>" + figure(draw_plan(read_plan(inputs.plan, program))))
    title = f"{base_name(inputs.script)}: refused"
    return page(title, header(title), parts)
