"""What is shown at the lines of a text: refusals, warnings, and faults of plans."""
import functools
from typing import TYPE_CHECKING, Any, Dict, List, Optional

from camac.explanations import read_explanation
from camac.lsp.documents import Range, Text
from camac.lsp.refusals import refusals
from camac.lsp.workspace import Judge, Judged
from camac.program import advice_on

if TYPE_CHECKING:
    from camac.warn import Warned

ERROR, WARNING = 1, 2
# What is never reached, and what is kept for nothing, is shown so.
UNNECESSARY, FADED = [1], ("W1", "W4")
Diagnostic = Dict[str, Any]


@functools.lru_cache(maxsize=None)
def page(name: str) -> Optional[str]:
    """The URI of a page of the documentation, where ./install put it, or in the repository."""
    import pathlib

    folders = pathlib.Path(__file__).resolve().parents
    places = (it / docs / name for it in folders for docs in ("docs", "share/doc/camac/docs"))
    return next((it.as_uri() for it in places if it.is_file()), None)


def shown(code: str, text: str, severity: int, place: Range) -> Diagnostic:
    """A diagnostic, with a link to what the pages say of its code."""
    made: Diagnostic = {"range": place, "severity": severity, "source": "camac", "message": text}
    if code:
        made["code"] = code
        link = page("REFUSALS.md")
        if link:
            made["codeDescription"] = {"href": f"{link}#{code.lower()}"}
    return made


def of_refusals(judged: Judged) -> List[Diagnostic]:
    """Why a script is refused; of a plan that is refused, or of a fault, what it is, on the first line."""
    if judged.is_accepted:
        return []
    found, verdict = refusals(judged), judged.ask("tell")
    if found:
        return [shown(it.code, it.message(), ERROR, judged.text.range(it.start, it.end)) for it in found]
    of_its_plan = read_explanation(verdict.text)
    if of_its_plan is None:
        return [of_fault(judged.text, verdict.text.rstrip("\n"))]
    text = f"the plan is refused: {of_its_plan.refusal.rule}"
    return [shown(of_its_plan.refusal.code, "\n".join([text, *of_its_plan.lines]), ERROR, line_range(judged.text, 1))]


def of_fault(text: Text, why: str) -> Diagnostic:
    """Something that keeps a script from being judged, on its first line."""
    return shown("", why, ERROR, line_range(text, 1))


def of_plan(judge: Judge, text: Text) -> List[Diagnostic]:
    verdict = judge.explained
    if verdict.accepted:
        return []
    explained = read_explanation(verdict.text)
    if explained is None:
        return [of_fault(text, verdict.text.partition("\n")[0])]
    from camac.toml_places import place_of

    place = place_of(text.text, explained.sentence)
    start, end = (len(text.text[:it].encode("utf-8", "surrogatepass")) for it in place)
    message = "\n".join([f"{explained.refusal.rule}. {explained.sentence}".rstrip(), *explained.advice])
    return [shown(explained.refusal.code, message, ERROR, text.range(start, end))]


def warned(judged: Judged) -> "List[Warned]":
    """The warnings of a script; none if it is refused. This may take long."""
    verdict, judge = judged.ask("tell"), judged.judge
    if not verdict.accepted:
        return []
    from camac.warn import look_at

    return look_at(judge.file, judged.text.data, verdict.text, judge.program)[1]


def of_warning(it: "Warned", text: Text) -> Diagnostic:
    made = shown(it.code.value, "\n".join([it.text, *advice_on(it.code.value)[:-1]]), WARNING, line_range(text, it.line))
    if it.code.value in FADED:
        made["tags"] = UNNECESSARY
    return made


def line_range(text: Text, line: int) -> Range:
    at, data = text.line_starts[min(line, len(text.line_starts)) - 1], text.line_of(line)
    code = data.partition(b"#")[0].rstrip() or data.rstrip()
    return text.range(at + len(code) - len(code.lstrip()), at + len(code))
