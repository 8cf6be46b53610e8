"""Fixes of faults: changes of a text, each with its title."""
from typing import Iterator, List, NamedTuple, Optional, Sequence, Tuple

from camac.explanations import NEAR, read_allowed
from camac.judge import OF_HEADINGS
from camac.loops.proposals import least_headings
from camac.loops.search import propose
from camac.lsp.refusals import Placed, refusals
from camac.lsp.workspace import Judged
from camac.names import NAMES
from camac.printed import read_headings
from camac.texts import Edit
from camac.tokens import tokens_of
from camac.warn import Code, Warned

MOST_TURNS = 65_535
# Rules of the checker that a loop breaks when it forgets a variable.
OF_LOOPS = frozenset(("E1", "E2", "E4", "E5", "E8", "E9", "E10", "E11", "E12", "E14", "E16", "E18", "E21"))
# What loops need is looked for at once in a script of at most so many bytes, else when it is asked for.
QUICK = 8_000
TITLES = {Code.UNUSED_KEEP: "Remove what is kept for nothing", Code.WIDE_KEEP: "Keep the least range", Code.EACH: "Judge the loop turn by turn"}


class Fix(NamedTuple):
    """A change that fixes something: its title, the edits, and the code of what it fixes."""

    title: str
    edits: Tuple[Edit, ...]
    code: str


def fixes(judged: Judged, lines: range, warned: Sequence[Warned]) -> Iterator[Fix]:
    """The fixes of the refusals and warnings on some lines of camac."""
    for it in refusals(judged):
        if judged.text.line_at(it.start) in lines:
            yield from _of_refusal(judged, it)
    for warning in warned:
        if warning.edits and warning.line in lines:
            yield Fix(TITLES[warning.code], warning.edits, warning.code.value)


def _of_refusal(judged: Judged, it: Placed) -> Iterator[Fix]:
    near = NEAR.find(it.message())
    if near and near.earlier:
        wrong = [one for one in NAMES.finditer(judged.text.data[: it.start].decode("latin-1")) if one[1] == near.earlier]
        if wrong:
            yield Fix(f"Write `{near.word}` in place of `{near.earlier}`", (Edit(*wrong[-1].span(), near.word),), it.code)
    elif near:
        yield Fix(f"Write `{near.word}`", (Edit(it.start, it.end, near.word),), it.code)
    number = _number(judged, it)
    if number:
        yield number
    if it.code in OF_HEADINGS:
        verdict = judged.ask("bounds")
        written = least_headings(judged.text.data, read_headings(verdict.text)) if verdict.accepted else []
        edits = tuple(edit for one in written for edit in one.edits)
        if edits:
            yield Fix("Write the least headings that are accepted (camac bounds)", edits, it.code)
    if it.code in OF_LOOPS and len(judged.text.data) <= QUICK:
        yield from kept(judged)


def _number(judged: Judged, it: Placed) -> Optional[Fix]:
    """The number in a refusal, put after its word."""
    allowed = read_allowed(it.sentence)
    if allowed is None:
        return None
    word, number = allowed
    # A heading or the head of a loop ends with its `{`.
    end = judged.text.data.find(b"{", it.start)
    tokens = tokens_of(judged.text.data, it.start, end if end > 0 else it.end)
    old = next((after for token, after in zip(tokens, tokens[1:]) if token.text == word and after.text.isdigit()), None)
    if old is None or number > (MOST_TURNS if word == "turns" else 4_294_967_295):
        return None
    return Fix(f"Write {number} after `{word}`", (Edit(old.start, old.end, str(number)),), it.code)


def kept(judged: Judged) -> List[Fix]:
    """What loops need, `each` first, as `camac-check --keeps` proposes it. This may take long."""
    found = judged.once("kept", lambda: propose(judged.judge.file, judged.text.data, judged.judge.program))
    edits = tuple(edit for it in found.proposals for edit in it.edits)
    what = "; ".join(it.text for it in found.proposals[:3]) + (" .." if len(found.proposals) > 3 else "")
    rest = "" if found.remaining is None else f" ({found.remaining.code} remains)"
    return [Fix(f"Write what helps the loops{rest}: {what}", edits, "keep")] if edits else []
