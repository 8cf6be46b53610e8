"""Why a script is refused: each refusal with its place."""
import re
from typing import Iterator, List, NamedTuple, Tuple

from camac.explanations import read_explanations
from camac.layout import begins
from camac.lsp.workspace import Judged
from camac.tokens import tokens_of

SIGN = re.compile(rb"[\x00-\xff][\x80-\xbf]*")


class Placed(NamedTuple):
    """A refusal with its place: the code, the line of the script, the place in bytes, the rule in words, what is said of the case, and the lines that follow."""

    code: str
    line: int
    start: int
    end: int
    text: str
    sentence: str
    advice: Tuple[str, ...]

    def message(self) -> str:
        return "\n".join([f"{self.text}. {self.sentence}".rstrip(), *self.advice])


def refusals(judged: Judged) -> List[Placed]:
    """Each refusal of a script: those of linking, or else the first of each of its bodies."""
    return judged.once("refusals", lambda: list(_refusals(judged)))


def _refusals(judged: Judged) -> Iterator[Placed]:
    for it in () if judged.is_accepted else read_explanations(judged.ask("tell").text):
        code, line, rule, column = it.refusal
        if line is not None and column is not None:
            yield Placed(code, line, *_place(judged, code, line, column), rule, it.sentence, it.advice)


def _place(judged: Judged, code: str, line: int, column: int) -> Tuple[int, int]:
    """The place of what is refused on a line, where it begins at this column."""
    data = judged.text.line_of(line)
    at, start = judged.text.line_starts[min(line, len(judged.text.line_starts)) - 1], column - 1
    if code == "S1":
        # A sign may have several bytes.
        return at + start, at + start + len(SIGN.match(data, start)[0])  # type: ignore[index]
    before = tokens_of(data)
    # The end of the script is shown at its last token.
    tokens = [it for it in before if it.start >= start] or before[-1:]
    if not tokens:
        return at + len(data), at + len(data)
    # A statement goes on to the next one, or to the end of the line.
    after = (place for place, it in enumerate(begins([it.text for it in tokens])) if place and (it or code[0] == "S"))
    return at + tokens[0].start, at + tokens[next(after, len(tokens)) - 1].end
