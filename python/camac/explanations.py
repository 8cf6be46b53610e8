"""What the program explains of a refusal, as values: its sentence, what that is about, and the words in it."""
import re
from typing import Any, Dict, List, NamedTuple, Optional, Tuple, Union

from camac.printed import REFUSAL, Form, first_of
from camac.values import Refusal

Fields = Form[Dict[str, Any]]


class Explanation(NamedTuple):
    """What is said of a refusal: of the case ("" if nothing is), the lines that follow, and all lines below the refusal."""

    refusal: Refusal
    sentence: str
    advice: Tuple[str, ...]
    lines: Tuple[str, ...]


class Near(NamedTuple):
    """A word that may be meant in place of the one refused, or of an earlier one."""

    word: str
    earlier: Optional[str]


class Step(NamedTuple):
    """A step to what a plan's sentence is about: a table of `array` that is known by its name or number, or by its place among them (from 1).
    Without an array the name is a key."""

    array: str
    name: str
    place: int = 0


# Where a refusal begins in what `camac tell` prints; and a line of the script below one, or the mark below that.
REFUSED = "(?m)^(?=refused )"
SOURCE_OR_MARK = r" *\d+ \|.*| *\| \s*\^"
NEAR = Form(Near, r"Did you mean `{word:quoted}`(?: instead of `{earlier:quoted}`)?\?")
MAY_STAND: Fields = Form(dict, r"^Found the end of the script; expected {words:some}\.(?: |$)")
NOT_DECLARED: Fields = Form(dict, r"is not declared above as an? {kind:word}\b")
ALLOWED: "Tuple[Form[Tuple[str, int]], ...]" = (
    Form(lambda number, word: (word, number), "may (?:take|keep) {number} {word:unit}, its heading allows"),
    Form(lambda number: ("turns", number), r"The loop may take {number} turns, and \d+ are allowed"),
    Form(lambda number: ("turns", number), r"The number after `turns` is \d+, and no loop may take more than {number} turns"),
)
PLACE: Fields = Form(dict, r"\ALine {line}, column {column}")
STEPS = (
    Form(lambda array, place, of: Step(of or array, "", place), "{array:array} number {place}(?: of `{of:word}`)?"),
    Form(lambda array, place, of: Step(of or array, "", place), "{place:ordinal} {array:array}(?: of `{of:word}`)?"),
    Form(Step, "{array:array} `?{name:quoted}`?"),
    Form(lambda key: Step("", key), "`?{key:word}`?"),
)


def read_explanation(printed: str) -> Optional[Explanation]:
    """What `camac explain` prints of a refusal, or `camac tell` of one; None if it says no refusal."""
    first, *lines = printed.rstrip("\n").split("\n")
    refusal = REFUSAL.read(first)
    if refusal is None:
        return None
    texts = [it for it in lines if not re.fullmatch(SOURCE_OR_MARK, it)]
    sentence = texts.pop(0) if texts and not texts[0].startswith(("Why: ", "Fix: ")) else ""
    return Explanation(refusal, sentence, tuple(texts), tuple(lines))


def read_explanations(printed: str) -> List[Explanation]:
    """The refusals in what `camac tell` prints."""
    return [it for it in map(read_explanation, re.split(REFUSED, printed)) if it]


def read_expected(printed: str) -> Optional[List[str]]:
    """What `camac explain` expects in place of the end of a script: words in backquotes, and what it calls by words; None if it is another refusal."""
    found = MAY_STAND.find(printed)
    return re.split(", | or ", found["words"]) if found else None


def read_allowed(sentence: str) -> Optional[Tuple[str, int]]:
    """The number that a loop or a heading has to say, with the word before it."""
    return next((it for it in (form.find(sentence) for form in ALLOWED) if it), None)


def read_place(sentence: str) -> Union[Tuple[int, int], List[Optional[Step]]]:
    """What a sentence on a plan is about: line and column, or the steps to a table or key (None for what is no step)."""
    at = PLACE.find(sentence)
    if at:
        return at["line"], at["column"]
    return [first_of(step, STEPS) for step in sentence.partition(":")[0].split(", ")]
