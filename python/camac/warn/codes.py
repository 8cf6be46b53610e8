"""The codes of warnings. `camac explain CODE` says what each means, why that is warned of, and what helps."""
import enum
from typing import NamedTuple, Tuple

from camac.texts import Edit


class Code(enum.Enum):
    """What a warning is about."""

    UNREACHED = "W1"
    EMPTY_SCAN = "W2"
    UNKEPT = "W3"
    UNUSED_KEEP = "W4"
    NO_SERVICE = "W5"
    HELD_UP = "W6"
    EACH = "W7"
    WIDE_KEEP = "W8"
    DROPPED = "W9"
    ONE_NUMBER = "W10"
    UNSET = "W11"
    TWINS = "W12"
    EARLY_FLAG = "W13"
    UNUSED_NAME = "W14"
    LEADING_ZERO = "W15"
    DECIDED = "W16"
    LEFT_OUT = "W17"


class Warned(NamedTuple):
    """A warning: the line of the script, from 1, what it is about, a sentence, and the edits that fix it, if they are known."""

    line: int
    code: Code
    text: str
    edits: Tuple[Edit, ...] = ()
