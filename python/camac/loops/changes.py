"""Changes of single statements, for when no loop helps: a comparison in the place of a difference, a difference that falls no lower than 0, a value as two
words, and a condition around what grows in a loop that is not judged turn by turn. What camac says of the case has the numbers."""
import enum
import re
from typing import NamedTuple, Optional

from camac.loops.trials import Stopped
from camac.texts import Edit
from camac.tree import Assign, Expression, If, Name, Number, Operation, Part, Plain, Statement, While, names_in, parts_of

MOST, WORD = 4_294_967_295, 16_777_216
LEAVES_OUT = "leaves out what would bring it above {}"
# What adds more at once may grow to more than one word.
MOST_STEP = WORD // 16
NO_TEXT = re.compile(r"(#[^\n]*|\s)+")
SIDES = re.compile(r"The left of `(.)` may be (?:\d+ to )?(\d+), the right (?:\d+ to )?(\d+)\.")
PUT = re.compile(r"The word may be (\d+),")


class Kind(enum.Enum):
    """What is proposed: that a loop is judged turn by turn, what a loop keeps, a condition around a statement, a difference or a comparison in another
    form, a value as two words, or the numbers of a heading."""

    EACH = "each"
    KEEP = "keep"
    GUARD = "guard"
    DIFFERENCE = "difference"
    COMPARISON = "comparison"
    WORDS = "words"
    HEADING = "heading"


class Change(NamedTuple):
    """A part of the text from `start` to `end`, in bytes, what takes its place, a remark on it, and for how much at once a condition leaves room."""

    kind: Kind
    start: int
    end: int
    text: str
    remark: str = ""
    step: int = 0

    def edit(self) -> Edit:
        return Edit(self.start, self.end, self.text)


def one_line(text: bytes, start: int, end: int) -> str:
    """A part of a script in one line, without comments."""
    return NO_TEXT.sub(" ", text[start:end].decode("utf-8", "replace")).strip()


def grows(it: Assign) -> bool:
    """Whether an assignment adds something to its own variable."""
    return it.name in names_in(it.value) and any(isinstance(one, Operation) and one.sign == "+" for one in parts_of(it.value))


class Changes:
    """What may be in the place of statements of a script."""

    def __init__(self, text: bytes) -> None:
        self.text = text

    def source(self, it: Expression) -> str:
        return one_line(self.text, it.start, it.end)

    def at(self, it: Statement, stopped: Stopped) -> Optional[Change]:
        """What may help in the statement that is refused."""
        put, sides = PUT.search(stopped.sentence), SIDES.search(stopped.sentence)
        if put and isinstance(it, Plain) and not isinstance(it.values[0], Number):
            return self.words(it, it.values[0])
        if sides and sides[1] == "-":
            differences = [one for value in it.expressions for one in parts_of(value) if isinstance(one, Operation) and one.sign == "-"]
            left, right = int(sides[2]), int(sides[3])
            return self.fall(it, differences[0], right if left + right <= MOST else 0) if differences else None
        return self.guard(it, min(int(sides[2]), int(sides[3]))) if sides and sides[1] == "+" and isinstance(it, Assign) and grows(it) else None

    def words(self, it: Plain, value: Expression) -> Change:
        source = self.source(value)
        if isinstance(value, Operation) and value.sign in "+-":
            source = f"({source})"
        return Change(Kind.WORDS, it.start, it.end, f"put {source} / {WORD}  put {source} % {WORD}", "two words, the high one first")

    def fall(self, it: Statement, fall: Operation, most: int) -> Optional[Change]:
        """A difference in another form. `most` is what is added to it, so that it does not fall below 0; 0 if that is too much."""
        left, right = self.source(fall.left), self.source(fall.right)
        if isinstance(it, Assign) and it.value is fall and isinstance(fall.left, Name) and fall.left.name == it.name and isinstance(fall.right, Number):
            return Change(Kind.GUARD, it.start, it.end, f"if {left} >= {right} {{ {one_line(self.text, it.start, it.end)} }}", "true unless it would fall below 0")
        if isinstance(it, (If, While)):
            return next((self.turned(one, left, right, one.sides.index(fall)) for one in it.parts if one.sides and fall in one.sides), None)
        if not most:
            return None
        raised = f"{left} + {most} - {right}"
        if isinstance(it, Assign) and it.value is fall:
            name = it.name
            text = f"{name} = {raised}  if {name} >= {most} {{ {name} = {name} - {most} }} else {{ {name} = 0 }}"
            return Change(Kind.DIFFERENCE, it.start, it.end, text, "0 if it would be below 0")
        is_put = isinstance(it, Plain) and it.word == "put" and it.values[0] is fall
        return Change(Kind.DIFFERENCE, it.start, it.end, f"put {raised}", f"{most} more than the difference") if is_put else None

    def turned(self, part: Part, left: str, right: str, side: int) -> Change:
        """A comparison with a difference: what is taken away on one side is added on the other."""
        assert part.sides
        one, two = part.sides
        sides = [left, f"{right} + {self.source(part.sides[1 - side])}"]
        return Change(Kind.COMPARISON, one.start, two.end, f" {one_line(self.text, one.end, two.start)} ".join(sides if side == 0 else sides[::-1]))

    def guard(self, it: Assign, step: int) -> Change:
        """A condition around what adds so much to its variable: it leaves room for many more, in one word of an event if it can."""
        limit = WORD - 1 if step <= MOST_STEP else MOST
        source = one_line(self.text, it.start, it.end)
        condition = f"< {limit}" if step == 1 else f"<= {limit} - {step}"
        return Change(Kind.GUARD, it.start, it.end, f"if {it.name} {condition} {{ {source} }}", LEAVES_OUT.format(limit), step)
