"""Open texts: their lines, columns in UTF-16, places in bytes, and the changes that a client sends."""
import bisect
import re
from functools import cached_property
from itertools import accumulate
from typing import Any, Dict, Iterable, List, Sequence, Tuple

from camac.texts import Edit

Position = Dict[str, int]
Range = Dict[str, Position]
# The ends of lines that the protocol knows. camac ends a line by LF alone.
END = re.compile("\r\n|\n|\r")


def _after(text: str, units: int) -> int:
    """How many signs of a text so many units of UTF-16 are: a unit within a pair counts as the pair's begin."""
    if text.isascii():
        return min(units, len(text))
    for at, it in enumerate(text):
        units -= 2 if it > "\uffff" else 1
        if units < 0:
            return at
    return len(text)


class Text:
    """A text as the protocol and the checker count it. It does not change."""

    def __init__(self, text: str) -> None:
        if not isinstance(text, str):
            raise TypeError(f"this is no text: {text!r}")
        self.text = text

    @cached_property
    def data(self) -> bytes:
        return self.text.encode("utf-8", "surrogatepass")

    @cached_property
    def starts(self) -> List[int]:
        """Where each line of the protocol begins, in signs."""
        return self.byte_starts if self.text.isascii() else [0, *(it.end() for it in END.finditer(self.text))]

    @cached_property
    def byte_starts(self) -> List[int]:
        """Where each line of the protocol begins, in bytes."""
        ends = list(accumulate(map(len, self.data.splitlines(True))))
        return [0, *(ends if self.data.endswith((b"\n", b"\r")) else ends[:-1])]

    @cached_property
    def line_starts(self) -> List[int]:
        """Where each line of camac begins, in bytes."""
        return self.byte_starts if b"\r" not in self.data else [0, *(it.end() for it in re.finditer(b"\n", self.data))]

    def line(self, number: int) -> str:
        """A line of the protocol, from 0, without its end."""
        if number + 1 >= len(self.starts):
            return self.text[self.starts[-1] :] if number < len(self.starts) else ""
        return self.text[self.starts[number] : self.starts[number + 1]].rstrip("\r\n")

    def sign(self, at: Position) -> int:
        """The place of a position in signs. One past the end of its line, or of the text, is there."""
        number = at["line"]
        if number >= len(self.starts):
            return len(self.text)
        return self.starts[max(0, number)] + _after(self.line(max(0, number)), max(0, at["character"]))

    def place(self, at: Position) -> int:
        """The place of a position in bytes."""
        sign = self.sign(at)
        if self.text.isascii():
            return sign
        number = bisect.bisect_right(self.starts, sign) - 1
        return self.byte_starts[number] + len(self.text[self.starts[number] : sign].encode("utf-8", "surrogatepass"))

    def position(self, place: int) -> Position:
        """The position of a place in bytes."""
        place = min(max(0, place), len(self.data))
        if self.text.isascii():
            number = bisect.bisect_right(self.starts, place) - 1
            return {"line": number, "character": place - self.starts[number]}
        while self.data[place : place + 1] and self.data[place] & 0xC0 == 0x80:
            place -= 1  # a byte within a sign
        number = bisect.bisect_right(self.byte_starts, place) - 1
        before = self.data[self.byte_starts[number] : place].decode("utf-8", "surrogatepass")
        return {"line": number, "character": len(before) + sum(it > "\uffff" for it in before)}

    def range(self, start: int, end: int) -> Range:
        return {"start": self.position(start), "end": self.position(end)}

    def line_at(self, place: int) -> int:
        """The line of camac, from 1, of a place in bytes."""
        return bisect.bisect_right(self.line_starts, place)

    def line_and_column(self, place: int) -> Tuple[int, int]:
        """The line of camac of a place in bytes, and its column there, in bytes from 1."""
        line = self.line_at(place)
        return line, place - self.line_starts[line - 1] + 1

    def line_of(self, number: int) -> bytes:
        """A line of camac, from 1, without its end."""
        starts = self.line_starts
        number = min(max(1, number), len(starts))
        end = starts[number] - 1 if number < len(starts) else len(self.data)
        return self.data[starts[number - 1] : end]

    def changed(self, changes: Iterable[Dict[str, Any]]) -> "Text":
        """The text after changes, one after another: of ranges, or of all of it."""
        text = self
        for it in changes:
            if it.get("range"):
                start, end = text.sign(it["range"]["start"]), text.sign(it["range"]["end"])
                text = text.with_part(start, max(start, end), it["text"])
            else:
                text = Text(it["text"])
        return text

    def with_part(self, start: int, end: int, new: str) -> "Text":
        """The text with another part from one place in signs to another."""
        made = Text(self.text[:start] + new + self.text[end:])
        if self.text.isascii() and new.isascii() and "\r" not in self.text + new:
            # Of many lines few change.
            starts, more = self.byte_starts, len(new) - (end - start)
            first, last = bisect.bisect_right(starts, start), bisect.bisect_right(starts, end)
            made.byte_starts = [*starts[:first], *(start + it for it in Text(new).byte_starts[1:]), *(it + more for it in starts[last:])]
        return made

    def edits(self, edits: Sequence[Edit]) -> List[Dict[str, Any]]:
        """Changes by places in bytes, in the protocol's form."""
        return [{"range": self.range(it.start, it.end), "newText": it.text} for it in sorted(edits)]
