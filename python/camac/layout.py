"""The one layout of scripts: two spaces a block, one statement a line, comments kept. What is laid out has the same tokens and the same comments."""
import re
from itertools import accumulate, chain
from typing import Dict, Iterator, List, NamedTuple, Optional, Sequence, Tuple

from camac.language import DECLARATIONS, NO_ASSIGNMENT, STATEMENTS
from camac.texts import GREATEST_DEPTH, GREATEST_TEXT
from camac.tokens import Row, is_token, rows_of

STEP, WIDTH = 2, 120
# Signs without a blank on one side.
TIGHT = frozenset(("(", ")", ",", "..", "{", "}"))
# A procedure's name is before its bracket without a blank.
CALLED = re.compile(r"(?<!\S)((?:call|proc) \S+) \(")
BEGIN = DECLARATIONS | STATEMENTS | {"}"}


class LayoutFault(Exception):
    """A text that has no layout: the line, and why."""

    def __init__(self, line: int, why: str) -> None:
        super().__init__(why)
        self.line = line


class Piece(NamedTuple):
    """A token or a comment; its line, how many lines ended between it and what is before it, and whether it begins a line of the layout."""

    text: str
    is_comment: bool
    line: int
    ended: int
    begins: bool


class Line(NamedTuple):
    """A line of the layout: how far in it is, its code and its comment, and whether a blank line is before it."""

    indent: int
    code: str
    comment: str
    is_apart: bool


def formatted(text: bytes) -> bytes:
    """A script in the one layout. Raises LayoutFault if it has a byte that begins no token, or braces that are not closed or too deep, or if it
    would be too long."""
    rows = rows_of(text)
    kept = _kept(rows)
    made = _written(_Layout(list(_pieces(rows, kept[0]))).lines()).encode("latin-1")
    if len(made) > GREATEST_TEXT >= len(text):
        raise LayoutFault(1, "laid out, this script would be longer than a script may be")
    if _kept(rows_of(made)) != kept:
        raise LayoutFault(1, "the layout would change this script, so it stays as it is")
    return made


def _kept(rows: List[Row]) -> Tuple[List[str], List[str]]:
    """What the layout of a text keeps: its tokens, and its comments without the blanks at their ends."""
    return list(chain.from_iterable(words for words, _ in rows)), [comment for _, comment in rows if comment]


def _pieces(rows: List[Row], tokens: List[str]) -> Iterator[Piece]:
    """The parts of a text, of these tokens, that are laid out. Raises LayoutFault at a byte that begins no token."""
    bad = {it for it in set(tokens) if not is_token(it)}
    at, ended = 0, 1
    for line, (words, comment) in enumerate(rows, 1):
        if bad and not bad.isdisjoint(words):
            sign = next(it for it in words if it in bad)
            shown = sign if sign.isascii() and sign.isprintable() else f"0x{ord(sign):02x}"
            raise LayoutFault(line, f"the byte `{shown}` begins no token")
        for word in words:
            yield Piece(word, False, line, ended, is_first(tokens, at))
            at, ended = at + 1, 0
        if comment:
            yield Piece(comment, True, line, ended, False)
            ended = 0
        ended += 1


def begins(tokens: Sequence[str]) -> Iterator[bool]:
    return (is_first(tokens, at) for at in range(len(tokens)))


def is_first(tokens: Sequence[str], at: int) -> bool:
    """Whether a token begins a declaration or a statement, or is a brace that ends a block, or is after one."""
    it = tokens[at]
    if it == "table":
        return at + 2 < len(tokens) and tokens[at + 2] == "="
    if it in BEGIN:
        return True
    before = tokens[at - 1] if at else "{"
    if before in "{}":
        return it != "else"
    return it[0].isalpha() and at + 1 < len(tokens) and tokens[at + 1] == "=" and before not in NO_ASSIGNMENT


class _Layout:
    """Pieces of a script, and the lines that were made of them."""

    def __init__(self, pieces: List[Piece]) -> None:
        self.pieces, self.depth = pieces, 0
        self.made: List[Line] = []
        self.ends = self.matched()

    def matched(self) -> List[Optional[int]]:
        """Of each `{` the place of its `}`."""
        ends: List[Optional[int]] = [None] * len(self.pieces)
        open_at: List[int] = []
        for at, it in enumerate(self.pieces):
            if it.text == "}":
                if not open_at:
                    raise LayoutFault(it.line, "this `}` closes nothing")
                ends[open_at.pop()] = at
            if it.text == "{":
                open_at.append(at)
            if len(open_at) > GREATEST_DEPTH:
                raise LayoutFault(it.line, f"more than {GREATEST_DEPTH} open `{{`: deeper than a script may be")
        if open_at:
            raise LayoutFault(self.pieces[open_at[-1]].line, "this `{` is not closed")
        return ends

    def lines(self) -> List[Line]:
        at = 0
        while at < len(self.pieces):
            at = self.comment(at) if self.pieces[at].is_comment else self.statement(at)
        return self.made

    def add(self, code: str, comment: str, ended: int, more: int = 0) -> None:
        is_apart = ended > 1 and bool(self.made) and self.made[-1].code[-1:] != "{" and code[:1] != "}" and not more
        self.made.append(Line(self.depth * STEP + more, code, comment, is_apart))

    def comment(self, at: int) -> int:
        """A comment between statements: behind what ends on its line, else on a line of its own."""
        it = self.pieces[at]
        if self.made and not it.ended and not self.made[-1].comment:
            self.made[-1] = self.made[-1]._replace(comment=it.text)
        else:
            self.add("", it.text, it.ended)
        return at + 1

    def statement(self, at: int) -> int:
        """Makes the lines of what begins here, up to the `{` of its block, and returns where the next begins."""
        first = self.pieces[at]
        if first.text == "}":
            self.depth -= 1
        end = self.end(at)
        short = self.short_end(at) if self.pieces[end - 1].text in "{}" else None
        end = short or end
        words: List[str] = []
        more, ended = 0, first.ended
        for place in range(at, end):
            it = self.pieces[place]
            if not it.is_comment:
                words.append(it.text)
                continue
            is_own = it.ended and words
            if words:
                more, ended = self.wrapped(words, "" if is_own else it.text, ended, more), 0
            if is_own or not words:
                self.add("", it.text, 0, more)
            words = []
        if words:
            self.wrapped(words, "", ended, more)
        if not short and self.made[-1].code.endswith("{"):
            self.depth += 1
        return end

    def end(self, at: int) -> int:
        """Where a line ends that begins here: behind its `{`, or before the next one. An empty block is behind its head, and `else` behind the
        `}` before it."""
        place = at
        while place < len(self.pieces):
            it = self.pieces[place]
            if it.begins and place > at:
                return self.without_comments(place)
            if it.text == "{":
                has_else = [one.text for one in self.pieces[place + 2 : place + 3]] == ["else"]
                return place + 2 if self.pieces[place + 1].text == "}" and not has_else else place + 1
            place += 1
        return self.without_comments(place)

    def without_comments(self, end: int) -> int:
        """Comments behind the last token of a statement are between statements."""
        while self.pieces[end - 1].is_comment:
            end -= 1
        return end

    def short_end(self, at: int) -> Optional[int]:
        """Where a statement ends whose blocks have at most one statement each, are on its line in the text, and have the room there."""
        if not self.depth or self.pieces[at].text == "}":
            return None
        end = None
        place = at
        while True:
            head = next((it for it in range(place, len(self.pieces)) if self.pieces[it].text in "{}" or self.pieces[it].begins and it > place), None)
            close = self.ends[head] if head is not None else None
            if head is None or close is None or any(it.ended for it in self.pieces[at + 1 : close + 1]):
                return None
            inside = self.pieces[head + 1 : close]
            if any(it.text == "{" for it in inside) or sum(it.begins for it in inside) > 1:
                return None
            end = place = close + 1
            if place == len(self.pieces) or self.pieces[place].text != "else":
                break
        code = _spaced([it.text for it in self.pieces[at:end]])
        return end if self.depth * STEP + len(code) <= WIDTH else None

    def wrapped(self, words: List[str], comment: str, ended: int, more: int) -> int:
        """Adds these words as a line, or as several if they are too many for one; the comment is behind the last. Returns how much
        further in the statement goes on."""
        code = _spaced(words)
        if self.depth * STEP + more + len(code) <= WIDTH:
            self.add(code, comment, ended, more)
            return 2 * STEP
        code = ""
        for part in re.findall("[^ ]+ ?", _spaced(words)):
            if code and self.depth * STEP + more + len(code) + len(part) > WIDTH:
                self.add(code.rstrip(), "", ended, more)
                code, more, ended = "", 2 * STEP, 0
            code += part
        self.add(code.rstrip(), comment, ended, more)
        return 2 * STEP


def _spaced(words: List[str]) -> str:
    """Words with the blanks between them."""
    code = " ".join(words)
    if TIGHT.isdisjoint(words):
        return code
    code = code.replace("( ", "(").replace(" )", ")").replace(" ,", ",").replace(" ..", "..").replace(".. ", "..").replace("{ }", "{}")
    return CALLED.sub(r"\1(", code) if "call" in words or "proc" in words else code


def _written(lines: List[Line]) -> str:
    """The text of lines. The comments behind the code of lines that follow each other are below each other."""
    runs = [*accumulate(it.is_apart or not (it.code and it.comment) for it in lines)]
    widths: Dict[int, int] = {}
    for run, it in zip(runs, lines):
        if it.code and it.comment:
            widths[run] = max(widths.get(run, 0), it.indent + len(it.code))
    made: List[str] = []
    for run, it in zip(runs, lines):
        code = " " * it.indent + it.code
        if it.code and it.comment:
            code = f"{code:{widths[run]}}  {it.comment}"
        made.append("\n" * it.is_apart + (code if it.code else code + it.comment) + "\n")
    return "".join(made)
