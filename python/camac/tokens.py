"""The words, numbers and signs of a script, and where they are."""
import functools
import re
from typing import List, NamedTuple, Optional, Tuple

NAME = r"[A-Za-z][A-Za-z0-9_]*"
WORD = rf"{NAME}|[0-9]+|->|<-|\.\.|<=|>=|==|!=|[-{{}}()+*/%=,<>]"
# A token, or a byte that begins none, in what is no comment.
PIECE = re.compile(rf"{WORD}|[^ \t\r]")
COMMENT = re.compile("#[^\n]*")
# What bytes are blanks at the end of a comment.
BLANKS = " \t\r\v\f"


class Token(NamedTuple):
    """A word, a number or a sign of a script, where it is, and its line."""

    text: str
    start: int
    end: int
    line: int


def tokens_of(text: bytes, start: int = 0, end: Optional[int] = None) -> List[Token]:
    """The tokens of a text, or of a part of it."""
    before = text.count(b"\n", 0, start)
    return [Token(it, start + at, start + at + len(it), before + line) for it, at, line in zip(*cut(text[start:end])) if is_token(it)]


def cut(text: bytes) -> Tuple[List[str], List[int], List[int]]:
    """The tokens of a text, where each begins, and its line. A byte that begins no token is one here."""
    found: Tuple[List[str], List[int], List[int]] = [], [], []
    (words, starts, lines), at, line = found, 0, 1
    # Bytes are signs of the same number, so that places are those in the bytes. In tabs there is no token.
    for piece in COMMENT.sub(lambda it: "\t" * len(it[0]), text.decode("latin-1")).replace("\n", " \n ").split(" "):
        if piece == "\n":
            line += 1
            continue
        for word, place in _pieces(piece):
            words.append(word)
            starts.append(at + place)
            lines.append(line)
        at += len(piece) + 1
    return found


# Most tokens are between blanks, and few of them differ: to look for each takes three times as long.
@functools.lru_cache(maxsize=8192)
def _pieces(piece: str) -> List[Tuple[str, int]]:
    """The tokens of a piece between blanks, and where they are in it."""
    return [(it[0], it.start()) for it in PIECE.finditer(piece)]


# The tokens of a line, and its comment without the blanks at its end. A byte that begins no token is one here.
Row = Tuple[List[str], str]


def rows_of(text: bytes) -> List[Row]:
    """The lines of any text. Bytes are signs of the same number, so that what is no UTF-8 is kept."""
    return list(map(_row, text.decode("latin-1").split("\n")))


# An edit changes few lines, so an editor asks for nearly the same ones again.
@functools.lru_cache(maxsize=8192)
def _row(line: str) -> Row:
    code, sign, comment = line.partition("#")
    return [word for piece in code.split(" ") for word, _ in _pieces(piece)], f"#{comment}".rstrip(BLANKS) if sign else ""


@functools.lru_cache(maxsize=8192)
def is_token(piece: str) -> bool:
    """Whether a piece is a token, and no byte that begins none."""
    return re.fullmatch(WORD, piece) is not None
