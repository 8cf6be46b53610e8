"""The tokens of a script."""
from __future__ import annotations

import re
from typing import List, NamedTuple

from oracle.reader.refusals import MOST, Refused

KEYWORDS = frozenset(
    b"""table cdlam var proc service within cycles event words steps cdreg cfsa cssa cfmad cfubc cfubr max limit tally put
    cccz cccc ctci ctcd ctgl ccci cccd on off cclm cclc ctlm if else for to while turns by keep in lock call and not q x""".split()
)
LONGEST_NAME = 32
PATTERN = re.compile(rb"([ \t\r\n]+|#[^\n]*)|([A-Za-z][A-Za-z0-9_]*)|([0-9]+)|(<=|>=|==|!=|->|<-|\.\.|[{}()+\-*/%=,<>])")


class Token(NamedTuple):
    """A token. `kind` is `name`, `number` or `end`, or a keyword or sign itself; `start` is the byte of the text at which it begins."""

    kind: str
    text: str
    value: int
    line: int
    start: int


def read_tokens(text: bytes) -> List[Token]:
    """The tokens of a text, with its end as the last one. The first token fault is S1, S3 or S6."""
    tokens: List[Token] = []
    at, line = 0, 1
    while at < len(text):
        found = PATTERN.match(text, at)
        start = at
        if not found:
            raise Refused("S1", line, start)
        at, piece = found.end(), found.group()
        if found.group(2) and piece not in KEYWORDS:
            if len(piece) > LONGEST_NAME:
                raise Refused("S6", line, start)
            tokens.append(Token("name", piece.decode(), 0, line, start))
        elif found.group(3):
            tokens.append(Token("number", "", number(piece, line, start), line, start))
        elif found.group(1):
            line += piece.count(b"\n")
        else:
            tokens.append(Token(piece.decode(), "", 0, line, start))
    tokens.append(Token("end", "", 0, line, at))
    return tokens


def number(digits: bytes, line: int, start: int) -> int:
    """The number of these digits, however many there are."""
    digits = digits.lstrip(b"0") or b"0"
    if len(digits) > 10 or int(digits) > MOST:
        raise Refused("S3", line, start)
    return int(digits)
