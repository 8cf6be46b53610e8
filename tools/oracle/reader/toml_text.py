"""The tables of a plan's text, by Python's tomllib, which reads TOML 1.0.

A text that TOML 1.1 reads and TOML 1.0 does not is left out: an inline table over several lines, with a comment, or with a comma at
its end. So is one with an escape of TOML 1.1, or with times, where tomllib is narrower than TOML itself.
"""
from __future__ import annotations

import re
import tomllib
from typing import Any, Dict, Iterator, List

from oracle.reader.refusals import LeftOut, Refused

# Strings, comments, brackets, commas, line ends: the parts that show an inline table over several lines.
PIECES = re.compile(r'("""(?:[^\\]|\\.)*?"""|\'\'\'.*?\'\'\'|"(?:[^"\\\n]|\\.)*"|\'[^\'\n]*\')|(#[^\n]*)|([{}\[\],\n])|([^"\'#{}\[\],\n]+|.)', re.DOTALL)
NEWER = re.compile(r"\\[ex]|\d\d:\d\d|\d{4}-\d\d-\d\d")
LEAST, MOST = -(2**63), 2**63 - 1


def read_toml(text: bytes) -> Dict[str, Any]:
    """The top table of a text. P1 if it is no TOML, or has a number of more than 64 bits."""
    try:
        letters = text.decode()
    except UnicodeDecodeError:
        raise Refused("P1") from None
    try:
        top = tomllib.loads(letters)
    except (tomllib.TOMLDecodeError, RecursionError):
        if is_newer(letters):
            raise LeftOut("TOML 1.1 reads it and TOML 1.0 does not") from None
        raise Refused("P1") from None
    except ValueError:
        raise LeftOut("a time that Python does not know") from None
    if any(type(it) is int and not LEAST <= it <= MOST for it in leaves(top)):
        raise Refused("P1")
    return top


def leaves(value: Any) -> Iterator[Any]:
    if isinstance(value, (dict, list)):
        for it in value.values() if isinstance(value, dict) else value:
            yield from leaves(it)
    else:
        yield value


def is_newer(letters: str) -> bool:
    """Whether TOML 1.1 may read a text that TOML 1.0 refuses."""
    if NEWER.search(letters):
        return True
    older = as_older(letters)
    if older == letters:
        return False
    try:
        tomllib.loads(older)
    except ValueError:
        return False
    return True


def as_older(letters: str) -> str:
    """The text with each inline table on one line, without comments and without a comma at its end."""
    open_brackets: List[str] = []
    made: List[str] = []
    for string, comment, sign, _ in PIECES.findall(letters.replace("\r\n", "\n")):
        is_inside = "{" in open_brackets
        piece = string or comment or sign or _
        if sign and sign in "{[":
            open_brackets.append(sign)
        elif sign and sign in "}]" and open_brackets:
            if open_brackets.pop() == "{" and sign == "}":
                made = without_last_comma(made)
        if is_inside and (comment or sign == "\n"):
            piece = " "
        made.append(piece)
    return "".join(made)


def without_last_comma(pieces: List[str]) -> List[str]:
    last = len(pieces) - 1
    while last >= 0 and not pieces[last].strip():
        last -= 1
    return pieces[:last] + pieces[last + 1 :] if last >= 0 and pieces[last] == "," else pieces
