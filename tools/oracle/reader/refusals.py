"""Codes of refusals, their texts, and the faults that end a call of the program."""
from __future__ import annotations

from typing import List

TEXTS = {
    "P1": "not TOML", "P2": "unknown key", "P3": "missing key or wrong kind", "P4": "value out of range", "P5": "crate twice",
    "P6": "station twice", "P7": "unknown module type", "P8": "declared twice", "P9": "GL bit twice",
    "P11": "nested too deeply",
    "S1": "bad byte", "S2": "unexpected token", "S3": "number too large", "S4": "name declared twice", "S5": "name not declared",
    "S6": "limit passed", "S7": "branch not 1",
    "L1": "LAM at no installed station", "L2": "station without GL bit", "L3": "two services on one station", "L4": "event above the buffer",
    "E1": "station may not be installed", "E2": "command may not be declared", "E3": "data direction does not fit", "E4": "value out of range",
    "E5": "value too wide", "E6": "register may be unset", "E7": "measure rule broken", "E8": "keep fails at entry",
    "E9": "keep fails after a turn", "E10": "too many turns", "E11": "more event words than annotated", "E12": "more cycles than annotated",
    "E13": "crates of a scan differ", "E14": "count above the table", "E15": "crate unfit for the call", "E16": "word above 24 bits",
    "E17": "loop variable assigned", "E18": "too many steps", "E21": "argument out of range",
    "A1": "line shape", "A2": "bad digit", "A4": "too many answers",
    "V1": "header", "V2": "marker", "V3": "GL number", "V4": "event number", "V5": "count", "V6": "word", "V7": "truncated", "V9": "X count",
}

TEXT_LIMIT = 1_048_576
EVENT_FILE_LIMIT = 16_777_216
MOST = 4_294_967_295


class Refused(Exception):
    """A rule that is broken: its code, and the line (S, L, E, A) or byte (V) where, which a plan's refusal has not.

    `what` is refused: the byte of a script's text at which the fault begins (S), a `cdlam` (L), a heading (L, E) or a statement (E). `turns` has the
    variable and the number of each `each` around it, the outermost first.
    """

    def __init__(self, code: str, place: int = 0, what: object = None) -> None:
        super().__init__(code, place)
        self.code, self.place, self.what = code, place, what
        self.turns: List[str] = []

    def line(self) -> str:
        """The line that the program prints."""
        where = {"P": "", "V": f" byte {self.place}"}.get(self.code[0], f" line {self.place}")
        return f"refused {self.code}{where}: {TEXTS[self.code]}"


class TooLong(Exception):
    """A text above its limit."""


class LeftOut(Exception):
    """This reader does not judge the text; the reason is its message."""
