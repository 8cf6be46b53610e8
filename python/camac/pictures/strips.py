"""A service cycle by cycle: a cell for each dataway cycle, with waits, locks, Q and X."""
from typing import Dict, Optional, Sequence, Tuple

from camac.functions import CONTROLLERS, reads, writes
from camac.pictures.svg import NO_POINTER, WIDTH, Canvas, count, number
from camac.runs import Operation, Served
from camac.values import Cycle, Lock, Service, Unlock

CELL, WAIT = 17, 6
ROW = 52
# Above so many, waits are one cell with their number.
MOST_WAIT_CELLS = 3
LABEL_10 = 6.1
KINDS = {"read": "reads", "write": "writes", "control": "moves no data", "controller": "the crate's controller"}


def kind_of(cycle: Cycle) -> str:
    """The class of a cycle's cell."""
    if cycle.command.station in CONTROLLERS:
        return "controller"
    function = cycle.command.function
    return "read" if reads(function) else "write" if writes(function) else "control"


def draw_strip(kept: Served, service: Optional[Service], why: str, has_legend: bool = True) -> Canvas:
    """Draws the cells of a service, row below row; `why` says why this service is shown."""
    canvas = Canvas(f"Service {kept.number:,} cycle by cycle")
    name = service.name if service else f"GL {kept.gl}"
    bound = f" of {service.cycles:,}" if service else ""
    canvas.text(0, 14, f"service {kept.number:,}, {name}: {kept.cycles:,}{bound} cycles ({why})", "b")
    y = _Strip(canvas).draw(kept.operations)
    if kept.more:
        canvas.text(0, y + 8, f"… and {count(kept.more, 'more operation')}", "mute s11")
        y += 14
    canvas.grow(y)
    if has_legend:
        _draw_legend(canvas, y)
    return canvas


class _Strip:
    """The place at which the next cell is, and the locks that are held there."""

    def __init__(self, canvas: Canvas) -> None:
        self.canvas, self.x, self.y = canvas, 0.0, 26.0
        self.locks: Dict[int, float] = {}
        self.label: Optional[Tuple[int, int, int]] = None
        self.label_ends = [-99.0, -99.0]

    def draw(self, operations: Sequence[Operation]) -> float:
        """Draws all, and returns where the strip ends."""
        for operation in operations:
            if isinstance(operation, Unlock):
                self.bracket(self.locks.pop(operation.crate, self.x))
                continue
            self.make_room(CELL + WAIT * min(operation.wait, MOST_WAIT_CELLS))
            self.draw_wait(operation.wait)
            if isinstance(operation, Lock):
                self.locks[operation.crate] = self.x
                self.label = None
            else:
                self.draw_cycle(operation)
        for begin in self.locks.values():
            self.bracket(begin)
        return self.y + ROW

    def make_room(self, width: float) -> None:
        """Begins a new row where so much does not fit; a lock goes on there."""
        if self.x + width <= WIDTH - 4:
            return
        for begin in self.locks.values():
            self.bracket(begin)
        self.locks = dict.fromkeys(self.locks, 0.0)
        self.x, self.y = 0.0, self.y + ROW
        self.label, self.label_ends = None, [-99.0, -99.0]

    def bracket(self, begin: float) -> None:
        end = max(self.x - 2, begin + 2)
        self.canvas.path(f"M{number(begin)} {number(self.y + 20)}v4H{number(end)}v-4", "l-lock thick")

    def draw_wait(self, wait: int) -> None:
        if wait > MOST_WAIT_CELLS:
            wide = MOST_WAIT_CELLS * WAIT
            tip = f"{count(wait, 'cycle')} of auxiliary controllers before the next operation"
            self.canvas.rect((self.x, self.y + 3, wide - 1, 13), "waits", tip)
            self.canvas.text(self.x + wide / 2 - 0.5, self.y + 13, wait, "s10 m on", NO_POINTER)
            self.x += wide
            return
        for at in range(wait):
            self.canvas.rect((self.x, self.y + 3, WAIT - 1, 13), "waits", f"wait {at + 1} of {wait}")
            self.x += WAIT

    def draw_cycle(self, cycle: Cycle) -> None:
        canvas, x, y, kind = self.canvas, self.x, self.y, kind_of(cycle)
        tip = _cycle_tip(cycle, kind)
        if not cycle.x:
            canvas.rect((x, y, CELL - 2, 19), "nox", tip)
            canvas.path(f"M{number(x + 4)} {number(y + 5)}l7 9m0 -9l-7 9", "l-ground thick")
        elif not cycle.q:
            canvas.rect((x + 1, y + 1, CELL - 4, 17), f"ground l-{kind} thick", tip)
        else:
            canvas.rect((x, y, CELL - 2, 19), kind, tip)
        crate, station, _, function = cycle.command
        if (crate, station, function) != self.label:
            self.draw_label(f"c{crate} n{station} F{function}")
        self.label = (crate, station, function)
        self.x += CELL

    def draw_label(self, text: str) -> None:
        """Names a run of cells on the first of two lines that has room."""
        for level, end in enumerate(self.label_ends):
            if self.x > end + 4:
                self.canvas.text(self.x + 3, self.y + 35 + 11 * level, text, "s10 mono")
                self.label_ends[level] = self.x + 3 + LABEL_10 * len(text)
                return


def _cycle_tip(cycle: Cycle, kind: str) -> str:
    crate, station, sub_address, function = cycle.command
    reply = f"X = {cycle.x}, Q = {cycle.q}"
    if reads(function) or writes(function):
        reply += f", word {cycle.word:06x}"
    if cycle.wait:
        reply += f", wait {cycle.wait}"
    return f"crate {crate} station {station} A{sub_address} F{function}, {KINDS[kind]}\n{reply}"


def _draw_legend(canvas: Canvas, y: float) -> None:
    names = (("read", "read"), ("write", "write"), ("control", "no data"), ("controller", "crate's controller"), ("waits", "wait"))
    x = canvas.legend(0, y + 2, names, lambda word: 36 + 7 * len(word))
    canvas.rect((x + 1, y + 3, 9, 9), "ground l-read thick")
    canvas.text(x + 16, y + 12, "hollow: Q = 0", "s11")
    canvas.rect((x + 116, y + 2, 11, 11), "nox")
    canvas.path(f"M{number(x + 119)} {number(y + 5)}l5 5m0 -5l-5 5", "l-ground")
    canvas.text(x + 132, y + 12, "cross: X = 0", "s11")
    canvas.path(f"M{number(x + 224)} {number(y + 6)}v4h24v-4", "l-lock thick")
    canvas.text(x + 254, y + 12, "locked", "s11")
    canvas.grow(y + 18)
