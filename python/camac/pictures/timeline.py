"""The picture of a run: a panel for each service over the number of the service in the run, with cycles, bounds, Q = 0 and X = 0."""
from typing import Dict, Sequence, Tuple

from camac.numbers import ends, total, whole
from camac.pictures.svg import BOLD_12, LEVELS, WIDTH, Canvas, count, number, ticks
from camac.runs import Run, by_bit
from camac.values import Service

LEFT, RIGHT = 64, 108
WIDE = WIDTH - LEFT - RIGHT
COLUMNS, LEAST_COLUMNS = 260, 12
HIGH, LOW, MOST_HIGH_PANELS = 110, 56, 6
# A label is so much below another one at least.
APART = 13
# Where the annotated number is above so many times the bound, it is outside of the picture.
FAR = 2


class Column:
    """What the services of one kind in a column took together, and the most of one."""

    def __init__(self, services: int, cycles: int, waits: int, most: int, no_q: int, no_x: int, locked: int) -> None:
        self.services, self.cycles, self.waits, self.most = services, cycles, waits, most
        self.no_q, self.no_x, self.locked = no_q, no_x, locked


class Axis:
    """The columns over the services of a run. Their edges are whole pixels, so that neighbours leave no seam."""

    def __init__(self, total: int) -> None:
        self.total = total
        self.per = -(-total // COLUMNS)
        self.columns = -(-total // self.per)
        self.step = WIDE / max(self.columns, LEAST_COLUMNS)
        self.gap = 1 if self.step > 4 else 0

    def edge(self, column: int) -> int:
        return round(LEFT + column * self.step)

    def width(self, column: int) -> int:
        return max(self.edge(column + 1) - self.edge(column) - self.gap, 1)


class Panel:
    """The panel of a service: its columns, where its foot is, the number of cycles at its top, pixels for a cycle, and whether the number of
    the heading lies outside."""

    def __init__(self, service: Service, columns: Dict[int, Column], foot: float, top: float, scale: float, is_far: bool) -> None:
        self.service, self.columns, self.foot, self.top, self.scale, self.is_far = service, columns, foot, top, scale, is_far

    def at(self, cycles: float) -> float:
        return self.foot - cycles * self.scale


def draw_run(run: Run, services: Sequence[Service]) -> Canvas:
    """Draws the panels over each other, one for each service of the script."""
    canvas = Canvas("The run: cycles of each service against its bound")
    total = len(run.gl)
    if not total or not run.has_cycles:
        text = "The event file is of version one, which has no cycles." if total else "No service came to its end in this run."
        return canvas.say(text)
    axis = Axis(total)
    if axis.per > 1:
        text = f"Each column: {axis.per} services, one after another; the bar is their mean, the short line above it their most."
    else:
        text = "Each column: one service, in the order of the run."
    canvas.text(0, 14, text, "mute s11")
    gathered = _gather(run, axis)
    y = 26.0
    for service in services:
        y = _draw_panel(canvas, y, service, gathered.get(service.gl, {}), len(services), (run, axis))
    _draw_axis(canvas, y, axis)
    y += 16
    canvas.text(LEFT + WIDE, y + 10, "number of the service in the run", "mute s10 r")
    names = (("ours", "our cycles"), ("waits", "waits for auxiliary controllers")) if run.has_listing else (("ours", "cycles"),)
    canvas.legend(LEFT, y, names, lambda _: 100)
    canvas.grow(y + 18)
    return canvas


def _gather(run: Run, axis: Axis) -> Dict[int, Dict[int, Column]]:
    """By bit and by column, what the services took."""
    gathered: Dict[int, Dict[int, Column]] = {}
    numbers = [*map(whole, (run.gl, run.cycles, run.waits, run.no_q, run.no_x, run.locked))]
    for at, start in enumerate(range(0, len(run.gl), axis.per)):
        for gl, (cycles, *others) in by_bit(*(it[start : start + axis.per] for it in numbers)):
            waits, no_q, no_x, locked = map(total, others)
            gathered.setdefault(gl, {})[at] = Column(len(cycles), total(cycles), waits, ends(cycles)[1], no_q, no_x, locked)
    return gathered


def _draw_panel(canvas: Canvas, y: float, service: Service, columns: Dict[int, Column], panels: int, of: Tuple[Run, Axis]) -> float:
    """Draws a panel, and returns where the next one begins."""
    run, axis = of
    most = max((it.most for it in columns.values()), default=0)
    high = HIGH if panels <= MOST_HIGH_PANELS else LOW
    is_far = service.annotated_cycles > FAR * max(service.cycles, 1)
    top = max(1.25 * service.cycles if is_far else service.annotated_cycles, most)
    panel = Panel(service, columns, y + 20 + high, top, (high - 4) / max(top, 1), is_far)
    seen = columns.values()
    text = f"{count(sum(it.services for it in seen), 'service')}, {count(sum(it.cycles for it in seen), 'cycle')}"
    if run.has_listing:
        text += f", of them {count(sum(it.waits for it in seen), 'wait')}"
    canvas.text(0, y + 12, service.name, "b")
    canvas.text(max(LEFT, 16 + BOLD_12 * len(service.name)), y + 12, text, "mute s11")
    for value in ticks(top, 4 if high == HIGH else 2):
        canvas.line((LEFT, panel.at(value)), (LEFT + WIDE, panel.at(value)), "l-grid thin")
        canvas.text(LEFT - 6, panel.at(value) + 4, f"{value:,}", "mute s10 r")
    _draw_bars(canvas, panel, axis)
    _draw_bounds(canvas, panel)
    canvas.line((LEFT, panel.foot), (LEFT + WIDE, panel.foot), "l-mute thin")
    bottom = panel.foot + 8
    if run.has_listing:
        _draw_strip(canvas, bottom, "noq", {at: it.no_q for at, it in columns.items()}, (panel, axis))
        bottom += APART
    _draw_strip(canvas, bottom, "nox", {at: it.no_x for at, it in columns.items()}, (panel, axis))
    bottom += APART
    for at, it in sorted(columns.items()):
        box = (axis.edge(at), y + 20, axis.edge(at + 1) - axis.edge(at), bottom - y - 20)
        canvas.hit(box, _column_tip(run, axis, at, it, service))
    return bottom + 12


def _draw_bars(canvas: Canvas, panel: Panel, axis: Axis) -> None:
    """Draws the bars of all columns: one path of a colour."""
    ours, waits, peaks = [], [], []
    for at, column in sorted(panel.columns.items()):
        x, width = axis.edge(at), axis.width(at)
        high, wait = column.cycles / column.services * panel.scale, column.waits / column.services * panel.scale
        ours.append(f"M{x} {number(panel.foot)}v{number(wait - high)}h{width}V{number(panel.foot)}z")
        if wait:
            waits.append(f"M{x} {number(panel.foot - high + wait)}v{number(-wait)}h{width}v{number(wait)}z")
        if axis.per > 1:
            peaks.append(f"M{x} {number(panel.at(column.most))}h{width}")
    canvas.path(ours, "ours crisp")
    canvas.path(waits, "waits crisp")
    canvas.path(peaks, "l-ink")


def _draw_bounds(canvas: Canvas, panel: Panel) -> None:
    """Draws the checker's bound and the number of the heading, with their labels on the right."""
    service, right = panel.service, LEFT + WIDE
    upper = panel.at(panel.top if panel.is_far else service.annotated_cycles)
    lower = panel.at(service.cycles)
    if not panel.is_far:
        canvas.line((LEFT, upper), (right, upper), "l-ink dash")
    if service.annotated_cycles == service.cycles:
        canvas.text(right + 6, upper + 4, f"bound {service.cycles:,}", "s11")
        return
    canvas.line((LEFT, lower), (right, lower), "l-ink thin")
    if panel.is_far:
        canvas.text(right + 6, upper + 4, "annotated, above:", "mute s10")
        canvas.text(right + 6, upper + 15, f"{service.annotated_cycles:,}", "s10")
        upper += 11
    else:
        kind = "s11" if service.annotated_cycles < 100_000 else "s10"
        canvas.text(right + 6, upper + 4, f"annotated {service.annotated_cycles:,}", kind)
    kind = "s11" if service.cycles < 1_000_000 else "s10"
    canvas.text(right + 6, max(lower, upper + APART) + 4, f"at most {service.cycles:,}", kind)


def _draw_strip(canvas: Canvas, y: float, kind: str, cycles: Dict[int, int], of: Tuple[Panel, Axis]) -> None:
    """Draws a strip in six steps of opacity, by cycles a service in each column. X = 0 is never faint."""
    panel, axis = of
    total = sum(cycles.values())
    canvas.text(LEFT - 6, y + 9, "Q = 0" if kind == "noq" else "X = 0", "mute s10 r")
    canvas.text(LEFT + WIDE + 6, y + 9, count(total, "cycle"), "s10" if total else "mute s10")
    canvas.rect((LEFT, y, WIDE, 10), "face")
    rates = {at: it / panel.columns[at].services for at, it in cycles.items() if it}
    ways = []
    for at, rate in sorted(rates.items()):
        level = min(len(LEVELS) - 1, int((len(LEVELS) - 0.01) * rate / max(rates.values())))
        width = axis.width(at)
        ways.append((max(level, 3) if kind == "nox" else level, f"M{axis.edge(at)} {number(y)}h{width}v10h-{width}z"))
    canvas.shades(ways, kind)


def _column_tip(run: Run, axis: Axis, at: int, column: Column, service: Service) -> str:
    first = at * axis.per + 1
    last = min(first + axis.per - 1, axis.total)
    lines = [f"service {first:,}" if axis.per == 1 else f"services {first:,} to {last:,}: {column.services:,} of {service.name}"]
    lines.append(f"cycles: mean {column.cycles / column.services:,.1f}, most {column.most:,}; bound {service.cycles:,}")
    missed = f"X = 0: {count(column.no_x, 'cycle')}"
    if run.has_listing:
        lines.append(f"waits: mean {column.waits / column.services:,.1f}; cycles in a lock: mean {column.locked / column.services:,.1f}")
        missed = f"Q = 0: {count(column.no_q, 'cycle')}; {missed}"
    return "\n".join([*lines, missed])


def _draw_axis(canvas: Canvas, y: float, axis: Axis) -> None:
    for value in ticks(axis.total, 6):
        place = max(value, 1)
        x = LEFT + (place - 1) / axis.per * axis.step + (axis.step / 2 if axis.per == 1 else 0)
        if x < LEFT + WIDE + 1:
            canvas.text(x, y + 4, f"{place:,}", "mute s10 m")
