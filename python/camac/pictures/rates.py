"""The picture of a simulation at several rates: of each service the share of its triggers that are answered, and how long look-at-mes wait."""
import math
from typing import TYPE_CHECKING, List, NamedTuple, Optional, Sequence, Tuple

from camac.pictures.svg import NO_POINTER, Canvas, count, share, ticks

if TYPE_CHECKING:
    from camac.simulate import Simulated, Simulation

LEFT, WIDE, HIGH, PANEL = 64, 330, 150, 480
ROW = HIGH + 74
# A label at the end of a line is so much below another one at least.
APART = 12
QUANTILES = ((0.5, "50 %", "ours"), (0.99, "99 %", "waits"), (1.0, "most", "control"))


class Line(NamedTuple):
    """A line of a plot: its values, its class, and the label at its end."""

    values: Sequence[float]
    kind: str
    label: str


class Plot:
    """A plot over rates, whose axis has equal steps for equal factors."""

    def __init__(self, canvas: Canvas, corner: Tuple[float, float], rates: Sequence[float], top: float) -> None:
        (self.left, self.upper), self.canvas, self.rates, self.top = corner, canvas, rates, top or 1
        self.foot = self.upper + HIGH

    def across(self, rate: float) -> float:
        first, last = self.rates[0], self.rates[-1]
        part = math.log(rate / first) / math.log(last / first) if last > first else 0.5
        return self.left + WIDE * part

    def up(self, value: float) -> float:
        return self.foot - HIGH * value / self.top

    def draw_axes(self, given: float, values: Sequence[Tuple[float, str]]) -> None:
        for value, text in values:
            self.canvas.line((self.left, self.up(value)), (self.left + WIDE, self.up(value)), "l-grid thin")
            self.canvas.text(self.left - 6, self.up(value) + 4, text, "mute s10 r")
        for rate in _rounds(self.rates[0], self.rates[-1]):
            self.canvas.line((self.across(rate), self.foot), (self.across(rate), self.foot + 4), "l-mute thin")
            self.canvas.text(self.across(rate), self.foot + 15, _rate(rate), "mute s10 m")
        self.canvas.line((self.left, self.foot), (self.left + WIDE, self.foot), "l-mute thin")
        self.canvas.line((self.across(given), self.upper), (self.across(given), self.foot), "l-ink thin")
        self.canvas.text(self.left + WIDE, self.foot + 29, "triggers a second", "mute s10 r")

    def draw(self, lines: Sequence[Line]) -> None:
        """Draws the lines, with their labels at the right, each below the one above it."""
        last = -99.0
        for line in sorted(lines, key=lambda it: -it.values[-1]):
            places = [(self.across(rate), self.up(value)) for rate, value in zip(self.rates, line.values)]
            self.canvas.lines(places, f"l-{line.kind}")
            if "dash" not in line.kind:
                for x, y in places:
                    self.canvas.rect((x - 1.5, y - 1.5, 3, 3), line.kind.split()[0])
            last = max(places[-1][1], last + APART)
            self.canvas.text(self.left + WIDE + 6, last + 4, line.label, "s10", NO_POINTER)


def draw_rates(simulations: "Sequence[Simulation]", given: "Simulation", cycle: float) -> Canvas:
    """Draws two plots for each service: over its rate the share that is answered, and the cycles that its look-at-mes wait. `given` is the
    simulation of the rates that were given; `cycle` are the seconds of a cycle."""
    canvas = Canvas("Look-at-mes that are answered, and how long they wait, over the rate")
    y = 0.0
    for at, service in enumerate(given.services):
        points = [one.services[at] for one in simulations]
        canvas.text(0, y + 14, f"{service.name} (GL {service.gl})", "b")
        canvas.text(LEFT, y + 32, "share of the triggers that are answered", "mute s11")
        canvas.text(PANEL + LEFT, y + 32, "cycles from a look-at-me to the end of its service", "mute s11")
        _draw_live(canvas, y + 42, points, service, cycle if len(given.services) == 1 else None)
        _draw_waits(canvas, y + 42, points, service)
        _draw_tips(canvas, y + 42, points)
        y += ROW
    words = "All rates grow together." if len(given.services) > 1 else ""
    canvas.text(0, y + 12, f"The upright line: the given rate. {words}", "mute s11")
    canvas.grow(y + 18)
    return canvas


def _draw_live(canvas: Canvas, y: float, points: "Sequence[Simulated]", given: "Simulated", cycle: Optional[float]) -> None:
    plot = Plot(canvas, (LEFT, y), [it.rate for it in points], 1)
    plot.draw_axes(given.rate, [(part / 4, f"{25 * part} %") for part in range(5)])
    lines = [Line([it.live() for it in points], "ours", "answered")]
    if cycle is not None:
        lines.append(Line([it.reckoned(cycle) for it in points], "ink dash", "1 / (1 + r τ)"))
    plot.draw(lines)


def _draw_waits(canvas: Canvas, y: float, points: "Sequence[Simulated]", given: "Simulated") -> None:
    top = max([given.end or 0, *(it.quantile(1.0) for it in points)])
    plot = Plot(canvas, (PANEL + LEFT, y), [it.rate for it in points], 1.05 * top)
    plot.draw_axes(given.rate, [(value, f"{value:,}") for value in ticks(top)])
    lines = [Line([it.quantile(part) for it in points], kind, label) for part, label, kind in QUANTILES]
    if given.end is not None:
        lines.append(Line([given.end] * len(points), "ink dash", f"at most {given.end:,}"))
    plot.draw(lines)


def _draw_tips(canvas: Canvas, y: float, points: "Sequence[Simulated]") -> None:
    """Of each rate a column over each plot, whose tip has what was simulated."""
    step = WIDE / max(len(points) - 1, 1)
    for at, point in enumerate(points):
        tip = f"{_rate(point.rate)} triggers a second: {share(point.live() * point.came, point.came)} of {count(point.came, 'trigger')} answered\n"
        tip += ", ".join(f"{label} {point.quantile(part):,.1f}" for part, label, _ in QUANTILES) + " cycles"
        for left in (LEFT, PANEL + LEFT):
            canvas.hit((left + (at - 0.5) * step, y, step, HIGH), tip)


def _rounds(first: float, last: float) -> List[float]:
    """Round rates: 1, 2 and 5 with their powers of ten; of many the powers alone."""
    powers = range(math.floor(math.log10(first)), math.ceil(math.log10(last)) + 1)
    found = [times * 10.0**power for power in powers for times in (1, 2, 5) if first <= times * 10.0**power <= last]
    return found if len(found) <= 8 else [it for it in found if math.log10(it) % 1 < 0.01 or math.log10(it) % 1 > 0.99]


def _rate(rate: float) -> str:
    return f"{rate:,.0f}" if rate >= 10 else f"{rate:.3g}"
