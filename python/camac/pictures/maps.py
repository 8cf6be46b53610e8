"""Maps: two columns of event words against each other, and the words of a service by their place in the event. The fuller the colour, the more."""
import math
from typing import Dict, Sequence, Tuple

from camac.histograms import Pairs, Spectrum
from camac.pictures.spectra import short
from camac.pictures.svg import BOLD_12, LEVELS, WIDTH, Canvas, count, cut, level_of, ticks
from camac.runs import Channels, Run
from camac.values import Service

LEFT, TOP = 84, 30
# The side of a map of pairs, and that of one with more cells, each of whole pixels.
SIDE, WIDE = 384, Pairs.MOST
# Of a map of places the height, how many columns and rows it has at most, the widest cell, and from so many pixels on the caption fits below it.
HIGH, COLUMNS, ROWS, WIDEST_CELL, CAPTION = 200, 96, 40, 40, 220


def draw_pairs(channels: Channels) -> Canvas:
    """Draws how often two numbers are in one event: the fuller the colour, the more often. A pair has to be asked for."""
    assert channels.asked.pair and channels.pairs
    (across, up), pairs = channels.asked.pair, channels.pairs
    canvas = Canvas(f"{up.name} against {across.name}")
    canvas.text(0, 14, cut(f"{up.name} against {across.name}", 80), "b")
    if not pairs.count:
        return canvas.say("No event has both.", 34)
    ends = [-(-end >> shift) << shift for end, shift in zip(pairs.ends, pairs.shifts)]
    side = SIDE if max(end >> shift for end, shift in zip(ends, pairs.shifts)) <= SIDE // 3 else WIDE
    canvas.rect((LEFT, TOP, side, side), "face")
    peak, ways = max(pairs.cells.values()), []
    for cell, entries in sorted(pairs.cells.items()):
        (left, right), (high, low) = (_edges(at, side / (end >> shift), up) for at, end, shift, up in zip(cell, ends, pairs.shifts, (0, side)))
        ways.append((level_of(entries, peak), f"M{left} {high}H{right}V{low}H{left}z"))
    canvas.shades(ways, "ours")
    for quarter in range(5):
        x, y = LEFT + side * quarter / 4, TOP + side * (4 - quarter) / 4
        canvas.text(x, TOP + side + 14, short(across.value(ends[0] * quarter // 4)), "mute s10 m")
        canvas.text(LEFT - 6, y + 4, short(up.value(ends[1] * quarter // 4)), "mute s10 r")
        canvas.line((x, TOP + side), (x, TOP + side + 4), "l-mute thin")
        canvas.line((LEFT - 4, y), (LEFT, y), "l-mute thin")
    names = [f"{it.name} [{it.unit}]" if it.unit else it.name for it in (across, up)]
    canvas.text(LEFT + side, TOP + side + 30, cut(names[0], 60), "s11 r")
    canvas.upright(24, TOP + side, cut(names[1], 55), "s11")
    _draw_scale(canvas, LEFT + side + 40, pairs, peak)
    canvas.grow(TOP + side + 40)
    return canvas


def _edges(at: int, each: float, up: int) -> Tuple[int, int]:
    """The edges of a cell, whose size is given: from the left, or, if a height is given, from above."""
    low, high = round(each * at), round(each * (at + 1))
    return (TOP + up - high, TOP + up - low) if up else (LEFT + low, LEFT + high)


def _draw_scale(canvas: Canvas, x: int, pairs: Pairs, peak: int) -> None:
    """A box for each colour, with the counts that have it."""
    top = len(LEVELS) - 1
    canvas.text(x, TOP + 10, f"{count(pairs.count, 'event')} with both", "s11")
    cell = " × ".join(f"{1 << shift:,}" for shift in pairs.shifts)
    canvas.text(x, TOP + 26, f"events in a cell of {cell} numbers", "mute s11")
    lows = [max(math.ceil(peak ** (level / (top + 0.99)) - 1e-9), 1) for level in range(top + 1)] + [peak + 1]
    for level, (low, after) in enumerate(zip(lows, lows[1:])):
        if low < after and (peak > 1 or level == top):
            y = TOP + 40 + 20 * (top - level)
            canvas.rect((x, y, 22, 14), f"ours k{level}")
            canvas.text(x + 30, y + 11, f"{low:,}" + (f" to {after - 1:,}" if after > low + 1 else ""), "s11")


class Grid:
    """How many places a column has, how many columns there are and how wide they are, how many values a row has (a power of two), and how
    many rows there are."""

    def __init__(self, per: int, columns: int, wide: float, size: int, rows: int) -> None:
        self.per, self.columns, self.wide, self.size, self.rows = per, columns, wide, size, rows

    def across(self, column: int) -> int:
        return round(LEFT + column * self.wide)

    def up(self, row: float) -> int:
        return round(TOP + HIGH - row * HIGH / self.rows)


def draw_places(run: Run, service: Service) -> Canvas:
    """Draws a map of the words of a service: the fuller the colour, the more events."""
    canvas = Canvas(f"Words of {service.name} by their place in the event")
    words = sorted((place, it) for (gl, place), it in run.by_place.items() if gl == service.gl)
    if not words:
        return canvas.say(f"No event of {service.name} has a word.")
    grid = _grid(words)
    wide = grid.across(grid.columns) - LEFT
    cells = _cells(words, grid)
    title = f"{service.name}: words by index" + (f" ({grid.per} indices a column)" if grid.per > 1 else "")
    canvas.text(0, 14, title, "b")
    text = f"fuller colour: more events, by powers up to {max(cells.values()):,} a cell of {count(grid.size, 'value')}"
    canvas.text(max(LEFT + 260, 16 + BOLD_12 * len(title)), 14, text, "mute s11")
    canvas.rect((LEFT, TOP, wide, HIGH), "face")
    edges = [grid.across(column) for column in range(grid.columns + 1)]
    peak, ways = max(cells.values()), []
    for (column, row), entries in sorted(cells.items()):
        ways.append((level_of(entries, peak), f"M{edges[column]} {grid.up(row + 1)}H{edges[column + 1]}V{grid.up(row)}H{edges[column]}z"))
    canvas.shades(ways, "ours")
    _draw_axes_of_places(canvas, words[-1][0], grid)
    caption = "index of the word in its event, from 0"
    canvas.text(LEFT + wide if wide > CAPTION else LEFT, TOP + HIGH + 26, caption, "mute s10 r" if wide > CAPTION else "mute s10")
    for column in range(grid.columns):
        inside = [(place, it) for place, it in words if place // grid.per == column]
        if inside:
            canvas.hit((edges[column], TOP, edges[column + 1] - edges[column], HIGH), _column_tip(inside))
    canvas.grow(TOP + HIGH + 32)
    return canvas


def _grid(words: Sequence[Tuple[int, Spectrum]]) -> Grid:
    per = -(-(words[-1][0] + 1) // COLUMNS)
    columns = words[-1][0] // per + 1
    most, size = max(it.greatest or 0 for _, it in words), 1
    while most // size >= ROWS:
        size *= 2
    return Grid(per, columns, min((WIDTH - LEFT - 12) / columns, WIDEST_CELL), size, most // size + 1)


def _cells(words: Sequence[Tuple[int, Spectrum]], grid: Grid) -> Dict[Tuple[int, int], int]:
    """By column and row, how many words fall there. A bin is never wider than a row."""
    cells: Dict[Tuple[int, int], int] = {}
    for place, spectrum in words:
        bins = spectrum.bins()
        for at, number_of_words in enumerate(bins.counts):
            if number_of_words:
                cell = place // grid.per, (bins.first + at * bins.width) // grid.size
                cells[cell] = cells.get(cell, 0) + number_of_words
    return cells


def _draw_axes_of_places(canvas: Canvas, last: int, grid: Grid) -> None:
    for value in ticks(grid.rows * grid.size, 4):
        y = TOP + HIGH - value / grid.size * HIGH / grid.rows
        canvas.text(LEFT - 6, y + 4, f"{value:,}", "mute s10 r")
        canvas.line((LEFT - 4, y), (LEFT, y), "l-mute thin")
    for place in ticks(last, min(12, max(last, 1))):
        canvas.text(LEFT + place // grid.per * grid.wide + grid.wide / 2, TOP + HIGH + 13, f"{place:,}", "mute s10 m")


def _column_tip(inside: Sequence[Tuple[int, Spectrum]]) -> str:
    place, spectrum = inside[0]
    more = f"; and {len(inside) - 1} more" if len(inside) > 1 else ""
    return f"word {place:,}: {count(spectrum.count, 'event')}, {spectrum.least:,} to {spectrum.greatest:,}, mean {spectrum.mean():,.1f}{more}"
