"""What is in regions of spectra, a line each: the counts, those above a straight line between the ends of the region, and a peak that is fitted to them."""
import math
from typing import List, NamedTuple, Optional, Sequence, Tuple

from camac.histograms import Bins
from camac.pictures.svg import Canvas
from camac.runs import Channels, Cut

COLUMNS = ((300, "counts"), (440, "above the line"), (640, "centroid"), (820, "FWHM"))
# The height of a line, and the most bins in which a region is measured.
HIGH, MOST = 18, 8192
FOOT = "± one standard deviation; a peak is fitted as a normal distribution on a line, in numbers of the converter"
# The numbers at either end of a region by which the line below a peak is known, and the most steps of a fit.
SIDE, STEPS = 3, 60
# The fewest numbers of a region.
LEAST = 2 * SIDE
# The full width at half maximum of a normal distribution, in its standard deviations.
FULL_WIDTH = 2 * math.sqrt(2 * math.log(2))


class Measured(NamedTuple):
    """A number, and its standard deviation."""

    value: float
    unsure: float


class Region(NamedTuple):
    """The counts of a region, those above the line between its ends, and of a normal distribution on a line, as it fits best, where it stands and
    its full width at half maximum. The last two are None if none fits."""

    gross: int
    net: Measured
    centroid: Optional[Measured]
    width: Optional[Measured]


def measure(low: int, counts: Sequence[int], each: int = 1) -> Region:
    """Measures the region of which the counts are given, by so many numbers `each` from `low` on; there are twice SIDE counts at least."""
    size, gross = len(counts), sum(counts)
    left, right = sum(counts[:SIDE]) / SIDE, sum(counts[-SIDE:]) / SIDE
    net = gross - size * (left + right) / 2
    unsure = math.sqrt(gross + size**2 * (left + right) / (4 * SIDE))
    # The fit begins with the deviation that a peak of this height and area has.
    height = max(max(counts) - (left + right) / 2, 1.0)
    begin = [height, float(max(range(size), key=counts.__getitem__)), min(max(net / height / 2.5, 0.5), size / 6), left, (right - left) / size]
    found = _fit(counts, begin) if net > 0 else None
    if found is None:
        return Region(gross, Measured(net, unsure), None, None)
    values, errors = found
    width = Measured(each * FULL_WIDTH * abs(values[2]), each * FULL_WIDTH * errors[2])
    return Region(gross, Measured(net, unsure), Measured(low + each * (values[1] + 0.5) - 0.5, each * errors[1]), width)


def _fit(counts: Sequence[int], begin: List[float]) -> Optional[Tuple[List[float], List[float]]]:
    """Height, place and standard deviation of a peak, and height and slope of the line below it, by the least squares of Levenberg and Marquardt, and
    the standard deviation of each; None if the peak leaves the region."""
    values, damping = begin, 1e-3
    matrix, slopes, sum_of = _normal(counts, values)
    for _ in range(STEPS):
        damped = [[it * (1 + damping) if row == column else it for column, it in enumerate(entries)] for row, entries in enumerate(matrix)]
        step = _solve(damped, slopes)
        if step is None:
            return None
        tried = [value + more for value, more in zip(values, step)]
        new = _normal(counts, tried) if tried[2] else (matrix, slopes, math.inf)
        if new[2] > sum_of:
            damping *= 10
            continue
        is_done = sum_of - new[2] < 1e-9 * sum_of + 1e-12
        values, damping, (matrix, slopes, sum_of) = tried, damping / 10, new
        if is_done:
            break
    columns = [_solve(matrix, [float(row == at) for row in range(5)]) for at in range(5)]
    if not (values[0] > 0 and 0 <= values[1] < len(counts) and abs(values[2]) < len(counts)) or None in columns:
        return None
    return values, [math.sqrt(max(column[at], 0.0)) for at, column in enumerate(columns) if column]


def _normal(counts: Sequence[int], values: Sequence[float]) -> Tuple[List[List[float]], List[float], float]:
    """The normal equations at a place, and the sum of squares, each count weighed by its own variance."""
    height, place, deviation, level, slope = values
    matrix, slopes, sum_of = [[0.0] * 5 for _ in range(5)], [0.0] * 5, 0.0
    for at, count in enumerate(counts):
        far = (at - place) / deviation
        peak = math.exp(-min(far * far / 2, 700.0))
        row = (peak, height * peak * far / deviation, height * peak * far * far / deviation, 1.0, float(at))
        differs, weight = count - (height * peak + level + slope * at), 1 / max(count, 1)
        sum_of += weight * differs * differs
        for one in range(5):
            slopes[one] += weight * row[one] * differs
            for other in range(5):
                matrix[one][other] += weight * row[one] * row[other]
    return matrix, slopes, sum_of


def _solve(matrix: Sequence[Sequence[float]], right: Sequence[float]) -> Optional[List[float]]:
    """The solution of linear equations; None if there is none."""
    rows = [[*row, it] for row, it in zip(matrix, right)]
    for at in range(len(rows)):
        best = max(range(at, len(rows)), key=lambda row: abs(rows[row][at]))
        rows[at], rows[best] = rows[best], rows[at]
        if abs(rows[at][at]) < 1e-300:
            return None
        rows[at] = [it / rows[at][at] for it in rows[at]]
        for other in range(len(rows)):
            if other != at:
                rows[other] = [it - rows[other][at] * pivot for it, pivot in zip(rows[other], rows[at])]
    return [row[-1] for row in rows]


def row_of(cut: Cut, bins: Bins) -> Tuple[str, ...]:
    """What is in a region that has these counts; of a few numbers, these alone."""
    name = f"{cut.column.name} {cut.low:,} to {cut.last:,}"
    if len(bins.counts) < LEAST:
        return name, f"{sum(bins.counts):,}"
    found = measure(cut.low, bins.counts, bins.width)
    return name, f"{found.gross:,}", _text(found.net, 0), _text(found.centroid, 2), _text(found.width, 2)


def measured(channels: Channels) -> List[Tuple[str, ...]]:
    """A row for each region that was asked for."""
    return [row_of(it, spectrum.bins(most=MOST)) for it, spectrum in channels.regions.items()]


def draw_regions(channels: Channels) -> Canvas:
    canvas, rows = Canvas("Regions"), measured(channels)
    for x, title in COLUMNS:
        canvas.text(x, 12, title, "mute s11 r")
    for at, row in enumerate(rows, 1):
        for x, text in zip((0, *(x for x, _ in COLUMNS)), row):
            canvas.text(x, 12 + HIGH * at, text, "s11 r" if x else "s11")
    canvas.text(0, 34 + HIGH * len(rows), FOOT, "mute s10")
    return canvas


def _text(quantity: Optional[Measured], digits: int) -> str:
    return "no peak" if quantity is None else f"{quantity.value:,.{digits}f} ± {quantity.unsure:,.{digits}f}"
