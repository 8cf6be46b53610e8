"""Small spectra beside each other: cycles and words of events, the words of each command, and the columns of event words.

The panels of a group have one axis. Each is a picture of its own, so that a page can set as many beside each other as it has room for."""
import itertools
import math
from typing import Dict, List, Mapping, Optional, Sequence, Tuple, Union

from camac.functions import writes
from camac.histograms import Bins, Series, Spectrum
from camac.numbers import ends
from camac.pictures.svg import WIDTH, Canvas, count, cut, number, ticks
from camac.runs import Channel, Over, Run, by_bit
from camac.values import Plan, Service

ACROSS, GAP = 4, 16
PANEL = (WIDTH - GAP * (ACROSS - 1)) / ACROSS
LEFT, RIGHT, TOP, HIGH, ROW = 44, 14, 46, 80, 164
FOOT = TOP + HIGH
MOST = 96
# The most bins that are drawn in a panel.
BINS = 128
# The most bins of a panel in a page, where it can be zoomed.
FINE = 1 << 14
# The most characters in a title.
TITLE = 32
# On a logarithmic axis the foot is at this count, so that a count of one is seen.
LEAST = 0.5
# In a page both axes are drawn, and the numbers are there by which a reader zooms.
LINEAR, LOGARITHMIC, BOTH, ZOOMED = "lin", "log", "both", "zoomed"
Number = Union[int, float]


class Shown:
    """What is drawn in a panel: its title in two parts of which the first may be cut, the spectrum, its colour, what it counts, a bound where
    it has one, what a number means as scale, offset and unit, the line over the run that is drawn in its place, and the spectrum of another run with what
    its counts are multiplied by."""

    meaning: Tuple[Number, Number, str] = (1, 0, "")
    over: "Optional[Tuple[Spectrum, float]]" = None

    def __init__(self, of: str, what: str, spectrum: Spectrum, kind: str, counts: str, bound: Optional[int] = None, series: Optional[Series] = None) -> None:
        self.of, self.what, self.spectrum, self.kind, self.counts, self.bound, self.series = of, what, spectrum, kind, counts, bound, series

    def value(self, number: Number) -> Number:
        scale, offset, _ = self.meaning
        return scale * number + offset


class View:
    """Which numbers are drawn, from the first to the last one, and in how many bins at most."""

    def __init__(self, low: int = 0, last: Optional[int] = None, most: int = BINS) -> None:
        self.low, self.last, self.most = low, last, most

    def bins(self, spectrum: Spectrum) -> Bins:
        end = spectrum.end if self.last is None else min(self.last + 1, spectrum.end)
        return spectrum.bins(min(self.low, end - 1), end, self.most)


class Group:
    """Panels with one axis, and their title."""

    def __init__(self, title: str, panels: List[Canvas]) -> None:
        self.title, self.panels = title, panels


def event_groups(run: Run, services: Sequence[Service], scale: str = LINEAR) -> List[Group]:
    """For each service how many dataway cycles its events took, and how many words they have; nothing of a run without an event."""
    if not len(run.gl):
        return []
    cycles = _of_bits(run.gl, run.cycles, {it.gl: it.cycles for it in services}) if run.has_cycles else {}
    return seen_groups(cycles, _of_bits(run.gl, run.words, {it.gl: it.words for it in services}), services, scale)


def seen_groups(cycles: Mapping[int, Spectrum], words: Mapping[int, Spectrum], services: Sequence[Service], scale: str = LINEAR) -> List[Group]:
    """The panels of spectra of cycles and of words, by the bit of their service. Those of cycles have one axis, and so have those of words."""
    groups = []
    for what, spectra, kind in (("cycles", cycles, "ours"), ("words", words, "control")):
        if services and spectra:
            shown = [Shown(it.name, f": {what}", spectra[it.gl], kind, "events", getattr(it, what)) for it in services]
            groups.append(Group(f"{what.capitalize()} of an event", [draw_panel(it, scale) for it in shown]))
    return groups


def _of_bits(bits: Sequence[int], values: Sequence[int], bounds: Dict[int, int]) -> Dict[int, Spectrum]:
    """By bit the spectrum of the values of its services, on an axis that holds the greatest bound and the greatest value."""
    found = {gl: numbers for gl, (numbers,) in by_bit(bits, values) if gl in bounds}
    end = max([*bounds.values(), *(ends(it)[1] for it in found.values())], default=0) + 1
    spectra = {gl: Spectrum(end) for gl in bounds}
    for gl, numbers in found.items():
        spectra[gl].add_all(numbers)
    return spectra


def command_groups(run: Run, plan: Plan, scale: str = LINEAR) -> List[Group]:
    """For each command that moved data its words, or of a scaler a line over the run."""
    shown = []
    for command, sent in sorted(run.commands.items()):
        if sent.words.count:
            there = plan.type_at(command.crate, command.station)
            where = f" crate {command.crate} station {command.station} A{command.sub_address}"
            name = cut(there.name if there else "controller", TITLE - len(where)) + where
            kind = "write" if writes(command.function) else "ours"
            shown.append(Shown(name, "", sent.words, kind, f"words, F{command.function}", None, sent.series))
    return _grouped(shown, scale)


def channel_groups(channels: Sequence[Channel], scale: str = LINEAR, view: View = View(), over: Optional[Over] = None) -> List[Group]:
    """For each column of event words its numbers, with those of another run as a line over them; or of a scaler a line over the run."""
    return _grouped([of_channel(it, over, it.series) for it in channels], scale, view, f"; the line: {over.name}, {over.why}" if over else "")


def of_channel(channel: Channel, over: Optional[Over] = None, series: Optional[Series] = None) -> Shown:
    """The spectrum of a channel, with that of another run, or a line in its place."""
    column, field = channel.column, channel.column.field
    shown = Shown(column.name, "", channel.spectrum, "ours", "words", None, series)
    shown.meaning = field.scale, field.offset, field.unit
    if over and column in over.channels:
        shown.over = over.channels[column].spectrum, over.factors.get(field.gl, 0.0)
    return shown


def _grouped(shown: Sequence[Shown], scale: str, view: View = View(), of_line: str = "") -> List[Group]:
    """The panels by their axes: those of one width are beside each other, lines over the run last."""
    groups: Dict[Tuple[bool, int], List[Shown]] = {}
    for it in shown[:MOST]:
        groups.setdefault((it.series is not None, 0 if it.series else it.spectrum.end), []).append(it)
    made = []
    for (is_line, end), alike in sorted(groups.items(), key=lambda group: group[0][0]):
        last = end - 1 if view.last is None else min(view.last, end - 1)
        title = "Over the run" if is_line else f"{min(view.low, last):,} to {last:,}{of_line}"
        made.append(Group(title, [draw_panel(it, scale, view) for it in alike]))
    if len(shown) > MOST:
        made[-1].title += f" ({len(shown) - MOST:,} more are not drawn)"
    return made


def groups_of(run: Run, plan: Plan, services: Sequence[Service], scale: str, view: View) -> List[Tuple[str, List[Group]]]:
    """All spectra of a run: those of its events, of commands, and of named words, each with a title."""
    found = [("Cycles and words of an event", event_groups(run, services, scale))]
    if run.has_listing:
        found.append(("By channel: the words that modules gave with Q = 1, and the words that were sent", command_groups(run, plan, scale)))
    channels = run.list_channels()
    if channels:
        found.append((f"Event words by their names{run.asked.gated()}", channel_groups(channels, scale, view, run.over)))
    return found


def draw_groups(title: str, groups: Sequence[Group]) -> Canvas:
    """All panels of some groups in one picture."""
    canvas = Canvas(title)
    if not groups:
        canvas.say("Nothing to show: no event, no word.")
    y = 0.0
    for group in groups:
        canvas.text(0, y + 12, group.title, "mute s11")
        y += 22
        for at, it in enumerate(group.panels):
            canvas.place((at % ACROSS) * (PANEL + GAP), y + (at // ACROSS) * ROW, it)
        y += -(-len(group.panels) // ACROSS) * ROW
        canvas.grow(y)
    return canvas


def draw_panel(shown: Shown, scale: str = LINEAR, view: View = View(), width: float = PANEL) -> Canvas:
    """A panel: title, entries, mean, RMS and the place of the greatest bin, and the spectrum, or a line over the run."""
    canvas = Canvas(shown.of + shown.what, width)
    canvas.text(0, 11, cut(shown.of, TITLE - len(shown.what)) + shown.what, "s11 b")
    canvas.grow(ROW - 8)
    if not shown.spectrum.count:
        canvas.text(0, 30, "nothing", "mute s11")
        return canvas
    if shown.series is not None:
        _draw_line(canvas, shown, shown.series)
        return canvas
    mean, rms = shown.value(shown.spectrum.mean()), abs(shown.meaning[0]) * shown.spectrum.rms()
    entries = f"{count_of(shown.spectrum.count, shown.counts)}" + (f", overflow {shown.spectrum.overflow:,}" if shown.spectrum.overflow else "")
    canvas.text(0, 24, entries, "mute s10")
    peak = shown.spectrum.peak()
    canvas.text(0, 36, f"mean {_decimal(mean)}, RMS {_decimal(rms)}" + ("" if peak is None else f", peak at {short(shown.value(peak))}"), "mute s10")
    bins = view.bins(shown.spectrum)
    over = _laid_over(shown, bins)
    canvas.parts.append('<g class="axis">')
    _draw_axis(canvas, shown, bins)
    canvas.parts.append("</g>")
    for one in (LINEAR, LOGARITHMIC) if scale in (BOTH, ZOOMED) else (scale,):
        canvas.parts.append(f'<g class="{one}">')
        _draw_counts(canvas, shown, bins.counts, over, one == LOGARITHMIC)
        canvas.parts.append("</g>")
    if shown.bound is not None:
        x = LEFT + _wide(canvas) * (shown.bound + 0.5) / _length(bins)
        canvas.line((x, TOP), (x, FOOT), "l-ink dash")
        canvas.text(width, 24, f"bound {shown.bound:,}", "s10 r")
    if shown.meaning[2]:
        canvas.text(width, FOOT + 26, cut(shown.meaning[2], 24), "mute s10 r")
    _draw_hit(canvas, shown, bins, scale == ZOOMED)
    return canvas


def _laid_over(shown: Shown, bins: Bins) -> List[float]:
    """The counts of another run in these bins, multiplied as it says; nothing if there is none."""
    if shown.over is None:
        return []
    spectrum, factor = shown.over
    # An axis without an end may have bins of another width: they are as high as these.
    other = spectrum.bins(bins.first, bins.first + _length(bins), len(bins.counts))
    return [factor * other.counts[at * bins.width // other.width] * bins.width / other.width for at in range(len(bins.counts))]


def count_of(entries: int, counts: str) -> str:
    """ "1 event", "4,000 words, F0" """
    one, comma, rest = counts.partition(",")
    return count(entries, one[:-1]) + comma + rest


def short(value: Number) -> str:
    """A number that has little room: 4,096, 131k, 16.8M, 0.25"""
    if isinstance(value, float) and value != int(value) and abs(value) < 1000:
        return f"{value:.4g}"
    for power, letter in ((1_000_000, "M"), (1_000, "k")):
        if abs(value) >= max(power, 100_000):
            return f"{value / power:.3g}{letter}"
    return f"{round(value):,}"


def _decimal(value: Number) -> str:
    return f"{value:,.1f}" if abs(value) >= 10 or value == 0 else f"{value:.3g}"


def _length(bins: Bins) -> int:
    return bins.width * len(bins.counts)


def _wide(canvas: Canvas) -> float:
    return canvas.width - LEFT - RIGHT


def _draw_axis(canvas: Canvas, shown: Shown, bins: Bins) -> None:
    """The axis of numbers, with five ticks where it is cut into quarters."""
    end = _length(bins)
    places = [end * quarter // 4 for quarter in range(5)] if end >= 4 and shown.bound is None else ticks(end, 4)
    canvas.line((LEFT, FOOT + 0.5), (LEFT + _wide(canvas), FOOT + 0.5), "l-mute thin")
    for place in places:
        x = LEFT + _wide(canvas) * place / end
        canvas.line((x, FOOT), (x, FOOT + 4), "l-mute thin")
        _draw_number(canvas, x, short(shown.value(bins.first + place)), place == end)


def _draw_number(canvas: Canvas, x: float, text: str, is_last: bool) -> None:
    """The number at a tick; that of the last one ends with the panel."""
    canvas.text(canvas.width if is_last else x, FOOT + 14, text, "mute s10" + (" r" if is_last else " m"))


def _draw_counts(canvas: Canvas, shown: Shown, counts: Sequence[int], over: Sequence[float], is_log: bool) -> None:
    """The outline of the counts, closed at its foot, with that of another run over it, and their axis."""
    peak = max([*counts, *(math.ceil(it) for it in over), 1])

    def high(entries: float) -> float:
        part = math.log(max(entries / LEAST, 1)) / math.log(peak / LEAST) if is_log else entries / peak
        return HIGH * part

    def outline(levels: Sequence[float]) -> List[str]:
        each, parts, level = _wide(canvas) / len(levels), [f"M{number(LEFT)} {FOOT}"], 0.0
        for at, (before, entries) in enumerate(zip([0, *levels], levels)):
            if entries != before and (up := high(entries)) != level:
                parts.append(f"H{number(LEFT + at * each)}V{number(FOOT - up)}")
                level = up
        return [*parts, f"H{number(LEFT + _wide(canvas))}V{FOOT}"]

    canvas.path([*outline(counts), "z"], shown.kind)
    if over:
        canvas.path(outline(over), "l-waits")
    powers = [10**power for power in range(len(str(peak)) - (0 if str(peak) != "1" else 1))] if is_log else [0]
    labels = [(value, short(value)) for value in powers if peak > 1.8 * value] + [(peak, short(peak))]
    for value, text in labels:
        canvas.text(LEFT - 5, FOOT - high(value) + 4, text, "mute s10 r")
        canvas.line((LEFT - 3, FOOT - high(value)), (LEFT, FOOT - high(value)), "l-mute thin")


def _packed(counts: Sequence[float]) -> str:
    """Numbers as a page has them: so many zeros as one number below 0."""
    places = [-1, *itertools.compress(itertools.count(), counts), len(counts)]
    zeros = (str(one + 1 - at) if at > one + 1 else "" for one, at in zip(places, places[1:]))
    others = (f"{it:.6g}" if isinstance(it, float) else str(it) for it in map(counts.__getitem__, places[1:-1]))
    return " ".join(filter(None, itertools.chain(*itertools.zip_longest(zeros, others))))


def _draw_hit(canvas: Canvas, shown: Shown, bins: Bins, can_zoom: bool) -> None:
    spectrum, (scale, offset, unit) = shown.spectrum, shown.meaning
    tip = f"{shown.of}{shown.what}: {count_of(spectrum.count, shown.counts)}, integral {spectrum.integral():,}, overflow {spectrum.overflow:,}\n"
    least, most = (shown.value(value or 0) for value in (spectrum.least, spectrum.greatest))
    tip += f"least {least:,}, mean {shown.value(spectrum.mean()):,.1f}, RMS {abs(scale) * spectrum.rms():,.1f}, most {most:,}; bins of {bins.width:,}"
    data = f' data-first="{bins.first}" data-width="{bins.width}" data-counts="{" ".join(map(str, bins.counts))}"'
    if (scale, offset) != (1, 0):
        data += f' data-scale="{scale}" data-offset="{offset}"'
    fine = spectrum.bins(bins.first, bins.first + _length(bins), FINE)
    data += f' data-line="{" ".join(f"{one:.4g}" for one in _laid_over(shown, bins))}"' if shown.over else ""
    if can_zoom and (fine.width < bins.width or shown.over):
        data += f' data-each="{fine.width}" data-fine="{_packed(fine.counts)}"'
        data += f' data-over="{_packed(_laid_over(shown, fine))}"' if shown.over else ""
    canvas.hit((LEFT, TOP, _wide(canvas), HIGH), f"{tip} {unit}".rstrip(), data)


def _draw_line(canvas: Canvas, shown: Shown, series: Series) -> None:
    """The numbers over the services of the run, from its first to its last; of a counter what it counted since the one before."""
    what = "counted since the one before" if series.is_counter else "values"
    canvas.text(0, 24, f"{count_of(shown.spectrum.count, shown.counts)}: {what}", "mute s10")
    scale, unit = abs(shown.meaning[0]), f" {shown.meaning[2]}" if shown.meaning[2] else ""
    means = {at: scale * value if series.is_counter else float(shown.value(value)) for at, value in series.means().items()}
    if not means:
        return
    mean = f"mean {_decimal(scale * series.mean() if series.is_counter else shown.value(shown.spectrum.mean()))}{unit}"
    canvas.text(0, 36, mean if series.is_counter else f"{mean}, RMS {_decimal(scale * shown.spectrum.rms())}{unit}", "mute s10")
    top, low, columns = max([*means.values(), 0]), min([*means.values(), 0]), max(max(means), 1) + 1
    each = HIGH / (top - low) if top > low else 0
    step = _wide(canvas) / columns
    places = [(LEFT + (at + 0.5) * step, FOOT - each * (value - low)) for at, value in means.items()]
    canvas.lines(places, f"l-{shown.kind}")
    if len(places) == 1:
        canvas.rect((places[0][0] - 1.5, places[0][1] - 1.5, 3, 3), shown.kind)
    canvas.line((LEFT, FOOT + 0.5), (LEFT + _wide(canvas), FOOT + 0.5), "l-mute thin")
    for value in sorted({0.0, low, top}):
        canvas.text(LEFT - 5, FOOT - each * (value - low) + 4, short(round(value, 1)), "mute s10 r")
    last = columns * series.per
    for place in ticks(last, 4):
        _draw_number(canvas, LEFT + _wide(canvas) * place / last, short(place), place == last)
    canvas.text(canvas.width, FOOT + 26, "service of the run", "mute s10 r")
    tip = f"{shown.of}: {count_of(shown.spectrum.count, shown.counts)}, {what}; least {shown.spectrum.least:,}, most {shown.spectrum.greatest:,}"
    canvas.hit((LEFT, TOP, _wide(canvas), HIGH), f"{tip}\neach point: the mean of {count(series.per, 'service')} of the run, one after another")
