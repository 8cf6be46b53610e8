"""The picture of the bounds of a script: of each service what it may take, of its heading's numbers, and what a run showed."""
from typing import TYPE_CHECKING, Optional, Sequence, Tuple

from camac.pictures.svg import Canvas, count, cut
from camac.values import Service

if TYPE_CHECKING:
    from camac.runs import Run, Seen

# Of cycles and of words: where the bar begins, and how wide it is.
CYCLES, WORDS = (160, 210), (580, 150)


def draw_bounds(services: Sequence[Service], run: "Optional[Run]" = None) -> Canvas:
    """Draws a row for each service: a bar of cycles and a bar of words, and below them what was seen in a run."""
    canvas = Canvas("The bounds of the script: at most, of annotated")
    canvas.text(CYCLES[0], 14, "cycles: at most, of annotated", "mute s11")
    canvas.text(WORDS[0], 14, "words: at most, of annotated", "mute s11")
    seen, y = run.seen if run else {}, 22
    if not services:
        canvas.text(0, y + 14, "The script has no service.", "mute")
        y += 24
    for service in services:
        canvas.text(0, y + 14, f"GL {service.gl}", "mute s11")
        canvas.text(44, y + 14, cut(service.name, 14), "b")
        here = seen.get(service.gl)
        _draw_bar(canvas, y, CYCLES, "ours", (service.cycles, service.annotated_cycles), here.cycles if run and here and run.has_cycles else None)
        _draw_bar(canvas, y, WORDS, "control", (service.words, service.annotated_words), here.words if here else None)
        y += 32 if run else 24
    if any(it.cycles < it.annotated_cycles or it.words < it.annotated_words for it in services):
        canvas.text(0, y + 12, "A heading promises more than is needed: `camac bounds` prints the least ones.", "mute s11")
        y += 16
    if seen:
        text = "The line below a bar: from the least to the most that the run showed; the thick mark is the mean. "
        canvas.text(0, y + 12, text + "Dashed: the number of the heading.", "mute s11")
        y += 18
    canvas.grow(y + 4)
    return canvas


def _draw_bar(canvas: Canvas, y: float, place: Tuple[int, int], kind: str, bound: Tuple[int, int], seen: "Optional[Seen]") -> None:
    """A bar: filled the checker's bound, dashed the number of the heading; below it the line of what was seen."""
    (x, wide), (most, annotated) = place, bound
    scale = wide / max(annotated, 1)
    canvas.rect((x + 0.5, y + 2.5, wide, 15), "l-mute dash", f"annotated {annotated:,}")
    filled = max(most * scale, 2) if most else 0
    canvas.rect((x, y + 3, filled, 14), kind, f"at most {most:,} of {annotated:,} annotated")
    canvas.text(x + wide + 8, y + 14, f"{most:,} of {annotated:,}", "s11")
    if seen is None:
        return
    tip = f"seen in {count(seen.count, 'service')}: least {seen.least:,}, mean {seen.mean:,.1f}, most {seen.most:,}"
    canvas.rect((x + seen.least * scale, y + 20, max((seen.most - seen.least) * scale, 2), 3), "ink", tip)
    canvas.rect((x + seen.mean * scale - 1.5, y + 18, 3, 7), "ink", tip)
    canvas.text(x + wide + 8, y + 26, f"seen {seen.least:,} to {seen.most:,}", "mute s10")
