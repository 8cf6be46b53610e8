"""The picture of how late services can be: of each one what passes at most from its look-at-me to its end, and what a run showed."""
from typing import TYPE_CHECKING, Dict, List, Optional, Sequence, Tuple

from camac.contradictions import Late
from camac.pictures.costs import MARK, NARROWEST
from camac.pictures.svg import NO_POINTER, SANS_11, Canvas, count, cut
from camac.values import Response

if TYPE_CHECKING:
    from camac.runs import Run

# Where the bars begin, how wide the longest one is, and how many characters the sum below a bar has room for.
LEFT, WIDE, SUM = 160, 640, 125
NO_NUMBER = "no number (-): no bound was found for when all look-at-mes up to this bit are answered"


class Piece:
    """A part of the time from a look-at-me to the end of its service: its colour, its cycles, whose they are, its term of the sum, and what
    is said of it."""

    def __init__(self, kind: str, cycles: int, name: str, term: str, tip: str) -> None:
        self.kind, self.cycles, self.name, self.term, self.tip = kind, cycles, name, term, tip


def draw_response(responses: Sequence[Response], run: "Optional[Run]" = None) -> Canvas:
    """Draws a bar for each service; `responses` are those of all services of a script, in the order of bits."""
    canvas = Canvas("How late each service can be, from its look-at-me to its end")
    canvas.text(LEFT, 14, "cycles from a look-at-me to the end of its service, at most", "mute s11")
    late = run.late if run else {}
    y = 22.0
    if not responses:
        canvas.text(0, y + 14, "The script has no service.", "mute")
        y += 24
    longest = max([it.end or 0 for it in responses] + [it.most for it in late.values()], default=0)
    scale = WIDE / max(longest, 1)
    for response in responses:
        canvas.text(0, y + 14, f"GL {response.gl}", "mute s11")
        canvas.text(44, y + 14, cut(response.name, 14), "b")
        canvas.text(44, y + 27, "once" if response.every is None else f"every {response.every:,}", "mute s10")
        seen = late.get(response.gl)
        if seen:
            _draw_seen(canvas, y, seen, scale)
        _draw_bar(canvas, (y, y + (38 if seen else 30)), response, responses, scale)
        y += 48 if seen else 40
    _draw_words(canvas, y, responses, late)
    return canvas


def _draw_bar(canvas: Canvas, at: Tuple[float, float], of: Response, responses: Sequence[Response], scale: float) -> None:
    """The pieces of a bar one after another, and their sum below."""
    y, below = at
    if of.end is None:
        canvas.rect((LEFT + 0.5, y + 2.5, WIDE, 15), "l-mute dash")
        unkept = next((f"no number: {it.text()}" for other in responses if other.gl <= of.gl for it in other.unkept), NO_NUMBER)
        canvas.text(LEFT + 8, y + 14, cut(unkept, SUM), "s11")
        return
    x, pieces = float(LEFT), pieces_of(of, responses)
    for piece in pieces:
        wide = piece.cycles * scale
        canvas.rect((x, y + 3, max(wide - (wide > 3), NARROWEST), 14), piece.kind, piece.tip if wide >= MARK else None)
        room = int((wide - 8) / SANS_11)
        if room >= min(4, len(piece.name)):
            canvas.text(x + 4, y + 14, cut(piece.name, room), "s11 on", NO_POINTER)
        x += wide
    canvas.text(LEFT + WIDE + 8, y + 14, f"at most {of.end:,}", "s11")
    canvas.text(LEFT, below, cut(" + ".join(it.term for it in pieces) or "no cycle", SUM), "mute s10")


def _draw_seen(canvas: Canvas, y: float, late: Late, scale: float) -> None:
    """The mark of the latest end of a run."""
    if not late.count:
        canvas.text(LEFT + WIDE + 8, y + 27, "a rate was broken" if late.left_out else "not called", "mute s10")
        return
    tip = f"seen in {count(late.count, 'service')}: at most {late.most:,}, in service {late.number:,} of the run"
    if late.left_out:
        tip += f"\nleft out: {count(late.left_out, 'service')}, since a rate was broken"
    canvas.rect((LEFT + late.most * scale - 1.5, y + 18, 3, 7), "ink", tip)
    canvas.text(LEFT + WIDE + 8, y + 27, f"seen {late.most:,}", "mute s10")


def pieces_of(of: Response, responses: Sequence[Response]) -> List[Piece]:
    """What passes from the look-at-me of a service to its end, where this is longest; the pieces add up to `end`.

    Of a call that is not the first one of its stretch, what came before its look-at-me has been served in part: the first piece is what is
    left of it then, and the lower bits are counted from there on."""
    lower = [it for it in responses if it.gl < of.gl]
    first = max((it for it in responses if it.gl > of.gl), key=lambda it: it.cycles, default=of._replace(cycles=0))
    call, begins = _latest_call(of, first.cycles, lower)
    passed = (call - 1) * (of.every or 0)
    calls = [(it, it.calls(passed - 1) if passed else 0) for it in lower]
    tip = f"{first.name} (GL {first.gl}) may be in progress: at most {count(first.cycles, 'cycle')}"
    pieces = [Piece("slack", first.cycles, first.name, f"{first.cycles:,} ({first.name}, in progress)", tip)]
    if call > 1:
        pieces = [_left(of, call, [(first, 1), (of, call - 1), *calls])]
    for service, before in calls:
        times = service.calls(begins) - before
        tip = f"{service.name} (GL {service.gl}) goes first: {count(times, 'time')} at most {count(service.cycles, 'cycle')}"
        name = service.name if times == 1 else f"{times:,} × {service.name}"
        pieces.append(Piece("waits", times * service.cycles, name, _product(times, service), tip))
    tip = f"{of.name} (GL {of.gl}) itself: at most {count(of.cycles, 'cycle')}"
    pieces.append(Piece("ours", of.cycles, of.name, f"{of.cycles:,} (its own)", tip))
    return [it for it in pieces if it.cycles]


def _left(of: Response, call: int, came: Sequence[Tuple[Response, int]]) -> Piece:
    """What is left when the look-at-me of a call comes; `came` are the services called before it, each with how often."""
    passed, total = (call - 1) * (of.every or 0), sum(times * it.cycles for it, times in came)
    tip = f"Call {call:,} of a stretch ends latest. Before its look-at-me came {count(total, 'cycle')}:\n"
    tip += " + ".join(_product(times, it) for it, times in came if times * it.cycles)
    tip += f"\nof which {passed:,} have passed: {count(call - 1, 'period')} of {of.every or 0:,}"
    return Piece("slack", total - passed, "left", f"{total - passed:,} (left from before, at call {call:,})", tip)


def _product(times: int, of: Response) -> str:
    return f"{of.cycles:,} ({of.name})" if times == 1 else f"{times:,} × {of.cycles:,} ({of.name})"


def _latest_call(of: Response, first: int, lower: Sequence[Response]) -> Tuple[int, int]:
    """Which call of a stretch waits longest, and after how many cycles of the stretch it begins. `first` are the cycles of the service that may be in
    progress. Raises ValueError if no call of a stretch waits so long as the program says."""
    begins, longest = 0, of.longest or 0
    for call in range(1, of.calls(longest) + 1):
        before = first + (call - 1) * of.cycles
        wanted = before + sum(it.calls(begins) * it.cycles for it in lower)
        while begins < wanted <= longest:
            begins = wanted
            wanted = before + sum(it.calls(begins) * it.cycles for it in lower)
        if begins == wanted and begins - (call - 1) * (of.every or 0) == of.start:
            return call, begins
    raise ValueError(f"no call of {of.name} waits {of.start} cycles, as the program says")


def _draw_words(canvas: Canvas, y: float, responses: Sequence[Response], late: Dict[int, Late]) -> None:
    names = [("slack", "in progress, or left from before"), ("waits", "lower bits, which go first"), ("ours", "its own cycles")]
    canvas.legend(LEFT, y + 4, names, lambda word: 34 + SANS_11 * len(word))
    y += 16
    words = []
    if any(it.count for it in late.values()):
        words.append("The mark below a bar: the latest end that the run showed, while the rates were kept.")
    if any(it.every is None for it in responses):
        words.append("once: no rate was given. The numbers of a line hold if each such service up to its bit calls once before a pause.")
    for it in words:
        y += 16
        canvas.text(0, y, it, "mute s11")
    canvas.grow(y + 8)
