"""The lines of a body with what each has of the bound: a table of numbers, with heat behind the text and a bar beside it."""
from typing import Dict, List, Optional, Sequence, Tuple

from camac.pictures.svg import MONO_11, Canvas, count, cut, share
from camac.values import Body, Row

ROW = 17
# Of a longer body the lines of most cost are shown.
MOST_LINES, SHOWN_LINES = 80, 60
NUMBER_AT, TEXT_AT, TEXT_SIZE = 30, 42, 70
HEAT = (36, 484)
# Where a column ends, its word, and how many characters it has room for.
COLUMNS = ((560, "times", 9), (612, "each", 7), (668, "cycles", 8), (716, "share", 7), (764, "words", 7))
BAR_AT, BAR = 784.5, 170
OF_LOCK = "waits of the lock"


class Part:
    """Statements that begin on a line and are counted equally often: what one time of all of them costs, how often it is counted, and their
    cycles: the product, or less if turns of an `each` differ. Of these some are waits, or are not needed. The waits of a lock are a part of their own."""

    __slots__ = ("times", "is_lock", "each", "cycles", "waits", "slack", "words", "kinds")

    def __init__(self, times: int, is_lock: bool) -> None:
        self.times, self.is_lock = times, is_lock
        self.each = self.cycles = self.waits = self.slack = self.words = 0
        self.kinds: List[str] = []

    def take(self, row: Row) -> None:
        self.each += row.own()
        self.cycles += row.share.cycles
        self.waits += row.waits
        self.slack += row.slack
        self.words += row.share.words
        if row.own() and row.word not in self.kinds:
            self.kinds.append(row.word)


class Line:
    """What is on a line: its parts, the first of which has its number, and the cycles of the widest statement with its block."""

    def __init__(self, parts: List[Part], whole: int) -> None:
        self.parts, self.whole = parts, whole

    def cycles(self) -> int:
        return sum(it.cycles for it in self.parts)


def line_of(rows: Sequence[Tuple[Row, int]]) -> Line:
    """The statements that begin on one line, each with its cycles and those of its block."""
    parts: Dict[Tuple[int, bool], Part] = {}
    for row, _ in rows:
        if row.own():
            key = row.counted(), row.word == "lock"
            parts.setdefault(key, Part(*key)).take(row)
    free = [row for row, _ in rows if not row.own()]
    made = sorted(parts.values(), key=lambda it: it.is_lock)
    if not made:
        made = [Part(max(row.times for row in free), False)]
    for row in free:
        made[0].take(row)
    return Line(made, max(whole for _, whole in rows))


def draw_lines(
    canvas: Canvas, y: float, body: Body, of: Tuple[Sequence[str], int], wholes: Sequence[Tuple[Row, int]], promised: Optional[Tuple[int, int]] = None
) -> Canvas:
    """Draws the lines of a body. `of` are the lines of the script and the bound of which these have their shares; `wholes` are the statements
    of the body, each with its cycles and those of its block; `promised` is how often the heading promises how much that is not needed."""
    source, most = of
    rows: Dict[int, List[Tuple[Row, int]]] = {}
    for row, whole in wholes:
        rows.setdefault(row.line, []).append((row, whole))
    lines = {number: line_of(statements) for number, statements in rows.items()}
    for x, word, _ in COLUMNS:
        canvas.text(x, y + 10, word, "mute s10 r")
    canvas.text(BAR_AT, y + 10, "share of the bound", "mute s10")
    table = _Table(canvas, y + 16, most, lines)
    before = body.line - 1
    for number in _shown_lines(body, lines, source):
        if number > before + 1:
            table.gap(number - before - 1)
        before = number
        table.line(number, source[number - 1].rstrip().replace("\t", "  ") if number <= len(source) else "")
    if promised:
        table.promise(*promised)
    canvas.grow(table.y + 8)
    return canvas


class _Table:
    def __init__(self, canvas: Canvas, y: float, most: int, lines: Dict[int, Line]) -> None:
        self.canvas, self.most, self.lines = canvas, most, lines
        self.y = y
        self.hottest = max((part.cycles for it in lines.values() for part in it.parts), default=0) or 1
        self.widest = max((it.whole for it in lines.values()), default=0) or 1

    def gap(self, lines: int) -> None:
        self.canvas.text(TEXT_AT + 2, self.y + 12, f"… {count(lines, 'line')} without much cost", "mute s11")
        self.y += ROW

    def line(self, number: int, text: str) -> None:
        line = self.lines.get(number)
        more = list(line.parts) if line else []
        has_room = len(text) <= TEXT_SIZE - len(OF_LOCK) - 6
        first = more.pop(0) if more and (has_room or not more[0].is_lock) else None
        self.heat(first)
        self.canvas.text(NUMBER_AT, self.y + 13, number, "mute mono s11 r")
        self.canvas.text(TEXT_AT, self.y + 13, cut(text, TEXT_SIZE), "mono s11", ' xml:space="preserve"')
        if first and first.is_lock and first.cycles:
            self.canvas.text(HEAT[0] + HEAT[1] - 6, self.y + 13, OF_LOCK, "mute s11 r")
        if line and line.whole > line.cycles():
            self.canvas.rect((BAR_AT, self.y + 3.5, BAR * line.whole / self.widest, 10), "l-mute")
        if first:
            self.numbers(number, first)
        self.y += ROW
        for part in more:
            self.part(number, text, part)

    def part(self, number: int, text: str, part: Part) -> None:
        """A further part of a line, on a row of its own."""
        self.heat(part)
        indent = MONO_11 * (min(len(text) - len(text.lstrip()), TEXT_SIZE // 2) + 2)
        self.canvas.text(TEXT_AT + indent, self.y + 13, OF_LOCK if part.is_lock else f"of this line: {', '.join(part.kinds)}", "mute s11")
        self.numbers(number, part)
        self.y += ROW

    def promise(self, times: int, each: int) -> None:
        """What the heading of a procedure promises, and its body does not need."""
        part = Part(times, False)
        part.each, part.cycles, part.slack = each, times * each, times * each
        self.canvas.text(TEXT_AT, self.y + 13, "promised by the heading, not needed", "mute s11")
        self.numbers(0, part)
        self.y += ROW

    def heat(self, part: Optional[Part]) -> None:
        if part and part.cycles:
            self.canvas.rect((HEAT[0], self.y, HEAT[1], ROW), "waits", None, f' style="fill-opacity:{0.08 + 0.32 * part.cycles / self.hottest:.2f}"')

    def numbers(self, number: int, piece: Part) -> None:
        """How often, what one time costs, both together, their share of the bound, the words, and the bar."""
        values = {"times": piece.times, "each": piece.each, "cycles": piece.cycles, "words": piece.words}
        for x, word, room in COLUMNS:
            text = (share(piece.cycles, self.most) if piece.cycles else "") if word == "share" else _short(values[word], room)
            if text and (word == "times" or text != "0" or (word == "cycles" and piece.each)):
                self.canvas.text(x, self.y + 13, text, "s11 r")
        begin, wide = BAR_AT, BAR * piece.cycles / self.widest
        sign = "=" if piece.times * piece.each == piece.cycles else "≥"
        tip = f"line {number}: {piece.times:,} × {piece.each:,} {sign} {piece.cycles:,} of {count(self.most, 'cycle')}; of them "
        tip += count(piece.waits, "wait") + (" of the lock" if piece.is_lock else f", {piece.slack:,} not needed" if piece.slack else "")
        for kind, cycles in parts_of(piece.cycles, piece.waits, piece.slack):
            part = wide * cycles / piece.cycles
            self.canvas.rect((begin, self.y + 4, max(part, 0.6), 9), kind, tip if part >= 2 else None)
            begin += part


def _shown_lines(body: Body, lines_of: Dict[int, Line], source: Sequence[str]) -> List[int]:
    """The lines from the heading to the last brace; of a long body those of most cost, without gaps of a single line."""
    last = max([body.line, *lines_of])
    while last < len(source) and source[last].split("#")[0].replace("}", "").strip() == "" and "}" in source[last].split("#")[0]:
        last += 1
    lines = list(range(body.line, last + 1))
    if len(lines) <= MOST_LINES:
        return lines
    dearest = sorted(lines, key=lambda line: -lines_of[line].whole if line in lines_of else 0)
    shown = {body.line, *dearest[:SHOWN_LINES]}
    shown |= {line for line in lines if line - 1 in shown and line + 1 in shown}
    return sorted(shown)


def _short(value: int, room: int) -> str:
    """The number, or if it has no room its power of ten: 4.3e9."""
    text = f"{value:,}"
    if len(text) <= room:
        return text
    digits, _, power = f"{value:.1e}".partition("e")
    return f"{digits}e{int(power)}"


def parts_of(cycles: int, waits: int, slack: int) -> List[Tuple[str, int]]:
    """The parts of so many cycles that are not 0, with their colours, from left to right."""
    return [it for it in (("ours", cycles - waits - slack), ("waits", waits), ("slack", slack)) if it[1]]
