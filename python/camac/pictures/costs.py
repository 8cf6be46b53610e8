"""The picture of a body's cost: what its bound consists of, as bars below bars, and then by line."""
from typing import TYPE_CHECKING, Dict, List, Optional, Sequence, Tuple

from camac.bodies import calls_of, opened
from camac.pictures.lines import OF_LOCK, draw_lines, parts_of
from camac.pictures.svg import MONO_11, NO_POINTER, SANS_11, WIDTH, Canvas, count, cut, number, share
from camac.texts import GREATEST_DEPTH
from camac.values import Body, BodyKind, Row

if TYPE_CHECKING:
    from camac.runs import Seen

WIDE = WIDTH - 2
FIRST_BAR, BAR, STEP = 22, 20, 21
# Where the heading promises more than FAR times what is needed, the picture is cut at SHOWN times, so that what is needed has room.
FAR, SHOWN = 1.5, 1.3
# Narrower bars are not drawn, and marks narrower than MARK have no tip.
NARROWEST, MARK = 0.8, 2


class Node:
    """A statement with what is in its block: the cycles of both, of them waits and what is not needed; and the statement that it is
    in, by its place."""

    __slots__ = ("row", "cycles", "waits", "slack", "parent", "has_block")

    def __init__(self, row: Row, parent: Optional[int]) -> None:
        self.row, self.parent, self.has_block = row, parent, False
        self.cycles, self.waits, self.slack = row.share.cycles, row.waits, row.slack


class Scale:
    """How wide a cycle is, and whether the heading's number lies outside of the picture."""

    def __init__(self, cycle: float, whole: int, is_cut: bool) -> None:
        self.cycle, self.whole, self.is_cut = cycle, whole, is_cut


def draw_costs(body: Body, source: Sequence[str], seen: "Optional[Seen]" = None, bodies: Sequence[Body] = (), has_calls: bool = True) -> Canvas:
    """Draws the cost of a service or procedure. `source` are the lines of the script; `seen` are the cycles of the services of a run; `bodies`
    are all of the script, so that calls can be opened. Where it `has_calls` the lines of what is called follow those of the body."""
    name = f"{body.kind.value} {body.name}"
    canvas = Canvas(f"What the cycles of {name} consist of")
    most, annotated = body.most.cycles, body.annotated[0]
    canvas.text(0, 16, f"{name} (line {body.line}): at most {count(most, 'cycle')} of {annotated:,} annotated", "b s14")
    y = 40 if seen else 26
    whole = max(annotated, most, 1)
    is_cut = whole > FAR * most > 0
    scale = Scale(WIDE / (SHOWN * most if is_cut else whole), whole, is_cut)
    _draw_whole(canvas, y, body, scale)
    if seen:
        _draw_seen(canvas, y, seen, scale)
    procedures = {it.name: it for it in bodies if it.kind is BodyKind.PROCEDURE}
    nodes = nodes_of(opened(body, procedures))
    y += FIRST_BAR + 2
    _draw_nodes(canvas, y, nodes, scale, (body, source))
    deepest = max((it.row.depth for it in nodes if it.cycles), default=0)
    y += min(deepest, GREATEST_DEPTH) * STEP + 6
    _draw_legend(canvas, y, body)
    draw_lines(canvas, y + 28, body, (source, most), _wholes(body))
    for title, lines in draw_calls(body, source, bodies) if has_calls else ():
        canvas.stack(title, lines)
    return canvas


def draw_calls(body: Body, source: Sequence[str], bodies: Sequence[Body]) -> List[Tuple[str, Canvas]]:
    """Of each call of a body the lines of what is called, with what they have of the body's bound, and a title."""
    drawn = []
    for call in calls_of(body, {one.name: one for one in bodies if one.kind is BodyKind.PROCEDURE}):
        title = f"call {call.body.name} (line {call.line}): {call.times:,} × {call.each:,} = {count(call.times * call.each, 'cycle')}"
        canvas = Canvas(title)
        promised = (call.times, call.promised() // call.times) if call.promised() else None
        drawn.append((title, draw_lines(canvas, 0, call.body, (source, body.most.cycles), _wholes(call.body), promised)))
    return drawn


def _wholes(body: Body) -> List[Tuple[Row, int]]:
    return [(it.row, it.cycles) for it in nodes_of(body.rows)]


def nodes_of(rows: Sequence[Row]) -> List[Node]:
    """The statements in the order of the text, each with what is in its block."""
    nodes: List[Node] = []
    around: List[int] = []
    for at, row in enumerate(rows):
        while around and rows[around[-1]].depth >= row.depth:
            around.pop()
        nodes.append(Node(row, around[-1] if around else None))
        around.append(at)
    for node in reversed(nodes):
        if node.parent is not None:
            parent = nodes[node.parent]
            parent.has_block = True
            parent.cycles += node.cycles
            parent.waits += node.waits
            parent.slack += node.slack
    return nodes


def _draw_whole(canvas: Canvas, y: float, body: Body, scale: Scale) -> None:
    """The first bar: dashed what the heading promises, filled what is needed."""
    most, waits, slack = body.most.cycles, body.waits(), body.slack()
    left = scale.whole - most
    canvas.rect((0.5, y, WIDE, FIRST_BAR), "l-mute dash", f"annotated: {count(scale.whole, 'cycle')}, of them {left:,} not needed")
    wide = most * scale.cycle
    if most:
        tip = f"at most {count(most, 'cycle')}, of them {count(waits, 'wait')} for auxiliary controllers"
        canvas.rect((0.5, y, wide, FIRST_BAR), "face l-ink", tip)
    text = f"at most {most:,} = {most - waits - slack:,} ours + {waits:,} waits"
    if slack:
        text += f" + {slack:,} promised by procedures, not needed"
    if wide > SANS_11 * len(text) + 12:
        canvas.text(6, y + 15, text, "s11")
    text = f"{left:,} not needed" + (" …" if scale.is_cut else "")
    if WIDE - wide > SANS_11 * len(text) + 12:
        canvas.text(WIDE - 6, y + 15, text, "mute s11 r")


def _draw_seen(canvas: Canvas, y: float, seen: "Seen", scale: Scale) -> None:
    """Two triangles above the first bar: the mean and the most of a run. If they are near to each other, one text says both."""
    for value in (seen.mean, seen.most):
        x = min(value * scale.cycle, WIDE)
        canvas.path(f"M{number(x)} {number(y - 1)}l-4 -7h8z", "ink")
    mean, most = f"seen: mean {seen.mean:,.1f}", f"most {seen.most:,}"
    texts = [(seen.mean, mean), (float(seen.most), most)]
    if (seen.most - seen.mean) * scale.cycle < SANS_11 * (len(mean) + len(most)) / 2 + 8:
        texts = [(seen.mean, f"{mean}, {most}")]
    for value, text in texts:
        half = SANS_11 * len(text) / 2
        canvas.text(min(max(value * scale.cycle, half), WIDE - half), y - 11, text, "s11 m")


def _draw_nodes(canvas: Canvas, y: float, nodes: List[Node], scale: Scale, of: Tuple[Body, Sequence[str]]) -> None:
    """The bars of the statements, each below the one that it is in and as wide as its cycles."""
    begins: List[float] = []
    free: Dict[Optional[int], float] = {None: 0.0}
    for at, node in enumerate(nodes):
        x = free[node.parent]
        begins.append(x)
        free[node.parent] = x + node.cycles * scale.cycle
        free[at] = x + node.row.share.cycles * scale.cycle
        if node.cycles * scale.cycle >= NARROWEST and node.row.depth <= GREATEST_DEPTH:
            top = y + (node.row.depth - 1) * STEP
            _draw_node(canvas, (x, top), node, scale, of)


def _draw_node(canvas: Canvas, corner: Tuple[float, float], node: Node, scale: Scale, of: Tuple[Body, Sequence[str]]) -> None:
    (x, top), (body, source) = corner, of
    wide = node.cycles * scale.cycle
    own = node.row.share.cycles * scale.cycle if node.has_block else 0.0
    gap = 1 if wide > 3 else 0
    # The line on which the statement begins, without its comment.
    text = source[node.row.line - 1].split("#")[0].strip() if node.row.line <= len(source) else node.row.word
    tip = _node_tip(node, text, body) if wide >= MARK else None
    if node.has_block:
        if own:
            is_call = node.row.word == "call"
            canvas.rect((x, top, max(own - gap, NARROWEST), BAR), "slack" if is_call else "waits", tip)
            text_of = "not needed" if is_call else OF_LOCK
            if own > SANS_11 * len(text_of) + 8:
                canvas.text(x + 4, top + 14, text_of, "s11 on", NO_POINTER)
        canvas.rect((x + own + 0.5, top + 0.5, max(wide - own - gap - 1, NARROWEST), BAR - 1), "face l-mute", tip)
    else:
        at, ends = x, x + wide - gap
        for kind, cycles in parts_of(node.cycles, node.waits, node.slack):
            part = wide * cycles / node.cycles
            canvas.rect((at, top, max(min(part, ends - at), NARROWEST), BAR), kind, tip)
            at += part
    room = int((wide - own - 8) / MONO_11)
    if room >= 4:
        label = f"{node.row.line}: {text}"
        shown = str(node.row.line) if room < min(8, len(label)) else cut(label, room)
        if len(shown) <= room:
            canvas.text(x + own + 4, top + 14, shown, "mono s11" if node.has_block else "mono s11 on", NO_POINTER)


def _node_tip(node: Node, text: str, body: Body) -> str:
    row = node.row
    tip = f"line {row.line}: {text}\n{count(row.times, 'time')} at most {count(row.each.cycles, 'cycle')}: "
    tip += f"{count(node.cycles, 'cycle')}, {share(node.cycles, body.most.cycles)} of the bound\nof them {count(node.waits, 'wait')}"
    if row.word == "lock":
        tip += f", {row.share.cycles:,} of the lock"
    return tip + (f", {node.slack:,} promised by the heading of a procedure, not needed" if node.slack else "")


def _draw_legend(canvas: Canvas, y: float, body: Body) -> None:
    names = [("ours", "our cycles"), ("waits", "waits, at most")]
    if body.slack():
        names.append(("slack", "not needed by a procedure"))
    x = canvas.legend(0, y + 2, names, lambda word: 30 + SANS_11 * len(word))
    canvas.text(x + 10, y + 12, "The wider, the more of the bound. Below: the same by line; an outline counts the block too.", "mute s11")
