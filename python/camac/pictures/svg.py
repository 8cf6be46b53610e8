"""SVG as text: the colours of both themes, texts that may hold anything, and a canvas."""
import functools
import math
import re
from typing import Callable, Dict, Iterable, List, Optional, Sequence, Tuple, Union

WIDTH = 960
# Of each name the colour in the light and in the dark theme. Text has a contrast of 4.5 or more (WCAG 2).
COLOURS: Dict[str, Tuple[str, str]] = {
    "ground": ("#ffffff", "#16191d"), "face": ("#f3f5f7", "#20262c"), "grid": ("#d0d7de", "#3c444d"), "ink": ("#1b1f24", "#e6e8ea"),
    "mute": ("#57606a", "#a9b1ba"), "ours": ("#2a66ad", "#6aa9ea"), "read": ("#2a66ad", "#6aa9ea"), "waits": ("#b75a00", "#f0a04b"),
    "slack": ("#66707a", "#8b96a1"), "write": ("#7b3fa0", "#c59be8"), "control": ("#3f7332", "#8cc474"), "controller": ("#57606a", "#a9b1ba"),
    "lock": ("#806400", "#d9bd45"), "noq": ("#0b7a75", "#4fc7c0"), "nox": ("#c0182b", "#ff7b7b"),
}
LIGHT, DARK = 0, 1
SANS = "system-ui, 'DejaVu Sans', Verdana, sans-serif"
MONO = "ui-monospace, 'DejaVu Sans Mono', Consolas, monospace"
# Six steps of opacity: the fuller, the more.
LEVELS = (0.12, 0.25, 0.4, 0.58, 0.78, 1.0)
# The width of a character in pixels, as far as it can be known without the font.
MONO_11, SANS_11, BOLD_12 = 6.7, 6.8, 8.2
NO_POINTER = ' style="pointer-events:none"'
# What no XML may hold, what moves the cursor of a terminal, and halves of characters.
FORBIDDEN = "[\x00-\x08\x0b\x0c\x0e-\x1f\x7f-\x9f\ud800-\udfff\ufffe\uffff]"
Box = Tuple[float, float, float, float]


def clean(text: object) -> str:
    """The text as an XML file may hold it: a comment of a script, or the name of a file, may hold any byte. A tab is two spaces."""
    plain = str(text)
    # The expression takes long to compile, and few texts need it.
    return plain if plain.isprintable() or plain.replace("\n", "").isprintable() else re.sub(FORBIDDEN, "\ufffd", plain).replace("\t", "  ")


def escape(text: object) -> str:
    """The text between tags or, quotes too, as the value of an attribute."""
    return clean(text).replace("&", "&amp;").replace("<", "&lt;").replace(">", "&gt;").replace('"', "&quot;")


@functools.lru_cache(maxsize=8192)
def number(value: float) -> str:
    """A number of pixels, to a tenth."""
    text = f"{value:.1f}"
    return text[:-2] if text.endswith(".0") else text


def count(value: int, one: str) -> str:
    """ "1 cycle", "2,000 cycles" """
    return f"{value:,} {one}{'' if value == 1 else 's'}"


def share(part: float, whole: float) -> str:
    """A share in percent: no decimal from 9.95 % on, else one."""
    percent = 100 * part / whole if whole else 0
    return f"{percent:.0f} %" if percent == 0 or percent >= 9.95 else f"{percent:.1f} %"


def cut(text: str, size: int) -> str:
    """The text in at most so many characters."""
    return text if len(text) <= size else text[: size - 1] + "…"


def ticks(most: float, wanted: int = 4) -> List[int]:
    """Round numbers from 0 to `most`, about as many as are wanted."""
    if most <= 0:
        return [0]
    raw, base = most / wanted, 1
    while base * 10 <= raw:
        base *= 10
    step = max(1, next(base * it for it in (1, 2, 5, 10) if base * it >= raw or it == 10))
    return list(range(0, int(most) + 1, step))


def level_of(entries: int, peak: int) -> int:
    """The step of opacity of so many entries, of `peak` at most, by their logarithm."""
    top = len(LEVELS) - 1
    return top if peak == 1 else min(top, int((top + 0.99) * math.log(entries) / math.log(peak)))


def variables(theme: int) -> str:
    return "".join(f"--{name}:{pair[theme]};" for name, pair in COLOURS.items())


def _colour_rules(colour: Callable[[str], str]) -> str:
    """The rules of colours; `colour` gives that of a name. Outlines are first, so that a class of areas fills what is outlined."""
    rules = [f"svg.camac{{background:{colour('ground')}}}"]
    rules += [f"svg.camac .l-{name}{{stroke:{colour(name)};fill:none}}" for name in COLOURS]
    rules += [f"svg.camac .{name}{{fill:{colour(name)}}}" for name in COLOURS]
    rules += [f"svg.camac text{{fill:{colour('ink')}}}"]
    rules += [f"svg.camac text.{kind}{{fill:{colour(name)}}}" for kind, name in (("mute", "mute"), ("nox", "nox"), ("on", "ground"))]
    return "".join(rules)


def _form_rules() -> str:
    levels = "".join(f"svg.camac .k{at}{{fill-opacity:{level}}}" for at, level in enumerate(LEVELS))
    return (
        f"svg.camac{{font-family:{SANS};font-size:12px}}{levels}svg.camac .mono{{font-family:{MONO}}}"
        "svg.camac .b{font-weight:600}svg.camac .r{text-anchor:end}svg.camac .m{text-anchor:middle}"
        "svg.camac .dash{stroke-dasharray:5 3}svg.camac .thin{stroke-width:1}svg.camac .thick{stroke-width:2}"
        "svg.camac .s10{font-size:10px}svg.camac .s11{font-size:11px}svg.camac .s14{font-size:14px}"
        "svg.camac .hit{fill-opacity:0}svg.camac .crisp{shape-rendering:crispEdges}"
    )


def page_style() -> str:
    """The style of the pictures in a page, by the page's variables."""
    return _colour_rules(lambda name: f"var(--{name})") + _form_rules()


class Canvas:
    """A picture that grows downwards as marks are added. Boxes are x, y, width and height in pixels; classes are those of the style."""

    def __init__(self, title: str, width: float = WIDTH) -> None:
        self.title, self.width, self.height = title, width, 0.0
        self.parts: List[str] = []

    def grow(self, height: float) -> None:
        self.height = max(self.height, height)

    def rect(self, box: Box, kind: str, tip: Optional[str] = None, extra: str = "") -> None:
        """A box; `tip` is shown where the pointer is over it."""
        x, y, width, height = box
        self.grow(y + height)
        head = f'<rect x="{number(x)}" y="{number(y)}" width="{number(width)}" height="{number(height)}" class="{kind}"{extra}'
        self.parts.append(head + (f"><title>{escape(tip)}</title></rect>" if tip else "/>"))

    def hit(self, box: Box, tip: str, extra: str = "") -> None:
        """A place without a mark of its own, with a tip."""
        self.rect(box, "hit", tip, extra)

    def text(self, x: float, y: float, text: object, kind: str = "", extra: str = "") -> None:
        self.grow(y + 4)
        kind = f' class="{kind}"' if kind else ""
        self.parts.append(f'<text x="{number(x)}" y="{number(y)}"{kind}{extra}>{escape(text)}</text>')

    def upright(self, x: float, y: float, text: str, kind: str) -> None:
        """A text that is read from below."""
        place = f'transform="translate({number(x)} {number(y)}) rotate(-90)"'
        self.parts.append(f'<text {place} class="{kind}"{NO_POINTER}>{escape(text)}</text>')

    def line(self, begin: Tuple[float, float], end: Tuple[float, float], kind: str) -> None:
        self.grow(max(begin[1], end[1]))
        self.path(f"M{number(begin[0])} {number(begin[1])}L{number(end[0])} {number(end[1])}", kind)

    def lines(self, places: Iterable[Tuple[float, float]], kind: str) -> None:
        """A line from each place to the next one."""
        self.path("M" + "L".join(f"{number(x)} {number(y)}" for x, y in places), kind)

    def path(self, way: Union[str, Sequence[str]], kind: str) -> None:
        """A path, or many of one kind as one path."""
        if way:
            self.parts.append(f'<path d="{"".join(way)}" class="{kind}"/>')

    def shades(self, ways: Sequence[Tuple[int, str]], kind: str) -> None:
        """Paths of one kind, each with its step of opacity: one path of a step."""
        for level in range(len(LEVELS)):
            self.path([way for at, way in ways if at == level], f"{kind} crisp k{level}")

    def say(self, text: str, y: float = 18) -> "Canvas":
        """A picture that has nothing but this to show."""
        self.text(0, y, text, "mute")
        self.grow(y + 8)
        return self

    def legend(self, x: float, y: float, names: Sequence[Tuple[str, str]], step: Callable[[str], float]) -> float:
        """Small boxes with their words; returns where the next one would be."""
        for kind, word in names:
            self.rect((x, y, 11, 11), kind)
            self.text(x + 16, y + 10, word, "s11")
            x += step(word)
        return x

    def place(self, x: float, y: float, other: "Canvas") -> None:
        """Adds another picture, whose upper left corner is there."""
        self.parts.append(f'<g transform="translate({number(x)} {number(y)})">{"".join(other.parts)}</g>')
        self.grow(y + other.height)

    def stack(self, title: str, other: "Canvas") -> None:
        """Adds another picture below, under a title."""
        top = self.height + (24 if self.parts else 0)
        self.text(0, top + 16, title, "b s14")
        self.place(0, top + 28, other)

    def _svg(self, attributes: str, before: str, role: str = "img") -> str:
        size = f'width="{number(self.width)}" height="{number(self.height)}" viewBox="0 0 {number(self.width)} {number(self.height)}"'
        title, parts = escape(self.title), "".join(self.parts)
        return f'<svg{attributes} class="camac" role="{role}" aria-label="{title}" {size}><title>{title}</title>{before}{parts}</svg>'

    def picture(self) -> str:
        """The picture as a file of its own, with plain colours, which every reader of SVG knows."""
        light, dark = _colour_rules(lambda name: COLOURS[name][LIGHT]), _colour_rules(lambda name: COLOURS[name][DARK])
        style = f"{light}@media (prefers-color-scheme:dark){{{dark}}}{_form_rules()}"
        before = f'<style>{style}</style><rect width="100%" height="100%" class="ground"/>'
        return self._svg(' xmlns="http://www.w3.org/2000/svg"', before) + "\n"

    def figure(self) -> str:
        """The picture as a part of a page. Where it has tips, keys reach them."""
        has_tips = any("<title>" in it for it in self.parts)
        return self._svg(' tabindex="0" aria-roledescription="picture"', "", "application") if has_tips else self._svg("", "")
