"""The picture of a plan: crates, stations, types of modules, graded-L bits and waits; with a run, the cycles at each station."""
from collections import Counter
from typing import TYPE_CHECKING, Dict, List, Optional, Sequence, Tuple

from camac.functions import name
from camac.pictures.svg import Canvas, count, cut
from camac.values import Crate, Declaration, Plan, Service, Station

if TYPE_CHECKING:
    from camac.runs import Run

LEFT, STEP, TALLEST = 86, 34, 104
CRATE_HEIGHT, BOX_HEIGHT = 160, 132
BADGE = (24, 17)
# The most characters in the line of a graded-L bit.
LONGEST_LINE = 122
NORMAL_STATIONS = range(1, 24)
# The controller takes the stations 24 and 25; its own commands go to 28 and 30.
CONTROLLER = 24


class Scene:
    """The contents of a picture of a plan: services by bit (None if no script is known), and cycles of the run by crate and station
    (None if they are not known)."""

    def __init__(self, plan: Plan, services: Optional[Dict[int, Service]], cycles: Optional[Dict[Tuple[int, int], int]]) -> None:
        self.plan, self.services, self.cycles = plan, services, cycles


def draw_plan(plan: Plan, services: Optional[Sequence[Service]] = None, run: "Optional[Run]" = None) -> Canvas:
    """Draws a row for each crate, and below it a line for each graded-L bit."""
    canvas = Canvas("The plan: crates, stations, module types, graded-L bits and waits")
    cycles: Optional[Dict[Tuple[int, int], int]] = None
    if run and run.has_listing:
        cycles = Counter()
        for command, sent in run.commands.items():
            # Those of a controller are at its first station.
            cycles[command.crate, min(command.station, CONTROLLER)] += sent.count
    scene = Scene(plan, None if services is None else {it.gl: it for it in services}, cycles)
    y = 6
    if not plan.crates:
        canvas.text(0, 18, "The plan has no crate.", "mute")
        y = 30
    for crate in plan.crates:
        _draw_crate(canvas, y, crate, scene)
        y += CRATE_HEIGHT
    for gl, crate, station in plan.demands():
        _draw_demand(canvas, y, gl, scene, f"crate {crate.number} station {station.number}, {station.type}")
        y += 20
    text = f"an event has at most {count(plan.buffer, 'word')}"
    if cycles:
        text += f"; the bar at the left edge of a station: its share of the run's cycles (the tallest is {max(cycles.values()):,})"
    canvas.text(LEFT, y + 11, text, "mute s11")
    canvas.grow(y + 18)
    return canvas


def _draw_crate(canvas: Canvas, y: float, crate: Crate, scene: Scene) -> None:
    canvas.text(0, y + 26, f"crate {crate.number}", "b s14")
    canvas.text(0, y + 44, count(crate.waits, "wait") if crate.waits else "no waits")
    canvas.text(0, y + 60, f"{len(crate.stations)} of 23 stations", "mute s10")
    canvas.text(LEFT - 8, y + 140, "GL bit", "mute s10 r")
    there = {it.number: it for it in crate.stations}
    for number in NORMAL_STATIONS:
        x = LEFT + (number - 1) * STEP
        canvas.text(x + 16, y + 9, number, "mute s10 m")
        box = (x + 0.5, y + 13.5, 31, BOX_HEIGHT)
        if number in there:
            _draw_station(canvas, box, crate, there[number], scene)
        else:
            canvas.rect(box, "l-grid", f"crate {crate.number} station {number}: empty")
    x = LEFT + len(NORMAL_STATIONS) * STEP
    tip = f"crate {crate.number} stations 24 and 25: the crate's controller"
    canvas.rect((x + 0.5, y + 13.5, 2 * STEP - 3, BOX_HEIGHT), "l-mute", tip)
    _draw_cycles(canvas, (x, y), (crate.number, CONTROLLER), scene, tip)
    canvas.text(x + STEP - 1, y + 9, "24 25", "mute s10 m")
    canvas.upright(x + STEP + 3, y + 114, "controller", "mute s11")


def _draw_station(canvas: Canvas, box: Tuple[float, float, float, float], crate: Crate, station: Station, scene: Scene) -> None:
    x, y = box[0] - 0.5, box[1] - 13.5
    tip = _station_tip(crate, station, scene)
    canvas.rect(box, "face l-mute", "\n".join(tip))
    _draw_cycles(canvas, (x, y), (crate.number, station.number), scene, tip[0])
    canvas.upright(x + 21, y + 114, cut(station.type, 15), "mono s11")
    if station.gl:
        _draw_badge(canvas, (x + 4, y + 125), station.gl, scene, "\n".join(tip[:2]))


def _draw_cycles(canvas: Canvas, corner: Tuple[float, float], place: Tuple[int, int], scene: Scene, tip: str) -> None:
    """The bar at the left edge of a station."""
    cycles = scene.cycles or {}
    used = cycles.get(place, 0)
    if used:
        (x, y), high = corner, max(1.5, TALLEST * used / max(cycles.values()))
        canvas.rect((x + 1, y + 118 - high, 4, high), "ours", f"{tip}\n{count(used, 'cycle')} in this run")


def _draw_badge(canvas: Canvas, corner: Tuple[float, float], gl: int, scene: Scene, tip: Optional[str] = None) -> None:
    x, y = corner
    served = gl in (scene.services or {})
    canvas.rect((x, y, *BADGE), "ours" if served else "l-mute", tip, ' rx="3"')
    canvas.text(x + BADGE[0] / 2, y + 13, gl, "m s11 b on" if served else "m s11 b")


def _draw_demand(canvas: Canvas, y: float, gl: int, scene: Scene, place: str) -> None:
    """The line of a graded-L bit."""
    _draw_badge(canvas, (LEFT + 4, y - 1), gl, scene)
    who = ""
    if scene.services is not None:
        service = scene.services.get(gl)
        who = f": service {service.name}: at most {count(service.cycles, 'cycle')}, {count(service.words, 'word')}" if service else ": no service"
    canvas.text(LEFT + 36, y + 11, cut(place, LONGEST_LINE - len(who)) + who)


def _station_tip(crate: Crate, station: Station, scene: Scene) -> List[str]:
    """The tip of a station: itself, its bit, its cycles in the run, and each of its commands."""
    lines = [f"crate {crate.number} station {station.number}: {station.type}"]
    if station.gl:
        service = (scene.services or {}).get(station.gl)
        who = "" if scene.services is None else f": service {service.name}" if service else ": no service"
        lines.append(f"graded-L bit {station.gl}{who}")
    if scene.cycles is not None:
        lines.append(f"{count(scene.cycles[crate.number, station.number], 'cycle')} in this run")
    kind = scene.plan.types[station.type]
    if kind.declarations:
        return lines + [_declaration_line(it) for it in kind.declarations]
    return [*lines, f"{count(kind.commands, 'command')}, {count(kind.probes, 'probe')}"]


def _declaration_line(declaration: Declaration) -> str:
    """F0 A0 to A11: read group 1, 12 bits"""
    where = f"F{declaration.function} A{declaration.first}" + (f" to A{declaration.last}" if declaration.last > declaration.first else "")
    if declaration.is_probe:
        return f"{where}: probe: no register"
    width = f", {count(declaration.width, 'bit')}" if declaration.width else ""
    return f"{where}: {name(declaration.function)}{width}" + (", clears its LAM" if declaration.clears else "")
