"""simulate: what is lost at a rate of triggers, and how long look-at-mes wait."""
import argparse
import contextlib
from typing import Any, Iterator, Mapping, Optional

from camac import pictures
from camac.commands.running import add_every, add_overwrite, read_pairs
from camac.drive import UsageFault
from camac.drivers import run_python
from camac.mock import Module, Place
from camac.output import say, write_made
from camac.pictures.svg import share
from camac.simulate import GREATEST_RATE, LEAST_RATE, PATIENCE, Setting, Simulation, curve, simulate
from camac.values import Ending

LEAST_CYCLE, GREATEST_CYCLE, GREATEST_SERVICES = 0.1, 1e6, 10_000_000
# The most services that are simulated for each rate of a curve.
OF_A_CURVE = 500
SHARES = ((0.5, "50 %"), (0.9, "90 %"), (0.99, "99 %"), (0.999, "99.9 %"), (1.0, "most"))
ASSUMED = "Q is 1, but 0 of a probe and of half of the F27, where --modules has no other module"
ABOUT = """\
Each dataway cycle takes --cycle-us, and nothing else takes time. Triggers are random, with the rate as their mean; --every is the dead time
of the trigger's logic. The line of a service has the triggers that came and were lost, the share that was answered (live), and
1 / (1 + rate * mean length of a service) (reckoned). The next line has the cycles from a look-at-me to the end of its service, and then the E of
`camac response`.

Each module accepts what its type in the plan declares, with words that look random. Q is 1, but 0 of a probe and of half of the F27, at random.
--modules names a file of Python with others for some stations: it has a dictionary `modules`, with a module of camac.mock by (crate, station).
With --worst each service takes its bound of cycles, with all waits.

Status: 0 done; 1 plan or script is refused; 2 usage; 3 a file or the program failed."""


def add_to(commands: Any) -> None:
    parser = commands.add_parser("simulate", help="Prints what is lost at a rate, and how long look-at-mes wait", epilog=ABOUT)
    parser.add_argument("plan", metavar="PLAN", help="a plan: a TOML file, or @sample, the built-in plan")
    parser.add_argument("script", metavar="SCRIPT", help="a script")
    text = f"this many triggers a second call for a service, {LEAST_RATE:g} to {GREATEST_RATE:,.0f}; once for each service that is called"
    parser.add_argument("--rate", action="append", required=True, metavar="SERVICE=RATE", help=text)
    text = f"how many microseconds a dataway cycle takes on your branch, {LEAST_CYCLE:g} to {GREATEST_CYCLE:,.0f}"
    parser.add_argument("--cycle-us", required=True, type=float, metavar="TIME", help=text)
    parser.add_argument("--worst", action="store_true", help="each service takes its bound of cycles, with all waits")
    parser.add_argument("--regular", action="store_true", help="triggers come regularly, not at random")
    add_every(parser)
    parser.add_argument("--services", type=int, default=10_000, metavar="COUNT", help="how many services are simulated (10,000)")
    parser.add_argument("--seed", type=int, default=1, metavar="NUMBER", help="the same number gives the same triggers and answers (1)")
    parser.add_argument("--modules", metavar="FILE", help="a file of Python with modules of your own")
    parser.add_argument("--events", metavar="EVENTS", help="the event file of the simulation, which must not hold bytes")
    parser.add_argument("-o", "--out", metavar="SVG", help="a picture of the same over rates from an eighth to eight times as great")
    add_overwrite(parser)
    parser.set_defaults(do=do, parser=parser)


def do(args: argparse.Namespace) -> int:
    if not LEAST_CYCLE <= args.cycle_us <= GREATEST_CYCLE:
        args.parser.error(f"--cycle-us is {LEAST_CYCLE:g} to {GREATEST_CYCLE:,.0f}")
    if not 1 <= args.services <= GREATEST_SERVICES:
        args.parser.error(f"--services is 1 to {GREATEST_SERVICES:,}")
    form = f"SERVICE=RATE with {LEAST_RATE:g} to {GREATEST_RATE:,.0f} a second"
    rates = read_pairs("--rate", args.rate, args.parser, form, _read_rate)
    setting = Setting(rates, args.cycle_us / 1e6, args.regular, args.every, args.services, args.seed, args.worst)
    made = simulate(args.plan, args.script, setting, _modules(args.modules), args.events)
    say("".join(f"{line}\n" for line in _lines(made, setting)))
    if args.out:
        less = setting._replace(services=min(setting.services, OF_A_CURVE))
        drawn = pictures.draw_rates(curve(args.plan, args.script, less, lambda: _modules(args.modules)), made, setting.cycle)
        write_made(args.out, drawn.picture(), args.overwrite)
    return 0


def _read_rate(text: str) -> Optional[float]:
    """The triggers a second; None if they are none."""
    with contextlib.suppress(ValueError):
        return float(text) if LEAST_RATE <= float(text) <= GREATEST_RATE else None
    return None


def _modules(file: Optional[str]) -> Optional[Mapping[Place, Module]]:
    """The modules of a file of the user's. They are made again each time."""
    if file is None:
        return None
    found = run_python(file).get("modules")
    if not isinstance(found, dict) or not all(isinstance(it, Module) for it in found.values()):
        raise UsageFault(f"{file} has no dictionary `modules` of modules by (crate, station)", 2)
    return found


def _lines(made: Simulation, setting: Setting) -> Iterator[str]:
    for service in made.services:
        live = f"live {service.live():.4f} reckoned {service.reckoned(setting.cycle):.4f}"
        yield f"service {service.name} gl {service.gl} rate {service.rate:g} came {service.came} lost {service.lost} {live}"
        quantiles = ", ".join(f"{label} {service.quantile(part):.1f}" for part, label in SHARES)
        yield f"  cycles from look-at-me to end: {quantiles}; at most {'-' if service.end is None else service.end}"
        if service.later():
            yield f"  {service.later()} ended later: the triggers do not keep the rates that the last number assumes (--every)"
        if service.again:
            yield f"  {service.again} more services were called for a look-at-me that was answered before: this service leaves it up (cclc {service.name} clears it)"
        if service.waiting is not None and (not service.waits or service.waiting > (service.end or 0)):
            yield f"  one look-at-me was not answered: at the end it had waited {service.waiting:.1f} cycles"
    yield f"{made.end.events} services in {made.seconds:.6g} s, {share(made.busy, 1)} of it in services"
    yield f"assumed: {'each service takes its bound; ' if setting.is_worst else ''}{ASSUMED}"
    if made.end.how is not Ending.ENDED:
        yield made.end.line
    elif (made.end.events or 0) < setting.services:
        yield f"no look-at-me was seen in {PATIENCE:,} triggers: is it enabled, is inhibit off, and the demand output on?"
