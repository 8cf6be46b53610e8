"""diff: compares what services may take before and after a change, and which commands a plan gains and loses."""
import argparse
from typing import Any, Dict, Iterator, List, NamedTuple, Optional, Set, Tuple

from camac import functions
from camac.commands.running import DONE, REFUSED, add_every
from camac.drive import File, Refused
from camac.output import say
from camac.subcommands import check, plan as read_plan, response
from camac.texts import plan_text
from camac.toml_places import with_commands
from camac.values import range_text, ranges

ABOUT = """\
Compares what each service may take: dataway cycles, event words and steps, and the most cycles from its look-at-me to its start and its end (each
module without a rate calls once).

  python3 -m camac diff OLD NEW --plan PLAN        two scripts on one plan
  python3 -m camac diff OLD NEW --script SCRIPT    two plans of one script, and the commands that the new one gains and loses

A line begins with = if nothing changed, ~ if something did, + if it is new, and - if it is gone. It ends with the bounds that have grown."""
STATUS = """\
Status: 0 no bound has grown; 1 one has, or a plan or script is refused; 2 usage; 3 a file or the program failed."""
# The quantities that are compared of a service, in the order in which they are printed.
QUANTITIES = ("cycles", "words", "steps", "start", "end")


def add_to(commands: Any) -> None:
    parser = commands.add_parser("diff", help="Compares what services may take before and after a change", description=ABOUT, epilog=STATUS)
    parser.add_argument("old", metavar="OLD", help="a script, or with --script a plan")
    parser.add_argument("new", metavar="NEW", help="the same after the change")
    other = parser.add_mutually_exclusive_group(required=True)
    other.add_argument("--plan", metavar="PLAN", help="OLD and NEW are scripts on this plan")
    other.add_argument("--script", metavar="SCRIPT", help="OLD and NEW are plans of this script")
    add_every(parser)
    parser.set_defaults(do=do, out=None)


def do(args: argparse.Namespace) -> int:
    pairs = [(args.plan, args.old), (args.plan, args.new)] if args.plan else [(args.old, args.script), (args.new, args.script)]
    bounds = []
    for plan, script in pairs:
        try:
            late = {it.name: it for it in response(plan, script, args.every)}
            bounds.append({it.name: Bounds(it.cycles, it.words, it.steps, late[it.name].start, late[it.name].end) for it in check(plan, script)})
        except Refused as refusal:
            place = plan if refusal.line is None else f"{script}:{refusal.line}"
            say(f"{place}: refused {refusal.code}: {refusal.rule}\n")
            return REFUSED
    found = changes(*bounds)
    lines = [it.line() for it in found]
    if args.script:
        lines += command_lines(*(commands_of(it) for it in (args.old, args.new)))
    say("".join(f"{it}\n" for it in lines))
    return REFUSED if any(it.grown() for it in found) else DONE


class Bounds(NamedTuple):
    """What a service may take at most, and the most cycles from its look-at-me to its begin and its end; None if there is no such number."""

    cycles: int
    words: int
    steps: int
    start: Optional[int]
    end: Optional[int]


class Change(NamedTuple):
    """A service before and after; None if it is not there."""

    name: str
    before: Optional[Bounds]
    after: Optional[Bounds]

    def grown(self) -> List[str]:
        """The quantities that are more than before. A service that is new has no bound to grow from."""
        if self.before is None or self.after is None:
            return []
        return [name for name, old, new in zip(QUANTITIES, self.before, self.after) if old is not None and (new is None or new > old)]

    def line(self) -> str:
        if self.before is None or self.after is None:
            values = self.after or self.before
            numbers = " ".join(f"{name} {_shown(value)}" for name, value in zip(QUANTITIES, values or ()))
            return f"{'+' if self.after else '-'} service {self.name} {numbers}"
        pairs = zip(QUANTITIES, self.before, self.after)
        numbers = " ".join(f"{name} {_shown(old)}" + ("" if old == new else f" -> {_shown(new)}") for name, old, new in pairs)
        grown = self.grown()
        return f"{'=' if self.before == self.after else '~'} service {self.name} {numbers}" + (f"  grown: {' '.join(grown)}" if grown else "")


def _shown(value: Optional[int]) -> str:
    return "-" if value is None else str(value)


def changes(before: Dict[str, Bounds], after: Dict[str, Bounds]) -> List[Change]:
    """The services of both, in the order of the new one; those that are gone are last."""
    return [Change(name, before.get(name), after.get(name)) for name in [*after, *(it for it in before if it not in after)]]


# A command of a module: crate, station, type, function, sub-address, and the bits that it moves.
Command = Tuple[int, int, str, int, int, Optional[int]]


def commands_of(plan: File, program: Optional[File] = None) -> Set[Command]:
    """The commands that may be sent to the modules of a plan. Raises as `camac.plan`."""
    declared = with_commands(read_plan(plan, program), plan_text(plan).decode("utf-8", "replace"))
    return {
        (crate.number, station.number, station.type, function, sub, one.width)
        for crate in declared.crates
        for station in crate.stations
        for (function, sub), one in declared.types[station.type].declared().items()
    }


def command_lines(before: Set[Command], after: Set[Command]) -> Iterator[str]:
    """The commands that a plan gains and loses, those that differ in their sub-address alone on one line."""
    for sign, commands in (("-", before - after), ("+", after - before)):
        places: Dict[Tuple[int, int, str, int, Optional[int]], List[int]] = {}
        for crate, station, name, function, sub, width in sorted(commands, key=lambda it: it[:5]):
            places.setdefault((crate, station, name, function, width), []).append(sub)
        for (crate, station, name, function, width), subs in places.items():
            bits = f" width {width or 24}" if functions.reads(function) or functions.writes(function) else ""
            yield f"{sign} command {crate} {station} {','.join(map(range_text, ranges(subs)))} {function} {name}{bits}"
