"""survey: asks the crates what they accept, and compares that with the plan."""
import argparse
import itertools
import os
import re
import sys
from typing import Any, Iterable, Iterator, List, Optional, Sequence, Tuple

from camac import drivers
from camac.drive import Branch, ProgramFault
from camac.commands.running import DONE, FAULT, REFUSED, add_overwrite
from camac.functions import name, reads, writes
from camac.output import anything, nothing, output, refuse_loss, say
from camac.surveys import FUNCTIONS, TESTS, Found, Row, Survey, survey
from camac.surveys.asking import Asked, declared_plan
from camac.surveys.wiring import wires
from camac.texts import hashed, plan_text
from camac.values import Plan

ABOUT = """\
All that is sent is in scripts that the checker has accepted, and nothing of it writes to a module: F8 and F27 to A0 to A15 of each station with a
module, F0 and F1 where the plan declares them. --only and --also choose among F0 to F15 and F24 to F31; but for F8 and F27 a function goes only
where it is declared.

Status: 0 plan and crates agree; 1 something differs, or the plan is refused; 2 usage; 3 a file or the program failed."""
# The columns of a terminal.
COLUMNS = 80
HEAD = f"  {'command':<23}{'X':>3}{'Q':>3}  {'bits seen':<11}the plan"
READ = "A read may take a word out of a memory, or count an address on."


def add_to(commands: Any) -> None:
    parser = commands.add_parser("survey", prog="camac-survey", help="Asks the crates what they accept, and compares that with the plan", epilog=ABOUT)
    parser.add_argument("plan", metavar="PLAN", help="a plan: a TOML file, or @sample, the built-in plan")
    parser.add_argument("--driver", required=True, metavar="DRIVER", help=drivers.FORMS)
    parser.add_argument("--only", metavar="FUNCTIONS", help="sends these functions alone, as F8,F27")
    parser.add_argument("--also", metavar="FUNCTIONS", help="sends these, too, as F2,F10: they change what is in a module")
    parser.add_argument("--empty", action="store_true", help="sends F8 and F27 to the stations that the plan leaves empty, too")
    parser.add_argument("--wiring", action="store_true", help="has each look-at-me raised, by F25 or by you, and compares the bits of graded-L that come; it asks before each")
    text = "tests the driver instead, at a register that F16 writes and F0 reads, as 1,6,0; Z and C go to its crate, and clear its modules"
    parser.add_argument("--driver-test", metavar="CRATE,STATION,SUB_ADDRESS", help=text)
    parser.add_argument("--keep", metavar="FOLDER", help="writes each plan, script and its answers there, which camac run plays again")
    parser.add_argument("-o", "--out", metavar="JSON", help="a file of what was found, for the record of a run and for a report")
    add_overwrite(parser)
    parser.set_defaults(do=do, parser=parser)


def do(args: argparse.Namespace) -> int:
    functions, register = _functions(args), _register(args)
    plan = declared_plan(args.plan, None)
    if args.keep:
        os.makedirs(args.keep, exist_ok=True)
        if os.listdir(args.keep):
            raise ProgramFault(f"{args.keep} is not empty", FAULT)
    if args.out:
        from camac.surveys.summary import Summary, refuse_foreign

        rule = anything if args.overwrite else refuse_foreign
        refuse_loss(args.out, rule)
    branch = drivers.driver(args.driver, args.plan)
    if register:
        return _test(args, branch, register)
    _print(_told_before(plan, functions, args.empty))
    surveyed = survey(args.plan, branch, functions=functions, has_empty=args.empty, tell=_tell)
    if args.wiring:
        surveyed = surveyed._replace(wires=tuple(wires(args.plan, branch, _agrees)))
    _print([*_table(surveyed), *_ends(surveyed)])
    _keep(args.keep, surveyed.scripts())
    if args.out:
        with output(args.out, rule) as out:
            digest = hashed(plan_text(args.plan)).hexdigest()
            out.write(Summary(surveyed.at, digest, surveyed.sent(), surveyed.differences(), surveyed.not_tried()).text())
    return REFUSED if surveyed.differences() else DONE


def _test(args: argparse.Namespace, branch: Branch, register: Tuple[int, int, int]) -> int:
    from camac.surveys.driver_test import RULES, Kept, test_driver

    found, asked = test_driver(args.plan, branch, register)
    rules = itertools.groupby(sorted(found, key=lambda it: RULES.index(it.rule)), key=lambda it: it.rule)
    _print(row for rule, its in rules for row in (rule, *(line for it in its for line in _wrapped(f"{it.kept.value:<11}{it.text}", "  ", 13))))
    _keep(args.keep, asked)
    return REFUSED if any(it.kept is Kept.BREAKS for it in found) else DONE


def _register(args: argparse.Namespace) -> Optional[Tuple[int, int, int]]:
    """The register of --driver-test; ends with status 2 if it is not understood."""
    if args.driver_test is None:
        return None
    found = re.findall(r"^([1-7]),([1-9]|1[0-9]|2[0-3]),([0-9]|1[0-5])\Z", args.driver_test)
    if not found or args.out or args.wiring:
        args.parser.error("--driver-test is CRATE,STATION,SUB_ADDRESS, as 1,6,0, without --wiring and -o")
    crate, station, sub_address = map(int, found[0])
    return crate, station, sub_address


def _print(lines: Iterable[str]) -> None:
    say("".join(f"{it}\n" for it in lines))


def _tell(line: str) -> None:
    """Shows how far it is to somebody who waits at a terminal."""
    if sys.stderr.isatty():
        print(f"camac: {line}", file=sys.stderr)


def _agrees(what: str) -> bool:
    """Asks the user, who may decline; the end of the input declines, too."""
    print(f"{what} (s leaves it out): ", end="", file=sys.stderr, flush=True)
    line = sys.stdin.readline() if sys.stdin else ""
    return bool(line) and line.strip().lower() != "s"


def _functions(args: argparse.Namespace) -> List[int]:
    only, also = (_read(args, text) for text in (args.only, args.also))
    return sorted({*(FUNCTIONS if only is None else only), *(also or ())})


def _read(args: argparse.Namespace, text: Optional[str]) -> Optional[List[int]]:
    """The functions of an option; ends with status 2 if they are not understood, or write."""
    if text is None:
        return None
    words = text.split(",")
    numbers = [int(it[1:]) for it in words if re.fullmatch("F[0-9]{1,2}", it)]
    if len(numbers) < len(words) or any(it > 31 or writes(it) for it in numbers):
        args.parser.error(f"functions are F0 to F15 and F24 to F31, as F8,F27, not {text!r}; F16 to F23 write, and a survey writes nothing")
    return numbers


def _keep(folder: Optional[str], asked: Iterable[Asked]) -> None:
    """Writes scripts and their answers into a folder, if one is named."""
    if folder is None:
        return
    for question in asked:
        for end, text in (("toml", question.script.plan), ("script", question.script.text), ("answers", question.answers())):
            with output(os.path.join(folder, f"{question.script.name}.{end}"), nothing) as out:
                out.write(text)


def _wrapped(text: str, indent: str = "  ", more: int = 4) -> List[str]:
    """A sentence in lines of 80 columns; all but the first begin with so many more blanks."""
    import textwrap

    return textwrap.wrap(text, COLUMNS, initial_indent=indent, subsequent_indent=" " * more, break_long_words=False, break_on_hyphens=False)


def _told_before(plan: Plan, functions: Sequence[int], has_empty: bool) -> List[str]:
    """What is going to be sent, and what that may do to modules."""
    stations = sum(len(it.stations) for it in plan.crates)
    tests, others = [it for it in TESTS if it in functions], sorted({*functions} - {*TESTS})
    where = "all 23 stations of each crate" if has_empty else f"the {stations} stations with a module"
    lines = [f"sends {_named(tests)} to A0 to A15 of {where}"] if tests else []
    lines += [f"sends {_named(others)} where the plan declares it"] if others else []
    return [row for it in lines + ([READ] if any(map(reads, others)) else []) for row in _wrapped(it, "", 2)]


def _named(functions: Iterable[int]) -> str:
    return ", ".join(f"F{it} ({name(it)})" for it in functions)


def _row(row: Row) -> str:
    is_probe = row.declared is not None and row.declared.is_probe
    bits = f"{row.bits} of {row.declared.width}" if row.declared and row.x and reads(row.function) and not is_probe else "-"
    command = f"F{row.function:<3}{row.sub_addresses()}" + (", probe" if is_probe else "")
    return f"  {command:<23}{row.x:>3}{row.q:>3}  {bits:<11}{row.found.value}"


def _table(surveyed: Survey) -> Iterator[str]:
    """The answers by station. Commands that are neither declared nor accepted are left out."""
    crate = 0
    for (at, station), rows in surveyed.stations():
        shown = [it for it in rows if it.found is not Found.NOTHING]
        if at != crate:
            crate = at
            yield f"crate {crate}"
            yield HEAD
        if shown or rows[0].type:
            yield f" station {station}, {rows[0].type or 'which the plan leaves empty'}"
        yield from map(_row, shown)
    for it in surveyed.wires:
        yield from _wrapped(it.line(), "", 2) if it.is_raised else ()


def _ends(surveyed: Survey) -> Iterator[str]:
    """What differs, what was not tried, and the sums."""
    for title, lines in (("differs", surveyed.differences()), ("not tried", surveyed.not_tried())):
        if lines:
            yield title
            yield from (row for line in lines for row in _wrapped(line))
    agree, more, differ = (surveyed.count(it) for it in (Found.AGREES, Found.MORE, Found.DIFFERS))
    yield f"surveyed at {surveyed.at}: sent {surveyed.sent():,}, agree {agree:,}, differ {differ:,}, not declared {more:,}"
