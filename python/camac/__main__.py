"""The commands of the package: python3 -m camac check, fmt, lsp, diff, draw, report, annotate, csv, survey, simulate, export, watch."""
import argparse
import functools
import importlib
import sys
from typing import Callable, List, Optional

from camac.commands.running import LOST, QUICK, RAW, STATUS, read_every, refuse_pipes
from camac.commands.running import main as run_command
from camac.output import is_one_of

PROGRAM = "python3 -m camac"
# Each is a module of camac.commands, which is loaded only if it is asked for.
COMMANDS = ("check", "draw", "report", "annotate", "csv", "survey", "simulate", "export", "watch", "fmt", "diff", "lsp")
# The words of a command line that name one file to read.
INPUTS = ("plan", "script", "source", "answers", "file", "old", "new", "over")
DESCRIPTION = """\
Judges scripts, lays them out and compares what they may take, serves editors, draws a plan, a script and a run of camac, and reports a run.

A picture is an SVG file, a report one HTML file; both open in a browser. docs/DATA.md shows them. The program is camac in PATH, or the one that the environment
variable CAMAC_PROGRAM names."""


def make_parser(words: List[str]) -> argparse.ArgumentParser:
    top = argparse.ArgumentParser(prog=PROGRAM, description=DESCRIPTION, epilog=STATUS, formatter_class=QUICK)
    made = functools.partial(argparse.ArgumentParser, formatter_class=QUICK)
    commands = top.add_subparsers(dest="command", metavar="COMMAND", required=True, prog=PROGRAM, parser_class=made)  # type: ignore[call-overload]
    for name in words[:1] if words[:1] and words[0] in COMMANDS else COMMANDS:
        importlib.import_module(f"camac.commands.{name}").add_to(commands)
    for it in (top, *commands.choices.values()):
        it.formatter_class = RAW if it.epilog else argparse.HelpFormatter
    return top


def parse(words: List[str]) -> argparse.Namespace:
    """Reads the words of the command line; ends with status 2 if they are not understood."""
    parser = make_parser(words)
    args = parser.parse_args(words)
    if "read" in args:
        args.read(args, parser)
    if "every" in args:
        args.every = read_every(args.every, getattr(args, "parser", parser))
    inputs = getattr(args, "files", []) + getattr(args, "scripts", []) + [getattr(args, name, "") or "" for name in INPUTS]
    refuse_pipes(parser, inputs, args.command == "fmt" or getattr(args, "what", "") == "listing")
    for out in (args.out, getattr(args, "write_record", None)):
        if out and is_one_of(out, inputs):
            parser.error(LOST.format(out))
    return args


def main(words: Optional[List[str]] = None) -> int:
    return run_command(parse, words)


def command(name: str) -> Callable[[], int]:
    """A command under a name of its own, as `camac-report`."""
    return lambda: main([name, *sys.argv[1:]])


report_command, fmt_command, lsp_command, survey_command = map(command, ("report", "fmt", "lsp", "survey"))


if __name__ == "__main__":
    sys.exit(main())
