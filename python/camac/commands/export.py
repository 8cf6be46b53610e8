"""export: the events of a file as columns with names and units."""
import argparse
import os
from typing import Any

from camac.export import ENDINGS, Given, export, files_of
from camac.output import is_one_of

ABOUT = """\
One row an event, and one row a word. A .csv makes three files: FILE.events.csv, FILE.words.csv and FILE.about.json. An .npz needs numpy, an .h5 h5py,
too. docs/DATA.md has the columns.

Status: 0 done; 1 the event file breaks, and the events before that are written, or plan or script is refused; 2 usage; 3 a file or the program
failed."""


def add_to(commands: Any) -> None:
    parser = commands.add_parser("export", help="Writes the events of a file as columns with names", epilog=ABOUT)
    parser.add_argument("file", metavar="EVENTS", help="an event file")
    parser.add_argument("-o", "--out", required=True, metavar="FILE", help="the file to write; its ending is .h5, .npz or .csv")
    parser.add_argument("--plan", metavar="PLAN", help="the plan of the run, with --script")
    parser.add_argument("--script", metavar="SCRIPT", help="its script: it names the services, and the words whose place it fixes")
    parser.add_argument("--words", metavar="TOML", help="what the words of events are")
    parser.add_argument("--record", metavar="JSON", help="the record of the run, which has plan and script")
    parser.add_argument("--overwrite", action="store_true", help="replaces files that hold bytes")
    parser.set_defaults(do=do, parser=parser)


def do(args: argparse.Namespace) -> int:
    given = Given(args.file, args.plan, args.script, args.words, args.record)
    if os.path.splitext(args.out)[1] not in ENDINGS:
        args.parser.error(f"the file to write ends in {', '.join(ENDINGS)}, not {args.out!r}")
    if (args.plan is None) != (args.script is None):
        args.parser.error("--plan and --script belong together")
    for out in files_of(args.out):
        if is_one_of(out, [os.fsdecode(it) for it in given if it is not None]):
            args.parser.error(f"{out} is an input: it would be lost")
    export(given, args.out, args.overwrite)
    return 0
