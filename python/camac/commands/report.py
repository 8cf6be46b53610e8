"""report: makes one page of all that is known of a run."""
import argparse
from typing import Any

from camac.commands.cuts import add_words, naming, read_cuts
from camac.commands.running import STATUS, add_every, add_overwrite
from camac.output import anything, refuse_loss, write_made
from camac.report import report_with_run
from camac.runs import Inputs


def add_to(commands: Any) -> None:
    parser = commands.add_parser("report", prog="camac-report", help="Makes one page of all that is known of a run", epilog=STATUS)
    parser.add_argument("plan", metavar="PLAN", help="a plan: a TOML file, or @sample, the built-in plan")
    parser.add_argument("script", metavar="SCRIPT", help="a script")
    parser.add_argument("source", metavar="ANSWERS|EVENTS", help="the answers of the run, or its event file")
    parser.add_argument("-o", "--out", required=True, metavar="HTML", help="the file to write")
    parser.add_argument("--write-record", metavar="JSON", help="writes the record of the run, too; a file of another kind stays as it is")
    parser.add_argument("--survey", metavar="JSON", help="what camac-survey found: the page says it, and the record has it")
    add_every(parser)
    add_words(parser)
    add_overwrite(parser)
    parser.set_defaults(do=make_report, read=read_cuts)


def make_report(args: argparse.Namespace) -> int:
    inputs = Inputs(args.plan, args.script, args.source)
    if args.write_record:
        from camac.record import refuse_foreign, write_played

        refuse_loss(args.write_record, anything if args.overwrite else refuse_foreign)
    made, run = report_with_run(inputs, None, args.every, naming(args), args.survey)
    write_made(args.out, made.text, args.overwrite)
    if args.write_record and run:
        write_played(args.write_record, inputs, run, args.overwrite, args.survey)
    return made.status
