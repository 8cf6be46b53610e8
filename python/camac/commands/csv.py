"""csv: makes a table of a listing, of comma-separated values (RFC 4180, with LF): for spreadsheets and for programs that read it."""
import argparse
import csv
import errno
import os
import sys
from typing import Any, Dict, Iterable, Iterator, List, TextIO

from camac.commands.running import DONE, add_overwrite
from camac.output import anything, made_like, output
from camac.printed import parse_listing
from camac.values import Cycle, Demand, Item, Move, RunEnd

LISTING = "number,operation,service,pattern,crate,station,sub_address,function,move,word,x,q,wait"


def add_to(commands: Any) -> None:
    parser = commands.add_parser("csv", help="Makes a table of a listing; `export` makes those of events")
    parser.add_argument("what", choices=("listing",), metavar="KIND", help="listing")
    parser.add_argument("file", metavar="FILE", help="what `camac run` printed, - for standard input")
    parser.add_argument("-o", "--out", metavar="CSV", help="the file to write; else standard output")
    add_overwrite(parser)
    parser.set_defaults(do=make_csv)


def make_csv(args: argparse.Namespace) -> int:
    is_standard = args.file == "-"
    with output(args.out, anything if args.overwrite else made_like(LISTING)) as out:
        if is_standard and sys.stdin is None:
            raise OSError(errno.EBADF, os.strerror(errno.EBADF), "standard input")
        with open(0 if is_standard else args.file, encoding="utf-8", errors="replace", newline="\n", closefd=not is_standard) as listing:
            write_listing(listing, out)
    return DONE


def write_listing(lines: Iterable[str], out: TextIO) -> None:
    """Writes a line for each operation of a listing, given by its lines, and none for its last line. Numbers are decimal; what an operation does not
    have is empty. Raises ValueError at a line that is none of a listing, and OSError if it cannot be written."""
    writer = csv.writer(out, lineterminator="\n")
    writer.writerow(LISTING.split(","))
    writer.writerows(_rows(parse_listing(lines)))


def _rows(items: Iterator[Item]) -> Iterator[List[object]]:
    service = None
    for number, item in enumerate((it for it in items if not isinstance(it, RunEnd)), 1):
        row: Dict[str, object] = item._asdict()
        if isinstance(item, Demand):
            service = item.service
        elif isinstance(item, Cycle):
            row.update(item.command._asdict(), move=item.move.value, word=None if item.move is Move.NONE else item.word)
        row.update(number=number, operation=type(item).__name__.lower(), service=service)
        yield [row.get(name) for name in LISTING.split(",")]
