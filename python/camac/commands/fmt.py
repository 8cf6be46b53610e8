"""fmt: lays scripts out."""
import argparse
import sys
from typing import Any, Tuple

from camac.commands.running import DONE, FAULT, REFUSED, reason
from camac.layout import LayoutFault, formatted
from camac.output import anything, bytes_output, read_original, say

ABOUT = """\
Puts scripts into one layout: two spaces a block, one statement a line, comments kept. If tokens or comments would change, the script
stays as it is. A block of one statement on one line stays there."""
STATUS = """\
Status: 0 done; 1 a script has no layout, or with --check another one; 2 usage; 3 a file failed."""


def add_to(commands: Any) -> None:
    it = commands.add_parser("fmt", prog="camac-fmt", help="Lays scripts out", description=ABOUT, epilog=STATUS)
    it.add_argument("files", nargs="+", metavar="SCRIPT", help="scripts; - is standard input, whose layout goes to standard output")
    it.add_argument("--check", action="store_true", help="writes nothing, and names the scripts whose layout is another one")
    it.set_defaults(do=do, out=None)


def do(args: argparse.Namespace) -> int:
    laid = [_lay_out(it, args.check) for it in args.files]
    for file, (status, fault) in zip(args.files, laid):
        if fault:
            print(f"camac: {fault}", file=sys.stderr)
        elif status:
            say(f"{file}: its layout is another one\n")
    return max(status for status, _ in laid)


def _lay_out(file: str, is_check: bool) -> Tuple[int, str]:
    """Puts a script into the one layout; if `is_check`, nothing is written. A script that has no layout stays as it is. Returns the status
    for it, and what has failed, if that is no other layout."""
    try:
        if file == "-":
            with open(0, "rb", closefd=False) as given:
                text = given.read()
            made = formatted(text)
            if not is_check:
                with bytes_output(None, anything) as out:
                    out.write(made)
        else:
            original = read_original(file)
            text = original.data
            made = formatted(text)
            if not is_check and made != text:
                original.replace(made)
    except LayoutFault as fault:
        return REFUSED, f"{file}:{fault.line}: {fault}"
    except BrokenPipeError:
        # Nobody is there to be told: this ends the process.
        raise
    except OSError as why:
        return FAULT, reason(why)
    return REFUSED if is_check and made != text else DONE, ""
