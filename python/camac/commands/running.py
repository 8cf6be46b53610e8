"""How a command runs, from its words to its status; and options of several commands."""
import argparse
import contextlib
import functools
import gc
import io
import os
import re
import signal
import sys
from typing import Any, Callable, Dict, List, Optional, Sequence

from camac.drive import DriveFault, Refused, UsageFault, one_line
from camac.events import EventFileFault
from camac.output import end_by, say
from camac.texts import is_standard_input

DONE, REFUSED, USAGE, FAULT = 0, 1, 2, 3
STATUS = """\
Status: 0 done; 1 refused, a wait that was not permitted, or numbers that differ; 2 usage; 3 a file or the program failed."""
RAW = argparse.RawDescriptionHelpFormatter
# For a parser that is made: to look for the width of the terminal, as all others do, loads much, and help alone needs it.
QUICK = functools.partial(RAW, width=80)
LOST = "{} is an input: it would be lost"
GREATEST_EVERY = 4_294_967_295
# Reads the words of a command line, and ends with status 2 if they are not understood.
Parse = Callable[[List[str]], argparse.Namespace]


def refuse_pipes(parser: argparse.ArgumentParser, inputs: Sequence[str], takes_pipes: bool = False) -> None:
    """Ends with status 2 if an input can be read only once."""
    if is_standard_input(inputs):
        parser.error("@in cannot be an input here: it is read more than once")
    pipes = [it for it in inputs if os.path.exists(it) and not os.path.isfile(it) and not os.path.isdir(it)]
    if pipes and not takes_pipes:
        parser.error(f"{pipes[0]} is no file, and cannot be an input here: it is read more than once")


def main(parse: Parse, words: Optional[List[str]] = None) -> int:
    """Runs a command, and returns its status. If the reader of a pipe closed it, and at Ctrl-C, the process ends silently, by the
    signal that says so."""
    if sys.stderr is None:
        sys.stderr = open(os.devnull, "w", encoding="utf-8")
    # What a command makes it needs to its end: to look for what may go takes a tenth of a short one.
    gc.set_threshold(100_000)
    status = FAULT
    try:
        return _run(parse, sys.argv[1:] if words is None else words)
    except BrokenPipeError:
        return end_by(signal.SIGPIPE)
    except KeyboardInterrupt:
        return end_by(signal.SIGINT)
    except UsageFault as fault:
        text, status = str(fault), USAGE
    except (DriveFault, ValueError) as fault:
        text = one_line(fault)
    except OSError as fault:
        text = reason(fault)
    finally:
        gc.freeze()
    with contextlib.suppress(OSError):
        print(f"camac: {text}", file=sys.stderr)
    return status


def reason(fault: OSError) -> str:
    """What failed, and of which file."""
    return f"{fault.strerror or fault}" + (f": {os.fsdecode(fault.filename)}" if fault.filename else "")


def _run(parse: Parse, words: List[str]) -> int:
    """Runs a command, and returns its status. Help is written as all that is printed."""
    help_text = io.StringIO()
    try:
        with contextlib.redirect_stdout(help_text):
            args = parse(words)
    except SystemExit as stop:
        say(help_text.getvalue())
        return int(stop.code or DONE)
    try:
        return int(args.do(args))
    except (Refused, EventFileFault) as refusal:
        say(f"{refusal}\n")
        return REFUSED


def add_every(to: argparse.ArgumentParser) -> None:
    text = "the module of a service raises its look-at-me at least this many cycles after the time before; once for each service"
    to.add_argument("--every", action="append", default=[], metavar="SERVICE=CYCLES", help=text)


def read_every(words: Sequence[str], parser: argparse.ArgumentParser) -> Dict[str, int]:
    """Reads the values of --every; ends with status 2 if they are not understood."""
    form = f"SERVICE=CYCLES with 1 to {GREATEST_EVERY:,} cycles"
    return read_pairs("--every", words, parser, form, lambda it: re.fullmatch("[0-9]{1,10}", it) and 1 <= int(it) <= GREATEST_EVERY and int(it))


def read_pairs(option: str, words: Sequence[str], parser: argparse.ArgumentParser, form: str, read: Callable[[str], Any]) -> Dict[str, Any]:
    """Reads the values NAME=VALUE of an option; ends with status 2 if a name is there twice, or `read` gives nothing for a value."""
    found: Dict[str, Any] = {}
    for word in words:
        name, _, value = word.partition("=")
        if not name or not read(value):
            parser.error(f"{option} is {form}, not {word!r}")
        if name in found:
            parser.error(f"{option} {name} is there twice")
        found[name] = read(value)
    return found


def add_overwrite(to: argparse.ArgumentParser) -> None:
    to.add_argument("--overwrite", action="store_true", help="replaces a file that another command made")
