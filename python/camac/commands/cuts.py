"""Options of draw and report: what the words of events are, and what is cut out of their spectra."""
import argparse
from typing import TYPE_CHECKING

from camac.histograms import Pairs, Spectrum

if TYPE_CHECKING:
    from camac.columns import Naming


def add_words(to: argparse.ArgumentParser) -> None:
    to.add_argument("--words", metavar="TOML", help="what the words of events are; else their names come from the script")
    text = "draws two numbers of an event against each other, named as their spectra are: the one across, the one up"
    to.add_argument("--pair", nargs=2, metavar=("ACROSS", "UP"), help=text)
    text = "only events in which NAME has a number from LOW to HIGH; several have to hold all"
    to.add_argument("--gate", nargs=2, action="append", default=[], metavar=("NAME", "LOW..HIGH"), help=text)
    text = "measures a region of a spectrum: counts, what is above a line, place and width of a peak; as often as you like"
    to.add_argument("--region", nargs=2, action="append", default=[], metavar=("NAME", "LOW..HIGH"), help=text)
    text = "draws the spectra of another run of this script as lines over these, for the same live time or, if that is not known, as many events"
    to.add_argument("--over", metavar="EVENTS", help=text)
    to.add_argument("--bins", type=int, metavar="BINS", help=f"the most bins of a spectrum (128), and on either side of a pair ({Pairs.USUAL}; {Pairs.MOST} at most)")


def read_cuts(args: argparse.Namespace, parser: argparse.ArgumentParser) -> None:
    """Reads the values of --gate, --region, --range and --bins; ends with status 2 if they are not understood."""
    if args.gate or args.region or getattr(args, "range", None):
        from camac.columns import read_cut
    args.gate, args.region = (tuple(read_cut(" ".join(it), f"--{what}") for it in getattr(args, what)) for what in ("gate", "region"))
    if args.bins is not None and not 1 <= args.bins <= Spectrum.CHANNELS:
        parser.error(f"--bins is 1 to {Spectrum.CHANNELS:,}, not {args.bins}")
    if args.command == "draw":
        args.range = args.range and read_cut(f"--range {args.range}", "this")[1:]


def naming(args: argparse.Namespace) -> "Naming":
    from camac.columns import Naming

    pair = (args.pair[0], args.pair[1]) if args.pair else None
    return Naming(args.words, pair, args.gate, args.region, args.over, args.bins)
