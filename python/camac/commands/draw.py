"""draw: draws pictures of a plan, a script and a run."""
import argparse
import os
from typing import TYPE_CHECKING, Any, Callable, Dict, List, Mapping, Optional, Tuple

from camac import pictures
from camac.commands.cuts import add_words, naming, read_cuts
from camac.commands.running import DONE, FAULT, LOST, add_every, add_overwrite
from camac.drive import ProgramFault
from camac.fits import refuse
from camac.output import anything, is_one_of, made_like, refuse_loss, write_made
from camac.pictures.svg import Canvas
from camac.program import knows_command
from camac.subcommands import check, costs, plan, response
from camac.texts import source_lines
from camac.values import Response

if TYPE_CHECKING:
    from camac.runs import Run

DRAW = """\
  plan      PLAN [SCRIPT [ANSWERS]]           crates, stations, graded-L bits; with a run the cycles at each station
  bounds    PLAN SCRIPT [ANSWERS|EVENTS]      what each service may take, of its heading's numbers
  response  PLAN SCRIPT [ANSWERS]             how late each service can be, from its look-at-me to its end
  costs     PLAN SCRIPT [ANSWERS|EVENTS]      what the cycles consist of: FILE.NAME.svg for each service and procedure
  run       PLAN SCRIPT ANSWERS|EVENTS        the cycles of each service of a run against its bound
  words     PLAN SCRIPT ANSWERS|EVENTS        histograms of cycles and words

PLAN may be @sample, the built-in plan. The first bytes tell an event file from answers."""


class Source:
    """The files of a picture, and what the program and a run say of them, each read once; `shown` is the run, if it is given. `every` are the rates
    of modules, if it is drawn how late services can be."""

    def __init__(self, args: argparse.Namespace, every: Optional[Mapping[str, int]]) -> None:
        self.args, self.files = args, args.files
        files = self.files
        self.plan = plan(files[0])
        self.services = check(*files[:2]) if len(files) > 1 else []
        self.responses: List[Response] = []
        if every is not None:
            _need("response")
            self.responses = response(files[0], files[1], every)
        self.shown: Optional[Run] = None
        if len(files) > 2:
            from camac.columns import gather
            from camac.runs import Inputs

            names = naming(args) if args.picture == "words" else None
            self.shown = gather(Inputs(*files), self.plan, self.services, None, self.responses, names)

    @property
    def run(self) -> "Run":
        assert self.shown
        return self.shown


def _need(command: str) -> None:
    """Raises ProgramFault if the program does not have a subcommand."""
    if not knows_command(command):
        raise ProgramFault(f"this program has no `{command}`", FAULT)


def _draw_costs(of: Source) -> Dict[str, Canvas]:
    _need("costs")
    seen = of.shown.seen if of.shown and of.shown.has_cycles else {}
    source = source_lines(of.files[1])
    drawn = {}
    bodies = costs(*of.files[:2])
    for body in bodies:
        of_bit = seen.get(body.gl) if body.gl else None
        drawn[body.name] = pictures.draw_costs(body, source, of_bit.cycles if of_bit else None, bodies)
    return drawn


def _draw_words(of: Source) -> Dict[str, Canvas]:
    from camac.pictures import spectra

    low, last = of.args.range or (0, None)
    scale, view = spectra.LOGARITHMIC if of.args.log else spectra.LINEAR, spectra.View(low, last, of.args.bins or spectra.BINS)
    canvas, run = Canvas("Histograms of a run: cycles and words of its events, and the words of each channel"), of.run
    for title, groups in spectra.groups_of(run, of.plan, of.services, scale, view):
        canvas.stack(title, pictures.draw_groups(title, groups))
    if run.asked.regions:
        from camac.pictures.regions import draw_regions

        canvas.stack("Regions", draw_regions(run.channels))
    if run.asked.pair:
        canvas.stack("Two numbers of an event", pictures.draw_pairs(run.channels))
    for service in of.services:
        canvas.stack(f"Words of {service.name} by their place in the event", pictures.draw_places(run, service))
    return {"": canvas}


# By picture the function that draws it, and how many files it takes at least and at most.
PICTURES: Dict[str, Tuple[Callable[[Source], Dict[str, Canvas]], int, int]] = {
    "plan": (lambda of: {"": pictures.draw_plan(of.plan, of.services if len(of.files) > 1 else None, of.shown)}, 1, 3),
    "bounds": (lambda of: {"": pictures.draw_bounds(of.services, of.shown)}, 2, 3),
    "response": (lambda of: {"": pictures.draw_response(of.responses, of.shown)}, 2, 3),
    "costs": (_draw_costs, 2, 3),
    "run": (lambda of: {"": pictures.draw_run(of.run, of.services)}, 3, 3),
    "words": (_draw_words, 3, 3),
}


def draw(args: argparse.Namespace) -> int:
    root, end = os.path.splitext(args.out)
    source = Source(args, args.every if args.picture == "response" else None)
    drawn = PICTURES[args.picture][0](source)
    pictures_of = {f"{root}.{name}{end}" if name else args.out: canvas for name, canvas in drawn.items()}
    texts = {out: canvas.picture() for out, canvas in pictures_of.items()}
    for out, text in texts.items():
        if is_one_of(out, args.files):
            raise ProgramFault(LOST.format(out), FAULT)
        refuse_loss(out, anything if args.overwrite else made_like(text))
    for out, text in texts.items():
        write_made(out, text, args.overwrite)
    refuse(source.shown.checks if source.shown else [])
    return DONE


def add_to(commands: Any) -> None:
    parser = commands.add_parser("draw", help="Draws a picture", epilog=DRAW)
    parser.add_argument("picture", choices=PICTURES, metavar="PICTURE", help="plan, bounds, response, costs, run or words")
    parser.add_argument("files", nargs="+", metavar="FILE", help="the files that the picture is of, see below")
    parser.add_argument("-o", "--out", required=True, metavar="SVG", help="the file to write")
    add_every(parser)
    add_words(parser)
    parser.add_argument("--range", metavar="LOW..HIGH", help="draws these numbers of the named words alone")
    parser.add_argument("--log", action="store_true", help="counts on a logarithmic axis")
    add_overwrite(parser)
    parser.set_defaults(do=draw, read=read)


def read(args: argparse.Namespace, parser: argparse.ArgumentParser) -> None:
    """Reads the values of options; ends with status 2 if they are not understood."""
    _, least, most = PICTURES[args.picture]
    if not least <= len(args.files) <= most:
        parser.error(f"draw {args.picture} takes {least} to {most} files" if least < most else f"draw {args.picture} takes {least} files")
    if args.every and args.picture != "response":
        parser.error("--every is an option of draw response and of report")
    its_words = (args.words, args.pair, args.log, args.gate, args.region, args.over, args.range, args.bins)
    if any(its_words) and args.picture != "words":
        parser.error("--words, --pair, --gate, --region, --over, --range, --bins and --log are options of draw words")
    read_cuts(args, parser)
