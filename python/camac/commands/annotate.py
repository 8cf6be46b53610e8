"""annotate: lists a run with each answer line beside its operation."""
import argparse
import itertools
from typing import Any, Iterator, Mapping, Optional, Tuple

from camac.commands.running import DONE, REFUSED, add_every, add_overwrite
from camac.contradictions import Contradictions, plan_of
from camac.drive import STATUS, File, Refused
from camac.output import anything, made_like, output, passing_file
from camac.printed import parse_listing
from camac.program import lines_of
from camac.subcommands import response
from camac.values import Demand, Item, RunEnd, Unlock

ANSWER = 19
NUMBER = "{:>7}  "


def add_to(commands: Any) -> None:
    parser = commands.add_parser("annotate", help="Lists a run with each answer line beside its operation")
    for name in ("plan", "script", "answers"):
        parser.add_argument(name, metavar=name.upper())
    parser.add_argument("-o", "--out", metavar="TEXT", help="the file to write; else standard output")
    add_every(parser)
    add_overwrite(parser)
    parser.set_defaults(do=make_annotated)


def make_annotated(args: argparse.Namespace) -> int:
    status = DONE
    # What begins an annotated line that has an answer is the mark of such a file.
    with output(args.out, anything if args.overwrite else made_like(NUMBER.format(1))) as out:
        for line, it in annotate(args.plan, args.script, args.answers, every=args.every):
            status = REFUSED if isinstance(it, RunEnd) and STATUS[it.how] else status
            out.write(line + "\n")
    return status


def annotate(
    plan: File, script: File, answers: File, program: Optional[File] = None, every: Optional[Mapping[str, int]] = None
) -> Iterator[Tuple[str, Optional[Item]]]:
    """Plays a script against answers, and yields a line for each operation, with the operation: the number of its answer line, that line, and what
    the program lists. Cycles and locks are further right than the demands, whose services are counted. An answer that ended the run is beside the
    last line. The number of answer lines that were not used follows it, and what contradicts the plan, and the rates in `every`. Raises OSError if a
    file cannot be read, and Refused, UsageFault and ProgramFault as `camac.run`."""
    seen = Contradictions(response(plan, script, every, program) if every else ())
    with open(answers, "rb") as file, passing_file() as events:
        numbers, services = itertools.count(1), 0
        lines, again = itertools.tee(lines_of("run", "--", plan, script, answers, events, program=program))
        for line, item in zip(lines, parse_listing(again)):
            if isinstance(item, RunEnd) and item.is_refused_script():
                raise Refused(line)
            if isinstance(item, Demand) and item.service:
                services += 1
                line += f"   (service {services})"
            begin, right = f"{'':>7}  {'no answer' if isinstance(item, Unlock) else '':<{ANSWER}}", "" if isinstance(item, (Demand, RunEnd)) else "  "
            if not isinstance(item, Unlock) and (not isinstance(item, RunEnd) or STATUS[item.how]):
                answer = file.readline()
                seen.take(item, answer)
                begin = f"{NUMBER.format(next(numbers))}{answer.decode('utf-8', 'replace').rstrip():<{ANSWER}}"
            yield f"{begin}  {right}{line}", item
        left = sum(1 for _ in file)
        if left:
            count = "1 answer line was" if left == 1 else f"{left} answer lines were"
            yield f"{'':>7}  {count} not used; the next is line {next(numbers)}", None
    yield from ((f"{'':>7}  {it.text()}", None) for it in seen.found(plan_of(plan, program)) or ())
