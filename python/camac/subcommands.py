"""The subcommands of the program, each as a call that gives what it prints as values; and one call of one service."""
from typing import Iterator, List, Mapping, Optional, Union

from camac.drive import Answer, Branch, File, Refused, branch_of, drive
from camac.output import passing_file
from camac.printed import parse_listing, read_headings, read_plan, read_responses, read_services
from camac.program import EVERY, knows_option, lines_of, output_of, settings
from camac.values import Body, Heading, Item, Plan, Response, RunEnd, Service


def plan(path: File, program: Optional[File] = None) -> Plan:
    """Has the program read a plan, which may be "@sample".

    Raises Refused with the first fault of the plan, ProgramFault if it cannot be read, and OSError if there is no program."""
    option = ["--commands"] if knows_option("plan", "--commands", program) else []
    return read_plan(output_of("plan", *option, "--", path, program=program))


def check(plan: File, script: File, program: Optional[File] = None) -> List[Service]:
    """Has the program check a script, and returns its services in the order of the text.

    Raises Refused if plan or script is refused, ProgramFault if one cannot be read, and OSError if there is no program."""
    return read_services(output_of("check", "--", plan, script, program=program))


def bounds(plan: File, script: File, program: Optional[File] = None) -> List[Heading]:
    """Returns the least headings of a script, in the order of the text, whatever its own headings say. Raises as `check`."""
    return read_headings(output_of("bounds", "--", plan, script, program=program))


def costs(plan: File, script: File, program: Optional[File] = None) -> List[Body]:
    """Returns the bodies of an accepted script, in the order of the text, with what each statement has of the bound. Raises as `check`, and UsageFault if
    the program has no `costs`."""
    from camac.bodies import parse_costs

    return parse_costs(output_of("costs", "--", plan, script, program=program))


def response(plan: File, script: File, every: Optional[Mapping[str, int]] = None, program: Optional[File] = None) -> List[Response]:
    """Returns how late each service of a script can be, in the order of their bits. `every` has the rates that are known: of a service's
    name, how many cycles pass at least until its module raises its look-at-me again (1 to 4,294,967,295).

    Raises as `check`, and UsageFault if the program has no `response`, or a rate is none of a service of the script."""
    return read_responses(output_of("response", *rates(every), "--", plan, script, program=program))


def rates(every: Optional[Mapping[str, int]]) -> List[str]:
    """The options of `camac response` for such rates."""
    return [f"{EVERY}{it}" for it in settings(every)]


def run(plan: File, script: File, answers: File, events: File, program: Optional[File] = None) -> Iterator[Item]:
    """Plays a script against answers, and yields what it did, as it comes. The last item is the end of the run. The event file is
    created anew.

    Raises Refused if plan or script is refused, ProgramFault if a file cannot be read or written, and OSError if there is no
    program."""
    for item in parse_listing(lines_of("run", "--", plan, script, answers, events, program=program)):
        if isinstance(item, RunEnd) and item.is_refused_script():
            raise Refused(item.line)
        yield item


def call(
    plan: File, script: File, service: str, branch: Union[Branch, str], *, events: Optional[File] = None, program: Optional[File] = None, timeout: Optional[float] = None
) -> RunEnd:
    """Has the branch make what one service of a script asks for, once, and returns how that ended: ENDED with one event, or OVERRUN.

    The first demand is answered with the bit of this service, and the second ends the run. No demand of the branch is asked for, so the
    crates may be as they are after power came: demand outputs disabled, look-at-mes too. `events` is a file for the event, which must not
    hold bytes; if it is not given, the event is dropped.

    Signals are taken as by `drive`. Raises ValueError if the script has no service of this name, and for the rest what `drive` raises."""
    bits = {it.name: it.gl for it in check(plan, script, program)}
    if service not in bits:
        raise ValueError(f"the script has no service {service!r}, but {', '.join(bits) or 'none'}")
    once = _Once(branch_of(branch, plan), bits[service])
    if events is not None:
        return drive(plan, script, once, events, program=program, timeout=timeout)
    with passing_file() as dropped:
        return drive(plan, script, once, dropped, program=program, timeout=timeout)


class _Once:
    """Hands all on to a branch but its demands: the first one is that of a service, and then there is none."""

    def __init__(self, branch: Branch, bit: int) -> None:
        self.cycle, self.lock, self.unlock = branch.cycle, branch.lock, branch.unlock
        self.first: Optional[Answer] = Answer(gl=1 << (bit - 1))

    def demand(self) -> Optional[Answer]:
        answer, self.first = self.first, None
        return answer
