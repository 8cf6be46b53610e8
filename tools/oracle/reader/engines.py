"""The right answers of the program to the bytes of its inputs, by subcommand."""
from __future__ import annotations

import functools
from typing import Callable, Dict, List, NamedTuple, Optional, Tuple

from oracle.reader.answers import Answers
from oracle.reader.checker import Checker
from oracle.reader.event_file import events_listing
from oracle.reader.grammar import read_script
from oracle.reader.meaning import Run
from oracle.reader.plan import Plan, read_plan, sample_plan
from oracle.reader.refusals import EVENT_FILE_LIMIT, TEXT_LIMIT, Refused, TooLong
from oracle.reader.response import WordFault, rates_of, response_lines
from oracle.reader.shares import Shares

GOOD, REFUSED, MISUSE, FAULT = range(4)


class Told(NamedTuple):
    """A status, what is on standard output and on standard error, and in EVENTS (None if it is not made)."""

    status: int
    out: bytes
    err: bytes = b""
    events: Optional[bytes] = None
    # The entry in the table: a code, `accepted`, or how a run ended.
    reached: str = ""


class Inputs(NamedTuple):
    """The bytes of the inputs; the plan is None for `@sample`. `words` are the options of `response` and `explain`."""

    plan: Optional[bytes] = None
    script: bytes = b""
    answers: bytes = b""
    file: bytes = b""
    words: bytes = b""


def told(lines: List[str], status: int, reached: str, events: Optional[bytes] = None) -> Told:
    return Told(status, "".join(f"{it}\n" for it in lines).encode(), b"", events, reached)


def limited(text: bytes, limit: int) -> bytes:
    if len(text) > limit:
        raise TooLong
    return text


def plan_of(inputs: Inputs) -> Plan:
    return sample_plan() if inputs.plan is None else read_plan(limited(inputs.plan, TEXT_LIMIT))


def checked(inputs: Inputs, is_least: bool = False) -> Checker:
    """The checker that has judged the script over the plan, with no rule broken."""
    return judged(Inputs(inputs.plan, inputs.script), is_least)


@functools.lru_cache(maxsize=1)
def judged(inputs: Inputs, is_least: bool) -> Checker:
    plan = plan_of(inputs)
    checker = Checker(read_script(limited(inputs.script, TEXT_LIMIT)), plan, is_least)
    checker.judge()
    return checker


def tell_plan(inputs: Inputs) -> Told:
    return told(plan_of(inputs).listing(), GOOD, "plan listed")


def tell_check(inputs: Inputs) -> Told:
    return told(checked(inputs).verdict(), GOOD, "accepted")


def tell_bounds(inputs: Inputs) -> Told:
    return told(checked(inputs, True).least_headings(), GOOD, "least headings")


def tell_costs(inputs: Inputs) -> Told:
    return told(Shares(checked(inputs)).lines(), GOOD, "costs")


def tell_response(inputs: Inputs) -> Told:
    every, within = rates_of(inputs.words.decode().split())
    lines, is_kept = response_lines(checked(inputs), every, within)
    return told(lines, GOOD if is_kept else REFUSED, "response")


def played(inputs: Inputs) -> Run:
    checker = checked(inputs)
    run = Run(checker.script, checker.plan, Answers(inputs.answers))
    run.play()
    return run


def reached_by(run: Run) -> str:
    last = run.listing[-1].split()
    return last[1] if last[0] == "refused" else last[0]


def listed(run: Run) -> Told:
    return told(run.listing, REFUSED if run.is_refused else GOOD, reached_by(run), bytes(run.events) if is_begun(run) else None)


def is_begun(run: Run) -> bool:
    """Whether the event file of a listing is begun: the first answer is good, or the answers have ended."""
    return not run.listing[0].startswith("refused")


def tell_run(inputs: Inputs) -> Told:
    """A run whose answers are refused tells the column, too."""
    run = played(inputs)
    err = f"column {run.answers.column}\n" if reached_by(run) in ("A1", "A2") else ""
    return listed(run)._replace(err=err.encode())


def tell_drive(inputs: Inputs) -> Told:
    run = played(inputs)
    return told(run.requests, REFUSED if run.is_refused else GOOD, reached_by(run), bytes(run.events))


def tell_events(inputs: Inputs) -> Told:
    return told(events_listing(limited(inputs.file, EVENT_FILE_LIMIT)), GOOD, "events listed")


TELL: Dict[str, Callable[[Inputs], Told]] = {
    "plan": tell_plan, "check": tell_check, "bounds": tell_bounds, "costs": tell_costs, "response": tell_response,
    "run": tell_run, "drive": tell_drive, "events": tell_events,
}


def tell(command: str, inputs: Inputs) -> Told:
    """What the program has to answer. `LeftOut` if this reader does not judge the plan."""
    try:
        return TELL[command](inputs)
    except Refused as refused:
        return told([refused.line()], REFUSED, refused.code)
    except WordFault as fault:
        return Told(MISUSE, b"", f"fault {fault}\n".encode(), None, "words")
    except TooLong:
        return Told(FAULT, b"", b"fault input too long\n", reached="G4")


def words_of(command: str) -> Tuple[str, ...]:
    """The inputs and outputs that are after a subcommand."""
    both = "plan", "script"
    return {
        "plan": ("plan",), "check": both, "bounds": both, "costs": both, "response": both, "explain": both,
        "run": (*both, "answers", "EVENTS"), "drive": (*both, "EVENTS"), "events": ("file",),
    }[command]
