"""A run with the columns of its words: those of the user's file, else those of its script; beside its record, and with another run laid over it."""
import os
import re
from typing import TYPE_CHECKING, List, Mapping, Optional, Sequence, Tuple

import camac
from camac.drive import File, UsageFault
from camac.events import GREATEST_GL, GREATEST_WORD
from camac.fits import Check
from camac.runs import Asked, Channels, Cut, Inputs, Over, Run, collect, is_event_file
from camac.values import Plan, Response, Service

if TYPE_CHECKING:
    from camac.record import Record
    from camac.words import Column, Words


class Naming:
    """What a user says of the words of events: a file (words.toml), two names to draw against each other, names with the first and the last number of gates,
    and of regions, the events of another run to draw over these, and the most bins."""

    def __init__(
        self, file: Optional[File] = None, pair: Optional[Tuple[str, str]] = None, gates: Sequence[Tuple[str, int, int]] = (),
        regions: Sequence[Tuple[str, int, int]] = (), over: Optional[File] = None, bins: Optional[int] = None,
    ) -> None:
        self.file, self.pair, self.gates, self.regions, self.over, self.bins = file, pair, gates, regions, over, bins


def asked_of(naming: Naming, names: "Optional[Words]") -> Asked:
    """What is asked of words, which have names if something is. Raises UsageFault if a name is none of a column."""
    gates, regions = (tuple(Cut(_column(names, it[0]), *it[1:]) for it in cuts) for cuts in (naming.gates, naming.regions))
    pair = (_column(names, naming.pair[0]), _column(names, naming.pair[1])) if naming.pair else None
    return Asked(names, pair, naming.bins, gates, regions)


def _column(names: "Optional[Words]", name: str) -> "Column":
    assert names
    for it in names.find(name):
        return it
    columns = [it.name for gl in range(1, GREATEST_GL + 1) for it in names.columns(gl)]
    raise UsageFault(f"no word has the name {name!r}; there are: {', '.join(columns[:40]) or 'none'}", 2)


def read_cut(text: str, what: str = "a gate or a region") -> Tuple[str, int, int]:
    """Reads NAME LOW..HIGH. Raises UsageFault if it is none."""
    name, _, numbers = text.rpartition(" ")
    found = re.fullmatch(r"([0-9]{1,8})\.\.([0-9]{1,8})", numbers)
    low, last = map(int, found.groups()) if found and name else (1, 0)
    if not low <= last <= GREATEST_WORD:
        raise UsageFault(f"{what} is NAME LOW..HIGH, numbers from 0 to {GREATEST_WORD:,}, not {text!r}", 2)
    return name, low, last


def gather(
    inputs: Inputs, plan: Plan, services: List[Service], program: Optional[File] = None, responses: Sequence[Response] = (), naming: Optional[Naming] = None,
) -> Run:
    """A run as `collect` gives it, with what is asked of its words, and with its record compared. Answers show the words of each module, so the names
    of a script are used for an event file alone, and for what is asked. Raises as `collect`, UsageFault if a name is none of a column, and
    WordsFault."""
    is_named = naming and (any((naming.file, naming.pair, naming.gates, naming.regions, naming.over)) or is_event_file(inputs.source))
    names = camac.words_of_script(plan, inputs.script, services) if is_named else None
    if naming and naming.file is not None:
        names = camac.read_words(naming.file, services, *([names] if names else []))
    asked = asked_of(naming or Naming(), names)
    run = collect(inputs, plan, services, program, responses, asked)
    record = None if run.has_listing else _beside(inputs.source)
    run.contradictions = record.contradictions if record else run.contradictions
    run.checks += _compare_record(inputs)
    if naming and naming.over is not None:
        others = inputs._replace(source=naming.over)
        other = collect(others, plan, services, program, (), Asked(asked.names, gates=asked.gates))
        live = [found.demands if found else None for found in map(_beside, (inputs.source, naming.over))]
        run.over = lay_over(naming.over, other.channels, live, *({gl: it.cycles.count for gl, it in one.seen.items()} for one in (run, other)))
        run.checks += [it._replace(text=f"{run.over.name}: {it.text}") for it in (*other.checks, *_compare_record(others))]
    return run


def lay_over(file: File, channels: Channels, live: Sequence[Optional[float]], of: Mapping[int, int], over: Mapping[int, int]) -> Over:
    """What is drawn over a run: for the same live time, if the records of both have it measured; else for as many events of each service."""
    name, (one, other) = os.path.basename(os.fsdecode(file)), live
    if one and other:
        return Over(name, channels, dict.fromkeys(over, one / other), f"for the same live time ({one:,.1f} s, its own {other:,.1f} s)")
    return Over(name, channels, {gl: of[gl] / count for gl, count in over.items() if count and gl in of}, "for as many events")


def _beside(file: File) -> "Optional[Record]":
    """The record beside a file. What reads one is loaded where there may be one."""
    if not os.path.exists(f"{os.path.splitext(os.fsdecode(file))[0]}.json"):
        return None
    from camac.record import beside

    return beside(file)


def _compare_record(inputs: Inputs) -> List[Check]:
    """Whether plan and script are those of the record that is beside an event file."""
    if not is_event_file(inputs.source) or _beside(inputs.source) is None:
        return []
    from camac.record import record_checks, texts_of

    return record_checks(inputs.source, *texts_of(inputs.plan, inputs.script))
