"""The record of a live run: a JSON file beside its event file: what made it, when, how it ended, and how long it took.

Times are the computer's clock, and seconds are measured in this process: from the answer to a demand that calls a service until the next
demand is asked for, the modules wait for the service (dead time); the rest is spent in demands (live time). No proof says anything of them."""
import binascii
import collections
import contextlib
import json
import operator
import os
import sys
import time
from typing import TYPE_CHECKING, Any, Callable, Dict, List, Mapping, NamedTuple, Optional, Tuple, Union

from camac.contradictions import Contradictions, plan_of
from camac.drive import Answer, Branch, File, ProgramFault, UsageFault, add_note, file_fault, one_line, tell_left
from camac.events import EventFileFault, read_events
from camac.fits import Check
from camac.output import Rule, anything, holds_bytes, output
from camac.printed import read_responses, read_services
from camac.program import VERSION, output_of, version_text
from camac.proof import told
from camac.subcommands import rates
from camac.texts import hashed, plan_text, read_regular, script_text
from camac.values import Contradiction, RunEnd, Service

if TYPE_CHECKING:
    from camac.runs import Inputs, Run
    from camac.surveys.summary import Summary
else:
    Summary = object

FORM = "camac record 1"
# A longer file is no record: plan, script and verdict are some megabytes at most.
MOST_BYTES = 1 << 26
# The seconds between two writings of a record while a run goes on.
REFRESH = 5.0
FAILED = "failed"
OWN_FILE = "it holds bytes; a run needs a record of its own"


class Recording:
    """Where the record of a run is to be written, and what its caller says of the run; `survey` is a file that camac-survey made, and `every` has the rates
    of modules, as `camac.response` takes them. Raises TypeError if the number is no whole one, or the title no text."""

    def __init__(
        self, file: File, number: Optional[int] = None, title: str = "", survey: Optional[File] = None, every: Optional[Mapping[str, int]] = None
    ) -> None:
        if not isinstance(title, str):
            raise TypeError(f"the title of a run is a text, not {title!r}")
        self.file, self.title, self.survey, self.every = file, title, survey, every
        self.number = None if number is None else operator.index(number)


class Played(NamedTuple):
    """What is played: the files of a run, and the program that judges them. `events` is None if no event file is written."""

    plan: File
    script: File
    events: Optional[File]
    program: Optional[File]


class Source(NamedTuple):
    """A plan or a script: its name as it was given, and its bytes."""

    name: str
    data: bytes

    @property
    def sha256(self) -> str:
        return str(hashed(self.data).hexdigest())

    def value(self) -> Dict[str, str]:
        """As the record has it: the text; of what is no UTF-8, or has a NUL, as may be in comments, the bytes in base 64."""
        text = {"base64": binascii.b2a_base64(self.data, newline=False).decode()}
        with contextlib.suppress(UnicodeDecodeError):
            text = text if b"\0" in self.data else {"text": self.data.decode()}
        return {"name": self.name, "sha256": self.sha256, **text}

    @classmethod
    def read(cls, fields: Any) -> "Source":
        data = binascii.a2b_base64(fields["base64"]) if "base64" in fields else fields["text"].encode()
        source = cls(fields["name"], data)
        if source.sha256 != fields["sha256"]:
            raise ValueError(f"the text of {source.name} is not the one of its SHA-256")
        return source


class Record(NamedTuple):
    """What is known of a run.

    plan, script        their texts
    verdict, response   the lines that `camac check` and `camac response` print; no response where the program does not know it
    versions            of the package, of the program and of Python
    number, title       what the caller says of it
    begin, end, told    when it began and ended, and when this was written (UTC, ISO 8601); `end` is None while it goes on, and after a crash
    how, line           how it ended: the word and the last line of the program; "failed" and what failed if none came
    events, size        the name of the event file, and its bytes at the end
    counts              of each service by its name how many events there are; None while the run goes on, and where the file cannot be read again
    demands, services   the seconds measured in demands and in services: live and dead time; None of a run that was not measured
    survey              what the last survey of the crates had found; None if no survey was named
    contradictions      what contradicted the plan, and the rates in `response`; None if that is not known"""

    plan: Source
    script: Source
    verdict: Tuple[str, ...]
    response: Tuple[str, ...]
    versions: Dict[str, str]
    number: Optional[int] = None
    title: str = ""
    begin: Optional[str] = None
    end: Optional[str] = None
    told: Optional[str] = None
    how: Optional[str] = None
    line: Optional[str] = None
    events: Optional[str] = None
    size: Optional[int] = None
    counts: Optional[Dict[str, int]] = None
    demands: Optional[float] = None
    services: Optional[float] = None
    survey: Optional[Summary] = None
    contradictions: Optional[Tuple[Contradiction, ...]] = None

    def list_services(self) -> List[Service]:
        """The services of the script with their bounds."""
        return read_services("\n".join(self.verdict))

    def seconds(self) -> float:
        """Live and dead time together, as measured; 0 if nothing was."""
        return (self.demands or 0.0) + (self.services or 0.0)

    def text(self) -> str:
        """The record as JSON."""
        measured = None if self.demands is None else {"demands": round(self.demands, 6), "services": round(self.services or 0.0, 6)}
        fields = {
            "form": FORM,
            **{name: getattr(self, name) for name in ("number", "title", "begin", "end", "told", "how", "line")},
            "events": {"name": self.events, "bytes": self.size, "counts": self.counts},
            "measured_seconds": measured,
            "contradictions": None if self.contradictions is None else [it._asdict() for it in self.contradictions],
            "verdict": self.verdict,
            "response": self.response,
            "plan": self.plan.value(),
            "script": self.script.value(),
            "versions": self.versions,
            "survey": self.survey.fields() if self.survey else None,
        }
        return json.dumps(fields, indent=1) + "\n"


def read_record(file: File) -> Record:
    """Reads a record, a regular file. Raises OSError if it cannot be read, and ValueError, with its name, if it is none."""
    data = read_regular(file, MOST_BYTES)
    try:
        return parse_record(data)
    except (ValueError, KeyError, TypeError, AttributeError, RecursionError) as why:
        raise ValueError(f"{os.fsdecode(file)} is no record of a run: {why if isinstance(why, ValueError) else 'a key is missing, or of another kind'}") from None


def parse_record(data: bytes) -> Record:
    """Reads the text of a record. Raises ValueError, KeyError, TypeError or AttributeError if it is none."""
    fields = json.loads(data)
    if not isinstance(fields, dict) or fields.get("form") != FORM:
        raise ValueError(f"its `form` is not {FORM!r}")
    events, measured, rows = fields["events"], fields["measured_seconds"] or {}, fields.get("contradictions")
    if not all(isinstance(it, str) for it in (fields["title"], *fields["verdict"], *fields["response"], *fields["versions"].values())):
        raise TypeError
    if fields.get("survey"):
        # The modules of a survey take as long to load as those of a record.
        from camac.surveys.summary import parse_summary
    return Record(
        **{name: fields[name] for name in ("number", "title", "begin", "end", "told", "how", "line")},
        plan=Source.read(fields["plan"]),
        script=Source.read(fields["script"]),
        verdict=tuple(fields["verdict"]),
        response=tuple(fields["response"]),
        events=events["name"],
        size=events["bytes"],
        counts=events["counts"],
        demands=measured.get("demands"),
        services=measured.get("services"),
        versions=fields["versions"],
        survey=parse_summary(fields["survey"]) if fields.get("survey") else None,
        contradictions=None if rows is None else tuple(Contradiction(str(it["place"]), str(it["what"]), operator.index(it["times"])) for it in rows),
    )


def texts_of(plan: File, script: File) -> Tuple[Source, Source]:
    """The texts of a plan and of a script. Raises ProgramFault if one cannot be read."""
    return Source(os.fsdecode(plan), plan_text(plan)), Source(os.fsdecode(script), script_text(script))


def describe(of: Played, asked: Optional[Recording] = None) -> Record:
    """The record of a run that has not begun.

    Raises Refused if plan or script is refused, ProgramFault and OSError as `camac.check`, and what `read_summary` raises."""
    asked, surveyed = asked or Recording(""), None
    if asked.survey is not None:
        from camac.surveys.summary import read_summary

        surveyed = read_summary(asked.survey)
    texts = texts_of(of.plan, of.script)
    verdict = output_of("check", "--", of.plan, of.script, program=of.program).splitlines()
    try:
        response = output_of("response", *rates(asked.every), "--", of.plan, of.script, program=of.program).splitlines()
    except UsageFault:
        if asked.every:
            raise
        response = []
    versions = {"package": version_text(VERSION), "program": told(of.program), "python": sys.version.split()[0]}
    events = None if of.events is None else os.fsdecode(of.events)
    return Record(*texts, tuple(verdict), tuple(response), versions, asked.number, asked.title, events=events, survey=surveyed)


def beside(events: File) -> Optional[Record]:
    """The record of an event file that is beside it, as run.json of run.events; None if there is none."""
    path = os.path.splitext(os.fsdecode(events))[0] + ".json"
    try:
        record = read_record(path)
    except (OSError, ValueError):
        return None
    name = os.path.basename(os.fsdecode(events))
    return record if record.events is None or os.path.basename(record.events) == name else None


def record_checks(events: File, plan_of: Optional[Source], script: Optional[Source]) -> List[Check]:
    """Whether plan and script are those of the record beside an event file; nothing if there is none, or they are not known."""
    record = beside(events)
    if record is None or plan_of is None or script is None:
        return []
    pairs = (("plan", record.plan, plan_of), ("script", record.script, script))
    wrong = [f"{mine.name} is not the {kind} {kept.name} of SHA-256 {kept.sha256[:12]}" for kind, kept, mine in pairs if kept.sha256 != mine.sha256]
    return [Check(f"plan and script are those of the record beside the events{''.join(f'; {it}' for it in wrong)}", not wrong)]


def recorded(asked: Union[File, Recording], of: Played, branch: Branch, play: Callable[[Branch], RunEnd]) -> RunEnd:
    """Plays a run, and writes its record: before it begins, while it goes on, and at its end.

    Raises what `describe` and the run raise, and ProgramFault if the record cannot be written; a file that holds bytes is none."""
    from camac.signals import Signals, signal_of

    recording = asked if isinstance(asked, Recording) else Recording(asked)
    record = describe(of, recording)._replace(begin=now())
    writer = _Writer(recording.file, record, of)
    watched = _Watched(branch, record, writer)
    with Signals() as signals:
        writer.write()
        try:
            end = signals.heed(lambda: play(watched))
        except BaseException as error:
            try:
                number = signal_of(error)
                why = f"ended by {number.name}" if number else f"{type(error).__name__}: {one_line(error)}"
                writer.finish(watched, FAILED, why)
            except ProgramFault as fault:
                add_note(error, f"and the record: {one_line(fault)}")
            raise
        try:
            writer.finish(watched, end.how.value, end.line)
        except ProgramFault as fault:
            raise ProgramFault(fault.text, fault.status, end) from None
        return end


def now() -> str:
    """The time, as records have it (UTC, ISO 8601)."""
    at = time.time()
    return f"{time.strftime('%Y-%m-%dT%H:%M:%S', time.gmtime(at))}.{int(at % 1 * 1000):03}Z"


def refuse_foreign(file: File) -> None:
    """The rule that a file holds no bytes, or is one that `write_played` made. Raises ProgramFault."""
    if holds_bytes(file):
        try:
            is_own = read_record(file).begin is None
        except ValueError:
            is_own = False
        if not is_own:
            raise file_fault("write", file, OWN_FILE)


def write_played(file: File, inputs: "Inputs", run: "Run", may_replace: bool = False, survey: Optional[File] = None) -> None:
    """Writes the record of a run that was played or read for it: nothing of it is timed. Raises as `describe`, and as `refuse_foreign` unless it
    `may_replace` a file."""
    events = None if run.has_listing else inputs.source
    record = describe(Played(inputs.plan, inputs.script, events, None), Recording("", survey=survey))
    counts = collections.Counter(run.gl)
    size = None if events is None else os.path.getsize(events)
    how = run.end.how.value if run.end else None
    of_services = {it.name: counts[it.gl] for it in record.list_services()}
    # Rates that were told are not in this record.
    of_plan = tuple(it for it in run.contradictions or () if not it.what.startswith("call ")) if run.has_listing else None
    rule = anything if may_replace else refuse_foreign
    record = record._replace(told=now(), how=how, line=run.last_line(), size=size, counts=of_services, contradictions=of_plan)
    _write(file, record.text(), rule)


def _write(file: File, text: str, rule: Rule) -> None:
    try:
        with output(os.fsdecode(file), rule) as out:
            out.write(text)
    except OSError as why:
        raise file_fault("write", file, why) from why


class _Writer:
    """Writes a record, and keeps when that was."""

    def __init__(self, file: File, record: Record, of: Played) -> None:
        self.file, self.record, self.of, self.at, self.text, self.plan = file, record, of, 0.0, "", plan_of(of.plan, of.program)

    def write(self) -> None:
        self.at = time.monotonic()
        self.record = self.record._replace(told=now())
        text = self.record.text()
        _write(self.file, text, self.refuse_change)
        self.text = text

    def refuse_change(self, path: str) -> None:
        """The rule that a file holds no bytes, or what was written last."""
        if holds_bytes(path):
            with open(path, "rb") as file:
                if file.read() != self.text.encode():
                    raise file_fault("write", path, OWN_FILE)

    def refresh(self, watched: "_Watched") -> None:
        """Writes how far the run is, if that is some seconds old. If it cannot be written the run goes on."""
        if time.monotonic() - self.at >= REFRESH:
            self.measured(watched)
            with contextlib.suppress(ProgramFault):
                self.write()

    def measured(self, watched: "_Watched") -> None:
        contradictions = watched.seen.found(self.plan)
        self.record = self.record._replace(demands=watched.demands, services=watched.services, contradictions=contradictions)

    def finish(self, watched: "_Watched", how: str, line: str) -> None:
        """Writes the last record of a run."""
        watched.count()
        self.measured(watched)
        self.record = self.record._replace(end=now(), how=how, line=line)
        if self.of.events is not None and os.path.isfile(self.of.events):
            found: "collections.Counter[int]" = collections.Counter()
            # They are counted up to the first fault of the file.
            with contextlib.suppress(EventFileFault):
                found.update(it.gl for it in read_events(self.of.events))
            counts = {it.name: found[it.gl] for it in self.record.list_services()}
            self.record = self.record._replace(counts=counts, size=os.path.getsize(self.of.events))
        self.write()


class _Watched:
    """Hands all on to a branch, and measures the seconds in demands and in services. `seen` is what counts the run."""

    def __init__(self, branch: Branch, record: Record, writer: _Writer) -> None:
        self.cycle, self.lock, self.unlock = branch.cycle, branch.lock, branch.unlock
        self.branch, self.writer, self.seen = branch, writer, Contradictions(read_responses("\n".join(record.response)))
        self.pattern = sum(1 << (it.gl - 1) for it in record.list_services())
        self.demands = self.services = 0.0
        self.since, self.is_serving = time.perf_counter(), False

    def abandon(self, is_overrun: bool) -> None:
        self.seen.leave()
        tell_left(self.branch, is_overrun)

    def demand(self) -> Optional[Answer]:
        self.count(self.is_serving)
        self.writer.refresh(self)
        self.count()
        answer: Optional[Answer] = None
        try:
            answer = self.branch.demand()
        finally:
            called = answer.gl & self.pattern if isinstance(answer, Answer) else 0
            self.count(bool(called))
        self.seen.call((called & -called).bit_length())
        return answer

    def count(self, is_serving: bool = False) -> None:
        """The time until now belongs to the service that was called, or to the demands; from now on to a service where one `is_serving`."""
        at = time.perf_counter()
        if self.is_serving:
            self.services += at - self.since
        else:
            self.demands += at - self.since
        self.since, self.is_serving = at, is_serving
