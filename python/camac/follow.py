"""An event file that grows: its whole records are taken as they come, and counted in a memory that does not grow with them."""
import collections
import errno
import os
import re
import time
from typing import Callable, Deque, Dict, List, NamedTuple, Optional, Sequence, Tuple

from camac.arrays import LONG, Events, Group, as_events, find_numpy, groups, whole_records
from camac.drive import File
from camac.events import FORMS, HEADER, TWO, Event, EventFileFault, Form, read_further, record_size
from camac.fits import Fit
from camac.histograms import Spectrum
from camac.numbers import is_array, total
from camac.runs import Asked, Channel, Channels
from camac.texts import open_regular
from camac.values import Contradiction, Service

# The bytes of one read, the events that are shown, and the seconds of the rate.
MOST_BYTES, SHOWN_EVENTS, WINDOW = 8 << 20, 12, 10.0
# So many bytes before the place that was reached have to be as they were: else it is another file.
TAIL = 64
# Moments are as far apart as this part of their age, once so many have come.
FINE, MANY = 300, 256
# What an alarm is, as a user sets it on a run that is followed.
FORM = "silence=SECONDS, x0=CYCLES, plan=TIMES, rate=EVENTS or rate:SERVICE=EVENTS"


class _Bit:
    """The counts of the events of one bit."""

    def __init__(self, ends: Tuple[Optional[int], Optional[int]]) -> None:
        self.cycles, self.words = (Spectrum(end) for end in ends)
        self.count = self.missed = 0

    def take(self, group: Group) -> None:
        self.count += len(group.numbers)
        self.words.add_all(group.numbers * 0 + group.size if is_array(group.numbers) else [group.size] * len(group.numbers))
        self.cycles.add_all(group.cycles)
        self.missed += total(group.missed)


class Counts:
    """The counts of a file since its begin. `services` are those of the script, `asked` what is asked of the words."""

    def __init__(self, services: Sequence[Service], asked: Asked) -> None:
        self.services = services
        self.events = 0
        self.ends: Tuple[Optional[int], Optional[int]] = (None, None)
        if services:
            self.ends = max(it.cycles for it in services) + 1, max(it.words for it in services) + 1
        self.bits: Dict[int, _Bit] = {it.gl: _Bit(self.ends) for it in services}
        self.channels = Channels(asked)
        self.fit = Fit(services)
        self.last: Deque[Event] = collections.deque(maxlen=SHOWN_EVENTS)

    def take(self, events: Events) -> None:
        grouped = groups(events, self.events + 1)
        self.last.extend(as_events(events, self.events + 1, SHOWN_EVENTS))
        self.events += sum(len(it.numbers) for it in grouped)
        for group in grouped:
            if group.gl not in self.bits:
                self.bits[group.gl] = _Bit(self.ends)
            self.bits[group.gl].take(group)
        self.fit.take(grouped)
        self.channels.take(grouped)

    def list_channels(self) -> List[Channel]:
        return self.channels.listed(self.bits)


class State(NamedTuple):
    """The state of a file: what the page says of it, and whether that is bad."""

    text: str
    is_bad: bool = False


class Mark(NamedTuple):
    """What was there at a moment: events, their end in the file and the bytes before it, cycles with X = 0, and the events of each bit."""

    time: float
    events: int = 0
    place: int = 0
    tail: bytes = b""
    missed: int = 0
    bits: Dict[int, int] = {}


class Follower:
    """Follows a file from its begin on. `make_counts` makes what counts its events, anew if it is another file than before."""

    def __init__(self, path: File, make_counts: Callable[[], Counts], clock: Callable[[], float] = time.monotonic) -> None:
        self.path, self.make_counts, self.clock = path, make_counts, clock
        self.state = State("waits for the file")
        self.restarts: List[str] = []
        self.form: Optional[Form] = None
        self.begin()

    def begin(self) -> None:
        """Goes to the begin of the file; nothing is counted yet."""
        self.counts = self.make_counts()
        self.place, self.tail, self.identity = 0, b"", (0, 0)
        self.fault: Optional[EventFileFault] = None
        self.is_there_yet = False
        self.arrived: Optional[float] = None
        self.marks = [Mark(self.clock())]

    def restart(self, why: str) -> None:
        """Begins anew, and keeps why, if something was counted."""
        if self.place:
            self.restarts.append(f"{time.strftime('%H:%M:%S')}: {why}; counted again from its beginning")
            del self.restarts[:-5]
        self.begin()

    def poll(self) -> bool:
        """Takes the whole records that came since. Returns whether there may be more at once. From the place of a fault it is read anew each time."""
        try:
            with open_regular(self.path) as file:
                status = os.fstat(file.fileno())
                if self.place and (status.st_dev, status.st_ino) != self.identity:
                    self.restart("another file has taken the place of the file")
                elif status.st_size < self.place:
                    self.restart("the file was cut")
                elif self.place:
                    file.seek(self.place - len(self.tail))
                    if file.read(len(self.tail)) != self.tail:
                        self.restart("the file was written over")
                self.identity = status.st_dev, status.st_ino
                file.seek(self.place)
                data = file.read(MOST_BYTES)
                age = time.time() - status.st_mtime
        except OSError as why:
            self.state = State(f"{why.strerror or why}: {os.fsdecode(self.path)}", self.place > 0 or why.errno != errno.ENOENT)
            return False
        self.take(data, age)
        is_more = len(data) == MOST_BYTES and not self.fault
        self.mark(not is_more)
        self.tell(self.place / max(status.st_size, 1))
        return is_more

    def take(self, data: bytes, age: float) -> None:
        self.fault = None
        if not self.place:
            self.form = FORMS.get(data[:HEADER])
            if self.form is None:
                self.fault = EventFileFault("V1", 0) if len(data) >= HEADER else None
                return
            self.advance(data[:HEADER])
            data = data[HEADER:]
        assert self.form
        numpy = find_numpy() if self.form is TWO and len(data) >= LONG else None
        found = whole_records(numpy, data, self.counts.events + 1) if numpy else None
        if found:
            self.take_events(found[0], data[: found[1]], age)
            data = data[found[1] :]
        events: List[Event] = []
        try:
            for event in read_further(self.form, data, self.counts.events + 1, self.place):
                events.append(event)
        except EventFileFault as fault:
            self.fault = fault
        if events:
            self.take_events(events, data[: sum(map(record_size, events))], age)

    def take_events(self, events: Events, data: bytes, age: float) -> None:
        self.counts.take(events)
        self.advance(data)
        self.arrived = self.clock() - (0.0 if self.is_there_yet else max(age, 0.0))

    def advance(self, data: bytes) -> None:
        self.place += len(data)
        self.tail = (self.tail + data[-TAIL:])[-TAIL:]

    def mark(self, is_all: bool) -> None:
        """Keeps what is there at this moment: the older, the coarser. What was there before the first look is no rate."""
        counts, now = self.counts, self.clock()
        if not self.is_there_yet:
            self.marks, self.is_there_yet = [], is_all
        missed, bits = sum(it.missed for it in counts.bits.values()), {gl: it.count for gl, it in counts.bits.items()}
        self.marks.append(Mark(now, counts.events, self.place, self.tail, missed, bits))
        if len(self.marks) % MANY == 0:
            kept = self.marks[:1]
            for it, after in zip(self.marks[1:], self.marks[2:]):
                if after.time - kept[-1].time > (now - it.time) / FINE:
                    kept.append(it)
            self.marks = [*kept, self.marks[-1]]

    def before(self, seconds: float = 0, events: int = 0) -> Mark:
        """The last moment that is so many seconds and events ago, or else the first one."""
        end = self.marks[-1]
        return next((it for it in reversed(self.marks) if it.time <= end.time - seconds and it.events <= end.events - events), self.marks[0])

    def since(self, mark: Mark, make_counts: Callable[[], Counts]) -> "Follower":
        """Follows the same file from a moment on."""
        later = Follower(self.path, make_counts, self.clock)
        later.form, later.identity, later.place, later.tail, later.counts.events = self.form, self.identity, mark.place, mark.tail, mark.events
        return later

    def tell(self, part: float) -> None:
        if self.fault:
            self.state = State(f"{self.fault}; the events before it are shown", True)
        elif not self.place:
            self.state = State("the file is empty: waits for its begin")
        else:
            self.state = State("follows" if self.is_there_yet else f"reads what is there: {part:.0%}")

    def rate(self, gl: Optional[int] = None) -> float:
        """Events a second in the last seconds, or those of one bit."""
        begin, end = self.before(WINDOW), self.marks[-1]
        came = end.events - begin.events if gl is None else end.bits.get(gl, 0) - begin.bits.get(gl, 0)
        return came / max(end.time - begin.time, 0.001)

    def rates(self, seconds: float) -> List[Tuple[float, float]]:
        """The rates of the last seconds, at most FINE of them: how long ago each ended, and its events a second."""
        found, begin, now = [], self.marks[0], self.marks[-1].time
        for mark in self.marks[1:]:
            if mark.time - begin.time >= seconds / FINE:
                found.append((now - mark.time, (mark.events - begin.events) / (mark.time - begin.time)))
                begin = mark
        return [it for it in found if it[0] <= seconds]

    def age(self) -> Optional[float]:
        """How many seconds ago the last event came; None before the first one."""
        return None if self.arrived is None else self.clock() - self.arrived

    def silence(self) -> float:
        """The same; before the first event, how long this was looked at."""
        age = self.age()
        return self.clock() - self.marks[0].time if age is None else age


class Alarm(NamedTuple):
    """What is asked: a text as FORM has it, its kind and its number, and of a rate the service whose events count."""

    text: str
    kind: str
    limit: float
    service: Optional[str] = None

    def why(self, follower: Follower, services: Sequence[Service], contradictions: Sequence[Contradiction]) -> Optional[str]:
        """Why it sounds; None if it does not. `contradictions` are those of the plan, as the record has them."""
        begin, end = follower.before(WINDOW), follower.marks[-1]
        if self.kind == "silence":
            return f"no event for {self.limit:g} s" if follower.silence() >= self.limit else None
        if self.kind == "plan":
            return f"the plan is contradicted more than {self.limit:g} times" if sum(it.times for it in contradictions) > self.limit else None
        if self.kind == "x0":
            return f"more than {self.limit:g} cycles with X = 0 in {WINDOW:g} s" if end.missed - begin.missed > self.limit else None
        gl = next((it.gl for it in services if it.name == self.service), None)
        if self.service and gl is None:
            return f"the script has no service {self.service}" if services else None
        is_low = end.time - begin.time >= WINDOW and follower.rate(gl) < self.limit
        return f"fewer than {self.limit:g} events{' of ' + self.service if self.service else ''} a second" if is_low else None


def read_alarm(text: str) -> Alarm:
    """Raises ValueError if it is none."""
    found = re.fullmatch(r"(?:(silence|x0|plan|rate)|rate:(\w+))=([0-9]{1,9}(?:\.[0-9]{1,6})?)", text)
    if not found:
        raise ValueError(f"an alarm is {FORM}, not {text!r}")
    return Alarm(text, found[1] or "rate", float(found[3]), found[2])


def sounding(alarms: Sequence[Alarm], follower: Follower, services: Sequence[Service], contradictions: Sequence[Contradiction] = ()) -> List[str]:
    """The alarms that sound, each with why."""
    return [f"{it.text}: {why}" for it in alarms for why in [it.why(follower, services, contradictions)] if why]
