"""A page that follows an event file while a run goes on. The server of the standard library gives it, to this computer alone: it writes nothing,
and answers GET and HEAD of its own addresses."""
import functools
import json
import os
import socketserver
import sys
import threading
import time
from typing import Any, Callable, Dict, List, NamedTuple, Optional, Sequence, Tuple, Union

from camac.columns import Naming, asked_of, lay_over, read_cut
from camac.drive import File, UsageFault, one_line
from camac.export import About, Given, checks_of, learn
from camac.follow import Alarm, Counts, Follower, Mark, State, sounding
from camac.pictures.maps import draw_pairs
from camac.pictures.spectra import BOTH, View, channel_groups, draw_panel, of_channel, seen_groups
from camac.pictures.svg import Canvas, escape, share, ticks
from camac.printed import read_responses
from camac.program import knows_command
from camac.record import Record, beside, read_record
from camac.report.page import Column, Row, figure, header, page, panels, region_table, table
from camac.runs import Asked, Channel, Channels, Cut, Over
from camac.subcommands import response
from camac.values import Contradiction, Response
from camac.watch_page import ASK, FORM, LOST, MORE, NOTES, SCRIPT, STYLE

HOST = "127.0.0.1"
# The seconds between two looks at the file.
POLL = 1.0
# Spectra are drawn again after this multiple of the time that drawing them takes; of so many looks they are kept, and so many parts of a run are counted.
PAUSE, LOOKS, KEPT = 250, 16, 8
SHOWN_WORDS = 16
# The width and the most bins of a spectrum by itself, and the most numbers of a region that is measured.
WIDE, MOST_BINS, MOST_REGION = 640, 588, 512
MINUTES = 600
# The parts of the page below its head, each with its title.
PARTS = {"services": "Services", "rate": "Rate", "channels": "Event words by their names", "cycles": "Cycles and words of an event", "last": "The last events"}
# A record that says that its run goes on is told again within seconds; after so many the run may have crashed.
PATIENCE = 60


def stamp(file: Optional[File]) -> Optional[Tuple[int, ...]]:
    """What changes where a file is written anew; None where none is there."""
    try:
        status = os.stat(file or "")
    except FileNotFoundError:
        return None
    return status.st_ino, status.st_mtime_ns, status.st_size


@functools.lru_cache(4096)
def _read(path: str, _at: Optional[Tuple[int, ...]]) -> Optional[Record]:
    """A record, read again if it was written; None if it is none."""
    try:
        return read_record(path)
    except (OSError, ValueError):
        return None


class RunList:
    """The runs of a folder. `make` makes what follows one of them."""

    def __init__(self, folder: str, words: Optional[File], make: Callable[[Given], Any]) -> None:
        self.folder, self.words, self.make = folder, words, make
        self.opened: Dict[str, Any] = {}
        self.lock, self.stop = threading.Lock(), threading.Event()

    def records(self) -> Dict[str, Record]:
        """The records by the names of their files, the last one first."""
        paths = ((it, os.path.join(self.folder, it)) for it in sorted(os.listdir(self.folder)) if it.endswith(".json"))
        found = {name: record for name, record in ((name, _read(path, stamp(path))) for name, path in paths) if record}
        return dict(sorted(found.items(), key=lambda it: it[1].begin or it[1].told or "", reverse=True))

    def follow(self, stop: threading.Event) -> None:
        self.stop = stop
        stop.wait()

    def open(self, name: str) -> Any:
        """What follows a run; None if there is none of this name."""
        record = self.records().get(name)
        if record is None or record.events is None:
            return None
        with self.lock:
            if name not in self.opened:
                events, path = (os.path.join(self.folder, it) for it in (os.path.basename(record.events), name))
                opened = self.opened[name] = self.make(Given(events, words=self.words, record=path))
                threading.Thread(target=opened.follow, args=(self.stop,), daemon=True).start()
            return self.opened[name]

    def parts(self, _look: object) -> Dict[str, str]:
        return {"runs": "".join(f"<li>{self.row(*it)}</li>" for it in self.records().items()) or "There is no record of a run in this folder."}

    def row(self, name: str, record: Record) -> str:
        """A run in a line: its page, its state, its number and title."""
        from urllib.parse import quote

        link = f'<a href="{quote(os.fsencode(name), safe="")}/">{escape(name)}</a>' if record.events else escape(name)
        age = time.time() - (stamp(os.path.join(self.folder, name)) or (0, 0))[1] / 1e9
        state, is_good = (record.line, record.how == "ended") if record.line is not None else ("goes on", True) if age < PATIENCE else (f"not told for {age / 60:,.0f} min", False)
        texts = [f"run {record.number}" if record.number is not None else "", record.title, f"begun {record.begin[:19]}Z" if record.begin else ""]
        texts += [f"live {share(record.demands or 0, record.seconds())}"] if record.seconds() > 0 else []
        return f'{link}: <b class="{"good" if is_good else "bad"}">{escape(state)}</b>, {escape(", ".join(filter(None, texts)))}'

    def page(self) -> str:
        head = header(os.path.basename(os.path.abspath(self.folder)), [LOST])
        return page("Runs", head, ['<ul id="runs"></ul>'], ASK + "ask();", MORE)


class Look(NamedTuple):
    """What of a run is asked for: spectra of all its events, of those behind an event, or of the last seconds or events; of those that pass gates; and a
    column by itself, from a first to a last number, and `up` against another; and regions."""

    since: int = 0
    seconds: int = 0
    events: int = 0
    of: str = ""
    low: int = 0
    last: Optional[int] = None
    up: str = ""
    gate: Tuple[str, ...] = ()
    region: Tuple[str, ...] = ()


def read_look(query: str) -> Look:
    """Reads the query of an address. Raises ValueError if it is none."""
    from urllib.parse import parse_qsl

    fields: Dict[str, Any] = {}
    for name, value in parse_qsl(query, keep_blank_values=True, strict_parsing=bool(query)):
        if name in ("gate", "region"):
            fields[name] = (*fields.get(name, ()), value)
        elif name in ("of", "up"):
            fields[name] = value
        elif name in Look._fields and value.isdecimal() and len(value) < 16:
            fields[name] = int(value)
        elif value or name not in Look._fields:
            raise ValueError(query)
    return Look(**fields)


class Watch:
    """A file that is followed, and the parts of its page. `given` are the files that were named, the record may come later; `over` is another run."""

    def __init__(self, given: Given, alarms: Sequence[Alarm] = (), over: Optional[File] = None) -> None:
        self.given, self.asked_alarms, self.over = given, alarms, over
        self.lock = threading.Lock()
        self.drawn: Dict[Look, Tuple[float, Dict[str, str]]] = {}
        self.kept: Dict[Tuple[object, ...], Follower] = {}
        self.record_at = stamp(given.record)
        self.about, self.responses = self.learn()
        self.record, self.refused = self.about.record, ""
        self.misfits: List[str] = []
        self.follower = Follower(given.events, lambda: Counts(self.about.services, Asked(self.about.names())))

    def learn(self) -> Tuple[About, Sequence[Response]]:
        """Raises as `camac.export.learn`. A record that is not there yet is none; without plan and script the words have no names until then."""
        given = self.given
        if given.record is not None and self.record_at is None:
            given = given._replace(record=None, words=given.words if given.plan is not None else None)
        about = learn(given)
        if about.record:
            return about, read_responses("\n".join(about.record.response))
        if given.plan is not None and given.script is not None and knows_command("response"):
            return about, response(given.plan, given.script)
        return about, ()

    def poll(self) -> bool:
        """Looks at the files. Returns whether there may be more events at once. Whatever fails is shown, and tried again at the next look."""
        with self.lock:
            try:
                if self.given.record is not None:
                    self.read_record(self.given.record)
                self.refused = ""
            except Exception as why:
                self.refused = f"the record: {one_line(why) or why!r}"
            try:
                return any([it.poll() for it in (self.follower, *self.kept.values())])
            except Exception as why:
                self.follower.state = State(f"the events: {one_line(why) or why!r}", True)
                return False

    def read_record(self, file: File) -> None:
        """Reads the record if it was written again, and until it is right; if it is that of another plan or script, all is counted again. Raises as
        `learn`."""
        at = stamp(file)
        if at is None or at == self.record_at and not self.refused:
            return
        record, before = read_record(file), self.record
        self.record_at = at
        if before is None or (before.plan.sha256, before.script.sha256) != (record.plan.sha256, record.script.sha256):
            self.about, self.responses = self.learn()
            self.follower.restart("the record is that of another run")
            self.kept.clear()
        self.record = record

    def follow(self, stop: threading.Event) -> None:
        while not stop.wait(0.0 if self.poll() else POLL):
            pass

    def parts(self, look: Look = Look()) -> Dict[str, str]:
        """The parts of the page, as HTML."""
        with self.lock:
            due, drawn = self.drawn.get(look, (0.0, {}))
            if time.monotonic() >= due:
                begin = time.thread_time()
                drawn = self.draw(look)
                if len(self.drawn) >= LOOKS:
                    self.drawn.clear()
                pause = PAUSE if all(it.is_there_yet for it in self.kept.values()) else 0
                self.drawn[look] = time.monotonic() + pause * (time.thread_time() - begin), drawn
            return {
                "alarms": "".join(f'<p class="bad">{escape(it)}</p>' for it in self.alarms()),
                "notes": self.notes(),
                "tiles": self.tiles(),
                "services": self.services(),
                "rate": self.rates(),
                **drawn,
                "last": self.last(),
            }

    def follow_asked(self, look: Look, asked: Asked) -> Follower:
        """What counts the events that are asked for, which may begin a little before. Those of whole runs take their time."""
        follower, behind = self.follower, self.follower.counts.events - look.since
        make = lambda: Counts(self.about.services, Asked(asked.names, asked.pair, asked.bins, asked.gates))
        if look.seconds or look.events:
            follower = follower.since(follower.before(look.seconds, look.events), make)
            while follower.poll():
                pass
            return follower
        key = look.since if behind >= 0 else 0, asked.gates, asked.pair
        return self.keep(key, lambda: follower.since(follower.before(events=behind) if key[0] else Mark(0.0), make)) if any(key) else follower

    def keep(self, key: Tuple[object, ...], make: Callable[[], Follower]) -> Follower:
        """What follows events under a key, made if it is not there."""
        if key not in self.kept:
            self.kept = dict([*self.kept.items()][1 - KEPT :])
            self.kept[key] = make()
            self.kept[key].poll()
        return self.kept[key]

    def lay_over(self, look: Look, asked: Asked, counts: Counts) -> Optional[Over]:
        """The other run, of which the same gates are asked."""
        if self.over is None:
            return None
        file, about = self.over, self.about._replace(events_file=os.fsdecode(self.over))
        other = self.keep((file, asked.gates), lambda: Follower(file, lambda: Counts(about.services, Asked(asked.names, gates=asked.gates))))
        wrong = [other.state.text] if other.state.is_bad else [it.text for it in checks_of(other.counts.fit, about) if not it.agrees]
        self.misfits = [f"{os.path.basename(about.events_file)}: {it}" for it in wrong]
        live = [record.demands if record and not (look.since or look.seconds or look.events) else None for record in (self.record, beside(file))]
        return lay_over(file, other.counts.channels, live, *({gl: it.count for gl, it in one.bits.items()} for one in (counts, other.counts)))

    def draw(self, look: Look) -> Dict[str, str]:
        try:
            naming = Naming(None, (look.of, look.up) if look.up else None, tuple(map(read_cut, look.gate)), tuple(map(read_cut, look.region)))
            asked = asked_of(naming, self.about.names())
        except UsageFault as why:
            return {"one": f'<p class="bad">{escape(why)}</p>'}
        follower, services = self.follow_asked(look, asked), self.about.services
        counts, taken = follower.counts, follower.counts.fit.count
        spectra = {gl: it.cycles for gl, it in counts.bits.items()}, {gl: it.words for gl, it in counts.bits.items()}
        channels, over = counts.list_channels(), self.lay_over(look, asked, counts)
        of = f"{taken:,} events" + (f", from event {counts.events - taken + 1:,} on" if taken != counts.events else "")
        of += "" if follower.is_there_yet else f" ({follower.state.text})"
        cycles, words = ("" if follower is self.follower else f'<p class="mute">{escape(of + it)}</p>' for it in ("", asked.gated()))
        return {
            "cycles": cycles + (panels(seen_groups(*spectra, services, BOTH)) if services else ""),
            "channels": words + panels(channel_groups(channels, BOTH, over=over)),
            "names": "".join(f'<option value="{escape(it.column.name)}">' for it in self.follower.counts.list_channels()),
            "one": _draw_one(counts.channels, next((it for it in channels if it.column.name == look.of), None), look, asked, over),
        }

    def alarms(self) -> List[str]:
        """What is wrong now: with the files, with the script of the events, and what the user asked for, until the run is over."""
        follower, is_over = self.follower, self.record is not None and self.record.end is not None
        wrong = [follower.state.text if follower.state.is_bad else "", self.refused, *self.misfits]
        wrong += [it.text for it in checks_of(follower.counts.fit, self.about) if not it.agrees]
        return [*filter(None, wrong), *sounding([] if is_over else self.asked_alarms, follower, self.about.services, self.contradictions())]

    def contradictions(self) -> Sequence[Contradiction]:
        return self.record and self.record.contradictions or ()

    def notes(self) -> str:
        state = self.follower.state
        lines = [] if state.is_bad else [f'<b class="good">{escape(state.text)}</b>']
        lines += [f'<b class="bad">{escape(it)}</b>' for it in self.follower.restarts]
        record = self.record
        if record and record.line:
            lines.append(f'The record: <b class="{"good" if record.how == "ended" else "bad"}">{escape(record.line)}</b>, {escape(record.end or "")}')
        elif record:
            lines.append(f"The record: run in progress since {escape(record.begin or '')}, told {escape(record.told or '')}")
        lines += [f'<b class="bad">{escape(it.text())}</b>' for it in self.contradictions()]
        return "".join(f"<p>{it}</p>" for it in lines)

    def tiles(self) -> str:
        follower, age = self.follower, self.follower.age()
        missed = sum(it.missed for it in follower.counts.bits.values())
        shown = [(f"{follower.counts.events:,}", "events", ""), (f"{follower.rate():,.1f}", "events a second", "")]
        shown.append(("none" if age is None else _duration(age), "since the last event", ""))
        shown.append((f"{missed:,}", "cycles with X = 0", "bad" if missed else ""))
        if self.record and self.record.seconds() > 0:
            parts = ((self.record.demands, "live, measured"), (self.record.services, "dead, measured"))
            shown += [(share(part or 0, self.record.seconds()), word, "") for part, word in parts]
        drawn = (f'<div class="tile"><b class="{kind}">{value}</b><span>{word}</span></div>' for value, word, kind in shown)
        return f'<div class="tiles" data-events="{follower.counts.events}">{"".join(drawn)}</div>'

    def rates(self) -> str:
        """The rates of the last minutes, and of the whole run where it is longer."""
        length = self.follower.marks[-1].time - self.follower.marks[0].time
        drawn = [_draw_rate(self.follower.rates(it), it).figure() for it in ([MINUTES, length] if length > MINUTES else [MINUTES])]
        return f'<div class="panels">{"".join(drawn)}</div>'

    def services(self) -> str:
        """A line for each bit: what was seen, beside bound and the most cycles from its look-at-me to its end."""
        rows: List[Row] = []
        services, ends = {it.gl: it for it in self.about.services}, {it.gl: it.end for it in self.responses}
        for gl, bit in sorted(self.follower.counts.bits.items()):
            service = services.get(gl)
            cycles = (bit.cycles.mean(), bit.cycles.greatest or 0) if bit.cycles.count else ("", "")
            bound = (service.cycles, service.words) if service else ("", "")
            words = (bit.words.mean(), bit.words.greatest or 0) if bit.words.count else ("", "")
            end = ends.get(gl)
            rows.append((service.name if service else "", gl, bit.count, *cycles, bound[0], "-" if end is None else end, *words, bound[1], bit.missed))
        titles = "GL,events,cycles mean,most,bound,from look-at-me at most,words mean,most,bound,X = 0".split(",")
        return table([Column("service", True), *map(Column, titles)], rows, False)

    def last(self) -> str:
        names = {it.gl: it.name for it in self.about.services}
        rows = []
        for event in reversed(self.follower.counts.last):
            more = len(event.words) - SHOWN_WORDS
            words = " ".join(map(str, event.words[:SHOWN_WORDS])) + (f" … and {more:,} more" if more > 0 else "")
            rows.append((event.number, names.get(event.gl, f"GL {event.gl}"), *("" if number is None else number for number in event[2:4]), words))
        return table([Column("event"), Column("service", True), Column("cycles"), Column("X = 0"), Column("words", True)], rows, False)

    def page(self) -> str:
        """The page, whose parts come later."""
        name = os.path.basename(os.fsdecode(self.given.events))
        record = self.record
        run = " ".join(filter(None, [f"run {record.number}" if record and record.number is not None else "", record.title if record else ""]))
        head = header(name, [f'<p class="mute">{escape(run)}</p>', LOST])
        parts = [f'<h2>{title}</h2><div id="{it}"></div>' for it, title in PARTS.items()]
        return page(f"{name}: live", head, [STYLE, NOTES, *parts[:2], FORM, *parts[2:]], SCRIPT, MORE)


def _duration(seconds: float) -> str:
    return f"{seconds:.0f} s" if seconds < 60 else f"{seconds / 60:.0f} min" if seconds < 3600 else f"{seconds / 3600:.1f} h"


def _draw_one(channels: Channels, channel: Optional[Channel], look: Look, asked: Asked, over: Optional[Over]) -> str:
    """A spectrum by itself, what is in its range and in regions, and a pair."""
    from camac.pictures.regions import row_of

    drawn, cuts = "", [*asked.regions]
    if channel is not None:
        spectrum = channel.spectrum
        low = min(look.low, spectrum.end - 1)
        last = spectrum.end - 1 if look.last is None else max(low, min(look.last, spectrum.end - 1))
        drawn, cuts = figure(draw_panel(of_channel(channel, over), BOTH, View(low, last, MOST_BINS), WIDE)), [Cut(channel.column, low, last), *cuts]
    rows = [row_of(cut, channels[cut.column].spectrum.bins(cut.low, cut.last + 1, MOST_REGION)) for cut in cuts if cut.column in channels]
    return drawn + (region_table(rows) if rows else "") + (figure(draw_pairs(channels)) if asked.pair else "")


def _draw_rate(rates: Sequence[Tuple[float, float]], span: float) -> Canvas:
    """Events a second over the last seconds."""
    left, wide, high = 64, 390, 90
    canvas = Canvas(f"Events a second of the last {_duration(span)}", left + wide + 10)
    top = max([*(it for _, it in rates), 1.0])
    canvas.line((left, 10.5 + high), (left + wide, 10.5 + high), "l-mute thin")
    for value in ticks(top, 3):
        y = 10 + high * (1 - value / top)
        canvas.text(left - 6, y + 4, f"{value:,}", "mute s10 r")
        canvas.line((left, y), (left + wide, y), "l-grid thin")
    if rates:
        canvas.lines([(left + wide * (1 - age / span), 10 + high * (1 - it / top)) for age, it in rates], "l-ours")
    for part in (0, 0.5, 1):
        text = f"{_duration(part * span)} ago" if part else "now"
        canvas.text(left + wide * (1 - part), 24 + high, text, "mute s10" + (" m" if part else " r"))
    canvas.grow(30 + high)
    return canvas


def _answer(request: Any, client: Any, server: "Server") -> socketserver.BaseRequestHandler:
    from camac.watch_http import Handler

    return Handler(request, client, server)


class Server(socketserver.ThreadingTCPServer):
    """The server of a page, on this computer alone. What understands HTTP and addresses is loaded when a browser asks."""

    allow_reuse_address = daemon_threads = True

    def __init__(self, watch: Union[Watch, RunList], port: int) -> None:
        self.watch = watch
        super().__init__((HOST, port), _answer)

    def find(self, path: str) -> Optional[str]:
        """The text of a page, or of its parts as JSON; None if there is no such page."""
        from urllib.parse import unquote_to_bytes

        way, _, query = path.partition("?")
        folder, _, name = way.rpartition("/")
        watch: Any = self.watch if folder == "" else self.watch.open(os.fsdecode(unquote_to_bytes(folder[1:]))) if isinstance(self.watch, RunList) else None
        if watch is None or not way.startswith("/") or name not in ("", "state"):
            return None
        if name == "":
            return None if query else str(watch.page())
        try:
            return json.dumps(watch.parts(read_look(query)))
        except ValueError:
            return None

    def hosts(self) -> Tuple[str, ...]:
        """How a browser of this computer names the server. Another name comes from a page of somebody else."""
        port = self.server_address[1]
        return tuple(f"{name}:{port}" for name in (HOST, "localhost")) + ((HOST, "localhost") if port == 80 else ())

    def handle_error(self, request: Any, client_address: Any) -> None:
        """A browser that left is no fault."""
        if not isinstance(sys.exc_info()[1], ConnectionError):
            super().handle_error(request, client_address)

    def address(self) -> str:
        return f"http://{HOST}:{self.server_address[1]}/"
