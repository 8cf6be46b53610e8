"""The checker and the runner of camac in this process, over the library for C, with no second program.

`tell` judges texts, `Session` is a run that takes an answer at a time, and `play` does what `camac.drive` does. docs/C.md says
what each call of the library does. `camac.native` says where the library is looked for."""
import contextlib
import ctypes
import functools
import itertools
import os
import stat
from ctypes import byref, c_size_t, c_uint32
from io import FileIO
from typing import TYPE_CHECKING, Any, Callable, Iterable, Iterator, List, Mapping, NamedTuple, Optional, Sequence, Tuple, Union

from camac import native
from camac.contradictions import seen_of
from camac.drive import Answer, Branch, File, Left, Lockouts, ProgramFault, Refused, UsageFault, branch_of, file_fault, tell_left
from camac.events import FORMS, HEADER, NEW_FILE
from camac.signals import Signals
from camac.values import Ending, RunEnd
from camac.native import BUSY, EVENT_WORDS, LONG, MISUSE, NO_MEMORY, OK, OVERRUN, REFUSED, SPENT, WRITE, Progress, Want
from camac.native import BLOCK as BLOCK, IN_LISTS as IN_LISTS, Q_REPEAT as Q_REPEAT, Q_STOP as Q_STOP, SCAN as SCAN, UNLOCK as UNLOCK, WRITES as WRITES
from camac.native import CYCLE as CYCLE, DEMAND as DEMAND, LOCK as LOCK, NO_DATA as NO_DATA, NO_LIMIT as NO_LIMIT, READ as READ, STOPPED as STOPPED
from camac.native import is_there as is_there, version as version
from camac.output import holds_bytes
from camac.program import IN_PROCESS, Verdict, settings
from camac.texts import plan_text, script_text

if TYPE_CHECKING:
    from camac.record import Recording

Text = Union[bytes, bytearray, memoryview, str]
ROOM = 4096
# What `tell` prints of a script has so many bytes for one of it at most; else it is asked again.
OF_ROWS = 16
# The bytes of the longest record of an event file; no lines of an answer are longer.
LONGEST = 16 + 4 * EVENT_WORDS
# What the program says at the codes that it knows, with its status.
FAULTS = {NO_MEMORY: ("fault memory", 3), LONG: ("fault input too long", 3)}
SPENT_LINE = "refused A4 line 4294967296: too many answers"
MISUSED = "{} needs each service of the script once at most, as adc=200, with a number from 0, or from 1 of `every`, to 4294967295"
# A session makes no more steps at once. They take a tenth of a second at worst; between them other threads run, and signals come.
STEPS = 5_000


class ServiceInfo(NamedTuple):
    """A service of a script: the address of its LAM, its graded-L bit and the line of its heading, the most that it can need, and the numbers of
    its heading."""

    name: str
    c: int
    n: int
    a: int
    gl: int
    line: int
    cycles: int
    words: int
    steps: int
    most_cycles: int
    most_words: int


class Place(NamedTuple):
    """A place in a script: a service, from 1 in its order, and a line."""

    service: int
    line: int


class Block(NamedTuple):
    """A block transfer that `branch.block` makes at once: its mode, Q_STOP, Q_REPEAT or SCAN; its first cycle; its final station and sub-address; the
    most cycles, and the most of them with Q = 1; and the words to write, None if it reads."""

    mode: int
    c: int
    n: int
    a: int
    f: int
    last_n: int
    last_a: int
    cycles: int
    words: int
    data: Optional[Tuple[int, ...]]


OnFault = Callable[[Exception, Optional[Place]], bool]


class Overrun(Exception):
    """A wait that the plan does not permit: its crate, and how long it was."""

    def __init__(self, crate: int, wait: int) -> None:
        super().__init__(f"overrun {crate} wait {wait}")
        self.crate, self.wait = crate, wait


def _test(call: str, code: int, *others: int) -> None:
    """Raises the fault of a call, unless it went well, or its code is one of the others."""
    if code == OK or code in others:
        return
    if code in FAULTS:
        raise ProgramFault(*FAULTS[code])
    if code == SPENT:
        raise OverflowError(SPENT_LINE)
    if code in (MISUSE, BUSY):
        needs = "an open session: this one is closed" if code == MISUSE else "a run that does not pause: go_on comes first"
        raise UsageFault(f"{call} needs {needs}", 2)
    raise RuntimeError(f"the library answers {call} with the code {code}")


def _given(*texts: Text) -> List[Any]:
    """Each text as its bytes and their number. Raises TypeError for what is no text and no bytes."""
    found: List[Any] = []
    for it in texts:
        data = it.encode() if isinstance(it, str) else memoryview(it).tobytes()
        found += [data, len(data)]
    return found


class _Buffer:
    """Room for a text that the library writes."""

    def __init__(self, room: int = ROOM) -> None:
        self.bytes, self.room, self.size = ctypes.create_string_buffer(room), room, c_size_t()

    def words(self) -> List[Any]:
        return [self.bytes, self.room, byref(self.size)]

    def is_whole(self) -> bool:
        return self.size.value <= self.room

    def text(self) -> bytes:
        return ctypes.string_at(self.bytes, min(self.size.value, self.room))


def _filled(call: Any, *given: Any, buffers: int = 1, room: int = ROOM) -> Tuple[int, List[bytes]]:
    """Calls with buffers, and once more with greater ones if one was too small. Returns the code and what was written."""
    rooms = [_Buffer(room) for _ in range(buffers)]
    while True:
        code, name = call(*given, *(word for it in rooms for word in it.words())), call.__name__.replace("camac_", "")
        if code == MISUSE:
            raise UsageFault(MISUSED.format(name), 2)
        _test(name, code, REFUSED)
        if all(it.is_whole() for it in rooms):
            return code, [it.text() for it in rooms]
        rooms = [_Buffer(max(it.room, it.size.value)) for it in rooms]


def _verdict(call: Any, *given: Any, room: int = ROOM) -> Verdict:
    code, (text,) = _filled(call, *given, room=room)
    return Verdict(code == OK, text.decode("utf-8", "replace"))


def output_of(command: str, plan: File, *script: File, every: Iterable[str] = ()) -> Verdict:
    """The output of the program when it is called with one of `COMMANDS` and these files. `every` has the words that follow this option of
    `response`, as NAME=CYCLES. Raises as the program fails: ProgramFault, UsageFault."""
    if command == "run":
        return _played(plan, *script)
    name = command if script or command == "plan" else f"{command}_plan"
    return tell(name, plan_text(plan), script_text(script[0]) if script else b"", every)


def tell(ask: str, plan: Text, script: Text = b"", every: Iterable[str] = ()) -> Verdict:
    """What the program prints of a plan, and of a script: `ask` is "plan", "check", "explain", "explain_bounds", "bounds", "costs", "tell" or
    "response", or "explain_plan" of a plan alone. Raises ProgramFault if there is no memory, or if a text is too long."""
    calls = native.load().texts
    if ask == "response":
        return _verdict(calls.camac_response, *_given(plan, script, _settings(every), ""))
    return _verdict(calls.camac_tell, native.ASKS[ask], *_given(plan, script), room=ROOM + OF_ROWS * len(script) * (ask == "tell"))


def _played(plan: File, script: File, answers: File, events: File) -> Verdict:
    """The listing of `camac run`. Unless its first line refuses, the event file takes the place of an old one, or of no bytes."""
    try:
        with open(answers, "rb") as opened:
            given = opened.read()
    except OSError as why:
        raise file_fault("read", answers, why) from why
    listing, made = run(plan_text(plan), script_text(script), given)
    if not listing.text.startswith("refused "):
        with _writes(events):
            if holds_bytes(events):
                with open(events, "rb") as old:
                    if old.read(HEADER) not in FORMS:
                        raise file_fault("write", events, "it is no event file")
            with open(events, "wb") as file:
                file.write(made)
    return listing


def explain_at(plan: Text, script: Text, line: int, column: int) -> Verdict:
    """What `camac explain --at LINE:COLUMN` prints: what the checker knows before the statement there. Both are from 1, the column in bytes. If no
    statement is there, it is not accepted. Raises UsageFault if one of them is not from 1 to 4,294,967,295."""
    if not (1 <= line < 1 << 32 and 1 <= column < 1 << 32):
        raise UsageFault("explain_at needs a line and a column from 1 to 4294967295", 2)
    return _verdict(native.load().texts.camac_explain_at, *_given(plan, script), line, column)


def response(plan: Text, script: Text, every: Optional[Mapping[str, int]] = None, within: Optional[Mapping[str, int]] = None) -> Verdict:
    """What `camac response` prints. `every` and `within` have the numbers of dataway cycles that follow these options, by service. It is not
    accepted, too, where a line is `unkept`, or a service may end above its number in `within`. Raises UsageFault if a number is out of range
    (0 to 4,294,967,295, from 1 on in `every`), or the accepted script does not have the service."""
    return _verdict(native.load().texts.camac_response, *_given(plan, script, _settings(settings(every)), _settings(settings(within))))


def _settings(words: Iterable[str]) -> str:
    words = list(words)
    if any(it.split() != [it] for it in words):
        raise UsageFault(MISUSED.format("response"), 2)
    return " ".join(words)


def events(file: bytes) -> Verdict:
    """What `camac events` prints of the bytes of an event file."""
    return _verdict(native.load().texts.camac_events, *_given(file))


def run(plan: Text, script: Text, answers: Text) -> Tuple[Verdict, bytes]:
    """What `camac run` prints of the text of all answers, and the bytes of its event file."""
    code, (listing, file) = _filled(native.load().texts.camac_run, *_given(plan, script, answers), buffers=2)
    return Verdict(code == OK, listing.decode("utf-8", "replace")), file


def _answers(given: Sequence[Answer]) -> Any:
    """Answers as C has them, and one more."""
    structs = (native.AnswerStruct * (len(given) + 1))()
    for i, (x, q, word, wait, gl) in enumerate(given):
        structs[i].size = native.ANSWER_SIZE
        native.write_answer(structs, i * native.ANSWER_SIZE + native.BEHIND_SIZE, word, gl, x, q, wait)
    return structs


class Session:
    """A run of an accepted script, an answer at a time. It is closed by `close`, at the end of a `with`, or when nothing refers to it.

    Raises Refused if plan or script is refused, and ProgramFault as `check` does. After `close`, a call raises UsageFault.

    Each thread may have sessions of its own. A session may be closed by any thread at any time; its other calls have to come one after another,
    since what they return is filled again by the next one. While a long answer is worked at, other threads run, and signals come: after an exception
    of one (KeyboardInterrupt) `is_busy`, and `go_on` does the rest."""

    def __init__(self, plan: Text, script: Text) -> None:
        calls = native.load()
        self._calls, self._session = calls.sessions, native.SessionStruct()
        self._want, self._answer, self._progress, self._words = Want(), native.AnswerStruct(), Progress(), (c_uint32 * EVENT_WORDS)()
        # The arguments of each call, made once.
        self._at, self._to_want = byref(self._session), byref(self._want)
        self._to_answer, self._to_progress = byref(self._answer), byref(self._progress)
        self._room, self._longest, self._size = ctypes.create_string_buffer(LONGEST), c_size_t(LONGEST), c_size_t()
        self._to_size, self._written = byref(self._size), memoryview(self._room).cast("B")
        # The lines of what the last answer did before its last pause.
        self._lines = b""
        buffer = _Buffer()
        code = calls.texts.camac_open(self._at, *_given(plan, script), *buffer.words())
        if code == REFUSED:
            raise Refused(buffer.text().decode())
        _test("Session", code)
        self.limit_steps()

    def wants(self) -> Optional[Want]:
        """What the next answer is for; None if the run is stopped, by an overrun. The next call fills the same object again. Raises UsageFault while
        the run pauses."""
        code = self._calls.camac_wants(self._at, self._to_want)
        _test("wants", code, OVERRUN)
        return self._want if code == OK else None

    def ahead(self, room: int = native.AHEAD) -> List[Want]:
        """The operations that come next, whatever is answered, as many as `room` at most: what a controller that makes lists of commands makes in one
        transfer. The first is that of `wants`. None if the run is stopped, by an overrun."""
        return self._wants(self._calls.camac_ahead, max(0, min(room, native.AHEAD)))

    def service_ahead(self, service: int, room: int = native.AHEAD) -> List[Want]:
        """The list with which a service begins, by its number from 1, known before its demand: once a demand has called it, the run wants exactly
        these, whatever is answered. No more than `room`, and none if the first is not known before. Raises UsageFault if there is no such service, or no
        demand is wanted."""
        wants, count = (Want * native.AHEAD)(), c_size_t()
        wants[0].size = ctypes.sizeof(Want)
        number = service if 0 < service <= self._calls.camac_services(self._at) else 0
        if self._calls.camac_service_ahead(self._at, number, wants, max(0, min(room, native.AHEAD)), byref(count)) != OK:
            raise UsageFault("service_ahead needs an open session that wants a demand, and the number of a service, from 1", 2)
        return list(wants[: count.value])

    def back(self) -> List[Want]:
        """What sets inhibit and demand output of the crates back, as they were at the demand of the service in progress: cycles to make before
        `abandon`, none between services."""
        return self._wants(self._calls.camac_back, native.BACK)

    def _wants(self, call: Any, room: int) -> List[Want]:
        wants = (Want * max(room, 1))()
        wants[0].size = ctypes.sizeof(Want)
        return list(wants[: call(self._at, wants, room)])

    def next_many(self, answers: Iterable[Answer]) -> List[Progress]:
        """`next` of one answer after the other, up to one that leaves an event, ends the run by an overrun, makes it pause or is not taken. Returns what each did, the
        overrun too. Raises what `next` raises if the first is not taken."""
        given, at, taken = list(answers), 0, c_size_t()
        structs, did = _answers(given), (Progress * (len(given) + 1))()
        while True:
            self._lines = b""
            did[at].size = ctypes.sizeof(Progress)
            code = self._calls.camac_next_many(self._at, byref(structs[at]), byref(did[at]), len(given) - at, byref(taken))
            at += taken.value
            if taken.value and code == BUSY:
                code = self._go_through(did[at - 1])
            if code != OK or at == len(given) or did[at - 1].event:
                break
        if not at:
            _test("next_many", code, OVERRUN)
        return list(did[: at + (code == OVERRUN)])

    def next(self, answer: Answer) -> Progress:
        """Takes an answer, and returns what it did. The next call fills the same object again. Raises OverflowError if the run has used
        4,294,967,295 answers, and UsageFault while it pauses."""
        self._give(answer)
        self._heed("next", self._calls.camac_next(self._at, self._to_answer, self._to_progress))
        return self._progress

    def step(self, answer: Answer) -> Tuple[Progress, Optional[Want]]:
        """`next`, and then `wants`, in one call of the library. Nothing is wanted if the run is stopped, or pauses."""
        self._give(answer)
        code = self._calls.camac_step(self._at, self._to_answer, self._to_progress, self._to_want)
        if code == OK:
            return self._progress, self._want
        return self._progress, self.wants() if self._heed("step", code) == OK else None

    def blocks(self, modes: int) -> None:
        """Says which block transfers are made at once: a sum of Q_STOP, Q_REPEAT, SCAN, and WRITES for those that write, too. Then what is left of such a
        transfer is one want, of kind BLOCK; with IN_LISTS lists go on behind blocks, and behind releases of lockouts, wants of kind UNLOCK. Raises UsageFault
        if it is no such sum."""
        if not 0 <= modes <= Q_STOP + Q_REPEAT + SCAN + WRITES + IN_LISTS:
            raise UsageFault("blocks needs a sum of Q_STOP, Q_REPEAT, SCAN, WRITES and IN_LISTS", 2)
        _test("blocks", self._calls.camac_blocks(self._at, modes))

    def block_words(self) -> Tuple[int, ...]:
        """The words that the block which is wanted still writes; none of one that reads."""
        count = self._calls.camac_block_words(self._at, self._words, EVENT_WORDS)
        return tuple(self._words[:count])

    def block(self, answers: Iterable[Answer]) -> Tuple[Progress, int]:
        """Takes the answers of the block that is wanted, one after the other, up to the one that ends it or is an overrun. Returns what the last of these
        did, and how many were taken. Raises what `next` raises."""
        given, taken = list(answers), c_size_t()
        self._lines = b""
        code = self._calls.camac_block(self._at, _answers(given), self._to_progress, len(given), byref(taken))
        if code == MISUSE:
            raise UsageFault("block needs an open session that wants a block, and an answer", 2)
        self._heed("block", code)
        return self._progress, taken.value

    def next_list(self, wants: Iterable[Want], made: Iterable[Iterable[Answer]]) -> List[Progress]:
        """Takes the answers of a list of `ahead`, those of its members one after the other: one of an operation, those of its cycles of a block, none of a
        release. Returns what each member did, up to the one that ends the run by an overrun, makes it pause or is not taken, and to a block of which the run
        wants the rest, which is left out. Raises what `next` raises if the first is not taken, and UsageFault if members and answers do not fit."""
        listed, answers, taken = list(wants), [list(it) for it in made], c_size_t()
        listed = listed[: len(answers)]
        for want, cycles in itertools.zip_longest(listed, answers):
            if want is None or not (cycles if want.kind == BLOCK else len(cycles) == (want.kind != UNLOCK)):
                raise UsageFault("next_list needs a list of `ahead`: an answer of each operation, one or more of a block, none of a release", 2)
        structs, did = _answers(list(itertools.chain(*answers))), (Progress * (len(listed) + 1))()
        did[0].size = ctypes.sizeof(Progress)
        self._lines = b""
        counts = (c_size_t * (len(listed) + 1))(*map(len, answers))
        code = self._calls.camac_next_list(self._at, (Want * (len(listed) + 1))(*listed), counts, structs, did, len(listed), byref(taken))
        count = taken.value
        if count and code == BUSY:
            code = self._go_through(did[count - 1])
        if not count:
            _test("next_list", code, OVERRUN)
        return list(did[: count + (code == OVERRUN)])

    def _heed(self, call: str, code: int) -> int:
        """Goes through the pauses of an answer. Returns the code behind them. Raises the fault of an answer that was not taken."""
        if code == BUSY and self._progress.kind:
            return self._go_through(self._progress)
        _test(call, code, OVERRUN)
        return code

    def _go_through(self, progress: Progress) -> int:
        """Goes on after each pause, unless the caller has set a limit, and adds what the run did. Returns the code behind them."""
        code, more, last = BUSY, Progress(), progress
        to_more = byref(more)
        while code == BUSY and self._is_whole:
            if last.kind or last.first_unlocked:
                self._lines += self._bytes(self._calls.camac_item)
            code, last = self._calls.camac_go_on(self._at, to_more), more
            if more.first_unlocked or more.event:
                progress.add(more)
        _test("go_on", code, BUSY)
        return code

    def limit_steps(self, most: int = NO_LIMIT) -> None:
        """Sets how many steps the run makes at once: in an answer or a `go_on`, after more, it pauses. Raises UsageFault if the number is not from 0 to
        4,294,967,295, which is no limit."""
        if not 0 <= most <= NO_LIMIT:
            raise UsageFault("limit_steps needs a number from 0 to 4294967295", 2)
        self._is_whole = most == NO_LIMIT
        _test("limit_steps", self._calls.camac_limit_steps(self._at, STEPS if self._is_whole else most))

    def is_busy(self) -> bool:
        """Whether the run pauses: it wants no answer, but `go_on`."""
        return bool(self._calls.camac_wants(self._at, self._to_want) == BUSY)

    def go_on(self) -> Progress:
        """Goes on after a pause, and returns what the run did: the crates to release, and the event if the service ended. It may pause again. The next
        call fills the same object again."""
        self._lines = b""
        code = self._calls.camac_go_on(self._at, self._to_progress)
        _test("go_on", code, BUSY, OVERRUN)
        if code == BUSY:
            self._go_through(self._progress)
        return self._progress

    def _give(self, answer: Answer) -> None:
        x, q, word, wait, gl = answer
        native.write_answer(self._answer, native.BEHIND_SIZE, word, gl, x, q, wait)
        self._lines = b""

    def words(self) -> Tuple[int, ...]:
        """The words of the event that the last answer left; none if it left none."""
        count = self._calls.camac_words(self._at, self._words, EVENT_WORDS)
        return tuple(self._words[:count])

    def item(self) -> str:
        """The lines of the listing for the last answer, as `camac run` writes them."""
        return (self._lines + self._bytes(self._calls.camac_item)).decode()

    def record(self) -> bytes:
        """The record of the event that the last answer left, as `camac run` writes it behind the header; nothing if it left none."""
        return self._bytes(self._calls.camac_record)

    def _bytes(self, call: Any) -> bytes:
        _test(call.__name__.replace("camac_", ""), call(self._at, self._room, self._longest, self._to_size))
        return self._written[: self._size.value].tobytes()

    def held(self) -> Tuple[int, ...]:
        """The crates whose lockout is held, the last that was taken first."""
        count = self._calls.camac_held(self._at, self._words, EVENT_WORDS)
        return tuple(self._words[:count])

    def where(self) -> Optional[Place]:
        """The service in progress, and the line of its statement that wants the next answer, or whose wait stopped it; None at a demand, and while
        the run pauses."""
        service, line = c_uint32(), c_uint32()
        _test("where", self._calls.camac_where(self._at, byref(service), byref(line)))
        return Place(service.value, line.value) if service.value else None

    def answers_left(self) -> int:
        """How many answers may still come."""
        return int(self._calls.camac_answers_left(self._at))

    def services(self) -> List[ServiceInfo]:
        """The services of the script, in its order."""
        found = []
        for number in range(self._calls.camac_services(self._at)):
            struct = native.ServiceStruct()
            _test("services", self._calls.camac_service(self._at, number + 1, byref(struct)))
            found.append(ServiceInfo(struct.name.decode(), *(getattr(struct, name) for name in ServiceInfo._fields[1:])))
        return found

    def abandon(self) -> Tuple[int, ...]:
        """Leaves the service in progress, as after a fault of the crates or an overrun, without an event. The run goes on at a demand, with the crates
        as they were at the one that called the service: what `back` tells is made before. Returns the crates whose lockout is to be released, in this
        order."""
        _test("abandon", self._calls.camac_abandon(self._at, self._words, EVENT_WORDS, self._to_size))
        return tuple(self._words[: self._size.value])

    def rewind(self) -> None:
        """Begins the run anew, without judging the script."""
        _test("rewind", self._calls.camac_rewind(self._at))

    def close(self) -> None:
        """Frees the run. To close twice is harmless."""
        self._calls.camac_close(self._at)

    def __enter__(self) -> "Session":
        return self

    def __exit__(self, *_raised: object) -> None:
        self.close()

    def __del__(self) -> None:
        if hasattr(self, "_at"):
            self.close()


def play(
    plan: File, script: File, branch: Union[Branch, str], events: Optional[File] = None, *, program: Optional[File] = None,
    timeout: Optional[float] = None, record: "Union[File, Recording, None]" = None, on_fault: Optional[OnFault] = None,
) -> RunEnd:
    """Plays a script against a branch, as `camac.drive` does, but in this process. `plan` may be "@sample". The event file is `events`, which
    must not hold bytes; without it none is written. Each event is there before the next operation is made. `record` is that of
    `camac.drive`. `program` and `timeout` are taken as `camac.drive` takes them; here the program has no part in the run, but lists the plan's widths.

    If the branch has a number `blocks`, a sum of Q_STOP, Q_REPEAT, SCAN and WRITES, its method `block` makes such block transfers: it takes a `Block`, and
    returns the answers of its first cycles, at least one.

    If an operation raises an exception, or its wait is an Overrun, `on_fault` is called with that and the place of the operation (None at a demand). If
    it returns True, `branch.cycle` sets inhibit and demand output back, the service is left without an event, its lockouts are released, and the run
    goes on at a demand. Else the run ends, as without `on_fault`. A branch whose class has a method `abandon`, as `camac.mock.Recorder`, is told so before:
    whether after an Overrun, which is in the place of the last answer.

    Returns how the run ended, and raises what `camac.drive` raises, with the texts of the program: what the branch raises, Refused,
    ProgramFault. The lockouts that are held then are released by `branch.unlock`, however the run ends, by a signal too, as `camac.drive` says."""
    branch = branch_of(branch, plan)
    if record is not None:
        from camac.record import Played, recorded

        played = Played(plan, script, events, IN_PROCESS)
        return recorded(record, played, branch, lambda watched: play(plan, script, watched, events, program=program, on_fault=on_fault))
    with Signals() as signals, Session(plan_text(plan), script_text(script)) as session, _event_file(events) as write:
        game = _Game(session, Lockouts(branch, signals), write, on_fault)
        try:
            end = signals.heed(game.serve)
            game.lockouts.release()
        except BaseException as error:
            game.lockouts.release_after(error)
            raise
        return signals.heed(lambda: game.seen.told(end, plan, program or IN_PROCESS))


# A block that the branch made, with its answers.
_Made = Tuple[Block, Tuple[Answer, ...]]


def commands_of(block: Block, answers: Iterable[Answer]) -> Iterator[Tuple[int, int, int, int]]:
    """Where the cycles of a block went, by their answers, with its function."""
    n, a = block.n, block.a
    for it in answers:
        yield block.c, n, a, block.f
        if block.mode == SCAN:
            n, a = (n, a + 1) if it.q and a < 15 else (n + 1, 0)


class _Game:
    """A run in progress: the session, the branch, the crates whose lockout is held, and what writes into the event file."""

    def __init__(self, session: Session, lockouts: Lockouts, write: Optional[Callable[[bytes], None]], on_fault: Optional[OnFault]) -> None:
        self.session, self.branch, self.write, self.lockouts, self.on_fault = session, lockouts.branch, write, lockouts, on_fault
        self.seen = seen_of(lockouts.branch)
        self.events = 0
        # A branch that hands all on by its names may seem to have any.
        blocks = getattr(self.branch, "blocks", 0)
        session.blocks(blocks if isinstance(blocks, int) else 0)
        self.make_block: Callable[[Block], Iterable[Answer]] = getattr(self.branch, "block", lambda _: ())

    def serve(self) -> RunEnd:
        """Has the branch make all that is wanted, and returns the end of the run."""
        progress, want = Progress(), self.session.wants()
        while want is not None:
            try:
                answer = self.make(want)
            except Exception as error:
                if not self.is_left(error):
                    raise
                want = self.session.wants()
                continue
            if answer is None:
                return RunEnd(Ending.ENDED, f"ended events {self.events}", self.events)
            try:
                progress, want = self.session.step(answer) if isinstance(answer, Answer) else self.take_block(*answer)
            except OverflowError:
                return RunEnd(Ending.REFUSED, SPENT_LINE)
            if progress.event or progress.first_unlocked:
                self.settle(progress)
            if want is None and self.is_left(Overrun(progress.c, progress.wait)):
                self.seen.take_back()
                want = self.session.wants()
        line = f"overrun {progress.c} wait {progress.wait} events {self.events}"
        return RunEnd(Ending.OVERRUN, line, self.events, progress.c, progress.wait)

    def make(self, want: Want) -> Union[Answer, _Made, None]:
        """Has the branch make an operation. Only a demand may be without an answer."""
        kind, c, n, a, f, data = native.read_want(want, native.BEHIND_SIZE)
        answer: Optional[Answer]
        if kind == BLOCK:
            words = self.session.block_words() if data == WRITE else None
            block = Block(want.mode, c, n, a, f, want.last_n, want.last_a, want.cycles, want.words, words)
            answers = tuple(self.make_block(block))
            if not answers or not all(isinstance(it, Answer) for it in answers):
                raise TypeError(f"the branch has to answer a block with one Answer or more, not {answers!r}")
            return block, answers
        if kind == CYCLE:
            answer = self.branch.cycle(c, n, a, f, want.word if data == WRITE else None)
        elif kind == DEMAND:
            answer = self.branch.demand()
        else:
            answer = self.lockouts.lock(c)
        if isinstance(answer, Answer):
            self.seen.answer((c, n, a, f) if kind == CYCLE else () if kind == DEMAND else (c,), answer)
            return answer
        if answer is None and kind == DEMAND:
            return answer
        raise TypeError(f"the branch has to answer an operation with an Answer, not {answer!r}")

    def take_block(self, block: Block, answers: Tuple[Answer, ...]) -> Tuple[Progress, Optional[Want]]:
        """Takes the answers of a block, and returns what the last one did, and what is wanted then."""
        progress, taken = self.session.block(answers)
        is_over = progress.kind == native.STOPPED
        if taken + is_over < len(answers):
            raise TypeError(f"the branch gave {len(answers)} answers to a block that ended with {taken + is_over}")
        for command, answer in zip(commands_of(block, answers), answers):
            self.seen.answer(command, answer)
        return progress, None if is_over else self.session.wants()

    def is_left(self, error: Exception) -> bool:
        """Leaves the service in which an operation failed, if `on_fault` says so: the crates are set back, and all lockouts released."""
        place = self.session.where()
        if not (isinstance(error, Left) and place) and not (self.on_fault and self.on_fault(error, place)):
            return False
        if place:
            tell_left(self.branch, isinstance(error, Overrun))
        for it in self.session.back():
            self.branch.cycle(it.c, it.n, it.a, it.f, None)
        self.session.abandon()
        while self.lockouts.held:
            self.lockouts.unlock(self.lockouts.held[-1])
        return True

    def settle(self, progress: Progress) -> None:
        """Does what an answer calls for: an event is written, so that it is there whatever comes, and lockouts are released."""
        if progress.event:
            self.events = progress.event
            if self.write:
                self.write(self.session.record())
        if progress.first_unlocked:
            for crate in progress.unlocked:
                self.lockouts.unlock(crate)


@contextlib.contextmanager
def _writes(path: File) -> Iterator[None]:
    """Raises a fault of the system in the program's words."""
    try:
        yield
    except OSError as why:
        raise file_fault("write", path, why) from why


def _write(path: File, file: FileIO, data: bytes) -> None:
    with _writes(path):
        while data:
            data = data[file.write(data) :]


@contextlib.contextmanager
def _event_file(path: Optional[File]) -> Iterator[Optional[Callable[[bytes], None]]]:
    """Yields a function that writes into an event file, behind its header. A file that holds bytes is refused, as by the program. At the end its bytes
    are on the disk."""
    if path is None:
        yield None
        return
    with _writes(path):
        file = open(path, "ab", buffering=0)
    with file:
        status = os.fstat(file.fileno())
        is_file = stat.S_ISREG(status.st_mode)
        if is_file and status.st_size:
            raise file_fault("write", path, "it holds bytes; a live run needs a file of its own")
        write = functools.partial(_write, path, file)
        write(NEW_FILE)
        yield write
        if is_file:
            with _writes(path):
                os.fsync(file.fileno())
