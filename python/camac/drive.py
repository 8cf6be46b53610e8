"""Live runs: a branch driver in Python makes the operations that a checked script asks for.

`drive` starts the program as `camac drive PLAN SCRIPT EVENTS`, reads its requests, has the branch make each of them, and hands on the
answer. docs/LIVE.md describes the requests, and what a driver has to keep."""
import operator
import os
import select
from typing import TYPE_CHECKING, List, NamedTuple, NoReturn, Optional, Protocol, Union

from camac.events import Path
from camac.printed import REFUSAL, read_end, read_request
from camac.values import Ending, Refusal, Request, RunEnd

if TYPE_CHECKING:
    import subprocess

    from camac.record import Recording
    from camac.signals import Signals

File = Path
GREATEST_LINE = 4096
GREATEST = {"x": 1, "q": 1, "word": 0xFF_FFFF, "wait": 15, "gl": 0xFF_FFFF}
# The most seconds that a wait of the system takes.
GREATEST_TIMEOUT = 2_147_483
# After a failure the program has so many seconds at most for its end, before it is killed.
PATIENCE = 60.0
LINE = "%d %d %06x %x %06x"
BYTES = LINE.encode() + b"\n"
_Numbers = NamedTuple("_Numbers", [("x", int), ("q", int), ("word", int), ("wait", int), ("gl", int)])


class Answer(_Numbers):
    """What an operation of the branch gave. A field that the operation does not need stays 0.

    x, q    of the reply to a dataway cycle, each 0 or 1 (False and True serve as well)
    word    the 24 read lines, of a cycle that reads
    wait    how many cycles of auxiliary controllers came before this cycle or lockout: 0 to 15
    gl      the graded-L pattern of all crates; bit k of the plan has the value 2^(k-1)

    Raises ValueError for a number out of its range, and TypeError for what is no whole number."""

    __slots__ = ()

    def __new__(cls, x: int = 0, q: int = 0, word: int = 0, wait: int = 0, gl: int = 0) -> "Answer":
        try:
            # One test for all: it takes a third of the time of one for each.
            is_good = not ((x | q) >> 1 or wait >> 4 or (word | gl) >> 24)
        except TypeError:
            is_good = False
        self = tuple.__new__(cls, (x, q, word, wait, gl))
        # What is wrong is looked for if something is.
        for name, greatest in GREATEST.items() if not is_good else ():
            number = operator.index(getattr(self, name))
            if not 0 <= number <= greatest:
                raise ValueError(f"{name} of an answer is 0 to {greatest}, not {number}")
        return self

    if not TYPE_CHECKING:

        @classmethod
        def _make(cls, numbers):
            # `_replace` calls it.
            return cls(*numbers)

    def line(self) -> str:
        """The answer as a line of an answer file, without its LF."""
        return LINE % self


class Branch(Protocol):
    """What `drive` calls: a class of yours that makes the operations on your branch. It needs no base class."""

    def demand(self) -> Optional[Answer]:
        """Makes a graded-L operation, and answers `gl`. It may wait for the branch demand first: the script does nothing meanwhile. None
        says that no more demands are served, which ends the run."""

    def cycle(self, c: int, n: int, a: int, f: int, data: Optional[int]) -> Answer:
        """Makes one dataway cycle in crate c, and answers x, q and wait, and the word if it reads. `data` is the word to write if f
        is 16 to 23. It is None if f is 0 to 7, which reads, and if no data moves. Of the controller's commands (n is 28 or 30)
        the wait counts, and for 30 0 0 and 30 11 27 also `gl`."""

    def lock(self, c: int) -> Answer:
        """Takes the lockout of crate c, and answers the wait. If it raises an exception, the crate is not locked."""

    def unlock(self, c: int) -> None:
        """Releases the lockout of crate c."""


class Left(Exception):
    """What a branch raises in a cycle or in the lock of a crate to leave the service in progress: the run goes on at a demand."""


def tell_left(branch: object, is_overrun: bool) -> None:
    """Tells a branch that the service in progress is left, if its class has a method `abandon`; and whether after a wait that was not permitted."""
    tell = getattr(type(branch), "abandon", None)
    if tell:
        tell(branch, is_overrun)


STATUS = {Ending.ENDED: 0, Ending.SHORT: 0, Ending.OVERRUN: 1, Ending.REFUSED: 1}


class DriveFault(Exception):
    """A run that failed for another cause than an exception of the branch."""


class Refused(DriveFault):
    """Plan or script was refused before the first request: the code of the rule, the line (None for a plan), and the rule in
    words."""

    def __init__(self, printed: str) -> None:
        line = printed.partition("\n")[0]
        super().__init__(line)
        self.printed = printed
        self.code, self.line, self.rule, _ = REFUSAL.read(line) or Refusal("", None, line)


class ProgramFault(DriveFault):
    """The program failed: its text on standard error, its status, and the end of the run where the last line came before the fault."""

    def __init__(self, text: str, status: int, end: Optional[RunEnd] = None) -> None:
        super().__init__(text or f"camac ended with status {status}")
        self.text, self.status, self.end = text, status, end


def file_fault(what: str, name: File, why: Union[OSError, str]) -> ProgramFault:
    """The fault of a file that cannot be opened, read or written (`what` is "read" or "write"), in the program's words."""
    reason = why if isinstance(why, str) else why.strerror or str(why)
    return ProgramFault(f"fault {what}\n  {os.fsdecode(name)}: {reason}", 3)


def one_line(fault: BaseException) -> str:
    """A fault whose second line names a file, in one line."""
    return str(fault).replace("\n  ", ": ")


class UsageFault(ProgramFault):
    """The program did not understand its words (status 2): @in as plan or script, or a program without `drive`."""


def fault_of(errors: str, status: int, end: Optional[RunEnd] = None) -> ProgramFault:
    return UsageFault(errors, status) if status == 2 else ProgramFault(errors, status, end)


class ProtocolFault(DriveFault):
    """The program wrote a line that is no request, or ended without a last line."""


class TimeFault(DriveFault):
    """The program wrote no line in the time that it was given. It was killed."""


def find_program(program: Optional[File] = None) -> File:
    """The program camac: the one given, else the one that the environment variable CAMAC_PROGRAM names, else `camac` in PATH, else `camac` at the
    top of the clone that this package is in. Raises FileNotFoundError if there is none."""
    found = program or os.environ.get("CAMAC_PROGRAM")
    if found:
        return found
    import shutil

    found = shutil.which("camac")
    if found:
        return found
    package = os.path.dirname(os.path.realpath(__file__))
    launcher = os.path.join(os.path.dirname(os.path.dirname(package)), "camac")
    if os.path.isfile(launcher):
        return launcher
    raise FileNotFoundError("the program camac is not in PATH, and CAMAC_PROGRAM is not set")


def branch_of(branch: Union[Branch, str], plan: File) -> Branch:
    """A branch, or the one that a name stands for."""
    if not isinstance(branch, str):
        return branch
    # Drivers need what this module declares, as the record does.
    from camac.drivers import driver

    return driver(branch, plan)


def drive(
    plan: File, script: File, branch: Union[Branch, str], events: File, *, program: Optional[File] = None, timeout: Optional[float] = None,
    record: "Union[File, Recording, None]" = None,
) -> RunEnd:
    """Plays a script against a branch, and returns how the run ended. `branch` may also be the name of a driver, as "mcstd:libhyt1331.so"
    (`camac.driver`), and `plan` "@sample". `events` must not hold bytes. `record` is a file
    for the record of the run (`camac.record`), which must not hold bytes either. A `Recording` gives the run a number and a title, too.

    `program` is found by `find_program` unless given; if there is none, the library plays the run in this process. `timeout` is how many seconds
    the program may take for its next line, and for its end; the time that the branch takes does not count. It is 0 to 2,147,483; without it the
    program may take as long as it does.

    The lockouts that are held when the requests end are released by `branch.unlock`, however the run ends. So they are after Ctrl-C
    (KeyboardInterrupt), and after SIGTERM and SIGHUP, which raise SystemExit here. A signal inside `branch.lock` may come after the lockout was
    taken, so this one is released too. One inside `branch.unlock` waits until that is done. In a thread that is not the main one Python lets no
    function see to signals: there they do what they did before.

    Raises what the branch raises. The run ends first: the events of all services that ended are in the file. Raises Refused,
    UsageFault, ProgramFault, ProtocolFault or TimeFault, all of them DriveFault, OSError if the program cannot be started, and
    ValueError, with nothing started, for a timeout out of its range."""
    if timeout is not None and not 0 <= timeout <= GREATEST_TIMEOUT:
        raise ValueError(f"a timeout is 0 to {GREATEST_TIMEOUT} seconds, not {timeout}")
    branch = branch_of(branch, plan)
    if record is not None:
        from camac.record import Played, recorded

        played = Played(plan, script, events, program)
        return recorded(record, played, branch, lambda watched: drive(plan, script, watched, events, program=program, timeout=timeout))
    try:
        found = find_program(program)
    except FileNotFoundError:
        from camac import library

        if not library.is_there():
            raise
        return library.play(plan, script, branch, events)
    from camac.signals import Signals

    with Signals() as signals, _Program([found, "drive", "--", plan, script, events], timeout) as started:
        run = _Run(started, branch, signals)
        try:
            end = signals.heed(run.serve)
            run.lockouts.release()
        except BaseException as error:
            run.abandon(error)
        return signals.heed(lambda: run.seen.told(started.end(end), plan, found))


class Lockouts:
    def __init__(self, branch: Branch, signals: "Signals") -> None:
        self.branch, self.signals = branch, signals
        self.held: List[int] = []

    def lock(self, crate: int) -> Answer:
        """Takes a lockout. If that fails it is not held; if a signal came into it it may be."""
        self.held.append(crate)
        try:
            return self.branch.lock(crate)
        except Exception:
            self.held.remove(crate)
            raise

    def unlock(self, crate: int) -> None:
        """Releases a lockout. If that fails, it is still held. Signals wait until it is known."""
        self.signals.hold(self._unlock, crate)

    def _unlock(self, crate: int) -> None:
        self.branch.unlock(crate)
        if crate in self.held:
            self.held.remove(crate)

    def release(self) -> None:
        """Releases all that is held, the last first, where signals wait. Each is tried; the first failure is raised."""
        failure: Optional[BaseException] = None
        while self.held:
            try:
                self.branch.unlock(self.held.pop())
            except BaseException as error:
                failure = failure or error
        if failure:
            raise failure

    def release_after(self, error: BaseException) -> None:
        """Releases all that is held in a run that failed. What fails here is a note of that error."""
        try:
            self.release()
        except BaseException as other:
            add_note(error, f"a lockout could not be released either: {other!r}")


class _Run:
    """A run in progress: the program, the branch, and the crates whose lockout is held."""

    def __init__(self, program: "_Program", branch: Branch, signals: "Signals") -> None:
        # What calls no branch does not need this module.
        from camac.contradictions import seen_of

        self.program, self.branch, self.lockouts, self.seen = program, branch, Lockouts(branch, signals), seen_of(branch)
        self.is_open = True

    def serve(self) -> Optional[RunEnd]:
        """Has the branch make all that is requested, and returns the end by the last line, or None if there is no last line."""
        while (line := self.program.read_line()) is not None:
            if request := read_request(line):
                self.answer(line, request)
            elif end := read_end(line.decode(errors="replace")):
                return end
            else:
                raise ProtocolFault(f"camac wrote what is no request: {line!r}")
        return None

    def answer(self, line: bytes, request: Request) -> None:
        """Has the branch answer a request, and hands that on. If it has no more answers to give, the input is ended."""
        answer: Optional[Answer]
        if request.kind == "unlock":
            self.lockouts.unlock(*request.at)
            return
        if not self.is_open:
            raise ProtocolFault(f"camac wrote a request after the end of its input: {line!r}")
        try:
            if request.kind == "cycle":
                answer = self.branch.cycle(*request.at)
            elif request.kind == "lock":
                answer = self.lockouts.lock(*request.at)
            else:
                answer = self.branch.demand()
                if answer is None:
                    self.is_open = False
                    self.program.stdin.close()
                    return
        except Left:
            tell_left(self.branch, False)
            self.lockouts.release()
            self.hand_on(b"abandon\n")
            return
        if answer is None:
            raise TypeError(f"the branch has to answer {line.decode()!r}: only a demand may be without an answer")
        if not isinstance(answer, Answer):
            raise TypeError(f"the branch has to answer {line.decode()!r} with an Answer, not {answer!r}")
        self.seen.answer(request.at[:4], answer)
        self.hand_on(BYTES % answer)

    def hand_on(self, line: bytes) -> None:
        """Gives the program a line of answers."""
        try:
            self.program.stdin.write(line)
        except BrokenPipeError:
            pass  # a program that takes it no more says why at its end

    def abandon(self, error: BaseException) -> NoReturn:
        """Ends a run that failed: lockouts are released, the program comes to its end, and what failed is raised."""
        self.lockouts.release_after(error)
        if isinstance(error, (ProtocolFault, TimeFault)):
            self.program.kill()
        else:
            try:
                self.program.end(self.program.skip_to_end())
            except DriveFault as fault:
                add_note(error, f"and camac: {fault}")
        raise error


class _Program:
    """The program at work, with its standard streams. Its standard error is kept in a file, so that it can be of any length."""

    def __init__(self, words: List[File], timeout: Optional[float]) -> None:
        # It takes long to load.
        import subprocess

        self.timeout = timeout
        self.errors = open(os.memfd_create("stderr"), "r+b")
        try:
            # A session of its own: Ctrl-C reaches Python alone, which then ends the run.
            self.process: "subprocess.Popen[bytes]" = subprocess.Popen(
                words, bufsize=0, stdin=subprocess.PIPE, stdout=subprocess.PIPE, stderr=self.errors, start_new_session=True
            )
        except BaseException:
            self.errors.close()
            raise
        assert self.process.stdin and self.process.stdout
        self.stdin, self.stdout = self.process.stdin, self.process.stdout
        self.unread = b""
        self.poll = select.poll()
        self.poll.register(self.stdout, select.POLLIN)

    def __enter__(self) -> "_Program":
        return self

    def __exit__(self, *_raised: object) -> None:
        self.kill()
        self.stdin.close()
        self.stdout.close()
        self.errors.close()

    def read_line(self) -> Optional[bytes]:
        """Returns the next line without its LF, or None at the end of the output. A line that was cut is none."""
        line, found, rest = self.unread.partition(b"\n")
        while not found:
            if self.timeout is not None and not self.poll.poll(self.timeout * 1000):
                raise TimeFault(f"camac wrote no line in {self.timeout} seconds")
            piece = self.stdout.read(65_536)
            if not piece:
                self.unread = b""
                return None
            line, found, rest = (line + piece).partition(b"\n")
            if len(line) > GREATEST_LINE:
                raise ProtocolFault(f"camac wrote a line of more than {GREATEST_LINE} bytes")
        self.unread = rest
        return line

    def skip_to_end(self) -> Optional[RunEnd]:
        """Ends the input, reads all output, and returns the end by its last line. The program has some time for that."""
        self.stdin.close()
        self.timeout = PATIENCE if self.timeout is None else min(self.timeout, PATIENCE)
        end = None
        while (line := self.read_line()) is not None:
            end = read_end(line.decode(errors="replace"))
        return end

    def end(self, end: Optional[RunEnd]) -> RunEnd:
        """Waits for the program's end. Returns the end of the run where the status and standard error agree, or raises the fault."""
        self.stdin.close()
        more = self.read_line()
        if more is not None:
            raise ProtocolFault(f"camac wrote a line after its last one: {more!r}")
        import subprocess

        try:
            status = self.process.wait(self.timeout)
        except subprocess.TimeoutExpired:
            raise TimeFault(f"camac did not end in {self.timeout} seconds") from None
        self.errors.seek(0)
        if status not in (0, 1):
            raise fault_of(self.errors.read().decode(errors="replace").rstrip("\n"), status, end)
        if end is None:
            raise ProtocolFault("camac ended without a last line")
        if status != STATUS[end.how]:
            raise ProtocolFault(f"camac ended with status {status} after {end.line!r}")
        if end.is_refused_script():
            raise Refused(end.line)
        return end

    def kill(self) -> None:
        if self.process.poll() is None:
            self.process.kill()
        self.process.wait()


def add_note(error: BaseException, note: str) -> None:
    """Adds a line to what an exception says, if Python can (from 3.11 on)."""
    if hasattr(error, "add_note"):
        error.add_note(note)
