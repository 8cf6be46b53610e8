"""A branch without hardware: modules that answer by rules, auxiliary controllers that wait, and demands in an order that you give.

A module is a class with one method. This one holds a word: F16 writes it, F0 reads it, F9 clears it.

    class Latch(Module):
        word = 0

        def cycle(self, a, f, data):
            if f == 0:
                return Reply(word=self.word)
            if f in (9, 16):
                self.word = data or 0
                return Reply()
            return super().cycle(a, f, data)     # the commands of the look-at-me, and X = 0 for all others

`MockBranch` is a branch for `camac.drive`; `Faulty` adds faults to any branch, `Recorder` keeps what it was asked and what it answered, and
`Recorded` gives such answers again. All that is random comes from a seed, so that two runs are alike."""
import functools
import os
import random
import re
from typing import Dict, Iterable, Iterator, List, Mapping, NamedTuple, Optional, Set, TextIO, Tuple, Union

from camac.drive import Answer, Branch, File, Left, tell_left
from camac.functions import CONTROLLERS
from camac.printed import shown
from camac.subcommands import plan as read_plan
from camac.values import Declaration, Plan

Place = Tuple[int, int]
GREATEST_WORD = 0xFF_FFFF
ANSWER = re.compile(rb"([01]) ([01]) ([0-9a-fA-F]{6}) ([0-9a-fA-F]) ([0-9a-fA-F]{6})\n?")
# The line of a service that was left, and what stands for it among answers.
ABANDON, LEFT = "abandon", Answer()
INITIALISE, CLEAR = (28, 8, 26), (28, 9, 26)
INHIBIT_OFF, INHIBIT_ON = (30, 9, 24), (30, 9, 26)
DEMANDS_OFF, DEMANDS_ON = (30, 10, 24), (30, 10, 26)


class Reply(NamedTuple):
    """A module's reply to a dataway cycle: X, Q and the word on the read lines. A reply without more is that of an accepted command."""

    x: int = 1
    q: int = 1
    word: int = 0


NOT_ACCEPTED = Reply(0, 0)


class Module:
    """A module that has at most a look-at-me, whose commands are at sub-address `lam_at`: F8 tests it, F10 clears it, F24 and F26 disable
    and enable it. Models of modules are made from it."""

    def __init__(self, lam_at: Optional[int] = None) -> None:
        self.lam_at = lam_at
        self.lam = False
        self.lam_enabled = True

    def cycle(self, a: int, f: int, data: Optional[int]) -> Reply:
        """Replies to a dataway cycle; `data` is the word to write, of F16 to F23."""
        if a != self.lam_at or f not in (8, 10, 24, 26):
            return NOT_ACCEPTED
        if f == 8:
            return Reply(q=int(self.calls()))
        if f == 10:
            self.lam = False
        else:
            self.lam_enabled = f == 26
        return Reply()

    def calls(self) -> bool:
        """Whether the module raises its L line."""
        return self.lam and self.lam_enabled

    def trigger(self) -> None:
        """What the experiment does to the module: it raises its look-at-me."""
        self.lam = self.lam_at is not None

    def clear(self) -> None:
        """C of the dataway: the look-at-me is cleared."""
        self.lam = False

    def initialise(self) -> None:
        """Z of the dataway: the module is cleared, and its look-at-me disabled."""
        self.clear()
        self.lam_enabled = False


class _Channels(Module):
    """Words by sub-address: F0 reads one, F9 clears all. Sub-addresses that have no channel answer Q = 0, which ends a scan."""

    def __init__(self, channels: int, lam_at: Optional[int]) -> None:
        super().__init__(lam_at)
        self.words = [0] * channels

    def clear(self) -> None:
        super().clear()
        self.words = [0] * len(self.words)

    def read_and_clear(self, a: int) -> None:
        """What F2 clears once it has read a channel."""
        self.words[a] = 0

    def cycle(self, a: int, f: int, data: Optional[int]) -> Reply:
        if f in (0, 2):
            reply = Reply(word=self.words[a]) if a < len(self.words) else Reply(q=0)
            if f == 2 and a < len(self.words):
                self.read_and_clear(a)
            return reply
        if f == 9:
            self.clear()
            return Reply()
        return super().cycle(a, f, data)


class Adc(_Channels):
    """A converter. A trigger converts all channels anew: a channel that was hit has a word about its peak, any other one about its
    pedestal. F0 reads a channel; F2 reads the last one and clears the module, as F9 does.

    `hits` is the share of channels that are hit, from 0 to 1; `spread` is the standard deviation of pedestal and peak."""

    def __init__(
        self, channels: int = 12, width: int = 12, pedestal: float = 100.0, peak: float = 1800.0, spread: float = 20.0, hits: float = 0.3,
        seed: int = 1, lam_at: Optional[int] = 12,
    ) -> None:
        super().__init__(channels, lam_at)
        self.greatest = (1 << width) - 1
        self.pedestal, self.peak, self.spread, self.hits = pedestal, peak, spread, hits
        self.random = random.Random(seed)

    def convert(self) -> int:
        middle = self.peak if self.random.random() < self.hits else self.pedestal
        return min(max(round(self.random.gauss(middle, self.spread)), 0), self.greatest)

    def trigger(self) -> None:
        super().trigger()
        self.words = [self.convert() for _ in self.words]

    def read_and_clear(self, a: int) -> None:
        if a == len(self.words) - 1:
            self.clear()


class Scaler(_Channels):
    """A scaler. A trigger adds up to `rate` counts to each channel of 24 bits. F0 reads a channel, F2 reads and clears it, F9 clears all,
    F25 counts all up by one."""

    def __init__(self, channels: int = 12, rate: int = 1000, seed: int = 1, lam_at: Optional[int] = 0) -> None:
        super().__init__(channels, lam_at)
        self.random = random.Random(seed)
        self.rate = rate

    @property
    def counts(self) -> List[int]:
        return self.words

    @counts.setter
    def counts(self, counts: List[int]) -> None:
        self.words = counts

    def count(self, channel: int, more: int) -> None:
        self.words[channel] = (self.words[channel] + more) & GREATEST_WORD

    def trigger(self) -> None:
        super().trigger()
        for channel in range(len(self.words)):
            self.count(channel, self.random.randint(0, self.rate))

    def cycle(self, a: int, f: int, data: Optional[int]) -> Reply:
        if f == 25:
            for channel in range(len(self.words)):
                self.count(channel, 1)
            return Reply()
        return super().cycle(a, f, data)


class Register(Module):
    """An output register at sub-address 0. F0 reads it, F16 writes it whole, F18 and F21 set and clear the bits that are 1 in the data,
    F27 answers Q = 1 if it is not 0. It keeps as many bits as it is wide."""

    def __init__(self, width: int = 24, lam_at: Optional[int] = None) -> None:
        super().__init__(lam_at)
        self.greatest = (1 << width) - 1
        self.word = 0

    def cycle(self, a: int, f: int, data: Optional[int]) -> Reply:
        if a != 0 or f not in (0, 16, 18, 21, 27):
            return super().cycle(a, f, data)
        if data is not None:
            after = {16: data, 18: self.word | data, 21: self.word & ~data}[f]
            self.word = after & self.greatest
        return Reply(q=int(self.word != 0) if f == 27 else 1, word=self.word if f == 0 else 0)


class Memory(Module):
    """A memory with an address counter. F16 at sub-address 1 sets the counter. F16 at sub-address 0 writes a word, and F0 there reads one;
    each counts up. Past the last word the answer is Q = 0, which ends a block."""

    def __init__(self, size: int = 1024, lam_at: Optional[int] = None) -> None:
        super().__init__(lam_at)
        self.words = [0] * size
        self.at = 0

    def cycle(self, a: int, f: int, data: Optional[int]) -> Reply:
        if (a, f) == (1, 16):
            self.at = data or 0
            return Reply()
        if a != 0 or f not in (0, 16):
            return super().cycle(a, f, data)
        if self.at >= len(self.words):
            return Reply(q=0)
        if f == 16:
            self.words[self.at] = data or 0
        self.at += 1
        return Reply(word=self.words[self.at - 1] if f == 0 else 0)


class Declared(Module):
    """A module that accepts what its type in a plan declares, and nothing else. Each read has a word of the register's width: what was
    written there (F16, F17), else a number that looks random. F27 answers Q = 1 in half of the tests, and a probe Q = 0. F8, F10, F24 and
    F26 are those of a look-at-me, wherever they are declared; a command that clears by the plan takes it away, too."""

    def __init__(self, declarations: Iterable[Declaration], seed: int = 1) -> None:
        super().__init__(lam_at=0)
        self.random = random.Random(seed)
        self.declared = {(it.function, a): it for it in declarations for a in range(it.first, it.last + 1)}
        self.words: Dict[int, int] = {}

    def cycle(self, a: int, f: int, data: Optional[int]) -> Reply:
        declaration = self.declared.get((f, a))
        if declaration is None:
            return NOT_ACCEPTED
        if declaration.is_probe:
            return Reply(q=0)
        if f in (8, 10, 24, 26):
            return super().cycle(0, f, data)
        if f == 27:
            return Reply(q=self.random.randint(0, 1))
        if declaration.clears:
            self.clear()
        if data is not None:
            self.words[a] = data
        return Reply(word=self.words[a] if a in self.words else self.random.getrandbits(declaration.width or 24)) if f < 8 else Reply()


class Auxiliary:
    """The auxiliary controllers of a crate: before each of our cycles they take up to `greatest` (0 to 15) of their own. They keep the
    lockout, unless `ignores_lockout`."""

    def __init__(self, greatest: int, seed: int = 1, ignores_lockout: bool = False) -> None:
        self.greatest, self.ignores_lockout = greatest, ignores_lockout
        self.random = random.Random(seed)

    def wait(self, is_locked: bool) -> int:
        """How many cycles of theirs come before our next one."""
        return 0 if is_locked and not self.ignores_lockout else self.random.randint(0, self.greatest)


class MockBranch:
    """A branch for `camac.drive`.

    modules      the module at each (crate, station)
    gl           the bit of the graded-L pattern, 1 to 24, of each (crate, station) that has one, as in the plan
    triggers     before each graded-L operation, the next element triggers the modules at these places; () triggers none. When all are
                 used up, `demand` answers None, and the run ends. A look-at-me stays raised until the script clears it
    auxiliaries  the auxiliary controllers of each crate that has some

    `MockBranch.of_plan` takes bits and waits from a plan. Without a module X is 0.

    Z and C (the commands at station 28) initialise and clear all modules of the crate. Z also sets inhibit and disables the demand output
    of the crate. A crate whose demand output is disabled adds no bits to a demand, and in one with inhibit nothing is triggered."""

    def __init__(
        self, modules: Mapping[Place, Module], gl: Mapping[Place, int], triggers: Iterable[Iterable[Place]] = (),
        auxiliaries: Optional[Mapping[int, Auxiliary]] = None,
    ) -> None:
        self.modules, self.gl = dict(modules), dict(gl)
        self.triggers = iter(triggers)
        self.auxiliaries: Dict[int, Auxiliary] = dict(auxiliaries or {})
        self.locked: Set[int] = set()
        self.inhibited: Set[int] = set()
        self.silent: Set[int] = set()

    @classmethod
    def of_plan(
        cls, plan: Union[File, Plan], modules: Mapping[Place, Module], triggers: Iterable[Iterable[Place]] = (), *, is_cold: bool = False
    ) -> "MockBranch":
        """A branch with these modules at stations of a plan: graded-L bits are the plan's, and in each crate auxiliary controllers wait as
        long as the plan's `waits` allows. Where `is_cold`, each crate is as after Z: inhibit on, its demand output and all look-at-mes
        disabled. So nothing calls before a start has enabled it.

        Raises ValueError if the plan has no such station, and what `camac.plan` raises."""
        listed = plan if isinstance(plan, Plan) else read_plan(plan)
        stations = {(crate.number, it.number): it.gl for crate in listed.crates for it in crate.stations}
        for place in modules:
            if place not in stations:
                raise ValueError(f"the plan has no station {place[1]} in a crate {place[0]}")
        gl = {place: bit for place, bit in stations.items() if bit and place in modules}
        auxiliaries = {it.number: Auxiliary(it.waits, seed=it.number) for it in listed.crates if it.waits}
        branch = cls(modules, gl, triggers, auxiliaries)
        for crate in listed.crates if is_cold else ():
            branch.initialise(crate.number)
        return branch

    def pattern(self) -> int:
        """The graded-L pattern of all modules whose look-at-me is raised."""
        return sum(1 << (bit - 1) for bit in {bit for place, bit in self.gl.items() if self.modules[place].calls()})

    def wait(self, crate: int) -> int:
        auxiliary = self.auxiliaries.get(crate)
        return auxiliary.wait(crate in self.locked) if auxiliary else 0

    def demand(self) -> Optional[Answer]:
        places = next(self.triggers, None)
        if places is None:
            return None
        for place in places:
            self.trigger(place)
        return Answer(gl=self.demanded())

    def trigger(self, place: Place) -> None:
        """Triggers the module there, unless its crate has inhibit."""
        if place[0] not in self.inhibited:
            self.modules[place].trigger()

    def demanded(self) -> int:
        """The graded-L pattern without the crates whose demand output is disabled."""
        return self.pattern() & ~sum(1 << (bit - 1) for (crate, _), bit in self.gl.items() if crate in self.silent)

    def cycle(self, c: int, n: int, a: int, f: int, data: Optional[int]) -> Answer:
        wait = self.wait(c)
        if n in CONTROLLERS:
            return self.control(c, (n, a, f), wait)
        module = self.modules.get((c, n))
        reply = module.cycle(a, f, data) if module else NOT_ACCEPTED
        return Answer(reply.x, reply.q, reply.word, wait)

    def control(self, c: int, command: Tuple[int, int, int], wait: int) -> Answer:
        """A command of the crate's controller, of whose reply only the wait and the pattern count."""
        if command == INITIALISE:
            self.initialise(c)
        elif command == CLEAR:
            for module in self.modules_of(c):
                module.clear()
        elif command in (INHIBIT_OFF, INHIBIT_ON):
            (self.inhibited.add if command == INHIBIT_ON else self.inhibited.discard)(c)
        elif command in (DEMANDS_OFF, DEMANDS_ON):
            (self.silent.add if command == DEMANDS_OFF else self.silent.discard)(c)
        return Answer(wait=wait, gl=self.pattern())

    def modules_of(self, c: int) -> List[Module]:
        return [module for (crate, _), module in self.modules.items() if crate == c]

    def initialise(self, c: int) -> None:
        for module in self.modules_of(c):
            module.initialise()
        self.inhibited.add(c)
        self.silent.add(c)

    def lock(self, c: int) -> Answer:
        wait = self.wait(c)
        self.locked.add(c)
        return Answer(wait=wait)

    def unlock(self, c: int) -> None:
        self.locked.remove(c)


class Faulty:
    """Another branch with faults, which come at random from a seed. `counts` has how often each came. Shares are 0 to 1, of cycles at modules or of
    demands; without a share, or with 0, a fault never comes.

    no_x, no_q         the share of replies that lose X (and with it Q and the word), or Q alone
    flip               the share of words read in which one bit is wrong
    stuck_1, stuck_0   bits that are 1, or 0, in each word read
    ghost, ghost_gl    the share of demands with look-at-mes that no module raised, and their bits of the pattern
    long_wait          the share of cycles before which auxiliary controllers take 15
    silent_after       so many operations are answered; then each one raises TimeoutError, as a controller that does not answer"""

    def __init__(
        self, branch: Branch, *, seed: int = 1, no_x: float = 0.0, no_q: float = 0.0, flip: float = 0.0, stuck_1: int = 0, stuck_0: int = 0,
        ghost: float = 0.0, ghost_gl: int = 0, long_wait: float = 0.0, silent_after: Optional[int] = None,
    ) -> None:
        self.branch, self.random, self.unlock = branch, random.Random(seed), branch.unlock
        self.shares = {"no_x": no_x, "no_q": no_q, "flip": flip, "ghost": ghost, "long_wait": long_wait}
        self.stuck_1, self.stuck_0, self.ghost_gl, self.left = stuck_1, stuck_0, ghost_gl, silent_after
        self.counts = dict.fromkeys(self.shares, 0)

    def abandon(self, is_overrun: bool) -> None:
        tell_left(self.branch, is_overrun)

    def comes(self, fault: str) -> bool:
        """Whether a fault comes now, which is counted."""
        share = self.shares[fault]
        found = share > 0 and self.random.random() < share
        self.counts[fault] += found
        return found

    def answers(self) -> None:
        """Raises TimeoutError if the controller is silent."""
        if self.left is not None:
            self.left -= 1
            if self.left < 0:
                raise TimeoutError("the controller does not answer")

    def demand(self) -> Optional[Answer]:
        self.answers()
        answer = self.branch.demand()
        return answer._replace(gl=answer.gl | self.ghost_gl) if answer and self.comes("ghost") else answer

    def cycle(self, c: int, n: int, a: int, f: int, data: Optional[int]) -> Answer:
        self.answers()
        answer = self.branch.cycle(c, n, a, f, data)
        if self.comes("long_wait"):
            answer = answer._replace(wait=15)
        if n in CONTROLLERS:
            return answer
        if self.comes("no_x"):
            return answer._replace(x=0, q=0, word=0)
        if self.comes("no_q"):
            answer = answer._replace(q=0)
        if f >= 8:
            return answer
        wrong = 1 << self.random.randrange(24) if self.comes("flip") else 0
        return answer._replace(word=(answer.word | self.stuck_1) & ~self.stuck_0 ^ wrong)

    def lock(self, c: int) -> Answer:
        self.answers()
        return self.branch.lock(c)


class Operation(NamedTuple):
    """What a branch was asked, as the program's line says it, and its answer: None of an unlock, of a demand that ended the run, and of a service that was
    left."""

    request: str
    answer: Optional[Answer]

    def line(self) -> str:
        """Its line in an answer file; none of what has no answer."""
        return f"{self.answer.line()}\n" if self.answer else f"{ABANDON}\n" if self.request == ABANDON else ""


class Recorder:
    """A branch that hands all on to another branch, and keeps it. `answer_lines` is an answer file: `camac run` and `Recorded` play it without
    the branch, and make the same event file. Where `camac.play` leaves a service they have a line `abandon`.

    With `file`, a file open for writing text, each answer goes there as its line, and nothing is kept: so a run may be of any length."""

    def __init__(self, branch: Branch, file: Optional[TextIO] = None) -> None:
        self.branch, self.file = branch, file
        self.operations: List[Operation] = []
        # What sets the crates back after a service that was left is no part of the run.
        self.is_left = False

    def keep(self, request: str, answer: Optional[Answer]) -> None:
        self.is_left = self.is_left and request != "demand"
        if self.is_left:
            return
        made = Operation(request, answer)
        if self.file is None:
            self.operations.append(made)
        else:
            self.file.write(made.line())

    def abandon(self, is_overrun: bool) -> None:
        """Keeps that the service in progress is left: in the place of the last answer after a wait that was not permitted."""
        tell_left(self.branch, is_overrun)
        if is_overrun and self.file:
            self.file.seek(self.file.tell() - len(Answer().line()) - 1)
            self.file.truncate()
        elif is_overrun:
            self.operations.pop()
        self.keep(ABANDON, None)
        self.is_left = True

    def demand(self) -> Optional[Answer]:
        answer = self.branch.demand()
        self.keep("demand", answer)
        return answer

    def cycle(self, c: int, n: int, a: int, f: int, data: Optional[int]) -> Answer:
        answer = self.branch.cycle(c, n, a, f, data)
        move = "in" if f < 8 else "none" if data is None else f"out {data:06x}"
        self.keep(f"cycle {c} {n} {a} {f} {move}", answer)
        return answer

    def lock(self, c: int) -> Answer:
        answer = self.branch.lock(c)
        self.keep(f"lock {c}", answer)
        return answer

    def unlock(self, c: int) -> None:
        self.branch.unlock(c)
        self.keep(f"unlock {c}", None)

    def answer_lines(self) -> str:
        """The answers, one in a line, as `camac run` reads them."""
        return "".join(it.line() for it in self.operations)


class Recorded:
    """A branch that gives the answers of a recorded run, one after another: those of an answer file, of any length. With the plan and the script
    of that run `camac.play` and `camac.drive` make the same event file, and leave the services that it left. A demand behind the last answer ends the
    run.

    Raises OSError if the file cannot be read; later, from an operation, ValueError with file and line at a line that is no answer, and
    EOFError if the answers end inside a service, which then leaves no event."""

    def __init__(self, file: File) -> None:
        self._answers = _read_answers(file)
        next(self._answers)
        self._is_left = False

    def demand(self) -> Optional[Answer]:
        self._is_left = False
        answer = next(self._answers, None)
        if answer is LEFT:
            raise ValueError("the recorded answers leave a service where none is")
        return answer

    def _answer(self) -> Answer:
        answer = next(self._answers, None) if not self._is_left else LEFT
        if answer is None:
            raise EOFError("the recorded answers end inside a service")
        if answer is LEFT and not self._is_left:
            self._is_left = True
            raise Left("the recorded run left its service here")
        return answer

    def cycle(self, c: int, n: int, a: int, f: int, data: Optional[int]) -> Answer:
        return self._answer()

    def lock(self, c: int) -> Answer:
        return self._answer()

    def unlock(self, c: int) -> None:
        pass


def _read_answers(file: File) -> Iterator[Optional[Answer]]:
    """Opens a file and yields None, then its answers, and LEFT where a service was left."""
    with open(file, "rb") as lines:
        yield None
        for number, line in enumerate(lines, 1):
            try:
                answer = _read_answer(line)
            except ValueError:
                raise ValueError(f"{os.fsdecode(file)}:{number}: this is no answer: {shown(line[:100].decode('utf-8', 'replace'))}") from None
            yield answer


# Many answers of a run are alike.
@functools.lru_cache(maxsize=65_536)
def _read_answer(line: bytes) -> Answer:
    if line.rstrip(b"\n") == ABANDON.encode():
        return LEFT
    found = ANSWER.fullmatch(line)
    if found is None:
        raise ValueError
    x, q, word, wait, gl = (int(it, 16) for it in found.groups())
    return Answer(x, q, word, wait, gl)
