"""What contradicts the plan in a run: X = 0 at a declared command, bits of a word above the width of its register, bits of a demand that no station has,
and calls sooner than the rates that were told. It is counted here alone. And how late services ended: the cycles from a look-at-me to the end of its
service, as far as a listing shows them.

A stretch of a bit is graded-L operations, one after another, that each call a service up to this bit. A look-at-me of the bit that is
answered in a stretch came after the operation before it: so the cycles since then count."""
import collections
import os
from typing import TYPE_CHECKING, Counter, Dict, List, NamedTuple, Optional, Sequence, Tuple

from camac.functions import CONTROLLERS, reads
from camac.values import Abandoned, Contradiction, Cycle, Demand, Ending, Item, Lock, Plan, Response, RunEnd

if TYPE_CHECKING:
    from camac.drive import Branch, File

# In the place of the bits of a word, where X = 0.
NO_X = 25


class Broken(NamedTuple):
    """A call that came sooner than the rate of its service allows: the service, which of its calls in the stretch it is, after how many
    cycles of the stretch, and the number in the run of the service that it called."""

    name: str
    call: int
    elapsed: int
    number: int


class Late:
    """How late the services of a bit ended. `count` of them ended while the rates of all services up to the bit were kept in the stretch;
    `most` is the greatest number of cycles from the look-at-me of one of these to its end, and `number` is that one's in the run.
    `left_out` ended later in a stretch in which a rate was broken: of these it is not known. `broken` is the first call that broke one. `sooner` calls of
    the bit came sooner than the rate that was told of it."""

    __slots__ = ("count", "most", "number", "left_out", "broken", "sooner")

    def __init__(self) -> None:
        self.count = self.most = self.number = self.left_out = self.sooner = 0
        self.broken: Optional[Broken] = None


class _Stretch:
    """The stretch of a service's bit. `began` are the cycles of the run before it, `calls` those of each bit in it."""

    __slots__ = ("of", "late", "began", "calls", "is_kept")

    def __init__(self, of: Response) -> None:
        self.of, self.late = of, Late()
        self.begin(0)

    def begin(self, cycles: int) -> None:
        """An operation called no service up to the bit: what comes next is a new stretch."""
        self.began, self.is_kept = cycles, True
        self.calls: Dict[int, int] = {}

    def call(self, called: Response, cycles: int, number: int) -> bool:
        """An operation called this service, whose bit is not above that of the stretch. Returns whether that broke its rate."""
        call, elapsed = self.calls.get(called.gl, 0) + 1, cycles - self.began
        self.calls[called.gl] = call
        is_broken = call > called.calls(elapsed)
        if is_broken:
            self.is_kept = False
            self.late.broken = self.late.broken or Broken(called.name, call, elapsed, number)
        return is_broken

    def end(self, cycles: int, number: int) -> None:
        """A service of the bit came to its end."""
        late = self.late
        if not self.is_kept:
            late.left_out += 1
            return
        since = cycles - self.began - (self.calls[self.of.gl] - 1) * (self.of.every or 0)
        late.count += 1
        if late.count == 1 or since > late.most:
            late.most, late.number = since, number


class Watch:
    """Follows the calls of a run and the ends of its services. `responses` are those of all services of the script, in the order of bits; or
    none, and then nothing is seen."""

    def __init__(self, responses: Sequence[Response]) -> None:
        self.stretches = [_Stretch(it) for it in responses]
        self.places = {it.gl: at for at, it in enumerate(responses)}
        self.cycles = 0

    def call(self, gl: int, number: int) -> None:
        """A graded-L operation called the service of this bit, which has this number in the run; a bit of 0 says that it called none."""
        place = self.places.get(gl, len(self.stretches))
        for it in self.stretches[:place]:
            it.begin(self.cycles)
        for stretch in self.stretches[place : place + 1]:
            is_broken = any([it.call(stretch.of, self.cycles, number) for it in self.stretches[place:]])
            stretch.late.sooner += is_broken and stretch.of.every is not None

    def end(self, gl: int, cycles: int, number: int) -> None:
        """The service of this bit came to its end, after so many cycles of its own."""
        self.cycles += cycles
        if gl in self.places:
            self.stretches[self.places[gl]].end(self.cycles, number)

    def seen(self) -> Dict[int, Late]:
        """By bit, how late its services ended."""
        return {it.of.gl: it.late for it in self.stretches}


class Contradictions:
    """Counts what may contradict a plan, which need not be known yet. `responses` have the rates that were told."""

    def __init__(self, responses: Sequence[Response] = ()) -> None:
        self.watch, self.of = Watch(responses), {it.name: it.gl for it in responses}
        # The service in progress: its bit, its number in the run, and its cycles.
        self.gl = self.number = self.cycles = 0
        # By command how many words have so many bits, and how many replies no X; how many demands have each bit.
        self.replies: Dict[Tuple[int, ...], List[int]] = {}
        self.bits = [0] * 25
        self.last: Optional[Tuple[List[int], int]] = None

    def take(self, item: Item, line: bytes) -> None:
        """Takes an operation of a listing, with the line of its answer."""
        if isinstance(item, Cycle):
            self.answer(item.command, (item.x, item.q, item.word, item.wait, 0))
        elif isinstance(item, Lock):
            self.answer((item.crate,), (0, 0, 0, item.wait, 0))
        elif isinstance(item, Demand):
            self.answer((), (0, 0, 0, 0, int(line[13:19] or b"0", 16)))
            self.call(self.of.get(item.service or "", 0))
        elif isinstance(item, Abandoned):
            self.leave()

    def counts_of(self, command: Tuple[int, ...]) -> List[int]:
        """The counts of a command: by the bits of its words, and by NO_X."""
        return self.replies.setdefault(command, [0] * (NO_X + 1))

    def answer(self, at: Tuple[int, ...], answer: Tuple[int, int, int, int, int]) -> None:
        """Takes the answer to an operation: to a command (crate, station, sub-address, function), to the lock of a crate, or to a demand."""
        x, _, word, wait, gl = answer
        if len(at) > 1:
            counts = self.counts_of(at) if at not in self.replies else self.replies[at]
            bits = word.bit_length() if x else NO_X
            counts[bits] += 1
            self.last = counts, bits
            self.cycles += 1 + wait
        elif at:
            self.cycles, self.last = self.cycles + wait, None
        while gl and not at:
            bit = gl.bit_length()
            self.bits[bit] += 1
            gl ^= 1 << bit - 1

    def told(self, end: RunEnd, plan: "File", program: "File") -> RunEnd:
        """The end of a live run with what contradicts its plan."""
        if end.how is Ending.OVERRUN:
            self.take_back()
        return end._replace(contradictions=self.found(plan_of(plan, program)))

    def take_back(self) -> None:
        """The last cycle did not happen: its wait was not permitted."""
        if self.last:
            self.last[0][self.last[1]] -= 1
            self.last = None

    def call(self, gl: int) -> None:
        """A demand calls the service of this bit, 0 none; the one before has ended."""
        self.end()
        self.gl, self.number = gl, self.number + (gl > 0)
        self.watch.call(gl, self.number)

    def leave(self) -> None:
        """The service in progress is left: it leaves no event, and its look-at-me is not cleared."""
        self.number -= self.gl > 0
        self.watch.cycles += self.cycles
        self.gl = self.cycles = 0

    def end(self) -> None:
        """The service in progress has ended."""
        self.watch.end(self.gl, self.cycles, self.number)
        self.gl = self.cycles = 0

    def found(self, plan: Optional[Plan]) -> Optional[Tuple[Contradiction, ...]]:
        """What contradicts this plan; None if that is not known."""
        if plan is None:
            return None
        stations: Counter[Tuple[int, int, int]] = collections.Counter()
        for (c, n, a, f), counts in self.replies.items():
            if n not in CONTROLLERS:
                width = plan.width(c, n, a, f) if reads(f) else 24
                stations.update({(c, n, 0): counts[NO_X], (c, n, width): sum(counts[width + 1 : NO_X])})
        found = []
        for (c, n, width), count in sorted(stations.items()):
            what = f"word above {width} bit{'s' if width > 1 else ''}" if width else "cycle with X = 0"
            found.append(Contradiction(f"crate {c} station {n}", what, count))
        found += [Contradiction(f"GL {bit}", "demand", self.bits[bit]) for bit in sorted({*range(1, 25)} - {gl for gl, _, _ in plan.demands()})]
        rated = [(it.of, it.late.sooner) for it in self.watch.stretches if it.of.every is not None]
        found += [Contradiction(of.name, f"call sooner than every {of.every:,} cycles", count) for of, count in rated]
        return tuple(it for it in found if it.times)


def seen_of(branch: "Branch") -> Contradictions:
    """What counts the run of a branch: its own, where it has one."""
    seen = getattr(branch, "seen", None)
    return seen if isinstance(seen, Contradictions) else Contradictions()


def plan_of(plan: "File", program: "Optional[File]") -> Optional[Plan]:
    """The plan of a run, for what contradicts it; None if it cannot be read, or only once. The library for C lists no widths, so a program is asked first."""
    from camac.drive import DriveFault
    from camac.program import IN_PROCESS
    from camac.subcommands import plan as read_plan

    if program == IN_PROCESS:
        import shutil

        program = os.environ.get("CAMAC_PROGRAM") or shutil.which("camac") or program
    try:
        return read_plan(plan, program) if os.fsdecode(plan) == "@sample" or os.path.isfile(plan) else None
    except (DriveFault, OSError, ValueError):
        return None
