"""A test of a driver: whether it keeps what a driver has to keep (docs/LIVE.md), as far as one register and an empty station can tell."""
import enum
from typing import Iterator, List, NamedTuple, Optional, Sequence, Tuple

from camac.drive import Branch, File, UsageFault
from camac.surveys import STATIONS
from camac.surveys.asking import Asked, Script, ask, declared_plan, service
from camac.values import Crate

# How many cycles are timed.
TIMED = 1000
QUANTILES = ((0.5, "50 %"), (0.99, "99 %"), (1.0, "most"))
WRITE, READ = 16, 0
# The tests of inhibit and of the demand output.
CONTROLLER_TESTS = ((9, 27), (10, 27))
# What is made of the controller: Z, and inhibit and demand output on, off, and as a run needs them, each with its test; then C.
CONTROLLER = "cccz {0}, ccci {0} on, ctci {0}, ccci {0} off, ctci {0}, cccd {0} off, ctcd {0}, cccd {0} on, ctcd {0}, cccc {0}"
# The rules in the order of docs/LIVE.md, and the time that no rule is about.
START, OPERATION, ANSWER, ONE_AT_A_TIME, TIME = RULES = ("The start", "The operation", "The answer", "One at a time", "Time")


class Kept(enum.Enum):
    """What was found of a rule. TOLD is a fact that no rule is about."""

    KEEPS = "keeps"
    BREAKS = "BREAKS"
    TOLD = "told"
    NOT_TRIED = "not tried"


class Finding(NamedTuple):
    """What was found of a rule of docs/LIVE.md, or of the time."""

    rule: str
    kept: Kept
    text: str


class _Bench(NamedTuple):
    """The register, the width of its words, and a station without a module; None if there is none."""

    crate: Crate
    station: int
    sub_address: int
    width: int
    empty: Optional[int]

    def words(self) -> List[int]:
        """Each bit alone, and all others."""
        return [word for bit in range(self.width) for word in (1 << bit, (1 << self.width) - 1 - (1 << bit))]

    def script(self, name: str, body: Sequence[str], cycles: int) -> Script:
        """A script in whose body `r` is the register and `e` the empty station."""
        c, n, a = self.crate.number, self.station, self.sub_address
        stations = f'{{ n = {n}, type = "REGISTER", gl = 1 }}' + (f', {{ n = {self.empty}, type = "EMPTY" }}' if self.empty else "")
        commands = ", ".join(f"{{ f = {f}, a = {a}, width = {self.width} }}" for f in (READ, WRITE))
        plan = f'[[type]]\nname = "REGISTER"\ncommands = [ {commands} ]\n'
        plan += '[[type]]\nname = "EMPTY"\ncommands = [ { f = 0, a = 0 }, { f = 8, a = 0 } ]\n'
        plan += f"[[crate]]\nnumber = {c}\nwaits = {self.crate.waits}\nstation = [ {stations} ]\n"
        places = [f"cdreg r 1 {c} {n} {a}"] + ([f"cdreg e 1 {c} {self.empty} 0"] if self.empty else [])
        text = service((c, n, a), cycles * (1 + self.crate.waits), [f"  {it}" for it in (*places, *body)])
        return Script(name, plan, text, 1, cycles)


def find_bench(plan: File, register: Tuple[int, int, int]) -> _Bench:
    """Raises UsageFault if the plan declares no F0 and F16 at crate, station and sub-address of the register."""
    listed, (c, n, a) = declared_plan(plan, None), register
    kind = listed.type_at(c, n)
    widths = {it.function: it.width or 24 for it in (kind.declarations if kind else ()) if it.first <= a <= it.last and not it.is_probe}
    if not {READ, WRITE} <= widths.keys():
        raise UsageFault(f"the plan declares no register with F0 and F16 at crate {c} station {n} A{a}", 2)
    crate = next(it for it in listed.crates if it.number == c)
    empty = sorted({*STATIONS} - {it.number for it in crate.stations})
    return _Bench(crate, n, a, min(widths[READ], widths[WRITE]), empty[0] if empty else None)


def test_driver(plan: File, branch: Branch, register: Tuple[int, int, int]) -> Tuple[List[Finding], List[Asked]]:
    """Tests a driver by checked scripts at a register of the plan that F16 writes and F0 reads, by crate, station and sub-address. Returns what was found,
    and the scripts with what they made.

    Bits walk through the register, and its word is written back. F0 and F8 go to a station without a module. Where the plan has waits, a lockout is
    taken and released. Z and C go to the crate, which clear its modules; at the end inhibit is off and the demand output on. Raises as `find_bench`,
    and what `camac.call` raises."""
    bench = find_bench(plan, register)
    asked = [ask(it, branch) for it in _scripts(bench)]
    return [it for one in asked for it in _findings(bench, one)] + list(_not_tried(bench)), asked


def _scripts(bench: _Bench) -> Iterator[Script]:
    words, crate = bench.words(), bench.crate
    yield bench.script("walk", ["cfsa 0 r -> a", *(f"cfsa 16 r <- {it}  cfsa 0 r -> v" for it in words), "cfsa 16 r <- a"], 2 * len(words) + 2)
    if bench.empty:
        yield bench.script("empty", ["cfsa 0 e -> v", "cfsa 8 e"], 2)
    yield bench.script("time", [f"for a = 1 to {TIMED} {{ cfsa 0 r -> v }}"], TIMED)
    if crate.waits:
        yield bench.script("lock", [f"lock {crate.number} {{ cfsa 0 r -> v  cfsa 0 r -> v }}"], 3)
    yield bench.script("controller", CONTROLLER.format(crate.number).split(", "), 10)


def _findings(bench: _Bench, asked: Asked) -> Iterator[Finding]:
    """What is found by a script, which is known by its name."""
    name = asked.script.name
    if asked.fault:
        yield Finding(OPERATION, Kept.BREAKS, f"the script `{name}` did not come to its end: {asked.fault}")
    elif name == "walk":
        yield from _walked(bench, asked)
    elif name == "empty":
        for command, answer in asked.cycles():
            said = f"X = {answer.x:d}, Q = {answer.q:d} of F{command.function} at station {bench.empty}, which is empty"
            yield Finding(ANSWER, Kept.BREAKS if answer.x or answer.q else Kept.KEEPS, said)
    elif name == "time":
        yield from _of_time(bench, asked)
    elif name == "lock":
        yield Finding(OPERATION, Kept.KEEPS, "the lockout was taken and released, and no cycle in it waited")
    else:
        yield from _of_controller(bench, asked)


def _walked(bench: _Bench, asked: Asked) -> Iterator[Finding]:
    """Whether each word came back, with X = 1."""
    cycles, words = asked.cycles(), bench.words()
    unheard = sum(not answer.x for _, answer in cycles)
    read = [answer.word for command, answer in cycles if command.function == READ][1:]
    wrong = [(wrote, came) for wrote, came in zip(words, read) if wrote != came]
    if unheard:
        yield Finding(ANSWER, Kept.BREAKS, f"X = 0 of {unheard} of {len(cycles)} cycles at the register")
    elif wrong:
        bits = ", ".join(str(bit) for bit in range(24) if any((wrote ^ came) >> bit & 1 for wrote, came in wrong))
        first = f"{wrong[0][0]:06x} came back as {wrong[0][1]:06x}"
        yield Finding(OPERATION, Kept.BREAKS, f"{len(wrong)} of {len(words)} words came back wrong, in the bits {bits}: {first}")
    else:
        yield Finding(OPERATION, Kept.KEEPS, f"{len(words)} words came back from the register: each of its {bench.width} bits alone, and all others")


def _of_time(bench: _Bench, asked: Asked) -> Iterator[Finding]:
    waits, seconds = max(answer.wait for _, answer in asked.cycles()), sorted(asked.seconds)
    yield Finding(ANSWER, Kept.KEEPS, f"waits of at most {waits} cycles in {len(seconds):,}; the plan permits {bench.crate.waits}")
    said = ", ".join(f"{seconds[int((len(seconds) - 1) * part)] * 1e6:.1f} ({label})" for part, label in QUANTILES)
    yield Finding(TIME, Kept.TOLD, f"microseconds of a cycle: {said}")


def _of_controller(bench: _Bench, asked: Asked) -> Iterator[Finding]:
    yield Finding(START, Kept.KEEPS, f"Z, C, inhibit and the demand output of crate {bench.crate.number} were made; inhibit is off, the demand output on")
    tests = [answer.q for command, answer in asked.cycles() if (command.sub_address, command.function) in CONTROLLER_TESTS]
    said = "as they are set" if tests == [1, 0, 0, 1] else ", ".join(f"{it:d}" for it in tests)
    yield Finding(START, Kept.TOLD, f"tests of inhibit and demand output answer {said} (not needed)")


def _not_tried(bench: _Bench) -> Iterator[Finding]:
    if not bench.empty:
        yield Finding(ANSWER, Kept.NOT_TRIED, f"X and Q of an empty station: crate {bench.crate.number} has none")
    if not bench.crate.waits:
        yield Finding(OPERATION, Kept.NOT_TRIED, f"the lockout: the plan has no waits in crate {bench.crate.number}")
    yield Finding(ANSWER, Kept.NOT_TRIED, "the pattern of a demand: --wiring raises look-at-mes, and compares it")
    yield Finding(ONE_AT_A_TIME, Kept.NOT_TRIED, "whether another program uses the branch meanwhile")
