"""A script at work on modules without hardware, with a clock: how many look-at-mes are lost at a rate, and how long the others wait.

Each dataway cycle, ours or that of an auxiliary controller, takes the same time, and nothing else takes any. Triggers come at random (as
those of a Poisson process) or regularly. One is **lost** if no service answers it: the look-at-me is still up, the module may not call again
so soon (`every`), its crate has inhibit, or the look-at-me is cleared before its service begins. All that is random comes from a seed."""
import heapq
import math
import random
from typing import Callable, Dict, List, Mapping, NamedTuple, Optional, Sequence

from camac.drive import Answer, File, UsageFault, drive
from camac.mock import Declared, MockBranch, Module, Place
from camac.output import passing_file
from camac.program import quickest
from camac.subcommands import plan as read_plan, response
from camac.values import Plan, RunEnd

# After this number of triggers that call nobody all crates are silent, and the run ends.
PATIENCE = 1000
LEAST_RATE, GREATEST_RATE = 0.01, 1e7
# The rates of a curve, as multiples of the given ones.
FACTORS = tuple(2.0**k for k in range(-3, 4))


class Setting(NamedTuple):
    """What is simulated: triggers a second by service, the seconds of a cycle, whether triggers come regularly, after how many cycles a
    module may call again, how many services are made, the seed, and whether each service takes its bound of cycles, with all waits."""

    rates: Mapping[str, float]
    cycle: float
    is_regular: bool = False
    every: Mapping[str, int] = {}
    services: int = 10_000
    seed: int = 1
    is_worst: bool = False


class Simulated:
    """What was simulated of a service: the triggers that came, of them those that were lost, and for each look-at-me that was answered the cycles
    until its service had ended. `length` are the cycles of its services together; `again` of them were called once more for the same
    look-at-me, which the service before had left up. `cycles` is the bound of a service, `end` the E of `camac response`, None if that has no
    number. `waiting` are the cycles that a look-at-me has waited that was not answered at the end of the simulation; None if there is none."""

    def __init__(self, name: str, gl: int, rate: float, cycles: int, end: Optional[int]) -> None:
        self.name, self.gl, self.rate, self.cycles, self.end = name, gl, rate, cycles, end
        self.came = self.lost = self.length = self.again = 0
        self.waiting: Optional[float] = None
        self.waits: List[float] = []

    def __eq__(self, other: object) -> bool:
        return isinstance(other, Simulated) and vars(self) == vars(other)

    def live(self) -> float:
        """The share of the triggers that were answered; one that waits at the end counts as answered if others were."""
        if not self.waits:
            return 0.0 if self.came else 1.0
        return 1 - self.lost / self.came

    def reckoned(self, cycle: float) -> float:
        """The live share of a dead time of the mean length of a service after each trigger that is taken: 1 / (1 + rate * dead time)."""
        return 1 / (1 + self.rate * cycle * self.length / max(len(self.waits), 1))

    def quantile(self, share: float) -> float:
        """So many cycles after its look-at-me, this share of the services has ended."""
        return sorted(self.waits)[max(math.ceil(share * len(self.waits)), 1) - 1] if self.waits else 0.0

    def later(self) -> int:
        """How many services ended later than `end`."""
        return 0 if self.end is None else sum(it > self.end + 1e-6 for it in self.waits)


class Simulation(NamedTuple):
    """What was simulated of the services that have a rate, in the order of bits; of all of them together the seconds that passed, the
    share of them in services, and how the run ended."""

    services: List[Simulated]
    seconds: float
    busy: float
    end: RunEnd


class _Source:
    """The triggers of a module: when the next one comes, when its look-at-me was raised last, and which rise was answered last."""

    def __init__(self, of: Simulated, place: Place, every: float, source: random.Random, is_regular: bool) -> None:
        self.of, self.place, self.every, self.random, self.is_regular = of, place, every, source, is_regular
        self.next = source.random() / of.rate if is_regular else source.expovariate(of.rate)
        self.raised = self.answered = -math.inf

    def is_waiting(self, branch: MockBranch) -> bool:
        """Whether a look-at-me is up that no service has answered."""
        return branch.modules[self.place].lam and self.raised != self.answered

    def take(self, branch: MockBranch) -> None:
        """The next trigger comes."""
        module, now = branch.modules[self.place], self.next
        self.of.came += 1
        if not module.lam and now >= self.raised + self.every:
            branch.trigger(self.place)
            if module.lam:
                self.raised = now
        self.next = now + (1 / self.of.rate if self.is_regular else self.random.expovariate(self.of.rate))


class _Clocked(MockBranch):
    """Modules whose triggers come as time passes. A service has ended at the graded-L operation behind it."""

    def __init__(self, branch: MockBranch, sources: Sequence[_Source], setting: Setting) -> None:
        super().__init__(branch.modules, branch.gl, (), branch.auxiliaries)
        self.setting, self.sources = setting, {branch.gl[it.place]: it for it in sources}
        self.order = [(it.next, gl) for gl, it in self.sources.items()]
        heapq.heapify(self.order)
        self.now = self.began = self.busy = 0.0
        self.left = setting.services
        self.called: Optional[_Source] = None
        self.rise: Optional[float] = None

    def take_next(self) -> None:
        source = self.sources[self.order[0][1]]
        source.take(self)
        heapq.heapreplace(self.order, (source.next, self.order[0][1]))

    def pass_by(self, cycles: int) -> None:
        """So many cycles pass, and the triggers of that time come."""
        self.now += cycles * self.setting.cycle
        while self.order[0][0] <= self.now:
            self.take_next()

    def close(self) -> None:
        """The service in progress, if there is one, has ended."""
        source, self.called = self.called, None
        if source:
            if self.setting.is_worst:
                self.pass_by(source.of.cycles - round((self.now - self.began) / self.setting.cycle))
            self.busy += self.now - self.began
            source.of.length += round((self.now - self.began) / self.setting.cycle)
            if self.rise is None:
                source.of.again += 1
            else:
                source.of.waits.append((self.now - self.rise) / self.setting.cycle)

    def demand(self) -> Optional[Answer]:
        self.close()
        for _ in range(PATIENCE if self.left else 0):
            pattern = self.demanded()
            called = next((it for gl, it in sorted(self.sources.items()) if pattern >> (gl - 1) & 1), None)
            if called:
                self.called, self.began, self.left = called, self.now, self.left - 1
                self.rise = None if called.answered == called.raised else called.raised
                called.answered = called.raised
                return Answer(gl=pattern)
            self.now = max(self.now, self.order[0][0])
            self.take_next()
        return None

    def wait(self, crate: int) -> int:
        auxiliary = self.auxiliaries.get(crate)
        wait = auxiliary.greatest if self.setting.is_worst and auxiliary and crate not in self.locked else super().wait(crate)
        self.pass_by(wait)
        return wait

    def cycle(self, c: int, n: int, a: int, f: int, data: Optional[int]) -> Answer:
        self.pass_by(1)
        return super().cycle(c, n, a, f, data)


def declared_modules(plan: Plan, seed: int = 1) -> Dict[Place, Module]:
    """A module at each station of a plan, which accepts what its type declares."""
    places = [(crate.number, it) for crate in plan.crates for it in crate.stations]
    return {(c, it.number): Declared(plan.types[it.type].declarations, seed + 32 * c + it.number) for c, it in places}


def simulate(
    plan: File, script: File, setting: Setting, modules: Optional[Mapping[Place, Module]] = None, events: Optional[File] = None
) -> Simulation:
    """Simulates a script. A module that is not among the given ones accepts what the plan declares of its type, as `declared_modules` makes it.
    The event file is written to `events`, which must not hold bytes.

    Raises UsageFault if a rate is none of a service of the script, and what `camac.check`, `camac.drive` and `MockBranch.of_plan` raise."""
    listed = read_plan(plan)
    # The whole cycles between two triggers that come regularly; what is lacking by less than a millionth counts.
    periods = {name: min(max(int(1 / rate / setting.cycle + 1e-6), 1), 4_294_967_295) for name, rate in setting.rates.items()}
    every = periods if setting.is_regular else {}
    responses = response(plan, script, {**every, **setting.every})
    by_name = {it.name: it for it in responses}
    for name in setting.rates:
        if name not in by_name:
            raise UsageFault(f"a rate of {name}: the script has no such service, but {', '.join(by_name) or 'none'}", 2)
    simulated = [Simulated(it.name, it.gl, setting.rates[it.name], it.cycles, it.end) for it in responses if it.name in setting.rates]
    places = {gl: (crate.number, station.number) for gl, crate, station in listed.demands()}
    sources = [
        _Source(it, places[it.gl], setting.every.get(it.name, 0) * setting.cycle, random.Random(f"{setting.seed} {it.name}"), setting.is_regular)
        for it in simulated
    ]
    branch = _Clocked(MockBranch.of_plan(listed, {**declared_modules(listed, setting.seed), **(modules or {})}), sources, setting)
    end = _run(plan, script, branch, events)
    for it in sources:
        it.of.waiting = (branch.now - it.raised) / setting.cycle if it.is_waiting(branch) else None
        it.of.lost = it.of.came - len(it.of.waits) - it.is_waiting(branch)
    return Simulation(simulated, branch.now, branch.busy / branch.now if branch.now else 0.0, end)


def _run(plan: File, script: File, branch: MockBranch, events: Optional[File]) -> RunEnd:
    """Plays by the quickest of what is here: the library, else the program."""
    if quickest() is not None:
        from camac import library

        return library.play(plan, script, branch, events)
    if events is not None:
        return drive(plan, script, branch, events)
    with passing_file() as dropped:
        return drive(plan, script, branch, dropped)


def curve(plan: File, script: File, setting: Setting, make_modules: Callable[[], Optional[Mapping[Place, Module]]]) -> List[Simulation]:
    """Simulates a script at multiples of its rates, with new modules each time. Raises as `simulate`."""
    scaled = [setting._replace(rates={name: factor * rate for name, rate in setting.rates.items()}) for factor in FACTORS]
    return [simulate(plan, script, it, make_modules()) for it in scaled]
