"""The wiring of graded-L: each look-at-me is raised, by F25 of its module or by hand, and the bits that come are compared with the plan."""
from typing import Callable, Iterator, List, NamedTuple, Optional, Tuple

from camac.drive import Branch, File
from camac.surveys.asking import SERVICE, Asked, Script, ask, declared_plan, service
from camac.texts import plan_text
from camac.values import Crate, Plan, Station

# How often F8 is sent until the look-at-me is there.
POLLS = 1000
CONTROLLER = 30
# What is about to be sent, or to be done by hand, and whether somebody agrees, or did it.
Agree = Callable[[str], bool]


class Wire(NamedTuple):
    """A look-at-me that was raised.

    crate, station, type, gl   those of the plan
    how                        how it was raised: "F25", or "by hand"; "" if it was not
    is_raised                  whether the module says so (Q = 1 of F8)
    bits                       the bits of the graded-L pattern that came
    fault                      why it was not tried, or not to its end
    asked                      the scripts, with all that they made"""

    crate: int
    station: int
    type: str
    gl: int
    how: str
    is_raised: bool = False
    bits: Tuple[int, ...] = ()
    fault: str = ""
    asked: Tuple[Asked, ...] = ()

    def differs(self) -> bool:
        return self.is_raised and self.bits != (self.gl,)

    def line(self) -> str:
        """What came of it, as a sentence."""
        if self.fault or not self.is_raised:
            said = f"its bit: {self.fault or f'{self.how} raised no look-at-me (Q = 0 of F8)'}"
        else:
            came = f"bit {' and '.join(map(str, self.bits))}" if self.bits else "no bit"
            said = f"{self.how}: {came}, " + (f"and the plan has bit {self.gl}" if self.differs() else "as in the plan")
        return f"crate {self.crate} station {self.station} ({self.type}): {said}"


def wires(plan: File, branch: Branch, agree: Optional[Agree] = None) -> Iterator[Wire]:
    """Raises the look-at-me of each station that has a bit in the plan, one after another, and yields which bits came. It sends F26, F10 and F24 to
    the address of the look-at-me, F25 and F8, as far as the plan declares them, and takes the inhibit of the crate away. At the end the look-at-me
    is cleared and disabled.

    `agree` is asked before each F25, which may also start something. Where the plan declares none, or it raises nothing, `agree` is asked to have the
    look-at-me raised by hand. Without it all F25 are sent, and nothing is done by hand. Raises what `camac.call` raises."""
    listed, text = declared_plan(plan, None), plan_text(plan).decode("utf-8", "replace")
    for _, crate, station in listed.demands():
        at = _Station(listed, crate, station, text)
        wire = at.wire("", fault="its type declares no F8") if at.lam is None else None
        if wire is None and at.execute is not None and (agree is None or agree(f"Enter sends F25 A{at.execute} to {at.place()}, to raise its look-at-me")):
            wire = _try(at, "F25", None, branch)
        if agree and (wire is None or not (wire.is_raised or wire.fault)):
            wire = _try(at, "by hand", agree, branch) or wire
        yield wire or at.wire("", fault="F25 was not sent, and nobody raised the look-at-me by hand")


def _try(at: "_Station", how: str, by_hand: Optional[Agree], branch: Branch) -> Optional[Wire]:
    """Raises a look-at-me, and sees what comes; None if nobody raised it."""
    begun = ask(at.ready(by_hand is None), branch)
    if not begun.fault and by_hand and not by_hand(f"raise the look-at-me of {at.place()}, then Enter"):
        ask(at.look(0), branch)
        return None
    seen = begun if begun.fault else ask(at.look(), branch)
    if seen.fault:
        return at.wire(how, fault=seen.fault)._replace(asked=(begun, seen))
    cycles = seen.cycles()
    before, after = ([answer.gl for command, answer in it if command.station == CONTROLLER and command.function == 0][-1] for it in (begun.cycles(), cycles))
    tests = [answer.q for command, answer in cycles if command.function == 8]
    bits = tuple(bit for bit in range(1, 25) if (after & ~before) >> (bit - 1) & 1)
    return at.wire(how)._replace(is_raised=bool(tests[-1]), bits=bits, asked=(begun, seen))


class _Station:
    """A station with a bit: the sub-addresses of its look-at-me and of its F25, and the scripts that raise it and look."""

    def __init__(self, plan: Plan, crate: Crate, station: Station, text: str) -> None:
        self.crate, self.station, self.text = crate, station, text
        declared = self.declared = plan.types[station.type].declared()
        self.lam = max((a for f, a in declared if f == 8), key=lambda a: (26, a) in self.declared, default=None)
        self.execute = min((a for f, a in declared if f == 25), default=None)

    def place(self) -> str:
        return f"crate {self.crate.number} station {self.station.number} ({self.station.type})"

    def wire(self, how: str, fault: str = "") -> Wire:
        return Wire(self.crate.number, self.station.number, self.station.type, self.station.gl or 0, how, fault=fault)

    def ready(self, is_executed: bool) -> Script:
        """Enables and clears the look-at-me, reads the pattern that is there without it, and raises it where F25 is to do that."""
        body = [f"ccci {self.crate.number} off", *self._of_lam((26, f"cclm {SERVICE} on"), (10, f"cclc {SERVICE}")), "cfsa 0 r -> v"]
        more = [f"cdreg r 1 {self.crate.number} {self.station.number} {self.execute}", "cfsa 25 r"] if is_executed else []
        return self._script("ready", body + more, len(body) + 1)

    def look(self, polls: int = POLLS) -> Script:
        """Waits for the look-at-me so long, reads the pattern, and clears and disables it."""
        body = [f"k = {polls}", f"while k > 0 and not q turns {polls} by k {{ ctlm {SERVICE}  k = k - 1 }}", "cfsa 0 r -> v"]
        return self._script("look", body + self._of_lam((10, f"cclc {SERVICE}"), (24, f"cclm {SERVICE} off")), polls + 3)

    def _of_lam(self, *forms: Tuple[int, str]) -> List[str]:
        return [statement for f, statement in forms if (f, self.lam) in self.declared]

    def _script(self, name: str, body: List[str], cycles: int) -> Script:
        crate, station = self.crate.number, self.station.number
        lines = [f"  {it}" for it in (f"cdreg r 1 {crate} {CONTROLLER} 0", *body)]
        text = service((crate, station, self.lam or 0), cycles * (1 + self.crate.waits), lines)
        return Script(f"{name}-{crate}-{station}", self.text, text, self.station.gl or 0, cycles)
