"""A branch over any library with the calls of mcstd, the CAMAC interface of MIDAS: no C is to be written.

MIDAS has a file for each controller. `gcc -shared -fPIC hyt1331.c -o libhyt1331.so` makes a library of one."""
import ctypes
import os
import time
from typing import Any, FrozenSet, Optional, Set

from camac.drive import Answer
from camac.functions import CONTROLLERS, reads, writes
from camac.mock import CLEAR, DEMANDS_OFF, DEMANDS_ON, INHIBIT_OFF, INHIBIT_ON, INITIALISE
from camac.values import Plan

# What cam_init answers if it could: SUCCESS of MIDAS.
SUCCESS = 1
# The seconds between two looks for a look-at-me.
POLL = 0.0005
CLEAR_LAM = 10
OPTIONS = frozenset(("x", "lam"))
CALLS = {INITIALISE: "cam_crate_zinit", CLEAR: "cam_crate_clear", INHIBIT_OFF: "cam_inhibit_clear", INHIBIT_ON: "cam_inhibit_set"}


class Mcstd:
    """A branch whose operations are calls of a library, which is loaded and asked to begin (cam_init).

    plan       gives the stations their bits of the graded-L pattern, which are made of the L lines (cam_lam_read)
    options    "x": functions that move no data are made by cam24i_q, which tells X; camc_q does not, and so X counts as 1.
               "lam": cam_lam_enable for each station with a bit at the beginning, and cam_lam_clear after each F10 at one: some interfaces need it
    patience   after so many seconds without a look-at-me `demand` answers None; it waits for ever if this is None

    mcstd knows no auxiliary controllers: waits are answered as 0, and `lock` raises OSError where the plan has some. The demand output is kept
    here. After X = 0, camc_chk is asked whether the crate answers; if not, OSError is raised.

    Raises OSError if the library cannot be loaded, lacks a call, or cannot begin."""

    def __init__(self, library: str, plan: Plan, options: FrozenSet[str] = frozenset(), patience: Optional[float] = None) -> None:
        self.library = ctypes.CDLL(os.path.abspath(library) if os.path.exists(library) else library)
        self.options, self.patience, self.tells_x = options, patience, "x" in options
        self.gl = {crate.number: {it.number: 1 << (it.gl - 1) for it in crate.stations if it.gl} for crate in plan.crates}
        self.has_waits = {crate.number for crate in plan.crates if crate.waits}
        self.silent: Set[int] = set()
        # As wide as a DWORD is anywhere: a library may write 32 or 64 bits.
        self.data, self.x, self.q = ctypes.c_uint64(), ctypes.c_int(), ctypes.c_int()
        self.to_data, self.to_x, self.to_q = map(ctypes.byref, (self.data, self.x, self.q))
        self.calls = {it: self._find(it) for it in ("cam24i_q", "cam24o_q", "camc_q", "cam_lam_read", *CALLS.values())}
        if self._find("cam_init")() != SUCCESS:
            raise OSError(f"{library}: cam_init found no controller")
        for crate, bits in self.gl.items() if "lam" in options else ():
            for station in bits:
                self._find("cam_lam_enable")(crate, station)

    def _find(self, name: str) -> Any:
        try:
            return getattr(self.library, name)
        except AttributeError:
            raise OSError(f"{self.library._name} has no {name}") from None

    def pattern(self, c: int) -> int:
        """The bits that the L lines of a crate make."""
        self.data.value = 0
        self.calls["cam_lam_read"](c, self.to_data)
        return sum(bit for station, bit in self.gl[c].items() if self.data.value >> (station - 1) & 1)

    def demand(self) -> Optional[Answer]:
        begun = time.monotonic()
        while True:
            gl = sum(self.pattern(c) for c in self.gl if c not in self.silent)
            if gl:
                return Answer(gl=gl)
            if self.patience is not None and time.monotonic() - begun >= self.patience:
                return None
            time.sleep(POLL)

    def cycle(self, c: int, n: int, a: int, f: int, data: Optional[int]) -> Answer:
        if n in CONTROLLERS:
            return self.control(c, n, a, f)
        self.data.value, self.x.value, self.q.value = 0, 1, 0
        if reads(f) or (not writes(f) and self.tells_x):
            self.calls["cam24i_q"](c, n, a, f, self.to_data, self.to_x, self.to_q)
        elif writes(f):
            self.calls["cam24o_q"](c, n, a, f, ctypes.c_ulong(data or 0), self.to_x, self.to_q)
        else:
            self.calls["camc_q"](c, n, a, f, self.to_q)
        # Where the library can tell it, a crate that does not answer is a fault.
        if not self.x.value and hasattr(self.library, "camc_chk") and self.library.camc_chk(c) < 0:
            raise OSError(f"crate {c} does not answer (camc_chk)")
        if f == CLEAR_LAM and "lam" in self.options and n in self.gl[c]:
            self._find("cam_lam_clear")(c, n)
        return Answer(bool(self.x.value), bool(self.q.value), self.data.value & 0xFF_FFFF if reads(f) else 0)

    def control(self, c: int, n: int, a: int, f: int) -> Answer:
        """A command of the controller; the demand output, which mcstd does not know, is kept here."""
        command = (n, a, f)
        if command in CALLS:
            self.calls[CALLS[command]](c)
        if command in (INITIALISE, DEMANDS_OFF):
            self.silent.add(c)
        elif command == DEMANDS_ON:
            self.silent.discard(c)
        return Answer(1, 1, gl=self.pattern(c) if command in ((30, 0, 0), (30, 11, 27)) else 0)

    def lock(self, c: int) -> Answer:
        if c in self.has_waits:
            raise OSError(f"mcstd has no lockout, and the plan has auxiliary controllers in crate {c}")
        return Answer()

    def unlock(self, c: int) -> None:
        pass
