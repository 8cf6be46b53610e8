"""A driver for real crates. The lines marked CALL stand for the calls of your branch driver's library; here it is named `hardware`."""
import time
import camac
import hardware


class MyBranch:
    def __init__(self, plan, patience=None):
        """After so many seconds without a demand the run ends; where `patience` is None it waits, also through a pause of the beam."""
        self.patience = patience
        # of each crate the bits of its stations in the graded-L pattern
        self.bits = {it.number: sum(1 << (at.gl - 1) for at in it.stations if at.gl) for it in camac.plan(plan).crates}
        for crate in self.bits:
            hardware.release_lockout(crate)             # CALL

    def demand(self):
        begun = time.monotonic()
        while not hardware.branch_demand():             # CALL: is BD there?
            if self.patience is not None and time.monotonic() > begun + self.patience:
                return None
            time.sleep(0.001)
        return camac.Answer(gl=hardware.graded_l())     # CALL: the graded-L operation

    def cycle(self, c, n, a, f, data):
        x, q, word, wait = hardware.cycle(c, n, a, f, data or 0)    # CALL
        gl = 0
        if (n, a, f) == (30, 0, 0):
            gl = word
        elif (n, a, f) == (30, 11, 27):
            gl = self.bits[c] if q else 0
        return camac.Answer(x, q, word if f < 8 else 0, wait, gl)

    def lock(self, c):
        return camac.Answer(wait=hardware.take_lockout(c))      # CALL

    def unlock(self, c):
        hardware.release_lockout(c)                             # CALL


branch = MyBranch                                               # of camac-survey --driver examples/live/my_branch.py
