"""The beam line without hardware. It works in the folder of its plan and scripts, and keeps its answers there. With the word `fault` an
auxiliary controller of crate 2 does not keep the lockout."""
import random
import sys
import camac
from camac.mock import Adc, Auxiliary, MockBranch, Module, Recorder, Register, Reply, Scaler

IS_FAULTY = "fault" in sys.argv
TRIGGER, SCALERS, BUSY, CLOCK = (1, 3), [(1, 5), (1, 6)], (1, 8), (1, 10)
PLANES, ADCS, TDCS = [(2, n) for n in range(2, 6)], [(3, n) for n in range(1, 4)], [(3, 5), (3, 6)]


class Wires(Module):
    """A plane: a trigger hits up to three wires, and F0 gives one after another, then Q = 0."""
    def __init__(self, seed):
        super().__init__()
        self.random, self.wires = random.Random(seed), []

    def trigger(self):
        self.wires = sorted(self.random.sample(range(512), self.random.randint(0, 3)))

    def cycle(self, a, f, data):
        if f == 9:
            self.wires = []
            return Reply()
        return Reply(word=self.wires.pop(0)) if self.wires else Reply(q=0)


class Called(Module):
    """A module of which we use the look-at-me, its own register and its switches alone: all else is accepted and reads 0."""
    def cycle(self, a, f, data):
        return super().cycle(a, f, data) if f in (8, 10, 24, 26) and a == 0 else Reply(word=5)


modules = {
    TRIGGER: Called(lam_at=0),
    **{place: Scaler(seed=place[1], lam_at=None) for place in SCALERS},
    BUSY: Register(width=16),
    CLOCK: Called(lam_at=0),
    **{place: Wires(seed=place[1]) for place in PLANES},
    **{place: Adc(width=11, peak=900, seed=place[1], lam_at=None) for place in ADCS},
    **{place: Adc(channels=8, width=11, peak=700, seed=place[1], lam_at=None) for place in TDCS},
}
event = [TRIGGER, *PLANES, *ADCS, *TDCS]
branch = MockBranch.of_plan("plan.toml", modules, [event, event, [*SCALERS, CLOCK]], is_cold=True)
if IS_FAULTY:
    branch.auxiliaries[2] = Auxiliary(2, ignores_lockout=True)
print("start:", camac.call("plan.toml", "start.script", "trigger", branch).line)
recorder = Recorder(branch)
print("readout:", camac.drive("plan.toml", "readout.script", recorder, "fault.events" if IS_FAULTY else "run.events").line)
if not IS_FAULTY:
    with open("run.answers", "w") as file:
        file.write(recorder.answer_lines())
