"""The slow control without hardware. It works in the folder of its plan and scripts, and keeps its answers there."""
import camac
from camac.mock import Adc, MockBranch, Module, Recorder, Reply

CLOCK, CONVERTER, SUPPLY, HEATERS, MOTOR = (4, 3), (4, 5), (4, 7), (4, 9), (4, 11)


class Converter(Adc):
    """Sixteen slow voltages. A round, which F25 starts, has ended before the next demand."""
    def cycle(self, a, f, data):
        if f == 25:
            self.trigger()
        return Reply(q=0) if f == 27 else Reply() if f == 25 else super().cycle(a, f, data)


class Kept(Module):
    """A module that keeps what is written at each sub-address, and reads it."""
    def __init__(self, lam_at=None):
        super().__init__(lam_at)
        self.words = {}

    def cycle(self, a, f, data):
        if data is not None:
            self.words[a] = data
        return super().cycle(a, f, data) if f in (8, 10, 24, 26) and a == 0 else Reply(word=self.words.get(a, 0) if f == 0 else 0)


modules = {
    CLOCK: Kept(lam_at=0),
    CONVERTER: Converter(channels=16, pedestal=1500, peak=2200, spread=30, lam_at=0, seed=4),
    SUPPLY: Kept(lam_at=0),
    HEATERS: Kept(),
    MOTOR: Kept(lam_at=0),
}
branch = MockBranch.of_plan("plan.toml", modules, [[CLOCK], [], [MOTOR], [SUPPLY]], is_cold=True)
print("start:", camac.call("plan.toml", "start.script", "tick", branch).line)
recorder = Recorder(branch)
print("readout:", camac.drive("plan.toml", "readout.script", recorder, "run.events").line)
with open("run.answers", "w") as file:
    file.write(recorder.answer_lines())
