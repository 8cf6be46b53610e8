"""The spectroscopy bench without hardware. It works in the folder of its plan and scripts, and keeps its answers there."""
import random
import camac
from camac.mock import Adc, MockBranch, Module, Recorder, Reply, Scaler

ADC, SECOND, TDC, PATTERN, SCALER, CLOCK = (1, 2), (1, 3), (1, 5), (1, 7), (1, 9), (1, 11)


class Pattern(Module):
    """A coincidence register: a trigger stores a pattern, of which the mask leaves some bits."""
    random, mask, word = random.Random(1), 0, 0

    def trigger(self):
        self.word = self.random.getrandbits(16) & self.mask

    def cycle(self, a, f, data):
        if f == 17:
            self.mask = data
        word, self.word = self.word, 0 if f == 2 else self.word
        return Reply(word=word)


class Clock(Module):
    """A clock, of which a trigger is the call after some ticks."""
    def cycle(self, a, f, data):
        reply = super().cycle(a, f, data)
        return Reply() if f in (9, 17) or (a, f) == (1, 26) else reply


modules = {
    ADC: Adc(seed=1),
    SECOND: Adc(seed=2, lam_at=None),
    TDC: Adc(channels=8, width=11, peak=900, lam_at=None, seed=3),
    PATTERN: Pattern(),
    SCALER: Scaler(lam_at=None),
    CLOCK: Clock(lam_at=0),
}
event = [ADC, SECOND, TDC, PATTERN]
branch = MockBranch.of_plan("plan.toml", modules, [event, event, [SCALER, CLOCK], event], is_cold=True)
print("start:", camac.call("plan.toml", "start.script", "adc", branch).line)
recorder = Recorder(branch)
print("readout:", camac.drive("plan.toml", "readout.script", recorder, "run.events").line)
with open("run.answers", "w") as file:
    file.write(recorder.answer_lines())
