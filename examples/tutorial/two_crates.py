import sys
import camac
from camac.mock import Adc, MockBranch, Recorder, Register, Scaler

ADC, TDC, OUTPUT, SCALER = (1, 5), (1, 6), (1, 11), (2, 2)
modules = {
    ADC: Adc(pedestal=150, seed=3),
    TDC: Adc(channels=8, width=11, lam_at=None, seed=5),
    OUTPUT: Register(width=8),
    SCALER: Scaler(rate=4000, seed=2),
}
# After each ten events of the converters the clock of the scaler ticks.
triggers = ([[ADC, TDC]] * 10 + [[SCALER]]) * 4
branch = MockBranch.of_plan("bench.toml", modules, triggers, is_cold=True)
if "start" in sys.argv:
    print("start:", camac.call("bench.toml", "start.script", "adc", branch).line)
recorder = Recorder(branch)
print("readout:", camac.drive("bench.toml", "bench.script", recorder, "bench.events").line)
with open("bench.answers", "w") as file:
    file.write(recorder.answer_lines())
