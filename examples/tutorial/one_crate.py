import camac
from camac.mock import Adc, MockBranch, Recorder, Register

ADC, TDC, OUTPUT = (1, 5), (1, 6), (1, 11)
modules = {ADC: Adc(pedestal=150, seed=3), TDC: Adc(channels=8, width=11, lam_at=None, seed=5), OUTPUT: Register(width=8)}
branch = Recorder(MockBranch.of_plan("modules.toml", modules, triggers=[[ADC, TDC]] * 40))
print(camac.drive("modules.toml", "zeros.script", branch, "zeros.events").line)
with open("zeros.answers", "w") as file:
    file.write(branch.answer_lines())
