import camac
from camac.mock import Adc, MockBranch, Register

ADC, OUTPUT = (1, 5), (1, 11)
branch = MockBranch.of_plan("modules.toml", {ADC: Adc(pedestal=150, seed=3), OUTPUT: Register(width=8)}, triggers=[[ADC]] * 1000)
record = camac.Recording("night.json", number=1, title="first night")
print(camac.drive("modules.toml", "zeros.script", branch, "night.events", record=record).line)
