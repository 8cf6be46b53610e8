#!/usr/bin/env python3
"""Tests of the simulation: what is lost beside what theory says of one service, how late services are beside what is proved, and the command.

usage: tests/simulate_test.py [-v] [TEST ..]     from any folder; takes some seconds
"""
import math
import os
import re
import unittest
import unittest.mock
import xml.etree.ElementTree as ElementTree

from support.live import PROGRAM, Case, command, run_tests
import camac
from camac import mock
from camac.printed import read_plan
from camac.simulate import Setting, simulate

PLAN = """\
[[type]]
name = "ADC"
commands = [ { f = 0, a = 0, to = 11, width = 12 }, { f = 0, a = 12, to = 15, probe = true }, { f = 8, a = 12 }, { f = 10, a = 12 }, { f = 27, a = 0 } ]
[[crate]]
number = 1
waits = 0
station = [ { n = 2, type = "ADC", gl = 1 }, { n = 5, type = "ADC", gl = 3 } ]
"""
# A service of 12 cycles and the one that clears its look-at-me, and a shorter one on a greater bit.
LONG, SHORT = 13, 4
SCRIPT = f"""\
cdlam trig 1 1 2 12
cdlam slow 1 1 5 12
var v i
service trig within {LONG} cycles event 12 words {{
  for i = 0 to 11 {{
    cdreg r 1 1 2 i
    cfsa 0 r -> v
    put v
  }}
  cclc trig
}}
service slow within {SHORT} cycles event 0 words {{
  cdreg r 1 1 5 0
  cfsa 0 r -> v
  cfsa 0 r -> v
  cfsa 0 r -> v
  cclc slow
}}
"""
CYCLE = 1e-6


class Simulations(Case):
    def setUp(self):
        super().setUp()
        os.environ["CAMAC_PROGRAM"] = PROGRAM
        self.plan, self.script = self.write("plan.toml", PLAN), self.write("a.script", SCRIPT)

    def simulate(self, rates, **settings):
        return simulate(self.plan, self.script, Setting(rates, CYCLE, **settings))

    def test_dead_time_of_one_service(self):
        """While a service runs, so many triggers are lost as a Poisson process has in this time: within four standard deviations."""
        for rate, seed in ((20_000, 1), (70_000, 2), (200_000, 3)):
            (service,) = self.simulate({"trig": rate}, services=2000, seed=seed).services
            wanted = 2000 * rate * LONG * CYCLE
            self.assertEqual(len(service.waits), 2000)
            self.assertLess(abs(service.lost - wanted), 4 * math.sqrt(wanted), (rate, service.lost))
            self.assertEqual({round(wait, 6) for wait in service.waits}, {LONG})
            # the live share is 1 / (1 + rate * dead time); its spread follows from that of the triggers that are lost
            self.assertAlmostEqual(service.live(), 1 / (1 + rate * LONG * CYCLE), delta=4 * math.sqrt(wanted) / 2000 * service.live() ** 2)
            self.assertAlmostEqual(service.reckoned(CYCLE), 1 / (1 + rate * LONG * CYCLE))

    def test_regular_triggers(self):
        """Of triggers 5 cycles apart two come while the look-at-me of a third one is up; of triggers 14 cycles apart none does."""
        (service,) = self.simulate({"trig": 1 / (5 * CYCLE)}, is_regular=True, services=100).services
        self.assertEqual((service.came - service.lost, service.lost // 2 in (99, 100)), (100, True))
        (service,) = self.simulate({"trig": 1 / (14 * CYCLE)}, is_regular=True, services=100).services
        said = camac.response(self.plan, self.script, {"trig": 14})[0]
        self.assertEqual((service.came, service.lost, service.end, said.every), (100, 0, said.end, 14))

    def test_how_late(self):
        """Where modules keep their rates, no service ends later than `camac response` says, and the worst is nearly reached."""
        every = {"trig": 40, "slow": 60}
        made = self.simulate({"trig": 20_000, "slow": 12_000}, every=every, services=3000)
        said = {it.name: it.end for it in camac.response(self.plan, self.script, every)}
        for it in made.services:
            self.assertEqual((it.end, it.later()), (said[it.name], 0))
            self.assertGreater(it.quantile(1.0), it.end - 1)
        self.assertEqual([it.gl for it in made.services], [1, 3])
        self.assertEqual(sum(len(it.waits) for it in made.services), made.end.events)

    def test_rates_that_are_not_kept(self):
        """A service that clears its look-at-me first may be called again before it ends, so `slow` waits for two of them, and the command says so."""
        body = SCRIPT.replace("  cclc trig\n", "").replace("words {\n  for", "words {\n  cclc trig\n  for")
        self.script.write_text(body)
        slow = self.simulate({"trig": 60_000, "slow": 5_000}, services=3000).services[1]
        self.assertEqual(slow.end, LONG + SHORT)
        self.assertEqual(slow.later(), sum(wait > LONG + SHORT + 1e-6 for wait in slow.waits))
        self.assertGreater(slow.later(), 0)

    def test_seed(self):
        one, other, more = (self.simulate({"trig": 50_000}, services=200, seed=seed) for seed in (5, 5, 6))
        self.assertEqual(one, other)
        self.assertNotEqual(one.seconds, more.seconds)

    def test_events_and_modules(self):
        """Modules of the user's, and the event file that the simulation leaves."""
        file = self.write("mine.py", "from camac.mock import Adc\nmodules = {(1, 2): Adc(hits=0, spread=0), (1, 5): Adc()}\n")
        status, _, _ = self.told("--rate", "trig=1000", "--services", "20", "--modules", str(file), "--events", str(self.room / "run.events"))
        self.assertEqual(status, 0)
        events = list(camac.read_events(self.room / "run.events"))
        self.assertEqual([(it.gl, it.cycles, it.words) for it in events], [(1, LONG, (100,) * 12)] * 20)

    def told(self, *words):
        return command("simulate", self.plan, self.script, "--cycle-us", "1", *words)

    def test_command(self):
        status, out, _ = self.told("--rate", "trig=50000", "--rate", "slow=2000", "--services", "300", "-o", str(self.room / "curve.svg"))
        self.assertEqual(status, 0)
        lines = re.findall(r"^service (\w+) gl (\d+) rate (\S+) came (\d+) lost (\d+) live (\S+) reckoned (\S+)$", out, re.M)
        self.assertEqual([it[:3] for it in lines], [("trig", "1", "50000"), ("slow", "3", "2000")])
        for name, _, _, came, lost, live, _ in lines:
            self.assertAlmostEqual(float(live), 1 - int(lost) / int(came), delta=0.0001, msg=name)
        ElementTree.parse(self.room / "curve.svg")

    def test_what_is_left_up(self):
        """A service that does not clear its look-at-me is called for ever, and the command says so."""
        self.script.write_text(SCRIPT.replace("  cclc slow\n", ""))
        status, out, _ = self.told("--rate", "slow=1000", "--services", "50")
        self.assertEqual(status, 0)
        self.assertIn("49 more services were called for a look-at-me that was answered before", out)

    def test_one_that_is_never_answered(self):
        """trig is called again and again for the look-at-me that it leaves up, and slow never."""
        self.script.write_text(SCRIPT.replace("  cclc trig\n", ""))
        made = self.simulate({"trig": 20_000, "slow": 10_000}, services=100)
        slow = made.services[1]
        self.assertEqual((slow.waits, slow.live()), ([], 0.0))
        self.assertGreater(slow.waiting, 100)
        status, out, _ = self.told("--rate", "trig=20000", "--rate", "slow=10000", "--services", "100")
        self.assertEqual((status, f"one look-at-me was not answered: at the end it had waited {slow.waiting:.1f} cycles" in out), (0, True))

    def test_worst(self):
        """Each service takes its bound, though this one ends after one cycle if Q is 1; waits are the greatest."""
        self.plan.write_text(PLAN.replace("waits = 0", "waits = 2"))
        body = "cfsa 27 r if not q { cfsa 27 r cfsa 27 r } cclc trig"
        self.script.write_text(f"cdlam trig 1 1 2 12\nservice trig within 12 cycles event 0 words {{ cdreg r 1 1 2 0 {body} }}\n")
        (service,) = self.simulate({"trig": 100}, services=50, is_worst=True).services
        self.assertEqual({round(wait, 6) for wait in service.waits}, {12})
        (service,) = self.simulate({"trig": 100}, services=50).services
        self.assertLess(min(service.waits), 12)
        self.assertIn("assumed: each service takes its bound; Q is 1, but 0 of a probe", self.told("--rate", "trig=1", "--services", "9", "--worst")[1])

    def test_single_modules(self):
        """Those that the file does not name are as the plan declares."""
        file = self.write("mine.py", "from camac.mock import Adc\nmodules = {(1, 2): Adc(hits=0, spread=0)}\n")
        status, out, _ = self.told("--rate", "trig=1000", "--rate", "slow=1000", "--services", "20", "--modules", str(file))
        self.assertEqual((status, out.count(" lost 0 ")), (0, 2))

    def test_least_rate_and_cycle(self):
        """The times are as exact there as elsewhere: to a tenth of a cycle."""
        status, out, _ = self.told("--rate", "trig=0.01", "--cycle-us", "0.1")
        self.assertEqual((status, out.splitlines()[1]), (0, "  cycles from look-at-me to end: 50 % 13.0, 90 % 13.0, 99 % 13.0, 99.9 % 13.0, most 13.0; at most 17"))

    def test_silence(self):
        """A crate that was initialised calls nobody; the simulation comes to its end."""
        self.script.write_text(SCRIPT.replace("  cclc slow\n", "  cccz 1\n"))
        status, out, _ = self.told("--rate", "slow=1000", "--services", "50")
        self.assertEqual(status, 0)
        self.assertIn("no look-at-me was seen in", out)

    def test_modules_that_are_wrong(self):
        for text, told in (
            ("modules = 3", "has no dictionary `modules`"),
            ("\nmodules = adc", "mine.py:2: NameError: name 'adc' is not defined"),
            ("modules = {", "SyntaxError"),
        ):
            file = self.write("mine.py", text)
            status, out, err = self.told("--rate", "trig=1", "--modules", str(file))
            self.assertEqual((status, out), (2, ""))
            self.assertIn(told, err)
        self.assertEqual(self.told("--rate", "trig=1", "--modules", str(self.room / "none.py"))[0], 3)

    def test_usage(self):
        for words, text in (
            (["--rate", "trig"], "SERVICE=RATE"),
            (["--rate", "trig=0"], "SERVICE=RATE"),
            *((["--rate", f"trig={it}"], "SERVICE=RATE with 0.01 to 10,000,000 a second") for it in ("nan", "inf", "-1", "0.0099", "1e-300", "10000001")),
            (["--rate", "trig=1", "--rate", "trig=2"], "is there twice"),
            (["--rate", "nobody=1"], "no such service"),
            (["--rate", "trig=1", "--services", "0"], "--services"),
            *((["--rate", "trig=1", "--cycle-us", it], "--cycle-us is 0.1 to 1,000,000") for it in ("0", "nan", "inf", "1e-320", "0.099", "1000001")),
            (["--rate", "trig=1", "--every", "trig=0"], "--every"),
            ([], "--rate"),
        ):
            status, out, err = self.told(*words)
            self.assertEqual((status, out), (2, ""), words)
            self.assertIn(text, err)
        self.script.write_text("service nobody within 0 cycles event 0 words { }")
        with unittest.mock.patch("camac.commands.running.say"):
            self.assertEqual(self.told("--rate", "trig=1")[0], 1)


class Modules(unittest.TestCase):
    def test_declared(self):
        adc = read_plan(LISTED).types["ADC"]
        module = mock.Declared(adc.declarations, seed=3)
        module.trigger()
        self.assertTrue(module.calls())
        self.assertEqual([module.cycle(12, 8, None), module.cycle(12, 10, None), module.cycle(12, 8, None)], [(1, 1, 0), (1, 1, 0), (1, 0, 0)])
        self.assertEqual([module.cycle(13, 0, None), module.cycle(0, 9, None), module.cycle(12, 0, None)], [(1, 0, 0), (0, 0, 0), (1, 0, 0)])
        words = [module.cycle(a, 0, None) for a in range(12)]
        self.assertTrue(all((it.x, it.q) == (1, 1) and 0 <= it.word < 4096 for it in words))
        self.assertEqual((module.cycle(0, 16, 99), module.cycle(0, 0, None)), ((1, 1, 0), (1, 1, 99)))


LISTED = """\
buffer 64
type ADC commands 21 probes 4
command f 0 a 0 to 11 width 12
command f 0 a 12 to 15 probe
command f 16 a 0 width 8
command f 8 a 12
command f 10 a 12
crate 1 waits 0
station 5 ADC gl 3
"""


if __name__ == "__main__":
    run_tests()
