#!/usr/bin/env python3
"""Tries the survey of crates (camac-survey): faults of mock crates, each alone and all together, are found, and nothing on right ones; what is
sent is judged by the program, and is no more than the page says; it can be interrupted.

usage: tests/survey_test.py [-v] [TEST ..]     from any folder; takes half a minute
"""
import json
import os
import pty
import re
import subprocess
import sys

from support.live import PROGRAM, STRAIGHT_LINE, TOP, Case, run_tests
from support.program import called
import camac
from camac.mock import Adc, Declared, MockBranch, Module, Recorder, Register, Reply, Scaler
from camac.surveys.driver_test import Kept, test_driver
from camac.surveys.wiring import wires

PLAN = """\
[[type]]
name = "ADC-12"
commands = [ { f = 0, a = 0, to = 11, width = 12 }, { f = 0, a = 12, to = 15, probe = true }, { f = 2, a = 0, to = 11, width = 12 },
  { f = 8, a = 12 }, { f = 10, a = 12 }, { f = 24, a = 12 }, { f = 25, a = 0 }, { f = 26, a = 12 } ]
[[type]]
name = "SCALER-12"
commands = [ { f = 0, a = 0, to = 11 }, { f = 8, a = 0 }, { f = 10, a = 0 } ]
[[type]]
name = "OUTPUT-8"
commands = [ { f = 16, a = 0, width = 8 }, { f = 0, a = 0, width = 8 }, { f = 27, a = 0 } ]
[[crate]]
number = 1
waits = 2
station = [ { n = 5, type = "ADC-12", gl = 3 }, { n = 6, type = "OUTPUT-8" }, { n = 7, type = "ADC-12", gl = 4 } ]
[[crate]]
number = 4
station = [ { n = 2, type = "SCALER-12", gl = 9 }, { n = 23, type = "OUTPUT-8" } ]
"""
FULL = """\
[[type]]
name = "ANY"
commands = [ { f = 0, a = 0, to = 15 }, { f = 1, a = 0, to = 15 }, { f = 8, a = 0, to = 15 }, { f = 27, a = 0, to = 15 } ]
"""


class Tested(Adc):
    """A converter whose F25 raises its look-at-me."""

    def cycle(self, a, f, data):
        if f == 25:
            self.trigger()
            return Reply()
        return super().cycle(a, f, data)


class Wide(Tested):
    """A converter whose words have a bit 13."""

    def cycle(self, a, f, data):
        reply = super().cycle(a, f, data)
        return reply._replace(word=reply.word | 0x2000) if f == 0 and reply.q else reply


class Dead(Module):
    """A module without power."""

    def cycle(self, a, f, data):
        return Reply(0, 0)


def right():
    """The modules of the plan."""
    return {(1, 5): Tested(), (1, 6): Register(width=8), (1, 7): Tested(), (4, 2): Scaler(), (4, 23): Register(width=8)}


def other(**changed):
    """The modules of the plan, but for those that are changed: s15 is station 5 of crate 1."""
    modules = right()
    for name, module in changed.items():
        place = int(name[1]), int(name[2:])
        modules[place] = module
        if module is None:
            del modules[place]
    return modules


TESTED = """\
from camac.mock import Adc, MockBranch, Register, Reply, Scaler
class Tested(Adc):
    def cycle(self, a, f, data):
        return self.trigger() or Reply() if f == 25 else super().cycle(a, f, data)
modules = {(1, 5): Tested(), (1, 6): Register(width=8), (1, 7): Tested(), (4, 2): Scaler(), (4, 23): Register(width=8)}
def branch(plan):
    return MockBranch.of_plan(plan, modules)
"""
# By a fault of the crates the modules, and the beginnings of all sentences that the survey says.
FAULTS = {
    "missing": (other(s423=None), ["crate 4 station 23 (OUTPUT-8): nothing answers"]),
    "dead": (other(s17=Dead()), ["crate 1 station 7 (ADC-12): nothing answers"]),
    "not in the plan": (
        other(s111=Register()),
        ["crate 1 station 11 F27 A0: accepted (X = 1), and the plan has no module here", "crate 1 station 11: it accepts the tests of OUTPUT-8"],
    ),
    "another type": (
        other(s15=Scaler()),
        # a scaler accepts F0 at A12 to A15, too, with Q = 0, as a converter does with its probes
        ["crate 1 station 5 (ADC-12) F8 A12: declared, and not accepted", "crate 1 station 5 (ADC-12): it accepts the tests of SCALER-12"],
    ),
    "too wide": (other(s15=Wide()), ["crate 1 station 5 (ADC-12) F0 A0 to A11: a word has more than the 12 bits of the plan"]),
    "look-at-me elsewhere": (other(s42=Scaler(lam_at=3)), ["crate 4 station 2 (SCALER-12) F8 A0: declared, and not accepted"]),
}
EXCHANGED = (
    other(s15=Register(width=8), s16=Tested()),
    [
        "crate 1 station 5 (ADC-12) F0 A1 to A11: declared, and not accepted",
        "crate 1 station 5 (ADC-12) F8 A12: declared, and not accepted",
        "crate 1 station 5 (ADC-12): it accepts the tests of OUTPUT-8",
        "crate 1 station 6 (OUTPUT-8) F27 A0: declared, and not accepted",
        "crate 1 station 6 (OUTPUT-8): it accepts the tests of ADC-12",
    ],
)


class Surveys(Case):
    def setUp(self):
        super().setUp()
        self.plan = self.write("bench.toml", PLAN)

    def branch(self, modules, gl=None):
        bits = {(1, 5): 3, (1, 7): 4, (4, 2): 9, **(gl or {})}
        return MockBranch(modules, {place: bit for place, bit in bits.items() if place in modules})

    def survey(self, modules, **how):
        return camac.survey(self.plan, self.branch(modules), **{"has_empty": True, **how})

    def expect(self, found, wanted):
        self.assertEqual(len(found), len(wanted), found)
        for line, begin in zip(found, wanted):
            self.assertTrue(line.startswith(begin), (line, begin))

    def test_right_crates(self):
        for has_empty in (False, True):
            surveyed = self.survey(right(), has_empty=has_empty)
            self.assertEqual(surveyed.differences(), [])
            # each F0 and its probes, F8 and F27 that the plan declares
            self.assertEqual(surveyed.count(camac.surveys.Found.AGREES), 2 * (16 + 1) + 2 * 2 + 12 + 1)
            self.assertEqual(surveyed.sent(), (44 if has_empty else 5) * 32 + 2 * 32 + 2 * 1 + 2 * 16 + 12 - 32 * 2 + (2 * 32 if has_empty else 0))

    def test_each_fault(self):
        for name, (modules, wanted) in [*FAULTS.items(), ("exchanged", EXCHANGED)]:
            with self.subTest(name):
                self.expect(self.survey(modules).differences(), wanted)

    def test_all_faults(self):
        """A type, a width, a look-at-me, a module too many and a dead one at once; a crate whose controller does not answer does not hide another."""
        modules = other(s15=Scaler(), s16=Dead(), s17=Wide(), s42=Scaler(lam_at=3), s423=None, s111=Register())
        wanted = [*FAULTS["another type"][1], "crate 1 station 6 (OUTPUT-8): nothing answers"]
        wanted += ["crate 1 station 7 (ADC-12) F0 A0 to A11: a word has more", *FAULTS["not in the plan"][1], *FAULTS["look-at-me elsewhere"][1], *FAULTS["missing"][1]]
        self.expect(self.survey(modules).differences(), wanted)

    def test_crate_that_fails(self):
        branch = self.branch(other(s423=None))
        cycle = branch.cycle
        branch.cycle = lambda c, *more: cycle(c, *more) if c == 4 else 1 // 0
        self.expect(camac.survey(self.plan, branch).differences(), ["crate 1: not all was asked: ZeroDivisionError", "crate 4 station 23 (OUTPUT-8): nothing answers"])
        branch.cycle = lambda c, *more: cycle(c, *more)._replace(wait=3 if c == 1 else 0)
        self.expect(camac.survey(self.plan, branch).differences(), ["crate 1: not all was asked: a wait of 3 cycles", "crate 4 station 23 (OUTPUT-8): nothing answers"])
        branch.cycle = lambda *_: 5
        self.expect(camac.survey(self.plan, branch).differences(), ["crate 1: not all was asked: TypeError", "crate 4: not all was asked: TypeError"])

    def test_what_is_sent(self):
        """By the branch's own account: F8 and F27 everywhere, F0 where it is declared, no lockout, and nothing else; each script is accepted, and the program
        lists the same."""
        recorder = Recorder(self.branch(other(s15=Scaler())))
        surveyed = camac.survey(self.plan, recorder)
        sent = [it.request for it in recorder.operations]
        self.assertEqual(sent, [it.request for asked in surveyed.asked for it in asked.made])
        stations = [(1, 5), (1, 6), (1, 7), (4, 2), (4, 23)]
        wanted = {f"cycle {c} {n} {a} {f} none" for c, n in stations for a in range(16) for f in (8, 27)}
        wanted |= {f"cycle {c} {n} {a} 0 in" for c, n, most in ((1, 5, 16), (1, 6, 1), (1, 7, 16), (4, 2, 12), (4, 23, 1)) for a in range(most)}
        self.assertEqual((len(sent), set(sent)), (len(wanted), wanted))
        for asked in surveyed.asked:
            plan, text, answers = (self.write(name, content) for name, content in (("p", asked.script.plan), ("s", asked.script.text), ("a", asked.answers())))
            status, listing, _ = called("check", plan, text)
            self.assertEqual((status, listing.split(b"\n")[0]), (0, b"accepted"))
            status, listing, _ = called("run", plan, text, answers, self.room / "e")
            lines = listing.decode().splitlines()
            self.assertEqual((status, lines[-1]), (0, "ended events 1"))
            made = [re.sub(r"(?<=in) \w{6}", "", line.partition(" x")[0]) for line in lines[1:-1]]
            self.assertEqual(made, [it.request for it in asked.made])

    def test_functions(self):
        surveyed = self.survey(right(), functions=(2, 25), has_empty=False)
        self.assertEqual({it.request for it in surveyed.asked[0].made}, {f"cycle 1 {n} {a} 2 in" for n in (5, 7) for a in range(12)} | {f"cycle 1 {n} 0 25 none" for n in (5, 7)})
        self.assertEqual(len(surveyed.asked), 1)
        for wrong in (16, 23, 32, -1):
            self.assertRaises(ValueError, self.survey, right(), functions=(0, wrong))
        left = " ".join(surveyed.not_tried())
        self.assertIn("F16: a survey writes nothing", left)
        self.assertIn("F0, F8, F10, F24, F26, F27: asked for by --also", left)

    def test_wiring(self):
        """F25 raises a look-at-me, or somebody does; bits that differ are exchanged, or one is missing; one is up before."""
        found = list(wires(self.plan, self.branch(right())))
        self.assertEqual([((it.crate, it.station), it.how, it.bits, it.differs()) for it in found[:2]], [((1, 5), "F25", (3,), False), ((1, 7), "F25", (4,), False)])
        self.assertEqual((found[2].is_raised, found[2].fault), (False, "F25 was not sent, and nobody raised the look-at-me by hand"))
        modules = right()
        modules[4, 2].trigger()
        branch = self.branch(modules, {(1, 5): 4, (1, 7): 3})
        asked = []

        def agree(what):
            asked.append(what)
            if what.startswith("raise"):
                modules[4, 2].trigger()
            return True

        found = list(wires(self.plan, branch, agree))
        f25 = "Enter sends F25 A0 to crate 1 station {} (ADC-12), to raise its look-at-me"
        self.assertEqual(asked, [f25.format(5), f25.format(7), "raise the look-at-me of crate 4 station 2 (SCALER-12), then Enter"])
        self.assertEqual([(it.bits, it.differs()) for it in found], [((4,), True), ((3,), True), ((9,), False)])
        self.assertEqual(found[0].line(), "crate 1 station 5 (ADC-12): F25: bit 4, and the plan has bit 3")
        del branch.gl[1, 5]
        self.assertEqual(next(wires(self.plan, branch)).line(), "crate 1 station 5 (ADC-12): F25: no bit, and the plan has bit 3")
        self.assertFalse(any(it.lam for it in modules.values()), "a look-at-me stayed")
        self.assertEqual(branch.locked, set())
        recorder = Recorder(self.branch(right()))
        found = list(wires(self.plan, recorder, lambda what: False))
        self.assertEqual([it.fault for it in found], ["F25 was not sent, and nobody raised the look-at-me by hand"] * 3)
        sent = [it.request for it in recorder.operations]
        self.assertEqual([it for it in sent if it.endswith(" 25 none")], [])
        self.assertEqual([it for it in sent if it.startswith("cycle 1 5 12 ")], [f"cycle 1 5 12 {f} none" for f in (26, 10, 10, 24)])
        surveyed = self.survey(right())
        surveyed = surveyed._replace(wires=tuple(wires(self.plan, self.branch(modules, {(1, 5): 4, (1, 7): 3}))))
        self.expect(surveyed.differences(), ["crate 1 station 5 (ADC-12): F25: bit 4", "crate 1 station 7 (ADC-12): F25: bit 3"])

    def test_full_branch(self):
        """Seven crates of 23 stations: all is asked, crate after crate, and an interrupt at any cycle leaves no lockout."""
        stations = ", ".join(f'{{ n = {n}, type = "ANY" }}' for n in range(1, 24))
        plan = self.write("full.toml", FULL + "".join(f"[[crate]]\nnumber = {c}\nwaits = 15\nstation = [ {stations} ]\n" for c in range(1, 8)))
        listed = camac.plan(plan)
        branch = MockBranch({(c, n): Declared(listed.types["ANY"].declarations) for c in range(1, 8) for n in range(1, 24)}, {})
        told = []
        found = camac.survey(plan, branch, tell=told.append)
        self.assertEqual((found.sent(), found.differences()), (7 * 23 * 64, []))
        self.assertEqual(told, [f"crate {c}, {c} of 7: 1,472 commands" for c in range(1, 8)])
        for last in (1, 1473, 5000):
            recorder = Recorder(branch)
            made = recorder.cycle

            def cycle(*at):
                if len(recorder.operations) == last - 1:
                    raise KeyboardInterrupt
                return made(*at)

            recorder.cycle = cycle
            self.assertRaises(KeyboardInterrupt, camac.survey, plan, recorder)
            self.assertEqual((len(recorder.operations), branch.locked), (last - 1, set()))


class Command(Case):
    """camac-survey, its files, the record of a run, and a report."""

    def test_mock(self):
        status, out, err = self.package("survey", "@sample", "--driver", "mock", "-o", "s.json", "--keep", "kept")
        self.assertEqual((status, err), (0, ""))
        self.assertIn("  F0  A0 to A11            1  1  12 of 12   agrees\n", out)
        self.assertRegex(out, r"\nsurveyed at \S+: sent 81, agree 19, differ 0, not declared 0\n$")
        self.assertLessEqual(max(map(len, out.splitlines())), 80)
        self.assertEqual(sorted(os.listdir(self.room / "kept")), ["crate-1.answers", "crate-1.script", "crate-1.toml"])
        status, listing, _ = self.call("run", "kept/crate-1.toml", "kept/crate-1.script", "kept/crate-1.answers", "e")
        self.assertEqual((status, listing.count(b"cycle")), (0, 81))
        self.assertEqual(self.package("survey", "@sample", "--driver", "mock", "--keep", "kept")[::2], (3, "camac: kept is not empty\n"))
        self.assertEqual(self.package("survey", "@sample", "--driver", "mock", "-o", "s.json")[0], 0)
        self.write("mine", "text")
        self.assertEqual(self.package("survey", "@sample", "--driver", "mock", "-o", "mine")[::2], (3, "camac: another command made it; --overwrite replaces it: mine\n"))

    def test_wiring(self):
        self.write("bench.toml", PLAN)
        self.write("d.py", TESTED)
        words = ["survey", "bench.toml", "--driver", "d.py", "--wiring"]
        status, out, err = self.package(*words, given=b"\ns\n\n")
        self.assertEqual((status, err.count("(s leaves it out): ")), (0, 4))
        self.assertIn("crate 1 station 5 (ADC-12): F25: bit 3, as in the plan\n", out)
        self.assertIn("  crate 1 station 7 (ADC-12): its bit: by hand raised no look-at-me (Q = 0 of F8)\n", " ".join(out.split("\n    ")) + "\n")
        status, out, err = self.package(*words)
        self.assertEqual((status, out.count("F25 was not sent, and nobody")), (0, 3))

    def test_progress(self):
        """At a terminal."""
        ours, terminal = pty.openpty()
        self.addCleanup(os.close, ours)
        words = [sys.executable, "-m", "camac", "survey", "@sample", "--driver", "mock"]
        done = subprocess.run(words, stdout=subprocess.DEVNULL, stderr=terminal, timeout=60, env={**os.environ, "PYTHONPATH": str(TOP / "python"), "CAMAC_PROGRAM": PROGRAM})
        os.close(terminal)
        self.assertEqual((done.returncode, os.read(ours, 1000)), (0, b"camac: crate 1, 1 of 1: 81 commands\r\n"))

    def test_words(self):
        for words in (["--only", "F16"], ["--also", "F0,23"], ["--also", "8"], ["--only", ""]):
            status, out, err = self.package("survey", "@sample", "--driver", "mock", *words)
            self.assertEqual((status, out), (2, ""), words)
            self.assertIn("F16 to F23 write, and a survey writes nothing", err)
        self.assertEqual(self.package("survey", "@sample")[0], 2)

    def test_drivers(self):
        self.write("neighbour.py", "from camac.mock import MockBranch\nmade = MockBranch({}, {})\n")
        for text, status, said in (
            ("import neighbour\nbranch = neighbour.made\n", 1, "nothing answers"),
            ("import neighbour\ndef branch(plan):\n    return neighbour.made if plan == '@sample' else None\n", 1, "nothing answers"),
            ("branch = 5\n", 2, "camac: d.py has no `branch` with demand, cycle, lock and unlock, and no function that makes one\n"),
            ("\nbranch = 1 // 0\n", 2, "camac: d.py:2: ZeroDivisionError: integer division or modulo by zero\n"),
            ("def branch(plan):\n    raise OSError(5, 'no crate controller')\n", 3, "camac: no crate controller\n"),
        ):
            self.write("d.py", text)
            found, out, err = self.package("survey", "@sample", "--driver", "d.py")
            self.assertEqual(found, status, err)
            self.assertIn(said, out if status == 1 else err)
        self.assertEqual(self.package("survey", "@sample", "--driver", "none.py")[0], 3)

    def test_record_and_report(self):
        self.write("plan.toml", (TOP / "examples/sample_plan.toml").read_text())
        self.write("other.toml", (self.room / "plan.toml").read_text() + "# other\n")
        (self.room / "straight.script").write_text(STRAIGHT_LINE)
        self.write("answers", "0 0 000000 0 000004\n1 1 000fff 2 000000\n")
        self.write("d.py", "from camac.mock import MockBranch, Adc, Register\nbranch = MockBranch({(1, 5): Adc(), (1, 6): Register()}, {(1, 5): 3})\n")
        for driver, status, said in (("d.py", 0, "nothing differs from the plan"), (TOP / "examples/live/my_branch.py", 1, "1 difference from the plan")):
            self.assertEqual(self.package("survey", "@sample", "--driver", driver, "-o", "s.json", "--overwrite")[0], status)
            for plan, more in (("@sample", ""), ("plan.toml", ""), ("other.toml", "; it was another plan")):
                words = ["report", plan, "straight.script", "answers", "-o", "r.html", "--survey", "s.json", "--write-record", "r.json", "--overwrite"]
                self.assertEqual(self.package(*words)[0], 1 if more else status)
                at = json.loads((self.room / "s.json").read_text())["at"]
                self.assertIn(f"crates and plan: surveyed at {at} by 81 commands: {said}{more}", (self.room / "r.html").read_text())
            record = camac.read_record(self.room / "r.json")
            self.assertEqual((record.survey.at, record.survey.sent, len(record.survey.differences)), (at, 81, status))
        branch = MockBranch.of_plan("@sample", {(1, 5): Adc()}, triggers=[[(1, 5)]])
        how = camac.Recording(self.room / "live.json", survey=self.room / "s.json")
        camac.drive("@sample", self.room / "straight.script", branch, self.room / "live.events", record=how)
        self.assertEqual(camac.read_record(self.room / "live.json").survey, record.survey)
        self.write("s.json", "{}")
        self.assertEqual(self.package("report", "@sample", "straight.script", "answers", "-o", "r.html", "--survey", "s.json")[::2], (3, "camac: s.json is no survey: camac-survey -o makes one\n"))


class Wrong(MockBranch):
    """A branch with one fault of a driver, by its name."""

    fault = ""

    def cycle(self, c, n, a, f, data):
        answer = super().cycle(c, n, a, f, data)
        if (c, n) not in self.modules and n < 28 and self.fault == f"X of F{f}":
            return answer._replace(x=1)
        if self.fault == "stuck" and (n, f) == (6, 0):
            return answer._replace(word=answer.word & ~8)
        if self.fault == "other way" and (n, f) == (6, 0):
            return answer._replace(word=int(f"{answer.word:08b}"[::-1], 2))
        if self.fault == "deaf" and n == 6:
            return answer._replace(x=0)
        if self.fault == "dead" and n == 28:
            raise OSError("no answer to Z")
        return answer._replace(wait=1) if self.fault == "lockout" and c in self.locked else answer


class DriverTest(Case):
    """camac-survey --driver-test: what a driver does wrong is found under the name of its rule, and nothing of a right one."""

    def found(self, fault="", plan=PLAN, register=(1, 6, 0), branch=None):
        file = self.write("bench.toml", plan)
        self.module = Register(width=8)
        self.module.word = 0x5A
        branch = branch or Wrong.of_plan(file, {(1, 5): Adc(), (1, 6): self.module})
        branch.fault = fault
        self.branch = branch
        found, self.asked = test_driver(file, branch, register)
        return {(it.rule, it.text) for it in found if it.kept is Kept.BREAKS}, found

    def test_right_driver(self):
        broken, found = self.found()
        self.assertEqual(broken, set())
        texts = [it.text for it in found]
        self.assertIn("16 words came back from the register: each of its 8 bits alone, and all others", texts)
        self.assertEqual((self.module.word, self.branch.locked, self.branch.inhibited, self.branch.silent), (0x5A, set(), set(), set()))
        self.assertRegex(" ".join(texts), r"microseconds of a cycle: \d+\.\d \(50 %\), \d+\.\d \(99 %\), \d+\.\d \(most\)")
        self.assertRegex(" ".join(texts), "waits of at most [0-2] cycles in 1,000; the plan permits 2")

    def test_what_is_sent(self):
        """F16 at the register alone, each bit alone and all others, and then what was there; each script is accepted."""
        self.found()
        sent = [it.request for asked in self.asked for it in asked.made]
        written = [it for it in sent if " out " in it]
        wanted = [word for bit in range(8) for word in (1 << bit, 255 - (1 << bit))]
        self.assertEqual(written, [f"cycle 1 6 0 16 out {word:06x}" for word in [*wanted, 0x5A]])
        others = {it for it in sent if " out " not in it}
        controller = {f"cycle 1 30 {a} {f} none" for a in (9, 10) for f in (24, 26, 27)} | {"cycle 1 28 8 26 none", "cycle 1 28 9 26 none"}
        self.assertEqual(others, {"cycle 1 6 0 0 in", "cycle 1 1 0 0 in", "cycle 1 1 0 8 none", "lock 1", "unlock 1"} | controller)
        for asked in self.asked:
            self.assertEqual(called("check", self.write("p", asked.script.plan), self.write("s", asked.script.text))[0], 0)

    def test_each_fault(self):
        for fault, rule, said in (
            ("stuck", "The operation", "8 of 16 words came back wrong, in the bits 3: 0000fe came back as 0000f6"),
            ("other way", "The operation", "16 of 16 words came back wrong, in the bits 0, 1, 2, 3, 4, 5, 6, 7: 000001 came back as 000080"),
            ("X of F0", "The answer", "X = 1, Q = 0 of F0 at station 1, which is empty"),
            ("X of F8", "The answer", "X = 1, Q = 0 of F8 at station 1, which is empty"),
            ("deaf", "The answer", "X = 0 of 34 of 34 cycles at the register"),
            ("lockout", "The operation", "the script `lock` did not come to its end: a wait of 1 cycles, which the plan does not permit"),
            ("dead", "The operation", "the script `controller` did not come to its end: OSError: no answer to Z"),
        ):
            with self.subTest(fault):
                self.assertEqual(self.found(fault)[0], {(rule, said)})
                self.assertEqual(self.branch.locked, set())

    def test_not_tried(self):
        plan = PLAN.replace("waits = 2\n", "")
        texts = [it.text for it in self.found(plan=plan)[1] if it.kept is Kept.NOT_TRIED]
        self.assertIn("the lockout: the plan has no waits in crate 1", texts)
        stations = ", ".join(f'{{ n = {n}, type = "OUTPUT-8" }}' for n in range(1, 24))
        full = PLAN[: PLAN.index("[[crate]]")] + f"[[crate]]\nnumber = 1\nstation = [ {stations} ]\n"
        found = self.found(plan=full, branch=Wrong({(1, n): Register(width=8) for n in range(1, 24)}, {}))
        self.assertEqual(found[0], set())
        self.assertIn("X and Q of an empty station: crate 1 has none", [it.text for it in found[1]])
        for place in ((1, 5, 0), (1, 6, 1), (1, 9, 0), (2, 6, 0)):
            self.assertRaises(camac.UsageFault, self.found, register=place)

    def test_interrupt_in_the_lock(self):
        branch = MockBranch.of_plan("@sample", {(1, 5): Adc(), (1, 6): Register(width=8)})
        cycle = branch.cycle

        def interrupted(*at):
            if branch.locked:
                raise KeyboardInterrupt
            return cycle(*at)

        branch.cycle = interrupted
        self.assertRaises(KeyboardInterrupt, test_driver, "@sample", branch, (1, 6, 0))
        self.assertEqual(branch.locked, set())

    def test_command(self):
        status, out, err = self.package("survey", "@sample", "--driver", "mock", "--driver-test", "1,6,0", "--keep", "kept")
        self.assertEqual((status, err, max(map(len, out.splitlines())) <= 80), (0, "", True))
        self.assertEqual([it for it in out.splitlines() if it[0] != " "], ["The start", "The operation", "The answer", "One at a time", "Time"])
        self.assertEqual(len(list((self.room / "kept").glob("*.answers"))), 5)
        driver = TOP / "examples/live/my_branch.py"
        self.assertEqual(self.package("survey", "@sample", "--driver", driver, "--driver-test", "1,6,0")[0], 1)
        for wrong in ("1,6", "8,6,0", "1,24,0", "1,6,16", "1,6,0\n"):
            self.assertEqual(self.package("survey", "@sample", "--driver", "mock", "--driver-test", wrong)[0], 2)
        self.assertEqual(self.package("survey", "@sample", "--driver", "mock", "--driver-test", "1,5,0")[::2], (2, "camac: the plan declares no register with F0 and F16 at crate 1 station 5 A0\n"))


if __name__ == "__main__":
    run_tests()
