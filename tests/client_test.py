#!/usr/bin/env python3
"""Tests of the Python package's side of a live run, without the program: tests/fake_camac is in its place. Tests of its models of modules.

usage: tests/client_test.py [-v] [TEST ..]     from any folder; takes a few seconds
"""
import json
import os
import pathlib
import signal
import time
import unittest
from unittest import mock

from support.live import PATIENCE, TOP, Broken, Case, Listed
import camac
from camac import Answer, Ending, RunEnd
from camac.mock import Adc, Auxiliary, Memory, MockBranch, Module, Register, Reply, Scaler

FAKE = TOP / "tests/fake_camac"


class Client(Case):
    """`camac.drive` against tests/fake_camac, which writes a fixed list of lines."""

    def drive(self, branch, *lines, timeout=PATIENCE, **scenario):
        path = self.write("scenario", json.dumps({"lines": lines, **scenario}))
        return camac.drive("@sample", path, branch, self.room / "answers", program=FAKE, timeout=timeout)

    def answers(self):
        return self.file("answers").decode().splitlines()

    def test_each_request(self):
        given = [Answer(gl=4), Answer(wait=2), Answer(1, 1, 0x123FFF), Answer(x=True, q=False), Answer(gl=5, wait=15), Answer(0xF // 15)]
        branch = Listed(*given)
        lines = ["demand", "lock 1", "cycle 1 5 0 0 in", "cycle 1 6 0 16 out 0000ff", "cycle 7 30 11 27 none", "cycle 1 23 15 31 none"]
        end = self.drive(branch, *lines, "unlock 1", "demand", at_end="ended events 1")
        self.assertEqual(end, RunEnd(Ending.ENDED, "ended events 1", 1))
        asked = [("cycle", 1, 5, 0, 0, None), ("cycle", 1, 6, 0, 16, 255), ("cycle", 7, 30, 11, 27, None), ("cycle", 1, 23, 15, 31, None)]
        self.assertEqual(branch.asked, [("demand",), ("lock", 1), *asked, ("unlock", 1), ("demand",)])
        wanted = ["0 0 000000 0 000004", "0 0 000000 2 000000", "1 1 123fff 0 000000", "1 0 000000 0 000000", "0 0 000000 f 000005"]
        self.assertEqual(self.answers(), [*wanted, "1 0 000000 0 000000"])

    def test_ends(self):
        for last, status, wanted in [
            ("ended events 12", 0, RunEnd(Ending.ENDED, "ended events 12", 12)),
            ("short events 0", 0, RunEnd(Ending.SHORT, "short events 0", 0)),
            ("overrun 1 wait 15 events 3", 1, RunEnd(Ending.OVERRUN, "overrun 1 wait 15 events 3", 3, 1, 15)),
            ("refused A4 line 1000001: too many answers", 1, RunEnd(Ending.REFUSED, "refused A4 line 1000001: too many answers")),
        ]:
            with self.subTest(last):
                self.assertEqual(self.drive(Listed(Answer(gl=4)), "demand", last, status=status), wanted)
                self.assertEqual(self.drive(Listed(), "demand", at_end=last, status=status), wanted)

    def test_refused_plan_and_script(self):
        for line, code, place in [
            ("refused P4: value out of range", "P4", None),
            ("refused E12 line 3: more cycles than annotated", "E12", 3),
        ]:
            branch = Listed()
            with self.assertRaises(camac.Refused) as raised:
                self.drive(branch, line, status=1)
            found = raised.exception
            self.assertEqual((str(found), found.code, found.line, branch.asked), (line, code, place, []))

    def test_faults_of_the_program(self):
        with self.assertRaises(camac.UsageFault) as raised:
            self.drive(Listed(), status=2, stderr="fault @in twice\n")
        self.assertEqual((str(raised.exception), raised.exception.status), ("fault @in twice", 2))
        with self.assertRaises(camac.ProgramFault) as raised:
            self.drive(Listed(Answer()), "demand", status=3, stderr="fault read\n")
        self.assertEqual((raised.exception.text, raised.exception.status, raised.exception.end), ("fault read", 3, None))
        with self.assertRaises(camac.ProgramFault) as raised:
            self.drive(Listed(), "demand", at_end="ended events 2", status=3, stderr="fault write\n")
        self.assertEqual((raised.exception.text, raised.exception.end), ("fault write", RunEnd(Ending.ENDED, "ended events 2", 2)))
        with self.assertRaises(camac.ProgramFault) as raised:
            self.drive(Listed(), "demand", signal=signal.SIGKILL)
        self.assertEqual((str(raised.exception), raised.exception.status), ("camac ended with status -9", -9))

    def test_a_program_that_is_none(self):
        with self.assertRaises(FileNotFoundError):
            camac.drive("@sample", "s", Listed(), "e", program=self.room / "none")
        with mock.patch.dict(os.environ, {"PATH": str(self.room), "CAMAC_PROGRAM": ""}):
            found = camac.find_program()
            self.assertEqual(pathlib.Path(found), TOP / "camac")
        with mock.patch.dict(os.environ, {"CAMAC_PROGRAM": "/a/program"}):
            self.assertEqual(camac.find_program(), "/a/program")
        self.assertEqual(camac.find_program("given"), "given")

    def test_what_is_no_request(self):
        for lines in [
            ["hello"],
            ["cycle 8 1 0 0 in"],
            ["cycle 1 1 0 0"],
            ["cycle 1 1 0 16 out ff"],
            ["demand "],
            ["lock 0"],
            [""],
            ["ended"],
            ["x" * 5000],
            ["ended events 1", "ended events 1"],
        ]:
            with self.subTest(lines), self.assertRaises(camac.ProtocolFault):
                self.drive(Listed(), *lines, "demand")
        for scenario in [{"at_end": "ended events 0", "status": 1}, {"at_end": "overrun 1 wait 3 events 0"}, {}]:
            with self.subTest(scenario), self.assertRaises(camac.ProtocolFault):
                self.drive(Listed(), "demand", **scenario)

    def test_a_request_after_the_end_of_the_input(self):
        program = self.write("program", "#!/bin/sh\necho demand; cat >/dev/null; echo demand; echo ended events 0\n")
        program.chmod(0o755)
        with self.assertRaises(camac.ProtocolFault):
            camac.drive("@sample", "s", Listed(), "e", program=program, timeout=PATIENCE)

    def test_a_program_that_takes_no_answer(self):
        program = self.write("program", "#!/bin/sh\nexec 0<&-\necho demand\nsleep 0.1\necho fault write >&2\nexit 3\n")
        program.chmod(0o755)
        with self.assertRaises(camac.ProgramFault) as raised:
            camac.drive("@sample", "s", Listed(Answer(gl=4)), "e", program=program, timeout=PATIENCE)
        self.assertEqual((raised.exception.text, raised.exception.status), ("fault write", 3))

    def test_long_standard_error(self):
        with self.assertRaises(camac.ProgramFault) as raised:
            self.drive(Listed(), "demand", status=3, stderr="x" * 1_000_000)
        self.assertEqual(len(raised.exception.text), 1_000_000)

    def test_time(self):
        with self.assertRaises(camac.TimeFault):
            self.drive(Listed(), sleep=PATIENCE, timeout=0.2)
        with self.assertRaises(camac.TimeFault):
            self.drive(Listed(), "ended events 0", sleep=PATIENCE, timeout=0.2)

    def test_a_time_that_is_none(self):
        """It is refused before the program starts."""
        for timeout in (-1, -0.001, float("nan"), float("inf"), 2_147_484):
            branch = Listed()
            with self.assertRaisesRegex(ValueError, "^a timeout is 0 to 2147483 seconds, not "):
                self.drive(branch, "demand", timeout=timeout)
            self.assertEqual(branch.asked, [])
            self.assertFalse((self.room / "answers").exists())
        self.assertEqual(self.drive(Listed(), "ended events 0", timeout=2_147_483).how, Ending.ENDED)

    def test_a_branch_that_fails(self):
        for error in (Broken("no power"), KeyboardInterrupt()):
            branch = Listed(Answer(gl=4), Answer(wait=1), error)
            with self.assertRaises(type(error)) as raised:
                self.drive(branch, "demand", "lock 3", "cycle 3 5 0 0 in", "unlock 3", at_end="short events 0")
            self.assertIs(raised.exception, error)
            self.assertEqual(branch.asked[-2:], [("cycle", 3, 5, 0, 0, None), ("unlock", 3)])
            self.assertEqual(len(self.answers()), 2)

    def test_a_branch_that_fails_with_the_program(self):
        error = Broken("no power")
        with self.assertRaises(Broken) as raised:
            self.drive(Listed(error), "demand", at_end="ended events 0", status=3, stderr="fault write\n")
        self.assertIs(raised.exception, error)
        if hasattr(error, "__notes__"):
            self.assertEqual(error.__notes__, ["and camac: fault write"])

    def test_answers_that_are_none(self):
        for given in (None, 4, (1, 1, 0, 0, 0), "1 1 000000 0 000000"):
            branch = Listed(Answer(gl=4), given)
            with self.subTest(given), self.assertRaises(TypeError):
                self.drive(branch, "demand", "lock 1", at_end="short events 0")
            self.assertEqual(branch.asked, [("demand",), ("lock", 1), ("unlock", 1)])

    def test_ranges(self):
        for name, greatest in [("x", 1), ("q", 1), ("word", 0xFFFFFF), ("wait", 15), ("gl", 0xFFFFFF)]:
            self.assertEqual(getattr(Answer(**{name: greatest}), name), greatest)
            for number in (-1, greatest + 1):
                with self.assertRaises(ValueError):
                    Answer(**{name: number})
            for what in (1.0, "1", None):
                with self.assertRaises(TypeError):
                    Answer(**{name: what})

    def test_locks_that_are_held(self):
        branch = Listed(*[Answer()] * 4)
        self.drive(branch, "demand", "lock 1", "lock 2", "cycle 2 1 0 0 in", "overrun 2 wait 1 events 0", status=1)
        self.assertEqual(branch.asked[4:], [("unlock", 2), ("unlock", 1)])
        branch = Listed(*[Answer()] * 2)
        with self.assertRaises(camac.ProgramFault):
            self.drive(branch, "demand", "lock 1", status=3, stderr="fault read\n")
        self.assertEqual(branch.asked[2:], [("unlock", 1)])
        branch = Listed(*[Answer()] * 2)
        with self.assertRaises(camac.ProtocolFault):
            self.drive(branch, "demand", "lock 1", "what")
        self.assertEqual(branch.asked[2:], [("unlock", 1)])
        branch = Listed(Answer(), Broken())
        with self.assertRaises(Broken):
            self.drive(branch, "demand", "lock 1")
        self.assertEqual(branch.asked, [("demand",), ("lock", 1)])

    def test_unlock_that_fails(self):
        class Stuck(Listed):
            def unlock(self, c):
                super().unlock(c)
                raise Broken(c)

        branch = Stuck(*[Answer()] * 3)
        with self.assertRaises(Broken) as raised:
            self.drive(branch, "demand", "lock 1", "lock 2", "unlock 2", "demand", at_end="ended events 1")
        self.assertEqual(raised.exception.args, (2,))
        self.assertEqual(branch.asked[3:], [("unlock", 2), ("unlock", 2), ("unlock", 1)])
        branch = Stuck(*[Answer()] * 3)
        with self.assertRaises(Broken) as raised:
            self.drive(branch, "demand", "lock 1", "lock 2", "short events 0")
        self.assertEqual(raised.exception.args, (2,))
        self.assertEqual(branch.asked[3:], [("unlock", 2), ("unlock", 1)])

    def test_an_interrupt_inside_a_lock(self):
        """It may have been taken, so it is released."""
        branch = Listed(Answer(gl=4), KeyboardInterrupt())
        with self.assertRaises(KeyboardInterrupt):
            self.drive(branch, "demand", "lock 1", at_end="short events 0")
        self.assertEqual(branch.asked, [("demand",), ("lock", 1), ("unlock", 1)])

    def test_a_program_that_does_not_end_after_a_failure(self):
        """It is killed after some time, however long it may take for a line."""
        began = time.monotonic()
        with mock.patch("camac.drive.PATIENCE", 0.2), self.assertRaises(Broken):
            self.drive(Listed(Broken()), "demand", at_end="short events 0", sleep=PATIENCE)
        self.assertLess(time.monotonic() - began, PATIENCE / 2)

    def test_nothing_is_left_open(self):
        before = os.listdir("/proc/self/fd")
        self.drive(Listed(), "demand", at_end="ended events 0")
        with self.assertRaises(camac.ProtocolFault):
            self.drive(Listed(), "what")
        self.assertEqual(len(os.listdir("/proc/self/fd")), len(before))


class Modules(unittest.TestCase):
    def test_look_at_me(self):
        module = Module(lam_at=12)
        self.assertEqual(module.cycle(12, 8, None), Reply(q=0))
        module.trigger()
        self.assertEqual(module.cycle(12, 8, None), Reply())
        module.cycle(12, 24, None)
        self.assertFalse(module.calls())
        module.cycle(12, 26, None)
        self.assertTrue(module.calls())
        module.cycle(12, 10, None)
        self.assertFalse(module.calls())
        self.assertEqual(module.cycle(11, 8, None), Reply(0, 0))
        module = Module()
        module.trigger()
        self.assertFalse(module.calls())

    def test_adc(self):
        adc = Adc(channels=4, width=8, pedestal=100, peak=1000, spread=1, hits=0.5, seed=3, lam_at=0)
        words = set()
        for _ in range(50):
            adc.trigger()
            words |= set(adc.words)
        self.assertIn(255, words)
        self.assertTrue({it for it in words if it < 255} <= set(range(90, 111)))
        self.assertEqual(adc.cycle(3, 0, None), Reply(word=adc.words[3]))
        self.assertEqual(adc.cycle(4, 0, None), Reply(q=0))
        last = adc.words[3]
        self.assertEqual((adc.cycle(3, 2, None).word, adc.words, adc.calls()), (last, [0] * 4, False))
        one, other = Adc(seed=5), Adc(seed=5)
        one.trigger()
        other.trigger()
        self.assertEqual(one.words, other.words)

    def test_scaler(self):
        scaler = Scaler(channels=2, rate=10)
        scaler.trigger()
        before = list(scaler.counts)
        scaler.cycle(0, 25, None)
        self.assertEqual(scaler.cycle(1, 2, None).word, before[1] + 1)
        self.assertEqual((scaler.cycle(1, 0, None).word, scaler.cycle(0, 0, None).word), (0, before[0] + 1))
        self.assertEqual(scaler.cycle(2, 0, None), Reply(q=0))
        scaler.counts[0] = 0xFFFFFF
        scaler.cycle(0, 25, None)
        self.assertEqual(scaler.counts[0], 0)

    def test_register(self):
        register = Register(width=8)
        self.assertEqual(register.cycle(0, 27, None), Reply(q=0))
        register.cycle(0, 16, 0x1F0)
        register.cycle(0, 18, 0x00F)
        register.cycle(0, 21, 0x081)
        self.assertEqual(register.cycle(0, 0, None), Reply(word=0x7E))
        self.assertEqual((register.cycle(0, 27, None), register.cycle(1, 0, None)), (Reply(), Reply(0, 0)))

    def test_memory(self):
        memory = Memory(size=2)
        self.assertEqual([memory.cycle(0, 16, word).q for word in (5, 6, 7)], [1, 1, 0])
        memory.cycle(1, 16, 0)
        self.assertEqual([memory.cycle(0, 0, None) for _ in range(3)], [Reply(word=5), Reply(word=6), Reply(q=0)])

    def test_auxiliary(self):
        auxiliary = Auxiliary(2)
        self.assertEqual({auxiliary.wait(False) for _ in range(100)}, {0, 1, 2})
        self.assertEqual({auxiliary.wait(True) for _ in range(100)}, {0})
        self.assertEqual({Auxiliary(1, seed, ignores_lockout=True).wait(True) for seed in range(100)}, {0, 1})

    def test_branch(self):
        branch = MockBranch({(1, 5): Adc(), (2, 1): Scaler()}, {(1, 5): 3, (2, 1): 24}, [[(1, 5)], (), [(2, 1)]])
        self.assertEqual([branch.demand() for _ in range(4)], [Answer(gl=4), Answer(gl=4), Answer(gl=0x800004), None])
        self.assertEqual(branch.cycle(1, 30, 0, 0, None).gl, 0x800004)
        branch.cycle(1, 28, 9, 26, None)
        self.assertEqual(branch.cycle(1, 30, 11, 27, None).gl, 0x800000)
        branch.cycle(2, 28, 8, 26, None)
        self.assertEqual((branch.pattern(), branch.modules[2, 1].lam_enabled), (0, False))
        self.assertEqual(branch.cycle(1, 6, 0, 0, None), Answer())


if __name__ == "__main__":
    unittest.main()
