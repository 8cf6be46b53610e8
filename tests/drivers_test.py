#!/usr/bin/env python3
"""Drivers that misbehave, over pipes: late, early, with two answers, with half a line, with garbage, gone, never reading, never answering. Each
run ends as docs/LIVE.md says, with all events so far in the file. The reader of tools/oracle says what it has to ask for and to leave.
If gcc is installed, the driver in C (examples/c/driver.c): it answers, and a signal at any moment leaves no lockout held; and drivers by their names over
a compiled library with the calls of mcstd that counts them: each command is made as often as it is told, and none else.

usage: tests/drivers_test.py [-v] [TEST ..]     from any folder; takes some seconds
"""
import collections
import ctypes
import fcntl
import select
import signal
import subprocess
import unittest

from support.live import LOCKOUT, PATIENCE, STRAIGHT_LINE, TOP, Case, Pipes
from support.needs import needed
import camac
from camac import library
from camac.mcstd import Mcstd
from camac.mock import Recorder
from oracle.reader.engines import Inputs, tell

# A call of a service, its cycles, and an idle demand between.
LINES = [b"0 0 000000 0 000004\n", b"1 1 123fff 2 000000\n", b"0 0 000000 0 000000\n"] * 3
LOCKED_LINES = [b"0 0 000000 0 000004\n", b"0 0 000000 2 000000\n", *[b"1 1 000abc 0 000000\n"] * 4] * 2
RUNS = ((STRAIGHT_LINE, LINES), (LOCKOUT, LOCKED_LINES))
BAD_LINES = (b"", b"hello", b"\xff" * 30, b"0 0 000000 0 000004 ", b"0,0,000000,0,000004", b"0 0 00000g 0 000004", b"2 0 000000 0 000004", b"0\n0")
GARBAGE = [it + b"\n" for it in BAD_LINES]
PIPE_SIZE = 4096
# fcntl.F_SETPIPE_SZ, which Python has from 3.10 on
SET_PIPE_SIZE = 1031


def wanted(script, answers):
    """What has to be written on these answers: all requests and the last line, the status, and the event file."""
    told = tell("drive", Inputs(None, script.encode(), answers))
    return told.out, told.status, told.events


class Misbehaving(Case):
    def setUp(self):
        super().setUp()
        self.events = self.room / "run.events"

    def pipes(self, script):
        self.events.unlink(missing_ok=True)
        return Pipes(self.room, "@sample", self.write("script", script), "run.events")

    def expect_end(self, pipes, script, answers, output):
        """The rest of the output, once the input has ended, and what is left."""
        rest, status, errors = pipes.end()
        self.assertEqual((output + rest, status, errors), (*wanted(script, answers)[:2], b""))
        self.assertEqual(self.events.read_bytes(), wanted(script, answers)[2])

    def expect_asked(self, output, script, answers):
        """What was asked for so far, and the events so far in the file."""
        told, _, events = wanted(script, answers)
        self.assertEqual(output, told[: told.rstrip(b"\n").rfind(b"\n") + 1])
        self.assertEqual(self.events.read_bytes(), events)

    def give(self, pipes, data):
        pipes.process.stdin.write(data)

    def talk(self, pipes, script, lines):
        """Gives each answer when its request is there. Returns all requests."""
        output = pipes.requests()
        for line in lines:
            self.give(pipes, line)
            output += pipes.requests()
        self.expect_asked(output, script, b"".join(lines))
        return output

    def test_late(self):
        """Nothing is written until the answer comes, and all events so far are in the file."""
        for script, lines in RUNS:
            with self.pipes(script) as pipes:
                output = pipes.requests()
                for count, line in enumerate(lines):
                    self.assertTrue(pipes.is_quiet())
                    self.expect_asked(output, script, b"".join(lines[:count]))
                    self.give(pipes, line)
                    output += pipes.requests()
                self.expect_end(pipes, script, b"".join(lines), output)

    def test_early(self):
        """All answers before any request is read."""
        for script, lines in RUNS:
            with self.pipes(script) as pipes:
                self.give(pipes, b"".join(lines))
                self.expect_end(pipes, script, b"".join(lines), b"")

    def test_two_answers(self):
        """A second answer to a request is taken for the next one."""
        for script, lines in RUNS:
            for place in range(len(lines)):
                given = lines[:place] + [lines[place]] + lines[place:]
                with self.subTest(place=place), self.pipes(script) as pipes:
                    for line in given:
                        self.give(pipes, line)
                    self.expect_end(pipes, script, b"".join(given), b"")

    def test_half_a_line(self):
        """The rest of a line comes later: nothing is done before it is there."""
        for cut in range(1, 20):
            with self.subTest(cut=cut), self.pipes(STRAIGHT_LINE) as pipes:
                output = pipes.requests()
                for count, line in enumerate(LINES[:2]):
                    self.give(pipes, line[:cut])
                    self.assertTrue(cut < 3 or cut > 17 or pipes.is_quiet())
                    self.expect_asked(output, STRAIGHT_LINE, b"".join(LINES[:count]))
                    self.give(pipes, line[cut:])
                    output += pipes.requests()
                self.expect_end(pipes, STRAIGHT_LINE, b"".join(LINES[:2]), output)

    def test_half_a_line_and_gone(self):
        for script, lines in RUNS:
            for place in (0, 1, 3, 5):
                for cut in (1, 10, 18, 19):
                    given = b"".join(lines[:place]) + lines[place][:cut]
                    with self.subTest(place=place, cut=cut), self.pipes(script) as pipes:
                        self.give(pipes, given)
                        self.expect_end(pipes, script, given, b"")

    def test_garbage(self):
        for script, lines in RUNS:
            for place in range(len(lines)):
                for garbage in GARBAGE:
                    given = b"".join(lines[:place]) + garbage + b"".join(lines[place:])
                    with self.subTest(place=place, garbage=garbage), self.pipes(script) as pipes:
                        self.give(pipes, given)
                        self.expect_end(pipes, script, given, b"")

    def test_garbage_without_an_end(self):
        """A line is refused at its twentieth byte: the program ends, though the input does not."""
        for place in range(len(LINES)):
            given = b"".join(LINES[:place]) + b"0 0 000000 0 0000000"
            with self.subTest(place=place), self.pipes(STRAIGHT_LINE) as pipes:
                self.give(pipes, given)
                output = b""
                while piece := pipes.read():
                    output += piece
                self.assertEqual((output, pipes.process.wait(PATIENCE)), wanted(STRAIGHT_LINE, given)[:2])
                self.assertEqual(self.events.read_bytes(), wanted(STRAIGHT_LINE, given)[2])

    def expect_fault(self, pipes, events):
        """The requests have no reader any more, and no fault names them."""
        self.assertEqual((pipes.process.stderr.read(), pipes.process.wait(PATIENCE)), (b"", 141))
        self.assertEqual(self.events.read_bytes(), events)

    def test_gone(self):
        """A driver that ends at a request: the last line is not taken, which is a fault, and the events so far are there."""
        for script, lines in RUNS:
            for count in range(len(lines) + 1):
                with self.subTest(count=count), self.pipes(script) as pipes:
                    self.talk(pipes, script, lines[:count])
                    pipes.process.stdout.close()
                    pipes.process.stdin.close()
                    self.expect_fault(pipes, wanted(script, b"".join(lines[:count]))[2])
                    pipes.process.stdout = pipes.process.stdin = None

    def test_gone_with_an_answer(self):
        """One that answers and reads no more. The record of an event comes after the lines that release its lockouts, and before the next
        request."""
        for script, lines in RUNS:
            for count in range(len(lines)):
                with self.subTest(count=count), self.pipes(script) as pipes:
                    output = self.talk(pipes, script, lines[:count])
                    pipes.process.stdout.close()
                    self.give(pipes, lines[count])
                    given = b"".join(lines[: count + 1])
                    is_released = wanted(script, given)[0][len(output) :].startswith(b"unlock")
                    self.expect_fault(pipes, wanted(script, b"".join(lines[:count]) if is_released else given)[2])
                    pipes.process.stdin.close()
                    pipes.process.stdout = pipes.process.stdin = None

    def blocked(self, script, answers):
        """How many answers the program has taken when a pipe of so many bytes has no room for its next request."""
        size = 0
        for number, request in enumerate(wanted(script, answers)[0].splitlines(True)):
            size += len(request)
            if size > PIPE_SIZE:
                return number
        raise AssertionError("there is room for all")

    def test_never_reading(self):
        """The program waits with its next request. It goes on when the requests are read, and fails when nobody can read them any more."""
        answers = b"".join(LINES[:2]) * 400
        for is_read in (True, False):
            with self.subTest(is_read=is_read), self.pipes(STRAIGHT_LINE) as pipes:
                fcntl.fcntl(pipes.process.stdout, SET_PIPE_SIZE, PIPE_SIZE)
                self.give(pipes, answers)
                taken = self.blocked(STRAIGHT_LINE, answers)
                events = wanted(STRAIGHT_LINE, answers[: 20 * taken])[2]
                self.wait_for(lambda: self.events.exists() and self.events.read_bytes() == events)
                self.assertIsNone(pipes.process.poll())
                if is_read:
                    self.expect_end(pipes, STRAIGHT_LINE, answers, b"")
                else:
                    pipes.process.stdout.close()
                    self.expect_fault(pipes, events)
                    pipes.process.stdin.close()
                    pipes.process.stdout = pipes.process.stdin = None

    def wait_for(self, is_so):
        for _ in range(PATIENCE * 100):
            if is_so():
                return
            subprocess.run(["sleep", "0.01"], check=True)
        self.fail("it does not come")

    def test_never_answering(self):
        for script, lines in RUNS:
            for count in range(len(lines) + 1):
                with self.subTest(count=count), self.pipes(script) as pipes:
                    output = self.talk(pipes, script, lines[:count])
                    self.assertTrue(pipes.is_quiet())
                    self.expect_end(pipes, script, b"".join(lines[:count]), output)


@needed("gcc")
class InC(Case):
    """The driver in C. Here the requests are written by the test, in the place of camac."""

    REQUESTS = ["demand", "lock 1", *["cycle 1 5 0 0 in"] * 4, "unlock 1\ndemand", "lock 1", "lock 2", "cycle 1 6 0 16 out 0000ff", "unlock 2"]

    def setUp(self):
        super().setUp()
        self.driver = self.room / "driver"
        words = ["gcc", "-std=c99", "-Wall", "-Wextra", "-Wpedantic", "-Wconversion", "-Werror"]
        subprocess.run([*words, TOP / "examples/c/driver.c", "-o", self.driver], check=True)

    def start(self):
        how = {"stdin": subprocess.PIPE, "stdout": subprocess.PIPE, "stderr": subprocess.PIPE}
        return subprocess.Popen([self.driver], bufsize=0, **how)

    def give(self, driver, requests):
        """Gives each request when the one before is answered."""
        for request in requests:
            driver.stdin.write(request.encode() + b"\n")
            if not request.startswith("unlock 2"):
                self.assertTrue(select.select([driver.stdout], [], [], PATIENCE)[0], request)
                self.assertEqual(len(driver.stdout.readline()), 20)

    def expect_released(self, driver, given, answered):
        """What it took is released, once. `answered` is how many answers were read."""
        out, errors = driver.communicate(timeout=PATIENCE)
        asked = [it for it in "\n".join(given).split("\n") if not it.startswith("unlock")]
        taken = [f"lockout of crate {it[5:]} released" for it in asked[: answered + out.count(b"\n")] if it.startswith("lock")]
        self.assertEqual((sorted(errors.decode().splitlines()), driver.returncode), (sorted(taken), 0))

    def answers(self, requests):
        return sum(not it.startswith("unlock 2") for it in requests)

    def test_signals_at_each_request(self):
        for number in (signal.SIGINT, signal.SIGTERM, signal.SIGHUP):
            for count in range(len(self.REQUESTS) + 1):
                with self.subTest(signal=number, count=count), self.start() as driver:
                    # the first answer shows that it heeds signals
                    self.give(driver, self.REQUESTS[: max(count, 1)])
                    driver.send_signal(number)
                    self.expect_released(driver, self.REQUESTS[: max(count, 1)], self.answers(self.REQUESTS[: max(count, 1)]))

    def test_signals_beside_each_request(self):
        for count in range(1, len(self.REQUESTS)):
            for is_before in (False, True):
                with self.subTest(count=count, is_before=is_before), self.start() as driver:
                    self.give(driver, self.REQUESTS[:count])
                    if is_before:
                        driver.send_signal(signal.SIGINT)
                    try:
                        driver.stdin.write(self.REQUESTS[count].encode() + b"\n")
                    except BrokenPipeError:
                        pass
                    if not is_before:
                        driver.send_signal(signal.SIGINT)
                    self.expect_released(driver, self.REQUESTS[: count + 1], self.answers(self.REQUESTS[:count]))

    def test_no_reader_and_no_more_requests(self):
        for count in range(1, len(self.REQUESTS)):
            with self.subTest(count=count), self.start() as driver:
                self.give(driver, self.REQUESTS[:count])
                self.expect_released(driver, self.REQUESTS[:count], self.answers(self.REQUESTS[:count]))
            with self.subTest(count=count), self.start() as driver:
                self.give(driver, self.REQUESTS[:count])
                driver.stdout.close()
                driver.stdin.write(b"lock 3\ncycle 1 5 0 0 in\n")
                errors = driver.stderr.read().decode()
                self.assertEqual(errors.count("released"), "\n".join(self.REQUESTS[:count]).count("\nlock") + 1)
                self.assertEqual(driver.wait(PATIENCE), 0)


PLAN = """\
[[type]]
name = "ADC"
commands = [ { f = 0, a = 0, to = 11, width = 12 }, { f = 8, a = 12 }, { f = 10, a = 12 }, { f = 24, a = 12 }, { f = 26, a = 12 } ]
[[type]]
name = "REG"
commands = [ { f = 0, a = 0, width = 24 }, { f = 16, a = 0, width = 24 }, { f = 27, a = 0 } ]
[[crate]]
number = 1
station = [ { n = 5, type = "ADC", gl = 3 }, { n = 6, type = "REG" } ]
"""
SCRIPT = """\
cdlam adc 1 1 5 12
var a v
service adc within 30 cycles event 13 words {
  lock 1 { for a = 0 to 11 { cdreg r 1 1 5 a  cfsa 0 r -> v  put v } }
  cdreg w 1 1 6 0
  cfsa 16 w <- 11259375
  cfsa 0 w -> v  put v
  cfsa 27 w
  ctlm adc  ctgl 1  ctci 1  ccci 1 on  ccci 1 off  cccc 1  cccd 1 on
  cclc adc
}
"""
START = "cdlam adc 1 1 5 12\nservice adc within 9 cycles event 0 words { cccz 1  cccd 1 on  ccci 1 off  cclm adc on }\n"
EVENTS = 20


@needed("gcc")
class OverMcstd(Case):
    def setUp(self):
        super().setUp()
        self.plan, self.script = self.write("plan.toml", PLAN), self.write("s.script", SCRIPT)

    def built(self, name, *words):
        file = self.room / name
        words = ["-DINIT=1", *words]
        subprocess.run(["gcc", "-shared", "-fPIC", "-Wall", "-Werror", *words, TOP / "tests/library/mcstd_library.c", "-o", file], check=True)
        return file

    def counted(self, file):
        """How often each command was made, by the library's own account."""
        stub = ctypes.CDLL(str(file))
        every = ((c, n, a, f) for c in range(8) for n in range(32) for a in range(16) for f in range(32))
        return {at: stub.stub_count(*at) for at in every if stub.stub_count(*at)}, stub.stub_others()

    def told(self, operations):
        cycles = [tuple(map(int, it.request.split()[1:5])) for it in operations if it.request.startswith("cycle")]
        # mcstd has no tests of the controller, and no demand output
        return {at: count for at, count in collections.Counter(cycles).items() if at[1] != 30 or (at[2:] in ((9, 24), (9, 26)))}

    def play(self, play, file, options=""):
        """Plays EVENTS events, and returns what was told."""
        branch = camac.driver(f"mcstd:{file}{options}", self.plan, 5.0)
        recorder = Recorder(branch)
        demand, left = recorder.demand, iter(range(EVENTS))
        recorder.demand = lambda: demand() if next(left, None) is not None else None
        events = self.room / f"{file.name}.events"
        self.assertEqual(play(self.plan, self.script, recorder, events).line, f"ended events {EVENTS}")
        return recorder.operations, list(camac.read_events(events))

    def test_each_command_as_often_as_told(self):
        """By drive and by play, with 32 and with 64 bits in a DWORD; words are those of the library, and nothing is kept of the bits above 24."""
        ways = [("drive", camac.drive)] + ([("play", camac.play)] if library.is_there() else [])
        for name, play in ways:
            for bits, words in (("32", []), ("64", ["-DDWORD=unsigned long"])):
                file = self.built(f"lib{name}{bits}.so", *words)
                operations, events = self.play(play, file)
                self.assertEqual(self.counted(file), (self.told(operations), 0))
                self.assertEqual({it.words for it in events}, {(*(0x100 + a for a in range(12)), 0xABCDEF)})
                self.assertEqual((self.counted(file)[0][1, 6, 0, 16], self.counted(file)[0][1, 5, 12, 10]), (EVENTS, EVENTS))

    def test_options(self):
        """x reads to test, lam enables once and clears behind each F10: 1005, and 20 times 1005000."""
        file = self.built("lib.so")
        operations, _ = self.play(camac.drive, file, ",lam")
        self.assertEqual(self.counted(file), (self.told(operations), 1005 + EVENTS * 1005000))
        tests = Mcstd(str(file), camac.plan(self.plan))
        reads = Mcstd(str(file), camac.plan(self.plan), frozenset("x"))
        self.assertEqual([(it.x, it.q) for it in (tests.cycle(1, 9, 0, 8, None), reads.cycle(1, 6, 0, 27, None))], [(1, 0), (1, 1)])
        self.assertEqual(reads.demand(), camac.Answer(gl=4))
        self.assertEqual([(it.x, it.q, it.word) for it in (reads.cycle(1, 6, 3, 27, None), reads.cycle(1, 5, 12, 8, None))], [(0, 0, 0), (1, 1, 0)])

    def test_by_name(self):
        """In `drive`, `play`, `call`, and of the survey and the example of a readout."""
        file = self.built("lib.so")
        self.assertEqual(camac.call(self.plan, self.write("start.script", START), "adc", f"mcstd:{file}").line, "ended events 1")
        self.assertEqual(self.counted(file)[0], {(1, 28, 8, 26): 1, (1, 30, 9, 24): 1, (1, 5, 12, 26): 1})
        for play in [camac.drive] + [camac.play] * library.is_there():
            with self.assertRaisesRegex(camac.UsageFault, "with ,x and ,lam behind it"):
                play(self.plan, self.script, f"mcstd:{file},y", self.room / "e")
        status, out, err = self.package("survey", self.plan, "--driver", f"mcstd:{file},x", "--empty")
        self.assertEqual((status, err), (0, ""))
        self.assertRegex(out, "sent 749, agree 15, differ 0, not declared 0\n$")
        status, out, err = self.package("survey", self.plan, "--driver", f"mcstd:{file}")
        self.assertEqual((status, err), (3, "camac: this driver tells no X of functions that move no data: ask for F0 and F1 alone, or let it read to tell X (mcstd:LIBRARY,x)\n"))
        self.assertEqual(self.package("survey", self.plan, "--driver", f"mcstd:{file}", "--only", "F0")[0], 0)
        status, out, err = self.package("survey", self.plan, "--driver", f"mcstd:{file},x", "--driver-test", "1,6,0")
        self.assertEqual((status, err, "48 words came back" in out), (0, "", True))
        status, out, err = self.package("survey", self.plan, "--driver", f"mcstd:{file}", "--driver-test", "1,6,0")
        self.assertEqual((status, "  BREAKS     X = 1, Q = 0 of F8 at station 1, which is empty\n" in out), (1, True))

    def test_example_of_a_readout(self):
        file = self.built("lib.so")
        once = "cdlam adc 1 1 5 12\nservice adc within 3 cycles event 0 words { cccd 1 off }\n"
        words = [TOP / "examples/live/readout.py", self.plan, self.write("start", START), "adc", self.write("once", once), "e", "--driver", f"mcstd:{file}", "--patience", "0.1"]
        status, out = self.shell(f"PYTHONPATH={TOP}/python CAMAC_PROGRAM=$camac python3 {' '.join(map(str, words))}")[:2]
        self.assertEqual((status, out), (0, b"start: ended events 1\nreadout: ended events 1\n"))

    def test_demands(self):
        """The bits of L lines by the plan; none while the demand output is off; None after the patience."""
        branch = Mcstd(str(self.built("lib.so")), camac.plan(self.plan), patience=0.02)
        self.assertEqual(branch.demand(), camac.Answer(gl=4))
        self.assertEqual([branch.cycle(1, 30, a, f, None).gl for a, f in ((0, 0), (11, 27), (9, 27))], [4, 4, 0])
        branch.cycle(1, 30, 10, 24, None)
        self.assertIsNone(branch.demand())
        branch.cycle(1, 30, 10, 26, None)
        self.assertEqual(branch.demand(), camac.Answer(gl=4))
        branch.cycle(1, 28, 8, 26, None)
        self.assertIsNone(branch.demand())

    def test_crate_that_does_not_answer(self):
        file = self.built("lib.so")
        branch = Mcstd(str(file), camac.plan(self.plan))
        self.assertEqual(branch.cycle(1, 9, 0, 0, None), camac.Answer(word=0xFFFFFF))
        ctypes.CDLL(str(file)).stub_cut()
        self.assertRaisesRegex(OSError, r"crate 1 does not answer \(camc_chk\)", branch.cycle, 1, 5, 0, 0, None)
        with self.assertRaisesRegex(OSError, "crate 1 does not answer"):
            camac.drive(self.plan, self.script, branch, self.room / "e")

    def test_lockout(self):
        self.assertEqual(Mcstd(str(self.built("lib.so")), camac.plan(self.plan)).lock(1), camac.Answer())
        waits = self.write("waits.toml", PLAN.replace("number = 1\n", "number = 1\nwaits = 1\n"))
        branch = Mcstd(str(self.room / "lib.so"), camac.plan(waits))
        self.assertRaisesRegex(OSError, "mcstd has no lockout, and the plan has auxiliary controllers in crate 1", branch.lock, 1)

    def test_libraries_that_do_not_serve(self):
        plan = camac.plan(self.plan)
        self.assertRaisesRegex(OSError, "cam_init found no controller", Mcstd, str(self.built("none.so", "-UINIT", "-DINIT=0")), plan)
        self.assertRaisesRegex(OSError, "has no cam_init", Mcstd, str(self.built("less.so", "-DWITHOUT_INIT")), plan)
        self.assertRaises(OSError, Mcstd, "libnowhere.so", plan)
        for name in ("mcstd:", "mcstd:,x", "mcstd:a.so,X"):
            self.assertRaises(camac.UsageFault, camac.driver, name, self.plan)


if __name__ == "__main__":
    unittest.main()
