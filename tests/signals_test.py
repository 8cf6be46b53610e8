#!/usr/bin/env python3
"""Signals that end a process, in a run of `camac.drive` and `camac.play`: after SIGINT, SIGTERM or SIGHUP, at each request, once and three times, no
lockout is held, each was released once, the record has an end, and the status of the process tells the signal.

usage: tests/signals_test.py [-v] [TEST ..]     from any folder, over a built program; takes some seconds

`camac.play` is tried where the library for C is there (tests/support/of_c.py).
"""
import itertools
import json
import os
import signal
import subprocess
import sys
import threading
import time
from unittest import mock

from support import of_c
from support.live import LOCKOUT, PATIENCE, PROGRAM, TOP, Broken, Case, Listed, run_tests
import camac
from camac import Answer

ENDS = (signal.SIGINT, signal.SIGTERM, signal.SIGHUP)
WAYS = ("drive", "play") if of_c.is_here() else ("drive",)
# In LOCKOUT: demand, lock, four cycles, unlock, demand. The event is there once the lockout is released.
LOCK, UNLOCK, LAST = 2, 7, 8
# Runs whose branch sends signals to its own process: the first in the request of a number, each further one where a lockout is released. If there
# is none to send it says so, and waits in that request. Each of several cases has a process and a folder of its own.
PROGRAM_TEXT = """import json, os, sys, time
sys.path.insert(0, sys.argv[1])
sys.dont_write_bytecode = True
import camac.library, camac.record
cases = json.loads(sys.argv[2])
for case, (way, number, times, place) in enumerate(cases):
    child = os.fork() if len(cases) > 1 else 0
    if child == 0:
        break
    print(os.waitstatus_to_exitcode(os.waitpid(child, 0)[1]), flush=True)
else:
    sys.exit()
if len(cases) > 1:
    os.chdir(str(case))
    for stream in (1, 2):
        os.dup2(os.open("said", os.O_WRONLY | os.O_CREAT | os.O_APPEND), stream)
class Branch:
    asked = sent = 0
    def come(self):
        self.asked += 1
        if self.asked == place and not times:
            print("waits", flush=True)
            for _ in range(6000):
                time.sleep(0.01)  # a signal that comes just before a sleep does not end it
        if self.asked == place or 0 < self.sent < times:
            self.sent += 1
            os.kill(os.getpid(), number)
    def demand(self):
        self.come()
        return camac.Answer(gl=4)
    def lock(self, c):
        print("lock", c, flush=True)
        self.come()
        return camac.Answer()
    def cycle(self, c, n, a, f, data):
        self.come()
        return camac.Answer(1, 1)
    def unlock(self, c):
        self.come()
        print("unlock", c, flush=True)
        while 0 < self.sent < times:
            self.come()
try:
    getattr(camac, way)("@sample", sys.argv[3], Branch(), "run.events", record="run.json")
finally:
    print("unwound", flush=True)
"""


class Ends(Case):
    """Each case is a process of its own."""

    def start(self, *cases):
        words = [sys.executable, "-c", PROGRAM_TEXT, TOP / "python", json.dumps(cases), self.write("script", LOCKOUT)]
        # What runs in the background of a shell ignores this signal, and so do its children.
        how = {"preexec_fn": lambda: signal.signal(signal.SIGINT, signal.default_int_handler), "start_new_session": True, "cwd": self.room}
        environment = {**os.environ, "CAMAC_PROGRAM": PROGRAM, **(of_c.environment() if of_c.is_here() else {})}
        return subprocess.Popen(words, env=environment, stdout=subprocess.PIPE, stderr=subprocess.STDOUT, text=True, **how)

    def expect(self, room, said, status, numbers, place):
        """Each lockout was released once, the record has an end, and the status tells one of these signals, as a shell sees it."""
        self.assertIn(status - 128 if status > 0 else -status, numbers)
        told = json.loads((room / "run.json").read_text())
        self.assertIn((told["how"], told["line"]), [("failed", f"ended by {it.name}") for it in numbers])
        self.assertEqual((told["events"]["counts"], told["end"] is None), ({"adc": int(place >= UNLOCK)}, False))
        self.assertEqual(len([*camac.read_events(room / "run.events")]), int(place >= UNLOCK))
        self.assertEqual([it for it in said.splitlines() if it.endswith("lock 1")], ["lock 1", "unlock 1"] if place >= LOCK else [])

    def test_at_each_request(self):
        cases = list(itertools.product(WAYS, ENDS, (1, 3), range(1, LAST + 1)))
        for number in range(len(cases)):
            (self.room / str(number)).mkdir()
        with self.start(*cases) as started:
            out, _ = started.communicate(timeout=5 * PATIENCE)
        for at, (status, (way, number, times, place)) in enumerate(zip(out.splitlines(), cases, strict=True)):
            with self.subTest(way=way, signal=number.name, times=times, place=place):
                room = self.room / str(at)
                said = (room / "said").read_text()
                self.expect(room, said, int(status), [number], place)
                self.assertEqual(said.split()[-1], "KeyboardInterrupt" if number == signal.SIGINT else "unwound")

    def test_three_at_once(self):
        """A terminal sends them to the whole group of processes: the driver gets them alone, and ends the run."""
        for way, numbers, place in itertools.product(WAYS, (*([it] * 3 for it in ENDS), ENDS), (1, 4)):
            for name in ("run.events", "run.json"):
                (self.room / name).unlink(missing_ok=True)
            with self.subTest(way=way, signals=numbers, place=place), self.start((way, 0, 0, place)) as started:
                said = list(itertools.takewhile("waits\n".__ne__, started.stdout))
                for it in numbers:
                    os.killpg(started.pid, it)
                said.append(started.communicate(timeout=PATIENCE)[0])
                self.expect(self.room, "".join(said), started.returncode, set(numbers), place)


class Sends(Listed):
    """A branch in whose releases these signals come, one after the other."""

    def __init__(self, numbers, *answers):
        super().__init__(*answers)
        self.numbers = [*numbers]

    def unlock(self, crate):
        if self.numbers:
            os.kill(os.getpid(), self.numbers.pop(0))
        super().unlock(crate)


class Handlers(Case):
    """The handlers of signals, in this process."""

    def setUp(self):
        super().setUp()
        self.write("script", LOCKOUT)
        if of_c.is_here():
            os.environ.update(of_c.environment())
        for number in ENDS:
            self.addCleanup(signal.signal, number, signal.getsignal(number))
        signal.signal(signal.SIGINT, signal.default_int_handler)

    def run_of(self, way, branch, **more):
        (self.room / "run.events").unlink(missing_ok=True)
        more.update({"program": PROGRAM, "timeout": PATIENCE} if way == "drive" else {})
        return getattr(camac, way)("@sample", self.room / "script", branch, self.room / "run.events", **more)

    def each(self, *answers, numbers=()):
        """A branch for each way."""
        for way in WAYS:
            with self.subTest(way):
                yield way, Sends(numbers, *answers)

    def test_they_are_put_back(self):
        """However the run ends; and what is ignored stays ignored."""
        signal.signal(signal.SIGHUP, signal.SIG_IGN)
        before = [signal.getsignal(it) for it in ENDS]
        for last in (None, Broken(), KeyboardInterrupt()):
            for way, branch in self.each(Answer(gl=4), Answer(), *[Answer()] * 4, last, numbers=[signal.SIGHUP]):
                try:
                    self.run_of(way, branch)
                except (Broken, KeyboardInterrupt) as error:
                    self.assertIs(error, last)
                self.assertEqual([signal.getsignal(it) for it in ENDS], before)
                self.assertEqual(branch.asked.count(("unlock", 1)), 1)

    def test_one_of_the_user(self):
        """It is called where the signal comes, and behind a release, and the run goes on."""
        calls = []
        signal.signal(signal.SIGTERM, lambda number, _: calls.append((number, branch.asked[-1])))
        for way, branch in self.each(*([Answer(gl=4), Answer(), *[Answer()] * 4] * 2), numbers=[signal.SIGTERM]):
            self.assertEqual(self.run_of(way, branch).line, "ended events 2")
            self.assertEqual((calls, branch.asked.count(("unlock", 1))), ([(signal.SIGTERM, ("unlock", 1))], 2))
            calls.clear()

    def test_a_signal_in_the_last_release(self):
        """It is raised behind it, in the place of what the branch raised before; of two equal ones the first."""
        for way, branch in self.each(Answer(gl=4), Answer(), Broken(), numbers=[signal.SIGTERM]):
            with self.assertRaises(SystemExit) as raised:
                self.run_of(way, branch)
            self.assertEqual((raised.exception.code, type(raised.exception.__context__)), (143, Broken))
            self.assertEqual(branch.asked[-1], ("unlock", 1))
        first = KeyboardInterrupt()
        for way, branch in self.each(Answer(gl=4), Answer(), first, numbers=[signal.SIGINT]):
            with self.assertRaises(KeyboardInterrupt) as raised:
                self.run_of(way, branch)
            self.assertIs(raised.exception, first)

    def test_one_that_the_branch_catches(self):
        """The next one comes to it, too."""

        class Catches(Listed):
            caught = 0

            def demand(self):
                for _ in range(2):
                    try:
                        os.kill(os.getpid(), signal.SIGINT)
                        time.sleep(PATIENCE)
                    except KeyboardInterrupt:
                        self.caught += 1

        for way, _ in self.each():
            branch = Catches()
            self.assertEqual(self.run_of(way, branch).line, "ended events 0")
            self.assertEqual(branch.caught, 2)

    def test_in_another_thread(self):
        """Nothing is changed there."""
        during = []

        class Looks(Listed):
            def demand(self):
                during.append([signal.getsignal(it) for it in ENDS])

        for way, _ in self.each():
            thread = threading.Thread(target=self.run_of, args=(way, Looks()))
            thread.start()
            thread.join(PATIENCE)
        self.assertEqual(during, [[signal.getsignal(it) for it in ENDS]] * len(WAYS))

    def test_the_record(self):
        """A signal waits while the record is written."""
        from camac import record

        def write(*given, write=record._write):
            os.kill(os.getpid(), signal.SIGTERM)
            write(*given)

        for way, _ in self.each():
            (self.room / "run.json").unlink(missing_ok=True)
            with mock.patch.object(record, "_write", write), self.assertRaises(SystemExit):
                self.run_of(way, Listed(), record=self.room / "run.json")
            self.assertIsNotNone(json.loads(self.file("run.json"))["end"])


if __name__ == "__main__":
    run_tests()
