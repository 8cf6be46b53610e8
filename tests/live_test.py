#!/usr/bin/env python3
"""Tests of live runs with the program: `camac drive` over pipes, `camac.drive` of the Python package, and its branch without hardware.

usage: tests/live_test.py [-v] [TEST ..]     from any folder; takes about half a minute
"""
import contextlib
import itertools
import os
import signal
import subprocess

from support.live import LOCKOUT, OPENING, PATIENCE, PROGRAM, STRAIGHT_LINE, TOP, Broken, Case, Listed, Pipes, run_tests, script
from support.program import EVENT_FILE
import camac
from camac import Answer, Ending, RunEnd
from camac.mock import Adc, Auxiliary, Faulty, MockBranch, Recorder, Register

LONG = OPENING.format(30_000, 0) + "for i = 1 to 9999 { cclc adc }\n}\n"
DEMAND = "0 0 000000 0 000004"
CYCLE = "1 1 123fff 2 000000"
WAIT_0, WAIT_1, WAIT_2 = (f"0 0 000000 {wait} 000000" for wait in range(3))
HEADER = EVENT_FILE[:8]
HOLDS_BYTES = b"fault write\n  night: it holds bytes; a live run needs a file of its own\n"
CLOSED = b"fault read\n  @in: it is closed, or a folder\n"


def requested(line):
    """The request for the operation of a line of a listing."""
    kind, *words = line.split(" ")
    if kind == "demand":
        return kind
    if kind == "cycle":
        return " ".join([kind, *words[: 6 if words[4] == "out" else 5]])
    return f"{kind} {words[0]}"


class Rows(Case):
    """The protocol, byte for byte: each answer is given when its request was read, and then again all answers at once."""

    def talk(self, text, answers, plan="@sample", events="run.events"):
        """All that the program wrote, and its status, where each answer was given to its request."""
        path = self.write("script", text)
        (self.room / events).unlink(missing_ok=True)
        with Pipes(self.room, plan, path, events) as pipes:
            output = pipes.requests()
            for answer in answers:
                pipes.answer(answer)
                output += pipes.requests()
            more, status, errors = pipes.end()
        self.assertEqual(errors, b"")
        return output + more, status

    def drive(self, text, answers, wanted, status=0, events=HEADER):
        wanted = "".join(f"{line}\n" for line in wanted).encode()
        self.assertEqual(self.talk(text, answers), (wanted, status))
        self.expect_events("run.events", events)
        given = "".join(f"{line}\n" for line in answers).encode()
        for given in (given, given[:-1]):
            self.assertEqual(self.call("drive", "@sample", "script", "at.once", given=given), (status, wanted, b""))
            self.expect_events("at.once", events)

    def expect_events(self, name, events):
        """EVENTS holds these bytes, or it was not made; then it is taken away."""
        path = self.room / name
        self.assertEqual(path.read_bytes() if path.exists() else None, events)
        path.unlink(missing_ok=True)

    def test_straight_line(self):
        demand, cycle = "demand", "cycle 1 5 0 0 in"
        self.drive(STRAIGHT_LINE, [DEMAND, CYCLE], [demand, cycle, demand, "ended events 1"], events=EVENT_FILE)
        self.drive(STRAIGHT_LINE, [], [demand, "ended events 0"])
        self.drive(STRAIGHT_LINE, [DEMAND], [demand, cycle, "short events 0"])
        self.drive(STRAIGHT_LINE, [DEMAND, "1 1 123fff 3 000000"], [demand, cycle, "overrun 1 wait 3 events 0"], 1)
        self.drive(STRAIGHT_LINE, [DEMAND, "1 1 fffffff 0 000000"], [demand, cycle, "refused A1 line 2: line shape"], 1)
        self.drive(STRAIGHT_LINE, [DEMAND, "1 2 000000 0 000000"], [demand, cycle, "refused A2 line 2: bad digit"], 1)

    def test_lockout(self):
        opening, cycle = ["demand", "lock 1"], "cycle 1 5 0 0 in"
        event = bytes.fromhex("ca4d 0003 00000001 00000006 0004 0000")
        ended = [*opening, *[cycle] * 4, "unlock 1", "demand", "ended events 1"]
        self.drive(LOCKOUT, [DEMAND, WAIT_2, *[WAIT_0] * 4], ended, events=HEADER + event)
        self.drive(LOCKOUT, [DEMAND, WAIT_2, WAIT_0, WAIT_1], [*opening, cycle, cycle, "overrun 1 wait 1 events 0"], 1)
        self.drive(LOCKOUT, [DEMAND, "0 0 000000 3 000000"], [*opening, "overrun 1 wait 3 events 0"], 1)
        self.drive(LOCKOUT, [DEMAND, WAIT_2, WAIT_0], [*opening, cycle, cycle, "short events 0"])
        bare = script(["lock 1 { }", "lock 1 { }"], 4, 0)
        event = bytes.fromhex("ca4d 0003 00000001 00000000 0000 0000")
        wanted = ["demand", "lock 1", "unlock 1", "lock 1", "unlock 1", "demand", "ended events 1"]
        self.drive(bare, [DEMAND, WAIT_0, WAIT_0], wanted, events=HEADER + event)

    def test_commands(self):
        text = script(["ctgl 1"])
        self.talk(text, [DEMAND, DEMAND])
        self.assertEqual(self.talk(text, [DEMAND, DEMAND])[0].splitlines()[1], b"cycle 1 30 11 27 none")
        self.write("answers", f"{DEMAND}\n{DEMAND}\n")
        listed = self.call("run", "@sample", "script", "answers", "e")[1].splitlines()
        self.assertEqual(listed[1], b"cycle 1 30 11 27 none x1 q1 wait 0")
        text = script(["cdreg r 1 1 6 0", "cfsa 16 r <- 255"])
        self.assertEqual(self.talk(text, [DEMAND])[0].splitlines()[1], b"cycle 1 6 0 16 out 0000ff")
        text = script(["cdreg r 1 1 30 0", "cfsa 0 r -> v", "cccz 1", "cccc 1", "ccci 1 on", "cccd 1 on", "cclc adc"])
        wanted = ["30 0 0 in", "28 8 26 none", "28 9 26 none", "30 9 26 none", "30 10 26 none", "5 12 10 none"]
        output, status = self.talk(text, [DEMAND, *[WAIT_0] * 6])
        self.assertEqual((output.decode().splitlines()[1:-2], status), ([f"cycle 1 {it}" for it in wanted], 0))

    def test_refused(self):
        """EVENTS is not touched."""
        refused, line = STRAIGHT_LINE.replace("within 3", "within 2"), "refused E12 line 3: more cycles than annotated"
        self.drive(refused, [], [line], 1, None)
        self.write("plan.toml", "buffer = 0\n")
        self.assertEqual(self.talk(STRAIGHT_LINE, [], "plan.toml"), (b"refused P4: value out of range\n", 1))
        self.expect_events("run.events", None)
        self.write("script", refused)
        (self.room / "night").write_bytes(EVENT_FILE)
        self.assertEqual(self.call("drive", "@sample", "script", "night"), (1, f"{line}\n".encode(), b""))
        self.assertEqual(self.file("night"), EVENT_FILE)

    def test_events_that_hold_bytes(self):
        """A live run cannot be made again: no byte is lost, and nothing is asked for. An empty file is taken, and what is no file."""
        self.write("script", STRAIGHT_LINE)
        words, given = ["drive", "@sample", "script"], f"{DEMAND}\n{CYCLE}\n".encode()
        for there in (b"\n", EVENT_FILE):
            (self.room / "night").write_bytes(there)
            self.assertEqual(self.call(*words, "night", given=given), (3, b"", HOLDS_BYTES))
            self.assertEqual(self.file("night"), there)
        (self.room / "night").write_bytes(b"")
        self.assertEqual(self.call(*words, "night", given=given)[0], 0)
        self.assertEqual(self.file("night"), EVENT_FILE)
        os.mkfifo(self.room / "pipe")
        with subprocess.Popen(["cat", "pipe"], stdout=subprocess.PIPE, cwd=self.room) as reader:
            self.assertEqual(self.call(*words, "pipe", given=given)[0], 0)
            self.assertEqual(reader.communicate(timeout=PATIENCE)[0], EVENT_FILE)
        self.assertEqual(self.call(*words, "/dev/null", given=given)[0], 0)

    def test_words(self):
        self.assertEqual(self.talk(STRAIGHT_LINE, [DEMAND, CYCLE], events="@in")[1], 0)
        self.assertEqual(self.file("@in"), EVENT_FILE)

    def test_faults(self):
        self.write("script", STRAIGHT_LINE)
        self.assertEqual(self.call("drive", "none.toml", "script", "e"), (3, b"", b"fault read\n  none.toml: No such file or directory\n"))
        folder = os.open(self.room, os.O_RDONLY)
        self.addCleanup(os.close, folder)
        self.assertEqual(self.call("drive", "@sample", "script", "e", given=None, stdin=folder), (3, b"demand\n", CLOSED))
        self.assertEqual(self.file("e"), HEADER)

    def test_streams_that_are_closed_or_full(self):
        self.write("script", STRAIGHT_LINE)
        for ending, output, errors, events in [
            (f"echo '{DEMAND}' | $camac drive @sample script e >/dev/full", b"", b"fault write\n  standard output: No space left on device\n", HEADER),
            ("$camac drive @sample script e <&-", b"demand\n", CLOSED, HEADER),
            ("$camac drive @sample script e >&- </dev/null", b"", b"fault write\n  standard output: Bad file descriptor\n", HEADER),
            ("$camac drive @sample script /dev/full </dev/null", b"", b"fault write\n  /dev/full: No space left on device\n", None),
        ]:
            with self.subTest(ending):
                how = {"stdin": subprocess.DEVNULL, "capture_output": True, "cwd": self.room, "env": {**os.environ, "camac": PROGRAM}}
                done = subprocess.run(["bash", "-c", ending], timeout=PATIENCE, **how)
                self.assertEqual((done.returncode, done.stdout, done.stderr), (3, output, errors))
                self.expect_events("e", events)

    def test_ten_thousand_operations(self):
        """A driver that gives each answer when its request has come: the program never waits for an answer before it has asked."""
        path = self.write("script", LONG)
        with Pipes(self.room, "@sample", path, "e") as pipes:
            for count in range(10_000):
                self.assertEqual(pipes.requests(), b"cycle 1 5 12 10 none\n" if count else b"demand\n")
                pipes.answer(WAIT_2 if count else DEMAND)
            self.assertEqual(pipes.requests(), b"demand\n")
            self.assertEqual(pipes.end(), (b"ended events 1\n", 0, b""))
        self.assertEqual(list(camac.read_events(self.room / "e")), [camac.Event(1, 3, 29_997, 9_999, ())])

    def test_more_answers_than_an_answer_file_may_have(self):
        self.write("script", STRAIGHT_LINE)
        given = f"{WAIT_0}\n".encode() * 1_000_001
        status, out, err = self.call("drive", "@sample", "script", "e", given=given)
        self.assertEqual((out == b"demand\n" * 1_000_002 + b"ended events 0\n", status, err), (True, 0, b""))


class Driver(Case):
    """`camac.drive` with the program."""

    def drive(self, text, branch, plan="@sample"):
        path = self.write("script", text)
        (self.room / "run.events").unlink(missing_ok=True)
        return camac.drive(plan, path, branch, self.room / "run.events", program=PROGRAM, timeout=PATIENCE)

    def events(self):
        return list(camac.read_events(self.room / "run.events"))

    def test_straight_line(self):
        branch = Listed(Answer(gl=4), Answer(1, 1, 0x123FFF, 2))
        wide = (camac.Contradiction("crate 1 station 5", "word above 12 bits", 1),)
        self.assertEqual(self.drive(STRAIGHT_LINE, branch), RunEnd(Ending.ENDED, "ended events 1", 1, contradictions=wide))
        self.assertEqual(branch.asked, [("demand",), ("cycle", 1, 5, 0, 0, None), ("demand",)])
        self.assertEqual(self.file("run.events"), EVENT_FILE)

    def test_ends(self):
        end = self.drive(STRAIGHT_LINE, Listed(Answer(gl=4), Answer(wait=3)))
        self.assertEqual(end, RunEnd(Ending.OVERRUN, "overrun 1 wait 3 events 0", 0, 1, 3, ()))
        with self.assertRaises(camac.Refused) as raised:
            self.drive(STRAIGHT_LINE.replace("within 3", "within 2"), Listed())
        self.assertEqual((raised.exception.code, raised.exception.line), ("E12", 3))
        with self.assertRaises(camac.Refused) as raised:
            self.drive(STRAIGHT_LINE, Listed(), self.write("plan.toml", "="))
        self.assertEqual((raised.exception.code, raised.exception.line), ("P1", None))
        with self.assertRaises(camac.ProgramFault) as raised:
            self.drive(STRAIGHT_LINE, Listed(), self.room / "none.toml")
        self.assertEqual((raised.exception.text, raised.exception.status), (f"fault read\n  {self.room / 'none.toml'}: No such file or directory", 3))
        with self.assertRaises(camac.UsageFault) as raised:
            self.drive(STRAIGHT_LINE, Listed(), "@in")
        self.assertEqual((raised.exception.text, raised.exception.status), ("fault @in twice", 2))

    def test_a_branch_that_fails_in_the_middle(self):
        branch = Listed(*[Answer(gl=4), Answer(word=7)] * 2, Answer(gl=4), Broken("no power"))
        with self.assertRaises(Broken):
            self.drive(STRAIGHT_LINE, branch)
        self.assertEqual([event.words for event in self.events()], [(7,), (7,)])

    def test_a_stop_inside_a_lock(self):
        for answer, raised in [(Broken(), self.assertRaises(Broken)), (Answer(wait=1), contextlib.nullcontext())]:
            branch = Listed(Answer(gl=4), Answer(wait=2), Answer(), answer)
            with raised:
                self.assertEqual(self.drive(LOCKOUT, branch).how, Ending.OVERRUN)
            self.assertEqual(branch.asked[-2:], [("cycle", 1, 5, 0, 0, None), ("unlock", 1)])
        branch = Listed(Answer(gl=4), Answer(wait=3))
        self.assertEqual(self.drive(LOCKOUT, branch).line, "overrun 1 wait 3 events 0")
        self.assertEqual(branch.asked, [("demand",), ("lock", 1), ("unlock", 1)])

    def test_a_disk_that_is_full(self):
        path = self.write("script", STRAIGHT_LINE)
        with self.assertRaises(camac.ProgramFault) as raised:
            camac.drive("@sample", path, Listed(), "/dev/full", program=PROGRAM, timeout=PATIENCE)
        self.assertEqual((raised.exception.text, raised.exception.end), ("fault write\n  /dev/full: No space left on device", None))


class ShellDriver(Case):
    """The driver in the shell (examples/live/driver.sh), ended by a signal at each request, and again while it releases: it and the program get it."""

    def test_signals_at_each_request(self):
        driver = (TOP / "examples/live/driver.sh").read_text()
        loop, release = "while read -r request; do\n", "do echo"
        self.assertEqual((driver.count(loop), driver.count(release)), (1, 1))
        self.write("script", LOCKOUT)
        # Who is started in the background of a script ignores this signal, and so do its children.
        how = {"preexec_fn": lambda: signal.signal(signal.SIGINT, signal.SIG_DFL), "start_new_session": True, "cwd": self.room}
        line = '"$camac" drive @sample script e <answers | sh driver.sh >answers'
        for name, count in itertools.product(("INT", "TERM", "HUP"), range(1, 10)):
            with self.subTest(signal=name, request=count):
                (self.room / "e").unlink(missing_ok=True)
                ends = driver.replace(loop, f"{loop}  count=$((count + 1))\n  [ $count != {count} ] || kill -{name} 0\n")
                self.write("driver.sh", ends.replace(release, f"do kill -{name} $$; kill -{name} $$; echo"))
                words = ["bash", "-c", f"rm -f answers; mkfifo answers; {line}"]
                env = {**os.environ, "camac": PROGRAM}
                with subprocess.Popen(words, env=env, stdout=subprocess.PIPE, stderr=subprocess.PIPE, **how) as shell:
                    output, errors = shell.communicate(timeout=PATIENCE)
                # demand, lock, four cycles, unlock: the lockout is held from the third request up to the seventh.
                released = b"lockout of crate 1 released\n" if 3 <= count <= 7 else b""
                self.assertEqual((output, errors), (b"", released))


class EndToEnd(Case):
    """Example scripts on the branch without hardware. The event file holds what the modules gave, and a run of the recorded answers makes the
    same file."""

    def drive(self, plan, name, branch):
        recorder = Recorder(branch)
        path, file = TOP / "examples" / name, self.room / "run.events"
        file.unlink(missing_ok=True)
        end = camac.drive(plan, path, recorder, file, program=PROGRAM, timeout=PATIENCE)
        answers = self.write("answers", recorder.answer_lines())
        words = [PROGRAM, "run", plan, path, answers, self.room / "again.events"]
        *listed, last = subprocess.run(words, capture_output=True, timeout=PATIENCE).stdout.decode().splitlines()
        self.assertEqual(last, end.line)
        self.assertEqual(self.file("run.events"), self.file("again.events"))
        made = [it.request for it in recorder.operations if it.answer or it.request.startswith("unlock")]
        if end.how is Ending.ENDED:
            self.assertEqual(made, [requested(line) for line in listed])
        return end, recorder.operations, list(camac.read_events(file))

    def sample(self, triggers=20, waits=2, **more):
        modules = {(1, 5): Adc(seed=7), (1, 6): Register(width=8)}
        return MockBranch(modules, {(1, 5): 3}, [[(1, 5)]] * triggers, {1: Auxiliary(waits, **more)})

    def test_straight_line(self):
        end, made, events = self.drive("@sample", "straight_line.script", self.sample())
        self.assertEqual(end, RunEnd(Ending.ENDED, "ended events 20", 20, contradictions=()))
        reads = [it.answer for it in made if it.request == "cycle 1 5 0 0 in"]
        clears = [it.answer for it in made if it.request == "cycle 1 5 12 10 none"]
        pairs = enumerate(zip(reads, clears), 1)
        self.assertEqual(events, [camac.Event(at, 3, 2 + it.wait + clear.wait, 0, (it.word,)) for at, (it, clear) in pairs])
        self.assertTrue({it.wait for it in reads} == {0, 1, 2} and len({it.word for it in reads}) > 10)
        self.assertEqual(made[-1].answer, None)

    def test_each_example(self):
        """Each example script for the sample plan that is accepted, and what its cycles cost."""
        played = 0
        for path in sorted((TOP / "examples").glob("*.script")):
            if subprocess.run([PROGRAM, "check", "@sample", path], stdout=subprocess.DEVNULL, timeout=PATIENCE).returncode == 0:
                with self.subTest(path.name):
                    end, made, events = self.drive("@sample", path.name, self.sample())
                    self.assertIs(end.how, Ending.ENDED)
                    cost = sum(it.answer.wait + it.request.startswith("cycle") for it in made if it.answer)
                    self.assertEqual(sum(event.cycles for event in events), cost)
                    played += 1
        self.assertGreater(played, 7)

    def test_lockout(self):
        end, made, events = self.drive("@sample", "lockout.script", self.sample())
        self.assertEqual((end.how, end.events), (Ending.ENDED, 20))
        words = [it.answer.word for it in made if it.request == "cycle 1 5 0 0 in"]
        self.assertEqual([word for event in events for word in event.words], words)
        end, made, _ = self.drive("@sample", "lockout.script", self.sample(ignores_lockout=True))
        self.assertEqual((end.how, made[-1].request), (Ending.OVERRUN, "unlock 1"))
        end, made, _ = self.drive("@sample", "straight_line.script", self.sample(waits=3))
        self.assertEqual((end.how, end.crate, end.wait), (Ending.OVERRUN, 1, 3))

    def test_three_modules(self):
        modules = {(1, n): Adc(channels=12, width=10, peak=700, seed=n, lam_at=0) for n in (1, 2, 3)}
        branch = MockBranch(modules, {(1, 1): 1}, [[(1, 1), (1, 2), (1, 3)]] * 5)
        end, made, events = self.drive(TOP / "examples/three_crates.toml", "three_modules.script", branch)
        self.assertEqual((end.how, end.events), (Ending.ENDED, 5))
        read = [it.answer.word for it in made if it.request.endswith(" 0 in")]
        self.assertEqual(len(read), 5 * 3 * 12)
        station = 14
        kept = [word for event in events for start in (0, station, 2 * station) for word in event.words[start + 1 : start + 13]]
        self.assertEqual(kept, read)



START = """cdlam adc 1 1 5 12
service adc within 12 cycles event 0 words { cccz 1 cccd 1 on ccci 1 off cclm adc on }
"""


class Calls(Case):
    """The start of a cold crate, by `camac.call`."""

    def cold(self, triggers=3):
        modules = {(1, 5): Adc(seed=7), (1, 6): Register(width=8)}
        return MockBranch.of_plan(self.plan(), modules, [[(1, 5)]] * triggers, is_cold=True)

    def plan(self):
        return camac.plan("@sample", PROGRAM)

    def call(self, service, branch, text=START, **more):
        return camac.call("@sample", self.write("start.script", text), service, branch, program=PROGRAM, timeout=PATIENCE, **more)

    def readout(self, branch):
        file = self.room / "run.events"
        file.unlink(missing_ok=True)
        return camac.drive("@sample", TOP / "examples/straight_line.script", branch, file, program=PROGRAM, timeout=PATIENCE)

    def test_nothing_calls_before_the_start(self):
        self.assertEqual(self.readout(self.cold()).line, "ended events 0")

    def test_start(self):
        branch = self.cold()
        recorder = Recorder(branch)
        self.assertEqual(self.call("adc", recorder).line, "ended events 1")
        wanted = ["cycle 1 28 8 26 none", "cycle 1 30 10 26 none", "cycle 1 30 9 24 none", "cycle 1 5 12 26 none"]
        self.assertEqual([it.request for it in recorder.operations], wanted)
        self.assertEqual(self.readout(branch).line, "ended events 3")

    def test_event(self):
        self.call("adc", self.cold(), events=self.room / "start.events")
        self.assertEqual([(it.gl, it.words) for it in camac.read_events(self.room / "start.events")], [(3, ())])

    def test_name_of_no_service(self):
        branch = Listed()
        with self.assertRaisesRegex(ValueError, "no service 'tick', but adc"):
            self.call("tick", branch)
        with self.assertRaises(camac.Refused):
            self.call("adc", branch, text=START.replace("within 12", "within 11"))
        self.assertEqual(branch.asked, [])

    def test_wait_that_is_not_permitted(self):
        end = self.call("adc", Listed(Answer(wait=3)))
        self.assertEqual((end.how, end.crate, end.wait), (Ending.OVERRUN, 1, 3))

    def test_bits_and_waits_of_the_plan(self):
        branch = MockBranch.of_plan(self.plan(), {(1, 5): Adc(), (1, 6): Register()})
        self.assertEqual((branch.gl, sorted(branch.auxiliaries), branch.auxiliaries[1].greatest), ({(1, 5): 3}, [1], 2))
        with self.assertRaisesRegex(ValueError, "no station 7 in a crate 1"):
            MockBranch.of_plan(self.plan(), {(1, 7): Adc()})

    def test_state_of_the_crate(self):
        """After Z nothing calls and nothing is triggered; a disabled demand output hides a look-at-me, and the controller still shows it."""
        branch = MockBranch.of_plan(self.plan(), {(1, 5): Adc()}, [[(1, 5)]] * 9)
        self.assertEqual(branch.demand().gl, 4)
        branch.cycle(1, 30, 10, 24, None)
        self.assertEqual((branch.demand().gl, branch.cycle(1, 30, 11, 27, None).gl), (0, 4))
        branch.cycle(1, 30, 10, 26, None)
        self.assertEqual(branch.demand().gl, 4)
        branch.cycle(1, 5, 12, 10, None)
        branch.cycle(1, 30, 9, 26, None)
        self.assertEqual(branch.demand().gl, 0)
        branch.cycle(1, 30, 9, 24, None)
        self.assertEqual(branch.demand().gl, 4)
        branch.cycle(1, 28, 8, 26, None)
        self.assertEqual((branch.inhibited, branch.silent, branch.demand().gl), ({1}, {1}, 0))


class Faults(Case):
    """`camac.mock.Faulty`: each fault alone does what it says to what a branch answers, and is counted."""

    ANSWER = Answer(1, 1, 0x00FF00, 1)

    def answers(self, count=1000, at=(1, 5, 0, 0, None), **how):
        """What comes of so many cycles and demands, and the branch."""
        branch = Faulty(Listed(*[self.ANSWER] * count, *[Answer(gl=4)] * count), **how)
        return [branch.cycle(*at) for _ in range(count)], [branch.demand() for _ in range(count)], branch

    def test_without_a_fault(self):
        cycles, demands, branch = self.answers()
        self.assertEqual((set(cycles), set(demands), set(branch.counts.values())), ({self.ANSWER}, {Answer(gl=4)}, {0}))

    def test_each_fault(self):
        for how, wanted in (
            ({"no_x": 0.5}, Answer(wait=1)),
            ({"no_q": 0.5}, self.ANSWER._replace(q=0)),
            ({"long_wait": 0.5}, self.ANSWER._replace(wait=15)),
        ):
            cycles, demands, branch = self.answers(**how)
            self.assertEqual((set(cycles), set(demands)), ({self.ANSWER, wanted}, {Answer(gl=4)}))
            self.assertEqual(cycles.count(wanted), branch.counts[[*how][0]])
            self.assertTrue(400 < cycles.count(wanted) < 600)
            self.assertEqual(self.answers(**how)[0], cycles)
            self.assertNotEqual(self.answers(**how, seed=2)[0], cycles)

    def test_bits(self):
        self.assertEqual({it.word for it in self.answers(stuck_1=0x800001, stuck_0=0x00F000)[0]}, {0x800F01})
        words = [it.word ^ 0x00FF00 for it in self.answers(flip=0.5)[0]]
        self.assertEqual({it for it in words}, {0, *(1 << bit for bit in range(24))})
        self.assertEqual({it.word for it in self.answers(at=(1, 5, 0, 9, None), stuck_1=1, flip=1)[0]}, {0x00FF00})

    def test_ghosts(self):
        cycles, demands, branch = self.answers(ghost=0.5, ghost_gl=0x101)
        self.assertEqual((set(cycles), set(demands)), ({self.ANSWER}, {Answer(gl=4), Answer(gl=0x105)}))
        self.assertEqual(demands.count(Answer(gl=0x105)), branch.counts["ghost"])
        self.assertIsNone(Faulty(Listed(None), ghost=1, ghost_gl=1).demand())

    def test_silence(self):
        listed = Listed(*[self.ANSWER] * 5)
        branch = Faulty(listed, silent_after=3)
        self.assertEqual([branch.demand(), branch.cycle(1, 5, 0, 0, None), branch.lock(1)], [self.ANSWER] * 3)
        for call in (branch.demand, lambda: branch.cycle(1, 5, 0, 0, None), lambda: branch.lock(1)):
            self.assertRaises(TimeoutError, call)
        branch.unlock(1)
        self.assertEqual([it[0] for it in listed.asked], ["demand", "cycle", "lock", "unlock"])

    def test_controller(self):
        """Its commands lose nothing but time: camac knows their answers itself."""
        self.assertEqual(set(self.answers(at=(1, 30, 9, 27, None), no_x=1, no_q=1, stuck_1=1)[0]), {self.ANSWER})

    def test_silence_in_a_lock(self):
        """The lockout is released, and the events before are there."""
        branch = MockBranch.of_plan("@sample", {(1, 5): Adc(), (1, 6): Register()}, triggers=[[(1, 5)]] * 9)
        self.assertRaises(TimeoutError, camac.drive, "@sample", TOP / "examples/lockout.script", Faulty(branch, silent_after=9), self.room / "e")
        self.assertEqual((len(list(camac.read_events(self.room / "e"))), branch.locked), (1, set()))


if __name__ == "__main__":
    run_tests()
