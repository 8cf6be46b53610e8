#!/usr/bin/env python3
"""The record of a run, and a recorded run that is played again. And what contradicts a plan in a run: the same counts in the result of a live run, its
record, the report, `annotate` and the page of `watch`, and those by hand.

usage: tests/record_test.py [-v] [TEST ..]     from any folder, over a built program; takes some seconds

The run in this process is left out if the library for C is not here (support/of_c.py).
"""
import collections
import hashlib
import json
import os
import random
import re
import signal
import subprocess
import sys
import threading
import time
import unittest
import unittest.mock

from support import laboratory, of_c
from support.live import PROGRAM, TOP, Broken, Case, Listed, script
import camac
from camac.commands.annotate import annotate
from camac.export import Given
from camac.follow import read_alarm
from camac.mock import Adc, Auxiliary, MockBranch, Recorded, Recorder, Register, Scaler
from camac.report import report
from camac.runs import Inputs
from camac.watch import Watch

PLAN = "@sample"
PLAN_FILE = TOP / "examples/sample_plan.toml"
SCRIPT = TOP / "examples/lockout.script"
READ = script(["cdreg r 1 1 5 0", "cfsa 0 r -> v", "put v"], 3, 1)
ANSWER = camac.Answer(x=1, q=1, word=5)
HOSTILE = '<script>alert(1)</script> "\u00b5\u202e,\n' + "x" * 32 + "\udcff"


def branch(count, kind=MockBranch):
    modules = {(1, 5): Adc(channels=12, width=12), (1, 6): Register(width=8)}
    return kind.of_plan(PLAN, modules, triggers=([(1, 5)] for _ in range(count)))


class Seconds(MockBranch):
    """A branch whose demands and whose cycles take some time."""

    def demand(self):
        time.sleep(0.02)
        return super().demand()

    def cycle(self, c, n, a, f, data):
        time.sleep(0.01)
        return super().cycle(c, n, a, f, data)


class Record(Case):
    def setUp(self):
        super().setUp()
        self.record, self.events = self.room / "run.json", self.room / "run.events"

    def drive(self, driver, text=SCRIPT, **more):
        return camac.drive(PLAN_FILE, text, driver, self.events, program=PROGRAM, timeout=60, **more)

    def told(self):
        return json.loads(self.record.read_text())

    def test_a_run(self):
        before = time.time()
        end = self.drive(branch(4, Seconds), record=camac.Recording(self.record, 17, HOSTILE))
        took = time.time() - before
        told, record = self.told(), camac.read_record(self.record)
        self.assertEqual((told["how"], told["line"], told["number"], told["title"]), ("ended", end.line, 17, HOSTILE))
        for word, file in (("plan", PLAN_FILE), ("script", SCRIPT)):
            data = file.read_bytes()
            self.assertEqual(told[word], {"name": str(file), "sha256": hashlib.sha256(data).hexdigest(), "text": data.decode()})
            self.assertEqual(getattr(record, word).data, data)
        verdict, response = (self.call(it, PLAN_FILE, SCRIPT)[1].decode() for it in ("check", "response"))
        self.assertEqual(("\n".join(told["verdict"]) + "\n", "\n".join(told["response"]) + "\n"), (verdict, response))
        self.assertEqual(told["events"], {"name": str(self.events), "bytes": self.events.stat().st_size, "counts": {"adc": 4}})
        self.assertEqual(told["versions"]["program"], f"{self.call('--version')[1].decode().strip()}, not known to be proved")
        begin, last = (time.strptime(told[it].partition(".")[0], "%Y-%m-%dT%H:%M:%S") for it in ("begin", "end"))
        self.assertLess(abs(time.mktime(begin) - time.timezone - before), 60)
        self.assertLessEqual(begin, last)
        # five demands of 20 ms, 4 services of five cycles of 10 ms
        measured = told["measured_seconds"]
        self.assertGreaterEqual(measured["demands"], 0.1)
        self.assertGreaterEqual(measured["services"], 0.2)
        self.assertLessEqual(measured["demands"] + measured["services"], took)
        self.assertEqual([(it.name, it.cycles) for it in record.list_services()], [("adc", 9)])

    def test_it_is_there_from_the_beginning_and_a_crash_leaves_it(self):
        program = f"""\
import os, signal, sys
sys.path.insert(0, {str(TOP / "python")!r})
import camac
class Killed:
    calls = 0
    def demand(self):
        Killed.calls += 1
        if Killed.calls == 3:
            os.kill(os.getpid(), signal.SIGKILL)
        return camac.Answer(gl=4)
    def cycle(self, c, n, a, f, data): return camac.Answer(x=1, q=1)
    def lock(self, c): return camac.Answer()
    def unlock(self, c): pass
camac.drive("@sample", {str(SCRIPT)!r}, Killed(), "run.events", program={PROGRAM!r}, record="run.json")
"""
        ran = subprocess.run([sys.executable, "-c", program], cwd=self.room, timeout=60, check=False)
        self.assertEqual(ran.returncode, -signal.SIGKILL)
        told = self.told()
        self.assertIsNotNone(told["begin"])
        self.assertEqual((told["end"], told["how"], told["events"]["counts"]), (None, None, None))
        self.assertEqual([it.name for it in self.room.iterdir() if it.name.endswith(".new")], [])

    def test_while_it_goes_on(self):
        """The record is written anew at demands."""
        seen = []

        class Looks(Seconds):
            def demand(this):
                seen.append(self.told())
                return super().demand()

        with unittest.mock.patch("camac.record.REFRESH", 0.0):
            self.drive(branch(2, Looks), record=self.record)
        self.assertEqual([it["end"] for it in seen], [None] * 3)
        self.assertLess(0.04, seen[1]["measured_seconds"]["services"])
        self.assertLess(seen[1]["measured_seconds"]["services"], seen[2]["measured_seconds"]["services"])

    def test_a_run_that_fails(self):
        with self.assertRaises(Broken):
            self.drive(Listed(camac.Answer(gl=4), ANSWER, camac.Answer(gl=4), Broken("<b>no power</b>")), self.write("read.script", READ), record=self.record)
        told = self.told()
        self.assertEqual((told["how"], told["line"], told["events"]["counts"]), ("failed", "Broken: <b>no power</b>", {"adc": 1}))
        self.assertIsNotNone(told["end"])

    def test_an_overrun(self):
        made = branch(3)
        made.auxiliaries[1] = Auxiliary(0)
        made.auxiliaries[1].wait = lambda is_locked: 3
        end = self.drive(made, record=self.record)
        self.assertEqual((self.told()["how"], self.told()["line"]), ("overrun", end.line))

    def test_nothing_is_written_over_and_nothing_is_left_of_a_refused_script(self):
        self.record.write_text("mine")
        with self.assertRaises(camac.ProgramFault) as caught:
            self.drive(branch(1), record=self.record)
        self.assertEqual(caught.exception.text, f"fault write\n  {self.record}: it holds bytes; a run needs a record of its own")
        self.assertEqual((self.record.read_text(), self.events.exists()), ("mine", False))
        self.record.unlink()
        with self.assertRaises(camac.Refused):
            self.drive(branch(1), TOP / "examples/too_few_cycles.script", record=self.record)
        with self.assertRaises(camac.ProgramFault) as caught:
            self.drive(branch(1), record=self.room / "none/run.json")
        self.assertIn("none/run.json: No such file or directory", caught.exception.text)
        self.assertEqual([*self.room.iterdir()], [])
        # a record that cannot be written at the end: the events are there, and the end of the run is shown
        class Gone(MockBranch):
            def demand(this):
                if self.record.is_file():
                    self.record.unlink()
                    self.record.mkdir()
                return super().demand()
        with self.assertRaises(camac.ProgramFault) as caught:
            self.drive(branch(2, Gone), record=self.record)
        self.assertEqual(caught.exception.end.line, "ended events 2")
        self.assertEqual(len([*camac.read_events(self.events)]), 2)

    def test_a_record_that_somebody_else_writes(self):
        class Changed(MockBranch):
            def demand(this):
                self.record.write_text("mine")
                return super().demand()
        with unittest.mock.patch("camac.record.REFRESH", 0.0), self.assertRaises(camac.ProgramFault) as caught:
            self.drive(branch(2, Changed), record=self.record)
        self.assertEqual((caught.exception.end.line, self.record.read_text()), ("ended events 2", "mine"))
        self.assertIn("it holds bytes; a run needs a record of its own", caught.exception.text)

    def test_numbers_and_titles(self):
        for wrong in ({"number": "7"}, {"number": 1.5}, {"title": 3}):
            with self.assertRaises(TypeError):
                camac.Recording(self.record, **wrong)

    def test_texts_that_are_no_text(self):
        text = self.room / "any.script"
        text.write_bytes(READ.encode() + b"# \xff\0 any byte\n")
        self.drive(branch(1), text, record=self.record)
        self.assertEqual(camac.read_record(self.record).script.data, text.read_bytes())
        self.assertNotIn("text", self.told()["script"])

    def test_what_is_no_record(self):
        self.drive(branch(1), record=self.record)
        good = self.told()
        other = {**good, "plan": {**good["plan"], "text": "# another\n"}}
        for wrong in ("", "[]", "{}", '{"form": "camac record 1"}', json.dumps(other), json.dumps({**good, "title": 3}), "\xff", 100_000 * "["):
            self.record.write_text(wrong)
            with self.assertRaises(ValueError, msg=wrong[:99]) as caught:
                camac.read_record(self.record)
            self.assertTrue(str(caught.exception).startswith(f"{self.record} is no record of a run"), caught.exception)

    def test_report(self):
        """It writes a record without times, writes over its own alone, and refuses before any work."""
        self.drive(branch(3))
        call = ["report", PLAN_FILE, SCRIPT, self.events, "-o", "page.html", "--write-record", "run.json"]
        for _ in range(2):
            self.assertEqual(self.package(*call)[0], 0)
            told = self.told()
            self.assertEqual((told["begin"], told["measured_seconds"], told["events"]["counts"]), (None, None, {"adc": 3}))
        (self.room / "page.html").unlink()
        self.record.write_text("mine")
        self.assertEqual(self.package(*call)[::2], (3, "camac: fault write: run.json: it holds bytes; a run needs a record of its own\n"))
        self.assertEqual((self.record.read_text(), (self.room / "page.html").exists()), ("mine", False))
        call[-1] = self.events.name
        status, _, err = self.package(*call, "--overwrite")
        self.assertEqual((status, len([*camac.read_events(self.events)])), (2, 3))
        self.assertIn("run.events is an input: it would be lost", err)


class Again(Case):
    """A recorded run that is played again."""

    def recorded(self, count):
        with open(self.room / "run.answers", "w", encoding="ascii") as file:
            camac.drive(PLAN, SCRIPT, Recorder(branch(count), file), self.room / "run.events", program=PROGRAM)
        return self.room / "run.answers"

    def test_the_same_file(self):
        answers = self.recorded(200)
        kept = Recorder(branch(200))
        camac.drive(PLAN, SCRIPT, kept, self.room / "kept.events", program=PROGRAM)
        self.assertEqual(answers.read_text(), kept.answer_lines())
        end = camac.drive(PLAN, SCRIPT, Recorded(answers), self.room / "again.events", program=PROGRAM)
        self.assertEqual((end.line, self.file("again.events")), ("ended events 200", self.file("run.events")))

    @of_c.needed()
    def test_the_same_file_in_this_process(self):
        os.environ.update(of_c.environment())
        answers = self.recorded(200)
        end = camac.play(PLAN, SCRIPT, Recorded(answers), self.room / "again.events", record=self.room / "run.json")
        self.assertEqual((end.line, self.file("again.events")), ("ended events 200", self.file("run.events")))
        told = json.loads(self.file("run.json"))
        self.assertEqual((told["how"], told["events"]["counts"]), ("ended", {"adc": 200}))

    def test_answers_that_end_inside_a_service(self):
        answers = self.recorded(3)
        lines = answers.read_bytes().splitlines(keepends=True)
        answers.write_bytes(b"".join(lines[:-3]).rstrip(b"\n"))
        with self.assertRaisesRegex(EOFError, "inside a service"):
            camac.drive(PLAN, SCRIPT, Recorded(answers), self.room / "again.events", program=PROGRAM)
        ran = subprocess.run([PROGRAM, "run", PLAN, SCRIPT, answers, self.room / "run2.events"], capture_output=True, text=True, check=True)
        self.assertTrue(ran.stdout.endswith("short events 2\n"))
        self.assertEqual(self.file("again.events"), self.file("run2.events"))

    def test_lines_that_are_no_answers(self):
        for wrong in ("1 1 000001 0 00000\n", "1 1 000001 0 000004\r\n", "2 1 000001 0 000004\n", "\n"):
            answers = self.write("wrong.answers", "0 0 000000 0 000004\n" + wrong)
            (self.room / "x.events").unlink(missing_ok=True)
            with self.assertRaisesRegex(ValueError, r"wrong\.answers:2: this is no answer"):
                camac.drive(PLAN, SCRIPT, Recorded(answers), self.room / "x.events", program=PROGRAM)
        with self.assertRaises(FileNotFoundError):
            Recorded(self.room / "none")


# The rate that is told of adc.
EVERY = 90
NO_STATION = 0x100 | 0x800000


class Contrary:
    """Answers at random: X = 0, words of any bits, demands of any bit, and waits that the plan permits."""

    def __init__(self, chance, demands):
        self.chance, self.left, self.unlocked = chance, demands, True

    def demand(self):
        self.left -= 1
        return camac.Answer(gl=self.chance.choice((4, 4, 0x14, 0x10, 0)) | self.chance.choice((0, NO_STATION, 0x100))) if self.left >= 0 else None

    def cycle(self, c, n, a, f, data):
        word = self.chance.getrandbits(self.chance.choice((8, 11, 12, 13, 24)))
        return camac.Answer(self.chance.random() < 0.9, self.chance.random() < 0.7, word, self.chance.randrange(3) if c == 1 and self.unlocked else 0)

    def lock(self, c):
        self.unlocked = False
        return camac.Answer(wait=1)

    def unlock(self, c):
        self.unlocked = True


def by_hand(operations):
    """What contradicts the laboratory's plan, from the operations of a run alone."""
    counts, cycles, called = collections.Counter(), 0, []
    for made in operations:
        kind, *at = made.request.split()
        answer = made.answer
        if kind == "demand" and answer:
            counts.update((f"GL {bit}", "demand") for bit in (9, 24) if answer.gl >> bit - 1 & 1)
            called.append((3 if answer.gl & 4 else 5 if answer.gl & 16 else 0, cycles))
            counts["adc", f"call sooner than every {EVERY} cycles"] += called[-1][0] == 3 and any(is_sooner(called, gl) for gl in (3, 5))
        elif kind == "cycle":
            c, n, a, f = map(int, at[:4])
            cycles += 1 + answer.wait
            width = laboratory.WIDTHS.get((c, n, f if f == 16 else 0), 24)
            if n < 24 and not answer.x:
                counts[f"crate {c} station {n}", "cycle with X = 0"] += 1
            elif f < 8 and a < 8 + 4 * (n == 5) and answer.word >> width:
                counts[f"crate {c} station {n}", f"word above {width} bits"] += 1
        elif kind == "lock":
            cycles += answer.wait
    return {key: count for key, count in counts.items() if count}


def is_sooner(called, gl):
    """Whether the last of these calls breaks the rate of bit 3 in the stretch of a bit: all calls up to it since an operation that called none of them."""
    begin = max((at + 1 for at, (bit, _) in enumerate(called) if not 0 < bit <= gl), default=0)
    calls = sum(bit == 3 for bit, _ in called[begin:])
    return calls > (called[-1][1] - called[max(begin - 1, 0)][1]) // EVERY + 1


class Counted(Case):
    def setUp(self):
        super().setUp()
        self.enterContext(unittest.mock.patch.dict(os.environ, CAMAC_PROGRAM=PROGRAM))
        self.plan, self.script = self.write("lab.toml", laboratory.PLAN), self.write("lab.script", laboratory.SCRIPT)

    def found(self, told):
        return {(it.place, it.what): it.times for it in told}

    def test_everywhere(self):
        for seed in range(3):
            recorder, name = Recorder(Contrary(random.Random(seed), 300)), f"run{seed}"
            events, record = self.room / f"{name}.events", self.room / f"{name}.json"
            end = camac.drive(self.plan, self.script, recorder, events, record=camac.Recording(record, every={"adc": EVERY}))
            wanted = by_hand(recorder.operations)
            self.assertEqual(self.found(end.contradictions), wanted)
            self.assertTrue({"crate 1 station 5", "GL 9", "GL 24", "adc"} <= {place for place, _ in wanted}, wanted)
            self.assertEqual(self.found(camac.read_record(record).contradictions), wanted)
            answers, texts = self.write(f"{name}.answers", recorder.answer_lines()), [it.text() for it in end.contradictions]
            self.assertIn(f"the plan does not describe GL 9: {wanted['GL 9', 'demand']:,} demands", texts)
            self.assertEqual([line.strip() for line, it in annotate(self.plan, self.script, answers, every={"adc": EVERY}) if it is None], texts)
            for source in (answers, events):
                page = report(Inputs(self.plan, self.script, source), every={"adc": EVERY}).text
                self.assertEqual(re.findall(r'<p class="bad">(the (?:plan|told rate) [^<]*)', page), texts)
            watch = Watch(Given(events, record=record), [read_alarm("plan=0")])
            self.assertEqual(re.findall('<b class="bad">(the [^<]*)', watch.notes()), texts)
            # An alarm is one while the run goes on.
            for end, wanted in ((watch.record.end, False), (None, True)):
                watch.record = watch.record._replace(end=end)
                self.assertEqual("plan=0: the plan is contradicted more than 0 times" in watch.alarms(), wanted)

    def test_without_a_record(self):
        """An event file alone does not show them, and that is said."""
        events = self.room / "run.events"
        camac.drive(self.plan, self.script, Contrary(random.Random(9), 20), events)
        page = report(Inputs(self.plan, self.script, events)).text
        self.assertIn("What contradicts the plan is not in an event file", page)
        self.assertNotIn("does not describe", page)

    def test_nothing(self):
        """A true plan has none, and one that can be read once is not known."""
        modules = {(1, 5): Adc(), (1, 7): laboratory.Tdc(8, 11, lam_at=None), (1, 11): Register(8), (2, 2): Scaler()}
        branch = MockBranch.of_plan(self.plan, modules, [[(1, 5), (2, 2)]] * 20)
        self.assertEqual(camac.drive(self.plan, self.script, branch, self.room / "good.events").contradictions, ())
        os.mkfifo(self.room / "pipe")
        threading.Thread(target=self.write, args=("pipe", laboratory.PLAN), daemon=True).start()
        self.assertIsNone(camac.drive(self.room / "pipe", self.script, Contrary(random.Random(9), 20), self.room / "pipe.events").contradictions)

    def test_overrun(self):
        """The cycle of a wait that is not permitted did not happen."""
        answers = [camac.Answer(gl=4), camac.Answer(1, 0, 0, 0), camac.Answer(0, 0, 0, 9)]
        class Ends(Contrary):
            def demand(self):
                return answers.pop(0)
            cycle = lambda self, *_: answers.pop(0)
        end = camac.drive(self.plan, self.script, Ends(None, 0), self.room / "short.events")
        self.assertEqual((end.how, end.contradictions), (camac.Ending.OVERRUN, ()))

    def test_in_this_process(self):
        if not of_c.is_here():
            return
        with unittest.mock.patch.dict(os.environ, of_c.environment()):
            one, other = (Contrary(random.Random(5), 50) for _ in range(2))
            wanted = camac.drive(self.plan, self.script, one, self.room / "one.events")
            self.assertEqual(camac.play(self.plan, self.script, other, self.room / "other.events"), wanted)


if __name__ == "__main__":
    unittest.main()
