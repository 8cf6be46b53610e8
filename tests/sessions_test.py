#!/usr/bin/env python3
"""Sessions of the library for C through the Python module. Services that are left before their end: the locks in the order in which to release them, and
what sets the crates back. And runs that make no more than so many steps at once: one that pauses tells what `camac run` tells, and is left as another.
tests/library/consumer.c tries both on random scripts beside `camac run`.

usage: tests/sessions_test.py [-v] [TEST ..]     from any folder; takes some seconds

It needs gcc and the archive that tests/support/of_c.py names, else all is left out. The program is crates/camac/out/camac (cd crates/camac && rt run
makes it), or what the environment variable CAMAC_PROGRAM names.
"""
import os
import signal
import time

from support import of_c
from support.live import PROGRAM, STRAIGHT_LINE, TOP, Case, run_tests
from camac import Answer, UsageFault, library

SAMPLE = (TOP / "examples/sample_plan.toml").read_bytes()
# It puts 1 if inhibit is on, sets it, and disables the demand output.
CHANGES = """cdlam adc 1 1 5 12
var v
service adc within 30 cycles event 1 words {
  ctci 1
  if q { put 1 } else { put 0 }
  ccci 1 on
  cccd 1 off
  cdreg a 1 1 5 0
  cfsa 0 a -> v
}
"""
TWO_CRATES = """[[type]]
name = "ADC"
commands = [ { f = 0, a = 0, width = 12 }, { f = 10, a = 12 } ]
[[crate]]
number = 1
station = [ { n = 5, type = "ADC", gl = 3 } ]
waits = 2
[[crate]]
number = 2
station = [ { n = 5, type = "ADC", gl = 4 } ]
"""
NESTED = """cdlam adc 1 1 5 12
service adc within 90 cycles event 0 words {
  lock 1 {
    lock 2 {
      cclc adc
      cclc adc
    }
  }
}
"""
DEMAND, LOCK, CYCLE = Answer(gl=4), Answer(), Answer(1, 1, 0x123)


def setUpModule():
    os.environ.update({"CAMAC_PROGRAM": PROGRAM, **of_c.environment()})


class Abandoned(Case):
    def session(self, plan, script):
        session = library.Session(plan, script)
        self.addCleanup(session.close)
        return session

    def test_locks_in_the_order_of_their_release(self):
        session = self.session(TWO_CRATES, NESTED)
        for count, wanted in ((1, ()), (2, (1,)), (3, (2, 1)), (4, (2, 1))):
            for it in (DEMAND, LOCK, LOCK, CYCLE)[:count]:
                session.next(it)
            self.assertEqual((session.held(), session.abandon(), session.held()), (wanted, wanted, ()))

    def test_the_longest_wait(self):
        """That of the plan, in a lockout none. A wait is as long as that may be, and no longer. That of a demand does not count."""
        session, longest = self.session(TWO_CRATES, NESTED), []
        for it in (DEMAND, LOCK, LOCK, CYCLE):
            longest.append(session.wants().waits)
            session.next(it._replace(wait=longest[-1]))
        self.assertEqual((longest, session.wants().waits), ([15, 2, 0, 0], 0))
        self.assertEqual(session.next(Answer(wait=1)).kind, library.STOPPED)

    def test_what_sets_the_crates_back(self):
        """At the demand inhibit was off, and the demand output enabled."""
        session, told = self.session(SAMPLE, CHANGES), []
        for it in (DEMAND, *[CYCLE] * 3):
            session.next(it)
            told.append([(asked.kind, asked.c, asked.n, asked.a, asked.f, asked.data, asked.waits) for asked in session.back()])
        inhibit, demand = (library.CYCLE, 1, 30, 9, 24, library.NO_DATA, 2), (library.CYCLE, 1, 30, 10, 26, library.NO_DATA, 2)
        self.assertEqual(told, [[], [], [inhibit], [inhibit, demand]])
        session.abandon()
        self.assertEqual(session.back(), [])


# It makes 131,072 steps before its first cycle, and some hundred between two others, where it holds a lock.
LOOPS = """cdlam adc 1 1 5 12
var i j v
service adc within 40 cycles event 4 words {
  for i = 1 to 65535 { v = i }
  cdreg a 1 1 5 0
  cfsa 0 a -> v
  if q { put v }
  lock 1 {
    for i = 1 to 3 {
      cfsa 0 a -> v
      for j = 1 to 100 { if v == 0 { v = j } }
    }
    for i = 1 to 30 { v = i }
  }
  for i = 1 to 30 { v = i }
  put i
}
"""
# It makes 1,800,000,000 steps.
LONGEST = "cdlam adc 1 1 5 12\nvar i j k v\nservice adc within 0 cycles event 0 words {\n  for i = 1 to 30000 { for j = 1 to 30000 { v = j } }\n}\n"
ANSWERS = [Answer(), DEMAND, CYCLE, LOCK, CYCLE, CYCLE, CYCLE, Answer(), DEMAND, CYCLE]


class Limited(Case):
    def session(self, most, script=LOOPS):
        session = library.Session(SAMPLE, script)
        self.addCleanup(session.close)
        session.limit_steps(most)
        return session

    def played(self, session):
        """The listing and the event file of the run on all answers, what each answer and each pause released, and how often it paused."""
        listing, events, released, pauses = "", b"", [], 0
        for answer in ANSWERS:
            step = session.next(answer)
            while True:
                listing, events = listing + session.item(), events + session.record()
                released += step.unlocked
                if not session.is_busy():
                    break
                step, pauses = session.go_on(), pauses + 1
        return listing, events, released, pauses

    def test_a_run_that_pauses_tells_the_same(self):
        text = "".join(f"{int(x)} {int(q)} {word:06x} {wait:x} {gl:06x}\n" for x, q, word, wait, gl in ANSWERS)
        wanted, file = library.run(SAMPLE, LOOPS, text)
        self.assertEqual(wanted.text.splitlines()[-1], "short events 1")
        steps = self.session(0).services()[0].steps
        for most in (1, 7, 1000, 65535, steps, library.NO_LIMIT):
            listing, events, released, pauses = self.played(self.session(most))
            self.assertEqual(listing, "".join(wanted.text.splitlines(True)[:-1]))
            self.assertEqual((file[8:], released), (events, [1]))
            self.assertLessEqual(pauses, 2 * steps // (most + 1))
            self.assertEqual(pauses > 0, most < steps)

    def told(self, session):
        return session.item(), session.record(), session.words(), session.held(), session.answers_left(), session.where()

    def test_a_pause_wants_no_answer(self):
        session = self.session(1000)
        session.next(DEMAND)
        told = self.told(session)
        for name, *words in (("wants",), ("next", CYCLE), ("step", CYCLE), ("next_many", [CYCLE])):
            with self.assertRaises(UsageFault) as found:
                getattr(session, name)(*words)
            self.assertEqual(str(found.exception), f"{name} needs a run that does not pause: go_on comes first")
        self.assertEqual(self.told(session), told)
        self.assertEqual((told[4], told[5]), (4_294_967_295 - 1, None))

    def test_a_service_that_pauses_may_be_left(self):
        session = self.session(library.NO_LIMIT)
        for answer in (DEMAND, CYCLE, LOCK):
            session.next(answer)
        session.limit_steps(20)
        session.next(CYCLE)
        self.assertTrue(session.is_busy())
        self.assertEqual((session.held(), session.abandon(), session.held()), ((1,), (1,), ()))
        self.assertEqual((session.is_busy(), session.wants().kind, session.where()), (False, library.DEMAND, None))

    def test_a_limit_may_change_and_stays(self):
        session = self.session(1000)
        session.next(DEMAND)
        session.limit_steps()
        self.assertTrue(session.is_busy())
        session.go_on()
        self.assertEqual((session.is_busy(), session.wants().kind), (False, library.CYCLE))
        session.limit_steps(1000)
        session.rewind()
        session.next(DEMAND)
        self.assertTrue(session.is_busy())
        for most in (-1, 1 << 32):
            with self.assertRaises(UsageFault):
                session.limit_steps(most)

    def test_lists(self):
        """What is ahead is made once: no list ends in a pause before its last answer."""
        cycles = "v = 1\n".join([*["  cfsa 0 a -> v\n  put v\n"] * 3]).replace("v = 1\n", "  v = 1\n" * 60)
        script = f"cdlam adc 1 1 5 12\nvar v\nservice adc within 9 cycles event 3 words {{\n  cdreg a 1 1 5 0\n{cycles}}}\n"
        for most, lists in ((0, 3), (30, 3), (511, 3), (512, 1), (library.NO_LIMIT, 1)):
            session, made = self.session(most, script), []
            step = session.next(DEMAND)
            while not step.event:
                if session.is_busy():
                    step = session.go_on()
                else:
                    made.append([Answer(1, 1, sum(map(len, made)) + k) for k in range(len(session.ahead()))])
                    step = session.next_many(made[-1])[-1]
            self.assertEqual((len(made), session.words()), (lists, (0, 1, 2)))

    def test_pauses_that_nobody_asked_for(self):
        """Without a limit a list of answers does what it does one by one, over pauses that only signals see."""
        session = self.session(library.NO_LIMIT)
        told = [(it.kind, it.event, it.unlocked) for it in session.next_many(ANSWERS)]
        kinds = [library.DEMAND, library.DEMAND, library.CYCLE, library.LOCK, *[library.CYCLE] * 2]
        self.assertEqual(told, [*((kind, 0, ()) for kind in kinds), (library.CYCLE, 1, (1,))])
        self.assertEqual((session.item(), session.words()), ("cycle 1 5 0 0 in 000123 x1 q1 wait 0\nunlock 1\n", (0x123, 30)))
        self.assertEqual(len(session.next_many(ANSWERS[7:9])), 2)
        self.assertEqual((session.item(), session.wants().kind), ("demand 000004 adc\n", library.CYCLE))
        session = self.session(library.NO_LIMIT, LONGEST)
        self.addCleanup(signal.signal, signal.SIGALRM, signal.signal(signal.SIGALRM, signal.default_int_handler))
        signal.setitimer(signal.ITIMER_REAL, 0.1)
        with self.assertRaises(KeyboardInterrupt):
            session.next(DEMAND)
        self.assertTrue(session.is_busy())

    def test_one_call_is_short(self):
        session = self.session(10_000, LONGEST)
        session.next(DEMAND)
        longest = 0.0
        for _ in range(100):
            began = time.perf_counter()
            session.go_on()
            longest = max(longest, time.perf_counter() - began)
        self.assertTrue(session.is_busy())
        # 10,000 steps take 0.1 to 2 milliseconds
        self.assertLess(longest, 0.2)


if __name__ == "__main__":
    if of_c.is_here():
        run_tests()
