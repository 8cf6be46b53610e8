#!/usr/bin/env python3
"""Refuses each allocation of the built program in turn, one alone and all from one on. The program has to end as 'fault memory', status 3,
with nothing written; or, if it does without that allocation (a list that is made in smaller steps), as it does with ample memory.

usage: tests/refused_memory_test.py [-v] [TEST ..]     from any folder; takes some seconds

A small library in front of the C library's allocator answers null; it is compiled here by cc or clang.
"""
import subprocess
import unittest

from support.needs import needed
from support.program import ANSWERS, EVENT_FILE, EVENT_FILE_ONE, PROGRAM, STRAIGHT_LINE, TOP, folder

SHIM = r"""
#define _GNU_SOURCE
#include <dlfcn.h>
#include <errno.h>
#include <stdio.h>
#include <stdlib.h>

static long seen, refused = -1;
static int all_later;

static int refuse(void) {
    if (refused < 0) {
        const char *number = getenv("REFUSED_CALL");
        refused = number ? atol(number) : 0;
        all_later = getenv("REFUSED_LATER") != 0;
    }
    seen++;
    return refused > 0 && (all_later ? seen >= refused : seen == refused);
}

__attribute__((destructor)) static void tell(void) {
    const char *name = getenv("TELL_CALLS");
    long calls = seen;
    FILE *file = name ? fopen(name, "w") : 0;
    if (file) { fprintf(file, "%ld", calls); fclose(file); }
}

static void *next(const char *name) { return dlsym(RTLD_NEXT, name); }

void *malloc(size_t size) {
    static void *(*real)(size_t);
    if (!real) real = next("malloc");
    if (refuse()) { errno = ENOMEM; return 0; }
    return real(size);
}

void *realloc(void *old, size_t size) {
    static void *(*real)(void *, size_t);
    if (!real) real = next("realloc");
    if (refuse()) { errno = ENOMEM; return 0; }
    return real(old, size);
}

/* (dlsym itself takes memory by calloc: that comes from here) */
void *calloc(size_t count, size_t size) {
    static void *(*real)(size_t, size_t);
    static char early[4096];
    static size_t used;
    static int is_asking;
    if (!real && is_asking) {
        size_t place = used;
        used += (count * size + 15) / 16 * 16;
        return used <= sizeof early ? early + place : 0;
    }
    if (!real) { is_asking = 1; real = next("calloc"); is_asking = 0; }
    if (refuse()) { errno = ENOMEM; return 0; }
    return real(count, size);
}

int posix_memalign(void **out, size_t align, size_t size) {
    static int (*real)(void **, size_t, size_t);
    if (!real) real = next("posix_memalign");
    if (refuse()) return ENOMEM;
    return real(out, align, size);
}

void *aligned_alloc(size_t align, size_t size) {
    static void *(*real)(size_t, size_t);
    if (!real) real = next("aligned_alloc");
    if (refuse()) { errno = ENOMEM; return 0; }
    return real(align, size);
}
"""

# Refused by the checker, by the grammar, by a token, by a name, by a link; a procedure; the plan's text and its walk.
BROKEN = {
    "E2": b"cdlam adc 1 1 5 12\nvar v\nservice adc within 9 cycles event 0 words {\ncdreg r 1 1 5 v + 16\ncfsa 0 r -> v\n}\n",
    "E10": b"cdlam adc 1 1 5 12\nvar k\nservice adc within 9 cycles event 0 words {\nk = 9\nwhile k > 0 turns 3 by k { k = k - 1 }\n}\n",
    "S1": b"cdlam adc 1 1 5 12\nvar v !\n",
    "S4": b"cdlam adc 1 1 5 12\nvar adc\n",
    "S5": b"cdlam adc 1 1 5 12\nservcie adc\n",
    "L1": b"cdlam adc 1 1 4 12\n",
}
PROCEDURE = (TOP / "examples/procedure.script").read_bytes()
BROKEN_PLANS = {
    "P1": b"[[type]\n",
    "P2": b"[[crate]]\nnumber = 1\nwiats = 2\n",
    "P11": b"a = " + 17 * b"[",
    "P9": b"[[type]]\nname = 'A'\ncommands = []\n[[crate]]\nnumber = 1\nstation = [{ n = 1, type = 'A', gl = 3 }, { n = 2, type = 'A', gl = 3 }]\n",
}
REFUSED = (TOP / "examples/too_few_cycles.script").read_bytes()
UNREAD = b"cdlam adc 1 1 5 12\nput\n"
LOCKED = (TOP / "examples/lockout.script").read_bytes()
# blocks of every kind, one of which is never reached
ARMS = b"""cdlam adc 1 1 5 12
var i k
service adc within 99 cycles event 9 words {
  k = 3
  for i = 1 to 2 { if q and i > 1 { lock 1 { cclc adc } } else { put i } }
  while k > 0 turns 3 by k { k = k - 1  if i > 5 { put 1 } }
}
"""
SAMPLE_PLAN = (TOP / "examples/sample_plan.toml").read_bytes()

MANY = b"1 1 000001 0 000004\n" * 40

MEMORY = (3, b"", b"fault memory\n")


@needed("gcc")
class RefusedMemory(unittest.TestCase):
    @classmethod
    def setUpClass(cls):
        cls.room = folder(cls.addClassCleanup)
        (cls.room / "refuse.c").write_text(SHIM)
        cls.library = str(cls.room / "refuse.so")
        subprocess.run(["cc", "-shared", "-fPIC", "-O1", "-o", cls.library, str(cls.room / "refuse.c"), "-ldl"], check=True)

    def ended(self, words, given, **environment):
        """Returns the status, what was written to both outputs, and the event file, or None if there is none."""
        events = self.room / "run.events"
        events.unlink(missing_ok=True)
        environment = {"PATH": "/usr/bin:/bin", "LD_PRELOAD": self.library, **environment}
        run = subprocess.run([PROGRAM, *words], input=given, env=environment, cwd=self.room, stdout=subprocess.PIPE, stderr=subprocess.PIPE, timeout=60)
        return (run.returncode, run.stdout, run.stderr), events.read_bytes() if events.exists() else None

    def refuse_each(self, words, given=b"", script=STRAIGHT_LINE):
        """Counts the allocations of a run with ample memory, and then refuses each of them, alone and with all later ones."""
        (self.room / "script").write_bytes(script)
        told = self.room / "calls"
        ample = self.ended(words.split(), given, TELL_CALLS=str(told))
        self.assertNotEqual(ample[0], MEMORY)
        calls = int(told.read_text())
        refused = 0
        for number in range(1, calls + 1):
            for more in ({}, {"REFUSED_LATER": "1"}):
                with self.subTest(words=words, number=number, **more):
                    ended, events = self.ended(words.split(), given, REFUSED_CALL=str(number), **more)
                    if (ended, events) != ample:
                        refused += 1
                        # EVENTS is not made, since memory is taken before the run begins
                        self.assertEqual((ended, events), (MEMORY, None))
        self.assertGreater(refused, 0)

    def test_plan(self):
        self.refuse_each("plan @sample")
        self.refuse_each("plan @in", SAMPLE_PLAN)
        self.refuse_each("plan none")

    def test_check(self):
        for script in (STRAIGHT_LINE, REFUSED, UNREAD, LOCKED):
            self.refuse_each("check @sample @in", script)

    def test_bounds(self):
        for script in (STRAIGHT_LINE, REFUSED, UNREAD, LOCKED, PROCEDURE, BROKEN["E2"]):
            self.refuse_each("bounds @sample @in", script)
        self.refuse_each("bounds @in script", SAMPLE_PLAN, PROCEDURE)

    def test_costs(self):
        for script in (STRAIGHT_LINE, REFUSED, UNREAD, PROCEDURE, ARMS):
            self.refuse_each("costs @sample @in", script)
            self.refuse_each("tell @sample @in", script)
        self.refuse_each("costs @in script", SAMPLE_PLAN, PROCEDURE)

    def test_explain(self):
        for script in (STRAIGHT_LINE, REFUSED, UNREAD, *BROKEN.values()):
            self.refuse_each("explain @sample @in", script)
        for plan in (SAMPLE_PLAN, *BROKEN_PLANS.values()):
            self.refuse_each("explain @in script", plan)

    def test_run(self):
        self.refuse_each("run @sample script @in run.events", ANSWERS)

    def test_run_with_a_lock(self):
        self.refuse_each("run @sample script @in run.events", MANY, LOCKED)

    def test_run_that_is_refused(self):
        self.refuse_each("run @sample script @in run.events", ANSWERS, REFUSED)
        self.refuse_each("run @sample script @in run.events", b"0 0\n")

    def test_drive(self):
        self.refuse_each("drive @sample script run.events", ANSWERS)
        self.refuse_each("drive @sample script run.events", ANSWERS, REFUSED)

    def test_events(self):
        for file in (EVENT_FILE_ONE, EVENT_FILE, EVENT_FILE[:-1]):
            self.refuse_each("events @in", file)


if __name__ == "__main__":
    unittest.main()
