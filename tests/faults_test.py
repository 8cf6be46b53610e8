#!/usr/bin/env python3
"""Tries the built program where each call of the system fails, once or from there on, and looks at the order of its calls. A small
library in front of the C library writes all calls of the program into one log. It is compiled here.

usage: tests/faults_test.py [-v] [TEST ..]     from any folder; takes about half a minute
"""
import collections
import os
import re
import subprocess

from support.needs import needed, skip
from support.program import ANSWERS, DEMAND, EVENT_FILE, LISTING, PROGRAM, REQUESTS, STRAIGHT_LINE, TWICE, Case, fault, lacks, run_tests, unwritten

# FAILING_TURN is the number of the call that fails, and FAILING_ERROR its error, 0 for a write that takes nothing, or SHORT for a read or
# write that moves one byte. With FAILING_LATER each later call of this name on this file fails too. PIECE is how many bytes a read or a
# write takes at most, or 0. Each call is a line of CALLS: its name, its file, how much was asked for, the answer, the bytes.
SHIM = r"""
#define _GNU_SOURCE
#include <errno.h>
#include <fcntl.h>
#include <stdarg.h>
#include <stdio.h>
#include <stdlib.h>
#include <string.h>
#include <sys/stat.h>
#include <sys/syscall.h>
#include <unistd.h>

static long number(const char *name) { return atol(getenv(name)); }

static long least(long a, long b) { return b && b < a ? b : a; }

static long end(long answer) {
    if (answer >= 0) return answer;
    errno = -answer;
    return -1;
}

static long raw(long call, long a, long b, long c, long d, long e) {
    long answer = syscall(call, a, b, c, d, e);
    return answer < 0 ? -errno : answer;
}

static const char *place(int fd) {
    static const char *standard[] = {"in", "out", "err"};
    static char name[4096];
    char link[64];
    if (fd >= 0 && fd <= 2) return standard[fd];
    snprintf(link, sizeof link, "/proc/self/fd/%d", fd);
    long size = raw(SYS_readlinkat, AT_FDCWD, (long)link, (long)name, sizeof name - 1, 0);
    name[size < 0 ? 0 : size] = 0;
    return strrchr(name, '/') ? strrchr(name, '/') + 1 : name;
}

static void write_down(const char *name, const char *place, long asked, long answer, const unsigned char *bytes) {
    static char line[200000];
    long size = snprintf(line, 8192, "%s %s %ld %ld ", name, *place ? place : "/", asked, answer);
    for (long at = 0; bytes && at < answer; at++) size += sprintf(line + size, "%02x", bytes[at]);
    line[size++] = '\n';
    int fd = raw(SYS_openat, AT_FDCWD, (long)getenv("CALLS"), O_WRONLY | O_APPEND | O_CREAT, 0666, 0);
    raw(SYS_write, fd, (long)line, size, 0, 0);
    raw(SYS_close, fd, 0, 0, 0, 0);
}

/* Whether this call fails. */
static int fails(const char *name, const char *place) {
    static long turn;
    static char failed[8192];
    char call[8192];
    snprintf(call, sizeof call, "%s %s", name, place);
    if (++turn == number("FAILING_TURN")) {
        if (getenv("FAILING_LATER")) strcpy(failed, call);
        return 1;
    }
    return *failed && !strcmp(failed, call);
}

static long move(const char *name, long call, int fd, const void *bytes, size_t size) {
    long piece = number("PIECE"), error = number("FAILING_ERROR");
    int is_failing = fails(name, place(fd));
    if (is_failing && error == SHORT) piece = 1;
    long answer = is_failing && error != SHORT ? -error : raw(call, fd, (long)bytes, least(size, piece), 0, 0);
    write_down(name, place(fd), size, answer, bytes);
    return end(answer);
}

ssize_t read(int fd, void *bytes, size_t size) { return move("read", SYS_read, fd, bytes, size); }

ssize_t write(int fd, const void *bytes, size_t size) { return move("write", SYS_write, fd, bytes, size); }

int fsync(int fd) {
    long answer = fails("fsync", place(fd)) ? -number("FAILING_ERROR") : raw(SYS_fsync, fd, 0, 0, 0, 0);
    write_down("fsync", place(fd), 0, answer, 0);
    return end(answer);
}

int ftruncate(int fd, off_t size) {
    long answer = fails("ftruncate", place(fd)) ? -number("FAILING_ERROR") : raw(SYS_ftruncate, fd, size, 0, 0, 0);
    write_down("ftruncate", place(fd), size, answer, 0);
    return end(answer);
}

int statx(int fd, const char *path, int flags, unsigned mask, struct statx *about) {
    long answer = fails("statx", *path ? path : place(fd)) ? -number("FAILING_ERROR") : raw(SYS_statx, fd, (long)path, flags, mask, (long)about);
    write_down("statx", *path ? path : place(fd), 0, answer, 0);
    return end(answer);
}

int open(const char *path, int flags, ...) {
    va_list more;
    va_start(more, flags);
    int mode = flags & O_CREAT ? va_arg(more, int) : 0;
    va_end(more);
    long answer = fails("open", path) ? -number("FAILING_ERROR") : raw(SYS_openat, AT_FDCWD, (long)path, flags, mode, 0);
    write_down("open", path, 0, least(answer, 1), 0);
    return end(answer);
}

/* What is closed is closed, whatever the answer. */
int close(int fd) {
    char name[4096];
    snprintf(name, sizeof name, "%s", place(fd));
    long answer = raw(SYS_close, fd, 0, 0, 0, 0);
    if (fails("close", name)) answer = -number("FAILING_ERROR");
    write_down("close", name, 0, answer, 0);
    return end(answer);
}
"""
EINTR, EIO, EAGAIN, EMFILE, ENOSPC, NOTHING, SHORT = 4, 5, 11, 24, 28, 0, 9999
SHIM = SHIM.replace("SHORT", str(SHORT))
# How each call may fail.
ERRORS = {
    "read": (EINTR, EIO, EAGAIN),
    "write": (EINTR, EIO, EAGAIN, ENOSPC, NOTHING),
    "open": (EINTR, EIO, ENOSPC, EMFILE),
    "fsync": (EINTR, EIO, ENOSPC),
    "ftruncate": (EINTR, EIO, ENOSPC),
    "statx": (EIO,),
    "close": (EINTR, EIO, ENOSPC),
}
HEADER, RECORD = EVENT_FILE[:8], EVENT_FILE[8:]
SECOND_RECORD = RECORD[:4] + bytes([0, 0, 0, 2]) + RECORD[8:]
LOCKOUT = b"""cdlam adc 1 1 5 12
var v k i t
service adc within 6 cycles event 100 words {
cdreg r 1 1 5 0
lock 1 {
  cfsa 0 r -> v
  cfsa 0 r -> v
  cfsa 0 r -> v
  cfsa 0 r -> v
}
}
"""
WRITING = b"""cdlam adc 1 1 5 12
service adc within 3 cycles event 0 words {
cdreg r 1 1 6 0
cfsa 16 r <- 255
}
"""
LINES, ASKED = LISTING.splitlines(True), REQUESTS.splitlines(True)
Call = collections.namedtuple("Call", "name place asked answer bytes")


class Ran:
    """What the program answered, what is in EVENTS after it, and its calls but those on standard error, each with its number. The calls
    that close a file are apart: what is closed at the end has no part in the order."""

    def __init__(self, answer, events, log):
        self.status, self.out, err = answer
        # Of a refused answer there is more, which tests/changes_test.py tries.
        self.err = re.sub(rb"  \w+: column .*\n", b"", err)
        self.events, self.calls, self.turns, self.closes = events, [], [], []
        for turn, line in enumerate(log.splitlines(), 1):
            name, place, asked, answer, text = line.split(" ")
            if name == "close":
                self.closes.append(turn)
            elif place != "err":
                self.calls.append(Call(name, place, int(asked), int(answer), bytes.fromhex(text)))
                self.turns.append(turn)

    def moves(self):
        return [it for it in self.calls if it.name in ("read", "write")]

    def writes(self):
        return [(it.place, it.bytes) for it in self.calls if it.name == "write"]


@needed("gcc")
class Logged(Case):
    """A test of the program with the library in front of its calls."""

    @classmethod
    def setUpClass(cls):
        with open(PROGRAM, "rb") as program:
            if program.read(4) != b"\x7fELF":
                skip("a built program")  # the calls of a launcher would fail
        cls.library = cls.shared() / "calls.so"
        subprocess.run(["cc", "-shared", "-fPIC", "-O1", "-xc", "-o", cls.library, "-"], input=SHIM.encode(), check=True)

    def ran(self, line, given=None, turn=0, error=0, piece=0, there=None, later=False):
        """The program on the words of a line. `given` names the file behind standard input (`|NAME`: a pipe from it), `there` is what is in EVENTS before. The
        call number `turn` fails, and with `later` all later ones of its kind."""
        log, events = self.room / "calls", self.room / "e"
        log.write_text("")
        events.unlink(missing_ok=True)
        if there is not None:
            events.write_bytes(there)
        about = {"CALLS": log, "FAILING_TURN": turn, "FAILING_ERROR": error, "PIECE": piece, **({"FAILING_LATER": 1} if later else {})}
        env = {**os.environ, "LD_PRELOAD": self.library, **{name: str(it) for name, it in about.items()}}
        if given and given.startswith("|"):
            answer = self.call(*line.split(), given=self.file(given[1:]), env=env)
        else:
            with open(self.room / given if given else os.devnull, "rb") as file:
                answer = self.call(*line.split(), given=None, stdin=file, env=env)
        return Ran(answer, events.read_bytes() if events.exists() else None, log.read_text())


def is_reading(line, call):
    """Whether it is the call of an input."""
    command, *_, output = line.split()
    return call.name in ("read", "open") and (command not in ("run", "drive") or call.place != output)


def told(line, call, error):
    """The lines of the fault if this call fails."""
    streams = {"in": "@in", "/proc/self/fd/0": "@in", "out": "standard output"}
    names = {**streams, **{os.path.basename(word): word for word in line.split()}}
    return fault("read" if is_reading(line, call) else "write", names.get(call.place, call.place), error or "it takes no bytes")


class InTurn(Logged):
    """The order of the reads and writes of a run, in one log."""

    def expect_states(self, line, states, given=None):
        """When an answer is read after so many whole lines, the listing and the event file hold this; at the end the last of these."""
        answers = "in" if given else "answers"
        for piece in (0, 1, 2, 7, 19, 20, 21, 40):
            with self.subTest(line=line, piece=piece):
                ran = self.ran(line, given, piece=piece)
                held = collections.defaultdict(bytes)
                for call in ran.moves():
                    if call.name == "read" and call.place == answers:
                        self.assertEqual((held["out"], held["e"]), states[held[answers].count(b"\n")])
                    elif call.name == "read":
                        self.assertEqual((held[answers], held["out"], held["e"]), (b"", b"", b""), "a plan or a script is read late")
                    held[call.place] += call.bytes
                self.assertEqual((held["out"], held["e"]), states[-1])
                self.assertEqual((ran.out, ran.err, ran.events), (held["out"], b"", held["e"]))

    def test_run(self):
        states = [(b"", b""), (LINES[0], HEADER), (LINES[0] + LINES[1], EVENT_FILE), (LISTING, EVENT_FILE)]
        self.expect_states("run plan.toml straight.script answers e", states)
        self.expect_states("run plan.toml straight.script @in e", states, "answers")

    def test_run_of_two_events(self):
        (self.room / "answers").write_bytes(ANSWERS * 2)
        pair, file = LINES[0] + LINES[1], EVENT_FILE + SECOND_RECORD
        states = [(b"", b""), (LINES[0], HEADER), (pair, EVENT_FILE), (pair + LINES[0], EVENT_FILE), (pair * 2, file)]
        self.expect_states("run plan.toml straight.script answers e", [*states, (pair * 2 + b"ended events 2\n", file)])

    def test_run_in_a_lock(self):
        (self.room / "locked.script").write_bytes(LOCKOUT)
        (self.room / "answers").write_bytes(DEMAND + b"0 0 000000 2 000000\n1 1 000abc 0 000000\n1 1 000abc 1 000000\n")
        lines = [b"demand 000004 adc\n", b"lock 1 wait 2\n", b"cycle 1 5 0 0 in 000abc x1 q1 wait 0\n", b"overrun 1 wait 1 events 0\n"]
        states = [(b"".join(lines[:n]), HEADER) for n in range(1, 5)]
        self.expect_states("run plan.toml locked.script answers e", [(b"", b""), *states, states[-1]])

    def test_live_run(self):
        asked = [b"".join(ASKED[:n]) for n in (1, 2, 3)]
        states = [(asked[0], HEADER), (asked[1], HEADER), (asked[2], EVENT_FILE), (REQUESTS, EVENT_FILE)]
        self.expect_states("drive plan.toml straight.script e", states, "answers")

    def test_no_answer_is_read_after_the_last(self):
        """After the second answer nothing is read any more."""
        overrun = (DEMAND + b"1 1 123fff 3 000000\n", b"overrun 1 wait 3 events 0\n")
        bad = (DEMAND + b"1 1 fffffff 0 000000\n", b"refused A1 line 2: line shape\n")
        for given, told in (overrun, bad):
            (self.room / "answers").write_bytes(given + ANSWERS)
            self.expect_states("run plan.toml straight.script answers e", [(b"", b""), (LINES[0], HEADER), None, (LINES[0] + told, HEADER)])
            asked = ASKED[0] + ASKED[1]
            self.expect_states("drive plan.toml straight.script e", [(ASKED[0], HEADER), (asked, HEADER), None, (asked + told, HEADER)], "answers")

    def test_each_request_is_one_write(self):
        asked = self.ran("drive plan.toml straight.script e", "answers").writes()
        self.assertEqual([it for it in asked if it[0] == "out"], [("out", it) for it in ASKED])
        (self.room / "writing.script").write_bytes(WRITING)
        asked = self.ran("drive plan.toml writing.script e", "answers").writes()
        lines = [b"demand\n", b"cycle 1 6 0 16 out 0000ff\n", b"demand\n", b"ended events 1\n"]
        self.assertEqual([it for it in asked if it[0] == "out"], [("out", it) for it in lines])

    def test_a_refused_script_reads_no_answer(self):
        (self.room / "bad").write_bytes(b"!")
        refused = [("out", b"refused S1 line 1: bad byte\n")]
        for line in ("run plan.toml bad @in e", "drive plan.toml bad e"):
            ran = self.ran(line, "answers")
            self.assertEqual(ran.writes(), refused)
            self.assertEqual([it for it in ran.moves() if it.place == "in"], [])

    def test_a_refused_plan_reads_no_script(self):
        (self.room / "bad").write_bytes(b"=")
        for line in ("check bad straight.script", "run bad straight.script answers e", "drive bad straight.script e"):
            ran = self.ran(line, "answers")
            self.assertEqual(ran.writes(), [("out", b"refused P1: not TOML\n")])
            self.assertEqual({it.place for it in ran.moves()}, {"bad", "out"})


class Fails(Logged):
    """A call that fails is the last one but for those that report it, even if the next one would go well."""

    def setUp(self):
        super().setUp()
        (self.room / "one.events").write_bytes(EVENT_FILE)
        records = [RECORD[:6] + n.to_bytes(2, "big") + RECORD[8:] for n in range(1, 2001)]
        (self.room / "many.events").write_bytes(HEADER + b"".join(records))

    def expect_each(self, line, given=None, piece=0, there=None, status=0):
        """Has each call fail in turn, alone and with all later ones of its kind. Returns the names of the calls."""
        whole = self.ran(line, given, piece=piece, there=there)
        self.assertEqual((whole.status, whole.err), (status, b""))
        for place, (turn, call) in enumerate(zip(whole.turns, whole.calls)):
            for error in ERRORS[call.name]:
                # std makes an interrupted open, cut or sync again, and a read of what EVENTS begins with
                is_repeated = error == EINTR and (call.name in ("open", "fsync", "ftruncate") or call[:2] == ("read", "e"))
                for later in (False,) if is_repeated else (False, True):
                    is_good = False
                    with self.subTest(line=line, call=call[:3], error=error, later=later):
                        ran = self.ran(line, given, turn, error, piece, there, later)
                        wanted = whole.calls[:place] + [call._replace(answer=-error, bytes=b"")]
                        if is_repeated:
                            self.expect_calls(ran, wanted + whole.calls[place:])
                            self.expect_whole(ran, whole)
                        else:
                            self.expect_calls(ran, wanted)
                            self.assertEqual((ran.status, ran.err), (3, told(line, call, error)))
                            self.expect_left(ran, there)
                        is_good = True
                    if not is_good:
                        # a call that is made again would never end
                        break
        self.expect_closes(line, whole, given, piece, there)
        self.expect_short(line, whole, given, piece, there)
        return [it.name for it in whole.calls]

    def expect_closes(self, line, whole, given, piece, there):
        """An error of the call that closes a file is not reported: nothing is lost by it."""
        for turn in whole.closes:
            for error in ERRORS["close"]:
                with self.subTest(line=line, closing=turn, error=error):
                    self.expect_whole(self.ran(line, given, turn, error, piece, there, error == EIO), whole)

    def expect_short(self, line, whole, given, piece, there):
        """After a read or write that moves one byte there is one for the rest."""
        for turn, call in zip(whole.turns, whole.calls):
            if call.name in ("read", "write"):
                with self.subTest(line=line, short=call[:3]):
                    self.expect_whole(self.ran(line, given, turn, SHORT, piece, there), whole)

    def expect_whole(self, ran, whole):
        self.assertEqual((ran.status, ran.out, ran.err, ran.events), (whole.status, whole.out, whole.err, whole.events))

    def expect_calls(self, ran, wanted):
        self.assertEqual([it[:4] for it in ran.calls], [it[:4] for it in wanted])
        self.assertTrue(ran.calls == wanted)

    def expect_left(self, ran, there):
        """The calls wrote what is there, and no more; EVENTS is as it was until it is emptied."""
        left = collections.defaultdict(bytes, {} if there is None else {"e": there})
        for call in ran.calls:
            if call.name == "open" and call.place == "e" and call.answer > 0:
                left["e"] += b""
            elif call.name == "ftruncate" and call.answer == 0:
                left[call.place] = b""
            elif call.name == "write":
                left[call.place] += call.bytes
        self.assertEqual((ran.out, ran.events), (left["out"], left.get("e")))

    def test_plans(self):
        self.expect_each("plan @sample")
        self.expect_each("plan plan.toml")
        self.expect_each("plan @in", "plan.toml")

    def test_scripts(self):
        for name in ("check", "explain", "bounds", "costs", "tell"):
            self.expect_each(f"{name} plan.toml straight.script")
            self.expect_each(f"{name} plan.toml @in", "straight.script")

    def test_event_files(self):
        self.expect_each("events one.events")
        self.expect_each("events @in", "one.events")
        self.assertGreater(self.expect_each("events many.events").count("write"), 1)

    def test_runs(self):
        calls = self.expect_each("run plan.toml straight.script answers e")
        self.assertEqual(calls[-2:], ["statx", "fsync"])
        self.expect_each("run @sample straight.script @in e", "answers")
        calls = self.expect_each("run plan.toml straight.script answers e", there=EVENT_FILE * 2)
        self.assertEqual(calls.count("ftruncate"), 1)

    def test_runs_in_pieces(self):
        """A call that moves only some bytes is followed by one for the rest, and that may fail too."""
        self.expect_each("run @sample straight.script answers e", piece=9)

    def test_live_runs(self):
        self.expect_each("drive plan.toml straight.script e", "answers")
        self.expect_each("drive @sample straight.script e", "answers", there=b"")
        self.expect_each("drive @sample straight.script e", "answers", piece=9)

    def test_live_runs_through_pipes(self):
        (self.room / "locked.script").write_bytes(LOCKOUT)
        (self.room / "waits").write_bytes((DEMAND + b"0 0 000000 2 000000\n" + b"1 1 000abc 0 000000\n" * 4) * 2)
        self.expect_each("drive plan.toml straight.script e", "|answers")
        self.expect_each("drive @sample locked.script e", "|waits")

    def test_refusals(self):
        """Lines of a refusal, and those of `explain`, in many writes."""
        (self.room / "refused.script").write_bytes(STRAIGHT_LINE.replace(b"within 3", b"within 2"))
        for name in ("check", "explain"):
            self.expect_each(f"{name} plan.toml refused.script", status=1)
        self.expect_each("run plan.toml refused.script answers e", status=1)
        self.expect_each("run plan.toml refused.script answers e", there=EVENT_FILE, status=1)
        (self.room / "bad").write_bytes(b"!")
        calls = self.expect_each("run plan.toml straight.script bad e", there=EVENT_FILE, status=1)
        self.assertNotIn("ftruncate", calls)
        (self.room / "cut.events").write_bytes(EVENT_FILE[:-1])
        self.expect_each("events cut.events", status=1)

    def test_overruns_wait_for_the_disk(self):
        """A run that a wait stops has ended without a fault, so its event file is on the disk."""
        (self.room / "answers").write_bytes(DEMAND + b"1 1 123fff 3 000000\n")
        for line, given in (("run plan.toml straight.script answers e", None), ("drive plan.toml straight.script e", "answers")):
            whole = self.ran(line, given)
            self.assertEqual((whole.status, [it.name for it in whole.calls[-2:]]), (1, ["statx", "fsync"]))
            ran = self.ran(line, given, whole.turns[-1], EIO)
            self.assertEqual((ran.status, ran.out, ran.err, ran.events), (3, whole.out, unwritten(EIO, "e"), whole.events))

    def test_device_in_the_place_of_events(self):
        """What is no file is not waited for."""
        calls = self.expect_each("run @sample straight.script answers /dev/null")
        self.assertNotIn("fsync", calls)


class Told(Logged):
    """Help, and the lines on standard error: an interrupted write of them is made again."""

    def test_help(self):
        for line in ("--help", "run --help", "--version"):
            whole = self.ran(line)
            for turn in whole.turns:
                ran = self.ran(line, turn=turn, error=EINTR)
                self.assertEqual((ran.status, ran.out, ran.err), (0, whole.out, b""), line)

    def test_help_that_is_not_taken(self):
        for line in ("--help", "run --help", "--version"):
            whole = self.ran(line)
            for place, (turn, call) in enumerate(zip(whole.turns, whole.calls)):
                if call.name == "write":
                    ran = self.ran(line, turn=turn, error=EIO)
                    self.assertEqual((ran.status, ran.err), (3, unwritten(EIO)), line)
                    self.assertEqual(ran.calls, whole.calls[:place] + [call._replace(answer=-EIO, bytes=b"")])

    def test_lines_on_standard_error(self):
        """The lines of a fault; if standard error does not take it, only the status shows it."""
        for line, status, told in (("plan none", 3, lacks("none")), ("check @in @in", 2, TWICE)):
            last = len(self.ran(line).calls) + 1
            self.assertEqual(self.answer(line, last, EINTR), (status, b"", told))
            self.assertEqual(self.answer(line, last, EIO)[:2], (status, b""))

    def answer(self, line, turn, error):
        ran = self.ran(line, turn=turn, error=error)
        return ran.status, ran.out, ran.err


if __name__ == "__main__":
    run_tests()
