#!/usr/bin/env python3
"""Tries the library for C: headers, calls and codes, the examples, the Python module over it, and the package. A session, `camac_run` and
the program have to write the same for the same answers, byte for byte.

usage: tests/library_test.py [-v] [TEST ..]     from any folder; takes a minute or two on four cores

It needs gcc and the archive that tests/support/of_c.py names, else all is left out. """
import collections
import concurrent.futures
import contextlib
import functools
import itertools
import os
import re
import shutil
import subprocess
import sys
import threading
import time
import zipfile
from random import Random

from support import of_c
from support.live import CLEARED, LOCKOUT, PROGRAM, STRAIGHT_LINE, TOP, Broken, Case, Listed, run_tests
from support.needs import needed
from support.program import EVENT_FILE
import camac
from camac import Answer, Ending, ProgramFault, Refused, UsageFault, judge, library
from camac.mock import Adc, Auxiliary, MockBranch, Recorded, Recorder, Register
from camac.program import lines_of, output_of
from oracle.maker.plans import make_plan
from oracle.maker.scripts import make_script
from oracle.reader.plan import read_plan

EXAMPLES = TOP / "examples"
SAMPLE = EXAMPLES / "sample_plan.toml"
HERE = TOP / "tests/library"
# the lists of answers for each script of examples, and for each one of the folders in it
LISTS, FEW_LISTS = 300, 20
OPENINGS = 1_000_000
# the scripts that are played by a consumer
SCRIPTS = 1000
MOST_KIB = 4096
SHORT_PLAN = '''[[type]]
name = "ADC"
commands = [ { f = 0, a = 0, width = 12 } ]
[[crate]]
number = 1
station = [ { n = 5, type = "ADC", gl = 3 } ]
'''
CALLS = """cdlam adc 1 1 5 12
proc one(a in 0..11, v in 0..0) within 3 cycles event 0 words steps 2 {
  cdreg r 1 1 5 a
  cfsa 0 r -> v
}
service adc within 9 cycles event 0 words {
  call one(3, 0)
  call one((9 - 1) / 2, 0)
  cclc adc
}
"""
ARMS = """cdlam adc 1 1 5 12
var v w
service adc within 12 cycles event 3 words {
  cdreg r 1 1 5 3
  cfsa 0 r -> v
  if v > 5 { if not q { put v } w = v } else { w = 4 }
  v = 4
  if v < 5 and not v == 3 { cfsa 0 r -> w } else { put v }
  if q { cdreg r 1 1 5 4 }
  cclc adc
  if w == 4 { cfsa 0 r -> v }
  put v
}
"""
LOCKS = """cdlam adc 1 1 5 12
var v
service adc within 13 cycles event 0 words {
  cclc adc
  lock 1 {
    cdreg r 1 1 5 3
    cfsa 0 r -> v
    cclc adc
  }
  cclc adc
}
"""
DECIDES = """cdlam adc 1 1 5 12
var v
service adc within 9 cycles event 0 words {
  cdreg r 1 1 5 3
  cfsa 0 r -> v
  if v > 5 { cfsa 0 r -> v }
  cclc adc
}
"""
PASSED = """cdlam adc 1 1 5 12
proc twice(a in 0..4095, b in 0..9) within 0 cycles event 1 words steps 4 {
  b = 7
  if a > 5 { b = 2 }
  put b * a
}
var v w i u
service adc within 18 cycles event 6 words {
  cdreg r 1 1 5 3
  u = 4
  cfsa 0 r -> v
  if q {
    for i = 0 to 2 { w = i put i }
    call twice(v, 1)
    for i = 0 to 1 each { put i }
  } else {
    w = 5
    while w > 0 turns 5 by w { w = w - 1 }
  }
  cclc adc
  if u == 4 { cfsa 0 r -> v }
  i = 3
  while i > 0 turns 3 by i { i = i - 1 }
  cclc adc
  if w == 2 { cfsa 0 r -> v }
  cclc adc
}
"""
TURNS = """cdlam adc 1 1 5 12
var v i
service adc within 9 cycles event 300 words {
  cdreg r 1 1 5 3
  cfsa 0 r -> v
  if v > 5 { for i = 0 to %d { put i } }
  cclc adc
}
"""
ARCHIVE_BYTES = 1_330_000
NEEDED = {"malloc", "realloc", "free", "memcpy", "memmove", "memset"}
ESONE = """
void cdreg(int *ext, int b, int c, int n, int a);
void cfsa(int f, int ext, int *data, int *q);
void ctstat(int *k);
"""
BY_REFERENCE = """
void cdreg_(int *ext, const int *b, const int *c, const int *n, const int *a);
void cfsa_(const int *f, const int *ext, int *data, int *q);
void ctstat_(int *k);
static inline void all_by_reference(int *ext, int b, int c, int n, int a) { cdreg_(ext, &b, &c, &n, &a); }
static inline void cfsa_by_reference(int f, int *ext, int *data, int *q) { cfsa_(&f, ext, data, q); }
#define CAMAC_CDREG(ext, b, c, n, a) all_by_reference(ext, b, c, n, a)
#define CAMAC_CFSA(f, ext, data, q) cfsa_by_reference(f, ext, data, q)
#define CAMAC_CTSTAT(k) ctstat_(k)
"""
MCSTD = """
void cam24i_q(const int c, const int n, const int a, const int f, unsigned int *d, int *x, int *q);
void cam24o_q(const int c, const int n, const int a, const int f, unsigned int d, int *x, int *q);
void camc_q(const int c, const int n, const int a, const int f, int *q);
void cam_lam_read(const int c, unsigned int *lam);
void cam_crate_zinit(const int c);
void cam_crate_clear(const int c);
void cam_inhibit_set(const int c);
void cam_inhibit_clear(const int c);
void cam_lam_enable(const int c, const int n);
void cam_lam_clear(const int c, const int n);
int camc_chk(const int c);
"""
# which calls of mcstd make a cycle of crate 2, and its answer
CYCLES_BY_MCSTD = """cam_lam_enable 2 2 cam_lam_enable 2 3 cam_lam_enable 2 24 camc_chk 2 there 0
cam24i_q 2 5 0 0 -> 0 0 123456 0 000000
cam24i_q 2 5 1 1 -> 1 1 123456 0 000000
cam24o_q 2 5 1 16 abcdef -> 1 0 000000 0 000000
camc_q 2 5 1 9 -> 1 1 000000 0 000000
camc_q 2 5 1 10 -> 1 0 000000 0 000000
camc_q 2 3 1 10 cam_lam_clear 2 3 -> 1 0 000000 0 000000
cam_crate_zinit 2 -> 1 1 000000 0 000000
cam_crate_clear 2 -> 1 1 000000 0 000000
cam_inhibit_clear 2 -> 1 1 000000 0 000000
cam_inhibit_set 2 -> 1 1 000000 0 000000
-> 1 1 000000 0 000000
-> 1 1 000000 0 000000
-> 1 1 000000 0 000000
-> 1 1 000000 0 000000
cam_lam_read 2 -> 1 1 000000 0 800004
cam_lam_read 2 -> 1 1 000000 0 800004
"""
# the rate of a script's only service, of 3 cycles, and what `response` says of its end
ONE_SERVICE = "service adc gl 3 cycles 3 {} start 0 end 3 {}longest 3\n"
# test_where_a_session_stands has the numbers of these lines
PLACES = """cdlam adc 1 1 5 12   cdlam reg 1 1 6 0
var v n i
proc read(k in 0..11) within 4 cycles event 0 words steps 4 {
  cdreg r 1 1 5 k   cfsa 0 r -> k
}
service adc within 50 cycles event 9 words {
  cdreg a 1 1 5 0
  n = 1
  cfsa 0 a -> v
  if q {
    cssa 0 a -> v
  } else {
    cfsa 0 a -> v
  } for i = 0 to 1 { call read(i) }
  lock 1 {
    cclc adc
    cfubc 0 a max 2 tally n
  }
}
service reg within 50 cycles event 0 words {
  cdreg r 1 1 6 0   cfsa 16 r <- n
  ccci 1 on
}
"""
SHORT_CYCLES = """cdlam adc 1 1 5 12
var v
service adc within 50 cycles event 9 words {
  cdreg a 1 1 5 0
  cdreg r 1 1 6 0
  cfsa 0 a -> v
  cssa 0 a -> v
  cssa 16 r <- 5
  cfsa 16 r <- 5
  cfubc 0 a max 1 tally v
  cclc adc
}
"""
NESTED = "cdlam charge 1 1 1 0\nservice charge within 200 cycles event 0 words {\n  lock 1 {\n    lock 2 { cclc charge }\n  }\n}\n"
MISUSE_IN_CPP = """2 service_ahead needs a demand that is wanted
13 and 5 before a demand
5 a number out of its range
1 taken, code 2
2 next needs answers that begin as CAMAC_ANSWER
2 wants needs a session that was not moved from
2 explain_at needs a line and a column from 1 on
2 response needs services of the script, each once at most, as adc=200
"""
# up to its last lock; at the second one, and at a demand, the branch fails once
NESTED_PLAYED = (
    "demand 0 0\nlock 1 0\nlock 2 0\nfault at line 4\nunlock 1\ndemand 0 0\nfault at line 0\ndemand 0 0\nlock 1 0\nlock 2 0\ncycle 1 1\n"
    "event 1 service 1 words 0\nunlock 2\nunlock 1\ndemand 0 0\nlock 1 0\n"
)
DEMAND, CYCLE = Answer(gl=4), Answer(1, 1, 0x123)
# `run`, of a refused script too, and `drive`, with no program
PLAYED = """import sys, camac
from camac.mock import Recorded
script, answers = sys.argv[1:]
print(list(camac.run("@sample", script, answers, "one.events"))[-1].line)
open("wrong", "w").write("service")
try:
    list(camac.run("@sample", "wrong", answers, "one.events"))
except camac.Refused as why:
    print(why.code)
print(camac.drive("@sample", script, Recorded(answers), "two.events").line)
open("bad", "w").write("hello")
print([it.line for it in camac.run("@sample", script, "bad", "wrong")])
try:
    list(camac.run("@sample", script, answers, "wrong"))
except camac.ProgramFault as why:
    print(why, open("wrong").read())
"""
CYCLES_BESIDE = [
    "      2  1 1 123fff 2 000000    cycle 1 5 0 0 in 123fff x1 q1 wait 2",
    "      3  1 1 000000 0 000000    cycle 1 5 12 10 none x1 q1 wait 0",
    " " * 30 + "ended events 1",
]
PLAYS = "ended events 1\nS2\nended events 1\n['refused A1 line 1: line shape']\nfault write\n  wrong: it is no event file service\n"


def setUpModule():
    os.environ.update({"CAMAC_PROGRAM": PROGRAM, **of_c.environment()})


def call(*words, **how):
    """Status and what is printed, standard error too."""
    ran = subprocess.run([str(it) for it in words], stdout=subprocess.PIPE, stderr=subprocess.STDOUT, timeout=170, **how)
    return ran.returncode, ran.stdout.decode()


def names(*words):
    """The names that nm prints."""
    return {it.split()[-1] for it in call("nm", *words)[1].splitlines() if len(it.split()) > 1}


def accepted_script(number):
    """A plan and a script that a seed makes; None if it is refused."""
    random = Random(f"library/{number}")
    plan = make_plan(random)
    script = make_script(random, read_plan(plan))
    return (plan, script) if library.tell("check", plan, script).accepted else None


@functools.lru_cache(maxsize=None)
def pairs():
    """Each example script with each plan that accepts it."""
    every = [(plan, it) for plan in sorted(EXAMPLES.rglob("*.toml")) for it in sorted(EXAMPLES.rglob("*.script"))]
    return [(plan, it) for plan, it in every if call(PROGRAM, "check", plan, it)[0] == 0]


class Blocks:
    """A branch that makes so many cycles of a block at most."""

    blocks = library.Q_STOP + library.Q_REPEAT + library.SCAN + library.WRITES

    def __init__(self, branch, most):
        self.branch, self.most = branch, most

    def __getattr__(self, name):
        return getattr(self.branch, name)

    def block(self, block):
        n, a, made, words = block.n, block.a, [], block.words
        while len(made) < min(self.most, block.cycles) and words and (n, a) <= (block.last_n, block.last_a):
            made.append(self.branch.cycle(block.c, n, a, block.f, block.data and block.data[block.words - words]))
            words -= made[-1].q
            if block.mode == library.Q_STOP and not made[-1].q:
                break
            if block.mode == library.SCAN:
                n, a = (n, a + 1) if made[-1].q and a < 15 else (n + 1, 0)
        return made


class Headers(Case):
    def compile(self, name, text):
        of_c.compiled(self.room, f"{name}.program", self.write(name, text))

    def test_without_a_warning(self):
        end = "int main(void) { return (int)camac_version() / 10000; }\n"
        for name, head in (("a.c", "camac.h"), ("b.cpp", "camac.h"), ("c.cpp", "camac.hpp")):
            self.compile(name, f"#include <camac/{head}>\n#include <camac/{head}>\n{end}")
        for name, begin in (("d.c", ESONE), ("e.cpp", f'extern "C" {{ {ESONE} }}'), ("f.c", BY_REFERENCE)):
            self.compile(name, f"{begin}\n#include <camac/camac_esone.h>\n{end}")
        for name, begin in (("g.c", MCSTD), ("h.cpp", f'extern "C" {{ {MCSTD} }}')):
            self.compile(name, f"{begin}\n#include <camac/camac_mcstd.h>\n{end}")

    def test_pointers_of_other_types(self):
        """A wrong one never compiles, also where nobody asks for warnings; a type and an X of the driver's own do."""
        other = ESONE.replace("int *data", "unsigned long *data")
        without = re.sub("void ctstat.*", "extern int last_x;", other)
        wide = MCSTD.replace("unsigned int *", "unsigned long *").replace("unsigned int d", "unsigned long d")
        own, x = "#define CAMAC_ESONE_DATA unsigned long\n", "#define CAMAC_ESONE_X last_x\n"
        for begin, header, is_right in (
            (other, "esone", False), (own + other, "esone", True), (own + ESONE, "esone", False), (own + without, "esone", False), (own + x + without, "esone", True),
            (wide, "mcstd", False), ("#define CAMAC_MCSTD_DATA unsigned long\n" + wide, "mcstd", True),
        ):
            for name, compiler in (("a.c", ("gcc", "-std=c99")), ("a.cpp", ("g++", "-std=c++17", "-w", "-fpermissive"))):
                text = begin if name == "a.c" else f'extern "C" {{\n{begin}\n}}'
                file = self.write(name, f"{text}\n#include <camac/camac_{header}.h>\n")
                status = call(*compiler, "-Werror=implicit-function-declaration", "-I", TOP / "include", "-c", file, "-o", self.room / "a.o")[0]
                if name == "a.c" or is_right:
                    self.assertEqual(status == 0, is_right, (begin, name))

    def test_mcstd(self):
        program = of_c.compiled(self.room, "mcstd", HERE / "mcstd.c")
        self.assertEqual(call(program), (0, CYCLES_BY_MCSTD))

    def test_no_name_but_its_own(self):
        text = "\n".join((TOP / "include/camac" / name).read_text() for name in ("camac.h", "camac_esone.h", "camac_mcstd.h"))
        code = re.sub(r"/\*.*?\*/", "", text, flags=re.S)
        self.assertEqual([it for it in re.findall(r"#define (\w+)", code) if not it.startswith("CAMAC_")], [])
        self.assertEqual([it for it in re.findall(r"^\w[\w *]*?(\w+)\(", code, re.M) if not re.match("camac_|CAMAC_", it)], [])
        calls = set(re.findall(r"^(?:CAMAC_CALL|[\w ]+[ *])(camac_\w+)\([^;{]*?\);$", code, re.M))
        self.assertGreater(len(calls), 15)
        so, archive = of_c.prefix() / "lib/libcamac.so.0", of_c.prefix() / "lib/libcamac.a"
        node = "CAMAC_" + library.version().rpartition(".")[0]
        self.assertEqual(names("-D", "--defined-only", "--with-symbol-versions", so), {node, *(f"{it}@@{node}" for it in calls)})
        self.assertEqual(names("-g", "--defined-only", archive), calls)
        # what links the archive in does not show its calls to others
        source = self.write("plug_in.c", "#include <camac/camac.h>\nuint32_t its_version(void) { return camac_version(); }\n")
        words = ["gcc", "-shared", "-fPIC", "-I", TOP / "include", source, archive, "-o", self.room / "plug_in.so"]
        self.assertEqual(call(*words), (0, ""))
        self.assertEqual(names("-D", "--defined-only", self.room / "plug_in.so"), {"its_version"})

    def test_archive(self):
        archive = of_c.prefix() / "lib/libcamac.a"
        undefined = {it.split()[-1] for it in call("nm", "-u", archive)[1].splitlines() if " U " in f" {it} "}
        self.assertLessEqual(undefined - {"_GLOBAL_OFFSET_TABLE_"}, NEEDED)
        self.assertLessEqual(archive.stat().st_size, ARCHIVE_BYTES)

    def test_one_list_of_what_c_keeps(self):
        header = (TOP / "include/camac/camac.h").read_text().partition("YOU KEEP")[2].partition("*/")[0].replace(" *", "")
        page = (TOP / "docs/C.md").read_text().partition("## What C has to keep")[2].partition("\n\nWhat the driver")[0].replace("`", "")
        items = [[" ".join(it.split()) for it in re.split(r"\n\s*\d\. ", text)[1:]] for text in (header, page)]
        self.assertEqual(items[0], items[1])
        self.assertEqual(len(items[0]), 5)

    def test_manual_page(self):
        """It has the loop of the header and the prototypes and codes that are there."""
        header, page = (TOP / "include/camac/camac.h").read_text(), (TOP / "man/camac.3").read_text()
        synopsis, example = page.partition(".Sh SYNOPSIS")[2].partition(".Sh")[0], page.partition("-offset indent\n")[2].partition(".Ed")[0]
        self.assertIn("".join(f" *     {line}\n" for line in example.splitlines()), header)
        declared = " ".join(header.split())
        for kind, name, words in re.findall(r"\.Ft (\w+)\n\.Fn (\w+)(.*)", synopsis):
            self.assertIn(f"{'CAMAC_CALL' if kind == 'int' else kind} {name}({', '.join(re.findall(chr(34) + '(.*?)' + chr(34), words))});", declared)
        self.assertEqual(re.findall(r"\.It Dv (\w+)", page), re.findall(r"^    (CAMAC_\w+) = \d,? ", header.partition("enum camac_code")[2].partition("};")[0], re.M))
        self.assertEqual(set(re.findall(r"\.Fn (camac_\w+)", page)) - set(re.findall(r"(camac_\w+)\(", header)), set())

    def test_one_version(self):
        header = (TOP / "include/camac/camac.h").read_text()
        text = re.search(r'CAMAC_VERSION "([\d.]+)"', header)[1]
        first, second, third = map(int, text.split("."))
        self.assertEqual(int(re.search(r"CAMAC_VERSION_NUMBER (\d+)u", header)[1]), 10_000 * first + 100 * second + third)
        self.assertEqual(library.version(), text)
        self.assertIn(f"PACKAGE_VERSION {text})", (TOP / "library/camac-config-version.cmake").read_text())
        self.assertEqual(call(PROGRAM, "--version"), (0, f"camac {text}\n"))
        self.assertIn(f"Version: {text}\n", (TOP / "library/camac.pc").read_text())
        self.assertIn(f".Os camac {text}\n", (TOP / "man/camac.3").read_text())
        self.assertIn(f'version = "{text}"\n', (TOP / "python/pyproject.toml").read_text())


class Calls(Case):
    def program(self, name, **how):
        return of_c.compiled(self.room, name, HERE / f"{name}.c", **how)

    def test_a_consumer_writes_what_the_program_writes(self):
        """Its listing and its event file of random scripts and of the examples are those of `camac run`, byte for byte, and the same answers in lists, in blocks
        that end anywhere, and in lists with blocks and releases, do the same. What each service begins with is what was told before its demand."""
        pool = concurrent.futures.ProcessPoolExecutor()
        accepted = list(itertools.islice(filter(None, pool.map(accepted_script, range(10 * SCRIPTS), chunksize=20)), SCRIPTS))
        pool.shutdown(cancel_futures=True)
        for pair in pairs():
            accepted += [tuple(it.read_bytes() for it in pair)] * (LISTS if pair[0].parent == EXAMPLES else FEW_LISTS)
        for k, texts in enumerate(accepted):
            for kind, text in zip(("plan", "script"), texts):
                (self.room / f"{k}.{kind}").write_bytes(text)
        status, counts = call(self.program("consumer"), self.room, len(accepted))
        self.assertEqual(status, 0, counts)
        lists, answers, with_blocks, told_before, far, behind_blocks, behind_releases = map(int, counts.split())
        self.assertGreater(answers - lists, len(accepted))
        self.assertGreater(told_before, 4 * len(accepted))
        self.assertGreater(lists - max(with_blocks, far), 100)
        self.assertGreater(min(behind_blocks, behind_releases), 100)

        def ran(k):
            words = [self.room / f"{k}.{kind}" for kind in ("plan", "script", "answers", "its_events")]
            status, listing = call(PROGRAM, "run", *words)
            self.assertEqual((listing.encode(), self.file(f"{k}.its_events")), (self.file(f"{k}.listing"), self.file(f"{k}.events")), k)
            self.assertEqual(status, int("overrun" in listing))
            return listing.split()[-6 if status else -3]

        with concurrent.futures.ThreadPoolExecutor(len(os.sched_getaffinity(0))) as pool:
            ends = collections.Counter(pool.map(ran, range(len(accepted))))
        self.assertGreater(min(ends[it] for it in ("ended", "short", "overrun")), 100)
        print(f"\nends {dict(ends)}, {answers} answers in {lists} lists, {with_blocks} with blocks, {far} with blocks in them", flush=True)

    def test_codes_sessions_and_threads(self):
        for static in (False, True):
            self.assertEqual(call(self.program("calls", static=static), SAMPLE, self.write("its.script", STRAIGHT_LINE), 0), (0, ""))

    def test_what_a_session_tells(self):
        for name in ("straight_line", "lockout", "procedure"):
            self.assertEqual(call(self.program("sessions"), SAMPLE, EXAMPLES / f"{name}.script"), (0, ""))

    def test_sessions_in_cpp(self):
        """A rate, lists and their end, and misuse by the call's name, with what the call needs."""
        program = of_c.compiled(self.room, "sessions_in_cpp", HERE / "sessions.cpp")
        told = ONE_SERVICE.format("once", "") + ONE_SERVICE.format("every 200", "of 3 ")
        lists = "".join(f"1 13\nevent {number} words 12\n" for number in (1, 2)) + "1 13\noverrun 1 wait 15\n"
        self.assertEqual(call(program, SAMPLE, self.write("its.script", CLEARED), EXAMPLES / "all_channels.script"), (0, told + lists + MISUSE_IN_CPP))

    def test_play_in_c_and_cpp(self):
        """What an answer did is told before lockouts are released, the last one first. One that failed is not held, and one with a wait too long is released."""
        program, script = of_c.compiled(self.room, "play", HERE / "play.cpp"), self.write("nested.script", NESTED)
        answers = ["0 0 0 0 1", "0 0 0 0 0", "fault", "fault", "0 0 0 0 1", *["0 0 0 0 0"] * 2, "1 1 0 0 0", "0 0 0 0 1", "0 0 0 0 0"]
        for end, told, code in (("", "lock 2 0\nunlock 1\n", library.OK), ("0 0 0 f 0", "lock 2 0\nunlock 2\nunlock 1\n", library.OVERRUN)):
            for by in ("c", "cpp"):
                for limit in (library.NO_LIMIT, 0):
                    status, found = call(program, EXAMPLES / "three_crates.toml", script, by, limit, *answers, *filter(None, [end]))
                    lines, wanted = found.replace("pause\n", "").splitlines(), (NESTED_PLAYED + told).splitlines()
                    self.assertEqual((status, lines if limit else sorted(lines)), (code, wanted if limit else sorted(wanted)))
                    self.assertEqual("pause" in found, limit == 0)

    def test_blocks_in_c_and_cpp(self):
        """A part of a block, its end, one that fails, and one with a wait too long."""
        program, yes, no = of_c.compiled(self.room, "play", HERE / "play.cpp"), "1 1 0 0 0", "1 0 0 0 0"
        answers = ["0 0 0 0 4", yes, yes, "end", no, "end", yes, "fault", "0 0 0 0 4", no, "end", yes, "1 1 0 f 0", "end"]
        wanted = "demand 0 0\nblock 1 6 0 4 4\nblock 1 6 0 2 2\nblock 4 5 0 16 16\nfault at line 11\ndemand 0 0\nblock 1 6 0 4 4\nblock 4 5 0 16 16\n"
        for by in ("c", "cpp"):
            found = call(program, SAMPLE, EXAMPLES / "transfers.script", by, library.NO_LIMIT, *answers)
            self.assertEqual(found, (library.OVERRUN, wanted))

    def test_a_run_in_cpp(self):
        """It is played once, and twice if it prints much more than its answers let expect."""
        program = of_c.compiled(self.room, "runs", HERE / "runs.cpp")
        many = "var i\ncdlam adc 1 1 5 12\nservice adc within 0 cycles event 4096 words { for i = 1 to 4096 { put i } }\n"
        for runs, script, answers in ((1, STRAIGHT_LINE, "0 0 000000 0 000004\n1 1 123fff 0 000000\n" * 2000), (2, many, "0 0 000000 0 000004\n")):
            verdict, file = library.run(SAMPLE.read_bytes(), script, answers)
            self.assertGreater(len(file), 4096 + 4 * len(answers) if runs == 2 else 4096)
            words = [program, SAMPLE, self.write("its.script", script), self.write("answers", answers)]
            told = subprocess.run(words, stdout=subprocess.PIPE)
            self.assertEqual((told.returncode, told.stdout), (0, f"{runs}\n{verdict.text}".encode() + file))

    def test_flat_memory(self):
        files = self.write("short.toml", SHORT_PLAN), self.write("short.script", STRAIGHT_LINE)
        status, told = call(self.program("calls"), *files, OPENINGS)
        self.assertEqual(status, 0, told)
        self.assertLess(int(re.findall(r"(\d+) after", told)[0]), MOST_KIB)

    def test_each_allocation_refused(self):
        script = STRAIGHT_LINE.replace("within 3", "within 6").replace("put v\n", "put v\n  cclc adc\n")
        status, told = call(self.program("refuse"), SAMPLE, self.write("its.script", script))
        self.assertEqual(status, 0, told)
        self.assertGreater(int(told), 50)

    @needed("valgrind")
    def test_all_is_freed(self):
        words = ["valgrind", "-q", "--leak-check=full", "--show-leak-kinds=all", "--errors-for-leak-kinds=all", "--error-exitcode=9"]
        files = (SAMPLE, EXAMPLES / "lockout.script")
        for kind, path in zip(("plan", "script"), files):
            shutil.copy(path, self.room / f"0.{kind}")
        status, told = call(*words, self.program("consumer"), self.room, 1)
        self.assertEqual(status, 0, told)
        status, told = call(*words, self.program("calls"), *files, 5)
        self.assertEqual(status, 0, told)


class Examples(Case):
    def test_readouts(self):
        folder = EXAMPLES / "c"
        wanted = "".join(f"event {number} gl 3 cycles 2 words 000100\n" for number in (1, 2, 3))
        verdict = call(PROGRAM, "check", SAMPLE, EXAMPLES / "straight_line.script")[1]
        for name in ("readout.c", "readout.cpp"):
            program = of_c.compiled(self.room, name + ".program", folder / name, folder / "branch.c")
            self.assertEqual(call(program, SAMPLE, EXAMPLES / "straight_line.script"), (0, verdict + wanted))
            status, told = call(program, SAMPLE, EXAMPLES / "lockout.script")
            self.assertEqual((status, told.count("event")), (0, 3), told)
            status, told = call(program, SAMPLE, EXAMPLES / "too_few_cycles.script")
            self.assertEqual((status, told), (1, "refused E12 line 4: more cycles than annotated\n"))
            status, told = call(program, self.room, self.room)
            self.assertEqual((status, "accepted" in told), (3, False), told)


    def test_lists(self):
        program = of_c.compiled(self.room, "lists", EXAMPLES / "c/lists.c")
        status, told = call(program, SAMPLE, EXAMPLES / "all_channels.script")
        self.assertEqual(status, 0, told)
        print(f"\n{told}", end="", flush=True)
        one, *lists = ([int(it) for it in re.findall(r"\d+", line)] for line in told.splitlines())
        self.assertEqual((one[:2], [it[:2] for it in lists]), ([7000, 7000], [[7000, 1000]] * 3))
        self.assertGreater(lists[0][2], one[2])


class Python(Case):
    def sample(self):
        return SAMPLE.read_bytes()

    def test_texts(self):
        for script in (EXAMPLES / "straight_line.script", EXAMPLES / "too_few_cycles.script"):
            for name in ("check", "explain", "bounds", "costs", "tell", "response"):
                verdict = library.tell(name, self.sample(), script.read_text())
                self.assertEqual((0 if verdict.accepted else 1, verdict.text), call(PROGRAM, name, SAMPLE, script))
            for line, column in ((1, 1), (4, 3), (5, 3), (5, 99), (99, 1)):
                verdict = library.explain_at(self.sample(), script.read_text(), line, column)
                self.assertEqual((0 if verdict.accepted else 1, verdict.text), call(PROGRAM, "explain", "--at", f"{line}:{column}", SAMPLE, script))
        for line, column in ((0, 1), (1, 0), (1 << 32, 1)):
            with self.assertRaises(UsageFault):
                library.explain_at(self.sample(), b"", line, column)
        for name, of_program in (("plan", "plan"), ("explain_plan", "explain")):
            for plan in sorted(EXAMPLES.glob("*.toml")):
                verdict = library.tell(name, plan.read_bytes())
                self.assertEqual((0 if verdict.accepted else 1, verdict.text), call(PROGRAM, of_program, plan))
        with self.assertRaises(ProgramFault) as found:
            library.tell("check", self.sample(), b" " * (1 << 20) + b" ")
        self.assertEqual((str(found.exception), found.exception.status), ("fault input too long", 3))

    def test_in_the_place_of_the_program(self):
        """The package gets the same from the program and from the library, byte for byte and fault for fault."""
        odd = self.room / "odd.script"
        odd.write_bytes(STRAIGHT_LINE.replace("within 3 cycles", "within 0 cycles").replace("{", "{ # \xe9", 1).encode("latin-1"))
        plan = self.write("bad.toml", "[[types]]\n")
        cases = [*pairs(), ("@sample", EXAMPLES / "too_few_cycles.script"), ("@sample", odd), (plan, odd), ("@sample", self.write("none.script", ""))]
        words = [(command, "--", *it) for it in cases for command in ("check", "explain", "bounds", "costs", "tell", "response")]
        for it in [*words, ("explain", "--", plan), ("plan", "--", plan), ("plan", "--", "@sample")]:
            with self.subTest(it):
                self.assertEqual(*(list(lines_of(*it, program=program)) for program in (PROGRAM, "@library")))
        for it in (("check", "--", "@sample", self.room), ("check", "--", self.room / "none", odd), ("check", "--", "@sample", "/dev/zero")):
            with self.subTest(it), self.assertRaises(ProgramFault) as by_program:
                output_of(*it, program=PROGRAM)
            with self.subTest(it), self.assertRaises(ProgramFault) as by_library:
                output_of(*it, program="@library")
            first, second = (found.exception.text.partition("\n")[0] for found in (by_program, by_library))
            self.assertEqual((first, by_program.exception.status), (second, by_library.exception.status))
        with self.assertRaises(UsageFault):
            output_of("drive", "--", *cases[0], "e", program="@library")

    def test_check(self):
        """`camac-check` says the same by the library as by the program, in each format."""
        plans = {script: str(plan) for plan, script in pairs()}
        plans.update({EXAMPLES / "too_few_cycles.script": "@sample", self.write("none.script", ""): "@sample", self.room / "no.script": "@sample"})
        for script, plan in plans.items():
            judged = [judge.judge(plan, [str(script)], program) for program in (PROGRAM, "@library")]
            for form in judge.FORMATS:
                with self.subTest(script=script, form=form):
                    self.assertEqual(*(judge.text_of(it, form) for it in judged))

    def test_response(self):
        texts = self.sample(), CLEARED
        told = library.response(*texts, every={"adc": 200}, within={"adc": 3})
        self.assertEqual(told, (True, ONE_SERVICE.format("every 200", "of 3 ")))
        self.assertEqual(library.response(*texts, within={"adc": 2}), (False, ONE_SERVICE.format("once", "of 2 ")))
        unkept = "service adc gl 3 cycles 3 once start - end - longest -\nunkept adc line 3: does not clear its look-at-me\n"
        self.assertEqual(library.response(self.sample(), STRAIGHT_LINE), (False, unkept))
        for wrong in ({"adc": 0}, {"adc": 1 << 32}, {"adc": -1}, {"nobody": 3}, {"": 3}, {"adc=3 nobody": 3}, {"adc ": 3}):
            with self.subTest(wrong), self.assertRaises(UsageFault) as found:
                library.response(*texts, every=wrong)
            self.assertEqual(found.exception.status, 2)

    def test_run_and_events(self):
        answers = EXAMPLES / "three_modules.answers"
        files = (EXAMPLES / "three_crates.toml", EXAMPLES / "three_modules.script")
        verdict, file = library.run(*(it.read_bytes() for it in (*files, answers)))
        told = call(PROGRAM, "run", *files, answers, self.room / "events")
        self.assertEqual(((0 if verdict.accepted else 1), verdict.text), told)
        self.assertEqual(file, self.file("events"))
        self.assertEqual(library.events(file).text, call(PROGRAM, "events", self.room / "events")[1])

    def branch(self):
        return MockBranch(
            modules={(1, 5): Adc(channels=12, width=12, pedestal=100, peak=1800, seed=1), (1, 6): Register(width=8)},
            gl={(1, 5): 3},
            triggers=[[(1, 5)]] * 200,
            auxiliaries={1: Auxiliary(2)},
        )

    def test_play_is_drive(self):
        for script in (EXAMPLES / "lockout.script", EXAMPLES / "straight_line.script"):
            ends = []
            for number, by in enumerate((camac.drive, camac.play)):
                recorder = Recorder(self.branch())
                (self.room / f"{number}").unlink(missing_ok=True)
                end = by("@sample", script, recorder, self.room / f"{number}", program=PROGRAM, timeout=60)
                ends.append((end, recorder.answer_lines(), self.file(f"{number}")))
            self.assertEqual(ends[0], ends[1])
            self.assertEqual(ends[0][0].events, 200)

    def asked_and_left(self, by, plan, script, branch):
        """What a run asks of the branch, what it raises, and its event file."""
        events = self.room / "its.events"
        events.unlink(missing_ok=True)
        raised = None
        try:
            by(plan, script, branch, events, program=PROGRAM, timeout=60)
        except Broken as why:
            raised = why
        return branch.asked, raised, events.read_bytes()

    def test_nested_locks_are_released_in_the_order_of_drive(self):
        script, answers = self.write("nested.script", NESTED), (Answer(gl=1), Answer(), Answer(), CYCLE)
        runs = [self.asked_and_left(by, EXAMPLES / "three_crates.toml", script, Listed(*answers)) for by in (camac.drive, camac.play)]
        self.assertEqual(*runs)
        self.assertEqual(runs[0][0][-3:], [("unlock", 2), ("unlock", 1), ("demand",)])

    def test_the_event_of_a_service_whose_unlock_fails(self):
        script = self.write("locked.script", (EXAMPLES / "lockout.script").read_text().replace("  cclc adc\n", ""))
        for failing in (1, 2):
            runs = []
            for by in (camac.drive, camac.play):
                branch, count = Listed(*[DEMAND, Answer(), *[CYCLE] * 4] * 3), 0

                def unlock(_crate):
                    nonlocal count
                    count += 1
                    if count == failing:
                        raise Broken

                branch.unlock = unlock
                runs.append(self.asked_and_left(by, "@sample", script, branch))
            self.assertEqual([it[::2] for it in runs[:1]], [it[::2] for it in runs[1:]])
            self.assertIsInstance(runs[1][1], Broken)
            self.assertEqual(library.events(runs[1][2]).text.splitlines()[-1], f"events {failing}")

    def test_threads(self):
        """A session that another thread closes is closed, and an open one never answers as closed."""
        self.addCleanup(sys.setswitchinterval, sys.getswitchinterval())
        sys.setswitchinterval(1e-5)
        for _ in range(100):
            session, ended = library.Session(self.sample(), STRAIGHT_LINE), []

            def play(session=session, ended=ended):
                try:
                    while True:
                        session.next(DEMAND)
                except UsageFault as why:
                    ended.append(why)

            thread = threading.Thread(target=play, daemon=True)
            thread.start()
            time.sleep(0.0005)
            session.close()
            thread.join(20)
            self.assertEqual(len(ended), 1)
        with library.Session(self.sample(), STRAIGHT_LINE) as session, concurrent.futures.ThreadPoolExecutor(4) as pool:
            list(pool.map(lambda _: session.next(DEMAND), range(4000)))

    def test_a_library_that_does_not_fit(self):
        """The version is looked at before all else."""
        code = "import camac.native as it\ntry:\n    it.load()\nexcept OSError as why:\n    print(why)\n"
        for text, told in (("", "is an older library of camac, or none"), ("unsigned camac_version(void) { return 199; }", "has the version 0.1.99, which does not fit 0.2.0")):
            so = self.room / "libcamac.so.0"
            subprocess.run(["gcc", "-shared", "-x", "c", "-", "-o", so], input=text, text=True, check=True)
            env = {**os.environ, "CAMAC_LIBRARY": str(so), "PYTHONPATH": str(TOP / "python")}
            self.assertEqual(call(sys.executable, "-c", code, env=env), (0, f"{so} {told}\n"))

    def test_what_is_no_text(self):
        for wrong in (5, None, ["a"]):
            with self.assertRaises(TypeError):
                library.tell("check", self.sample(), wrong)

    def play(self, text, *answers, **how):
        self.branch_asked = Listed(*answers)
        return camac.play(SAMPLE, self.write("its.script", text), self.branch_asked, **how)

    def test_ends_and_errors(self):
        self.assertEqual(self.play(STRAIGHT_LINE, DEMAND, CYCLE).line, "ended events 1")
        end = self.play(STRAIGHT_LINE, DEMAND, Answer(1, 1, 0, 3))
        self.assertEqual((end.how, end.line, end.crate, end.wait), (Ending.OVERRUN, "overrun 1 wait 3 events 0", 1, 3))
        with self.assertRaises(Refused) as found:
            self.play("!")
        self.assertEqual((found.exception.code, found.exception.line), ("S1", 1))
        events = self.room / "events"
        events.write_bytes(b"of the night before")
        with self.assertRaises(ProgramFault) as found:
            self.play(STRAIGHT_LINE, DEMAND, events=events)
        told = f"fault write\n  {events}: it holds bytes; a live run needs a file of its own"
        self.assertEqual((str(found.exception), found.exception.status, events.read_bytes()), (told, 3, b"of the night before"))
        self.assertEqual(self.branch_asked.asked, [])
        with self.assertRaises(ProgramFault) as found:
            self.play(STRAIGHT_LINE, DEMAND, events="/dev/full")
        self.assertEqual(str(found.exception), "fault write\n  /dev/full: No space left on device")
        with self.assertRaises(ProgramFault) as found:
            camac.play(self.room / "none", self.room / "none", None)
        self.assertEqual((str(found.exception), found.exception.status), (f"fault read\n  {self.room}/none: No such file or directory", 3))
        with self.assertRaises(ProgramFault) as found:
            camac.play("@sample", "/dev/zero", None)
        self.assertEqual(str(found.exception), "fault input too long")
        with self.assertRaises(UsageFault):
            camac.play("@in", EXAMPLES / "lockout.script", None)
        with self.assertRaises(TypeError):
            self.play(STRAIGHT_LINE, DEMAND, None)

    def test_lockouts_are_released(self):
        lock = Answer()
        for error in (Broken(), KeyboardInterrupt()):
            for count in range(1, 7):
                operations = [DEMAND, lock, CYCLE, CYCLE, CYCLE, CYCLE][:count]
                with self.subTest(error=error, count=count), self.assertRaises(type(error)):
                    self.play(LOCKOUT, *operations, error)
                # a lockout that failed is not held; one that was interrupted may be
                is_held = count > 1 or isinstance(error, KeyboardInterrupt)
                self.assertEqual(self.branch_asked.asked.count(("unlock", 1)), int(is_held))

    def test_what_on_fault_leaves(self):
        """The event file is that of the run without the demand and the answers of that service; its lockout is released."""
        whole, broken, places = [DEMAND, Answer(), *[CYCLE] * 4], Broken(), []
        for asked in (1, 2, 4):
            self.play(LOCKOUT, *whole[:asked], broken, *whole, events=self.room / f"{asked}.events", on_fault=lambda *given: not places.append(given))
            lines = "".join(f"{it.line()}\n" for it in whole)
            self.assertEqual(self.file(f"{asked}.events"), library.run(self.sample(), LOCKOUT, lines)[1])
            self.assertEqual(self.branch_asked.asked[asked + 1], ("demand",) if asked == 1 else ("unlock", 1))
        self.assertEqual(places, [(broken, (1, line)) for line in (5, 6, 8)])
        with self.assertRaises(Broken):
            self.play(LOCKOUT, *whole[:3], broken, on_fault=lambda *_: False)
        self.assertEqual(self.branch_asked.asked[-1], ("unlock", 1))

    def test_an_overrun_on_fault(self):
        """It is left as a fault is, with the lockout whose own wait was too long; else it ends the run, as without `on_fault`."""
        whole, places = [DEMAND, Answer(), *[CYCLE] * 4], []
        for asked in (1, 2, 4):
            answers = (*whole[:asked], Answer(wait=15), *whole)
            end = self.play(LOCKOUT, *answers, events=self.room / f"{asked}.events", on_fault=lambda why, at: not places.append((str(why), at)))
            self.assertEqual((end.line, end.contradictions), ("ended events 1", ()))
            lines = "".join(f"{it.line()}\n" for it in whole)
            self.assertEqual(self.file(f"{asked}.events"), library.run(self.sample(), LOCKOUT, lines)[1])
            self.assertEqual(self.branch_asked.asked[asked + 1], ("unlock", 1))
        self.assertEqual(places, [("overrun 1 wait 15", (1, line)) for line in (5, 6, 8)])
        self.assertEqual(self.play(LOCKOUT, DEMAND, Answer(wait=15), on_fault=lambda *_: False).line, "overrun 1 wait 15 events 0")

    def test_a_night_with_faults_is_one_record(self):
        """A run with faults and waits too long has one answer file: `camac run`, and a branch that plays it again, make its event file. The listing tells what was
        left, and what sets the crates back is no answer."""
        script = "cdlam adc 1 1 5 12\nservice adc within 60 cycles event 9 words { ccci 1 on   lock 1 { put 3   cclc adc }   ccci 1 off   cclc adc }\n"
        zero, cycle, long = Answer(), CYCLE, Answer(wait=15)
        for left in ([Broken()], [zero, Broken()], [zero, zero, Broken()], [zero, zero, cycle, Broken()], [zero, long], [zero, zero, long], [zero, zero, cycle, long]):
            whole, back = [DEMAND, zero, zero, cycle, zero, cycle], [cycle] * (len(left) > 1)
            answers = "".join(f"{it if it == 'abandon' else it.line()}\n" for it in (*whole, DEMAND, *left[:-1], "abandon", *whole))
            for name in (None, "its.answers"):
                with open(self.room / name, "w") if name else contextlib.nullcontext() as file:
                    recorder = Recorder(Listed(*whole, DEMAND, *left, *back, *whole), file)
                    (self.room / "events").unlink(missing_ok=True)
                    end = camac.play(SAMPLE, self.write("its.script", script), recorder, self.room / "events", on_fault=lambda *_: True)
                self.assertEqual((end.line, self.file(name).decode() if name else recorder.answer_lines()), ("ended events 2", answers))
            listing, events = library.run(self.sample(), script, answers)[:2]
            self.assertEqual((events, listing.text.count("abandoned service adc\n")), (self.file("events"), 1))
            for number, by in enumerate((camac.drive, camac.play)):
                again = self.room / f"{number}.events"
                again.unlink(missing_ok=True)
                self.assertEqual(by(SAMPLE, self.room / "its.script", Recorded(self.room / "its.answers"), again, program=PROGRAM).line, "ended events 2")
                self.assertEqual(again.read_bytes(), self.file("events"))

    def test_the_crates_are_set_back_on_fault(self):
        script = "cdlam adc 1 1 5 12\nservice adc within 50 cycles event 0 words { cccz 1   cclc adc }\n"
        self.play(script, DEMAND, CYCLE, Broken(), CYCLE, CYCLE, on_fault=lambda *_: True)
        self.assertEqual(self.branch_asked.asked[2:], [("cycle", 1, 5, 12, 10, None), ("cycle", 1, 30, 9, 24, None), ("cycle", 1, 30, 10, 26, None), ("demand",)])

    def test_sessions(self):
        with library.Session(self.sample(), STRAIGHT_LINE) as session:
            self.assertEqual(session.wants().kind, library.DEMAND)
            self.assertEqual((session.next(DEMAND).service, session.words()), (1, ()))
            want = session.wants()
            self.assertEqual((want.kind, want.c, want.n, want.a, want.f, want.data), (library.CYCLE, 1, 5, 0, 0, library.READ))
            self.assertEqual((want.waits, want.width), (2, 12))
            did = session.next(Answer(1, 1, 0x123FFF))
            self.assertEqual((did.event, did.event_gl, did.event_words, session.words()), (1, 3, 1, (0xFFF,)))
            self.assertEqual((did.x, did.q, did.word, did.cut, did.unlocked), (1, 1, 0x123FFF, 0x123000, ()))
            session.next(DEMAND)
            self.assertEqual(session.next(Answer(wait=15)).kind, library.STOPPED)
            self.assertIsNone(session.wants())
        for name, *words in (("next", DEMAND), ("step", DEMAND), ("next_many", []), *((it,) for it in "wants item record where abandon rewind limit_steps go_on".split())):
            with self.assertRaises(UsageFault) as found:
                getattr(session, name)(*words)
            self.assertEqual(str(found.exception), f"{name} needs an open session: this one is closed")
        self.assertEqual((session.services(), session.held(), session.answers_left()), ([], (), 0))
        session.close()

    def test_lists(self):
        """What is ahead goes through `for`, `call` and `if`, and ends before what an answer decides; its answers are taken up to an event."""
        script = (EXAMPLES / "all_channels.script").read_bytes()
        with library.Session(self.sample(), script) as session:
            self.assertEqual([it.kind for it in session.ahead()], [library.DEMAND])
            session.next(DEMAND)
            cycles = [*((1, 5, a, 0, library.READ) for a in range(12)), (1, 5, 12, 10, library.NO_DATA)]
            self.assertEqual([(it.c, it.n, it.a, it.f, it.data) for it in session.ahead()], cycles)
            self.assertEqual((len(session.ahead(5)), session.ahead(0)), (5, []))
            did = session.next_many([Answer(1, 1, a) for a in range(12)] + [Answer(1, 1), DEMAND])
            self.assertEqual(([it.word for it in did], did[-1].event, session.words()), ([*range(12), 0], 1, tuple(range(12))))
            session.next(DEMAND)
            did = session.next_many([CYCLE, Answer(wait=15), CYCLE])
            self.assertEqual(([it.kind for it in did], session.ahead()), ([library.CYCLE, library.STOPPED], []))
            self.assertEqual([it.kind for it in session.next_many([CYCLE])], [library.STOPPED])
        self.assertEqual(session.ahead(), [])
        with self.assertRaises(UsageFault):
            session.next_many([CYCLE])
        with library.Session(self.sample(), LOCKS) as session:
            session.next(DEMAND)
            session.next(CYCLE)
            self.assertEqual([(it.kind, it.waits) for it in session.ahead()], [(library.LOCK, 2), *[(library.CYCLE, 0)] * 2])

    def test_what_a_service_begins_with(self):
        """It is told before the demand: that is what the run wants after it, one by one, and what is ahead then."""
        for script, told in (
            ((EXAMPLES / "all_channels.script").read_text(), [*((1, a, 0, 2) for a in range(12)), (1, 12, 10, 2)]),
            (CALLS, [(1, 3, 0, 2), (1, 4, 0, 2), (1, 12, 10, 2)]),
            (ARMS, [(1, 3, 0, 2), (1, 3, 0, 2), (1, 12, 10, 2)]),
            (PASSED, [(1, 3, 0, 2), (1, 12, 10, 2), (1, 3, 0, 2), (1, 12, 10, 2)]),
            (TURNS % 252, [(1, 3, 0, 2), (1, 12, 10, 2)]),  # 4 steps up to the loop, 2 a turn, and that of `cclc`: 511 of 512
            (TURNS % 253, [(1, 3, 0, 2)]),
            (DECIDES, [(1, 3, 0, 2)]),
            (LOCKS.replace("  cclc adc\n  lock", "  lock", 1), [(1, 0, 0, 2), (1, 3, 0, 0), (1, 12, 10, 0)]),
            (LOCKS, [(1, 12, 10, 2), (1, 0, 0, 2), (1, 3, 0, 0), (1, 12, 10, 0)]),
            ((EXAMPLES / "transfers.script").read_text(), []),
        ):
            with library.Session(self.sample(), script) as session:
                self.assertEqual([(it.c, it.a, it.f, it.waits) for it in session.service_ahead(1)], told)
                self.assertEqual(len(session.service_ahead(1, 2)), min(2, len(told)))
                before = [bytes(it) for it in session.service_ahead(1)]
                for service in (0, 2, -1, 1 << 32):
                    with self.assertRaises(UsageFault):
                        session.service_ahead(service)
                session.next(DEMAND)
                self.assertEqual([bytes(it) for it in session.ahead()][: len(told)], before)
                with self.assertRaises(UsageFault) as found:
                    session.service_ahead(1)
        self.assertEqual(str(found.exception), "service_ahead needs an open session that wants a demand, and the number of a service, from 1")

    def test_what_the_services_of_examples_begin_with(self):
        told = collections.Counter()
        for plan, script in pairs():
            with library.Session(plan.read_bytes(), script.read_bytes()) as session:
                for number, service in enumerate(session.services(), 1):
                    before = [bytes(it) for it in session.service_ahead(number)]
                    if session.next(Answer(gl=1 << service.gl - 1)).service == number:
                        told[script.stem if script.parent == EXAMPLES else script.parent.name] += len(before)
                        for operation in before:
                            self.assertEqual(bytes(session.wants()), operation)
                            self.assertNotEqual(session.next(CYCLE).kind, library.STOPPED)
                    session.rewind()
        for name in ("beam_line", "spectroscopy", "slow_control", "all_channels", "lockout"):
            self.assertGreater(told[name], 9, told)
        self.assertEqual((told["transfers"], told["three_modules"], told["poll"]), (0, 0, 0))  # a transfer or `while` comes first

    def left(self, session):
        """What is left of a block, and the words to write."""
        want = session.wants()
        return (want.mode, want.c, want.n, want.a, want.f, want.last_n, want.last_a, want.cycles, want.words) if want.kind == library.BLOCK else want.kind, session.block_words()

    def test_blocks(self):
        """What is left of a transfer is one want where its mode is allowed. A part of its answers leaves the rest, and those behind its end are not taken."""
        script, yes, no = (EXAMPLES / "transfers.script").read_bytes(), Answer(1, 1), Answer(1, 0)
        with library.Session(self.sample(), script) as session:
            session.blocks(library.Q_STOP + library.Q_REPEAT + library.SCAN + library.WRITES)
            session.next(DEMAND)
            for left, answers, taken in (
                (((library.Q_STOP, 1, 6, 0, 16, 6, 0, 4, 4), (0, 16, 32, 48)), [yes, yes], 2),
                (((library.Q_STOP, 1, 6, 0, 16, 6, 0, 2, 2), (32, 48)), [no, yes], 1),
                (((library.SCAN, 1, 5, 0, 0, 5, 15, 16, 16), ()), [yes] * 12, 12),
                (((library.SCAN, 1, 5, 12, 0, 5, 15, 4, 4), ()), [no, no], 1),
                (((library.Q_REPEAT, 1, 5, 0, 0, 5, 0, 9, 3), ()), [no, yes], 2),
                (((library.Q_REPEAT, 1, 5, 0, 0, 5, 0, 7, 2), ()), [yes, no, yes, yes], 3),
                ((library.CYCLE, ()), [], 0),
            ):
                self.assertEqual(self.left(session), left)
                if answers:
                    self.assertEqual(session.block(answers)[1], taken)
            with self.assertRaises(UsageFault) as found:
                session.block([yes])
            self.assertEqual(str(found.exception), "block needs an open session that wants a block, and an answer")
            self.assertEqual(session.next(yes).event_words, 15)
            session.blocks(library.Q_STOP)
            session.next(DEMAND)
            self.assertEqual(self.left(session), (library.CYCLE, ()))
            session.blocks(library.Q_STOP + library.WRITES)
            did, taken = session.block([yes, Answer(wait=15), yes])
            self.assertEqual((did.kind, taken, session.wants()), (library.STOPPED, 1, None))
        for modes in (-1, 16):
            with self.assertRaises(UsageFault):
                session.blocks(modes)

    def test_play_with_blocks(self):
        """The event file and the answers are those of a run one by one, however much of a block is made at once."""
        files = []
        for most in (0, 1, 5, 100):
            recorder, events = Recorder(self.branch()), self.room / f"{most}.events"
            end = camac.play("@sample", EXAMPLES / "transfers.script", Blocks(recorder, most) if most else recorder, events)
            files.append((end.line, end.contradictions, recorder.answer_lines(), events.read_bytes()))
        self.assertEqual(files[1:], files[:1] * 3)
        for answers in ([], [CYCLE] * 100, [None]):
            branch = Blocks(self.branch(), 1)
            branch.block = lambda block, answers=answers: answers
            with self.assertRaises(TypeError):
                camac.play("@sample", EXAMPLES / "transfers.script", branch)

    def test_what_a_session_tells(self):
        """Services, the last answer and what is held, on the answers of a service with a lock."""
        answers = [DEMAND, Answer(wait=2), *[CYCLE] * 4]
        with library.Session(self.sample(), LOCKOUT) as session:
            (service,) = session.services()
            self.assertEqual(service[:5], ("adc", 1, 5, 12, 3))
            text = library.tell("check", self.sample(), LOCKOUT).text
            self.assertIn("service {0} gl {4} cycles {6} of {9} words {7} of {10} steps {8}\n".format(*service), text)
            self.assertTrue(LOCKOUT.splitlines()[service.line - 1].startswith("service adc"))
            for _ in range(2):
                self.assertEqual((session.item(), session.record(), session.held(), session.answers_left()), ("", b"", (), 4_294_967_295))
                told = [(*session.step(it)[0].unlocked, session.item(), session.record(), session.held()) for it in answers]
                cycle = "cycle 1 5 0 0 in 000123 x1 q1 wait 0\n"
                wanted = [("demand 000004 adc\n", b"", ()), ("lock 1 wait 2\n", b"", (1,)), *[(cycle, b"", (1,))] * 3]
                event = bytes.fromhex("ca4d 0003 00000001 00000006 0000 0000")
                self.assertEqual(told, [*wanted, (1, f"{cycle}unlock 1\n", event, ())])
                self.assertEqual(session.answers_left(), 4_294_967_295 - len(answers))
                session.rewind()


    def test_where_a_session_stands(self):
        """The service and the line of what is wanted: in a procedure, in both arms of an `if`, in a lock and in a transfer."""
        plan = self.sample().replace(b"n = 6\n", b"n = 6\ngl = 7\n")
        services = library.Session(plan, PLACES).services()
        self.assertEqual([(it.name, it.gl) for it in services], [("adc", 3), ("reg", 7)])
        for gl, q, service, lines in ((4, 1, 1, [9, 11, 4, 4, 15, 16, 17, 17]), (4, 0, 1, [9, 13, 4, 4, 15, 16, 17, 17]), (64, 1, 2, [21, 22])):
            with library.Session(plan, PLACES) as session:
                self.assertIsNone(session.where())
                session.next(Answer(gl=gl))
                found = []
                while (place := session.where()) is not None:
                    found.append(place)
                    session.next(Answer(1, q if len(found) == 1 else 1))
                self.assertEqual(found, [(service, line) for line in lines])
                session.next(Answer(gl=gl))
                self.assertEqual((session.next(Answer(wait=15)).kind, session.where()), (library.STOPPED, found[0]))

    def test_16_bits(self):
        """Cycles of `cssa` are told as such, one by one and in lists. Those of a transfer, of a LAM and of the controllers move 24 bits."""
        cycles = [(5, 0), (5, 1), (6, 1), (6, 0), (5, 0), (5, 0)]
        with library.Session(self.sample(), SHORT_CYCLES) as session:
            self.assertEqual([it.is_short for it in session.ahead()], [0])
            self.assertEqual([(it.n, it.is_short) for it in session.service_ahead(1)], cycles[:4])
            session.next(DEMAND)
            for made in range(6):
                want = session.wants()
                self.assertEqual((want.n, want.is_short), cycles[made])
                self.assertEqual([(it.n, it.is_short) for it in session.ahead()], cycles[made:4] if made < 4 else cycles[made : made + 1])
                session.next(CYCLE)
            self.assertEqual(session.wants().kind, library.DEMAND)


class Package(Case):
    """pip install ./python, and the wheel with the library in it."""

    def test_wheel(self):
        so = of_c.prefix() / "lib/libcamac.so.0"
        status, told = call(sys.executable, TOP / "python/wheel.py", self.room, so)
        self.assertEqual(status, 0, told)
        (wheel,) = self.room.glob("*.whl")
        self.assertEqual(told, f"{wheel}\n")
        with zipfile.ZipFile(wheel) as archive:
            archive.extractall(self.room / "place")
            listed = {it.split(",")[0] for it in archive.read(next(it for it in archive.namelist() if it.endswith("RECORD"))).decode().split()}
            self.assertEqual(listed, set(archive.namelist()))
        self.check_without_program(self.check_place(self.room / "place"))

    def check_place(self, place):
        bare = {key: it for key, it in os.environ.items() if key not in ("CAMAC_LIBRARY", "LD_LIBRARY_PATH", "PYTHONPATH")}
        env = {**bare, "PYTHONPATH": str(place)}
        code = "import camac.library as it; print(it.version(), it.__file__)"
        self.assertEqual(call(sys.executable, "-c", code, cwd=place, env=env), (0, f"{library.version()} {place}/camac/library.py\n"))
        return {**env, "CAMAC_PROGRAM": "", "PATH": "/usr/bin:/bin"}

    def check_without_program(self, env):
        """What needs no run is done by the library."""
        few, script, event_file = EXAMPLES / "too_few_cycles.script", EXAMPLES / "procedure.script", self.room / "run.events"
        event_file.write_bytes(b"CAMACEV2")
        calls = [sys.executable, "-m", "camac"]
        refused = (1, f"{few}:4:1: refused E12: more cycles than annotated\n")
        self.assertEqual(call(*calls, "check", "@sample", few, env=env), refused)
        (self.room / "bin").mkdir()
        broken = self.write("bin/camac", "#!/bin/sh\necho broken >&2; exit 9\n")
        broken.chmod(0o755)
        self.assertEqual(call(*calls, "check", "@sample", few, env={**env, "PATH": f"{self.room}/bin:{env['PATH']}"}), refused)
        self.assertEqual(call(*calls, "check", "@sample", few, env={**env, "CAMAC_PROGRAM": str(broken)})[0], 3)
        late = ["draw", "response", "@sample", script, "--every", "adc=100"]
        made = (["draw", "costs", "@sample", script], ["draw", "plan", "@sample", script], late, ["report", "@sample", script, event_file])
        for at, words in enumerate(made):
            self.assertEqual(call(*calls, *words, "-o", self.room / f"it{at}.svg", env=env), (0, ""))
        straight, answers = EXAMPLES / "straight_line.script", self.write("answers", "0 0 000000 0 000004\n1 1 123fff 2 000000\n1 1 000000 0 000000\n")
        for at, words in enumerate((["report"], ["draw", "run"], ["draw", "words"])):
            self.assertEqual(call(*calls, *words, "@sample", straight, answers, "-o", self.room / f"of_answers{at}.svg", env=env), (0, ""))
        self.assertIn("ended events 1", (self.room / "of_answers0.svg").read_text())
        status, told = call(*calls, "annotate", "@sample", straight, answers, env=env)
        self.assertEqual((status, told.splitlines()[1:]), (0, CYCLES_BESIDE), told)
        self.assertEqual(call(*calls, "survey", "@sample", "--driver", "mock", env=env), (3, "camac: the library does not list what a plan declares: this needs the program camac\n"))
        self.assertEqual(call(sys.executable, self.write("run.py", PLAYED), straight, answers, cwd=self.room, env=env), (0, PLAYS))
        # The service of the example clears its look-at-me, by one cycle more.
        one_more = bytes([*EVENT_FILE[:19], 4, *EVENT_FILE[20:]])
        self.assertEqual([(self.room / f"{it}.events").read_bytes() for it in ("one", "two")], [one_more] * 2)

    @needed("python3-pip")
    def test_pip(self):
        place = self.room / "place"
        source = self.room / "python"
        shutil.copytree(TOP / "python", source, ignore=shutil.ignore_patterns("__pycache__"))
        words = [sys.executable, "-m", "pip", "install", "--quiet", "--no-index", "--disable-pip-version-check", "--root-user-action=ignore"]
        bare = {key: it for key, it in os.environ.items() if key != "CAMAC_LIBRARY"}
        self.assertEqual(call(*words, "--target", place, source, env=bare), (0, ""))
        self.assertTrue((place / "camac/py.typed").is_file())
        self.assertFalse((place / "camac/libcamac.so.0").exists())
        self.check_commands(place, place)
        shutil.rmtree(place)
        self.assertEqual(call(*words, "--target", place, source), (0, ""))
        self.check_place(place)
        place = self.room / "of_a_link"
        self.assertEqual(call(*words, "--prefix", place, "-e", source, env=bare), (0, ""))
        (link,) = place.rglob("camac.pth")
        self.check_commands(place, link.read_text().rstrip("\n"))

    def check_commands(self, place, package):
        """The commands of the package are there."""
        for name, *words in (("camac-check", "@sample", EXAMPLES / "straight_line.script"), *((f"camac-{it}", "--help") for it in ("fmt", "lsp", "report"))):
            (command,) = place.rglob(name)
            status, told = call(command, *words, env={**os.environ, "PYTHONPATH": str(package)})
            self.assertEqual((status, told.partition(" [")[0]), (0, f"usage: {name}" if "--help" in words else ""))


if __name__ == "__main__":
    if of_c.is_here():
        run_tests()
