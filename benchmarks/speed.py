#!/usr/bin/env python3
"""Measures the processor time and the peak memory of the built program on large inputs, beside `cat` of the same bytes.

usage: benchmarks/speed.py [--best N] [--growth | --instructions | --corpus] [--only WORD] [PROGRAM ..]

PROGRAM is crates/camac/out/camac unless given (built by: cd crates/camac && rt run). Several programs are measured in turn, so that versions
can be compared. Processor time is user and system time together, in milliseconds, the least of N calls (5). Peak memory is in KiB, by GNU
time if that is there. Inputs are files, and output goes to /dev/null, unless the case says file or pipe.

The first table has one line for each case. --growth prints the second: inputs of a hundredth, a tenth and the whole of the greatest size.
--instructions prints a third, of millions of instructions by valgrind, which are the same on every computer. A run has a tenth of its answers
there, and its instructions for each answer are beside.
--corpus prints a fourth, of millions of instructions for `check` of the five shapes of corpus.py: of a whole call, and of its tokens, its parser (for
some mistakes with the tokens once more), and of linking and judging. The last line is the mean. Each program has its ratio to the first one, and the
last line the geometric mean of these, in which each shape counts the same.
--only takes the cases whose names have this word in them.
"""
import argparse
import os
import re
import shutil
import statistics
import struct
import subprocess
import sys
import tempfile

sys.path.insert(0, os.path.dirname(os.path.abspath(__file__)))
sys.dont_write_bytecode = True
import corpus  # noqa: E402
import large_inputs  # noqa: E402
import long_runs  # noqa: E402
from long_runs import AGAIN, CYCLE, DEMAND, QUIET  # noqa: E402

GNU_TIME = "/usr/bin/time"
ANSWERS = 1_000_000
TEXT = 1_048_576
EVENTS = 16_777_216
MIXED = long_runs.OPENING + """service adc within 12 cycles event 4 words {
  cdreg r 1 1 5 0
  for i = 1 to 3 {
    cfsa 0 r -> t
    if q { put t }
  }
  cclc adc
}
"""
MIXED_ANSWERS = QUIET * 3 + DEMAND + (CYCLE + AGAIN) * 2


def long_statements(count):
    """Statements of 27 tokens each, in 230 bytes."""
    words = [f"number_{n:02}_here" for n in range(13)]
    line = f"{words[0]} = {' + '.join(words)}\n"
    return f"{large_inputs.OPENING}var {' '.join(words)}\nservice adc within 0 cycles event 0 words {{\n{line * (count - 1)}}}\n"


def too_many_turns():
    """14 loops in one another, and in the innermost at the end of its statements a difference that may be below 0."""
    return large_inputs.nested_loops(4095, 14).replace("}", "v = v - 2\n}", 1)


def long_names():
    """63 variables of 32 bytes each, and a script up to the body of its service."""
    words = [f"variable_number_{n:03}_of_this_text" for n in range(63)]
    return words, f"{large_inputs.OPENING}var {' '.join(words)}\nservice adc within 0 cycles event 0 words {{\n"


def longest_condition():
    """A sign that has no place, after a condition of 16 parts, each of two sums of 33 long names."""
    words, opening = long_names()
    total = " + ".join(words[:33])
    return f"{opening}if {' and '.join([f'{total} < {total}'] * 16)} )"


def most_kept():
    """A sign that has no place, after a loop's list of 62 kept variables."""
    words, opening = long_names()
    return f"{opening}for {words[0]} = 0 to 5 keep {', '.join(f'{it} in 0..4294967295' for it in words[1:])} )"


def last_service():
    """24 services of 160 statements each, and a name that is not declared in the last."""
    lams = "".join(f"cdlam l{n} 1 1 5 {n % 16}\n" for n in range(24))
    body = "v = v % 4096\n" * 160
    return lams + "var v\n" + "".join(f"service l{n} within 0 cycles event 0 words {{\n{body}{'v = vv' * (n == 23)}\n}}\n" for n in range(24))


def record(version, number, words):
    usage = struct.pack(">IH", words, 0) if version == 2 else b""
    return struct.pack(">2sHI", b"\xcaM", 3, number) + usage + struct.pack(">H", words) + b"\0\x12\x3f\xff" * words


def event_file(version, words, size):
    """Events of so many words each, in at most this many bytes."""
    parts, left, number = [b"CAMACEV%d" % version], size - 8, 1
    while (part := record(version, number, words)) and len(part) <= left:
        parts.append(part)
        left -= len(part)
        number += 1
    return b"".join(parts)


class Case:
    """A call of the program, and the file whose bytes it takes."""

    def __init__(self, name, words, text, script="", to="/dev/null"):
        self.name, self.words, self.script, self.to = name, words, script, to
        self.text = text if isinstance(text, bytes) else text.encode()

    def answers(self):
        return len(self.text) // len(QUIET) if self.words[0] == "run" else 0

    def tenth(self):
        """The same run on a tenth of its answers; any other case as it is."""
        text = self.text[: self.answers() // 10 * len(QUIET)] if self.answers() else self.text
        return Case(self.name, self.words, text, self.script)

    def put(self, room):
        for name, text in (("input", self.text), ("script", self.script.encode())):
            with open(os.path.join(room, name), "wb") as file:
                file.write(text)
        places = {"INPUT": f"{room}/input", "SCRIPT": f"{room}/script", "EVENTS": f"{room}/events"}
        return [places.get(word, word) for word in self.words], f"{room}/output" if self.to == "file" else self.to


def ran(name, script, answers, count=ANSWERS, to="/dev/null"):
    text = (answers * (count * len(QUIET) // len(answers) + 1))[: count * len(QUIET)]
    return Case(name, ["run", "@sample", "SCRIPT", "INPUT", "EVENTS"], text, script, to)


def checked(name, text):
    return Case(name, ["check", "@sample", "INPUT"], text)


def costed(name, text):
    return Case(name, ["costs", "@sample", "INPUT"], text)


def explained(name, text):
    """An input that is refused at its end, judged and explained."""
    yield checked(f"check, refused: {name}", text)
    yield Case(f"explain: {name}", ["explain", "@sample", "INPUT"], text)


def explained_plan(name, text):
    yield Case(f"plan, refused: {name}", ["plan", "INPUT"], text)
    yield Case(f"explain: {name}", ["explain", "INPUT"], text)


def listed(name, version, words, size=EVENTS):
    return Case(name, ["events", "INPUT"], event_file(version, words, size))


def services(count, to="/dev/null", name="run: a service of three cycles"):
    return ran(name, long_runs.SCRIPT, DEMAND + CYCLE * 3, count, to)


def cases():
    yield Case("start-up", ["--version"], "")
    yield checked("check: 4,096 long statements", long_statements(4096))
    yield checked("check: 4,096 short statements", large_inputs.service(4096, 4_294_967_295))
    yield checked("check: the same number in 14 loops", large_inputs.nested_loops(4096, 14))
    yield checked("check: 1 MB of comments", large_inputs.comments(TEXT))
    yield checked("check: 1 MB of blanks", large_inputs.blanks(TEXT))
    yield costed("costs: 4,096 long statements", long_statements(4096))
    yield costed("costs: 4,096 short statements", large_inputs.service(4096, 4_294_967_295))
    yield costed("costs: the same number in 14 loops", large_inputs.nested_loops(4096, 14))
    yield Case("plan: the greatest", ["plan", "INPUT"], large_inputs.greatest_plan())
    yield from explained("1 MB on one line", long_statements(4096).replace("\n", " ") + "}")
    yield from explained("4,096 statements", large_inputs.service(4096, 0))
    yield from explained("110,000 tokens", long_statements(4096) + "}")
    yield from explained("14 loops", too_many_turns())
    yield from explained("the longest condition", longest_condition())
    yield from explained("62 kept variables", most_kept())
    yield from explained("24 services", last_service())
    yield from explained_plan("64 full types", large_inputs.greatest_plan() + 'gl=1\n')
    yield ran("run: mixed", MIXED, MIXED_ANSWERS)
    yield ran("run: demands without a service", long_runs.SCRIPT, QUIET)
    yield services(ANSWERS)
    yield services(ANSWERS, "file", "run: the same, to a file")
    yield services(ANSWERS, "pipe", "run: the same, through a pipe")
    yield ran("run: nested loops", long_runs.LOOPS, DEMAND + CYCLE * 249_750)
    yield ran("run: scans", long_runs.SCAN, DEMAND + CYCLE * 16)
    yield ran("run: blocks until Q = 0", long_runs.STOP, DEMAND + CYCLE * 4_000)
    yield ran("run: blocks repeated until Q = 1", long_runs.REPEAT, DEMAND + (AGAIN + CYCLE) * 2_000)
    yield ran("run: calls three deep", long_runs.CALLS, DEMAND + CYCLE * 1_000)
    yield listed("events: 4,096 words each, 16.8 MB", 2, 4096)
    yield listed("events: one word each, version one", 1, 1)


def growing():
    """Each input in three sizes."""
    for part in (100, 10, 1):
        yield checked(f"check: {4096 // part} long statements", long_statements(4096 // part))
    for part in (100, 10, 1):
        yield services(ANSWERS // part, name=f"run: {ANSWERS // part} answers")
    for part in (100, 10, 1):
        yield listed(f"events: {EVENTS // part} bytes", 2, 4096, EVENTS // part)


def spent(words, to):
    """Milliseconds of processor time of one call."""
    reader = None
    if to == "pipe":
        end, into = os.pipe()
        null = os.open("/dev/null", os.O_WRONLY)
        reader = os.posix_spawnp("cat", ["cat"], os.environ, file_actions=[(os.POSIX_SPAWN_DUP2, end, 0), (os.POSIX_SPAWN_DUP2, null, 1), (os.POSIX_SPAWN_CLOSE, into)])
        os.close(end)
        os.close(null)
    else:
        into = os.open(to, os.O_WRONLY | os.O_CREAT | os.O_TRUNC, 0o600)
    process = os.posix_spawnp(words[0], words, os.environ, file_actions=[(os.POSIX_SPAWN_DUP2, into, 1)])
    os.close(into)
    _, status, used = os.wait4(process, 0)
    if reader:
        os.waitpid(reader, 0)
    if os.waitstatus_to_exitcode(status) not in (0, 1):
        sys.exit(f"{' '.join(words)}: status {os.waitstatus_to_exitcode(status)}")
    return (used.ru_utime + used.ru_stime) * 1000


def peak(words, room):
    """Peak memory in KiB; GNU time keeps this program's own memory out of it."""
    if not os.access(GNU_TIME, os.X_OK):
        return 0
    report = f"{room}/report"
    spent([GNU_TIME, "-q", "-f", "%M", "-o", report, *words], "/dev/null")
    with open(report, encoding="ascii") as lines:
        return int(lines.read().split()[-1])


def measured(case, programs, best):
    """The input's bytes, then milliseconds and KiB of `cat` and of each program."""
    with tempfile.TemporaryDirectory(prefix="camac-speed-") as room:
        words, to = case.put(room)
        calls = [["cat", f"{room}/input"], *([program, *words] for program in programs)]
        times = [[] for _ in calls]
        for _ in range(best):
            for call, taken in zip(calls, times):
                taken.append(spent(call, to))
        return [len(case.text)] + [number for call, taken in zip(calls, times) for number in (min(taken), peak(call, room), statistics.median(taken))]


def instructions(words, given="", statuses=(0, 1)):
    """How many instructions one call takes, which ends with one of these statuses; `given` is its standard input."""
    valgrind = ["valgrind", "--tool=cachegrind", "--cache-sim=no", "--cachegrind-out-file=/dev/null", *words]
    said = subprocess.run(valgrind, input=given, stdout=subprocess.DEVNULL, stderr=subprocess.PIPE, text=True)
    assert said.returncode in statuses, said.stderr
    return int(re.search(r"I +refs: +([0-9,]+)", said.stderr)[1].replace(",", ""))


def counted(case, program):
    with tempfile.TemporaryDirectory(prefix="camac-speed-") as room:
        words, _ = case.put(room)
        return instructions([program, *words])


def print_instructions(chosen, programs):
    print("| case |" + "".join(f" {os.path.basename(it)}: million instructions | for an answer |" for it in programs))
    print("|---|" + "---|---|" * len(programs))
    for case in (it.tenth() for it in chosen if it.to == "/dev/null"):
        counts = [counted(case, program) for program in programs]
        cells = [(f"{count / 1e6:.2f}", f"{count / case.answers():.0f}" if case.answers() else "") for count in counts]
        print(f"| {case.name} |" + "".join(f" {count} | {each} |" for count, each in cells), flush=True)


# What in front of a text has `check` end early: a wrong first token when all tokens are read, a LAM in no crate of the plan when it is parsed.
ENDS = (")", "cdlam none 1 7 1 0\n", "")


def of_shape(texts, program, ends=ENDS):
    """Instructions of `check` up to each of these ends, the mean of the texts."""
    return [statistics.mean(counted(checked("", f"{end}{it}"), program) for it in texts) for end in ends]


def print_corpus(chosen, programs):
    print("| shape | bytes |" + "".join(f" {os.path.basename(it)} | tokens | parser | judging | ratio |" for it in programs))
    print("|---|---|" + "---|---|---|---|---|" * len(programs))
    lines, starts = [], [counted(checked("", ""), it) for it in programs]
    for name, texts in chosen.items():
        lines.append([])
        for program, start in zip(programs, starts):
            tokens, parsed, whole = of_shape(texts, program)
            lines[-1].append([whole, tokens - start, parsed - tokens, whole - parsed, whole / (lines[-1][0][0] if lines[-1] else whole)])
        tell_shape(name, len(texts[0]), lines[-1])
    tell_shape("all", "", [[*map(statistics.mean, row[:4]), statistics.geometric_mean(row[4])] for row in (list(zip(*them)) for them in zip(*lines))])


def tell_shape(name, size, line):
    print(f"| {name} | {size} |" + "".join("".join(f" {it / 1e6:.2f} |" for it in parts) + f" {ratio:.3f} |" for *parts, ratio in line), flush=True)


def main():
    words = argparse.ArgumentParser(description="Processor time and peak memory on large inputs.")
    words.add_argument("--best", type=int, default=5, help="how often each call is made")
    tables = words.add_mutually_exclusive_group()
    tables.add_argument("--growth", action="store_true", help="the table of growing inputs")
    tables.add_argument("--instructions", action="store_true", help="the table of instructions, by valgrind")
    tables.add_argument("--corpus", action="store_true", help="the table of the corpus, by valgrind")
    words.add_argument("--only", default="", help="the cases whose names have this word in them")
    words.add_argument("programs", nargs="*", metavar="PROGRAM")
    given = words.parse_args()
    top = os.path.dirname(os.path.dirname(os.path.abspath(__file__)))
    programs = [os.path.abspath(it) for it in given.programs] or [f"{top}/crates/camac/out/camac"]
    for program in programs:
        if not os.access(program, os.X_OK):
            sys.exit(f"{program} is not there: build it by 'cd crates/camac && rt run'")
    if (given.instructions or given.corpus) and not shutil.which("valgrind"):
        sys.exit("instructions are counted by valgrind, which is not there")
    if given.corpus:
        return print_corpus({name: texts for name, texts in corpus.shapes().items() if given.only in name}, programs)
    chosen = [it for it in (growing() if given.growth else cases()) if given.only in it.name]
    if given.instructions:
        return print_instructions(chosen, programs)
    heads = ["cat"] + [os.path.basename(it) for it in programs]
    print("| case | bytes |" + "".join(f" {it}: ms | KiB |" for it in heads))
    print("|---|---|" + "---|---|" * len(heads))
    for case in chosen:
        size, *numbers = measured(case, programs, given.best)
        print(f"| {case.name} | {size} |" + "".join(f" {numbers[at]:.1f} | {numbers[at + 1]} |" for at in range(0, len(numbers), 3)), flush=True)


if __name__ == "__main__":
    main()
