#!/usr/bin/env python3
"""Measures how many operations a second a live run makes, beside `cat` at the other end of the same pipes.

usage: benchmarks/live.py [PROGRAM]     PROGRAM is, unless given, what CAMAC_PROGRAM names, or `camac` in PATH, or that of this clone

Each operation is one request that is read and one answer that is written, in turn. `cat` gives each line back, so its loop is what the pipes and this
computer take for themselves. The third loop is that of `camac.drive` with a branch whose operations take no time, and the last one that of
`camac.play`, in one process, where the library for C is (CAMAC_LIBRARY). The script makes one service of 99,999 cycles, without words. Beside each
rate is the processor's time for an operation, of both processes: on a busy computer only this counts.
"""
import contextlib
import os
import resource
import subprocess
import sys
import tempfile
import time

TOP = os.path.dirname(os.path.dirname(os.path.abspath(__file__)))
sys.path.insert(0, os.path.join(TOP, "python"))
sys.dont_write_bytecode = True
import camac  # noqa: E402

CYCLES = 99_999
SCRIPT = """cdlam adc 1 1 5 12
var i k
service adc within 299997 cycles event 0 words {
  for i = 1 to 99 {
    for k = 1 to 1010 { cclc adc }
  }
  for i = 1 to 9 { cclc adc }
}
"""
DEMAND = b"0 0 000000 0 000004\n"
CYCLE = b"1 1 000000 0 000000\n"


class Branch:
    """One demand, and cycles that take no time."""

    def __init__(self):
        self.demands = iter([camac.Answer(gl=4)])
        self.reply = camac.Answer(1, 1)

    def demand(self):
        return next(self.demands, None)

    def cycle(self, c, n, a, f, data):
        return self.reply


def spent():
    """Seconds since some moment, and those of the processor, of this process and of those that ended."""
    usages = [resource.getrusage(who) for who in (resource.RUSAGE_SELF, resource.RUSAGE_CHILDREN)]
    return time.perf_counter(), sum(it.ru_utime + it.ru_stime for it in usages)


@contextlib.contextmanager
def told(name):
    """Prints the rate of the operations in the block."""
    began, before = spent()
    yield
    ended, after = spent()
    print(f"{name:34} {CYCLES / (ended - began):9.0f} operations a second, {(after - before) / CYCLES * 1e6:6.2f} microseconds of the processor")


def exchange(words, first=b""):
    """Reads a line and then writes an answer, CYCLES times. `first` is written before all else."""
    with subprocess.Popen(words, stdin=subprocess.PIPE, stdout=subprocess.PIPE, bufsize=0) as process:
        process.stdin.write(first)
        process.stdout.read(4096)
        process.stdin.write(DEMAND)
        for _ in range(CYCLES):
            process.stdout.read(4096)
            process.stdin.write(CYCLE)
        process.stdout.read(4096)
        process.stdin.close()
        process.stdout.read()


def compare(end, events):
    """Ends the program if a run ended otherwise."""
    made = [event.cycles for event in camac.read_events(events)]
    if (end.line, made) != ("ended events 1", [CYCLES]):
        sys.exit(f"the run ended otherwise: {end.line}, cycles {made}")


def main():
    program = sys.argv[1] if len(sys.argv) > 1 else camac.find_program()
    with tempfile.TemporaryDirectory() as folder:
        script, *events = (os.path.join(folder, name) for name in ("script", "drive", "python", "play"))
        with open(script, "w") as file:
            file.write(SCRIPT)
        with told("cat"):
            exchange(["cat"], DEMAND)
        with told("camac drive"):
            exchange([program, "drive", "@sample", script, events[0]])
        with told("camac.drive of the Python package"):
            end = camac.drive("@sample", script, Branch(), events[1], program=program)
        compare(end, events[1])
        if camac.library.is_there():
            with told("camac.play of the Python package"):
                end = camac.play("@sample", script, Branch(), events[2])
            compare(end, events[2])


if __name__ == "__main__":
    main()
