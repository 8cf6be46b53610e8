#!/usr/bin/env python3
"""Plays a long live run through pipes, and prints its time and its peak memory after each tenth of it.

usage: benchmarks/long_live.py [--answers N] [PROGRAM]

N is ten million unless given. PROGRAM is, unless given, what CAMAC_PROGRAM names, or `camac` in PATH, or that of this clone. The services
read a word that is another one each time, and make two more cycles. Answers are written ahead, so that the pipe and not a driver sets the
pace; `benchmarks/live.py` measures the exchange of one answer at a time. The status is 1 if a request, the last line or an event is not the
one that these answers call for, or if the run took more memory at its end than after its first tenth. Peak memory is the VmHWM of
Linux's /proc.
"""
import argparse
import os
import subprocess
import sys
import tempfile
import threading
import time

TOP = os.path.dirname(os.path.dirname(os.path.abspath(__file__)))
sys.path[:0] = [os.path.join(TOP, "python"), os.path.join(TOP, "benchmarks")]
sys.dont_write_bytecode = True
import camac  # noqa: E402
from long_runs import DEMAND, SCRIPT  # noqa: E402

# The operations of a service of SCRIPT: a demand, F0 at A0, and the F10 and F8 of the LAM at A12. None but the first moves data.
REQUESTS = b"demand\ncycle 1 5 0 0 in\ncycle 1 5 12 10 none\ncycle 1 5 12 8 none\n"
QUIET_CYCLE = "1 1 000000 0 000000\n"
REPLIES = 1 << 24
# The converter of @sample has 12 bits, and a script sees no others of a reply.
WORDS = 1 << 12
TOGETHER = 10_000
PARTS = 10
MARGIN = 64  # KiB


def feed(pipe, services):
    """Writes the answers of some services, whose replies are their numbers, and ends the input."""
    with pipe:
        for first in range(0, services, TOGETHER):
            numbers = range(first, min(first + TOGETHER, services))
            text = "".join(f"{DEMAND}1 1 {n % REPLIES:06x} 0 000000\n{QUIET_CYCLE}{QUIET_CYCLE}" for n in numbers)
            pipe.write(text.encode())


def take(pipe, text):
    """Reads as many bytes as this text has, and ends the program if they are others."""
    found = pipe.read(len(text))
    if found != text:
        sys.exit(f"not what was to be written: {found[:200]!r}")


def peak(process):
    """Peak memory of a process that runs, in KiB."""
    with open(f"/proc/{process.pid}/status") as file:
        return next(int(line.split()[1]) for line in file if line.startswith("VmHWM:"))


def follow(process, services):
    """Compares all that the program writes, and returns its peak memory after each part of the services."""
    peaks = []
    for part in range(PARTS):
        left = services * (part + 1) // PARTS - services * part // PARTS
        while left:
            some = min(left, TOGETHER)
            take(process.stdout, REQUESTS * some)
            left -= some
        peaks.append(peak(process))
    take(process.stdout, f"demand\nended events {services}\n".encode())
    if process.stdout.read():
        sys.exit("lines behind the last one")
    return peaks


def compare(path, services):
    """Ends the program if the file has other events."""
    number = 0
    for event in camac.read_events(path):
        if (event.number, event.gl, event.cycles, event.missed, tuple(event.words)) != (number + 1, 3, 3, 0, (number % WORDS,)):
            sys.exit(f"another event: {event}")
        number += 1
    if number != services:
        sys.exit(f"{number} events in place of {services}")


def main():
    parser = argparse.ArgumentParser(description=__doc__, formatter_class=argparse.RawDescriptionHelpFormatter)
    parser.add_argument("--answers", type=int, default=10_000_000, metavar="N")
    parser.add_argument("program", nargs="?")
    given = parser.parse_args()
    services = max(given.answers // 4, PARTS)
    with tempfile.TemporaryDirectory() as folder:
        script, events = os.path.join(folder, "script"), os.path.join(folder, "events")
        with open(script, "w") as file:
            file.write(SCRIPT)
        words = [given.program or camac.find_program(), "drive", "@sample", script, events]
        began = time.perf_counter()
        process = subprocess.Popen(words, stdin=subprocess.PIPE, stdout=subprocess.PIPE)
        feeder = threading.Thread(target=feed, args=(process.stdin, services), daemon=True)
        feeder.start()
        peaks = follow(process, services)
        seconds = time.perf_counter() - began
        feeder.join()
        _, status, usage = os.wait4(process.pid, 0)
        process.returncode = os.waitstatus_to_exitcode(status)
        if process.returncode:
            sys.exit(f"status {process.returncode}")
        compare(events, services)
        size = os.path.getsize(events)
    spent = usage.ru_utime + usage.ru_stime
    print(f"{4 * services} answers: {seconds:.1f} s, of them the program's own {spent:.1f} s ({usage.ru_utime:.1f} s user)")
    print(f"peak memory after each tenth, KiB: {' '.join(map(str, peaks))}")
    print(f"{services} events in {size} bytes, each as the answers have it")
    if peaks[-1] > peaks[0] + MARGIN:
        sys.exit("the memory grows")


if __name__ == "__main__":
    main()
