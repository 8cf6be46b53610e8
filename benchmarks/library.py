#!/usr/bin/env python3
"""Measures the cost of an answer through the library for C: by `camac_wants` and `camac_next`, by `camac_step`, or by `camac_ahead` and
`camac_next_many`; and `camac_words` at the end of an event, or `camac_record`.

usage: benchmarks/library.py [ARCHIVE]     ARCHIVE is crates/camac_c/out/libcamac_c.a unless given (built by: cd crates/camac_c && rt lib)

The instructions are those of valgrind's callgrind. There is a number for the interface (the exports and their copies), one for the runner that it
calls, and one for the loop in C around them. The time is the processor's, in nanoseconds, the least of five runs. It needs gcc, and valgrind for the
instructions.
"""
import argparse
import itertools
import os
import re
import shutil
import subprocess
import sys
import tempfile

TOP = os.path.dirname(os.path.dirname(os.path.abspath(__file__)))
sys.dont_write_bytecode = True
PLAN = f"{TOP}/examples/sample_plan.toml"
SCRIPTS = ("straight_line", "lockout", "all_channels")
FEW, MANY = 10_000, 20_000
ANSWERS = 1_000_000
BEST = 5
LOOP = ("play", "play_by", "play_lists", "main", "by_next", "by_step", "by_words", "by_record", "camac_wants", "camac_next", "camac_step",
        "camac_ahead", "wants_of", "camac_next_many", "camac_words", "camac_record")
CALLS = ("next", "step", "record", "lists")
INTERFACE = re.compile(r"camac_raw_|camac_c::")
COPIES = re.compile(r"^(?:__)?mem(?:cpy|move|set)")


def compiled(archive, room):
    """The program benchmarks/library.c over the archive, with the names of all functions."""
    subprocess.run([f"{TOP}/tools/library", archive, room], check=True)
    words = ["gcc", "-std=c99", "-O2", "-fno-inline", f"-I{TOP}/include", f"{TOP}/benchmarks/library.c", f"{room}/libcamac.a", "-o", f"{room}/library"]
    subprocess.run(words, check=True)
    return f"{room}/library"


def costs(program, script, answers, calls, room):
    """Instructions of each function, by its name. Copying and filling memory counts to the caller."""
    told = f"{room}/callgrind"
    words = ["valgrind", "-q", "--tool=callgrind", f"--callgrind-out-file={told}", program, PLAN, script, str(answers), calls]
    subprocess.run(words, check=True, stdout=subprocess.DEVNULL)
    names, found, name, called = {}, {}, "", None
    with open(told, encoding="utf-8") as lines:
        for line in lines:
            if function := re.match(r"(c?)fn=\((\d+)\)(?: (.*))?", line):
                is_called, number, text = function.groups()
                full = names.setdefault(number, text)
                name, called = (name, full) if is_called else (full, None)
            elif re.match(r"[+*\-\d]", line):
                # the line behind a call has the cost of the called function, which has a line of its own
                if COPIES.match(called) if called else not COPIES.match(name):
                    found[name] = found.get(name, 0) + int(line.split()[1])
                called = None
    return found


def instructions(program, script, calls, room):
    """Instructions for an answer: of the interface, of the runner, and of the loop. What comes before the first answer is left out."""
    few, many = (costs(program, script, count, calls, room) for count in (FEW, MANY))
    parts = [0.0, 0.0, 0.0]
    for name, cost in many.items():
        part = 0 if INTERFACE.search(name) else 2 if name.split("'")[0] in LOOP else 1
        parts[part] += (cost - few.get(name, 0)) / (MANY - FEW)
    return parts


def measure(program, room):
    print("| script | calls | interface | runner | loop in C | ns an answer |\n|---|---|---|---|---|---|")
    for name, calls in itertools.product(SCRIPTS, CALLS):
        script = f"{TOP}/examples/{name}.script"
        parts = instructions(program, script, calls, room) if shutil.which("valgrind") else [float("nan")] * 3
        words = [program, PLAN, script, str(ANSWERS), calls]
        least = min(float(subprocess.run(words, check=True, stdout=subprocess.PIPE).stdout.split()[0]) for _ in range(BEST))
        print(f"| {name} | {calls} | {parts[0]:.0f} | {parts[1]:.0f} | {parts[2]:.0f} | {least:.0f} |", flush=True)


def main():
    words = argparse.ArgumentParser(usage=__doc__)
    words.add_argument("archive", nargs="?", default=f"{TOP}/crates/camac_c/out/libcamac_c.a")
    asked = words.parse_args()
    with tempfile.TemporaryDirectory() as room:
        measure(compiled(asked.archive, room), room)


if __name__ == "__main__":
    main()
