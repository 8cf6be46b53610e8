#!/usr/bin/env python3
"""Makes large inputs of camac, runs the built program on each, and prints seconds, peak memory and the first line of the answer.

usage: benchmarks/large_inputs.py [PROGRAM]     PROGRAM is crates/camac/out/camac unless given (built by: cd crates/camac && rt run)

Each input comes in two sizes, one twice the other, so that work which grows faster than the input shows.
"""
import os
import subprocess
import sys
import tempfile
import time

TOP = os.path.dirname(os.path.dirname(os.path.abspath(__file__)))
GNU_TIME = "/usr/bin/time"
OPENING = "cdlam adc 1 1 5 12\nvar v\n"


def comments(size):
    """A script of one comment a line, of about this many bytes."""
    line = "# " + "x" * 61 + "\n"
    return line * (size // len(line))


def blanks(size):
    return " " * size


def service(statements, cycles):
    """A service of this many statements, a third of them cycles."""
    body = "cdreg r 1 1 5 0\n"
    turn = ["cfsa 0 r -> v\n", "put v\n", "cdreg r 1 1 5 0\n"]
    lines = "".join(turn[i % 3] for i in range(statements - 1))
    return f"{OPENING}service adc within {cycles} cycles event 4096 words {{\n{body}{lines}}}\n"


def nested_loops(statements, depth):
    """Loops in one another, with the rest of the statements in the innermost."""
    variables = " ".join(f"i{n}" for n in range(depth))
    heads = "".join(f"for i{n} = 0 to 1 {{\n" for n in range(depth))
    body = "".join(f"v = i{n % depth}\n" for n in range(statements - depth))
    return f"{OPENING}var {variables}\nservice adc within 0 cycles event 0 words {{\n{heads}{body}{'}' * depth}\n}}\n"


def loops_in_turn(count):
    """Loops one after another, each with a statement in its body."""
    loops = "for i = 0 to 65534 {\nv = i\n}\n" * count
    return f"{OPENING}var i\nservice adc within 0 cycles event 0 words {{\n{loops}}}\n"


def names(count):
    """Variables with names of 32 bytes, and a put of each in turn."""
    word = lambda i: f"v{i:02}" + "y" * 29
    declared = " ".join(word(i) for i in range(count))
    puts = "\n".join(f"put {word(i % count)}" for i in range(4000))
    return f"cdlam adc 1 1 5 12\nvar {declared}\nservice adc within 0 cycles event 4096 words {{\n{puts}\n}}\n"


def registers(count):
    """Registers, and cycles at each in turn."""
    declared = "\n".join(f"cdreg r{i} 1 1 5 {i % 12}" for i in range(count))
    cycles = "\n".join(f"cfsa 0 r{i % count} -> v" for i in range(4000))
    return f"{OPENING}service adc within 4294967295 cycles event 0 words {{\n{declared}\n{cycles}\n}}\n"


def lams(count):
    """LAMs of one station, and a service on the last of them."""
    declared = "".join(f"cdlam lam{i} 1 1 5 {i % 16}\n" for i in range(count))
    return f"{declared}var v\nservice lam{count - 1} within 3 cycles event 1 words {{\ncdreg r 1 1 5 0\ncfsa 0 r -> v\nput v\n}}\n"


def greatest_plan():
    """64 types, each of all 512 commands one by one; 7 crates of 23 stations; 24 graded-L bits."""
    commands = ",".join(f"{{f={f},a={a}}}" for f in range(32) for a in range(16))
    types = "".join(f'[[type]]\nname="T{i}"\ncommands=[{commands}]\n' for i in range(64))
    crates, bit = "", 0
    for number in range(1, 8):
        crates += f"[[crate]]\nnumber={number}\nwaits=15\n"
        for n in range(1, 24):
            bit += 1
            gl = f"gl={bit}\n" if bit <= 24 else ""
            crates += f'[[crate.station]]\nn={n}\ntype="T{(number * 23 + n) % 64}"\n{gl}'
    return types + crates


def nested_tables(size):
    """Inline tables in one another, never closed."""
    return "a={" * (size // 3)


def dotted_key(parts):
    return ".".join("a" * parts) + "=1"


def dotted_keys(size):
    """Keys of 17 parts, each of which makes a table: of all texts that nest at most 16 deep these take the TOML library most memory."""
    lines, number = [], 0
    while size > 0:
        lines.append(f"k{number}." + ".".join("a" * 16) + "=1\n")
        size -= len(lines[-1])
        number += 1
    return "".join(lines[:-1])


SCRIPTS = [
    ("comments, half a megabyte", comments(524_288)),
    ("comments, one megabyte", comments(1_048_576)),
    ("blanks, half a megabyte", blanks(524_288)),
    ("blanks, one megabyte", blanks(1_048_576)),
    ("2,048 statements", service(2048, 4_294_967_295)),
    ("4,096 statements", service(4096, 4_294_967_295)),
    ("2,048 statements in 14 loops", nested_loops(2048, 14)),
    ("4,096 statements in 14 loops", nested_loops(4096, 14)),
    ("1,024 loops in turn", loops_in_turn(1024)),
    ("2,048 loops in turn", loops_in_turn(2048)),
    ("32 variables, 4,000 puts", names(32)),
    ("64 variables, 4,000 puts", names(64)),
    ("32 registers, 4,000 cycles", registers(32)),
    ("64 registers, 4,000 cycles", registers(64)),
    ("32 LAMs", lams(32)),
    ("64 LAMs", lams(64)),
    ("one byte too long", blanks(1_048_577)),
]

PLANS = [
    ("the greatest plan", greatest_plan()),
    ("half a megabyte of [", "[" * 524_288),
    ("one megabyte of [", "[" * 1_048_576),
    ("half a megabyte of a={", nested_tables(524_288)),
    ("one megabyte of a={", nested_tables(1_048_576)),
    ("a key of 250,000 parts", dotted_key(250_000)),
    ("a key of 500,000 parts", dotted_key(500_000)),
    ("50,000 times [a]", "[a]\n" * 50_000),
    ("100,000 times [[crate]]", "[[crate]]\n" * 104_857),
    ("50,000 keys", "".join(f"a{i}=1\n" for i in range(50_000))),
    ("100,000 keys", "".join(f"a{i}=1\n" for i in range(100_000))),
    ("keys of 17 parts, half a megabyte", dotted_keys(524_288)),
    ("keys of 17 parts, one megabyte", dotted_keys(1_048_576)),
    ("one byte too long", blanks(1_048_577)),
]


def measured(program, words):
    """Seconds, peak memory in MiB (by GNU time, which keeps this program's own memory out of it), status and output."""
    report = words[-1] + ".time"
    watch = [GNU_TIME, "-q", "-f", "%M", "-o", report] if os.access(GNU_TIME, os.X_OK) else []
    started = time.perf_counter()
    run = subprocess.run(watch + [program] + words, stdout=subprocess.PIPE, stderr=subprocess.STDOUT)
    seconds = time.perf_counter() - started
    if not watch:
        return seconds, "-", run.returncode, run.stdout.decode()
    with open(report) as lines:
        peak = f"{int(lines.read()) / 1024:.1f}"
    os.remove(report)
    return seconds, peak, run.returncode, run.stdout.decode()


def main():
    program = sys.argv[1] if len(sys.argv) > 1 else os.path.join(TOP, "crates/camac/out/camac")
    if not os.access(program, os.X_OK):
        sys.exit(f"{program} is not there: build it by 'cd crates/camac && rt run'")
    for words, cases in [(["check", "@sample"], SCRIPTS), (["plan"], PLANS)]:
        print(f"{'camac ' + ' '.join(words):36} {'bytes':>9} {'seconds':>8} {'MiB':>6}  status and first line")
        for name, text in cases:
            with tempfile.NamedTemporaryFile("w") as file:
                file.write(text)
                file.flush()
                seconds, peak, status, out = measured(program, words + [file.name])
            print(f"{name:36} {len(text):9} {seconds:8.3f} {peak:>6}  {status} {out.splitlines()[0] if out else ''}")


if __name__ == "__main__":
    main()
