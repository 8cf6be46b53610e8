#!/usr/bin/env python3
"""The sum of the sources that the gate has passed, which is in the file crates.sum.

usage: tools/sources_sum.py [--write]

A program that is built of sources with this sum needs no tests of its arithmetic: the gate proved that they never fail. Prints whether the sum is
that of the sources here, status 0 or 1; with --write it is written. A test of the gate compares both.
"""
import hashlib
import os
import sys

TOP = os.path.dirname(os.path.dirname(os.path.realpath(__file__)))
FILE = f"{TOP}/crates.sum"


def sources_sum():
    """SHA-256 over names and texts of crates.txt and of all sources, definitions and proofs."""
    names = [f"{TOP}/crates.txt"]
    for crate in os.scandir(f"{TOP}/crates"):
        for part in ("src", "specs", "proofs"):
            for folder, _, files in os.walk(f"{crate.path}/{part}"):
                names += [f"{folder}/{it}" for it in files if it.endswith((".rt", ".antt"))]
    total = hashlib.sha256()
    for name in sorted(names):
        with open(name, "rb") as file:
            total.update(f"{os.path.relpath(name, TOP)} {hashlib.sha256(file.read()).hexdigest()}\n".encode())
    return total.hexdigest()


def is_passed():
    """Whether the sources here are those that the gate has passed."""
    try:
        with open(FILE, encoding="utf-8") as file:
            return file.read().strip() == sources_sum()
    except OSError:
        return False


def main(words):
    if words == ["--write"]:
        with open(FILE, "w", encoding="utf-8") as file:
            file.write(f"{sources_sum()}\n")
    elif words:
        print(__doc__.strip(), file=sys.stderr)
        return 2
    print("crates.sum is that of these sources" if is_passed() else "crates.sum is that of other sources: tools/sources_sum.py --write")
    return 0 if is_passed() else 1


if __name__ == "__main__":
    sys.exit(main(sys.argv[1:]))
