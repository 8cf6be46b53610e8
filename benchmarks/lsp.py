#!/usr/bin/env python3
"""Measures how soon `camac-lsp` answers after an edit of a script of 4,096 statements: a median and a 99th percentile in milliseconds, by the clock.

usage: benchmarks/lsp.py LIBRARY [EDITS]     LIBRARY is libcamac.so.0; EDITS is 1,000 unless given

After each edit it waits for what is wrong, and then asks each question once. Questions on an old text would be answered from what is kept.
"""
import os
import pathlib
import random
import statistics
import sys
import tempfile
import time

TOP = pathlib.Path(__file__).resolve().parent.parent
sys.path[:0] = [str(TOP / "benchmarks"), str(TOP / "tests")]

from large_inputs import service
from support.lsp import Client

OPTIONS = {"tabSize": 2, "insertSpaces": True}


def main(words):
    if not 1 <= len(words) <= 2:
        print(__doc__.strip(), file=sys.stderr)
        return 2
    edits = int(words[1]) if words[1:] else 1_000
    lines = service(4096, 4_294_967_295).split("\n")
    places, chosen = [at for at, line in enumerate(lines) if line.startswith("cfsa")], random.Random("camac")
    took = {}

    def timed(name, ask):
        began = time.perf_counter()
        ask()
        took.setdefault(name, []).append((client.arrived - began) * 1e3)

    with tempfile.TemporaryDirectory() as folder:
        client = Client({"CAMAC_LIBRARY": words[0]})
        uri = client.open(os.path.join(folder, "long.script"), "\n".join(lines), 1)
        client.found(uri)
        for version in range(2, edits + 2):
            line = chosen.choice(places)
            # One more blank in a line: each text is a new one.
            client.change(uri, version, ((line, 4), (line, 4), " "))
            timed("what is wrong", lambda: client.found(uri))
            timed("a variable", lambda: client.at("hover", uri, line, lines[line].index("v") + 1))
            timed("a register", lambda: client.at("hover", uri, line, lines[line].index("r") + 1))
            timed("a statement", lambda: client.at("hover", uri, line, 1))
            timed("completion", lambda: client.at("completion", uri, line, 4))
            timed("a definition", lambda: client.at("definition", uri, line, lines[line].index("r") + 1))
            timed("fixes", lambda: client.actions(uri, line))
            timed("layout", lambda: client.ask("textDocument/formatting", textDocument={"uri": uri}, options=OPTIONS))
            timed("rename", lambda: client.at("rename", uri, line, lines[line].index("v") + 1, newName="word"))
            lines[line] = lines[line][:4] + " " + lines[line][4:]
        client.end()
    for name, times in took.items():
        print(f"{name}: {statistics.median(times):.1f} ms, 99 of 100 within {statistics.quantiles(times, n=100)[98]:.1f}")
    return 0


if __name__ == "__main__":
    sys.exit(main(sys.argv[1:]))
