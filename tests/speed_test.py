#!/usr/bin/env python3
"""Commands in Python load little, and an answer through the library for C takes little. `costs` takes at most ten times as long as `check`. The corpus is
judged as its shapes say.

usage: tests/speed_test.py [-v] [TEST ..]     from any folder; takes half a minute on four processors that are idle
"""
import compileall
import concurrent.futures
import os
import resource
import shutil
import socket
import sys
import unittest
import unittest.mock

from support import needs, of_c
from support.program import PROGRAM, TOP, Room

sys.path.insert(0, f"{TOP}/benchmarks")

import corpus  # noqa: E402
import library  # noqa: E402
import speed  # noqa: E402


@needs.needed("valgrind")
class Commands(Room):
    def test_they_take_200_million_instructions_at_most(self):
        """As ./install puts them in place, which compiles them. An .npz loads numpy: it takes more. `watch` gets to its address, which is not free."""
        shutil.copytree(TOP / "python/camac", self.room / "camac")
        compileall.compile_dir(self.room / "camac", quiet=1)
        script, events = TOP / "examples/straight_line.script", self.room / "run.events"
        answers = self.write("run.answers", 10 * "0 0 000000 0 000004\n1 1 000fff 2 000000\n1 1 000000 1 000000\n")
        listing = self.write("run.listing", self.call("run", "@sample", script, answers, events)[1].decode())
        messages = (f'{{"jsonrpc":"2.0","id":1,"method":"{it}","params":{{}}}}' for it in ("initialize", "shutdown", "exit"))
        asked, judged = "".join(f"Content-Length: {len(it)}\r\n\r\n{it}" for it in messages), ["@sample", script]
        port = str(self.enterContext(socket.create_server(("127.0.0.1", 0))).getsockname()[1])
        commands = [
            ["check", *judged], ["fmt", "--check", script], ["diff", script, script, "--plan", "@sample"], ["csv", "listing", listing], ["lsp"],
            *(["draw", it, *judged, answers, "-o", self.room / it] for it in ("plan", "bounds", "response", "costs", "run", "words")),
            ["annotate", *judged, answers], ["report", *judged, answers, "-o", self.room / "run.html", "--write-record", self.room / "run.json"],
            ["survey", "@sample", "--driver", "mock"], ["watch", events, "--port", port, "--plan", "@sample", "--script", script],
            ["simulate", *judged, "--rate", "adc=1000", "--cycle-us", "1", "--services", "10", "-o", self.room / "rates.svg"],
            ["export", events, "-o", self.room / "run.csv"], ["export", events, "--plan", "@sample", "--script", script, "-o", self.room / "named.csv"],
        ]
        with unittest.mock.patch.dict(os.environ, PYTHONPATH=str(self.room), CAMAC_PROGRAM=PROGRAM), concurrent.futures.ThreadPoolExecutor() as pool:
            counts = pool.map(lambda it: speed.instructions([sys.executable, "-m", "camac", *it], asked, {"watch": (3,)}.get(it[0], (0,))), commands)
            for words, count in zip(commands, counts):
                with self.subTest(" ".join(map(str, words))):
                    self.assertLess(count, 200e6)


@needs.needed("valgrind")
@of_c.needed()
class Library(Room):
    def test_what_an_answer_takes(self):
        """With the words of an event of one word at its end, or its record; or in lists, for which the run looks ahead."""
        program = library.compiled(of_c.ARCHIVE, str(self.room))
        for calls, most in {"step": 650, "record": 650, "lists": 1_300}.items():
            with self.subTest(calls):
                self.assertLess(sum(library.instructions(program, f"{TOP}/examples/straight_line.script", calls, str(self.room))), most)


def many_services():
    """The plan of a crate with 24 bits in two crates, and a script with a service on each, of 4,096 statements in all."""
    stations = [(crate, n) for crate in (1, 2) for n in range(1, 13)]
    module = '[[type]]\nname = "A"\ncommands = [ { f = 0, a = 0, width = 24 }, { f = 10, a = 0 } ]\n'
    plan = module + "".join(
        f"[[crate]]\nnumber = {crate}\nwaits = 15\n" + "".join(f'[[crate.station]]\nn = {n}\ntype = "A"\ngl = {12 * crate - 12 + n}\n' for n in range(1, 13))
        for crate in (1, 2)
    )
    lams = "".join(f"cdlam l{crate}_{n} 1 {crate} {n} 0\n" for crate, n in stations)
    each = 4096 // len(stations)
    services = "".join(
        f"service l{crate}_{n} within 4294967295 cycles event 4096 words {{\ncdreg r 1 {crate} {n} 0\n{f'cfsa 0 r -> v{chr(10)}' * (each - 1)}}}\n"
        for crate, n in stations
    )
    return plan, f"{lams}var v\n{services}"


def largest():
    """The largest scripts within the limits, each with its plan."""
    lam, long = "cdlam adc 1 1 5 12\n", f"v = {'+'.join(['v'] * 33)}\n"
    heading = "service adc within 4294967295 cycles event 4096 words {\n"
    loops = "".join(f"for v{depth} = 1 to 2 {{ " for depth in range(13))
    names = " ".join(f"v{it}" for it in range(13))
    choices = "if q {} else { " * 13
    return {
        "4,096 long statements": ("@sample", f"{lam}var v\n{heading}{long * 4096}}}\n"),
        "13 loops in one another": ("@sample", f"{lam}var v {names}\n{heading}{loops}\n{f'v = v0{chr(10)}' * 4083}{'}' * 13} }}\n"),
        "13 choices in one another": ("@sample", f"{lam}var v\n{heading}{choices}\n{long * 4083}{'}' * 13} }}\n"),
        "24 services": many_services(),
    }


class Costs(Room):
    def seconds(self, command, plan):
        """The least processor time of five calls."""
        times = []
        for _ in range(5):
            before = resource.getrusage(resource.RUSAGE_CHILDREN)
            self.assertEqual(self.call(command, plan, "script")[0], 0)
            after = resource.getrusage(resource.RUSAGE_CHILDREN)
            times.append(after.ru_utime + after.ru_stime - before.ru_utime - before.ru_stime)
        return min(times)

    def test_ten_times_that_of_check(self):
        for name, (plan, script) in largest().items():
            self.write("script", script)
            check, costs = (self.seconds(it, plan if plan == "@sample" else self.write("plan", plan)) for it in ("check", "costs"))
            print(f"{name}: check {1000 * check:.1f} ms, costs {1000 * costs:.1f} ms")
            self.assertLessEqual(costs, 10 * check, name)


class Corpus(Room):
    def test_shapes(self):
        """Texts of one size, accepted but for the mistakes, each of which breaks its rule."""
        rules = []
        for shape, texts in corpus.shapes().items():
            for text in texts:
                self.assertTrue(0.98 * corpus.SIZE < len(text) <= corpus.SIZE, shape)
                status, out, _ = self.call("check", "@sample", self.write("text", text))
                self.assertEqual(status, shape == "mistakes")
                rules += out.decode().split()[1:2] if status else []
        self.assertEqual(rules, [*corpus.mistakes()])


if __name__ == "__main__":
    unittest.main()
