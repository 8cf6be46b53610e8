#!/usr/bin/env python3
"""Tests of python/camac: event files are read, and refused, as `camac events` reads and refuses them. And its types, as mypy judges them: the package
itself without an error, and a program of a user by them.

usage: tests/python_test.py [-v] [TEST ..]     from any folder; takes some seconds
"""
import io
import itertools
import os
import pathlib
import re
import struct
import subprocess
import sys
import tempfile
import tracemalloc
import unittest

try:
    import numpy
except ImportError:
    numpy = None

from support.live import TOP, Case
from support.needs import needed
from support.program import called, is_within
import camac
from camac import Event, EventFileFault, event_arrays, read_events, whole, whole_size

ONE = bytes.fromhex("43414d4143455631 ca4d 0003 00000001 0002 00000fff 00ffffff ca4d 0018 00000002 0000")
TWO = bytes.fromhex("43414d4143455632 ca4d 0003 00000001 00000003 0000 0001 00000fff ca4d 0001 00000002 00010000 ffff 0000")


def listing(data):
    """Returns what `camac events` prints of such a file, as this package reads it."""
    lines, count = [], 0
    try:
        for event in read_events(io.BytesIO(data)):
            usage = "" if event.cycles is None else f" cycles {event.cycles} missed {event.missed}"
            words = "".join(f" {word:06x}" for word in event.words)
            lines.append(f"event {event.number} gl {event.gl}{usage} words {len(event.words)}{words}\n")
            count += 1
    except EventFileFault as fault:
        return f"{fault}\n"
    return f"{''.join(lines)}events {count}\n"


class EventFiles(unittest.TestCase):
    def test_events(self):
        self.assertEqual(list(read_events(io.BytesIO(TWO))), [Event(1, 3, 3, 0, (0xFFF,)), Event(2, 1, 65_536, 65_535, ())])
        self.assertEqual(list(read_events(io.BytesIO(ONE))), [Event(1, 3, None, None, (0xFFF, 0xFFFFFF)), Event(2, 24, None, None, ())])

    def test_path(self):
        with tempfile.TemporaryDirectory(prefix="camac-python-") as room:
            file = pathlib.Path(room) / "run.events"
            file.write_bytes(TWO)
            for name in (file, str(file), os.fsencode(file)):
                self.assertEqual([event.number for event in read_events(name)], [1, 2])
            with self.assertRaises(FileNotFoundError):
                next(read_events(file.with_name("none")))

    def test_what_stands_before_a_fault(self):
        events = read_events(io.BytesIO(TWO[:-1]))
        self.assertEqual(next(events).words, (0xFFF,))
        with self.assertRaises(EventFileFault) as raised:
            next(events)
        self.assertEqual((raised.exception.code, raised.exception.byte), ("V7", len(TWO) - 2))

    def test_reader_that_gives_one_byte(self):
        class Slow(io.RawIOBase):
            def __init__(self, data):
                self.data = io.BytesIO(data)

            def read(self, size=-1):
                return self.data.read(min(size, 1))

        self.assertEqual(list(read_events(Slow(TWO))), list(read_events(io.BytesIO(TWO))))

    def test_a_file_without_end(self):
        """Events are given as they come: of a file that never ends too, in little memory."""

        class Endless(io.RawIOBase):
            def __init__(self):
                self.left, self.events = b"CAMACEV2", 0

            def read(self, size=-1):
                if not self.left:
                    self.events += 1
                    self.left = struct.pack(">HHIIHH4096I", 0xCA4D, 1, self.events, 0, 0, 4096, *[7] * 4096)
                piece, self.left = self.left[:size], self.left[size:]
                return piece

        tracemalloc.start()
        self.addCleanup(tracemalloc.stop)
        file = Endless()
        for event in itertools.islice(read_events(file), 500):
            self.assertEqual((event.number, len(event.words)), (file.events, 4096))
        self.assertLess(tracemalloc.get_traced_memory()[1], 1_000_000)

    def test_as_the_program(self):
        """Each cut and many changed bytes of both files, and what the program says of them."""
        files = [data for whole in (ONE, TWO) for data in self.changed(whole)]
        for data in files:
            _, out, err = called("events", "@in", given=data)
            with self.subTest(data=data.hex()):
                self.assertEqual((out.decode(), err), (listing(data), b""))

    @staticmethod
    def changed(file):
        yield from (file[:end] for end in range(len(file) + 1))
        for place in range(len(file)):
            for byte in {0, 1, 0x10, 0x7F, 0xFF} - {file[place]}:
                yield file[:place] + bytes([byte]) + file[place + 1 :]

    def test_a_pipe_that_stays_open(self):
        """An event is given while the writer of a pipe still writes."""
        for mode in (0, -1):
            reading, writing = os.pipe()
            with open(reading, "rb", mode) as file, open(writing, "wb", 0) as pipe:
                events = read_events(file)
                pipe.write(TWO[:28])
                self.assertEqual(next(events), Event(1, 3, 3, 0, (0xFFF,)))
                pipe.write(TWO[28:])
                self.assertEqual(next(events).number, 2)
                pipe.close()
                self.assertEqual(list(events), [])

    def test_reader_that_waits_for_all_it_was_asked_for(self):
        """Of a reader with `read` alone no more is asked for than a record needs."""

        class Strict:
            def __init__(self, data):
                self.data, self.at = data, 0

            def read(self, size):
                if self.at < len(self.data) < self.at + size:
                    raise AssertionError(f"{size} bytes are asked for where {len(self.data) - self.at} are left")
                self.at += size
                return self.data[self.at - size : self.at]

        for data in (ONE, TWO):
            self.assertEqual(list(read_events(Strict(data))), list(read_events(io.BytesIO(data))))

    def test_whole(self):
        """Of each cut of both files the events before it, and where the last of them ends."""
        for data, ends in ((ONE, (8, 26, 36)), (TWO, (8, 28, 44))):
            for cut in range(len(data) + 1):
                found = whole(io.BytesIO(data[:cut]))
                size = max([end for end in ends if end <= cut], default=0)
                events = list(read_events(io.BytesIO(data)))[: ends.index(size) if size else 0]
                self.assertEqual((found.events, found.size, whole_size(io.BytesIO(data[:cut]))), (events, size, size), cut)
                self.assertEqual(found.fault is None, cut in ends, cut)
                if found.fault:
                    self.assertEqual(found.fault.code, "V7" if cut >= 8 else "V1")
                    self.assertEqual(list(read_events(io.BytesIO(data[:size]))) if size else [], events)
        self.assertEqual(whole(io.BytesIO(TWO[:28] + b"\0" * 16)).fault.args, ("refused V2 byte 28: marker",))

    def many(self, count):
        """A file with so many events, of up to 20 words each."""
        records = (struct.pack(f">HHIIHH{k % 21}I", 0xCA4D, 1 + k % 24, k + 1, 40, k % 3, k % 21, *[k] * (k % 21)) for k in range(count))
        return b"CAMACEV2" + b"".join(records)

    def test_the_size_of_a_long_file(self):
        """It is added up in little memory: the events would take ten times the file."""
        data = self.many(20_000)
        file = io.BytesIO(data + data[8:20])
        tracemalloc.start()
        self.addCleanup(tracemalloc.stop)
        self.assertEqual(whole_size(file), len(data))
        self.assertLess(tracemalloc.get_traced_memory()[1], 500_000)

    def test_time(self):
        """A third of a second for 200,000 events, on a machine that does nothing else."""
        data = self.many(200_000)
        self.assertTrue(is_within(1, lambda: self.assertEqual(sum(1 for _ in read_events(io.BytesIO(data))), 200_000)))


@needed("python3-numpy")
class Arrays(unittest.TestCase):
    def compare(self, data):
        events, arrays = list(read_events(io.BytesIO(data))), event_arrays(io.BytesIO(data))
        self.assertEqual(arrays.gl.tolist(), [event.gl for event in events])
        self.assertEqual(len(arrays.first), len(events) + 1)
        for at, event in enumerate(events):
            self.assertEqual(arrays.words[arrays.first[at] : arrays.first[at + 1]].tolist(), list(event.words))
        if data[:8] == b"CAMACEV2":
            self.assertEqual(arrays.cycles.tolist(), [event.cycles for event in events])
            self.assertEqual(arrays.missed.tolist(), [event.missed for event in events])
        else:
            self.assertEqual((arrays.cycles, arrays.missed), (None, None))

    def test_events(self):
        looks_like_a_marker = struct.pack(">HHIIHHI", 0xCA4D, 1, 1, 0xCA4D0001, 0xCA4D, 1, 7)
        and_like_a_count = struct.pack(">HHIIHHII HHIIHH", 0xCA4D, 1, 1, 0xCA4D0001, 0, 2, 7, 0xFFFF, 0xCA4D, 1, 2, 0, 0, 0)
        for data in (ONE, TWO, ONE[:8], TWO[:8], EventFiles().many(1000), TWO[:8] + looks_like_a_marker, TWO[:8] + and_like_a_count):
            self.compare(data)

    def test_faults(self):
        for good in (ONE, TWO):
            for data in EventFiles.changed(good):
                try:
                    self.compare(data)
                except EventFileFault as fault:
                    self.assertEqual(str(fault), listing(data).splitlines()[-1])

    def test_time(self):
        """A tenth of a second for 200,000 events, on a machine that does nothing else."""
        data = EventFiles().many(200_000)
        self.assertTrue(is_within(0.3, lambda: self.assertEqual(len(event_arrays(io.BytesIO(data)).gl), 200_000)))


class Package(unittest.TestCase):
    """The names of the package, each loaded when it is first asked for."""

    def run_python(self, code):
        path = str(TOP / "python")
        ran = subprocess.run([sys.executable, "-I", "-S", "-c", f"import sys; sys.path.insert(0, {path!r}); {code}"], stdout=subprocess.PIPE, text=True, check=True)
        return ran.stdout.split()

    def test_names(self):
        code = "import camac; print(*(f'{it}:{getattr(camac, it).__name__}' for it in camac.__all__)); assert set(camac.__all__) <= set(dir(camac))"
        told = self.run_python(code)
        self.assertEqual([it for it in told if it.split(":")[0] != it.split(":")[1]], [])
        stub = (TOP / "python/camac/__init__.pyi").read_text()
        self.assertEqual([it.split(":")[0] for it in told], sorted(re.findall(r'"(\w+)"', stub)))

    def test_modules(self):
        """A module is there as if it had been loaded, and no name of one hides a function."""
        self.assertEqual(self.run_python("import camac; print(camac.printed.read_plan.__name__)"), ["read_plan"])
        modules = {it.stem for it in (TOP / "python/camac").iterdir()} & set(camac.__all__)
        loaded = self.run_python(f"import camac.drive, camac; print(*(it for it in {sorted(modules)} if callable(getattr(camac, it))))")
        self.assertEqual(loaded, sorted(modules))
        with self.assertRaises(AttributeError):
            camac.nothing

    def test_what_commands_load(self):
        """To load one of these takes as long as all that a short command does."""
        dear = {"ctypes", "dataclasses", "hashlib", "inspect", "json", "pathlib", "subprocess", "tempfile", "traceback", "camac.library", "camac.pictures"}
        for command in ("check", "csv", "diff", "fmt"):
            self.assertEqual(self.run_python(f"import camac.commands.{command}; print(*{dear} & set(sys.modules))"), [], command)


TYPED = """\
from typing import Optional

import camac
from camac.mock import Adc, MockBranch


class Bench:
    def demand(self) -> camac.Answer:
        return camac.Answer(gl=4)

    def cycle(self, c: int, n: int, a: int, f: int, data: Optional[int]) -> camac.Answer:
        return camac.Answer(x=1, q=1)

    def lock(self, c: int) -> camac.Answer:
        return camac.Answer()

    def unlock(self, c: int) -> None:
        pass


for service in camac.check("plan.toml", "a.script"):
    print(service.name.upper(), service.cycles + 1)
print(camac.drive("plan.toml", "a.script", Bench(), "events").how.value)
print(camac.drive("plan.toml", "a.script", MockBranch({(1, 5): Adc()}, {(1, 5): 3}), "events").line)
"""


@needed("mypy")
class Types(Case):
    def judged(self, *files):
        words = ["mypy", "--strict", "--no-error-summary", "--cache-dir", self.room / "cache", *files]
        ran = subprocess.run(words, cwd=self.room, env={**os.environ, "MYPYPATH": str(TOP / "python")}, capture_output=True, text=True, timeout=300)
        self.assertEqual(ran.stderr, "")
        return ran.stdout

    def test_package_and_program(self):
        self.assertEqual(self.judged(TOP / "python/camac", self.write("good.py", TYPED)), "")
        wrong = TYPED.replace("service.cycles + 1", "service.cycle").replace("-> camac.Answer", "-> str", 1).replace("return camac.Answer(gl=4)", 'return ""')
        told = self.judged(self.write("wrong.py", wrong))
        self.assertIn('"Service" has no attribute "cycle"', told)
        self.assertIn("has incompatible type", told)


if __name__ == "__main__":
    unittest.main()
