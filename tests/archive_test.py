#!/usr/bin/env python3
"""Tests of event files as arrays of numpy. The numbers of a run with numpy and without: a page of a long event file is the same, byte for byte. And the
event files of several runs as one data set: the same as numpy by hand on all of them, over dask, over a cluster of its processes, and without it.

usage: tests/archive_test.py [-v] [TEST ..]     from any folder; takes some seconds

It is left out if numpy (package python3-numpy of Debian) is not installed, and the parts with dask without python3-dask and python3-distributed.
CAMAC_EVENTS is how many events the cluster reads, of 64 bytes, in place of a million; 100000000 are a run for a night.
"""
import contextlib
import importlib
import io
import logging
import math
import os
import random
import re
import sys
import tracemalloc
from unittest import mock

from support.live import PROGRAM, TOP, Case, run_tests
from support import laboratory
from support.needs import has, needed
import camac
from camac import arrays
from camac.events import NEW_FILE, Event, EventFileFault, record
from camac.export_csv import Table, write_events
from camac.record import Played, describe
from camac.runs import Asked, _read_event_file
from camac.values import Service
from camac.words import Column, Field, Words

RUNS, EVENTS = 5, 100_000
# The events of the cluster, those of one file and those that are made at once; and the bytes that a worker may take.
MANY, OF_FILE, PIECE, ROOM = int(os.environ.get("CAMAC_EVENTS") or 1_000_000), 10_000_000, 250_000, 1_000_000_000
WORDS = """\
[[word]]
service = "adc"
name = "channel"
bits = "16..19"
[[word]]
service = "adc"
name = "height"
unit = "keV"
of = "channel"
tag = "0..3"
bits = "0..11"
scale = 0.5
[[word]]
service = "tick"
name = "first"
place = 1
[[word]]
service = "tick"
name = "others"
of = "place"
place = "2..4"
bits = "0..7"
"""


@needed("python3-numpy")
class Archive(Case):
    @classmethod
    def setUpClass(cls):
        super().setUpClass()
        os.environ["CAMAC_PROGRAM"] = PROGRAM
        cls.made, chance = cls.shared(), random.Random(11)
        room = cls.made
        (room / "bench.toml").write_text(laboratory.PLAN)
        (room / "bench.script").write_text(laboratory.SCRIPT)
        (room / "words.toml").write_text(WORDS)
        played = Played(room / "bench.toml", room / "bench.script", None, None)
        cls.events = []
        for run in range(RUNS):
            events = [cls.event(chance, number) for number in range(1, EVENTS + 1)]
            if run == 4:
                # What a head has, but no word, may look like the marker of an event.
                events[20_000:20_100] = [it._replace(cycles=0xCA4D0003) for it in events[20_000:20_100]]
            cls.events.append(events)
            (room / f"run{run}.events").write_bytes(NEW_FILE + b"".join(map(record, events)))
            record_of = describe(played) if run < 2 else record_of._replace(plan=record_of.plan)
            record_of = record_of._replace(events=f"run{run}.events", demands=10.0 + run if run else None, services=2.0 if run else None)
            (room / f"run{run}.json").write_text(record_of.text())
        cls.by_hand()
        cls.pattern, cls.words = str(room / "run*.events"), room / "words.toml"

    @staticmethod
    def event(chance, number):
        if number % 3 == 0:
            return Event(number, 5, 20, 0, tuple(chance.getrandbits(24) for _ in range(chance.choice((0, 1, 4)))))
        return Event(number, 3, 30, 0, tuple(chance.randrange(5) << 16 | int(chance.gauss(1200, 300)) & 0xFFF for _ in range(chance.choice((1, 2, 7)))))

    @classmethod
    def by_hand(cls):
        """What is in all files, by numpy."""
        numpy = importlib.import_module("numpy")
        adc = [[it.words for it in events if it.gl == 3] for events in cls.events]
        words = numpy.array([word for run in adc for some in run for word in some])
        cls.channel, cls.height = words >> 16, words & 0xFFF
        ticks = [it.words for events in cls.events for it in events if it.gl == 5]
        cls.first = numpy.array([tick[0] for tick in ticks if tick])
        cls.others = numpy.bincount([word & 0xFF for tick in ticks for word in tick[1:4]], minlength=256)
        is_in = (cls.channel == 1) & (1100 <= cls.height) & (cls.height <= 1300)
        sizes = numpy.array([len(some) for run in adc for some in run])
        passed = numpy.add.reduceat(is_in, numpy.cumsum(sizes) - sizes) > 0
        cls.gated = numpy.repeat(passed, sizes)
        cls.counts, cls.passed = [*map(len, adc)], [int(it.sum()) for it in numpy.split(passed, numpy.cumsum([*map(len, adc)])[:-1])]

    def check(self, **options):
        """All numbers are those by hand."""
        numpy = importlib.import_module("numpy")
        runs = camac.open_runs(self.pattern, self.words, **options)
        for name, wanted in (("channel", self.channel), ("height", 0.5 * self.height[self.channel < 4]), ("first", self.first)):
            self.assertTrue(numpy.array_equal(runs.array(name), wanted), name)
        self.assertTrue(numpy.array_equal(runs.histogram("others"), self.others))
        self.assertTrue(numpy.array_equal(runs.histogram("height[2]", 1000, 1400), numpy.bincount(self.height[self.channel == 2], minlength=4096)[1000:1401]))
        gated = runs.gate("height[1]", 1100, 1300)
        self.assertTrue(numpy.array_equal(gated.histogram("height[3]"), numpy.bincount(self.height[(self.channel == 3) & self.gated], minlength=4096)))
        self.assertEqual(len(gated.gate("channel", 9, 9).array("channel")), 0)
        rates, of_gate = runs.rates(), gated.rates()
        for run, (name, by_service) in enumerate(rates.items()):
            self.assertEqual(os.path.basename(name), f"run{run}.events")
            if run == 0:
                self.assertTrue(all(map(math.isnan, by_service.values())))
                continue
            self.assertEqual(by_service, {"adc": self.counts[run] / (12 + run), "tick": (EVENTS - self.counts[run]) / (12 + run)})
            self.assertEqual(of_gate[name], {"adc": self.passed[run] / (12 + run), "tick": 0.0})
        return runs

    def test_one_by_one(self):
        """Without dask, in partitions of every kind. The memory is that of some partitions."""
        with mock.patch.dict(sys.modules, {"dask": None}):
            runs = self.check(partition=1 << 20)
            self.assertGreater(min(map(len, runs.partitions)), 2)
            self.check(partition=1 << 30)
            tracemalloc.start()
            try:
                runs.gate("channel", 1, 3).histogram("height")
                self.assertLess(tracemalloc.get_traced_memory()[1], 16 << 20)
            finally:
                tracemalloc.stop()

    @needed("python3-dask")
    def test_dask(self):
        self.check(partition=1 << 20)

    @needed("python3-dask", "python3-distributed")
    def test_cluster(self):
        """Over processes of which none takes a GB, however many events there are."""
        wanted = self.make_many()
        distributed = importlib.import_module("distributed")
        with mock.patch.dict(os.environ, {"PYTHONPATH": str(TOP / "python")}), contextlib.ExitStack() as opened:
            options = {"threads_per_worker": 1, "processes": True, "memory_limit": ROOM, "dashboard_address": None, "silence_logs": logging.ERROR}
            cluster = opened.enter_context(distributed.LocalCluster(n_workers=2, **options))
            client = opened.enter_context(distributed.Client(cluster.scheduler_address))
            runs = camac.open_runs(str(self.room / "many*.events"), self.words)
            gated = runs.gate("height[1]", 1100, 1300)
            for right, found in zip(wanted, (runs.histogram("height[2]"), gated.histogram("height[3]"), [sum(it.values()) for it in runs.rates().values()])):
                self.assertEqual(list(found), list(right))
            most = client.run(lambda: int(re.search(r"VmHWM:\s*(\d+) kB", open("/proc/self/status").read())[1]) << 10)
        self.assertEqual(len(most), 2)
        self.assertLess(max(most.values()), ROOM, most)

    def make_many(self):
        """Makes the runs of the cluster, each of 10 s. Returns by hand the counts of a column, those of another with a gate, and the rates."""
        numpy = importlib.import_module("numpy")
        chance, ends = numpy.random.default_rng(11), [*range(0, MANY, OF_FILE), MANY]
        of = camac.read_record(self.made / "run1.json")
        counts, gated = numpy.zeros((2, 4096), "i8")
        for first, end in zip(ends, ends[1:]):
            name = f"many{first // OF_FILE:03}"
            (self.room / f"{name}.json").write_text(of._replace(events=f"{name}.events", demands=10.0, services=0.0).text())
            with open(self.room / f"{name}.events", "wb") as file:
                file.write(NEW_FILE)
                for at in range(1, end - first + 1, PIECE):
                    records = numpy.zeros(min(PIECE, end - first + 1 - at), [("head", ">u2", 2), ("of", ">u4", 2), ("counts", ">u2", 2), ("words", ">u4", 12)])
                    heights = chance.integers(0, 4096, (len(records), 12))
                    records["head"], records["counts"], records["words"] = (0xCA4D, 3), (0, 12), heights | numpy.arange(12) << 16
                    records["of"][:, 0], records["of"][:, 1] = numpy.arange(at, at + len(records)), 30
                    records.tofile(file)
                    counts += numpy.bincount(heights[:, 2], minlength=4096)
                    gated += numpy.bincount(heights[(1100 <= heights[:, 1]) & (heights[:, 1] <= 1300), 3], minlength=4096)
        return counts, gated, [(end - first) / 10 for first, end in zip(ends, ends[1:])]

    def test_what_is_refused(self):
        with self.assertRaises(FileNotFoundError):
            camac.open_runs(str(self.room / "*.events"))
        runs = camac.open_runs(self.pattern)
        with self.assertRaisesRegex(KeyError, "no word has the name 'nothing'; there are: .*SCALER-12 crate 2"):
            runs.array("nothing")
        data = (self.made / "run1.events").read_bytes()
        cut = data.index(record(self.events[1][50_000]))
        for name, content in (("cut", data[:-3]), ("lost", data[:cut] + data[cut + len(record(self.events[1][50_000])) :]), ("no", b"no event file"), ("empty", NEW_FILE)):
            (self.room / f"{name}.events").write_bytes(content)
            (self.room / f"{name}.json").write_text(camac.read_record(self.made / "run1.json")._replace(events=f"{name}.events").text())
            with mock.patch.dict(sys.modules, {"dask": None}):
                runs = camac.open_runs(str(self.room / f"{name}.events"), self.words, 1 << 20)
                if name == "empty":
                    self.assertEqual((len(runs.array("channel")), int(runs.histogram("channel").sum())), (0, 0))
                    continue
                with self.assertRaises(EventFileFault) as caught, open(self.room / f"{name}.events", "rb") as file:
                    runs.array("channel")
                with self.assertRaises(EventFileFault) as wanted:
                    list(camac.read_events(self.room / f"{name}.events"))
                self.assertEqual(str(caught.exception), str(wanted.exception))

    def test_version_one(self):
        events = [it._replace(cycles=None, missed=None) for it in self.events[0][:1000]]
        head = lambda it: b"\xca\x4d" + it.gl.to_bytes(2, "big") + it.number.to_bytes(4, "big") + len(it.words).to_bytes(2, "big")
        (self.room / "one.events").write_bytes(b"CAMACEV1" + b"".join(head(it) + b"".join(word.to_bytes(4, "big") for word in it.words) for it in events))
        (self.room / "one.json").write_text(camac.read_record(self.made / "run1.json")._replace(events="one.events").text())
        runs = camac.open_runs(str(self.room / "one.events"), self.words, 4096).gate("channel", 0, 2)
        self.assertEqual(int(runs.histogram("channel").sum()), sum(len(it.words) for it in events if it.gl == 3 and any(word >> 16 < 3 for word in it.words)))


SERVICES = [Service("adc", 3, 20, 20, 6, 6, 9), Service("reg", 5, 9, 9, 2, 2, 3)]
FIELDS = [
    Field("amplitude", 3, bits=(0, 11), places=(1, 3)), Field("time", 3, places=(2, 2)), Field("tag", 3, bits=(12, 15), places=(4, 9)),
    Field("channel", 3, bits=(0, 11), places=(4, 9), of="tag", tags=(2, 9)), Field("of place", 5, of="place", tags=(1, 2)), Field("counted", 3, count=2, kind="value"),
    Field("scaler", 5, places=(1, 1), kind="counter"),
]


def events_at_random(chance, count):
    rising = 0
    for number in range(1, count + 1):
        gl = chance.choice((3, 3, 5, 7))
        rising += chance.randrange(3)
        words = tuple(rising if at == 0 and gl == 5 else chance.randrange(1 << chance.choice((4, 12, 16, 24))) for at in range(chance.choice((0, 1, 2, 4, 8))))
        yield Event(number, gl, chance.randrange(25), 0, words)


def all_of(run):
    """All that a run has, as lists and numbers."""
    spectrum = lambda it: (it.count, it.total, it.squares, it.least, it.greatest, it.end, it.shift, it.overflow, dict(it.counts))
    series = lambda it: it and (it.per, it.columns, it.full, it.last)
    return (
        [list(it) for it in (run.gl, run.cycles, run.no_x, run.words)], {at: spectrum(it) for at, it in run.by_place.items()},
        {column: (spectrum(it.spectrum), series(it.series)) for column, it in run.channels.items()}, str(run.fault), run.checks,
        (pairs := run.channels.pairs) and (pairs.ends, pairs.shifts, dict(pairs.cells), pairs.count),
    )


@needed("python3-numpy")
class Arrays(Case):
    def read(self, data, long, piece=arrays.PIECE):
        (self.room / "events").write_bytes(data)
        names = Words(FIELDS)
        with mock.patch.multiple(arrays, LONG=long, PIECE=piece):
            return all_of(_read_event_file(self.room / "events", SERVICES, Asked(names, (Column(FIELDS[0]), Column(FIELDS[1])))))

    def test_same_numbers(self):
        """The same with pieces of every size, with a fault anywhere, and with a word that looks like a marker."""
        chance = random.Random(5)
        for number in range(40):
            events = list(events_at_random(chance, chance.choice((0, 1, 5, 300, 3000))))
            data = NEW_FILE + b"".join(map(record, events))
            if number % 3 == 1:
                at = chance.randrange(8, len(data) + 1)
                data = data[:at] + bytes([chance.randrange(256)]) + data[at + 1 :]
            elif number % 3 == 2:
                data = data[: chance.randrange(8, len(data) + 1)]
            with self.subTest(number=number):
                lists = self.read(data, 1 << 30)
                for piece in (20_000, 1 << 22):
                    self.assertEqual(self.read(data, 0, piece), lists)

    def test_tables(self):
        """The tables of comma-separated values, with long stretches of events of one kind and with short ones."""
        names, chance = Words([Field("a % 3", 3, places=(1, 1)), Field('x,%d "µ"', 3, places=(2, 3)), Field("c", 5, places=(1, 1), count=2)]), random.Random(3)
        events, kind = [], (3, 4)
        for number in range(1, 40_001):
            if chance.random() < 0.004 or 20_000 < number < 20_800:
                kind = chance.choice(((3, 4), (3, 0), (5, 2), (5, 1), (3, 1)))
            words = tuple(chance.randrange(1 << chance.choice((1, 4, 12, 24))) for _ in range(kind[1]))
            events.append(Event(number, kind[0], chance.randrange(200), 0, words))
        (self.room / "events").write_bytes(NEW_FILE + b"".join(map(record, events)))
        for sources, user in ((Words(), Words()), (names, Words()), (Words(), names)):
            tables = []
            for long in (0, 1 << 30):
                with mock.patch.multiple(arrays, LONG=long, PIECE=1 << 18):
                    tables.append([io.BytesIO(), io.BytesIO()])
                    write_events(arrays.event_pieces(self.room / "events"), Table(True, sources, user), *tables[-1])
            self.assertEqual(*([it.getvalue() for it in one] for one in tables))
            self.assertEqual([it.getvalue().count(b"\n") for it in tables[0]], [len(events) + 1, sum(len(it.words) for it in events) + 1])

    def test_arrays_are_used(self):
        """A long file without a fault is read in arrays alone."""
        (self.room / "events").write_bytes(NEW_FILE + b"".join(map(record, events_at_random(random.Random(1), 60_000))))
        pieces = [*arrays.event_pieces(self.room / "events")]
        self.assertEqual([type(it) for it in pieces[:-1]], [arrays.EventArrays] * (len(pieces) - 1))
        self.assertEqual((sum(len(it.gl) for it in pieces[:-1]), pieces[-1]), (60_000, []))
        (self.room / "events").write_bytes(NEW_FILE)
        self.assertEqual([*arrays.event_pieces(self.room / "events")], [[]])
        (self.room / "events").write_bytes(b"")
        with self.assertRaises(EventFileFault):
            [*arrays.event_pieces(self.room / "events")]


if __name__ == "__main__":
    run_tests()
