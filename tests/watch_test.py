#!/usr/bin/env python3
"""Tests of the page that follows an event file: what is counted of a file that grows, ends, is cut, is replaced or breaks; what the server answers,
and to whom; and the page in a browser.

usage: tests/watch_test.py [-v] [TEST ..]     from any folder; takes some seconds

Tests in Chromium are left out if it is not installed.
"""
import http.client
import json
import os
import random
import re
import signal
import shutil
import socket
import statistics
import subprocess
import sys
import threading
import time
import unittest.mock
import urllib.parse

from support.live import PROGRAM, TOP, Case, run_tests
from support import laboratory
import camac
import camac.mock
from support import two_crates
from support.browser import CHROMIUM, Browser
from support.needs import needed
from camac.follow import read_alarm, sounding
from camac.events import NEW_FILE, Event, record
from camac.export import Given
from camac.follow import Counts, Follower
from camac.printed import read_services
from camac.record import Recording
from camac.runs import Asked
from camac.watch import RunList, Server, Watch

SERVICES = read_services(two_crates.VERDICT)


def events(count, first=1):
    """Events of the bench: each fifth is a tick with its rates, the others an adc with packed words."""
    made = []
    for number in range(first, first + count):
        if number % 5:
            made.append(Event(number, 3, 20 + number % 7, number % 2, tuple(channel << 16 | 300 + channel for channel in range(number % 4)) + (9,)))
        else:
            made.append(Event(number, 5, 14, 0, tuple(1000 * at + number for at in range(12))))
    return made


class Clock:
    """A clock that is set by hand."""

    def __init__(self):
        self.now = 100.0

    def __call__(self):
        return self.now


class Following(Case):
    """A file that is followed, step by step."""

    def setUp(self):
        super().setUp()
        self.file, self.clock = self.room / "run.events", Clock()
        self.follower = Follower(self.file, lambda: Counts(SERVICES, Asked(two_crates.WORDS)), self.clock)

    def add(self, data):
        with open(self.file, "ab") as out:
            out.write(data)

    def poll(self, later=1.0):
        self.clock.now += later
        while self.follower.poll():
            pass
        return self.follower.counts.events

    def check(self, wanted):
        """What is counted is what is in these events."""
        counts = self.follower.counts
        self.assertEqual(counts.events, len(wanted))
        for gl, bit in counts.bits.items():
            mine = [it for it in wanted if it.gl == gl]
            self.assertEqual((bit.count, bit.missed), (len(mine), sum(it.missed for it in mine)))
            self.assertEqual((bit.cycles.count, bit.cycles.total), (len(mine), sum(it.cycles for it in mine)))
        words = [word for it in wanted if it.gl == 3 for word in it.words]
        channels = {it.column.name: it.spectrum for it in counts.list_channels()}
        for channel in (1, 2):
            heights = [word & 0xFFF for word in words if word >> 16 == channel]
            if heights:
                found = channels[f"pulse height[{channel}]"]
                self.assertEqual((found.count, found.total, sum(found.counts.values())), (len(heights), sum(heights), len(heights)))
        rates = [it.words[2] for it in wanted if it.gl == 5]
        if rates:
            self.assertEqual((channels["rate[3]"].count, channels["rate[3]"].total), (len(rates), sum(rates)))
        self.assertEqual(list(counts.last), wanted[-12:])

    def test_growth_by_any_piece(self):
        """Whatever pieces a file grows by, only whole records are taken."""
        written = events(60)
        data = NEW_FILE + b"".join(map(record, written))
        ends = [8 + sum(len(record(it)) for it in written[:at]) for at in range(61)]
        self.assertEqual((self.poll(), self.follower.state.text), (0, f"No such file or directory: {self.file}"))
        for at in range(0, len(data), 7):
            self.add(data[at : at + 7])
            there = min(at + 7, len(data))
            self.assertEqual(self.poll(0.1), max((k for k, end in enumerate(ends) if end <= there), default=0))
        self.check(written)
        self.assertEqual((self.follower.state.text, self.follower.state.is_bad, self.follower.restarts), ("follows", False, []))

    def test_rate_and_age(self):
        """What was there before the first look is no rate."""
        self.add(NEW_FILE + b"".join(map(record, events(100))))
        os.utime(self.file, (time.time() - 50, time.time() - 50))
        self.poll()
        self.assertEqual(self.follower.rate(), 0.0)
        self.assertAlmostEqual(self.follower.age(), 50, delta=2)
        for at in range(20):
            self.add(b"".join(map(record, events(30, 101 + 30 * at))))
            self.poll()
        self.assertAlmostEqual(self.follower.rate(), 30.0)
        self.assertEqual({rate for _, rate in self.follower.rates(600)}, {30.0})
        self.assertAlmostEqual(self.follower.rate(3), 24.0)
        self.assertEqual(self.follower.age(), 0.0)
        self.poll(7.0)
        self.assertEqual(self.follower.age(), 7.0)
        self.poll(30.0)
        self.poll(1.0)
        self.assertEqual(self.follower.rate(), 0.0)

    def test_history(self):
        """Moments of a long run are kept the coarser the older they are, and their rates are those of the run."""
        self.add(NEW_FILE)
        self.poll()
        for at in range(12_000):
            self.follower.counts.events += 3
            self.clock.now += 1.0
            self.follower.mark(True)
        marks = self.follower.marks
        self.assertEqual((marks[0].events, marks[-1].events), (0, 36_000))
        self.assertLess(len(marks), 2500)
        for one, other in zip(marks[:-256], marks[1:]):
            self.assertLessEqual(other.time - one.time, max(1.0, (marks[-1].time - one.time) / 300 + 1))
        for span in (600, 12_000):
            rates = self.follower.rates(span)
            self.assertEqual({rate for _, rate in rates}, {3.0})
            self.assertTrue(200 < len(rates) <= 301 and rates[0][0] > 0.97 * span and rates[-1][0] < span / 90, (span, len(rates), rates[0], rates[-1]))

    def test_a_part_of_the_run(self):
        """What follows from a moment on counts the events behind it."""
        written = events(500)
        self.add(NEW_FILE + b"".join(map(record, written[:100])))
        self.poll()
        for at in range(100, 500, 40):
            self.add(b"".join(map(record, written[at : at + 40])))
            self.poll(3.0)
        for mark, first in ((self.follower.before(seconds=7), 380), (self.follower.before(events=100), 380), (self.follower.before(events=9999), 100)):
            part = self.follower.since(mark, self.follower.make_counts)
            while part.poll():
                pass
            self.assertEqual((mark.events, part.counts.events, part.counts.fit.count), (first, 500, 500 - first))
            for gl, bit in part.counts.bits.items():
                self.assertEqual((bit.count, bit.missed), (sum(it.gl == gl for it in written[first:]), sum(it.missed for it in written[first:] if it.gl == gl)))

    def test_alarms(self):
        alarms = [*map(read_alarm, ("silence=30", "x0=4", "plan=3", "rate=2", "rate:tick=1", "rate:nobody=1"))]
        sounds = lambda *contradictions: [it.partition("=")[0] for it in sounding(alarms, self.follower, SERVICES, contradictions)]
        self.add(NEW_FILE)
        self.poll()
        self.assertEqual(sounds(), ["rate:nobody"])
        seen = [camac.Contradiction("GL 9", "demand", it) for it in (3, 1)]
        self.assertEqual([sounds(*seen[:1]), sounds(*seen)], [["rate:nobody"], ["plan", "rate:nobody"]])
        self.poll(11.0)
        self.assertEqual(sounds(), ["rate", "rate:tick", "rate:nobody"])
        for at in range(11):
            self.add(b"".join(map(record, events(10, 1 + 10 * at))))
            self.poll()
        self.assertEqual(sounds(), ["x0", "rate:nobody"])
        self.clock.now += 29
        self.assertEqual(sounds(), ["x0", "rate:nobody"])
        self.poll(1)
        self.assertEqual(sounds(), ["silence", "rate", "rate:tick", "rate:nobody"])
        for wrong in ("silence", "silence=", "silence=-1", "x0=a", "rate<5", "rate:=5", "silence=1e3", "noise=4"):
            with self.assertRaises(ValueError):
                read_alarm(wrong)

    def test_cut(self):
        written = events(40)
        self.add(NEW_FILE + b"".join(map(record, written)))
        self.poll()
        size = 8 + sum(len(record(it)) for it in written[:10])
        os.truncate(self.file, size)
        self.assertEqual(self.poll(), 10)
        self.check(written[:10])
        self.assertRegex(self.follower.restarts[0], r"^\d\d:\d\d:\d\d: the file was cut; counted again from its beginning$")

    def test_replaced(self):
        """Another file in its place; one that was written over in its place; one that is gone and comes back."""
        self.add(NEW_FILE + b"".join(map(record, events(40))))
        self.poll()
        other = self.write("other", "")
        other.write_bytes(NEW_FILE + b"".join(map(record, events(50))))
        os.replace(other, self.file)
        self.assertEqual(self.poll(), 50)
        self.assertIn("another file has taken the place", self.follower.restarts[0])
        written = [it._replace(cycles=it.cycles + 1) for it in events(60)]
        with open(self.file, "r+b") as out:
            out.write(NEW_FILE + b"".join(map(record, written)))
        self.poll()
        self.check(written)
        self.assertIn("written over", self.follower.restarts[1])
        self.file.unlink()
        self.assertEqual(self.poll(), 60)
        self.assertTrue(self.follower.state.is_bad)
        self.add(NEW_FILE + b"".join(map(record, events(3))))
        self.assertEqual(self.poll(), 3)

    def test_wrong_field(self):
        """The events before a fault stay, and the fault is reported, until another file comes."""
        written = events(20)
        place = 8 + sum(map(len, map(record, written)))
        self.add(NEW_FILE + b"".join(map(record, written)) + b"\xca\x4e" + bytes(14))
        for _ in range(2):
            self.poll()
            self.check(written)
            self.assertEqual(self.follower.state, (f"refused V2 byte {place}: marker; the events before it are shown", True))
        self.file.write_bytes(b"no event file at all")
        self.poll()
        self.assertEqual(self.follower.state, ("refused V1 byte 0: header; the events before it are shown", True))
        self.file.write_bytes(NEW_FILE)
        self.poll()
        self.assertEqual(self.follower.state, ("follows", False))

    def test_wrong_bytes_and_then_the_right_ones(self):
        """A copy that writes into the file itself, holes first: all is shown once it is right, even where its time and its length are the same."""
        written = events(60)
        data = NEW_FILE + b"".join(map(record, written))
        for hole in (0, 8, 1000, len(data) - 200):
            self.setUp()
            self.add(data[:hole] + b"\xff" * 200 + data[hole + 200 :])
            self.poll()
            self.assertTrue(self.follower.state.is_bad)
            self.assertIn("refused V", self.follower.state.text)
            before = self.file.stat()
            with open(self.file, "r+b") as out:
                out.write(data)
            os.utime(self.file, ns=(before.st_atime_ns, before.st_mtime_ns))
            self.poll()
            self.check(written)
            self.assertEqual((self.follower.state, self.follower.restarts), (("follows", False), []))

    def test_a_wrong_end_that_is_cut_off(self):
        written = events(20)
        data = NEW_FILE + b"".join(map(record, written))
        self.add(data + bytes(16))
        self.poll()
        self.assertTrue(self.follower.state.is_bad)
        os.truncate(self.file, len(data))
        self.poll()
        self.check(written)
        self.assertEqual(self.follower.state, ("follows", False))

    def test_no_file(self):
        """A folder and a pipe are no files, and nothing is waited for."""
        for make in (os.mkdir, os.mkfifo):
            self.file = self.room / make.__name__
            make(self.file)
            self.follower = Follower(self.file, lambda: Counts(SERVICES, Asked(two_crates.WORDS)), self.clock)
            self.assertEqual((self.poll(), self.follower.state), (0, (f"this is no file: {self.file}", True)))

    def test_version_one_and_unknown_services(self):
        self.follower = Follower(self.file, lambda: Counts((), Asked()), self.clock)
        self.add(b"CAMACEV1" + bytes.fromhex("ca4d0003 00000001 0002 00000fff 00ffffff"))
        self.assertEqual(self.poll(), 1)
        bit = self.follower.counts.bits[3]
        self.assertEqual((bit.cycles.count, bit.words.total), (0, 2))


class ServedCase(laboratory.BenchCase):
    """A server of a file of the bench."""

    triggers = 60

    def setUp(self):
        super().setUp()
        shutil.copytree(self.shared_room, self.room, dirs_exist_ok=True)
        self.file = self.room / "live.events"

    def serve(self, shown):
        server = Server(shown, 0)
        self.addCleanup(server.server_close)
        threading.Thread(target=server.serve_forever, kwargs={"poll_interval": 0.05}, daemon=True).start()
        self.addCleanup(server.shutdown)
        return server

    def start(self, **given):
        watch = Watch(Given(self.file, **given))
        return watch, self.serve(watch)

    def ask(self, server, method="GET", path="/", host=None):
        connection = http.client.HTTPConnection("127.0.0.1", server.server_address[1], timeout=60)
        self.addCleanup(connection.close)
        connection.putrequest(method, path, skip_host=True)
        connection.putheader("Host", host or f"127.0.0.1:{server.server_address[1]}")
        connection.endheaders()
        answer = connection.getresponse()
        return answer.status, answer.read().decode(), answer.headers

    def write_words(self, numbers):
        """Events of the sample's converter, one word each."""
        self.file.write_bytes(NEW_FILE + b"".join(record(Event(at, 3, 2, 0, (word,))) for at, word in enumerate(numbers, 1)))

    def start_words(self, numbers):
        """A server that has read such events."""
        self.write_words(numbers)
        watch, server = self.start(plan="@sample", script=TOP / "examples/straight_line.script")
        while watch.poll():
            pass
        return watch, server

    def append(self, watch, *added):
        with open(self.file, "ab") as out:
            out.write(b"".join(map(record, added)))
        watch.poll()
        watch.drawn.clear()

    def bench_files(self):
        return {"plan": self.room / "bench.toml", "script": self.room / "bench.script"}


class Served(ServedCase):
    """What the server answers, and to whom."""

    def test_whom_it_answers(self):
        _, server = self.start()
        port = server.server_address[1]
        self.assertEqual(server.server_address[0], "127.0.0.1")
        for host in (f"127.0.0.1:{port}", f"localhost:{port}"):
            self.assertEqual(self.ask(server, host=host)[0], 200)
        for host in ("127.0.0.1", "localhost", f"evil.example:{port}", f"127.0.0.1:{port}.evil.example", f"127.0.0.1:{port + 1}", ""):
            self.assertEqual(self.ask(server, host=host or " ")[0], 403, host)
        for path in ("/x", "/state?a", "/state?low=x", "/state?low=-1", "/?of=x", "/../state", "/run.events", "/run.json/", "http://127.0.0.1/state"):
            self.assertEqual(self.ask(server, path=path)[0], 404, path)
        for method in ("POST", "PUT", "DELETE", "OPTIONS"):
            self.assertEqual(self.ask(server, method)[0], 501, method)
        status, _, headers = self.ask(server)
        self.assertEqual((headers["Cache-Control"], headers["X-Frame-Options"], headers["Server"]), ("no-store", "DENY", "camac "))

    def test_head(self):
        """The headers of the page, and no byte behind them."""
        _, server = self.start()
        size = len(self.ask(server)[1].encode())
        for path, host, wanted in (("/", "localhost", f"200 OK.*Content-Length: {size}"), ("/x", "localhost", "404 "), ("/", "evil", "403 ")):
            with socket.create_connection(server.server_address) as connection, connection.makefile("rb") as answer:
                connection.sendall(f"HEAD {path} HTTP/1.0\r\nHost: {host}:{server.server_address[1]}\r\n\r\n".encode())
                self.assertRegex(answer.read().decode(), rf"(?s)^HTTP/1.0 {wanted}.*Referrer-Policy: no-referrer\r\n\r\n$")

    def test_numbers(self):
        """The numbers of the page beside sums over `camac events`."""
        before = {it.name: (it.stat().st_mtime_ns, it.read_bytes()) for it in self.room.iterdir()}
        watch, server = self.start(**self.bench_files())
        watch.poll()
        parts = json.loads(self.ask(server, path="/state")[1])
        written = [it for it in camac.read_events(self.file)]
        tiles = dict(re.findall(r'<b class="(?:bad)?">([^<]*)</b><span>([^<]*)</span>', parts["tiles"]))
        tiles = {word: number for number, word in tiles.items()}
        self.assertEqual((tiles["events"], tiles["cycles with X = 0"]), (f"{len(written):,}", f"{sum(it.missed for it in written):,}"))
        rows = [re.findall(r"<td[^>]*>([^<]*)</td>", row) for row in re.findall(r"<tr><td.*?</tr>", parts["services"])]
        ends = {it.name: it.end for it in camac.response(*self.bench_files().values())}
        for row in rows:
            mine = [it for it in written if it.gl == int(row[1])]
            cycles, words = [it.cycles for it in mine], [len(it.words) for it in mine]
            wanted = [f"{len(mine):,}", f"{statistics.mean(cycles):,.1f}", str(max(cycles)), {"adc": "43", "tick": "26"}[row[0]]]
            wanted += [str(ends[row[0]]), f"{statistics.mean(words):,.1f}", str(max(words)), {"adc": "21", "tick": "12"}[row[0]], str(sum(it.missed for it in mine))]
            self.assertEqual(row[2:], wanted)
        counts = [list(map(int, it.split())) for it in re.findall(r'data-counts="([^"]*)"', parts["cycles"])]
        self.assertEqual(counts[0], [sum(it.gl == 3 and it.cycles == value for it in written) for value in range(44)])
        self.assertEqual(parts["last"].count("<tr><td"), 12)
        self.assertEqual({it.name: (it.stat().st_mtime_ns, it.read_bytes()) for it in self.room.iterdir()}, before, "nothing is written")

    def test_record(self):
        """Plan and script come from the record, also where it comes later; live and dead time are what it says."""
        self.file = self.room / "new.events"
        watch, server = self.start(record=self.room / "run.json")
        self.assertIn("No such file", self.state(watch, server)["notes"])
        camac.drive(*self.bench_files().values(), camac.mock.MockBranch({}, {}, [[]] * 3), self.file, record=Recording(self.room / "run.json", 7, "<b>Co</b>"))
        written = camac.read_record(self.room / "run.json")
        self.change(demands=3.0, services=1.0)
        parts = self.state(watch, server)
        self.assertIn('<b class="">75 %</b><span>live, measured', parts["tiles"])
        self.assertIn('<b class="">25 %</b><span>dead, measured', parts["tiles"])
        self.assertIn("tick", parts["services"])
        self.assertIn(f'<b class="good">{written.line}</b>', parts["notes"])
        self.assertIn("run 7 &lt;b&gt;Co&lt;/b&gt;", self.ask(server)[1])
        other = self.write("other.words", '[[word]]\nservice = "nobody"\nname = "x"\n')
        watch.given = watch.given._replace(words=other)
        self.change(script=written.script._replace(data=written.script.data + b"# another\n"))
        self.assertIn("the record: ", self.state(watch, server)["alarms"])
        watch.given = watch.given._replace(words=None)
        self.assertEqual(self.state(watch, server)["alarms"], "")
        self.change(script=written.script)
        self.change(end=None, how=None, line=None, demands=None, services=None)
        parts = self.state(watch, server)
        self.assertIn("run in progress since", parts["notes"])
        self.assertNotIn("measured", parts["tiles"])

    def test_a_record_that_is_refused_once(self):
        """It is read again until it is right, even where its time and its length are the same."""
        path, self.file = self.room / "run.json", self.room / "new.events"
        camac.drive(*self.bench_files().values(), camac.mock.MockBranch({}, {}, [[]]), self.file, record=path)
        right, times = path.read_bytes(), (path.stat().st_atime_ns, path.stat().st_mtime_ns)
        watch, server = self.start(record=path)
        for data in (b"", bytes(len(right)), right):
            with open(path, "r+b") as out:
                out.write(data)
                out.truncate()
            os.utime(path, ns=times)
            (self.assertNotIn if data == right else self.assertIn)("the record: ", self.state(watch, server)["alarms"])

    def test_a_part_of_a_spectrum(self):
        """Two lines 17 numbers apart, 8 wide at half of their height: each is measured where it is. Spectra of the last events have these alone."""
        source = random.Random(1)
        numbers = [int(source.gauss(source.choice((1173, 1190)), 8 / 2.3548) + 0.5) for _ in range(200_000)]
        watch, server = self.start_words(numbers)
        name = "ADC%20crate%201%20station%205%20A0"
        for low, last, centre in ((1160, 1181, 1173), (1182, 1203, 1190)):
            one = json.loads(self.ask(server, path=f"/state?of={name}&low={low}&last={last}")[1])["one"]
            counts = [numbers.count(it) for it in range(low, last + 1)]
            self.assertIn(f'data-first="{low}" data-width="1" data-counts="{" ".join(map(str, counts))}"', one)
            cells = re.findall(r"<td[^>]*>([^<]*)</td>", one)
            self.assertEqual(cells[1], f"{sum(counts):,}")
            self.assertAlmostEqual(float(cells[3].split()[0].replace(",", "")), centre, delta=0.3)
            self.assertAlmostEqual(float(cells[4].split()[0]), 8, delta=0.8)
        self.append(watch, *(Event(at, 3, 2, 0, (7,)) for at in range(200_001, 200_031)))
        for window, low, count in (("events=30", 7, 30), ("since=200000", 7, 30), ("events=30", 8, 0), ("since=900000", 0, 200_030), ("seconds=600", 0, 30)):
            one = json.loads(self.ask(server, path=f"/state?{window}&of={name}&low={low}")[1])["one"]
            self.assertEqual(re.findall(r"<td[^>]*>([^<]*)</td>", one)[1], f"{count:,}", window)

    def test_what_is_asked(self):
        """Gates, regions and a pair are those by hand, also of events that come later and of the last ones; what is no name is told."""
        source, name = random.Random(2), "ADC crate 1 station 5 A"
        numbers = [tuple(int(source.gauss(1000 + 50 * at, 40)) for at in range(12)) for _ in range(3000)]
        made = [record(Event(at, 3, 20, 0, words)) for at, words in enumerate(numbers, 1)]
        self.file.write_bytes(NEW_FILE + b"".join(made[:2000]))
        watch, server = self.start(plan="@sample", script=TOP / "examples/all_channels.script")
        quoted = urllib.parse.quote(name)
        asked = f"gate={quoted}1%20990..1060&gate={quoted}2%201090..1200&of={quoted}0&low=950&last=1050&up={quoted}1&region={quoted}3%201100..1200"
        ask = lambda query: self.state(watch, server, f"?{query}")
        windows = {"": 0, "since=2000&": 2000, "events=1000&": 2000}
        for window in windows:
            ask(window + asked)
        self.file.write_bytes(NEW_FILE + b"".join(made))
        for window, first in windows.items():
            parts = ask(window + asked)
            passed = [words for words in numbers[first:] if 990 <= words[1] <= 1060 and 1090 <= words[2] <= 1200]
            rows = [re.findall(r"<td[^>]*>([^<]*)</td>", row)[:2] for row in re.findall("<tr>(.*?)</tr>", parts["one"])[1:]]
            counts = [sum(low <= words[at] <= last for words in passed) for at, low, last in ((0, 950, 1050), (3, 1100, 1200))]
            self.assertEqual(rows, [[f"{name}0 950 to 1,050", f"{counts[0]:,}"], [f"{name}3 1,100 to 1,200", f"{counts[1]:,}"]])
            self.assertIn(f">{len(passed):,} events with both<", parts["one"])
            self.assertIn(f"of events with {name}1 from 990 to 1,060 and {name}2 from 1,090 to 1,200", parts["channels"])
            self.assertIn(f">{len(passed):,} words<", parts["channels"])
        self.assertIn("no word has the name 'x'", ask("gate=x%201..2")["one"])
        self.assertIn("a gate or a region is NAME LOW..HIGH", ask("region=x")["one"])

    def test_another_run(self):
        """Its line is multiplied for as many events, or for the same live time, and is of the same gates; what is wrong of it is told."""
        name, made = "ADC%20crate%201%20station%205%20A0", camac.record.describe(camac.record.Played("@sample", TOP / "examples/straight_line.script", None, PROGRAM))
        self.write_words([100] * 300 + [2000] * 100)
        other = self.file.rename(self.room / "other.events")
        watch, server = self.start_words([100] * 600)
        watch.over = other
        self.append(watch, *(Event(at, 3, 2, 0, (2000,)) for at in range(601, 801)))
        self.write("other.json", made._replace(demands=2.0).text())
        for query, live, line in (("", None, 600), ("&events=200", 8.0, 150), (f"&gate={name}%200..200", None, 600), ("", 8.0, 1200)):
            watch.record = made._replace(demands=live)
            parts = self.state(watch, server, f"?of={name}&low=100&last=103{query}")
            self.assertIn(f'data-line="{line} 0 0 0"', parts["one"])
            why = "the same live time (8.0 s, its own 2.0 s)" if line == 1200 else "as many events"
            self.assertIn(f"; the line: other.events, for {why}<", parts["channels"])
            self.assertEqual(parts["alarms"], "")
        other.write_bytes(NEW_FILE + record(Event(1, 7, 2, 0, (1,))))
        self.assertIn("other.events: events that this script can make, 0 of 1", self.state(watch, server)["alarms"])

    def test_folder(self):
        """The runs of a folder, each with its page."""
        for name, run in (("a", 7), ("b", 8)):
            branch = camac.mock.MockBranch({}, {}, [[]] * 3)
            camac.drive(*self.bench_files().values(), branch, self.room / f"{name} 1.events", record=Recording(self.room / f"{name} 1.json", run, "<b>Co</b>"))
        going = camac.read_record(self.room / "b 1.json")._replace(end=None, how=None, line=None).text()
        (self.room / "b 1.json").write_text(going)
        self.write("survey.json", "{}")
        runs = RunList(str(self.room), None, lambda given: Watch(given))
        server = self.serve(runs)
        self.addCleanup(runs.stop.set)
        self.assertIn('<ul id="runs">', self.ask(server)[1])
        shown = re.findall("<li>(.*?)</li>", json.loads(self.ask(server, path="/state")[1])["runs"])
        self.assertEqual([it.split(", begun")[0] for it in shown], [
            '<a href="b%201.json/">b 1.json</a>: <b class="good">goes on</b>, run 8, &lt;b&gt;Co&lt;/b&gt;',
            '<a href="a%201.json/">a 1.json</a>: <b class="good">ended events 0</b>, run 7, &lt;b&gt;Co&lt;/b&gt;',
        ])
        os.utime(self.room / "b 1.json", (time.time() - 600,) * 2)
        self.assertIn('<b class="bad">not told for 10 min</b>', json.loads(self.ask(server, path="/state")[1])["runs"])
        self.assertIn("<h1>a 1.events</h1>", self.ask(server, path="/a%201.json/")[1])
        self.assertIn("ended events 0", json.loads(self.ask(server, path="/a%201.json/state")[1])["notes"])
        for path in ("/c.json/", "/survey.json/", "/a%201.json", "/..%2Fa%201.json/", "/x/a%201.json/"):
            self.assertEqual(self.ask(server, path=path)[0], 404, path)

    def state(self, watch, server, query=""):
        watch.poll()
        watch.drawn.clear()
        return json.loads(self.ask(server, path=f"/state{query}")[1])

    def change(self, **values):
        path = self.room / "run.json"
        new = self.write("new.json", camac.read_record(path)._replace(**values).text())
        os.replace(new, path)

    def test_a_look_that_fails(self):
        """Whatever it is, it is shown until the next look."""
        watch, server = self.start()
        with unittest.mock.patch.object(watch.follower, "poll", side_effect=MemoryError):
            self.assertIn("the events: MemoryError()", self.state(watch, server)["alarms"])
        self.assertIn(">follows<", self.state(watch, server)["notes"])

    def test_files_that_can_be_read_once(self):
        os.mkfifo(self.room / "pipe")
        status, _, errors = self.package("watch", "run.events", "--words", "pipe")
        self.assertEqual((status, errors.splitlines()[-1].partition(": error: ")[2]), (2, "pipe is no file, and cannot be an input here: it is read more than once"))
        status, _, errors = self.package("watch", "run.events", "--record", "pipe")
        self.assertEqual((status, errors), (3, "camac: this is no file: pipe\n"))

    def test_command(self):
        command = [sys.executable, "-m", "camac", "watch", self.file, "--port", "0"]
        environment = {**os.environ, "PYTHONPATH": str(TOP / "python")}
        # A shell that runs this beside others has it ignore Ctrl-C.
        heeds = {"preexec_fn": lambda: signal.signal(signal.SIGINT, signal.SIG_DFL)}
        with subprocess.Popen(command, env=environment, stdout=subprocess.PIPE, stderr=subprocess.PIPE, text=True, **heeds) as started:
            try:
                address = started.stdout.readline()
                self.assertRegex(address, r"^http://127\.0\.0\.1:\d+/\n$")
                port = re.search(r":(\d+)/", address)[1]
                again = subprocess.run([*command[:-1], port], env=environment, capture_output=True, text=True, timeout=60)
                self.assertEqual((again.returncode, again.stdout), (3, ""))
                self.assertIn("in use", again.stderr)
            finally:
                started.send_signal(signal.SIGINT)
            self.assertEqual(started.wait(60), -signal.SIGINT)
            self.assertEqual((started.stdout.read(), started.stderr.read()), ("", ""))
        for words in (["--port", "99999"], ["--plan", "x"], ["--alarm", "noise=3"], [self.room, "--record", "x"]):
            done = subprocess.run([*command[: 4 - (words[0] == self.room)], *words], env=environment, capture_output=True, text=True, timeout=60)
            self.assertEqual((done.returncode, done.stdout), (2, ""), words)


@needed("chromium", is_here=CHROMIUM)
class InChromium(ServedCase):
    """The page in a browser, with names that would do harm."""

    HARM = '</script><img src=x onerror="document.title=1"> \u2028 \U0001f4a5 "\' &'

    def until(self, browser, expression, wanted):
        end = time.monotonic() + 60
        while browser.ask(expression) != wanted:
            self.assertLess(time.monotonic(), end, (expression, browser.ask(expression)))
            time.sleep(0.2)

    def test_page(self):
        words = self.write("words.toml", "")
        name = self.HARM.replace("\\", "").replace('"', '\\"')
        words.write_text(f'[[word]]\nservice = "tick"\nname = "{name}"\nunit = "{name}"\nplace = 1\n', encoding="utf-8")
        self.file = self.file.rename(self.room / "<script>.events")
        watch, server = self.start(words=words, **self.bench_files())
        watch.poll()
        there = watch.follower.counts.events
        shown = "(it=>it&&+it.textContent.replace(/,/g,''))(document.querySelector('.tile b'))"
        with Browser() as browser:
            browser.said = []
            browser.call("Page.navigate", url=server.address())
            self.until(browser, shown, there)
            self.append(watch, Event(there + 1, 3, 20, 1, (9,)))
            self.until(browser, shown, there + 1)
            self.assertEqual(browser.said, [])
            self.assertEqual(set(browser.asked), {server.address(), f"{server.address()}state"})
            self.assertEqual(browser.ask("document.querySelectorAll('[role=alert]').length"), 2)
            self.assertIsNone(browser.ask("document.querySelector('img,main script,svg script')"))
            self.assertEqual(browser.ask("document.title"), "<script>.events: live")
            self.assertIn(self.HARM[:20], browser.ask("document.getElementById('channels').textContent"))
            self.assertTrue(browser.ask("document.getElementById('lost').hidden"))
            server.shutdown()
            server.server_close()
            self.until(browser, "document.getElementById('lost').hidden", False)

    def test_a_part_of_a_spectrum(self):
        """By the mouse, by a finger, and by the keyboard."""
        watch, server = self.start_words([100 + at % 9 for at in range(3000)])
        fields = "[look.elements.of.value,look.elements.low.value,look.elements.last.value,look.elements.window.value].join('|')"
        rect = "document.querySelector('#{} rect[data-counts]')"
        with Browser() as browser:
            browser.said = []
            browser.call("Page.navigate", url=server.address())
            self.until(browser, "document.querySelectorAll('#channels rect[data-counts]').length>0", True)
            name = browser.ask("document.querySelector('#channels rect[data-counts]').closest('svg').getAttribute('aria-label')")
            browser.drag(rect.format("channels"), 0.5, 0.5)
            self.until(browser, "document.querySelectorAll('#one rect[data-counts]').length", 1)
            self.assertEqual(browser.ask(fields), f"{name}|||")
            end = browser.ask("(d=>d.counts.split(' ').length*d.width)(document.querySelector('#one rect[data-counts]').dataset)")
            for is_touch in (False, True):
                browser.drag(rect.format("one"), 0.25, 0.5, is_touch)
                low, last = map(int, browser.ask(fields).split("|")[1:3])
                self.assertTrue(abs(low - end / 4) < end / 200 and abs(last - end / 2) < end / 200, (low, last, end))
                self.until(browser, f"{rect.format('one')}?.dataset.first", str(low))
                browser.ask("document.getElementById('add-gate').focus()")
                browser.key("Enter")
                self.until(browser, f"document.getElementById('channels').textContent.includes('of events with {name} from {low:,} to {last:,}')", True)
                self.assertEqual(browser.ask("look.elements.gate.value"), f"{name} {low}..{last}")
                browser.ask("look.elements.gate.value='';document.getElementById('whole').focus()")
                browser.key("Enter")
                self.until(browser, f"{rect.format('one')}?.dataset.first", "0")
                self.assertEqual(browser.ask(fields), f"{name}|||")
            self.keys(browser, watch, name, fields)
            for element, key, wanted in (("clear", " ", f"{name}|||since={watch.follower.counts.events}"), ("sound", " ", None), ("sound", " ", None)):
                browser.ask(f"document.getElementById('{element}').focus()")
                before = browser.ask("document.getElementById('sound').ariaPressed")
                browser.key(key)
                if wanted:
                    self.assertEqual(browser.ask(fields), wanted)
                else:
                    self.assertNotEqual(browser.ask("document.getElementById('sound').ariaPressed"), before)
            self.until(browser, "document.getElementById('channels').textContent.startsWith('0 events')", True)
            self.assertEqual(browser.said, [])

    def keys(self, browser, watch, name, fields):
        """Arrow keys read a spectrum, also while new events come, and cut out a part of it."""
        tip = "document.getElementById('tip').textContent"
        browser.ask("look.elements.of.value='';ask();document.querySelector('#channels svg[tabindex]').focus()")
        browser.key("End", "Home", *["ArrowRight"] * 3)
        self.assertEqual(browser.ask(tip), "96 to 127: 3,000")
        self.append(watch, Event(3001, 3, 2, 0, (96,)))
        self.until(browser, tip, "96 to 127: 3,001")
        browser.key("Enter")
        self.until(browser, "document.querySelector('#one svg[tabindex]')?.focus(),look.elements.of.value+'|'+" + tip, f"{name}|0 to 7: 0")
        browser.key("PageDown", "ArrowRight", "ArrowRight")
        browser.key("ArrowRight", "Enter", shift=True)
        self.assertEqual(browser.ask(fields), f"{name}|96|111|")
        self.until(browser, tip, "96: 1")
        browser.ask("document.getElementById('whole').click()")

    def test_narrow(self):
        watch, server = self.start(**self.bench_files())
        watch.poll()
        with Browser() as browser:
            browser.call("Emulation.setDeviceMetricsOverride", width=400, height=800, deviceScaleFactor=1, mobile=False)
            browser.call("Page.navigate", url=server.address())
            self.until(browser, "document.querySelectorAll('#channels svg').length>0", True)
            self.assertEqual(browser.ask("document.documentElement.scrollWidth"), 400)
            cut = "Array.from(document.querySelectorAll('.panels svg')).filter(it=>it.getBoundingClientRect().right>400).length"
            self.assertEqual(browser.ask(cut), 0)


if __name__ == "__main__":
    run_tests()
