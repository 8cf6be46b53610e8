#!/usr/bin/env python3
"""What words of events mean: a file of the user's, the names that a script gives, and the export of events as columns.

usage: tests/words_test.py [-v] [TEST ..]     from any folder, over a built program; takes some seconds

Tests with numpy or h5py are left out if these are not installed (Debian's packages python3-numpy and python3-h5py).
"""
import collections
import csv
import io
import json
import math
import os
import random
import re
import subprocess
import sys
import tomllib
import unittest
import unittest.mock

from support.live import PROGRAM, Case, command, script
from support.needs import has, needed

import camac
from camac.__main__ import main
from camac.events import NEW_FILE, record
from camac.export import Given
from camac.pictures.regions import measure
from camac.watch import Watch
from camac.word_file import parse_words

try:
    import numpy
except ImportError:
    numpy = None
try:
    import h5py
except ImportError:
    h5py = None

SERVICES = [camac.Service("adc", 3, 9, 9, 40, 40, 9), camac.Service("tick", 5, 9, 9, 12, 12, 9)]
HOSTILE = ['<script>alert("1")</script>', "µ" * 32, 'a,"b"', "a\nb", "../../x", "word", "\u202egnal"]
PACKED = """
[[word]]
service = "adc"         # the channel stands above the charge
name = "channel"
bits = "16..19"

[[word]]
service = "adc"
name = "charge"
bits = "0..11"
of = "channel"
tag = "0..11"
unit = "pC"
scale = 0.25
offset = -10

[[word]]
service = "tick"
name = "count"
place = "2..4"
of = "place"

[[word]]
gl = 5
name = "flag"
bits = 3
place = 1
"""


def events_of(*words, seed=1):
    """Events of the services adc and tick by turns: so many words each."""
    one = random.Random(seed)
    return [camac.Event(at, 3 if at % 2 else 5, 7, at % 3, tuple(one.randrange(1 << 20) for _ in range(many))) for at, many in enumerate(words, 1)]


def text_of(events):
    return NEW_FILE + b"".join(map(record, events))


class OfFile(Case):
    def read(self, text):
        return parse_words(text.encode(), "words.toml", SERVICES)

    def test_columns_and_values(self):
        words = self.read(PACKED)
        self.assertEqual([it.name for it in words.columns(3)], ["channel", *(f"charge[{it}]" for it in range(12))])
        self.assertEqual([(it.name, it.unit) for it in words.columns(5)], [("count[2]", ""), ("count[3]", ""), ("count[4]", ""), ("flag", "")])
        self.assertEqual(words.columns(7), ())
        self.assertEqual((words.columns(3)[1].unit, words.columns(3)[1].greatest, words.columns(3)[1].value(100)), ("pC", 4095, 15.0))
        for event in events_of(40, 12, 0, 3, 1, 0, 7):
            wanted = []
            for place, word in enumerate(event.words, 1):
                channel, charge = word // 65536 % 16, word % 4096
                if event.gl == 3:
                    wanted += [("channel", place, channel)] + [(f"charge[{channel}]", place, charge)] * (channel < 12)
                elif place == 1:
                    wanted.append(("flag", 1, word // 8 % 2))
                elif place <= 4:
                    wanted.append((f"count[{place}]", place, word))
            self.assertEqual([(it.column.name, it.place, it.number) for it in words.values(event)], wanted)

    def test_names_are_kept_as_text(self):
        text = "".join(f'[[word]]\nservice = "adc"\nname = {json.dumps(it, ensure_ascii=False)}\nplace = {at}\n' for at, it in enumerate(HOSTILE, 1))
        self.assertEqual([it.name for it in self.read(text).columns(3)], HOSTILE)

    def test_values_are_those_of_toml(self):
        for value in ('"a # b"', "'a\\b'  # c", r'"\u00b5 \U0001f600 \t \" \\"', '""', '"é"'):
            text = f"[[word]]\r\ngl=1\nname = 'x'\n\tunit={value}"
            self.assertEqual(self.read(text).fields[0].unit, tomllib.loads(text)["word"][0]["unit"], value)
        for value in ("+1_000", "-3.5", "1e3", "0.25", "6.02_1e+2", "-7"):
            text = f"[[ word ]]\ngl=1\nname = 'x'\nscale={value}"
            self.assertEqual(self.read(text).fields[0].scale, tomllib.loads(text)["word"][0]["scale"], value)

    def test_what_a_number_is(self):
        """By the register that the script reads there, and by `as`; never by the numbers."""
        register = lambda place, bits, kind="spectrum": camac.Field(f"r{place}", 3, bits=(0, bits - 1), places=(place, place), kind=kind)
        sources = camac.Words([register(1, 16), register(2, 12), register(3, 24, "value"), camac.Field("line 4: v", 3, places=(4, 4), is_expression=True)])
        for keys, bits, kind in (
            ("place = 1", 16, "spectrum"), ("place = '1..2'", 16, "spectrum"), ("place = 3", 24, "value"), ("place = 4", 24, "spectrum"),
            ("place = '3..4'", 24, "spectrum"), ("place = 3\nbits = '0..11'", 12, "spectrum"), ("place = 1\nas = 'value'", 16, "value"),
            ("place = 3\nas = 'counter'", 24, "counter"), ("place = 3\nas = 'spectrum'", 24, "spectrum"), ("place = 5", 24, "spectrum"), ("", 24, "spectrum"),
            ("place = '1..3'\nof = 'place'", 24, "value"),
        ):
            field = parse_words(f"[[word]]\ngl = 3\nname = 'x'\n{keys}".encode(), "words.toml", SERVICES, sources).fields[0]
            self.assertEqual((field.bits, field.kind), ((0, bits - 1), kind), keys)

    def test_other_forms_of_toml(self):
        forms = ('word = [ { gl = 3, name = "x", unit = "V" } ]', '[[word]]\ngl = 3\nname = """x"""\nunit = "V"', '[[word]]\n"gl" = 3\nname = "x"\nunit = """\nV"""')
        for text in forms:
            self.assertEqual([(it.name, it.unit) for it in self.read(text).fields], [("x", "V")], tomllib.loads(text))
        for line, text, told in (
            (3, "# mine\n\n[[word]]\ngl = 3\nname = \"\"\"x\"\"\"\nscale = [ 1 ]", "`scale` is a number"),
            (1, "word = [ { gl = true, name = 'x' } ]", "`gl` is a number"),
            (3, "[[word]]\ngl = 3\nname = \"\"\"x\"", "expected a string"),
            (1, "[other]\n[[word]]\ngl = 3\nname = 'x'", "expected `[[word]]`"),
        ):
            with self.assertRaisesRegex(camac.WordsFault, f"words.toml:{line}: {re.escape(told)}", msg=text):
                self.read(text)

    def test_faults_name_file_and_line(self):
        head = "[[word]]\nservice = 'adc'\n"
        for line, wrong, told in (
            (1, "name = 'x'", "`[[word]]` has to stand before"),
            (1, "[word]", "expected `[[word]]`"),
            (1, "[[word]]\nname = 'x'", "`service` is missing"),
            (2, "[[word]]\nservice = 'trig'\nname = 'x'", "there is no service `trig`, but adc, tick"),
            (1, head, "`name` is missing"),
            (3, head + "name = ''", "`name` is missing"),
            (3, head + "name = 3", "`name` is a string"),
            (3, head + "name = x", "expected a string of one line"),
            (3, head + 'name = "x', "expected a string of one line"),
            (3, head + 'name = "\\x41"', "this escape is none of TOML"),
            (3, head + 'name = "\\ud800"', "this escape is none of TOML"),
            (3, head + 'name = "\\u0000"', "no NUL"),
            (3, head + "name = '" + "x" * 65 + "'", "at most 64 characters"),
            (4, head + "name = 'x'\nname = 'y'", "`name` is there twice"),
            (4, head + "name = 'x'\nbits = '16..24'", "`bits` is a number from 0 to 23"),
            (4, head + "name = 'x'\nbits = '9..8'", "`bits` is a number from 0 to 23"),
            (4, head + "name = 'x'\nplace = 41", "`place` is a number from 1 to 40"),
            (4, head + "name = 'x'\nplace = 1.0", "`place` is a number from 1 to 40"),
            (4, head + "name = 'x'\nscale = 0", "`scale` is a number, and not 0"),
            (4, head + "name = 'x'\nscale = 1e999", "`scale` is a number, and not 0"),
            (4, head + "name = 'x'\ncolour = 'red'", "`colour` is no key"),
            (4, head + "name = 'x'\nas = 'scaler'", "`as` is spectrum, value or counter"),
            (4, head + "name = 'x'\nof = 'y'", "is named `y`"),
            (4, head + "name = 'x'\ntag = 3", "`of` is missing"),
            (4, head + "name = 'x'\nof = 'place'", "write `place`"),
            (4, head + "name = 'x'\ngl = 3", "either `service` or `gl`"),
            (3, head + "name = 'place'", "choose another name"),
            (5, "[[word]]\ngl = 3\nname = 'x'\n\n[[word]]\ngl = 3\nname = 'x'", "is in line 1 for the same words"),
            (8, "[[word]]\ngl = 3\nname = 'x'\nunit='V'\n[[word]]\ngl = 5\nname = 'x'\nunit='mV'", "another unit in line 1"),
            (10, "[[word]]\ngl = 3\nname = 'c'\nbits = 8\nplace = 1\n[[word]]\ngl = 3\nname = 'x'\nof = 'c'\nplace = 2", "`c` does not stand"),
            (2, "# \xb5\n\xff", "this is no UTF-8"),
            (2, "\n#\x01", "a control character"),
        ):
            with self.assertRaises(camac.WordsFault, msg=wrong) as caught:
                parse_words(wrong.encode("latin-1" if "\xff" in wrong else "utf-8").replace(b"\xb5", b"\xc2\xb5"), "words.toml", SERVICES)
            self.assertTrue(str(caught.exception).startswith(f"words.toml:{line}: "), (wrong, str(caught.exception)))
            self.assertIn(told, str(caught.exception))
        with self.assertRaisesRegex(camac.WordsFault, "a bit may stand here, as `gl = 3`"):
            parse_words(b"[[word]]\nservice = 'adc'\nname = 'x'", "words.toml")


class Told:
    """A branch whose words say where they were read: crate, station and sub-address in a byte each. Sub-addresses from `ends` on answer Q = 0."""

    def __init__(self, gl, count, ends):
        self.gl, self.count, self.ends = gl, count, ends

    def demand(self):
        self.count -= 1
        return camac.Answer(gl=self.gl) if self.count >= 0 else None

    def cycle(self, c, n, a, f, data):
        return camac.Answer(x=1, q=int(a < self.ends), word=c << 16 | n << 8 | a)

    def lock(self, c):
        return camac.Answer()

    def unlock(self, c):
        pass


PLAN = """\
[[type]]
name = "ADC"
commands = [ { f = 0, a = 0, to = 11, width = 24 }, { f = 0, a = 12, to = 15, probe = true }, { f = 10, a = 0 } ]
[[crate]]
number = 2
[[crate.station]]
n = 3
type = "ADC"
gl = 1
[[crate.station]]
n = 4
type = "ADC"
"""


class OfScript(Case):
    """Names that a script gives: each word of a run says where it was read, and so has to say its name."""

    def told(self, body, ends=12):
        text = "proc one(n in 3..4, a in 0..11) within 100 cycles event 1 words steps 999 { cdreg r 1 2 n a  cfsa 0 r -> a  put a }\n"
        text = "cdlam adc 1 2 3 0\nvar v k i t\n" + text + "service adc within 200 cycles event 100 words {\n" + "\n".join(body) + "\n}\n"
        plan, file, events = self.write("plan.toml", PLAN), self.write("a.script", text), self.room / f"{ends}.events"
        services = camac.check(plan, file, PROGRAM)
        words = camac.words_of_script(camac.plan(plan, PROGRAM), file, services)
        events.unlink(missing_ok=True)
        camac.drive(plan, file, Told(1, 2, ends), events, program=PROGRAM, timeout=60)
        for event in camac.read_events(events):
            for column, place, number in words.values(event):
                if column.name.startswith("ADC"):
                    word = event.words[place - 1]
                    self.assertTrue(column.name.startswith(f"ADC crate {word >> 16} station {word >> 8 & 255} A{word & 255}"), (column.name, hex(word)))
                    self.assertEqual(number, word)
        return [(it.name, it.field.places) for it in words.columns(1)], [len(it.words) for it in camac.read_events(events)]

    def names(self, *body, ends=12):
        found, counts = self.told(body, ends)
        return [f"{name.replace('ADC crate 2 station ', '')} @{first}" + (f"..{last}" if last > first else "") for name, (first, last) in found], counts

    def test_places_that_are_fixed(self):
        two = ["for i = 3 to 4 { cdreg r 1 2 i i  cfsa 0 r -> v  put v }", "call one(4, 7)"]
        self.assertEqual(self.names(*two), (["3 A3 @1", "4 A4 @2", "4 A7 @3"], [3, 3]))
        thrice = ["cdreg r 1 2 3 5", "cfsa 0 r -> v", "put v", "put v / 2 # x", "put v"]
        self.assertEqual(self.names(*thrice)[0], ["3 A5, place 1 @1", "line 8: v / 2 @2", "3 A5, place 3 @3"])

    def test_arms(self):
        alike = ["cdreg r 1 2 3 1", "cfsa 0 r -> v", "if v > 3 { put 1 } else { put 2 }", "cfsa 0 r -> k", "put k", "put v"]
        self.assertEqual(self.names(*alike)[0], ["3 A1, place 2 @2", "3 A1, place 3 @3"])
        self.assertEqual(self.names("cdreg r 1 2 3 1", "cfsa 0 r -> v", "put v", "if v > 3 { put 1 }", "put v")[0], ["3 A1 @1"])
        self.assertEqual(self.names("cdreg r 1 2 3 1", "if q { cdreg r 1 2 4 1 }", "cfsa 0 r -> v", "put v")[0], ["line 8: v @1"])

    def test_a_transfer_in_an_arm(self):
        some = ["cdreg r 1 2 3 1", "cfsa 0 r -> v", "put v", "if v > 3 { cfubc 0 r max 2 tally t } else { put 1  put 2 }", "put v"]
        self.assertEqual(self.names(*some)[0], ["3 A1 @1"])

    def test_loops_without_known_ends(self):
        polls = ["cdreg r 1 2 3 0", "cfsa 0 r -> v", "put v", "k = 3", "while k > 0 turns 3 by k { k = k - 1  cfsa 0 r -> t }"]
        self.assertEqual(self.names(*polls, "put v")[0], ["3 A0, place 1 @1", "3 A0, place 2 @2"])
        reads = ["cdreg r 1 2 3 0", "cdreg s 1 2 4 1", "cfsa 0 r -> v", "k = 3", "while k > 0 turns 3 by k keep v in 0..16777215 { k = k - 1  cfsa 0 s -> v }"]
        self.assertEqual(self.names(*reads, "put v")[0], ["line 10: v @1"])
        self.assertEqual(self.names("k = 3", "while k > 0 turns 3 by k { k = k - 1  put k }", "put k"), ([], [4, 4]))

    def test_transfers(self):
        scan = ["cdreg r 1 2 3 0", "cdreg s 1 2 4 11", "cfmad 0 r s max 24 tally t", "put t"]
        channels = [f"{n} A{a} @{12 * (n - 3) + a + 1}" for n in (3, 4) for a in range(12)]
        self.assertEqual(self.names(*scan), ([*channels, "line 8: t @25"], [25, 25]))
        self.assertEqual(self.names(*scan[:1], "cdreg s 1 2 3 11", "cfmad 0 r s max 8 tally t")[0], [f"3 A{a} @{a + 1}" for a in range(8)])
        # a scan that ends early has fewer words, which have no names
        self.assertEqual(self.names(*scan, ends=5)[1], [11, 11])
        self.assertEqual(self.names(*scan[:2], "cfmad 0 r s max 20 tally t", "put t")[0], ["line 8: t @21"])
        self.assertEqual(self.names("cdreg r 1 2 3 2", "cfubc 0 r max 5 tally t", "put t"), (["3 A2 @1..5", "line 7: t @6"], [6, 6]))
        self.assertEqual(self.names("cdreg r 1 2 3 2", "cfubr 0 r max 9 limit 4 tally t", "put t"), (["3 A2 @1..4", "line 7: t @5"], [5, 5]))


class Export(Case):
    """The export of events, beside sums that are made apart."""

    def setUp(self):
        super().setUp()
        self.events = events_of(40, 12, 0, 3, 5, 1)
        (self.room / "run.events").write_bytes(text_of(self.events))
        self.write("words.toml", PACKED.replace('service = "tick"', "gl = 5").replace('service = "adc"', "gl = 3"))

    def call(self, *words, without=(), status=0):
        """What the command says. Modules may be taken away."""
        self.addCleanup(os.chdir, os.getcwd())
        os.chdir(self.room)
        with unittest.mock.patch.dict(sys.modules, dict.fromkeys(without)):
            found, out, err = command("export", *words)
        self.assertEqual(found, status, out + err)
        return out + err

    def wanted(self):
        """The rows of words: event, gl, place, word, channel, charge, count, flag."""
        for event in self.events:
            for place, word in enumerate(event.words, 1):
                adc, channel = event.gl == 3, word // 65536 % 16
                charge = word % 4096 * 0.25 - 10 if adc and channel < 12 else None
                count = word if not adc and 2 <= place <= 4 else None
                yield event.number, event.gl, place, word, channel if adc else None, charge, count, word // 8 % 2 if not adc and place == 1 else None

    def rows(self, name):
        return [*csv.DictReader(io.StringIO((self.room / name).read_text(encoding="utf-8")))]

    def test_csv(self):
        for at, without in enumerate([("numpy",), ()] if numpy else [("numpy",)]):
            self.call("run.events", "-o", f"{at}.csv", "--words", "words.toml", without=without)
            events = self.rows(f"{at}.events.csv")
            found = [tuple(int(it[name]) for name in ("event", "gl", "cycles", "missed", "count")) for it in events]
            self.assertEqual(found, [(it.number, it.gl, it.cycles, it.missed, len(it.words)) for it in self.events])
            self.assertEqual([int(it["first"]) for it in events], [sum(len(it.words) for it in self.events[:k]) for k in range(len(events))])
            found = [tuple(None if not cell else float(cell) for cell in it.values()) for it in self.rows(f"{at}.words.csv")]
            self.assertEqual(found, [*self.wanted()])
            about = json.loads(self.file(f"{at}.about.json"))
            self.assertEqual((about["events"], about["words"]["text"]), ("run.events", (self.room / "words.toml").read_text()))
            self.assertEqual(about["units"], {"channel": "", "charge": "pC", "count": "", "flag": ""})
        if numpy:
            for name in ("events.csv", "words.csv", "about.json"):
                self.assertEqual(self.file(f"0.{name}"), self.file(f"1.{name}"))

    @needed("python3-numpy")
    def test_npz(self):
        self.call("run.events", "-o", "run.npz", "--words", "words.toml")
        with numpy.load(self.room / "run.npz") as found:
            self.compare(found)
            about = json.loads(str(found["about"]))
        self.assertEqual(about["columns"]["words/charge"], {"name": "charge", "unit": "pC", "meaning": "NaN: the word does not have it"})

    def compare(self, found):
        """Tests arrays by their names."""
        wanted = [*self.wanted()]
        names = ("event", "gl", "place", "word", "channel", "charge", "count", "flag")
        for at, name in enumerate(names):
            values = found[f"words/{name}"][:].tolist()
            missing = [it != it if name == "charge" else it == -1 for it in values]
            self.assertEqual([None if gone else it for it, gone in zip(values, missing)], [it[at] for it in wanted], name)
        self.assertEqual(found["events/cycles"][:].tolist(), [it.cycles for it in self.events])
        self.assertEqual(found["events/missed"][:].tolist(), [it.missed for it in self.events])
        self.assertEqual(found["events/count"][:].tolist(), [len(it.words) for it in self.events])

    @needed("python3-h5py")
    def test_hdf5(self):
        self.call("run.events", "-o", "run.h5", "--words", "words.toml")
        with h5py.File(self.room / "run.h5") as found:
            self.compare(found)
            self.assertEqual((found["words/charge"].attrs["unit"], found.attrs["words"]), ("pC", (self.room / "words.toml").read_text()))
        if has("hdf5-tools"):
            told = subprocess.run(["h5dump", "-d", "/words/word", "-y", "-w", "1", "run.h5"], cwd=self.room, capture_output=True, text=True, check=True).stdout
            numbers = told.partition("DATA {")[2].partition("}")[0].split(",")
            self.assertEqual([int(it) for it in numbers], [word for it in self.events for word in it.words])

    def test_script_and_record(self):
        """The record stands for plan and script; sources are named, and another plan is refused."""
        text = self.write("a.script", script(["for i = 0 to 3 {", "cdreg r 1 1 5 i", "cfsa 0 r -> v", "put v", "}"], 12, 4))
        (self.room / "run.events").unlink()
        branch = Told(4, 3, 12)
        os.environ["CAMAC_PROGRAM"] = PROGRAM
        camac.drive("@sample", text, branch, self.room / "run.events", record=camac.Recording(self.room / "run.json", 5, HOSTILE[0]))
        self.call("run.events", "-o", "a.csv", "--record", "run.json", without=["numpy"])
        self.call("run.events", "-o", "b.csv", "--plan", "@sample", "--script", "a.script", "--record", "run.json")
        rows = self.rows("a.words.csv")
        self.assertEqual([it["source"] for it in rows], [f"ADC crate 1 station 5 A{a}" for a in range(4)] * 3)
        self.assertEqual(self.file("a.words.csv"), self.file("b.words.csv"))
        about = json.loads(self.file("a.about.json"))
        self.assertEqual((about["services"], about["record"]["title"], about["script"]["text"]), ({"3": "adc"}, HOSTILE[0], text.read_text()))
        self.write("b.script", text.read_text() + "# changed\n")
        told = self.call("run.events", "-o", "c.csv", "--plan", "@sample", "--script", "b.script", "--record", "run.json", status=3)
        self.assertIn("b.script is not the one of the record", told)
        self.write("bad.script", "service")
        self.assertTrue(self.call("run.events", "-o", "c.csv", "--plan", "@sample", "--script", "bad.script", status=1).startswith("refused "))

    def test_events_of_another_script(self):
        """Of the six events five are told to be of another script: by their words, or by their bit. All are written."""
        text = self.write("a.script", script(["for i = 0 to 3 {", "cdreg r 1 1 5 i", "cfsa 0 r -> v", "put v", "}"], 12, 4))
        files = ["--plan", "@sample", "--script", "a.script"]
        os.environ["CAMAC_PROGRAM"] = PROGRAM
        told = "events that this script can make, 1 of 6: another script or plan made them; event 1 has 40 words, those of adc at most 4\n"
        for at, without in enumerate([["numpy"], []] if numpy else [["numpy"]]):
            self.assertEqual(self.call("run.events", "-o", f"{at}.csv", *files, without=without, status=1), told)
            self.assertEqual(len(self.rows(f"{at}.events.csv")), 6)
        out = self.room / "words.svg"
        with unittest.mock.patch("camac.commands.running.say") as said:
            self.assertEqual(main(["draw", "words", "@sample", str(text), "run.events", "-o", str(out)]), 1)
        self.assertEqual((said.call_args[0][0], out.exists()), (told, True))
        watch = Watch(Given("run.events", "@sample", "a.script"))
        while watch.poll():
            pass
        self.assertIn(told[:-1], watch.alarms())
        (self.room / "run.events").write_bytes(text_of([camac.Event(1, 3, 13, 0, ())]))
        self.assertIn("event 1 took 13 cycles, those of adc at most 12", self.call("run.events", "-o", "c.csv", *files, status=1))

    def test_the_record_beside_the_events(self):
        """It stands for plan and script, and tells if others are given."""
        text = self.write("a.script", script(["for i = 0 to 3 {", "cdreg r 1 1 5 i", "cfsa 0 r -> v", "put v", "}"], 12, 4))
        (self.room / "run.events").unlink()
        os.environ["CAMAC_PROGRAM"] = PROGRAM
        camac.drive("@sample", text, Told(4, 3, 12), self.room / "run.events", record=self.room / "run.json")
        self.call("run.events", "-o", "a.csv")
        self.assertEqual({it["source"] for it in self.rows("a.words.csv")}, {f"ADC crate 1 station 5 A{a}" for a in range(4)})
        self.write("b.script", text.read_text() + "# changed\n")
        self.call("run.events", "-o", "b.csv", "--plan", "@sample", "--script", "a.script")
        told = self.call("run.events", "-o", "c.csv", "--plan", "@sample", "--script", "b.script", status=1)
        self.assertIn("plan and script are those of the record beside the events; b.script is not the script", told)
        self.write("run.json", "{}")
        self.call("run.events", "-o", "d.csv", "--plan", "@sample", "--script", "b.script")

    def test_sources_of_scans(self):
        """Behind a scan they are named in whole events alone, with numpy as without it."""
        text = self.write("a.script", script(["cdreg r 1 1 5 0", "cfsa 0 r -> v", "put v", "cdreg s 1 1 5 11", "cfmad 0 r s max 12 tally t", "put t"], 99, 14))
        for ends in (12, 5):
            camac.drive("@sample", text, Told(4, 2, ends), self.room / f"{ends}.events", program=PROGRAM)
            self.call(f"{ends}.events", "-o", f"{ends}.csv", "--plan", "@sample", "--script", "a.script", without=["numpy"])
            channels = [f"ADC crate 1 station 5 A{a}" for a in range(12)]
            wanted = [f"{channels[0]}, place 1", f"{channels[0]}, place 2", *channels[1:], "line 9: t"] if ends == 12 else [f"{channels[0]}, place 1"] + 6 * [""]
            self.assertEqual([it["source"] for it in self.rows(f"{ends}.words.csv")], 2 * wanted)
            if numpy:
                self.call(f"{ends}.events", "-o", "n.csv", "--overwrite", "--plan", "@sample", "--script", "a.script")
                self.assertEqual(self.file("n.words.csv"), self.file(f"{ends}.words.csv"))

    def test_hostile_names(self):
        text = "".join(f"[[word]]\ngl = 3\nname = {json.dumps(it, ensure_ascii=False)}\nplace = {at}\n" for at, it in enumerate(HOSTILE, 1))
        self.write("names.toml", text)
        self.call("run.events", "-o", "names.csv", "--words", "names.toml")
        with open(self.room / "names.words.csv", newline="", encoding="utf-8") as file:
            self.assertEqual(next(csv.reader(file))[4:], HOSTILE)
        odd = os.fsdecode(b"\xff<img>.events")
        os.rename(self.room / "run.events", self.room / odd)
        self.call(odd, "-o", "odd.csv")
        self.assertEqual(json.loads(self.file("odd.about.json"))["events"], odd)
        if h5py:
            self.call(odd, "-o", "names.h5", "--words", "names.toml")
            with h5py.File(self.room / "names.h5") as found:
                self.assertEqual({found["words"][it].attrs["name"] for it in found["words"]}, {"event", "gl", "place", "word", *HOSTILE})
                self.assertTrue(all(isinstance(it, h5py.Dataset) for it in found["words"].values()))

    def test_nothing_is_lost(self):
        endings = [("x.csv", "x.words.csv")] + [("x.npz", "x.npz")] * bool(numpy) + [("x.h5", "x.h5")] * bool(h5py)
        for out, file in endings:
            self.write(file, "mine")
            self.assertEqual(self.call("run.events", "-o", out, status=3), f"camac: it holds bytes; --overwrite replaces it: {file}\n")
            self.assertEqual(self.file(file), b"mine")
            self.call("run.events", "-o", out, "--overwrite")
            self.assertNotEqual(self.file(file), b"mine")
        os.rename(self.room / "run.events", self.room / "x.events.csv")
        self.assertIn("x.events.csv is an input: it would be lost", self.call("x.events.csv", "-o", "x.csv", "--overwrite", status=2))
        self.assertIn("ends in .h5, .npz, .csv", self.call("x.events.csv", "-o", "x.root", status=2))
        self.assertIn("belong together", self.call("x.events.csv", "-o", "y.csv", "--plan", "@sample", status=2))

    def test_without_modules(self):
        for module, out in (("numpy", "x.npz"), ("h5py", "x.h5")):
            told = self.call("run.events", "-o", out, without=[module], status=3)
            self.assertEqual(told, f"camac: {module} is not here (Debian's package python3-{module}); a .csv can be made without it\n")
            self.assertFalse((self.room / out).exists())

    def test_files_that_break_and_files_of_version_one(self):
        whole = text_of(self.events)
        for without in [["numpy"], []] if numpy else [["numpy"]]:
            (self.room / "cut.events").write_bytes(whole[:-3])
            self.assertIn("refused V7", self.call("cut.events", "-o", "cut.csv", "--overwrite", without=without, status=1))
            self.assertEqual(len(self.rows("cut.events.csv")), 5)
            (self.room / "none.events").write_bytes(b"CAMACE")
            self.assertIn("refused V1", self.call("none.events", "-o", "none.csv", without=without, status=1))
            self.assertFalse((self.room / "none.events.csv").exists())
            (self.room / "no.events").write_bytes(NEW_FILE)
            self.call("no.events", "-o", "no.csv", "--overwrite", "--words", "words.toml", without=without)
            self.assertEqual((self.rows("no.events.csv"), self.rows("no.words.csv")), ([], []))
            (self.room / "one.events").write_bytes(b"CAMACEV1" + bytes.fromhex("ca4d 0003 00000001 0001 00000007"))
            self.call("one.events", "-o", "one.csv", "--overwrite", without=without)
            self.assertEqual(self.rows("one.events.csv"), [{"event": "1", "gl": "3", "first": "0", "count": "1"}])
        for name in ("no", "one"):
            if h5py:
                self.call(f"{name}.events", "-o", f"{name}.h5")
            if numpy:
                self.call(f"{name}.events", "-o", f"{name}.npz")


class Spectra(Case):
    """Two lines 17 numbers apart in the spectrum of a converter of 12 bits, and a flag in the same event."""

    def test_lines_and_gates(self):
        chance, values = random.Random(2), []
        for _ in range(200_000):
            kind = chance.random()
            value = chance.gauss(1173 if kind < 0.2 else 1190, 3.4) if kind < 0.4 else chance.expovariate(1 / 900)
            values.append(min(round(value), 4095))
        lines = ["cdreg r 1 1 5 0", "cfsa 0 r -> v", "put v", "cdreg s 1 1 6 0", "cfsa 0 s -> v", "put v"]
        text = self.write("a.script", script(lines, 12, 2))
        (self.room / "run.events").write_bytes(text_of(camac.Event(at, 3, 6, 0, (it, at % 2)) for at, it in enumerate(values, 1)))
        os.environ["CAMAC_PROGRAM"] = PROGRAM
        name, flag = (it.name for it in camac.words_of_script(camac.plan("@sample", PROGRAM), text, camac.check("@sample", text, PROGRAM)).fields)
        regions = ["--region", name, "1163..1181", "--region", name, "1182..1200"]
        drawn = {}
        for without in [["numpy"], []] if numpy else [["numpy"]]:
            for gate in ([], ["--gate", flag, "1..1"]):
                with unittest.mock.patch.dict(sys.modules, dict.fromkeys(without)):
                    out = self.room / "words.svg"
                    status = main(["draw", "words", "@sample", str(text), str(self.room / "run.events"), "-o", str(out), *regions, *gate, "--range", "1100..1249", "--bins", "150"])
                self.assertEqual(status, 0)
                picture = out.read_text()
                self.assertEqual(drawn.setdefault(bool(gate), picture), picture)
                counted = collections.Counter(values[::2] if gate else values)
                counts = [int(it) for it in re.findall(r'data-first="1100" data-width="1" data-counts="([^"]*)"', picture)[0].split()]
                self.assertEqual(counts, [counted[at] for at in range(1100, 1250)])
                peak = max(range(4096), key=lambda at: (counted[at], -at))
                self.assertIn(f"peak at {peak:,}<", picture)
                found = re.findall(r">([0-9.,]+) ± ([0-9.]+)<", picture)
                self.assertEqual(len(found), 6)
                for (net, _), (place, unsure), (width, _), line, low in zip(found[0::3], found[1::3], found[2::3], (1173, 1190), (1163, 1182)):
                    self.assertLess(abs(float(place.replace(",", "")) - line), 0.3)
                    self.assertLess(float(unsure), 0.1)
                    self.assertLess(abs(float(width) - 8), 0.5)
                    self.assertIn(f">{sum(counted[it] for it in range(low, low + 19)):,}<", picture)
                    self.assertLess(abs(float(net.replace(",", "")) / sum(counted.values()) - 0.16), 0.02)

    def run_of(self, events, *lines, words=""):
        """The files of a run of these words, of a script with these lines."""
        text = self.write("a.script", script(lines, 12, len(events[0])))
        (self.room / "run.events").write_bytes(text_of(camac.Event(at, 3, 6, 0, tuple(it)) for at, it in enumerate(events, 1)))
        os.environ["CAMAC_PROGRAM"] = PROGRAM
        return ["@sample", str(text), str(self.room / "run.events"), *(["--words", str(self.write("words.toml", words))] if words else [])]

    def drawn(self, *words, without=()):
        out = self.room / "words.svg"
        with unittest.mock.patch.dict(sys.modules, dict.fromkeys(without)):
            self.assertEqual(main(["draw", "words", *words, "-o", str(out), "--overwrite"]), 0)
        return out.read_text()

    READ = ["cdreg r 1 1 5 0", "cfsa 0 r -> v", "put v", "cdreg s 1 1 5 1", "cfsa 0 s -> v", "put v"]

    def test_a_gate_in_two_dimensions(self):
        """Two gates cut a rectangle out of a pair, on the finest cells that there are."""
        chance = random.Random(4)
        pairs = [(chance.randrange(4096), chance.randrange(4096)) for _ in range(20_000)]
        files = self.run_of(pairs, *self.READ)
        across, up = (f"ADC crate 1 station 5 A{at}" for at in (0, 1))
        inside = [it for it in pairs if 1000 <= it[0] <= 1999 and 3000 <= it[1] <= 3099]
        found = set()
        for without in [["numpy"], []] if numpy else [["numpy"]]:
            for bins, size in ((512, 8), (9999, 8), (100, 64)):
                words = ["--pair", across, up, "--gate", across, "1000..1999", "--gate", up, "3000..3099", "--bins", str(bins)]
                picture = self.drawn(*files, *words, without=without)
                self.assertIn(f">{len(inside)} events with both<", picture)
                self.assertIn(f">events in a cell of {size} × {size} numbers<", picture)
                self.assertIn(f", of events with {across} from 1,000 to 1,999 and {up} from 3,000 to 3,099<", picture)
                of_map = picture[picture.index(f">{up} against {across}<") :]
                cells = len({(one // size, other // size) for one, other in inside})
                boxes = re.findall(r"M(\d+) (\d+)H(\d+)V(\d+)H\d+z", of_map[: of_map.index("events with both")])
                self.assertEqual(len({it for it in boxes if int(it[0]) < int(it[2]) and int(it[1]) < int(it[3])}), cells)
                found.add((bins, picture))
        self.assertEqual(len(found), 3)

    @needed("python3-numpy")
    def test_numpy_by_hand(self):
        chance = random.Random(6)
        values = [(min(int(chance.expovariate(1 / 700)), 4095), chance.randrange(4096)) for _ in range(70_000)]
        picture = self.drawn(*self.run_of(values, *self.READ), "--bins", "4096", "--region", "ADC crate 1 station 5 A0", "100..299")
        rows = numpy.fromfile(self.room / "run.events", ">u4", offset=8).reshape(-1, 6)
        for at in (0, 1):
            counts = numpy.bincount(rows[:, 4 + at].astype(int), minlength=4096)
            panel = picture[picture.index(f">ADC crate 1 station 5 A{at}<") :]
            self.assertEqual([int(it) for it in re.search('data-counts="([^"]*)"', panel)[1].split()], counts.tolist())
            self.assertIn(f">mean {rows[:, 4 + at].mean():,.1f}, RMS {rows[:, 4 + at].std():,.1f}, peak at {counts.argmax():,}<", panel)
        region = (rows[:, 4] >= 100) & (rows[:, 4] <= 299)
        self.assertIn(f">{region.sum():,}<", picture[picture.index("A0 100 to 299<") :])

    def test_a_steady_voltage(self):
        words = '[[word]]\nservice = "adc"\nname = "HV"\nplace = 1\nunit = "V"\nas = "value"\n'
        for without in [["numpy"], []] if numpy else [["numpy"]]:
            picture = self.drawn(*self.run_of([(1500, 7)] * 40_000, *self.READ, words=words), without=without)
            self.assertIn(">mean 1,500.0 V, RMS 0.0 V<", picture)

    def test_a_region_of_wide_words(self):
        """A peak at 2,000,000 in words of 24 bits, in a narrow region by number and in a wide one by bins of a few."""
        chance = random.Random(8)
        values = [(round(chance.gauss(2_000_000, 20)) if at % 2 else chance.randrange(1 << 24), 1) for at in range(20_000)]
        words = '[[word]]\nservice = "adc"\nname = "t"\nbits = "0..23"\nplace = 1\nas = "spectrum"\n'
        files = self.run_of(values, *self.READ, words=words)
        for low, last in ((1_999_900, 2_000_099), (1_995_000, 2_005_000), (1_900_000, 2_100_000)):
            row = self.drawn(*files, "--region", "t", f"{low}..{last}").partition(f"t {low:,} to {last:,}<")[2]
            gross = sum(low <= it <= last for it, _ in values)
            place, width = re.search(rf">{gross:,}<.*?± .*?>([0-9.,]+) ± [0-9.,]+<.*?>([0-9.,]+) ±", row).groups()
            self.assertLess(abs(float(place.replace(",", "")) - 2_000_000), 2)
            self.assertLess(abs(float(width.replace(",", "")) - 20 * 2.355), 6)

    def test_over_another_run(self):
        """The line of another run is multiplied for as many events, or for the same live time where both records have it."""
        files = self.run_of([(100, 1)] * 300, *self.READ)
        os.rename(self.room / "run.events", self.room / "other.events")
        files = self.run_of([(100, 1)] * 600, *self.READ)
        name, over = "ADC crate 1 station 5 A0", ["--over", str(self.room / "other.events")]
        made = camac.record.describe(camac.record.Played("@sample", files[1], None, PROGRAM))
        for seconds, told, line in (((), "for as many events", 600), ((8.0, 2.0), "for the same live time (8.0 s, its own 2.0 s)", 1200)):
            for file, live in zip(("run", "other"), seconds):
                self.write(f"{file}.json", made._replace(demands=live, services=1.0).text())
            self.assertIn(f">0 to 4,095; the line: other.events, {told}<", self.drawn(*files, *over))
            page = self.room / "run.html"
            self.assertEqual(main(["report", *files, *over, "-o", str(page), "--overwrite"]), 0)
            panel = page.read_text()[page.read_text().index(f'aria-label="{name}"') :]
            self.assertEqual(re.search('data-over="([^"]*)"', panel)[1], f"-100 {line} -3995")
        self.assertEqual(command("draw", "run", *files, *over, "-o", "x.svg")[0], 2)
        self.assertEqual(command("draw", "words", *files, *over, "-o", over[1])[0], 2)

    def test_words_that_are_wrong(self):
        for words in (["--gate", "x", "9..8"], ["--region", "x", "5..1"], ["--range", "a"], ["--bins", "0"], ["--gate", "x", "0..99999999"]):
            status, _, told = command("draw", "words", "a", "b", "c", "-o", "d", *words)
            self.assertEqual((status, words[0] in told.splitlines()[-1]), (2, True))

    def test_a_region_without_a_peak(self):
        self.assertEqual(measure(5, [4] * 12)[:2], (48, (0.0, math.sqrt(48 + 144 * 8 / 12))))
        self.assertIsNone(measure(5, [4] * 12).centroid)
        self.assertIsNone(measure(0, [0] * 6).width)
        peak = [round(2 * at + 1000 * math.exp(-((at - 10.25) ** 2) / 18)) for at in range(24)]
        self.assertAlmostEqual(measure(100, peak).centroid.value, 110.25, 2)
        self.assertAlmostEqual(measure(100, peak).width.value, 3 * 2.35482, 2)


@needed("python3-numpy")
class Arrays(Case):
    def test_arrays_have_the_values_of_the_events(self):
        packed = parse_words(PACKED.encode(), "words.toml", SERVICES)
        counted = camac.Words([camac.Field("all", 3, bits=(4, 9)), camac.Field("five", 3, places=(2, 3), count=5)])
        events = events_of(40, 12, 0, 3, 5, 1, 40, 40, 2)
        arrays = camac.event_arrays(io.BytesIO(text_of(events)))
        for words, column in [(words, column) for words in (packed, counted) for gl in (3, 5) for column in words.columns(gl)]:
            at, numbers = words.values_of(column, arrays)
            wanted = [(int(arrays.first[event.number - 1]) + it.place - 1, it.number) for event in events for it in words.values(event) if it.column == column]
            self.assertEqual([*zip(at.tolist(), numbers.tolist())], wanted, column.name)


if __name__ == "__main__":
    unittest.main()
