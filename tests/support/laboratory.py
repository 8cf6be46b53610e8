"""Shared by tests of pictures: a bench of two crates and its script, the largest plan, answers, sums made apart from the Python package,
and a reader of pages."""
import html.parser
import os
import random
import re
from unittest import mock

from support.live import PROGRAM, Case
from support.program import called
import camac
from camac.mock import Adc, Auxiliary, MockBranch, Recorder, Register, Reply, Scaler
from camac.runs import Inputs

PLAN = """\
buffer = 64
[[type]]
name = "ADC-12"
commands = [ { f = 0, a = 0, to = 11, width = 12 }, { f = 0, a = 12, to = 15, probe = true }, { f = 9, a = 0 },
  { f = 8, a = 12 }, { f = 10, a = 12 }, { f = 24, a = 12 }, { f = 26, a = 12 } ]
[[type]]
name = "TDC-8"
commands = [ { f = 0, a = 0, to = 7, width = 11 }, { f = 0, a = 8, to = 15, probe = true }, { f = 9, a = 0 } ]
[[type]]
name = "SCALER-12"
commands = [ { f = 0, a = 0, to = 11 }, { f = 2, a = 0, to = 11 }, { f = 8, a = 0 }, { f = 10, a = 0 } ]
[[type]]
name = "OUTPUT-8"
commands = [ { f = 16, a = 0, width = 8 }, { f = 0, a = 0, width = 8 }, { f = 27, a = 0 } ]
[[crate]]
number = 1
waits = 2
station = [ { n = 5, type = "ADC-12", gl = 3 }, { n = 7, type = "TDC-8" }, { n = 11, type = "OUTPUT-8" } ]
[[crate]]
number = 2
station = [ { n = 2, type = "SCALER-12", gl = 5 }, { n = 23, type = "OUTPUT-8" } ]
"""
SCRIPT = """\
cdlam adc 1 1 5 12
cdlam tick 1 2 2 0
var channel v k n

proc scaler(s in 0..11) within 2 cycles event 1 words steps 3 {
  cdreg r 1 2 2 s
  cfsa 2 r -> s
  put s
}

service adc within 64 cycles event 21 words {
  cdreg busy 1 1 11 0
  k = 5
  while k > 0 and not q turns 5 by k {      # is the gate closed? ask five times at most
    cfsa 27 busy
    k = k - 1
  }
  lock 1 {                                  # nobody comes between
    for channel = 0 to 11 {
      cdreg r 1 1 5 channel
      cfsa 0 r -> v
      if v > 200 { put channel * 65536 + v }
    }
    cdreg first 1 1 7 0
    cdreg last 1 1 7 7
    cfmad 0 first last max 8 tally n
  }
  put n
  cfsa 16 busy <- n
  cclc adc
}

service tick within 28 cycles event 12 words {
  for channel = 0 to 11 { call scaler(channel) }
  ccci 2 off
  cclc tick
}
"""
NAMES = {3: "adc", 5: "tick"}
# The station that nothing but the scan of the script asks.
SCANNED = 7
WIDTHS = {(1, 5, 0): 12, (1, 7, 0): 11, (1, 11, 0): 8, (1, 11, 16): 8, (2, 23, 0): 8, (2, 23, 16): 8}
# An answer to an operation of any kind: X now and then 0, Q often 1, a wait that crates with two waits permit, and any demand.
ANSWER = "{x} {q} {word:06x} {wait} {gl:06x}\n"


class Busy(Register):
    """A register that is ready in four of ten tests, and loses a command now and then."""

    random = random.Random(7)

    def cycle(self, a, f, data):
        if self.random.random() < 0.02:
            return Reply(0, 0)
        return Reply(q=int(self.random.random() < 0.4)) if f == 27 else super().cycle(a, f, data)


class Tdc(Adc):
    """A time converter: a scan ends at the first channel that was not hit."""

    def cycle(self, a, f, data):
        reply = super().cycle(a, f, data)
        return Reply(q=0) if f == 0 and reply.word < 150 else reply


def record(room, triggers, ignores_lockout=False):
    """Runs the bench live on modules without hardware, and keeps its answers: each tenth trigger is a tick too, and each seventh none."""
    adc, tick = (1, 5), (2, 2)
    order = [[] if k % 7 == 6 else [adc, (1, 7), tick] if k % 10 == 9 else [adc, (1, 7)] for k in range(triggers)]
    modules = {adc: Adc(spread=70, seed=3), (1, 7): Tdc(8, 11, 100, 900, 90, 0.7, seed=5), (1, 11): Busy(8), tick: Scaler(rate=4000)}
    branch = MockBranch(
        modules={**modules, (2, 23): Register(8)},
        gl={adc: 3, tick: 5},
        triggers=order,
        auxiliaries={1: Auxiliary(2, ignores_lockout=ignores_lockout)},
    )
    recorder = Recorder(branch)
    (room / "bench.toml").write_text(PLAN)
    (room / "bench.script").write_text(SCRIPT)
    camac.drive(room / "bench.toml", room / "bench.script", recorder, room / "live.events")
    (room / "bench.answers").write_text(recorder.answer_lines())


def random_answers(count, bits=(4,), seed=1):
    """Answers to any operations of a script that takes no lock, in crates that permit two waits."""
    chance = random.Random(seed)
    return "".join(
        ANSWER.format(
            x=int(chance.random() > 0.001),
            q=int(chance.random() < 0.7),
            word=chance.randrange(1 << 12),
            wait=chance.randrange(3),
            gl=chance.choice(bits),
        )
        for _ in range(count)
    )


PLACES = [(crate, station) for crate in range(1, 8) for station in (1, 7, 13, 19)][:24]


def largest_plan():
    """Seven full crates, 64 types with names of 32 characters, 24 bits of the graded-L pattern."""
    commands = "{ f = 0, a = 0, to = 11, width = 12 }, { f = 0, a = 12, to = 15, probe = true }, { f = 16, a = 0, width = 8 }, "
    commands += "{ f = 9, a = 0 }, { f = 27, a = 0 }, { f = 8, a = 12 }, { f = 10, a = 12 }"
    parts = [f'[[type]]\nname = "TYPE-{k:02}-LONG_NAME_OF_A_MODULE_TY"\ncommands = [ {commands} ]\n' for k in range(64)]
    for crate in range(1, 8):
        stations = []
        for station in range(1, 24):
            gl = f", gl = {PLACES.index((crate, station)) + 1}" if (crate, station) in PLACES else ""
            stations.append(f'{{ n = {station}, type = "TYPE-{(crate * 23 + station) % 64:02}-LONG_NAME_OF_A_MODULE_TY"{gl} }}')
        parts.append(f"[[crate]]\nnumber = {crate}\nwaits = {2 * crate}\nstation = [ {', '.join(stations)} ]\n")
    return "".join(parts)


def largest_script():
    """24 services of 48 lines, each with a name of 32 characters and a heading that promises far too much."""
    names = [f"lam_{k + 1:02}_of_a_name_that_is_32_long_"[:32] for k in range(len(PLACES))]
    lines = [f"cdlam {name} 1 {crate} {station} 12" for name, (crate, station) in zip(names, PLACES)] + ["var v k i j"]
    for name, (crate, station) in zip(names, PLACES):
        lines += [f"service {name} within 4000000 cycles event 260 words {{", f"  cdreg busy 1 {crate} {station} 0", "  k = 5"]
        lines += ["  while k > 0 and not q turns 5 by k {", "    cfsa 27 busy", "    k = k - 1", "  }"]
        for part in range(5):
            lines += ["  for i = 0 to 3 {", "    for j = 0 to 11 {", f"      cdreg r{part} 1 {crate} {station} j"]
            lines += [f"      cfsa 0 r{part} -> v", "      if v > 200 { put i * 65536 + v }", "    }", "  }"]
        lines += ["  cfsa 9 busy", "  cfsa 16 busy <- k", f"  cclc {name}", "", "", "}"]
    return "\n".join(lines) + "\n"


def call(*words):
    """What the program prints."""
    return called(*words, timeout=120)[1].decode()


class Service:
    """Sums over the operations of a service in a listing."""

    def __init__(self, name):
        self.name = name
        self.cycles = self.waits = self.no_q = self.of_transfers = self.no_x = self.locked = 0


class Sums:
    """Sums over the listing of a run and over what `camac events` prints, made by other means than the package's."""

    def __init__(self, plan, script, answers, events):
        self.services, self.commands, self.idle = [], {}, 0
        locks = 0
        for line in call("run", plan, script, answers, events).splitlines():
            words = line.split()
            if words[0] == "demand":
                self.idle += words[2] == "-"
                if words[2] != "-":
                    self.services.append(Service(words[2]))
            elif words[0] == "cycle":
                self.take_cycle(words, locks)
            elif words[0] == "lock":
                locks += 1
                self.services[-1].cycles += int(words[3])
                self.services[-1].waits += int(words[3])
            elif words[0] == "unlock":
                locks -= 1
        self.events = [
            tuple(map(int, re.match(r"event \d+ gl (\d+) cycles (\d+) missed (\d+) words (\d+)", line).groups()))
            + ([int(word, 16) for word in line.split()[10:]],)
            for line in call("events", events).splitlines()
            if line.startswith("event ")
        ]
        self.unfinished = self.services[len(self.events) :]
        self.services = self.services[: len(self.events)]

    def take_cycle(self, words, locks):
        service, at = self.services[-1], tuple(map(int, words[1:5]))
        tail = words[-4:]
        wait, x, q = int(tail[3]), tail[0] == "x1", tail[1] == "q1"
        service.cycles += 1 + wait
        service.waits += wait
        service.no_x += not x
        service.of_transfers += not q and at[1] == SCANNED
        service.no_q += not q and at[1] not in (SCANNED, 28, 30)
        service.locked += locks > 0
        command = self.commands.setdefault(at, {"count": 0, "no_q": 0, "no_x": 0, "waits": 0, "words": []})
        command["count"] += 1
        command["no_q"] += not q
        command["no_x"] += not x
        command["waits"] += wait
        if words[5] == "out" or (words[5] == "in" and q):
            command["words"].append(int(words[6], 16))

    def total(self, name):
        return sum(getattr(it, name) for it in self.services)


class Page(html.parser.HTMLParser):
    """What is under each heading of a page: tables (rows of texts), tips of marks, counts of histograms, texts of pictures."""

    def __init__(self, text):
        super().__init__()
        self.parts, self.tiles, self.text, self.inside = {}, {}, "", []
        self.number = None
        self.under("")
        self.feed(text)
        self.close()

    def under(self, heading):
        self.part = self.parts.setdefault(heading, {"tables": [], "tips": [], "counts": [], "texts": [], "paragraphs": []})

    def handle_starttag(self, tag, attributes):
        named = dict(attributes)
        if "p" not in self.inside:
            self.text = ""
        self.inside.append(tag)
        if tag == "table":
            self.part["tables"].append([])
        elif tag == "tr":
            self.part["tables"][-1].append([])
        if "data-counts" in named:
            self.part["counts"].append([int(it) for it in named["data-counts"].split()])

    def handle_startendtag(self, tag, attributes):
        self.handle_starttag(tag, attributes)
        self.inside.pop()

    def handle_data(self, data):
        self.text += data

    def handle_endtag(self, tag):
        while self.inside and self.inside.pop() != tag:
            pass
        if tag in ("h2", "h3"):
            self.under(self.text)
        elif tag in ("td", "th"):
            self.part["tables"][-1][-1].append(self.text)
        elif tag == "title":
            self.part["tips"].append(self.text)
        elif tag == "text":
            self.part["texts"].append(self.text)
        elif tag == "p":
            self.part["paragraphs"].append(self.text)
        elif tag == "b" and "div" in self.inside:
            self.number = int(self.text.replace(",", ""))
        elif tag == "span" and self.number is not None:
            self.tiles[self.text], self.number = self.number, None

    def table(self, heading):
        """The rows of the first table under a heading, by the words of its head."""
        head, *rows = self.parts[heading]["tables"][0]
        return [dict(zip(head, row)) if len(set(head)) == len(head) else row for row in rows]


class BenchCase(Case):
    """A run of the bench in a folder of its own."""

    triggers = 140

    @classmethod
    def setUpClass(cls):
        super().setUpClass()
        os.environ["CAMAC_PROGRAM"] = PROGRAM
        cls.shared_room = cls.shared()
        record(cls.shared_room, cls.triggers)
        cls.files = [cls.shared_room / f"bench.{end}" for end in ("toml", "script", "answers")]

    def setUp(self):
        super().setUp()
        self.inputs = Inputs(*self.files)

    def another_program(self, *cases):
        """The program, but for some of its commands: these cases of sh."""
        lines = "#!/bin/sh", "case $1 in", *cases, f"*) exec '{PROGRAM}' \"$@\" ;;", "esac"
        other = self.write("other", "".join(f"{it}\n" for it in lines))
        other.chmod(0o755)
        return mock.patch.dict(os.environ, {"CAMAC_PROGRAM": str(other)})
