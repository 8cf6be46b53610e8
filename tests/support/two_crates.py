"""The output of the program for the bench of two crates, for tests of pictures that need no program."""
import contextlib
import os
from unittest import mock

import camac
from camac import runs
from camac.printed import parse_listing, read_plan, read_services
from camac.words import PLACE, Field, Words

PLAN = """\
buffer 64
type ADC-12 commands 21 probes 4
command f 0 a 0 to 11 width 12
command f 0 a 12 to 15 probe
command f 8 a 12
command f 9 a 0
command f 10 a 12
command f 24 a 12
command f 26 a 12
type TDC-8 commands 17 probes 8
command f 0 a 0 to 7 width 11
command f 0 a 8 to 15 probe
command f 9 a 0
type SCALER-12 commands 26 probes 0
command f 0 a 0 to 11 width 24
command f 2 a 0 to 11 width 24
command f 8 a 0
command f 10 a 0
type OUTPUT-8 commands 3 probes 0
command f 0 a 0 width 8
command f 16 a 0 width 8
command f 27 a 0
crate 1 waits 2
station 5 ADC-12 gl 3
station 7 TDC-8 gl -
station 11 OUTPUT-8 gl -
crate 2 waits 0
station 2 SCALER-12 gl 5
station 23 OUTPUT-8 gl -
"""
VERDICT = """\
accepted
service adc gl 3 cycles 43 of 64 words 21 of 21 steps 95
service tick gl 5 cycles 26 of 28 words 12 of 12 steps 63
"""
COSTS = """\
proc scaler line 5 cycles 1 of 2 words 1 of 1 steps 3 of 3
line 6 depth 1 cdreg times 1 cycles 0 words 0 steps 1 share 0 0 1
line 7 depth 1 cfsa times 1 cycles 1 words 0 steps 1 share 1 0 1 at 2 2 0..11
line 8 depth 1 put times 1 cycles 0 words 1 steps 1 share 0 1 1
service adc line 11 gl 3 at 1 5 12 cycles 43 of 64 words 21 of 21 steps 95
line 12 depth 1 cdreg times 1 cycles 0 words 0 steps 1 share 0 0 1
line 13 depth 1 = times 1 cycles 0 words 0 steps 1 share 0 0 1
line 14 depth 1 while times 1 cycles 15 words 0 steps 16 share 0 0 6 turns 5
line 15 depth 2 cfsa times 5 cycles 3 words 0 steps 1 share 15 0 5 at 1 11 0
line 16 depth 2 = times 5 cycles 0 words 0 steps 1 share 0 0 5
line 18 depth 1 lock times 1 cycles 22 words 20 steps 74 share 2 0 2 crate 1
line 19 depth 2 for times 1 cycles 12 words 12 steps 61 share 0 0 13 turns 12
line 20 depth 3 cdreg times 12 cycles 0 words 0 steps 1 share 0 0 12
line 21 depth 3 cfsa times 12 cycles 1 words 0 steps 1 share 12 0 12 at 1 5 0..11
line 22 depth 3 if times 12 cycles 0 words 1 steps 2 share 0 0 12
line 22 depth 4 put times 12 cycles 0 words 1 steps 1 share 0 12 12
line 24 depth 2 cdreg times 1 cycles 0 words 0 steps 1 share 0 0 1
line 25 depth 2 cdreg times 1 cycles 0 words 0 steps 1 share 0 0 1
line 26 depth 2 cfmad times 1 cycles 8 words 8 steps 9 share 8 8 9 at 1 7 0 to 1 7 7
line 28 depth 1 put times 1 cycles 0 words 1 steps 1 share 0 1 1
line 29 depth 1 cfsa times 1 cycles 3 words 0 steps 1 share 3 0 1 at 1 11 0
line 30 depth 1 cclc times 1 cycles 3 words 0 steps 1 share 3 0 1 at 1 5 12
service tick line 33 gl 5 at 2 2 0 cycles 26 of 28 words 12 of 12 steps 63
line 34 depth 1 for times 1 cycles 24 words 12 steps 61 share 0 0 13 turns 12
line 34 depth 2 call times 12 cycles 2 words 1 steps 4 share 24 12 48 proc scaler
line 35 depth 1 ccci times 1 cycles 1 words 0 steps 1 share 1 0 1 crate 2
line 36 depth 1 cclc times 1 cycles 1 words 0 steps 1 share 1 0 1 at 2 2 0
"""
# The commands of the scan in `adc`.
SCAN = frozenset(camac.Command(1, 7, a, 0) for a in range(8))
# The columns of the bench's words.
WORDS = Words(
    [
        Field("channel", 3, bits=(16, 19)),
        Field("pulse height", 3, "keV", (0, 11), of="channel", tags=(1, 11), scale=0.5, offset=-10),
        Field("rate", 5, places=(1, 12), of=PLACE, tags=(1, 12), kind="value"),
    ]
)
# Three services by hand. For veto the 7 cycles of spill may be in progress. Call 1 of strip begins at 7 + 5 = 12; call 2, whose look-at-me
# comes at 6, at 7 + 3 + 2 * 5 = 20, so 14 after it. Spill begins at 7 + 4 * 5 + 10 * 3 = 57.
RESPONSE = """\
service veto gl 1 cycles 5 every 15 start 7 end 12 longest 12
service strip gl 4 cycles 3 every 6 start 14 end 17 longest 57
service spill gl 9 cycles 7 every 50 start 57 end 64 longest 299
service slow gl 12 cycles 7 every 60 start - end - longest -
"""


class Chance:
    """Numbers that look random, the same on every machine."""

    def __init__(self):
        self.state = 1

    def below(self, limit):
        self.state = (self.state * 6364136223846793005 + 1442695040888963407) % (1 << 64)
        return (self.state >> 33) % limit

    def bell(self, middle, spread):
        return max(0, middle + sum(self.below(spread) for _ in range(6)) // 2 - spread * 3 // 2)


class Written:
    """A listing and its events, written operation by operation."""

    def __init__(self):
        self.chance, self.lines, self.events = Chance(), [], []

    def begin(self, pattern, name):
        self.lines.append(f"demand {pattern:06x} {name}")
        self.cycles = self.missed = 0
        self.words = []

    def cycle(self, at, move, word=0, reply=(1, 1), waits=0):
        wait = self.chance.below(waits + 1)
        self.cycles += 1 + wait
        self.missed += 1 - reply[0]
        moved = move if move == "none" else f"{move} {word:06x}"
        self.lines.append(f"cycle {at} {moved} x{reply[0]} q{reply[1]} wait {wait}")

    def end(self, gl):
        self.events.append(camac.Event(len(self.events) + 1, gl, self.cycles, self.missed, tuple(self.words)))

    def adc(self):
        self.begin(4, "adc")
        for _ in range(5):
            is_lost, q = self.chance.below(40) == 0, int(self.chance.below(10) < 4)
            self.cycle("1 11 0 27", "none", reply=(0, 0) if is_lost else (1, q), waits=2)
            if q and not is_lost:
                break
        wait = self.chance.below(3)
        self.cycles += wait
        self.lines.append(f"lock 1 wait {wait}")
        for channel in range(12):
            word = self.chance.bell(1900, 300) if self.chance.below(10) < 3 else self.chance.bell(90, 60)
            self.cycle(f"1 5 {channel} 0", "in", word)
            if word > 200:
                self.words.append(channel * 65536 + word)
        count = 0
        while count < 8 and self.chance.below(8):
            self.words.append(self.chance.bell(800, 200))
            self.cycle(f"1 7 {count} 0", "in", self.words[-1])
            count += 1
        if count < 8:
            self.cycle(f"1 7 {count} 0", "in", reply=(1, 0))
        self.words.append(count)
        self.lines.append("unlock 1")
        self.cycle("1 11 0 16", "out", count, waits=2)
        self.cycle("1 5 12 10", "none", waits=2)
        self.end(3)

    def tick(self):
        self.begin(16, "tick")
        for channel in range(12):
            self.words.append(self.chance.below(4000))
            self.cycle(f"2 2 {channel} 2", "in", self.words[-1])
        self.cycle("2 30 9 24", "none", reply=(1, 0))
        self.cycle("2 2 0 10", "none")
        self.end(5)


def long_run(services, asked=None, is_tick=lambda at: at % 5 == 4):
    """A run of so many services: each fifth one is a tick, and behind each seventh one nobody calls. `asked` are columns of the words."""
    written = Written()
    for at in range(services):
        if is_tick(at):
            written.tick()
        else:
            written.adc()
        if at % 7 == 6:
            written.begin(0, "-")
    return collected(PLAN, VERDICT, [*written.lines, f"ended events {services}"], written.events, asked=asked, meant=SCAN)


def run_of(responses, operations):
    """The run in which operations call services by their bits (0: none), and each takes so many cycles."""
    names = {it.gl: it.name for it in responses}
    lines, events = [], []
    for gl, cycles in operations:
        lines += [f"demand {1 << gl >> 1:06x} {names.get(gl, '-')}", *["cycle 1 5 0 9 none x1 q1 wait 0"] * cycles]
        if gl:
            events.append(camac.Event(len(events) + 1, gl, cycles, 0, ()))
    verdict = "".join(f"service {it.name} gl {it.gl} cycles {it.cycles} of 99 words 0 of 0 steps 9\n" for it in responses)
    return collected(PLAN, f"accepted\n{verdict}", [*lines, f"ended events {len(events)}"], events, responses)


def collected(plan, verdict, lines, events, responses=(), asked=None, meant=frozenset()):
    """The run of such a listing and such events; `responses` are what `camac response` would say of the script, and `meant` the commands of its
    transfers."""
    services = read_services(verdict)
    written = {
        "run": lambda *_, **__: parse_listing(lines),
        "read_events": lambda _: iter(events),
        "is_event_file": lambda _: False,
        "knows_command": lambda *_: True,
        "costs": lambda *_: [],
        "script_text": lambda _: b"",
        "transfer_commands": lambda *_: meant,
    }
    with contextlib.ExitStack() as patched:
        for name, instead in written.items():
            patched.enter_context(mock.patch(f"camac.runs.{name}", instead))
        return runs.collect(runs.Inputs("plan", "script", os.devnull), read_plan(plan), services, None, responses, asked)
