#!/usr/bin/env python3
"""Each limit of docs/LANGUAGE.md once: at the limit a script is accepted and played. (tests/explain_test.py has scripts that are one past it.) And what
`camac response` prints at edges that are seldom made by chance, by hand. What the program answers is compared with the independent reader of tools/oracle.

usage: tests/limits_test.py [-v] [TEST ..]     from any folder; takes some seconds
"""
import unittest

from support.program import PROGRAM, Room, called, folder
from oracle.calls import Program
from oracle.reader.engines import Inputs, tell

# Four crates of six converters, each with a graded-L bit: 24 in all.
PLAN = b'[[type]]\nname = "ADC"\ncommands = [ { f = 0, a = 0, to = 15, width = 12 }, { f = 10, a = 0, to = 15 } ]\n' + b"".join(
    b"[[crate]]\nnumber = %d\nwaits = 1\n" % c + b"".join(b'[[crate.station]]\nn = %d\ntype = "ADC"\ngl = %d\n' % (n, 6 * c + n - 6) for n in range(1, 7))
    for c in range(1, 5)
)
ALL = b"1 1 123fff 1 ffffff\n"
FILE = 16_777_216
LAM = "cdlam adc 1 1 1 0\n"


def names(count, first="n"):
    return [f"{first}{it}" for it in range(count)]


def service(body, cycles=4_294_967_295, words=4_096):
    return f"service adc within {cycles} cycles event {words} words {{\n{body}\n}}\n"


class Limits(unittest.TestCase):
    def setUp(self):
        self.program = Program(PROGRAM, folder(self.addCleanup))

    def told(self, command, inputs):
        """What the reader and the program answer alike."""
        told = tell(command, inputs)
        answered = self.program.call(command, inputs)
        self.assertEqual((answered.status, answered.err), (told.status, told.err))
        self.assertTrue(answered.out == told.out, "another listing")
        if told.events is not None:
            self.assertTrue(answered.events == told.events, "another event file")
        return told

    def expect_played(self, script, answers=ALL * 40):
        """The script is accepted, and leaves events."""
        inputs = Inputs(PLAN, script.encode(), answers)
        self.assertEqual(self.told("check", inputs).reached, "accepted")
        self.assertEqual([self.told(it, inputs).status for it in ("bounds", "costs")], [0, 0])
        events = self.told("run", inputs).events
        self.assertEqual(self.told("drive", inputs).events, events)
        self.assertGreater(len(events), 8)
        listed = self.told("events", Inputs(file=events))
        self.assertEqual(listed.status, 0)
        return listed.out

    def test_services(self):
        lams = [f"cdlam {it} 1 {number // 6 + 1} {number % 6 + 1} 0\n" for number, it in enumerate(names(24))]
        services = [f"service {it} within 2 cycles event 1 words {{ cclc {it}  put {number} }}\n" for number, it in enumerate(names(24))]
        # each answer calls one service, from the last bit to the first
        answers = b"".join(b"0 0 000000 0 %06x\n" % (1 << bit) + ALL for bit in reversed(range(24)))
        listed = self.expect_played("".join(lams + services), answers)
        self.assertIn(b"event 1 gl 24 cycles 2 missed 0 words 1 000017\n", listed)
        self.assertTrue(listed.endswith(b"event 24 gl 1 cycles 2 missed 0 words 1 000000\nevents 24\n"))

    def test_variables(self):
        body = "\n".join(f"{it} = {number}" for number, it in enumerate(names(64))) + "\nput n0\nput n63"
        listed = self.expect_played(f"{LAM}var {' '.join(names(64))}\n{service(body)}")
        self.assertIn(b"words 2 000000 00003f\n", listed)

    def test_variables_with_parameters(self):
        procedures = [f"proc p{it}({', '.join(f'm{it}_{one} in 0..9' for one in range(8))}) within 0 cycles event 1 words steps 1 {{ put m{it}_7 }}\n" for it in range(7)]
        body = "\n".join(f"call p{it}(0, 1, 2, 3, 4, 5, 6, {it})" for it in range(7))
        listed = self.expect_played(f"{LAM}{''.join(procedures)}var {' '.join(names(8))}\n{service(body)}")
        self.assertIn(b"words 7 000000 000001 000002 000003 000004 000005 000006\n", listed)

    def test_registers(self):
        own = "\n".join(f"cdreg {it} 1 1 1 {number % 16}" for number, it in enumerate(names(32, "m")))
        procedure = f"proc p() within 2 cycles event 0 words steps 33 {{\n{own}\ncfsa 10 m31\n}}\n"
        body = "call p()\n" + "\n".join(f"cdreg {it} 1 1 2 {number % 16}" for number, it in enumerate(names(32))) + "\ncfsa 0 n31 -> v\nput v"
        self.assertIn(b"words 1 000fff\n", self.expect_played(f"{LAM}var v\n{procedure}{service(body)}"))

    def test_lams(self):
        lams = [f"cdlam {it} 1 {number % 4 + 1} 1 {number // 4}\n" for number, it in enumerate(names(64))]
        body = "\n".join(f"cclc {it}" for it in names(64))
        self.expect_played("".join(lams) + service(body).replace("adc", "n0"), ALL * 65)

    def test_tables(self):
        plan = PLAN.replace(b"{ f = 10,", b"{ f = 16, a = 0 }, { f = 10,")
        tables = "".join(f"table {it} = {' '.join(['16777215'] * 1024)}\n" for it in names(16))
        body = "cdreg r 1 1 1 0\n" + "\n".join(f"cfubc 16 r table {it} max 1024 tally t" for it in names(16))
        inputs = Inputs(plan, f"{LAM}var t\n{tables}{service(body)}".encode(), ALL * (16 * 1024 + 1))
        self.assertEqual([self.told(it, inputs).reached for it in ("check", "run")], ["accepted", "ended"])

    def test_words_of_an_event(self):
        listed = self.expect_played(f"{LAM}var i\n{service('for i = 1 to 4096 { put i }', 0)}", b"0 0 000000 0 000001\n" * 2)
        self.assertIn(b"event 2 gl 1 cycles 0 missed 0 words 4096 000001 000002 ", listed)

    def test_depth(self):
        """16 open brackets: of blocks, and of expressions in them."""
        for body in ("if v < 1 {" * 15 + "v = v" + "}" * 15, "v = " + "(" * 15 + "1" + ")" * 15 + " put v"):
            self.expect_played(f"{LAM}var v\n{service(body)}")

    def test_procedures(self):
        """16 procedures, each of which calls the one before it: as deep as calls can go."""
        first = "proc p0() within 0 cycles event 1 words steps 1 { put 7 }\n"
        chain = [f"proc p{it}() within 0 cycles event 1 words steps {it + 1} {{ call p{it - 1}() }}\n" for it in range(1, 15)]
        self.assertIn(b"words 1 000007\n", self.expect_played(LAM + first + "".join(chain) + "proc last() within 0 cycles event 0 words steps 0 {}\n" + service("call p14()")))

    def test_statements(self):
        self.expect_played(f"{LAM}var v\n" + service("\n".join(["v = v"] * 4096)))

    def test_event_files(self):
        """An event file at its limit of bytes: events of 4,096 words, the last two shorter."""
        size = 16 + 4 * 4096
        whole = (FILE - 8) // size - 1
        left = (FILE - 8 - whole * size - 2 * 16) // 4
        words = [4096] * whole + [left // 2, left - left // 2]
        data = b"CAMACEV2" + b"".join(
            b"\xca\x4d\0\3" + number.to_bytes(4, "big") + bytes(6) + count.to_bytes(2, "big") + bytes(4 * count) for number, count in enumerate(words, 1)
        )
        self.assertEqual(len(data), FILE)
        answered = self.program.call("events", Inputs(file=data))
        self.assertEqual((answered.status, answered.err), (0, b""))
        self.assertTrue(answered.out.endswith(b"\nevents %d\n" % len(words)))
        self.assertEqual(answered.out.count(b" 000000"), sum(words))
        self.assertEqual(self.program.call("events", Inputs(file=data + b"\0"))[:3], (3, b"", b"fault input too long\n"))


# Services of bits 1 to 4, by name; before each cycle of the last one there are up to 14 waits.
EDGE_PLAN = b"""[[type]]
name = "A"
commands = [ { f = 0, a = 0 }, { f = 10, a = 0 } ]
[[crate]]
number = 1
station = [ { n = 1, type = "A", gl = 1 }, { n = 2, type = "A", gl = 2 }, { n = 3, type = "A", gl = 3 } ]
[[crate]]
number = 2
waits = 14
station = [ { n = 4, type = "A", gl = 4 } ]
"""
STATIONS = {"low": "1 1", "tick": "1 2", "high": "1 3", "long": "2 4"}
# So many cycles with 14 waits each are 4,294,967,295.
GREATEST = 286_331_153

# Services with their cycles, options, and the lines.
EDGES = [
    # The last call of high in its stretch, the second one, waits longest: 15 - 9 cycles, the first one 5.
    ({"high": 2, "tick": 2, "low": 3}, "--every low=6 --every tick=9 --every high=9", """\
service low gl 1 cycles 3 every 6 start 2 end 5 longest 5
service tick gl 2 cycles 2 every 9 start 5 end 7 longest 15
service high gl 3 cycles 2 every 9 start 6 end 8 longest 17
"""),
    # tick takes 17 rounds for the longest stretch and 2 for each of 32,759 calls, then for one more.
    ({"tick": 1, "high": 32_758}, "--every tick=2", """\
service tick gl 2 cycles 1 every 2 start 32758 end 32759 longest 65517
service high gl 3 cycles 32758 once start 1 end 32759 longest 65517
"""),
    ({"tick": 1, "high": 32_759}, "--every tick=2", """\
service tick gl 2 cycles 1 every 2 start - end - longest -
service high gl 3 cycles 32759 once start 1 end 32760 longest 65519
"""),
    # Where low is called twice, tick takes 3 rounds, so 65,535 with 21,839 calls.
    ({"high": 21_835, "tick": 1, "low": 1}, "--every tick=2 --every low=20000", """\
service low gl 1 cycles 1 every 20000 start 21835 end 21836 longest 21837
service tick gl 2 cycles 1 every 2 start 21837 end 21838 longest 43677
service high gl 3 cycles 21835 once start 3 end 21838 longest 43677
"""),
    ({"high": 21_836, "tick": 1, "low": 1}, "--every tick=2 --every low=20000", """\
service low gl 1 cycles 1 every 20000 start 21836 end 21837 longest 21838
service tick gl 2 cycles 1 every 2 start - end - longest -
service high gl 3 cycles 21836 once start 3 end 21839 longest 43679
"""),
    ({"long": GREATEST - 1, "tick": 15}, "--within long=4294967295", """\
service tick gl 2 cycles 15 once start 4294967280 end 4294967295 longest 4294967295
service long gl 4 cycles 4294967280 once start 15 end 4294967295 of 4294967295 longest 4294967295
"""),
    ({"long": GREATEST, "low": 1}, "--every low=4294967295", """\
service low gl 1 cycles 1 every 4294967295 start - end - longest -
service long gl 4 cycles 4294967295 once start - end - longest -
"""),
    ({"long": GREATEST}, "--every long=4294967295", "service long gl 4 cycles 4294967295 every 4294967295 start - end - longest -\n"),
]


def edge_service(name, cycles):
    """It reads, and clears its look-at-me by the last cycle."""
    turns, rest = divmod(cycles - 1, 65_535)
    block = f"for i = 1 to {turns} {{ for k = 1 to 65535 {{ cfsa 0 r -> v }} }} for k = 1 to {rest} {{ cfsa 0 r -> v }} cclc {name}"
    return f"service {name} within 4294967295 cycles event 0 words {{ cdreg r 1 {STATIONS[name]} 0 {block} }}\n"


def edge_script(services):
    lams = "".join(f"cdlam {it} 1 {STATIONS[it]} 0\n" for it in services)
    return f"{lams}var v i k\n{''.join(edge_service(*it) for it in services.items())}".encode()


class Calls(Room):
    def test_many(self):
        """15 procedures, each of which calls the one before it four times: its cycles are counted, and not listed."""
        cycles, steps, bodies = 3, 1, ["proc p0() within 3 cycles event 0 words steps 1 { cclc adc }"]
        for k in range(1, 15):
            cycles, steps = 4 * cycles, 4 * (1 + steps)
            bodies.append(f"proc p{k}() within {cycles} cycles event 0 words steps {steps} {{ {f'call p{k - 1}() ' * 4}}}")
        script = "\n".join(["cdlam adc 1 1 5 12", *bodies, f"service adc within {cycles} cycles event 0 words {{ call p14() }}\n"])
        (self.room / "script").write_text(script)
        status, out, _ = called("response", "@sample", self.room / "script", timeout=5)
        self.assertEqual((status, out.decode()), (0, f"service adc gl 3 cycles {cycles} once start 0 end {cycles} longest {cycles} clears 2\n"))


class Edges(Room):
    def test_lines(self):
        program = Program(PROGRAM, self.room)
        for services, words, lines in EDGES:
            with self.subTest(words=words):
                inputs = Inputs(EDGE_PLAN, edge_script(services), words=words.encode())
                for told in tell("response", inputs), program.call("response", inputs):
                    self.assertEqual((told.status, told.out.decode(), told.err), (0, lines, b""))


if __name__ == "__main__":
    unittest.main()
