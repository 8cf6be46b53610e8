"""Small scripts at the edge of one rule of the checker: half of them keep it, and half break it by one."""
from __future__ import annotations

from random import Random
from typing import Callable, List

from oracle.maker.nodes import spread

# A plan with registers of several widths, two crates of the same modules, and waits that differ.
PLAN = b"""buffer = 64
[[type]]
name = "W"
commands = [ { f = 0, a = 0, to = 3, width = 8 }, { f = 0, a = 4, to = 7, width = 20 }, { f = 0, a = 8, to = 15, probe = true },
 { f = 16, a = 0, to = 3, width = 8 }, { f = 16, a = 4, to = 7, width = 20 }, { f = 8, a = 0 }, { f = 10, a = 0 }, { f = 24, a = 0 }, { f = 26, a = 0 } ]
[[crate]]
number = 2
waits = 1
station = [ { n = 1, type = "W", gl = 1 }, { n = 2, type = "W", gl = 2 }, { n = 4, type = "W" } ]
[[crate]]
number = 3
waits = 5
station = [ { n = 1, type = "W" }, { n = 2, type = "W", gl = 7 } ]
""".replace(b",\n {", b", {")
OPENING = "cdlam l 1 2 1 0\ntable g = 1 255 256\ntable h = 0 255\nvar v k i t\n"


def some(random: Random, *values: object) -> str:
    return str(random.choice(values))


def wide(random: Random) -> str:
    """E5: a value and its register's width, of which the least counts."""
    sub, value = random.choice((("4", 2**20), ("4", 65_536), ("4", 65_536), ("3", 256), ("3 + v % 2", 256)))
    before = "cdreg r 1 2 1 4 cfsa 0 r -> v"
    return f"{before} cdreg r 1 2 1 {sub} {some(random, 'cfsa', 'cssa', 'cssa')} 16 r <- {value - random.choice((0, 1))}"


def word(random: Random) -> str:
    """E16."""
    return f"v = {some(random, 16_777_215, 16_777_216)} put v"


def count(random: Random) -> str:
    """E14 and, for a table's word, E5."""
    table, most = random.choice((("g", 3), ("h", 2)))
    limit = random.choice(("", f" limit {some(random, 0, 3, 4)}"))
    text = f"cdreg r 1 2 1 {some(random, 0, 4)} {'cfubr' if limit else 'cfubc'} 16 r table {table} max {most + random.choice((0, 1))}{limit} tally t"
    return text + " " + watch(random, "t")


def watch(random: Random, name: str) -> str:
    """Nothing, or a loop whose steps show the range of a variable."""
    return random.choice(("",f"for i = 1 to {name} {{}}", f"for i = {name} to 60000 {{}}"))


def unset(random: Random) -> str:
    """E6: a register that is set in one arm, in a loop, or before one that sets it again."""
    one = "cdreg r 1 2 1 0"
    in_arms = f"if q {{ {one} }}", f"if q {{ {one} }} else {{ {one} }}"
    in_loops = f"for i = 1 to 2 {{ {one} }}", f"{one} for i = 1 to 2 {{ cfsa 0 r -> v {one} }}"
    in_turns = f"for i = {some(random, 1, 3)} to 2 each {{ if i > {some(random, 0, 1)} {{ cfsa 0 r -> v }} {one} }}"
    return f"{random.choice((one, *in_arms, *in_loops, in_turns))} cfsa 0 r -> v"


def direction(random: Random) -> str:
    """E3."""
    return f"cdreg r 1 2 1 0 {random.choice(('cfsa', 'cssa'))} {some(random, 0, 16, 10)} r {some(random, '-> v', '<- 1', '')}"


def crates(random: Random) -> str:
    """E13 and E1: registers of a scan, and the greatest waits of several crates."""
    first, last = some(random, 2, 3, "2 + v % 2"), some(random, 2, 3, "2 + v % 2")
    scan = f"cfmad 0 a b max {some(random, 1, 2, 9)} tally t"
    return f"v = {some(random, 0, 1)} cdreg a 1 {first} 1 0 cdreg b 1 {last} {some(random, 1, 2)} {some(random, 3, 15)} {scan}"


def several(random: Random) -> str:
    """One cycle that may go to several crates, stations and sub-addresses."""
    known = "cdreg r 1 2 1 0 cfsa 0 r -> v"
    crate, station = some(random, "2 + v % 2", "3 - v % 2", "2"), some(random, "1 + v % 2", "1 + v % 3", "2 + v % 3")
    return f"{known} cdreg r 1 {crate} {station} v % {some(random, 4, 5, 16, 17)} {some(random, 'cfsa', 'cssa')} 0 r -> v {watch(random, 'v')}"


def loop_variable(random: Random) -> str:
    """E17, and what is known of the variable after its loop."""
    inner = some(random, "i = 1", "for i = 1 to 2 {}", "cdreg r 1 2 1 0 cfsa 0 r -> i", "k = i", "cdreg r 1 2 1 0 cfubc 0 r max 1 tally i")
    loop = f"i = {some(random, 0, 9)} for i = {some(random, 3, 4)} to {some(random, 4, 6)} {some(random, '', 'each')} {{ {inner} }}"
    return f"{loop} k = i for t = i to 60000 {{}} for t = 1 to k {{}}"


def kept(random: Random) -> str:
    """E8 and E9."""
    start, last = random.choice((0, 5)), random.choice((5, 6))
    step = f"if v < {some(random, last, last + 1)} {{ v = v + 1 }}"
    loop = some(random, "for i = 1 to 3", "k = 3 while k > 0 turns 3 by k")
    fall = "k = k - 1" if "while" in loop else ""
    return f"v = {start} {loop} keep v in {some(random, 0, start, start + 1)}..{last} {{ {step} {fall} }} {watch(random, 'v')}"


def turn_by_turn(random: Random) -> str:
    """E5 and E4: a sum of exactly so many turns, of the loop's own numbers, of readings, or of an inner loop."""
    first, last = random.choice(((1, 5), (0, 4), (5, 9)))
    read = "cdreg r 1 2 1 i - i cfsa 0 r -> t"
    step = some(random, "51", "52", "i", "i * i", "t % 52", "t % 53", "(t - t % 17)", f"{first + 255} - i * 51")
    inner = f"for t = {some(random, 1, 1, 2)} to {some(random, 1, 3)} each {{ v = v + {some(random, 17, 18, 'i')} }}"
    body = some(random, f"{read} v = v + {step}", f"{read} v = v + {step}", inner)
    return f"for i = {first} to {last} each {{ {body} }} cdreg r 1 2 1 {some(random, 0, 4)} cfsa 16 r <- v {watch(random, 'v')}"


def judged(random: Random) -> str:
    """E10: what `each` loops judge, where most of them cannot be reached."""
    turns, one = random.choice(((65_535, ""), (65_536, ""), (32_768, "v = 1"), (21_845, "v = 1 put 1"), (21_845, "if q { v = 1 }")))
    inner = f"for t = 1 to {turns} each {{ {one} }}"
    double = f"for k = 1 to 4 each {{ for t = 1 to {some(random, 8191, 8190)} each {{ {some(random, 'v = 1', '', 'ctci 3')} }} }}"
    more = f"for i = 1 to {turns + random.choice((0, 1))} each {{ {one} }}"
    loops = some(random, more, double, f"{inner} for k = 1 to {some(random, 0, 1)} each {{ }}", f"if q {{ {inner} }} else {{ {inner} }}")
    return loops if random.random() < 0.05 else f"if v > {some(random, 0, 1)} {{ {loops} }}"


def measure(random: Random) -> str:
    """E7 and E10."""
    start, step, turns = random.choice(((9, 1, 9), (9, 2, 4), (9, 3, 3), (65_535, 1, 65_535), (65_536, 1, 65_536)))
    good = f"k = k - {step}"
    fall = some(random, *[good] * 4, "k = k - 0", f"k = {step}", f"if q {{ {good} }}", f"{good} k = k - 1", "k = v - 1", f"k = (k - ({step}))")
    condition = some(random, "k > 0", f"k >= {step}", f"not k < {step}")
    return f"k = {start} while {condition} turns {turns - random.choice((0, 0, 0, 1))} by k {{ {fall} }} {watch(random, 'k')}"


def argument(random: Random) -> str:
    """E21."""
    return f"cdreg r 1 2 1 {some(random, 0, 4)} cfsa 0 r -> v call p({some(random, 'v', 'v % 256', 'v % 257')}, {some(random, 0, 1, 2, 3)})"


def locks(random: Random) -> str:
    """E15, and what cycles cost in a lock."""
    call = some(random, "ctci 3", "ctci 2", "cclc l", "call p(1, 1)", "lock 2 {}", "lock 3 { ctci 3 }", "lock 2 + v {}")
    return f"lock {some(random, 2, 3, 1, 'v + 2')} {{ {call} {call} }} {call}"


def comparison(random: Random) -> str:
    """What a condition says of the variables on both sides."""
    sign = random.choice(("<", "<=", ">", ">=", "==", "!="))
    edge = some(random, 0, 7, 255)
    sides = "v {0} t", "t {0} v", "v {0} {1}", "(v) {0} v", "not v {0} t", "v {0} t and t {0} 9", "v + 1 {0} t"
    condition = random.choice(sides).format(sign, edge)
    start = f"cdreg r 1 2 1 0 cfsa 0 r -> v t = v % {some(random, 8, 9)}"
    arms = [f"{{ {watch(random, 'v')} {watch(random, 't')} }}" for _ in range(2)]
    return f"{start} if {condition} {' else '.join(arms)} {watch(random, 'v')}"


def arithmetic(random: Random) -> str:
    """E4."""
    sums = "v - 255", "255 - v", "4294967295 - v", "4294967040 + v", "4294967041 + v"
    products = "v * 16843009", "v * 16843010", "v / 2 * 2 - v", "v % 300", "v % 255"
    small = f"if k > 60000 {{ k = k % {some(random, 7, 60_000)} }}"
    return f"cdreg r 1 2 1 0 cfsa 0 r -> v k = {some(random, *sums, *products)} {small} {watch(random, 'k')}"


def repeated(random: Random) -> str:
    """What transfers cost, and what their tally can be."""
    most = some(random, 0, 1, 3, "v % 4")
    limit = some(random, 0, 2, 5, "v % 6")
    transfer = some(random, f"cfubc 0 r max {most}", f"cfubr 0 r max {most} limit {limit}", f"cfmad 0 r s max {most}")
    first = f"cdreg r 1 2 {some(random, 1, 2)} {some(random, 0, 3, 14, '14 + v % 2')}"
    last = f"cdreg s 1 2 {some(random, 1, 2)} {some(random, 3, 15, '2 + v % 9')}"
    return f"{first} {last} cfsa 0 r -> v {transfer} tally t {watch(random, 't')}"


def scanned(random: Random) -> str:
    """A scan from the end of a station on, into the next one or not."""
    first, last = f"cdreg a 1 2 1 {some(random, 0, 13, 14, 15)}", f"cdreg b 1 2 {some(random, 1, 2, 2, 2)} {some(random, 0, 1, 15)}"
    return f"{first} {last} cfmad 0 a b max {some(random, 1, 2, 4, 17, 32)} tally t {watch(random, 't')}"


EDGES: List[Callable[[Random], str]] = [
    wide, word, count, unset, direction, crates, several, loop_variable, kept, turn_by_turn, turn_by_turn, judged, measure, argument, locks, comparison, arithmetic, repeated,
    scanned, scanned, scanned,
]


def make_edge(random: Random) -> bytes:
    """A script for `PLAN`."""
    body = random.choice(EDGES)(random)
    promised = f"within {some(random, 6, 6, 6, 6, 6, 9, 5)} cycles event 1 words steps {some(random, 2, 2, 2, 2, 2, 3, 1)}"
    procedure = f"proc p(a in 0..255, b in {some(random, 1, 2)}..2) {promised} {{ put a ctci 3 }}\n"
    numbers = f"within {some(random, 4_294_967_295, 4_294_967_295, 4_294_967_295, 2, 12)} cycles event {some(random, 64, 64, 64, 1)} words"
    text = f"{OPENING}{procedure}service l {numbers} {{\n{body}\n}}\n"
    return (spread(random, text) if random.random() < 0.3 else text).encode("latin-1")
