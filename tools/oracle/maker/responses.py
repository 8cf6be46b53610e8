"""Scripts of several services with rates, for `response`."""
from __future__ import annotations

from random import Random
from typing import Dict, List, Tuple

from oracle.reader.checker import Checker
from oracle.reader.engines import Inputs, checked
from oracle.reader.refusals import MOST, Refused
from oracle.reader.response import response_of, services_of

NAMES = ["adc", "reg", "tick", "trip", "scaler", "busy_1", *(f"lam_{it}" for it in range(17))]
# F2 at 1 and F9 take the look-at-me of their module away, F0 at 1 does not.
TYPE = b"""[[type]]
name = "A"
commands = [ { f = 0, a = 0, to = 1 }, { f = 2, a = 0 }, { f = 2, a = 1, clears = true }, { f = 9, a = 0, clears = true },
  { f = 8, a = 0 }, { f = 10, a = 0 }, { f = 24, a = 0 }, { f = 26, a = 0 } ]
"""
# What clears the look-at-me {0} of crate {1} on every way, and what need not.
CLEARS = (
    "cclc {0} ", "cclc {0} ", "if q {{ cclc {0} }} else {{ cclc {0} }} ", "lock {1} {{ cclc {0} }} ", "for i = 1 to 2 {{ cclc {0} }} ",
    "for i = 1 to 2 each {{ cclc {0} }} ",
    "if q {{ lock {1} {{ cclc {0} }} }} else {{ for k = 0 to 0 {{ cclc {0} }} }} ",
)
LEAVES = (
    "", "if q {{ cclc {0} }} ", "for i = 2 to 1 {{ cclc {0} }} ", "for i = 2 to 1 each {{ cclc {0} }} ", "if q {{ cclc {0} }} else {{ }} ", "ctlm {0} ",
    "for i = 1 to v % 2 {{ cclc {0} }} ",
)
# What may clear or hide it, maybe in another service, and what does not; {2} is its station.
TOUCHES = (
    "cclc {0} ", "cclm {0} off ", "cclm {0} on ", "cccz {1} ", "cccc {1} ", "cccd {1} off ", "cccd {1} on ", "ccci {1} on ", "ctlm {0} ",
    "cdreg s 1 {1} {2} 0 cfsa 9 s ", "cdreg s 1 {1} {2} 0 cfsa 2 s -> v ", "cdreg s 1 {1} {2} 1 cfsa 0 s -> v ", "cdreg s 1 {1} {2} (v % 2) cfsa 2 s -> v ",
    "cdreg s 1 {1} {2} 0 cfsa 10 s ", "cdreg s 1 {1} {2} 0 cfsa 24 s ", "cdreg s 1 {1} 28 8 cfsa 26 s ", "cdreg s 1 {1} 30 10 cfsa 24 s ",
    "cdreg s 1 {1} {2} 0 cfmad 2 s s max 1 tally k ", "cdreg s 1 {1} {2} 0 cfubc 2 s max 1 tally k ", "cdreg s 1 {1} {2} 1 cfubr 2 s max 1 limit 2 tally k ",
    "for i = 2 to 1 {{ cclc {0} }} ", "for i = 0 to 1 each {{ cdreg s 1 {1} {2} i cfsa 2 s -> v }} ", "for i = 1 to 2 each {{ cccd i off }} ",
    "for i = 2 to 1 each {{ cccz i }} ", "if q {{ cclc {0} }} ", "call p() ",
)


def make_plan(random: Random, bits: List[int]) -> Tuple[bytes, List[Tuple[int, int]]]:
    """A plan of two crates with a station for each bit, and where these are."""
    places = [(random.choice((1, 2)), n) for n in range(1, len(bits) + 1)]
    text = TYPE
    for crate in (1, 2):
        stations = ", ".join(f'{{ n = {n}, type = "A", gl = {bit} }}' for bit, (own, n) in zip(bits, places) if own == crate)
        text += f"[[crate]]\nnumber = {crate}\nwaits = {random.choice((0, 0, 1, 2, 15))}\nstation = [ {stations} ]\n".encode()
    return text, places


def make_block(random: Random, crate: int) -> str:
    """Statements of a service. It takes its bound where each Q is 1 and all waits are the greatest."""
    read, count = "cfsa 0 r -> v ", random.choice((0, 1, 1, 1, 2, 2, 3, 4, 6))
    return random.choice((
        read * count, read * count, f"for i = 1 to {count} {{ {read}}} ", f"lock {crate} {{ {read * count}}} ", f"cfubc 0 r max {count} tally i ",
        f"{read}if q {{ {read * count}}} ", f"{read}lock {crate} {{ {read * count}}} ",
    ))


def make_script(random: Random, places: List[Tuple[int, int]]) -> bytes:
    """A service for each place. Half of the scripts do their part for all look-at-mes."""
    lams = list(zip(random.sample(NAMES, len(places)), places))
    is_kept = random.random() < 0.5
    one = random.choice(lams)[0]
    text = "".join(f"cdlam {name} 1 {c} {n} 0\n" for name, (c, n) in lams) + "var v i k\n"
    text += f"proc p() within 99 cycles event 0 words steps 99 {{ {'cclc' if is_kept else random.choice(('cclc', 'ctlm'))} {one} }}\n"
    for name, (c, n) in lams:
        clears = random.choice((*CLEARS, "call p() ") if name == one else CLEARS if is_kept or random.random() < 0.7 else LEAVES).format(name, c)
        parts = [clears, *(make_block(random, c) for _ in range(random.choice((1, 1, 2))))]
        if not is_kept and random.random() < 0.3:
            other, (oc, on) = random.choice(lams)
            parts.append(random.choice(TOUCHES).format(other, oc, on))
        random.shuffle(parts)
        if random.random() < 0.01:
            parts.append(f"for i = 1 to {random.choice((9_000, 65_535))} {{ for k = 1 to {random.choice((40, 65_535))} {{ cfsa 0 r -> v }} }}")
        linefeed, promised = random.choice(("", "\n")), MOST if random.random() < 0.99 else random.choice((0, 1, 5))
        text += f"service {name} within {promised} cycles event {random.choice((12, 4096))} words {{ cdreg r 1 {c} {n} 0\n{linefeed.join(parts)}}}\n"
    return text.encode()


def make_rate(random: Random, cycles: int, total: int) -> int:
    """Some rates leave room for all services, some nearly do, and some are at an edge."""
    near = cycles + random.choice((-1, -1, 0, 1, 2, 3))
    edge = random.choice((1, MOST, near, total + random.randrange(-2, 3), 2 * total))
    close = random.randrange(2 * total // 3, 4 * total // 3 + 2)
    return random.choices((edge, close, random.randrange(total + 1, 5 * total + 3)), (10, 55, 35))[0]


def make_rates(random: Random, cycles: Dict[str, int]) -> Dict[str, int]:
    """Rates of most services. Now and then all have one that leaves just enough room: then a later call of a stretch may wait longest."""
    total = sum(cycles.values())
    if random.random() < 0.3:
        rates = {name: random.randrange(9 * total // 10, 6 * total // 5 + 2) for name in cycles}
    else:
        rates = {name: make_rate(random, it, total) for name, it in cycles.items() if random.random() < 0.7}
    return {name: min(MOST, max(1, it)) for name, it in rates.items()}


def make_words(random: Random, checker: Checker) -> bytes:
    """Rates, promises near the ends of some services, and now and then a word that is at fault."""
    every = make_rates(random, {it.name: it.cycles for it in services_of(checker, {})})
    services = services_of(checker, every)
    words = [f"--every {name}={rate}" for name, rate in every.items()]
    for service in services:
        if random.random() < 0.2:
            found = response_of(services, service)
            most = random.choice((0, MOST)) if found is None or random.random() < 0.1 else found.end + random.choice((-1, 0, 0, 1, 9))
            words.append(f"--within {service.name}={min(MOST, max(0, most))}")
    if random.random() < 0.02:
        words.append(random.choice((*words, "--every nobody=7", "--within nobody=7")))
    random.shuffle(words)
    return " ".join(words).encode()


def make_inputs(random: Random) -> Inputs:
    """A plan, a script of some services, which is mostly accepted, and words for it."""
    count = random.randrange(2, 7) if random.random() < 0.95 else random.randrange(1, 1 + len(NAMES))
    plan, places = make_plan(random, random.sample(range(1, 25), count))
    inputs = Inputs(plan, make_script(random, places))
    try:
        return inputs._replace(words=make_words(random, checked(inputs)))
    except Refused:
        return inputs._replace(words=b"--every adc=9")
