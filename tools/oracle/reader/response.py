"""How long look-at-mes wait at most: the lines of `response`, over the bounds and the rates of services."""
from __future__ import annotations

import functools
from typing import Dict, List, NamedTuple, Optional, Tuple

from oracle.reader.checker import Checker
from oracle.reader.look_at_mes import Looks, Unkept
from oracle.reader.plan import gl_of
from oracle.reader.refusals import MOST

ROUNDS = 65_535
OPTIONS = "--every", "--within"


class WordFault(Exception):
    """A fault of the words. Its message is what the program prints after `fault`."""


class Service(NamedTuple):
    """A service: its name, its graded-L bit, its bound in cycles, and the least cycles between two look-at-mes (None if nothing was said)."""

    name: str
    bit: int
    cycles: int
    every: Optional[int]

    def calls(self, elapsed: int) -> int:
        """How often it is called at most within this number of cycles."""
        return 1 if self.every is None else elapsed // self.every + 1


class Response(NamedTuple):
    """The most cycles from a look-at-me until its service begins and until it has ended, and the longest stretch."""

    start: int
    end: int
    longest: int


class NoNumber(Exception):
    """A service has no such numbers."""


class Search:
    """Finds the least numbers that do not change. All of one service share the limit of rounds."""

    def __init__(self) -> None:
        self.rounds = 0

    def least(self, sure: int, callers: List[Service]) -> int:
        """The least number of cycles that holds `sure` and all calls of `callers` within it."""
        elapsed, needed = -1, 0
        while elapsed != needed:
            elapsed = needed
            self.rounds += 1
            needed = sure + sum([it.calls(elapsed) * it.cycles for it in callers])
            if self.rounds > ROUNDS or needed > MOST:
                raise NoNumber
        return elapsed


@functools.lru_cache(maxsize=32)
def response_of(services: Tuple[Service, ...], service: Service) -> Optional[Response]:
    """The numbers of one of these services, or None."""
    search = Search()
    before = max([0, *(it.cycles for it in services if it.bit > service.bit)])
    lower = [it for it in services if it.bit < service.bit]
    try:
        longest = search.least(before, [*lower, service])
        start = 0
        for earlier in range(service.calls(longest)):
            start = max(start, search.least(before + earlier * service.cycles, lower) - earlier * (service.every or 0))
    except NoNumber:
        return None
    return Response(start, start + service.cycles, longest)


def kept_of(services: Tuple[Service, ...], unkept: List[Unkept]) -> List[Service]:
    """The services that have numbers: there are none from the bit on for which the script does not do its part."""
    return [it for it in services if not unkept or it.bit < unkept[0].bit]


def rates_of(words: List[str]) -> Tuple[Dict[str, int], Dict[str, int]]:
    """The numbers of --every and --within, by service. WordFault if one of them names a service twice."""
    rates: Dict[str, Dict[str, int]] = {it: {} for it in OPTIONS}
    for option, word in zip(words[::2], words[1::2]):
        name, _, cycles = word.partition("=")
        if name in rates[option]:
            raise WordFault(f"{option} {name} twice")
        rates[option][name] = int(cycles)
    return rates["--every"], rates["--within"]


def services_of(checker: Checker, every: Dict[str, int]) -> Tuple[Service, ...]:
    """The services of an accepted script, in the order of their bits."""
    bodies = [(it.name, cost.cycles) for it, cost in zip(checker.script.bodies, checker.costs) if it.is_service]
    services = [Service(name, gl_of(checker.script, checker.plan, name) or 0, cycles, every.get(name)) for name, cycles in bodies]
    return tuple(sorted(services, key=lambda it: it.bit))


def line_of(service: Service, found: Optional[Response], within: Optional[int], twice: bool) -> str:
    start, end, longest = found or ("-", "-", "-")
    rate = "once" if service.every is None else f"every {service.every}"
    promised = "" if within is None else f" of {within}"
    again = " clears 2" if twice else ""
    return f"service {service.name} gl {service.bit} cycles {service.cycles} {rate} start {start} end {end}{promised} longest {longest}{again}"


def response_lines(checker: Checker, every: Dict[str, int], within: Dict[str, int]) -> Tuple[List[str], bool]:
    """The lines of an accepted script, and whether it does its part and each end keeps to what --within says. WordFault if a service is not the script's."""
    services = services_of(checker, every)
    for option, rates in zip(OPTIONS, (every, within)):
        for name in rates:
            if name not in [it.name for it in services]:
                raise WordFault(f"{option} {name}: no such service")
    looks = Looks(checker)
    unkept, twice = looks.unkept(), {it.name: looks.may_clear_twice(it) for it in checker.script.services()}
    found = {it.name: response_of(services, it) for it in kept_of(services, unkept)}
    lines = [*(line_of(it, found.get(it.name), within.get(it.name), twice[it.name]) for it in services), *(it.text() for it in unkept)]
    ends = {name: it.end for name, it in found.items() if it}
    return lines, not unkept and all(name in ends and ends[name] <= most for name, most in within.items())
