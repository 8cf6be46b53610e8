"""Scripts: whole ones that keep the rules, and ones in which words were changed."""
from __future__ import annotations

import re
from random import Random
from typing import Dict, List, Optional

from oracle.maker.changes import change
from oracle.maker.nodes import BodyNode, Node, remove_at, spread, text_of
from oracle.maker.statements import EDGES, Maker
from oracle.reader.checker import Checker
from oracle.reader.grammar import read_script
from oracle.reader.plan import Plan
from oracle.reader.refusals import Refused
from oracle.reader.tokens import KEYWORDS

KEYWORDS_TEXT = frozenset(it.decode() for it in KEYWORDS)
VARIABLES = ("v", "k", "i", "t", "sum", "N1", "v_2", "each", "Z" * 32)
SIGNS = ("{", "}", "(", ")", "+", "-", "*", "/", "%", "=", ",", "<", "<=", ">", ">=", "==", "!=", "->", "<-", "..")
WORD = re.compile(r"[A-Za-z]\w*|\d+|->|<-|[<>=!]=|\.\.|[^\s\w]", re.ASCII)
AFTER_BRANCH = re.compile(r"(cdreg|cdlam)\s+\w+\s+$")
# Words that can be in each other's place.
LIKE = (
    ("cfsa", "cssa"), ("on", "off"), ("cclc", "ctlm"), ("cccz", "cccc", "ctci", "ctcd", "ctgl"), ("ccci", "cccd"), ("q", "x"),
    ("<", "<=", ">", ">=", "==", "!="), ("+", "-", "*"), ("/", "%"), ("->", "<-"),
)


class ScriptMaker:
    """Makes a script for a plan. Statements that the checker refuses are taken out again, mostly."""

    def __init__(self, random: Random, plan: Plan) -> None:
        self.random, self.plan = random, plan
        self.nodes: List[Node] = []
        self.variables = random.sample(VARIABLES, random.randrange(2, 6))

    def lams(self) -> List[str]:
        """Declares LAMs; those that may have a service come first."""
        served: List[str] = []
        others: List[str] = []
        for crate, in_crate in self.plan.crates.items():
            for n, station in in_crate.stations.items():
                subs = [a for f, a in station.module.widths if f in (8, 10, 24, 26)] or [0]
                name = f"l{crate}_{n}"
                (served if station.gl else others).append(name)
                self.nodes.append(Node(f"cdlam {name} 1 {crate} {n} {self.random.choice(subs)}"))
        self.random.shuffle(served)
        self.random.shuffle(self.nodes)
        return served + others

    def tables(self) -> Dict[str, List[int]]:
        tables = {}
        for name in ("g", "ramp")[: self.random.choice((0, 1, 1, 2))]:
            greatest = self.random.choice((1, 15, 255, 255, 4095, 65_535, 16_777_215))
            tables[name] = [self.random.choice((0, greatest, self.random.randrange(greatest + 1))) for _ in range(self.random.randrange(1, 5))]
            self.nodes.append(Node(f"table {name} = {' '.join(str(it) for it in tables[name])}"))
        return tables

    def procedures(self, maker: Maker) -> None:
        for name in ("get", "put_all", "p")[: self.random.choice((0, 0, 1, 1, 2, 3))]:
            ranges = [(self.random.choice((0, 0, 1)), self.random.choice((0, 1, 3, 11, 255, 4095))) for _ in range(self.random.choice((0, 1, 1, 2)))]
            names = ["s", "n"][: len(ranges)]
            maker.begin(names or ["s"], True)
            block = maker.block(3) if names else [*maker.crate_call(), *maker.lam_call(), Node(f"put {maker.number()}")]
            parameters = ", ".join(f"{one} in {first}..{last}" for one, (first, last) in zip(names, ranges))
            self.nodes.append(BodyNode(name, parameters, block))
            maker.procedures[name] = ranges

    def make(self) -> List[Node]:
        lams = self.lams()
        maker = self.maker = Maker(self.random, self.plan, lams or ["none"], self.tables())
        self.procedures(maker)
        self.nodes.insert(self.random.randrange(len(self.nodes) + 1), Node(f"var {' '.join(self.variables)}"))
        for name in lams[: self.random.choice((1, 1, 2, 3))]:
            maker.begin(self.variables, False)
            self.nodes.append(BodyNode(name, None, maker.block(maker.left)))
        for it in self.bodies():
            it.put_numbers((10**6, self.plan.buffer, 10**6))
        return self.nodes

    def bodies(self) -> List[BodyNode]:
        return [it for it in self.nodes if isinstance(it, BodyNode)]

    def refusal(self) -> Optional[Refused]:
        """What refuses the script whatever its headings promise; if nothing does, they get the least numbers."""
        checker = Checker(read_script(text_of(self.nodes).encode()), self.plan, True)
        try:
            checker.judge()
        except Refused as refused:
            return refused
        for node, cost in zip(self.bodies(), checker.costs):
            node.put_numbers(cost)
        return None

    def repair(self) -> bool:
        """Takes out what is refused, statement by statement, and returns whether the rest is accepted. Now and then it leaves a refusal."""
        for _ in range(40):
            try:
                refused = self.refusal()
            except Refused:
                return False
            if refused is None:
                return True
            if refused.code not in ("E2", "L2") and self.random.random() < 0.1:
                return False
            heading = [it for it in self.bodies() if it.line == refused.place]
            if heading and refused.code in ("L2", "L3"):
                self.nodes.remove(heading[0])
            elif heading and heading[0].body:
                heading[0].body.pop(self.random.randrange(len(heading[0].body)))
            elif not remove_at(self.nodes, refused.place):
                return False
        return False

    def spoil(self) -> None:
        """Puts a careless statement into a service, or a second service on its station."""
        services = [it for it in self.bodies() if it.parameters is None]
        if services and self.random.random() < 0.1:
            self.nodes.append(BodyNode(services[0].name, None, []))
        elif services:
            self.maker.is_careless = True
            self.maker.begin(self.variables, False)
            block = self.random.choice(self.random.choice(services).blocks())
            at = self.random.randrange(len(block) + 1)
            block[at:at] = self.maker.statements()

    def promise(self) -> None:
        """Headings that promise more than is needed, or one less."""
        for body in self.bodies():
            how = self.random.random()
            numbers = list(body.numbers)
            at = self.random.randrange(3)
            if how < 0.04:
                numbers[at] = max(0, numbers[at] - 1)
            elif how < 0.3:
                numbers = [min(4_294_967_295, one + self.random.choice((0, 1, 100))) for one in numbers]
            body.put_numbers((numbers[0], numbers[1], numbers[2]))


def another(random: Random, word: str, words: List[str]) -> str:
    """A word that can be in the place of another: a number near it, a sign or word of its kind, a name."""
    if word.isdigit():
        number = int(word)
        near = [number + 1, max(0, number - 1)] * 2 + [2 * number, random.choice(EDGES), random.choice((*EDGES, 4_294_967_296))]
        return str(random.choice(near))
    for like in LIKE:
        if word in like:
            return random.choice(like)
    if word in KEYWORDS_TEXT or not word[0].isalpha():
        return word
    names = [it for it in words if it[0].isalpha() and it not in KEYWORDS_TEXT]
    return random.choice([it for it in names if (it in VARIABLES) == (word in VARIABLES)] if random.random() < 0.9 else names)


def change_meaning(random: Random, text: str) -> str:
    """The text with a number, sign or name changed: most of these keep the grammar."""
    places = [it for it in WORD.finditer(text) if it.group().isdigit() or random.random() < 0.25]
    places = [it for it in places if random.random() < 0.2 or not AFTER_BRANCH.search(text[max(0, it.start() - 40) : it.start()])]
    if not places:
        return text
    place = random.choice(places)
    return text[: place.start()] + another(random, place.group(), [one.group() for one in places]) + text[place.end() :]


def change_words(random: Random, text: str) -> str:
    """The text with a word taken out, doubled, or with another one before it or in its place."""
    places = list(WORD.finditer(text))
    if not places:
        return text
    place = random.choice(places)
    other = random.choice((random.choice(places).group(), random.choice((*SIGNS, *sorted(KEYWORDS_TEXT), "each", "0", "z", "Z" * 33))))
    new = random.choice(("", f"{place.group()} {place.group()}", f"{other} {place.group()}", other, other))
    return text[: place.start()] + new + text[place.end() :]


def change_line(random: Random, text: str) -> str:
    """The text with a line taken out, doubled, or moved."""
    lines = text.splitlines(True)
    line = lines.pop(random.randrange(len(lines)))
    for _ in range(random.choice((0, 1, 2))):
        lines.insert(random.randrange(len(lines) + 1), line)
    return "".join(lines)


def make_troubled(random: Random, plan: Plan) -> bytes:
    """A script for a plan that is refused, mostly, often for several reasons."""
    maker = ScriptMaker(random, plan)
    maker.make()
    if random.random() < 0.9:
        maker.repair()
    for _ in range(random.randrange(1, 5)):
        maker.spoil()
    maker.promise()
    text = text_of(maker.nodes)
    for _ in range(random.choice((0, 1, 2))):
        text = change_meaning(random, text)
    return (spread(random, text) if random.random() < 0.4 else text).encode("latin-1")


def make_misspelt(random: Random, plan: Plan) -> bytes:
    """A script for a plan with a word too many, or none any more, behind a word of any kind."""
    text = text_of(ScriptMaker(random, plan).make())
    ends: Dict[str, List[int]] = {}
    for it in WORD.finditer(text):
        ends.setdefault(it.group() if it.group() in KEYWORDS_TEXT else re.sub(r"\w+", "w", it.group()), []).append(it.end())
    at = random.choice(random.choice([*ends.values()]))
    more = random.choice((*SIGNS, *sorted(KEYWORDS_TEXT), "each", "0", "name"))
    text = text[:at] if random.random() < 0.2 else f"{text[:at]} {more} {text[at:]}"
    return (spread(random, text) if random.random() < 0.2 else text).encode("latin-1")


def make_script(random: Random, plan: Plan) -> bytes:
    """A script for a plan. About half of them are accepted."""
    maker = ScriptMaker(random, plan)
    maker.make()
    if random.random() < 0.9:
        maker.repair()
    if random.random() < 0.2:
        maker.spoil()
    maker.promise()
    text = text_of(maker.nodes)
    how = random.random()
    if how < 0.37:
        for _ in range(random.choice((1, 1, 1, 2, 3))):
            text = change_meaning(random, text)
    elif how < 0.43:
        text = change_words(random, text)
    elif how < 0.46:
        text = change_line(random, text)
    if random.random() < 0.4:
        text = spread(random, text)
    data = text.encode("latin-1")
    return change(random, data) if random.random() < 0.08 else data
