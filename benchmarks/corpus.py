"""The corpus: scripts on the plan `@sample` in five shapes, made of what the pages, the tests and the oracle have. Each text has at most `SIZE` bytes,
and at least a fiftieth less."""
import itertools
import os
import pathlib
import random
import re
import sys

TOP = pathlib.Path(__file__).resolve().parent.parent
sys.path.insert(0, os.path.join(TOP, "tools"))
from oracle.maker import nodes, scripts  # noqa: E402
from oracle.reader.engines import Inputs, checked  # noqa: E402
from oracle.reader.plan import sample_plan  # noqa: E402
from oracle.reader.refusals import Refused  # noqa: E402
from oracle.reader.tokens import KEYWORDS  # noqa: E402

SIZE = 65_536
SEED = 9
WORDS = KEYWORDS | {b"each"}
OPENING = "cdlam adc 1 1 5 12\n"
HEADING = "service adc within 4294967295 cycles event 4096 words {\n"
DECLARED = re.compile(r"(?ms)^(?:cdlam|table) [^\n]*\n|^proc .*?^\}\n|^proc [^\n]*\}\n")
# Cycles, words and steps of an oracle's body that are few enough for 4,096 words in all.
FEW = (10_000, 16, 10_000)


def filled(opening, pieces, end="}\n"):
    """A text of the opening, then of these pieces again and again, as many as there is room for."""
    left, taken = SIZE - len(opening) - len(end), []
    for number in range(SIZE):
        piece = pieces[number % len(pieces)]
        if len(piece) > left:
            return opening + "".join(taken) + end
        taken.append(piece)
        left -= len(piece)


def opening_of(texts):
    """What the texts declare, up to the statements of one service."""
    declared = dict.fromkeys(it for text in texts for it in DECLARED.findall(text))
    names = dict.fromkeys([*"vkit", *(it for text in texts for it in names_of(text))])
    return f"{''.join(declared)}var {' '.join(names)}\n{HEADING}"


def names_of(text):
    return [it for line in re.findall(r"(?m)^var ([^\n#]*)", text) for it in line.split()]


def statements_of(text):
    """Its variables as 0, as they are where a service begins, and the statements of its service."""
    zeros = "".join(f"  {it} = 0\n" for it in names_of(text))
    return zeros + text[text.index("{", text.index("service ")) + 1 : text.rindex("}")].strip("\n") + "\n"


def recipes():
    """The scripts of the pages that go together: what they declare, and the statements of each."""
    taken = []
    for page in sorted((TOP / "docs").glob("*.md")):
        for text in re.findall(r"(?ms)^```camac accepted(?![^\n]* on )[^\n]*\n(.*?)^```$", page.read_text(encoding="utf-8")):
            texts = [*taken, text]
            try:
                checked(Inputs(None, (opening_of(texts) + "".join(map(statements_of, texts)) + "}\n").encode()))
            except Refused:
                continue
            taken = texts
    return opening_of(taken), [statements_of(it) for it in taken]


def mistakes():
    """By each rule the first mistake of tests/mistakes.text that stands in a service."""
    found = {}
    for part in (TOP / "tests/mistakes.text").read_text(encoding="utf-8").split("\n== ")[1:]:
        text, rule = re.fullmatch(r"[^\n]*\n(.*?\n)-- (\w\d+).*", part, re.S).groups()
        if not text.startswith("-- "):
            found.setdefault(rule, text)
    return found


def oracle_scripts():
    """Statements that the oracle makes for the procedures and tables of a script that it made before."""
    for seed in itertools.count(SEED):
        made = scripts.ScriptMaker(random.Random(seed), sample_plan())
        made.make()
        if made.repair() and len(made.bodies()) > 3:
            break
    services = [it for it in made.bodies() if it.parameters is None]
    lam, declared, pieces, size = services[0].name, [it for it in made.nodes if it not in services], [], 0
    # What a loop's body writes may be any number after it: what is accepted behind these two is accepted everywhere.
    first, *others = made.variables
    forgetting = [nodes.Node(f"for {first} = 0 to 1", [nodes.Node(f"{it} = {it}") for it in others]), nodes.Node(f"{first} = {others[0]}")]
    while size < SIZE:
        made.maker.begin(made.variables, False)
        body = nodes.BodyNode(lam, None, [*forgetting, *made.maker.block(made.maker.left)])
        made.nodes = [*declared, body]
        if made.repair() and all(it <= most for it, most in zip(body.numbers, FEW)):
            pieces.append(nodes.text_of(body.body[2:]))
            size += len(pieces[-1])
    return filled(nodes.text_of(declared) + HEADING.replace("adc", lam), pieces)


def long_numbers():
    """A table and statements with numbers of four to nine digits."""
    number = random.Random(SEED).randrange
    words = " ".join(str(number(1_000_000, 16_777_216)) for _ in range(1_024))
    form = "v = (v % {} + {}) / {} + k % {} * {}\n".format
    ends = (10**9, 10**9, 10**7, 10**5, 10**4)
    return filled(f"{OPENING}table ramp = {words}\nvar v k\n{HEADING}", [form(*(number(it // 10, it) for it in ends)) for _ in range(1_000)])


def alike(text, end="_of_this_crate"):
    """The text with this end on each name."""
    return re.sub(r"#[^\n]*|[A-Za-z]\w*", lambda it: it[0] if it[0].encode() in WORDS or it[0][0] == "#" else it[0] + end, text)


def shapes():
    """The texts of each shape. Only the mistakes have several: the recipes, and a mistake at the end."""
    opening, pieces = recipes()
    return {
        "recipes": [filled(opening, pieces)],
        "mistakes": [filled(opening, pieces, f"{it}}}\n") for it in mistakes().values()],
        "oracle": [oracle_scripts()],
        "long numbers": [long_numbers()],
        "names that end alike": [filled(alike(opening), [alike(it) for it in pieces])],
    }
