"""Scripts at a limit of the language, or one past it."""
from __future__ import annotations

from random import Random
from typing import Callable, List

OPENING = "cdlam adc 1 1 5 12\n"
HEADING = "service adc within 4294967295 cycles event 4096 words"


def service(body: str, variables: str = "v k") -> str:
    return f"{OPENING}var {variables}\n{HEADING} {{\n{body}\n}}\n"


def names(count: int, first: str = "n") -> List[str]:
    return [f"{first}{it}" for it in range(count)]


def variables(random: Random, past: int) -> str:
    """64 variables, some of which are parameters."""
    parameters = random.choice((0, 1, 8, 9))
    procedures = "".join(f"proc p{it}({name} in 0..1) within 0 cycles event 0 words steps 0 {{}}\n" for it, name in enumerate(names(parameters, "m")))
    last = random.choice(("", "", " n1", " adc"))
    texts = [procedures, f"var {' '.join(names(64 - parameters + past))}{last}\n"]
    random.shuffle(texts)
    return OPENING + "".join(texts) + HEADING + " {}\n"


def registers(random: Random, past: int) -> str:
    """64 registers of a service and of the procedures together."""
    own, text = random.choice((0, 1, 20)), OPENING
    lines = [f"cdreg {it} 1 1 5 0" for it in names(64 - own + past)] + random.choice(([], ["cdreg n1 1 1 6 0"]))
    other = f"proc p() within 0 cycles event 0 words steps 99 {{\n{chr(10).join(f'cdreg {it} 1 1 5 0' for it in names(own, 'm'))}\n}}\n"
    main = f"{HEADING} {{\n{chr(10).join(lines)}\n}}\n"
    return text + (other + main if random.random() < 0.5 else main + other)


def lams(random: Random, past: int) -> str:
    return "".join(f"cdlam {it} 1 1 {random.choice((5, 6))} 0\n" for it in names(64 + past))


def tables(random: Random, past: int) -> str:
    count = random.choice((16 + past, 1))
    words = 1024 + past if count == 1 else 2
    last = str(random.choice((1, 16_777_216)))
    return "".join(f"table {it} = {' '.join(['7'] * (words - 1))} {last}\n" for it in names(count)) + service("")


def services(_random: Random, past: int) -> str:
    return "".join(f"cdlam {it} 1 1 5 12\n" for it in names(24 + past)) + "".join(
        f"service {it} within 0 cycles event 0 words {{}}\n" for it in names(24 + past)
    )


def procedures(_random: Random, past: int) -> str:
    return "".join(f"proc {it}() within 1 cycles event 1 words steps 1 {{}}\n" for it in names(16 + past)) + service("")


def parameters(random: Random, past: int) -> str:
    last = random.choice(("", "", ", n1 in 0..1"))
    ranges = ", ".join(f"{it} in 0..9" for it in names(8 + past)) + last
    arguments = ", ".join("1" for _ in range(8 + random.choice((past, -1, 0))))
    return f"proc p({ranges}) within 1 cycles event 1 words steps 1 {{}}\n" + service(f"call p({arguments})")


def statements(random: Random, past: int) -> str:
    one = random.choice(("v = v", "v = 1", "put 1", "cclc adc"))
    last = random.choice(("", "", "w = 1", "}", "lock 1 {}"))
    return service("\n".join([one] * (4096 + past)) + "\n" + last)


def depth(random: Random, past: int) -> str:
    """16 open brackets: of blocks, of expressions, of a call, or of a procedure that is called."""
    blocks = random.randrange(1, 16)
    rest = 16 - blocks + past
    inner = f"v = {'(' * rest}1{')' * rest}"
    if random.random() < 0.5:
        calls = random.choice((0, 1))
        own = max(1, rest - calls)
        procedure = f"proc p() within 9 cycles event 9 words steps 99 {'{ if q ' * (own - 1)}{{ }}{'}' * (own - 1)}\n"
        middle = "proc m() within 9 cycles event 9 words steps 999 { call p() }\n" * calls
        inner = f"call {'m' if calls else 'p'}()"
        return procedure + middle + service("if q {" * (blocks - 1) + inner + "}" * (blocks - 1))
    return service("if q {" * (blocks - 1) + inner + "}" * (blocks - 1))


def operators(random: Random, past: int) -> str:
    signs = [random.choice(("+ 0", "- 0", "* 1", "/ 1", "% 9", "+ (0)")) for _ in range(32 + past)]
    expression = f"v {' '.join(signs)}"
    where = random.choice(("v = {0}", "if {0} > {0} {{}}", "cdreg r 1 1 5 {0}", "put ({0})", "for k = {0} to {0} {{}}"))
    return service(where.format(expression))


def parts(random: Random, past: int) -> str:
    last = random.choice(("", "", " and", " and w", " and {", " and (1) < 2"))
    return service(f"if {' and '.join(random.choice(('q', 'not x', 'v < 9', '(v) >= 0')) for _ in range(16 + past))}{last} {{}}")


def name(_random: Random, past: int) -> str:
    return service("", "v " + "N" * (32 + past))


def fifteen_loops(random: Random, _past: int) -> str:
    """Costs that pass every width of a machine."""
    inner = random.choice(("", "ctci 1", "put 1", "cctci 1"))
    word = random.choice(("", "", " each"))
    loops = "".join(f"for n{it} = 1 to {random.choice((65_535, 65_535, 65_536, 2))}{word} {{ " for it in range(15))
    return service(loops + inner + "}" * 15, " ".join(names(15)))


def line_ends(random: Random, past: int) -> str:
    """A fault at the text's end, after lines and comments."""
    return service("put v" * past) + random.choice(("#", "# a\n", "\n\n", "\r", "put", "var", "cdlam")) + "\n" * random.randrange(3)


LIMITS: List[Callable[[Random, int], str]] = [
    variables, registers, lams, tables, services, procedures, parameters, statements, depth, operators, parts, name, fifteen_loops, line_ends,
]


def make_limit(random: Random) -> bytes:
    return random.choice(LIMITS)(random, random.choice((0, 0, 1, 1, 2))).encode()
