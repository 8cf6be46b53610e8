"""The worked rows of tests/rows, read. tests/rows/README.md shows the form of a row."""
import re
import struct
import typing

from support.live import script
from support.program import TOP

INPUTS = ("PLAN", "SCRIPT", "ANSWERS")
PLAYED = re.compile(r"(plan|plan --commands|check|explain(?: --at \d+:\d+(?: --turn \d+)*| --bounds)?|bounds|costs|tell|response(?: --(?:every|within) \w+=\d+)*|run|drive) ([01])")
# The commands that need no script.
OF_A_PLAN = ("plan", "plan --commands", "explain")
BODY = re.compile(r"BODY(?: within (\d+) cycles event (\d+) words)?")
OWN = re.compile(r"((?:(?:var|table) .*\n)*)((?:.*\n)*)")
EVENT = re.compile(r"gl (\d+) cycles (\d+) missed (\d+) words((?: [0-9a-f]{6})*)")
NO_EVENTS = b"CAMACEV2"
# The text in the place of an event file that was not made, or has no byte.
NOT_MADE = b"no file"


class Wrong(Exception):
    """A text is no row."""


class Case(typing.NamedTuple):
    command: str
    status: int
    printed: bytes
    inputs: typing.Dict[str, bytes]
    # None if the event file is not looked at
    events: typing.Optional[bytes]


def event_file(lines):
    """The event file, in version Two, of the events of these lines."""
    file = NO_EVENTS
    for number, line in enumerate(lines, 1):
        found = EVENT.fullmatch(line)
        if not found:
            raise Wrong(f"no event: {line}")
        words = [int(it, 16) for it in found[4].split()]
        gl, cycles, missed = (int(it) for it in found.groups()[:3])
        file += struct.pack(f">HHIIHH{len(words)}I", 0xCA4D, gl, number, cycles, missed, len(words), *words)
    return file


def script_of(body, *heading):
    """The script of a BODY."""
    declared, statements = OWN.fullmatch(body).groups()
    whole = script(statements.splitlines(), *heading)
    return (whole.replace("var v k i t\n", declared, 1) if declared else whole).encode()


def read_input(head, body, inputs, rows):
    """The name of an input and its text, or None if a part of a row with this head is none. `rows` has the inputs that other rows ended with."""
    name, _, row = head.partition(" of ")
    if name in (*INPUTS, "FRAME"):
        if not row:
            return name, body.encode()
        if not body and name in rows.get(row, {}):
            return name, rows[row][name]
    begin, frame, end = inputs.get("FRAME", b"").partition(b"\n..\n")
    if head == "PART" and frame:
        return "SCRIPT", b"%b\n%b%b" % (begin, body.encode(), end)
    made = BODY.fullmatch(head)
    return made and ("SCRIPT", script_of(body, *filter(None, made.groups())))


def read_cases(text, rows):
    """The cases that a row plays, in their order, and the inputs that it ends with."""
    cases, inputs, before = [], {}, "nothing"
    for section in re.split(r"(?m)^-- ", text)[1:]:
        head, _, body = section.partition("\n")
        played = PLAYED.fullmatch(head)
        given = read_input(head, body, inputs, rows)
        if given:
            inputs = dict([*inputs.items(), given])
        elif played and (played[1] in OF_A_PLAN or "SCRIPT" in inputs):
            cases.append(Case(played[1], int(played[2]), body.encode(), {it: inputs[it] for it in INPUTS if it in inputs}, None))
        elif head == "EVENTS" and before in ("run", "drive"):
            cases[-1] = cases[-1]._replace(events=event_file(body.splitlines()))
        elif head == "EVENTS not made" and before in ("run", "drive") and not body:
            cases[-1] = cases[-1]._replace(events=NOT_MADE)
        else:
            raise Wrong(f"-- {head} may not stand here")
        before = "nothing" if given else head.partition(" ")[0]
    if before == "nothing":
        raise Wrong("the row, or the end of it, plays nothing")
    return cases, inputs


def read_rows(file, text):
    """The cases of each row of a file."""
    rows, ends = {}, {}
    for part in re.split(r"(?m)^== ", text)[1:]:
        name, _, rest = part.rstrip("\n").partition("\n")
        if name in rows or not re.fullmatch(r"\w+", name):
            raise Wrong(f"{file}: the name stands twice, or is none: {name}")
        try:
            rows[name], ends[name] = read_cases(f"{rest}\n", ends)
        except Wrong as wrong:
            raise Wrong(f"{file}: {name}: {wrong}") from None
    return rows


def each_bit():
    """Each bit has a service of one cycle, once. Before that of bit k come those of the k - 1 lower bits, and one of a greater bit where there is one."""
    plan, lams, services, printed = '[[type]]\nname = "M"\ncommands = [ { f = 10, a = 0 } ]\n', "", "", ""
    for crate in (1, 2):
        plan += f"\n[[crate]]\nnumber = {crate}\nstation = [\n"
        for n in range(1, 13):
            bit = 12 * (crate - 1) + n
            before = min(bit, 23)
            plan += f'  {{ n = {n}, type = "M", gl = {bit} }},\n'
            lams = f"cdlam s{bit} 1 {crate} {n} 0\n{lams}"
            services = f"service s{bit} within 1 cycles event 0 words {{ cclc s{bit} }}\n{services}"
            printed += f"service s{bit} gl {bit} cycles 1 once start {before} end {before + 1} longest {before + 1}\n"
        plan += "]\n"
    return Case("response", 0, printed.encode(), {"PLAN": plan.encode(), "SCRIPT": (lams + services).encode()}, None)


ROWS = {it.stem: read_rows(it.name, it.read_text()) for it in sorted((TOP / "tests/rows").glob("*.rows"))}
ROWS["response"]["each_bit"] = [each_bit()]
SAMPLE = ROWS["plans"]["plan_listing"][1].inputs["PLAN"]
STRAIGHT_LINE = ROWS["check"]["straight_line"][0]
