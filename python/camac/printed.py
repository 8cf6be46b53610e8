"""The one reader of the lines that the program prints, as values; `camac.explanations` reads the sentences of an explanation."""
import functools
import itertools
import re
from typing import Any, Callable, Dict, Generic, Iterable, Iterator, List, Optional, Tuple, TypeVar

from camac.functions import reads, writes
from camac.values import Abandoned, Body, BodyKind, Command, Cost, Crate, Cycle, Declaration, Demand, Ending, Harm, Heading, Item, Lock, ModuleType, Move
from camac.values import Plan, Refusal, Request, Response, Row, RunEnd, Service, Station, Unkept, Unlock

T = TypeVar("T")
ORDINALS = "first second third fourth fifth sixth seventh eighth ninth tenth".split()
# By its name in a form a part, and how it is read.
PARTS: Dict[str, Tuple[str, Callable[[str], Any]]] = {
    "number": (r"\d+", int),
    "count": (r"0|[1-9]\d*", int),
    "maybe": (r"\d+|-", lambda it: None if it == "-" else int(it)),
    "word": (r"\w+", str),
    "name": (r"\S+", str),
    "rest": (".+", str),
    "hex": ("[0-9a-f]{6}", lambda it: int(it, 16)),
    "crate": ("[1-7]", int),
    "station": ("[1-9]|1[0-9]|2[0-3]|28|30", int),
    "sub": ("1[0-5]|[0-9]", int),
    "function": ("[12][0-9]|3[01]|[0-9]", int),
    "bit": ("[01]", int),
    "move": ("in |out |none", lambda it: Move(it.rstrip())),
    "service": ("[A-Za-z][A-Za-z0-9_]{0,31}|-", lambda it: None if it == "-" else it),
    "how": ("(?:ended|short)(?= events)|overrun(?= [1-7] wait)", Ending),
    "code": (r"[A-Z]\d\d?", str),
    "kind": ("service|proc", BodyKind),
    "head": ("service|proc", lambda it: it == "service"),
    "probe": ("(?: probe)?", bool),
    "clears": ("(?: clears)?", bool),
    "twice": ("(?: clears 2)?", bool),
    "harm": ("|".join(it.value for it in Harm), Harm),
    "each": (r"cycles \d+ words \d+ steps \d+", lambda it: Cost(*map(int, it.split()[1::2]))),
    "cost": (r"\d+ \d+ \d+", lambda it: Cost(*map(int, it.split()))),
    "about": ("(?: (?:at|turns|crate|proc) .+)?", str.lstrip),
    "quoted": ("[^`]+", str),
    "some": (".*?", str),
    "array": ("command|entry|type|crate|station", str),
    "ordinal": ("|".join(ORDINALS), lambda it: ORDINALS.index(it) + 1),
    "unit": ("dataway cycles|event words|steps", {"dataway cycles": "within", "event words": "event", "steps": "steps"}.get),
}
# A part in a form.
FIELD = re.compile(r"\{([a-z_]+)(?::([a-z]+))?\}")


class Form(Generic[T]):
    """A line or a sentence: a regular expression in which {cycles} is a number, and {name:word} another of the parts. `make` makes a value of
    them, and of the whole text if it has a field `line`."""

    def __init__(self, make: Callable[..., T], text: str, has_line: bool = False) -> None:
        self.make, self.text, self.has_line, begin = make, text, has_line, text.partition("{")[0]
        self.begin = begin if begin.replace(" ", "").isalpha() else ""

    @functools.cached_property
    def pattern(self) -> "re.Pattern[str]":
        return re.compile(FIELD.sub(lambda it: f"({PARTS[it[2] or 'number'][0]})", self.text), re.A | re.M)

    @functools.cached_property
    def readers(self) -> List[Tuple[str, Callable[[str], Any]]]:
        return [(name, PARTS[part or "number"][1]) for name, part in FIELD.findall(self.text)]

    def read(self, line: str) -> Optional[T]:
        """The value of a whole line; None if it is none of this form."""
        return self._made(self.pattern.fullmatch(line)) if line.startswith(self.begin) else None

    def find(self, text: str) -> Optional[T]:
        """The value of the first place in a text that has this form."""
        return self._made(self.pattern.search(text))

    def _made(self, found: "Optional[re.Match[str]]") -> Optional[T]:
        if found is None:
            return None
        fields = {name: None if word is None else read(word) for (name, read), word in zip(self.readers, found.groups())}
        return self.make(line=found[0], **fields) if self.has_line else self.make(**fields)


SERVICE = Form(Service, "service {name:word} gl {gl} cycles {cycles} of {annotated_cycles} words {words} of {annotated_words} steps {steps}")
HEADING = Form(Heading, r"{is_service:head} {name:word}(?:\(.*\))? within {cycles} cycles event {words} words(?: steps {steps})?", has_line=True)
RESPONSE = Form(Response, r"service {name:word} gl {gl} cycles {cycles} (?:once|every {every}) start {start:maybe} end {end:maybe}(?: of \d+)? longest {longest:maybe}{clears_twice:twice}")
UNKEPT = Form(Unkept, "unkept {name:word} line {line}: {why:harm}(?: {other:word})?")
BODY: "Form[Body]" = Form(
    lambda cycles, words, steps, of_c, of_w, of_s, **of: Body(most=Cost(cycles, words, steps), annotated=(of_c, of_w, of_s), rows=(), **of),
    r"{kind:kind} {name:word} line {line}(?: gl {gl} at \d+ \d+ \d+)? cycles {cycles} of {of_c} words {words} of {of_w} steps {steps}(?: of {of_s})?",
)
ROW = Form(Row, "line {line}(?: column {column})? depth {depth} {word:name} times {times} {each:each} share {share:cost}{about:about}")
BUFFER = Form(lambda words: Plan(words, {}, ()), "buffer {words}")
TYPE = Form(ModuleType, "type {name:name} commands {commands} probes {probes}")
DECLARATION: "Form[Declaration]" = Form(
    lambda first, last, **of: Declaration(first=first, last=first if last is None else last, **of),
    "command f {function} a {first}(?: to {last})?(?: width {width})?{is_probe:probe}{clears:clears}",
)
CRATE = Form(Crate, "crate {number} waits {waits}")
STATION = Form(Station, "station {number} {type:name} gl {gl:maybe}")
AT = Form(lambda move, **at: (Command(**at), move), "cycle {crate:crate} {station:station} {sub_address:sub} {function:function} {move:move}")
WORD = re.compile("[0-9a-f]{6}")
REPLY: "Form[Tuple[int, int, int]]" = Form(lambda x, q, wait: (x, q, wait), "{x:bit} q{q:bit} wait {wait:sub}")
OTHERS: "Tuple[Form[Any], ...]" = (
    Form(Demand, "demand {pattern:hex} {service:service}"),
    Form(Lock, "lock {crate:crate} wait {wait:sub}"),
    Form(Unlock, "unlock {crate:crate}"),
    Form(Abandoned, "abandoned service {service:word}"),
)
END = Form(RunEnd, "{how:how}(?: {crate:crate} wait {wait:sub})? events {events:count}", has_line=True)
REQUESTS = (
    Form(lambda **at: Request("cycle", tuple(at.values())), "cycle {c:crate} {n:station} {a:sub} {f:function} (?:in|none|out {data:hex})"),
    Form(lambda: Request("demand"), "demand"),
    Form(lambda crate: Request("lock", (crate,)), "lock {crate:crate}"),
    Form(lambda crate: Request("unlock", (crate,)), "unlock {crate:crate}"),
)
REFUSAL = Form(Refusal, "refused {code:code}(?: line {line}(?: column {column})?)?: {rule:rest}")
# Where the lines of `camac costs` begin in what `camac tell` prints, and what is before the first look-at-me that is not kept.
BODIES, BEFORE_UNKEPT = r"(?m)^(?:service|proc) \w+ line ", "\nunkept "
# A row by its words; and which of them are its depth, the statement's word, how often it is made, the cycles of one time, and, from there on, its place.
Words = List[str]
DEPTH, WORD_OF, TIMES, CYCLES, PLACE_OF = 3, 4, 6, 8, 17


def shown(line: str) -> str:
    """A line for a fault: it may be of any length, and hold anything."""
    return repr(line if len(line) <= 80 else f"{line[:80]}..")


def first_of(line: str, forms: "Iterable[Form[T]]") -> Optional[T]:
    """The value of a line by the first of the forms that it has; None if it has none."""
    return next((found for form in forms if line.startswith(form.begin) and (found := form.read(line)) is not None), None)


def _read(line: str, *forms: "Form[Any]") -> Any:
    """The same of a line that has to have one."""
    value = first_of(line, forms)
    if value is None:
        raise ValueError(f"no line of this kind: {shown(line)}")
    return value


def read_services(printed: str) -> List[Service]:
    """What `camac check` prints of an accepted script, and `camac tell` before the lines of `camac costs`."""
    lines = itertools.takewhile(lambda it: it.split(" ")[2:3] != ["line"], printed.splitlines()[1:])
    return [_read(it, SERVICE) for it in lines]


def read_headings(printed: str) -> List[Heading]:
    """What `camac bounds` prints."""
    return [_read(line, HEADING) for line in printed.splitlines()]


def read_responses(printed: str) -> List[Response]:
    """What `camac response` prints of an accepted script."""
    found = [_read(line, RESPONSE, UNKEPT) for line in printed.splitlines()]
    unkept = [it for it in found if isinstance(it, Unkept)]
    return [it._replace(unkept=tuple(one for one in unkept if one.name == it.name)) for it in found if isinstance(it, Response)]


def read_bodies(printed: str) -> List[Body]:
    """What `camac costs` prints. Waits and slack are not in it."""
    bodies: List[Tuple[Body, List[Row]]] = []
    for line in printed.splitlines():
        row = ROW.read(line) if bodies else None
        if row:
            bodies[-1][1].append(row)
        else:
            bodies.append((_read(line, BODY), []))
    return [body._replace(rows=tuple(rows)) for body, rows in bodies]


def read_rows(printed: str) -> List[List[Words]]:
    """The rows of each body in what `camac costs` prints, or `camac tell`, without their columns. Values of them take three times as long."""
    bodies: List[List[Words]] = []
    for words in map(str.split, printed.splitlines()):
        if words[0] == "line":
            if words[2] == "column":
                del words[2:4]
            bodies[-1].append(words)
        elif words[0] != "unkept" and words[2:3] == ["line"]:
            bodies.append([])
    return bodies


def costs_in(printed: str) -> str:
    """The lines of `camac costs` in what `camac tell` prints of an accepted script."""
    found = re.search(BODIES, printed)
    return printed[found.start() :].partition(BEFORE_UNKEPT)[0] if found else ""


def read_unkept(printed: str) -> List[Unkept]:
    """What `camac tell` prints of what a script does to look-at-mes."""
    _, before, rest = printed.partition(BEFORE_UNKEPT)
    return [_read(line, UNKEPT) for line in f"unkept {rest}".splitlines()] if before else []


def row_at(printed: str, line: int, column: int) -> Optional[Row]:
    """The row of the statement that begins at a place, in what `camac tell` prints."""
    found = re.search(rf"(?m)^line {line} column {column} .*$", printed)
    return ROW.read(found[0]) if found else None


def line_of_body(printed: str, kind: BodyKind, name: str) -> Optional[str]:
    """The line of a body in what `camac costs` or `camac response` prints."""
    found = re.search(rf"(?m)^{kind.value} {name} .*$", printed)
    return found[0] if found else None


def without_name(printed: str, name: str) -> List[str]:
    """The lines of a verdict, with a sign in the place of a service's name."""
    return re.sub(rf"(?m)^service {name} ", "service ? ", printed).split("\n")


def read_plan(printed: str) -> Plan:
    """What `camac plan` prints, with `--commands` or without: below each type its declarations, below each crate its stations."""
    plan = Plan(0, {}, ())
    found: List[Tuple[Any, List[Any]]] = []
    for line in printed.splitlines():
        it = _read(line, DECLARATION, STATION, TYPE, CRATE, BUFFER)
        if isinstance(it, (Declaration, Station)):
            found[-1][1].append(it)
        elif isinstance(it, Plan):
            plan = it
        else:
            found.append((it, []))
    plan.types.update((it.name, it._replace(declarations=tuple(below))) for it, below in found if isinstance(it, ModuleType))
    return plan._replace(crates=tuple(it._replace(stations=tuple(below)) for it, below in found if isinstance(it, Crate)))


def parse_listing(lines: Iterable[str]) -> Iterator[Item]:
    """Yields the items of a listing, given by its lines.

    Raises ValueError, with the number of the line, if one is none of a listing."""
    for number, line in enumerate(lines, 1):
        line = line.rstrip("\n")
        head, _, tail = line.partition(" x")
        item: Optional[Item] = None
        if tail:
            at, word = (head, "000000") if head.endswith("none") else (head[:-6], head[-6:])
            sent, reply = _read_command(at), _read_reply(tail)
            if sent and reply and WORD.fullmatch(word):
                item = Cycle(*sent, int(word, 16), *reply)
        else:
            item = _read_other(line)
        if item is None:
            raise ValueError(f"line {number} is no line of a listing: {shown(line)}")
        yield item


# There are few commands, replies and other lines, so each is read once.
@functools.lru_cache(maxsize=4096)
def _read_command(text: str) -> Optional[Tuple[Command, Move]]:
    """Reads a dataway cycle up to its word; None if its function does not move a word so."""
    found = AT.read(text)
    if found is None:
        return None
    f = found[0].function
    return found if found[1] is (Move.IN if reads(f) else Move.OUT if writes(f) else Move.NONE) else None


_read_reply = functools.lru_cache(maxsize=4096)(REPLY.read)


@functools.lru_cache(maxsize=4096)
def _read_other(line: str) -> Optional[Item]:
    return first_of(line, OTHERS) or read_end(line)


def read_end(line: str) -> Optional[RunEnd]:
    """The last line of a run; None if it is none."""
    return RunEnd(Ending.REFUSED, line) if REFUSAL.read(line) else END.read(line)


@functools.lru_cache(maxsize=4096)
def read_request(line: bytes) -> Optional[Request]:
    """A line of a live run that asks for an operation; None if it is none. A script asks for the same again and again, so they are kept."""
    return first_of(line.decode(errors="replace"), REQUESTS)


def is_refused(printed: str) -> bool:
    return printed.startswith("refused ")


def read_known(printed: str) -> Dict[str, List[str]]:
    """The words behind each name in what `camac explain --at` prints, below its first line."""
    return {it[0]: it[1:] for it in map(str.split, printed.splitlines()[1:])}


def is_known(printed: str) -> bool:
    """Whether `camac explain --at` has a statement there: its first line is then `reached` or `not reached`."""
    return printed.partition("\n")[0].endswith("reached")
