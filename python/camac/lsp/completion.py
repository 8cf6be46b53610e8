"""What may be at a place: words of the language as the checker expects them, names, and what the plan declares."""
import re
from typing import Any, Callable, Dict, FrozenSet, Iterator, List, NamedTuple, Set

from camac import functions
from camac.drive import Refused
from camac.explanations import NOT_DECLARED, read_expected
from camac.kinds import Kind
from camac.language import DECLARATIONS, EACH, OF_FUNCTIONS, STATEMENTS, WORDS
from camac.lsp.hover import addresses, declared_at, function_text
from camac.lsp.workspace import Judged
from camac.printed import is_refused
from camac.tokens import tokens_of
from camac.values import Address, Declaration

# Kinds of items, as the protocol numbers them.
VARIABLE, FUNCTION, KEYWORD, CONSTANT, EVENT, REFERENCE, VALUE, OPERATOR = 6, 3, 14, 21, 23, 18, 12, 24
ITEM_OF = {
    Kind.LAM: EVENT, Kind.TABLE: CONSTANT, Kind.VARIABLE: VARIABLE, Kind.PARAMETER: VARIABLE, Kind.REGISTER: REFERENCE, Kind.PROCEDURE: FUNCTION,
}
# A name that no script has, as long as a name may be.
NO_NAME = "no_name_that_anybody_would_choose"[:32]
TYPED = re.compile(rb"[A-Za-z0-9_]*$")
# What the checker calls what may be somewhere, and the words that this is.
GROUPS: Dict[str, FrozenSet[str]] = {
    "a declaration": DECLARATIONS | {"table"},
    "a statement": STATEMENTS,
    "an operator": frozenset("+-*/%"),
    "a comparison": frozenset(("<", "<=", ">", ">=", "==", "!=")),
    "a condition": frozenset(("not", "q", "x")),
}
Item = Dict[str, Any]


class Expected(NamedTuple):
    """What may be at a place: groups as the checker calls them, and words."""

    groups: Set[str]
    words: Set[str]


def expected(ask: Callable[[bytes], str], before: bytes) -> Expected:
    """What may be behind a text, as the checker says if the text ends there. `ask` gives what `camac tell` says of a script."""
    printed = ask(before)
    found = read_expected(printed)
    if found:
        return Expected({it for it in found if it[0] != "`"}, {it.strip("`") for it in found if it[0] == "`"})
    if not is_refused(printed) or Refused(printed).code[0] in "LE":
        return Expected({"a declaration"}, set())
    # The text has an earlier fault.
    is_inside = before.count(b"{") > before.count(b"}")
    return Expected({"a statement", "an expression"} if is_inside else {"a declaration"}, {"}", "else"} if is_inside else set())


def complete(judged: Judged, place: int) -> List[Item]:
    """What may be at a place in bytes, in the place of the word that is begun there."""
    before = judged.text.data[:place]
    if b"#" in before[before.rfind(b"\n") + 1 :]:
        return []
    start = place - len(TYPED.search(before)[0])  # type: ignore[index]
    before = before[:start]

    def ask(text: bytes) -> str:
        return judged.judge.ask("tell", text).text

    allowed = expected(ask, before)
    items = [*_words(allowed), *_names(judged, ask, allowed, before, start), *_numbers(judged, before, start)]
    return list({it["label"]: it for it in items}.values())


def _words(allowed: Expected) -> Iterator[Item]:
    words = set(allowed.words).union(*(GROUPS.get(it, frozenset()) for it in allowed.groups))
    for it in sorted(words):
        yield {"label": it, "kind": KEYWORD if it in WORDS or it == EACH else OPERATOR, "sortText": f"2{it}"}


def _names(judged: Judged, ask: Callable[[bytes], str], allowed: Expected, before: bytes, start: int) -> Iterator[Item]:
    kinds: Set[Kind] = set()
    if allowed.groups & {"a statement", "an expression", "a condition"}:
        kinds = {Kind.VARIABLE, Kind.PARAMETER}
    elif "a name" in allowed.groups:
        # A name that is not declared is refused by what it has to be; nothing if it is a new one.
        found = NOT_DECLARED.find(ask(before + b" " + NO_NAME.encode()))
        kinds = {it for it in Kind if found and it.value == found["kind"]} | ({Kind.PARAMETER} if found and found["kind"] == "variable" else set())
    for name, kind in judged.names.seen_at(start).items():
        if kind in kinds:
            yield {"label": name, "kind": ITEM_OF[kind], "detail": kind.value, "sortText": f"1{name}"}


def _value(number: int, detail: str) -> Item:
    return {"label": str(number), "kind": VALUE, "detail": detail, "sortText": f"0{number:02}"}


def _numbers(judged: Judged, before: bytes, start: int) -> Iterator[Item]:
    """Functions, and parts of an address, as the plan has them."""
    line = before[max(before.rfind(b"\n"), before.rfind(b"{"), before.rfind(b"}")) + 1 :]
    words = [it.text for it in tokens_of(line)]
    at = max((place for place, it in enumerate(words) if it in ("cdreg", "cdlam") or it in OF_FUNCTIONS), default=None)
    if at is None:
        return
    words = words[at:]
    if words[0] in ("cdreg", "cdlam"):
        yield from _parts_of_address(judged, words)
    elif len(words) == 1:
        yield from _functions(judged, start)


def _parts_of_address(judged: Judged, words: List[str]) -> Iterator[Item]:
    numbers = [int(it) for it in words[2:] if it.isdigit()]
    if len(numbers) + 2 != len(words) or len(words) < 2:
        return
    if not numbers:
        yield _value(1, "the branch")
    crates = [it for it in judged.plan.crates if len(numbers) < 2 or it.number == numbers[1]]
    for crate in crates if len(numbers) in (1, 2) else ():
        if len(numbers) == 1:
            yield _value(crate.number, f"crate {crate.number}, waits {crate.waits}")
        else:
            yield from (_value(it.number, it.type + (f", bit {it.gl}" if it.gl else "")) for it in crate.stations)
    if len(numbers) == 3:
        address = Address((numbers[1], numbers[1]), (numbers[2], numbers[2]), (0, 15))
        by_sub: Dict[int, List[Declaration]] = {}
        for it in declared_at(judged.plan, address):
            for sub in range(it.first, it.last + 1):
                by_sub.setdefault(sub, []).append(it)
        for sub, declared in sorted(by_sub.items()):
            yield _value(sub, " ".join(f"F{it.function}" for it in declared if not it.is_probe) or "a probe")


def _functions(judged: Judged, start: int) -> Iterator[Item]:
    """The functions that the plan declares at the register of the statement, or at the registers of its body if it has none yet."""
    names, data = judged.names, judged.text.data
    after = re.match(rb"[0-9]*[ \t]*", data[start : start + 40])
    here = names.at(start + after.end()) if after else None
    seen = [here] if here and here.symbol.name in names.seen_at(start) else None
    if seen is None:
        block = names.block_at(start)
        seen = [it for it in names.mentions if it.declares and it.symbol.kind.value == "register" and block and block.start <= it.start < start]
    found: Dict[int, Set[str]] = {}
    for mention in seen[-8:]:
        for _, address in addresses(judged, mention):
            for it in declared_at(judged.plan, address):
                found.setdefault(it.function, set()).add(function_text(it))
    for function, texts in sorted(found.items()):
        yield _value(function, f"F{function} {functions.name(function)}: {', '.join(sorted(texts))}")
