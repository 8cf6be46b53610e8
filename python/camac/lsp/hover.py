"""The hover text of the place under the pointer, in Markdown; and what is known there: the statement, its row of `camac costs`, the range of a variable, and
what a register may address."""
import bisect
import itertools
import re
from typing import Iterator, List, Optional, Tuple

from camac import functions
from camac.kinds import Kind
from camac.language import OF_FUNCTIONS
from camac.layout import begins
from camac.lsp.workspace import Choice, Judged
from camac.names import Mention
from camac.printed import costs_in, line_of_body, read_known, row_at
from camac.tokens import Token, tokens_of
from camac.values import Address, BodyKind, Cost, Declaration, ModuleType, Plan, Range, Row, range_of, range_text

GREATEST = 4_294_967_295
# The lines around a place in which the statement is looked for, and the cycles of a register that are shown.
AROUND = 8

def hover(judged: Judged, place: int, choice: Choice) -> Optional[Tuple[str, int, int]]:
    """The hover text of a place in bytes, and its part of the document; None if there is none."""
    mention = judged.names.at(place)
    if mention:
        parts = list(_of_name(judged, mention, choice))
        return ("\n\n".join(parts), mention.start, mention.end) if parts else None
    tokens = statement_tokens(judged, place)
    token = next((it for it in tokens if it.start <= place <= it.end), None)
    if token is None:
        return None
    if tokens[1:2] == [token] and tokens[0].text in OF_FUNCTIONS:
        return _of_function(judged, tokens), token.start, token.end
    row = row_of(judged, tokens[0])
    return (_of_row(row), tokens[0].start, tokens[-1].end) if row else None


def _of_name(judged: Judged, mention: Mention, choice: Choice) -> Iterator[str]:
    symbol = mention.symbol
    if symbol.kind is Kind.LAM:
        yield from _of_lam(judged, mention)
        yield from _of_body(judged, BodyKind.SERVICE, symbol.name)
        yield f"Plan: {choice.text()}"
    elif symbol.kind is Kind.PROCEDURE:
        yield from _of_body(judged, BodyKind.PROCEDURE, symbol.name)
    elif symbol.kind is Kind.REGISTER:
        yield f"register `{symbol.name}`"
        for line, address in addresses(judged, mention):
            yield f"line {line}: {address_text(judged.plan, address)}"
    elif symbol.kind is Kind.TABLE:
        yield f"table `{symbol.name}`"
    else:
        yield _of_variable(judged, mention)


def _of_variable(judged: Judged, mention: Mention) -> str:
    kind, name = mention.symbol.kind.value, mention.symbol.name
    ends = range_at(judged, mention)
    if ends:
        return f"{kind} `{name}`: {range_text(ends)} before this statement"
    if mention.symbol.kind is not Kind.PARAMETER:
        return f"{kind} `{name}`: 0..{GREATEST}"
    # The range of a parameter is in the heading.
    block = judged.names.blocks[mention.symbol.body]
    found = re.search(rb"\b%b\s+in\s+(\d{1,10})\s*\.\.\s*(\d{1,10})" % name.encode(), judged.text.data[block.start : block.brace])
    return f"{kind} `{name}`: {range_text((int(found[1]), int(found[2])))}" if found else f"{kind} `{name}`"


def _of_lam(judged: Judged, mention: Mention) -> Iterator[str]:
    declared = next((it for it in judged.names.of(mention.symbol) if it.declares), None)
    if declared is None:
        return
    line = judged.text.data[declared.end : declared.end + 200].decode("utf-8", "replace")
    found = re.match(r"\s+(\d+)\s+(\d+)\s+(\d+)\s+(\d+)", line)
    if found:
        crate, station, sub = map(int, found.group(2, 3, 4))
        bit = next((it.gl for c in judged.plan.crates if c.number == crate for it in c.stations if it.number == station and it.gl), None)
        module = judged.plan.type_at(crate, station)
        what = f", {module.name}" if module else ""
        yield f"LAM `{mention.symbol.name}`: crate {crate}, station {station}, sub-address {sub}{what}" + (f", bit {bit} of the graded-L pattern" if bit else "")


def _of_body(judged: Judged, kind: BodyKind, name: str) -> Iterator[str]:
    """What a service or procedure takes at most, and how late a service can be."""
    verdict = judged.ask("tell")
    head = line_of_body(costs_in(verdict.text), kind, name) if verdict.accepted else None
    if head:
        yield _code(head)
        late = line_of_body(judged.ask("response").text, kind, name) if kind is BodyKind.SERVICE else None
        if late:
            yield _code(f"response: {late}")


def _code(text: str) -> str:
    return f"```text\n{text}\n```"


def _of_row(row: Row) -> str:
    about = f", {row.about}" if row.about else ""
    if not row.times:
        return f"`{row.word}`: never reached{about}"
    times = f"at most {_counted(row.times, 'time')} in a service or a call"
    return f"`{row.word}`: {times}{about}\n\nonce it costs {_cost(row.each)}; its share of the bound is {_cost(row.share)}"


def _cost(cost: Cost) -> str:
    return ", ".join(_counted(number, word) for number, word in zip(cost, ("cycle", "word", "step")))


def _counted(number: int, word: str) -> str:
    return f"{number} {word}" + ("" if number == 1 else "s")


def address_text(plan: Plan, address: Address) -> str:
    names = sorted({it.name for it in types_at(plan, address)})
    what = f": {', '.join(names)}" if names else ""
    return f"crate {range_text(address.crate)}, station {range_text(address.station)}, sub-address {range_text(address.sub_address)}{what}"


def types_at(plan: Plan, address: Address) -> List[ModuleType]:
    """The types of the modules at an address."""
    (first, last), (low, high) = address.crate, address.station
    names = [it.type for crate in plan.crates if first <= crate.number <= last for it in crate.stations if low <= it.number <= high]
    return [plan.types[it] for it in dict.fromkeys(names)]


def declared_at(plan: Plan, address: Address) -> List[Declaration]:
    """The commands that the plan declares at an address."""
    first, last = address.sub_address
    return [it for one in types_at(plan, address) for it in one.declarations if it.first <= last and first <= it.last]


def _of_function(judged: Judged, tokens: List[Token]) -> str:
    """The name of a statement's function, and what the plan says of it at the statement's registers."""
    function = int(tokens[1].text)
    parts = [f"F{function}: {functions.name(function)}"]
    register = judged.names.at(tokens[2].start) if len(tokens) > 2 else None
    for _, address in addresses(judged, register) if register else ():
        text = address_text(judged.plan, address)
        found = sorted({function_text(it) for it in declared_at(judged.plan, address) if it.function == function})
        parts.append(f"{text}: {', '.join(found) or 'not declared'}")
    return "\n\n".join(dict.fromkeys(parts))


def function_text(it: Declaration) -> str:
    """What a command does to data."""
    if it.is_probe:
        return "a probe, without a register"
    data = f"{it.width or 24} bits" if functions.reads(it.function) or functions.writes(it.function) else "moves no data"
    return f"{data}, clears the look-at-me" if it.clears else data


def statement_tokens(judged: Judged, place: int) -> List[Token]:
    """The tokens of the statement at a place, without what is in its block; nothing if there is none."""
    block = judged.names.block_at(place)
    if block is None or place <= block.brace:
        return []
    data, begin, end = judged.text.data, place, place
    for _ in range(AROUND):
        begin = max(block.brace + 1, data.rfind(b"\n", block.brace, begin))
        end = data.find(b"\n", end + 1, block.end)
        end = block.end if end < 0 else end
    tokens = [it._replace(start=it.start + begin, end=it.end + begin) for it in tokens_of(data[begin:end])]
    firsts = [at for at, is_first in enumerate(begins([it.text for it in tokens])) if is_first]
    number = bisect.bisect_right([tokens[at].start for at in firsts], place) - 1
    if number < 0 or tokens[firsts[number]].text in "{}":
        return []
    found = tokens[firsts[number] : firsts[number + 1] if number + 1 < len(firsts) else len(tokens)]
    return found if place <= found[-1].end else []


def row_of(judged: Judged, first: Token) -> Optional[Row]:
    """The row of `costs` of a statement, given by its first token; None if the script is refused."""
    verdict = judged.ask("tell")
    return row_at(verdict.text, *judged.text.line_and_column(first.start)) if verdict.accepted else None


def range_at(judged: Judged, mention: Mention) -> Optional[Range]:
    """The range of a variable before the statement that names it, as the checker knows it; None where it does not come to the statement."""
    tokens = statement_tokens(judged, mention.start)
    if not tokens:
        return None
    at = judged.text.line_and_column(tokens[0].start)
    verdict = judged.once(("known", at), lambda: judged.judge.ask("explain", judged.text.data, at))
    words = read_known(verdict.text).get(mention.symbol.name, []) if verdict.accepted else []
    return range_of(words[0]) if len(words) == 1 else None


def addresses(judged: Judged, mention: Mention) -> List[Tuple[int, Address]]:
    """What a register may address, by lines: where the statement that names it makes cycles, there; else in the cycles of its body."""
    here = statement_tokens(judged, mention.start)
    rows = [row_of(judged, here[0])] if here and here[0].text != "cdreg" else []
    if not rows:
        used = itertools.islice((it for it in judged.names.of(mention.symbol) if not it.declares), AROUND)
        rows = [row_of(judged, tokens[0]) for tokens in (statement_tokens(judged, it.start) for it in used) if tokens]
    found = [(row.line, address) for row in rows if row for address in row.addresses()]
    # Else what is in numbers after `cdreg` of the register.
    for it in judged.names.of(mention.symbol) if not found else ():
        words = [token.text for token in statement_tokens(judged, it.start)] if it.declares else []
        if len(words) == 6 and all(word.isdigit() for word in words[2:]):
            crate, station, sub = map(int, words[3:])
            found.append((judged.text.line_at(it.start), Address((crate, crate), (station, station), (sub, sub))))
    return found
