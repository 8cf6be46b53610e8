"""The parts of a text: symbols, blocks that fold, and a name under another name."""
import re
from typing import Any, Dict, Iterator, List, Tuple

from camac.kinds import Kind
from camac.lsp.documents import Text
from camac.lsp.protocol import FAILED, ResponseError
from camac.lsp.workspace import Judged
from camac.names import SCRIPT, Mention, fault_of_new_name
from camac.printed import without_name
from camac.texts import Edit, edited
from camac.toml_places import Value, read_places

# Kinds of symbols, as the protocol numbers them.
EVENT, FUNCTION, VARIABLE, CONSTANT, OBJECT, STRUCT, KEY = 24, 12, 13, 14, 19, 23, 20
NUMBER_OF = {Kind.LAM: EVENT, Kind.TABLE: CONSTANT, Kind.VARIABLE: VARIABLE, Kind.PARAMETER: VARIABLE, Kind.REGISTER: OBJECT}
BRACES = re.compile(rb"#[^\n]*|([{}])")
Item = Dict[str, Any]


def symbols_of_script(judged: Judged) -> List[Item]:
    text, names = judged.text, judged.names
    found: List[Item] = []
    for block in names.blocks:
        kind, word = (EVENT, "service") if block.is_service else (FUNCTION, "proc")
        found.append({**_item(text, block.name, kind, block.start, block.end, block.start, block.brace, word), "children": []})
    seen = set()
    for it in names.mentions:
        number = NUMBER_OF.get(it.symbol.kind)
        if it.declares and number and it.symbol not in seen:
            seen.add(it.symbol)
            item = _item(text, it.symbol.name, number, it.start, it.end, it.start, it.end, it.symbol.kind.value)
            (found if it.symbol.body == SCRIPT else found[it.symbol.body]["children"]).append(item)
    return sorted(found, key=lambda it: (it["range"]["start"]["line"], it["range"]["start"]["character"]))


def _item(text: Text, name: str, kind: int, start: int, end: int, begin: int, stop: int, detail: str = "") -> Item:
    return {"name": name or "?", "kind": kind, "detail": detail, "range": text.range(start, end), "selectionRange": text.range(begin, stop)}


def symbols_of_plan(text: Text) -> List[Item]:
    root = read_places(text.text)
    found = [_of_table(text, it, "type", "name") for it in root.tables("type")]
    for it in root.tables("crate"):
        item = _of_table(text, it, "crate", "number")
        item["children"] = [_of_table(text, one, "station", "n") for one in it.tables("station")]
        found.append(item)
    return found


def _of_table(text: Text, it: Value, what: str, key: str) -> Item:
    # A table ends with its last value.
    start, end = it.place.start, max([it.place.end, *(one.place.end for one in it.value.values())])
    start, end = (len(text.text[:one].encode("utf-8", "surrogatepass")) for one in (start, end))
    return _item(text, f"{what} {it.at(key) if key in it.value else '?'}", STRUCT, start, end, start, end)


def folds(text: Text, is_plan: bool) -> Iterator[Item]:
    """Blocks in braces, and comments of several lines."""
    data = text.data
    opened: List[int] = []
    for it in BRACES.finditer(data) if not is_plan else ():
        if it[1] == b"{":
            opened.append(it.start())
        elif it[1] and opened:
            first, last = text.position(opened.pop())["line"], text.position(it.start())["line"]
            if last > first:
                yield {"startLine": first, "endLine": last - 1 if last > first + 1 else last}
    for comment in re.finditer(rb"(?m)(?:^[ \t]*#[^\n]*\n){2,}", data):
        first, last = text.position(comment.start())["line"], text.position(comment.end() - 1)["line"]
        yield {"startLine": first, "endLine": last, "kind": "comment"}
    for table in re.finditer(rb"(?ms)^\[\[?[^\n]*\n(?:[^\[\n][^\n]*\n|\n)*", data) if is_plan else ():
        first, last = text.position(table.start())["line"], text.position(len(table[0].rstrip()) + table.start())["line"]
        if last > first:
            yield {"startLine": first, "endLine": last}


def renamed(judged: Judged, mention: Mention, new: str) -> Tuple[Edit, ...]:
    """The edits that give a name another name. Raises ResponseError if it cannot be, or the checker would judge the script otherwise."""
    why = fault_of_new_name(judged.names, mention.symbol, new)
    if why:
        raise ResponseError(FAILED, why)
    edits = tuple(Edit(it.start, it.end, new) for it in judged.names.of(mention.symbol))
    before = without_name(judged.ask("check").text, mention.symbol.name)
    after = without_name(judged.judge.ask("check", edited(judged.text.data, edits)).text, new)
    if before != after:
        raise ResponseError(FAILED, f"with `{new}` the checker would say: {after[0]}")
    return edits
