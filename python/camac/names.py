"""The names of a script: where each is declared and used. The text may have faults; what is before a name says what it is."""
import re
from bisect import bisect_right
from typing import Dict, Iterator, List, NamedTuple, Optional, Set, Tuple

from camac.kinds import AFTER, LAM, PARAMETER, PROCEDURE, REGISTER, TABLE, VARIABLE, Kind
from camac.language import BODIES, DECLARATIONS, EACH, WORDS
from camac.tokens import NAME, tokens_of

LONGEST = 32
SCRIPT = -1
# The names, words of the language and braces of a text.
NAMES = re.compile(rf"#[^\n]*|({NAME}|[{{}}])")


class Symbol(NamedTuple):
    """What a name stands for, and the number of the body in which it does; `SCRIPT` in all of the script."""

    kind: Kind
    name: str
    body: int


class Mention(NamedTuple):
    """A place of a name, in bytes."""

    start: int
    end: int
    symbol: Symbol
    declares: bool


class Block:
    """A service or procedure: its name, the places of its heading's begin, of its `{` and of its end, in bytes, and the parameters of a procedure."""

    def __init__(self, name: str, is_service: bool, start: int, brace: int, end: int) -> None:
        self.name, self.is_service, self.start, self.brace, self.end = name, is_service, start, brace, end
        self.parameters: Set[str] = set()


NO_NAMES: Tuple[Tuple[Kind, bool], ...] = ()


class Names:
    """The mentions of names in a text, in its order, and its services and procedures."""

    def __init__(self, text: bytes) -> None:
        self.size = len(text)
        self.mentions: List[Mention] = []
        self.blocks: List[Block] = []
        self.symbols: Dict[Tuple[str, str, int], Symbol] = {}
        self.depth, self.is_inside, self.is_declaration, self.expected, behind_to = 0, False, False, NO_NAMES, 0
        for it in NAMES.finditer(text.decode("latin-1")):
            word = it[1]
            if word in WORDS:
                self.word(word, it.start())
                behind_to = it.end() if word == "to" else 0
            elif word == EACH and behind_to and [one.text.isdigit() for one in tokens_of(text[behind_to : it.start()])] == [True]:
                # Behind a number alone, comments aside, it is a word of the language.
                behind_to = 0
            elif word == "{":
                self.open(it.start())
            elif word == "}":
                self.close(it.end())
            elif word:
                self.name(word, *it.span())
        self.end_block(self.size)
        self.starts = [it[0] for it in self.mentions]

    def word(self, word: str, at: int) -> None:
        if word in DECLARATIONS:
            self.end_block(at)
            if word in BODIES:
                self.blocks.append(Block("", word == "service", at, at, self.size))
                self.is_inside = True
        self.is_declaration = word == "var"
        self.expected = AFTER.get(word, NO_NAMES)

    def open(self, at: int) -> None:
        if self.is_inside and not self.depth:
            self.blocks[-1].brace = at
        self.depth += 1
        self.expected, self.is_declaration = NO_NAMES, False

    def close(self, end: int) -> None:
        self.depth -= 1
        if self.depth <= 0:
            self.end_block(end)

    def end_block(self, at: int) -> None:
        if self.is_inside:
            self.blocks[-1].end = at
        self.is_inside, self.depth, self.expected, self.is_declaration = False, 0, NO_NAMES, False

    def name(self, name: str, start: int, end: int) -> None:
        if self.expected:
            (kind, declares), self.expected = self.expected[0], self.expected[1:]
            if kind is TABLE and not self.is_inside:
                declares = True
            if self.is_inside and not self.blocks[-1].name and kind in (LAM, PROCEDURE):
                self.blocks[-1].name = name
        elif self.is_inside and not self.depth:
            self.blocks[-1].parameters.add(name)
            kind, declares = PARAMETER, True
        elif self.is_inside:
            kind, declares = PARAMETER if name in self.blocks[-1].parameters else VARIABLE, False
        elif self.is_declaration:
            kind, declares = VARIABLE, True
        else:
            return
        body = len(self.blocks) - 1 if kind is REGISTER or kind is PARAMETER else SCRIPT
        # A text is a quicker key than a kind.
        key = kind._value_, name, body
        symbol = self.symbols.get(key)
        if symbol is None:
            symbol = self.symbols[key] = Symbol(kind, name, body)
        self.mentions.append(Mention(start, end, symbol, declares))

    def at(self, place: int) -> Optional[Mention]:
        """The name at a place, or right before it."""
        near = self.mentions[max(0, bisect_right(self.starts, place) - 2) :][:2]
        return next((it for it in near if it.start <= place <= it.end), None)

    def of(self, symbol: Symbol) -> Iterator[Mention]:
        return (it for it in self.mentions if it.symbol == symbol)

    def block_at(self, place: int) -> Optional[Block]:
        return next((it for it in self.blocks if it.start <= place < it.end), None)

    def seen_at(self, place: int) -> Dict[str, Kind]:
        """The names that are declared before a place and seen there, and what they are. A procedure sees no variable of the script, and is declared
        after its end."""
        block = self.block_at(place)
        body = self.blocks.index(block) if block else SCRIPT
        found: Dict[str, Kind] = {}
        for it in self.mentions:
            symbol = it.symbol
            if it.start >= place:
                break
            if not it.declares or symbol.body not in (SCRIPT, body):
                continue
            if symbol.kind is VARIABLE and block and not block.is_service or symbol.kind is PROCEDURE and block and symbol.name == block.name:
                continue
            found[symbol.name] = symbol.kind
        return found


def fault_of_new_name(names: Names, symbol: Symbol, new: str) -> Optional[str]:
    """Why a symbol cannot get a name; None if it can. A name of a body may be in other bodies, too."""
    if not re.fullmatch(NAME, new) or len(new) > LONGEST:
        return f"`{new}` is no name: a letter, then letters, digits and `_`, at most 32 in all"
    if new in WORDS:
        return f"`{new}` is a word of the language"
    for it in names.mentions:
        other = it.symbol
        if other.name == new and (SCRIPT in (other.body, symbol.body) or other.body == symbol.body):
            return f"`{new}` is in the script already, as a {other.kind.value}"
    return None
