"""What would fit in the place of the token that is refused by S2: the reader's parser is asked for each word, sign, name and number."""
from __future__ import annotations

import re
from typing import Dict, FrozenSet, List

from oracle.cases import make_inputs
from oracle.comparing import Comparison
from oracle.maker.scripts import KEYWORDS_TEXT, SIGNS, make_misspelt
from oracle.reader.cursor import COMPARISONS
from oracle.reader.engines import REFUSED, told
from oracle.reader.grammar import EACH, READERS, Grammar
from oracle.reader.refusals import Refused
from oracle.reader.tokens import Token, read_tokens

EXPRESSION = frozenset(("number", "name", "("))
KINDS: Dict[str, FrozenSet[str]] = {
    "a number": frozenset(("number",)), "a name": frozenset(("name",)), "an operator": frozenset("+-*/%"), "a comparison": frozenset(COMPARISONS),
    "an expression": EXPRESSION, "a condition": EXPRESSION | {"not", "q", "x"}, "a statement": frozenset(READERS),
    "a declaration": frozenset(("table", "cdlam", "var", "proc", "service")),
}
ONE = r"(?:`[^`]+`|an? [a-z]+)"
SET = re.compile(f"^Found .*; expected ({ONE}(?:, {ONE})*(?: or {ONE})?)\\.", re.M)
# A parser is asked some eighty times.
MOST_TOKENS = 400


def fits(before: List[Token], kind: str, fault: Token) -> bool:
    """Whether S2 does not refuse a token of this kind behind these. Which name or number is right, other rules say."""
    what = ("name", EACH) if kind == EACH else (kind, "name_of_none")
    token = Token(*what, 1, fault.line, fault.start)
    grammar = Grammar([*before, token, token._replace(kind="end")])
    try:
        grammar.whole()
    except Refused as refused:
        return refused.code != "S2" or grammar.at != len(before)
    return True


def set_of(items: str, is_procedure: bool) -> FrozenSet[str]:
    """The tokens that are told."""
    parts = re.findall(ONE, items)
    told_of = frozenset().union(*(KINDS.get(one) or {one.strip("`")} for one in parts))
    return told_of - {"lock"} if is_procedure and "`lock`" not in parts else told_of


def judge(comparison: Comparison) -> None:
    inputs = make_inputs(comparison.dice(), make_misspelt)
    try:
        tokens = read_tokens(inputs.script)
    except Refused:
        return
    grammar = Grammar(tokens)
    try:
        grammar.whole()
        return
    except Refused as refused:
        if refused.code != "S2" or grammar.at > MOST_TOKENS:
            return
        line = refused.line()
    answered = comparison.asked("explain", inputs)
    text = answered.out.decode("latin-1") if answered else ""
    found = SET.search(text)
    comparison.seen["set" if found else "sentence of its own"] += 1
    comparison.judged += bool(found)
    wanted = {kind for kind in (*KEYWORDS_TEXT, *SIGNS, EACH, "name", "number") if fits(tokens[: grammar.at], kind, grammar.token)}
    # Where any name fits, that is one.
    wanted -= {EACH} if "name" in wanted else set()
    if not text.startswith(line) or found and set_of(found[1], grammar.is_procedure) != wanted:
        comparison.differs("explain", inputs, told([line, f"expected {sorted(wanted)}"], REFUSED, "S2"), answered)
