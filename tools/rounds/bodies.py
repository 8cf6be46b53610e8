"""Mutants, and which of them share a round; wrong bodies that a rule makes: a function gives up, takes the other branch, leaves a step out, or is off by one."""

import re
from pathlib import Path

from rounds.repository import Stop
from rounds.source import blank

# A crate's rounds run side by side, so none has more bodies.
MOST = 24
# What a function answers that gives up, by its type. One without a type does nothing.
GIVEN_UP = {"bool": ("false", "true"), r"Option<.*": ("None",), r"[ui](\d+|size)": ("0", "1"), r"Result<\(\), .*": ("Ok(())",), "": ("",)}
OTHER = {"<": "<=", "<=": "<", ">": ">=", ">=": ">", "==": "!=", "!=": "==", "&&": "||", "||": "&&", "+": "-", "-": "+", "true": "false", "false": "true"}
CHANGES = (
    (r"\bif (?!let\b)([^{}]+?)(?= \{)", lambda it: f"if !({it[1]})"),
    # two arms of a `match` with each other's answers
    (r"^( +)(\S.*) => ([^{}\n]+),\n\1(\S.*) => ([^{}\n]+),$", lambda it: f"{it[1]}{it[2]} => {it[5]},\n{it[1]}{it[4]} => {it[3]},"),
    (r"^ +(?! |let\b|return\b|use\b)[^;{}\n]+;$", lambda it: ""),
    (r"(?<= )(?:<=?|>=?|[=!]=|&&|\|\||\+|-)(?= )|\b(?:true|false)\b", lambda it: OTHER[it[0]]),
    (r"(?<![\w.])\d+(?![\w.])", lambda it: str(int(it[0]) + 1)),
)


def read_edits(file):
    """Returns the mutants of a file by their names: of each its lines behind 'mutant: NAME', as pairs of a key and a text."""
    first, *parts = re.split(r"^mutant: (.*)\n", Path(file).read_text("utf-8"), flags=re.M)
    edits = dict(zip(parts[::2], parts[1::2]))
    if first or 2 * len(edits) < len(parts):
        raise Stop(f"{file}: each mutant begins with a line 'mutant: NAME', and has a name of its own")
    return {name: [(key, text.removeprefix(" ")) for key, _, text in (it.partition(":") for it in lines.split("\n") if it)] for name, lines in edits.items()}


def changed(edit, folder):
    """Returns the texts that an edit makes of files below a folder, by their names. Raises ValueError if it does not apply."""
    path, old, texts = "", None, {}
    for key, text in edit:
        if key == "file":
            path = text
        elif key == "old":
            old = text
        elif key == "new":
            if not path or not old:
                raise ValueError("a line 'new:' comes before any 'file:' or 'old:'")
            before = texts.get(path) or Path(f"{folder}/{path}").read_text("utf-8")
            if before.count(old) != 1:
                raise ValueError(f"a text 'old:' is in {path} {before.count(old)} times, not once")
            texts[path], old = before.replace(old, text), None
    if not texts:
        raise ValueError("it has no pair of lines 'old:' and 'new:'")
    return texts


class Body:
    """A mutant: by file the lines that it changes, and the functions that it changes. If a line is in no function, the mutant is wide."""

    def __init__(self, crate, name, edit):
        self.crate, self.edit, self.label = crate, edit, f"{crate.name}/{name}"
        self.fault, self.is_wide, self.lines, self.functions = None, False, {}, []
        try:
            self.apply()
        except (ValueError, OSError) as why:
            self.fault = f"BAD EDIT: {why}"

    def apply(self):
        for path, text in changed(self.edit, self.crate.folder).items():
            if not path.startswith("src/"):
                raise ValueError("a mutant is one of src/: a changed definition or proof shows nothing")
            before, after = Path(f"{self.crate.folder}/{path}").read_text("utf-8").split("\n"), text.split("\n")
            self.lines[path] = {at: line for at, line in enumerate(after) if line != before[at]}
            for at in self.lines[path]:
                inside = [it for it in self.crate.functions if it.file == path and it.first <= at <= it.last]
                self.is_wide = self.is_wide or not inside
                self.functions += [it for it in inside if it not in self.functions]

    def excludes(self, other):
        """Whether the two can share no round: they change one function, or one of them a table or constant on which any may rest."""
        return self.is_wide or other.is_wide or bool({*self.functions} & {*other.functions})


def bodies_of(crate):
    """Returns the mutants of a crate, by their names."""
    file = Path(f"{crate.folder}/mutants.edits")
    return [Body(crate, *it) for it in sorted(read_edits(file).items())] if file.exists() else []


def unchanged(bodies):
    """Returns bodies without their changes, one for the same functions."""
    tried = {tuple(it.functions): it for it in bodies if not it.fault and not it.is_wide}
    for it in tried.values():
        it.lines = {}
    return [*tried.values()]


def packed(bodies, apart=frozenset()):
    """Returns rounds of these bodies. Two bodies of a pair in 'apart' share none."""
    rounds = []
    for body in bodies:
        free = (it for it in rounds if len(it) < MOST and not any(body.excludes(other) or frozenset((body, other)) in apart for other in it))
        some = next(free, None)
        if some is None:
            rounds.append(some := [])
        some.append(body)
    return rounds


class Plant(Body):
    """A wrong body of one function: a text in the place of another. Each line of the file keeps its number."""

    def __init__(self, crate, function, begin, end, new):
        self.crate, self.fault, self.is_wide, self.functions = crate, None, False, [function]
        before = Path(f"{crate.folder}/{function.file}").read_text("utf-8")
        after = f"{before[:begin]}{new}{before[end:]}".split("\n")
        self.lines = {function.file: {at: line for at, (line, was) in enumerate(zip(after, before.split("\n"))) if line != was}}
        self.edit, self.label = [function.file, begin, end, new], f"{crate.name}/{function.path}"
        self.what = " ".join(f"{before[begin:end]} -> {new}".split())


def plants_of(crate, function):
    """Returns the wrong bodies of a function."""
    text = Path(f"{crate.folder}/{function.file}").read_text("utf-8")
    plain, begin, end = blank(text), function.opens + 1, function.closes - 1
    if not plain[begin:end].strip():
        return []
    head = re.split(r"\b(?:requires|ensures|where)\b", "\n".join(plain[: begin - 1].split("\n")[function.first :]))[0]
    kind, lines = head.partition("->")[2].strip(), "\n" * text.count("\n", begin, end)
    answers = [it for form, bodies in GIVEN_UP.items() if re.fullmatch(form, kind, re.S) for it in bodies if it != text[begin:end].strip()]
    found = [(begin, end, f" {it} {lines}") for it in answers]
    for form, new in CHANGES:
        found += [(*it.span(), new(it)) for it in re.compile(form, re.M).finditer(text, begin, end) if plain[it.end() - 1] == it[0][-1]]
    return [Plant(crate, function, *it) for it in found]
