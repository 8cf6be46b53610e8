"""The functions in a text of Rattle's, and their lines."""

import dataclasses
import re


def blank(text):
    """Returns the text with comments, strings and character literals blanked, each line as long as before."""
    pattern = r'//[^\n]*|/\*.*?\*/|b?"(?:\\.|[^"\\])*"|b?\'(?:\\[^\n\']+|[^\\\'\n])\''
    return re.sub(pattern, lambda found: re.sub(r"[^\n]", " ", found[0]), text, flags=re.S)


def closing(text, at):
    """Returns the place right after the bracket that closes the one at this place."""
    depth = 0
    for place in range(at, len(text)):
        depth += (text[place] in "{([") - (text[place] in "})]")
        if depth == 0:
            return place + 1
    return len(text)


def body_of(text, at):
    """Returns where the body of the function begins whose name ends at this place, or -1 if it has none."""
    is_clause = False
    while at < len(text):
        clause = re.compile(r"(requires|ensures|ghost)\b").match(text, at)
        if clause:
            is_clause, at = True, clause.end()
        elif text[at] == "{" and not is_clause:
            return at
        elif text[at] in "{([":
            is_clause, at = is_clause and text[at] != "{", closing(text, at)
        elif text[at] == ";" and not is_clause:
            return -1
        else:
            at += 1
    return -1


def type_name(text):
    """Returns the last segment of a type's path, without its arguments."""
    path = re.match(r"\s*(?:&\s*(?:'\w+\s*)?(?:mut\s+)?)?([\w:]+)", text)
    return path[1].rpartition("::")[2] if path else ""


def impl_name(head):
    """Returns the type of an impl, and how the prover names the impl: by its type and its trait, as FromAllocError."""
    head = head.removeprefix("impl").strip()
    if head.startswith("<"):
        depth = 0
        for at, letter in enumerate(head):
            depth += (letter == "<") - (letter == ">" and head[at - 1] != "-")
            if depth == 0:
                head = head[at + 1 :]
                break
    trait, word, of = re.split(r"\bwhere\b", head)[0].partition(" for ")
    if not word:
        return type_name(trait), type_name(trait)
    arguments = re.search(r"\bFrom<(.*)>", trait)
    return type_name(of), type_name(of) + (f"From{type_name(arguments[1])}" if arguments else type_name(trait))


@dataclasses.dataclass(frozen=True)
class Function:
    """A function of a file below src/: the lines of its comments and attributes begin at 'begins', its own are 'first' to 'last'. Its body is
    text[opens:closes]."""

    file: str
    path: str
    begins: int
    first: int
    last: int
    opens: int
    closes: int
    cycle: str
    calls_itself: bool


def types_in(text, file):
    """Returns the module of each type that a source file declares: the prover names the type's own methods by it."""
    names = re.findall(r"^\s*(?:pub(?:\([^)]*\))?\s+)?(?:struct|enum)\s+(\w+)", blank(text), re.M)
    return dict.fromkeys(names, module_of(file))


def functions_in(text, file, types):
    """Returns the functions of a source file, given the module of each type of its crate."""
    plain, lines, found = blank(text), text.split("\n"), []
    item = re.compile(r"\b(fn\s+(\w+)|mod\s+(\w+)\s*\{|trait\s+(\w+)|impl\b|macro_rules!\s*\w+\s*\{)")

    def function(path, head, opens, closes, is_method):
        above = text[: head.start()].rsplit("}", 1)[-1]
        cycle = re.search(r"#\[cycle\((\w+)\)\]", above)
        by = r"\b[sS]elf(\.|::)" if is_method else r"(?<![\w.:])"
        first, last = plain.count("\n", 0, head.start()), plain.count("\n", 0, closes)
        begins = first
        while begins and re.match(r"\s*(#\[|//)", lines[begins - 1]):
            begins -= 1
        calls_itself = bool(re.search(rf"{by}{head[2]}\s*\(", plain[opens:closes]))
        return Function(file, "::".join([*path, head[2]]), begins, first, last, opens, closes, f"+{cycle[1]}" if cycle else "", calls_itself)

    def walk(at, end, path, is_impl=False):
        while head := item.search(plain, at, end):
            opens = body_of(plain, head.end()) if head[2] else plain.find("{", head.start())
            if head[2] and not 0 <= opens < end:
                at = head.end()
                continue
            at = closing(plain, opens)
            if head[2]:
                found.append(function(path, head, opens, at, is_impl))
            elif head[3] or head[4]:
                walk(opens + 1, at - 1, [*path, head[3] or head[4]])
            elif head[0] == "impl":
                of, name = impl_name(plain[head.start() : opens])
                walk(opens + 1, at - 1, [*(types.get(of, path) if name == of else path), name], True)

    walk(0, len(plain), module_of(file))
    return found


def module_of(file):
    """Returns the path of the module whose items a source file holds."""
    path = re.sub(r"\.rt$", "", file.removeprefix("src/")).split("/")
    return [] if path in (["lib"], ["main"]) else [it for it in path if it != "mod"]
