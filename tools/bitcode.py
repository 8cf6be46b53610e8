"""The bitcode of the kit's quick run, as LLVM's text: without the tests that a proof makes needless, with the hints of the sources, and in parts
that are compiled side by side.

In the text of a module each global value is a line that begins with `@`, and each function begins with a line `define` and ends with a line
that is `}`. The functions that are not internal reach all others that count. All global values are constants without an address
of their own.
"""
import bisect
import glob
import itertools
import os
import re

# The calls of tests of arithmetic, of casts and of values that are read; the bytes that fill each local variable. The pattern begins with the end of
# the line before: so it takes a quarter of the time.
NEEDLESS = [
    (re.compile(r'\n  call void @"rattle-(?:llvm-checks::\w+"\(i8 [^)]*\)|try::site-\d+"\(\))(?=\n)'), ""),
    (re.compile(r"\n  call void @llvm\.memset\.p0\.i64\(ptr %r\d+, i8 -86, i64 \d+, i1 false\)(?=\n)"), ""),
    (re.compile(r"\n(attributes #\d+ = \{) \}"), r"\n\1 nounwind }"),
]
# The parts for a sanitizer.
WORDS_OF_SANITIZERS = (" sanitize_address", ' "frame-pointer"="all"')
HINT = re.compile(r"#\[(inline\(always\)|inline\(never\)|inline|cold)\](?:\s*#\[[^\]]*\]|\s*//[^\n]*)*\s*(?:pub(?:\([^)]*\))? )?(?:(?:const|unsafe|final) )*fn (\w+)")
WORDS = {"inline": "inlinehint", "inline(always)": "alwaysinline", "inline(never)": "noinline", "cold": "cold noinline"}
NAME = re.compile(r'@("[^"]*"|[\w.$-]+)')
FUNCTION = re.compile(r'\n(define internal [^\n]*?)@"([^"]+)"(\([^\n]*\)) #0 \{(?=\n)')
GROUPS = {word: f"#{900 + number}" for number, word in enumerate(sorted(set(WORDS.values())))}
# A function is compiled in each part that calls it, so that it may be taken in there, if it has no more lines, has a hint to be taken in, or is of a
# crate whose functions are made for each use. Of these the lines tell little: `from_le_bytes` has 510, and two instructions once it is optimized.
SMALL = 250
TAKEN_IN = tuple(f" {GROUPS[word]} {{" for word in ("alwaysinline", "inlinehint"))
LIBRARIES = {"core", "std", "std_alloc", "std_collections", "std_heap", "std_io", "arrayvec", "os"}


def without_tests(text):
    """The module without the stops that a proof excludes."""
    for word in WORDS_OF_SANITIZERS:
        text = text.replace(word, "")
    for needless, instead in NEEDLESS:
        text = needless.sub(instead, text)
    return text


def hints(folders):
    """The hints of the sources on functions: by its name the path of the module and the word of LLVM. `folders` hold crates. The methods of a type
    may be in modules below that of the type, so the path is that of the module around."""
    found = {}
    for folder in folders:
        for file in glob.glob(f"{folder}/*/src/**/*.rt", recursive=True):
            crate, _, *path = os.path.relpath(file, folder)[: -len(".rt")].split(os.sep)
            module = "::".join([crate, *path[:-1]])
            with open(file, encoding="utf-8") as source:
                for hint, name in HINT.findall(source.read()):
                    found.setdefault(name, []).append((module, WORDS[hint]))
    return found


def with_hints(text, found):
    """The module in which functions have these hints, which the quick run leaves out."""
    usual = re.search(r"^attributes #0 = \{ (.*) \}", text, re.M)[1]

    def hinted(function):
        path = function[2].partition("::<")[0]
        for module, word in found.get(path.rpartition("::")[2], ()):
            if path.startswith(module + "::"):
                return f'\n{function[1]}@"{function[2]}"{function[3]} {GROUPS[word]} {{'
        return function[0]

    text = FUNCTION.sub(hinted, text)
    return text + "".join(f"\nattributes {group} = {{ {word} {usual} }}" for word, group in GROUPS.items()) + "\n"


class Module:
    """Functions and global values by their names, what each of them names, and all other lines."""

    def __init__(self, text):
        self.others, self.functions, self.globals = [], {}, {}
        at = 0
        while at < len(text):
            end = text.find("\n}\n", at) + 3 if text.startswith("define", at) else text.find("\n", at) + 1
            piece, at = text[at : end or None], end or len(text)
            if piece.startswith("define"):
                self.functions[NAME.search(piece)[1]] = piece
            elif piece.startswith("@"):
                self.globals[NAME.match(piece)[1]] = piece
            else:
                self.others.append(piece)
        self.names = {name: set(NAME.findall(text)) - {name} for name, text in {**self.functions, **self.globals}.items()}

    def reached(self, first=frozenset()):
        """The functions and global values that are reached, each behind the one that names it first. Those of the crates that come first are
        followed first."""
        found = {}
        left = [name for name, text in self.functions.items() if not text.startswith("define internal")]
        later = []
        while left or later:
            name = left.pop() if left else later.pop()
            if name not in found and name in self.names:
                found[name] = len(found)
                for other in sorted(self.names[name], reverse=True):
                    crate = other.strip('"').partition("::")[0]
                    (left if crate in first or crate in LIBRARIES else later).append(other)
        return list(found)

    def parts(self, shares, first=frozenset()):
        """The texts of modules which, linked, are what is reached of this one. Each has its share of the functions that are not small. The crates that come
        first are in one part, as far as it takes them."""
        reached = self.reached(first)
        small = {it for it in reached if it in self.functions and self._is_small(self.functions[it])}
        large = [it for it in reached if it in self.functions and it not in small]
        length = sum(len(self.functions[it]) for it in large)
        ends = [length * it for it in itertools.accumulate(shares)]
        parts, so_far = [[] for _ in shares], 0
        for name in large:
            parts[min(bisect.bisect_right(ends, so_far), len(parts) - 1)].append(name)
            so_far += len(self.functions[name])
        named = [self._named(it, small) for it in parts]
        shared = {it for part, names in zip(parts, named) for it in names - small - set(part) if it in self.functions}
        return ["".join(self._part(set(part), names, small, shared)) for part, names in zip(parts, named) if part]

    @staticmethod
    def _is_small(function):
        head = function[: function.index("\n")]
        crate = NAME.search(head)[1].strip('"').partition("::")[0]
        return head.startswith("define internal") and (crate in LIBRARIES or head.endswith(TAKEN_IN) or function.count("\n") <= SMALL)

    def _named(self, large, small):
        """The names in these functions, and in the small functions and values among these."""
        seen, left = set(), list(large)
        while left:
            for name in self.names[left.pop()] - seen:
                if name in self.names:
                    seen.add(name)
                    if name in small or name in self.globals:
                        left.append(name)
        return seen

    def _part(self, large, named, small, shared):
        yield from self.others
        for name in sorted(named | large):
            if name in self.globals:
                yield self.globals[name]
            elif name in large and name in shared:
                yield self.functions[name].replace("define internal", "define hidden", 1)
            elif name in large or name in small:
                yield self.functions[name]
            else:
                head = self.functions[name].partition("\n")[0]
                yield re.sub(r"^define (internal )?", "declare hidden ", head).rstrip("{ ") + "\n"
