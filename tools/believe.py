#!/usr/bin/env python3
"""The definitions on which the sentences of README rest, and those on which nothing rests.

usage: tools/believe.py [--list | --dead | --lawless]

Prints the page docs/inside/BELIEVE.md; with --list each definition and its lines; with --dead those on which no source rests: only proofs do, or nothing;
with --lawless how many lines of each crate's definitions stand under no law, one of a file laws.rt or of camac_laws, and their sum.
"""
import re
import sys
from pathlib import Path

TOP = Path(__file__).resolve().parent.parent
# What the clauses of the laws name that are the two sentences.
HEADLINE = [("camac_run.Headline", "RunsAlways"), ("camac_run.Headline", "RunsByHeadline")]
LOOK_AT_MES = [("camac_response.Checked", "Responds")]
# The law of how `tell` ends is one of its own definitions alone: it says nothing of the texts that they name.
OF_AN_END, ITS_OWN = "camac_engines.laws", "camac_engines.Tell"
# The lines `unkept`, which the program prints: they are seen, not believed.
PRINTED = {("camac_response.Unkept", "unkept_of"), ("camac_commands.Commands", "commands_of")}
USE = re.compile(r"^ *(?:pub |ghost )*use Rattle\.([^\s{;]+?)(?:\.\{([^}]*)\}| as (\w+));?$", re.M)
BEGINS = re.compile(r"(?:(?:abbrev|unfoldable) )?pub (?:record |data )?(?!mod )([^\s:]+)")
TEXT = """\
# What has to be believed

For whoever wants to know on what the sentences of [README](../../README.md#what-it-promises) rest: after this page you know which definitions to read.
`tools/believe.py` writes it; with `--list` it names each definition, with `--lawless` it counts those under no law.
camac_model/Run is the file `crates/camac_model/specs/Run.antt`.

Nobody proves that a definition means what it should. Here are all on which a sentence rests, by their files in reading order, with their lines. Nothing
else has to be believed but the toolchain, and types of sources that these name. Plans and scripts are trees here; of texts, see [PROMISES](PROMISES.md).

## The headline: {} lines

{}

## Look-at-mes: {} lines more

That the script does its part is seen: `camac response` prints no `unkept` line of the bits up to this one. Such lines are those of the law, by proof.

{}
"""


class File:
    """A file of definitions, a source or a proof: from where each name is that it imports, and its definitions, each the lines of its block and its own."""

    def __init__(self, path):
        crate, self.part, *rest = path.relative_to(TOP / "crates").with_suffix("").parts
        self.module, self.text = ".".join([crate, *rest]), path.read_text("utf-8")
        self.imports, self.definitions, self.parts = {}, {}, {}
        for module, names, other in USE.findall(self.text):
            for it in [*names.split(", "), f"None as {other}"]:
                self.imports[it.split(" as ")[-1]] = (module.replace(".specs.", ".", 1), it.split(" as ")[0])
        self.lines, block, column, own = [it for it in USE.sub("", self.text).split("\n") if not re.match(r" *(--|//|$)", it)], "", 0, []
        for line in self.lines if self.part == "specs" else []:
            if line[0] != " ":
                block, column = (line, 2) if re.match(r"module |(\w+ )?mutual$", line) else ("", 0)
            found, part = BEGINS.match(line[column:]), re.match(r" +(\S+) :", line)
            if found:
                own = self.definitions.setdefault(name := found[1], [block])
            elif part and "pub data " in own[1]:
                self.parts[part[1]] = name
            own += [line] * (line != block)

    def row(self, names):
        """Where the file is, the lines of these definitions in it, and the begin of its first sentence, without brackets."""
        said = re.sub(r"^-- | \(.*?\)", "", re.match(r"(?:--.*\n)*", self.text)[0].replace("\n-- ", " "))
        said = re.match(r"(?:.{18}.*?(?=[:;] )|.{30}.*?(?=, [a-z])|.*)", re.match(r".*?(?=\.?\s*$|\. )", said, re.S)[0])[0]
        return f"- {self.module.replace('.', '/')}, {count(it for it in names if it[0] == self.module)}: {said}."


FILES = [File(it) for it in sorted(TOP.glob("crates/*/[sp]*/**/*")) if it.suffix in (".rt", ".antt")]
MODULES = {it.module: it for it in FILES if it.part == "specs"}


def closure(roots, of, found):
    """The roots and all on which they rest, each after those on which it rests itself."""
    for one in sorted(roots):
        if one not in found:
            found[one] = None
            closure(of(one), of, found)
            found[one] = found.pop(one)
    return [*found]


def defined(module, name):
    """The definition that a name of a module means, or None if it is one of the toolchain or a type of the sources."""
    file = MODULES.get(module)
    name = file.parts.get(name, name) if file else None
    return (module, name) if file and name in file.definitions else defined(*file.imports[name]) if file and name in file.imports else None


def named(file, lines):
    """The definitions that lines of a file name. A `do` names two operators."""
    words = {*re.findall(r"[^\s(){}\[\],;.λ`]+", "\n".join(lines).replace(" do\n", " >>= >>\n"))}
    known = {it: (file.module, it) for it in [*file.definitions, *file.parts]} | file.imports
    found = {defined(*place) for name, place in known.items() if name in words or "◌" in name and {*name.split("◌")} - {""} <= words}
    return (found | {defined(known[one][0], it) for one, it in re.findall(r"\b(\w+)\.([^\s(){},.]+)", "\n".join(lines)) if one in known}) - {None}


def under(roots, but=frozenset()):
    return closure(roots, lambda it: named(MODULES[it[0]], MODULES[it[0]].definitions[it[1]]) - but, {})


def count(names):
    return sum(len(MODULES[module].definitions[name]) - 1 for module, name in names)


def main(words):
    first = under(HEADLINE)
    more = [it for it in under(LOOK_AT_MES, PRINTED) if it not in first]
    if words == ["--dead"]:
        living, proved = (under({it for file in FILES if file.part == part for it in named(file, file.lines)}) for part in ("src", "proofs"))
        for it in [(module, name) for module, file in MODULES.items() for name in file.definitions if (module, name) not in living]:
            print(f"{'only proofs rest' if it in proved else 'nothing rests'} on {'.'.join(it)}, {count([it])}")
    elif words == ["--lawless"]:
        laws = [it for it in FILES if it.part == "src" and "laws" in it.module and it.module != OF_AN_END]
        lawful = {*under({it for file in laws for it in named(file, file.lines)}), *((ITS_OWN, name) for name in MODULES[ITS_OWN].definitions)}
        crates = {it.partition(".")[0]: 0 for it in MODULES}
        for module, name in {(module, name) for module, file in MODULES.items() for name in file.definitions} - lawful:
            crates[module.partition(".")[0]] += count([(module, name)])
        print("\n".join(f"{name} {lines}" for name, lines in [*crates.items(), ("all", sum(crates.values()))]))
    elif words == ["--list"]:
        print("\n".join(f"{'.'.join(it)}, {count([it])}" for it in [*first, *more]))
    elif words:
        sys.exit(__doc__.strip())
    else:
        above = closure(MODULES, lambda it: {other for other, _ in MODULES[it].imports.values()} & {*MODULES}, {})
        rows = ("\n".join(MODULES[it].row(rows_of) for it in above if it in dict(rows_of)) for rows_of in (first, more))
        print(TEXT.format(count(first), next(rows), count(more), next(rows)), end="")


if __name__ == "__main__":
    main(sys.argv[1:])
