#!/usr/bin/env python3
"""Runs the examples of README.md, of the pages of docs/ and of man/camac.1 and man/*.5, and compares their output with the pages; follows
links. Checks that the diffs of the tasks in docs/inside/CHANGING.md apply.

usage: tests/documents_test.py [-v] [TEST ..]     from any folder; takes a few seconds

Each fenced block of a page is of one of these kinds, and is tried:

  ```console                  lines '$ COMMAND', each with the output that follows it; '> ' before a line goes on with the command
  ```camac VERDICT [FILE] [on PLAN]    a whole script, and the verdict on a plan (@sample, unless one is named): 'accepted', or a code and
                              line as 'E2 line 7'
  ```toml CODE                a plan that is refused, and the code: 'P2'
  ```output                   right after a script: all that `check` prints
  ```python FILE, ```toml FILE, ```sh FILE, ```c FILE    a file that a later command of the page uses, or a part of an example of that name

A console block is left out where it calls a compiler (cc, c++) that is not here, or asks for the library for C (by pkg-config, or by a program
in Python named in_this_process.py) and that is not here (tests/support/of_c.py), or for numpy or h5py (by these words, .npz or .h5) and they are not here.

A page of `KEPT` has a folder in examples. Each file there has to be what a block or a command of the page made of that name, to the byte;
pictures, too. `tests/documents_test.py --keep` writes them anew, to be looked at before they are committed.

In a table whose last heading ends in 'write', the pieces of script in the last cell of each row are tried, too: each has to be accepted as a
statement, an expression or a condition on variables that were read. A piece of one word, or with '..' or capitals, is a form.

A block that is not tried (a form, a picture, a command that builds or proves) is indented instead. A command of camac or a statement of a
script in one is a failure, unless its words are in capitals (camac run PLAN ..): then it is a form. The manual page has console blocks
alone, between .Bd and .Ed.

The commands of a page run in a folder of its own with the examples, where ./camac is the program: crates/camac/out/camac (cd crates/camac &&
rt run makes it), or what the environment variable CAMAC_PROGRAM names.
"""
import os
import re
import shutil
import subprocess
import sys
import unittest

from support import of_c
from support.needs import has
from support.program import PROGRAM, TOP, Room, run_tests

if "CAMAC_PROGRAM" in os.environ:
    os.environ["CAMAC_PROGRAM"] = PROGRAM  # commands of pages run it from other folders, too
PAGES = [TOP / "README.md", *sorted((TOP / "docs").rglob("*.md"))]
BLOCK = re.compile(r"^```([^\n]*)\n(.*?)^```$", re.M | re.S)
INDENTED = re.compile(r"^    .*$", re.M)
COMMAND = re.compile(r"^\$ |(?:^|[|;&(] *)(?:\./)?camac\b(?! [a-z]+ [A-Z]+\b)(?= \S)")
STATEMENT = re.compile(r"^(?:cdlam|cdreg|cfsa|cssa|service|proc) (?!.*\b[A-Z]{2,}\b).*\d")
FILE = re.compile(r"(?:python|toml(?! P\d)|sh|c|cpp|camac (?:accepted|\w+ line \d+)) (\S+)(?: on \S+)?")
# Pages whose files are in a folder of examples too, and where the page makes them.
KEPT = {"TUTORIAL.md": ("tutorial", "."), "RECIPES.md": ("benches", "benches")}
COMPILER = re.compile(r"^\$ (?:cc|c\+\+) ", re.M)
LIBRARY = re.compile(r"pkg-config|in_this_process\.py|^\$ \./readout\b", re.M)
ARRAYS = re.compile(r"^\$ .*(?:numpy|(?:h5py|\.npz|\.h5)\b)", re.M)
CELL = re.compile(r"^\|(?:[^|\n]*\|)*([^|\n]*)\|$")
# The places for a piece of a script: a statement, a write, a statement's begin, a condition, the end of one, an expression, the end of one.
PLACES = ("{}", "cdreg r 1 1 6 0  v = v % 256  {}", "{} {{ }}", "if {} {{ }}", "if v > 0 {} {{ }}", "put ({}) % 2", "put (v {}) % 2")
READ = """cdlam adc 1 1 5 12
var a b c d k v
service adc within 18 cycles event 1 words {
  cdreg r 1 1 5 0  cdreg channel 1 1 5 0
  cfsa 0 r -> a  cfsa 0 r -> b  cfsa 0 r -> c  cfsa 0 r -> k  cfsa 0 r -> v
"""
# The section of docs/inside/CHANGING.md that each diff belongs to.
TASKS = {"first_task.diff": "## A first task", "line_task.diff": "## Change a line of the listing"}
WAIT = 60
SCRIPT = "cdlam adc 1 1 5 12\nservice adc within 3 cycles event 0 words { }\n"


class Wrong(Exception):
    """A page shows another output than its commands print."""


def run(command, room, given=b""):
    """Returns what the command prints, standard error too."""
    words = {"cwd": room, "input": given, "stdout": subprocess.PIPE, "stderr": subprocess.STDOUT, "timeout": WAIT}
    places = {"PATH": f"{room}{os.pathsep}{os.environ['PATH']}", "PYTHONPATH": str(TOP / "python"), "PYTHONDONTWRITEBYTECODE": "1"}
    places.update({} if of_c.lacking() else of_c.environment())
    return subprocess.run(["bash", "-c", command], env={**os.environ, **places}, **words).stdout.decode()


def is_left_out(text):
    """Whether a console block needs a compiler, the library for C, or numpy and h5py if there is none."""
    if ARRAYS.search(text) and not has("python3-numpy", "python3-h5py") or COMPILER.search(text) and not has("gcc", "g++"):
        return True
    return bool(LIBRARY.search(text)) and not (of_c.is_here() and has("pkg-config"))


def compare(what, wanted, found):
    if wanted != found:
        raise Wrong(f"{what}\nthe page says:\n{wanted}\nbut it is:\n{found}")


def calls(text):
    """The commands of a console block, each with the output that follows it."""
    before, *found = re.split(r"^\$ ", text, flags=re.M)
    if before.strip() or not found:
        raise Wrong(f"a console block begins with a line '$ COMMAND':\n{text}")
    return [re.fullmatch(r"(.*(?:\n> .*)*)\n?((?:.*\n?)*)", it).groups() for it in found]


def try_console(text, room):
    """Runs each command of a console block, and returns how many there are."""
    found = calls(text)
    for command, wanted in found:
        compare(command, wanted, run(command.replace("\n> ", "\n"), room))
    return len(found)


def try_script(words, text, room):
    """Compares the verdict on a script, and returns all that `check` prints."""
    verdict = re.fullmatch(r"(accepted|[A-Z]\d+(?: line \d+)?)(?: (\S+?))??(?: on (\S+))?", words)
    if not verdict:
        raise Wrong(f"no verdict: {words}")
    if verdict[2]:
        (room / verdict[2]).write_text(text)
    printed = run(f"./camac check {verdict[3] or '@sample'} @in", room, text.encode())
    first = printed.partition("\n")[0].removeprefix("refused ").partition(":")[0]
    compare(text, verdict[1], first)
    return printed


def try_plan(code, text, room):
    """Compares the refusal of a plan."""
    compare(text, code, run("./camac plan @in", room, text.encode()).removeprefix("refused ").partition(":")[0])


def refuse_untried(text):
    """Refuses a command or a statement that is in an indented block."""
    for line in INDENTED.findall(BLOCK.sub("", text)):
        if COMMAND.search(line.strip()) or STATEMENT.search(line.strip()):
            raise Wrong(f"this line stands in no block that is tried: {line.strip()}")


def refuse_unused(blocks):
    """Refuses a file that no later command of the page names."""
    for place, (words, _) in enumerate(blocks):
        file = FILE.fullmatch(words)
        if file and not any(kind == "console" and file[1] in body for kind, body in blocks[place + 1 :]):
            raise Wrong(f"no command uses {file[1]}")


def pieces(text):
    """The pieces of script in the last cells of the tables that say what to write."""
    found = []
    for table in re.findall(r"(?:^\|.*\|\n)+", BLOCK.sub("", text), re.M):
        head, _, *rows = table.splitlines()
        if head.rstrip("| ").endswith("write"):
            cells = [CELL.match(row)[1] for row in rows]
            found += [it for cell in cells for it in re.findall(r"`([^`]+)`", cell) if " " in it and ".." not in it and not re.search("[A-Z]", it)]
    return found


def try_piece(piece, room):
    """Tries a piece of a script at each place where it may be."""
    scripts = [f"{READ}  {place.format(piece)}\n}}\n" for place in PLACES]
    if not any(run("./camac check @sample @in", room, it.encode()).startswith("accepted") for it in scripts):
        raise Wrong(f"this is accepted nowhere: {piece}")


def write_file(file, body):
    """Writes a file of a page. An example shows a part of itself."""
    if not file.exists():
        file.write_text(body)
    elif body not in file.read_text():
        raise Wrong(f"this is no part of {file.name}:\n{body}")


def try_page(text, room):
    """Tries all blocks of a page in their order, and returns how many commands and scripts it ran."""
    blocks = BLOCK.findall(text)
    refuse_untried(text)
    refuse_unused(blocks)
    tried, printed = 0, None
    for piece in pieces(text):
        try_piece(piece, room)
    for words, body in blocks:
        kind, _, rest = words.partition(" ")
        before, printed = printed, None
        if kind == "console":
            tried += 0 if is_left_out(body) else try_console(body, room)
        elif kind == "camac":
            tried, printed = tried + 1, try_script(rest, body, room)
        elif kind == "toml" and re.fullmatch(r"P\d", rest):
            try_plan(rest, body, room)
            tried += 1
        elif kind == "output" and before is not None:
            compare("the script before", body, before)
        elif kind in ("python", "toml", "sh", "c", "cpp") and rest:
            write_file(room / rest, body)
        else:
            raise Wrong(f"a block of no kind that is tried: ```{words}\n{body}")
    return tried


def compare_kept(folder, room):
    """Compares the files of a folder with those of the same names that a page made, and returns how many there are."""
    kept = [it for it in sorted(folder.rglob("*")) if it.is_file() and "__pycache__" not in it.parts]
    for file in kept:
        made = room / file.relative_to(folder)
        if not made.exists() or made.read_bytes() != file.read_bytes():
            raise Wrong(f"{file} is not what the page makes" if made.exists() else f"the page makes no {file}")
    return len(kept)


def git(room, *words):
    return subprocess.run(["git", *words], cwd=room, capture_output=True, text=True, check=True, timeout=WAIT).stdout


def anchors(text):
    """The names by which links lead to the headings of a page."""
    headings = re.findall(r"^#+ (.*)$", BLOCK.sub("", text), re.M)
    return {re.sub(r"[^\w -]", "", it).lower().replace(" ", "-") for it in headings}


def links(page):
    """The links of a page to files, each with the file and the heading that it names."""
    for link in re.findall(r"\]\(([^)\s]+)\)", BLOCK.sub("", page.read_text())):
        name, _, heading = link.partition("#")
        if "://" not in link:
            yield link, page.parent / name if name else page, heading


def lost_links(page):
    """The links of a page that lead to no file, or to no heading of the page they name."""
    return [link for link, file, heading in links(page) if not (file.exists() and (not heading or heading in anchors(file.read_text())))]


class Documents(Room):
    def setUp(self):
        """Makes a new folder with the program and the examples."""
        super().setUp()
        (self.room / "camac").symlink_to(PROGRAM)
        for name in ("camac-check", "camac-fmt", "camac-survey"):
            shutil.copy(TOP / "python/camac-report", self.room / name)
        shutil.copytree(TOP / "examples", self.room / "examples")

    def test_pages(self):
        tried = 0
        for page in PAGES:
            self.setUp()
            with self.subTest(page=page.name):
                try:
                    tried += try_page(page.read_text(), self.room)
                    if page.name in KEPT:
                        folder, place = KEPT[page.name]
                        self.assertGreater(compare_kept(TOP / "examples" / folder, self.room / place), 0)
                except Wrong as why:
                    self.fail(f"{page.name}: {why}")
        self.assertGreater(tried, 50)

    def test_links(self):
        for page in sorted({*PAGES, *TOP.glob("*.md"), *TOP.glob("editors/*.md")}):
            self.assertEqual(lost_links(page), [], page.name)
        page = self.room / "page.md"
        page.write_text("# A page\n\n[a](#a-page) [b](page.md#a-page) [c](examples) [d](#b-page) [e](none.md) [f](page.md#none)\n")
        self.assertEqual(lost_links(page), ["#b-page", "none.md", "page.md#none"])

    def test_links_of_installed_pages(self):
        """They lead to what `install` puts beside the pages."""
        loops = (TOP / "install").read_text().partition("\nput_pages() {")[2].partition("\n}")[0]
        put = " ".join(re.findall(r"for name in ([^;]*);", loops)).split()
        self.assertIn("docs", put)
        for page in PAGES:
            files = {file.resolve().relative_to(TOP) for _, file, _ in links(page)}
            self.assertEqual([it for it in files if not any(it.is_relative_to(name) for name in put)], [], page.name)

    def test_files_of_live_runs(self):
        """The page on live runs runs or explains each file of examples/live."""
        page = (TOP / "docs/LIVE.md").read_text()
        lost = [it.name for it in (TOP / "examples/live").iterdir() if it.is_file() and f"(../examples/live/{it.name})" not in page]
        self.assertEqual(lost, [])

    def test_what_README_leaves(self):
        """The repository ignores it."""
        shutil.copy(TOP / ".gitignore", self.room)
        git(self.room, "init", "-q")
        git(self.room, "add", "-A")
        try_page((TOP / "README.md").read_text(), self.room)
        self.assertTrue((self.room / "wrong.script").exists())
        left = git(self.room, "status", "--porcelain", "--untracked-files=all").splitlines()
        self.assertEqual([it for it in left if it.startswith("??")], [])

    def test_manual_pages(self):
        for page in (TOP / "man/camac.1", *sorted((TOP / "man").glob("*.5"))):
            self.setUp()
            shutil.copy(self.room / "examples/straight_line.script", self.room / "readout.script")
            examples = page.read_text().partition(".Sh EXAMPLES\n")[2].partition("\n.Sh ")[0]
            self.assertNotIn(".Dl", examples)
            blocks = re.findall(r"^\.Bd [^\n]*\n(.*?)^\.Ed$", examples, re.M | re.S)
            tried = sum(try_console(it.replace("\\e", "\\"), self.room) for it in blocks)
            self.assertEqual(tried, len(re.findall(r"^\$ ", examples, re.M)), page.name)

    def refuse(self, text):
        with self.subTest(text=text), self.assertRaises(Wrong):
            try_page(text, self.room)

    def test_changed_pages(self):
        console = "```console\n$ ./camac plan @sample | grep buffer\nbuffer 4096\n```\n"
        good = f"```camac accepted\n{SCRIPT}```\n\n```output\naccepted\nservice adc gl 3 cycles 0 of 3 words 0 of 0 steps 0\n```\n\n{console}"
        self.assertEqual(try_page(good, self.room), 2)
        for old, new in [
            ("camac accepted", "camac E2 line 2"),
            ("camac accepted", "camac refused"),
            ("camac accepted", "camac"),
            ("camac accepted", ""),
            ("camac accepted", "camac accepted unused.script"),
            ("cycles 0 of 3", "cycles 1 of 3"),
            ("buffer 4096", "buffer 4095"),
            ("buffer 4096\n", ""),
            ("$ ./camac", "./camac"),
            ("console", "text"),
            ("console", ""),
            ("console", "output"),
        ]:
            self.assertIn(old, good)
            self.refuse(good.replace(old, new))

    def test_lines_that_are_not_tried(self):
        for line in ("./camac plan @sample", "$ ls", "yes | camac run @sample s @in e", "camac --version", *SCRIPT.splitlines()):
            self.refuse(f"A page.\n\n    {line}\n")
        self.refuse("```python a.py\nprint(1)\n```\n\n```console\n$ echo\n\n```\n")
        self.assertEqual(try_page("A form.\n\n    camac run PLAN SCRIPT ANSWERS EVENTS\n    cdreg NAME 1 CRATE\n", self.room), 0)

    def test_pieces_in_tables(self):
        table = "| not there | write |\n|---|---|\n| `a | b` | `PIECE`, or `while .. by k` |\n".replace("`a | b`", "`or`")
        for piece in ("d = a + 4095 - b", "if v > 3", "v != 0", "% 16", "(v / 8) % 2", "v = 0  if q { v = 1 }"):
            self.assertEqual(pieces(table.replace("PIECE", piece)), [piece])
            self.assertEqual(try_page(table.replace("PIECE", piece), self.room), 0)
        for piece in ("if a >= b { d = a - b } else { d = b - a }", "a - b", "v += 1", "v = v / k"):
            self.refuse(table.replace("PIECE", piece))
        self.assertEqual(pieces(table.replace("write", "wrong")), [])

    def test_commands_of_more_lines(self):
        self.assertEqual(try_page("```console\n$ ./camac plan @sample |\n>   grep buffer\nbuffer 4096\n$ true\n```\n", self.room), 2)
        self.refuse("```console\n$ ./camac plan @sample |\n>   grep buffer\nbuffer 4095\n```\n")


class Sentences(unittest.TestCase):
    """What several pages say, or a page and a file."""

    def page(self, name):
        return (TOP / name).read_text()

    def test_promises(self):
        """PROMISES has each promise of README word by word."""
        mine, promises = (set(re.findall(r"(?m)^> .*(?:\n> .*)*", self.page(it))) for it in ("README.md", "docs/inside/PROMISES.md"))
        self.assertEqual(len(mine), 2)
        self.assertEqual({" ".join(it.split()) for it in mine} - {" ".join(it.split()) for it in promises}, set())

    def test_names_in_promises(self):
        """PROMISES names what is there: a function, a clause, a definition or a field."""
        files = [it for place in ("crates/*/src", "crates/*/specs", "include") for it in TOP.glob(f"{place}/**/*.*")]
        known = {word for it in files for word in re.findall(r"\w+", it.read_text())}
        named = re.findall(r"`(?:\w+::)*(\w+)`", self.page("docs/inside/PROMISES.md"))
        self.assertGreater(len(named), 200)
        self.assertEqual({*named} - known, set())

    def test_sentences_of_look_at_mes(self):
        """README has a sentence for each field of the record that the law of look-at-mes assumes, and one on where a run stops."""
        fields = self.page("crates/camac_response/specs/Lams.antt").partition("pub record ModulesKeep")[2]
        ends = self.page("crates/camac_response/specs/Modules.antt").partition("abbrev pub waits_watch")[0].splitlines()[-1]
        comments = re.findall(r"((?: +-- .*\n)+) +pub \w+ :", fields)
        self.assertEqual(len(comments), len(re.findall(r"(?m)^ +pub \w+ :", fields)))
        sentences = [" ".join(re.sub(r"(?m)^ *-- ", "", it).split()) for it in (*comments, ends)]
        listed = re.findall(r"(?m)^\d\. (.*(?:\n   .*)*)", self.page("README.md").partition("> At the rates")[2].partition("\n## ")[0])
        self.assertEqual([" ".join(it.split()) for it in listed], sentences)
        number = ("four", "five", "six", "seven")[len(sentences) - 4]
        told = [it for page in PAGES for it in re.findall(r"\[(\w+)\s+sentences\]", page.read_text())]
        self.assertEqual({*told}, {number})

    def test_what_has_to_be_believed(self):
        """The page is as its program writes it, from what the clauses of the laws name."""
        told = subprocess.run([TOP / "tools/believe.py"], stdout=subprocess.PIPE, text=True, check=True).stdout
        self.assertEqual(self.page("docs/inside/BELIEVE.md"), told)
        clauses = {law: {*re.findall(r"ensures \w* ?\{ (\w+)", self.page(f"crates/{crate}/src/laws.rt").partition(f"fn {law}(")[2].partition("\n{\n")[0])}
                   for crate, law in (("camac_run", "runs_by_headline"), ("camac_response", "responds"))}
        self.assertEqual(clauses, {"runs_by_headline": {"RunsAlways", "RunsByHeadline", "LeavesFewEvents"}, "responds": {"Responds"}})

    def test_time_of_a_step(self):
        """The page on the library gives the longest that the header does."""
        longest = re.search(r"Count (\d+) microseconds a step", self.page("docs/C.md"))
        self.assertIn(f"to {longest[1]} us each", self.page("include/camac/camac.h"))

    def test_revisions(self):
        """No page names a tag: the repository has none."""
        named = [it for page in PAGES for it in re.findall(r"\brev: (\S+)", page.read_text())]
        self.assertEqual(named, ["COMMIT"])


class Tasks(unittest.TestCase):
    """The diffs of tasks, which docs/inside/CHANGING.md explains step by step."""

    def applies(self, *words):
        """Whether git would apply a diff to these sources."""
        return subprocess.run(["git", "apply", "--check", *words], cwd=TOP, capture_output=True, timeout=WAIT).returncode == 0

    def test_diffs_apply(self):
        """Each diff fits the sources, which do not have its change."""
        for name in TASKS:
            with self.subTest(name):
                self.assertTrue(self.applies(f"docs/inside/{name}"), "make the change again as the page says, and keep its `git diff`")
                self.assertFalse(self.applies("--reverse", f"docs/inside/{name}"))

    def test_steps_name_their_files(self):
        for name, head in TASKS.items():
            with self.subTest(name):
                section = (TOP / "docs/inside/CHANGING.md").read_text().partition(head)[2].partition("\n## ")[0]
                files = re.findall(r"^\+\+\+ b/(?:crates/)?(.*)$", (TOP / "docs/inside" / name).read_text(), re.M)
                self.assertGreater(len(files), 10)
                self.assertEqual([it for it in files if f"`{it}`" not in section], [])


def keep():
    """Writes the files that the pages of KEPT make into their folders anew, whatever the pages show."""
    for name, (folder, place) in KEPT.items():
        case = Documents()
        case.setUp()
        for words, body in BLOCK.findall((TOP / "docs" / name).read_text()):
            file = FILE.fullmatch(words)
            if file:
                write_file(case.room / file[1], body)
            for command, _ in calls(body) if words == "console" else ():
                run(command.replace("\n> ", "\n"), case.room)
        for kept in (TOP / "examples" / folder).rglob("*"):
            made = case.room / place / kept.relative_to(TOP / "examples" / folder)
            if kept.is_file() and made.is_file():
                kept.write_bytes(made.read_bytes())
        case.doCleanups()


if __name__ == "__main__":
    if sys.argv[1:] == ["--keep"]:
        sys.exit(keep())
    run_tests()
