#!/usr/bin/env python3
"""Compares the manual pages of section 5 and the JSON Schema of plans with the pages of docs/ and with plans. Tries the files for editors in the editors that
are installed, and the kinds of modules in examples/modules: each file is taken as a plan, all types are in one plan, docs/PLANS.md has them as they are,
and the benches in examples/benches have no others. Compares the files about the repository with one another, and looks for lemmas that nothing cites.
Tests what the gate and tests/run say in their last lines, over tools and tests that are stand-ins; and that each test that is left out says why.

usage: tests/repository_test.py [-v] [TEST ..]     from any folder; takes some seconds
"""
import collections
import json
import os
import re
import shutil
import subprocess
import sys
import unittest

from support import plans
from support.needs import has, needed, skip
from support.program import TOP, Room, called, keywords, ran
from support.rows import ROWS, SAMPLE

SCHEMA = json.loads((TOP / "editors/plan.schema.json").read_text())
SCRIPTS = sorted((TOP / "examples").rglob("*.script"))
# The tables of PLANS, in their order.
TABLES = [SCHEMA, *(SCHEMA["definitions"][it] for it in ("type", "command", "crate", "station"))]
# Which of the plans on standard input, a list in JSON, are of the schema; None of a text that is no TOML 1.0.
JUDGE = """
import json, sys, tomllib, jsonschema

def judge(text):
    try:
        return validator.is_valid(tomllib.loads(text))
    except tomllib.TOMLDecodeError:
        return None

schema = json.load(open(sys.argv[1], encoding="utf-8"))
jsonschema.Draft7Validator.check_schema(schema)
validator = jsonschema.Draft7Validator(schema)
json.dump([judge(it) for it in json.load(sys.stdin)], sys.stdout)
"""


def page(name):
    return (TOP / name).read_text()


def rows(text, heading):
    """The rows of the first table behind a heading, as lists of cells."""
    table = re.search(r"(?:^\|.*\|\n)+", text.partition(heading)[2], re.M)[0]
    return [[it.strip() for it in row.strip("|").split("|")] for row in table.splitlines()[2:]]


def is_backwards(plan):
    """Whether a range of a plan ends before it begins: a schema does not compare two values."""
    return any(int(to) < int(a) for a, to in re.findall(r"a = (\d+), to = (\d+)", plan))


def run(*words, **how):
    return subprocess.run([str(it) for it in words], capture_output=True, text=True, timeout=60, **how)


class Plans(unittest.TestCase):
    def test_schema_has_the_keys_of_the_page(self):
        tables = re.findall(r"(?:^\|.*\|\n)+", page("docs/PLANS.md").partition("## Key by key")[2], re.M)
        for text, kinds in zip(tables, TABLES):
            found = re.findall(r"^\| `(\w+)` \| (.*) \| (.*) \|$", text, re.M)
            self.assertEqual([key for key, *_ in found], [*kinds["properties"]])
            self.assertEqual([key for key, _, missing in found if missing == "refused"], kinds.get("required", []))
            for key, value, missing in found:
                kind = kinds["properties"][key]
                if kind["type"] == "integer":
                    least, greatest = re.search(r"(\d+|`a`) to (\d+)", value).groups()
                    self.assertEqual((kind["minimum"], kind["maximum"]), (0 if least == "`a`" else int(least), int(greatest)), key)
                    self.assertEqual(str(kind.get("default", missing)), missing)

    def test_manual_page(self):
        text = " ".join(page("man/camac-plan.5").split())
        for kinds in TABLES:
            for key, kind in kinds["properties"].items():
                told = [it for it in re.findall(rf"\.It Cm {key} (.*?)(?= \.It | \.El )", text)]
                self.assertTrue(told, key)
                if kind["type"] == "integer" and key != "to":
                    self.assertTrue(any(f"{kind['minimum']} to {kind['maximum']}" in it for it in told), key)
                if key in kinds.get("required", []):
                    self.assertTrue(any(it.endswith("Required.") for it in told), key)

    def test_plans(self):
        """All plans of the repository are of the schema. Wrong ones are not, where a key or a value by itself is wrong."""
        python = next((it for it in (sys.executable, "/usr/bin/python3") if shutil.which(it) and not run(it, "-c", "import tomllib, jsonschema").returncode), None)
        if not python:
            skip("python3-jsonschema")
        right = [it.read_text() for it in sorted((TOP / "examples").rglob("*.toml"))]
        wrong = [text for _, text, code, _ in plans.MISTAKES if code in ("P2", "P3", "P4")]
        for old, new, said in (*plans.TABLES, *plans.FIELDS):
            wrong += [SAMPLE.decode().replace(old, new)] * (said[:2] in ("P2", "P3", "P4"))
        for case in (it for cases in ROWS.values() for row in cases.values() for it in row if "PLAN" in it.inputs):
            code = re.match(rb"refused (P[234])", case.printed)
            if code or not case.printed.startswith(b"refused P"):
                (wrong if code else right).append(case.inputs["PLAN"].decode())
        wrong += re.findall(r"```toml P[234]\n(.*?)```", page("docs/REFUSALS.md"), re.S)
        judged = json.loads(run(python, "-c", JUDGE, TOP / "editors/plan.schema.json", input=json.dumps([*right, *wrong])).stdout)
        self.assertGreater(len(right), 40)
        self.assertGreater(len(wrong), 20)
        self.assertEqual([text for text, it in zip(right, judged) if not it], [])
        unseen = [text for text, it in zip(wrong, judged[len(right) :]) if it is not False]
        self.assertEqual([it for it in unseen if not is_backwards(it)], [])


class ManualPages(unittest.TestCase):
    """The pages of section 5, compared with those that have each rule."""

    def test_script(self):
        text = page("man/camac-script.5")
        forms = re.findall(r"\w+", " ".join(re.findall(r"(?m)^\.(?:Cm|It Li) (.*)$", text)))
        self.assertEqual([it for it in keywords() if it not in forms], [])
        limits = [(most, what.replace("`", "")) for what, most in rows(page("docs/LANGUAGE.md"), "## Limits")]
        found = re.findall(r"(?m)^\.It (.*)\n(.*)$", text.partition(".Ss Limits")[2].partition(".El")[0])
        self.assertEqual(found[:-1], limits[:-1])
        self.assertEqual(found[-1][1], limits[-1][1])
        self.assertTrue(limits[-1][0].startswith(found[-1][0]))

    def test_events(self):
        lines = re.findall(r"(?m)^\.It (\d.*) Ta (.*) Ta (.*)$", page("man/camac-events.5"))
        wanted = [row[:2] for row in rows(page("docs/RUNNING.md"), "Each event is a record:")]
        self.assertEqual([[size, number.replace(" (hexadecimal)", "").strip('"')] for size, number, _ in lines], [[it.strip("`") for it in row] for row in wanted])

    def test_version_and_form(self):
        version = re.search(r"(?m)^## (\S+) \((.*)\)$", page("CHANGELOG.md"))
        for it in sorted((TOP / "man").iterdir()):
            self.assertIn(f"\n.Os camac {version[1]}\n", it.read_text(), it.name)
        if has("mandoc"):
            said = run("mandoc", "-T", "lint", "-W", "warning", *sorted((TOP / "man").iterdir()))
            self.assertEqual(said.stdout, "")


class Sum(unittest.TestCase):
    def test_of_the_sources(self):
        """A program that is built of sources with this sum has no tests of its arithmetic, so the sum has to be that of what the gate passes."""
        ran = run(TOP / "tools/sources_sum.py")
        self.assertEqual((ran.returncode, ran.stdout), (0, "crates.sum is that of these sources\n"))


class Crates(unittest.TestCase):
    def test_doors_and_rooms(self):
        """Each crate names all that it stands on, and a room is used behind its own door alone."""
        doors = re.findall(r"(?m)^# (camac\w*):", page("crates.txt"))
        lines = re.findall(r"(?m)^(camac\w*)(?: staticlib)?:(.*)", page("crates.txt"))
        door = {name: max((it for it in doors if f"{name}_".startswith(f"{it}_")), key=len, default="") for name, _ in lines}
        groups = re.findall(r"(?m)^\| [a-z ]+ \| ((?:`camac\w*`(?:, )?)+) \|$", page("docs/inside/ARCHITECTURE.md"))
        height = {name: -place for place, names in enumerate(groups) for name in re.findall(r"camac\w*", names)}
        self.assertEqual({*doors} - {*height}, {"camac_laws"})
        for name, below in lines:
            texts = " ".join(it.read_text() for it in (TOP / "crates" / name).rglob("*") if it.suffix in (".antt", ".rt") and "out" not in it.parts)
            for other in {*below.split()} - {"core", "std_alloc"}:
                with self.subTest(crate=name, uses=other):
                    self.assertTrue(re.search(rf"\b{other}\b", texts), "is named nowhere")
                    self.assertTrue(other not in door or other in doors or name.startswith(door[other]), "is a room of another door")
                    self.assertGreaterEqual(height.get(door[name], 0), height.get(door.get(other), -9), "is of a group above")

    def test_no_mutant_is_outside_its_crates_file(self):
        """It would not be tried."""
        self.assertEqual([*(TOP / "crates").glob("*/mutants/*")], [])


class Lemmas(unittest.TestCase):
    # Files of worked rows and of proofs that the prover asks for by their names.
    uncited = re.compile(r"(Rows|Growing|SamplePlan|Proof|Answers|Invariants)\.antt$")
    # Worked facts that `search` finds.
    found = {"differences_exact", "quotient_within", "rest_within", "sample_is_plan", "one_table", "one_lam", "declares_nothing"}

    def test_each_lemma_is_cited(self):
        files = [it for it in (TOP / "crates").rglob("*") if it.suffix in (".antt", ".rt") and "out" not in it.parts]
        texts = {it: re.sub("--.*" if it.suffix == ".antt" else "//.*", "", it.read_text()) for it in files}
        named = collections.Counter(word for text in texts.values() for word in re.findall(r"[^\s(){}\[\],.;@:]+", text))
        dead = set()
        for file, text in texts.items():
            if "proofs" in file.parts and file.suffix == ".antt" and not self.uncited.search(file.name):
                for name in re.findall(r"(?m)^(?:pub |abbrev |rec |def )*([^\s:(){}=]+)\s*:\s", text):
                    own = re.findall(rf"(?m)^(?:pub |abbrev |rec |def )*{re.escape(name)}(?=[\s:])", text)
                    dead |= {f"{file.relative_to(TOP)}: {name}"} if named[name] <= len(own) and name not in self.found else set()
        self.assertEqual(dead, set())

    def test_a_source_rests_on_each_definition(self):
        """What only proofs name stands there, and what nothing names nowhere."""
        self.assertEqual(run(TOP / "tools/believe.py", "--dead").stdout, "")

    def test_no_definition_cites_a_table_of_the_code(self):
        """With one that is wrong the definition would be wrong, too."""
        sources, definitions = ("".join(it.read_text() for it in (TOP / "crates").glob(files)) for files in ("*/src/**/*.rt", "*/specs/**/*.antt"))
        tables = set(re.findall(r"const (\w+): \[\w+; \d+\] = \[(?:\s*\w+::\w+,?)+\s*\]", sources))
        cited = set(re.findall(r"\w+", " ".join(re.findall(r"TheConstants\.\{(.*?)\}", definitions))))
        self.assertEqual((tables & cited, "KEYWORDS" in tables), (set(), True))

    def test_definitions_under_no_law(self):
        """Their lines may only fall: a law says in the subject's words what a definition comes to that walks as the code does."""
        self.assertLessEqual(int(run(TOP / "tools/believe.py", "--lawless").stdout.split()[-1]), 4974)


class Texts(unittest.TestCase):
    def test_gaps(self):
        """A text has as many gaps as its definition puts parts into it, which no proof counts."""
        for crate in (TOP / "crates").glob("camac_explain*"):
            sources, definitions = ("".join(it.read_text() for it in crate.glob(files)) for files in ("src/*.rt", "specs/*.antt"))
            texts = dict(re.findall(r'const (\w+): &str =\s*"((?:[^"\\]|\\.)*)";', sources))
            for name, parts in re.findall(r"(?:filled|says) (?:text\.)?([A-Z]\w+)\.now (\(.*?) ∷ \[\]\)", definitions, re.S):
                self.assertEqual(texts[name].count("%"), parts.count("∷") + 1, name)
            for name in re.findall(r"(?:with|of_word) (?:text\.)?([A-Z]\w+)\.now", definitions):
                self.assertEqual(texts[name].count("%"), 1, name)


class Hooks(unittest.TestCase):
    def test_hooks(self):
        """Each hook calls a command that is put in place, for scripts alone."""
        commands = re.findall(r'^(camac-\w+) = "', page("python/pyproject.toml"), re.M)
        found = re.findall(r"- id: (\S+)\n  name: \S+\n  description: .*\n  entry: (\S+)\n  language: system\n  files: (\S+)\n", page(".pre-commit-hooks.yaml"))
        self.assertEqual(len(found), page(".pre-commit-hooks.yaml").count("- id:"))
        for name, entry, files in found:
            self.assertEqual((name, entry in commands), (entry, True))
            self.assertEqual([bool(re.search(files, it)) for it in ("a/b.script", "b.camac", "plan.toml", "a.script.txt")], [True, True, False, False])


class Citation(unittest.TestCase):
    def test_what_is_cited(self):
        """The keys that the format (version 1.2.0) requires, and the version and date of CHANGELOG."""
        keys = dict(re.findall(r"(?m)^([a-z-]+):[ \n]*(.*)$", page("CITATION.cff")))
        version, date = re.search(r"(?m)^## (\S+) \((.*)\)$", page("CHANGELOG.md")).groups()
        self.assertLessEqual({"cff-version", "message", "title", "authors"}, {*keys})
        self.assertEqual((keys["cff-version"], keys["version"], keys["date-released"]), ("1.2.0", version, f'"{date}"'))


class Editors(Room):
    """Without a blank at its begin, each script of the examples is indented as it is there. What camac-check says is a list of places."""

    said = "a.script:4:3: refused E12: more cycles than annotated\na.script:5: warning W4: this kept bound is not needed\nb.script: fault: No such file or directory\n"

    def setUp(self):
        super().setUp()
        for number, it in enumerate(SCRIPTS):
            (self.room / f"{number}.script").write_text(re.sub(r"(?m)^ +", "", it.read_text()))
        (self.room / "said").write_text(self.said)

    def expect_indented(self):
        for number, it in enumerate(SCRIPTS):
            self.assertEqual((self.room / f"{number}.script").read_text(), it.read_text(), it)

    def try_vim(self, *words):
        start = f"set nocompatible rtp^={TOP}/editors/vim | filetype plugin indent on | syntax on\n"
        work = "execute 'normal! gg=G' | update | compiler camac | cgetfile said | redir! > found | silent clist! | redir END\n"
        work += "set nomore | redir! > options | silent set commentstring? makeprg? syntax? | redir END\n"
        (self.room / "start.vim").write_text(start)
        for number in range(len(SCRIPTS)):
            work += f"edit {number}.script | execute 'normal! gg=G' | update\n"
        (self.room / "work.vim").write_text(f"{work}qall!\n")
        run(*words, "-u", "start.vim", "-i", "NONE", "0.script", "-S", "work.vim", cwd=self.room, stdin=subprocess.DEVNULL)
        self.expect_indented()
        options = (self.room / "options").read_text().split("\n")
        self.assertEqual([it.strip() for it in options if it], ["commentstring=# %s", "makeprg=camac-check 'plan.toml' %:S", "syntax=camac"])
        found = [it.strip() for it in (self.room / "found").read_text().split("\n") if it]
        self.assertEqual(found, ["1 a.script:4 col 3: refused E12: more cycles than annotated", "2 a.script:5 warning: W4: this kept bound is not needed", "3 b.script: No such file or directory"])

    @needed("vim")
    def test_vim(self):
        self.try_vim("vim", "-es")

    @needed("neovim")
    def test_nvim(self):
        self.try_vim("nvim", "--headless")

    @needed("emacs-nox")
    def test_emacs(self):
        work = """(require 'camac-mode)
          (dolist (file (directory-files "." nil "script$"))
            (with-current-buffer (find-file-noselect file)
              (indent-region (point-min) (point-max))
              (princ (list major-mode comment-start compile-command))
              (save-buffer)))
          (require 'compile)
          (with-temp-buffer
            (insert "\n")
            (insert-file-contents "said")
            (goto-char (point-min))
            (compilation-mode)
            (dotimes (_ 2)
              (compilation-next-error 1)
              (let ((place (compilation--message->loc (get-text-property (point) 'compilation-message))))
                (princ (list (caar (compilation--loc->file-struct place)) (compilation--loc->line place) (compilation--loc->col place))))))"""
        (self.room / "work.el").write_text(work)
        ran = run("emacs", "-Q", "--batch", "-L", TOP / "editors/emacs", "-l", "work.el", cwd=self.room)
        self.expect_indented()
        self.assertIn("(camac-mode #  camac-check plan.toml 0.script)", ran.stdout, ran.stderr)
        self.assertTrue(ran.stdout.endswith("(a.script 4 3)(a.script 5 nil)"), ran.stdout + ran.stderr)


# A test that passes and one that fails, with what they leave out.
TESTS = {
    "good": "print('.skipped: mypy')\nprint('skipped: mypy')\nprint('skipped: a disk')",
    "other": "import os\nprint('skipped: mypy')\nopen('path', 'w').write(os.environ['PATH'])",
    "bad": "print('it is wrong')\nraise SystemExit(1)",
    "whole": "print('judged: 7 cases')\nprint('nothing else')",
}


class Lines(Room):
    """A copy of the gate and of tests/run, where all that they call is a stand-in."""

    def setUp(self):
        super().setUp()
        for name in (".ci/run", "tests/run", "tests/support/needs.py"):
            (self.room / name).parent.mkdir(parents=True, exist_ok=True)
            shutil.copy(TOP / name, self.room / name)
        self.stand_in("bin/rt", "echo 5 passed, 0 failed")
        self.stand_in("bin/rattle", "true")
        self.stand_in("tools/mutants", "echo 7 refused, 0 not")
        self.stand_in("tools/proved_library", "true")
        self.stand_in("crates/camac/out/camac", "true")
        self.stand_in(".ci/install", "touch installed")

    def stand_in(self, name, line):
        file = self.room / name
        file.parent.mkdir(parents=True, exist_ok=True)
        file.write_text(f"#!/bin/sh\n{line}\n")
        file.chmod(0o755)

    def lines(self, command, *names, **environment):
        """The lines of a command, with these tests, and its status."""
        for it in names:
            (self.room / f"tests/{it}_test.py").write_text(TESTS[it])
        path = f"{self.room / 'bin'}:{os.environ['PATH']}"
        status, out, _ = ran(command, cwd=self.room, env={**os.environ, "CI": "", "PATH": path, **environment})
        return status, out.decode().splitlines()

    def last_lines(self, *words, **environment):
        status, lines = self.lines(*words, **environment)
        return status, lines[-2:]

    def test_nothing_left_out(self):
        status, (before, last) = self.last_lines(["tests/run", "--proved"], "whole")
        self.assertEqual((status, before.partition(" took")[0], last), (0, "the tests", "1 passed, 0 failed"))
        status, (before, last) = self.last_lines([".ci/run"])
        self.assertEqual((status, before.partition(" took")[0], last), (0, "the gate", "14 passed, 0 failed"))

    def test_what_was_judged(self):
        """Of a test that passes only that is shown."""
        _, (_, *judged, _, _) = self.lines(["tests/run", "--proved"], "whole")
        self.assertEqual(judged, ["judged: 7 cases"])

    def test_left_out(self):
        lacking = "skipped: a disk (good), mypy (good, other)"
        self.assertEqual(self.last_lines(["tests/run", "--proved"], "good", "other", "bad"), (1, [lacking, "2 passed, 1 failed, 3 skipped"]))
        self.assertEqual(self.last_lines([".ci/run"]), (1, [lacking, "15 passed, 1 failed, 3 skipped"]))
        (self.room / "tests/bad_test.py").unlink()
        self.assertEqual(self.last_lines([".ci/run"]), (0, [lacking, "15 passed, 0 failed, 3 skipped"]))

    @needed("root", is_here=not os.getuid())
    def test_in_ci(self):
        self.last_lines([".ci/run"], "other")
        self.assertFalse((self.room / "installed").exists())
        self.assertEqual(self.last_lines([".ci/run"], CI="true")[1][1], "14 passed, 0 failed, 1 skipped")
        self.assertTrue((self.room / "installed").exists())
        self.assertEqual((self.room / "path").read_text().partition(":")[0], "/usr/bin")


class Needs(unittest.TestCase):
    def test_one_way_to_leave_out(self):
        """A test is left out by tests/support/needs.py alone, which says what is not here."""
        found = [it.name for it in (TOP / "tests").rglob("*.py") if re.search(r"\b(?:skip(?:Test|If|Unless)|SkipTest)\(", it.read_text())]
        self.assertEqual(found, ["needs.py"])


FILES = sorted((TOP / "examples/modules").glob("*.toml"))
PLANS_PAGE = (TOP / "docs/PLANS.md").read_text()
# The functions that EUR 4100 reserves, and those of a LAM: test, clear, disable, enable.
RESERVED, LAM = {5, 7, 13, 15, 29, 31}, (8, 10, 24, 26)
ROW = re.compile(r"^\| \[(\w+)\]\(\.\./examples/modules/\1\.toml\) \|(?:[^|\n]*\|){2} ([\d, ]+) \| ([^|\n]+) \|$", re.M)


class Kind:
    """What a file says of its type."""

    def __init__(self, path):
        self.label, self.text = path.stem, path.read_text()
        self.type, _, self.crate = self.text.partition("[[crate]]\n")
        self.name = re.search(r'^name = "(.*)"$', self.type, re.M)[1]
        self.about = " ".join(re.findall(r"^# (.*)$", self.text, re.M))
        self.commands = [dict(re.findall(r"(\w+) = (\w+)", it)) for it in re.findall(r"\{ (f = [^}]*) \}", self.type)]
        self.functions = {int(it["f"]) for it in self.commands}
        self.has_lam = 8 in self.functions

    def widths(self):
        moving = [it for it in self.commands if "probe" not in it and int(it["f"]) // 8 in (0, 2)]
        return {int(it.get("width", 24)) for it in moving}

    def places(self, function):
        """The sub-addresses of a function."""
        ranges = [it for it in self.commands if int(it["f"]) == function]
        return {a for it in ranges for a in range(int(it["a"]), int(it.get("to", it["a"])) + 1)}


KINDS = [Kind(it) for it in FILES]


def numbers(cell):
    return {int(it) for it in cell.split(", ")}


class Modules(unittest.TestCase):
    def lines(self, *words, given=""):
        """What the program lists, where it takes the plan."""
        status, out, err = called("plan", *words, "--commands", given=given.encode())
        self.assertEqual((status, err), (0, b""), out)
        return out.decode().splitlines()

    def test_each_file(self):
        self.assertGreaterEqual(len(KINDS), 19)
        for path, kind in zip(FILES, KINDS):
            with self.subTest(file=kind.label):
                listed = self.lines(path)
                self.assertEqual([it.split()[1] for it in listed if it.startswith("type ")], [kind.name])
                self.assertEqual(listed[-1], f"station 5 {kind.name} gl {'1' if kind.has_lam else '-'}")
                self.assertFalse(kind.functions & RESERVED)
                self.assertIn("Compare with the manual of your module.", kind.about)

    def test_lam(self):
        for kind in KINDS:
            with self.subTest(file=kind.label):
                self.assertNotEqual(kind.has_lam, "It has no LAM" in kind.about)
                if kind.has_lam:
                    self.assertRegex(kind.about, rf"LAM at sub-address(es)? {min(kind.places(8))}\b")
                    for function in LAM:
                        self.assertLessEqual(kind.places(8), kind.places(function))

    def test_page(self):
        rows = {name: cells for name, *cells in ROW.findall(PLANS_PAGE)}
        self.assertEqual(sorted(rows), [it.label for it in KINDS])
        for kind in KINDS:
            with self.subTest(file=kind.label):
                widths, lam = rows[kind.label]
                self.assertEqual(numbers(widths), kind.widths())
                self.assertNotEqual(kind.has_lam, lam == "none")

    def test_all_in_one_plan(self):
        plan = "".join(it.type for it in KINDS)
        for crate, some in (1, KINDS[:23]), (2, KINDS[23:]):
            plan += f"[[crate]]\nnumber = {crate}\n"
            plan += "".join(f'[[crate.station]]\nn = {n}\ntype = "{it.name}"\n' for n, it in enumerate(some, 1))
        listed = self.lines("@in", given=plan)
        self.assertEqual([it.split()[1] for it in listed if it.startswith("type ")], [it.name for it in KINDS])
        self.assertEqual(sum(it.startswith("station ") for it in listed), len(KINDS))

    def test_benches(self):
        known = {it.type[it.type.index("[[type]]") :].strip() for it in KINDS}
        plans = sorted((TOP / "examples/benches").glob("*/plan.toml"))
        self.assertEqual(len(plans), 3)
        for plan in plans:
            types = re.findall(r"^\[\[type\]\]\n.*?^\]$", plan.read_text(), re.M | re.S)
            self.assertEqual([it for it in types if it not in known], [], plan)
            self.assertGreaterEqual(len(types), 5)


if __name__ == "__main__":
    unittest.main()
