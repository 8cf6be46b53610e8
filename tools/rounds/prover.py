"""A round, and what the prover says of each of its bodies."""

import contextlib
import os
import re
import shutil
import tempfile
from pathlib import Path

from rounds.repository import PARTS, rattle

# How the prover says of a function that it is proved, given the contracts of what it calls.
HOLDS = r"proved|no holes|depends on a hole"
# How the prover says that a proof file cites what is not there.
CITES = re.compile(r"has no field|is not in scope|has no `|was not admitted|that can be named from here")
# How the prover says of a function that only what it calls is not proved.
WAITS = re.compile(r"it (?:calls|passes)[^;]*, which (?:is|are) not proved")
STILL_PROVED = "its function is still proved"
# A proof that says nothing: with it the prover takes a function by its contract.
HOLE = """\
use Rattle.{crate}.proofs.{module}.{{statement}}

pub {name}_spec : {{M : Type 1}} → statement M
{name}_spec = ?
"""


def keep(file, to):
    with contextlib.suppress(FileExistsError):
        os.link(file, to)


@contextlib.contextmanager
def kept_proofs(crate):
    """Yields a folder with what rounds over these sources proved, a copy for one round. What the round adds is kept. The copy is one of links: the prover puts
    each file in place whole and under a new inode."""
    rounds = f"{crate.folder}/out/rounds"
    kept = f"{rounds}/{crate.sum()}"
    if not os.path.isdir(kept):
        shutil.rmtree(rounds, ignore_errors=True)
        os.makedirs(kept, exist_ok=True)
    with tempfile.TemporaryDirectory(prefix="round-", dir=rounds) as own:
        shutil.copytree(kept, own, copy_function=os.link, dirs_exist_ok=True)
        yield own
        shutil.copytree(own, kept, copy_function=keep, ignore=shutil.ignore_patterns("*.tmp.*"), dirs_exist_ok=True)


class Round:
    """Bodies that change different functions of a crate, tried at once."""

    def __init__(self, crate, bodies):
        self.crate, self.bodies = crate, bodies

    def texts(self):
        """Returns the text of each source file with the changes of all bodies, and with no calls in functions that are taken by contract. Each line keeps its
        number."""
        holes, found = set() if self.bodies[0].is_wide else self.holes(), {}
        for path in {it.file for it in self.crate.functions} | {path for body in self.bodies for path in body.lines}:
            text = Path(f"{self.crate.folder}/{path}").read_text("utf-8")
            for it in [it for it in reversed(self.crate.functions) if it.file == path]:
                if self.crate.proof_of(it) in holes and not it.cycle and not it.calls_itself:
                    text = f"{text[: it.opens]}{{ unreachable!(){chr(10) * text.count(chr(10), it.opens, it.closes)} }}{text[it.closes :]}"
            changed = {at: line for body in self.bodies for at, line in body.lines.get(path, {}).items()}
            found[path] = "\n".join(changed.get(at, line) for at, line in enumerate(text.split("\n")))
        return found

    def holes(self):
        """Returns the folders of the proofs of all functions that no body changes. A destructor has no statement for which a hole could be."""
        folders = {self.crate.proof_of(it) for it in self.crate.functions} - {self.crate.proof_of(it) for body in self.bodies for it in body.functions}
        return {it for it in folders if it and os.path.basename(it) != "drop"}

    def take_by_contract(self, room):
        """Puts a hole in the place of each proof of an unchanged function, by which the prover takes it by its contract. Its body then need call nothing,
        and the prover looks at nothing that it called. The calls of a cycle stay, since the prover asks for them."""
        for folder in self.holes():
            os.makedirs(f"{room}/proofs/{folder}", exist_ok=True)
            for name in ("Answers.antt", "Invariants.antt"):
                with contextlib.suppress(FileNotFoundError):
                    os.remove(f"{room}/proofs/{folder}/{name}")
            name, module = os.path.basename(folder), folder.replace("/", ".")
            module += "" if name.startswith("+") else ".Statement"
            Path(f"{room}/proofs/{folder}/Proof.antt").write_text(HOLE.format(crate=self.crate.name, module=module, name=name), "utf-8")

    def run(self):
        """Returns what the prover says of the changed functions; if a body changes a table or a constant, of all."""
        paths, words = sorted({it.path for body in self.bodies for it in body.functions}), []
        with tempfile.TemporaryDirectory(prefix="mutants-") as room, kept_proofs(self.crate) as kept:
            for part in PARTS:
                if os.path.isdir(f"{self.crate.folder}/{part}"):
                    shutil.copytree(f"{self.crate.folder}/{part}", f"{room}/{part}")
            for path, text in self.texts().items():
                Path(f"{room}/{path}").write_text(text, "utf-8")
            if not self.bodies[0].is_wide:
                self.take_by_contract(room)
                words = ["--allow-holes", *[word for path in paths for word in ("--only", path)]]
            return rattle("check", [*self.crate.words(), "--incremental", kept, *words], room).stdout

    def verdicts(self, said):
        """Returns what became of each body: ('refused' | 'waits' | 'alone' | 'again' | 'not', why)."""
        lines = said.split("\n")
        if re.search(r"the kept work of|is stale|was built over", said) and not re.search(r"^fn ", said, re.M):
            return dict.fromkeys(self.bodies, ("not", "COULD NOT RUN: the libraries below do not fit: run rt ci, or remove crates/*/out"))
        if not re.search(r"^(only=\d+ holes=\d+|logic=)", said, re.M):
            first = next((it for it in lines if "error" in it), lines[0])
            how = "does not compile" if re.search(r"^\S*src/\S+: error|^error\[", said, re.M) else "COULD NOT RUN"
            wrong = dict(self.errors(lines)) or dict.fromkeys(self.bodies, ("not" if len(self.bodies) == 1 else "alone", f"{how}: {first[:200]}"))
            return {body: wrong.get(body, ("again", "")) for body in self.bodies}
        if self.bodies[0].is_wide:
            refused = next((it for it in lines if it.startswith("fn ") and "did not prove" in it), None)
            return {self.bodies[0]: ("refused", refused) if refused else ("not", "no function is refused for itself")}
        stray = self.stray(lines)
        if stray:
            return dict.fromkeys(self.bodies, ("not", f"COULD NOT RUN: {stray}"))
        rank = lambda it: (("refused", "waits", "alone", "not").index(it[0]), it[1] == STILL_PROVED)
        return {body: min((self.judge(it, lines) for it in body.functions), key=rank) for body in self.bodies}

    def errors(self, lines):
        """Yields the bodies in which the compiler found an error."""
        for line in lines:
            found = re.match(r"(?:\./)?(src/\S+?):(\d+):\d+: error", line)
            for body in self.bodies if found else ():
                if any(it.file == found[1] and it.first < int(found[2]) <= it.last + 1 for it in body.functions):
                    yield body, ("not", f"does not compile: {line[:200]}")

    def stray(self, lines):
        """Returns a function that shares no proof with a changed one and is not proved all the same, though it waits for none."""
        proofs = {it.cycle or it.path for body in self.bodies for it in body.functions}
        changed = [f"{self.crate.name}::{it.path}" for it in self.crate.functions if (it.cycle or it.path) in proofs]
        for line in lines:
            if line.startswith("fn ") and not holds(line) and not WAITS.search(line) and not any(is_about(line, it) for it in changed):
                return line[:200]
        return None

    def is_goal_of(self, function, line):
        """Whether a line says that a goal of this function is not proved."""
        answered = re.match(rf"(?:\./)?proofs/{re.escape(self.crate.proof_of(function) or 'no folder')}/\S+ error: `(\S+?)`", line)
        if answered and function.cycle:
            name, dash, _ = answered[1].partition("-")
            return bool(dash) and f"::{function.path}".endswith(f"::{name}")
        found = re.match(r"note: (src/\S+?):(\d+):\d+: it is not proved", line)
        return bool(found) and found[1] == function.file and function.begins < int(found[2]) <= function.last + 1

    def judge(self, function, lines):
        """Returns the verdict on the change of one function. Of a proof that several bodies share, only a goal of the function itself counts."""
        own = [it for it in lines if is_about(it, f"{self.crate.name}::{function.path}")]
        if not own:
            return "not", f"COULD NOT RUN: the prover has no function {function.path}"
        if all(map(holds, own)):
            return "not", STILL_PROVED
        if any(re.match(r"fn \S+: could not tell", it) for it in own):
            return "not", "COULD NOT RUN: the prover could not tell"
        goals = [it for it in lines if self.is_goal_of(function, it) and not CITES.search(it)]
        if function.cycle and sum(any(it.cycle == function.cycle for it in body.functions) for body in self.bodies) > 1:
            return ("refused", goals[0]) if goals else ("alone", "")
        open_goals = next((it for it in own if "did not prove" in it), None)
        if open_goals:
            return "refused", open_goals.partition(": ")[2]
        folder = self.crate.proof_of(function) or "no folder"
        faults = [it for it in lines if re.match(rf"(\./)?proofs/{re.escape(folder)}/\S+: error", it)]
        goals += [it for it in faults if ": error: `" in it and not CITES.search(it)]
        return ("refused", goals[0]) if goals else self.without_goal(own, faults, lines)

    def without_goal(self, own, faults, lines):
        """Returns why a function is not proved of which no goal is known to be open."""
        called = [name for it in own for found in WAITS.finditer(it) for name in re.findall(r"`([^`]+)`", found[0])]
        waits = [it for it in called if not any(line.startswith(f"fn {it}: ") and holds(line) for line in lines)]
        if waits:
            return "waits", ", ".join(waits)
        if faults:
            return "not", f"only a proof file cites what it took away: change a value and keep the names: {faults[0][:160]}"
        why = own[-1].partition(": ")[2]
        if called and not re.search(r"[a-z]", re.sub(r"^(no proof|not proved)|\band\b", "", WAITS.sub("", why))):
            return "not", f"COULD NOT RUN: it waits for a function that is taken by its contract: {why}"
        return "not", f"NOT TRIED: the prover says nothing of a goal: {why}"


def holds(line):
    return re.match(rf"fn \S+: (?:{HOLDS})", line)


def is_about(line, name):
    """Whether a line says something of this function, or of a closure in its body."""
    found = re.match(r"fn (\S+): ", line)
    return bool(found) and (found[1] == name or "::fn::" in found[1] and found[1].replace("::fn::", "::").startswith(f"{name}::"))
