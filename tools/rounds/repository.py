"""The crates of a repository, and the prover over them."""

import functools
import glob
import hashlib
import os
import shutil
import subprocess
import sys
from pathlib import Path

from rounds.source import functions_in, types_in

TOP = os.environ.get("CAMAC_TOP") or os.path.realpath(f"{os.path.dirname(os.path.realpath(__file__))}/../..")
PARTS = ("src", "specs", "proofs")


class Stop(Exception):
    """Nothing can be tried."""


class Crate:
    def __init__(self, name, uses, all_crates, is_for_c=False):
        self.name, self.uses, self.all, self.is_for_c = name, uses, all_crates, is_for_c
        self.folder = f"{TOP}/crates/{name}"
        self.rlib = f"{self.folder}/out/rlib/{name}.rlib"

    @functools.cached_property
    def functions(self):
        """The functions of the crate, as its sources were when first asked for."""
        files = [it.removeprefix(f"{self.folder}/") for it in self.files() if it.endswith(".rt")]
        texts = {it: Path(f"{self.folder}/{it}").read_text("utf-8") for it in files}
        types = {name: module for file, text in texts.items() for name, module in types_in(text, file).items()}
        return [it for file, text in texts.items() for it in functions_in(text, file, types)]

    def proof_of(self, function):
        """Returns the folder of a function's proof, below proofs/, or None if there is none. Functions of a cycle share the folder of the cycle; a function that
        calls itself has a cycle of its own name."""
        if function.cycle:
            found = glob.glob(f"{glob.escape(self.folder)}/proofs/**/{function.cycle}", recursive=True)
            return os.path.relpath(found[0], f"{self.folder}/proofs") if found else None
        *above, name = function.path.split("::")
        return "/".join([*above, f"+{name}" if function.calls_itself else name])

    def below(self):
        """Returns the crates below this one, lowest first."""
        found = []
        for it in [self.all[it] for it in self.uses if it in self.all]:
            found += [other for other in [*it.below(), it] if other not in found]
        return found

    def files(self):
        parts = [os.walk(f"{self.folder}/{part}") for part in PARTS]
        return sorted(f"{at}/{name}" for part in parts for at, _, names in part for name in names)

    def sum(self):
        """Returns a sum of all that the built library is made from."""
        total = hashlib.sha256()
        for crate in [*self.below(), self]:
            texts = [(file.removeprefix(crate.folder), Path(file).read_bytes()) for file in crate.files()]
            total.update(repr([crate.name, crate.uses, texts]).encode())
        return total.hexdigest()

    def is_built(self):
        """Whether the library is there, and nothing that it is made from is newer."""
        if not os.path.isdir(self.rlib):
            return False
        built = os.path.getmtime(self.rlib)
        return all(os.path.getmtime(file) <= built for it in [self, *self.below()] for file in it.files())

    def words(self, jobs=1):
        """Returns the prover's options for the crate and for the libraries below it."""
        kit, root = os.path.dirname(doc()), "src/main.rt" if os.path.isfile(f"{self.folder}/src/main.rt") else "src/lib.rt"
        words = ["--crate-name", self.name, root, *["--crate-type", "staticlib"] * self.is_for_c]
        for it in ["std", *self.uses]:
            words += ["--extern", f"{it}={self.all[it].rlib if it in self.all else f'{kit}/rlibs/{it}.rlib'}"]
        for it in [f"{kit}/rlibs", *[os.path.dirname(it.rlib) for it in self.below()]]:
            words += ["-L", f"dependency={it}"]
        words += ["--antt-project", f"{kit}/rattle/logic/antt-project.json", "--logic-built", f"{kit}/logic_built"]
        return [*words, "--links", f"{self.name}=", "--jobs", str(jobs)]


@functools.lru_cache(None)
def doc():
    """Returns the path of the toolchain's first guide, which is at the top of the toolchain."""
    if not shutil.which("rt") or not shutil.which("rattle"):
        raise Stop("the toolchain's commands rt and rattle are not here: README.md says what is needed")
    return subprocess.run(["rt", "doc"], capture_output=True, text=True, check=True).stdout.strip()


def rattle(verb, words, folder):
    how = {"cwd": folder, "stdin": subprocess.DEVNULL, "stdout": subprocess.PIPE, "stderr": subprocess.STDOUT}
    return subprocess.run(["rattle", verb, *words], **how, text=True, errors="replace")


def crates():
    found, list_of_crates = {}, Path(f"{TOP}/crates.txt")
    for line in list_of_crates.read_text("utf-8").split("\n") if list_of_crates.exists() else ():
        name, colon, uses = line.partition("#")[0].partition(":")
        if colon:
            name, *kinds = name.split()
            found[name] = Crate(name, uses.split(), found, "staticlib" in kinds)
    if not found:
        raise Stop(f"{TOP}/crates.txt lists no crate")
    return found


def build_below(chosen, jobs):
    """Builds the libraries that are not there or not current, lowest first."""
    for lower in dict.fromkeys(it for crate in chosen for it in crate.below()):
        if not lower.is_built():
            print(f"{lower.name}: building its library, which is not there or not current", file=sys.stderr, flush=True)
            os.makedirs(os.path.dirname(lower.rlib), exist_ok=True)
            ran = rattle("build", [*lower.words(jobs), "--statements", "-o", lower.rlib], lower.folder)
            if ran.returncode:
                raise Stop(f"{lower.name} is not proved, so nothing above it can be tried:\n{ran.stdout[-2000:]}")
