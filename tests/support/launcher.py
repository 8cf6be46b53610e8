"""Shared by tests of ./camac and ./install: a copy of the repository, a call of any command, a folder for each test, stand-ins for commands."""
import shutil
import subprocess
import unittest

from support.program import TOP, folder

TAKEN = ("camac", "install", "crates.txt", "crates.sum", "crates", "tools", "man", "completions", "editors", "include", "library", "python", "examples", "docs", "tests", "CHANGELOG.md", "README.md", "LICENSE")
# Of what the library for C is made.
OF_LIBRARY = "crates/*/src tools/library_main.text"


def copy(folder):
    """Copies the repository, without what was built."""
    folder.mkdir()
    for name in TAKEN:
        if (TOP / name).is_dir():
            shutil.copytree(TOP / name, folder / name, ignore=shutil.ignore_patterns("out", "__pycache__"))
        else:
            shutil.copy2(TOP / name, folder / name)


def start(*words, **how):
    how = {"stdin": subprocess.PIPE, "stdout": subprocess.PIPE, "stderr": subprocess.PIPE, "text": True, "cwd": "/", **how}
    return subprocess.Popen([str(it) for it in words], **how)


def call(*words, given="", **how):
    """Status, standard output and standard error."""
    ran = start(*words, **how)
    out, err = ran.communicate(given)
    return ran.returncode, out, err


def keep(top, name, file, texts):
    """Puts a file where a build of the sources of a copy keeps what it makes of these texts."""
    line = f'top=$1; source "$top/tools/program.bash"; cd "$top" && texts_of {texts} && echo "$(rt version | sha256sum)"'
    texts, kit = call("bash", "-c", line, "bash", top)[1].splitlines()
    place = top / "out" / name.format(f"{texts}.{kit[:16]}")
    place.parent.mkdir(exist_ok=True)
    shutil.copy(file, place)
    place.chmod(0o755)


def stand_in(folder, name, line):
    """Makes a stand-in for a command, which does this line of sh."""
    (folder / name).write_text(f"#!/bin/sh\n{line}\n")
    (folder / name).chmod(0o755)


def toolchain(folder, line):
    stand_in(folder, "rt", line)


class Case(unittest.TestCase):
    def folder(self):
        return folder(self.addCleanup)
