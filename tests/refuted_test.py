#!/usr/bin/env python3
"""Mutants that no clause refuses, or that a clause refuses too: a test of the built program has to fail on each. They are built into one
program, unproved. Each changes what another test looks at, so that a failure says which of them it is of.

usage: tests/refuted_test.py [-v] [TEST ..]     from any folder; takes about two minutes

A mutant of tests/refuted.edits is as those that tools/mutants reads, but its file is below the top of the repository. Then come
'test: FILE.CLASS.TEST', the test that has to fail, and 'says: TEXT', a text of that failure.
"""
import importlib.machinery
import importlib.util
import os
import pathlib
import shutil
import subprocess
import sys
import tempfile
import unittest

from support.program import TOP
from rounds.bodies import changed, read_edits

EDITS = read_edits(TOP / "tests/refuted.edits")


def build(top, room):
    """Builds the program of these sources, in a room for its parts."""
    loader = importlib.machinery.SourceFileLoader("quick_build", str(top / "tools/quick_build"))
    tool = importlib.util.module_from_spec(importlib.util.spec_from_loader("quick_build", loader))
    loader.exec_module(tool)
    kit, progress = tool.kit_folder(), tool.Progress()
    tool.lower(kit, room, progress)
    tool.compile_and_link(kit, room, progress, "-O0")
    return f"{room}/program"


class Refuted(unittest.TestCase):
    @classmethod
    def setUpClass(cls):
        room = tempfile.TemporaryDirectory(prefix="camac-refuted-")
        cls.addClassCleanup(room.cleanup)
        top = pathlib.Path(room.name) / "camac"
        for name in ("crates", "tools"):
            shutil.copytree(TOP / name, top / name, ignore=shutil.ignore_patterns("out"), symlinks=True)
        for name in ("crates.txt", "HANDLES"):
            shutil.copy(TOP / name, top)
        for edit in EDITS.values():
            for file, text in changed(edit, top).items():
                (top / file).write_text(text)
        (top / "room").mkdir()
        cls.program = build(top, f"{top}/room")

    def test_each(self):
        self.assertGreater(len(EDITS), 0)
        for name, edit in EDITS.items():
            with self.subTest(name):
                fields = dict(edit)
                file, _, test = fields["test"].partition(".")
                command = [sys.executable, TOP / f"tests/{file}.py", test]
                ran = subprocess.run(command, env={**os.environ, "CAMAC_PROGRAM": self.program}, capture_output=True, text=True)
                self.assertEqual(ran.returncode, 1, "no test failed")
                self.assertTrue(fields["says"] in ran.stderr, f"no failure says {fields['says']}")


if __name__ == "__main__":
    unittest.main()
