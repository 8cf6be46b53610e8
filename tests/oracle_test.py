#!/usr/bin/env python3
"""Compares what the program tells with what the independent reader of tools/oracle says, on cases that are made by a seed, and the reader with the
worked rows.

usage: tests/oracle_test.py [-v] [TEST ..]     from any folder; takes three minutes of processor time

The seed is the day's date, or CAMAC_SEED. A difference is kept in out/oracle, and its case is made again by the command that is printed.
"""
import datetime
import os
import pathlib
import sys
import tempfile
import unittest

from support.program import PROGRAM, TOP, Room
from support.rows import NOT_MADE, ROWS
from oracle.calls import Program
from oracle.comparing import Comparison, keep, used
from oracle.judges import JUDGES
from oracle.reader.engines import TELL, Inputs, tell

SEED = os.environ.get("CAMAC_SEED") or datetime.date.today().isoformat()
# By this seed every code is reached after 1,200 cases.
OF_CODES, CASES_OF_CODES = "camac", 1_500


class Reader(unittest.TestCase):
    """The reader answers what the worked rows say."""

    def test_rows(self):
        for file, rows in ROWS.items():
            for name, cases in rows.items():
                for case in [it for it in cases if it.command.split()[0] in TELL and it.command != "plan --commands"]:
                    with self.subTest(file=file, row=name, command=case.command):
                        self.expect(case)

    def expect(self, case):
        given = case.inputs
        command, *words = case.command.split()
        told = tell(command, Inputs(given.get("PLAN"), given.get("SCRIPT", b""), given.get("ANSWERS", b""), words=" ".join(words).encode()))
        self.assertEqual((told.status, told.out), (case.status, case.printed))
        self.assertEqual(told.err[:7], b"column " if told.reached in ("A1", "A2") and case.command == "run" else b"")
        if case.events is not None:
            self.assertEqual(NOT_MADE if told.events is None else told.events, case.events)


class Examples(Room):
    """The plans of the examples, and a run over the largest, which the program tells as the reader."""

    def expect(self, command, inputs):
        wanted = tell(command, inputs)._replace(reached="")
        self.assertEqual(Program(PROGRAM, self.room).call(command, inputs), wanted)
        return wanted

    def test_examples(self):
        examples = TOP / "examples"
        for plan in examples.rglob("*.toml"):
            with self.subTest(plan=plan):
                self.expect("plan", Inputs(plan.read_bytes()))
        run = [(examples / it).read_bytes() for it in ("three_crates.toml", "three_modules.script", "three_modules.answers")]
        self.expect("events", Inputs(file=self.expect("run", Inputs(*run)).events))


class Judged(unittest.TestCase):
    """The program tells what the reader says. Each judge has so many seconds of processor time, and on a slow computer takes more for the least cases."""

    def judge(self, name, seconds, seed=SEED, least=0):
        memory = "/dev/shm" if os.access("/dev/shm", os.W_OK) else None
        with tempfile.TemporaryDirectory(prefix="camac-oracle-", dir=memory) as room:
            comparison = Comparison(Program(PROGRAM, pathlib.Path(room)), seed, JUDGES[name])
            began = used()
            comparison.run(0, least)
            comparison.run(least, sys.maxsize - least, seconds - (used() - began))
        print(f"judged: {comparison.told()}")
        again = f"tools/oracle/compare {name} --seed {seed} --count 1 --first"
        self.assertEqual([f"{keep(one, comparison, TOP / 'out/oracle')}: {again} {one.number}" for one in comparison.differences], [])
        return comparison.missing()

    def test_every_code(self):
        self.assertEqual(self.judge("answers", 0, OF_CODES, CASES_OF_CODES), [])

    def test_answers(self):
        self.judge("answers", 20)

    def test_at(self):
        self.assertEqual(self.judge("at", 25), [])

    def test_mark(self):
        self.assertEqual(self.judge("mark", 20), [])

    def test_also(self):
        self.assertEqual(self.judge("also", 15), [])

    def test_expected(self):
        self.assertEqual(self.judge("expected", 20), [])

    def test_keeps(self):
        self.assertEqual(self.judge("keeps", 40), [])

    def test_response(self):
        self.assertEqual(self.judge("response", 25, least=1_500), [])


if __name__ == "__main__":
    unittest.main()
