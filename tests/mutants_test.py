#!/usr/bin/env python3
"""Tests of tools/mutants and of tools/plants, on a repository of two small crates that is made for them. The prover judges; it takes some minutes.

usage: tests/mutants_test.py [-v] [TEST ..]     from any folder, with the toolchain
"""
import os
import pathlib
import subprocess
import sys
import unittest
from unittest import mock

from support.program import TOP, folder
from rounds import repository
from rounds.bodies import bodies_of, packed, plants_of
from rounds.prover import Round
from rounds.trials import Refusals, Report

# Functions beside one another, functions that call one another, and a conversion, which `?` calls.
SOURCE = """\
#![tactic(auto)]
ghost use Rattle.std.specs.Prelude.{◌≡◌, ◌≤◌, ◌<◌, ◌*◌, ◌/◌, ◌+◌, IfOk, Ok};

const LEAST: u32 = 7;
pub fn least() -> u32 ensures { result ≡ 7 } { LEAST }
pub fn half(n: u32) -> u32 ensures { result ≡ n / 2 } { n / 2 }
pub fn weak(n: u32) -> u32 ensures { result ≤ n } { n + 0 }
pub fn sum(n: u32) -> u32 requires { n < 1000 } ensures { result ≡ n / 2 + n / 2 } {
    let whole = half(n) + half(n);
    whole
}
#[cycle(count)]
#[tactic(auto)]
pub fn down(n: u32) -> u32 ensures { result ≡ 0 } { if n == 0 { 0 } else { further(n - 1) } }
#[cycle(count)]
pub fn further(n: u32) -> u32 ensures { result ≡ 0 } { if n < 1 { 0 } else { at_last(n - 1) } }
#[cycle(count)]
pub fn at_last(n: u32) -> u32 ensures { result ≡ 0 } { if 0 == n { 0 } else { down(n - 1) } }

#[derive(Clone, Copy)]
pub struct Small { pub n: u32 }
#[derive(Clone, Copy)]
pub struct Wide { pub n: u32 }

impl From<Small> for Wide {
    ghost from_gives = { λ s w. w.n ≡ s.n };
    fn from(s: Small) -> Wide { Wide { n: s.n } }
}

fn middle(r: Result<u32, Small>) -> Result<u32, Wide> ensures { IfOk result (λ n. r ≡ Ok n) } { Ok(r?) }

pub fn high(r: Result<u32, Small>) -> Result<u32, Wide> ensures { IfOk result (λ n. r ≡ Ok n) } {
    let n = middle(r)?;
    Ok(n)
}
"""
# The answer names a goal after the variable 'whole'.
SUM = """\
use Rattle.std.proofs.Common.{arith}
use Rattle.sample.proofs.sum.Goals as goal
pub overflow_add-whole : goal.overflow_add-whole
overflow_add-whole c = omega arith
"""
MEASURES = "use Rattle.sample.proofs.+count.Given as goal\n" + "".join(
    f"\nabbrev pub decreases-{it} : goal.decreases-{it}\ndecreases-{it} l = l.n\n" for it in ("down", "further", "at_last")
)
FURTHER = """\
use Rattle.std.proofs.Common.{rules}
use Rattle.sample.proofs.+count.Goals as goal
pub further-returns-then-n-lt1 : goal.further-returns-then-n-lt1
further-returns-then-n-lt1 t c = search rules
"""
ABOVE = """\
#![tactic(auto)]
ghost use Rattle.std.specs.Prelude.{◌≡◌, ◌/◌};
use sample::half;
pub fn same(n: u32) -> u32 ensures { result ≡ n / 2 } { half(n) }
"""
STILL = "NOT REFUSED FOR ITSELF: its function is still proved$"
# What becomes of each mutant, and what it changes.
MUTANTS = {
    "above/same_is_all": ("refused: ", ("half(n)", "n")),
    "sample/half_is_a_third": ("refused: ", ("{ n / 2", "{ n / 3")),
    "sample/half_of_nothing": ("NOT REFUSED FOR ITSELF: does not compile: ", ("{ n / 2", "{ nothing / 2")),
    "sample/weak_is_half": (STILL, ("n + 0", "n / 2")),
    "sample/sum_of_sums": (STILL, ("half(n) + half(n)", "half(n) + half(n) + 0")),
    "sample/sum_and_one": ("refused: ", ("let whole", "let total"), ("    whole", "    total + 1")),
    "sample/sum_renamed": ("NOT REFUSED FOR ITSELF: only a proof file cites what it took away", ("let whole", "let total"), ("    whole", "    total")),
    "sample/old_text_twice": ("NOT REFUSED FOR ITSELF: BAD EDIT: .* 2 times, not once$", ("half(n)", "half(0)")),
    "sample/least_is_more": ("refused: fn sample::least: ", ("u32 = 7", "u32 = 8")),
    "sample/down_ends_at_1": ("refused: .*`down-returns", ("n == 0 { 0 }", "n == 0 { 1 }")),
    "sample/further_ends_at_2": ("refused: .*`further-returns", ("n < 1 { 0 }", "n < 1 { 2 }")),
    "sample/at_last_halves": (STILL, ("down(n - 1)", "down(n / 2)")),
    "sample/from_is_half": ("refused: ", ("n: s.n }", "n: s.n / 2 }")),
    # Its round has the conversion that `?` calls changed too.
    "sample/high_renamed": (STILL, ("let n = ", "let m = "), ("    Ok(n)", "    Ok(m)")),
}
REFUSED = [name for name, (said, *_) in MUTANTS.items() if said.startswith("refused")]


class Tool(unittest.TestCase):
    @classmethod
    def setUpClass(cls):
        cls.room = folder(cls.addClassCleanup)
        for patch in (mock.patch.object(repository, "TOP", str(cls.room)), mock.patch.dict(os.environ, CAMAC_TOP=str(cls.room), XDG_CACHE_HOME=f"{cls.room}/cache")):
            patch.start()
            cls.addClassCleanup(patch.stop)
        files = {"sample/src/lib.rt": SOURCE, "sample/proofs/sum/Answers.antt": SUM, "above/src/lib.rt": ABOVE}
        files |= {"sample/proofs/+count/Invariants.antt": MEASURES, "sample/proofs/+count/Answers.antt": FURTHER}
        for name, (_, *pairs) in MUTANTS.items():
            crate, _, name = name.partition("/")
            lines = "".join(f"old: {old}\nnew: {new}\n" for old, new in pairs)
            file = f"{crate}/mutants.edits"
            files[file] = files.get(file, "") + f"mutant: {name}\nfile: src/lib.rt\n{lines}\n"
        for name, text in {f"crates/{name}": text for name, text in files.items()}.items() | {("crates.txt", "sample: # one crate\nabove: sample\n")}:
            (cls.room / name).parent.mkdir(parents=True, exist_ok=True)
            (cls.room / name).write_text(text, "utf-8")

    def start(self, *words):
        return subprocess.Popen([sys.executable, TOP / "tools/mutants", *words], stdout=subprocess.PIPE, text=True)

    def said(self, *words):
        """The lines that the tool prints, and its status."""
        tool = self.start(*words)
        return tool.communicate()[0].splitlines(), tool.returncode

    def body(self, name):
        return next(it for it in bodies_of(repository.crates()[name.partition("/")[0]]) if it.label == name)


class Tries(Tool):
    def test_verdicts(self):
        """Each mutant has its verdict; what was refused is kept, and not tried again."""
        lines, status = self.said("--anew", "--jobs", "1")
        told = dict(it.split(": ", 1) for it in lines[:-1])
        self.assertEqual({*told}, {*MUTANTS})
        for name, (wanted, *_) in MUTANTS.items():
            with self.subTest(name):
                self.assertRegex(told[name], f"^{wanted}")
        self.assertEqual((lines[-1], status), (f"{len(REFUSED)} refused, {len(MUTANTS) - len(REFUSED)} not", 1))
        again, status = self.said(*REFUSED, "sample/old_text_twice")
        wanted = {f"{it}: {told[it].replace('refused: ', 'refused: before: ')}"[:150] for it in REFUSED}
        self.assertEqual({it[:150] for it in again if ": refused: before: " in it}, wanted)
        self.assertEqual((again[-1], status), (f"{len(REFUSED)} refused, 1 not", 1))
        alone, status = self.said("--anew", "sample/half_is_a_third")
        self.assertEqual((alone[-1], status), ("1 refused, 0 not", 0))

    def test_the_counter_test_proves_each_function_as_it_is(self):
        lines, status = self.said("--unchanged", "--jobs", "1", "sample")
        self.assertEqual((len(lines), lines[-1], status), (9, "8 proved, 0 not", 0), lines)

    def test_beside_rt_ci(self):
        """A crate is tried once all below it are proved. If `rt ci` fails, nothing is shown."""
        log = self.room / "log"
        repository.build_below([repository.crates()["above"]], 1)
        log.write_text("rt: other proved\n")
        tool = self.start("--anew", "--during", log, "above", "sample/half_is_a_third")
        first = tool.stdout.readline()
        log.write_text("rt: other proved\nrt: sample is kept: an earlier run proved it\nrt: above proved\n2 passed, 0 failed\n")
        self.assertRegex(first + tool.communicate()[0], "^sample/half_is_a_third: refused: .*\nabove/same_is_all: refused: .*\n2 refused, 0 not\n$")
        log.write_text("rt: sample proved\n1 passed, 1 failed\n")
        self.assertEqual(self.said("--during", log), (["0 refused, 1 not"], 2))

    def test_what_is_not_there_is_told_by_status_2(self):
        for words in (["nobody"], ["sample/nobody"], ["--nothing"], ["--jobs", "0"], ["--during", "/no/log"]):
            self.assertEqual(self.said(*words), (["0 refused, 1 not"], 2), words)


class Parts(Tool):
    def test_only_words_on_a_goal_refuse(self):
        body = self.body("sample/half_is_a_third")
        for said, kind in (
            ("fn sample::half: no proof: `search` did not prove `returns`\n", "refused"),
            ("proofs/half/Answers.antt:3:1: error: `returns`: the two types differ\nfn sample::half: not proved\n", "refused"),
            ("fn sample::half: no proof: the borrow checker does not cover this function yet\n", "not"),
            ("fn sample::half: no proof: a bug in the prover leaves only a proof by hand\n", "not"),
            ("fn sample::half: words of a later kit\n", "not"),
            ("fn sample::half: no proof: `search` did not prove `returns`\nfn sample::weak: not proved\n", "not"),
        ):
            self.assertEqual(Round(body.crate, [body]).verdicts(f"only=1 holes=0\n{said}")[body][0], kind, said)

    def test_others_go_on_where_one_does_not_compile(self):
        bodies = [self.body(f"sample/{name}") for name in ("half_of_nothing", "weak_is_half", "sum_and_one")]
        verdicts = Round(bodies[0].crate, bodies).verdicts("src/lib.rt:6:57: error[unknown-name]: cannot find value `nothing` in this scope\n")
        with mock.patch("builtins.print"):
            again = Report(True, False).tell_tried(bodies[0].crate, bodies, verdicts)
        self.assertEqual(([kind for kind, _ in verdicts.values()], again), (["not", "again", "again"], [bodies[1:]]))
        elsewhere = Round(bodies[0].crate, bodies).verdicts("src/lib.rt:1:1: error: of no body\n")
        self.assertEqual({kind for kind, _ in elsewhere.values()}, {"alone"})

    def test_the_rounds_of_this_repository_can_be_planned(self):
        with mock.patch.object(repository, "TOP", TOP):
            for crate in repository.crates().values():
                bodies = bodies_of(crate)
                self.assertEqual([it.fault for it in bodies if it.fault], [])
                for some in packed(bodies):
                    self.assertFalse(Round(crate, some).holes() & {crate.proof_of(it) for body in some for it in body.functions}, crate.name)


class Plants(Tool):
    def test_wrong_bodies(self):
        crate = repository.crates()["sample"]
        found = {it.path: [plant.what.split(" -> ") for plant in plants_of(crate, it)] for it in crate.functions}
        self.assertEqual(found["half"], [["n / 2", "0"], ["n / 2", "1"], ["2", "3"]])
        self.assertEqual(found["sum"][2:], [["+", "-"]])
        down = "if n == 0 { 0 } else { further(n - 1) }"
        turned = [["if n == 0", "if !(n == 0)"], ["==", "!="], ["-", "+"], ["0", "1"], ["0", "1"], ["1", "2"]]
        self.assertEqual(found["down"], [[down, "0"], [down, "1"], *turned])
        for it in crate.functions:
            for plant in plants_of(crate, it):
                self.assertTrue(plant.lines and all(it.first <= at <= it.last for at in plant.lines["src/lib.rt"]), plant.what)

    def test_the_seed_chooses_the_functions(self):
        said = [subprocess.run([TOP / "tools/plants", "6", "--list", "--seed", it], stdout=subprocess.PIPE, text=True, check=True).stdout for it in "112"]
        self.assertEqual((said[0], len({it.partition(":")[0] for it in said[0].splitlines()})), (said[1], 7))
        self.assertNotEqual(said[1].splitlines()[1:], said[2].splitlines()[1:])
        self.assertEqual(subprocess.run([TOP / "tools/plants", "1", "nobody"], stderr=subprocess.DEVNULL).returncode, 2)


class Kept(Tool):
    def total(self, name):
        body = self.body(name)
        return Refusals().sums(body.crate, [body])[body]

    def test_a_refusal_is_read_as_it_was_written(self):
        total, other = self.total("sample/half_is_a_third"), self.total("above/same_is_all")
        refusals, file = Refusals(), pathlib.Path(Refusals().folder) / total
        refusals.keep(total, "a goal is open\nand more")
        self.assertEqual((refusals.why(total), refusals.why(other)), ("a goal is open", None))
        (file.parent / other).write_bytes(file.read_bytes())
        self.assertIsNone(refusals.why(other))
        for damage in (file.read_bytes()[:-1], b"", b"\xff" + file.read_bytes()[1:]):
            file.write_bytes(damage)
            self.assertIsNone(refusals.why(total))

    def test_what_another_text_makes_another_sum(self):
        names = ("sample/weak_is_half", "sample/half_is_a_third", "above/same_is_all")
        for file, changed, *pair in (
            ("crates/sample/src/lib.rt", names),
            ("crates/sample/proofs/sum/Answers.antt", names),
            ("crates/sample/src/new.rt", names),
            ("crates/above/src/lib.rt", names[2:]),
            ("crates/sample/mutants.edits", names[1:2], "n / 3", "n / 4"),
        ):
            before, path = [*map(self.total, names)], self.room / file
            text = path.read_text("utf-8") if path.exists() else ""
            path.write_text(text.replace(*(pair or ("", "\n")), 1), "utf-8")
            self.assertEqual(tuple(it for it, was in zip(names, before) if self.total(it) != was), changed)
            path.write_text(text, "utf-8") if text else path.unlink()
        before = self.total(names[0])
        with mock.patch("rounds.trials.toolchain", lambda: "another"):
            self.assertNotEqual(self.total(names[0]), before)


if __name__ == "__main__":
    unittest.main()
