#!/usr/bin/env python3
"""Tries `python3 -m camac diff`, and `camac-check --format sarif`.

usage: tests/diff_test.py [-v] [TEST ..]     from any folder; takes some seconds
"""
import json
import unittest
from urllib.parse import unquote

from support.live import Case
from camac.commands.diff import Bounds, Change, command_lines

PLAN = """\
[[type]]
name = "ADC"
commands = [ { f = 0, a = 0, to = 3, width = 12 }, { f = 10, a = 12 } ]
[[crate]]
number = 1
waits = 1
station = [ { n = 5, type = "ADC", gl = 1 }, { n = 6, type = "ADC", gl = 2 } ]
"""
# By hand: each cycle of ours may come with one of the auxiliaries. While one service runs, the other may wait for it.
SCRIPT = """\
cdlam one 1 1 5 12
cdlam two 1 1 6 12
var v
service one within 9 cycles event 1 words {
  cdreg r 1 1 5 0
  cfsa 0 r -> v
  put v
  cclc one
}
service two within 9 cycles event 0 words {
  cclc two
}
"""
# What SARIF 2.1.0 requires, with what is written here: the keys of each object, those that have to be there first.
REQUIRED = {
    "log": ("version", "runs", "$schema"), "run": ("tool", "results", "columnKind", "invocations"), "tool": ("driver",),
    "driver": ("name", "rules", "semanticVersion"), "result": ("message", "ruleId", "ruleIndex", "level", "locations"),
    "location": ("physicalLocation",), "physicalLocation": ("artifactLocation", "region"), "invocation": ("executionSuccessful",),
}


class Plans(Case):
    def setUp(self):
        super().setUp()
        self.write("plan.toml", PLAN)
        self.write("old.script", SCRIPT)


class Diff(Plans):
    def diff(self, *words):
        return self.package("diff", *words)

    def test_nothing_changed(self):
        same = "= service one cycles 4 words 1 steps 4 start 2 end 6\n= service two cycles 2 words 0 steps 1 start 4 end 6\n"
        self.assertEqual(self.diff("old.script", "old.script", "--plan", "plan.toml"), (0, same, ""))
        self.assertEqual(self.diff("plan.toml", "plan.toml", "--script", "old.script"), (0, same, ""))

    def test_scripts(self):
        self.write("new.script", SCRIPT.replace("  put v\n", "  put v\n  cfsa 0 r -> v\n"))
        one = "~ service one cycles 4 -> 6 words 1 steps 4 -> 5 start 2 end 6 -> 8  grown: cycles steps end\n"
        two = "~ service two cycles 2 words 0 steps 1 start 4 -> 6 end 6 -> 8  grown: start end\n"
        self.assertEqual(self.diff("old.script", "new.script", "--plan", "plan.toml"), (1, one + two, ""))
        one = "~ service one cycles 6 -> 4 words 1 steps 5 -> 4 start 2 end 8 -> 6\n"
        two = "~ service two cycles 2 words 0 steps 1 start 6 -> 4 end 8 -> 6\n"
        self.assertEqual(self.diff("new.script", "old.script", "--plan", "plan.toml"), (0, one + two, ""))

    def test_services_that_come_and_go(self):
        self.write("new.script", SCRIPT.partition("service two")[0])
        gone = "~ service one cycles 4 words 1 steps 4 start 2 -> 0 end 6 -> 4\n- service two cycles 2 words 0 steps 1 start 4 end 6\n"
        self.assertEqual(self.diff("old.script", "new.script", "--plan", "plan.toml"), (0, gone, ""))
        status, out, _ = self.diff("new.script", "old.script", "--plan", "plan.toml")
        self.assertEqual((status, out.splitlines()[1]), (1, "+ service two cycles 2 words 0 steps 1 start 4 end 6"))

    def test_rates(self):
        """Module one calls again after 4 cycles at the soonest, and its service takes 4: two may wait for ever."""
        status, out, _ = self.diff("old.script", "old.script", "--plan", "plan.toml", "--every", "one=4")
        self.assertEqual((status, out.splitlines()[1]), (0, "= service two cycles 2 words 0 steps 1 start - end -"))

    def test_plans(self):
        self.write("new.toml", PLAN.replace("waits = 1", "waits = 2").replace("to = 3, width = 12", "to = 2, width = 11").replace(", { f = 10", ", { f = 16, a = 3 }, { f = 10"))
        status, out, said = self.diff("plan.toml", "new.toml", "--script", "old.script")
        self.assertEqual((status, said), (1, ""))
        services, commands = out.splitlines()[:2], out.splitlines()[2:]
        self.assertEqual(services[1], "~ service two cycles 2 -> 3 words 0 steps 1 start 4 -> 6 end 6 -> 9  grown: cycles start end")
        wanted = [f"{sign} command 1 {n} {what}" for sign, texts in (("-", ["0..3 0 ADC width 12"]), ("+", ["0..2 0 ADC width 11", "3 16 ADC width 24"])) for n in (5, 6) for what in texts]
        self.assertEqual(commands, wanted)

    def test_refusals_and_faults(self):
        self.write("bad.script", SCRIPT.replace("within 9", "within 3", 1))
        self.assertEqual(self.diff("old.script", "bad.script", "--plan", "plan.toml"), (1, "bad.script:4: refused E12: more cycles than annotated\n", ""))
        self.write("bad.toml", PLAN.replace("number = 1", "number = 9"))
        self.assertEqual(self.diff("bad.toml", "plan.toml", "--script", "old.script"), (1, "bad.toml: refused P4: value out of range\n", ""))
        status, out, said = self.diff("none.script", "old.script", "--plan", "plan.toml")
        self.assertEqual((status, out), (3, ""))
        self.assertRegex(said, r"\Acamac: fault read:? none\.script: No such file or directory\n\Z")
        self.assertEqual(self.diff("old.script", "old.script")[0], 2)
        self.assertEqual(self.diff("a", "b", "--plan", "c", "--script", "d")[0], 2)

    def test_what_has_grown(self):
        some = Bounds(4, 1, 4, 2, 6)
        self.assertEqual(Change("a", some, some._replace(end=None)).grown(), ["end"])
        self.assertEqual(Change("a", some._replace(end=None), some).grown(), [])
        self.assertEqual(Change("a", None, some).grown(), [])
        self.assertEqual([*command_lines({(1, 2, "T", 9, 3, None)}, {(1, 2, "T", 9, it, None) for it in (3, 5, 6, 8)})], ["+ command 1 2 5..6,8 9 T"])


class Sarif(Plans):
    def expect_keys(self, what, fields, more=()):
        self.assertLessEqual({*REQUIRED[what][: 2 if what in ("log", "run") else 1], *more}, {*fields}, what)
        self.assertLessEqual({*fields}, {*REQUIRED[what]}, what)

    def test_log(self):
        name = "a b%c.script"
        self.write(name, SCRIPT.replace("within 9", "within 3", 1))
        self.write("warned.script", SCRIPT.replace("  cclc one\n", ""))
        status, out, said = self.package("check", "--format", "sarif", "plan.toml", name, "warned.script", "none.script")
        self.assertEqual((status, said), (3, ""))
        log = json.loads(out)
        self.expect_keys("log", log)
        self.assertEqual((log["version"], len(log["runs"])), ("2.1.0", 1))
        (run,) = log["runs"]
        self.expect_keys("run", run)
        self.expect_keys("tool", run["tool"])
        self.expect_keys("driver", run["tool"]["driver"])
        self.assertEqual(run["invocations"], [{"executionSuccessful": False}])
        found = []
        for told in run["results"]:
            self.expect_keys("result", told)
            self.assertIn(told["level"], ("none", "note", "warning", "error"))
            self.assertEqual(run["tool"]["driver"]["rules"][told["ruleIndex"]]["id"], told["ruleId"])
            (location,) = told["locations"]
            self.expect_keys("location", location)
            place = location["physicalLocation"]
            self.expect_keys("physicalLocation", place)
            line = place.get("region", {}).get("startLine")
            self.assertTrue(line is None or line >= 1)
            self.assertRegex(place["artifactLocation"]["uri"], r"\A([\w.~!$&'()*+,;=:@/-]|%[0-9A-F]{2})+\Z")
            found.append((unquote(place["artifactLocation"]["uri"]), line, told["level"], told["ruleId"], told["message"]["text"].partition("\n")[0]))
        self.assertEqual([it[:4] for it in found], [(name, 4, "error", "E12"), ("warned.script", 4, "warning", "W3"), ("none.script", None, "error", "fault")])
        self.assertEqual(found[0][4], "more cycles than annotated")
        self.assertIn("\nWhy: ", run["results"][1]["message"]["text"])

    def test_column(self):
        """A fault of the text has a column, in characters from 1."""
        self.write("fault.script", SCRIPT.replace("  put v\n", "  puts v\n"))
        (run,) = json.loads(self.package("check", "--format", "sarif", "plan.toml", "fault.script")[1])["runs"]
        self.assertEqual(run["results"][0]["locations"][0]["physicalLocation"]["region"], {"startLine": 7, "startColumn": 3})

    def test_nothing_found(self):
        log = json.loads(self.package("check", "--format", "sarif", "plan.toml", "old.script")[1])
        self.assertEqual((log["runs"][0]["results"], log["runs"][0]["tool"]["driver"]["rules"]), ([], []))


if __name__ == "__main__":
    unittest.main()
