#!/usr/bin/env python3
"""Tests of `python3 -m camac report` and of the other commands: each input, each end of a run, statuses, sizes and times.

usage: tests/report_test.py [-v] [TEST ..]     from any folder; takes about a minute
"""
import io
import os
import re
import subprocess
import sys
import unittest
import xml.etree.ElementTree as ElementTree
from unittest import mock

from support.live import TOP, command as ran, run_tests
from support import laboratory
import camac
from camac import pictures
from camac.pictures import svg
from camac.report import report
from camac.runs import Inputs

STRAIGHT = "cdlam adc 1 1 5 12\nvar v\nservice adc within 3 cycles event 1 words {\n  cdreg r 1 1 5 0\n  cfsa 0 r -> v\n  put v\n}\n"
FIGURE = re.compile(r"<svg .*?</svg>", re.S)


class Ends(laboratory.BenchCase):
    """Each input and each end: the page, its status and its size."""

    def report(self, plan="@sample", script=STRAIGHT, source="", status=0):
        script_path, path = self.write("a.script", script), self.write("a.answers", "")
        path.write_bytes(source if isinstance(source, bytes) else source.encode())
        made = report(Inputs(plan, script_path, path))
        self.assertEqual(made.status, status)
        if len(source) < 1 << 20:
            self.assertEqual(report(Inputs(plan, script_path, path)), made)
        for figure in FIGURE.findall(made.text):
            ElementTree.fromstring(figure)
        return made.text, laboratory.Page(made.text)

    def last_line(self, page):
        return next(it for it in page.parts[""]["paragraphs"] if it.startswith("The run: "))

    def test_no_answer(self):
        _, page = self.report()
        self.assertEqual(self.last_line(page), "The run: ended events 0 (the answers were used up at a demand).")
        self.assertIn("No service came to its end in this run.", page.parts["The run"]["texts"])
        self.assertIn("Nothing to show: no event, no word.", page.parts["Cycles and words of an event"]["paragraphs"])
        self.assertIn("No event of adc has a word.", page.parts["By the place of the word in its event"]["texts"])

    def test_sizes(self):
        """One answer, ten, and many: the page grows little."""
        sizes = {}
        for services in (0, 1, 10, 4_400, 44_000):
            text, page = self.report(source=("0 0 000000 0 000004\n1 1 123fff 2 000000\n") * services)
            self.assertEqual(page.tiles["events"], services)
            sizes[services] = len(text)
        self.assertLess(sizes[1], 80_000)
        self.assertLess(sizes[10], 90_000)
        self.assertLess(sizes[44_000], 200_000)
        self.assertLess(abs(sizes[44_000] - sizes[4_400]), 10_000)

    def test_an_answer_alone(self):
        _, page = self.report(source="0 0 000000 0 000004\n")
        self.assertEqual(self.last_line(page), "The run: short events 0 (the answers were used up inside a service, which left no event).")
        self.assertIn("service 1, adc: 0 of 3 cycles (it did not come to its end)", page.parts["Some services cycle by cycle"]["texts"])

    def test_short(self):
        text, page = self.report(*self.bench_of_two_crates(), source=self.files[2].read_text().rsplit("\n", 8)[0])
        self.assertIn("it did not come to its end", text)
        told = page.parts["Commands that were sent"]["paragraphs"]
        self.assertEqual(told, ["Those of the service that did not come to its end are counted here, and nowhere else."])
        self.assertRegex(self.last_line(page), r"^The run: short events \d+ ")

    def bench_of_two_crates(self):
        return self.files[0], laboratory.SCRIPT

    def test_overrun(self):
        laboratory.record(self.room, 40, ignores_lockout=True)
        text, page = self.report(*self.bench_of_two_crates(), source=self.file("bench.answers"), status=1)
        self.assertRegex(self.last_line(page), r"^The run: overrun 1 wait [12] events \d+ \(a wait that the plan does not permit")
        self.assertIn("(it did not come to its end)", text)
        self.assertIn('class="bad">overrun', text)

    def test_bad_answers(self):
        good = "0 0 000000 0 000004\n1 1 123fff 2 000000\n"
        for bad, line in (("1 1\n", "refused A1 line 3: line shape"), ("x 1 000000 0 000000\n", "refused A2 line 3: bad digit")):
            _, page = self.report(source=good + bad, status=1)
            self.assertIn(line, self.last_line(page))
            self.assertEqual(page.tiles["events"], 1)
            self.assertEqual([row[0] for row in page.parts["Checks of this page"]["tables"][0]][:4], ["agrees"] * 4)
            self.assertNotIn("it did not come to its end", "".join(page.parts.get("Some services cycle by cycle", {"texts": []})["texts"]))

    def test_too_many_answers(self):
        _, page = self.report(source="0 0 000000 0 000000\n" * 1_000_001, status=1)
        self.assertIn("refused A4 line 1000001: too many answers", self.last_line(page))
        self.assertTrue(any(it.startswith("No demand called a service.") for it in page.parts[""]["paragraphs"]))

    def test_refused_script(self):
        text, page = self.report(script=STRAIGHT.replace("within 3", "within 2"), status=1)
        self.assertEqual(page.parts[""]["paragraphs"][0], "refused E12 line 3: more cycles than annotated")
        explained = laboratory.call("explain", "@sample", self.room / "a.script")
        self.assertIn(svg.escape(explained.rstrip("\n")), text)
        place = re.search(r"<h2>The place</h2><pre>(.*?)</pre>", text, re.S)[1].split("\n")
        self.assertEqual(place[0], "     1   cdlam adc 1 1 5 12")
        self.assertEqual(place[2], '<b class="bad">     3 &gt; service adc within 2 cycles event 1 words {')
        self.assertEqual(len([it for it in page.parts["The plan"]["tips"] if ": ADC" in it]), 2)

    def test_refused_plan(self):
        text, page = self.report(plan=self.write("bad.toml", "buffer = 5000\n"), status=1)
        self.assertEqual(page.parts[""]["paragraphs"][0], "refused P4: value out of range")
        self.assertNotIn("The plan", page.parts)
        self.assertNotIn("The place", page.parts)

    def test_cut_event_file(self):
        laboratory.call("run", *self.inputs, self.room / "run.events")
        data = self.file("run.events")
        for cut, line in ((data[:500], r"refused V7 byte \d+: truncated"), (data[:9], "refused V7 byte 8: truncated"), (b"CAMACEV9", "refused V1 byte 0")):
            _, page = self.report(*self.bench_of_two_crates(), source=cut, status=1)
            self.assertRegex(self.last_line(page), line)
            whole = camac.whole(io.BytesIO(cut))
            self.assertEqual(page.tiles["events"], len(whole.events))

    def test_event_file_of_version_one(self):
        data = bytes.fromhex("43414d4143455631 ca4d 0003 00000001 0001 00000fff")
        _, page = self.report(source=data)
        self.assertEqual(page.tiles, {"events": 1, "event words": 1})
        self.assertIn("The event file is of version one, which has no cycles.", page.parts["The run"]["texts"])
        self.assertEqual(list(page.table("Services")[0]), ["event", "service", "words"])
        self.assertNotIn("adc: cycles", page.parts["Cycles and words of an event"]["texts"])

    def test_event_file_of_another_script(self):
        data = bytes.fromhex("43414d4143455632 ca4d 0007 00000001 00000003 0000 0001 00000fff")
        _, page = self.report(source=data, status=1)
        told = "events that this script can make, 0 of 1: another script or plan made them; event 1 is of GL 7, which has no service"
        self.assertIn(["DIFFERS", told], page.parts["Checks of this page"]["tables"][0])
        self.assertIn(told, page.parts[""]["paragraphs"])

    def test_largest(self):
        """The largest plan, 24 services, 100,000 answers."""
        plan = self.write("largest.toml", laboratory.largest_plan())
        answers = laboratory.random_answers(100_000, [1 << bit for bit in range(24)])
        text, page = self.report(plan, laboratory.largest_script(), answers)
        self.assertLess(len(text), 2_300_000)
        self.assertEqual([row[0] for row in page.parts["Checks of this page"]["tables"][0]][:4], ["agrees"] * 4)
        drawn = pictures.draw_plan(camac.plan(plan)).picture()
        self.assertLess(len(drawn), 130_000)
        self.assertEqual(ElementTree.fromstring(drawn).get("height"), "1624")

    def test_time(self):
        """100,000 answers in three seconds of processor time, a million in fifteen, in little memory."""
        for count, seconds in ((100_000, 3), (999_999, 15)):
            answers = self.write("many.answers", laboratory.random_answers(count))
            words = ["report", "@sample", self.write("a.script", STRAIGHT), answers, "-o", self.room / "many.html"]
            call = "from camac.__main__ import main; status = main(sys.argv[1:])"
            # The least of three calls, and beside it what the processor's seconds are worth just then: other programs may use the computer.
            for _ in range(3):
                worth = max(1, self.measured("status = 0; sum(len(b'%d 1' % it) for it in range(4_000_000))")[0])
                its_seconds, memory = self.measured(call, *words)
                if its_seconds < seconds * worth:
                    break
            self.assertLess(its_seconds, seconds * worth)
            self.assertLess(memory, 100)

    def measured(self, what, *words):
        """The seconds of processor time and the MB of memory of a Python program that sets `status`, which has to be 0."""
        program = f"import resource, sys; {what}; its = resource.getrusage(resource.RUSAGE_SELF); "
        program += "print(its.ru_utime + its.ru_stime, its.ru_maxrss // 1024); sys.exit(status)"
        # A shell between: else the memory of this process would count.
        between = ["sh", "-c", '"$@"; exit $?', "sh", sys.executable, "-c", program, *words]
        done = subprocess.run(between, stdout=subprocess.PIPE, env={**os.environ, "PYTHONPATH": str(TOP / "python")})
        self.assertEqual(done.returncode, 0)
        return tuple(map(float, done.stdout.split()))


class Commands(laboratory.BenchCase):
    """The command line: words, statuses, and what is left behind."""

    def call(self, *words, status=0):
        found, *told = ran(*words)
        self.assertEqual(found, status, told)
        return tuple(told)

    def test_pictures(self):
        plan, script, answers = self.files
        laboratory.call("run", *self.files, self.room / "run.events")
        tried = [("plan", plan), ("plan", plan, script), ("plan", plan, script, answers), ("plan", "@sample"), ("bounds", plan, script)]
        tried += [(kind, plan, script, source) for kind in ("plan", "bounds", "run", "words") for source in (answers, self.room / "run.events")]
        for words in tried:
            first, second = self.room / "1.svg", self.room / "2.svg"
            self.assertEqual(self.call("draw", *words, "-o", first), ("", ""))
            self.call("draw", *words, "-o", second)
            self.assertEqual(first.read_bytes(), second.read_bytes())
            ElementTree.parse(first)
        self.assertEqual(sorted(it.name for it in self.room.iterdir()), ["1.svg", "2.svg", "run.events"])

    def test_words(self):
        plan, script, answers = self.files
        for words in [
            (),
            ("draw",),
            ("draw", "moon", plan, "-o", "x"),
            ("draw", "run", plan, "-o", "x"),
            ("draw", "plan", plan),
            ("draw", "bounds", plan, script, answers, answers, "-o", "x"),
            ("report", plan, script, "-o", "x"),
            ("report", "@in", script, answers, "-o", "x"),
            ("draw", "plan", "@in", "-o", "x"),
            ("csv", "what", "x"),
            ("report", plan, script, answers, "-o", script),
            ("csv", "listing", answers, "-o", answers),
        ]:
            out, err = self.call(*words, status=2)
            self.assertEqual(out, "")
            self.assertIn("usage: ", err)
        os.mkfifo(self.room / "pipe")
        self.assertIn("is read more than once", self.call("report", plan, script, self.room / "pipe", "-o", "x", status=2)[1])
        for words in (["--help"], ["draw", "--help"], ["report", "--help"]):
            self.assertIn("usage: ", self.call(*words)[0])

    def test_faults(self):
        plan, script, answers = self.files
        out = self.room / "out"
        for words in [
            ("report", plan, script, self.room / "none"),
            ("report", plan, self.room / "none", answers),
            ("report", self.room / "none", script, answers),
            ("report", plan, script, self.room),
            ("draw", "plan", self.room / "none"),
            ("csv", "listing", self.room / "none"),
        ]:
            printed, err = self.call(*words, "-o", out, status=3)
            self.assertEqual(printed, "")
            # what fails is named: in the program's second line, or in Python's
            self.assertRegex(err, rf"\Acamac: (fault read\n  )?.*{self.room}.*\n\Z")
            self.assertFalse(out.exists() and words[0] != "csv")
        self.assertIn("No such file", self.call("report", plan, script, answers, "-o", self.room / "none/x", status=3)[1])
        with mock.patch.dict(os.environ, {"CAMAC_PROGRAM": str(self.room / "none")}):
            self.assertIn("none", self.call("draw", "plan", plan, "-o", out, status=3)[1])

    def test_a_fault_of_the_program(self):
        """Its second line, which names the file, is put into the same line."""
        fake = self.write("fake", "#!/bin/sh\nprintf 'fault read\\n  plan.toml: Is a directory\\n' >&2\nexit 3\n")
        fake.chmod(0o755)
        with mock.patch.dict(os.environ, {"CAMAC_PROGRAM": str(fake)}):
            told = self.call("draw", "plan", self.files[0], "-o", self.room / "out", status=3)[1]
        self.assertEqual(told, "camac: fault read: plan.toml: Is a directory\n")

    def test_an_input_that_a_picture_would_take_the_place_of(self):
        picture = self.write("costs.adc.svg", STRAIGHT)
        told = self.call("draw", "costs", "@sample", picture, "-o", self.room / "costs.svg", status=3)[1]
        self.assertEqual((told, picture.read_text()), (f"camac: {picture} is an input: it would be lost\n", STRAIGHT))

    def test_an_older_program(self):
        """Of a program without `costs` and `tell` a page is made, and says what it lacks."""
        plan, script, answers = self.files
        out = self.room / "out"
        with self.another_program(f"--help) '{laboratory.PROGRAM}' --help | grep -v -e '^  costs ' -e '^  tell ' ;;", "costs | tell) exit 2 ;;"):
            self.assertEqual(self.call("draw", "costs", plan, script, "-o", out, status=3)[1], "camac: this program has no `costs`\n")
            self.call("report", plan, script, answers, "-o", out)
            self.assertIn("not looked for", self.call("check", plan, script)[1])
        self.assertIn("This program has no <code>costs</code>", out.read_text())

    def test_refusals(self):
        plan, _, answers = self.files
        bad = self.write("bad.script", "service service\n")
        for words in (("draw", "plan", plan, bad), ("draw", "run", plan, bad, answers)):
            out, err = self.call(*words, "-o", self.room / "x.svg", status=1)
            self.assertEqual((out, err), ("refused S2 line 1: unexpected token\n", ""))
            self.assertFalse((self.room / "x.svg").exists())
        self.call("report", plan, bad, answers, "-o", self.room / "x.html", status=1)
        self.assertTrue((self.room / "x.html").exists())

    def test_what_is_replaced(self):
        """A page and a picture of this package, and nothing else, unless that is said."""
        plan, script, _ = self.files
        page, picture = self.room / "run.html", self.room / "plan.svg"
        for out, words in ((page, ["report", *self.files]), (picture, ["draw", "plan", plan]), (picture, ["draw", "plan", plan, script])):
            self.assertEqual(self.call(*words, "-o", out), ("", ""))
            self.assertEqual(self.call(*words, "-o", out), ("", ""))
        for out, words in ((page, ["draw", "plan", plan]), (picture, ["report", *self.files]), (self.write("notes", "mine\n"), ["draw", "bounds", plan, script])):
            before = out.read_bytes()
            self.assertEqual(self.call(*words, "-o", out, status=3), ("", f"camac: another command made it; --overwrite replaces it: {out}\n"))
            self.assertEqual(out.read_bytes(), before)
            self.assertEqual(self.call(*words, "-o", out, "--overwrite"), ("", ""))
            self.assertNotEqual(out.read_bytes(), before)
        self.write("costs.tick.svg", "mine\n")
        self.assertIn("costs.tick.svg", self.call("draw", "costs", plan, script, "-o", self.room / "costs.svg", status=3)[1])
        self.assertFalse((self.room / "costs.adc.svg").exists())

    def test_report(self):
        out = self.room / "run.html"
        self.assertEqual(self.call("report", *self.files, "-o", out), ("", ""))
        self.assertEqual(out.read_text(encoding="utf-8"), report(self.inputs).text)
        script = TOP / "python/camac-report"
        done = subprocess.run([script, *self.files, "-o", self.room / "2.html"], stdout=subprocess.PIPE, stderr=subprocess.STDOUT)
        self.assertEqual((done.returncode, done.stdout), (0, b""))
        self.assertEqual((self.room / "2.html").read_bytes(), out.read_bytes())


class Pages(unittest.TestCase):
    """The manual pages and the completions of the commands of the package, compared with their help."""

    def options(self, command):
        """Each option as it is in the help: its short name, if it has one, and its long one."""
        told = ran(command, "--help")[1]
        self.assertTrue(told.startswith(f"usage: camac-{command} "), told)
        return re.findall(r"^  (?:-(\w)(?: [A-Z]+)?, )?--(\w+)", told, re.M)

    def test_manual_pages(self):
        for command, count in (("check", 7), ("fmt", 2), ("lsp", 1), ("report", 12), ("survey", 10)):
            page = (TOP / f"man/camac-{command}.1").read_text()
            self.assertEqual(len(self.options(command)), count)
            for short, long in self.options(command):
                self.assertRegex(page, rf"\n\.It {f'Fl {short} , ' if short else ''}Fl -{long}\b")
            self.assertEqual(re.search(r"\.Os .*", page)[0], re.search(r"\.Os .*", (TOP / "man/camac.1").read_text())[0])

    def test_completions(self):
        for command in ("check", "fmt", "lsp", "report", "survey"):
            for name in ("camac.bash", "_camac", "camac.fish"):
                text = "\n".join(re.findall(rf"(?ms)^complete [^\n]*camac-{command}\b[^\n]*|^  camac-{command}\) .*?;;$", (TOP / "completions" / name).read_text()))
                if not name.endswith(".bash"):
                    self.assertEqual("@sample" in text, command in ("check", "report", "survey"))
                for short, long in self.options(command):
                    self.assertRegex(text, rf"-{short}\b|-s {short}\b")
                    self.assertRegex(text, rf"--{long}\b|-l {long}\b")

    def test_bash(self):
        def offered(command, *words):
            line = f'source "$0"; COMP_WORDS=(camac-{command} "$@"); COMP_CWORD=$#; _camac_commands; printf "%s\\n" "${{COMPREPLY[@]}}"'
            done = subprocess.run(["bash", "-c", line, TOP / "completions/camac.bash", *words], stdout=subprocess.PIPE, cwd=TOP / "examples")
            return done.stdout.decode().split()

        for command in ("check", "report", "survey"):
            self.assertEqual(offered(command, "@"), ["@sample"])
            self.assertEqual(offered(command, "sample_p"), ["sample_plan.toml"])
            self.assertEqual(offered(command, "@sample", "stra"), ["straight_line.script"])
            self.assertEqual(offered(command, "@sample", "@"), [])
        self.assertEqual(offered("report", "@sample", "-"), ["--bins", "--every", "--gate", "--help", "--out", "--over", "--overwrite", "--pair", "--region", "--survey", "--words", "--write-record", "-h", "-o"])
        self.assertEqual(offered("survey", "@sample", "--driver", "m"), ["mock", "modules"])
        self.assertEqual(offered("check", "@sample", "--f"), ["--format"])
        self.assertEqual(offered("check", "--format", "g"), ["github"])
        self.assertEqual(offered("check", "--write", "--format", "json", "@"), ["@sample"])
        self.assertEqual(offered("check", "--write", "@sample", "lockout.script", "@"), [])
        self.assertEqual((offered("fmt", "stra"), offered("fmt", "--")), (["straight_line.script"], ["--check", "--help"]))


if __name__ == "__main__":
    run_tests()
