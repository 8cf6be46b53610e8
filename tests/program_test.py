#!/usr/bin/env python3
"""Tries the built program as a user does: by command lines, from folders, through pipes, with missing files. Compares it with its pages.

usage: tests/program_test.py [-v] [TEST ..]     from any folder; takes a few seconds
"""
import errno
import json
import os
import re
import select
import shutil
import subprocess
import time

from support.live import CLEARED
from support.program import ANSWERS, CLOSED, DEMAND, EVENT_FILE, EVENT_FILE_ONE, FULL, LISTING, PROGRAM, STRAIGHT_LINE, TOO_LONG, TOP, TWICE, VERDICT, Case, Room, fault, keywords, lacks, run_tests, unwritten
import camac.language
import oracle.reader.tokens

WORDS = {"plan": ["PLAN"], "check": ["PLAN", "SCRIPT"], "explain": ["PLAN|CODE", "[SCRIPT]"], "bounds": ["PLAN", "SCRIPT"], "costs": ["PLAN", "SCRIPT"], "tell": ["PLAN", "SCRIPT"], "response": ["PLAN", "SCRIPT"], "run": ["PLAN", "SCRIPT", "ANSWERS", "EVENTS"], "drive": ["PLAN", "SCRIPT", "EVENTS"], "events": ["FILE"]}
# The options of a command but those of help, with the values that they take.
OPTIONS = {"plan": {"commands": ""}, "explain": {"at": "LINE:COLUMN", "turn": "N", "bounds": ""}, "response": {"every": "SERVICE=CYCLES", "within": "SERVICE=CYCLES"}}


FILES = {
    "straight.script": STRAIGHT_LINE,
    "cleared.script": CLEARED.encode(),
    # with a cycle less than it can take
    "greedy.script": STRAIGHT_LINE.replace(b"within 3", b"within 2"),
    "answers": ANSWERS,
    # at the limits of a text and of an event file, and above them
    "whole.text": b" " * 1_048_576,
    "long.text": b" " * 1_048_577,
    "whole.events": b" " * 16_777_216,
    "long.events": b" " * 16_777_217,
}


class CommandLines(Room):
    """Those of tests/command_lines.text, one after the other in one folder: inputs that are too long, help, and what is not below. The text has each line
    after '$ camac', then what the program writes to standard output, and its status. Standard input is the straight-line script where a line has '@in' for
    a script, and else empty."""

    def setUp(self):
        super().setUp()
        shutil.copy(TOP / "examples/sample_plan.toml", self.room)
        for name, data in FILES.items():
            (self.room / name).write_bytes(data)

    def played(self, line):
        given = STRAIGHT_LINE if line.split().count("@in") == 1 else b""
        status, out, _ = self.call(*line.split(), given=given)
        return f"$ camac {line}\n{out.decode()}status {status}\n"

    def test_each(self):
        text = (TOP / "tests/command_lines.text").read_text()
        parts = re.split(r"^(?=\$ camac )", text, flags=re.MULTILINE)[1:]
        self.assertEqual(len(parts), 29)
        for part in parts:
            line = part.partition("\n")[0].removeprefix("$ camac ")
            with self.subTest(line):
                self.assertEqual(self.played(line), part)


class WorkedRow(Case):
    """The straight-line script, byte for byte."""

    def test_check(self):
        self.assertEqual(self.call("check", "@sample", "@in", given=STRAIGHT_LINE), (0, VERDICT, b""))
        self.assertEqual(self.call("check", "plan.toml", "straight.script"), (0, VERDICT, b""))
        self.assertEqual(self.call("check", "--", "@sample", "straight.script"), (0, VERDICT, b""))

    def test_run(self):
        self.assertEqual(self.call("run", "@sample", "straight.script", "answers", "run.events"), (0, LISTING, b""))
        self.assertEqual(self.file("run.events"), EVENT_FILE)
        self.assertEqual(self.call("run", "plan.toml", "straight.script", "@in", "run.events", given=ANSWERS), (0, LISTING, b""))
        self.assertEqual(self.file("run.events"), EVENT_FILE)

    def test_events(self):
        listed = b"event 1 gl 3 cycles 3 missed 0 words 1 000fff\nevents 1\n"
        self.assertEqual(self.call("events", "@in", given=EVENT_FILE), (0, listed, b""))
        listed = b"event 1 gl 3 words 1 000fff\nevents 1\n"
        self.assertEqual(self.call("events", "@in", given=EVENT_FILE_ONE), (0, listed, b""))

    def test_plan(self):
        listed = b"buffer 4096\ntype ADC commands 20 probes 4\ntype REG commands 4 probes 0\n"
        listed += b"crate 1 waits 2\nstation 5 ADC gl 3\nstation 6 REG gl -\n"
        for words, given in ((["@sample"], b""), (["plan.toml"], b""), (["@in"], self.file("plan.toml"))):
            self.assertEqual(self.call("plan", *words, given=given), (0, listed, b""), words)

    def test_sample_text(self):
        written = (TOP / "crates/camac_laws/specs/SampleText.antt").read_text()
        said = "".join(json.loads(f'"{line}"') for line in re.findall(r'codes "((?:[^"\\]|\\.)*)"', written))
        self.assertEqual(said, (TOP / "examples/sample_plan.toml").read_text())

    def test_refusals(self):
        script = STRAIGHT_LINE.replace(b"within 3", b"within 2")
        refusal = b"refused E12 line 3: more cycles than annotated\n"
        self.assertEqual(self.call("check", "@sample", "@in", given=script), (1, refusal, b""))
        self.assertEqual(self.call("plan", "@in", given=b"=\n"), (1, b"refused P1: not TOML\n", b""))
        self.assertEqual(self.call("events", "@in", given=EVENT_FILE[:7]), (1, b"refused V1 byte 0: header\n", b""))
        given = DEMAND + b"1 1 fffffff 0 000000\n"
        listed = b"demand 000004 adc\nrefused A1 line 2: line shape\n"
        where = b"  @in: column 11: found `f`; expected a space: `x q word wait gl`, as `1 1 123fff 0 000004`\n"
        self.assertEqual(self.call("run", "@sample", "straight.script", "@in", "e", given=given), (1, listed, where))
        given = DEMAND + b"1 1 123fff 3 000000\n"
        listed = b"demand 000004 adc\noverrun 1 wait 3 events 0\n"
        self.assertEqual(self.call("run", "@sample", "straight.script", "@in", "e", given=given), (1, listed, b""))

    def test_answers_run_out(self):
        """Their end begins an event file, too."""
        for given, listed in ((b"", b"ended events 0\n"), (DEMAND, b"demand 000004 adc\nshort events 0\n")):
            self.assertEqual(self.call("run", "@sample", "straight.script", "@in", "e", given=given), (0, listed, b""))
            self.assertEqual(self.file("e"), b"CAMACEV2")
            (self.room / "e").unlink()


class Usage(Case):
    """Words that are not understood: status 2, a text on standard error, nothing on standard output."""

    def test_words_that_clap_refuses(self):
        tried = [[], ["chekc"], ["--frob"], ["plan"], ["check", "@sample"], ["run", "a", "b", "c"], ["drive", "a", "b"], ["events"]]
        tried += [["plan", "a", "b"], ["plan", "--commands"], ["plan", "a", "--commands=x"], ["explain"], ["explain", "a", "b", "c"], ["events", "a", "b"], ["check", "a", "b", "c"], ["plan", "--frob"], ["plan", "--version"]]
        tried += [["run", "a", "b", "c", "d", "e"], ["drive", "a", "b", "c", "d"]]
        for words in tried:
            status, out, err = self.call(*words)
            self.assertEqual((status, out), (2, b""), words)
            self.assertIn(b"error: ", err, words)
            self.assertIn(b"Usage: camac", err, words)

    def test_standard_input_twice(self):
        for words in ("check @in @in", "explain @in @in", "bounds @in @in", "costs @in @in", "tell @in @in", "response @in @in", "run @in @in a e", "run @in s @in e", "run @sample @in @in e", "run @in @in @in e", "drive @in s e", "drive @sample @in e"):
            self.assertEqual(self.call(*words.split()), (2, b"", TWICE), words)
            self.assertFalse((self.room / "e").exists())

    def test_words_of_response(self):
        """Wrong words are refused before a file is read; a service that is not there, once the script is accepted."""
        form = b"error: invalid value '%s' for '--%s <SERVICE=CYCLES>': CYCLES is a whole number of dataway cycles, as in 'adc=200'\n"
        for words, told in [
            ("none none --every adc", form % (b"adc", b"every")),
            ("none none --every adc=0", form % (b"adc=0", b"every")),
            ("none none --within =3", form % (b"=3", b"within")),
            ("none none --within adc=+3", form % (b"adc=+3", b"within")),
            ("none none --within adc=4294967296", form % (b"adc=4294967296", b"within")),
            ("none none --every adc=3=4", form % (b"adc=3=4", b"every")),
            ("none none --within adc=3 --every adc=3 --within b=1 --within adc=4", b"fault --within adc twice\n"),
            ("none none --within a=1 --within a=1 --every a=1 --every a=2", b"fault --every a twice\n"),
            ("@sample straight.script --within adc=3 --within nobody=3", b"fault --within nobody: no such service\n"),
            ("@sample straight.script --within nobody=3 --every none=3", b"fault --every none: no such service\n"),
        ]:
            status, out, err = self.call("response", *words.split())
            self.assertEqual((status, out, err.startswith(told)), (2, b"", True), (words, err))
            self.assertTrue(err == told or err.endswith(b"Usage: camac response [OPTIONS] <PLAN> <SCRIPT>\n\nFor more information, try '--help'.\n"), err)

    def test_words_of_explain(self):
        """A word of a letter and digits that is no code, and a place that is none, are told before a file is read."""
        for word in ("E19", "E20", "E22", "P10", "S0", "L5", "A3", "v8", "W99", "G1", "e19", "E012", "E1234567890"):
            self.assertEqual(self.call("explain", word), (2, b"", f"fault {word}: no such code\n".encode()))
        for word in ("E", "E12x", "12", "./E12"):
            self.assertEqual(self.call("explain", word), (3, b"", lacks(word)))
        self.assertEqual(self.call("explain", "E12", "@in", given=b""), (3, b"", lacks("E12")))
        for words in ("--at 3 none none", "--at 3:0 none none", "--at 0:1 none none", "--at +3:1 none none", "--at 3:1: none none", "--at 3:4294967296 none none", "--at 3:1 none", "--at 3:1 E12", "--bounds none", "--bounds E12", "--bounds --at 3:1 none none", "--turn 1 none none", "--turn 1 none", "--turn 1 E12", "--turn 1 --bounds none none", "--at 3:1 --turn +1 none none", "--at 3:1 --turn x none none", "--at 3:1 --turn 4294967296 none none", "--at 3:1 --turn 1 --turn 1: none none"):
            status, out, err = self.call("explain", *words.split())
            self.assertEqual((status, out, err.partition(b"\n")[0]), (2, b"", b"error: '--at <LINE:COLUMN>' needs two numbers from 1, a plan and a script; '--turn <N>' needs a number and '--at'; '--bounds' needs a plan and a script"), words)
        self.assertEqual(self.call("explain", "--at", "3:1", "--turn", "4294967295", "--turn", "0", "none", "none"), (3, b"", lacks("none")))
        self.assertEqual(self.call("explain", "--at", "3:1", "@in", "@in"), (2, b"", TWICE))

    def test_standard_input_once(self):
        """These words are a job, which ends as its files do. The last word of run and drive is the name of an output."""
        for words in ("plan @in", "plan @in --commands", "explain @in", "check @in none", "check none @in", "run @in none none e", "run none @in none e", "run none none @in e", "run none none none @in", "run none none @in @in", "drive none none @in", "events @in"):
            status, _, err = self.call(*words.split())
            self.assertIn((status, err), [(0, b""), (1, b""), (3, lacks("none"))], words)

    def test_words_of_outputs_are_file_names(self):
        self.assertEqual(self.call("run", "@sample", "straight.script", "@in", "@in", given=ANSWERS), (0, LISTING, b""))
        self.assertEqual(self.file("@in"), EVENT_FILE)
        self.assertEqual(self.call("check", "@sample", "@sample"), (3, b"", lacks("@sample")))
        self.assertEqual(self.call("events", "@sample"), (3, b"", lacks("@sample")))

    def test_arguments_that_are_no_text(self):
        status, out, err = self.call(b"plan", b"\xff\xfe")
        self.assertEqual((status, out), (2, b""))
        self.assertEqual(err.count(b"\n"), 1)


class Help(Case):
    def help(self, *words):
        status, out, err = self.call(*words)
        self.assertEqual((status, err), (0, b""), words)
        return out.decode()

    def test_each_subcommand_and_its_words(self):
        for name, words in WORDS.items():
            text = self.help(name, "--help")
            named = [it if it.startswith("[") else f"<{it}>" for it in words]
            self.assertIn(" ".join([f"Usage: camac {name}", *["[OPTIONS]"] * (name in OPTIONS), *named]) + "\n", text)
            self.assertEqual(text, self.help("help", name))
            self.assertEqual(text, self.help(name, "-h"))
            for word in words:
                self.assertRegex(text, rf"(?m)^  [<[]{re.escape(word.strip('[]'))}[]>] +[A-Z][^\n]{{10}}", "a word without a text")
            for option, value in OPTIONS.get(name, {}).items():
                self.assertRegex(text, rf"(?m)^ +--{option}{value and f' <{value}>'} +[A-Z][^\n]{{10}}", "an option without a text")
            self.assertEqual("@sample" in text, words[0].startswith("PLAN"))
            self.assertEqual("@in" in text, name != "drive", "the answers of drive are standard input")
            self.assertIn("Examples:\n", text)
            self.assertIn(f"  camac {name} ", text.partition("Examples:")[2])

    def test_what_help_says_of_answers_and_events(self):
        text = self.help("run", "--help")
        self.assertIn("'x q word wait gl'", text)
        self.assertIn("one hexadecimal digit", text)
        self.assertIn("six hexadecimal digits", text)
        self.assertIn("an older one is replaced once the first answer is good", text)
        self.assertIn("nothing is sent to any hardware", text)

    def test_the_program(self):
        text = self.help("--help")
        self.assertEqual(text, self.help("-h"))
        self.assertEqual(text, self.help("help"))
        self.assertEqual([*subcommands(text)], [*WORDS, "help"])

    def test_the_lines_are_not_long(self):
        for words in ([], *[[it] for it in WORDS]):
            for line in self.help(*words, "--help").splitlines():
                self.assertLessEqual(len(line), 100, line)


class Version(Case):
    def test_the_version_is_one(self):
        for word in ("--version", "-V"):
            self.assertEqual(self.call(word), (0, b"camac 0.2.0\n", b""))

    def test_pages_have_that_version(self):
        version = self.call("--version")[1].decode().split()[1]
        self.assertEqual(re.search(r"(?m)^## (\S+)", (TOP / "CHANGELOG.md").read_text())[1], version)
        self.assertIn(f"\n.Os camac {version}\n", (TOP / "man/camac.1").read_text())
        self.assertEqual(json.loads((TOP / "editors/vscode/package.json").read_text())["version"], version)
        self.assertIn(f"\n;; Version: {version}\n", (TOP / "editors/emacs/camac-mode.el").read_text())


class Files(Case):
    """Missing files, folders in their place, inputs that are too long."""

    def test_inputs_that_lack(self):
        for words in (["plan", "none"], ["check", "none", "straight.script"], ["check", "@sample", "none"], ["costs", "@sample", "none"], ["events", "none"]):
            self.assertEqual(self.call(*words), (3, b"", lacks("none")), words)
        for words in (["none", "straight.script", "answers"], ["@sample", "none", "answers"], ["@sample", "straight.script", "none"]):
            self.assertEqual(self.call("run", *words, "e"), (3, b"", lacks("none")), words)
            self.assertFalse((self.room / "e").exists(), words)
        for words in (["none", "2", "3"], ["@sample", "none", "3"]):
            self.assertEqual(self.call("run", *words, "e"), (3, b"", lacks("none")), words)

    def test_events_that_cannot_be_made(self):
        for name, why in (("none/e", errno.ENOENT), (".", errno.EISDIR), ("straight.script/e", errno.ENOTDIR)):
            self.assertEqual(self.call("run", "@sample", "straight.script", "answers", name), (3, b"", unwritten(why, name)), name)

    def test_folders_as_inputs(self):
        told = fault("read", ".", errno.EISDIR)
        for words in (["plan", "."], ["check", "@sample", "."], ["costs", "@sample", "."], ["events", "."], ["run", "@sample", "straight.script", ".", "e"]):
            self.assertEqual(self.call(*words), (3, b"", told), words)
        self.assertFalse((self.room / "e").exists())

    def test_events_is_made_once_the_first_answer_is_good(self):
        """Where plan, script or first answer is refused or not read, an older event file is as it was, and none is made."""
        refused = (
            (["@sample", "@in", "answers"], b"!", b"refused S1 line 1: bad byte\n"),
            (["@in", "straight.script", "answers"], b"buffer = 0", b"refused P4: value out of range\n"),
            (["@sample", "straight.script", "@in"], b"!\n" + ANSWERS, b"refused A1 line 1: line shape\n"),
            (["@sample", "straight.script", "@in"], DEMAND.replace(b"4", b"G"), b"refused A2 line 1: bad digit\n"),
        )
        unread = ["@sample", "straight.script", "."], fault("read", ".", errno.EISDIR)
        for there in (None, EVENT_FILE):
            for words, given, line in refused:
                self.assertEqual(self.call("run", *words, "e", given=given)[:2], (1, line))
            self.assertEqual(self.call("run", *unread[0], "e"), (3, b"", unread[1]))
            self.assertEqual(self.file("e") if (self.room / "e").exists() else None, there)
            (self.room / "e").write_bytes(EVENT_FILE)

    def test_inputs_that_are_too_long(self):
        text = b" " * 1_048_577
        self.assertEqual(self.call("plan", "@in", given=text), (3, b"", TOO_LONG))
        self.assertEqual(self.call("check", "@sample", "@in", given=text), (3, b"", TOO_LONG))
        self.assertEqual(self.call("check", "@sample", "@in", given=text[1:]), (0, b"accepted\n", b""))
        self.assertEqual(self.call("plan", "@in", given=text[1:]), self.call("plan", "@in"))
        for words in (["@in", "straight.script", "answers"], ["@sample", "@in", "answers"]):
            self.assertEqual(self.call("run", *words, "e", given=text), (3, b"", TOO_LONG))
            self.assertFalse((self.room / "e").exists())
        self.assertEqual(self.call("events", "@in", given=EVENT_FILE + bytes(16_777_217 - 28)), (3, b"", TOO_LONG))
        given = EVENT_FILE + bytes(16_777_216 - 28)
        self.assertEqual(self.call("events", "@in", given=given), (1, b"refused V2 byte 28: marker\n", b""))

    def test_endless_inputs(self):
        """One byte past the limit is read, and no end of the input is waited for."""
        for words, limit in (("plan @in", 1 << 20), ("check @sample @in", 1 << 20), ("run @sample @in answers e", 1 << 20), ("events @in", 1 << 24)):
            piped = {it: subprocess.PIPE for it in ("stdin", "stdout", "stderr")}
            with subprocess.Popen([PROGRAM, *words.split()], cwd=self.room, **piped) as ran:
                ran.stdin.write(b" " * (limit + 1))
                ran.stdin.flush()
                self.assertEqual((ran.wait(60), ran.stdout.read(), ran.stderr.read()), (3, b"", TOO_LONG), words)

    def test_endless_answers(self):
        (self.room / "answers").write_bytes(b"0 0 000000 0 000000\n" * 1_000_001)
        status, out, err = self.call("run", "@sample", "straight.script", "answers", "e")
        self.assertEqual((status, err, self.file("e")), (1, b"", b"CAMACEV2"))
        self.assertTrue(out == b"demand 000000 -\n" * 1_000_000 + b"refused A4 line 1000001: too many answers\n")

    def test_files_of_the_shell(self):
        line = '"$camac" check <(cat plan.toml) <(cat straight.script)'
        self.assertEqual(self.shell(line), (0, VERDICT, b""))
        line = '"$camac" run <(cat plan.toml) <(cat straight.script) <(cat answers) e'
        self.assertEqual(self.shell(line), (0, LISTING, b""))


class Streams(Case):
    """Streams that are closed or full, and pipes."""

    def test_closed_streams(self):
        self.assertEqual(self.shell('"$camac" check @sample @in <&-'), (3, b"", fault("read", "@in", CLOSED)))
        self.assertEqual(self.shell('"$camac" plan @sample >&-'), (3, b"", unwritten(errno.EBADF)))
        self.assertEqual(self.shell('"$camac" plan @in 2>&- <&-'), (3, b"", b""))
        self.assertEqual(self.shell('"$camac" 2>&-'), (2, b"", b""))
        self.assertEqual(self.shell('"$camac" plan @sample <&- >&- 2>&-'), (3, b"", b""))
        self.assertEqual(self.shell('"$camac" check @sample straight.script <&-'), (0, VERDICT, b""))

    def test_no_file_takes_the_place_of_a_closed_stream(self):
        closed = (3, b"", fault("read", "@in", CLOSED))
        self.assertEqual(self.shell('"$camac" check plan.toml @in <&-'), closed)
        self.assertEqual(self.shell('"$camac" run plan.toml @in answers e <&-'), closed)
        self.assertFalse((self.room / "e").exists())
        self.assertEqual(self.shell('"$camac" run plan.toml straight.script @in e <&-'), closed)
        self.assertFalse((self.room / "e").exists())
        self.assertEqual(self.shell('"$camac" run plan.toml straight.script answers e >&-'), (3, b"", unwritten(errno.EBADF)))
        self.assertEqual(self.file("e"), b"CAMACEV2")
        for streams in ("2>&-", "<&- 2>&-", ">&- 2>&-", "<&- >&- 2>&-"):
            self.assertEqual(self.shell(f'"$camac" run plan.toml straight.script . e {streams}')[0], 3)
            self.assertEqual(self.file("e"), b"CAMACEV2")
            self.assertEqual(self.file("answers"), ANSWERS)
        self.assertEqual(self.shell('"$camac" run plan.toml straight.script answers e <&- 2>&-'), (0, LISTING, b""))
        self.assertEqual(self.file("e"), EVENT_FILE)

    def test_help_that_cannot_be_written(self):
        for words in ("--help", "-h", "help", "plan --help", "check --help", "explain --help", "bounds --help", "costs --help", "tell --help", "run --help", "events --help", "--version"):
            self.assertEqual(self.shell(f'"$camac" {words} >/dev/full'), (3, b"", FULL), words)
            self.assertEqual(self.shell(f'"$camac" {words} >&-'), (3, b"", unwritten(errno.EBADF)), words)
        self.assertEqual(self.shell('"$camac" --frob 2>/dev/full'), (2, b"", b""))

    def test_full_device(self):
        (self.room / "one.events").write_bytes(EVENT_FILE)
        for words in ("plan @sample", "check @sample straight.script", "costs @sample straight.script", "tell @sample straight.script", "events @in <<<x", "events @in <one.events", "run @sample straight.script answers e"):
            self.assertEqual(self.shell(f'"$camac" {words} >/dev/full'), (3, b"", FULL), words)
        self.assertEqual(self.file("e"), b"CAMACEV2")
        self.assertEqual(self.call("run", "@sample", "straight.script", "answers", "/dev/full"), (3, b"", unwritten(errno.ENOSPC, "/dev/full")))

    def test_reader_of_a_pipe_is_gone(self):
        """That is no fault to speak of."""
        self.assertEqual(self.shell('{ sleep 0.1; "$camac" --help; echo $? >status; } | true'), (0, b"", b""))
        self.assertEqual(self.file("status"), b"141\n")
        run = '{ "$camac" run @sample straight.script @in e; echo $? >status; }'
        line = f'yes "1 1 000001 0 000004" | head -n 100000 | {run} | head -n 1'
        self.assertEqual(self.shell(line)[1:], (b"demand 000004 adc\n", b""))
        self.assertEqual(self.file("status"), b"141\n")
        line = 'mkfifo p; head -c 8 p >header & yes "1 1 000001 0 000004" | head -n 100000 | "$camac" run @sample straight.script @in p >listing'
        self.assertEqual(self.shell(line), (141, b"", b""))
        for words in ("plan @sample", "check @sample straight.script", "costs @sample straight.script", "response @sample straight.script"):
            self.assertEqual(self.shell(f'{{ sleep 0.1; "$camac" {words}; echo $? >status; }} | true'), (0, b"", b""), words)
            self.assertEqual(self.file("status"), b"141\n", words)

    def until(self, name, wanted):
        """Waits for a file to hold this."""
        limit = time.monotonic() + 10
        while not ((self.room / name).exists() and self.file(name) == wanted) and time.monotonic() < limit:
            time.sleep(0.01)
        self.assertEqual(self.file(name), wanted)

    def test_all_is_handed_on_before_an_answer_is_waited_for(self):
        words = [PROGRAM, "run", "@sample", "straight.script", "@in", "e"]
        lines = LISTING.splitlines(True)[:-1]
        with subprocess.Popen(words, stdin=subprocess.PIPE, stdout=subprocess.PIPE, bufsize=0, cwd=self.room) as ran:
            # many services at once, and the begin of an answer that comes later
            ran.stdin.write(ANSWERS * 100 + ANSWERS[:10])
            told = b"".join(ran.stdout.readline() for _ in range(100 * len(lines)))
            self.assertEqual(told, b"".join(lines) * 100)
            self.until("e", b"CAMACEV2" + b"".join(self.record(number) for number in range(1, 101)))
            self.assertEqual(select.select([ran.stdout], [], [], 0.1)[0], [])
            ran.stdin.write(ANSWERS[10:])
            self.assertEqual(b"".join(ran.stdout.readline() for _ in lines), b"".join(lines))
            ran.stdin.close()
            self.assertEqual(ran.stdout.read(), b"ended events 101\n")
        self.assertEqual(ran.returncode, 0)

    def record(self, number):
        """The record of this service with another number."""
        return EVENT_FILE[8:12] + number.to_bytes(4, "big") + EVENT_FILE[16:]

    def test_an_output_fails_before_an_answer_is_waited_for(self):
        """The program ends though its answers do not, and nothing more is written."""
        first, rest = ANSWERS.splitlines(True)[0], b"".join(ANSWERS.splitlines(True)[1:])
        piped = {"stdin": subprocess.PIPE, "stderr": subprocess.PIPE, "bufsize": 0, "cwd": self.room}
        words = [PROGRAM, "run", "@sample", "straight.script", "@in"]
        with subprocess.Popen([*words, "e"], stdout=subprocess.PIPE, **piped) as ran:
            ran.stdin.write(first)
            self.assertEqual(ran.stdout.readline(), LISTING.splitlines(True)[0])
            ran.stdout.close()
            ran.stdin.write(rest)
            self.assertEqual((ran.wait(10), ran.stderr.read()), (141, b""))
        self.assertEqual(self.file("e"), b"CAMACEV2")
        with open("/dev/full", "wb") as full, subprocess.Popen([*words, "e"], stdout=full, **piped) as ran:
            ran.stdin.write(first)
            self.assertEqual((ran.wait(10), ran.stderr.read()), (3, FULL))
        self.assertEqual(self.file("e"), b"CAMACEV2")
        with subprocess.Popen([*words, "/dev/full"], stdout=subprocess.PIPE, **piped) as ran:
            ran.stdin.write(first)
            self.assertEqual((ran.wait(10), ran.stdout.read(), ran.stderr.read()), (3, b"", unwritten(errno.ENOSPC, "/dev/full")))

    def test_an_output_fails_at_the_end(self):
        words = '"$camac" run @sample'
        (self.room / "bad.script").write_bytes(b"!")
        self.assertEqual(self.shell(f"{words} bad.script answers e >/dev/full"), (3, b"", FULL))
        self.assertFalse((self.room / "e").exists())
        self.assertEqual(self.shell(f'{words} straight.script /dev/null e >/dev/full'), (3, b"", FULL))
        self.assertEqual(self.file("e"), b"CAMACEV2")


class Kept(Case):
    """What a run must not destroy: its inputs, and what standard output goes to."""

    def refused(self, words, **how):
        """Where EVENTS is one of these, nothing is written anywhere."""
        before = {it.name: it.read_bytes() for it in self.room.iterdir()}
        self.assertEqual(self.call("run", *words, **how), (3, b"", unwritten("it is an input", words[-1])), words)
        self.assertEqual({it.name: it.read_bytes() for it in self.room.iterdir()}, before, words)

    def test_events_is_an_input(self):
        for name in ("plan.toml", "straight.script", "answers"):
            (self.room / f"hard.{name}").hardlink_to(self.room / name)
            (self.room / f"soft.{name}").symlink_to(self.room / name)
            for events in (name, f"./{name}", str(self.room / name), f"hard.{name}", f"soft.{name}"):
                self.refused(["plan.toml", "straight.script", "answers", events])
        self.refused(["@sample", "straight.script", "answers", "straight.script"])

    def test_events_is_behind_standard_input(self):
        for words in (["@in", "straight.script", "answers"], ["plan.toml", "@in", "answers"], ["plan.toml", "straight.script", "@in"]):
            name = ("plan.toml", "straight.script", "answers")[words.index("@in")]
            with open(self.room / name, "rb") as file:
                self.refused([*words, f"./{name}"], given=None, stdin=file)

    def test_events_of_a_live_run_is_an_input(self):
        before = {it.name: it.read_bytes() for it in self.room.iterdir()}
        for events in ("plan.toml", "straight.script"):
            self.assertEqual(self.call("drive", "plan.toml", "straight.script", events, given=ANSWERS), (3, b"", unwritten("it is an input", events)), events)
        with open(self.room / "answers", "rb") as file:
            self.assertEqual(self.call("drive", "plan.toml", "straight.script", "answers", given=None, stdin=file), (3, b"", unwritten("it is an input", "answers")))
        self.assertEqual({it.name: it.read_bytes() for it in self.room.iterdir()}, before)

    def test_events_is_standard_output(self):
        (self.room / "soft").symlink_to(self.room / "e")
        for name in ("e", "soft", "/dev/stdout", "/proc/self/fd/1"):
            line = f'"$camac" run plan.toml straight.script answers {name} >>e'
            (self.room / "e").write_bytes(EVENT_FILE)
            self.assertEqual(self.shell(line), (3, b"", unwritten("it is standard output", name)), name)
            self.assertEqual(self.file("e"), EVENT_FILE, name)

    def test_events_is_a_pipe_or_a_terminal_of_an_output(self):
        """Bytes of the event file would be among the lines. The null device keeps neither."""
        os.mkfifo(self.room / "pipe")
        for command in ("run plan.toml straight.script answers", "drive plan.toml straight.script"):
            for events, how in (("/dev/stdout", "| cat"), ("/proc/self/fd/1", "| cat"), ("pipe", ">pipe & cat pipe; wait $!")):
                line = f'set -o pipefail; "$camac" {command} {events} <answers {how}'
                self.assertEqual(self.shell(line), (3, b"", unwritten("it is standard output", events)), line)
            self.assertEqual(self.shell(f'"$camac" {command} /dev/stderr <answers 2>&1 >out | cat'), (0, unwritten("it is standard error", "/dev/stderr"), b""))
            self.assertEqual(self.file("out"), b"")
            ends = os.openpty()
            for events in ("/dev/stdout", os.ttyname(ends[1])):
                told = self.call(*command.split(), events, given=ANSWERS, stdout=ends[1])
                self.assertEqual(told, (3, None, unwritten("it is standard output", events)), command)
            for end in ends:
                os.close(end)
            self.assertEqual(self.shell(f'"$camac" {command} /dev/null <answers >/dev/null 2>/dev/null'), (0, b"", b""))

    def test_events_is_standard_error(self):
        """A fault that is written there would be in the event file."""
        for command, there in (("run plan.toml straight.script answers", EVENT_FILE), ("drive plan.toml straight.script", b"")):
            for name in ("e", "soft", "/dev/stderr", "/proc/self/fd/2"):
                (self.room / "soft").unlink(missing_ok=True)
                (self.room / "soft").symlink_to(self.room / "e")
                (self.room / "e").write_bytes(there)
                self.assertEqual(self.shell(f'"$camac" {command} {name} 2>>e <answers'), (3, b"", b""), (command, name))
                self.assertEqual(self.file("e"), there + unwritten("it is standard error", name), (command, name))

    def test_events_of_a_live_run_is_a_standard_stream(self):
        """An empty file is taken, but not where a standard stream is it."""
        for redirect in (">>e", "2>>e"):
            (self.room / "e").write_bytes(b"")
            self.assertEqual(self.shell(f'"$camac" drive plan.toml straight.script e {redirect} <answers')[0], 3, redirect)
        (self.room / "none").write_bytes(b"")
        with open(self.room / "none", "rb") as file:
            self.assertEqual(self.call("drive", "plan.toml", "straight.script", "none", given=None, stdin=file), (3, b"", unwritten("it is an input", "none")))

    def test_events_that_is_no_file(self):
        self.assertEqual(self.call("run", "@sample", "straight.script", "answers", "/dev/null"), (0, LISTING, b""))
        line = 'mkfifo pipe; "$camac" run plan.toml straight.script answers pipe >/dev/null & cat pipe; wait $!'
        self.assertEqual(self.shell(line), (0, EVENT_FILE, b""))

    def test_an_older_event_file_is_replaced(self):
        """One of either version, also a longer one that is no longer whole, and an empty file."""
        for there in (EVENT_FILE_ONE, EVENT_FILE, EVENT_FILE * 1000, EVENT_FILE[:8], b"CAMACEV1", b""):
            (self.room / "e").write_bytes(there)
            self.assertEqual(self.call("run", "@sample", "straight.script", "answers", "e"), (0, LISTING, b""))
            self.assertEqual(self.file("e"), EVENT_FILE)

    def test_no_other_file_is_replaced(self):
        """Whatever is typed for EVENTS, a file that does not begin as an event file stays."""
        (self.room / "old.events").write_bytes(EVENT_FILE)
        others = {"notes.md": b"# Notes\n", "README": b"CAMAC crates of hall 2\n", "cut": b"CAMAC", "almost": b"CAMACEV", "three": b"CAMACEV3", "later": b" " + EVENT_FILE, "night": ANSWERS}
        for name, text in others.items():
            (self.room / name).write_bytes(text)
            self.assertEqual(self.call("run", "plan.toml", "straight.script", "answers", name), (3, b"", unwritten("it is no event file", name)))
            self.assertEqual(self.file(name), text)
        # the last two words exchanged
        self.assertEqual(self.call("run", "plan.toml", "straight.script", "old.events", "night")[:2], (1, b"refused A1 line 1: line shape\n"))
        self.assertEqual((self.file("night"), self.file("old.events")), (ANSWERS, EVENT_FILE))
        self.assertEqual(self.call("run", "plan.toml", "straight.script", "@in", "night"), (3, b"", unwritten("it is no event file", "night")))


def subcommands(help_text):
    """What help says of each command, by its name."""
    part = help_text.partition("\nCommands:\n")[2].partition("\n\n")[0]
    return dict(re.findall(r"(?m)^  (\w+) +(.*)$", part))


def options(help_text):
    """What help says of each option, by its names."""
    part = help_text.partition("\nOptions:\n")[2].partition("\n\n")[0]
    return {(short, long): said for short, long, said in re.findall(r"(?m)^  -(\w), --([\w-]+) +(.*)$", part)}


class Pages(Case):
    """The manual page, the completions and the editors' files, compared with the program and with the language."""

    def setUp(self):
        super().setUp()
        self.help = self.call("--help")[1].decode()

    def test_manual_page(self):
        page = (TOP / "man/camac.1").read_text()
        plain = " ".join(page.split())
        for name, said in subcommands(self.help).items():
            if name != "help":
                words = [f"Op Ar {it[1:-1]}" if it.startswith("[") else f"Ar {it}" for it in WORDS[name]]
                flags = [f"Fl -{it}{value and f' Ar {value}'}" for it, value in OPTIONS.get(name, {}).items()]
                inline = [f"Oo {it} Oc" if "Ar" in it else f"Op {it}" for it in flags]
                self.assertIn(f"\n.It Cm {name} " + " ".join([*words, *inline]) + "\n", page)
                self.assertIn(f"\n.Cm {name}\n" + "".join(f".{it}\n" for it in [*words, *(f"Op {it}" for it in flags)]), page)
                self.assertIn(said, plain)
        for short, long in options(self.help):
            self.assertIn(f"\n.It Fl {short} , Fl -{long}\n", page)

    def test_bash(self):
        text = (TOP / "completions/camac.bash").read_text()
        offered = [set(it.split()) for it in re.findall(r"offered='([^']*)'", text)]
        names = {f"-{short}" for short, _ in options(self.help)} | {f"--{long}" for _, long in options(self.help)}
        self.assertIn({*subcommands(self.help), *names}, offered)
        self.assertIn({*subcommands(self.help)}, offered)
        self.assertIn({"-h", "--help"}, offered)
        for names in OPTIONS.values():
            self.assertIn({"-h", "--help", *[f"--{it}" for it in names]}, offered)

    def test_zsh(self):
        text = (TOP / "completions/_camac").read_text()
        self.assertEqual(dict(re.findall(r"(?m)^    '(\w+):(.*)'$", text)), subcommands(self.help))
        said = dict(re.findall(r'(-[\w-]+)\\:"([^"]*)"', text))
        self.assertEqual(said, {name: it for (short, long), it in options(self.help).items() for name in (f"-{short}", f"--{long}")})
        for name, words in WORDS.items():
            line = re.search(rf"(?m)^    {name}\) _arguments (.*);;$", text)[1]
            self.assertEqual([f"[{it}]" if colon else it for colon, it in re.findall(r"':(:?)([A-Z|]+):", line)], words)
            self.assertEqual(re.findall(r"'\*?--(\w+)\[", line), [*OPTIONS.get(name, [])])

    def test_fish(self):
        text = (TOP / "completions/camac.fish").read_text()
        self.assertEqual(dict(re.findall(r"(?m)^complete -c camac -n __fish_use_subcommand -a (\w+) -d '(.*)'$", text)), subcommands(self.help))
        found = {(short, long): said for short, long, said in re.findall(r"-s (\w) -l ([\w-]+) -d '(.*)'$", text, re.M)}
        self.assertEqual(found, options(self.help))
        for name, names in OPTIONS.items():
            self.assertEqual(re.findall(rf"__fish_seen_subcommand_from {name}' -l (\w+) -d ", text), [*names])
        self.assertIn("@sample", text)
        self.assertIn("@in", text)

    def test_words_of_the_language(self):
        words = keywords()
        self.assertEqual(len(words), 47)
        vim = re.findall(r"(?m)^syntax keyword camac(?!Todo)\w+ (.*)$", (TOP / "editors/vim/syntax/camac.vim").read_text())
        grammar = json.loads((TOP / "editors/vscode/syntaxes/camac.tmLanguage.json").read_text())
        code = re.findall(r"\\b\(\?:([\w|]+)\)\\b", " ".join(it["match"] for it in grammar["patterns"]))
        emacs = (TOP / "editors/emacs/camac-mode.el").read_text().partition("(defvar")[0]
        page = re.search(r"as its name:\n\n((?:    .*\n)+)", (TOP / "docs/LANGUAGE.md").read_text())[1]
        self.assertEqual(sorted(" ".join(vim).split()), sorted(words))
        self.assertEqual(sorted("|".join(code).split("|")), sorted(words))
        self.assertEqual(sorted(re.findall(r'"(\w+)"', "".join(re.findall(r"'\(([^)]*)\)", emacs)))), sorted(words))
        kate = re.findall(r"<item>(\w+)</item>", (TOP / "editors/kate/camac.xml").read_text())
        for listed in (kate, camac.language.WORDS, [it.decode() for it in oracle.reader.tokens.KEYWORDS]):
            self.assertEqual(sorted(listed), sorted(words))
        code = (TOP / "crates/camac_text_cursor/src/choice.rt").read_text()
        for wanted, kind in ((camac.language.DECLARATIONS | {"table"}, "Declaration"), (camac.language.STATEMENTS - {"lock"}, "Statement")):
            found = re.search(rf"Choice::{kind} => matches!\((.*?)\),", code, re.S)[1]
            self.assertEqual({it.lower() for it in re.findall(r"Keyword::(\w+)", found)}, wanted)
        self.assertEqual(page.split(), words)


if __name__ == "__main__":
    run_tests()
