#!/usr/bin/env python3
"""Tests of the files that commands write: whatever is at the place, nothing of the user's is lost or half there.

usage: tests/output_test.py [-v] [TEST ..]     from any folder, over a built program; takes half a minute

`Written` has the commands in the table of docs/RUNNING.md, each beside each kind of place; `Outputs` what a shell can make of a place, by one of them.
"""
import os
import re
import shlex
import shutil
import stat
import struct
import subprocess
import sys
from typing import NamedTuple, Tuple

from support.live import PROGRAM, TOP, Case, run_tests
from support.needs import needed, skip
from support.program import ANSWERS, STRAIGHT_LINE

NIGHT_BEFORE = "$ of the night before\n"
HEAD = "number,operation,service,pattern,crate,station,sub_address,function,move,word,x,q,wait\n"


def event_file(count, words=1):
    """An event file, every word of an event its number."""
    return b"CAMACEV2" + b"".join(struct.pack(f">HHIIHH{words}I", 0xCA4D, 3, k, 5, 0, words, *[k] * words) for k in range(1, count + 1))


def listing(count):
    """A listing, and its table."""
    return "unlock 1\n" * count, HEAD + "".join(f"{k},unlock,,,1,,,,,,,,\n" for k in range(1, count + 1))


COMMAND = """
import sys
from camac.__main__ import main
sys.exit(main())
"""
RECORDED = """
import os, sys, camac
class Silent:
    def demand(self): return None
    def cycle(self): pass
    lock = unlock = cycle
try:
    camac.drive("@sample", "script", Silent(), "live.events", record=sys.argv[1])
except camac.ProgramFault as fault:
    print(f"camac: {fault}", file=sys.stderr)
    sys.exit(fault.status)
finally:
    os.path.exists("live.events") and os.remove("live.events")
"""
# Somebody writes at the place that is the first word, once a command has looked there and makes its new file.
SAVED = "saved meanwhile\n"
SAVES = f"""
import sys
from camac import output
place, make = sys.argv.pop(1), output.new_file
def make_later(folder, ending=""):
    if ending == ".new":
        with open(place, "a") as out:
            out.write({SAVED!r})
    return make(folder, ending)
output.new_file = make_later
"""
WIDE = STRAIGHT_LINE.decode().replace("within 3 cycles event 1", "within 30 cycles event 10")
KEEPS = """cdlam adc 1 1 5 12
var i k
service adc within 9 cycles event 9 words {
  for i = 1 to 2 {
    k = i
  }
  put k
}
"""
KEPT = KEEPS.replace("1 to 2 {", "1 to 2 each {").replace("within 9 cycles event 9", "within 0 cycles event 1")
SIMULATE = ("simulate", "@sample", "script", "--rate", "adc=9", "--cycle-us", "1", "--services", "9")


class Command(NamedTuple):
    """A command that writes a file: its words, in which OUT is the place; the file, if it has another name; the program, and of a script what it is
    before and after."""

    words: Tuple[str, ...]
    file: str = "OUT"
    program: str = COMMAND
    old: str = ""
    new: str = ""


COMMANDS = {
    "camac-check --write": Command(("check", "--write", "@sample", "OUT"), old=WIDE, new=STRAIGHT_LINE.decode()),
    "camac-check --keeps --write": Command(("check", "--keeps", "--write", "@sample", "OUT"), old=KEEPS, new=KEPT),
    "camac-fmt": Command(("fmt", "OUT"), old="var a  var b", new="var a\nvar b\n"),
    "camac-report -o": Command(("report", "@sample", "script", "answers", "-o", "OUT")),
    "camac-report --write-record": Command(("report", "@sample", "script", "answers", "-o", "page.html", "--write-record", "OUT")),
    "camac-survey -o": Command(("survey", "@sample", "--driver", "mock", "-o", "OUT")),
    "python3 -m camac draw -o": Command(("draw", "plan", "@sample", "-o", "OUT")),
    "python3 -m camac simulate -o": Command((*SIMULATE, "-o", "OUT")),
    "python3 -m camac simulate --events": Command((*SIMULATE, "--events", "OUT")),
    "python3 -m camac annotate -o": Command(("annotate", "@sample", "script", "answers", "-o", "OUT")),
    "python3 -m camac csv -o": Command(("csv", "listing", "run.listing", "-o", "OUT")),
    "python3 -m camac export -o": Command(("export", "run.events", "-o", "OUT.csv"), "OUT.events.csv"),
    "camac.drive(.., record=..)": Command(("OUT",), program=RECORDED),
}
# Commands of the program, which tests/program_test.py and tests/live_test.py try; and what writes as it goes, into what is there.
OF_PROGRAM, AS_IT_GOES = {"camac run", "camac drive"}, {"python3 -m camac simulate --events"}
SCRIPT, NOTHING, CHANGED = "the script that it read", "nothing that holds bytes", "the script changed while it was judged"
# By what a command may replace, as the page has it, why it leaves another file.
FOREIGN = "another command made it; --overwrite replaces it"
REASONS = {SCRIPT: CHANGED, NOTHING: "it holds bytes; ", "a record without times": "it holds bytes; "}


def table():
    """By command what it may replace, as the page has it."""
    page = (TOP / "docs/RUNNING.md").read_text().partition("\n## What is written over\n")[2].partition("\n## ")[0]
    return {name: replaced for name, replaced in re.findall(r"^\| `([^|]*)` \| `[^|]*` \| ([^|]*) \|$", page, re.M)}


class Called(Case):
    @classmethod
    def setUpClass(cls):
        """Python keeps what it compiles for all calls, and not in the sources."""
        how = {"PYTHONDONTWRITEBYTECODE": "", "PYTHONPYCACHEPREFIX": str(cls.shared())}
        cls.env = {**os.environ, "CAMAC_PROGRAM": PROGRAM, "PYTHONPATH": str(TOP / "python"), **how}

    def ran(self, words, **more):
        """Status, standard output and standard error."""
        ran = subprocess.run(words, cwd=self.room, env={**self.env, **more}, capture_output=True, text=True, timeout=60)
        return ran.returncode, ran.stdout, ran.stderr

    def text(self, name):
        return (self.room / name).read_text(errors="surrogateescape")

    def there(self):
        return sorted(it.name for it in self.room.iterdir())

    def mode(self, name):
        return stat.S_IMODE((self.room / name).lstat().st_mode)


class Written(Called):
    # Of each command what it may replace, and what it puts there, once that is known.
    known = {name: (it.old, it.new) for name, it in COMMANDS.items() if it.old}

    def setUp(self):
        super().setUp()
        (self.room / "script").write_bytes(STRAIGHT_LINE)
        (self.room / "answers").write_bytes(ANSWERS)
        (self.room / "run.events").write_bytes(event_file(3))
        self.write("run.listing", listing(3)[0])

    @staticmethod
    def words(command, out):
        return [sys.executable, "-c", command.program, *(it.replace("OUT", out) for it in command.words)]

    def each(self, but=frozenset()):
        """Each command: what it is, why it leaves another file, what it may replace at its file, and what it puts there."""
        for name, replaced in table().items():
            command = COMMANDS.get(name)
            if command is None or name in but:
                continue
            if name not in self.known:
                self.assertEqual(self.ran(self.words(command, "fresh"))[::2], (0, ""), name)
                new, made = (read(command.file.replace("OUT", "fresh")) for read in (self.timeless, self.text))
                self.known[name] = "" if replaced == NOTHING else made if "record" in name or "survey" in name else made[:56] + NIGHT_BEFORE, new
            yield command, REASONS.get(replaced, FOREIGN), *self.known[name]
            for it in {*self.room.iterdir()} - {self.room / name for name in ("script", "answers", "run.events", "run.listing")}:
                shutil.rmtree(it) if it.is_dir() and not it.is_symlink() else it.unlink()

    def timeless(self, file):
        """A text without the times that a record and a survey have."""
        return re.sub(r'"(at|begin|end|told|demands|services)": ("[^"]*"|[0-9.]+)', "", self.text(file))

    def refuse(self, words, file, reason):
        """A command ends with status 3, the name and the reason, and leaves no other file."""
        status, out, err = self.ran(words)
        self.assertEqual((status, reason in out + err, file in out + err), (3, True, True), out + err)
        self.assertEqual([*self.room.rglob("*.new")], [])

    def test_the_page_has_them_all(self):
        self.assertEqual({*table()}, {*COMMANDS, *OF_PROGRAM})
        self.assertEqual({name for name, it in table().items() if it == SCRIPT}, {name for name, it in COMMANDS.items() if it.old})
        self.assertEqual([table()[it] for it in sorted(OF_PROGRAM)], [NOTHING, "an event file"])

    def test_links(self):
        """What a link leads to is written, and the link stays. A file of two names keeps both, and its mode."""
        for command, _, old, new in self.each():
            with self.subTest(command.words):
                (self.room / "far").mkdir()
                self.write("far/there", old).chmod(0o604)
                os.link(self.room / "far/there", self.room / "other")
                link = self.room / command.file.replace("OUT", "to")
                link.symlink_to("far/there")
                self.assertEqual(self.ran(self.words(command, "to"))[::2], (0, ""))
                self.assertEqual((os.readlink(link), self.timeless("far/there"), self.text("other")), ("far/there", new, self.text("far/there")))
                self.assertEqual(((self.room / "other").stat().st_nlink, self.mode("other"), len([*(self.room / "far").iterdir()])), (2, 0o604, 1))

    def test_owners(self):
        """Another file comes to the place, with mode, owner and group of the old one."""
        owner = (65534, 65534) if not os.getuid() else (os.getuid(), os.getgid())
        for command, _, old, new in self.each(AS_IT_GOES):
            with self.subTest(command.words):
                file = self.write(command.file.replace("OUT", "out"), old)
                os.chown(file, *owner)
                file.chmod(0o640)
                with file.open() as before:
                    self.assertEqual(self.ran(self.words(command, "out"))[::2], (0, ""))
                    after = file.stat()
                    self.assertFalse(os.path.samestat(os.fstat(before.fileno()), after))
                self.assertEqual((self.timeless(file), self.mode(file), after.st_uid, after.st_gid), (new, 0o640, *owner))

    def test_owners_that_cannot_be_given(self):
        """The file of another user, who lets it be written, is written in place."""
        before = self.without("chown")
        for command, _, old, new in self.each():
            with self.subTest(command.words):
                file = self.write(command.file.replace("OUT", "out"), old)
                os.chown(file, 65534, 65534)
                file.chmod(0o666)
                self.assertEqual(self.ran([*before, *self.words(command, "out")])[::2], (0, ""))
                self.assertEqual((self.timeless(file), self.mode(file), file.stat().st_uid), (new, 0o666, 65534))
                self.assertEqual([*self.room.rglob("*.new")], [])

    def without(self, right):
        """The words of a command that takes a right away from root. A user has it not."""
        words = ["setpriv", "--bounding-set", f"-{right}"]
        try:
            if os.getuid() or self.ran([*words, "true"])[0]:
                skip("root")
        except FileNotFoundError:
            skip("util-linux")
        return words

    def test_read_only_files(self):
        """A file that its user may not write stays, although the folder may be written."""
        before = self.without("dac_override") if not os.getuid() else []
        for command, _, old, _ in self.each():
            with self.subTest(command.words):
                file = self.write(command.file.replace("OUT", "out"), old)
                file.chmod(0o444)
                self.refuse([*before, *self.words(command, "out")], file.name, "Permission denied")
                self.assertEqual((file.read_text(), self.mode(file)), (old, 0o444))

    def test_other_kinds(self):
        """A file of another kind stays, and a folder."""
        for command, reason, _, _ in self.each():
            with self.subTest(command.words):
                file = self.write(command.file.replace("OUT", "out"), NIGHT_BEFORE)
                if reason == CHANGED:
                    self.assertEqual(self.ran(self.words(command, "out"))[0], 1)
                else:
                    self.refuse(self.words(command, "out"), file.name, reason)
                self.assertEqual(file.read_text(), NIGHT_BEFORE)
                file.unlink()
                file.mkdir()
                self.refuse(self.words(command, "out"), file.name, "Is a directory")

    def test_what_is_saved_meanwhile(self):
        """It is not lost, although the command found nothing of it when it began."""
        for command, reason, _, _ in self.each(AS_IT_GOES):
            with self.subTest(command.words):
                file = self.write(command.file.replace("OUT", "out"), command.old)
                words = self.words(command._replace(program=SAVES + command.program), "out")
                self.refuse([*words[:3], file.name, *words[3:]], file.name, reason)
                self.assertRegex(file.read_text(), f"(?s)\\A{re.escape(command.old)}({SAVED})+\\Z")

    def test_what_is_saved_between_questions(self):
        """A script that an editor saves each time that the program is asked."""
        self.write("asks", f'#!/bin/bash\necho "# saved" >>out\nexec {shlex.quote(PROGRAM)} "$@"\n').chmod(0o755)
        for name in ("camac-check --write", "camac-check --keeps --write"):
            with self.subTest(name):
                self.write("out", COMMANDS[name].old)
                status, told, _ = self.ran(self.words(COMMANDS[name], "out"), CAMAC_PROGRAM=str(self.room / "asks"))
                self.assertEqual((status, told), (3, f"out: fault: {CHANGED}\n"))
                self.assertRegex(self.text("out"), f"\\A{re.escape(COMMANDS[name].old)}(# saved\n)+\\Z")

    def test_full_disk(self):
        """A disk that has no room, seen by these commands alone."""
        rows, line = [], ""
        for number, (command, _, old, _) in enumerate(self.each()):
            rows.append((command, old))
            file = command.file.replace("OUT", "small/out")
            line += f"printf %s {shlex.quote(old)} >{file}; head -c 65536 /dev/zero >small/rest 2>&-\n"
            line += f"{shlex.join(self.words(command, 'small/out'))} >said{number} 2>&1; echo $? >>said{number}; cat {file} >left{number}; rm small/rest; ls small >names{number}; rm small/*\n"
        self.on_small_disk(line, **self.env)
        for number, (command, old) in enumerate(rows):
            file, said = command.file.replace("OUT", "out"), self.text(f"said{number}")
            with self.subTest(command.words):
                self.assertEqual((said[-2:], "No space left on device" in said, f"small/{file}" in said), ("3\n", True, True), said)
                self.assertEqual((self.text(f"left{number}"), self.text(f"names{number}")), (old, f"{file}\n"))


class Outputs(Called):
    def setUp(self):
        super().setUp()
        data, self.table = listing(3)
        self.write("run.listing", data)

    CSV = f'csv() {{ {shlex.quote(sys.executable)} -m camac csv "$@" --overwrite; }}\n'

    def shell(self, line):
        """Status, standard output and standard error of a line of bash, in which `csv` makes a table."""
        return self.ran(["bash", "-c", f"{self.CSV}{line}"])

    def write_table(self, out, status=0, told=""):
        self.assertEqual(self.shell(f"csv listing run.listing -o {out}"), (status, "", told))

    def test_files_of_others(self):
        """A file of another kind is replaced by --overwrite alone. What is behind standard output is written into."""
        csv = f"{shlex.quote(sys.executable)} -m camac csv listing run.listing -o"
        (self.room / "mine.csv").write_text(NIGHT_BEFORE)
        self.assertEqual(self.shell(f"{csv} mine.csv"), (3, "", "camac: another command made it; --overwrite replaces it: mine.csv\n"))
        self.assertEqual(self.text("mine.csv"), NIGHT_BEFORE)
        for words in ("--overwrite", "", ""):
            self.assertEqual(self.shell(f"{csv} mine.csv {words}"), (0, "", ""))
            self.assertEqual(self.text("mine.csv"), self.table)
        self.assertEqual(self.shell(f"{{ echo first; {csv} /dev/stdout; }} >both"), (0, "", ""))
        self.assertEqual(self.text("both"), f"first\n{self.table}")

    def test_new_and_old_files(self):
        """A new file has the mode that the umask leaves, an old one keeps its own."""
        self.assertEqual(self.shell("umask 027; csv listing run.listing -o new"), (0, "", ""))
        self.assertEqual((self.text("new"), self.mode("new")), (self.table, 0o640))
        self.write("old", NIGHT_BEFORE).chmod(0o604)
        self.write_table("old")
        self.assertEqual((self.text("old"), self.mode("old"), self.there()), (self.table, 0o604, ["new", "old", "run.listing"]))

    def test_link_to_nothing(self):
        (self.room / "far").mkdir()
        (self.room / "link").symlink_to("far/none")
        self.write_table("link")
        self.assertEqual((os.readlink(self.room / "link"), self.text("far/none")), ("far/none", self.table))

    def test_pipes(self):
        os.mkfifo(self.room / "pipe")
        self.assertEqual(self.shell("csv listing run.listing -o pipe & cat pipe; wait $!"), (0, self.table, ""))
        self.assertTrue(stat.S_ISFIFO((self.room / "pipe").stat().st_mode))
        self.assertEqual(self.shell("csv listing run.listing -o >(cat)| cat"), (0, self.table, ""))
        told = "camac: it is no regular file: pipe\n"
        self.assertEqual(self.shell("printf 'var a  var b' >pipe & camac() { python3 -m camac fmt pipe; }; camac; s=$?; wait; exit $s"), (3, "", told))

    @needed("root", is_here=not os.getuid())
    def test_devices(self):
        for name, minor, status, told in (("null", 3, 0, ""), ("full", 7, 3, "camac: No space left on device: full\n")):
            try:
                os.mknod(self.room / name, 0o666 | stat.S_IFCHR, os.makedev(1, minor))
                os.close(os.open(self.room / name, os.O_WRONLY))
            except OSError as why:
                skip(f"a device node ({why.strerror})")
            self.write_table(name, status, told)
            self.assertTrue(stat.S_ISCHR((self.room / name).stat().st_mode))
        self.assertEqual(self.there(), ["full", "null", "run.listing"])

    def test_standard_streams_by_name(self):
        """What is in the file behind them stays. The links are those of /dev, here where a wrong program can spoil them."""
        self.link_streams()
        self.assertEqual(self.shell("csv listing run.listing -o stdout"), (0, self.table, ""))
        self.assertEqual(self.shell("csv listing run.listing -o stderr"), (0, "", self.table))
        self.assertEqual(self.shell("{ echo first; csv listing run.listing -o stdout; } >both")[0], 0)
        self.assertEqual((self.text("both"), self.there()), (f"first\n{self.table}", ["both", "run.listing", "stderr", "stdout"]))

    def link_streams(self):
        for stream, name in ((1, "stdout"), (2, "stderr")):
            (self.room / name).symlink_to(f"/proc/self/fd/{stream}")

    def test_neighbours(self):
        """No file beside OUT is touched, whatever its name, an input neither."""
        os.rename(self.room / "run.listing", self.room / "out.new")
        self.assertEqual(self.shell("csv listing out.new -o out")[0], 0)
        self.assertEqual((self.text("out.new"), self.text("out"), self.there()), (listing(3)[0], self.table, ["out", "out.new"]))

    def test_inputs(self):
        """An input is no OUT, under another name neither, nor if it is standard input."""
        (self.room / "link").symlink_to("run.listing")
        self.write("listing", "unlock 1\n")
        for line in ("listing run.listing -o link", "listing link -o run.listing", "listing - -o listing <listing"):
            status, out, told = self.shell(f"csv {line}")
            self.assertEqual((status, out), (2, ""))
            self.assertIn(" is an input: it would be lost\n", told)
        self.assertEqual((self.text("run.listing"), self.text("listing")), (listing(3)[0], "unlock 1\n"))

    def test_two_at_once(self):
        """Both write before one of them ends: each table is whole when it comes to its place."""
        words = [sys.executable, "-m", "camac", "csv", "listing", "-", "-o", "out"]
        processes = [subprocess.Popen(words, stdin=subprocess.PIPE, cwd=self.room, env=self.env) for _ in range(2)]
        rows = []
        for number, process in enumerate(processes):
            process.stdin.write(b"demand 000004 adc\n" * 50_000)
            process.stdin.flush()
            rows.append(50_000 + number)
        for it, count, more in zip(processes, rows, (b"", b"unlock 1\n")):
            it.communicate(more, timeout=60)
            self.assertEqual((it.returncode, self.text("out").count("\n")), (0, count + 1))
        self.assertEqual(self.there(), ["out", "run.listing"])

    def test_faults(self):
        """After a fault OUT is as it was."""
        self.write("out", NIGHT_BEFORE)
        self.write("bad.listing", "demand 000004 adc\nhello\n")
        for line, status in (("listing bad.listing", 3), ("listing none", 3)):
            with self.subTest(line):
                self.assertEqual(self.shell(f"csv {line} -o out")[0], status)
                self.assertEqual((self.text("out"), self.there()), (NIGHT_BEFORE, ["bad.listing", "out", "run.listing"]))

    def test_places_that_take_no_file(self):
        (self.room / "folder").mkdir()
        for out, why in (("folder", "Is a directory"), ("name/", "Is a directory"), ("none/out", "No such file or directory")):
            self.write_table(out, 3, f"camac: {why}: {out}\n")
        self.assertEqual(self.there(), ["folder", "run.listing"])

    def test_a_disk_that_has_room_once(self):
        """The file of two names stays whole, where the new one has room beside it and not in its place."""
        self.write("run.listing", listing(3000)[0])
        line = f"printf '{NIGHT_BEFORE}' >small/out; ln small/out small/other; csv listing run.listing -o small/out; status=$?; cat small/*; exit $status"
        ran = self.on_small_disk(f"{self.CSV}({line})", **self.env)
        self.assertEqual(ran, (3, NIGHT_BEFORE.encode() * 2, b"camac: No space left on device: small/out\n"))

    def test_a_reader_that_is_gone(self):
        """The command ends without a word, by the signal by which `cat` ends."""
        self.write("run.listing", listing(20_000)[0])
        self.link_streams()
        for line in ("csv listing run.listing", "csv listing run.listing -o stdout", "csv --help"):
            self.assertEqual(self.shell(f"sleep 0.1 | {{ {line}; echo $? >&2; }} | true; exit 0")[2], "141\n", line)
        self.assertEqual(self.shell("csv listing run.listing | head -n 1; exit ${PIPESTATUS[0]}"), (141, HEAD, ""))

    def test_closed_streams(self):
        fault = "camac: Bad file descriptor: standard"
        for line, status, told in (
            ("csv listing run.listing >&-", 3, f"{fault} output\n"),
            ("csv --help >&-", 3, f"{fault} output\n"),
            ("csv listing run.listing -o out >&-", 0, ""),
            ("csv listing none -o out 2>&-", 3, ""),
            ("csv listing run.listing -o out >&- 2>&- <&-", 0, ""),
            ("csv listing - -o out <&-", 3, f"{fault} input\n"),
            ("csv nothing 2>&-", 2, ""),
            ("csv nothing >&- 2>&-", 2, ""),
        ):
            with self.subTest(line):
                self.assertEqual(self.shell(line), (status, "", told))
        self.assertEqual(self.text("out"), self.table)

    def test_flat_memory(self):
        """A table is written as it is made."""
        self.write("run.listing", listing(300_000)[0])
        code = "import resource; from camac.__main__ import main; status = main(['csv', 'listing', 'run.listing', '-o', 'out'])"
        code += "; print(status, resource.getrusage(resource.RUSAGE_SELF).ru_maxrss // 1024)"
        # a shell between: else the memory of this process would count
        status, out, _ = self.shell(f"{shlex.quote(sys.executable)} -c {shlex.quote(code)}; exit $?")
        status, memory = map(int, out.split())
        self.assertEqual(status, 0)
        self.assertLess(memory, 50)


if __name__ == "__main__":
    run_tests()
