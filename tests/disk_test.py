#!/usr/bin/env python3
"""Tries the built program on disks that are full and files that may not grow: what is left is what the pages say, to the byte. And compares it, and the
Python package, with what docs/RUNNING.md shows of answers and of event files.

usage: tests/disk_test.py [-v] [TEST ..]     from any folder; takes some seconds

A small disk is mounted for one process alone, if the system lets us.
"""
import errno
import os
import re
import resource
import shutil
import signal
import subprocess
import sys
import unittest

from support.program import ANSWERS, EVENT_FILE, EVENT_FILE_ONE, FULL, LISTING, PROGRAM, REQUESTS, TOP, VERDICT, Case, unwritten

HEADER, RECORD = 8, len(EVENT_FILE) - 8
# What is written before the answers' end: the lines of the demand and the cycle, and the requests for them.
LISTED, ASKED = 55, 24
# The faults if standard output may not grow, and if EVENTS may not.
OUT, EVENTS = (unwritten(errno.EFBIG, name) for name in ("standard output", "e"))


class Grown(Case):
    """A limit on the size of files. The calls that pass it fail where its signal is ignored; else the signal ends the program."""

    def limited(self, line, most, given=b"", how=signal.SIG_IGN):
        """Status and standard error, and what is left of standard output and EVENTS, both of which are files."""
        for name in ("out", "e"):
            (self.room / name).unlink(missing_ok=True)

        def limit():
            signal.signal(signal.SIGXFSZ, how)
            resource.setrlimit(resource.RLIMIT_FSIZE, (most, most))
            resource.setrlimit(resource.RLIMIT_CORE, (0, 0))

        with open(self.room / "out", "wb") as out:
            ran = subprocess.run(
                [PROGRAM, *line.split()], input=given, stdout=out, stderr=subprocess.PIPE, cwd=self.room, preexec_fn=limit, timeout=60, restore_signals=False
            )
        events = self.room / "e"
        return ran.returncode, ran.stderr, self.file("out"), events.read_bytes() if events.exists() else None

    def test_runs(self):
        """The listing is handed on before the record; the header comes before both."""
        for most in range(len(LISTING) + 2):
            with self.subTest(most=most):
                out = b"" if most < HEADER else LISTING[:most]
                events = EVENT_FILE[:HEADER] if HEADER <= most < LISTED else EVENT_FILE[:most]
                wanted = (3, EVENTS if most < HEADER else OUT) if most < len(LISTING) else (0, b"")
                self.assertEqual(self.limited("run plan.toml straight.script answers e", most), (*wanted, out, events))

    def test_live_runs(self):
        """Each request is handed on by itself, and the record before the request after it."""
        for most in range(len(REQUESTS) + 2):
            with self.subTest(most=most):
                out = b"" if most < HEADER else REQUESTS[: min(most, ASKED if most < len(EVENT_FILE) else most)]
                events = EVENT_FILE[:HEADER] if HEADER <= most < ASKED else EVENT_FILE[:most]
                is_record = ASKED <= most < len(EVENT_FILE)
                wanted = (3, EVENTS if most < HEADER or is_record else OUT) if most < len(REQUESTS) else (0, b"")
                self.assertEqual(self.limited("drive plan.toml straight.script e", most, ANSWERS), (*wanted, out, events))

    def test_verdicts(self):
        (self.room / "one.events").write_bytes(EVENT_FILE)
        lines = [f"{it} plan.toml straight.script" for it in ("check", "explain", "bounds", "costs", "tell")]
        for line in (*lines, "plan plan.toml", "events one.events"):
            whole = self.limited(line, resource.RLIM_INFINITY)[2]
            for most in range(len(whole) + 1):
                wanted = (3, OUT) if most < len(whole) else (0, b"")
                self.assertEqual(self.limited(line, most), (*wanted, whole[:most], None), (line, most))
        self.assertEqual(self.limited("check plan.toml straight.script", 1000)[2], VERDICT)

    def test_the_signal(self):
        """Where the signal is not ignored it may end the program. What is left is a prefix all the same."""
        for most in range(0, len(LISTING) + 2, 3):
            status, told, out, events = self.limited("run plan.toml straight.script answers e", most, how=signal.SIG_DFL)
            self.assertIn((status, told), ((-signal.SIGXFSZ, b""), (3, OUT), (3, EVENTS)) if most < len(LISTING) else ((0, b""),))
            self.assertTrue(LISTING.startswith(out) and EVENT_FILE.startswith(events))


class Full(Case):
    """A disk of 64 KiB. tests/program_test.py tries /dev/full."""

    def test_one_number_on_two_disks(self):
        """EVENTS is no input where both have one number, each on a disk of its own."""
        line = "cp answers small/ && mkdir other && mount -t tmpfs none other && touch other/e && stat -c %i small/answers other/e"
        status, out, err = self.on_small_disk(f"{line} && $camac run plan.toml straight.script small/answers other/e")
        first, second, listing = out.split(b"\n", 2)
        self.assertEqual((status, first, listing, err), (0, second, LISTING, b""))

    def test_runs(self):
        """The beginning of 4,000 events, of their listing, or of both, where one of them has no room. Not even the header has it on a full disk."""
        (self.room / "answers").write_bytes(b"1 1 000001 0 000004\n" * 8000)
        _, listing, _ = self.call("run", "plan.toml", "straight.script", "answers", "whole.events")
        events = self.file("whole.events")
        self.assertEqual(len(events), HEADER + RECORD * 4000)
        no_room = unwritten(errno.ENOSPC, "small/e")
        for line, told, name, whole, size in (
            ("run plan.toml straight.script answers small/e", no_room, "kept/e", events, 65_536),
            ("drive plan.toml straight.script small/e <answers", no_room, "kept/e", events, 65_536),
            ("run plan.toml straight.script answers e >small/out", FULL, "kept/out", listing, 65_536),
            ("run plan.toml straight.script answers small/e", no_room, "kept/e", events, 0),
        ):
            with self.subTest(line=line, size=size):
                status, out, said = self.on_small_disk(f'{"" if size else "head -c 65536 /dev/zero >small/full; "}"$camac" {line}')
                left = self.file(name)
                self.assertEqual((status, said, len(left), whole.startswith(left)), (3, told, size, True))
                if line.startswith("run"):
                    self.assertTrue(listing.startswith(out) and listing != out)
                else:
                    # a demand is asked for only where the record before it is whole
                    self.assertEqual(out.count(b"demand\n"), (len(left) - HEADER) // RECORD + 1)
                for it in ("small", "kept"):
                    shutil.rmtree(self.room / it)
        self.assertTrue(events.startswith(self.file("e")))


class RunningPage(Case):
    """What docs/RUNNING.md shows."""

    page = (TOP / "docs/RUNNING.md").read_text()

    def test_reader_of_event_files(self):
        """The reader of the page, which is the Python package's, on files of both versions, and on one without events."""
        (self.room / "reader.py").write_text(re.search(r"```python words\.py\n(.*?)```", self.page, re.S)[1])
        self.call("run", "@sample", "straight.script", "answers", "two.events")
        (self.room / "one.events").write_bytes(EVENT_FILE_ONE)
        (self.room / "none.events").write_bytes(b"CAMACEV2")
        env = {**os.environ, "PYTHONPATH": str(TOP / "python"), "PYTHONDONTWRITEBYTECODE": "1"}
        for name, wanted in (("two", "1 3 3 0 000fff\n"), ("one", "1 3 None None 000fff\n"), ("none", "")):
            ran = subprocess.run([sys.executable, "reader.py", f"{name}.events"], cwd=self.room, env=env, capture_output=True, text=True)
            self.assertEqual((ran.returncode, ran.stdout), (0, wanted), ran.stderr)

    def test_layout_of_event_files(self):
        """An event of one word has the fields of the page's table, in their sizes."""
        self.call("run", "@sample", "straight.script", "answers", "two.events")
        header, _, table = self.page.partition("The header is the 8 bytes `")[2].partition("`. Each event is a record:\n\n")
        sizes = [int(it) for it in re.findall(r"(?m)^\| (\d)", table.partition("\n\n")[0])]
        data = self.file("two.events")
        ends = [8 + sum(sizes[:count]) for count in range(len(sizes) + 1)]
        fields = [data[at:end].hex() for at, end in zip(ends, ends[1:])]
        self.assertEqual((data[:8].decode(), ends[-1]), (header, len(data)))
        self.assertEqual(fields, ["ca4d", "0003", "00000001", "00000003", "0000", "0001", "00000fff"])

    def test_whole_events_of_a_cut_file(self):
        """A run into 64 KiB, and then the way of the page from what it left to the events that are whole."""
        line = """trap '' XFSZ; ulimit -f 64; yes '1 1 000001 0 000004' | head -n 20000 | "$camac" run @sample straight.script @in run.events | tail -n 1
          exit "${PIPESTATUS[2]}" """
        status, out, err = self.shell(line)
        self.assertEqual((status, err), (3, unwritten(errno.EFBIG, "run.events")))
        self.assertNotIn(b"ended", out)
        self.assertEqual(len(self.file("run.events")), 65_536)
        status, out, err = self.call("events", "run.events")
        self.assertEqual((status, err), (1, b""))
        self.assertRegex(out, rb"^refused V7 byte 655\d\d: truncated\n$")
        (self.room / "run.events").rename(self.room / "cut.events")
        commands = "\n".join(re.findall(r"(?m)^\$ (.*whole\.events.*)$", self.page))
        events = (65_536 - 8) // 20
        python = f'PYTHONPATH="{TOP}/python" PYTHONDONTWRITEBYTECODE=1 "{sys.executable}" "$@"'
        status, out, err = self.shell(f'camac() {{ "$camac" "$@"; }}; python3() {{ {python}; }}; {commands}')
        self.assertEqual((status, err), (0, b""))
        listed = "".join(f"event {n} gl 3 cycles 1 missed 0 words 1 000001\n" for n in range(1, events + 1))
        self.assertEqual(out.decode(), f"{listed}events {events}\n")

    def test_one_answer_for_every_operation(self):
        answer = re.search(r"`(\d \d [0-9a-f]{6} \d [0-9a-f]{6})` calls the service", self.page)[1]
        given = f"{answer}\n".encode() * 20
        status, out, _ = self.call("run", "@sample", "straight.script", "@in", "e", given=given)
        self.assertEqual((status, out.splitlines()[-1]), (0, b"ended events 10"))


if __name__ == "__main__":
    unittest.main()
