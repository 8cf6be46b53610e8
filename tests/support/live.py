"""Shared by tests of live runs: a folder for each test, a branch that answers from a list, and the program's Python package."""
import contextlib
import io
import os
import select
import subprocess
import tempfile

from support import program
from support.program import PROGRAM as PROGRAM, TOP as TOP, Room as Case, run_tests as run_tests

OPENING = "cdlam adc 1 1 5 12\nvar v k i t\nservice adc within {} cycles event {} words {{\n"
PATIENCE = 60
STRAIGHT_LINE = program.STRAIGHT_LINE.decode()
CLEARED = "cdlam adc 1 1 5 12\nservice adc within 3 cycles event 0 words {\n  cclc adc\n}\n"
LOCKOUT = OPENING.format(6, 100) + "cdreg r 1 1 5 0\nlock 1 {\n" + "  cfsa 0 r -> v\n" * 4 + "}\n}\n"
REQUESTS = (b"demand", b"cycle", b"lock")


def script(body, cycles=100, words=100):
    """A script of the standard opening with this body, each statement on a line."""
    return OPENING.format(cycles, words) + "".join(f"{line}\n" for line in body) + "}\n"


def command(*words):
    """Status, standard output and standard error of a command of the package, which runs in this process."""
    from camac.__main__ import main

    err, before = io.StringIO(), os.dup(1)
    with tempfile.TemporaryFile() as out, contextlib.redirect_stderr(err):
        os.dup2(out.fileno(), 1)
        try:
            status = main([str(it) for it in words])
        except SystemExit as stop:
            status = stop.code
        finally:
            os.dup2(before, 1)
            os.close(before)
        out.seek(0)
        return status, out.read().decode(), err.getvalue()


class Listed:
    """A branch that gives the answers of a list, and keeps what it was asked. An exception in the list is raised; after the list a demand
    has no answer."""

    def __init__(self, *answers):
        self.answers, self.asked = iter(answers), []

    def next(self, *asked):
        self.asked.append(asked)
        answer = next(self.answers, None)
        if isinstance(answer, BaseException):
            raise answer
        return answer

    def demand(self):
        return self.next("demand")

    def cycle(self, c, n, a, f, data):
        return self.next("cycle", c, n, a, f, data)

    def lock(self, c):
        return self.next("lock", c)

    def unlock(self, c):
        self.asked.append(("unlock", c))


class Broken(Exception):
    """The branch is out of order."""


class Pipes:
    """The program at work, with a pipe at its input and one at its output."""

    def __init__(self, room, *words):
        how = {"stdin": subprocess.PIPE, "stdout": subprocess.PIPE, "stderr": subprocess.PIPE}
        self.process = subprocess.Popen([PROGRAM, "drive", *words], bufsize=0, cwd=room, **how)

    def __enter__(self):
        return self

    def __exit__(self, *_raised):
        self.process.kill()
        self.process.communicate()

    def read(self):
        """What is on the pipe as soon as something does; nothing at the end of the output."""
        if not select.select([self.process.stdout], [], [], PATIENCE)[0]:
            raise TimeoutError("the program wrote nothing")
        return self.process.stdout.read(65_536)

    def is_quiet(self):
        """Whether the program writes nothing for a moment."""
        return not select.select([self.process.stdout], [], [], 0.02)[0]

    def requests(self):
        """Reads up to a request or the last line: whole lines alone."""
        text = b""
        while not text.endswith(b"\n") or not text.splitlines()[-1].split(b" ")[0] in REQUESTS:
            piece = self.read()
            if not piece:
                break
            text += piece
        return text

    def answer(self, line):
        self.process.stdin.write(f"{line}\n".encode())

    def end(self):
        """Ends the input. Returns what the program still wrote, its status and its standard error."""
        output, errors = self.process.communicate(timeout=PATIENCE)
        return output, self.process.returncode, errors
