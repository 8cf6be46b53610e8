"""The program, and data for tests of its commands: the straight-line script with its bytes, the words of faults, a folder for each test.

The program is crates/camac/out/camac (cd crates/camac && rt run makes it), or what the environment variable CAMAC_PROGRAM names."""
import errno
import os
import pathlib
import re
import subprocess
import sys
import tempfile
import time
import unittest

from support.needs import skip

TOP = pathlib.Path(__file__).resolve().parent.parent.parent
# Tests import what they try: `camac`, `oracle` and `rounds`.
sys.path[:0] = [str(TOP / "python"), str(TOP / "tools")]
sys.dont_write_bytecode = True
PROGRAM = os.path.abspath(os.environ.get("CAMAC_PROGRAM") or TOP / "crates/camac/out/camac")
STRAIGHT_LINE = b"""cdlam adc 1 1 5 12
var v
service adc within 3 cycles event 1 words {
  cdreg r 1 1 5 0
  cfsa 0 r -> v
  put v
}
"""
VERDICT = b"accepted\nservice adc gl 3 cycles 3 of 3 words 1 of 1 steps 3\n"
DEMAND = b"0 0 000000 0 000004\n"
ANSWERS = DEMAND + b"1 1 123fff 2 000000\n"
LISTING = b"demand 000004 adc\ncycle 1 5 0 0 in 123fff x1 q1 wait 2\nended events 1\n"
REQUESTS = b"demand\ncycle 1 5 0 0 in\ndemand\nended events 1\n"
EVENT_FILE = bytes.fromhex("43414d4143455632 ca4d 0003 00000001 00000003 0000 0001 00000fff")
EVENT_FILE_ONE = bytes.fromhex("43414d4143455631 ca4d 0003 00000001 0001 00000fff")
TOO_LONG, TWICE = b"fault input too long\n", b"fault @in twice\n"
CLOSED = "it is closed, or a folder"


def fault(kind, name, why):
    """The lines of a fault of a file, or of a standard stream: `why` is an error of the system, or words of the program's own."""
    return f"fault {kind}\n  {name}: {why if isinstance(why, str) else os.strerror(why)}\n".encode()


def lacks(name):
    return fault("read", name, errno.ENOENT)


def unwritten(why, name="standard output"):
    return fault("write", name, why)


FULL = unwritten(errno.ENOSPC)


def called(*words, given=b"", **how):
    """Status, standard output and standard error of the program on these words."""
    return ran([PROGRAM, *words], input=given, **how)


def ran(words, **how):
    done = subprocess.run(words, **{"stdout": subprocess.PIPE, "stderr": subprocess.PIPE, "timeout": 60, **how})
    return done.returncode, done.stdout, done.stderr


def run_tests():
    """Runs the tests of the file that is called, if the program is there."""
    if not os.access(PROGRAM, os.X_OK):
        sys.exit(f"{PROGRAM} is not there: cd crates/camac && rt run makes it, or CAMAC_PROGRAM names another")
    unittest.main()


def folder(at_end, **how):
    """A new folder. What removes it is handed to `at_end`."""
    made = tempfile.TemporaryDirectory(prefix="camac-test-", **how)
    at_end(made.cleanup)
    return pathlib.Path(made.name)


class Room(unittest.TestCase):
    """A test in a folder of its own."""

    def setUp(self):
        self.room = folder(self.addCleanup)

    @classmethod
    def shared(cls):
        """A folder for all tests of the class."""
        return folder(cls.addClassCleanup)

    def write(self, name, text):
        (self.room / name).write_text(text)
        return self.room / name

    def file(self, name):
        return (self.room / name).read_bytes()

    def call(self, *words, given=b"", **how):
        """The same as `called`, in this folder."""
        return called(*words, given=given, cwd=self.room, **how)

    def shell(self, line):
        """The same of a line of bash, in which $camac is the program."""
        return ran(["bash", "-c", line], cwd=self.room, stdin=subprocess.DEVNULL, env={**os.environ, "camac": PROGRAM})

    def on_small_disk(self, line, **environment):
        """The same of a line of bash in which `small` is a disk of 64 KiB, which is seen by the line alone. Then what is on it is copied into `kept`."""
        words = ["unshare", "--mount", *(["--map-root-user"] if os.getuid() else []), "bash", "-c"]
        line = f"mkdir small && mount -t tmpfs -o size=64k none small || exit 77\n{line}\nstatus=$?; mkdir kept; cp small/* kept 2>&-; exit $status"
        try:
            done = ran([*words, line], cwd=self.room, env={**os.environ, "camac": PROGRAM, **environment})
        except FileNotFoundError:
            skip("util-linux")
        if done[0] == 77 or done[2].startswith(b"unshare: "):
            skip("a disk that can be mounted")
        return done

    def package(self, *words, given=b"", **environment):
        """The same of `python3 -m camac` over the program, as texts."""
        env = {**os.environ, "PYTHONPATH": str(TOP / "python"), "CAMAC_PROGRAM": PROGRAM, "PYTHONDONTWRITEBYTECODE": "1", **environment}
        status, out, err = ran([sys.executable, "-m", "camac", *map(str, words)], cwd=self.room, input=given, env=env)
        return status, out.decode(), err.decode()


class Case(Room):
    """A test whose folder has the straight-line script, its answers and a plan."""

    def setUp(self):
        super().setUp()
        (self.room / "straight.script").write_bytes(STRAIGHT_LINE)
        (self.room / "answers").write_bytes(ANSWERS)
        (self.room / "plan.toml").write_bytes((TOP / "examples/sample_plan.toml").read_bytes())


def keywords():
    """The words of the language, from the one table that has them."""
    found = []
    for file in TOP.glob("crates/*/src/words.rt"):
        found += re.findall(r'b"(\w+)" => [A-Z]', file.read_text())
    return found


def measured(action):
    """The seconds of processor time that `action()` takes."""
    began = time.process_time()
    action()
    return time.process_time() - began


def is_within(most, action):
    """Whether one of three calls of `action` takes at most so many seconds of processor time.

    A second of a busy or slow processor is worth less, so a loop of a tenth of a second is measured beside each call.
    """
    return any(measured(action) <= most * max(1, 10 * measured(lambda: sum(len(b"%d 1" % it) for it in range(400_000)))) for _ in range(3))
