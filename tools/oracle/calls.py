"""Calls of the program on files."""
from __future__ import annotations

import os
import pathlib
import re
import signal
from types import FrameType
from typing import Dict, List, Optional

from oracle.reader.engines import Inputs, Told, words_of

SECONDS = 60
# What is told of a refused answer; of the sentence the column alone is judged.
TOLD = re.compile(rb"  .*/answers: (column \d+): found .+; expected .+: `x q word wait gl`, as `1 1 123fff 0 000004`\n")


class Hung(Exception):
    """The program did not end."""


def stop(_number: int, _frame: Optional[FrameType]) -> None:
    raise Hung


class Program:
    """The program, and a folder for its files, which is used again for each call."""

    def __init__(self, program: str, room: pathlib.Path) -> None:
        self.program, self.room = program, room
        self.written: Dict[str, Optional[bytes]] = {}
        signal.signal(signal.SIGALRM, stop)

    def write(self, name: str, data: Optional[bytes]) -> None:
        if data is not None and self.written.get(name) != data:
            (self.room / name).write_bytes(data)
            self.written[name] = data

    def words(self, command: str, inputs: Inputs) -> List[str]:
        """The words of a call: the subcommand, the files, which are written, and options."""
        for name in ("plan", "script", "answers", "file"):
            self.write(name, getattr(inputs, name))
        words = [str(self.room / it) for it in words_of(command)]
        if words_of(command)[0] == "plan" and inputs.plan is None:
            words[0] = "@sample"
        return [command, *words, *(inputs.words.decode().split() if command in ("response", "explain") else [])]

    def call(self, command: str, inputs: Inputs) -> Told:
        words = self.words(command, inputs)
        events = self.room / "EVENTS"
        events.unlink(missing_ok=True)
        given = self.room / "answers" if command == "drive" else "/dev/null"
        out, err = self.room / "out", self.room / "err"
        anew = os.O_WRONLY | os.O_CREAT | os.O_TRUNC
        actions = [(os.POSIX_SPAWN_OPEN, 0, given, os.O_RDONLY, 0)]
        actions += [(os.POSIX_SPAWN_OPEN, number, file, anew, 0o644) for number, file in ((1, out), (2, err))]
        child = os.posix_spawn(self.program, [self.program, *words], os.environ, file_actions=actions)
        status = self.wait(child)
        written = events.read_bytes() if events.exists() else None
        return Told(status, out.read_bytes(), TOLD.sub(rb"\1\n", err.read_bytes()), written)

    def wait(self, child: int) -> int:
        """The status of a child that was started here; a signal that ended it counts as 128 more."""
        signal.alarm(SECONDS)
        try:
            _, ended = os.waitpid(child, 0)
        except Hung:
            os.kill(child, signal.SIGKILL)
            os.waitpid(child, 0)
            raise
        finally:
            signal.alarm(0)
        return os.WEXITSTATUS(ended) if os.WIFEXITED(ended) else 128 + os.WTERMSIG(ended)
