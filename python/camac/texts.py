"""Plans and scripts by the names that the program knows: files, and `@sample`, the built-in plan. `@in`, standard input, is none here. And regular files
by names that come from somewhere else: from a client, or of a file that others write; nothing is waited for, whatever is there. And changes of a text."""
import errno
import importlib
import os
import stat
import sys
from typing import Any, BinaryIO, Iterable, List, NamedTuple, Optional, Sequence

from camac.drive import File, ProgramFault, UsageFault, file_fault

SAMPLE = "@sample"
# The greatest plan or script, in bytes; and how many blocks may be open at once.
GREATEST_TEXT = 1_048_576
GREATEST_DEPTH = 16


def is_standard_input(names: Sequence[File]) -> bool:
    """Whether one of these names stands for standard input, which can be read once alone."""
    return any(os.fsdecode(name) == "@in" for name in names)


class TextFile:
    """A plan or a script that may be named wherever a file is. It is read once, when its text is first asked for."""

    def __init__(self, file: File, is_plan: bool = False) -> None:
        self.file, self.is_plan = os.fsdecode(file), is_plan
        self.known: Optional[bytes] = None

    def __fspath__(self) -> str:
        return self.file

    def text(self) -> bytes:
        """Raises OSError if it cannot be read, and for the rest as `script_text`."""
        if self.known is None:
            self.known = _read(_place(self.file) if self.is_plan else self.file)
        return self.known


def plan_text(plan: File) -> bytes:
    """The text of a plan. Raises as `script_text`."""
    return script_text(plan if isinstance(plan, TextFile) else _place(plan))


def script_text(script: File) -> bytes:
    """The text of a file. Raises what the program's words raise: ProgramFault if it cannot be read, or is too long, and UsageFault for `@in`."""
    try:
        return script.text() if isinstance(script, TextFile) else _read(script)
    except OSError as why:
        raise file_fault("read", script, why) from why


def _place(plan: File) -> File:
    return os.path.join(os.path.dirname(__file__), "sample_plan.toml") if os.fsdecode(plan) == SAMPLE else plan


def _read(file: File) -> bytes:
    if is_standard_input([file]):
        raise UsageFault("fault @in twice", 2)
    with open(file, "rb") as opened:
        text = opened.read(GREATEST_TEXT + 1)
    if len(text) > GREATEST_TEXT:
        raise ProgramFault("fault input too long", 3)
    return text


def hashed(data: bytes = b"", is_long: bool = False) -> Any:
    """The SHA-256 of bytes. To load `hashlib` takes as long as a megabyte by the module that some versions of Python have built in."""
    name = "_sha256" if "_sha256" in sys.builtin_module_names and not is_long else "hashlib"
    return importlib.import_module(name).sha256(data)


def source_lines(script: File) -> List[str]:
    """The lines of a script as the program counts them: by LF alone. A comment may hold any byte; what is no UTF-8 is shown as U+FFFD. Raises OSError
    if it cannot be read."""
    with open(script, "rb") as file:
        return [line.decode("utf-8", "replace").rstrip("\r") for line in file.read().split(b"\n")]


def open_regular(path: File) -> BinaryIO:
    """Opens a regular file for reading. Raises OSError, with the name, for what is none, as a folder, a pipe or a device, and leaves it untouched."""
    try:
        is_file = stat.S_ISREG(os.stat(path).st_mode)
    except ValueError:
        is_file = False  # no file can have this name
    if is_file:
        # Another file may have taken its place.
        file = open(os.open(path, os.O_RDONLY | os.O_NONBLOCK | os.O_NOCTTY | os.O_CLOEXEC), "rb")
        if stat.S_ISREG(os.fstat(file.fileno()).st_mode):
            return file
        file.close()
    raise OSError(errno.EINVAL, "this is no file", path)


def read_regular(path: File, most: int) -> bytes:
    """The first bytes of a regular file, `most` of them at most. Raises as `open_regular`."""
    with open_regular(path) as file:
        return file.read(most)


class Edit(NamedTuple):
    """A part of a text, from `start` to `end` in bytes, and what takes its place."""

    start: int
    end: int
    text: str


def edited(text: bytes, edits: Iterable[Edit]) -> bytes:
    """A text with changes that do not overlap."""
    parts: List[bytes] = []
    last = 0
    for it in sorted(edits):
        parts += [text[last : it.start], it.text.encode("utf-8", "surrogateescape")]
        last = it.end
    return b"".join([*parts, text[last:]])
