"""The one door by which the commands of this package write: to standard output, into what is there and is no regular file, or into a file that is put
in its place once it is whole, if what is there may be replaced."""
import contextlib
import errno
import io
import math
import os
import signal
import stat
import sys
import time
from typing import Any, BinaryIO, Callable, ContextManager, Iterator, NamedTuple, Optional, Sequence, TextIO, Tuple

STANDARD_OUTPUT = "standard output"
# The first bytes of a picture, and of a page, which are the same in all of them.
BEGIN = 56
# What may be lost: it looks at what is at a place, or that nothing is there, and raises OSError or ProgramFault if that has to stay.
Rule = Callable[[str], None]


@contextlib.contextmanager
def output(path: Optional[str], rule: Rule) -> Iterator[TextIO]:
    """A file for text (UTF-8, LF), open as `bytes_output` says. What of a name is no text is written as it was given."""
    with bytes_output(path, rule) as file, io.TextIOWrapper(file, "utf-8", "surrogateescape", "\n") as out:
        yield out


@contextlib.contextmanager
def bytes_output(path: Optional[str], rule: Rule) -> Iterator[BinaryIO]:
    """A file to write, as it goes; None is standard output. A device or a pipe is written into. Else a new file is made beside the place that `path`
    leads to, and takes it at the end of the block, if by the rule what is there may be lost, at the begin and at the end. Where the block fails it is
    removed, and what was there stays. Raises OSError with the name if it cannot be written, what the rule raises, and BrokenPipeError if the reader
    of a pipe closed it."""
    opened: ContextManager[BinaryIO]
    if path is None:
        if sys.stdout is None:
            raise OSError(errno.EBADF, os.strerror(errno.EBADF), STANDARD_OUTPUT)
        opened = _buffered(os.dup(1), STANDARD_OUTPUT)
    elif (there := _open_as_it_is(path)) is None:
        opened = _replacement(path, rule)
    else:
        opened = _buffered(there, path)
    with opened as file:
        yield file


def refuse_loss(path: str, rule: Rule) -> None:
    """Raises OSError if a file may not be written, or what the rule raises. What would be written into is not looked at."""
    status = _stat(path)
    if status is None or _is_replaced(status):
        _look(path, rule)


def anything(path: str) -> None:
    """The rule of --overwrite: whatever is there may be lost."""


def nothing(path: str) -> None:
    """The rule that a file holds no bytes."""
    if holds_bytes(path):
        raise FileExistsError(errno.EEXIST, "it holds bytes; --overwrite replaces it", path)


def made_like(text: str) -> Rule:
    """The rule that a file holds no bytes, or begins as this text does, or as its first `BEGIN` bytes: else another command made it."""
    begin = text.encode("utf-8", "surrogateescape")[:BEGIN]

    def rule(path: str) -> None:
        if holds_bytes(path):
            with open(path, "rb") as file:
                if file.read(len(begin)) != begin:
                    raise FileExistsError(errno.EEXIST, "another command made it; --overwrite replaces it", path)

    return rule


class Original(NamedTuple):
    """A script that was read, to be replaced: its file, its bytes, and which file it was then."""

    file: str
    data: bytes
    identity: Tuple[int, ...]

    def refuse_change(self, path: str) -> None:
        """The rule that the file is still the one that was read."""
        status = _stat(path)
        if status is None or _identity(status) != self.identity or read_original(path) != self:
            raise OSError(errno.ESTALE, "the script changed while it was judged", path)

    def replace(self, text: bytes) -> None:
        """Puts another text into its place. Raises OSError as `bytes_output`, and if it is no regular file, or changed since it was read."""
        with _replacement(self.file, self.refuse_change) as out:
            out.write(text)


def read_original(file: str) -> Original:
    """Reads a script that is to be replaced. Raises OSError if it cannot be read."""
    with open(file, "rb") as opened:
        identity = _identity(os.fstat(opened.fileno()))
        return Original(file, opened.read(), identity)


def holds_bytes(path: Any) -> bool:
    """Whether a regular file is there that is not empty: what would be lost, were it written over. Raises OSError if that cannot be known."""
    status = _stat(path)
    return status is not None and stat.S_ISREG(status.st_mode) and status.st_size > 0


def is_one_of(out: str, inputs: Sequence[str]) -> bool:
    """Whether a file is one of the inputs, under whatever name; `-` is the one behind standard input."""
    names = ("/dev/stdin" if it == "-" else it for it in inputs)
    return os.path.exists(out) and any(os.path.exists(it) and os.path.samefile(it, out) for it in names)


def write_made(path: str, text: str, may_replace: bool) -> None:
    """Writes a picture or a page in the place of one, or of any file where it `may_replace`."""
    with output(path, anything if may_replace else made_like(text)) as out:
        out.write(text)


def new_file(folder: str, ending: str = "") -> Tuple[int, str]:
    """Makes a file that nobody else has, open to be read and written, under a new name. (To load `tempfile` takes as long as to judge a script.)"""
    name = os.path.join(folder, f"camac-{os.urandom(8).hex()}{ending}")
    return os.open(name, os.O_RDWR | os.O_CREAT | os.O_EXCL | os.O_CLOEXEC, 0o600), name


@contextlib.contextmanager
def passing_file(data: bytes = b"") -> Iterator[str]:
    """The name of a file with these bytes, which is gone at the end."""
    descriptor, name = new_file(os.environ.get("TMPDIR") or "/tmp")
    try:
        with open(descriptor, "wb") as file:
            file.write(data)
        yield name
    finally:
        os.remove(name)


def _identity(status: os.stat_result) -> Tuple[int, ...]:
    return status.st_dev, status.st_ino, status.st_size, status.st_mtime_ns


def _stat(path: str) -> Optional[os.stat_result]:
    """What the system says of what is at a place; None if nothing is there."""
    try:
        return os.stat(path)
    except FileNotFoundError:
        return None


def _is_replaced(status: os.stat_result) -> bool:
    """Whether this is a file that another one takes the place of, and nothing that is written into."""
    return stat.S_ISREG(status.st_mode) and _stream_of(status) is None


def _look(path: str, rule: Rule) -> None:
    """Raises OSError if what is there is no file that may be written, or what the rule raises."""
    status = _stat(path)
    if status is not None:
        if not stat.S_ISREG(status.st_mode):
            raise OSError(errno.EINVAL, "it is no regular file", path)
        os.close(os.open(path, os.O_WRONLY))
    rule(path)


def _open_as_it_is(path: str) -> Optional[int]:
    """Opens what is there and is no regular file, or is the file of a standard stream; None if a file is to be made."""
    status = _stat(path)
    if status is None or _is_replaced(status):
        return None
    stream = _stream_of(status)
    return os.open(path, os.O_WRONLY) if stream is None else os.dup(stream)


def _stream_of(status: os.stat_result) -> Optional[int]:
    """The standard stream to write that a file is behind."""
    for stream in (1, 2):
        with contextlib.suppress(OSError):
            if os.path.samestat(status, os.fstat(stream)):
                return stream
    return None


@contextlib.contextmanager
def _replacement(path: str, rule: Rule) -> Iterator[BinaryIO]:
    """A new file, under a name that no other call has, that takes the place of a regular file or of none, if the rule lets it."""
    place = os.path.realpath(path)
    with _named(path):
        if not os.path.basename(path):
            raise IsADirectoryError(errno.EISDIR, os.strerror(errno.EISDIR))
        _look(path, rule)
        descriptor, new = new_file(os.path.dirname(place), ".new")
    try:
        with _buffered(descriptor, path) as file:
            yield file
        with _named(path):
            _sync(new)
            takes_place = _is_made_alike(new, place)
            _look(path, rule)
            if takes_place:
                os.replace(new, place)
            else:
                _write_into(place, new)
                os.remove(new)
    except BaseException:
        with contextlib.suppress(OSError):
            os.remove(new)
        raise
    # Not every disk can be asked for this of a folder.
    with contextlib.suppress(OSError):
        _sync(os.path.dirname(place))


def _is_made_alike(new: str, place: str) -> bool:
    """Gives a new file the mode, owner and group of the one in its place, else the mode of new ones. Whether it may take that place: no link leads to
    the old file by another name, and the new one could be made like it."""
    old, made = _stat(place), os.stat(new)
    # A disk without modes refuses to set one, and a user may not give a file away.
    with contextlib.suppress(OSError):
        if old is None:
            umask = os.umask(0o077)
            os.umask(umask)
            os.chmod(new, 0o666 & ~umask)
            return True
        if (old.st_uid, old.st_gid) != (made.st_uid, made.st_gid):
            os.chown(new, old.st_uid, old.st_gid)
        os.chmod(new, stat.S_IMODE(old.st_mode))
        return old.st_nlink == 1
    return old is None


def _write_into(place: str, new: str) -> None:
    """Writes a file's bytes into another one, which keeps its names, mode and owner. Their room is taken first: a full disk changes nothing."""
    import shutil

    with open(new, "rb") as source, open(os.open(place, os.O_WRONLY), "wb") as target:
        size, old = os.fstat(source.fileno()).st_size, os.fstat(target.fileno()).st_size
        if size > old:
            try:
                os.posix_fallocate(target.fileno(), old, size - old)
            except OSError:
                target.truncate(old)
                raise
        shutil.copyfileobj(source, target)
        target.truncate(size)
        target.flush()
        os.fsync(target.fileno())


def _sync(path: str) -> None:
    """Has the disk take a file, or the names in a folder, for good."""
    descriptor = os.open(path, os.O_RDONLY)
    try:
        os.fsync(descriptor)
    finally:
        os.close(descriptor)


class _Raw(io.FileIO):
    """A file to write whose faults have the name that the user gave."""

    def __init__(self, descriptor: int, shown: str) -> None:
        super().__init__(descriptor, "w")
        self.shown = shown

    def write(self, data: Any) -> int:
        with _named(self.shown):
            return super().write(data)


def _buffered(descriptor: int, shown: str) -> BinaryIO:
    return io.BufferedWriter(_Raw(descriptor, shown))


@contextlib.contextmanager
def _named(shown: str) -> Iterator[None]:
    """Gives a fault of the system the name that the user knows."""
    try:
        yield
    except OSError as fault:
        raise OSError(fault.errno, fault.strerror, shown) from None


def say(text: str) -> None:
    """Writes a text to standard output. For an empty one that may be closed."""
    if text:
        with output(None, anything) as out:
            out.write(text)


class Progress:
    """Says on standard error which part of a long work is done, where a terminal shows it."""

    # The seconds before it says something, and between two lines.
    PATIENCE, STEP = 2.0, 0.5

    def __init__(self) -> None:
        self.due = time.monotonic() + self.PATIENCE if sys.stderr and sys.stderr.isatty() else math.inf
        self.is_shown = False

    def __call__(self, part: float) -> None:
        if part >= 1 and self.is_shown:
            sys.stderr.write("\r    \r")
        elif time.monotonic() >= self.due:
            sys.stderr.write(f"\r{min(part, 1):4.0%}")
            self.is_shown, self.due = True, time.monotonic() + self.STEP
        sys.stderr.flush()


def end_by(number: signal.Signals) -> int:
    """Ends this process by a signal, so that its caller sees what a program sees that does not handle it: a shell reports 128 and the number."""
    signal.signal(number, signal.SIG_DFL)
    os.kill(os.getpid(), number)
    return 128 + number
