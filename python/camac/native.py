"""The library for C as ctypes sees it: its structs, its calls, and where its file is.

The library is `libcamac.so.0`: the one that the environment variable CAMAC_LIBRARY names, else the one in this package or in the folder where
./install put both, else the system's."""
import ctypes
import functools
import os
import struct
from ctypes import POINTER, c_char, c_char_p, c_size_t, c_uint8, c_uint32, c_void_p
from typing import Any, Dict, List, NamedTuple, Tuple

from camac.program import VERSION, version_text

NAME = "libcamac.so.0"
OK, REFUSED, MISUSE, NO_MEMORY, OVERRUN, RANGE, SPENT, LONG, BUSY = range(9)
DEMAND, CYCLE, LOCK, STOPPED, BLOCK, UNLOCK = range(1, 7)
Q_STOP, Q_REPEAT, SCAN, WRITES, IN_LISTS = 1, 2, 4, 8, 16
NO_DATA, READ, WRITE = range(3)
EVENT_WORDS = 4096
# What `camac_tell` is asked, by the words of the program.
ASKS = {it: number for number, it in enumerate("plan explain_plan check explain explain_bounds bounds costs tell".split(), 1)}
# More steps than any service makes.
NO_LIMIT = 4_294_967_295
# The most operations that are told ahead, and the most that set the crates back.
AHEAD = 64
BACK = 14


class _Sized(ctypes.Structure):
    """A struct that begins with its size and ends in spare words."""

    def __init__(self, **fields: int) -> None:
        super().__init__(size=ctypes.sizeof(self), **fields)


def _fields(kind: Any, names: str) -> List[Tuple[str, Any]]:
    return [(name, kind) for name in names.split()]


class SessionStruct(_Sized):
    """A session: none, until it is opened."""

    _fields_ = [("size", c_uint32), ("version", c_uint32), ("private", c_void_p * 6), ("state", c_uint32 * 2)]

    def __init__(self) -> None:
        super().__init__(version=VERSION)


class Want(_Sized):
    """What the next answer is for: `kind`, the longest wait that its answer may have, `waits`, and of a CYCLE `c`, `n`, `a`, `f`, `data`, the
    `width` of what it reads, the `word` to write and `is_short`, 1 at `cssa`, of a LOCK `c`. A BLOCK has those of its first cycle, its `mode`, its
    final station and sub-address, `last_n` and `last_a`, the most `cycles`, and the most `words` with Q = 1. An UNLOCK, the release of a lockout in
    a list, has `c`."""

    _fields_ = [
        ("size", c_uint32), *_fields(c_uint8, "kind c n a f data waits width"), ("word", c_uint32),
        *_fields(c_uint8, "mode last_n last_a is_short"), *_fields(c_uint32, "cycles words spare"),
    ]


class AnswerStruct(_Sized):
    _fields_ = [*_fields(c_uint32, "size word gl"), *_fields(c_uint8, "x q wait unused"), ("spare", c_uint32 * 4)]


# The fields of both behind their size: struct takes half of the time that ctypes takes for one after another.
read_want = struct.Struct("=6B").unpack_from
write_answer = struct.Struct("=IIBBB").pack_into
BEHIND_SIZE = 4
ANSWER_SIZE = ctypes.sizeof(AnswerStruct)


class Progress(_Sized):
    """What an answer did, as in camac.h. Of an overrun `kind` is STOPPED, with its crate `c` and its `wait`."""

    _fields_ = [
        ("size", c_uint32),
        *_fields(c_uint8, "kind c wait x q"),
        ("unused", c_uint8 * 3),
        # Python reads one number faster than four
        *_fields(c_uint32, "first_unlocked more_unlocked word pattern service event event_gl event_words event_cycles event_missed event_service cut"),
        ("spare", c_uint32),
    ]

    @property
    def unlocked(self) -> Tuple[int, ...]:
        """The crates whose lockout is to be released now, in this order."""
        return tuple(it for it in (self.first_unlocked | self.more_unlocked << 32).to_bytes(8, "little") if it)

    def add(self, more: "Progress") -> None:
        """Adds what the run did after a pause."""
        crates = int.from_bytes((*self.unlocked, *more.unlocked), "little")
        self.first_unlocked, self.more_unlocked = crates & 0xFFFF_FFFF, crates >> 32
        for name in "event event_gl event_words event_cycles event_missed event_service".split():
            setattr(self, name, getattr(more, name))


class ServiceStruct(_Sized):
    _fields_ = [
        ("size", c_uint32), ("name", c_char * 36), *_fields(c_uint32, "c n a gl line cycles words steps most_cycles most_words"),
        ("spare", c_uint32 * 4),
    ]


class Calls(NamedTuple):
    """The calls of the library. Those on texts let other threads of Python run meanwhile. Those on a session do not: they are short, and so one
    session may be closed by another thread."""

    texts: ctypes.CDLL
    sessions: ctypes.PyDLL


_TEXT, _BUFFER, _SESSION = [c_char_p, c_size_t], [c_char_p, c_size_t, POINTER(c_size_t)], POINTER(SessionStruct)
_OF_TEXTS: Dict[str, List[Any]] = {
    "tell": [c_uint32, *_TEXT, *_TEXT, *_BUFFER], "events": [*_TEXT, *_BUFFER], "explain_at": [*_TEXT, *_TEXT, c_uint32, c_uint32, *_BUFFER],
    "response": [*_TEXT, *_TEXT, *_TEXT, *_TEXT, *_BUFFER], "run": [*_TEXT, *_TEXT, *_TEXT, *_BUFFER, *_BUFFER],
    "open": [_SESSION, *_TEXT, *_TEXT, *_BUFFER],
}
_OF_SESSIONS: Dict[str, List[Any]] = {
    **{name: [_SESSION] for name in ("answers_left", "services", "rewind", "close")},
    **{name: [_SESSION, *_BUFFER] for name in ("item", "record")},
    **{name: [_SESSION, POINTER(c_uint32), c_size_t] for name in ("words", "held", "block_words")},
    "wants": [_SESSION, POINTER(Want)],
    **{name: [_SESSION, POINTER(Want), c_size_t] for name in ("ahead", "back")},
    "service_ahead": [_SESSION, c_uint32, POINTER(Want), c_size_t, POINTER(c_size_t)],
    "next": [_SESSION, POINTER(AnswerStruct), POINTER(Progress)],
    **{name: [_SESSION, POINTER(AnswerStruct), POINTER(Progress), c_size_t, POINTER(c_size_t)] for name in ("next_many", "block")},
    "next_list": [_SESSION, POINTER(Want), POINTER(c_size_t), POINTER(AnswerStruct), POINTER(Progress), c_size_t, POINTER(c_size_t)],
    "blocks": [_SESSION, c_uint32],
    "step": [_SESSION, POINTER(AnswerStruct), POINTER(Progress), POINTER(Want)],
    "limit_steps": [_SESSION, c_uint32],
    "go_on": [_SESSION, POINTER(Progress)],
    "file_header": [c_char_p, c_size_t],
    "where": [_SESSION, POINTER(c_uint32), POINTER(c_uint32)],
    "service": [_SESSION, c_uint32, POINTER(ServiceStruct)],
    "abandon": [_SESSION, POINTER(c_uint32), c_size_t, POINTER(c_size_t)],
}
# What is called at each answer. Their arguments are made once, as C has them, and ctypes takes half of the time where it need not look at them.
_OFTEN = frozenset(("wants", "next", "step", "item", "record"))
_RESULTS = {"ahead": c_size_t, "back": c_size_t, "words": c_size_t, "held": c_size_t, "block_words": c_size_t, "file_header": c_size_t, "answers_left": c_uint32, "services": c_size_t, "close": None}


def find_library() -> str:
    """The file of the library; its name alone if the system has to find it."""
    named = os.environ.get("CAMAC_LIBRARY")
    if named:
        return named
    here = os.path.dirname(os.path.realpath(__file__))
    places = (os.path.join(it, NAME) for it in (here, os.path.abspath(os.path.join(here, *3 * [os.pardir]))))
    return next(filter(os.path.isfile, places), NAME)


def loaded() -> str:
    """The file of the library that `load` has loaded, also where the system found it."""
    load()
    with open("/proc/self/maps", encoding="utf-8", errors="surrogateescape") as lines:
        places = [line.rstrip("\n").partition("/") for line in lines]
    file = find_library()
    return file if os.path.isabs(file) else next((f"/{place}" for _, _, place in places if os.path.basename(place) == os.path.basename(file)), file)


def version() -> str:
    return version_text(load().texts.camac_version())


def _check_version(library: ctypes.CDLL, found: str) -> None:
    """Raises OSError if a library is of a version that does not fit."""
    try:
        tell = library.camac_version
    except AttributeError:
        raise OSError(f"{found} is an older library of camac, or none") from None
    tell.argtypes, tell.restype = [], c_uint32
    number = tell()
    if number // 100 != VERSION // 100:
        raise OSError(f"{found} has the version {version_text(number)}, which does not fit {version_text(VERSION)}")


def _declare(library: ctypes.CDLL, forms: Dict[str, List[Any]]) -> None:
    for name, form in forms.items():
        call = getattr(library, f"camac_{name}")
        call.argtypes, call.restype = None if name in _OFTEN else form, _RESULTS.get(name, ctypes.c_int)


@functools.lru_cache(maxsize=None)
def load() -> Calls:
    """The library, with the types of its calls. Raises OSError if it cannot be loaded, or is of a version that does not fit."""
    found = find_library()
    try:
        library = ctypes.CDLL(found)
    except OSError as why:
        if found != NAME:
            raise
        raise FileNotFoundError(f"{NAME} is nowhere to be found: ./install puts it in place, and CAMAC_LIBRARY may name it") from why
    _check_version(library, found)
    calls = Calls(library, ctypes.PyDLL(found))
    _declare(calls.texts, _OF_TEXTS)
    _declare(calls.sessions, _OF_SESSIONS)
    return calls


def is_there() -> bool:
    """Whether the library can be loaded."""
    try:
        load()
    except OSError:
        return False
    return True
