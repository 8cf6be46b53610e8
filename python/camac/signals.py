"""Signals that end a process, while a run may hold lockouts: they are raised as exceptions, and wait while a lockout is released."""
import contextlib
import signal
import sys
from types import FrameType, TracebackType
from typing import Any, Callable, Dict, Iterator, Optional, Set, Type, TypeVar

ENDS = [getattr(signal, it) for it in ("SIGINT", "SIGTERM", "SIGHUP") if hasattr(signal, it)]
# A shell tells by this and its number the signal that ended a process.
OF_SHELL = 128
Result = TypeVar("Result")


class Terminated(SystemExit):
    """SIGTERM or SIGHUP came. Where nothing catches it, the process ends with the status by which a shell tells this signal: 143 or 129."""


def signal_of(error: Optional[BaseException]) -> Optional[signal.Signals]:
    """The signal that an exception stands for; None if it stands for none."""
    if isinstance(error, Terminated):
        return signal.Signals(int(error.code or 0) - OF_SHELL)
    return signal.SIGINT if isinstance(error, KeyboardInterrupt) else None


@contextlib.contextmanager
def _blocked() -> Iterator[None]:
    """In the block none of these signals comes."""
    before = signal.pthread_sigmask(signal.SIG_BLOCK, ())
    try:
        # One that has come is handled in this call, and may raise: so the block is left as from everywhere else.
        signal.pthread_sigmask(signal.SIG_BLOCK, ENDS)
        yield
    finally:
        signal.pthread_sigmask(signal.SIG_SETMASK, before)


class Signals:
    """Within a `with`, SIGINT, SIGTERM and SIGHUP are heeded only in what `heed` calls, and not in what `hold` calls there: elsewhere they wait. Which
    it is is read from the calls in which a signal comes, so there is no moment between them.

    A signal that is heeded does what it did before; where it would have ended the process, Terminated is raised. What is ignored stays so. At
    the end the handlers are as they were, and signals that still wait are heeded, but for the one whose exception was the end.

    Python lets the main thread alone handle signals: in another one nothing is changed."""

    def __init__(self) -> None:
        self.before: Dict[int, Any] = {}
        self.waiting: Set[int] = set()

    def __enter__(self) -> "Signals":
        # In another thread the first one that is set raises ValueError.
        with contextlib.suppress(ValueError), _blocked():
            for number in ENDS:
                handler = signal.getsignal(number)
                if handler is signal.SIG_DFL or callable(handler):
                    self.before[number] = signal.signal(number, self._come)
        return self

    def __exit__(self, _kind: Optional[Type[BaseException]], error: Optional[BaseException], _trace: Optional[TracebackType]) -> None:
        with _blocked():
            for number, handler in self.before.items():
                signal.signal(number, handler)
        self.waiting -= {signal_of(error) or 0}
        self.heed(lambda: None)

    def heed(self, call: Callable[[], Result]) -> Result:
        """Calls, and has signals heeded meanwhile, first those that wait."""
        self._deliver(sys._getframe())
        return call()

    def hold(self, call: Callable[[int], None], given: int) -> None:
        """Calls, and has signals wait until that is done."""
        try:
            self._hold(call, given)
        finally:
            if self.waiting:
                self._deliver(sys._getframe())

    def _hold(self, call: Callable[[int], None], given: int) -> None:
        call(given)

    def _come(self, number: int, frame: Optional[FrameType]) -> None:
        self.waiting.add(number)
        self._deliver(frame)

    def _deliver(self, frame: Optional[FrameType]) -> None:
        """Has the signals that wait heeded, if they are to be in this frame."""
        if self._is_heeded(frame):
            for number in [*self.waiting]:
                self.waiting.discard(number)
                if not callable(self.before[number]):
                    raise Terminated(OF_SHELL + number)
                self.before[number](number, frame)

    def _is_heeded(self, frame: Optional[FrameType]) -> bool:
        while frame is not None:
            if frame.f_code in (_HEED, _HOLD) and frame.f_locals["self"] is self:
                return frame.f_code is _HEED
            frame = frame.f_back
        return False


_HEED, _HOLD = Signals.heed.__code__, Signals._hold.__code__
