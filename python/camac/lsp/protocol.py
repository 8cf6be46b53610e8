"""Messages of the Language Server Protocol over two streams: JSON-RPC 2.0 behind headers, and requests that are cancelled before they are begun."""
import json
import queue
import threading
from typing import Any, BinaryIO, Dict, Optional, Set, Union

Message = Dict[str, Any]
PARSE_ERROR, INVALID_REQUEST, METHOD_NOT_FOUND, INVALID_PARAMS, INTERNAL_ERROR = -32700, -32600, -32601, -32602, -32603
NOT_INITIALIZED, CANCELLED, FAILED = -32002, -32800, -32803
# The kind of a message that a client logs.
INFO = 3
# A longer message is none of an editor's.
MOST_BYTES = 1 << 26
HEADER = b"content-length:"
LONGEST_HEADER = 1 << 16


class ResponseError(Exception):
    """Why a request has no result, as the client gets it."""

    def __init__(self, code: int, text: str) -> None:
        super().__init__(text)
        self.code = code


class Garbled(Exception):
    """Bytes that are no message. The stream goes on with the next header."""


class Ended(Exception):
    """The stream is at its end, or cannot be read."""


def read_message(stream: BinaryIO) -> Message:
    """The next message. Lines that are no header are passed over, so that a wrong length costs what it hides and no more. Raises Garbled if the bytes
    behind a header are no message, and Ended at the end of the stream, also within a message."""
    try:
        size = _read_headers(stream)
        data = stream.read(size)
    except (OSError, ValueError) as why:
        raise Ended from why
    if len(data) < size:
        raise Ended
    try:
        message = json.loads(data.decode("utf-8"))
    except (ValueError, RecursionError) as why:
        raise Garbled(f"no JSON: {why}") from None
    if not isinstance(message, dict):
        raise Garbled("a message is an object")
    return message


def _read_headers(stream: BinaryIO) -> int:
    """How long the next message is."""
    size: Optional[int] = None
    while True:
        line = stream.readline(LONGEST_HEADER)
        if not line:
            raise Ended
        if line.strip():
            if line.lower().startswith(HEADER):
                word = line[len(HEADER) :].strip()
                if not word.isdigit() or len(word) > 12 or int(word) > MOST_BYTES:
                    raise Garbled("no length of a message")
                size = int(word)
        elif size is not None:
            return size


class Connection:
    """The messages from and to a client, in their order. A thread of its own reads, so that a request can be cancelled while it waits."""

    def __init__(self, source: BinaryIO, target: BinaryIO) -> None:
        self.source, self.target = source, target
        # Messages, also those of the server's own, and what failed, which the client logs.
        self.arrived: "queue.Queue[Union[Message, Exception]]" = queue.Queue()
        self.lock = threading.Lock()
        # The requests that wait, and those of them that are cancelled.
        self.waiting: Set[Union[int, str]] = set()
        self.cancelled: Set[Union[int, str]] = set()
        threading.Thread(target=self._read, daemon=True).start()

    def _read(self) -> None:
        """Reads to the end of the stream. Whatever fails arrives in the place of a message, and the next one is read."""
        is_open = True
        while is_open:
            try:
                it = read_message(self.source)
                if not self._is_noted(it):
                    self.arrived.put(it)
            except Exception as why:
                is_open = not isinstance(why, Ended)
                self.arrived.put(why)

    def _is_noted(self, it: Message) -> bool:
        """Notes a request, and whether one is to be cancelled; whether that is all that a message is for."""
        is_cancel = it.get("method") == "$/cancelRequest"
        number = it["params"]["id"] if is_cancel else it.get("id")
        with self.lock:
            if is_cancel and number in self.waiting:
                self.cancelled.add(number)
            elif "method" in it and isinstance(number, (int, str)):
                self.waiting.add(number)
        return is_cancel

    def next(self, timeout: Optional[float]) -> Optional[Message]:
        """The next message that is to be answered; None if none comes in time. Raises Ended at the end of the stream."""
        while True:
            try:
                it = self.arrived.get(timeout=timeout)
            except queue.Empty:
                return None
            if isinstance(it, Ended):
                raise it
            elif isinstance(it, Garbled):
                self.fail(None, ResponseError(PARSE_ERROR, str(it)))
            elif isinstance(it, Exception):
                self.log(f"camac: {it!r}")
            elif self._is_cancelled(it):
                self.fail(it.get("id"), ResponseError(CANCELLED, "the request was cancelled"))
            else:
                return it

    def _is_cancelled(self, it: Message) -> bool:
        number = it.get("id")
        with self.lock:
            if not isinstance(number, (int, str)) or number not in self.waiting:
                return False
            is_cancelled = number in self.cancelled
            self.waiting.discard(number)
            self.cancelled.discard(number)
        return is_cancelled

    def send(self, message: Message) -> None:
        data = json.dumps({"jsonrpc": "2.0", **message}).encode()
        self.target.write(b"Content-Length: %d\r\n\r\n%b" % (len(data), data))
        self.target.flush()

    def notify(self, method: str, **params: Any) -> None:
        self.send({"method": method, "params": params})

    def log(self, text: str) -> None:
        self.notify("window/logMessage", type=INFO, message=text)

    def answer(self, number: Any, result: Any) -> None:
        self.send({"id": number, "result": result})

    def fail(self, number: Any, error: ResponseError) -> None:
        self.send({"id": number, "error": {"code": error.code, "message": str(error)}})
