"""A client of the language server, for tests: it starts the server, sends messages, and reads what comes."""
import json
import os
import pathlib
import queue
import subprocess
import sys
import threading
import time

from support.live import PATIENCE, TOP

SCRIPT = """\
cdlam adc 1 1 5 12
var v t
proc get(s in 0..11) within 3 cycles event 1 words steps 3 {
  cdreg r 1 1 5 s
  cfsa 0 r -> s
  put s
}
service adc within 6 cycles event 2 words {
  cdreg r 1 1 6 0
  cfsa 0 r -> v
  call get(v % 12)
  put v
}
"""


class Client:
    """A server and what it says. `diagnostics` has the last ones of each URI, with their version, `versions` the last one sent, and `arrived` when
    the last message came."""

    def __init__(self, environment, begin=True):
        words = [sys.executable, "-m", "camac", "lsp"]
        env = {**os.environ, "PYTHONPATH": str(TOP / "python"), **environment}
        self.server = subprocess.Popen(words, env=env, stdin=subprocess.PIPE, stdout=subprocess.PIPE, stderr=subprocess.PIPE)
        self.said, self.number, self.arrived = queue.Queue(), 0, 0.0
        self.diagnostics, self.versions, self.logged, self.applied = {}, {}, [], []
        threading.Thread(target=self.read, daemon=True).start()
        if begin:
            self.capabilities = self.ask("initialize", processId=None, rootUri=None, capabilities={})["capabilities"]
            self.tell("initialized")

    def read(self):
        out = self.server.stdout
        while True:
            size = 0
            while line := out.readline():
                if line == b"\r\n":
                    break
                if line.lower().startswith(b"content-length:"):
                    size = int(line.split(b":")[1])
            if not line:
                self.said.put(None)
                return
            data, self.arrived = out.read(size), time.perf_counter()
            self.said.put(json.loads(data))

    def write(self, data):
        self.server.stdin.write(data)
        self.server.stdin.flush()

    def send(self, **message):
        data = json.dumps({"jsonrpc": "2.0", **message}).encode()
        self.write(b"Content-Length: %d\r\n\r\n" % len(data) + data)

    def tell(self, method, **params):
        self.send(method=method, params=params)

    def begin(self, method, **params):
        """Sends a request, and returns its number."""
        self.number += 1
        self.send(id=self.number, method=method, params=params)
        return self.number

    def ask(self, method, **params):
        """The result of a request, or the error as a dict with `code`."""
        return self.result(self.begin(method, **params))

    def result(self, number):
        while True:
            it = self.next()
            if "method" not in it and it.get("id") == number:
                return it["error"] if "error" in it else it["result"]

    def next(self, patience=PATIENCE):
        it = self.said.get(timeout=patience)
        if it is None:
            raise EOFError(self.server.stderr.read().decode())
        method, params = it.get("method"), it.get("params")
        if method == "textDocument/publishDiagnostics":
            self.diagnostics[params["uri"]] = params.get("version"), params["diagnostics"]
        elif method == "window/logMessage":
            self.logged.append(params["message"])
        elif method == "workspace/applyEdit":
            self.applied.append(params["edit"])
        return it

    def until(self, is_so, patience=PATIENCE):
        """Reads until something is so."""
        end = time.monotonic() + patience
        while not is_so():
            self.next(max(0.01, end - time.monotonic()))

    def found(self, uri, version=None, patience=PATIENCE):
        """The diagnostics of a version, the last that was sent or another, as they come first."""
        wanted = self.versions[uri] if version is None else version
        self.until(lambda: self.diagnostics.get(uri, (None,))[0] == wanted, patience)
        return self.diagnostics[uri][1]

    def open(self, path, text, version=None, language="camac"):
        """Opens a text, with a version that no earlier one of this path had: what was said of those may still be on its way."""
        uri = pathlib.Path(path).as_uri()
        self.diagnostics.pop(uri, None)
        version = self.versions[uri] = self.versions.get(uri, 0) + 1 if version is None else version
        self.tell("textDocument/didOpen", textDocument={"uri": uri, "languageId": language, "version": version, "text": text})
        return uri

    def change(self, uri, version, *changes):
        """Changes a text: each change is a text, or (first, last, text) with places as (line, character)."""
        self.versions[uri] = version
        content = [{"text": it} if isinstance(it, str) else {"range": span(*it[:2]), "text": it[2]} for it in changes]
        self.tell("textDocument/didChange", textDocument={"uri": uri, "version": version}, contentChanges=content)

    def at(self, method, uri, line, character, **more):
        return self.ask(f"textDocument/{method}", textDocument={"uri": uri}, position={"line": line, "character": character}, **more)

    def actions(self, uri, line, last=None):
        where = span((line, 0), (line if last is None else last, 0))
        return self.ask("textDocument/codeAction", textDocument={"uri": uri}, range=where, context={"diagnostics": []})

    def end(self):
        """Shuts the server down, and returns its status and what it said on standard error."""
        self.ask("shutdown")
        self.tell("exit")
        said = self.server.stderr.read().decode()
        return self.server.wait(PATIENCE), said

    def kill(self):
        """Ends the server, which puts away what it has on the disk."""
        self.server.terminate()
        self.server.wait(PATIENCE)
        for it in (self.server.stdin, self.server.stdout, self.server.stderr):
            it.close()


def span(first, last):
    return {"start": {"line": first[0], "character": first[1]}, "end": {"line": last[0], "character": last[1]}}


def applied(text, edits):
    """A text with a client's edits, by columns in UTF-16."""
    lines = text.split("\n")

    def place(at):
        units = lines[at["line"]].encode("utf-16-le")[: 2 * at["character"]]
        return sum(len(it) + 1 for it in lines[: at["line"]]) + len(units.decode("utf-16-le"))

    for it in sorted(edits, key=lambda it: (it["range"]["start"]["line"], it["range"]["start"]["character"]), reverse=True):
        text = text[: place(it["range"]["start"])] + it["newText"] + text[place(it["range"]["end"]) :]
    return text
