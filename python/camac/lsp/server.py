"""The server: its answers to the messages of a client."""
import os
import signal
import sys
import threading
import time
from typing import TYPE_CHECKING, Any, BinaryIO, Callable, Dict, List, Optional, Sequence, Set, Tuple, Union

from camac import native
from camac.layout import LayoutFault, formatted
from camac.lsp import diagnostics
from camac.lsp.documents import Text
from camac.texts import Edit
from camac.lsp.protocol import (
    FAILED, INFO, INTERNAL_ERROR, INVALID_PARAMS, INVALID_REQUEST, METHOD_NOT_FOUND, NOT_INITIALIZED, Connection, Ended, Message, ResponseError,
)
from camac.lsp.refusals import refusals
from camac.lsp.workspace import Choice, Document, Judged, Workspace, is_plan_text
from camac.names import Mention

if TYPE_CHECKING:
    from camac.lsp.actions import Fix
    from camac.warn import Warned

# What is loaded in a method is needed by few sessions, or late in them.
# The seconds without a message before warnings are looked for, and between two looks at the plans on the disk.
QUIET, LOOK = 0.3, 1.0
# The seconds after which a document is judged although it still changes.
LONGEST = 0.1
SWITCH = 0.000_5
KEEPS = "camac.keeps"
# What wrong parameters raise.
OF_PARAMS = (LookupError, TypeError, AttributeError)
Params = Dict[str, Any]


class Own(Dict[str, Any]):
    """A message of the server's own: the warnings of a version of a script."""


class Late(threading.Thread):
    """Looks for warnings beside the server, since they may take long. Of each document the last version that was given counts."""

    def __init__(self, put: Callable[[Union[Own, Exception]], None]) -> None:
        super().__init__(daemon=True)
        self.put = put
        self.jobs: Dict[str, Judged] = {}
        self.ready = threading.Condition()
        self.start()

    def give(self, uri: str, judged: Judged) -> None:
        with self.ready:
            self.jobs[uri] = judged
            self.ready.notify()

    def run(self) -> None:
        while True:
            with self.ready:
                self.ready.wait_for(lambda: bool(self.jobs))
                uri, judged = self.jobs.popitem()
            try:
                self.put(Own(uri=uri, judged=judged, found=diagnostics.warned(judged)))
            except Exception as why:
                self.put(why)


class Server:
    """One client's server, from `initialize` to `exit`."""

    def __init__(self, source: BinaryIO, target: BinaryIO) -> None:
        self.client = Connection(source, target)
        self.workspace = Workspace(self.tell_choice)
        self.late = Late(self.client.arrived.put)
        self.state = "new"
        # By URI: the last version whose warnings are known, with these; when they are to be looked for; and the scripts whose plan cannot be read.
        self.warned: Dict[str, "Tuple[Text, List[Warned]]"] = {}
        self.due: Dict[str, float] = {}
        self.faulty: Set[str] = set()
        # The documents of which something is to be published, and since when.
        self.stale: Dict[str, float] = {}
        self.looked = time.monotonic()
        self.asked = 0
        self.requests: Dict[str, Callable[[Params], Any]] = {
            "initialize": self.initialize, "shutdown": self.shutdown,
            "textDocument/hover": self.on_hover, "textDocument/completion": self.on_completion,
            "textDocument/definition": lambda params: self.locations(params, lambda it: it.declares),
            "textDocument/references": self.on_references, "textDocument/prepareRename": self.on_prepare_rename,
            "textDocument/documentHighlight": lambda params: [{"range": it["range"]} for it in self.locations(params)],
            "textDocument/rename": self.on_rename, "textDocument/documentSymbol": self.on_symbols,
            "textDocument/foldingRange": self.on_folds, "textDocument/formatting": self.on_formatting,
            "textDocument/codeAction": self.on_actions, "workspace/executeCommand": self.on_command,
        }
        self.notifications: Dict[str, Callable[[Params], None]] = {
            "textDocument/didOpen": self.on_open, "textDocument/didChange": self.on_change, "textDocument/didClose": self.on_close,
            "textDocument/didSave": lambda _: self.look_at_plans(), "workspace/didChangeWatchedFiles": lambda _: self.look_at_plans(),
        }

    def serve(self) -> int:
        """Answers until the client says `exit`, and returns the status: 1 if it did not say `shutdown` before."""
        # So the search for warnings holds up no answer.
        sys.setswitchinterval(SWITCH)
        try:
            while True:
                message = self.client.next(QUIET / 2 if self.due else LOOK)
                if isinstance(message, Own):
                    own = message
                    self.guarded(lambda: self.publish_late(own))
                elif message and message.get("method") == "exit":
                    return 0 if self.state == "shut" else 1
                elif message:
                    self.handle(message)
                self.guarded(self.pause)
        except (Ended, BrokenPipeError):
            return 0 if self.state == "shut" else 1
        finally:
            self.workspace.close()

    def handle(self, message: Message) -> None:
        method, number = message.get("method"), message.get("id")
        params = message.get("params") or {}
        if not isinstance(method, str):
            if "method" in message:
                self.client.fail(number, ResponseError(INVALID_REQUEST, "the name of a method is a text"))
            return
        if number is None:
            if self.state == "ready" and method in self.notifications:
                notify = self.notifications[method]
                self.guarded(lambda: notify(params))
            return
        try:
            self.client.answer(number, self.result(method, params))
        except ResponseError as error:
            self.client.fail(number, error)
        except OF_PARAMS as why:
            self.client.fail(number, ResponseError(INVALID_PARAMS, f"{method}: {why!r}"))
        except Exception as why:
            self.client.fail(number, ResponseError(INTERNAL_ERROR, f"{method}: {why}"))

    def result(self, method: str, params: Params) -> Any:
        if self.state == "new" and method != "initialize":
            raise ResponseError(NOT_INITIALIZED, "`initialize` comes first")
        if self.state == "shut" or self.state == "ready" and method == "initialize":
            raise ResponseError(INVALID_REQUEST, f"`{method}` has no place here")
        if method not in self.requests:
            raise ResponseError(METHOD_NOT_FOUND, f"there is no `{method}`")
        return self.requests[method](params)

    def guarded(self, call: Callable[[], None]) -> None:
        """Does what a notification asks for. Whatever fails is logged by the client, and the server goes on."""
        try:
            call()
        except Exception as why:
            self.client.log(f"camac: {why!r}")

    def initialize(self, _: Params) -> Any:
        self.state = "ready"
        capabilities = {
            "positionEncoding": "utf-16", "textDocumentSync": {"openClose": True, "change": 2, "save": {"includeText": False}},
            "hoverProvider": True, "completionProvider": {"triggerCharacters": [" "]}, "definitionProvider": True, "referencesProvider": True,
            "documentHighlightProvider": True, "renameProvider": {"prepareProvider": True}, "documentSymbolProvider": True,
            "foldingRangeProvider": True, "documentFormattingProvider": True, "codeActionProvider": {"codeActionKinds": ["quickfix"]},
            "executeCommandProvider": {"commands": [KEEPS]},
        }
        version = {"version": native.version()} if native.is_there() else {}
        return {"capabilities": capabilities, "serverInfo": {"name": "camac-lsp", **version}}

    def shutdown(self, _: Params) -> None:
        self.state = "shut"

    # Documents

    def document(self, params: Params) -> Document:
        uri = params["textDocument"]["uri"]
        if uri not in self.workspace.documents:
            raise ResponseError(INVALID_PARAMS, f"{uri} is not open")
        return self.workspace.documents[uri]

    def script(self, params: Params) -> Optional[Judged]:
        """What is said of the script that a request is about; None if that is a plan."""
        document = self.document(params)
        return None if document.is_plan else self.workspace.judged(document)

    def on_open(self, params: Params) -> None:
        opened = params["textDocument"]
        text = Text(opened["text"])
        is_toml = opened.get("languageId") == "toml" or opened["uri"].endswith(".toml")
        self.workspace.documents[opened["uri"]] = Document(opened["uri"], is_toml, opened.get("version"), text)
        self.refresh(self.workspace.documents[opened["uri"]])

    def on_change(self, params: Params) -> None:
        uri = params["textDocument"]["uri"]
        document = self.workspace.documents.get(uri)
        if document is None:
            return
        document.text, document.version = document.text.changed(params["contentChanges"]), params["textDocument"].get("version")
        self.refresh(document)

    def on_close(self, params: Params) -> None:
        uri = params["textDocument"]["uri"]
        document = self.workspace.documents.pop(uri, None)
        self.warned.pop(uri, None)
        self.due.pop(uri, None)
        self.faulty.discard(uri)
        if document:
            self.client.notify("textDocument/publishDiagnostics", uri=uri, diagnostics=[])
            self.refresh(document)

    def refresh(self, document: Document) -> None:
        """Has published what is said of a document, and of all scripts if it is a plan. While more messages wait it is put off, but not for long."""
        self.stale.setdefault(document.uri, time.monotonic())
        for other in self.workspace.documents.values() if document.is_plan else ():
            self.stale.setdefault(other.uri, time.monotonic())

    def publish_stale(self) -> None:
        now = time.monotonic()
        for uri in [uri for uri, since in self.stale.items() if self.client.arrived.empty() or now - since >= LONGEST]:
            del self.stale[uri]
            if uri in self.workspace.documents:
                self.guarded(lambda it=self.workspace.documents[uri]: self.publish(it))  # type: ignore[misc]

    def publish(self, document: Document) -> None:
        """Publishes the refusals of a document, and of an accepted script the warnings that still fit, until all are looked for."""
        if document.is_plan:
            is_plan = is_plan_text(document.text.data)
            found = diagnostics.of_plan(self.workspace.judge(document.text.data), document.text) if is_plan else []
        else:
            self.faulty.add(document.uri)
            try:
                judged = self.workspace.judged(document)
            except OSError as why:
                found = [diagnostics.of_fault(document.text, f"the plan {why.filename} cannot be read: {why.strerror}")]
            else:
                self.faulty.discard(document.uri)
                found = diagnostics.of_refusals(judged) or self.kept_warnings(document)
                self.due[document.uri] = time.monotonic() + QUIET
        self.send_diagnostics(document, found)

    def send_diagnostics(self, document: Document, found: List[diagnostics.Diagnostic]) -> None:
        version = {} if document.version is None else {"version": document.version}
        self.client.notify("textDocument/publishDiagnostics", uri=document.uri, diagnostics=found, **version)

    def kept_warnings(self, document: Document) -> List[diagnostics.Diagnostic]:
        """The warnings of an earlier version whose lines are still there, or as much further down as the text is longer."""
        old, warned = self.warned.get(document.uri, (document.text, []))
        more = len(document.text.line_starts) - len(old.line_starts)
        found = []
        for it in warned:
            lines = [line for line in (it.line, it.line + more) if 0 < line <= len(document.text.line_starts)]
            line = next((line for line in lines if document.text.line_of(line) == old.line_of(it.line)), None)
            if line is not None:
                found.append(diagnostics.of_warning(it._replace(line=line), document.text))
        return found

    def pause(self) -> None:
        """What is done between messages: warnings are looked for if nothing came for a while, and plans on the disk are looked at."""
        self.publish_stale()
        now = time.monotonic()
        for uri in [uri for uri, due in self.due.items() if due <= now] if self.client.arrived.empty() else ():
            del self.due[uri]
            document = self.workspace.documents[uri]
            if document.judged and document.judged.text is document.text:
                self.late.give(uri, document.judged)
        if now - self.looked >= LOOK:
            self.look_at_plans()

    def look_at_plans(self) -> None:
        """Publishes anew what is said of scripts whose plan is another one than before."""
        self.looked = time.monotonic()
        for document in [it for it in self.workspace.documents.values() if not it.is_plan]:
            before, is_faulty = document.judged, False
            try:
                self.workspace.judged(document)
            except Exception:
                is_faulty = True
            if is_faulty != (document.uri in self.faulty) or document.judged is not before:
                self.refresh(document)
        self.publish_stale()

    def publish_late(self, own: Message) -> None:
        """Publishes a script's warnings, if it is still their version."""
        document = self.workspace.documents.get(own["uri"])
        if document is None or document.judged is not own["judged"] or document.text is not document.judged.text:
            return
        self.warned[document.uri] = document.text, own["found"]
        if not diagnostics.of_refusals(document.judged):
            self.send_diagnostics(document, [diagnostics.of_warning(it, document.text) for it in own["found"]])

    def tell_choice(self, document: Document, choice: Choice) -> None:
        self.client.log(f"camac: {document.uri.rpartition('/')[2]} is judged on the plan {choice.file}: {choice.why}")

    # Requests

    def on_hover(self, params: Params) -> Any:
        from camac.lsp.hover import hover

        document = self.document(params)
        if document.is_plan:
            return None
        judged = self.workspace.judged(document)
        found = hover(judged, judged.text.place(params["position"]), document.choice or Choice("", ""))
        return found and {"contents": {"kind": "markdown", "value": found[0]}, "range": judged.text.range(*found[1:])}

    def on_completion(self, params: Params) -> Any:
        from camac.lsp.completion import complete

        judged = self.script(params)
        return complete(judged, judged.text.place(params["position"])) if judged else []

    def named(self, params: Params) -> Optional[Tuple[Judged, Mention]]:
        """The script that a request is about, and the name at its position; None if there is none."""
        judged = self.script(params)
        mention = judged.names.at(judged.text.place(params["position"])) if judged else None
        return (judged, mention) if judged and mention else None

    def locations(self, params: Params, is_fit: Callable[[Mention], bool] = lambda _: True) -> List[Any]:
        """The places of the name at a position that fit."""
        named = self.named(params)
        if named is None:
            return []
        judged, mention = named
        found = [it for it in judged.names.of(mention.symbol) if is_fit(it)]
        return [{"uri": params["textDocument"]["uri"], "range": judged.text.range(it.start, it.end)} for it in found]

    def on_references(self, params: Params) -> Any:
        with_declarations = (params.get("context") or {}).get("includeDeclaration", True)
        return self.locations(params, lambda it: with_declarations or not it.declares)

    def on_prepare_rename(self, params: Params) -> Any:
        named = self.named(params)
        return named[0].text.range(named[1].start, named[1].end) if named else None

    def on_rename(self, params: Params) -> Any:
        from camac.lsp.symbols import renamed

        named = self.named(params)
        if named is None:
            raise ResponseError(FAILED, "there is no name here")
        return self.workspace_edit(params["textDocument"]["uri"], named[0], renamed(*named, params["newName"]))

    def workspace_edit(self, uri: str, judged: Judged, edits: Sequence[Edit]) -> Any:
        return {"changes": {uri: judged.text.edits(edits)}}

    def on_symbols(self, params: Params) -> Any:
        from camac.lsp import symbols

        document = self.document(params)
        return symbols.symbols_of_plan(document.text) if document.is_plan else symbols.symbols_of_script(self.workspace.judged(document))

    def on_folds(self, params: Params) -> Any:
        from camac.lsp import symbols

        document = self.document(params)
        return list(symbols.folds(document.text, document.is_plan))

    def on_formatting(self, params: Params) -> Any:
        document = self.document(params)
        if document.is_plan:
            return []
        try:
            made = formatted(document.text.data)
        except LayoutFault as fault:
            raise ResponseError(FAILED, f"line {fault.line}: {fault}") from None
        return document.text.edits(between(document.text.data, made))

    def on_actions(self, params: Params) -> Any:
        from camac.lsp import actions

        judged = self.script(params)
        if judged is None:
            return []
        uri, text = params["textDocument"]["uri"], judged.text
        first, last = (text.line_at(text.place(params["range"][it])) for it in ("start", "end"))
        version, warned = self.warned.get(uri, (text, []))
        found = actions.fixes(judged, range(first, last + 1), warned if version is text else [])
        shown = [it for it in params.get("context", {}).get("diagnostics", []) if isinstance(it, dict)]
        made = [self.action(uri, judged, it, shown) for it in {it.edits: it for it in reversed(list(found))}.values()][::-1]
        if len(text.data) > actions.QUICK and any(it.code in actions.OF_LOOPS for it in refusals(judged)):
            title = "Find what the loops need"
            made.append({"title": title, "kind": "quickfix", "command": {"title": title, "command": KEEPS, "arguments": [uri]}})
        return made

    def action(self, uri: str, judged: Judged, it: "Fix", shown: List[Any]) -> Any:
        fixed = [one for one in shown if one.get("code") == it.code]
        return {"title": it.title, "kind": "quickfix", "edit": self.workspace_edit(uri, judged, it.edits), **({"diagnostics": fixed} if fixed else {})}

    def on_command(self, params: Params) -> Any:
        if params["command"] != KEEPS:
            raise ResponseError(INVALID_PARAMS, f"there is no `{params['command']}`")
        from camac.lsp.actions import kept

        uri = params["arguments"][0]
        judged = self.script({"textDocument": {"uri": uri}})
        found = kept(judged) if judged else []
        if not found or judged is None:
            self.client.notify("window/showMessage", type=INFO, message="camac: nothing is found that helps the loops of this script")
            return None
        self.asked += 1
        edit = {"label": found[0].title, "edit": self.workspace_edit(uri, judged, found[0].edits)}
        self.client.send({"id": f"camac-{self.asked}", "method": "workspace/applyEdit", "params": edit})
        return None


def between(old: bytes, new: bytes) -> List[Edit]:
    """The lines that change from one text to another, as one edit."""
    if old == new:
        return []
    before, after = old.splitlines(True), new.splitlines(True)
    head = len(os.path.commonprefix([before, after]))
    tail = len(os.path.commonprefix([before[head:][::-1], after[head:][::-1]]))
    start = sum(map(len, before[:head]))
    end = len(old) - sum(map(len, before[len(before) - tail :]))
    return [Edit(start, end, b"".join(after[head : len(after) - tail]).decode("utf-8", "surrogatepass"))]


def serve() -> int:
    """Serves over standard input and output. A client that ends this process by SIGTERM leaves nothing on the disk."""
    signal.signal(signal.SIGTERM, lambda number, _: sys.exit(128 + number))
    # The thread that reads may still wait at the end, so this is not sys.stdin, which Python closes then.
    source, target = open(0, "rb", closefd=False), sys.stdout.buffer
    # Standard output has the messages alone, so a mistaken print goes to standard error.
    sys.stdout = sys.stderr
    return Server(source, target).serve()
