"""The open documents, and the plan on which each script is judged."""
import contextlib
import functools
import itertools
import os
import re
from functools import cached_property
from typing import TYPE_CHECKING, Any, Callable, Dict, List, NamedTuple, Optional, Tuple, TypeVar

from camac.lsp.documents import Text
from camac.names import Names
from camac.printed import read_plan
from camac.program import Verdict, explain_plan, output_of, quickest, verdict
from camac.texts import GREATEST_TEXT, SAMPLE, TextFile, plan_text, read_regular
from camac.values import Plan

if TYPE_CHECKING:
    import pathlib
    import tempfile

T = TypeVar("T")
NUMBERS = itertools.count()
# The first line of a script may name its plan.
NAMED = re.compile(r"#\s*plan:\s*(\S+)", re.I)
PLAN_LIKE = re.compile(rb"^\s*\[\[\s*(?:type|crate)\b|^\s*(?:type|crate)\s*=|^#:schema\s.*plan\.schema\.json", re.M)
USUAL = "plan.toml"


class Choice(NamedTuple):
    """The plan of a script, by its file, and why it is this one."""

    file: str
    why: str

    def text(self) -> str:
        return f"{os.path.basename(self.file)} ({self.why})"


def is_plan_text(data: bytes) -> bool:
    return PLAN_LIKE.search(data) is not None


def choose(first_line: str, path: "Optional[pathlib.Path]") -> Choice:
    """The plan of a script: the one that its first line names, else the one plan beside it, else the built-in one. Of several plans beside it
    plan.toml is taken."""
    named = NAMED.match(first_line)
    if named and named[1] == SAMPLE:
        return Choice(SAMPLE, "the first line names it")
    if path is None:
        return Choice(SAMPLE, "the script is no file")
    if named:
        files = [path.parent / named[1], path.parent / named[1].rstrip(".,;")]
        return Choice(str(next((it for it in files if it.is_file()), files[0])), "the first line names it")
    plans: "List[pathlib.Path]" = []
    # A name with a NUL is none of a file.
    with contextlib.suppress(OSError, ValueError):
        plans = [it for it in sorted(path.parent.glob("*.toml")) if _is_plan(str(it), it.stat().st_mtime_ns)]
    usual = [it for it in plans if it.name == USUAL]
    if len(plans) == 1 or usual:
        return Choice(str((usual or plans)[0]), "the plan beside the script" if len(plans) == 1 else "of the plans beside the script")
    return Choice(SAMPLE, f"{len(plans)} plans are beside the script, and its first line names none" if plans else "no plan is beside the script")


@functools.lru_cache(maxsize=1000)
def _is_plan(path: str, _changed: int) -> bool:
    with contextlib.suppress(OSError):
        return is_plan_text(read_regular(path, GREATEST_TEXT))
    return False


class Judge:
    """What the checker says of scripts on one plan, given as its text. The plan is in a file of its own as long as this is used."""

    def __init__(self, data: bytes, room: str) -> None:
        self.data, self.program = data, quickest()
        self.file = TextFile(os.path.join(room, f"plan-{next(NUMBERS)}.toml"), is_plan=True)
        with open(self.file, "wb") as out:
            out.write(data)

    def ask(self, command: str, script: Optional[bytes], at: Optional[Tuple[int, int]] = None) -> Verdict:
        """What a subcommand says of a script; with line and column (from 1, in bytes) what is known before the statement there."""
        if max(len(script or b""), len(self.data)) > GREATEST_TEXT:
            return Verdict(False, "fault input too long\n")
        return explain_plan(self.file, self.program) if script is None else verdict(command, self.file, script, self.program, at)

    @cached_property
    def explained(self) -> Verdict:
        """What `camac explain` says of the plan alone."""
        return self.ask("explain", None)

    @cached_property
    def plan(self) -> Plan:
        """The crates of the plan, and the commands of its modules; of a refused plan nothing."""
        if not self.explained.accepted:
            return Plan(0, {}, ())
        from camac.toml_places import with_commands

        found = read_plan(output_of("plan", "--", self.file, program=self.program))
        return with_commands(found, self.data.decode("utf-8", "replace"))


class Judged:
    """What the checker says of one version of a script on one plan, each asked once, and what else is known of that version."""

    def __init__(self, judge: Judge, text: Text) -> None:
        self.judge, self.text = judge, text
        self.kept: Dict[Any, Any] = {}

    def once(self, key: object, find: Callable[[], T]) -> T:
        """What is found, which is kept by its key."""
        if key not in self.kept:
            self.kept[key] = find()
        found: T = self.kept[key]
        return found

    def ask(self, command: str) -> Verdict:
        return self.once(("ask", command), lambda: self.judge.ask(command, self.text.data))

    @property
    def is_accepted(self) -> bool:
        """Whether the script is accepted: that is known in half of the time that `tell` takes."""
        return self.ask("check").accepted

    @cached_property
    def names(self) -> Names:
        return Names(self.text.data)

    @property
    def plan(self) -> Plan:
        return self.judge.plan


class Document:
    """An open text, and its path if it is that of a file. Of a script `choice` is its plan, and `judged` what is said of it."""

    def __init__(self, uri: str, is_plan: bool, version: Optional[int], text: Text) -> None:
        import pathlib
        from urllib.parse import unquote, urlsplit

        self.uri, self.is_plan, self.version, self.text = uri, is_plan, version, text
        parts = urlsplit(uri)
        self.path = pathlib.Path(unquote(parts.path)) if parts.scheme == "file" else None
        self.choice: Optional[Choice] = None
        self.judged: Optional[Judged] = None


class Workspace:
    """The open documents by their URIs, and the plans that they are judged on. `on_choice` is told of each plan that is chosen."""

    def __init__(self, on_choice: Callable[[Document, Choice], None]) -> None:
        self.documents: Dict[str, Document] = {}
        self.judges: Dict[bytes, Judge] = {}
        self.on_choice = on_choice

    @cached_property
    def room(self) -> "tempfile.TemporaryDirectory[str]":
        import tempfile

        return tempfile.TemporaryDirectory(prefix="camac-lsp-")

    def judged(self, document: Document) -> Judged:
        """What is said of a script as it is, on its plan as that is: in the editor, if it is open, else on the disk. Raises OSError if its plan
        cannot be read."""
        choice = choose(document.text.line(0), document.path)
        if choice != document.choice:
            document.choice = choice
            self.on_choice(document, choice)
        judge = self.judge(self.plan_data(choice))
        if document.judged is None or document.judged.judge is not judge or document.judged.text is not document.text:
            document.judged = Judged(judge, document.text)
        return document.judged

    def plan_data(self, choice: Choice) -> bytes:
        path = os.path.abspath(choice.file)
        for it in self.documents.values():
            if it.is_plan and it.path and os.path.abspath(it.path) == path:
                return it.text.data
        if choice.file == SAMPLE:
            return plan_text(SAMPLE)
        return read_regular(path, GREATEST_TEXT + 1)

    def judge(self, data: bytes) -> Judge:
        """The judge of a plan. Those of texts that are none of an open script's plan are forgotten."""
        if data not in self.judges:
            used = {it.judged.judge.data for it in self.documents.values() if it.judged}
            for it in [it for it in self.judges if it not in used]:
                os.remove(self.judges.pop(it).file)
            self.judges[data] = Judge(data, self.room.name)
        return self.judges[data]

    def close(self) -> None:
        if "room" in vars(self):
            self.room.cleanup()
