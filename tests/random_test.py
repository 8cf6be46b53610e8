#!/usr/bin/env python3
"""Random input from outside: 1,000 messages to the language server, and 1,000 changes of the files that `watch` follows. However wrong they are, the
server then answers what is right, and the page shows what is right.

usage: tests/random_test.py [-v] [TEST ..]     from any folder, over a built program; takes half a minute

The seed is that of the day, or what the environment variable SEED names. It is printed, so that a failure can be repeated.
"""
import datetime
import faulthandler
import json
import os
import random
import sys
import time

from support import laboratory
from support.live import PROGRAM, Case, run_tests
from support.lsp import SCRIPT, Client
import camac
from camac.events import NEW_FILE, Event, record
from camac.export import Given
from camac.follow import read_alarm
from camac.watch import Look, Watch

SEED = os.environ.get("SEED") or datetime.date.today().strftime("%Y%m%d")
COUNT = 1_000
# The seconds in which a right message is answered, and those after which a test that hangs is ended, with the place where it does.
PATIENCE, LONGEST = 10, 300
# A length may promise so many bytes more than there are.
SURPLUS = 2_000


class Seeded(Case):
    def setUp(self):
        super().setUp()
        print(f"SEED={SEED} {sys.argv[0]} {self.id().partition('.')[2]}", file=sys.stderr)
        self.random = random.Random(f"{SEED} {self.id()}")
        faulthandler.dump_traceback_later(LONGEST, exit=True)
        self.addCleanup(faulthandler.cancel_dump_traceback_later)


class Messages(Seeded):
    OF_A_PLACE = ("hover", "completion", "definition", "references", "documentHighlight", "prepareRename", "rename")
    OF_A_TEXT = ("documentSymbol", "foldingRange", "formatting", "codeAction", "nothing")
    OTHERS = ("initialize", "initialized", "workspace/executeCommand", "workspace/didChangeWatchedFiles", "$/cancelRequest", "$/setTrace", "", "textDocument", "\ud800")
    PLANS = ("fifo", "folder", "plan.toml", "none.toml", "/dev/zero", "/dev/stdin", "a\0b", "\ud800", "@sample", "../plan.toml", "loop")

    def setUp(self):
        super().setUp()
        os.mkfifo(self.room / "fifo")
        (self.room / "folder").mkdir()
        (self.room / "loop").symlink_to("loop")
        for name in ("fifo.toml", "folder/x.toml"):
            os.mkfifo(self.room / name)
        self.uris = [(self.room / it).as_uri() for it in ("a.script", "b.script", "folder/c.script", "plan.toml", "none/d.script")]
        self.uris += ["untitled:1", "", "file:///", "file://[x", "file:///a%00b/c.script", f"{self.room.as_uri()}/%ff.script"]

    def value(self, depth=3):
        """Whatever JSON may hold."""
        kinds = [None, True, 0, -1, 1 << 70, 1.5, float("inf"), float("nan"), "", "x", "\ud800", [], {}, self.random.choice(self.uris)]
        if depth and self.random.random() < 0.4:
            values = [self.value(depth - 1) for _ in range(self.random.randrange(4))]
            return values if self.random.random() < 0.5 else dict(zip(("uri", "textDocument", "line", "id"), values))
        return self.random.choice(kinds)

    def number(self):
        return self.random.choice((0, 1, 2, 5, 80, -1, 1 << 31, 1 << 70, self.random.randrange(60)))

    def position(self):
        return {"line": self.number(), "character": self.number()}

    def text(self):
        lines = [*SCRIPT.splitlines(), "}", "{" * 20, "\ud800\U0001f4a5\r", "put", "x" * 3000, "\0", "call get(", 'name = "', "[[crate]]"]
        some = self.random.choices(lines, k=self.random.randrange(30)) if self.random.random() < 0.6 else SCRIPT.splitlines()
        first = [f"# plan: {self.random.choice(self.PLANS)}"] if self.random.random() < 0.6 else []
        return "\n".join([*first, *some])

    def message(self):
        """A message with all that belongs to it."""
        of, kind = {"uri": self.random.choice(self.uris)}, self.random.randrange(8)
        where = {"start": self.position(), "end": self.position()}
        if kind < 2:
            of.update(languageId=self.random.choice(("camac", "toml")), version=self.number(), text=self.text())
            return {"method": "textDocument/didOpen", "params": {"textDocument": of}}
        if kind < 4:
            change = {"text": self.text(), **({"range": where} if self.random.random() < 0.7 else {})}
            return {"method": "textDocument/didChange", "params": {"textDocument": {**of, "version": self.number()}, "contentChanges": [change]}}
        if kind == 4:
            return {"method": self.random.choice(("textDocument/didClose", "textDocument/didSave")), "params": {"textDocument": of}}
        if kind == 5:
            method = self.random.choice(self.OF_A_PLACE)
            return {"id": self.number() + 1_000, "method": f"textDocument/{method}", "params": {"textDocument": of, "position": self.position(), "newName": "n"}}
        if kind == 6:
            params = {"textDocument": of, "range": where, "context": {"diagnostics": []}}
            return {"id": f"{self.number()}", "method": f"textDocument/{self.random.choice(self.OF_A_TEXT)}", "params": params}
        return {"id": self.value(), "method": self.random.choice(self.OTHERS), "params": {"id": self.number(), "command": "camac.keeps", "arguments": self.uris[:1]}}

    def spoilt(self, message):
        """A message in which something is left out, or is of another kind."""
        inside = message
        while isinstance(inside, dict) and inside:
            key = self.random.choice([*inside])
            if self.random.random() < 0.5 or not isinstance(inside[key], dict):
                if self.random.random() < 0.4:
                    del inside[key]
                else:
                    inside[key] = self.value()
                break
            inside = inside[key]
        return message if message.get("method") not in ("exit", "shutdown") else {}

    def bytes(self):
        """A message as it is sent: right, wrong, or none at all."""
        kind = self.random.random()
        message = self.message() if kind < 0.4 else self.spoilt(self.message())
        data = json.dumps(message if kind < 0.8 else [message, message]).encode()
        if kind > 0.9:
            deep = self.random.choice((10, 900, 100_000))
            data = self.random.choice((b"[" * deep, b"[" * deep + b"]" * deep, b'{"params":' * deep + b"1" + b"}" * deep, b"1" * deep, data[: len(data) // 2], b"\xff" + data, b""))
        head = b"Content-Length: %d\r\n\r\n" % len(data)
        if kind > 0.95:
            wrong = len(data) + self.random.randrange(-len(data), SURPLUS)
            head = self.random.choice((b"Content-Length: %d\r\n\r\n" % wrong, b"Content-Length: x\r\n\r\n", b"content-length:9\n", b"\r\n", b"x" * 70_000 + b"\n", head * 2))
        return head + data

    def test_messages(self):
        client = Client({"CAMAC_PROGRAM": PROGRAM})
        self.addCleanup(client.kill)
        for _ in range(COUNT):
            client.write(self.bytes())
        client.write(b"\n" * 2 * SURPLUS)
        client.number = 10**6
        self.assertEqual(client.ask("nothing")["code"], -32601)
        began = time.monotonic()
        uri = client.open(self.room / "right/right.script", SCRIPT)
        self.assertEqual(client.found(uri), [])
        self.assertIn("cycles", client.at("hover", uri, 7, 9)["contents"]["value"])
        self.assertLess(time.monotonic() - began, PATIENCE)
        self.assertEqual(client.end(), (0, ""))


class Files(Seeded):
    def setUp(self):
        super().setUp()
        os.environ["CAMAC_PROGRAM"] = PROGRAM
        laboratory.record(self.room, 5)
        self.events, self.record = self.room / "run.events", self.room / "run.json"
        script, plan = self.room / "bench.script", self.room / "bench.toml"
        records = []
        for name in ("one", "two"):
            branch = camac.mock.MockBranch({}, {}, [[]])
            camac.drive(plan, script, branch, self.room / f"{name}.events", record=camac.Recording(self.room / f"{name}.json", title=name))
            records.append((self.room / f"{name}.json").read_bytes())
            script.write_text(script.read_text() + "# another\n")
        self.texts = {self.events: [self.made() for _ in range(4)], self.record: records}
        alarms = [*map(read_alarm, ("silence=1", "x0=9", "rate=2", "rate:adc=3.5", "rate:nobody=1"))]
        self.watch = Watch(Given(self.events, record=self.record), alarms)

    def made(self):
        """Events of the bench; each differs from that of another file."""
        events = [Event(at, 3, self.random.randrange(99, 60_000), self.random.randrange(99), (self.random.randrange(1 << 24),)) for at in range(1, self.random.randrange(2, 400))]
        return NEW_FILE + b"".join(map(record, events))

    def remove(self, path):
        if path.is_dir() and not path.is_symlink():
            path.rmdir()
        else:
            path.unlink(missing_ok=True)

    def put(self, path, data):
        """A new file, that takes the place of what is there."""
        self.remove(path) if path.is_dir() else None
        (self.room / "new").write_bytes(data)
        os.replace(self.room / "new", path)

    def write_over(self, path, place, data):
        """The file that is there is written over in its place, in no time."""
        if not path.is_file():
            self.put(path, b"")
        before = path.stat()
        with open(path, "r+b") as out:
            out.seek(place)
            out.write(data)
        os.utime(path, ns=(before.st_atime_ns, before.st_mtime_ns))

    def change(self, path):
        """One change of a file."""
        right = self.random.choice(self.texts[path])
        place = self.random.randrange(len(right))
        kind = self.random.randrange(12)
        if kind < 2:
            self.put(path, right)
        elif kind < 4:
            self.write_over(path, 0, right)
        elif kind == 4:
            self.write_over(path, place, self.random.choice((bytes(200), self.random.randbytes(40), b"CAMACEV1")))
        elif kind == 5:
            self.put(path, right[:place])
        elif kind == 6:
            self.put(path, right[:place] + bytes(200) + right[place + 200 :])
        elif kind == 7 and path.is_file():
            os.truncate(path, self.random.choice((0, place, 1 << 36)))
        elif kind == 8:
            with open(path if path.is_file() else self.room / "other", "ab") as out:
                out.write(right[place:])
        else:
            self.remove(path)
            make = self.random.choice((os.mkfifo, os.mkdir, None))
            if make:
                make(path)
            elif kind > 9:
                path.symlink_to(self.random.choice((path.name, "nothing", "/dev/zero", ".", "one.events", "one.json", "/dev/stdin")))

    def look(self):
        for _ in range(20):
            if not self.watch.poll():
                return
        self.fail("it never has enough")

    def shown(self):
        """The parts of the page, of all events and of some of them."""
        self.watch.drawn.clear()
        self.watch.parts(Look(self.random.randrange(500), self.random.choice((0, 1)), self.random.choice((0, 0, 50)), "x", self.random.randrange(1 << 25), self.random.randrange(1 << 25)))
        return self.watch.parts()

    def test_files(self):
        for number in range(COUNT):
            self.change(self.random.choice((self.events, self.events, self.events, self.record)))
            self.look()
            if number % 50 == 0:
                self.shown()
        wanted = self.texts[self.events][0]
        for path, right in ((self.record, self.texts[self.record][1]), (self.events, wanted)):
            self.put(path, right[:100] + bytes(len(right) - 100))
            self.look()
            self.assertNotEqual(self.watch.alarms(), [])
            self.write_over(path, 0, right)
            self.look()
        self.watch.follower.restarts.clear()
        self.assertEqual(self.watch.follower.state, ("follows", False))
        self.put(self.room / "right", wanted)
        events = list(camac.read_events(self.room / "right"))
        bit = self.watch.follower.counts.bits[3]
        self.assertEqual((bit.count, bit.missed, bit.cycles.total), (len(events), sum(it.missed for it in events), sum(it.cycles for it in events)))
        parts = self.shown()
        self.assertIn(f"<b class=\"\">{len(events):,}</b><span>events</span>", parts["tiles"])
        self.assertIn('<b class="good">follows</b>', parts["notes"])
        self.assertIn(json.loads(self.record.read_text())["line"], parts["notes"])
        self.assertEqual(self.watch.record.title, "two")


if __name__ == "__main__":
    run_tests()
