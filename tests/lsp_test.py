#!/usr/bin/env python3
"""Tries the language server (camac-lsp): its messages, what it shows of scripts and plans, and what it changes. tests/editors_test.py tries it in editors.

usage: tests/lsp_test.py [--whole] [-v] [TEST ..]     from any folder; takes half a minute

With --whole ten thousand edits are made, in place of 400, and the figures are printed: the median time of an answer, and the memory. Where the library for C is
there (tests/support/of_c.py), it judges, else the program: crates/camac/out/camac (cd crates/camac && rt run makes it), or what CAMAC_PROGRAM names.
"""
import json
import math
import os
import random
import re
import statistics
import sys
import time
import unittest

from support import of_c
from support.live import PROGRAM, TOP, Case
from support.lsp import SCRIPT, Client, applied, span
from camac.layout import begins
from camac.lsp.documents import Text
from camac.lsp.workspace import choose, is_plan_text
from camac.names import Names
from camac.printed import read_plan
from camac.program import lines_of, output_of
from camac.toml_places import declarations, place_of

PARSE_ERROR, INVALID_REQUEST, METHOD_NOT_FOUND, INVALID_PARAMS = -32700, -32600, -32601, -32602
NOT_INITIALIZED, CANCELLED, FAILED = -32002, -32800, -32803
ENVIRONMENT = {"CAMAC_PROGRAM": PROGRAM} if of_c.lacking() else {"CAMAC_PROGRAM": "", **of_c.environment()}
EDITS = 400
# The most processor seconds of an answer on 4,096 statements, and the factor if others use the same processor.
LIMIT, BUSY = 0.05, 3
LONG = "cdlam adc 1 1 5 12\nvar v0 v1 v2 v3 v4 v5 v6 v7\nservice adc within 99999 cycles event 4096 words {\n  cdreg r 1 1 5 0\n"
LONG += "".join(f"  cfsa 0 r -> v{it % 8}\n" if it % 2 else f"  put v{it % 8} + 1\n" for it in range(4095)) + "}\n"
PLAN = (TOP / "examples/sample_plan.toml").read_text()


def setUpModule():
    if ENVIRONMENT["CAMAC_PROGRAM"]:
        os.environ.update(ENVIRONMENT)
    else:
        os.environ.pop("CAMAC_PROGRAM", None)
        os.environ.update({name: value for name, value in ENVIRONMENT.items() if value})


class Served(Case):
    def setUp(self):
        super().setUp()
        self.client = self.start()

    def start(self, environment=ENVIRONMENT, **how):
        client = Client(environment, **how)
        self.addCleanup(client.kill)
        return client

    def open(self, text, name="a.script", **how):
        return self.client.open(self.room / name, text, **how)

    def shown(self, uri, version=None):
        """The diagnostics of the last version, or another: lines and columns, codes, and the text that they are at."""
        return [(it["range"]["start"]["line"], it["range"]["start"]["character"], it["range"]["end"]["character"], it["code"]) for it in self.client.found(uri, version)]

    def warned(self, uri, count):
        """The warnings, once so many are there."""
        self.client.until(lambda: len([it for it in self.client.diagnostics[uri][1] if it["severity"] == 2]) == count)
        return [(it["range"]["start"]["line"], it["code"]) for it in self.client.diagnostics[uri][1]]

    def hover(self, uri, line, character):
        told = self.client.at("hover", uri, line, character)
        return told and told["contents"]["value"]

    def completed(self, text):
        """What is proposed at the `|` of a text, by labels."""
        before, _, after = text.partition("|")
        uri = self.open(before + after)
        found = self.client.at("completion", uri, before.count("\n"), len(before.rpartition("\n")[2]))
        return {it["label"]: it.get("detail", "") for it in found}


class Messages(Served):
    def test_order_of_a_session(self):
        client = self.start(begin=False)
        self.assertEqual(client.ask("shutdown")["code"], NOT_INITIALIZED)
        capabilities = client.ask("initialize", capabilities={})["capabilities"]
        self.assertEqual((capabilities["positionEncoding"], capabilities["textDocumentSync"]["change"]), ("utf-16", 2))
        self.assertEqual(client.ask("initialize", capabilities={})["code"], INVALID_REQUEST)
        self.assertEqual(client.ask("textDocument/nothing")["code"], METHOD_NOT_FOUND)
        self.assertEqual(client.ask("textDocument/hover", textDocument={"uri": "file:///none"}, position={"line": 0, "character": 0})["code"], INVALID_PARAMS)
        self.assertEqual(client.ask("textDocument/hover")["code"], INVALID_PARAMS)
        client.tell("textDocument/didChange", textDocument={})
        client.tell("nothing")
        self.assertIsNone(client.ask("shutdown"))
        self.assertEqual(client.ask("textDocument/hover")["code"], INVALID_REQUEST)
        client.tell("exit")
        self.assertEqual((client.server.wait(60), client.server.stderr.read()), (0, b""))

    def test_end_without_shutdown(self):
        self.client.tell("exit")
        self.assertEqual((self.client.server.wait(60), self.client.server.stderr.read()), (1, b""))
        client = self.start()
        client.server.stdin.close()
        self.assertEqual((client.server.wait(60), client.server.stderr.read()), (1, b""))

    def test_nothing_is_left(self):
        """However a server ends that is not killed, the folder with its plans goes."""
        for end in (lambda it: it.terminate(), lambda it: it.stdin.close()):
            client = self.start(environment={**ENVIRONMENT, "TMPDIR": str(self.room)})
            client.found(client.open(self.room / "a.script", SCRIPT))
            self.assertEqual(len([*self.room.glob("camac-lsp-*")]), 1)
            end(client.server)
            client.server.wait(60)
            self.assertEqual([*self.room.glob("camac-lsp-*")], [])

    def test_half_messages(self):
        """A message may come in pieces; the end of the stream may be within one."""
        data = json.dumps({"jsonrpc": "2.0", "id": "x", "method": "textDocument/nothing"}).encode()
        for it in (b"Content-Le", b"ngth: %d\r" % len(data), b"\nContent-Type: a\r\n\r", b"\n", data[:9], data[9:]):
            self.client.write(it)
            time.sleep(0.02)
        self.assertEqual(self.client.result("x")["code"], METHOD_NOT_FOUND)
        self.client.write(b"Content-Length: 100\r\n\r\n{")
        self.client.server.stdin.close()
        self.assertEqual((self.client.server.wait(60), self.client.server.stderr.read()), (1, b""))

    def test_wrong_messages(self):
        """Each is answered by an error, and the next message is read."""
        good = json.dumps({"jsonrpc": "2.0", "id": 7, "method": "shutdown"}).encode()
        for data in (b"Content-Length: x\r\n\r\n", b"Content-Length: -1\r\n\r\n", b"Content-Length: 99999999999\r\n\r\n", b"Content-Length: 5\r\n\r\n{}{}{", b"Content-Length: 2\r\n\r\n[]",
                     b"Content-Length: 4\r\n\r\n\xff\xff\xff\xff", b"Content-Length: %d\r\n\r\n%b" % (len(good) - 9, good), b"Content-Length: 30000\r\n\r\n" + b"[" * 30_000):
            with self.subTest(data=data[:40]):
                self.client.write(data)
                self.client.write(b"\r\n")
                self.assertEqual(self.client.result(None)["code"], PARSE_ERROR)
                self.assertEqual(self.client.ask("nothing")["code"], METHOD_NOT_FOUND)

    def test_messages_that_fail(self):
        """What fails in the thread that reads is logged, and the next message is answered."""
        for params in ({}, {"params": None}, {"params": 5}, {"params": []}, {"params": {"id": {}}}):
            with self.subTest(params=params):
                before = len(self.client.logged)
                self.client.send(method="$/cancelRequest", **params)
                self.client.until(lambda: len(self.client.logged) > before)
                self.assertEqual(self.client.ask("nothing")["code"], METHOD_NOT_FOUND)
        self.client.send(id=1_000, method=5)
        self.assertEqual(self.client.result(1_000)["code"], INVALID_REQUEST)

    def test_cancelled_requests(self):
        """A request that waits is answered as cancelled; a later one is not, even of the same number."""
        uri = self.open(SCRIPT * 2)
        requests = [self.client.begin("textDocument/documentSymbol", textDocument={"uri": uri}) for _ in range(50)]
        self.client.tell("$/cancelRequest", id=requests[-1])
        self.client.tell("$/cancelRequest", id="none")
        answers = [self.client.result(it) for it in requests]
        self.assertTrue(all(isinstance(it, list) for it in answers[:10]))
        self.assertEqual(answers[-1]["code"], CANCELLED)
        self.client.tell("$/cancelRequest", id=requests[-1] + 1)
        self.assertIsInstance(self.client.ask("textDocument/documentSymbol", textDocument={"uri": uri}), list)


class Documents(unittest.TestCase):
    def test_columns(self):
        """Columns are units of UTF-16, lines end as the protocol says, and places are bytes."""
        text = Text("a\U0001F600b\r\nc\rd\n\u00e4 x")
        for line, column, place in [(0, 1, 1), (0, 2, 1), (0, 3, 5), (0, 4, 6), (0, 9, 6), (1, 0, 8), (1, 1, 9), (2, 1, 11), (3, 1, 14), (3, 3, 16), (9, 9, 16)]:
            self.assertEqual(text.place({"line": line, "character": column}), place)
            if (line, column) not in ((0, 2), (0, 9), (9, 9)):
                self.assertEqual(text.position(place), {"line": line, "character": column})
        self.assertEqual([text.line_at(it) for it in (0, 10, 11, 12)], [1, 2, 2, 3])

    def test_changes_at_random(self):
        chance = random.Random(3)
        for _ in range(300):
            text = Text("".join(chance.choices("ab\n\r\u00e4\U0001F600", k=chance.randrange(30))))
            first, last = sorted(chance.randrange(len(text.text) + 1) for _ in range(2))
            # A place between CR and LF is none of the protocol, nor is it an edge of a line.
            if "\r\n" in (text.text[first - 1 : first + 1], text.text[last - 1 : last + 1]):
                continue
            places = [text.position(len(text.text[:it].encode())) for it in (first, last)]
            changed = text.changed([{"range": {"start": places[0], "end": places[1]}, "text": "\u00e9x"}])
            self.assertEqual(changed.text, text.text[:first] + "\u00e9x" + text.text[last:])

    def test_words(self):
        """`var` and `table` begin a declaration wherever they stand."""
        self.assertEqual([*begins("table g = 1 var v table".split())], [True, False, False, False, True, False, False])

    def test_each(self):
        """`each` is a word behind the last number of a `for`, and elsewhere a name."""
        text = b"var each i service adc within 0 cycles event 0 words { for i = 0 to # to 4\n 3 each { put each } for each = 0 to 3 { } for i = 0 to each { } # to 5\n each = i }"
        places = [it.start() for it in re.finditer(b"each", text)]
        names = [it.start for it in Names(text).mentions if it.symbol.name == "each"]
        self.assertEqual(places, sorted([*names, places[1]]))

    def test_commands_of_plans(self):
        """They are those that `camac plan --commands` lists."""
        for it in sorted((TOP / "examples").rglob("*.toml")):
            try:
                listed = read_plan(output_of("plan", "--commands", "--", it, program=PROGRAM)).types
            except Exception:
                continue
            commands = {(name, one.function, sub, one.is_probe) for name, kind in listed.items() for one in kind.declarations for sub in range(one.first, one.last + 1)}
            found = {(name, one.function, sub, one.is_probe) for name, one in declarations(it.read_text()) for sub in range(one.first, one.last + 1)}
            self.assertEqual(found, commands, it)


class Plans(Served):
    def test_which_plan(self):
        script = self.room / "a.script"
        self.assertEqual(choose("", script)[0], "@sample")
        self.write("x.toml", "[tool]\na = 1\n")
        self.assertEqual(choose("", script)[0], "@sample")
        self.write("mine.toml", PLAN)
        self.assertEqual(choose("# a script", script)[0], str(self.room / "mine.toml"))
        self.write("other.toml", PLAN)
        self.assertEqual(choose("", script)[0], "@sample")
        self.write("plan.toml", PLAN)
        self.assertEqual(choose("", script)[0], str(self.room / "plan.toml"))
        for line in ("# plan: other.toml", "#Plan: other.toml. A start.", "#  plan:other.toml"):
            self.assertEqual(choose(line, script)[0], str(self.room / "other.toml"))
        self.assertEqual(choose("# plan: none.toml", script)[0], str(self.room / "none.toml"))
        self.assertEqual(choose("# plan: @sample", script)[0], "@sample")
        self.assertEqual(choose("# plan: a.toml", None)[0], "@sample")
        self.assertTrue(is_plan_text(PLAN.encode()) and not is_plan_text(b"[project]\ntype = 'a'\n"[:10]))
        uri = self.open("# plan: other.toml\n" + SCRIPT)
        self.client.found(uri)
        self.assertEqual(self.client.logged, [f"camac: a.script is judged on the plan {self.room}/other.toml: the first line names it"])
        self.assertIn("Plan: other.toml (the first line names it)", self.hover(uri, 8, 9))

    def test_plan_that_changes_on_the_disk(self):
        plan = self.write("plan.toml", PLAN)
        uri = self.open(SCRIPT)
        self.assertEqual(self.shown(uri), [])
        plan.write_text(PLAN.replace("waits = 2", "waits = 3"))

        def codes():
            return [it["code"] for it in self.client.diagnostics[uri][1]]

        self.client.until(lambda: codes() == ["E12", "E12"])
        plan.unlink()
        self.client.until(lambda: "E12" not in codes())
        self.assertIn("judged on the plan @sample", self.client.logged[-1])

    def test_plan_that_is_not_there(self):
        uri = self.open("# plan: none.toml\n" + SCRIPT)
        (it,) = self.client.found(uri)
        self.assertIn("none.toml cannot be read: No such file or directory", it["message"])
        self.assertEqual(self.client.at("hover", uri, 3, 9)["code"], -32603)
        self.write("none.toml", PLAN)
        self.client.tell("textDocument/didSave", textDocument={"uri": uri})
        self.client.until(lambda: not self.client.diagnostics[uri][1])

    def test_plan_that_is_no_file(self):
        """A pipe is not waited for, beside a script or named by it; and no name stops the server."""
        os.mkfifo(self.room / "x.toml")
        self.assertEqual(self.shown(self.open(SCRIPT)), [])
        for name, why in (("x.toml", "this is no file"), (".", "this is no file"), ("/dev/zero", "this is no file"), ("a\0b", "this is no file"), ("\ud800", "this is no file")):
            (it,) = self.client.found(self.open(f"# plan: {name}\n" + SCRIPT))
            self.assertIn(f"cannot be read: {why}", it["message"], name)

    def test_text_that_is_none(self):
        """It is refused, and other texts are judged."""
        uri = (self.room / "wrong.script").as_uri()
        for text in (5, None, {}):
            self.client.tell("textDocument/didOpen", textDocument={"uri": uri, "languageId": "camac", "version": 1, "text": text})
            self.assertEqual(self.client.at("hover", uri, 0, 0)["code"], INVALID_PARAMS)
        self.client.tell("textDocument/didOpen", textDocument={"uri": "file:///a%00b/c.script", "languageId": "camac", "version": 1, "text": SCRIPT})
        self.assertEqual(self.client.found("file:///a%00b/c.script", 1), [])
        self.assertEqual(self.shown(self.open(SCRIPT)), [])

    def test_plan_that_is_open(self):
        """What is not saved counts, and scripts are judged again."""
        self.write("plan.toml", PLAN)
        uri = self.open(SCRIPT)
        self.assertEqual(self.shown(uri), [])
        plan = self.open(PLAN.replace("waits = 2", "waits = 3"), "plan.toml", language="toml")
        self.client.until(lambda: self.client.diagnostics[uri][1])
        self.client.change(plan, 2, PLAN.replace("n = 5", "n = 55"))
        self.assertEqual(self.shown(plan, 2), [(26, 0, 6, "P4")])
        self.client.until(lambda: [it["code"] for it in self.client.diagnostics[uri][1]] == ["P4"])
        self.assertIn("the plan is refused: value out of range\ncrate 1, station 55, n: the value is 55", self.client.diagnostics[uri][1][0]["message"])
        self.client.tell("textDocument/didClose", textDocument={"uri": plan})
        self.client.until(lambda: not self.client.diagnostics[uri][1])
        names = [(it["name"], [one["name"] for one in it.get("children", [])]) for it in self.client.ask("textDocument/documentSymbol", textDocument={"uri": self.open(PLAN, "p.toml", language="toml")})]
        self.assertEqual(names, [("type ADC", []), ("type REG", []), ("crate 1", ["station 5", "station 6"])])

    def test_faults_of_plans(self):
        for number, (old, new, line, text) in enumerate([
            ("waits = 2", "wait = 2", None, "wait = 2"), ('"ADC"\ngl', '"ADX"\ngl', None, 'type = "ADX"'), ("[[crate]]", "[[crate]", None, None),
            ("width = 8", "width = 88", None, "width = 88"), ("n = 6", "n = 5", None, None), ("[[type]]", "[[types]]", None, "types"),
        ]):
            with self.subTest(new=new):
                made = PLAN.replace(old, new, 1)
                self.assertNotEqual(made, PLAN)
                uri = self.open(made, f"{number}.toml", language="toml")
                (it,) = self.client.found(uri)
                row = made.split("\n")[it["range"]["start"]["line"]]
                if text:
                    self.assertEqual(row[it["range"]["start"]["character"] : it["range"]["end"]["character"]], text)
                self.assertEqual(it["severity"], 1)

    def test_plan_that_is_deep(self):
        """The server goes on after a text that is too deep for it."""
        deep = self.open(PLAN + "a = " + "[" * 50_000, "deep.toml", language="toml")
        self.client.ask("textDocument/documentSymbol", textDocument={"uri": deep})
        self.assertEqual(self.shown(self.open(SCRIPT)), [])

    def test_places_in_plans(self):
        """Tables are named by what they are known by, or by their place."""
        for sentence, wanted in [
            ("type `REG`, second command, a: x", "a = 0"), ("type number 2, command number 1, width: x", "width = 8"), ("second entry of `type`, name: x", 'name = "REG"'),
            ("crate 1, first entry of `station`, gl: x", "gl = 3"), ("crate 1, station 6, type: x", 'type = "REG"'), ("Line 9, column 1: x", "n"), ("type `NONE`: x", PLAN.split("\n")[0]),
        ]:
            place = place_of(PLAN, sentence)
            self.assertEqual(PLAN[place.start : place.end], wanted, sentence)

    def test_other_toml(self):
        """It is judged once it is a plan."""
        uri = self.open("[project]\nname = 1\n", "new.toml", language="toml")
        self.assertEqual(self.client.found(uri), [])
        self.client.change(uri, 2, PLAN.replace("n = 5", "n = 55"))
        self.assertEqual(self.shown(uri, 2), [(26, 0, 6, "P4")])


class Shown(Served):
    def test_refusals(self):
        """Each is at its statement or word, the first of each body, and goes with its fix."""
        for text, wanted in [
            (SCRIPT, []),
            (SCRIPT.replace("put s", "puts s"), [(5, 2, 6, "S5")]),
            (SCRIPT.replace("  put s\n", "  put s  put s - 1\n"), [(5, 9, 18, "E4")]),
            (SCRIPT.replace("put s", "put s - 1").replace("6 0", "9 0"), [(5, 2, 11, "E4"), (9, 2, 15, "E1")]),
            (SCRIPT.replace("within 6", "within 5"), [(7, 0, 43, "E12")]),
            (SCRIPT[:-2], [(12, 0, 0, "S2")]),
            (SCRIPT[:-3], [(11, 6, 7, "S2")]),
            ("var v $\n", [(0, 6, 7, "S1")]),
            ("var \u00e4\n", [(0, 4, 5, "S1")]),
            ("", []),
            ("cdlam adc 1 1 4 12 # x\n", [(0, 0, 18, "L1")]),
            ("cdlam a 1 1 4 12\n\n  cdlam b 1 1 3 12 var v\n", [(0, 0, 16, "L1"), (2, 2, 18, "L1")]),
        ]:
            with self.subTest(text=text):
                self.assertEqual(self.shown(self.open(text)), wanted)
        (it,) = self.client.found(self.open(SCRIPT.replace("within 6", "within 5")))
        self.assertTrue(it["message"].startswith("more cycles than annotated. The service may take 6 dataway cycles, its heading allows 5.\nWhy: "))
        self.assertTrue(it["codeDescription"]["href"].endswith("docs/REFUSALS.md#e12"))
        for it in self.client.found(self.open(SCRIPT.replace("put s", "put s - 1").replace("6 0", "9 0"))):
            self.assertRegex(it["message"], r"\. .+\.\nWhy: .+\nFix: ")
        (it,) = self.client.found(self.open("var\t5\n"))
        self.assertTrue(it["message"].startswith("unexpected token. Found `5`"), it["message"])

    def test_columns_behind_a_comment(self):
        """A comment may hold any sign; columns on its line and behind it are units of UTF-16."""
        uri = self.open("# \U0001F600 \u00e4\n" + SCRIPT.replace("put v", "put w"))
        self.assertEqual(self.shown(uri), [(12, 6, 7, "S5")])
        self.client.change(uri, 2, ((12, 6), (12, 7), "v"), ((0, 2), (0, 4), "\u00e9"))
        self.assertEqual(self.shown(uri, 2), [])

    def test_warnings(self):
        """They come once nothing is typed, stay at their lines meanwhile, and go with their cause."""
        right = SCRIPT.replace("var v t", "var v")
        text = right.replace("put v\n", "put v  if v < 0 { put 1 }\n")
        uri = self.open(text)
        self.assertEqual(self.client.found(uri), [])
        self.assertEqual(self.warned(uri, 2), [(7, "W3"), (11, "W16")])
        self.client.change(uri, 2, ((0, 0), (0, 0), "\n\n"))
        self.assertEqual([(it[0], it[3]) for it in self.shown(uri, 2)], [(9, "W3"), (13, "W16")])
        self.assertEqual(self.warned(uri, 2), [(9, "W3"), (13, "W16")])
        (it,) = [it for it in self.client.diagnostics[uri][1] if it["code"] == "W16"]
        self.assertEqual([line.partition(":")[0] for line in it["message"].split("\n")[1:]], ["Why", "Fix"])
        self.client.change(uri, 3, right.replace("  put v\n", "  put v\n  cclc adc\n").replace("within 6", "within 9"))
        self.client.until(lambda: self.client.diagnostics[uri] == (3, []))

    def test_hover(self):
        uri = self.open(SCRIPT)
        self.client.found(uri)
        self.assertIn("service adc line 8 gl 3 at 1 5 12 cycles 6 of 6 words 2 of 2 steps 7", self.hover(uri, 7, 9))
        self.assertIn("response: service adc gl 3 cycles 6 once start - end -", self.hover(uri, 7, 9))
        self.assertIn("LAM `adc`: crate 1, station 5, sub-address 12, ADC, bit 3", self.hover(uri, 0, 7))
        self.assertIn("proc get line 3 cycles 3 of 3 words 1 of 1 steps 3 of 3", self.hover(uri, 10, 8))
        self.assertEqual(self.hover(uri, 9, 7), "F0: read group 1\n\ncrate 1, station 6, sub-address 0: REG: 24 bits")
        self.assertEqual(self.hover(uri, 4, 7), "F0: read group 1\n\ncrate 1, station 5, sub-address 0..11: ADC: 12 bits")
        self.assertEqual(self.hover(uri, 4, 9), "register `r`\n\nline 5: crate 1, station 5, sub-address 0..11: ADC")
        self.assertEqual(self.hover(uri, 11, 6), "variable `v`: 0..16777215 before this statement")
        self.assertEqual(self.hover(uri, 5, 6), "parameter `s`: 0..4095 before this statement")
        self.assertEqual(self.hover(uri, 2, 9), "parameter `s`: 0..11")
        self.assertEqual(self.hover(uri, 1, 6), "variable `t`: 0..4294967295")
        self.assertIn("`cfsa`: at most 1 time in a service or a call, at 1 5 0..11", self.hover(uri, 4, 3))
        self.assertIn("its share of the bound is 3 cycles, 0 words, 1 step", self.hover(uri, 9, 3))
        self.assertIsNone(self.hover(uri, 6, 0))
        self.client.change(uri, 2, "service")
        self.assertIsNone(self.hover(uri, 0, 3))

    def test_completion(self):
        body = "cdlam adc 1 1 5 12\ncdlam reg 1 1 6 0\nvar v w\ntable g = 1\nproc p(a in 0..1) within 1 cycles event 1 words steps 1 {}\n{}service adc within 9 cycles event 9 words {{\n  cdreg out 1 1 6 0\n{}\n}}\n".replace("{}s", "{0}s").replace("{}\n}}", "{1}\n}}").replace("steps 1 {}", "steps 1 {{}}")
        self.assertEqual({*self.completed("|")}, {"cdlam", "var", "table", "proc", "service"})
        inside = self.completed(body.format("", "  |"))
        self.assertLessEqual({"cfsa", "lock", "}", "v", "w"}, {*inside})
        self.assertFalse({"cdlam", "adc", "out", "q", "within"} & {*inside})
        self.assertEqual(self.completed(body.format("", "  cfsa |")), {"0": "F0 read group 1: 24 bits", "5": "F5 reserved: 24 bits", "16": "F16 overwrite group 1: 8 bits", "27": "F27 test status: moves no data"})
        self.assertEqual(self.completed(body.format("", "  cfsa 0 |")), {"out": "register"})
        self.assertEqual({*self.completed(body.format("", "  cfsa 16 out |"))} & {"->", "<-", "v", "put"}, {"->", "<-", "v", "put"})
        self.assertEqual(self.completed(body.format("", "  cfubc 16 out table |")), {"g": "table"})
        self.assertEqual(self.completed(body.format("", "  call |")), {"p": "procedure"})
        self.assertEqual(self.completed(body.format("", "  cclm |")), {"adc": "LAM", "reg": "LAM"})
        self.assertEqual({*self.completed(body.format("", "  cclm adc o|"))}, {"on", "off"})
        self.assertEqual({*self.completed(body.format("", "  if |"))}, {"not", "q", "x", "v", "w"})
        self.assertEqual({*self.completed(body.format("", "  if v |"))}, {*"+-*/%", "<", "<=", ">", ">=", "==", "!="})
        self.assertEqual({*self.completed(body.format("", "  for v = 1 to 3 |"))}, {*"+-*/%", "{", "keep", "each"})
        self.assertEqual(self.completed(body.format("", "  cdreg r |")), {"1": "the branch"})
        self.assertEqual(self.completed(body.format("", "  cdreg r 1 |"))["1"], "crate 1, waits 2")
        self.assertEqual({name: told for name, told in self.completed(body.format("", "  cdreg r 1 1 |")).items() if name.isdigit()}, {"5": "ADC, bit 3", "6": "REG"})
        self.assertEqual(self.completed(body.format("", "  cdreg r 1 1 5 |"))["12"], "F8 F10 F24 F26")
        self.assertEqual(self.completed(body.format("", "  put 1 # |")), {})
        inside = self.completed(body.format("proc k(b in 0..1) within 1 cycles event 1 words steps 1 { put | }\n", ""))
        self.assertEqual({*inside}, {"b"})

    def test_completion_in_a_text_with_a_fault(self):
        self.assertIn("cfsa", self.completed("cdlam adc 1 1 5 12\nvar v v\nservice adc within 9 cycles event 9 words {\n  |\n}\n"))
        self.assertIn("service", self.completed("var v v\n|"))

    def test_names(self):
        uri = self.open(SCRIPT)
        ranges = lambda places: [(it["range"]["start"]["line"], it["range"]["start"]["character"]) for it in places]
        self.assertEqual(ranges(self.client.at("definition", uri, 10, 8)), [(2, 5)])
        self.assertEqual(ranges(self.client.at("definition", uri, 9, 9)), [(8, 8)])
        self.assertEqual(ranges(self.client.at("definition", uri, 7, 10)), [(0, 6)])
        self.assertEqual(ranges(self.client.at("references", uri, 4, 14, context={"includeDeclaration": False})), [(3, 16), (4, 14), (5, 6)])
        self.assertEqual(ranges(self.client.at("references", uri, 4, 14)), [(2, 9), (3, 16), (4, 14), (5, 6)])
        self.assertEqual(ranges(self.client.at("documentHighlight", uri, 1, 4)), [(1, 4), (9, 14), (10, 11), (11, 6)])
        self.assertEqual(self.client.at("definition", uri, 6, 0), [])
        names = [(it["name"], it["detail"], [one["name"] for one in it.get("children", [])]) for it in self.client.ask("textDocument/documentSymbol", textDocument={"uri": uri})]
        self.assertEqual(names, [("adc", "LAM", []), ("v", "variable", []), ("t", "variable", []), ("get", "proc", ["s", "r"]), ("adc", "service", ["r"])])
        self.assertEqual([(it["startLine"], it["endLine"]) for it in self.client.ask("textDocument/foldingRange", textDocument={"uri": uri})], [(2, 5), (7, 11)])


class Changed(Served):
    def renamed(self, text, line, character, new):
        uri = self.open(text)
        told = self.client.at("rename", uri, line, character, newName=new)
        return applied(text, told["changes"][uri]) if "changes" in told else told["message"]

    def test_rename(self):
        for place, old, new in [((9, 14), "v", "word"), ((10, 8), "get", "read"), ((7, 9), "adc", "trigger")]:
            self.assertEqual(self.renamed(SCRIPT, *place, new), re.sub(rf"\b{old}\b", new, SCRIPT))
        self.assertEqual(self.renamed(SCRIPT, 8, 8, "out"), SCRIPT.replace("cdreg r 1 1 6", "cdreg out 1 1 6").replace("cfsa 0 r -> v", "cfsa 0 out -> v"))
        self.assertEqual(self.renamed(SCRIPT, 3, 16, "channel"), re.sub(r"\bs\b", "channel", SCRIPT))
        # Of two bodies each may have the name.
        self.assertEqual(self.renamed(SCRIPT.replace("cdreg r 1 1 6", "cdreg k 1 1 6").replace("0 r -> v", "0 k -> v"), 8, 8, "r"), SCRIPT)

    def test_rename_that_cannot_be(self):
        for new, said in [("9a", "is no name"), ("n" * 33, "is no name"), ("put", "is a word of the language"), ("t", "is in the script already, as a variable"), ("get", "as a procedure")]:
            self.assertIn(said, self.renamed(SCRIPT, 1, 4, new))
        self.assertEqual(self.renamed(SCRIPT, 6, 0, "a"), "there is no name here")
        uri = self.open(SCRIPT)
        self.assertIsNone(self.client.at("prepareRename", uri, 6, 0))
        self.assertEqual(self.client.at("prepareRename", uri, 9, 15), span((9, 14), (9, 15)))

    def fixed(self, text, line, title, warnings=0):
        """A text after the first fix on a line whose title begins so."""
        uri = self.open(text)
        self.client.found(uri)
        if warnings:
            self.warned(uri, warnings)
        found = self.client.actions(uri, line)
        fix = next((it for it in found if it["title"].startswith(title)), None)
        self.assertTrue(fix, [it["title"] for it in found])
        return applied(text, fix["edit"]["changes"][uri])

    def test_fixes(self):
        self.assertEqual(self.fixed(SCRIPT.replace("put v", "putt v"), 11, "Write `put`"), SCRIPT)
        self.assertEqual(self.fixed(SCRIPT.replace("within 6", "within 5"), 7, "Write 6 after `within`"), SCRIPT)
        self.assertEqual(self.fixed(SCRIPT.replace("within 6", "within 5").replace("event 2", "event 9"), 7, "Write the least headings"), SCRIPT)
        self.assertEqual(self.fixed(SCRIPT.replace("event 1 words steps", "event 0 words steps"), 2, "Write 1 after `event`"), SCRIPT)
        self.assertEqual(self.fixed(SCRIPT.replace("steps 3", "steps 2"), 2, "Write 3 after `steps`"), SCRIPT)
        self.assertEqual(self.fixed(SCRIPT.replace("service", "servcie"), 7, "Write `service`"), SCRIPT)
        short = "cdlam adc 1 1 5 12\nvar v\nservice adc within 3 cycles event 1 words {}\n"
        self.assertEqual(self.fixed(short.replace("service", "servcie"), 2, "Write `service` in place of `servcie`"), short)
        loop = SCRIPT.replace("  put v\n", "  t = 9\n  while t > 0 turns 9 by t { t = t - 1 }\n")
        self.assertEqual(self.fixed(loop.replace("turns 9", "turns 8"), 12, "Write 9 after `turns`"), loop)
        self.assertEqual(self.fixed(loop.replace("turns 9", "turns 70000"), 12, "Write 65535 after `turns`"), loop.replace("turns 9", "turns 65535"))

    def test_fixes_of_loops(self):
        loop = "  for t = 1 to 4{} {{ if v < 9 {{ v = v + 1 }} }}\n  put v\n  cclc adc\n"
        head = "cdlam adc 1 1 5 12\nvar v t\nservice adc within 3 cycles event 1 words {\n"
        text = head + "  for t = 1 to 4 { v = v + 1 }\n  put v\n  cclc adc\n}\n"
        self.assertEqual(self.fixed(text, 3, "Write what helps the loops: for t = 1 to 4 each {"), text.replace("4 {", "4 each {"))
        wide = head + loop.format(" keep v in 0..1000") + "}\n"
        self.assertEqual(self.fixed(wide, 3, "Keep the least range", 1), wide.replace("1000", "9"))
        unused = head + loop.format(" keep v in 0..9").replace("put v\n", "put 1\n") + "}\n"
        self.assertEqual(self.fixed(unused, 3, "Remove what is kept for nothing", 1), unused.replace("keep v in 0..9 ", ""))
        dear = head.replace("var v t", "var t").replace("within 3", "within 75").replace("event 1", "event 0") + "  cdreg o 1 1 6 0\n  for t = 0 to 11 {\n    if t < 8 { cfsa 16 o <- 1 }\n  }\n  cclc adc\n}\n"
        self.assertEqual(self.fixed(dear, 4, "Judge the loop turn by turn", 1), dear.replace("11 {", "11 each {"))

    def test_loops_of_a_long_script(self):
        """What helps them is looked for when it is asked for, and the client is asked to put it in."""
        text = "#" * 9000 + "\ncdlam adc 1 1 5 12\nvar v t\nservice adc within 3 cycles event 1 words {\n  for t = 1 to 4 { v = v + 1 }\n  put v\n  cclc adc\n}\n"
        uri = self.open(text)
        (action,) = [it for it in self.client.actions(uri, 5) + self.client.actions(uri, 6) if "command" in it][:1]
        self.client.ask("workspace/executeCommand", **{"command": action["command"]["command"], "arguments": action["command"]["arguments"]})
        self.assertEqual(len(self.client.applied), 1)
        self.assertEqual(self.shown(self.open(applied(text, self.client.applied[0]["changes"][uri]))), [])
        self.assertEqual(self.client.ask("workspace/executeCommand", command="none", arguments=[])["code"], INVALID_PARAMS)

    def test_formatting(self):
        wanted = SCRIPT.replace("{\n  cdreg r 1 1 6 0\n", "{\n  cdreg r 1 1 6 0  # \U0001F600\n")
        text = wanted.replace("  # \U0001F600\n", " # \U0001F600\n").replace("  put v\n", "put    v\n")
        uri = self.open(text)
        edits = self.client.ask("textDocument/formatting", textDocument={"uri": uri}, options={})
        self.assertEqual(applied(text, edits), wanted)
        self.assertEqual(self.client.ask("textDocument/formatting", textDocument={"uri": self.open(wanted)}, options={}), [])
        for text, why in (("var {", "this `{` is not closed"), ("{" * 17, "more than 16 open `{`: deeper than a script may be")):
            told = self.client.ask("textDocument/formatting", textDocument={"uri": self.open(text)}, options={})
            self.assertEqual(told["message"], f"line 1: {why}")


class Size(Served):
    def memory(self):
        """What the server has in memory, in KiB."""
        with open(f"/proc/{self.client.server.pid}/status", encoding="ascii") as it:
            return int(re.search(r"VmRSS:\s+(\d+)", it.read())[1])

    def processor_time(self):
        """The seconds that the server has used the processor, by the clock that Linux has for each process."""
        return time.clock_gettime(~self.client.server.pid << 3 | 2)

    def explained(self, text):
        self.write("final.script", text)
        return re.match(r"(accepted|refused (\w+) line (\d+))", "".join(lines_of("explain", "@sample", self.room / "final.script", program=PROGRAM)))

    def test_megabyte(self):
        """A text of the greatest length, and one byte past it."""
        text = SCRIPT + "#" * (1_048_576 - len(SCRIPT))
        uri = self.open(text)
        self.assertEqual(self.shown(uri), [])
        self.client.change(uri, 2, ((13, 9), (13, 9), "#"))
        (it,) = self.client.found(uri, 2)
        self.assertEqual(it["message"], "fault input too long")
        self.client.change(uri, 3, ((9, 2), (9, 6), "cfsx"), ((13, 9), (13, 11), ""))
        self.assertEqual(self.shown(uri, 3), [(9, 2, 6, "S5")])

    def test_many_edits(self):
        """Edits at random places: what is shown of the last text is what `explain` says of it; and the memory is as before."""
        chance, text, version = random.Random(5), SCRIPT, 1
        uri = self.open(text)
        self.client.found(uri)
        kept = [0, 0]
        for number in range(EDITS):
            lines = text.split("\n")
            first, last = sorted((line, chance.randrange(len(lines[line]) + 1)) for line in (chance.randrange(len(lines)) for _ in range(2)))
            last = first if chance.random() < 0.7 else min(last, (first[0], first[1] + 3))
            last = last[0], min(last[1], len(lines[last[0]]))
            new = chance.choice(("", " ", "\n", "v", "1", "{", "}", "put v", "#", "\u00e4\U0001F600", "cfsa 0 r -> v\n"))
            version += 1
            if len(text) > 4000 or number % 100 == 99:
                text, change = SCRIPT, SCRIPT
            else:
                change = first, last, new
                place = [sum(len(it) + 1 for it in lines[:line]) + column for line, column in (first, last)]
                text = text[: place[0]] + new + text[place[1] :]
                units = [(line, len(lines[line][:column].encode("utf-16-le")) // 2) for line, column in (first, last)]
                change = (*units, new)
            self.client.change(uri, version, change)
            if number % 50 == 0:
                self.client.found(uri, version)
            if number == EDITS // 10:
                self.client.found(uri, version)
                kept[0] = self.memory()
        shown = self.client.found(uri, version)
        kept[1] = self.memory()
        told = self.explained(text)
        self.assertEqual(not [it for it in shown if it["severity"] == 1], told[1] == "accepted", text)
        if told[2]:
            self.assertEqual((shown[0]["code"], shown[0]["range"]["start"]["line"]), (told[2], int(told[3]) - 1))
        self.assertLess(kept[1] - kept[0], 8192)
        print(f"{EDITS} edits: {kept[0]} and then {kept[1]} KiB", file=sys.stderr)

    def test_time(self):
        """On 4,096 statements, what is shown after an edit."""
        uri = self.open(LONG)
        self.client.found(uri)
        chance, used, at = random.Random(7), [], 0
        for version in range(2, 2 + EDITS // 10 * 2):
            before = self.processor_time()
            at = at if version % 2 else chance.randrange(4, 4000)
            self.client.change(uri, version, ((at, 2), (at, 3), "") if version % 2 else ((at, 2), (at, 2), "x"))
            shown = self.client.found(uri, version)
            used.append(self.processor_time() - before)
            self.assertEqual([it["code"] for it in shown if it["severity"] == 1], [] if version % 2 else ["S5"])
        self.see_time("what is shown", used)

    def test_time_of_requests(self):
        """On 4,096 statements, in versions that are new."""
        uri = self.open(LONG)
        at = {"position": {"line": 5, "character": len("  cfsa 0 ")}}
        for method, more in [
            *((method, at) for method in ("hover", "completion", "definition", "references", "documentHighlight")), ("rename", {**at, "newName": "other"}),
            ("formatting", {"options": {}}), ("foldingRange", {}), ("documentSymbol", {}), ("codeAction", {"range": span((2, 0), (2, 1)), "context": {"diagnostics": []}}),
        ]:
            used, text = [], LONG.replace("within 99999", "within 1") if method == "codeAction" else LONG
            for _ in range(9):
                version = self.client.versions[uri] + 1
                self.client.change(uri, version, text + " " * version)
                self.client.found(uri, version)
                before = self.processor_time()
                told = self.client.ask(f"textDocument/{method}", textDocument={"uri": uri}, **more)
                used.append(self.processor_time() - before)
                self.assertTrue(told and "code" not in told, told)
            self.see_time(method, used)

    def see_time(self, what, used):
        print(f"{what} on 4,096 statements: a median of {statistics.median(used) * 1000:.0f} ms of the processor", file=sys.stderr)
        self.assertLess(statistics.median(used), BUSY * LIMIT if not of_c.lacking() else math.inf)


if __name__ == "__main__":
    if "--whole" in sys.argv:
        sys.argv.remove("--whole")
        EDITS = 10_000
    unittest.main()
