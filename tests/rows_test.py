#!/usr/bin/env python3
"""Plays the worked rows of tests/rows, and those that no text of lines can hold. tests/rows/README.md shows the form of a row.

usage: tests/rows_test.py [-v] [TEST ..]     from any folder; takes a few seconds
"""
import re
import struct
import unittest

from support import plans
from support.program import EVENT_FILE, EVENT_FILE_ONE, Room
from support.rows import NOT_MADE, NO_EVENTS, ROWS, SAMPLE, STRAIGHT_LINE, Wrong, event_file, read_rows


class Playing(Room):
    def call(self, *words, given=b""):
        """Status and standard output of the program, which has nothing to say on standard error but of an answer that is refused."""
        status, out, err = super().call(*words, given=given)
        self.assertEqual(re.sub(rb"  ANSWERS: column .*\n", b"", err), b"")
        return status, out

    def play(self, command, inputs):
        """Status, standard output, and the event file."""
        for it in self.room.iterdir():
            it.unlink()
        for name, text in inputs.items():
            (self.room / name).write_bytes(text)
        (self.room / "ANSWERS").touch()
        name, *options = command.split()
        words = [name, "PLAN" if "PLAN" in inputs else "@sample", *options]
        if name != "plan" and "SCRIPT" in inputs:
            words.append("SCRIPT")
        if command == "run":
            words += ["ANSWERS", "events"]
        if command == "drive":
            words.append("events")
        status, printed = self.call(*words, given=inputs.get("ANSWERS", b"") if command == "drive" else b"")
        written = self.room / "events"
        return status, printed, written.read_bytes() if written.exists() else NOT_MADE

    def expect(self, command, status, printed, **inputs):
        self.assertEqual(self.play(command, inputs)[:2], (status, printed))


class Rows(Playing):
    def test_explanations_of_plans_without_a_script(self):
        for name, (case, *_) in ROWS["explanations"].items():
            if "PLAN" in case.inputs:
                self.expect("explain", 1, case.printed, PLAN=case.inputs["PLAN"])

    def test_rows(self):
        for file, rows in ROWS.items():
            for name, cases in rows.items():
                for number, case in enumerate(cases, 1):
                    with self.subTest(file=file, row=name, case=number):
                        status, printed, events = self.play(case.command, case.inputs)
                        self.assertEqual(printed.decode(), case.printed.decode())
                        self.assertEqual(status, case.status)
                        if case.events not in (None, events):
                            self.fail(f"another event file: {self.call('events', 'events')[1].decode() if events != NOT_MADE else events}")

    def test_form(self):
        """What is no row is not passed over."""
        self.assertEqual(len(read_rows("a.rows", "on loops\n\n== a\nof this\n-- SCRIPT\n-- check 0\naccepted\n\n== b\n-- plan 0\n")), 2)
        for row in (
            "",
            "a sentence\n",
            "-- SCRIPT\nvar v\n",
            "-- SCRIPT\n-- check 0\n-- SCRIPT\n",
            "-- SCRIPT of a\n-- check 0\n",
            "-- FRAME\n#\n..\n-- PART\n-- check 0\n-- PART\n",
            "-- SCRIPT\n-- FRAME\nvar v\n-- PART\n-- check 0\n",
            "-- PART\nvar v\n-- check 0\n",
            "-- BODY\nput 1\n",
            "-- BODY within 3\nput 1\n-- check 0\n",
            "-- check 0\n",
            "-- PLAN\n-- check 0\n",
            "-- SCRIPT\n-- check 2\n",
            "-- SCRIPT\n-- chekc 0\n",
            "-- SCRIPT\n-- check\n",
            "-- script\n-- plan 0\n",
            "-- SCRIPT\n-- check 0\n-- EVENTS\n",
            "-- SCRIPT\n-- run 0\n-- EVENTS\n-- EVENTS\n",
            "-- SCRIPT\n-- run 0\n-- EVENTS\nevent 1\n",
            "-- SCRIPT\n-- run 0\n-- EVENTS not made\ngl 3 cycles 0 missed 0 words\n",
        ):
            with self.subTest(row=row):
                self.assertRaises(Wrong, read_rows, "a.rows", f"== a\n{row}")
        for text in ("== a\n-- plan 0\n== a\n-- plan 0\n", "== \n-- plan 0\n", "== a b\n-- plan 0\n"):
            with self.subTest(text=text):
                self.assertRaises(Wrong, read_rows, "a.rows", text)


def service(body, cycles, words):
    heading = f"service adc within {cycles} cycles event {words} words"
    return f"cdlam adc 1 1 5 12\nvar v k i t n table g = 1 2 3\n{heading} {{\n{body}\n}}\n".encode()


def deep(levels, inner="1"):
    return levels * "[" + inner + levels * "]"


# Texts of plans, and how deep they nest: P11 above 16. None of their keys is one of a plan, so the others are P2.
OPEN = 20 * "[{"
NESTED = [
    *((f"a = {deep(it)}", it) for it in (16, 17)),
    ("a = " + 17 * "[", 17),
    *(("a = " + it * "{ b = " + "1" + it * " }", it) for it in (16, 17)),
    *((f"a{it * ' . b'} = 1", it) for it in (16, 17)),
    *((f"[a{(it - 1) * '.b'}]", it) for it in (16, 17)),
    *((f"[[ a{(it - 1) * '.b'} ]]\nc = 1", it) for it in (16, 17)),
    *((f"[x.y]\na.b = {{ c = {deep(it)} }}", it + 4) for it in (12, 13)),
    *((f"[x.y]\na.b = {{ c.d.e = {deep(it)} }}", it + 6) for it in (10, 11)),
    # what has ended is open no longer: brackets, the dots of a key, a heading
    ("a = [ " + 40 * "[ 1 ], " + "]", 2),
    ("a = { " + ", ".join(f"b{it}.c.d = [ 1 ]" for it in range(40)) + " }", 4),
    ("\n".join(f"a{it}.b.c = [ 1 ]" for it in range(40)), 3),
    ("\n".join(f"[a.b{it}.c]\nd.e = 1" for it in range(40)), 4),
    *((f"a = [ [ {{ b.c = 1 }}, {deep(it)} ] ]", it + 2) for it in (14, 15)),
    *((f"a = {{\n  b.c = [ [\n 1 ] ],\n  d = {deep(it)} }}", it + 1) for it in (15, 16)),
    # the dot of a number is none of a key
    (f"a = {deep(16, '1.5, 1979-05-27T07:32:00.25Z')}", 16),
    # what is in strings and comments opens and ends nothing
    (f'a = "{OPEN}"\nb = \'{OPEN}\' # {OPEN}', 0),
    *((rf'a = "\"{OPEN}" # "' + rf"{OPEN}" + f"\nb = '\\'\nc = {deep(it)}", it) for it in (16, 17)),
    *((f"a = \"\"\nb = ''\nc = {deep(it)}", it) for it in (16, 17)),
    *((f'a = """\n{OPEN}"" \\"""{OPEN}"""""\nb = {deep(it)}', it) for it in (16, 17)),
    *((f"a = '''\n{OPEN}'' \\'''''\nb = {deep(it)}", it) for it in (16, 17)),
    *((f'a = """""" # "{OPEN}\nb = {deep(it)}', it) for it in (16, 17)),
    *((f"\"b]\" . 'c.d' = [\n # ]\n {deep(it)} ]", it + 2) for it in (14, 15)),
]

# The begin of a service, what is there many times, how often, and what is said of it.
SERVICE = "cdlam adc 1 1 5 12\nvar v\nservice adc within 100 cycles event 100 words {"
REPEATED = [
    ("cdlam adc 1 1 5 12\n", "service adc within 1 cycles event 0 words {}\n", 25, "S6 line 26: limit passed"),
    ("cdlam adc 1 1 5 12\n", "service adc within 1 cycles event 0 words {}\n", 24, "L3 line 3: two services on one station"),
    ("cdlam adc 1 1 5 12\nservice adc within 1 cycles event 1 words {", "\nput 1", 4097, "S6 line 4099: limit passed"),
    ("cdlam adc 1 1 5 12\nservice adc within 1 cycles event 1 words {", "\nput 1", 4096, "S2 line 4098: unexpected token"),
    (f"{SERVICE}\n  v = ", "(", 16, "S6 line 4: limit passed"),
    (f"{SERVICE}\n  v = ", "1+", 33, "S6 line 4: limit passed"),
    (f"{SERVICE}\n  v = ", "1+", 32, "S2 line 4: unexpected token"),
    (f"{SERVICE}\n  if q", " and x", 16, "S6 line 4: limit passed"),
    (f"{SERVICE}\n  if q", " and x", 15, "S2 line 4: unexpected token"),
    (f"{SERVICE}\n  if q", 14 * " and q" + " and w", 1, "S5 line 4: name not declared"),
    (SERVICE, "\nif q {", 16, "S6 line 19: limit passed"),
    (SERVICE, "\nif q {", 15, "S2 line 18: unexpected token"),
    ("table g =", " 1", 1025, "S6 line 1: limit passed"),
    ("var", "".join(f" {tens}{ones}" for tens in "abcdefgh" for ones in "01234567") + "\ni0", 1, "S6 line 2: limit passed"),
]


class NoRows(Playing):
    """Texts that are made by a rule, or whose bytes are no lines."""

    def test_the_longest_event(self):
        """4,096 words, through a run, a live run and `events`."""
        words = range(1, 4097)
        script = service("for i = 1 to 4096 { put i }", 0, 4096)
        file = NO_EVENTS + struct.pack(">HHIIHH4096I", 0xCA4D, 3, 1, 0, 0, 4096, *words)
        for command, printed in (("run", b"demand 000004 adc\nended events 1\n"), ("drive", b"demand\ndemand\nended events 1\n")):
            played = self.play(command, {"SCRIPT": script, "ANSWERS": b"0 0 000000 0 000004\n"})
            self.assertTrue(played == (0, printed, file), command)
            listed = f"event 1 gl 3 cycles 0 missed 0 words 4096{''.join(f' {word:06x}' for word in words)}\nevents 1\n"
            self.assertTrue(self.call("events", "events") == (0, listed.encode()))

    def expect_refused_plans(self, table):
        for old, new, refusal in table:
            with self.subTest(new=new):
                self.assertIn(old, SAMPLE.decode())
                self.expect("plan", 1, f"refused {refusal}\n".encode(), PLAN=SAMPLE.decode().replace(old, new).encode())

    def test_plan_faults_of_tables(self):
        self.expect_refused_plans(plans.TABLES)
        self.expect("plan", 1, b"refused P1: not TOML\n", PLAN=b"=")

    def test_plan_faults_of_what_is_twice(self):
        self.expect_refused_plans(plans.TWICE)

    def test_plans_that_nest(self):
        for text, depth in NESTED:
            with self.subTest(text=text):
                refusal = b"P2: unknown key" if depth <= 16 else b"P11: nested too deeply"
                self.expect("plan", 1, b"refused " + refusal + b"\n", PLAN=text.encode())

    def test_plan_field_faults(self):
        self.expect_refused_plans(plans.FIELDS)

    def test_plan_field_faults_of_many_types(self):
        types = [f'[[type]]\ncommands = []\nname = "T{number}"\n' for number in range(65)]
        self.expect("plan", 1, b"refused P4: value out of range\n", PLAN="".join(types).encode())
        lines = [b"buffer 4096\n", *(f"type T{number} commands 0 probes 0\n".encode() for number in range(64))]
        self.expect("plan", 0, b"".join(lines), PLAN="".join(types[:64]).encode())

    def test_parse_faults_of_limits(self):
        for begin, piece, times, refusal in REPEATED:
            with self.subTest(piece=piece, times=times):
                self.expect("check", 1, f"refused {refusal}\n".encode(), SCRIPT=(begin + times * piece).encode())
        self.expect("check", 0, b"accepted\n", SCRIPT=b"table g =" + 1024 * b" 1")

    def test_last_answer_without_its_end(self):
        """The digits may be of either case."""
        plan = '[[type]]\nname = "A"\ncommands = [ { f = 0, a = 0 } ]\n[[crate]]\nnumber = 1\nwaits = 15\n'
        plan += 'station = [ { n = 5, type = "A", gl = 3 } ]\n'
        script = STRAIGHT_LINE.inputs["SCRIPT"].replace(b"within 3", b"within 16")
        answers = b"0 0 000000 0 000004\n1 0 00ABcd F 800000"
        listed = b"demand 000004 adc\ncycle 1 5 0 0 in 00abcd x1 q0 wait 15\nended events 1\n"
        events = event_file(["gl 3 cycles 16 missed 0 words 00abcd"])
        self.assertEqual(self.play("run", {"PLAN": plan.encode(), "SCRIPT": script, "ANSWERS": answers}), (0, listed, events))
        self.assertEqual(self.play("run", {"PLAN": plan.encode(), "SCRIPT": script, "ANSWERS": answers + b"\n"}), (0, listed, events))

    def test_no_final_line_feed(self):
        for size in (b"0", b"4097"):
            self.expect("plan", 1, b"refused P4: value out of range\n", PLAN=b"buffer = " + size)
        self.expect("plan", 1, b"refused P3: missing key or wrong kind\n", PLAN=b'buffer = "4"')
        self.expect("check", 1, b"refused P1: not TOML\n", PLAN=b"=", SCRIPT=b"!")
        self.expect("check", 1, b"refused S2 line 1: unexpected token\n", SCRIPT=b"table g =")
        self.expect("check", 1, b"refused S1 line 1: bad byte\n", SCRIPT=b"!")
        answers = ROWS["drive"]["live_refused_script"][0].inputs["ANSWERS"]
        self.assertEqual(self.play("drive", {"SCRIPT": b"!", "ANSWERS": answers}), (1, b"refused S1 line 1: bad byte\n", NOT_MADE))

    def test_line_ends(self):
        script = STRAIGHT_LINE.inputs["SCRIPT"]
        self.expect("check", 0, STRAIGHT_LINE.printed, SCRIPT=script.replace(b"\n", b"\r\n"))
        self.expect("check", 0, STRAIGHT_LINE.printed, SCRIPT=script[:-1])

    def test_bytes_of_all_kinds(self):
        self.expect("check", 1, b"refused S1 line 1: bad byte\n", SCRIPT=b"\x00\xff")
        self.expect("check", 1, b"refused S1 line 2: bad byte\n", SCRIPT=b"var v\n\x80")
        self.expect("check", 0, b"accepted\n", SCRIPT=b"# \xff\x00\n")
        self.expect("plan", 1, b"refused P1: not TOML\n", PLAN=b"\xff")

    def test_script_fault_of_a_limit(self):
        script = "".join(f"var v{tens}{ones}\n" for tens in "abcdefg" for ones in "abcdefghij")
        self.expect("check", 1, b"refused S6 line 65: limit passed\n", SCRIPT=script.encode())

    def test_missed_stays(self):
        """The number of cycles without X stays at 65,535."""
        script = ROWS["loops"]["missed_stays"][0].inputs["SCRIPT"]
        answers = b"0 0 000000 0 000004\n" + 65536 * b"0 0 000000 0 000000\n"
        status, _, events = self.play("run", {"SCRIPT": script, "ANSWERS": answers})
        self.assertEqual((status, events), (0, event_file(["gl 3 cycles 65536 missed 65535 words"])))


class EventFiles(Playing):
    """What `camac events` writes: the lines of an event file, or its refusal."""

    def expect_listing(self, file, printed, status=0):
        (self.room / "file").write_bytes(file)
        self.assertEqual(self.call("events", "file"), (status, printed))

    def expect_refused(self, file, refusal):
        self.expect_listing(file, f"refused {refusal}\n".encode(), 1)

    def expect_changed(self, file, place, byte, refusal):
        """The file with one byte for another is refused."""
        self.expect_refused(file[:place] + bytes([byte]) + file[place + 1 :], refusal)

    def expect_truncated(self, file, fields):
        """Each prefix of the file that ends inside one of the fields, which begin at these bytes, is refused there."""
        for first, after in zip(fields, [*fields[1:], len(file)]):
            for size in range(max(first, 9), after):
                self.expect_refused(file[:size], f"V7 byte {first}: truncated")

    def test_event_file_one(self):
        self.expect_truncated(EVENT_FILE_ONE, [8, 10, 12, 16, 18])
        self.expect_listing(b"CAMACEV1", b"events 0\n")
        self.expect_refused(b"CAMACEV", "V1 byte 0: header")
        self.expect_changed(EVENT_FILE_ONE, 18, 1, "V6 byte 18: word")
        self.expect_refused(EVENT_FILE_ONE + EVENT_FILE_ONE[8:], "V4 byte 26: event number")

    def test_event_file_two(self):
        self.expect_truncated(EVENT_FILE, [8, 10, 12, 16, 20, 22, 24])
        self.expect_listing(b"CAMACEV2", b"events 0\n")
        self.expect_refused(b"CAMACEV", "V1 byte 0: header")
        self.expect_changed(EVENT_FILE, 21, 4, "V9 byte 20: X count")
        self.expect_changed(EVENT_FILE, 24, 1, "V6 byte 24: word")
        self.expect_refused(EVENT_FILE + EVENT_FILE[8:], "V4 byte 32: event number")

    def test_event_field_faults(self):
        self.expect_changed(EVENT_FILE_ONE, 9, 0x4E, "V2 byte 8: marker")
        self.expect_changed(EVENT_FILE_ONE, 11, 0, "V3 byte 10: GL number")
        self.expect_changed(EVENT_FILE_ONE, 11, 25, "V3 byte 10: GL number")
        self.expect_changed(EVENT_FILE_ONE, 15, 2, "V4 byte 12: event number")
        self.expect_changed(EVENT_FILE_ONE, 16, 0x10, "V5 byte 16: count")

    def test_events_of_no_word_and_of_many(self):
        first = bytes.fromhex("ca4d 0018 00000001 ffffffff ffff 0000")
        second = bytes.fromhex("ca4d 0001 00000002 00000000 0000 0003 00000000 00ffffff 0001abcd")
        lines = b"event 1 gl 24 cycles 4294967295 missed 65535 words 0\nevent 2 gl 1 cycles 0 missed 0 words 3 000000 ffffff 01abcd\nevents 2\n"
        self.expect_listing(NO_EVENTS + first + second, lines)


if __name__ == "__main__":
    unittest.main()
