#!/usr/bin/env python3
"""Tests of the law of look-at-mes: of scripts and modules that are made at random, none waits longer than `camac response` says, at any moment of a
run, and some wait just as long; and no stretch is longer. What half of the scripts leave up, clear or hide, `response` tells by lines `unkept`, and promises
no number for it.

usage: tests/look_at_mes_test.py [-v] [TEST ..]     from any folder; takes a minute of processor time

CAMAC_SEED is another seed than the one of the day, which is printed; CAMAC_RUNS is how many runs are played in place of those that fit the time.
"""
import collections
import datetime
import os
import random
import unittest

from support.program import PROGRAM, folder
from camac.contradictions import Watch
from camac.printed import read_responses
from camac.values import Harm
from oracle.calls import Program
from oracle.comparing import used
from oracle.reader.answers import Answer, Answers
from oracle.reader.engines import Inputs, checked
from oracle.reader.meaning import Run
from oracle.reader.response import response_of, services_of

SEED = os.environ.get("CAMAC_SEED") or datetime.date.today().isoformat()
RUNS, SECONDS, ANSWERS = os.environ.get("CAMAC_RUNS"), 45, 120
# F9 clears the look-at-me, too.
TYPE = """[[type]]
name = "T"
commands = [ { f = 0, a = 0 }, { f = 9, a = 0, clears = true }, { f = 10, a = 0 }, { f = 24, a = 0 }, { f = 26, a = 0 } ]
"""
READ = "cfsa 0 r -> v "
# What clears a service's own look-at-me on every way; {0} is its name, {1} its crate, {2} its station.
CLEARS = ("cclc {0} ", "cdreg s 1 {1} {2} 0 cfsa 9 s ", "if q {{ cclc {0} }} else {{ cclc {0} }} ", "lock {1} {{ cclc {0} }} ", "for k = 1 to 2 {{ cclc {0} }} ")
LEAVES = ("", "if q {{ cclc {0} }} ", "if x {{ }} else {{ cclc {0} }} ")
Z, C = (28, 8, 26), (28, 9, 26)
# What is wrong in a service, by what it may do to the look-at-me of {0}, whose crate and station are {1} and {2}: it clears it if it is another's, or
# hides it. Those of the crate are for all of its look-at-mes.
WRONGS = {
    "cclc": ("cclc {0} ", True, False), "cclc if q": ("if q {{ cclc {0} }} ", True, False), "F9": ("cdreg s 1 {1} {2} 0 cfsa 9 s ", True, False),
    "F24": ("cclm {0} off ", True, True), "F24 and F26": ("cclm {0} off cclm {0} on ", True, True), "C": ("cccc {1} ", True, False),
    "Z": ("cccz {1} cccd {1} on cclm {0} on ", True, True), "demand off": ("cccd {1} off ", False, True),
}
OF_CRATE = ("Z", "C", "demand off")


class Made:
    """A script of two to five services, a plan for it, and its words for `response`."""

    def __init__(self, dice):
        self.dice = dice
        bits = sorted(dice.sample(range(1, 25), dice.randrange(2, 6)))
        self.waits = {c: dice.choice((0, 0, 1, 2, 5)) for c in (1, 2)}
        self.places = {f"s{bit}": (dice.choice((1, 2)), n) for n, bit in enumerate(bits, 1)}
        self.bits = {f"s{bit}": bit for bit in bits}
        # What `response` has to tell: of whom, why, and by whom.
        self.unkept, self.wrongs = set(), set()
        self.is_kept = dice.random() < 0.5
        order = dice.sample(list(self.places), len(bits))
        lams = "".join(f"cdlam {name} 1 {c} {n} 0\n" for name, (c, n) in self.places.items())
        self.script = f"{lams}var v k\n" + "".join(map(self.service, order))
        self.plan = TYPE + "".join(map(self.crate, (1, 2)))

    def crate(self, number):
        stations = ", ".join(f'{{ n = {n}, type = "T", gl = {self.bits[name]} }}' for name, (c, n) in self.places.items() if c == number)
        return f"[[crate]]\nnumber = {number}\nwaits = {self.waits[number]}\nstation = [ {stations} ]\n"

    def service(self, name):
        dice, (c, n) = self.dice, self.places[name]
        parts = [*(self.part(c) for _ in range(dice.randrange(3))), self.clear(name), self.wrong(name)]
        dice.shuffle(parts)
        return f"service {name} within 4294967295 cycles event 0 words {{ cdreg r 1 {c} {n} 0 {READ}{''.join(parts)}}}\n"

    def clear(self, name):
        leaves = not self.is_kept and self.dice.random() < 0.25
        if leaves:
            self.wrongs.add("left up")
            self.unkept.add((name, Harm.LEFT, None))
        return self.dice.choice(LEAVES if leaves else CLEARS).format(name, *self.places[name])

    def wrong(self, name):
        """Something that clears or hides the look-at-me of another service, or its own."""
        if self.is_kept or self.dice.random() < 0.6:
            return ""
        (kind, (text, clears, hides)), whose = self.dice.choice(list(WRONGS.items())), self.dice.choice(list(self.places))
        if whose == name and kind in ("cclc", "F9"):
            return ""
        for other, place in self.places.items():
            if other == whose or kind in OF_CRATE and place[0] == self.places[whose][0]:
                self.unkept |= {(other, Harm.CLEARED, name)} if clears and other != name else set()
                self.unkept |= {(other, Harm.HIDDEN, name)} if hides else set()
        self.wrongs.add(kind)
        return text.format(whose, *self.places[whose])

    def part(self, c):
        reads = READ * self.dice.randrange(1, 5)
        return self.dice.choice((reads, reads, f"if q {{ {reads}}} ", f"lock {c} {{ {reads}}} ", f"for k = 1 to 3 {{ {reads}}} "))

    def rates(self, cycles):
        """Rates that leave room for all services, or just about so."""
        total = sum(cycles.values())
        near = {name: self.dice.randrange(max(total // 2, 1), 3 * total + 2) for name in cycles}
        return {name: rate for name, rate in near.items() if self.dice.random() < 0.8}


class Module:
    """The look-at-me of a service: whether it is up, since which cycle of the run, when it went down, and when the module raises it next (None: it
    waits for a good moment). Times count rests, too."""

    def __init__(self, name, bit, place, every):
        self.name, self.bit, self.place, self.every = name, bit, place, every
        self.is_up, self.may, self.is_enabled = False, True, True
        self.down = self.least = 0
        self.next = None


class Modules(Answers):
    """Answers of modules that keep their rates to the edge, while the reader plays the script. `before` and `after` have the look-at-mes that were
    raised (with the cycle of the run) or taken away (None) before an operation, and after an operation or a cycle, by the number of its answer."""

    def __init__(self, dice, made, responses):
        super().__init__(b"")
        checker = checked(Inputs(made.plan.encode(), made.script.encode()))
        self.dice, self.made, self.lines = dice, made, []
        self.run = Run(checker.script, checker.plan, self)
        self.all = [Module(it.name, it.gl, made.places[it.name], it.every) for it in responses]
        self.before, self.after = collections.defaultdict(list), collections.defaultdict(list)
        self.now = self.rested = 0
        # The operations, by the numbers of their answers, before which no look-at-me was up.
        self.rests = set()
        self.has_idle, self.is_worst = dice.random() < 0.5, dice.random() < 0.7
        bit = dice.choice(self.all).bit
        self.lower = [it for it in self.all if it.bit <= bit]
        longest = max((it for it in responses if it.gl > bit), key=lambda it: it.cycles, default=None)
        self.above = [it for it in self.all if longest and it.name == longest.name]
        if dice.random() < 0.3:
            self.raise_now(dice.sample(self.all, dice.randrange(len(self.all) + 1)), self.before)

    def clock(self):
        return self.now + self.rested

    def raise_at(self, module, at, changes):
        module.is_up, module.may = True, module.every is not None
        module.least, module.next = at + (module.every or 0), None
        if module.every and (self.is_worst or self.dice.random() < 0.7):
            module.next = module.least + self.dice.choice((0, 0, self.dice.randrange(9)) if not self.is_worst else (0,))
        changes[len(self.lines)].append((module.name, at - self.rested))

    def raise_now(self, modules, changes):
        for it in modules:
            if not it.is_up and it.may and it.least <= self.clock():
                self.raise_at(it, self.clock(), changes)

    def raise_due(self, changes):
        for it in self.all:
            while not it.is_up and it.next is not None and it.next <= self.clock():
                self.raise_at(it, max(it.next, it.down), changes)

    def clear(self, module):
        if module.is_up:
            module.is_up, module.down = False, self.clock()
            self.after[len(self.lines)].append((module.name, None))

    def up(self):
        return [it for it in self.all if it.is_up]

    def seen(self):
        """Those in the pattern."""
        return [it for it in self.up() if it.is_enabled and it.place[0] not in self.run.branch.silent]

    def next(self, in_service=False):
        if len(self.lines) == ANSWERS:
            return None
        words = self.run.requests[-1].split()
        answer = self.operate() if words[0] == "demand" else self.reply(words)
        self.lines.append(answer.line())
        return answer

    def reply(self, words):
        most = 0 if int(words[1]) in self.run.branch.locked else self.made.waits[int(words[1])]
        wait = most if self.is_worst else self.dice.randrange(most + 1)
        self.now += wait + (words[0] == "cycle")
        if words[0] == "cycle":
            self.command(*map(int, words[1:5]))
        self.raise_due(self.after)
        return Answer(1, int(self.is_worst or self.dice.random() < 0.7), self.dice.randrange(1 << 24), wait, 0)

    def command(self, c, n, a, f):
        for module in self.all:
            is_there, of_crate = module.place == (c, n) and a == 0, (n, a, f) if module.place[0] == c else None
            # Some modules are cleared by Z, C and F24, too, each time or now and then.
            if is_there and f in (9, 10) or (is_there and f == 24 or of_crate in (Z, C)) and self.dice.random() < 0.5:
                self.clear(module)
            if is_there and f in (24, 26) or of_crate == Z:
                module.is_enabled = f == 26 and of_crate != Z

    def operate(self):
        """A graded-L operation, after a rest if no look-at-me is up."""
        self.raise_due(self.before)
        if not self.up():
            self.rests.add(len(self.lines))
            for it in self.all:
                it.may = True
            if self.dice.random() < 0.5:
                self.rest(self.dice.randrange(60))
            if self.has_idle and not self.up() and self.dice.random() < 0.5:
                return Answer(0, 0, 0, 0, 0)
            self.wake()
        seen = self.seen()
        if seen:
            self.follow(seen[0])
        return Answer(0, 0, 0, 0, sum(1 << it.bit - 1 for it in seen))

    def rest(self, cycles):
        """At most up to where the next look-at-me is raised."""
        due = [it.next - self.clock() for it in self.all if it.next is not None and not it.is_up]
        self.rested += min([cycles, *(max(it, 0) for it in due)])
        self.raise_due(self.before)

    def wake(self):
        if not self.up():
            self.raise_now(self.above or self.lower if self.is_worst else self.dice.sample(self.all, 1), self.before)
        if not self.up():
            self.rest(1 << 20)
        if not self.up():
            self.raise_now(self.all, self.before)

    def follow(self, called):
        """Right after the operation: the cycle of the run is that of the operation."""
        if self.is_worst and called in self.above:
            self.raise_now(self.lower, self.after)
        elif not self.is_worst:
            self.raise_now([it for it in self.all if self.dice.random() < 0.2], self.after)


class Judge:
    """Reads the listing of a run beside the look-at-mes that were raised in it. `faults` has what waited longer than its line says."""

    def __init__(self, most, modules):
        self.most = most
        self.modules, self.faults, self.exact = modules, [], 0
        self.now, self.waiting, self.called, self.served = 0, {}, None, None
        # The cycles since the last operation, and by service those of the stretch of its bit.
        self.since, self.stretches = 0, {}

    def change(self, changes):
        for name, at in changes:
            if at is None:
                # In its own service a module raises its look-at-me again only after the last command that clears it.
                if name in self.waiting and name in self.most and name != self.served:
                    self.faults.append(f"{name} is lost")
                self.waiting.pop(name, None)
            else:
                self.waiting[name] = at
        self.look()

    def look(self):
        for name, at in self.waiting.items():
            if name in self.most:
                self.exact += self.now - at == self.most[name][0] > 0
                if self.now - at > self.most[name][0]:
                    self.faults.append(f"{name} waits {self.now - at} cycles")

    def operate(self, called, is_after_a_rest):
        """Begins and ends stretches. What was in progress counts, and after a rest nothing was."""
        since, self.since = 0 if is_after_a_rest else self.since, 0
        up_to = [name for name in self.most if called != "-" and int(called[1:]) <= int(name[1:])]
        self.stretches = {name: since if is_after_a_rest else self.stretches.get(name, since) for name in up_to}

    def spend(self, cycles):
        self.now += cycles
        self.since += cycles
        for name in self.stretches:
            self.stretches[name] += cycles
            if self.stretches[name] > self.most[name][2]:
                self.faults.append(f"the stretch of {name} takes {self.stretches[name]} cycles")
        self.look()

    def end(self):
        if self.called and self.called[0] in self.most and self.now - self.called[1] > self.most[self.called[0]][1]:
            self.faults.append(f"{self.called[0]} ends {self.now - self.called[1]} cycles after its look-at-me")
        self.called = None

    def read(self, listing):
        number = 0
        for words in map(str.split, listing):
            if words[0] in ("demand", "ended"):
                self.end()
            if words[0] not in ("demand", "cycle", "lock"):
                continue
            if words[0] == "demand":
                self.change(self.modules.before[number])
                self.operate(words[2], number in self.modules.rests)
                self.served = words[2]
                if words[2] in self.waiting:
                    self.called = words[2], self.waiting.pop(words[2])
            else:
                self.spend(int(words[-1]) + (words[0] == "cycle"))
            self.change(self.modules.after[number])
            number += 1


class Case(unittest.TestCase):
    def setUp(self):
        memory = "/dev/shm" if os.access("/dev/shm", os.W_OK) else None
        self.program = Program(PROGRAM, folder(self.addCleanup, dir=memory))

    def call(self, command, plan, script, words="", answers=""):
        told = self.program.call(command, Inputs(plan.encode(), script.encode(), answers=answers.encode(), words=words.encode()))
        return told.status, told.out.decode()

    def responses(self, made, rates):
        words = " ".join(f"--every {name}={rate}" for name, rate in rates.items())
        status, out = self.call("response", made.plan, made.script, words)
        return status, read_responses(out)


class Waits(Case):
    def test_made(self):
        seen, began, number = collections.Counter(), used(), 0
        while number < int(RUNS) if RUNS else used() - began < SECONDS:
            self.play(number, seen)
            number += 1
        print(f"{number} runs by seed {SEED}: {dict(seen)}")
        self.assertTrue(seen["numbers"] and seen["just as long"] and seen["unkept"], seen)
        self.assertTrue([it for it in seen if it.startswith("broken by")], seen)

    def play(self, number, seen):
        dice = random.Random(f"{SEED}/look-at-mes/{number}")
        made = Made(dice)
        cycles = {it.name: it.cycles for it in self.responses(made, {})[1]}
        rates = made.rates(cycles)
        status, responses = self.responses(made, rates)
        unkept = [one for it in responses for one in it.unkept]
        self.assertEqual({(it.name, it.why, it.other) for it in unkept}, made.unkept, (number, made.script))
        self.assertEqual(status, int(bool(unkept)), (number, made.script))
        modules = Modules(dice, made, responses)
        modules.run.play()
        listing = self.call("run", made.plan, made.script, answers="".join(f"{it}\n" for it in modules.lines))[1].splitlines()
        self.assertEqual(listing, modules.run.listing, number)
        judge = Judge({it.name: (it.start, it.end, it.longest) for it in responses if it.end is not None}, modules)
        judge.read(listing)
        self.assertEqual(judge.faults, [], (number, made.plan, made.script, responses))
        seen["numbers"] += bool(judge.most)
        seen["just as long"] += judge.exact > 0
        seen["unkept"] += bool(unkept)
        if unkept:
            # What would have been promised without these lines.
            services = services_of(checked(Inputs(made.plan.encode(), made.script.encode())), rates)
            found = {it.name: response_of(services, it) for it in services}
            other = Judge({name: it[:3] for name, it in found.items() if it}, modules)
            other.read(listing)
            seen.update(f"broken by {it}" for it in made.wrongs if other.faults and len(made.wrongs) == 1)


class Written(Case):
    """Runs in which one look-at-me waits longer than the bounds of services and the rates say: the script leaves it up, or the modules break a rate."""

    T = '[[type]]\nname = "T"\ncommands = [ { f = 0, a = 0, to = 15, width = 12 }, { f = 8, a = 0, to = 15 }, { f = 10, a = 0, to = 15 } ]\n'
    PLAN = T + '[[crate]]\nnumber = 1\nstation = [ { n = 5, type = "T", gl = 1 }, { n = 6, type = "T", gl = 2 } ]\n'
    S = "service s within 2 cycles event 1 words {\n  cdreg r 1 1 6 1\n  cfsa 0 r -> v  put v\n  cclc s\n}\n"
    LONG = "service t within 10 cycles event 9 words { cdreg r 1 %s 5 1  cclc t  for i = 1 to 9 { cfsa 0 r -> v put v } }\n"

    def test_one_that_is_left_up(self):
        """t never clears its look-at-me, so all 30 demands call t, and s waits for ever."""
        t = "service t within 1 cycles event 1 words { cdreg r 1 1 5 1  cfsa 0 r -> v  put v }\n"
        script = "cdlam t 1 1 5 0\ncdlam s 1 1 6 0\nvar v\n" + t + self.S
        lines = "service t gl 1 cycles 1 once start - end - longest -\nservice s gl 2 cycles 2 once start - end - longest -\n"
        self.assertEqual(self.call("response", self.PLAN, script), (1, f"{lines}unkept t line 4: does not clear its look-at-me\n"))
        listing = self.call("run", self.PLAN, script, answers=30 * "0 0 000000 0 000003\n1 1 000000 0 000000\n")[1]
        self.assertEqual((listing.count(" t\n"), listing.count(" s\n")), (30, 0))

    def test_one_that_was_up_before(self):
        """t was up when the run began, and is raised again after 10 cycles: that breaks its rate of 100, since it counts as raised at the start."""
        script = "cdlam t 1 1 5 0\ncdlam s 1 1 6 0\nvar v var i\n" + self.LONG % 1 + self.S
        words = "--every t=100 --every s=1000"
        status, out = self.call("response", self.PLAN, script, words)
        self.assertEqual((status, out), (0, "service t gl 1 cycles 10 every 100 start 2 end 12 longest 12\nservice s gl 2 cycles 2 every 1000 start 10 end 12 longest 12\n"))
        watch = Watch(read_responses(out))
        for gl, cycles in ((1, 10), (1, 10), (2, 2)):
            watch.call(gl, 0)
            watch.end(gl, cycles, 0)
        self.assertEqual(watch.seen()[2].broken[:3], ("t", 2, 10))


if __name__ == "__main__":
    unittest.main()
