"""Trying all rounds, side by side, and the refusals that earlier runs of tools/mutants have kept."""

import concurrent.futures
import contextlib
import functools
import glob
import hashlib
import os
import re
import shutil
import subprocess
import threading
import time
from pathlib import Path

from rounds.bodies import packed
from rounds.prover import STILL_PROVED, Round
from rounds.repository import Stop, doc

# The priority of what runs beside `rt ci`.
LEAST = 19
# The dearest check of a round holds 2.7 gigabytes.
MEMORY_A_CHECK = 3_000_000_000


class Refusals:
    """Each refusal is a file, which is named by a sum of all that decides it and ends with that sum."""

    def __init__(self):
        self.folder = f"{os.environ.get('XDG_CACHE_HOME') or os.path.expanduser('~/.cache')}/camac/mutants"
        with contextlib.suppress(OSError):
            os.makedirs(self.folder, exist_ok=True)

    def sums(self, crate, bodies):
        """Returns for each body the sum of all that decides its verdict."""
        shared = [toolchain(), crate.sum()]
        return {it: hashlib.sha256(repr([*shared, it.label, it.edit]).encode()).hexdigest() for it in bodies}

    def why(self, total):
        """Returns why the body with this sum was refused, or None if no whole file says so."""
        with contextlib.suppress(OSError, UnicodeDecodeError):
            why, _, rest = Path(f"{self.folder}/{total}").read_text("utf-8").partition("\n")
            return why if rest == f"{total}\n" else None
        return None

    def keep(self, total, why):
        """A file that is not written to its end is none."""
        first = why.partition("\n")[0]
        with contextlib.suppress(OSError):
            Path(f"{self.folder}/{total}").write_text(f"{first}\n{total}\n", "utf-8")


@functools.lru_cache(None)
def toolchain():
    """Returns a text that no other toolchain, and no other text of this tool, has."""
    doc()
    version = subprocess.run(["rt", "version"], capture_output=True, text=True, check=True).stdout
    here = os.path.dirname(os.path.realpath(__file__))
    files = [os.path.realpath(shutil.which("rattle")), f"{here}/../mutants", *sorted(glob.glob(f"{glob.escape(here)}/*.py"))]
    return repr([version, *[hashlib.sha256(Path(it).read_bytes()).hexdigest() for it in files]])


class Report:
    """What became of each body. Keeps the refusals, each under the sum of all that decided it. If `is_unchanged`, the functions are tried as they are."""

    def __init__(self, is_anew, is_unchanged):
        self.refusals, self.is_anew, self.is_unchanged, self.lock = Refusals(), is_anew, is_unchanged, threading.Lock()
        self.count, self.good, self.kept, self.sums = 0, 0, 0, {}

    def tell(self, body, kind, why):
        is_good = why == STILL_PROVED if self.is_unchanged else kind == "refused"
        with self.lock:
            self.count, self.good = self.count + 1, self.good + is_good
            word = ("NOT PROVED AS IT IS", "proved as it is") if self.is_unchanged else ("NOT REFUSED FOR ITSELF", "refused")
            print(f"{body.label}: {word[is_good]}: {why[:220]}", flush=True)

    def tell_known(self, crate, bodies):
        """Tells of the bodies that need not be tried, and returns the others."""
        for body in [it for it in bodies if it.fault]:
            self.tell(body, "not", body.fault)
        sums = self.refusals.sums(crate, [it for it in bodies if not it.fault])
        known = {} if self.is_anew or self.is_unchanged else {it: why for it in sums if (why := self.refusals.why(sums[it])) is not None}
        for body, why in known.items():
            self.kept += 1
            self.tell(body, "refused", f"before: {why}")
        self.sums |= sums
        return [it for it in sums if it not in known]

    def tell_tried(self, crate, bodies, verdicts):
        """Tells of a round of these bodies, and returns the rounds in which those that have no verdict are tried again."""
        sums, again, apart = self.refusals.sums(crate, bodies), [], set()
        for body, (kind, why) in verdicts.items():
            others = [it for it in bodies if it is not body]
            if kind in ("waits", "alone", "again") and others:
                named = [it for it in others if any(f"{crate.name}::{f.path}" in why.split(", ") for f in it.functions)]
                apart |= {frozenset((body, it)) for it in named or others} if kind != "again" else set()
                again.append(body)
                continue
            self.tell(body, kind, f"COULD NOT RUN: it waits for {why}" if kind == "waits" else why)
            # If a source was changed meanwhile, nobody knows which text was judged.
            if kind == "refused" and not self.is_unchanged and sums[body] == self.sums[body]:
                self.refusals.keep(sums[body], why)
        return packed(again, apart)


class Beside:
    """The `rt ci` that runs beside, by its log."""

    # Seconds between two looks, and in which a prover comes to hold what it needs.
    PAUSE, GROWS = 1, 60

    def __init__(self, log):
        self.log, self.proved, self.is_ended, self.started, self.lock = log, set(), False, [], threading.Lock()
        self.look()

    def look(self):
        """Reads the log. A line that is not whole yet does not count."""
        whole = Path(self.log).read_text("utf-8", "replace").rpartition("\n")[0]
        self.proved = {*re.findall(r"^rt: (\w+) (?:proved|is kept: .*)$", whole, re.M)}
        ended = re.findall(r"^\d+ passed, (\d+) failed$", whole, re.M)
        if {*ended} - {"0"}:
            raise Stop("rt ci failed, so the mutants show nothing")
        self.is_ended = bool(ended)

    def wait_for_memory(self):
        """Waits until memory is there for one more check, for one more of `rt ci`, and for those that began just now and still grow."""
        with self.lock:
            while not self.is_ended and free_memory() < (2 + sum(time.monotonic() - it < self.GROWS for it in self.started)) * MEMORY_A_CHECK:
                time.sleep(self.PAUSE)
            self.started.append(time.monotonic())


def try_round(crate, rounds, report, beside):
    """Tries the first of these rounds, and returns those that are left."""
    if beside:
        beside.wait_for_memory()
    current = Round(crate, rounds[0])
    return crate, [*report.tell_tried(crate, rounds[0], current.verdicts(current.run())), *rounds[1:]]


def try_all(found, jobs, report, beside=None):
    """Tries all bodies of these crates, the most first. A crate's first round goes alone, since the others use what it proves."""
    left, running = sorted(found, key=lambda it: -len(found[it])), set()
    pool = concurrent.futures.ThreadPoolExecutor(jobs)
    try:
        while left or running:
            for crate in [it for it in left if not beside or beside.is_ended or beside.proved >= {other.name for other in it.below()}]:
                left.remove(crate)
                running.add(pool.submit(try_round, crate, packed(found[crate]), report, beside))
            for ended in [it for it in running if it.done()]:
                running.remove(ended)
                crate, rounds = ended.result()
                running |= {pool.submit(try_round, crate, [some], report, beside) for some in rounds}
            time.sleep(Beside.PAUSE if beside else 0.1)
            if beside and not beside.is_ended:
                beside.look()
    finally:
        pool.shutdown(cancel_futures=True)


def free_memory():
    found = re.search(r"MemAvailable:\s+(\d+)", Path("/proc/meminfo").read_text("utf-8"))
    return 1024 * int(found[1]) if found else MEMORY_A_CHECK


def lanes():
    """Returns how many provers to run side by side: one a processor, as many as memory holds."""
    return max(1, min(len(os.sched_getaffinity(0)), free_memory() // MEMORY_A_CHECK))
