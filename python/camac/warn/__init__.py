"""Warnings about an accepted script: what is probably not meant. docs/REFUSALS.md has each with an example."""
from typing import Iterator, List, Optional, Set, Tuple

from camac.drive import File
from camac.printed import read_services, read_unkept
from camac.program import knows_command, output_of
from camac.reader import read_script
from camac.texts import TextFile
from camac.tree import Loop, Plain, Script
from camac.values import Harm, Service, Unkept
from camac.warn.codes import Code as Code, Warned as Warned
from camac.warn.silent import Silent, rows_with_arms

# What is said of a service, whose name is first, and of the one that clears or hides its look-at-me.
UNKEPT = {
    Harm.LEFT: "this service does not clear its look-at-me on every way: write `cclc {0}`",
    Harm.CLEARED: "`{1}` may clear the look-at-me of `{0}`: leave that to `{0}`",
    Harm.HIDDEN: "`{1}` may hide the look-at-me of `{0}`: leave it enabled, and the demand output on",
}


def warnings(plan: File, script: File, program: Optional[File] = None) -> List[Warned]:
    """Returns what is probably not meant in an accepted script, by lines. If the program has no `tell`, W4 to W8 alone are looked for
    (`looks_for_all`).

    Raises as `camac.check`."""
    return look(plan, script, program)[1]


def look(plan: File, script: File, program: Optional[File] = None) -> Tuple[List[Service], List[Warned]]:
    """Returns the services of an accepted script, and what `warnings` does: one judgement serves both."""
    script = script if isinstance(script, TextFile) else TextFile(script)
    is_all = looks_for_all(program)
    told = output_of("tell" if is_all else "check", "--", plan, script, program=program)
    return look_at(plan, script.text(), told, program)


def look_at(plan: File, text: bytes, told: str, program: Optional[File] = None) -> Tuple[List[Service], List[Warned]]:
    """What `look` returns of an accepted script that is given as its text, with what `tell`, or `check`, prints of it."""
    parsed = read_script(text)
    services = read_services(told)
    rows = rows_with_arms(plan, text, parsed, told, program)
    if not services:
        return [], [Warned(1, Code.NO_SERVICE, "this script has no service, so a run of it makes no cycle")]
    silent = Silent(plan, text, parsed, rows, program).found()
    found = [*silent, *_unkept(parsed, read_unkept(told)), *_held_up(parsed, services), *_loose(plan, text, parsed, program)]
    return services, sorted(found, key=lambda it: (it.line, it.code._value_))


def looks_for_all(program: Optional[File] = None) -> bool:
    """Whether the program has `tell`, which W1 to W3 and W9 to W17 need."""
    return knows_command("tell", program)


def _unkept(script: Script, unkept: List[Unkept]) -> Iterator[Warned]:
    """What services do to look-at-mes, so that `camac response` has no number. A script that initialises crates alone keeps nothing of it."""
    if not unkept:
        return
    starting: Set[str] = set()
    # A body calls procedures that end before it, so each is looked at once.
    for it in script.bodies:
        if any(isinstance(one, Plain) and (one.word == "cccz" or one.word == "call" and one.name in starting) for one in it.every):
            starting.add(it.name)
    if any(it.is_service and it.name not in starting for it in script.bodies):
        yield from (Warned(it.line, Code.UNKEPT, UNKEPT[it.why].format(it.name, it.other)) for it in unkept)


def _held_up(script: Script, services: List[Service]) -> Iterator[Warned]:
    """Services that a longer one on a lower bit can hold up, and one in progress on a greater bit, too: with the greatest bit for the longer one,
    one of them alone. The service of the lowest bit is taken for the urgent one."""
    lines = {it.name: it.line for it in script.bodies}
    first, *others = sorted(services, key=lambda it: it.gl)
    for place, it in enumerate(others):
        before, after = others[:place], others[place + 1 :]
        if before and after:
            longer, later = (max(some, key=lambda one: one.cycles) for some in (before, after))
            if 0 < later.cycles <= longer.cycles > it.cycles:
                both = " and by ".join(f"`{one.name}` (bit {one.gl}, cycles {one.cycles})" for one in (longer, later))
                text = f"this service (bit {it.gl}, cycles {it.cycles}) can be held up by {both}; with the greatest bit for `{longer.name}`, by one of them"
                yield Warned(lines[it.name], Code.HELD_UP, text)


def _loose(plan: File, text: bytes, script: Script, program: Optional[File]) -> Iterator[Warned]:
    """Loops that keep more than they need, and loops that would cost less turn by turn."""
    if not any(isinstance(it, Loop) for body in script.bodies for it in body.every):
        return
    # It takes as long to load as all other warnings.
    from camac.loops.loose import dear_loops, wide_keeps

    yield from wide_keeps(plan, text, script.bodies, program)
    yield from dear_loops(plan, text, script.bodies, program)
