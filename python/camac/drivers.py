"""Branches by a name, as commands take them for a live run."""
import os
import sys
from typing import Any, Dict, Optional

from camac.drive import Branch, File, UsageFault
from camac.subcommands import plan as read_plan

# What help says of a name.
FORMS = (
    "mock: modules that accept what the plan declares; mcstd:LIBRARY, mcstd:LIBRARY,x or mcstd:LIBRARY,x,lam: a library with the calls of mcstd; "
    "FILE.py: a file of Python that has a `branch`, or a function of this name that takes the plan"
)
MCSTD = "mcstd:"


def driver(name: str, plan: File, patience: Optional[float] = None) -> Branch:
    """The branch that a name stands for. `mcstd:LIBRARY` is `camac.mcstd.Mcstd` over that library; its options follow, as in
    `mcstd:./libhyt1331.so,x,lam`. `mock` is one of modules that accept what their types declare, and have no look-at-me. Else a file of Python is
    run that has `branch`: a branch, or what makes one when it is called with the plan, and with `patience` if that is given: the seconds that it waits
    for a demand.

    Raises UsageFault if that gives no branch, OSError if a file cannot be read or a library cannot be loaded, and what `camac.plan` raises."""
    if name.startswith(MCSTD):
        from camac.mcstd import OPTIONS, Mcstd

        library, *options = name[len(MCSTD) :].split(",")
        if not library or not OPTIONS.issuperset(options):
            raise UsageFault(f"{name}: a library with the calls of mcstd is mcstd:LIBRARY, with ,x and ,lam behind it", 2)
        return Mcstd(library, read_plan(plan), frozenset(options), patience)
    if name == "mock":
        from camac.mock import Declared, MockBranch

        read = read_plan(plan)
        return MockBranch.of_plan(read, {(c.number, it.number): Declared(read.types[it.type].declarations) for c in read.crates for it in c.stations})
    found = run_python(name).get("branch")
    if isinstance(found, type) or (callable(found) and not hasattr(found, "cycle")):
        found = _called(name, found, plan, *([] if patience is None else [patience]))
    if not all(hasattr(found, it) for it in ("demand", "cycle", "lock", "unlock")):
        raise UsageFault(f"{name} has no `branch` with demand, cycle, lock and unlock, and no function that makes one", 2)
    return found  # type: ignore[no-any-return]


def run_python(file: str) -> Dict[str, Any]:
    """The names of a file of Python of the user's, which may import its neighbours. Raises UsageFault for what it raises, with its line."""
    import runpy

    sys.path.insert(0, os.path.dirname(os.path.abspath(file)))
    return _called(file, runpy.run_path, file)  # type: ignore[no-any-return]


def _called(file: str, function: Any, *given: Any) -> Any:
    try:
        return function(*given)
    except OSError:
        raise
    except Exception as why:
        import traceback

        lines = [it.lineno for it in traceback.extract_tb(why.__traceback__) if it.filename == file]
        raise UsageFault(f"{file}{f':{lines[-1]}' if lines else ''}: {type(why).__name__}: {why}", 2) from why
