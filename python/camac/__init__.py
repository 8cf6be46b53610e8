"""The Python package around the program camac.

It gives what the program prints as values: `plan`, `check`, `bounds`, `costs`, `response` and `run` call its subcommands. `warnings` says what is
probably not meant, and `propose` what the loops of a refused script need. `read_events` reads an event file and tests it as `camac events`
does (`whole` and `whole_size`: one that was cut; `event_arrays`: as arrays, if numpy is; `open_runs`: those of many runs, over dask if that is). A branch driver in Python is run by a checked script
(`drive`, and `call` for one service once), and `camac.mock` has a branch without hardware. `play` does what `drive` does in this process, over the
library for C (`camac.library`), which also answers if no program is there. Both write a record of the run if it is asked for (`Recording`,
`read_record`). `read_words` and `words_of_script` say what the words of events mean. `python3 -m camac` judges scripts, lays them out, compares what
they may take, serves editors (`camac.lsp`), draws pictures, makes a report of a run, and exports events (`camac.pictures`, `camac.report`,
`camac.export`).

Python 3.8 or newer, and its standard library alone; numpy and h5py make arrays of events, if they are there."""
import importlib
import os
import sys
import types
from typing import Any, Callable, Dict, List, Tuple


class _Package(types.ModuleType):
    """A module that is loaded does not take the place of the function of its name."""

    def __setattr__(self, name: str, value: object) -> None:
        if name not in _HOMES or not isinstance(value, types.ModuleType):
            super().__setattr__(name, value)


def lazily(package: str, file: str) -> Tuple[Dict[str, str], Callable[[str], Any], Callable[[], List[str]]]:
    """The module of each name of a package, its `__getattr__` and its `__dir__`. The names are in __init__.pyi, as tools that look at types want them.
    Each module is loaded when a name of it is first asked for: all of them take four times as long as a judgement."""
    with open(os.path.join(os.path.dirname(file), "__init__.pyi"), encoding="utf-8") as stub:
        rows = [line[len("from ") :].rstrip().split(" import ") for line in stub if line.startswith("from camac.")]
    homes, loaded = {name: home for home, names in rows for name in names.split(", ")}, vars(sys.modules[package])

    def find(name: str) -> Any:
        if name in homes:
            loaded[name] = getattr(importlib.import_module(homes[name]), name)
            return loaded[name]
        if f"{package}.{name}" in homes.values():
            return importlib.import_module(f"{package}.{name}")
        raise AttributeError(f"module {package!r} has no attribute {name!r}")

    return homes, find, lambda: sorted({*loaded, *homes})


_HOMES, __getattr__, __dir__ = lazily(__name__, __file__)
__all__ = sorted(_HOMES)
sys.modules[__name__].__class__ = _Package
