"""What some tests need and a computer may lack. A test that lacks it is left out, or a part of it is, and a line `skipped: WHAT` says so, which
tests/run gathers. WHAT is a package of Debian if one has it. As a program this prints these packages: .ci/install installs them."""
import functools
import importlib.util
import shutil
import unittest

# By their packages, the commands that tests call, and the modules that they import. Where there is neither, the test itself looks for it.
PACKAGES = {
    "binutils": "ld ar nm objcopy", "chromium": "", "elpa-eglot": "", "emacs-nox": "emacs", "g++": "c++ g++", "gcc": "cc gcc",
    "hdf5-tools": "h5dump", "lintian": "lintian", "mandoc": "mandoc", "mypy": "mypy", "neovim": "nvim", "nodejs": "node", "pkg-config": "pkg-config",
    "poppler-utils": "pdftotext", "python3-h5py": "import h5py", "python3-jsonschema": "import jsonschema", "python3-numpy": "import numpy",
    "python3-dask": "import dask", "python3-distributed": "import distributed", "python3-pip": "import pip",
    "util-linux": "unshare", "valgrind": "valgrind", "vim": "vim", "vim-ale": "vim",
}


@functools.lru_cache(maxsize=None)
def tell(what):
    """Says once that something is not here."""
    print(f"skipped: {what}", flush=True)


def has(*names, is_here=True):
    """Whether all that the packages have is here, and `is_here` holds. It tells what is not."""
    lacking = [it for it in names if not (is_here and _is_found(PACKAGES.get(it, "")))]
    for it in lacking:
        tell(it)
    return not lacking


def needed(*names, is_here=True):
    """Leaves a test or a class of tests out where `has` is false."""
    return unittest.skipUnless(has(*names, is_here=is_here), " ".join(names))


def skip(what):
    """Leaves out the test that calls it."""
    tell(what)
    raise unittest.SkipTest(what)


def _is_found(names):
    if names.startswith("import "):
        return all(map(importlib.util.find_spec, names.split()[1:]))
    return all(map(shutil.which, names.split()))


if __name__ == "__main__":
    print(*PACKAGES, sep="\n")
