"""Shared by tests in C: the library for C, made of the archive of its crate as ./install makes it, and programs compiled against it.

The archive is crates/camac_c/out/libcamac_c.a (after `rt ci` tools/proved_library makes it), or what the environment variable CAMAC_ARCHIVE names."""
import atexit
import functools
import os
import pathlib
import shutil
import subprocess

from support import needs
from support.program import TOP, folder

ARCHIVE = pathlib.Path(os.environ.get("CAMAC_ARCHIVE") or TOP / "crates/camac_c/out/libcamac_c.a").absolute()
NAME = "the library for C"
TOOLS = ("gcc", "ld", "ar", "nm", "objcopy")
WARNINGS = ("-Wall", "-Wextra", "-Wpedantic", "-Wconversion", "-Werror")
STANDARD = {".c": ("gcc", "-std=c99"), ".cpp": ("g++", "-std=c++17")}


def lacking():
    """Why there is no library to test with; nothing if there is one."""
    tools = [it for it in TOOLS if not shutil.which(it)]
    if tools:
        return f"{tools[0]} is not here"
    if not ARCHIVE.is_file():
        return f"{ARCHIVE} is not there: after `rt ci` tools/proved_library makes it, or CAMAC_ARCHIVE names another"
    return ""


def is_here():
    """Whether there is a library to test with; it is told if there is none."""
    return needs.has(NAME, is_here=not lacking())


def needed():
    """Leaves a test or a class of tests out if there is no library."""
    return needs.needed(NAME, is_here=not lacking())


@functools.lru_cache(maxsize=None)
def prefix():
    """A folder in which headers, library and the files for pkg-config and CMake are as ./install puts them."""
    room = folder(atexit.register)
    subprocess.run([TOP / "tools/library", ARCHIVE, room / "lib"], check=True)
    shutil.copytree(TOP / "include", room / "include")
    for place, names in (("pkgconfig", ("camac.pc",)), ("cmake/camac", ("camac-config.cmake", "camac-config-version.cmake"))):
        (room / "lib" / place).mkdir(parents=True)
        for name in names:
            shutil.copy(TOP / "library" / name, room / "lib" / place)
    return room


def environment():
    """In which compilers, programs and Python find the library."""
    lib = prefix() / "lib"
    return {"PKG_CONFIG_PATH": str(lib / "pkgconfig"), "LD_LIBRARY_PATH": str(lib), "CAMAC_LIBRARY": str(lib / "libcamac.so.0")}


def compiled(room, program, *sources, static=False):
    """A program in the room, of these sources, compiled without a warning."""
    objects = []
    for source in map(pathlib.Path, sources):
        objects.append(room / f"{program}-{source.name}.o")
        words = [*STANDARD[source.suffix], *WARNINGS, "-O1", "-I", TOP / "include", "-c", source, "-o", objects[-1]]
        subprocess.run(words, check=True)
    library = [prefix() / "lib/libcamac.a"] if static else ["-L", prefix() / "lib", "-lcamac"]
    linker = "g++" if any(str(it).endswith(".cpp") for it in sources) else "gcc"
    subprocess.run([linker, *objects, *library, "-pthread", "-o", room / program], check=True)
    return room / program
