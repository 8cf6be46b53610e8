#!/usr/bin/env python3
"""Makes a wheel of the package camac, with the standard library alone: pip can then install from these sources without a network, where it
could fetch no other tool that builds. `pip install ./python` calls it, and `pip install -e ./python`.

usage: python/wheel.py FOLDER [LIBRARY]

LIBRARY is the library for C (libcamac.so.0) that goes into the wheel; pip takes the one that the environment variable CAMAC_LIBRARY names.
Without it the wheel is Python alone. The wheel is written into FOLDER, and its name is printed.
"""
import base64
import hashlib
import os
import pathlib
import re
import sys
import zipfile

HERE = pathlib.Path(__file__).resolve().parent
# The library needs x86-64 Linux with glibc 2.14 or newer; this is the tag that pip has for it.
WITH_LIBRARY, ALONE = "py3-none-manylinux2014_x86_64", "py3-none-any"
METADATA = """Metadata-Version: 2.1
Name: camac
Version: {version}
Summary: {summary}
License: MIT
Requires-Python: {python}
"""
WHEEL = """Wheel-Version: 1.0
Generator: camac
Root-Is-Purelib: {pure}
Tag: {tag}
"""
# The earliest time of a zip file, so that the same sources make the same wheel.
TIME = (1980, 1, 1, 0, 0, 0)


def said(key):
    """What pyproject.toml says of a key."""
    return re.search(rf'^{key} = "(.*)"$', (HERE / "pyproject.toml").read_text(encoding="utf-8"), re.M)[1]


def commands():
    """The entry points, as in a file of the wheel."""
    section = (HERE / "pyproject.toml").read_text(encoding="utf-8").partition("[project.scripts]\n")[2].partition("\n[")[0]
    return "[console_scripts]\n" + section.replace('"', "")


def contents(library, is_link):
    """The files of the wheel by their names, without the list of them, and its tag."""
    files = {}
    for it in sorted((HERE / "camac").rglob("*")):
        if it.is_file() and "__pycache__" not in it.parts and not is_link:
            files[it.relative_to(HERE).as_posix()] = it.read_bytes()
    if is_link:
        files["camac.pth"] = f"{HERE}\n".encode()
    if library:
        files["camac/libcamac.so.0"] = pathlib.Path(library).read_bytes()
    tag = WITH_LIBRARY if library else ALONE
    version = said("version")
    metadata = METADATA.format(version=version, summary=said("description"), python=said("requires-python"))
    files[f"camac-{version}.dist-info/METADATA"] = metadata.encode()
    files[f"camac-{version}.dist-info/entry_points.txt"] = commands().encode()
    files[f"camac-{version}.dist-info/WHEEL"] = WHEEL.format(pure="false" if library else "true", tag=tag).encode()
    return files, tag


def row(name, data):
    digest = base64.urlsafe_b64encode(hashlib.sha256(data).digest()).rstrip(b"=").decode()
    return f"{name},sha256={digest},{len(data)}\n"


def make(folder, library=None, is_link=False):
    """Writes the wheel, and returns its name. One that is a link leads Python to these sources."""
    files, tag = contents(library, is_link)
    version = said("version")
    record = f"camac-{version}.dist-info/RECORD"
    files[record] = ("".join(row(*it) for it in files.items()) + f"{record},,\n").encode()
    name = f"camac-{version}-{tag}.whl"
    with zipfile.ZipFile(os.path.join(folder, name), "w", zipfile.ZIP_DEFLATED) as wheel:
        for path, data in files.items():
            entry = zipfile.ZipInfo(path, TIME)
            entry.compress_type, entry.external_attr = zipfile.ZIP_DEFLATED, 0o644 << 16
            wheel.writestr(entry, data)
    return name


def build_wheel(wheel_directory, config_settings=None, metadata_directory=None):
    """What pip calls (PEP 517)."""
    return make(wheel_directory, os.environ.get("CAMAC_LIBRARY"))


def build_editable(wheel_directory, config_settings=None, metadata_directory=None):
    """What `pip install -e` calls (PEP 660)."""
    return make(wheel_directory, is_link=True)


if __name__ == "__main__":
    if len(sys.argv) not in (2, 3) or sys.argv[1].startswith("-"):
        print(__doc__.strip(), file=sys.stderr)
        sys.exit(2)
    print(os.path.join(sys.argv[1], make(*sys.argv[1:])))
