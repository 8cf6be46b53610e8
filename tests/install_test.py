#!/usr/bin/env python3
"""Tries ./camac and ./install with missing tools and wrong names, and the lines and files of ./install for other programs.

usage: tests/install_test.py [-v] [TEST ..]     from any folder; takes half a minute

Nothing is built: the program is crates/camac/out/camac, or what the environment variable CAMAC_PROGRAM names. It is in a copy of the
repository where a build keeps it.
"""
import hashlib
import os
import pathlib
import re
import shutil
import sys
import time
import unittest

from support import launcher, of_c
from support.launcher import OF_LIBRARY, call, copy, keep, stand_in, start, toolchain
from support.needs import has, needed
from support.program import PROGRAM, TOP, folder

# What ./camac calls, and ./install besides.
OF_LAUNCHER = "find sort xargs sha256sum stat mkdir mv rm".split()
OF_INSTALLER = "cat grep cmp cp chmod ln mktemp rmdir realpath python3".split()
OF_ARCHIVES = {"--pack": "tar gzip".split(), "--deb": "dpkg-deb gzip strip md5sum sed date touch".split()}
# Waits for a file of this name for 20 seconds at most.
WAIT = "n=0; until [ -e {} ]; do sleep 0.1; n=$((n + 1)); [ $n -lt 200 ] || exit 3; done"
COPY = None


def setUpModule():
    global COPY
    COPY = folder(unittest.addModuleCleanup) / "a copy"
    copy(COPY)
    keep(COPY, "camac.{}", PROGRAM, "crates/*/src")
    if not of_c.lacking():
        keep(COPY, "libcamac.{}.a", of_c.ARCHIVE, OF_LIBRARY)


class Case(launcher.Case):
    def files(self, folder):
        return [it for it in folder.rglob("*") if not it.is_dir()]

    def path(self, *tools):
        """An environment without HOME, in which these tools alone are found, and what a script of bash begins with."""
        folder = self.folder()
        for name in ("bash", "env", "readlink", *tools):
            (folder / name).symlink_to(sys.executable if name == "python3" else shutil.which(name))
        return {"PATH": str(folder)}


class Lacking(Case):
    """Each tool that is called is missing in turn: it is named, and nothing is made."""

    def but(self, missing, *tools):
        return self.path(*(it for it in tools if it != missing))

    def test_launcher(self):
        (COPY / "out/found").unlink(missing_ok=True)
        before = self.files(COPY / "out")
        for tool in OF_LAUNCHER:
            said = f"camac: {tool} is not here, and is needed\n"
            self.assertEqual(call(COPY / "camac", "--version", env=self.but(tool, *OF_LAUNCHER)), (3, "", said))
        self.assertEqual(self.files(COPY / "out"), before)
        self.assertEqual(call(COPY / "camac", "--version", env=self.path(*OF_LAUNCHER)), (0, "camac 0.2.0\n", ""))

    def test_launcher_without_readlink(self):
        """A link to the launcher has to be followed."""
        env = self.path(*OF_LAUNCHER)
        (pathlib.Path(env["PATH"]) / "readlink").unlink()
        link = self.folder() / "camac"
        link.symlink_to(COPY / "camac")
        status, out, err = call(link, "--version", env=env)
        self.assertEqual((status, out, err.count("\n")), (3, "", 1))
        self.assertIn("readlink: command not found", err)

    def test_tool_that_fails(self):
        """No program is kept, or taken, under the sum of no text."""
        (COPY / "out/found").unlink(missing_ok=True)
        before = self.files(COPY / "out")
        for tool in ("find", "sort", "sha256sum", "xargs"):
            env = self.but(tool, *OF_LAUNCHER)
            stand_in(pathlib.Path(env["PATH"]), tool, "exit 1")
            self.assertEqual(call(COPY / "camac", "--version", env=env), (3, "", "camac: the sources cannot be read\n"))
        env = self.path(*OF_LAUNCHER)
        toolchain(pathlib.Path(env["PATH"]), "exit 1")
        said = "camac: the toolchain's command rt does not tell its version\n"
        self.assertEqual(call(COPY / "camac", "--version", env=env), (3, "", said))
        self.assertEqual(self.files(COPY / "out"), before)

    def test_installer(self):
        tools = [*OF_LAUNCHER, *OF_INSTALLER]
        for tool in tools:
            place = self.folder()
            said = f"camac: {tool} is not here, and is needed\n"
            self.assertEqual(call(COPY / "install", place, env=self.but(tool, *tools)), (1, "", said))
            self.assertEqual(self.files(place), [])
        place = self.folder()
        status, out, err = call(COPY / "install", place, env=self.path(*tools))
        self.assertEqual((status, err), (0, ""))
        self.assertIn("install: no library for C: gcc is not here\n", out)
        self.assertTrue(os.access(place / "bin/camac", os.X_OK))
        for name in ("man/man5/camac-plan.5", "man/man5/camac-script.5", "man/man5/camac-events.5", "camac/plan.schema.json"):
            self.assertIn(f"{place}/share/{name}\n", out)
        self.assertEqual(call(COPY / "install", "--remove", place, env=self.path(*tools))[::2], (0, ""))
        self.assertEqual(self.files(place), [])

    def test_archives(self):
        for option, archivers in OF_ARCHIVES.items():
            tools = [*OF_LAUNCHER, *OF_INSTALLER, *archivers]
            place = self.folder()
            for tool in archivers if all(map(shutil.which, archivers)) else ():
                said = f"camac: {tool} is not here, and is needed\n"
                self.assertEqual(call(COPY / "install", option, place, env=self.but(tool, *tools)), (1, "", said))
            self.assertEqual(self.files(place), [])
        self.assertEqual(call(COPY / "install", "--pack", place, env=self.path(*OF_LAUNCHER, *OF_INSTALLER, *OF_ARCHIVES["--pack"]))[::2], (0, ""))


class Proof(Case):
    """What is installed says whether it is proved, as long as it is what was installed."""

    def told(self, place, **env):
        """What the installed camac-check says of what judges."""
        bare = {"PATH": "/usr/bin:/bin", "PYTHONDONTWRITEBYTECODE": "1", **env}
        status, out, err = call(place / "bin/camac-check", "--version", env=bare)
        self.assertEqual((status, err), (0, ""))
        return out.splitlines()

    def test_note(self):
        place = self.folder()
        self.assertEqual(call(COPY / "install", place)[::2], (0, ""))
        program, library, note = place / "bin/camac", place / "lib/libcamac.so.0", place / "share/camac/proof"
        texts = call("bash", "-c", 'top=$1; source "$top/tools/program.bash"; cd "$top" && texts_of crates/*/{src,specs,proofs}', "bash", COPY)[1].strip()
        kit = call("rt", "version")[1].splitlines()[-1]
        sums = [hashlib.sha256(it.read_bytes()).hexdigest() for it in (program, library) if it.exists()]
        wanted = [f"sources {texts}", f"kit {kit}", *(f"{kind} {it} not proved" for kind, it in zip(("program", "library"), sums))]
        self.assertEqual(note.read_text().splitlines(), wanted)
        known = [f"sources {texts}", f"kit {kit}"]
        if not of_c.lacking():
            self.assertEqual(self.told(place), ["camac 0.2.0, not proved", str(library), *known])
        program_only = {"CAMAC_PROGRAM": str(program)}
        self.assertEqual(self.told(place, **program_only), ["camac 0.2.0, not proved", str(program), *known])
        note.write_text(note.read_text().replace(f"{sums[0]} not proved", f"{sums[0]} proved"))
        self.assertEqual(self.told(place, **program_only)[0], "camac 0.2.0, proved")
        program.write_bytes(program.read_bytes() + b"\n")
        self.assertEqual(self.told(place, **program_only), ["camac 0.2.0, not known to be proved", str(program), "sources -", "kit -"])
        note.unlink()
        self.assertEqual(self.told(place, **program_only)[0], "camac 0.2.0, not known to be proved")


@needed("the tools of Debian", is_here=all(map(shutil.which, OF_ARCHIVES["--deb"])))
class DebianPackage(Case):
    """It has the library if that is here to be put in."""

    def make(self, place, umask):
        tools = self.path(*OF_LAUNCHER, *OF_INSTALLER, *OF_ARCHIVES["--deb"], "tar")
        env = {**(tools if of_c.lacking() else os.environ), "SOURCE_DATE_EPOCH": "1795737600", "TMPDIR": str(place)}
        line = f'umask {umask} && "$0" --deb "$1"'
        status, out, _ = call("bash", "-c", line, COPY / "install", place, env=env)
        self.assertEqual((status, out.splitlines()[0]), (0, f"{place}/camac_0.2.0-0camac1~unproved_amd64.deb"))
        self.assertEqual([it.name for it in place.iterdir()], ["camac_0.2.0-0camac1~unproved_amd64.deb"])
        return place / "camac_0.2.0-0camac1~unproved_amd64.deb"

    def test_package(self):
        place, room = self.folder(), self.folder()
        package = self.make(place, "022")
        self.assertEqual(self.make(self.folder(), "077").read_bytes(), package.read_bytes())
        rows = [it.split() for it in call("dpkg-deb", "-c", package, env={**os.environ, "TZ": "UTC"})[1].splitlines()]
        self.assertEqual({tuple(it[1:5:2] + [it[4]]) for it in rows}, {("root/root", "2026-11-27", "00:00")})
        call("dpkg-deb", "-x", package, room)
        self.assertEqual(call(room / "usr/bin/camac", "--version"), (0, "camac 0.2.0\n", ""))
        program = room / "usr/bin/camac"
        told = call(room / "usr/bin/camac-check", "--version", env={"PATH": "/usr/bin:/bin", "CAMAC_PROGRAM": str(program), "PYTHONPATH": str(room / "usr/lib/python3/dist-packages")})
        self.assertEqual(told[1].splitlines()[:2], ["camac 0.2.0, not proved", str(program)], told)
        wanted = "share/camac/proof bin/camac-report bin/camac-fmt bin/camac-lsp share/man/man1/camac-lsp.1.gz share/camac/camac.vsix lib/python3/dist-packages/camac/__init__.py share/man/man1/camac.1.gz share/man/man5/camac-plan.5.gz"
        wanted += " share/doc/camac/copyright share/doc/camac/changelog.gz share/doc/camac/changelog.Debian.gz share/doc/camac/docs/REFUSALS.md"
        wanted += "" if of_c.lacking() else " include/camac/camac.h lib/x86_64-linux-gnu/libcamac.so.0 lib/x86_64-linux-gnu/pkgconfig/camac.pc"
        self.assertEqual([it for it in wanted.split() if not (room / "usr" / it).is_file()], [])
        said = call("dpkg-deb", "-f", package, "Description")[1]
        self.assertEqual(said.splitlines()[0], "checker and simulator for CAMAC readout scripts, not proved")
        self.assertEqual("\n The library for C in this package is not proved.\n" in said, not of_c.lacking())
        if has("lintian"):
            self.assertEqual(call("lintian", "--allow-root", "--fail-on", "error,warning", package)[:2], (0, ""))

    def test_what_is_proved(self):
        for program, library, lacking, said, last in (("yes", "no", "", "proved", "not proved"), ("no", "yes", "", "not proved", "proved"), ("yes", "", "gcc", "proved", None)):
            line = 'eval "$(sed -n "/^proved_or_not()/,/^}/p" install)"; '
            line += f'source tools/debian.bash; folder={self.folder()} is_proved={program} is_library_proved={library} lacking={lacking} debian_control'
            told = call("bash", "-c", line, cwd=COPY)[1]
            self.assertRegex(told, f"(?m)^Description: checker and simulator for CAMAC readout scripts, {said}$")
            self.assertEqual(re.findall("library for C in this package is (.*)[.]$", told), [last] if last else [])


class Beside(Case):
    """The library is built beside the program where processors are idle. Stand-ins build them, which wait for each other."""

    def find(self, is_idle, program, library):
        """Status and standard error of what finds both; and the room in which the stand-ins do these lines."""
        room, tools = self.folder(), self.path(*OF_LAUNCHER, "python3", "sh", "sleep", "touch", "cp")
        copy = room / "copy"
        shutil.copytree(TOP / "tools", copy / "tools")
        for name in ("crates", "crates.txt"):
            (copy / name).symlink_to(COPY / name)
        toolchain(pathlib.Path(tools["PATH"]), "echo a kit")
        stand_in(copy / "tools", "quick_build", f"cd {room}; {program}")
        stand_in(copy / "tools", "quick_library", f"cd {room}; touch begun; {library}")
        (copy / "out").mkdir()
        line = 'top=$1; source "$top/tools/program.bash"; trap end_library EXIT; with_library=yes; '
        line += f"is_idle() {{ {is_idle}; }}; find_program && find_library"
        return call("bash", "-c", line, "bash", copy, env=tools)[::2], room

    def test_idle(self):
        build = f'{WAIT.format("begun")}; touch built; cp "$0" "$1"'
        (status, err), room = self.find("true", build, f'{WAIT.format("built")}; cp "$0" "$1"')
        self.assertEqual((status, err), (0, "camac: the library for C is built beside the program\n"))
        self.assertEqual(len([*room.glob("copy/out/libcamac.*.a")]), 1)

    def test_busy(self):
        (status, err), _ = self.find("false", '[ ! -e begun ] && cp "$0" "$1"', 'cp "$0" "$1"')
        self.assertEqual((status, err), (0, ""))

    def test_program_that_fails(self):
        """The build of the library is ended, too."""
        library = f"trap 'touch ended; exit' TERM; {WAIT.format('never')}"
        (status, _), room = self.find("true", f"{WAIT.format('begun')}; exit 3", library)
        self.assertEqual(status, 3)
        for _ in range(100):
            if (room / "ended").exists():
                break
            time.sleep(0.1)
        self.assertTrue((room / "ended").exists())


class Named(Case):
    """The folder to install into."""

    def refuse(self, said, *words, **how):
        self.assertEqual(call(COPY / "install", *words, **how), (1, "", f"install: {said}\n"))

    def test_no_folder(self):
        bare = {it: value for it, value in os.environ.items() if it != "HOME"}
        for env in (bare, {**bare, "HOME": ""}):
            self.refuse("HOME is not set: name the folder", env=env)
        self.refuse("the name of the folder is empty", "")
        env = {**bare, **self.path(*OF_LAUNCHER, *(it for it in OF_INSTALLER if it != "realpath"))}
        for line in ("exit 1", "exit 0"):
            stand_in(pathlib.Path(env["PATH"]), "realpath", line)
            self.refuse("the folder has no path", "place", env=env)

    def test_help_that_cannot_be_written(self):
        with open("/dev/full", "w", encoding="utf-8") as full:
            ran = start(COPY / "install", "--help", cwd=self.folder(), stdout=full)
            ran.communicate()
        self.assertEqual(ran.returncode, 1)


@of_c.needed()
@needed("pkg-config")
class BlockOfC(Case):
    """The block of README for programs in C, in a shell in which nothing else is set, after ./install into the home folder."""

    @classmethod
    def setUpClass(cls):
        cls.home = COPY.parent / "home"
        cls.bare = {"HOME": str(cls.home), "PATH": os.environ["PATH"]}
        cls.told = call(COPY / "install", env=cls.bare)[1]
        block = re.search(r"```console\n(\$ export PKG_CONFIG_PATH.*?)```", (TOP / "README.md").read_text(), re.S)[1]
        cls.commands = re.findall(r"(?m)^\$ (.*)$", block)
        cls.shown = re.sub(r"(?m)^\$ .*\n", "", block)

    def run_block(self, commands):
        room = self.home / ".local/share/doc/camac"
        return call("bash", "-c", "set -e\n" + "\n".join(commands), cwd=room, env=self.bare)

    def test_as_it_stands(self):
        self.assertEqual(self.run_block(self.commands), (0, self.shown, ""))

    def test_lines_that_are_told(self):
        lines = re.findall(r"does not search .*/lib(?:/pkgconfig)?\. A line for ~/\.profile: (export .*)", self.told)
        self.assertEqual(len(lines), 2)
        self.assertEqual(self.run_block([*lines, *self.commands[1:]]), (0, self.shown, ""))
        lib = self.home / ".local/lib"
        again = call(COPY / "install", env={**self.bare, "PKG_CONFIG_PATH": f"{lib}/pkgconfig", "LD_LIBRARY_PATH": str(lib)})[1]
        self.assertNotRegex(again, "pkg-config|LD_LIBRARY_PATH")


if __name__ == "__main__":
    unittest.main()
