#!/usr/bin/env python3
"""Tries the launcher ./camac and ./install as a new user does, in a copy of the repository.

usage: tests/launcher_test.py [-v] [TEST ..]     from any folder

It needs the kit's command rt. It builds the program once and tries to build a broken one, and takes two to three minutes on four cores.
"""
import contextlib
import hashlib
import os
import pathlib
import pty
import re
import resource
import shutil
import signal
import statistics
import subprocess
import sys
import threading
import time
import unittest

from support.launcher import OF_LIBRARY, Case, call, copy, keep, start, toolchain
from support.needs import has, needed, skip
from support.program import PROGRAM, TOP, folder

sys.path.insert(0, f"{TOP}/benchmarks")

import corpus  # noqa: E402
import sources_sum  # noqa: E402
import speed  # noqa: E402

VERDICT = "accepted\nservice adc gl 3 cycles 6 of 6 words 1 of 1 steps 4\n"
NOT_PROVED = "It is not proved; to prove it (about an hour) and keep that: cd crates/camac && rt run\n"
NEEDED = "bash env readlink find sort stat xargs sha256sum mkdir mv rm cat".split()
CASES = ("start-up", "check: 1 MB of comments", "run: mixed", "run: nested", "run: scans", "run: calls")
# The loop over a comment has 3.4 instructions a byte in place of 2.9.
MOST, OF_COMMENTS = 1.1, 1.15
COPY = None


def setUpModule():
    global COPY
    COPY = folder(unittest.addModuleCleanup) / "a copy"
    copy(COPY)


class Terminal:
    """A terminal that keeps what is said to it."""

    def __init__(self):
        self.taken, self.given = pty.openpty()
        self.said = ""
        self.reader = threading.Thread(target=self.read)
        self.reader.start()

    def read(self):
        # (a terminal that nobody writes to any more is an error to read)
        with contextlib.suppress(OSError):
            while True:
                self.said += os.read(self.taken, 65536).decode()

    def close(self):
        os.close(self.given)
        self.reader.join()
        os.close(self.taken)
        return self.said


def processor_time():
    """Seconds of the processor that ended children took."""
    times = resource.getrusage(resource.RUSAGE_CHILDREN)
    return times.ru_utime + times.ru_stime


def kept():
    """The programs that are kept."""
    return sorted((COPY / "out").glob("camac.*"))


class Launcher(Case):
    """In the order of the names of the tests: the first ones build."""

    launcher = property(lambda self: COPY / "camac")
    script = property(lambda self: (COPY / "examples/straight_line.script").read_text())

    def without_toolchain(self):
        """An environment in whose PATH is what the launcher uses, but not rt."""
        folder = self.folder()
        for name in NEEDED:
            (folder / name).symlink_to(shutil.which(name))
        return {**os.environ, "PATH": str(folder)}

    def test_1_stopped_build_leaves_nothing(self):
        room = self.folder()
        # (what runs in the background of a shell ignores the signal)
        heed = {"preexec_fn": lambda: signal.signal(signal.SIGINT, signal.SIG_DFL)}
        ran = start(self.launcher, "--version", start_new_session=True, env={**os.environ, "TMPDIR": str(room)}, **heed)
        said = ""
        while "reading the sources" not in said and ran.poll() is None:
            said = ran.stderr.readline()
        time.sleep(3)
        os.killpg(ran.pid, signal.SIGINT)
        self.assertEqual(ran.communicate()[0], "")
        self.assertEqual(ran.returncode, 130)
        self.assertEqual(kept(), [])
        self.assertEqual([*room.iterdir()], [])
        self.assertEqual([it.name for it in (COPY / "out").iterdir()], ["program.lock"])

    def test_2_first_calls_at_once(self):
        """The second and third begin while the first builds. The first two have terminals."""
        began = time.monotonic()
        words = (self.launcher, "check", "@sample", "@in")
        terminals, calls = [Terminal(), Terminal()], []
        for terminal in (*terminals, None):
            calls.append(start(*words, stderr=terminal.given if terminal else subprocess.PIPE))
            calls[-1].stdin.write(self.script)
            calls[-1].stdin.close()
            while "reading the sources" not in terminals[0].said and calls[0].poll() is None:
                time.sleep(0.1)
        self.assertEqual(calls[2].stderr.read(), "camac: the program is being built already\n")
        for it in calls:
            with it:
                self.assertEqual((it.stdout.read(), it.wait()), (VERDICT, 0))
        print(f"\nthe first call took {time.monotonic() - began:.0f} s", flush=True)
        first, second = (it.close() for it in terminals)
        self.assertTrue(first.startswith("camac: the program is built now, once, in one to five minutes\r\n"), first)
        self.assertTrue(first.endswith(NOT_PROVED.replace("\n", "\r\n")), first)
        for said in (first, second):
            told = [tuple(map(int, it)) for it in re.findall(r"compiling, (\d+) of (\d+) crates", said)]
            self.assertEqual(told, sorted(told))
            # who waits looks twice a second, and may miss the last word
            if said is first:
                self.assertEqual(told[-1][0], told[-1][1])
            self.assertGreater(len({*told}), 5)
            self.assertLessEqual(max(map(len, re.split(r"\r\x1b\[K|\r\n", said.partition("built in")[0]))), 80)
        self.assertIn("the program is being built already, compiling", second)
        self.assertEqual(len(kept()), 1)

    def test_3_later_calls_are_fast_and_silent(self):
        """By processor time: on a busy computer each call also waits for others."""
        times = []
        for _ in range(10):
            began = processor_time()
            self.assertEqual(call(self.launcher, "check", "@sample", "@in", given=self.script), (0, VERDICT, ""))
            times.append(processor_time() - began)
        print(f"\na later call took {min(times):.3f} to {max(times):.3f} s of processor time", flush=True)
        self.assertLess(min(times), 0.02, "0.005 seconds on a machine that does nothing else")

    @needed("valgrind")
    def test_3_as_fast_as_the_proved_program(self):
        """It takes at most a tenth more instructions, in comments a seventh."""
        if not sources_sum.is_passed():
            skip("the sources are those of crates.sum")
        room, programs = str(self.folder()), (PROGRAM, *kept())
        for case in (it.tenth() for it in speed.cases() if it.name.startswith(CASES)):
            with self.subTest(case.name):
                words, _ = case.put(room)
                proved, built = (speed.instructions([it, *words]) for it in programs)
                self.assertLess(built, (OF_COMMENTS if "comments" in case.name else MOST) * proved)
        counts = [[speed.of_shape(texts, it, [""]) for it in programs] for texts in corpus.shapes().values()]
        self.assertLess(statistics.geometric_mean(built / proved for (proved,), (built,) in counts), MOST)

    def test_4_links_and_folders(self):
        folder = self.folder()
        (folder / "bin").mkdir()
        (folder / "bin/camac").symlink_to(os.path.relpath(self.launcher, folder / "bin"))
        shutil.copy(COPY / "examples/straight_line.script", folder / "a script")
        path = {**os.environ, "PATH": f"{folder}/bin:{os.environ['PATH']}"}
        self.assertEqual(call("bash", "-c", "camac check @sample 'a script'", cwd=folder, env=path), (0, VERDICT, ""))
        line = "camac check <(cat '{0}/examples/sample_plan.toml') <(cat 'a script')".format(COPY)
        self.assertEqual(call("bash", "-c", line, cwd=folder, env=path), (0, VERDICT, ""))

    def test_5_program_by_the_launcher(self):
        """All that is tried of the program holds of the launcher: closed streams, pipes, answers that are waited for, full devices, statuses."""
        status, _, err = call(COPY / "tests/program_test.py", env={**os.environ, "CAMAC_PROGRAM": str(self.launcher)})
        self.assertEqual(status, 0, err)

    def test_6_texts_count_and_not_times(self):
        for file in (COPY / "crates").glob("*/src/*.rt"):
            os.utime(file)
        self.assertEqual(call(self.launcher, "--version"), (0, "camac 0.2.0\n", ""))
        (COPY / "crates/camac/src/.main.rt.swp").write_text("of an editor")
        self.assertEqual(call(self.launcher, "--version"), (0, "camac 0.2.0\n", ""))
        (COPY / "crates/camac/src/.main.rt.swp").unlink()
        self.assertEqual(len(kept()), 1)

    def test_6_without_the_toolchain(self):
        bare = self.without_toolchain()
        self.assertEqual(call(self.launcher, "--version", env=bare), (0, "camac 0.2.0\n", ""))
        main = COPY / "crates/camac/src/main.rt"
        text = main.read_text()
        main.write_text(text + "// changed\n")
        said = "camac: the toolchain's command rt is not here: README.md says what is needed\n"
        self.assertEqual(call(self.launcher, "--version", env=bare), (3, "", said))
        main.write_text(text)
        self.assertEqual(call(self.launcher, "--version", env=bare), (0, "camac 0.2.0\n", ""))

    def test_7_build_that_fails(self):
        main = COPY / "crates/camac/src/main.rt"
        text = main.read_text()
        main.write_text(text + "fn broken(")
        status, out, err = call(self.launcher, "--version")
        main.write_text(text)
        self.assertEqual((status, out), (3, ""))
        self.assertIn("camac: there is no program: the sources could not be read:\n", err)
        self.assertIn("main.rt", err)
        self.assertEqual(len(kept()), 1)
        self.assertEqual(call(self.launcher, "--version"), (0, "camac 0.2.0\n", ""))


    def test_7_kit_that_is_otherwise(self):
        folder = self.folder()
        toolchain(folder, f"echo '{folder}/START-HERE.md'")
        path = {**os.environ, "PATH": f"{folder}:{os.environ['PATH']}"}
        said = f"camac: there is no program: this kit is another than the one that tools/quick_build knows: {folder}/bin/rt is not there\n"
        status, out, err = call(self.launcher, "--version", env=path)
        self.assertEqual((status, out, err.splitlines(True)[-1]), (3, "", said))


class Proved(Case):
    """When the launcher takes crates/camac/out/camac. The program and the stamp of its proof are stand-ins."""

    launcher = property(lambda self: COPY / "camac")
    program = property(lambda self: COPY / "crates/camac/out/camac")
    stamp = property(lambda self: COPY / "crates/camac/out/camac.stamp")
    source = property(lambda self: min((COPY / "crates").glob("*/src/lib.rt")))

    def setUp(self):
        self.program.parent.mkdir(exist_ok=True)
        self.program.write_text("#!/bin/sh\necho proved\n")
        self.program.chmod(0o755)
        self.addCleanup(shutil.rmtree, self.program.parent)
        (COPY / ".git").mkdir()
        self.addCleanup(shutil.rmtree, COPY / ".git")
        self.addCleanup(self.forget)
        self.addCleanup(self.source.write_text, self.source.read_text())
        # the sources are older than the second in which a stand-in is made
        time.sleep(1.1)

    def forget(self):
        (COPY / "out/proved").unlink(missing_ok=True)

    def write_stamp(self):
        self.stamp.write_text("0" * 64 + hashlib.sha256(self.program.read_bytes()).hexdigest())

    def taken(self):
        """Whether the stand-in runs. Nothing is built in its place, since rt is not in PATH."""
        return call(self.launcher, "--version", env=Launcher.without_toolchain(self))[:2] == (0, "proved\n")


    def test_stamp_of_run(self):
        self.assertFalse(self.taken(), "no stamp")
        self.write_stamp()
        self.assertTrue(self.taken())
        self.assertTrue(self.taken())

    def test_stamp_of_another_program(self):
        self.stamp.write_text("0" * 128)
        self.assertFalse(self.taken())

    def test_source_that_is_younger(self):
        self.write_stamp()
        self.source.touch()
        self.assertFalse(self.taken(), "nobody knows what stood there before")

    def test_texts_count_once_the_program_was_taken(self):
        self.write_stamp()
        self.assertTrue(self.taken())
        text = self.source.read_text()
        self.source.write_text(text + "// changed\n")
        self.assertFalse(self.taken())
        self.source.write_text(text)
        self.assertTrue(self.taken())

    def test_proof_that_changed(self):
        self.write_stamp()
        time.sleep(1.1)
        self.assertTrue(self.taken())
        proof = min((COPY / "crates").glob("*/proofs/**/*.antt"))
        text = proof.read_text()
        self.addCleanup(proof.write_text, text)
        proof.write_text(text + "-- changed\n")
        self.assertTrue(self.taken(), "what was proved stays so")

    def test_gate(self):
        (COPY / ".git/rt-ci.lock").touch()
        time.sleep(0.05)
        self.program.touch()
        self.assertTrue(self.taken())

    def test_source_that_was_changed_while_the_gate_ran(self):
        (COPY / ".git/rt-ci.lock").touch()
        time.sleep(0.05)
        self.source.touch()
        time.sleep(0.05)
        self.program.touch()
        self.assertFalse(self.taken())

    def test_library_of_the_gate(self):
        """The gate makes the archive by tools/proved_library, which leaves no stamp."""
        library = COPY / "crates/camac_c/out/libcamac_c.a"
        library.parent.mkdir()
        self.addCleanup(shutil.rmtree, library.parent)
        self.addCleanup((COPY / "out/proved_library").unlink)
        library.write_text("a stand-in")
        self.assertFalse(self.library_taken(), "no gate ran")
        time.sleep(0.05)
        (COPY / ".git/rt-ci.lock").touch()
        self.assertFalse(self.library_taken(), "it was made before the gate ran")
        time.sleep(0.05)
        library.touch()
        self.assertTrue(self.library_taken())
        self.source.write_text(self.source.read_text() + "// changed\n")
        self.assertFalse(self.library_taken())

    def library_taken(self):
        """Whether the archive of the library is taken as proved."""
        line = 'top=$1; source "$top/tools/program.bash"; find_library; echo "$is_library_proved"'
        return call("bash", "-c", line, "bash", COPY, env=Launcher.without_toolchain(self))[1] == "yes\n"

class Install(Case):
    """The library for C that is put in place is a stand-in, where gcc is there to make one."""

    lacking = [] if has("gcc", "binutils") else [it for it in ("gcc", "ld", "ar", "nm", "objcopy") if not shutil.which(it)]
    of_c = "include/camac/camac.h include/camac/camac.hpp include/camac/camac_esone.h include/camac/camac_mcstd.h lib/libcamac.a lib/libcamac.so lib/libcamac.so.0" \
        " share/man/man3/camac.3 lib/pkgconfig/camac.pc lib/cmake/camac/camac-config.cmake lib/cmake/camac/camac-config-version.cmake"

    @classmethod
    def archive(cls):
        """A stand-in for the archive of the library. Python does not take it for one that fits."""
        place = folder(unittest.addModuleCleanup)
        exports = sorted(set(re.findall(r"camac_raw_\w+", (TOP / "library/camac.c").read_text())))
        text = "char *getenv(const char *);\n"
        text += "".join(f"unsigned {it}(void) {{ return getenv(\"STAND_IN\") ? 200 : 100; }}\n" for it in exports)
        (place / "it.c").write_text(text)
        subprocess.run(["gcc", "-fPIC", "-c", "it.c"], cwd=place, check=True)
        subprocess.run(["ar", "rcs", "it.a", "it.o"], cwd=place, check=True)
        return place / "it.a"

    @classmethod
    def setUpClass(cls):
        """Puts the stand-in where the library of these sources is kept."""
        if not cls.lacking:
            keep(COPY, "libcamac.{}.a", cls.archive(), OF_LIBRARY)

    def said_of_library(self, how):
        return f"install: no library for C: {self.lacking[0]} is not here" if self.lacking else f"install: the library for C, {how}"

    def test_install_call_and_remove(self):
        place, elsewhere = self.folder() / "of a user", self.folder()
        status, out, err = call(COPY / "install", place)
        self.assertEqual((status, err), (0, ""))
        lines = out.splitlines()
        not_proved = "not proved: ./install --prove proves it"
        last = [f"install: camac 0.2.0, {not_proved}", self.said_of_library(not_proved), f'install: {place}/bin is not in PATH. A line for ~/.profile: export PATH="{place}/bin:$PATH"']
        self.assertEqual(lines[-3:], last)
        wanted = "bin/camac share/man/man1/camac.1 share/bash-completion/completions/camac share/zsh/site-functions/_camac"
        wanted += " share/fish/vendor_completions.d/camac.fish share/nvim/site/syntax/camac.vim share/vim/vimfiles/syntax/camac.vim"
        wanted += " share/emacs/site-lisp/camac-mode.el share/camac/vscode/package.json bin/camac-report share/man/man1/camac-report.1"
        wanted += " share/bash-completion/completions/camac-report share/zsh/site-functions/_camac-report"
        wanted += " share/fish/vendor_completions.d/camac-report.fish share/doc/camac/README.md share/doc/camac/docs/REFUSALS.md"
        wanted += " bin/camac-check share/man/man1/camac-check.1 share/bash-completion/completions/camac-check share/zsh/site-functions/_camac-check"
        wanted += " share/fish/vendor_completions.d/camac-check.fish bin/camac-fmt bin/camac-lsp share/man/man1/camac-fmt.1 share/man/man1/camac-lsp.1"
        wanted += " bin/camac-survey share/man/man1/camac-survey.1 share/bash-completion/completions/camac-survey share/camac/proof"
        wanted += " share/nvim/site/plugin/camac_lsp.lua share/camac/camac.vsix share/org.kde.syntax-highlighting/syntax/camac.xml"
        wanted += " share/doc/camac/examples/tutorial/crate.toml share/doc/camac/tests/pictures/plan.svg"
        wanted += "" if self.lacking else f" {self.of_c}"
        for name in wanted.split():
            self.assertTrue((place / name).is_file(), name)
            self.assertIn(f"{place}/{name}", lines)
        self.assertTrue([*place.rglob("__pycache__/*.pyc")], "the Python package is compiled")
        path = {"PATH": f"{place}/bin:/usr/bin:/bin"}
        script = COPY / "examples/straight_line.script"
        self.assertEqual(call("camac", "check", "@sample", script, cwd=elsewhere, env=path), (0, VERDICT, ""))
        (elsewhere / "answers").write_text("0 0 000000 0 000004\n1 1 123fff 2 000000\n1 1 000000 0 000000\n")
        words = ["@sample", script, "answers", "-o", "run.html"]
        self.assertEqual(call("camac-report", *words, cwd=elsewhere, env=path), (0, "", ""))
        self.assertEqual(call(place / "bin/camac-report", *words, cwd=elsewhere, env={"PATH": "/usr/bin:/bin"}), (0, "", ""))
        self.assertIn("ended events 1", (elsewhere / "run.html").read_text())
        for command, env in (("camac-check", path), (place / "bin/camac-check", {"PATH": "/usr/bin:/bin"})):
            told = call(command, "@sample", COPY / "examples/too_few_cycles.script", cwd=elsewhere, env=env)
            self.assertEqual(told, (1, f"{COPY}/examples/too_few_cycles.script:4:1: refused E12: more cycles than annotated\n", ""))
        status, out, err = call(COPY / "install", place, env={**os.environ, "PATH": f"{place}/bin:{os.environ['PATH']}"})
        self.assertEqual((status, out.splitlines()[-2].startswith("install: camac 0.2.0"), err), (0, True, ""))
        if not self.lacking and has("pkg-config"):
            words = ["pkg-config", "--cflags", "--libs", "--modversion", "camac"]
            status, out, err = call(*words, env={**os.environ, "PKG_CONFIG_PATH": f"{place}/lib/pkgconfig"})
            self.assertEqual((status, out.splitlines()[0], err), (0, "0.2.0", ""))
            program = elsewhere / "it.c"
            program.write_text("#include <camac/camac.h>\nint main(void) { return camac_version() == CAMAC_VERSION_NUMBER ? 0 : 1; }\n")
            words = ["gcc", program, f"-I{place}/include", f"-L{place}/lib", "-lcamac", "-o", elsewhere / "it"]
            self.assertEqual(call(*words), (0, "", ""))
            self.assertEqual(call(elsewhere / "it", env={"LD_LIBRARY_PATH": f"{place}/lib", "STAND_IN": "yes"}), (0, "", ""))
        self.assertEqual(call(COPY / "install", "--remove", place)[0], 0)
        self.assertEqual([it for it in place.rglob("*") if it.is_file()], [])
        self.assertEqual(call(COPY / "install", "--remove", place)[0], 1)

    def test_what_is_told(self):
        """The pages that explanations name; and where Python does not look, the line that fixes it."""
        place = self.folder() / "of a user"
        lines = call(COPY / "install", place)[1].splitlines()
        self.assertIn(f"install: the pages that explanations name (More: docs/..) are in {place}/share/doc/camac", lines)
        script = COPY / "examples/too_few_cycles.script"
        told = call(place / "bin/camac", "explain", "@sample", script)[1].splitlines()
        more = next(it for it in told if it.startswith("More: "))
        self.assertTrue((place / "share/doc/camac" / more.removeprefix("More: ").partition(",")[0]).is_file(), more)
        line = next(it for it in lines if it.startswith("install: python3 does not search ")).partition("~/.profile: ")[2]
        ran = call("bash", "-c", f"{line}; python3 -c 'import camac; print(camac.__file__)'", env={**os.environ, "PYTHONPATH": ""})
        self.assertTrue(ran[1].startswith(f"{place}/lib/"), ran)
        again = call(COPY / "install", place, env={**os.environ, "PYTHONPATH": str(pathlib.Path(ran[1].strip()).parent.parent)})[1]
        self.assertNotIn("python3 does not search", again)

    def test_file_of_another(self):
        place = self.folder()
        (place / "bin").mkdir()
        (place / "bin/camac").write_text("mine\n")
        status, out, err = call(COPY / "install", place)
        wanted = f"install: {place}/bin/camac is there, and ./install did not put it there: move it away. Nothing was installed\n"
        self.assertEqual((status, out, err), (1, "", wanted))
        self.assertEqual([it for it in place.rglob("*") if it.is_file()], [place / "bin/camac"])
        self.assertEqual((place / "bin/camac").read_text(), "mine\n")
        (place / "bin/camac").unlink()
        (place / "bin/camac-report").symlink_to("nowhere")
        self.assertEqual(call(COPY / "install", place)[0], 1)
        (place / "bin/camac-report").unlink()
        self.assertEqual(call(COPY / "install", place)[0], 0)
        (place / "share/camac/installed").unlink()
        self.assertEqual(call(COPY / "install", place)[0], 0, "the same files are taken, whoever put them there")

    def test_pack(self):
        place, elsewhere = self.folder(), self.folder()
        status, out, err = call(COPY / "install", "--pack", place)
        packed = place / "camac-0.2.0-x86_64-unproved.tar.gz"
        self.assertEqual((status, out.splitlines()[0], err), (0, str(packed), ""))
        self.assertEqual([*place.iterdir()], [packed])
        call(COPY / "install", "--pack", cwd=elsewhere)
        self.assertEqual((elsewhere / packed.name).read_bytes(), packed.read_bytes())
        call("tar", "-xzf", packed, "-C", place, "--strip-components=1")
        put = self.folder()
        call(COPY / "install", put)
        files = {it.relative_to(place) for it in place.rglob("*") if it.is_file() and it != packed}
        self.assertEqual(files, {it.relative_to(put) for it in put.rglob("*") if it.is_file() and "__pycache__" not in it.parts})
        path = {"PATH": f"{place}/bin:/usr/bin:/bin"}
        self.assertEqual(call("camac", "check", "@sample", place / "share/doc/camac/examples/straight_line.script", env=path), (0, VERDICT, ""))

    def test_prove(self):
        folder, place = self.folder(), self.folder()
        path = {**os.environ, "PATH": f"{folder}:{os.environ['PATH']}"}
        toolchain(folder, "exit 1")
        status, out, err = call(COPY / "install", "--prove", place, env=path)
        self.assertEqual((status, out), (1, ""))
        self.assertTrue(err.startswith("install: proves camac and all crates below: about an hour"), err)
        self.assertTrue(err.endswith("install: the program is not proved\n"), err)
        self.assertEqual([*place.iterdir()], [])
        self.addCleanup(shutil.rmtree, COPY / "crates/camac/out")
        self.addCleanup((COPY / "out/proved").unlink)
        if not self.lacking:
            tool = COPY / "tools/proved_library"
            self.addCleanup(tool.write_text, tool.read_text())
            tool.write_text(f"#!/bin/sh\nmkdir -p out && cp {self.archive()} out/libcamac_c.a\n")
            self.addCleanup(shutil.rmtree, COPY / "crates/camac_c/out")
            self.addCleanup((COPY / "out/proved_library").unlink)
        toolchain(folder, "mkdir -p out && printf '#!/bin/sh\\necho camac proved\\n' >out/camac && chmod 755 out/camac")
        status, out, err = call(COPY / "install", "--prove", place, env=path)
        self.assertEqual(status, 0, err)
        self.assertIn(f"install: camac proved, proved\n{self.said_of_library('proved')}\n", out)
        self.assertEqual(call(place / "bin/camac")[1], "camac proved\n")

    def test_home(self):
        home = self.folder()
        self.assertEqual(call(COPY / "install", env={**os.environ, "HOME": str(home)})[0], 0)
        self.assertTrue(os.access(home / ".local/bin/camac", os.X_OK))

    def test_what_an_earlier_version_put_there_goes(self):
        place = self.folder()
        call(COPY / "install", place)
        (place / "share/old").write_text("")
        with open(place / "share/camac/installed", "a", encoding="utf-8") as file:
            file.write("share/old\n")
        self.assertEqual(call(COPY / "install", place)[0], 0)
        self.assertFalse((place / "share/old").exists())

    def test_folders_of_headers_and_python(self):
        (COPY / "include").mkdir(exist_ok=True)
        (COPY / "include/a_header.h").write_text("")
        self.addCleanup((COPY / "include/a_header.h").unlink)
        (COPY / "python/camac").mkdir(parents=True, exist_ok=True)
        (COPY / "python/camac/a_module.py").write_text("NUMBER = 7\n")
        self.addCleanup((COPY / "python/camac/a_module.py").unlink)
        place = self.folder()
        out = call(COPY / "install", place)[1]
        self.assertEqual(f"{place}/include/a_header.h\n" in out, not self.lacking)
        self.assertEqual(len([*place.glob("lib/python3*/site-packages/camac/a_module.py")]), 1, out)

    def test_words(self):
        self.assertEqual(call(COPY / "install", "--help")[::2], (0, ""))
        self.assertEqual(call(COPY / "install", "--frob")[:2], (2, ""))
        self.assertEqual(call(COPY / "install", "a", "b")[:2], (2, ""))

    def test_folder_that_cannot_be_written(self):
        place = self.folder() / "file"
        place.write_text("")
        status, _, err = call(COPY / "install", place)
        self.assertEqual(status, 1)
        self.assertIn(f"install: {place}/bin/camac could not be written\n", err)


def load_tests(loader, _tests, _pattern):
    """The tests that build come first."""
    return unittest.TestSuite(loader.loadTestsFromTestCase(it) for it in (Launcher, Proved, Install))


if __name__ == "__main__":
    if not shutil.which("rt"):
        raise SystemExit("the toolchain's command rt is not here: README.md says what is needed")
    unittest.main()
