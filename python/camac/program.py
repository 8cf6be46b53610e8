"""What the program camac prints, as text: it is called with the words of a subcommand, and its statuses become exceptions.

If no program is there, the library for C answers in this process what it can (`COMMANDS`). So it does where `@library` is named as the
program. The library and what calls another process are each loaded when they are called: both take as long to load as all of this package."""
import functools
import itertools
import os
from typing import Iterator, List, Mapping, NamedTuple, Optional, Tuple

from camac.drive import File, Refused, UsageFault, fault_of, find_program
from camac.printed import is_known, is_refused
from camac.texts import plan_text

REFUSED, USAGE = 1, 2
EVERY = "--every="
# The version of this package. A library fits whose first two numbers are the same.
VERSION = 200
# The library in the place of a program, and the subcommands that it has, too.
IN_PROCESS = "@library"
COMMANDS = frozenset(("plan", "check", "explain", "bounds", "costs", "tell", "response", "run"))


class Verdict(NamedTuple):
    """Whether the texts were accepted, and what the program would print."""

    accepted: bool
    text: str


def has_library() -> bool:
    """Whether the library can be loaded."""
    from camac.native import is_there

    return is_there()


def quickest() -> Optional[File]:
    """The library, if it is there and no program is named: what is judged by it costs no other process."""
    return None if os.environ.get("CAMAC_PROGRAM") or not has_library() else IN_PROCESS


def find(command: str, program: Optional[File]) -> str:
    """The program that answers a command, or `IN_PROCESS`. Raises FileNotFoundError if there is none of both."""
    try:
        return os.fsdecode(find_program(program))
    except FileNotFoundError:
        if command in COMMANDS and has_library():
            return IN_PROCESS
        raise


def _of_library(*words: File) -> Verdict:
    """The library's answer in the program's place. Before the files there may be the options `--every=NAME=CYCLES`, and "--"."""
    from camac import library

    command, *files = words
    every = [it[len(EVERY) :] for it in itertools.takewhile(lambda it: it.startswith(EVERY), map(os.fsdecode, files))]
    files = files[len(every) :]
    if files[:1] == ["--"]:
        files = files[1:]
    if command not in COMMANDS:
        raise UsageFault(f"the library has no `{os.fsdecode(command)}`", USAGE)
    return library.output_of(os.fsdecode(command), *files, every=every)


def output_of(*words: File, program: Optional[File] = None) -> str:
    """Returns what the program prints when it is called with these words. A file name of the user is behind "--". Raises Refused if it refuses
    (status 1), UsageFault if it does not understand the words (status 2), ProgramFault at every other status, and OSError if it cannot be started."""
    found = find(os.fsdecode(words[0]), program)
    if found == IN_PROCESS:
        verdict = _of_library(*words)
        _judge(0 if verdict.accepted else REFUSED, verdict.text, "")
        return verdict.text
    status, printed, errors = _called(found, *words)
    _judge(status, printed, errors)
    return printed


def _called(program: str, *words: File, given: bytes = b"") -> Tuple[int, str, str]:
    """The status of the program, and what it prints to standard output and standard error."""
    import subprocess

    # Files in memory: by pipes a call takes Python twice as long.
    files = [os.memfd_create(it) for it in ("stdin", "stdout", "stderr")]
    try:
        os.pwrite(files[0], given, 0)
        status = subprocess.call([program, *words], stdin=files[0], stdout=files[1], stderr=files[2])
        printed, errors = (os.pread(it, os.stat(it).st_size, 0).decode(errors="replace") for it in files[1:])
        return status, printed, errors
    finally:
        for it in files:
            os.close(it)


def lines_of(*words: File, program: Optional[File] = None) -> Iterator[str]:
    """Yields the lines that the program prints, without their LF, as they come. A status of 1 is none of its faults here: the last line says it. The
    program is ended with the generator. Raises UsageFault, ProgramFault and OSError as `output_of`, behind the last line."""
    found = find(os.fsdecode(words[0]), program)
    if found == IN_PROCESS:
        yield from _of_library(*words).text.splitlines()
        return
    import subprocess

    with open(os.memfd_create("stderr"), "r+b") as errors:
        with subprocess.Popen([found, *words], stdin=subprocess.DEVNULL, stdout=subprocess.PIPE, stderr=errors, bufsize=1 << 16) as started:
            assert started.stdout
            try:
                for line in started.stdout:
                    yield line.decode("utf-8", "replace").rstrip("\n")
            except BaseException:
                started.kill()
                raise
            status = started.wait()
        errors.seek(0)
        if status not in (0, REFUSED):
            _judge(status, "", errors.read().decode(errors="replace"))


def _judge(status: int, printed: str, errors: str) -> None:
    # `response` has this status, too, if an accepted script does not do its part.
    if status == REFUSED and printed.startswith("service "):
        return
    if status == REFUSED and printed:
        raise Refused(printed)
    if status:
        raise fault_of(errors.rstrip("\n"), status)


def advice_on(code: str, program: Optional[File] = None) -> Tuple[str, ...]:
    """What `camac explain` says of a code behind its first line; nothing where no program is there, or one that does not know it."""
    try:
        return tuple(_asked_once(os.fsdecode(find_program(None if program == IN_PROCESS else program)), ("explain", code)).splitlines()[1:])
    except (FileNotFoundError, UsageFault):
        return ()


def version_text(number: int) -> str:
    """The number of a version, as 200, in the form 0.2.0."""
    return f"{number // 10_000}.{number // 100 % 100}.{number % 100}"


def version(program: Optional[File] = None) -> str:
    """The version, as the program prints it: "camac 0.2.0"."""
    if find("check", program) == IN_PROCESS:
        from camac.native import version as of_library

        return f"camac {of_library()}"
    return output_of("--version", program=program).rstrip("\n")


def verdict(command: str, plan: File, script: bytes, program: Optional[File] = None, at: Optional[Tuple[int, int]] = None) -> Verdict:
    """The program's answer on a script that is given as its text. `command` judges: "check", "tell", "bounds", "costs", "response", "explain
    --bounds" or "explain", which says with line and column what is known there. Raises ProgramFault and OSError as `output_of`."""
    words = command.split()
    found = find(words[0], program)
    if found == IN_PROCESS:
        from camac import library

        return library.explain_at(plan_text(plan), script, *at) if at else library.tell(command.replace(" --", "_"), plan_text(plan), script)
    status, text, errors = _called(found, *words, *(["--at", "{}:{}".format(*at)] if at else []), "--", plan, "@in", given=script)
    if status not in (0, REFUSED):
        _judge(status, "", errors)
    return Verdict(is_known(text) if at else not is_refused(text), text)


def explain_plan(plan: File, program: Optional[File] = None) -> Verdict:
    """The output of `camac explain` on a plan alone. Raises ProgramFault and OSError as `output_of`."""
    text = "".join(f"{it}\n" for it in lines_of("explain", "--", plan, program=program))
    return Verdict(not is_refused(text), text)


def accepts(plan: File, script: bytes, program: Optional[File] = None) -> bool:
    """Whether a script is accepted that is given as its text. Raises ProgramFault and OSError as `output_of`."""
    return verdict("check", plan, script, program).accepted


@functools.lru_cache(maxsize=None)
def _asked_once(program: str, words: Tuple[str, ...]) -> str:
    return output_of(*words, program=program)


def knows_command(command: str, program: Optional[File] = None) -> bool:
    """Whether the program has this subcommand. Its help is asked once."""
    found = find(command, program)
    return command in COMMANDS if found == IN_PROCESS else f"\n  {command} " in _asked_once(found, ("--help",))


def knows_option(command: str, option: str, program: Optional[File] = None) -> bool:
    """Whether a subcommand of the program has this option. Its help is asked once."""
    found = find(command, program)
    return found != IN_PROCESS and option in _asked_once(found, ("help", command)).split()


def settings(numbers: Optional[Mapping[str, int]]) -> List[str]:
    """The words that follow an option of `response`: NAME=CYCLES for each service."""
    return [f"{service}={cycles}" for service, cycles in (numbers or {}).items()]
