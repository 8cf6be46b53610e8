"""Whether the program or the library in use is proved: what ./install noted of it, if it is still that file."""
import functools
import os
from typing import Dict, NamedTuple, Optional

from camac.drive import File
from camac.program import IN_PROCESS, find, version
from camac.texts import hashed

NOTE = os.path.join("share", "camac", "proof")
PROVED, NOT_PROVED, NOT_KNOWN = "proved", "not proved", "not known to be proved"


class Proof(NamedTuple):
    """What is known of a program or a library: its file, one of the three words above, and the sums of the sources and of the kit that the note has."""

    file: str
    word: str
    sources: str = "-"
    kit: str = "-"


def proof(program: Optional[File] = None) -> Proof:
    """What is known of the program that judges, or of the library in its place. Raises OSError if there is none of both."""
    name = find("check", program)
    if name == IN_PROCESS:
        from camac.native import loaded

        name = loaded()
    return _proof(os.path.realpath(name))


@functools.lru_cache(maxsize=None)
def _proof(file: str) -> Proof:
    folder, noted = os.path.dirname(file), {}
    # A library is in lib, or one deeper.
    for top in (os.path.dirname(os.path.dirname(folder)), os.path.dirname(folder)):
        note = _read(os.path.join(top, NOTE))
        for line in (note.get("library", ""), note.get("program", "")):
            digest, _, word = line.partition(" ")
            if word in (PROVED, NOT_PROVED):
                noted[digest] = Proof(file, word, note.get("sources", "-"), note.get("kit", "-"))
    with open(file, "rb") as opened:
        # The sum of a program takes long: it is made where there is another to compare it with.
        return noted.get(hashed(opened.read()).hexdigest() if noted else "", Proof(file, NOT_KNOWN))


def _read(note: str) -> Dict[str, str]:
    try:
        with open(note, encoding="utf-8", errors="replace") as lines:
            words = [line.rstrip("\n").partition(" ") for line in lines]
    except OSError:
        return {}
    return {key: value for key, _, value in words}


def told(program: Optional[File] = None) -> str:
    """The version of the program, and whether it is proved: "camac 0.2.0, not proved"."""
    return f"{version(program)}, {proof(program).word}"


def lines(program: Optional[File] = None) -> str:
    """The same with its file, and the sums of its sources and of the kit that built it."""
    found = proof(program)
    return f"{told(program)}\n{found.file}\nsources {found.sources}\nkit {found.kit}\n"
