"""Reads words.toml, in which a user says what the words of his events mean.

It is TOML. Tables `[[word]]` with lines `KEY = VALUE`, whose values are strings of one line and numbers, are read here, so that a fault names its
line. Other forms are read where Python has `tomllib`."""
import importlib
import math
import os
import re
from typing import Any, Dict, List, NamedTuple, NoReturn, Optional, Sequence, Tuple, Union

from camac.drive import File
from camac.events import GREATEST_COUNT, GREATEST_GL
from camac.texts import script_text
from camac.values import Service
from camac.words import ANYWHERE, KINDS, PLACE, SPECTRUM, VALUE, WHOLE, Amount, Field, Range, Words

TomlValue = Union[str, int, float]
HEADER = re.compile(r"\[\[[ \t]*word[ \t]*\]\]")
KEY = re.compile(r"([A-Za-z0-9_-]+)[ \t]*=[ \t]*(.*)")
STRING = re.compile(r'"((?:[^"\\]|\\.)*)"')
LITERAL = re.compile(r"'([^']*)'")
NUMBER = re.compile(r"[+-]?(?:0|[1-9](?:_?[0-9])*)(\.[0-9](?:_?[0-9])*)?([eE][+-]?[0-9](?:_?[0-9])*)?")
REST = re.compile(r"[ \t]*(?:#.*)?")
CONTROL = re.compile("[\x00-\x08\x0a-\x1f\x7f]")
ESCAPE = re.compile(r"\\(?:u([0-9A-Fa-f]{4})|U([0-9A-Fa-f]{8})|(.))")
ESCAPED = {"b": "\b", "t": "\t", "n": "\n", "f": "\f", "r": "\r", '"': '"', "\\": "\\"}
RANGE = re.compile(r"([0-9]{1,4})(?:\.\.([0-9]{1,4}))?")
GREATEST_NAME, GREATEST_TAG_BITS, GREATEST_COLUMNS, GREATEST_FIELDS = 64, 12, 4096, 1024
KEYS = ("service", "gl", "name", "unit", "bits", "place", "of", "tag", "scale", "offset", "as")


class WordsFault(ValueError):
    """What cannot be read in a file of words: it names the file and the line."""

    def __init__(self, file: File, line: int, text: str) -> None:
        super().__init__(f"{os.fsdecode(file)}:{line}: {text}")
        self.line = line


class _Table(NamedTuple):
    """A `[[word]]`: its line, and of each key its line and its value."""

    line: int
    keys: Dict[str, Tuple[int, TomlValue]]


def read_words(file: File, services: Sequence[Service] = (), sources: Words = Words()) -> Words:
    """Reads a file of words. `services` are those of the script whose events they are, as `camac.check` gives them: by them it is known which bit the name
    of a service stands for. `sources` are what `words_of_script` gives: the bits of a word are those of its register, if the file does not say them.

    Raises WordsFault at the first line that cannot be read, and ProgramFault if the file cannot be."""
    return parse_words(script_text(file), file, services, sources)


def parse_words(text: bytes, file: File, services: Sequence[Service] = (), sources: Words = Words()) -> Words:
    """Reads the text of a file of words; `file` is its name in a fault. Raises WordsFault as `read_words`."""
    reader = _Fields(file, services, sources)
    try:
        tables = _by_lines(text, file)
    except WordsFault:
        others = _by_tomllib(text)
        if others is None:
            raise
        tables = others
    for table in tables:
        reader.take(table)
    return reader.words()


def _by_tomllib(text: bytes) -> Optional[List[_Table]]:
    """The tables of any form of TOML; None where Python cannot read it, or there is more in it. A key has the line of its table."""
    try:
        read: Any = importlib.import_module("tomllib").loads(text.decode())
    except (ImportError, ValueError):
        return None
    words = read.get("word")
    if len(read) != 1 or not isinstance(words, list) or not all(isinstance(it, dict) for it in words):
        return None
    lines = [number for number, line in enumerate(text.decode().split("\n"), 1) if HEADER.match(line.strip())]
    lines = lines if len(lines) == len(words) else [1] * len(words)
    return [_Table(line, {key: (line, value) for key, value in it.items()}) for line, it in zip(lines, words)]


def _by_lines(text: bytes, file: File) -> List[_Table]:
    tables: List[_Table] = []
    for number, data in enumerate(text.split(b"\n"), 1):
        try:
            line = (data[:-1] if data.endswith(b"\r") else data).decode().strip(" \t")
        except UnicodeDecodeError:
            raise WordsFault(file, number, "this is no UTF-8") from None
        if CONTROL.search(line):
            raise WordsFault(file, number, "a control character may not stand here")
        if REST.fullmatch(line):
            continue
        header, found = HEADER.match(line), KEY.fullmatch(line)
        if header and REST.fullmatch(line, header.end()):
            tables.append(_Table(number, {}))
        elif found and tables:
            if found[1] in tables[-1].keys:
                raise WordsFault(file, number, f"`{found[1]}` is there twice in this [[word]]")
            tables[-1].keys[found[1]] = number, _value(found[2], file, number)
        else:
            raise WordsFault(file, number, "`[[word]]` has to stand before the first key" if found else "expected `[[word]]` or `KEY = VALUE`")
    return tables


def _value(text: str, file: File, line: int) -> TomlValue:
    found = STRING.match(text) or LITERAL.match(text) or NUMBER.match(text)
    if not found or not REST.fullmatch(text, found.end()):
        raise WordsFault(file, line, "expected a string of one line in quotes, or a number")
    if found.re is LITERAL:
        return found[1]
    if found.re is NUMBER:
        digits = found[0].replace("_", "")
        return float(digits) if found[1] or found[2] else int(digits)
    try:
        return ESCAPE.sub(_escaped, found[1])
    except ValueError:
        raise WordsFault(file, line, r"this escape is none of TOML: \b \t \n \f \r \" \\ \uXXXX \UXXXXXXXX") from None


def _escaped(found: "re.Match[str]") -> str:
    code = found[1] or found[2]
    if code is None:
        if found[3] not in ESCAPED:
            raise ValueError
        return ESCAPED[found[3]]
    if 0xD800 <= int(code, 16) < 0xE000:
        raise ValueError
    return chr(int(code, 16))


class _Fields:
    """Makes fields of tables, one after another."""

    def __init__(self, file: File, services: Sequence[Service], sources: Words) -> None:
        self.file, self.sources = file, sources.fields
        self.bits = {it.name: it.gl for it in services}
        self.most = {it.gl: it.words for it in services}
        self.fields: List[Field] = []
        self.table = _Table(0, {})

    def fail(self, key: str, text: str) -> NoReturn:
        """Raises the fault of a key, or of the table if it does not have it."""
        raise WordsFault(self.file, self.table.keys.get(key, (self.table.line, ""))[0], text)

    def text(self, key: str) -> str:
        value = self.table.keys.get(key, (0, ""))[1]
        if not isinstance(value, str):
            self.fail(key, f"`{key}` is a string in quotes")
        if len(value) > GREATEST_NAME or "\0" in value:
            self.fail(key, f"`{key}` has at most {GREATEST_NAME} characters, and no NUL")
        return value

    def range(self, key: str, least: int, greatest: int, default: Range) -> Range:
        if key not in self.table.keys:
            return default
        value = self.table.keys[key][1]
        found = RANGE.fullmatch(str(value))
        first, last = (int(found[1]), int(found[2] or found[1])) if found else (-1, -1)
        if not least <= first <= last <= greatest:
            self.fail(key, f'`{key}` is a number from {least} to {greatest}, or "FIRST..LAST" of two such numbers')
        return first, last

    def amount(self, key: str, default: int) -> Amount:
        value = self.table.keys.get(key, (0, default))[1]
        if not isinstance(value, (int, float)) or isinstance(value, bool) or not math.isfinite(value) or (key == "scale" and not value):
            self.fail(key, f"`{key}` is a number" + (", and not 0" if key == "scale" else ""))
        return value

    def gl(self) -> int:
        if "gl" in self.table.keys:
            if "service" in self.table.keys:
                self.fail("gl", "a [[word]] has either `service` or `gl`")
            return self.range("gl", 1, GREATEST_GL, (0, 0))[0]
        if "service" not in self.table.keys:
            self.fail("", "`service` is missing: the name of the service whose words these are")
        name = self.text("service")
        if name not in self.bits:
            known = f"but {', '.join(self.bits)}" if self.bits else "since no script is given; a bit may stand here, as `gl = 3`"
            self.fail("service", f"there is no service `{name}`, {known}")
        return self.bits[name]

    def take(self, table: _Table) -> None:
        """Takes a table as a further field."""
        self.table = table
        for key in table.keys:
            if key not in KEYS:
                self.fail(key, f"`{key}` is no key of a [[word]]: {', '.join(KEYS)}")
        if len(self.fields) == GREATEST_FIELDS:
            self.fail("", f"more than {GREATEST_FIELDS} tables [[word]]")
        gl = self.gl()
        name, unit = self.text("name"), self.text("unit")
        if not name:
            self.fail("name", "`name` is missing")
        places = self.range("place", 1, self.most.get(gl, GREATEST_COUNT) or GREATEST_COUNT, ANYWHERE)
        widest = self.widest(gl, places)
        field = Field(name, gl, unit, self.range("bits", *WHOLE, widest or WHOLE), places, line=table.line)
        if "as" in table.keys and self.text("as") not in KINDS:
            self.fail("as", f"`as` is {', '.join(KINDS[:-1])} or {KINDS[-1]}")
        field = field._replace(kind=self.text("as") or (VALUE if widest == field.bits == WHOLE else SPECTRUM))
        if name == PLACE:
            self.fail("name", "`place` is what each word has; choose another name")
        # A name has one unit in all of the file.
        for it in self.fields:
            if it.name == name and it.unit != unit:
                self.fail("unit", f"`{name}` has another unit in line {it.line}")
        field = field._replace(scale=self.amount("scale", 1), offset=self.amount("offset", 0))
        self.fields.append(self.tagged(field))
        if sum(it.tags[1] - it.tags[0] + 1 for it in self.fields if it.gl == gl) > GREATEST_COLUMNS:
            self.fail("of", f"a service has more than {GREATEST_COLUMNS} columns")

    def widest(self, gl: int, places: Range) -> Optional[Range]:
        """The bits of the registers that the script read into words at these places; None if one of them may be anything else."""
        places = places[0], min(places[1], self.most.get(gl, GREATEST_COUNT))
        sources = [it for it in self.sources if it.gl == gl and not it.is_expression and _meet(it.places, places)]
        known = {at for it in sources for at in range(max(it.places[0], places[0]), min(it.places[1], places[1]) + 1)}
        return max(it.bits for it in sources) if known and len(known) == places[1] - places[0] + 1 else None

    def tagged(self, field: Field) -> Field:
        """The field with what chooses its column."""
        of = self.text("of")
        if not of:
            if "tag" in self.table.keys:
                self.fail("tag", "`of` is missing: the field whose number is the tag")
            return field
        if of == PLACE:
            if "place" not in self.table.keys or "tag" in self.table.keys:
                self.fail("of", 'with `of = "place"` write `place`, and no `tag`')
            return field._replace(of=of, tags=field.places)
        tags = [it for it in self.fields if it.gl == field.gl and it.name == of and it.of is None]
        if not tags:
            self.fail("of", f"no [[word]] of this service before this one is named `{of}` and has no `of` itself")
        tag = next((it for it in tags if _lies_in(field.places, it.places)), tags[0])
        if tag.bits[1] - tag.bits[0] >= GREATEST_TAG_BITS:
            self.fail("of", f"`{of}` has more than {GREATEST_TAG_BITS} bits, too many for a tag")
        if field.places == ANYWHERE:
            field = field._replace(places=tag.places)
        if not _lies_in(field.places, tag.places):
            self.fail("place", f"at some of these places `{of}` does not stand")
        return field._replace(of=of, tags=self.range("tag", 0, tag.greatest, (0, tag.greatest)))

    def words(self) -> Words:
        """All fields. Two of one name in one service may have no word in common."""
        for at, field in enumerate(self.fields):
            for earlier in self.fields[:at]:
                if (earlier.gl, earlier.name) == (field.gl, field.name) and _meet(earlier.places, field.places):
                    if earlier.of is None or earlier.of != field.of or _meet(earlier.tags, field.tags):
                        raise WordsFault(self.file, field.line, f"`{field.name}` is in line {earlier.line} for the same words")
        return Words(self.fields)


def _lies_in(one: Range, other: Range) -> bool:
    return other[0] <= one[0] and one[1] <= other[1]


def _meet(one: Range, other: Range) -> bool:
    return one[0] <= other[1] and other[0] <= one[1]
