"""An event file as columns with names and units, for analysis: one row an event, and one row a word. numpy makes them, h5py the HDF5 file;
without numpy there are tables of comma-separated values alone."""
import contextlib
import importlib
import itertools
import json
import os
from typing import Any, BinaryIO, Dict, Iterator, List, NamedTuple, Optional, Sequence, Set, Tuple

from camac.arrays import Array, EventArrays, Events, arrays_of, event_pieces, groups, is_new
from camac.drive import File, ProgramFault
from camac.events import GREATEST_COUNT, GREATEST_GL, EventFileFault
from camac.fits import Check, Fit, refuse
from camac.output import anything, bytes_output, nothing, passing_file, Progress, refuse_loss
from camac.record import Record, Source, beside, read_record, record_checks, texts_of
from camac.subcommands import check, plan as read_plan
from camac.texts import script_text
from camac.values import Service
from camac.words import Words

FORM = "camac export 1"
# The value in a column of whole numbers of a word that has none; in one of fractions it is NaN.
MISSING = -1
# The values of a chunk of HDF5, and the bytes that are copied at once.
CHUNK, COPIED = 1 << 16, 1 << 20


class About(NamedTuple):
    """The facts on the events: their file, plan and script, the text of the file of words, the record, and what follows from them. `sources` are the words
    whose place the script fixes, `words` what the user says of them."""

    events: str
    events_file: str = ""
    plan: Optional[Source] = None
    script: Optional[Source] = None
    words_text: Optional[Source] = None
    record: Optional[Record] = None
    services: Tuple[Service, ...] = ()
    sources: Words = Words()
    words: Words = Words()

    def names(self) -> Words:
        """The columns of the words: those of the user, else those of the script."""
        return self.words if self.words.fields else self.sources

    def source_names(self) -> List[str]:
        """The names that the script gives to words, behind the empty one of all others."""
        return ["", *(it.name for it in self.sources.fields)]

    def value(self) -> Dict[str, Any]:
        """As JSON has it."""
        texts = {"plan": self.plan, "script": self.script, "words": self.words_text}
        values = {name: text.value() for name, text in texts.items() if text}
        record = {"record": json.loads(self.record.text())} if self.record else {}
        return {"form": FORM, "events": self.events, "services": {str(it.gl): it.name for it in self.services}, **values, **record}


class Given(NamedTuple):
    """The files of an export; None if one is not given."""

    events: File
    plan: Optional[File] = None
    script: Optional[File] = None
    words: Optional[File] = None
    record: Optional[File] = None


def learn(given: Given, program: Optional[File] = None) -> About:
    """Reads what is known of the events. If plan and script are not given, those of the record count, which may be beside the events; if they are
    given, they have to be those of a record that is given.

    Raises WordsFault and ValueError for a file that cannot be read so, Refused if plan or script is refused, ProgramFault and OSError as
    `camac.check`."""
    about = About(os.path.basename(os.fsdecode(given.events)), os.fsdecode(given.events))
    record = beside(given.events) if given.plan is None and given.record is None else None
    if given.record is not None:
        record = read_record(given.record)
    if record is not None:
        about = about._replace(record=record, plan=record.plan, script=record.script)
    if given.plan is not None and given.script is not None:
        plan, script = texts_of(given.plan, given.script)
        for mine, recorded in ((plan, about.plan), (script, about.script)):
            if recorded is not None and mine.sha256 != recorded.sha256:
                raise ValueError(f"{mine.name} is not the one of the record, {recorded.name}")
        about = about._replace(plan=plan, script=script)
    if about.plan and about.script:
        services, sources = _judge(about.plan, about.script, program)
        about = about._replace(services=tuple(services), sources=sources)
    if given.words is not None:
        from camac.word_file import parse_words

        text = script_text(given.words)
        words = parse_words(text, given.words, about.services, about.sources)
        about = about._replace(words_text=Source(os.fsdecode(given.words), text), words=words)
    return about


def _judge(plan: Source, script: Source, program: Optional[File]) -> Tuple[List[Service], Words]:
    """The services of a script that is given as its text, and what it says of words."""
    from camac.word_sources import words_of_script

    with passing_file(plan.data) as its_plan, passing_file(script.data) as text:
        services = check(its_plan, text, program)
        return services, words_of_script(read_plan(its_plan, program), text, services)


class Series(NamedTuple):
    """A column: its table and name, its values, its unit, and what it means. `title` is the name that the user gave it."""

    table: str
    name: str
    values: Array
    unit: str = ""
    meaning: str = ""
    title: str = ""


def tables(events: EventArrays, about: About, number: int = 1, row: int = 0) -> List[Series]:
    """The columns of an event file, or of a piece of one, with the number of its first event and the row of its first word: those of its events, then
    those of its words."""
    numpy = importlib.import_module("numpy")
    counts = numpy.diff(events.first)
    numbers = numpy.arange(number, number + len(counts), dtype="u4")
    found = [Series("events", "event", numpy.copy(numbers), "", NUMBER), Series("events", "gl", events.gl, "", GL)]
    if events.cycles is not None:
        found.append(Series("events", "cycles", events.cycles, "dataway cycles", "with those of auxiliary controllers"))
        found.append(Series("events", "missed", events.missed, "dataway cycles", "those with X = 0"))
    # Numbers of four bytes, which count modulo 2^32, take half of the time and memory.
    places = numpy.arange(len(events.words), dtype="u4")
    places -= numpy.repeat((events.first[:-1] - 1).astype("u4"), counts)
    of_words = [numpy.repeat(it, counts) for it in (numbers, events.gl)]
    found += [
        Series("events", "first", events.first[:-1].astype("i8") + row, "", "the row of its first word, from 0"),
        Series("events", "count", counts.astype("u2"), "", "how many words it has"),
        Series("words", "event", of_words[0], "", NUMBER),
        Series("words", "gl", of_words[1], "", GL),
        Series("words", "place", places.astype("u2"), "", "its place in the event, from 1"),
        Series("words", "word", events.words, "", "all 24 bits"),
    ]
    if about.sources.fields:
        found.append(Series("words", "source", sources_of(numpy, events, places, about.sources), "", SOURCE))
    return found + list(_named(numpy, events, about.words, {it.name for it in found if it.table == "words"}))


NUMBER = "the number of the event, from 1"
GL = "the bit of the graded-L pattern whose service made it"
SOURCE = "where it was read: a number in `sources`, and 0 if that is not fixed"


def sources_of(numpy: Any, events: EventArrays, places: Array, sources: Words) -> Array:
    """The number of the source of each word, whose places are given from 1, in a table of bits and places. A script gives each place of a service one, and
    others in events of one count alone."""
    always = numpy.zeros((GREATEST_GL + 1, GREATEST_COUNT + 1), "u2" if len(sources.fields) < 1 << 16 else "u4")
    counted, count_of = always.copy(), numpy.full(GREATEST_GL + 1, MISSING)
    for number, field in enumerate(sources.fields, 1):
        (always if field.count is None else counted)[field.gl, field.places[0] : field.places[1] + 1] = number
        if field.count is not None:
            count_of[field.gl] = field.count
    counts = numpy.diff(events.first)
    at = numpy.repeat(events.gl, counts) * numpy.uint32(GREATEST_COUNT + 1) + places
    found = always.take(at)
    if (count_of != MISSING).any():
        is_counted = numpy.repeat(counts == count_of[events.gl], counts)
        found[is_counted] = numpy.maximum(always, counted).take(at[is_counted])
    return found


def _named(numpy: Any, events: EventArrays, words: Words, taken: Set[str]) -> Iterator[Series]:
    """A column for each name of the file of words: whole numbers where each means itself, else fractions."""
    for title, fields in words.by_name().items():
        is_plain = all(it.is_plain for it in fields)
        values = numpy.full(len(events.words), MISSING, "i4") if is_plain else numpy.full(len(events.words), numpy.nan)
        for field in fields:
            at, numbers = words.values_of(field, events)
            values[at] = numbers if is_plain else field.value(numbers.astype("f8"))
        # A name that may be in a path of HDF5, and that no other column has.
        plain = "".join(it if it.isprintable() and it not in "/." else "_" for it in title)
        name = next(it for it in itertools.chain([plain], (f"{plain}_{number}" for number in itertools.count(2))) if it not in taken)
        taken.add(name)
        yield Series("words", name, values, fields[0].unit, f"{MISSING if is_plain else 'NaN'}: the word does not have it", title)


class Reading:
    """A file that is read in pieces of whole events. `fit` says whether they are of the script, `fault` is the first fault of the file."""

    def __init__(self, events: File, services: Sequence[Service]) -> None:
        self.events, self.fit = events, Fit(services)
        self.fault: Optional[EventFileFault] = None

    def pieces(self) -> Iterator[Events]:
        """Raises EventFileFault if it is no event file at all."""
        try:
            for events in event_pieces(self.events, Progress()):
                self.fit.take(groups(events, self.fit.count + 1))
                yield events
        except EventFileFault as fault:
            if fault.code == "V1":
                raise
            self.fault = fault

    def series(self, about: About) -> Iterator[List[Series]]:
        """The columns of each piece; there is one at least."""
        number, row = 1, 0
        for events in self.pieces():
            arrays = events if isinstance(events, EventArrays) else arrays_of(events, is_new(self.events))
            if len(arrays.gl) or number == 1:
                yield tables(arrays, about, number, row)
            number, row = number + len(arrays.gl), row + len(arrays.words)


def files_of(out: str) -> List[str]:
    """The files that an export writes."""
    root, ending = os.path.splitext(out)
    return [f"{root}.events.csv", f"{root}.words.csv", f"{root}.about.json"] if ending == ".csv" else [out]


def export(given: Given, out: str, may_replace: bool = False, program: Optional[File] = None) -> None:
    """Writes the events of a file as columns; the ending of `out` says how: .h5, .npz or .csv. Of the last there are three files, as
    run.events.csv, run.words.csv and run.about.json. What holds bytes is replaced only where `may_replace`.

    Raises EventFileFault at the first wrong field, behind the events before it; Refused, when all is written, if the events are not of the script or of
    the record beside them; FileExistsError if a file would be lost; ProgramFault if numpy or h5py is not there; and what `learn` raises."""
    files, rule = files_of(out), anything if may_replace else nothing
    for file in files:
        refuse_loss(file, rule)
    about = learn(given, program)
    with contextlib.ExitStack() as opened:
        outs = [opened.enter_context(bytes_output(it, rule)) for it in files]
        reading = Reading(given.events, about.services)
        ENDINGS[os.path.splitext(out)[1]](reading, about, outs)
        # No file takes its place before all are whole.
        for it in outs:
            it.flush()
    if reading.fault:
        raise reading.fault
    refuse(checks_of(reading.fit, about))


def checks_of(fit: Fit, about: About) -> List[Check]:
    """Whether events are of what is known of them."""
    return [Check(fit.text(), fit.is_good()), *record_checks(about.events_file, about.plan, about.script)]


def _write_csv(reading: Reading, about: About, outs: Sequence[BinaryIO]) -> None:
    from camac.export_csv import Table, write_events

    *to_tables, to_about = outs
    write_events(reading.pieces(), Table(is_new(reading.events), about.sources, about.words), *to_tables)
    units = {name: fields[0].unit for name, fields in about.words.by_name().items()}
    to_about.write((json.dumps({**about.value(), "units": units}, indent=1) + "\n").encode())


def _write_npz(reading: Reading, about: About, outs: Sequence[BinaryIO]) -> None:
    """As `numpy.savez` does; a column is kept in a file of its own until its length is known."""
    import shutil
    import tempfile
    import zipfile

    numpy = _needed("numpy")
    with contextlib.ExitStack() as opened, zipfile.ZipFile(outs[0], "w", allowZip64=True) as archive:
        files: Dict[str, Tuple[Any, Series]] = {}
        for series in reading.series(about):
            for column in series:
                name = f"{column.table}/{column.name}"
                if name not in files:
                    files[name] = opened.enter_context(tempfile.TemporaryFile()), column._replace(values=column.values[:0])
                files[name][0].write(column.values.tobytes())
        values = {**about.value(), "columns": {name: _about(it) for name, (_, it) in files.items()}, "sources": about.source_names()}
        with archive.open("about.npy", "w") as out:
            numpy.save(out, numpy.array(json.dumps(values)))
        for name, (file, column) in files.items():
            head = {"descr": column.values.dtype.str, "fortran_order": False, "shape": (file.tell() // column.values.dtype.itemsize,)}
            file.seek(0)
            with archive.open(f"{name}.npy", "w", force_zip64=True) as out:
                numpy.lib.format.write_array_header_1_0(out, head)
                shutil.copyfileobj(file, out, COPIED)


def _write_h5(reading: Reading, about: About, outs: Sequence[BinaryIO]) -> None:
    import shutil
    import tempfile

    h5py = _needed("h5py")
    with tempfile.TemporaryDirectory(prefix="camac-") as room:
        path = os.path.join(room, "export")
        with h5py.File(path, "w") as file:
            for series in reading.series(about):
                for it in series:
                    _append(file, it)
            file["sources"] = about.source_names()
            for name, values in about.value().items():
                if "sha256" in values:
                    texts = {name: values.get("text", values.get("base64")), f"{name}_name": values["name"], f"{name}_sha256": values["sha256"]}
                else:
                    texts = {name: values if isinstance(values, str) else json.dumps(values)}
                # A name of a file may hold bytes that are no text.
                file.attrs.update({name: text.encode("utf-8", "replace").decode() for name, text in texts.items()})
        with open(path, "rb") as made:
            shutil.copyfileobj(made, outs[0], COPIED)


def _append(file: Any, column: Series) -> None:
    """Adds values to a column of a file of HDF5."""
    name = f"{column.table}/{column.name}"
    if name not in file:
        data = file.create_dataset(name, (0,), column.values.dtype, maxshape=(None,), chunks=(CHUNK,), compression="gzip", compression_opts=1, shuffle=True)
        data.attrs.update(_about(column))
    data = file[name]
    before = len(data)
    data.resize((before + len(column.values),))
    data[before:] = column.values


def _about(column: Series) -> Dict[str, str]:
    return {"name": column.title or column.name, "unit": column.unit, "meaning": column.meaning}


def _needed(module: str) -> Any:
    try:
        return importlib.import_module(module)
    except ImportError:
        raise ProgramFault(f"{module} is not here (Debian's package python3-{module}); a .csv can be made without it", 3) from None


ENDINGS = {".h5": _write_h5, ".npz": _write_npz, ".csv": _write_csv}
