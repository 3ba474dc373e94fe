"""A box of files, a line and a record for each.

Files are judged, hashed and listed, with duplicates found and an interrupted run taken up again; or DEGAS files are
converted, plain to Elite or back.
"""

from __future__ import annotations

import json
import os
import stat
import sys
import time
from contextlib import ExitStack
from errno import EEXIST
from hashlib import sha256

from .files import (
    ERROR,
    FORMS,
    KINDS,
    NOT_DEGAS,
    UNKNOWN,
    Form,
    Found,
    ImgHeader,
    Kind,
    Machine,
    Output,
    complain,
    decision,
    degas_form,
    degas_resolution,
    files_in,
    find_kind,
    give_text,
    img_header,
    is_stream,
    kind_titled,
    other_format,
    put,
    shown,
    take,
    title_of,
)
from .library import RefusalNumber, Refused, good_part, library, meaning_of
from .neochrome_animation import cycling_lists, cycling_text
from .pictures import Img, Picture, Plate, read_any, write, write_plate
from .spectrum import Spectrum, big_endian, count_colours, have_ste_bits

# What a record holds, in the order of the CSV file. A record is a dict, so that it can be a line of JSON.
COLUMNS = (
    "name",
    "bytes",
    "kind",
    "kind_by",
    "resolution",
    "tail_present",
    "records",
    "body",
    "number",
    "place",
    "meaning",
    "plane_row",
    "good_bytes",
    "form",
    "sha256",
    "same_as",
    "error",
    "cycling_lists",
    "width",
    "lines",
    "where",
    "st_colours",
    "ste_colours",
)
# The same for a file to convert: result, form, length, records and body are of the file that was written.
CONVERTED_COLUMNS = (
    "name",
    "bytes",
    "kind",
    "kind_by",
    "resolution",
    "number",
    "place",
    "meaning",
    "plane_row",
    "good_bytes",
    "result",
    "form",
    "length",
    "records",
    "body",
    "error",
)
KEPT = (*COLUMNS, "modified")  # what every record has, so that an interrupted run can be taken up
CHUNK = 32  # files handed to a process at once
FEW = 200  # files that one process is quicker with
BAR = 30  # characters of the progress bar
ACCEPTED_FIELDS = {"number": 0, "place": 0, "meaning": meaning_of(RefusalNumber.ACCEPTED)}
ONE_EXTENSION = "plain and raw Elite files have the same extension: -o puts them apart"


def judge(name: str, kind: int | None = None) -> dict:
    """The record of one file."""
    record, data, kind = opened(name, kind, COLUMNS)
    if record["error"] is not None:
        return record
    try:
        picture = read_any(data, kind)
    except Refused as refusal:
        record.update(refused_fields(refusal, data, kind))
        record["where"] = (other_format(data, name) if kind == UNKNOWN else refusal.where) or None
        return record
    record.update(accepted_fields(picture))
    if kind == Kind.NEO:
        record["cycling_lists"] = cycling_lists(data, record["resolution"])
    return record


def opened(name: str, kind: int | None, columns: tuple[str, ...]) -> tuple[dict, bytes, int]:
    """A file's record with what is known before it is judged, its bytes, and the kind that is given or found."""
    record = dict.fromkeys((*columns, "modified"))
    record["name"] = name
    try:
        status = os.stat(name)
        if stat.S_ISFIFO(status.st_mode) or stat.S_ISSOCK(status.st_mode):
            raise OSError("not a file")
        record.update(bytes=status.st_size, modified=status.st_mtime_ns)
        data = take(name)
    except OSError as error:
        record["error"] = error.strerror or str(error)
        return record, b"", UNKNOWN
    found = Found(kind, "option") if kind is not None else find_kind(data, name)
    record.update(kind=title_of(found.kind), kind_by=found.by)
    return record, data, found.kind


def refused_fields(refusal: Refused, data: bytes, kind: int) -> dict:
    """What a record says about a refused file."""
    fields = {
        # A DEGAS file that is refused in a plane row is a packed one of a known resolution.
        "resolution": degas_resolution(data) if refusal.in_row and kind == Kind.DEGAS else None,
        "number": refusal.number,
        "place": refusal.place,
        "meaning": refusal.meaning,
        "plane_row": refusal.plane_row if refusal.in_row else None,
        "good_bytes": refusal.good_bytes if refusal.in_row else None,
    }
    header = img_header(data) if refusal.number == RefusalNumber.OUTSIDE_PROFILE else None
    if header is not None and header.is_likely:
        fields["header"] = list(header)
    return fields


def accepted_fields(picture: Picture | Plate | Img | Spectrum) -> dict:
    """What a record says about an accepted file."""
    form, file = least_rewriting(picture)
    fields = {
        **ACCEPTED_FIELDS,
        "form": None if form is None else int(form),
        "sha256": sha256(file).hexdigest(),
    }
    if isinstance(picture, (Img, Spectrum)):
        fields["width"] = picture.width
        fields["lines"] = picture.lines
    if isinstance(picture, Spectrum):
        return {**fields, **colour_fields(picture)}
    if isinstance(picture, (Picture, Plate)):
        fields["records"] = picture.records
        fields["body"] = picture.body
    if isinstance(picture, Picture):
        fields["resolution"] = picture.resolution
        fields["tail_present"] = picture.tail_present
        fields["palette"] = list(picture.palette)
    fields["tally"] = list(picture.tally())
    return fields


def colour_fields(picture: Spectrum) -> dict:
    """How many colours a Spectrum 512 picture shows on each machine, and whether a shown word has STE bits."""
    words = picture.words()
    return {
        "st_colours": count_colours(words, Machine.ST),
        "ste_colours": count_colours(words, Machine.STE),
        "ste_bits": have_ste_bits(words),
    }


def least_rewriting(picture: Picture | Plate | Img | Spectrum) -> tuple[Form | None, bytes]:
    """The picture's packed form, or the raw Elite form where no packed one exists; a plate has no numbered form.

    Pictures of equal resolution, palette, tail words and screen have equal ones, and only they; so do plates of equal
    bitmaps. A plate that was read always has one. For a scan, which is never written, its PBM stands: scans of equal
    width, lines and pixels have equal ones. For a Spectrum 512 picture, which is never written either, the palette
    words that its pixels show stand, big-endian: those whose pixels show equal words have equal ones.
    """
    if isinstance(picture, Spectrum):
        return None, big_endian(picture.words())
    if isinstance(picture, Img):
        return None, picture.pbm()
    if isinstance(picture, Plate):
        return None, write_plate(picture.bitmap)
    try:
        return Form.PACKED, write(picture, picture.screen, Form.PACKED)
    except Refused as refusal:
        if refusal.number != RefusalNumber.NO_PACKED_BODY:
            raise
        return Form.ELITE, write(picture, picture.screen, Form.ELITE)


def judge_all(names: list[str], kind: int | None, jobs: int):
    """The records of files, in order, by several processes where there are many files."""
    yield from spread_over(judge, [(name, kind) for name in names], jobs)


def spread_over(function, arguments: list[tuple], jobs: int):
    """A function's results for each tuple of arguments, in order, by so many processes."""
    if jobs < 2 or len(arguments) < FEW:
        for each in arguments:
            yield function(*each)
        return
    import signal
    from concurrent.futures import ProcessPoolExecutor
    from concurrent.futures.process import BrokenProcessPool

    workers = ProcessPoolExecutor(jobs, initializer=end_at_once)
    try:
        # The processes start with interrupts held back, and leave them so: these are for the parent alone.
        mask = signal.pthread_sigmask(signal.SIG_BLOCK, {signal.SIGINT})
        try:
            results = workers.map(function, *zip(*arguments), chunksize=CHUNK)
        finally:
            signal.pthread_sigmask(signal.SIG_SETMASK, mask)
        yield from results
    except BrokenProcessPool:
        raise OSError("one of the processes was ended from outside") from None
    finally:
        workers.shutdown(cancel_futures=True)


def end_at_once() -> None:
    """A worker has nothing to put in order when it is told to end."""
    import signal

    signal.signal(signal.SIGTERM, signal.SIG_DFL)


class Journal:
    """The records of a run under way, as JSON lines beside the place where they will be kept."""

    def __init__(self, path: str, resume: bool):
        self.path = path + ".part"
        self.known: dict[str, dict] = {}
        if not resume and os.path.exists(self.path):
            raise OSError(EEXIST, "left by an interrupted run: take it up with --resume, or remove it", self.path)
        good = self.load() if resume else 0
        self.file = open(self.path, "r+b" if good else "wb")
        self.file.truncate(good)
        self.file.seek(good)

    def load(self) -> int:
        """Takes up the whole lines of an earlier run; gives their length."""
        good = 0
        try:
            with open(self.path, "rb") as file:
                for line in file:
                    record = json.loads(line) if line.endswith(b"\n") else None
                    if not isinstance(record, dict) or not record.keys() >= set(KEPT):
                        break
                    self.known[record["name"]] = record
                    good += len(line)
        except (FileNotFoundError, ValueError):
            pass
        return good

    def recall(self, name: str, kind: int | None) -> dict | None:
        """A file's record, if it was judged in the same way and has not changed since."""
        record = self.known.get(name)
        if record is None or record["error"] is not None:
            return None
        try:
            status = os.stat(name)
        except OSError:
            return None
        same_file = (record["bytes"], record["modified"]) == (status.st_size, status.st_mtime_ns)
        same_kind = (record["kind_by"] == "option") == (kind is not None)
        return record if same_file and same_kind and kind in (None, kind_titled(record["kind"])) else None

    def add(self, record: dict) -> None:
        self.file.write(json_line(record))
        self.file.flush()

    def remove(self) -> None:
        """The run is over and its records are kept elsewhere."""
        self.file.close()
        os.unlink(self.path)


def json_line(record: dict) -> bytes:
    return json.dumps(record).encode("ascii") + b"\n"


class Check:
    """One run over a box."""

    def __init__(self, names: list[str], kind: int | None = None, jobs: int = 1, journal: Journal | None = None):
        self.names = names
        self.kind = kind
        self.jobs = jobs
        self.journal = journal
        self.records: list[dict] = []
        self.first_of: dict[str, str] = {}

    def run(self):
        """Judges every file and gives its record, in order."""
        recalled = {}
        if self.journal is not None:
            recalled = {name: self.journal.recall(name, self.kind) for name in self.names}
        new = judge_all([name for name in self.names if not recalled.get(name)], self.kind, self.jobs)
        for name in self.names:
            record = recalled.get(name) or self.judged(new)
            self.mark_duplicate(record)
            self.records.append(record)
            yield record

    def judged(self, new) -> dict:
        record = next(new)
        if self.journal is not None:
            self.journal.add(record)
        return record

    def mark_duplicate(self, record: dict) -> None:
        """Names the first file of the same picture."""
        digest = record["sha256"]
        first = self.first_of.setdefault(digest, record["name"]) if digest else None
        record["same_as"] = first if first != record["name"] else None

    def counts(self) -> tuple[int, int, int]:
        """How many files are accepted, refused and not read."""
        accepted = sum(record["number"] == 0 for record in self.records)
        unread = sum(record["error"] is not None for record in self.records)
        return accepted, len(self.records) - accepted - unread, unread


def line_of(record: dict) -> str:
    """The record of a judged file as a line for people."""
    if record["number"] != RefusalNumber.ACCEPTED:
        return bad_line(record)
    line = f"{shown(record['name'])}: accepted: {decision(record['kind'], record['kind_by'])}"
    if record["resolution"] is not None:
        line += f", resolution {record['resolution']}"
    if record["width"] is not None:
        line += f", {record['width']} x {record['lines']}"
    if record["st_colours"] is not None:
        line += f", {colours_text(record)}"
    if record["records"]:
        line += f", {record['records']} records, body {record['body']}"
    if record["cycling_lists"]:
        line += f", {cycling_text(record['cycling_lists'])}"
    if record["same_as"] is not None:
        line += f", same picture as {shown(record['same_as'])}"
    return line


def colours_text(record: dict) -> str:
    """How many colours a Spectrum 512 picture shows, on each machine where they differ."""
    st_colours, ste_colours = record["st_colours"], record["ste_colours"]
    said = f"{st_colours} colour{'s' if st_colours != 1 else ''}"
    return said if st_colours == ste_colours else f"{said} on an ST, {ste_colours} on an STE"


def bad_line(record: dict, meaning: str | None = None) -> str:
    """The line of a file that was not read or was refused, with the refusal's meaning or other words for it."""
    name = shown(record["name"])
    if record["error"] is not None:
        return f"{name}: not read: {record['error']}"
    meaning = meaning or record["meaning"]
    facts = [decision(record["kind"], record["kind_by"])]
    if record["plane_row"] is not None:
        facts.insert(0, good_part(record["plane_row"], record["good_bytes"]))
    elif record["number"] == RefusalNumber.UNKNOWN_KIND and kind_titled(record["kind"]) == Kind.DEGAS:
        facts.insert(0, "packed or with a tail")  # where a plain file is needed
    elif "header" in record:
        facts.insert(0, str(ImgHeader(*record["header"])))
    elif record.get("where"):
        facts.insert(0, record["where"])
    return f"{name}: refused {record['number']} at {record['place']}: {meaning} ({'; '.join(facts)})"


def write_json(output: Output, records: list[dict]) -> None:
    """The records as JSON lines."""
    for record in records:
        output.write(json_line(record))


def write_csv(output: Output, records: list[dict], columns: tuple[str, ...] = COLUMNS) -> None:
    """The records as CSV, UTF-8, with a header."""
    import csv
    import io

    text = io.StringIO(newline="")
    table = csv.writer(text, lineterminator="\n")
    table.writerow(columns)
    table.writerows([csv_cell(record[key]) for key in columns] for record in records)
    output.write(text.getvalue().encode("utf-8", "backslashreplace"))


def csv_cell(value):
    """A value of a record in CSV: truth as 0 or 1, the members of a list with a blank between."""
    if isinstance(value, list):
        return " ".join(map(str, value))
    return int(value) if isinstance(value, bool) else value


class Progress:
    """A bar on standard error where that is a terminal."""

    def __init__(self, total: int):
        self.total = total
        self.done = 0
        self.next_time = 0.0
        self.visible = total > 0 and sys.stderr is not None and sys.stderr.isatty()

    def clear(self) -> None:
        if self.visible:
            give_text("\r\x1b[K", ERROR)

    def step(self) -> None:
        """One more file is done."""
        self.done += 1
        now = time.monotonic()
        if self.visible and (now >= self.next_time or self.done == self.total):
            self.next_time = now + 0.1
            filled = BAR * self.done // self.total
            give_text(f"\r[{'#' * filled}{'.' * (BAR - filled)}] {self.done} of {self.total}", ERROR)


def run(options, legend) -> int:
    """The command `check`; gives the exit status."""
    library()  # a missing library is said once, before any file
    names, listed = files_in(options.operands)
    names = without_own(names, options)
    jobs = options.jobs or len(os.sched_getaffinity(0))
    with ExitStack() as stack:
        paths = [path for path in (options.csv, options.report) if path is not None]
        outputs = {path: stack.enter_context(Output(path)) for path in paths}
        journal = None
        if options.json is not None and not is_stream(options.json):
            journal = Journal(options.json, options.resume)
            stack.callback(journal.file.close)
        check = Check(names, options.kind, jobs, journal)
        show_all(check)
        keep_results(check, options, legend, outputs, jobs)
    accepted, refused, unread = check.counts()
    if unread:
        complain(f"{unread} not read")
    give_text(f"{accepted} accepted, {refused} refused\n")
    if unread or not listed:
        return 2
    return 1 if refused else 0


def without_own(names: list[str], options) -> list[str]:
    """The files less those that this run writes itself."""
    own = [path for path in (options.json, options.csv, options.report) if path is not None]
    if options.json is not None:
        own.append(options.json + ".part")
    resolved = {os.path.realpath(path) for path in own}
    return [name for name in names if not resolved or os.path.realpath(name) not in resolved]


def show_all(check: Check) -> None:
    """Judges every file and prints its line."""
    progress = Progress(len(check.names))
    try:
        for record in check.run():
            progress.clear()
            give_text(line_of(record) + "\n")
            progress.step()
        progress.clear()
    except KeyboardInterrupt:
        progress.clear()
        hint = ": --resume goes on from there" if check.journal is not None else ""
        complain(f"interrupted after {len(check.records)} of {len(check.names)} files{hint}")
        raise


def keep_results(check: Check, options, legend, outputs: dict[str, Output], jobs: int) -> None:
    """Writes the files that were asked for."""
    if options.report is not None:
        from .report import page

        outputs[options.report].write(page(check, options.operands, legend, options.machine, jobs))
        outputs[options.report].keep()
    if options.csv is not None:
        write_csv(outputs[options.csv], check.records)
        outputs[options.csv].keep()
    if options.json is not None:
        with Output(options.json) as output:
            write_json(output, check.records)
            output.keep()
    if check.journal is not None:
        check.journal.remove()


# DEGAS files converted.


def to_convert(paths, folder: str | None) -> tuple[dict[str, str], bool]:
    """The files in folders and below, each with the folder of its result; and whether everything could be listed."""
    found: dict[str, str] = {}
    all_listed = True
    for path in paths:
        names, listed = files_in([path])
        all_listed = all_listed and listed
        for name in names:
            found.setdefault(name, result_folder(name, path, folder))
    return found, all_listed


def result_folder(name: str, path: str, folder: str | None) -> str:
    """The file's own folder, or, in the one for results, as far below as the file is below the path that was named."""
    own = os.path.dirname(name)
    if folder is None:
        return own
    below = os.path.relpath(own, path) if name != path else os.curdir
    return folder if below == os.curdir else os.path.join(folder, below)


def convert(name: str, folder: str, conversion) -> dict:
    """Converts one file into a folder and gives its record; the conversion is to_elite or to_plain.

    The conversion judges every file; the kind that the content shows is only told.
    """
    record, data, _ = opened(name, None, CONVERTED_COLUMNS)
    if record["error"] is not None:
        return record
    try:
        file = conversion(data)
    except Refused as refusal:
        record.update(refused_fields(refusal, data, Kind.DEGAS))
        return record
    form, resolution = degas_form(file), degas_resolution(file)
    result = os.path.join(folder, result_name(name, FORMS[form][resolution]))
    record.update(ACCEPTED_FIELDS)
    try:
        os.makedirs(folder or os.curdir, exist_ok=True)
        put(result, file, new=True)
    except OSError as error:
        hint = f" ({ONE_EXTENSION})" if result == name else ""
        record["error"] = f"{shown(result)}: {error.strerror or error}{hint}"
        return record
    record.update(resolution=resolution, result=result, form=int(form), length=len(file))
    record.update(records=file.records, body=file.body)
    return record


def result_name(name: str, extension: str) -> str:
    """The name of a file's result, with this extension in place of another of DEGAS.

    It is in the case of the one that it replaces, or of the whole name where there is none to replace.
    """
    base = os.path.basename(name)
    stem, old = os.path.splitext(base)
    if old.lower() not in KINDS[Kind.DEGAS].extensions:
        stem, old = base, ""
    return stem + (extension.upper() if (old or stem).isupper() else extension)


def converted_line(record: dict) -> str:
    """The record of a converted file as a line for people."""
    if record["number"] != RefusalNumber.ACCEPTED:
        other = record["kind_by"] == "content" and kind_titled(record["kind"]) != Kind.DEGAS
        return bad_line(record, NOT_DEGAS if other else None)
    name = shown(record["name"])
    if record["error"] is not None:
        return f"{name}: not written: {record['error']}"
    form = Form(record["form"]).name.lower()
    line = f"{name}: written: {shown(record['result'])}, {form}, {record['length']} bytes"
    if record["records"]:
        line += f", {record['records']} records, body {record['body']}"
    return line


def run_conversion(options, conversion) -> int:
    """The commands `elite` and `plain`; gives the exit status."""
    library()  # a missing library is said once, before any file
    folders, listed = to_convert(options.operands, options.folder)
    if options.folder is not None:
        os.makedirs(options.folder, exist_ok=True)
    records = []
    with ExitStack() as stack:
        paths = [path for path in (options.json, options.csv) if path is not None]
        outputs = {path: stack.enter_context(Output(path, new=not is_stream(path))) for path in paths}
        for name, folder in folders.items():
            records.append(convert(name, folder, conversion))
            give_text(converted_line(records[-1]) + "\n")
        if options.json is not None:
            write_json(outputs[options.json], records)
        if options.csv is not None:
            write_csv(outputs[options.csv], records, CONVERTED_COLUMNS)
        for output in outputs.values():
            output.keep()
    failed = sum(record["error"] is not None for record in records)
    refused = sum(bool(record["number"]) for record in records)
    if failed:
        complain(f"{failed} not read or not written")
    give_text(f"{len(records) - failed - refused} written, {refused} refused\n")
    if failed or not listed:
        return 2
    return 1 if refused else 0
