"""The command line.

Exit status: 0 all files accepted, 1 a file refused, 2 wrong use or input and output; 130 interrupted.
"""

from __future__ import annotations

import os
import sys

from .files import (
    FORM_NAMES,
    FORMS,
    KIND_NAMES,
    LIST_NAMES,
    MACHINE_NAMES,
    OUTPUT,
    PLATE_EXTENSIONS,
    PLATE_FORM,
    UNKNOWN,
    Found,
    Kind,
    Machine,
    Output,
    complain,
    files_in,
    find_kind,
    give,
    give_text,
    is_stream,
    other_format,
    printable,
    put,
    shown,
    take,
)
from .options import (
    ON_LISTS,
    ON_POSITIONS,
    SOURCES,
    TO_CHECK,
    TO_CONVERT,
    TO_ENCODE,
    TO_ENVI,
    TO_FILES,
    TO_FORM,
    TO_LIST_ANIMATIONS,
    TO_LIST_COLOURS,
    TO_LIST_LEVELS,
    TO_LIST_RECORDS,
    TO_MAKE_LEGEND,
    TO_READ_POND,
    TO_READ_PONDS,
    TO_RELEASE,
    TO_SET,
    TO_SHOW_COLOURS,
    TO_SHOW_PIXEL,
    TO_TALLY,
    Command,
    WrongUse,
    columns,
    command_help,
    parse,
)

PROGRAM = "kutimuq"
PLATE = "MacPaint plate"
SCAN = "GEM IMG scan"
SPECTRUM = "Spectrum 512 picture"
TITLES = {Kind.MAC: PLATE, Kind.IMG: SCAN, Kind.SPU: SPECTRUM, Kind.SPC: SPECTRUM}
DIGITS_MAX = 100  # of a number at the command line
ACCEPTED, REFUSED, WRONG, INTERRUPTED, PIPE_CLOSED, ENDED = 0, 1, 2, 130, 141, 143


def main(arguments: list[str] | None = None) -> int:
    """Runs a command and gives the exit status."""
    try:
        return run(sys.argv[1:] if arguments is None else arguments)
    except KeyboardInterrupt:
        return INTERRUPTED
    except BrokenPipeError:
        return PIPE_CLOSED
    except (OSError, WrongUse) as error:
        complain(error)
        return WRONG


def run(arguments: list[str]) -> int:
    """Runs the command that the first argument names, or the first two."""
    name = arguments[0] if arguments else ""
    if name == "--version":
        from . import __version__

        give_text(f"{PROGRAM} {__version__}\n")
        return ACCEPTED
    if name in ("-h", "--help"):
        give_text(help_text(COMMANDS))
        return ACCEPTED
    words = 1 if name in COMMANDS else 2
    name = " ".join(arguments[:words])
    if name not in COMMANDS:
        return help_on_group(arguments)
    command = COMMANDS[name]
    try:
        options = parse(PROGRAM, name, command, arguments[words:])
    except WrongUse as error:
        raise WrongUse(f"{error}: {PROGRAM} {name} --help tells more") from None
    if options.help:
        give_text(command_help(PROGRAM, name, command))
        return ACCEPTED
    return command.run(options)


def help_on_group(arguments: list[str]) -> int:
    """The help on the commands that begin with one word, where it is asked for; else what is wrong."""
    name = arguments[0] if arguments else ""
    group = {each: command for each, command in COMMANDS.items() if each.startswith(f"{name} ")}
    if group and arguments[1:2] in (["-h"], ["--help"]):
        give_text(help_text(group))
        return ACCEPTED
    if group:
        raise WrongUse(f"one of {', '.join(group)} is needed: {PROGRAM} {name} --help tells more")
    raise WrongUse((f"no command {name!r}" if name else "a COMMAND is needed") + f": {PROGRAM} --help tells more")


def help_text(commands: dict[str, Command]) -> str:
    """The help on these commands."""
    rows = columns([(name, command.about) for name, command in commands.items()])
    about = f"Reads, checks and writes Atari ST pictures and {PLATE}s; reads and checks {SCAN}s and {SPECTRUM}s."
    start = [f"usage: {PROGRAM} COMMAND [OPTION]... [FILE]...", "", about, ""]
    end = ["", f"{PROGRAM} COMMAND --help tells more, {PROGRAM} --version the version."]
    return "\n".join([*start, *rows, *end]) + "\n"


def end_in_order() -> None:
    """A request to end is followed like an interrupt, so that no half file is left."""
    import signal

    signal.signal(signal.SIGTERM, lambda *_: sys.exit(ENDED))


# Files in, results out.


def kind_of(options) -> int | None:
    """The number of the kind that is named, or None."""
    return None if options.kind is None else KIND_NAMES[options.kind]


def machine_of(options) -> Machine:
    """The machine that is named, an ST where none is."""
    return Machine.ST if options.machine is None else MACHINE_NAMES[options.machine]


def legend_at(path: str | None):
    """The legend in a file, or None if none is named."""
    if path is None:
        return None
    from .legend import BadText, read_legend

    try:
        return read_legend(path)
    except BadText as error:
        raise WrongUse(error) from None


def read_named(name: str, options):
    """What is in a file, after saying which kind it was found to be and what of it will be left out."""
    from .library import Refused
    from .pictures import read_any

    data = take(name)
    found = find_kind(data, name) if options.kind is None else Found(KIND_NAMES[options.kind], "option")
    said = [str(found)] if options.kind is None and found.kind else []
    try:
        picture = read_any(data, found.kind)
        said += left_out(data, picture, found.kind, getattr(options, "form", None))
        return picture
    except Refused as refusal:
        if found.kind == UNKNOWN:
            refusal.where = other_format(data, name)
        raise
    finally:
        if said and not options.quiet:
            complain(", ".join(said), name)


def left_out(data: bytes, picture, kind: int, form: str | None) -> list[str]:
    """What is said where a form is made from a NEOchrome file whose colours cycle: none has its colour animation."""
    if kind != Kind.NEO or form is None:
        return []
    from .neochrome_animation import cycling_lists, cycling_text

    years = cycling_lists(data, picture.resolution)
    return [f"{cycling_text(years)}: colour animation left out"] if years else []


def refuse(refusal, name: str) -> None:
    """Says that a file was refused."""
    from .library import RefusalNumber

    unknown = refusal.number == RefusalNumber.UNKNOWN_KIND and not refusal.where
    hint = ": neither content nor extension names a kind, --kind can" if unknown else ""
    complain(f"{refusal}{hint}", name)


def no_picture(title: str) -> str:
    """What is said where a plate, a scan or a Spectrum 512 picture stands for a picture with classes."""
    if title == SPECTRUM:
        return f"a {title} has no classes, no tail and no palette of 16: its registers change colour along a line"
    return f"a {title} has no registers, palette, tail or machine"


def none_of(titles: list[str]) -> str:
    """What is said where none of these was found."""
    return f"not a {titles[0]}" if len(titles) == 1 else f"neither a {' nor a '.join(titles)}"


def each(options, work, refused=None, plate=None, scan=None, spectrum=None) -> int:
    """Calls `work(name, picture)` for each picture, `plate(name, plate)` for each plate, `scan(name, scan)` for each
    scan, `spectrum(name, picture)` for each Spectrum 512 picture, and gives the exit status.

    What there is no function for is wrong use.
    """
    from .pictures import Img, Plate
    from .spectrum import Spectrum

    others = {Plate: (PLATE, plate), Img: (SCAN, scan), Spectrum: (SPECTRUM, spectrum)}

    def work_on(name):
        found = read_named(name, options)
        title, function = others.get(type(found), ("", work))
        if function is None:
            wanted = [said for said, given in others.values() if given]
            raise WrongUse(no_picture(title) if work else none_of(wanted))
        function(name, found)

    def say_refused(name, refusal):
        refuse(refusal, name)
        if refused is not None:
            refused(name, refusal)

    return each_file(options, work_on, say_refused)


def each_file(options, work, refused) -> int:
    """Calls `work(name)` for each file, `refused(name, refusal)` where that is refused, and gives the exit status.

    One bad file does not stop the others.
    """
    from .library import LibraryMissing, Refused

    status = ACCEPTED
    for name in options.operands:
        try:
            work(name)
        except Refused as refusal:
            refused(name, refusal)
            status = max(status, REFUSED)
        except (BrokenPipeError, LibraryMissing):
            raise
        except (OSError, WrongUse) as error:
            complain(error, name)
            status = WRONG
    return status


def tell(options, name: str, lines) -> None:
    """Lines on standard output, each after its file's name if there are several files."""
    start = f"{shown(name)}: " if len(options.operands) > 1 else ""
    give_text("".join(f"{start}{line}\n" for line in lines))


def destinations(options) -> dict[str, str]:
    """Where each file's result goes, in a folder without its extension; `-` is standard output."""
    end_in_order()
    if options.folder is None:
        if len(options.operands) > 1:
            raise WrongUse("several files need --folder for their results")
        return {options.operands[0]: options.output or "-"}
    if options.output is not None:
        raise WrongUse("either --output or --folder")
    os.makedirs(options.folder, exist_ok=True)
    found: dict[str, str] = {}
    for name in options.operands:
        path = os.path.join(options.folder, os.path.basename(name) if name != "-" else "input")
        if path in found:
            raise WrongUse(f"two results would be {shown(path)}")
        found[path] = name
    return {name: path for path, name in found.items()}


def send(options, place: str, extension: str, data: bytes) -> None:
    """A result to its place."""
    if place != "-":
        put(place + extension if options.folder is not None else place, data)
    elif os.isatty(OUTPUT):
        raise WrongUse("the result is no text for a terminal: name a file with -o")
    else:
        give(data)


def make_files(options, make, plate=None, scan=None, spectrum=None) -> int:
    """One result for each file: `make(picture)`, `plate(plate)`, `scan(scan)` and `spectrum(picture)` give its
    extension and its bytes.
    """
    places = destinations(options)

    def saving(function):
        return function and (lambda name, found: send(options, places[name], *function(found)))

    return each(options, saving(make), plate=saving(plate), scan=saving(scan), spectrum=saving(spectrum))


# The commands.


def summary(options) -> int:
    """`summary`: document 01's lines."""
    from .index import tally
    from .spectrum import count_colours

    def lines(name, picture):
        counts = " ".join(map(str, tally(picture.screen, picture.resolution)))
        facts = (f"resolution {picture.resolution}", f"records {picture.records}", f"body {picture.body}")
        tell(options, name, (*facts, f"tail {picture.tail_present:d}", f"tally {counts}"))

    def plate_lines(name, plate):
        white, black = plate.tally()
        tell(options, name, (f"records {plate.records}", f"body {plate.body}", f"white {white}", f"black {black}"))

    def scan_lines(name, scan):
        white, black = scan.tally()
        tell(options, name, (f"width {scan.width}", f"lines {scan.lines}", f"white {white}", f"black {black}"))

    def spectrum_lines(name, picture):
        words = picture.words()
        counts = [f"{machine.name.lower()}_colours {count_colours(words, machine)}" for machine in Machine]
        tell(options, name, (f"width {picture.width}", f"lines {picture.lines}", *counts))

    def line(name, refusal):
        # Document 01 gives the summary a line for a refusal, too.
        tell(options, name, [f"refused {refusal.number} at {refusal.place}"])

    return each(options, lines, line, plate_lines, scan_lines, spectrum_lines)


def palette(options) -> int:
    """`palette`: palette words and colours."""
    from .index import colours, has_ste_bits
    from .spectrum import have_ste_bits

    def lines(name, picture):
        if options.line is not None:
            raise WrongUse(f"--line is for {SPECTRUM}s: this one has one palette")
        shown_colours = colours(picture.resolution, picture.palette, machine_of(options))
        for register, palette_word in enumerate(picture.palette):
            parts = " ".join(map(str, shown_colours[register])) if register < len(shown_colours) else "-"
            tell(options, name, [f"register {register} word {palette_word:04x} colour {parts}"])
        hint_at_ste(options, name, has_ste_bits(picture.resolution, picture.palette))

    def spectrum_lines(name, picture):
        if options.line is None:
            raise WrongUse(f"a {SPECTRUM} has 48 palette words for each of lines 1 to 199: name one with --line")
        words = picture.palette(options.line)
        tell(options, name, [f"position {at} {word_text(word, options)}" for at, word in enumerate(words)])
        hint_at_ste(options, name, have_ste_bits(words))

    return each(options, lines, spectrum=spectrum_lines)


def word_text(palette_word: int, options) -> str:
    """A palette word and its colour on the machine that is named."""
    from .index import word_colours

    parts = " ".join(map(str, word_colours([palette_word], machine_of(options))[palette_word]))
    return f"word {palette_word:04x} colour {parts}"


def hint_at_ste(options, name: str, has_bits: bool) -> None:
    """Says that palette words may be an STE's where no machine is named."""
    from .index import STE_HINT

    if has_bits and options.machine is None and not options.quiet:
        complain(f"{STE_HINT}: --machine ste shows its colours", name)


def pixel(options) -> int:
    """`pixel`: what a pixel of Spectrum 512 pictures shows."""
    from .index import LOW_RESOLUTION
    from .pictures import line_out
    from .spectrum import have_ste_bits

    def line(name, picture):
        register = line_out(picture.screen, LOW_RESOLUTION, options.line)[options.column]
        at = picture.position(options.column, register)
        palette_word = picture.word(options.column, options.line)
        tell(options, name, [f"register {register} position {at} {word_text(palette_word, options)}"])
        hint_at_ste(options, name, have_ste_bits([palette_word]))

    return each(options, None, spectrum=line)


def position(options) -> int:
    """`position`: which of a scan line's 48 palette words is in force at a column for a register."""
    from .library import Refused
    from .spectrum import Spectrum

    column, register = map(whole_number, options.operands)
    try:
        give_text(f"position {Spectrum.position(column, register)}\n")
    except Refused as refusal:
        complain(refusal)
        return REFUSED
    return ACCEPTED


def whole_number(text: str) -> int:
    """A whole number from 0 on; the library judges how large it is."""
    if not (text.isascii() and text.isdigit() and len(text) <= DIGITS_MAX):
        raise WrongUse(f"a whole number from 0 on is needed, not {text!r}")
    return int(text)


def tail(options) -> int:
    """`tail`: the animation tail."""
    def lines(name, picture):
        tables = picture.tail._asdict().items()
        rows = [f"{title} {' '.join(map(str, table))}" for title, table in tables]
        tell(options, name, [f"tail {picture.tail_present:d}", *rows])

    return each(options, lines)


def png(options) -> int:
    """`png`: indexed PNG files, and truecolour ones of Spectrum 512 pictures."""
    from .images import bitmap_png_of, png_of, spectrum_png_of

    def of_bits(found):
        return ".png", bitmap_png_of(found)

    def of_spectrum(picture):
        return ".png", spectrum_png_of(picture, machine)

    machine = machine_of(options)
    return make_files(options, lambda picture: (".png", png_of(picture, machine)), of_bits, of_bits, of_spectrum)


def pbm(options) -> int:
    """`pbm`: PBM files of plates and scans."""
    from .images import bitmap_of

    def of_bits(found):
        return ".pbm", bitmap_of(found)

    return make_files(options, None, of_bits, of_bits)


def registers(options) -> int:
    """`registers`: PGM files."""
    from .images import greymap_of

    return make_files(options, lambda picture: (".pgm", greymap_of(picture)))


def colours_command(options) -> int:
    """`colours`: PPM files."""
    from .images import pixmap_of, spectrum_pixmap_of

    def of_spectrum(picture):
        return ".ppm", spectrum_pixmap_of(picture, machine)

    machine = machine_of(options)
    return make_files(options, lambda picture: (".ppm", pixmap_of(picture, machine)), spectrum=of_spectrum)


def envi(options) -> int:
    """`envi`: ENVI classifications."""
    from .images import envi_of

    entries = legend_at(options.legend)
    machine = machine_of(options)
    places = destinations(options)

    def save(name, picture):
        path = places[name] + ".img" if options.folder is not None else places[name]
        stem, extension = os.path.splitext(path)
        if path == "-" or extension.lower() == ".hdr":
            raise WrongUse("the registers need a file of their own beside the header: name it with -o")
        raw, header = envi_of(picture, entries, machine)
        with Output(path) as data_file, Output(stem + ".hdr") as header_file:
            data_file.write(raw)
            header_file.write(header)
            data_file.keep()
            header_file.keep()

    return each(options, save)


def convert(options) -> int:
    """`convert`: files in another form."""
    if options.form == PLATE_FORM:
        return make_files(options, None, plate_file)
    return make_files(options, lambda picture: picture_file(picture, FORM_NAMES[options.form]))


def picture_file(picture, form: int) -> tuple[str, bytes]:
    """The extension and the bytes of a picture in a form."""
    from .pictures import write

    return FORMS[form][picture.resolution], write(picture, picture.screen, form)


def plate_file(plate) -> tuple[str, bytes]:
    """The extension and the bytes of a plate."""
    from .pictures import write_plate

    return PLATE_EXTENSIONS[0], write_plate(plate.bitmap)


def elite(options) -> int:
    """`elite`: plain DEGAS files converted to DEGAS Elite."""
    from .pictures import to_elite

    return convert_box(options, to_elite)


def plain(options) -> int:
    """`plain`: DEGAS Elite files converted to plain DEGAS."""
    from .pictures import to_plain

    return convert_box(options, to_plain)


def convert_box(options, conversion) -> int:
    """Many DEGAS files converted, a line for each."""
    from .box import run_conversion

    end_in_order()
    return run_conversion(options, conversion)


def encode(options) -> int:
    """`encode`: pictures from images of registers, plates from black and white ones."""
    from .images import IMAGE_LIMIT, BadImage, read_image
    from .library import LibraryMissing, Refused

    try:
        make = plate_encoder(options) if options.form == PLATE_FORM else picture_encoder(options)
    except Refused as refusal:
        refuse(refusal, options.like)
        return REFUSED
    places = destinations(options)
    status = ACCEPTED
    for name in options.operands:
        try:
            send(options, places[name], *make(read_image(take(name, IMAGE_LIMIT + 1))))
        except (Refused, BadImage) as refusal:
            complain(refusal, name)
            status = max(status, REFUSED)
        except (BrokenPipeError, LibraryMissing):
            raise
        except (OSError, WrongUse) as error:
            complain(error, name)
            status = WRONG
    return status


def picture_encoder(options):
    """What makes an image a picture's file, with the palette, tail and machine that the options name."""
    from .images import picture_of
    from .pictures import Picture, read_any

    words, tables = options.palette, None
    if options.like is not None:
        data = take(options.like)
        kind = find_kind(data, options.like).kind
        model = read_any(data, kind)
        if not isinstance(model, Picture):
            raise WrongUse(f"{shown(options.like)}: {no_picture(TITLES[kind])}")
        for said in left_out(data, model, kind, options.form):
            complain(said, options.like)
        words = words or model.palette
        tables = model.tail if model.tail_present else None
    form = FORM_NAMES[options.form]
    return lambda image: picture_file(picture_of(image, words, tables, options.machine), form)


def plate_encoder(options):
    """What makes an image a plate's file."""
    from .images import plate_of

    if any(option is not None for option in (options.palette, options.like, options.machine)):
        raise WrongUse(no_picture(PLATE))
    return lambda image: plate_file(plate_of(image))


def on_screen(count, picture, area, what: str, *more):
    """What is counted in a rectangle; one outside the screen is the caller's mistake."""
    from .library import Refused
    from .pictures import shape

    try:
        return count(picture.screen, picture.resolution, area, *more)
    except Refused:
        # The screen was accepted and all other numbers are in range: it is the rectangle.
        width, height, _ = shape(picture.resolution)
        place = ",".join(map(str, area))
        raise WrongUse(f"{what} {place} is not on its screen of {width} x {height}") from None


def tally_command(options) -> int:
    """`tally`: the pixels of each register."""
    from .index import tally

    def line(name, picture):
        counts = on_screen(tally, picture, options.rectangle, "option --rectangle:")
        tell(options, name, [" ".join(["tally", *map(str, counts)])])

    return each(options, line)


def pond_command(options) -> int:
    """`pond`: one pond of each map."""
    from .index import pond
    from .legend import US

    question = (options.class_, options.floor, legend_at(options.legend), options.party or US)

    def lines(name, picture):
        reading = on_screen(pond, picture, options.rectangle, "option --rectangle:", *question)
        tell(options, name, [f"{title} {count}" for title, count in reading._asdict().items()])

    return each(options, lines)


def ponds_command(options) -> int:
    """`ponds`: a table of many ponds of many maps."""
    from .index import pond
    from .legend import OWNERS, US, BadText, read_questions

    end_in_order()
    party = options.party or OWNERS[US]
    legend = legend_at(options.legend)
    try:
        questions = read_questions(options.list, legend, party)
    except BadText as error:
        raise WrongUse(error) from None
    titles = legend.names(party)
    table = [tuple("map pond class class_name floor sure unsure other refused party".split())]

    def read_ponds(name, picture):
        for title, area, class_, floor in questions:
            what = f"{shown(options.list)}: pond {title!r}: rectangle"
            reading = on_screen(pond, picture, area, what, class_, floor, legend, party)
            table.append((name, title, class_, titles.get(class_, ""), floor, *reading, "", party))

    def refused(name, refusal):
        table.append((name, *[""] * 7, str(refusal), party))

    status = each(options, read_ponds, refused)
    if status == WRONG:
        raise WrongUse("no table is written")
    give_table(options.output, table)
    return status


def give_table(path: str | None, rows: list[tuple]) -> None:
    """Rows as CSV, to a file or standard output."""
    import csv
    import io

    text = io.StringIO(newline="")
    csv.writer(text, lineterminator="\n").writerows(rows)
    data = text.getvalue().encode("utf-8", "backslashreplace")
    if path is None:
        give(data)
    else:
        put(path, data)


def records_command(options) -> int:
    """`records`: the records of packed DEGAS files."""
    from .library import library
    from .record_list import COLUMNS, RecordList

    library()  # a missing library is said once, before any line
    if not options.json:
        give_table(None, [("name", *COLUMNS)])
    hints: dict[str, str] = {}

    def show(name):
        found = RecordList(take(name))
        if options.json:
            give_json({"name": name, **line} for line in found.objects(options.last))
        else:
            give_table(None, [(name, *row) for row in found.rows(options.last)])
        if found.refusal is not None:
            hints[name] = found.hint
            raise found.refusal

    def refused(name, refusal):
        complain(f"{refusal}{hints[name]}", name)

    return each_file(options, show, refused)


def animation_command(options) -> int:
    """`animation`: the colour animations of files that are named, and of the NEOchrome files in folders."""
    from .animation_table import COLUMNS, ListedAnimation
    from .library import library

    library()  # a missing library is said once, before any line
    named = set(options.operands)
    options.operands, listed = files_in(options.operands)
    years = list(LIST_NAMES) if options.list is None else [options.list]
    if not options.json:
        give_table(None, [("name", *COLUMNS)])

    def show(name):
        if name not in named and is_stream(name):
            raise OSError("not a file")
        data = take(name)
        if name not in named and find_kind(data, name).kind != Kind.NEO:
            return
        found = [ListedAnimation(data, year) for year in years]
        if options.json:
            give_json({"name": name, **one.json_object()} for one in found)
        else:
            give_table(None, [(name, *one.row()) for one in found])
        # One refusal is said of a file: where both lists are shown, that of 2008, which is also the one of reading it.
        if found[-1].refusal is not None:
            raise found[-1].refusal

    status = each_file(options, show, lambda name, refusal: complain(refusal, name))
    return status if listed else WRONG


def give_json(objects) -> None:
    """Objects as lines of JSON to standard output."""
    import json

    give_text("".join(json.dumps(one) + "\n" for one in objects))


def legend_new(options) -> int:
    """`legend new`: a legend with all entries free."""
    from .legend import Legend, legend_file

    end_in_order()
    give_legend(options.output, legend_file(Legend()))
    return ACCEPTED


def legend_show(options) -> int:
    """`legend show`: a table of the entries."""
    from .legend import FREE, OWNERS

    rows = [("register", "owner", "class", "confidence", "name")]
    for register, (class_, confidence, owner, name) in enumerate(legend_at(options.operands[0])):
        numbers = ("-", "-") if owner == OWNERS[FREE] else (class_, confidence)
        rows.append((register, owner, *numbers, printable(name)))
    give_text("".join("{:>8}  {:5}  {:>5}  {:>10}  {}".format(*row).rstrip() + "\n" for row in rows))
    return ACCEPTED


def legend_set(options) -> int:
    """`legend set`: a free entry, or the party's own, set."""
    entry = (options.register, options.class_, options.confidence, options.party, options.name)
    return changed_legend(options, lambda legend: legend.set(*entry))


def legend_release(options) -> int:
    """`legend release`: the party's own entry freed."""
    return changed_legend(options, lambda legend: legend.release(options.register, options.party))


def changed_legend(options, change) -> int:
    """A legend after `change(legend)`, in its own file or elsewhere; after a refusal everything is as it was."""
    from .legend import BadText, change_legend, legend_file, legend_in, text_of
    from .library import Refused

    end_in_order()
    path = options.operands[0]
    try:
        if options.output is not None and is_same_file(path, options.output):
            with change_legend(options.output) as legend:
                change(legend)
            return ACCEPTED
        text = text_of(path)
        legend = legend_in(text, path)
        change(legend)
        give_legend(options.output, legend_file(legend, text))
    except Refused as refusal:
        complain(refusal, path)
        return REFUSED
    except BadText as error:
        raise WrongUse(error) from None
    return ACCEPTED


def is_same_file(path: str, output: str) -> bool:
    """Whether an output's path is that of a file that is read."""
    return path != "-" and os.path.exists(output) and not is_stream(output) and os.path.samefile(path, output)


def give_legend(path: str | None, file: bytes) -> None:
    """A legend to standard output or a new file: another one that stands there is not this command's to replace."""
    if path in (None, "-"):
        give(file)
    else:
        put(path, file, new=not is_stream(path))


def levels_command(options) -> int:
    """`levels`: the table of a machine's colour levels."""
    from .index import levels

    rows = levels(machine_of(options))
    digits = (len(rows) - 1).bit_length()
    give_text("level  bits   red  green  blue  shown\n")
    for level, (red, green, blue), shown_value in rows:
        bits = f"{blue:0{digits}b}"
        give_text(f"{level:5}  {bits:>4}  {red:04x}   {green:04x}  {blue:04x}  {shown_value:5}\n")
    return ACCEPTED


def check(options) -> int:
    """`check`: a box of files."""
    if options.resume and options.json is None:
        raise WrongUse("--resume needs the --json that the interrupted run had")
    from .box import run

    end_in_order()
    options.kind = kind_of(options)
    options.machine = machine_of(options)
    return run(options, legend_at(options.legend))


COMMANDS = {
    "check": Command(check, "judge all files of a box: lines, JSON, CSV, a report page", "FOLDER+", TO_CHECK),
    "summary": Command(
        summary,
        "resolution, counts, tail and tally, as text; of a plate counts and tally, of a scan size and tally, of a "
        f"{SPECTRUM} size and colours",
        "FILE",
        SOURCES,
    ),
    "palette": Command(
        palette, f"the 16 palette words and their colours; of a {SPECTRUM} the 48 of a line", "FILE", TO_LIST_COLOURS
    ),
    "pixel": Command(
        pixel, f"register, position, palette word and colour of a pixel of a {SPECTRUM}", "FILE", TO_SHOW_PIXEL
    ),
    "position": Command(
        position,
        f"which of the 48 palette words of a line of a {SPECTRUM} is in force, from 0",
        "COLUMN REGISTER",
        (),
        ON_POSITIONS,
    ),
    "tail": Command(tail, "the animation tail's tables", "FILE", SOURCES),
    "png": Command(
        png,
        "an indexed PNG whose pixel values are the registers, or a plate's or scan's bits; a truecolour PNG of a "
        f"{SPECTRUM}",
        "FILE",
        TO_SHOW_COLOURS,
    ),
    "pbm": Command(pbm, f"a PBM of a {PLATE} or a {SCAN}", "FILE", TO_FILES),
    "envi": Command(envi, "an ENVI classification: registers, class names and colours", "FILE", TO_ENVI),
    "registers": Command(registers, "a PGM with one register a byte", "FILE", TO_FILES),
    "colours": Command(
        colours_command, "a PPM with colours alone: never turn one back into classes", "FILE", TO_SHOW_COLOURS
    ),
    "convert": Command(convert, "the picture in another form, or the plate with its least body", "FILE", TO_FORM),
    "elite": Command(elite, "plain DEGAS files as DEGAS Elite, packed where a packed body exists", "FILE+", TO_CONVERT),
    "plain": Command(plain, "DEGAS Elite files with a tail of zeros as plain DEGAS", "FILE+", TO_CONVERT),
    "encode": Command(
        encode, "a picture from an indexed PNG or a PGM of registers, a plate from a PBM", "IMAGE", TO_ENCODE
    ),
    "tally": Command(tally_command, "the pixels of each register", "FILE", TO_TALLY),
    "pond": Command(pond_command, "the sure, unsure and other pixels of a class", "FILE", TO_READ_POND),
    "ponds": Command(ponds_command, "many ponds of many maps, as CSV", "MAP", TO_READ_PONDS),
    "records": Command(
        records_command,
        "the records of packed DEGAS files up to the end or the fault, as CSV with a heading",
        "FILE",
        TO_LIST_RECORDS,
    ),
    "animation": Command(
        animation_command,
        "the colour animation of NEOchrome files by the lists of 1989 and 2008, as CSV with a heading",
        "FILE",
        TO_LIST_ANIMATIONS,
        ON_LISTS,
    ),
    "legend new": Command(legend_new, "a new legend: all 16 entries free", None, TO_MAKE_LEGEND),
    "legend show": Command(legend_show, "the entries of a legend, with their owners", "FILE?", ()),
    "legend set": Command(legend_set, "the legend with a free entry, or the party's own, set", "FILE?", TO_SET),
    "legend release": Command(legend_release, "the legend with the party's own entry freed", "FILE?", TO_RELEASE),
    "levels": Command(
        levels_command, "the colour levels of a machine, their bits and the values shown", None, TO_LIST_LEVELS
    ),
}
