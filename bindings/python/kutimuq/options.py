"""Command line options: a small parser, since importing argparse takes longer than all else, and each command's."""

from __future__ import annotations

from collections import namedtuple
from keyword import iskeyword
from types import SimpleNamespace

from .files import FORM_NAMES, KIND_NAMES, LIST_NAMES, MACHINE_NAMES, PLATE_FORM


class WrongUse(Exception):
    """The caller's arguments cannot be followed."""


class Option(namedtuple("Option", "names metavar about parse required", defaults=(None, None, False))):
    """An option: its names (the last is the attribute's), what stands for its value (None for a flag), help.

    `parse(text)` gives the value, or raises ValueError.
    """

    __slots__ = ()

    @property
    def attribute(self) -> str:
        """Where the value is found; None, or False for a flag, if the option is not given."""
        name = self.names[-1].lstrip("-")
        return name + "_" if iskeyword(name) else name

    @property
    def shown(self) -> str:
        return ", ".join(self.names) + (f" {self.metavar}" if self.metavar else "")


class Command(namedtuple("Command", "run about operands options notes", defaults=((),))):
    """A command: its function, help, the name of its operands (None if it has none), options, more lines of help.

    Operands default to standard input, unless their name is marked with a `+`: then one is needed. With a `?` there is
    one at most. Several names stand for just these operands.
    """

    __slots__ = ()

    @property
    def operand(self) -> str:
        """The operands' name without a mark."""
        return (self.operands or "").rstrip("+?")

    @property
    def needed_operands(self) -> list[str]:
        """The names of the operands where there are just so many."""
        names = (self.operands or "").split()
        return names if len(names) > 1 else []

    @property
    def reads_input(self) -> bool:
        """Whether standard input is read where no operand is given."""
        return self.operands is not None and not self.operands.endswith("+") and not self.needed_operands


def parse(program: str, name: str, command: Command, arguments: list[str]) -> SimpleNamespace:
    """The options and operands in a command's arguments."""
    found = SimpleNamespace(operands=[], help=False)
    by_name = {each: option for option in command.options for each in option.names}
    for option in command.options:
        setattr(found, option.attribute, None if option.metavar else False)
    rest = iter(arguments)
    for argument in rest:
        if argument == "--":
            found.operands += rest
        elif argument in ("-h", "--help"):
            found.help = True
            return found
        elif argument.startswith("-") and argument != "-":
            take_option(found, by_name, argument, rest)
        else:
            found.operands.append(argument)
    check_operands(found, command)
    for option in command.options:
        if option.required and getattr(found, option.attribute) is None:
            raise WrongUse(f"{program} {name} needs {option.shown}")
    return found


def take_option(found: SimpleNamespace, by_name: dict[str, Option], argument: str, rest) -> None:
    """One option, with its value from the same argument or the next."""
    if argument.startswith("--"):
        name, equals, after = argument.partition("=")
        attached = after if equals else None
    else:
        name, attached = argument[:2], argument[2:] or None
    option = by_name.get(name)
    if option is None:
        raise WrongUse(f"unknown option {argument!r}")
    if option.metavar is None:
        if attached is not None:
            raise WrongUse(f"option {name} takes no value")
        setattr(found, option.attribute, True)
        return
    value = attached
    if value is None:
        value = next(rest, None)
    if value is None:
        raise WrongUse(f"option {name} needs a value")
    try:
        setattr(found, option.attribute, option.parse(value) if option.parse else value)
    except ValueError as error:
        raise WrongUse(f"option {name}: {error}") from None


def check_operands(found: SimpleNamespace, command: Command) -> None:
    """Standard input where no file is named; no operands where none are taken; just those that are needed."""
    most = most_operands(found, command)
    if len(found.operands) > most:
        raise WrongUse(f"{found.operands[most]!r} is too much")
    if len(found.operands) < len(command.needed_operands):
        raise WrongUse(f"a {command.needed_operands[len(found.operands)]} is needed")
    if command.operands is None or found.operands:
        return
    if command.operands.endswith("+"):
        raise WrongUse(f"a {command.operand} is needed")
    found.operands = ["-"]


def most_operands(found: SimpleNamespace, command: Command) -> int:
    """The most operands that a command takes; those that are found where any number will do."""
    if command.operands is None:
        return 0
    if command.needed_operands:
        return len(command.needed_operands)
    return 1 if command.operands.endswith("?") else len(found.operands)


def choice(names: list[str]):
    """A parser of one of these names, in small letters or capitals."""

    def parse_choice(text: str) -> str:
        if text.lower() not in names:
            raise ValueError(f"{text!r} is none of {', '.join(names)}")
        return text.lower()

    return parse_choice


def name_or_number(names: dict[str, int]):
    """A parser of one of these names, or of its number."""
    named = {f"{number:d}": name for name, number in names.items()}
    parse_name = choice(list(names))
    return lambda text: parse_name(named.get(text, text))


def command_help(program: str, name: str, command: Command) -> str:
    """The help of a command."""
    needed = "".join(f" {option.shown}" for option in command.options if option.required)
    lines = [f"usage: {program} {name}{needed} [OPTION]...{operands_help(command)}", "", command.about, ""]
    if command.reads_input:
        lines += [f"Without {command.operand} standard input is read.", ""]
    if command.notes:
        lines += [*command.notes, ""]
    rows = [(option.shown, option.about or "") for option in command.options] + [("-h, --help", "this help")]
    return "\n".join(lines + columns(rows)) + "\n"


def operands_help(command: Command) -> str:
    """A command's operands in its line of use."""
    if command.operands is None:
        return ""
    if command.needed_operands:
        return f" {command.operands}"
    return f" [{command.operand}]" if command.operands.endswith("?") else f" {command.operand}..."


def columns(rows: list[tuple[str, str]]) -> list[str]:
    """Two columns of text."""
    width = max(len(left) for left, _ in rows)
    return [f"  {left:<{width}}  {right}".rstrip() for left, right in rows]


# Values of options.


def parse_rectangle(text: str):
    from .legend import rectangle_of

    return rectangle_of(text)


def parse_class(text: str) -> int:
    from .legend import number_within

    return number_within(text, 255, "class")


def parse_confidence(text: str) -> int:
    from .legend import CONFIDENCE_MAX, number_within

    return number_within(text, CONFIDENCE_MAX, "confidence")


def parse_register(text: str) -> int:
    from .legend import REGISTERS, number_within

    return number_within(text, REGISTERS - 1, "register")


def parse_column(text: str) -> int:
    from .legend import number_within
    from .pictures import SPECTRUM_WIDTH

    return number_within(text, SPECTRUM_WIDTH - 1, "column")


def parse_line(text: str) -> int:
    from .legend import number_within
    from .pictures import SPECTRUM_LINES

    line = number_within(text, SPECTRUM_LINES - 1, "line")
    if line == 0:
        raise ValueError(f"line 0 has no palette: a number from 1 to {SPECTRUM_LINES - 1} is needed")
    return line


def parse_party(text: str) -> str:
    from .legend import PARTIES

    return name_or_number(PARTIES)(text)


def parse_name(text: str) -> str:
    from .legend import checked_name

    return checked_name(text)


def parse_palette(text: str) -> list[int]:
    from .images import words_of

    words = words_of(text.replace(",", " ").lower().encode("ascii", "replace"))
    if words is None:
        raise ValueError("16 words of four hexadecimal digits are needed")
    return words


def parse_jobs(text: str) -> int:
    from .legend import number_within

    return max(1, number_within(text, 1024, "processes"))


def parse_last(text: str) -> int:
    from .legend import number_within

    return number_within(text, 99_999, "records")  # more than any file has


# The options.

KIND = Option(
    ("--kind",),
    "KIND",
    "degas, neo, tiny, mac or img, or spu or spc; default: found by content, then by extension",
    choice(list(KIND_NAMES)),
)
QUIET = Option(("-q", "--quiet"), None, "do not say which kind was found")
QUIET_ON_PALETTES = QUIET._replace(about="do not say which kind was found, or that a word has STE bits")
QUIET_ON_FORMS = QUIET._replace(about="do not say which kind was found, or that a colour animation is left out")
OUTPUT_FILE = Option(("-o", "--output"), "FILE", "where the result goes; default: standard output")
FOLDER = Option(("-d", "--folder"), "FOLDER", "one result for each file, named after it, in this folder")
RESULTS = Option(("-o", *FOLDER.names), "FOLDER", "where the results go; default: beside each file")
FORM = Option(
    ("--form",),
    "FORM",
    f"{', '.join(FORM_NAMES)}, or {PLATE_FORM} for a plate",
    choice([*FORM_NAMES, PLATE_FORM]),
    True,
)
MACHINE = Option(
    ("--machine",),
    "MACHINE",
    "whose colours are shown: st (1) or ste (2); default: st",
    name_or_number(MACHINE_NAMES),
)
MACHINE_OF_PAGE = MACHINE._replace(about=f"{MACHINE.about}, on the report page")
MACHINE_OF_IMAGE = MACHINE._replace(about="whose colours the image has: st (1) or ste (2); default: the PNG's, else st")
COLUMN = Option(("--column",), "COLUMN", "the pixel's column, 0 to 319", parse_column, True)
LINE = Option(("--line",), "LINE", "the pixel's scan line, 1 to 199", parse_line, True)
LINE_OF_PALETTES = LINE._replace(
    about="of a Spectrum 512 picture, which needs it: the scan line, 1 to 199, whose 48 palette words are listed",
    required=False,
)
RECTANGLE = Option(("--rectangle",), "L,T,C,N", "left, top, columns, lines; default: the whole screen", parse_rectangle)
LEGEND = Option(("--legend",), "FILE", "16 lines `class confidence [owner [name]]`, register 0 first")
NEEDED_LEGEND = LEGEND._replace(required=True)
PALETTE = Option(("--palette",), "WORDS", "16 hexadecimal words; default: the PNG's palette", parse_palette)
LIKE = Option(("--like",), "PICTURE", "take palette and tail from this picture file")
CLASS = Option(("--class",), "CLASS", "0 to 255", parse_class, True)
PARTY = Option(("--party",), "PARTY", "whose entries count: us (1) or them (2); default: us", parse_party)
NEEDED_PARTY = PARTY._replace(about="who does it: us (1) or them (2)", required=True)
REGISTER = Option(("--register",), "REGISTER", "0 to 15", parse_register, True)
CONFIDENCE = Option(("--confidence",), "CONFIDENCE", "0 to 100", parse_confidence, True)
NAME = Option(("--name",), "NAME", "what the party calls the class; default: the name that it has", parse_name)
NEW_FILE = OUTPUT_FILE._replace(about="a new file for it; default: standard output")
SAME_OR_NEW_FILE = OUTPUT_FILE._replace(about="where it goes, the same file or a new one; default: standard output")
FLOOR = Option(("--floor",), "CONFIDENCE", "0 to 100; pixels below it are unsure", parse_confidence, True)
LIST = Option(("--list",), "FILE", "CSV with the columns name, rectangle, class and floor", None, True)
JSON = Option(("--json",), "FILE", "a line of JSON for each file")
CSV = Option(("--csv",), "FILE", "a table of the files")
REPORT = Option(("--report",), "PAGE", "one HTML page with pictures, refusals and duplicates")
JOBS = Option(("--jobs",), "N", "processes; default: one for each core", parse_jobs)
RESUME = Option(("--resume",), None, "take up an interrupted run that had the same --json")
JSON_LINES = Option(
    ("--json",),
    None,
    "in place of CSV a line of JSON for each record and each file's end, to standard output; the option takes no FILE",
)
LAST = Option(("--last",), "N", "only the last N records of each file: those before the fault", parse_last)
JSON_ROWS = JSON_LINES._replace(
    about="in place of CSV a line of JSON for each row, to standard output; the option takes no FILE"
)
FORMAT_LIST = Option(
    ("--list",),
    "LIST",
    "the list of picture formats to read by: 1989 (1) or 2008 (2); default: both, a row each",
    name_or_number(LIST_NAMES),
)

# The options of the commands, by what the commands are for.
SOURCES = (KIND, QUIET)
TO_FILES = (KIND, QUIET, OUTPUT_FILE, FOLDER)
TO_CHECK = (KIND, JSON, CSV, REPORT, LEGEND, MACHINE_OF_PAGE, JOBS, RESUME)
TO_LIST_COLOURS = (LINE_OF_PALETTES, MACHINE, KIND, QUIET_ON_PALETTES)
TO_SHOW_PIXEL = (COLUMN, LINE, MACHINE, KIND, QUIET_ON_PALETTES)
TO_SHOW_COLOURS = (*TO_FILES, MACHINE)
TO_ENVI = (*TO_SHOW_COLOURS, LEGEND)
TO_FORM = (FORM, KIND, QUIET_ON_FORMS, OUTPUT_FILE, FOLDER)
TO_CONVERT = (RESULTS, JSON, CSV)
TO_ENCODE = (FORM, PALETTE, LIKE, MACHINE_OF_IMAGE, OUTPUT_FILE, FOLDER)
TO_TALLY = (RECTANGLE, *SOURCES)
TO_READ_POND = (NEEDED_LEGEND, CLASS, FLOOR, PARTY, RECTANGLE, *SOURCES)
TO_READ_PONDS = (NEEDED_LEGEND, LIST, PARTY, OUTPUT_FILE, *SOURCES)
TO_MAKE_LEGEND = (NEW_FILE,)
TO_SET = (NEEDED_PARTY, REGISTER, CLASS, CONFIDENCE, NAME, SAME_OR_NEW_FILE)
TO_RELEASE = (NEEDED_PARTY, REGISTER, SAME_OR_NEW_FILE)
TO_LIST_LEVELS = (MACHINE,)
TO_LIST_RECORDS = (JSON_LINES, LAST)
TO_LIST_ANIMATIONS = (FORMAT_LIST, JSON_ROWS)

# More lines of help.
ON_POSITIONS = (
    "A Spectrum 512 picture has 48 palette words for a scan line, three palettes of 16. Register c takes word c at the",
    "left, c + 16 from column t on and c + 32 from column t + 160 on; t is 10c - 5 where c is odd and 10c + 1 where it",
    "is even. Columns are 0 to 319, registers 0 to 15; others are refused with 10.",
)
ON_LISTS = (
    "Of a folder only the files whose kind is NEOchrome, by content or extension as check finds it, are taken, those",
    "below too; a file that is named always is, and judged as NEOchrome.",
    "Both lists have left and right limit in byte 49, on in the high bit of byte 50, a signed speed in byte 51.",
    "  1989: limits are always valid, and there is no step count; bytes 0 to 3 are the resolution, so that a flag",
    "        word that is not 0 is refused with 5.",
    "  2008: limits are valid where the high bit of byte 48 is set, and else shown as 0 and 0; word 52 is the step",
    "        count; a flag word that is not 0 is refused with 4.",
    "colours_cycle is 1 where the animation is on, its direction is not stopped and its limits are valid and differ;",
    "the resolution is not looked at, though at high resolution white and black are fixed.",
    "No form that is written has this animation: convert leaves it out, and says so where colours cycle.",
)
