"""The legend that two parties share, and lists of ponds: the index's text files."""

from __future__ import annotations

from collections import namedtuple
from collections.abc import Sequence
from operator import index

from . import library as lib
from .files import held, number_of, put, shown, take, take_from
from .library import BYTE_MAX, accepted, library
from .pictures import Rectangle

REGISTERS = 16
CONFIDENCE_MAX = 100
TEXT_LIMIT = 1 << 20  # no legend or list of ponds is longer

# The owners of a legend's entries, by their numbers, and the parties among them.
OWNERS = ("free", "us", "them")
FREE, US, THEM = range(3)
OWNER_NUMBERS = {owner: number for number, owner in enumerate(OWNERS)}
PARTIES = {OWNERS[number]: number for number in (US, THEM)}


class BadText(ValueError):
    """A legend or a list of ponds that is none; says the file and the line, or the register."""


class Entry(namedtuple("Entry", "class_ confidence owner name", defaults=(OWNERS[US], ""))):
    """A legend's entry for one register; the owner is "free", "us" or "them"."""

    __slots__ = ()
    class_: int
    confidence: int
    owner: str
    name: str


_NEW = object()  # stands for no entries given; None is not taken for that


class Legend(Sequence):
    """The entries of the 16 registers, register 0 first, which two parties share: 1 or "us", and 2 or "them".

    Legend() is a new one: all entries are free. Legend(entries) has 16 that are given, each a class, a confidence, an
    owner ("us" where it is left out) and a name. Then only set and release change it. The library judges its numbers at
    each call. A name belongs to a class of an owner: all its entries of that class have it.
    """

    __slots__ = ("_entries",)

    def __init__(self, entries=_NEW):
        if entries is _NEW:
            self._take(library().kutimuq_new_legend(), {})
            return
        made = [made_entry(*entry) for entry in entries]
        if len(made) != REGISTERS:
            raise ValueError(f"a legend has 16 entries, not {len(made)}")
        self._entries = with_names(made, [f"register {register}" for register in range(REGISTERS)])

    def __getitem__(self, register):
        return self._entries[register]

    def __len__(self) -> int:
        return len(self._entries)

    def __eq__(self, other) -> bool:
        return list(self) == list(other) if isinstance(other, (Legend, list, tuple)) else NotImplemented

    def __repr__(self) -> str:
        owners = [entry.owner for entry in self]
        return f"<kutimuq.Legend: {', '.join(f'{owners.count(owner)} {owner}' for owner in OWNERS)}>"

    def set(self, register: int, class_: int, confidence: int, party=US, name: str | None = None) -> None:
        """A party sets a free entry or its own; with a name, all its entries of the class have that from now on.

        Without one, or with None, the class keeps the name that it has; an empty one is a ValueError. Refused with 10
        for a number out of range, then with 19 for the other party's entry: the legend is as it was.
        """
        number = number_of(party, PARTIES)
        fields = (lib.byte(number), lib.byte(register), lib.word(class_), lib.byte(confidence))
        answer = accepted(library().kutimuq_set_entry(legend_struct(self), *fields))
        names = names_of(self)
        if name is not None:
            names[OWNERS[number], class_] = checked_name(name)
        self._take(answer.legend, names)

    def release(self, register: int, party=US) -> None:
        """A party releases its own entry, which is then free.

        Refused with 10 for a number out of range, then with 19 for a free entry or the other party's: the legend is as
        it was.
        """
        number = lib.byte(number_of(party, PARTIES))
        answer = accepted(library().kutimuq_release_entry(legend_struct(self), number, lib.byte(register)))
        self._take(answer.legend, names_of(self))

    def names(self, party=US) -> dict[int, str]:
        """The names of a party's classes."""
        number = number_of(party, PARTIES)
        return {entry.class_: entry.name for entry in self if entry.name and number_of(entry.owner, PARTIES) == number}

    def save(self, path) -> None:
        """Writes the legend to a new file, whole or not at all; change_legend changes one that is there."""
        put(path, legend_file(self), new=True)

    def _take(self, struct: lib.Legend, names: dict[tuple, str]) -> None:
        """Takes the entries that the library left, with these names."""
        rows = zip(struct.classes, struct.confidences, struct.owners)
        self._entries = named([Entry(class_, confidence, OWNERS[owner]) for class_, confidence, owner in rows], names)


def made_entry(class_: int, confidence: int, owner=US, name: str = "") -> Entry:
    """An entry from what a caller gives; the owner by its name or number."""
    return Entry(index(class_), index(confidence), owner_called(number_of(owner, OWNER_NUMBERS)), name)


def owner_called(number: int):
    """The name of the owner with this number; a number that is none's stays."""
    number = index(number)
    return OWNERS[number] if 0 <= number < len(OWNERS) else number


def legend_struct(legend: Legend) -> lib.Legend:
    """The legend as the library takes it."""
    struct = lib.Legend()
    for register, entry in enumerate(legend):
        # Every byte is a class: an entry with a class out of range goes with an owner that the library refuses.
        in_range = 0 <= entry.class_ <= BYTE_MAX
        struct.owners[register] = lib.byte(number_of(entry.owner, OWNER_NUMBERS)) if in_range else BYTE_MAX
        struct.classes[register] = lib.byte(entry.class_)
        struct.confidences[register] = lib.byte(entry.confidence)
    return struct


def names_of(entries) -> dict[tuple, str]:
    """The name of each owner's class that has one."""
    return {(entry.owner, entry.class_): entry.name for entry in entries if entry.name}


def named(entries, names: dict[tuple, str]) -> list[Entry]:
    """The entries with the names of their owners' classes."""
    return [entry._replace(name=names.get((entry.owner, entry.class_), "")) for entry in entries]


def with_names(entries, places: list[str]) -> list[Entry]:
    """The entries, each with the name that any of its class has; a free one has none. An error says the place."""
    names: dict[tuple, str] = {}
    for (class_, _, owner, name), place in zip(entries, places):
        if name and owner != OWNERS[FREE] and names.setdefault((owner, class_), name) != name:
            raise BadText(f"{place}: class {class_} of {owner} has the name {names[owner, class_]!r} already")
    return named(entries, names)


def checked_name(name: str) -> str:
    """A name that a legend's file can hold."""
    if not name:
        raise ValueError("a name is not empty; without one the class keeps the name that it has")
    if not name.isprintable() or "#" in name or name != name.strip():
        raise ValueError(f"a name is printable, without # and blanks around it, not {name!r}")
    return name


# Its file; an error says the file and the line.

BYTE_ORDER_MARK = "\ufeff"
NEW_LEGEND = "# class confidence owner name, register 0 first\n" + "0 0 free\n" * REGISTERS


def read_legend(path) -> Legend:
    """The legend in a file: 16 lines `class confidence [owner [name]]`, register 0 first.

    `#` begins a comment. The owner is free, us or them, and us where it is left out.
    """
    return legend_in(text_of(path), path)


def legend_in(text: str, path) -> Legend:
    """The legend in the text of a file."""
    return Legend(entries_in(lines_of(text), path).values())


def lines_of(text: str) -> list[str]:
    """The lines with their ends, without the mark before the first."""
    return text.removeprefix(BYTE_ORDER_MARK).splitlines(keepends=True)


def entries_in(lines: list[str], path) -> dict[int, Entry]:
    """The entries in a legend's lines, each under the place of its line."""
    found: dict[int, Entry] = {}
    for place, line in enumerate(lines):
        fields = line.split("#", 1)[0].split(None, 3)
        if not fields:
            continue
        if len(found) == REGISTERS:
            raise BadText(f"{line_at(place, path)}: a legend has 16 entries, this is one more")
        found[place] = entry_of(fields, line_at(place, path))
    if len(found) < REGISTERS:
        raise BadText(f"{line_at(max(len(lines), 1) - 1, path)}: a legend has 16 entries, not {len(found)}")
    return dict(zip(found, with_names(found.values(), [line_at(place, path) for place in found])))


def line_at(place: int, path) -> str:
    """A line, for an error; places count from 0, lines from 1."""
    return f"{shown(str(path))}, line {place + 1}"


def entry_of(fields: list[str], place: str) -> Entry:
    """One line of a legend."""
    if len(fields) < 2:
        raise BadText(f"{place}: a class and a confidence are needed")
    class_ = number_within(fields[0], BYTE_MAX, f"{place}: class")
    confidence = number_within(fields[1], CONFIDENCE_MAX, f"{place}: confidence")
    owner = fields[2] if len(fields) > 2 else OWNERS[US]
    if owner not in OWNERS:
        raise BadText(f"{place}: the owner is {', '.join(OWNERS)}, not {owner!r}")
    if owner == OWNERS[FREE] and (class_, confidence) != (0, 0):
        raise BadText(f"{place}: a free entry has class 0 and confidence 0")
    return Entry(class_, confidence, owner, fields[3].strip() if len(fields) > 3 else "")


def legend_file(legend: Legend, text: str = NEW_LEGEND) -> bytes:
    """A legend's file, its text with these entries put in; comments, and lines whose entry is the same, stay."""
    mark = BYTE_ORDER_MARK if text.startswith(BYTE_ORDER_MARK) else ""
    lines = lines_of(text)
    for _ in range(2):  # the second time for a line that had its name from one that is written anew
        for (place, entry), new in zip(entries_in(lines, "legend").items(), legend):
            if entry != new:
                lines[place] = line_with(lines[place], new)
    file = "".join([mark, *lines]).encode("utf-8")
    if legend_in(text_in(file, "legend"), "legend") != legend:
        raise BadText("a legend's file cannot hold these names")
    return file


def line_with(line: str, entry: Entry) -> str:
    """A legend's line with this entry; what stands around the old one stays."""
    old, mark, comment = line.partition("#")
    before, after = old[: len(old) - len(old.lstrip())], old[len(old.rstrip()) :]
    return before + " ".join(map(str, entry)).rstrip() + after + mark + comment


def change_legend(path):
    """A context with the legend in a file, which is written back at its end; after an exception the file is as it was.

    The file is held: who changes it in this way at the same time waits, and then has the legend that is left here.
    """
    from contextlib import contextmanager

    return contextmanager(changed_in_place)(path)


def changed_in_place(path):
    """The steps of change_legend; the caller's are at the yield."""
    with held(path) as file:
        text = text_in(take_from(file, TEXT_LIMIT + 1), path)
        legend = legend_in(text, path)
        yield legend
        put(path, legend_file(legend, text))


# Lists of ponds.


class Question(namedtuple("Question", "name rectangle class_ floor")):
    """A pond to read: its name, its rectangle (None is the whole screen), the class and the confidence floor."""

    __slots__ = ()
    name: str
    rectangle: Rectangle | None
    class_: int
    floor: int


QUESTION_FIELDS = ("name", "rectangle", "class", "floor")


def read_questions(path, legend: Legend, party=US) -> list[Question]:
    """The ponds in a CSV file with the columns name, rectangle, class and floor.

    A rectangle is `left,top,columns,lines`; empty, it is the whole screen. A class is a number, or a name that the
    legend has for a class of the party.
    """
    import csv

    table = csv.reader(lines_of(text_of(path)), strict=True)
    classes = {name: class_ for class_, name in legend.names(party).items()}
    owner = owner_called(number_of(party, PARTIES))
    questions = []
    columns: list[int] = []
    try:
        for row in table:
            place = f"{shown(str(path))}, line {table.line_num}"
            if not row or row[0].lstrip().startswith("#"):
                continue
            if not columns:
                columns = columns_of(row, place)
                continue
            if len(row) <= max(columns):
                raise BadText(f"{place}: the columns {', '.join(QUESTION_FIELDS)} are needed")
            questions.append(question_of([row[column].strip() for column in columns], classes, owner, place))
    except csv.Error as error:
        raise BadText(f"{shown(str(path))}, line {table.line_num}: {error}") from None
    if not columns:
        raise BadText(f"{shown(str(path))}, line 1: the columns {', '.join(QUESTION_FIELDS)} are needed")
    return questions


def columns_of(header: list[str], place: str) -> list[int]:
    """Where the columns of a list of ponds are."""
    found = [field.strip().lower() for field in header]
    missing = [field for field in QUESTION_FIELDS if field not in found]
    if missing:
        raise BadText(f"{place}: no column {', '.join(missing)}")
    return [found.index(field) for field in QUESTION_FIELDS]


def question_of(fields: list[str], classes: dict[str, int], owner: str, place: str) -> Question:
    """One line of a list of ponds, with the owner's classes by their names."""
    name, rectangle, class_, floor = fields
    try:
        area = rectangle_of(rectangle) if rectangle else None
    except ValueError as error:
        raise BadText(f"{place}: rectangle: {error}") from None
    number = classes.get(class_)
    if number is None:
        number = number_within(class_, BYTE_MAX, f"{place}: class", f" or the name of a class of {owner}")
    return Question(name, area, number, number_within(floor, CONFIDENCE_MAX, f"{place}: floor"))


def rectangle_of(text: str) -> Rectangle:
    """A rectangle written `left,top,columns,lines`; the library judges its place on the screen."""
    parts = text.replace(",", " ").split()
    if len(parts) != 4 or not all(part.isascii() and part.isdigit() and len(part) <= 100 for part in parts):
        raise ValueError(f"left,top,columns,lines are needed, not {text!r}")
    return Rectangle(*map(int, parts))


def number_within(text: str, largest: int, what: str, instead: str = "") -> int:
    """A whole number from 0 to the largest; an error also says what else could stand in its place."""
    if text.isascii() and text.isdigit() and len(text) <= 100 and int(text) <= largest:
        return int(text)
    raise BadText(f"{what}: a number from 0 to {largest}{instead} is needed, not {text!r}")


def text_of(path) -> str:
    """The text of a small file."""
    return text_in(take(path, TEXT_LIMIT + 1), path)


def text_in(data: bytes, path) -> str:
    """The text in the bytes of a small file."""
    if len(data) > TEXT_LIMIT:
        raise BadText(f"{shown(str(path))}: longer than {TEXT_LIMIT} bytes")
    try:
        return data.decode("utf-8")
    except UnicodeDecodeError as error:
        line = data[: error.start].count(b"\n") + 1
        raise BadText(f"{shown(str(path))}, line {line}: not UTF-8") from None
