"""The proved library over ctypes: its shared object, structs and functions, what is lent to them, and its refusals."""

from __future__ import annotations

import ctypes
import os
from array import array
from ctypes import Structure, c_bool, c_char_p, c_size_t, c_uint8, c_uint16, c_uint32, c_void_p
from enum import IntEnum
from operator import index

# Where the shared object is, and how it is built.

SHARED_OBJECT = "libkutimuq.so"
PACKAGE = os.path.dirname(os.path.realpath(__file__))
REPOSITORY = os.path.normpath(os.path.join(PACKAGE, "..", "..", ".."))
ARCHIVE = os.path.join(REPOSITORY, "crates", "capi", "out", "libcapi.a")
BUILT = os.path.join(REPOSITORY, "target", "python", SHARED_OBJECT)


class LibraryMissing(OSError):
    """The library cannot be found, built or loaded."""


def find() -> str:
    """KUTIMUQ_SO, else the one in the package, else one built from the archive of this checkout."""
    named = os.environ.get("KUTIMUQ_SO")
    if named:
        return os.path.abspath(named)
    inside = os.path.join(PACKAGE, SHARED_OBJECT)
    if os.path.isfile(inside):
        return inside
    if os.path.isfile(ARCHIVE):
        return build(ARCHIVE, BUILT)
    raise LibraryMissing(
        f"no {SHARED_OBJECT}: name it in KUTIMUQ_SO, put it into {PACKAGE}, or make {ARCHIVE} with `rt lib` in crates/capi"
    )


def build(archive: str, built: str) -> str:
    """The shared object made from this archive, anew only if the archive changed."""
    changed = os.stat(archive).st_mtime_ns
    if os.path.isfile(built) and os.stat(built).st_mtime_ns == changed:
        return built
    import tempfile

    try:
        folder = os.path.dirname(built)
        os.makedirs(folder, exist_ok=True)
        # Built apart and moved in whole, so that no other process loads half of it.
        with tempfile.TemporaryDirectory(dir=folder) as apart:
            made = os.path.join(apart, SHARED_OBJECT)
            link(archive, made)
            os.utime(made, ns=(changed, changed))
            os.replace(made, built)
    except OSError as error:
        raise LibraryMissing(f"cannot build {built}: {error}") from error
    return built


def link(archive: str, made: str) -> None:
    """Turns the archive into a shared object."""
    import subprocess

    whole = ["-Wl,--whole-archive", archive, "-Wl,--no-whole-archive"]
    done = subprocess.run(
        ["gcc", "-shared", "-o", made, *whole],
        stdin=subprocess.DEVNULL,
        capture_output=True,
        text=True,
    )
    if done.returncode:
        raise OSError(f"gcc: {done.stderr.strip()}")


# The structs of include/kutimuq.h.


class Refusal(Structure):
    _fields_: list = [
        ("number", c_uint8),
        ("place", c_size_t),
        ("plane_row", c_size_t),
        ("good_bytes", c_size_t),
    ]


class RowAnswer(Structure):
    _fields_ = [("refusal", Refusal), ("bytes", c_size_t), ("records", c_size_t)]


class Table(Structure):
    _fields_ = [("words", c_uint16 * 4)]


class Picture(Structure):
    _fields_ = [
        ("resolution", c_uint16),
        ("palette", c_uint16 * 16),
        ("tail_present", c_bool),
        ("tail", Table * 4),
    ]


class ReadAnswer(Structure):
    _fields_ = [("refusal", Refusal), ("picture", Picture), ("body", c_size_t), ("records", c_size_t)]


class WriteAnswer(Structure):
    _fields_ = [("refusal", Refusal), ("length", c_size_t), ("body", c_size_t), ("records", c_size_t)]


class BodyAnswer(Structure):
    _fields_ = [("refusal", Refusal), ("body", c_size_t), ("records", c_size_t)]


class ImgAnswer(Structure):
    _fields_ = [("refusal", Refusal), ("width", c_uint16), ("lines", c_uint16)]


class PositionAnswer(Structure):
    _fields_ = [("refusal", Refusal), ("position", c_uint8)]


class ColourWordAnswer(Structure):
    _fields_ = [("refusal", Refusal), ("word", c_uint16)]


class Rectangle(Structure):
    _fields_ = [("left", c_size_t), ("top", c_size_t), ("columns", c_size_t), ("lines", c_size_t)]


class TallyAnswer(Structure):
    _fields_ = [("refusal", Refusal), ("counts", c_uint32 * 16)]


class ColourAnswer(Structure):
    _fields_ = [("refusal", Refusal), ("red", c_uint8), ("green", c_uint8), ("blue", c_uint8)]


class Legend(Structure):
    _fields_ = [("owners", c_uint8 * 16), ("classes", c_uint8 * 16), ("confidences", c_uint8 * 16)]


class LegendAnswer(Structure):
    _fields_ = [("refusal", Refusal), ("legend", Legend)]


class PondAnswer(Structure):
    _fields_ = [("refusal", Refusal), ("sure", c_uint32), ("unsure", c_uint32), ("other", c_uint32)]


class Palette(Structure):
    _fields_ = [("words", c_uint16 * 16)]


class RecordCursor(Structure):
    _fields_ = [("offset", c_size_t), ("plane_row", c_size_t), ("good_bytes", c_size_t)]


class CursorAnswer(Structure):
    _fields_ = [("refusal", Refusal), ("cursor", RecordCursor)]


class RecordAnswer(Structure):
    _fields_ = [
        ("refusal", Refusal),
        ("kind", c_uint8),
        ("offset", c_size_t),
        ("plane_row", c_size_t),
        ("length", c_size_t),
        ("next", RecordCursor),
    ]


class AnimationAnswer(Structure):
    _fields_ = [
        ("refusal", Refusal),
        ("limits_valid", c_bool),
        ("left_limit", c_uint8),
        ("right_limit", c_uint8),
        ("on", c_bool),
        ("direction", c_uint8),
        ("vblanks", c_uint8),
        ("step_count", c_uint16),
    ]


INPUT = (c_char_p, c_size_t)  # bytes that the library reads, and their number
OUTPUT = (c_void_p, c_size_t)  # a buffer that it writes to
WORDS = (c_void_p, c_size_t)  # an array of words that it reads or writes to, and their number

FUNCTIONS = {
    "kutimuq_unpack_row": (RowAnswer, (*INPUT, c_size_t, *OUTPUT)),
    "kutimuq_pack_row": (RowAnswer, (*INPUT, *OUTPUT)),
    "kutimuq_line_out": (Refusal, (*INPUT, c_uint16, c_size_t, *OUTPUT)),
    "kutimuq_line_in": (Refusal, (*OUTPUT, c_uint16, c_size_t, *INPUT)),
    "kutimuq_screen_out": (Refusal, (*INPUT, c_uint16, *OUTPUT)),
    "kutimuq_screen_in": (Refusal, (*OUTPUT, c_uint16, *INPUT)),
    "kutimuq_tally": (TallyAnswer, (*INPUT, c_uint16, Rectangle)),
    "kutimuq_colour": (ColourAnswer, (c_uint16, c_uint8, Palette, c_uint8)),
    "kutimuq_new_legend": (Legend, ()),
    "kutimuq_set_entry": (LegendAnswer, (Legend, c_uint8, c_uint8, c_uint16, c_uint8)),
    "kutimuq_release_entry": (LegendAnswer, (Legend, c_uint8, c_uint8)),
    "kutimuq_pond": (PondAnswer, (*INPUT, c_uint16, Rectangle, c_uint8, c_uint16, c_uint8, Legend)),
    "kutimuq_read": (ReadAnswer, (c_uint8, *INPUT, *OUTPUT)),
    "kutimuq_write": (WriteAnswer, (c_uint8, Picture, *INPUT, *OUTPUT)),
    "kutimuq_to_elite": (WriteAnswer, (*INPUT, *OUTPUT)),
    "kutimuq_to_plain": (WriteAnswer, (*INPUT, *OUTPUT)),
    "kutimuq_read_plate": (BodyAnswer, (*INPUT, *OUTPUT)),
    "kutimuq_write_plate": (WriteAnswer, (*INPUT, *OUTPUT)),
    "kutimuq_read_img": (ImgAnswer, (*INPUT, *OUTPUT)),
    "kutimuq_read_spectrum": (Refusal, (c_uint8, *INPUT, *OUTPUT, *WORDS)),
    "kutimuq_spectrum_position": (PositionAnswer, (c_size_t, c_uint8)),
    "kutimuq_spectrum_word": (ColourWordAnswer, (*INPUT, *WORDS, c_size_t, c_size_t)),
    "kutimuq_spectrum_line": (Refusal, (*INPUT, *WORDS, c_size_t, *WORDS)),
    "kutimuq_open_records": (CursorAnswer, INPUT),
    "kutimuq_next_record": (RecordAnswer, (*INPUT, RecordCursor)),
    "kutimuq_animation": (AnimationAnswer, (c_uint8, *INPUT)),
}

_library: ctypes.CDLL | None = None


def library() -> ctypes.CDLL:
    """The loaded library; it is looked for at the first use."""
    global _library
    if _library is None:
        _library = load(find())
    return _library


def load(path: str) -> ctypes.CDLL:
    """The library in this shared object, with the types of its functions."""
    try:
        loaded = ctypes.CDLL(path)
        for name, (answer, arguments) in FUNCTIONS.items():
            function = getattr(loaded, name)
            function.restype = answer
            function.argtypes = arguments
    except (OSError, AttributeError) as error:
        raise LibraryMissing(f"cannot load {path}: {error}") from error
    return loaded


# Python numbers fitted to the widths of the library's numbers. ctypes would cut upper bits off: kind 257 would pass
# for kind 1. The largest number of each width is out of range, so the library refuses it. Only a class in a legend is a
# byte of which every number is good: legend.legend_struct sees to those.

BYTE_MAX = 0xFF
WORD_MAX = 0xFFFF
SIZE_MAX = c_size_t(-1).value


def _fitted(number: int, largest: int) -> int:
    number = index(number)
    return number if 0 <= number <= largest else largest


def byte(number: int) -> int:
    """A kind, form, machine, list, register, party, owner, floor or confidence."""
    return _fitted(number, BYTE_MAX)


def word(number: int) -> int:
    """A resolution, or a class that is asked for or set."""
    return _fitted(number, WORD_MAX)


def size(number: int) -> int:
    """A row width, a column, a line, a side of a rectangle or a number of a cursor."""
    return _fitted(number, SIZE_MAX)


def words(values, count: int) -> list[int]:
    """Exactly so many 16-bit words; the library has no refusal for others."""
    values = [index(value) for value in values]
    if len(values) != count or not all(0 <= value <= WORD_MAX for value in values):
        raise ValueError(f"{count} words from 0 to {WORD_MAX} are needed, not {values}")
    return values


def word_room(count: int):
    """An array of so many words, all zero."""
    return (c_uint16 * count)()


def lent_words(values):
    """Words, however many, as an array that the library reads; ValueError where one is no word."""
    try:
        fitted = array("H", values)
    except OverflowError:
        raise ValueError(f"words from 0 to {WORD_MAX} are needed") from None
    return (c_uint16 * len(fitted)).from_buffer_copy(fitted)


def lent(data) -> bytes:
    """A bytes-like object as bytes; the library only reads them."""
    if isinstance(data, bytes):
        return data
    view = memoryview(data)
    if view.itemsize != 1:
        raise TypeError(f"bytes are needed, not items of {view.itemsize} bytes")
    return view.tobytes()


def room(length: int):
    """A buffer of zero bytes."""
    return (ctypes.c_char * length)()


# Refusals.


class RefusalNumber(IntEnum):
    """The numbers given back, named as in the library, with their meaning."""

    meaning: str

    def __new__(cls, number: int, meaning: str):
        member = int.__new__(cls, number)
        member._value_ = number
        member.meaning = meaning
        return member

    ACCEPTED = 0, "accepted"
    AREA_TOO_SHORT = 1, "a lent area too short"
    UNKNOWN_KIND = 2, "unknown kind or form"
    WRONG_LENGTH = 3, "file length not allowed"
    WRONG_FLAG = 4, "NEOchrome flag not 0"
    UNKNOWN_RESOLUTION = 5, "resolution above 2"
    INPUT_ENDS = 6, "input ends before the screen or row is full"
    RECORD_CROSSES = 7, "a record crosses its row's end"
    WRONG_TAIL = 8, "bytes after the body not as the format has them"
    NO_PACKED_BODY = 9, "no packed body below the format's limit exists"
    OUT_OF_RANGE = 10, "a number out of range"
    UNDEFINED_CONTROL = 11, "a control byte or a count that is not defined"
    RUN_TOO_LONG = 12, "a count cut short, or a run past the words to make or the data"
    SIZE_MISMATCH = 13, "data left or words missing after the last run"
    WRONG_HEADER = 14, "SPC flag or reserved word wrong"
    BIT_15_SET = 15, "bit 15 of an SPC palette's vector set"
    IGNORED_BITS_SET = 17, "bits 2 to 14 of a plain file's first word not 0"
    NO_ZERO_TAIL = 18, "a tail absent or not all zero"
    NOT_OWNED = 19, "a legend entry of another party, or a free one to release"
    WRONG_VERSION = 20, "MacPaint version neither 0 nor 2"
    OUTSIDE_PROFILE = 21, "IMG header outside the screen profile"
    WRONG_SCANLINE_RUN = 22, "a scanline run out of place, or its flag or count wrong"


def meaning_of(number: int) -> str:
    """What a number means, also one that only a later library knows."""
    try:
        return RefusalNumber(number).meaning  # type: ignore[call-arg]
    except ValueError:
        return "unknown refusal"


def good_part(plane_row: int, good_bytes: int) -> str:
    """How far the rows are good, in words."""
    return f"plane row {plane_row}, {good_bytes} bytes good"


class Refused(Exception):
    """The input was judged and refused; nothing was made from it.

    For numbers 6 and 7, plane_row is the row with the record at fault, from 0, and good_bytes are the bytes that it had
    before that record; a row that is unpacked by itself is row 0, and a plate's rows are its plane rows. Both are 0 for
    every other number, for every scan (RefusedScan) and for every Spectrum 512 file (RefusedSpectrum).
    """

    where = ""  # more words, as far as the file's bytes tell where it is at fault

    def __init__(self, number: int, place: int = 0, plane_row: int = 0, good_bytes: int = 0):
        super().__init__(number, place, plane_row, good_bytes)
        self.number = number
        self.place = place
        self.plane_row = plane_row
        self.good_bytes = good_bytes
        self.meaning = meaning_of(number)

    @property
    def in_row(self) -> bool:
        """Whether a record of a packed row is at fault, so that the plane row and its good bytes are given."""
        return self.number in (RefusalNumber.INPUT_ENDS, RefusalNumber.RECORD_CROSSES)

    def __str__(self) -> str:
        more = good_part(self.plane_row, self.good_bytes) if self.in_row else self.where
        return f"refused {self.number} at {self.place}: {self.meaning}" + (f" ({more})" if more else "")


class RefusedScan(Refused):
    """A GEM IMG file was judged and refused: how far its lines are good is not given."""

    @property
    def in_row(self) -> bool:
        return False


class RefusedSpectrum(Refused):
    """A Spectrum 512 file was judged and refused: where says in which map, and there of which palette or scan line."""

    @property
    def in_row(self) -> bool:
        return False


def accepted(answer, refused=Refused):
    """The library's answer, or the exception if it is a refusal: the one place where answers become exceptions."""
    refusal = getattr(answer, "refusal", answer)
    if refusal.number:
        raise refused(refusal.number, refusal.place, refusal.plane_row, refusal.good_bytes)
    return answer
