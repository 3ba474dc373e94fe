"""Pictures and MacPaint plates read, written and converted; GEM IMG scans read; PackBits rows; screens, registers."""

from __future__ import annotations

import ctypes
import os
import sys
from collections import namedtuple

from . import library as lib
from .files import (
    FORM_NAMES,
    KIND_NAMES,
    LONGEST_PLATE_FILE,
    SPU_FILE_BYTES,
    WORD_BYTES,
    Kind,
    Machine,
    find_kind,
    form_named,
    number_of,
    put,
    take,
    take_from,
)
from .library import RefusalNumber, Refused, RefusedScan, accepted, library

TYPE_CHECKING = False  # typing's, without the time that importing it takes
if TYPE_CHECKING:
    from .spectrum import Spectrum

SCREEN_BYTES = 32_000
FILE_BYTES = 32_128  # the output that writing and converting ask for
WIDEST_ROW = 128
LONGEST_PACKED_ROW = 129
NO_TABLE = (0, 0, 0, 0)


class Tail(
    namedtuple(
        "Tail", "left_limits right_limits directions delays", defaults=(NO_TABLE, NO_TABLE, NO_TABLE, NO_TABLE)
    )
):
    """The animation tail's four tables of four words; all zero where there is no tail."""

    __slots__ = ()
    left_limits: tuple[int, ...]
    right_limits: tuple[int, ...]
    directions: tuple[int, ...]
    delays: tuple[int, ...]


class Picture(
    namedtuple(
        "Picture",
        "resolution palette tail_present tail screen body records",
        defaults=(False, Tail(), b"", 0, 0),
    )
):
    """A resolution (0 to 2), 16 palette words, an animation tail and a screen of 32,000 bytes.

    body and records are what reading found; writing does not look at them.
    """

    __slots__ = ()
    resolution: int
    palette: tuple[int, ...]
    tail_present: bool
    tail: Tail
    screen: bytes
    body: int
    records: int

    def __repr__(self) -> str:
        return f"<kutimuq.Picture: resolution {self.resolution}, {self.records} records, body {self.body}>"

    def registers(self):
        """The registers, height x width: a numpy uint8 array where numpy is present, else a list of bytes rows."""
        return registers(self.screen, self.resolution)

    def colours(self, machine=Machine.ST):
        """The colours of the registers on a machine, 1 or "st", 2 or "ste"; register 0 first."""
        from .index import colours

        return colours(self.resolution, self.palette, machine)

    def tally(self, rectangle=None) -> tuple[int, ...]:
        """The pixels of each of the 16 registers in a rectangle, or on the whole screen."""
        from .index import tally

        return tally(self.screen, self.resolution, rectangle)

    def png(self, machine=Machine.ST) -> bytes:
        """An indexed PNG whose pixel values are the registers, with their colours on a machine."""
        from .images import png_of

        return png_of(self, machine)

    def save(self, path, form=None) -> File:
        """Writes the picture to a file, whole or not at all, and gives what was written.

        The form is a Form, its number or its name; without one the extension names it.
        """
        name = os.fspath(path)
        number = form_named(name, self.tail_present) if form is None else number_of(form, FORM_NAMES)
        file = write(self, self.screen, number)
        put(path, file)
        return file


class File(bytes):
    """A written file, with the bytes and records of its packed body (0 if not packed)."""

    body = 0
    records = 0

    def __repr__(self) -> str:
        return f"<kutimuq.File: {len(self)} bytes, {self.records} records, body {self.body}>"


def open_picture(file, kind=None) -> Picture:
    """The picture in a file, given by its path or open for bytes.

    The kind is a Kind, its number or its name; without one it is found by content, then by extension.
    """
    opened = hasattr(file, "read")
    data = take_from(file) if opened else take(file)
    if kind is None:
        name = getattr(file, "name", "") if opened else os.fspath(file)
        kind = find_kind(data, name if isinstance(name, str) else "").kind
    return read(data, number_of(kind, KIND_NAMES))


def read(data, kind: int) -> Picture:
    """The picture in a file's bytes; the kind is a Kind or its number."""
    data = lib.lent(data)
    screen = lib.room(SCREEN_BYTES)
    answer = accepted(library().kutimuq_read(lib.byte(kind), data, len(data), screen, len(screen)))
    struct = answer.picture
    return Picture(
        resolution=struct.resolution,
        palette=tuple(struct.palette),
        tail_present=struct.tail_present,
        tail=Tail(*(tuple(table.words) for table in struct.tail)),
        screen=screen.raw,
        body=answer.body,
        records=answer.records,
    )


def write(picture: Picture, screen, form: int) -> File:
    """The file of this picture and screen in one of the four forms."""
    screen = lib.lent(screen)
    struct = picture_struct(picture)
    out = lib.room(FILE_BYTES)
    return file_of(library().kutimuq_write(lib.byte(form), struct, screen, len(screen), out, len(out)), out)


def file_of(answer, out) -> File:
    """The file that writing put to the front of this output."""
    file = File(out.raw[: accepted(answer).length])
    file.body = answer.body
    file.records = answer.records
    return file


def picture_struct(picture: Picture) -> lib.Picture:
    """The picture as the library takes it."""
    tables = list(picture.tail)
    if len(tables) != 4:
        raise ValueError(f"a tail has four tables, not {len(tables)}")
    struct = lib.Picture(resolution=lib.word(picture.resolution), tail_present=bool(picture.tail_present))
    struct.palette[:] = lib.words(picture.palette, 16)
    for table, values in zip(struct.tail, tables):
        table.words[:] = lib.words(values, 4)
    return struct


def to_elite(data) -> File:
    """The DEGAS Elite file of a plain DEGAS file's bytes, with a tail of zeros; to_plain gives the same bytes back.

    It is packed, or raw where no packed body below 32,000 bytes exists: its body is then 0. Refused as reading refuses
    it, then with 2 if it is packed or has a tail, then with 17 if bits 2 to 14 of its first word are not 0.
    """
    return _converted(library().kutimuq_to_elite, data)


def to_plain(data) -> File:
    """The plain DEGAS file of a DEGAS Elite file's bytes, raw or packed.

    Refused as reading refuses it, then with 18 if its tail is absent or not all zero.
    """
    return _converted(library().kutimuq_to_plain, data)


def _converted(function, data) -> File:
    data = lib.lent(data)
    out = lib.room(FILE_BYTES)
    return file_of(function(data, len(data), out, len(out)), out)


# Pixels of one bit: 0 white, 1 black.

_PIXELS = bytes.maketrans(b"01", b"\0\1")


def pixels_of(row: bytes) -> bytes:
    """A row's pixels, one byte each, from one of eight pixels a byte."""
    return f"{int.from_bytes(row, 'big'):0{8 * len(row)}b}".encode().translate(_PIXELS)


def ones_in(rows: list[bytes]) -> int:
    """The number of bits that are 1."""
    return bin(int.from_bytes(b"".join(rows), "big")).count("1")


# MacPaint plates.

PLATE_WIDTH = 576
PLATE_HEIGHT = 720
PLATE_ROW_BYTES = 72
PLATE_BYTES = PLATE_ROW_BYTES * PLATE_HEIGHT


class Plate(namedtuple("Plate", "bitmap body records", defaults=(0, 0))):
    """A black and white plate of 576 x 720 pixels: a bitmap of 720 rows of 72 bytes, from the top.

    The leftmost pixel is a byte's top bit; 0 is white, 1 black. body and records are what reading found; writing does
    not look at them.
    """

    __slots__ = ()
    bitmap: bytes
    body: int
    records: int
    width = PLATE_WIDTH

    def __repr__(self) -> str:
        return f"<kutimuq.Plate: {self.records} records, body {self.body}>"

    def rows(self) -> list[bytes]:
        """The rows from the top, eight pixels a byte; refused with 1 where bytes are missing."""
        if len(self.bitmap) < PLATE_BYTES:
            raise Refused(RefusalNumber.AREA_TOO_SHORT)
        return [self.bitmap[start : start + PLATE_ROW_BYTES] for start in range(0, PLATE_BYTES, PLATE_ROW_BYTES)]

    def pixels(self) -> list[bytes]:
        """The rows from the top, one byte a pixel: 0 white, 1 black."""
        return [pixels_of(row) for row in self.rows()]

    def tally(self) -> tuple[int, int]:
        """The white and the black pixels."""
        black = ones_in(self.rows())
        return PLATE_WIDTH * PLATE_HEIGHT - black, black

    def pbm(self) -> bytes:
        """A portable bitmap (P4)."""
        from .images import bitmap_of

        return bitmap_of(self)

    def png(self) -> bytes:
        """An indexed PNG of one bit a pixel: 0 white, 1 black."""
        from .images import bitmap_png_of

        return bitmap_png_of(self)

    def save(self, path) -> File:
        """Writes the plate to a MacPaint file, whole or not at all, and gives what was written."""
        file = write_plate(self.bitmap)
        put(path, file)
        return file


def open_plate(file) -> Plate:
    """The plate in a MacPaint file, given by its path or open for bytes."""
    return read_plate(take_from(file) if hasattr(file, "read") else take(file))


def read_plate(data) -> Plate:
    """The plate in a MacPaint file's bytes."""
    data = lib.lent(data)
    bitmap = lib.room(PLATE_BYTES)
    answer = accepted(library().kutimuq_read_plate(data, len(data), bitmap, len(bitmap)))
    return Plate(bitmap.raw, answer.body, answer.records)


def write_plate(bitmap) -> File:
    """The MacPaint file of a plate's bitmap, with a header of zeros and the least body."""
    bitmap = lib.lent(bitmap)
    out = lib.room(LONGEST_PLATE_FILE)
    return file_of(library().kutimuq_write_plate(bitmap, len(bitmap), out, len(out)), out)


# GEM IMG scans.

IMG_BYTES = 32_000  # the area lent for a scan
IMG_MAX_WIDTH = 640
IMG_MAX_LINES = 400


class Img(namedtuple("Img", "bitmap width lines")):
    """A black and white scan of at most 640 x 400 pixels: a bitmap of so many lines, from the top.

    A line is (width + 7) // 8 bytes. The leftmost pixel is a byte's top bit; 0 is white, 1 black. The padding bits
    after a line's last pixel are as the file has them in the bitmap alone.
    """

    __slots__ = ()
    bitmap: bytes
    width: int
    lines: int

    def __repr__(self) -> str:
        return f"<kutimuq.Img: {self.width} x {self.lines}>"

    def rows(self) -> list[bytes]:
        """The lines from the top, eight pixels a byte, padding bits 0.

        Refused with 10 where width or lines are out of range, then with 1 where bytes are missing.
        """
        if not (1 <= self.width <= IMG_MAX_WIDTH and 1 <= self.lines <= IMG_MAX_LINES):
            raise Refused(RefusalNumber.OUT_OF_RANGE)
        line_bytes = img_line_bytes(self.width)
        if len(self.bitmap) < line_bytes * self.lines:
            raise Refused(RefusalNumber.AREA_TOO_SHORT)
        last = line_bytes - 1  # the byte with the padding bits
        pixel_bits = lib.BYTE_MAX << -self.width % 8 & lib.BYTE_MAX
        starts = range(0, line_bytes * self.lines, line_bytes)
        return [self.bitmap[at : at + last] + bytes((self.bitmap[at + last] & pixel_bits,)) for at in starts]

    def pixels(self):
        """The pixels, lines x width: a numpy uint8 array where numpy is present, else a list of bytes rows.

        0 is white, 1 black.
        """
        pixels = b"".join(pixels_of(row)[: self.width] for row in self.rows())
        return pixel_array(pixels, self.width)

    def tally(self) -> tuple[int, int]:
        """The white and the black pixels."""
        black = ones_in(self.rows())
        return self.width * self.lines - black, black

    def pbm(self) -> bytes:
        """A portable bitmap (P4)."""
        from .images import bitmap_of

        return bitmap_of(self)

    def png(self) -> bytes:
        """An indexed PNG of one bit a pixel: 0 white, 1 black."""
        from .images import bitmap_png_of

        return bitmap_png_of(self)


def img_line_bytes(width: int) -> int:
    """The bytes of a scan's line."""
    return (width + 7) // 8


def open_img(file) -> Img:
    """The scan in a GEM IMG file, given by its path or open for bytes."""
    return read_img(take_from(file) if hasattr(file, "read") else take(file))


def read_img(data) -> Img:
    """The scan in a GEM IMG file's bytes."""
    data = lib.lent(data)
    area = lib.room(IMG_BYTES)
    answer = accepted(library().kutimuq_read_img(data, len(data), area, len(area)), RefusedScan)
    return Img(area.raw[: img_line_bytes(answer.width) * answer.lines], answer.width, answer.lines)


# The sizes of Spectrum 512 pictures; spectrum.py has all else.

SPECTRUM_WIDTH = 320
SPECTRUM_LINES = 200  # line 0 has no palette: 1 to 199 can be shown
SPECTRUM_LINE_PALETTE_WORDS = 48
SPECTRUM_PALETTE_WORDS = SPECTRUM_LINE_PALETTE_WORDS * (SPECTRUM_LINES - 1)
assert SPU_FILE_BYTES == SCREEN_BYTES + WORD_BYTES * SPECTRUM_PALETTE_WORDS


def read_any(data, kind: int) -> Picture | Plate | Img | Spectrum:
    """What is in a file's bytes: a MacPaint file's plate, a GEM IMG file's scan, a Spectrum 512 file's picture, or the
    picture of another kind.
    """
    if kind == Kind.MAC:
        return read_plate(data)
    if kind == Kind.IMG:
        return read_img(data)
    if kind in (Kind.SPU, Kind.SPC):
        from .spectrum import read_spectrum

        return read_spectrum(kind, data)
    return read(data, kind)


# Single rows.


class Row(bytes):
    """A row, packed or unpacked, with the number of its packed bytes and records."""

    packed = 0
    records = 0


def unpack_row(packed, width: int) -> Row:
    """The row of this width at the front of the packed bytes; some may be left over."""
    packed = lib.lent(packed)
    width = lib.size(width)
    out = lib.room(WIDEST_ROW)
    answer = library().kutimuq_unpack_row(packed, len(packed), width, out, len(out))
    return _row(accepted(answer), out.raw[:width])


def pack_row(row) -> Row:
    """The shortest packed bytes of a row of 1 to 128 bytes."""
    row = lib.lent(row)
    out = lib.room(LONGEST_PACKED_ROW)
    answer = library().kutimuq_pack_row(row, len(row), out, len(out))
    return _row(accepted(answer), out.raw[: answer.bytes])


def _row(answer, made: bytes) -> Row:
    row = Row(made)
    row.packed = answer.bytes
    row.records = answer.records
    return row


# Screens: their shapes, rectangles on them, and their registers, one byte a pixel.


class Shape(namedtuple("Shape", "width height planes")):
    """The pixels and planes of a resolution, or of a plate."""

    __slots__ = ()
    width: int
    height: int
    planes: int

    @property
    def registers(self) -> int:
        """The number of registers."""
        return 1 << self.planes


SHAPES = {0: Shape(320, 200, 4), 1: Shape(640, 200, 2), 2: Shape(640, 400, 1)}
PLATE_SHAPE = Shape(PLATE_WIDTH, PLATE_HEIGHT, 1)

# Stands in for an unknown resolution, so that the library is asked and refuses it.
UNKNOWN_SHAPE = Shape(640, 1, 0)


def shape(resolution: int) -> Shape:
    """Width, height and planes of a resolution."""
    return SHAPES.get(resolution, UNKNOWN_SHAPE)


class Rectangle(namedtuple("Rectangle", "left top columns lines")):
    """A part of a screen, in pixels."""

    __slots__ = ()
    left: int
    top: int
    columns: int
    lines: int


def rectangle_struct(rectangle, resolution: int) -> lib.Rectangle:
    """The rectangle as the library takes it; None is the whole screen."""
    if rectangle is None:
        width, height, _ = shape(resolution)
        rectangle = Rectangle(0, 0, width, height)
    left, top, columns, lines = rectangle
    return lib.Rectangle(lib.size(left), lib.size(top), lib.size(columns), lib.size(lines))


def screen_out(screen, resolution: int) -> bytes:
    """All registers of a screen, line by line from the top."""
    screen = lib.lent(screen)
    width, height, _ = shape(resolution)
    out = lib.room(width * height)
    accepted(library().kutimuq_screen_out(screen, len(screen), lib.word(resolution), out, len(out)))
    return out.raw


def screen_in(pixels: bytes, resolution: int) -> bytes:
    """The screen of these registers; too few get 1, and a number that is no register gets 10."""
    screen = lib.room(SCREEN_BYTES)
    accepted(library().kutimuq_screen_in(screen, len(screen), lib.word(resolution), pixels, len(pixels)))
    return screen.raw


def line_out(screen, resolution: int, line: int) -> bytes:
    """The registers of a scan line."""
    screen = lib.lent(screen)
    out = lib.room(shape(resolution).width)
    number = lib.word(resolution)
    accepted(library().kutimuq_line_out(screen, len(screen), number, lib.size(line), out, len(out)))
    return out.raw


def line_in(screen, resolution: int, line: int, registers) -> bytes:
    """A copy of the screen with the registers of a scan line put in."""
    screen = lib.lent(screen)
    changed = (ctypes.c_char * len(screen)).from_buffer_copy(screen)
    row = register_bytes(registers)
    number = lib.word(resolution)
    accepted(library().kutimuq_line_in(changed, len(changed), number, lib.size(line), row, len(row)))
    return changed.raw


def register_rows(screen, resolution: int) -> list[bytes]:
    """The registers as a list of bytes, one for each scan line."""
    return pixel_rows(screen_out(screen, resolution), shape(resolution).width)


def registers(screen, resolution: int):
    """The registers: a numpy uint8 array, height x width; without numpy a list of bytes rows."""
    return pixel_array(screen_out(screen, resolution), shape(resolution).width)


def pixel_rows(pixels: bytes, width: int) -> list[bytes]:
    """Pixels, one byte each, as a list of rows."""
    return [pixels[start : start + width] for start in range(0, len(pixels), width)]


def pixel_array(pixels: bytes, width: int):
    """Pixels, one byte each, as a numpy uint8 array, height x width; without numpy a list of bytes rows."""
    try:
        import numpy
    except ImportError:
        return pixel_rows(pixels, width)
    return numpy.frombuffer(bytearray(pixels), dtype=numpy.uint8).reshape(-1, width)


def screen_from_registers(rows, resolution: int) -> bytes:
    """The screen of these registers: exactly height rows of exactly width numbers each.

    Refused in order: an unknown resolution with 5, rows or numbers missing with 1, too many with 10, a number that
    is no register with 10. A masked numpy array is no array of registers: ValueError.
    """
    if resolution not in SHAPES:
        return screen_in(b"", resolution)
    width, height, _ = shape(resolution)
    refuse_masked(rows)
    rows = [register_bytes(row) for row in rows]
    lengths = [len(row) for row in rows]
    if len(rows) < height or min(lengths) < width:
        raise Refused(RefusalNumber.AREA_TOO_SHORT)
    if len(rows) > height or max(lengths) > width:
        raise Refused(RefusalNumber.OUT_OF_RANGE)
    return screen_in(b"".join(rows), resolution)


def from_registers(rows, palette, tail: Tail | None = None) -> Picture:
    """The picture of these registers; their number decides the resolution. ValueError if no screen has so many."""
    rows = list(rows) if not hasattr(rows, "shape") else rows
    resolution = resolution_of(len(rows[0]) if len(rows) else 0, len(rows))
    screen = screen_from_registers(rows, resolution)
    return Picture(resolution, tuple(palette), tail is not None, Tail() if tail is None else tail, screen)


def resolution_of(width: int, height: int) -> int:
    """The resolution of this width and height."""
    for resolution, (columns, lines, _) in SHAPES.items():
        if (width, height) == (columns, lines):
            return resolution
    raise ValueError(f"no screen has {width} x {height} pixels")


def register_bytes(registers) -> bytes:
    """Registers as bytes: bytes as they stand, any other row number by number."""
    refuse_masked(registers)
    try:
        view = memoryview(registers)
    except TypeError:
        view = None
    if view is not None and view.format == "B" and view.ndim == 1:
        return view.tobytes()
    # No register is above 15: the library refuses the 255 that stands for a larger number.
    return bytes(lib.byte(value) for value in registers)


def refuse_masked(array) -> None:
    """A masked array hides values that are there: it is for the caller to say what they are."""
    numpy = sys.modules.get("numpy")
    masked = getattr(getattr(numpy, "ma", None), "MaskedArray", None)
    if masked is not None and isinstance(array, masked):
        raise ValueError("a masked array is not taken: fill it first")
