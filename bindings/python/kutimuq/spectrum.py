"""Spectrum 512 pictures: read, and shown with the palette words in force at each pixel."""

from __future__ import annotations

import os
import sys
from array import array
from collections import namedtuple

from . import library as lib
from .files import KIND_NAMES, Machine, find_kind, number_of, put, take, take_from
from .index import LOW_RESOLUTION, STE_BITS, Colour, word_colours
from .library import RefusalNumber, Refused, RefusedSpectrum, accepted, library
from .pictures import (
    SCREEN_BYTES,
    SPECTRUM_LINE_PALETTE_WORDS,
    SPECTRUM_LINES,
    SPECTRUM_PALETTE_WORDS,
    SPECTRUM_WIDTH,
    registers,
)

FIRST_LINE = 1  # that can be shown
SHOWN_LINES = range(FIRST_LINE, SPECTRUM_LINES)
COLOUR_BYTES = 3  # red, green and blue
IMAGE_EXTENSIONS = (".png", ".ppm")


class Spectrum(namedtuple("Spectrum", "screen palettes")):
    """A screen of 32,000 bytes at low resolution, 320 x 200, and 9,552 palette words, 48 for each of lines 1 to 199.

    The words are kept whole. Line 0 has no palette and is never shown: images have it black.
    """

    __slots__ = ()
    screen: bytes
    palettes: tuple[int, ...]
    width = SPECTRUM_WIDTH
    lines = SPECTRUM_LINES

    def __repr__(self) -> str:
        return f"<kutimuq.Spectrum: {self.width} x {self.lines}>"

    @staticmethod
    def position(column: int, register: int) -> int:
        """Which of a line's 48 palette words, from 0, is in force at a column for a register.

        Refused with 10 outside 320 columns or 16 registers.
        """
        return accepted(library().kutimuq_spectrum_position(lib.size(column), lib.byte(register))).position

    def word(self, column: int, line: int) -> int:
        """The palette word that a pixel shows.

        Refused with 1 where bytes or words are missing, then with 10 outside 320 columns or lines 1 to 199.
        """
        answer = library().kutimuq_spectrum_word(*lent_areas(self), lib.size(column), lib.size(line))
        return accepted(answer).word

    def line(self, line: int) -> tuple[int, ...]:
        """The 320 palette words that a scan line shows, from the left; refused as word is."""
        return tuple(line_words(lent_areas(self), line))

    def palette(self, line: int) -> tuple[int, ...]:
        """The 48 palette words of a scan line.

        Refused with 1 where words are missing, then with 10 outside lines 1 to 199.
        """
        if len(self.palettes) < SPECTRUM_PALETTE_WORDS:
            raise Refused(RefusalNumber.AREA_TOO_SHORT)
        if line not in SHOWN_LINES:
            raise Refused(RefusalNumber.OUT_OF_RANGE)
        start = SPECTRUM_LINE_PALETTE_WORDS * (line - FIRST_LINE)
        return tuple(self.palettes[start : start + SPECTRUM_LINE_PALETTE_WORDS])

    def words(self) -> array:
        """The palette words that the pixels of lines 1 to 199 show, from the top left: an array of 63,680."""
        areas = lent_areas(self)
        return array("H", b"".join([bytes(line_words(areas, line)) for line in SHOWN_LINES]))

    def registers(self):
        """The registers, 200 x 320: a numpy uint8 array where numpy is present, else a list of bytes rows.

        A register is no class: its colour changes along the line.
        """
        return registers(self.screen, LOW_RESOLUTION)

    def colour(self, column: int, line: int, machine=Machine.ST) -> Colour:
        """The colour of a pixel on a machine, 1 or "st", 2 or "ste"; refused as word is."""
        word = self.word(column, line)
        return word_colours([word], machine)[word]

    def colours(self, machine=Machine.ST):
        """The colours of all pixels on a machine: a numpy uint8 array, 200 x 320 x 3, where numpy is present, else a
        list of bytes rows, three bytes a pixel.
        """
        rows = self.colour_rows(machine)
        try:
            import numpy
        except ImportError:
            return rows
        flat = numpy.frombuffer(bytearray(b"".join(rows)), dtype=numpy.uint8)
        return flat.reshape(SPECTRUM_LINES, SPECTRUM_WIDTH, COLOUR_BYTES)

    def colour_rows(self, machine=Machine.ST) -> list[bytes]:
        """The rows from line 0 on, three bytes a pixel: red, green and blue on a machine. Line 0 is black."""
        words = self.words()
        parts = {word: bytes(colour) for word, colour in word_colours(words, machine).items()}
        starts = range(0, len(words), SPECTRUM_WIDTH)
        black = bytes(COLOUR_BYTES * SPECTRUM_WIDTH)
        return [black] + [b"".join([parts[word] for word in words[at : at + SPECTRUM_WIDTH]]) for at in starts]

    def colour_count(self, machine=Machine.ST) -> int:
        """How many different colours lines 1 to 199 show on a machine."""
        return count_colours(self.words(), machine)

    def ppm(self, machine=Machine.ST) -> bytes:
        """A portable pixmap (P6) of the colours on a machine; row y is scan line y, and line 0 is black."""
        from .images import spectrum_pixmap_of

        return spectrum_pixmap_of(self, machine)

    def png(self, machine=Machine.ST) -> bytes:
        """A truecolour PNG of the colours on a machine; row y is scan line y, and line 0 is black."""
        from .images import spectrum_png_of

        return spectrum_png_of(self, machine)

    def save(self, path, machine=Machine.ST) -> None:
        """Writes the colours on a machine to an image, whole or not at all; .png or .ppm names which."""
        extension = os.path.splitext(os.fspath(path))[1].lower()
        if extension not in IMAGE_EXTENSIONS:
            raise ValueError(f"{extension!r} is none of {', '.join(IMAGE_EXTENSIONS)}")
        put(path, self.png(machine) if extension == ".png" else self.ppm(machine))


def open_spectrum(file, kind=None) -> Spectrum:
    """The picture in a Spectrum 512 file, given by its path or open for bytes.

    The kind is Kind.SPU or Kind.SPC, its number or its name; without one it is found by content, then by extension.
    """
    opened = hasattr(file, "read")
    data = take_from(file) if opened else take(file)
    if kind is None:
        name = getattr(file, "name", "") if opened else os.fspath(file)
        kind = find_kind(data, name if isinstance(name, str) else "").kind
    return read_spectrum(number_of(kind, KIND_NAMES), data)


def read_spectrum(kind: int, data) -> Spectrum:
    """The picture in a Spectrum 512 file's bytes; the kind is Kind.SPU or Kind.SPC, or its number."""
    data = lib.lent(data)
    screen, palettes = lib.room(SCREEN_BYTES), lib.word_room(SPECTRUM_PALETTE_WORDS)
    answer = library().kutimuq_read_spectrum(
        lib.byte(kind), data, len(data), screen, len(screen), palettes, len(palettes)
    )
    try:
        accepted(answer, RefusedSpectrum)
    except RefusedSpectrum as refusal:
        from .spectrum_faults import words_on

        refusal.where = words_on(refusal, kind, data)
        raise
    return Spectrum(screen.raw, tuple(palettes))


def lent_areas(picture: Spectrum) -> tuple:
    """A picture's screen and palettes as the library takes them, each with its length."""
    screen, palettes = lib.lent(picture.screen), lib.lent_words(picture.palettes)
    return screen, len(screen), palettes, len(palettes)


def line_words(areas: tuple, line: int):
    """The array of the words that a scan line shows, given what lent_areas gives."""
    out = lib.word_room(SPECTRUM_WIDTH)
    accepted(library().kutimuq_spectrum_line(*areas, lib.size(line), out, len(out)))
    return out


def count_colours(words, machine=Machine.ST) -> int:
    """How many different colours palette words have on a machine."""
    return len(set(word_colours(words, machine).values()))


def have_ste_bits(words) -> bool:
    """Whether an STE shows otherwise what palette words have in the bits that an ST ignores."""
    return any(word & STE_BITS for word in set(words))


def big_endian(words: array) -> bytes:
    """Words as a file has them."""
    copy = array("H", words)
    if sys.byteorder == "little":
        copy.byteswap()
    return copy.tobytes()
