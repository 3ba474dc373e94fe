"""The index: colours, tallies and pond readings."""

from __future__ import annotations

from collections import namedtuple

from . import library as lib
from .files import MACHINE_NAMES, Machine, number_of
from .library import accepted, library
from .pictures import rectangle_struct, shape

PALETTE_WORDS = 16
LOW_RESOLUTION = 0
STE_BITS = 0x0888  # of a palette word; an ST ignores them
STE_HINT = "palette words with bit 3, 7 or 11 set, as on an STE"


class Colour(namedtuple("Colour", "red green blue")):
    """A colour, each part from 0 to 255."""

    __slots__ = ()
    red: int
    green: int
    blue: int


class Pond(namedtuple("Pond", "sure unsure other")):
    """Pixels of the party's class at or above the floor, of that class below it, and all others."""

    __slots__ = ()
    sure: int
    unsure: int
    other: int


def colour(resolution: int, palette, register: int, machine=Machine.ST) -> Colour:
    """The colour of a register, each part from 0 to 255, on a machine: 1 or "st", 2 or "ste".

    Refused with 5 for an unknown resolution, then with 10 for an unknown machine or register.
    """
    struct = lib.Palette()
    struct.words[:] = lib.words(palette, 16)
    number = lib.byte(number_of(machine, MACHINE_NAMES))
    answer = accepted(library().kutimuq_colour(lib.word(resolution), number, struct, lib.byte(register)))
    return Colour(answer.red, answer.green, answer.blue)


def colours(resolution: int, palette, machine=Machine.ST) -> list[Colour]:
    """The colours of all registers of a resolution on a machine, register 0 first."""
    return [colour(resolution, palette, register, machine) for register in range(shape(resolution).registers)]


def word_colours(words, machine=Machine.ST) -> dict[int, Colour]:
    """The colours of palette words, by word, on a machine; 16 a palette, as at low resolution."""
    distinct = sorted(set(words))
    found: dict[int, Colour] = {}
    for start in range(0, len(distinct), PALETTE_WORDS):
        palette = distinct[start : start + PALETTE_WORDS]
        filled = [*palette, *[0] * (PALETTE_WORDS - len(palette))]
        found.update(zip(palette, colours(LOW_RESOLUTION, filled, machine)))
    return found


def has_ste_bits(resolution: int, palette) -> bool:
    """Whether an STE shows otherwise what a palette has in the bits that an ST ignores: a hint that it is an STE's."""
    without = [word & ~STE_BITS for word in palette]
    return colours(resolution, palette, Machine.STE) != colours(resolution, without, Machine.STE)


def tally(screen, resolution: int, rectangle=None) -> tuple[int, ...]:
    """The pixels of each of the 16 registers in a rectangle (left, top, columns, lines) or on the whole screen."""
    screen = lib.lent(screen)
    area = rectangle_struct(rectangle, resolution)
    answer = library().kutimuq_tally(screen, len(screen), lib.word(resolution), area)
    return tuple(accepted(answer).counts)


def pond(screen, resolution: int, rectangle, class_: int, floor: int, legend, party=1) -> Pond:
    """The pond reading of a class for a party: 1 or "us", 2 or "them". Entries that it does not own count as other.

    The rectangle is (left, top, columns, lines), or None for the whole screen. The legend is a Legend, or 16 entries
    of which one can be made.
    """
    from .legend import PARTIES, Legend, legend_struct

    screen = lib.lent(screen)
    area = rectangle_struct(rectangle, resolution)
    struct = legend_struct(legend if isinstance(legend, Legend) else Legend(legend))
    number = lib.byte(number_of(party, PARTIES))
    answer = library().kutimuq_pond(
        screen, len(screen), lib.word(resolution), area, number, lib.word(class_), lib.byte(floor), struct
    )
    return Pond(accepted(answer).sure, answer.unsure, answer.other)


def levels(machine=Machine.ST) -> list[tuple[int, tuple[int, int, int], int]]:
    """For each level of a machine its palette words for red, green and blue, and the value from 0 to 255 that is shown.

    Of the words that show the same level, the least.
    """
    shown: dict[int, tuple[int, int, int]] = {}
    for nibble in range(16):
        words = (nibble << 8, nibble << 4, nibble)
        shown.setdefault(colour(0, [sum(words)] * 16, 0, machine).red, words)
    return [(level, words, value) for level, (value, words) in enumerate(sorted(shown.items()))]
