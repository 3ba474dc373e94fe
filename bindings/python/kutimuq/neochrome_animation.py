"""The colour animation in a NEOchrome picture's header, by either of two lists of picture formats."""

from __future__ import annotations

from collections import namedtuple
from enum import IntEnum
from operator import index

from . import library as lib
from .files import LIST_NAMES, number_of
from .library import accepted, library

HIGH_RESOLUTION = 2


class Direction(IntEnum):
    """Which way the colours cycle, by its number in the library.

    The tail of a DEGAS Elite file numbers its directions otherwise: 0 left, 1 off, 2 right.
    """

    STOPPED = 0
    LEFT = 1
    RIGHT = 2


FIELDS = "limits_valid left_limit right_limit on direction vblanks step_count"


class ColourAnimation(namedtuple("ColourAnimation", FIELDS)):
    """What a list shows of a header: whether the limits are valid, and the registers that they are, 0 and 0 where they
    are not; whether the animation is on; its direction; the vblanks between two cycles, 0 where it is stopped; and the
    steps for which a slide show keeps the picture.
    """

    __slots__ = ()
    limits_valid: bool
    left_limit: int
    right_limit: int
    on: bool
    direction: Direction
    vblanks: int
    step_count: int

    @property
    def colours_cycle(self) -> bool:
        """Whether the animation is on and not stopped, with valid limits that differ.

        The resolution is not looked at: limits beyond its registers are not judged, and at high resolution, where white
        and black are fixed, no colour is seen to cycle.
        """
        moving = self.on and self.direction != Direction.STOPPED
        return moving and self.limits_valid and self.left_limit != self.right_limit


def animation(data, list_) -> ColourAnimation:
    """The colour animation in a NEOchrome file's bytes by a list: 1 or 1989, 2 or 2008.

    Refused in order: with 2 for another list, 3, by the list of 2008 4, and 5. A file that one list refuses the other
    refuses, too; reading judges by the list of 2008.
    """
    data = lib.lent(data)
    answer = accepted(library().kutimuq_animation(lib.byte(list_number(list_)), data, len(data)))
    return ColourAnimation(
        answer.limits_valid,
        answer.left_limit,
        answer.right_limit,
        answer.on,
        Direction(answer.direction),
        answer.vblanks,
        answer.step_count,
    )


def list_number(list_) -> int:
    """The number of a list that is given as a member, as a number, or by its year."""
    number = index(number_of(list_, LIST_NAMES))
    return LIST_NAMES.get(str(number), number)


def cycling_lists(data: bytes, resolution: int) -> list[int]:
    """The years of the lists by which the colours of an accepted NEOchrome file of this resolution cycle."""
    if resolution == HIGH_RESOLUTION:
        return []  # white and black are fixed
    return [int(year) for year in LIST_NAMES if animation(data, year).colours_cycle]


def cycling_text(years: list[int]) -> str:
    """What is said of a file whose colours cycle by these lists, with the list where it is only one."""
    return "colours cycle" + (f" by the list of {years[0]}" if len(years) < len(LIST_NAMES) else "")
