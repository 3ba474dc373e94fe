"""Where a refused Spectrum 512 file is at fault, in words, for the desk that reads worn floppies again.

The library judges; here the bytes of the file are only walked to the fault that it gives.
"""

from __future__ import annotations

from .files import (
    READ_LIMIT,
    SECTOR_BYTES,
    SPC_DATA_BYTES,
    SPC_FLAG,
    SPC_HEADER,
    SPC_PALETTES,
    SPC_START,
    SPU_FILE_BYTES,
    WORD_BYTES,
    Kind,
    other_format,
    spc_length,
    spc_lengths,
)
from .library import RefusalNumber, Refused
from .spectrum import FIRST_LINE

PLANE_BYTES = 7_960  # of lines 1 to 199
LINE_BYTES = 40  # of a plane
LINE_PALETTES = 3
BIT_15 = 0x8000
SMOOSHED = "packed as smooshed (SPS), another format"

# Of a control byte: the bytes that its record makes, and those that it has with the control byte.


def spc_record(control: int) -> tuple[int, int]:
    """0 to 127 takes the next x + 1 bytes as they stand; -128 to -1 takes the next byte -x + 2 times."""
    return (control + 1, control + 2) if control < 0x80 else (0x102 - control, 2)


def smooshed_record(control: int) -> tuple[int, int]:
    """0 to 127 takes the next byte x + 3 times; 128 to 255 takes the next x - 127 bytes as they stand."""
    return (control + 3, 2) if control < 0x80 else (control - 0x7F, control - 0x7E)


def words_on(refusal: Refused, kind: int, data: bytes) -> str:
    """What the bytes of a file tell on its refusal; empty where they tell nothing more."""
    if kind == Kind.SPC:
        said = spc_words(refusal, data)
    elif kind == Kind.SPU and refusal.number == RefusalNumber.WRONG_LENGTH:
        said = [f"an SPU file has {SPU_FILE_BYTES} bytes"]
    else:
        said = []
    if other_format(data):
        said.append(other_format(data))
    return ", ".join(said)


def spc_words(refusal: Refused, data: bytes) -> list[str]:
    """What is said of an SPC file."""
    if refusal.number == RefusalNumber.WRONG_LENGTH:
        return length_words(data)
    if refusal.number == RefusalNumber.WRONG_HEADER:
        is_flag = data[: len(SPC_FLAG)] != SPC_FLAG
        return [f"flag {data[:2].hex()}" if is_flag else f"reserved word {data[2:4].hex()}"]
    if refusal.number in (RefusalNumber.AREA_TOO_SHORT, RefusalNumber.UNKNOWN_KIND):
        return []
    said = map_words(refusal, data)
    end, made = walked(data, smooshed_record)
    whole = made == SPC_DATA_BYTES and SPC_HEADER + spc_lengths(data)[0] - end <= 1
    return [*said, SMOOSHED] if whole else said


def length_words(data: bytes) -> list[str]:
    """What is said of a length: the one that the header gives, if it is an SPC file's."""
    if len(data) < SPC_HEADER:
        return [f"shorter than its header of {SPC_HEADER} bytes"]
    if not data.startswith(SPC_START):
        return []
    has = f"{len(data)} bytes" if len(data) < READ_LIMIT else f"{READ_LIMIT} bytes or more"
    return [f"its two lengths give {spc_length(data)} bytes, it has {has}"]


def map_words(refusal: Refused, data: bytes) -> list[str]:
    """In which map the fault is, and where there."""
    end, made = walked(data, spc_record)
    map_end = SPC_HEADER + spc_lengths(data)[0]
    if made < SPC_DATA_BYTES:
        plane, rest = divmod(made, PLANE_BYTES)
        line = FIRST_LINE + rest // LINE_BYTES
        return ["data map", f"plane {plane}", f"scan line {line}", *spot(end, refusal)]
    if refusal.number == RefusalNumber.SIZE_MISMATCH and map_end - end > 1:
        return ["data map", left(map_end - end), *spot(end, refusal)]
    return ["colour map", *palette_words(refusal, data, map_end)]


def palette_words(refusal: Refused, data: bytes, start: int) -> list[str]:
    """Which palette of the colour map is at fault, or how many bytes are left after the last."""
    place = start
    for number in range(SPC_PALETTES):
        vector = int.from_bytes(data[place : place + WORD_BYTES], "big")
        end = place + WORD_BYTES * (1 + bin(vector).count("1"))
        if vector & BIT_15 or end > len(data) or place + WORD_BYTES > len(data):
            line = FIRST_LINE + number // LINE_PALETTES
            return [f"palette {number}", f"scan line {line}", *spot(place, refusal)]
        place = end
    return [left(len(data) - place), *spot(place, refusal)]


def left(count: int) -> str:
    """So many bytes after the last record or palette, in words."""
    return f"{count} byte{'s' if count != 1 else ''} left"


def walked(data: bytes, record) -> tuple[int, int]:
    """Where the whole records of the data map end that make no more than it has, and the bytes that they make.

    `record(control)` says what a control byte stands for.
    """
    place, made = SPC_HEADER, 0
    end = SPC_HEADER + spc_lengths(data)[0]
    while place < end and made < SPC_DATA_BYTES:
        makes, has = record(data[place])
        if made + makes > SPC_DATA_BYTES or place + has > end:
            break
        place += has
        made += makes
    return place, made


def spot(offset: int, refusal: Refused) -> list[str]:
    """The sector of an offset, and the offset where the refusal does not give it."""
    sector = f"sector {offset // SECTOR_BYTES}"
    return [sector] if offset == refusal.place else [f"offset {offset}", sector]
