"""Makes the samples: ponds.pc1, a class map of a salt works with 16 ponds of one register each; sheet.img, the scan of
a field sheet with a pond's name, its hatched outline and ruled lines; dusk.spu and dusk.spc, a Spectrum 512 picture of
salt ponds at dusk; torn.pc1, torn.img and torn.spc, what a bad sector leaves of them.

python3 samples/make.py [FOLDER]
"""

import re
import sys
from itertools import groupby
from pathlib import Path

SAMPLES = Path(__file__).resolve().parent
sys.path.insert(0, str(SAMPLES.parent / "bindings" / "python"))

import kutimuq

WIDTH, HEIGHT = 320, 200
POND_WIDTH, POND_HEIGHT = 80, 50
DYKE = 4
SECTOR = 512

GROUND, BRINE, MIXED, SHADOW = 0, 2, 3, 4

PALETTE = (
    0x0654, 0x0247, 0x0735, 0x0524, 0x0222, 0x0467, 0x0576, 0x0354,
    0x0463, 0x0741, 0x0752, 0x0763, 0x0777, 0x0310, 0x0430, 0x0111,
)


def register(x, y):
    """Ponds 0 to 15 from the top left; the magnesium brine has a mixed rim and a shadow."""
    pond = y // POND_HEIGHT * 4 + x // POND_WIDTH
    left, top = x % POND_WIDTH, y % POND_HEIGHT
    if left < DYKE or top < DYKE:
        return GROUND
    if pond != BRINE:
        return pond
    if left < 2 * DYKE or top < 2 * DYKE:
        return MIXED
    return SHADOW if left >= 60 and top >= 30 else BRINE


def ponds():
    """The map, DEGAS Elite packed."""
    rows = [bytes(register(x, y) for x in range(WIDTH)) for y in range(HEIGHT)]
    picture = kutimuq.from_registers(rows, PALETTE)
    return kutimuq.write(picture, picture.screen, kutimuq.Form.PACKED)


def torn(file, sector):
    """The file with a sector unreadable, so that the disk drive gave bytes of 0xE5."""
    return file[: sector * SECTOR] + b"\xe5" * SECTOR + file[(sector + 1) * SECTOR :]


SHEET_WIDTH, SHEET_LINES = 509, 380  # a line's last byte has padding bits
PATTERN_BYTES, PIXEL_MICRONS = 2, 372
RUNS = re.compile(rb"(\x00+|\xff+)|(..)\2+", re.DOTALL)  # solid, or of a pattern
FRAME, RULE, FIRST_RULE, MARGIN = 3, 24, 260, 24
CENTRE, RADII, RIM, HATCH = (330, 130), (150, 100), 0.94, 16
LETTER_SIZE, LETTER_STEP, LETTERS_AT = 4, 28, (24, 24)
# Five columns and seven rows a letter, a row's leftmost pixel in the top of its five bits.
LETTERS = (
    (0x1E, 0x11, 0x11, 0x1E, 0x10, 0x10, 0x10), (0x0E, 0x11, 0x11, 0x11, 0x11, 0x11, 0x0E),
    (0x11, 0x19, 0x15, 0x13, 0x11, 0x11, 0x11), (0x1E, 0x11, 0x11, 0x11, 0x11, 0x11, 0x1E),
    (0, 0, 0, 0, 0, 0, 0), (0x1F, 0x01, 0x02, 0x04, 0x08, 0x08, 0x08),
)


def in_letters(x, y):
    """Whether a pixel is of the words POND 7."""
    number, column = divmod(x - LETTERS_AT[0], LETTER_STEP)
    row, column = (y - LETTERS_AT[1]) // LETTER_SIZE, column // LETTER_SIZE
    if not (0 <= number < len(LETTERS) and 0 <= row < 7 and column < 5):
        return False
    return LETTERS[number][row] >> (4 - column) & 1


def is_black(x, y):
    """A frame, the pond's outline and hatch, its name, and lines to write on."""
    framed = min(x, y, SHEET_WIDTH - 1 - x, SHEET_LINES - 1 - y) < FRAME
    ruled = y >= FIRST_RULE and y % RULE == 0 and MARGIN <= x < SHEET_WIDTH - MARGIN
    away = sum(((at - centre) / radius) ** 2 for at, centre, radius in zip((x, y), CENTRE, RADII))
    pond = RIM < away < 1 or away <= RIM and (x + y) % HATCH < 2
    return framed or ruled or pond or in_letters(x, y)


def packed_line(line):
    """A line's records: solid runs, pattern runs and, between them, literals."""
    records, done = b"", 0
    for run in RUNS.finditer(line):
        solid, pattern = run.groups()
        count = len(run[0]) // PATTERN_BYTES
        records += literal(line[done : run.start()])
        records += bytes((solid[0] & 0x80 | len(solid),)) if solid else bytes((0, count)) + pattern
        done = run.end()
    return records + literal(line[done:])


def literal(data):
    return bytes((0x80, len(data))) + data if data else b""


def sheet():
    """The scan, GEM IMG, with a scanline run before lines that are alike."""
    words = (1, 8, 1, PATTERN_BYTES, PIXEL_MICRONS, PIXEL_MICRONS, SHEET_WIDTH, SHEET_LINES)
    file = b"".join(word.to_bytes(2, "big") for word in words)
    shift = -SHEET_WIDTH % 8
    rows = (sum(1 << (SHEET_WIDTH - 1 - x) for x in range(SHEET_WIDTH) if is_black(x, y)) for y in range(SHEET_LINES))
    lines = [(row << shift).to_bytes((SHEET_WIDTH + 7) // 8, "big") for row in rows]
    for line, alike in groupby(lines):
        count = len(list(alike))
        file += (bytes((0, 0, 0xFF, count)) if count > 1 else b"") + packed_line(line)
    return file


HORIZON, SUN, SUN_RADIUS, GLOW_REACH = 112, (206, 92), 19, 80
# Red, green and blue from 0 to 7, and the share of the sky's height where it has each colour.
SKY = ((0.0, (0.6, 0.8, 3.4)), (0.35, (2.2, 1.4, 4.4)), (0.65, (5.2, 2.2, 4.0)), (0.85, (6.8, 3.6, 2.6)),
       (1.0, (7.0, 5.4, 2.4)))
GLOW = (1.2, 2.2, 0.2)
SUN_TOP, SUN_FOOT = (7.4, 7.2, 4.6), (7.4, 4.0, 0.6)
GLINT = (2.6, 1.8, 0.4)
POND_ROWS = (114, 120, 131, 149, 176, 201)  # the lines where ponds begin, the last one's end
POND_EDGES = (-5.2, -2.6, -1.1, -0.1, 1.3, 3.4)  # in columns from the sun for each line below the eye
EYE = 100
HUES = ((6.4, 2.4, 3.8), (1.2, 4.8, 5.0), (6.8, 4.2, 1.6), (2.6, 4.6, 1.8), (5.2, 5.4, 5.8), (4.2, 2.2, 5.4),
        (1.4, 3.0, 5.8))
THRESHOLDS = (0.1, 0.6, 0.35, 0.85)  # by line: between two levels some lines take the upper
LEVEL_MAX = 7
BLACK, COLOURED = 0, range(1, 15)  # registers; 15 has no colour in an SPC file
PALETTE_WORDS, POSITIONS = 16, 48
LINE_BYTES, GROUP_BYTES, PLANES, WORD_BYTES = 160, 8, 4, 2
LONGEST_LITERAL = 128
SPC_RUNS = re.compile(rb"(.)\1{2,129}", re.DOTALL)


def mixed(first, second, share):
    return tuple(a + (b - a) * share for a, b in zip(first, second))


def sky(x, y):
    """The sky's gradient, with a glow around the sun, and the sun itself."""
    away = ((x - SUN[0]) ** 2 + (y - SUN[1]) ** 2) ** 0.5
    if away < SUN_RADIUS:
        return mixed(SUN_TOP, SUN_FOOT, (y - SUN[1] + SUN_RADIUS) / (2 * SUN_RADIUS))
    height = y / HORIZON
    foot = next(number for number, (share, _) in enumerate(SKY) if height <= share) or 1
    (above, first), (below, second) = SKY[foot - 1 : foot + 1]
    glow = max(0, 1 - away / GLOW_REACH)
    return tuple(part + glow * add for part, add in zip(mixed(first, second, (height - above) / (below - above)), GLOW))


def water(x, y):
    """Ponds in perspective, each of one hue that grows lighter towards the sky, with the sun's glint; black dykes."""
    row = sum(y >= line for line in POND_ROWS) - 1
    slant = (x - SUN[0]) / (y - EYE)
    column = sum(slant >= edge for edge in POND_EDGES)
    dyke = min(abs(slant - edge) for edge in POND_EDGES) * (y - EYE) < 1 + (y - HORIZON) / 40
    if row < 0 or dyke or y >= POND_ROWS[row + 1] - 1 - row // 2:
        return (0, 0, 0)
    hue = HUES[(3 * row + 2 * column) % len(HUES)]
    depth = (y - POND_ROWS[row]) / (POND_ROWS[row + 1] - POND_ROWS[row])
    glint = max(0, 1 - abs(x - SUN[0]) / (24 + (y - HORIZON) / 2))
    return tuple((1.15 - 0.5 * depth) * part + glint * add for part, add in zip(hue, GLINT))


def palette_word(x, y):
    """The ST's word for the colour at a pixel."""
    parts = sky(x, y) if y < HORIZON else water(x, y)
    levels = [max(0, min(LEVEL_MAX, int(part + THRESHOLDS[y % len(THRESHOLDS)]))) for part in parts]
    return levels[0] << 8 | levels[1] << 4 | levels[2]


def painted(words, position_of):
    """A line's registers and its 48 palette words, None where none is needed.

    A run of one colour takes the first register whose words along it are free or have that colour.
    """
    named, registers = [None] * POSITIONS, b""
    for word, run in groupby(range(WIDTH), key=words.__getitem__):
        columns = list(run)
        register, positions = BLACK, ()
        if word:
            places = ((each, {position_of[each][x] for x in columns}) for each in COLOURED)
            register, positions = next(place for place in places if fits(named, word, place[1]))
        for position in positions:
            named[position] = word
        registers += bytes((register,)) * len(columns)
    return registers, named


def fits(named, word, positions):
    return all(named[position] in (None, word) for position in positions)


def dusk():
    """The screen of the picture, and its 597 palettes; what needs no word keeps that of the palette before."""
    position_of = [[kutimuq.Spectrum.position(x, register) for x in range(WIDTH)] for register in range(PALETTE_WORDS)]
    rows, palettes, before = [bytes(WIDTH)], [], (0,) * PALETTE_WORDS
    for y in range(1, HEIGHT):
        row, named = painted([palette_word(x, y) for x in range(WIDTH)], position_of)
        rows.append(row)
        for start in range(0, POSITIONS, PALETTE_WORDS):
            needed = named[start : start + PALETTE_WORDS]
            before = tuple(old if new is None else new for old, new in zip(before, needed))
            palettes.append(before)
    return kutimuq.screen_from_registers(rows, 0), palettes


def big_endian(words):
    return b"".join(word.to_bytes(2, "big") for word in words)


def spu(screen, palettes):
    return screen + b"".join(map(big_endian, palettes))


def spc(screen, palettes):
    """The compressed file."""
    maps = data_map(screen), colour_map(palettes)
    lengths = b"".join(len(each).to_bytes(4, "big") for each in maps)
    return b"SP\0\0" + lengths + b"".join(maps)


def data_map(screen):
    """The planes of lines 1 to 199, in runs and literals."""
    starts = range(LINE_BYTES, len(screen), GROUP_BYTES)
    words = ((start + WORD_BYTES * plane for start in starts) for plane in range(PLANES))
    data = b"".join(screen[at : at + WORD_BYTES] for places in words for at in places)
    records, done = b"", 0
    for run in SPC_RUNS.finditer(data):
        records += literals(data[done : run.start()]) + bytes((0x102 - len(run[0]), run[0][0]))
        done = run.end()
    return records + literals(data[done:])


def literals(data):
    pieces = (data[start : start + LONGEST_LITERAL] for start in range(0, len(data), LONGEST_LITERAL))
    return b"".join(bytes((len(piece) - 1,)) + piece for piece in pieces)


def colour_map(palettes):
    """For each palette a vector, and the words that are not those of the palette before."""
    words, before = [], (0,) * PALETTE_WORDS
    for palette in palettes:
        changed = [number for number in range(PALETTE_WORDS) if palette[number] != before[number]]
        words += [sum(1 << number for number in changed), *(palette[number] for number in changed)]
        before = palette
    return big_endian(words)


if __name__ == "__main__":
    folder = Path(sys.argv[1]) if len(sys.argv) > 1 else SAMPLES
    (folder / "ponds.pc1").write_bytes(ponds())
    (folder / "torn.pc1").write_bytes(torn(ponds(), 8))
    (folder / "sheet.img").write_bytes(sheet())
    (folder / "torn.img").write_bytes(torn(sheet(), 4))
    picture = dusk()
    (folder / "dusk.spu").write_bytes(spu(*picture))
    (folder / "dusk.spc").write_bytes(spc(*picture))
    (folder / "torn.spc").write_bytes(torn(spc(*picture), 18))
