"""Spectrum 512 pictures: read by the library, found by content or extension, shown by the command and the report."""

import csv
import io
import json
import pickle
import random
import shutil
import subprocess
import sys
import tempfile
import unittest
import zlib
from array import array
from base64 import b64encode
from functools import lru_cache
from hashlib import sha256
from itertools import groupby
from pathlib import Path
from unittest import mock

import kutimuq
from kutimuq import Kind, Spectrum, files, images, read_spectrum

from .support import BLANK, PYTHON, Case, command, expected_registers, noise

try:
    import numpy
except ImportError:
    numpy = None

HEADER, MAP, SCREEN, WORDS, SPU_BYTES = 12, 31_840, 32_000, 9_552, 51_104
WIDTH, LINES, PALETTES = 320, 200, 597
NO_CLASSES = (
    "a Spectrum 512 picture has no classes, no tail and no palette of 16: its registers change colour along a line"
)
WRONG_HEADER = "SPC flag or reserved word wrong"
BIT_15 = "bit 15 of an SPC palette's vector set"
ENDS = "input ends before the screen or row is full"
CROSSES = "a record crosses its row's end"
LEFT = "data left or words missing after the last run"
LENGTH = "file length not allowed"
SMOOSHED = "packed as smooshed (SPS), another format"


def big_endian(words):
    return b"".join(word.to_bytes(2, "big") for word in words)


def literal(data):
    return bytes((len(data) - 1,)) + data


def repeat(count, value=0):
    return bytes((0x102 - count, value))


def repeats(total):
    """Records that make so many zeros."""
    rest = total % 130
    return repeat(130) * (total // 130) + (literal(bytes(rest)) if 0 < rest < 3 else repeat(rest) if rest else b"")


def literals(data):
    return b"".join(literal(data[start : start + 128]) for start in range(0, len(data), 128))


def vector(**entries):
    """A palette's vector and words, by number: e3=0x777."""
    named = {int(name[1:]): word for name, word in entries.items()}
    return big_endian([sum(1 << number for number in named), *(named[number] for number in sorted(named))])


def spc(data_map, colour_map, flag=b"SP", reserved=b"\0\0"):
    lengths = b"".join(len(each).to_bytes(4, "big") for each in (data_map, colour_map))
    return flag + reserved + lengths + data_map + colour_map


ZEROS = repeats(MAP)
KEPT = bytes(2)  # a vector that names no entry
BLACK_MAP = KEPT * PALETTES
BLACK = spc(ZEROS, BLACK_MAP)


@lru_cache(maxsize=None)
def planes_and_palettes(seed=5):
    """The bytes of a data map, and 597 lists of the entries that a vector names, with their words."""
    source = random.Random(seed)
    data = b"".join(bytes((source.randrange(256),)) * source.choice((1, 1, 2, 3, 9, 200)) for _ in range(MAP))[:MAP]
    named = [
        {number: source.randrange(1 << 16) for number in range(15) if source.random() < 0.3} for _ in range(PALETTES)
    ]
    return data, named


def reference(data, named):
    """Document 02's reading in plain Python: screen and palette words."""
    screen = bytearray(SCREEN)
    for at, byte in enumerate(data):
        plane, rest = divmod(at, 40 * 199)
        line, column = divmod(rest, 40)
        screen[160 * (line + 1) + 8 * (column // 2) + 2 * plane + column % 2] = byte
    palettes, palette = [], [0] * 16
    for entries in named:
        palette = [entries.get(number, palette[number]) for number in range(16)]
        palettes += palette
    return bytes(screen), tuple(palettes)


def rule(column, register):
    """Document 02's palette position."""
    start = 10 * register - 5 if register % 2 else 10 * register + 1
    return register + 16 * ((column >= start) + (column >= start + 160))


def packed(data):
    """Runs of three or more as repeats, all else as literals."""
    records, plain = b"", b""
    for value, run in groupby(data):
        count = len(list(run))
        while count >= 3:
            records += literals(plain) + repeat(min(count, 130), value)
            plain = b""
            count -= min(count, 130)
        plain += bytes((value,)) * count
    return records + literals(plain)


@lru_cache(maxsize=None)
def good():
    """An SPC file with every kind of record, and one byte left in its data map."""
    data, named = planes_and_palettes()
    vectors = (vector(**{f"e{number}": word for number, word in entries.items()}) for entries in named)
    return spc(packed(data) + b"\7", b"".join(vectors))


@lru_cache(maxsize=None)
def picture():
    return Spectrum(*reference(*planes_and_palettes()))


def spu(screen, palettes):
    return screen + big_endian(palettes)


@lru_cache(maxsize=None)
def shown_words(found):
    """The words that lines 1 to 199 show, by document 02's rule."""
    rows = expected_registers(found.screen, 0)
    return [
        [found.palettes[48 * (y - 1) + rule(x, rows[y][x])] for x in range(WIDTH)] for y in range(1, LINES)
    ]


def st_colour(word):
    return tuple(255 * (word >> shift & 7) // 7 for shift in (8, 4, 0))


def ste_colour(word):
    nibbles = (word >> shift & 15 for shift in (8, 4, 0))
    return tuple(17 * (2 * (nibble % 8) + nibble // 8) for nibble in nibbles)


def colour_bytes(found, colour):
    """All pixels' colours, three bytes each, line 0 black."""
    return bytes(3 * WIDTH) + b"".join(bytes(colour(word)) for row in shown_words(found) for word in row)


def truecolour(png):
    """A truecolour PNG's width, height, pixels and texts."""
    found = list(images.chunks(png))
    header = dict(found)[b"IHDR"]
    width, height = int.from_bytes(header[:4], "big"), int.from_bytes(header[4:8], "big")
    assert header[8:] == bytes((8, 2, 0, 0, 0)), header
    body = zlib.decompress(b"".join(content for name, content in found if name == b"IDAT"))
    rows = [body[start : start + 3 * width + 1] for start in range(0, len(body), 3 * width + 1)]
    assert {row[0] for row in rows} == {0}
    return width, height, b"".join(row[1:] for row in rows), [text for name, text in found if name == b"tEXt"]


class Reading(Case):
    def test_spu(self):
        screen, palettes = noise(), tuple(random.Random(2).randrange(1 << 16) for _ in range(WORDS))
        found = read_spectrum(Kind.SPU, spu(screen, palettes))
        self.assertEqual(found, Spectrum(screen, palettes))  # words whole, line 0 as the file has it
        self.assertEqual(repr(found), "<kutimuq.Spectrum: 320 x 200>")
        for data in (b"", bytes(SPU_BYTES - 1), bytes(SPU_BYTES + 1)):
            self.assertRefused(3, 0, read_spectrum, Kind.SPU, data)

    def test_spc(self):
        found = read_spectrum(Kind.SPC, good())
        self.assertEqual(found, picture())
        self.assertEqual(found.screen[:160], bytes(160))
        self.assertEqual(read_spectrum(5, bytearray(good())), read_spectrum(5, memoryview(good())))
        self.assertEqual(read_spectrum(Kind.SPC, BLACK), Spectrum(bytes(SCREEN), (0,) * WORDS))

    def test_records(self):
        for count in (3, 4, 129, 130):
            made = read_spectrum(Kind.SPC, spc(repeat(count, 9) + repeats(MAP - count), BLACK_MAP))
            self.assertEqual(made.screen, reference(bytes((9,)) * count + bytes(MAP - count), [{}] * PALETTES)[0])
        for count in (1, 2, 127, 128):
            data = bytes(range(count))
            made = read_spectrum(Kind.SPC, spc(literal(data) + repeats(MAP - count), BLACK_MAP))
            self.assertEqual(made.screen, reference(data + bytes(MAP - count), [{}] * PALETTES)[0])

    def test_palettes(self):
        colour_map = vector(e0=0xFFFF, e14=0x0777) + KEPT + vector(e14=0x0123) + KEPT * 594
        palettes = read_spectrum(Kind.SPC, spc(ZEROS, colour_map)).palettes
        self.assertEqual(palettes[:16], (0xFFFF, *[0] * 13, 0x0777, 0))
        self.assertEqual(palettes[16:32], palettes[:16])
        self.assertEqual(set(palettes[46::16]), {0x0123})
        self.assertEqual(set(palettes[::16]), {0xFFFF})

    def test_lengths_and_header(self):
        for data in (b"", BLACK[:11], BLACK[:-1], BLACK + b"\0", b"SP\0\0" + b"\xff" * 8, b"SP" + bytes(11)):
            self.assertRefused(3, 0, read_spectrum, Kind.SPC, data)
        for changed in (dict(flag=b"SQ"), dict(flag=b"SS"), dict(reserved=b"\0\1"), dict(reserved=b"\1\0")):
            self.assertRefused(14, 0, read_spectrum, Kind.SPC, spc(ZEROS, BLACK_MAP, **changed))
        self.assertRefused(6, HEADER, read_spectrum, Kind.SPC, b"SP" + bytes(10))

    def test_the_data_map(self):
        start = repeats(MAP - 3)
        at = HEADER + len(start)
        for number, fault in (
            (6, b""), (6, b"\0"), (6, b"\2\1\1"), (6, b"\xff"), (7, repeat(4)), (7, literal(bytes(4))), (7, b"\3"),
            (7, b"\x80"),
        ):
            self.assertRefused(number, at, read_spectrum, Kind.SPC, spc(start + fault, BLACK_MAP))
        self.assertRefused(13, 0, read_spectrum, Kind.SPC, spc(ZEROS + bytes(2), BLACK_MAP))
        read_spectrum(Kind.SPC, spc(ZEROS + b"\xff", BLACK_MAP))

    def test_the_colour_map(self):
        start = HEADER + len(ZEROS)
        before = vector(e3=0x0777) + KEPT * 5
        for number, place, fault in (
            (6, len(before), b""), (6, len(before), b"\0"), (6, len(before), vector(e1=1, e2=2)[:-1]),
            (6, len(before), b"\0\6\0\1"), (6, len(before), b"\x7f\xff"),
        ):
            self.assertRefused(number, start + place, read_spectrum, Kind.SPC, spc(ZEROS, before + fault))
        for fault in (b"\x80\0", b"\x80\0" + bytes(2), b"\x80\1", b"\xff\xff"):
            self.assertRefused(15, 0, read_spectrum, Kind.SPC, spc(ZEROS, before + fault))
        for left in (b"\0", KEPT):
            self.assertRefused(13, 0, read_spectrum, Kind.SPC, spc(ZEROS, BLACK_MAP + left))
        self.assertRefused(6, start, read_spectrum, Kind.SPC, spc(ZEROS, b""))
        self.assertRefused(6, start, read_spectrum, Kind.SPC, spc(ZEROS, b"\x80"))  # the vector is not whole

    def test_other_kinds(self):
        for kind in (0, 1, 2, 3, 6, 255, 260, 261, -1, Kind.MAC, Kind.IMG, 1 << 70):
            for data in (BLACK, bytes(SPU_BYTES)):
                self.assertRefused(2, 0, read_spectrum, kind, data)
        for kind in (Kind.SPU, Kind.SPC):
            self.assertRefused(2, 0, kutimuq.read, BLACK, kind)
        self.assertRefused(2, 0, kutimuq.open, io.BytesIO(BLACK))
        with self.assertRaises(TypeError):
            read_spectrum(Kind.SPU, memoryview(bytes(SPU_BYTES)).cast("H"))

    def test_the_exception(self):
        for data, number, place, said in (
            (spc(ZEROS, BLACK_MAP, flag=b"SQ"), 14, 0, f"{WRONG_HEADER} (flag 5351)"),
            (spc(ZEROS, b"\x80\0"), 15, 0, f"{BIT_15} (colour map, palette 0, scan line 1, offset 502, sector 0)"),
            (spc(b"", BLACK_MAP), 6, 12, f"{ENDS} (data map, plane 0, scan line 1, sector 0)"),
        ):
            with self.assertRaises(kutimuq.RefusedSpectrum) as caught:
                read_spectrum(Kind.SPC, data)
            refusal = caught.exception
            self.assertIsInstance(refusal, kutimuq.Refused)
            self.assertEqual((refusal.plane_row, refusal.good_bytes, refusal.in_row), (0, 0, False))
            self.assertEqual(str(refusal), f"refused {number} at {place}: {said}")
            self.assertEqual(str(pickle.loads(pickle.dumps(refusal))), str(refusal))
        self.assertEqual((kutimuq.RefusalNumber.WRONG_HEADER, kutimuq.RefusalNumber.BIT_15_SET), (14, 15))


class Faults(Case):
    """Where a file is at fault, in words."""

    def assertSaid(self, said, data, kind=Kind.SPC):
        with self.assertRaises(kutimuq.RefusedSpectrum) as caught:
            read_spectrum(kind, data)
        self.assertEqual(caught.exception.where, said)

    def test_lengths(self):
        self.assertSaid("an SPU file has 51104 bytes", bytes(51_200), Kind.SPU)
        self.assertSaid("shorter than its header of 12 bytes", BLACK[:11])
        length = len(BLACK)
        self.assertSaid(f"its two lengths give {length} bytes, it has {length - 512} bytes", BLACK[:-512])
        self.assertSaid("", b"XY" + BLACK[2:-1])
        self.assertSaid("", BLACK, Kind.MAC)

    def test_header(self):
        self.assertSaid("reserved word 0100", spc(ZEROS, BLACK_MAP, reserved=b"\1\0"))
        self.assertSaid("flag 5053", spc(ZEROS, BLACK_MAP, flag=b"PS"))

    def test_data_map(self):
        for made, plane, line in ((0, 0, 1), (39, 0, 1), (40, 0, 2), (7_959, 0, 199), (7_960, 1, 1), (31_839, 3, 199)):
            start = literals(bytes(made))
            place = HEADER + len(start)
            said = f"data map, plane {plane}, scan line {line}, sector {place // 512}"
            self.assertSaid(said, spc(start, BLACK_MAP))
            self.assertSaid(said, spc(start, b""))
        self.assertSaid("data map, plane 3, scan line 199, sector 0", spc(repeats(MAP - 3) + repeat(4), BLACK_MAP))
        end = HEADER + len(ZEROS)
        self.assertSaid(f"data map, 2 bytes left, offset {end}, sector 0", spc(ZEROS + bytes(2), BLACK_MAP))

    def test_colour_map(self):
        start = HEADER + len(ZEROS)
        for number, line in ((0, 1), (2, 1), (3, 2), (596, 199)):
            place = start + 2 * number
            self.assertSaid(f"colour map, palette {number}, scan line {line}, sector {place // 512}",
                            spc(ZEROS, KEPT * number))
            self.assertSaid(f"colour map, palette {number}, scan line {line}, sector {place // 512}",
                            spc(ZEROS, KEPT * number + b"\0\6\0"))
            self.assertSaid(f"colour map, palette {number}, scan line {line}, offset {place}, sector {place // 512}",
                            spc(ZEROS, KEPT * number + b"\x80\0"))
        end = start + len(BLACK_MAP)
        for left, said in ((b"\0", "1 byte left"), (bytes(512), "512 bytes left")):
            self.assertSaid(f"colour map, {said}, offset {end}, sector {end // 512}", spc(ZEROS, BLACK_MAP + left))
        self.assertSaid(f"colour map, palette 0, scan line 1, sector {start // 512}", spc(ZEROS, b""))

    def test_other_formats(self):
        zeros = b"\x7f\0" * 244 + bytes((MAP - 244 * 130 - 3, 0))  # smooshed: x + 3 times
        for data_map in (zeros, zeros + b"\0", b"\xff" + bytes(128) + b"\x7f\0" * 243 + bytes((119, 0))):
            with self.assertRaises(kutimuq.RefusedSpectrum) as caught:
                read_spectrum(Kind.SPC, spc(data_map, bytes(1_045)))
            self.assertTrue(caught.exception.where.endswith(f", {SMOOSHED}"), caught.exception)
        self.assertSaid("flag 5353, begins as Anispec, another format", spc(ZEROS, BLACK_MAP, flag=b"SS"))
        self.assertSaid("begins as Anispec, another format", b"SS" + bytes(32 + SPU_BYTES))
        self.assertSaid("an SPU file has 51104 bytes, begins as Anispec, another format",
                        b"SS" + bytes(30 + SPU_BYTES), Kind.SPU)
        self.assertIn("begins as Spectrum 512 Extended (SPX), another format",
                      self.assertRefused(3, 0, read_spectrum, Kind.SPC, b"SPX\1" + bytes(20)).where)


class Values(Case):
    def test_positions(self):
        for column in range(WIDTH):
            for register in range(16):
                self.assertEqual(Spectrum.position(column, register), rule(column, register))
        self.assertEqual(picture().position(160, 3), 19)
        for column, register in ((320, 0), (0, 16), (-1, 0), (0, -1), (1 << 70, 0), (0, 256), (319, 1 << 70)):
            self.assertRefused(10, 0, Spectrum.position, column, register)

    def test_words(self):
        for found in (picture(), read_spectrum(Kind.SPU, noise() + noise(2)[:19_104])):
            expected = shown_words(found)
            self.assertEqual([list(found.line(y)) for y in range(1, LINES)], expected)
            self.assertEqual(found.words(), array("H", [word for row in expected for word in row]))
            for y in (1, 2, 100, 199):
                for x in (*range(0, WIDTH, 37), 319):
                    self.assertEqual(found.word(x, y), expected[y - 1][x])
        for line in (0, 200, -1, 1 << 70):
            self.assertRefused(10, 0, picture().line, line)
            self.assertRefused(10, 0, picture().word, 0, line)
            self.assertRefused(10, 0, picture().palette, line)
        for column in (320, -1, 1 << 70):
            self.assertRefused(10, 0, picture().word, column, 1)

    def test_areas_that_are_too_short(self):
        for found in (Spectrum(bytes(SCREEN - 1), (0,) * WORDS), Spectrum(bytes(SCREEN), (0,) * (WORDS - 1)),
                      Spectrum(b"", ()), Spectrum(bytes(SCREEN), ())):
            for operation in (found.words, found.colours, found.colour_count, found.ppm, found.png):
                self.assertRefused(1, 0, operation)
            self.assertRefused(1, 0, found.word, 999, 0)
            self.assertRefused(1, 0, found.line, 0)
        self.assertRefused(1, 0, Spectrum(bytes(SCREEN), ()).palette, 0)
        longer = Spectrum(picture().screen + b"past", picture().palettes + (1, 2))
        self.assertEqual(longer.words(), picture().words())

    def test_palette_words_that_are_none(self):
        for word in (-1, 1 << 16):
            with self.assertRaises(ValueError):
                Spectrum(bytes(SCREEN), (word,) * WORDS).line(1)
        with self.assertRaises(TypeError):
            Spectrum(bytes(SCREEN), ("0",) * WORDS).line(1)

    def test_palettes_of_lines(self):
        self.assertEqual(picture().palette(1), picture().palettes[:48])
        self.assertEqual(picture().palette(199), picture().palettes[-48:])

    def test_registers(self):
        rows = picture().registers()
        self.assertEqual([bytes(row) for row in rows], expected_registers(picture().screen, 0))

    def test_colours(self):
        for machine, colour in (("st", st_colour), (2, ste_colour)):
            expected = colour_bytes(picture(), colour)
            self.assertEqual(b"".join(picture().colour_rows(machine)), expected)
            self.assertEqual(b"".join(bytes(row) for row in picture().colours(machine)), expected)
            self.assertEqual(picture().colour(319, 199, machine), tuple(expected[-3:]))
            words = {word for row in shown_words(picture()) for word in row}
            self.assertEqual(picture().colour_count(machine), len({colour(word) for word in words}))
        self.assertEqual(picture().colour_rows(), picture().colour_rows("st"))
        self.assertRefused(10, 0, picture().colours, 3)

    def test_without_numpy(self):
        with mock.patch.dict(sys.modules, {"numpy": None}):
            rows = picture().colours()
        self.assertEqual((len(rows), {len(row) for row in rows}, {type(row) for row in rows}), (200, {960}, {bytes}))

    @unittest.skipIf(numpy is None, "numpy is not installed")
    def test_with_numpy(self):
        made = picture().colours()
        self.assertEqual((made.shape, made.dtype), ((200, 320, 3), numpy.uint8))
        made[0, 0, 0] = 1  # it can be written to

    def test_opened(self):
        with tempfile.TemporaryDirectory() as folder:
            path = Path(folder, "LAKE.SPC")
            path.write_bytes(good())
            self.assertEqual(kutimuq.open_spectrum(path), picture())
            with open(path, "rb") as opened:
                self.assertEqual(kutimuq.open_spectrum(opened), kutimuq.open_spectrum(str(path), "spc"))
            self.assertRefused(3, 0, kutimuq.open_spectrum, path, Kind.SPU)
            path.write_bytes(BLANK)
            self.assertRefused(2, 0, kutimuq.open_spectrum, path)
        self.assertEqual(kutimuq.open_spectrum(io.BytesIO(spu(*picture()))), picture())

    def test_saved(self):
        with tempfile.TemporaryDirectory() as folder:
            for name, machine, expected in (
                ("a.png", 1, picture().png()), ("a.PPM", "ste", picture().ppm("ste")), ("b.ppm", "st", picture().ppm()),
            ):
                picture().save(Path(folder, name), machine)
                self.assertEqual(Path(folder, name).read_bytes(), expected)
            for name in ("a.spc", "a", "a.pbm"):
                with self.assertRaisesRegex(ValueError, "none of .png, .ppm"):
                    picture().save(Path(folder, name))
            self.assertEqual(len(list(Path(folder).iterdir())), 3)


class Images(Case):
    def test_portable_pixmap(self):
        for machine, colour in (("st", st_colour), ("ste", ste_colour)):
            self.assertEqual(picture().ppm(machine), b"P6\n320 200\n255\n" + colour_bytes(picture(), colour))

    def test_png(self):
        for machine, colour, texts in (("st", st_colour, []), ("ste", ste_colour, [b"Atari machine\0STE"])):
            made = picture().png(machine)
            self.assertEqual(truecolour(made), (WIDTH, LINES, colour_bytes(picture(), colour), texts))
            self.assertEqual(picture().png(machine), made)

    def test_line_0_of_an_spu_file_is_black(self):
        found = read_spectrum(Kind.SPU, b"\xff" * SCREEN + b"\x07\x77" * WORDS)
        pixels = truecolour(found.png())[2]
        self.assertEqual((pixels[:960], set(pixels[960:])), (bytes(960), {255}))

    def test_colours_are_no_registers(self):
        with self.assertRaisesRegex(kutimuq.BadImage, "colours are no registers"):
            images.read_image(picture().png())


class Kinds(Case):
    def test_content(self):
        for name in ("", "Lake 12", "a.spc", "A.SPC", "a.spu", "a.pi1", "a.mac", "a.neo", "a.txt", "a.sps"):
            self.assertEqual(files.find_kind(good(), name), (Kind.SPC, "content"))
        for name in ("", "Lake 12", "a.spu", "A.SPU", "a.txt", "a.sps"):
            for data in (spu(*picture()), spu(noise(), picture().palettes), bytes(SPU_BYTES)):
                self.assertEqual(files.find_kind(data, name), (Kind.SPU, "content"))

    def test_a_length_of_another_kind(self):
        for length in (32_034, 32_066):
            file = spc(bytes(length - HEADER), b"")
            for name in ("", "A.SPC", "a.pi1"):
                self.assertEqual(files.find_kind(file, name), (Kind.SPC, "content"))
            torn = file[:4] + b"\1" + file[5:]  # its lengths give another
            self.assertEqual(files.find_kind(torn, "A.SPC"), (Kind.SPC, "content"))
            self.assertEqual(files.find_kind(torn, "A.PI1"), (Kind.DEGAS, "content"))

    def test_the_start_names_a_damaged_one(self):
        for data in (good()[:-1], good()[:4], good() + b"\0", BLACK[:500]):
            for name in ("", "Lake 12", "a.spc", "A.SPC", "a.bak", "a.sps"):
                self.assertEqual(files.find_kind(data, name), (Kind.SPC, "content"))
            for name, kind in (("a.pi2", Kind.DEGAS), ("a.neo", Kind.NEO), ("a.spu", Kind.SPU), ("a.img", Kind.IMG)):
                self.assertEqual(files.find_kind(data, name), (kind, "extension"))

    def test_the_extension_names_the_others(self):
        for data in (b"", b"SP", b"text", b"SP\0\1" + bytes(8), bytes(SPU_BYTES - 1)):
            self.assertEqual(files.find_kind(data), (files.UNKNOWN, "nothing"))
            for name, kind in (("A.SPC", Kind.SPC), ("a.Spc", Kind.SPC), ("A.SPU", Kind.SPU), ("a.spu", Kind.SPU)):
                self.assertEqual(files.find_kind(data, name), (kind, "extension"))

    def test_the_length_alone_is_not_for_the_name_of_another_kind(self):
        for name, kind in (("A.TNY", Kind.TINY), ("a.neo", Kind.NEO), ("a.pi1", Kind.DEGAS), ("a.img", Kind.IMG),
                           ("a.mac", Kind.MAC), ("a.spc", Kind.SPC)):
            self.assertEqual(files.find_kind(bytes(SPU_BYTES), name), (kind, "extension"))
        # A first word that a packed DEGAS file has: then only the name decides for SPU.
        marked = b"\x80\0" + bytes(SPU_BYTES - 2)
        self.assertEqual(files.find_kind(marked, "A.SPU"), (Kind.SPU, "content"))
        self.assertEqual(files.find_kind(marked), (Kind.DEGAS, "content"))

    def test_content_of_another_kind_comes_first(self):
        plate = kutimuq.write_plate(bytes(51_840))
        for name in ("A.SPU", "A.SPC"):
            self.assertEqual(files.find_kind(plate, name), (Kind.MAC, "content"))
            self.assertEqual(files.find_kind(BLANK, name), (Kind.DEGAS, "content"))

    def test_other_formats(self):
        for data, name, said in (
            (b"SS" + bytes(60_000), "", "begins as Anispec, another format"),
            (b"SPX\2" + bytes(9), "a.bin", "begins as Spectrum 512 Extended (SPX), another format"),
            (b"text", "A.SPS", "named as smooshed Spectrum 512 or Anispec, another format"),
            (b"text", "a.spx", "named as Spectrum 512 Extended, another format"),
            (b"text", "a.txt", ""),
            (BLACK, "a.spc", ""),
        ):
            self.assertEqual(files.other_format(data, name), said)


class LongFiles(Case):
    def setUp(self):
        folder = tempfile.TemporaryDirectory()
        self.addCleanup(folder.cleanup)
        self.path = Path(folder.name, "LONG.SPC")

    def test_the_longest_that_is_accepted(self):
        file = spc(literal(b"\1") * MAP + b"\0", vector(**{f"e{number}": 1 for number in range(15)}) * PALETTES)
        self.assertEqual(len(file), files.SPC_LONGEST)
        self.path.write_bytes(file)
        self.assertEqual(set(kutimuq.open_spectrum(self.path).palettes), {0, 1})
        self.assertLess(files.SPC_LONGEST, files.READ_LIMIT)

    def test_lengths_that_give_a_long_file(self):
        for length in (files.READ_LIMIT, files.READ_LIMIT + 1, files.IMG_READ_LIMIT):
            self.path.write_bytes(spc(ZEROS + bytes(length - HEADER - len(ZEROS)), b""))
            self.assertEqual(self.path.stat().st_size, length)
            self.assertRefused(13, 0, kutimuq.open_spectrum, self.path)
            with open(self.path, "ab") as file:
                file.write(b"\0")
            if length < files.IMG_READ_LIMIT:
                self.assertRefused(3, 0, kutimuq.open_spectrum, self.path)
        self.assertRaisesRegex(OSError, "longer than 4 MiB: not judged", kutimuq.open_spectrum, self.path)

    def test_a_long_file_with_lesser_lengths_is_not_read_whole(self):
        source = io.BytesIO(BLACK + bytes(5_000_000))
        refusal = self.assertRefused(3, 0, kutimuq.open_spectrum, source)
        self.assertEqual(source.tell(), files.READ_LIMIT)
        said = f"its two lengths give {len(BLACK)} bytes, it has {files.READ_LIMIT} bytes or more"
        self.assertEqual(refusal.where, said)


class Folder(unittest.TestCase):
    def setUp(self):
        folder = tempfile.TemporaryDirectory()
        self.addCleanup(folder.cleanup)
        self.folder = Path(folder.name)

    def put(self, name, data):
        path = self.folder / name
        path.write_bytes(data)
        return path


class Commands(Folder):
    def output(self, *arguments, data=b""):
        done = command(*arguments, data=data)
        self.assertEqual((done.stderr, done.returncode), (b"", 0))
        return done.stdout

    def test_summary(self):
        counts = picture().colour_count("st"), picture().colour_count("ste")
        expected = "width 320\nlines 200\nst_colours {}\nste_colours {}\n".format(*counts)
        self.assertEqual(self.output("summary", "-q", data=good()).decode(), expected)
        for kind, data in (("spc", good()), ("SPC", good()), ("spu", spu(*picture()))):
            self.assertEqual(self.output("summary", "--kind", kind, data=data).decode(), expected)
        said = b"kutimuq: standard input: Spectrum 512 SPC by content\n"
        self.assertEqual(command("summary", data=good()).stderr, said)
        done = command("summary", self.put("A.SPC", spc(b"", BLACK_MAP)))
        self.assertEqual((done.stdout.decode(), done.returncode), ("refused 6 at 12\n", 1))
        self.assertIn(f": refused 6 at 12: {ENDS} (data map, plane 0, scan line 1, sector 0)\n", done.stderr.decode())

    def test_images(self):
        for name, made in (("png", picture().png), ("colours", picture().ppm)):
            self.assertEqual(self.output(name, "-q", data=good()), made())
            self.assertEqual(self.output(name, "-q", "--machine", "ste", data=spu(*picture())), made("ste"))
        out = self.folder / "out"
        paths = (self.put("A.SPC", good()), self.put("b.spu", spu(*picture())))
        for name in ("png", "colours"):
            self.output(name, "-q", *paths, "-d", out)
        self.assertEqual(
            sorted(each.name for each in out.iterdir()), ["A.SPC.png", "A.SPC.ppm", "b.spu.png", "b.spu.ppm"]
        )

    def test_nothing_is_made_of_a_refused_file(self):
        out = self.folder / "out"
        for name in ("png", "colours"):
            done = command(name, self.put("A.SPC", good()[:-1]), "-o", out)
            self.assertEqual((done.stdout, done.returncode, out.exists()), (b"", 1, False))

    def test_palette(self):
        for options, colour in (([], st_colour), (["--machine", "ste"], ste_colour)):
            lines = self.output("palette", "-q", "--line", 199, *options, data=good()).decode().splitlines()
            self.assertEqual(lines, [
                f"position {at} word {word:04x} colour {' '.join(map(str, colour(word)))}"
                for at, word in enumerate(picture().palettes[-48:])
            ])
        said = b"palette words with bit 3, 7 or 11 set, as on an STE: --machine ste shows its colours"
        self.assertIn(said, command("palette", "--line", 199, data=good()).stderr)
        self.assertEqual(command("palette", "--line", 1, data=BLACK).stderr.count(b"\n"), 1)

    def test_what_the_palette_command_needs(self):
        for arguments, data, said in (
            ([], good(), "has 48 palette words for each of lines 1 to 199: name one with --line"),
            (["--line", 1], BLANK, "--line is for Spectrum 512 pictures: this one has one palette"),
            (["--line", 0], good(), "line 0 has no palette: a number from 1 to 199 is needed"),
            (["--line", 200], good(), "a number from 0 to 199 is needed, not '200'"),
        ):
            done = command("palette", "-q", *arguments, data=data)
            self.assertEqual((done.stdout, done.returncode), (b"", 2))
            self.assertIn(said, done.stderr.decode())

    def test_pixel(self):
        for x, y in ((0, 1), (165, 77), (319, 199)):
            register = expected_registers(picture().screen, 0)[y][x]
            word = shown_words(picture())[y - 1][x]
            for machine, colour in (("st", st_colour), ("ste", ste_colour)):
                parts = " ".join(map(str, colour(word)))
                made = self.output("pixel", "--column", x, "--line", y, "--machine", machine, "-q", data=good())
                expected = f"register {register} position {rule(x, register)} word {word:04x} colour {parts}\n"
                self.assertEqual(made.decode(), expected)
        done = command("pixel", "--column", 0, "--line", 1, "-q", data=BLANK)
        self.assertEqual((done.stderr, done.returncode), (b"kutimuq: standard input: not a Spectrum 512 picture\n", 2))
        for option, value in (("--column", 320), ("--line", 0), ("--line", 200)):
            others = {"--column": 0, "--line": 1, option: value}
            arguments = [each for pair in others.items() for each in pair]
            self.assertEqual(command("pixel", *arguments, data=good()).returncode, 2)

    def test_position(self):
        for column, register in ((0, 0), (160, 3), (319, 15), (5, 1), (4, 1)):
            self.assertEqual(self.output("position", column, register), b"position %d\n" % rule(column, register))
        for column, register in ((320, 0), (0, 16), (1 << 70, 0), (0, 256)):
            done = command("position", column, register)
            self.assertEqual((done.stdout, done.returncode), (b"", 1))
            self.assertEqual(done.stderr, b"kutimuq: refused 10 at 0: a number out of range\n")
        for arguments, said in (
            ([], "a COLUMN is needed"), (["1"], "a REGISTER is needed"), (["1", "2", "3"], "'3' is too much"),
            (["1", "x"], "a whole number from 0 on is needed, not 'x'"), (["--", "-1", "2"], "not '-1'"),
        ):
            done = command("position", *arguments)
            self.assertEqual((done.stdout, done.returncode), (b"", 2))
            self.assertIn(said, done.stderr.decode())
        self.assertIn(b"usage: kutimuq position [OPTION]... COLUMN REGISTER\n", self.output("position", "--help"))
        self.assertNotIn(b"standard input", self.output("position", "--help"))

    def test_what_makes_no_sense_for_these_pictures(self):
        path = self.put("A.SPC", good())
        legend = self.put("legend", b"0 100\n" * 16)
        ponds = self.put("ponds.csv", b"name,rectangle,class,floor\nall,,0,0\n")
        for arguments in (
            ["tail"], ["registers"], ["tally"], ["envi", "-o", self.folder / "x.img"],
            ["convert", "--form", "packed"], ["convert", "--form", "neo"],
            ["pond", "--class", 0, "--floor", 0, "--legend", legend], ["ponds", "--list", ponds, "--legend", legend],
        ):
            done = command(*arguments, "-q", path)
            self.assertEqual((done.stdout, done.returncode), (b"", 2))
            self.assertIn(f"kutimuq: {path}: {NO_CLASSES}\n", done.stderr.decode())
        for arguments, said in (
            (["convert", "--form", "mac"], "not a MacPaint plate"),
            (["pbm"], "neither a MacPaint plate nor a GEM IMG scan"),
        ):
            done = command(*arguments, "-q", path)
            self.assertEqual((done.stdout, done.returncode), (b"", 2))
            self.assertEqual(done.stderr.decode(), f"kutimuq: {path}: {said}\n")
        self.assertEqual(sorted(each.name for each in self.folder.iterdir()), ["A.SPC", "legend", "ponds.csv"])

    def test_no_palette_is_taken_from_one_and_no_picture_made_of_its_image(self):
        path = self.put("A.SPC", good())
        done = command("encode", "--form", "neo", "--like", path, data=picture().png())
        self.assertEqual((done.stdout, done.returncode), (b"", 2))
        self.assertEqual(done.stderr.decode(), f"kutimuq: {path}: {NO_CLASSES}\n")
        done = command("encode", "--form", "neo", "--palette", "0000 " * 16, data=picture().png())
        self.assertEqual((done.stdout, done.returncode), (b"", 1))
        self.assertIn(b"colours are no registers", done.stderr)

    def test_one_does_not_stop_the_others(self):
        done = command("tally", "-q", self.put("A.SPC", good()), self.put("b.pc1", BLANK))
        self.assertEqual((len(done.stdout.splitlines()), done.returncode), (1, 2))

    def test_formats_that_are_not_read(self):
        done = command("summary", self.put("A.SPS", b"SS" + bytes(60_000)))
        said = "refused 2 at 0: unknown kind or form (begins as Anispec, another format)\n"
        self.assertEqual(done.stderr.decode(), f"kutimuq: {self.folder}/A.SPS: {said}")

    def test_help_and_man_page(self):
        kinds = "degas, neo, tiny, mac or img, or spu or spc"
        self.assertIn(b"Spectrum 512 pictures", self.output("--help"))
        for name in ("check", "summary", "png", "colours", "palette", "pixel"):
            self.assertIn(kinds.encode(), self.output(name, "--help"))
        page = (PYTHON / "man" / "kutimuq.1").read_text()
        for said in (kinds, "Spectrum 512", ".spu", ".spc", f"14 {WRONG_HEADER}", f"15 {BIT_15}"):
            self.assertIn(said, page)


class Box(Folder):
    def setUp(self):
        super().setUp()
        self.out = self.folder / "out"
        self.folder = self.folder / "box"
        self.folder.mkdir()
        for name, data in {
            "A.SPC": good(),
            "B": spu(bytes(159) + b"\1" + picture().screen[160:], picture().palettes),
            "C.SPC": spc(ZEROS + repeat(3) + repeat(3), BLACK_MAP),
            "D.SPC": spc(repeats(MAP - 1) + repeat(3), BLACK_MAP),
            "E.SPC": good()[:-1],
            "F.SPC": spc(ZEROS, KEPT * 300 + b"\x80\0"),
            "G.SPC": spc(ZEROS, KEPT * 300),
            "H.SPU": spu(*picture())[:-104],
            "I.SPC": spc(ZEROS, BLACK_MAP, reserved=b"\0\2"),
            "J.PC1": BLANK,
            "K.SPS": b"SS" + bytes(60_000),
            "L.SPU": bytes(SCREEN) + b"\x07\x77" * WORDS,
        }.items():
            self.put(name, data)

    def name(self, name):
        return str(self.folder / name)

    def test_lines(self):
        done = command("check", self.folder)
        self.assertEqual((done.stderr, done.returncode), (b"", 1))
        st, ste = picture().colour_count("st"), picture().colour_count("ste")
        end = HEADER + len(ZEROS)
        at, by = end + 600, "Spectrum 512 SPC by content"
        self.assertEqual(done.stdout.decode().replace(f"{self.folder}/", "").splitlines(), [
            f"A.SPC: accepted: {by}, 320 x 200, {st} colours on an ST, {ste} on an STE",
            f"B: accepted: Spectrum 512 SPU by content, 320 x 200, {st} colours on an ST, {ste} on an STE, "
            "same picture as A.SPC",
            f"C.SPC: refused 13 at 0: {LEFT} (data map, 4 bytes left, offset {end}, sector 0; {by})",
            f"D.SPC: refused 7 at {end}: {CROSSES} (data map, plane 3, scan line 199, sector 0; {by})",
            f"E.SPC: refused 3 at 0: {LENGTH} (its two lengths give {len(good())} bytes, "
            f"it has {len(good()) - 1} bytes; {by})",
            f"F.SPC: refused 15 at 0: {BIT_15} (colour map, palette 300, scan line 101, offset {at}, sector 2; {by})",
            f"G.SPC: refused 6 at {at}: {ENDS} (colour map, palette 300, scan line 101, sector 2; {by})",
            f"H.SPU: refused 3 at 0: {LENGTH} (an SPU file has 51104 bytes; Spectrum 512 SPU by extension)",
            f"I.SPC: refused 14 at 0: {WRONG_HEADER} (reserved word 0002; Spectrum 512 SPC by extension)",
            "J.PC1: accepted: DEGAS by content, resolution 0, 800 records, body 1600",
            "K.SPS: refused 2 at 0: unknown kind or form (begins as Anispec, another format; kind unknown)",
            "L.SPU: accepted: Spectrum 512 SPU by content, 320 x 200, 1 colour",
            "4 accepted, 8 refused",
        ])

    def test_they_are_not_degas_files(self):
        done = command("elite", self.name("A.SPC"), self.name("B"), "-o", self.out)
        self.assertEqual(done.stdout.decode().splitlines(), [
            f"{self.name('A.SPC')}: refused 3 at 0: not a DEGAS file (Spectrum 512 SPC by content)",
            f"{self.name('B')}: refused 3 at 0: not a DEGAS file (Spectrum 512 SPU by content)",
            "0 written, 2 refused",
        ])
        said = command("records", self.name("A.SPC")).stderr.decode()
        self.assertTrue(said.endswith(": not a DEGAS file (Spectrum 512 SPC by content)\n"), said)

    def test_kind(self):
        lines = command("check", "--kind", "spu", self.folder).stdout.decode().splitlines()
        said = "an SPU file has 51104 bytes; Spectrum 512 SPU by option"
        self.assertIn(f"J.PC1: refused 3 at 0: {LENGTH} ({said})", lines[9])
        self.assertEqual(lines[-1], "2 accepted, 10 refused")

    def test_tables(self):
        command("check", self.folder, "--json", f"{self.out}.json", "--csv", f"{self.out}.csv")
        records = [json.loads(line) for line in Path(f"{self.out}.json").read_text().splitlines()]
        a, b, c, *_, j, k, last = records
        self.assertEqual((a["kind"], a["width"], a["lines"]), ("Spectrum 512 SPC", 320, 200))
        self.assertEqual((a["st_colours"], a["ste_colours"], a["ste_bits"]),
                         (picture().colour_count(1), picture().colour_count(2), True))
        self.assertEqual((last["st_colours"], last["ste_bits"]), (1, False))
        for key in ("resolution", "tail_present", "records", "body", "form", "cycling_lists", "where"):
            self.assertIsNone(a[key])
        words = b"".join(map(big_endian, shown_words(picture())))
        self.assertEqual({a["sha256"], b["sha256"]}, {sha256(words).hexdigest()})
        self.assertEqual((a["same_as"], b["same_as"]), (None, a["name"]))
        self.assertEqual((c["plane_row"], c["width"], c["where"].split(",")[0]), (None, None, "data map"))
        self.assertEqual((j["st_colours"], j["width"], k["where"]), (None, None, "begins as Anispec, another format"))
        with open(f"{self.out}.csv", encoding="utf-8", newline="") as file:
            rows = list(csv.DictReader(file))
        self.assertEqual((rows[0]["lines"], rows[0]["st_colours"]), ("200", str(a["st_colours"])))
        self.assertEqual((rows[2]["where"], rows[0]["where"], rows[9]["ste_colours"]), (c["where"], "", ""))

    def test_report(self):
        for machine, colour in (("st", st_colour), ("ste", ste_colour)):
            command("check", self.folder, "--report", f"{self.out}.html", "--machine", machine)
            page = Path(f"{self.out}.html").read_text()
            self.assertEqual(page.count("<img "), 3)
            png = b64encode(picture().png(machine)).decode("ascii")
            self.assertIn(f'src="data:image/png;base64,{png}"', page)
            bits = ", STE bits" if machine == "st" else ""
            self.assertIn(f"<b>A.SPC</b> Spectrum 512 SPC, 320 x 200 and 1 more{bits}</figcaption>", page)
            self.assertIn("<b>L.SPU</b> Spectrum 512 SPU, 320 x 200</figcaption>", page)
            self.assertIn(f"<p>Colours as on an {machine.upper()}.", page)
        place, said = HEADER + len(ZEROS) + 600, f"{ENDS} (colour map, palette 300, scan line 101, sector 2)"
        self.assertIn(f"<td>Spectrum 512 SPC</td><td>6</td><td>{place}</td><td>{said}</td></tr>", page)
        data = json.loads(page.split('id="data">')[1].split("</script>")[0])
        first, other, last = data["pictures"]
        self.assertEqual([each["spectrum"] for each in data["pictures"]], [True, False, True])
        self.assertEqual((first["width"], first["height"], first["colours"], first["tally"]), (320, 200, [], []))
        self.assertIn("Spectrum 512 SPC, 320 x 200, ", first["facts"])
        self.assertIn("Spectrum 512 SPU, 320 x 200, 1 colour, SHA-256 ", last["facts"])
        self.assertEqual(len(other["colours"]), 16)

    def test_a_report_of_these_pictures_alone(self):
        command("check", self.name("A.SPC"), "--report", f"{self.out}.html")
        page = Path(f"{self.out}.html").read_text()
        self.assertIn("Colours as on an ST.", page)
        self.assertNotIn("the register is the class", page)

    def test_a_run_taken_up(self):
        first = command("check", self.folder, "--json", f"{self.out}.json")
        Path(f"{self.out}.json").rename(f"{self.out}.json.part")
        again = command("check", self.folder, "--json", f"{self.out}.json", "--resume", "--report", f"{self.out}.html")
        self.assertEqual((again.stdout, again.returncode), (first.stdout, 1))
        self.assertEqual(Path(f"{self.out}.html").read_text().count("<img "), 3)

    @unittest.skipUnless(shutil.which("node"), "node is not installed")
    def test_the_page_unpacks_colours(self):
        page = (PYTHON / "kutimuq" / "page.html").read_text()
        function = page[page.index("const depthPlace") : page.index("// How wide a scan")]
        source = json.dumps({"src": f"data:image/png;base64,{b64encode(picture().png()).decode()}"})
        call = f"coloursOf({source}, 320, 200).then(made => console.log(made.join(';')));"
        done = subprocess.run(["node"], input=f"{function}\n{call}", capture_output=True, text=True)
        expected = colour_bytes(picture(), st_colour)
        pixels = (",".join(map(str, expected[at : at + 3])) for at in range(0, len(expected), 3))
        self.assertEqual(done.stdout.strip(), ";".join(pixels))


if __name__ == "__main__":
    unittest.main()
