"""GEM IMG scans: read by the library, found by content or extension, shown by the command and the report."""

import csv
import io
import json
import pickle
import random
import shutil
import subprocess
import sys
import tempfile
import unittest
from base64 import b64encode
from hashlib import sha256
from pathlib import Path
from unittest import mock

import kutimuq
from kutimuq import Img, Kind, files, images, read_img

from .support import BLANK, PALETTE, PYTHON, Case, command, noise

try:
    import numpy
except ImportError:
    numpy = None

HEADER = 16
WIDEST, MOST_LINES, AREA = 640, 400, 32_000
NO_PICTURE = "a GEM IMG scan has no registers, palette, tail or machine"
OUTSIDE = "IMG header outside the screen profile"
WRONG_RUN = "a scanline run out of place, or its flag or count wrong"
LEAST_WORDS = dict(version=1, header=8, planes=1, pattern=2, pixel_width=372, pixel_height=372, width=20, lines=4)


def words_of(**changed):
    """The header's eight words."""
    return b"".join(word.to_bytes(2, "big") for word in {**LEAST_WORDS, **changed}.values())


def file_of(*records, **changed):
    """A file of these records, and, of 20 x 4 pixels where nothing is changed, this header."""
    return words_of(**changed) + b"".join(records)


def solid(count, value=0):
    return bytes((0x80 * value + count,))


def pattern(count, *data):
    return bytes((0, count, *data))


def literal(*data):
    return bytes((0x80, len(data), *data))


def times(count, flag=0xFF):
    return bytes((0, 0, flag, count))


BLACK_LINE = solid(3, 1)
BITMAP = bytes((0x12, 0x34, 0x5F, 0xAB, 0xCD, 0x60, 0xAB, 0xCD, 0x60, 0xFF, 0xFF, 0xFF))
CLEARED = bytes((0x12, 0x34, 0x50, 0xAB, 0xCD, 0x60, 0xAB, 0xCD, 0x60, 0xFF, 0xFF, 0xF0))
LINES = literal(0x12, 0x34, 0x5F) + times(2) + pattern(1, 0xAB, 0xCD) + literal() + literal(0x60)
GOOD = file_of(LINES, BLACK_LINE)
CROSSING = file_of(LINES, solid(4))
TRUNCATED = GOOD[:-1]
WRONG_FLAG = file_of(LINES, times(1, 0xFE), BLACK_LINE)
OVER_WIDE = file_of(BLACK_LINE, width=WIDEST + 1)
TAILED = GOOD + b"\x1a"


def written(bitmap, width, lines):
    """A file of literals alone."""
    line_bytes = (width + 7) // 8
    rows = (bitmap[at : at + line_bytes] for at in range(0, line_bytes * lines, line_bytes))
    return file_of(*(literal(*row) for row in rows), width=width, lines=lines)


class Reading(Case):
    def test_every_record(self):
        self.assertEqual(read_img(GOOD), Img(BITMAP, 20, 4))
        self.assertEqual(repr(read_img(GOOD)), "<kutimuq.Img: 20 x 4>")
        self.assertEqual(read_img(bytearray(GOOD)), read_img(memoryview(GOOD)))

    def test_sizes(self):
        source = random.Random(11)
        for width, lines in ((1, 1), (7, 400), (8, 3), (9, 2), (639, 2), (WIDEST, 1), (WIDEST, MOST_LINES)):
            bitmap = source.randbytes((width + 7) // 8 * lines)
            self.assertEqual(read_img(written(bitmap, width, lines)), Img(bitmap, width, lines))
        self.assertEqual(len(read_img(written(bitmap, WIDEST, MOST_LINES)).bitmap), AREA)

    def test_header_words_that_are_not_judged(self):
        longer = words_of(header=10, pixel_width=0, pixel_height=0xFFFF) + b"XIMG" + GOOD[HEADER:]
        self.assertEqual(read_img(longer), read_img(GOOD))

    def test_pattern_lengths(self):
        for length in range(1, 9):
            made = pattern(2, *range(length))
            scan = read_img(file_of(made, pattern=length, width=16 * length, lines=1))
            self.assertEqual(scan.bitmap, bytes(range(length)) * 2)
        read_img(file_of(times(255), BLACK_LINE, times(145), BLACK_LINE, lines=MOST_LINES))

    def test_lengths_and_header(self):
        for data in (b"", GOOD[:15], words_of(header=9), words_of(header=0xFFFF) + bytes(131_053)):
            self.assertRefused(3, 0, read_img, data)
        for changed in (
            dict(version=0), dict(version=2), dict(header=7), dict(header=0), dict(planes=0), dict(planes=2),
            dict(pattern=0), dict(pattern=9), dict(width=0), dict(width=WIDEST + 1), dict(lines=0),
            dict(lines=MOST_LINES + 1),
        ):
            self.assertRefused(21, 0, read_img, file_of(LINES, BLACK_LINE, **changed))
        with self.assertRaises(TypeError):
            read_img(memoryview(GOOD).cast("H"))

    def test_scanline_runs(self):
        for records in (
            (times(0), BLACK_LINE), (times(5), BLACK_LINE), (times(2, 0xFE), BLACK_LINE), (times(2, 0), BLACK_LINE),
            (times(2), times(2), BLACK_LINE), (literal(), times(2), BLACK_LINE), (solid(1), times(2), solid(2)),
            (times(3), BLACK_LINE, times(2), BLACK_LINE),
        ):
            self.assertRefused(22, 0, read_img, file_of(*records))

    def test_records_at_fault(self):
        for number, fault in (
            (6, b""), (6, b"\0"), (6, times(2)[:2]), (6, times(2)[:3]), (6, b"\0\1"), (6, b"\0\1\7"), (6, b"\x80"),
            (6, literal(1, 2)[:-1]), (7, solid(4)), (7, solid(0x7F, 1)), (7, pattern(2, 1, 2)), (7, b"\0\2"),
            (7, literal(1, 2, 3, 4)), (7, b"\x80\4"),
        ):
            refusal = self.assertRefused(number, len(file_of(LINES)), read_img, file_of(LINES, fault))
            self.assertEqual((refusal.plane_row, refusal.good_bytes, refusal.in_row), (0, 0, False))
            self.assertEqual(str(refusal), f"refused {number} at {len(file_of(LINES))}: {refusal.meaning}")
        self.assertRefused(7, HEADER + 1, read_img, file_of(solid(1), solid(3)))

    def test_bytes_left(self):
        for left in (b"\x1a", b"\0" * 100, literal()):
            self.assertRefused(8, len(GOOD), read_img, GOOD + left)

    def test_meanings(self):
        for data, number, said in ((OVER_WIDE, 21, OUTSIDE), (WRONG_FLAG, 22, WRONG_RUN)):
            refusal = self.assertRefused(number, 0, read_img, data)
            self.assertEqual((refusal.meaning, str(refusal)), (said, f"refused {number} at 0: {said}"))
            self.assertEqual(str(pickle.loads(pickle.dumps(refusal))), str(refusal))
        self.assertEqual(kutimuq.RefusalNumber.OUTSIDE_PROFILE, 21)
        self.assertEqual(kutimuq.RefusalNumber.WRONG_SCANLINE_RUN, 22)

    def test_the_exception_of_a_scan(self):
        with self.assertRaises(kutimuq.RefusedScan) as caught:
            read_img(CROSSING)
        refusal = caught.exception
        self.assertIsInstance(refusal, kutimuq.Refused)
        self.assertEqual((refusal.number, refusal.in_row, "plane row" in str(refusal)), (7, False, False))


class Values(Case):
    def test_padding_is_in_the_bitmap_alone(self):
        scan = read_img(GOOD)
        self.assertEqual((scan.bitmap, b"".join(scan.rows())), (BITMAP, CLEARED))
        pixels = scan.pixels()
        self.assertEqual((len(pixels), {len(row) for row in pixels}), (4, {20}))
        for y in range(4):
            digits = f"{int.from_bytes(BITMAP[3 * y : 3 * y + 3], 'big'):024b}"[:20]
            self.assertEqual([int(pixel) for pixel in pixels[y]], [int(digit) for digit in digits])
        black = sum(int(pixel) for row in pixels for pixel in row)
        self.assertEqual(scan.tally(), (80 - black, black))

    def test_without_numpy(self):
        with mock.patch.dict(sys.modules, {"numpy": None}):
            self.assertEqual(Img(b"\xa7\xff", 3, 2).pixels(), [b"\1\0\1", b"\1\1\1"])

    @unittest.skipIf(numpy is None, "numpy is not installed")
    def test_with_numpy(self):
        made = read_img(GOOD).pixels()
        self.assertEqual((made.shape, made.dtype), ((4, 20), numpy.uint8))
        made[0, 0] = 1  # it can be written to

    def test_sizes_and_bytes_that_no_scan_has(self):
        for number, scan in (
            (10, Img(bytes(AREA), 0, 1)), (10, Img(bytes(AREA), 1, 0)), (10, Img(bytes(AREA), WIDEST + 1, 1)),
            (10, Img(bytes(AREA), 1, MOST_LINES + 1)), (10, Img(b"", -8, 1)), (1, Img(bytes(11), 20, 4)),
        ):
            for operation in (scan.rows, scan.pixels, scan.tally, scan.pbm, scan.png):
                self.assertRefused(number, 0, operation)
        self.assertEqual(Img(BITMAP + b"past", 20, 4).pbm(), Img(BITMAP, 20, 4).pbm())

    def test_opened(self):
        with tempfile.TemporaryDirectory() as folder:
            path = Path(folder, "SHEET.IMG")
            path.write_bytes(GOOD)
            self.assertEqual(kutimuq.open_img(path), Img(BITMAP, 20, 4))
            with open(path, "rb") as opened:
                self.assertEqual(kutimuq.open_img(opened), kutimuq.open_img(str(path)))

    def test_a_scan_is_no_picture_and_no_plate(self):
        self.assertRefused(2, 0, kutimuq.read, GOOD, Kind.IMG)
        self.assertRefused(2, 0, kutimuq.open, io.BytesIO(GOOD))
        self.assertRefused(3, 0, kutimuq.read_plate, GOOD)


class Images(Case):
    def test_portable_bitmap(self):
        self.assertEqual(read_img(GOOD).pbm(), b"P4\n20 4\n" + CLEARED)
        image = images.read_image(read_img(GOOD).pbm())
        self.assertEqual((image.width, image.height, list(image.pixels)), (20, 4, flat(read_img(GOOD).pixels())))

    def test_png(self):
        for width, lines in ((1, 1), (9, 5), (WIDEST, MOST_LINES)):
            scan = Img(noise(), width, lines)
            with mock.patch.object(images, "check_size"):  # read back, though no screen or plate has this size
                image = images.read_image(scan.png())
            self.assertEqual((image.width, image.height, image.colours), (width, lines, [(255,) * 3, (0,) * 3]))
            self.assertEqual(list(image.pixels), flat(scan.pixels()))

    def test_a_scan_of_a_screen_as_a_picture(self):
        image = images.read_image(Img(noise(), WIDEST, MOST_LINES).pbm())
        self.assertEqual(images.picture_of(image, PALETTE).screen, noise())


def flat(rows):
    return [int(pixel) for row in rows for pixel in row]


def scan_of_length(length):
    """A file of this many bytes, with words between header and lines."""
    words = (length - len(GOOD)) // 2
    return words_of(header=8 + words) + bytes(2 * words) + GOOD[HEADER:]


class Kinds(Case):
    def test_content_names_a_whole_scan(self):
        for name in ("", "Sheet 12", "a.img", "A.IMG", "a.pi1", "a.mac", "a.neo", "a.txt"):
            self.assertEqual(files.find_kind(GOOD, name), (Kind.IMG, "content"))

    def test_the_header_names_a_damaged_one(self):
        for data in (CROSSING, TRUNCATED, WRONG_FLAG, OVER_WIDE, TAILED, GOOD[:HEADER]):
            for name in ("", "Sheet 12", "a.img", "A.IMG", "a.bak"):
                self.assertEqual(files.find_kind(data, name), (Kind.IMG, "content"))
            for name, kind in (("a.pi2", Kind.DEGAS), ("A.TNY", Kind.TINY), ("a.neo", Kind.NEO), ("a.mac", Kind.MAC)):
                self.assertEqual(files.find_kind(data, name), (kind, "extension"))

    def test_the_extension_names_the_others(self):
        for data in (b"", GOOD[:15], b"text", file_of(version=2), file_of(planes=4), file_of(header=7), bytes(720)):
            self.assertEqual(files.find_kind(data), (files.UNKNOWN, "nothing"))
            for name in ("A.IMG", "a.img", "b.Img"):
                self.assertEqual(files.find_kind(data, name), (Kind.IMG, "extension"))

    def test_content_of_another_kind_comes_first(self):
        degas = kutimuq.write(kutimuq.Picture(1, PALETTE), noise(), kutimuq.Form.PLAIN)
        plate = kutimuq.write_plate(bytes(51_840))
        for data, kind in ((degas, Kind.DEGAS), (BLANK, Kind.DEGAS), (plate, Kind.MAC)):
            self.assertEqual(files.find_kind(data, "A.IMG"), (kind, "content"))

    def test_the_length_of_another_kind(self):
        for length in (32_034, 32_066):
            file = scan_of_length(length + 1)[:length]
            self.assertEqual((len(file), kutimuq.read(file, Kind.DEGAS).resolution), (length, 1))
            for name in ("", "A.PI2", "a.txt"):
                self.assertEqual(files.find_kind(file, name), (Kind.DEGAS, "content"))
            self.assertEqual(files.find_kind(file, "A.IMG"), (Kind.IMG, "content"))

    def test_pictures_are_not_taken_for_scans(self):
        # Medium resolution, and palette words that would be a header within the profile.
        picture = kutimuq.Picture(1, (8, 1, 2, 372, 372, 640, 400, *PALETTE[7:]))
        for form in (kutimuq.Form.PLAIN, kutimuq.Form.ELITE):
            for screen in (bytes(AREA), noise(), b"\xff" * AREA):
                file = kutimuq.write(picture, screen, form)
                for name in ("", "A.PI2", "a.txt"):
                    self.assertEqual(files.find_kind(file, name), (Kind.DEGAS, "content"))
                    self.assertEqual(files.find_kind(file[:-1], "A.PI2"), (Kind.DEGAS, "extension"))


class LongFiles(Case):
    def setUp(self):
        folder = tempfile.TemporaryDirectory()
        self.addCleanup(folder.cleanup)
        self.path = Path(folder.name, "LONG.IMG")

    def test_literals_of_no_bytes_make_a_scan_of_any_length(self):
        for length in (files.READ_LIMIT - 1, files.READ_LIMIT, files.READ_LIMIT + 1, files.IMG_READ_LIMIT):
            empty = literal() * ((length - len(GOOD)) // 2)
            self.path.write_bytes(file_of(empty, LINES, BLACK_LINE))
            self.assertEqual(kutimuq.open_img(self.path), Img(BITMAP, 20, 4))
            self.path.write_bytes(file_of(empty, LINES, BLACK_LINE, b"\0"))
            if self.path.stat().st_size <= files.IMG_READ_LIMIT:
                self.assertRefused(8, len(GOOD) + len(empty), kutimuq.open_img, self.path)

    def test_what_no_floppy_holds(self):
        self.path.write_bytes(file_of(literal() * (files.IMG_READ_LIMIT // 2)))
        self.assertRaisesRegex(OSError, "longer than 4 MiB: not judged", kutimuq.open_img, self.path)
        done = command("check", self.path)
        self.assertEqual(done.stdout.decode(), f"{self.path}: not read: {files.IMG_TOO_LONG}\n0 accepted, 0 refused\n")
        self.assertEqual((done.stderr, done.returncode), (b"kutimuq: 1 not read\n", 2))

    def test_a_long_file_with_another_header_is_not_read_whole(self):
        source = io.BytesIO(b"\xeb\x3c\x90" + bytes(5_000_000))  # the image of a disk
        self.assertRefused(21, 0, kutimuq.open_img, source)
        self.assertEqual(source.tell(), files.READ_LIMIT)


class Folder(unittest.TestCase):
    def setUp(self):
        folder = tempfile.TemporaryDirectory()
        self.addCleanup(folder.cleanup)
        self.folder = Path(folder.name)

    def put(self, name, data):
        path = self.folder / name
        path.write_bytes(data)
        return path


class Commands(Folder):
    def output(self, *arguments, data=b""):
        done = command(*arguments, data=data)
        self.assertEqual((done.stderr, done.returncode), (b"", 0))
        return done.stdout

    def test_summary(self):
        white, black = read_img(GOOD).tally()
        made = self.output("summary", "-q", data=GOOD)
        self.assertEqual(made.decode(), f"width 20\nlines 4\nwhite {white}\nblack {black}\n")
        self.assertEqual(self.output("summary", "--kind", "img", data=GOOD), made)
        self.assertEqual(self.output("summary", "--kind", "IMG", data=GOOD), made)
        self.assertEqual(command("summary", data=GOOD).stderr, b"kutimuq: standard input: GEM IMG by content\n")
        done = command("summary", self.put("A.IMG", CROSSING))
        place = len(CROSSING) - 1
        self.assertEqual((done.stdout.decode(), done.returncode), (f"refused 7 at {place}\n", 1))
        self.assertIn(b"A.IMG: GEM IMG by content\n", done.stderr)
        self.assertIn(f": refused 7 at {place}: a record crosses its row's end\n", done.stderr.decode())

    def test_images(self):
        for name in ("pbm", "png"):
            self.assertEqual(self.output(name, "-q", data=GOOD), getattr(read_img(GOOD), name)())
        out = self.folder / "out"
        paths = (self.put("A.IMG", GOOD), self.put("b.img", GOOD))
        for name in ("pbm", "png"):
            self.output(name, "-q", *paths, "-d", out)
        made = sorted(each.name for each in out.iterdir())
        self.assertEqual(made, ["A.IMG.pbm", "A.IMG.png", "b.img.pbm", "b.img.png"])

    def test_nothing_is_made_of_a_refused_scan(self):
        out = self.folder / "out"
        for name in ("pbm", "png"):
            done = command(name, self.put("A.IMG", TRUNCATED), "-o", out)
            self.assertEqual((done.stdout, done.returncode, out.exists()), (b"", 1, False))

    def test_what_makes_no_sense_for_a_scan(self):
        scan = self.put("A.IMG", GOOD)
        legend = self.put("legend", b"0 100\n" * 16)
        ponds = self.put("ponds.csv", b"name,rectangle,class,floor\nall,,0,0\n")
        for arguments in (
            ["palette"], ["tail"], ["registers"], ["colours"], ["tally"], ["envi", "-o", self.folder / "x.img"],
            ["convert", "--form", "packed"], ["convert", "--form", "neo"],
            ["pond", "--class", 0, "--floor", 0, "--legend", legend], ["ponds", "--list", ponds, "--legend", legend],
        ):
            done = command(*arguments, "-q", scan)
            self.assertEqual((done.stdout, done.returncode), (b"", 2))
            self.assertIn(f"kutimuq: {scan}: {NO_PICTURE}\n", done.stderr.decode())
        self.assertEqual(sorted(each.name for each in self.folder.iterdir()), ["A.IMG", "legend", "ponds.csv"])
        done = command("convert", "--form", "mac", "-q", scan)
        self.assertEqual((done.stdout, done.returncode), (b"", 2))
        self.assertEqual(done.stderr.decode(), f"kutimuq: {scan}: not a MacPaint plate\n")

    def test_a_scan_gives_no_palette_and_makes_no_plate(self):
        scan = self.put("A.IMG", GOOD)
        done = command("encode", "--form", "neo", "--like", scan, data=read_img(GOOD).pbm())
        self.assertEqual((done.stdout, done.returncode), (b"", 2))
        self.assertEqual(done.stderr.decode(), f"kutimuq: {scan}: {NO_PICTURE}\n")
        done = command("encode", "--form", "mac", data=read_img(GOOD).pbm())
        self.assertEqual((done.stdout, done.returncode), (b"", 1))
        self.assertEqual(done.stderr, b"kutimuq: standard input: a plate has 576 x 720 pixels, not 20 x 4\n")

    def test_a_scan_does_not_stop_the_others(self):
        done = command("tally", "-q", self.put("A.IMG", GOOD), self.put("b.pc1", BLANK))
        self.assertEqual((len(done.stdout.splitlines()), done.returncode), (1, 2))

    def test_help_and_man_page(self):
        self.assertIn(b"GEM IMG scans", self.output("--help"))
        for name in ("check", "summary", "png", "pbm"):
            self.assertIn(b"degas, neo, tiny, mac or img", self.output(name, "--help"))
        page = (PYTHON / "man" / "kutimuq.1").read_text()
        for said in ("degas, neo, tiny, mac or img", "GEM IMG", ".img", f"21 {OUTSIDE}", f"22 {WRONG_RUN}"):
            self.assertIn(said, page)


class Box(Folder):
    FILES = {
        "A.IMG": GOOD,
        "B": file_of(literal(*CLEARED[:3]), times(2), literal(*CLEARED[3:6]), literal(*CLEARED[9:])),
        "C.IMG": CROSSING,
        "D.IMG": TRUNCATED,
        "E.IMG": WRONG_FLAG,
        "F.IMG": OVER_WIDE,
        "G.img": TAILED,
        "H.IMG": GOOD[:15],
        "I.IMG": bytes(512),
        "J.PC1": BLANK,
        "K.TXT": b"field sheets of 1991\n",
        "L.BAK": TRUNCATED,
    }

    def setUp(self):
        super().setUp()
        self.out = self.folder / "out"
        self.folder = self.folder / "box"
        self.folder.mkdir()
        for name, data in self.FILES.items():
            self.put(name, data)

    def name(self, name):
        return str(self.folder / name)

    def test_lines(self):
        done = command("check", self.folder)
        self.assertEqual((done.stderr, done.returncode), (b"", 1))
        last_line, ends = len(GOOD) - 1, "input ends before the screen or row is full"
        self.assertEqual(done.stdout.decode().replace(f"{self.folder}/", "").splitlines(), [
            "A.IMG: accepted: GEM IMG by content, 20 x 4",
            "B: accepted: GEM IMG by content, 20 x 4, same picture as A.IMG",
            f"C.IMG: refused 7 at {last_line}: a record crosses its row's end (GEM IMG by content)",
            f"D.IMG: refused 6 at {last_line}: {ends} (GEM IMG by content)",
            f"E.IMG: refused 22 at 0: {WRONG_RUN} (GEM IMG by content)",
            f"F.IMG: refused 21 at 0: {OUTSIDE} (641 x 4, 1 plane; GEM IMG by content)",
            f"G.img: refused 8 at {len(GOOD)}: bytes after the body not as the format has them (GEM IMG by content)",
            "H.IMG: refused 3 at 0: file length not allowed (GEM IMG by extension)",
            f"I.IMG: refused 21 at 0: {OUTSIDE} (GEM IMG by extension)",
            "J.PC1: accepted: DEGAS by content, resolution 0, 800 records, body 1600",
            "K.TXT: refused 2 at 0: unknown kind or form (kind unknown)",
            f"L.BAK: refused 6 at {last_line}: {ends} (GEM IMG by content)",
            "3 accepted, 9 refused",
        ])

    def test_what_a_header_outside_the_profile_says(self):
        for changed, said in (
            (dict(width=800, lines=1000), "800 x 1000, 1 plane; GEM IMG by content"),
            (dict(planes=4), "20 x 4, 4 planes; GEM IMG by extension"),
            (dict(version=3), "20 x 4, 1 plane, version 3; GEM IMG by extension"),
            (dict(pattern=9), "20 x 4, 1 plane, header of 8 words, pattern of 9 bytes; GEM IMG by extension"),
            (dict(version=3, pattern=9), "GEM IMG by extension"),
        ):
            path = self.put("F.IMG", file_of(BLACK_LINE, **changed))
            done = command("check", path, "--json", f"{self.out}.json")
            line = f"{path}: refused 21 at 0: {OUTSIDE} ({said})"
            self.assertEqual(done.stdout.decode().splitlines()[0], line)
            record = json.loads(Path(f"{self.out}.json").read_text())
            words = [*{**LEAST_WORDS, **changed}.values()] if ";" in said else None
            self.assertEqual((record.get("header"), record["width"]), (words, None))

    def test_a_scan_is_not_a_degas_file(self):
        said = "not a DEGAS file (GEM IMG by content)"
        done = command("elite", self.name("A.IMG"), self.name("C.IMG"), "-o", self.out)
        lines = done.stdout.decode().splitlines()
        self.assertEqual(lines, [
            f"{self.name('A.IMG')}: refused 3 at 0: {said}",
            f"{self.name('C.IMG')}: refused 3 at 0: {said}",
            "0 written, 2 refused",
        ])
        done = command("records", self.name("A.IMG"))
        self.assertTrue(done.stderr.decode().endswith(f": {said}\n"), done.stderr)
        self.assertEqual((done.stdout.decode().count(said), done.returncode), (1, 1))

    def test_a_report_of_scans_alone(self):
        for names, count in ((["A.IMG", "C.IMG"], 0), (["A.IMG", "J.PC1"], 1)):
            command("check", *map(self.name, names), "--report", f"{self.out}.html")
            page = Path(f"{self.out}.html").read_text()
            self.assertEqual(page.count("Colours as on an ST."), count)
            self.assertEqual(page.count("the register is the class"), count)

    def test_kind(self):
        lines = command("check", "--kind", "img", self.folder).stdout.decode().splitlines()
        self.assertIn(f"J.PC1: refused 21 at 0: {OUTSIDE} (GEM IMG by option)", lines[9])
        self.assertEqual(lines[-1], "2 accepted, 10 refused")

    def test_tables(self):
        command("check", self.folder, "--json", f"{self.out}.json", "--csv", f"{self.out}.csv")
        records = [json.loads(line) for line in Path(f"{self.out}.json").read_text().splitlines()]
        a, b, c, d, *_, j, k, _ = records
        self.assertEqual((a["kind"], a["width"], a["lines"], a["tally"]), ("GEM IMG", 20, 4, [*read_img(GOOD).tally()]))
        for key in ("resolution", "tail_present", "records", "body", "form", "cycling_lists"):
            self.assertIsNone(a[key])
        self.assertEqual((a["same_as"], b["same_as"]), (None, a["name"]))
        self.assertEqual({a["sha256"], b["sha256"]}, {sha256(read_img(GOOD).pbm()).hexdigest()})
        for record in (c, d):
            self.assertEqual((record["plane_row"], record["good_bytes"], record["width"]), (None, None, None))
        self.assertEqual((j["width"], j["resolution"], k["kind"]), (None, 0, "unknown"))
        with open(f"{self.out}.csv", encoding="utf-8", newline="") as file:
            rows = list(csv.DictReader(file))
        self.assertEqual((rows[0]["width"], rows[0]["lines"], rows[0]["records"]), ("20", "4", ""))
        self.assertEqual((rows[2]["width"], rows[2]["number"]), ("", "7"))

    def test_report(self):
        command("check", self.folder, "--report", f"{self.out}.html")
        page = Path(f"{self.out}.html").read_text()
        self.assertEqual(page.count("<img "), 2)
        self.assertIn('<figure class="scan" tabindex="0"', page)
        self.assertIn("<b>A.IMG</b> GEM IMG, 20 x 4 and 1 more</figcaption>", page)
        self.assertIn(f"<td>22</td><td>0</td><td>{WRONG_RUN}</td></tr>", page)
        self.assertNotIn("good rows", page)
        data = json.loads(page.split('id="data">')[1].split("</script>")[0])
        scan, picture = data["pictures"]
        self.assertEqual((scan["scan"], scan["plate"], scan["width"], scan["height"]), (True, False, 20, 4))
        self.assertEqual((scan["tally"], scan["colours"]), ([*read_img(GOOD).tally()], [[255] * 3, [0] * 3]))
        self.assertEqual((picture["scan"], picture["width"]), (False, 320))
        self.assertIn("GEM IMG, 20 x 4, SHA-256 ", scan["facts"])

    @unittest.skipUnless(shutil.which("node"), "node is not installed")
    def test_the_page_unpacks_lines_with_padding(self):
        page = (PYTHON / "kutimuq" / "page.html").read_text()
        function = page[page.index("const depthPlace") : page.index("// How wide a scan")]
        plate = kutimuq.Plate(bytes(range(256)) * 203)
        for found, width, height in ((Img(noise(), 9, 5), 9, 5), (Img(noise(), 509, 2), 509, 2), (plate, 576, 720)):
            source = json.dumps({"src": f"data:image/png;base64,{b64encode(found.png()).decode()}"})
            call = f"registersOf({source}, {width}, {height}).then(made => console.log(made.join('')));"
            done = subprocess.run(["node"], input=f"{function}\n{call}", capture_output=True, text=True)
            self.assertEqual(done.stdout.strip(), "".join(map(str, flat(found.pixels()))))


if __name__ == "__main__":
    unittest.main()
