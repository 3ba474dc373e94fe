"""Files read and written, pictures opened and saved, single rows packed and unpacked."""

import io
import random
import tempfile
from pathlib import Path

import kutimuq
from kutimuq import Form, Kind

from .support import BLANK, CROSSING, PALETTE, SHAPES, TAIL, Case, blocks, broken, noise, tight_screen

LENGTHS = {Form.PLAIN: 32_034, Form.ELITE: 32_066, Form.NEO: 32_128}


class Reading(Case):
    def test_blank_file(self):
        picture = kutimuq.read(BLANK, Kind.DEGAS)
        self.assertEqual(picture, kutimuq.Picture(
            resolution=0, palette=(0,) * 16, tail_present=True, tail=kutimuq.Tail(),
            screen=bytes(32_000), body=1600, records=800,
        ))

    def test_do_nothing_record(self):
        picture = kutimuq.read(BLANK[:34] + b"\x80" + BLANK[34:], Kind.DEGAS)
        self.assertEqual((picture.records, picture.body), (801, 1601))

    def test_ignored_bits(self):
        self.assertEqual(kutimuq.read(b"\xff\xfc" + BLANK[2:], 1), kutimuq.read(BLANK, 1))

    def test_bytes_like_files(self):
        for kind in (bytearray, memoryview):
            self.assertEqual(kutimuq.read(kind(BLANK), 1), kutimuq.read(BLANK, 1))

    def test_refusals(self):
        start = b"\x80\x00" + bytes(32)
        for number, place, data in (
            (3, 0, b""),
            (3, 0, start[:33]),
            (6, 34, start),
            (7, 34, start + b"\xd8\x00"),
            (7, 34, start + b"\xd8"),
            (8, 1634, BLANK[:-1]),
            (8, 1634, BLANK + b"\0"),
            (5, 0, b"\x80\x03" + BLANK[2:]),
            (5, 0, b"\x00\x03" + bytes(40)),
            (3, 0, bytes(32_035)),
            (3, 0, bytes(100_000)),
            (3, 0, b"\x80" + bytes(32_065)),
        ):
            self.assertRefused(number, place, kutimuq.read, data, Kind.DEGAS)
        for number, place, data in (
            (3, 0, bytes(32_127)),
            (3, 0, bytes(32_129)),
            (4, 0, b"\1" + bytes(32_127)),
            (5, 0, b"\0\0\0\3" + bytes(32_124)),
        ):
            self.assertRefused(number, place, kutimuq.read, data, Kind.NEO)

    def test_unknown_kinds(self):
        for kind in (0, 4, -1, 255, 256, 257, 258, 1 << 70):
            self.assertRefused(2, 0, kutimuq.read, BLANK, kind)

    def test_meaning(self):
        with self.assertRaises(kutimuq.Refused) as caught:
            kutimuq.read(BLANK[:-1], Kind.DEGAS)
        self.assertEqual(caught.exception.meaning, "bytes after the body not as the format has them")
        self.assertEqual(
            str(caught.exception), "refused 8 at 1634: bytes after the body not as the format has them"
        )


    def test_which_row_broke(self):
        for resolution, (width, height, planes) in enumerate(SHAPES):
            last_row, last_byte = height * planes - 1, width // 8 - 1
            for plane_row, good_bytes in ((0, 0), (0, 1), (26, 0), (26, 11), (last_row, last_byte)):
                for number, fault in ((6, b""), (6, b"\0"), (7, CROSSING)):
                    file = broken(plane_row, good_bytes, fault, resolution)
                    refused = self.assertRefused(number, len(file) - len(fault), kutimuq.read, file, Kind.DEGAS)
                    self.assertEqual((refused.plane_row, refused.good_bytes), (plane_row, good_bytes))

    def test_which_row_broke_in_words(self):
        refused = self.assertRefused(7, 108, kutimuq.read, broken(26, 11), Kind.DEGAS)
        self.assertEqual(str(refused), "refused 7 at 108: a record crosses its row's end (plane row 26, 11 bytes good)")
        refused = self.assertRefused(6, 34, kutimuq.read, broken(0, 0, b""), Kind.DEGAS)
        self.assertTrue(str(refused).endswith(" is full (plane row 0, 0 bytes good)"))


class Writing(Case):
    def test_there_and_back(self):
        for resolution in (0, 1, 2):
            screen = kutimuq.screen_from_registers(blocks(resolution), resolution)
            for tail_present in (False, True):
                picture = kutimuq.Picture(resolution, PALETTE, tail_present, TAIL)
                for form in Form:
                    with self.subTest(resolution=resolution, tail_present=tail_present, form=form):
                        self.there_and_back(picture, screen, form)

    def there_and_back(self, picture, screen, form):
        file = kutimuq.write(picture, screen, form)
        packed = form is Form.PACKED
        self.assertEqual(len(file), file.body + 66 if packed else LENGTHS[form])
        self.assertEqual((file.body > 0, file.records > 0), (packed, packed))
        back = kutimuq.read(file, Kind.NEO if form is Form.NEO else Kind.DEGAS)
        kept = form in (Form.ELITE, Form.PACKED)
        self.assertEqual(back, kutimuq.Picture(
            picture.resolution, PALETTE, kept, TAIL if kept else kutimuq.Tail(),
            screen, file.body, file.records,
        ))

    def test_blank_file(self):
        picture = kutimuq.read(BLANK, Kind.DEGAS)
        self.assertEqual(kutimuq.write(picture, picture.screen, Form.PACKED), BLANK)

    def test_neo_layout(self):
        file = kutimuq.write(kutimuq.Picture(1, PALETTE), noise(), Form.NEO)
        words = b"".join(value.to_bytes(2, "big") for value in PALETTE)
        head = b"\0\0\0\1" + words + b"        .   " + bytes(10) + b"\x01\x40\x00\xc8"
        self.assertEqual(file, head.ljust(128, b"\0") + noise())

    def test_least_body_of_32000(self):
        picture = kutimuq.Picture(0, PALETTE)
        self.assertRefused(9, 0, kutimuq.write, picture, tight_screen(0), Form.PACKED)
        self.assertEqual(kutimuq.write(picture, tight_screen(1), Form.PACKED).body, 31_999)

    def test_refusals(self):
        picture = kutimuq.Picture(0, PALETTE)
        unknown = kutimuq.Picture(3, PALETTE)
        self.assertRefused(1, 0, kutimuq.write, unknown, bytes(31_999), 5)
        for form in (0, 5, -1, 256, 257, 260):
            self.assertRefused(2, 0, kutimuq.write, unknown, bytes(32_000), form)
        for resolution in (3, -1, 65_535, 65_536, 65_538):
            strange = kutimuq.Picture(resolution, PALETTE)
            self.assertRefused(5, 0, kutimuq.write, strange, bytes(32_000), Form.PLAIN)
        self.assertRefused(9, 0, kutimuq.write, picture, noise(), Form.PACKED)

    def test_bytes_past_the_screen(self):
        picture = kutimuq.Picture(0, PALETTE)
        long, short = noise() + b"past", noise()
        self.assertEqual(kutimuq.write(picture, long, 1), kutimuq.write(picture, short, 1))

    def test_words_that_are_none(self):
        for picture in (
            kutimuq.Picture(0, PALETTE[:15]),
            kutimuq.Picture(0, (*PALETTE, 0)),
            kutimuq.Picture(0, (65_536, *PALETTE[1:])),
            kutimuq.Picture(0, (-1, *PALETTE[1:])),
            kutimuq.Picture(0, PALETTE, True, TAIL[:3]),
            kutimuq.Picture(0, PALETTE, True, (*TAIL[:3], (0, 0, 0))),
        ):
            self.assertRaises(ValueError, kutimuq.write, picture, bytes(32_000), Form.ELITE)


class Opening(Case):
    def setUp(self):
        folder = tempfile.TemporaryDirectory()
        self.addCleanup(folder.cleanup)
        self.folder = Path(folder.name)
        self.picture = kutimuq.Picture(1, PALETTE, True, TAIL, noise())

    def test_path_and_open_file(self):
        path = self.folder / "blank"
        path.write_bytes(BLANK)
        expected = kutimuq.read(BLANK, Kind.DEGAS)
        self.assertEqual(kutimuq.open(path), expected)
        self.assertEqual(kutimuq.open(str(path)), expected)
        self.assertEqual(kutimuq.open(io.BytesIO(BLANK)), expected)
        with open(path, "rb", buffering=0) as file:
            self.assertEqual(kutimuq.open(file), expected)
        with open(path, encoding="latin-1") as file:
            self.assertRaises(TypeError, kutimuq.open, file)

    def test_kind(self):
        neo = kutimuq.write(self.picture, noise(), Form.NEO)
        for kind in (None, Kind.NEO, 2, "neo"):
            self.assertEqual(kutimuq.open(io.BytesIO(neo), kind).screen, noise())
        self.assertRefused(3, 0, kutimuq.open, io.BytesIO(neo), "degas")
        self.assertRefused(2, 0, kutimuq.open, io.BytesIO(b"text"))
        self.assertRaises(ValueError, kutimuq.open, io.BytesIO(neo), "gif")

    def test_nothing_but_the_first_bytes_is_read(self):
        with open("/dev/zero", "rb") as endless:
            self.assertRefused(3, 0, kutimuq.open, endless, Kind.NEO)

    def test_save(self):
        for name, form in (("a.pi2", Form.ELITE), ("a.NEO", Form.NEO), ("a.xyz", "plain")):
            path = self.folder / name
            named = form if name == "a.xyz" else None
            expected = kutimuq.write(self.picture, noise(), kutimuq.Form[form.upper()] if named else form)
            self.assertEqual(self.picture.save(path, named), expected)
            self.assertEqual(path.read_bytes(), expected)
        self.picture._replace(tail_present=False).save(self.folder / "b.pi2")
        self.assertEqual((self.folder / "b.pi2").stat().st_size, 32_034)
        self.assertRaises(ValueError, self.picture.save, self.folder / "a.gif")

    def test_a_refused_save_leaves_the_old_file(self):
        path = self.folder / "a.pc2"
        path.write_bytes(b"old")
        self.assertRefused(9, 0, self.picture.save, path)
        self.assertEqual(path.read_bytes(), b"old")
        self.assertEqual([each.name for each in self.folder.iterdir()], ["a.pc2"])

    def test_what_a_picture_shows(self):
        picture = kutimuq.read(BLANK, Kind.DEGAS)
        self.assertEqual(repr(picture), "<kutimuq.Picture: resolution 0, 800 records, body 1600>")
        file = kutimuq.write(picture, picture.screen, Form.PACKED)
        self.assertEqual(repr(file), "<kutimuq.File: 1666 bytes, 800 records, body 1600>")
        self.assertEqual(picture.tally(), (64_000,) + (0,) * 15)
        self.assertEqual(picture.tally((0, 0, 2, 3))[0], 6)
        self.assertEqual(picture.colours(), [(0, 0, 0)] * 16)
        self.assertEqual([bytes(row) for row in picture.registers()], [bytes(320)] * 200)


LEAST_BODIES = (
    ("07", "00 07"),
    ("07 07", "FF 07"),
    ("07 07 08", "02 07 07 08"),
    ("01 07 07 02", "03 01 07 07 02"),
    ("01 07 07 07 02", "00 01 FE 07 00 02"),
    ("00 " * 40, "D9 00"),
)


def least_length(row):
    """The shortest packed length, by trying every record at every byte."""
    best = [0]
    for end in range(1, len(row) + 1):
        literal = min(best[start] + 1 + end - start for start in range(end))
        runs = [best[start] + 2 for start in range(end - 1) if len(set(row[start:end])) == 1]
        best.append(min([literal, *runs]))
    return best[-1]


class Rows(Case):
    def test_least_bodies(self):
        for row, body in LEAST_BODIES:
            packed = kutimuq.pack_row(bytes.fromhex(row))
            self.assertEqual(packed, bytes.fromhex(body))
            self.assertEqual(packed.packed, len(packed))

    def test_records_of_a_packed_row(self):
        self.assertEqual(kutimuq.pack_row(bytes.fromhex("01 07 07 07 02")).records, 3)

    def test_unpacking_counts_do_nothing_records(self):
        row = kutimuq.unpack_row(bytes.fromhex("80 FF 07"), 2)
        self.assertEqual((row, row.packed, row.records), (b"\7\7", 3, 2))

    def test_bytes_left_over(self):
        row = kutimuq.unpack_row(bytes.fromhex("FF 07 80 80"), 2)
        self.assertEqual((row, row.packed, row.records), (b"\7\7", 2, 1))

    def test_there_and_back(self):
        source = random.Random(3)
        for width in (1, 2, 3, 39, 40, 80, 127, 128):
            for letters in (1, 2, 3, 256):
                row = bytes(source.randrange(letters) for _ in range(width))
                packed = kutimuq.pack_row(row)
                self.assertEqual(len(packed), least_length(row))
                back = kutimuq.unpack_row(packed, width)
                self.assertEqual((back, back.packed), (row, len(packed)))
                self.assertEqual(back.records, packed.records)

    def test_bytes_like_rows(self):
        for kind in (bytearray, memoryview):
            self.assertEqual(kutimuq.pack_row(kind(b"\7\7")), b"\xff\7")

    def test_refusals(self):
        self.assertRefused(6, 0, kutimuq.unpack_row, b"\x01\x07", 2)
        self.assertRefused(7, 0, kutimuq.unpack_row, b"\xfe\x07", 2)
        self.assertRefused(6, 0, kutimuq.unpack_row, b"", 2)
        self.assertRefused(6, 1, kutimuq.unpack_row, b"\x80", 2)
        self.assertRefused(6, 2, kutimuq.unpack_row, b"\xff\x07", 3)
        for width in (0, 129, -1, 1 << 32, 1 << 64, (1 << 64) + 2):
            self.assertRefused(10, 0, kutimuq.unpack_row, b"\xff\x07", width)
        for width in (0, 129):
            self.assertRefused(10, 0, kutimuq.pack_row, bytes(width))

    def test_how_far_a_row_is_good(self):
        good = bytes.fromhex("FE 07 80 01 01 02")
        for number, fault in ((6, "FE"), (6, "01 07"), (7, "03 01 02 03 04")):
            refused = self.assertRefused(number, 6, kutimuq.unpack_row, good + bytes.fromhex(fault), 8)
            self.assertEqual((refused.plane_row, refused.good_bytes), (0, 5))
            self.assertEqual(str(refused), f"refused {number} at 6: {refused.meaning} (plane row 0, 5 bytes good)")

    def test_not_bytes(self):
        for row in (3, None, "row", [1, 2]):
            self.assertRaises(TypeError, kutimuq.pack_row, row)
