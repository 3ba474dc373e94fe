"""MacPaint plates: read and written by the library, found by content, shown by the command and the report."""

import csv
import io
import json
import random
import tempfile
import unittest
from pathlib import Path

import kutimuq
from kutimuq import Kind, Plate, files, images, read_plate, write_plate

from .support import BLANK, PALETTE, Case, command, noise

WIDTH, HEIGHT, ROW_BYTES, PLATE_BYTES, HEADER = 576, 720, 72, 51_840, 512
LONGEST_FILE = 51_711
BLANK_ROW = bytes((257 - ROW_BYTES, 0))
BLANK_BODY = BLANK_ROW * HEIGHT
CROSSING = b"\x7f"  # a literal of 128 bytes, which no row holds
NO_PICTURE = "a MacPaint plate has no registers, palette, tail or machine"


def file_of(body=BLANK_BODY, version=0):
    """A MacPaint file with patterns in its header."""
    return version.to_bytes(4, "big") + b"\xa5" * (HEADER - 4) + body


def broken(row, good_bytes, fault=CROSSING):
    """A file of rows of zeros; this row has so many bytes, one a record, and then the fault."""
    return file_of(BLANK_ROW * row + b"\0\7" * good_bytes + fault)


def unpacked(body):
    """Document 01's records, one after another; rows and their number are not looked at."""
    made, place, records = bytearray(), 0, 0
    while place < len(body):
        control, records = body[place], records + 1
        if control < 128:
            made += body[place + 1 : place + control + 2]
            place += control + 2
        elif control > 128:
            made += body[place + 1 : place + 2] * (257 - control)
            place += 2
        else:
            place += 1
    return bytes(made), records


def row_of(packed):
    """A row with a least body of so many bytes, 4 to 73: equal bytes, then no two neighbours equal."""
    equal = 75 - packed
    return b"\7" * equal + bytes(1 + place % 2 for place in range(equal, ROW_BYTES))


def plate_of(body):
    """A bitmap with a least body of so many bytes."""
    packed, longer = divmod(body, HEIGHT)
    return row_of(packed + 1) * longer + row_of(packed) * (HEIGHT - longer)


def any_row(source):
    """A packed row of random records, do-nothing ones too."""
    left, packed = ROW_BYTES, b""
    while left:
        count = source.randint(1, min(left, 40))
        literal = count == 1 or source.random() < 0.5
        packed += b"\x80" * source.randrange(2)
        packed += bytes((count - 1,)) + source.randbytes(count) if literal else bytes((257 - count, 7))
        left -= count
    return packed


def drawing(seed=1):
    """A bitmap of bars, as a drawing has them, with some noise; it packs well."""
    source = random.Random(seed)
    rows = []
    for _ in range(HEIGHT // 8):
        bars = b"".join(source.choice((b"\0", b"\xff", b"\xaa")) * source.randrange(1, 20) for _ in range(72))
        rows += [bars[:64] + source.randbytes(8)] * 8
    return b"".join(rows)


class Reading(Case):
    def test_the_blank_plate(self):
        for version, nothing in ((0, b""), (2, b"\x80\x80")):
            plate = read_plate(file_of(nothing + BLANK_BODY, version))
            self.assertEqual(plate, Plate(bytes(PLATE_BYTES), 1440 + len(nothing), 720 + len(nothing)))
            self.assertEqual(repr(plate), f"<kutimuq.Plate: {plate.records} records, body {plate.body}>")

    def test_any_records(self):
        source = random.Random(3)
        body = b"".join(any_row(source) for _ in range(HEIGHT))
        plate = read_plate(bytearray(file_of(body)))
        self.assertEqual((plate.bitmap, plate.records), unpacked(body))
        self.assertEqual(plate.body, len(body))

    def test_refusals(self):
        for data in (b"", file_of(b"")[:-1], file_of(bytes(LONGEST_FILE - HEADER + 1)), b"\1" * 300_000):
            self.assertRefused(3, 0, read_plate, data)
        for version in (1, 3, 0x0002_0000, 0x0200_0000, 0xFFFF_FFFF):
            self.assertRefused(20, 0, read_plate, file_of(version=version))
        for left in (b"\x80", b"\0", bytes(100)):
            self.assertRefused(8, HEADER + 1440, read_plate, file_of(BLANK_BODY + left))
        with self.assertRaises(TypeError):
            read_plate(memoryview(file_of()).cast("H"))

    def test_which_row_broke(self):
        for row, good_bytes in ((0, 0), (0, 5), (26, 11), (719, 71)):
            place = HEADER + 2 * row + 2 * good_bytes
            for number, fault in ((7, CROSSING), (6, b""), (6, b"\0")):
                refusal = self.assertRefused(number, place, read_plate, broken(row, good_bytes, fault))
                self.assertEqual((refusal.plane_row, refusal.good_bytes), (row, good_bytes))


class Writing(Case):
    def test_reads_back(self):
        for bitmap in (bytes(PLATE_BYTES), b"\xff" * PLATE_BYTES, drawing(), drawing(2)):
            file = write_plate(bitmap)
            self.assertEqual(file[:HEADER], bytes(HEADER))
            self.assertEqual(len(file), HEADER + file.body)
            self.assertEqual(unpacked(file[HEADER:]), (bitmap, file.records))
            self.assertEqual(read_plate(file), Plate(bitmap, file.body, file.records))

    def test_the_least_body_row_by_row(self):
        bitmap = drawing()
        rows = [kutimuq.pack_row(row) for row in Plate(bitmap).rows()]
        file = write_plate(memoryview(bitmap))
        self.assertEqual(file[HEADER:], b"".join(rows))
        self.assertEqual(file.records, sum(row.records for row in rows))

    def test_the_limit(self):
        file = write_plate(plate_of(51_199))
        self.assertEqual((len(file), file.body), (LONGEST_FILE, 51_199))
        self.assertEqual(read_plate(file).bitmap, plate_of(51_199))
        for bitmap in (plate_of(51_200), random.Random(1).randbytes(PLATE_BYTES)):
            self.assertRefused(9, 0, write_plate, bitmap)

    def test_too_short(self):
        self.assertRefused(1, 0, write_plate, bytes(PLATE_BYTES - 1))
        self.assertEqual(write_plate(bytes(PLATE_BYTES) + b"past"), write_plate(bytes(PLATE_BYTES)))


class Values(Case):
    def test_rows_and_pixels(self):
        plate = Plate(drawing() + b"past")
        rows, pixels = plate.rows(), plate.pixels()
        self.assertEqual(b"".join(rows), drawing())
        self.assertEqual({len(row) for row in rows}, {ROW_BYTES})
        self.assertEqual({len(row) for row in pixels}, {WIDTH})
        for x, y in ((0, 0), (575, 719), (7, 100), (8, 100), (301, 402)):
            self.assertEqual(pixels[y][x], rows[y][x // 8] >> (7 - x % 8) & 1)
        black = sum(map(sum, pixels))
        self.assertEqual(plate.tally(), (WIDTH * HEIGHT - black, black))

    def test_bytes_missing(self):
        plate = Plate(bytes(PLATE_BYTES - 1))
        for operation in (plate.rows, plate.pixels, plate.tally, plate.pbm, plate.png):
            self.assertRefused(1, 0, operation)

    def test_opened_and_saved(self):
        with tempfile.TemporaryDirectory() as folder:
            path = Path(folder, "plate.mac")
            file = Plate(drawing()).save(path)
            self.assertEqual(path.read_bytes(), file)
            self.assertEqual(kutimuq.open_plate(path).bitmap, drawing())
            with open(path, "rb") as opened:
                self.assertEqual(kutimuq.open_plate(opened), kutimuq.open_plate(str(path)))
            self.assertRefused(9, 0, Plate(plate_of(51_200)).save, path)
            self.assertEqual([each.name for each in Path(folder).iterdir()], ["plate.mac"])
            self.assertEqual(path.read_bytes(), file)

    def test_a_plate_is_no_picture(self):
        self.assertRefused(2, 0, kutimuq.read, write_plate(drawing()), Kind.MAC)
        self.assertRefused(2, 0, kutimuq.open, io.BytesIO(write_plate(drawing())))


class Kinds(Case):
    def test_content_names_a_whole_plate(self):
        for file in (write_plate(drawing()), file_of(version=2), file_of(b"\x80" + BLANK_BODY)):
            for name in ("", "Plate 12", "a.pi1", "A.MAC"):
                self.assertEqual(files.find_kind(file, name), (Kind.MAC, "content"))

    def test_the_extension_names_a_damaged_one(self):
        for data in (broken(26, 11), file_of(version=1), file_of(BLANK_BODY + b"\0"), b""):
            self.assertEqual(files.find_kind(data), (files.UNKNOWN, "nothing"))
            for name in ("A.MAC", "a.mac", "a.pntg", "a.PNT"):
                self.assertEqual(files.find_kind(data, name), (Kind.MAC, "extension"))

    def test_a_plate_of_the_length_of_another_kind(self):
        # As a raw DEGAS file it would be accepted, too, and give a map of noise.
        for length in (32_034, 32_066, 32_128):
            file = write_plate(plate_of(length - HEADER))
            self.assertEqual(len(file), length)
            self.assertEqual(files.find_kind(file, "A.PI1"), (Kind.MAC, "content"))
        self.assertEqual(kutimuq.read(write_plate(plate_of(32_034 - HEADER)), Kind.DEGAS).resolution, 0)

    def test_pictures_are_not_taken_for_plates(self):
        for palette in ((0,) * 16, (2, *PALETTE[1:])):
            picture = kutimuq.Picture(0, palette)
            for screen in (bytes(32_000), noise(), b"\xff" * 32_000, BLANK_BODY * 23):
                for form in kutimuq.Form:
                    if form == kutimuq.Form.PACKED:
                        continue
                    kind = Kind.NEO if form == kutimuq.Form.NEO else Kind.DEGAS
                    file = kutimuq.write(picture, screen, form)
                    for name in ("", "A.NEO", "A.PI1"):
                        self.assertEqual(files.find_kind(file, name), (kind, "content"))

    def test_a_damaged_plate_of_the_length_of_another_kind(self):
        file = write_plate(plate_of(32_034 - HEADER))
        damaged = file[:HEADER] + CROSSING + file[HEADER + 1 :]
        self.assertEqual(files.find_kind(damaged), (Kind.DEGAS, "content"))
        self.assertEqual(files.find_kind(damaged, "A.MAC"), (Kind.MAC, "extension"))
        self.assertEqual(files.find_kind(b"\0\0\0\1" + damaged[4:], "A.MAC"), (Kind.DEGAS, "content"))


class Images(Case):
    def test_portable_bitmap(self):
        made = Plate(drawing()).pbm()
        self.assertEqual(made, b"P4\n576 720\n" + drawing())
        for header in (b"P4 576 720\n", b"P4\n# a plate\n576\n# of\n720\n"):
            self.assertEqual(images.plate_of(images.read_image(header + drawing())).bitmap, drawing())

    def test_png(self):
        made = Plate(drawing()).png()
        image = images.read_image(made)
        self.assertEqual(image.pixels, b"".join(Plate(drawing()).pixels()))
        self.assertEqual(image.colours, [(255, 255, 255), (0, 0, 0)])
        self.assertEqual(images.plate_of(image).bitmap, drawing())

    def test_images_that_are_no_plates(self):
        turned = images.indexed_png(WIDTH, 1, Plate(drawing()).rows(), images.BIT_COLOURS[::-1], [])
        for data, said in (
            (b"P4\n576 719\n" + drawing(), "576 x 720 pixels, not 576 x 719"),
            (b"P4\n576 720\n" + drawing()[:-1], "the PBM ends before its last pixel"),
            (b"P4\n576 720", "the PBM ends before its last pixel"),
            (b"P4\n576\n", "a PBM's header is width and height"),
            (b"P4\n0 720\n", "not 0 x 720"),
            (b"P4\n999999999 999999999\n", "ends before"),
            (b"P5\n576 720\n1\n" + bytes(WIDTH * HEIGHT), "white where its values are 0"),
            (turned, "white where its values are 0"),
            (images.png_of(kutimuq.Picture(2, PALETTE, screen=noise())), "not 640 x 400"),
            (b"text", "neither a PNG nor a PGM"),
        ):
            with self.assertRaisesRegex(kutimuq.BadImage, said):
                images.plate_of(images.read_image(data))

    def test_a_bitmap_of_a_screen(self):
        # At high resolution register 0 is white and 1 black, as in a PBM; elsewhere colours decide.
        image = images.read_image(b"P4\n640 400\n" + noise())
        self.assertEqual(images.picture_of(image, PALETTE).screen, noise())
        with self.assertRaisesRegex(kutimuq.BadImage, "not the palette's"):
            images.picture_of(images.read_image(b"P4\n320 200\n" + noise()), PALETTE)


class Folder(unittest.TestCase):
    def setUp(self):
        folder = tempfile.TemporaryDirectory()
        self.addCleanup(folder.cleanup)
        self.folder = Path(folder.name)

    def put(self, name, data):
        path = self.folder / name
        path.write_bytes(data)
        return path


class Commands(Folder):
    def output(self, *arguments, data=b""):
        done = command(*arguments, data=data)
        self.assertEqual((done.stderr, done.returncode), (b"", 0))
        return done.stdout

    def test_summary(self):
        file = write_plate(drawing())
        white, black = Plate(drawing()).tally()
        made = self.output("summary", "-q", data=file)
        self.assertEqual(
            made.decode(), f"records {file.records}\nbody {file.body}\nwhite {white}\nblack {black}\n"
        )
        self.assertEqual(self.output("summary", "--kind", "mac", data=file), made)
        self.assertEqual(command("summary", data=file).stderr, b"kutimuq: standard input: MacPaint by content\n")
        done = command("summary", self.put("A.MAC", broken(26, 11)))
        self.assertEqual((done.stdout, done.returncode), (b"refused 7 at 586\n", 1))
        self.assertIn(b"A.MAC: MacPaint by extension\n", done.stderr)
        self.assertIn(b"a record crosses its row's end (plane row 26, 11 bytes good)\n", done.stderr)

    def test_images_and_back(self):
        file = write_plate(drawing())
        for name in ("pbm", "png"):
            made = self.output(name, "-q", data=file)
            self.assertEqual(made, getattr(Plate(drawing()), name)())
            self.assertEqual(self.output("encode", "--form", "mac", data=made), file)

    def test_least_body(self):
        long = file_of(b"".join(b"\x80" + kutimuq.pack_row(row) for row in Plate(drawing()).rows()))
        self.assertEqual(read_plate(long).bitmap, drawing())
        self.assertEqual(self.output("convert", "-q", "--form", "mac", data=long), write_plate(drawing()))

    def test_into_a_folder(self):
        out = self.folder / "out"
        path = self.put("A.MAC", write_plate(drawing()))
        for name, *options in (("pbm",), ("png",), ("convert", "--form", "mac")):
            self.output(name, "-q", *options, path, "-d", out)
        self.output("encode", "--form", "mac", out / "A.MAC.pbm", "-d", out)
        self.assertEqual(
            sorted(each.name for each in out.iterdir()), ["A.MAC.mac", "A.MAC.pbm", "A.MAC.pbm.mac", "A.MAC.png"]
        )

    def test_what_makes_no_sense_for_a_plate(self):
        plate = self.put("A.MAC", write_plate(drawing()))
        legend = self.put("legend", b"0 100\n" * 16)
        ponds = self.put("ponds.csv", b"name,rectangle,class,floor\nall,,0,0\n")
        for arguments in (
            ["palette"], ["tail"], ["registers"], ["colours"], ["tally"], ["envi", "-o", self.folder / "x.img"],
            ["convert", "--form", "packed"], ["pond", "--class", 0, "--floor", 0, "--legend", legend],
            ["ponds", "--list", ponds, "--legend", legend],
        ):
            done = command(*arguments, "-q", plate)
            self.assertEqual((done.stdout, done.returncode), (b"", 2))
            self.assertIn(f"kutimuq: {plate}: {NO_PICTURE}\n", done.stderr.decode())
        self.assertEqual(sorted(each.name for each in self.folder.iterdir()), ["A.MAC", "legend", "ponds.csv"])

    def test_what_makes_sense_for_a_plate_alone(self):
        for arguments, said in (
            (["pbm"], "neither a MacPaint plate nor a GEM IMG scan"),
            (["convert", "--form", "mac"], "not a MacPaint plate"),
        ):
            done = command(*arguments, "-q", data=BLANK)
            self.assertEqual((done.stdout, done.returncode), (b"", 2))
            self.assertEqual(done.stderr.decode(), f"kutimuq: standard input: {said}\n")
        options = (("--palette", "0000 " * 16), ("--like", self.put("a.pc1", BLANK)), ("--machine", "st"))
        for option, value in options:
            done = command("encode", "--form", "mac", option, value, data=Plate(drawing()).pbm())
            self.assertEqual((done.stdout, done.returncode), (b"", 2))
            self.assertEqual(done.stderr.decode(), f"kutimuq: {NO_PICTURE}\n")
        plate = self.put("A.MAC", write_plate(drawing()))
        done = command("encode", "--form", "neo", "--like", plate, data=Plate(drawing()).pbm())
        self.assertEqual((done.stdout, done.returncode), (b"", 2))
        self.assertEqual(done.stderr.decode(), f"kutimuq: {plate}: {NO_PICTURE}\n")

    def test_a_plate_does_not_stop_the_others(self):
        done = command("tally", "-q", self.put("A.MAC", write_plate(drawing())), self.put("b.pc1", BLANK))
        self.assertEqual((len(done.stdout.splitlines()), done.returncode), (1, 2))

    def test_refused_images(self):
        for data, said in (
            (b"P4\n576 719\n" + drawing(), "a plate has 576 x 720 pixels, not 576 x 719"),
            (Plate(plate_of(51_200)).pbm(), "refused 9 at 0: no packed body below the format's limit exists"),
        ):
            done = command("encode", "--form", "mac", data=data)
            self.assertEqual((done.stdout, done.returncode), (b"", 1))
            self.assertEqual(done.stderr.decode(), f"kutimuq: standard input: {said}\n")


class Box(Folder):
    def setUp(self):
        super().setUp()
        self.out = self.folder / "out"
        self.folder = self.folder / "box"
        self.folder.mkdir()
        self.file = write_plate(drawing())
        self.put("A.MAC", self.file)
        self.put("B", b"\0\0\0\2" + b"\x55" * 508 + self.file[HEADER:])
        self.put("C.MAC", broken(26, 11))
        self.put("D.MAC", file_of(version=1))
        self.put("E.PC1", BLANK)

    def name(self, name):
        return str(self.folder / name)

    def test_lines(self):
        done = command("check", self.folder)
        counts = f"{self.file.records} records, body {self.file.body}"
        self.assertEqual((done.stderr, done.returncode), (b"", 1))
        self.assertEqual(done.stdout.decode().splitlines(), [
            f"{self.name('A.MAC')}: accepted: MacPaint by content, {counts}",
            f"{self.name('B')}: accepted: MacPaint by content, {counts}, same picture as {self.name('A.MAC')}",
            f"{self.name('C.MAC')}: refused 7 at 586: a record crosses its row's end "
            "(plane row 26, 11 bytes good; MacPaint by extension)",
            f"{self.name('D.MAC')}: refused 20 at 0: MacPaint version neither 0 nor 2 (MacPaint by extension)",
            f"{self.name('E.PC1')}: accepted: DEGAS by content, resolution 0, 800 records, body 1600",
            "3 accepted, 2 refused",
        ])

    def test_kind(self):
        lines = command("check", "--kind", "mac", self.folder).stdout.decode().splitlines()
        self.assertIn("E.PC1: refused 20 at 0: MacPaint version neither 0 nor 2 (MacPaint by option)", lines[4])
        self.assertEqual(lines[5], "2 accepted, 3 refused")

    def test_tables(self):
        command("check", self.folder, "--json", f"{self.out}.json", "--csv", f"{self.out}.csv")
        a, b, c, d, e = map(json.loads, Path(f"{self.out}.json").read_text().splitlines())
        self.assertEqual((a["kind"], a["records"], a["body"]), ("MacPaint", self.file.records, self.file.body))
        self.assertEqual((a["resolution"], a["tail_present"], a["form"]), (None, None, None))
        self.assertEqual((a["sha256"], a["same_as"]), (b["sha256"], None))
        self.assertEqual((b["same_as"], a["tally"]), (a["name"], list(Plate(drawing()).tally())))
        self.assertEqual((c["number"], c["plane_row"], c["good_bytes"], c["resolution"]), (7, 26, 11, None))
        self.assertEqual((d["number"], d["plane_row"], e["resolution"]), (20, None, 0))
        with open(f"{self.out}.csv", encoding="utf-8", newline="") as file:
            rows = list(csv.DictReader(file))
        self.assertEqual((rows[0]["resolution"], rows[0]["form"], rows[0]["kind"]), ("", "", "MacPaint"))

    def test_report(self):
        command("check", self.folder, "--report", f"{self.out}.html")
        page = Path(f"{self.out}.html").read_text()
        self.assertEqual(page.count("<img "), 2)
        self.assertIn('<figure class="plate" tabindex="0"', page)
        self.assertIn("<b>A.MAC</b> MacPaint, 576 x 720 and 1 more</figcaption>", page)
        good = "plane row 26, 11 bytes good: scan line 26, plane 0</td><td>15064 of 414720 (3.6 %)"
        self.assertIn(f"row&#x27;s end</td><td>{good}</td></tr>", page)
        data = json.loads(page.split('id="data">')[1].split("</script>")[0])
        plate, picture = data["pictures"]
        self.assertEqual((plate["plate"], plate["width"], plate["height"]), (True, WIDTH, HEIGHT))
        self.assertEqual((plate["tally"], plate["colours"]), (list(Plate(drawing()).tally()), [[255] * 3, [0] * 3]))
        self.assertEqual((picture["plate"], picture["width"]), (False, 320))
        self.assertIn("MacPaint, 576 x 720, SHA-256 ", plate["facts"])


if __name__ == "__main__":
    unittest.main()
