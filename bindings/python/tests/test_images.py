"""Images: what we wrote, shown by other readers, has the register that was put there at every pixel."""

import ast
import random
import shutil
import struct
import subprocess
import sys
import tempfile
import unittest
import zlib
from pathlib import Path

import kutimuq
from kutimuq import Machine, images
from kutimuq.legend import Entry, Legend

from .support import SAMPLES, SHAPES, TAIL, Case, expected_registers, noise

# Sixteen palette words that differ, with the levels netpbm shows for them.
PALETTE = tuple((n % 8) << 8 | (n // 8) << 4 | (7 - n % 8) for n in range(16))
LEVELS = {(n % 8, n // 8, 7 - n % 8): n for n in range(16)}


def class_map(width, height, registers):
    """Blocks of registers with ragged borders."""
    dice = random.Random(1989)
    ragged = [dice.randrange(9) for _ in range(height)]
    return [bytes(((x + ragged[y]) // 23 + y // 17) % registers for x in range(width)) for y in range(height)]


def shown(command, data):
    """What a netpbm reader makes of a file."""
    return subprocess.run([command], input=data, stdout=subprocess.PIPE, stderr=subprocess.DEVNULL, check=True).stdout


def pixmap_rows(data):
    """The rows of a raw PPM, as netpbm's levels 0 to 7."""
    magic, size, maxval, pixels = data.split(b"\n", 3)
    assert magic == b"P6"
    width, height = map(int, size.split())
    scale = int(maxval)
    levels = bytes((value * 7 + scale // 2) // scale for value in pixels)
    for y in range(height):
        row = levels[y * width * 3:(y + 1) * width * 3]
        yield [tuple(row[x:x + 3]) for x in range(0, width * 3, 3)]


def bitmap_rows(data):
    """The rows of a raw PBM, one number a pixel."""
    magic, size, pixels = data.split(b"\n", 2)
    assert magic == b"P4"
    width, height = map(int, size.split())
    step = (width + 7) // 8
    for y in range(height):
        row = pixels[y * step:(y + 1) * step]
        yield bytes(row[x // 8] >> (7 - x % 8) & 1 for x in range(width))


def chunk(name, data):
    return name + struct.pack(">I", len(data)) + data + b"\0" * (len(data) % 2)


def interleaved_bitmap(body):
    """An IFF ILBM of 320 x 200 and four planes whose BODY is a packed DEGAS body."""
    header = struct.pack(">HHhhBBBxHBBhh", 320, 200, 0, 0, 4, 0, 1, 0, 1, 1, 320, 200)
    colours = b"".join(bytes((r * 36, g * 36, b * 36)) for (r, g, b) in LEVELS)
    content = b"ILBM" + chunk(b"BMHD", header) + chunk(b"CMAP", colours) + chunk(b"BODY", body)
    return b"FORM" + struct.pack(">I", len(content)) + content


@unittest.skipUnless(shutil.which("pi1toppm"), "netpbm is not installed")
class Netpbm(unittest.TestCase):
    def picture(self, resolution, rows):
        return kutimuq.Picture(resolution, PALETTE), kutimuq.screen_from_registers(rows, resolution)

    def assert_registers(self, pixmap, rows):
        found = [bytes(LEVELS[pixel] for pixel in row) for row in pixmap_rows(pixmap)]
        self.assertEqual(found, rows)

    def test_plain_degas(self):
        rows = class_map(320, 200, 16)
        picture, screen = self.picture(0, rows)
        self.assert_registers(shown("pi1toppm", kutimuq.write(picture, screen, kutimuq.Form.PLAIN)), rows)

    def test_neochrome(self):
        rows = class_map(320, 200, 16)
        picture, screen = self.picture(0, rows)
        file = bytes(kutimuq.write(picture, screen, kutimuq.Form.NEO))
        # Netpbm 11.1 takes the screen from offset 36, where the 2008 list has the name, so it gets the file without it.
        self.assert_registers(shown("neotoppm", file[:36] + file[128:]), rows)

    def test_high_resolution(self):
        rows = class_map(640, 400, 2)
        picture, screen = self.picture(2, rows)
        found = list(bitmap_rows(shown("pi3topbm", kutimuq.write(picture, screen, kutimuq.Form.PLAIN))))
        self.assertEqual(found, rows)

    def test_packed_body_as_interleaved_bitmap(self):
        rows = class_map(320, 200, 16)
        picture, screen = self.picture(0, rows)
        file = kutimuq.write(picture, screen, kutimuq.Form.PACKED)
        self.assert_registers(shown("ilbmtoppm", interleaved_bitmap(bytes(file[34:-32]))), rows)


def python_with(module):
    """A Python that has a module, or None."""
    for python in dict.fromkeys((sys.executable, "/usr/bin/python3")):
        tried = shutil.which(python) and subprocess.run([python, "-c", f"import {module}"], capture_output=True)
        if tried and not tried.returncode:
            return python
    return None


def picture_at(resolution):
    return kutimuq.Picture(resolution, PALETTE, True, TAIL, noise(resolution))


def pixels_at(resolution):
    return b"".join(expected_registers(noise(resolution), resolution))


def remade(made, change):
    """A PNG with its chunks changed."""
    parts = [images.chunk(*part) for part in change(list(images.chunks(made)))]
    return images.SIGNATURE + b"".join(parts)


class InFolder(Case):
    def setUp(self):
        folder = tempfile.TemporaryDirectory()
        self.addCleanup(folder.cleanup)
        self.folder = Path(folder.name)


class OtherReaders(InFolder):
    PILLOW = """
import sys
from PIL import Image
shown = []
for name in sys.argv[1:]:
    image = Image.open(name)
    shown.append((image.mode, bytes(image.getpalette()), image.tobytes()))
    image.save(name + "-again.png")
print(repr(shown))
"""
    GDAL = """
import sys
from osgeo import gdal
gdal.UseExceptions()
shown = []
for name in sys.argv[1:]:
    dataset = gdal.Open(name)
    band = dataset.GetRasterBand(1)
    table = band.GetRasterColorTable()
    colours = [table.GetColorEntry(number)[:3] for number in range(table.GetCount())]
    shown.append((band.GetRasterCategoryNames(), colours, bytes(band.ReadRaster())))
print(repr(shown))
"""

    def shown_by(self, module, program, paths):
        """What a Python with this module prints."""
        python = python_with(module)
        if python is None:
            self.skipTest(f"{module} is not installed")
        done = subprocess.run([python, "-c", program, *map(str, paths)], capture_output=True)
        self.assertEqual((done.stderr, done.returncode), (b"", 0))
        return ast.literal_eval(done.stdout.decode())

    def test_pillow(self):
        paths = [self.folder / f"{resolution}.png" for resolution in (0, 1, 2)]
        for resolution, path in enumerate(paths):
            path.write_bytes(picture_at(resolution).png())
        shown = self.shown_by("PIL", self.PILLOW, paths)
        for resolution, (mode, palette, pixels) in enumerate(shown):
            expected = b"".join(map(bytes, picture_at(resolution).colours()))
            self.assertEqual((mode, palette[: len(expected)], pixels), ("P", expected, pixels_at(resolution)))
            # Pillow's own file, with fewer bits a pixel and other filters, gives the registers back.
            again = Path(f"{paths[resolution]}-again.png").read_bytes()
            self.assertEqual(images.read_image(again).pixels, pixels_at(resolution))

    def test_gdal(self):
        legend = [Entry(register, 90, "us", f"salt, {{no. {register}}}") for register in range(16)]
        paths = []
        for resolution in (0, 1, 2):
            raw, header = images.envi_of(picture_at(resolution), legend)
            (self.folder / f"{resolution}.hdr").write_bytes(header)
            paths += [self.folder / f"{resolution}.img", self.folder / f"{resolution}.png"]
            paths[-2].write_bytes(raw)
            paths[-1].write_bytes(picture_at(resolution).png())
        shown = self.shown_by("osgeo.gdal", self.GDAL, paths)
        for resolution, (_, _, planes) in enumerate(SHAPES):
            names = [f"{register} salt   no. {register}  90%" for register in range(1 << planes)]
            colours = [tuple(colour) for colour in picture_at(resolution).colours()]
            self.assertEqual(shown[2 * resolution], (names, colours, pixels_at(resolution)))
            self.assertEqual(shown[2 * resolution + 1], (None, colours, pixels_at(resolution)))

    @unittest.skipUnless(shutil.which("pngtopnm"), "netpbm is not installed")
    def test_netpbm_shows_the_colours_of_the_png(self):
        for resolution in (0, 1, 2):
            picture = picture_at(resolution)
            shown = subprocess.run(["pngtopnm"], input=picture.png(), capture_output=True, check=True).stdout
            expanded = subprocess.run(["pnmtopnm", "-ppm"], input=shown, capture_output=True)
            if expanded.returncode:  # an older netpbm
                expanded = subprocess.run(["ppmtoppm"], input=shown, capture_output=True, check=True)
            self.assertEqual(expanded.stdout[-100_000:], images.pixmap_of(picture)[-100_000:])


class ClassNames(Case):
    def test_owners(self):
        legend = [(2, 95, "us", "brine, mixed"), (2, 60, "them", "gypsum"), (0, 0, "free"), (7, 5, "them"), (7, 5)]
        _, header = images.envi_of(picture_at(0), Legend(legend + [(0, 0, "free")] * 11))
        names = "0 brine  mixed 95%, 1 gypsum 60% (them), 2 free, 3 class 7 5% (them), 4 class 7 5%, 5 free, 6 free"
        self.assertIn(f"class names = {{{names}", header.decode())


def without_machine(chunks):
    return [part for part in chunks if not part[1].startswith(images.MACHINE_KEYWORD)]


class Machines(Case):
    def test_there_and_back(self):
        for resolution in (0, 1, 2):
            picture = picture_at(resolution)
            for machine in Machine:
                image = images.read_image(picture.png(machine))
                self.assertEqual((image.machine, image.pixels), (machine, pixels_at(resolution)))
                self.assertEqual(image.colours, picture.colours(machine))
                self.assertEqual(images.picture_of(image), picture)
                self.assertEqual(images.picture_of(image, machine=machine.name), picture)

    def test_a_png_of_an_st_is_as_before(self):
        picture = picture_at(0)
        made = picture.png()
        self.assertEqual(picture.png("st"), made)
        texts = [data.split(b"\0")[0] for name, data in images.chunks(made) if name == b"tEXt"]
        self.assertEqual(texts, [b"Comment", b"Atari ST palette", b"Atari ST tail"])
        # The palette and one more text are all that an STE's has otherwise.
        named = [(b"tEXt", b"Atari machine\0STE")]
        other = [part for part in images.chunks(picture.png("ste")) if part not in list(images.chunks(made))]
        self.assertEqual(other, [(b"PLTE", b"".join(map(bytes, picture.colours("ste")))), *named])

    def assertBad(self, told, *arguments):
        with self.assertRaises(kutimuq.BadImage) as caught:
            images.picture_of(*arguments)
        self.assertEqual(str(caught.exception), f"its colours are not the palette's on {told}")

    def test_colours_of_the_other_machine(self):
        for resolution in (0, 1):
            picture = picture_at(resolution)
            on_st, on_ste = (images.read_image(picture.png(machine)) for machine in Machine)
            unnamed = images.read_image(remade(picture.png("ste"), without_machine))
            self.assertEqual(unnamed, on_ste._replace(machine=Machine.ST))
            told = "an ST, but they are on an STE: name that machine"
            self.assertBad(told, unnamed)
            self.assertBad(told, on_ste, None, None, "st")
            self.assertBad("an STE, but they are on an ST: name that machine", on_st, None, None, 2)
            self.assertEqual(images.picture_of(unnamed, machine="ste"), picture)

    def test_colours_of_no_machine(self):
        image = images.read_image(picture_at(0).png())
        moved = image._replace(colours=image.colours[::-1])
        for machine in Machine:
            told = f"an {machine.name}, so its values may not be registers"
            self.assertBad(told, moved, None, None, machine)
            self.assertBad(told, moved._replace(machine=machine))

    def test_high_resolution_is_the_same_on_both(self):
        image = images.read_image(picture_at(2).png("ste"))
        self.assertEqual(images.picture_of(image, machine="st"), picture_at(2))

    def test_a_machine_that_is_none(self):
        def falcon(chunks):
            return [(name, data.replace(b"\0STE", b"\0Falcon")) for name, data in chunks]

        image = images.read_image(remade(picture_at(0).png("ste"), falcon))
        self.assertEqual(image.machine, Machine.ST)
        for machine in (0, 3, 258):
            self.assertRefused(10, 0, images.picture_of, image, None, None, machine)
            for made in (images.png_of, images.pixmap_of):
                self.assertRefused(10, 0, made, picture_at(0), machine)
            self.assertRefused(10, 0, images.envi_of, picture_at(0), None, machine)

    def test_envi_and_ppm(self):
        picture = picture_at(1)
        for machine in Machine:
            shown = picture.colours(machine)
            _, header = images.envi_of(picture, None, machine)
            lookup = ", ".join(str(part) for colour in shown for part in colour)
            self.assertIn(f"class lookup = {{{lookup}}}", header.decode())
            self.assertIn(f"description = {{Colour registers of an Atari {machine.name} picture}}", header.decode())
            painted = b"".join(bytes(shown[register]) for register in pixels_at(1))
            self.assertEqual(images.pixmap_of(picture, machine), b"P6\n640 200\n255\n" + painted)
        self.assertEqual(images.envi_of(picture), images.envi_of(picture, None, "st"))
        self.assertEqual(images.pixmap_of(picture), images.pixmap_of(picture, "st"))


class Registers(Case):
    def test_there_and_back(self):
        for resolution in (0, 1, 2):
            picture = picture_at(resolution)
            image = images.read_image(picture.png())
            self.assertEqual(image.pixels, pixels_at(resolution))
            self.assertEqual(images.picture_of(image), picture)
            grey = images.read_image(images.greymap_of(picture))
            self.assertEqual(images.picture_of(grey, PALETTE, TAIL), picture)

    def test_without_palette_words(self):
        def without_text(chunks):
            return [part for part in chunks if part[0] != b"tEXt"]

        for resolution in (0, 1, 2):
            image = images.read_image(remade(picture_at(resolution).png(), without_text))
            self.assertRaisesRegex(kutimuq.BadImage, "no palette words", images.picture_of, image)
            self.assertEqual(images.picture_of(image, PALETTE, TAIL), picture_at(resolution))

    def test_moved_colours_are_refused(self):
        def swapped(chunks):
            return [(name, data[3:6] + data[:3] + data[6:] if name == b"PLTE" else data) for name, data in chunks]

        for resolution in (0, 1, 2):
            image = images.read_image(remade(picture_at(resolution).png(), swapped))
            for palette in (None, PALETTE):
                self.assertRaisesRegex(kutimuq.BadImage, "not the palette's", images.picture_of, image, palette)

    @unittest.skipUnless(shutil.which("pnmtopng"), "netpbm is not installed")
    def test_a_png_made_from_colours_is_refused(self):
        picture = kutimuq.open(SAMPLES / "ponds.pc1")
        done = subprocess.run(["pnmtopng"], input=images.pixmap_of(picture), capture_output=True, check=True)
        image = images.read_image(done.stdout)
        self.assertNotEqual(image.pixels, images.read_image(picture.png()).pixels)
        for palette in (None, picture.palette):
            self.assertRaises(kutimuq.BadImage, images.picture_of, image, palette)

    def test_values_that_are_no_registers(self):
        for resolution, (width, height, planes) in enumerate(SHAPES):
            for value in (1 << planes, 255):
                pixels = bytes(width * height - 1) + bytes([value])
                image = images.Image(width, height, pixels)
                self.assertRefused(10, 0, images.picture_of, image, PALETTE)

    def test_a_greymap_needs_a_palette(self):
        image = images.read_image(images.greymap_of(picture_at(0)))
        self.assertRaisesRegex(kutimuq.BadImage, "no palette words", images.picture_of, image)

    def test_fewer_colours_than_registers(self):
        image = images.Image(320, 200, bytes(64_000), [tuple(kutimuq.colour(0, PALETTE, 0))])
        self.assertEqual(images.picture_of(image, PALETTE).screen, bytes(32_000))


class Filters(unittest.TestCase):
    def filtered(self, kind, rows):
        """PNG's filters, from their definition."""
        made, above = b"", bytes(len(rows[0]))
        for row in rows:
            made += bytes([kind])
            for x, value in enumerate(row):
                left, up, corner = row[x - 1] if x else 0, above[x], above[x - 1] if x else 0
                guess = left + up - corner
                nearest = sorted((left, up, corner), key=lambda each: abs(guess - each))[0]
                made += bytes([(value - (0, left, up, (left + up) // 2, nearest)[kind]) % 256])
            above = row
        return made

    def test_every_filter(self):
        source = random.Random(9)
        rows = [source.randbytes(50) for _ in range(12)]
        for kind in range(5):
            self.assertEqual(images.unfiltered(zlib.compress(self.filtered(kind, rows)), 50, 12), rows)

    def test_every_depth(self):
        for depth, expected in ((1, [1, 0, 1, 0, 0, 1, 0, 1]), (2, [2, 2, 1, 1]), (4, [10, 5]), (8, [0xA5])):
            self.assertEqual(images.spread([b"\xa5"] * 2, depth, len(expected)), bytes(expected) * 2)
        self.assertEqual(images.spread([b"\xa5"] * 2, 1, 5), bytes([1, 0, 1, 0, 0]) * 2)


class Damaged(unittest.TestCase):
    def test_every_cut(self):
        made = picture_at(2)._replace(screen=bytes(32_000)).png()
        for data in (made, images.greymap_of(picture_at(0))[:200]):
            for end in range(min(len(data), 400)):
                self.assertRaises(kutimuq.BadImage, images.read_image, data[:end])

    def test_every_changed_byte_is_seen(self):
        made = picture_at(2)._replace(screen=bytes(32_000)).png()
        whole = images.read_image(made)
        for place in range(len(made)):
            changed = made[:place] + bytes([made[place] ^ 0x10]) + made[place + 1 :]
            try:
                self.assertEqual(images.read_image(changed), whole)
            except kutimuq.BadImage:
                continue
            self.fail(f"byte {place}")

    def test_images_that_are_not_taken(self):
        def header(width, height, depth, colour_type, interlace=0):
            def change(chunks):
                data = struct.pack(">IIBBBBB", width, height, depth, colour_type, 0, 0, interlace)
                return [(b"IHDR", data), *chunks[1:]]

            return remade(picture_at(0).png(), change)

        for data in (
            b"", b"text", b"P6\n320 200\n255\n" + bytes(192_000), b"P5\n320 200\n65535\n" + bytes(128_000),
            b"P5\n" + b"9" * 5000 + b" 200\n255\n", b"P5\n320 200", b"P5 # no end",
            header(320, 200, 8, 2), header(320, 200, 16, 0), header(320, 200, 8, 3, 1), header(100, 100, 8, 3),
            header(320, 200, 4, 3), header(640, 400, 8, 3), header(1 << 31, 1 << 31, 8, 3),
            bytes(images.IMAGE_LIMIT + 1),
        ):
            self.assertRaises(kutimuq.BadImage, images.read_image, data)

    def test_no_more_is_unpacked_than_the_header_says(self):
        def bomb(chunks):
            zeros = zlib.compress(bytes(50_000_000), 9)
            return [(name, zeros if name == b"IDAT" else data) for name, data in chunks]

        data = remade(picture_at(0).png(), bomb)
        self.assertRaises(kutimuq.BadImage, images.read_image, data)

    def test_a_greymap_with_comments(self):
        image = images.read_image(b"P5 # made by\n# hand\n2\t1\n15\n\3\4")
        self.assertEqual(image, images.Image(2, 1, b"\3\4"))
