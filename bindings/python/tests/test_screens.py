"""Registers of lines and screens. Rows are compared as bytes, with numpy or without."""

import array
import sys
import unittest
from unittest import mock

import kutimuq
from kutimuq import pictures

from .support import PALETTE, SHAPES, TAIL, Case, blocks, expected_registers, noise


try:
    import numpy
except ImportError:
    numpy = None


def rows_of(screen, resolution):
    return [bytes(row) for row in kutimuq.registers(screen, resolution)]


class Screens(Case):
    def test_every_register(self):
        for resolution in (0, 1, 2):
            screen = noise(resolution)
            self.assertEqual(rows_of(screen, resolution), expected_registers(screen, resolution))

    def test_planes_are_read_lowest_first(self):
        screen = bytes.fromhex("8000 0000 8000 0000").ljust(32_000, b"\0")
        self.assertEqual(kutimuq.registers(screen, 0)[0][0], 5)
        brine = bytes.fromhex("0000 8000 0000 0000").ljust(32_000, b"\0")
        self.assertEqual(kutimuq.registers(brine, 0)[0][0], 2)

    def test_there_and_back(self):
        for resolution in (0, 1, 2):
            screen = noise(resolution)
            rows = kutimuq.registers(screen, resolution)
            self.assertEqual(kutimuq.screen_from_registers(rows, resolution), screen)

    def test_rows_of_any_make(self):
        rows = blocks(0)
        screen = kutimuq.screen_from_registers(rows, 0)
        self.assertEqual(rows_of(screen, 0), [bytes(row) for row in rows])
        for kind in (bytes, bytearray, tuple, lambda row: array.array("q", row)):
            made = kutimuq.screen_from_registers([kind(row) for row in rows], 0)
            self.assertEqual(made, screen)

    def test_refusals(self):
        self.assertRefused(1, 0, kutimuq.registers, bytes(31_999), 3)
        for resolution in (3, -1, 65_536):
            self.assertRefused(5, 0, kutimuq.registers, bytes(32_000), resolution)
            self.assertRefused(5, 0, kutimuq.screen_from_registers, [], resolution)
            self.assertRefused(5, 0, kutimuq.screen_from_registers, [b"\0"] * 2, resolution)

    def test_rows_that_do_not_fit(self):
        for resolution, (width, height, _) in enumerate(SHAPES):
            row = bytes(width)
            for number, rows in (
                (1, []),
                (1, [row] * (height - 1)),
                (10, [row] * (height + 1)),
                (1, [row] * (height - 1) + [row[1:]]),
                (10, [row] * (height - 1) + [row + b"\0"]),
            ):
                self.assertRefused(number, 0, kutimuq.screen_from_registers, rows, resolution)

    def test_registers_out_of_range(self):
        for resolution, (width, height, planes) in enumerate(SHAPES):
            for register in (1 << planes, 255, 256, 256 + 1, -1):
                rows = [[0] * width for _ in range(height)]
                rows[-1][-1] = register
                self.assertRefused(10, 0, kutimuq.screen_from_registers, rows, resolution)


    def test_pixels_of_a_whole_screen(self):
        for resolution in (0, 1, 2):
            screen = noise(resolution)
            pixels = b"".join(expected_registers(screen, resolution))
            self.assertEqual(pictures.screen_out(screen + b"past", resolution), pixels)
            self.assertEqual(pictures.screen_in(pixels, resolution), screen)
            self.assertEqual(pictures.screen_in(pixels + b"\xff", resolution), screen)

    def test_refusals_of_a_whole_screen(self):
        self.assertRefused(1, 0, pictures.screen_out, bytes(31_999), 3)
        self.assertRefused(5, 0, pictures.screen_out, bytes(32_000), 3)
        self.assertRefused(5, 0, pictures.screen_in, b"", 3)
        for resolution, (width, height, planes) in enumerate(SHAPES):
            too_large = bytes((1 << planes,))
            few = too_large + bytes(width * height - 2)
            self.assertRefused(1, 0, pictures.screen_in, few, resolution)
            for pixels in (few + b"\0", few[1:] + b"\0" + too_large):
                self.assertRefused(10, 0, pictures.screen_in, pixels, resolution)


class Lines(Case):
    def test_out(self):
        for resolution, (_, height, _) in enumerate(SHAPES):
            screen = noise(resolution)
            expected = expected_registers(screen, resolution)
            for line in (0, 1, height - 1):
                self.assertEqual(kutimuq.line_out(screen, resolution, line), expected[line])

    def test_in(self):
        screen = noise() + b"past"
        row = kutimuq.line_out(noise(2), 0, 7)
        changed = kutimuq.line_in(screen, 0, 7, row + b"\xff")
        self.assertEqual(kutimuq.line_out(changed, 0, 7), row)
        self.assertEqual(changed[: 7 * 160], screen[: 7 * 160])
        self.assertEqual(changed[8 * 160 :], screen[8 * 160 :])
        self.assertEqual(screen, noise() + b"past")

    def test_refusals(self):
        for line in (200, -1, 1 << 64):
            self.assertRefused(10, 0, kutimuq.line_out, bytes(32_000), 0, line)
            self.assertRefused(10, 0, kutimuq.line_in, bytes(32_000), 0, line, bytes(320))
        self.assertRefused(1, 0, kutimuq.line_out, b"", 9, 999)
        self.assertRefused(1, 0, kutimuq.line_in, b"", 9, 999, b"")
        self.assertRefused(5, 0, kutimuq.line_in, bytes(32_000), 3, 999, b"")
        self.assertRefused(1, 0, kutimuq.line_in, bytes(32_000), 0, 0, bytes(319))
        self.assertRefused(10, 0, kutimuq.line_in, bytes(32_000), 0, 0, [16] + [0] * 319)


class Pictures(Case):
    def test_from_registers(self):
        for resolution in (0, 1, 2):
            rows = expected_registers(noise(resolution), resolution)
            picture = kutimuq.from_registers(rows, PALETTE)
            self.assertEqual(picture, kutimuq.Picture(resolution, PALETTE, screen=noise(resolution)))
        self.assertTrue(kutimuq.from_registers(rows, PALETTE, TAIL).tail_present)

    def test_no_screen(self):
        for rows in ([], [b""], [bytes(320)] * 199, [bytes(321)] * 200):
            self.assertRaises(ValueError, kutimuq.from_registers, rows, PALETTE)
        self.assertRefused(1, 0, kutimuq.from_registers, [bytes(320)] * 199 + [bytes(319)], PALETTE)


class Arrays(unittest.TestCase):
    def test_without_numpy(self):
        with mock.patch.dict(sys.modules, {"numpy": None}):
            rows = kutimuq.registers(noise(), 0)
        self.assertEqual((type(rows), len(rows)), (list, 200))
        self.assertEqual({(type(row), len(row)) for row in rows}, {(bytes, 320)})

    @unittest.skipIf(numpy is None, "numpy is not installed")
    def test_with_numpy(self):
        with mock.patch.dict(sys.modules, {"numpy": None}):
            rows = kutimuq.registers(noise(), 1)
        made = kutimuq.registers(noise(), 1)
        self.assertEqual((made.shape, made.dtype), ((200, 640), numpy.uint8))
        self.assertEqual(made.tobytes(), b"".join(rows))
        made[0, 0] = 3  # the array can be written to
        for given in (made, made.astype(numpy.int64), numpy.asfortranarray(made)):
            screen = kutimuq.screen_from_registers(given, 1)
            self.assertTrue((kutimuq.registers(screen, 1) == made).all())
            self.assertEqual(kutimuq.from_registers(given, PALETTE).screen, screen)

    @unittest.skipIf(numpy is None, "numpy is not installed")
    def test_arrays_that_are_not_taken(self):
        good = kutimuq.registers(noise(), 1)
        for given in (numpy.ma.masked_equal(good, 2), [numpy.ma.masked_equal(row, 2) for row in good]):
            self.assertRaises(ValueError, kutimuq.screen_from_registers, given, 1)
        self.assertRaises(TypeError, kutimuq.screen_from_registers, good.astype(float), 1)
        with self.assertRaises(kutimuq.Refused):
            kutimuq.screen_from_registers(good.astype(numpy.int16) + 4, 1)

    def test_a_masked_array_of_a_stub(self):
        class MaskedArray(list):
            pass

        stub = mock.Mock()
        stub.ma.MaskedArray = MaskedArray
        with mock.patch.dict(sys.modules, {"numpy": stub}):
            self.assertRaises(ValueError, kutimuq.screen_from_registers, MaskedArray([bytes(320)] * 200), 0)
