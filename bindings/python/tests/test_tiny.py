"""Tiny files, kind 3: read by the library, found by content, shown by the command."""

import tempfile
import unittest
from pathlib import Path

import kutimuq
from kutimuq import files

from .support import command

WORDS = 16_000
COLUMN = 200  # expanded words in a column


def tiny(words, resolution=0, rotation=b""):
    """A Tiny file of expanded words, each run a repeat of one word."""
    controls, data = bytearray(), bytearray()
    at = 0
    while at < WORDS:
        end = at + 1
        while end < WORDS and end - at < 127 and words[end] == words[at]:
            end += 1
        controls.append(end - at if end - at > 1 else 255)
        data += words[at].to_bytes(2, "big")
        at = end
    palette = bytes(range(32))
    counts = len(controls).to_bytes(2, "big") + (len(data) // 2).to_bytes(2, "big")
    first = resolution + 3 if rotation else resolution
    return bytes([first]) + rotation + palette + counts + bytes(controls) + bytes(data), len(controls)


def columns():
    """Expanded words whose value is the column of the screen that they stand in."""
    return [k // 4000 + 4 * (k % 4000 // COLUMN) for k in range(WORDS)]


class Tiny(unittest.TestCase):
    def test_screen_counts_and_picture(self):
        for rotation in (b"", b"\x12\x34\x56\x78"):
            file, runs = tiny(columns(), 1, rotation)
            picture = kutimuq.read(file, kutimuq.Kind.TINY)
            line = b"".join(column.to_bytes(2, "big") for column in range(80))
            self.assertEqual(bytes(picture.screen), line * COLUMN)
            self.assertEqual((picture.resolution, picture.records, picture.tail_present), (1, runs, False))
            self.assertEqual(picture.body, runs + 2 * runs)
            self.assertEqual(picture.palette[1], 0x0203)

    def test_refusals(self):
        file, _ = tiny([0] * WORDS)
        cases = {
            bytes(37): (13, 0),
            b"\x06" + bytes(36): (5, 0),
            file[:-1]: (3, 0),
            file[:37] + b"\x80" + file[38:]: (11, 37),
        }
        for data, expected in cases.items():
            with self.assertRaises(kutimuq.Refused) as caught:
                kutimuq.read(data, kutimuq.Kind.TINY)
            self.assertEqual((caught.exception.number, caught.exception.place), expected)

    def test_found_by_content_then_by_extension(self):
        file, _ = tiny(columns())
        self.assertEqual(files.find_kind(file), (kutimuq.Kind.TINY, "content"))
        self.assertEqual(files.find_kind(file[:-1]), (files.UNKNOWN, "nothing"))
        self.assertEqual(files.find_kind(file[:-1], "a.TNY"), (kutimuq.Kind.TINY, "extension"))

    def test_commands(self):
        file, _ = tiny(columns())
        with tempfile.TemporaryDirectory() as folder:
            Path(folder, "good.tny").write_bytes(file)
            Path(folder, "torn.tny").write_bytes(file[:-2])
            done = command("check", folder)
        self.assertEqual(done.returncode, 1)
        self.assertIn(b"good.tny: accepted: Tiny by content, resolution 0", done.stdout)
        self.assertIn(b"torn.tny: refused 3 at 0: file length not allowed (Tiny by extension)", done.stdout)


if __name__ == "__main__":
    unittest.main()
