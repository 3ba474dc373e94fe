"""The sample files and their maker."""

import subprocess
import sys
import tempfile
import unittest
from pathlib import Path

import kutimuq

from .support import SAMPLES, command

PONDS = SAMPLES / "ponds.pc1"
MADE = ("ponds.pc1", "torn.pc1", "sheet.img", "torn.img", "dusk.spu", "dusk.spc", "torn.spc")


@unittest.skipUnless(PONDS.is_file(), "samples/ponds.pc1 is needed")
class Samples(unittest.TestCase):
    def test_made_alike_each_time(self):
        with tempfile.TemporaryDirectory() as folder:
            subprocess.run([sys.executable, str(SAMPLES / "make.py"), folder], check=True)
            for name in MADE:
                self.assertEqual(Path(folder, name).read_bytes(), (SAMPLES / name).read_bytes())

    def test_every_register_is_there(self):
        picture = kutimuq.read(PONDS.read_bytes(), kutimuq.Kind.DEGAS)
        counts = kutimuq.tally(picture.screen, picture.resolution)
        self.assertTrue(all(counts))
        self.assertEqual(len(set(picture.palette)), 16)

    def test_the_scan_and_what_is_left_of_it(self):
        scan = kutimuq.open_img(SAMPLES / "sheet.img")
        self.assertEqual((scan.width, scan.lines, sum(scan.tally())), (509, 380, 509 * 380))
        done = command("summary", "-q", SAMPLES / "torn.img")
        self.assertEqual((done.stdout, done.returncode), (b"refused 7 at 2047\n", 1))

    def test_the_spectrum_picture_and_what_is_left_of_it(self):
        picture = kutimuq.open_spectrum(SAMPLES / "dusk.spc")
        self.assertEqual(kutimuq.open_spectrum(SAMPLES / "dusk.spu"), picture)
        self.assertEqual((picture.colour_count("st"), picture.colour_count("ste")), (155, 155))
        done = command("summary", "-q", SAMPLES / "torn.spc")
        self.assertEqual((done.stdout, done.returncode), (b"refused 15 at 0\n", 1))
        self.assertIn(b"(colour map, palette 366, scan line 123, offset 9229, sector 18)\n", done.stderr)

    def test_pond_reading(self):
        done = command(
            "pond", "--rectangle", "160,0,80,50", "--class", 2, "--floor", 80,
            "--legend", SAMPLES / "ponds.legend", PONDS,
        )
        self.assertEqual(done.stdout, b"sure 2624\nunsure 472\nother 904\n")

    def test_the_list_of_ponds(self):
        done = command(
            "ponds", "-q", "--legend", SAMPLES / "ponds.legend", "--list", SAMPLES / "ponds.csv", PONDS,
            SAMPLES / "torn.pc1",
        )
        self.assertEqual((done.returncode, done.stdout.decode().splitlines()), (1, [
            "map,pond,class,class_name,floor,sure,unsure,other,refused,party",
            f"{PONDS},magnesium pond,2,magnesium brine,80,2624,472,904,,us",
            f"{PONDS},shadow over it,4,cloud shadow,80,400,0,3600,,us",
            f"{PONDS},whole works,2,magnesium brine,80,2624,3968,57408,,us",
            f"{SAMPLES / 'torn.pc1'},,,,,,,,"
            "\"refused 7 at 4096: a record crosses its row's end (plane row 481, 30 bytes good)\",us",
        ]))
