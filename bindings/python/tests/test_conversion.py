"""Plain DEGAS files converted to DEGAS Elite and back, by the library and by the commands elite and plain."""

import csv
import json
import os
import shlex
import subprocess
import tempfile
import unittest
from errno import EPERM
from pathlib import Path
from unittest import mock

import kutimuq
from kutimuq import Form, Picture, Tail, box, files, to_elite, to_plain, write

from . import support
from .support import BLANK, CROSSING, PALETTE, PYTHON, TAIL, Case, blocks, broken, command, noise, tight_screen

STRAY_BITS = [1 << bit for bit in range(2, 15)]


def file_of(screen, form=Form.PLAIN, resolution=0, tail=Tail()):
    return write(Picture(resolution, PALETTE, True, tail), screen, form)


def drawn(resolution):
    return kutimuq.screen_from_registers(blocks(resolution), resolution)


def with_bits(file, bits):
    """A file with more bits of its first word set."""
    return (int.from_bytes(file[:2], "big") | bits).to_bytes(2, "big") + file[2:]


class ToElite(Case):
    def test_packed_where_a_packed_body_exists(self):
        for resolution in range(3):
            elite = to_elite(file_of(drawn(resolution), resolution=resolution))
            packed = file_of(drawn(resolution), Form.PACKED, resolution)
            self.assertEqual(elite, packed)
            self.assertEqual((elite.body, elite.records), (packed.body, packed.records))
        packed = to_elite(file_of(tight_screen(1)))
        self.assertEqual((len(packed), packed.body), (32_065, 31_999))

    def test_raw_where_none_exists(self):
        for screen in (noise(), tight_screen(0)):
            elite = to_elite(file_of(screen))
            self.assertEqual(elite, file_of(screen, Form.ELITE))
            self.assertEqual((elite.body, elite.records), (0, 0))

    def test_only_plain_files(self):
        for form in (Form.ELITE, Form.PACKED):
            for tail in (Tail(), TAIL):
                self.assertRefused(2, 0, to_elite, file_of(drawn(0), form, tail=tail))

    def test_bits_that_would_be_lost(self):
        for bits in (*STRAY_BITS, 0x7FFC):
            self.assertRefused(17, 0, to_elite, with_bits(file_of(drawn(1), resolution=1), bits))

    def test_order_of_refusals(self):
        raw = file_of(drawn(0))
        self.assertRefused(3, 0, to_elite, with_bits(raw[:33], 0x7FFF))
        self.assertRefused(5, 0, to_elite, with_bits(raw[:-1], 0x7FFF))
        self.assertRefused(3, 0, to_elite, with_bits(raw[:-1], 0x7FFC))
        self.assertRefused(8, 1634, to_elite, with_bits(BLANK[:-1], 0x7FFC))
        self.assertRefused(2, 0, to_elite, with_bits(BLANK, 0x7FFC))
        self.assertRefused(2, 0, to_elite, with_bits(file_of(drawn(0), Form.ELITE), 0x7FFC))


class ToPlain(Case):
    def test_every_plain_file_comes_back(self):
        for resolution in range(3):
            for screen in (drawn(resolution), noise(), bytes(32_000)):
                plain = file_of(screen, resolution=resolution)
                back = to_plain(to_elite(plain))
                self.assertEqual((back, back.body, back.records), (plain, 0, 0))

    def test_elite_files_of_any_make(self):
        plain = file_of(bytes(32_000))
        longer = BLANK[:2] + plain[2:34] + b"\x80" + BLANK[34:]
        for file in (longer, with_bits(longer, 0x7FFC), with_bits(file_of(bytes(32_000), Form.ELITE), 0x7FFC)):
            self.assertEqual(to_plain(file), plain)

    def test_a_tail_of_zeros_is_needed(self):
        self.assertRefused(18, 0, to_plain, file_of(drawn(0)))
        self.assertRefused(18, 0, to_plain, with_bits(file_of(drawn(0)), 0x7FFC))
        for form in (Form.ELITE, Form.PACKED):
            file = file_of(drawn(0), form)
            for place in range(len(file) - 32, len(file)):
                self.assertRefused(18, 0, to_plain, file[:place] + b"\1" + file[place + 1 :])

    def test_order_of_refusals(self):
        elite = file_of(drawn(0), Form.ELITE, tail=TAIL)
        self.assertRefused(3, 0, to_plain, elite[:33])
        self.assertRefused(5, 0, to_plain, with_bits(elite[:-1], 3))
        self.assertRefused(3, 0, to_plain, elite[:-1])
        self.assertRefused(8, 1634, to_plain, BLANK[:-1] + b"\1\1")


class Both(Case):
    def test_which_row_broke(self):
        for conversion in (to_elite, to_plain):
            for number, fault in ((7, CROSSING), (6, b"")):
                refusal = self.assertRefused(number, 108, conversion, broken(26, 11, fault))
                self.assertEqual((refusal.plane_row, refusal.good_bytes), (26, 11))

    def test_bytes_like_files(self):
        plain, elite = file_of(bytes(32_000)), file_of(bytes(32_000), Form.PACKED)
        for kind in (bytearray, memoryview):
            self.assertEqual((to_elite(kind(plain)), to_plain(kind(elite))), (elite, plain))
        for conversion in (to_elite, to_plain):
            self.assertRaises(TypeError, conversion, memoryview(plain).cast("H"))


class Names(unittest.TestCase):
    def test_results(self):
        for name, extension, result in (
            ("MAP.PI1", ".pc1", "MAP.PC1"),
            ("map.pi1", ".pc1", "map.pc1"),
            ("Map.Pi1", ".pc1", "Map.pc1"),
            ("map.PI3", ".pc3", "map.PC3"),
            ("MAP.PI1", ".pi1", "MAP.PI1"),
            ("box/MAP.PC1", ".pi1", "MAP.PI1"),
            ("MAP", ".pc1", "MAP.PC1"),
            ("map", ".pc1", "map.pc1"),
            ("map.v2", ".pc1", "map.v2.pc1"),
            ("MAP.NEO", ".pc1", "MAP.NEO.PC1"),
            (".pi1", ".pc1", ".pi1.pc1"),
        ):
            self.assertEqual(box.result_name(name, extension), result)


class Folder(unittest.TestCase):
    """A folder of plain files in every form that the way out knows, and a place for results."""

    def setUp(self):
        folder = tempfile.TemporaryDirectory()
        self.addCleanup(folder.cleanup)
        self.top = Path(folder.name)
        self.plain, self.elite, self.back = (self.top / name for name in ("plain", "elite", "back"))
        self.plain.mkdir()
        self.low = self.put(self.plain / "LOW.PI1", file_of(drawn(0)))
        self.high = self.put(self.plain / "high.pi3", file_of(drawn(2), resolution=2))
        self.noise = self.put(self.plain / "NOISE.PI1", file_of(noise()))

    def put(self, path, data):
        path.write_bytes(data)
        return path

    def content(self, folder):
        """What a folder holds; nothing half written is among it."""
        return {path.name: path.read_bytes() for path in folder.iterdir()}

    def run_command(self, *arguments):
        done = command(*arguments)
        self.assertNotIn(b"Traceback", done.stderr)
        return done.stdout.decode().splitlines(), done.stderr.decode().splitlines(), done.returncode


class Converted(Folder):
    def test_there_and_back(self):
        lines, said, status = self.run_command("elite", self.low, self.high, self.noise, "-d", self.elite)
        packed = [to_elite(path.read_bytes()) for path in (self.low, self.high)]
        self.assertEqual((said, status), ([], 0))
        self.assertEqual(lines, [
            f"{self.low}: written: {self.elite}/LOW.PC1, packed, {len(packed[0])} bytes, "
            f"{packed[0].records} records, body {packed[0].body}",
            f"{self.high}: written: {self.elite}/high.pc3, packed, {len(packed[1])} bytes, "
            f"{packed[1].records} records, body {packed[1].body}",
            f"{self.noise}: written: {self.elite}/NOISE.PI1, elite, 32066 bytes",
            "3 written, 0 refused",
        ])
        raw = file_of(noise(), Form.ELITE)
        self.assertEqual(self.content(self.elite), {"LOW.PC1": packed[0], "high.pc3": packed[1], "NOISE.PI1": raw})
        lines, said, status = self.run_command("plain", self.elite, "--folder", self.back)
        self.assertEqual((said, status, lines[-1]), ([], 0, "3 written, 0 refused"))
        self.assertIn(f"{self.elite}/high.pc3: written: {self.back}/high.pi3, plain, 32034 bytes", lines)
        self.assertEqual(self.content(self.back), self.content(self.plain))

    def test_beside_each_file(self):
        below = self.plain / "below"
        below.mkdir()
        other = self.put(below / "LOW.PI1", file_of(bytes(32_000)))
        lines, _, status = self.run_command("elite", self.plain)
        self.assertEqual((status, lines[-1]), (2, "3 written, 0 refused"))
        self.assertEqual((below / "LOW.PC1").read_bytes(), to_elite(other.read_bytes()))
        self.assertEqual((self.plain / "LOW.PC1").read_bytes(), to_elite(self.low.read_bytes()))
        exists = f"{self.noise}: not written: {self.noise}: File exists"
        self.assertIn(f"{exists} (plain and raw Elite files have the same extension: -o puts them apart)", lines)
        self.assertEqual(self.noise.read_bytes(), file_of(noise()))

    def test_folders_below(self):
        below = self.plain / "DISK2" / "OLD"
        below.mkdir(parents=True)
        other = self.put(below / "LOW.PI1", file_of(bytes(32_000)))
        lines, _, status = self.run_command("elite", self.plain, self.low, "-d", self.elite)
        self.assertEqual((status, lines[-1]), (0, "4 written, 0 refused"))
        self.assertEqual((self.elite / "DISK2" / "OLD" / "LOW.PC1").read_bytes(), to_elite(other.read_bytes()))
        self.assertEqual(self.run_command("plain", f"{self.elite}/", "-d", f"{self.back}/")[2], 0)
        for path in (self.low, self.high, self.noise, other):
            self.assertEqual((self.back / path.relative_to(self.plain)).read_bytes(), path.read_bytes())
        self.assertEqual(self.run_command("elite", other, "-d", self.top / "one")[2], 0)
        self.assertEqual(os.listdir(self.top / "one"), ["LOW.PC1"])

    def test_names_without_a_folder(self):
        line = f"cd {shlex.quote(str(self.plain))} && PYTHONPATH={shlex.quote(str(PYTHON))} "
        line += f"{shlex.join(support.PROGRAM)} elite LOW.PI1 && ls"
        done = subprocess.run(["bash", "-c", line], capture_output=True)
        self.assertTrue(done.stdout.startswith(b"LOW.PI1: written: LOW.PC1, packed, "))
        self.assertTrue(done.stdout.endswith(b"\nLOW.PC1\nLOW.PI1\nNOISE.PI1\nhigh.pi3\n"))

    def test_a_bad_file_does_not_stop_the_others(self):
        stray = self.put(self.top / "STRAY.PI1", with_bits(file_of(drawn(0)), 4))
        packed = self.put(self.top / "PACKED.PC1", BLANK)
        torn = self.put(self.top / "TORN.PC1", broken(26, 11))
        neo = self.put(self.top / "MAP.NEO", file_of(drawn(0), Form.NEO))
        text = self.put(self.top / "TEXT", b"text")
        lines, said, status = self.run_command("elite", stray, packed, torn, neo, text, self.low, "-d", self.elite)
        self.assertEqual((said, status), ([], 1))
        self.assertEqual(lines[:5] + lines[6:], [
            f"{stray}: refused 17 at 0: bits 2 to 14 of a plain file's first word not 0 (DEGAS by content)",
            f"{packed}: refused 2 at 0: unknown kind or form (packed or with a tail; DEGAS by content)",
            f"{torn}: refused 7 at 108: a record crosses its row's end "
            "(plane row 26, 11 bytes good; DEGAS by content)",
            f"{neo}: refused 3 at 0: not a DEGAS file (NEOchrome by content)",
            f"{text}: refused 3 at 0: file length not allowed (kind unknown)",
            "1 written, 5 refused",
        ])
        self.assertEqual(list(self.content(self.elite)), ["LOW.PC1"])
        lines, _, status = self.run_command("plain", self.low, stray, packed, "-d", self.back)
        self.assertEqual(lines[0], f"{self.low}: refused 18 at 0: a tail absent or not all zero (DEGAS by content)")
        self.assertEqual((status, lines[-1]), (1, "1 written, 2 refused"))

    def test_files_that_cannot_be_read(self):
        pipe = self.top / "PIPE.PI1"
        os.mkfifo(pipe)
        lines, said, status = self.run_command("elite", self.top / "absent", pipe, self.low, "-d", self.elite)
        self.assertEqual((said, status), (["kutimuq: 2 not read or not written"], 2))
        self.assertEqual(lines[:2], [f"{self.top}/absent: not read: No such file or directory",
                                     f"{pipe}: not read: not a file"])
        self.assertEqual(lines[-1], "1 written, 0 refused")

    def test_the_kind_is_only_told(self):
        # By content alone a short file of another name is of no kind; the library judges it as DEGAS.
        short = self.put(self.top / "SHORT", self.low.read_bytes()[:-1])
        lines, _, status = self.run_command("elite", short)
        self.assertEqual((lines[0], status), (f"{short}: refused 3 at 0: file length not allowed (kind unknown)", 1))

    def test_names_of_the_folder_option(self):
        for number, name in enumerate(("-o", "-d", "--folder")):
            folder = self.top / str(number)
            self.run_command("elite", self.low, name, folder)
            self.assertEqual(list(self.content(folder)), ["LOW.PC1"])

    def test_tables(self):
        torn = self.put(self.top / "TORN.PC1", broken(26, 11))
        tables = ("--json", f"{self.top}/t.json", "--csv", f"{self.top}/t.csv")
        self.run_command("elite", self.low, torn, self.noise, self.top / "absent", "-d", self.elite, *tables)
        low, broke, raw, absent = map(json.loads, (self.top / "t.json").read_text().splitlines())
        packed = to_elite(self.low.read_bytes())
        found = [low[key] for key in "number resolution form length records body error".split()]
        self.assertEqual(found, [0, 0, int(Form.PACKED), len(packed), packed.records, packed.body, None])
        self.assertEqual((low["name"], low["result"]), (str(self.low), f"{self.elite}/LOW.PC1"))
        self.assertEqual((raw["form"], raw["length"], raw["body"]), (int(Form.ELITE), 32_066, 0))
        self.assertEqual((broke["number"], broke["plane_row"], broke["result"]), (7, 26, None))
        self.assertEqual((absent["number"], absent["error"]), (None, "No such file or directory"))
        with open(self.top / "t.csv", encoding="utf-8", newline="") as file:
            rows = list(csv.DictReader(file))
        self.assertEqual(tuple(rows[0]), box.CONVERTED_COLUMNS)
        self.assertEqual((rows[0]["result"], rows[1]["good_bytes"], rows[1]["result"]), (low["result"], "11", ""))


class NothingReplaced(Folder):
    def setUp(self):
        super().setUp()
        self.elite.mkdir()
        self.place = self.elite / "LOW.PC1"

    def assertStays(self, look):
        """What stands at the place stays, and the line says so."""
        before = look()
        lines, _, status = self.run_command("elite", self.low, self.high, "-d", self.elite)
        self.assertEqual(lines[0], f"{self.low}: not written: {self.place}: File exists")
        self.assertEqual((status, lines[-1]), (2, "1 written, 0 refused"))
        self.assertEqual((sorted(os.listdir(self.elite)), look()), (["LOW.PC1", "high.pc3"], before))

    def test_a_file(self):
        self.place.write_bytes(b"old")
        self.assertStays(self.place.read_bytes)

    def test_a_folder(self):
        self.place.mkdir()
        self.assertStays(lambda: list(self.place.iterdir()))

    def test_a_link_to_nothing(self):
        self.place.symlink_to(self.top / "nothing")
        self.assertStays(lambda: (os.readlink(self.place), (self.top / "nothing").exists()))

    def test_two_files_of_one_name(self):
        other = self.put(self.top / "LOW.PI1", file_of(bytes(32_000)))
        lines, said, status = self.run_command("elite", self.low, other, "-d", self.elite)
        self.assertEqual(lines[1], f"{other}: not written: {self.place}: File exists")
        self.assertEqual((said, status), (["kutimuq: 1 not read or not written"], 2))
        self.assertEqual(self.content(self.elite), {"LOW.PC1": to_elite(self.low.read_bytes())})

    def test_a_table(self):
        table = self.put(self.top / "t.csv", b"old")
        lines, said, status = self.run_command("elite", self.low, "-d", self.elite, "--csv", table)
        self.assertEqual((lines, said, status), ([], [f"kutimuq: {table}: File exists"], 2))
        self.assertEqual((table.read_bytes(), self.content(self.elite)), (b"old", {}))

    def test_a_name_that_is_taken_in_the_meantime(self):
        with files.Output(self.place, new=True) as output:
            output.write(b"new")
            self.place.write_bytes(b"old")
            self.assertRaises(FileExistsError, output.keep)
        self.assertEqual(self.content(self.elite), {"LOW.PC1": b"old"})

    def test_a_file_system_without_links(self):
        with mock.patch("os.link", side_effect=PermissionError(EPERM, os.strerror(EPERM))):
            files.put(self.place, b"new", new=True)
            self.assertEqual(self.content(self.elite), {"LOW.PC1": b"new"})
            self.place.unlink()
            self.test_a_name_that_is_taken_in_the_meantime()

    def test_runs_at_once(self):
        """Of many runs each result is written by one, whole."""
        screens = {self.plain / f"MAP{number}.PI1": bytes([number]) * 32_000 for number in range(20)}
        names = [self.put(path, file_of(screen)) for path, screen in screens.items()]
        program = [*support.PROGRAM, "elite", "-d", str(self.elite), *map(str, names)]
        piped = {"stdout": subprocess.PIPE, "stderr": subprocess.PIPE}
        runs = [subprocess.Popen(program, cwd=PYTHON, **piped) for _ in range(4)]
        lines = [line for run in runs for line in run.communicate()[0].decode().splitlines()[:-1]]
        self.assertEqual(len([line for line in lines if ": written: " in line]), 20)
        self.assertEqual(len([line for line in lines if line.endswith(": File exists")]), 60)
        expected = {f"{name.stem}.PC1": to_elite(name.read_bytes()) for name in names}
        self.assertEqual(self.content(self.elite), expected)

    def test_no_room_left(self):
        """A file that cannot be written whole is not there at all."""
        names = shlex.join(map(str, (self.noise, self.low)))
        line = f"ulimit -f 31; {shlex.join(support.PROGRAM)} elite {names} -d {shlex.quote(str(self.elite))}"
        done = subprocess.run(["bash", "-c", line], capture_output=True, cwd=PYTHON)
        lines = done.stdout.decode().splitlines()
        self.assertEqual(lines[0], f"{self.noise}: not written: {self.elite}/NOISE.PI1: File too large")
        self.assertEqual((done.returncode, lines[-1]), (2, "1 written, 0 refused"))
        self.assertEqual(self.content(self.elite), {"LOW.PC1": to_elite(self.low.read_bytes())})

    def test_a_folder_that_cannot_be_made(self):
        lines, said, status = self.run_command("elite", self.low, "-d", self.noise)
        self.assertEqual((lines, said, status), ([], [f"kutimuq: {self.noise}: File exists"], 2))
