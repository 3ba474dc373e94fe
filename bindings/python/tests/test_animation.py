"""The colour animation of NEOchrome files: by both lists of picture formats, the command's table, and in a box."""

import array
import csv
import io
import itertools
import json
import os
import random
import re
import shlex
import struct
import subprocess
import sys
import tempfile
import unittest
from pathlib import Path

import kutimuq
from kutimuq import ColourAnimation, Direction, Form, FormatList, Kind

from . import support
from .support import BLANK, PALETTE, PYTHON, Case, command, noise, process

STOPPED, LEFT, RIGHT = Direction
YEARS = (1989, 2008)
HEADING = "name,list,limits_valid,left_limit,right_limit,on,direction,vblanks,step_count,colours_cycle,refused"
WRONG_LENGTH = "refused 3 at 0: file length not allowed"
WRONG_FLAG = "refused 4 at 0: NEOchrome flag not 0"
WRONG_RESOLUTION = "refused 5 at 0: resolution above 2"
USED = {*range(4), *range(48, 54)}  # the bytes that a list reads


def neo(limits=0x803C, speed=0x80FF, steps=0, flag=0, resolution=0):
    """A NEOchrome file with these words; the colours of registers 3 to 12 cycle to the left at each vblank."""
    animation = (limits, speed, steps)
    header = struct.pack(
        ">2H16H12s7H66x", flag, resolution, *PALETTE, b"MAP     .NEO", *animation, 0, 0, 320, 200
    )
    return header + noise()


CYCLES = neo()
CYCLES_BY_1989 = neo(limits=0x003C)  # where the limits are not marked valid
STILL = neo(speed=0x00FF)
DIFFERENT = neo(limits=0x003C, steps=7)


def shown(file):
    """What the lists of 1989 and 2008 show."""
    return [kutimuq.animation(file, year) for year in YEARS]


class Shown(Case):
    def test_all_fields(self):
        self.assertEqual(shown(neo(0x803C, 0x8005, 0x0102)), [
            ColourAnimation(True, 3, 12, True, RIGHT, 4, 0),
            ColourAnimation(True, 3, 12, True, RIGHT, 4, 0x0102),
        ])
        self.assertEqual(shown(neo(0x003C, 0x00FB, 0x0102)), [
            ColourAnimation(True, 3, 12, False, LEFT, 4, 0),
            ColourAnimation(False, 0, 0, False, LEFT, 4, 0x0102),
        ])

    def test_names_of_the_fields(self):
        found = kutimuq.animation(neo(0x8012, 0x8005, 9), 2008)
        self.assertEqual((found.limits_valid, found.left_limit, found.right_limit), (True, 1, 2))
        self.assertEqual((found.on, found.direction, found.vblanks, found.step_count), (True, RIGHT, 4, 9))
        self.assertIs(found.limits_valid, True)
        self.assertIs(found.on, True)
        self.assertIsInstance(found.direction, Direction)

    def test_limits(self):
        for limits in range(256):
            expected = divmod(limits, 16)
            for found in shown(neo(0x8000 + limits)):
                self.assertEqual((found.left_limit, found.right_limit), expected)

    def test_which_bit_marks_the_limits_valid(self):
        for high in range(256):
            old, new = shown(neo(high << 8 | 0x3C))
            self.assertEqual(old[:3], (True, 3, 12))
            self.assertEqual(new[:3], (True, 3, 12) if high >= 128 else (False, 0, 0))

    def test_the_rest_is_shown_where_limits_are_not_valid(self):
        self.assertEqual(kutimuq.animation(neo(0x003C, 0x8005, 9), 2008)[3:], (True, RIGHT, 4, 9))

    def test_which_bit_says_on(self):
        for high in range(256):
            for found in shown(neo(speed=high << 8 | 0x05)):
                self.assertEqual(found[3:6], (high >= 128, RIGHT, 4))

    def test_signed_speed(self):
        for speed in range(-128, 128):
            direction = LEFT if speed < 0 else RIGHT if speed > 0 else STOPPED
            for found in shown(neo(speed=0x8000 | speed % 256)):
                self.assertEqual(found[3:6], (True, direction, max(0, abs(speed) - 1)))

    def test_the_ends_of_the_speed(self):
        for byte, direction, vblanks in (
            (0x80, LEFT, 127), (0x81, LEFT, 126), (0xFF, LEFT, 0),
            (0x00, STOPPED, 0), (0x01, RIGHT, 0), (0x7F, RIGHT, 126),
        ):
            for found in shown(neo(speed=0x8000 | byte)):
                self.assertEqual((found.direction, found.vblanks), (direction, vblanks))

    def test_step_count(self):
        for steps in (0, 1, 0x0100, 0x1234, 0x7FFF, 0x8000, 0xFFFF):
            self.assertEqual([found.step_count for found in shown(neo(steps=steps))], [0, steps])

    def test_same_by_both_lists(self):
        source = random.Random(10)
        for _ in range(200):
            limits, speed = source.randrange(0x8000, 0x10000), source.randrange(0x10000)
            old, new = shown(neo(limits, speed, resolution=source.randrange(3)))
            self.assertEqual(old, new)

    def test_no_other_byte_counts(self):
        for file in (CYCLES, DIFFERENT):
            expected = shown(file)
            for place in {*range(140), 32_127} - USED:
                changed = bytearray(file)
                changed[place] ^= 0xFF
                self.assertEqual(shown(changed), expected, place)

    def test_whether_colours_cycle(self):
        for valid, on, direction, right in itertools.product((False, True), (False, True), Direction, range(5)):
            found = ColourAnimation(valid, 3, right, on, direction, 0, 0)
            self.assertIs(found.colours_cycle, valid and on and direction is not STOPPED and right != 3)
        self.assertEqual([found.colours_cycle for found in shown(CYCLES)], [True, True])
        self.assertEqual([found.colours_cycle for found in shown(CYCLES_BY_1989)], [True, False])
        for still in (STILL, neo(speed=0x8000), neo(limits=0x8033), neo(limits=0x8000), bytes(32_128)):
            self.assertEqual([found.colours_cycle for found in shown(still)], [False, False])

    def test_bytes_like_files(self):
        for kind in (bytearray, memoryview, lambda data: array.array("B", data)):
            self.assertEqual(shown(kind(DIFFERENT)), shown(DIFFERENT))
        for wrong in (array.array("H", CYCLES), "text", None):
            self.assertRaises(TypeError, kutimuq.animation, wrong, 2008)

    def test_the_public_name_is_the_function(self):
        program = "import kutimuq.command, kutimuq.animation_table; print(kutimuq.animation.__name__)"
        done = subprocess.run([sys.executable, "-S", "-c", program], capture_output=True, cwd=PYTHON)
        self.assertEqual((done.stdout, done.stderr), (b"animation\n", b""))


class Lists(Case):
    """How a list is named."""

    def test_names(self):
        old, new = (True, 3, 12, True, LEFT, 0, 0), (False, 0, 0, True, LEFT, 0, 7)
        for list_ in (1, 1989, "1989", FormatList.LIST_1989):
            self.assertEqual(kutimuq.animation(DIFFERENT, list_), old)
        for list_ in (2, 2008, "2008", FormatList.LIST_2008):
            self.assertEqual(kutimuq.animation(DIFFERENT, list_), new)
        self.assertEqual(kutimuq.animation(DIFFERENT, list_=1989), old)
        self.assertRaises(TypeError, kutimuq.animation, DIFFERENT)

    def test_other_lists(self):
        for list_ in (0, 3, 255, 256, 257, 258, -1, -254, 1988, 2009, 1 << 64, (1 << 64) + 1):
            for file in (CYCLES, b"", neo(flag=1), neo(resolution=3)):
                self.assertRefused(2, 0, kutimuq.animation, file, list_)

    def test_what_is_no_list(self):
        self.assertRaises(ValueError, kutimuq.animation, CYCLES, "1990")
        for wrong in (None, 1.0, 1989.0, [1]):
            self.assertRaises(TypeError, kutimuq.animation, CYCLES, wrong)


class Refusals(Case):
    def assertBoth(self, old, new, file):
        for year, number in zip(YEARS, (old, new)):
            self.assertRefused(number, 0, kutimuq.animation, file, year)
        self.assertRefused(new, 0, kutimuq.read, file, Kind.NEO)

    def test_length(self):
        for length in (0, 1, 4, 54, 128, 32_000, 32_034, 32_127):
            self.assertBoth(3, 3, CYCLES[:length])
        for file in (CYCLES + b"\0", BLANK, bytes(32_066), neo(flag=1)[:-1], neo(resolution=3) + b"\0"):
            self.assertBoth(3, 3, file)

    def test_flag(self):
        for flag in (1, 2, 0x0100, 0x8000, 0xFFFF):
            for resolution in (0, 2, 3, 0xFFFF):
                self.assertBoth(5, 4, neo(flag=flag, resolution=resolution))

    def test_resolution(self):
        for resolution in (3, 4, 0x0100, 0x8000, 0xFFFF):
            self.assertBoth(5, 5, neo(resolution=resolution))
        for resolution in range(3):
            self.assertEqual(shown(neo(resolution=resolution)), shown(CYCLES))


class Written(Case):
    def test_a_written_file_has_no_animation(self):
        for resolution in range(3):
            picture = kutimuq.read(neo(steps=9, resolution=resolution), Kind.NEO)
            old, new = shown(kutimuq.write(picture, picture.screen, Form.NEO))
            self.assertEqual(old, (True, 0, 0, False, STOPPED, 0, 0))
            self.assertEqual(new, (False, 0, 0, False, STOPPED, 0, 0))


class TableCase(unittest.TestCase):
    def setUp(self):
        folder = tempfile.TemporaryDirectory()
        self.addCleanup(folder.cleanup)
        self.folder = Path(folder.name) / "box"
        self.folder.mkdir()

    def save(self, name, data):
        path = self.folder / name
        path.parent.mkdir(exist_ok=True)
        path.write_bytes(data)
        return path


class Table(TableCase):
    """The command."""

    def table(self, *arguments, data=b"", status=0):
        done = command("animation", *arguments, data=data)
        self.assertEqual(done.returncode, status, done.stderr)
        return done.stdout.decode().splitlines(), done.stderr.decode()

    def test_both_lists(self):
        self.assertEqual(self.table(data=neo(0x003C, 0x80FB, 300)), ([
            HEADING,
            "-,1989,1,3,12,1,left,4,0,1,",
            "-,2008,0,0,0,1,left,4,300,0,",
        ], ""))

    def test_words_and_numbers(self):
        for file, row in (
            (neo(0x803C, 0x8005, 0xFFFF), "-,2008,1,3,12,1,right,4,65535,1,"),
            (neo(0x80F0, 0x0080), "-,2008,1,15,0,0,left,127,0,0,"),
            (neo(0x800F, 0x8000), "-,2008,1,0,15,1,stopped,0,0,0,"),
        ):
            self.assertEqual(self.table("--list", "2008", data=file)[0], [HEADING, row])

    def test_a_list_that_is_named(self):
        whole, _ = self.table(data=DIFFERENT)
        for row, names in ((1, ("1989", "1")), (2, ("2008", "2"))):
            for name in names:
                self.assertEqual(self.table("--list", name, data=DIFFERENT), ([HEADING, whole[row]], ""))

    def test_a_refused_file(self):
        for file, old, new in (
            (b"", WRONG_LENGTH, WRONG_LENGTH),
            (neo(flag=1), WRONG_RESOLUTION, WRONG_FLAG),
            (neo(resolution=3), WRONG_RESOLUTION, WRONG_RESOLUTION),
        ):
            rows = [f"-,{year}{9 * ','}{told}" for year, told in zip(YEARS, (old, new))]
            said = {told: f"kutimuq: standard input: {told}\n" for told in (old, new)}
            self.assertEqual(self.table(data=file, status=1), ([HEADING, *rows], said[new]))
            self.assertEqual(self.table("--list=1989", data=file, status=1), ([HEADING, rows[0]], said[old]))
            self.assertEqual(self.table("--list=2008", data=file, status=1), ([HEADING, rows[1]], said[new]))

    def test_several_files(self):
        good, bad = self.save("a, b.neo", CYCLES), self.save("c.neo", neo(flag=1))
        lines, error = self.table(bad, "/nowhere/d.neo", good, status=2)
        rows = list(csv.reader(lines))
        expected = [[str(name), str(year)] for name in (bad, good) for year in YEARS]
        self.assertEqual([row[:2] for row in rows[1:]], expected)
        self.assertEqual(rows[4][2:], "1,3,12,1,left,0,0,1,".split(","))
        self.assertEqual(error, f"kutimuq: {bad}: {WRONG_FLAG}\nkutimuq: /nowhere/d.neo: No such file or directory\n")

    def test_a_refusal_among_good_files(self):
        good, bad = self.save("a.neo", CYCLES), self.save("b.neo", b"")
        self.table(bad, good, status=1)
        self.table(good)

    def test_every_file_is_judged_as_neochrome(self):
        path = self.save("picture.pi1", CYCLES)
        self.assertEqual(self.table("--list", 2008, path)[0][1:], [f"{path},2008,1,3,12,1,left,0,0,1,"])
        self.table(self.save("picture.pc1", BLANK), status=1)

    def test_a_folder(self):
        names = ["b.neo", "a/c.neo", "d.neo"]
        paths = [str(self.save(name, CYCLES)) for name in names]
        lines, error = self.table("--list", 1989, self.folder, paths[0])
        self.assertEqual([row[0] for row in csv.reader(lines[1:])], [paths[0], paths[2], paths[1]])
        self.assertEqual(error, "")

    def test_other_kinds_in_a_folder(self):
        padded = bytes(32_128)  # a raw DEGAS file, padded to blocks of 128 bytes
        for name, data in (("a.pc1", BLANK), ("b.txt", b"text"), ("c.pi1", padded), ("d.tny", b""), ("e.mac", b"")):
            self.save(name, data)
        self.assertEqual(self.table(self.folder), ([HEADING], ""))
        by_content, by_extension = self.save("f.pi1", CYCLES), self.save("g.neo", padded)
        refused = self.save("h.NEO", CYCLES[:99])
        lines, error = self.table("--list", 2008, self.folder, status=1)
        taken = list(map(str, (by_content, by_extension, refused)))
        self.assertEqual([row[0] for row in csv.reader(lines[1:])], taken)
        self.assertEqual(error, f"kutimuq: {refused}: {WRONG_LENGTH}\n")
        lines, _ = self.table("--list", 2008, self.folder, self.folder / "c.pi1", status=1)
        self.assertEqual([row[0] for row in csv.reader(lines[1:])], [f"{self.folder}/c.pi1", *taken])

    def test_what_is_no_file_in_a_folder(self):
        good = self.save("b.neo", CYCLES)
        os.mkfifo(self.folder / "a.neo")
        lines, error = self.table(self.folder, status=2)
        self.assertEqual([row[0] for row in csv.reader(lines[1:])], [str(good)] * 2)
        self.assertEqual(error, f"kutimuq: {self.folder}/a.neo: not a file\n")

    def test_a_folder_that_cannot_be_listed(self):
        good = self.save("b.neo", CYCLES)
        program = (
            "import os, sys; from unittest import mock; from kutimuq.command import main\n"
            "def walk(path, onerror): onerror(PermissionError(13, 'Permission denied', path)); return iter(())\n"
            "with mock.patch('os.walk', walk): sys.exit(main(sys.argv[1:]))"
        )
        done = subprocess.run(
            [sys.executable, "-c", program, "animation", self.folder, good], capture_output=True, cwd=PYTHON
        )
        self.assertEqual((len(done.stdout.splitlines()), done.returncode), (3, 2))
        self.assertEqual(done.stderr.decode(), f"kutimuq: {self.folder}: Permission denied\n")

    def test_standard_input_by_name(self):
        self.assertEqual(self.table("-", data=CYCLES), self.table(data=CYCLES))

    def test_a_name_that_is_no_text(self):
        path = os.fsencode(self.folder) + b"/\xff\n.neo"
        Path(os.fsdecode(path)).write_bytes(b"")
        lines, error = self.table(os.fsdecode(path), "-", data=CYCLES, status=1)
        rows = list(csv.reader(io.StringIO("\n".join(lines))))
        self.assertEqual([row[0] for row in rows[1:]], [f"{self.folder}/\\udcff\n.neo"] * 2 + ["-"] * 2)
        self.assertIn("/\\udcff\\n.neo: refused 3 at 0", error)

    def test_conversion_leaves_it_out(self):
        made = command("convert", "-q", "--form", "neo", data=neo(steps=9)).stdout
        self.assertEqual(self.table(data=made)[0][1:], [
            "-,1989,1,0,0,0,stopped,0,0,0,",
            "-,2008,0,0,0,0,stopped,0,0,0,",
        ])

    def test_help(self):
        self.assertIn("or that a colour animation is left out\n", command("convert", "--help").stdout.decode())
        told = command("animation", "--help").stdout.decode()
        self.assertIn("1989: limits are always valid", told)
        self.assertIn("2008: limits are valid where", told)
        self.assertIn("on, its direction is not stopped", told)
        self.assertIn("says so where colours cycle.\n\n  --list LIST ", told)
        self.assertIn("Of a folder only the files whose kind is NEOchrome", told)
        self.assertIn("the option takes no FILE\n", told)
        self.assertNotIn("1989", command("records", "--help").stdout.decode())


class LeftOut(TableCase):
    """What is said where a file is written without its colour animation."""

    SAID = "colours cycle: colour animation left out"
    SAID_OF_1989 = "colours cycle by the list of 1989: colour animation left out"

    def said(self, *arguments, data=b"", status=0):
        done = command(*arguments, data=data)
        self.assertEqual(done.returncode, status, done.stderr)
        return done.stderr.decode()

    def test_with_the_kind(self):
        start = "kutimuq: standard input: NEOchrome by content"
        for file, more in (
            (CYCLES, f", {self.SAID}"), (neo(resolution=1), f", {self.SAID}"), (neo(resolution=2), ""),
            (CYCLES_BY_1989, f", {self.SAID_OF_1989}"), (STILL, ""), (neo(limits=0x8033), ""),
        ):
            self.assertEqual(self.said("convert", "--form", "neo", data=file), f"{start}{more}\n")

    def test_where_the_kind_is_named(self):
        line = f"kutimuq: standard input: {self.SAID}\n"
        self.assertEqual(self.said("convert", "--form", "neo", "--kind", "neo", data=CYCLES), line)
        self.assertEqual(self.said("convert", "--form", "neo", "--kind", "neo", data=STILL), "")
        self.assertEqual(self.said("convert", "--form", "neo", "-q", data=CYCLES), "")

    def test_several_files(self):
        moving, still = self.save("a.neo", CYCLES), self.save("b.neo", STILL)
        said = self.said("convert", "--form", "neo", moving, still, "-d", self.folder / "out")
        kind = "NEOchrome by content"
        self.assertEqual(said, f"kutimuq: {moving}: {kind}, {self.SAID}\nkutimuq: {still}: {kind}\n")

    def test_a_refused_file(self):
        path = self.save("a.neo", neo(flag=1))
        said = self.said("convert", "--form", "neo", path, status=1)
        self.assertEqual(said, f"kutimuq: {path}: NEOchrome by extension\nkutimuq: {path}: {WRONG_FLAG}\n")

    def test_other_forms_and_commands(self):
        start = "kutimuq: standard input: NEOchrome by content"
        for form in ("plain", "elite"):
            self.assertEqual(self.said("convert", "--form", form, data=CYCLES), f"{start}, {self.SAID}\n")
        for name in ("png", "summary"):
            self.assertEqual(self.said(name, data=CYCLES), f"{start}\n")

    def test_a_picture_like_it(self):
        image = command("png", data=CYCLES).stdout
        moving, still = self.save("a.neo", CYCLES), self.save("b.neo", STILL)
        said = self.said("encode", "--form", "neo", "--like", moving, data=image)
        self.assertEqual(said, f"kutimuq: {moving}: {self.SAID}\n")
        self.assertEqual(self.said("encode", "--form", "neo", "--like", still, data=image), "")
        said = self.said("encode", "--form", "plain", "--like", moving, data=image)
        self.assertEqual(said, f"kutimuq: {moving}: {self.SAID}\n")


class Json(TableCase):
    """The command with --json."""

    def objects(self, *arguments, data=b"", status=0):
        done = command("animation", "--json", *arguments, data=data)
        self.assertEqual(done.returncode, status, done.stderr)
        return [json.loads(line) for line in done.stdout.splitlines()]

    def test_both_lists(self):
        accepted = {"number": 0, "place": 0, "meaning": "accepted"}
        self.assertEqual(self.objects(data=neo(0x003C, 0x80FB, 300)), [
            {"name": "-", "list": 1989, "limits_valid": True, "left_limit": 3, "right_limit": 12, "on": True,
             "direction": "left", "vblanks": 4, "step_count": 0, "colours_cycle": True, **accepted},
            {"name": "-", "list": 2008, "limits_valid": False, "left_limit": 0, "right_limit": 0, "on": True,
             "direction": "left", "vblanks": 4, "step_count": 300, "colours_cycle": False, **accepted},
        ])

    def test_truth_is_no_number(self):
        found = self.objects("--list", 2008, data=STILL)[0]
        self.assertIs(found["limits_valid"], True)
        self.assertIs(found["on"], False)
        self.assertIs(found["colours_cycle"], False)

    def test_refused(self):
        nothing = dict.fromkeys(HEADING.split(",")[2:-1])
        self.assertEqual(self.objects(data=neo(flag=1), status=1), [
            {"name": "-", "list": 1989, **nothing, "number": 5, "place": 0, "meaning": "resolution above 2"},
            {"name": "-", "list": 2008, **nothing, "number": 4, "place": 0, "meaning": "NEOchrome flag not 0"},
        ])

    def test_several_files(self):
        good, bad = self.save("a.neo", CYCLES), self.save("b.neo", b"")
        found = self.objects("--list", 1, good, "/nowhere", bad, status=2)
        self.assertEqual([(one["name"], one["number"]) for one in found], [(str(good), 0), (str(bad), 3)])


class Streams(unittest.TestCase):
    PROGRAM = shlex.join(support.PROGRAM) + " animation"

    def shell(self, line, data=CYCLES):
        return subprocess.run(["bash", "-c", line], input=data, capture_output=True, cwd=PYTHON)

    @unittest.skipUnless(os.path.exists("/dev/full"), "/dev/full is needed")
    def test_where_nothing_can_be_written(self):
        for options, redirected in itertools.product(("", "--json"), (">/dev/full", ">&-")):
            done = self.shell(f"{self.PROGRAM} {options} {redirected}")
            self.assertEqual((done.returncode, done.stderr.count(b"\n")), (2, 1))
            self.assertTrue(done.stderr.startswith(b"kutimuq: "))

    def test_devices_that_are_named(self):
        done = self.shell(f"{self.PROGRAM} --list 2008 /dev/stdin <(cat /dev/null)")
        self.assertTrue(done.stdout.splitlines()[1].endswith(b",2008,1,3,12,1,left,0,0,1,"))
        self.assertEqual((done.stderr.count(b"refused 3 at 0"), done.returncode), (1, 1))

    def test_endless_input(self):
        done = self.shell(f"ulimit -v 200000; {self.PROGRAM} /dev/zero")
        self.assertEqual((done.stderr.count(b"refused 3 at 0"), done.returncode), (1, 1))

    def test_no_library(self):
        done = process("animation", data=CYCLES, KUTIMUQ_SO="/nowhere/libkutimuq.so")
        self.assertEqual((done.stdout, done.returncode, done.stderr.count(b"\n")), (b"", 2, 1))

    def test_wrong_use(self):
        for said, *arguments in (
            ["'1990' is none of 1989, 2008", "--list", "1990"], ["'3' is none of 1989, 2008", "--list=3"],
            ["needs a value", "--list"], ["takes no value", "--json=a"], ["unknown option '--kind'", "--kind", "neo"],
        ):
            done = command("animation", *arguments, data=CYCLES)
            self.assertEqual((done.stdout, done.returncode), (b"", 2))
            self.assertIn(said.encode(), done.stderr)

    def test_little_is_imported(self):
        program = "import sys; from kutimuq.command import main; main(['animation']); print(*sys.modules)"
        done = subprocess.run([sys.executable, "-S", "-c", program], input=CYCLES, capture_output=True, cwd=PYTHON)
        modules = done.stdout.decode().splitlines()[-1].split()
        self.assertIn("kutimuq.animation_table", modules)
        self.assertEqual({"json", "argparse", "kutimuq.box", "kutimuq.images"}.intersection(modules), set())


class Checked(TableCase):
    """What the check of a box says of colours that cycle."""

    def setUp(self):
        super().setUp()
        self.save("a.neo", CYCLES)
        self.save("b.neo", neo(limits=0x003C, resolution=1))
        self.save("c.neo", neo(resolution=2))
        self.save("d.neo", STILL)
        self.save("e.neo", neo(flag=1))
        self.save("f.pc1", BLANK)

    def check(self, *arguments):
        done = command("check", self.folder, *arguments)
        self.assertEqual((done.stderr, done.returncode), (b"", 1))
        return done.stdout.decode().splitlines()

    def test_lines(self):
        def name(letter):
            return f"{self.folder}/{letter}.neo"

        self.assertEqual(self.check()[:4], [
            f"{name('a')}: accepted: NEOchrome by content, resolution 0, colours cycle",
            f"{name('b')}: accepted: NEOchrome by content, resolution 1, colours cycle by the list of 1989",
            f"{name('c')}: accepted: NEOchrome by content, resolution 2",
            f"{name('d')}: accepted: NEOchrome by content, resolution 0, same picture as {name('a')}",
        ])

    def test_records(self):
        results = self.folder.parent
        self.check("--json", results / "json", "--csv", results / "csv")
        records = [json.loads(line) for line in (results / "json").read_text().splitlines()]
        self.assertEqual([one["cycling_lists"] for one in records], [[1989, 2008], [1989], [], [], None, None])
        with open(results / "csv", newline="") as table:
            rows = list(csv.DictReader(table))
        self.assertEqual([row["cycling_lists"] for row in rows], ["1989 2008", "1989", "", "", "", ""])

    def page(self, machine="ste"):
        """The report page's captions and its list of duplicates."""
        path = self.folder.parent / "page.html"
        self.check("--machine", machine, "--report", path)
        page = path.read_text()
        return re.findall("<figcaption>(.*?)</figcaption>", page), re.findall("<li>(.*?)</li>", page)

    def test_page(self):
        captions, duplicates = self.page()
        self.assertEqual(captions, [
            f"<b>a.neo</b> NEOchrome, low and 1 more; {self.folder}/a.neo: colours cycle",
            "<b>b.neo</b> NEOchrome, medium, colours cycle by the list of 1989",
            "<b>c.neo</b> NEOchrome, high",
            "<b>f.pc1</b> DEGAS, low",
        ])
        self.assertEqual(duplicates, [f"{self.folder}/a.neo (colours cycle): {self.folder}/d.neo"])

    def test_page_where_a_later_file_cycles(self):
        self.save("a.neo", STILL)
        self.save("d&.neo", CYCLES_BY_1989)
        self.save("e.neo", CYCLES)
        self.save("g.neo", neo(flag=1))
        box = self.folder
        captions, duplicates = self.page("st")
        said = f"; {box}/d&amp;.neo: colours cycle by the list of 1989; {box}/e.neo: colours cycle"
        self.assertEqual(captions[0], f"<b>a.neo</b> NEOchrome, low and 3 more, STE bits{said}")
        others = f"{box}/d&amp;.neo (colours cycle by the list of 1989), {box}/d.neo, {box}/e.neo (colours cycle)"
        self.assertEqual(duplicates, [f"{box}/a.neo: {others}"])

    def test_page_where_a_picture_of_another_kind_comes_first(self):
        picture = kutimuq.read(CYCLES, Kind.NEO)
        self.save("_.pi1", kutimuq.write(picture, picture.screen, Form.PLAIN))
        captions, duplicates = self.page()
        self.assertEqual(captions[0], f"<b>_.pi1</b> DEGAS, low and 2 more; {self.folder}/a.neo: colours cycle")
        self.assertEqual(duplicates, [f"{self.folder}/_.pi1: {self.folder}/a.neo (colours cycle), {self.folder}/d.neo"])
