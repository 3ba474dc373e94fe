"""The command line, as a process."""

import csv
import os
import shlex
import signal
import struct
import subprocess
import tempfile
import time
import unittest
from functools import lru_cache
from pathlib import Path

import kutimuq
from kutimuq import Form
from kutimuq.images import MACHINE_KEYWORD, read_image

from . import support
from .support import (
    BLANK,
    BLANK_SUMMARY,
    PALETTE,
    PYTHON,
    SHAPES,
    TAIL,
    blocks,
    broken,
    command,
    expected_registers,
    noise,
)

PROGRAM = shlex.join(support.PROGRAM)


COMMANDS = (
    *"check summary palette tail png pbm envi registers colours convert elite plain encode tally pond ponds".split(),
    *("records", "animation", "legend new", "legend show", "legend set", "legend release", "levels"),
)
# Those that show colours, and what else they need.
WITH_MACHINE = (
    ["palette"], ["png"], ["envi", "-o", "/nowhere/a.img"], ["colours"], ["encode", "--form", "neo"], ["check", "."],
    ["levels"],
)
MEANING_8 = "bytes after the body not as the format has them"
GREY_16 = b"P5\n320 200\n255\n" + bytes(63_999) + b"\x10"


def wait_until_reading(pid):
    """Waits until a process sleeps in a read of its standard input."""
    for _ in range(500):
        if Path(f"/proc/{pid}/syscall").read_text().startswith("0 0x0 "):
            return
        time.sleep(0.02)


def shell(line, data=b""):
    return subprocess.run(["bash", "-c", line], input=data, capture_output=True, cwd=PYTHON)


@lru_cache(maxsize=None)
def file(resolution=0, form=Form.PACKED):
    screen = kutimuq.screen_from_registers(blocks(resolution), resolution)
    return kutimuq.write(kutimuq.Picture(resolution, PALETTE, True, TAIL), screen, form)


class Accepted(unittest.TestCase):
    def setUp(self):
        folder = tempfile.TemporaryDirectory()
        self.addCleanup(folder.cleanup)
        self.folder = Path(folder.name)

    def output(self, name, *arguments, data):
        done = command(name, "--quiet", *arguments, data=data)
        self.assertEqual((done.stderr, done.returncode), (b"", 0))
        return done.stdout

    def test_summary_of_the_blank_file(self):
        self.assertEqual(self.output("summary", data=BLANK), BLANK_SUMMARY)
        longer = self.output("summary", data=BLANK[:34] + b"\x80" + BLANK[34:])
        self.assertEqual(longer.splitlines()[1:3], [b"records 801", b"body 1601"])

    def test_summary_without_tail(self):
        raw = self.output("summary", data=bytes(32_034))
        self.assertTrue(raw.startswith(b"resolution 0\nrecords 0\nbody 0\ntail 0\ntally 64000 "))

    def test_file_argument(self):
        path = self.folder / "a picture.pc1"
        path.write_bytes(BLANK)
        self.assertEqual(self.output("summary", path, data=b""), BLANK_SUMMARY)
        self.assertEqual(self.output("summary", "-", data=BLANK), BLANK_SUMMARY)

    def test_registers(self):
        for resolution, (width, height, _) in enumerate(SHAPES):
            made = self.output("registers", data=file(resolution))
            pixels = b"".join(map(bytes, blocks(resolution)))
            self.assertEqual(made, b"P5\n%d %d\n255\n" % (width, height) + pixels)

    def test_colours(self):
        for resolution, (width, height, planes) in enumerate(SHAPES):
            made = self.output("colours", data=file(resolution))
            shown = [bytes(kutimuq.colour(resolution, PALETTE, r)) for r in range(1 << planes)]
            pixels = b"".join(shown[register] for row in blocks(resolution) for register in row)
            self.assertEqual(made, b"P6\n%d %d\n255\n" % (width, height) + pixels)

    def test_convert(self):
        for resolution in (0, 1, 2):
            for form in Form:
                made = self.output("convert", "--form", form.name.lower(), data=file(resolution))
                self.assertEqual(made, file(resolution, form))

    def test_convert_from_neo(self):
        neo = file(1, Form.NEO)
        for form in Form:
            made = self.output("convert", "--form", form.name.lower(), data=neo)
            picture = kutimuq.read(neo, kutimuq.Kind.NEO)
            self.assertEqual(made, kutimuq.write(picture, picture.screen, form))

    def test_tally(self):
        self.assertEqual(self.output("tally", data=BLANK), BLANK_SUMMARY.splitlines(True)[-1])
        made = self.output("tally", "--rectangle", "5,6,7,8", data=BLANK)
        self.assertEqual(made, b"tally 56" + b" 0" * 15 + b"\n")

    def test_pond(self):
        legend = self.folder / "legend"
        legend.write_text("".join(f"{n // 4} {10 * n % 101}\n" for n in range(16)))
        raw = b"\0\0" + bytes(32) + noise()
        rows = expected_registers(noise(), 0)
        part = b"".join(row[1:31] for row in rows[2:42])
        for area, pixels in ((["--rectangle", "1,2,30,40"], part), ([], b"".join(rows))):
            made = self.output("pond", *area, "--class", 1, "--floor", 60, "--legend", legend, data=raw)
            sure = sum(register in (6, 7) for register in pixels)
            unsure = sum(register in (4, 5) for register in pixels)
            other = len(pixels) - sure - unsure
            self.assertEqual(made, b"sure %d\nunsure %d\nother %d\n" % (sure, unsure, other))

    def test_palette(self):
        made = self.output("palette", data=file(1)).decode().splitlines()
        colours = [" ".join(map(str, kutimuq.colour(1, PALETTE, register))) for register in range(4)]
        self.assertEqual(len(made), 16)
        self.assertEqual(made[3], f"register 3 word {PALETTE[3]:04x} colour {colours[3]}")
        self.assertEqual(made[4], f"register 4 word {PALETTE[4]:04x} colour -")

    def test_tail(self):
        made = self.output("tail", data=file(0)).decode().splitlines()
        self.assertEqual(made, [
            "tail 1", "left_limits 1 2 3 4", "right_limits 5 6 7 65535", "directions 0 1 2 3", "delays 128 127 1 0",
        ])
        self.assertEqual(self.output("tail", data=bytes(32_034)).splitlines()[0], b"tail 0")

    def test_png_and_back(self):
        for resolution in (0, 1, 2):
            made = self.output("png", data=file(resolution))
            done = command("encode", "--form", "packed", data=made)
            self.assertEqual((done.stdout, done.stderr, done.returncode), (bytes(file(resolution)), b"", 0))

    def test_encode_a_greymap(self):
        grey = self.output("registers", data=file(1))
        like = self.folder / "like.pc2"
        like.write_bytes(file(1))
        words = ",".join(f"{word:04x}" for word in PALETTE)
        done = command("encode", "--form", "packed", "--like", like, data=grey)
        self.assertEqual((done.stdout, done.returncode), (bytes(file(1)), 0))
        done = command("encode", "--form", "plain", "--palette", words, data=grey)
        self.assertEqual((done.stdout, done.returncode), (bytes(file(1, Form.PLAIN)), 0))

    def test_levels(self):
        done = command("levels")
        rows = [line.split() for line in done.stdout.decode().splitlines()]
        self.assertEqual(rows[0], ["level", "bits", "red", "green", "blue", "shown"])
        self.assertEqual(rows[6], ["5", "101", "0500", "0050", "0005", "182"])
        self.assertEqual([row[-1] for row in rows[1:]], "0 36 72 109 145 182 218 255".split())

    def test_version_and_help(self):
        done = command("--version")
        self.assertEqual((done.stdout, done.returncode), (f"kutimuq {kutimuq.__version__}\n".encode(), 0))
        listed = command("--help").stdout.decode()
        for name in COMMANDS:
            self.assertIn(f"\n  {name} ", listed)
            self.assertIn(f"usage: kutimuq {name}".encode(), command(*name.split(), "--help").stdout)

    def test_ways_to_give_options(self):
        path = self.folder / "-q"
        path.write_bytes(BLANK)
        expected = self.output("tally", "--rectangle", "1,2,3,4", data=BLANK)
        for arguments in (["--rectangle=1,2,3,4", path], [path, "--rectangle", "1,2,3,4"]):
            self.assertEqual(self.output("tally", *arguments, data=b""), expected)
        with tempfile.TemporaryDirectory() as folder:
            for given in ([f"-o{folder}/a"], ["-o", f"{folder}/a"], [f"--output={folder}/a"]):
                self.output("convert", "--form=packed", *given, data=BLANK)
                self.assertEqual(Path(folder, "a").read_bytes(), BLANK)
                Path(folder, "a").unlink()
        done = shell(f"cd {shlex.quote(str(self.folder))} && PYTHONPATH={PYTHON} {PROGRAM} tally -q -- -q")
        self.assertEqual(done.stdout, b"tally 64000" + b" 0" * 15 + b"\n")

    def test_the_kind_that_was_found_is_said(self):
        path = self.folder / "torn\nname.neo"
        path.write_bytes(file(0, Form.NEO))
        done = command("summary", path)
        self.assertIn(b"/torn\\nname.neo: NEOchrome by content\n", done.stderr)
        self.assertEqual(command("summary", "--kind", "neo", path).stderr, b"")
        done = command("summary", data=BLANK)
        self.assertEqual(done.stderr, b"kutimuq: standard input: DEGAS by content\n")


class Machines(unittest.TestCase):
    """The colours of an ST, which is the default, and of an STE."""

    WORDS = (0x0735, 0x0888, 0x0777, 0x0FFF, *[0] * 12)
    ON_ST = ("255 109 182", "0 0 0", "255 255 255", "255 255 255", *["0 0 0"] * 12)
    ON_STE = ("238 102 170", "17 17 17", "238 238 238", "255 255 255", *["0 0 0"] * 12)
    HINT = b"palette words with bit 3, 7 or 11 set, as on an STE: --machine ste shows its colours\n"
    # The default, then each by its name and number.
    WAYS = (
        ([], ON_ST), (["--machine", "st"], ON_ST), (["--machine=1"], ON_ST),
        (["--machine", "ste"], ON_STE), (["--machine=2"], ON_STE),
    )

    def setUp(self):
        folder = tempfile.TemporaryDirectory()
        self.addCleanup(folder.cleanup)
        self.folder = Path(folder.name)
        screen = kutimuq.screen_from_registers(blocks(0), 0)
        self.file = bytes(kutimuq.write(kutimuq.Picture(0, self.WORDS), screen, Form.PLAIN))
        self.pixels = b"".join(map(bytes, blocks(0)))

    def output(self, *arguments, data=None):
        done = command(*arguments, data=self.file if data is None else data)
        self.assertEqual((done.stderr, done.returncode), (b"", 0))
        return done.stdout

    def test_palette(self):
        for options, shown in self.WAYS:
            lines = [f"register {r} word {self.WORDS[r]:04x} colour {shown[r]}" for r in range(16)]
            self.assertEqual(self.output("palette", "-q", *options).decode().splitlines(), lines)

    def test_palette_hints_at_an_ste(self):
        found = b"kutimuq: standard input: DEGAS by content\n"
        hint = b"kutimuq: standard input: " + self.HINT
        self.assertEqual(command("palette", data=self.file).stderr, found + hint)
        for options in (["--machine", "st"], ["--machine", "ste"]):
            self.assertEqual(command("palette", *options, data=self.file).stderr, found)
        for word in (0x0777, 0xF000):
            plain = b"\0\0" + word.to_bytes(2, "big") * 16 + bytes(32_000)
            self.assertEqual(command("palette", data=plain).stderr, found)
        for word in (0x0008, 0x0080, 0x0800):
            plain = b"\0\0" + bytes(30) + word.to_bytes(2, "big") + bytes(32_000)
            self.assertEqual(command("palette", data=plain).stderr, found + hint)

    def test_no_hint_where_no_ste_bits_are_shown(self):
        found = b"kutimuq: standard input: DEGAS by content\n"
        for resolution, words in ((1, [0] * 4 + [0x0888] * 12), (2, [0x0888] * 16)):
            plain = struct.pack(">17H", resolution, *words) + bytes(32_000)
            self.assertEqual(command("palette", data=plain).stderr, found)

    def test_capitals(self):
        self.assertEqual(self.output("palette", "--machine", "STE", "-q"), self.output("palette", "--machine", "ste", "-q"))

    def test_colours(self):
        for options, shown in self.WAYS:
            parts = [bytes(map(int, colour.split())) for colour in shown]
            painted = b"".join(parts[register] for register in self.pixels)
            self.assertEqual(self.output("colours", "-q", *options), b"P6\n320 200\n255\n" + painted)

    def test_envi(self):
        path = self.folder / "map.img"
        for options, shown in self.WAYS:
            self.output("envi", "-q", *options, "-o", path)
            self.assertEqual(path.read_bytes(), self.pixels)
            lookup = ", ".join(" ".join(shown).split())
            self.assertIn(f"class lookup = {{{lookup}}}", (self.folder / "map.hdr").read_text())

    def test_png_and_back(self):
        for options, shown in self.WAYS:
            made = self.output("png", "-q", *options)
            self.assertEqual([" ".join(map(str, colour)) for colour in read_image(made).colours], list(shown))
            self.assertEqual(MACHINE_KEYWORD in made, shown is self.ON_STE)
            for named in ([], options):
                self.assertEqual(self.output("encode", "--form", "plain", *named, data=made), self.file)

    def test_png_of_another_machine(self):
        for one, other in (("st", "ste"), ("ste", "st")):
            made = self.output("png", "-q", "--machine", one)
            done = command("encode", "--form", "plain", "--machine", other, data=made)
            told = f"on an {other.upper()}, but they are on an {one.upper()}: name that machine"
            line = f"kutimuq: standard input: its colours are not the palette's {told}\n"
            self.assertEqual((done.stdout, done.stderr.decode(), done.returncode), (b"", line, 1))

    def test_check(self):
        (self.folder / "A.PI1").write_bytes(self.file)
        page, records, table = (self.folder / name for name in ("page", "records", "table"))
        kept = set()
        for options, shown in self.WAYS:
            where = ("--report", page, "--json", records, "--csv", table)
            told = self.output("check", self.folder / "A.PI1", *options, *where)
            kept.add((told, records.read_bytes(), table.read_bytes()))
            self.assertIn(f"Colours as on an {'STE' if shown is self.ON_STE else 'ST'}.", page.read_text())
        self.assertEqual(len(kept), 1)  # no colour is judged or recorded

    def test_levels(self):
        self.assertEqual(command("levels", "--machine", "st"), command("levels"))
        rows = [line.split() for line in self.output("levels", "--machine", "ste").decode().splitlines()]
        self.assertEqual(rows[0], ["level", "bits", "red", "green", "blue", "shown"])
        self.assertEqual(rows[2], ["1", "1000", "0800", "0080", "0008", "17"])
        self.assertEqual(rows[11], ["10", "0101", "0500", "0050", "0005", "170"])
        self.assertEqual(rows[15], ["14", "0111", "0700", "0070", "0007", "238"])
        self.assertEqual(rows[16], ["15", "1111", "0f00", "00f0", "000f", "255"])
        self.assertEqual([int(row[-1]) for row in rows[1:]], list(range(0, 256, 17)))

    def test_names_that_are_no_machines(self):
        for arguments in WITH_MACHINE:
            for name in ("tt", "", "0", "3", "ste "):
                done = command(*arguments, "--machine", name, data=self.file)
                self.assertEqual((done.stdout, done.returncode), (b"", 2))
                self.assertIn(f"option --machine: {name!r} is none of st, ste: ".encode(), done.stderr)

    def test_commands_that_show_no_colours(self):
        for name in set(COMMANDS) - {arguments[0] for arguments in WITH_MACHINE}:
            done = command(*name.split(), "--machine", "st", data=self.file)
            self.assertEqual((done.stdout, done.returncode), (b"", 2))
            self.assertIn(b"unknown option '--machine'", done.stderr)


class Many(unittest.TestCase):
    def setUp(self):
        folder = tempfile.TemporaryDirectory()
        self.addCleanup(folder.cleanup)
        self.folder = Path(folder.name)
        self.paths = []
        for name, data in (("a.pc1", BLANK), ("torn.pc1", BLANK[:-1]), ("b.neo", file(0, Form.NEO))):
            self.paths.append(self.folder / name)
            self.paths[-1].write_bytes(data)
        self.good = [self.paths[0], self.paths[2]]

    def names(self, folder):
        return sorted(path.name for path in folder.iterdir())

    def test_one_refusal_does_not_stop_the_others(self):
        done = command("tally", "--quiet", *self.paths)
        a, torn, b = map(str, self.paths)
        self.assertEqual(done.returncode, 1)
        self.assertEqual([line.split(": ")[0] for line in done.stdout.decode().splitlines()], [a, b])
        self.assertEqual(done.stderr.decode(), f"kutimuq: {torn}: refused 8 at 1634: {MEANING_8}\n")

    def test_an_absent_file_does_not_stop_the_others(self):
        done = command("summary", "--quiet", self.folder / "absent", *self.paths)
        self.assertEqual(done.returncode, 2)
        self.assertEqual(len(done.stdout.splitlines()), 11)
        self.assertIn(b"absent: No such file or directory\n", done.stderr)

    def test_into_a_folder(self):
        for name, ending in (("png", ".png"), ("registers", ".pgm"), ("colours", ".ppm")):
            out = self.folder / name
            self.assertEqual(command(name, *self.good, "-d", out).returncode, 0)
            self.assertEqual(self.names(out), ["a.pc1" + ending, "b.neo" + ending])
        out = self.folder / "neo"
        self.assertEqual(command("convert", "--form", "packed", *self.paths, "-d", out).returncode, 1)
        self.assertEqual(self.names(out), ["a.pc1.pc1", "b.neo.pc1"])
        self.assertEqual((out / "a.pc1.pc1").read_bytes(), BLANK)

    def test_envi(self):
        out = self.folder / "maps"
        self.assertEqual(command("envi", *self.good, "-d", out).returncode, 0)
        self.assertEqual(self.names(out), ["a.pc1.hdr", "a.pc1.img", "b.neo.hdr", "b.neo.img"])
        self.assertEqual((out / "b.neo.img").read_bytes(), b"".join(map(bytes, blocks(0))))
        self.assertIn("class names = {register 0, register 1,", (out / "b.neo.hdr").read_text())
        self.assertEqual(command("envi", self.paths[1], "-o", self.folder / "torn.img").returncode, 1)
        self.assertFalse((self.folder / "torn.img").exists())
        self.assertEqual(command("envi", self.paths[0]).returncode, 2)
        self.assertEqual(command("envi", self.paths[0], "-o", "a.hdr").returncode, 2)

    def test_results_that_would_meet(self):
        other = self.folder / "other"
        other.mkdir()
        (other / "a.pc1").write_bytes(BLANK)
        out = self.folder / "out"
        done = command("png", self.paths[0], other / "a.pc1", "-d", out)
        self.assertEqual((done.returncode, self.names(out)), (2, []))
        self.assertEqual(command("png", *self.good).returncode, 2)
        self.assertEqual(command("png", *self.good, "-o", "x", "-d", out).returncode, 2)

    def test_ponds(self):
        legend, ponds, out = (self.folder / name for name in ("legend", "ponds.csv", "index.csv"))
        legend.write_text("0 50 us ground\n" + "1 90 us brine\n" * 15)
        ponds.write_text('name,rectangle,class,floor\nall,,ground,40\n"north, old","0,0,10,10",1,95\n')
        done = command("ponds", "--quiet", "--list", ponds, "--legend", legend, *self.paths, "-o", out)
        self.assertEqual((done.stdout, done.returncode), (b"", 1))
        rows = list(csv.reader(out.read_text().splitlines()))
        a, torn, b = map(str, self.paths)
        self.assertEqual(rows[0], "map pond class class_name floor sure unsure other refused party".split())
        self.assertEqual(rows[1], [a, "all", "0", "ground", "40", "64000", "0", "0", "", "us"])
        self.assertEqual(rows[2], [a, "north, old", "1", "brine", "95", "0", "0", "100", "", "us"])
        self.assertEqual(rows[3], [torn, *[""] * 7, f"refused 8 at 1634: {MEANING_8}", "us"])
        counts = kutimuq.pond(kutimuq.open(b).screen, 0, (0, 0, 10, 10), 1, 95, [(0, 50)] + [(1, 90)] * 15)
        self.assertEqual(rows[5], [b, "north, old", "1", "brine", "95", *map(str, counts), "", "us"])
        self.assertEqual(len(rows), 6)

    def test_ponds_outside_the_screen(self):
        legend, ponds = self.folder / "legend", self.folder / "ponds.csv"
        legend.write_text("0 50\n" * 16)
        ponds.write_text('name,rectangle,class,floor\nfar,"0,0,640,400",0,0\n')
        done = command("ponds", "-q", "--list", ponds, "--legend", legend, self.paths[0])
        self.assertEqual((done.stdout, done.returncode), (b"", 2))
        self.assertIn(b"ponds.csv: pond 'far': rectangle 0,0,640,400 is not on its screen of 320 x 200", done.stderr)


class NothingLost(unittest.TestCase):
    def setUp(self):
        folder = tempfile.TemporaryDirectory()
        self.addCleanup(folder.cleanup)
        self.folder = Path(folder.name)
        self.out = self.folder / "out"

    def assertKept(self, status, *arguments, data=BLANK):
        """The file that stood there stays, and nothing is left beside it."""
        self.out.write_bytes(b"old")
        done = command(*arguments, "-o", self.out, data=data)
        self.assertEqual(done.returncode, status)
        self.assertNotIn(b"Traceback", done.stderr)
        self.assertEqual((list(self.folder.iterdir()), self.out.read_bytes()), ([self.out], b"old"))

    def test_refusals(self):
        self.assertKept(1, "png", data=BLANK[:-1])
        self.assertKept(1, "convert", "--form", "packed", data=b"\0\0" + bytes(32) + noise())
        self.assertKept(1, "encode", "--form", "neo", data=b"text")
        self.assertKept(1, "encode", "--form", "neo", "--palette", "0000 " * 16, data=GREY_16)
        self.assertKept(2, "ponds", "--legend", "/nowhere", "--list", "/nowhere")

    def test_accepted(self):
        self.out.write_bytes(b"old")
        self.out.chmod(0o640)
        done = command("convert", "--form", "packed", "-o", self.out, data=BLANK)
        self.assertEqual((done.returncode, self.out.read_bytes()), (0, BLANK))
        self.assertEqual(list(self.folder.iterdir()), [self.out])
        self.assertEqual(self.out.stat().st_mode & 0o777, 0o640)

    def test_a_link_stays_a_link(self):
        link = self.folder / "link"
        link.symlink_to(self.out)
        self.assertEqual(command("convert", "--form", "packed", "-o", link, data=BLANK).returncode, 0)
        self.assertEqual((link.is_symlink(), self.out.read_bytes()), (True, BLANK))

    def test_a_device(self):
        self.assertEqual(command("png", "-o", "/dev/null", data=BLANK).returncode, 0)
        done = command("convert", "--form", "packed", "-o", "/dev/stdout", data=BLANK)
        self.assertEqual((done.stdout, done.returncode), (BLANK, 0))

    def test_where_nothing_can_be_written(self):
        for path in ("/proc/out", self.folder, self.folder / "absent" / "out", "/dev/full"):
            done = command("png", "-q", "-o", path, data=BLANK)
            self.assertEqual((done.returncode, done.stderr.count(b"\n")), (2, 1))
            self.assertIn(str(path).encode(), done.stderr)

    def test_in_place(self):
        self.out.write_bytes(BLANK)
        self.assertEqual(command("convert", "--form", "neo", self.out, "-o", self.out).returncode, 0)
        self.assertEqual(self.out.stat().st_size, 32_128)

    def test_endless_input_costs_no_memory(self):
        limited = f"ulimit -v 200000; {PROGRAM} summary --kind neo /dev/zero"
        done = shell(limited)
        self.assertEqual((done.stdout, done.returncode), (b"refused 3 at 0\n", 1))
        done = shell(f"ulimit -v 200000; {PROGRAM} encode --form neo /dev/zero")
        self.assertEqual((done.stdout, done.returncode), (b"", 1))

    def test_interrupts(self):
        for number in (signal.SIGINT, signal.SIGTERM):
            running = subprocess.Popen(
                [*support.PROGRAM, "png", "-o", str(self.out)],
                stdin=subprocess.PIPE, stderr=subprocess.PIPE, cwd=PYTHON, preexec_fn=support.heed_interrupts,
            )
            running.stdin.write(BLANK[:100])
            running.stdin.flush()
            wait_until_reading(running.pid)
            running.send_signal(number)
            self.assertEqual((running.communicate()[1], running.returncode), (b"", 128 + number))
            self.assertEqual(list(self.folder.iterdir()), [])


class Refusals(unittest.TestCase):
    def test_every_command_refuses_a_damaged_file(self):
        with tempfile.NamedTemporaryFile("w") as legend:
            legend.write("0 100\n" * 16)
            legend.flush()
            pond = "--rectangle 0,0,1,1 --class 0 --floor 0 --legend".split() + [legend.name]
            for arguments in (
                ["registers"], ["colours"], ["convert", "--form", "plain"], ["tally"],
                ["pond", *pond], ["png"], ["envi", "-o", "/nowhere.img"], ["palette"], ["tail"],
            ):
                done = command(*arguments, "-q", data=BLANK[:-1])
                line = b"kutimuq: standard input: refused 8 at 1634: bytes after the body not as the format has them\n"
                self.assertEqual((done.stdout, done.stderr, done.returncode), (b"", line, 1))

    def refused(self, line, name, *arguments, data):
        done = command(name, "-q", *arguments, data=data)
        expected = f"kutimuq: standard input: refused {line}\n".encode()
        self.assertEqual((done.stderr, done.returncode), (expected, 1))
        return done.stdout

    def test_summary_writes_the_refusal_too(self):
        # Document 01 gives the summary's line for a refusal.
        line = "8 at 1634: bytes after the body not as the format has them"
        self.assertEqual(self.refused(line, "summary", data=BLANK[:-1]), b"refused 8 at 1634\n")
        line = "3 at 0: file length not allowed"
        self.assertEqual(self.refused(line, "summary", "--kind", "degas", data=b""), b"refused 3 at 0\n")
        line = "2 at 0: unknown kind or form: neither content nor extension names a kind, --kind can"
        self.assertEqual(self.refused(line, "summary", data=b"text"), b"refused 2 at 0\n")

    def test_which_row_broke(self):
        line = "7 at 108: a record crosses its row's end (plane row 26, 11 bytes good)"
        self.assertEqual(self.refused(line, "tally", data=broken(26, 11)), b"")
        self.assertEqual(self.refused(line, "summary", data=broken(26, 11)), b"refused 7 at 108\n")
        line = "6 at 34: input ends before the screen or row is full (plane row 0, 0 bytes good)"
        self.assertEqual(self.refused(line, "summary", data=broken(0, 0, b"")), b"refused 6 at 34\n")

    def test_which_row_broke_in_a_named_file(self):
        with tempfile.TemporaryDirectory() as folder:
            path = Path(folder, "map.pc1")
            path.write_bytes(broken(26, 11))
            done = command("png", "-q", path)
        told = "refused 7 at 108: a record crosses its row's end (plane row 26, 11 bytes good)"
        self.assertEqual(done.stderr.decode(), f"kutimuq: {path}: {told}\n")

    def test_long_input(self):
        line = "3 at 0: file length not allowed"
        degas = ("registers", "--kind", "degas")
        for data in (bytes(3_000_000), b"\x80" + bytes(3_000_000)):
            self.assertEqual(self.refused(line, *degas, data=data), b"")
        self.refused("5 at 0: resolution above 2", *degas, data=b"\3" * 3_000_000)
        self.refused(line, "registers", "--kind", "neo", data=b"\3" * 3_000_000)

    def test_no_packed_body(self):
        raw = b"\0\0" + bytes(32) + noise()
        line = "9 at 0: no packed body below the format's limit exists"
        self.assertEqual(self.refused(line, "convert", "--form", "packed", data=raw), b"")

    def test_neo(self):
        line = "4 at 0: NEOchrome flag not 0"
        self.refused(line, "tally", "--kind", "neo", data=b"\1" + bytes(32_127))


class Misuse(unittest.TestCase):
    def wrong(self, said, *arguments):
        done = command(*arguments, data=BLANK)
        self.assertEqual((done.stdout, done.returncode), (b"", 2))
        self.assertNotIn(b"Traceback", done.stderr)
        self.assertIn(said.encode(), done.stderr)

    def test_arguments(self):
        for said, *arguments in (
            ["COMMAND"], ["'paint'", "paint"], ["needs --form", "convert"], ["needs a value", "convert", "--form"],
            ["takes no value", "tally", "--quiet=1"], ["unknown option '-x1'", "tally", "-x1"],
            ["unknown option '--rect'", "tally", "--rect", "1"], ["'x' is too much", "levels", "x"],
            ["'gif'", "convert", "--form", "gif"],
            ["'x'", "summary", "--kind", "x"], ["needs --legend", "pond"], ["a FOLDER is needed", "check"],
            ["option --jobs: ", "check", "--jobs", "x", "."], ["--json", "check", "--resume", "."],
            ["option --palette: 16 words", "encode", "--form", "neo", "--palette", "0777"],
        ):
            self.wrong(said, *arguments)

    def test_rectangles(self):
        for rectangle in ("1,2,3", "1,2,3,x", "-1,0,1,1", "1,2,3,4,5"):
            self.wrong("option --rectangle: left,top,columns,lines", "tally", f"--rectangle={rectangle}")
        for rectangle in ("0,0,321,1", "0,199,1,2", f"{1 << 64},0,0,0"):
            said = f"standard input: option --rectangle: {rectangle} is not on its screen of 320 x 200"
            self.wrong(said, "tally", "--rectangle", rectangle)

    def test_numbers_out_of_range(self):
        with tempfile.NamedTemporaryFile("w") as file:
            file.write("# two good lines\n0 0\n0 0\n0 101\n")
            file.flush()
            legend = ("--legend", file.name)
            self.wrong(f"{file.name}, line 4: confidence: ", "pond", "--class", 0, "--floor", 0, *legend)
            self.wrong("option --class: class: ", "pond", "--class", 256, "--floor", 0, *legend)
            self.wrong("option --floor: confidence: ", "pond", "--class", 0, "--floor", 101, *legend)

    def test_legend_files(self):
        for legend in ("", "0 0\n" * 15, "0 0\n" * 17, "0\n" * 16, "0 x\n" * 16, "é 0\n" * 16):
            with tempfile.NamedTemporaryFile("w", encoding="utf-8") as file:
                file.write(legend)
                file.flush()
                self.wrong(f"{file.name}, line ", "pond", "--class", 0, "--floor", 0, "--legend", file.name)
        self.wrong("/nowhere/legend", "pond", "--class", 0, "--floor", 0, "--legend", "/nowhere/legend")

    def test_absent_file(self):
        done = command("summary", "/nowhere/picture.pi1")
        self.assertEqual((done.stdout, done.returncode), (b"", 2))
        self.assertEqual(done.stderr.count(b"\n"), 1)
        self.assertTrue(done.stderr.startswith(b"kutimuq: "))


class Pipes(unittest.TestCase):
    def test_commands_in_a_row(self):
        steps = ("convert -q --form neo", "convert -q --form packed", "summary -q")
        done = shell(" | ".join(f"{PROGRAM} {step}" for step in steps), BLANK)
        self.assertEqual((done.stdout, done.stderr), (BLANK_SUMMARY, b""))

    def test_a_reader_that_stops(self):
        done = shell(f"{PROGRAM} colours -q | head -c 2", file(2))
        self.assertEqual((done.stdout, done.stderr), (b"P6", b""))
        done = shell(f"{PROGRAM} colours -q | true", file(2))
        self.assertEqual((done.stdout, done.stderr), (b"", b""))

    def test_input_in_pieces(self):
        reader = subprocess.Popen(
            [*support.PROGRAM, "summary", "-q"],
            stdin=subprocess.PIPE, stdout=subprocess.PIPE, cwd=PYTHON,
        )
        for start in range(0, len(BLANK), 100):
            reader.stdin.write(BLANK[start : start + 100])
            reader.stdin.flush()
        self.assertEqual(reader.communicate()[0], BLANK_SUMMARY)

    def test_closed_streams(self):
        for redirected in ("<&-", ">&-"):
            done = shell(f"{PROGRAM} registers -q {redirected}", BLANK)
            self.assertEqual((done.stdout, done.returncode), (b"", 2))
            self.assertTrue(done.stderr.startswith(b"kutimuq: "))
        done = shell(f"{PROGRAM} registers 2>&-", BLANK[:-1])
        self.assertEqual((done.stdout, done.returncode), (b"", 1))

    @unittest.skipUnless(os.path.exists("/dev/full"), "/dev/full is needed")
    def test_full_disk(self):
        done = shell(f"{PROGRAM} registers -q >/dev/full", BLANK)
        self.assertEqual(done.returncode, 2)
        self.assertEqual(done.stderr.count(b"\n"), 1)
