"""The check of a box."""

import csv
import hashlib
import json
import os
import pty
import signal
import subprocess
import tempfile
import unittest
from pathlib import Path
from unittest import mock

import kutimuq
from kutimuq import Form, box

from .support import BLANK, PALETTE, PROGRAM, PYTHON, TAIL, broken, command, heed_interrupts, noise

SAMPLE = kutimuq.Picture(0, PALETTE, True, TAIL, bytes(32_000))
MEANING_8 = "bytes after the body not as the format has them"


def blocked_signals(number=0):
    """The signals that this process holds back."""
    return signal.pthread_sigmask(signal.SIG_BLOCK, [])


def all_shown(terminal):
    """What was written to a terminal whose other side is closed; it may come in pieces."""
    shown = b""
    while True:
        try:
            shown += os.read(terminal, 10_000)
        except OSError:
            return shown


class Box(unittest.TestCase):
    """A folder with good and damaged files, and a folder beside it for results."""

    def setUp(self):
        folder = tempfile.TemporaryDirectory()
        self.addCleanup(folder.cleanup)
        self.out = Path(folder.name)
        self.folder = self.out / "box"
        (self.folder / "below").mkdir(parents=True)
        self.put("A.PC1", kutimuq.write(SAMPLE, SAMPLE.screen, Form.PACKED))
        self.put("B.PI1", kutimuq.write(SAMPLE, SAMPLE.screen, Form.ELITE))
        self.put("C.PI1", b"\0\0" + bytes(32) + noise())
        self.put("D.PC1", BLANK[:-1])
        self.put("below/E.NEO", bytes(32_128))
        self.put("below/F.TXT", b"text")

    def put(self, name, data):
        (self.folder / name).write_bytes(data)

    def name(self, name):
        return str(self.folder / name)

    def check(self, *arguments):
        done = command("check", self.folder, *arguments)
        self.assertNotIn(b"Traceback", done.stderr)
        return done

    def records(self, *arguments):
        self.check("--json", self.out / "json", *arguments)
        return [json.loads(line) for line in (self.out / "json").read_text().splitlines()]


class Lines(Box):
    def test_lines(self):
        done = self.check()
        length = len((self.folder / "A.PC1").read_bytes())
        self.assertEqual((done.stderr, done.returncode), (b"", 1))
        self.assertEqual(done.stdout.decode().splitlines(), [
            f"{self.name('A.PC1')}: accepted: DEGAS by content, resolution 0, 800 records, body {length - 66}",
            f"{self.name('B.PI1')}: accepted: DEGAS by content, resolution 0, same picture as {self.name('A.PC1')}",
            f"{self.name('C.PI1')}: accepted: DEGAS by content, resolution 0",
            f"{self.name('D.PC1')}: refused 8 at 1634: {MEANING_8} (DEGAS by content)",
            f"{self.name('below/E.NEO')}: accepted: NEOchrome by extension, resolution 0",
            f"{self.name('below/F.TXT')}: refused 2 at 0: unknown kind or form (kind unknown)",
            "4 accepted, 2 refused",
        ])

    def test_which_row_broke(self):
        self.put("D.PC1", broken(26, 11))
        self.put("E.PC1", broken(0, 0, b""))
        lines = self.check().stdout.decode().splitlines()
        self.assertEqual(lines[3:5], [
            f"{self.name('D.PC1')}: refused 7 at 108: a record crosses its row's end "
            "(plane row 26, 11 bytes good; DEGAS by content)",
            f"{self.name('E.PC1')}: refused 6 at 34: input ends before the screen or row is full "
            "(plane row 0, 0 bytes good; DEGAS by content)",
        ])

    def test_exit_status(self):
        (self.folder / "D.PC1").unlink()
        (self.folder / "below/F.TXT").unlink()
        self.assertEqual(self.check().returncode, 0)
        os.mkfifo(self.folder / "pipe.pi1")
        os.symlink("nowhere", self.folder / "link.pi1")
        done = self.check()
        self.assertEqual((done.returncode, done.stdout.splitlines()[-1]), (2, b"4 accepted, 0 refused"))
        self.assertIn(b"link.pi1: not read: No such file", done.stdout)
        self.assertIn(b"pipe.pi1: not read: not a file", done.stdout)
        self.assertEqual(done.stderr, b"kutimuq: 2 not read\n")

    def test_absent_folders_and_single_files(self):
        done = command("check", self.folder / "absent", self.folder / "A.PC1", self.folder / "A.PC1")
        self.assertEqual((done.returncode, done.stdout.splitlines()[-1]), (2, b"1 accepted, 0 refused"))
        empty = self.out / "empty"
        empty.mkdir()
        done = command("check", empty)
        self.assertEqual((done.returncode, done.stdout), (0, b"0 accepted, 0 refused\n"))

    def test_kind(self):
        done = self.check("--kind", "neo")
        self.assertEqual(done.stdout.splitlines()[-1], b"1 accepted, 5 refused")
        self.assertIn(b"A.PC1: refused 3 at 0: file length not allowed (NEOchrome by option)", done.stdout)

    def test_huge_files(self):
        with open(self.folder / "huge.pc1", "wb") as file:
            file.write(BLANK)
            file.truncate(1 << 40)
        self.assertIn(b"huge.pc1: refused 3 at 0: file length not allowed", self.check().stdout)

    def test_odd_names(self):
        for name in (b"line\nfeed.pc1", b"\xff\xfe.pc1", b"\x1b[2Jclear.pc1", b"-o", "Größe.pc1".encode()):
            with open(os.path.join(os.fsencode(self.folder), name), "wb") as file:
                file.write(BLANK)
        done = self.check("--csv", self.out / "csv", "--report", self.out / "page")
        self.assertEqual(len(done.stdout.splitlines()), 12)
        self.assertNotIn(b"\x1b", done.stdout)
        for shown in (r"line\nfeed.pc1", r"\udcff\udcfe.pc1", r"\x1b[2Jclear.pc1", "Größe.pc1"):
            self.assertIn(shown, done.stdout.decode())
        names = {record["name"] for record in self.records()}
        self.assertIn(os.fsdecode(os.path.join(os.fsencode(self.folder), b"\xff\xfe.pc1")), names)

    def test_progress_on_a_terminal(self):
        terminal, other = pty.openpty()
        done = subprocess.run([*PROGRAM, "check", self.folder], stdout=subprocess.PIPE, stderr=other, cwd=PYTHON)
        os.close(other)
        shown = all_shown(terminal)
        os.close(terminal)
        self.assertIn(b"[##############################] 6 of 6", shown)
        self.assertEqual(done.stdout.splitlines()[-1], b"4 accepted, 2 refused")


class Tables(Box):
    def test_json(self):
        a, b, c, d, e, f = self.records()
        self.assertEqual((d["number"], d["place"], d["meaning"]), (8, 1634, MEANING_8))
        self.assertEqual((d["sha256"], d["resolution"], d["plane_row"], d["good_bytes"]), (None,) * 4)
        self.assertEqual((a["kind"], a["records"], a["number"], a["tail_present"]), ("DEGAS", 800, 0, True))
        self.assertEqual((e["kind"], e["kind_by"], e["bytes"]), ("NEOchrome", "extension", 32_128))
        self.assertEqual((f["kind"], f["kind_by"]), ("unknown", "nothing"))
        self.assertEqual(tuple(c["tally"]), kutimuq.tally(noise(), 0))

    def test_which_row_broke(self):
        self.put("D.PC1", broken(26, 11))
        self.put("E.PC2", broken(0, 0, b"", 1))
        records = self.records("--csv", self.out / "csv")
        keys = ("number", "resolution", "plane_row", "good_bytes")
        told = [tuple(record[key] for key in keys) for record in records]
        self.assertEqual(told[3:5], [(7, 0, 26, 11), (6, 1, 0, 0)])
        self.assertEqual({(row, good) for _, _, row, good in told[:3] + told[5:]}, {(None, None)})
        with open(self.out / "csv", encoding="utf-8", newline="") as file:
            rows = [tuple(row[key] for key in keys) for row in csv.DictReader(file)]
        self.assertEqual(rows[3:5], [("7", "0", "26", "11"), ("6", "1", "0", "0")])
        self.assertEqual({(row, good) for _, _, row, good in rows[:3] + rows[5:]}, {("", "")})

    def test_json_to_a_stream(self):
        lines = self.check("--json", "/dev/stderr").stderr.decode().splitlines()
        self.assertEqual([json.loads(line) for line in lines], self.records())

    def test_least_rewriting(self):
        a, b, c, *_ = self.records()
        packed = kutimuq.write(SAMPLE, SAMPLE.screen, Form.PACKED)
        raw = kutimuq.write(kutimuq.Picture(0, [0] * 16), noise(), Form.ELITE)
        self.assertEqual((a["form"], a["sha256"]), (3, hashlib.sha256(packed).hexdigest()))
        self.assertEqual((b["form"], b["sha256"]), (a["form"], a["sha256"]))
        self.assertEqual((c["form"], c["sha256"]), (2, hashlib.sha256(raw).hexdigest()))
        self.assertEqual((a["same_as"], b["same_as"], c["same_as"]), (None, a["name"], None))

    def test_pictures_that_differ_in_one_thing(self):
        for number, changed in enumerate((
            SAMPLE._replace(palette=(*PALETTE[:15], PALETTE[15] ^ 0x8000)),
            SAMPLE._replace(tail=TAIL._replace(delays=(128, 127, 1, 1))),
            SAMPLE._replace(screen=bytes(31_999) + b"\1"),
            SAMPLE._replace(resolution=1),
        )):
            self.put(f"X{number}.PI1", kutimuq.write(changed, changed.screen, Form.ELITE))
        same = [record["name"] for record in self.records() if record["same_as"]]
        self.assertEqual(same, [self.name("B.PI1")])

    def test_csv(self):
        self.check("--csv", self.out / "csv")
        with open(self.out / "csv", encoding="utf-8", newline="") as file:
            rows = list(csv.DictReader(file))
        self.assertEqual(list(rows[0]), list(box.COLUMNS))
        for row, record in zip(rows, self.records(), strict=True):
            for key in box.COLUMNS:
                value = record[key]
                told = int(value) if isinstance(value, bool) else value
                if isinstance(value, list):
                    told = " ".join(map(str, value))
                self.assertEqual(row[key], "" if told is None else str(told))

    def test_own_results_are_no_part_of_the_box(self):
        names = [self.folder / name for name in ("r.json", "r.csv", "r.html")]
        arguments = ("--json", names[0], "--csv", names[1], "--report", names[2])
        for _ in range(2):
            self.assertEqual(self.check(*arguments).stdout.splitlines()[-1], b"4 accepted, 2 refused")
        self.assertEqual(sorted(path.name for path in self.folder.iterdir() if path.suffix not in (".PC1", ".PI1")),
                         ["below", "r.csv", "r.html", "r.json"])

    def test_nothing_is_judged_where_nothing_can_be_written(self):
        for option in ("--json", "--csv", "--report"):
            for path in ("/proc/file", self.out / "absent" / "file"):
                done = self.check(option, path)
                self.assertEqual((done.stdout, done.returncode), (b"", 2))
                self.assertIn(str(path).encode(), done.stderr)
        self.assertEqual([path.name for path in self.out.iterdir()], ["box"])

    @unittest.skipIf(os.geteuid() == 0, "root may write to any folder")
    def test_a_folder_for_reading_alone(self):
        self.folder.chmod(0o555)
        self.addCleanup(self.folder.chmod, 0o755)
        self.assertEqual(self.check().returncode, 1)
        self.assertEqual(self.check("--json", self.folder / "json").returncode, 2)

    def test_processes(self):
        for number in range(40):
            self.put(f"Y{number}.PC1", BLANK + bytes(number % 3))
        one = self.records("--jobs", 1)
        page = self.out / "page"
        with mock.patch.object(box, "FEW", 2):
            self.assertEqual(self.records("--jobs", 3, "--report", page), one)
        self.assertEqual(len(one), 46)
        self.assertIn("18 accepted, 28 refused", page.read_text())


class Interrupted(Box):
    def interrupt(self, after):
        """Runs a check that is interrupted after so many files."""
        judge = box.judge

        def judge_some(name, kind=None, left=[after]):
            if not left[0]:
                raise KeyboardInterrupt
            left[0] -= 1
            return judge(name, kind)

        with mock.patch.object(box, "judge", judge_some):
            return self.check("--json", self.out / "json", "--csv", self.out / "csv")

    def test_what_is_left(self):
        done = self.interrupt(3)
        self.assertEqual((done.returncode, len(done.stdout.splitlines())), (130, 3))
        self.assertEqual(done.stderr, b"kutimuq: interrupted after 3 of 6 files: --resume goes on from there\n")
        self.assertEqual(sorted(path.name for path in self.out.iterdir()), ["box", "json.part"])

    def test_taken_up(self):
        whole = self.records()
        self.interrupt(3)
        part = self.out / "json.part"
        # A mark in the journal shows that a record is taken from there; a torn last line is not.
        lines = part.read_text().replace('"records": 800', '"records": 801').splitlines(True)
        part.write_text("".join(lines) + lines[0][:50])
        os.utime(self.folder / "C.PI1", (1, 1))
        found = self.records("--resume")
        self.assertEqual(found[0].pop("records"), 801)
        whole[0].pop("records")
        whole[2]["modified"] = 10**9
        self.assertEqual(found, whole)
        self.assertFalse(part.exists())

    def test_taken_up_with_the_row_that_broke(self):
        self.put("A.PC1", broken(26, 11))
        self.interrupt(1)
        part = self.out / "json.part"
        part.write_text(part.read_text().replace('"good_bytes": 11', '"good_bytes": 12'))
        found = self.records("--resume")
        self.assertEqual((found[0]["plane_row"], found[0]["good_bytes"]), (26, 12))

    def test_taken_up_after_a_file_that_was_not_read(self):
        os.symlink("nowhere", self.folder / "0.PC1")
        self.interrupt(4)
        part = self.out / "json.part"
        part.write_text(part.read_text().replace('"records": 800', '"records": 801'))
        found = self.records("--resume")
        self.assertEqual((found[0]["error"], found[1]["records"]), ("No such file or directory", 801))

    def test_taken_up_for_another_kind(self):
        self.interrupt(3)
        numbers = [record["number"] for record in self.records("--resume", "--kind", "neo")]
        self.assertEqual(numbers, [3, 3, 3, 3, 0, 3])

    def test_not_taken_up(self):
        self.interrupt(3)
        done = self.check("--json", self.out / "json")
        self.assertEqual((done.stdout, done.returncode), (b"", 2))
        self.assertIn(b"json.part: left by an interrupted run: take it up with --resume, or remove it\n", done.stderr)
        self.assertEqual(sorted(path.name for path in self.out.iterdir()), ["box", "json.part"])

    def test_journals_that_are_none(self):
        whole = self.records()
        short = json.dumps({"name": self.name("A.PC1"), "error": None}).encode() + b"\n"
        for content in (b"", b"\n", b"\xff\xfe\n", b"[]\n", b"{}\n", b'{"name": 3, "error": null}\n', short):
            (self.out / "json.part").write_bytes(content)
            self.assertEqual(self.records("--resume"), whole)

    def test_by_a_signal(self):
        for number in range(3_000):
            os.link(self.folder / "A.PC1", self.folder / f"{number}.PC1")
        for jobs in ("1", "2"):
            running = subprocess.Popen(
                [*PROGRAM, "check", "--jobs", jobs, self.folder, "--csv", self.out / "csv"],
                stdout=subprocess.PIPE, stderr=subprocess.PIPE, cwd=PYTHON, start_new_session=True,
                preexec_fn=heed_interrupts,
            )
            running.stdout.readline()
            os.killpg(running.pid, signal.SIGINT)
            _, error = running.communicate(timeout=20)
            self.assertEqual(running.returncode, 130)
            self.assertRegex(error, rb"\Akutimuq: interrupted after \d+ of 3006 files\n\Z")
            self.assertEqual([path.name for path in self.out.iterdir()], ["box"])

    def test_a_worker_that_is_ended(self):
        judge = box.judge

        def judge_some(name, kind=None):
            if name.endswith("C.PI1"):
                os.kill(os.getpid(), signal.SIGKILL)
            return judge(name, kind)

        judge_some.__qualname__ = judge_some.__name__ = "judge"
        judge_some.__module__ = "kutimuq.box"
        with mock.patch.object(box, "judge", judge_some), mock.patch.object(box, "FEW", 2):
            done = self.check("--jobs", 2)
        self.assertEqual((done.returncode, done.stderr), (2, b"kutimuq: one of the processes was ended from outside\n"))

    def test_workers_do_not_see_interrupts(self):
        with mock.patch.object(box, "FEW", 2):
            masks = list(box.spread_over(blocked_signals, [(number,) for number in range(100)], 2))
        self.assertTrue(all(signal.SIGINT in mask for mask in masks))
        self.assertNotIn(signal.SIGINT, blocked_signals())

    def test_a_reader_that_stops(self):
        line = subprocess.list2cmdline([*PROGRAM, "check", str(self.folder)])
        done = subprocess.run(["bash", "-c", f"{line} | head -n 1"], capture_output=True, cwd=PYTHON)
        self.assertEqual((len(done.stdout.splitlines()), done.stderr), (1, b""))
