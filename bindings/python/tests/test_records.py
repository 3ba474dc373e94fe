"""The records of packed DEGAS files: the reader, and the list that the command gives."""

import array
import copy
import csv
import io
import json
import os
import random
import shlex
import subprocess
import sys
import tempfile
import unittest
from functools import lru_cache
from itertools import islice, repeat
from pathlib import Path
from unittest import mock

import kutimuq
from kutimuq import Kind, Record, RecordCursor, RecordKind
from kutimuq.record_list import RecordList

from . import support
from .support import BLANK, PYTHON, SAMPLES, SHAPES, Case, broken, command, process

LITERAL, REPEAT, NOTHING = RecordKind
KINDS = {LITERAL: "literal", REPEAT: "repeat", NOTHING: "nothing"}
HEADER = 34
TAIL_BYTES = 32
PLANE_ROWS = (800, 400, 400)
ROW_BYTES = (40, 80, 80)
BLANK_RECORDS = [(HEADER + 2 * row, row, REPEAT, 40) for row in range(800)]
BLANK_END = (1634, 800, 0)  # the cursor after the last record
TORN = SAMPLES / "torn.pc1"
HEADING = "name,offset,sector,plane_row,scan_line,plane,column,kind,length,packed_bytes,hex,refused"
CROSSES = "a record crosses its row's end"
ENDS = "input ends before the screen or row is full"
NOT_PACKED = "unknown kind or form: a packed DEGAS file is needed"


class Built:
    """A packed file that is built record by record, with the list and the cursors that are expected of it."""

    def __init__(self, resolution):
        self.resolution = resolution
        self.file = bytearray((0x80, resolution)) + bytes(32)
        self.expected = []
        self.cursors = []
        self.plane_row = 0
        self.row = b""
        self.rows = []

    def add(self, kind, length=0, byte=7):
        """A record; a literal counts up from the byte."""
        self.cursors.append((len(self.file), self.plane_row, len(self.row)))
        self.expected.append((len(self.file), self.plane_row, kind, length))
        made = bytes((byte + n) % 256 for n in range(length)) if kind == LITERAL else bytes([byte]) * length
        self.file += {
            LITERAL: bytes([max(0, length - 1)]) + made,
            REPEAT: bytes([(257 - length) % 256, byte]),
            NOTHING: b"\x80",
        }[kind]
        self.row += made
        if len(self.row) == ROW_BYTES[self.resolution]:
            self.rows.append(self.row)
            self.plane_row, self.row = self.plane_row + 1, b""

    def close(self):
        """The whole file."""
        self.cursors.append((len(self.file), self.plane_row, len(self.row)))
        self.file = bytes(self.file) + bytes(TAIL_BYTES)
        return self


@lru_cache(maxsize=None)
def mixed(resolution, seed=1):
    """A file with records of all kinds and many lengths; most rows are one repeat, so that the body is short enough."""
    source = random.Random(f"{resolution} {seed}")
    built = Built(resolution)
    width = ROW_BYTES[resolution]
    while built.plane_row < PLANE_ROWS[resolution]:
        left = width - len(built.row)
        if source.random() < 0.1:
            built.add(NOTHING)
        elif left == width and source.random() < 0.7:
            built.add(REPEAT, width, source.randrange(256))
        elif left == 1 or source.random() < 0.4:
            built.add(LITERAL, source.randint(1, left), source.randrange(256))
        else:
            built.add(REPEAT, source.randint(2, left), source.randrange(256))
    return built.close()


def screen_of(rows, resolution):
    """Document 01's screen of plane rows: a scan line is groups of one word a plane."""
    planes = SHAPES[resolution][2]
    lines = (rows[start : start + planes] for start in range(0, len(rows), planes))
    groups = range(0, ROW_BYTES[resolution], 2)
    return b"".join(row[group : group + 2] for line in lines for group in groups for row in line)


def row_bytes_of(record, file):
    """The bytes of a row that a record makes, from its own bytes in the file."""
    after = file[record.offset + 1 :]
    return after[: record.length] if record.kind == LITERAL else after[:1] * record.length


def numbers_of(refusal):
    return refusal.number, refusal.place, refusal.plane_row, refusal.good_bytes


def reading_refusal(file):
    """The four numbers of the refusal of the whole reading, or None."""
    try:
        kutimuq.read(file, Kind.DEGAS)
    except kutimuq.Refused as refusal:
        return numbers_of(refusal)
    return None


def steps(file, reader=None):
    """The records of a file, or those that a reader of it has left; they end even if no step moves."""
    return islice(kutimuq.records(file) if reader is None else reader, len(file) + 1)


def walk(file):
    """The records of a file, and the four numbers of the refusal that ends them, or None."""
    found = []
    try:
        for record in steps(file):
            found.append(record)
    except kutimuq.Refused as refusal:
        return found, numbers_of(refusal)
    return found, None


class ListCase(Case):
    """Lists are compared item by item: unittest's own search for differences takes too long on long ones."""

    def setUp(self):
        self.addTypeEqualityFunc(list, self.assertSameItems)

    def assertSameItems(self, found, expected, msg=None):
        for one, other in zip(found, expected):
            self.assertEqual(one, other, msg)
        self.assertEqual(len(found), len(expected), msg)


class Lists(ListCase):
    def test_blank_file(self):
        self.assertEqual(list(steps(BLANK)), BLANK_RECORDS)

    def test_files_with_records_of_all_kinds(self):
        for resolution in range(3):
            for seed in range(3):
                built = mixed(resolution, seed)
                self.assertEqual({kind for _, _, kind, _ in built.expected}, set(RecordKind))
                self.assertEqual(list(steps(built.file)), built.expected)

    def test_as_many_as_the_reading_reports(self):
        for resolution in range(3):
            file = mixed(resolution).file
            picture = kutimuq.read(file, Kind.DEGAS)
            found = list(steps(file))
            self.assertEqual(len(found), picture.records)
            self.assertEqual(sum(record.packed_bytes for record in found), picture.body)

    def test_records_lie_end_to_end(self):
        file = mixed(1).file
        at = HEADER
        for record in steps(file):
            self.assertEqual(record.offset, at)
            at += record.packed_bytes
        self.assertEqual(at, len(file) - TAIL_BYTES)

    def test_together_they_make_the_screen(self):
        for resolution in range(3):
            built = mixed(resolution)
            rows = [b""] * PLANE_ROWS[resolution]
            for record in steps(built.file):
                rows[record.plane_row] += row_bytes_of(record, built.file)
            self.assertEqual(rows, built.rows)
            self.assertEqual(screen_of(rows, resolution), kutimuq.read(built.file, Kind.DEGAS).screen)

    def test_nothing_after_a_full_row_is_of_the_next(self):
        found = list(steps(BLANK[:36] + b"\x80" + BLANK[36:]))
        self.assertEqual(found[:3], [(34, 0, REPEAT, 40), (36, 1, NOTHING, 0), (37, 1, REPEAT, 40)])

    def test_nothing_after_the_last_row_is_no_record(self):
        file = BLANK[:1634] + b"\x80" + BLANK[1634:]
        found, refusal = walk(file)
        self.assertEqual(found, BLANK_RECORDS)
        self.assertEqual(refusal, (8, 1634, 0, 0))

    def test_ignored_bits(self):
        self.assertEqual(list(steps(b"\xff\xfc" + BLANK[2:])), BLANK_RECORDS)

    def test_names_of_a_record(self):
        record = next(kutimuq.records(BLANK))
        self.assertEqual(record._asdict(), {"offset": 34, "plane_row": 0, "kind": REPEAT, "length": 40})
        self.assertIs(record.kind, RecordKind.REPEAT)
        numbers = {kind.name: kind.value for kind in RecordKind}
        self.assertEqual(numbers, {"LITERAL": 1, "REPEAT": 2, "NOTHING": 3})

    def test_packed_bytes(self):
        for kind, length, packed_bytes in (
            (LITERAL, 1, 2), (LITERAL, 80, 81), (REPEAT, 2, 2), (REPEAT, 80, 2), (NOTHING, 0, 1),
        ):
            self.assertEqual(Record(34, 0, kind, length).packed_bytes, packed_bytes)

    def test_steps_that_never_move(self):
        reader = mock.MagicMock(cursor=RecordCursor(34, 0, 0))
        reader.__iter__.return_value = repeat(Record(34, 0, REPEAT, 40), 2 * len(BLANK))
        with mock.patch("kutimuq.record_list.records", return_value=reader):
            with self.assertRaises(AssertionError):
                RecordList(BLANK)


class Openings(ListCase):
    def test_refusals_in_order(self):
        for number, data in (
            (3, b""),
            (3, b"\x80\x03" + bytes(31)),
            (5, b"\x80\x03" + bytes(32)),
            (5, b"\x00\x03" + bytes(32)),
            (5, b"\x80\x03" + bytes(40_000)),
            (2, bytes(34)),
            (2, b"\x7f\xfe" + bytes(32)),
            (2, bytes(32_034)),
            (2, bytes(32_066)),
            (2, bytes(40_000)),
            (3, b"\x80\x00" + bytes(32_064)),
            (3, BLANK[:34] + b"\x80" * 30_400 + BLANK[34:]),
        ):
            self.assertRefused(number, 0, kutimuq.records, data)

    def test_the_longest_file(self):
        file = BLANK[:34] + b"\x80" * 30_399 + BLANK[34:]
        self.assertEqual(len(file), 32_065)
        found = list(steps(file))
        self.assertEqual(len(found), 31_199)
        self.assertEqual(found[30_398:30_400], [(30_432, 0, NOTHING, 0), (30_433, 0, REPEAT, 40)])

    def test_judged_before_a_cursor(self):
        self.assertRefused(2, 0, kutimuq.records, bytes(34), (0, 0, 0))


class Faults(ListCase):
    def assertFault(self, file, records, *numbers):
        """So many records, and then the refusal of the whole reading, again and again."""
        reader = kutimuq.records(file)
        for _ in range(records):
            next(reader)
        cursor = reader.cursor
        for _ in range(3):
            with self.assertRaises(kutimuq.Refused) as caught:
                next(reader)
            self.assertEqual(numbers_of(caught.exception), numbers)
            self.assertEqual(reader.cursor, cursor)
        self.assertEqual(reading_refusal(file), numbers)

    def test_a_record_that_crosses(self):
        self.assertFault(broken(26, 11), 37, 7, 108, 26, 11)
        self.assertFault(broken(399, 79, resolution=2), 478, 7, 990, 399, 79)
        self.assertFault(broken(0, 0, b"\xd8"), 0, 7, 34, 0, 0)  # judged before the missing byte

    def test_input_that_ends(self):
        self.assertFault(broken(0, 0, b""), 0, 6, 34, 0, 0)
        self.assertFault(broken(26, 11, b"\x1c" + bytes(28)), 37, 6, 108, 26, 11)
        self.assertFault(broken(26, 39, b"\xff"), 65, 7, 164, 26, 39)
        self.assertFault(broken(26, 38, b"\xff"), 64, 6, 162, 26, 38)
        self.assertFault(broken(26, 0, b"\x80"), 27, 6, 87, 26, 0)

    def test_bytes_after_the_body(self):
        for file in (BLANK[:-1], BLANK + b"\0", BLANK[:1634]):
            self.assertFault(file, 800, 8, 1634, 0, 0)

    def test_records_before_the_fault_are_those_of_the_whole_file(self):
        built = mixed(0)
        ends = [offset for offset, _, _ in built.cursors[1:]]
        for cut in random.Random(1).sample(range(HEADER, len(built.file)), 100):
            found, refusal = walk(built.file[:cut])
            whole = sum(end <= cut for end in ends)
            self.assertEqual(found, built.expected[:whole])
            self.assertEqual(refusal, reading_refusal(built.file[:cut]))
            self.assertIsNotNone(refusal)

    def test_the_refusal_is_the_reading_s(self):
        source = random.Random(2)
        numbers = set()
        for _ in range(200):
            file = bytearray(mixed(source.randrange(3)).file)
            for _ in range(source.randint(1, 3)):
                file[source.randrange(HEADER, len(file))] = source.randrange(256)
            if source.random() < 0.5:
                del file[len(file) - source.randrange(40) :]
            refusal = walk(file)[1]
            self.assertEqual(refusal, reading_refusal(file))
            numbers.add(refusal and refusal[0])
        self.assertEqual(numbers, {None, 6, 7, 8})


class Protocol(ListCase):
    def test_an_iterator(self):
        reader = kutimuq.records(BLANK)
        self.assertIsInstance(reader, kutimuq.RecordReader)
        self.assertIs(iter(reader), reader)
        for record in reader:
            break
        self.assertEqual([record, *steps(BLANK, reader)], BLANK_RECORDS)

    def test_done_again_and_again(self):
        reader = kutimuq.records(BLANK)
        for _ in steps(BLANK, reader):
            pass
        for _ in range(3):
            self.assertRaises(StopIteration, next, reader)
            self.assertEqual(reader.cursor, BLANK_END)

    def test_readers_do_not_meddle(self):
        one = kutimuq.records(BLANK)
        next(one)
        other = copy.copy(one)
        self.assertEqual(list(steps(BLANK, other)), BLANK_RECORDS[1:])
        self.assertEqual(next(one), BLANK_RECORDS[1])
        self.assertEqual(next(kutimuq.records(BLANK)), BLANK_RECORDS[0])

    def test_cursor_before_each_step(self):
        for resolution in range(3):
            built = mixed(resolution)
            reader = kutimuq.records(built.file)
            cursors = [reader.cursor, *(reader.cursor for _ in steps(built.file, reader))]
            self.assertEqual(cursors, built.cursors)

    def test_names_of_a_cursor(self):
        cursor = kutimuq.records(BLANK).cursor
        self.assertIsInstance(cursor, RecordCursor)
        self.assertEqual(cursor._asdict(), {"offset": 34, "plane_row": 0, "good_bytes": 0})

    def test_from_a_cursor(self):
        built = mixed(1)
        for start in (0, 1, 100, len(built.expected) - 1, len(built.expected)):
            reader = kutimuq.records(built.file, built.cursors[start])
            self.assertEqual(list(steps(built.file, reader)), built.expected[start:])

    def test_from_cursors_that_no_step_left(self):
        self.assertEqual(next(kutimuq.records(BLANK, (36, 7, 0))), (36, 7, REPEAT, 40))
        for cursor in (BLANK_END, (1634, 800, 39)):
            self.assertEqual(list(steps(BLANK, kutimuq.records(BLANK, cursor))), [])
        self.assertRefused(8, 1633, next, kutimuq.records(BLANK, (1633, 800, 0)))
        self.assertRefused(7, 36, next, kutimuq.records(BLANK, (36, 7, 1)))

    def test_cursors_out_of_range(self):
        for cursor in (
            (33, 0, 0), (0, 0, 0), (1667, 0, 0), (34, 801, 0), (34, 0, 40),
            (-1, 0, 0), (34, -1, 0), (34, 0, -1), ((1 << 64) + 34, 0, 0), (34, 1 << 64, 0), (34, 0, 1 << 64),
        ):
            reader = kutimuq.records(BLANK, cursor)
            for _ in range(2):
                self.assertRefused(10, 0, next, reader)

    def test_cursors_that_are_none(self):
        for cursor in ((34, 0), (34, 0, 0, 0)):
            self.assertRaises(ValueError, kutimuq.records, BLANK, cursor)
        for cursor in ((34, 0, 0.0), ("34", 0, 0), 34):
            self.assertRaises(TypeError, kutimuq.records, BLANK, cursor)

    def test_bytes_like_files(self):
        for kind in (bytearray, memoryview, lambda data: array.array("B", data)):
            self.assertEqual(list(steps(kind(BLANK))), BLANK_RECORDS)
        for wrong in (array.array("H", BLANK), "text", None):
            self.assertRaises(TypeError, kutimuq.records, wrong)

    def test_a_file_that_its_owner_changes(self):
        file = bytearray(BLANK)
        reader = kutimuq.records(file)
        file[34:] = b"\xff" * 10
        self.assertEqual(list(steps(BLANK, reader)), BLANK_RECORDS)

    def test_shown(self):
        reader = kutimuq.records(broken(26, 11))
        for _ in range(37):
            next(reader)
        self.assertEqual(repr(reader), "<kutimuq.RecordReader: at 108, plane row 26, 11 bytes good>")

    def test_the_public_name_is_the_function(self):
        program = "import kutimuq.command, kutimuq.record_list; print(kutimuq.records.__name__)"
        done = subprocess.run([sys.executable, "-S", "-c", program], capture_output=True, cwd=PYTHON)
        self.assertEqual((done.stdout, done.stderr), (b"records\n", b""))


class Listed(ListCase):
    """The command."""

    def setUp(self):
        super().setUp()
        folder = tempfile.TemporaryDirectory()
        self.addCleanup(folder.cleanup)
        self.folder = Path(folder.name)

    def save(self, name, data):
        path = self.folder / name
        path.write_bytes(data)
        return path

    def listed(self, *arguments, data=b"", status=0):
        done = command("records", *arguments, data=data)
        self.assertEqual(done.returncode, status, done.stderr)
        return done.stdout.decode().splitlines(), done.stderr.decode()

    def test_a_whole_file(self):
        built = mixed(0)
        lines, error = self.listed(data=built.file)
        self.assertEqual((lines[0], error), (HEADING, ""))
        rows = list(csv.DictReader(lines))
        self.assertEqual(len(rows), len(built.expected))
        ends = [offset for offset, _, _ in built.cursors[1:]]
        good_bytes = [good for _, _, good in built.cursors]
        for row, (offset, plane_row, kind, length), good, end in zip(rows, built.expected, good_bytes, ends):
            self.assertEqual(row, {
                "name": "-", "offset": str(offset), "sector": str(offset // 512), "plane_row": str(plane_row),
                "scan_line": str(plane_row // 4), "plane": str(plane_row % 4), "column": str(8 * good),
                "kind": KINDS[kind], "length": str(length),
                "packed_bytes": str(end - offset), "hex": built.file[offset:end].hex(" "), "refused": "",
            })

    def test_scan_line_and_plane_at_each_resolution(self):
        for resolution, last in enumerate(("199,3", "199,1", "399,0")):
            built = Built(resolution)
            for _ in range(PLANE_ROWS[resolution]):
                built.add(REPEAT, ROW_BYTES[resolution], 1)
            lines, _ = self.listed(data=built.close().file)
            row = PLANE_ROWS[resolution] - 1
            width = ROW_BYTES[resolution]
            control = 257 - width
            offset = HEADER + 2 * row
            self.assertEqual(lines[-1], f"-,{offset},{offset // 512},{row},{last},0,repeat,{width},2,{control:02x} 01,")

    def test_a_file_that_is_at_fault(self):
        told = f"refused 7 at 108: {CROSSES} (plane row 26, 11 bytes good)"
        lines, error = self.listed(data=broken(26, 11), status=1)
        self.assertEqual(len(lines), 1 + 37 + 1)
        self.assertEqual(lines[-3:], [
            "-,104,0,26,6,2,72,literal,1,2,00 07,",
            "-,106,0,26,6,2,80,literal,1,2,00 07,",
            f'-,108,0,26,6,2,88,,,,7f,"{told}"',
        ])
        self.assertEqual(error, f"kutimuq: standard input: {told}\n")

    def test_a_file_that_ends(self):
        lines, error = self.listed(data=broken(0, 3, b"", 1), status=1)
        told = f"refused 6 at 40: {ENDS} (plane row 0, 3 bytes good)"
        self.assertEqual(lines[-1], f'-,40,0,0,0,0,24,,,,,"{told}"')
        self.assertEqual(error, f"kutimuq: standard input: {told}\n")

    def test_bytes_after_the_body(self):
        lines, error = self.listed(data=BLANK[:-1], status=1)
        told = "refused 8 at 1634: bytes after the body not as the format has them"
        self.assertEqual((len(lines), lines[-1]), (802, f"-,1634,3,,,,,,,,,{told}"))
        self.assertEqual(error, f"kutimuq: standard input: {told}\n")

    def test_a_refused_opening(self):
        for data, told in (
            (b"", "refused 3 at 0: file length not allowed"),
            (b"\x80\x03" + bytes(32), "refused 5 at 0: resolution above 2"),
            (bytes(32_034), f"refused 2 at 0: {NOT_PACKED}"),
        ):
            lines, error = self.listed(data=data, status=1)
            self.assertEqual(lines, [HEADING, f"-{11 * ','}{told}"])
            self.assertEqual(error, f"kutimuq: standard input: {told}\n")

    def test_every_file_is_judged_as_degas(self):
        path = self.save("picture.neo", BLANK)
        self.assertEqual(len(self.listed(path)[0]), 801)

    def test_several_files(self):
        good, bad = self.save("a, b.pc1", BLANK), self.save("c.pc1", broken(0, 1))
        lines, error = self.listed(good, bad, "/nowhere/d.pc1", good, status=2)
        rows = list(csv.reader(lines))
        self.assertEqual(rows[0], HEADING.split(","))
        self.assertEqual(rows[1], [str(good), *"34,0,0,0,0,0,repeat,40,2,d9 00,".split(",")])
        self.assertEqual([row[0] for row in rows[1:]], [str(good)] * 800 + [str(bad)] * 2 + [str(good)] * 800)
        told = f"refused 7 at 36: {CROSSES} (plane row 0, 1 bytes good)"
        self.assertEqual(rows[802], [str(bad), *"36,0,0,0,0,8,,,,7f".split(","), told])
        self.assertEqual(error, f"kutimuq: {bad}: {told}\nkutimuq: /nowhere/d.pc1: No such file or directory\n")

    def test_a_refusal_among_good_files(self):
        good, bad = self.save("a.pc1", BLANK), self.save("b.pc1", BLANK[:-1])
        self.listed(bad, good, status=1)
        self.listed(good, good)

    def test_standard_input_by_name(self):
        self.assertEqual(self.listed("-", data=BLANK), self.listed(data=BLANK))

    def test_the_last_records(self):
        path = self.save("a.pc1", broken(2, 3))
        whole, error = self.listed(path, status=1)
        for last in (0, 1, 4, 5, 6, 99_999):
            lines = self.listed("--last", last, path, status=1)
            self.assertEqual(lines, ([whole[0], *whole[max(1, 6 - last) :]], error))
        good = self.save("b.pc1", BLANK)
        lines, _ = self.listed("--last=2", path, good, status=1)
        offsets = [row["offset"] for row in csv.DictReader(lines)]
        self.assertEqual(offsets, ["40", "42", "44", "1630", "1632"])

    def test_the_torn_sample(self):
        if not TORN.is_file():
            self.skipTest("samples/torn.pc1 is needed")
        told = f"refused 7 at 4096: {CROSSES} (plane row 481, 30 bytes good)"
        lines, error = self.listed("--last", 2, TORN, status=1)
        self.assertEqual(list(csv.reader(lines))[1:], [
            [str(TORN), *"4092,7,481,120,1,160,literal,1,2,00 0f,".split(",")],
            [str(TORN), *"4094,7,481,120,1,168,repeat,9,2,f8 ff,".split(",")],
            [str(TORN), *"4096,8,481,120,1,240,,,,e5".split(","), told],
        ])
        self.assertEqual(error, f"kutimuq: {TORN}: {told}\n")

    def test_a_name_that_is_no_text(self):
        path = os.fsencode(self.folder) + b"/\xff\n.pc1"
        Path(os.fsdecode(path)).write_bytes(broken(0, 0))
        lines, error = self.listed(os.fsdecode(path), "-", data=BLANK, status=1)
        rows = list(csv.reader(io.StringIO("\n".join(lines))))
        self.assertEqual([rows[1][0], rows[2][0]], [f"{self.folder}/\\udcff\n.pc1", "-"])
        self.assertIn("/\\udcff\\n.pc1: refused 7 at 34", error)


class Json(unittest.TestCase):
    """The command with --json."""

    ACCEPTED = {"number": 0, "place": 0, "meaning": "accepted"}
    NO_PLACE = dict.fromkeys(("plane_row", "good_bytes", "sector", "scan_line", "plane", "column", "hex"))

    def objects(self, *arguments, data=b"", status=0):
        done = command("records", "--json", *arguments, data=data)
        self.assertEqual(done.returncode, status, done.stderr)
        return [json.loads(line) for line in done.stdout.splitlines()]

    def test_records(self):
        built = mixed(2)
        rows = csv.DictReader(command("records", data=built.file).stdout.decode().splitlines())
        found = self.objects(data=built.file)[:-1]
        self.assertEqual(len(found), len(built.expected))
        for one, row in zip(found, rows):
            del row["refused"]
            self.assertEqual({key: str(value) for key, value in one.items()}, row)
            self.assertIsInstance(one["offset"], int)

    def test_done(self):
        built = mixed(2)
        kinds = [kind for _, _, kind, _ in built.expected]
        counts = {name: kinds.count(kind) for kind, name in KINDS.items()}
        body = len(built.file) - HEADER - TAIL_BYTES
        self.assertEqual(self.objects(data=built.file)[-1], {
            "name": "-", "done": True, "records": len(built.expected), **counts, "body": body,
            **self.ACCEPTED, **self.NO_PLACE,
        })

    def test_refused_in_a_row(self):
        found = self.objects(data=broken(26, 11), status=1)
        self.assertEqual(len(found), 38)
        self.assertEqual(found[-1], {
            "name": "-", "done": False, "records": 37, "literal": 11, "repeat": 26, "nothing": 0, "body": 74,
            "number": 7, "place": 108, "meaning": CROSSES, "plane_row": 26, "good_bytes": 11,
            "sector": 0, "scan_line": 6, "plane": 2, "column": 88, "hex": "7f",
        })

    def test_refused_after_the_body(self):
        self.assertEqual(self.objects(data=BLANK[:-1], status=1)[-1], {
            "name": "-", "done": False, "records": 800, "literal": 0, "repeat": 800, "nothing": 0, "body": 1600,
            "number": 8, "place": 1634, "meaning": "bytes after the body not as the format has them",
            **self.NO_PLACE, "sector": 3,
        })

    def test_refused_at_the_opening(self):
        self.assertEqual(self.objects(data=bytes(34), status=1), [{
            "name": "-", "done": False, "records": 0, "literal": 0, "repeat": 0, "nothing": 0, "body": 0,
            "number": 2, "place": 0, "meaning": NOT_PACKED, **self.NO_PLACE,
        }])

    def test_an_end_for_each_file(self):
        with tempfile.TemporaryDirectory() as folder:
            good, bad = Path(folder, "good.pc1"), Path(folder, "bad.pc1")
            good.write_bytes(BLANK)
            bad.write_bytes(broken(1, 0))
            found = self.objects("--last", 1, good, bad, "/nowhere", status=2)
        ends = [(each["name"], each.get("done"), each.get("records")) for each in found]
        self.assertEqual(ends, [
            (str(good), None, None), (str(good), True, 800), (str(bad), None, None), (str(bad), False, 1),
        ])


class Streams(unittest.TestCase):
    PROGRAM = shlex.join(support.PROGRAM) + " records"

    def shell(self, line, data=BLANK):
        return subprocess.run(["bash", "-c", line], input=data, capture_output=True, cwd=PYTHON)

    def test_a_reader_that_stops(self):
        for options in ("", "--json"):
            done = self.shell(f"{self.PROGRAM} {options} | head -n 1; echo ${{PIPESTATUS[0]}}", mixed(0).file)
            self.assertEqual((len(done.stdout.splitlines()), done.stderr), (2, b""))
            self.assertEqual(self.shell(f"{self.PROGRAM} {options} | true").stderr, b"")

    @unittest.skipUnless(os.path.exists("/dev/full"), "/dev/full is needed")
    def test_where_nothing_can_be_written(self):
        for redirected in (">/dev/full", ">&-"):
            for options in ("", "--json"):
                done = self.shell(f"{self.PROGRAM} {options} {redirected}")
                self.assertEqual((done.returncode, done.stderr.count(b"\n")), (2, 1))
                self.assertTrue(done.stderr.startswith(b"kutimuq: "))

    def test_a_refusal_where_errors_go_nowhere(self):
        self.assertEqual(self.shell(f"{self.PROGRAM} 2>&-", broken(0, 0)).returncode, 1)

    def test_endless_input(self):
        done = self.shell(f"ulimit -v 200000; {self.PROGRAM} /dev/zero")
        self.assertEqual((done.stderr.count(b"refused 2 at 0"), done.returncode), (1, 1))

    def test_no_library(self):
        done = process("records", data=BLANK, KUTIMUQ_SO="/nowhere/libkutimuq.so")
        self.assertEqual((done.stdout, done.returncode, done.stderr.count(b"\n")), (b"", 2, 1))

    def test_wrong_use(self):
        for said, *arguments in (
            ["option --last: records: ", "--last", "x"], ["option --last: records: ", "--last=-1"],
            ["option --last: records: ", "--last", 100_000], ["needs a value", "--last"],
            ["takes no value", "--json=a"], ["unknown option '--kind'", "--kind", "degas"],
        ):
            done = command("records", *arguments, data=BLANK)
            self.assertEqual((done.stdout, done.returncode), (b"", 2))
            self.assertIn(said.encode(), done.stderr)

    def test_a_folder(self):
        with tempfile.TemporaryDirectory() as folder:
            done = command("records", folder)
        self.assertEqual((done.stderr, done.returncode), (f"kutimuq: {folder}: Is a directory\n".encode(), 2))

    def test_little_is_imported(self):
        program = "import sys; from kutimuq.command import main; main(['records']); print(*sys.modules)"
        done = subprocess.run([sys.executable, "-S", "-c", program], input=BLANK, capture_output=True, cwd=PYTHON)
        modules = done.stdout.decode().splitlines()[-1].split()
        self.assertIn("kutimuq.record_list", modules)
        self.assertEqual({"json", "argparse", "kutimuq.box", "kutimuq.images"}.intersection(modules), set())
