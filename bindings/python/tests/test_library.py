"""The structs against the C header, the numbers against the library's source; the shared object found and built."""

import ctypes
import os
import re
import shutil
import subprocess
import tempfile
import unittest
from pathlib import Path
from unittest import mock

import kutimuq
from kutimuq import LibraryMissing, library

from .support import BLANK, BLANK_SUMMARY, PYTHON, REPOSITORY, process

HEADER = REPOSITORY / "include" / "kutimuq.h"
OUTCOME = REPOSITORY / "crates" / "outcome" / "src" / "lib.rt"
FORMATS = REPOSITORY / "docs" / "FORMATS.md"


def structs():
    found = vars(library).values()
    return [s for s in found if isinstance(s, type) and issubclass(s, ctypes.Structure) and s is not ctypes.Structure]


def program():
    """A C program that prints sizes and offsets."""
    prints = []
    for struct in structs():
        name = struct.__name__
        declared = f"Kutimuq{name}"
        prints.append(f'printf("{name} %zu\\n", sizeof({declared}));')
        for field, _ in struct._fields_:
            place = f"offsetof({declared}, {field}), sizeof((({declared} *)0)->{field})"
            prints.append(f'printf("{name}.{field} %zu %zu\\n", {place});')
    return f'#include <stdio.h>\n#include "{HEADER}"\nint main(void) {{ {" ".join(prints)} }}\n'


def layout():
    """The same lines from the Python side."""
    lines = []
    for struct in structs():
        lines.append(f"{struct.__name__} {ctypes.sizeof(struct)}")
        for field, _ in struct._fields_:
            place = getattr(struct, field)
            lines.append(f"{struct.__name__}.{field} {place.offset} {place.size}")
    return lines


@unittest.skipUnless(shutil.which("gcc") and HEADER.is_file(), "gcc and the header are needed")
class Structures(unittest.TestCase):
    def test_layout(self):
        with tempfile.TemporaryDirectory() as folder:
            source = Path(folder) / "layout.c"
            source.write_text(program())
            subprocess.run(["gcc", "-o", f"{folder}/layout", str(source)], check=True)
            printed = subprocess.run([f"{folder}/layout"], capture_output=True, text=True)
        self.assertEqual(len(structs()), 21)
        self.assertEqual(printed.stdout.splitlines(), layout())


class Numbers(unittest.TestCase):
    @unittest.skipUnless(OUTCOME.is_file(), "crates/outcome is needed")
    def test_names_and_numbers_as_in_the_library(self):
        (cases,) = re.findall(r"^pub enum Reason \{\n(.*?)^\}", OUTCOME.read_text(), re.MULTILINE | re.DOTALL)
        reasons = {
            re.sub(r"(?<=[a-z])(?=[A-Z0-9])|(?<=[0-9])(?=[A-Z])", "_", case).upper(): int(number)
            for case, number in re.findall(r"^ +(\w+) = (\d+),$", cases, re.MULTILINE)
        }
        numbers = {refusal.name: refusal.value for refusal in kutimuq.RefusalNumber if refusal}
        self.assertEqual(numbers, reasons)

    @unittest.skipUnless(FORMATS.is_file(), "docs/FORMATS.md is needed")
    def test_meanings_as_documented(self):
        rows = dict(re.findall(r"^\| (\d+) \| ([^|]+) \| [^|]+ \|$", FORMATS.read_text(), re.MULTILINE))
        for refusal in kutimuq.RefusalNumber:
            self.assertEqual(refusal.meaning, rows.get(str(refusal.value)))

    def test_a_number_of_a_later_library(self):
        self.assertEqual(str(kutimuq.Refused(200, 7)), "refused 200 at 7: unknown refusal")

    def test_the_numbers_as_the_library_gives_them(self):
        refusal = kutimuq.Refused(8, 34, 3, 5)
        self.assertEqual((refusal.plane_row, refusal.good_bytes, refusal.in_row), (3, 5, False))
        self.assertEqual(str(refusal), "refused 8 at 34: bytes after the body not as the format has them")


class Finding(unittest.TestCase):
    def setUp(self):
        folder = tempfile.TemporaryDirectory()
        self.addCleanup(folder.cleanup)
        self.folder = Path(folder.name)
        self.real = library.find()

    def package(self):
        """A copy of the package, far from any archive."""
        far = self.folder / "far" / "bindings" / "python"
        shutil.copytree(PYTHON / "kutimuq", far / "kutimuq")
        for left_over in far.rglob(library.SHARED_OBJECT):
            left_over.unlink()
        return far

    def summary(self, far, **changes):
        return process("summary", data=BLANK, package=far, **changes)

    def test_named_by_the_environment(self):
        with mock.patch.dict(os.environ, {"KUTIMUQ_SO": "some/file.so"}):
            self.assertEqual(library.find(), str(Path.cwd() / "some" / "file.so"))
        done = self.summary(self.package(), KUTIMUQ_SO=str(self.real))
        self.assertEqual((done.stdout, done.returncode), (BLANK_SUMMARY, 0))

    def test_inside_the_package(self):
        far = self.package()
        shutil.copy(self.real, far / "kutimuq" / library.SHARED_OBJECT)
        done = self.summary(far, KUTIMUQ_SO="")
        self.assertEqual((done.stdout, done.returncode), (BLANK_SUMMARY, 0))

    def test_nowhere(self):
        done = self.summary(self.package(), KUTIMUQ_SO="")
        self.assertEqual((done.stdout, done.returncode), (b"", 2))
        self.assertIn(b"kutimuq: no libkutimuq.so: name it in KUTIMUQ_SO", done.stderr)
        self.assertNotIn(b"Traceback", done.stderr)

    def test_not_a_library(self):
        wrong = self.folder / "wrong.so"
        wrong.write_bytes(b"not a library")
        for path in (wrong, self.folder / "absent.so"):
            done = self.summary(PYTHON, KUTIMUQ_SO=str(path))
            self.assertEqual((done.stdout, done.returncode), (b"", 2))
            self.assertIn(f"kutimuq: cannot load {path}".encode(), done.stderr)

    @unittest.skipUnless(os.path.isfile(library.ARCHIVE) and shutil.which("gcc"), "the archive and gcc are needed")
    def test_built_from_the_archive(self):
        far = self.package()
        archive = self.folder / "far" / "crates" / "capi" / "out" / "libcapi.a"
        built = self.folder / "far" / "target" / "python" / library.SHARED_OBJECT
        archive.parent.mkdir(parents=True)
        shutil.copy(library.ARCHIVE, archive)
        done = self.summary(far, KUTIMUQ_SO="")
        self.assertEqual((done.stdout, done.returncode), (BLANK_SUMMARY, 0))
        self.assertEqual([path.name for path in built.parent.iterdir()], [built.name])

    @unittest.skipUnless(os.path.isfile(library.ARCHIVE) and shutil.which("gcc"), "the archive and gcc are needed")
    def test_built_anew_only_for_a_changed_archive(self):
        archive = self.folder / "libcapi.a"
        built = self.folder / "python" / library.SHARED_OBJECT
        shutil.copy(library.ARCHIVE, archive)
        with mock.patch.object(library, "link", wraps=library.link) as link:
            library.build(archive, built)
            library.build(archive, built)
            self.assertEqual(link.call_count, 1)
            os.utime(archive, (1, 1))
            library.build(archive, built)
            self.assertEqual(link.call_count, 2)

    @unittest.skipUnless(shutil.which("gcc"), "gcc is needed")
    def test_a_broken_archive(self):
        archive = self.folder / "libcapi.a"
        archive.write_bytes(b"not an archive")
        built = self.folder / "python" / library.SHARED_OBJECT
        with self.assertRaisesRegex(LibraryMissing, "cannot build .*gcc"):
            library.build(archive, built)
        self.assertFalse(built.exists())
