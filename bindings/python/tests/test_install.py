"""The package installed by pip, without a network, and used from another folder."""

import os
import shutil
import subprocess
import sys
import tempfile
import unittest
from pathlib import Path

import kutimuq

from .support import BLANK, BLANK_SUMMARY, PYTHON, REPOSITORY

HEADER = REPOSITORY / "include" / "kutimuq.h"

# Costly to import, and not needed to start.
NOT_AT_START = set(
    "argparse re typing dataclasses inspect json csv hashlib zlib pathlib tempfile numpy subprocess "
    "multiprocessing concurrent.futures contextlib fcntl kutimuq.legend".split()
)


def pip_present():
    return not subprocess.run([sys.executable, "-m", "pip", "--version"], capture_output=True).returncode


@unittest.skipUnless(pip_present(), "pip is not installed")
class Installed(unittest.TestCase):
    @classmethod
    def setUpClass(cls):
        cls.prefix = Path(tempfile.mkdtemp())
        cls.addClassCleanup(shutil.rmtree, cls.prefix)
        cls.done = subprocess.run(
            [sys.executable, "-m", "pip", "install", "--quiet", "--disable-pip-version-check", "--no-index",
             "--ignore-installed", "--no-warn-script-location", "--root-user-action=ignore",
             "--prefix", str(cls.prefix), str(PYTHON)],
            capture_output=True, cwd="/",
        )
        # Where they go below the prefix is for Python to say; Debian's has them in local/.
        cls.program = next(cls.prefix.rglob("bin/kutimuq"), None)
        cls.packages = next((path.parents[1] for path in cls.prefix.rglob("kutimuq/libkutimuq.so")), None)

    def run_command(self, *arguments, data=b""):
        environment = {**os.environ, "PYTHONPATH": str(self.packages), "KUTIMUQ_SO": ""}
        return subprocess.run(
            [str(self.program), *arguments], input=data, capture_output=True, cwd="/", env=environment
        )

    def test_installed(self):
        self.assertEqual((self.done.stderr, self.done.returncode), (b"", 0))
        self.assertIsNotNone(self.program)
        self.assertTrue((self.program.parent / ".." / "share" / "man" / "man1" / "kutimuq.1").is_file())

    def test_command(self):
        done = self.run_command("--version")
        self.assertEqual((done.stdout, done.returncode), (f"kutimuq {kutimuq.__version__}\n".encode(), 0))
        done = self.run_command("summary", "--quiet", data=BLANK)
        self.assertEqual((done.stdout, done.stderr, done.returncode), (BLANK_SUMMARY, b"", 0))

    def test_report(self):
        box = self.prefix / "box"
        box.mkdir()
        (box / "a.pc1").write_bytes(BLANK)
        done = self.run_command("check", box, "--report", self.prefix / "page.html")
        self.assertEqual((done.stderr, done.returncode), (b"", 0))
        self.assertIn("1 accepted, 0 refused", (self.prefix / "page.html").read_text())


class Starting(unittest.TestCase):
    def test_little_is_imported(self):
        program = "import sys; from kutimuq.command import main; main(['summary', '-q']); print(*sys.modules)"
        done = subprocess.run([sys.executable, "-S", "-c", program], input=BLANK, capture_output=True, cwd=PYTHON)
        modules = done.stdout[len(BLANK_SUMMARY):].decode().split()
        self.assertIn("kutimuq.index", modules)
        self.assertEqual(NOT_AT_START.intersection(modules), set())


class Names(unittest.TestCase):
    def test_every_public_name(self):
        for name in kutimuq.__all__:
            self.assertTrue(callable(getattr(kutimuq, name)), name)
            self.assertTrue(getattr(kutimuq, name).__doc__, name)
        with self.assertRaises(AttributeError):
            kutimuq.paint

    def test_type_checkers_see_the_same_names(self):
        lines = (PYTHON / "kutimuq" / "__init__.pyi").read_text().splitlines()
        names = [line.split(" as ")[1] for line in lines if " as " in line]
        self.assertEqual(sorted(names), kutimuq.__all__)

    def test_version(self):
        page = (PYTHON / "man" / "kutimuq.1").read_text()
        self.assertIn(f'"kutimuq {kutimuq.__version__}"', page)
        macro = "#define KUTIMUQ_VERSION "
        if not HEADER.is_file() or macro not in HEADER.read_text():
            self.skipTest("a header with a version is needed")
        self.assertIn(f'{macro}"{kutimuq.__version__}"', HEADER.read_text())

    def test_the_man_page_names_every_command_and_option(self):
        from kutimuq.command import COMMANDS

        page = (PYTHON / "man" / "kutimuq.1").read_text().replace("\\", "")
        for name in COMMANDS:
            self.assertRegex(page, rf"\n\.(B|BI|BR) ([a-z\", ]* )?\"?{name}\b")
        options = (
            *"json csv report legend jobs resume kind quiet output folder form palette like machine".split(),
            *"party register name last column line".split(),
        )
        for option in options:
            self.assertIn(f"--{option}", page)
