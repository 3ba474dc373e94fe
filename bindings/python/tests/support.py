"""Shared by the tests: example files, document 01's screen layout in plain Python, commands."""

import os
import random
import signal
import subprocess
import sys
import tempfile
import traceback
import unittest
from functools import lru_cache
from pathlib import Path
from typing import NamedTuple

import kutimuq
from kutimuq.command import main

PYTHON = Path(__file__).resolve().parents[1]
REPOSITORY = PYTHON.parents[1]
SAMPLES = REPOSITORY / "samples"

BLANK = b"\x80\x00" + bytes(32) + b"\xd9\x00" * 800 + bytes(32)
BLANK_SUMMARY = (
    b"resolution 0\nrecords 800\nbody 1600\ntail 1\n"
    b"tally 64000 0 0 0 0 0 0 0 0 0 0 0 0 0 0 0\n"
)

CROSSING = b"\x7f"  # a literal of 128 bytes, which no plane row holds

PROGRAM = (sys.executable, "-S", "-m", "kutimuq")  # -S: the standard library alone, and quick to start

SHAPES = ((320, 200, 4), (640, 200, 2), (640, 400, 1))
PALETTE = tuple(0x1357 * (n + 1) & 0xFFFF for n in range(16))
TAIL = kutimuq.Tail((1, 2, 3, 4), (5, 6, 7, 65535), (0, 1, 2, 3), (128, 127, 1, 0))


def blocks(resolution, seed=1):
    """Registers in random blocks, as lists; they pack well."""
    width, height, planes = SHAPES[resolution]
    source = random.Random(seed)
    cells = [[source.randrange(1 << planes) for _ in range(16)] for _ in range(10)]
    return [
        [cells[y * 10 // height][x * 16 // width] for x in range(width)] for y in range(height)
    ]


@lru_cache(maxsize=None)
def noise(seed=1):
    """A screen of random bytes; it does not pack below 32,000 bytes."""
    return random.Random(seed).randbytes(32_000)


def tight_screen(four_equal):
    """800 plane rows of three equal bytes and 37 more, the first rows with four and 36."""
    no_two_equal = bytes([1, 2] * 20)
    rows = [(bytes([9]) * (4 if row < four_equal else 3) + no_two_equal)[:40] for row in range(800)]
    # Plane rows to screen: 20 groups a scan line, one word a plane.
    lines = [rows[4 * y : 4 * y + 4] for y in range(200)]
    return b"".join(
        plane[2 * group : 2 * group + 2] for line in lines for group in range(20) for plane in line
    )


def broken(plane_row, good_bytes, fault=CROSSING, resolution=0):
    """A packed file of rows of zeros; this plane row has so many bytes, one a record, and then the fault."""
    row = bytes((257 - SHAPES[resolution][0] // 8, 0))
    return bytes((0x80, resolution)) + bytes(32) + row * plane_row + b"\0\7" * good_bytes + fault


def register_at(screen, resolution, x, y):
    """Document 01's screen layout, one pixel at a time."""
    width, _, planes = SHAPES[resolution]
    group = (y * (width // 16) + x // 16) * planes
    total = 0
    for plane in range(planes):
        start = 2 * (group + plane)
        word = int.from_bytes(screen[start : start + 2], "big")
        total += (word >> (15 - x % 16) & 1) << plane
    return total


@lru_cache(maxsize=None)
def expected_registers(screen, resolution):
    width, height, _ = SHAPES[resolution]
    return [
        bytes(register_at(screen, resolution, x, y) for x in range(width)) for y in range(height)
    ]


class Case(unittest.TestCase):
    def assertRefused(self, number, place, function, *arguments):
        with self.assertRaises(kutimuq.Refused) as caught:
            function(*arguments)
        self.assertEqual((caught.exception.number, caught.exception.place), (number, place))
        # How far the rows are good is given with 6 and 7; every other refusal has 0 there.
        if number not in (6, 7):
            self.assertEqual((caught.exception.plane_row, caught.exception.good_bytes), (0, 0))
        return caught.exception


class Done(NamedTuple):
    """A finished command."""

    stdout: bytes
    stderr: bytes
    returncode: int


def command(*arguments, data=b""):
    """Runs the command line in a process of its own: a fork, which is quicker than a new Python."""
    with tempfile.TemporaryFile() as source, tempfile.TemporaryFile() as out, tempfile.TemporaryFile() as error:
        source.write(data)
        source.seek(0)
        sys.stdout.flush()
        sys.stderr.flush()
        child = os.fork()
        if child == 0:
            run_child([source, out, error], list(map(str, arguments)))
        status = os.waitstatus_to_exitcode(os.waitpid(child, 0)[1])
        out.seek(0)
        error.seek(0)
        return Done(out.read(), error.read(), status)


def run_child(streams, arguments):
    """What a new Python would do, in a forked process."""
    status = 1
    try:
        for number, stream in enumerate(streams):
            os.dup2(stream.fileno(), number)
        sys.stdout, sys.stderr = open(1, "w", closefd=False), open(2, "w", closefd=False)
        try:
            status = main(arguments)
        except SystemExit as end:
            status = end.code
        except BaseException:
            traceback.print_exc()
        sys.stdout.flush()
        sys.stderr.flush()
    finally:
        os._exit(status)


def heed_interrupts():
    """In a new process: interrupts end it, also where the tests run in the background, which ignores them."""
    signal.signal(signal.SIGINT, signal.SIG_DFL)


def process(*arguments, data=b"", package=PYTHON, **environment):
    """Runs `python3 -m kutimuq` of a package and gives the finished process."""
    return subprocess.run(
        [*PROGRAM, *map(str, arguments)],
        input=data,
        capture_output=True,
        cwd=package,
        env={**os.environ, **environment},
    )
