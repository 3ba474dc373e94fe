"""How a file's kind is found, and how a file is replaced."""

import os
import stat
import tempfile
import unittest
from pathlib import Path
from unittest import mock

import kutimuq
from kutimuq import Form, Kind
from kutimuq.files import FORM_NAMES, FORMS, KIND_NAMES, KINDS, READ_LIMIT, UNKNOWN, find_kind, put

from .support import BLANK, PALETTE, Case, noise

PICTURE = kutimuq.Picture(0, PALETTE)


class Enumerations(unittest.TestCase):
    def test_every_kind_and_form_has_its_name(self):
        for numbers, names, table in ((Kind, KIND_NAMES, KINDS), (Form, FORM_NAMES, FORMS)):
            self.assertEqual({each.name.lower(): each.value for each in numbers}, names)
            self.assertEqual(list(table), list(names.values()))


class Content(unittest.TestCase):
    def test_every_form_at_every_resolution(self):
        for resolution in (0, 1, 2):
            picture = kutimuq.Picture(resolution, PALETTE)
            for form in (Form.PLAIN, Form.ELITE, Form.NEO):
                kind = Kind.NEO if form is Form.NEO else Kind.DEGAS
                for name in ("", "a.pi1", "A.NEO", "a.txt"):
                    self.assertEqual(find_kind(kutimuq.write(picture, noise(), form), name), (kind, "content"))
        self.assertEqual(find_kind(BLANK), (Kind.DEGAS, "content"))

    def test_damaged_packed_files_keep_their_kind(self):
        for data in (BLANK[:-1], BLANK[:34], BLANK[:2], b"\x80\3" + BLANK[2:], BLANK + bytes(40_000)):
            self.assertEqual(find_kind(data, "a.neo"), (Kind.DEGAS, "content"))

    def test_a_long_file_has_the_refusal_of_its_first_bytes(self):
        for kind in KINDS:
            for start in (b"\0\0", b"\x80\0", b"\0\3", b"\1\0"):
                numbers = set()
                for length in (READ_LIMIT, READ_LIMIT + 1, 300_000):
                    with self.assertRaises(kutimuq.Refused) as caught:
                        kutimuq.read(start + bytes(length - 2), kind)
                    numbers.add((caught.exception.number, caught.exception.place))
                self.assertEqual(len(numbers), 1)


class Doubt(Case):
    def test_the_extension_decides(self):
        for extension in ("pi1", "PI2", "pi3", "PC1", "pc2", "pc3"):
            self.assertEqual(find_kind(b"torn", f"a.b.{extension}"), (Kind.DEGAS, "extension"))
        self.assertEqual(find_kind(bytes(20_000), "a.Neo"), (Kind.NEO, "extension"))

    def test_nothing_decides(self):
        for name in ("", "neo", "a.txt", "pi1", "a.pi4"):
            self.assertEqual(find_kind(b"torn", name), (UNKNOWN, "nothing"))
        self.assertRefused(2, 0, kutimuq.read, b"torn", UNKNOWN)

    def test_a_padded_degas_file_is_not_taken_for_neochrome(self):
        # Padded to blocks of 128 bytes it has NEOchrome's length and flag, and here an allowed resolution word.
        picture = kutimuq.Picture(0, (0, *PALETTE[1:]))
        padded = kutimuq.write(picture, noise(), Form.PLAIN).ljust(32_128, b"\x1a")
        self.assertEqual(kutimuq.read(padded, Kind.NEO).resolution, 0)
        self.assertEqual(find_kind(padded), (UNKNOWN, "nothing"))
        self.assertEqual(find_kind(padded, "MAP.PI1"), (Kind.DEGAS, "extension"))
        self.assertRefused(3, 0, kutimuq.read, padded, Kind.DEGAS)


class Replacing(unittest.TestCase):
    def setUp(self):
        folder = tempfile.TemporaryDirectory()
        self.addCleanup(folder.cleanup)
        self.path = Path(folder.name) / "file"
        self.path.write_bytes(b"old")

    def mode(self):
        return stat.S_IMODE(self.path.stat().st_mode)

    def test_permissions_stay(self):
        for mode in (0o600, 0o640, 0o664, 0o444):
            self.path.chmod(mode)
            put(self.path, b"new")
            self.assertEqual((self.path.read_bytes(), self.mode()), (b"new", mode))

    def test_the_group_is_kept(self):
        own = os.getegid()
        group = own + 1 if os.geteuid() == 0 else next((each for each in os.getgroups() if each != own), None)
        if group is None:
            self.skipTest("the caller is in one group only")
        os.chown(self.path, -1, group)
        self.path.chmod(0o660)
        with mock.patch("os.chown", wraps=os.chown) as chown:
            put(self.path, b"new")
        self.assertEqual([call.args[1:] for call in chown.call_args_list], [(-1, group)])
        self.assertEqual((self.path.stat().st_gid, self.mode()), (group, 0o660))

    def test_without_its_group_no_group_has_permissions(self):
        for mode, left in ((0o600, 0o600), (0o640, 0o600), (0o664, 0o604), (0o2770, 0o700), (0o444, 0o404)):
            self.path.chmod(mode)
            with mock.patch("os.chown", side_effect=PermissionError):
                put(self.path, b"new")
            self.assertEqual((self.path.read_bytes(), self.mode()), (b"new", left))

    def test_a_file_system_without_permissions(self):
        with mock.patch("os.chown", side_effect=PermissionError), mock.patch("os.chmod", side_effect=PermissionError):
            put(self.path, b"new")
        self.assertEqual(self.path.read_bytes(), b"new")

    def test_the_group_comes_before_its_permissions(self):
        calls = []
        with mock.patch("os.chown", lambda *_: calls.append("group")):
            with mock.patch("os.chmod", lambda *_: calls.append("permissions")):
                put(self.path, b"new")
                put(self.path.with_name("another"), b"new")
        self.assertEqual(calls, ["group", "permissions"])

    def test_it_is_on_the_disk_before_it_replaces_a_file_or_is_never_to_be_replaced(self):
        for name, new, move in (("file", False, "replace"), ("third", True, "link")):
            place, steps = self.path.with_name(name), []
            with mock.patch("os.fsync", lambda number: steps.append(os.fstat(number).st_size)):
                with mock.patch.object(os, move, wraps=getattr(os, move)) as moved:
                    moved.side_effect = lambda *_: steps.append(move) or mock.DEFAULT
                    put(place, b"longer", new)
            self.assertEqual((steps, place.read_bytes()), ([len(b"longer"), move], b"longer"))

    def test_a_stream_and_a_file_where_none_stood_are_not_flushed_to_disk(self):
        with mock.patch("os.fsync", side_effect=OSError):
            put("/dev/null", b"new")
            put(self.path.with_name("second"), b"new")
