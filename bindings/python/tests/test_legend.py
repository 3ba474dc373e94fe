"""The legend that two parties share: in Python, in its file, and at the command line."""

import os
import random
import tempfile
import time
from itertools import product
from pathlib import Path

import kutimuq
from kutimuq import Entry, Legend, change_legend, read_legend
from kutimuq.command import main
from kutimuq.legend import legend_file

from .support import BLANK, SAMPLES, Case, blocks, command

FREE = Entry(0, 0, "free")
NEW = b"# class confidence owner name, register 0 first\n" + b"0 0 free\n" * 16
PARTIES = {"us": 1, "them": 2}
OUT = (-1, 256, 257, 258, 1 << 64)  # no byte; the low bits of some are a party's
NOT_OWNED = "refused 19 at 0: a legend entry of another party, or a free one to release"


def setting(entries, register, class_, confidence, party):
    """Ticket 8's set, over (owner, class, confidence) entries: the number, and the entries that it leaves."""
    if party not in (1, 2) or register not in range(16) or class_ not in range(256) or confidence not in range(101):
        return 10, entries
    if entries[register][0] not in (0, party):
        return 19, entries
    return 0, [*entries[:register], (party, class_, confidence), *entries[register + 1 :]]


def releasing(entries, register, party):
    """Ticket 8's release."""
    if party not in (1, 2) or register not in range(16):
        return 10, entries
    if entries[register][0] != party:
        return 19, entries
    return 0, [*entries[:register], (0, 0, 0), *entries[register + 1 :]]


def number_of(function, *arguments):
    """The number that a call gets."""
    try:
        function(*arguments)
    except kutimuq.Refused as refusal:
        return refusal.number
    return 0


def numbers_in(legend):
    """A legend's entries as (owner, class, confidence)."""
    return [({"free": 0, **PARTIES}[owner], class_, confidence) for class_, confidence, owner, _ in legend]


def random_calls(seed, count=120):
    """Calls by both parties, some out of range, on few registers, so that they meet."""
    source = random.Random(seed)
    for _ in range(count):
        party, register = source.choice((0, 1, 1, 1, 2, 2, 2, 3)), source.choice((0, 1, 2, 15, 16))
        if source.random() < 0.4:
            yield "release", (register, party)
        else:
            yield "set", (register, source.choice((0, 1, 2, 255, 256)), source.choice((0, 50, 100, 101)), party)


def readings(legend, party):
    """A party's readings of one screen for several questions."""
    screen = kutimuq.screen_from_registers(blocks(0), 0)
    return [kutimuq.pond(screen, 0, None, class_, floor, legend, party) for class_ in (0, 1, 2) for floor in (0, 60)]


class Making(Case):
    def test_new(self):
        self.assertEqual(Legend(), [FREE] * 16)
        self.assertEqual(repr(Legend()), "<kutimuq.Legend: 16 free, 0 us, 0 them>")

    def test_from_entries(self):
        pairs = [(register, 50) for register in range(16)]
        self.assertEqual(Legend(pairs), [Entry(register, 50, "us", "") for register in range(16)])
        mixed = [Entry(1, 2), (3, 4, "them", "gypsum"), (5, 6, 1), (7, 8, 2, "halite"), (0, 0, 0), *[FREE] * 11]
        self.assertEqual(Legend(mixed)[:5], [
            (1, 2, "us", ""), (3, 4, "them", "gypsum"), (5, 6, "us", ""), (7, 8, "them", "halite"), FREE,
        ])
        self.assertEqual(Legend(Legend(mixed)), Legend(mixed))
        self.assertNotEqual(Legend(mixed), Legend(pairs))

    def test_a_sequence(self):
        legend = Legend([(register, 50) for register in range(16)])
        self.assertEqual((len(legend), legend[-1].class_), (16, 15))
        self.assertEqual(legend[2:4], [(2, 50, "us", ""), (3, 50, "us", "")])
        self.assertIn(Entry(3, 50), legend)
        with self.assertRaises(TypeError):
            legend[3] = Entry(3, 60)

    def test_what_is_no_legend(self):
        for entries in ([FREE] * 15, [FREE] * 17, [(1, 2, "you")] * 16):
            with self.assertRaises(ValueError):
                Legend(entries)
        for entries in (None, 16, [(1,)] * 16, [(1, 2.5)] * 16, [(1, 2, "us", "", "")] * 16):
            with self.assertRaises(TypeError):
                Legend(entries)

    def test_a_class_has_one_name_for_each_party(self):
        legend = Legend([(2, 90, "us", "brine"), (2, 60), (2, 50, "them", "gypsum"), (0, 0, "free", "x"), *[FREE] * 12])
        self.assertEqual([entry.name for entry in legend[:4]], ["brine", "brine", "gypsum", ""])
        self.assertEqual((legend.names(), legend.names("them"), legend.names(2)), ({2: "brine"}, *[{2: "gypsum"}] * 2))
        with self.assertRaisesRegex(ValueError, "register 1: class 2 of us has the name 'brine' already"):
            Legend([(2, 90, "us", "brine"), (2, 60, "us", "rim"), *[FREE] * 14])


class Calls(Case):
    def assertKept(self, number, legend, function, *arguments):
        """The call is refused, and the legend is as it was."""
        before = list(legend)
        self.assertRefused(number, 0, function, *arguments)
        self.assertEqual(legend, before)

    def test_set_and_release(self):
        for party, number in PARTIES.items():
            for register in range(16):
                legend = Legend()
                legend.set(register, 255, 100, number)
                expected = [FREE] * 16
                expected[register] = Entry(255, 100, party)
                self.assertEqual(legend, expected)
                legend.set(register, 0, 0, party)
                expected[register] = Entry(0, 0, party)
                self.assertEqual(legend, expected)
                legend.release(register, party=number)
                self.assertEqual(legend, [FREE] * 16)

    def test_we_are_the_party_where_none_is_named(self):
        legend = Legend()
        legend.set(3, 7, 80)
        self.assertEqual(legend[3], (7, 80, "us", ""))
        legend.release(3)
        self.assertEqual(legend[3], FREE)

    def test_numbers_out_of_range(self):
        legend = Legend([(1, 50, "us"), (2, 50, "them"), *[FREE] * 14])
        # Registers 0 and 1 are owned: 10 comes before 19.
        for party in (0, 3, 255, *OUT):
            self.assertKept(10, legend, legend.set, 0, 1, 1, party)
            self.assertKept(10, legend, legend.release, 0, party)
        for party in (1, 2):
            for register in (16, 255, *OUT):
                self.assertKept(10, legend, legend.set, register, 1, 1, party)
                self.assertKept(10, legend, legend.release, register, party)
            for class_ in (65_535, 65_536, *OUT):
                self.assertKept(10, legend, legend.set, 0, class_, 1, party)
            for confidence in (101, 255, *OUT):
                self.assertKept(10, legend, legend.set, 0, 1, confidence, party)

    def test_legends_out_of_range(self):
        wrong_entries = [(1, 50, owner) for owner in (3, 255, *OUT)] + [(1, confidence) for confidence in (101, *OUT)]
        wrong_entries += [(class_, 50, owner) for class_ in OUT for owner in (0, 1, 2)]
        for wrong in (*wrong_entries, (1, 0, "free"), (0, 1, "free")):
            for place in (0, 15):
                legend = Legend([FREE] * place + [wrong] + [FREE] * (15 - place))
                self.assertKept(10, legend, legend.set, 7, 1, 1)
                self.assertKept(10, legend, legend.release, 7)
                for party in (1, 2):
                    self.assertRefused(10, 0, kutimuq.pond, bytes(32_000), 0, None, 0, 0, legend, party)
                    self.assertRefused(5, 0, kutimuq.pond, bytes(32_000), 3, None, 0, 0, legend, party)
                    self.assertRefused(1, 0, kutimuq.pond, bytes(31_999), 3, None, 0, 0, legend, party)

    def test_entries_of_others(self):
        legend = Legend([(1, 50, "us"), (2, 50, "them"), *[FREE] * 14])
        self.assertKept(19, legend, legend.set, 0, 1, 50, "them")
        self.assertKept(19, legend, legend.set, 1, 2, 50, "us")
        for register, party in ((0, "them"), (1, "us"), (2, "us"), (2, "them")):
            self.assertKept(19, legend, legend.release, register, party)

    def test_names_of_parties(self):
        for party in ("free", "lab"):
            with self.assertRaises(ValueError):
                Legend().set(0, 1, 1, party)
            with self.assertRaises(ValueError):
                Legend().release(0, party)
            with self.assertRaises(ValueError):
                kutimuq.pond(bytes(32_000), 0, None, 0, 0, Legend(), party)

    def test_as_the_ticket_says(self):
        for seed in range(20):
            legend, expected = Legend(), [(0, 0, 0)] * 16
            for name, arguments in random_calls(seed):
                number, expected = (setting if name == "set" else releasing)(expected, *arguments)
                self.assertEqual(number_of(getattr(legend, name), *arguments), number)
                self.assertEqual(numbers_in(legend), expected)


class Isolation(Case):
    def test_a_party_sees_its_own_calls_alone(self):
        for seed, party in product(range(8), (1, 2)):
            legend, own = Legend(), Legend()
            for name, arguments in random_calls(seed):
                number = number_of(getattr(legend, name), *arguments)
                if arguments[-1] != party:
                    continue
                alone = Legend(own)
                expected = number_of(getattr(alone, name), *arguments)
                # Only a set can get another number, and only 19, for an entry that the other party owns.
                if number != expected:
                    self.assertEqual((name, number, expected), ("set", 19, 0))
                    self.assertEqual(numbers_in(legend)[arguments[0]][0], 3 - party)
                if number == 0:
                    own = alone
            self.assertEqual(readings(legend, party), readings(own, party))


class Ponds(Case):
    def test_each_party_counts_its_own(self):
        rows = blocks(0)
        pixels = [register for row in rows for register in row]
        screen = kutimuq.screen_from_registers(rows, 0)
        entries = [(register % 3, 20 * (register % 6), register % 2 + 1) for register in range(13)] + [FREE] * 3
        for party, class_, floor in product((1, 2), (0, 1, 2, 3, 255), (0, 50, 100)):
            own = {register for register, entry in enumerate(entries) if entry[2] == party and entry[0] == class_}
            sure = sum(register in own and entries[register][1] >= floor for register in pixels)
            unsure = sum(register in own for register in pixels) - sure
            expected = (sure, unsure, len(pixels) - sure - unsure)
            for legend in (entries, Legend(entries)):
                self.assertEqual(kutimuq.pond(screen, 0, None, class_, floor, legend, party), expected)

    def test_a_party_out_of_range(self):
        for party in (0, 3, 255, *OUT):
            for screen, resolution, number in ((bytes(32_000), 0, 10), (bytes(32_000), 3, 5), (bytes(31_999), 3, 1)):
                self.assertRefused(number, 0, kutimuq.pond, screen, resolution, None, 0, 0, Legend(), party)

    def test_a_class_out_of_range(self):
        for class_ in (256, 65_535, 65_536, -1):
            self.assertRefused(10, 0, kutimuq.pond, bytes(32_000), 0, None, class_, 0, Legend())


class Names(Case):
    def test_a_set_names_the_class(self):
        legend = Legend([(2, 90, "us", "brine"), (2, 60), (2, 50, "them", "gypsum"), *[FREE] * 13])
        legend.set(3, 2, 70)
        self.assertEqual(legend[3], (2, 70, "us", "brine"))
        legend.set(3, 2, 70, "us", "magnesium brine")
        self.assertEqual(legend.names("us"), {2: "magnesium brine"})
        self.assertEqual([entry.name for entry in legend[:4]], ["magnesium brine", "magnesium brine", "gypsum"] + [
            "magnesium brine"])

    def test_a_name_stays_while_the_class_is_there(self):
        legend = Legend([(2, 90, "us", "brine"), *[FREE] * 15])
        legend.set(0, 2, 10)
        self.assertEqual(legend.names(), {2: "brine"})
        legend.set(0, 3, 10)
        self.assertEqual(legend.names(), {})
        legend.set(0, 2, 10, name="salt")
        legend.release(0)
        legend.set(0, 2, 10)
        self.assertEqual(legend.names(), {})

    def test_names_that_no_file_holds(self):
        with self.assertRaisesRegex(ValueError, "longer than"):
            legend_file(Legend([(1, 1, "us", "a" * (1 << 20)), *[FREE] * 15]))
        for name in ("a#b", "a\nb", "a\n0 0", " ", " a", "a ", "\udcff", "a\u2028b"):
            legend = Legend()
            with self.assertRaises(ValueError):
                legend.set(0, 1, 1, name=name)
            self.assertEqual(legend, Legend())
            with self.assertRaises(ValueError):
                legend_file(Legend([(1, 1, "us", name), *[FREE] * 15]))

    def test_an_empty_name(self):
        legend = Legend([(2, 90, "us", "brine"), *[FREE] * 15])
        for register, class_ in ((0, 2), (1, 3)):
            with self.assertRaisesRegex(ValueError, "^a name is not empty; without one the class keeps the name"):
                legend.set(register, class_, 10, name="")
        self.assertEqual(legend[:2], [(2, 90, "us", "brine"), FREE])
        legend.set(0, 2, 10, name=None)
        self.assertEqual(legend[0], (2, 10, "us", "brine"))

    def test_names_that_no_terminal_shows(self):
        with self.assertRaises(ValueError):
            Legend().set(0, 1, 1, name="a\x1b[1m")


class InFolder(Case):
    def setUp(self):
        folder = tempfile.TemporaryDirectory()
        self.addCleanup(folder.cleanup)
        self.folder = Path(folder.name)
        self.path = self.folder / "ponds.legend"

    def put(self, text):
        self.path.write_bytes(text if isinstance(text, bytes) else text.encode())

    def lines(self):
        return self.path.read_bytes().splitlines(keepends=True)

    def assertAlone(self):
        """Nothing was left beside the legend."""
        self.assertEqual(list(self.folder.iterdir()), [self.path])


class Files(InFolder):
    def test_old_files(self):
        self.put("0 100\n0 0\n1 50 us\n" + "2 40 us brine\n" * 13)
        legend = read_legend(self.path)
        self.assertEqual(legend[1], (0, 0, "us", ""))
        self.assertEqual({entry.owner for entry in legend}, {"us"})
        self.assertEqual(kutimuq.pond(bytes(32_000), 0, None, 0, 50, legend), (64_000, 0, 0))
        self.assertEqual(kutimuq.pond(bytes(32_000), 0, None, 0, 50, legend, "them"), (0, 0, 64_000))

    def test_one_partys_names_do_not_meet_the_others(self):
        self.put("2 90 us brine\n2 50 them gypsum\n2 40 them\n" + "0 0 free reserved\n0 0 free\n" + "1 1\n" * 11)
        self.assertEqual([entry.name for entry in read_legend(self.path)[:5]], ["brine", "gypsum", "gypsum", "", ""])

    def test_save_and_read(self):
        legend = Legend([(2, 90, "us", "brine"), (2, 60), (2, 50, "them", "Gips nº 1"), *[FREE] * 13])
        legend.save(self.path)
        self.assertEqual(read_legend(self.path), legend)
        with self.assertRaises(FileExistsError):
            Legend().save(self.path)
        self.assertEqual(read_legend(self.path), legend)
        self.assertAlone()

    def test_a_legend_that_no_file_holds(self):
        for wrong in ((256, 0), (0, 101), (0, 0, 3), (1, 0, "free")):
            with self.assertRaises(ValueError):
                Legend([wrong, *[FREE] * 15]).save(self.path)
        self.assertEqual(list(self.folder.iterdir()), [])

    def test_only_the_line_that_is_changed(self):
        head = "\ufeff# head\r\n\r\n"
        entries = "  007 50\t# old\r\n0 0 free\t # ours?\n9\t9  them   gypsum\n" + "0 0 free x\n" * 12 + "1 1"
        self.put(head + entries)
        before = self.lines()
        with change_legend(self.path) as legend:
            legend.set(1, 3, 30, name="halite")
            legend.set(0, 8, 80)
            legend.set(15, 3, 31)
        expected = list(before)
        expected[2:4] = [b"  8 80 us\t# old\r\n", b"3 30 us halite\t # ours?\n"]
        expected[-1] = b"3 31 us halite"
        self.assertEqual(self.lines(), expected)
        with change_legend(self.path) as legend:
            legend.release(1)
        expected[3] = b"0 0 free\t # ours?\n"
        self.assertEqual(self.lines(), expected)
        self.assertAlone()

    def test_a_name_stays_with_its_class(self):
        self.put("2 90 us brine # the pond\n2 60 us\n2 50 them gypsum\n2 40 them\n" + "0 0 free\n" * 12)
        with change_legend(self.path) as legend:
            legend.release(0)
        self.assertEqual(self.lines()[:4], [
            b"0 0 free # the pond\n", b"2 60 us brine\n", b"2 50 them gypsum\n", b"2 40 them\n",
        ])
        self.assertEqual(read_legend(self.path).names(), {2: "brine"})
        with change_legend(self.path) as legend:
            legend.set(0, 2, 91, name="salt")
        self.assertEqual(self.lines()[:4], [
            b"2 91 us salt # the pond\n", b"2 60 us salt\n", b"2 50 them gypsum\n", b"2 40 them\n",
        ])

    def test_after_an_exception_the_file_is_as_it_was(self):
        self.put(NEW)
        for error in (kutimuq.Refused, KeyboardInterrupt):
            with self.assertRaises(error):
                with change_legend(self.path) as legend:
                    legend.set(0, 1, 1)
                    if error is KeyboardInterrupt:
                        raise error
                    legend.set(0, 1, 1, "them")
            self.assertEqual(self.path.read_bytes(), NEW)
        self.assertAlone()

    def test_a_link_and_permissions_stay(self):
        self.put(NEW)
        self.path.chmod(0o660)
        link = self.folder / "link"
        link.symlink_to(self.path)
        with change_legend(link) as legend:
            legend.set(0, 1, 1)
        self.assertTrue(link.is_symlink())
        self.assertEqual(self.path.stat().st_mode & 0o777, 0o660)
        self.assertEqual(read_legend(self.path)[0], (1, 1, "us", ""))

    def test_other_hard_links_keep_the_old_one(self):
        self.put(NEW)
        other = self.folder / "other"
        os.link(self.path, other)
        with change_legend(self.path) as legend:
            legend.set(0, 1, 1)
        self.assertEqual((read_legend(self.path)[0], other.read_bytes()), ((1, 1, "us", ""), NEW))

    def test_what_is_no_legend(self):
        self.put("0 0 free\n" * 15)
        with self.assertRaises(kutimuq.BadText):
            with change_legend(self.path):
                self.fail("not reached")
        with self.assertRaises(FileNotFoundError):
            with change_legend(self.folder / "absent"):
                self.fail("not reached")
        self.assertAlone()


class AtTheDesk(InFolder):
    def run_command(self, status, name, *arguments, data=b""):
        done = command("legend", name, *arguments, data=data)
        self.assertNotIn(b"Traceback", done.stderr)
        self.assertEqual(done.returncode, status, done.stderr)
        return done

    def change(self, status, name, party, register, *more):
        """A change of the file in its place."""
        where = ("--party", party, "--register", register)
        done = self.run_command(status, name, self.path, *where, *more, "-o", self.path)
        self.assertEqual(done.stdout, b"")
        return done.stderr.decode()

    def set(self, status, party, register, class_, confidence, *more):
        return self.change(status, "set", party, register, "--class", class_, "--confidence", confidence, *more)

    def test_new(self):
        done = self.run_command(0, "new")
        self.assertEqual((done.stdout, done.stderr), (NEW, b""))
        self.assertEqual(self.run_command(0, "new", "-o", self.path).stdout, b"")
        self.assertEqual(self.path.read_bytes(), NEW)
        self.assertEqual(self.run_command(0, "new", "-o", "/dev/stdout").stdout, NEW)

    def test_show(self):
        self.put("2 90 us magnesium brine\n2 5 them a\x1b[1m\n" + "0 0 free\n" * 13 + "0 100 us")
        shown = self.run_command(0, "show", self.path).stdout
        self.assertEqual(self.run_command(0, "show", data=self.path.read_bytes()).stdout, shown)
        lines = shown.decode().splitlines()
        self.assertEqual(len(lines), 17)
        self.assertEqual(lines[:4] + lines[-1:], [
            "register  owner  class  confidence  name",
            "       0  us         2          90  magnesium brine",
            "       1  them       2           5  a\\x1b[1m",
            "       2  free       -           -",
            "      15  us         0         100",
        ])

    def test_a_session_of_both_parties(self):
        self.run_command(0, "new", "-o", self.path)
        self.assertEqual(self.set(0, "us", 3, 7, 80, "--name", "algae"), "")
        self.assertEqual(self.set(0, "them", 4, 7, 9, "--name", "gypsum"), "")
        self.assertEqual(self.set(0, 1, 5, 7, 60), "")
        self.assertEqual(self.set(0, 2, 4, 7, 99), "")
        refused = f"kutimuq: {self.path}: {NOT_OWNED}\n"
        kept = self.path.read_bytes()
        for said in (
            self.set(1, "them", 3, 7, 80), self.set(1, "us", 4, 7, 80, "--name", "ours"),
            self.change(1, "release", "them", 3), self.change(1, "release", "us", 4),
            self.change(1, "release", "us", 0), self.change(1, "release", "them", 0),
        ):
            self.assertEqual(said, refused)
        self.assertEqual(self.path.read_bytes(), kept)
        lines = NEW.splitlines(keepends=True)
        lines[4:7] = [b"7 80 us algae\n", b"7 99 them gypsum\n", b"7 60 us algae\n"]
        self.assertEqual(self.lines(), lines)
        self.assertEqual(self.change(0, "release", "us", 3), "")
        self.assertEqual(self.change(0, "release", "us", 5), "")
        lines[4] = lines[6] = b"0 0 free\n"
        self.assertEqual(self.lines(), lines)
        self.assertEqual(self.set(0, "them", 3, 1, 1), "")
        self.assertAlone()

    def test_a_long_session(self):
        self.put("# head\n\n" + "0 0 free # shared\n" * 16 + "# end")
        expected = [(0, 0, 0)] * 16
        for name, arguments in random_calls(8, 80):
            party, register = arguments[-1], arguments[0]
            number, after = (setting if name == "set" else releasing)(expected, *arguments)
            if number == 10:
                continue
            before = self.lines()
            numbers = ("--class", arguments[1], "--confidence", arguments[2]) if name == "set" else ()
            self.change(1 if number else 0, name, party, register, *numbers)
            self.assertEqual(numbers_in(read_legend(self.path)), after)
            changed = [place for place, (old, new) in enumerate(zip(before, self.lines())) if old != new]
            self.assertLessEqual(set(changed), set() if number else {register + 2})
            expected = after
        self.assertNotEqual(expected, [(0, 0, 0)] * 16)

    def test_elsewhere(self):
        self.put(NEW)
        entry = ("--party", "us", "--register", 0, "--class", 7, "--confidence", 80)
        changed = NEW.replace(b"0 0 free", b"7 80 us", 1)
        self.assertEqual(self.run_command(0, "set", self.path, *entry).stdout, changed)
        self.assertEqual(self.run_command(0, "set", *entry, data=NEW).stdout, changed)
        self.assertEqual(self.run_command(0, "set", "-", *entry, "-o", "-", data=NEW).stdout, changed)
        self.assertEqual(self.run_command(0, "set", self.path, *entry, "-o", "/dev/stdout").stdout, changed)
        other = self.folder / "other"
        self.assertEqual(self.run_command(0, "set", self.path, *entry, "-o", other).stdout, b"")
        self.assertEqual((other.read_bytes(), self.path.read_bytes()), (changed, NEW))
        freed = self.run_command(0, "release", other, "--party", 1, "--register", 0).stdout
        self.assertEqual(freed, NEW)

    def test_no_other_file_is_replaced(self):
        self.put(NEW)
        other = self.folder / "other"
        other.write_bytes(b"theirs")
        entry = ("--party", "us", "--register", 0, "--class", 7, "--confidence", 80, "-o", other)
        for arguments in (("new", "-o", other), ("set", self.path, *entry), ("set", *entry)):
            done = self.run_command(2, *arguments, data=NEW)
            self.assertEqual((done.stdout, done.stderr.decode()), (b"", f"kutimuq: {other}: File exists\n"))
        self.assertEqual((other.read_bytes(), self.path.read_bytes()), (b"theirs", NEW))
        self.assertEqual(len(list(self.folder.iterdir())), 2)

    def test_a_link_to_the_file_is_the_file(self):
        self.put(NEW)
        link = self.folder / "link"
        link.symlink_to(self.path)
        self.run_command(0, "set", self.path, *"--party us --register 0 --class 7 --confidence 80 -o".split(), link)
        self.assertEqual((link.is_symlink(), self.lines()[1]), (True, b"7 80 us\n"))
        self.run_command(0, "release", link, *"--party us --register 0 -o".split(), self.path)
        self.assertEqual((link.is_symlink(), self.path.read_bytes()), (True, NEW))

    def test_wrong_use(self):
        self.put(NEW)
        good = {"--party": "us", "--register": 3, "--class": 7, "--confidence": 80}
        for option, value, said in (
            ("--party", "free", "option --party: 'free' is none of us, them"), ("--party", 0, "none of us, them"),
            ("--party", 3, "none of us, them"), ("--register", "x", "register: a number"),
            ("--register", 16, "option --register: register: a number from 0 to 15"),
            ("--class", 256, "option --class: class: a number from 0 to 255"),
            ("--confidence", 101, "option --confidence: confidence: a number from 0 to 100"),
            ("--name", "a#b", "option --name: a name is printable"), ("--name", "a\nb", "option --name: "),
            ("--name", "", "option --name: a name is not empty; without one the class keeps the name that it has: "),
        ):
            options = [word for pair in {**good, option: value}.items() for word in pair]
            done = self.run_command(2, "set", self.path, *options, "-o", self.path)
            self.assertEqual((done.stdout, done.stderr.count(b"\n")), (b"", 1))
            self.assertIn(said, done.stderr.decode())
        for left_out in good:
            options = [word for pair in good.items() if pair[0] != left_out for word in pair]
            self.assertIn(f"needs {left_out}".encode(), self.run_command(2, "set", self.path, *options).stderr)
        options = [word for pair in good.items() for word in pair]
        self.assertIn(b"'more' is too much", self.run_command(2, "set", self.path, "more", *options).stderr)
        self.assertIn(b"'x' is too much", self.run_command(2, "new", "x").stderr)
        self.assertEqual(self.path.read_bytes(), NEW)
        self.assertAlone()

    def test_files_that_are_no_legends(self):
        for text in ("", "0 0 free\n" * 15, "1 1 free\n" + "0 0 free\n" * 15, "1 1 you\n" * 16):
            self.put(text)
            self.assertIn(f"{self.path}, line ", self.set(2, "us", 3, 7, 80))
            self.assertIn(f"{self.path}, line ", self.change(2, "release", "us", 3))
            self.assertIn(f"{self.path}, line ".encode(), self.run_command(2, "show", self.path).stderr)
            self.assertEqual(self.path.read_text(), text)
        absent = self.folder / "absent"
        for name in ("show", "set", "release"):
            options = {"set": "--party us --register 0 --class 7 --confidence 80", "release": "--party us --register 0"}
            done = self.run_command(2, name, absent, *options.get(name, "").split())
            self.assertEqual(done.stderr.decode(), f"kutimuq: {absent}: No such file or directory\n")
        self.assertAlone()

    def child(self, party, *registers):
        """A forked process in which a party sets these entries, one after another."""
        child = os.fork()
        if child:
            return child
        status = 1
        try:
            path = str(self.path)
            for register in map(str, registers):
                numbers = ("--register", register, "--class", register, "--confidence", "50")
                status = main(["legend", "set", path, "--party", party, *numbers, "-o", path])
        finally:
            os._exit(status)

    def test_a_change_waits_for_another(self):
        self.put(NEW)
        with change_legend(self.path) as legend:
            child = self.child("them", 1)
            legend.set(0, 0, 50)
            time.sleep(0.3)
            self.assertEqual(os.waitpid(child, os.WNOHANG), (0, 0))
        self.assertEqual(os.waitpid(child, 0)[1], 0)
        self.assertEqual(numbers_in(read_legend(self.path))[:3], [(1, 0, 50), (2, 1, 50), (0, 0, 0)])
        self.assertAlone()

    def test_changes_at_the_same_time(self):
        for _ in range(5):
            self.put(NEW)
            children = [self.child("us", *range(0, 16, 2)), self.child("them", *range(1, 16, 2))]
            self.assertEqual([os.waitpid(child, 0)[1] for child in children], [0, 0])
            left = numbers_in(read_legend(self.path))
            self.assertEqual(left, [(register % 2 + 1, register, 50) for register in range(16)])
        self.assertAlone()

    def test_help(self):
        listed = command("legend", "--help")
        self.assertEqual((listed.returncode, listed.stderr), (0, b""))
        for name in ("new", "show", "set", "release"):
            self.assertIn(f"\n  legend {name} ".encode(), listed.stdout)
        self.assertNotIn(b"  summary ", listed.stdout)
        usage = b"--party PARTY --register REGISTER --class CLASS --confidence CONFIDENCE [OPTION]... [FILE]\n"
        self.assertIn(b"usage: kutimuq legend set " + usage, command("legend", "set", "--help").stdout)
        for arguments in ((), ("paint",), ("-x",)):
            done = command("legend", *arguments)
            self.assertEqual((done.stdout, done.returncode), (b"", 2))
            self.assertIn(b"one of legend new, legend show, legend set, legend release is needed", done.stderr)


class Readings(InFolder):
    LEGEND = "0 90 us ground\n0 40 them crust\n" + "0 0 free\n" * 14

    def setUp(self):
        super().setUp()
        self.put(self.LEGEND)
        self.question = ("-q", "--class", 0, "--floor", 50, "--legend", self.path)

    def pond(self, *party):
        done = command("pond", *self.question, *party, data=BLANK)
        self.assertEqual((done.returncode, done.stderr), (0, b""))
        return done.stdout

    def test_pond(self):
        ours, theirs = b"sure 64000\nunsure 0\nother 0\n", b"sure 0\nunsure 0\nother 64000\n"
        for party, expected in ((), ours), (["us"], ours), (["US"], ours), ([1], ours), (["them"], theirs), ([2], theirs):
            self.assertEqual(self.pond(*(["--party", *party] if party else [])), expected)
        for party in (0, 3, "free", "", "u s"):
            done = command("pond", *self.question, "--party", party, data=BLANK)
            self.assertEqual((done.stdout, done.returncode), (b"", 2))
            self.assertIn(b"option --party: ", done.stderr)

    def test_the_other_party_changes_nothing(self):
        before = self.pond()
        change = ("legend", "set", self.path, "--party", "them", "--class", 0, "--confidence", 100, "-o", self.path)
        for register in range(16):
            done = command(*change, "--register", register, "--name", "gypsum")
            self.assertEqual(done.returncode, 1 if register == 0 else 0)
            self.assertEqual(self.pond(), before)

    def test_ponds(self):
        (self.folder / "a.pc1").write_bytes(BLANK)
        (self.folder / "torn.pc1").write_bytes(BLANK[:-1])
        maps = [self.folder / "a.pc1", self.folder / "torn.pc1"]
        (self.folder / "list.csv").write_text("name,rectangle,class,floor\nall,,crust,50\n")
        arguments = ("ponds", "-q", "--legend", self.path, "--list", self.folder / "list.csv", *maps)
        done = command(*arguments, "--party", 2)
        rows = done.stdout.decode().splitlines()
        self.assertEqual(done.returncode, 1)
        self.assertEqual(rows[:2], [
            "map,pond,class,class_name,floor,sure,unsure,other,refused,party",
            f"{maps[0]},all,0,crust,50,0,0,64000,,them",
        ])
        self.assertTrue(rows[2].startswith(f"{maps[1]},,,,,,,,refused 8 at 1634: ") and rows[2].endswith(",them"))

    def test_a_name_of_the_other_partys_is_none(self):
        path = self.folder / "list.csv"
        for party, name in (("us", "crust"), ("them", "ground"), ("them", "256")):
            path.write_text(f"name,rectangle,class,floor\nall,,{name},50\n")
            done = command("ponds", "-q", "--legend", self.path, "--list", path, "--party", party, data=BLANK)
            needed = f"a number from 0 to 255 or the name of a class of {party} is needed, not {name!r}"
            self.assertEqual((done.stdout, done.returncode), (b"", 2))
            self.assertEqual(done.stderr.decode(), f"kutimuq: {path}, line 2: class: {needed}\n")

    def test_the_sample(self):
        arguments = ("pond", "-q", "--class", 2, "--floor", 80, "--legend", SAMPLES / "ponds.legend")
        self.assertEqual(command(*arguments, SAMPLES / "ponds.pc1").stdout, b"sure 2624\nunsure 3968\nother 57408\n")
        done = command(*arguments, "--party", "them", SAMPLES / "ponds.pc1")
        self.assertEqual(done.stdout, b"sure 0\nunsure 0\nother 64000\n")
