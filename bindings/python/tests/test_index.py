"""Colours, tallies, pond readings, legends and lists of ponds."""

import tempfile
from pathlib import Path

import kutimuq
from kutimuq import Machine
from kutimuq.index import colours, levels
from kutimuq.legend import BadText, Entry, Legend, read_legend, read_questions

from .support import SHAPES, Case, expected_registers, noise

RECTANGLES = ((0, 0, 320, 200), (3, 5, 17, 9), (319, 199, 1, 1), (320, 0, 0, 5), (0, 200, 9, 0))
OUTSIDE = (
    (1, 0, 320, 1),
    (0, 201, 0, 0),
    (-1, 0, 1, 1),
    (0, 0, 1, 1 << 64),
    ((1 << 64) - 1, 0, 2, 1),
)
LEGEND = [(register % 3, 10 * (register % 11)) for register in range(16)]


def pixels(screen, rectangle):
    left, top, columns, lines = rectangle
    rows = expected_registers(screen, 0)[top : top + lines]
    return b"".join(row[left : left + columns] for row in rows)


class Tallies(Case):
    def test_whole_screens(self):
        for resolution in (0, 1, 2):
            screen = noise(resolution)
            all_pixels = b"".join(expected_registers(screen, resolution))
            expected = tuple(all_pixels.count(register) for register in range(16))
            self.assertEqual(kutimuq.tally(screen, resolution), expected)

    def test_rectangles(self):
        for rectangle in RECTANGLES:
            inside = pixels(noise(), rectangle)
            expected = tuple(inside.count(register) for register in range(16))
            self.assertEqual(kutimuq.tally(noise(), 0, rectangle), expected)
        named = kutimuq.Rectangle(left=3, top=5, columns=17, lines=9)
        self.assertEqual(kutimuq.tally(noise(), 0, named), kutimuq.tally(noise(), 0, (3, 5, 17, 9)))

    def test_refusals(self):
        for rectangle in OUTSIDE:
            self.assertRefused(10, 0, kutimuq.tally, bytes(32_000), 0, rectangle)
            self.assertRefused(5, 0, kutimuq.tally, bytes(32_000), 3, rectangle)
            self.assertRefused(1, 0, kutimuq.tally, bytes(31_999), 3, rectangle)
        self.assertRefused(5, 0, kutimuq.tally, bytes(32_000), 3)
        self.assertRefused(5, 0, kutimuq.tally, bytes(32_000), 65_536)

    def test_each_resolution_has_its_own_edges(self):
        for resolution, (width, height, _) in enumerate(SHAPES):
            for beyond in ((0, 0, width + 1, 1), (0, 0, 1, height + 1)):
                self.assertRefused(10, 0, kutimuq.tally, bytes(32_000), resolution, beyond)


class Ponds(Case):
    def test_readings(self):
        for rectangle in RECTANGLES:
            inside = pixels(noise(), rectangle)
            for class_ in (0, 1, 2, 3, 255):
                for floor in (0, 50, 100):
                    entries = [LEGEND[register] for register in inside]
                    sure = sum(c == class_ and s >= floor for c, s in entries)
                    unsure = sum(c == class_ and s < floor for c, s in entries)
                    reading = kutimuq.pond(noise(), 0, rectangle, class_, floor, LEGEND)
                    self.assertEqual(reading, (sure, unsure, len(inside) - sure - unsure))

    def test_names(self):
        reading = kutimuq.pond(bytes(32_000), 0, (0, 0, 10, 10), 0, 1, LEGEND)
        self.assertEqual((reading.sure, reading.unsure, reading.other), (0, 100, 0))

    def test_refusals(self):
        area = (0, 0, 1, 1)
        for screen, resolution, number in (
            (bytes(32_000), 0, 10), (bytes(32_000), 3, 5), (bytes(31_999), 3, 1),
        ):
            for rectangle in OUTSIDE:
                self.assertRefused(
                    number, 0, kutimuq.pond, screen, resolution, rectangle, 1, 1, LEGEND
                )
            for class_, floor, entry in (
                (1, 101, (0, 0)), (1, 256, (0, 0)), (1, -1, (0, 0)), (1, 1, (0, 101)),
                (1, 1, (0, 256)), (1, 1, (256, 0)), (1, 1, (-1, 0)), (256, 1, (0, 0)),
                (-1, 1, (0, 0)),
            ):
                legend = LEGEND[:15] + [entry]
                self.assertRefused(
                    number, 0, kutimuq.pond, screen, resolution, area, class_, floor, legend
                )

    def test_legends_that_are_none(self):
        for legend in (LEGEND[:15], LEGEND + LEGEND[:1]):
            with self.assertRaises(ValueError):
                kutimuq.pond(bytes(32_000), 0, (0, 0, 1, 1), 0, 0, legend)
        for legend in (None, 0, True, object(), bytes(16), "0" * 16, [None] * 16, dict.fromkeys(range(16))):
            with self.assertRaises(TypeError):
                kutimuq.pond(bytes(32_000), 0, None, 0, 0, legend)


LEVELS = (0, 36, 72, 109, 145, 182, 218, 255)
# What an STE shows of the nibbles 0 to 15: bit 3 is the level's lowest.
STE_NIBBLES = (0, 34, 68, 102, 136, 170, 204, 238, 17, 51, 85, 119, 153, 187, 221, 255)
MACHINES = ((1, 2), ("st", "ste"), ("ST", "STE"), (Machine.ST, Machine.STE))
NO_MACHINES = (0, 3, 255, 256, 257, 258, -1, 1 << 64)


class Colours(Case):
    def test_examples(self):
        palette = [0x0735] + [0] * 15
        self.assertEqual(kutimuq.colour(0, palette, 0), (255, 109, 182))
        self.assertEqual(kutimuq.colour(0, palette, 1), (0, 0, 0))

    def test_levels_and_ignored_bits(self):
        for level, shown in enumerate(LEVELS):
            for resolution in (0, 1):
                palette = [0xF888 | level << 8 | level << 4 | level] * 16
                self.assertEqual(kutimuq.colour(resolution, palette, 3), (shown,) * 3)

    def test_both_machines(self):
        for word, on_st, on_ste in (
            (0x0735, (255, 109, 182), (238, 102, 170)),
            (0x0888, (0, 0, 0), (17, 17, 17)),
            (0x0777, (255, 255, 255), (238, 238, 238)),
            (0x0FFF, (255, 255, 255), (255, 255, 255)),
            (0xF94C, (36, 145, 145), (51, 136, 153)),
            (0xF000, (0, 0, 0), (0, 0, 0)),
        ):
            palette = [0] * 3 + [word] + [0] * 12
            for resolution in (0, 1):
                self.assertEqual(kutimuq.colour(resolution, palette, 3), on_st)
                for st, ste in MACHINES:
                    self.assertEqual(kutimuq.colour(resolution, palette, 3, st), on_st)
                    self.assertEqual(kutimuq.colour(resolution, palette, 3, machine=ste), on_ste)

    def test_nibbles_of_an_ste(self):
        for nibble, shown in enumerate(STE_NIBBLES):
            for part in range(3):
                expected = tuple(shown if each == part else 0 for each in range(3))
                palette = [0xF000 | nibble << (8, 4, 0)[part]] * 16
                self.assertEqual(kutimuq.colour(0, palette, 15, "ste"), expected)

    def test_as_many_colours_as_a_machine_has(self):
        palettes = [range(first, first + 16) for first in range(0, 4096, 16)]
        for machine, count in (("st", 512), ("ste", 4096)):
            self.assertEqual(len({shown for palette in palettes for shown in colours(0, palette, machine)}), count)

    def test_colours_of_a_picture(self):
        words = range(0x0880, 0x0890)
        for resolution, (_, _, planes) in enumerate(SHAPES):
            picture = kutimuq.Picture(resolution, tuple(words))
            for machine in Machine:
                expected = [kutimuq.colour(resolution, words, register, machine) for register in range(1 << planes)]
                self.assertEqual(picture.colours(machine), expected)
                self.assertEqual(colours(resolution, words, machine), expected)
            self.assertEqual(picture.colours(), picture.colours("st"))
            self.assertEqual(colours(resolution, words), picture.colours())

    def test_high_resolution(self):
        for word in (0, 1, 0x0777, 0x0888, 0xFFFF):
            for machine in Machine:
                self.assertEqual(kutimuq.colour(2, [word] * 16, 0, machine), (255, 255, 255))
                self.assertEqual(kutimuq.colour(2, [word] * 16, 1, machine), (0, 0, 0))

    def test_refusals(self):
        palette = [0] * 16
        for resolution, (_, _, planes) in enumerate(SHAPES):
            for register in (1 << planes, 255, 256, -1):
                for machine in Machine:
                    self.assertRefused(10, 0, kutimuq.colour, resolution, palette, register, machine)
            for machine in NO_MACHINES:
                self.assertRefused(10, 0, kutimuq.colour, resolution, palette, 0, machine)
                self.assertRefused(10, 0, colours, resolution, palette, machine)
        for resolution in (3, -1, 65_536):
            for machine in (*Machine, *NO_MACHINES):
                self.assertRefused(5, 0, kutimuq.colour, resolution, palette, 99, machine)
                self.assertRefused(5, 0, colours, resolution, palette, machine)
        self.assertRaises(ValueError, kutimuq.colour, 0, [0] * 15, 0)
        self.assertRaisesRegex(ValueError, "'tt' is none of st, ste", kutimuq.colour, 0, palette, 0, "tt")
        self.assertRaises(TypeError, kutimuq.colour, 0, palette, 0, None)

    def test_levels(self):
        self.assertEqual([row[0] for row in levels()], list(range(8)))
        self.assertEqual(tuple(row[2] for row in levels()), LEVELS)
        self.assertEqual(levels()[5][1], (0x500, 0x050, 0x005))
        self.assertEqual(levels("st"), levels())

    def test_levels_of_an_ste(self):
        rows = levels("ste")
        self.assertEqual([row[0] for row in rows], list(range(16)))
        self.assertEqual([row[2] for row in rows], sorted(STE_NIBBLES))
        self.assertEqual([row[1] for row in rows[:3]], [(0, 0, 0), (0x800, 0x080, 0x008), (0x100, 0x010, 0x001)])
        self.assertEqual([STE_NIBBLES[blue] for _, (_, _, blue), _ in rows], sorted(STE_NIBBLES))
        self.assertRefused(10, 0, levels, 3)


class TextFiles(Case):
    def setUp(self):
        folder = tempfile.TemporaryDirectory()
        self.addCleanup(folder.cleanup)
        self.path = Path(folder.name) / "file"

    def assertBad(self, function, content, line, *arguments):
        self.path.write_bytes(content if isinstance(content, bytes) else content.encode())
        with self.assertRaisesRegex(BadText, f"file, line {line}: "):
            function(self.path, *arguments)


class Legends(TextFiles):
    def test_numbers_alone(self):
        self.path.write_text("7 50\n" * 16)
        self.assertEqual(read_legend(self.path), [Entry(7, 50, "us", "")] * 16)

    def test_comments_names_and_owners(self):
        self.path.write_text(
            "\ufeff# a legend\n\n 0 0 free # nobody's\n2 95 us magnesium brine\n"
            "2\t60 # mixed\n3 10 them Pfütze nº 1\r\n" + "0 0 free\n" * 12,
            encoding="utf-8",
        )
        legend = read_legend(self.path)
        self.assertEqual(legend[:4], [
            (0, 0, "free", ""), (2, 95, "us", "magnesium brine"), (2, 60, "us", "magnesium brine"),
            (3, 10, "them", "Pfütze nº 1"),
        ])
        # A free entry counts as other, also for class 0 and floor 0.
        self.assertEqual(kutimuq.pond(bytes(32_000), 0, None, 0, 0, legend), (0, 0, 64_000))

    def test_errors_say_the_line(self):
        good = "1 1\n"
        for wrong in ("1", "x 1", "256 1", "-1 1", "1 101", "1 1.5", "1 1 you", "¹ 1", "1 " + "9" * 5000):
            self.assertBad(read_legend, good * 2 + wrong + "\n" + good * 13, 3)
        for wrong in ("1 1 free", "1 0 free", "0 1 free", "0 100 free name"):
            self.assertBad(read_legend, good * 2 + wrong + "\n" + good * 13, 3)
        self.assertBad(read_legend, good * 15, 15)
        self.assertBad(read_legend, "", 1)
        self.assertBad(read_legend, "\ufeff", 1)
        self.assertBad(read_legend, good * 17, 17)
        self.assertBad(read_legend, "# c\n1 1 us a\n1 1 us b\n" + good * 14, 3)
        self.assertBad(read_legend, b"1 1\n\xff\n", 2)

    def test_an_endless_file(self):
        with self.assertRaisesRegex(BadText, "/dev/zero: longer than"):
            read_legend("/dev/zero")


class Questions(TextFiles):
    LEGEND = Legend([Entry(2, 90, "us", "brine, magnesium")] * 15 + [Entry(3, 90, "them", "gypsum")])

    def test_a_list(self):
        self.path.write_text(
            'floor,name,rectangle,class\n80,"north, old","160,0,80,50",2\n# not yet\n\n0,all,,"brine, magnesium"\n'
            "100,spaces,1 2 3 4,255\n"
        )
        self.assertEqual(read_questions(self.path, self.LEGEND), [
            ("north, old", (160, 0, 80, 50), 2, 80), ("all", None, 2, 0), ("spaces", (1, 2, 3, 4), 255, 100),
        ])

    def test_names_are_the_partys(self):
        self.path.write_text("\ufeffname,rectangle,class,floor\na,,gypsum,5\n", encoding="utf-8")
        self.assertEqual(read_questions(self.path, self.LEGEND, "them"), [("a", None, 3, 5)])
        self.assertBad(read_questions, self.path.read_bytes(), 2, self.LEGEND, "us")
        with self.assertRaisesRegex(BadText, "or the name of a class of us is needed, not 'gypsum'"):
            read_questions(self.path, self.LEGEND)

    def test_errors_say_the_line(self):
        head = "name,rectangle,class,floor\n"
        for wrong in ("a,,2", 'a,"1,2,3",2,5', "a,,brine,5", "a,,256,5", "a,,2,101", "a,,2,", 'a,"1,2,3,-4",2,5'):
            self.assertBad(read_questions, head + "a,,2,5\n" + wrong + "\n", 3, self.LEGEND)
        self.assertBad(read_questions, "name,class\n", 1, self.LEGEND)
        self.assertBad(read_questions, "", 1, self.LEGEND)
        self.assertBad(read_questions, head + 'a,"x"y,2,5\n', 2, self.LEGEND)
