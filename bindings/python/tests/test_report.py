"""The report page, as text and in a browser."""

import json
import re
import shutil
import subprocess
import tempfile
import unittest
from base64 import b64decode
from html.parser import HTMLParser
from pathlib import Path

import kutimuq
from kutimuq import Form, Machine, box, images, report

from .support import BLANK, PALETTE, SAMPLES, TAIL, blocks, broken, command

# Opens a picture, points at a pixel of it and marks the page as ready.
POINT = """<script>
open(%d).then(() => {
  const area = part("screen").getBoundingClientRect();
  const at = {clientX: area.left + 1 + (%d + .5) * (area.width - 2) / data.pictures[%d].width,
              clientY: area.top + 1 + (%d + .5) * (area.height - 2) / data.pictures[%d].height};
  part("screen").dispatchEvent(new MouseEvent("mousemove", at));
});
</script></body>"""


class Tags(HTMLParser):
    """The tags of a page, in order, with their attributes."""

    def __init__(self, page):
        super().__init__()
        self.found = []
        self.feed(page)

    def handle_starttag(self, tag, attributes):
        self.found.append((tag, dict(attributes)))


class Page(unittest.TestCase):
    def setUp(self):
        folder = tempfile.TemporaryDirectory()
        self.addCleanup(folder.cleanup)
        self.out = Path(folder.name)
        self.folder = self.out / "box <i>&\"'"
        self.folder.mkdir()
        self.path = self.out / "page.html"
        shutil.copy(SAMPLES / "ponds.pc1", self.folder / "A.PC1")
        self.picture = kutimuq.from_registers(blocks(1), PALETTE, TAIL)
        self.put("B.PI2", kutimuq.write(self.picture, self.picture.screen, Form.ELITE))
        self.put("C.PC2", kutimuq.write(self.picture, self.picture.screen, Form.PACKED))
        self.put("D<script>alert(1)<\\script>.PC1", BLANK[:-1])
        self.put("@@DATA@@.PC1", BLANK[:40])

    def put(self, name, data):
        (self.folder / name).write_bytes(data)

    def page(self, *arguments):
        done = command("check", self.folder, "--report", self.path, *arguments)
        self.assertEqual((done.stderr, done.returncode), (b"", 1))
        return self.path.read_text(encoding="utf-8")

    def test_order(self):
        page = self.page()
        places = [page.index(text) for text in (
            "3 accepted, 2 refused; 1 of the accepted files repeat a picture", "</h2>", "<td>8</td><td>1634</td>",
            ">Duplicates</h2>", "B.PI2: ", ">Pictures</h2>", "<img ",
        )]
        self.assertEqual(places, sorted(places))
        self.assertIn("<td>bytes after the body not as the format has them</td>", page)

    def test_self_contained(self):
        page = self.page()
        tags = Tags(page).found
        self.assertEqual([tag for tag, _ in tags].count("img"), 2)
        for tag, attributes in tags:
            self.assertTrue(attributes.get("href", "#").startswith("#"), (tag, attributes))
            self.assertTrue(attributes.get("src", "data:").startswith("data:"), (tag, attributes))
        self.assertNotRegex(page, "https?://")

    def test_names_are_text(self):
        legend = self.out / "legend"
        legend.write_text("1 1 us </script><i>\n" + "2 2\n" * 15)
        tags = [tag for tag, _ in Tags(self.page("--legend", legend)).found]
        self.assertEqual((tags.count("script"), tags.count("i")), (2, 0))
        self.assertIn("D&lt;script&gt;alert(1)", self.page())
        self.assertIn("@@DATA@@.PC1</td>", self.page())

    def test_a_file_that_changed_since(self):
        judged = box.judge(str(self.folder / "A.PC1"))
        arguments = (judged["name"], judged["kind"], judged["sha256"], Machine.ST)
        self.assertTrue(report.image_of(*arguments))
        self.put("A.PC1", BLANK)
        self.assertEqual(report.image_of(*arguments), "")
        (self.folder / "A.PC1").unlink()
        self.assertEqual(report.image_of(*arguments), "")

    def test_colours_of_a_machine(self):
        for options, machine in (([], "ST"), (["--machine", "st"], "ST"), (["--machine", "ste"], "STE")):
            page = self.page(*options)
            self.assertIn(f"\n<p>Colours as on an {machine}.", page)
            shown = self.picture.colours(machine)
            self.assertEqual(self.data(page)["pictures"][1]["colours"], list(map(list, shown)))
            image = re.findall('src="data:image/png;base64,([^"]*)"', page)[1]
            self.assertEqual(images.read_image(b64decode(image)).colours, shown)

    def test_a_picture_that_may_be_an_stes(self):
        note = "STE bits: palette words with bit 3, 7 or 11 set, as on an STE.</p>"
        page = self.page()
        self.assertIn(note, page)
        captions = re.findall("<figcaption>(.*?)</figcaption>", page)
        self.assertEqual(captions, ["<b>A.PC1</b> DEGAS, low", "<b>B.PI2</b> DEGAS, medium and 1 more, STE bits"])
        self.assertNotIn("STE bits", self.page("--machine", "ste"))
        for name in ("B.PI2", "C.PC2"):
            (self.folder / name).unlink()
        self.assertNotIn("STE", self.page())

    def test_another_machine_for_a_run_taken_up(self):
        records = self.out / "records"
        self.page("--json", records)
        judged = records.read_bytes()
        # A mark in the journal shows that a record is taken from there.
        (self.out / "records.part").write_bytes(judged.replace(b'"records": 3850', b'"records": 3851'))
        page = self.page("--json", records, "--resume", "--machine", "ste")
        self.assertIn("<p>Colours as on an STE.</p>", page)
        self.assertEqual(self.data(page)["pictures"][1]["colours"], list(map(list, self.picture.colours("ste"))))
        self.assertEqual(records.read_bytes(), judged.replace(b'"records": 3850', b'"records": 3851'))

    def data(self, page):
        """What the page's program shows."""
        return json.loads(re.search('<script type="application/json" id="data">(.*?)</script>', page)[1])

    def test_how_far_maps_are_good(self):
        for resolution, plane_row, good_bytes, line, plane, pixels in (
            (0, 0, 0, 0, 0, "0 of 64000 (0.0 %)"),
            (0, 26, 11, 6, 2, "1920 of 64000 (3.0 %)"),
            (0, 27, 11, 6, 3, "2008 of 64000 (3.1 %)"),
            (1, 26, 11, 13, 0, "8320 of 128000 (6.5 %)"),
            (1, 399, 79, 199, 1, "127992 of 128000 (99.9 %)"),
            (2, 26, 11, 26, 0, "16728 of 256000 (6.5 %)"),
        ):
            self.put("@@DATA@@.PC1", broken(plane_row, good_bytes, resolution=resolution))
            rows = f"plane row {plane_row}, {good_bytes} bytes good: scan line {line}, plane {plane}"
            page = self.page()
            self.assertIn(f"row&#x27;s end</td><td>{rows}</td><td>{pixels}</td></tr>", page)
            self.assertIn("bytes after the body not as the format has them</td><td></td><td></td></tr>", page)
        self.assertIn("<th>meaning</th><th>good rows</th><th>good pixels</th></tr>", page)

    def test_no_map_that_broke_in_a_row(self):
        self.put("@@DATA@@.PC1", BLANK + b"\0")
        page = self.page()
        self.assertIn("<th>meaning</th></tr>", page)
        self.assertNotIn("good", page)

    @unittest.skipUnless(shutil.which("chromium"), "chromium is not installed")
    def test_in_a_browser(self):
        page = self.page("--legend", SAMPLES / "ponds.legend")
        shown = self.shown(page, 0, 200, 20)
        self.assertEqual(self.text(shown, "pointer"), (
            "x 200, y 20: register 2, class 2 magnesium brine, confidence 95 %, colour  255 109 182"
        ))
        counts = re.findall(r"<tr[^>]*><td>(\d+)</td><td>(\d+)</td>", shown)
        tally = kutimuq.open(self.folder / "A.PC1").tally()
        self.assertEqual(counts, [(str(register), str(count)) for register, count in enumerate(tally)])
        self.assertRegex(shown, r'<tr class="under"><td>2</td>')

    def test_owners(self):
        legend = self.shared_legend()
        entries = self.data(self.page("--legend", legend))["legend"]
        self.assertEqual(entries[1:4], [
            {"class": 1, "confidence": 90, "owner": "us", "name": "fresh water"},
            {"class": 2, "confidence": 80, "owner": "them", "name": "gypsum"},
            {"class": 0, "confidence": 0, "owner": "free", "name": ""},
        ])

    @unittest.skipUnless(shutil.which("chromium"), "chromium is not installed")
    def test_owners_in_a_browser(self):
        page = self.page("--legend", self.shared_legend())
        for x, y, told in (
            (120, 20, "register 1, class 1 fresh water, confidence 90 %"),
            (200, 20, "register 2, class 2 (them) gypsum, confidence 80 %"),
            (280, 20, "register 3, free"),
        ):
            shown = self.text(self.shown(page, 0, x, y), "pointer")
            self.assertTrue(shown.startswith(f"x {x}, y {y}: {told}, colour "), shown)

    def shared_legend(self):
        """The sample's legend, with register 2 theirs and register 3 free."""
        legend = self.out / "shared.legend"
        lines = (SAMPLES / "ponds.legend").read_text().splitlines()
        lines[4:6] = ["2 80 them gypsum", "0 0 free"]
        legend.write_text("\n".join(lines))
        return legend

    @unittest.skipUnless(shutil.which("chromium"), "chromium is not installed")
    def test_in_a_browser_without_a_legend(self):
        register = blocks(1)[150][555]
        colour = " ".join(map(str, kutimuq.colour(1, PALETTE, register)))
        shown = self.shown(self.page(), 1, 555, 150)
        self.assertEqual(self.text(shown, "pointer"), f"x 555, y 150: register {register}, no legend, colour  {colour}")

    @unittest.skipUnless(shutil.which("chromium"), "chromium is not installed")
    def test_a_plate_in_a_browser(self):
        self.put("P.MAC", kutimuq.write_plate(bytes(51_839) + b"\1"))
        shown = self.shown(self.page(), 2, 575, 719)
        self.assertEqual(self.text(shown, "pointer"), "x 575, y 719: black, colour  0 0 0")
        self.assertRegex(shown, r"<tr[^>]*><td>0</td><td>414719</td>")
        self.assertRegex(shown, r'<tr class="under"><td>1</td><td>1</td>')

    def shown(self, page, number, x, y):
        """The page's content after a browser ran it and pointed at a pixel."""
        tried = self.out / "tried.html"
        tried.write_text(page.replace("</body>", POINT % (number, x, number, y, number)), encoding="utf-8")
        done = subprocess.run(
            ["chromium", "--headless", "--no-sandbox", "--disable-gpu", "--window-size=1600,1200",
             f"--user-data-dir={self.out / 'chromium'}", "--virtual-time-budget=5000", "--dump-dom", tried.as_uri()],
            capture_output=True, timeout=60,
        )
        return done.stdout.decode()

    def text(self, shown, name):
        """The text of the element with this name."""
        return re.sub("<[^>]*>", "", re.search(f'<div id="{name}">(.*?)</div>', shown, re.DOTALL)[1])
