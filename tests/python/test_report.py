"""The page that `lineup -r` writes: read by html.parser, and opened by a browser where chromium is there; and the picture in it."""
import html.parser
import math
import os
import pathlib
import re
import shutil
import subprocess
import sys
import tempfile
import unittest
import xml.etree.ElementTree

import numpy as np

import celestial_time as ct
import singles
from celestial_time import lineup, pictures, report

ROOT = pathlib.Path(__file__).resolve().parents[2]
EXAMPLES = ROOT / "python" / "examples"
BROWSER = shutil.which("chromium") or shutil.which("chromium-browser")
VOID = {"meta", "br", "hr", "img", "link", "input"}


def run(*words):
    environment = {**os.environ, "PYTHONPATH": str(ROOT / "python")}
    return subprocess.run([sys.executable, "-m", "celestial_time", *map(str, words)], capture_output=True, env=environment)


class Page(html.parser.HTMLParser):
    """Tables by id as rows of cells, items of lists, headings, and each tag and address; tags that do not close as they opened are told."""

    def __init__(self, text):
        super().__init__()
        self.tables, self.items, self.headings, self.paragraphs, self.links, self.open, self.wrong, self.tags = {}, [], [], [], [], [], [], set()
        self.feed(text)
        self.close()
        self.wrong += self.open

    def handle_starttag(self, tag, attributes):
        held = dict(attributes)
        self.tags.add(tag)
        self.links += [value for name, value in attributes if name in ("href", "src", "data", "action", "srcset", "style") or name.endswith(":href")]
        if tag not in VOID:
            self.open.append(tag)
        if tag == "table":
            self.table = self.tables.setdefault(held.get("id"), [])
        elif tag == "tr":
            self.table.append([])
        elif tag in ("td", "th"):
            self.table[-1].append("")
        elif tag in ("li", "h1", "h2", "p"):
            {"li": self.items, "p": self.paragraphs}.get(tag, self.headings).append("")

    def handle_startendtag(self, tag, attributes):
        self.tags.add(tag)

    def handle_endtag(self, tag):
        if not self.open or self.open.pop() != tag:
            self.wrong.append(tag)

    def handle_data(self, data):
        for tags, where in ((("td", "th"), lambda: self.table[-1]), (("li",), lambda: self.items), (("h1", "h2"), lambda: self.headings), (("p",), lambda: self.paragraphs)):
            if set(tags) & set(self.open):
                where()[-1] += data


class Report(unittest.TestCase):
    def setUp(self):
        self.rng = np.random.default_rng(36)
        self.folder = tempfile.TemporaryDirectory()
        self.at = pathlib.Path(self.folder.name)

    def tearDown(self):
        self.folder.cleanup()

    def page(self, *words):
        done = run("lineup", *words, "-r", self.at / "page.html")
        return done, Page((self.at / "page.html").read_text())

    def whole(self, page, text):
        """One page, of tags that close, without a word of a script or an address outside."""
        self.assertEqual(page.wrong, [])
        self.assertEqual(page.links, [])
        self.assertFalse(page.tags & {"script", "link", "iframe", "object", "embed", "img", "base"})
        self.assertEqual(re.findall(r"url\(|@import|https?://(?!www\.w3\.org/2000/svg)", text), [])

    def test_example(self):
        """The figures are those of the listing, which is the same with the page as without it."""
        words = [f"{scale}={EXAMPLES}/{scale}.block" for scale in lineup.RECORDERS]
        done, page = self.page(*words)
        self.assertEqual((done.returncode, done.stderr, done.stdout), (0, b"", run("lineup", *words).stdout))
        self.whole(page, (self.at / "page.html").read_text())
        for row, said in zip(page.tables["runs"][1:], done.stdout.decode().splitlines()[1:4]):
            scale, count, refused, left_out = re.fullmatch(r"(\w+) (\d+) refused (\d+) left out (\d+)", said).groups()
            self.assertEqual(row[:6], [scale, f"{EXAMPLES}/{scale}.block", count, str(int(count) - int(refused) - int(left_out)), refused, left_out])
        self.assertEqual(page.tables["runs"][1][6:], ["2016-12-31T23:59:53.500", "2017-01-01T00:00:07.460"])
        self.assertEqual(page.tables["rows"][1][:2] + page.tables["rows"][-1], ["1972-01-01", "10", "2017-01-01", "37", "of the library"])
        self.assertEqual(len(page.tables["rows"]), 29)
        self.assertIn("Stamps 180 to 183 of the recorder gps, 4, are refused by 9: part or sum of a date is not finite.", page.items)
        self.assertEqual(sum(int(count) for count in re.findall(r", (\d+), are", " ".join(page.items))) + sum(1 for one in page.items if one.startswith("Stamp ")), 13)
        self.assertEqual(page.headings[0], "825 stamps of 3 recorders, 2016-12-31T23:59:53.500 to 2017-01-01T00:00:07.460 UTC")

    def test_sentences(self):
        """A refused stamp, one that is left out, a block that is refused, a name that is no markup, and announced rows."""
        ct.write_blocks(self.at / "g<b>&", [2461000.5, np.nan, 2461002.5, 2461001.5, -31740.0], [0.0] * 5)
        (self.at / "rows").write_text(f"{singles.Y}-01 {singles.S + 1}\n")
        (self.at / "utc").write_bytes(ct.block_of([np.inf], [0.0]) + b"end")
        done, page = self.page(f"gps={self.at}/g<b>&", f"utc={self.at}/utc", f"table={self.at}/rows")
        self.assertEqual(done.returncode, 1)
        self.whole(page, (self.at / "page.html").read_text())
        self.assertEqual([row[2:6] for row in page.tables["runs"][1:]], [["5", "2", "1", "2"], ["1", "0", "1", "0"]])
        self.assertEqual(page.tables["runs"][1][1], f"{self.at}/g<b>&")
        self.assertEqual(page.items, [
            f"Stamp 1 of the recorder gps is refused by 9: {ct.reason(9, jd1=math.nan, jd2=0.0)}.", f"Stamp 2 of the recorder gps is left out by 17: {ct.reason(17)}.",
            f"Stamp 4 of the recorder gps is left out by 17: {ct.reason(17)}.", f"Stamp 0 of the recorder utc is refused by 6: {ct.reason(6, jd1=math.inf, jd2=0.0)}."])
        self.assertEqual(page.tables["rows"][-1], [f"{singles.Y}-01-01", str(singles.S + 1), "announced"])
        self.assertEqual(len([one for one in page.paragraphs if one.startswith("The run of utc ends before its file: block 1 at byte 24: refused 14")]), 1)

    def test_many(self):
        """Past a thousand stretches the rest is counted."""
        jd1 = np.full(5000, 2451545.0)
        jd1[::2] = np.nan
        gps = lineup.Recorder("gps", ct.Stamps(jd1, np.arange(5000) / 5000, np.array([5000])), None)
        page = Page(report.page_of(ct.line_up_recorders(("gps", *gps.stamps[:2])), (gps,), {}))
        self.assertEqual((len(page.items), [one for one in page.paragraphs if "stamps more" in one]), (1000, ["1500 stamps more are refused or left out, and not told here: the listing has each."]))

    def test_odd_lines(self):
        """None ordered, no stamp at all, one instant, dates without UTC, dates too far apart: a page each, whose picture is well formed."""
        for jd1 in ([], [np.nan] * 3, [2451545.0], [2451545.0] * 4, [2451545.0, 1e9], [2451545.0, 1e300], [-1e8, -1e8 + 1], [2451545.0, 2451545.0 + 1e-9], [2400000.5, 2500000.5], [1e7, 1e7 + 1], [1e7, 1e7 + 1e-7], [1e6, 1e8]):
            for scale in ("tai", "utc"):
                held = lineup.Recorder(scale, ct.Stamps(np.array(jd1), np.zeros(len(jd1)), np.array([len(jd1)])), None)
                line = lineup.line_up_files(held)
                text = report.page_of(line, (held,), {})
                self.whole(Page(text), text)
                picture = pictures.svg_of(line, (scale,))
                xml.etree.ElementTree.fromstring(picture)
                self.assertNotIn("nan", picture)
                self.assertNotIn("inf", picture)

    def test_picture(self):
        """A mark for each place, in the recorder's colour; refused ones apart from those left out; the leap second where one is, and none elsewhere."""
        for year, leaps in ((2016, 1), (2015, 0)):
            utc = ct.dtf2d("utc", year, 12, 31, 23, 59, [50.0, 52.0, 51.0, 54.0, 55.0, 59.0])
            jd1 = utc.jd1.copy()
            jd1[4] = np.nan
            late = ct.dtf2d("utc", year + 1, 1, 1, 0, 0, [0.0, 5.0])
            line = ct.line_up_recorders(("utc", jd1, utc.jd2), ("utc", late.jd1, late.jd2))
            picture = pictures.svg_of(line, ("one", "two"))
            drawn = {one.get("class"): one for one in xml.etree.ElementTree.fromstring(picture).iter() if one.get("class")}
            self.assertEqual(len(pictures.leaps_in(pictures.span_of(line))), leaps)
            self.assertEqual("leap" in drawn, bool(leaps))
            self.assertEqual([round(end - first, 6) for first, end in pictures.leaps_in(pictures.span_of(line))], [1.0] * leaps)
            marks = re.findall(r'class="([\w ]+)" fill="([^"]+)"[^>]* d="([^"]*)"', picture)
            self.assertEqual([(kind, shape.count("M")) for kind, _, shape in marks], [("ordered", 4), ("refused", 1), ("left out", 1), ("ordered", 2)])
            self.assertNotEqual(marks[0][1], marks[3][1])
            labels = [label for _, label in pictures.ticks_of(pictures.span_of(line))]
            self.assertEqual("23:59:60" in labels, bool(leaps))
            self.assertIn(f"UTC, {year}-12-31 to {year + 1}-01-01", picture)

    def test_second_that_is_not_there(self):
        """A row that takes a second off is marked by a line, and its words are other ones."""
        y = singles.Y
        rows = ct.Table([(y, 1, singles.S - 1)])
        utc = ct.dtf2d("utc", [y - 1, y], [12, 1], [31, 1], [23, 0], [59, 0], [50.0, 9.0], table=rows)
        line = ct.line_up_recorders(("utc", utc.jd1, utc.jd2), table=rows)
        ((first, last),) = pictures.leaps_in(pictures.span_of(line))
        self.assertEqual((first, round(first, 6)), (last, 9.0))
        picture = pictures.svg_of(line, ("utc",))
        self.assertIn("a second that UTC does not have is marked", picture)
        self.assertNotIn("shaded", picture)
        self.assertIn('class="leap"', picture)

    def test_not_writable(self):
        """A page that can't be written is said, with status 2 and no listing."""
        done = run("lineup", f"gps={EXAMPLES}/gps.block", "-r", self.at / "no" / "page.html")
        self.assertEqual((done.returncode, done.stdout, b"Traceback" in done.stderr), (2, b"", False))
        for words in (["-r"], ["-r", "a", "-r", "b", f"gps={EXAMPLES}/gps.block"], ["-r", "a"]):
            self.assertEqual(run("lineup", *words).returncode, 2)

    @unittest.skipUnless(BROWSER, "no chromium here: the page is not opened in a browser")
    def test_browser(self):
        """A real browser shows the figures, and the picture has a size."""
        self.page(*(f"{scale}={EXAMPLES}/{scale}.block" for scale in lineup.RECORDERS))
        words = [BROWSER, "--headless", "--no-sandbox", "--disable-gpu", "--disable-dev-shm-usage", f"--user-data-dir={self.at}/profile", "--virtual-time-budget=2000", "--dump-dom", f"file://{self.at}/page.html"]
        done = subprocess.run(words, capture_output=True, text=True, timeout=120)
        shown = Page(done.stdout)
        self.assertEqual([row[2:6] for row in shown.tables["runs"][1:]], [["375", "369", "6", "0"], ["300", "297", "3", "0"], ["150", "146", "4", "0"]])
        self.assertEqual(len(shown.items), 8)
        self.assertIn("svg", shown.tags)


if __name__ == "__main__":
    unittest.main()
