"""The worked example: its files made again, its table, and its picture where matplotlib is there."""
import importlib.util
import pathlib
import re
import subprocess
import sys
import tempfile
import unittest

import numpy as np

import celestial_time as ct

ROOT = pathlib.Path(__file__).resolve().parents[2]
PROGRAM = ROOT / "python" / "examples" / "three_recorders.py"


def run(*words):
    return subprocess.run([sys.executable, str(PROGRAM), *map(str, words)], capture_output=True, text=True)


class Example(unittest.TestCase):
    def setUp(self):
        self.folder = tempfile.TemporaryDirectory()
        self.at = pathlib.Path(self.folder.name)

    def tearDown(self):
        self.folder.cleanup()

    def test_files(self):
        self.assertEqual(run("-m", self.at).stderr, "")
        for scale in ("gps", "tai", "utc"):
            self.assertEqual((self.at / f"{scale}.block").read_bytes(), (PROGRAM.parent / f"{scale}.block").read_bytes())
            self.assertEqual(np.load(self.at / f"{scale}.npy").shape, np.load(PROGRAM.parent / f"{scale}.npy").shape)

    def test_table(self):
        """A row for each stamp, the ordered ones rising in time, those that are not finite with their numbers; the thin place is in the leap second for each recorder."""
        rows = [row.split(",") for row in run().stdout.splitlines()][1:]
        self.assertEqual((len(rows), sum(1 for row in rows if row[4])), (825, 13))
        shown = re.search(r"with a stamp that is not finite:\n\n((?:    .*\n)+)", (ROOT / "python" / "README.md").read_text())[1].split()
        self.assertIn("\n".join(shown), "\n".join(",".join(row) for row in rows))
        texts = [row[0] for row in rows if row[0]]
        self.assertEqual(texts, sorted(texts))
        self.assertEqual(len([text for text in texts if "23:59:60" in text]), 50)
        for scale in ("gps", "tai", "utc"):
            own = [row for row in rows if row[1] == scale]
            self.assertEqual([int(row[2]) for row in own], list(range(len(own))))
            good = [row for row in own if row[0]]
            self.assertIn("23:59:60", min(good, key=lambda row: float(row[3]))[0])

    def test_wrong_readings(self):
        run("-m", self.at)
        np.save(self.at / "tai.npy", np.zeros(3))
        self.assertIn("tai: 300 stamps and 3 readings", run(self.at).stderr)

    @unittest.skipUnless(importlib.util.find_spec("matplotlib"), "no matplotlib here: the picture is not made again")
    def test_picture(self):
        from matplotlib import image

        done = run("-p", self.at / "picture.png")
        self.assertEqual(done.returncode, 0, done.stderr)
        made, due = image.imread(self.at / "picture.png"), image.imread(PROGRAM.parent / "three_recorders.png")
        self.assertEqual(made.shape, due.shape)
        # Another version of matplotlib may place a letter elsewhere.
        self.assertLess(float(np.abs(made - due).mean()), 0.03)

    def other_files(self, year, month, day, step, scales=("gps", "tai", "utc")):
        """Three stamps in a row, one that is not finite, one far too late, and five more, of each recorder, from 12:00:00 UTC on."""
        start = ct.utctai(*ct.dtf2d("utc", year, month, day, 12, 0, 0.0)[:2])
        tai = ct.add_seconds(start.jd1, start.jd2, np.arange(10.0) * step)
        tai.jd2[3], tai.jd2[4] = np.nan, tai.jd2[4] + 500.0
        for scale in scales:
            ct.write_blocks(self.at / f"{scale}.block", *ct.convert("tai", scale, tai.jd1, tai.jd2)[:2])
            np.save(self.at / f"{scale}.npy", np.arange(10.0) + 20)

    @unittest.skipUnless(importlib.util.find_spec("matplotlib"), "no matplotlib here: the picture of other files is not made")
    def test_other_pictures(self):
        """Of other files the axes, the words and the leap seconds are theirs; what is refused stands apart from what is left out."""
        example = importlib.util.spec_from_file_location("three_recorders", PROGRAM)
        module = importlib.util.module_from_spec(example)
        sys.modules["three_recorders"] = module  # named tuples look their module up
        example.loader.exec_module(module)
        for date, step, scales, words, leaps in (((2020, 5, 17), 60.0, ("gps", "tai", "utc"), "UTC, 2020-05-17", 0), ((2005, 12, 31), 7200.0, ("tai", "utc"), "UTC, 2005-12-31 to 2006-01-01; the leap second is shaded", 1),
                                                 ((2010, 1, 1), 86400.0 * 365, ("utc",), "UTC, 2009-10-27 to 2019-03-06; 3 leap seconds are shaded", 3)):
            with tempfile.TemporaryDirectory() as folder:
                self.at = pathlib.Path(folder)
                self.other_files(*date, step, scales)
                figure = module.figure_of(module.line_up(self.at))
                clocks, line, others = figure.axes
                self.assertEqual((line.get_xlim(), others.get_xlabel(), len(line.patches)), (others.get_xlim(), words, leaps))
                self.assertAlmostEqual(line.get_xlim()[1], 9 * step * 1.02, delta=0.1 * step)
                self.assertEqual(clocks.get_ylim(), line.get_ylim())
                self.assertTrue(line.get_ylim()[0] < 20 < 29 < line.get_ylim()[1])
                self.assertIn(f"{8 * len(scales)} of {10 * len(scales)} stamps; the thinnest, 20.00 mm, at {date[0]}-{date[1]:02d}-{date[2]:02d}T12:00:00.000 UTC", line.get_title("left"))
                self.assertRegex(clocks.get_xlabel(), f"from {date[0]}-{date[1]:02d}-{date[2]:02d} (11:59|12:00):00 on each")
                self.assertEqual([label.get_text() for label in others.get_yticklabels()], [f"{scale.upper()}: 1 refused, 1 left out" for scale in scales])
                drawn = [one for one in line.lines if len(one.get_xdata())]
                self.assertEqual((len({one.get_marker() for one in drawn}), len({one.get_color() for one in drawn})), (len(scales), len(scales)))
                self.assertEqual([len(one.get_xdata()) for one in others.lines], [1, 1] * len(scales))
                self.assertEqual(len({one.get_color() for one in others.lines}), 2)
                figure.savefig(self.at / "picture.png")

    @unittest.skipUnless(importlib.util.find_spec("matplotlib"), "no matplotlib here: a picture of nothing is not tried")
    def test_nothing_to_draw(self):
        ct.write_blocks(self.at / "gps.block", [np.nan], [0.0])
        np.save(self.at / "gps.npy", np.zeros(1))
        self.assertIn("nothing to draw", run(self.at, "-p", self.at / "picture.png").stderr)


if __name__ == "__main__":
    unittest.main()
