"""Recorders' CSV files to metres: the columns in every form, damage, the table, the picture, the page and the command; and the customer's whole job."""
import csv
import importlib.util
import io
import math
import os
import pathlib
import re
import signal
import subprocess
import sys
import tempfile
import unittest
import xml.etree.ElementTree

import numpy as np

import celestial_time as ct
from celestial_time import csv_files, pipe_pictures, placed
from test_report import BROWSER, Page

ROOT = pathlib.Path(__file__).resolve().parents[2]
PIPE = ROOT / "python" / "examples" / "pipe"
RUNS = [f"{scale}={PIPE}/{scale}.csv" for scale in ("gps", "tai", "utc")]
PASSES = f"passes={PIPE}/passes.csv"
SAID = "".join(f"celestial_time: {PIPE}/{scale}.csv: {without} of {every} readings have no place: 2 refused, {without - 2} outside the passes\n"
               for scale, without, every in (("gps", 27, 500), ("tai", 22, 400), ("utc", 12, 200))).encode()


def run(*words, **keywords):
    environment = {**os.environ, "PYTHONPATH": str(ROOT / "python")}
    return subprocess.run([sys.executable, "-m", "celestial_time", "place", *map(str, words)], capture_output=True, env=environment, **keywords)


def text_file(*rows):
    return io.StringIO("".join(f"{row}\n" for row in rows))


def marks():
    return text_file("time,metres", "2017-01-01T00:00:00Z,0", "2017-01-01T00:00:10Z,31.5")


class Columns(unittest.TestCase):
    def test_any_rows(self):
        """Even rows are cut all at once and others by Python's reader, with the same cells; ends of lines, a mark of the encoding, quotes and short rows."""
        even = b"a,b,c\n1,two,\n,3.50,x y\n"
        due = {"a": [b"1", b""], "b": [b"two", b"3.50"], "c": [b"", b"x y"]}
        for data in (even, even[:-1], even.replace(b"\n", b"\r\n"), b"\xef\xbb\xbf" + even, even.replace(b"two", b'"two"'), even.replace(b"\n,3", b"\n\n,3"), even.replace(b"two,", b"two")):
            got = csv_files.read_columns(io.BytesIO(data))
            self.assertEqual({name: cells.tolist() for name, cells in got.items()}, due, data)
        got = csv_files.read_columns(io.BytesIO(b'a,b\n"1,5","say ""no"""\n' + "ä,".encode() + b"x" * 3000 + b"\n"))
        self.assertEqual([cells.tolist() for cells in got.values()], [[b"1,5", "ä".encode()], [b'say "no"', b"x" * 3000]])
        for empty in (b"a,b\n", b"a,b"):
            self.assertEqual([cells.tolist() for cells in csv_files.read_columns(io.BytesIO(empty)).values()], [[], []])
        self.assertEqual([cells.tolist() for cells in csv_files.read_columns(io.BytesIO(b"a\n1\n\n2\n")).values()], [[b"1", b"2"]])
        for wrong in (b"", b"\n1,2\n", b"a,a\n1,2\n", b"a,,b\n"):
            with self.assertRaises(ValueError):
                csv_files.read_columns(io.BytesIO(wrong))

    def test_wrong_rows(self):
        """A row with more cells than the head, or a carriage return alone, is an error that names the file and the line; in quotes a return is a byte like others."""
        for data, said in (
            (b"a,b\n1,2\n3,4,5\n", "line 3 has 3 cells, and the head line has 2"), (b"a,b\r\n1,2\r\n\r\n3,4,\r\n", "line 4 has 3 cells"), (b"a\n1,5\n2\n", "line 2 has 2 cells, and the head line has 1"),
            (b'a,b\n"1\n\n",2\n3,"4,5",6', "line 5 has 3 cells"), (b"a,b\n1,2,3\n4\n", "line 2 has 3 cells"), (b'\xef\xbb\xbf"a",b\n1,2,3\n', "line 2 has 3 cells"),
            (b"a,b\r1,2\r3,4\r", "line 1 has a carriage return"), (b"a,b\r1,2\r3,4", "line 1 has a carriage return"), (b"a,b\n1,2\n3\r,4\n", "line 3 has a carriage return"),
            (b'a,b\r"1",2\r', "new-line"), (b'a,b\n"1",2\n3,4\r5,6\n', "line 3: new-line"),
        ):
            file = io.BytesIO(data)
            file.name = "wall.csv"
            with self.assertRaises(ValueError) as raised:
                csv_files.read_columns(file)
            self.assertTrue(str(raised.exception).startswith("wall.csv: "), raised.exception)
            self.assertIn(said, str(raised.exception))
        got = csv_files.read_columns(io.BytesIO(b'a,b\n"1\r2","3\r\n4"\n5,6\r'))
        self.assertEqual([cells.tolist() for cells in got.values()], [[b"1\r2", b"5"], [b"3\r\n4", b"6"]])

    def test_numbers(self):
        """Decimals are the floats that Python reads, however many digits; what is none is a NaN."""
        rng = np.random.default_rng(5)
        texts = [f"{x:.{d}f}" for x, d in zip(rng.uniform(0, 1e6, 3000), rng.integers(0, 9, 3000))] + ["0", "00012", "1.", ".5", ""]
        for more in ([], ["-1.5"], ["1e5"], ["2457753.5000000001"], ["none"], ["1.2.3"], ["."], [" 7 "], ["inf"], ["9007199254740993"]):
            cells = np.array([text.encode() for text in texts + more])
            got = csv_files.numbers_of(cells)
            for text, one in zip(texts + more, got.tolist()):
                try:
                    due = float(text)
                except ValueError:
                    due = math.nan
                self.assertTrue(one == due or one != one and due != due, (text, one))

    def test_written(self):
        """Python's reader reads what is written, quotes and all."""
        cells = [b"plain", b"", b"one, two", b'say "no"', b"two\nlines", "ä".encode()]
        numbers = np.array([0, 7, 10, 99, 100, 1234567])
        data = (csv_files.csv_head(["a", "b"]) + csv_files.csv_of([csv_files.quoted(np.array(cells)), numbers])).decode()
        self.assertEqual(list(csv.reader(io.StringIO(data, newline="")))[1:], [[cell.decode(), str(number)] for cell, number in zip(cells, numbers.tolist())])
        for decimals in (0, 1, 3):
            told = [cell.strip(b"\0").decode() for cell in csv_files.digits_of(numbers, decimals).tolist()]
            self.assertEqual(told, [f"{number / 10**decimals:.{decimals}f}" for number in numbers.tolist()])


class Forms(unittest.TestCase):
    def test_one_instant(self):
        """Each form of each scale says the same instant, and has the same place."""
        forms = {
            "gps": [("week,millisecond", "1930,22250"), ("seconds", "1167264022.25"), ("time", "2017-01-01T00:00:22.250"), ("jd1,jd2", f"2457754.5,{22.25 / 86400!r}")],
            "tai": [("seconds", f"{ct_seconds('tai')}"), ("time", "2017-01-01T00:00:41.250"), ("jd1,jd2", f"2457754.5,{41.25 / 86400!r}")],
            "utc": [("seconds", "1483228804.25"), ("time", "2017-01-01T00:00:04.250Z"), ("jd1,jd2", f"2457754.5,{4.25 / 86400!r}")],
        }
        for scale, held in forms.items():
            for head, row in held:
                got = ct.place_files({scale: text_file(head, row)}, marks())
                self.assertEqual((got.places[0].mm.tolist(), got.places[0].numbers.tolist()), ([13387], [0]), (scale, head))
                self.assertEqual(got.table()["utc"].tolist(), ["2017-01-01T00:00:04.250"])

    def test_damage(self):
        """A time that is missing, no number or not finite is refused at its place, and the others stand."""
        for scale, head, rows, numbers in (
            ("gps", "week,millisecond", ("1930,22250", ",", "x,1", "1930", "1930,1e30", "nan,inf"), [0, 18, 18, 18, 18, 18]),
            ("gps", "seconds,x", ("1167264022.25,1", ",1", "inf,1", "-1,1", "1167264000,1"), [0, 9, 9, 18, 25]),
            ("utc", "seconds,x", ("1483228804.25,1", ",1", "none,1", "1e300,1"), [0, 9, 9, 9]),
            ("tai", "time,x", ("2017-01-01T00:00:41.250,1", ",1", "2017-01-01T00:00:60,2"), [0, 15, 4]),
            ("utc", "time,x", ("2016-12-31T23:59:60.5,1", "2017-13-01T00:00:00,1"), [25, 2]),
            ("tai", "jd1,jd2", ("2457754.5,0.0004774305555", "nan,0", ",", "2457754.5,1e300", "1.0,1.0"), [0, 9, 9, None, None]),
            ("utc", "jd1,jd2", ("2457754.5,0.00005", "nan,0", "2457754.5,1e300"), [0, 6, 6]),
        ):
            got = ct.place_files({scale: text_file(head, *rows)}, marks()).places[0]
            told = got.numbers.tolist()
            self.assertEqual([one if due is not None else None for one, due in zip(told, numbers)], numbers, (scale, head))
            self.assertTrue(all(told[i] for i, due in enumerate(numbers) if due is None))

    def test_passes(self):
        """Passes of every clock are one; a pass that is refused, or is no whole millimetre, or does not rise, refuses the whole."""
        mixed = text_file("scale,time,millimetres", "utc,2017-01-01T00:00:00Z,0", "GPS,2017-01-01T00:00:23,15750", "tai ,2017-01-01T00:00:47.000,31500")
        got = ct.read_passes(mixed)
        self.assertEqual((got.millis - got.millis[0]).tolist(), [0, 5000, 10000])
        self.assertEqual(got.mm.tolist(), [0, 15750, 31500])
        for rows, number in ((("2017-01-01T00:00:00Z,0", "noon,5"), 15), (("2017-01-01T00:00:00Z,0",), 23), ((), 23), (("2017-01-01T00:00:05Z,0", "2017-01-01T00:00:00Z,5"), 24),
                             (("2017-01-01T00:00:00Z,5", "2017-01-01T00:00:05Z,5"), 24)):
            with self.assertRaises(ct.Refused) as raised:
                ct.place_files({"utc": text_file("time", "2017-01-01T00:00:04")}, text_file("time,metres", *rows))
            self.assertEqual(raised.exception.number, number)
        for head, row in (("time,metres", "2017-01-01T00:00:00Z,0.0005"), ("time,metres", "2017-01-01T00:00:00Z,"), ("time,place", "2017-01-01T00:00:00Z,1"), ("metres", "1"),
                          ("scale,time,metres", "lunar,2017-01-01T00:00:00Z,1"), ("scale,week,millisecond,metres", "utc,1930,0,1")):
            with self.assertRaises(ValueError) as raised:
                ct.read_passes(text_file(head, row))
            self.assertNotIsInstance(raised.exception, ct.Refused)
        with self.assertRaises(ValueError):
            ct.place_files({"tt": text_file("time")}, marks())

    def test_passes_clock(self):
        """Without a column scale the clock is that of GPS where week and millisecond are both there, and else UTC."""
        rows = "2017-01-01T00:00:00Z,0", "2017-01-01T00:00:10Z,31.5"
        due = ct.read_passes(text_file("time,metres", *rows))
        for head, lines in (("week,time,metres", [f"1930,{row}" for row in rows]), ("millisecond,time,metres", [f"18000,{row}" for row in rows]),
                            ("week,millisecond,metres", ["1930,18000,0", "1930,28000,31.5"]), ("week,millisecond,time,metres", ["1930,18000,x,0", "1930,28000,x,31.5"])):
            self.assertEqual(ct.read_passes(text_file(head, *lines)).millis.tolist(), due.millis.tolist(), head)

    def test_passes_columns(self):
        """A column of passes that is not known is an error, which names it and those that are: by another name a scale would be passed over."""
        for name in ("Scale", "SCALE", "clock", "marker", "Time", "metre"):
            with self.assertRaises(ValueError) as raised:
                ct.read_passes(text_file(f"{name},time,metres", "tai,2017-01-01T00:00:37,0", "tai,2017-01-01T00:00:47,31.5"))
            self.assertIn(f"not known of passes: '{name}'; the columns may be week, millisecond, seconds, time, jd1, jd2, scale, metres, millimetres", str(raised.exception))
        with self.assertRaisesRegex(ValueError, "'clock', 'wall'"):
            ct.read_passes(text_file("clock,time,metres,wall", "tai,2017-01-01T00:00:37,0,1"))

    def test_readings_columns(self):
        """Other columns are carried on, but for names that are a time's or scale's but for case and blanks, and a scale that is not the recorder's."""
        row = "2017-01-01T00:00:04"
        for name, meant in (("Time", "time"), ("Scale", "scale"), ("WEEK", "week"), ("milli second", "millisecond"), ("jd 1", "jd1"), ("JD2", "jd2"), ("Seconds", "seconds"), ("s cale", "scale")):
            with self.assertRaises(ValueError) as raised:
                ct.place_files({"utc": text_file(f"time,{name}", f"{row},x")}, marks())
            self.assertIn(f"a file: a column is named {name!r}, which is {meant} but for its case or blanks", str(raised.exception))
        for name in ("timer", "wall", "Scales", "Metres", "local time", "week"):
            self.assertEqual(ct.place_files({"utc": text_file(f"time,{name}", f"{row},x")}, marks()).names(), [name])
        with self.assertRaisesRegex(ValueError, "the file is read as utc, and its column scale has 'tai' for reading 1"):
            ct.place_files({"utc": text_file("time,scale", f"{row},UTC", f"{row},TAI ")}, marks())
        self.assertEqual(ct.place_files({"utc": text_file("time,scale", f"{row},UTC ", f"{row},")}, marks()).table()["scale"].tolist(), ["UTC ", ""])

    def test_passes_far(self):
        """Half a millimetre is an error however far the pass; passes that fall are the library's 24, by a day and more too."""
        for metres, unit in (("600000.0005", "metres"), ("600000000.5", "millimetres"), ("1.0000005", "metres"), ("nan", "metres"), ("1e308", "metres")):
            with self.assertRaisesRegex(ValueError, f"a file: {unit} of pass 1, '{metres}', is no whole number of millimetres"):
                ct.read_passes(text_file(f"time,{unit}", "2017-01-01T00:00:00Z,0", f"2017-01-01T00:00:10Z,{metres}"))
        self.assertEqual(ct.read_passes(text_file("time,metres", "2017-01-01T00:00:00Z,0", "2017-01-01T00:00:10Z,600000.001")).mm.tolist(), [0, 600000001])
        for first, then, number in (("2017-01-05T00:00:00Z", "2017-01-01T00:00:00Z", 24), ("2017-01-03T00:00:00Z", "2017-01-01T12:00:00Z", 24), ("2030-01-01T00:00:00Z", "2017-01-01T00:00:00Z", 24),
                                    ("2060-01-01T00:00:00Z", "2017-01-01T00:00:00Z", 23), ("2017-01-01T00:00:00Z", "2060-01-01T00:00:00Z", 23)):
            with self.assertRaises(ct.Refused) as raised:
                ct.place_files({"utc": text_file("time", "2017-01-01T00:00:04")}, text_file("time,metres", f"{first},0", f"{then},5"))
            self.assertEqual(raised.exception.number, number, first)
        with self.assertRaises(ct.Refused) as raised:
            ct.place_files({"utc": text_file("time", "2017-01-01T00:00:04")}, text_file("time,metres", "2017-01-01T00:00:00Z,0", "2017-01-01T00:00:10Z,1e30"))
        self.assertEqual(raised.exception.number, 23)


def ct_seconds(scale):
    """Seconds of 2017-01-01T00:00:41.250 since the scale's epoch, by Python's own calendar."""
    import datetime

    return (datetime.datetime(2017, 1, 1) - datetime.datetime(*csv_files.EPOCHS[scale])).total_seconds() + 41.25


class Command(unittest.TestCase):
    def setUp(self):
        self.folder = tempfile.TemporaryDirectory()
        self.at = pathlib.Path(self.folder.name)

    def tearDown(self):
        self.folder.cleanup()

    def test_files_are_as_made(self):
        subprocess.run([sys.executable, ROOT / "python" / "examples" / "make_pipe.py", self.at], check=True, env={**os.environ, "PYTHONPATH": str(ROOT / "python")})
        for file in PIPE.glob("*.csv"):
            self.assertEqual((self.at / file.name).read_text(), file.read_text(), file.name)

    def test_table(self):
        """A row for each reading, to standard output or a file, as `table` has them; the carried column as it stands."""
        done = run(*RUNS, PASSES)
        self.assertEqual((done.returncode, done.stderr), (0, SAID))
        held = run(*RUNS, PASSES, "-o", self.at / "out.csv", "readings=wall_mm")
        self.assertEqual((held.returncode, held.stdout, held.stderr, (self.at / "out.csv").read_bytes()), (0, b"", SAID, done.stdout))
        rows = list(csv.DictReader(io.StringIO(done.stdout.decode())))
        got = ct.place_files({scale: PIPE / f"{scale}.csv" for scale in ("gps", "tai", "utc")}, PIPE / "passes.csv")
        table = got.table()
        self.assertEqual(list(rows[0]), list(table))
        self.assertEqual(len(rows), 1100)
        for i, row in enumerate(rows):
            self.assertEqual((row["recorder"], int(row["index"]), row["utc"], int(row["number"]), row["reason"]), tuple(table[name][i] for name in ("recorder", "index", "utc", "number", "reason")))
            self.assertEqual(row["metres"], "" if row["number"] != "0" else f"{table['metres'][i]:.3f}")
            self.assertEqual(row["reason"], "" if row["number"] == "0" else ct.reason(int(row["number"])))
        read = [line.split(",")[-1] for scale in ("gps", "tai", "utc") for line in (PIPE / f"{scale}.csv").read_text().splitlines()[1:]]
        self.assertEqual([row["wall_mm"] for row in rows], read)
        self.assertEqual({row["number"] for row in rows}, {"0", "15", "18", "25"})

    def test_one_dent(self):
        """The three recorders see the dent in one place: readings of one millisecond agree exactly, others by the travel between their milliseconds and 1 mm."""
        got = ct.place_files({scale: PIPE / f"{scale}.csv" for scale in ("gps", "tai", "utc")}, PIPE / "passes.csv")
        every = {}
        fastest = np.max(np.diff(got.passes.mm) / np.diff(got.passes.millis))
        thinnest = []
        for recorder, tai, places in zip(got.recorders, got.tai, got.places):
            millis = ct.milliseconds(got.passes.launch, tai, scale="tai").millis
            for milli, mm, number in zip(millis.tolist(), places.mm.tolist(), places.numbers.tolist()):
                if number == 0:
                    self.assertEqual(every.setdefault(milli, mm), mm)
            read = np.where(places.numbers == 0, csv_files.numbers_of(recorder.columns["wall_mm"]), 99.0)
            thinnest.append((int(millis[read.argmin()]), int(places.mm[read.argmin()])))
        for one, mm in thinnest:
            for other, place in thinnest:
                self.assertLessEqual(abs(mm - place), fastest * abs(one - other) + 1)
        rising = sorted(every.items())
        for (one, mm), (other, place) in zip(rising, rising[1:]):
            self.assertTrue(0 <= place - mm <= fastest * (other - one) + 1)

    def test_picture_and_page(self):
        """Well formed, by the data: the panel in metres, the markers, what has no place; the page's figures are the table's."""
        done = run(*RUNS, PASSES, "-p", self.at / "p.svg", "-r", self.at / "p.html", "-o", self.at / "o.csv")
        self.assertEqual((done.returncode, done.stderr), (0, SAID))
        self.assertEqual((self.at / "p.svg").read_bytes(), (PIPE.parent / "pipe.svg").read_bytes())
        picture = xml.etree.ElementTree.parse(self.at / "p.svg").getroot()
        kinds = [one.get("class") for one in picture.iter() if one.get("class")]
        self.assertEqual([kinds.count(kind) for kind in ("readings", "marker", "refused", "outside the passes")], [3, 5, 3, 3])
        said = [one.text for one in picture.iter() if one.tag.endswith("text")]
        self.assertIn("metres along the pipe; markers are dotted lines", said)
        self.assertIn("wall_mm, over metres along the pipe", said)
        page = Page((self.at / "p.html").read_text())
        self.assertEqual((page.wrong, page.links), ([], []))
        self.assertEqual([row[2:6] for row in page.tables["runs"][1:]], [["500", "473", "2", "25"], ["400", "378", "2", "20"], ["200", "188", "2", "10"]])
        self.assertIn(f"Reading 31 of the recorder gps has no place, by 18: {ct.reason(18)}.", page.items)
        self.assertIn("svg", page.tags)
        self.assertIn("<path class=\"readings\"", (self.at / "p.html").read_text())

    @unittest.skipUnless(BROWSER, "no chromium here: the page in metres is not opened in a browser")
    def test_browser(self):
        """A real browser shows the figures and the picture."""
        run(*RUNS, PASSES, "-r", self.at / "p.html")
        words = ["--headless", "--no-sandbox", "--disable-gpu", f"--user-data-dir={self.at}/profile", "--dump-dom", f"file://{self.at}/p.html"]
        done = subprocess.run([BROWSER, *words], capture_output=True, text=True, timeout=120)
        self.assertIn("1039 of 1100 readings of 3 recorders placed", done.stdout)
        shown = Page(done.stdout)
        self.assertEqual(shown.headings[0], "1039 of 1100 readings of 3 recorders placed, 0.029 m to 60.055 m")
        self.assertEqual([row[:1] + row[2:6] for row in shown.tables["runs"][1:]], [["gps", "500", "473", "2", "25"], ["tai", "400", "378", "2", "20"], ["utc", "200", "188", "2", "10"]])
        self.assertIn("5 marker passes, 0.000 m to 60.125 m.", shown.paragraphs)
        self.assertIn(f"Reading 31 of the recorder gps has no place, by 18: {ct.reason(18)}.", shown.items)
        self.assertIn("svg", shown.tags)

    def test_odd_pictures(self):
        """Nothing placed, one reading, a column without numbers, no column: each has a picture that is well formed."""
        for head, rows in (("time", ()), ("time", ("later",)), ("time,wall", ("2017-01-01T00:00:04,8.2",)), ("time,who", ("2017-01-01T00:00:04,me",)), ("time,wall", ("2017-01-01T00:00:04,", "x,5"))):
            got = ct.place_files({"utc": text_file(head, *rows)}, marks())
            xml.etree.ElementTree.fromstring(pipe_pictures.svg_of_places(got, pipe_pictures.drawn_column(got, got.names())))
        for values in ([0.0], [1.0, 1.0], [-5.0, 1e6], [0.1, 0.2]):
            axis = pipe_pictures.axis_of(np.array(values))
            self.assertTrue(1 <= len(axis.ticks) <= 11 and all(axis.first <= tick <= axis.last for tick in axis.ticks), axis)

    def test_wrong_words(self):
        """Status 2 and a message for words and files that are not as they are due, 1 where passes or the table are refused; nothing is written then."""
        bad = self.at / "bad.csv"
        bad.write_text("time,metres\n2017-01-01T00:00:00Z,0\nnoon,5\n")
        returns, wide = self.at / "returns.csv", self.at / "wide.csv"
        returns.write_bytes(b"time,metres\r2017-01-01T00:00:00Z,0\r2017-01-01T00:00:10Z,31.5\r")
        wide.write_text("time,metres\n2017-01-01T00:00:00Z,0\n2017-01-01T00:10:00Z,1,600\n")
        rows = self.at / "rows"
        rows.write_text("2016-01 50\n")
        for words, status, said in (
            ([], 2, "no run is named"), (RUNS, 2, "no passes are named"), ([*RUNS, PASSES, PASSES], 2, "there twice"), ([*RUNS, PASSES, "ut1=x"], 2, "not understood"),
            ([*RUNS, "passes=none.csv"], 2, "none.csv"), ([RUNS[0] + "x", PASSES], 2, "gps.csvx"), ([*RUNS, f"passes={PIPE}/gps.csv"], 2, "no column metres"),
            ([f"utc={PIPE}/gps.csv", PASSES], 2, "no time of scale utc"), ([*RUNS, PASSES, "readings=speed"], 2, "no recorder has a column speed"), ([*RUNS, f"passes={bad}"], 1, "pass 1: refused 15"),
            ([*RUNS, f"passes={returns}"], 2, "returns.csv: line 1 has a carriage return"), ([f"utc={returns}", PASSES], 2, "returns.csv: line 1 has a carriage return"),
            ([*RUNS, f"passes={wide}"], 2, "wide.csv: line 3 has 3 cells"), ([f"utc={wide}", PASSES], 2, "wide.csv: line 3 has 3 cells"),
            ([*RUNS, PASSES, f"table={rows}"], 1, "line 1: refused 22"), ([*RUNS, PASSES, "-o", self.at / "none" / "o.csv"], 2, "none/o.csv"), ([*RUNS, PASSES, "-p"], 2, "not understood"),
        ):
            done = run(*words)
            self.assertEqual((done.returncode, done.stdout), (status, b""), words)
            self.assertIn(said, done.stderr.decode(), words)
            self.assertTrue(done.stderr.startswith(b"celestial_time: "))
            self.assertNotIn(b"Traceback", done.stderr)
        self.assertEqual(sorted(path.name for path in self.at.iterdir()), ["bad.csv", "returns.csv", "rows", "wide.csv"])

    def test_notes(self):
        """How many readings have no place is said, with every one of them too, and nothing where each has one; and so is a table that is older than the readings."""
        utc, passes, rows = (self.at / name for name in ("utc.csv", "passes.csv", "rows"))
        passes.write_text("time,metres\n2027-01-01T00:00:00Z,0\n2027-01-01T00:00:10Z,31.5\n")
        good, late, dead = "2027-01-01T00:00:04", "2027-01-01T00:00:11", "dead"
        for readings, said in (
            ([good], ""), ([], ""), ([dead, dead], "2 of 2 readings have no place: 2 refused"), ([late], "1 of 1 readings have no place: 1 outside the passes"),
            ([good, late, dead, dead], "3 of 4 readings have no place: 2 refused, 1 outside the passes"),
        ):
            utc.write_text("".join(f"{line}\n" for line in ("time,wall", *(f"{one},1" for one in readings))))
            done = run(f"utc={utc}", f"passes={passes}")
            self.assertEqual((done.returncode, done.stderr.decode()), (0, f"celestial_time: {utc}: {said}\n" if said else ""))
            self.assertEqual(len(done.stdout.splitlines()), len(readings) + 1)
        old = "the table is known until 2027-01-01, and the last reading is of 2027-01-01T00:00:04.000: a leap second between is not known"
        for mjd, readings, said in ((61406, [good], old), (61407, [good], ""), (61407, [dead], None), (None, [good], ""), (61406, ["2026-12-31T23:59:59"], None), (61406, [dead], None)):
            expiry = "" if mjd is None else f"#@ {(mjd - 15020) * 86400}\n"
            rows.write_text(f"{expiry}2017-01 37\n")
            utc.write_text("".join(f"{line}\n" for line in ("time", *readings)))
            done = run(f"utc={utc}", f"passes={passes}", f"table={rows}")
            self.assertEqual((done.returncode, "known until" in done.stderr.decode()), (0, bool(said)), (mjd, readings))
            if said is not None:
                self.assertEqual(done.stderr.decode(), f"celestial_time: {said}\n" if said else "")

    def test_looks(self):
        """A last reading or pass after the day until which the table is known, the library's own and one that is lent, is something to look at; on that day nothing is."""
        utc, passes, rows = (self.at / name for name in ("utc.csv", "passes.csv", "rows"))
        for lent, day, readings, marks, late in (
            (None, "2026-06-28", ["2026-06-28T23:59:59"], ["2026-06-28T00:00:00", "2026-06-28T23:59:59.5"], None),
            (None, "2026-06-28", ["2026-06-28T23:59:59"], ["2026-06-28T00:00:00", "2026-06-29T00:00:00"], "pass is of 2026-06-29T00:00:00.000"),
            (None, "2026-06-28", ["2026-06-29T00:00:00"], ["2026-06-28T00:00:00", "2026-06-28T12:00:00"], "reading is of 2026-06-29T00:00:00.000"),
            (None, "2026-06-28", ["dead", "2027-01-01T00:00:04"], ["2027-01-01T00:00:00", "2027-01-01T00:00:10"], "pass is of 2027-01-01T00:00:10.000"),
            (None, "2026-06-28", ["2027-01-01T00:00:12", "2027-01-01T00:00:04"], ["2027-01-01T00:00:00", "2027-01-01T00:00:10"], "reading is of 2027-01-01T00:00:12.000"),
            ("2027-01 38\n", "2027-06-30", ["2027-06-30T23:59:59"], ["2027-01-01T00:00:00", "2027-06-30T23:59:59"], None),
            ("2027-01 38\n", "2027-06-30", ["2027-07-01T00:00:00"], ["2027-01-01T00:00:00", "2027-06-30T23:59:59"], "reading is of 2027-07-01T00:00:00.000"),
            (f"#@ {(61406 - 15020) * 86400}\n2017-01 37\n", "2027-01-01", ["2027-01-01T00:00:04"], ["2027-01-01T00:00:00", "2027-01-01T23:00:00"], None),
            (f"#@ {(61405 - 15020) * 86400}\n2017-01 37\n", "2026-12-31", [], ["2026-12-31T00:00:00", "2027-01-01T00:00:00.001"], "pass is of 2027-01-01T00:00:00.001"),
        ):
            utc.write_text("".join(f"{line}\n" for line in ("time", *readings)))
            passes.write_text("".join(f"{line}\n" for line in ("time,metres", *(f"{one}Z,{100 * place}" for place, one in enumerate(marks)))))
            rows.write_text(lent or "")
            got = ct.place_files({"utc": utc}, passes, table=ct.Table.read(rows) if lent else None)
            due = f"the table is known until {day}, and the last {late}: a leap second between is not known"
            with self.subTest(due):
                self.assertEqual(got.looks(), [due] if late else [])

    def test_help_and_rows(self):
        """--help names the columns, and announced leap rows are read by."""
        told = run("--help").stdout.decode()
        for name in ("week, millisecond", "seconds", "time", "jd1, jd2", "metres or millimetres", "readings="):
            self.assertIn(name, told)
        rows = self.at / "rows"
        rows.write_text("2027-01 38\n")
        (self.at / "utc.csv").write_text("time\n2026-12-31T23:59:60.500Z\n")
        (self.at / "passes.csv").write_text("time,metres\n2026-12-31T23:59:59Z,0\n2027-01-01T00:00:01Z,3\n")
        told = [run(f"utc={self.at}/utc.csv", f"passes={self.at}/passes.csv", *more).stdout.decode().splitlines()[1] for more in ([f"table={rows}"], [])]
        self.assertEqual([row.split(",")[3:5] for row in told], [["1.500", "0"], ["", "4"]])

    def test_pipe_that_closes(self):
        words = [sys.executable, "-m", "celestial_time", "place", *RUNS, PASSES]
        one = subprocess.Popen(words, stdout=subprocess.PIPE, stderr=subprocess.PIPE, env={**os.environ, "PYTHONPATH": str(ROOT / "python")})
        one.stdout.close()
        self.assertEqual((one.stderr.read(), one.wait()), (b"", -signal.SIGPIPE))
        one.stderr.close()

    def test_ten_lines(self):
        """The lines of the README run as they stand, and there are ten at the most."""
        text = (ROOT / "python" / "README.md").read_text()
        lines = re.search(r"in the folder python/examples/pipe:\n\n((?:    .*\n|\n)+?)\nwhich prints", text)[1].splitlines()
        self.assertLessEqual(len(lines), 10)
        program = "\n".join(line[4:] for line in lines)
        if not importlib.util.find_spec("pandas"):
            self.skipTest("the lines from files to a table are not run: no pandas here")
        done = subprocess.run([sys.executable, "-c", program], cwd=PIPE, capture_output=True, text=True, env={**os.environ, "PYTHONPATH": str(ROOT / "python"), "TMPDIR": self.folder.name})
        self.assertEqual((done.returncode, done.stderr), (0, ""))
        self.assertEqual(done.stdout, re.search(r"which prints\n\n((?:    .*\n)+)", text)[1].replace("    ", "", 1).replace("\n    ", "\n"))


if __name__ == "__main__":
    unittest.main()
