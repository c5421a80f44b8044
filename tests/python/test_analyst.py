"""What an analyst has and wants: columns as pandas makes them, texts as str, datetime and datetime64; tables, orders, seconds and bills."""
import datetime
import importlib.util
import math
import unittest
from fractions import Fraction

import numpy as np

import celestial_time as ct
import singles

NAN = math.nan


class Columns(unittest.TestCase):
    """Float columns for weeks, milliseconds and ticks."""

    def setUp(self):
        self.rng = np.random.default_rng(31)

    def test_whole_floats(self):
        """As whole numbers answer; what is not finite or does not fit is 18 at its place."""
        week, millis = self.rng.integers(-2, 100003, 500), self.rng.integers(-5, 604800005, 500)
        for function, columns in ((ct.gps_from_week, (week, millis)), (ct.gps_full_week, (week % 1030, week))):
            due = function(*columns)
            for kind in ("<f8", ">f8"):
                got = function(*(column.astype(kind) for column in columns))
                self.assertTrue(all(np.array_equal(a, b, equal_nan=a.dtype.kind == "f") for a, b in zip(got, due)))
            for bad in (NAN, math.inf, -math.inf, 1e300, -1e300, 2.0**63, -(2.0**63), -1.0, 2.0**32):
                for which in range(2):
                    held = [column.astype(float) for column in columns]
                    held[which][7] = bad
                    got = function(*held)
                    self.assertEqual(got.numbers[7], 18, (function.__name__, bad))
                    self.assertEqual(np.delete(got.numbers, 7).tolist(), np.delete(due.numbers, 7).tolist())
            self.assertEqual(function(np.float32(5), np.float16(600)).numbers, 0)
        with self.assertRaises(ct.Refused) as raised:
            ct.gps_from_week(NAN, 0)
        self.assertEqual(raised.exception.number, 18)
        self.assertEqual(ct.gps_from_week(np.broadcast_to([[NAN], [2048.0]], (2, 3)), [0, 1, 2]).numbers.tolist(), [[18] * 3, [0] * 3])

    def test_fractions(self):
        """A fraction is an error that names the argument and the place, wherever it stands."""
        for call, said in (
            (lambda: ct.gps_from_week([2048.0, 0.5], 0), "week holds 0.5 at place 1"), (lambda: ct.gps_from_week(5, [[1.0, NAN], [-0.25, 2.5]]), "millis holds -0.25 at place 2"),
            (lambda: ct.gps_full_week(0.1, 5), "ten_bits holds 0.1 at place 0"), (lambda: ct.place_ticks([0, 9], [0, 9], [NAN, 1.5], return_numbers=True), "ticks holds 1.5 at place 1"),
            (lambda: ct.place_ticks([0, 9.5], [0, 9], [1]), "pass_ticks holds 9.5 at place 1"), (lambda: ct.gps_from_week(np.broadcast_to(2.5, (10**15,)), 0), "week holds 2.5 at place 0"),
        ):
            with self.assertRaises(ValueError) as raised:
                call()
            self.assertIn(said, str(raised.exception))
            self.assertNotIsInstance(raised.exception, ct.Refused)

    def test_ticks(self):
        """25 at the place of a tick outside the passes or not finite, and all others as the call places them; without numbers it refuses the call."""
        passes, millis = [100, 200, 1000], [5, 50, 7000]
        ticks = np.concatenate([self.rng.integers(50, 1100, 300), [99, 100, 200, 1000, 1001]])
        among = (ticks >= 100) & (ticks <= 1000)
        for given in (ticks, ticks.astype(float), ticks.astype("u8"), ticks.tolist()):
            got = ct.place_ticks(passes, np.array(millis, float), given, return_numbers=True)
            self.assertEqual(got.numbers.tolist(), np.where(among, 0, 25).tolist())
            self.assertEqual(got.millis[among].tolist(), ct.place_ticks(passes, millis, ticks[among]).tolist())
            self.assertTrue((got.millis[~among] == ct.NO_LONG).all())
            with self.assertRaises(ct.Refused) as raised:
                ct.place_ticks(passes, millis, given)
            self.assertEqual(raised.exception.number, 25)
        for bad in (NAN, math.inf, -1.0, 1e300):
            self.assertEqual(ct.place_ticks(passes, millis, [bad, 100.0], return_numbers=True).numbers.tolist(), [25, 0])
            with self.assertRaises(ct.Refused) as raised:
                ct.place_ticks(passes, millis, [bad, 100.0])
            self.assertEqual(raised.exception.number, 25)
        self.assertEqual(ct.place_ticks(passes, millis, np.array([2**63 + 500, 500], "u8"), return_numbers=True).numbers.tolist(), [25, 0])
        self.assertEqual(ct.place_ticks(passes, millis, 200.0, return_numbers=True), (50, 0))
        self.assertEqual(ct.place_ticks(passes, millis, [], return_numbers=True).numbers.tolist(), [])
        for number, wrong in ((25, (passes, millis, 5)), (23, ([], [], [5])), (24, (passes[::-1], millis, [5])), (23, ([100, NAN], [5, 50], [100])), (23, (passes, millis[:2], [5]))):
            with self.assertRaises(ct.Refused) as raised:
                ct.place_ticks(*wrong, return_numbers=True)
            self.assertEqual(raised.exception.number, number)
        for error, keywords in ((ValueError, {"ticks": [[100]]}), (TypeError, {"ticks": [100], "out": np.zeros(1, "<u8")}), (TypeError, {"ticks": ["100"]})):
            with self.assertRaises(error):
                ct.place_ticks(passes, millis, **keywords, return_numbers=True)


class Texts(unittest.TestCase):
    def setUp(self):
        self.rng = np.random.default_rng(32)

    def test_objects(self):
        """Arrays of str and of bytes objects, with missing ones, which are 15 at their place."""
        (given,) = singles.texts(self.rng, 500)
        words = [text.decode("utf-8", "surrogateescape") for text in given.tolist()]
        good = np.array([text for text in given.tolist() if text.isascii()])
        for function in (ct.from_iso8601, ct.parse_iso8601, lambda texts: ct.from_iso8601(texts, scale="gps")):
            due = function(good)
            for held in (np.array([text.decode() for text in good.tolist()], object), np.array(good.tolist(), object), good.astype(object).reshape(1, -1)):
                got = function(held)
                for a, b in zip(got, due):
                    self.assertTrue(np.array_equal(a.ravel(), b, equal_nan=a.dtype.kind == "f"))
            missing = np.array([None, NAN, "2000-01-01T00:00:00", np.float64("nan"), "", np.str_("2000-01-01T00:00:00")], object)
            self.assertEqual(function(missing).numbers.tolist(), [15, 15, 0, 15, 15, 0])
            self.assertEqual(function(["2000-01-01T00:00:00", None]).numbers.tolist(), [0, 15])
            self.assertEqual(function([None, None]).numbers.tolist(), [15, 15])
            self.assertEqual(function(np.empty((0, 2), object)).numbers.shape, (0, 2))
            for wrong in (5, 2.5, ["2000-01-01T00:00:00"], True, datetime.datetime(2000, 1, 1)):
                held = np.empty(2, object)
                held[0], held[1] = "2000-01-01T00:00:00", wrong
                with self.assertRaises(TypeError) as raised:
                    function(held)
                self.assertIn("texts holds ", str(raised.exception))
                self.assertIn("at place 1", str(raised.exception))
        self.assertEqual(len(words), 500)

    def test_bytes_of_zero(self):
        """A byte 0 at the end of an object is the text's own."""
        given = np.array(["2000-01-01T00:00:00\0", "2000-01-01T00:00:00\0\0", b"2000-01-01T00:00:00\0", "\0", "2000-01-01T00:00:00"], object)
        self.assertEqual(ct.from_iso8601(given).numbers.tolist(), [15, 15, 15, 15, 0])

    def test_str(self):
        jd1, jd2 = singles.dates(self.rng, 300)
        for form in ct.FORMS:
            due = ct.to_iso8601(jd1, jd2, form=form, return_rule=True)
            for got in (ct.to_iso8601(jd1, jd2, form=form, return_rule=True, as_str=True), ct.to_iso8601(jd1, jd2, form=form, as_str=True)):
                self.assertEqual(got.text.dtype, np.dtype("U27"))
                self.assertEqual([text.encode() for text in got.text.tolist()], due.text.tolist())
                self.assertEqual(got.numbers.tolist(), due.numbers.tolist())
        for shape in ((15, 20), (2, 3, 50), (0,), (0, 3), (3, 0)):
            for order in "CF":
                parts = [np.array(part[: math.prod(shape)].reshape(shape), order=order) for part in (jd1, jd2)]
                got, due = ct.to_iso8601(*parts, as_str=True).text, ct.to_iso8601(*parts).text
                self.assertEqual((got.shape, got.tolist()), (shape, due.astype("U27").tolist()))
        self.assertIs(type(ct.to_iso8601(2451545.0, 0.0, as_str=True).text), str)
        with self.assertRaises(TypeError) as raised:
            ct.to_iso8601([2451545.0], 0.0, as_str=True, out=(np.empty(1, "U30"), None))
        self.assertIn("out: ", str(raised.exception))

    def test_texts_of_a_scale(self):
        """As the two calls one after the other; the first number is kept."""
        for scale in ("gps", "tai", "utc", "tt", "tcg"):
            for table in (None, singles.TABLE):
                jd1, jd2 = singles.dates(self.rng, 400)
                utc = ct.convert(scale, "utc", jd1, jd2, table=table) if scale != "utc" else ct.Dates(jd1, jd2, np.zeros(400, "u1"))
                due = ct.to_iso8601(utc.jd1, utc.jd2, form="expanded", table=table)
                got = ct.utc_texts(scale, jd1, jd2, form="expanded", table=table)
                self.assertEqual(got.text.tolist(), due.text.tolist())
                self.assertEqual(got.numbers.tolist(), [int(a or b) for a, b in zip(utc.numbers, due.numbers)])
                self.assertEqual(got.numbers.dtype, np.uint8)
                self.assertTrue(((got.numbers == 0) == (got.text != b"")).all())
        self.assertEqual(ct.utc_texts("gps", 2457754.5, 17.5 / 86400, as_str=True), ("2016-12-31T23:59:60.500", 0))
        with self.assertRaises(ct.Refused) as raised:
            ct.utc_texts("gps", NAN, 0.0)
        self.assertEqual(raised.exception.number, 9)
        for wrong in ("ut1", "GPS", None):
            with self.assertRaises(ValueError):
                ct.utc_texts(wrong, 2451545.0, 0.0)
        with self.assertRaises(ValueError):
            ct.from_iso8601("2000-01-01T00:00:00", scale="GPS")


class Times(unittest.TestCase):
    """datetime64 and datetime, both ways."""

    def setUp(self):
        self.rng = np.random.default_rng(33)

    def test_datetime64(self):
        """Each unit, by the texts that numpy writes; in UTC and in scales without leap seconds."""
        for unit, per_day in (("Y", 1 / 366), ("M", 1 / 31), ("W", 1 / 7), ("D", 1), ("h", 24), ("m", 1440), ("s", 86400), ("ms", 86400e3), ("us", 86400e6), ("ns", 86400e9)):
            times = self.rng.integers(int(-20000 * per_day), int(40000 * per_day), 300).view(f"M8[{unit}]")
            texts = np.datetime_as_string(times, unit="s" if per_day < 86400 else unit)
            for scale in ("utc", "gps", "tdb"):
                due = ct.from_iso8601(texts, scale=scale)
                got = ct.from_datetime(scale, times)
                self.assertEqual(got.numbers.tolist(), due.numbers.tolist())
                self.assertEqual((got.jd1.tolist(), got.jd2.tolist()), (due.jd1.tolist(), due.jd2.tolist()), (unit, scale))
            for make in (times.astype(times.dtype.newbyteorder(">")), np.repeat(times, 2)[::2], times.tolist() if unit in ("s", "ms", "us") else times):
                self.assertEqual(ct.from_datetime("utc", make).jd2.tolist(), ct.from_datetime("utc", times).jd2.tolist())
        self.assertEqual(ct.from_datetime("utc", np.array(["2000-01-01T00:00:10"], "M8[25s]")).jd2.tolist(), ct.from_iso8601(["2000-01-01T00:00:00"]).jd2.tolist())

    def test_far_and_missing(self):
        """NaT and times that do not fit are refused at their place; none goes round."""
        for unit in ("Y", "M", "W", "D", "h", "m", "s", "ms", "us", "ns", "25s"):
            held = np.array([0, -(2**63), 2**63 - 1, -(2**63) + 1, 2**62, -(2**62)], "<i8").view(f"M8[{unit}]")
            for scale, missing in (("utc", 6), ("tai", 1)):
                got = ct.from_datetime(scale, held)
                self.assertEqual(got.numbers[:2].tolist(), [0, missing])
                if unit not in ("ms", "us", "ns"):
                    self.assertTrue((got.numbers[2:] != 0).all(), (unit, scale))
                per_day = {"ms": 86400 * 10**3, "us": 86400 * 10**6, "ns": 86400 * 10**9}.get(unit, 1)
                for i in np.flatnonzero(got.numbers == 0):  # by Python's whole numbers: numpy's days go round here
                    self.assertEqual(got.jd1[i] - 2440587.5, held.view("<i8")[i].item() // per_day)
        with self.assertRaises(ct.Refused):
            ct.from_datetime("utc", np.datetime64("NaT", "s"))

    def test_wrong(self):
        for wrong in (np.zeros(2, "M8[ps]"), np.array(["NaT"], "M8"), [1.0], "2000-01-01T00:00:00", None, np.zeros(2, "m8[s]"), [datetime.date(2000, 1, 1)], [datetime.datetime(2000, 1, 1), 5],
                      [np.datetime64("2000-01-01", "D"), np.datetime64("2000-01-01T00:00", "ns")], [[np.datetime64("2000", "Y"), np.datetime64("2000-01-01T00:00", "ns")]]):
            with self.assertRaises(TypeError) as raised:
                ct.from_datetime("utc", wrong)
            self.assertIn("times ", str(raised.exception))
        with self.assertRaises(ValueError):
            ct.from_datetime("UTC", np.zeros(2, "M8[s]"))

    def test_datetime(self):
        plain = [datetime.datetime(2016, 12, 31, 23, 59, 59, 999999), datetime.datetime(1, 1, 1), datetime.datetime(9999, 12, 31, 23, 59, 59), datetime.datetime(1969, 7, 20, 20, 17, 40, 1)]
        for scale in ("utc", "gps"):
            due = ct.from_iso8601([one.isoformat(timespec="microseconds") for one in plain], scale=scale)
            for given in (plain, np.array(plain, object), np.array(plain, object).reshape(2, 2)):
                got = ct.from_datetime(scale, given)
                self.assertEqual((got.jd1.ravel().tolist(), got.jd2.ravel().tolist()), (due.jd1.tolist(), due.jd2.tolist()))
        zone = datetime.timezone(datetime.timedelta(hours=2, microseconds=7))
        aware = datetime.datetime(2017, 1, 1, 1, 59, 59, 7, tzinfo=zone)
        self.assertEqual(ct.from_datetime("utc", aware), ct.from_iso8601("2016-12-31T23:59:59")[6:])
        self.assertEqual(ct.from_datetime("utc", [aware, None]).numbers.tolist(), [0, 6])
        self.assertEqual(ct.from_datetime("gps", [plain[0], None, NAN]).numbers.tolist(), [0, 1, 1])
        for call in (lambda: ct.from_datetime("gps", [aware]), lambda: ct.from_datetime("utc", [aware, plain[0]])):
            with self.assertRaises(TypeError) as raised:
                call()
            self.assertIn("time zone", str(raised.exception))

    def test_utc_datetime64(self):
        """The time that the text shows; second 60 is 4 at its place, and every other number the text's."""
        for scale in ("utc", "gps", "tai"):
            jd1, jd2 = singles.dates(self.rng, 2000)
            texts = ct.utc_texts(scale, jd1, jd2, form="expanded")
            got = ct.utc_datetime64(scale, jd1, jd2)
            self.assertEqual(got.time.dtype, np.dtype("M8[ms]"))
            leaps = 0
            for text, number, time, told in zip(texts.text.tolist(), texts.numbers.tolist(), got.time, got.numbers.tolist()):
                if number or b":60." in text:
                    leaps += not number
                    self.assertEqual((told, np.isnat(time)), (number or 4, True))
                else:
                    self.assertEqual((told, time), (0, np.datetime64(text.decode(), "ms")))
            self.assertGreater(leaps, 0 if scale == "utc" else -1)
        rows = ct.Table([(12000, 1, singles.S + 1)])  # a year with a sign, and a leap second at its beginning
        far = ct.dtf2d("utc", 11999, 12, 31, 23, 59, [59.5, 60.5], table=rows)
        got = ct.utc_datetime64("utc", far.jd1, far.jd2, table=rows)
        self.assertEqual((got.numbers.tolist(), got.time[0], np.isnat(got.time[1])), ([0, 4], np.datetime64("11999-12-31T23:59:59.500"), True))
        self.assertEqual(ct.utc_datetime64("utc", 2451545.0, 0.0), (np.datetime64("2000-01-01T12:00:00.000"), 0))
        self.assertEqual(ct.utc_datetime64("utc", np.full((2, 2), 2451545.0), 0.0).time.shape, (2, 2))
        self.assertEqual(ct.utc_datetime64("utc", [], []).time.shape, (0,))
        with self.assertRaises(ct.Refused) as raised:
            ct.utc_datetime64("gps", 2457754.5, 17.5 / 86400)
        self.assertEqual(raised.exception.number, 4)

    def test_there_and_back(self):
        times = self.rng.integers(63072000000, 4102444800000, 2000).view("M8[ms]")
        dates = ct.from_datetime("utc", times)
        self.assertTrue((ct.utc_datetime64("utc", dates.jd1, dates.jd2).time == times).all())


class Lines(unittest.TestCase):
    def setUp(self):
        self.rng = np.random.default_rng(34)

    def line(self, **keywords):
        runs = []
        for scale in ("gps", "tai", "utc"):
            jd1, jd2 = singles.dates(self.rng, 60)
            order = np.argsort(np.nan_to_num(jd1 + jd2))
            runs.append((scale, jd1[order], jd2[order]))
        return runs, ct.line_up_recorders(*runs, **keywords)

    def test_table(self):
        """A row for each stamp as the listing has it: the same order, recorder, index, text and number."""
        from celestial_time.lineup import Recorder, listing_of

        for table in (None, singles.TABLE):
            runs, line = self.line(table=table)
            recorders = tuple(Recorder(scale, ct.Stamps(a, b, np.array([len(a)])), None) for scale, a, b in runs)
            listed = b"".join(listing_of(line, recorders, table)).decode().splitlines()[4:-1]
            columns = line.table()
            self.assertEqual(list(columns), ["recorder", "index", "tai1", "tai2", "utc", "number"])
            rows = list(zip(*(columns[name].tolist() for name in columns)))
            self.assertEqual(len(rows), 180)
            for said, (recorder, index, tai1, tai2, utc, number) in zip(listed, rows):
                told = f"refused {number}" if number else utc
                self.assertTrue(said == f"{recorder} {index} {told}" or not number and not utc and said.startswith(f"{recorder} {index} no text "), (said, utc))
                place = {"gps": 0, "tai": 60, "utc": 120}[recorder] + index
                self.assertEqual(number, line.numbers[place])
                self.assertTrue(math.isnan(tai1) and math.isnan(tai2) if number else (tai1, tai2) == (line.jd1[place], line.jd2[place]))

    def test_rows_of_the_line(self):
        """The table's texts go by the rows that the line was made with."""
        rows = ct.Table([(singles.Y, 1, singles.S + 1)])
        utc = ct.dtf2d("utc", singles.Y, 1, 1, 0, 0, [0.5], table=rows)
        line = ct.line_up_recorders(("utc", utc.jd1, utc.jd2), table=rows)
        self.assertEqual(line.table()["utc"].tolist(), [f"{singles.Y}-01-01T00:00:00.500"])
        self.assertIs(line.rows, rows)
        tai = ct.utctai(utc.jd1, utc.jd2, table=rows)
        self.assertEqual(ct.line_up(tai.jd1, tai.jd2, table=rows).table()["utc"].tolist(), line.table()["utc"].tolist())
        for call in (lambda: ct.line_up([], [], table="rows"), lambda: ct.line_up_recorders(("tai", [], []), table="rows")):
            with self.assertRaises(TypeError):
                call()

    def test_names(self):
        line = ct.line_up([2451545.0, 2451546.0], [0.0, 0.0], (1,))
        self.assertEqual(line.table()["recorder"].tolist(), ["0", "1"])
        self.assertEqual(line.table(names=("a", "b", "c"))["recorder"].tolist(), ["a", "b"])
        twice = ct.line_up_recorders(("tai", [2451545.0], [0.0]), ("tai", [2451544.0], [0.0]))
        self.assertEqual(twice.table()["recorder"].tolist(), ["tai 1", "tai 0"])
        for wrong in (("a",), ("a", "a"), ("a", "b", "c")):
            with self.assertRaises(ValueError):
                twice.table(names=wrong)
        self.assertEqual(ct.line_up_recorders(("tai", [], [])).table()["utc"].tolist(), [])

    def test_numbers(self):
        """Numbers that stamps have already stay; the others are as without them."""
        runs, line = self.line()
        given = [self.rng.choice(np.array([0, 0, 18, 255], "u1"), 60), None, np.zeros(60, "u1")]
        kept = given[0].copy()
        got = ct.line_up_recorders(*runs, numbers=given)
        tai = [ct.convert(scale, "tai", a, b) for scale, a, b in runs]
        told = np.concatenate([np.where(given[0], given[0], tai[0].numbers), tai[1].numbers, tai[2].numbers])
        due = ct.line_up(*(np.concatenate([getattr(one, part) for one in tai]) for part in ("jd1", "jd2")), (60, 60), numbers=told)
        self.assertEqual((got.places.tolist(), got.numbers.tolist()), (due.places.tolist(), due.numbers.tolist()))
        self.assertTrue((kept == given[0]).all())
        for error, wrong in ((TypeError, given[:2]), (TypeError, np.zeros(180, "u1")), (ValueError, [np.zeros(59, "u1"), None, None]), (TypeError, [np.zeros(60), None, None]), (TypeError, [[0] * 60, None, None])):
            with self.assertRaises(error) as raised:
                ct.line_up_recorders(*runs, numbers=wrong)
            self.assertIn("numbers", str(raised.exception))

    @unittest.skipUnless(importlib.util.find_spec("pandas"), "no pandas here: its tables and columns are not tried")
    def test_pandas(self):
        import pandas

        runs, line = self.line()
        frame = pandas.DataFrame(line.table())
        self.assertEqual((frame.shape, frame["utc"].map(type).unique().tolist()), ((180, 6), [str]))
        self.assertEqual(frame["number"].tolist(), line.table()["number"].tolist())
        weeks = pandas.DataFrame({"week": [2048, None, 2049], "millis": [0, 5, None]})
        self.assertEqual(ct.gps_from_week(weeks["week"], weeks["millis"]).numbers.tolist(), [0, 18, 18])
        texts = pandas.Series(["2000-01-01T00:00:00", None, "2016-12-31T23:59:60.5Z"])
        for column in (texts, texts.astype("string"), texts.astype("category")):
            self.assertEqual(ct.from_iso8601(column).numbers.tolist(), [0, 15, 0])
        times = pandas.Series(pandas.to_datetime(["2016-12-31T23:59:59.123456789", None, "2000-01-01"]))
        due = ct.from_iso8601(["2016-12-31T23:59:59.123456789", "2000-01-01T00:00:00"])
        for column in (times, times.dt.tz_localize("UTC"), times.dt.tz_localize("UTC").dt.tz_convert("Europe/Berlin"), times.astype(object)):
            got = ct.from_datetime("utc", column)
            self.assertEqual((got.numbers.tolist(), got.jd2[[0, 2]].tolist()), ([0, 6, 0], due.jd2.tolist()))
        self.assertEqual(pandas.Series(ct.utc_datetime64("utc", got.jd1, got.jd2).time).isna().tolist(), [False, True, False])
        with self.assertRaises(TypeError):
            ct.gps_from_week(pandas.Series([2048, None], dtype="Int64"), 0)


class OrderAndBills(unittest.TestCase):
    def setUp(self):
        self.rng = np.random.default_rng(35)

    def test_argsort(self):
        """By exact fractions, equal ones as they stand, for lengths about powers of two."""
        for count in (0, 1, 2, 3, 4, 5, 7, 8, 9, 31, 33, 500):
            jd1, jd2 = singles.dates(self.rng, count)
            again = self.rng.random(count) < 0.4
            jd1[again], jd2[again] = 2451545.0, self.rng.choice([0.0, 1e-20, -1e-20, -0.0], again.sum())
            given = self.rng.choice(np.array([0, 0, 0, 7], "u1"), count)
            for numbers in (None, given):
                got = ct.argsort(jd1, jd2, numbers=numbers)
                own = ct.compare(jd1, jd2, jd1, jd2).numbers
                told = own if numbers is None else np.where(given, given, own)
                due = sorted(np.flatnonzero(told == 0).tolist(), key=lambda i: Fraction(jd1[i]) + Fraction(jd2[i]))
                self.assertEqual((got.places.tolist(), got.numbers.tolist()), (due, told.tolist()))
        self.assertEqual(ct.argsort(np.array([2, 1], ">f8"), [0, 0]).places.tolist(), [1, 0])
        for error, wrong in ((ValueError, ([1.0, 2.0], [1.0])), (ValueError, ([1.0], [1.0, 2.0])), (ValueError, (1.0, 2.0)), (TypeError, (["a"], [1.0]))):
            with self.assertRaises(error):
                ct.argsort(*wrong)
        with self.assertRaises(ValueError):
            ct.argsort([1.0], [1.0], numbers=np.zeros(2, "u1"))

    def test_seconds_between(self):
        """By exact fractions of the TAI, or of the scale itself; leap seconds counted."""
        for scale in ("utc", "tai", "gps", "tt", "tcg"):
            jd1 = np.floor(self.rng.uniform(2445000, 2460000, 300)) + 0.5
            jd2, other2 = self.rng.uniform(0, 1, (2, 300))
            other1 = jd1 + self.rng.integers(-3, 3, 300)
            got = ct.seconds_between(scale, jd1, jd2, other1, other2)
            one, other = ((ct.utctai(a, b)[:2] if scale == "utc" else (a, b)) for a, b in ((jd1, jd2), (other1, other2)))
            for i in range(300):
                due = sum(Fraction(part[i]) for part in one) - sum(Fraction(part[i]) for part in other)
                self.assertLess(abs(Fraction(got.seconds[i]) - due * 86400), Fraction(1, 10**9))
            self.assertEqual(got.numbers.tolist(), [0] * 300)
            bad = ct.seconds_between(scale, [NAN, 2451545.0, 2451545.0], 0.0, [2451545.0, 2451545.0, math.inf], 0.0)
            self.assertEqual((bad.numbers != 0).tolist(), [True, False, True])
            self.assertEqual(np.isnan(bad.seconds).tolist(), [True, False, True])
        self.assertEqual(ct.seconds_between("utc", 2457754.5, 0.0, 2457753.5, 0.0), (86401.0, 0))
        self.assertEqual(ct.seconds_between("utc", [2457754.5, 2457755.5], 0.0, 2457753.5, 0.0).seconds.round(9).tolist(), [86401.0, 172801.0])
        for wrong in ("ut1", "tdb", None):
            with self.assertRaises(ValueError):
                ct.seconds_between(wrong, 0.0, 0.0, 0.0, 0.0)
        with self.assertRaises(ct.Refused):
            ct.seconds_between("tai", NAN, 0.0, 0.0, 0.0)

    def test_standby_bill(self):
        """By Python's own calendar where no second leaps, and a day that has one; times as texts, datetimes and fields."""
        for _ in range(300):
            start = datetime.datetime(2017, 1, 1) + datetime.timedelta(milliseconds=int(self.rng.integers(0, 3 * 10**11)))
            end = start + datetime.timedelta(milliseconds=int(self.rng.integers(0, 10**9)))
            rate, first, second = (int(self.rng.integers(0, 10**6 + 1)) for _ in range(3))
            quarters = -(-(end - start) // datetime.timedelta(seconds=900))
            whole, metres = quarters * rate, first + second
            shares = [whole * first // metres, whole * second // metres]
            if sum(shares) < whole:
                shares[0 if whole * first % metres >= whole * second % metres else 1] += 1
            fields = lambda t: (*t.timetuple()[:6], t.microsecond // 1000)
            for a, b in ((start, end), (start.isoformat(timespec="milliseconds"), end.isoformat(timespec="milliseconds") + "Z"), (fields(start), list(fields(end))),
                         (start.replace(tzinfo=datetime.timezone.utc).astimezone(datetime.timezone(datetime.timedelta(hours=-5))), end.isoformat().encode())):
                self.assertEqual(ct.standby_bill(a, b, rate, first, second), (quarters, *shares))
        self.assertEqual(ct.standby_bill("2016-12-31T23:45:00", "2017-01-01T00:00:00", 1000, 1, 0), (2, 2000, 0))
        self.assertEqual(ct.standby_bill("2016-12-31T23:59:60.5", "2017-01-01T00:00:00", 1000, 1, 0), (1, 1000, 0))
        y = singles.Y - 1
        self.assertEqual(ct.standby_bill(f"{y}-12-31T23:45:00", f"{y + 1}-01-01T00:00:00", 1, 1, 0, table=ct.Table([(y + 1, 1, singles.S + 1)])).quarters, 2)

    def test_standby_bill_wrong(self):
        day = "2020-01-01T00:00:00"
        for number, wrong in ((26, (day, "2019-01-01T00:00:00", 1, 1, 1)), (27, (day, day, 10**6 + 1, 1, 1)), (27, (day, day, 1, -1, 1)), (27, (day, day, 1 << 40, 1, 1)), (28, (day, day, 1, 0, 0)),
                              (1, ("1971-01-01T00:00:00", day, 1, 1, 1)), (2, ((2020, 300, 1, 0, 0, 0, 0), day, 1, 1, 1)), (4, ((2020, 1, 1, 0, 0, 0, 1000), day, 1, 1, 1)), (15, ("today", day, 1, 1, 1)),
                              (4, ("2020-01-01T23:59:60", day, 1, 1, 1)), (4, ((2020, 1, 1, -1, 0, 0, 0), day, 1, 1, 1))):
            with self.assertRaises(ct.Refused) as raised:
                ct.standby_bill(*wrong)
            self.assertEqual(raised.exception.number, number, wrong)
        for error, wrong in ((ValueError, ("2020-01-01T00:00:00.0005", day, 1, 1, 1)), (ValueError, (day, datetime.datetime(2020, 1, 1, 0, 0, 0, 5), 1, 1, 1)), (ValueError, (day, (2020, 1, 1), 1, 1, 1)),
                             (TypeError, (day, day, 1.5, 1, 1)), (OverflowError, (day, (1 << 40, 1, 1, 0, 0, 0, 0), 1, 1, 1)), (OverflowError, ((-(1 << 40), 1, 1, 0, 0, 0, 0), day, 1, 1, 1)), (TypeError, (day, 5, 1, 1, 1))):
            with self.assertRaises(error) as raised:
                ct.standby_bill(*wrong)
            self.assertNotIsInstance(raised.exception, ct.Refused)


class Typed(unittest.TestCase):
    def test_no_any(self):
        """No function of the package says that it answers anything."""
        import pathlib

        for file in pathlib.Path(ct.__file__).parent.glob("*.py"):
            self.assertNotIn("-> Any", file.read_text(), file.name)


if __name__ == "__main__":
    unittest.main()
