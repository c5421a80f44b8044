"""Milliseconds since a launch and places between marker passes, against the single call and whole numbers of Python."""
import bisect
import math
import unittest
from fractions import Fraction

import numpy as np

import celestial_time as ct
import singles
from celestial_time import placing
from celestial_time._answers import NO_LONG

NAN = math.nan


def exact(launch, jd1, jd2):
    """The nearest millisecond by exact fractions, halves up."""
    days = Fraction(jd1) + Fraction(jd2) - Fraction(launch[0]) - Fraction(launch[1])
    return math.floor(days * 86400000 + Fraction(1, 2))


def on_line(passes, places, milli):
    """The place in millimetres by whole numbers of Python; None outside the passes."""
    if not passes[0] <= milli <= passes[-1]:
        return None
    j = min(bisect.bisect_right(passes, milli), len(passes) - 1) - 1
    return places[j] + (milli - passes[j]) * (places[j + 1] - places[j]) // (passes[j + 1] - passes[j])


class Milliseconds(unittest.TestCase):
    def setUp(self):
        self.rng = np.random.default_rng(311)
        self.launch = ct.dtf2d("tai", 2016, 12, 31, 6, 30, 0.125)

    def test_own_millisecond(self):
        """A week and millisecond of GPS, as it is and through TAI, gives its own millisecond."""
        week, millis = self.rng.integers(1930, 2400, 5000), self.rng.integers(0, 604800000, 5000)
        due = (week - 1930) * 604800000 + millis
        gps, launch = ct.gps_from_week(week, millis), ct.gps_from_week(1930, 0)
        for scale, start, stamps in (("gps", launch, gps), ("tai", ct.gpstai(*launch[:2]), ct.gpstai(*gps[:2])), ("tt", *(ct.convert("gps", "tt", *one[:2]) for one in (launch, gps)))):
            got = ct.milliseconds(start, stamps, scale=scale)
            self.assertEqual(got.millis.tolist(), due.tolist(), scale)
            self.assertEqual((got.millis.dtype, got.numbers.any()), (np.int64, False))
            named = ct.milliseconds((scale, *start[:2]), ct.Run(scale, *stamps[:2]))
            self.assertTrue(all(map(np.array_equal, named, got)))

    def test_single_call(self):
        """Each place has what ct_milliseconds answers, with every special float, in arrays of any make."""
        jd1, jd2 = singles.dates(self.rng, 3000)
        jd1[:1500], jd2[:1500] = np.floor(self.rng.uniform(2457754, 2458000, 1500)) + 0.5, self.rng.random(1500)
        launch = float(self.launch.jd1), float(self.launch.jd2)
        due = [singles.call("ct_milliseconds", *map(singles.F64, (*launch, a, b))) for a, b in zip(jd1.tolist(), jd2.tolist())]
        for a, b in ((jd1, jd2), (np.repeat(jd1, 2)[::2], jd2.astype(">f8")), (jd1.tolist(), jd2)):
            got = ct.milliseconds(launch, (a, b), scale="tai")
            self.assertEqual(got.numbers.tolist(), [max(0, -code) for code in due])
            self.assertEqual(got.millis.tolist(), [code if code >= 0 else NO_LONG for code in due])
        self.assertTrue({9, 6, 18} <= set(got.numbers.tolist()))
        for i in range(0, 1500, 7):
            self.assertEqual(due[i], exact(launch, jd1[i], jd2[i]))
        self.assertEqual(ct.milliseconds(launch, (jd1.reshape(30, 100), jd2.reshape(30, 100)), scale="tai").millis.tolist(), got.millis.reshape(30, 100).tolist())

    def test_numbers_stay(self):
        """A stamp that is refused already keeps its number."""
        tai = ct.utctai([2457754.5, NAN, 2457754.5], [0.0, 0.0, math.inf])
        self.assertEqual(ct.milliseconds(self.launch, tai, scale="tai").numbers.tolist(), [0, 6, 6])
        self.assertEqual(ct.milliseconds(self.launch, ct.gps_from_week([2000, 1], [10**9, 5]), scale="gps").numbers.tolist(), [18, 18])
        with self.assertRaises(ct.Refused) as raised:
            ct.milliseconds(self.launch, (NAN, 0.0), scale="tai")
        self.assertEqual((raised.exception.number, raised.exception.call), (9, "milliseconds"))
        self.assertEqual(ct.milliseconds(self.launch, (self.launch.jd1, self.launch.jd2 + 1.0), scale="tai"), (86400000, 0))
        for wrong, number in (((NAN, 0.0), 9), ((0.0, math.inf), 9), ((3e9, 0.0), 6)):
            with self.assertRaises(ct.Refused) as raised:
                ct.milliseconds(wrong, ([2457754.5, NAN], [0.0, 0.0]), scale="tai")
            self.assertEqual(raised.exception.number, number)
        with self.assertRaises(ct.Refused) as raised:
            ct.milliseconds(self.launch, ct.Dates(2457754.5, 0.0, 4), scale="tai")
        self.assertEqual(raised.exception.number, 4)
        for wrong in (np.array([256, 0], "u8"), np.array([0, 65536], "u4"), [0, -1]):
            with self.assertRaisesRegex(ValueError, "0 to 255 are due"):
                ct.milliseconds(self.launch, ct.Dates(tai.jd1[:2], tai.jd2[:2], wrong), scale="tai")

    def test_utc_is_an_error(self):
        """And so are UT1, two scales, and what is no date."""
        utc = 2457754.5, 0.0
        for wrong in (lambda: ct.milliseconds(("utc", *utc), utc), lambda: ct.milliseconds(("tai", *utc), ct.Run("utc", *utc)), lambda: ct.milliseconds(("gps", *utc), ("tai", *utc)),
                      lambda: ct.milliseconds(("lunar", *utc), utc), lambda: ct.milliseconds(("ut1", *utc), utc), lambda: ct.milliseconds(([2457754.5], 0.0), utc, scale="tai"),
                      lambda: ct.milliseconds(utc, utc, scale="utc"), lambda: ct.milliseconds(utc, utc, scale="ut1"), lambda: ct.milliseconds(utc, utc, scale="TAI"),
                      lambda: ct.milliseconds(("tai", *utc), utc, scale="gps"), lambda: ct.milliseconds(("tai", *utc), ("tai", *utc), scale="gps"),
                      lambda: ct.milliseconds(utc, ct.Run("gps", *utc), scale="tai"), lambda: ct.place(utc, ([0, 1], [0.0, 1.0]), launch=utc, scale="utc")):
            with self.assertRaises(ValueError) as raised:
                wrong()
            self.assertNotIsInstance(raised.exception, ct.Refused)
        self.assertEqual([ct.milliseconds((scale, *utc), (scale, *utc)).millis for scale in ("tai", "gps", "tt", "tcg", "tcb", "tdb")], [0] * 6)
        fields = ct.from_iso8601("2017-01-01T00:00:00Z")
        for wrong in (lambda: ct.milliseconds(utc, fields), lambda: ct.milliseconds(2457754.5, utc), lambda: ct.milliseconds(utc, np.zeros(2)), lambda: ct.milliseconds(utc, (1.0,)),
                      lambda: ct.milliseconds(utc, ("2017", "2018")), lambda: ct.milliseconds(("tai", *utc), ("2017", "2018"), scale="tai"),
                      lambda: ct.milliseconds(("tai", *utc), (*utc, 0)), lambda: ct.milliseconds(("tai", *utc), (*map(np.atleast_1d, utc), [0]))):
            with self.assertRaises(TypeError):
                wrong()

    def test_scale_is_named(self):
        """Dates whose scale nobody names are an error that says how to name it: UTC would pass for TAI."""
        tai, gps = ct.utctai(2457754.5, [0.0, 0.5]), ct.gps_from_week(1930, [0, 1])
        launch, passes = ct.utctai(2457754.5, 0.0), ([0, 10**8], [0.0, 1.0])
        pair = launch[:2]
        for wrong in (lambda: ct.milliseconds(launch, tai), lambda: ct.milliseconds(pair, tai), lambda: ct.milliseconds(launch, tai[:2]), lambda: ct.milliseconds(("tai", *pair), tai),
                      lambda: ct.milliseconds(launch, ("tai", *tai[:2])), lambda: ct.milliseconds(launch, gps), lambda: ct.place(tai, passes, launch=launch),
                      lambda: ct.place(tai[:2], passes, launch=("tai", *pair))):
            with self.assertRaisesRegex(TypeError, "no scale is named: scale='tai', or hand over \\(scale, jd1, jd2\\)"):
                wrong()
        for good in (lambda: ct.milliseconds(launch, tai, scale="tai"), lambda: ct.milliseconds(("tai", *pair), tai, scale="tai"), lambda: ct.milliseconds(pair, ct.Run("tai", *tai[:2]), scale="tai"),
                     lambda: ct.milliseconds(("tai", *pair), ["tai", *tai[:2]])):
            self.assertEqual(good().millis.tolist(), [0, 43200000])
        self.assertEqual(ct.place(tai, passes, launch=launch, scale="tai").mm.tolist(), [0, 432])
        for wrong, said in ((lambda: ct.place([0], passes, scale="tai"), "have none"), (lambda: ct.place(ct.Dates(2457755.0, 0.0, 0), passes), "by a launch"),
                            (lambda: ct.place(ct.Run("tai", 2457755.0, 0.0), passes), "by a launch")):
            with self.assertRaisesRegex(TypeError, said):
                wrong()


class Placing(unittest.TestCase):
    def setUp(self):
        self.rng = np.random.default_rng(312)
        self.passes = np.cumsum(self.rng.integers(1, 10**7, 200)).tolist()
        self.places = np.cumsum(self.rng.integers(1, 10**7, 200)).tolist()

    def test_whole_numbers(self):
        """As Python's whole numbers say: at passes, between them and outside, in any order, from whole numbers and floats, in metres and millimetres."""
        millis = np.concatenate([self.rng.integers(-10**6, self.passes[-1] + 10**6, 3000), self.passes, np.array(self.passes) + 1])
        due = [on_line(self.passes, self.places, milli) for milli in millis.tolist()]
        metres = np.array(self.places) / 1000.0
        for readings in (millis, millis.astype(float), millis.tolist()):
            for places, unit in ((self.places, "mm"), (metres, "m"), (metres.tolist(), "m")):
                got = ct.place(readings, (self.passes, places), unit=unit)
                self.assertEqual(got.mm.tolist(), [NO_LONG if one is None else one for one in due])
                self.assertEqual(got.numbers.tolist(), [25 if one is None else 0 for one in due])
        self.assertTrue(all(one == mm / 1000 or one != one and number for one, mm, number in zip(got.metres.tolist(), got.mm.tolist(), got.numbers.tolist())))
        self.assertEqual(ct.place(millis[:100].reshape(4, 25), (self.passes, self.places), unit="mm").mm.tolist(), got.mm[:100].reshape(4, 25).tolist())
        rising = np.sort(millis)
        among = ct.place(rising, (self.passes, metres))
        self.assertTrue((np.diff(among.mm[among.numbers == 0]) >= 0).all())

    def test_numbers_stay(self):
        """A reading that is refused keeps its number and has no place; NaN is 25; a single one raises."""
        passes = [0, 1000], [0.0, 1.0]
        at = ct.milliseconds((2457754.5, 0.0), ct.utctai([2457753.5, NAN, 2457754.5, 2457000.5], [1.0, 0.0, 0.5, 0.0]), scale="tai")
        self.assertEqual(at.numbers.tolist(), [0, 6, 0, 18])
        got = ct.place(at, ([0, 43200000, 10**8], [0.0, 1.0, 2.0]))
        self.assertEqual(got.numbers.tolist(), [0, 6, 0, 18])
        self.assertEqual(got.metres.tolist()[1:2] != [0.0], True)
        self.assertEqual(ct.place([1, 2, NAN], passes, numbers=np.array([0, 9, 0], "u1")).numbers.tolist(), [0, 9, 25])
        self.assertEqual(ct.place(500, passes), (500, 0))
        self.assertEqual(ct.place(500, passes).metres, 0.5)
        for wrong, number in ((1001, 25), (-1, 25), (NAN, 25)):
            with self.assertRaises(ct.Refused) as raised:
                ct.place(wrong, passes)
            self.assertEqual((raised.exception.number, raised.exception.call), (number, "place"))
        self.assertEqual(ct.place([], passes).mm.tolist(), [])

    def test_stamps(self):
        """With a launch, stamps are placed by their milliseconds; passes may be an answer of milliseconds."""
        launch = ct.utctai(2457753.5, 0.5)
        stamps = ct.add_seconds(launch.jd1, launch.jd2, [0.0, 0.25, 0.75, NAN])
        marks = ct.milliseconds(launch, ct.add_seconds(launch.jd1, launch.jd2, [0.0, 0.5, 1.0]), scale="tai")
        got = ct.place(stamps, (marks, [10.0, 11.0, 13.0]), launch=launch, scale="tai")
        self.assertEqual((got.mm.tolist(), got.numbers.tolist()), ([10000, 10500, 12000, NO_LONG], [0, 0, 0, 9]))

    def test_wrong(self):
        """Passes that the library refuses refuse the call; other faults are errors that say which."""
        for passes, number in ((([0], [0.0]), 23), (([0, 1], [0.0]), 23), (([0, 1 << 40], [0.0, 1.0]), 23), (([0, 1], [-1.0, 1.0]), 23), ((range(2001), np.arange(2001) * 1.0), 23),
                               (([0, 0], [0.0, 1.0]), 24), (([0, 1], [1.0, 1.0]), 24), (([0, NAN], [0.0, 1.0]), 23)):
            passes = tuple(list(part) for part in passes)
            with self.assertRaises(ct.Refused) as raised:
                ct.place([0], passes)
            self.assertEqual(raised.exception.number, number, passes)
        good = [0, 1000], [0.0, 1.0]
        for call, kind, said in (
            (lambda: ct.place([0.5], good), ValueError, "readings holds 0.5 at place 0"), (lambda: ct.place([0], ([0, 1000], [0.0, 1.0005])), ValueError, "metres holds 1.0005 at place 1"),
            (lambda: ct.place([0], ([0, 1.5], [0.0, 1.0])), ValueError, "passes holds 1.5 at place 1"), (lambda: ct.place([0], good, unit="km"), ValueError, "no unit: 'km'"),
            (lambda: ct.place([0], good[0]), ValueError, "passes: a list has 0 dimensions"), (lambda: ct.place([0, 1], good, numbers=[0]), ValueError, "numbers of shape (1,)"),
            (lambda: ct.place([0], ([0, 1000], [0, 0.5]), unit="mm"), ValueError, "places holds 0.5"), (lambda: ct.place(np.zeros(3), good, launch=(2457754.5, 0.0)), TypeError, "stamps are due"),
            (lambda: ct.place([0, 1], good, numbers=[0, 256]), ValueError, "hold 256 at place 1: 0 to 255"), (lambda: ct.place([0], good, numbers=[-1]), ValueError, "hold -1 at place 0"),
            (lambda: ct.place([0], good, numbers=[1.0]), ValueError, "whole numbers are due"), (lambda: ct.place([0], good, numbers=np.array([1 << 32], "u8")), ValueError, "0 to 255"),
            (lambda: ct.place([0], ([0, 1000], [0.0, 600000.0005])), ValueError, "metres holds 600000.0005 at place 1"),
            (lambda: ct.place([0], ([0, 1000], [0.0, 1.0000002])), ValueError, "metres holds 1.0000002 at place 1"),
            (lambda: ct.place([0], ([[0, 1]], [[0.0, 1.0]])), ValueError, "dimensions"), (lambda: ct.place(["0"], good), TypeError, "readings"),
        ):
            with self.assertRaises(kind) as raised:
                call()
            self.assertNotIsInstance(raised.exception, ct.Refused)
            if said != "readings":
                self.assertIn(said, str(raised.exception))

    def test_millimetres(self):
        """Decimals of three places are whole millimetres wherever they lie on the pipe, sums of them too, and half a millimetre is none anywhere."""
        whole = np.concatenate([self.rng.integers(0, 10**most, 500) for most in range(1, 13)])
        metres = np.array([float(f"{mm // 1000}.{mm % 1000:03d}") for mm in whole.tolist()])
        mm, broken = placing.millimetres_of(metres, "m")
        self.assertEqual((mm.tolist(), broken.any()), (whole.tolist(), False))
        self.assertFalse(placing.millimetres_of(np.cumsum(np.full(10000, 0.1)), "m")[1].any())
        near = metres[whole < 10**11]
        for off in (0.0005, 0.0003, -0.0002):
            self.assertTrue(placing.millimetres_of(near + off, "m")[1].all())
        self.assertEqual(placing.millimetres_of(np.array([5.0, 5.5, 6e8 + 0.5, NAN, math.inf, 1e306]), "mm")[1].tolist(), [False, True, True, True, True, False])
        for far in (1e306, math.inf, 2e9):
            with self.assertRaises(ct.Refused) as raised:
                ct.place([0], ([0, 1000], [0.0, far]))
            self.assertEqual(raised.exception.number, 23)

    def test_one_dent(self):
        """Three recorders see one dent. Where their milliseconds are one their places are one, and else they differ by no more than one millisecond's
        travel and 1 mm."""
        launch = ct.utctai(*ct.dtf2d("utc", 2016, 12, 31, 23, 0, 0.0)[:2])
        millis = np.sort(self.rng.choice(4 * 10**6, 3000, replace=False))
        tai = ct.add_seconds(launch.jd1, launch.jd2, millis / 1000.0)
        week = ct.gps_to_week(*ct.taigps(*tai[:2])[:2])
        gps = ct.gpstai(*ct.gps_from_week(week.week, week.millis)[:2])
        texts = ct.utc_texts("tai", *tai[:2]).text
        read = ct.from_iso8601(texts)
        utc = ct.utctai(read.jd1, read.jd2)
        marks = [0, 10**6, 3 * 10**6, 5 * 10**6], [0, 2_400_000, 9_000_000, 9_500_000]
        fastest = max((b - a) / (t - s) for a, b, s, t in zip(marks[1], marks[1][1:], marks[0], marks[0][1:]))
        exactly = [ct.milliseconds(launch, run, scale="tai") for run in (gps, tai, utc)]
        self.assertTrue(any(b"T23:59:60" in text for text in texts.tolist()) or ((millis >= 3600000) & (millis < 3601000)).sum() == 0)
        for one in exactly:
            self.assertEqual(one.millis.tolist(), millis.tolist())
            self.assertEqual(ct.place(one, marks, unit="mm").mm.tolist(), ct.place(millis, marks, unit="mm").mm.tolist())
        late = ct.add_seconds(tai.jd1, tai.jd2, self.rng.uniform(-0.0005, 0.0005, len(millis)))
        seen = ct.milliseconds(launch, late, scale="tai")
        self.assertTrue((np.abs(seen.millis - millis) <= 1).all())
        good = (seen.numbers == 0) & (seen.millis >= 0)
        apart = np.abs(ct.place(seen.millis[good], marks, unit="mm").mm - ct.place(millis[good], marks, unit="mm").mm)
        self.assertTrue((apart[seen.millis[good] == millis[good]] == 0).all())
        self.assertTrue((apart <= fastest + 1).all())


if __name__ == "__main__":
    unittest.main()
