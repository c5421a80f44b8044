"""Stamps of every kind, and what both calls for runs are held against."""
import datetime
import fractions
import math
import pathlib
import struct
import sys

sys.path.insert(0, str(pathlib.Path(__file__).resolve().parents[1]))
import leap_rows

Exact = fractions.Fraction
UTC, TAI, UT1, TT, GPS, TCG, TCB, TDB = range(8)
DAY = 86400


def day_of(year, month):
    """Days from Julian date 0.5 to the first of a month."""
    return datetime.date(year, month, 1).toordinal() + 1721424


FIXED = [(day_of(y, m), s) for y, m, s in leap_rows.WHOLE]
# 1977-01-01 and 32.184 s, in days from Julian date 0.5
ZERO77 = Exact(day_of(1977, 1)) + Exact(32184, 1000 * DAY)


# ---- patterns
def pattern(x):
    return int.from_bytes(struct.pack("<d", x), "little")


def floats_of(p):
    return struct.unpack("<d", p.to_bytes(8, "little"))[0]


def dead(p):
    return p >> 52 & 2047 == 2047


def answered(x):
    """The pattern of a float that a call gives."""
    return 0x7FF8000000000000 if x != x else pattern(x)


# ---- the formulas' frame, and the exact date
def moved(a, b, f):
    """The date with its smaller part changed; of two parts of one size the first is."""
    return (a, f(a, b)) if abs(a) > abs(b) else (f(b, a), b)


def allowed(before, after):
    """The days by which an answer may miss the exact date: 0.2 ns, and the last places of the parts."""
    return Exact(2, 10**10 * DAY) + 4 * sum(Exact(math.ulp(min(abs(x), abs(y)))) for x, y in (before, after))


# ---- stamps
def divided(rng, day, fraction):
    kind = rng.randrange(6)
    if kind == 0:
        return fraction, day
    if kind == 1:
        return 2400000.5, day - 2400000.5 + fraction
    if kind == 2:
        half = rng.choice([0.5, 0.25, 2.0**-20])
        return day - half, fraction + half
    if kind == 3:
        return day + fraction, rng.choice([0.0, -0.0])
    return day, fraction


ODD = [0.0, -0.0, 5e-324, -5e-324, 2.2250738585072014e-308, 1e-300, 0.5, -0.5, 1.0, 2400000.5, 2451545.0, -68569.5, -68570.0, -31738.5, -31739.5, 1e9, 1e9 + 0.5, 4503599627370496.0, 9007199254740993.0, 1e22, 1.7e308, -1.7e308, 1.7976931348623157e308]


def dead_pattern(rng):
    return 2047 << 52 | rng.getrandbits(1) << 63 | rng.choice([0, 0, 1, 1 << 51, rng.getrandbits(52)])


def stamp(rng):
    """The two patterns of a stamp."""
    by = rng.random()
    if by < 0.03:
        bad = dead_pattern(rng)
        good = pattern(rng.choice([0.0, 2451545.0, 0.25, rng.random()]))
        return rng.choice([(bad, good), (good, bad), (bad, bad), (bad, bad ^ 1 << 63)])
    if by < 0.06:
        return pattern(rng.choice(ODD)), pattern(rng.choice(ODD + [rng.random()]))
    if by < 0.07:
        one = pattern(rng.choice(ODD + [rng.uniform(0, 3e6)]))
        return one, one ^ rng.getrandbits(1) << 63
    if by < 0.09:
        return rng.getrandbits(64), rng.getrandbits(64)
    if by < 0.14:
        return tuple(map(pattern, divided(rng, float(rng.randrange(-70000, 2441317)) + 0.5, rng.random())))
    if by < 0.2:
        day = rng.choice(FIXED)[0] - 0.5 + rng.choice([-1, 0, 1])
        return tuple(map(pattern, divided(rng, day, rng.choice([0.0, 0.9999999, 1 - 2.0**-53, 1e-9, rng.random(), 20 / 86400 * rng.random()]))))
    return tuple(map(pattern, divided(rng, float(rng.randrange(2441317, 2470000)) + 0.5, rng.random())))


# Where a recorder's run may lie beside the starts of leap rows, with TAI-UTC: after a leap day and after the last of a February without one, at a month's and a year's end, on
# days of the drift and before it, far off, and where the calendar ends.
PLACES = [(day_of(2016, 3), 36), (day_of(2000, 3), 32), (day_of(2100, 3), 37), (day_of(2015, 5), 35), (day_of(2020, 1), 37), (day_of(1966, 1), 4), (day_of(1971, 3), 9), (day_of(1959, 6), 0), (5373484, 37), (-31739, 0), (999999998, 37)]


def recorded(rng, count, rows):
    """The patterns of a run as a recorder writes it: a midnight in jd1 and the fraction of the day in jd2, in even steps within a day or over a midnight of UTC, the day carried
    into jd1 for the most part. Between them are stamps that are not finite, other divisions and stamps of every kind; some runs are out of order."""
    start, seconds = rng.choice(rng.choice([FIXED, rows[len(FIXED) :] or FIXED, PLACES]))
    step = rng.choice([1e-3, 1e-3, 0.1, 1.0, 3000.0]) / DAY
    first = rng.choice([0, 0, seconds, seconds - 19, seconds + 32.184, rng.uniform(-DAY, DAY)]) / DAY - step * rng.randrange(count + 1)
    carried = rng.random() < 0.8
    made = []
    for i in range(count):
        at, by = first + i * step, rng.random()
        days = math.floor(at) if carried else 0
        midnight, rest = start + days + 0.5, at - days
        if by < 0.03:
            made.append((pattern(midnight), dead_pattern(rng)) if rng.random() < 0.7 else (dead_pattern(rng), pattern(rest)))
        elif by < 0.05:
            made.append(stamp(rng))
        else:
            made.append(tuple(map(pattern, divided(rng, midnight, rest) if by < 0.1 else (midnight, rest))))
    disorder = rng.random()
    if disorder < 0.15:
        rng.shuffle(made)
    elif disorder < 0.3:
        for _ in range(count // 10):
            i, k = rng.randrange(count), rng.randrange(count)
            made[i], made[k] = made[k], made[i]
    return made


def lists_of(rng, count, rows=FIXED, in_time=None):
    """The bytes of so many stamps, each by itself or as a recorder writes them, by chance, and the bytes lent for their answers: as many as are due, or some more."""
    in_time = rng.random() < 0.5 if in_time is None else in_time
    stamps = recorded(rng, count, rows) if in_time else [stamp(rng) for _ in range(count)]
    firsts, seconds = (b"".join(s[k].to_bytes(8, "little") for s in stamps) for k in (0, 1))
    spare = [rng.choice([0, 0, 1, 7, 8, 40]) for _ in range(3)]
    return firsts, seconds, [8 * count + spare[0], 8 * count + spare[1], count + spare[2]]


def too_few_places(rng, firsts, rooms):
    k = rng.randrange(3)
    rooms[k] = max(0, (len(firsts) if k < 2 else len(firsts) // 8) - 1 - rng.randrange(3))


def sizes_by_chance(rng, left, stamps):
    """How many stamps the next run has."""
    return min(left, rng.choice([0, 1, 2, 3, 31, 31, 300, 3000 if stamps > 100000 else 100]))
