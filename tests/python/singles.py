"""The calls of the C interface one stamp at a time, by ctypes and struct alone, and inputs for them: what the package's functions are held against.

A case has a function of the package, its arguments as arrays, and the single call of the same arguments: its code, and the values of its bytes.
"""
import ctypes
import itertools
import math
import pathlib
import struct
import sys
from typing import NamedTuple

import numpy as np

import celestial_time as ct
from celestial_time._library import library
from celestial_time.scales import RUN_SCALES

sys.path.insert(0, str(pathlib.Path(__file__).resolve().parents[1]))
import leap_rows

LIB = ctypes.CDLL(library()._name)  # not the package's own, whose functions have the package's types
# Made-up rows follow the last fixed one: Y is ten years after it, S are its seconds.
Y, S = leap_rows.ROWS[-1][0] + 10, leap_rows.LAST_SECONDS
TABLE = ct.Table([(Y, 1, S + 1), (Y + 1, 7, S)])
U8, U32, U64, I32, I64, F64 = ctypes.c_uint8, ctypes.c_uint32, ctypes.c_uint64, ctypes.c_int32, ctypes.c_int64, ctypes.c_double


class Case(NamedTuple):
    function: object
    single: object
    inputs: list
    name: str


def call(name, *arguments):
    one = getattr(LIB, name)
    one.restype = I64
    return one(*arguments)


def answered(name, arguments, shape, extra=()):
    """The code of a call that writes an answer of this struct's shape, and the values, or None where it is refused."""
    size = struct.calcsize("<" + shape)
    out = ctypes.create_string_buffer(b"\xaa" * (size + 8), size + 8)
    code = call(name, *arguments, out, ctypes.c_size_t(size), *extra)
    if code < 0:
        assert out.raw == b"\xaa" * (size + 8), f"{name}: a refusal wrote"
        return code, None
    return code, struct.unpack("<" + shape, out.raw[:size])


def table_of(table):
    held = bytes(table or ct.Table())
    return ctypes.create_string_buffer(held, len(held)), ctypes.c_size_t(len(held))


def plain(name):
    return lambda a, b: answered(name, (F64(a), F64(b)), "2d")


def shifted(name):
    return lambda a, b, x: answered(name, (F64(a), F64(b), F64(x)), "2d")


def by_table(name, shape, table=None):
    return lambda a, b: answered(name, (F64(a), F64(b), *table_of(table)), shape)


def shifted_by_table(name, shape, table=None):
    return lambda a, b, x: answered(name, (F64(a), F64(b), F64(x), *table_of(table)), shape)


def way(source, target, table=None):
    """From one of the five scales of a run to another by single calls: through TAI, but TT and TCG without it; to the same scale what is finite stays."""
    def step(a, b, one, other):
        if "utc" in (one, other):
            return cut(2, by_table(f"ct_{one}_to_{other}", "2d2i" if one == "utc" else "2d", table))(a, b)
        return plain(f"ct_{one}_to_{other}")(a, b)

    def through(a, b):
        if source == target:
            return (0, (a, b)) if math.isfinite(a) and math.isfinite(b) else (-9, None)
        if "tai" in (source, target) or {source, target} == {"tt", "tcg"}:
            return step(a, b, source, target)
        code, values = step(a, b, source, "tai")
        return (code, None) if code < 0 else step(*values, "tai", target)

    return through


def text(name, table=None):
    def one(a, b):
        out, rule = ctypes.create_string_buffer(27), ctypes.create_string_buffer(8)
        code = call(name, F64(a), F64(b), *table_of(table), out, ctypes.c_size_t(27), rule, ctypes.c_size_t(8))
        return code, None if code < 0 else (out.raw[:code], *struct.unpack("<2i", rule.raw))
    return one


def cut(count, single):
    """A single call whose last values the function does not give."""
    def one(*arguments):
        code, values = single(*arguments)
        return code, None if values is None else values[:count]
    return one


def rest(count, single):
    """A single call whose first values the function does not give."""
    def one(*arguments):
        code, values = single(*arguments)
        return code, None if values is None else values[count:]
    return one


def field(x):
    """A field for 8 bits: the package hands 255 over for what does not fit."""
    return U8(x if 0 <= x <= 255 else 255)


SPECIAL = [0.0, -0.0, 1.0, -1.0, 0.5, math.nan, math.inf, -math.inf, 5e-324, -2.2250738585072014e-308, 1.7e308, -1.7976931348623157e308, 2.9937604643020797e292,
           2451545.0, 2400000.5, 2457753.5, 2457754.5, 2441317.5, 2436934.5, 2444244.5, 1e9, -68569.5, -68571.0, -31739.5, 2.0**52, 2.0**63, 1 - 2.0**-53]


def dates(rng, count):
    """Stamps of today and of leap days, special values in every place, and any bits."""
    jd1 = np.floor(rng.uniform(2436000, 2470000, count)) + 0.5
    jd2 = rng.uniform(-1, 1.5, count)
    leap = rng.random(count) < 0.3
    jd1[leap] = rng.choice([2457753.5, 2457754.5, 2441498.5, 2441317.5, 2437300.5], leap.sum())
    jd2[leap] = 1 - rng.choice([0.0, 1e-5, 1e-9, 1.2e-5, 2.0**-53], leap.sum())
    for part in (jd1, jd2):
        at = rng.random(count) < 0.1
        part[at] = rng.choice(SPECIAL, at.sum())
    wild = rng.random(count) < 0.05
    jd1[wild] = rng.integers(0, 2**64, wild.sum(), np.uint64).view(np.float64)
    return [jd1, jd2]


def offsets(rng, count):
    by = rng.uniform(-100, 100, count)
    at = rng.random(count) < 0.15
    by[at] = rng.choice(SPECIAL, at.sum())
    return by


def days(rng, count):
    year = rng.integers(1955, 2035, count)
    at = rng.random(count) < 0.1
    year[at] = rng.choice([-4800, -4799, 2147483647, -2147483648, 0, 12000], at.sum())
    return [year, rng.integers(-1, 15, count), rng.integers(-1, 34, count)]


def times(rng, count):
    second = rng.choice([0.0, 59.0, 59.999, 60.0, 60.5, 61.0, -0.5, math.nan, math.inf], count)
    fields = [*days(rng, count), rng.choice([0, 12, 23, 24, 300, -1], count), rng.choice([0, 30, 59, 60, 255, 256], count), second]
    leap = rng.random(count) < 0.4
    for place, value in enumerate((2016, 12, 31, 23, 59)):
        fields[place][leap] = value
    return fields


def texts(rng, count):
    good = ct.to_iso8601(*dates(rng, count)).text
    other = [b"", b"2016-12-31T23:59:60.5Z", b"2016-12-31 23:59:60", b"2015-12-31T23:59:60", b" 2000-01-01T00:00:00 ", b"2000-13-01T24:00:00", b"2000-01-01T00:00:00.12345678901234",
             b"2000-01-01T00:00:61", b"yesterday", b"2000-01-01T12:00:00.0001Z", b"2000-1-1T0:0:0", b"\xff\xfe", b"2000-01-01T00:00:00\x00Z"]
    mixed = good.astype("S40")
    at = rng.random(count) < 0.4
    mixed[at] = rng.choice(np.array(other, "S40"), at.sum())
    return [mixed]


def read_time(given):
    """The fields of a text, and the date of a scale without leap seconds."""
    code, fields = answered("ct_parse_iso8601", (given, ctypes.c_size_t(len(given))), "5id")
    if fields is None:
        return code, None
    code, date = answered("ct_from_calendar", (I32(fields[0]), *map(U8, fields[1:5]), F64(fields[5])), "2d")
    return code, None if date is None else (*fields, *date)


def cases(rng, count):
    """Every function of the package that goes over stamps, with its inputs."""
    def utc(function, **keywords):
        return lambda *a, **k: function(*a, **keywords, **k)

    for name in ("gps_tai", "tai_gps", "tai_tt", "tt_tai", "tai_tcg", "tcg_tai", "tt_tcg", "tcg_tt", "tcb_tdb", "tdb_tcb"):
        source, target = name.split("_")
        single = plain(f"ct_{source}_to_{target}")
        yield Case(getattr(ct, source + target), single, dates(rng, count), source + target)
    for name, called in (("tttdb", "tt_to_tdb_with_offset"), ("tdbtt", "tdb_to_tt_with_offset"), ("ut1tai", "ut1_to_tai_with_offset"), ("taiut1", "tai_to_ut1_with_offset"),
                         ("ut1tt", "ut1_to_tt_with_delta_t"), ("ttut1", "tt_to_ut1_with_delta_t"), ("add_days", "add_days"), ("add_seconds", "add_seconds")):
        yield Case(getattr(ct, name), shifted(f"ct_{called}"), [*dates(rng, count), offsets(rng, count)], name)
    for table in (None, TABLE):
        lent = {"table": table}
        said = "" if table is None else " with rows"
        yield Case(utc(ct.utctai, **lent), cut(2, by_table("ct_utc_to_tai", "2d2i", table)), dates(rng, count), "utctai" + said)
        yield Case(utc(ct.utctai, return_rule=True, **lent), by_table("ct_utc_to_tai", "2d2i", table), dates(rng, count), "utctai, rule" + said)
        for source, target in itertools.product(RUN_SCALES, RUN_SCALES):
            yield Case(utc(lambda *a, s=source, t=target, **k: ct.convert(s, t, *a, **k), **lent), way(source, target, table), dates(rng, count), f"convert {source} {target}" + said)
        yield Case(utc(ct.taiutc, **lent), by_table("ct_tai_to_utc", "2d", table), dates(rng, count), "taiutc" + said)
        by = [*dates(rng, count), offsets(rng, count)]
        yield Case(utc(ct.utcut1, **lent), cut(2, shifted_by_table("ct_utc_to_ut1_with_dut1", "2d2i", table)), by, "utcut1" + said)
        yield Case(utc(ct.utcut1, return_rule=True, **lent), shifted_by_table("ct_utc_to_ut1_with_dut1", "2d2i", table), by, "utcut1, rule" + said)
        yield Case(utc(ct.ut1utc, **lent), shifted_by_table("ct_ut1_to_utc_with_dut1", "2d", table), by, "ut1utc" + said)
        yield Case(utc(ct.from_unix, **lent), lambda s, n, t=table: answered("ct_utc_new", (I64(s), U32(n), *table_of(t)), "2d"),
                   [rng.choice([0, -1, 1483228799, 1483228800, 2**63 - 1, -(2**63), 1798761599], count), rng.choice([0, 1, 999999999, 1000000000], count)], "from_unix" + said)
        yield Case(utc(lambda *a, **k: ct.dtf2d("utc", *a, **k), **lent),
                   lambda y, m, d, h, n, s, t=table: answered("ct_utc_from_calendar", (I32(y), field(m), field(d), field(h), field(n), F64(s), *table_of(t)), "2d"),
                   times(rng, count), "dtf2d utc" + said)
        yield Case(utc(ct.dat, **lent), lambda y, m, d, f, t=table: answered("ct_get_tai_utc_offset", (I32(y), I32(m), I32(d), F64(f), *table_of(t)), "d2i"),
                   [*days(rng, count), rng.choice([0.0, 0.5, 1.0, 1.5, -0.1, math.nan], count)], "dat" + said)
        yield Case(utc(ct.leap_at_end_of_day, **lent), lambda y, m, d, t=table: answered("ct_leap_at_end_of_day", (I32(y), I32(m), I32(d), *table_of(t)), "d"),
                   days(rng, count), "leap_at_end_of_day" + said)
        for form, called in ct.FORMS.items():
            if hasattr(LIB, called):
                yield Case(utc(ct.to_iso8601, form=form, **lent), cut(1, text(called, table)), dates(rng, count), f"to_iso8601 {form}" + said)
                yield Case(utc(ct.to_iso8601, form=form, return_rule=True, **lent), text(called, table), dates(rng, count), f"to_iso8601 {form}, rule" + said)
        read_utc = lambda s, t=table: answered("ct_utc_from_iso8601", (s, ctypes.c_size_t(len(s)), *table_of(t)), "5i3d")
        yield Case(utc(ct.from_iso8601, **lent), read_utc, texts(rng, count), "from_iso8601" + said)
        for width in (27, 40):
            given = [part.astype(f"S{width}") for part in texts(rng, count)]
            yield Case(utc(ct.dates_of_texts, **lent), rest(6, read_utc), given, f"dates_of_texts {width}" + said)
    yield Case(lambda *a, **k: ct.from_iso8601(*a, scale="gps", **k), read_time, texts(rng, count), "from_iso8601 gps")
    yield Case(lambda *a, **k: ct.dates_of_texts(*a, scale="gps", **k), rest(6, read_time), texts(rng, count), "dates_of_texts gps")
    for source, target in (("tcb", "tdb"), ("tdb", "tcb")):
        yield Case(utc(lambda *a, s=source, t=target, **k: ct.convert(s, t, *a, **k)), plain(f"ct_{source}_to_{target}"), dates(rng, count), f"convert {source} {target}")
    yield Case(ct.parse_iso8601, lambda s: answered("ct_parse_iso8601", (s, ctypes.c_size_t(len(s))), "5id"), texts(rng, count), "parse_iso8601")
    yield Case(ct.jd2cal, lambda a, b: answered("ct_julian_to_calendar", (F64(a), F64(b)), "3id"), dates(rng, count), "jd2cal")
    yield Case(ct.cal2jd, lambda y, m, d: answered("ct_calendar_to_julian", (I32(y), I32(m), I32(d)), "2d"), days(rng, count), "cal2jd")
    yield Case(lambda *a, **k: ct.dtf2d("tai", *a, **k), lambda y, m, d, h, n, s: answered("ct_from_calendar", (I32(y), field(m), field(d), field(h), field(n), F64(s)), "2d"),
               times(rng, count), "dtf2d tai")
    yield Case(ct.gps_from_week, lambda w, m: answered("ct_gps_from_week", (U32(w), U32(m)), "2d"),
               [rng.choice([0, 1, 2048, 99999, 100000, 100001, 4294967295], count), rng.choice([0, 1, 604799999, 604800000, 4294967295], count)], "gps_from_week")
    yield Case(ct.gps_to_week, lambda a, b: answered("ct_gps_to_week", (F64(a), F64(b)), "2i"), dates(rng, count), "gps_to_week")
    yield Case(ct.gps_full_week, lambda t, r: (lambda code: (code, None if code < 0 else (code,)))(call("ct_gps_full_week", U32(t), U32(r))),
               [rng.integers(0, 1030, count), rng.choice([0, 512, 513, 2400, 99000, 99001], count)], "gps_full_week")
    pairs = dates(rng, count)
    others = [np.where(rng.random(count) < 0.5, part, other) for part, other in zip(pairs, dates(rng, count))]
    yield Case(ct.compare, lambda *a: (lambda code: (code, None if code < 0 else (code - 1,)))(call("ct_compare", *map(F64, a))), [*pairs, *others], "compare")


def never_refused(rng, count):
    """The functions that give one array and refuse nothing."""
    pairs = dates(rng, count)
    others = [np.where(rng.random(count) < 0.5, part, other) for part, other in zip(pairs, dates(rng, count))]
    yield Case(ct.equal, lambda *a: call("ct_equal", *map(F64, a)), [*pairs, *others], "equal")

    def difference(*a):
        LIB.ct_difference.restype = F64
        return LIB.ct_difference(*map(F64, a))

    yield Case(ct.difference, difference, [*pairs, *others], "difference")
    bits = lambda x: U64(struct.unpack("<Q", struct.pack("<d", x))[0])
    for mine, other in itertools.product(("utc", "tai"), ("utc", "gps")):
        numbers = ct.SCALES[mine], ct.SCALES[other]
        yield Case(lambda a, b, c, d, m=mine, o=other, **k: ct.same_stamp(m, a, b, o, c, d, **k),
                   lambda a, b, c, d, n=numbers: call("ct_same_stamp", U32(n[0]), bits(a), bits(b), U32(n[1]), bits(c), bits(d)), [*pairs, *others], f"same_stamp {mine} {other}")
