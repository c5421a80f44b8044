"""Conversions between the time scales, on arrays of two-part Julian dates.

The names are pyerfa's: the two scales one after the other. gpstai, taigps, taitcg and tcgtai, which ERFA does not have, are named in the same way.
"""
from __future__ import annotations

from typing import Any, Literal, Sequence, Union, overload

import numpy as np
from numpy.typing import ArrayLike, NDArray

from ._answers import Dates, DatesByRule
from ._arrays import FLOAT, INT, NUMBER, Field, each, floats
from ._library import TABLE_BYTES, address, function
from .tables import Table, lent_table

Out = Union[Sequence[Any], None]

# The scales by the numbers of the C interface, and those between which a whole run is converted by one call.
SCALES = {"utc": 0, "tai": 1, "ut1": 2, "tt": 3, "gps": 4, "tcg": 5, "tcb": 6, "tdb": 7}
RUN_SCALES = ("utc", "tai", "tt", "gps", "tcg")
_DATES = [Field("jd1", FLOAT), Field("jd2", FLOAT), Field("numbers", NUMBER)]
_BY_RULE = [Field("jd1", FLOAT), Field("jd2", FLOAT), Field("rule", INT), Field("row", INT), Field("numbers", NUMBER)]


def _names(scale: str, *by: str) -> tuple[str, ...]:
    """The arguments as a function names them."""
    return f"{scale}1", f"{scale}2", *by


def _parts(scale: str, jd1: ArrayLike, jd2: ArrayLike) -> list[Any]:
    """Both parts by the names that the sentences have, looked at by the names that the function has."""
    return [("jd1", floats(f"{scale}1", jd1)), ("jd2", floats(f"{scale}2", jd2))]


def _offset(name: str, by: ArrayLike) -> tuple[str, NDArray[Any]]:
    return "offset", floats(name, by)


def _with_nans(refused: int, n: int, out1: int, out2: int, numbers: int) -> int:
    """What a call for a run returned, with a NaN in the places of refused stamps, which it leaves; below zero nothing is written."""
    if refused > 0:
        function("ct_each_nan")(n, numbers, out1, out2)
    return refused


def _run(name: str, source: str, target: str, jd1: ArrayLike, jd2: ArrayLike, out: Out, table: Table | None = None) -> Dates:
    named = "jd" if name == "convert" else source
    call, rows, ways = function("ct_convert_run"), lent_table(table), (SCALES[source], SCALES[target])

    def converted(n: int, a1: int, a2: int, o1: int, o2: int, numbers: int) -> int:
        size = 8 * n
        refused = call(*ways, a1, size, a2, size, rows.address, TABLE_BYTES, o1, size, o2, size, numbers, n)
        return _with_nans(refused, n, o1, o2, numbers)

    return Dates(*each(name, converted, _parts(named, jd1, jd2), _DATES, [FLOAT] * 2, out, _names(named)))


def _formula(name: str, source: str, target: str, jd1: ArrayLike, jd2: ArrayLike, out: Out) -> Dates:
    named = "jd" if name == "convert" else source
    call, ways = function("ct_formula_run"), (SCALES[source], SCALES[target])

    def converted(n: int, a1: int, a2: int, o1: int, o2: int, numbers: int) -> int:
        size = 8 * n
        return _with_nans(call(*ways, a1, size, a2, size, a1, 0, o1, size, o2, size, numbers, n), n, o1, o2, numbers)

    return Dates(*each(name, converted, _parts(named, jd1, jd2), _DATES, [FLOAT] * 2, out, _names(named)))


def _formula_by(name: str, source: str, target: str, jd1: ArrayLike, jd2: ArrayLike, named: str, by: ArrayLike, out: Out) -> Dates:
    call, ways = function("ct_formula_run"), (SCALES[source], SCALES[target])
    takes = [*_parts(source, jd1, jd2), _offset(named, by)]

    def converted(n: int, a1: int, a2: int, b: int, o1: int, o2: int, numbers: int) -> int:
        size = 8 * n
        return _with_nans(call(*ways, a1, size, a2, size, b, size, o1, size, o2, size, numbers, n), n, o1, o2, numbers)

    return Dates(*each(name, converted, takes, _DATES, [FLOAT] * 3, out, _names(source, named)))


def _shifted(name: str, call: str, jd1: ArrayLike, jd2: ArrayLike, by: ArrayLike, out: Out, named: str) -> Dates:
    loop, at = function("ct_each_shift"), address(call)
    takes = [*_parts("jd", jd1, jd2), _offset(named, by)]
    return Dates(*each(name, lambda n, *a: loop(at, n, *a), takes, _DATES, [FLOAT] * 3, out, _names("jd", named)))


def _shifted_by_table(name: str, call: str, jd1: ArrayLike, jd2: ArrayLike, by: ArrayLike, table: Table | None, out: Out) -> Dates:
    loop, at, rows = function("ct_each_utc_shift"), address(call), lent_table(table)
    takes = [*_parts(name[:3], jd1, jd2), _offset("dut1", by)]
    told = lambda n, a1, a2, b, o1, o2, numbers: loop(at, rows.address, n, a1, a2, b, o1, o2, 0, 0, numbers)
    return Dates(*each(name, told, takes, _DATES, [FLOAT] * 3, out, _names(name[:3], "dut1")))


def gpstai(gps1: ArrayLike, gps2: ArrayLike, *, out: Out = None) -> Dates:
    """GPS to TAI.

    >>> gpstai(2451545.0, 0.25)
    Dates(jd1=2451545.0, jd2=0.2502199074074074, numbers=0)
    """
    return _run("gpstai", "gps", "tai", gps1, gps2, out)


def taigps(tai1: ArrayLike, tai2: ArrayLike, *, out: Out = None) -> Dates:
    """TAI to GPS.

    >>> taigps(2451545.0, 0.25)
    Dates(jd1=2451545.0, jd2=0.2497800925925926, numbers=0)
    """
    return _run("taigps", "tai", "gps", tai1, tai2, out)


def taitt(tai1: ArrayLike, tai2: ArrayLike, *, out: Out = None) -> Dates:
    """TAI to TT.

    >>> taitt(2451545.0, 0.25)
    Dates(jd1=2451545.0, jd2=0.2503725, numbers=0)
    """
    return _run("taitt", "tai", "tt", tai1, tai2, out)


def tttai(tt1: ArrayLike, tt2: ArrayLike, *, out: Out = None) -> Dates:
    """TT to TAI.

    >>> tttai(2451545.0, 0.25)
    Dates(jd1=2451545.0, jd2=0.2496275, numbers=0)
    """
    return _run("tttai", "tt", "tai", tt1, tt2, out)


def taitcg(tai1: ArrayLike, tai2: ArrayLike, *, out: Out = None) -> Dates:
    """TAI to TCG.

    >>> taitcg(2451545.0, 0.25)
    Dates(jd1=2451545.0, jd2=0.2503783547264134, numbers=0)
    """
    return _run("taitcg", "tai", "tcg", tai1, tai2, out)


def tcgtai(tcg1: ArrayLike, tcg2: ArrayLike, *, out: Out = None) -> Dates:
    """TCG to TAI.

    >>> tcgtai(2451545.0, 0.25)
    Dates(jd1=2451545.0, jd2=0.24962164527385028, numbers=0)
    """
    return _run("tcgtai", "tcg", "tai", tcg1, tcg2, out)


def tttcg(tt1: ArrayLike, tt2: ArrayLike, *, out: Out = None) -> Dates:
    """TT to TCG.

    >>> tttcg(2451545.0, 0.25)
    Dates(jd1=2451545.0, jd2=0.2500058547261538, numbers=0)
    """
    return _run("tttcg", "tt", "tcg", tt1, tt2, out)


def tcgtt(tcg1: ArrayLike, tcg2: ArrayLike, *, out: Out = None) -> Dates:
    """TCG to TT.

    >>> tcgtt(2451545.0, 0.25)
    Dates(jd1=2451545.0, jd2=0.24999414527385028, numbers=0)
    """
    return _run("tcgtt", "tcg", "tt", tcg1, tcg2, out)


def tcbtdb(tcb1: ArrayLike, tcb2: ArrayLike, *, out: Out = None) -> Dates:
    """TCB to TDB.

    >>> tcbtdb(2451545.0, 0.25)
    Dates(jd1=2451545.0, jd2=0.24986974395826356, numbers=0)
    """
    return _formula("tcbtdb", "tcb", "tdb", tcb1, tcb2, out)


def tdbtcb(tdb1: ArrayLike, tdb2: ArrayLike, *, out: Out = None) -> Dates:
    """TDB to TCB.

    >>> tdbtcb(2451545.0, 0.25)
    Dates(jd1=2451545.0, jd2=0.2501302560437561, numbers=0)
    """
    return _formula("tdbtcb", "tdb", "tcb", tdb1, tdb2, out)


def tttdb(tt1: ArrayLike, tt2: ArrayLike, dtr: ArrayLike, *, out: Out = None) -> Dates:
    """TT to TDB by TDB-TT in seconds.

    >>> tttdb(2451545.0, 0.25, 0.001)
    Dates(jd1=2451545.0, jd2=0.2500000115740741, numbers=0)
    """
    return _formula_by("tttdb", "tt", "tdb", tt1, tt2, "dtr", dtr, out)


def tdbtt(tdb1: ArrayLike, tdb2: ArrayLike, dtr: ArrayLike, *, out: Out = None) -> Dates:
    """TDB to TT by TDB-TT in seconds.

    >>> tdbtt(2451545.0, 0.25, 0.001)
    Dates(jd1=2451545.0, jd2=0.24999998842592594, numbers=0)
    """
    return _formula_by("tdbtt", "tdb", "tt", tdb1, tdb2, "dtr", dtr, out)


def ut1tai(ut11: ArrayLike, ut12: ArrayLike, dta: ArrayLike, *, out: Out = None) -> Dates:
    """UT1 to TAI by UT1-TAI in seconds.

    >>> ut1tai(2451545.0, 0.25, -32.6659)
    Dates(jd1=2451545.0, jd2=0.2503780775462963, numbers=0)
    """
    return _formula_by("ut1tai", "ut1", "tai", ut11, ut12, "dta", dta, out)


def taiut1(tai1: ArrayLike, tai2: ArrayLike, dta: ArrayLike, *, out: Out = None) -> Dates:
    """TAI to UT1 by UT1-TAI in seconds.

    >>> taiut1(2451545.0, 0.25, -32.6659)
    Dates(jd1=2451545.0, jd2=0.2496219224537037, numbers=0)
    """
    return _formula_by("taiut1", "tai", "ut1", tai1, tai2, "dta", dta, out)


def ut1tt(ut11: ArrayLike, ut12: ArrayLike, dt: ArrayLike, *, out: Out = None) -> Dates:
    """UT1 to TT by TT-UT1 in seconds.

    >>> ut1tt(2451545.0, 0.25, 64.8499)
    Dates(jd1=2451545.0, jd2=0.2507505775462963, numbers=0)
    """
    return _formula_by("ut1tt", "ut1", "tt", ut11, ut12, "dt", dt, out)


def ttut1(tt1: ArrayLike, tt2: ArrayLike, dt: ArrayLike, *, out: Out = None) -> Dates:
    """TT to UT1 by TT-UT1 in seconds.

    >>> ttut1(2451545.0, 0.25, 64.8499)
    Dates(jd1=2451545.0, jd2=0.2492494224537037, numbers=0)
    """
    return _formula_by("ttut1", "tt", "ut1", tt1, tt2, "dt", dt, out)


@overload
def utctai(utc1: ArrayLike, utc2: ArrayLike, *, table: Table | None = None, return_rule: Literal[False] = False, out: Out = None) -> Dates: ...
@overload
def utctai(utc1: ArrayLike, utc2: ArrayLike, *, table: Table | None = None, return_rule: Literal[True], out: Out = None) -> DatesByRule: ...


def utctai(utc1: ArrayLike, utc2: ArrayLike, *, table: Table | None = None, return_rule: bool = False, out: Out = None) -> Dates | DatesByRule:
    """UTC to TAI, with `return_rule` also the row of TAI-UTC that it was read by.

    >>> utctai(2457753.5, 0.0)
    Dates(jd1=2457753.5, jd2=0.0004166666666666667, numbers=0)
    >>> utctai([2457753.5, float('nan')], 0.0).numbers
    array([0, 6], dtype=uint8)
    >>> utctai(2457753.5, 0.0, return_rule=True).row
    40
    """
    if not return_rule:
        return _run("utctai", "utc", "tai", utc1, utc2, out, table)
    loop, at, rows = function("ct_each_utc"), address("ct_utc_to_tai"), lent_table(table)
    takes = _parts("utc", utc1, utc2)
    return DatesByRule(*each("utctai", lambda n, *a: loop(at, rows.address, n, *a), takes, _BY_RULE, [FLOAT] * 2, out, _names("utc")))


def taiutc(tai1: ArrayLike, tai2: ArrayLike, *, table: Table | None = None, out: Out = None) -> Dates:
    """TAI to UTC.

    >>> taiutc(2457754.5, 36.5 / 86400.0)                               # in the leap second of 2016
    Dates(jd1=2457754.5, jd2=-5.786970058265298e-06, numbers=0)
    >>> to_iso8601(*taiutc(2457754.5, 36.5 / 86400.0)[:2]).text
    b'2016-12-31T23:59:60.500'
    """
    return _run("taiutc", "tai", "utc", tai1, tai2, out, table)


@overload
def utcut1(
    utc1: ArrayLike, utc2: ArrayLike, dut1: ArrayLike, *, table: Table | None = None, return_rule: Literal[False] = False, out: Out = None
) -> Dates: ...
@overload
def utcut1(utc1: ArrayLike, utc2: ArrayLike, dut1: ArrayLike, *, table: Table | None = None, return_rule: Literal[True], out: Out = None) -> DatesByRule: ...


def utcut1(
    utc1: ArrayLike, utc2: ArrayLike, dut1: ArrayLike, *, table: Table | None = None, return_rule: bool = False, out: Out = None
) -> Dates | DatesByRule:
    """UTC to UT1 by UT1-UTC in seconds, with `return_rule` also the row of TAI-UTC that it was read by.

    >>> utcut1(2451545.0, 0.25, 0.3341)
    Dates(jd1=2451545.0, jd2=0.25000386689814813, numbers=0)
    """
    if not return_rule:
        return _shifted_by_table("utcut1", "ct_utc_to_ut1_with_dut1", utc1, utc2, dut1, table, out)
    loop, at, rows = function("ct_each_utc_shift"), address("ct_utc_to_ut1_with_dut1"), lent_table(table)
    takes = [*_parts("utc", utc1, utc2), _offset("dut1", dut1)]
    return DatesByRule(*each("utcut1", lambda n, *a: loop(at, rows.address, n, *a), takes, _BY_RULE, [FLOAT] * 3, out, _names("utc", "dut1")))


def ut1utc(ut11: ArrayLike, ut12: ArrayLike, dut1: ArrayLike, *, table: Table | None = None, out: Out = None) -> Dates:
    """UT1 to UTC by UT1-UTC in seconds.

    >>> ut1utc(2451545.0, 0.25, 0.3341)
    Dates(jd1=2451545.0, jd2=0.24999613310185184, numbers=0)
    """
    return _shifted_by_table("ut1utc", "ct_ut1_to_utc_with_dut1", ut11, ut12, dut1, table, out)


def add_days(jd1: ArrayLike, jd2: ArrayLike, days: ArrayLike, *, out: Out = None) -> Dates:
    """So many days later, in any scale; never refuses.

    >>> add_days(2451545.0, 0.0, [1.0, 2.0]).jd1
    array([2451546., 2451547.])
    """
    return _shifted("add_days", "ct_add_days", jd1, jd2, days, out, "days")


def add_seconds(jd1: ArrayLike, jd2: ArrayLike, seconds: ArrayLike, *, out: Out = None) -> Dates:
    """So many seconds later, in a scale without leap seconds; never refuses.

    >>> add_seconds(2451545.0, 0.0, 43200.0)
    Dates(jd1=2451545.0, jd2=0.5, numbers=0)
    """
    return _shifted("add_seconds", "ct_add_seconds", jd1, jd2, seconds, out, "seconds")


def convert(source: str, target: str, jd1: ArrayLike, jd2: ArrayLike, *, table: Table | None = None, out: Out = None) -> Dates:
    """From one scale to another, both by name: any two of utc, tai, tt, gps and tcg, and tcb and tdb. From one of the five to itself not finite
    stamps are refused.

    >>> convert('gps', 'utc', 2451545.0, 0.25)
    Dates(jd1=2451545.0, jd2=0.24984953703703705, numbers=0)
    >>> convert('tcb', 'utc', 2451545.0, 0.25)
    Traceback (most recent call last):
    ValueError: there is no conversion from tcb to utc that takes no offset
    """
    for scale in (source, target):
        if not isinstance(scale, str) or scale not in SCALES:
            raise ValueError(f"no scale: {scale!r}; the scales are {', '.join(SCALES)}")
    if source in RUN_SCALES and target in RUN_SCALES:
        return _run("convert", source, target, jd1, jd2, out, table)
    lent_table(table)
    if {source, target} == {"tcb", "tdb"}:
        return _formula("convert", source, target, jd1, jd2, out)
    raise ValueError(f"there is no conversion from {source} to {target} that takes no offset")
