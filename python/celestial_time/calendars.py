"""Calendar fields and Julian dates, both ways, on arrays; Unix time."""
from __future__ import annotations

from typing import Any, Callable

from numpy.typing import ArrayLike

from ._answers import CalendarDates, Dates
from ._arrays import FLOAT, INT, LONG, NUMBER, Field, each, floats, small, whole
from ._library import function
from .scales import SCALES, Out
from .tables import Table, lent_table

_DATES = [Field("jd1", FLOAT), Field("jd2", FLOAT), Field("numbers", NUMBER)]
_CALENDAR = [
    Field("year", INT), Field("month", INT), Field("day", INT), Field("fraction", FLOAT), Field("numbers", NUMBER),
]


def jd2cal(dj1: ArrayLike, dj2: ArrayLike, *, out: Out = None) -> CalendarDates:
    """The calendar date of a Julian date, and the part of the day that has passed. The calendar is the proleptic Gregorian one.

    >>> jd2cal(2451545.0, [0.0, 0.75])
    CalendarDates(year=array([2000, 2000], dtype=int32), month=array([1, 1], dtype=int32), day=array([1, 2], dtype=int32), fraction=array([0.5 , 0.25]), numbers=array([0, 0], dtype=uint8))
    """
    takes = [("jd1", floats("dj1", dj1)), ("jd2", floats("dj2", dj2))]
    return CalendarDates(*each("jd2cal", function("ct_each_calendar_date"), takes, _CALENDAR, [FLOAT] * 2, out))


def cal2jd(year: ArrayLike, month: ArrayLike, day: ArrayLike, *, out: Out = None) -> Dates:
    """The Julian date of a day's midnight: 2400000.5 and the Modified Julian Date.

    >>> cal2jd([2000, 2000], [1, 13], 1)
    Dates(jd1=array([2400000.5,       nan]), jd2=array([51544.,    nan]), numbers=array([0, 2], dtype=uint8))
    """
    takes = [("year", whole("year", year, INT)), ("month", whole("month", month, INT)), ("day", whole("day", day, INT))]
    return Dates(*each("cal2jd", function("ct_each_midnight"), takes, _DATES, [INT] * 3, out))


def dtf2d(
    scale: str,
    year: ArrayLike,
    month: ArrayLike,
    day: ArrayLike,
    hour: ArrayLike,
    minute: ArrayLike,
    second: ArrayLike,
    *,
    table: Table | None = None,
    out: Out = None,
) -> Dates:
    """The Julian date of a calendar date and time of day: midnight in jd1, the time of day in jd2. In the scale 'utc' a day may end in a leap second.

    >>> dtf2d('utc', 2016, 12, 31, 23, 59, [59.0, 60.5, 61.0])
    Dates(jd1=array([2457753.5, 2457753.5,       nan]), jd2=array([0.99997685, 0.99999421,        nan]), numbers=array([0, 0, 4], dtype=uint8))
    >>> dtf2d('tai', 2016, 12, 31, 23, 59, 60.5)
    Traceback (most recent call last):
    celestial_time.refusals.Refused: dtf2d: refused 4...
    """
    if scale not in SCALES:
        raise ValueError(f"no scale: {scale!r}; the scales are {', '.join(SCALES)}")
    rows = lent_table(table)
    takes: list[Any] = [("year", whole("year", year, INT)), ("month", small("month", month)), ("day", small("day", day))]
    takes += [("hour", small("hour", hour)), ("minute", small("minute", minute)), ("second", floats("second", second))]
    loop: Callable[..., int] = function("ct_each_time")
    if scale == "utc":
        utc = function("ct_each_utc_time")
        loop = lambda n, *a: utc(rows.address, n, *a)
    return Dates(*each("dtf2d", loop, takes, _DATES, [INT, *[LONG] * 4, FLOAT], out))


def from_unix(seconds: ArrayLike, nanos: ArrayLike = 0, *, table: Table | None = None, out: Out = None) -> Dates:
    """The UTC date of a Unix time, in whole seconds and nanoseconds.

    >>> from_unix([0, 1483228799], 500000000)
    Dates(jd1=array([2440587.5, 2457753.5]), jd2=array([5.78703704e-06, 9.99982639e-01]), numbers=array([0, 0], dtype=uint8))
    """
    return unix_dates("from_unix", seconds, nanos, table, out)


def unix_dates(name: str, seconds: ArrayLike, nanos: ArrayLike, table: Table | None, out: Out) -> Dates:
    """The dates of Unix times for a function of this name.

    >>> unix_dates('from_unix', 0, 0, None, None)
    Dates(jd1=2440587.5, jd2=0.0, numbers=0)
    """
    rows, loop = lent_table(table), function("ct_each_unix_time")
    takes = [("seconds", whole("seconds", seconds, "<i8")), ("nanos", whole("nanos", nanos, "<u4"))]
    return Dates(*each(name, lambda n, *a: loop(rows.address, n, *a), takes, _DATES, ["<i8", "<u4"], out))
