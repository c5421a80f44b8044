"""Times of Python and numpy, datetime and datetime64, as dates of a scale; and UTC as datetime64."""
from __future__ import annotations

import calendar
import datetime
from typing import Any

import numpy as np
from numpy.typing import ArrayLike, NDArray

from ._answers import NO_INT, NO_LONG, Dates, Number, Times
from ._arrays import LONG, as_array, is_missing
from .calendars import dtf2d, unix_dates
from .refusals import Refused
from .scales import SCALES
from .tables import Table
from .texts import WIDTH, utc_texts

TIME_OF_DAY = 4
# A unit's seconds, or its parts in a second. Units below a nanosecond would lose something, and those of the calendar go by numpy's days.
_SECONDS = {"W": 604800, "D": 86400, "h": 3600, "m": 60, "s": 1}
_PARTS = {"ms": 10**3, "us": 10**6, "ns": 10**9}
_MONTHS = {"Y", "M"}
# Months and seconds past which numpy would go round without a word, or a year does not fit 32 bits.
_MOST_MONTHS, _MOST_SECONDS = 10**10, 2**55


def from_datetime(scale: str, times: ArrayLike | datetime.datetime, *, table: Table | None = None) -> Dates:
    """The dates of a scale of what its clock showed, as datetime64 of numpy (of a nanosecond and more) or datetime objects; neither has a second 60.

    A datetime with a time zone is UTC by its zone, and of another scale an error; one without is the scale's. NaT, or an object that is missing, is refused
    at its place as the time of its number would be, the least of 64 bits: by 6 in UTC, by 1 elsewhere.

    >>> from_datetime('utc', np.array(['2000-01-01T12:00:00', 'NaT'], 'M8[s]'))
    Dates(jd1=array([2451544.5,       nan]), jd2=array([0.5, nan]), numbers=array([0, 6], dtype=uint8))
    >>> import datetime
    >>> from_datetime('gps', datetime.datetime(2017, 1, 1, 0, 0, 18))
    Dates(jd1=2457754.5, jd2=0.00020833333333333335, numbers=0)
    """
    if scale not in SCALES:
        raise ValueError(f"no scale: {scale!r}; the scales are {', '.join(SCALES)}")
    _check_one_unit(times)
    given: Any = times
    array = as_array("times", given)
    if array.dtype.kind == "M":
        seconds, nanos = _of_datetime64(array)
    elif array.dtype.kind == "O" or not array.size:
        seconds, nanos = _of_objects(scale, array)
    else:
        raise TypeError(f"times is of type {array.dtype} and neither datetime64 nor of datetime objects")
    if scale == "utc":
        return unix_dates("from_datetime", seconds, nanos, table, None)
    return dtf2d(scale, *_fields(seconds, nanos), table=table)


def utc_datetime64(scale: str, jd1: ArrayLike, jd2: ArrayLike, *, table: Table | None = None) -> Times:
    """The UTC of dates of utc, tai, gps, tt or tcg as datetime64[ms], to the millisecond that the text shows. A second 60, which datetime64 does not have,
    is refused at its place, by 4; NaT stands in refused places.

    >>> utc_datetime64('gps', 2457754.5, [16.5 / 86400.0, 17.5 / 86400.0, 18.5 / 86400.0])
    Times(time=array(['2016-12-31T23:59:59.500',                     'NaT',
           '2017-01-01T00:00:00.500'], dtype='datetime64[ms]'), numbers=array([0, 4, 0], dtype=uint8))
    """
    told = utc_texts(scale, jd1, jd2, form="expanded", table=table)
    single = isinstance(told.text, bytes)
    texts = np.array(told.text, f"S{WIDTH}")
    held = np.atleast_1d(texts).view("u1").reshape(*texts.shape, WIDTH)
    # The tens of the seconds are byte 17, or behind the four more of a year with a sign byte 21; a 6 is there in second 60 alone.
    tens = np.where(held[..., WIDTH - 1] != 0, held[..., 21], held[..., 17])
    numbers = np.where(tens == ord("6"), TIME_OF_DAY, told.numbers).astype("u1")
    if single and numbers:
        raise Refused(TIME_OF_DAY, "utc_datetime64", {"jd1": jd1, "jd2": jd2})
    time = np.where(numbers, b"NaT", texts).astype("M8[ms]")
    return Times(time[()], Number(0)) if single else Times(time, numbers)


def _check_one_unit(times: Any) -> None:
    """Of datetime64 of several units in one list numpy makes the finest, in which a far one goes round without a word."""
    if isinstance(times, (list, tuple)):
        units = {item.dtype for item in times if isinstance(item, np.datetime64)}
        if len(units) > 1:
            raise TypeError(f"times has {' and '.join(sorted(map(str, units)))} in one list: hand over an array of one unit")
        for item in times:
            _check_one_unit(item)


def _of_datetime64(array: NDArray[Any]) -> tuple[NDArray[Any], NDArray[Any]]:
    """Whole seconds from 1970 on, downward, and the nanoseconds behind them. NaT, and what does not fit 64 bits, are the least number."""
    unit, count = np.datetime_data(array.dtype)
    if unit in _MONTHS:
        held = _scaled(array, count, _MOST_MONTHS)
        array, unit, count = held.view(f"M8[{unit}]").astype("M8[D]"), "D", 1
    if unit in _SECONDS:
        seconds = _scaled(array, count * _SECONDS[unit], 2**63 - 1)
        return seconds, np.zeros(seconds.shape, LONG)
    if unit not in _PARTS:
        raise TypeError(f"times is of type {array.dtype}: a unit of a week to a nanosecond, a month or a year is due")
    parts = _scaled(array, count, 2**63 - 1)
    none = parts == NO_LONG
    seconds, rest = np.divmod(parts, _PARTS[unit])
    return np.where(none, NO_LONG, seconds), np.where(none, 0, rest * (10**9 // _PARTS[unit]))


def _scaled(array: NDArray[Any], factor: int, most: int) -> NDArray[Any]:
    """The counts of a datetime64 array times a factor; the least number in the place of what is NaT, or more than `most` then."""
    held = np.ascontiguousarray(array, array.dtype.newbyteorder("=")).view(LONG).reshape(array.shape)
    fits = (held >= -(most // factor)) & (held <= most // factor)
    return np.where(fits, np.where(fits, held, 0) * factor, NO_LONG)


def _of_objects(scale: str, array: NDArray[Any]) -> tuple[NDArray[Any], NDArray[Any]]:
    items = array.ravel().tolist()
    if array.shape == () and is_missing(items[0]):
        raise TypeError(f"times is {items[0]!r}, which is no time")
    zones, seconds, nanos = set(), [], []
    for place, item in enumerate(items):
        if is_missing(item):
            seconds.append(NO_LONG)
            nanos.append(0)
            continue
        if not isinstance(item, datetime.datetime):
            raise TypeError(f"times holds {item!r} at place {place}, which is no datetime")
        zones.add(item.utcoffset() is not None)
        shown = item.astimezone(datetime.timezone.utc) if item.utcoffset() is not None else item
        seconds.append(calendar.timegm(shown.timetuple()))
        nanos.append(1000 * shown.microsecond + getattr(shown, "nanosecond", 0))  # pandas has nanoseconds
    if len(zones) > 1:
        raise TypeError("times has datetimes with a time zone and without: which clock the others showed is not told")
    if True in zones and scale != "utc":
        raise TypeError(f"times has datetimes with a time zone, which are UTC and not {scale}")
    return np.array(seconds, LONG).reshape(array.shape), np.array(nanos, LONG).reshape(array.shape)


def _fields(seconds: NDArray[Any], nanos: NDArray[Any]) -> list[NDArray[Any]]:
    """Year, month, day, hour, minute, second by numpy's days; of what no year of 32 bits has, a year that is refused."""
    fits = (seconds > -_MOST_SECONDS) & (seconds < _MOST_SECONDS)
    days, clock = np.divmod(np.where(fits, seconds, 0), 86400)
    day = np.asarray(days).view("M8[D]")
    month = day.astype("M8[M]")
    months = month.view(LONG)
    years = np.where(fits, months // 12 + 1970, NO_INT)
    # One division of whole numbers, so that the second is the float nearest to its decimal.
    second = (clock % 60 * 10**9 + nanos) / 1e9
    return [years, months % 12 + 1, (day - month.astype("M8[D]")).view(LONG) + 1, clock // 3600, clock // 60 % 60, second]
