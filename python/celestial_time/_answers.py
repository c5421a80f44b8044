"""What the functions answer: named tuples of arrays, or of single values where single values were given.

The last field, `numbers`, has 0 for a stamp that is answered and the refusal's number for one that is not. In the places of a refused stamp stand NaN, the
least number of the type (NO_INT of a field of 32 bits), NaT, or an empty text.
"""
from __future__ import annotations

from typing import Any, NamedTuple

import numpy as np
from numpy.typing import NDArray

NO_INT, NO_LONG = -(2**31), -(2**63)


class Number(int):
    """The number of a single answer, a whole number like any other. Its type tells it from an offset, for which an answer that is handed on whole would give
    it.

    >>> gpstai(2451545.0, 0.0).numbers
    0
    >>> tttdb(*taitt(2451545.0, 0.25))
    Traceback (most recent call last):
    TypeError: dtr is the number of an answer: of an answer hand over [:2]
    """


class Dates(NamedTuple):
    """Two-part Julian dates.

    >>> gpstai(2451545.0, 0.0).jd1
    2451545.0
    """

    jd1: Any
    jd2: Any
    numbers: Any


class DatesByRule(NamedTuple):
    """Dates, and the row of TAI-UTC that they were read by: `rule` 0 absent, 1 drifting, 2 whole; `row` counted from 0, -1 where absent.

    >>> utctai(2451545.0, 0.0, return_rule=True).rule
    2
    """

    jd1: Any
    jd2: Any
    rule: Any
    row: Any
    numbers: Any


class CalendarDates(NamedTuple):
    """Calendar fields, and the part of the day that has passed.

    >>> jd2cal(2451545.0, 0.0).year
    2000
    """

    year: Any
    month: Any
    day: Any
    fraction: Any
    numbers: Any


class Offsets(NamedTuple):
    """TAI-UTC in seconds, with its rule and row.

    >>> dat(2017, 1, 1).seconds
    37.0
    """

    seconds: Any
    rule: Any
    row: Any
    numbers: Any


class Leaps(NamedTuple):
    """The step of TAI-UTC at the end of a day, in seconds.

    >>> leap_at_end_of_day(2016, 12, 31).seconds
    1.0
    """

    seconds: Any
    numbers: Any


class Walked(NamedTuple):
    """TAI-UTC at 0h of dates in time order, and the rows that were compared for it.

    >>> offsets_at_0h([[2017, 1, 1]]).compared
    42
    """

    seconds: Any
    compared: int


class Texts(NamedTuple):
    """Texts as byte strings.

    >>> to_iso8601(2451545.0, 0.0).text
    b'2000-01-01T12:00:00.000'
    """

    text: Any
    numbers: Any


class TextsByRule(NamedTuple):
    """Texts as byte strings, and the row of TAI-UTC of their day.

    >>> to_iso8601(2451545.0, 0.0, return_rule=True).row
    36
    """

    text: Any
    rule: Any
    row: Any
    numbers: Any


class Fields(NamedTuple):
    """The fields of a text.

    >>> parse_iso8601('2000-01-01T12:00:00.5').second
    0.5
    """

    year: Any
    month: Any
    day: Any
    hour: Any
    minute: Any
    second: Any
    numbers: Any


class UtcFields(NamedTuple):
    """The fields of a UTC text, and its date.

    >>> from_iso8601('2000-01-01T12:00:00.5Z').jd1
    2451544.5
    """

    year: Any
    month: Any
    day: Any
    hour: Any
    minute: Any
    second: Any
    jd1: Any
    jd2: Any
    numbers: Any


class Weeks(NamedTuple):
    """GPS weeks and milliseconds of the week.

    >>> gps_to_week(2458581.5, 0.5).millis
    129600000
    """

    week: Any
    millis: Any
    numbers: Any


class FullWeeks(NamedTuple):
    """Whole GPS weeks.

    >>> gps_full_week(2, 2400).week
    2050
    """

    week: Any
    numbers: Any


class Order(NamedTuple):
    """-1 before the other date, 0 equal, 1 after it.

    >>> compare(2451545.0, 0.0, 2451545.0, 0.5).order
    -1
    """

    order: Any
    numbers: Any


class Ticks(NamedTuple):
    """Ticks' TAI milliseconds, of 64 bits signed; NO_LONG in the places of refused ones.

    >>> place_ticks([0, 1000], [0, 500], [3], return_numbers=True).millis
    array([1])
    """

    millis: Any
    numbers: Any


class Milliseconds(NamedTuple):
    """Whole milliseconds since a launch, of 64 bits signed; NO_LONG in the places of refused stamps.

    >>> milliseconds((2457754.5, 0.0), (2457754.5, [0.5]), scale='tai').millis
    array([43200000])
    """

    millis: Any
    numbers: Any


class Places(NamedTuple):
    """Places along the pipe in whole millimetres, of 64 bits signed; NO_LONG where a reading has none.

    >>> place([250], ([0, 1000], [0.0, 1.0])).mm
    array([250])
    """

    mm: Any
    numbers: Any

    @property
    def metres(self) -> NDArray[np.float64] | float:
        """The places in metres; NaN where a reading has none.

        >>> place([250, 1001], ([0, 1000], [0.0, 1.0])).metres
        array([0.25,  nan])
        """
        if isinstance(self.mm, int):
            return self.mm / 1000.0
        return np.where(self.numbers == 0, self.mm / 1000.0, np.nan)


class Times(NamedTuple):
    """UTC as numpy's datetime64, in milliseconds.

    >>> utc_datetime64('utc', 2451545.0, 0.0).time
    numpy.datetime64('2000-01-01T12:00:00.000')
    """

    time: Any
    numbers: Any


class Seconds(NamedTuple):
    """Seconds from one date to another.

    >>> seconds_between('tai', 2451545.0, 0.25, 2451545.0, 0.0).seconds
    21600.0
    """

    seconds: Any
    numbers: Any


class Sorted(NamedTuple):
    """The places of the stamps that have an order, as they rise, and the number of each stamp.

    >>> argsort([2451546.0, 2451545.0], [0.0, 0.0]).places
    array([1, 0], dtype=uint32)
    """

    places: Any
    numbers: Any


class Bill(NamedTuple):
    """A standby bill: the quarter hours that were begun, and the cents of the two owners.

    >>> standby_bill('2016-12-31T23:45:00', '2017-01-01T00:00:00', 1000, 300, 100).quarters
    2
    """

    quarters: int
    first_cents: int
    second_cents: int
