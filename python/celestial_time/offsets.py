"""TAI-UTC with its rule, the leap at the end of a day, and a walk through the table."""
from __future__ import annotations

from typing import Any

import numpy as np
from numpy.typing import ArrayLike

from ._answers import Leaps, Offsets, Walked
from ._arrays import FLOAT, INT, NUMBER, Field, address_of, each, floats, lent, whole
from ._library import TABLE_BYTES, check_float_mode, function
from .refusals import Refused
from .scales import Out
from .tables import Table, lent_table

_OFFSETS = [Field("seconds", FLOAT), Field("rule", INT), Field("row", INT), Field("numbers", NUMBER)]
ABSENT, DRIFTING, WHOLE = 0, 1, 2


def dat(
    year: ArrayLike, month: ArrayLike, day: ArrayLike, fraction: ArrayLike = 0.0, *, table: Table | None = None, out: Out = None
) -> Offsets:
    """TAI-UTC in seconds at a fraction of a day, the rule (ABSENT before 1960, DRIFTING to 1971, WHOLE) and the row that it was read from.

    >>> dat([1959, 1965, 2016, 2017], [12, 7, 12, 1], [31, 1, 31, 1])
    Offsets(seconds=array([ 0.      ,  3.974706, 36.      , 37.      ]), rule=array([0, 1, 2, 2], dtype=int32), row=array([-1, 10, 40, 41], dtype=int32), numbers=array([0, 0, 0, 0], dtype=uint8))
    """
    rows, loop = lent_table(table), function("ct_each_offset")
    takes = [*_date(year, month, day), ("fraction", floats("fraction", fraction))]
    return Offsets(*each("dat", lambda n, *a: loop(rows.address, n, *a), takes, _OFFSETS, [*[INT] * 3, FLOAT], out))


def leap_at_end_of_day(year: ArrayLike, month: ArrayLike, day: ArrayLike, *, table: Table | None = None, out: Out = None) -> Leaps:
    """The step of TAI-UTC at the end of a day, in seconds.

    >>> leap_at_end_of_day(2016, 12, [30, 31, 32])
    Leaps(seconds=array([ 0.,  1., nan]), numbers=array([0, 0, 3], dtype=uint8))
    """
    rows, loop = lent_table(table), function("ct_each_leap")
    gives = [Field("seconds", FLOAT), Field("numbers", NUMBER)]
    return Leaps(*each("leap_at_end_of_day", lambda n, *a: loop(rows.address, n, *a), _date(year, month, day), gives, [INT] * 3, out))


def offsets_at_0h(dates: ArrayLike, *, table: Table | None = None, out: Any = None) -> Walked:
    """TAI-UTC in seconds at 0h of dates in time order, year, month, day in each row of `dates`, in one walk through the table. A bad date refuses the call.

    >>> offsets_at_0h([[2016, 12, 31], [2017, 1, 1]])
    Walked(seconds=array([36., 37.]), compared=43)
    """
    given = np.ascontiguousarray(whole("dates", dates, INT), INT)
    if given.ndim != 2 or given.shape[1] != 3:
        raise ValueError(f"dates of shape {given.shape}: rows of year, month and day are due")
    rows = lent_table(table)
    (lent_seconds,) = lent(None if out is None else (out,), [Field("seconds", FLOAT)], given.shape[:1])
    check_float_mode()
    seconds = np.empty(len(given), FLOAT)
    code = function("ct_offsets_at_0h")(address_of(given), given.nbytes, rows.address, TABLE_BYTES, address_of(seconds), seconds.nbytes)
    if code < 0:
        raise Refused(-code, "offsets_at_0h")
    if lent_seconds is None:
        return Walked(seconds, int(code))
    lent_seconds[...] = seconds
    return Walked(lent_seconds, int(code))


def _date(year: ArrayLike, month: ArrayLike, day: ArrayLike) -> list[Any]:
    return [("year", whole("year", year, INT)), ("month", whole("month", month, INT)), ("day", whole("day", day, INT))]
