"""The bill of a crew's standby by quarter hours."""
from __future__ import annotations

import ctypes
import datetime
import struct
from operator import index
from typing import Sequence, Union

from ._answers import Bill
from ._library import TABLE_BYTES, function
from .refusals import Refused
from .tables import Table, lent_table
from .texts import from_iso8601

Moment = Union[str, bytes, datetime.datetime, Sequence[int]]


def standby_bill(
    start: Moment, end: Moment, rate: int, first_metres: int, second_metres: int, *, table: Table | None = None
) -> Bill:
    """The bill between two UTC times: each begun quarter of an hour, leap seconds counted, at `rate` cents, shared between two owners by their metres of line.

    A time is a UTC text, a datetime (without a time zone it is UTC), or year, month, day, hour, minute, second and millisecond. Part of a millisecond is an
    error.

    >>> standby_bill('2016-12-31T23:45:00', (2017, 1, 1, 0, 0, 0, 0), 1001, 300, 100)       # 15 minutes and the leap second
    Bill(quarters=2, first_cents=1502, second_cents=500)
    """
    rows = lent_table(table)
    fields = [*_handed("start", start, rows), *_handed("end", end, rows)]
    limits = [_fitting(index(value), 32) for value in (rate, first_metres, second_metres)]
    out = ctypes.create_string_buffer(24)
    code = function("ct_standby_bill")(*fields, *limits, rows.address, TABLE_BYTES, out, len(out))
    if code < 0:
        raise Refused(-code, "standby_bill")
    return Bill(*struct.unpack("<3Q", out.raw))


def _handed(name: str, moment: Moment, table: Table) -> list[int]:
    """The seven fields as the call takes them; what does not fit is handed over as the greatest number, which it refuses."""
    year, *small, millis = _fields(name, moment, table)
    if not -(2**31) <= year < 2**31:
        raise OverflowError(f"{name}: year {year} does not fit 32 bits")
    return [year, *(_fitting(field, 8) for field in small), _fitting(millis, 32)]


def _fields(name: str, moment: Moment, table: Table) -> list[int]:
    if isinstance(moment, (str, bytes)):
        try:
            read = from_iso8601(moment, table=table)
        except Refused as refused:
            raise Refused(refused.number, f"standby_bill: {name}", refused.values) from None
        second, part = divmod(read.second, 1.0)
        millis = round(part * 1000.0)
        # The float nearest to a decimal of three places is that decimal's again.
        if (second * 1000.0 + millis) / 1000.0 != read.second:
            raise ValueError(f"{name} has part of a millisecond: {moment!r}")
        return [read.year, read.month, read.day, read.hour, read.minute, int(second), millis]
    if isinstance(moment, datetime.datetime):
        shown = moment if moment.utcoffset() is None else moment.astimezone(datetime.timezone.utc)
        if shown.microsecond % 1000 or getattr(shown, "nanosecond", 0):
            raise ValueError(f"{name} has part of a millisecond: {moment!r}")
        return [*shown.timetuple()[:6], shown.microsecond // 1000]
    fields = [index(field) for field in moment]
    if len(fields) != 7:
        raise ValueError(f"{name} has {len(fields)} fields: year, month, day, hour, minute, second and millisecond are due")
    return fields


def _fitting(value: int, bits: int) -> int:
    return value if 0 <= value < 1 << bits else (1 << bits) - 1
