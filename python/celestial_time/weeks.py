"""GPS weeks and milliseconds of the week, and GPS dates, both ways."""
from __future__ import annotations

from numpy.typing import ArrayLike

from ._answers import Dates, FullWeeks, Weeks
from ._arrays import FLOAT, INT, LONG, NUMBER, Field, counts, each, floats
from ._library import function
from .scales import Out

_NUMBERS = Field("numbers", NUMBER)


def gps_from_week(week: ArrayLike, millis: ArrayLike, *, out: Out = None) -> Dates:
    """The GPS date of a week, counted from 1980-01-06, and a millisecond of it. What does not fit 32 bits is refused by 18 as any other wrong one is, and
    so is what is not finite in floats that are whole otherwise.

    >>> gps_from_week([0, 2048], 43200000)
    Dates(jd1=array([2444244.5, 2458580.5]), jd2=array([0.5, 0.5]), numbers=array([0, 0], dtype=uint8))
    >>> gps_from_week([2048.0, float('nan')], 0).numbers
    array([ 0, 18], dtype=uint8)
    """
    takes = [("week", counts("week", week)), ("millis", counts("millis", millis))]
    gives = [Field("jd1", FLOAT), Field("jd2", FLOAT), _NUMBERS]
    return Dates(*each("gps_from_week", function("ct_each_week_date"), takes, gives, [LONG] * 2, out))


def gps_to_week(gps1: ArrayLike, gps2: ArrayLike, *, out: Out = None) -> Weeks:
    """The week of a GPS date and the nearest millisecond of it.

    >>> gps_to_week(2458581.5, [0.5, 7.0])
    Weeks(week=array([2048, 2049], dtype=int32), millis=array([129600000,  86400000], dtype=int32), numbers=array([0, 0], dtype=uint8))
    """
    takes = [("jd1", floats("gps1", gps1)), ("jd2", floats("gps2", gps2))]
    return Weeks(*each("gps_to_week", function("ct_each_week"), takes, [Field("week", INT), Field("millis", INT), _NUMBERS], [FLOAT] * 2, out))


def gps_full_week(ten_bits: ArrayLike, reference: ArrayLike, *, out: Out = None) -> FullWeeks:
    """The whole week of its ten lowest bits that lies nearest the reference week.

    >>> gps_full_week(2, [2400, 514])
    FullWeeks(week=array([       2050, -2147483648], dtype=int32), numbers=array([ 0, 19], dtype=uint8))
    """
    takes = [("ten_bits", counts("ten_bits", ten_bits)), ("reference", counts("reference", reference))]
    return FullWeeks(*each("gps_full_week", function("ct_each_full_week"), takes, [Field("week", INT), _NUMBERS], [LONG] * 2, out))
