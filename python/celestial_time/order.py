"""The order of dates by their exact sums, and which stamps are one."""
from __future__ import annotations

from typing import Any, Sequence, Union

import numpy as np
from numpy.typing import ArrayLike, NDArray

from ._answers import Number, Order, Seconds, Sorted
from ._arrays import FLOAT, NUMBER, Field, address_of, as_array, each, floats, in_one_piece, judged
from ._library import check_float_mode, function
from .refusals import Refused
from .scales import RUN_SCALES, SCALES, Out, convert
from .tables import Table

Truths = Union["NDArray[np.bool_]", bool]
Floats = Union["NDArray[np.float64]", float]


def compare(jd1: ArrayLike, jd2: ArrayLike, other1: ArrayLike, other2: ArrayLike, *, out: Out = None) -> Order:
    """Which of two dates of one scale is first, by their exact sums: -1 before the other, 0 equal, 1 after it.

    >>> compare(2451545.0, [0.0, 0.5, float('inf')], 2451544.75, 0.25)
    Order(order=array([   0,    1, -128], dtype=int8), numbers=array([0, 0, 9], dtype=uint8))
    """
    gives = [Field("order", "i1"), Field("numbers", NUMBER)]
    return Order(*each("compare", function("ct_each_compare"), _four(jd1, jd2, other1, other2), gives, [FLOAT] * 4, out))


def equal(jd1: ArrayLike, jd2: ArrayLike, other1: ArrayLike, other2: ArrayLike, *, out: Any = None) -> Truths:
    """Whether two dates of one scale are one, however they are divided into parts. A date with a NaN equals none.

    >>> equal(2451545.0, 0.0, 2451544.75, [0.25, 0.5])
    array([ True, False])
    """
    answer: Truths = _only("equal", "ct_each_equal", _four(jd1, jd2, other1, other2), "?", out)[0]
    return answer


def difference(jd1: ArrayLike, jd2: ArrayLike, other1: ArrayLike, other2: ArrayLike, *, out: Any = None) -> Floats:
    """The days from the other date to this, rounded: 0.0 also for some dates that differ, so that it is no order to sort by.

    >>> difference(2451545.0, 0.25, 2451544.0, 0.0)
    1.25
    """
    answer: Floats = _only("difference", "ct_each_difference", _four(jd1, jd2, other1, other2), FLOAT, out)[0]
    return answer


def seconds_between(
    scale: str, jd1: ArrayLike, jd2: ArrayLike, other1: ArrayLike, other2: ArrayLike, *, table: Table | None = None
) -> Seconds:
    """The seconds from the other date to this, both of one scale of utc, tai, gps, tt and tcg; between dates of UTC those of TAI, leap seconds counted.

    They are the rounded days of `difference` times 86400.0: two dates that are split in one way, less than a month apart, are right to a nanosecond.

    >>> seconds_between('utc', 2457754.5, [0.0, float('nan')], 2457753.5, 0.0)
    Seconds(seconds=array([86401.,    nan]), numbers=array([0, 6], dtype=uint8))
    """
    if scale not in RUN_SCALES:
        raise ValueError(f"no seconds between dates of scale {scale!r}; the scales are {', '.join(RUN_SCALES)}")
    target = "tai" if scale == "utc" else scale
    one, other = (convert(scale, target, *parts, table=table) for parts in ((jd1, jd2), (other1, other2)))
    seconds = np.asarray(difference(one.jd1, one.jd2, other.jd1, other.jd2)) * 86400.0
    if not np.shape(seconds):
        return Seconds(float(seconds), Number(0))
    numbers = np.where(one.numbers, one.numbers, other.numbers)
    return Seconds(seconds, np.array(np.broadcast_to(numbers, seconds.shape), "u1"))


def argsort(jd1: ArrayLike, jd2: ArrayLike, *, numbers: ArrayLike | None = None) -> Sorted:
    """The places of stamps of one scale, in one dimension, as they rise by their exact sums; equal ones as they stand. A stamp whose number is not 0, or
    that has no place in the order, which gets 9, is not among them.

    >>> argsort([2451546.0, float('nan'), 2451545.0], [0.0, 0.0, 0.5])
    Sorted(places=array([2, 0], dtype=uint32), numbers=array([0, 9, 0], dtype=uint8))
    """
    first, second = in_one_piece("jd1", jd1), in_one_piece("jd2", jd2)
    if len(first) != len(second):
        raise ValueError(f"{len(first)} first parts and {len(second)} second parts")
    own = compare(first, second, first, second).numbers
    if len(own) >= 1 << 32:
        raise OverflowError(f"{len(own)} stamps: a place has 32 bits")
    given = own if numbers is None else judged("numbers", numbers)
    if given.shape != own.shape:
        raise ValueError(f"{len(own)} stamps and {len(given)} numbers")
    told = np.where(given, given, own)
    places = np.flatnonzero(told == 0).astype("<u4")
    work = np.empty_like(places)
    check_float_mode()
    code = function("ct_each_sort")(len(places), *map(address_of, (first, second, places, work)))
    if code < 0:
        raise Refused(-code, "argsort")
    return Sorted(work if code else places, told)


def same_stamp(
    scale: str, jd1: ArrayLike, jd2: ArrayLike, other_scale: str, other1: ArrayLike, other2: ArrayLike, *, out: Any = None
) -> Truths:
    """Whether two stamps are the same: one scale, and both parts with the same bits. A NaN is the same as itself, and 0.0 is not -0.0.

    >>> same_stamp('tai', 2451545.0, [0.0, -0.0], 'tai', 2451545.0, 0.0)
    array([ True, False])
    """
    for name in (scale, other_scale):
        if name not in SCALES:
            raise ValueError(f"no scale: {name!r}; the scales are {', '.join(SCALES)}")
    loop, mine, others = function("ct_each_same_stamp"), SCALES[scale], SCALES[other_scale]
    takes = [(name, _bits(name, value)) for name, value in (("jd1", jd1), ("jd2", jd2), ("other1", other1), ("other2", other2))]
    handed = [(name, array) for name, (array, _) in takes]
    answer: Truths = _only("same_stamp", lambda n, *a: loop(mine, others, n, *a), handed, "?", out, [dtype for _, (_, dtype) in takes])[0]
    return answer


def _four(jd1: ArrayLike, jd2: ArrayLike, other1: ArrayLike, other2: ArrayLike) -> list[Any]:
    return [(name, floats(name, value)) for name, value in (("jd1", jd1), ("jd2", jd2), ("other1", other1), ("other2", other2))]


def _bits(name: str, value: ArrayLike) -> tuple[NDArray[Any], str]:
    """The bits of 64-bit floats, as numbers, which are swapped and copied with no NaN going through a float; of other numbers the 64-bit floats."""
    array = as_array(name, value)
    if array.dtype.kind == "f" and array.dtype.itemsize == 8:
        return array.view(array.dtype.str.replace("f", "u")), "<u8"
    return floats(name, array), FLOAT


def _only(name: str, loop: Any, takes: list[Any], dtype: str, out: Any, inputs: Sequence[str] = (FLOAT,) * 4) -> tuple[Any, ...]:
    called = function(loop) if isinstance(loop, str) else loop
    return each(name, called, takes, [Field("answer", dtype)], inputs, None if out is None else (out,))
