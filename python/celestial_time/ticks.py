"""Ticks between marker passes."""
from __future__ import annotations

from typing import Any, Literal, overload

import numpy as np
from numpy.typing import ArrayLike, NDArray

from ._answers import NO_LONG, Number, Ticks
from ._arrays import Field, address_of, as_array, counts, lent, whole
from ._library import function
from .refusals import OUTSIDE, Refused


@overload
def place_ticks(
    pass_ticks: ArrayLike, pass_millis: ArrayLike, ticks: ArrayLike, *, return_numbers: Literal[False] = False, out: Any = None
) -> NDArray[np.uint64] | int: ...
@overload
def place_ticks(pass_ticks: ArrayLike, pass_millis: ArrayLike, ticks: ArrayLike, *, return_numbers: Literal[True], out: None = None) -> Ticks: ...


def place_ticks(
    pass_ticks: ArrayLike, pass_millis: ArrayLike, ticks: ArrayLike, *, return_numbers: bool = False, out: Any = None
) -> NDArray[np.uint64] | int | Ticks:
    """Each tick's TAI millisecond on the straight line between the passes beside it, rounded down. A tick outside the passes refuses the call.

    The answer is an array of 64 bits unsigned, and of a single tick a whole number. With `return_numbers` a tick outside the passes, or a float that is not
    finite, is refused at its place, by 25, and the answer is of 64 bits signed.

    >>> place_ticks([0, 1000], [0, 500], [0, 3, 1000])
    array([  0,   1, 500], dtype=uint64)
    >>> place_ticks([0, 1000], [0, 500], [3.0, float('nan')], return_numbers=True)
    Ticks(millis=array([                   1, -9223372036854775808]), numbers=array([ 0, 25], dtype=uint8))
    """
    passes = [_list(name, value) for name, value in (("pass_ticks", pass_ticks), ("pass_millis", pass_millis))]
    if return_numbers:
        if out is not None:
            raise TypeError("out: no places are lent where the ticks' numbers are asked for")
        return _each_placed(passes, counts("ticks", ticks))
    given = _list("ticks", ticks)
    shape = np.shape(ticks)
    (lent_millis,) = lent(None if out is None else (out,), [Field("millis", "<u8")], shape)
    millis = _placed(passes, given)
    if lent_millis is None:
        return millis if shape else int(millis[0])
    lent_millis[...] = millis.reshape(shape)
    return lent_millis


def _each_placed(passes: list[NDArray[np.uint64]], ticks: NDArray[Any]) -> Ticks:
    """A tick below the first pass or above the last is not handed over; the library judges all others, and the passes."""
    if ticks.ndim > 1:
        raise ValueError(f"ticks has {ticks.ndim} dimensions and not one")
    among = np.zeros(ticks.shape, bool)
    if len(passes[0]):
        first, last = (min(int(end), np.iinfo("<i8").max) for end in (passes[0][0], passes[0][-1]))
        among = (ticks >= first) & (ticks <= last)
    millis = np.full(ticks.shape, NO_LONG)
    millis[among] = _placed(passes, ticks[among].astype("<u8"))
    if ticks.ndim:
        return Ticks(millis, np.where(among, 0, OUTSIDE).astype("u1"))
    if not among:
        raise Refused(OUTSIDE, "place_ticks")
    return Ticks(int(millis), Number(0))


def _placed(passes: list[NDArray[np.uint64]], ticks: NDArray[np.uint64]) -> NDArray[np.uint64]:
    millis = np.empty(ticks.shape, "<u8")
    slices = [part for array in (*passes, ticks, millis) for part in (address_of(array), array.nbytes)]
    code = function("ct_place_ticks")(*slices)
    if code < 0:
        raise Refused(-code, "place_ticks")
    return millis


def _list(name: str, value: ArrayLike) -> NDArray[np.uint64]:
    """Whole numbers, or floats that are whole; of one that is not finite the greatest number, which no call takes."""
    array = as_array(name, value)
    if array.dtype.kind == "f":
        array = counts(name, array)
        array = np.where(array < 0, np.iinfo("<u8").max, array.astype("<u8"))
    array = np.ascontiguousarray(whole(name, array, "<u8"), "<u8")
    if array.ndim != 1:
        raise ValueError(f"{name} has {array.ndim} dimensions and not one")
    return array
