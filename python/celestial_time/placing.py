"""Readings placed on the pipe: the milliseconds of stamps since the launch, and their places between the marker passes."""
from __future__ import annotations

from typing import Any, NamedTuple, Sequence, Union

import numpy as np
from numpy.typing import ArrayLike, NDArray

from ._answers import NO_LONG, Dates, Milliseconds, Number, Places, UtcFields
from ._arrays import FLOAT, LONG, NUMBER, Field, address_of, as_array, counts, each, floats
from ._library import function
from .refusals import Refused
from .runs import Run
from .scales import SCALES

Dated = Union[Dates, Run, Sequence[Any]]
UNITS = {"m": 1000, "mm": 1}
UNIFORM = tuple(scale for scale in SCALES if scale not in ("utc", "ut1"))
_MILLIS = [Field("millis", LONG), Field("numbers", NUMBER)]


# A tenth of a micrometre, in millimetres: what sums and products of metres may be off by.
_ROUNDING = 1e-4


class _Given(NamedTuple):
    """Dates as they were handed over: their scale, both parts, and the numbers that the stamps have already."""

    scale: str
    jd1: Any
    jd2: Any
    numbers: Any


def milliseconds(launch: Dated, stamps: Dated, *, scale: str | None = None) -> Milliseconds:
    """The whole milliseconds from the launch to each stamp, to the nearest, halves up: 64 bits signed, 0 to 2^40-1.

    Both are dates of one scale without leap seconds, best TAI: an answer as `gpstai` gives it, whose refused stamps keep their numbers, or two parts
    (jd1, jd2), both with `scale`, as scale='tai'; or three (scale, jd1, jd2), as a `Run` has them. The launch is a single date. Dates whose scale is not
    named are an error, and so are two scales, and UTC and UT1, whose days differ: hand over the TAI. Refused are parts that are not finite (9), dates outside
    the calendar (6) and other milliseconds (18); a launch that is refused refuses the call.

    >>> launch = utctai(2457753.5, 0.0)
    >>> milliseconds(launch, gpstai(2457754.5, [0.0, float('nan')]), scale='tai')
    Milliseconds(millis=array([            86383000, -9223372036854775808]), numbers=array([0, 9], dtype=uint8))
    >>> milliseconds(('gps', 2457754.5, 0.0), ('gps', 2457754.5, 0.25)).millis
    21600000
    >>> milliseconds((2457754.5, 0.0), (2457754.5, 0.25))
    Traceback (most recent call last):
    TypeError: launch: no scale is named: scale='tai', or hand over (scale, jd1, jd2)
    """
    start, given = _given("launch", launch, scale), _given("stamps", stamps, scale)
    if start.scale != given.scale:
        raise ValueError(f"launch is of {start.scale} and stamps are of {given.scale}: dates of one scale are due")
    from1, from2 = (floats("launch", part) for part in (start.jd1, start.jd2))
    if from1.shape or from2.shape:
        raise ValueError("launch: a single date is due")
    if start.numbers is not None and int(start.numbers):
        raise Refused(int(start.numbers), "milliseconds")
    told = _told("stamps", given.numbers) if given.numbers is not None else None
    call, begun = function("ct_milliseconds_of_run"), (float(from1), float(from2))

    def counted(n: int, jd1: int, jd2: int, millis: int, numbers: int) -> int:
        return call(*begun, jd1, 8 * n, jd2, 8 * n, millis, 8 * n, numbers, n)

    takes = [("jd1", floats("jd1", given.jd1)), ("jd2", floats("jd2", given.jd2))]
    millis, numbers = each("milliseconds", counted, takes, _MILLIS, [FLOAT] * 2)
    if isinstance(millis, int):
        if told is not None and told.any():
            raise Refused(int(told.max()), "milliseconds")
        return Milliseconds(millis, numbers)
    if told is not None:
        np.copyto(numbers, told, where=told != 0)
    millis[numbers != 0] = NO_LONG
    return Milliseconds(millis, numbers)


def place(
    readings: Milliseconds | ArrayLike | Dated,
    passes: Sequence[Any],
    *,
    launch: Dated | None = None,
    scale: str | None = None,
    unit: str = "m",
    numbers: ArrayLike | None = None,
) -> Places:
    """The place of each reading on the straight line between the marker passes beside it, in whole millimetres, rounded down; `metres` has them as floats.

    `readings` are the answer of `milliseconds` or whole milliseconds, as floats too, with NaN for a missing one; with `launch` they are stamps, as
    `milliseconds` takes them, with `scale` where they do not name it. `passes` are two lists, the TAI milliseconds since the launch and the places along the
    pipe in metres (of whole millimetres), with unit='mm' in millimetres; 2 to 2,000 of them, rising in both. `numbers` are those that the readings have
    already, 0 to 255. A refused reading keeps its number, and one outside the passes has 25. Passes that the library refuses (23, 24) refuse the call.

    >>> passes = [0, 1000, 3000], [0.0, 2.5, 12.5]
    >>> place([0, 500, 2000.0, float('nan')], passes)
    Places(mm=array([                   0,                 1250,                 7500,
           -9223372036854775808]), numbers=array([ 0,  0,  0, 25], dtype=uint8))
    >>> place((2457754.5, [0.0, float('inf')]), passes, launch=(2457754.5, 0.0), scale='tai').metres
    array([ 0., nan])
    """
    if launch is None and scale is not None:
        raise TypeError("scale: without a launch the readings are milliseconds, which have none")
    if launch is None and isinstance(readings, (Dates, UtcFields, Run)):
        raise TypeError("readings: stamps are placed by a launch: name it, or hand over their milliseconds")
    held = milliseconds(launch, _as_dated(readings), scale=scale) if launch is not None else readings
    millis, told = _counted(held, numbers)
    lists = _passes(passes, unit)
    mm, judged = np.empty(millis.shape, LONG), told.reshape(-1)
    given = np.ascontiguousarray(millis, LONG)  # one below zero has the bits of one that no pass reaches
    code = function("ct_place_readings")(*(part for array in (*lists, given, mm, judged) for part in (address_of(array), array.nbytes)))
    if code < 0:
        raise Refused(-code, "place")
    if judged.any():
        mm[judged.reshape(mm.shape) != 0] = NO_LONG
    if not millis.shape:
        if judged[0]:
            raise Refused(int(judged[0]), "place")
        return Places(int(mm), Number(0))
    return Places(mm, judged.reshape(millis.shape))


def _as_dated(readings: Any) -> Dated:
    if isinstance(readings, Milliseconds) or not isinstance(readings, (tuple, list)):
        raise TypeError("readings: beside a launch, stamps are due: an answer with dates, (jd1, jd2) or (scale, jd1, jd2)")
    return readings


def _given(name: str, dated: Dated, scale: str | None) -> _Given:
    """Dates by their scale, parts and numbers: the scale that they name, which must be the one beside them where both are there, or that one."""
    if isinstance(dated, UtcFields):
        raise TypeError(f"{name} are the fields of texts: hand over the two parts, jd1 and jd2, those of UTC as TAI (utctai)")
    if not isinstance(dated, (tuple, list)) or len(dated) not in (2, 3):
        raise TypeError(f"{name}: dates are due: an answer with dates, (jd1, jd2) or (scale, jd1, jd2)")
    if isinstance(dated, Dates):
        return _Given(_uniform(name, scale), *dated)
    if len(dated) == 2:
        return _Given(_uniform(name, scale), dated[0], dated[1], None)
    named, jd1, jd2 = dated
    if not isinstance(named, str):
        raise TypeError(f"{name}: of three the first is due to be the scale's name: (scale, jd1, jd2)")
    if scale is not None and scale != named:
        raise ValueError(f"{name}: of {named}, and beside them scale={scale!r}: dates of one scale are due")
    return _Given(_uniform(name, named), jd1, jd2, None)


def _uniform(name: str, scale: str | None) -> str:
    """A scale with days of one length. None, another, and what is no scale are errors."""
    if scale is None:
        raise TypeError(f"{name}: no scale is named: scale='tai', or hand over (scale, jd1, jd2)")
    if scale == "utc":
        raise ValueError(f"{name}: days of UTC differ by their leap seconds; hand over the TAI (utctai)")
    if scale not in UNIFORM:
        raise ValueError(f"{name}: no scale {scale!r} with days of one length; the scales are {', '.join(UNIFORM)}")
    return scale


def _told(name: str, numbers: Any) -> NDArray[np.uint8]:
    """The numbers that stamps or readings have already, which a byte must hold."""
    array = np.asarray(numbers)
    if array.dtype == np.uint8:
        return array
    if array.dtype.kind not in "iu":
        raise ValueError(f"numbers of {name} are of type {array.dtype}: whole numbers are due, as the functions answer them")
    wrong = (array < 0) | (array > 255)
    if wrong.any():
        at = int(wrong.argmax())
        raise ValueError(f"numbers of {name} hold {array.ravel()[at].item()} at place {at}: 0 to 255 are due")
    return array.astype("u1")


def _counted(held: Any, numbers: Any) -> tuple[NDArray[Any], NDArray[np.uint8]]:
    """Milliseconds as an array and the number of each, those of an answer and those beside it."""
    millis = counts("readings", held.millis if isinstance(held, Milliseconds) else held)
    told: NDArray[np.uint8] = np.zeros(millis.shape, "u1")
    for one in (held.numbers if isinstance(held, Milliseconds) else None, numbers):
        if one is not None:
            array = _told("readings", one)
            if array.shape != millis.shape:
                raise ValueError(f"numbers of shape {array.shape} beside readings of {millis.shape}: one for each reading is due, as the functions answer it")
            np.copyto(told, array, where=told == 0)
    return millis, told


def _passes(passes: Sequence[Any], unit: str) -> list[NDArray[np.uint64]]:
    """The passes' milliseconds and millimetres. What is no whole number of them is an error, and what is below zero is handed over as the greatest
    number, which the library refuses."""
    if unit not in UNITS:
        raise ValueError(f"no unit: {unit!r}; the units are {', '.join(UNITS)}")
    if not isinstance(passes, (tuple, list)) or len(passes) != 2:
        raise TypeError("passes: two lists are due, the milliseconds and the places")
    millis, places = passes[0].millis if isinstance(passes[0], Milliseconds) else passes[0], passes[1]
    if unit == "m":
        places = _whole_millimetres(places)
    made = []
    for name, value in (("passes", millis), ("places", places)):
        array = counts(name, value)
        if array.ndim != 1:
            raise ValueError(f"{name}: a list has {array.ndim} dimensions and not one")
        made.append(np.ascontiguousarray(array, LONG).view("<u8"))
    return made


def _whole_millimetres(metres: ArrayLike) -> NDArray[np.float64]:
    """Metres as millimetres. One that is no whole number of them is an error; what is not finite is left to the library, which refuses it."""
    array = np.asarray(floats("metres", as_array("metres", metres)), FLOAT)
    mm, broken = millimetres_of(array, "m")
    broken &= np.isfinite(mm)
    if broken.any():
        at = int(broken.argmax())
        raise ValueError(f"metres holds {array.ravel()[at].item()!r} at place {at}, which is no whole number of millimetres")
    return mm


def millimetres_of(places: NDArray[np.float64], unit: str) -> tuple[NDArray[np.float64], NDArray[np.bool_]]:
    """Places as whole millimetres, and which are none: neither the float nearest to a whole number of them nor within a tenth of a micrometre, however far
    along the pipe.

    >>> millimetres_of(np.array([0.1 + 0.2, 600000.0005]), 'm')
    (array([3.e+02, 6.e+08]), array([False,  True]))
    """
    per = float(UNITS[unit])
    with np.errstate(over="ignore", invalid="ignore"):
        scaled = places * per
        near: NDArray[np.float64] = np.rint(scaled)
        broken = ~((near / per == places) & np.isfinite(scaled) | (np.abs(scaled - near) <= _ROUNDING))
    return near, broken
