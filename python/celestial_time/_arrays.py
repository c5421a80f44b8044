"""Arrays handed to a loop of the library: what is taken, what is lent, and one walk over both.

An array of the right type that lies in one piece is handed over as it is, and a single float beside such as one stretch of places that all hold it. Any
other, one that is broadcast, strided, byte-swapped or of another type, goes through a buffer of some thousand places; none is copied whole here. Nothing is
called before every argument has been looked at.
"""
from __future__ import annotations

from typing import Any, Callable, NamedTuple, Sequence

import numpy as np
from numpy.typing import ArrayLike, NDArray

from ._answers import Number
from ._library import check_float_mode
from .refusals import Refused

BUFFER, STRETCH = 1 << 16, 1 << 18
FLOAT, INT, LONG, NUMBER = "<f8", "<i4", "<i8", "u1"
_FLOAT = np.dtype(FLOAT)
_PLAIN = (np.ndarray, np.memmap)
# Items of lists that lose nothing by themselves, and those of them that become floats as they are.
_FLOATS: set[type] = {float, np.float64, np.float32}
_TEXTS: set[type] = {str, bytes}
_ITEMS: set[type] = {int, str, bytes, np.int64, np.int32, np.str_, np.bytes_, *_FLOATS}
# The kinds of arrays that may be lent for answers of a kind.
_HOLD = {**dict.fromkeys("fiu", "fiu"), "b": "bfiu", "S": "SU"}


class Field(NamedTuple):
    """An array of answers: its name and its type.

    >>> Field('jd1', FLOAT).dtype
    '<f8'
    """

    name: str
    dtype: str


def as_array(name: str, value: ArrayLike) -> NDArray[Any]:
    """The argument as a plain array; a masked array, or one with units, would lose what it has beside its numbers.

    >>> as_array('jd1', [1, 2.5])
    array([1. , 2.5])
    >>> as_array('jd1', np.ma.masked_array([1.0], [True]))
    Traceback (most recent call last):
    TypeError: jd1 is a MaskedArray; hand over a plain array, of a masked one .filled(nan) or what is not masked
    """
    _look_at(name, value)
    array = np.asarray(value)
    # Of whole numbers and floats in one list numpy makes floats, and of texts and numbers texts.
    if array.dtype.kind in "fSU" and isinstance(value, (list, tuple)):
        _look_at_numbers(name, value, array.dtype.kind == "f")
    return array


def _look_at(name: str, value: Any) -> None:
    """An array, or the items of a list or tuple: numpy would take a mask off, and True among numbers for 1."""
    if isinstance(value, np.ndarray):
        if type(value) not in _PLAIN:
            kind = type(value).__name__
            raise TypeError(f"{name} is a {kind}; hand over a plain array, of a masked one .filled(nan) or what is not masked")
    elif isinstance(value, (list, tuple)):
        if not set(map(type, value)) <= _ITEMS:
            for item in value:
                if isinstance(item, (bool, np.bool_)) or isinstance(item, np.ndarray) and item.dtype.kind == "b":
                    raise TypeError(f"{name} holds {item!r}, which is no number")
                _check_no_number(name, item)
                _look_at(name, item)


def _look_at_numbers(name: str, value: Any, become_floats: bool) -> None:
    """That no whole number of a list or tuple is rounded where they become floats, and that no number becomes a text."""
    if isinstance(value, (list, tuple)):
        if not set(map(type, value)) <= (_FLOATS if become_floats else _TEXTS):
            for item in value:
                _look_at_numbers(name, item, become_floats)
    elif not become_floats:
        if np.asarray(value).dtype.kind not in "SU":
            raise TypeError(f"{name} holds {value!r} among texts")
    elif isinstance(value, np.ndarray):
        floats(name, value)
    elif isinstance(value, (int, np.integer)):
        _check_whole(name, int(value))


def _check_no_number(name: str, value: Any) -> None:
    """That an argument is not the numbers of an answer, which come with its dates where it is handed on whole."""
    if isinstance(value, Number):
        raise TypeError(f"{name} is the number of an answer: of an answer hand over [:2]")
    if isinstance(value, (np.ndarray, np.uint8)) and value.dtype == np.uint8:
        raise TypeError(f"{name} is of 8 bits unsigned, as the numbers of an answer are: of an answer hand over [:2]")


def is_missing(item: Any) -> bool:
    """Whether an item of an array of objects stands for none: None, a NaN, or pandas' NaT or NA.

    >>> is_missing(None), is_missing(float('nan')), is_missing('')
    (True, True, False)
    """
    return item is None or isinstance(item, float) and item != item or type(item).__name__ in ("NaTType", "NAType")


def _check_whole(name: str, number: int) -> None:
    if abs(number) > 1 << 53:
        raise OverflowError(f"{name} holds {number}, which a 64-bit float may round")


def _once(array: NDArray[Any]) -> NDArray[Any]:
    """The array without the axes along which one value is broadcast, which may be longer than any memory."""
    return array[tuple(slice(0, 1) if step == 0 else slice(None) for step in array.strides)]


def floats(name: str, value: ArrayLike) -> NDArray[Any]:
    """Numbers that become 64-bit floats with nothing lost: floats of at most 64 bits, and whole numbers up to 2^53, but for those of an answer's refusals.

    >>> floats('jd1', ['2451545.0'])
    Traceback (most recent call last):
    TypeError: jd1 is of type <U9 and not of 64-bit floats
    """
    array = as_array(name, value)
    if array.dtype == _FLOAT:
        return array
    _check_no_number(name, value)
    _check_no_number(name, array)
    if array.dtype.kind not in "fiu" or not np.can_cast(array.dtype, FLOAT, "safe"):
        raise TypeError(f"{name} is of type {array.dtype} and not of 64-bit floats")
    if array.dtype.kind != "f" and array.dtype.itemsize == 8 and array.size:
        held = _once(array)
        _check_whole(name, int(held.min()))
        _check_whole(name, int(held.max()))
    return array


def whole(name: str, value: ArrayLike, dtype: str) -> NDArray[Any]:
    """Whole numbers that fit the type: a number outside it can't be handed over, and is told with its place.

    >>> whole('year', [2000, 1 << 31], INT)
    Traceback (most recent call last):
    OverflowError: year holds 2147483648 at place 1, which is no int32
    """
    array = as_array(name, value)
    if array.dtype.kind not in "iu" and array.size:
        raise TypeError(f"{name} is of type {array.dtype} and not of whole numbers")
    if np.can_cast(array.dtype, dtype, "safe"):
        return array
    if not array.size:
        return array.astype(dtype)
    limits, held = np.iinfo(dtype), _once(array)
    # Python's own whole numbers: a comparison of int64 with uint64 would go by floats.
    for end, find in ((int(held.min()), held.argmin), (int(held.max()), held.argmax)):
        if not limits.min <= end <= limits.max:
            place = np.ravel_multi_index(np.unravel_index(int(find()), held.shape), array.shape)
            raise OverflowError(f"{name} holds {end} at place {place}, which is no {limits.dtype}")
    # In range, a signed number of the same width has the bits of the unsigned one. Of another width, it is cast in the walk.
    return array.view(dtype) if array.dtype.isnative and array.dtype.itemsize == limits.dtype.itemsize else array


def small(name: str, value: ArrayLike) -> NDArray[Any]:
    """A month, day, hour or minute for a call that takes 8 bits, or a week or millisecond for one that takes 32, as whole numbers of 64 bits: of what does not
    fit, the loop hands the greatest number over, which the call refuses. One of 2^63 and more has the bits of one below zero, which does not fit either.

    >>> small('month', [12, 13, -1, 1000])
    array([  12,   13,   -1, 1000])
    >>> small('month', np.array([12, 1 << 63], np.uint64))
    array([                  12, -9223372036854775808])
    """
    return _long(name, as_array(name, value))


def _long(name: str, array: NDArray[Any]) -> NDArray[Any]:
    if array.dtype.kind not in "iu" and array.size:
        raise TypeError(f"{name} is of type {array.dtype} and not of whole numbers")
    if np.can_cast(array.dtype, LONG, "safe"):
        return array
    return array.view(array.dtype.str.replace("u", "i")) if array.size else array.astype(LONG)


def counts(name: str, value: ArrayLike) -> NDArray[Any]:
    """Weeks, milliseconds or ticks: whole numbers as `small` takes them, or floats that are whole or not finite, as pandas makes a column of whole numbers
    of which some are missing. A float that is not finite, or that 64 bits do not hold, becomes -1, which stands for what no call takes.

    >>> counts('week', [2048.0, float('nan'), 1e300])
    array([2048,   -1,   -1])
    >>> counts('week', [2048.0, 0.5])
    Traceback (most recent call last):
    ValueError: week holds 0.5 at place 1, which is no whole number
    """
    array = as_array(name, value)
    if array.dtype.kind != "f" or array.dtype.itemsize > 8 or not array.size:
        return _long(name, array)
    held = _once(array)
    fits = np.abs(held) < 2.0**63  # no NaN, and no infinity
    made = np.where(fits, held, -1.0).astype(LONG)
    broken = fits & (made != held)
    if broken.any():
        at = np.unravel_index(int(broken.argmax()), held.shape)
        place = np.ravel_multi_index(at, array.shape) if array.shape else 0
        raise ValueError(f"{name} holds {held[at].item()!r} at place {place}, which is no whole number")
    return made if made.shape == array.shape else np.broadcast_to(made, array.shape)


def lent(out: Sequence[Any] | None, gives: Sequence[Field], shape: tuple[int, ...]) -> list[NDArray[Any] | None]:
    """The arrays that the caller lends for the answers, each of the answers' shape and of a type that holds them.

    >>> lent(([1.0],), [Field('jd1', FLOAT)], (1,))
    Traceback (most recent call last):
    TypeError: out: jd1 is lent as a list and not as an array
    """
    if out is None:
        return [None] * len(gives)
    if not isinstance(out, (tuple, list)) or len(out) != len(gives):
        raise ValueError(f"out: {len(gives)} arrays are due, each an array or None: {', '.join(field.name for field in gives)}")
    for field, array in zip(gives, out):
        if array is None:
            continue
        if type(array) not in _PLAIN:
            raise TypeError(f"out: {field.name} is lent as a {type(array).__name__} and not as an array")
        if array.dtype.kind not in _HOLD[np.dtype(field.dtype).kind] or not np.can_cast(field.dtype, array.dtype, "safe"):
            raise TypeError(f"out: {field.name} is of type {array.dtype}, which does not hold {np.dtype(field.dtype)}")
        if array.shape != shape:
            raise ValueError(f"out: {field.name} has shape {array.shape}, and the answers have {shape}")
        if not array.flags.writeable:
            raise ValueError(f"out: {field.name} is read-only")
        if _overlaps_itself(array):
            raise ValueError(f"out: two places of {field.name} share their memory")
    if any(a is not None and b is not None and _overlap(a, b) for i, a in enumerate(out) for b in out[:i]):
        raise ValueError("out: two of the arrays share their memory")
    return list(out)


def _overlaps_itself(array: NDArray[Any]) -> bool:
    """Whether a step along an axis is not past what the axes of smaller steps reach over: one that is lent so is odd enough to be refused."""
    if array.flags.c_contiguous:
        return False
    reach = array.itemsize
    for step, length in sorted((abs(step), length) for step, length in zip(array.strides, array.shape) if length > 1):
        if step < reach:
            return True
        reach += step * (length - 1)
    return False


def _overlap(one: NDArray[Any], other: NDArray[Any]) -> bool:
    try:
        return bool(np.shares_memory(one, other, max_work=100000))
    except RuntimeError:  # numpy's TooHardError: so many steps do not tell
        return True


def one_dimension(name: str, value: ArrayLike) -> NDArray[Any]:
    """Floats of a run, in one dimension.

    >>> one_dimension('jd1', 2451545.0)
    Traceback (most recent call last):
    ValueError: jd1 has 0 dimensions and not one
    """
    array = floats(name, value)
    if array.ndim != 1:
        raise ValueError(f"{name} has {array.ndim} dimensions and not one")
    return array


def in_one_piece(name: str, value: ArrayLike) -> NDArray[np.float64]:
    """64-bit floats of a run, in one piece.

    >>> in_one_piece('jd1', [2451545])
    array([2451545.])
    """
    return np.ascontiguousarray(one_dimension(name, value), FLOAT)


def judged(name: str, value: ArrayLike) -> NDArray[np.uint8]:
    """A copy of the numbers of a run, as the functions answer them.

    >>> judged('numbers', gpstai([float('nan')], [0.0]).numbers)
    array([9], dtype=uint8)
    """
    array = as_array(name, value)
    if array.dtype != np.uint8 or array.ndim != 1:
        raise TypeError(f"{name} are an array of one dimension and of 8 bits unsigned, as the functions answer it")
    return np.array(array, "u1", order="C")


def common_shape(takes: Sequence[tuple[str, NDArray[Any]]]) -> tuple[int, ...]:
    """The shape to which numpy broadcasts the arguments.

    >>> common_shape([('jd1', np.zeros(2)), ('jd2', np.zeros(3))])
    Traceback (most recent call last):
    ValueError: jd1 of shape (2,), jd2 of shape (3,) do not go together
    """
    shapes = {array.shape for _, array in takes}
    if len(shapes) == 1:
        return shapes.pop()
    try:
        return np.broadcast_shapes(*(array.shape for _, array in takes))
    except ValueError:
        said = ", ".join(f"{name} of shape {array.shape}" for name, array in takes)
        raise ValueError(f"{said} do not go together") from None


def address_of(array: NDArray[Any]) -> int:
    """Where an array's first place lies.

    >>> address_of(np.zeros(1)) > 0
    True
    """
    return int(array.__array_interface__["data"][0])


def each(
    name: str,
    loop: Callable[..., int],
    takes: Sequence[tuple[str, NDArray[Any]]],
    gives: Sequence[Field],
    dtypes: Sequence[str],
    out: Sequence[Any] | None = None,
    shown: Sequence[str] = (),
) -> tuple[Any, ...]:
    """Walk over the arguments and the answers, and call `loop(n, address, ..)` for each stretch of n places that lies in one piece.

    The answers come in the order of `gives`, whose last is the stamps' numbers where a call may refuse. Of single values the answers are single values, and a
    refusal is raised; where `out` lends places they are arrays, and a refusal is in them. `shown` names the arguments in errors where `takes` has other
    words for them.

    >>> each('gps_full_week', function('ct_each_full_week'), [('ten_bits', np.array(2)), ('reference', np.array(2400))], [Field('week', INT), Field('numbers', NUMBER)], [LONG, LONG])
    (2050, 0)
    """
    shape = common_shape(list(zip(shown, (array for _, array in takes))) if shown else takes)
    places = lent(out, gives, shape)
    check_float_mode()
    arrays = [array for _, array in takes]
    if _lie_ready(arrays, dtypes, shape) and _are_apart(arrays, places, gives):
        answers = [np.empty(shape, field.dtype) if place is None else place for place, field in zip(places, gives)]
        _as_they_lie(name, loop, [*arrays, *answers])
    else:
        answers = _walked(name, loop, arrays, dtypes, places, gives)
    if shape != () or out is not None:
        return tuple(answers)
    values = tuple(answer.item() for answer in answers)
    if gives[-1].name != "numbers":
        return values
    if values[-1]:
        raise Refused(values[-1], name, {argument: array.item() for argument, array in takes})
    return *values[:-1], Number(values[-1])


def _lie_ready(arrays: Sequence[NDArray[Any]], dtypes: Sequence[str], shape: tuple[int, ...]) -> bool:
    """Whether all are of the loop's types and of one shape, each in one piece; a single value of that type goes with any shape."""
    return all(
        array.dtype == dtype and (array.shape == shape or array.shape == ()) and array.flags.c_contiguous and array.flags.aligned
        for array, dtype in zip(arrays, dtypes)
    )


def _are_apart(arrays: Sequence[NDArray[Any]], places: Sequence[NDArray[Any] | None], gives: Sequence[Field]) -> bool:
    """Whether the lent arrays are the loop's, too, and lie apart from the arguments."""
    lent_places = [(place, field.dtype) for place, field in zip(places, gives) if place is not None]
    return all(
        _lie_ready([place], [dtype], place.shape) and not any(np.may_share_memory(place, array) for array in arrays) for place, dtype in lent_places
    )


def _as_they_lie(name: str, loop: Callable[..., int], arrays: Sequence[NDArray[Any]]) -> None:
    """Arrays that each lie in one piece, handed over where they lie; in stretches, so that a long call can be interrupted between two. A single value among
    the arguments stands in each place of one stretch, which is handed over for all."""
    size = arrays[-1].size
    pieces = [np.full(min(STRETCH, size), array) if array.shape == () != arrays[-1].shape else array for array in arrays]
    steps = [(address_of(piece), piece.itemsize if piece is array else 0) for piece, array in zip(pieces, arrays)]
    for first in range(0, size, STRETCH):
        code = loop(min(STRETCH, size - first), *[address + step * first for address, step in steps])
        if code < 0:
            raise Refused(-code, name)


def _walked(
    name: str, loop: Callable[..., int], arrays: Sequence[NDArray[Any]], dtypes: Sequence[str], places: Sequence[NDArray[Any] | None], gives: Sequence[Field]
) -> list[Any]:
    """Arrays of any make, walked over by numpy, which casts, swaps and broadcasts through a buffer."""
    # Without nditer's flag `contig`: with it numpy 1.24 leaves a buffer unfilled where one value of another type is broadcast.
    operands: Any = [*arrays, *places]
    flags: Any = [["readonly", "aligned"]] * len(arrays) + [["writeonly", "allocate", "aligned", "no_broadcast"]] * len(gives)
    walk = np.nditer(
        operands,
        flags=["external_loop", "buffered", "zerosize_ok", "copy_if_overlap"],
        op_flags=flags,
        op_dtypes=[*dtypes, *(field.dtype for field in gives)],
        casting="unsafe",  # what would lose something has been refused above
        buffersize=BUFFER,
    )
    with walk:
        for stretch in walk:
            _in_one_piece(name, loop, stretch[: len(arrays)], stretch[len(arrays) :])
        return [kept if kept is not None else made for kept, made in zip(places, walk.operands[len(arrays) :])]


def _in_one_piece(name: str, loop: Callable[..., int], taken: Sequence[NDArray[Any]], given: Sequence[NDArray[Any]]) -> None:
    """One stretch: what does not lie in one piece goes through arrays that do."""
    handed = [np.ascontiguousarray(part) for part in taken]
    filled = [part if part.flags.c_contiguous else np.empty(part.shape, part.dtype) for part in given]
    code = loop(len(handed[0]), *map(address_of, handed), *map(address_of, filled))
    if code < 0:
        raise Refused(-code, name)
    for part, whole_part in zip(given, filled):
        if part is not whole_part:
            part[...] = whole_part
