"""Refusals: the exception that carries a number, and the words of a number."""
from __future__ import annotations

import ctypes
from operator import index
from typing import Any

from ._library import FloatModeError, LibraryError, check_float_mode, function

# Which values each sentence takes, and the call that composes it.
_SENTENCES: dict[str, tuple[str, ...]] = {
    "ct_date_reason": ("year", "month", "day"),
    "ct_time_reason": ("hour", "minute", "second", "leap"),
    "ct_parts_reason": ("jd1", "jd2"),
    "ct_block_reason": ("length", "size", "second_size"),
    "ct_count_reason": ("nanos",),
}
_FLOATS = ("fraction", "offset")
LEFT_OUT = 17  # of a stamp of a line; every other number is a refusal
OUTSIDE = 25  # of a tick or a reading that no two passes hold between them
# The values that a number's test reads. Those of 4 are not here: the leap of the day is not among a call's arguments.
_READ: dict[int, tuple[str, ...]] = {
    **dict.fromkeys((1, 2, 3), ("year", "month", "day")),
    **dict.fromkeys((6, 9), ("jd1", "jd2")),
    7: ("fraction",),
    8: ("nanos",),
    10: ("offset",),
    **dict.fromkeys((12, 13, 14), ("length", "size", "second_size")),
}
_LONGEST = 58


class Refused(ValueError):
    """A single stamp, or a whole call, that the library refuses. `number` is the refusal's, `call` the function's name, and `values` what it was given.

    >>> try:
    ...     gpstai(float('nan'), 0.0)
    ... except Refused as refused:
    ...     refused.number, refused.call
    (9, 'gpstai')
    """

    def __init__(self, number: int, call: str = "", values: dict[str, Any] | None = None) -> None:
        super().__init__(number, call, values or {})
        self.number = number
        self.call = call
        self.values = values or {}

    def __str__(self) -> str:
        said = f"refused {self.number}" if not self.call else f"{self.call}: refused {self.number}"
        read = {name: self.values[name] for name in _READ.get(self.number, ()) if name in self.values}
        whole = len(read) == len(_READ.get(self.number, ()))
        # The sentence has a float's bits; Python's own words for the values stand behind it.
        values = f" ({', '.join(f'{name}={value!r}' for name, value in read.items())})" if read else ""
        # A value that the sentence's call can't be handed leaves the sentence that names no field.
        tries: list[dict[str, Any]] = [read if whole else {}, {}]
        for given in tries:
            try:
                return f"{said}: {reason(self.number, **given)}{values}"
            except (FloatModeError, LibraryError, OverflowError, Refused):
                continue
        return said + values


def reason(number: int, **values: Any) -> str:
    """A refusal's number in words, with the field that was wrong where its values are given.

    The values are one of the groups year, month, day; hour, minute, second, leap; jd1, jd2; length, size, second_size; fraction; offset; nanos. Values of
    another group than the number's, or that pass, name no field. A number that is not 1 to 28 is itself refused by 18. The sentence is the library's.

    >>> reason(9, jd1=float('nan'), jd2=0.0) != reason(9)
    True
    """
    names = set(values)
    arguments: list[Any] = [number]
    call = "ct_reason"
    if len(names) == 1 and names <= set(_FLOATS):
        call = "ct_float_reason"
        arguments += values.values()
    elif names:
        fitting = [one for one, fields in _SENTENCES.items() if names == set(fields)]
        if not fitting:
            raise TypeError(f"no sentence takes {', '.join(sorted(names))}")
        call = fitting[0]
        arguments += (values[field] for field in _SENTENCES[call])
    called = function(call)
    if ctypes.c_double in called.argtypes:
        check_float_mode()
    text = ctypes.create_string_buffer(_LONGEST)
    given = [_fitting(value, kind) for value, kind in zip(arguments, called.argtypes)]
    code = called(*given, text, len(text))
    if code < 0:
        raise Refused(-code, "reason")
    return text.raw[:code].decode("ascii")


def _fitting(value: Any, kind: Any) -> int | float:
    """The value as the call's type takes it: ctypes would cut a whole number that does not fit."""
    if kind is ctypes.c_double:
        return float(value)
    number = index(value)
    if kind(number).value != number:
        raise OverflowError(f"{number} does not fit the {8 * ctypes.sizeof(kind)} bits that the sentence's call takes")
    return number
