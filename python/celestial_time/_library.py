"""The shared library: where it is found, and the types of its calls."""
from __future__ import annotations

import ctypes
import ctypes.util
import functools
import os
import pathlib
import threading
from typing import Any, Protocol, Sequence

from ._version import __version__

NAME = "libcelestial_time_arrays.so"
TABLE_BYTES = 136

_U8, _U32, _U64 = ctypes.c_uint8, ctypes.c_uint32, ctypes.c_uint64
_I32, _I64, _F64 = ctypes.c_int32, ctypes.c_int64, ctypes.c_double
_BYTES, _LENGTH = ctypes.c_void_p, ctypes.c_size_t
_SLICE = (_BYTES, _LENGTH)

# The calls that the package makes itself, by the types of include/celestial_time.h.
_CALLS: dict[str, tuple[Any, ...]] = {
    "ct_version": (),
    "ct_check_table": _SLICE,
    "ct_convert_run": (_U32, _U32, *_SLICE * 6),
    "ct_formula_run": (_U32, _U32, *_SLICE * 6),
    "ct_texts_of_run": (_U32, *_SLICE * 6),
    "ct_dates_of_texts": _SLICE * 6,
    "ct_read_table": _SLICE * 3,
    "ct_table_fault": _SLICE,
    "ct_offsets_at_0h": _SLICE * 3,
    "ct_line_up": (*_SLICE * 3, _U64, _U64, *_SLICE * 3),
    "ct_lines_in_order": (*_SLICE * 3, _U64, _U64, *_SLICE * 3),
    "ct_run_size": _SLICE * 2,
    "ct_take_run": (_U32, *_SLICE * 5),
    "ct_line_summary": (*_SLICE * 5, _U32, *_SLICE),
    "ct_line_look": (*_SLICE * 5, _U32),
    "ct_place_ticks": _SLICE * 4,
    "ct_milliseconds_of_run": (_F64, _F64, *_SLICE * 4),
    "ct_place_readings": _SLICE * 5,
    "ct_standby_bill": (*(_I32, *(_U8,) * 5, _U32) * 2, *(_U32,) * 3, *_SLICE * 2),
    "ct_block_stamps": _SLICE,
    "ct_listing_part": (*_SLICE, _U32, *_SLICE * 2),
    "ct_reason_listing_part": (*_SLICE, _U64, _U32, *_SLICE * 2),
    "ct_reason": (_U32, *_SLICE),
    "ct_date_reason": (_U32, _I32, _I32, _I32, *_SLICE),
    "ct_time_reason": (_U32, _U8, _U8, _F64, _F64, *_SLICE),
    "ct_parts_reason": (_U32, _F64, _F64, *_SLICE),
    "ct_float_reason": (_U32, _F64, *_SLICE),
    "ct_count_reason": (_U32, _U32, *_SLICE),
    "ct_block_reason": (_U32, _U64, _U32, _U32, *_SLICE),
}
# The loops of loops.c, by how many addresses and lengths they take; a call that a loop is handed is an address too.
_LOOPS: dict[str, int] = {
    "ct_each_nan": 4,
    "ct_each_shift": 8,
    "ct_each_utc": 10,
    "ct_each_utc_shift": 11,
    "ct_each_calendar_date": 8,
    "ct_each_midnight": 7,
    "ct_each_time": 10,
    "ct_each_utc_time": 11,
    "ct_each_unix_time": 7,
    "ct_each_offset": 10,
    "ct_each_leap": 7,
    "ct_each_text": 9,
    "ct_each_laid": 5,
    "ct_each_read": 10,
    "ct_each_read_utc": 13,
    "ct_each_read_time": 12,
    "ct_each_week_date": 6,
    "ct_each_week": 6,
    "ct_each_full_week": 5,
    "ct_each_compare": 7,
    "ct_each_equal": 6,
    "ct_each_difference": 6,
    "ct_each_place": 6,
    "ct_each_sort": 5,
    "ct_each_same_stamp": 8,
    "ct_each_byte": 2,
    "ct_each_listing_part": 17,
    "ct_each_row": 7,
    "ct_each_version": 0,
    "ct_each_float_mode": 0,
    "ct_each_default_float_mode": 0,
}
_INTS = ("ct_each_version", "ct_each_float_mode", "ct_each_default_float_mode")
_loaded: ctypes.CDLL | None = None
_loading = threading.Lock()


class Call(Protocol):
    """A call of the library: a whole number for an answer or a refusal, and the types that it takes.

    >>> function('ct_block_stamps').restype is ctypes.c_int64
    True
    """

    argtypes: Sequence[Any]
    restype: Any

    def __call__(self, *arguments: Any) -> int: ...


class LibraryError(ImportError):
    """The shared library is not there, or has not the call that is asked for.

    >>> issubclass(LibraryError, ImportError)
    True
    """


class FloatModeError(RuntimeError):
    """The calling thread does not round to nearest, or takes subnormal numbers for zero: the proofs of the library say nothing then.

    A library that was linked with -ffast-math does that to the process that loads it. `default_float_mode` sets the thread's mode back.

    >>> issubclass(FloatModeError, RuntimeError)
    True
    """


def places() -> list[str]:
    """The files that are tried, in this order: the one that CELESTIAL_TIME_LIBRARY names and no other; else beside the package, in target/lib of the
    clone, and the system's.

    >>> all(place.endswith('.so') or '.so.' in place for place in places())
    True
    """
    named = os.environ.get("CELESTIAL_TIME_LIBRARY")
    if named:
        return [named]
    package = pathlib.Path(__file__).resolve().parent
    tried = [str(package / NAME), str(package.parents[1] / "target" / "lib" / NAME)]
    system = ctypes.util.find_library("celestial_time_arrays")
    return tried + [system] if system else tried


def _load() -> ctypes.CDLL:
    tried = places()
    for place in tried:
        # A system's library has a bare name, which the loader looks up.
        if os.sep not in place or os.path.exists(place):
            try:
                return _of_our_version(place, ctypes.CDLL(place))
            except OSError as error:
                raise LibraryError(f"{place} can't be loaded: {error}") from None
    raise LibraryError(f"there is no {NAME}: python/make makes it. Looked for: {', '.join(tried)}")


def _of_our_version(place: str, found: ctypes.CDLL) -> ctypes.CDLL:
    """The library, where its version is the package's. One that does not tell it lacks other calls too, which is told when one is asked for."""
    if hasattr(found, "ct_each_version"):
        held = found.ct_each_version()
        version = f"{held // 1000000}.{held // 1000 % 1000}.{held % 1000}"
        if version != __version__:
            raise LibraryError(f"{place} is of version {version}, and this package of {__version__}: python/make makes its library")
    return found


def library() -> ctypes.CDLL:
    """The shared library, loaded at the first call.

    >>> library() is library()
    True
    """
    global _loaded
    if _loaded is None:
        with _loading:
            if _loaded is None:
                _loaded = _load()
    return _loaded


@functools.lru_cache(maxsize=None)
def function(name: str) -> Call:
    """A call of the library by its name.

    >>> function('ct_block_stamps')(bytes(8), 8)
    0
    >>> function('ct_no_such_call')
    Traceback (most recent call last):
    celestial_time._library.LibraryError: the library has no ct_no_such_call: it is older than this package, or was built without its loops (python/make)
    """
    try:
        found: Call = getattr(library(), name)
    except AttributeError:
        raise LibraryError(
            f"the library has no {name}: it is older than this package, or was built without its loops (python/make)"
        ) from None
    found.restype = ctypes.c_int if name in _INTS else _I64
    if name in _CALLS:
        found.argtypes = _CALLS[name]
    elif name in _LOOPS:
        found.argtypes = (_LENGTH,) * _LOOPS[name]
    return found


@functools.lru_cache(maxsize=None)
def address(name: str) -> int:
    """Where a call begins, for a loop that is handed the call.

    >>> address('ct_gps_to_tai') > 0
    True
    """
    called: Any = function(name)
    return int(ctypes.cast(called, ctypes.c_void_p).value or 0)


def has(name: str) -> bool:
    """Whether the library has a call.

    >>> has('ct_line_up'), has('ct_no_such_call')
    (True, False)
    """
    return hasattr(library(), name)


_MODES = {1: "sums are not rounded to nearest", 2: "subnormal results are flushed to zero", 4: "subnormal operands are read as zero"}


def check_float_mode() -> None:
    """Raise FloatModeError where the calling thread's float mode is not the one that the library assumes.

    >>> check_float_mode()
    """
    mode = function("ct_each_float_mode")()
    if mode:
        said = ", ".join(words for bit, words in _MODES.items() if mode & bit)
        raise FloatModeError(f"{said}: outside the proofs; default_float_mode() sets this thread's mode back")


def default_float_mode() -> None:
    """Set the processor's default float mode for the calling thread, which the library assumes.

    >>> default_float_mode()
    """
    function("ct_each_default_float_mode")()
