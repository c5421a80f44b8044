"""UTC texts, written as an array of byte strings or of str, and ISO 8601 texts read."""
from __future__ import annotations

import ctypes
from typing import Any, Callable, Literal, overload

import numpy as np
from numpy.typing import ArrayLike, NDArray

from ._answers import Dates, Fields, Texts, TextsByRule, UtcFields
from ._arrays import FLOAT, INT, NUMBER, Field, address_of, as_array, each, floats, is_missing
from ._library import TABLE_BYTES, address, function
from .scales import RUN_SCALES, SCALES, Out, convert
from .tables import Table, lent_table

# The forms in the order of the numbers that ct_texts_of_run has for them.
FORMS = {"iso8601": "ct_to_iso8601", "half_even": "ct_to_iso8601_half_even", "expanded": "ct_to_iso8601_expanded"}
WIDTH = 27  # TEXT_PLACE of loops.c
_PAGE = 1 << 14
_FIELDS = [*(Field(name, INT) for name in ("year", "month", "day", "hour", "minute")), Field("second", FLOAT)]
_DATED = [*_FIELDS, Field("jd1", FLOAT), Field("jd2", FLOAT), Field("numbers", NUMBER)]


@overload
def to_iso8601(
    utc1: ArrayLike, utc2: ArrayLike, *, form: str = "iso8601", table: Table | None = None, return_rule: Literal[False] = False, as_str: bool = False,
    out: Out = None,
) -> Texts: ...
@overload
def to_iso8601(
    utc1: ArrayLike, utc2: ArrayLike, *, form: str = "iso8601", table: Table | None = None, return_rule: Literal[True], as_str: bool = False, out: Out = None
) -> TextsByRule: ...


def to_iso8601(
    utc1: ArrayLike,
    utc2: ArrayLike,
    *,
    form: str = "iso8601",
    table: Table | None = None,
    return_rule: bool = False,
    as_str: bool = False,
    out: Out = None,
) -> Texts | TextsByRule:
    """UTC dates as texts to the millisecond, byte strings of numpy's type S27, with `as_str` str of type U27; with `return_rule` also the row of TAI-UTC of
    their day.

    The form is 'iso8601', 'half_even' (half milliseconds to the even one) or 'expanded' (a sign and seven digits for a year outside four).

    >>> to_iso8601(2451545.0, [0.0, 0.25, float('nan')])
    Texts(text=array([b'2000-01-01T12:00:00.000', b'2000-01-01T18:00:00.000', b''],
          dtype='|S27'), numbers=array([0, 0, 6], dtype=uint8))
    >>> to_iso8601(2451545.0, 0.0, as_str=True).text
    '2000-01-01T12:00:00.000'
    """
    if form not in FORMS:
        raise ValueError(f"no form: {form!r}; the forms are {', '.join(FORMS)}")
    if as_str and out is not None:
        raise TypeError("out: where texts are lent, their type says whether they are str; as_str is not due")
    rows = lent_table(table)
    takes = [("jd1", floats("utc1", utc1)), ("jd2", floats("utc2", utc2))]
    texts, numbers = Field("text", f"S{WIDTH}"), Field("numbers", NUMBER)
    if return_rule:
        loop, at = function("ct_each_text"), address(FORMS[form])
        gives = [texts, Field("rule", INT), Field("row", INT), numbers]
        ruled = TextsByRule(*each("to_iso8601", lambda n, *a: loop(at, rows.address, n, *a), takes, gives, [FLOAT] * 2, out))
        return ruled._replace(text=_str(ruled.text)) if as_str else ruled
    plain = Texts(*each("to_iso8601", _texts_of_run(list(FORMS).index(form), rows), takes, [texts, numbers], [FLOAT] * 2, out))
    return plain._replace(text=_str(plain.text)) if as_str else plain


def _texts_of_run(form: int, rows: Table) -> Callable[..., int]:
    """ct_texts_of_run for `each`. It leaves what lies behind a text and the places of a refused one, which are set to 0 before; a page of texts at a time, so
    that they are still near the processor when they are written."""
    call = function("ct_texts_of_run")

    def told(n: int, jd1: int, jd2: int, texts: int, numbers: int) -> int:
        lengths = np.empty(min(n, _PAGE), "u1")
        refused = 0
        for first in range(0, n, _PAGE):
            count = min(_PAGE, n - first)
            size, text = 8 * count, texts + WIDTH * first
            ctypes.memset(text, 0, WIDTH * count)
            dates = jd1 + 8 * first, size, jd2 + 8 * first, size
            code = call(form, *dates, rows.address, TABLE_BYTES, text, WIDTH * count, address_of(lengths), count, numbers + first, count)
            if code < 0:
                return code
            refused += code
        return refused

    return told


def _str(text: Any) -> NDArray[np.str_] | str:
    """ASCII as str. Byte by byte as code points: numpy's own way goes by a str for each text, in three times the time."""
    if isinstance(text, bytes):
        return text.decode("ascii")
    held = np.ascontiguousarray(text)
    return held.view("u1").reshape(*held.shape, WIDTH).astype("u4").view(f"U{WIDTH}").reshape(held.shape)


def utc_texts(
    scale: str, jd1: ArrayLike, jd2: ArrayLike, *, form: str = "iso8601", table: Table | None = None, as_str: bool = False
) -> Texts:
    """The UTC texts of dates of utc, tai, gps, tt or tcg, in one call: through the scales to UTC, and then as `to_iso8601` writes them.

    >>> utc_texts('gps', [2457754.5, float('nan')], 17.5 / 86400.0, as_str=True)
    Texts(text=array(['2016-12-31T23:59:60.500', ''], dtype='<U27'), numbers=array([0, 9], dtype=uint8))
    """
    if scale not in RUN_SCALES:
        raise ValueError(f"no UTC text of scale {scale!r}; the scales are {', '.join(RUN_SCALES)}")
    if scale == "utc":
        return to_iso8601(jd1, jd2, form=form, table=table, as_str=as_str)
    utc = convert(scale, "utc", jd1, jd2, table=table)
    told = to_iso8601(utc.jd1, utc.jd2, form=form, table=table, as_str=as_str)
    # A date that has no UTC is a NaN there, which has no text either; its number is the first.
    return told if isinstance(utc.numbers, int) else told._replace(numbers=np.where(utc.numbers, utc.numbers, told.numbers))


def parse_iso8601(texts: ArrayLike, *, out: Out = None) -> Fields:
    """The six fields of texts of any scale, YYYY-MM-DDThh:mm:ss with a fraction or none.

    >>> parse_iso8601([b'2016-12-31T23:59:60.5', b'yesterday'])
    Fields(year=array([       2016, -2147483648], dtype=int32), month=array([         12, -2147483648], dtype=int32), day=array([         31, -2147483648], dtype=int32), hour=array([         23, -2147483648], dtype=int32), minute=array([         59, -2147483648], dtype=int32), second=array([60.5,  nan]), numbers=array([ 0, 15], dtype=uint8))
    """
    given = _byte_strings(texts)
    loop, width = function("ct_each_read"), given.dtype.itemsize
    gives = [*_FIELDS, Field("numbers", NUMBER)]
    return Fields(*each("parse_iso8601", lambda n, *a: loop(width, n, *a), [("texts", given)], gives, [given.dtype.str], out))


def from_iso8601(texts: ArrayLike, *, scale: str = "utc", table: Table | None = None, out: Out = None) -> UtcFields:
    """The six fields and the date of UTC texts, which may end in a Z. Bytes of 0 at the end of a byte string are numpy's filling and not the text's.

    With another `scale`, as 'gps' or 'tai', the texts show its clock, and the dates are its: a Z and a second 60 are refused there, by 15 and 4.

    >>> from_iso8601('2016-12-31T23:59:60.5Z')
    UtcFields(year=2016, month=12, day=31, hour=23, minute=59, second=60.5, jd1=2457753.5, jd2=0.9999942130299417, numbers=0)
    >>> from_iso8601(['2017-01-01T00:00:18', '2016-12-31T23:59:60'], scale='gps').numbers
    array([0, 4], dtype=uint8)
    """
    if scale not in SCALES:
        raise ValueError(f"no scale: {scale!r}; the scales are {', '.join(SCALES)}")
    given, rows = _byte_strings(texts), lent_table(table)
    loop, width = function("ct_each_read_utc" if scale == "utc" else "ct_each_read_time"), given.dtype.itemsize
    by = (rows.address, width) if scale == "utc" else (width,)
    return UtcFields(*each("from_iso8601", lambda n, *a: loop(*by, n, *a), [("texts", given)], _DATED, [given.dtype.str], out))


def dates_of_texts(texts: ArrayLike, *, scale: str = "utc", table: Table | None = None, out: Out = None) -> Dates:
    """The dates of texts as `from_iso8601` has them, without their fields; those of UTC by one call for a run.

    >>> dates_of_texts(['2016-12-31T23:59:60.5Z', 'dead'])
    Dates(jd1=array([2457753.5,       nan]), jd2=array([0.99999421,        nan]), numbers=array([ 0, 15], dtype=uint8))
    """
    if scale not in SCALES:
        raise ValueError(f"no scale: {scale!r}; the scales are {', '.join(SCALES)}")
    given, rows = _byte_strings(texts), lent_table(table)
    loop, width = function("ct_each_read_time"), given.dtype.itemsize
    told = _dates_of_run(width, rows) if scale == "utc" else lambda n, held, *a: loop(width, n, held, *[0] * 6, *a)
    return Dates(*each("dates_of_texts", told, [("texts", given)], _DATED[6:], [given.dtype.str], out))


def _dates_of_run(width: int, rows: Table) -> Callable[..., int]:
    """ct_dates_of_texts for `each`, a page of texts at a time. It takes texts of 27 bytes at the most, in places of 27: others are laid into such. Where a page
    has a longer text, as with blanks or nine digits, all of it is read by the call for one."""
    call, laid, single, blank = map(function, ("ct_dates_of_texts", "ct_each_laid", "ct_each_read_utc", "ct_each_nan"))

    def told(n: int, texts: int, jd1: int, jd2: int, numbers: int) -> int:
        places, lengths = np.empty(WIDTH * min(n, _PAGE), "u1"), np.empty(min(n, _PAGE), "u1")
        refused = 0
        for first in range(0, n, _PAGE):
            count, text = min(_PAGE, n - first), texts + width * first
            out1, out2, into = jd1 + 8 * first, jd2 + 8 * first, numbers + first
            at = text if width == WIDTH else address_of(places)
            if laid(width, count, text, at, address_of(lengths)):
                code = single(rows.address, width, count, text, *[0] * 6, out1, out2, into)
            else:
                lent = at, WIDTH * count, address_of(lengths), count, rows.address, TABLE_BYTES
                code = call(*lent, out1, 8 * count, out2, 8 * count, into, count)
                if code > 0:
                    blank(count, into, out1, out2)
            if code < 0:
                return code
            refused += code
        return refused

    return told


def _byte_strings(texts: ArrayLike) -> NDArray[Any]:
    given = as_array("texts", texts)
    if given.dtype.kind == "O" and given.shape:
        return _of_objects(given)
    if given.dtype.kind == "U" and given.size and given.dtype.itemsize:
        # ASCII all at once, byte by code point.
        codes = np.ascontiguousarray(given, given.dtype.newbyteorder("=")).view("u4")
        if codes.max() < 128:
            return codes.astype("u1").view(f"S{given.dtype.itemsize // 4}").reshape(given.shape)
    if given.dtype.kind == "U":
        # A lone half of a pair is bytes as any other: the library refuses the text that has it, and no more. Of no texts numpy forgets the shape.
        given = np.asarray(np.char.encode(given, "utf-8", "surrogatepass")).reshape(given.shape)
    if given.dtype.kind != "S" and given.size:
        raise TypeError(f"texts is of type {given.dtype} and not of byte strings")
    return given if given.dtype.kind == "S" and given.dtype.itemsize else given.astype("S1")


def _of_objects(given: NDArray[Any]) -> NDArray[Any]:
    """An array of str or bytes objects, as pandas keeps a column of texts. One that is missing is a text of no byte, which the library refuses by 15."""
    made = [item.encode("utf-8", "surrogatepass") if type(item) is str else _bytes_of(item, place) for place, item in enumerate(given.ravel().tolist())]
    # numpy drops bytes of 0 at the end, which are the text's own here: a byte 1 is in no text either.
    made = [item[:-1] + b"\x01" if item.endswith(b"\x00") else item for item in made]
    return np.array(made, f"S{max(map(len, made), default=0) or 1}").reshape(given.shape)


def _bytes_of(item: Any, place: int) -> bytes:
    if isinstance(item, (str, bytes)):
        return item.encode("utf-8", "surrogatepass") if isinstance(item, str) else bytes(item)
    if is_missing(item):
        return b""
    raise TypeError(f"texts holds {item!r} at place {place}, which is no text")
