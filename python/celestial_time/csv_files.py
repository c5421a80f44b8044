"""Recorders' and markers' files as CSV: which columns say the time, read as dates of a scale, and the columns that are carried on."""
from __future__ import annotations

import csv
import io
import itertools
import os
import re
from typing import IO, Any, Dict, NamedTuple, Sequence, Union

import numpy as np
from numpy.typing import NDArray

from ._answers import Dates
from ._arrays import address_of
from ._library import function
from .calendars import dtf2d, from_unix
from .scales import add_seconds, convert
from .tables import Table
from .texts import dates_of_texts
from .weeks import gps_from_week

HELP = """  A recorder's file is CSV, with a head line. The columns that say the time of a reading are, in this order, the first that are there:
    week, millisecond   GPS week, counted from 1980-01-06, and millisecond of it (of gps alone)
    seconds             since the scale's epoch, 0h of 1980-01-06 (gps) or 1958-01-01 (tai), or Unix time (utc)
    time                ISO 8601 text of the scale's clock, as 2016-12-31T23:59:60.250Z
    jd1, jd2            the two parts of a Julian date
  The passes' file has them too, metres or millimetres along the pipe, and no others but scale, which says whose clock: gps, tai or utc; without it that is
  gps where week and millisecond are there, and else utc. A time that is missing or no number is refused at its place. All other columns of a recorder are
  carried on, or those alone that readings= names; a scale among them must be the recorder's own. Names are as they stand here: Time or jd 1 is an error."""
FORMS = (("week", "millisecond"), ("seconds",), ("time",), ("jd1", "jd2"))
SCALE = "scale"
TIMES = (*(name for form in FORMS for name in form), SCALE)
EPOCHS = {"gps": (1980, 1, 6), "tai": (1958, 1, 1)}
Cells = NDArray[np.bytes_]
Columns = Dict[str, Cells]
File = Union[str, "os.PathLike[str]", IO[str], IO[bytes]]
# A float of so many digits and a power of ten up to 22 are both exact, so that their quotient is the float nearest to the decimal.
_EXACT_DIGITS = 15
_LONGEST = 1 << 10
_PART = 1 << 18
_LONE_RETURN = re.compile(rb"\r(?!\n)")


class Readings(NamedTuple):
    """A recorder's file: its scale, its name, the dates of its readings in that scale, and the other columns, as they stand in the file.

    >>> import io
    >>> read_readings('gps', io.StringIO('week,millisecond,wall\\n1930,16500,8.01\\n')).columns
    {'wall': array([b'8.01'], dtype='|S4')}
    """

    scale: str
    file: str
    dates: Dates
    columns: Columns


def read_columns(source: File) -> Columns:
    """The columns of a CSV file by the names of its head line, as byte strings; a cell that a short row lacks is empty, and lines without a byte are left
    out. A row with more cells than the head is an error.

    >>> import io
    >>> read_columns(io.StringIO('week, millisecond\\n1930,16500\\n1930\\n'))
    {'week': array([b'1930', b'1930'], dtype='|S4'), 'millisecond': array([b'16500', b''], dtype='|S5')}
    >>> read_columns(io.StringIO('week,millisecond\\n1930,16,500\\n'))
    Traceback (most recent call last):
    ValueError: a file: line 2 has 3 cells, and the head line has 2
    """
    room = _read(source)
    try:
        return _columns_of(room)
    except (ValueError, csv.Error) as error:
        raise ValueError(f"{name_of(source)}: {error}") from None


def _columns_of(room: bytearray) -> Columns:
    """The columns of what was read; an error says the line alone."""
    size = len(room) - _LONGEST
    first = 3 if room.startswith(b"\xef\xbb\xbf") else 0
    end = room.find(b"\n", first, size)
    body = size if end < 0 else end + 1
    plain = not any(room.find(mark, 0, size) >= 0 for mark in (b'"', b"\0"))
    lone = _LONE_RETURN.search(room) if plain else None
    if lone:
        line = room.count(b"\n", 0, lone.start()) + 1
        raise ValueError(f"line {line} has a carriage return that no line feed follows: a line ends by a line feed, or by both")
    names = [name.strip() for name in next(csv.reader([room[first:body].decode("utf-8", "surrogateescape")]), [])]
    if not names or len(set(names)) < len(names) or "" in names:
        raise ValueError("a head line is due, of columns that have each its name")
    cells = _of_even_rows(np.frombuffer(room, "u1")[body:], len(names), b"\r" in room) if plain else None
    return dict(zip(names, _of_any_rows(room[first:size], len(names)) if cells is None else cells))


def _read(source: File) -> bytearray:
    """The bytes of a file, of which the last line has an end, and as many of 0 behind them as the longest cell may have."""
    if isinstance(source, (str, os.PathLike)):
        with open(source, "rb") as file:
            room = bytearray(os.fstat(file.fileno()).st_size)
            del room[file.readinto(room) :]
            room += file.read()  # a pipe has no size
    else:
        held = source.read()
        room = bytearray(held.encode("utf-8", "surrogateescape") if isinstance(held, str) else held)
    if room and not room.endswith(b"\n"):
        room += b"\n"
    room += bytes(_LONGEST)
    return room


def _of_even_rows(room: NDArray[np.uint8], count: int, returns: bool) -> list[Cells] | None:
    """The columns where each row has a cell for each; None where one has not. `returns`: a line may end with a carriage return too."""
    held = room[: len(room) - _LONGEST]
    ends, rows = _ends(held)
    # As many ends of lines as rows, and one in each last place: then the others are commas.
    if len(ends) != rows * count or not (held[ends[count - 1 :: count]] == ord("\n")).all():
        return None
    starts = np.empty_like(ends)
    starts[:1] = 0
    np.add(ends[:-1], 1, out=starts[1:])
    lengths = (ends - starts).reshape(-1, count)
    last = lengths[:, -1]
    if returns:
        last -= (last > 0) & (held[ends[count - 1 :: count] - 1] == ord("\r"))
    if count == 1 and not lengths.all() or int(lengths.max(initial=0)) > _LONGEST:
        return None
    return [_cells(room, starts[place::count], lengths[:, place]) for place in range(count)]


def _ends(held: NDArray[np.uint8]) -> tuple[NDArray[Any], int]:
    """Where the commas and the ends of lines are, and how many ends of lines. By parts of the bytes: what is held between stays in the processor's cache, and the
    system need not lay out new memory for it."""
    made, rows = [np.zeros(0, np.int32 if len(held) < 1 << 31 else np.int64)], 0
    for first in range(0, len(held), _PART):
        part = held[first : first + _PART]
        is_end = part == ord("\n")
        rows += int(np.count_nonzero(is_end))
        is_end |= part == ord(",")
        made.append(np.flatnonzero(is_end).astype(made[0].dtype) + made[0].dtype.type(first))
    return np.concatenate(made), rows


def _cells(room: NDArray[np.uint8], starts: NDArray[Any], lengths: NDArray[Any]) -> Cells:
    """What stands from starts on, as byte strings of one width: taken where they lie, from a view that begins at each byte, and what is behind a cell set to
    0."""
    width = max(int(lengths.max(initial=0)), 1)
    made: Cells = np.ndarray((len(room) - _LONGEST + 1,), f"S{width}", room, strides=(1,))[starts]
    shortest = int(lengths.min(initial=width))
    if shortest < width:
        made.view("u1").reshape(-1, width)[:, shortest:][np.arange(shortest, width) >= lengths[:, None]] = 0
    return made


def _of_any_rows(data: bytearray, count: int) -> list[Cells]:
    """The columns by Python's reader: of cells in quotes, and of rows that are short."""
    reader = csv.reader(io.StringIO(data.decode("utf-8", "surrogateescape"), newline="\n"))
    rows, line = [], 1
    try:
        for row in reader:
            if len(row) > count:
                raise ValueError(f"line {line} has {len(row)} cells, and the head line has {count}")
            if row:
                rows.append(row)
            line = reader.line_num + 1
    except csv.Error as error:
        raise ValueError(f"line {line}: {error}") from None
    del rows[0]
    held = list(itertools.zip_longest(*rows, fillvalue=""))
    held += [("",) * len(rows)] * (count - len(held))
    made = [[cell.replace("\0", "\x01").encode("utf-8", "surrogateescape") for cell in column] for column in held]
    return [np.array(column, f"S{max(map(len, column), default=0) or 1}") for column in made]


def read_readings(scale: str, source: File, *, table: Table | None = None) -> Readings:
    """A recorder's readings, with dates of its scale: gps, tai or utc.

    >>> import io
    >>> read_readings('utc', io.StringIO('time\\n2016-12-31T23:59:60.250Z\\nlater\\n')).dates.numbers
    array([ 0, 15], dtype=uint8)
    """
    columns = read_columns(source)
    try:
        _check_names(columns)
        _check_scale(scale, columns)
        form = form_of(scale, columns)
        dates = dates_of(scale, {name: columns.pop(name) for name in form}, table=table)
    except ValueError as error:
        raise ValueError(f"{name_of(source)}: {error}") from None
    return Readings(scale, name_of(source), dates, columns)


def _check_names(columns: Columns) -> None:
    """A name that is a time's or scale's but for its case or blanks is an error: the column would be carried on, and another be read."""
    for name in columns:
        meant = "".join(name.split()).lower()
        if meant in TIMES and name != meant:
            raise ValueError(f"a column is named {name!r}, which is {meant} but for its case or blanks: name it so, or otherwise")


def _check_scale(scale: str, columns: Columns) -> None:
    """A column that names the readings' scale must name the one that they are read by, or nothing."""
    if SCALE in columns:
        told = scales_of(columns[SCALE])
        others = np.flatnonzero((told != scale) & (told != ""))
        if len(others):
            raise ValueError(f"the file is read as {scale}, and its column {SCALE} has {str(told[others[0]])!r} for reading {others[0]}")


def scales_of(cells: Cells) -> NDArray[np.str_]:
    """The names of scales, of a column: in small letters, without blanks around them.

    >>> scales_of(np.array([b'TAI ', b'']))
    array(['tai', ''], dtype='<U4')
    """
    made: NDArray[np.str_] = np.char.lower(np.char.strip(np.char.decode(cells, "utf-8", "replace")))
    return made


def form_of(scale: str, columns: Columns) -> tuple[str, ...]:
    """The columns that say the time.

    >>> form_of('tai', {'jd1': np.array([b'']), 'jd2': np.array([b'']), 'wall': np.array([b''])})
    ('jd1', 'jd2')
    """
    for form in FORMS:
        if set(form) <= set(columns) and (scale == "gps" or form[0] != "week"):
            return form
    raise ValueError(f"no time of scale {scale}: the columns are {', '.join(columns)}, and due are {' or '.join(' and '.join(form) for form in FORMS)}")


def dates_of(scale: str, columns: Columns, *, table: Table | None = None) -> Dates:
    """The dates of a scale that columns of one form say.

    >>> dates_of('gps', {'week': np.array([b'1930', b'']), 'millisecond': np.array([b'500', b'500'])})
    Dates(jd1=array([2457754.5,       nan]), jd2=array([5.78703704e-06,            nan]), numbers=array([ 0, 18], dtype=uint8))
    """
    held = list(columns.values())
    if "week" in columns:
        return gps_from_week(numbers_of(held[0]), numbers_of(held[1]))
    if "time" in columns:
        return dates_of_texts(held[0], scale=scale, table=table)
    if "jd1" in columns:
        jd1, jd2 = map(numbers_of, held)
        own = convert("tai" if scale != "utc" else scale, "tai", jd1, jd2, table=table)
        return Dates(jd1, jd2, own.numbers)
    return _since_epoch(scale, numbers_of(held[0]), table)


def _since_epoch(scale: str, seconds: NDArray[np.float64], table: Table | None) -> Dates:
    """Seconds to the nearest nanosecond that a float of them has."""
    finite = np.abs(seconds) < 2.0**62
    whole = np.floor(np.where(finite, seconds, 0.0))
    if scale == "utc":
        nanos = np.minimum(np.rint((np.where(finite, seconds, 0.0) - whole) * 1e9), 999999999)
        dates = from_unix(whole.astype("<i8"), nanos.astype("<u4"), table=table)
        return Dates(np.where(finite, dates.jd1, np.nan), np.where(finite, dates.jd2, np.nan), np.where(finite, dates.numbers, 9).astype("u1"))
    seconds = np.where(finite, seconds, np.nan)
    days = np.floor(seconds / 86400.0)
    begun = dtf2d(scale, *EPOCHS[scale], 0, 0, 0.0)
    # Whole days are exact in the first part, and a second of the day as the calendar has it in the second.
    jd1, jd2 = begun.jd1 + days, (seconds - 86400.0 * days) / 86400.0
    return Dates(jd1, jd2, convert("tai", "tai", jd1, jd2).numbers)


def numbers_of(cells: Cells) -> NDArray[np.float64]:
    """Cells as floats; one that is empty or no number is a NaN.

    >>> numbers_of(np.array([b'1.5', b'', b'none']))
    array([1.5, nan, nan])
    """
    made = np.empty(len(cells))
    for first in range(0, len(cells), _PART >> 3):  # by parts, as _ends does
        part = slice(first, first + (_PART >> 3))
        fast = _decimals(cells[part])
        if fast is None:
            break
        made[part] = fast
    else:
        return made
    try:
        return cells.astype(float)
    except ValueError:
        return np.fromiter(map(_number, cells.tolist()), float, len(cells))


def _decimals(cells: Cells) -> NDArray[np.float64] | None:
    """Cells that are empty or digits with at most one point, all at once; None where others are there, or more digits than a float is sure to have."""
    bytes_of = np.ascontiguousarray(cells).view("u1").reshape(len(cells), cells.dtype.itemsize)
    whole, places, points = np.zeros(len(cells), np.int64), np.zeros(len(cells), np.int8), np.zeros(len(cells), np.int8)
    if bytes_of.shape[1] > _EXACT_DIGITS + 1:
        return None
    digits = np.zeros(len(cells), np.int8)
    for column in np.ascontiguousarray(bytes_of.T):
        is_digit, is_point = (column >= 48) & (column <= 57), column == ord(".")
        if not (is_digit | is_point | (column == 0)).all():
            return None
        whole = np.where(is_digit, 10 * whole + column - 48, whole)
        points += is_point
        digits += is_digit
        places += is_digit & (points > 0)
    if (points > 1).any() or ((points > 0) & (digits == 0)).any() or (digits > _EXACT_DIGITS).any():
        return None
    return np.where(digits > 0, whole / 10.0**places, np.nan)


def _number(cell: bytes) -> float:
    try:
        return float(cell)
    except ValueError:
        return np.nan


def values_of(cells: Cells) -> NDArray[Any]:
    """A column as an analyst has it: floats where each cell is a number or empty, and else str.

    >>> values_of(np.array([b'8.2', b''])), values_of(np.array([b'a', b'']))
    (array([8.2, nan]), array(['a', ''], dtype='<U1'))
    """
    numbers = numbers_of(cells)
    return numbers if ((cells == b"") == np.isnan(numbers)).all() else np.char.decode(cells, "utf-8", "replace")


def name_of(source: File) -> str:
    """What a file is called in messages.

    >>> name_of('gps.csv')
    'gps.csv'
    """
    return os.fspath(source) if isinstance(source, (str, os.PathLike)) else str(getattr(source, "name", "a file"))


def csv_of(columns: Sequence[NDArray[Any]]) -> bytes:
    """Rows of CSV: of columns of whole numbers from 0 on, and of byte strings that are `quoted` where they need it. They are put side by side in rows of one
    width, of which the bytes of 0 that fill the cells up are left out.

    >>> csv_of([np.array([b'gps', b'tai']), np.array([7, 12]), quoted(np.array([b'one, two', b'']))])
    b'gps,7,"one, two"\\ntai,12,\\n'
    """
    cells = [digits_of(column) if column.dtype.kind != "S" else column for column in columns]
    ends = np.cumsum([column.dtype.itemsize + 1 for column in cells])
    rows = np.empty((len(cells[0]), int(ends[-1])), "u1")
    for column, end in zip(cells, ends):
        width = column.dtype.itemsize
        rows[:, end - width - 1 : end - 1] = np.ascontiguousarray(column).view("u1").reshape(len(column), width)
        rows[:, end - 1] = ord(",")
    rows[:, -1] = ord("\n")
    kept: bytes = rows.ravel()[: function("ct_each_byte")(rows.size, address_of(rows))].tobytes()
    return kept


def csv_head(names: Sequence[str]) -> bytes:
    """The head line of columns.

    >>> csv_head(['recorder', 'wall, mm'])
    b'recorder,"wall, mm"\\n'
    """
    head = io.StringIO()
    csv.writer(head, lineterminator="\n").writerow(names)
    return head.getvalue().encode("utf-8", "surrogateescape")


def digits_of(numbers: NDArray[Any], decimals: int = 0) -> Cells:
    """Whole numbers from 0 on as byte strings, with a point before the last decimals; shorter ones are filled up with bytes of 0 before them.

    >>> digits_of(np.array([0, 12600]), 3)
    array([b'\\x000.000', b'12.600'], dtype='|S6')
    """
    most = int(numbers.max(initial=0))
    width = max(len(str(most)), decimals + 1)
    made = np.zeros((width + (decimals > 0), len(numbers)), "u1")
    left = numbers.astype(np.uint32 if most < 1 << 32 else np.uint64)  # dividing narrower numbers takes half the time
    for place in range(width):
        rest = left // 10
        row = made[len(made) - 1 - place - (decimals > 0 and place >= decimals)]
        row[...] = left - 10 * rest + 48
        if place > decimals:
            row[left == 0] = 0
        left = rest
    if decimals:
        made[-1 - decimals] = ord(".")
    return np.ascontiguousarray(made.T).view(f"S{len(made)}").ravel()


def quoted(column: Cells) -> Cells:
    """Cells with a comma, a quote or the end of a line in them, in quotes.

    >>> quoted(np.array([b'one, two', b'three']))
    array([b'"one, two"', b'three'], dtype='|S10')
    """
    held = np.ascontiguousarray(column).view("u1")
    if not any((held == ord(mark)).any() for mark in ',"\n\r'):
        return column
    made = [b'"' + cell.replace(b'"', b'""') + b'"' if any(mark in cell for mark in (b",", b'"', b"\n", b"\r")) else cell for cell in column.tolist()]
    return np.array(made, f"S{max(map(len, made), default=0) or 1}")
