"""Recorders' CSV files placed between marker passes, and the table of it: `python3 -m celestial_time place`."""
from __future__ import annotations

from typing import Any, Iterator, Mapping, NamedTuple, Sequence

import numpy as np
from numpy.typing import NDArray

from ._answers import Dates, Places
from ._arrays import counts
from .calendars import cal2jd, jd2cal
from .csv_files import (
    FORMS, SCALE, TIMES, Cells, Columns, File, Readings, csv_head, csv_of, dates_of, digits_of, form_of, name_of, numbers_of, quoted, read_columns,
    read_readings, scales_of, values_of,
)
from .known import is_after_known, known_until
from .placing import millimetres_of, milliseconds, place
from .refusals import OUTSIDE, Refused, reason
from .scales import convert, taiutc
from .tables import Table
from .texts import utc_texts

SCALES = ("gps", "tai", "utc")
UNITS = {"metres": "m", "millimetres": "mm"}
_PAGE = 1 << 15
_MJD = 2400000.5


class Passes(NamedTuple):
    """Marker passes: a TAI midnight a day or more before the first, the milliseconds since then, and the places in millimetres.

    >>> import io
    >>> read_passes(io.StringIO('time,metres\\n2017-01-01T00:00:00,0\\n2017-01-01T00:00:10,31.5\\n')).mm
    array([    0, 31500])
    """

    launch: Dates
    millis: NDArray[np.int64]
    mm: NDArray[np.int64]


class Placed(NamedTuple):
    """Recorders with the TAI and the place of each of their readings, the passes between which they lie, and the announced leap rows.

    >>> import io
    >>> passes = io.StringIO('time,metres\\n2017-01-01T00:00:00Z,0\\n2017-01-01T00:00:10Z,31.5\\n')
    >>> placed = place_files({'utc': io.StringIO('time,wall\\n2017-01-01T00:00:04,8.2\\nlate,8.1\\n')}, passes)
    >>> placed.places[0].metres
    array([12.6,  nan])
    """

    recorders: tuple[Readings, ...]
    tai: tuple[Dates, ...]
    places: tuple[Places, ...]
    passes: Passes
    rows: Table | None

    def names(self, readings: Sequence[str] | None = None) -> list[str]:
        """The columns that are carried on: those of all recorders, or of them those that are named.

        >>> import io
        >>> passes = io.StringIO('time,metres\\n2017-01-01T00:00:00Z,0\\n2017-01-01T00:00:10Z,31.5\\n')
        >>> place_files({'utc': io.StringIO('time,wall\\n')}, passes).names()
        ['wall']
        """
        there = list(dict.fromkeys(name for recorder in self.recorders for name in recorder.columns))
        for name in readings or ():
            if name not in there:
                raise ValueError(f"no recorder has a column {name}: there are {', '.join(there) or 'none beside the time'}")
        return there if readings is None else list(readings)

    def table(self, readings: Sequence[str] | None = None) -> dict[str, Any]:
        """A row for each reading, by recorders as their files have them, which pandas.DataFrame takes as it is: `recorder`, `index` in its file, `utc`,
        `metres`, `number` and `reason`, by which it has no place, and the columns that are carried on, of floats where they hold nothing else.

        >>> import io
        >>> passes = io.StringIO('time,metres\\n2017-01-01T00:00:00Z,0\\n2017-01-01T00:00:10Z,31.5\\n')
        >>> files = {'utc': io.StringIO('time,wall\\n2017-01-01T00:00:04,8.2\\n2017-01-01T00:00:11,8.1\\n')}
        >>> for name, column in place_files(files, passes).table().items():
        ...     print(name, list(column))
        recorder ['utc', 'utc']
        index [0, 1]
        utc ['2017-01-01T00:00:04.000', '2017-01-01T00:00:11.000']
        metres [12.6, nan]
        number [0, 25]
        reason ['', 'tick or reading is outside the passes']
        wall [8.2, 8.1]
        """
        sizes = [len(tai.numbers) for tai in self.tai]
        numbers = np.concatenate([one.numbers for one in self.places])
        held = {
            "recorder": np.repeat([recorder.scale for recorder in self.recorders], sizes),
            "index": np.concatenate([np.arange(size) for size in sizes]),
            "utc": np.concatenate([utc_texts("tai", *tai[:2], form="expanded", table=self.rows, as_str=True).text for tai in self.tai]),
            "metres": np.concatenate([one.metres for one in self.places]),
            "number": numbers,
            "reason": _sentences().astype("U")[numbers],
        }
        for name in self.names(readings):
            held[name] = values_of(np.concatenate([_carried(one, name) for one in self.recorders]))
        return held

    def csv(self, readings: Sequence[str] | None = None) -> Iterator[bytes]:
        """The table as CSV, in parts: metres to the millimetre, and nothing where there are none; the columns that are carried on as the files have them.

        >>> import io
        >>> passes = io.StringIO('time,metres\\n2017-01-01T00:00:00Z,0\\n2017-01-01T00:00:10Z,31.5\\n')
        >>> files = {'utc': io.StringIO('time,wall\\n2017-01-01T00:00:04,8.20\\n2017-01-01T00:00:11,8.10\\n')}
        >>> print(b''.join(place_files(files, passes).csv()).decode(), end='')
        recorder,index,utc,metres,number,reason,wall
        utc,0,2017-01-01T00:00:04.000,12.600,0,,8.20
        utc,1,2017-01-01T00:00:11.000,,25,tick or reading is outside the passes,8.10
        """
        carried = self.names(readings)
        yield csv_head(["recorder", "index", "utc", "metres", "number", "reason", *carried])
        sentences = quoted(_sentences())
        for recorder, tai, places in zip(self.recorders, self.tai, self.places):
            others = [quoted(_carried(recorder, name)) for name in carried]
            for first in range(0, len(tai.numbers), _PAGE):
                page = slice(first, first + _PAGE)
                numbers, mm = places.numbers[page], places.mm[page]
                refused = bool(numbers.any())
                metres = digits_of(np.where(numbers == 0, mm, 0) if refused else mm, 3)
                columns = [
                    np.full(len(numbers), recorder.scale, "S3"),
                    np.arange(first, first + len(numbers)),
                    utc_texts("tai", tai.jd1[page], tai.jd2[page], form="expanded", table=self.rows).text,
                    np.where(numbers == 0, metres, b"") if refused else metres,
                    numbers,
                    sentences[numbers] if refused else np.zeros(len(numbers), "S1"),
                ]
                yield csv_of([*columns, *(column[page] for column in others)])

    def notes(self) -> list[str]:
        """What a reader of the table should know before: of each file how many readings have no place, where there are any, and that the announced leap rows
        are known until a day before the last reading.

        >>> import io
        >>> passes = io.StringIO('time,metres\\n2017-01-01T00:00:00Z,0\\n2017-01-01T00:00:10Z,31.5\\n')
        >>> place_files({'utc': io.StringIO('time\\nlate\\n2017-01-01T00:00:11\\n2017-01-01T00:00:04\\n')}, passes).notes()
        ['a file: 2 of 3 readings have no place: 1 refused, 1 outside the passes']
        """
        return [*self.without_place(), *self._expired()]

    def without_place(self) -> list[str]:
        """Of each file how many readings have no place, where there are any.

        >>> import io
        >>> passes = io.StringIO('time,metres\\n2017-01-01T00:00:00Z,0\\n2017-01-01T00:00:10Z,31.5\\n')
        >>> place_files({'utc': io.StringIO('time\\nlate\\n2017-01-01T00:00:11\\n2017-01-01T00:00:04\\n')}, passes).without_place()
        ['a file: 2 of 3 readings have no place: 1 refused, 1 outside the passes']
        """
        said = []
        for recorder, places in zip(self.recorders, self.places):
            every, without = len(places.numbers), int(np.count_nonzero(places.numbers))
            outside = int(np.count_nonzero(places.numbers == OUTSIDE))
            kinds = [f"{count} {kind}" for count, kind in ((without - outside, "refused"), (outside, "outside the passes")) if count]
            if without:
                said.append(f"{recorder.file}: {without} of {every} readings have no place: {', '.join(kinds)}")
        return said

    def _expired(self) -> Iterator[str]:
        """A sentence where the leap rows were lent with an expiry, and a reading is later."""
        known = self.rows.known_until if self.rows is not None else 0
        if not known:
            return
        jd1, jd2 = (np.concatenate([tai[part][tai.numbers == 0] for tai in self.tai]) for part in (0, 1))
        if not len(jd1):
            return
        last = [int(np.argmax((jd1 - _MJD) + jd2))]
        utc = taiutc(jd1[last], jd2[last], table=self.rows)
        if not utc.numbers[0] and (utc.jd1[0] - _MJD) + utc.jd2[0] > known:
            day, text = jd2cal(_MJD, float(known)), utc_texts("utc", utc.jd1, utc.jd2, form="expanded", table=self.rows, as_str=True).text[0]
            until = f"{day.year:04d}-{day.month:02d}-{day.day:02d}"
            yield f"the table is known until {until}, and the last reading is of {text}: a leap second between is not known"

    def looks(self) -> list[str]:
        """What to look at: that the last reading, or the last pass, lies after the day until which the leap rows are known, where it does.

        >>> import io
        >>> passes = io.StringIO('time,metres\\n2126-07-01T00:00:00Z,0\\n2126-07-01T00:00:10Z,31.5\\n')
        >>> place_files({'utc': io.StringIO('time\\n2126-07-01T00:00:04\\n')}, passes).looks()
        ['the table is known until 2026-06-28, and the last pass is of 2126-07-01T00:00:10.000: a leap second between is not known']
        """
        what, jd1, jd2 = self._last()
        if not is_after_known(jd1, jd2, self.rows):
            return []
        text = utc_texts("tai", [jd1], [jd2], form="expanded", table=self.rows, as_str=True).text[0]
        return [f"the table is known until {known_until(self.rows)}, and the last {what} is of {text}: a leap second between is not known"]

    def _last(self) -> tuple[str, float, float]:
        """The last of the readings that are placed or outside the passes, or the last pass: which, and its TAI."""
        launch, millis = self.passes.launch, self.passes.millis
        dates = [("pass", float(launch.jd1), float(launch.jd2) + int(millis[-1]) / 86400000.0)]
        for tai, places in zip(self.tai, self.places):
            dated = (places.numbers == 0) | (places.numbers == OUTSIDE)
            if dated.any():
                at = int(np.argmax(np.where(dated, (tai.jd1 - _MJD) + tai.jd2, -np.inf)))
                dates.append(("reading", float(tai.jd1[at]), float(tai.jd2[at])))
        return max(dates, key=lambda one: ((one[1] - _MJD) + one[2], one[0]))


def _sentences() -> Cells:
    """The sentence of each number, of 0 none."""
    return np.array([b"", *(reason(number).encode("ascii") for number in range(1, 29))])


def _carried(recorder: Readings, name: str) -> Cells:
    """A column of a recorder, of empty cells where it has none of this name."""
    return recorder.columns.get(name, np.zeros(len(recorder.dates.numbers), "S1"))


def read_passes(source: File, *, table: Table | None = None) -> Passes:
    """The passes of a CSV file. A time that is refused refuses the whole.

    >>> import io
    >>> read_passes(io.StringIO('week,millisecond,scale,millimetres\\n1930,0,gps,0\\n1930,500,gps,7\\n')).millis - 86400000
    array([19000, 19500])
    """
    columns = read_columns(source)
    unit = "metres" if "metres" in columns else "millimetres"
    try:
        _check_columns(columns)
        tai = _pass_dates(columns, table)
    except ValueError as error:
        raise ValueError(f"{name_of(source)}: {error}") from None
    if tai.numbers.any():
        at = int(np.flatnonzero(tai.numbers)[0])
        raise Refused(int(tai.numbers[at]), f"{name_of(source)}: pass {at}")
    mm, broken = millimetres_of(numbers_of(columns[unit]), UNITS[unit])
    if broken.any():
        at = int(broken.argmax())
        raise ValueError(f"{name_of(source)}: {unit} of pass {at}, {columns[unit][at].decode('utf-8', 'replace')!r}, is no whole number of millimetres")
    if not len(mm):
        raise Refused(23, f"{name_of(source)}")
    # Counted from before the earliest, which need not be the first: whether they rise is for the library to say.
    earliest = int(np.argmin((tai.jd1 - _MJD) + tai.jd2))
    day = jd2cal(float(tai.jd1[earliest]), float(tai.jd2[earliest]))
    midnight = cal2jd(day.year, day.month, day.day)
    launch = Dates(midnight.jd1, midnight.jd2 - 1.0, midnight.numbers)
    return Passes(launch, milliseconds(launch, tai, scale="tai").millis, counts("places", mm))


def _check_columns(columns: Columns) -> None:
    """Places are due, and what else is there must be known: nothing of a pass is carried on, and a scale by another name would be passed over."""
    if not set(UNITS) & set(columns):
        raise ValueError(f"no column metres or millimetres: the columns are {', '.join(columns)}")
    known = *TIMES, *UNITS
    others = [repr(name) for name in columns if name not in known]
    if others:
        raise ValueError(f"not known of passes: {', '.join(others)}; the columns may be {', '.join(known)}")


def _pass_dates(columns: Columns, table: Table | None) -> Dates:
    """The TAI of the passes, each by the clock that its row names."""
    count = len(next(iter(columns.values())))
    made = Dates(np.full(count, np.nan), np.full(count, np.nan), np.zeros(count, "u1"))
    if not count:
        return made
    scales = scales_of(columns.get(SCALE, np.full(count, "gps" if set(FORMS[0]) <= set(columns) else "utc", "S3")))
    for scale in np.unique(scales).tolist():
        at = np.flatnonzero(scales == scale)
        if scale not in SCALES:
            raise ValueError(f"no scale: {scale!r} of pass {at[0]}; the scales are {', '.join(SCALES)}")
        own = dates_of(scale, {name: columns[name][at] for name in form_of(scale, columns)}, table=table)
        for part, whole in zip(to_tai(scale, own, table), made):
            whole[at] = part
    return made


def to_tai(scale: str, dates: Dates, table: Table | None = None) -> Dates:
    """The TAI of dates; a stamp that is refused already keeps its number.

    >>> to_tai('gps', gps_from_week([2048, 5], [0, 10**9])).numbers
    array([ 0, 18], dtype=uint8)
    """
    tai = convert(scale, "tai", dates.jd1, dates.jd2, table=table)
    return tai._replace(numbers=np.where(dates.numbers, dates.numbers, tai.numbers).astype("u1"))


def place_files(files: Mapping[str, File], passes: File, *, table: Table | None = None) -> Placed:
    """The readings of recorders' files, named by their scales gps, tai and utc, on the pipe.

    >>> import io
    >>> passes = io.StringIO('time,metres\\n2017-01-01T00:00:00Z,0\\n2017-01-01T00:00:10Z,31.5\\n')
    >>> gps = io.StringIO('week,millisecond\\n1930,18000\\n1930,19000\\n')
    >>> place_files({'gps': gps}, passes).places[0].metres
    array([0.  , 3.15])
    """
    for scale in files:
        if scale not in SCALES:
            raise ValueError(f"no scale: {scale!r}; the scales are {', '.join(SCALES)}")
    markers = read_passes(passes, table=table)
    recorders = tuple(read_readings(scale, files[scale], table=table) for scale in SCALES if scale in files)
    tai = tuple(to_tai(recorder.scale, recorder.dates, table) for recorder in recorders)
    lists = markers.millis, markers.mm
    places = tuple(place(milliseconds(markers.launch, one, scale="tai"), lists, unit="mm") for one in tai)
    return Placed(recorders, tai, places, markers, table)
