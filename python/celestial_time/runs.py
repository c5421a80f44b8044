"""Runs of stamps put into one line: whole recorders, by their exact TAI."""
from __future__ import annotations

from operator import index
from typing import Any, NamedTuple, Sequence

import numpy as np
from numpy.typing import ArrayLike, NDArray

from ._arrays import FLOAT, address_of, in_one_piece, judged, one_dimension
from ._library import check_float_mode, function
from .refusals import Refused
from .scales import convert
from .tables import Table, lent_table
from .texts import utc_texts


class Run(NamedTuple):
    """What a recorder wrote: the name of its scale, and the two parts of its stamps.

    >>> Run('gps', [2457754.5], [0.0]).scale
    'gps'
    """

    scale: str
    jd1: Any
    jd2: Any


class Line(NamedTuple):
    """Runs in one line.

    `places` are the ordered stamps' places in the runs taken one after the other, `run` and `stamp` the same as the run and the place in it; `jd1` and `jd2`
    the TAI of all stamps, and `numbers` their numbers, both in the order of the runs. `counts` are the lengths of the runs. `scales` are those of the
    recorders, none of a line of TAI stamps, and `rows` the announced leap rows that the recorders' UTC was read by.

    >>> line_up([2451545.0, 2451544.0], [0.0, 0.5], (1,)).places
    array([1, 0], dtype=uint32)
    """

    places: NDArray[np.uint32]
    run: NDArray[np.uint8]
    stamp: NDArray[np.uint32]
    jd1: NDArray[np.float64]
    jd2: NDArray[np.float64]
    numbers: NDArray[np.uint8]
    counts: tuple[int, ...]
    scales: tuple[str, ...] = ()
    rows: Table | None = None

    def names(self) -> tuple[str, ...]:
        """The recorders' names: their scales, with the place among the runs where two have one scale; of a line of TAI stamps the places alone.

        >>> line_up_recorders(('tai', [], []), ('tai', [], []), ('gps', [], [])).names()
        ('tai 0', 'tai 1', 'gps 2')
        """
        if len(set(self.scales)) < len(self.scales):
            return tuple(f"{scale} {run}" for run, scale in enumerate(self.scales))
        return self.scales or tuple(str(run) for run in range(len(self.counts)))

    def table(self, names: Sequence[str] | None = None) -> dict[str, NDArray[Any]]:
        """A row for each stamp, as `listed_places` has them, by columns, which pandas.DataFrame takes as they are: `recorder`, by `names` or those of the
        line; `index` in its run; `tai1` and `tai2`, its TAI; `utc`, its UTC text, as a str; and `number`, by which it is refused. A stamp that is not
        ordered has NaN for its TAI and no text; an ordered one that has no UTC has no text.

        >>> line = line_up_recorders(('gps', [2457754.5], [0.0]), ('utc', [2457753.5, float('nan')], [0.5, 0.0]))
        >>> for name, column in line.table().items():
        ...     print(name, column.tolist())
        recorder ['utc', 'utc', 'gps']
        index [0, 1, 0]
        tai1 [2457753.5, nan, 2457754.5]
        tai2 [0.5004224537037036, nan, 0.0002199074074074074]
        utc ['2016-12-31T12:00:00.500', '', '2016-12-31T23:59:43.000']
        number [0, 6, 0]
        """
        named = self.names() if names is None else tuple(map(str, names))
        due = len(self.scales) or len(self.counts)
        if len(named) != due or len(set(named)) < due:
            raise ValueError(f"names are {named}: one for each of the {due} runs is due, and no two alike")
        places = listed_places(self)
        run = np.searchsorted(np.cumsum(self.counts), places, side="right")
        number = self.numbers[places]
        tai1, tai2 = (np.where(number == 0, part[places], np.nan) for part in (self.jd1, self.jd2))
        text = utc_texts("tai", tai1, tai2, form="expanded", table=self.rows, as_str=True).text
        index = places - np.cumsum([0, *self.counts])[run]
        return {"recorder": np.array(named)[run], "index": index, "tai1": tai1, "tai2": tai2, "utc": text, "number": number}


def line_up(jd1: ArrayLike, jd2: ArrayLike, counts: Sequence[int] = (), *, numbers: ArrayLike | None = None, table: Table | None = None) -> Line:
    """The order of up to three runs of TAI stamps that stand one after the other: counts[0] of the first, counts[1] of the second, then what is left;
    a third count is that of what is left, as an answer's `counts` have it.

    A stamp whose number is not 0 stays refused. One that has no place in the order gets 9. Of the others of a run the most that rise are ordered, and the rest
    are left out, with 17; of two that contradict each other alone the later place is ordered. The answer's `numbers` are a copy; the lent ones
    stay. Ties go by run. An array in one piece is not copied. The order needs no leap rows; `table` has those by which the UTC of the line's table is read.

    >>> line = line_up([2451545.0, 2451546.0, 2451545.0], [0.0, 0.0, 0.5], (2,))
    >>> line.places, line.run, line.numbers
    (array([0, 2, 1], dtype=uint32), array([0, 1, 0], dtype=uint8), array([0, 0, 0], dtype=uint8))
    """
    first, second = (in_one_piece(name, value) for name, value in (("jd1", jd1), ("jd2", jd2)))
    lengths = [index(count) for count in counts]
    if len(lengths) == 3 and sum(lengths) == len(first):
        lengths.pop()
    if len(lengths) > 2 or any(not 0 <= count < 2**63 for count in lengths):
        raise ValueError(f"counts are {counts}: those of the first and of the second run are due, and a third only where the three are all {len(first)} stamps")
    told = np.zeros(len(first), "u1") if numbers is None else judged("numbers", numbers)
    rows = None if table is None else lent_table(table)
    return _ordered("line_up", first, second, told, lengths)._replace(rows=rows)


def line_up_recorders(
    *runs: Run | tuple[str, ArrayLike, ArrayLike], table: Table | None = None, numbers: Sequence[ArrayLike | None] | None = None
) -> Line:
    """Up to three recorders, each with its own scale, put into one line by their TAI. A stamp that has no TAI keeps the number that it is refused by.
    `numbers` has for each run None or the numbers that its stamps have already: one that is not 0 stays.

    >>> line = line_up_recorders(('gps', [2457754.5], [0.0]), ('utc', [2457753.5, float('nan')], [0.5, 0.0]))
    >>> line.run, line.stamp, line.numbers
    (array([1, 0], dtype=uint8), array([0, 0], dtype=uint32), array([0, 0, 6], dtype=uint8))
    >>> gps = gps_from_week([2048, 2048], [0, 10**9])
    >>> line_up_recorders(('gps', gps.jd1, gps.jd2), numbers=[gps.numbers]).numbers
    array([ 0, 18], dtype=uint8)
    """
    if not 1 <= len(runs) <= 3:
        raise ValueError(f"{len(runs)} runs: one to three are due")
    given = [Run(scale, one_dimension("jd1", jd1), one_dimension("jd2", jd2)) for scale, jd1, jd2 in runs]
    for run in given:
        if len(run.jd1) != len(run.jd2):
            raise ValueError(f"{run.scale}: {len(run.jd1)} first parts and {len(run.jd2)} second parts")
    counts = [len(run.jd1) for run in given]
    held = _held_numbers(numbers, counts)
    ends = np.cumsum([0, *counts])
    jd1, jd2, told = np.empty(ends[-1], FLOAT), np.empty(ends[-1], FLOAT), np.empty(ends[-1], "u1")
    for run, before, start, end in zip(given, held, ends, ends[1:]):
        convert(run.scale, "tai", run.jd1, run.jd2, table=table, out=(jd1[start:end], jd2[start:end], told[start:end]))
        if before is not None:
            np.copyto(told[start:end], before, where=before != 0)
    line = _ordered("line_up_recorders", jd1, jd2, told, counts[:2] if len(counts) > 2 else counts[:-1])
    return line._replace(scales=tuple(run.scale for run in given), rows=None if table is None else lent_table(table))


def _held_numbers(numbers: Any, counts: Sequence[int]) -> list[NDArray[np.uint8] | None]:
    """The numbers that the stamps of each run have already."""
    if numbers is None:
        return [None] * len(counts)
    if not isinstance(numbers, (list, tuple)) or len(numbers) != len(counts):
        raise TypeError(f"numbers: a list is due, with an array or None for each of the {len(counts)} runs")
    held = [None if one is None else judged("numbers", one) for one in numbers]
    for run, (one, count) in enumerate(zip(held, counts)):
        if one is not None and len(one) != count:
            raise ValueError(f"numbers: run {run} has {count} stamps and {len(one)} numbers")
    return held


def listed_places(line: Line) -> NDArray[np.int64]:
    """The places of all stamps as they are listed: the ordered ones as they rise, and each that is not ordered behind the last ordered one before it in its
    own run, or before all where there is none.

    >>> listed_places(line_up([2451545.0, float('nan'), 2451546.0, 2451545.0], [0.0, 0.0, 0.0, 0.5], (3,)))
    array([0, 1, 3, 2])
    """
    check_float_mode()
    jd1, jd2, numbers = np.ascontiguousarray(line.jd1, FLOAT), np.ascontiguousarray(line.jd2, FLOAT), np.array(line.numbers, "u1")
    order, *work = (np.empty(len(numbers), "<u4") for _ in range(3))
    code = function("ct_lines_in_order")(*_slices(jd1, jd2, numbers), *[*line.counts, 0, 0][:2], *_slices(order, *work))
    if code < 0:
        raise Refused(-code, "listed_places")
    return order.astype(np.int64)


def _slices(*arrays: NDArray[Any]) -> list[int]:
    return [part for array in arrays for part in (address_of(array), array.nbytes)]


def _ordered(name: str, jd1: NDArray[Any], jd2: NDArray[Any], numbers: NDArray[Any], counts: Sequence[int]) -> Line:
    check_float_mode()
    places, *work = (np.empty(len(numbers), "<u4") for _ in range(3))
    lengths = [*counts, *[len(numbers) - sum(counts), 0][: 2 - len(counts)]]
    code = function("ct_line_up")(*_slices(jd1, jd2, numbers), *lengths, *_slices(places, *work))
    if code < 0:
        raise Refused(-code, name)
    places = places[:code]
    run, stamp = np.empty(code, "u1"), np.empty(code, "<u4")
    function("ct_each_place")(lengths[0], sum(lengths), code, *map(address_of, (places, run, stamp)))
    return Line(places, run, stamp, jd1, jd2, numbers, (*lengths, len(numbers) - sum(lengths)))
