"""Up to three recorders' files put into one line, and the listing of it: `python3 -m celestial_time lineup`.

The listing is that of the program line_up, byte for byte. `line_up_runs` has the library's own listing of a line, its summary, and what to look at.
"""
from __future__ import annotations

import struct
from typing import Any, Iterator, Mapping, NamedTuple

import numpy as np
from numpy.typing import NDArray

from ._arrays import FLOAT, address_of
from ._library import TABLE_BYTES, check_float_mode, function
from .blocks import BlockRefused, Source, Stamps, block_refused, bytes_of, read_blocks, run_size
from .refusals import LEFT_OUT, Refused
from .runs import Line, line_up_recorders, listed_places
from .scales import SCALES, taiutc
from .tables import Table, lent_table
from .texts import to_iso8601

RECORDERS = ("gps", "tai", "utc")
WAYS = ("--summary", "--csv", "--refused")
_PAGE = 1 << 16
# The bytes that are written at once, of a listing and of one that becomes rows; the shortest line of it, and the longest row.
_OUT, _LINES, _LINE, _ROW, _SUMMARY = 1 << 20, 1 << 17, 16, 97, 1024


class Recorder(NamedTuple):
    """A recorder's file as far as it is good: its scale, its stamps, and the block that was refused, or None.

    >>> read_recorder('gps', block_of([2451545.0], [0.0])).refused is None
    True
    """

    scale: str
    stamps: Stamps
    refused: BlockRefused | None


def read_recorder(scale: str, source: Source) -> Recorder:
    """The stamps of a recorder's file up to the first block that is refused.

    >>> read_recorder('gps', block_of([2451545.0], [0.0]) + b'half').refused.number
    14
    """
    try:
        return Recorder(scale, read_blocks(source), None)
    except BlockRefused as refused:
        return Recorder(scale, refused.before, refused)


def line_up_files(*recorders: Recorder, table: Table | None = None) -> Line:
    """The recorders in one line by their TAI.

    >>> gps = read_recorder('gps', block_of([2457754.5], [0.0]))
    >>> utc = read_recorder('utc', block_of([2457753.5, 2457754.5], [0.5, 0.5]))
    >>> line_up_files(gps, utc).run
    array([1, 0, 1], dtype=uint8)
    """
    return line_up_recorders(*((one.scale, one.stamps.jd1, one.stamps.jd2) for one in recorders), table=table)


class LinedUp(NamedTuple):
    """Recorders' runs in one line, as the library lists them: `runs` are the three records of the library, `jd1` and `jd2` the TAI of all stamps, or as
    recorded where they are refused, `numbers` their numbers, and `order` the places of the listing's lines. `refused` has the block that ended a run.

    >>> line_up_runs({'gps': block_of([2457754.5], [0.0])}).order
    array([0], dtype=uint32)
    """

    runs: bytes
    jd1: NDArray[np.float64]
    jd2: NDArray[np.float64]
    numbers: NDArray[np.uint8]
    order: NDArray[np.uint32]
    table: Table
    refused: Mapping[str, BlockRefused]

    def _lent(self) -> tuple[Any, ...]:
        return (self.runs, len(self.runs), *_slices(self.jd1, self.jd2, self.numbers))

    def summary(self) -> bytes:
        """The summary: each run's first and last stamp and the time between them, those left out, the table, and what to look at.

        >>> print(line_up_runs({'gps': block_of([2457754.5], [0.0])}).summary().decode(), end='')
        gps first 2016-12-31T23:59:43.000 last 2016-12-31T23:59:43.000 span 0.000 s
        table 42 rows last 2017-01 37 lent 0 known until 2026-06-28
        """
        out = np.empty(_SUMMARY, "u1")
        code = function("ct_line_summary")(*self._lent(), self.table.address, TABLE_BYTES, self.table.known_until, *_slices(out))
        return out[: _judged("summary", code)].tobytes()

    def look(self) -> int:
        """What to look at: 1 stamps are left out, 2 a named run has no stamp, 4 stamps lie after the day until which the table is known, 8 two runs begin and
        end apart as two scales do; or their sum.

        >>> line_up_runs({'gps': block_of([2457754.5, 2457753.5, 2457754.5], [0.0] * 3), 'tai': b''}).look()
        3
        """
        return _judged("look", function("ct_line_look")(*self._lent(), self.table.address, TABLE_BYTES, self.table.known_until))

    def listing(self, way: str = "", *, reasons: bool = False) -> Iterator[bytes]:
        """The library's listing in parts: a head, a line for each stamp, and a line that counts them. `way` is `--summary`, the summary in the place of the
        stamps' lines, `--csv`, a row for each stamp, or `--refused`, the lines of refused and left out stamps alone; with `reasons` the sentence of each refusal
        stands behind its number.

        >>> print(b''.join(line_up_runs({'utc': block_of([float('nan')], [0.0])}).listing('--refused', reasons=True)).decode(), end='')
        utc 0 refused 6: date is outside the calendar: sum 7ff8000000000000
        """
        return map(bytes, self.parts(way, reasons))

    def parts(self, way: str = "", reasons: bool = False) -> Iterator[memoryview]:
        """The listing as `listing` has it; a part is lent until the next.

        >>> len(list(line_up_runs({'utc': b''}).parts()))
        2
        """
        if way and way not in WAYS:
            raise ValueError(f"no way to list: {way!r}; the ways are {', '.join(WAYS)}")
        check_float_mode()
        order = self.order[self.numbers[self.order] != 0] if way == "--refused" else self.order
        out, cursor = np.empty(_LINES if way == "--csv" else _OUT, "u1"), np.array([way in WAYS[1:], 0], "<u8")
        runs, rows = np.frombuffer(self.runs, "u1"), np.empty(_LINES // _LINE * _ROW if way == "--csv" else 0, "u1")
        call, lent = function("ct_each_listing_part"), _slices(runs, self.jd1, self.jd2, self.numbers, order)
        at, end = int(cursor[0]), len(order) + 2 - int(cursor[0])
        if way == "--csv":
            yield memoryview(b"recorder,index,utc,number,tai1,tai2\n")
        while at < end:
            size = _judged("listing", call(reasons, *lent, self.table.address, TABLE_BYTES, *_slices(cursor, out)))
            if size == 0:
                break
            if way == "--csv":
                yield rows.data[: self._rows(out, order[at - 1 : int(cursor[0]) - 1], rows)]
            elif way != "--summary" or not 0 < at <= len(order):
                yield out.data[:size]
            if not at and way == "--summary":
                yield memoryview(self.summary())
            at = int(cursor[0])

    def _rows(self, lines: NDArray[np.uint8], places: NDArray[np.uint32], rows: NDArray[np.uint8]) -> int:
        """The rows of lines of the listing, which are those of stamps at these places; how many bytes they have."""
        return function("ct_each_row")(len(places), *map(address_of, (lines, places, self.jd1, self.jd2, self.numbers, rows)))


def _slices(*arrays: NDArray[Any]) -> list[int]:
    return [part for array in arrays for part in (address_of(array), array.nbytes)]


def _judged(name: str, code: int) -> int:
    if code < 0:
        raise Refused(-code, name)
    return code


def line_up_runs(files: Mapping[str, Source], *, table: Table | None = None) -> LinedUp:
    """Up to three recorders' files, or their bytes, by the names gps, tai and utc, in one line by their TAI.

    >>> line = line_up_runs({'utc': block_of([2457753.5], [0.5]), 'gps': block_of([2457753.5, float('nan')], [0.25, 0.0])})
    >>> print(b''.join(line.listing()).decode(), end='')
    line up 2 runs
    gps 2 not finite 1 refused 0 left out 0
    utc 1 not finite 0 refused 0 left out 0
    gps 0 2016-12-31T05:59:43.000
    gps 1 refused 9
    utc 0 2016-12-31T12:00:00.500
    lined up 2 without text 0
    """
    if not files or not set(files) <= set(RECORDERS):
        raise ValueError(f"runs are {', '.join(files)}: at least one of {', '.join(RECORDERS)} is due, and no other")
    rows = lent_table(table)
    check_float_mode()
    held = [bytes_of(files[scale]) if scale in files else None for scale in RECORDERS]
    sizes = [None if run is None else run_size(run) for run in held]
    ends = np.cumsum([0, *(0 if size is None else size.stamps for size in sizes)]).tolist()
    # By zeros, whose pages the system gives as they are written: for `empty` numpy asks for huge ones, which it may have to make room for first.
    jd1, jd2, numbers = np.zeros(ends[-1], FLOAT), np.zeros(ends[-1], FLOAT), np.zeros(ends[-1], "u1")
    refused = {}
    for k, scale in enumerate(RECORDERS):
        run, size, held[k] = held[k], sizes[k], None
        if run is None or size is None:
            continue
        own = Stamps(jd1[ends[k] : ends[k + 1]], jd2[ends[k] : ends[k + 1]], np.empty(0, int))
        lent = (*_slices(run), rows.address, TABLE_BYTES, *_slices(own.jd1, own.jd2, numbers[ends[k] : ends[k + 1]]))
        _judged("line_up_runs", function("ct_take_run")(SCALES[scale], *lent))
        if size.refused:
            refused[scale] = block_refused(run, size, own)
    run = None  # the bytes of a run are let go where its stamps are taken
    order, *work = (np.zeros(len(numbers), "<u4") for _ in range(3))
    _judged("line_up_runs", function("ct_lines_in_order")(*_slices(jd1, jd2, numbers), ends[1], ends[2] - ends[1], *_slices(order, *work)))
    runs = b"".join(bytes(32) if size is None else size.record for size in sizes)
    return LinedUp(runs, jd1, jd2, numbers, order, rows, refused)


def lined_up(line: Line, recorders: tuple[Recorder, ...], table: Table | None = None) -> LinedUp:
    """A line of recorders of the scales gps, tai and utc, each at most once, as the listing and the summary take it.

    >>> gps = read_recorder('gps', block_of([2457754.5], [0.0]))
    >>> lined_up(line_up_files(gps), (gps,)).look()
    0
    """
    scales = [recorder.scale for recorder in recorders]
    if len(set(scales)) < len(scales) or not set(scales) <= set(RECORDERS):
        raise ValueError(f"recorders are {', '.join(scales)}: those of {', '.join(RECORDERS)} are due, each at most once")
    starts = np.cumsum([0, *line.counts])
    records = [bytes(32)] * 3
    for one in recorders:
        ended = (0, 0) if one.refused is None else (one.refused.block, one.refused.number)
        records[RECORDERS.index(one.scale)] = struct.pack("<4Q", len(one.stamps.jd1), *ended, 1)
    # The places of the stamps in the order of the runs gps, tai, utc, and back.
    order = np.concatenate([np.arange(starts[k], starts[k + 1]) for _, k in sorted((RECORDERS.index(scale), k) for k, scale in enumerate(scales))])
    back = np.empty(len(order), "<u4")
    back[order] = np.arange(len(order))
    # In a line a refused stamp has no parts; here it has those that were recorded.
    kept = (line.numbers == 0) | (line.numbers == LEFT_OUT)
    jd1, jd2 = (np.where(kept, own, np.concatenate([one.stamps[k] for one in recorders]))[order] for k, own in enumerate((line.jd1, line.jd2)))
    return LinedUp(b"".join(records), jd1, jd2, line.numbers[order], back[listed_places(line)], lent_table(table), {})


def listing_of(line: Line, recorders: tuple[Recorder, ...], table: Table | None = None) -> Iterator[bytes]:
    """The listing of a line in parts: a head, a line for each stamp, and a line that counts them.

    >>> gps = read_recorder('gps', block_of([2457754.5, float('nan')], [0.0, 0.0]))
    >>> print(b''.join(listing_of(line_up_files(gps), (gps,))).decode(), end='')
    line up 1 runs
    gps 2 refused 1 left out 0
    gps 0 2016-12-31T23:59:43.000
    gps 1 refused 9
    lined up 1 without text 0
    """
    yield _head(line, recorders)
    starts = np.cumsum([0, *line.counts])
    names = [recorder.scale for recorder in recorders]
    listed = listed_places(line)
    textless = 0
    for first in range(0, len(listed), _PAGE):
        places = listed[first : first + _PAGE]
        run = np.searchsorted(starts[1:], places, side="right")
        told, without = _told(line, places, table)
        textless += without
        indices = (places - starts[run]).tolist()
        yield "".join(f"{names[r]} {i} {text}\n" for r, i, text in zip(run.tolist(), indices, told)).encode("ascii")
    yield f"lined up {len(line.places)} without text {textless}\n".encode("ascii")


def _head(line: Line, recorders: tuple[Recorder, ...]) -> bytes:
    said = [f"line up {len(recorders)} runs\n"]
    start = 0
    for recorder in recorders:
        numbers = line.numbers[start : start + len(recorder.stamps.jd1)]
        start += len(numbers)
        left_out = int(np.count_nonzero(numbers == LEFT_OUT))
        said.append(f"{recorder.scale} {len(numbers)} refused {int(np.count_nonzero(numbers)) - left_out} left out {left_out}")
        if recorder.refused is not None:
            said.append(f" block {recorder.refused.block} refused {recorder.refused.number}")
        said.append("\n")
    return "".join(said).encode("ascii")


def _told(line: Line, places: NDArray[Any], table: Table | None) -> tuple[list[str], int]:
    """What is told of each stamp, and how many ordered ones have no text."""
    utc = taiutc(line.jd1[places], line.jd2[places], table=table)
    text = to_iso8601(utc.jd1, utc.jd2, form="expanded", table=table)
    numbers = line.numbers[places]
    told = text.text.astype("U").tolist()
    for i in np.flatnonzero(numbers):
        told[i] = f"refused {numbers[i]}"
    without = np.flatnonzero((numbers == 0) & (text.numbers != 0))
    for i in without:
        told[i] = f"no text {utc.numbers[i] or text.numbers[i]}"
    return told, len(without)
