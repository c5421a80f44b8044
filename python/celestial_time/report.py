"""One page about a line, for a browser, with nothing from outside: `python3 -m celestial_time lineup -r FILE.html`."""
from __future__ import annotations

import os
from html import escape
from typing import Iterator, Mapping

import numpy as np
from numpy.typing import NDArray

from ._version import __version__
from .blocks import write_whole
from .lineup import Recorder
from .pictures import leap_rows, svg_of, title_of
from .refusals import LEFT_OUT, reason
from .runs import Line
from .tables import Table
from .texts import utc_texts

# Sentences on one page at the most: a page of a million would not open.
MOST_SENTENCES = 1000
STYLE = """body{font-family:sans-serif;max-width:72em;margin:2em auto;padding:0 1em;color:#222}table{border-collapse:collapse;font-size:.9em}
#runs td:nth-child(2){white-space:normal;word-break:break-all}
th,td{border:1px solid #bbb;padding:.25em .7em;text-align:right;white-space:nowrap}th:first-child,td:first-child{text-align:left}svg{width:100%;height:auto}"""


def write_page(path: str | os.PathLike[str], line: Line, recorders: tuple[Recorder, ...], files: Mapping[str, str]) -> None:
    """Write the page of a line of recorders' files to a file, beside it first, so that a page that fails leaves the one that was there.

    >>> import pathlib, tempfile
    >>> gps = Recorder('gps', read_blocks(block_of([2457754.5], [0.0])), None)
    >>> with tempfile.TemporaryDirectory() as folder:
    ...     write_page(folder + '/page.html', line_up_recorders(('gps', *gps.stamps[:2])), (gps,), {})
    ...     pathlib.Path(folder, 'page.html').read_text()[:15]
    '<!DOCTYPE html>'
    """
    write_whole(path, iter([page_of(line, recorders, files).encode("utf-8", "surrogateescape")]))


def page_of(line: Line, recorders: tuple[Recorder, ...], files: Mapping[str, str]) -> str:
    """The page of a line: the runs' figures, the picture, what is refused and left out, in sentences, and the leap rows. `files` has a name to show for a
    scale.

    >>> gps = Recorder('gps', read_blocks(block_of([2457754.5, float('nan')], [0.0, 0.0])), None)
    >>> page = page_of(line_up_recorders(('gps', *gps.stamps[:2])), (gps,), {})
    >>> 'Stamp 1 of the recorder gps is refused by 9: part or sum of a date is not finite: jd1 7ff8000000000000.' in page
    True
    """
    names = tuple(recorder.scale for recorder in recorders)
    title = escape(title_of(line))
    parts = [
        f'<!DOCTYPE html>\n<html lang="en"><head><meta charset="utf-8"><title>{title}</title><style>{STYLE}</style></head><body>',
        f"<h1>{title}</h1>",
        "<h2>The runs</h2>",
        *_runs(line, recorders, files),
        "<h2>In one line by TAI</h2>",
        svg_of(line, names),
        "<p>Each recorder has its shape and its colour. Bars are stamps that are refused, crosses those that are left out,",
        "both where they stand in their run.</p>",
        "<h2>Refused and left out</h2>",
        *_sentences(line, recorders),
        "<h2>Leap seconds</h2>",
        *rows_told(line.rows),
        f"<p>Made by celestial_time {__version__}.</p></body></html>\n",
    ]
    return "\n".join(parts)


def _runs(line: Line, recorders: tuple[Recorder, ...], files: Mapping[str, str]) -> Iterator[str]:
    """A row for each recorder: how many stamps, what became of them, and the first and the last that is lined up."""
    heads = ("recorder", "file", "stamps", "lined up", "refused", "left out", "first, UTC", "last, UTC")
    yield '<table id="runs"><tr>' + "".join(f"<th>{head}</th>" for head in heads) + "</tr>"
    start = 0
    for recorder in recorders:
        numbers = line.numbers[start : start + len(recorder.stamps.jd1)]
        good = start + np.flatnonzero(numbers == 0)
        left_out = int(np.count_nonzero(numbers == LEFT_OUT))
        ends = good[[0, -1]] if len(good) else good
        texts = utc_texts("tai", line.jd1[ends], line.jd2[ends], form="expanded", table=line.rows, as_str=True).text
        counts = len(numbers), len(good), len(numbers) - len(good) - left_out, left_out
        cells = [recorder.scale, files.get(recorder.scale, ""), *counts, *(texts if len(good) else ("", ""))]
        yield "<tr>" + "".join(f"<td>{escape(str(cell))}</td>" for cell in cells) + "</tr>"
        start += len(numbers)
    yield "</table>"
    for recorder in recorders:
        if recorder.refused is not None:
            said = escape(str(recorder.refused))
            yield f'<p class="block">The run of {recorder.scale} ends before its file: {said}. Its stamps are those before this block.</p>'


def _sentences(line: Line, recorders: tuple[Recorder, ...]) -> Iterator[str]:
    """A sentence for each stamp that is refused or left out, and one for all where several that follow each other have one number."""
    said: list[str] = []
    more = start = 0
    for recorder in recorders:
        numbers = line.numbers[start : start + len(recorder.stamps.jd1)]
        held = stretches(numbers)
        room = MOST_SENTENCES - len(said)
        said += [_sentence(recorder, int(numbers[first]), first, last) for first, last in held[:room].tolist()]
        more += int((held[room:, 1] - held[room:, 0] + 1).sum())
        start += len(numbers)
    if not said:
        yield "<p>None: every stamp is lined up.</p>"
        return
    yield '<ul id="refused">'
    yield from (f"<li>{escape(one)}</li>" for one in said)
    yield "</ul>"
    if more:
        yield f'<p id="more">{more} stamps more are refused or left out, and not told here: the listing has each.</p>'


def stretches(numbers: NDArray[np.uint8]) -> NDArray[np.int64]:
    """The first and the last place of each stretch of one number other than 0, a row each.

    >>> stretches(np.array([0, 9, 9, 0, 6], 'u1'))
    array([[1, 2],
           [4, 4]])
    """
    changes = np.flatnonzero(np.diff(numbers)) + 1
    first, end = np.concatenate([[0], changes]), np.concatenate([changes, [len(numbers)]])
    told = numbers[first] != 0 if len(numbers) else np.zeros(1, bool)
    rows: NDArray[np.int64] = np.stack([first, end - 1], 1)[told].astype(np.int64)
    return rows


def _sentence(recorder: Recorder, number: int, first: int, last: int) -> str:
    what = "left out" if number == LEFT_OUT else "refused"
    if first < last:
        return f"Stamps {first} to {last} of the recorder {recorder.scale}, {last - first + 1}, are {what} by {number}: {reason(number)}."
    jd1, jd2 = float(recorder.stamps.jd1[first]), float(recorder.stamps.jd2[first])
    said = reason(number, jd1=jd1, jd2=jd2) if number in (6, 9) else reason(number)
    return f"Stamp {first} of the recorder {recorder.scale} is {what} by {number}: {said}."


def rows_told(table: Table | None) -> Iterator[str]:
    """The rows of TAI-UTC that stamps were read by, the announced ones named.

    >>> next(rows_told(None))
    '<p>TAI-UTC is 37 s from 2017-01-01 on, as far as the rows below know:'
    """
    announced = {(year, month) for year, month, _ in (table.rows if table is not None else ())}
    rows = leap_rows(table)
    year, month, seconds, _ = rows[-1]
    yield f"<p>TAI-UTC is {seconds} s from {year}-{month:02d}-01 on, as far as the rows below know:"
    yield "a leap second that was announced after them takes a row that is lent.</p>"
    yield '<table id="rows"><tr><th>from</th><th>TAI-UTC, s</th><th>row</th></tr>'
    for year, month, seconds, _ in rows:
        known = "announced" if (year, month) in announced else "of the library"
        yield f"<tr><td>{year}-{month:02d}-01</td><td>{seconds}</td><td>{known}</td></tr>"
    yield "</table>"
