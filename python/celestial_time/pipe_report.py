"""One page about readings on the pipe, for a browser, with nothing from outside: `python3 -m celestial_time place -r FILE.html`."""
from __future__ import annotations

import os
from html import escape
from typing import Iterator

import numpy as np

from ._version import __version__
from .blocks import write_whole
from .csv_files import Readings
from .pipe_pictures import drawn_column, svg_of_places, title_of_places
from .placed import Placed
from .refusals import OUTSIDE, reason
from .report import MOST_SENTENCES, STYLE, rows_told, stretches


def write_places_page(path: str | os.PathLike[str], placed: Placed, readings: list[str]) -> None:
    """Write the page to a file, beside it first, so that a page that fails leaves the one that was there.

    >>> import io, pathlib, tempfile
    >>> passes = io.StringIO('time,metres\\n2017-01-01T00:00:00Z,0\\n2017-01-01T00:00:10Z,31.5\\n')
    >>> placed = place_files({'utc': io.StringIO('time\\n2017-01-01T00:00:04\\n')}, passes)
    >>> with tempfile.TemporaryDirectory() as folder:
    ...     write_places_page(folder + '/page.html', placed, [])
    ...     pathlib.Path(folder, 'page.html').read_text()[:15]
    '<!DOCTYPE html>'
    """
    write_whole(path, iter([places_page(placed, readings).encode("utf-8", "surrogateescape")]))


def places_page(placed: Placed, readings: list[str]) -> str:
    """The page: the recorders' figures, the picture in metres, what has no place, in sentences, and the leap rows.

    >>> import io
    >>> passes = io.StringIO('time,metres\\n2017-01-01T00:00:00Z,0\\n2017-01-01T00:00:10Z,31.5\\n')
    >>> page = places_page(place_files({'utc': io.StringIO('time\\nlate\\n')}, passes), [])
    >>> 'Reading 0 of the recorder utc has no place, by 15: text is not an ISO 8601 time.' in page
    True
    """
    title = escape(title_of_places(placed))
    column = drawn_column(placed, readings)
    parts = [
        f'<!DOCTYPE html>\n<html lang="en"><head><meta charset="utf-8"><title>{title}</title><style>{STYLE}</style></head><body>',
        f"<h1>{title}</h1>",
        "<h2>The recorders</h2>",
        *_recorders(placed),
        f"<p>{len(placed.passes.mm)} marker passes, {placed.passes.mm[0] / 1000:.3f} m to {placed.passes.mm[-1] / 1000:.3f} m.</p>",
        "<h2>On the pipe</h2>",
        svg_of_places(placed, column),
        "<p>Each recorder has its colour. Bars are readings that are refused (red) or outside the passes (black), where they stand in their run.</p>",
        "<h2>Without a place</h2>",
        *_sentences(placed),
        "<h2>Leap seconds</h2>",
        *rows_told(placed.rows),
        f"<p>Made by celestial_time {__version__}.</p></body></html>\n",
    ]
    return "\n".join(parts)


def _recorders(placed: Placed) -> Iterator[str]:
    heads = ("recorder", "file", "readings", "placed", "refused", "outside the passes", "first, m", "last, m")
    yield '<table id="runs"><tr>' + "".join(f"<th>{head}</th>" for head in heads) + "</tr>"
    for recorder, places in zip(placed.recorders, placed.places):
        good, outside = places.mm[places.numbers == 0], int(np.count_nonzero(places.numbers == OUTSIDE))
        ends = (f"{good.min() / 1000:.3f}", f"{good.max() / 1000:.3f}") if len(good) else ("", "")
        cells = recorder.scale, recorder.file, len(places.numbers), len(good), len(places.numbers) - len(good) - outside, outside, *ends
        yield "<tr>" + "".join(f"<td>{escape(str(cell))}</td>" for cell in cells) + "</tr>"
    yield "</table>"


def _sentences(placed: Placed) -> Iterator[str]:
    """A sentence for each reading without a place, and one for all where several that follow each other have one number."""
    said: list[str] = []
    more = 0
    for recorder, places in zip(placed.recorders, placed.places):
        held = stretches(places.numbers)
        room = MOST_SENTENCES - len(said)
        said += [_sentence(recorder, int(places.numbers[first]), first, last) for first, last in held[:room].tolist()]
        more += int((held[room:, 1] - held[room:, 0] + 1).sum())
    if not said:
        yield "<p>None: every reading is placed.</p>"
        return
    yield '<ul id="refused">'
    yield from (f"<li>{escape(one)}</li>" for one in said)
    yield "</ul>"
    if more:
        yield f'<p id="more">{more} readings more have no place, and are not told here: the table has each.</p>'


def _sentence(recorder: Readings, number: int, first: int, last: int) -> str:
    if first < last:
        return f"Readings {first} to {last} of the recorder {recorder.scale}, {last - first + 1}, have no place, by {number}: {reason(number)}."
    jd1, jd2 = float(recorder.dates.jd1[first]), float(recorder.dates.jd2[first])
    told = reason(number, jd1=jd1, jd2=jd2) if number in (6, 9) else reason(number)
    return f"Reading {first} of the recorder {recorder.scale} has no place, by {number}: {told}."
