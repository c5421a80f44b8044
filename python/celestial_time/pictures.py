"""A picture of a line of recorders, as SVG, made of nothing but the line: what is ordered over TAI, and what is refused or left out where it stands in its
run."""
from __future__ import annotations

from html import escape
from typing import Iterator, NamedTuple

import numpy as np
from numpy.typing import NDArray

from .calendars import dtf2d
from .offsets import dat
from .order import difference
from .refusals import LEFT_OUT
from .runs import Line
from .scales import add_seconds, taiutc, utctai
from .tables import Table, lent_table
from .texts import to_iso8601, utc_texts

COLOURS = ("#1b6ca8", "#c9730c", "#3a7d44")
REFUSED_COLOUR, LEFT_OUT_COLOUR, LEAP_COLOUR = "#b3001b", "#222222", "#f4d35e"
# A shape for each recorder, as the path of one mark around (0, 0).
SHAPES = ("m-2 0a2 2 0 1 0 4 0a2 2 0 1 0-4 0z", "m-2-2h4v4h-4z", "m-2.6 2h5.2l-2.6-4.6z")
_STEPS = [part * 10.0**power for power in (-3, -2, -1) for part in (1, 2, 5)]
_STEPS += [1, 2, 5, 10, 20, 30, 60, 120, 300, 600, 900, 1800, 3600, 7200, 10800, 21600, 43200]
_STEPS += [86400.0 * part * 10**power for power in range(10) for part in (1, 2, 5)]
_LEFT, _WIDTH, _LANE = 110, 860, 54
_MOST_SECONDS = 1e14  # three million years, past the calendar's last day


class Span(NamedTuple):
    """The TAI that an axis counts seconds from, that of the first ordered stamp; its two ends in seconds; and the leap rows of the line.

    >>> span = span_of(line_up([2457754.5, 2457754.5], [0.0, 0.5]))
    >>> span.first, span.last
    (-864.0, 44064.0)
    """

    jd1: float
    jd2: float
    first: float
    last: float
    rows: Table | None


def span_of(line: Line) -> Span | None:
    """The span of a line's ordered stamps and a fiftieth beyond on each side; half a second where they are one instant; None where none is ordered.

    >>> span_of(line_up([float('nan')], [0.0])) is None
    True
    """
    if not len(line.places):
        return None
    first, last = int(line.places[0]), int(line.places[-1])
    jd1, jd2 = float(line.jd1[first]), float(line.jd2[first])
    long = float(difference(float(line.jd1[last]), float(line.jd2[last]), jd1, jd2)) * 86400.0
    beyond = long / 50.0 or 0.5
    return Span(jd1, jd2, -beyond, long + beyond, line.rows)


def marked_seconds(line: Line, span: Span) -> NDArray[np.float64]:
    """Where each stamp is marked, in seconds on the axis: an ordered one at its TAI, any other between the ordered ones around it in its own run.

    >>> line = line_up([2457754.5, float('nan'), 2457754.5], [0.0, 0.0, 0.5])
    >>> marked_seconds(line, span_of(line))
    array([    0., 21600., 43200.])
    """
    seconds = np.array(np.asarray(difference(line.jd1, line.jd2, span.jd1, span.jd2)) * 86400.0)
    start = 0
    for count in line.counts:
        run, numbers = seconds[start : start + count], line.numbers[start : start + count]
        good, other = np.flatnonzero(numbers == 0), np.flatnonzero(numbers)
        if len(good):
            run[other] = np.interp(other, good, run[good])
        else:
            run[other] = np.interp(other, [-1, count], [span.first, span.last])
        start += count
    return seconds


def ticks_of(span: Span) -> list[tuple[float, str]]:
    """Ten places on the axis at the most, each a whole number of steps of the UTC clock at the first, and the UTC of each: the time of day, or day and time
    where the span is longer than a day.

    >>> line = line_up_recorders(('utc', [2457753.5, 2457754.5], [86399.0 / 86401.0, 0.0]))
    >>> [label for _, label in ticks_of(span_of(line))]
    ['23:59:59.000', '23:59:59.500', '23:59:60.000', '23:59:60.500', '00:00:00.000']
    """
    long = span.last - span.first
    step = next((one for one in _STEPS if long / one <= 10), long / 10)
    clock = _utc(span, np.zeros(1))[0].partition("T")[2]
    hours, minutes, seconds = (float(part) for part in (clock or "0:0:0").split(":"))
    begun = -((hours * 3600 + minutes * 60 + seconds) % step)
    places = begun + step * np.arange(np.ceil((span.first - begun) / step), np.floor((span.last - begun) / step) + 1)
    return [(float(place), _label(text, long > 86400, step < 1)) for place, text in zip(places, _utc(span, places))]


def _label(text: str, days: bool, millis: bool) -> str:
    """A day and the time to the minute, or the time alone, to the second or to the millisecond."""
    day, _, clock = text.partition("T")
    return f"{day} {clock[:5]}".strip() if days else clock if millis else clock[:8]


def _utc(span: Span, seconds: NDArray[np.float64]) -> list[str]:
    """The UTC texts of places on the axis; an empty one where there is none."""
    tai = add_seconds(span.jd1, span.jd2, seconds)
    utc = taiutc(tai.jd1, tai.jd2, table=span.rows)
    texts: list[str] = to_iso8601(utc.jd1, utc.jd2, form="expanded", table=span.rows, as_str=True).text.tolist()
    return texts


def leap_rows(table: Table | None) -> list[tuple[int, int, int, float]]:
    """Year, month, TAI-UTC and the step to it, of each row of whole seconds from 1972 on, the announced ones too.

    >>> leap_rows(None)[-1]
    (2017, 1, 37, 1.0)
    """
    end = max([2017, *(year for year, _, _ in lent_table(table).rows)]) + 1
    months = np.arange(12 * 1972, 12 * end)
    seconds = dat(months // 12, months % 12 + 1, 1, table=table).seconds
    steps = np.diff(seconds, prepend=np.nan)
    return [
        (int(month) // 12, int(month) % 12 + 1, int(held), float(np.nan_to_num(step)))
        for month, held, step in zip(months, seconds, steps)
        if step != 0.0
    ]


def leaps_in(span: Span) -> list[tuple[float, float]]:
    """The leap seconds on the axis, each by its two ends; where UTC does not have a second, both ends are in one place.

    >>> line = line_up_recorders(('utc', [2457753.5, 2457754.5], [43200.0 / 86401.0, 0.5]))
    >>> [round(end, 3) for end in leaps_in(span_of(line))[0]]
    [43200.0, 43201.0]
    """
    found = []
    for year, month, _, step in leap_rows(span.rows):
        if step:
            behind = utctai(*dtf2d("utc", year, month, 1, 0, 0, 0.0, table=span.rows)[:2], table=span.rows)
            end = float(difference(behind.jd1, behind.jd2, span.jd1, span.jd2)) * 86400.0
            if span.first <= end and end - max(step, 0.0) <= span.last:
                found.append((end - max(step, 0.0), end))
    return found


def svg_of(line: Line, names: tuple[str, ...]) -> str:
    """The picture of a line: a lane for each recorder, of its own shape and colour, with its ordered stamps over TAI, and beneath them those that are
    refused (bars) and left out (crosses) where they stand in its run; leap seconds are shaded. The axis, its words and the leap seconds are the line's.

    >>> svg_of(line_up_recorders(('gps', [2457754.5], [0.0])), ('gps',)).startswith('<svg ')
    True
    """
    span = span_of(line)
    height = _LANE * len(names) + 74
    head = f'<svg xmlns="http://www.w3.org/2000/svg" viewBox="0 0 {_LEFT + _WIDTH + 30} {height}" role="img" font-family="sans-serif" font-size="12">'
    if span is None or not span.last < _MOST_SECONDS:
        said = "No stamp is ordered: there is nothing to draw." if span is None else "The ordered stamps lie too far apart to be drawn."
        return f'{head}<text x="10" y="24">{said}</text></svg>'
    parts = [head, f"<title>{escape(title_of(line))}</title>", *_leap_marks(span, len(names)), *_tick_marks(span, len(names))]
    seconds = marked_seconds(line, span)
    start = 0
    for lane, name in enumerate(names):
        run = slice(start, start + line.counts[lane])
        parts += _lane(lane, name, _across(span, seconds[run]), line.numbers[run])
        start = run.stop
    return "\n".join([*parts, "</svg>"])


def title_of(line: Line) -> str:
    """What a picture of a line shows, by its first and its last ordered stamp.

    >>> title_of(line_up_recorders(('gps', [2457754.5], [0.0])))
    '1 stamp of 1 recorder, 2016-12-31T23:59:43.000 to 2016-12-31T23:59:43.000 UTC'
    """
    counts = (len(line.numbers), "stamp"), (len(line.scales) or len(line.counts), "recorder")
    said = " of ".join(f"{count} {word}{'s' if count != 1 else ''}" for count, word in counts)
    if not len(line.places):
        return f"{said}, none ordered"
    ends = line.places[[0, -1]]
    first, last = utc_texts("tai", line.jd1[ends], line.jd2[ends], form="expanded", table=line.rows, as_str=True).text
    return f"{said}, {first or 'a date without UTC'} to {last or 'a date without UTC'} UTC"


def _across(span: Span, seconds: NDArray[np.float64]) -> NDArray[np.float64]:
    """Places of the picture, in tenths of its unit."""
    return np.round(_LEFT + _WIDTH * (seconds - span.first) / (span.last - span.first), 1)


def _lane(lane: int, name: str, across: NDArray[np.float64], numbers: NDArray[np.uint8]) -> Iterator[str]:
    """A recorder's marks. Stamps that fall into one place of the picture are one mark."""
    top = 20 + _LANE * lane
    kinds = (("ordered", numbers == 0), ("refused", (numbers != 0) & (numbers != LEFT_OUT)), ("left out", numbers == LEFT_OUT))
    counts = [f"{np.count_nonzero(which)} {kind}" for kind, which in kinds]
    yield f'<g class="lane"><text x="8" y="{top + 12}" font-weight="bold" fill="{COLOURS[lane]}">{escape(name)}</text>'
    shown = [said for said in counts if said == counts[0] or not said.startswith("0 ")]
    yield from (f'<text x="8" y="{top + 24 + 12 * row}" font-size="10">{said}</text>' for row, said in enumerate(shown))
    marks = (
        (SHAPES[lane], top + 12, f'fill="{COLOURS[lane]}"'),
        ("m0-6v12", top + 32, f'fill="none" stroke="{REFUSED_COLOUR}"'),
        ("m-4-4l8 8m0-8l-8 8", top + 32, f'fill="none" stroke="{LEFT_OUT_COLOUR}"'),
    )
    for (shape, y, paint), (kind, which) in zip(marks, kinds):
        drawn = "".join(f"M{x:g} {y}{shape}" for x in np.unique(across[which]).tolist())
        if drawn:
            yield f'<path class="{kind}" {paint} d="{drawn}"/>'
    yield "</g>"


def _leap_marks(span: Span, lanes: int) -> Iterator[str]:
    for first, last in leaps_in(span):
        left, right = (min(max(float(end), _LEFT), _LEFT + _WIDTH) for end in _across(span, np.array([first, last])))
        yield f'<rect class="leap" x="{left:g}" y="12" width="{max(right - left, 1.5):g}" height="{_LANE * lanes}" fill="{LEAP_COLOUR}"/>'


def _tick_marks(span: Span, lanes: int) -> Iterator[str]:
    bottom = 14 + _LANE * lanes
    yield f'<path d="M{_LEFT} {bottom}h{_WIDTH}" stroke="#444"/>'
    for seconds, label in ticks_of(span):
        x = float(_across(span, np.array([seconds]))[0])
        yield f'<path d="M{x:g} {bottom}v5" stroke="#444"/><text x="{x:g}" y="{bottom + 18}" text-anchor="middle" font-size="10">{escape(label)}</text>'
    yield f'<text x="{_LEFT + _WIDTH / 2:g}" y="{bottom + 38}" text-anchor="middle">{escape(axis_words(span))}</text>'


def axis_words(span: Span) -> str:
    """What an axis shows: UTC, the days at its ends, and whether a leap second is on it.

    >>> axis_words(span_of(line_up_recorders(('utc', [2457753.5, 2457754.5], [0.5, 0.5]))))
    'UTC, 2016-12-31 to 2017-01-01; the leap second is shaded'
    """
    first, last = (text.partition("T")[0] or "no UTC" for text in _utc(span, np.array([span.first, span.last])))
    found = leaps_in(span)
    leaps = sum(begin < end for begin, end in found)
    shaded = "" if not leaps else "; the leap second is shaded" if leaps == 1 else f"; {leaps} leap seconds are shaded"
    skipped = "; a second that UTC does not have is marked" if len(found) > leaps else ""
    return f"UTC, {first}{'' if first == last else f' to {last}'}{shaded}{skipped}"
