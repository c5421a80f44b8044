"""A picture of readings on the pipe, as SVG: what was read over metres, and what has no place where it stands in its run."""
from __future__ import annotations

from html import escape
from typing import Iterator, NamedTuple

import numpy as np
from numpy.typing import NDArray

from .csv_files import numbers_of
from .pictures import COLOURS, LEFT_OUT_COLOUR, REFUSED_COLOUR
from .placed import SCALES, Placed
from .refusals import OUTSIDE

_LEFT, _WIDTH, _PANEL, _LANE, _TOP = 110, 860, 240, 40, 26
Floats = NDArray[np.float64]


class Axis(NamedTuple):
    """The two ends of an axis, and the places on it that are marked, at most ten.

    >>> axis_of(np.array([0.0, 31.5])).ticks
    [0.0, 5.0, 10.0, 15.0, 20.0, 25.0, 30.0]
    """

    first: float
    last: float
    ticks: list[float]


def axis_of(values: Floats) -> Axis:
    """The axis of values that are finite, a fiftieth wider on each side.

    >>> axis_of(np.array([7.0])).first
    6.5
    """
    low, high = (float(values.min()), float(values.max())) if len(values) else (0.0, 1.0)
    beyond = (high - low) / 50.0 or 0.5
    first, last = low - beyond, high + beyond
    power = 10.0 ** np.floor(np.log10(last - first) - 1)
    step = next(part * power for part in (1, 2, 5, 10, 20, 50, 100) if (last - first) / (part * power) <= 10)
    return Axis(first, last, [round(float(one * step), 9) + 0.0 for one in np.arange(np.ceil(first / step), np.floor(last / step) + 1)])


def marked_metres(metres: Floats, axis: Axis) -> Floats:
    """Where each reading is marked: one that is placed at its metres, any other between the placed ones around it in its own run.

    >>> marked_metres(np.array([0.0, np.nan, 2.0]), axis_of(np.array([0.0, 2.0])))
    array([0., 1., 2.])
    """
    good = np.flatnonzero(np.isfinite(metres))
    every = np.arange(len(metres))
    if not len(good):
        return np.interp(every, [-1, len(metres)], [axis.first, axis.last])
    marked = np.array(metres)
    other = np.flatnonzero(~np.isfinite(metres))
    marked[other] = np.interp(other, good, metres[good])
    return marked


def drawn_column(placed: Placed, readings: list[str]) -> str | None:
    """The first column that is carried on and holds a number, which the picture draws; None where no column does.

    >>> import io
    >>> passes = io.StringIO('time,metres\\n2017-01-01T00:00:00Z,0\\n2017-01-01T00:00:10Z,31.5\\n')
    >>> placed = place_files({'utc': io.StringIO('time,who,wall\\n2017-01-01T00:00:04,me,8.2\\n')}, passes)
    >>> drawn_column(placed, ['who', 'wall'])
    'wall'
    """
    for name in readings:
        if any(np.isfinite(numbers_of(recorder.columns.get(name, np.empty(0, "S1")))).any() for recorder in placed.recorders):
            return name
    return None


def svg_of_places(placed: Placed, column: str | None) -> str:
    """The picture: each recorder's readings of a column over metres, by its colour, markers as lines across; beneath them, of each recorder, the readings
    that are refused (red bars) and outside the passes (black) where they stand in its run. The axes and their words are the data's.

    >>> import io
    >>> passes = io.StringIO('time,metres\\n2017-01-01T00:00:00Z,0\\n2017-01-01T00:00:10Z,31.5\\n')
    >>> svg_of_places(place_files({'utc': io.StringIO('time\\n2017-01-01T00:00:04\\n')}, passes), None).startswith('<svg ')
    True
    """
    metres = [np.atleast_1d(np.asarray(one.metres)) for one in placed.places]
    placed_metres = np.concatenate([one[np.isfinite(one)] for one in metres])
    across = axis_of(placed_metres if len(placed_metres) else placed.passes.mm / 1000.0)
    panel = _PANEL if column is not None else 0
    bottom = _TOP + panel + _LANE * len(metres)
    head = f'<svg xmlns="http://www.w3.org/2000/svg" viewBox="0 0 {_LEFT + _WIDTH + 30} {bottom + 56}" role="img" font-family="sans-serif" font-size="12">'
    parts = [head, f"<title>{escape(title_of_places(placed))}</title>", *_marker_lines(placed, across, bottom)]
    if column is not None:
        parts += _panel(placed, metres, column, across)
    for lane, (recorder, held) in enumerate(zip(placed.recorders, metres)):
        parts += _lane(_TOP + panel + _LANE * lane, recorder.scale, held, placed.places[lane].numbers, across)
    return "\n".join([*parts, *_metre_marks(across, bottom), "</svg>"])


def title_of_places(placed: Placed) -> str:
    """How many readings have a place, and from where to where.

    >>> import io
    >>> passes = io.StringIO('time,metres\\n2017-01-01T00:00:00Z,0\\n2017-01-01T00:00:10Z,31.5\\n')
    >>> title_of_places(place_files({'utc': io.StringIO('time\\n2017-01-01T00:00:04\\n')}, passes))
    '1 of 1 reading of 1 recorder placed, 12.600 m to 12.600 m'
    """
    mm = np.concatenate([one.mm[one.numbers == 0] for one in placed.places])
    count, recorders = sum(len(one.numbers) for one in placed.places), len(placed.recorders)
    said = f"{len(mm)} of {count} reading{'s' if count != 1 else ''} of {recorders} recorder{'s' if recorders != 1 else ''} placed"
    return said if not len(mm) else f"{said}, {mm.min() / 1000:.3f} m to {mm.max() / 1000:.3f} m"


def _x(axis: Axis, values: Floats) -> Floats:
    return np.round(_LEFT + _WIDTH * (values - axis.first) / (axis.last - axis.first), 1)


def _y(axis: Axis, values: Floats) -> Floats:
    return np.round(_TOP + _PANEL - 24 - (_PANEL - 34) * (values - axis.first) / (axis.last - axis.first), 1)


def _panel(placed: Placed, metres: list[Floats], column: str, across: Axis) -> Iterator[str]:
    """The readings. Those that fall into one upright stripe of the picture are one stroke from the least to the greatest."""
    read = [numbers_of(recorder.columns.get(column, np.zeros(len(held), "S1"))) for recorder, held in zip(placed.recorders, metres)]
    shown = [np.isfinite(held) & np.isfinite(values) for held, values in zip(metres, read)]
    up = axis_of(np.concatenate([values[which] for values, which in zip(read, shown)]))
    for tick in up.ticks:
        at = float(_y(up, np.array(tick)))
        yield f'<path d="M{_LEFT} {at:g}h{_WIDTH}" stroke="#ddd"/><text x="{_LEFT - 6}" y="{at + 4:g}" text-anchor="end" font-size="10">{tick:g}</text>'
    yield f'<text x="{_LEFT}" y="{_TOP - 10}">{escape(column)}, over metres along the pipe</text>'
    for recorder, held, values, which in zip(placed.recorders, metres, read, shown):
        colour = COLOURS[SCALES.index(recorder.scale)]
        drawn = "".join(f"M{at:g} {high:g}V{low + 0.1:g}" for at, low, high in _strokes(_x(across, held[which]), _y(up, values[which])))
        yield f'<path class="readings" fill="none" stroke="{colour}" stroke-width="2.4" stroke-opacity="0.7" stroke-linecap="round" d="{drawn}"/>'


def _strokes(x: Floats, y: Floats) -> list[tuple[float, float, float]]:
    """Of each stripe half a unit wide the place, the greatest and the least y."""
    if not len(x):
        return []
    stripe = np.rint(2.0 * x)
    order = np.argsort(stripe, kind="stable")
    starts = np.flatnonzero(np.diff(stripe[order], prepend=np.nan) != 0)
    held = y[order]
    return list(zip((stripe[order][starts] / 2.0).tolist(), np.maximum.reduceat(held, starts).tolist(), np.minimum.reduceat(held, starts).tolist()))


def _lane(top: int, name: str, metres: Floats, numbers: NDArray[np.uint8], across: Axis) -> Iterator[str]:
    outside = numbers == OUTSIDE
    kinds = ("refused", (numbers != 0) & ~outside, REFUSED_COLOUR), ("outside the passes", outside, LEFT_OUT_COLOUR)
    colour = COLOURS[SCALES.index(name)]
    yield f'<text x="8" y="{top + 12}" font-weight="bold" fill="{colour}">{escape(name)}</text>'
    counts = ", ".join([f"{np.count_nonzero(numbers == 0)} placed", *(f"{np.count_nonzero(which)} {kind}" for kind, which, _ in kinds if which.any())])
    yield f'<text x="{_LEFT}" y="{top + 12}" font-size="10">{counts}</text>'
    at = _x(across, marked_metres(metres, across))
    for kind, which, paint in (("placed", numbers == 0, colour), *kinds):
        drawn = "".join(f"M{x:g} {top + (20 if kind == 'placed' else 24)}v{4 if kind == 'placed' else 10}" for x in np.unique(np.rint(at[which])).tolist())
        if drawn:
            yield f'<path class="{kind}" stroke="{paint}" d="{drawn}"/>'


def _marker_lines(placed: Placed, across: Axis, bottom: int) -> Iterator[str]:
    metres = placed.passes.mm / 1000.0
    for x in np.unique(_x(across, metres[(metres >= across.first) & (metres <= across.last)])).tolist():
        yield f'<path class="marker" d="M{x:g} {_TOP}V{bottom}" stroke="#999" stroke-dasharray="2 4"/>'


def _metre_marks(across: Axis, bottom: int) -> Iterator[str]:
    yield f'<path d="M{_LEFT} {bottom}h{_WIDTH}" stroke="#444"/>'
    for tick in across.ticks:
        x = float(_x(across, np.array(tick)))
        yield f'<path d="M{x:g} {bottom}v5" stroke="#444"/><text x="{x:g}" y="{bottom + 18}" text-anchor="middle" font-size="10">{tick:.9g}</text>'
    yield f'<text x="{_LEFT + _WIDTH / 2:g}" y="{bottom + 38}" text-anchor="middle">metres along the pipe; markers are dotted lines</text>'
