"""From the recorders' files to one table and one picture.

    python/python3 python/examples/three_recorders.py                  the table, to standard output
    python/python3 python/examples/three_recorders.py -p FILE.png      and the picture (needs matplotlib)
    python/python3 python/examples/three_recorders.py FOLDER           of other files, as they are named here
    python/python3 python/examples/three_recorders.py -m FOLDER        the recorders' files made again

A pig passes a thin place and some girth welds about the leap second of 2016-12-31. Three recorders read the wall in millimetres, one on GPS time, one on TAI
and one on UTC. Each has a file of stamps, blocks one after the other (gps.block), and a file of readings, one for each stamp (gps.npy). Some stamps are not
finite: their readings are kept in the table, and in the picture they are marked where they stand in their file, since they have no time. The readings are
made up. Nothing of the sample is in the picture's axes and words: of other files it shows theirs.
"""
from __future__ import annotations

import argparse
import pathlib
import sys
from typing import TYPE_CHECKING, Iterator, NamedTuple

import numpy as np
from numpy.typing import NDArray

import celestial_time as ct
from celestial_time.pictures import COLOURS, LEAP_COLOUR, LEFT_OUT_COLOUR, REFUSED_COLOUR, Span, axis_words, leaps_in, marked_seconds, span_of, ticks_of
from celestial_time.refusals import LEFT_OUT

if TYPE_CHECKING:
    from matplotlib.axes import Axes
    from matplotlib.figure import Figure

HERE = pathlib.Path(__file__).resolve().parent
SCALES = ("gps", "tai", "utc")
MARKERS = ("o", "s", "^")
Floats = NDArray[np.float64]


class Recorded(NamedTuple):
    """Recorders in one line: the stamps as the library put them, the readings in the order of the runs, and the recorders' own stamps."""

    line: ct.Line
    readings: Floats
    stamps: dict[str, ct.Stamps]


def line_up(folder: pathlib.Path) -> Recorded:
    """The stamps and the readings of the recorders that have a file in a folder."""
    stamps = {scale: ct.read_blocks(folder / f"{scale}.block") for scale in SCALES if (folder / f"{scale}.block").exists()}
    readings = [np.load(folder / f"{scale}.npy") for scale in stamps]
    for scale, read in zip(stamps, readings):
        if len(read) != len(stamps[scale].jd1):
            raise ValueError(f"{scale}: {len(stamps[scale].jd1)} stamps and {len(read)} readings")
    line = ct.line_up_recorders(*(ct.Run(scale, held.jd1, held.jd2) for scale, held in stamps.items()))
    return Recorded(line, np.concatenate(readings), stamps)


def table(recorded: Recorded) -> Iterator[str]:
    """A row for each stamp: its UTC, its recorder and place there, its reading, and the number by which it is refused or left out."""
    columns = recorded.line.table()
    readings = recorded.readings[ct.listed_places(recorded.line)]
    yield "utc,recorder,index,wall_mm,refused"
    held = [columns[name].tolist() for name in ("utc", "recorder", "index", "number")]
    for utc, recorder, index, number, reading in zip(*held, readings.tolist()):
        yield f"{utc},{recorder},{index},{reading:.2f},{number or ''}"


# ---- The picture


def each_run(recorded: Recorded) -> Iterator[tuple[int, str, slice]]:
    """The recorders, counted, with the part of the line that is their run."""
    ends = np.cumsum([0, *recorded.line.counts])
    for place, (scale, start, end) in enumerate(zip(recorded.stamps, ends, ends[1:])):
        yield place, scale, slice(start, end)


def first_minute(recorded: Recorded) -> ct.CalendarDates | None:
    """The calendar date that stands in the earliest stamp of all, as the recorder's own clock shows it."""
    jd1, jd2 = (np.concatenate([held[part] for held in recorded.stamps.values()]) for part in (0, 1))
    rising = ct.argsort(jd1, jd2, numbers=ct.jd2cal(jd1, jd2).numbers).places[:1]
    return ct.jd2cal(float(jd1[rising[0]]), float(jd2[rising[0]])) if len(rising) else None


def draw_clocks(axes: Axes, recorded: Recorded) -> None:
    """The readings against what each recorder's own clock shows, in seconds from the minute that the earliest stamp has begun."""
    first = first_minute(recorded)
    if first is None:
        return
    hour, minute = divmod(int(first.fraction * 1440.0), 60)
    for place, scale, part in each_run(recorded):
        stamps = recorded.stamps[scale]
        begun = ct.dtf2d(scale, first.year, first.month, first.day, hour, minute, 0.0)
        clock = ct.seconds_between(scale, stamps.jd1, stamps.jd2, begun.jd1, begun.jd2)
        shown = (clock.numbers == 0) & (ct.jd2cal(stamps.jd1, stamps.jd2).numbers == 0)
        axes.plot(clock.seconds[shown], recorded.readings[part][shown], color=COLOURS[place], linewidth=1, label=f"{scale.upper()} recorder")
    axes.set_title(f"As stamped: {len(recorded.stamps)} recorders, each by its own clock", loc="left", fontsize=11)
    axes.set_xlabel(f"seconds from {first.year}-{first.month:02d}-{first.day:02d} {hour:02d}:{minute:02d}:00 on each recorder's own clock")
    axes.legend(loc="lower right", frameon=False, fontsize=9)


def draw_line(axes: Axes, recorded: Recorded, seconds: Floats) -> None:
    """The readings of the ordered stamps against TAI, each recorder by its shape and colour, and where the thinnest was read."""
    numbers = recorded.line.numbers
    for place, scale, part in each_run(recorded):
        good = numbers[part] == 0
        axes.plot(seconds[part][good], recorded.readings[part][good], MARKERS[place], color=COLOURS[place], markersize=3, label=f"{scale.upper()} recorder")
    readings = np.where((numbers == 0) & np.isfinite(recorded.readings), recorded.readings, np.inf)
    thin = int(np.argmin(readings))
    utc = ct.utc_texts("tai", recorded.line.jd1[[thin]], recorded.line.jd2[[thin]], as_str=True).text[0]
    said = f"Lined up by TAI: {np.count_nonzero(numbers == 0)} of {len(numbers)} stamps; the thinnest, {readings[thin]:.2f} mm, at {utc} UTC"
    axes.set_title(said, loc="left", fontsize=11)
    axes.legend(loc="lower right", frameon=False, fontsize=9)
    axes.tick_params(labelbottom=False)


def draw_others(axes: Axes, recorded: Recorded, span: Span, seconds: Floats) -> None:
    """The stamps that are refused, and apart from them those that are left out, of each recorder; and the UTC of the axis."""
    names = []
    for place, scale, part in each_run(recorded):
        numbers = recorded.line.numbers[part]
        left_out = numbers == LEFT_OUT
        refused = (numbers != 0) & ~left_out
        for which, marker, size, colour in ((refused, "|", 12, REFUSED_COLOUR), (left_out, "x", 6, LEFT_OUT_COLOUR)):
            axes.plot(seconds[part][which], np.full(np.count_nonzero(which), -place), marker, color=colour, markersize=size, markeredgewidth=1.2)
        names.append(f"{scale.upper()}: {np.count_nonzero(refused)} refused, {np.count_nonzero(left_out)} left out")
    axes.set_yticks([-place for place in range(len(names))], names, fontsize=9)
    axes.set_ylim(0.3 - len(names), 0.7)
    axes.set_title("Refused (bars) and left out (crosses), where they stand in their files", loc="left", fontsize=11)
    places = ticks_of(span)
    axes.set_xticks([place for place, _ in places], [label for _, label in places], rotation=30, ha="right", fontsize=8)
    axes.set_xlim(span.first, span.last)
    axes.set_xlabel(axis_words(span))


def figure_of(recorded: Recorded) -> Figure:
    """The three views in one picture, a figure of matplotlib. Axes, words and leap seconds are those of the line."""
    from matplotlib.figure import Figure

    span = span_of(recorded.line)
    finite = recorded.readings[np.isfinite(recorded.readings)]
    if span is None or not len(finite):
        raise ValueError("no stamp is ordered, or no reading is finite: there is nothing to draw")
    seconds = marked_seconds(recorded.line, span)
    figure = Figure(figsize=(10, 8.5), dpi=110, layout="constrained")
    clocks, line, others = figure.subplots(3, 1, gridspec_kw={"height_ratios": [5, 8, 2]})
    line.sharex(others)
    draw_clocks(clocks, recorded)
    draw_line(line, recorded, seconds)
    draw_others(others, recorded, span, seconds)
    for axes in (clocks, line):
        axes.set_ylabel("wall, mm")
        axes.set_ylim(*(np.array([finite.min(), finite.max()]) + np.array([-0.1, 0.1]) * (np.ptp(finite) or 1.0)))
    for first, last in leaps_in(span):
        for axes in (line, others):
            axes.axvspan(first, last, color=LEAP_COLOUR, alpha=0.5, linewidth=0 if last > first else 2)
    for axes in (clocks, line, others):
        axes.grid(axis="y", color="#dddddd", linewidth=0.6)
        axes.spines[["top", "right"]].set_visible(False)
    return figure


# ---- The recorders' files


def wall(time: Floats) -> Floats:
    """The wall at a second: 8 mm, girth welds, and a thin place."""
    welds = np.sum([1.3 * np.exp(-(((time - at) / 0.06) ** 2)) for at in (-6.2, -3.1, 3.1, 6.2)], axis=0)
    thin: Floats = 8.0 + welds - 2.6 * np.exp(-(((time + 0.45) / 0.22) ** 2))
    return thin


def make(folder: pathlib.Path) -> None:
    """Stamps and readings of the three recorders, the same each time."""
    chance = np.random.Generator(np.random.PCG64(2016))
    midnight = ct.utctai(*ct.dtf2d("utc", 2017, 1, 1, 0, 0, 0.0)[:2])  # the TAI of 2017-01-01 0h UTC, just behind the leap second
    not_finite = {"gps": [9, 180, 181, 182, 183, 300], "tai": [40, 41, 205], "utc": [60, 74, 75, 130]}
    for scale, rate, first in (("gps", 25, -7.50), ("tai", 20, -7.49), ("utc", 10, -7.48)):
        time = first + np.arange(15 * rate) / rate
        tai = ct.add_seconds(midnight.jd1, midnight.jd2, time)
        jd1, jd2 = tai[:2] if scale == "tai" else ct.convert("tai", scale, tai.jd1, tai.jd2)[:2]
        jd1[not_finite[scale][::2]] = np.nan
        jd2[not_finite[scale][1::2]] = np.inf
        ct.write_blocks(folder / f"{scale}.block", jd1, jd2, size=100)
        np.save(folder / f"{scale}.npy", np.round(wall(time) + 0.03 * chance.standard_normal(len(time)), 3))


def main() -> int:
    words = argparse.ArgumentParser(description=__doc__, formatter_class=argparse.RawDescriptionHelpFormatter)
    words.add_argument("-p", metavar="FILE", help="write the picture")
    words.add_argument("-m", metavar="FOLDER", type=pathlib.Path, help="make the recorders' files in this folder, and nothing else")
    words.add_argument("folder", nargs="?", type=pathlib.Path, default=HERE, help="the recorders' files (default: those beside this program)")
    asked = words.parse_args()
    if asked.m is not None:
        make(asked.m)
        return 0
    recorded = line_up(asked.folder)
    for row in table(recorded):
        print(row)
    if asked.p is not None:
        figure_of(recorded).savefig(asked.p, metadata={"Software": None})
    return 0


if __name__ == "__main__":
    sys.exit(main())
