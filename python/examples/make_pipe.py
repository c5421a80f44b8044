"""Makes the files of python/examples/pipe again, the same each time: three recorders' readings as CSV, one by GPS week and millisecond, one by texts of TAI and
one by texts of UTC, and the passes of five markers.

    python/python3 python/examples/make_pipe.py FOLDER

A pig passes a dent about the leap second of 2016-12-31. Some stamps are missing or damaged. The readings are made up.
"""
import pathlib
import sys

import numpy as np

import celestial_time as ct


def wall(millis: np.ndarray) -> np.ndarray:
    """The wall in millimetres at a millisecond of the run: 8 mm, girth welds each 4 s, and a dent at 9.6 s."""
    second = millis / 1000.0
    welds = 1.2 * np.exp(-(((second % 4.0 - 2.0) / 0.05) ** 2))
    return np.asarray(8.0 + welds - 2.6 * np.exp(-(((second - 9.6) / 0.22) ** 2)))


def make(folder: pathlib.Path) -> None:
    launch = ct.utctai(*ct.dtf2d("utc", 2016, 12, 31, 23, 59, 50.0)[:2])
    chance = np.random.Generator(np.random.PCG64(31))
    for scale, step, first in (("gps", 40, 0), ("tai", 50, 10), ("utc", 100, 20)):
        millis = np.arange(first, 20000, step)
        tai = ct.add_seconds(launch.jd1, launch.jd2, millis / 1000.0)
        read = [f"{one:.2f}" for one in wall(millis) + 0.03 * chance.standard_normal(len(millis))]
        if scale == "gps":
            week = ct.gps_to_week(*ct.taigps(*tai[:2])[:2])
            stamps, head = [f"{a},{b}" for a, b in zip(week.week, week.millis)], "week,millisecond"
        else:
            # The texts of TAI are those of a clock without leap seconds: calendar and time of day of its date.
            days = ct.jd2cal(tai.jd1, tai.jd2)
            clock = np.rint(days.fraction * 86400000).astype(int)
            times = [f"{c // 3600000:02d}:{c // 60000 % 60:02d}:{c // 1000 % 60:02d}.{c % 1000:03d}" for c in clock]
            texts = [f"{year}-{month:02d}-{day:02d}T{time}" for year, month, day, time in zip(days.year, days.month, days.day, times)]
            stamps, head = texts if scale == "tai" else [f"{text}Z" for text in ct.utc_texts("tai", *tai[:2], as_str=True).text], "time"
        stamps[31] = ",".join([""] * (head.count(",") + 1))
        stamps[47] = stamps[47].replace("1", "?", 1)
        (folder / f"{scale}.csv").write_text("".join(f"{row}\n" for row in (f"{head},wall_mm", *(f"{a},{b}" for a, b in zip(stamps, read)))))
    marks = ct.add_seconds(launch.jd1, launch.jd2, [0.5, 5.0, 10.25, 14.0, 19.5])
    rows = zip(ct.utc_texts("tai", *marks[:2], as_str=True).text, (0.0, 13.2, 27.75, 41.0, 60.125))
    (folder / "passes.csv").write_text("time,metres\n" + "".join(f"{text}Z,{metres}\n" for text, metres in rows))


if __name__ == "__main__":
    if len(sys.argv) != 2:
        sys.exit(__doc__)
    make(pathlib.Path(sys.argv[1]))
