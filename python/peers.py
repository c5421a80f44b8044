"""Ten jobs of an analyst by this package, by astropy and by pyerfa: lines of code, seconds, right or wrong.

    python/python3 python/peers.py [-n STAMPS] [-w]      -w puts the table into python/README.md

Needs Debian's python3-erfa and python3-astropy. Each job is one function for each library, below; its lines are those of its body. What is right is counted in
whole milliseconds and millimetres by numpy and Python, apart from all three. A job is right where every answer is: texts and places exactly, and TAI to the
nearest millisecond. The stamps are a millisecond or more apart, about the leap second of 2016-12-31. The time is the processor's, the least of three turns.
"""
from __future__ import annotations

import argparse
import ast
import csv
import inspect
import pathlib
import sys
import tempfile
import textwrap
import time
import warnings
from typing import Any, Callable, NamedTuple

import astropy
import erfa
import numpy as np
from astropy.time import Time

import celestial_time as ct

README = pathlib.Path(__file__).resolve().parent / "README.md"
BEGIN, END = "<!-- peers: begin -->", "<!-- peers: end -->"
GPS_EPOCH = 2444244.5
LEAP_ROW = (2027, 1, 38)  # made up
# The first stamp is 2016-12-31T23:59:00 UTC: 23:59:17 of GPS, 43 s before week 1930, and 23:59:36 of TAI.
FIRST_GPS, FIRST_TAI = 1930 * 604800000 - 43000, 86376000


class Given(NamedTuple):
    """What the jobs are given: milliseconds from the first stamp on, and the same as recorders have them."""

    millis: Any
    week: Any
    week_millis: Any
    tai1: Any
    tai2: Any
    texts: Any
    damaged: Any
    utc1: Any
    utc2: Any
    dead1: Any
    passes: tuple[Any, Any]
    folder: pathlib.Path


def text_of(milli: int, shown: str = "2016-12-31T23:59", after: str = "2017-01-01T00") -> str:
    """The UTC text of a millisecond from the first stamp on: the first minute has 61 seconds."""
    if milli < 61000:
        return f"{shown}:{milli // 1000:02d}.{milli % 1000:03d}"
    second = (milli - 61000) // 1000
    return f"{after}:{second // 60:02d}:{second % 60:02d}.{milli % 1000:03d}"


def given(count: int, folder: pathlib.Path) -> Given:
    """The stamps of all jobs, and the files of the last."""
    millis = np.arange(count) * max(1, 120000 // count)
    gps, tai = FIRST_GPS + millis, FIRST_TAI + millis
    texts = np.array([text_of(milli) for milli in millis.tolist()])
    damaged = texts.copy()
    damaged[::2000], damaged[1000::2000] = "no time", "2016-92-31T23:59:07.000"
    utc = millis < 61000
    utc1, utc2 = np.where(utc, 2457753.5, 2457754.5), np.where(utc, (86340000 + millis) / 86401000.0, (millis - 61000) / 86400000.0)
    dead = utc1.copy()
    dead[::1000] = np.nan
    marks = np.linspace(0, millis[-1], 20).astype(int)
    passes = marks, marks * 29 // 10  # a pig at 2.9 m/s
    with open(folder / "gps.csv", "w") as file:
        file.write("week,millisecond,wall\n" + "".join(f"{a},{b},8.0\n" for a, b in zip((gps // 604800000).tolist(), (gps % 604800000).tolist())))
    with open(folder / "passes.csv", "w") as file:
        file.write("time,metres\n" + "".join(f"{text_of(a)},{b / 1000}\n" for a, b in zip(*(one.tolist() for one in passes))))
    return Given(
        millis, gps // 604800000, gps % 604800000, 2457753.5 + tai // 86400000, tai % 86400000 / 86400000.0, texts, damaged, utc1, utc2, dead, passes, folder
    )


def on_line(passes: tuple[Any, Any], millis: Any) -> Any:
    """Millimetres on the straight line between passes, rounded down, in whole numbers."""
    ticks, places = passes
    j = np.clip(np.searchsorted(ticks, millis, "right") - 1, 0, len(ticks) - 2)
    return places[j] + (millis - ticks[j]) * (places[j + 1] - places[j]) // (ticks[j + 1] - ticks[j])


def tai_millis(jd1: Any, jd2: Any) -> Any:
    """TAI as milliseconds from the first stamp on; -1 where it is none."""
    found = ((np.asarray(jd1) - 2457753.5) + np.asarray(jd2)) * 86400000.0 - FIRST_TAI
    return np.where(np.isfinite(found), np.rint(np.nan_to_num(found)), -1).astype(int)


# ---- The jobs, each by the three. A function's answer is what is judged.


def texts_of_weeks_ours(g: Given) -> Any:
    gps = ct.gps_from_week(g.week, g.week_millis)
    return ct.utc_texts("gps", gps.jd1, gps.jd2, as_str=True).text


def texts_of_weeks_astropy(g: Given) -> Any:
    return Time(g.week * 604800.0, g.week_millis / 1000.0, format="gps", scale="tai").utc.isot


def texts_of_weeks_pyerfa(g: Given) -> Any:
    days, rest = np.divmod(g.week_millis, 86400000)
    utc = erfa.taiutc(GPS_EPOCH + 7 * g.week + days, rest / 86400000.0 + 19.0 / 86400.0)
    year, month, day, clock = erfa.d2dtf("UTC", 3, *utc)
    parts = zip(year.tolist(), month.tolist(), day.tolist(), *(clock[name].tolist() for name in "hmsf"))
    return np.array(["%04d-%02d-%02dT%02d:%02d:%02d.%03d" % one for one in parts])


def tai_of_texts_ours(g: Given) -> Any:
    utc = ct.from_iso8601(g.texts)
    return tai_millis(*ct.utctai(utc.jd1, utc.jd2)[:2])


def tai_of_texts_astropy(g: Given) -> Any:
    tai = Time(g.texts, format="isot", scale="utc").tai
    return tai_millis(tai.jd1, tai.jd2)


def tai_of_texts_pyerfa(g: Given) -> Any:
    fields = np.array([(t[:4], t[5:7], t[8:10], t[11:13], t[14:16], t[17:]) for t in g.texts.tolist()])
    whole = fields[:, :5].astype("i4").T
    return tai_millis(*erfa.utctai(*erfa.dtf2d("UTC", *whole, fields[:, 5].astype(float))))


def since_launch_ours(g: Given) -> Any:
    launch = ct.utctai(g.utc1[0], g.utc2[0])
    return ct.milliseconds(launch, ct.utctai(g.utc1, g.utc2), scale="tai").millis


def since_launch_astropy(g: Given) -> Any:
    utc = Time(g.utc1, g.utc2, format="jd", scale="utc")
    return np.rint((utc - utc[0]).sec * 1000.0).astype(int)


def since_launch_pyerfa(g: Given) -> Any:
    tai1, tai2 = erfa.utctai(g.utc1, g.utc2)
    return np.rint(((tai1 - tai1[0]) + (tai2 - tai2[0])) * 86400000.0).astype(int)


def places_ours(g: Given) -> Any:
    return ct.place(g.millis, g.passes, unit="mm").mm


def places_numpy(g: Given) -> Any:
    return np.floor(np.interp(g.millis, *g.passes)).astype(int)


def dead_stamps_ours(g: Given) -> Any:
    return tai_millis(*ct.utctai(g.dead1, g.utc2)[:2])


def dead_stamps_astropy(g: Given) -> Any:
    alive = np.isfinite(g.dead1)
    tai = Time(g.dead1[alive], g.utc2[alive], format="jd", scale="utc").tai
    made = np.full(len(alive), -1)
    made[alive] = tai_millis(tai.jd1, tai.jd2)
    return made


def dead_stamps_pyerfa(g: Given) -> Any:
    return tai_millis(*erfa.utctai(g.dead1, g.utc2))


def damaged_texts_ours(g: Given) -> Any:
    utc = ct.from_iso8601(g.damaged)
    return tai_millis(*ct.utctai(utc.jd1, utc.jd2)[:2])


def damaged_texts_astropy(g: Given) -> Any:
    made = np.full(len(g.damaged), -1)
    for place, text in enumerate(g.damaged):
        try:
            tai = Time(text, format="isot", scale="utc").tai
            made[place] = tai_millis(tai.jd1, tai.jd2)
        except ValueError:
            pass
    return made


def damaged_texts_pyerfa(g: Given) -> Any:
    made = np.full(len(g.damaged), -1)
    for place, t in enumerate(g.damaged.tolist()):
        try:
            fields = *(int(part) for part in (t[:4], t[5:7], t[8:10], t[11:13], t[14:16])), float(t[17:])
            made[place] = tai_millis(*erfa.utctai(*erfa.dtf2d("UTC", *fields)))
        except (ValueError, erfa.ErfaError):
            pass
    return made


def in_order_ours(g: Given) -> Any:
    return ct.line_up_recorders(("utc", g.utc1[::2], g.utc2[::2]), ("tai", g.tai1[1::2], g.tai2[1::2])).places


def in_order_astropy(g: Given) -> Any:
    utc, tai = Time(g.utc1[::2], g.utc2[::2], format="jd", scale="utc").tai, Time(g.tai1[1::2], g.tai2[1::2], format="jd", scale="tai")
    both = Time(np.concatenate([utc.jd1, tai.jd1]), np.concatenate([utc.jd2, tai.jd2]), format="jd", scale="tai")
    return both.argsort()


def in_order_pyerfa(g: Given) -> Any:
    utc = erfa.utctai(g.utc1[::2], g.utc2[::2])
    jd1, jd2 = np.concatenate([utc[0], g.tai1[1::2]]), np.concatenate([utc[1], g.tai2[1::2]])
    return np.argsort((jd1 - jd1[0]) + jd2, kind="stable")


def elapsed_ours(g: Given) -> Any:
    return np.rint(ct.seconds_between("utc", g.utc1, g.utc2, g.utc1[0], g.utc2[0]).seconds * 1000.0).astype(int)


def elapsed_astropy(g: Given) -> Any:
    utc = Time(g.utc1, g.utc2, format="jd", scale="utc")
    return np.rint((utc - utc[0]).to_value("s") * 1000.0).astype(int)


def elapsed_pyerfa(g: Given) -> Any:
    tai1, tai2 = erfa.utctai(g.utc1, g.utc2)
    return np.rint(((tai1 - tai1[0]) * 86400.0 + (tai2 - tai2[0]) * 86400.0) * 1000.0).astype(int)


def announced_ours(g: Given) -> Any:
    table = ct.Table([LEAP_ROW])
    return ct.utc_texts("tai", 2461405.5, (86377000 + g.millis) / 86400000.0, table=table, as_str=True).text


def announced_astropy(g: Given) -> Any:
    kept = erfa.leap_seconds.get()
    try:
        erfa.leap_seconds.update([LEAP_ROW])
        return Time(np.full(len(g.millis), 2461405.5), (86377000 + g.millis) / 86400000.0, format="jd", scale="tai").utc.isot
    finally:
        erfa.leap_seconds.set(kept)


def announced_pyerfa(g: Given) -> Any:
    kept = erfa.leap_seconds.get()
    try:
        erfa.leap_seconds.update([LEAP_ROW])
        year, month, day, clock = erfa.d2dtf("UTC", 3, *erfa.taiutc(2461405.5, (86377000 + g.millis) / 86400000.0))
    finally:
        erfa.leap_seconds.set(kept)
    parts = zip(year.tolist(), month.tolist(), day.tolist(), *(clock[name].tolist() for name in "hmsf"))
    return np.array(["%04d-%02d-%02dT%02d:%02d:%02d.%03d" % one for one in parts])


def files_ours(g: Given) -> Any:
    placed = ct.place_files({"gps": g.folder / "gps.csv"}, g.folder / "passes.csv")
    return placed.places[0].mm


def files_astropy(g: Given) -> Any:
    gps = np.loadtxt(g.folder / "gps.csv", delimiter=",", skiprows=1)
    with open(g.folder / "passes.csv") as file:
        passes = list(csv.DictReader(file))
    marks = Time([row["time"] for row in passes], format="isot", scale="utc").tai
    stamps = Time(gps[:, 0] * 604800.0, gps[:, 1] / 1000.0, format="gps", scale="tai").tai
    millis, ticks = (np.rint((one - marks[0]).sec * 1000.0) for one in (stamps, marks))
    return np.floor(np.interp(millis, ticks, [round(float(row["metres"]) * 1000) for row in passes])).astype(int)


def files_pyerfa(g: Given) -> Any:
    gps = np.loadtxt(g.folder / "gps.csv", delimiter=",", skiprows=1)
    with open(g.folder / "passes.csv") as file:
        passes = list(csv.DictReader(file))
    fields = np.array([(t[:4], t[5:7], t[8:10], t[11:13], t[14:16], t[17:]) for t in (row["time"] for row in passes)])
    marks = erfa.utctai(*erfa.dtf2d("UTC", *fields[:, :5].astype("i4").T, fields[:, 5].astype(float)))
    stamps = GPS_EPOCH + 7 * gps[:, 0], gps[:, 1] / 86400000.0 + 19.0 / 86400.0
    millis, ticks = (np.rint(((one[0] - marks[0][0]) + (one[1] - marks[1][0])) * 86400000.0) for one in (stamps, marks))
    return np.floor(np.interp(millis, ticks, [round(float(row["metres"]) * 1000) for row in passes])).astype(int)


Job = tuple[str, Any, Callable[[Given], Any], Callable[[Given], Any], Callable[[Given], Any]]


def jobs(g: Given) -> list[Job]:
    """The jobs, with what is right."""
    numbers = g.millis
    told = g.texts
    alive = np.where(np.arange(len(numbers)) % 1000 == 0, -1, numbers)
    announced = np.array([text_of(milli, "2026-12-31T23:59", "2027-01-01T00") for milli in numbers.tolist()])
    places = on_line(g.passes, numbers)
    half = (len(numbers) + 1) // 2
    order = np.where(np.arange(len(numbers)) % 2, half + np.arange(len(numbers)) // 2, np.arange(len(numbers)) // 2)
    return [
        ("UTC texts of GPS weeks and milliseconds, through a leap second", told, texts_of_weeks_ours, texts_of_weeks_astropy, texts_of_weeks_pyerfa),
        ("TAI of UTC texts, second 60 too", numbers, tai_of_texts_ours, tai_of_texts_astropy, tai_of_texts_pyerfa),
        ("TAI of texts of which one in a thousand is damaged", alive, damaged_texts_ours, damaged_texts_astropy, damaged_texts_pyerfa),
        ("TAI of UTC stamps of which one in a thousand is dead", alive, dead_stamps_ours, dead_stamps_astropy, dead_stamps_pyerfa),
        ("seconds between UTC stamps, over a leap second", numbers, elapsed_ours, elapsed_astropy, elapsed_pyerfa),
        ("milliseconds since the launch", numbers, since_launch_ours, since_launch_astropy, since_launch_pyerfa),
        ("two recorders, UTC and TAI, in one order", order, in_order_ours, in_order_astropy, in_order_pyerfa),
        ("UTC texts by an announced leap second", announced, announced_ours, announced_astropy, announced_pyerfa),
        ("millimetres between marker passes (the others: numpy)", places, places_ours, places_numpy, places_numpy),
        ("from a recorder's file to millimetres", places, files_ours, files_astropy, files_pyerfa),
    ]


# ---- What is told of them


def lines_of(function: Callable[..., Any]) -> int:
    """The lines of a function's body."""
    body = ast.parse(textwrap.dedent(inspect.getsource(function))).body[0]
    assert isinstance(body, ast.FunctionDef)
    return sum(statement.end_lineno - statement.lineno + 1 for statement in body.body if statement.end_lineno is not None)


def judged(answer: Any, due: Any) -> str:
    found = np.asarray(answer)
    if found.shape != due.shape:
        return "wrong"
    wrong = int(np.count_nonzero(found != due))
    return "right" if not wrong else f"{wrong:,} wrong"


def told_of(function: Callable[[Given], Any], g: Given, due: Any) -> str:
    """Lines, seconds and whether the answers are right; of a call that raises, by what."""
    taken = []
    for _ in range(3):
        begun = time.process_time()
        try:
            answer = function(g)
        except (erfa.ErfaError, ValueError, RuntimeError) as error:
            return f"{lines_of(function)} | - | {type(error).__name__}"
        taken.append(time.process_time() - begun)
        if taken[-1] > 5.0:
            break
    return f"{lines_of(function)} | {min(taken):.3f} | {judged(answer, due)}"


def main() -> int:
    words = argparse.ArgumentParser(description=__doc__, formatter_class=argparse.RawDescriptionHelpFormatter)
    words.add_argument("-n", type=int, default=100_000, help="stamps")
    words.add_argument("-w", action="store_true", help="put the table into python/README.md")
    asked = words.parse_args()
    warnings.simplefilter("ignore")
    said = [f"| {asked.n:,} stamps | package: lines | s | | astropy: lines | s | | pyerfa: lines | s | |", "|---|--:|--:|---|--:|--:|---|--:|--:|---|"]
    print(*said, sep="\n")
    with tempfile.TemporaryDirectory() as folder:
        g = given(asked.n, pathlib.Path(folder))
        for name, due, *functions in jobs(g):
            said.append(f"| {name} | " + " | ".join(told_of(function, g, due) for function in functions) + " |")
            print(said[-1], flush=True)
    said += ["", f"Python {sys.version.split()[0]}, numpy {np.__version__}, pyerfa {erfa.__version__}, astropy {astropy.__version__}."]
    print(*said[-2:], sep="\n")
    if asked.w:
        text = README.read_text()
        README.write_text(text[: text.index(BEGIN) + len(BEGIN)] + "\n" + "\n".join(said) + "\n" + text[text.index(END) :])
    return 0


if __name__ == "__main__":
    sys.exit(main())
