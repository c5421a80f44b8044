"""The package beside pyerfa and astropy, on nine million stamps.

    python/python3 python/bench.py [-n STAMPS] [-r TURNS] [-w] [ROW ..]     -w puts the table into docs/generated/speed.md; ROW: only rows that begin so

Needs Debian's python3-erfa and python3-astropy. The stamps are a recorder's, in time order, a millisecond apart about the leap second of 2016-12-31, and where
they are put in order three recorders', a third each. Before a row is measured, the answers are compared: conversions bit for bit with ERFA's, texts byte for
byte with astropy's, orders place by place. The time is the processor's, of the process and of the system for it, all in one thread: the least of the turns, in
which the libraries alternate. Each turn makes its arrays anew, as a program does that keeps its answers. The last row is the command `place` as a process of
its own, from three recorders' CSV files to one.
"""
from __future__ import annotations

import argparse
import os
import pathlib
import resource
import subprocess
import sys
import tempfile
import time
import warnings
from typing import Any, Callable

import astropy
import erfa
import numpy as np
from astropy.time import Time

import celestial_time as ct
from celestial_time.csv_files import csv_of, digits_of

SPEED = pathlib.Path(__file__).resolve().parents[1] / "docs" / "generated" / "speed.md"
DUT1 = -0.41
DTR = 0.00165
BEGIN, END = "<!-- python: begin -->", "<!-- python: end -->"
Row = tuple[str, Callable[[], Any], "Callable[[], Any] | None", "Callable[[], Any] | None"]


def spent() -> float:
    """The processor time so far, of this process and of those that it waited for."""
    ended = resource.getrusage(resource.RUSAGE_CHILDREN)
    return time.process_time() + ended.ru_utime + ended.ru_stime


def seconds(call: Callable[[], Any]) -> float:
    """The processor time of one call, without that of dropping its answer."""
    start = spent()
    answer = call()
    end = spent()
    del answer
    return end - start


def least(calls: list[Callable[[], Any] | None], turns: int) -> list[float | None]:
    """The least processor time of each call, in seconds. In a turn each is called once; one that takes over two seconds has two turns."""
    taken: list[list[float]] = [[] for _ in calls]
    for turn in range(turns):
        for call, times in zip(calls, taken):
            if call is not None and (turn < 2 or min(times) < 2.0):
                times.append(seconds(call))
    return [min(times) if times else None for times in taken]


def recorded(scale: str, count: int, ahead: float, phase: float) -> ct.Run:
    """A recorder's stamps in time order, a millisecond apart about the leap second: midnight and the part of the day, as a recorder writes them."""
    millis = np.arange(count) - count // 2 + phase + ahead
    before = millis < 0
    length = np.where(before & (scale == "utc"), 86401000.0, 86400000.0)
    return ct.Run(scale, 2457754.5 - before, (millis + before * length) / length)


def runs(count: int) -> list[ct.Run]:
    """Three recorders, each with a third of the stamps."""
    return [recorded(scale, count // 3, ahead, phase) for scale, ahead, phase in (("gps", 18000.0, 0.0), ("tai", 37000.0, 0.3), ("utc", 0.0, 0.6))]


def same(ours: Any, theirs: Any, what: str) -> None:
    """Stop where two answers differ; floats by their bits, so that -0.0 is not 0.0."""
    for a, b in zip(ours, theirs):
        a, b = (np.asarray(x).view("<u8") if np.asarray(x).dtype == np.float64 else np.asarray(x) for x in (a, b))
        if not np.array_equal(a, b):
            sys.exit(f"bench: {what}: {np.count_nonzero(a != b)} answers differ")


def fields_of(utc1: Any, utc2: Any) -> list[Any]:
    """Calendar fields and a time of day of each stamp, as pyerfa takes them."""
    days = ct.jd2cal(utc1, utc2)
    millis = np.arange(len(utc1)) % 86400000
    return [days.year, days.month, days.day, *((millis // part % size).astype("<i4") for part, size in ((3600000, 24), (60000, 60))), millis % 60000 / 1000.0]


def compared(count: int, recorders: list[ct.Run], line: ct.Line, tai1: Any, tai2: Any, utc1: Any, utc2: Any, fields: list[Any]) -> None:
    """Stop where an answer differs from ERFA's, or from astropy's."""
    some = slice(0, count, max(1, count // 100000))
    for name, ours, theirs in (
        ("UTC to TAI", ct.utctai(utc1, utc2), erfa.utctai(utc1, utc2)),
        ("TAI to UTC", ct.taiutc(tai1, tai2), erfa.taiutc(tai1, tai2)),
        ("TAI to TT", ct.taitt(tai1, tai2), erfa.taitt(tai1, tai2)),
        ("TT to TCG", ct.tttcg(tai1, tai2), erfa.tttcg(tai1, tai2)),
        ("TCB to TDB", ct.tcbtdb(tai1, tai2), erfa.tcbtdb(tai1, tai2)),
        ("TT to TDB", ct.tttdb(tai1, tai2, DTR), erfa.tttdb(tai1, tai2, DTR)),
        ("UT1 to TAI", ct.ut1tai(tai1, tai2, tai2), erfa.ut1tai(tai1, tai2, tai2)),
        ("UTC to UT1", ct.utcut1(utc1, utc2, DUT1), erfa.utcut1(utc1, utc2, DUT1)),
        ("UT1 to UTC", ct.ut1utc(utc1, utc2, DUT1), erfa.ut1utc(utc1, utc2, DUT1)),
        ("calendar date", ct.jd2cal(utc1, utc2), erfa.jd2cal(utc1, utc2)),
        ("UTC of calendar fields", ct.dtf2d("utc", *fields), erfa.dtf2d("UTC", *fields)),
    ):
        same(ours[:-1], theirs, name)
    same([ct.to_iso8601(utc1[some], utc2[some]).text], [Time(utc1[some], utc2[some], format="jd", scale="utc").isot.astype("S27")], "text")
    same([line.places], [erfa_order(recorders)], "order, pyerfa")
    same([line.places], [astropy_order(recorders)], "order, astropy")


def write_files(folder: str, count: int) -> list[str]:
    """Files of three recorders in the forms of examples/pipe, so many readings each, one in twenty milliseconds, and of 200 passes; the words of the command."""
    millis = np.arange(count) * 20
    texts = ct.to_iso8601(2457755.5, millis / 86400000.0).text
    walls = digits_of(7000 + np.random.default_rng(6).integers(0, 1000, count), 3)
    files = {"gps": ("week,millisecond", [np.full(count, b"1930"), 86400000 + millis]), "tai": ("time", [texts]), "utc": ("time", [texts])}
    for name, (head, columns) in files.items():
        pathlib.Path(folder, name).write_bytes(f"{head},wall_mm\n".encode() + csv_of([*columns, walls]))
    marks = ct.to_iso8601(2457755.5, np.linspace(0.0, millis[-1] / 86400000.0, 200)).text
    pathlib.Path(folder, "passes").write_bytes(b"time,metres\n" + csv_of([marks, np.arange(200) * 250]))
    return [f"{name}={folder}/{name}" for name in (*files, "passes")]


def placed(folder: str, words: list[str]) -> None:
    """The command `place`, to a file."""
    here = {**os.environ, "PYTHONPATH": str(pathlib.Path(__file__).resolve().parent)}
    subprocess.run([sys.executable, "-m", "celestial_time", "place", *words, "-o", f"{folder}/out"], check=True, stderr=subprocess.DEVNULL, env=here)


def rows(count: int, folder: str) -> list[Row]:
    """What is measured: the package, pyerfa, astropy."""
    recorders = runs(count)
    line = ct.line_up_recorders(*recorders)
    (tai1, tai2), (utc1, utc2) = recorded("tai", count, 37000.0, 0.3)[1:], recorded("utc", count, 0.0, 0.6)[1:]
    fields = fields_of(utc1, utc2)
    compared(count, recorders, line, tai1, tai2, utc1, utc2, fields)
    texts = ct.to_iso8601(utc1, utc2).text
    counts = line.counts[:2]
    chance = np.random.default_rng(2016).permutation(count)
    any1, any2 = utc1[chance], utc2[chance]
    launch = 2457750.5, 0.0
    begun = Time(*launch, format="jd", scale="tai")
    millis = ct.milliseconds(launch, (tai1, tai2), scale="tai").millis
    same([millis], [erfa_millis(launch, tai1, tai2)], "milliseconds")
    marks = np.linspace(0, 8 * 86400000, 200).astype(int), np.arange(200) * 250.0
    each = count * 2 // 15
    words = write_files(folder, each)
    utc = lambda: Time(utc1, utc2, format="jd", scale="utc")
    tai = lambda scale="tai": Time(tai1, tai2, format="jd", scale=scale)
    return [
        ("UTC to TAI", lambda: ct.utctai(utc1, utc2), lambda: erfa.utctai(utc1, utc2), lambda: utc().tai.jd2),
        ("TAI to UTC", lambda: ct.taiutc(tai1, tai2), lambda: erfa.taiutc(tai1, tai2), lambda: tai().utc.jd2),
        ("TAI to TT", lambda: ct.taitt(tai1, tai2), lambda: erfa.taitt(tai1, tai2), lambda: tai().tt.jd2),
        ("TT to TCG", lambda: ct.tttcg(tai1, tai2), lambda: erfa.tttcg(tai1, tai2), lambda: tai("tt").tcg.jd2),
        ("TCB to TDB", lambda: ct.tcbtdb(tai1, tai2), lambda: erfa.tcbtdb(tai1, tai2), lambda: tai("tcb").tdb.jd2),
        ("TT to TDB, one offset", lambda: ct.tttdb(tai1, tai2, DTR), lambda: erfa.tttdb(tai1, tai2, DTR), None),
        ("UT1 to TAI, an offset each", lambda: ct.ut1tai(tai1, tai2, tai2), lambda: erfa.ut1tai(tai1, tai2, tai2), None),
        ("UTC to UT1", lambda: ct.utcut1(utc1, utc2, DUT1), lambda: erfa.utcut1(utc1, utc2, DUT1), lambda: given_dut1(utc()).ut1.jd2),
        ("UT1 to UTC", lambda: ct.ut1utc(utc1, utc2, DUT1), lambda: erfa.ut1utc(utc1, utc2, DUT1), lambda: given_dut1(tai("ut1")).utc.jd2),
        ("calendar date", lambda: ct.jd2cal(utc1, utc2), lambda: erfa.jd2cal(utc1, utc2), lambda: utc().ymdhms),
        ("UTC of calendar fields", lambda: ct.dtf2d("utc", *fields), lambda: erfa.dtf2d("UTC", *fields), None),
        ("UTC text, written", lambda: ct.to_iso8601(utc1, utc2), lambda: erfa_texts(utc1, utc2), lambda: utc().isot),
        ("UTC to TAI, in random order", lambda: ct.utctai(any1, any2), lambda: erfa.utctai(any1, any2), None),
        ("UTC text, in random order", lambda: ct.to_iso8601(any1, any2), lambda: erfa_texts(any1, any2), None),
        ("UTC text, read", lambda: ct.dates_of_texts(texts), None, lambda: Time(texts, format="isot", scale="utc").jd2),
        ("milliseconds since a launch", lambda: ct.milliseconds(launch, (tai1, tai2), scale="tai"), lambda: erfa_millis(launch, tai1, tai2), lambda: (tai() - begun).sec),
        ("places between 200 passes", lambda: ct.place(millis, marks), lambda: np.interp(millis, *marks), None),
        ("three runs put in order", lambda: ct.line_up(line.jd1, line.jd2, counts), None, lambda: Time(line.jd1, line.jd2, format="jd", scale="tai").argsort()),
        ("three recorders, to TAI and in order", lambda: ct.line_up_recorders(*recorders), lambda: erfa_order(recorders), lambda: astropy_order(recorders)),
        (f"`place`, 3 x {each:,} readings, CSV to CSV", lambda: placed(folder, words), None, None),
    ]


def given_dut1(time: Time) -> Time:
    """With UT1-UTC lent, so that astropy looks none up."""
    time.delta_ut1_utc = DUT1
    return time


def erfa_texts(utc1: Any, utc2: Any) -> Any:
    """ERFA's fields; it writes no text, so this is what comes before one."""
    return erfa.d2dtf("UTC", 3, utc1, utc2)


def erfa_millis(launch: tuple[float, float], tai1: Any, tai2: Any) -> Any:
    """By numpy: parts taken off each other first, then rounded once."""
    return np.floor(((tai1 - launch[0]) + (tai2 - launch[1])) * 86400000.0 + 0.5).astype("<i8")


def erfa_order(recorders: list[ct.Run]) -> Any:
    """By pyerfa and numpy: GPS by 19 s, UTC by ERFA, then days and parts of days, so that a sort by both is an order in time to the last place of the part."""
    gps, tai, utc = recorders
    converted = erfa.utctai(utc.jd1, utc.jd2)
    jd1 = np.concatenate([gps.jd1, tai.jd1, converted[0]])
    jd2 = np.concatenate([gps.jd2 + 19.0 / 86400.0, tai.jd2, converted[1]])
    day = np.round(jd1 + jd2)
    return np.lexsort(((jd1 - day) + jd2, day))


def astropy_order(recorders: list[ct.Run]) -> Any:
    """By astropy, which has no scale for GPS: 19 s are added to its parts."""
    gps, tai, utc = recorders
    converted = Time(utc.jd1, utc.jd2, format="jd", scale="utc").tai
    jd1 = np.concatenate([gps.jd1, tai.jd1, converted.jd1])
    jd2 = np.concatenate([gps.jd2 + 19.0 / 86400.0, tai.jd2, converted.jd2])
    return Time(jd1, jd2, format="jd", scale="tai").argsort()


def main() -> int:
    words = argparse.ArgumentParser(description=__doc__, formatter_class=argparse.RawDescriptionHelpFormatter)
    words.add_argument("-n", type=int, default=9_000_000, help="stamps")
    words.add_argument("-r", type=int, default=7, help="turns")
    words.add_argument("-w", action="store_true", help="put the table into docs/generated/speed.md")
    words.add_argument("row", nargs="*", help="only the rows that begin so")
    asked = words.parse_args()
    if asked.row and asked.w:
        words.error("-w puts a whole table into docs/generated/speed.md")
    warnings.simplefilter("ignore")
    count = asked.n // 3 * 3
    said = [f"| {count:,} stamps | package, s | pyerfa, s | astropy, s |", "|---|--:|--:|--:|"]
    print(*said, sep="\n")
    behind = []
    with tempfile.TemporaryDirectory() as folder:
        for name, *calls in rows(count, folder):
            if asked.row and not name.startswith(tuple(asked.row)):
                continue
            times = least(calls, asked.r)
            said.append(f"| {name} | " + " | ".join("-" if one is None else f"{one:.3f}" for one in times) + " |")
            print(said[-1], flush=True)
            others = [one for one in times[1:] if one is not None]
            if others and times[0] is not None and times[0] > min(others):
                behind.append(f"{name}: {times[0] / min(others):.2f} times the faster of the others")
    commit = subprocess.run(["git", "-C", os.path.dirname(os.path.abspath(__file__)), "log", "-1", "--format=%h"], capture_output=True, text=True).stdout.strip()
    versions = f"Python {sys.version.split()[0]}, numpy {np.__version__}, pyerfa {erfa.__version__}, astropy {astropy.__version__}"
    said += ["", f"{versions}, of commit {commit or 'none'}."]
    said += ["The package is ahead in each row." if not behind else "Behind in: " + "; ".join(behind) + "."]
    print(*said[-3:], sep="\n")
    if asked.w:
        text = SPEED.read_text()
        SPEED.write_text(text[: text.index(BEGIN) + len(BEGIN)] + "\n" + "\n".join(said) + "\n" + text[text.index(END) :])
    return 0


if __name__ == "__main__":
    sys.exit(main())
