#!/usr/bin/env python3
"""The list leap_rows.txt for the tests.

In Python: ROWS, a (year, month, seconds, start, rate) of text for each row; WHOLE, a (year, month, seconds) for each row from 1972 on;
LEAP_DAYS, the (year, month, day) before each of those but the first; LAST_MONTH, counted from year 0, and LAST_SECONDS of the last row.
For C: tests/leap_rows.py > tests/leap_rows.h
"""
import datetime
import pathlib

ROWS = []
for line in (pathlib.Path(__file__).resolve().parent / "leap_rows.txt").read_text().split("\n"):
    if line and not line.startswith("#"):
        month, *rest = line.split()
        ROWS.append((int(month[:4]), int(month[5:]), *rest, *["0"] * (3 - len(rest))))
WHOLE = [(y, m, int(s)) for y, m, s, _, rate in ROWS if rate == "0"]
EVES = [datetime.date(y, m, 1) - datetime.timedelta(1) for y, m, *_ in ROWS]
LEAP_DAYS = [(d.year, d.month, d.day) for d in EVES[len(ROWS) - len(WHOLE) + 1 :]]
LAST_MONTH = 12 * ROWS[-1][0] + ROWS[-1][1] - 1
LAST_SECONDS = WHOLE[-1][2]


def header():
    """The list as a header: counts, and lists between braces, some to a line."""

    def braces(items, each):
        lines = [" ".join(items[i : i + each]) for i in range(0, len(items), each)]
        return " \\\n    ".join(["{", *lines]) + " \\\n}"

    mjds = [datetime.date(y, m, 1).toordinal() - 678576 for y, m, *_ in ROWS]
    return "\n".join(
        [
            "/* Made from leap_rows.txt by leap_rows.py; tests/leap_row/run holds it against them. */",
            f"enum {{ FIXED_ROWS = {len(ROWS)}, LAST_MONTH = {LAST_MONTH}, LAST_SECONDS = {LAST_SECONDS} }};",
            "/* the first days of the rows by MJD and by date, and the days before them */",
            "#define LEAP_ROW_MJDS " + braces([f"{n}," for n in mjds], 12),
            "#define LEAP_ROW_STARTS " + braces([f"{{{y}, {m}, 1}}," for y, m, *_ in ROWS], 6),
            "#define LEAP_ROW_EVES " + braces([f"{{{d.year}, {d.month}, {d.day}}}," for d in EVES], 5),
            "",
        ]
    )


if __name__ == "__main__":
    print(header(), end="")
