"""A campaign: thousands of runs placed on their pipes, over a cluster of Dask.

    python/python3 python/examples/campaign.py RUNS OUT                     on this machine, by a worker for each processor
    python/python3 python/examples/campaign.py RUNS OUT -c tcp://HOST:8786  on a cluster that is there, whose workers see both folders
        -w WORKERS   so many workers on this machine     -t FILE   announced leap rows     -5   results as HDF5 (needs h5py) and not as CSV

RUNS is a folder with a folder for each run: passes.csv, and gps.csv, tai.csv or utc.csv, as `python3 -m celestial_time place --help` has them. OUT gets a
file for each run, written whole or not at all, and summary.csv: what became of each run, how many readings it has, how many are placed, have a stamp that is
not finite (or missing, or refused), or lie outside the passes. A run that fails is told, there and on standard error, and the others go on; where a worker
ends, its runs are placed by another. Exit status: 0 all runs are placed, 1 some are not, 2 other words.

Needs Debian's python3-dask and python3-distributed. The runs are apart from each other, and so is each run's file: nothing goes through the scheduler but
names and counts.
"""
from __future__ import annotations

import argparse
import csv
import os
import pathlib
import sys
import time
from typing import Iterator, NamedTuple

import distributed
import numpy as np

import celestial_time as ct
from celestial_time.blocks import write_whole
from celestial_time.refusals import OUTSIDE

SCALES = ("gps", "tai", "utc")


class Outcome(NamedTuple):
    """What became of a run: its counts, or what it failed by."""

    run: str
    status: str
    readings: int = 0
    placed: int = 0
    not_finite: int = 0
    outside: int = 0
    seconds: float = 0.0
    message: str = ""


def place_run(folder: str, out: str, table: ct.Table | None, hdf5: bool) -> tuple[int, int, int, int, float]:
    """One run, on a worker: from its files to its file. The counts of its outcome, as a plain tuple: a class of this program does not go over the wire."""
    begun, run = time.perf_counter(), pathlib.Path(folder)
    files = {scale: run / f"{scale}.csv" for scale in SCALES if (run / f"{scale}.csv").exists()}
    if not files:
        raise FileNotFoundError(f"{folder} has none of {', '.join(f'{scale}.csv' for scale in SCALES)}")
    placed = ct.place_files(files, run / "passes.csv", table=table)
    if hdf5:
        write_hdf5(f"{out}/{run.name}.h5", placed)
    else:
        write_whole(f"{out}/{run.name}.csv", placed.csv())
    numbers = np.concatenate([one.numbers for one in placed.places])
    dead = sum(int(np.count_nonzero(~(np.isfinite(one.dates.jd1) & np.isfinite(one.dates.jd2)))) for one in placed.recorders)
    good, outside = (int(np.count_nonzero(numbers == number)) for number in (0, OUTSIDE))
    return len(numbers), good, dead, outside, round(time.perf_counter() - begun, 3)


def write_hdf5(path: str, placed: ct.Placed) -> None:
    """The table as HDF5, a dataset for each column, beside first, so that a worker that ends leaves no half of it."""
    import h5py

    beside = f"{path}.{os.getpid()}.new"
    try:
        with h5py.File(beside, "w") as file:
            for name, column in placed.table().items():
                file.create_dataset(name.replace("/", "_"), data=np.char.encode(column, "utf-8") if column.dtype.kind == "U" else column, compression="gzip")
        os.replace(beside, path)
    finally:
        if os.path.exists(beside):
            os.remove(beside)


def outcomes(client: distributed.Client, folders: list[pathlib.Path], out: pathlib.Path, table: ct.Table | None, hdf5: bool) -> Iterator[Outcome]:
    """The runs' outcomes as they come. Dask hands the runs of a worker that ended to another."""
    waiting = client.map(place_run, list(map(str, folders)), out=str(out), table=table, hdf5=hdf5, pure=False)
    names = {future.key: folder.name for future, folder in zip(waiting, folders)}
    done = distributed.as_completed(waiting)
    del waiting
    for future in done:
        error = future.exception()
        if error is None:
            yield Outcome(names[future.key], "placed", *future.result())
        else:
            yield Outcome(names[future.key], "failed", message=f"{type(error).__name__}: {error}")


class Bar:
    """A progress bar on standard error; where that is no terminal, a line for each tenth."""

    def __init__(self, due: int) -> None:
        self.due, self.done, self.failed, self.shown = due, 0, 0, -1

    def step(self, outcome: Outcome) -> None:
        self.done += 1
        if outcome.status == "failed":
            self.failed += 1
            print(f"{self.end()}campaign: {outcome.run} failed: {outcome.message}", file=sys.stderr)
        tenth = 10 * self.done // self.due
        said = f"[{'#' * (4 * tenth):40}] {self.done} of {self.due} runs, {self.failed} failed"
        if sys.stderr.isatty():
            print(f"\r{said}", end="", file=sys.stderr, flush=True)
        elif tenth > self.shown:
            print(f"campaign: {said}", file=sys.stderr, flush=True)
        self.shown = tenth

    def end(self) -> str:
        """What puts a message on a line of its own."""
        return "\n" if sys.stderr.isatty() and self.shown >= 0 else ""


def campaign(client: distributed.Client, folders: list[pathlib.Path], out: pathlib.Path, table: ct.Table | None, hdf5: bool) -> int:
    """Place all runs, and write the summary in the order of their names. Returns how many failed."""
    bar = Bar(len(folders))
    told = []
    for outcome in outcomes(client, folders, out, table, hdf5):
        told.append(outcome)
        bar.step(outcome)
    print(end=bar.end(), file=sys.stderr)
    with open(out / "summary.csv", "w", newline="", encoding="utf-8") as file:
        write = csv.writer(file, lineterminator="\n")
        write.writerow(Outcome._fields)
        write.writerows(sorted(told))
    return bar.failed


def main() -> int:
    words = argparse.ArgumentParser(description=__doc__, formatter_class=argparse.RawDescriptionHelpFormatter)
    words.add_argument("runs", type=pathlib.Path)
    words.add_argument("out", type=pathlib.Path)
    words.add_argument("-c", metavar="ADDRESS", help="a cluster's scheduler")
    words.add_argument("-w", metavar="WORKERS", type=int, default=os.cpu_count(), help="workers on this machine")
    words.add_argument("-t", metavar="FILE", help="announced leap rows")
    words.add_argument("-5", dest="hdf5", action="store_true", help="results as HDF5")
    asked = words.parse_args()
    if not asked.runs.is_dir():
        words.error(f"{asked.runs} is no folder")
    folders = sorted(path for path in asked.runs.resolve().iterdir() if path.is_dir())
    if not folders:
        words.error(f"{asked.runs} has no folder of a run")
    asked.out.mkdir(parents=True, exist_ok=True)
    table = None if asked.t is None else ct.Table.from_file(asked.t)
    given = folders, asked.out.resolve(), table, asked.hdf5
    if asked.c is not None:
        with distributed.Client(asked.c) as client:
            return min(campaign(client, *given), 1)
    with distributed.LocalCluster(n_workers=asked.w, threads_per_worker=1, dashboard_address=None) as cluster, distributed.Client(cluster) as client:
        return min(campaign(client, *given), 1)


if __name__ == "__main__":
    sys.exit(main())
