"""python/examples/campaign.py on a real cluster of two workers, one of which is ended in the middle; and on one that it starts itself."""
import csv
import importlib.util
import io
import os
import pathlib
import shutil
import signal
import subprocess
import sys
import tempfile
import time
import unittest

import numpy as np

import celestial_time as ct

ROOT = pathlib.Path(__file__).resolve().parents[2]
PIPE = ROOT / "python" / "examples" / "pipe"
PROGRAM = ROOT / "python" / "examples" / "campaign.py"
HAS_DASK = all(importlib.util.find_spec(name) for name in ("dask", "distributed"))
CLUSTER = """if __name__ == "__main__":
    import distributed, sys
    with distributed.LocalCluster(n_workers=2, threads_per_worker=1, dashboard_address=None) as cluster:
        print(cluster.scheduler_address, *(worker.pid for worker in cluster.workers.values()), flush=True)
        sys.stdin.read()
"""
HERE = {**os.environ, "PYTHONPATH": str(ROOT / "python"), "PYTHONWARNINGS": "ignore"}


@unittest.skipUnless(HAS_DASK, "no dask and distributed here: the campaign is not run")
class Campaign(unittest.TestCase):
    def setUp(self):
        self.folder = tempfile.TemporaryDirectory()
        self.at = pathlib.Path(self.folder.name)
        self.runs, self.out = self.at / "runs", self.at / "out"

    def tearDown(self):
        self.folder.cleanup()

    def make(self, count, times):
        """Runs of the example's files, their rows repeated, each with other places of its markers; the last has no passes, and those before fall."""
        for place in range(count):
            run = self.runs / f"run{place:03d}"
            run.mkdir(parents=True)
            for scale in ("gps", "utc"):
                head, *rows = (PIPE / f"{scale}.csv").read_text().splitlines()
                (run / f"{scale}.csv").write_text("\n".join([head, *rows * times]) + "\n")
            head, *rows = (PIPE / "passes.csv").read_text().splitlines()
            cells = [row.split(",") for row in rows]
            (run / "passes.csv").write_text("\n".join([head, *(f"{text},{float(metres) + place}" for text, metres in cells)]) + "\n")
        (self.runs / f"run{count - 1:03d}" / "passes.csv").unlink()
        (self.runs / f"run{count - 2:03d}" / "passes.csv").write_text("\n".join([head, *rows[::-1]]) + "\n")

    def check(self, count, times, done):
        """Each run but the two is placed as place_files has it, and those two are told."""
        self.assertEqual(done.returncode, 1, done.stderr)
        summary = list(csv.DictReader(io.StringIO((self.out / "summary.csv").read_text())))
        self.assertEqual([row["run"] for row in summary], [f"run{place:03d}" for place in range(count)])
        for place, row in enumerate(summary):
            if place >= count - 2:
                self.assertEqual((row["status"], row["placed"]), ("failed", "0"))
                self.assertIn("passes.csv" if place == count - 1 else "refused 24", row["message"])
                self.assertIn(f"campaign: {row['run']} failed: ", done.stderr)
            else:
                counts = [int(row[name]) for name in ("readings", "placed", "not_finite", "outside")]
                self.assertEqual((row["status"], counts), ("placed", [700 * times, 661 * times, 4 * times, 35 * times]))
        self.assertIn(f"[{'#' * 40}] {count} of {count} runs, 2 failed", done.stderr)
        some = self.runs / "run001"
        due = b"".join(ct.place_files({scale: some / f"{scale}.csv" for scale in ("gps", "utc")}, some / "passes.csv").csv())
        self.assertEqual((self.out / "run001.csv").read_bytes(), due)
        self.assertEqual(len(list(self.out.iterdir())), count - 2 + 1)

    def test_worker_that_ends(self):
        """On a cluster that is named: while the runs are placed one of its two workers is killed, and all is placed nevertheless."""
        count, times = 60, 30
        self.make(count, times)
        pipe = subprocess.PIPE
        cluster = subprocess.Popen([sys.executable, "-c", CLUSTER], stdin=pipe, stdout=pipe, stderr=subprocess.DEVNULL, text=True, env=HERE, cwd=self.at)
        try:
            address, *workers = cluster.stdout.readline().split()
            self.assertEqual(len(workers), 2)
            one = subprocess.Popen([sys.executable, PROGRAM, self.runs, self.out, "-c", address], stderr=subprocess.PIPE, text=True, env=HERE, cwd=self.at)
            until = time.monotonic() + 120
            while time.monotonic() < until and one.poll() is None and len(list(self.out.glob("run*.csv"))) < 5:
                time.sleep(0.01)
            ended_at = len(list(self.out.glob("run*.csv")))
            os.kill(int(workers[0]), signal.SIGKILL)
            said = one.communicate(timeout=300)[1]
            self.assertTrue(5 <= ended_at < count - 2, f"the worker was ended after {ended_at} of {count} runs")
            for half in self.out.glob("*.new"):  # what the killed one was writing
                half.unlink()
            self.check(count, times, subprocess.CompletedProcess([], one.returncode, "", said))
        finally:
            cluster.communicate(timeout=60)

    def test_own_cluster(self):
        """On one that it starts itself, as CSV and as HDF5; wrong words are told."""
        self.make(5, 1)
        done = subprocess.run([sys.executable, PROGRAM, self.runs, self.out, "-w", "2"], capture_output=True, text=True, env=HERE, cwd=self.at, timeout=200)
        self.check(5, 1, done)
        for wrong in ([self.at / "none", self.out], [self.out, self.out]):
            self.assertEqual(subprocess.run([sys.executable, PROGRAM, *wrong], capture_output=True, env=HERE).returncode, 2)
        if not importlib.util.find_spec("h5py"):
            self.skipTest("no h5py here: the campaign writes no HDF5")
        import h5py

        shutil.rmtree(self.runs / "run004")
        shutil.rmtree(self.runs / "run003")
        done = subprocess.run([sys.executable, PROGRAM, self.runs, self.at / "h5", "-w", "1", "-5"], capture_output=True, text=True, env=HERE, cwd=self.at, timeout=200)
        self.assertEqual(done.returncode, 0, done.stderr)
        run = self.runs / "run002"
        due = ct.place_files({scale: run / f"{scale}.csv" for scale in ("gps", "utc")}, run / "passes.csv").table()
        with h5py.File(self.at / "h5" / "run002.h5", "r") as file:
            self.assertEqual(set(file), set(due))
            self.assertTrue(np.array_equal(file["metres"][...], due["metres"], equal_nan=True))
            self.assertEqual(file["utc"][...].astype(str).tolist(), due["utc"].tolist())

    def test_announced_rows(self):
        """With -t a leap second that the rows announce is read by; without it the run is placed too."""
        run, rows = self.runs / "late", self.at / "rows"
        run.mkdir(parents=True)
        (run / "utc.csv").write_text("time\n2026-12-31T23:59:60.500Z\n2027-01-01T00:00:00.000Z\n")
        (run / "passes.csv").write_text("time,metres\n2026-12-31T23:59:59Z,0\n2027-01-01T00:00:01Z,3\n")
        rows.write_text("2027-01 38\n")
        for words, metres in (([], [",4", "1.500,0"]), (["-t", rows], ["1.500,0", "2.000,0"])):
            done = subprocess.run([sys.executable, PROGRAM, self.runs, self.out, "-w", "1", *words], capture_output=True, text=True, env=HERE, cwd=self.at, timeout=200)
            self.assertEqual(done.returncode, 0, done.stderr)
            self.assertEqual([",".join(row.split(",")[3:5]) for row in (self.out / "late.csv").read_text().splitlines()[1:]], metres)
            told = list(csv.DictReader(io.StringIO((self.out / "summary.csv").read_text())))
            self.assertEqual([(row["status"], row["message"]) for row in told], [("placed", "")])


if __name__ == "__main__":
    unittest.main()
