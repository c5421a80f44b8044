"""python/peers.py: ten jobs, in each of which the package is right; and the table of the README is one that it wrote."""
import importlib.util
import os
import pathlib
import subprocess
import sys
import unittest

ROOT = pathlib.Path(__file__).resolve().parents[2]


class Peers(unittest.TestCase):
    @unittest.skipUnless(all(importlib.util.find_spec(name) for name in ("erfa", "astropy")), "no astropy and pyerfa here: the ten jobs are not run")
    def test_jobs(self):
        done = subprocess.run([sys.executable, ROOT / "python" / "peers.py", "-n", "1000"], capture_output=True, text=True, env={**os.environ, "PYTHONPATH": str(ROOT / "python")})
        self.assertEqual((done.returncode, done.stderr), (0, ""))
        rows = [[cell.strip() for cell in line.strip("|").split("|")] for line in done.stdout.splitlines() if line.startswith("| ")][1:]
        self.assertEqual([row[3] for row in rows], ["right"] * 10)
        self.assertTrue(all(len(row) == 10 and int(row[1]) <= 2 for row in rows))
        told = (ROOT / "python" / "README.md").read_text()
        table = told[told.index("<!-- peers: begin -->") : told.index("<!-- peers: end -->")]
        self.assertEqual([line.split("|")[1].strip() for line in table.splitlines() if line.startswith("| ")][1:], [row[0] for row in rows])


if __name__ == "__main__":
    unittest.main()
