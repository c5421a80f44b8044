"""Blocks read and written, listings, and the commands for the shell."""
import io
import itertools
import os
import pathlib
import pickle
import re
import signal
import struct
import subprocess
import sys
import tempfile
import threading
import unittest

import numpy as np

import celestial_time as ct
import singles
from celestial_time import lineup
from celestial_time.lineup import listed_places, read_recorder

ROOT = pathlib.Path(__file__).resolve().parents[2]
SAMPLE = ROOT / "examples" / "three_stamps.block"


def run(*words, given=b""):
    """python3 -m celestial_time with these words."""
    environment = {**os.environ, "PYTHONPATH": str(ROOT / "python")}
    return subprocess.run([sys.executable, "-m", "celestial_time", *map(str, words)], input=given, capture_output=True, env=environment)


class Blocks(unittest.TestCase):
    def setUp(self):
        self.rng = np.random.default_rng(3)
        self.folder = tempfile.TemporaryDirectory()
        self.at = pathlib.Path(self.folder.name)

    def tearDown(self):
        self.folder.cleanup()

    def stamps(self, count):
        """Any bits, NaNs of every kind among them."""
        return [self.rng.integers(0, 2**64, count, np.uint64).view(np.float64) for _ in range(2)]

    def test_there_and_back(self):
        for count in (0, 1, 3999, 4000, 4001, 10000):
            jd1, jd2 = self.stamps(count)
            for size in (1, 7, 4000) if count < 5000 else (4000,):
                blocks = ct.write_blocks(self.at / "run", jd1, jd2, size=size)
                self.assertEqual(blocks, max(1, -(-count // size)))
                for source in (self.at / "run", str(self.at / "run"), (self.at / "run").read_bytes(), memoryview((self.at / "run").read_bytes())):
                    read = ct.read_blocks(source)
                    self.assertEqual((read.jd1.tobytes(), read.jd2.tobytes(), int(read.sizes.sum())), (jd1.tobytes(), jd2.tobytes(), count))
                file = io.BytesIO()
                ct.write_blocks(file, jd1.astype(">f8"), np.repeat(jd2, 2)[::2], size=size)
                self.assertEqual(len(file.getvalue()), len((self.at / "run").read_bytes()))
        self.assertEqual(os.listdir(self.at), ["run"])

    def test_one_block_is_not_copied(self):
        held = ct.block_of([2451545.0], [0.5])
        self.assertTrue(np.shares_memory(ct.read_blocks(held).jd1, np.frombuffer(held, "u1")))

    def test_read_only(self):
        """One block of bytes or of a mapped file is read-only, one of a bytearray or more than one block may be written."""
        held = ct.block_of([2451545.0], [0.5])
        (self.at / "run").write_bytes(held)
        for source, due in ((held, False), (self.at / "run", False), (bytearray(held), True), (held * 2, True)):
            read = ct.read_blocks(source)
            self.assertEqual((read.jd1.flags.writeable, read.jd2.flags.writeable), (due, due))

    def test_open_files(self):
        held = ct.block_of([2451545.0], [0.5])
        (self.at / "run").write_bytes(b"x" + held)
        with open(self.at / "run", "rb") as file, open(self.at / "run", "rb", buffering=0) as raw:
            file.read(1), raw.read(1)
            self.assertEqual(ct.read_blocks(file).jd2.tolist(), [0.5])
            self.assertEqual(ct.listing(raw), ct.listing(held))
        self.assertEqual(len(list(ct.listings(io.BytesIO(held * 2)))), 2)
        self.assertEqual(len(ct.read_blocks(io.BytesIO()).jd1), 0)
        for wrong in (io.StringIO("a"), 5, None, [1, 2], 2.5):
            with self.assertRaises(TypeError) as raised:
                ct.read_blocks(wrong)
            self.assertIn("bytes", str(raised.exception))
        for wrong in (b"run", 5, None, bytearray(b"run")):
            with self.assertRaises(TypeError) as raised:
                ct.write_blocks(wrong, [1.0], [2.0])
            self.assertIn("target is a ", str(raised.exception))

    def test_mode_is_kept(self):
        for mode in (0o600, 0o640, 0o755, 0o666):
            (self.at / "run").write_bytes(b"before")
            (self.at / "run").chmod(mode)
            ct.write_blocks(self.at / "run", [1.0], [2.0])
            self.assertEqual((self.at / "run").stat().st_mode & 0o7777, mode)
        (self.at / "other").write_bytes(b"")
        ct.write_blocks(self.at / "new", [1.0], [2.0])
        self.assertEqual((self.at / "new").stat().st_mode, (self.at / "other").stat().st_mode)

    def test_odd_place(self):
        held = b"x" + ct.block_of([2451545.0, 2.0], [0.5, 3.0])
        read = ct.read_blocks(memoryview(held)[1:])
        self.assertEqual(ct.gpstai(read.jd1, read.jd2).jd2.tolist(), ct.gpstai([2451545.0, 2.0], [0.5, 3.0]).jd2.tolist())
        self.assertEqual(ct.line_up_recorders(("tai", read.jd1, read.jd2)).numbers.tolist(), [17, 0])

    def test_damage(self):
        """A refused block is told with its place, and the stamps before it are not lost."""
        jd1, jd2 = self.stamps(10)
        good = ct.block_of(jd1, jd2)
        for number, damaged in ((14, b"\0"), (14, good[:-1]), (12, struct.pack("<2I", 1, 2) + bytes(16)), (13, struct.pack("<2I", 4001, 4001) + bytes(16 * 4001)),
                                (14, struct.pack("<2I", 4000, 4000)), (12, struct.pack("<2I", 0xFFFFFFFF, 0))):
            for before in (0, 1, 3):
                with self.assertRaises(ct.BlockRefused) as raised:
                    ct.read_blocks(good * before + damaged)
                refused = raised.exception
                self.assertEqual((refused.number, refused.block, refused.at), (number, before, before * len(good)))
                self.assertEqual(refused.before.jd1.tobytes(), jd1.tobytes() * before)
                again = pickle.loads(pickle.dumps(refused))
                self.assertEqual((again.number, again.block, again.at, str(again)), (number, before, refused.at, str(refused)))
        self.assertEqual(len(ct.read_blocks(b"").jd1), 0)
        with self.assertRaises(FileNotFoundError):
            ct.read_blocks(self.at / "none")

    def test_wrong(self):
        """What can't be written leaves the file as it was."""
        ct.write_blocks(self.at / "run", [1.0], [2.0])
        kept = (self.at / "run").read_bytes()
        for error, arguments, keywords in ((ValueError, ([1.0], []), {}), (ValueError, ([1.0], [2.0]), {"size": 0}), (TypeError, (["a"], [2.0]), {}),
                                           (ct.Refused, (np.zeros(5000), np.zeros(5000)), {"size": 5000}), (ValueError, ([[1.0]], [[2.0]]), {})):
            with self.assertRaises(error):
                ct.write_blocks(self.at / "run", *arguments, **keywords)
        self.assertEqual(((self.at / "run").read_bytes(), os.listdir(self.at)), (kept, ["run"]))
        with self.assertRaises(ct.Refused) as raised:
            ct.block_of([1.0, 2.0], [1.0])
        self.assertEqual(raised.exception.number, 12)

    def test_pipes_and_links(self):
        """A pipe is read and written as it is, and a link stays one."""
        read, write = os.pipe()
        with open(write, "wb") as file:
            file.write(ct.block_of([2451545.0], [0.5]))
        with open(read, "rb"):
            self.assertEqual(ct.read_blocks(f"/dev/fd/{read}").jd1.tolist(), [2451545.0])
        read, write = os.pipe()
        with open(write, "wb"):
            ct.write_blocks(f"/dev/fd/{write}", [2451545.0], [0.5])
        with open(read, "rb") as file:
            self.assertEqual(ct.read_blocks(file.read()).jd2.tolist(), [0.5])
        (self.at / "file").write_bytes(b"before")
        (self.at / "link").symlink_to(self.at / "file")
        ct.write_blocks(self.at / "link", [1.0], [2.0])
        self.assertTrue((self.at / "link").is_symlink())
        self.assertEqual(ct.read_blocks(self.at / "file").jd1.tolist(), [1.0])
        with self.assertRaises(OSError):
            ct.write_blocks(self.at / "no" / "folder", [1.0], [2.0])
        with self.assertRaises(OSError):
            ct.read_blocks(self.at)
        self.assertEqual(run("listing", self.at).returncode, 2)

    def test_listing(self):
        """As the listing program lists, where it is built."""
        jd1, jd2 = singles.dates(self.rng, 3000)
        block = ct.block_of(jd1, jd2)
        listed = ct.listing(block).decode().splitlines()
        texts = ct.to_iso8601(jd1, jd2, form="expanded")
        self.assertEqual(len(listed), 3001)
        self.assertEqual(listed[0], f"utc listing 3000 refused {np.count_nonzero(texts.numbers)}")
        for i, line in enumerate(listed[1:]):
            if texts.numbers[i]:
                self.assertEqual(line, f"{i} refused {texts.numbers[i]}")
            else:
                self.assertEqual(line, f"{i} {texts.text[i].decode()}")
        program = ROOT / "target" / "bin" / "utc_listing"
        if not program.exists():
            self.skipTest("no target/bin/utc_listing here: the listing is not held against it")
        for given in (block, block[:-1], b"", bytes(8), SAMPLE.read_bytes()):
            self.assertEqual(ct.listing(given), subprocess.run([program], input=given, capture_output=True).stdout)

    def test_reason_listing(self):
        """As the second listing program lists, where it is built; and by the single sentences."""
        block = ct.block_of([2451545.0, float("inf"), -31740.0], [0.0, float("-inf"), 0.0])
        told = ct.reason_listing(block).decode().splitlines()
        self.assertEqual(told[:2], ct.listing(block).decode().splitlines()[:2])
        self.assertEqual(told[2:], [f"1 {ct.reason(6, jd1=float('inf'), jd2=float('-inf'))}", f"2 {ct.reason(1, year=-4800, month=1, day=1)}"])
        program = ROOT / "target" / "bin" / "reason_listing"
        if not program.exists():
            self.skipTest("no target/bin/reason_listing here: the listing in sentences is not held against it")
        for given in (block, block[:-1], b"", bytes(8), bytes(100000), SAMPLE.read_bytes()):
            self.assertEqual(ct.reason_listing(given), subprocess.run([program], input=given, capture_output=True).stdout)

    def test_command_listing(self):
        done = run("listing", SAMPLE)
        self.assertEqual((done.returncode, done.stdout), (0, b"utc listing 3 refused 1\n0 2000-01-01T12:00:00.000\n1 2000-01-01T00:00:00.000\n2 refused 6\n"))
        (self.at / "two").write_bytes(SAMPLE.read_bytes() * 2 + b"end")
        twice = run("listing", self.at / "two")
        self.assertEqual((twice.returncode, twice.stdout), (1, done.stdout * 2 + b"block refused 14\n"))
        self.assertEqual(run("listing", "-", given=SAMPLE.read_bytes()).stdout, done.stdout)
        for words in ([], ["listing"], ["listing", self.at / "none"], ["listing", "a", "b"], ["list"], ["lineup"], ["lineup", "gps="], ["lineup", "gps=a", "gps=b"],
                      ["lineup", "table=a"], ["lineup", f"gps={self.at}/none"], ["lineup", f"gps={SAMPLE}", f"table={self.at}/none"]):
            done = run(*words)
            self.assertEqual((done.returncode, done.stdout), (2, b""), words)
            self.assertGreater(len(done.stderr), 20)
            self.assertNotIn(b"Traceback", done.stderr)
        self.assertEqual(run("--help").returncode, 0)

    def test_command_lineup(self):
        """As the program line_up lists, where it is built; and what a small line must be."""
        leap = 2457753.5
        ct.write_blocks(self.at / "gps", [2457754.5, np.nan, 2457754.5], [17.0 / 86400, 0.0, 18.5 / 86400], size=2)
        ct.write_blocks(self.at / "tai", [2457754.5, 2457754.5], [36.75 / 86400, 36.25 / 86400])
        ct.write_blocks(self.at / "utc", [np.inf, leap, leap, leap + 1], [0.0, 86400.0 / 86401, 86400.5 / 86401, 0.0])
        done = run("lineup", f"utc={self.at}/utc", f"gps={self.at}/gps", f"tai={self.at}/tai")
        self.assertEqual(done.stderr, b"")
        self.assertEqual(done.returncode, 0)
        self.assertEqual(done.stdout.decode().splitlines(), [
            "line up 3 runs", "gps 3 refused 1 left out 0", "tai 2 refused 0 left out 1", "utc 4 refused 1 left out 0",
            "tai 0 refused 17", "utc 0 refused 6", "gps 0 2016-12-31T23:59:60.000", "gps 1 refused 9", "utc 1 2016-12-31T23:59:60.000",
            "tai 1 2016-12-31T23:59:60.250", "utc 2 2016-12-31T23:59:60.500", "utc 3 2017-01-01T00:00:00.000", "gps 2 2017-01-01T00:00:00.500", "lined up 6 without text 0"])
        (self.at / "short").write_bytes((self.at / "gps").read_bytes() + b"end")
        (self.at / "rows").write_text("# made up\n2027-01 38\n\n")
        (self.at / "bad_rows").write_text("2016-01 38\n")
        (self.at / "no_rows").write_text("2027 38\n")
        (self.at / "empty").write_bytes(b"")
        jd1, jd2 = singles.dates(self.rng, 3000)
        order = np.argsort(np.nan_to_num(jd1))
        ct.write_blocks(self.at / "wild", jd1[order], jd2[order], size=100)
        jd1, jd2 = (2461000.5 + np.arange(5000) / 10, np.zeros(5000))
        ct.write_blocks(self.at / "late", jd1, jd2)
        program = ROOT / "target" / "programs" / "line_up"
        tries = [(["gps=short", "utc=utc"], 1), (["gps=wild", "tai=wild", "utc=wild"], 0), (["utc=late", "table=rows", "tai=late"], 0), (["utc=late", "table=rows"], 0), (["utc=late"], 0),
                 (["utc=late", "table=bad_rows"], 1), (["utc=late", "table=no_rows"], 1), (["gps=empty", "utc=utc"], 0), (["tai=wild"], 0), (["utc=empty"], 0), (["gps=gps"], 0)]
        for words, status in tries:
            given = [word.replace("=", f"={self.at}/") for word in words]
            done = run("lineup", *given)
            self.assertEqual((done.returncode, b"Traceback" in done.stderr), (status, False), words)
            if program.exists():
                due = subprocess.run([program, *given], capture_output=True)
                self.assertTrue((done.returncode, done.stdout) == (due.returncode, due.stdout), (words, done.returncode, done.stdout[:300], due.returncode, due.stdout[:300]))
        if not program.exists():
            self.skipTest("no target/programs/line_up here: the command is not held against it")

    def test_lined_up(self):
        """A line of recorders is listed as their files are; in another order those that are equal, or have none before them, go by it. Two of one scale are not."""
        held = {scale: ct.block_of(*(part[self.rng.random(40).argsort()] for part in singles.dates(self.rng, 40))) + b"end"[:k] for k, scale in enumerate(("gps", "tai", "utc"))}
        due = lineup.line_up_runs(held)
        for order in itertools.permutations(held):
            recorders = tuple(read_recorder(scale, held[scale]) for scale in order)
            line = lineup.lined_up(lineup.line_up_files(*recorders), recorders)
            listed, wanted = b"".join(line.listing()), b"".join(due.listing())
            self.assertEqual((sorted(listed.split(b"\n")), line.summary(), line.look()), (sorted(wanted.split(b"\n")), due.summary(), due.look()))
            self.assertTrue(listed == wanted or order != lineup.RECORDERS)
        twice = (read_recorder("gps", held["gps"]),) * 2
        with self.assertRaises(ValueError):
            lineup.lined_up(lineup.line_up_files(*twice), twice)
        for files in ({}, {"tt": b""}):
            with self.assertRaises(ValueError):
                lineup.line_up_runs(files)

    def test_lined_up_ways(self):
        """The library's listing has the lines of the command's but for the head, where it counts the stamps that are not finite apart; the rows and the refused are those lines."""
        held = {scale: ct.block_of(*(part[self.rng.random(40).argsort()] for part in singles.dates(self.rng, 40))) for scale in lineup.RECORDERS}
        line, recorders = lineup.line_up_runs(held), tuple(read_recorder(*one) for one in held.items())
        due = b"".join(lineup.listing_of(lineup.line_up_files(*recorders), recorders)).decode().splitlines()
        ways = {way: b"".join(line.listing(way)).decode().splitlines() for way in ("", *lineup.WAYS)}
        counts = [re.fullmatch(r"(\w+ \d+) not finite (\d+) refused (\d+) left out (\d+)", said).groups() for said in ways[""][1:4]]
        self.assertEqual([f"{run} refused {int(dead) + int(refused)} left out {left}" for run, dead, refused, left in counts], due[1:4])
        self.assertEqual((ways[""][0], ways[""][4:]), (due[0], due[4:]))
        self.assertEqual(ways["--refused"], [one for one in due[4:] if " refused " in one])
        self.assertEqual(ways["--summary"], [*ways[""][:4], *line.summary().decode().splitlines(), due[-1]])
        told = [one.split() for one in due[4:-1]]
        rows = [[name, index, "" if len(what) > 1 else what[0], what[-1] if what[0] == "refused" else "0"] for name, index, *what in told]
        self.assertEqual([row.split(",")[:4] for row in ways["--csv"]], [["recorder", "index", "utc", "number"], *rows])
        tai = [["", ""] if line.numbers[at] not in (0, 17) else [line.jd1[at], line.jd2[at]] for at in line.order]
        self.assertEqual([[part and float(part) for part in row.split(",")[4:]] for row in ways["--csv"][1:]], tai)

    def test_listed_places(self):
        """Against a walk stamp by stamp."""
        for _ in range(30):
            counts = self.rng.integers(0, 12, 3).tolist()
            jd1 = self.rng.integers(0, 6, sum(counts)).astype(float)
            jd1[self.rng.random(sum(counts)) < 0.2] = np.nan
            line = ct.line_up(jd1, np.zeros(sum(counts)), counts[:2])
            due, starts = [], np.cumsum([0, *counts])

            def behind(place, end):
                while place < end and line.numbers[place]:
                    due.append(place)
                    place += 1

            for k in range(3):
                behind(starts[k], starts[k + 1])
            for place, k in zip(line.places.tolist(), line.run.tolist()):
                due.append(place)
                behind(place + 1, starts[k + 1])
            self.assertEqual(listed_places(line).tolist(), due)

    def test_pipe_that_closes(self):
        ct.write_blocks(self.at / "run", np.full(200000, 2451545.0), np.zeros(200000))
        environment = {**os.environ, "PYTHONPATH": str(ROOT / "python")}
        words = [sys.executable, "-m", "celestial_time", "lineup", f"tai={self.at}/run"]
        with subprocess.Popen(words, stdout=subprocess.PIPE, stderr=subprocess.PIPE, env=environment) as program:
            program.stdout.readline()
            program.stdout.close()
            said = program.stderr.read()
        self.assertEqual((said, program.returncode), (b"", -signal.SIGPIPE))

    def test_interrupted(self):
        """Ctrl-C ends a command by its signal, without a word, as the shell expects it; here while it waits for a pipe."""
        os.mkfifo(self.at / "pipe")
        # A shell starts what runs in its background with the signal ignored, and a program hands that on.
        self.addCleanup(signal.signal, signal.SIGINT, signal.signal(signal.SIGINT, signal.default_int_handler))
        environment = {**os.environ, "PYTHONPATH": str(ROOT / "python")}
        for words in (["lineup", f"tai={self.at}/pipe"], ["listing", f"{self.at}/pipe"]):
            with subprocess.Popen([sys.executable, "-m", "celestial_time", *words], stdout=subprocess.PIPE, stderr=subprocess.PIPE, env=environment) as program:
                with open(self.at / "pipe", "wb"):  # opens when the command has opened it to read
                    program.send_signal(signal.SIGINT)
                    stop = threading.Timer(60, program.kill)
                    stop.start()
                    self.assertEqual((*program.communicate(), program.returncode), (b"", b"", -signal.SIGINT))
                    stop.cancel()

    def test_help_and_version(self):
        due = run("--help")
        self.assertEqual((due.returncode, due.stderr), (0, b""))
        for words in (["-h"], ["help"], ["lineup", "--help"], ["lineup", "-h"], ["listing", "--help"]):
            done = run(*words)
            self.assertEqual((done.returncode, done.stdout, done.stderr), (0, due.stdout, b""), words)
        for words in (["--version"], ["lineup", "--version"]):
            self.assertEqual(run(*words).stdout.decode(), f"celestial_time {ct.__version__}\n")
        for words in (["--help", "lineup", "more"], ["lineup", "--help", "gps=a"], ["--versions"]):
            self.assertEqual(run(*words).returncode, 2)

    def test_listing_by_rows(self):
        """A listing by announced rows, as the function lists by them; before the file or behind it."""
        rows = ct.Table([(singles.Y, 1, singles.S + 1)])
        utc = ct.dtf2d("utc", singles.Y - 1, 12, 31, 23, 59, [59.5, 60.5], table=rows)
        ct.write_blocks(self.at / "run", utc.jd1, utc.jd2)
        (self.at / "rows").write_text(f"{singles.Y}-01 {singles.S + 1}\n")
        (self.at / "bad").write_text(f"{singles.Y}-01 {singles.S + 3}\n")
        for words in ([f"table={self.at}/rows", self.at / "run"], [self.at / "run", f"table={self.at}/rows"]):
            done = run("listing", *words)
            self.assertEqual((done.returncode, done.stdout, done.stderr), (0, ct.listing(self.at / "run", table=rows), b""))
            self.assertIn(b"23:59:60.500", done.stdout)
        self.assertNotIn(b":60.", run("listing", self.at / "run").stdout)
        self.assertEqual((run("listing", self.at / "run", f"table={self.at}/bad").returncode, run("listing", self.at / "run", f"table={self.at}/bad").stdout), (1, b""))
        for words in (["table="], [f"table={self.at}/none"], [f"table={self.at}/rows"] * 2):
            self.assertEqual(run("listing", self.at / "run", *words).returncode, 2)

    def test_recorder_with_damage(self):
        recorder = read_recorder("gps", ct.block_of([2451545.0], [0.0]) + b"end")
        self.assertEqual((len(recorder.stamps.jd1), recorder.refused.number), (1, 14))


if __name__ == "__main__":
    unittest.main()
