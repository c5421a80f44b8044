"""Whole runs: line_up, line_up_recorders, offsets_at_0h, place_ticks, tables, threads."""
import ctypes
import pathlib
import pickle
import struct
import tempfile
import threading
import unittest

import numpy as np

import celestial_time as ct
import singles
from singles import leap_rows


def single_line_up(jd1, jd2, numbers, first, second):
    """ct_line_up by ctypes alone: the code, the places, and the numbers after it."""
    given = [np.ascontiguousarray(jd1, "<f8").tobytes(), np.ascontiguousarray(jd2, "<f8").tobytes()]
    held = ctypes.create_string_buffer(bytes(numbers), len(numbers))
    out, *work = (ctypes.create_string_buffer(4 * len(numbers) + 1) for _ in range(3))
    size = ctypes.c_size_t(4 * len(numbers))
    lengths = [ctypes.c_size_t(len(part)) for part in given]
    code = singles.call("ct_line_up", given[0], lengths[0], given[1], lengths[1], held, ctypes.c_size_t(len(numbers)), ctypes.c_uint64(first), ctypes.c_uint64(second),
                        out, size, work[0], size, work[1], size)
    return code, list(struct.unpack(f"<{max(code, 0)}I", out.raw[: 4 * max(code, 0)])), list(held.raw[: len(numbers)])


class Runs(unittest.TestCase):
    def setUp(self):
        self.rng = np.random.default_rng(7)

    def rising(self, count):
        jd1, jd2 = singles.dates(self.rng, count)
        order = np.argsort(np.nan_to_num(jd1 + jd2))
        return jd1[order], jd2[order]

    def test_line_up(self):
        for counts in ((), (50,), (50, 30), (0, 0), (100, 0), (0, 100), (100,)):
            jd1, jd2 = self.rising(100)
            numbers = self.rng.choice(np.array([0, 0, 0, 9, 255], "u1"), 100)
            first, second = (*counts, *[100 - sum(counts), 0][: 2 - len(counts)])
            code, places, after = single_line_up(jd1, jd2, numbers, first, second)
            kept = numbers.copy()
            line = ct.line_up(jd1, jd2, counts, numbers=numbers)
            self.assertEqual((line.places.tolist(), line.numbers.tolist()), (places, after))
            self.assertTrue(np.array_equal(kept, numbers))
            starts = np.cumsum([0, first, second])
            self.assertTrue(np.array_equal(starts[line.run] + line.stamp, line.places))
            self.assertTrue(all(0 <= i < n for i, n in zip(line.stamp, np.array(line.counts)[line.run])))
            for make in (lambda a: a.astype(">f8"), lambda a: np.repeat(a, 2)[::2], lambda a: a.tolist()):
                self.assertEqual(ct.line_up(make(jd1), make(jd2), counts, numbers=numbers).places.tolist(), places)
            self.assertIs(line.jd1, jd1)
            again = ct.line_up(jd1, jd2, line.counts, numbers=numbers)
            self.assertEqual((again.places.tolist(), again.counts), (places, line.counts))

    def test_line_up_wrong(self):
        good = np.zeros(4)
        for error, arguments, keywords in (
            (ct.Refused, (good, good[:3]), {}), (ct.Refused, (good, good, (5,)), {}), (ct.Refused, (good, good), {"numbers": np.zeros(3, "u1")}),
            (ValueError, (good.reshape(2, 2), good), {}), (ValueError, (good, good, (1, 1, 1)), {}), (ValueError, (good, good, (1, 1, 2, 0)), {}), (ValueError, (good, good, (5, -2, 1)), {}), (ValueError, (good, good, (-1,)), {}), (TypeError, (good, good, (1.5,)), {}),
            (TypeError, (good, good), {"numbers": np.zeros(4)}), (TypeError, (good, good), {"numbers": np.zeros(4, "i8")}), (TypeError, (good.astype(object), good), {}),
            (ValueError, (0.0, 0.0), {}), (TypeError, (np.ma.array(good), good), {}),
        ):
            with self.subTest(str(arguments) + str(keywords)):
                with self.assertRaises(error):
                    ct.line_up(*arguments, **keywords)
        with self.assertRaises(ct.Refused) as raised:
            ct.line_up(good, good[:3])
        self.assertEqual(raised.exception.number, 12)

    def test_recorders(self):
        """As the conversions one by one, and then one line; two recorders may have one scale."""
        for scales in (("gps",), ("utc", "gps"), ("gps", "tai", "utc"), ("tai", "tai", "tt")):
            for table in (None, singles.TABLE):
                runs = [(scale, *self.rising(int(self.rng.integers(0, 60)))) for scale in scales]
                line = ct.line_up_recorders(*runs, table=table)
                tai = [ct.Dates(a, b, np.zeros(len(a), "u1")) if scale == "tai" else ct.convert(scale, "tai", a, b, table=table) for scale, a, b in runs]  # dead TAI: 9 by line_up
                counts = [len(a) for _, a, _ in runs]
                due = ct.line_up(np.concatenate([t.jd1 for t in tai]), np.concatenate([t.jd2 for t in tai]), counts[: max(len(counts) - 1, 0)],
                                 numbers=np.concatenate([t.numbers for t in tai]))
                for name in ("places", "run", "stamp", "numbers"):
                    self.assertTrue(np.array_equal(getattr(line, name), getattr(due, name)), name)
                self.assertEqual(list(line.counts)[: len(counts)], counts)
        for wrong in ([], [("tai", [], [])] * 4, [("tai", [1.0], [])], [("tai", 1.0, 0.0)], [("gsp", [1.0], [0.0])]):
            with self.assertRaises(ValueError):
                ct.line_up_recorders(*wrong)
        with self.assertRaises(TypeError):
            ct.line_up_recorders(("gps", np.array([None]), np.zeros(1)))

    def test_none(self):
        line = ct.line_up_recorders(("gps", [], []), ("tai", [], []), ("utc", [], []))
        self.assertEqual((len(line.places), line.counts), (0, (0, 0, 0)))

    def test_walk(self):
        """Each offset is that of the single look-up at 0h; a refused call leaves what was lent."""
        dates = np.array(sorted((y, m, d) for y in (1955, 1961, 1972, 2016, 2017, 2030) for m in (1, 6, 12) for d in (1, 15, 28)))
        for table in (None, singles.TABLE):
            walked = ct.offsets_at_0h(dates, table=table)
            self.assertTrue(np.array_equal(walked.seconds, ct.dat(*dates.T, 0.0, table=table).seconds))
            self.assertLessEqual(walked.compared, len(dates) + len(leap_rows.ROWS) + 16)
        lent = np.full(len(dates), 7.0)
        for make in (lambda a: a.astype("<i4"), lambda a: a.astype(">i8"), lambda a: np.asfortranarray(a), lambda a: a.tolist()):
            self.assertIs(ct.offsets_at_0h(make(dates), out=lent).seconds, lent)
            self.assertTrue(np.array_equal(lent, ct.dat(*dates.T).seconds))
        kept = lent.copy()
        for number, wrong in ((17, dates[::-1]), (2, np.array([[2000, 13, 1]])), (3, np.array([[2000, 2, 30]]))):
            with self.assertRaises(ct.Refused) as raised:
                ct.offsets_at_0h(wrong, out=lent if len(wrong) == len(lent) else None)
            self.assertEqual(raised.exception.number, number)
        self.assertTrue(np.array_equal(lent, kept))
        for error, wrong in ((ValueError, dates.ravel()), (ValueError, dates[:, :2]), (TypeError, dates.astype(float)), (OverflowError, dates + (1 << 40))):
            with self.assertRaises(error):
                ct.offsets_at_0h(wrong)
        self.assertEqual(ct.offsets_at_0h(np.empty((0, 3), int)).compared, 0)

    def test_ticks(self):
        passes, millis = np.array([0, 10, 1000, 1 << 39]), np.array([5, 6, 77, 1 << 38])
        ticks = np.concatenate([passes, self.rng.integers(0, 1 << 39, 500)])
        due = []
        for tick in ticks.tolist():
            i = min(max(int(np.searchsorted(passes, tick, "right")) - 1, 0), len(passes) - 2)
            t0, t1, m0, m1 = (int(x) for x in (passes[i], passes[i + 1], millis[i], millis[i + 1]))
            due.append(m0 + (tick - t0) * (m1 - m0) // (t1 - t0))
        for dtype in ("<i8", "<u8", ">i8", ">u8"):
            got = ct.place_ticks(passes.astype(dtype), millis.astype(dtype), ticks.astype(dtype))
            self.assertEqual(got.tolist(), due)
        self.assertEqual(ct.place_ticks(passes, millis, np.repeat(ticks, 2)[::2]).tolist(), due)
        self.assertEqual(ct.place_ticks(passes, millis, []).tolist(), [])
        self.assertEqual((ct.place_ticks(passes, millis, 10), type(ct.place_ticks(passes, millis, 10))), (6, int))
        one = np.zeros((), "<u8")
        self.assertIs(ct.place_ticks(passes, millis, 10, out=one), one)
        self.assertEqual(one, 6)
        for given, wrong in ((10, np.zeros(1, "<u8")), ([10], one)):
            with self.assertRaises(ValueError):
                ct.place_ticks(passes, millis, given, out=wrong)
        lent = np.full(len(ticks), 7, "<u8")
        self.assertIs(ct.place_ticks(passes, millis, ticks, out=lent), lent)
        kept = lent.copy()
        for number, wrong in ((25, (passes[:2], millis[:2], ticks)), (23, (passes, millis[:3], ticks)), (24, (passes[::-1], millis, ticks)), (23, ([], [], ticks))):
            with self.assertRaises(ct.Refused) as raised:
                ct.place_ticks(*wrong, out=lent)
            self.assertEqual(raised.exception.number, number)
        for error, wrong in ((OverflowError, (passes, millis, [-1])), (ValueError, (passes, millis, [0.5])), (ValueError, (passes[None], millis, ticks))):
            with self.assertRaises(error):
                ct.place_ticks(*wrong)
        self.assertTrue(np.array_equal(kept, lent))
        lent.flags.writeable = False
        with self.assertRaises(ValueError):
            ct.place_ticks(passes, millis, ticks, out=lent)

    def test_tables(self):
        self.assertEqual((ct.Table().count, len(ct.Table()), list(ct.Table())), (len(leap_rows.ROWS), 0, []))
        y, s = singles.Y, singles.S
        rows = [(y + i, 1, s + 1 + i) for i in range(16)]
        full = ct.Table(rows)
        self.assertEqual((full.count, full.rows, ct.Table.from_bytes(bytes(full))), (len(leap_rows.ROWS) + 16, tuple(rows), full))
        self.assertEqual(pickle.loads(pickle.dumps(full)), full)
        self.assertEqual(len({full, ct.Table(rows)}), 1)
        for number, wrong in ((20, rows + [(y + 23, 1, s + 17)]), (20, [(y + 23, 1, s + 17)] * 100), (21, [(*leap_rows.WHOLE[-1][:2], s + 1)]), (21, rows[:1] * 2), (22, [(y, 1, s + 2)])):
            with self.assertRaises(ct.Refused) as raised:
                ct.Table(wrong)
            self.assertEqual(raised.exception.number, number)
        with self.assertRaises(ct.Refused) as raised:
            ct.Table.from_bytes(bytes(135))
        self.assertEqual(raised.exception.number, 14)
        for error, wrong in ((ValueError, [(2027, 13, 38)]), (OverflowError, [(1 << 40, 1, 38)]), (TypeError, [(2027.5, 1, 38)]), (ValueError, [(2027, 1)])):
            with self.assertRaises(error):
                ct.Table(wrong)
        for wrong in (136, None, "a" * 136, [0] * 136):
            with self.assertRaises(TypeError):
                ct.Table.from_bytes(wrong)
        self.assertEqual(ct.Table.from_bytes(memoryview(bytearray(bytes(full)))), full)
        for name in ("rows", "count", "other"):
            with self.assertRaises(AttributeError):
                setattr(full, name, ())
        self.assertEqual(full.rows, tuple(rows))
        utc = ct.dtf2d("utc", 2026, 12, 31, 23, 59, 60.5, table=ct.Table(rows[:1]))
        self.assertEqual(ct.to_iso8601(utc.jd1, utc.jd2, table=ct.Table(rows[:1])).text, b"2026-12-31T23:59:60.500")

    def test_tables_from_texts(self):
        y, s = singles.Y, singles.S
        own = "".join(f"{a}-{m:02} {int(t)}\n" for a, m, t in leap_rows.WHOLE)
        with tempfile.TemporaryDirectory() as folder:
            file = pathlib.Path(folder, "rows")
            for text, rows, known in (("", (), 0), (own, (), 0), (f"#@ 3991420800\r\n{own}{y}-01\t{s + 1}  # made up", ((y, 1, s + 1),), 61217)):
                file.write_bytes(text.encode())
                read = ct.Table.read(file)
                self.assertEqual((read.rows, read.known_until, read), (rows, known, ct.Table(rows)))
                self.assertEqual(pickle.loads(pickle.dumps(read)).known_until, known)
            for number, line, text in ((15, 2, "\n2027-1 38"), (22, 1, "1972-01 11"), (21, 2, f"{y}-01 {s + 1}\n{y}-01 {s + 2}"), (22, 1, f"{y}-01 {s + 2}\nx"), (15, 1, "2027-01 38\0")):
                file.write_bytes(text.encode())
                with self.assertRaises(ct.Refused) as raised:
                    ct.Table.read(file)
                self.assertEqual((raised.exception.number, raised.exception.call), (number, f"{file}: line {line}"))
            with self.assertRaises(OSError):
                ct.Table.read(pathlib.Path(folder, "none"))

    def test_threads(self):
        """Eight threads at once, each on its own arrays, get what one gets."""
        given = [singles.dates(np.random.default_rng(seed), 20000) for seed in range(8)]
        due = [(ct.utctai(*one), ct.to_iso8601(*one)) for one in given]
        wrong = []

        def work(seed):
            for _ in range(5):
                tai, texts = ct.utctai(*given[seed]), ct.to_iso8601(*given[seed])
                if not (np.array_equal(tai.jd2, due[seed][0].jd2, equal_nan=True) and np.array_equal(texts.text, due[seed][1].text)):
                    wrong.append(seed)

        threads = [threading.Thread(target=work, args=(seed,)) for seed in range(8)]
        for thread in threads:
            thread.start()
        for thread in threads:
            thread.join()
        self.assertEqual(wrong, [])


if __name__ == "__main__":
    unittest.main()
