"""Every function that goes over stamps, against the single calls: on plain arrays, and on arrays of every other make."""
import inspect
import math
import pickle
import tempfile
import tracemalloc
import unittest
import warnings

import numpy as np

import celestial_time as ct
import singles
from celestial_time import _arrays, scales
from celestial_time import texts as written

COUNT = 400


def arrays_of(answer):
    return answer if isinstance(answer, tuple) else (answer,)


def same(a, b):
    """The same type, shape and values, any NaN as any other."""
    return a.dtype == b.dtype and a.shape == b.shape and (np.array_equal(a, b, equal_nan=True) if a.dtype.kind == "f" else np.array_equal(a, b))


def unchanged(before, after):
    return all(np.array_equal(a, np.array(b), equal_nan=a.dtype.kind == "f") for a, b in zip(before, after))


def blank(array):
    """What stands in the places of a refused stamp."""
    kind = array.dtype.kind
    return math.nan if kind == "f" else b"" if kind == "S" else np.iinfo(array.dtype).min


class Functions(unittest.TestCase):
    def setUp(self):
        warnings.simplefilter("ignore", PendingDeprecationWarning)  # np.matrix, which is tried as a wrong argument
        self.rng = np.random.default_rng(20161231)

    def every(self):
        yield from singles.cases(self.rng, COUNT)
        yield from singles.never_refused(self.rng, COUNT)

    def test_stamp_by_stamp(self):
        """Each place has what the single call answers, and a refused one its number and blanks; both kinds are there."""
        for case in singles.cases(self.rng, COUNT):
            with self.subTest(case.name):
                answer = case.function(*case.inputs)
                numbers = answer.numbers
                self.assertEqual(numbers.dtype, np.uint8)
                for i, arguments in enumerate(zip(*(part.tolist() for part in case.inputs))):
                    code, values = case.single(*arguments)
                    due = [blank(part) for part in answer[:-1]] if values is None else values
                    self.assertEqual(numbers[i], max(0, -code), (case.name, arguments))
                    for part, value in zip(answer, due):
                        got = part[i].item()
                        self.assertTrue(got == value or got != got and value != value, (case.name, arguments, got, value))
                        if isinstance(value, float) and value == 0:
                            self.assertEqual(math.copysign(1, got), math.copysign(1, value), (case.name, arguments))
                refused = np.count_nonzero(numbers)
                if not case.name.startswith("add_"):
                    self.assertGreater(refused, 0, case.name)
                self.assertGreater(COUNT - refused, COUNT // 20, case.name)

    def test_never_refused(self):
        for case in singles.never_refused(self.rng, COUNT):
            with self.subTest(case.name):
                answer = case.function(*case.inputs)
                for i, arguments in enumerate(zip(*(part.tolist() for part in case.inputs))):
                    due = case.single(*arguments)
                    self.assertTrue(answer[i] == due or due != due and answer[i] != answer[i], (case.name, arguments))

    def test_single_values(self):
        """A single value answers a single value, and a refusal is raised with its number; an array of no dimension is a single value."""
        for case in self.every():
            with self.subTest(case.name):
                whole = arrays_of(case.function(*case.inputs))
                for i, arguments in enumerate(zip(*(part[:60] for part in case.inputs))):
                    for given in (arguments, [part.item() for part in arguments], [np.array(part) for part in arguments]):
                        due = [part[i].item() for part in whole]
                        if "numbers" in getattr(case.function(*case.inputs), "_fields", ()) and due[-1]:
                            with self.assertRaises(ct.Refused) as raised:
                                case.function(*given)
                            self.assertEqual(raised.exception.number, due[-1])
                            again = pickle.loads(pickle.dumps(raised.exception))
                            self.assertEqual((again.number, again.call), (raised.exception.number, raised.exception.call))
                            continue
                        got = arrays_of(case.function(*given))
                        for one, other in zip(got, due):
                            self.assertNotIsInstance(one, np.ndarray)
                            self.assertTrue(one == other or one != one and other != other, case.name)

    def other_makes(self, array):
        """The same values in arrays of other makes."""
        wide = np.empty((len(array), 3), array.dtype)
        wide[:, 1] = array
        odd = np.empty(array.nbytes + 1, "u1")[1:].view(array.dtype)
        odd[...] = array
        locked = array.copy()
        locked.flags.writeable = False
        swapped = array.astype(array.dtype.newbyteorder(">")) if array.dtype.kind in "fiu" else array
        yield "strided", wide[:, 1]
        yield "backwards", array[::-1].copy()[::-1]
        yield "unaligned", odd
        yield "read-only", locked
        yield "big-endian", swapped
        yield "big-endian and strided", np.repeat(swapped, 2)[::2]
        yield "list", array.tolist()
        yield "memmap", self.mapped(array)

    def mapped(self, array):
        with tempfile.TemporaryFile() as file:
            made = np.memmap(file, array.dtype, "w+", shape=array.shape)
        made[...] = array
        return made

    def test_makes_of_arrays(self):
        for case in self.every():
            due = arrays_of(case.function(*case.inputs))
            makes = [list(self.other_makes(part)) for part in case.inputs]
            for which in range(len(makes[0])):
                with self.subTest(case.name, make=makes[0][which][0]):
                    given = [make[which][1] for make in makes]
                    kept = [np.array(part) for part in given]
                    got = arrays_of(case.function(*given))
                    self.assertTrue(all(map(same, got, due)))
                    self.assertTrue(unchanged(kept, given))

    def test_shapes(self):
        """Two dimensions in either order, one value broadcast over the others, and none."""
        for case in self.every():
            due = arrays_of(case.function(*case.inputs))
            with self.subTest(case.name):
                for order in "CF":
                    got = arrays_of(case.function(*(np.asarray(part.reshape(20, -1), order=order) for part in case.inputs)))
                    self.assertTrue(all(same(a, b.reshape(20, -1)) for a, b in zip(got, due)))
                got = arrays_of(case.function(*(part.reshape(20, -1).T for part in case.inputs)))
                self.assertTrue(all(same(a, b.reshape(20, -1).T) for a, b in zip(got, due)))
                for which in range(len(case.inputs)):
                    spread = [part[7:8] if which == i else part for i, part in enumerate(case.inputs)]
                    held = [np.repeat(part[7:8], COUNT) if which == i else part for i, part in enumerate(case.inputs)]
                    if len(case.inputs) > 1:
                        self.assertTrue(all(map(same, arrays_of(case.function(*spread)), arrays_of(case.function(*held)))))
                for shape in ((0,), (0, 3), (3, 0)):
                    got = arrays_of(case.function(*(np.empty(shape, part.dtype) for part in case.inputs)))
                    self.assertTrue(all(a.shape == shape and a.dtype == b.dtype for a, b in zip(got, due)))
                got = arrays_of(case.function(*([] for _ in case.inputs)))
                self.assertTrue(all(a.shape == (0,) for a in got))

    def test_long_arrays(self):
        """More stamps than a buffer has places, in one piece and not, give the same."""
        jd1, jd2 = singles.dates(self.rng, 300001)
        due = ct.utctai(jd1, jd2)
        for given in ((jd1.astype(">f8"), jd2), (np.repeat(jd1, 2)[::2], jd2), (jd1[:, None], jd2[:, None])):
            got = ct.utctai(*given)
            self.assertTrue(all(same(a.ravel(), b) for a, b in zip(got, due)))
        self.assertTrue(same(ct.to_iso8601(jd1.astype(">f8"), jd2).text, ct.to_iso8601(jd1, jd2).text))

    def test_lent_arrays(self):
        """Answers in arrays that the caller lends: of one piece, strided, byte-swapped; an input lent as an answer."""
        for case in self.every():
            due = arrays_of(case.function(*case.inputs))
            lend = lambda made: {"out": tuple(made) if isinstance(case.function(*case.inputs), tuple) else made[0]}
            with self.subTest(case.name):
                for make in (lambda a: np.empty_like(a), lambda a: np.empty((len(a), 2), a.dtype)[:, 1], lambda a: np.empty(len(a), a.dtype)[::-1],
                             lambda a: np.empty(len(a), a.dtype.newbyteorder(">") if a.dtype.kind in "fiu" else a.dtype)):
                    made = [make(part) for part in due]
                    got = arrays_of(case.function(*case.inputs, **lend(made)))
                    self.assertTrue(all(a is b for a, b in zip(got, made)))
                    self.assertTrue(all(same(a.astype(b.dtype), b) for a, b in zip(made, due)))
                inputs = [part.copy() for part in case.inputs]
                if isinstance(case.function(*case.inputs), ct.Dates) and len(inputs) >= 2 and all(part.dtype == float for part in inputs):
                    case.function(*inputs, out=(inputs[1], inputs[0], None))
                    self.assertTrue(same(inputs[1], due[0]) and same(inputs[0], due[1]))

    def test_nothing_is_lost(self):
        """A wrong argument is an error that names it, and changes neither arguments nor lent arrays."""
        wrong = [
            ("object", TypeError, lambda a: a.astype(object)),
            ("masked", TypeError, lambda a: np.ma.masked_array(a, np.zeros(len(a), bool))),
            ("matrix", TypeError, lambda a: np.asmatrix(a)),
            ("bool", TypeError, lambda a: np.zeros(len(a), bool)),
            ("complex", TypeError, lambda a: np.zeros(len(a), complex)),
            ("dates", TypeError, lambda a: np.zeros(len(a), "M8[s]")),
            ("void", TypeError, lambda a: np.zeros(len(a), [("jd1", "<f8")])),
            ("None", TypeError, lambda a: [None] * len(a)),
        ]
        for case in self.every():
            answer = case.function(*case.inputs)
            made = [np.full_like(part, 7) for part in arrays_of(answer)]
            kept = [part.copy() for part in made]
            out = {"out": tuple(made) if isinstance(answer, tuple) else made[0]}
            # An array of objects may hold texts, one of None missing ones (test_analyst).
            tries = [(name, error, which, make(part)) for which, part in enumerate(case.inputs) for name, error, make in wrong
                     if part.dtype.kind != "S" or name not in ("object", "None")]
            for which, part in enumerate(case.inputs):
                if part.dtype.kind != "S":
                    with np.errstate(invalid="ignore"):  # a NaN that signals
                        tries += [("text", TypeError, which, part.astype("S40")), ("long double", TypeError, which, part.astype(np.longdouble))]
                else:
                    tries += [("float", TypeError, which, np.zeros(len(part)))]
                if part.dtype.kind == "i":
                    # A week, a millisecond or ten bits may be a float that is whole.
                    counted = case.name in ("gps_from_week", "gps_full_week")
                    tries += [("float", ValueError if counted else TypeError, which, part.astype(float) + 0.5 * counted)]
                if len(case.inputs) > 1:
                    tries += [("length", ValueError, which, part[:-1])]
            for name, error, which, value in tries:
                with self.subTest(case.name, wrong=name, which=which):
                    given = [value if i == which else part for i, part in enumerate(case.inputs)]
                    with self.assertRaises(error) as raised:
                        case.function(*given, **out)
                    self.assertGreater(len(str(raised.exception)), 10)
                    self.assertTrue(unchanged(kept, made))

    def test_wrong_lent_arrays(self):
        for case in self.every():
            answer = case.function(*case.inputs)
            several = isinstance(answer, tuple)
            parts = arrays_of(answer)
            locked = [np.full_like(part, 7) for part in parts]
            for part in locked:
                part.flags.writeable = False
            narrow = {"f": np.float32, "i": np.int8, "u": np.int8, "S": "S10", "b": "S1"}
            wrong = [("read-only", ValueError, lambda i: locked[i]), ("shape", ValueError, lambda i: np.full(len(parts[i]) + 1, 7).astype(parts[i].dtype)),
                     ("list", TypeError, lambda i: parts[i].tolist()), ("masked", TypeError, lambda i: np.ma.array(parts[i])),
                     ("object", TypeError, lambda i: None if parts[i].dtype == np.int8 else np.full(len(parts[i]), 7).astype(narrow[parts[i].dtype.kind]))]
            for name, error, make in wrong:
                for which in range(len(parts)):
                    made = [make(i) if i == which else np.full_like(part, 7) for i, part in enumerate(parts)]
                    if made[which] is None:
                        continue
                    kept = [np.array(part) for part in made]
                    with self.subTest(case.name, wrong=name, which=which):
                        with self.assertRaises(error) as raised:
                            case.function(*case.inputs, out=tuple(made) if several else made[0])
                        self.assertIn("out: ", str(raised.exception))
                        self.assertTrue(unchanged(kept, made))
            if several:
                with self.assertRaises(ValueError):
                    case.function(*case.inputs, out=parts[:-1])
                with self.assertRaises(ValueError):
                    case.function(*case.inputs, out=parts[0])
        with self.assertRaises(ValueError):
            one = np.empty(2)
            ct.gpstai([1.0, 2.0], 0.0, out=(one, one, None))
        strided = np.lib.stride_tricks.as_strided
        held = np.full(8, 7.0)
        for wrong in (strided(held, (2, 3), (24, 0)), strided(held, (2, 3), (8, 8)), strided(held, (2, 3), (24, 4)), strided(held, (2, 3), (0, 8)), strided(held[::-1], (2, 3), (-8, -8))):
            with self.assertRaises(ValueError) as raised:
                ct.gpstai(np.ones((2, 3)), 0.0, out=(wrong, None, None))
            self.assertIn("out: two places of jd1", str(raised.exception))
        self.assertEqual(held.tolist(), [7.0] * 8)
        for good in (np.empty((3, 2)).T, np.empty((2, 6))[::-1, ::-2], np.empty((4, 3, 5))[1::2, :, 2], strided(held, (2, 3), (32, 8))):
            self.assertIs(ct.gpstai(np.ones((2, 3)), 0.0, out=(good, None, None)).jd1, good)
        self.assertEqual(ct.gpstai(np.ones((0, 3)), 0.0, out=(strided(held, (0, 3), (0, 0)), None, None)).jd1.shape, (0, 3))
        for dtype in (object, complex, "M8[s]", "m8[s]", "V8", [("a", "f8")], "S40", bool):
            for i in range(3):
                with self.subTest(dtype=dtype), self.assertRaises(TypeError) as raised:
                    ct.gpstai([1.0], 0.0, out=[np.empty(1, dtype) if i == k else None for k in range(3)])
                self.assertIn("which does not hold", str(raised.exception))
            with self.assertRaises(TypeError):
                ct.to_iso8601([1.0], 0.0, out=(np.empty(1, dtype if dtype != "S40" else "S26"), None))
            if dtype is not bool:
                with self.assertRaises(TypeError):
                    ct.equal([1.0], 0.0, 1.0, 0.0, out=np.empty(1, dtype))
        self.assertEqual(ct.to_iso8601([2451545.0], 0.0, out=(np.empty(1, "U30"), None)).text.tolist(), ["2000-01-01T12:00:00.000"])

    def test_no_copies(self):
        """Arrays in one piece are handed over where they lie: what the loop gets are the places of the arguments and of the answers, one stretch after the other."""
        count = 2 * _arrays.STRETCH + 5
        jd1, jd2 = singles.dates(self.rng, count)
        handed = []
        kept = scales.function
        try:
            scales.function = lambda name: lambda *given: (name == "ct_convert_run" and handed.append(given), kept(name)(*given))[1]
            for lent in (None, (np.empty(count), np.empty(count), np.empty(count, "u1"))):
                handed.clear()
                answer = ct.utctai(jd1, jd2, out=lent)
                first = 0
                for _, _, *slices in handed:
                    del slices[4:6]  # the table
                    self.assertEqual(slices[::2], [_arrays.address_of(part[first:]) for part in (jd1, jd2, *answer)])
                    self.assertEqual(slices[1::2], [8 * slices[-1]] * 4 + slices[-1:])
                    first += slices[-1]
                self.assertEqual((first, len(handed)), (count, 3))
        finally:
            scales.function = kept

    def test_many_stretches(self):
        """Every function over more stamps than a stretch has, with refused ones in each, answers as in one stretch; and so do arrays that go through a buffer."""
        sizes = _arrays.STRETCH, _arrays.BUFFER, written._PAGE
        for case in self.every():
            due = arrays_of(case.function(*case.inputs))
            try:
                _arrays.STRETCH, _arrays.BUFFER, written._PAGE = 150, 70, 33
                for make in (lambda part: part, lambda part: np.repeat(part, 2)[::2]):
                    with self.subTest(case.name):
                        self.assertTrue(all(map(same, arrays_of(case.function(*map(make, case.inputs))), due)))
            finally:
                _arrays.STRETCH, _arrays.BUFFER, written._PAGE = sizes

    def test_nothing_around(self):
        """What lies before and behind lent arrays stays, byte for byte."""
        for case in self.every():
            answer = case.function(*case.inputs)
            held = [np.frombuffer(bytearray(b"\xa5" * (part.nbytes + 128)), "u1") for part in arrays_of(answer)]
            lent = [whole[64:-64].view(part.dtype) for whole, part in zip(held, arrays_of(answer))]
            with self.subTest(case.name):
                case.function(*case.inputs, out=tuple(lent) if isinstance(answer, tuple) else lent[0])
                self.assertTrue(all(map(same, lent, arrays_of(answer))))
                self.assertTrue(all(bytes(whole[:64]) + bytes(whole[-64:]) == b"\xa5" * 128 for whole in held))

    def test_lent_single_places(self):
        """Single values with arrays of no dimension lent: the answer goes there, and a refusal's number too, with nothing raised."""
        lent = np.zeros(()), np.zeros(()), np.zeros((), "u1")
        self.assertTrue(all(a is b for a, b in zip(ct.gpstai(2451545.0, 0.25, out=lent), lent)))
        self.assertEqual([part.item() for part in lent], list(ct.gpstai(2451545.0, 0.25)))
        ct.gpstai(math.inf, 0.25, out=lent)
        self.assertEqual((math.isnan(lent[0]), math.isnan(lent[1]), lent[2].item()), (True, True, 9))

    def test_wrong_single_values(self):
        """A single value that is no number, or not the call's, is an error that names the argument."""
        for wrong in (True, None, "2451545", b"2451545", 1j, object(), np.datetime64("2000-01-01"), [[1.0], [1.0, 2.0]], {}):
            with self.subTest(repr(wrong)), warnings.catch_warnings():
                warnings.simplefilter("ignore")  # a ragged list: numpy says so before it refuses it
                for call in (lambda: ct.gpstai(wrong, 0.0), lambda: ct.utctai(2451545.0, wrong), lambda: ct.cal2jd(2000, wrong, 1), lambda: ct.dtf2d("utc", 2000, wrong, 1, 0, 0, 0.0),
                             lambda: ct.gps_from_week(wrong, 0), lambda: ct.from_unix(wrong)):
                    with self.assertRaises((TypeError, ValueError)) as raised:
                        call()
                    self.assertNotIsInstance(raised.exception, ct.Refused)
        for wrong in (1.5, 2000.0, np.float64(1.0)):
            with self.assertRaises(TypeError):
                ct.cal2jd(wrong, 1, 1)
        for wrong in (1.5, None, 20000101, np.datetime64("2000-01-01")):
            with self.assertRaises(TypeError):
                ct.from_iso8601(wrong)

    def test_every_function_is_here(self):
        """Each public function that is lent places for its answers is held against the single calls above, or in test_runs."""
        held = {case.name.replace(",", "").split()[0] for case in self.every()} | {"offsets_at_0h", "place_ticks"}
        due = {name for name in ct.__all__ if inspect.isfunction(getattr(ct, name)) and "out" in inspect.signature(getattr(ct, name)).parameters}
        self.assertEqual(held, due)

    def test_overlap(self):
        """Answers lent a place further on in an argument's own memory: the argument is read before it is overwritten."""
        jd1, jd2 = singles.dates(self.rng, 100000)
        for function in (ct.gpstai, ct.utctai, ct.tcbtdb, lambda *a, **k: ct.utctai(*a, return_rule=True, **k)):
            due = function(jd1, jd2)
            for shift in (1, -1, 0):
                held = np.empty(len(jd1) + 1)
                given, to = (held[:-1], held[1:]) if shift == 1 else (held[1:], held[:-1]) if shift == -1 else (held[1:], held[1:])
                given[...] = jd1
                function(given, jd2, out=(to, *[None] * (len(due) - 1)))
                self.assertTrue(same(to, due[0]))
                given[...] = jd1
                function(given, jd2, out=(None, to, *[None] * (len(due) - 2)))
                self.assertTrue(same(to, due[1]))
            given = jd1.copy()
            numbers = given.view("u1")[3 : 3 + len(jd1)]  # in the bytes of the argument
            got = function(given, jd2, out=(*[None] * (len(due) - 1), numbers))
            self.assertTrue(all(map(same, got, due)))

    def test_interleaved(self):
        """The two parts lent as columns of one array."""
        jd1, jd2 = singles.dates(self.rng, COUNT)
        due = ct.gpstai(jd1, jd2)
        both = np.empty((COUNT, 2))
        ct.gpstai(jd1, jd2, out=(both[:, 0], both[:, 1], None))
        self.assertTrue(np.array_equal(both, np.stack([due.jd1, due.jd2], 1), equal_nan=True))

    def test_other_numbers(self):
        """Whole numbers and smaller floats become 64-bit floats as numpy makes them."""
        for dtype in (np.int8, np.int32, np.int64, np.uint64, np.float32, np.float16, ">i4"):
            given = np.array([0, 1, 100], dtype)
            for other in (np.array(0, dtype), np.zeros(1, dtype), np.zeros(3, dtype)):
                self.assertTrue(all(map(same, ct.gpstai(given, other), ct.gpstai(given.astype(float), np.zeros(3)))))
                self.assertTrue(all(map(same, ct.gpstai(other, given), ct.gpstai(np.zeros(3), given.astype(float)))))
        self.assertEqual(ct.gpstai(2451545, 0), ct.gpstai(2451545.0, 0.0))

    def test_one_value_of_every_make(self):
        """One value of each make, broadcast over the others of each make."""
        for case in self.every():
            for which in range(len(case.inputs)):
                if len(case.inputs) == 1:
                    continue
                held = [np.repeat(part[5], COUNT) if i == which else part for i, part in enumerate(case.inputs)]
                due = arrays_of(case.function(*held))
                ones = [part[5:6] for part in map(np.asarray, (make for _, make in self.other_makes(case.inputs[which])))]
                for one in ones:
                    for given in (one, one[0], one.reshape(1, 1)[0]):
                        for others in (lambda part: part, lambda part: part.astype(part.dtype.newbyteorder(">"))):
                            got = arrays_of(case.function(*(given if i == which else others(part) for i, part in enumerate(case.inputs))))
                            self.assertTrue(all(map(same, got, due)), (case.name, which))

    def test_numbers_that_do_not_fit(self):
        for wrong in (1 << 31, -(1 << 31) - 1, 1 << 63, 1 << 64, -(1 << 64)):
            with self.assertRaises((OverflowError, TypeError)):
                ct.cal2jd(wrong, 1, 1)
            with self.assertRaises((OverflowError, TypeError)):
                ct.cal2jd([2000, wrong], 1, 1)
        # The lowest 32 bits of most are a week's.
        for function in (ct.gps_from_week, ct.gps_full_week):
            for wrong in (-1, 1 << 32, (1 << 40) + 5, (1 << 63) + 5, ct.NO_INT, np.int8(-1), np.uint64((1 << 64) - 1), -(1 << 63)):
                self.assertEqual((function([wrong], 1).numbers.tolist(), function(5, [wrong]).numbers.tolist()), ([18], [18]))
        weeks = ct.gps_to_week([2458581.5, math.nan], 0.0)
        self.assertEqual(ct.gps_from_week(weeks.week, weeks.millis).numbers.tolist(), [0, 18])
        with self.assertRaises(OverflowError):
            ct.from_unix(1 << 63)
        for wrong in ((1 << 53) + 1, -(1 << 60), np.uint64((1 << 64) - 1), [0, 1 << 62]):
            with self.assertRaises(OverflowError):
                ct.gpstai(wrong, 0.0)
        self.assertEqual(ct.gpstai(1 << 53, 0).numbers, 0)
        # The lowest 8 bits of most are a month's.
        for small in (np.int8(-1), np.uint16(300), np.int64(-(1 << 63)), np.uint64((1 << 64) - 1), 256, -251, 261, (1 << 32) + 5, np.uint64((1 << 63) + 5), np.int16(-250), np.uint32(3 << 24 | 5)):
            for scale in ("utc", "tai"):
                self.assertEqual(ct.dtf2d(scale, [2000], small, 1, 0, 0, 0.0).numbers.tolist(), [2])
                self.assertEqual(ct.dtf2d(scale, [2000], 1, 1, small, 0, 0.0).numbers.tolist(), [4])

    def test_lists_lose_nothing(self):
        """What an array would be refused for is refused among the items of a list, too."""
        masked = np.ma.array([1.0, 2.0], mask=[True, False])
        for wrong in ([masked], ([masked],), [np.ma.masked, 0.5], [True, 0.5], [[True], [0.5]], [np.bool_(True), 0.5], [np.array([True]), np.array([0.5])], [np.asmatrix([0.5])]):
            with self.subTest(repr(wrong)), self.assertRaises(TypeError) as raised:
                ct.gpstai(wrong, 0.0)
            self.assertIn("gps1 ", str(raised.exception))
        for wrong in ([2000, True], [[2000], [np.bool_(True)]], (2000, np.array(True))):
            with self.assertRaises(TypeError):
                ct.cal2jd(wrong, 1, 1)
            with self.assertRaises(TypeError):
                ct.dtf2d("utc", 2000, wrong, 1, 0, 0, 0.0)
        for wrong in ([2**53 + 1, 0.5], ([2**53 + 1], [0.5]), [np.int64(2**53 + 1), 0.5], [np.array([2**53 + 1]), np.array([0.5])], [2**63, -1], [np.uint64(2**63), np.int64(1)]):
            with self.subTest(repr(wrong)), self.assertRaises(OverflowError):
                ct.gpstai(wrong, 0.0)
        for wrong in (["2000-01-01T00:00:00", 2000], [[b"2000-01-01T00:00:00"], [0.5]], ["2000-01-01T00:00:00", True], ["2000-01-01T00:00:00", np.array(5)]):
            with self.subTest(repr(wrong)), self.assertRaises(TypeError):
                ct.from_iso8601(wrong)
        self.assertEqual(ct.from_iso8601([np.str_("2000-01-01T00:00:00"), np.array("2000-01-01T00:00:00")]).numbers.tolist(), [0, 0])
        self.assertEqual(ct.gpstai([2**53, 0.5, np.float32(0.5), np.int8(3)], 0.0).numbers.tolist(), [0] * 4)
        self.assertEqual(ct.gpstai([np.array([1, 2]), [0.5, 1]], 0.0).jd1.tolist(), [[1.0, 2.0], [0.5, 1.0]])

    def test_numbers_are_no_offset(self):
        """An answer handed on whole would hand its numbers over as the offset."""
        tt = ct.taitt([2451545.0, math.nan], 0.25)
        for function in (ct.tttdb, ct.tdbtt, ct.ut1tai, ct.taiut1, ct.ut1tt, ct.ttut1, ct.utcut1, ct.ut1utc, ct.add_days, ct.add_seconds):
            with self.assertRaises(TypeError) as raised:
                function(*tt)
            self.assertIn(list(inspect.signature(function).parameters)[2] + " is of 8 bits", str(raised.exception))
            self.assertEqual(len(function(tt.jd1, tt.jd2, 0.001).numbers), 2)
        with self.assertRaises(TypeError):
            ct.utcut1(*tt, return_rule=True)
        one = ct.taitt(2451545.0, 0.25)
        for function in (ct.tttdb, ct.ttut1, ct.utcut1, ct.add_days):
            with self.assertRaises(TypeError) as raised:
                function(*one)
            self.assertIn(list(inspect.signature(function).parameters)[2] + " is the number of an answer", str(raised.exception))
            self.assertEqual(function(*one[:2], 0).numbers, 0)
        self.assertIsInstance(one.numbers, int)
        for wrong in (lambda: ct.compare(*tt, 0.25), lambda: ct.compare(*one, 0.25), lambda: ct.gpstai([one.numbers, 0.5], 0.0), lambda: ct.gpstai(np.uint8(1), 0.0)):
            with self.assertRaises(TypeError) as raised:
                wrong()
            self.assertIn("of an answer hand over [:2]", str(raised.exception))

    def test_shapes_are_told_by_parameter(self):
        """Two shapes that do not go together, by the function's own names for its arguments."""
        for function, names in ((ct.ttut1, "tt1 of shape (2,), tt2 of shape (3,), dt of"), (ct.utcut1, "utc1 of shape (2,), utc2 of shape (3,), dut1 of")):
            with self.assertRaises(ValueError) as raised:
                function([1.0, 2.0], [1.0, 2.0, 3.0], 0.5)
            self.assertTrue(str(raised.exception).startswith(names), str(raised.exception))
        with self.assertRaises(ValueError) as raised:
            ct.tcbtdb([1.0, 2.0], [1.0, 2.0, 3.0])
        self.assertTrue(str(raised.exception).startswith("tcb1 of shape (2,), tcb2 of"), str(raised.exception))

    def test_convert_looks_at_its_arguments(self):
        """A table that is none, also where none is read, and scales that are no words."""
        with self.assertRaises(TypeError):
            ct.convert("tcb", "tdb", 2451545.0, 0.25, table="nonsense")
        for wrong in (["tcb"], None, 6):
            with self.assertRaises(ValueError):
                ct.convert(wrong, "tdb", 2451545.0, 0.25)

    def test_single_values_beside_arrays(self):
        """A single float beside arrays that lie in one piece, around the length of a stretch, against arrays of that float."""
        for size in (1, 5, 262143, 262144, 262145, 524289):
            parts = np.linspace(0.0, 1.0, size)
            parts[size // 2 :: 3] = math.nan
            full = np.full(size, 2451545.0)
            for single, whole in (
                (ct.tttdb(2451545.0, parts, 0.001), ct.tttdb(full, parts, np.full(size, 0.001))),
                (ct.tcbtdb(2451545.0, parts), ct.tcbtdb(full, parts)),
                (ct.ut1tai(full, parts, math.inf), ct.ut1tai(full, parts, np.full(size, math.inf))),
            ):
                for one, other in zip(single, whole):
                    self.assertEqual(one.tobytes(), other.tobytes())

    def test_errors_name_the_parameter(self):
        """Of each function that takes floats first, by its own name for them."""
        for name in ct.SCALES:
            for function in (getattr(ct, one) for one in ct.__all__ if one.startswith(name) and one[len(name) :] in ct.SCALES):
                names = list(inspect.signature(function).parameters.values())
                due = [part.name for part in names if part.default is part.empty]
                for i, one in enumerate(due):
                    with self.assertRaises(TypeError) as raised:
                        function(*("x" if i == k else 0.0 for k in range(len(due))))
                    self.assertTrue(str(raised.exception).startswith(f"{one} is of type "), str(raised.exception))

    def test_not_copied_whole(self):
        """Arrays of another type go through a buffer."""
        count = 2000000
        numbers = np.empty(count, "u1")
        dates = np.empty(count), np.empty(count), numbers
        years, floats, longs = np.full(count, 2000), np.full(count, 2.5, "f4"), np.full(count, 5, "u8")
        for call in (lambda: ct.cal2jd(years, 1, 1, out=dates), lambda: ct.from_unix(years, years, out=dates), lambda: ct.gpstai(years, floats, out=dates),
                     lambda: ct.dtf2d("utc", years, longs, longs, longs, longs, floats, out=dates), lambda: ct.gps_from_week(years, longs, out=dates),
                     lambda: ct.same_stamp("tai", floats, years, "tai", longs, floats, out=numbers)):
            call()
            tracemalloc.start()
            call()
            most = tracemalloc.get_traced_memory()[1]
            tracemalloc.stop()
            self.assertLess(most, 6 * 8 * _arrays.BUFFER + 100000)

    def test_one_value_over_all(self):
        """One value that is broadcast over more places than any memory has is looked at once; the answers then find no memory."""
        for call in (lambda: ct.cal2jd(np.broadcast_to(2000, (10**17,)), 1, 1), lambda: ct.gpstai(np.broadcast_to(2000, (10**8, 10**9)), 0.0)):
            with self.assertRaises((MemoryError, ValueError)):
                call()
        with self.assertRaises(OverflowError) as raised:
            ct.cal2jd(np.broadcast_to([[2000], [1 << 40]], (2, 10**9)), 1, 1)
        self.assertIn("at place 1000000000,", str(raised.exception))

    def test_texts_in_unicode(self):
        given = ["2016-12-31T23:59:60.5Z", "2000-01-01T00:00:00", "zwölf", ""]
        due = ct.from_iso8601([text.encode() for text in given])
        for texts in (given, np.array(given)):
            self.assertTrue(all(map(same, ct.from_iso8601(texts), due)))
        self.assertEqual(due.numbers.tolist(), [0, 0, 15, 15])
        self.assertEqual(ct.from_iso8601(np.empty(2, "S0")).numbers.tolist(), [15, 15])
        for dtype in ("U25", "S25", "U1"):
            for shape in ((0,), (0, 3), (3, 0)):
                self.assertEqual([part.shape for part in ct.from_iso8601(np.empty(shape, dtype))], [shape] * 9)
        self.assertEqual(ct.from_iso8601([given[:2], ["\ud800", "2000-01-01T00:00:0\udfff"]]).numbers.tolist(), [[0, 0], [15, 15]])
        with self.assertRaises(ct.Refused):
            ct.from_iso8601("\ud800")

    def test_names(self):
        for wrong in (lambda: ct.convert("gsp", "tai", 0.0, 0.0), lambda: ct.convert("tcb", "tai", 0.0, 0.0), lambda: ct.convert("ut1", "ut1", 0.0, 0.0), lambda: ct.convert("gps", None, 0.0, 0.0), lambda: ct.to_iso8601(0.0, 0.0, form="iso"),
                      lambda: ct.dtf2d("UTC", 2000, 1, 1, 0, 0, 0.0), lambda: ct.same_stamp("tai", 0.0, 0.0, 1, 0.0, 0.0)):
            with self.assertRaises(ValueError):
                wrong()
        with self.assertRaises(TypeError):
            ct.utctai(2451545.0, 0.0, table=bytes(136))


if __name__ == "__main__":
    unittest.main()
