"""Finding the library, the examples of the docstrings, the float mode, reasons, and what every public name must have."""
import contextlib
import ctypes
import doctest
import importlib
import importlib.util
import inspect
import io
import os
import pathlib
import pkgutil
import re
import shutil
import subprocess
import sys
import tempfile
import typing
import unittest
import zipfile

import numpy as np

import celestial_time as ct
from celestial_time import _library, texts

ROOT = pathlib.Path(__file__).resolve().parents[2]
MODULES = [importlib.import_module(f"celestial_time.{one.name}") for one in pkgutil.iter_modules(ct.__path__)]


def python(code, **environment):
    held = {**os.environ, "PYTHONPATH": str(ROOT / "python"), **environment}
    return subprocess.run([sys.executable, "-c", code], capture_output=True, text=True, env=held)


class Library(unittest.TestCase):
    def test_examples(self):
        tried = 0
        for module in (ct, *MODULES):
            space = {**vars(_library), **vars(ct), **vars(module), "np": np}
            for test in doctest.DocTestFinder(exclude_empty=True).find(module, globs=space):
                if "reason" in test.name and not _library.has("ct_reason"):
                    continue
                with self.subTest(test.name), contextlib.redirect_stderr(io.StringIO()):
                    result = doctest.DocTestRunner(verbose=False, optionflags=doctest.ELLIPSIS).run(test)
                    self.assertEqual(result.failed, 0)
                    tried += result.attempted
        self.assertGreater(tried, 80)

    def test_every_name_has_an_example_and_types(self):
        """Every public function and class has a docstring with an example that is run, and each function a type for each argument and for its answer."""
        for module in MODULES:
            for name, one in vars(module).items():
                if name.startswith("_") or getattr(one, "__module__", "") != module.__name__:
                    continue
                target = inspect.unwrap(one) if inspect.isfunction(inspect.unwrap(one)) else one
                with self.subTest(f"{module.__name__}.{name}"):
                    if inspect.isfunction(target) or inspect.isclass(target) and module.__name__ != "celestial_time.__main__":
                        self.assertIn(">>> ", one.__doc__)
                    if inspect.isfunction(target):
                        signature = inspect.signature(target)
                        self.assertTrue(all(part.annotation is not part.empty for part in signature.parameters.values()))
                        self.assertIsNot(signature.return_annotation, signature.empty)

                        if sys.version_info >= (3, 10):  # before that, a | of two types is no type yet
                            self.assertIn("return", typing.get_type_hints(target))

    def test_readme(self):
        """The README's examples run, its second command begins as it says, and it names every public function."""
        text = (ROOT / "python" / "README.md").read_text()
        result = doctest.testfile(str(ROOT / "python" / "README.md"), module_relative=False, globs={"ct": ct})
        self.assertEqual((result.failed, result.attempted > 0), (0, True))
        program = "\n".join(line[4:] for line in re.search(r"## In a program\n\n.*\n\n((?:    .*\n)+)", text)[1].splitlines())
        done = subprocess.run([sys.executable, "-c", program], cwd=ROOT / "python" / "examples", capture_output=True, text=True, env={**os.environ, "PYTHONPATH": str(ROOT / "python")})
        self.assertEqual((done.returncode, done.stderr), (0, ""))
        command = re.search(r"^    python/python3 (-m celestial_time lineup .*)$", text, re.M)[1]
        begins = re.search(r"lines three recorders up and begins\n\n((?:    .*\n)+)", text)[1].replace("    ", "")
        done = subprocess.run([sys.executable, *command.split()], cwd=ROOT, capture_output=True, text=True, env={**os.environ, "PYTHONPATH": "python"})
        self.assertEqual((done.returncode, done.stdout[: len(begins)]), (0, begins))
        named = set(re.findall(r"`(\w+)", text))
        self.assertEqual({name for name in ct.__all__ if inspect.isfunction(getattr(ct, name))} - named, set())

    def test_loops_take_what_the_file_says(self):
        """The number of arguments of each loop, by loops.c."""
        text = (ROOT / "python" / "celestial_time" / "loops.c").read_text()
        found = {name: 0 if inside.strip() == "void" else inside.count(",") + 1 for name, inside in re.findall(r"^(?:int64_t|int) (ct_each_\w+)\(([^)]*)\)\n\{", text, re.M)}
        self.assertEqual(found, _library._LOOPS)
        self.assertEqual(set(re.findall(r"^int (ct_each_\w+)\(", text, re.M)), set(_library._INTS))
        for name in found:
            self.assertIs(_library.function(name).restype, ctypes.c_int if name in _library._INTS else ctypes.c_int64)
        self.assertIn(f"enum {{ TEXT_PLACE = {texts.WIDTH} }};", text)

    def test_calls_take_what_the_header_says(self):
        text = (ROOT / "include" / "celestial_time.h").read_text()
        sizes = {"uint8_t": 1, "uint32_t": 4, "int32_t": 4, "uint64_t": 8, "int64_t": 8, "size_t": 8, "double": 8}
        declared = dict(re.findall(r"^int64_t (ct_\w+)\(([^)]*)\);", text, re.M))
        held = 0
        for name, types in _library._CALLS.items():
            self.assertIn(name, declared)
            held += 1
            due = ["pointer" if "*" in one else one.split()[-2] for one in declared[name].split(",") if one != "void"]
            self.assertEqual(len(due), len(types), name)
            for one, kind in zip(due, types):
                self.assertEqual(kind is ctypes.c_void_p, one == "pointer", name)
                if one != "pointer":
                    self.assertEqual(ctypes.sizeof(kind), sizes[one], name)
                    self.assertEqual(kind is ctypes.c_double, one == "double", name)
        self.assertGreaterEqual(held, 6)

    def test_import_loads_nothing(self):
        done = python("import celestial_time; from celestial_time import _library; print(_library._loaded)")
        self.assertEqual(done.stdout, "None\n")

    def test_places(self):
        library = _library.library()._name
        with tempfile.TemporaryDirectory() as folder:
            done = python("import celestial_time as ct; print(ct.gpstai(2451545.0, 0.0).numbers)", CELESTIAL_TIME_LIBRARY=library)
            self.assertEqual(done.stdout, "0\n")
            for wrong in (f"{folder}/none.so", str(ROOT / "README.md"), folder):
                done = python("import celestial_time as ct; ct.gpstai(2451545.0, 0.0)", CELESTIAL_TIME_LIBRARY=wrong)
                self.assertEqual(done.returncode, 1)
                self.assertIn("LibraryError", done.stderr.splitlines()[-1])
                self.assertIn(wrong, done.stderr.splitlines()[-1])
            bare = pathlib.Path(folder, "bare.so")
            subprocess.run(["cc", "-shared", "-o", bare, "-x", "c", "/dev/null"], check=True)
            done = python("import celestial_time as ct; ct.gpstai(2451545.0, 0.0)", CELESTIAL_TIME_LIBRARY=str(bare))
            self.assertIn("LibraryError: the library has no ct_", done.stderr.splitlines()[-1])
            package = pathlib.Path(folder, "celestial_time")
            package.mkdir()
            for file in pathlib.Path(ct.__file__).parent.glob("*.py"):
                (package / file.name).write_text(file.read_text())
            done = python("import celestial_time as ct; ct.gpstai(2451545.0, 0.0)", PYTHONPATH=folder, CELESTIAL_TIME_LIBRARY="")
            self.assertIn("LibraryError: there is no libcelestial_time_arrays.so", done.stderr.splitlines()[-1])
            (package / "libcelestial_time_arrays.so").write_bytes(pathlib.Path(library).read_bytes())
            done = python("import celestial_time as ct; print(ct.gpstai(2451545.0, 0.0).numbers)", PYTHONPATH=folder, CELESTIAL_TIME_LIBRARY="")
            self.assertEqual(done.stdout, "0\n")

    def test_stage(self):
        """The folder that pip installs from has the package and its library, the clone gets nothing, and the wheel is named for one processor."""
        before = sorted((ROOT / "python").rglob("*"))
        with tempfile.TemporaryDirectory() as folder:
            stage = pathlib.Path(folder, "stage")
            subprocess.run([ROOT / "python" / "stage", stage], check=True)
            self.assertNotEqual(subprocess.run([ROOT / "python" / "stage", stage], capture_output=True).returncode, 0)
            for file in pathlib.Path(ct.__file__).parent.glob("*.*"):
                self.assertEqual((stage / "celestial_time" / file.name).read_bytes(), file.read_bytes())
            done = python("import celestial_time as ct; ct.Table(); from celestial_time import _library; print(_library._loaded._name)", PYTHONPATH=str(stage), CELESTIAL_TIME_LIBRARY="")
            self.assertEqual(done.stdout, f"{stage.resolve()}/celestial_time/libcelestial_time_arrays.so\n")
            if not all(importlib.util.find_spec(name) for name in ("pip", "setuptools", "wheel")):
                self.skipTest("the wheel is not made again: no pip, setuptools or wheel here")
            words = ["-m", "pip", "wheel", "--no-build-isolation", "--no-deps", "--no-index", "--disable-pip-version-check", "-w", folder, stage]
            done = subprocess.run([sys.executable, *words], capture_output=True, text=True)
            self.assertEqual(done.returncode, 0, done.stderr)
            (wheel,) = pathlib.Path(folder).glob("*.whl")
            self.assertRegex(wheel.name, rf"^celestial_time-{re.escape(ct.__version__)}-py3-none-linux_\w+\.whl$")
            with zipfile.ZipFile(wheel) as held:
                self.assertTrue({f"celestial_time/{name}" for name in ("libcelestial_time_arrays.so", "py.typed", "loops.c", "runs.py")} <= set(held.namelist()))
        self.assertEqual(sorted((ROOT / "python").rglob("*")), before)

    def test_version(self):
        """One version: of the header, of the library that is loaded, of the package, and of what pip installs; a library of another is not loaded."""
        header = (ROOT / "include" / "celestial_time.h").read_text()
        version = re.search(r'^#define CT_VERSION "(.*)"$', header, re.M)[1]
        self.assertEqual(ct.__version__, version)
        due = sum(int(part) * 1000**place for place, part in enumerate(reversed(version.split("."))))
        self.assertEqual([_library.function(name)() for name in ("ct_each_version", "ct_version")], [due, due])
        with tempfile.TemporaryDirectory() as folder:
            other = pathlib.Path(folder, "other.so")
            subprocess.run(["cc", "-shared", "-fPIC", "-o", other, "-x", "c", "-"], input=b"int ct_each_version(void) { return 1002003; }", check=True)
            done = python("import celestial_time as ct; ct.gpstai(2451545.0, 0.0)", CELESTIAL_TIME_LIBRARY=str(other))
            self.assertIn(f"LibraryError: {other} is of version 1.2.3, and this package of {version}", done.stderr.splitlines()[-1])

    @unittest.skipUnless(all(importlib.util.find_spec(name) for name in ("pip", "setuptools", "wheel")), "pip does not install from the clone: no pip, setuptools or wheel here")
    def test_pip_from_the_clone(self):
        """pip takes the library of target/lib and leaves nothing in the clone; without one it stops with the command that makes it."""
        pip = [sys.executable, "-m", "pip", "install", "-q", "--no-build-isolation", "--no-deps", "--no-index", "--disable-pip-version-check", "--root-user-action=ignore"]
        before = sorted((ROOT / "python").rglob("*"))
        with tempfile.TemporaryDirectory() as folder:
            done = subprocess.run([*pip, "--target", f"{folder}/there", ROOT / "python"], capture_output=True, text=True)
            self.assertEqual(done.returncode, 0, done.stderr)
            code = "import celestial_time as ct; ct.Table(); from celestial_time import _library; print(_library._loaded._name)"
            held = {**os.environ, "PYTHONPATH": f"{folder}/there", "CELESTIAL_TIME_LIBRARY": ""}
            done = subprocess.run([sys.executable, "-c", code], capture_output=True, text=True, env=held, cwd=folder)
            self.assertEqual(done.stdout, f"{pathlib.Path(folder).resolve()}/there/celestial_time/libcelestial_time_arrays.so\n", done.stderr)
            self.assertEqual([path.name for path in pathlib.Path(folder, "there").glob("*.dist-info")], [f"celestial_time-{ct.__version__}.dist-info"])
            shutil.copytree(ROOT / "python", f"{folder}/clone/python", ignore=shutil.ignore_patterns("*.so"))
            made = pathlib.Path(folder, "clone", "target", "lib", _library.NAME)
            made.parent.mkdir(parents=True)
            older = lambda: subprocess.run(["cc", "-shared", "-o", made, "-x", "c", "/dev/null"], check=True)
            for lay in (lambda: None, older, lambda: made.write_bytes(b"no library")):
                lay()
                done = subprocess.run([*pip, "--target", f"{folder}/none", f"{folder}/clone/python"], capture_output=True, text=True)
                self.assertNotEqual(done.returncode, 0)
                self.assertIn("run python/make in the clone", done.stdout + done.stderr)
        self.assertEqual(sorted((ROOT / "python").rglob("*")), before)

    def test_float_mode(self):
        """A library that was linked with -ffast-math changes the mode of the process that loads it: no call answers until it is set back."""
        with tempfile.TemporaryDirectory() as folder:
            fast = pathlib.Path(folder, "fast.so")
            subprocess.run(["cc", "-shared", "-fPIC", "-ffast-math", "-o", fast, "-x", "c", "/dev/null"], check=True)
            code = f"""if True:
                import ctypes, celestial_time as ct
                one = 5e-324
                ctypes.CDLL({str(fast)!r})
                if one * 2.0 ** 52 != 0.0:
                    print('kept')
                block = ct.block_of([2451545.0], [0.0])  # does not ask
                calls = (lambda: ct.gpstai([2451545.0], 0.0), lambda: ct.line_up([1.0], [0.0]), lambda: ct.offsets_at_0h([[2000, 1, 1]]), lambda: ct.listing(block),
                         lambda: next(ct.listings(block)), lambda: ct.reason(9, jd1=0.0, jd2=0.0))
                for call in calls:
                    try:
                        call()
                        print('answered')
                    except ct.FloatModeError as error:
                        print('refused')
                assert ct.reason(9) and str(ct.Refused(9, 'gpstai', {{'jd1': 0.0, 'jd2': 0.0}})) and ct.place_ticks([0, 2], [0, 1], 2) == 1
                ct.default_float_mode()
                print(ct.gpstai([2451545.0], 0.0).numbers, one * 2.0 ** 52 != 0.0)
            """
            done = python(code)
            self.assertEqual(done.stderr, "")
            # A compiler whose -ffast-math does not touch the mode of a shared library leaves it.
            self.assertIn(done.stdout, ("refused\n" * 6 + "[0] True\n", "kept\n" + "answered\n" * 6 + "[0] True\n"))

    def test_reasons(self):
        if not _library.has("ct_reason"):
            with self.assertRaises(ct.LibraryError):
                ct.reason(9)
            self.assertEqual(str(ct.Refused(9, "gpstai")), "gpstai: refused 9")
            self.skipTest("the library has no sentences yet")
        self.assertEqual(len({ct.reason(number) for number in range(1, 29)}), 28)
        for number in (0, 29, 1000):
            with self.assertRaises(ct.Refused) as raised:
                ct.reason(number)
            self.assertEqual(raised.exception.number, 18)
        groups = ((3, {"year": 2000, "month": 2, "day": 30}), (4, {"hour": 24, "minute": 0, "second": 0.0, "leap": 0.0}), (9, {"jd1": np.inf, "jd2": 0.0}), (7, {"fraction": 1.5}),
                  (10, {"offset": np.nan}), (8, {"nanos": 10**9}), (14, {"length": 7, "size": 0, "second_size": 0}))
        for number, values in groups:
            self.assertNotEqual(ct.reason(number, **values), ct.reason(number))
        self.assertIn(ct.reason(9, jd1=np.nan, jd2=0.0), str(ct.Refused(9, "gpstai", {"jd1": np.nan, "jd2": 0.0})))
        for number, values in ((3, {"year": 1 << 31, "month": 1, "day": 1}), (4, {"hour": 300, "minute": 0, "second": 0.0, "leap": 0.0}), (8, {"nanos": -1}), (-1, {})):
            with self.assertRaises(OverflowError):
                ct.reason(number, **values)
        for wrong in ({"jd1": 0.0}, {"month": 1}, {"jd1": 0.0, "jd2": 0.0, "year": 1}):
            with self.assertRaises(TypeError):
                ct.reason(9, **wrong)
        with self.assertRaises(ct.Refused) as raised:
            ct.gpstai(np.nan, 0.0)
        self.assertIn(ct.reason(9, jd1=np.nan, jd2=0.0), str(raised.exception))

    def test_words_of_a_refusal(self):
        """The sentence, and the values as Python writes them; where a value can't be handed to the sentence's call, the sentence that names no field."""
        for call, number, values in (
            (lambda: ct.dat(2017, 1, 1, 2.0), 7, {"fraction": 2.0}), (lambda: ct.cal2jd(2000, 2, 30), 3, {"year": 2000, "month": 2, "day": 30}),
            (lambda: ct.tttdb(2451545.0, 0.0, np.inf), 10, {"offset": np.inf}), (lambda: ct.from_unix(0, 10**9), 8, {"nanos": 10**9}),
            (lambda: ct.dtf2d("utc", 2000, 1 << 40, 1, 0, 0, 0.0), 2, {"year": 2000, "month": 1 << 40, "day": 1}),
        ):
            with self.assertRaises(ct.Refused) as raised:
                call()
            said = str(raised.exception)
            due = ct.reason(number) if 1 << 40 in values.values() else ct.reason(number, **values)
            self.assertTrue(said.endswith(f"refused {number}: {due} ({', '.join(f'{name}={value!r}' for name, value in values.items())})"), said)


if __name__ == "__main__":
    unittest.main()
