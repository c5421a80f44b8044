"""The package holds a library for one processor and any Python: the name of the wheel says so. All else is in pyproject.toml.

    pip install --no-build-isolation ./python

takes the library beside the package (python/stage puts it there), or else that of target/lib of the clone; where there is none, it stops with the command
that makes it. Nothing is left in the clone: what setuptools makes on its way lies in a folder of its own.
"""
import atexit
import ctypes
import pathlib
import re
import shutil
import sys
import tempfile

from setuptools import Distribution, setup
from setuptools.command.build_py import build_py

try:
    from setuptools.command.bdist_wheel import bdist_wheel
except ImportError:
    from wheel.bdist_wheel import bdist_wheel

HERE = pathlib.Path(__file__).resolve().parent
NAME = "libcelestial_time_arrays.so"


def library() -> pathlib.Path:
    """The library that goes into the package: of the package's own version, or the command that makes one."""
    places = [HERE / "celestial_time" / NAME, HERE.parent / "target" / "lib" / NAME]
    found = next((place for place in places if place.exists()), None)
    if found is None:
        sys.exit(f"celestial_time: there is no {places[1]}: run python/make in the clone, which proves and links it, and then pip again")
    version = re.search(r'^__version__ = "([\d.]+)"$', (HERE / "celestial_time" / "_version.py").read_text(), re.M)[1]
    try:
        call = getattr(ctypes.CDLL(str(found)), "ct_each_version", lambda: 0)
    except OSError as error:
        sys.exit(f"celestial_time: {found} can't be loaded here ({error}): run python/make in the clone, and then pip again")
    major, minor, patch = map(int, version.split("."))
    if call() != major * 1000000 + minor * 1000 + patch:
        sys.exit(f"celestial_time: {found} is not of version {version}, as the package is: run python/make in the clone, and then pip again")
    return found


class Held(Distribution):
    def has_ext_modules(self):
        return True


class Package(build_py):
    def run(self):
        found = library()
        super().run()
        shutil.copyfile(found, pathlib.Path(self.build_lib, "celestial_time", NAME))


class Wheel(bdist_wheel):
    def get_tag(self):
        return "py3", "none", super().get_tag()[2]


aside = tempfile.mkdtemp()
atexit.register(shutil.rmtree, aside, ignore_errors=True)
setup(
    distclass=Held,
    cmdclass={"bdist_wheel": Wheel, "build_py": Package},
    options={"build": {"build_base": aside}, "egg_info": {"egg_base": aside}},
)
