"""Makes the wheel: for one platform, since the shared object is inside, and for every Python 3, since ctypes calls it.

The shared object is the file that VT_LIBRARY names, or out/c/lib/libvt.so.1 of the clone.
"""
import os
import pathlib
import re
import shutil

from setuptools import Distribution, setup
from setuptools.command.build_py import build_py

try:
    from setuptools.command.bdist_wheel import bdist_wheel
except ImportError:  # setuptools before 70.1
    from wheel.bdist_wheel import bdist_wheel

HERE = pathlib.Path(__file__).resolve().parent
NAME = "libvt.so.1"


def library():
    """The path of the shared object."""
    named = os.environ.get("VT_LIBRARY")
    places = [pathlib.Path(named)] if named else [folder / "out/c/lib" / NAME for folder in HERE.parents]
    for place in places:
        if place.is_file():
            return place
    makers = "tools/build.py c or libvt/tools/build_c.sh makes it, and VT_LIBRARY may name it"
    raise SystemExit(f"{NAME} isn't there: {makers}")


def platform_tag():
    """The tag of the oldest GNU C library with the symbols that the shared object needs."""
    versions = re.findall(rb"GLIBC_2\.([0-9]+)", library().read_bytes())
    return f"manylinux_2_{max([17, *map(int, versions)])}_x86_64"


class BuildWithLibrary(build_py):
    def run(self):
        super().run()
        shutil.copy(library(), pathlib.Path(self.build_lib) / "libvt" / NAME)


class WithLibrary(Distribution):
    def has_ext_modules(self):
        return True


class PlatformWheel(bdist_wheel):
    def get_tag(self):
        return "py3", "none", platform_tag()


setup(distclass=WithLibrary, cmdclass={"build_py": BuildWithLibrary, "bdist_wheel": PlatformWheel})
