"""Puts the proved library into the wheel: that of the folder DISRUPTOR_LIB, or else of `out` in the repository."""

import os
import shutil

from setuptools import setup
from setuptools.command.build_py import build_py
from setuptools.dist import Distribution

# (it is setuptools' own from 70.1 on)
try:
    from setuptools.command.bdist_wheel import bdist_wheel
except ImportError:
    from wheel.bdist_wheel import bdist_wheel

NAME = "libdisruptor.so"
OUT = os.path.join(os.path.dirname(os.path.abspath(__file__)), "..", "..", "out")


class BuildWithLibrary(build_py):
    def run(self):
        super().run()
        library = os.path.join(os.environ.get("DISRUPTOR_LIB", OUT), NAME)
        if not os.path.isfile(library):
            raise SystemExit(f"{library} is not there: run `make lib`, or name its folder in DISRUPTOR_LIB")
        shutil.copy2(library, os.path.join(self.build_lib, "verified_disruptor", NAME))


class WheelForEachPython(bdist_wheel):
    """A wheel of one machine for each Python 3: the library is called by ctypes."""

    def get_tag(self):
        return ("py3", "none", super().get_tag()[2])


class WithLibrary(Distribution):
    def has_ext_modules(self):
        return True


setup(distclass=WithLibrary, cmdclass={"build_py": BuildWithLibrary, "bdist_wheel": WheelForEachPython})
