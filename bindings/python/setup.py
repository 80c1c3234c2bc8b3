"""Puts the shared object of the library into the package: the one that CALMIZSED_LIBRARY names, else that of the tree, which `make` builds,
or of a tar, which `make dist` makes."""

import os
import pathlib
import shutil

from setuptools import Distribution, setup
from setuptools.command.build_py import build_py
from wheel.bdist_wheel import bdist_wheel

TREE = pathlib.Path(__file__).resolve().parents[2]
NAME = "libcalmizsed.so.0"


class BuildWithLibrary(build_py):
    """Builds the package, and copies the shared object into it."""

    def run(self) -> None:
        """As build_py does."""
        super().run()
        named = os.environ.get("CALMIZSED_LIBRARY")
        places = [pathlib.Path(named)] if named else [TREE / "out" / "c" / NAME, TREE / "lib" / NAME]
        built = next((place for place in places if place.is_file()), None)
        if built is None:
            raise SystemExit(f"there is no {places[0]}: `make` at the top of the tree builds it, or let CALMIZSED_LIBRARY name another")
        shutil.copyfile(built, pathlib.Path(self.build_lib) / "calmizsed" / NAME)


class WithLibrary(Distribution):
    """A package that isn't of Python alone."""

    def has_ext_modules(self) -> bool:
        """It has a shared object."""
        return True


class PlatformWheel(bdist_wheel):
    """A wheel for each Python 3 of this platform."""

    def get_tag(self) -> tuple[str, str, str]:
        """The tag, in which neither the interpreter's version nor its interface to C stands."""
        return "py3", "none", super().get_tag()[2]


setup(cmdclass={"build_py": BuildWithLibrary, "bdist_wheel": PlatformWheel}, distclass=WithLibrary)
