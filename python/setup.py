"""The wheel: the package with the library in it, for this kind of machine and any Python."""

import shutil
from pathlib import Path

from setuptools import Distribution, setup
from setuptools.command.build_py import build_py
from wheel.bdist_wheel import bdist_wheel

TOP = Path(__file__).resolve().parent.parent


class WithLibrary(build_py):
    """Takes the library that `make lib` has built into the package."""

    def run(self):
        super().run()
        shutil.copy(TOP / "libcha.so", Path(self.build_lib, "cha"))


class WithMachineCode(Distribution):
    """Says that the package is for one kind of machine."""

    def has_ext_modules(self):
        return True


class ForThisMachine(bdist_wheel):
    """Names no kind of Python: the library is called by ctypes."""

    def get_tag(self):
        return "py3", "none", super().get_tag()[2]


setup(
    version=(TOP / "VERSION").read_text().strip(),
    distclass=WithMachineCode,
    cmdclass={"build_py": WithLibrary, "bdist_wheel": ForThisMachine},
)
