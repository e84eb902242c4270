"""Puts the shared library, the module for the web and what btx reads into the wheel, which so is one of this machine's kind. What is
made on the way lies in a folder that goes with this process, so that nothing stands beside the wheel."""
import atexit
import os
import shutil
import sys
import tempfile

from setuptools import setup
from setuptools.command.build_py import build_py
from wheel.bdist_wheel import bdist_wheel

ROOT = os.path.normpath(os.path.join(os.path.dirname(os.path.abspath(__file__)), "..", ".."))
sys.dont_write_bytecode = True
sys.path.insert(0, ROOT)
from building import shipped  # noqa: E402

LIBRARY = "library/out/libtamligub.so.1"


def copied(place, to):
    os.makedirs(os.path.dirname(to), exist_ok=True)
    shutil.copyfile(os.path.join(ROOT, place), to)


class Built(build_py):
    """The package with all that it needs besides Python and a C library."""

    def run(self):
        super().run()
        if not os.path.isfile(os.path.join(ROOT, LIBRARY)):
            raise SystemExit(f"there is no {LIBRARY}: library/build library/out makes it")
        package = os.path.join(os.path.abspath(self.build_lib), "tamligub")
        copied(LIBRARY, os.path.join(package, os.path.basename(LIBRARY)))
        module = [shipped.MODULE] if os.path.isfile(os.path.join(ROOT, shipped.MODULE)) else []
        for place in [*shipped.for_people(), *shipped.MANUALS, *module]:
            copied(place, os.path.join(package, "people", place))


class Wheel(bdist_wheel):
    """A wheel for any Python 3 of this kind of machine."""

    def finalize_options(self):
        super().finalize_options()
        self.root_is_pure = False

    def get_tag(self):
        return "py3", "none", super().get_tag()[2]


work = tempfile.mkdtemp(prefix="tamligub-wheel-")
atexit.register(shutil.rmtree, work, ignore_errors=True)
setup(cmdclass={"build_py": Built, "bdist_wheel": Wheel}, options={"build": {"build_base": work}, "egg_info": {"egg_base": work}})
