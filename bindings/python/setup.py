"""What pyproject.toml can't say: a wheel has the platform's tag, and is not built without the shared object."""
import glob
import os

from setuptools import setup
from setuptools.command.build_py import build_py
from setuptools.dist import Distribution

try:
    from setuptools.command.bdist_wheel import bdist_wheel
except ImportError:
    # Before setuptools 70.1.
    from wheel.bdist_wheel import bdist_wheel

LIBRARY = os.path.join(os.path.dirname(os.path.abspath(__file__)), "xet_shards", "libxet.so.*")


class PlatformDistribution(Distribution):
    """Has a shared object, though no extension module."""

    def has_ext_modules(self):
        return True


class BuildWithLibrary(build_py):
    def run(self):
        if not glob.glob(LIBRARY):
            raise SystemExit(
                f"{LIBRARY} is not there: install a wheel of a release, or run bindings/build.sh of the repository, "
                "which makes it"
            )
        super().run()


class WheelOfAnyPython(bdist_wheel):
    """The shared object is opened by ctypes, so any version of Python 3 will do."""

    def get_tag(self):
        # A release knows on which systems the library runs, and names them.
        return "py3", "none", os.environ.get("XET_WHEEL_PLATFORM") or super().get_tag()[2]


setup(
    distclass=PlatformDistribution,
    cmdclass={"build_py": BuildWithLibrary, "bdist_wheel": WheelOfAnyPython},
)
