"""A wheel that has a library of one machine is no wheel for all."""

from setuptools import setup
from setuptools.dist import Distribution


class WithLibrary(Distribution):
    """The package has machine code, though no module of it was compiled."""

    def has_ext_modules(self) -> bool:
        return True


setup(distclass=WithLibrary)
