"""Prints the version of the module, that of the library, and the path of the library: python -m xet_shards"""
from __future__ import annotations

import argparse
import ctypes
import os
from ctypes import byref, c_char_p, c_void_p

from . import __version__
from ._calls import _library, _version


class _Place(ctypes.Structure):
    """Dl_info of the C library: where an address is."""

    _fields_ = [("path", c_char_p), ("base", c_void_p), ("symbol", c_char_p), ("address", c_void_p)]


def library_path() -> str:
    """Returns the path of the library that is loaded, also where the system looked for it."""
    place = _Place()
    ctypes.CDLL(None).dladdr(ctypes.cast(_library.xet_version, c_void_p), byref(place))
    return os.path.abspath(os.fsdecode(place.path))


def main() -> None:
    what = "Prints the version of the module, that of the library, and the path of the library."
    argparse.ArgumentParser(prog="python -m xet_shards", description=what).parse_args()
    print(f"xet_shards {__version__}")
    print(f"libxet {_version(_library.xet_version())}")
    print(library_path())


if __name__ == "__main__":
    main()
