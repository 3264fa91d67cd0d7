"""What a program or a shared object needs of a system."""
import re

from .common import Fault, ran

# The names of tags for wheels from before PEP 600, which older pips know, with the version of glibc that each is for.
LEGACY = {(2, 5): "manylinux1", (2, 12): "manylinux2010", (2, 17): "manylinux2014"}
# Functions that are the same in each C library.
PLAIN = {"free", "malloc", "memcmp", "memcpy", "memmove", "memset", "realloc"}


def needs(path):
    """Returns the libraries that a file needs, and the least version of glibc that has all symbols that it names."""
    printed = ran("readelf", "--wide", "--dynamic", "--version-info", path)
    libraries = re.findall(r"\(NEEDED\).*\[(.*)\]", printed)
    wanted = printed.partition("Version needs section")[2]
    versions = []
    for name in re.findall(r"Name: (\S+)", wanted):
        found = re.fullmatch(r"GLIBC_(\d+(?:\.\d+)+)", name)
        if not found:
            raise Fault(f"{path} needs {name}, which is no public version of glibc")
        versions.append(tuple(int(it) for it in found[1].split(".")))
    return libraries, max(versions, default=(2, 5))[:2]


def called(path):
    """Returns the functions of other libraries that a shared object can't do without."""
    lines = ran("nm", "--dynamic", "--undefined-only", "--format=posix", path).splitlines()
    return {name.partition("@")[0] for name, kind in (it.split()[:2] for it in lines) if kind == "U"}


def wheel_platforms(path):
    """Returns the least demanding tags that are true of a wheel with this shared object, joined as a wheel has them.

    auditwheel gives the first: a wheel may need glibc alone, and of the others that the tags allow this one needs none.
    """
    libraries, least = needs(path)
    if libraries != ["libc.so.6"]:
        raise Fault(f"{path} needs {libraries}, so no tag of wheels for any Linux is true of it")
    named = [version for version in LEGACY if version >= least]
    # A name that older pips know costs nothing: no system has a glibc in between.
    glibc = LEGACY[min(named)] if named else f"manylinux_{least[0]}_{least[1]}"
    # The loader of musl takes libc.so.6 for itself, and passes over the versions of symbols.
    musl = ["musllinux_1_2"] if called(path) <= PLAIN else []
    return ".".join(f"{it}_x86_64" for it in [glibc, *musl])
