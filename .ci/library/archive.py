"""Builds the archive of crates/xet_c over the libraries that `rt ci` has proved.

`rt lib`, which bindings/build.sh calls where there is no archive, takes nothing from `rt ci`: it would prove all
libraries below once more, which takes 50 minutes of processor time, and more where a proof has several processors.

Beside the archive a file has the hash of what it was built of. As a program this prints that hash of the sources that
are here. Times would not do: a copy of old sources is new, and a file that is moved into place may be old. `rt ci`
drops the archive, so a second one is kept in bindings/out.
"""
import hashlib
import os
import shutil

from .common import TOP, ran, read
from .crates import below, files, is_proved, kit, rattle, used_by

CRATE = "xet_c"
ARCHIVE = f"{TOP}/crates/{CRATE}/out/lib{CRATE}.a"
KEPT = f"{TOP}/bindings/out/lib{CRATE}.a"


def sources(crate=CRATE):
    """Returns the hash of the toolchain's line, and of the sources of the crate and of all crates below."""
    uses = used_by()
    crates = sorted({crate} | below(crate, uses))
    hashed = hashlib.sha256(repr((ran("rt", "version"), [(it, uses[it]) for it in crates])).encode())
    for path in (path for crate in crates for path in files(crate)):
        hashed.update(repr((os.path.relpath(path, TOP), read(path))).encode())
    return hashed.hexdigest()


def is_of(archive, found):
    """Whether an archive is there that was built of the sources with this hash."""
    return all(map(os.path.exists, (archive, f"{archive}.of"))) and read(f"{archive}.of").strip() == found


def copy(archive, to):
    os.makedirs(os.path.dirname(to), exist_ok=True)
    # The hash last, so that it never stands beside half an archive or another one.
    if os.path.exists(f"{to}.of"):
        os.remove(f"{to}.of")
    for ending in ("", ".of"):
        shutil.copy(archive + ending, to + ending)


def build():
    """Builds the archive, if none of these sources is there, and all libraries below are there and newer than theirs.

    Returns what is wrong, or None.
    """
    found = sources()
    if is_of(ARCHIVE, found):
        return None
    if is_of(KEPT, found):
        copy(KEPT, ARCHIVE)
        return None
    if not all(map(is_proved, below(CRATE, used_by()))):
        return None
    why = compiled()
    if why is None:
        with open(f"{ARCHIVE}.of", "w", encoding="ascii") as file:
            print(found, file=file)
        copy(ARCHIVE, KEPT)
    return why


def compiled():
    """Builds the archive over the libraries that are there. Returns what is wrong, or None."""
    words = [*rattle("build", CRATE), "--toolchain", f"{kit()}/toolchain", "-o", ARCHIVE]
    os.makedirs(os.path.dirname(ARCHIVE), exist_ok=True)
    return ran(*words, cwd=f"{TOP}/crates/{CRATE}")[1]


if __name__ == "__main__":
    print(sources())
