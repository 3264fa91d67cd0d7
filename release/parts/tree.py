"""The files of a release, and archives of them that are the same bytes each time."""
import gzip
import io
import os
import re
import stat
import tarfile

from library.archive import is_of, sources

from . import kit, pages
from .common import NAME, PROGRAMS, SONAME, TOP, VERSION, Fault, ran, read

ARCHIVE = "crates/xet_c/out/libxet_c.a"
DOCUMENTS = {
    "LICENSE": "LICENSE", "NOTICE": "NOTICE", "CHANGELOG.md": "CHANGELOG.md", "README.md": "release/README.md",
    "SECURITY.md": "SECURITY.md", "example.c": "bindings/c/example.c",
}
# Two shards that agree, and one that disagrees with the first.
SHARDS = ("a.mdb", "b.mdb", "c.mdb")


class File:
    """A file of a release: its bytes, or the name that a link leads to."""

    def __init__(self, content, link=None, mode=0o644):
        self.content, self.link, self.mode = content, link, mode


def changed(crates):
    """Returns the time at which the code of one of these crates was last changed."""
    folders = [f"{TOP}/crates/{it}/src" for it in crates]
    return max(os.path.getmtime(f"{at}/{it}") for folder in folders for at, _, names in os.walk(folder) for it in names)


def built():
    """Returns the programs that the gate ran, and the archive that it tested, by their paths in the repository."""
    times = {f"crates/{it}/out/{it}": changed(kit.crates((it,))[0]) for it in PROGRAMS}
    made = {it: os.path.getmtime(f"{TOP}/{it}") if os.path.isfile(f"{TOP}/{it}") else 0 for it in times}
    stale = [it for it, time in times.items() if made[it] < time]
    # Of other sources bindings/build.sh would begin to prove the archive's anew.
    if not is_of(f"{TOP}/{ARCHIVE}", sources()):
        stale.append(ARCHIVE)
    if stale:
        raise Fault(f"{', '.join(stale)}: not there, or not of the sources that are here: .ci/run builds them")
    return [*times, ARCHIVE]


def installed(room):
    """Returns the files that bindings/build.sh installs, with an xet.pc that holds wherever they are unpacked."""
    ran(f"{TOP}/bindings/build.sh", f"{room}/installed", env={"DESTDIR": ""})
    found = {}
    for at, _, names in os.walk(f"{room}/installed"):
        for name in names:
            path = f"{at}/{name}"
            inside = os.path.relpath(path, f"{room}/installed")
            link = os.readlink(path) if os.path.islink(path) else None
            # A shared object need not be executable, and for Debian it must not be.
            found[inside] = File(b"" if link else read(path, "rb"), link)
    config = found["lib/pkgconfig/xet.pc"].content.decode()
    found["lib/pkgconfig/xet.pc"].content = re.sub(r"^prefix=.*", "prefix=${pcfiledir}/../..", config).encode()
    return found


def files(room):
    """Returns all files of the archive by their paths in it, but for the manifest."""
    found = {f"bin/{it}": File(read(f"{TOP}/crates/{it}/out/{it}", "rb"), mode=0o755) for it in PROGRAMS}
    found.update(installed(room))
    for name, text in pages.made(f"{TOP}/crates/mdb/out/mdb").items():
        found[pages.PLACES[name]] = File(text.encode())
    for name, source in DOCUMENTS.items():
        text = read(f"{TOP}/{source}")
        # Links that lead to pages of the repository lead nowhere in the archive.
        text = re.sub(r"\[([^\]]+)\]\((?!https?:)[^)]*\)", r"\1", text) if name.endswith(".md") else text
        found[f"share/doc/{NAME}/{name}"] = File(text.encode())
    for name in SHARDS:
        found[f"share/doc/{NAME}/{name}"] = File(read(f"{TOP}/bindings/rust/examples/{name}", "rb"))
    for name, text in kit.licences(kit.BINARIES).items():
        found[f"share/doc/{NAME}/licences/{name}"] = File(text)
    wanted = f"lib/libxet.so.{VERSION}", f"lib/{SONAME}"
    if any(it not in found for it in wanted):
        raise Fault(f"bindings/build.sh installs no {' or '.join(wanted)}")
    return found


def tar(found, folder, seconds):
    """Returns a compressed archive of files in a folder, with no trace of who made it and when."""
    raw = io.BytesIO()
    with tarfile.open(fileobj=raw, mode="w", format=tarfile.USTAR_FORMAT) as archive:
        for path in sorted(found):
            file, info = found[path], tarfile.TarInfo(f"{folder}/{path}")
            info.mtime, info.mode = seconds, file.mode
            if file.link:
                info.type, info.linkname = tarfile.SYMTYPE, file.link
                info.mode = stat.S_IRWXU | stat.S_IRWXG | stat.S_IRWXO
                archive.addfile(info)
            else:
                info.size = len(file.content)
                archive.addfile(info, io.BytesIO(file.content))
    return gzip.compress(raw.getvalue(), 9, mtime=0)
