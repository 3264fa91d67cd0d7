"""Packages for Debian and what follows it, made by dpkg-deb alone."""
import gzip
import hashlib
import os
import re
import shutil
import time

from . import elf, kit
from .common import NAME, SONAME, TOP, VERSION, Missing, git, ran, read, write
from .tree import SHARDS

LIBRARY = "usr/lib/x86_64-linux-gnu"
REVISION = f"{VERSION}-1"
RUNTIME = f"libxet{SONAME.rpartition('.')[2]}"
TEXT = {
    "xet-mdb": ("utils", "look into metadata shards of Xet storage", """\
 The program mdb lists what is in .mdb files, the metadata shards of Hugging
 Face's Xet storage, checks them, and looks up and merges them. It is written
 in Rattle, in which each function is proved to meet its contract."""),
    RUNTIME: ("libs", "metadata shards of Xet storage, as bytes", """\
 The library merges, looks up, checks and exports the metadata shards of
 Hugging Face's Xet storage: bytes in, bytes or an answer out. Its functions
 are proved to meet their contracts on any bytes, corrupt ones too."""),
    "libxet-dev": ("libdevel", "metadata shards of Xet storage, files for developers", """\
 The library merges, looks up, checks and exports the metadata shards of
 Hugging Face's Xet storage: bytes in, bytes or an answer out.
 .
 This package has the header, the archive, and what pkg-config and CMake read."""),
}


def placed(found):
    """Returns for each package its files, by their paths on a system."""
    own = f"lib/libxet.so.{VERSION}"
    of_mdb = ("bin/mdb", "share/man/", "share/bash-completion/", "share/zsh/", "share/fish/")
    tools = {path: f"usr/{path}" for path in found if path.startswith(of_mdb)}
    tools.update({f"share/doc/{NAME}/{it}": f"usr/share/doc/xet-mdb/examples/{it}" for it in SHARDS})
    runtime = {path: f"{LIBRARY}/{os.path.basename(path)}" for path in (own, f"lib/{SONAME}")}
    cmake = (f"lib/cmake/xet/xet-config{it}.cmake" for it in ("", "-version"))
    rest = ("lib/libxet.a", "lib/libxet.so", "lib/pkgconfig/xet.pc", *cmake)
    developing = {path: f"{LIBRARY}/{path[4:]}" for path in rest}
    developing["include/xet.h"] = "usr/include/xet.h"
    developing["share/doc/xet-shards/example.c"] = "usr/share/doc/libxet-dev/examples/example.c"
    return {"xet-mdb": tools, RUNTIME: runtime, "libxet-dev": developing}


def config(text):
    """Returns an xet.pc for the folders of a system."""
    text = re.sub(r"^prefix=.*", "prefix=/usr", text, flags=re.M)
    return re.sub(r"^libdir=.*", f"libdir=${{prefix}}/{LIBRARY[4:]}", text, flags=re.M)


def copyright_text(programs):
    """Returns the notice, and the licences of all whose code is in a package."""
    own = read(f"{TOP}/NOTICE") + "\nOn Debian its text is in /usr/share/common-licenses/Apache-2.0.\n"
    texts = [f"{'-' * 80}\n{name}\n\n{text.decode()}" for name, text in kit.licences(programs).items()]
    return "\n".join([own, "With code of the toolchain's libraries, whose licences follow.\n", *texts])


def changelog(package, maintainer, seconds):
    """Returns the list of changes, compressed, of which a release has one."""
    day = time.strftime("%a, %d %b %Y %H:%M:%S +0000", time.gmtime(seconds))
    text = f"{package} ({REVISION}) unstable; urgency=medium\n\n  * Release {VERSION}.\n\n -- {maintainer}  {day}\n"
    return gzip.compress(text.encode(), 9, mtime=0)


def put(folder, path, file):
    """Writes a file of the release to its place in a package."""
    target = f"{folder}/{path}"
    os.makedirs(os.path.dirname(target), exist_ok=True)
    if file.link:
        os.symlink(file.link, target)
        return
    content = file.content
    if path.endswith("xet.pc"):
        content = config(content.decode()).encode()
    if path.startswith("usr/share/man/"):
        target, content = f"{target}.gz", gzip.compress(content, 9, mtime=0)
    write(target, content)
    os.chmod(target, file.mode)


def control(package, folder, least, maintainer):
    """Returns what Debian's tools read of a package that needs this glibc, or the package of the shared object."""
    section, about, text = TEXT[package]
    size = sum(os.lstat(f"{at}/{it}").st_size for at, _, names in os.walk(f"{folder}/usr") for it in names)
    glibc = f"libc6 (>= {'.'.join(map(str, least))})"
    depends = f"{RUNTIME} (= {REVISION})" if package == "libxet-dev" else glibc
    same = "Multi-Arch: same\n" if package != "xet-mdb" else ""
    return (
        f"Package: {package}\nSource: xet-shards\nVersion: {REVISION}\nArchitecture: amd64\nMaintainer: {maintainer}\n"
        f"Installed-Size: {size // 1024 + 1}\nDepends: {depends}\nSection: {section}\nPriority: optional\n{same}"
        f"Description: {about}\n{text}\n"
    )


def sums(folder):
    """Returns the hashes of a package's files, as Debian's tools read them."""
    paths = sorted(f"{at}/{it}" for at, _, names in os.walk(f"{folder}/usr") for it in names)
    lines = [
        f"{hashlib.md5(read(it, 'rb')).hexdigest()}  {os.path.relpath(it, folder)}\n"
        for it in paths if not os.path.islink(it)
    ]
    return "".join(lines)


def extras(package, folder, seconds, maintainer):
    """Writes what Debian wants in each package, and what the shared object needs to be found."""
    documents = f"{folder}/usr/share/doc/{package}"
    os.makedirs(documents, exist_ok=True)
    write(f"{documents}/copyright", copyright_text(kit.BINARIES if package == "xet-mdb" else kit.LIBRARY))
    write(f"{documents}/changelog.Debian.gz", changelog(package, maintainer, seconds))
    if package != "libxet-dev":
        # The binaries are those that the gate ran, so nothing is taken out of them.
        os.makedirs(f"{folder}/usr/share/lintian/overrides")
        # Of one library both licences stand in one file, of which this is the other one.
        tags = ["unstripped-binary-or-object"]
        tags += ["copyright-file-contains-full-apache-2-license"] if package == "xet-mdb" else []
        write(f"{folder}/usr/share/lintian/overrides/{package}", "".join(f"{package}: {it}\n" for it in tags))
    if package == RUNTIME:
        name, _, number = SONAME.partition(".so.")
        write(f"{folder}/DEBIAN/shlibs", f"{name} {number} {RUNTIME} (>= {VERSION})\n")
        write(f"{folder}/DEBIAN/triggers", "activate-noawait ldconfig\n")


def build(package, paths, found, room, seconds):
    """Makes a package of these files in a room, and returns its name."""
    maintainer = os.environ.get("DEBEMAIL") or git("log", "-1", "--format=%an <%ae>") or "unknown <unknown>"
    maintainer = maintainer.strip()
    folder = f"{room}/{package}"
    os.makedirs(f"{folder}/DEBIAN")
    for path, target in sorted(paths.items()):
        put(folder, target, found[path])
    extras(package, folder, seconds, maintainer)
    binaries = [f"{folder}/{it}" for it in paths.values() if it == "usr/bin/mdb" or it.endswith(f".so.{VERSION}")]
    least = max((elf.needs(it)[1] for it in binaries), default=(2, 5))
    write(f"{folder}/DEBIAN/control", control(package, folder, least, maintainer))
    write(f"{folder}/DEBIAN/md5sums", sums(folder))
    name = f"{package}_{REVISION}_amd64.deb"
    words = ["--root-owner-group", "-Zxz", "--build", folder, f"{room}/{name}"]
    ran("dpkg-deb", *words, env={"SOURCE_DATE_EPOCH": str(seconds)})
    return name


def packages(found, room, seconds):
    """Returns the names of the packages that it makes in a room."""
    if not shutil.which("dpkg-deb"):
        raise Missing("dpkg-deb is not there, so there are no packages for Debian")
    return [build(name, paths, found, room, seconds) for name, paths in placed(found).items()]
