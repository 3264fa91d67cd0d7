"""The packages for Python and Rust."""
import os
import pathlib
import shutil
import sys

from . import elf, kit, tree
from .common import NAME, SONAME, TOP, VERSION, Fault, Missing, ran, read, write

BINDINGS = f"{TOP}/bindings"


def builder():
    """Returns a Python that has what pyproject.toml asks for."""
    program = "import setuptools, wheel; assert int(setuptools.__version__.split('.')[0]) >= 61"
    for python in (sys.executable, "/usr/bin/python3"):
        try:
            ran(python, "-c", program)
            return python
        except Fault:
            continue
    raise Missing("no Python here has the packages setuptools, of 61 or later, and wheel, so there is no wheel")


def wheel(found, room, seconds):
    """Returns the wheel with the shared object of the archive in it, by its name."""
    python = builder()
    package = f"{room}/python"
    left_out = shutil.ignore_patterns("libxet.so*", "__pycache__", "build", "*.egg-info", "tests", "examples")
    shutil.copytree(f"{BINDINGS}/python", package, ignore=left_out)
    library = f"{package}/xet_shards/{SONAME}"
    write(library, found[f"lib/libxet.so.{VERSION}"].content)
    # The files that pyproject.toml names as licences begin so.
    for name, text in kit.licences(kit.LIBRARY).items():
        write(f"{package}/LICENSE.{name.replace('.LICENSE', '')}", text)
    for at, _, names in os.walk(package):
        for name in names:
            os.chmod(f"{at}/{name}", 0o644)
    named = {"SOURCE_DATE_EPOCH": str(seconds), "PYTHONDONTWRITEBYTECODE": "1"}
    named["XET_WHEEL_PLATFORM"] = elf.wheel_platforms(library)
    ran(python, "setup.py", "--quiet", "bdist_wheel", "--dist-dir", room, cwd=package, env=named)
    (name,) = [it for it in os.listdir(room) if it.endswith(".whl")]
    return name


def crate(room):
    """Returns the crate as cargo packs it, which finds an installed library by pkg-config, by its name."""
    if not shutil.which("cargo"):
        raise Missing("cargo is not there, so there is no crate")
    words = ["package", "--quiet", "--no-verify", "--allow-dirty", "--offline", "--target-dir", f"{room}/target"]
    ran("cargo", *words, cwd=f"{BINDINGS}/rust")
    name = f"{NAME}-{VERSION}.crate"
    shutil.move(f"{room}/target/package/{name}", f"{room}/{name}")
    return name


def compatible_crate(room, seconds):
    """Returns the crate with the original's names, which uses the other where it is unpacked beside it, by its name.

    Cargo packs no crate that uses one which is in no registry.
    """
    top, folder = f"{BINDINGS}/rust-compat", f"{NAME}-compat-{VERSION}"
    names = [os.path.relpath(it, top) for it in pathlib.Path(top, "src").rglob("*.rs")]
    names += ["Cargo.toml", "LICENSE", "NOTICE", "README.md"]
    found = {it: tree.File(read(f"{top}/{it}", "rb")) for it in names}
    text = found["Cargo.toml"].content
    found["Cargo.toml"].content = text.replace(b'path = "../rust"', f'path = "../{NAME}-{VERSION}"'.encode())
    if found["Cargo.toml"].content == text:
        raise Fault("bindings/rust-compat/Cargo.toml names no path ../rust")
    write(f"{room}/{folder}.crate", tree.tar(found, folder, seconds))
    return f"{folder}.crate"
