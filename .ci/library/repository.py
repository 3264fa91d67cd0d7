"""Checks of what holds of the whole repository: its version, and its licence."""
import os
import re

from .common import BINDINGS, TOP, VERSION, read

# The files that state the version, and how. The file VERSION is where it is changed.
VERSIONS = {
    "CHANGELOG.md": r"^## (\S+)",
    "bench/Cargo.toml": r'^version = "(.*)"$',
    "bench/slowest/Cargo.toml": r'^version = "(.*)"$',
    "bindings/c/xet.h": r'^#define XET_VERSION "(.*)"$',
    "bindings/python/xet_shards/__init__.py": r'^__version__ = "(.*)"$',
    "bindings/rust/Cargo.toml": r'^version = "(.*)"$',
    "bindings/rust-compat/Cargo.toml": r'^version = "(.*)"$',
    "crates/mdb_command_line/src/lib.rt": r'^const VERSION: &str = "(\S+), ',
    "diff/Cargo.toml": r'^version = "(.*)"$',
}


def check_versions():
    """Each version is that of the file VERSION."""
    for name, pattern in VERSIONS.items():
        found = re.search(pattern, read(f"{TOP}/{name}"), re.M)
        if not found or found[1] != VERSION:
            return f"the version in {name} is {found and found[1]}, and that in VERSION {VERSION}"
    first, second, third = (int(it) for it in VERSION.split("."))
    numbers = [re.search(r"^#define XET_VERSION_NUMBER (\d+)", read(f"{BINDINGS}/c/xet.h"), re.M)[1]]
    numbers += re.findall(r"result ≡ (\d+)", read(f"{TOP}/crates/xet_c/src/release.rt"))
    if {int(it) for it in numbers} != {10000 * first + 100 * second + third} or len(numbers) != 2:
        return f"the numbers of the version are {numbers}"
    return None


def check_licence():
    """Packages of the bindings carry the licence and the notice."""
    for package in ("python", "rust", "rust-compat"):
        for name in ("LICENSE", "NOTICE"):
            if not os.path.isfile(f"{BINDINGS}/{package}/{name}"):
                return f"bindings/{package} has no {name}"
            if read(f"{BINDINGS}/{package}/{name}") != read(f"{TOP}/{name}"):
                return f"bindings/{package}/{name} is not that of the repository"
    return None
