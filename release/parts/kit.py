"""The crates whose code is in the binaries of a release, of the repository and of the toolchain, and their licences."""
import os
import re

from library.crates import kit as folder, reached, used_by, uses_of_library

from .common import PROGRAMS, read

# The crates whose code is in the binaries, with all that they use.
LIBRARY = ("xet_c",)
BINARIES = (*PROGRAMS, *LIBRARY)


def libraries(name):
    """Returns what a crate uses, of the repository or of the toolchain."""
    uses = used_by()
    return [*uses[name], "std"] if name in uses else uses_of_library(name)


def crates(programs):
    """Returns the crates of the repository whose code is in these, and those of the toolchain."""
    names, own = sorted(reached(programs, libraries)), used_by()
    return [it for it in names if it in own], [it for it in names if it not in own]


def texts(name):
    """Returns the names of a crate's licences, of which that of MIT is taken where there is a choice."""
    names = sorted(it for it in os.listdir(f"{folder()}/rattle/{name}") if it.startswith("LICENSE"))
    return [it for it in names if it != "LICENSE-APACHE" or "LICENSE-MIT" not in names]


def licences(programs):
    """Returns the texts of the licences of the toolchain's crates whose code is in these, by their names."""
    names = [(name, text) for name in crates(programs)[1] for text in texts(name)]
    return {f"{name}.{text}": read(f"{folder()}/rattle/{name}/{text}", "rb") for name, text in names}


def component(name, toolchain):
    """Returns what is known of a crate of the toolchain: which crate it is a port of, and its licences."""
    page = f"{folder()}/rattle/{name}/README.md"
    # The pages name the Rust crates that are ported, with their versions.
    of_name = rf"(?<![\w-]){name.replace('_', '[_-]')}(?:_builder)?`? (\d+\.\d+\.\d+)"
    ported = re.search(of_name, read(page)) if os.path.isfile(page) else None
    entry = {"type": "library", "group": "rattle", "name": name, "version": ported[1] if ported else toolchain}
    if ported:
        entry["description"] = f"a port of this version of the Rust crate {name}, of {toolchain}"
    known = {"LICENSE-MIT": {"id": "MIT"}}
    if texts(name):
        entry["licenses"] = [{"license": known.get(it, {"name": it})} for it in texts(name)]
    return entry
