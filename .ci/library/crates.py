"""The crates of the repository and those that they use, and what `rattle` is told of one."""
import os
import re
import shutil

from .common import TOP, read


def used_by():
    """Returns for each crate of crates.txt the crates and the libraries of the toolchain that it uses."""
    rows = re.findall(r"^(\w+)[^:\n]*:(.*)$", read(f"{TOP}/crates.txt"), re.M)
    return {name: used.split() for name, used in rows}


def is_static(crate):
    """Whether a crate is a static library, of which no check leaves a library for other crates."""
    return bool(re.search(rf"^{crate} staticlib:", read(f"{TOP}/crates.txt"), re.M))


def reached(names, uses):
    """Returns these crates and all that they use, by a function that says which ones a crate uses itself."""
    found, left = set(), list(names)
    while left:
        name = left.pop()
        if name not in found:
            found.add(name)
            left += uses(name)
    return found


def below(crate, uses):
    """Returns all crates below a crate."""
    return reached([crate], lambda name: [it for it in uses[name] if it in uses]) - {crate}


def files(crate):
    """Returns the paths of a crate's sources."""
    folders = [f"{TOP}/crates/{crate}/{it}" for it in ("src", "specs", "proofs")]
    return sorted(f"{at}/{name}" for it in folders for at, _, names in os.walk(it) for name in names)


def texts(crate):
    """Returns the texts of a crate's sources by their paths in its folder."""
    return {os.path.relpath(it, f"{TOP}/crates/{crate}"): read(it) for it in files(crate)}


def library(crate):
    return f"{TOP}/crates/{crate}/out/rlib/{crate}.rlib"


def is_proved(crate):
    """Whether a crate's library is there, and came there after its sources were written.

    One that rt took over from another checkout was made earlier.
    """
    made = library(crate)
    return os.path.exists(made) and os.path.getctime(made) >= max(map(os.path.getmtime, files(crate)))


def kit():
    """Returns the folder of the toolchain."""
    there = shutil.which("rt")
    if not there:
        raise FileNotFoundError("rt is not on the path")
    return os.path.dirname(os.path.dirname(os.path.realpath(there)))


def uses_of_library(name):
    """Returns the libraries that one of the toolchain uses."""
    return re.findall(r"^dep (\w+)$", read(f"{kit()}/rlibs/{name}.rlib/format"), re.M)


def rattle(verb, crate):
    """Returns the command by which `rattle` reads a crate, over the libraries below that are there, in its folder."""
    uses = used_by()
    words = [f"{kit()}/bin/rattle", verb, "--crate-name", crate, "src/lib.rt", "-L", f"dependency={kit()}/rlibs"]
    for it in ["std", *uses[crate]]:
        words += ["--extern", f"{it}={library(it) if it in uses else f'{kit()}/rlibs/{it}.rlib'}"]
    for it in sorted(below(crate, uses)):
        words += ["-L", f"dependency={os.path.dirname(library(it))}"]
    words += ["--antt-project", f"{kit()}/rattle/logic/antt-project.json", "--logic-built", f"{kit()}/logic_built"]
    kind = ["--crate-type", "staticlib"] if is_static(crate) else []
    return [*words, *kind, "--links", f"{crate}="]
