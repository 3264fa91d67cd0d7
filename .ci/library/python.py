"""Checks of bindings/python."""
import ctypes
import os
import re
import shutil
import sys
import zipfile

from .c import CC, WARNINGS
from .common import BINDINGS, SONAME, VERSION, OutOfReach, Skip, error_numbers, ran, read_bytes, sources, structs

MODULE = f"{BINDINGS}/python"
# Programs in the folder of the module's tests that need nothing else.
TESTS = ("test_vectors.py", "test_index.py", "test_ranges.py", "test_shard.py", "test_range_reads.py")
# Those that need numpy, and a cluster.
TABLES, CLUSTER = "test_tables.py", "test_cluster.py"
# What some tests need and .ci/setup does not install: Debian lacks it, or starts it as a service.
NOT_INSTALLED = ("pyarrow", "nginx")

# The types of fields, in Rattle and in the Python module.
TYPES = {
    "bool": ctypes.c_bool, "u32": ctypes.c_uint32, "u64": ctypes.c_uint64, "usize": ctypes.c_size_t,
    "[u64; 4]": ctypes.c_uint64 * 4, "[u64; 6]": ctypes.c_uint64 * 6,
}
# The structs of crates/xet_c, in the Python module and in xet.h.
STRUCTS = {
    "XetHash": ("_Hash", "xet_hash"), "XetSegment": ("_Segment", "xet_segment"), "XetInfo": ("_Info", "xet_info"),
    "XetMergeOptions": ("_MergeOptions", "xet_merge_options"),
    "XetExportOptions": ("_ExportOptions", "xet_export_options"),
    "XetMinimalOptions": ("_MinimalOptions", "xet_minimal_options"),
    "XetSubsetOptions": ("_SubsetOptions", "xet_subset_options"),
    "XetFile": ("_File", "xet_file"), "XetFileSegment": ("_FileSegment", "xet_file_segment"),
    "XetDisagreement": ("_Disagreement", "xet_disagreement"), "XetPlace": ("_Place", "xet_place"),
    "XetFinding": ("_Finding", "xet_finding"), "XetXorb": ("_Xorb", "xet_xorb"), "XetChunk": ("_Chunk", "xet_chunk"),
    "XetListedFile": ("_ListedFile", "xet_listed_file"), "XetListedXorb": ("_ListedXorb", "xet_listed_xorb"),
    "XetCounts": ("_Counts", "xet_counts"), "XetChunkRow": ("_ChunkRow", "xet_chunk_row"),
    "XetChunkPlace": ("_ChunkPlace", "xet_chunk_place"),
}


def check_errors(module):
    """The names and the numbers of errors are those that the library returns."""
    same = dict(enumerate(module._errors._NAMES, 1)) == error_numbers()
    return None if same else "the errors of the Python module are not those of crates/xet_c"


def places(there, struct):
    """Returns the lines of C that say that a struct of xet.h has its fields where the Python module has them."""
    lines = [f'_Static_assert(sizeof({there}) == {ctypes.sizeof(struct)}, "{there}");']
    for field, _ in struct._fields_:
        at = getattr(struct, field)
        lines.append(
            f'_Static_assert(offsetof({there}, {field}) == {at.offset} && '
            f'sizeof((({there} *)0)->{field}) == {at.size}, "{there}.{field}");'
        )
    return lines


def check_structs(module):
    """The structs have the fields, types and places of those of crates/xet_c."""
    found, there = structs(sources()), module._structs
    if sorted(found) != sorted(STRUCTS):
        return f"crates/xet_c has the structs {', '.join(found)}"
    types = {**TYPES, **{name: getattr(there, it) for name, (it, _) in STRUCTS.items()}}
    # A slice in a list of slices, which is no struct of crates/xet_c.
    lines = ['#include "xet.h"', *places("xet_bytes", there._ShardBytes)]
    for name, fields in found.items():
        if [(field, types[kind]) for field, kind in fields] != types[name]._fields_:
            return f"{STRUCTS[name][0]} of the Python module is not {name}"
        lines += places(STRUCTS[name][1], types[name])
    return ran(CC, *WARNINGS, f"-I{BINDINGS}/c", "-fsyntax-only", "-xc", "-", input="\n".join(lines) + "\n")[1]


def check_merge(room, wanted, named):
    """The example merges the two files, and leaves the output as it was where an input is no shard."""
    program = f"{MODULE}/examples/merge.py"
    with open(f"{room}/no_shard.mdb", "wb"):
        pass
    for inputs, is_refused in ((("first.mdb", "second.mdb"), False), (("first.mdb", "no_shard.mdb"), True)):
        printed, why = ran(sys.executable, program, *inputs, "-o", "merged.mdb", cwd=room, env=named)
        if is_refused != bool(why) or is_refused != ("merge.py: the shard at 1: the bytes end" in printed):
            return why or f"merge.py prints {printed}"
        if read_bytes(f"{room}/merged.mdb") != wanted:
            return "merge.py writes other bytes than the vector has"
    return "merge.py leaves a file behind" if [it for it in os.listdir(room) if it.endswith(".new")] else None


def check_made_shards(room, named):
    """The example writes shards that the library loads and merges to one."""
    _, why = ran(sys.executable, f"{MODULE}/examples/made_shards.py", "made", "--shards", "3", "--xorbs", "4", cwd=room)
    names = [f"made/{it}.mdb" for it in range(3)]
    printed = ""
    if not why:
        words = [sys.executable, f"{MODULE}/examples/merge.py", *names, "-o", "made/all.mdb", "--strict"]
        printed, why = ran(*words, cwd=room, env=named)
    # Half of each shard's xorbs are in the next one.
    wanted = "made/all.mdb: 64 files, 8 xorbs, 512 chunks\n"
    return why or (None if printed == wanted else f"merge.py prints {printed}")


def check_types():
    """mypy finds nothing in the module and the examples."""
    if not shutil.which("mypy"):
        raise Skip("mypy is not there, so the types of the Python module were not checked")
    return ran("mypy", "--strict", "--cache-dir", os.devnull, "xet_shards", "examples", cwd=MODULE)[1]


def modules():
    """Returns the names of the package's modules."""
    return sorted(it.removesuffix(".py") for it in os.listdir(f"{MODULE}/xet_shards") if it.endswith(".py"))


def copied(room, library):
    """Copies the Python package into a room, with the library if it is given, and returns its folder."""
    folder = f"{room}/package"
    shutil.rmtree(folder, ignore_errors=True)
    left_out = shutil.ignore_patterns("libxet.so*", "__pycache__", "build", "*.egg-info")
    shutil.copytree(MODULE, folder, ignore=left_out)
    if library:
        shutil.copy(library, f"{folder}/xet_shards/{SONAME}")
    return folder


def check_package(room, library):
    """The module opens the library beside it, which is no module in its help."""
    names = "*(module.name for module in pkgutil.iter_modules(it.__path__))"
    program = f"import pkgutil, xet_shards as it; print({names}, it.__version__)"
    folder = copied(room, library)
    printed, why = ran(sys.executable, "-c", program, cwd=room, env={"PYTHONPATH": folder, "XET_LIBRARY": ""})
    wanted = f"{' '.join([*modules()[1:], VERSION])}\n"
    return why or (None if printed == wanted else f"the package shows {printed}")


def python_for(program, why):
    """Returns a Python that runs a program, or skips the check."""
    for python in (sys.executable, "/usr/bin/python3"):
        if not ran(python, "-c", program)[1]:
            return python
    raise Skip(why)


def needs_venv(undone):
    """Skips a check, of which this was not done, where this Python can't make environments."""
    if ran(sys.executable, "-c", "import ensurepip, venv")[1]:
        raise Skip(f"this Python has no venv, so {undone}")


def builder(*others):
    """Returns a Python that can build wheels: it has what pyproject.toml asks for, and other modules."""
    names = ", ".join(["setuptools", "wheel", *others])
    return python_for(
        f"import {names}; assert int(setuptools.__version__.split('.')[0]) >= 61",
        f"no Python here has all of {names}, with setuptools of 61 or later, so no wheel was built",
    )


def check_wheel(room, library):
    """A wheel has the platform's tag, the library and the licence, and is not built without the library."""
    python = builder()
    program = "import sys; from setuptools import build_meta; build_meta.build_wheel(sys.argv[1])"
    printed, why = ran(python, "-c", program, room, cwd=copied(room, None))
    if not why or "run bindings/build.sh" not in printed:
        return f"a wheel is built without the library: {printed}"
    _, why = ran(python, "-c", program, room, cwd=copied(room, library))
    if why:
        return why
    wheel = f"{room}/xet_shards-{VERSION}-py3-none-linux_x86_64.whl"
    if not os.path.isfile(wheel):
        return f"no {os.path.basename(wheel)} is built, but {[it for it in os.listdir(room) if it.endswith('.whl')]}"
    with zipfile.ZipFile(wheel) as file:
        names = {os.path.basename(it) for it in file.namelist()}
    missing = {*(f"{it}.py" for it in modules()), "py.typed", SONAME, "LICENSE", "NOTICE"} - names
    return f"the wheel lacks {sorted(missing)}" if missing else None


def check_tests():
    """The files of tests are those that are run."""
    there = {it for it in os.listdir(f"{MODULE}/tests") if it.startswith("test_") and it.endswith(".py")}
    differ = there ^ {*TESTS, TABLES, CLUSTER}
    return f"these tests of bindings/python are not run, or not there: {sorted(differ)}" if differ else None


def run_table_tests(checks, named):
    """Runs the tests of tables, as `run_tests` does."""
    why = "no Python here has the package numpy, so no tables were tested"
    return run_tests(checks, TABLES, named, python_for("import numpy", why))


def run_cluster_tests(checks, named):
    """Runs the tests of merges on a cluster, as `run_tests` does."""
    why = "no Python here has the package distributed, so no merge on a cluster was tested"
    return run_tests(checks, CLUSTER, named, python_for("import distributed", why))


def note_skipped(checks, printed):
    """Notes the tests that Python tests say they skipped."""
    for test, tool in re.findall(r"^skipped (\w+): (\w+)", printed, re.M):
        checks.skip((OutOfReach if tool in NOT_INSTALLED else Skip)(f"{test}: {tool} is not there"))


def run_tests(checks, file, named, python=sys.executable):
    """Returns how many Python tests of a file passed, and what is wrong with those that failed."""
    printed, why = ran(python, f"{MODULE}/tests/{file}", env=named)
    lines = printed.splitlines()
    note_skipped(checks, printed)
    # Workers of a cluster print as well, and some after the tests have ended.
    found = [it for it in (re.fullmatch(r"(\d+) passed, (\d+) failed", line) for line in lines) if it]
    counts = found[-1] if found else None
    failed = [it for it in lines if it.startswith("test_")] if counts and counts[2] != "0" else []
    if not counts or (why and not failed) or counts[1] == "0":
        return 0, [why or "the Python tests end without their counts"]
    return int(counts[1]), [f"{failed[at] if at < len(failed) else 'a test failed'}" for at in range(int(counts[2]))]
