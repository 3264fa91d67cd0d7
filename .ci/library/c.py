"""Checks of bindings/c, and of the library that it declares."""
import ctypes
import os
import re
import shlex
import shutil

from .common import (
    BINDINGS, SONAME, TOP, VERSION, Skip, error_constants, error_numbers, ran, read, read_bytes, sources,
)

CC = os.environ.get("CC") or "cc"
WARNINGS = ["-std=c11", "-Wall", "-Wextra", "-Werror"]
SANITIZERS = ["-fsanitize=address,undefined", "-fno-sanitize-recover=all", "-g"]


def check_errors():
    """The names and the numbers of errors are those that the library returns."""
    header = read(f"{BINDINGS}/c/xet.h")
    numbers = re.findall(r"XET_(\w+) = (\d+)\b", error_constants())
    constants = {int(number): name.title().replace("_", "") for name, number in numbers}
    texts = re.findall(r'"(\w+)"', header[header.index("names[]") : header.index("return error <")])
    if len(constants) < 2 or constants != {0: "Ok", **error_numbers()}:
        return "the errors of xet.h are not those of crates/xet_c"
    if dict(enumerate(texts)) != constants:
        return "the names of errors in xet.h are not those of its constants"
    enum = header[header.index("enum xet_error") : header.index("xet_error_name")]
    meant = re.findall(r"case (XET_\w+): return", header)
    returned = re.findall(r"^    (XET_\w+) = \d+,? +/\* [^*]|^    (XET_OK) = 0", enum, re.M)
    same = meant == [one or other for one, other in returned]
    return None if same else "xet_error_text has no text for an error, or one for a number that no call returns"


def check_header():
    """The header is C99 and C++."""
    strict = ["-pedantic-errors", *WARNINGS[1:], "-fsyntax-only"]
    program = f'#include "{BINDINGS}/c/xet.h"\nint main() {{ return xet_error_name(1) == 0; }}\n'
    why = ran(CC, "-std=c99", *strict, "-xc", "-", input=program)[1]
    if not why and not shutil.which("c++"):
        raise Skip("c++ is not there, so xet.h was not read as C++")
    return why or ran("c++", "-std=c++11", *strict, "-xc++", "-", input=program)[1]


def check_calls(library):
    """The shared object has the calls that crates/xet_c exports, and shows nothing else of the archive."""
    exported = set(re.findall(r'extern "C" fn (\w+)', sources()))
    declared = set(re.findall(r"^uint32_t (\w+)\(", read(f"{BINDINGS}/c/xet.h"), re.M))
    if exported != declared:
        return f"crates/xet_c exports {sorted(exported)}, and xet.h declares {sorted(declared)}"
    opened = ctypes.CDLL(library)
    missing = [it for it in exported if not hasattr(opened, it)]
    shown = [it for it in ("rattle_alloc", "rattle_realloc", "rattle_dealloc") if hasattr(opened, it)]
    return f"libxet.so lacks {missing} or shows {shown}" if missing or shown else None


def check_names(room):
    """The archive defines no global name but those of the calls."""
    if not shutil.which("objcopy") or not shutil.which("nm"):
        raise Skip("objcopy and nm are not there, so the names in libxet.a were not checked")
    printed, why = ran("nm", "--extern-only", "--defined-only", "--format=posix", f"{room}/lib/libxet.a")
    names = [it.split()[0] for it in printed.splitlines() if " " in it]
    others = [it for it in names if not it.startswith("xet_")]
    return why or (None if names and not others else f"libxet.a shows {others or 'nothing'}")


def check_installed(room, wanted):
    """By pkg-config a program is linked with the shared object, which it finds by its name for programs."""
    if not shutil.which("pkg-config"):
        raise Skip("pkg-config is not there, so xet.pc was not used")
    prefix = f"{room}/a prefix"
    named = {"PKG_CONFIG_PATH": f"{prefix}/lib/pkgconfig"}
    why = ran(f"{BINDINGS}/build.sh", prefix)[1]
    if why:
        return why
    printed, why = ran("pkg-config", "--cflags", "--libs", f"xet = {VERSION}", env=named)
    program = f"{room}/linked"
    why = why or ran(CC, *WARNINGS, f"{BINDINGS}/c/example.c", *shlex.split(printed), "-o", program)[1]
    if why:
        return why
    os.makedirs(f"{room}/alone")
    shutil.copy(f"{room}/lib/{SONAME}", f"{room}/alone/{SONAME}")
    words = ["first.mdb", "second.mdb", "linked_union.mdb"]
    why = ran(program, *words, cwd=room, env={"LD_LIBRARY_PATH": f"{room}/alone"})[1]
    if why:
        return why
    same = read_bytes(f"{room}/linked_union.mdb") == wanted
    return None if same else "example.c with the shared object writes other bytes"


CMAKE = """cmake_minimum_required(VERSION 3.16)
project(example C)
find_package(xet {} REQUIRED)
foreach(kind xet static)
  add_executable(with_${{kind}} {}/c/example.c)
  target_link_libraries(with_${{kind}} xet::${{kind}})
endforeach()
"""


def check_cmake(room, wanted):
    """By CMake's package file programs are linked with either library, and a later version is not found."""
    if not shutil.which("cmake"):
        raise Skip("cmake is not there, so the package file for it was not used")
    folder = f"{room}/by cmake"
    major, minor, patch = map(int, VERSION.split("."))
    os.makedirs(folder)
    refused = f"{major}.{minor}.{patch + 1}", f"{major + 1}"
    for asked in (*refused, VERSION, f"{major}.{minor}"):
        with open(f"{folder}/CMakeLists.txt", "w", encoding="utf-8") as file:
            file.write(CMAKE.format(asked, BINDINGS))
        words = ["-S", folder, "-B", f"{folder}/built", f"-DCMAKE_C_COMPILER={CC}"]
        why = ran("cmake", *words, f"-DCMAKE_PREFIX_PATH={room}/a prefix")[1]
        if bool(why) != (asked in refused):
            return why or f"CMake takes the version {VERSION} for {asked}"
    why = ran("cmake", "--build", f"{folder}/built")[1]
    for kind in ("xet", "static"):
        why = why or ran(f"{folder}/built/with_{kind}", "first.mdb", "second.mdb", f"{kind}.mdb", cwd=room)[1]
        if why:
            return why
        if read_bytes(f"{room}/{kind}.mdb") != wanted:
            return f"example.c with the target xet::{kind} writes other bytes"
    return None


def sanitizers(room, checks):
    """Returns the flags of the sanitizers if a program runs with them."""
    with open(f"{room}/nothing.c", "w", encoding="ascii") as file:
        file.write("int main(void) { return 0; }\n")
    program = f"{room}/nothing"
    why = ran(CC, *SANITIZERS, f"{room}/nothing.c", "-o", program)[1] or ran(program)[1]
    if why:
        checks.skip(Skip(f"{CC} has no sanitizers here, so the C programs ran without them"))
    return [] if why else SANITIZERS


def check_example(room, flags, wanted):
    """The C example writes the union, and names the error of a shard that is cut short."""
    program = f"{room}/example"
    _, why = ran(CC, *WARNINGS, *flags, f"{BINDINGS}/c/example.c", f"{room}/lib/libxet.a", "-o", program)
    why = why or ran(program, "first.mdb", "second.mdb", "c_union.mdb", cwd=room)[1]
    if why:
        return why
    if read_bytes(f"{room}/c_union.mdb") != wanted:
        return "example.c writes other bytes than the vector has"
    with open(f"{room}/cut.mdb", "wb") as file:
        file.write(wanted[:100])
    printed = ran(program, "first.mdb", "cut.mdb", "c_union.mdb", cwd=room)[0]
    return None if "cut.mdb: the bytes end too early" in printed else f"example.c prints of a shard that is cut short: {printed}"


# The results that calls on corrupted shards must have shown for a run to have tried anything.
SEEN = """Ok Io InternalError TruncatedHashCollision ShardVersion BadFilename InvalidShard InvalidArguments HashParsing
    Short Disagree Malformed""".split()


def check_fuzz(room):
    """All calls on corrupted shards, for half a minute."""
    printed, why = ran(f"{TOP}/fuzz/run.sh", "30", env={"XET_ARCHIVE": f"{room}/lib/libxet.a"})
    print("".join(f"bindings: {it}\n" for it in printed.splitlines() if it.startswith("fuzz: ")), end="")
    missing = [it for it in SEEN if not re.search(rf" {it} \d", printed)]
    return why or (f"no call on corrupted shards returned {missing}" if missing else None)


def check_refusals(room, flags, shard):
    """No refused allocation is seen but in the result, on shards with many records."""
    shards = [shard(), shard()]
    for at in range(40):
        segments = [f"{200 + it}:{it}:{it + 1}:9" for it in range(20)]
        shards[0].add_file(str(100 + at), "v=" + ",".join("365" for _ in segments), "s=9364", "x=777", *segments)
        shards[1].add_file(str(120 + at), *segments)
        for start, it in enumerate(shards):
            it.add_xorb(str(10 + at + 20 * start), *(f"{21 + at + chunk}:5" for chunk in range(20)))
    names = [f"{room}/{it}.mdb" for it in ("one", "other")]
    for name, it in zip(names, shards):
        with open(name, "wb") as file:
            file.write(it.written())
    program = f"{room}/refused_calls"
    words = [CC, *WARNINGS, *flags, f"-I{BINDINGS}/c", f"{TOP}/.ci/refused_calls.c", f"{room}/lib/libxet.a"]
    _, why = ran(*words, "-Wl,--wrap=malloc,--wrap=realloc", "-o", program)
    if why:
        return why
    printed, why = ran(program, *names)
    counts = [int(it) for it in re.findall(r": (\d+) refusals", printed)]
    # The last four do not allocate.
    if why or [it > 0 for it in counts] != [True] * 31 + [False] * 4:
        return why or f"refused_calls prints {printed}"
    print(f"bindings: {sum(counts)} refused allocations in {len(counts)} calls")
    return None
