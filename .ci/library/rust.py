"""Checks of bindings/rust and of bindings/rust-compat."""
import os
import re
import shutil

from .common import BINDINGS, Skip, error_constants, error_numbers, ran, read, read_bytes, sources, structs
from .shards import FIRST, SECOND, THIRD, shard_of

CRATE = f"{BINDINGS}/rust"
# Both crates, the second over the first.
CRATES = ("rust", "rust-compat")
# Calls whose answer the crate writes itself: the text of a hash.
NOT_CALLED = {"xet_hash_to_hex", "xet_shard_name"}
# A program of the original, which prints how many files a shard has.
PROGRAM = """
use xet_core_structures::{error::Result, metadata_shard::MDBShardInfo};

fn main() -> Result<()> {
    let path = std::env::args().nth(1).expect("a path");
    let info = MDBShardInfo::load_from_reader(&mut std::fs::File::open(path)?)?;
    println!("{}", info.num_file_entries());
    Ok(())
}
"""
# The shards of the examples, by their records.
EXAMPLES = {"a": FIRST, "b": SECOND, "c": THIRD}


def source():
    return "".join(read(f"{CRATE}/src/{it}") for it in sorted(os.listdir(f"{CRATE}/src")))


def rust_type(text):
    """Returns the type of the crate for one of crates/xet_c."""
    return re.sub(r"\bXet(\w+)", r"\1", text).replace("&[&[u8]]", "&[Bytes]").replace("[u64; 4]", "Hash")


def calls(text, start):
    """Returns the functions that begin so, with their parameters, without the allocator."""
    found = {}
    for name, parameters in re.findall(rf"{start} (xet_\w+)\((.*?)\) -> u32", text, re.S):
        words = [re.sub(r"\s+", " ", it).strip() for it in parameters.split(",")]
        found[name] = [it for it in words if it and it != "alloc: Global"]
    return found


def check_declarations():
    """The functions, structs and errors are those of crates/xet_c."""
    text = source()
    exported = {name: [rust_type(it) for it in words] for name, words in calls(sources(), 'extern "C" fn').items()}
    wanted = {name: words for name, words in exported.items() if name not in NOT_CALLED}
    if not wanted or calls(text, "    fn") != wanted:
        return "the functions of bindings/rust are not those of crates/xet_c"
    own = structs(text)
    for name, fields in structs(sources()).items():
        # The crate's own hash is four words and nothing else.
        fields = [(field, rust_type(kind)) for field, kind in fields]
        if name != "XetHash" and own.get(rust_type(name)) != fields:
            return f"the fields of {rust_type(name)} in bindings/rust are not those of {name}"
    numbers = re.findall(r"^            (\d+) => Error::(\w+),", text, re.M)
    constants = re.findall(r"const (SHORT|DISAGREE|MALFORMED): u32 = (\d+);", text)
    numbers += [(number, name.title()) for name, number in constants]
    # Those that xet.h marks with a star no call returns.
    header = re.findall(r"^    XET_\w+ = (\d+),? +/\* (?!\* \*/)", error_constants(), re.M)
    returned = {number: error_numbers()[int(number)] for number in header}
    if not returned or dict(numbers) != returned:
        return "the errors of bindings/rust are not those of crates/xet_c"
    return None


def check_example_shards():
    """The shards of the examples are what docs/FORMAT.md says of their records."""
    for name, lines in EXAMPLES.items():
        if read_bytes(f"{CRATE}/examples/{name}.mdb") != shard_of(lines):
            return f"bindings/rust/examples/{name}.mdb is not the shard that it should be"
    return None


def cargo(crate, room, libraries, *words):
    """Runs cargo on a crate, without a network, and with what it builds in a room."""
    needed = re.search(r'^rust-version = "1\.(\d+)"$', read(f"{BINDINGS}/{crate}/Cargo.toml"), re.M)[1]
    found = re.match(r"cargo 1\.(\d+)\.", ran("cargo", "--version")[0])
    if not found or int(found[1]) < int(needed):
        raise Skip(f"cargo 1.{needed} is not there, so nothing of bindings/{crate} was built or run")
    return ran("cargo", *words, cwd=f"{BINDINGS}/{crate}", env=names(room, libraries))


def names(room, libraries):
    """Returns the variables by which cargo needs no network and finds the library."""
    return {"CARGO_NET_OFFLINE": "true", "CARGO_TARGET_DIR": f"{room}/target", "XET_LIB_DIR": libraries}


def check_form(crate, room, libraries):
    """The crate is written as cargo's tools want it."""
    # Two lints of Debian's clippy, of 1.63, which later ones no longer have by default.
    lints = ["-D", "warnings", "-A", "clippy::derive-partial-eq-without-eq", "-A", "clippy::redundant-clone"]
    for tool, words in (("fmt", ["--check"]), ("clippy", ["--quiet", "--all-targets", "--", *lints])):
        if cargo(crate, room, libraries, tool, "--version")[1]:
            raise Skip(f"cargo {tool} is not there, so the form of bindings/{crate} was not checked whole")
        why = cargo(crate, room, libraries, tool, *words)[1]
        if why:
            return why
    return None


def check_merge(room, libraries, wanted):
    """The example merges the two files."""
    words = ["run", "--quiet", "--example", "merge", "--", f"{room}/first.mdb", f"{room}/second.mdb"]
    why = cargo("rust", room, libraries, *words, "-o", f"{room}/rust_merged.mdb")[1]
    if why:
        return why
    same = read_bytes(f"{room}/rust_merged.mdb") == wanted
    return None if same else "the example of bindings/rust writes other bytes than the vector has"


def write_program(folder, name, dependency, source):
    """Writes a program of its own that has one dependency."""
    os.makedirs(f"{folder}/src")
    manifest = f'[package]\nname = "{name}"\nversion = "0.0.0"\nedition = "2021"\n[dependencies]\n{dependency}\n'
    for path, text in (("Cargo.toml", manifest), ("src/main.rs", source)):
        with open(f"{folder}/{path}", "w", encoding="utf-8") as file:
            file.write(text)


def check_renamed(room, libraries):
    """A program of the original is built over bindings/rust-compat by the one line of Cargo.toml that its page has."""
    # Where cargo is missing this is skipped.
    cargo("rust-compat", room, libraries, "--version")
    line = re.search(r"^xet-core-structures = .*$", read(f"{BINDINGS}/rust-compat/README.md"), re.M)[0]
    write_program(f"{room}/count", "count", line.replace("...", os.path.dirname(BINDINGS)), PROGRAM)
    words = ["run", "--quiet", f"{CRATE}/examples/a.mdb"]
    printed, why = ran("cargo", *words, cwd=f"{room}/count", env=names(room, libraries))
    return why or (None if printed == "1\n" else f"a program over bindings/rust-compat prints {printed!r}, not 1")


def check_found(room, libraries):
    """Outside of the repository the crate is linked with what pkg-config finds, also below a path with a space."""
    if not shutil.which("pkg-config"):
        raise Skip("pkg-config is not there, so bindings/rust was not built over what it finds")
    # Where cargo is missing this is skipped.
    cargo("rust", room, libraries, "--version")
    prefix, crate = f"{room}/found by cargo", f"{room}/outside/rust"
    shutil.copytree(CRATE, crate, ignore=shutil.ignore_patterns("target"))
    variables = {**names(room, ""), "PKG_CONFIG_PATH": f"{prefix}/lib/pkgconfig"}
    # An empty name would be that of a folder.
    del variables["XET_LIB_DIR"]
    why = ran(f"{BINDINGS}/build.sh", prefix)[1]
    return why or ran("cargo", "build", "--quiet", "--example", "merge", cwd=crate, env=variables)[1]


def run_tests(crate, room, libraries):
    """Returns how many tests passed, those in the documentation too, and what is wrong with the others."""
    printed, why = cargo(crate, room, libraries, "test", "--no-fail-fast")
    passed = sum(int(it) for it in re.findall(r"^test result: .* (\d+) passed", printed, re.M))
    if why is None and passed == 0:
        why = f"cargo test runs no test of bindings/{crate}"
    failed = re.findall(r"^test (.*) \.\.\. FAILED$", printed, re.M)
    return passed, [f"bindings/{crate}: {it} fails" for it in failed] or ([why] if why else [])
