"""Runs the commands and the blocks of code of pages as they stand there.

Words in capitals, as FIRST, and `FILE..` are names of files here, so that no command has to be changed.
"""
import os
import pathlib
import re
import shutil
import sys
from contextlib import ExitStack

from . import shards
from .c import CC, WARNINGS
from .common import BINDINGS, LEFT_OUT, SONAME, TOP, VERSION, Skip, ran, read
from .python import builder, needs_venv, python_for
from .rust import names, write_program

# The pages whose commands use what the repository builds, the one that builds it first, and the page of a release.
PAGES = (
    "bindings/README.md", "README.md", "bindings/python/README.md", "bindings/rust/README.md", "crates/mdb/README.md",
)
RELEASE = "release/README.md"
# The program, in crates.
MDB = "mdb/out/mdb"
# Commands of README.md that use a release.
OF_RELEASE = (
    "tar xzf xet-shards-*-linux-x86_64.tar.gz && xet-shards-*/bin/mdb --help",
    "pip install ./xet_shards-*.whl",
)
# Commands that no check runs, with the reason.
NOT_RUN = {
    "sudo apt install ./xet-mdb_*.deb ./libxet0_*.deb ./libxet-dev_*.deb": "root alone may; the packages are unpacked",
    ".ci/test": "it runs this",
    "(cd crates/mdb && rt run -- --help)": "it would prove again what rt ci has proved",
    "cargo run --manifest-path bindings/rust/Cargo.toml --example range_reads -- URL file HASH":
        "it needs a server, which the crate's tests have",
    ".ci/run | tee ../gate.log": "it is the gate itself",
    "release/make FOLDER --gate ../gate.log": "it needs the gate's whole output; release/make is run without it",
}
COPIES = {"one.mdb": "FIRST", "other.mdb": "SECOND", "large.mdb": "FIRST", "FILE..": "FIRST"}
HASH = f"{100:016x}{1:016x}{0:032x}"
# A cp as on a full disk: it writes the beginning of a file, and fails.
FULL = """#!/bin/sh
for to; do :; done
[ ! -d "$to" ] || to=$to/${1##*/}
echo half >"$to"
exit 1
"""
# What stands before a block of Python, and around one of Rust or C.
PYTHON = f"""
import pathlib, xet_shards
one, other = (pathlib.Path(name).read_bytes() for name in ("one.mdb", "other.mdb"))
shard, file_hash, chunk_hashes = one, "{HASH}", ["{21:016x}{1:016x}{0:032x}"]
"""
RUST = """
#[allow(unused_variables)]
fn block_{number}() -> Result<(), Box<dyn std::error::Error>> {{
    let (one, other) = (std::fs::read("one.mdb")?, std::fs::read("other.mdb")?);
    let file_hash: xet_shards::Hash = [100, 1, 0, 0].into();
{block}    Ok(())
}}
"""
C = """#include "xet.h"
uint32_t block(const xet_bytes *shards, uint8_t *out, size_t capacity) {{
    size_t written;
{block}    return error;
}}
"""


def blocks(page, language):
    """Returns the blocks of a language in a page."""
    return re.findall(rf"^```{language}\n(.*?)^```", read(f"{TOP}/{page}"), re.S | re.M)


def commands(page):
    """Returns the commands in a page, without their comments."""
    lines = [re.sub(r"\s+# .*", "", line) for block in blocks(page, "sh") for line in block.splitlines()]
    return [it for it in lines if it]


def check_listed():
    """Each command that is not run, or only with a release, stands in a page."""
    there = {command for page in (*PAGES, RELEASE) for command in commands(page)}
    stale = sorted({*NOT_RUN, *OF_RELEASE} - there)
    return f"no page has these commands: {stale}" if stale else None


def write_files(folder):
    """Writes the files that commands name, as docs/FORMAT.md has their bytes."""
    shards.write(folder, {"FIRST": shards.FIRST, "SECOND": shards.SECOND})
    for name, source in COPIES.items():
        shutil.copy(f"{folder}/{source}", f"{folder}/{name}")


class Tree:
    """A copy of the repository, with what the gate has built, in which commands are run."""

    def __init__(self, room):
        self.room, self.folder = room, f"{room}/tree"
        shutil.copytree(TOP, self.folder, ignore=shutil.ignore_patterns(*LEFT_OUT))
        for path in ("xet_c/out/libxet_c.a", "xet_c/out/libxet_c.a.of", MDB):
            os.makedirs(os.path.dirname(f"{self.folder}/crates/{path}"), exist_ok=True)
            shutil.copy(f"{TOP}/crates/{path}", f"{self.folder}/crates/{path}")
        write_files(self.folder)
        self.variables = {
            **names(room, ""), "HASH": HASH, "XET_LIBRARY": "", "PYTHONPATH": "",
            "PATH": f"{self.folder}/bin:{self.folder}/crates/mdb/out:{os.environ['PATH']}",
            "PKG_CONFIG_PATH": f"{self.folder}/PREFIX/lib/pkgconfig", "LD_LIBRARY_PATH": f"{self.folder}/PREFIX/lib",
            "PIP_NO_INDEX": "1", "PIP_NO_BUILD_ISOLATION": "0",
        }
        # The pages leave it unset.
        del self.variables["XET_LIB_DIR"]

    def give(self, path, script):
        """Writes a program to a path in the tree."""
        path = f"{self.folder}/{path}"
        os.makedirs(os.path.dirname(path), exist_ok=True)
        with open(path, "w", encoding="utf-8") as file:
            file.write(script)
        os.chmod(path, 0o755)

    def give_pip(self):
        """Puts a pip on the path whose Python can build wheels without a network."""
        self.give("bin/pip", f'#!/bin/sh\nexec {builder("pip")} -m pip "$@"\n')

    def run(self, page, *words, **variables):
        """Runs a command. Returns what is wrong with it, or None."""
        why = ran(*words, cwd=self.folder, env={**self.variables, **variables})[1]
        return f"{page}: {words[-1].strip()}: {why}" if why else None


def check_command(tree, page, command):
    """A command of a page ends well."""
    for tool in ("cargo", "pkg-config"):
        if re.search(rf"\b{tool}\b", command) and not shutil.which(tool):
            raise Skip(f"{tool} is not there, so this command of {page} was not run: {command}")
    if command.startswith("pip "):
        tree.give_pip()
    return tree.run(page, "sh", "-ec", command)


def installed():
    """Returns the paths in a tree of the files that build.sh makes, without a folder and with the folder PREFIX."""
    return [
        "bindings/out/libxet.a", f"bindings/python/xet_shards/{SONAME}", "PREFIX/include/xet.h", "PREFIX/lib/libxet.a",
        f"PREFIX/lib/libxet.so.{VERSION}", "PREFIX/lib/pkgconfig/xet.pc",
        *(f"PREFIX/lib/cmake/xet/xet-config{it}.cmake" for it in ("", "-version")),
    ]


def check_replaced(tree):
    """build.sh puts new files in place of those that are there. Where a copy fails these stay, with nothing beside."""
    paths = [pathlib.Path(tree.folder, it) for it in installed()]
    tree.give("full/cp", FULL)

    def build(path):
        runs = [tree.run("bindings", "bindings/build.sh", *words, PATH=path) for words in ([], ["PREFIX"])]
        return [it for it in runs if it]

    def found():
        return [(sorted(os.listdir(it.parent)), it.read_bytes()) for it in paths]

    before = found()
    if len(build(f"{tree.folder}/full:{tree.variables['PATH']}")) < 2 or found() != before:
        return "bindings/build.sh changes files where a copy fails, or ends well"
    with ExitStack() as opened:
        files = [opened.enter_context(it.open("rb")) for it in paths]
        why = build(tree.variables["PATH"])
        same = [it.name for it in files if os.path.samestat(os.fstat(it.fileno()), os.stat(it.name))]
    return why[0] if why else f"bindings/build.sh writes over {same}" if same else None


def check_python(tree, page, block):
    """A block of Python in a page runs."""
    modules = sorted(set(re.findall(r"\b(?:distributed|numpy|pandas)\b", block)))
    why = f"no Python here has {' and '.join(modules)}, so a block of Python in {page} was not run"
    python = python_for(f"import {', '.join(['sys', *modules])}", why)
    return tree.run(page, python, "-c", PYTHON + block, PYTHONPATH="bindings/python")


def check_rust(tree):
    """The blocks of Rust that call the crate run, as functions of one program."""
    if not shutil.which("cargo"):
        raise Skip("cargo is not there, so no block of Rust in pages was run")
    found = [it for page in PAGES for it in blocks(page, "rust") if "xet_shards::" in it]
    functions = "".join(RUST.format(number=at, block=block) for at, block in enumerate(found))
    calls = "".join(f"    block_{at}().unwrap();\n" for at in range(len(found)))
    dependency = f'xet-shards = {{ path = "{tree.folder}/bindings/rust" }}'
    write_program(f"{tree.room}/blocks", "blocks", dependency, f"{functions}\nfn main() {{\n{calls}}}\n")
    return tree.run("pages", "cargo", "run", "--quiet", "--manifest-path", f"{tree.room}/blocks/Cargo.toml")


def check_c():
    """The blocks of C that make calls compile."""
    for block in (it for page in PAGES for it in blocks(page, "c")):
        program = C.format(block=block)
        why = ran(CC, *WARNINGS, f"-I{BINDINGS}/c", "-fsyntax-only", "-xc", "-", input=program)[1]
        if why:
            return f"{block.strip()}: {why}"
    return None


def run_pages(checks, room):
    """Runs the commands and blocks of the pages that need no release."""
    checks.run(check_listed)
    checks.run(check_c)
    tree = Tree(room)
    for page in PAGES:
        for command in commands(page):
            if command not in NOT_RUN and command not in OF_RELEASE:
                checks.run(check_command, tree, page, command)
    for page in PAGES:
        for block in blocks(page, "python"):
            checks.run(check_python, tree, page, block)
    checks.run(check_rust, tree)
    checks.run(check_replaced, tree)


def check_release(release):
    """The commands of README.md and of release/README.md that use a release end well."""
    needs_venv("the commands of pages on a release were not run")
    folder = f"{release.room}/pages"
    os.makedirs(folder)
    for name in os.listdir(release.folder):
        os.symlink(f"{release.folder}/{name}", f"{folder}/{name}")
    os.symlink(release.top, f"{folder}/TOP")
    write_files(folder)
    why = release.ran(sys.executable, "-m", "venv", "environment", cwd=folder)[1]
    named = {"PATH": f"{folder}/environment/bin:{release.path}", "PIP_NO_INDEX": "1"}
    for script in (*OF_RELEASE, "\n".join(it for it in commands(RELEASE) if it not in NOT_RUN)):
        why = why or release.ran("sh", "-ec", script, cwd=folder, env=named)[1]
    return why
