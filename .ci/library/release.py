"""Checks of what release/make makes, where the toolchain is hidden."""
import hashlib
import json
import os
import re
import shlex
import shutil
import sys
import tarfile
import zipfile

from . import commands, shards
from .c import CC, WARNINGS
from .common import BINDINGS, SONAME, TOP, VERSION, OutOfReach, Skip, ran, read, read_bytes
from .crates import kit
from .python import TESTS, needs_venv, note_skipped
from .rust import PROGRAM, write_program
from .shards import FIRST, SECOND

FOLDER = f"xet-shards-{VERSION}-linux-x86_64"


def digest(path):
    return hashlib.sha256(read_bytes(path)).hexdigest()


def make(folder, *words, **named):
    return ran(sys.executable, f"{TOP}/release/make", folder, *words, **named)


def check_same(room, checks):
    """The release has the same bytes when it is made again, elsewhere and by someone else."""
    printed, why = make(f"{room}/one")
    os.makedirs(f"{room}/other room")
    mask = os.umask(0o077)
    why = why or make(f"{room}/other room/two", cwd="/", env={"TZ": "Asia/Tokyo", "TMPDIR": f"{room}/other room"})[1]
    os.umask(mask)
    if why:
        return why
    for line in printed.splitlines():
        if line.startswith("release: left out: "):
            checks.skip(Skip(line.removeprefix("release: ")))
    names = sorted(os.listdir(f"{room}/one"))
    if names != sorted(os.listdir(f"{room}/other room/two")):
        return "the release has other files when it is made again"
    differ = [it for it in names if digest(f"{room}/one/{it}") != digest(f"{room}/other room/two/{it}")]
    return f"made again, these have other bytes: {', '.join(differ)}" if differ else None


def parts():
    """Returns the modules of which release/make is made."""
    sys.path.insert(0, f"{TOP}/release")
    import parts as found
    from parts import common, elf, manifest  # noqa: F401

    return found


def stated(release):
    """Returns the lines that name the commit and what the gate ran, for release/make --gate."""
    return parts().manifest.stated(release.manifest["sources"], release.built())


def hiding(checks):
    """Returns the words before a command that let it see an empty folder in place of the toolchain's.

    Where the system refuses that there are none, and the toolchain is taken off the path.
    """
    script = 'mount -t tmpfs none "$0" && exec "$@"'
    for flags in (["--mount"], ["--mount", "--map-root-user"]):
        words = ["unshare", *flags, "sh", "-c", script, kit()]
        if ran(*words, "true")[1] is None:
            return words, os.environ["PATH"]
    checks.skip(OutOfReach("the toolchain's folder can't be hidden, so it is off the path alone"))
    return [], os.pathsep.join(it for it in os.environ["PATH"].split(os.pathsep) if not os.path.exists(f"{it}/rt"))


class Release:
    """A release that was made in a folder, unpacked in a room."""

    def __init__(self, folder, room, checks):
        self.folder, self.room, self.checks = folder, room, checks
        self.hidden, self.path = hiding(checks)
        with tarfile.open(f"{folder}/{FOLDER}.tar.gz") as archive:
            archive.extractall(f"{room}/unpacked")
        self.top = f"{room}/unpacked/{FOLDER}"
        self.manifest = json.loads(read(f"{folder}/MANIFEST.json"))
        # Two shards, and both together.
        shards.write(room, {"first.mdb": FIRST, "second.mdb": SECOND, "wanted.mdb": FIRST + SECOND})

    def built(self):
        """Returns the hashes of what the gate built and ran."""
        return self.manifest["built"]

    def ran(self, *words, **named):
        """Runs a command that sees no toolchain."""
        named.setdefault("cwd", self.room)
        named["env"] = {"PATH": self.path, "XET_LIBRARY": "", "PYTHONPATH": "", **named.get("env", {})}
        return ran(*self.hidden, *words, **named)

    def found(self, ending):
        """Returns the path of the one file of the release with this ending."""
        names = [it for it in os.listdir(self.folder) if it.endswith(ending)]
        if not names:
            raise Skip(f"the release has no {ending} here")
        (name,) = names
        return f"{self.folder}/{name}"

    def is_union(self, name):
        """Returns what is wrong with a file that has to be the union of both shards, or None."""
        same = digest(f"{self.room}/{name}") == digest(f"{self.room}/wanted.mdb")
        return None if same else f"{name} of the release is not the union that docs/FORMAT.md gives"


def check_hidden(release):
    """No command of these checks has the toolchain."""
    return "rt runs where it should be hidden" if release.ran("rt", "version")[1] is None else None


def check_sums(release):
    """SHA256SUMS names all files of the release, and the manifest those of the archive, by their hashes."""
    lines = [it.split("  ") for it in read(f"{release.folder}/SHA256SUMS").splitlines()]
    if sorted(name for _, name in lines) != sorted(set(os.listdir(release.folder)) - {"SHA256SUMS"}):
        return "SHA256SUMS does not name all files of the release"
    wrong = [name for wanted, name in lines if digest(f"{release.folder}/{name}") != wanted]
    for name, entry in release.manifest["files"].items():
        path = f"{release.top}/{name}"
        same = os.readlink(path) == entry["link"] if "link" in entry else digest(path) == entry["sha256"]
        wrong += [] if same else [name]
    for path, wanted in release.built().items():
        wrong += [] if digest(f"{TOP}/{path}") == wanted else [path]
    return f"these have other hashes than the release says: {', '.join(wrong)}" if wrong else None


def check_gate(release):
    """The output of a gate is taken only if it ended well, and names the commit and the binaries that are here."""
    manifest, fault = parts().manifest, parts().common.Fault
    of, built = {"commit": "0" * 40, "changed": []}, release.built()
    lines, last = ["rt: ok; every proof was done", *manifest.stated(of, built)], "9 passed, 0 failed"
    taken = []
    for changed, output in (
        ([], [*lines, last]), ([], [*lines, "9 passed, 1 failed"]), ([], lines), ([], []), ([], [*lines[1:], last]),
        ([], [lines[0], *lines[2:], last]), ([], [*lines[:-1], last]), (["VERSION"], [*lines, last]),
        ([], [lines[0], *manifest.stated({**of, "changed": ["VERSION"]}, built), last]),
    ):
        log = f"{release.room}/gate.log"
        with open(log, "w", encoding="utf-8") as file:
            file.write("".join(f"{it}\n" for it in output))
        try:
            taken.append(manifest.gate(log, {**of, "changed": changed}, built)["sha256"] == digest(log))
        except fault:
            taken.append(False)
    return None if taken == [True] + [False] * 8 else f"outputs of a gate are taken or not: {taken}"


def check_made_of_log(release):
    """Of the output of a gate that passed a release is made, unless the tree is not as in the commit."""
    log, folder, sources = f"{release.room}/whole.log", f"{release.room}/of_log", release.manifest["sources"]
    with open(log, "w", encoding="utf-8") as file:
        print("rt: ok", *stated(release), "1 passed, 0 failed", sep="\n", file=file)
    why = make(folder, "--gate", log)[1]
    if not sources or sources["changed"]:
        is_refused = why and re.search("not as in the commit|no git repository", why)
        return None if is_refused else f"release/make --gate takes a tree with changes: {why}"
    if why:
        return why
    same = json.loads(read(f"{folder}/MANIFEST.json"))["gate"]["sha256"] == digest(log)
    same = same and sorted(os.listdir(folder)) == sorted(os.listdir(release.folder))
    return None if same else "release/make --gate makes other files, or does not name the output"


def check_programs(release):
    """The programs of the archive print what those of the gate have to print."""
    printed, why = release.ran(f"{release.top}/bin/mdb", "info", "plain.mdb", cwd=f"{TOP}/crates/mdb/data")
    if why or printed != read(f"{TOP}/crates/mdb/stdout"):
        return why or "mdb of the archive prints of plain.mdb what it should not"
    with open(f"{TOP}/crates/shardtool/stdin", encoding="utf-8") as script:
        printed, why = release.ran(f"{release.top}/bin/shardtool", stdin=script)
    same = printed == read(f"{TOP}/crates/shardtool/stdout")
    return why or (None if same else "shardtool of the archive prints what it should not")


def check_pages(release):
    """The manual page and the completions name each command, and bash can read its own."""
    commands = re.findall(r"^  ([\w-]+) ", release.ran(f"{release.top}/bin/mdb", "--help")[0], re.M)
    share = f"{release.top}/share"
    names = (
        "man/man1/mdb.1", "bash-completion/completions/mdb", "fish/vendor_completions.d/mdb.fish",
        "zsh/site-functions/_mdb",
    )
    for name in names:
        lacking = sorted(set(commands) - {"help"} - set(re.findall(r"[\w-]+", read(f"{share}/{name}"))))
        if lacking or len(commands) < 10:
            return f"{name} of the archive lacks {', '.join(lacking)}"
    if not shutil.which("bash"):
        raise Skip("bash is not there, so its completions were not tried")
    with open(f"{release.room}/two words.mdb", "wb"):
        pass
    for words, wanted in ("mdb mer", "merge"), ("mdb info two", "two words.mdb"), ("mdb merge -o two", "two words.mdb"):
        *_, before, word = words.split()
        count = len(words.split()) - 1
        script = (
            f". '{share}/{names[1]}'; COMP_WORDS=({words}) COMP_CWORD={count}; _mdb mdb {word} {before}; "
            'printf "%s;" "${COMPREPLY[@]}"'
        )
        printed, why = release.ran("bash", "-c", script)
        if why or printed != f"{wanted};":
            return why or f"bash completes '{words}' to {printed}"
    return None


def check_c(release):
    """By the archive's xet.pc, where it was unpacked, C programs are linked with both libraries."""
    if not shutil.which("pkg-config"):
        raise Skip("pkg-config is not there, so xet.pc of the release was not used")
    named = {"PKG_CONFIG_PATH": f"{release.top}/lib/pkgconfig"}
    flags, why = release.ran("pkg-config", "--cflags", "--libs", f"xet = {VERSION}", env=named)
    source = f"{release.top}/share/doc/xet-shards/example.c"
    alone = [f"-I{release.top}/include", f"{release.top}/lib/libxet.a"]
    for name, words in (("shared", shlex.split(flags)), ("static", alone)):
        why = why or release.ran(CC, *WARNINGS, source, *words, "-o", f"{release.room}/{name}")[1]
        found = {"LD_LIBRARY_PATH": f"{release.top}/lib"} if name == "shared" else {}
        inputs = ("first.mdb", "second.mdb", f"{name}.mdb")
        why = why or release.ran(f"{release.room}/{name}", *inputs, env=found)[1] or release.is_union(f"{name}.mdb")
    return why


def check_wheel(release):
    """The wheel is installed in a fresh environment, and all tests of the module pass there."""
    wheel = release.found(".whl")
    with zipfile.ZipFile(wheel) as file:
        library = hashlib.sha256(file.read(f"xet_shards/{SONAME}")).hexdigest()
    if library != release.manifest["files"][f"lib/libxet.so.{VERSION}"]["sha256"]:
        return "the wheel has another library than the archive"
    needs_venv("the wheel was not installed")
    why = release.ran(sys.executable, "-m", "venv", "fresh")[1]
    install = ["fresh/bin/python", "-m", "pip", "install", "--quiet", "--no-index", wheel]
    why = why or release.ran(*install)[1]
    if why:
        return why
    # Beside the tests there is no module, so they import that of the wheel.
    for name in ("tests", "examples"):
        left_out = shutil.ignore_patterns("__pycache__")
        shutil.copytree(f"{BINDINGS}/python/{name}", f"{release.room}/bindings/python/{name}", ignore=left_out)
    os.symlink(f"{TOP}/vectors", f"{release.room}/vectors")
    return run_python_tests(release)


def run_python_tests(release):
    """Returns how many tests of the module that need nothing else passed in the fresh environment, or what is wrong."""
    passed = 0
    for name in TESTS:
        printed, why = release.ran("fresh/bin/python", f"bindings/python/tests/{name}")
        counts = re.search(r"^([1-9]\d*) passed, 0 failed$", printed, re.M)
        if why or not counts:
            return why or f"{name} over the wheel prints {printed}"
        note_skipped(release.checks, printed)
        passed += int(counts[1])
    return passed, []


def build_program(release, name, dependency, source):
    """Builds a fresh program with one dependency, over the library that pkg-config finds. Returns what is wrong."""
    folder = f"{release.room}/{name}"
    write_program(folder, name, dependency, source)
    named = {"PKG_CONFIG_PATH": f"{release.top}/lib/pkgconfig", "CARGO_TARGET_DIR": f"{release.room}/built"}
    return release.ran("cargo", "build", "--quiet", "--offline", cwd=folder, env=named)[1]


def check_crates(release):
    """Fresh programs that use the crates are linked with the library that pkg-config finds."""
    crates = [release.found(f"{it}-{VERSION}.crate") for it in ("xet-shards", "xet-shards-compat")]
    if not shutil.which("cargo") or not shutil.which("pkg-config"):
        raise Skip("cargo or pkg-config is not there, so the crates of the release were not used")
    for crate in crates:
        with tarfile.open(crate) as archive:
            archive.extractall(release.room)
    merge = read(f"{release.room}/xet-shards-{VERSION}/examples/merge.rs")
    why = build_program(release, "merge", f'xet-shards = {{ path = "../xet-shards-{VERSION}" }}', merge)
    compatible = f'{{ package = "xet-shards-compat", path = "../xet-shards-compat-{VERSION}" }}'
    why = why or build_program(release, "count", f"xet-core-structures = {compatible}", PROGRAM)
    built, words = f"{release.room}/built/debug", ["first.mdb", "second.mdb", "-o", "rust.mdb"]
    why = why or release.ran(f"{built}/merge", *words)[1] or release.is_union("rust.mdb")
    if why:
        return why
    printed, why = release.ran(f"{built}/count", "rust.mdb")
    return why or (None if printed == "2\n" else f"a program over the crate xet-shards-compat prints {printed!r}")


def check_debian(release):
    """The packages have the program, the library and what links with it, in the places of a system."""
    names = [it for it in os.listdir(release.folder) if it.endswith(".deb")]
    if not names:
        raise Skip("the release has no packages for Debian here")
    system = f"{release.room}/system"
    for name in names:
        why = release.ran("dpkg-deb", "--extract", f"{release.folder}/{name}", system)[1]
        if why:
            return why
    why = release.ran(f"{system}/usr/bin/mdb", "union", "first.mdb", "second.mdb", "-o", "debian.mdb")[1]
    if why:
        return why
    library = f"{system}/usr/lib/x86_64-linux-gnu/libxet.so"
    if digest(library) != release.manifest["files"][f"lib/libxet.so.{VERSION}"]["sha256"]:
        return "the package for Debian has another library than the archive"
    return release.is_union("debian.mdb")


def check_systems(release):
    """The page says of each binary which glibc it needs."""
    elf = parts().elf
    page = read(f"{TOP}/release/README.md")
    binaries = {"bin/mdb": "the programs need", "bin/shardtool": "the programs need"}
    binaries[f"lib/libxet.so.{VERSION}"] = "the shared object"
    for path, name in binaries.items():
        libraries, least = elf.needs(f"{release.top}/{path}")
        text = f"{name} glibc {'.'.join(map(str, least))}"
        if libraries != ["libc.so.6"] or not re.search(rf"{re.escape(text)}\b(?!\.\d)", " ".join(page.split())):
            return f"{path} needs {', '.join(libraries)}, and release/README.md does not say: {text}"
    return None


CHECKS = (
    check_hidden, check_sums, check_gate, check_made_of_log, check_programs, check_pages, check_c, check_wheel,
    check_crates, check_debian, check_systems, commands.check_release,
)
