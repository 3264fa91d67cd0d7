"""What ties the binaries of a release to the sources that were proved, and what is in them."""
import json
import os
import re

from . import kit
from .common import NAME, TOP, VERSION, Fault, digest, git, ran, read


def bill():
    """Returns a bill of materials of the form CycloneDX: the crates of the repository and those of the toolchain."""
    own, others = kit.crates(kit.BINARIES)
    licence, toolchain = [{"license": {"id": "Apache-2.0"}}], ran("rt", "version").strip()
    return {
        "bomFormat": "CycloneDX",
        "specVersion": "1.5",
        "version": 1,
        "metadata": {
            "component": {"type": "library", "name": NAME, "version": VERSION},
            "tools": [{"name": "rt", "version": toolchain}],
        },
        "components": [
            {"type": "library", "group": NAME, "name": it, "version": VERSION, "licenses": licence} for it in own
        ] + [kit.component(it, toolchain.split()[0]) for it in others],
    }


def sources():
    """Returns the commit, the trees of the crates in it, and the files that are not as in it; or None without git."""
    commit = git("rev-parse", "HEAD")
    if not commit:
        return None
    rows = re.findall(r"^\d+ tree (\w+)\t(\S+)$", git("ls-tree", "HEAD", "crates/"), re.M)
    changed = [it[3:] for it in git("status", "--porcelain").splitlines()]
    return {"commit": commit.strip(), "changed": changed, "trees": {path: tree for tree, path in rows}}


def stated(of, built):
    """Returns the lines by which the gate says what it ran: the commit, if nothing was changed, and each binary."""
    commit = of["commit"] if of else "no commit"
    state = "HEAD with changes" if of and of["changed"] else "HEAD"
    return [f"release: {commit} {state}", *(f"release: {sum_of} {path}" for path, sum_of in built.items())]


def gate(log, of, built):
    """Returns what the gate printed last, once its output names this commit and these binaries, and failed nothing."""
    if log is None:
        return None
    if not of:
        raise Fault("this is no git repository, so the manifest could name no commit")
    if of["changed"]:
        raise Fault(f"these are not as in the commit: {', '.join(of['changed'])}")
    lines = read(log).splitlines()
    proofs = [it for it in lines if it.startswith("rt: ok")]
    if not proofs or not re.fullmatch(r"[1-9]\d* passed, 0 failed", lines[-1]):
        raise Fault(f"{log} has no line 'rt: ok', or does not end as the gate does when all has passed")
    lacking = [it for it in stated(of, built) if it not in lines]
    if lacking:
        raise Fault(f"{log} is of another commit or of other binaries, since it has no line '{lacking[0]}'")
    return {"sha256": digest(read(log, "rb")), "proofs": proofs[0], "last_line": lines[-1]}


def origin(paths, log):
    """Returns where what the gate built at these paths is from: the sources, and the gate whose output the log is."""
    of, built = sources(), {it: digest(read(f"{TOP}/{it}", "rb")) for it in paths}
    return {"sources": of, "built": built, "gate": gate(log, of, built)}


def manifest(found, of):
    """Returns the manifest of an archive with these files, which are from there."""
    listed = {}
    for path, file in sorted(found.items()):
        listed[path] = {"link": file.link} if file.link else {"sha256": digest(file.content)}
    return {
        "name": NAME,
        "version": VERSION,
        "toolchain": ran("rt", "version").strip(),
        "compiler": ran(os.environ.get("CC") or "cc", "--version").splitlines()[0],
        "files": listed,
        **of,
    }


def text(value):
    return json.dumps(value, indent=2, sort_keys=True) + "\n"
