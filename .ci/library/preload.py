"""Shared libraries in C that are preloaded into a program, built by the toolchain's compiler."""
import subprocess

from .common import TOP
from .crates import kit


def build(name, folder):
    """Builds .ci/NAME.c in a folder, and returns the name of the shared library."""
    tools = f"{kit()}/toolchain/bin"
    compiled, linked = f"{folder}/{name}.o", f"{folder}/{name}.so"
    compiler = [f"{tools}/clang", "--target=x86_64-unknown-linux-gnu", "-O1", "-fPIC"]
    subprocess.run([*compiler, "-c", f"{TOP}/.ci/{name}.c", "-o", compiled], check=True)
    subprocess.run([f"{tools}/ld.lld", "-shared", compiled, "-o", linked], check=True)
    return linked
