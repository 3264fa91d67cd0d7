"""What the parts of a release share."""
import hashlib
import os
import subprocess

TOP = os.path.dirname(os.path.dirname(os.path.dirname(os.path.realpath(__file__))))
NAME = "xet-shards"
PLATFORM = "linux-x86_64"
PROGRAMS = ("mdb", "shardtool")


class Fault(Exception):
    """A release can't be made, and why."""


class Missing(Exception):
    """A part of a release can't be made here, since a tool is missing."""


def read(path, mode="r"):
    with open(path, mode, **({} if "b" in mode else {"encoding": "utf-8"})) as file:
        return file.read()


def write(path, content):
    with open(path, "wb") as file:
        file.write(content if isinstance(content, bytes) else content.encode())


VERSION = read(f"{TOP}/VERSION").strip()
# A program that was linked with a library runs with any that has the same name of this kind.
SONAME = f"libxet.so.{VERSION.split('.')[0]}"


def ran(*words, **named):
    """Runs a command, and returns what it prints."""
    named["env"] = {**os.environ, "LC_ALL": "C.UTF-8", **named.get("env", {})}
    try:
        run = subprocess.run(words, stdout=subprocess.PIPE, stderr=subprocess.STDOUT, check=False, **named)
    except OSError as error:
        raise Fault(str(error)) from error
    printed = run.stdout.decode("utf-8", "replace")
    if run.returncode:
        raise Fault(f"{' '.join(words)[:200]} ends with {run.returncode}:\n{printed[-2000:]}")
    return printed


def digest(content):
    return hashlib.sha256(content).hexdigest()


def git(*words):
    """Returns what git prints of the repository, or None where this is none, as in an unpacked archive."""
    try:
        return ran("git", "-C", TOP, *words)
    except Fault:
        return None


def moment():
    """Returns the time that all files of a release have, in seconds since 1970: that of the commit, if there is one."""
    # A wheel has no earlier time than the year 1980.
    return int(os.environ.get("SOURCE_DATE_EPOCH") or git("log", "-1", "--format=%ct") or 315532800)
