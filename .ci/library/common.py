"""What the checks of .ci share."""
import glob
import os
import re
import subprocess
import sys

TOP = os.path.dirname(os.path.dirname(os.path.dirname(os.path.realpath(__file__))))
BINDINGS = f"{TOP}/bindings"
SOURCES = f"{TOP}/crates/xet_c/src"
# The numbers of the errors of the crates below.
ERRORS = f"{TOP}/crates/xet_base/src/error.rt"
# From nothing, `rt lib` proves the crate again.
SECONDS = 3600


# No part of the sources: what is built, and the history.
LEFT_OUT = (".git", "out", "target", "libxet.so*", "__pycache__")


class Skip(Exception):
    """A check can't be made here, since a tool is missing that .ci/setup installs. Where $CI is true it has failed."""


class OutOfReach(Skip):
    """A check can't be made here, since the system does not allow it, or Debian does not have its tool."""


def read(path):
    with open(path, encoding="utf-8") as file:
        return file.read()


def read_bytes(path):
    with open(path, "rb") as file:
        return file.read()


VERSION = read(f"{TOP}/VERSION").strip()
# The library for programs that were linked with it, and beside the Python module.
SONAME = f"libxet.so.{VERSION.split('.')[0]}"


def say(text):
    """Prints lines at once, and whole where threads print."""
    sys.stdout.write(f"{text}\n")
    sys.stdout.flush()


def ran(*words, **named):
    """Runs a command. Returns its output, and what is wrong with it, or None."""
    named["env"] = {**os.environ, "PYTHONDONTWRITEBYTECODE": "1", **named.get("env", {})}
    try:
        run = subprocess.run(
            words, stdout=subprocess.PIPE, stderr=subprocess.STDOUT, text=True, timeout=SECONDS, **named
        )
    except (OSError, subprocess.TimeoutExpired) as error:
        return "", str(error)
    last = "\n".join(run.stdout.splitlines()[-20:])
    return run.stdout, f"{os.path.basename(words[0])} ends with {run.returncode}:\n{last}" if run.returncode else None


def pages():
    """Returns the texts of all pages by their paths in the repository."""
    found = [it for depth in ("*", "*/*", "*/*/*") for it in glob.glob(f"{TOP}/{depth}.md")]
    return {os.path.relpath(it, TOP): read(it) for it in sorted(found)}


def sources():
    names = sorted(it for it in os.listdir(SOURCES) if it.endswith(".rt"))
    return "".join(read(f"{SOURCES}/{it}") for it in names)


def structs(text):
    """Returns the structs of calls in a source: of each its name, and its fields with their types."""
    found = re.findall(r"#\[repr\(C\)\]\n(?:#[^\n]*\n)*pub struct (\w+) \{\n(.*?)\n\}", text, re.S)
    return {name: re.findall(r"^    pub (\w+): (.*),$", body, re.M) for name, body in found}


def error_constants():
    """Returns the lines of xet.h that give errors their numbers."""
    header = read(f"{BINDINGS}/c/xet.h")
    return header[header.index("enum xet_error {") :].split("}")[0]


def error_numbers():
    """Returns the numbers of errors, with their names, by `variant_number` of crates/xet_base and by crates/xet_c."""
    numbers = {int(number): name for name, number in re.findall(r"CoreError::(\w+)(?:\(_\))? => (\d+),", read(ERRORS))}
    for constant, name in (("SHORT", "Short"), ("DISAGREE", "Disagree"), ("MALFORMED", "Malformed")):
        numbers[int(re.search(rf"XET_{constant}: u32 = (\d+);", sources())[1])] = name
    return numbers
