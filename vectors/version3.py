#!/usr/bin/env python3
"""Adapts what the original crate prints of its shards, which are of version 2 of the format, to version 3.

The header of a shard has its version in eight bytes, from offset 32 on. `adapted` changes the first of them from 02
to 03 wherever a `hex` command prints it, and nothing else.

Run as a program, it prints how many outputs of vectors/original it changes.
"""
import os
import re

ORIGINAL = os.path.join(os.path.dirname(os.path.realpath(__file__)), "original")
VERSION_AT = 32
VERSION_2 = "0200000000000000"
HASH = "[0-9a-f]{64}"
FILE = rf"file {HASH} flags \d+ segments \d+ bytes \d+\n(?:seg {HASH} \d+ \d+ \d+\n)*(?:(?:ver|sha) {HASH}\n)*"
# What each command prints, other than `hex`. A command that is not listed prints nothing.
PRINTED = {
    "size": r"\d+\n",
    "find": rf"(?:none\n|{FILE})",
    "query": rf"(?:none\n|run \d+ {HASH} \d+ \d+ \d+\n)",
    "eligible": rf"(?:{HASH}\n)*",
}
# What is printed in place of this by the command that ends a script.
STOP = r"(?:refused: [^\n]*|line \d+: unreadable)\n"


def commands_of(script):
    """Returns the words of each command of a script."""
    lines = [line.removesuffix("\r") for line in script.split("\n")]
    return [line.split() for line in lines if line and not line.startswith("#")]


def range_of(words):
    """Returns the first offset and the length, or None for all, of the bytes that a `hex` command prints."""
    return (int(words[2]), int(words[3])) if len(words) == 4 else (0, None)


def pattern_of(words):
    """Returns a pattern of what a command prints, in which the digits of a `hex` command are a group."""
    name = words[0] if words else ""
    if name != "hex":
        return PRINTED.get(name, "")
    _, length = range_of(words)
    return r"([0-9a-f]*)\n" if length is None else r"([0-9a-f]{%d})\n" % (2 * length)


def commands_that_ran(commands, output):
    """Returns the commands of a script that did not end it, and the match of the output with what they print."""
    for count in range(len(commands), -1, -1):
        patterns = [pattern_of(words) for words in commands[:count]]
        stop = [STOP] if count < len(commands) else []
        match = re.fullmatch("".join(patterns + stop), output)
        if match:
            return commands[:count], match
    raise ValueError("its lines are not what the commands of the script print")


def adapted(script, output):
    """Returns the output of a script in version 3. It is a ValueError if that is not known."""
    ran, match = commands_that_ran(commands_of(script), output)
    printed = [words for words in ran if words[:1] == ["hex"]]
    for group, words in enumerate(printed, 1):
        start, end = match.span(group)
        at = start + 2 * (VERSION_AT - range_of(words)[0])
        if not start <= at < end:
            continue
        if not VERSION_2.startswith(output[at:end][: len(VERSION_2)]):
            raise ValueError(f"{' '.join(words)} prints no version 2 at offset {VERSION_AT}")
        output = output[:at] + "03" + output[at + 2 :]
    return output


def read(path):
    with open(path, encoding="ascii", newline="") as file:
        return file.read()


def main():
    names = sorted(it.removesuffix(".script") for it in os.listdir(ORIGINAL) if it.endswith(".script"))
    changed = 0
    for name in names:
        script, output = (read(f"{ORIGINAL}/{name}{ending}") for ending in (".script", ".stdout"))
        changed += adapted(script, output) != output
    print(f"{changed} of {len(names)} outputs change")


if __name__ == "__main__":
    main()
