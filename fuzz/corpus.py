#!/usr/bin/env python3
"""Writes the shards that are corrupted: corpus.py FOLDER"""
import os
import pathlib
import sys

TOP = os.path.dirname(os.path.dirname(os.path.realpath(__file__)))
sys.dont_write_bytecode = True
sys.path.insert(0, f"{TOP}/bindings/python/examples")

from made_shards import Shard, made_shard  # noqa: E402


def shard_of(lines, version=3):
    shard = Shard()
    for line in lines:
        shard.add(line)
    return shard.written(version=version)


def sharing(count):
    """Returns the lines of so many files, and chunks of a xorb, that share their first words."""
    names = [f"{5:016x}{it:016x}{0:032x}" for it in range(1, count + 1)]
    return [f"file {it} 10:0:1:5" for it in names] + ["xorb 10 " + " ".join(f"{it}:5" for it in names)]


def many(start, parts):
    """Returns the lines of 12 files, with these parts, and 6 xorbs of 10 chunks."""
    files = [
        f"file {start + at} {parts} " + " ".join(f"{10 + it}:{it}:{it + 2}:10" for it in range(5)) for at in range(12)
    ]
    return files + [f"xorb {10 + it} " + " ".join(f"{20 + 10 * it + at}:5" for at in range(10)) for it in range(6)]


SHARDS = {
    "empty": [],
    "one_file": ["file 100 200:0:5:5"],
    "xorb_and_file": ["xorb 10 21:5", "file 100 10:0:1:5"],
    "other_segments": ["xorb 10 21:5", "file 100 10:0:2:5"],
    "other_count": ["file 100 10:0:1:5 10:1:2:5"],
    "all_parts": ["xorb 10 21:5 22:6", "file 100 v=7,8 s=9 x=777 10:0:1:5 10:1:2:6", "file 101 v=7 10:0:1:5"],
    "some_parts": ["xorb 11 21:5 22:6", "file 100 s=9 10:0:1:5 10:1:2:6", "file 102 x=5 10:0:1:5"],
    "no_segments": ["file 100 v=", "file 101", "xorb 10"],
    "seven": sharing(7),
    "nine": sharing(9),
    "many": many(100, "v=1,2,3,4,5 s=9"),
    "others": many(106, "s=9 x=3"),
}


def main():
    folder = pathlib.Path(sys.argv[1])
    folder.mkdir(parents=True, exist_ok=True)
    for name, lines in SHARDS.items():
        (folder / f"{name}.mdb").write_bytes(shard_of(lines))
    (folder / "version_2.mdb").write_bytes(shard_of(many(103, "v=1,2,3,4,5"), version=2))
    (folder / "made.mdb").write_bytes(made_shard(0, xorbs=4))


if __name__ == "__main__":
    main()
