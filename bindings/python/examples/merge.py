#!/usr/bin/env python3
"""Merges the shards of several files.

The output is written to a new file beside OUT, which takes its name at the end: if anything fails, what was there
stays.
"""
import argparse
import os
import pathlib
import secrets
import sys

import xet_shards


def write(path: pathlib.Path, content: bytes) -> None:
    """Writes a file that is whole or not there."""
    # Runs in two containers may have the same number.
    new = path.with_name(f".{path.name}.{secrets.token_hex(8)}.new")
    with open(new, "xb") as file:
        try:
            file.write(content)
            file.flush()
            os.fsync(file.fileno())
            os.replace(new, path)
        except BaseException:
            new.unlink(missing_ok=True)
            raise


def main() -> None:
    parser = argparse.ArgumentParser(description=__doc__, formatter_class=argparse.RawDescriptionHelpFormatter)
    parser.add_argument("files", nargs="+", type=pathlib.Path, metavar="FILE")
    parser.add_argument("-o", dest="output", required=True, type=pathlib.Path, metavar="OUT")
    parser.add_argument("--strict", action="store_true", help="write nothing if two of the shards do not agree")
    given = parser.parse_args()
    try:
        merged = xet_shards.merge([it.read_bytes() for it in given.files], given.strict)
        write(given.output, merged)
    except (OSError, xet_shards.XetError) as error:
        sys.exit(f"merge.py: {error}")
    info = xet_shards.load(merged)
    print(f"{given.output}: {info.files} files, {info.xorbs} xorbs, {info.chunks} chunks")


if __name__ == "__main__":
    main()
