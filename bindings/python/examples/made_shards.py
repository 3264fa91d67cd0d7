#!/usr/bin/env python3
"""Writes shards from docs/FORMAT.md alone, without the library: those of the tests, and as many as are asked for."""
from __future__ import annotations

import argparse
import hashlib
import pathlib
import re
import struct
from typing import Dict, List, Optional, Sequence, Tuple

TAG = bytes.fromhex("48465265706f4d6574614461746100556967456a7b815783a5bdd95ccdd14aa9")
BOOKEND = b"\xff" * 32 + bytes(16)
VERIFICATION, SHA256, AUX = 1 << 31, 1 << 30, 1 << 29

# The words of a hash; the rows of a record and its bytes unpacked.
Words = Tuple[int, ...]
Record = Tuple[List[bytes], int]


def hash_text(word: str) -> str:
    """Returns the digits of a word of a script: 64 digits, or a number for the words number, 1, 0 and 0."""
    if re.fullmatch("[0-9a-fA-F]{64}", word):
        return word.lower()
    return f"{int(word):016x}{1:016x}{0:032x}"


def words_of(text: str) -> Words:
    return tuple(int(text[at : at + 16], 16) for at in range(0, 64, 16))


def row(text: str, *numbers: int) -> bytes:
    """Returns a row of 48 bytes: a hash and four numbers, or those that are given and zeros."""
    return struct.pack("<4Q4I", *words_of(text), *numbers, *[0] * (4 - len(numbers)))


def file_record(
    flags: int, segments: Sequence[Tuple[str, int, int, int]], text: str, verification: Sequence[str],
    sha256: Sequence[str], aux: Sequence[str],
) -> Record:
    rows = [row(text, flags, len(segments))]
    rows += [row(xorb, 0, size, start, end) for xorb, start, end, size in segments]
    rows += [row(it) for it in [*verification, *sha256, *aux]]
    return rows, sum(it[3] for it in segments)


def xorb_record(text: str, chunks: Sequence[Tuple[str, int]]) -> Record:
    starts = [sum(size for _, size in chunks[:at]) for at in range(len(chunks) + 1)]
    rows = [row(text, 0, len(chunks), starts[-1])]
    return rows + [row(it, start, size) for (it, size), start in zip(chunks, starts)], starts[-1]


class Shard:
    """The records of a shard, by hash."""

    def __init__(self) -> None:
        self.files: Dict[Words, Record] = {}
        self.xorbs: Dict[Words, Record] = {}

    def add(self, line: str) -> None:
        """Adds the record of a line of a script: `file` or `xorb`, and its words."""
        kind, *words = line.split()
        (self.add_file if kind == "file" else self.add_xorb)(*words)

    def add_file(self, text: str, *words: str) -> None:
        optional: Dict[str, Optional[List[str]]] = {"v=": None, "s=": None, "x=": None}
        rest = list(words)
        for name in optional:
            if rest and rest[0].startswith(name):
                optional[name] = [hash_text(it) for it in rest.pop(0)[2:].split(",") if it]
        segments = []
        for word in rest:
            xorb, start, end, size = word.split(":")
            segments.append((hash_text(xorb), int(start), int(end), int(size)))
        bits = zip((VERIFICATION, SHA256, AUX), optional.values())
        flags = sum(bit for bit, rows in bits if rows is not None)
        text = hash_text(text)
        self.files[words_of(text)] = file_record(flags, segments, text, *(it or [] for it in optional.values()))

    def add_xorb(self, text: str, *words: str) -> None:
        pairs = [word.split(":") for word in words]
        chunks = [(hash_text(it[0]), int(it[1]) if len(it) > 1 else 0) for it in pairs]
        text = hash_text(text)
        self.xorbs[words_of(text)] = xorb_record(text, chunks)

    def written(self, expiry: int = 2**64 - 1, version: int = 3) -> bytes:
        """Returns the bytes of the shard, by docs/FORMAT.md."""
        sections: List[bytes] = []
        tables: List[bytes] = []
        chunks: List[Tuple[int, int, int]] = []
        for records in (self.files, self.xorbs):
            rows: List[bytes] = []
            table = b""
            for words in sorted(records):
                table += struct.pack("<QI", words[0], len(rows))
                if records is self.xorbs:
                    stored = records[words][0][1:]
                    chunks += [(struct.unpack("<Q", it[:8])[0], len(rows), at) for at, it in enumerate(stored)]
                rows += records[words][0]
            sections.append(b"".join(rows) + BOOKEND)
            tables.append(table)
        tables.append(b"".join(struct.pack("<QII", *it) for it in sorted(chunks)))
        parts = [TAG + struct.pack("<2Q", version, 200), *sections, *tables]
        at = [sum(len(it) for it in parts[:count]) for count in range(1, 7)]
        counts = [len(self.files), len(self.xorbs), len(chunks)]
        footer = [1, at[0], at[1], at[2], counts[0], at[3], counts[1], at[4], counts[2]]
        footer += [0] * 4 + [0, expiry] + [0] * 6
        sizes = [sum(it[1] for it in records.values()) for records in (self.files, self.xorbs)]
        return b"".join(parts) + struct.pack("<25Q", *footer, 0, *sizes, at[5])


XORB_CHUNKS, FILES_OF_XORB = 64, 8


def _hash(kind: str, number: int) -> str:
    return hashlib.sha256(f"{kind} {number}".encode()).hexdigest()


def made_shard(number: int, xorbs: int = 12) -> bytes:
    """Returns the shard of this number: so many xorbs, of 64 chunks each, and for each 8 files of three segments.

    Half of its records are also in the shard before it, and the other half in that after it.
    """
    shard = Shard()
    first = number * xorbs // 2
    for xorb in range(first, first + xorbs):
        chunks = range(xorb * XORB_CHUNKS, (xorb + 1) * XORB_CHUNKS)
        shard.add_xorb(_hash("xorb", xorb), *(f"{_hash('chunk', it)}:{65536 + it % 1000}" for it in chunks))
        for file in range(xorb * FILES_OF_XORB, (xorb + 1) * FILES_OF_XORB):
            segments = [f"{_hash('xorb', xorb)}:{at}:{at + 8}:524288" for at in (0, 8, 16)]
            shard.add_file(_hash("file", file), *segments)
    return shard.written()


def main() -> None:
    parser = argparse.ArgumentParser(description="Writes shards to a folder, as 0.mdb, 1.mdb and so on.")
    parser.add_argument("folder", type=pathlib.Path, metavar="FOLDER")
    parser.add_argument("--shards", type=int, default=1, help="how many (%(default)s)")
    parser.add_argument("--xorbs", type=int, default=12, help="of each, with 64 chunks and 8 files each (%(default)s)")
    given = parser.parse_args()
    given.folder.mkdir(parents=True, exist_ok=True)
    for number in range(given.shards):
        (given.folder / f"{number}.mdb").write_bytes(made_shard(number, given.xorbs))


if __name__ == "__main__":
    main()
