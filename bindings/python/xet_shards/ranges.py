"""Merges by ranges of hashes, as in threads: each thread merges a range."""
from __future__ import annotations

import ctypes
import mmap
import struct
from concurrent.futures import ThreadPoolExecutor
from ctypes import byref, c_char, c_size_t, string_at
from typing import Iterator, List, NamedTuple, Optional, Sequence, Tuple

from ._calls import _library
from ._errors import _OUT_OF_MEMORY, XetError, _check
from ._memory import Buffer, WritableBuffer, _Addresses, _advise_large_pages, _list, _output_apart, _written_bytes
from ._merging import _merge_to, _options, _union_room, _words_of
from ._structs import _CHUNK_ROW, _FOOTER, _ROW, _TABLE_ROW, _Info, _MergeOptions

# The four words of a hash, by which hashes are ordered.
Words = Tuple[int, ...]

# How many hashes of the inputs are looked at to find cuts.
_SAMPLE = 256
# To merge a byte of the table of chunks takes as long as to copy so many.
_CHUNK_WORK = 24
# The bytes of a hash.
_HASH = 32
# The fractional parts of its multiples are spread evenly, however many there are.
_GOLDEN_RATIO = 0.6180339887498949
# Of Linux; the module mmap names it from Python 3.13 on.
_MAP_NORESERVE = 0x4000


def merge_in_threads_to(
    shards: Sequence[Buffer],
    out: WritableBuffer,
    threads: int,
    strict: bool,
    start: Optional[str],
    stop: Optional[str],
    version: int,
) -> Optional[int]:
    """Writes a merge to the front of a buffer, and returns the number of its bytes.

    It returns None if there is no hash to cut at or if anything fails, and then it wrote nothing, unless memory was
    lacking. A merge by one call then gives the error. It also gives the bytes of shards that can be merged, but whose
    parts can't be concatenated.
    """
    try:
        # An output that shares memory with a shard is an error before anything is written to it.
        with _output_apart(out, shards):
            pass
        parts = range_merges(shards, threads, strict, start, stop, version)
        return concatenate_in_threads_to(parts, out, min(threads, len(parts))) if parts else None
    except Exception:
        return None


def concatenate_in_threads_to(parts: Sequence[Buffer], out: WritableBuffer, threads: int) -> int:
    """Writes what `concatenate` returns to the front of a buffer, if there is room, and returns its number of bytes.

    Each thread writes a span. What may fail of the results of merges, but for memory, fails before the first of them.
    """
    with _output_apart(out, parts) as (array, data):
        size = _put_span(parts, array, 0, 0)
        if size > len(array):
            return size
        edges = _spans(data, size, threads)
    with ThreadPoolExecutor(threads) as pool:
        # Threads take the addresses anew, as those of merges do.
        list(pool.map(lambda start, stop: _put_span_to(parts, out, start, stop), edges, edges[1:]))
    return size


def _put_span_to(parts: Sequence[Buffer], out: WritableBuffer, start: int, stop: int) -> None:
    with _output_apart(out, parts) as (array, _):
        _put_span(parts, array, start, stop)


def _put_span(parts: Sequence[Buffer], array: ctypes.Array[c_char], start: int, stop: int) -> int:
    """Writes a span of a concatenation at its place in an array, and returns the size of the whole."""
    size = c_size_t()
    with _Addresses(*parts) as data:
        place = ctypes.addressof(array) + start
        span = (c_char * max(stop - start, 1)).from_address(place)
        _check(_library.xet_concatenate_span(_list(data), len(data), start, span, stop - start, byref(size)))
    return size.value


def _spans(data: Sequence[Tuple[int, int]], size: int, threads: int) -> List[int]:
    """Returns offsets from 0 to the size of a concatenation, between which are spans that take about equally long.

    The table of chunks is the last before the footer, and a byte of it takes longer. Any offsets would do.
    """
    info, chunks = _Info(), 0
    for address, length in data:
        if not _library.xet_load(address, length, byref(info)):
            chunks += info.chunks
    table = _CHUNK_ROW * chunks
    start = max(size - _FOOTER - table, 0)
    work = start + _CHUNK_WORK * table
    shares = [work * at // threads for at in range(threads)]
    return sorted({*(min(it, start) + max(it - start, 0) // _CHUNK_WORK for it in shares), size})


def range_merges(
    shards: Sequence[Buffer], threads: int, strict: bool, start: Optional[str], stop: Optional[str], version: int
) -> List[memoryview]:
    """Returns the merges of ranges that follow one another from `start` to `stop`, one for each thread at most.

    The list is empty if there is no hash to cut at.
    """
    low, high = _words_of(start), _words_of(stop)
    # Threads take the addresses anew, since they may go on when whoever waits for them is interrupted.
    with _Addresses(*shards) as data, ThreadPoolExecutor(threads) as pool:
        bounds = [low, *cuts(data, threads, low, high), high]
        if len(bounds) == 2:
            return []
        room = _union_room(sum(length for _, length in data))

        def merged(by_tables: bool) -> List[memoryview]:
            options = [_options(*it, strict, by_tables) for it in zip(bounds, bounds[1:])]
            return list(pool.map(lambda it: _range_merge(shards, it, version, room), options))

        if start is None and stop is None:
            try:
                return merged(True)
            except XetError:
                # A shard lacks tables, they are wrong, or a cut is not the least hash with its first word.
                pass
        return merged(False)


def merge_by_tables(shard: Buffer, start: Optional[str], stop: Optional[str]) -> Optional[bytes]:
    """Returns a shard of the records in a range of one shard, which are found by its tables.

    It is None if the tables lead to anything but whole records of the range, or after another error than that of
    memory. If ranges that follow one another, the first without `start` and the last without `stop`, all give a shard,
    these have all records of the ranges: a record that one lacks would be read for another, and be refused there.
    """
    options = _options(_words_of(start), _words_of(stop), by_tables=True)
    try:
        with _Addresses(shard) as data:
            room = _union_room(data[0][1])
        return _written_bytes(room, lambda out: _merge_to([shard], memoryview(out), options, 3))
    except XetError as error:
        if error.number == _OUT_OF_MEMORY:
            raise
        return None


def _range_merge(shards: Sequence[Buffer], options: _MergeOptions, version: int, room: int) -> memoryview:
    # Pages that no one writes to cost nothing, and the system reserves no memory for them.
    out = mmap.mmap(-1, room, flags=mmap.MAP_PRIVATE | mmap.MAP_ANONYMOUS | _MAP_NORESERVE)
    _advise_large_pages(ctypes.addressof(c_char.from_buffer(out)), room)
    return memoryview(out)[: _merge_to(shards, out, options, version)]


def cuts(
    data: Sequence[Tuple[int, int]], ranges: int, start: Optional[Words], stop: Optional[Words]
) -> List[Words]:
    """Returns ascending hashes that cut the records between two bounds into so many ranges at most.

    The ranges are of about one size. Any hashes would do, so nothing that is read here is checked.
    """
    hashes = sorted(it for it in _sample(data) if (start is None or start < it) and (stop is None or it < stop))
    ranges = min(ranges, len(hashes) + 1)
    return sorted({hashes[len(hashes) * at // ranges] for at in range(1, ranges)})


def _sample(data: Sequence[Tuple[int, int]], samples: int = _SAMPLE, number: int = 0) -> Iterator[Words]:
    """Gives so many hashes of records of the shards. How often a record is among them is in proportion to its size.

    The number says how many were given of other shards, so that all are spread evenly.
    """
    size = sum(length for _, length in data) or 1
    before, info = 0, _Info()
    for address, length in data:
        # How many of the points that are spread evenly over all bytes are in this shard.
        count = (before + length) * samples // size - before * samples // size
        before += length
        if not count or _library.xet_load(address, length, byref(info)):
            continue
        sections = _Sections(
            (info.file_section, info.xorb_section, info.file_table, info.files),
            (info.xorb_section, info.file_table, info.xorb_table, info.xorbs),
        )
        for at in range(count):
            number += 1
            place = sections.place((at + number * _GOLDEN_RATIO % 1) / count, address, length)
            if place is not None and 0 <= place <= length - _HASH:
                yield struct.unpack("<4Q", string_at(address + place, _HASH))


class _Sections(NamedTuple):
    """Where the sections of files and of xorbs start and end, where their tables start, and the rows of these."""

    files: Tuple[int, int, int, int]
    xorbs: Tuple[int, int, int, int]

    def place(self, fraction: float, address: int, length: int) -> Optional[int]:
        """Returns where the record is that is at about this fraction of both sections, if there is one."""
        at = self.files[0] + int(fraction * (self.xorbs[1] - self.files[0]))
        start, end, table, count = self.files if at < self.files[1] else self.xorbs
        # A row of ones is behind the records.
        rows = (end - start) // _ROW - 1
        if rows <= 0:
            return None
        part = (at - start) / (end - start)
        # Without a table nothing tells where records start, but the hashes of all rows are spread like theirs.
        row = int(part * rows)
        if count:
            at = table + int(part * count) * _TABLE_ROW.size
            if not 0 <= at <= length - _TABLE_ROW.size:
                return None
            _, row = _TABLE_ROW.unpack(string_at(address + at, _TABLE_ROW.size))
        return start + row * _ROW
