"""Lookups in a shard, and in parts of one."""
from __future__ import annotations

import ctypes
from ctypes import POINTER, byref, c_size_t, c_uint32, c_uint64
from dataclasses import dataclass
from typing import Any, Dict, List, Optional, Sequence, Tuple

from ._arguments import _hashes, _number, _text, _words
from ._calls import _library
from ._errors import _INTERNAL_ERROR, _IO, _NO_WHOLE_ROWS, _SHORT, XetError, _check
from ._memory import Buffer, _Addresses, _array, _filled, _made
from ._records import File, Segment, _file_step, _segment, _shown_file, _walked_rows
from ._structs import _ROW, _TABLE_ROW, _ChunkPlace, _ChunkRow, _File, _FileSegment, _Hash, _Info, _Segment

# Most files have no more segments, so that the first call has room for them, which for more would take time to make.
_FEW_SEGMENTS = 8


@dataclass(frozen=True)
class Info:
    """What the header and the footer of a shard say. A table that is left out has 0 rows.

    `file_section` to `footer` are where the parts of the shard start, in bytes from its front. A table ends where the
    next part starts; its rows have 12 bytes, in the chunk table 16. A row of a section has 48.
    """

    version: int
    files: int
    xorbs: int
    chunks: int
    key: str
    creation: int
    expiry: int
    stored_bytes_on_disk: int
    materialized_bytes: int
    stored_bytes: int
    file_section: int
    xorb_section: int
    file_table: int
    xorb_table: int
    chunk_table: int
    footer: int
    footer_size: int
    footer_version: int
    reserved: Tuple[int, ...]


def load(shard: Buffer) -> Info:
    """Returns what the header and the footer of a shard say: its first 48 and its last 200 bytes.

    These 248 bytes are enough, without what lies between them.
    """
    info = _Info()
    with _Addresses(shard) as [data]:
        _check(_library.xet_load(*data, byref(info)))
    values: Dict[str, Any] = {name: getattr(info, name) for name, *_ in _Info._fields_}
    values["key"], values["reserved"] = _text(info.key), tuple(info.reserved)
    return Info(**values)


def find_file(shard: Buffer, file_hash: str) -> Optional[File]:
    """Returns the file with this hash, or None.

    In a shard without a table of files, as a minimal one, none is found.
    """
    wanted, file, room = _Hash(_words(file_hash)), _File(), _FEW_SEGMENTS
    segments = _array(_FileSegment, room)
    with _Addresses(shard) as [data]:
        number = _library.xet_find_file(*data, byref(wanted), byref(file), segments, room)
        if number == _SHORT:
            room = file.segments
            segments = _array(_FileSegment, room)
            number = _library.xet_find_file(*data, byref(wanted), byref(file), segments, room)
    _check(number)
    return _shown_file(file, segments[: file.segments]) if file.found else None


def _found_at(shard: Buffer, wanted: ctypes.Array[c_uint64], row: int) -> Optional[File]:
    """Returns the file at a row to which a table of files leads, or None if its hash is not of these words."""
    step = _file_step(_FEW_SEGMENTS)
    with _Addresses(shard) as [data]:
        segments = step(_library.xet_file_at, *data, row)
    if segments is None:
        raise XetError(_INTERNAL_ERROR)
    return _shown_file(step.record, segments) if bytes(step.place.hash) == bytes(wanted) else None


def _file_rows(shard: Buffer) -> List[Tuple[int, int]]:
    """Returns the rows of the table of files, or those that it would have, in the order of the section."""
    info = load(shard)
    if not info.files:
        return list(_walked_rows(shard))
    start, size = info.file_table, _TABLE_ROW.size * info.files
    with _Addresses(shard) as [(address, length)]:
        if start + size > length:
            raise XetError(_IO)
        return [(word, row) for word, row in _TABLE_ROW.iter_unpack(ctypes.string_at(address + start, size))]


def find_rows(table: Buffer, wanted: str) -> List[int]:
    """Returns the rows of a section that the bytes of its table have under the first word of a hash: 7 at most.

    So a file is found in a shard that is far away by three reads. `load` of its first 48 and its last 200 bytes says
    where the table of files is, and `file_in` reads the record from a row on, whose hash is to be compared:

        rows = find_rows(read(info.file_table, 12 * info.files), file_hash)
        found = file_in(read(info.file_section + 48 * rows[0], 48 * 100), info.version)
    """
    word = _words(wanted)[0]
    with _Addresses(table) as [data]:
        rows = _filled(
            c_uint32,
            7,
            lambda out, room, written: _library.xet_find_rows(*data, word, out, room, byref(written)),
            _NO_WHOLE_ROWS,
        )
    return list(rows)


def find_places(table: Buffer, wanted: str) -> List[Tuple[int, int]]:
    """Returns the places that the bytes of a table of chunks have under the first word of a chunk's hash: 8 at most.

    A place is the row of the xorb section at which a xorb starts, and the index of the chunk in it. If the shard has a
    key, the hash is one under it, as `hmac` makes it.
    """
    word = _words(wanted)[0]
    with _Addresses(table) as [data]:
        places = _filled(
            _ChunkPlace,
            8,
            lambda out, room, written: _library.xet_find_places(*data, word, out, room, byref(written)),
            _NO_WHOLE_ROWS,
        )
    return [(it.row, it.index) for it in places]


@dataclass(frozen=True)
class Run:
    """How many of the chunks that were asked for, from the first on, a xorb has one after another, and where."""

    count: int
    segment: Segment


def query_chunks(shard: Buffer, hashes: Sequence[str]) -> Optional[Run]:
    """Returns a run of chunks with these hashes, which are not keyed, or None. It has at least the first.

    In a shard without a table of chunks, as a minimal one, none is found.
    """
    count, run = c_size_t(), _Segment()
    with _Addresses(shard) as [data]:
        _check(_library.xet_query_chunks(*data, *_hashes(hashes), byref(count), byref(run)))
    return Run(count.value, _segment(run)) if count.value else None


def query_at(shard: Buffer, hashes: Sequence[str], row: int, index: int) -> Optional[Run]:
    """Returns the run of these hashes that starts at one chunk: at an index of the xorb at a row of the xorb section.

    The hashes are not keyed. It is None if the chunk has another hash than the first.
    """
    return _run_at(shard, *_hashes(hashes), _number(row), _number(index))


def _run_at(shard: Buffer, wanted: ctypes.Array[Any], length: int, row: int, index: int) -> Optional[Run]:
    count, run = c_size_t(), _Segment()
    with _Addresses(shard) as [data]:
        number = _library.xet_query_at(*data, wanted, length, row, index, byref(count), byref(run))
    _check(number, "there is no chunk at this row and index")
    return Run(count.value, _segment(run)) if count.value else None


def chunk_rows(shard: Buffer) -> bytes:
    """Returns where the chunks of a shard are: the rows of its chunk table, or the rows that it would have.

    Without a table they are in the order of the xorb section. A row has 16 bytes, lowest byte first: the first word of
    the chunk's hash, under the shard's key if it has one, the row of the xorb section at which its xorb starts, and its
    index in the xorb. So `struct.iter_unpack("<QII", rows)` gives them one by one, and
    `numpy.frombuffer(rows, [("word", "<u8"), ("row", "<u4"), ("index", "<u4")])` as an array.
    """
    size = ctypes.sizeof(_ChunkRow)
    with _Addresses(shard) as [data]:

        def write(out: ctypes.Array[Any], room: int, written: c_size_t) -> Any:
            rows = ctypes.cast(out, POINTER(_ChunkRow))
            number = _library.xet_chunk_rows(*data, rows, room // size, byref(written))
            written.value *= size
            return number

        # A chunk has a row of 48 bytes in the section.
        return _made(data[1] // _ROW * size, write)
