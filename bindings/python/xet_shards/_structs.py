"""The structs of xet.h, and the sizes of parts of a shard."""
from __future__ import annotations

import ctypes
import struct
from ctypes import c_bool, c_size_t, c_uint32, c_uint64, c_void_p

# The bytes of a row of a section, of one of the table of chunks, and of a footer.
_ROW, _CHUNK_ROW, _FOOTER = 48, 16, 200
# A row of the tables of files and of xorbs: the first word of a hash, and the row of the section at which the record
# starts.
_TABLE_ROW = struct.Struct("<QI")
_Words = c_uint64 * 4


class _Hash(ctypes.Structure):
    _fields_ = [("words", _Words)]


class _Segment(ctypes.Structure):
    _fields_ = [("xorb", _Words), ("flags", c_uint32), ("bytes", c_uint32), ("start", c_uint32), ("end", c_uint32)]


class _FileSegment(ctypes.Structure):
    _fields_ = [("segment", _Segment), ("verification", _Words)]


class _ShardBytes(ctypes.Structure):
    _fields_ = [("bytes", c_void_p), ("length", c_size_t)]


class _Info(ctypes.Structure):
    _fields_ = [
        ("version", c_uint64), ("files", c_uint64), ("xorbs", c_uint64), ("chunks", c_uint64), ("key", _Words),
        ("creation", c_uint64), ("expiry", c_uint64), ("stored_bytes_on_disk", c_uint64),
        ("materialized_bytes", c_uint64), ("stored_bytes", c_uint64), ("file_section", c_uint64),
        ("xorb_section", c_uint64), ("file_table", c_uint64), ("xorb_table", c_uint64), ("chunk_table", c_uint64),
        ("footer", c_uint64), ("footer_size", c_uint64), ("footer_version", c_uint64), ("reserved", c_uint64 * 6),
    ]


class _MergeOptions(ctypes.Structure):
    _fields_ = [
        ("from", _Words), ("to", _Words), ("has_from", c_bool), ("has_to", c_bool), ("strict", c_bool),
        ("by_tables", c_bool),
    ]


class _ExportOptions(ctypes.Structure):
    _fields_ = [
        ("key", _Words), ("now", c_uint64), ("valid_seconds", c_uint64), ("without_files", c_bool),
        ("without_aux_rows", c_bool), ("without_xorb_table", c_bool), ("without_chunk_table", c_bool),
    ]


class _MinimalOptions(ctypes.Structure):
    _fields_ = [("now", c_uint64), ("verification", c_bool), ("without_aux_rows", c_bool)]


class _SubsetOptions(ctypes.Structure):
    _fields_ = [("now", c_uint64), ("expiry", c_uint64), ("all", c_bool)]


class _File(ctypes.Structure):
    _fields_ = [
        ("found", c_bool), ("has_verification", c_bool), ("has_sha256", c_bool), ("has_aux", c_bool),
        ("flags", c_uint32), ("segments", c_size_t), ("sha256", _Words), ("aux_hash", _Words), ("reserved", c_uint64),
    ]


class _Place(ctypes.Structure):
    _fields_ = [("hash", _Words), ("flags", c_uint32), ("next", c_uint64)]


class _Xorb(ctypes.Structure):
    _fields_ = [("found", c_bool), ("bytes", c_uint32), ("bytes_on_disk", c_uint32), ("chunks", c_size_t)]


class _Chunk(ctypes.Structure):
    _fields_ = [
        ("hash", _Words), ("start", c_uint32), ("bytes", c_uint32), ("flags", c_uint32), ("reserved", c_uint32),
    ]


class _ChunkRow(ctypes.Structure):
    _fields_ = [("word", c_uint64), ("row", c_uint32), ("index", c_uint32)]


class _ChunkPlace(ctypes.Structure):
    _fields_ = [("row", c_uint32), ("index", c_uint32)]


class _ListedFile(ctypes.Structure):
    _fields_ = [
        ("hash", _Words), ("sha256", _Words), ("aux_hash", _Words), ("flags", c_uint32), ("segments", c_uint32),
    ]


class _ListedXorb(ctypes.Structure):
    _fields_ = [
        ("hash", _Words), ("flags", c_uint32), ("chunks", c_uint32), ("bytes", c_uint32), ("bytes_on_disk", c_uint32),
    ]


class _Counts(ctypes.Structure):
    _fields_ = [("files", c_size_t), ("segments", c_size_t), ("xorbs", c_size_t), ("chunks", c_size_t)]


class _Finding(ctypes.Structure):
    _fields_ = [("kind", c_uint32), ("part", c_uint32), ("number", c_uint64)]


class _Disagreement(ctypes.Structure):
    _fields_ = [("hash", _Words), ("is_xorb", c_bool), ("first", c_size_t), ("second", c_size_t)]
