"""The library, with the types of its calls."""
from __future__ import annotations

import ctypes
import os
from ctypes import POINTER, c_bool, c_char, c_char_p, c_size_t, c_uint32, c_uint64, c_void_p

from . import __version__
from ._structs import (
    _Chunk, _ChunkPlace, _ChunkRow, _Counts, _Disagreement, _ExportOptions, _File, _FileSegment, _Finding, _Hash,
    _Info, _MergeOptions, _MinimalOptions, _Place, _Segment, _ShardBytes, _SubsetOptions, _Xorb,
)

_SHARD = [c_void_p, c_size_t]
_LIST = [POINTER(_ShardBytes), c_size_t]
_HASHES = [POINTER(_Hash), c_size_t]
_OUT = [POINTER(c_char), c_size_t, POINTER(c_size_t)]
_TEXT = [c_char_p, c_size_t]
_ITEMS = [c_void_p, c_size_t]
# Files, segments, xorbs and chunks.
_LISTS = _ITEMS * 4
_CALLS = {
    "xet_load": [*_SHARD, POINTER(_Info)],
    "xet_merge": [*_LIST, POINTER(_MergeOptions), c_uint64, *_OUT, POINTER(c_size_t), POINTER(_Disagreement)],
    "xet_difference": [*_SHARD, *_SHARD, c_uint64, *_OUT],
    "xet_find_disagreements": [*_LIST, POINTER(_Disagreement), c_size_t, POINTER(c_size_t)],
    "xet_find_malformed": [*_LIST, POINTER(c_bool), POINTER(_Disagreement)],
    "xet_concatenate": [*_LIST, *_OUT],
    "xet_concatenate_span": [*_LIST, c_size_t, *_OUT],
    "xet_export": [*_SHARD, POINTER(_ExportOptions), c_uint64, *_OUT],
    "xet_minimal": [*_SHARD, POINTER(_MinimalOptions), c_uint64, *_OUT],
    "xet_subset": [*_SHARD, POINTER(_SubsetOptions), *_HASHES, c_uint64, *_OUT],
    "xet_convert": [*_SHARD, c_uint64, *_OUT],
    "xet_complete": [*_SHARD, POINTER(_Hash), c_uint64, *_OUT],
    "xet_query_chunks": [*_SHARD, *_HASHES, POINTER(c_size_t), POINTER(_Segment)],
    "xet_query_at": [*_SHARD, *_HASHES, c_uint32, c_uint32, POINTER(c_size_t), POINTER(_Segment)],
    "xet_chunk_rows": [*_SHARD, POINTER(_ChunkRow), c_size_t, POINTER(c_size_t)],
    "xet_eligible": [*_SHARD, *_HASHES, POINTER(c_size_t)],
    "xet_find_file": [*_SHARD, POINTER(_Hash), POINTER(_File), POINTER(_FileSegment), c_size_t],
    "xet_file_at": [*_SHARD, c_uint32, POINTER(_Place), POINTER(_File), POINTER(_FileSegment), c_size_t],
    "xet_xorb_at": [*_SHARD, c_uint32, POINTER(_Place), POINTER(_Xorb), POINTER(_Chunk), c_size_t],
    "xet_find_rows": [*_SHARD, c_uint64, POINTER(c_uint32), c_size_t, POINTER(c_size_t)],
    "xet_find_places": [*_SHARD, c_uint64, POINTER(_ChunkPlace), c_size_t, POINTER(c_size_t)],
    "xet_file_in": [*_SHARD, c_uint64, POINTER(_Place), POINTER(_File), POINTER(_FileSegment), c_size_t],
    "xet_xorb_in": [*_SHARD, POINTER(_Place), POINTER(_Xorb), POINTER(_Chunk), c_size_t],
    "xet_records": [*_SHARD, *_LISTS, POINTER(_Counts)],
    # Hashes, files and segments.
    "xet_find_files": [*_SHARD, *_ITEMS * 3, POINTER(_Counts)],
    "xet_write": [*_LISTS, c_uint64, c_uint64, *_OUT],
    "xet_check": [*_SHARD, POINTER(_Finding), c_size_t, POINTER(c_size_t)],
    "xet_version": [],
    "xet_hash_to_hex": [POINTER(_Hash), *_OUT],
    "xet_hash_from_hex": [*_TEXT, POINTER(_Hash)],
    "xet_shard_name": [POINTER(_Hash), *_OUT],
    "xet_parse_shard_name": [*_TEXT, POINTER(_Hash)],
    "xet_hash_bytes": [POINTER(_Hash), *_SHARD, POINTER(_Hash)],
    "xet_hmac": [POINTER(_Hash), POINTER(_Hash), POINTER(_Hash)],
}

# By the first number the library that was built is known to have the calls of this module.
_LIBRARY = f"libxet.so.{__version__.split('.')[0]}"


def _open() -> ctypes.CDLL:
    beside = os.path.join(os.path.dirname(os.path.abspath(__file__)), _LIBRARY)
    path = os.environ.get("XET_LIBRARY") or beside
    try:
        library = ctypes.CDLL(path)
    except OSError as error:
        raise ImportError(
            f"the library of xet_shards can't be loaded: {error}; run bindings/build.sh, which makes "
            f"{_LIBRARY} beside the module, or set XET_LIBRARY to the path of a libxet.so",
            name=__package__, path=path,
        ) from error
    for name, arguments in _CALLS.items():
        try:
            call = getattr(library, name)
        except AttributeError:
            raise ImportError(f"{path} has no {name}, so it is no library for xet_shards {__version__}",
                              name=__package__, path=path) from None
        call.argtypes, call.restype = arguments, c_uint32
    _compare_versions(path, library.xet_version())
    return library


def _compare_versions(path: str, number: int) -> None:
    """A library serves the module if it has the same first number, and no lower version."""
    first, second, third = (int(it) for it in __version__.split("."))
    if not 10000 * first + 100 * second + third <= number < 10000 * (first + 1):
        raise ImportError(f"{path} has the version {_version(number)}, so it is no library for "
                          f"xet_shards {__version__}", name=__package__, path=path)


def _version(number: int) -> str:
    """Returns the version that the library says by a number."""
    return f"{number // 10000}.{number // 100 % 100}.{number % 100}"


_library = _open()
