"""Other forms of a shard: exports, minimal shards, subsets, versions, completed shards; eligible chunks."""
from __future__ import annotations

from ctypes import byref
from typing import Any, Callable, List, Optional, Sequence

from ._arguments import NO_KEY, _hashes, _seconds, _text, _version, _words
from ._calls import _library
from ._errors import _or_reason_of, _reason_of
from ._memory import Buffer, _Addresses, _filled, _made
from ._structs import _ExportOptions, _Hash, _MinimalOptions, _SubsetOptions


def export(
    shard: Buffer, key: str, now: int, valid_seconds: int, files: bool = True, aux_rows: bool = True,
    xorb_table: bool = True, chunk_table: bool = True, version: int = 3,
) -> bytes:
    """Returns the shard with its chunk hashes under a key, created at `now`, to expire `valid_seconds` later.

    It has its files, which keep their auxiliary rows, the table of xorbs and that of chunks, unless these are left out.
    It is in version 3 of the format, or in `version` 2, which no file with an auxiliary row may have.
    """
    options = _ExportOptions(
        _words(key), _seconds(now), _seconds(valid_seconds), not files, not aux_rows, not xorb_table, not chunk_table
    )
    why = f"the chunk hashes are keyed already, or the times add up to 2^64 or more{_or_reason_of(version)}"
    return _form_of(shard, why, _library.xet_export, byref(options), _version(version))


def minimal(
    shard: Buffer, now: int, verification: bool = False, aux_rows: bool = True, version: int = 3
) -> bytes:
    """Returns the records of the shard without tables, created at `now`.

    Files keep their auxiliary rows, unless these are left out, and with `verification` their verification rows, which
    each file has to have then. It is in version 3 of the format, or in `version` 2, as `export`.
    """
    options = _MinimalOptions(_seconds(now), verification, not aux_rows)
    return _form_of(shard, _reason_of(version), _library.xet_minimal, byref(options), _version(version))


def subset(
    shard: Buffer, now: int, expiry: Optional[int] = None, xorbs: Optional[Sequence[str]] = None, version: int = 3
) -> bytes:
    """Returns the xorbs of the shard with these hashes, or all, without files and tables, created at `now`.

    A hash that no xorb has is passed over. It expires at `expiry`, in seconds; None and 0 mean that it does not.
    It is in version 3 of the format, or in `version` 2.
    """
    options = _SubsetOptions(_seconds(now), _seconds(expiry or 0), xorbs is None)
    arguments = byref(options), *_hashes(xorbs or []), _version(version)
    return _form_of(shard, _reason_of(version), _library.xet_subset, *arguments)


def convert(shard: Buffer, version: int) -> bytes:
    """Returns the same shard in a version of the format: in 2 for readers that do not know 3.

    It has its records in their order, its key and its times, and the tables of which the footer says that they have
    rows. In version 2 no file may have an auxiliary row.
    """
    return _form_of(shard, _reason_of(version), _library.xet_convert, _version(version))


def complete(data: Buffer, key: str = NO_KEY, version: int = 3) -> bytes:
    """Returns the whole shard of which these bytes have the header and both sections, whatever comes after these.

    So bytes of a stream that end before the tables do can be listed, searched and exported. The shard has all tables,
    creation 0 and no expiry. `key` is the one that the chunk hashes are under. It is in version 3 of the format, or in
    `version` 2, as `export`.
    """
    under = _Hash(_words(key))
    return _form_of(data, _reason_of(version), _library.xet_complete, byref(under), _version(version))


def _form_of(shard: Buffer, reason: str, call: Callable[..., Any], *arguments: Any) -> bytes:
    """Returns what a call makes of a shard, given its other arguments, and what its `InvalidArguments` means."""
    with _Addresses(shard) as [data]:
        return _made(
            data[1], lambda out, room, written: call(*data, *arguments, out, room, byref(written)), reason
        )


def eligible(shard: Buffer) -> List[str]:
    """Returns the hashes of the chunks that the global index keeps, in ascending order."""
    with _Addresses(shard) as [data]:
        hashes = _filled(
            _Hash, 16, lambda out, room, written: _library.xet_eligible(*data, out, room, byref(written))
        )
    return [_text(it.words) for it in hashes]
