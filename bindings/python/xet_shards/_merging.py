"""Unions and differences of shards, and what does not agree."""
from __future__ import annotations

import operator
from ctypes import byref, c_bool, c_size_t
from typing import Iterable, List, Optional, Sequence, Tuple

from ._arguments import _some, _text, _version, _words
from ._calls import _library
from ._errors import (
    _DISAGREE, _INVALID_ARGUMENTS, _MALFORMED, _OTHER_KEYS, _SHORT, Disagreement, DisagreementError, MalformedError,
    MalformedRecord, XetError, _check, _or_reason_of, _reason_of,
)
from ._lookups import load
from ._memory import Buffer, WritableBuffer, _Addresses, _filled, _list, _made, _output_apart, _written_bytes
from ._structs import _Disagreement, _MergeOptions, _Words


def union(first: Buffer, second: Buffer, version: int = 3) -> bytes:
    """Returns the union of two shards: the `merge` of both."""
    return merge([first, second], version=version)


def difference(first: Buffer, second: Buffer, version: int = 3) -> bytes:
    """Returns the second shard's records whose hashes the first does not have. Both have one key.

    It is in version 3 of the format, or in `version` 2, which no file with an auxiliary row may have.
    """
    with _Addresses(first, second) as [one, other]:
        return _made(
            other[1],
            lambda out, room, written: _library.xet_difference(
                *one, *other, _version(version), out, room, byref(written)
            ),
            _OTHER_KEYS + _or_reason_of(version),
        )


def merge(
    shards: Iterable[Buffer],
    strict: bool = False,
    start: Optional[str] = None,
    stop: Optional[str] = None,
    threads: Optional[int] = None,
    version: int = 3,
) -> bytes:
    """Returns the union of one shard or more, by a balanced tree of unions.

    With `start` or `stop`, hashes as text, it has only the files and the xorbs whose hash is not below `start` and is
    below `stop`. Of well-formed shards that agree, ranges that follow one another have together each record of the join
    once, so each may be merged by a thread or a machine of its own. All shards are read for each range.

    With `threads` so many threads at most merge a range each, and then write a span each of what `concatenate` makes of
    the results. Bytes and errors are the same, whatever is given; the bytes of the output are in memory twice.

    It is in version 3 of the format, or in `version` 2, which no file with an auxiliary row may have.

    If the sections of the inputs hold well-formed shards that agree pairwise, under one key, it is the bytes of their
    join, which has no order, and any other tree of unions gives the same. Shards agree if files with one hash have
    equal segments, and an equal optional part wherever both have it, and xorbs with one hash are equal. They are
    well-formed if `find_malformed` finds nothing. With `strict` it is a `MalformedError` if one of the records that are
    merged is not well-formed, and a `DisagreementError` if two do not agree; so what it returns has no order, whatever
    is given.
    """
    shards = list(shards)
    # With this room no merge is made twice.
    return _written_bytes(
        merge_room(shards), lambda out: merge_into(shards, memoryview(out), strict, start, stop, threads, version)
    )


def merge_room(shards: Iterable[Buffer]) -> int:
    """Returns the bytes that are enough for `merge_into` of these shards, whatever they hold."""
    with _Addresses(*shards) as data:
        return _union_room(sum(length for _, length in data))


def _union_room(length: int) -> int:
    # As in xet_union_room of xet.h.
    return 352 + length // 3 * 8


def merge_into(
    shards: Iterable[Buffer],
    out: WritableBuffer,
    strict: bool = False,
    start: Optional[str] = None,
    stop: Optional[str] = None,
    threads: Optional[int] = None,
    version: int = 3,
) -> int:
    """Writes what `merge` returns to the front of a buffer that can be written, and returns the number of its bytes.

    If the buffer is too small it stays as it is: then the number is greater than its length. With inputs and output in
    files that are mapped, a merge needs memory of its own only for tables and for where records lie, and with `threads`
    as much as the output has, and the tables of files and xorbs once more a thread. On a full disk the process ends
    where the output's file has a hole, as `truncate` makes them; `os.posix_fallocate` makes none, and raises an
    `OSError` there.

    The buffer shares no memory with a shard: that is a `ValueError`. Two maps of one file are not found out.
    """
    shards = _some(shards)
    count = 1 if threads is None else operator.index(threads)
    if count < 1:
        raise ValueError("there is one thread at least")
    if count > 1:
        length = _merge_in_threads_to(shards, out, count, strict, start, stop, version)
        if length is not None:
            return length
    try:
        return _merge_to(shards, out, _options(_words_of(start), _words_of(stop), strict), version)
    except (DisagreementError, MalformedError):
        raise
    except XetError as error:
        blamed = _to_blame(shards, error.number)
        new = version != 3 and blamed is None
        raise XetError(error.number, blamed, _reason_of(version) if new else _OTHER_KEYS) from None


def _to_blame(shards: Sequence[Buffer], number: int) -> Optional[int]:
    """Returns the place of the first shard by which a merge fails with this error, or None if it is no single one."""
    if number == _INVALID_ARGUMENTS:
        return _first_of_other_key(shards)
    for index, shard in enumerate(shards):
        try:
            _merge_to([shard], bytearray(0), _MergeOptions(), 3)
        except XetError as error:
            if error.number == number:
                return index
    return None


def _first_of_other_key(shards: Sequence[Buffer]) -> Optional[int]:
    """Returns the place of the first shard whose key is not that of the first one, if both can be read."""
    key = _key_of(shards[0])
    if key is None:
        return None
    return next((index for index, shard in enumerate(shards) if _key_of(shard) not in (key, None)), None)


def _key_of(shard: Buffer) -> Optional[str]:
    try:
        return load(shard).key
    except XetError:
        return None


def _words_of(text: Optional[str]) -> Optional[Tuple[int, ...]]:
    """Returns the words of a hash that may be left out."""
    return None if text is None else tuple(_words(text))


def _options(
    start: Optional[Sequence[int]] = None, stop: Optional[Sequence[int]] = None, strict: bool = False,
    by_tables: bool = False,
) -> _MergeOptions:
    """Returns the options of a merge between two hashes, where a bound may be left out."""
    words = [_Words(*(it or ())) for it in (start, stop)]
    return _MergeOptions(*words, start is not None, stop is not None, strict, by_tables)


def _merge_to(shards: Sequence[Buffer], out: WritableBuffer, options: _MergeOptions, version: int) -> int:
    """Merges shards to the front of a buffer, and returns the number of the bytes of the merge."""
    written, differing, found = c_size_t(), c_size_t(), _Disagreement()
    with _output_apart(out, shards) as (array, data):
        number = _library.xet_merge(
            _list(data), len(data), byref(options), _version(version), array, len(array), byref(written),
            byref(differing), byref(found),
        )
    if number == _MALFORMED:
        raise MalformedError(_malformed(found))
    if number == _DISAGREE:
        raise DisagreementError(_disagreement(found, differing.value))
    if number != _SHORT:
        _check(number)
    return written.value


def concatenate(shards: Iterable[Buffer]) -> bytes:
    """Returns the shard that has the records of one shard or more, in their order, with all tables and no timestamps.

    The hashes of files have to ascend from each shard to the next, and so have those of xorbs, and the shards have one
    key. So it puts together what `merge` returns of well-formed shards that agree, for ranges that follow one another,
    where `start` of the first and `stop` of the last are left out: the result is that of the one merge. Records are
    copied and not checked. It is in version 2 of the format if all shards are, else in version 3.
    """
    shards = _some(shards)
    with _Addresses(*shards) as data:
        listed, room = _list(data), sum(length for _, length in data)
        return _made(
            room,
            lambda out, room, written: _library.xet_concatenate(listed, len(data), out, room, byref(written)),
            _NOT_CONCATENATED,
        )


# Why shards may not be concatenated.
_NOT_CONCATENATED = f"{_OTHER_KEYS}, or hashes do not ascend from one shard to the next"


def concatenate_into(shards: Iterable[Buffer], out: WritableBuffer) -> int:
    """Writes what `concatenate` returns to the front of a buffer that can be written, and returns its number of bytes.

    If the buffer is too small, and after any error, it stays as it is: if it is too small, the number is greater than
    its length. With inputs and output in files that are mapped, this needs some hundred bytes a shard of its own; the
    output's file should have no holes, as for `merge_into`.

    The buffer shares no memory with a shard: that is a `ValueError`.
    """
    shards = _some(shards)
    written = c_size_t()
    with _output_apart(out, shards) as (array, data):
        number = _library.xet_concatenate(_list(data), len(data), array, len(array), byref(written))
    if number != _SHORT:
        _check(number, _NOT_CONCATENATED)
    return written.value


def find_disagreements(shards: Iterable[Buffer]) -> List[Disagreement]:
    """Returns all hashes under which two of the shards have records that do not agree, each once.

    Those of files are before those of xorbs, and each in ascending order. The list is empty if each two shards agree.
    """
    with _Addresses(*shards) as data:
        listed = _list(data)
        # Where there are more all records are compared twice.
        found = _filled(
            _Disagreement,
            1024,
            lambda out, room, written: _library.xet_find_disagreements(listed, len(data), out, room, byref(written)),
        )
    return [_disagreement(it, len(found)) for it in found]


def find_malformed(shards: Iterable[Buffer]) -> Optional[MalformedRecord]:
    """Returns a record that no shard may have, of the first shard that has one, or None if each is well-formed.

    A union keeps the reserved word and the flags of a file of one of its inputs, and `find_disagreements` does not
    compare them. So the order of a merge may count unless its shards are well-formed and agree.
    """
    malformed, found = c_bool(), _Disagreement()
    with _Addresses(*shards) as data:
        _check(_library.xet_find_malformed(_list(data), len(data), byref(malformed), byref(found)))
    return _malformed(found) if malformed.value else None


def _malformed(found: _Disagreement) -> MalformedRecord:
    return MalformedRecord("xorb" if found.is_xorb else "file", _text(found.hash), found.first)


def _disagreement(found: _Disagreement, count: int) -> Disagreement:
    return Disagreement("xorb" if found.is_xorb else "file", _text(found.hash), found.first, found.second, count)


# It is made of the functions above.
from .ranges import merge_in_threads_to as _merge_in_threads_to  # noqa: E402
