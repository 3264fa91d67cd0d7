"""Records, read and written one by one."""
from __future__ import annotations

from ctypes import byref
from dataclasses import dataclass
from typing import Any, Callable, Iterable, Iterator, List, Optional, Sequence, Tuple

from ._arguments import (
    NO_EXPIRY, _array_of, _number, _seconds, _text, _version, _words, _words_or_zero,
)
from ._calls import _library
from ._errors import _INVALID_SHARD, _SHORT, XetError, _check, _or_reason_of
from ._memory import Buffer, _Addresses, _array, _made
from ._structs import _Chunk, _File, _FileSegment, _ListedFile, _ListedXorb, _Place, _Segment, _Xorb


@dataclass(frozen=True)
class Segment:
    """Chunks `start` to `end`, without `end`, of a xorb, and their bytes unpacked.

    `verification` is the hash of a file's verification row, where the file has them.
    """

    xorb: str
    start: int
    end: int
    bytes: int
    flags: int
    verification: Optional[str] = None


@dataclass(frozen=True)
class File:
    """A file's segments, and its SHA-256 and auxiliary hash where it has them."""

    segments: Tuple[Segment, ...]
    sha256: Optional[str]
    aux_hash: Optional[str]


@dataclass(frozen=True)
class ListedFile:
    """A file of a shard with its hash, and its flags as the shard has them."""

    hash: str
    flags: int
    file: File

    @staticmethod
    def of(
        file_hash: str, segments: Sequence[Segment], sha256: Optional[str] = None, aux_hash: Optional[str] = None
    ) -> ListedFile:
        """Returns the file with these parts, and with their flags. All segments have verification hashes, or none."""
        file = File(tuple(segments), sha256, aux_hash)
        has_verification = any(it.verification is not None for it in file.segments)
        return ListedFile(file_hash, _flags(has_verification, file), file)


@dataclass(frozen=True)
class Chunk:
    """A chunk of a xorb: the offset and the number of its bytes, unpacked, its flags, and its reserved word."""

    hash: str
    start: int
    bytes: int
    flags: int
    reserved: int = 0


@dataclass(frozen=True)
class Xorb:
    """A xorb of a shard: its bytes, unpacked and on disk, and its chunks."""

    hash: str
    flags: int
    bytes: int
    bytes_on_disk: int
    chunks: Tuple[Chunk, ...]


def _segment(it: _Segment, verification: Optional[str] = None) -> Segment:
    return Segment(_text(it.xorb), it.start, it.end, it.bytes, it.flags, verification)


def _shown_file(file: _File, segments: Sequence[_FileSegment]) -> File:
    return File(
        tuple(
            _segment(it.segment, _text(it.verification) if file.has_verification else None)
            for it in segments
        ),
        _text(file.sha256) if file.has_sha256 else None,
        _text(file.aux_hash) if file.has_aux else None,
    )


class _Step:
    """Makes the call of a record, and again if its items do not fit. The next call uses the same room."""

    def __init__(self, record: Any, item: Any, counted: str, room: int = 64) -> None:
        self.place, self.record, self._item, self._counted = _Place(), record, item, counted
        self._items, self._room = _array(item, room), room

    def __call__(self, call: Callable[..., Any], *arguments: Any) -> Any:
        """Returns the items of the record, or None if there is none."""
        number = call(*arguments, byref(self.place), byref(self.record), self._items, self._room)
        if number == _SHORT:
            self._room = getattr(self.record, self._counted)
            self._items = _array(self._item, self._room)
            number = call(*arguments, byref(self.place), byref(self.record), self._items, self._room)
        # Of these calls `xet_file_in` alone refuses an argument.
        _check(number, "the version is neither 2 nor 3")
        return self._items[: getattr(self.record, self._counted)] if self.record.found else None


def _file_step(room: int = 64) -> _Step:
    return _Step(_File(), _FileSegment, "segments", room)


def _xorb_step() -> _Step:
    return _Step(_Xorb(), _Chunk, "chunks")


def _walked(call: Callable[..., Any], shard: Buffer, step: _Step) -> Iterator[Any]:
    """Gives the items of each record of a section, until its end."""
    row = 0
    with _Addresses(shard) as [data]:
        # A row past 32 bits is none of a section.
        while row < 2**32:
            items = step(call, *data, row)
            if items is None:
                return
            yield items
            row = step.place.next
    raise XetError(_INVALID_SHARD)


def _listed_file(step: _Step, segments: Sequence[_FileSegment]) -> ListedFile:
    return ListedFile(_text(step.place.hash), step.place.flags, _shown_file(step.record, segments))


def _listed_xorb(step: _Step, chunks: Sequence[_Chunk]) -> Xorb:
    listed = tuple(Chunk(_text(it.hash), it.start, it.bytes, it.flags, it.reserved) for it in chunks)
    return Xorb(_text(step.place.hash), step.place.flags, step.record.bytes, step.record.bytes_on_disk, listed)


def files(shard: Buffer) -> Iterator[ListedFile]:
    """Gives the files of a shard, one after another, in the order of its file section.

    Each is read when it is asked for, so a shard that is invalid may give some files before the error.
    """
    step = _file_step()
    for segments in _walked(_library.xet_file_at, shard, step):
        yield _listed_file(step, segments)


def _walked_rows(shard: Buffer) -> Iterator[Tuple[int, int]]:
    """Gives the first word of the hash of each file of a shard, and the row of its section at which the file starts."""
    step, row = _file_step(), 0
    for _ in _walked(_library.xet_file_at, shard, step):
        yield step.place.hash[0], row
        row = step.place.next


def xorbs(shard: Buffer) -> Iterator[Xorb]:
    """Gives the xorbs of a shard, as `files` gives its files."""
    step = _xorb_step()
    for chunks in _walked(_library.xet_xorb_at, shard, step):
        yield _listed_xorb(step, chunks)


def file_at(shard: Buffer, row: int) -> Optional[Tuple[ListedFile, int]]:
    """Returns the file at a row of the file section, and the row of the next one; or None at the end of the section."""
    step = _file_step()
    with _Addresses(shard) as [data]:
        segments = step(_library.xet_file_at, *data, _number(row))
    return None if segments is None else (_listed_file(step, segments), step.place.next)


def xorb_at(shard: Buffer, row: int) -> Optional[Tuple[Xorb, int]]:
    """Returns the xorb at a row of the xorb section, and the row of the next one; or None at the end of the section."""
    step = _xorb_step()
    with _Addresses(shard) as [data]:
        chunks = step(_library.xet_xorb_at, *data, _number(row))
    return None if chunks is None else (_listed_xorb(step, chunks), step.place.next)


def file_in(data: Buffer, version: int) -> Optional[Tuple[ListedFile, int]]:
    """Returns the file's record at the front of some bytes of a shard of this version, and how many rows it has.

    It is None if the section ends there. A row has 48 bytes, and bytes behind the record are not looked at. `Io` says
    that more bytes are needed.
    """
    step = _file_step()
    with _Addresses(data) as [given]:
        segments = step(_library.xet_file_in, *given, _version(version))
    return None if segments is None else (_listed_file(step, segments), step.place.next)


def xorb_in(data: Buffer) -> Optional[Tuple[Xorb, int]]:
    """Returns the xorb's record at the front of some bytes of a shard, and how many rows it has, as `file_in` does."""
    step = _xorb_step()
    with _Addresses(data) as [given]:
        chunks = step(_library.xet_xorb_in, *given)
    return None if chunks is None else (_listed_xorb(step, chunks), step.place.next)


_WITH_VERIFICATION, _WITH_SHA256, _WITH_AUX = 1 << 31, 1 << 30, 1 << 29


def _flags(has_verification: bool, file: File) -> int:
    return (
        (_WITH_VERIFICATION if has_verification else 0) | (_WITH_SHA256 if file.sha256 is not None else 0)
        | (_WITH_AUX if file.aux_hash is not None else 0)
    )


def write(
    files: Iterable[ListedFile], xorbs: Iterable[Xorb], expiry: Optional[int] = None, version: int = 3
) -> bytes:
    """Returns the shard that has these files and xorbs, with all tables, and without a key.

    They may be in any order; of two files, or two xorbs, with one hash the later one counts. A file whose flags are not
    those of its parts is a `ValueError`; `ListedFile.of` sets them. The shard expires at `expiry`, in seconds. It is in
    version 3 of the format, or in `version` 2, which no file with an auxiliary row may have.

    So `write(files(shard), xorbs(shard))` is the same bytes, if this library wrote them in version 3, with all tables,
    without a key, with creation 0 and without expiry, and reserved words of files are zeros. The library refuses
    records that no shard has (`InvalidArguments`): with a hash of all ones, flags of no known part, or a xorb whose
    chunks have 2^32 bytes or more in all.
    """
    return _written([*_file_lists(files), *_xorb_lists(xorbs)], expiry, version)


def _file_lists(files: Iterable[ListedFile]) -> List[Any]:
    """Returns the files as the library takes a list of them, and their segments, each with its length behind it."""
    listed, segments = [], []
    for it in files:
        if not _has_flags_of_parts(it):
            raise ValueError(f"the flags of file {it.hash} are not those of its parts")
        listed.append(_ListedFile(
            _words(it.hash), _words_or_zero(it.file.sha256), _words_or_zero(it.file.aux_hash), _number(it.flags),
            len(it.file.segments),
        ))
        segments += [
            _FileSegment(
                _Segment(_words(part.xorb), *map(_number, (part.flags, part.bytes, part.start, part.end))),
                _words_or_zero(part.verification),
            )
            for part in it.file.segments
        ]
    return [*_array_of(_ListedFile, listed), *_array_of(_FileSegment, segments)]


def _has_flags_of_parts(listed: ListedFile) -> bool:
    has_verification = bool(listed.flags & _WITH_VERIFICATION)
    others = (listed.flags ^ _flags(has_verification, listed.file)) & (_WITH_SHA256 | _WITH_AUX)
    return not others and all((it.verification is not None) == has_verification for it in listed.file.segments)


def _xorb_lists(xorbs: Iterable[Xorb]) -> List[Any]:
    """Returns the xorbs, as `_file_lists` does, and their chunks."""
    listed, chunks = [], []
    for xorb in xorbs:
        numbers = map(_number, (xorb.flags, len(xorb.chunks), xorb.bytes, xorb.bytes_on_disk))
        listed.append(_ListedXorb(_words(xorb.hash), *numbers))
        chunks += [
            _Chunk(_words(it.hash), *map(_number, (it.start, it.bytes, it.flags, it.reserved))) for it in xorb.chunks
        ]
    return [*_array_of(_ListedXorb, listed), *_array_of(_Chunk, chunks)]


def _written(lists: Sequence[Any], expiry: Optional[int], version: int) -> bytes:
    """Returns the shard of four lists of records, each with its length behind it."""
    files, segments, xorbs, chunks = lists[1::2]
    time = NO_EXPIRY if expiry is None else _seconds(expiry)
    # What xet_write_room of xet.h says, without the 344 bytes of every shard.
    room = 156 * files + 96 * segments + 60 * xorbs + 64 * chunks
    return _made(
        room,
        lambda out, room, written: _library.xet_write(*lists, time, _version(version), out, room, byref(written)),
        f"no shard has these records, or their counts do not add up{_or_reason_of(version)}",
    )
