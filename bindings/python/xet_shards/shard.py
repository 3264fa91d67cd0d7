"""A shard in a file that is mapped to memory."""
from __future__ import annotations

import mmap
import os
from typing import Any, Iterator, List, Optional, Sequence, Tuple, TypeVar

from ._checking import Finding, check
from ._errors import _INTERNAL_ERROR, _IO, XetError
from ._files import Path as Path, _map_of
from ._forms import convert, eligible, export, minimal, subset
from ._lookups import Info, Run, chunk_rows, find_file, find_rows, load, query_at, query_chunks
from ._memory import _Mapped
from ._records import File, ListedFile, Xorb, file_at, files, xorb_at, xorbs
from ._structs import _TABLE_ROW
from ._tables import FoundFiles, Table, find_files, table

_Record = TypeVar("_Record")


def open(path: Path) -> Shard:
    """Maps the file of a shard to memory, and reads its header and footer.

    The errors are those of opening a file, and those of `load` of its bytes, with the path: `Io` also of an empty file.
    `check` says more of bytes that are no shard.
    """
    return Shard(path)


class Shard(_Mapped):
    """A shard in a file, which `open` maps to memory. It is a context manager, which closes it at its end.

    A method does what the function of its name does with the bytes. A shard can also be given to any function that
    takes the bytes of one, as to `merge`, and be added to an `Index`. Pickled it is its path, which is opened where it
    is unpickled. `find_xorb` has no such function: it is made of `find_rows` and `xorb_at`, and no part of the library
    that is proved.

    When it is closed, all but `close`, `closed` and `path` is a `ValueError`, and so is going on with `files` and
    `xorbs`. If a call in another thread, such a walk, or a `memoryview` of `buffer` still has the bytes, they stay
    mapped as long as it has them. The file must not be cut short before that: reading behind its end ends the process.
    """

    def __init__(self, path: Path) -> None:
        self.path = path
        self._map: Optional[mmap.mmap] = None
        try:
            self._map = _map_of(path)
            # The error of an empty file is that of its bytes.
            self._info = load(self._map or b"")
        except XetError as error:
            self.close()
            raise XetError(error.number, path=os.fsdecode(path)) from None
        except BaseException:
            self.close()
            raise

    def close(self) -> None:
        """Closes the shard, and does nothing if that was done before."""
        mapped, self._map = self._map, None
        if mapped is not None:
            try:
                mapped.close()
            except BufferError:
                # Someone has the bytes, and the map goes with the last who has them.
                pass

    @property
    def closed(self) -> bool:
        """Whether it is closed."""
        return self._map is None

    def __reduce__(self) -> Tuple[Any, ...]:
        self._check_open()
        return type(self), (self.path,)

    def __enter__(self) -> Shard:
        self._check_open()
        return self

    def __exit__(self, *_: object) -> None:
        self.close()

    def __repr__(self) -> str:
        return f"<{'closed ' if self.closed else ''}xet_shards.Shard {self.path!r}>"

    @property
    def buffer(self) -> mmap.mmap:
        """The bytes of the shard, as the map of its file."""
        mapped = self._map
        if mapped is None:
            raise ValueError(f"the shard {self.path!r} is closed")
        return mapped

    @property
    def info(self) -> Info:
        """What the header and the footer say, as `load` returns it. They were read when the shard was opened."""
        self._check_open()
        return self._info

    def _check_open(self) -> None:
        self.buffer

    def find_file(self, file_hash: str) -> Optional[File]:
        """Returns the file with this hash, or None, by the table of files."""
        return find_file(self.buffer, file_hash)

    def find_files(self, hashes: Any) -> FoundFiles:
        """Returns the files with these hashes, as arrays of numpy."""
        return find_files(self.buffer, hashes)

    def find_xorb(self, xorb_hash: str) -> Optional[Xorb]:
        """Returns the xorb with this hash, or None, by the table of xorbs: without one, none is found.

        The errors are those of `find_file`, and those of `xorb_at`.
        """
        start, size = self.info.xorb_table, _TABLE_ROW.size * self.info.xorbs
        with memoryview(self.buffer)[start : start + size] as rows:
            if len(rows) < size:
                raise XetError(_IO)
            found = find_rows(rows, xorb_hash)
        for row in found:
            at = self.xorb_at(row)
            if at is None:
                raise XetError(_INTERNAL_ERROR)
            if at[0].hash == xorb_hash.lower():
                return at[0]
        return None

    def query_chunks(self, hashes: Sequence[str]) -> Optional[Run]:
        """Returns a run of chunks with these hashes, which are not keyed, or None, by the table of chunks."""
        return query_chunks(self.buffer, hashes)

    def query_at(self, hashes: Sequence[str], row: int, index: int) -> Optional[Run]:
        """Returns the run of these hashes that starts at an index of the xorb at a row of the xorb section, or None."""
        return query_at(self.buffer, hashes, row, index)

    def chunk_rows(self) -> bytes:
        """Returns where the chunks are: the rows of the chunk table, or the rows that it would have."""
        return chunk_rows(self.buffer)

    def files(self) -> Iterator[ListedFile]:
        """Gives the files, one after another."""
        return self._walk(files(self.buffer))

    def xorbs(self) -> Iterator[Xorb]:
        """Gives the xorbs, one after another."""
        return self._walk(xorbs(self.buffer))

    def _walk(self, records: Iterator[_Record]) -> Iterator[_Record]:
        self._check_open()
        for it in records:
            yield it
            self._check_open()

    def file_at(self, row: int) -> Optional[Tuple[ListedFile, int]]:
        """Returns the file at a row of the file section, and the row of the next one, or None at the end."""
        return file_at(self.buffer, row)

    def xorb_at(self, row: int) -> Optional[Tuple[Xorb, int]]:
        """Returns the xorb at a row of the xorb section, and the row of the next one, or None at the end."""
        return xorb_at(self.buffer, row)

    def table(self) -> Table:
        """Returns all records, as arrays of numpy."""
        return table(self.buffer)

    def check(self) -> List[Finding]:
        """Returns all that is wrong with the bytes."""
        return check(self.buffer)

    def eligible(self) -> List[str]:
        """Returns the hashes of the chunks that the global index keeps."""
        return eligible(self.buffer)

    def export(
        self, key: str, now: int, valid_seconds: int, files: bool = True, aux_rows: bool = True,
        xorb_table: bool = True, chunk_table: bool = True, version: int = 3,
    ) -> bytes:
        """Returns a keyed export."""
        return export(self.buffer, key, now, valid_seconds, files, aux_rows, xorb_table, chunk_table, version)

    def minimal(
        self, now: int, verification: bool = False, aux_rows: bool = True, version: int = 3
    ) -> bytes:
        """Returns the records without tables."""
        return minimal(self.buffer, now, verification, aux_rows, version)

    def subset(
        self, now: int, expiry: Optional[int] = None, xorbs: Optional[Sequence[str]] = None, version: int = 3
    ) -> bytes:
        """Returns the xorbs with these hashes, or all, without files and tables."""
        return subset(self.buffer, now, expiry, xorbs, version)

    def convert(self, version: int) -> bytes:
        """Returns the same shard in a version of the format."""
        return convert(self.buffer, version)
