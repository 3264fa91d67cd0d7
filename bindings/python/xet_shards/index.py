"""An index of the files and the chunks of many shards."""
from __future__ import annotations

import builtins
import contextlib
import errno
import os
import stat
import struct
import threading
from array import array
from bisect import bisect_left, bisect_right
from ctypes import byref
from itertools import chain, repeat
from typing import Dict, Iterable, Iterator, List, NamedTuple, Optional, Sequence, Tuple, Union

from ._arguments import NO_EXPIRY, NO_KEY, _hashes, _seconds, _words
from ._calls import _library
from ._errors import _INVALID_SHARD, _IO, XetError
from ._files import Path, _map_of, _new
from ._lookups import Info, Run, _file_rows, _found_at, _run_at, chunk_rows, load
from ._memory import Buffer, _Mapped
from ._merging import merge
from ._records import File
from ._structs import _CHUNK_ROW, _FOOTER, _TABLE_ROW, _Hash

# A block has so many rows at most: a row comes to its place by moving those behind it.
_BLOCK = 512
# The expiry is so many bytes behind the start of the footer.
_EXPIRY = 112

# The numbers of shards, and places in them, one by one. The place of a chunk is the second half of a row of a chunk
# table as one number: its lowest 32 bits are the row of the xorb, and those above the index of the chunk. The place of
# a file is its row.
Places = Iterable[Tuple[int, int]]


class _Rows:
    """Rows of many tables of one kind, ascending by word: of each the word, the place, and the number of the shard.

    They are in blocks, each of three columns.
    """

    def __init__(self) -> None:
        self._blocks: List[Tuple[array[int], array[int], array[int]]] = [(array("Q"), array("Q"), array("Q"))]
        # The first word of each block, and 0 of the first one.
        self._starts = array("Q", [0])
        self.count = 0

    def add(self, number: int, rows: Sequence[Tuple[int, int]]) -> None:
        """Adds the words and the places of a shard with this number, which ascend by word."""
        at, stop = 0, 0
        for word, place in rows:
            if word >= stop:
                at = bisect_right(self._starts, word, at) - 1
                stop = self._starts[at + 1] if at + 1 < len(self._starts) else 1 << 64
                words, places, numbers = self._blocks[at]
            here = bisect_right(words, word)
            words.insert(here, word)
            places.insert(here, place)
            numbers.insert(here, number)
            if len(words) > _BLOCK:
                self._split(at)
                stop = 0
        self.count += len(rows)

    def _split(self, at: int) -> None:
        words, places, numbers = self._blocks[at]
        half = len(words) // 2
        self._starts.insert(at + 1, words[half])
        self._blocks.insert(at + 1, (words[half:], places[half:], numbers[half:]))
        for column in (words, places, numbers):
            del column[half:]

    def remove(self, number: int, words: Iterable[int]) -> None:
        """Removes the rows of the shard with this number, which are under these words, in ascending order."""
        first = 0
        for word in words:
            first = self._first(word, first)
            # From the last row on, since those behind one that is removed move.
            for at in range(bisect_right(self._starts, word, first) - 1, first - 1, -1):
                words_here, places, numbers = self._blocks[at]
                low, high = _range_of(words_here, word)
                for here in range(high - 1, low - 1, -1):
                    if numbers[here] == number:
                        del words_here[here], places[here], numbers[here]
                        self.count -= 1
                self._join(at)

    def _join(self, at: int) -> None:
        """Joins a block with the next one if both have few rows."""
        if at + 1 < len(self._blocks) and len(self._blocks[at][0]) + len(self._blocks[at + 1][0]) <= _BLOCK // 2:
            for column, more in zip(self._blocks[at], self._blocks.pop(at + 1)):
                column.extend(more)
            del self._starts[at + 1]

    def _first(self, word: int, at: int = 0) -> int:
        """Returns the first block, of those from one on, that may have rows with a word."""
        return max(bisect_left(self._starts, word, at) - 1, 0)

    def of(self, word: int) -> List[Places]:
        """Returns the rows with a word, as they are now."""
        found: List[Places] = []
        at = self._first(word)
        while at < len(self._starts) and self._starts[at] <= word:
            words, places, numbers = self._blocks[at]
            low, high = _range_of(words, word)
            if low < high:
                found.append(zip(numbers[low:high], places[low:high]))
            at += 1
        return found


class _ChunkTable(NamedTuple):
    """A chunk table that is used in place."""

    words: memoryview
    places: memoryview

    def of(self, word: int) -> Sequence[int]:
        """Returns the places with a word."""
        low, high = _range_of(self.words, word)
        return self.places[low:high] if low < high else ()


class _FileTable(NamedTuple):
    """A file table that is used in place. The words are in halves, since a row has 12 bytes."""

    high: memoryview
    low: memoryview
    places: memoryview

    def of(self, word: int) -> Sequence[int]:
        """Returns the places with a word."""
        start, end = _range_of(self.high, word >> 32)
        if start == end:
            return ()
        low, high = _range_of(self.low[start:end], word & 0xFFFFFFFF)
        return self.places[start + low : start + high]


# The table of a shard, or the words and the places that it would have, ascending by word.
_Table = Union[_ChunkTable, _FileTable, List[Tuple[int, int]]]


class _Tables:
    """Tables of one kind of many shards: rows in memory, and the tables of shards that are used in place."""

    def __init__(self) -> None:
        self.rows = _Rows()
        # By the number of the shard.
        self.in_place: Dict[int, Union[_ChunkTable, _FileTable]] = {}

    def add(self, number: int, table: _Table) -> None:
        """Adds the table of a shard with this number."""
        if isinstance(table, list):
            self.rows.add(number, table)
        else:
            self.in_place[number] = table

    def remove(self, number: int, words: Iterable[int]) -> None:
        """Removes the table of the shard with this number, or its rows, which are under these words, in order."""
        self.in_place.pop(number, None)
        self.rows.remove(number, words)

    def of(self, word: int) -> Places:
        """Returns where there are records with a word, as it is now."""
        found = self.rows.of(word) if self.rows.count else []
        for number, table in self.in_place.items():
            places = table.of(word)
            if places:
                found.append(zip(repeat(number), places))
        return chain.from_iterable(found)


class _Keyed(_Tables):
    """The chunk tables of the shards of one key."""

    def __init__(self, key: str) -> None:
        super().__init__()
        self._key = None if key == NO_KEY else _Hash(_words(key))
        self.shards = 0

    def word(self, chunk_hash: _Hash) -> int:
        """Returns the first word of a hash under the key."""
        keyed = chunk_hash
        if self._key is not None:
            keyed = _Hash()
            _library.xet_hmac(byref(self._key), byref(chunk_hash), byref(keyed))
        word: int = keyed.words[0]
        return word


class _Entry(NamedTuple):
    """A shard of an index. An expiry of 0 or `NO_EXPIRY` is none."""

    key: str
    expiry: int
    shard: Buffer

    def has_expired(self, now: Optional[int]) -> bool:
        return now is not None and self.expiry not in (0, NO_EXPIRY) and self.expiry <= now


class Index:
    """Finds files, and runs of chunks, among many shards, whose chunk hashes may be under several keys.

    A shard is anything with a buffer, as a map of a file, and is to stay as it is. The index has some 29 bytes of its
    own for each file and each chunk of its shards, and none for those of shards that are used in place. To add or to
    remove a shard takes time in proportion to its files and chunks. A query takes one keyed hash and a binary search
    for each key, and for each shard that is used in place a binary search, and then, for each place that the first
    chunk has, the reading of one run, until it finds one with all the chunks that are asked for. To find a file takes a
    binary search, and another for each shard that is used in place, and the reading of one record. Any number of
    threads may use it at once.

    `save` and `open` keep it in a file, so that a service which starts again need not read its shards:

        index.save(name)
        index = Index.open(name)

    Many shards at once are soonest there if they are added in place, saved, and opened.

    Shards expire by the caller's clock, in seconds: one whose expiry has come by `now` is not answered, or left out. If
    `now` is not given none has expired; an expiry of 0 or `NO_EXPIRY` never comes.

    It is no part of the library that is proved, but what it returns is read from a shard by `query_at` or `file_at`.
    """

    def __init__(self) -> None:
        self._shards: Dict[int, _Entry] = {}
        self._next = 0
        # In the order in which the keys came.
        self._keys: Dict[str, _Keyed] = {}
        # No key changes the hashes of files.
        self._files = _Tables()
        # Whoever has it reads or changes rows.
        self._lock = threading.Lock()

    @classmethod
    def open(cls, path: Path) -> Index:
        """Maps a file that `save` wrote, whose shards are used in place. Shards can be added to it, and it be saved.

        The errors are those of opening a file, those of `load` of the bytes of its shards, and `InvalidShard` if one of
        them would start in front of the file. It must not be cut short while it is mapped: reading behind its end ends
        the process. `save` replaces it, which does no harm.
        """
        index = cls()
        whole = _map_of(path)
        # The file of an index without shards is empty.
        if whole is not None:
            for shard in _shards_of(memoryview(whole)):
                index.add(shard, in_place=True)
        return index

    def save(self, path: Path, now: Optional[int] = None, resolution: int = 1) -> None:
        """Writes the index to a file for `open`, which takes its name when it is whole.

        A link stays, and the file that it leads to is replaced. A file that is replaced keeps its mode, and its owner
        and group where the system lets them be given; until then only its owner may read the new one. It is an
        `OSError` if what is there is no regular file.

        The file has a shard for each key and expiry, one after another: the merge of the shards of the index that have
        them, with this expiry. So of shards without a key and without expiry it is one shard, which can be read by
        itself. Expiries are rounded down to a multiple of `resolution`, in seconds, so that shards which expire at
        about the same time are merged. A file that several of them have is there as the merge has it.

        It takes as much memory as `merge`, which returns the shard. The errors are those of writing a file, and those
        of `merge`, where `index` is the number of the shard.
        """
        target, replaced = _place_at(os.fsdecode(path))
        opener = _open_private if replaced else None
        with _new(target) as new, builtins.open(new, "xb", opener=opener) as file:
            for expiry, shards in self._groups(now, resolution):
                for part in _with_expiry(_merged(shards), expiry):
                    file.write(part)
            file.flush()
            if replaced:
                _take_place(file.fileno(), replaced)
            os.fsync(file.fileno())

    def _groups(self, now: Optional[int], resolution: int) -> List[Tuple[int, Dict[int, Buffer]]]:
        """Returns the shards to merge, which have one key, by their numbers, with the expiry of their merge."""
        groups: Dict[Tuple[str, int], Dict[int, Buffer]] = {}
        for number, it in list(self._shards.items()):
            if not it.has_expired(now):
                # A multiple that is 0 would be none.
                expiry = max(it.expiry // resolution * resolution, 1)
                expiry = NO_EXPIRY if it.expiry in (0, NO_EXPIRY) else expiry
                groups.setdefault((it.key, expiry), {})[number] = it.shard
        return [(expiry, shards) for (_, expiry), shards in groups.items()]

    def add(self, shard: Buffer, in_place: bool = False) -> int:
        """Adds the files and the chunks of a shard, and returns its number, which no other shard of the index gets.

        With `in_place` the tables of files and of chunks are used where they lie in the shard, as for a large merge in
        a file that is mapped: this takes no time and no memory, but each lookup searches them. The tables of a shard
        that this library wrote ascend by word; in other ones files and chunks may not be found. In place of a table
        that a shard lacks its section is read, and the rows are kept as without `in_place`. So files are found also in
        a minimal shard, in which `find_file` finds none.

        The errors are those of `load`, `chunk_rows` and `files`, and `Io` if a table is not all there.
        """
        info = load(shard)
        files: _Table = _file_table(shard, info) if in_place and info.files else sorted(_file_rows(shard))
        chunks: _Table = _chunk_table(shard, info) if in_place and info.chunks else sorted(_chunk_rows(shard))
        with self._lock:
            number = self._next
            self._next += 1
            self._files.add(number, files)
            keyed = self._keys.setdefault(info.key, _Keyed(info.key))
            keyed.shards += 1
            keyed.add(number, chunks)
            self._shards[number] = _Entry(info.key, info.expiry, shard)
        return number

    def remove(self, number: int) -> Buffer:
        """Removes a shard by its number, and returns it. It is a `KeyError` if there is none."""
        key, _, shard = self._shards[number]
        keyed = self._keys[key]
        files = [] if number in self._files.in_place else _words_in(_file_rows(shard))
        chunks = [] if number in keyed.in_place else _words_in(_chunk_rows(shard))
        with self._lock:
            del self._shards[number]
            self._files.remove(number, files)
            keyed.remove(number, chunks)
            keyed.shards -= 1
            if not keyed.shards:
                del self._keys[key]
        return shard

    def remove_expired(self, now: int) -> List[int]:
        """Removes the shards that have expired, and returns their numbers."""
        removed, now = [], _seconds(now)
        for number, it in list(self._shards.items()):
            if it.has_expired(now):
                # Another thread may have removed it since.
                with contextlib.suppress(KeyError):
                    self.remove(number)
                    removed.append(number)
        return removed

    def find_file(self, file_hash: str, now: Optional[int] = None) -> Optional[Tuple[int, File]]:
        """Returns the number of a shard and the file with this hash in it, or None if no shard has it.

        Of several shards that have it, it is the one that was added first. The file is what `find_file` returns of this
        shard, which refuses eight or more files with one first word: here they are found. A row of a wrong table that
        leads to a file with another hash is passed over. The errors are those of `find_file`, as `InternalError` of a
        row that leads to the end of the section.
        """
        wanted = _words(file_hash)
        with self._lock:
            places = sorted(self._files.of(wanted[0]))
        for number, row in places:
            # It may have been removed since.
            it = self._shards.get(number)
            if it is None or it.has_expired(now):
                continue
            file = _found_at(it.shard, wanted, row)
            if file is not None:
                return number, file
        return None

    def query(self, hashes: Sequence[str], now: Optional[int] = None) -> Optional[Tuple[int, Run]]:
        """Returns the number of a shard and the longest run in it of chunks with these hashes, which are not keyed.

        It is None if no shard has the first. Of several runs that are longest it is the first that is found.
        """
        longest: Optional[Tuple[int, Run]] = None
        wanted, count = _hashes(hashes)
        for number, place in self._places(wanted[0]) if count else ():
            # It may have been removed since.
            it = self._shards.get(number)
            if it is None or it.has_expired(now):
                continue
            run = _run_at(it.shard, wanted, count, place & 0xFFFFFFFF, place >> 32)
            if run and (longest is None or run.count > longest[1].count):
                longest = number, run
                if run.count == count:
                    break
        return longest

    def _places(self, chunk_hash: _Hash) -> Iterator[Tuple[int, int]]:
        for keyed in list(self._keys.values()):
            word = keyed.word(chunk_hash)
            with self._lock:
                found = keyed.of(word)
            yield from found

    def __getitem__(self, number: int) -> Buffer:
        """Returns the shard with a number."""
        return self._shards[number].shard

    def __contains__(self, number: int) -> bool:
        return number in self._shards

    def __iter__(self) -> Iterator[int]:
        """Returns the numbers of the shards that there are now, whatever is added and removed meanwhile."""
        return iter(list(self._shards))

    def __len__(self) -> int:
        return len(self._shards)


def _place_at(path: str) -> Tuple[str, Optional[os.stat_result]]:
    """Returns the path of the file that a path leads to, also by links, and what is there."""
    try:
        there: Optional[os.stat_result] = os.stat(path)
    except FileNotFoundError:
        there = None
    if there and not stat.S_ISREG(there.st_mode):
        raise OSError(errno.EINVAL, "it is no regular file", path)
    return os.path.realpath(path) if os.path.islink(path) else path, there


def _open_private(path: str, flags: int) -> int:
    return os.open(path, flags, 0o600)


def _take_place(file: int, replaced: os.stat_result) -> None:
    """Gives a file the mode of the one that it replaces, and its owner and group where the system lets it."""
    with contextlib.suppress(OSError):
        os.fchown(file, replaced.st_uid, replaced.st_gid)
    os.fchmod(file, stat.S_IMODE(replaced.st_mode))


def _merged(shards: Dict[int, Buffer]) -> bytes:
    """Returns the merge of some shards of an index, which are given by their numbers."""
    try:
        return merge(shards.values())
    except XetError as error:
        number = None if error.index is None else list(shards)[error.index]
        raise XetError(error.number, number, error.reason) from None


def _range_of(words: Union[array[int], memoryview], word: int) -> Tuple[int, int]:
    """Returns where a word starts and ends among words in ascending order. Mostly it is there once, or not at all."""
    low, count, step = bisect_left(words, word), len(words), 1
    if low == count or words[low] != word:
        return low, low
    while low + step < count and words[low + step] == word:
        step *= 2
    return low, bisect_right(words, word, low, min(low + step, count))


# The library is built for machines of this byte order.
def _columns(rows: memoryview) -> _ChunkTable:
    """Returns the words and the places of rows of a chunk table."""
    numbers = rows.cast("Q")
    return _ChunkTable(numbers[::2], numbers[1::2])


def _chunk_rows(shard: Buffer) -> Iterator[Tuple[int, int]]:
    """Gives the words and the places of the chunks of a shard."""
    return zip(*_columns(memoryview(chunk_rows(shard))))


def _chunk_table(shard: Buffer, info: Info) -> _ChunkTable:
    return _columns(_bytes_at(shard, info.chunk_table, _CHUNK_ROW * info.chunks))


def _file_table(shard: Buffer, info: Info) -> _FileTable:
    numbers = _bytes_at(shard, info.file_table, _TABLE_ROW.size * info.files).cast("I")
    return _FileTable(numbers[1::3], numbers[::3], numbers[2::3])


def _bytes_at(shard: Buffer, start: int, size: int) -> memoryview:
    """Returns so many bytes of a shard, where they lie."""
    found = memoryview(shard.buffer if isinstance(shard, _Mapped) else shard).cast("B")[start : start + size]
    if len(found) < size:
        raise XetError(_IO)
    return found


def _words_in(rows: Iterable[Tuple[int, int]]) -> List[int]:
    """Returns the words in rows, each once and in ascending order."""
    return sorted({word for word, _ in rows})


def _shards_of(whole: memoryview) -> List[memoryview]:
    """Returns the shards that lie one after another in a file: the footer of each says where it starts."""
    shards, end = [], len(whole)
    while end:
        start = end - _FOOTER - load(whole[:end]).footer
        if start < 0:
            raise XetError(_INVALID_SHARD)
        shards.append(whole[start:end])
        end = start
    return shards[::-1]


def _with_expiry(shard: bytes, expiry: int) -> List[Union[bytes, memoryview]]:
    """Returns the parts of a shard with another expiry, by the footer of docs/FORMAT.md."""
    view, at = memoryview(shard), len(shard) - _FOOTER + _EXPIRY
    return [view[:at], struct.pack("<Q", expiry), view[at + 8 :]]
