"""Records of a shard as arrays of numpy."""
from __future__ import annotations

import ctypes
import functools
import importlib
import itertools
from ctypes import byref
from dataclasses import dataclass
from typing import Any, Callable, Iterator, List, Optional, Sequence, Tuple

from ._arguments import _digits
from ._calls import _library
from ._errors import _SHORT, _check
from ._lookups import _FEW_SEGMENTS
from ._memory import Buffer, _Addresses
from ._records import _written
from ._structs import _ROW, _Chunk, _Counts, _FileSegment, _Info, _ListedFile, _ListedXorb

# Each word of the hash of a file that is not found.
_ALL_ONES = 2**64 - 1


@dataclass(frozen=True)
class Table:
    """All records of a shard as four structured arrays of numpy, in the order of its sections.

    Each field is a column of numbers, so `pandas.DataFrame(table.chunks)` takes an array as it is, and
    `pyarrow.table({name: it[name] for name in it.dtype.names})` its columns. A hash is four columns, its words, and one
    by `hash_column`.

    - `files`: `hash0` to `hash3`, `sha256_0` to `sha256_3` and `aux_hash0` to `aux_hash3`, which are zeros where the
      file has none, `flags`, whose bits 31, 30 and 29 say that it has verification hashes, a SHA-256 and an auxiliary
      hash, and `segments`, how many of the array of segments are its own, from where those of the file before end
    - `segments`: `xorb0` to `xorb3`, `flags`, `bytes`, `start`, `end`, and `verification0` to `verification3`
    - `xorbs`: `hash0` to `hash3`, `flags`, `chunks`, how many of the array of chunks are its own, `bytes`,
      `bytes_on_disk`
    - `chunks`: `hash0` to `hash3`, `start`, `bytes`, `flags`, `reserved`, which may be left out for zeros

    The array that says to which xorb a chunk belongs is `numpy.repeat(numpy.arange(len(xorbs)), xorbs["chunks"])`.
    """

    files: Any
    segments: Any
    xorbs: Any
    chunks: Any


def _numpy() -> Any:
    # No other function needs it.
    return importlib.import_module("numpy")


@functools.lru_cache(maxsize=None)
def _types() -> Tuple[Any, ...]:
    """Returns the types of the four arrays: the structs of xet.h, a hash as four words. They are made once."""
    numpy = _numpy()

    def type_of(*fields: Any, size: int) -> Any:
        names, formats, offsets, at = [], [], [], 0
        for name, is_hash in fields:
            for column in [f"{name}{it}" for it in range(4)] if is_hash else [name]:
                names.append(column)
                formats.append("<u8" if is_hash else "<u4")
                offsets.append(at)
                at += 8 if is_hash else 4
        return numpy.dtype({"names": names, "formats": formats, "offsets": offsets, "itemsize": size})

    def numbers(*names: str) -> List[Tuple[str, bool]]:
        return [(name, False) for name in names]

    hash_of = ("hash", True)
    return (
        type_of(hash_of, ("sha256_", True), ("aux_hash", True), *numbers("flags", "segments"),
                size=ctypes.sizeof(_ListedFile)),
        type_of(("xorb", True), *numbers("flags", "bytes", "start", "end"), ("verification", True),
                size=ctypes.sizeof(_FileSegment)),
        type_of(hash_of, *numbers("flags", "chunks", "bytes", "bytes_on_disk"), size=ctypes.sizeof(_ListedXorb)),
        type_of(hash_of, *numbers("start", "bytes", "flags", "reserved"), size=ctypes.sizeof(_Chunk)),
    )


def table(shard: Buffer) -> Table:
    """Returns all records of a shard, read in one call. It needs numpy."""
    with _Addresses(shard) as [data]:
        return Table(*_filled_arrays(
            _types(),
            _most_records(*data),
            lambda arrays, counts: _library.xet_records(*data, *arrays, counts),
        ))


@dataclass(frozen=True)
class FoundFiles:
    """Files of a shard that were looked up, as arrays of numpy.

    - `found`: for each hash, whether the shard has the file
    - `files`: a row for each hash, with the columns of `Table.files`. That of a file that is not found has a hash of
      all ones, and zeros else
    - `segments`: those of all these files, with the columns of `Table.segments`. The segments of the file at `i` end at
      `numpy.cumsum(files["segments"])[i]`
    """

    found: Any
    files: Any
    segments: Any


def find_files(shard: Buffer, hashes: Any) -> FoundFiles:
    """Returns the files with these hashes, in their order, looked up in one call. It needs numpy.

    The hashes are texts; or an array of their words, of type `uint64` with four columns; or a column of the bytes of
    each, as `hash_column` returns. If one lookup fails, as `find_file` does, all do.
    """
    numpy = _numpy()
    wanted = _words_of(hashes)
    with _Addresses(shard) as [data]:
        files, segments = _filled_arrays(
            _types()[:2],
            (len(wanted), _FEW_SEGMENTS * len(wanted)),
            lambda arrays, counts: _library.xet_find_files(*data, *_addresses([wanted]), *arrays, counts),
        )
    is_missing = numpy.logical_and.reduce([files[f"hash{it}"] == _ALL_ONES for it in range(4)])
    return FoundFiles(~is_missing, files, segments)


def _words_of(hashes: Any) -> Any:
    """Returns the words of hashes, as `find_files` takes them, a row for each hash."""
    numpy = _numpy()
    if not isinstance(hashes, numpy.ndarray) or hashes.dtype.kind in "OU":
        return numpy.frombuffer(b"".join(map(_digits, hashes)), ">u8").astype("<u8").reshape(-1, 4)
    words = _words_of_column("hash", hashes) if hashes.dtype.kind in "SV" else hashes
    if (words.dtype.kind, words.dtype.itemsize, words.ndim, words.shape[-1:]) != ("u", 8, 2, (4,)):
        raise ValueError(f"hashes are four columns of uint64, and not {hashes.dtype} of the shape {hashes.shape}")
    # The library wants words at multiples of 8.
    return numpy.require(words, "<u8", ["C", "A"])


def _filled_arrays(types: Sequence[Any], room: Sequence[int], call: Callable[[List[int], Any], Any]) -> List[Any]:
    """Returns arrays of these types with what a call writes into them. They are made anew once if it does not fit."""
    numpy, counts = _numpy(), _Counts()

    def filled(sizes: Sequence[int]) -> Tuple[int, List[Any]]:
        arrays = [numpy.empty(size, it) for size, it in zip(sizes, types)]
        return call(_addresses(arrays), byref(counts)), arrays

    number, arrays = filled(room)
    sizes = (counts.files, counts.segments, counts.xorbs, counts.chunks)
    if number == _SHORT:
        number, arrays = filled(sizes)
    _check(number)
    for array, size in zip(arrays, sizes):
        # The room behind the records, which nothing was written to, is given back.
        array.resize(size, refcheck=False)
    return arrays


def _most_records(address: int, length: int) -> Tuple[int, int, int, int]:
    """Returns how many files, segments, xorbs and chunks the sections have at most, if the footer is right."""
    info = _Info()
    # Where it can't be read, the call that reads the records says so.
    _library.xet_load(address, length, byref(info))
    rows = [
        min(max(stop - start, 0), length) // _ROW
        for start, stop in ((info.file_section, info.xorb_section), (info.xorb_section, info.file_table))
    ]
    # A shard may lack tables.
    files, xorbs = (min(count or most, most) for count, most in zip((info.files, info.xorbs), rows))
    return files, rows[0], xorbs, rows[1]


def _addresses(arrays: Sequence[Any]) -> List[int]:
    """Returns the address and the length of each array, one after another."""
    return [it for array in arrays for it in (array.ctypes.data, len(array))]


def from_table(table: Table, expiry: Optional[int] = None, version: int = 3) -> bytes:
    """Returns the shard that has these records, as `write` does. It needs numpy.

    Each of the four may be anything that gives its columns by name, as a `pandas.DataFrame` does, too. Columns of
    different lengths, and numbers that do not fit, are a `ValueError`. An array of the type that `table` returns is not
    copied. Counts that do not fit are refused (`InvalidArguments`): the files' counts of segments add up to the number
    of segments, and the xorbs' counts of chunks to that of chunks.
    """
    arrays = [
        _as_type(it, wanted)
        for it, wanted in zip((table.files, table.segments, table.xorbs, table.chunks), _types())
    ]
    return _written(_addresses(arrays), expiry, version)


def _as_type(columns: Any, wanted: Any) -> Any:
    """Returns an array of this type, with these columns."""
    numpy = _numpy()
    if getattr(columns, "dtype", None) == wanted:
        if columns.ndim != 1:
            raise ValueError(f"an array of records has one dimension, and not {columns.ndim}")
        array = numpy.ascontiguousarray(columns)
        # numpy takes these types for bytes, which may be anywhere, and the library wants words at multiples of 8.
        return array.copy() if array.ctypes.data % 8 else array
    found = dict(_columns(columns, wanted))
    made = numpy.zeros(len(found[wanted.names[0]]), wanted)
    for name, column in found.items():
        if column is None:
            continue
        if len(column) != len(made):
            raise ValueError(f"the column {name} has {len(column)} numbers, and the first one {len(made)}")
        made[name] = column
    return made


def _columns(columns: Any, wanted: Any) -> Iterator[Tuple[str, Any]]:
    """Gives the columns of a type by name, of a hash its words. None stands for one that may be left out, and is."""
    names = iter(wanted.names)
    for name in names:
        try:
            values = columns[name]
        except (KeyError, ValueError):
            # Of an array without this field the error is another than of a mapping.
            if name == "reserved":
                yield name, None
                continue
            hashes = name[:-1].rstrip("_") if name.endswith("0") else name
            try:
                values = columns[hashes]
            except (KeyError, ValueError):
                raise KeyError(f"there is no column {hashes}") from None
            yield from zip((name, *itertools.islice(names, 3)), _words_of_column(hashes, values).T)
            continue
        yield name, _column(name, values, wanted[name])


def _words_of_column(name: str, values: Any) -> Any:
    """Returns the words of hashes of 32 bytes each, a row for each hash."""
    numpy = _numpy()
    # Of a list of bytes numpy would make items of the longest.
    column = values if isinstance(values, numpy.ndarray) else numpy.asarray(values, object)
    if column.dtype == object and all(isinstance(it, bytes) and len(it) == 32 for it in column.flat):
        column = column.astype("V32")
    if column.ndim != 1 or column.dtype.kind not in "SV" or column.dtype.itemsize != 32:
        raise ValueError(f"the column {name} has other items than hashes of 32 bytes")
    return numpy.ascontiguousarray(column).view("<u8").reshape(-1, 4)


def _column(name: str, values: Any, wanted: Any) -> Any:
    """Returns a column, whose numbers are all of this type."""
    numpy = _numpy()
    column = numpy.asarray(values)
    if column.dtype.kind in "fO":
        # Of a list of whole numbers of which only some are below 2^63 numpy makes floating-point numbers.
        column = numpy.asarray(values, object)
    if column.ndim != 1:
        raise ValueError(f"the column {name} has {column.ndim} dimensions, and not one")
    # A number that is out of range, or no whole number, is not to become another.
    if len(column) and not (_are_whole(column) and 0 <= column.min() and column.max() <= numpy.iinfo(wanted).max):
        raise ValueError(f"the column {name} has other numbers than {wanted}")
    return column


def _are_whole(column: Any) -> bool:
    numpy = _numpy()
    if column.dtype == object:
        return all(isinstance(it, (int, numpy.integer)) for it in column)
    return column.dtype.kind in "iu"


def hash_column(array: Any, name: str = "hash") -> Any:
    """Returns the hashes in the four columns of this name of an array that `table` returned, as one column.

    An item has the 32 bytes of a hash as a shard has them, lowest byte of each word first. It is of numpy's type `V32`,
    since `S32` drops zeros at the end. The column is a view, `hash_column(table.segments, "xorb")` say, and copies
    nothing. Arrow has values one after another, so the hashes that go there, and to polars from there, are copied once,
    without being taken apart into words:

        packed = numpy.ascontiguousarray(hash_column(table.chunks))
        hashes = pyarrow.FixedSizeBinaryArray.from_buffers(
            pyarrow.binary(32), len(packed), [None, pyarrow.py_buffer(packed)])
        chunks = pyarrow.table({"hash": hashes, "bytes": table.chunks["bytes"]})
        frame = polars.from_arrow(chunks)

    `from_table` takes such a column in place of the four, under their name without a number: `hash`, `sha256`.
    """
    numpy = _numpy()
    place = array.dtype.fields[f"{_numbered(array, name)}0"][1]
    one = numpy.dtype({"names": [name], "formats": ["V32"], "offsets": [place], "itemsize": array.dtype.itemsize})
    return array.view(one)[name]


def hash_texts(array: Any, name: str = "hash") -> List[str]:
    """Returns the hashes in the four columns of this name, as texts: `hash_texts(table.segments, "xorb")`."""
    numpy = _numpy()
    columns = _numbered(array, name)
    words = numpy.stack([numpy.asarray(array[f"{columns}{it}"], "u8") for it in range(4)], axis=-1)
    digits = words.astype(">u8").tobytes().hex()
    return [digits[at : at + 64] for at in range(0, len(digits), 64)]


def _numbered(array: Any, name: str) -> str:
    """Returns how the names of the four columns of a hash begin: `sha256_` of `sha256`, which ends with a digit."""
    return name if f"{name}0" in array.dtype.names else f"{name}_"
