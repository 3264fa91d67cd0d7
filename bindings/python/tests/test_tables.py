"""Tests of tables of records, as arrays of numpy.

Runs with pytest, or as a program, which ends with the line 'N passed, M failed'.
"""
import ctypes
import dataclasses
import os
import struct
import sys
import unittest

sys.dont_write_bytecode = True
sys.path.insert(0, os.path.dirname(os.path.realpath(__file__)))

import scripts  # noqa: E402
import xet_shards  # noqa: E402
from scripts import Shard, hash_text  # noqa: E402
from test_vectors import main, needs_numpy, numpy, raises, records_shard, refused, shard_of  # noqa: E402


def test_tables():
    needs_numpy()
    for shard in (Shard(), records_shard()):
        written = shard.written()
        table = xet_shards.table(written)
        assert xet_shards.from_table(table) == written
        assert xet_shards.from_table(table, 7) == shard.written(7)
        reversed_xorbs = dataclasses.replace(table, files=table.files[:0], segments=table.segments[:0])
        assert xet_shards.from_table(reversed_xorbs) == xet_shards.write([], xet_shards.xorbs(written))
        # By columns, of any integers.
        columns = [{name: it[name].astype(object).astype(numpy.uint64) for name in it.dtype.names}
                   for it in (table.files, table.segments, table.xorbs, table.chunks)]
        assert xet_shards.from_table(xet_shards.Table(*columns)) == written
        listed = list(xet_shards.files(written))
        assert xet_shards.hash_texts(table.files) == [it.hash for it in listed]
        segments = [part for it in listed for part in it.file.segments]
        assert xet_shards.hash_texts(table.segments, "xorb") == [it.xorb for it in segments]
        assert table.files["segments"].tolist() == [len(it.file.segments) for it in listed]
        chunks = [chunk for it in xet_shards.xorbs(written) for chunk in it.chunks]
        assert list(zip(table.chunks["start"], table.chunks["bytes"])) == [(it.start, it.bytes) for it in chunks]
    refused("InvalidArguments", xet_shards.from_table, dataclasses.replace(table, segments=table.segments[1:]))
    refused("InvalidArguments", xet_shards.from_table, dataclasses.replace(table, chunks=table.chunks[:0]))
    names = table.xorbs.dtype.names
    for wrong in (-1, 2**32, 0.5):
        xorbs = {name: numpy.array([wrong, 0] if name == "bytes" else table.xorbs[name]) for name in names}
        raises(ValueError, xet_shards.from_table, dataclasses.replace(table, xorbs=xorbs))
    # Neither reads a table, and a section that is cut short gives nothing.
    assert (xet_shards.table(xet_shards.minimal(written, 9)).xorbs == table.xorbs).all()
    refused("Io", xet_shards.table, written[: 48 + 48 * 7] + written[-200:])


def test_columns():
    needs_numpy()
    shard = shard_of("xorb 10", "xorb 11", "file 100")
    table = xet_shards.table(shard)
    columns = {name: table.xorbs[name].tolist() for name in table.xorbs.dtype.names}

    def written(xorbs):
        return xet_shards.from_table(dataclasses.replace(table, xorbs=xorbs))

    assert written(columns) == shard
    # Numbers of 64 bits: of a list with some below 2^63 and some not, numpy makes another type.
    for words in ([1, 2**63], [2**63 - 1, 2**64 - 1], [numpy.uint64(1), 2**63], [2**63, 2**64 - 1]):
        for column in (words, numpy.array(words, object), numpy.array(words, "u8")):
            made = written({**columns, "hash3": column})
            assert [it.hash[48:] for it in xet_shards.xorbs(made)] == [f"{int(word):016x}" for word in words]
    for words in ([-1, 2**63], [0, 2**64], [0.0, 2**63], ["1", "2"], [None, 1], [True, False], [[1], [2, 3]]):
        raises(ValueError, written, {**columns, "hash3": words})
    # Columns of other shapes, which numpy would spread over all rows, or take for one of them.
    for shape in (0, [], [0], [0, 0, 0], [[0, 0]], [[0], [0]], [[0, 0], [0, 0]]):
        for name in ("hash0", "flags"):
            raises(ValueError, written, {**columns, name: shape})
        of_chunks = {name: [] for name in table.chunks.dtype.names}
        if shape != []:
            raises(ValueError, xet_shards.from_table,
                   dataclasses.replace(table, chunks={**of_chunks, "reserved": shape}))
    for array in (table.xorbs.reshape(1, 2), table.xorbs.reshape(2, 1), table.xorbs[0]):
        raises(ValueError, written, array)
    raises(KeyError, written, {"hash0": []})


def test_hash_columns():
    needs_numpy()
    written = records_shard().written()
    table = xet_shards.table(written)
    for array, names in (
        (table.files, ("hash", "sha256", "sha256_", "aux_hash")), (table.segments, ("xorb", "verification")),
        (table.xorbs, ("hash",)), (table.chunks[::-1], ("hash",)), (table.chunks[:0], ("hash",)),
    ):
        for name in names:
            column = xet_shards.hash_column(array, name)
            assert column.dtype == "V32" and len(column) == len(array)
            assert not len(array) or numpy.shares_memory(column, array)
            # The text shows the bytes of each word in reverse.
            words = [struct.unpack("<4Q", it) for it in column.tolist()]
            assert [f"{a:016x}{b:016x}{c:016x}{d:016x}" for a, b, c, d in words] == xet_shards.hash_texts(array, name)
    # They are the bytes of the shard: of its first file, and of a chunk behind it.
    assert xet_shards.hash_column(table.files)[0].tobytes() == written[48:80]
    assert xet_shards.hash_column(table.chunks)[0].tobytes() in written
    raises(KeyError, xet_shards.hash_column, table.chunks, "xorb")
    # One column in place of four, of several types.
    packed = numpy.ascontiguousarray(xet_shards.hash_column(table.chunks))
    others = {name: table.chunks[name] for name in table.chunks.dtype.names if not name.startswith("hash")}
    for column in (packed, packed.view("S32"), packed.astype(object), packed.tolist(), [bytes(it) for it in packed]):
        assert xet_shards.from_table(dataclasses.replace(table, chunks={**others, "hash": column})) == written
    files = {name: table.files[name] for name in ("flags", "segments")}
    for name in ("hash", "sha256", "aux_hash"):
        files[name] = xet_shards.hash_column(table.files, name)
    assert xet_shards.from_table(dataclasses.replace(table, files=files)) == written
    lists = ["text"] * 2, [b"0" * 31, b"0" * 32], [b"0" * 32] * 3, [[b"0" * 32] * 2], [None, b"0" * 32]
    for column in (packed[:1], packed.view("V16"), packed.view("u1"), packed[None], *lists):
        raises(ValueError, xet_shards.from_table, dataclasses.replace(table, chunks={**others, "hash": column}))
    hashes = dict.fromkeys(("hash", "sha256", "aux_hash"), [])
    starts = table.chunks[["start"]]
    for missing, part in (("hash", {"chunks": others}), ("hash", {"chunks": starts}), ("flags", {"files": hashes})):
        error = raises(KeyError, xet_shards.from_table, dataclasses.replace(table, **part))
        assert f"there is no column {missing}" in str(error)


def given_in_all_ways(texts):
    """Returns hashes in each way that `find_files` takes them."""
    words = numpy.array([scripts.words_of(it) for it in texts], "u8")
    column = words.view("V32").reshape(-1)
    odd = numpy.frombuffer(bytes(1) + words.tobytes(), "u8", offset=1).reshape(-1, 4)
    by_text = texts, tuple(texts), iter(texts), numpy.array(texts), numpy.array(texts, object)
    by_words = words, words[::-1].copy()[::-1], numpy.asfortranarray(words), words.astype(">u8"), odd
    return *by_text, *by_words, column, column.view("S32"), odd.view("V32").reshape(-1)


def test_files_in_one_call():
    needs_numpy()
    shard, zeros = records_shard().written(), "0" * 64
    wanted = [hash_text(it) for it in ("100", "99", "102", "100", "101")]
    for hashes in given_in_all_ways(wanted):
        found = xet_shards.find_files(shard, hashes)
        assert found.found.tolist() == [True, False, True, True, True]
        assert xet_shards.hash_texts(found.files) == [wanted[0], "f" * 64, *wanted[2:]]
        assert xet_shards.hash_texts(found.files, "sha256") == [zeros, zeros, hash_text("9364"), zeros, zeros]
        assert xet_shards.hash_texts(found.files, "aux_hash") == [zeros, zeros, hash_text("777"), zeros, zeros]
        assert found.files["flags"].tolist() == [0, 0, 7 << 29, 0, 0]
        assert found.files["segments"].tolist() == [70, 0, 2, 70, 0]
        assert found.segments["bytes"].tolist() == [9] * 70 + [5, 7] + [9] * 70
        verification = xet_shards.hash_texts(found.segments, "verification")
        assert verification == [zeros] * 70 + [hash_text("365"), hash_text("366")] + [zeros] * 70


def test_files_that_are_not_there():
    needs_numpy()
    shard = records_shard().written()
    for hashes in ([], numpy.zeros((0, 4), "u8"), numpy.array([], "V32")):
        # Nothing is read.
        for content in (shard, b""):
            found = xet_shards.find_files(content, hashes)
            assert len(found.found) == len(found.files) == len(found.segments) == 0
    # That of a file that is not there has the hash that is asked for.
    assert xet_shards.find_files(shard, ["f" * 64]).found.tolist() == [False]
    # Without a table of files.
    assert xet_shards.find_files(xet_shards.minimal(shard, 9), [hash_text("100")] * 9).found.tolist() == [False] * 9
    sharing = [f"{5:016x}{it:016x}{0:032x}" for it in range(8)]
    for count in (7, 8):
        shared = shard_of("file 100", *(f"file {it} 200:0:1:1" for it in sharing[:count]))
        assert xet_shards.find_files(shared, [hash_text("100")]).found.all()
        if count == 7:
            assert xet_shards.find_files(shared, sharing).found.tolist() == [True] * 7 + [False]
        else:
            refused("TruncatedHashCollision", xet_shards.find_files, shared, [hash_text("100"), sharing[0]])
    refused("Io", xet_shards.find_files, shard[:199], [hash_text("100")])
    words = numpy.zeros((2, 4), "u8")
    of_other_types = words.astype("i8"), words.astype("u4"), words.astype("f8"), words.view("V16").reshape(-1)
    others = words[:, :3], words[0], words[None], *of_other_types
    for hashes in (hash_text("100"), [hash_text("100")[1:]], ["x" * 64], *others):
        raises(ValueError, xet_shards.find_files, shard, hashes)


def packed_hashes(table):
    """Returns the hashes of a table's chunks as a column, and as bytes."""
    wanted = b"".join(struct.pack("<4Q", *scripts.words_of(it)) for it in xet_shards.hash_texts(table.chunks))
    return numpy.ascontiguousarray(xet_shards.hash_column(table.chunks)), wanted


def test_buffers_of_hash_columns():
    needs_numpy()
    packed, wanted = packed_hashes(xet_shards.table(records_shard().written()))
    # What pyarrow.py_buffer asks of it: PyBUF_ANY_CONTIGUOUS.
    view = xet_shards._memory._View()
    xet_shards._memory._get_buffer(packed, view, 0x98)
    assert (view.len, ctypes.string_at(view.buf, view.len)) == (64, wanted)
    xet_shards._memory._release_buffer(view)


def test_hash_columns_in_arrow():
    needs_numpy()
    try:
        import pyarrow
    except ImportError as error:
        raise unittest.SkipTest("pyarrow is not there") from error
    table = xet_shards.table(records_shard().written())
    packed, wanted = packed_hashes(table)
    hashes = pyarrow.FixedSizeBinaryArray.from_buffers(
        pyarrow.binary(32), len(packed), [None, pyarrow.py_buffer(packed)])
    assert b"".join(hashes.to_pylist()) == wanted
    names = ("start", "bytes", "flags")
    chunks = pyarrow.table({"hash": hashes, **{name: table.chunks[name] for name in names}})
    assert (xet_shards.from_table(dataclasses.replace(table, chunks=chunks)) == records_shard().written())


def test_arrays_anywhere_in_memory():
    """An array that does not lie at a multiple of 8 is taken as well."""
    needs_numpy()
    written = records_shard().written()
    table = xet_shards.table(written)

    def moved(array, by):
        return numpy.frombuffer(bytes(by) + array.tobytes(), array.dtype, offset=by)

    for by in range(9):
        arrays = [moved(it, by) for it in (table.files, table.segments, table.xorbs, table.chunks)]
        assert xet_shards.from_table(xet_shards.Table(*arrays)) == written
        taken = map(xet_shards._tables._as_type, arrays, xet_shards._tables._types())
        assert all(it.ctypes.data % 8 == 0 for it in taken)


def test_table_reads_once():
    needs_numpy()
    library, calls = xet_shards._calls._library, []
    call = library.xet_records
    library.xet_records = lambda *arguments: calls.append(arguments) or call(*arguments)
    try:
        shard = records_shard().written()
        whole, minimal = xet_shards.table(shard), xet_shards.table(xet_shards.minimal(shard, 9))
        assert len(calls) == 2 and (whole.xorbs == minimal.xorbs).all()
        # The footer counts other rows of the tables, or says that the xorb section ends at its start, or before it.
        start = xet_shards.load(shard).xorb_section
        for at, number, count in (
            (32, 0, 1), (32, 2**63, 1), (32, 1, 2), (48, 2**63, 1), (48, 1, 2), (24, start, 2), (24, 0, 2),
            (24, 2**63, 1),
        ):
            wrong = bytearray(shard)
            wrong[-200 + at : -192 + at] = struct.pack("<Q", number)
            calls.clear()
            again = xet_shards.table(wrong)
            assert len(calls) == count, (at, number)
            for name in ("files", "segments", "xorbs", "chunks"):
                assert numpy.array_equal(getattr(again, name), getattr(whole, name))
    finally:
        library.xet_records = call
    # What the room behind the records had is not kept.
    assert [len(it) for it in (whole.files, whole.segments, whole.xorbs, whole.chunks)] == [3, 72, 2, 2]
    assert all(it.base is None and it.flags.owndata for it in (whole.files, whole.segments, whole.xorbs, whole.chunks))


if __name__ == "__main__":
    sys.exit(main(dict(globals())))
