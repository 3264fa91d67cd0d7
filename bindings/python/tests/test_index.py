"""Tests of lookups in parts of a shard, and of an index over many: by hand, and beside a search through all records.

Runs with pytest, or as a program, which ends with the line 'N passed, M failed'.
"""
import concurrent.futures
import contextlib
import os
import pathlib
import random
import stat
import struct
import sys
import tempfile
import threading
import tracemalloc

sys.dont_write_bytecode = True
sys.path.insert(0, os.path.dirname(os.path.realpath(__file__)))

import test_vectors  # noqa: E402
import xet_shards  # noqa: E402
from scripts import hash_text, words_of  # noqa: E402
from test_vectors import ONE_FILE, XORB_AND_FILE, raises, refused, shard_of  # noqa: E402

KEY = hash_text("7")


def sharing(number, word=5):
    """Returns a hash with this first word, and another for each number."""
    return f"{word:016x}{number:016x}{0:032x}"


def keyed(shard, chunk_table=True):
    return xet_shards.export(shard, KEY, 1000, 60, chunk_table=chunk_table)


def test_ends():
    ends = XORB_AND_FILE[:48] + XORB_AND_FILE[-200:]
    info = xet_shards.load(ends)
    assert info == xet_shards.load(XORB_AND_FILE)
    # The header; a file, its segment and a bookend; a xorb, its chunk and a bookend; and rows of 12, 12 and 16 bytes.
    offsets = (info.file_section, info.xorb_section, info.file_table, info.xorb_table, info.chunk_table, info.footer)
    assert offsets == (48, 192, 336, 348, 360, 376) and info.footer + 200 == len(XORB_AND_FILE)
    assert (info.footer_size, info.footer_version, info.reserved) == (200, 1, (0,) * 6)
    refused("Io", xet_shards.load, ends[:199])
    # Each field is what the bytes have.
    marked = bytearray(XORB_AND_FILE)
    marked[40:48] = struct.pack("<Q", 77)
    marked[-200 + 120 : -200 + 168] = struct.pack("<6Q", *range(1, 7))
    assert (xet_shards.load(marked).footer_size, xet_shards.load(marked).reserved) == (77, (1, 2, 3, 4, 5, 6))


def test_find_rows():
    # Of rows of 12 bytes.
    table = b"".join(struct.pack("<QI", *it) for it in ((3, 0), (5, 2), (5, 9), (2**64 - 1, 2**32 - 1)))
    assert xet_shards.find_rows(table, sharing(1)) == [2, 9]
    assert xet_shards.find_rows(table, sharing(1, 4)) == xet_shards.find_rows(b"", KEY) == []
    assert xet_shards.find_rows(table, "f" * 64) == [2**32 - 1]
    refused("InvalidArguments", xet_shards.find_rows, table[1:], KEY)
    seven = b"".join(struct.pack("<QI", 5, it) for it in range(7))
    assert sorted(xet_shards.find_rows(seven, sharing(0))) == list(range(7))
    refused("TruncatedHashCollision", xet_shards.find_rows, seven + struct.pack("<QI", 5, 7), sharing(0))
    raises(ValueError, xet_shards.find_rows, table, "5")


def test_find_places():
    table = b"".join(struct.pack("<QII", *it) for it in ((3, 0, 4), (5, 2, 0), (5, 2, 1)))
    assert xet_shards.find_places(table, sharing(1)) == [(2, 0), (2, 1)]
    assert xet_shards.find_places(table, sharing(1, 3)) == [(0, 4)]
    assert xet_shards.find_places(table, sharing(1, 6)) == []
    refused("InvalidArguments", xet_shards.find_places, table[4:], KEY)
    # As many as a query looks at.
    many = b"".join(struct.pack("<QII", 5, 0, it) for it in range(20))
    assert len(set(xet_shards.find_places(many, sharing(0)))) == 8


def test_records_at_the_front():
    shard = shard_of("file 100 x=777 200:0:5:5 201:1:2:7", "file 101", "xorb 10 21:5 22:6", "xorb 11")
    info = xet_shards.load(shard)
    for section, whole, at, one in (
        (info.file_section, xet_shards.files, xet_shards.file_at, lambda it: xet_shards.file_in(it, 3)),
        (info.xorb_section, xet_shards.xorbs, xet_shards.xorb_at, xet_shards.xorb_in),
    ):
        row, records = 0, list(whole(shard))
        for record in records:
            found, after = at(shard, row)
            start, size = section + 48 * row, 48 * (after - row)
            assert found == record
            assert one(shard[start : start + size]) == one(shard[start:]) == (record, after - row)
            refused("Io", one, shard[start : start + size - 1])
            row = after
        assert at(shard, row) is None and one(shard[section + 48 * row :]) is None
    # Version 2 has no auxiliary row.
    refused("InvalidShard", xet_shards.file_in, shard[48:], 2)
    refused("InvalidArguments", xet_shards.file_in, shard[48:], 4)
    refused("InvalidArguments", xet_shards.file_in, b"", 0)
    for number in (-1, 2**32):
        raises(ValueError, xet_shards.file_at, shard, number)
        raises(ValueError, xet_shards.xorb_at, shard, number)
    refused("Io", xet_shards.file_at, shard, 2**32 - 1)


def test_more_chunks_than_the_first_room():
    shard = shard_of("xorb 10 " + " ".join(f"{21 + it}:1" for it in range(100)))
    xorb, after = xet_shards.xorb_at(shard, 0)
    assert (len(xorb.chunks), after) == (100, 101)
    assert len(xet_shards.chunk_rows(shard)) == 1600


def test_a_file_by_three_reads():
    shard = shard_of(*(f"file {100 + it} 200:0:5:{it}" for it in range(1000)))
    reads = []

    def read(start, size):
        reads.append(size)
        return shard[start : start + size]

    info = xet_shards.load(read(0, 48) + read(len(shard) - 200, 200))
    wanted = hash_text("567")
    rows = xet_shards.find_rows(read(info.file_table, 12 * info.files), wanted)
    found, _ = xet_shards.file_in(read(info.file_section + 48 * rows[0], 480), info.version)
    assert (found.hash, found.file) == (wanted, xet_shards.find_file(shard, wanted))
    assert reads == [48, 200, 12000, 480]


def test_chunk_rows():
    shard = shard_of("xorb 10 23:5 21:6", "xorb 11 22:7")
    # By word in the table; by place without one. A xorb of two chunks has three rows.
    table = [(21, 0, 1), (22, 3, 0), (23, 0, 0)]
    assert list(struct.iter_unpack("<QII", xet_shards.chunk_rows(shard))) == table
    info = xet_shards.load(shard)
    assert xet_shards.chunk_rows(shard) == shard[info.chunk_table : info.footer]
    section = [(23, 0, 0), (21, 0, 1), (22, 3, 0)]
    assert list(struct.iter_unpack("<QII", xet_shards.chunk_rows(xet_shards.minimal(shard, 9)))) == section
    words = {int(xet_shards.hmac(KEY, hash_text(it))[:16], 16) for it in ("21", "22", "23")}
    assert {it for it, _, _ in struct.iter_unpack("<QII", xet_shards.chunk_rows(keyed(shard)))} == words
    assert xet_shards.chunk_rows(ONE_FILE) == b""
    refused("Io", xet_shards.chunk_rows, shard[:100])


def test_query_at():
    shard = shard_of("xorb 10 21:5 22:6 23:7", "xorb 11 22:6")
    wanted = [hash_text(it) for it in ("22", "23", "24")]
    for it in (shard, keyed(shard), xet_shards.minimal(shard, 9)):
        run = xet_shards.query_at(it, wanted, 0, 1)
        assert (run.count, run.segment.xorb, run.segment.start, run.segment.end) == (2, hash_text("10"), 1, 3)
        assert (run.segment.bytes, xet_shards.query_at(it, wanted, 4, 0).count) == (13, 1)
        assert xet_shards.query_at(it, wanted, 0, 0) is xet_shards.query_at(it, [], 9, 9) is None
        refused("InvalidArguments", xet_shards.query_at, it, wanted, 0, 3)
        refused("InvalidArguments", xet_shards.query_at, it, wanted, 6, 0)
    refused("Io", xet_shards.query_at, shard, wanted, 2**32 - 1, 0)
    raises(ValueError, xet_shards.query_at, shard, wanted, 0, 2**32)


def test_index():
    index = xet_shards.Index()
    assert index.query([hash_text("21")]) is index.query([]) is None
    a = index.add(shard_of("xorb 10 21:5 22:6"))
    b = index.add(keyed(shard_of("xorb 11 21:5 22:6 23:7")))
    c = index.add(xet_shards.minimal(shard_of("xorb 12 23:7 24:8"), 9))
    assert (list(index), len(index), b in index, index.query([])) == ([a, b, c], 3, True, None)

    def ask(*words):
        found = index.query([hash_text(it) for it in words])
        return found and (found[0], found[1].count, found[1].segment.xorb[:16], found[1].segment.start)

    # The longest, under another key; the first that has all; of a shard without tables.
    assert ask("21", "22", "23", "24") == (b, 3, f"{11:016x}", 0)
    assert ask("21", "22") == ask("21", "22", "25") == (a, 2, f"{10:016x}", 0)
    assert ask("23", "24") == (c, 2, f"{12:016x}", 0)
    assert ask("25") is ask("25", "21") is None
    # The first word alone does not do.
    assert index.query([f"{21:016x}" + "9" * 48]) is None
    assert index.remove(b)[:4] == b"HFRe"
    assert ask("21", "22", "23", "24") == (a, 2, f"{10:016x}", 0)
    raises(KeyError, index.remove, b)
    raises(KeyError, index.__getitem__, b)
    assert index[a] == index.remove(a)
    assert (ask("21"), ask("23"), len(index)) == (None, (c, 1, f"{12:016x}", 0), 1)
    refused("Io", index.add, b"")
    assert index.add(shard_of("xorb 13 21:5")) == 3 and ask("21") == (3, 1, f"{13:016x}", 0)


def test_index_that_changes_in_a_walk():
    index = index_of(*[ONE_FILE] * 3)
    numbers = iter(index)
    assert next(numbers) == 0
    index.remove(2)
    assert index.add(ONE_FILE) == 3 and list(numbers) == [1, 2] and list(index) == [0, 1, 3]
    for it in index:
        index.remove(it)
    assert list(index) == []


def test_in_place():
    shard = shard_of("xorb 10 21:5 22:6", "xorb 11 22:7")
    for it in (shard, keyed(shard), bytearray(shard), memoryview(shard)):
        index = xet_shards.Index()
        number = index.add(it, in_place=True)
        assert index.add(xet_shards.minimal(shard_of("xorb 12 23:7"), 9), in_place=True) == 1
        found = {it: index.query([hash_text(it)]) for it in ("21", "22", "23", "24")}
        assert {it: run and run[0] for it, run in found.items()} == {"21": 0, "22": 0, "23": 1, "24": None}
        # Chunk 22 is in two xorbs, and the hash behind it tells which is meant.
        assert index.query([hash_text("21"), hash_text("22")])[1].segment.xorb == hash_text("10")
        assert index.query([f"{21:016x}" + "9" * 48]) is None
        assert index.remove(number) is it and index.query([hash_text("21")]) is None
        assert index.query([hash_text("23")]) == found["23"]
    # The table is not all there.
    refused("Io", xet_shards.Index().add, shard[:48] + shard[-200:], in_place=True)
    empty = xet_shards.Index()
    empty.add(ONE_FILE, in_place=True)
    assert empty.query([hash_text("21")]) is None and empty.remove(0) == ONE_FILE


def first_file(shards, text):
    """Returns the number of the first shard that has a file with a hash, and the file, by `find_file` of each."""
    found = ((number, xet_shards.find_file(it, text)) for number, it in enumerate(shards))
    return next(((number, file) for number, file in found if file), None)


def test_files():
    shards = [shard_of(f"file {it} 200:0:5:{it}", f"file {it + 1} s=365 200:0:5:{it} 201:1:2:7", f"xorb {it} 21:5")
              for it in range(100, 300)]
    shards[7], shards[9] = keyed(shards[7]), xet_shards.convert(shards[9], 2)
    wanted = [hash_text(str(it)) for it in range(98, 303)]
    found = [first_file(shards, it) for it in wanted]
    assert [it and it[0] for it in found] == [None] * 2 + [0, *range(200)] + [None] * 2
    for index in (xet_shards.Index(), index_of(*shards), index_of(*shards, in_place=True)):
        for it in shards if not len(index) else ():
            index.add(it, in_place=len(index) % 2 == 0)
        assert [index.find_file(it) for it in wanted] == found and index.find_file(wanted[5].upper()) == found[5]
        # Of what is removed nothing is found, but the next shard that has it.
        assert index.remove(1) == shards[1]
        assert [index.find_file(it)[0] for it in wanted[3:5]] == [0, 2]
        assert index.find_file(wanted[4])[1] == xet_shards.find_file(shards[2], wanted[4])
        with saved(index) as path:
            mapped = xet_shards.Index.open(path)
            assert len(mapped) == 2 and [mapped.find_file(it) is None for it in wanted] == [not it for it in found]
            for text in wanted[2:-2]:
                assert any(mapped.find_file(text)[1] == xet_shards.find_file(it, text) for it in shards)
        for number in list(index):
            index.remove(number)
        assert [index.find_file(it) for it in wanted] == [None] * len(wanted)
        assert not (index._files.rows.count or index._files.in_place)
    raises(ValueError, index.find_file, "5")


def test_files_with_one_first_word():
    one, two = (shard_of(f"file {sharing(it)} 200:0:5:{it}", "file 7") for it in (1, 2))
    both = shard_of(*(f"file {sharing(it)} 200:0:5:{it + 30}" for it in (2, 3)))
    high = shard_of(*(f"file {sharing(1, word)} 200:0:5:9" for word in (5, 2**32 + 5, 2**33, 2**63 + 5)))
    for in_place in (False, True):
        index = index_of(one, two, both, high, in_place=in_place)
        sizes = [it and (it[0], it[1].segments[0].bytes) for it in map(index.find_file, map(sharing, range(5)))]
        assert sizes == [None, (0, 1), (1, 2), (2, 33), None]
        for word, number in ((5, 0), (2**32 + 5, 3), (2**33, 3), (2**63 + 5, 3), (2**33 + 5, None), (2**63, None)):
            assert (index.find_file(sharing(1, word)) or [None])[0] == number
        # As many in one shard as `find_file` refuses.
        many = shard_of(*(f"file {sharing(it)} 200:0:5:{it}" for it in range(4, 30)))
        refused("TruncatedHashCollision", xet_shards.find_file, many, sharing(9))
        index.add(many, in_place=in_place)
        assert [index.find_file(sharing(it))[0] for it in (1, 2, 3, 4, 9, 29)] == [0, 1, 2, 4, 4, 4]
        with saved(index) as path:
            assert len(list(map(xet_shards.Index.open(path).find_file, map(sharing, range(1, 30))))) == 29


def test_files_without_tables():
    whole = shard_of("file 100 200:0:5:5 201:1:2:7", "file 101", "file 102 s=365 200:0:5:9", "xorb 10 21:5")
    for shard in (xet_shards.minimal(whole, 9), xet_shards.minimal(whole, 9, version=2)):
        assert xet_shards.find_file(shard, hash_text("100")) is None
        for in_place in (False, True):
            index = index_of(shard, in_place=in_place)
            for text in map(hash_text, ("100", "101", "102", "103")):
                wanted = xet_shards.find_file(whole, text)
                assert index.find_file(text) == (wanted and (0, wanted))
            assert index.remove(0) == shard and index.find_file(hash_text("100")) is None
    without_files = xet_shards.export(whole, KEY, 1000, 60, files=False)
    assert index_of(without_files).find_file(hash_text("100")) is None
    # A section that ends too early is read in place of a table.
    refused("Io", xet_shards.Index().add, whole[:96] + xet_shards.minimal(whole, 9)[-200:])


def test_wrong_file_tables():
    shard = shard_of("file 100 200:0:5:5", "file 101 200:0:5:7", "file 102")
    info = xet_shards.load(shard)

    def with_rows(*rows):
        table = b"".join(struct.pack("<QI", *it) for it in rows)
        return shard[: info.file_table] + table + shard[info.file_table + len(table) :]

    assert with_rows((100, 0), (101, 2), (102, 4)) == shard
    for in_place in (False, True):
        # The row of another file, of a segment, of the end, and behind it.
        for row, name in ((2, None), (1, None), (5, "InternalError"), (2**32 - 1, "Io")):
            wrong = with_rows((100, row), (101, 2), (102, 4))
            index = index_of(wrong, in_place=in_place)
            if name:
                for call in (index.find_file, lambda it: xet_shards.find_file(wrong, it)):
                    refused(name, call, hash_text("100"))
            else:
                assert index.find_file(hash_text("100")) is xet_shards.find_file(wrong, hash_text("100")) is None
                # A later shard is still found.
                assert index.add(shard, in_place=in_place) == index.find_file(hash_text("100"))[0]
            assert index.find_file(hash_text("101")) == (0, xet_shards.find_file(shard, hash_text("101")))
            assert index.find_file(hash_text("103")) is None and index.remove(0) == wrong
        # Without the row no table leads to the file.
        index = index_of(with_rows((99, 0)), in_place=in_place)
        assert index.find_file(hash_text("100")) is None and index.find_file(hash_text("102"))[0] == 0
        # A table that is not all there.
        at = info.file_table
        for start, rows in ((at, 1000), (at, 2**64 - 1), (2**64 - 1, 3), (len(shard) - 35, 3)):
            cut = bytearray(shard)
            cut[-176:-160] = struct.pack("<QQ", start, rows)
            assert (xet_shards.load(cut).file_table, xet_shards.load(cut).files) == (start, rows)
            refused("Io", xet_shards.Index().add, cut, in_place=in_place)
    # A table in another order is sorted, if it is not used in place.
    words = range(1000, 3000)
    many = bytearray(shard_of(*(f"file {it} 200:0:5:5" for it in words)))
    rows = slice(xet_shards.load(many).file_table, xet_shards.load(many).xorb_table)
    many[rows] = b"".join(struct.pack("<QI", *it) for it in reversed(list(struct.iter_unpack("<QI", many[rows]))))
    index = index_of(shard_of(*(f"file {it}" for it in words[::2])), many)
    assert all(index.find_file(hash_text(str(it)))[0] == it % 2 for it in words)


def test_files_that_expire():
    index = index_of(expiring(ONE_FILE, 500), keyed(ONE_FILE), xet_shards.minimal(ONE_FILE, 9))
    for now, number in ((None, 0), (499, 0), (500, 1), (1060, 2), (2**64 - 1, 2)):
        assert index.find_file(hash_text("100"), now) == (number, xet_shards.find_file(ONE_FILE, hash_text("100")))
        with saved(index, now=now) as path:
            assert xet_shards.Index.open(path).find_file(hash_text("100"), now=1060)
    assert index.remove_expired(1060) == [0, 1] and index.find_file(hash_text("100"))[0] == 2


def test_bytes_of_any_kind():
    """A shard of an index is whatever other calls take."""
    words = memoryview(b"".join(bytes([it, 0]) for it in XORB_AND_FILE))[::2]
    with tempfile.TemporaryDirectory() as folder:
        path = pathlib.Path(folder, "one.mdb")
        path.write_bytes(XORB_AND_FILE)
        with xet_shards.open(path) as mapped:
            for it in (XORB_AND_FILE, bytearray(XORB_AND_FILE), memoryview(XORB_AND_FILE), words, mapped):
                for in_place in (False, True) if it is not words else (False,):
                    index = index_of(it, in_place=in_place)
                    assert index.find_file(hash_text("100"))[1] == mapped.find_file(hash_text("100"))
                    assert index.query([hash_text("21")])[0] == 0 and index.remove(0) is it


def test_segments_at_once():
    """A file with few segments takes one call of the library, and one with more a second."""
    library, rooms = xet_shards._calls._library, []
    call = library.xet_find_file
    library.xet_find_file = lambda *arguments: rooms.append(arguments[-1]) or call(*arguments)
    try:
        for count in (0, 1, 7, 8, 9, 64, 65, 300):
            segments = " ".join(f"200:{it}:{it + 1}:{it}" for it in range(count))
            shard = shard_of("file 99 200:0:1:1", f"file 100 {segments}")
            found = xet_shards.find_file(shard, hash_text("100"))
            assert [it.bytes for it in found.segments] == list(range(count))
            assert rooms == ([8] if count <= 8 else [8, count]), count
            assert index_of(shard).find_file(hash_text("100")) == (0, found)
            rooms.clear()
    finally:
        library.xet_find_file = call


@contextlib.contextmanager
def saved(index, **named):
    """Gives the path of a file that an index is saved to."""
    with tempfile.TemporaryDirectory() as folder:
        path = pathlib.Path(folder, "chunks")
        index.save(path, **named)
        assert os.listdir(folder) == ["chunks"]
        yield path


def index_of(*shards, **named):
    index = xet_shards.Index()
    for it in shards:
        index.add(it, **named)
    return index


def expiring(shard, expiry):
    return xet_shards.export(shard, xet_shards.NO_KEY, 0, expiry)


def test_saved():
    first = shard_of("file 100 s=365 200:0:5:5", "file 101 200:0:5:5 201:1:2:7", "xorb 10 21:5 22:6", "xorb 12 24:1")
    # They share a xorb, and two words of chunks.
    second = shard_of("xorb 10 21:5 22:6", f"xorb 11 22:6 {sharing(7, 21)}:1 23:7", "file 103")
    plain, under_key = (xet_shards.merge(it) for it in ([first, second], [second, shard_of("xorb 13 29:1")]))
    shards = first, keyed(second), xet_shards.minimal(second, 9), xet_shards.export(
        shard_of("xorb 13 29:1"), KEY, 1000, 60)
    index = index_of(*shards)
    with saved(index) as path:
        # It is what the library exports of the merges.
        wanted = [
            xet_shards.export(xet_shards.merge([shards[0], shards[2]]), xet_shards.NO_KEY, 0, 2**64 - 1),
            xet_shards.export(under_key, KEY, 0, 1060),
        ]
        assert path.read_bytes() == b"".join(wanted) and [xet_shards.check(it) for it in wanted] == [[], []]
        assert xet_shards.load(plain).chunks == xet_shards.load(wanted[0]).chunks
        again = xet_shards.Index.open(path)
        assert [bytes(again[it]) for it in again] == wanted
        answers = {}
        for text in [*map(hash_text, ("21", "22", "23", "24", "25", "29")), sharing(7, 21), sharing(8, 21)]:
            answers[text] = [it and it[1].count for it in (index.query([text]), again.query([text]))]
        assert list(answers.values()) == [[1, 1]] * 4 + [[None] * 2] + [[1, 1]] * 2 + [[None] * 2]
        assert again.query([hash_text("22"), sharing(7, 21), hash_text("23")])[1].segment.xorb == hash_text("11")
        for text in map(hash_text, ("100", "101", "103")):
            assert again.find_file(text) == (0, index.find_file(text)[1])
        # A shard can be added, and the index be saved to the file that it has mapped.
        again.add(shard_of("xorb 14 30:1", "file 104"))
        assert again.query([hash_text("30")])[0] == again.find_file(hash_text("104"))[0] == 2
        again.save(path)
        assert again.query([hash_text("24")]) and len(xet_shards.Index.open(path)) == 2
        assert xet_shards.Index.open(path).query([hash_text("30")])[0] == 0
        assert [xet_shards.Index.open(path).find_file(hash_text(it))[0] for it in ("100", "104")] == [0, 0]
    with saved(xet_shards.Index()) as path:
        assert path.read_bytes() == b"" and len(xet_shards.Index.open(path)) == 0


def test_saved_with_errors():
    index = index_of(XORB_AND_FILE, ONE_FILE)
    descending = bytearray(shard_of("xorb 10 21:5", "xorb 11 22:6"))
    descending[96] = 12
    number = index.add(descending)
    with tempfile.TemporaryDirectory() as folder:
        path = pathlib.Path(folder, "chunks")
        path.write_bytes(b"before")
        assert refused("InvalidShard", index.save, path).index == number
        raises(FileNotFoundError, index.save, pathlib.Path(folder, "none", "chunks"))
        assert os.listdir(folder) == ["chunks"] and path.read_bytes() == b"before"
        index.remove(number)
        for save_to in (path, str(path), os.fsencode(path)):
            index.save(save_to)
            assert xet_shards.Index.open(save_to).query([hash_text("21")])[0] == 0
        whole = path.read_bytes()
        longer = bytearray(whole)
        longer[-8:] = struct.pack("<Q", len(whole))
        for content, name in (
            (whole[1:], "ShardVersion"), (whole[:-1], "ShardVersion"), (b"text", "Io"), (longer, "InvalidShard"),
            (whole[:-1] + whole, "ShardVersion"),
        ):
            path.write_bytes(content)
            refused(name, xet_shards.Index.open, path)
        raises(FileNotFoundError, xet_shards.Index.open, f"{folder}/none")


def mode_of(path):
    return stat.S_IMODE(path.stat().st_mode)


def test_mode_of_a_saved_file():
    index, modes = index_of(XORB_AND_FILE), []
    groups, mask = index._groups, os.umask(0o022)
    with tempfile.TemporaryDirectory() as folder:
        path = pathlib.Path(folder, "chunks")

        def seen(*arguments):
            modes.extend(map(mode_of, pathlib.Path(folder).glob("*.new")))
            return groups(*arguments)

        index._groups = seen
        try:
            index.save(path)
            assert mode_of(path) == 0o644 and modes == [0o644]
            for mode in (0o600, 0o640, 0o444):
                path.chmod(mode)
                index.save(path)
                assert mode_of(path) == mode and modes.pop() == 0o600
        finally:
            os.umask(mask)
        if os.geteuid() == 0:
            os.chown(path, 12345, 12346)
            index.save(path)
            assert (path.stat().st_uid, path.stat().st_gid, mode_of(path)) == (12345, 12346, 0o444)


def test_saved_by_a_link():
    index = index_of(XORB_AND_FILE)
    with tempfile.TemporaryDirectory() as folder:
        link, path = pathlib.Path(folder, "link"), pathlib.Path(folder, "elsewhere", "chunks")
        path.parent.mkdir()
        link.symlink_to("elsewhere/chunks")
        # At first it leads nowhere.
        for _ in range(2):
            index.save(link)
            assert link.is_symlink() and len(xet_shards.Index.open(path)) == 1
            assert os.listdir(path.parent) == ["chunks"] and sorted(os.listdir(folder)) == ["elsewhere", "link"]
            path.chmod(0o600)
        assert mode_of(path) == 0o600
        pipe, loop = pathlib.Path(folder, "pipe"), pathlib.Path(folder, "loop")
        os.mkfifo(pipe)
        loop.symlink_to("loop")
        for it in (path.parent, pipe, loop):
            raises(OSError, index.save, it)
        assert stat.S_ISFIFO(pipe.stat().st_mode) and loop.is_symlink()
        assert sorted(os.listdir(folder)) == ["elsewhere", "link", "loop", "pipe"]


def test_expiry():
    shard = shard_of("xorb 10 21:5 22:6")
    index = index_of(expiring(shard, 500), keyed(shard), xet_shards.minimal(shard_of("xorb 11 21:5"), 9))
    wanted = [hash_text("21"), hash_text("22")]
    # The one under the key expires at 1060, and the minimal one does not.
    for now, number in ((None, 0), (0, 0), (499, 0), (500, 1), (1059, 1), (1060, 2), (2**64 - 1, 2)):
        assert index.query(wanted, now)[0] == number
        with saved(index, now=now) as path:
            again = xet_shards.Index.open(path)
            assert len(again) == 3 - number and again.query(wanted)[1].count == 2 - number // 2
            assert again.query(wanted, now=1060)[1].count == 1
    with saved(index) as path:
        again = xet_shards.Index.open(path)
        assert [xet_shards.load(again[it]).expiry for it in again] == [500, 1060, xet_shards.NO_EXPIRY]
        assert again.remove_expired(1060) == [0, 1] and len(again) == 1
    assert index.remove_expired(499) == [] and index.remove_expired(500) == [0] and list(index) == [1, 2]
    assert index.remove_expired(2**64 - 1) == [1] and index.query(wanted)[0] == 2
    raises(ValueError, index.remove_expired, -1)


def test_resolution():
    shards = [expiring(shard_of(f"xorb {10 + it} {21 + it}:5"), expiry)
              for it, expiry in enumerate((3599, 3600, 7199, 7200, 2**64 - 1))]
    for resolution, expiries in ((1, [3599, 3600, 7199, 7200]), (3600, [1, 3600, 7200]), (7200, [1, 7200])):
        with saved(index_of(*shards), resolution=resolution) as path:
            again = xet_shards.Index.open(path)
            assert [xet_shards.load(again[it]).expiry for it in again] == [*expiries, 2**64 - 1]
            assert all(again.query([hash_text(str(21 + it))]) for it in range(5))


def spread_shard(number, chunks=20_000):
    """Returns a shard whose chunks have first words all over the range."""
    chance = random.Random(number)
    words = [f"{chance.getrandbits(256):064x}" for _ in range(chunks)]
    xorbs = [
        xet_shards.Xorb(f"{chance.getrandbits(256):064x}", 0, 500, 0,
                        tuple(xet_shards.Chunk(it, at, 1, 0) for at, it in enumerate(words[start : start + 500])))
        for start in range(0, chunks, 500)
    ]
    return words, xet_shards.write([], xorbs)


def memory_of(shards, **named):
    """Returns an index of shards, and the bytes that it takes."""
    tracemalloc.start()
    index = index_of(*shards, **named)
    size = tracemalloc.get_traced_memory()[0]
    tracemalloc.stop()
    return index, size


def test_memory():
    words, shards = zip(*map(spread_shard, range(3)))
    index, size = memory_of(shards)
    assert size <= 30 * sum(map(len, words)), f"{size} bytes"
    in_place, size = memory_of(shards, in_place=True)
    assert size < 10_000, f"{size} bytes"
    with saved(index) as path:
        tracemalloc.start()
        mapped = xet_shards.Index.open(path)
        size = tracemalloc.get_traced_memory()[0]
        tracemalloc.stop()
        assert size < 10_000, f"{size} bytes"
        for text in words[1][::7]:
            assert index.query([text])[0] == in_place.query([text])[0] == 1 and mapped.query([text])[1].count == 1
        missing = f"{1:064x}"
        assert index.query([missing]) is in_place.query([missing]) is mapped.query([missing]) is None
    # What is removed is given back.
    index.add(ONE_FILE)
    rows = index._keys[xet_shards.NO_KEY].rows
    for number, count, blocks in ((0, 40_000, 240), (2, 20_000, 200), (1, 0, 1)):
        index.remove(number)
        assert rows.count == count and len(rows._blocks) <= blocks, f"{len(rows._blocks)} blocks of {rows.count} rows"


def test_index_in_threads():
    words, shard = spread_shard(0, 2000)
    _, other = spread_shard(1, 2000)
    index, wrong, ended = index_of(shard, ONE_FILE), [], threading.Event()

    def ask(start):
        try:
            while not ended.is_set():
                for text in words[start::50]:
                    if index.query([text])[0] != 0:
                        wrong.append(text)
                if index.find_file(hash_text("100"))[0] != 1:
                    wrong.append("100")
        except Exception as error:
            wrong.append(error)

    threads = [threading.Thread(target=ask, args=(it,)) for it in range(3)]
    for it in threads:
        it.start()
    for _ in range(20):
        for it in (other, ONE_FILE):
            index.remove(index.add(it))
            index.remove(index.add(it, in_place=True))
    ended.set()
    for it in threads:
        it.join()
    assert not wrong and list(index) == [0, 1]


def in_threads(count, call):
    """Makes a call in so many threads at once, and returns what each returns or raises."""
    start = threading.Barrier(count)

    def one(_):
        start.wait()
        try:
            return call()
        except Exception as error:
            return error

    with concurrent.futures.ThreadPoolExecutor(count) as pool:
        return list(pool.map(one, range(count)))


def test_saved_in_threads():
    index = index_of(*(shard_of(f"xorb {it} 21:5") for it in range(10, 40)))
    with tempfile.TemporaryDirectory() as folder:
        path = pathlib.Path(folder, "chunks")
        for _ in range(5):
            assert in_threads(4, lambda: index.save(path)) == [None] * 4
            assert os.listdir(folder) == ["chunks"] and len(xet_shards.Index.open(path)) == 1
        # A shard that is removed after it was taken for a merge is in the file.
        groups = index._groups

        def removed_since(*arguments):
            found = groups(*arguments)
            for it in list(index):
                index.remove(it)
            return found

        index._groups = removed_since
        index.save(path)
        assert xet_shards.Index.open(path).query([hash_text("21")]) and len(index) == 0


def test_removed_in_threads():
    for _ in range(5):
        index = index_of(*(keyed(shard_of(f"xorb {it} 21:5")) for it in range(10, 30)))
        numbers = list(index)
        removed = in_threads(4, lambda: index.remove_expired(1060))
        assert sorted(it for one in removed for it in one) == numbers and len(index) == 0


def test_hashes_that_change():
    """A list that another thread adds to while it is read is taken as it was."""
    class Growing(list):
        def __iter__(self):
            found = list(super().__iter__())
            self.append(hash_text("22"))
            return iter(found)

    shard = shard_of("xorb 10 21:5 22:6")
    for call in (xet_shards.query_chunks, lambda *it: xet_shards.query_at(*it, 0, 0)):
        assert call(shard, Growing([hash_text("21")])).count == 1
    assert index_of(shard).query(Growing([hash_text("21")]))[1].count == 1
    assert xet_shards.subset(shard, 9, None, Growing([hash_text("10")])) == xet_shards.subset(shard, 9)


def longest(shards, wanted):
    """Returns the length of the longest run, and where runs of it are, by a walk through all records."""
    best, places = 0, []
    for number, (key, shard) in shards.items():
        hashes = [it if key == xet_shards.NO_KEY else xet_shards.hmac(key, it) for it in wanted]
        for xorb in xet_shards.xorbs(shard):
            for start in range(len(xorb.chunks)):
                count = 0
                for one, other in zip(xorb.chunks[start:], hashes):
                    if one.hash != other:
                        break
                    count += 1
                if count > best:
                    best, places = count, []
                if count and count == best:
                    places.append((number, xorb.hash, start))
    return best, places


def test_index_beside_a_search():
    seed = random.randrange(2**32)
    chance = random.Random(seed)
    # Few hashes, some with one first word.
    hashes = [sharing(it, chance.randrange(6)) for it in range(12)]
    index, shards, hits, files = xet_shards.Index(), {}, 0, 0
    for turn in range(300):
        if chance.random() < 0.4:
            xorbs = [
                " ".join([f"xorb {it}", *(f"{chance.choice(hashes)}:1" for _ in range(chance.randrange(9)))])
                for it in chance.sample(range(100), chance.randrange(4))
            ]
            listed = [f"file {it} 200:0:5:{turn}" for it in chance.sample(hashes, chance.randrange(5))]
            shard = shard_of(*xorbs, *listed)
            kind = chance.randrange(4)
            if kind:
                shard = xet_shards.minimal(shard, 9) if kind == 1 else keyed(shard, chunk_table=kind == 2)
            shards[index.add(shard, in_place=chance.random() < 0.5)] = xet_shards.load(shard).key, shard
        elif shards and chance.random() < 0.3:
            number = chance.choice(list(shards))
            assert index.remove(number) == shards.pop(number)[1]
        wanted = [chance.choice(hashes) for _ in range(chance.randrange(1, 5))]
        best, places = longest(shards, wanted)
        found = index.query(wanted)
        assert (found[1].count if found else 0) == best, f"seed {seed}, turn {turn}"
        if found:
            hits += 1
            assert (found[0], found[1].segment.xorb, found[1].segment.start) in places, f"seed {seed}, turn {turn}"
        having = [(number, it.file) for number, (_, shard) in shards.items() for it in xet_shards.files(shard)
                  if it.hash == wanted[0]]
        assert index.find_file(wanted[0]) == (having[0] if having else None), f"seed {seed}, turn {turn}"
        files += bool(having)
        if turn % 30 == 29:
            # A merge has the runs that its inputs have, but a xorb once.
            with saved(index) as path:
                mapped = xet_shards.Index.open(path)
                found = mapped.query(wanted)
                assert (found[1].count if found else 0) <= best, f"seed {seed}, turn {turn}"
                assert (mapped.find_file(wanted[0]) is None) == (not having), f"seed {seed}, turn {turn}"
    assert hits and files and len(index) == len(shards)
    for number in list(index):
        index.remove(number)
    assert not index._keys and not index._files.rows.count and words_of(hashes[0])[0] < 6


if __name__ == "__main__":
    sys.exit(test_vectors.main(globals()))
