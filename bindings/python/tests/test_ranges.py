"""Tests of merges in threads: the bytes and the errors are those of merges without threads.

Runs with pytest, or as a program, which ends with the line 'N passed, M failed'.
"""
import ctypes
import mmap
import os
import random
import sys
import threading

sys.dont_write_bytecode = True
sys.path.insert(0, os.path.dirname(os.path.realpath(__file__)))

from scripts import Shard, hash_text, xet_shards  # noqa: E402
from test_vectors import ONE_FILE, XORB_AND_FILE, main, raises, shard_of  # noqa: E402
from xet_shards import ranges  # noqa: E402

LARGEST = 2**64 - 1


def spread(choice):
    return choice.randrange(2**64)


def few(choice):
    return choice.randrange(3)


def skewed(choice):
    """Returns mostly small words, of very different sizes."""
    return choice.randrange(2 ** choice.randrange(1, 64))


def one_word(_):
    return 7


def text_of(choice, word):
    """Returns a hash with a first word of this kind."""
    return f"{word(choice):016x}{choice.randrange(2):016x}{choice.randrange(8):032x}"


def records(choice, word, count):
    """Returns the `file` and `xorb` lines of so many records of each kind, by hash."""
    files, xorbs = {}, {}
    for _ in range(count):
        segments = [f"{text_of(choice, word)}:0:{1 + it}:{choice.randrange(1000)}" for it in range(choice.randrange(4))]
        parts = [f"v={','.join(['5'] * len(segments))}"] * choice.randrange(2) + ["s=7"] * choice.randrange(2)
        files[text_of(choice, word)] = [*parts, *segments]
        chunks = [f"{text_of(choice, word)}:{choice.randrange(1000)}" for _ in range(choice.randrange(6))]
        xorbs[text_of(choice, word)] = chunks
    return files, xorbs


def records_in_a_shard(choice, word, count):
    """Returns a shard with so many records of each kind."""
    shard = Shard()
    files, xorbs = records(choice, word, count)
    for add, found in ((shard.add_file, files), (shard.add_xorb, xorbs)):
        for name, parts in found.items():
            add(name, *parts)
    return shard.written()


def random_shards(choice, word, version=3):
    """Returns shards that agree: each has some of a set of records."""
    files, xorbs = records(choice, word, choice.choice([0, 1, 2, 30]))
    shards = []
    for _ in range(choice.randrange(1, 8)):
        shard = Shard()
        for add, found in ((shard.add_file, files), (shard.add_xorb, xorbs)):
            for name in choice.sample(sorted(found), choice.randint(0, len(found))):
                add(name, *found[name])
        shards.append(shard.written(choice.choice([LARGEST, 7]), version))
    return shards


def outcome(call, *arguments, **named):
    """Returns what a call returns, or the error that it raises: its type, and all that it tells."""
    try:
        return call(*arguments, **named)
    except Exception as error:
        return type(error), str(error), getattr(error, "number", None), getattr(error, "index", None)


def check_same(shards, threads, **named):
    """Looks whether all merges of some shards give the same with threads, and returns what they give."""
    plain = outcome(xet_shards.merge, shards, **named)
    assert outcome(xet_shards.merge, shards, threads=threads, **named) == plain
    strict = outcome(xet_shards.merge, shards, strict=True, **named)
    assert outcome(xet_shards.merge, shards, strict=True, threads=threads, **named) == strict
    for short in (0, 1):
        outs = [bytearray(len(plain) - short if isinstance(plain, bytes) else 1000) for _ in range(2)]
        lengths = [
            outcome(xet_shards.merge_into, shards, out, threads=it, **named) for out, it in zip(outs, (None, threads))
        ]
        assert lengths[0] == lengths[1] and outs[0] == outs[1]
    return plain


def check_parts(shards, threads, whole, start=None, stop=None):
    """Looks whether the ranges of a merge follow one another, and returns how many there are."""
    parts = ranges.range_merges(shards, threads, False, start, stop, 3)
    assert len(parts) <= threads
    assert not parts or xet_shards.concatenate(parts) == whole
    return len(parts)


def check_many(word, turns, most=1, change=None, version=3):
    """Merges random shards, and looks whether at least once there are so many ranges."""
    choice, found = random.Random(f"{word.__name__} {version}"), 0
    for turn in range(turns):
        shards = random_shards(choice, word, version)
        if change:
            shards = change(choice, shards)
        threads = 2 + turn % 4
        whole = check_same(shards, threads)
        if isinstance(whole, bytes):
            found = max(found, check_parts(shards, threads, whole))
    assert found >= most, f"there are {found} ranges at most"


def test_spread_hashes():
    check_many(spread, 30, most=5)


def test_few_hashes():
    check_many(few, 30, most=5)


def test_skewed_hashes():
    check_many(skewed, 30, most=5)


def test_hashes_of_one_first_word():
    check_many(one_word, 30, most=5)


def test_version_2():
    check_many(spread, 30, most=4, version=2)


def test_keyed_shards():
    def export_under_a_key(_, shards):
        return [xet_shards.export(it, hash_text("7"), 0, 9) for it in shards]

    check_many(skewed, 30, most=5, change=export_under_a_key)


def test_other_keys():
    def export_under_keys(choice, shards):
        return [xet_shards.export(it, hash_text(str(choice.randrange(2))), 0, 9) for it in shards]

    check_many(spread, 30, change=export_under_keys)


def test_shards_without_tables():
    def leave_tables_out(choice, shards):
        options = {it: choice.random() < 0.5 for it in ("xorb_table", "chunk_table")}
        made = [xet_shards.minimal(it, 0) if choice.random() < 0.5 else it for it in shards]
        return [xet_shards.export(it, xet_shards.NO_KEY, 0, 9, **options) for it in made]

    check_many(spread, 30, most=4, change=leave_tables_out)
    check_many(spread, 30, most=4, change=lambda _, shards: [xet_shards.minimal(it, 0) for it in shards])


def test_other_bytes():
    """Numbers of records, tables and footers that are not those of any shard, and bytes that are cut."""

    def change_bytes(choice, shards):
        found = []
        for it in map(bytearray, shards):
            for _ in range(choice.randrange(3)):
                # Of the header and the sections mostly, or of the footer.
                it[choice.choice([choice.randrange(len(it)), -choice.randrange(1, 201)])] = choice.randrange(256)
            found.append(it[: choice.choice([len(it), len(it), len(it), choice.randrange(len(it) + 1)])])
        return found

    for word in (spread, few, skewed):
        check_many(word, 40, change=change_bytes)


def test_records_that_do_not_agree():
    def add_others(choice, shards):
        return shards + random_shards(choice, few)

    check_many(few, 30, most=4, change=add_others)


def test_ranges_of_ranges():
    choice = random.Random(3)
    for turn in range(40):
        word = (spread, few, skewed)[turn % 3]
        shards, threads = random_shards(choice, word), 2 + turn % 4
        bounds = {it: text_of(choice, word) for it in ("start", "stop") if choice.random() < 0.7}
        check_parts(shards, threads, check_same(shards, threads, **bounds), **bounds)
    check_same([ONE_FILE], 3, start="100")
    check_same([ONE_FILE], 3, stop="f" * 63)
    check_same([ONE_FILE, b""], 3, start=hash_text("1"), stop="1")


def test_errors():
    malformed, cut = ONE_FILE[:88] + b"\1" + ONE_FILE[89:], ONE_FILE[:199]
    keyed = xet_shards.export(ONE_FILE, hash_text("7"), 0, 0)
    other, more = shard_of("file 100 200:0:6:5"), shard_of("file 101 200:0:5:5", "xorb 10 21:5")
    lists = [
        [], [ONE_FILE], [ONE_FILE, more, keyed], [more, other, ONE_FILE], [more, malformed, cut],
        [more, cut, malformed], [b"?" * 500, more], [more, other, keyed, malformed], [more, b""], [malformed, more],
        [more, "text"], [more, None],
    ]
    for shards in lists:
        for named in ({}, {"start": hash_text("0")}, {"stop": hash_text("5")}):
            check_same(shards, 4, **named)
    # Parts of one file that two shards cannot have together.
    one, two = shard_of("file 100 v=365 200:0:5:5"), shard_of("file 100 s=9364 200:0:5:5 200:5:6:1")
    assert check_same([more, one, two], 2)[2] == 11
    for threads in (0, -1):
        raises(ValueError, xet_shards.merge, [ONE_FILE], threads=threads)
    assert xet_shards.merge([more, ONE_FILE], threads=10**9) == xet_shards.merge([more, ONE_FILE])
    assert xet_shards.merge([more, ONE_FILE], threads=1) == xet_shards.merge([more, ONE_FILE])


def test_outputs_of_merges_in_threads():
    length, whole = len(XORB_AND_FILE), xet_shards.merge([ONE_FILE, XORB_AND_FILE])
    buffer = bytearray(len(whole)) + XORB_AND_FILE
    before, view = bytes(buffer), memoryview(buffer)
    shards = [ONE_FILE, view[len(whole) :]]
    assert check_parts(shards, 2, whole) == 2
    for out in (view, view[1 : len(whole) + 1], view[len(whole) + length - 1 :]):
        raises(ValueError, xet_shards.merge_into, shards, out, threads=2)
    raises(TypeError, xet_shards.merge_into, shards, whole, threads=2)
    assert buffer == before
    assert xet_shards.merge_into(shards, view[: len(whole)], threads=2) == len(whole)
    assert view[: len(whole)] == whole
    # Nothing is in use afterwards.
    shards = [bytearray(ONE_FILE), bytearray(XORB_AND_FILE)]
    out = bytearray(len(whole))
    xet_shards.merge_into(shards, out, threads=3)
    for it in (*shards, out):
        it.append(0)


def test_ranges_are_of_about_one_size():
    choice = random.Random(5)
    for word in (spread, skewed):
        shards = []
        for count in [1, 2, 40, 400]:
            shard = Shard()
            for _ in range(count):
                shard.add_xorb(text_of(choice, word), *["21:1"] * choice.randrange(5))
            shards.append(shard.written())
        sizes = [len(it) - 344 for it in ranges.range_merges(shards, 4, False, None, None, 3)]
        assert len(sizes) == 4 and max(sizes) < 0.35 * sum(sizes), sizes


def test_spans_are_the_whole():
    """Threads write what one call writes, a span each, and no span passes the end."""
    parts = ranges.range_merges([ONE_FILE, XORB_AND_FILE], 2, False, None, None, 3)
    whole = xet_shards.concatenate(parts)
    for threads in (1, 2, 3, 7, 100):
        out = bytearray(len(whole) + 1)
        assert ranges.concatenate_in_threads_to(parts, out, threads) == len(whole)
        assert out == whole + bytes(1)
    for room in (0, 1, len(whole) - 1):
        out = bytearray(room)
        assert ranges.concatenate_in_threads_to(parts, out, 3) == len(whole)
        assert out == bytes(room)
    for start in range(len(whole)):
        stop = min(start + 1 + start % 50, len(whole))
        out = (ctypes.c_char * len(whole))()
        assert ranges._put_span(parts, out, start, stop) == len(whole)
        assert bytes(out) == bytes(start) + whole[start:stop] + bytes(len(whole) - stop)
    for start, stop in ((0, len(whole) + 1), (len(whole), len(whole) + 1)):
        out = (ctypes.c_char * (len(whole) + 1))()
        error = raises(xet_shards.XetError, ranges._put_span, parts, out, start, stop)
        assert error.name == "InvalidArguments" and bytes(out) == bytes(len(whole) + 1)


def spans_of(choice, size):
    """Returns where random spans that follow one another start and stop, up to the size of the whole."""
    edges = sorted({0, size, *(choice.randrange(size) for _ in range(choice.randrange(6)))})
    return list(zip(edges, edges[1:]))


def spans_put(parts, spans, size):
    """Returns the bytes that spans of a concatenation write, or the error of the first that fails."""
    out = (ctypes.c_char * size)()
    for start, stop in spans:
        ranges._put_span(parts, out, start, stop)
    return bytes(out)


def test_spans_cut_tables():
    """Spans begin and end anywhere in the table of chunks, whatever first words its rows have."""
    for word in (spread, few, skewed, one_word):
        choice = random.Random(word.__name__)
        for _ in range(10):
            shard = records_in_a_shard(choice, word, choice.choice([10, 100]))
            parts = ranges.range_merges([shard], 3, False, None, None, 3) or [shard]
            whole = xet_shards.concatenate(parts)
            for _ in range(5):
                assert spans_put(parts, spans_of(choice, len(whole)), len(whole)) == whole


def test_a_span_finds_rows_that_do_not_ascend():
    """Two rows of a table of chunks that changed places are an error of some of the spans that are the whole."""
    choice = random.Random(8)
    for word in (spread, few, skewed, one_word):
        part = bytearray(records_in_a_shard(choice, word, 100))
        info = xet_shards.load(part)
        assert len(xet_shards.concatenate([part])) == len(part) and info.chunks > 5
        for _ in range(30):
            at = info.chunk_table + 16 * choice.randrange(info.chunks - 1)
            swapped = part[:at] + part[at + 16:at + 32] + part[at:at + 16] + part[at + 32:]
            spans = spans_of(choice, len(part))
            assert raises(xet_shards.XetError, xet_shards.concatenate, [swapped]).name == "InvalidShard"
            assert raises(xet_shards.XetError, spans_put, [swapped], spans, len(part)).name == "InvalidShard"


def test_a_range_that_fails():
    """The bytes are those of a merge without threads if a part can't be made, or the parts not put together."""
    shards = [ONE_FILE, XORB_AND_FILE]
    whole = xet_shards.merge(shards)
    for name in ("_options", "_advise_large_pages", "_merge_to", "_put_span"):
        original = getattr(ranges, name)

        def fails(*_):
            raise MemoryError

        setattr(ranges, name, fails)
        try:
            assert xet_shards.merge(shards, threads=2) == whole
        finally:
            setattr(ranges, name, original)


def test_threads_that_nobody_waits_for():
    """A thread holds the bytes of the shards until its merge is done, also if no one waits for it any more."""
    runs, goes_on, done = threading.Event(), threading.Event(), threading.Event()
    shards = [bytearray(ONE_FILE), bytearray(XORB_AND_FILE)]
    merge_to, pool_class = ranges._merge_to, ranges.ThreadPoolExecutor

    class Interrupted(pool_class):
        """Is interrupted once a thread runs, and again while it waits for that to end."""

        def submit(self, *arguments):
            super().submit(*arguments)
            assert runs.wait(60)
            raise KeyboardInterrupt

        def __exit__(self, *_):
            raise KeyboardInterrupt

    def slow(of, *arguments):
        with xet_shards._memory._Addresses(*of):
            runs.set()
            goes_on.wait(60)
            size = merge_to(of, *arguments)
        done.set()
        return size

    ranges._merge_to, ranges.ThreadPoolExecutor = slow, Interrupted
    try:
        raises(KeyboardInterrupt, ranges.range_merges, shards, 2, False, hash_text("0"), None, 3)
        raises(BufferError, shards[0].append, 0)
        goes_on.set()
        assert done.wait(60)
    finally:
        goes_on.set()
        ranges._merge_to, ranges.ThreadPoolExecutor = merge_to, pool_class


def test_numbers_of_threads():
    for threads, error in ((0, ValueError), (-1, ValueError), (1.5, TypeError), ("2", TypeError)):
        raises(error, xet_shards.merge, [ONE_FILE], threads=threads)
    assert xet_shards.merge([ONE_FILE], threads=True) == ONE_FILE


def test_merges_by_tables():
    """Where tables are right and first words differ, no thread reads more than the records of its range."""
    def by_tables(shards, out, options, version):
        assert options.by_tables
        return merge_to(shards, out, options, version)

    choice, merge_to, found = random.Random(6), ranges._merge_to, 0
    ranges._merge_to = by_tables
    try:
        for turn in range(30):
            shards = random_shards(choice, spread)
            found = max(found, check_parts(shards, 2 + turn % 4, xet_shards.merge(shards)))
    finally:
        ranges._merge_to = merge_to
    assert found == 5


def merges_by_tables(shards, bounds, strict=False):
    """Returns the merges by tables of the ranges between these bounds, or None if one of them is refused."""
    room, bounds = xet_shards.merge_room(shards), [None, *bounds, None]
    try:
        return [
            ranges._range_merge(shards, ranges._options(*it, strict, True), 3, room) for it in zip(bounds, bounds[1:])
        ]
    except xet_shards.XetError:
        return None


def test_flipped_bits_in_tables():
    """All ranges together are the one merge, whatever a table says, or one of them is refused: nothing is lost."""
    choice, refused = random.Random(7), 0
    for turn in range(200):
        shards = [records_in_a_shard(choice, spread, 20) for _ in range(3)]
        whole, wrong = xet_shards.merge(shards), bytearray(shards[1])
        info = xet_shards.load(wrong)
        wrong[choice.randrange(info.file_table, info.chunk_table)] ^= 1 << choice.randrange(8)
        shards[1] = wrong
        bounds = sorted((choice.randrange(2**64), 0, 0, 0) for _ in range(5))
        parts = merges_by_tables(shards, bounds, bool(turn % 2))
        assert parts is None or xet_shards.concatenate(parts) == whole
        refused += parts is None
    assert 3 < refused < 197, refused


def test_strict_merges_by_tables():
    """Of a range only its own records have to agree."""
    shards = [shard_of(f"file 100 200:0:{it}:5", "file 300 200:0:5:5", "xorb 300 21:5") for it in (5, 6)]
    middle, room = (200, 0, 0, 0), xet_shards.merge_room(shards)
    low, high = (ranges._options(*it, True, True) for it in ((None, middle), (middle, None)))
    raises(xet_shards.DisagreementError, ranges._range_merge, shards, low, 3, room)
    start = f"{200:016x}{0:048x}"
    assert ranges._range_merge(shards, high, 3, room) == xet_shards.merge(shards, strict=True, start=start)
    assert merges_by_tables(shards, [middle]) and not merges_by_tables(shards, [middle], strict=True)
    # A bound that is not the least hash with its first word.
    assert merges_by_tables(shards, [(300, 0, 0, 0)]) and not merges_by_tables(shards, [(300, 2, 0, 0)])


def test_bytes_of_large_merges():
    """Bytes are made in memory that is longer, and for which large pages are asked."""
    shards = [shard_of("xorb 10" + " 21:1" * 1000, "xorb 11" + " 22:1" * 1000)] * 120
    assert xet_shards.merge_room(shards) > xet_shards._memory._LARGE_ROOM
    for threads in (None, 2):
        whole = xet_shards.merge(shards, threads=threads)
        assert whole == shards[0] and isinstance(whole, bytes) and sys.getrefcount(whole) == 2
        assert hash(whole) == hash(bytes(bytearray(whole))) and sys.getsizeof(whole) == sys.getsizeof(shards[0])
    out = mmap.mmap(-1, len(whole))
    assert xet_shards.merge_into(shards, out, threads=3) == len(whole) and out[:] == whole


if __name__ == "__main__":
    sys.exit(main(dict(globals())))
