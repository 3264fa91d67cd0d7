"""Tests of the C library through xet_shards: the expected bytes are those of vectors/, or worked out by hand.

Runs with pytest, or as a program, which ends with the line 'N passed, M failed'.
"""
import ctypes
import dataclasses
import itertools
import mmap
import os
import pathlib
import pickle
import re
import shutil
import struct
import subprocess
import sys
import tempfile
import traceback
import tracemalloc
import unittest
from array import array

sys.dont_write_bytecode = True
sys.path.insert(0, os.path.dirname(os.path.realpath(__file__)))

import scripts  # noqa: E402
import xet_shards  # noqa: E402
from scripts import Shard, hash_text  # noqa: E402

LIBRARY, structs = xet_shards._calls._library, xet_shards._structs

try:
    import numpy
except ImportError:
    numpy = None


def needs_numpy():
    """Skips the test that calls it where numpy is not there."""
    if numpy is None:
        raise unittest.SkipTest("numpy is not there")


THEMES = "write find query union diff merge export minimal subset eligible".split()
# The scripts of shards, and not of how lines are read.
SHARDTOOL = """all_parts counts_differ counts_differ_in_a_tree dropped eight_share_a_word expiry exported found
    made_again merged nine_chunks_share_a_word one_file parts_of_both queried seven_share_a_word subtracted united
    subset_of_one_xorb versions_united xorb_and_file xorb_without_chunks""".split()


def vector(folder, name):
    return lambda: scripts.run(folder, name) and None


for _name in [f"{theme}_{number:02}" for theme in THEMES for number in range(1, 9)]:
    globals()[f"test_original_{_name}"] = vector("original", _name)
for _name in SHARDTOOL:
    globals()[f"test_shardtool_{_name}"] = vector("shardtool", _name)

# The shard of one file that docs/FORMAT.md goes through byte by byte.
ONE_FILE = bytes.fromhex(
    "48465265706f4d6574614461746100556967456a7b815783a5bdd95ccdd14aa9" "0300000000000000" "c800000000000000"
    + "64000000000000000100000000000000" + "00" * 16 + "0000000001000000" + "00" * 8
    + "c8000000000000000100000000000000" + "00" * 16 + "00000000050000000000000005000000"
    + ("ff" * 32 + "00" * 16) * 2
    + "640000000000000000000000"
    + "0100000000000000" "3000000000000000" "c000000000000000" "f0000000000000000100000000000000"
    + ("fc00000000000000" + "00" * 8) * 2 + "00" * 32 + "00" * 8 + "ff" * 8 + "00" * 48
    + "0000000000000000" "0500000000000000" "0000000000000000" "fc00000000000000"
)


def shard_of(*lines):
    """Returns the bytes of a shard of `file` and `xorb` lines."""
    shard = Shard()
    for line in lines:
        shard.add(line)
    return shard.written()


XORB_AND_FILE = shard_of("xorb 10 21:5", "file 100 200:0:5:5")


def raises(error, call, *arguments, **named):
    """Returns the error that a call raises."""
    try:
        call(*arguments, **named)
    except error as raised:
        return raised
    raise AssertionError(f"{call.__name__} raises no {error.__name__}")


def refused(name, call, *arguments, **named):
    error = raises(xet_shards.XetError, call, *arguments, **named)
    assert error.name == name, f"wanted {name}, got {error.name}"
    return error


def test_load():
    assert len(ONE_FILE) == 452 and ONE_FILE == shard_of("file 100 200:0:5:5")
    none, end = xet_shards.NO_KEY, (200, 1, (0,) * 6)
    assert xet_shards.load(ONE_FILE) == xet_shards.Info(
        3, 1, 0, 0, none, 0, xet_shards.NO_EXPIRY, 0, 5, 0, 48, 192, 240, 252, 252, 252, *end
    )
    assert xet_shards.load(XORB_AND_FILE) == xet_shards.Info(
        3, 1, 1, 1, none, 0, xet_shards.NO_EXPIRY, 0, 5, 5, 48, 192, 336, 348, 360, 376, *end
    )


def test_load_an_export():
    key = hash_text("7")
    exported = xet_shards.export(XORB_AND_FILE, key, 1000, 60, files=False)
    # The file section has its bookend alone.
    assert xet_shards.load(exported) == xet_shards.Info(
        3, 0, 1, 1, key, 1000, 1060, 0, 0, 5, 48, 96, 240, 240, 252, 268, 200, 1, (0,) * 6
    )


def test_kinds_of_bytes():
    words = array("I", ONE_FILE)
    assert len(words) == 113
    with tempfile.TemporaryFile() as file:
        file.write(ONE_FILE)
        file.flush()
        with mmap.mmap(file.fileno(), 0, access=mmap.ACCESS_READ) as mapped:
            apart = memoryview(bytes(it for byte in ONE_FILE for it in (byte, 0)))[::2]
            for shard in (bytearray(ONE_FILE), memoryview(ONE_FILE), array("B", ONE_FILE), words, mapped, apart):
                assert xet_shards.load(shard) == xet_shards.load(ONE_FILE)
                assert xet_shards.find_file(shard, hash_text("100")).segments[0].bytes == 5
                assert xet_shards.union(shard, ONE_FILE) == xet_shards.merge([shard, shard]) == ONE_FILE
    for nothing in (b"", bytearray(), memoryview(b""), array("B")):
        refused("Io", xet_shards.load, nothing)
        refused("Io", xet_shards.merge, [ONE_FILE, nothing])


def test_merge_into():
    shards = [minimal_xorbs(), minimal_xorbs()]
    merged = xet_shards.merge(shards)
    # The output has tables, which the inputs have not.
    assert len(shards[0]) < len(merged) <= xet_shards.merge_room(shards)
    with tempfile.TemporaryFile() as file:
        file.truncate(xet_shards.merge_room(shards))
        with mmap.mmap(file.fileno(), 0) as out:
            assert xet_shards.merge_into(shards, out) == len(merged)
            assert out[: len(merged)] == merged
    out = bytearray(len(merged) - 1)
    assert xet_shards.merge_into(shards, out, strict=True) == len(merged)
    assert out == bytes(len(out))
    out.append(0)
    assert xet_shards.merge_into(shards, memoryview(out)) == len(merged)
    assert out == merged
    raises(ValueError, xet_shards.merge_into, [], out)
    raises(TypeError, xet_shards.merge_into, shards, merged)
    assert refused("Io", xet_shards.merge_into, [shards[0], b""], out).index == 1


def test_outputs_that_share_memory_with_a_shard():
    # The second shard lies in the buffer, which is long enough for a merge before it, behind it and over it.
    length, merged = len(XORB_AND_FILE), xet_shards.merge([ONE_FILE, XORB_AND_FILE])
    at = len(merged)
    buffer = bytearray(at) + XORB_AND_FILE + bytearray(at)
    before, view = bytes(buffer), memoryview(buffer)
    shards = [ONE_FILE, view[at : at + length]]
    for out in (buffer, view[1 : at + 1], view[at + length - 1 :], view[at + 5 : at + 6]):
        for named in ({}, {"strict": True}, {"start": hash_text("0")}, {"stop": hash_text("0"), "strict": True}):
            raises(ValueError, xet_shards.merge_into, shards, out, **named)
            assert buffer == before
    # A part of the buffer beside the shard may be written to, and an empty one shares no memory.
    assert xet_shards.merge_into(shards, view[at + 5 : at + 5]) == len(merged)
    assert xet_shards.merge_into(shards, view[at + length :]) == len(merged)
    assert xet_shards.merge_into(shards, view[:at]) == len(merged)
    assert buffer == merged + XORB_AND_FILE + merged + bytes(len(buffer) - 2 * len(merged) - length)


def minimal_xorbs():
    """Returns a shard without tables, of one xorb of a hundred chunks."""
    return xet_shards.minimal(shards_of(({}, {"200": [str(it) for it in range(300, 400)]}))[0], 1000)


def test_buffers_are_released():
    shard = bytearray(ONE_FILE)
    xet_shards.merge([shard, shard])
    refused("Io", xet_shards.merge, [shard, b""])
    raises(TypeError, xet_shards.merge, [shard, "text"])
    # A bytearray that is in use can't grow.
    shard.append(0)


def test_outputs_are_released():
    # Profilers and debuggers keep frames for a while.
    frames = []
    with mmap.mmap(-1, 2000) as out:
        sys.setprofile(lambda frame, *_: frames.append(frame))
        try:
            for named in ({}, {"strict": True}, {"stop": "f" * 64}, {"threads": 2}):
                assert xet_shards.merge_into([XORB_AND_FILE, ONE_FILE], out, **named) == len(XORB_AND_FILE)
        finally:
            sys.setprofile(None)
    assert frames


def with_hole(length):
    """Returns ONE_FILE with so many zeros between its sections and its tables, as its beginning and its end."""
    footer = list(struct.unpack("<25Q", ONE_FILE[252:]))
    for at in (3, 5, 7, 24):
        footer[at] += length
    return ONE_FILE[:240], ONE_FILE[240:252] + struct.pack("<25Q", *footer)


def test_nothing_is_copied():
    size = 1 << 24
    start, end = with_hole(size)
    shard = memoryview(start + bytes(size) + end)
    tracemalloc.start()
    assert xet_shards.find_file(shard, hash_text("100")).segments[0].bytes == 5
    peak = tracemalloc.get_traced_memory()[1]
    tracemalloc.stop()
    assert peak < 1 << 20, f"{peak} bytes"


def resident(path):
    """Returns how many bytes of a file that is mapped were read into memory."""
    with open("/proc/self/smaps", encoding="utf-8") as file:
        found = re.search(rf"{re.escape(path)}\n(?:\w+: .*\n)*?Rss: +(\d+) kB", file.read())
    return 1024 * int(found[1])


def test_pages_of_a_file():
    size = 1 << 26
    start, end = with_hole(size)
    with tempfile.NamedTemporaryFile() as file:
        file.write(start)
        file.seek(size, os.SEEK_CUR)
        file.write(end)
        file.flush()
        with mmap.mmap(file.fileno(), 0, access=mmap.ACCESS_READ) as shard:
            assert xet_shards.find_file(shard, hash_text("100")).segments[0].bytes == 5
            assert xet_shards.find_file(shard, hash_text("101")) is None
            # Where a page is read the system also brings some that are near.
            assert 0 < resident(file.name) < 1 << 20


def test_sentences():
    error = refused("ShardVersion", xet_shards.load, bytes(500))
    assert str(error) == "the bytes are no shard of version 2 or 3 (ShardVersion)"
    one, other = shards_of(({"100": ["200:0:5:5"]}, {}), ({"100": ["200:0:6:5"]}, {}))
    text = f"the shards at 0 and 1 do not agree on file {hash_text('100')} (Disagree)"
    error = raises(xet_shards.DisagreementError, xet_shards.merge, [one, other], strict=True)
    assert str(error) == str(pickle.loads(pickle.dumps(error))) == text
    for number in range(22):
        assert str(pickle.loads(pickle.dumps(xet_shards.XetError(number)))) == str(xet_shards.XetError(number))
    assert str(xet_shards.XetError(3)) == "the library returns 3 (Other)"


def test_texts_of_refused_arguments():
    keyed = xet_shards.export(ONE_FILE, hash_text("7"), 0, 0)
    file = xet_shards.ListedFile.of("f" * 64, [])
    other_keys, no_rows = "the keys of the shards differ", "the bytes are no whole rows of a table"
    for text, call, *arguments in (
        (f"the shard at 1: {other_keys}", xet_shards.union, ONE_FILE, keyed),
        (other_keys, xet_shards.difference, ONE_FILE, keyed),
        (f"the shard at 1: {other_keys}", xet_shards.merge, [ONE_FILE, keyed]),
        (f"{other_keys}, or hashes do not ascend from one shard to the next", xet_shards.concatenate, [ONE_FILE] * 2),
        ("the chunk hashes are keyed already, or the times add up to 2^64 or more", xet_shards.export, keyed,
         hash_text("7"), 0, 0),
        ("a file has a row that the version does not have", xet_shards.convert, shard_of("file 100 x=777 200:0:5:5"),
         2),
        ("there is no chunk at this row and index", xet_shards.query_at, ONE_FILE, [hash_text("21")], 0, 0),
        (no_rows, xet_shards.find_rows, b"?", hash_text("21")),
        (no_rows, xet_shards.find_places, b"?", hash_text("21")),
        ("the version is neither 2 nor 3", xet_shards.file_in, ONE_FILE[48:], 4),
        ("no shard has these records, or their counts do not add up", xet_shards.write, [file], []),
    ):
        error = refused("InvalidArguments", call, *arguments)
        assert str(error) == str(pickle.loads(pickle.dumps(error))) == f"{text} (InvalidArguments)"
    assert refused("Io", xet_shards.union, ONE_FILE, b"").reason is None


def test_missing_library():
    env = {**os.environ, "XET_LIBRARY": "/nowhere/libxet.so"}
    words = [sys.executable, "-c", "import xet_shards"]
    run = subprocess.run(words, cwd=os.path.dirname(scripts.HERE), env=env, capture_output=True, text=True, check=False)
    assert "ImportError" in run.stderr and "run bindings/build.sh" in run.stderr and "/nowhere" in run.stderr


def test_library_of_another_version():
    first, second, third = map(int, xet_shards.__version__.split("."))
    own, end = 10000 * first + 100 * second + third, 10000 * (first + 1)
    for number in (own, own + 1, end - 1):
        xet_shards._calls._compare_versions("libxet.so", number)
    for number in (own - 1, end):
        raises(ImportError, xet_shards._calls._compare_versions, "libxet.so", number)


def test_import_over_an_older_library():
    newer = f"{xet_shards.__version__.split('.')[0]}.99.0"
    env = {**os.environ, "XET_LIBRARY": os.path.abspath(LIBRARY._name)}
    with tempfile.TemporaryDirectory() as folder:
        shutil.copytree(os.path.dirname(xet_shards.__file__), f"{folder}/xet_shards")
        head = pathlib.Path(folder, "xet_shards", "__init__.py")
        head.write_text(head.read_text().replace(f'"{xet_shards.__version__}"', f'"{newer}"'))
        words = [sys.executable, "-c", "import xet_shards"]
        run = subprocess.run(words, cwd=folder, env=env, capture_output=True, text=True, check=False)
    said = f"ImportError: {env['XET_LIBRARY']} has the version {xet_shards.__version__}, so it is no library for"
    assert run.returncode == 1 and f"{said} xet_shards {newer}" in run.stderr


def test_forms_without_a_file_table():
    shard = shard_of("file 100 v=7 200:0:5:5", "xorb 10 21:5")
    bare = xet_shards.export(shard, xet_shards.NO_KEY, 0, 0, files=False)
    for form in (bare, xet_shards.minimal(shard, 0), xet_shards.subset(shard, 0)):
        assert xet_shards.load(form).files == 0
        assert xet_shards.find_file(form, hash_text("100")) is None


def test_each_beginning_is_cut_short():
    for count in range(452):
        cut = ONE_FILE[:count]
        # A minimal shard takes header and sections, which are 240 bytes.
        if count < 240:
            refused("Io", xet_shards.minimal, cut, 0, verification=False)
            refused("Io", xet_shards.eligible, cut)
        # The last 200 bytes of these begin with 01 and seven zeros, as a footer does: word 1 of the file's hash, the
        # number of segments, and word 1 of the xorb's hash.
        if count in (56 + 200, 84 + 200, 104 + 200):
            assert xet_shards.load(cut).version == 3
            continue
        name = "Io" if count < 200 else "ShardVersion"
        refused(name, xet_shards.load, cut)
        refused(name, xet_shards.union, cut, ONE_FILE)
        refused(name, xet_shards.difference, ONE_FILE, cut)
        refused(name, xet_shards.find_file, cut, hash_text("100"))
        refused(name, xet_shards.query_chunks, cut, [hash_text("21")])
        refused(name, xet_shards.export, cut, xet_shards.NO_KEY, 0, 0)


def test_other_formats():
    tag = b"h" + ONE_FILE[1:]
    version_1, version_4 = (ONE_FILE[:32] + bytes([it]) + ONE_FILE[33:] for it in (1, 4))
    footer_2 = ONE_FILE[:252] + b"\2" + ONE_FILE[253:]
    for bytes_of in (tag, version_1, version_4, footer_2):
        refused("ShardVersion", xet_shards.load, bytes_of)
        refused("ShardVersion", xet_shards.union, ONE_FILE, bytes_of)
        refused("ShardVersion", xet_shards.query_chunks, bytes_of, [hash_text("21")])
    refused("ShardVersion", xet_shards.minimal, tag, 0)
    assert refused("ShardVersion", xet_shards.eligible, version_4).number == 5


def test_auxiliary_row_in_version_2():
    file = shard_of("file 100 x=777 200:0:5:5")
    in_version_2 = file[:32] + b"\2" + file[33:]
    for call in (xet_shards.eligible, lambda it: xet_shards.minimal(it, 0), lambda it: xet_shards.union(it, file)):
        refused("InvalidShard", call, in_version_2)
    refused("InvalidShard", xet_shards.find_file, in_version_2, hash_text("100"))


def test_descending_hashes():
    two = shard_of("file 100", "file 101")
    assert two[48] == 100 and two[96] == 101
    swapped = two[:48] + two[96:144] + two[48:96] + two[144:]
    refused("InvalidShard", xet_shards.union, swapped, ONE_FILE)
    refused("InvalidShard", xet_shards.difference, ONE_FILE, swapped)


def test_row_that_leads_to_a_bookend():
    # The row number in the file table, at 240 + 8, is that of the bookend.
    wrong = ONE_FILE[:248] + b"\2" + ONE_FILE[249:]
    refused("InternalError", xet_shards.find_file, wrong, hash_text("100"))


def test_keys():
    keyed = xet_shards.export(XORB_AND_FILE, hash_text("7"), 0, 0)
    refused("InvalidArguments", xet_shards.union, keyed, XORB_AND_FILE)
    refused("InvalidArguments", xet_shards.difference, XORB_AND_FILE, keyed)
    refused("InvalidArguments", xet_shards.export, keyed, hash_text("7"), 0, 0)
    assert xet_shards.query_chunks(keyed, [hash_text("21")]).segment.xorb == hash_text("10")


def test_times():
    refused("InvalidArguments", xet_shards.export, ONE_FILE, xet_shards.NO_KEY, 2**64 - 1, 1)
    assert xet_shards.load(xet_shards.export(ONE_FILE, xet_shards.NO_KEY, 2**64 - 1, 0)).expiry == 2**64 - 1
    raises(ValueError, xet_shards.export, ONE_FILE, xet_shards.NO_KEY, 2**64, 0)
    raises(ValueError, xet_shards.minimal, ONE_FILE, -1)


def test_minimal_with_and_without_verification():
    assert refused("Io", xet_shards.minimal, ONE_FILE, 0, verification=True).number == 1
    with_rows = shard_of("file 100 v=7 200:0:5:5")
    assert len(xet_shards.minimal(with_rows, 0, verification=True)) == len(xet_shards.minimal(with_rows, 0)) + 48


def test_many_segments():
    lines = [f"{200 + it}:{it}:{it + 1}:{it}" for it in range(1000)]
    found = xet_shards.find_file(shard_of("file 100 x=7 " + " ".join(lines), "file 101"), hash_text("100"))
    assert (found.sha256, found.aux_hash) == (None, hash_text("7"))
    wanted = [xet_shards.Segment(hash_text(str(200 + it)), it, it + 1, it, 0) for it in range(1000)]
    assert list(found.segments) == wanted


def test_verification_rows():
    found = xet_shards.find_file(shard_of("file 100 v=7,8 200:0:5:5 201:0:5:6"), hash_text("100"))
    assert [it.verification for it in found.segments] == [hash_text("7"), hash_text("8")]
    # A file can have verification rows, and no segment that could have one.
    assert xet_shards.find_file(shard_of("file 100 v="), hash_text("100")) == xet_shards.File((), None, None)


def test_many_eligible_chunks():
    # The small hashes have word 3 zero.
    chunks = " ".join(f"{it}:1" for it in range(99, -1, -1))
    assert xet_shards.eligible(shard_of("xorb 10 " + chunks)) == [hash_text(str(it)) for it in range(100)]


def test_tables_that_the_inputs_lack():
    # The union has tables, so it is longer than its inputs and more than was first made room for.
    chunks = " ".join(f"{it}:1" for it in range(1000))
    whole = shard_of("xorb 10 " + chunks)
    bare = xet_shards.export(whole, xet_shards.NO_KEY, 0, 0, files=False, xorb_table=False, chunk_table=False)
    empty = shard_of()
    assert len(empty) == 344 and len(bare) + len(empty) + 400 < len(whole) == len(bare) + 12 + 16000
    assert xet_shards.union(bare, empty) == xet_shards.union(empty, bare) == whole


def test_subset_of_no_xorb():
    assert len(xet_shards.subset(XORB_AND_FILE, 9, xorbs=[])) == 344
    assert len(xet_shards.subset(XORB_AND_FILE, 9)) == 344 + 96
    assert xet_shards.load(xet_shards.subset(XORB_AND_FILE, 9, expiry=100)).expiry == 100
    raises(ValueError, xet_shards.subset, XORB_AND_FILE, 9, xorbs=["10"])


def test_names():
    name = "00000000000000010000000000000002000000000000000300000000000000ab.mdb"
    assert xet_shards.shard_name(name[:64]) == name
    assert xet_shards.hash_of_name(name) == xet_shards.hash_of_name(name[:64].upper() + ".mdb") == name[:64]
    for other in ("", name[:64], name[1:], f"/{name}", name.upper(), "g" + name[1:], name[:63] + "\u00e9.mdb"):
        assert refused("BadFilename", xet_shards.hash_of_name, other).number == 6
    raises(ValueError, xet_shards.shard_name, name)


def test_hashes():
    # b3sum --keyed, with the key of the bytes 0 to 31.
    key = xet_shards._arguments._text([int.from_bytes(bytes(range(at, at + 8)), "little") for at in (0, 8, 16, 24)])
    for length, wanted in (
        (0, "cd715d99192b49730998c0ec4dd7e9b1c295bc001b2f73eb8f47d6d49d5fb17c"),
        (1025, "a004b8a947312282e2aed8b821a9f9c321e76bb71ba5d150b34973f2e8d5e652"),
        (102400, "0616e87804cf2eabcb83c58e9d03a65be203e9ef35238aced23053ba043c31d7"),
    ):
        data = bytes(i % 251 for i in range(length))
        assert xet_shards.hash_bytes(key, data) == wanted
    # The hash of a hash is that of its bytes.
    words = (21, 1, 2**63, 255)
    data = b"".join(word.to_bytes(8, "little") for word in words)
    assert xet_shards.hmac(key, xet_shards._arguments._text(words)) == xet_shards.hash_bytes(key, data)
    raises(ValueError, xet_shards.hash_bytes, key[1:], b"")
    raises(ValueError, xet_shards.hmac, key, key[1:])


def test_reserved_words():
    # Those of the file's header and of the chunk.
    marked = bytearray(XORB_AND_FILE)
    marked[88:96], marked[284:288] = struct.pack("<Q", 7), struct.pack("<I", 8)
    file, wanted = structs._File(), structs._Hash(scripts.words_of(hash_text("100")))
    segments = (structs._FileSegment * 1)()
    call, shard = LIBRARY.xet_find_file, bytes(marked)
    assert call(shard, len(shard), ctypes.byref(wanted), ctypes.byref(file), segments, 1) == 0
    assert (file.flags, file.reserved) == (0, 7)
    (xorb,) = xet_shards.xorbs(marked)
    assert (xorb.chunks[0].flags, xorb.chunks[0].reserved) == (0, 8)
    # What is written has that of the chunk alone.
    marked[88:96] = bytes(8)
    assert xet_shards.write(xet_shards.files(marked), [xorb]) == marked


def test_digits():
    digits = b"000000000000000100000000000000020000000000000003000000000000000a"
    words, written = structs._Hash((1, 2, 3, 10)), ctypes.c_size_t()
    text = ctypes.create_string_buffer(b"#" * 65, 65)
    to_hex, from_hex = LIBRARY.xet_hash_to_hex, LIBRARY.xet_hash_from_hex
    assert (to_hex(ctypes.byref(words), text, 63, ctypes.byref(written)), written.value) == (19, 64)
    assert text.raw == b"#" * 65
    assert (to_hex(ctypes.byref(words), text, 65, ctypes.byref(written)), written.value) == (0, 64)
    assert text.raw == digits + b"#"
    for given in (digits, digits.upper()):
        found = structs._Hash((9, 9, 9, 9))
        assert (from_hex(given, 64, ctypes.byref(found)), list(found.words)) == (0, [1, 2, 3, 10])
        assert (from_hex(given, 63, ctypes.byref(words)), list(words.words)) == (16, [1, 2, 3, 10])
    assert (from_hex(b"\xff" * 64, 64, ctypes.byref(words)), list(words.words)) == (16, [1, 2, 3, 10])


def test_merge_of_one_and_of_none():
    # A single shard is written anew, in version 3 and without expiry.
    shard = Shard()
    shard.add_file("100", "200:0:5:5")
    assert xet_shards.merge([shard.written(expiry=7, version=2)]) == ONE_FILE
    raises(ValueError, xet_shards.merge, [])


def test_many_chunks():
    # From 2048 rows on the chunk table is sorted by the bits of the first words, unless too many of them are alike.
    spread, xorbs = 0x9E3779B97F4A7C15, 90
    for word_of in (
        lambda at: at * spread % 2**64,
        lambda at: at * spread % 2**64 if at % 2 else at,
        lambda at: at * spread % 2**64 >> 40 << 40,
        lambda at: at * spread % 2**32,
        lambda at: at << 40,
        lambda at: (xorbs * 100 - at) << 40,
        lambda at: 7,
    ):
        shard = Shard()
        for xorb in range(xorbs):
            shard.add_xorb(str(xorb), *(f"{word_of(100 * xorb + at)}:1" for at in range(100)))
        bytes_of = shard.written()
        assert xet_shards.merge([bytes_of]) == xet_shards.write([], xet_shards.xorbs(bytes_of)) == bytes_of
    refused("Io", xet_shards.merge, [ONE_FILE, ONE_FILE[:199]])


def test_merge_in_ranges():
    files = {"100": ["200:0:5:5"], "200": ["v=5", "200:0:5:5"], "300": ["300:0:5:5"]}
    xorbs = {"200": ["21:5", "22:6"], "300": ["23:5"]}
    those = choosing(files, xorbs)
    shards = shards_of(those(["100", "300"], ["200"]), those(["200", "300"], ["200", "300"]), those([], []))
    bounds = [None, "0", "100", "101", "200", "250", "300", "301"]
    for start, stop in itertools.product(bounds, bounds):
        # The first bound is in the range, and the second is not; of bounds in the other order nothing is between.
        names = [it for it in files if int(start or 0) <= int(it) and (stop is None or int(it) < int(stop))]
        expected = shards_of(those(names, [it for it in names if it in xorbs]))[0]
        texts = {"start": start and hash_text(start), "stop": stop and hash_text(stop)}
        for order in itertools.permutations(shards):
            assert xet_shards.merge(order, **texts) == expected
        # A single shard is written anew too.
        assert xet_shards.merge([xet_shards.merge(shards)], **texts) == expected
    # Ranges that follow one another have each record once.
    cuts = [None, *map(hash_text, ["100", "200", "200", "250"]), None]
    parts = [xet_shards.merge(shards, start=one, stop=other) for one, other in zip(cuts, cuts[1:])]
    assert sum(xet_shards.load(it).files for it in parts) == 3 and sum(xet_shards.load(it).xorbs for it in parts) == 2
    assert xet_shards.merge(parts) == xet_shards.merge(shards)
    # The last word counts too.
    after = f"{100:016x}{1:016x}{0:016x}{1:016x}"
    assert xet_shards.merge(shards, start=hash_text("100"), stop=after) == shards_of(those(["100"], []))[0]
    assert xet_shards.merge(shards, start=after, stop=hash_text("200")) == shards_of(those([], []))[0]


def test_merge_in_a_range_of_other_inputs():
    # Under a key.
    keyed = [xet_shards.export(it, hash_text("7"), 0, 2**64 - 1) for it in (ONE_FILE, XORB_AND_FILE)]
    for texts in ({"start": hash_text("0")}, {"stop": "f" * 64}):
        assert xet_shards.merge(keyed, **texts) == xet_shards.merge(keyed)
    assert xet_shards.load(xet_shards.merge(keyed, stop=hash_text("0"))).key == hash_text("7")
    # Records outside of the range are read, but need not be well-formed, agree or have a union.
    one, two = shard_of("file 100 v=365 200:0:5:5"), shard_of("file 100 s=9364 200:0:5:5 200:5:6:1")
    refused("InvalidShard", xet_shards.merge, [one, two], start=hash_text("100"))
    assert xet_shards.load(xet_shards.merge([one, two], start=hash_text("101"))).files == 0
    raises(xet_shards.DisagreementError, xet_shards.merge, [one, two], strict=True, start=hash_text("100"))
    strictly = xet_shards.merge([one, two], strict=True, start=hash_text("101"))
    assert strictly == xet_shards.merge([one, two], start=hash_text("101"))
    assert refused("Io", xet_shards.merge, [ONE_FILE, ONE_FILE[:199]], start="f" * 64).index == 1
    # Of files that are not well-formed the order counts, as in a merge without a range.
    malformed = ONE_FILE[:88] + b"\1" + ONE_FILE[89:]
    raises(xet_shards.MalformedError, xet_shards.merge, [malformed], strict=True, stop="f" * 64)
    both = [xet_shards.merge(it, stop="f" * 64) for it in ([ONE_FILE, malformed], [malformed, ONE_FILE])]
    assert both[0][88] == 0 and both[1] == both[0][:88] + b"\1" + both[0][89:]
    raises(ValueError, xet_shards.merge, [], start=hash_text("0"))
    raises(ValueError, xet_shards.merge, [ONE_FILE], stop="100")


def test_concatenate():
    files = {"100": ["200:0:5:5"], "200": ["v=5", "200:0:5:5"], "300": ["300:0:5:5"]}
    xorbs = {"200": ["21:5", "22:6"], "300": ["20:5"]}
    those = choosing(files, xorbs)
    low, high, none = shards_of(those(["100", "200"], ["200"]), those(["300"], ["300"]), those([], []))
    [both] = shards_of(those(files, xorbs))
    # The chunk of the xorb 300 comes before those of the xorb 200 in the table.
    assert xet_shards.concatenate([low, high]) == both
    # Parts without records may stand anywhere, and one part is written anew.
    for parts in ([none, low, high], [low, none, high], [low, high, none, none], [both]):
        assert xet_shards.concatenate(parts) == both
    assert xet_shards.concatenate([none]) == xet_shards.concatenate([none, none]) == none
    # Files alone and xorbs alone are in order, whichever comes first.
    only_files, only_xorbs = shards_of(those(files, []), those([], xorbs))
    assert xet_shards.concatenate([only_files, only_xorbs]) == xet_shards.concatenate([only_xorbs, only_files]) == both
    # In version 2, and with an expiry.
    assert xet_shards.concatenate([xet_shards.convert(low, 2), high]) == both
    # Ranges of a merge, whatever the cuts, are the merge.
    shards = shards_of(those(["100", "300"], ["200"]), those(["200", "300"], ["200", "300"]), those([], []))
    for count in range(4):
        for words in itertools.combinations_with_replacement(["0", "100", "101", "200", "250", "300", "301"], count):
            cuts = [None, *map(hash_text, words), None]
            parts = [xet_shards.merge(shards, start=one, stop=other) for one, other in zip(cuts, cuts[1:])]
            assert xet_shards.concatenate(parts) == xet_shards.merge(shards) == both


def test_concatenate_into():
    one, two = shard_of("file 100 200:0:5:5", "xorb 200 21:5"), shard_of("file 200 200:0:5:5", "xorb 300 22:5 23:5")
    both = xet_shards.concatenate([one, two])
    with tempfile.TemporaryFile() as file:
        file.truncate(len(both) + 10)
        with mmap.mmap(file.fileno(), 0) as out:
            assert xet_shards.concatenate_into([one, two], out) == len(both)
            assert out[:] == both + bytes(10)
    out = bytearray(b"?" * (len(both) - 1))
    assert xet_shards.concatenate_into([one, two], out) == len(both)
    assert out == b"?" * len(out)
    out.append(63)
    # A table of chunks that does not ascend is found before anything is written: its rows are before the footer.
    descending = two[:-232] + two[-216:-200] + two[-232:-216] + two[-200:]
    for parts in ([two, one], [one, two[:199]], [one, xet_shards.minimal(two, 0)], [one, descending]):
        raises(xet_shards.XetError, xet_shards.concatenate_into, parts, out)
        assert out == b"?" * len(both)
    assert xet_shards.concatenate_into([one, two], memoryview(out)) == len(both)
    assert out == both
    raises(ValueError, xet_shards.concatenate_into, [], out)
    raises(TypeError, xet_shards.concatenate_into, [one, two], both)
    # An error holds neither the output nor the shards, and says why.
    error = refused("InvalidArguments", xet_shards.concatenate_into, [two, one], out)
    assert error.reason == refused("InvalidArguments", xet_shards.concatenate, [two, one]).reason
    raises(ValueError, xet_shards.concatenate_into, [one, out], memoryview(out)[10:])
    out.append(0)


def test_concatenate_refuses():
    one, two = shard_of("file 100 200:0:5:5", "xorb 200 21:5"), shard_of("file 200 200:0:5:5", "xorb 300 22:5")
    refused("InvalidArguments", xet_shards.concatenate, [two, one])
    refused("InvalidArguments", xet_shards.concatenate, [one, one])
    # Files in order, and xorbs not, and the other way round; the last word of a hash counts.
    refused("InvalidArguments", xet_shards.concatenate, [one, shard_of("file 200", "xorb 100")])
    refused("InvalidArguments", xet_shards.concatenate, [one, shard_of("file 50", "xorb 300")])
    # An order from a shard over one without files.
    refused("InvalidArguments", xet_shards.concatenate, [two, shard_of("xorb 400"), shard_of("file 100")])
    # Other keys.
    keyed = [xet_shards.export(it, hash_text("7"), 0, 2**64 - 1) for it in (one, two)]
    refused("InvalidArguments", xet_shards.concatenate, [one, keyed[1]])
    whole = xet_shards.concatenate(keyed)
    assert whole == xet_shards.merge(keyed) and xet_shards.load(whole).key == hash_text("7")
    # Shards without tables.
    refused("InvalidShard", xet_shards.concatenate, [xet_shards.minimal(one, 0)])
    bare = xet_shards.export(two, xet_shards.NO_KEY, 0, 0, chunk_table=False)
    refused("InvalidShard", xet_shards.concatenate, [one, bare])
    # A footer that counts other rows than are there: of the file table, and of the xorb table.
    for field in (32, 48):
        at = len(two) - 200 + field
        refused("InvalidShard", xet_shards.concatenate, [one, two[:at] + b"\2" + two[at + 1 :]])
    # Bytes that are cut, and none.
    refused("Io", xet_shards.concatenate, [one, two[:199]])
    refused("ShardVersion", xet_shards.concatenate, [b"?" * 500, one])
    raises(ValueError, xet_shards.concatenate, [])


def test_order_of_refusals():
    keyed = xet_shards.export(ONE_FILE, hash_text("7"), 0, 0)
    # The reserved word of the file's header, which is at 48, is in its bytes 40 to 47.
    malformed, cut = ONE_FILE[:88] + b"\1" + ONE_FILE[89:], ONE_FILE[:199]
    other = shard_of("file 100 200:0:6:5")
    for named in ({}, {"start": hash_text("0")}):
        # The first input decides that cannot be read or is not well-formed.
        for name, shards in (("Io", [ONE_FILE, cut, malformed]), ("Malformed", [ONE_FILE, malformed, cut])):
            assert refused(name, xet_shards.merge, shards, strict=True, **named).index == 1
        # Then disagreements, then keys.
        refused("Malformed", xet_shards.merge, [other, keyed, malformed], strict=True, **named)
        refused("Disagree", xet_shards.merge, [other, keyed], strict=True, **named)
        refused("InvalidArguments", xet_shards.merge, [ONE_FILE, keyed], strict=True, **named)


def test_merge_names_the_input():
    keyed = xet_shards.export(ONE_FILE, hash_text("7"), 1000, 60)
    assert refused("Io", xet_shards.merge, [ONE_FILE, XORB_AND_FILE, ONE_FILE[:199], b""]).index == 2
    assert refused("InvalidArguments", xet_shards.merge, [ONE_FILE, ONE_FILE, keyed]).index == 2
    for named in ({}, {"strict": True}, {"start": hash_text("0")}):
        assert refused("InvalidArguments", xet_shards.merge, [keyed, keyed, ONE_FILE, keyed], **named).index == 2
    # Shards are read in the order of the list, before their keys are compared.
    two = shard_of("file 100 200:0:5:5", "file 101 200:0:5:5")
    descending = two[:48] + two[144:240] + two[48:144] + two[240:]
    assert refused("InvalidShard", xet_shards.merge, [descending, keyed, ONE_FILE]).index == 0
    assert refused("ShardVersion", xet_shards.merge, [b"?" * 500, keyed, ONE_FILE]).index == 0
    error = refused("ShardVersion", xet_shards.merge, [b"?" * 500, ONE_FILE], strict=True)
    assert error.index == 0
    text = "the shard at 0: the bytes are no shard of version 2 or 3 (ShardVersion)"
    assert str(error) == str(pickle.loads(pickle.dumps(error))) == text
    # Files that can't be combined are those of two shards.
    one, two = shard_of("file 100 v=365 200:0:5:5"), shard_of("file 100 s=9364 200:0:5:5 200:5:6:1")
    assert refused("InvalidShard", xet_shards.merge, [one, two]).index is None



def test_walks():
    shard = Shard()
    shard.add_file("100", "v=365,366", "s=9364", "x=777", "200:0:5:5", "201:1:2:7")
    shard.add_file("101", *(f"200:{it}:{it + 1}:9" for it in range(70)))
    shard.add_file("102")
    shard.add_xorb("10", "21:5", "22:6")
    shard.add_xorb("11")
    first, second, third = xet_shards.files(shard.written())
    assert [it.hash for it in (first, second, third)] == [hash_text(it) for it in ("100", "101", "102")]
    assert [it.flags >> 29 for it in (first, second, third)] == [7, 0, 0]
    for it in (first, second, third):
        assert it.file == xet_shards.find_file(shard.written(), it.hash)
    assert (len(second.file.segments), second.file.segments[69].start, third.file.segments) == (70, 69, ())
    # Neither reads a table.
    minimal = xet_shards.minimal(shard.written(), 9)
    assert [it.hash for it in xet_shards.files(minimal)] == [hash_text(it) for it in ("100", "101", "102")]
    one, other = xet_shards.xorbs(shard.written())
    chunks = (xet_shards.Chunk(hash_text("21"), 0, 5, 0), xet_shards.Chunk(hash_text("22"), 5, 6, 0))
    assert one == xet_shards.Xorb(hash_text("10"), 0, 11, 0, chunks)
    assert other == xet_shards.Xorb(hash_text("11"), 0, 0, 0, ())
    # A section that is cut short gives what is before: here the footer stands for its end.
    cut = shard.written()[: 48 + 48 * 7] + shard.written()[-200:]
    walk = xet_shards.files(cut)
    assert next(walk).hash == hash_text("100")
    refused("Io", list, walk)
    refused("Io", list, xet_shards.xorbs(shard.written()[:199]))


def records_shard():
    shard = Shard()
    shard.add_file("102", "v=365,366", "s=9364", "x=777", "200:0:5:5", "201:1:2:7")
    shard.add_file("100", *(f"200:{it}:{it + 1}:9" for it in range(70)))
    shard.add_file("101")
    shard.add_xorb("11", "21:5", "22:6")
    shard.add_xorb("10")
    return shard


def test_write():
    shard = records_shard()
    files, xorbs = list(xet_shards.files(shard.written())), list(xet_shards.xorbs(shard.written()))
    assert xet_shards.write(files, xorbs) == xet_shards.write(files[::-1], iter(xorbs[::-1])) == shard.written()
    assert xet_shards.write(files, xorbs, 7) == shard.written(7)
    assert xet_shards.write([], []) == Shard().written()
    # Of two records with one hash the later one counts.
    other = xet_shards.ListedFile.of(hash_text("101"), [], hash_text("1"))
    assert xet_shards.write([other, *files], xorbs + xorbs) == shard.written()
    assert xet_shards.find_file(xet_shards.write([*files, other], []), hash_text("101")) == other.file
    for it in files:
        assert xet_shards.ListedFile.of(it.hash, it.file.segments, it.file.sha256, it.file.aux_hash) == it
    # Other creations and expiries, and tables that are left out, are not kept.
    options = {"files": True, "xorb_table": False, "chunk_table": False}
    for it in (xet_shards.export(shard.written(), xet_shards.NO_KEY, 1000, 60), xet_shards.minimal(shard.written(), 0),
               xet_shards.export(shard.written(), xet_shards.NO_KEY, 0, 2**64 - 1, **options)):
        again = xet_shards.write(xet_shards.files(it), xet_shards.xorbs(it))
        assert again != it and again == xet_shards.merge([it])
    # A shard under a key has its keyed hashes.
    keyed = list(xet_shards.xorbs(xet_shards.export(shard.written(), hash_text("7"), 0, 0)))
    assert list(xet_shards.xorbs(xet_shards.write([], keyed))) == keyed != xorbs


def test_records_that_no_shard_has():
    file = xet_shards.ListedFile.of(hash_text("100"), [])
    chunk = xet_shards.Chunk(hash_text("1"), 0, 2**32 - 1, 0)
    xorb = xet_shards.Xorb(hash_text("10"), 0, 0, 0, (chunk,))
    assert xet_shards.write([file], [xorb])
    refused("InvalidArguments", xet_shards.write, [dataclasses.replace(file, hash="f" * 64)], [])
    refused("InvalidArguments", xet_shards.write, [dataclasses.replace(file, flags=1)], [])
    refused("InvalidArguments", xet_shards.write, [], [dataclasses.replace(xorb, hash="f" * 64)])
    refused("InvalidArguments", xet_shards.write, [], [dataclasses.replace(xorb, chunks=(chunk, chunk))])
    # The flags are not those of the parts.
    raises(ValueError, xet_shards.write, [dataclasses.replace(file, flags=1 << 30)], [])
    segments = [xet_shards.Segment(hash_text("1"), 0, 1, 5, 0, it) for it in (None, hash_text("2"))]
    raises(ValueError, xet_shards.write, [xet_shards.ListedFile.of(hash_text("100"), segments)], [])
    raises(ValueError, xet_shards.write, [], [dataclasses.replace(xorb, bytes=2**32)])


def test_outputs_of_records():
    counts, shard = structs._Counts(9, 9, 9, 9), shard_of("xorb 10 21:5 22:6", "file 100 200:0:5:5")
    kinds = structs._ListedFile, structs._FileSegment, structs._ListedXorb, structs._Chunk

    def records(shard, *rooms):
        out = [(kind * 3).from_buffer(bytearray(b"\xaa" * 3 * ctypes.sizeof(kind))) for kind in kinds]
        places = [it for place in zip(out, rooms) for it in place]
        number = LIBRARY.xet_records(shard, len(shard), *places, ctypes.byref(counts))
        return number, (counts.files, counts.segments, counts.xorbs, counts.chunks), [bytes(it) for it in out]

    untouched = [b"\xaa" * 3 * ctypes.sizeof(kind) for kind in kinds]
    for rooms in ((0, 0, 0, 0), (0, 1, 1, 2), (1, 0, 1, 2), (1, 1, 0, 2), (1, 1, 1, 1)):
        assert records(shard, *rooms) == (19, (1, 1, 1, 2), untouched)
    number, found, out = records(shard, 1, 3, 3, 3)
    assert (number, found) == (0, (1, 1, 1, 2))
    for it, kind, count in zip(out, kinds, found):
        assert it[count * ctypes.sizeof(kind) :] == b"\xaa" * (3 - count) * ctypes.sizeof(kind)
    assert records(shard[:199], 3, 3, 3, 3) == (1, (0, 0, 0, 0), untouched)


def test_check():
    Finding = xet_shards.Finding
    shard = shard_of("xorb 10 21:5", "xorb 11 22:5", "file 100 200:0:5:5", "file 101 200:0:5:5")
    assert xet_shards.check(shard) == [] == xet_shards.check(xet_shards.convert(shard, 2))
    assert xet_shards.check(b"?" + shard[1:]) == [Finding("no_tag", "header", None)]
    assert xet_shards.check(shard[:32] + b"\4" + shard[33:]) == [Finding("other_version", "header", 4)]
    assert xet_shards.check(shard[:-1]) == [Finding("no_footer", "footer", None)]
    assert xet_shards.check(b"") == [Finding("too_short", None, None)]
    # The two files' records, of 96 bytes each, stand in the other order, and so do the rows of their table.
    swapped = shard[:48] + shard[144:240] + shard[48:144] + shard[240:]
    found = xet_shards.check(swapped)
    assert found[0] == Finding("out_of_order", "file_section", 1)
    assert Finding("differs", "file_table", None) in found and len(found) == 2
    # A byte more stands between the chunk table and the footer.
    longer = xet_shards.check(shard[:-200] + b"?" + shard[-200:])
    assert longer == [Finding("other_size", None, len(shard))]
    # The footer, which has 200 bytes, is read as four rows of files without segments, and ends in the fifth.
    assert xet_shards.check(shard[:48] + shard[-200:]) == [Finding("cut", "file_section", None)]
    # Version 2 has no auxiliary rows.
    with_row = shard_of("file 100 x=777 200:0:5:5")
    as_version_2 = with_row[:32] + b"\2" + with_row[33:]
    assert xet_shards.check(as_version_2) == [Finding("refused", "file_section", None)]


def test_findings_of_a_newer_library():
    # xet.h has 11 kinds and 7 parts.
    for (kind, part, number), wanted in (
        ((11, 6, 0), ("reordered", "chunk_table", None)), ((2, 1, 9), ("other_version", "header", 9)),
        ((12, 7, 9), ("unknown", "footer", 12)), ((12, 0, 0), ("unknown", None, 12)),
        ((8, 8, 0), ("differs", "unknown", None)),
    ):
        found = xet_shards._checking._finding(structs._Finding(kind, part, number))
        assert found == xet_shards.Finding(*wanted) and found.is_note == (kind == 11)


def test_check_of_records_and_order():
    Finding = xet_shards.Finding
    # Of the file's record at 48: the flags are its bytes 32 to 35, the reserved word of the header 40 to 47, and those
    # of its metadata row, behind the header and a segment, the 16 bytes from 48 + 96 + 32 on.
    with_row = shard_of("file 100 s=365 200:0:5:5")
    malformed = [Finding("malformed_record", "file_section", 0)]
    for at in (48 + 32, 48 + 40, 48 + 96 + 32, 48 + 96 + 47):
        changed = with_row[:at] + b"\1" + with_row[at + 1 :]
        assert xet_shards.check(changed) == malformed and not malformed[0].is_note
    # A xorb of two chunks of 2^32 - 1 bytes each: their numbers are the bytes 36 to 39 of their rows.
    two = shard_of("xorb 10 21:5 22:5")
    many = bytearray(two)
    for chunk in (1, 2):
        at = 96 + chunk * 48 + 36
        many[at : at + 4] = b"\xff" * 4
    assert xet_shards.check(many) == [Finding("malformed_record", "xorb_section", 0)]
    # One chunk in two xorbs: the two rows of the chunk table, of 16 bytes each before the footer, share a first word.
    twice = shard_of("xorb 10 21:5", "xorb 11 21:5")
    rows = len(twice) - 200 - 32
    swapped = twice[:rows] + twice[rows + 16 : rows + 32] + twice[rows : rows + 16] + twice[-200:]
    found = xet_shards.check(swapped)
    assert found == [Finding("reordered", "chunk_table", None)] and found[0].is_note
    assert xet_shards.merge([swapped]) == twice == xet_shards.merge([twice])
    # A row twice, and the other not at all, is no other order.
    doubled = twice[:rows] + twice[rows : rows + 16] * 2 + twice[-200:]
    assert xet_shards.check(doubled) == [Finding("differs", "chunk_table", None)]


def test_convert():
    shard = Shard()
    shard.add_file("100", "v=365", "s=9364", "200:0:5:5")
    shard.add_xorb("10", "21:5")
    for expiry in (7, xet_shards.NO_EXPIRY):
        old = shard.written(expiry=expiry, version=2)
        assert xet_shards.convert(shard.written(expiry=expiry), 2) == xet_shards.convert(old, 2) == old
        assert xet_shards.convert(old, 3) == shard.written(expiry=expiry)
    keyed = xet_shards.export(old, hash_text("7"), 1000, 60, files=False)
    assert xet_shards.convert(keyed, 2) == keyed[:32] + b"\2" + keyed[33:]
    shard.add_file("101", "x=777", "200:0:5:5")
    assert xet_shards.convert(shard.written(), 3) == shard.written()
    for version in (2, 4, 0, -1, 2**64 + 2):
        refused("InvalidArguments", xet_shards.convert, shard.written(), version)
    refused("Io", xet_shards.convert, old[:47], 2)


def test_complete():
    shard = Shard()
    shard.add_file("100", "v=365", "s=9364", "x=777", "200:0:5:5")
    shard.add_xorb("10", "21:5", "22:7")
    written = shard.written()
    end = xet_shards.load(written).file_table
    for size in (end, end + 1, len(written) - 1, len(written)):
        assert xet_shards.complete(written[:size]) == written
        assert xet_shards.complete(written[:size] + b"\xff" * 300) == written
    for size in (0, 31, 47, 48, end - 1):
        refused("Io", xet_shards.complete, written[:size])
    refused("ShardVersion", xet_shards.complete, b"\1" + written[1:])
    # The footer says the key; chunk hashes stay as they are.
    keyed = xet_shards.export(written, hash_text("7"), 1000, 60)
    whole = xet_shards.complete(keyed[:end], hash_text("7"))
    assert xet_shards.merge([keyed]) == whole and xet_shards.check(whole) == []
    # A minimal shard has no tables, and this one no file at whose start a chunk is marked.
    old = Shard()
    old.add_xorb("10", "21:5", "22:7")
    for version in (2, 3):
        minimal = xet_shards.minimal(old.written(version=version), 9)
        assert xet_shards.complete(minimal) == old.written()
        assert xet_shards.complete(minimal, version=2) == old.written(version=2)
    refused("InvalidArguments", xet_shards.complete, written, version=2)


def test_version_2():
    shard, other = Shard(), Shard()
    for it, name in ((shard, "100"), (other, "102")):
        it.add_file(name, "v=365", "s=9364", "200:0:5:5")
        it.add_xorb("10", "21:5")
    shards = [shard.written(), other.written(version=2)]
    old = xet_shards.convert(xet_shards.merge(shards), 2)
    assert old[32:40] == b"\2" + bytes(7)
    assert xet_shards.merge(shards, version=2) == xet_shards.merge(shards, version=2, threads=2) == old
    assert xet_shards.merge(shards, strict=True, version=2) == old
    middle = hash_text("101")
    part = xet_shards.merge(shards, start=middle)
    assert xet_shards.merge(shards, start=middle, version=2) == xet_shards.convert(part, 2)
    assert xet_shards.merge(shards, start=middle, strict=True, version=2)[32] == 2
    files, xorbs = list(xet_shards.files(shards[0])), list(xet_shards.xorbs(shards[0]))
    assert xet_shards.write(files, xorbs, version=2) == shard.written(version=2)
    assert xet_shards.write(files, xorbs, 7, 2) == shard.written(expiry=7, version=2)
    other.add_file("101", "x=777", "200:0:5:5")
    shards[1] = other.written()
    room = bytearray(xet_shards.merge_room(shards))
    for version in (2, 4):
        refused("InvalidArguments", xet_shards.merge, shards, version=version)
        refused("InvalidArguments", xet_shards.merge_into, shards, room, version=version)
    assert room == bytes(len(room))
    refused("InvalidArguments", xet_shards.merge, shards, start=middle, version=2)
    assert xet_shards.merge(shards, start=hash_text("102"), version=2)[32] == 2
    refused("InvalidArguments", xet_shards.write, list(xet_shards.files(shards[1])), xorbs, version=2)


def in_version_2(shard):
    """Returns the bytes of a shard without auxiliary rows in version 2: the number in its header is another."""
    return shard[:32] + bytes([2, 0, 0, 0, 0, 0, 0, 0]) + shard[40:]


def test_two_shards_in_version_2():
    new, plain = Shard(), Shard()
    new.add_file("100", "v=365", "x=777", "200:0:5:5")
    plain.add_file("101", "s=9364", "200:0:5:5")
    for it in (new, plain):
        it.add_xorb("10", "21:5")
    new, plain, old = new.written(), plain.written(), plain.written(version=2)
    assert plain[32:40] == bytes([3, 0, 0, 0, 0, 0, 0, 0]) and old == in_version_2(plain)
    for first, second in ((plain, plain), (plain, old), (old, plain)):
        assert xet_shards.union(first, second, version=2) == old
        assert xet_shards.union(first, second) == xet_shards.union(first, second, version=3) == plain
    # The first shard has the file with the auxiliary row, and the difference does not.
    rest = xet_shards.difference(new, plain)
    assert rest[32] == 3 and xet_shards.difference(new, plain, version=2) == in_version_2(rest)
    for call in (xet_shards.union, xet_shards.difference):
        refused("InvalidArguments", call, plain, new, version=2)
        refused("InvalidArguments", call, plain, plain, version=4)
    text = str(refused("InvalidArguments", xet_shards.union, new, plain, version=2))
    assert text.startswith("a file has a row that the version does not have"), text
    text = str(refused("InvalidArguments", xet_shards.difference, plain, new, version=2))
    assert text.startswith("the keys of the shards differ, or a file has a row that the version does not have"), text


def test_other_forms_in_version_2():
    shard = Shard()
    shard.add_file("100", "v=365", "x=777", "200:0:5:5")
    shard.add_xorb("10", "21:5")
    shard = shard.written()
    key, xorbs = hash_text("7"), [hash_text("10")]
    forms = (
        lambda **options: xet_shards.export(shard, key, 1000, 60, aux_rows=False, **options),
        lambda **options: xet_shards.export(shard, key, 1000, 60, files=False, **options),
        lambda **options: xet_shards.minimal(shard, 9, aux_rows=False, **options),
        lambda **options: xet_shards.minimal(shard, 9, verification=True, aux_rows=False, **options),
        lambda **options: xet_shards.subset(shard, 9, 11, xorbs, **options),
        lambda **options: xet_shards.subset(shard, 9, **options),
    )
    for form in forms:
        made = form()
        assert made[32] == 3 and made == form(version=3)
        assert form(version=2) == in_version_2(made)
        refused("InvalidArguments", form, version=4)
    refused("InvalidArguments", xet_shards.minimal, shard, 9, version=2)
    text = str(refused("InvalidArguments", xet_shards.export, shard, key, 1000, 60, version=2))
    assert "2^64 or more, or a file has a row that the version does not have" in text, text
    refused("Io", xet_shards.export, shard[:199], key, 1000, 60, version=2)
    for call, *arguments in (
        (xet_shards.minimal, shard, 9), (xet_shards.subset, shard, 9), (xet_shards.merge, [shard]),
        (xet_shards.convert, shard), (xet_shards.complete, shard), (xet_shards.write, [], []),
    ):
        for version in (4, -1):
            error = refused("InvalidArguments", call, *arguments, version=version)
            assert f"there is no version {version}" in error.reason, error


def test_concatenate_in_version_2():
    shards = [Shard() for _ in range(3)]
    for it, name in zip(shards, ("100", "101", "102")):
        it.add_file(name, "v=365", "200:0:5:5")
    shards[2].add_file("103", "x=777", "200:0:5:5")
    one, other, new = (it.written() for it in shards)
    both = xet_shards.concatenate([one, other])
    assert both[32] == 3
    for parts in ((in_version_2(one), other), (one, in_version_2(other))):
        assert xet_shards.concatenate(parts) == both
    parts = [in_version_2(one), in_version_2(other)]
    assert xet_shards.concatenate(parts) == in_version_2(both)
    for room, is_filled in ((bytearray(len(both) + 1), True), (bytearray(len(both) - 1), False)):
        assert xet_shards.concatenate_into(parts, room) == len(both)
        assert room == (in_version_2(both) + b"\0" if is_filled else bytes(len(room)))
    assert xet_shards.concatenate([parts[0], new])[32] == 3
    refused("Io", xet_shards.concatenate, [parts[0], new[:199]])


def test_strict_merges_in_version_2():
    shards = [Shard() for _ in range(3)]
    for it in shards:
        it.add_file("100", "200:0:5:5")
    shards[1].add_file("101", "x=777", "200:0:5:5")
    shards[2].add_file("101", "200:0:6:5")
    one, new, unlike = (it.written() for it in shards)
    assert xet_shards.merge([one, in_version_2(one)], strict=True, version=2) == in_version_2(one)
    assert xet_shards.merge([one, new], strict=True) == new
    room = bytearray(b"7" * 1000)
    for version in (2, 4):
        refused("InvalidArguments", xet_shards.merge_into, [one, new], room, strict=True, version=version)
    # What is not well-formed, or does not agree, comes before rows that the version does not have, and the number of
    # no version before all.
    raises(xet_shards.DisagreementError, xet_shards.merge_into, [new, unlike], room, strict=True, version=2)
    refused("InvalidArguments", xet_shards.merge_into, [new, unlike], room, strict=True, version=4)
    assert room == b"7" * 1000


def test_merge():
    # These scripts print one byte string of three trees over three shards, and merge gives it, in any order. The shards
    # of merge_02 don't agree.
    for number in (1, 3, 4, 5, 6, 7, 8):
        script, lines = scripts.read("original", f"merge_{number:02}")
        run = scripts.Run(lines).run(script)
        first, second, third, _ = lines[1::2]
        assert first == second == third
        shards = [run.buffers[it] for it in ("Ba", "Bc", "Bd")]
        for order in itertools.permutations(shards):
            assert xet_shards.merge(order).hex() == first
        assert xet_shards.merge(shards * 5).hex() == first


def choosing(files, xorbs):
    """Returns a function of names, which returns the files and the xorbs of these dictionaries that have them."""
    return lambda of_files, of_xorbs: ({it: files[it] for it in of_files}, {it: xorbs[it] for it in of_xorbs})


def shards_of(*many):
    """Returns the bytes of shards, each of a dictionary of its files and one of its xorbs: a list of words for each."""
    written = []
    for files, xorbs in many:
        shard = Shard()
        for name, words in files.items():
            shard.add_file(name, *words)
        for name, words in xorbs.items():
            shard.add_xorb(name, *words)
        written.append(shard.written())
    return written


def test_disagreements():
    one, with_parts, other = shards_of(
        ({"100": ["200:0:5:5"]}, {"10": ["21:5", "22:5"], "11": ["23:5"]}),
        ({"100": ["v=365", "s=9364", "200:0:5:5"]}, {"11": ["23:5"]}),
        ({"100": ["200:0:6:5"]}, {"10": ["21:5"], "11": ["23:5"]}),
    )
    for shards in ([], [one], [one, one], [one, with_parts], [with_parts, one, with_parts]):
        assert xet_shards.find_disagreements(shards) == []
    # Of what differs files come first, and two hashes have records that differ.
    found = xet_shards.Disagreement("file", hash_text("100"), 0, 2, 2)
    assert xet_shards.find_disagreements([one, with_parts, other])[0] == found
    found = xet_shards.Disagreement("file", hash_text("100"), 0, 1, 1)
    assert xet_shards.find_disagreements([with_parts, other]) == [found]
    # Parts that only one of two has are no difference, but where both have them they are compared.
    unlike = shards_of(({"100": ["v=366", "200:0:5:5"]}, {}))[0]
    assert xet_shards.find_disagreements([one, unlike]) == []
    assert xet_shards.find_disagreements([one, unlike, with_parts])[0].second == 2
    xorbs = shards_of(({}, {"10": ["21:5"]}), ({}, {"10": ["21:6"]}))
    assert xet_shards.find_disagreements(xorbs) == [xet_shards.Disagreement("xorb", hash_text("10"), 0, 1, 1)]


def three_that_disagree():
    """Returns shards of which each two disagree under one hash, and the disagreements."""
    shards = shards_of(
        ({"100": ["200:0:5:5"], "102": ["200:0:5:5"]}, {"11": ["23:5"]}),
        ({"101": ["200:0:5:5"], "102": ["200:0:6:5"]}, {"10": ["21:5"], "11": ["23:5"]}),
        ({"100": ["200:0:6:5"], "101": ["200:0:5:5"]}, {"10": ["21:6"], "11": ["23:5"]}),
    )
    return shards, [
        xet_shards.Disagreement("file", hash_text("100"), 0, 2, 3),
        xet_shards.Disagreement("file", hash_text("102"), 0, 1, 3),
        xet_shards.Disagreement("xorb", hash_text("10"), 1, 2, 3),
    ]


def test_all_disagreements():
    shards, found = three_that_disagree()
    assert xet_shards.find_disagreements(iter(shards)) == found
    assert xet_shards.find_disagreements(shards[:2]) == [xet_shards.Disagreement("file", hash_text("102"), 0, 1, 1)]
    for agreeing in ([], shards[:1], shards[1:2] * 3):
        assert xet_shards.find_disagreements(agreeing) == []
    refused("Io", xet_shards.find_disagreements, [shards[0], shards[0][:199]])
    error = raises(xet_shards.DisagreementError, xet_shards.merge, shards, strict=True)
    lists = "one of 3 hashes that find_disagreements lists"
    assert str(error) == f"the shards at 0 and 2 do not agree on file {hash_text('100')}, {lists} (Disagree)"
    # More than the first room.
    many = shards_of(*(({str(1000 + at): [f"200:0:{end}:5"] for at in range(1100)}, {}) for end in (5, 6)))
    found = [xet_shards.Disagreement("file", hash_text(str(1000 + at)), 0, 1, 1100) for at in range(1100)]
    assert xet_shards.find_disagreements(many) == found


def test_strict_merge():
    one, other, again = shards_of(
        ({"100": ["200:0:5:5"]}, {}), ({"100": ["200:0:6:5"]}, {}), ({"101": ["200:0:6:5"]}, {"10": ["21:5"]})
    )
    for order in itertools.permutations([one, again, again]):
        assert xet_shards.merge(order, strict=True) == xet_shards.merge([one, again])
    try:
        xet_shards.merge([one, again, other], strict=True)
        raise AssertionError("shards that differ are merged")
    except xet_shards.DisagreementError as error:
        assert (error.name, error.disagreement) == ("Disagree", xet_shards.find_disagreements([one, again, other])[0])
        assert error.disagreement == xet_shards.Disagreement("file", hash_text("100"), 0, 2, 1)
    assert xet_shards.merge([one, other]) == one
    raises(ValueError, xet_shards.merge, [], strict=True)
    refused("Io", xet_shards.merge, [one, one[:199]], strict=True)


def test_strict_merge_into():
    one, other, again = shards_of(
        ({"100": ["200:0:5:5"]}, {}), ({"100": ["200:0:6:5"]}, {}), ({"101": ["200:0:6:5"]}, {"10": ["21:5"]})
    )
    malformed = bytearray(one)
    malformed[48 + 40] = 1
    merged = xet_shards.merge([one, again])
    out = bytearray(b"?" * (len(merged) + 1))
    before = bytes(out)
    refused("Disagree", xet_shards.merge_into, [one, again, other], out, strict=True)
    refused("Malformed", xet_shards.merge_into, [one, again, malformed], out, strict=True)
    refused("Io", xet_shards.merge_into, [one, again, one[:199]], out, strict=True)
    keyed = xet_shards.export(again, "1" * 64, now=1, valid_seconds=1)
    refused("InvalidArguments", xet_shards.merge_into, [one, keyed], out, strict=True)
    assert out == before
    short = memoryview(out)[: len(merged) - 1]
    assert xet_shards.merge_into([one, again], short, strict=True) == len(merged)
    assert out == before
    assert xet_shards.merge_into([one, again], out, strict=True) == len(merged)
    assert out == merged + b"?"


def test_arguments():
    for text in ("", "0" * 63, "0" * 65, "g" + "0" * 63, "0" * 64 + "\n", " " + "0" * 63, "0x" + "0" * 62):
        raises(ValueError, xet_shards.find_file, ONE_FILE, text)
        raises(ValueError, xet_shards.query_chunks, ONE_FILE, [text])
    for shard in (452, "text", None, [1, 2]):
        raises(TypeError, xet_shards.load, shard)
    assert xet_shards.find_file(ONE_FILE, hash_text("100").upper()) is not None
    assert xet_shards.query_chunks(XORB_AND_FILE, []) is None


def test_sizes_of_structs():
    # Of a 64-bit target: each word at a multiple of eight.
    sizes = {
        "_Hash": 32, "_Segment": 48, "_Info": 216, "_MergeOptions": 72, "_ExportOptions": 56, "_MinimalOptions": 16,
        "_File": 88, "_Chunk": 48,
    }
    assert {it: ctypes.sizeof(getattr(structs, it)) for it in sizes} == sizes


def difference_into(out, room, first, second):
    """Calls xet_difference, and returns its result and the count that it writes."""
    written = ctypes.c_size_t(12345)
    number = LIBRARY.xet_difference(
        first, len(first), second, len(second), 3, out, room, ctypes.byref(written)
    )
    return number, written.value


def test_room():
    # 452 bytes are written to the front of what has room for them, and what is behind them stays.
    for room in (452, 453, 500):
        out = ctypes.create_string_buffer(b"\xaa" * 500, 500)
        assert difference_into(out, room, shard_of(), ONE_FILE) == (0, 452)
        assert out.raw == ONE_FILE + b"\xaa" * 48
    # With less room the size is told, and all stays.
    for room in (0, 1, 451):
        out = ctypes.create_string_buffer(b"\xaa" * 500, 500)
        assert difference_into(out, room, shard_of(), ONE_FILE) == (19, 452)
        assert out.raw == b"\xaa" * 500


def test_outputs_of_errors():
    out = ctypes.create_string_buffer(b"\xaa" * 500, 500)
    assert difference_into(out, 500, ONE_FILE[:100], ONE_FILE) == (1, 0)
    assert out.raw == b"\xaa" * 500
    info = structs._Info(*range(4), (4, 5, 6, 7), *range(8, 13))
    before = bytes(info)
    assert LIBRARY.xet_load(ONE_FILE, 100, ctypes.byref(info)) == 1
    assert bytes(info) == before


def test_outputs_of_lookups():
    file = structs._File(True, True, True, True, 3, 4, (1, 2, 3, 4), (5, 6, 7, 8), 9)
    segments = (structs._FileSegment * 2)()
    segments[0].segment.bytes, segments[1].segment.bytes = 123, 456
    before, rows = bytes(file), bytes(segments)
    call = LIBRARY.xet_find_file
    wanted = structs._Hash(scripts.words_of(hash_text("100")))
    # An error leaves both.
    assert call(ONE_FILE, 100, ctypes.byref(wanted), ctypes.byref(file), segments, 2) == 1
    assert (bytes(file), bytes(segments)) == (before, rows)
    # Too little room tells the number and leaves the segments.
    three = shard_of("file 100 s=3 200:0:5:5 201:0:5:6 202:0:5:7")
    assert call(three, len(three), ctypes.byref(wanted), ctypes.byref(file), segments, 2) == 19
    assert (file.found, file.segments) == (True, 3)
    assert (file.has_verification, file.has_sha256, file.has_aux) == (False, True, False)
    assert (file.flags, file.reserved) == (1 << 30, 0)
    assert (list(file.sha256), list(file.aux_hash), bytes(segments)) == ([3, 1, 0, 0], [0] * 4, rows)
    # What is behind the segments stays.
    assert call(ONE_FILE, len(ONE_FILE), ctypes.byref(wanted), ctypes.byref(file), segments, 2) == 0
    assert (file.found, file.segments, file.has_sha256) == (True, 1, False)
    assert [it.segment.bytes for it in segments] == [5, 456]
    # Of no file all is zero.
    wanted.words[3] = 1
    assert call(ONE_FILE, len(ONE_FILE), ctypes.byref(wanted), ctypes.byref(file), segments, 2) == 0
    assert not file.found and not any(bytes(file)) and [it.segment.bytes for it in segments] == [5, 456]


def test_outputs_of_eligible():
    # Two hashes, with room for less and for more.
    shard, written = shard_of("xorb 10 22:1 21:1"), ctypes.c_size_t(12345)
    out = (structs._Hash * 3)(*[structs._Hash((9, 9, 9, 9))] * 3)
    call = LIBRARY.xet_eligible
    assert (call(shard, len(shard), out, 1, ctypes.byref(written)), written.value) == (19, 2)
    assert [list(it.words) for it in out] == [[9] * 4] * 3
    assert (call(shard, 40, out, 3, ctypes.byref(written)), written.value) == (1, 0)
    assert [list(it.words) for it in out] == [[9] * 4] * 3
    assert (call(shard, len(shard), out, 3, ctypes.byref(written)), written.value) == (0, 2)
    assert [list(it.words) for it in out] == [[21, 1, 0, 0], [22, 1, 0, 0], [9] * 4]


def test_outputs_of_disagreements():
    # Three, with room for less and for more.
    shards, found = three_that_disagree()
    out, written = (structs._Disagreement * 4)(), ctypes.c_size_t(12345)
    ctypes.memset(out, 9, ctypes.sizeof(out))
    before, size = bytes(out), ctypes.sizeof(structs._Disagreement)

    def call(inputs, room):
        with xet_shards._memory._Addresses(*inputs) as data:
            number = LIBRARY.xet_find_disagreements(
                xet_shards._memory._list(data), len(data), out, room, ctypes.byref(written)
            )
        return number, written.value

    assert [call(shards, room) for room in (0, 2)] == [(19, 3)] * 2
    assert call([shards[0], shards[1][:199]], 4) == (1, 0)
    assert call(shards[:1], 4) == (0, 0)
    assert bytes(out) == before
    assert call(shards, 4) == (0, 3)
    assert [xet_shards._merging._disagreement(it, 3) for it in out[:3]] == found
    assert bytes(out)[3 * size :] == before[3 * size :]
    assert call(shards, 3) == (0, 3)


def test_outputs_of_queries():
    count, run = ctypes.c_size_t(12345), structs._Segment((1, 2, 3, 4), 5, 6, 7, 8)
    before = bytes(run)
    wanted = (structs._Hash * 1)(structs._Hash(scripts.words_of(hash_text("99"))))
    for length, number in ((len(XORB_AND_FILE), 0), (100, 1)):
        count.value = 12345
        assert LIBRARY.xet_query_chunks(
            XORB_AND_FILE, length, wanted, 1, ctypes.byref(count), ctypes.byref(run)
        ) == number
        assert (count.value, bytes(run)) == (0, before)


def main(names):
    """Runs the tests among some names. Returns 1 if one failed."""
    tests = {name: test for name, test in names.items() if name.startswith("test_") and callable(test)}
    passed, failed = 0, 0
    for name, test in tests.items():
        try:
            test()
            passed += 1
        except unittest.SkipTest as why:
            print(f"skipped {name}: {why}")
        except Exception as error:
            failed += 1
            where = traceback.extract_tb(error.__traceback__)[-1]
            print(f"{name}: {type(error).__name__}: {error or where.line}")
    print(f"{passed} passed, {failed} failed")
    return 1 if failed else 0


if __name__ == "__main__":
    sys.exit(main(globals()))
