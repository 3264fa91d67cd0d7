"""Tests of shards in files that are mapped, of examples/merge.py, and of `python -m xet_shards`.

Runs with pytest, or as a program, which ends with the line 'N passed, M failed'.
"""
import builtins
import contextlib
import inspect
import os
import pathlib
import subprocess
import sys
import tempfile
import threading
from unittest import mock

sys.dont_write_bytecode = True
sys.path.insert(0, os.path.dirname(os.path.realpath(__file__)))

import scripts  # noqa: E402
from scripts import hash_text, xet_shards  # noqa: E402
from test_vectors import ONE_FILE, XORB_AND_FILE, main, numpy, raises, refused, shard_of  # noqa: E402

import merge  # noqa: E402

BYTES = shard_of("file 100 s=365 200:0:5:5 201:1:2:7", "file 101", "xorb 10 21:5 22:6", "xorb 11 22:6 23:7")

METHODS = {name for name, _ in inspect.getmembers(xet_shards.Shard, inspect.isfunction) if name[0] != "_"}


@contextlib.contextmanager
def file_of(content):
    """Gives the path of a file with this content."""
    with tempfile.TemporaryDirectory() as folder:
        path = pathlib.Path(folder, "a.mdb")
        path.write_bytes(content)
        yield path


@contextlib.contextmanager
def opened(content):
    with file_of(content) as path, xet_shards.open(path) as shard:
        yield shard


def is_mapped(shard):
    """Whether the file of a shard is mapped to memory."""
    return os.fspath(shard.path) in pathlib.Path("/proc/self/maps").read_text()


def test_lookups():
    with opened(BYTES) as shard:
        info = shard.info
        assert (info.version, info.files, info.xorbs, info.chunks, info.footer + 200) == (3, 2, 2, 4, len(BYTES))
        assert shard.find_file(hash_text("100")).segments[1].bytes == 7 and shard.find_file(hash_text("102")) is None
        run = shard.query_chunks([hash_text(it) for it in ("21", "22", "23")])
        assert (run.count, run.segment.xorb, run.segment.bytes) == (2, hash_text("10"), 11)
        assert shard.query_at([hash_text("23")], 3, 1).segment.xorb == hash_text("11")
        assert [it.hash for it in shard.files()] == [hash_text("100"), hash_text("101")]
        assert [len(it.chunks) for it in shard.xorbs()] == [2, 2]
        # A header, two segments and a metadata row.
        assert shard.file_at(0)[1] == 4 and shard.file_at(4)[0].hash == hash_text("101") and shard.file_at(5) is None
        assert shard.check() == [] and len(shard.buffer) == len(BYTES) and shard.buffer[:] == BYTES


def test_find_xorb():
    text = f"{10:016X}{1:016X}" + "ABCDEF01" * 4
    shared = [f"xorb {10:016x}{it:016x}{0:032x} {it}:1" for it in range(8)]
    with opened(shard_of(f"xorb {text} 21:5", "xorb 11 22:6 23:7", *shared[2:])) as shard:
        assert shard.find_xorb(hash_text("11")).chunks[1].bytes == 7
        # Of eight hashes, seven share their first word.
        assert [it.bytes for it in shard.find_xorb(text.lower()).chunks] == [5]
        assert shard.find_xorb(text) == shard.find_xorb(text.lower()) and shard.find_xorb(shared[7][5:69]).bytes == 1
        assert shard.find_xorb(f"{10:016x}" + "f" * 48) is shard.find_xorb(hash_text("12")) is None
        raises(ValueError, shard.find_xorb, "11")
    with opened(shard_of(*shared)) as shard:
        refused("TruncatedHashCollision", shard.find_xorb, hash_text("10"))
    with opened(xet_shards.minimal(BYTES, 0)) as shard:
        assert shard.find_xorb(hash_text("10")) is None and len(list(shard.xorbs())) == 2
    # The table's only row is in the 28 bytes before the footer, with that of the chunk table behind it.
    for at, byte, name in ((-200 - 28 + 8, 2, "InternalError"), (-200 + 48, 99, "Io")):
        changed = bytearray(XORB_AND_FILE)
        changed[at] = byte
        with opened(changed) as shard:
            refused(name, shard.find_xorb, hash_text("10"))


def test_each_method_is_its_function():
    key, hashes = hash_text("7"), [hash_text("22"), hash_text("23")]
    for content in (BYTES, ONE_FILE, xet_shards.export(BYTES, key, 9, 60), xet_shards.minimal(BYTES, 9)):
        with opened(content) as shard:
            assert shard.info == xet_shards.load(content)
            for name, *words in (
                ("find_file", hash_text("100")), ("query_chunks", hashes), ("query_at", hashes, 0, 1), ("chunk_rows",),
                ("file_at", 0), ("xorb_at", 3), ("check",), ("eligible",), ("export", key, 9, 60),
                ("export", xet_shards.NO_KEY, 9, 60, False, False, False, True), ("minimal", 9),
                ("minimal", 9, True, False), ("subset", 9), ("subset", 9, 77, [hash_text("10")]), ("convert", 2),
            ):
                answers = []
                for call in (getattr(shard, name), lambda *them: getattr(xet_shards, name)(content, *them)):
                    try:
                        answers.append(call(*words))
                    except xet_shards.XetError as error:
                        answers.append(str(error))
                assert answers[0] == answers[1], name
            for name in ("files", "xorbs"):
                assert list(getattr(shard, name)()) == list(getattr(xet_shards, name)(content))
            if numpy:
                assert xet_shards.from_table(shard.table()) == xet_shards.from_table(xet_shards.table(content))
                texts = [hash_text("7"), hash_text("100")]
                answers = [shard.find_files(texts), xet_shards.find_files(content, texts)]
                for name in ("found", "files", "segments"):
                    assert numpy.array_equal(*(getattr(it, name) for it in answers))


def test_parameters_are_those_of_the_functions():
    names = METHODS - {"close", "find_xorb"}
    assert len(names) == 16
    for name in names:
        own, wanted = (inspect.signature(getattr(it, name)) for it in (xet_shards.Shard, xet_shards))
        assert [*own.parameters.values()][1:] == [*wanted.parameters.values()][1:], name
        assert own.return_annotation == wanted.return_annotation, name


def test_as_bytes_of_a_shard():
    with opened(XORB_AND_FILE) as one, opened(BYTES) as other:
        assert xet_shards.merge([one, BYTES, other]) == xet_shards.merge([XORB_AND_FILE, BYTES])
        assert xet_shards.merge([one, other], threads=2) == xet_shards.union(one, other)
        index = xet_shards.Index()
        number = index.add(one)
        assert index.query([hash_text("21")])[0] == number and index.remove(number) is one
    raises(ValueError, xet_shards.merge, [BYTES, one])
    raises(ValueError, index.add, other)


def test_files_that_are_no_shards():
    handles = os.listdir("/proc/self/fd")
    for content, name in (
        (b"", "Io"), (b"text", "Io"), (ONE_FILE[:199], "Io"), (bytes(500), "ShardVersion"),
        (ONE_FILE[:32] + b"\4" + ONE_FILE[33:], "ShardVersion"), (ONE_FILE[:-1], "ShardVersion"),
    ):
        with file_of(content) as path:
            error = refused(name, xet_shards.open, path)
            assert str(error) == f"{os.fspath(path)}: {refused(name, xet_shards.load, content)}"
            assert error.path == os.fspath(path)
            assert os.fspath(path) not in pathlib.Path("/proc/self/maps").read_text()
    with tempfile.TemporaryDirectory() as folder:
        raises(IsADirectoryError, xet_shards.open, folder)
        raises(FileNotFoundError, xet_shards.open, f"{folder}/a.mdb")
    assert os.listdir("/proc/self/fd") == handles


def test_kinds_of_paths():
    with file_of(ONE_FILE) as path:
        for it in (path, str(path), os.fsencode(path)):
            with xet_shards.open(it) as shard:
                assert shard.path == it and shard.info.files == 1 and repr(it) in repr(shard)


def test_closed():
    handles = os.listdir("/proc/self/fd")
    with opened(BYTES) as shard:
        assert not shard.closed and is_mapped(shard)
    assert shard.closed and not is_mapped(shard) and repr(shard).startswith("<closed ")
    assert os.listdir("/proc/self/fd") == handles
    shard.close()
    for name in METHODS - {"close"}:
        method = getattr(shard, name)
        count = sum(it.default is it.empty for it in inspect.signature(method).parameters.values())
        assert "is closed" in str(raises(ValueError, method, *[hash_text("10")] * count))
    for name in ("info", "buffer"):
        raises(ValueError, getattr, shard, name)
    raises(ValueError, shard.__enter__)


def test_closed_in_a_walk():
    for name in ("files", "xorbs"):
        with opened(BYTES) as shard:
            begun, not_begun = getattr(shard, name)(), getattr(shard, name)()
            next(begun)
            shard.close()
            raises(ValueError, next, begun)
            raises(ValueError, next, not_begun)
        # It is over.
        assert next(begun, None) is None and not is_mapped(shard)
        with opened(BYTES) as shard:
            left = getattr(shard, name)()
            next(left)
        assert shard.closed and is_mapped(shard)
        del left
        assert not is_mapped(shard)


def test_closed_under_a_view():
    with opened(BYTES) as shard:
        view = memoryview(shard.buffer)[48:]
    assert shard.closed and is_mapped(shard) and view == BYTES[48:]
    assert xet_shards.file_in(view, 3)[0].hash == hash_text("100")
    raises(ValueError, shard.check)
    view.release()
    assert not is_mapped(shard)


def test_closed_in_calls_of_other_threads():
    for _ in range(20):
        with opened(BYTES) as shard:
            begun, found = threading.Semaphore(0), []

            def ask(shard=shard, begun=begun, found=found):
                try:
                    while True:
                        found.append(shard.find_file(hash_text("100")).segments[1].bytes)
                        begun.release()
                except ValueError:
                    found.append("closed")

            threads = [threading.Thread(target=ask) for _ in range(3)]
            for it in threads:
                it.start()
            for _ in range(10):
                begun.acquire()
            shard.close()
            for it in threads:
                it.join()
        assert found.count("closed") == 3 and set(found) == {7, "closed"} and not is_mapped(shard)


def test_new_files_of_merges():
    with tempfile.TemporaryDirectory() as folder:
        path = pathlib.Path(folder, "out")

        def taken(new, mode):
            pathlib.Path(new).write_bytes(b"of another run")
            return open(new, mode)

        with mock.patch.object(merge, "open", taken, create=True):
            raises(FileExistsError, merge.write, path, ONE_FILE)
        (other,) = pathlib.Path(folder).iterdir()
        assert other != path and other.read_bytes() == b"of another run"
        with mock.patch.object(os, "fsync", side_effect=OSError):
            raises(OSError, merge.write, path, ONE_FILE)
        assert list(pathlib.Path(folder).iterdir()) == [other]
        merge.write(path, ONE_FILE)
        assert path.read_bytes() == ONE_FILE and set(pathlib.Path(folder).iterdir()) == {path, other}


def test_names():
    names = {}
    exec("from xet_shards import *", names)
    assert "open" not in names and names["Shard"] is xet_shards.Shard and open is builtins.open
    assert sorted(xet_shards.__all__) == sorted(set(xet_shards.__all__)) == sorted(set(names) - {"__builtins__"})


def test_versions():
    library = os.environ.get("XET_LIBRARY") or f"{os.path.dirname(xet_shards.__file__)}/{xet_shards._calls._LIBRARY}"
    library = os.path.abspath(library)

    def run(*words):
        words = [sys.executable, "-m", "xet_shards", *words]
        env, folder = {**os.environ, "XET_LIBRARY": library}, os.path.dirname(scripts.HERE)
        return subprocess.run(words, cwd=folder, env=env, capture_output=True, text=True, check=False)

    # The gate compares this version with those of the library's sources.
    version = xet_shards.__version__
    assert run().stdout == f"xet_shards {version}\nlibxet {version}\n{library}\n"
    assert run("?").returncode == 2 and "python -m xet_shards" in run("?").stderr


if __name__ == "__main__":
    sys.exit(main(dict(globals())))
