"""Tests of xet_shards.cluster and xet_shards.dask, also on workers that are killed. They need Dask.

Runs with pytest, or as a program, which ends with the line 'N passed, M failed'.
"""
import contextlib
import errno
import os
import pathlib
import pickle
import random
import signal
import subprocess
import sys
import tempfile
from concurrent.futures import ProcessPoolExecutor, ThreadPoolExecutor
from unittest import mock

sys.dont_write_bytecode = True
sys.path.insert(0, os.path.dirname(os.path.realpath(__file__)))

from scripts import HERE, xet_shards  # noqa: E402
from test_ranges import few, one_word, random_shards, skewed, spread  # noqa: E402
from test_vectors import main, raises  # noqa: E402
from xet_shards import cluster, dask  # noqa: E402
from xet_shards._errors import XetError  # noqa: E402

from distributed import Client, LocalCluster  # noqa: E402
from made_shards import Shard, made_shard  # noqa: E402

EVERYTHING = [(None, None)]
merge_part = cluster.merge_part


@contextlib.contextmanager
def files(shards):
    """Gives a folder, the paths of some shards in it, and the path of an output."""
    with tempfile.TemporaryDirectory() as folder:
        paths = [pathlib.Path(folder, f"{it}.mdb") for it in range(len(shards))]
        for path, shard in zip(paths, shards):
            path.write_bytes(shard)
        yield pathlib.Path(folder), paths, pathlib.Path(folder, "all")


def check(paths, to, call=cluster.merge, wanted=None, **named):
    """A merge of files has the bytes of the one of their bytes, and leaves nothing beside the output."""
    there = {*to.parent.iterdir(), to}
    size = call(paths, to, **named)
    merged = to.read_bytes()
    inputs = [pathlib.Path(it).read_bytes() for it in paths]
    assert merged == (wanted or xet_shards.merge(inputs, version=named.get("version", 3)))
    assert size == len(merged) and {*to.parent.iterdir()} == there
    to.unlink()


def check_error(error, paths, to, call=cluster.merge, **named):
    """A merge of files ends with an error, writes no output, and leaves nothing."""
    there = sorted(to.parent.iterdir())
    found = raises(error, call, paths, to, **named)
    assert sorted(to.parent.iterdir()) == there
    return found


def on_dask(workers=2):
    @contextlib.contextmanager
    def opened():
        with LocalCluster(workers, threads_per_worker=1, dashboard_address=None) as it, Client(it) as client:
            yield client

    return opened()


def test_bytes_of_the_one_merge():
    choice = random.Random(1)
    for number in range(60):
        shards = random_shards(choice, choice.choice([spread, few, skewed, one_word]), choice.choice([2, 3]))
        with files(shards) as (_, paths, to):
            check(paths, to, tasks=choice.randrange(1, 6), strict=bool(number % 2))
            check(paths, to, tasks=3, version=3, memory=1 << 40)


def test_executors():
    with files([made_shard(it) for it in range(4)]) as (_, paths, to):
        check(paths, to)
        check([str(it) for it in paths], to, memory=100_000)
        check(paths, to, version=2)
        for executor in (ThreadPoolExecutor(2), ProcessPoolExecutor(2)):
            with executor:
                check(paths, to, executor=executor, tasks=5)
        wanted = xet_shards.merge([it.read_bytes() for it in paths])
        assert cluster.merge(paths, paths[2]) == len(wanted) and paths[2].read_bytes() == wanted


def test_ranges_have_equal_rows():
    with files([made_shard(it, 40) for it in range(6)]) as (folder, paths, _):
        size = sum(it.stat().st_size for it in paths)
        ranges = cluster.plan(paths, memory=size // 2)
        assert len(ranges) >= 8 and ranges[0][0] is None is ranges[-1][1]
        assert [it[1] for it in ranges[:-1]] == [it[0] for it in ranges[1:]]
        parts = [merge_part(paths, it, folder / f"part{at}") for at, it in enumerate(ranges)]
        sizes = [it.size for it in parts]
        assert max(sizes) < 1.5 * sum(sizes) / len(sizes) and max(sizes) < size // 6
        assert cluster.plan(paths) == EVERYTHING and len(cluster.plan(paths, tasks=3)) == 3
        raises(ValueError, cluster.plan, paths, memory=0)
        raises(ValueError, cluster.plan, [])


def test_flipped_bit_in_a_table():
    """The bytes are those of the one merge, whatever a table says: nothing is lost."""
    shards, choice = [made_shard(it, 4) for it in range(4)], random.Random(3)
    wanted, info, refused = xet_shards.merge(shards), xet_shards.load(shards[1]), 0
    with files(shards) as (folder, paths, to):
        for number in range(200):
            shard = bytearray(shards[1])
            shard[choice.randrange(info.file_table, info.chunk_table)] ^= 1 << choice.randrange(8)
            paths[1].write_bytes(shard)
            check(paths, to, wanted=wanted, tasks=5, strict=bool(number % 2))
            parts = [merge_part(paths, it, folder / "part") for it in cluster.plan(paths, tasks=5)]
            refused += any(it.refused for it in parts)
    assert refused > 3


def test_shards_without_tables():
    shards = [made_shard(it, 3) for it in range(3)]
    shards[1] = xet_shards.minimal(shards[1], 0)
    with files(shards) as (folder, paths, to):
        wanted = xet_shards.merge(shards)
        check(paths, to, wanted=wanted, tasks=4)
        ranges = cluster.plan(paths, tasks=4)
        parts = [merge_part(paths, it, folder / f"part{at}") for at, it in enumerate(ranges)]
        assert {it.refused for it in parts} == {(), (1,)}
        assert [(folder / f"part{at}").exists() for at in range(4)] == [not it.refused for it in parts]
        error = raises(ValueError, cluster.concatenate_parts, parts, to)
        assert "the tables of the shards at (1,) are wrong" in str(error)
        anew = [merge_part(paths, it, folder / f"part{at}", read_whole=[1]) for at, it in enumerate(ranges)]
        mixed = [now if before.refused else before for before, now in zip(parts, anew)]
        assert "were read whole" in str(raises(ValueError, cluster.concatenate_parts, mixed, to))
        for wrong in ([], anew[1:], anew[:-1], anew[:1] + anew[2:], anew[::-1], anew + anew[-1:]):
            raises(ValueError, cluster.concatenate_parts, wrong, to)
        assert not to.exists()
        assert cluster.concatenate_parts(pickle.loads(pickle.dumps(anew)), to) == len(wanted)
        assert to.read_bytes() == wanted
        pathlib.Path(anew[2].path).write_bytes(b"another")
        raises(XetError, cluster.concatenate_parts, anew, to)
        pathlib.Path(anew[2].path).write_bytes(made_shard(9))
        raises(ValueError, cluster.concatenate_parts, anew, to)
        assert to.read_bytes() == wanted


def test_errors_name_the_path():
    with files([made_shard(it, 3) for it in range(4)]) as (folder, paths, to):
        good = paths[2].read_bytes()
        for wrong in (b"", good[:-1], good[:300], b"x" * 400, bytes(1000)):
            paths[2].write_bytes(wrong)
            for named in ({"tasks": 1}, {"tasks": 3}, {"tasks": 3, "strict": True}):
                error = check_error(XetError, paths, to, **named)
                assert error.path == str(paths[2]) and str(error).startswith(f"{paths[2]}: the bytes ")
                copy = pickle.loads(pickle.dumps(error))
                assert str(copy) == str(error) and copy.path == error.path
        # A record that is cut off is found as the rows are read.
        info = xet_shards.load(good)
        wrong = bytearray(good)
        wrong[info.xorb_section : info.xorb_section + 48 * 70] = b"\xfe" * (48 * 70)
        paths[2].write_bytes(wrong)
        error = check_error(XetError, paths, to, tasks=3)
        assert error.path == str(paths[2]), error
        key = "7" * 64
        paths[2].write_bytes(xet_shards.export(good, key, 0, 10))
        error = check_error(XetError, paths, to, tasks=3)
        assert str(error) == f"{paths[2]}: the keys of the shards differ (InvalidArguments)"
        paths[2].unlink()
        assert check_error(FileNotFoundError, paths, to).filename == str(paths[2])
        raises(ValueError, cluster.merge, [], to)
        raises(FileNotFoundError, cluster.merge, paths[:2], folder / "none" / "all")


def test_strict():
    first = Shard()
    first.add_file("100", "11:0:1:70")
    first.add_xorb("11", "5:70")
    other = Shard()
    other.add_file("100", "11:0:1:71")
    other.add_xorb("11", "5:70")
    malformed = bytearray(first.written())
    malformed[48 + 40] = 7
    with files([made_shard(0, 3), first.written(), other.written()]) as (_, paths, to):
        check(paths, to, tasks=3)
        error = check_error(xet_shards.DisagreementError, paths, to, tasks=3, strict=True)
        assert error.paths == (str(paths[1]), str(paths[2])) and error.disagreement.kind == "file"
        assert str(error).startswith(f"{paths[1]} and {paths[2]} do not agree on file ")
        assert str(pickle.loads(pickle.dumps(error))) == str(error)
        paths[2].write_bytes(malformed)
        error = check_error(xet_shards.MalformedError, paths, to, tasks=3, strict=True)
        assert error.path == str(paths[2]) and str(error).startswith(f"{paths[2]} has a record that no shard may have")
        assert str(pickle.loads(pickle.dumps(error))) == str(error)
        paths[2].write_bytes(b"")
        assert check_error(XetError, paths, to, strict=True).path == str(paths[2])


def test_full_disk():
    """On a full disk the process would end where a file that is mapped has holes."""
    with files([made_shard(0), made_shard(1)]) as (_, paths, to):
        call = xet_shards.concatenate_into

        def look(shards, out):
            [file] = [it for it in to.parent.iterdir() if it.name.endswith(".new")]
            assert 512 * file.stat().st_blocks >= file.stat().st_size == len(out)
            return call(shards, out)

        with mock.patch.object(cluster, "concatenate_into", look):
            check(paths, to, tasks=3)
        full = OSError(errno.ENOSPC, "no room")
        for name in ("posix_fallocate", "fsync", "replace"):
            with mock.patch.object(os, name, side_effect=full):
                check_error(OSError, paths, to, tasks=3)


def test_shard_is_pickled_as_its_path():
    with files([made_shard(0, 1)]) as (_, [path], _to):
        with xet_shards.open(path) as shard:
            data = pickle.dumps(shard)
            with pickle.loads(data) as copy:
                assert copy.path == path and copy.info == shard.info and copy.buffer[:] == shard.buffer[:]
        raises(ValueError, pickle.dumps, shard)
        path.unlink()
        raises(FileNotFoundError, pickle.loads, data)


def killed_at_first(paths, range, to, *arguments):
    """Merges a range, but kills the process in the middle of the first run of two of the ranges."""
    to = pathlib.Path(to)
    begun = to.parent.parent.parent / f"begun{to.stem}"
    if to.stem in ("1", "3") and not begun.exists():
        begun.touch()
        to.with_suffix(".half").write_bytes(b"half of a shard")
        os.kill(os.getpid(), signal.SIGKILL)
    return merge_part(paths, range, to, *arguments)


def test_workers_that_are_killed():
    with files([made_shard(it) for it in range(8)]) as (folder, paths, to), on_dask() as client:
        with mock.patch.object(cluster, "merge_part", killed_at_first):
            (folder / "room").mkdir()
            size = dask.merge(paths, folder / "room" / "all", client=client, memory=500_000)
        assert sorted(it.name for it in folder.glob("begun*")) == ["begun1", "begun3"]
        whole = folder / "room" / "all"
        assert whole.read_bytes() == xet_shards.merge([it.read_bytes() for it in paths])
        assert size == whole.stat().st_size and os.listdir(whole.parent) == ["all"]
        # The same cluster goes on, also after errors.
        check(paths, to, call=dask.merge, strict=True)
        check(paths, to, call=dask.merge, client=client)
        paths[5].write_bytes(b"")
        error = check_error(XetError, paths, to, call=dask.merge, memory=500_000)
        assert str(error) == f"{paths[5]}: the bytes end too early, or verification rows are missing (Io)"
        paths[5].write_bytes(made_shard(5))
        check(paths, to, call=dask.merge, client=client, memory=300_000)


def test_example():
    """The example merges a folder, and says in a line what is wrong."""
    program = os.path.join(os.path.dirname(HERE), "examples", "merge_cluster.py")
    with files([made_shard(it) for it in range(3)]) as (folder, paths, to):
        command = [sys.executable, program, folder, to, "--workers", "2", "--strict"]
        wanted = xet_shards.merge([it.read_bytes() for it in paths])
        env = {**os.environ, "PYTHONPATH": os.path.dirname(HERE)}
        printed = subprocess.run(command, env=env, check=True, stdout=subprocess.PIPE, universal_newlines=True).stdout
        assert printed == f"{to}: {len(wanted)} bytes\n" and to.read_bytes() == wanted
        paths[1].write_bytes(b"")
        ran = subprocess.run(command, env=env, stderr=subprocess.PIPE, universal_newlines=True)
        assert ran.returncode == 1 and f"merge_cluster.py: {paths[1]}: the bytes end too early" in ran.stderr
        assert to.read_bytes() == wanted


def test_process_that_is_killed():
    """An executor whose processes do not come back gives its error, and nothing is written."""
    with files([made_shard(it) for it in range(4)]) as (_, paths, to), ProcessPoolExecutor(2) as executor:
        with mock.patch.object(cluster, "merge_part", killed_always):
            check_error(Exception, paths, to, executor=executor, tasks=4)


def killed_always(*_):
    os.kill(os.getpid(), signal.SIGKILL)


if __name__ == "__main__":
    sys.exit(main(dict(globals())))
