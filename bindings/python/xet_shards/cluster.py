"""Merges of files of shards by ranges of hashes, in tasks that any executor runs.

`merge` does it all, in threads or on an executor of `concurrent.futures`; `xet_shards.dask.merge` does it on Dask. Its
steps serve other systems, as Spark and Ray:

    ranges = plan(paths, memory)
    parts = [merge_part(paths, it, f"{folder}/{number}.mdb") for number, it in enumerate(ranges)]
    concatenate_parts(parts, output)

Each `merge_part` may be a task on any machine that has the paths and the folder, and run again if a machine dies. It
reads of each shard the rows of its range, which it finds by the tables of the shard. These are not trusted: see `Part`.

Of well-formed shards that agree the output has the bytes that `xet_shards.merge` returns, and with `strict` it is an
error if they are not so. This module is tested, and no part of the library that is proved.
"""
from __future__ import annotations

import asyncio
import contextlib
import mmap
import os
import shutil
import tempfile
from concurrent.futures import CancelledError, ThreadPoolExecutor
from dataclasses import dataclass
from typing import (
    TYPE_CHECKING, Any, Callable, Collection, Iterable, Iterator, List, Optional, Sequence, Tuple, Union,
)

from ._arguments import _some
from ._errors import DisagreementError, MalformedError, XetError
from ._files import _new
from ._memory import _Addresses
from ._merging import concatenate_into, merge as _merge
from .ranges import _sample, merge_by_tables
from .shard import Shard

Path = Union[str, "os.PathLike[str]"]

Range = Tuple[Optional[str], Optional[str]]
"""The hashes from the first one on and below the second one, as text. None is no bound."""

if TYPE_CHECKING:
    from typing import Protocol

    class Executor(Protocol):
        """Runs calls, as an `Executor` of `concurrent.futures` does: its futures have `result` and `cancel`."""

        def submit(self, call: Callable[..., Any], /, *arguments: Any) -> Any: ...

MEMORY = 1 << 30
"""The bytes of memory that a task may take, if nothing else is said."""

# A task takes about so many times the bytes of its range: the rows of all shards and their merge, with tables, and what
# is needed to merge them. With room for ranges that are larger than others.
_TASK_MEMORY = 4
# How many hashes are looked at for each range, and how many files one task of `plan` opens at most.
_SAMPLE, _BATCH = 64, 256


@dataclass(frozen=True)
class Part:
    """What `merge_part` returns: the file of a range of a merge, or the shards by whose tables it can't be made.

    If a table is wrong or missing, a task whose range has rows that are not its own finds out, and a task that lacks
    them can't. So `refused` has the places of these shards in the list of paths, and if there is one there is no file.
    Then all ranges are to be made anew, with these in `read_whole`. `concatenate_parts` refuses parts of which one has
    `refused`, or that differ in `read_whole`.
    """

    path: str
    range: Range
    size: int
    read_whole: Tuple[int, ...]
    refused: Tuple[int, ...]


def merge(
    paths: Iterable[Path],
    output: Path,
    executor: Optional[Executor] = None,
    *,
    memory: int = MEMORY,
    strict: bool = False,
    version: int = 3,
    tasks: Optional[int] = None,
) -> int:
    """Writes the merge of the files of one shard or more to a file, and returns its size.

    The executor's processes need the paths, the folder of the output, and this package. It is anything with `submit`,
    as a `ProcessPoolExecutor`, whose futures have `result` and `cancel`; without one, threads of this process serve, one
    for each processor. `memory` is what one task may take, in bytes: there are as many ranges as it asks for, and at
    least `tasks`, which is the number of processors if it is left out. The parts are in a folder beside the output
    meanwhile, and are put together in this process, in mapped files. The output takes its name when it is whole, and
    may be one of the paths.

    The errors are those of files, which name the path, and those of `xet_shards.merge`, whose text names the path too.
    Of a `DisagreementError` or a `MalformedError` the record is one of the first range that has such a one.
    """
    # Tasks may run in other folders.
    names, to = [os.path.abspath(it) for it in _names(paths)], os.path.abspath(os.fspath(output))
    least = tasks or os.cpu_count() or 1
    folder, name = os.path.split(to)
    with contextlib.ExitStack() as opened:
        pool = executor or opened.enter_context(ThreadPoolExecutor(least))
        room = tempfile.mkdtemp(prefix=f".{name}.", dir=folder)
        # After an error a task may still write to it.
        opened.callback(shutil.rmtree, room, ignore_errors=True)
        ranges = plan(names, memory, pool, tasks=least)
        size = concatenate_parts(_merged(names, ranges, room, pool, strict, version), to)
    return size


def _merged(
    names: List[str], ranges: Sequence[Range], room: str, pool: Executor, strict: bool, version: int
) -> List[Part]:
    whole: Tuple[int, ...] = ()
    while True:
        # Each is refused at most once, so this ends.
        calls = [(names, it, os.path.join(room, f"{at}.mdb"), strict, whole, version) for at, it in enumerate(ranges)]
        parts: List[Part] = _all(pool, merge_part, calls)
        refused = {it for part in parts for it in part.refused}
        if not refused:
            return parts
        whole = tuple(sorted(refused.union(whole)))


def _all(pool: Executor, call: Callable[..., Any], calls: Iterable[Tuple[Any, ...]]) -> List[Any]:
    """Returns the results of calls on an executor, or raises the first error, when the other calls are given up."""
    futures = [pool.submit(call, *it) for it in calls]
    try:
        return [it.result() for it in futures]
    except BaseException:
        for it in futures:
            it.cancel()
        for it in futures:
            with contextlib.suppress(Exception, CancelledError, asyncio.CancelledError):
                it.result()
        raise


def plan(
    paths: Iterable[Path], memory: int = MEMORY, executor: Optional[Executor] = None, *, tasks: int = 1
) -> List[Range]:
    """Returns ranges that follow one another, the first and the last without a bound, of about equally many rows.

    There are so many that a task has enough memory for one, in bytes, and at least `tasks`; fewer if there are too few
    hashes to cut at. They are cut at first words of hashes, as the tables show them, so a word that most hashes have
    makes a large range. Any cuts would do: what is read here is not checked. With an executor its tasks read.
    """
    names = _names(paths)
    if memory < 1:
        raise ValueError("a task takes some memory")
    sizes = [os.stat(it).st_size for it in names]
    size = sum(sizes) or 1
    count = max(tasks, -(-_TASK_MEMORY * size // memory))
    looks: List[Tuple[str, int, int]] = []
    before = 0
    for path, length in zip(names, sizes):
        # So many of the hashes that are spread evenly over the bytes of all files are in this one.
        first, before = before * _SAMPLE * count // size, before + length
        looks.append((path, first, before * _SAMPLE * count // size - first))
    looks = [it for it in looks if it[2] and count > 1]
    batches = [(looks[at : at + _BATCH],) for at in range(0, len(looks), _BATCH)]
    found = _all(executor, _words_in, batches) if executor else [_words_in(*it) for it in batches]
    words = sorted(word for it in found for word in it)
    cuts = sorted({words[len(words) * at // count] for at in range(1, count)} - {0} if words else ())
    bounds = [None, *(f"{it:016x}{0:048x}" for it in cuts), None]
    return list(zip(bounds, bounds[1:]))


def _words_in(looks: Sequence[Tuple[str, int, int]]) -> List[int]:
    """Returns the first words of hashes of shards: of each so many, where the number is that of the first one."""
    words: List[int] = []
    for path, number, count in looks:
        with _named([path]), Shard(path) as shard, _Addresses(shard) as data:
            words += [it[0] for it in _sample(data, count, number)]
    return words


def merge_part(
    paths: Iterable[Path], range: Range, to: Path, strict: bool = False, read_whole: Collection[int] = (),
    version: int = 3,
) -> Part:
    """Writes the merge of the records of a range of hashes to a file, which takes its name when it is whole.

    It may run again, also at once with itself. Each shard is opened by itself, and read from the first row of the range
    to the last, or whole if its place in the list is in `read_whole`. With `strict` the records of the range have to be
    well-formed and to agree. If `refused` of the result has a shard, no file is written: see `Part`.
    """
    names, target = _names(paths), os.path.abspath(os.fspath(to))
    whole = tuple(sorted(set(read_whole)))
    cuts: List[bytes] = []
    refused: List[int] = []
    for at, path in enumerate(names):
        with _named([path]), Shard(path) as shard:
            if at in whole:
                cuts.append(_merge([shard], start=range[0], stop=range[1]))
                continue
            found = merge_by_tables(shard, *range)
        if found is None:
            refused.append(at)
        elif not refused:
            cuts.append(found)
    if refused:
        return Part(target, range, 0, whole, tuple(refused))
    with _named(names):
        merged = _merge(cuts, strict, version=version)
    cuts.clear()
    with _new(target) as new, open(new, "xb") as file:
        file.write(merged)
        file.flush()
        os.fsync(file.fileno())
    return Part(target, range, len(merged), whole, ())


def concatenate_parts(parts: Iterable[Part], to: Path) -> int:
    """Writes the merge whose parts are given to a file, which takes its name when it is whole, and returns its size.

    It is a `ValueError` if a part is left out, comes twice or in another place, or if tables were refused: see `Part`.
    All files are mapped. On a full disk it is an `OSError`.
    """
    listed, target = list(parts), os.path.abspath(os.fspath(to))
    _check_parts(listed)
    with contextlib.ExitStack() as opened:
        maps: List[Shard] = []
        for it in listed:
            with _named([it.path]):
                maps.append(opened.enter_context(Shard(it.path)))
            if len(maps[-1].buffer) != it.size:
                raise ValueError(f"{it.path} is not the file of its part")
        with _new(target) as new:
            with open(new, "x+b") as file:
                # If the file had holes, a full disk would end the process that fills its map.
                os.posix_fallocate(file.fileno(), 0, sum(it.size for it in listed) + 400)
                with mmap.mmap(file.fileno(), 0) as out, _named([it.path for it in listed]):
                    size = concatenate_into(maps, out)
                file.truncate(size)
                os.fsync(file.fileno())
    return size


def _check_parts(parts: Sequence[Part]) -> None:
    if not parts:
        raise ValueError("no part is given")
    for it in parts:
        if it.refused:
            raise ValueError(f"{it.path} is not there: the tables of the shards at {it.refused} are wrong or missing")
        if it.read_whole != parts[0].read_whole:
            raise ValueError(f"{it.path} and {parts[0].path} differ in the shards that were read whole")
    bounds = [None, *(it.range[1] for it in parts)]
    if bounds[-1] is not None or [it.range[0] for it in parts] != bounds[:-1] or None in bounds[1:-1]:
        raise ValueError("the ranges of the parts do not follow one another from no bound to no bound")


def _names(paths: Iterable[Path]) -> List[str]:
    return _some(os.fspath(it) for it in paths)


@contextlib.contextmanager
def _named(paths: Sequence[str]) -> Iterator[None]:
    """Gives an error of shards the paths of those that it is of, which are among these."""
    try:
        yield
    except DisagreementError as error:
        it = error.disagreement
        raise DisagreementError(it, (paths[it.first], paths[it.second])) from None
    except MalformedError as error:
        raise MalformedError(error.record, paths[error.record.index]) from None
    except XetError as error:
        if error.path is not None:
            raise
        at = 0 if len(paths) == 1 else error.index
        raise XetError(error.number, error.index, error.reason, None if at is None else paths[at]) from None
