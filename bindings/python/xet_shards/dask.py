"""Merges of files of shards on a cluster of Dask. It needs the package `distributed`, the extra `dask` of this one."""
from __future__ import annotations

import contextlib
from typing import Any, Callable, Iterable, Optional, Union

from distributed import Client, default_client

from . import cluster
from .cluster import MEMORY, Path

# Dask writes data of a worker to its disk, and then pauses it, when it has more than such a share of its memory.
_SHARE = 0.6


def merge(
    paths: Iterable[Path],
    output: Path,
    *,
    client: Optional[Any] = None,
    memory: Optional[int] = None,
    strict: bool = False,
    version: int = 3,
) -> int:
    """Writes the merge of the files of one shard or more to a file, and returns its size: see `cluster.merge`.

    The client is that of a cluster, whose workers need the paths, the folder of the output, and this package. Without
    one it is the one that this process has made last, or else that of a cluster of this machine, which ends with the
    call. `memory` is what a task may take, in bytes: if it is left out, three fifths of the share that a thread has of
    its worker's. A task whose worker dies runs again on another one.
    """
    with contextlib.ExitStack() as opened:
        if client is None:
            try:
                client = default_client()
            except ValueError:
                client = opened.enter_context(Client())
        threads = client.nthreads()
        if memory is None:
            memory = _memory(client.scheduler_info()["workers"].values())
        size = cluster.merge(
            paths, output, _Tasks(client), memory=memory, strict=strict, version=version,
            tasks=max(sum(threads.values()), 1),
        )
    return size


class _Tasks:
    """Runs calls on a client's cluster."""

    def __init__(self, client: Any) -> None:
        self._client = client

    def submit(self, call: Callable[..., Any], /, *arguments: Any) -> Any:
        # What is under the paths may have changed since a task of the same arguments ran.
        return self._client.submit(call, *arguments, pure=False)


def _memory(workers: Iterable[Any]) -> int:
    """Returns the memory that a task may take on each of some workers. One without a limit has 0."""
    shares: Iterable[Union[int, float]] = (it["memory_limit"] / it["nthreads"] for it in workers if it["memory_limit"])
    return max(int(_SHARE * min(shares, default=MEMORY / _SHARE)), 1)
