#!/usr/bin/env python3
"""Merges the shards of a folder on a cluster of worker processes of this machine, to one shard.

`xet_shards.dask.merge` does it, on any cluster of Dask. Needs Dask: apt-get install python3-dask python3-distributed
"""
from __future__ import annotations

import argparse
import pathlib

import xet_shards.dask
from distributed import Client, LocalCluster


def main() -> None:
    parser = argparse.ArgumentParser(description=__doc__, formatter_class=argparse.RawDescriptionHelpFormatter)
    parser.add_argument("folder", type=pathlib.Path, help="of the shards")
    parser.add_argument("to", type=pathlib.Path, help="the file of their merge")
    parser.add_argument("--strict", action="store_true", help="refuse shards that are ill-formed or do not agree")
    parser.add_argument("--workers", type=int, default=4)
    parser.add_argument("--memory", default="auto", help="of a worker, as 1GB")
    given = parser.parse_args()
    paths = sorted(given.folder.glob("*.mdb"))
    with LocalCluster(
        given.workers, threads_per_worker=1, dashboard_address=None, memory_limit=given.memory
    ) as cluster, Client(cluster) as client:
        try:
            size = xet_shards.dask.merge(paths, given.to, client=client, strict=given.strict)
        except (OSError, ValueError, xet_shards.XetError) as error:
            parser.exit(1, f"{parser.prog}: {error}\n")
    print(f"{given.to}: {size} bytes")


if __name__ == "__main__":
    main()
