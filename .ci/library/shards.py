"""Small shards, written by docs/FORMAT.md alone."""
import sys

from .common import BINDINGS

sys.path.insert(0, f"{BINDINGS}/python/examples")
from made_shards import Shard  # noqa: E402

# The records of shards, as the lines of a script that make them; a file has the small hash 100. The third shard
# disagrees with the first.
FIRST = ["xorb 10 21:5", "file 100 10:0:1:5"]
SECOND = ["xorb 11 22:6 23:7", "file 101 11:0:2:13"]
THIRD = ["file 100 11:0:1:5"]


def shard_of(lines):
    """Returns the bytes of the shard of these records."""
    made = Shard()
    for line in lines:
        made.add(line)
    return made.written()


def write(folder, shards):
    """Writes shards to a folder, whose records are given by the names of their files."""
    for name, lines in shards.items():
        with open(f"{folder}/{name}", "wb") as file:
            file.write(shard_of(lines))
