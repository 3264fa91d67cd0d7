"""Metadata shards of Xet storage: bytes in, bytes or an answer out.

A function whose name bindings/c/xet.h has, with `xet_` before it, calls that one, whose comment says what it does on
which bytes, and when it fails; `hash_of_name` calls `xet_parse_shard_name`. The others say what they do. A hash is
text of 64 hexadecimal digits, as shards print it: words 0, 1, 2 and 3, each as sixteen digits. Times are in seconds.

A shard is any object with a buffer: `bytes`, `bytearray`, `memoryview`, `array`, `mmap`. It is not copied, and must not
be changed during the call. `open` maps the file of a shard, so that a lookup reads the pages that it needs, and no
others:

    with xet_shards.open(name) as shard:
        print(shard.find_file(file_hash))

The shared object is the file that the environment variable XET_LIBRARY names, else libxet.so.0 beside this module.
"""
from __future__ import annotations

# The modules read it.
__version__ = "0.2.0"

from ._arguments import NO_EXPIRY, NO_KEY  # noqa: E402
from ._checking import Finding, check  # noqa: E402
from ._errors import (  # noqa: E402
    Disagreement, DisagreementError, MalformedError, MalformedRecord, XetError,
)
from ._forms import complete, convert, eligible, export, minimal, subset  # noqa: E402
from ._hashes import hash_bytes, hash_of_name, hmac, shard_name  # noqa: E402
from ._lookups import (  # noqa: E402
    Info, Run, chunk_rows, find_file, find_places, find_rows, load, query_at, query_chunks,
)
from ._memory import Buffer, WritableBuffer  # noqa: E402
from ._merging import (  # noqa: E402
    concatenate, concatenate_into, difference, find_disagreements, find_malformed, merge, merge_into, merge_room, union,
)
from ._records import (  # noqa: E402
    Chunk, File, ListedFile, Segment, Xorb, file_at, file_in, files, write, xorb_at, xorb_in, xorbs,
)
from ._tables import FoundFiles, Table, find_files, from_table, hash_column, hash_texts, table  # noqa: E402
from .index import Index  # noqa: E402
from .shard import Shard, open as open  # noqa: E402

# Without `open`: `from xet_shards import *` leaves that of Python as it is.
__all__ = [
    "Buffer", "Chunk", "Disagreement", "DisagreementError", "File", "Finding", "FoundFiles", "Index", "Info",
    "ListedFile", "MalformedError", "MalformedRecord", "NO_EXPIRY", "NO_KEY", "Run", "Segment", "Shard", "Table",
    "WritableBuffer", "XetError", "Xorb", "check", "chunk_rows", "complete", "concatenate", "concatenate_into",
    "convert", "difference", "eligible", "export", "file_at", "file_in", "files", "find_disagreements", "find_file",
    "find_files", "find_malformed", "find_places", "find_rows", "from_table", "hash_bytes", "hash_column",
    "hash_of_name", "hash_texts", "hmac", "load", "merge", "merge_into", "merge_room", "minimal", "query_at",
    "query_chunks", "shard_name", "subset", "table", "union", "write", "xorb_at", "xorb_in", "xorbs",
]
