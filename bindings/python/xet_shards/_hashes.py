"""Names of shards, and hashes under a key."""
from __future__ import annotations

from ctypes import byref

from ._arguments import _text, _words
from ._calls import _library
from ._errors import _check
from ._memory import Buffer, _Addresses, _made
from ._structs import _Hash


def shard_name(shard_hash: str) -> str:
    """Returns the name of the file of the shard with this hash: its 64 digits and `.mdb`."""
    wanted = _Hash(_words(shard_hash))
    name = _made(68, lambda out, room, written: _library.xet_shard_name(byref(wanted), out, room, byref(written)))
    return name.decode("ascii")


def hash_of_name(name: str) -> str:
    """Returns the hash in the name of a shard file, of 64 hexadecimal digits and `.mdb`."""
    # A name of the file system may have bytes that are no text.
    text, found = name.encode("utf-8", "surrogatepass"), _Hash()
    _check(_library.xet_parse_shard_name(text, len(text), byref(found)))
    return _text(found.words)


def hash_bytes(key: str, data: Buffer) -> str:
    """Returns the hash of some bytes under a key: BLAKE3's keyed mode.

    The storage is said to name the file of a shard by this hash of its bytes, under a key of its own.
    """
    under, found = _Hash(_words(key)), _Hash()
    with _Addresses(data) as [given]:
        _check(_library.xet_hash_bytes(byref(under), *given, byref(found)))
    return _text(found.words)


def hmac(key: str, chunk_hash: str) -> str:
    """Returns the hash of a chunk's hash under a key: an export under this key has it in its place."""
    under, wanted, found = _Hash(_words(key)), _Hash(_words(chunk_hash)), _Hash()
    _check(_library.xet_hmac(byref(under), byref(wanted), byref(found)))
    return _text(found.words)
