"""Numbers, hashes and lists, as calls take them."""
from __future__ import annotations

import ctypes
import struct
from array import array
from ctypes import c_uint64
from typing import Any, Iterable, List, Optional, Sequence, Tuple, TypeVar

from ._memory import _array
from ._structs import _Hash, _Words

NO_KEY = "0" * 64
"""The key of an export that leaves chunk hashes as they are, and of a shard whose chunk hashes are not keyed."""

NO_EXPIRY = 2**64 - 1
"""The expiry of a shard that has none."""

# The text of a hash, taken as bytes.
_WORDS = struct.Struct(">4Q")

_Item = TypeVar("_Item")


def _seconds(number: int) -> int:
    if not 0 <= number < 2**64:
        raise ValueError("a time has 64 bits")
    return number


def _number(number: int) -> int:
    if not 0 <= number < 2**32:
        raise ValueError("a number of a record has 32 bits")
    return number


def _version(number: int) -> int:
    """Returns a version of the format for a call: 0, which is none, in place of a number that 64 bits do not hold."""
    return number if 0 <= number < 2**64 else 0


def _words(text: str) -> ctypes.Array[c_uint64]:
    return _Words(*_WORDS.unpack(_digits(text)))


def _digits(text: str) -> bytes:
    """Returns the bytes that the text of a hash stands for, the highest of each word first."""
    try:
        # Spaces between digits are passed over.
        digits = bytes.fromhex(text)
    except ValueError:
        digits = b""
    if len(digits) != 32 or len(text) != 64:
        raise ValueError("a hash has 64 hexadecimal digits")
    return digits


def _words_or_zero(text: Optional[str]) -> ctypes.Array[c_uint64]:
    return _Words() if text is None else _words(text)


def _text(words: Sequence[int]) -> str:
    return _WORDS.pack(*words).hex()


def _hashes(texts: Sequence[str]) -> Tuple[ctypes.Array[Any], int]:
    """Returns an array of these hashes, and their number."""
    words = array("Q", b"".join(map(_digits, texts)))
    words.byteswap()
    count = len(words) // 4
    return (_Hash * count).from_buffer_copy(words) if count else _array(_Hash, 0), count


def _array_of(item: Any, items: List[Any]) -> Tuple[ctypes.Array[Any], int]:
    """Returns an array of these items, and their number."""
    array_of = _array(item, len(items))
    array_of[: len(items)] = items
    return array_of, len(items)


def _some(shards: Iterable[_Item]) -> List[_Item]:
    """Returns a list of shards, or of what stands for them, of which there is one at least."""
    listed = list(shards)
    if not listed:
        raise ValueError("no shard is given")
    return listed
