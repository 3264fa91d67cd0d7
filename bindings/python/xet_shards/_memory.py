"""The memory that calls read and write."""
from __future__ import annotations

import ctypes
import mmap
from array import array
from contextlib import contextmanager
from ctypes import POINTER, byref, c_char, c_char_p, c_int, c_size_t, c_ssize_t, c_void_p
from itertools import chain
from typing import TYPE_CHECKING, Any, Callable, Iterator, List, Optional, Sequence, Tuple, Union

from ._errors import _SHORT, _check
from ._structs import _ShardBytes

if TYPE_CHECKING:
    _Array = array[Any]
else:
    # Python 3.8 has no types of its items.
    _Array = array


class _Mapped:
    """Has the bytes of a shard in a map, and is taken wherever bytes are: the class `Shard`."""

    @property
    def buffer(self) -> mmap.mmap:
        raise NotImplementedError


Buffer = Union[bytes, bytearray, memoryview, mmap.mmap, _Array, _Mapped]
"""The bytes of a shard, also as a `Shard`. Other objects with a buffer are taken as well."""

WritableBuffer = Union[bytearray, memoryview, mmap.mmap, _Array]
"""Bytes that can be written to."""


class _View(ctypes.Structure):
    """Py_buffer of Python's C interface: where the bytes of an object are."""

    _fields_ = [
        ("buf", c_void_p), ("obj", c_void_p), ("len", c_ssize_t), ("itemsize", c_ssize_t), ("readonly", c_int),
        ("ndim", c_int), ("format", c_void_p), ("shape", c_void_p), ("strides", c_void_p), ("suboffsets", c_void_p),
        ("internal", c_void_p),
    ]


_get_buffer = ctypes.PYFUNCTYPE(c_int, ctypes.py_object, POINTER(_View), c_int)(
    ("PyObject_GetBuffer", ctypes.pythonapi)
)
_release_buffer = ctypes.PYFUNCTYPE(None, POINTER(_View))(("PyBuffer_Release", ctypes.pythonapi))
# PyBUF_WRITABLE, which _get_buffer takes.
_WRITABLE = 1

# To make bytes: see `_written_bytes`.
_new_bytes = ctypes.PYFUNCTYPE(c_void_p, c_char_p, c_ssize_t)(("PyBytes_FromStringAndSize", ctypes.pythonapi))
_address_of_bytes = ctypes.PYFUNCTYPE(c_void_p, c_void_p)(("PyBytes_AsString", ctypes.pythonapi))
_resize_bytes = ctypes.PYFUNCTYPE(c_int, POINTER(c_void_p), c_ssize_t)(("_PyBytes_Resize", ctypes.pythonapi))
_release = ctypes.PYFUNCTYPE(None, c_void_p)(("Py_DecRef", ctypes.pythonapi))


class _Addresses:
    """Gives the address and the length of the bytes of each shard, which stay there until it is left."""

    def __init__(self, *shards: Buffer) -> None:
        self._shards = shards
        self._views: List[_View] = []

    def __enter__(self) -> List[Tuple[int, int]]:
        try:
            for shard in self._shards:
                if isinstance(shard, _Mapped):
                    shard = shard.buffer
                # The bytes of a view need not be one after another: these are copied.
                if isinstance(shard, memoryview) and not shard.c_contiguous:
                    shard = shard.tobytes()
                view = _View()
                _get_buffer(shard, view, 0)
                self._views.append(view)
        except BaseException:
            self.__exit__()
            raise
        # xet.h wants no null pointer, also of no bytes.
        return [(view.buf or ctypes.addressof(view), view.len) for view in self._views]

    def __exit__(self, *_: object) -> None:
        for view in self._views:
            _release_buffer(view)


@contextmanager
def _output_apart(
    out: WritableBuffer, shards: Sequence[Buffer]
) -> Iterator[Tuple[ctypes.Array[c_char], List[Tuple[int, int]]]]:
    """Gives an array over a buffer, which is released at the end, and the addresses and lengths of shards beside it."""
    view = _View()
    try:
        _get_buffer(out, view, _WRITABLE)
    except BufferError as error:
        raise TypeError(f"the output can't be written to: {error}") from None
    try:
        start, room = view.buf or ctypes.addressof(view), view.len
        with _Addresses(*shards) as data:
            if any(max(start, address) < min(start + room, address + length) for address, length in data):
                raise ValueError("the output shares memory with a shard")
            yield (c_char * room).from_address(start), data
    finally:
        _release_buffer(view)


def _array(item: Any, count: int) -> ctypes.Array[Any]:
    # An array of no items would have no address.
    array_of: ctypes.Array[Any] = (item * max(count, 1))()
    return array_of


def _list(data: Sequence[Tuple[int, int]]) -> ctypes.Array[Any]:
    # Its items are made at once: one by one they take ten times as long.
    words = _Array("Q", chain.from_iterable(data or [(0, 0)]))
    return (_ShardBytes * max(len(data), 1)).from_buffer(words)


def _filled(
    item: Any, room: int, call: Callable[[ctypes.Array[Any], int, c_size_t], Any], reason: Optional[str] = None
) -> Any:
    """Returns the items that a call writes into an array. It is made anew once if they don't fit."""
    written = c_size_t()
    out = _array(item, room)
    number = call(out, room, written)
    if number == _SHORT:
        out = _array(item, written.value)
        number = call(out, written.value, written)
    _check(number, reason)
    return out[: written.value]


# The kernel clears a large page at once. The C library gives memory of this size back when it is freed, so that no
# other memory is advised.
_LARGE_ROOM = 1 << 25
_madvise = getattr(ctypes.CDLL(None), "madvise", None)


def _advise_large_pages(address: int, length: int) -> None:
    """Asks for large pages for memory that is not written to yet, where the system has them."""
    advice = getattr(mmap, "MADV_HUGEPAGE", None)
    if length >= _LARGE_ROOM and _madvise and advice is not None:
        start = -(-address // mmap.PAGESIZE) * mmap.PAGESIZE
        # Whether they are granted makes no difference but in time.
        _madvise(c_void_p(start), c_size_t((address + length - start) // mmap.PAGESIZE * mmap.PAGESIZE), advice)


def _made(
    room: int, call: Callable[[ctypes.Array[Any], int, c_size_t], Any], reason: Optional[str] = None
) -> bytes:
    """Returns the bytes that a call makes of inputs of so many bytes. It is made anew once if they don't fit."""
    written, number = c_size_t(), 0

    def write(out: ctypes.Array[Any]) -> int:
        nonlocal number
        number = call(out, len(out), written)
        return 0 if number else written.value

    made = _written_bytes(room + 400, write)
    if number == _SHORT:
        made = _written_bytes(written.value, write)
    _check(number, reason)
    return made


def _written_bytes(room: int, write: Callable[[ctypes.Array[c_char]], int]) -> bytes:
    """Returns what is written to the front of memory of so many bytes, and does not copy it.

    Pages that no one writes to cost nothing, and no one else has the bytes before they are returned.
    """
    made = c_void_p(_new_bytes(None, room))
    try:
        address = _address_of_bytes(made)
        _advise_large_pages(address, room)
        _resize_bytes(byref(made), write((c_char * room).from_address(address)))
        whole: bytes = ctypes.cast(made, ctypes.py_object).value
        return whole
    finally:
        # A call that fails to resize them leaves none.
        if made:
            _release(made)
