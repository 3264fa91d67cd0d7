"""Files that are mapped to memory, and new ones that take their names when they are whole."""
from __future__ import annotations

import contextlib
import mmap
import os
import secrets
from typing import Iterator, Optional, Union

Path = Union[str, bytes, "os.PathLike[str]", "os.PathLike[bytes]"]


def _map_of(path: Path) -> Optional[mmap.mmap]:
    """Returns the map of a file, or None if it is empty, since such a file can't be mapped."""
    with open(path, "rb") as file:
        return mmap.mmap(file.fileno(), 0, access=mmap.ACCESS_READ) if os.fstat(file.fileno()).st_size else None


@contextlib.contextmanager
def _new(target: str) -> Iterator[str]:
    """Gives the path of a new file, which then takes the place of another, or is removed after an error."""
    # Other threads and processes may write to the same target.
    new = f"{target}.{secrets.token_hex(8)}.new"
    try:
        yield new
        os.replace(new, target)
    except BaseException:
        with contextlib.suppress(FileNotFoundError):
            os.unlink(new)
        raise
