"""What is wrong with the bytes of a shard."""
from __future__ import annotations

from ctypes import byref
from dataclasses import dataclass
from typing import List, Optional

from ._calls import _library
from ._memory import Buffer, _Addresses, _filled
from ._structs import _Finding

# What enum xet_finding_kind and enum xet_part of xet.h name, and the kinds that have a number.
_KINDS = dict(enumerate((
    "no_tag other_version no_footer too_short cut refused out_of_order differs other_size malformed_record reordered"
).split(), 1))
_PARTS = dict(enumerate("header file_section xorb_section file_table xorb_table chunk_table footer".split(), 1))
_NUMBERED = (2, 7, 9, 10)


@dataclass(frozen=True)
class Finding:
    """What is wrong with the bytes of a shard: `kind` is that of enum xet_finding_kind in xet.h, as `out_of_order`.

    `part` is the part of the shard, as `file_section`, and `number` what belongs to the kind, where it has them.
    `reordered` is a note, and no fault: nothing is lost. A library that is newer than this module may know more: then
    `kind` is `unknown`, and `number` that of the kind in xet.h, or `part` is `unknown`.
    """

    kind: str
    part: Optional[str]
    number: Optional[int]

    @property
    def is_note(self) -> bool:
        """Whether this is a note, and no fault."""
        return self.kind == "reordered"


def check(shard: Buffer) -> List[Finding]:
    """Returns all that is wrong with the bytes of a shard.

    The list is empty if they are, byte for byte, what the library writes of the records in them, in their version and
    with their key, their times and the tables of which the footer says that they have rows, and if the hashes ascend
    and a shard may have each record.

    The original leaves rows of the chunk table that share a first word in any order. So of a shard that it wrote, in
    which a chunk occurs more than once, there is mostly the note `reordered`, which is no fault (`is_note`): the bytes
    are as above but for this order.
    """
    with _Addresses(shard) as [data]:
        found = _filled(_Finding, 16, lambda out, room, written: _library.xet_check(*data, out, room, byref(written)))
    return [_finding(it) for it in found]


def _finding(found: _Finding) -> Finding:
    part = _PARTS.get(found.part, "unknown") if found.part else None
    if found.kind not in _KINDS:
        return Finding("unknown", part, found.kind)
    return Finding(_KINDS[found.kind], part, found.number if found.kind in _NUMBERED else None)
