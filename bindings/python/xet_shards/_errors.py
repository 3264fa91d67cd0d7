"""Errors of calls."""
from __future__ import annotations

from dataclasses import dataclass
from typing import Any, Optional, Tuple

_NAMES = (
    "Io", "InternalError", "Other", "TruncatedHashCollision", "ShardVersion", "BadFilename", "ShardNotFound",
    "FileNotFound", "QueryFailed", "SmudgeQueryPolicy", "InvalidShard", "InvalidRange", "InvalidArguments",
    "MalformedData", "HashMismatch", "HashParsing", "ChunkHeaderParse", "OutOfMemory", "Short", "Disagree",
    "Malformed",
)
_IO = 1
_INTERNAL_ERROR = 2
_INVALID_SHARD = 11
_INVALID_ARGUMENTS = 13
_OUT_OF_MEMORY = 18
_SHORT = 19
_DISAGREE = 20
_MALFORMED = 21
# Why calls do not admit their arguments.
_OTHER_KEYS = "the keys of the shards differ"
_NEW_ROWS = "a file has a row that the version does not have"
_NO_WHOLE_ROWS = "the bytes are no whole rows of a table"
# Of the errors that calls raise.
_SENTENCES = {
    "Io": "the bytes end too early, or verification rows are missing",
    "InternalError": "a row of a table leads to the end of a section",
    "TruncatedHashCollision": "eight or more files share the first word of the hash",
    "ShardVersion": "the bytes are no shard of version 2 or 3",
    "BadFilename": "the text is not the name of a shard file",
    "InvalidShard": "the bytes are not a valid shard, or two shards have no union",
    "InvalidArguments": "the call does not admit its arguments",
    "HashParsing": "the text is not the 64 hexadecimal digits of a hash",
    "OutOfMemory": "an allocation failed",
    "Disagree": "two shards that have to agree do not",
    "Malformed": "a shard that has to be well-formed is not",
}


class XetError(Exception):
    """A call failed: `number` is that of enum xet_error in xet.h, and `name` its name, as `InvalidShard`.

    `index` is the place, in the list of a merge, of the first shard that is the cause by itself, or whose key is not
    that of the first; it is None where several are the cause together, and of other calls. `reason` says why the call
    does not admit its arguments, if the error is `InvalidArguments`. `path` is that of the file of the shard, if the
    call was given one.

    As text it is a sentence, with the name at its end.
    """

    __module__ = __package__

    def __init__(
        self, number: int, index: Optional[int] = None, reason: Optional[str] = None, path: Optional[str] = None
    ) -> None:
        self.number = number
        self.index = index
        self.path = path
        self.reason = reason if number == _INVALID_ARGUMENTS else None
        self.name = _NAMES[number - 1] if 1 <= number <= len(_NAMES) else "Unknown"
        super().__init__(number, index, self.reason, path)

    def __str__(self) -> str:
        place = "" if self.index is None else f"the shard at {self.index}: "
        if self.path is not None:
            place = f"{self.path}: "
        sentence = self.reason or _SENTENCES.get(self.name, f"the library returns {self.number}")
        return f"{place}{sentence} ({self.name})"

    def __reduce__(self) -> Tuple[Any, ...]:
        return XetError, (self.number, self.index, self.reason, self.path)


@dataclass(frozen=True)
class Disagreement:
    """A hash under which two shards have records that do not agree.

    `kind` is "file" or "xorb". `first` and `second` are the places of two such shards in the list. `count` is how many
    such hashes the list has in all.
    """

    kind: str
    hash: str
    first: int
    second: int
    count: int


class DisagreementError(XetError):
    """Shards that have to agree do not: `disagreement` is the first that `find_disagreements` lists.

    `paths` are those of the two shards, if the call was given paths.
    """

    __module__ = __package__

    def __init__(self, disagreement: Disagreement, paths: Optional[Tuple[str, str]] = None) -> None:
        super().__init__(_DISAGREE)
        self.disagreement = disagreement
        self.paths = paths

    def __str__(self) -> str:
        it = self.disagreement
        if self.paths:
            return f"{self.paths[0]} and {self.paths[1]} do not agree on {it.kind} {it.hash} ({self.name})"
        count = f", one of {it.count} hashes that find_disagreements lists" if it.count > 1 else ""
        return f"the shards at {it.first} and {it.second} do not agree on {it.kind} {it.hash}{count} ({self.name})"

    def __reduce__(self) -> Tuple[Any, ...]:
        return DisagreementError, (self.disagreement, self.paths)


@dataclass(frozen=True)
class MalformedRecord:
    """A record that no shard may have, though it can be read.

    It is a file whose header has a reserved word that is not 0 or flags of no known part, or a xorb whose chunks have
    more than 4294967295 bytes together. `kind` is "file" or "xorb", and `index` is the place of the shard in the list.
    """

    kind: str
    hash: str
    index: int


class MalformedError(XetError):
    """A shard that has to be well-formed is not: `record` is why."""

    __module__ = __package__

    def __init__(self, record: MalformedRecord, path: Optional[str] = None) -> None:
        super().__init__(_MALFORMED, record.index, path=path)
        self.record = record

    def __str__(self) -> str:
        it = self.record
        shard = f"the shard at {it.index}" if self.path is None else self.path
        return f"{shard} has a record that no shard may have, of {it.kind} {it.hash} ({self.name})"

    def __reduce__(self) -> Tuple[Any, ...]:
        return MalformedError, (self.record, self.path)


def _reason_of(version: int) -> str:
    """Returns why a call may not admit a version."""
    return _NEW_ROWS if version in (2, 3) else f"there is no version {version}"


def _or_reason_of(version: int) -> str:
    return "" if version == 3 else f", or {_reason_of(version)}"


def _check(number: int, reason: Optional[str] = None) -> None:
    """Raises the error with this number, if it is one. `reason` says what `InvalidArguments` of the call means."""
    if number:
        raise XetError(number, reason=reason)
