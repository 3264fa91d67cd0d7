#!/usr/bin/env python3
"""Looks files and runs of chunks up in shards on a web server, of which it reads parts.

A lookup takes three requests at most: for both ends of the shard, which say where the tables are, for a table, and for
the records to which its rows lead. Ends and tables are kept, so one more lookup in a table takes one request. The
server has to know ranges, and several in one request, as nginx does; one that does not sends the whole shard, once. If
it redirects a request, as hubs do, that takes one more, and what follows is asked at the other place.
"""
from __future__ import annotations

import argparse
import re
import struct
import sys
from bisect import bisect_right
from email.message import Message
from functools import cached_property
from http.client import HTTPConnection, HTTPException, HTTPResponse, HTTPSConnection, parse_headers
from io import BytesIO
from typing import Dict, Iterable, Iterator, List, NamedTuple, Optional, Sequence, Tuple, Type
from urllib.parse import urljoin, urlsplit

import xet_shards

# The bytes of the header, of the footer, and of a row of a section, of the file table and of the chunk table.
HEADER, FOOTER, ROW, FILE_ROW, CHUNK_ROW = 48, 200, 48, 12, 16
# Where the footer says where the xorb section starts.
XORB_SECTION = slice(16, 24)
# The statuses of a redirect, and how many in a row are followed.
REDIRECTS, MOST_REDIRECTS = (301, 302, 303, 307, 308), 10

# From where to where, without the last. A start below 0 counts from the end, which is then the other one.
Range = Tuple[int, int]


class Part(NamedTuple):
    """Bytes of a file, where they start in it, and how many it has."""

    start: int
    content: bytes
    size: int

    def cut(self, start: int, stop: int) -> Optional[bytes]:
        """Returns the bytes of the file in a range, if they are all in this part."""
        start, stop = (max(self.size + start, 0), self.size) if start < 0 else (start, min(stop, self.size))
        first, last = start - self.start, stop - self.start
        return self.content[first:last] if 0 <= first and last <= len(self.content) else None


class RemoteFile:
    """A file on a web server, of which ranges are read: how many bytes it has, and how many requests and bytes came."""

    def __init__(self, url: str) -> None:
        self._go_to(url)
        self._headers: Dict[str, str] = {}
        # The one part that a server sends that knows no ranges.
        self._whole: List[Part] = []
        self.size = self.requests = self.bytes = 0

    def _go_to(self, url: str) -> None:
        parts = urlsplit(url)
        kind: Type[HTTPConnection] = HTTPSConnection if parts.scheme == "https" else HTTPConnection
        self._connection = kind(parts.netloc, timeout=60)
        self._url = url
        self._path = (parts.path or "/") + (f"?{parts.query}" if parts.query else "")

    def read(self, *ranges: Range) -> List[bytes]:
        """Returns the bytes in some ranges, by one request. Of a range that passes the end they are fewer."""
        parts = self._whole or self._parts(ranges)
        return [cut(parts, *it) for it in ranges]

    def _parts(self, ranges: Sequence[Range]) -> List[Part]:
        asked = ",".join(str(start) if start < 0 else f"{start}-{stop - 1}" for start, stop in ranges)
        response = self._response(asked)
        # What is left of an answer would be in the way of the next.
        parts = list(parts_of(response, response.read()))
        self.requests += 1
        self.bytes += sum(len(it.content) for it in parts)
        self.size = parts[0].size if parts else 0
        etag = response.headers["ETag"]
        if etag and not etag.startswith("W/"):
            # The parts of a shard are to be of one: if it is another by then, the next request fails.
            self._headers["If-Match"] = etag
        if response.status == 200:
            self._whole = parts
        return parts

    def _response(self, ranges: str) -> HTTPResponse:
        try:
            return self._sent(ranges)
        except ConnectionError:
            # The server closes a connection that was not used for a while.
            self._connection.close()
            return self._sent(ranges)

    def _sent(self, ranges: str) -> HTTPResponse:
        for _ in range(MOST_REDIRECTS + 1):
            self._connection.request("GET", self._path, headers={**self._headers, "Range": f"bytes={ranges}"})
            response = self._connection.getresponse()
            place = response.headers["Location"]
            if response.status not in REDIRECTS or not place:
                return response
            self.requests += 1
            self._connection.close()
            self._go_to(urljoin(self._url, place))
        raise HTTPException("the server redirects too often")


def cut(parts: Iterable[Part], start: int, stop: int) -> bytes:
    for part in parts:
        content = part.cut(start, stop)
        if content is not None:
            return content
    raise HTTPException("the server leaves out a range")


def parts_of(response: HTTPResponse, body: bytes) -> Iterator[Part]:
    """Gives the parts of a file that an answer has: those that were asked for, in any order, or the whole."""
    rest = BytesIO(body)
    if response.status == 200:
        yield Part(0, body, len(body))
    elif response.status != 206:
        raise HTTPException(f"the server answers {response.status} {response.reason}")
    elif response.headers.get_content_type() != "multipart/byteranges":
        yield part_of(rest, response.headers)
    else:
        boundary = f"--{response.headers.get_boundary()}".encode()
        for line in iter(rest.readline, b""):
            if line.rstrip() == boundary:
                yield part_of(rest, parse_headers(rest))


def part_of(rest: BytesIO, headers: Message) -> Part:
    found = re.fullmatch(r"bytes (\d+)-(\d+)/(\d+)", headers["Content-Range"] or "")
    if not found:
        raise HTTPException("the server does not say of a part where it is")
    start, last, size = map(int, found.groups())
    content = rest.read(last - start + 1)
    if len(content) != last - start + 1:
        raise HTTPException("the answer ends too early")
    return Part(start, content, size)


class RemoteShard:
    """A shard on a web server. `file` counts the requests and the bytes that lookups take."""

    def __init__(self, url: str) -> None:
        self.file = RemoteFile(url)

    @cached_property
    def ends(self) -> List[bytes]:
        """The header and the footer."""
        return self.file.read((0, HEADER), (-FOOTER, 0))

    @cached_property
    def info(self) -> xet_shards.Info:
        return xet_shards.load(b"".join(self.ends))

    @cached_property
    def file_table(self) -> bytes:
        return self._table(self.info.file_table, FILE_ROW * self.info.files)

    @cached_property
    def chunk_table(self) -> bytes:
        return self._table(self.info.chunk_table, CHUNK_ROW * self.info.chunks)

    def _table(self, start: int, size: int) -> bytes:
        return self.file.read((start, start + size))[0] if size else b""

    def find_file(self, file_hash: str) -> Optional[xet_shards.File]:
        """Returns the file with this hash, or None. A shard without a table of files has none that is found."""
        rows = xet_shards.find_rows(self.file_table, file_hash)
        starts = (row for _, row in struct.iter_unpack("<QI", self.file_table))
        for record in self._records(self.info.file_section, self.info.xorb_section, starts, rows):
            found = xet_shards.file_in(record, self.info.version)
            if found and found[0].hash == file_hash.lower():
                return found[0].file
        return None

    def query_chunks(self, hashes: Sequence[str]) -> Optional[xet_shards.Run]:
        """Returns the longest run of chunks with these hashes, which are not keyed, or None.

        It has at least the first. A shard without a table of chunks has none that is found.
        """
        if not hashes or not self.info.chunks:
            return None
        keyed = hashes[0] if self.info.key == xet_shards.NO_KEY else xet_shards.hmac(self.info.key, hashes[0])
        places = xet_shards.find_places(self.chunk_table, keyed)
        # A xorb can have the chunk more than once.
        rows = sorted({row for row, _ in places})
        starts = (row for _, row, _ in struct.iter_unpack("<QII", self.chunk_table))
        records = dict(zip(rows, self._records(self.info.xorb_section, self.info.file_table, starts, rows)))
        runs = [xet_shards.query_at(self._alone(records[row]), hashes, 0, index) for row, index in places]
        found = [it for it in runs if it]
        return max(found, key=lambda it: it.count) if found else None

    def _records(self, start: int, end: int, starts: Iterable[int], rows: Sequence[int]) -> List[bytes]:
        """Returns the records at some rows of a section, by one request.

        They end where the next record starts that a table knows, or where the section does.
        """
        ordered = [*sorted(starts), (end - start) // ROW]
        stops = [ordered[bisect_right(ordered, row, hi=len(ordered) - 1)] for row in rows]
        if any(stop <= row for row, stop in zip(rows, stops)):
            raise ValueError("a row of a table leads out of its section")
        ranges = [(start + ROW * row, start + ROW * stop) for row, stop in zip(rows, stops)]
        return self.file.read(*ranges) if ranges else []

    def _alone(self, xorb: bytes) -> bytes:
        """Returns the bytes of a shard in which a lookup at row 0 of the xorb section finds this record."""
        header, footer = self.ends[0], bytearray(self.ends[1])
        footer[XORB_SECTION] = struct.pack("<Q", HEADER)
        return header + xorb + footer


def main() -> None:
    parser = argparse.ArgumentParser(description=__doc__, formatter_class=argparse.RawDescriptionHelpFormatter)
    parser.add_argument("urls", nargs="+", metavar="URL", help="of a shard")
    parser.add_argument("--file", metavar="HASH", help="the file that is looked for")
    parser.add_argument("--chunks", nargs="+", metavar="HASH", help="the chunks of which a run is looked for")
    given = parser.parse_args()
    for url in given.urls:
        try:
            shard = RemoteShard(url)
            print(f"{url}: {shard.info.files} files, {shard.info.xorbs} xorbs, {shard.info.chunks} chunks")
            if given.file:
                file = shard.find_file(given.file)
                print(f"{len(file.segments)} segments" if file else "no such file")
            if given.chunks:
                run = shard.query_chunks(given.chunks)
                print(f"{run.count} chunks, from {run.segment.start} of {run.segment.xorb}" if run else "no such chunk")
        except (OSError, HTTPException, ValueError, xet_shards.XetError) as error:
            sys.exit(f"range_reads.py: {url}: {error}")
        print(f"{shard.file.requests} requests, {shard.file.bytes} of {shard.file.size} bytes")


if __name__ == "__main__":
    main()
