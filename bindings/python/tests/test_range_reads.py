"""Tests of examples/range_reads.py, against servers that answer requests for ranges, and also against nginx if it is
installed. The answers are those of the library over the whole shard.

Runs with pytest, or as a program, which ends with the line 'N passed, M failed'.
"""
import contextlib
import http.server
import os
import pathlib
import re
import shutil
import socket
import subprocess
import sys
import tempfile
import threading
import time
import unittest
from http.client import HTTPException

sys.dont_write_bytecode = True
sys.path.insert(0, os.path.dirname(os.path.realpath(__file__)))

import scripts  # noqa: E402
from scripts import hash_text, xet_shards  # noqa: E402
from test_vectors import main, raises, refused, shard_of  # noqa: E402

import range_reads  # noqa: E402

EXAMPLES = os.path.join(os.path.dirname(scripts.HERE), "examples")
KEY = hash_text("7")


def shard():
    """Returns a shard of 300 files and 40 xorbs. The first words of some hashes are equal."""
    files = [f"file {it} s=365 {10 + it % 40}:0:{1 + it % 9}:{it}" for it in range(1000, 1290)]
    files += [f"file {5000:016x}{it:016x}{0:032x} {10 + it}:0:1:{it}" for it in range(7)]
    files += ["file 2000 " + " ".join(f"{it}:0:1:9" for it in range(10, 210)), "file 2001", f"file {'ff' * 31}fe"]
    chunks = {it: [100 * it + at for at in range(20)] for it in range(10, 50)}
    # Three of their chunks are also elsewhere, with the next ones or without.
    chunks[49] = [1003, 1004, 1500, 1003, 1004, 1005, 1006]
    xorbs = [f"xorb {it} {' '.join(f'{at}:{at % 7 + 1}' for at in hashes)}" for it, hashes in chunks.items()]
    return shard_of(*files, *xorbs, "xorb 60")


SHARD = shard()


def many_places():
    """Returns a shard of nine xorbs with one chunk each, of one hash."""
    return shard_of(*(f"xorb {it} 21:5" for it in range(10, 19)))


class Handler(http.server.BaseHTTPRequestHandler):
    """Answers with ranges of the files of its server, in the way that the first part of the path says."""

    protocol_version = "HTTP/1.1"

    def do_GET(self):
        self.server.requests += 1
        way, name = self.path.strip("/").split("/")
        if way == "moved":
            return self.answer(302, b"moved\n", {"Location": self.server.moves[name]})
        content = self.server.contents.get(name)
        etag = f'"{hash(content)}"'
        if content is None:
            return self.answer(404, b"", {})
        if self.headers["If-Match"] not in (None, etag):
            return self.answer(412, b"another file\n", {})
        tagged = {} if way == "untagged" else {"ETag": etag}
        ranges = self.ranges(self.headers["Range"], len(content))
        if way == "whole" or ranges is None:
            return self.answer(200, content, tagged)
        if not ranges:
            return self.answer(416, b"", {"Content-Range": f"bytes */{len(content)}"})
        if way == "united":
            ranges = [(min(ranges)[0], max(stop for _, stop in ranges))]
        if way == "turned":
            ranges.reverse()
        if way == "fewer":
            del ranges[1:]
        places = [f"bytes {start}-{stop - 1}/{len(content)}" for start, stop in ranges]
        if len(ranges) == 1:
            place = {} if way == "unplaced" else {"Content-Range": places[0]}
            return self.answer(206, content[slice(*ranges[0])], {**tagged, **place})
        kind = "Content-Type: application/octet-stream"
        parts = [
            f"\r\n--edge\r\n{kind}\r\nContent-Range: {place}\r\n\r\n".encode() + content[slice(*it)]
            for it, place in zip(ranges, places)
        ]
        body = b"".join(parts) + b"\r\n--edge--\r\n"
        self.answer(206, body, {**tagged, "Content-Type": "multipart/byteranges; boundary=edge"})
        if way == "closing":
            # Without a word, as after a time without requests.
            self.close_connection = True

    @staticmethod
    def ranges(text, size):
        if text is None:
            return None
        ranges = []
        for first, last in re.findall(r"(\d*)-(\d*)(?:,|$)", text.partition("=")[2]):
            ranges.append((int(first), min(int(last) + 1, size)) if first else (max(size - int(last), 0), size))
        return [it for it in ranges if it[0] < it[1]]

    def answer(self, status, body, headers):
        self.send_response(status)
        self.send_header("Content-Length", str(len(body)))
        for it in headers.items():
            self.send_header(*it)
        self.end_headers()
        self.wfile.write(body)

    def log_message(self, *_):
        pass


@contextlib.contextmanager
def serving(**contents):
    """Gives a server of some files, which counts requests. Its `moves` say where files are that moved."""
    with http.server.ThreadingHTTPServer(("127.0.0.1", 0), Handler) as server:
        server.daemon_threads, server.contents, server.requests, server.moves = True, contents, 0, {}
        threading.Thread(target=server.serve_forever, kwargs={"poll_interval": 0.01}, daemon=True).start()
        try:
            yield server
        finally:
            server.shutdown()


def url(server, way, name):
    return f"http://127.0.0.1:{server.server_port}/{way}/{name}"


def test_files():
    there = [hash_text(it) for it in ("1000", "1123", "2000", "2001")] + ["ff" * 31 + "fe", "FF" * 31 + "FE"]
    there += [f"{5000:016x}{it:016x}{0:032x}" for it in (0, 6)]
    with serving(a=SHARD) as server:
        for way in ("parts", "turned", "united", "untagged", "closing"):
            # The last two have no row in the table of files.
            for it in [*there, f"{5000:016x}{9:016x}{0:032x}", hash_text("3000"), "0" * 64]:
                before, remote = server.requests, range_reads.RemoteShard(url(server, way, "a"))
                found = remote.find_file(it)
                assert found == xet_shards.find_file(SHARD, it) and (found is not None) == (it in there), it
                requests = 2 if it in (hash_text("3000"), "0" * 64) else 3
                assert server.requests - before == remote.file.requests == requests


def test_bytes_and_requests():
    with serving(a=SHARD) as server:
        remote = range_reads.RemoteShard(url(server, "parts", "a"))
        assert remote.find_file(hash_text("1001")).segments[0].bytes == 1001
        # Both ends, 300 rows of 12 bytes, and a record of three rows.
        assert (remote.file.requests, remote.file.bytes) == (3, 248 + 3600 + 144) and remote.info.files == 300
        # A header and 200 segments.
        assert len(remote.find_file(hash_text("2000")).segments) == 200
        assert (remote.file.requests, remote.file.bytes) == (4, 248 + 3600 + 144 + 201 * 48)
        assert remote.find_file(hash_text("1999")) is None and remote.file.requests == 4
        remote = range_reads.RemoteShard(url(server, "parts", "a"))
        assert remote.query_chunks([hash_text("1100")]).segment.xorb == hash_text("11")
        # 787 rows of 16 bytes, and a header and 20 chunks.
        assert (remote.file.requests, remote.file.bytes) == (3, 248 + 787 * 16 + 21 * 48) and remote.info.chunks == 787
        assert remote.query_chunks([hash_text("1200")]).count == 1 and remote.file.requests == 4
        assert server.requests == 8


def test_chunks():
    def hashes(*words):
        return [hash_text(str(it)) for it in words]

    with serving(a=SHARD, keyed=xet_shards.export(SHARD, KEY, 0, 60), many=many_places()) as server:
        for name in ("a", "keyed"):
            # How many rows are read: a xorb has 21, the last that has chunks 8, and behind it are two more.
            for wanted, rows, count, xorb, start in (
                (hashes(1003, 1004, 1005, 1006, 1007), 31, 5, "10", 3), (hashes(1003, 1004, 1500), 31, 3, "49", 0),
                (hashes(1500, 1003, 1004, 1005, 1), 31, 4, "49", 2), (hashes(4819, 4900), 21, 1, "48", 19),
                (hashes(1600), 21, 1, "16", 0), (hashes(4920), 0, 0, None, None), (hashes(7, 1003), 0, 0, None, None),
            ):
                before, remote = server.requests, range_reads.RemoteShard(url(server, "parts", name))
                run = remote.query_chunks(wanted)
                assert (run.count if run else 0) == count
                if run:
                    segment = run.segment
                    assert (segment.xorb, segment.start, segment.end) == (hash_text(xorb), start, start + count)
                    assert run == xet_shards.query_at(server.contents[name], wanted, 21 * (int(xorb) - 10), start)
                assert server.requests - before == remote.file.requests == 2 + (count > 0)
                assert remote.file.bytes == 248 + 787 * 16 + rows * 48
        # The first word alone does not do.
        assert range_reads.RemoteShard(url(server, "parts", "a")).query_chunks([f"{1003:016x}" + "9" * 48]) is None
        remote = range_reads.RemoteShard(url(server, "parts", "many"))
        assert remote.query_chunks(hashes(21)).count == 1 and remote.query_chunks([]) is None
        # Eight of nine records of two rows each.
        assert (remote.file.requests, remote.file.bytes) == (3, 248 + 9 * 16 + 8 * 96)


def test_shards_without_tables():
    shards = {
        "minimal": xet_shards.minimal(SHARD, 0), "none": shard_of(),
        "bare": xet_shards.export(SHARD, KEY, 0, 60, files=False, chunk_table=False),
    }
    with serving(**shards) as server:
        for name in shards:
            remote = range_reads.RemoteShard(url(server, "parts", name))
            assert remote.find_file(hash_text("1000")) is remote.query_chunks([hash_text("1003")]) is None
            assert (remote.file.requests, remote.file.bytes) == (1, 248)


def test_a_server_without_ranges():
    with serving(a=SHARD) as server:
        remote = range_reads.RemoteShard(url(server, "whole", "a"))
        assert remote.find_file(hash_text("1001")) == xet_shards.find_file(SHARD, hash_text("1001"))
        assert remote.query_chunks([hash_text("1100")]).count == 1
        assert (remote.file.requests, remote.file.bytes, server.requests) == (1, len(SHARD), 1)


def test_redirects():
    with serving(a=SHARD) as there, serving() as server:
        server.moves = {"a": url(there, "parts", "a"), "again": "/moved/a", "round": "round"}
        for name, redirects in (("a", 1), ("again", 2)):
            server.requests = there.requests = 0
            remote = range_reads.RemoteShard(url(server, "moved", name))
            assert remote.find_file(hash_text("1001")) == xet_shards.find_file(SHARD, hash_text("1001")) is not None
            # Only the first request is redirected.
            assert (server.requests, there.requests, remote.file.requests) == (redirects, 3, redirects + 3)
        remote = range_reads.RemoteShard(url(server, "moved", "round"))
        assert "redirects too often" in str(raises(HTTPException, remote.find_file, hash_text("1001")))


def test_failures():
    cut, text = SHARD[:100], b"no shard" * 50
    lost = bytearray(SHARD)
    # The row of the first file in the table of files.
    lost[xet_shards.load(SHARD).file_table + 8] = lost[xet_shards.load(SHARD).file_table + 10] = 255
    with serving(a=SHARD, cut=cut, text=text, lost=bytes(lost)) as server:
        def ask(way, name):
            return range_reads.RemoteShard(url(server, way, name)).find_file(hash_text("1000"))

        for way in ("fewer", "unplaced"):
            raises(HTTPException, ask, way, "a")
        assert "404" in str(raises(HTTPException, ask, "parts", "b"))
        refused("Io", ask, "parts", "cut")
        refused("ShardVersion", ask, "parts", "text")
        raises(ValueError, ask, "parts", "lost")
        # Another shard takes its place after the first lookup.
        remote = range_reads.RemoteShard(url(server, "parts", "a"))
        assert remote.find_file(hash_text("1000"))
        server.contents["a"] = shard_of("file 1000")
        assert "412" in str(raises(HTTPException, remote.find_file, hash_text("1001")))
        server.contents["a"] = SHARD
        assert remote.find_file(hash_text("1001"))
    raises(ConnectionError, ask, "parts", "a")


def test_program():
    def run(*words):
        words = [sys.executable, f"{EXAMPLES}/range_reads.py", *words]
        env = {**os.environ, "PYTHONPATH": os.pathsep.join(sys.path)}
        return subprocess.run(words, env=env, capture_output=True, text=True, check=False)

    with serving(a=SHARD, b=many_places()) as server:
        urls = [url(server, "parts", it) for it in "ab"]
        done = run(*urls, "--file", hash_text("2000"), "--chunks", hash_text("1100"), hash_text("1101"))
        assert done.stdout.splitlines() == [
            f"{urls[0]}: 300 files, 41 xorbs, 787 chunks", "200 segments", f"2 chunks, from 0 of {hash_text('11')}",
            f"5 requests, {248 + 3600 + 201 * 48 + 787 * 16 + 21 * 48} of {len(SHARD)} bytes",
            f"{urls[1]}: 0 files, 9 xorbs, 9 chunks", "no such file", "no such chunk",
            f"2 requests, {248 + 9 * 16} of {len(many_places())} bytes",
        ], done
        missing = url(server, "parts", "c")
        assert run(missing).stderr == f"range_reads.py: {missing}: the server answers 404 Not Found\n"


def free_port():
    with socket.create_server(("127.0.0.1", 0)) as free:
        return free.getsockname()[1]


@contextlib.contextmanager
def nginx(folder, port):
    """Runs nginx over the files of a folder, until it is left."""
    places = [f"{it}_temp_path {folder}/temp;" for it in ("client_body", "proxy", "fastcgi", "uwsgi", "scgi")]
    server = f"access_log off; root {folder}; server {{ listen 127.0.0.1:{port}; }} {' '.join(places)}"
    config = f"daemon off; pid {folder}/pid; error_log {folder}/log; events {{}} http {{ {server} }}"
    pathlib.Path(folder, "config").write_text(config)
    words = ["nginx", "-c", f"{folder}/config", "-p", folder, "-e", f"{folder}/log"]
    with subprocess.Popen(words, stderr=subprocess.DEVNULL) as server:
        try:
            for _ in range(500):
                with contextlib.suppress(OSError), socket.create_connection(("127.0.0.1", port)):
                    break
                time.sleep(0.01)
            yield
        finally:
            server.terminate()


def test_nginx():
    if not shutil.which("nginx"):
        raise unittest.SkipTest("nginx is not there")
    with tempfile.TemporaryDirectory() as folder:
        # Its workers may be of another user.
        os.chmod(folder, 0o755)
        for name, content in (("a.mdb", SHARD), ("many.mdb", many_places()), ("none.mdb", shard_of())):
            pathlib.Path(folder, name).write_bytes(content)
        port = free_port()
        with nginx(folder, port):
            for it in ("1000", "2000", "5000", "3000"):
                remote = range_reads.RemoteShard(f"http://127.0.0.1:{port}/a.mdb")
                assert remote.find_file(hash_text(it)) == xet_shards.find_file(SHARD, hash_text(it))
                assert remote.file.requests <= 3
            shared = f"{5000:016x}{6:016x}{0:032x}"
            assert remote.find_file(shared) == xet_shards.find_file(SHARD, shared) is not None
            remote = range_reads.RemoteShard(f"http://127.0.0.1:{port}/many.mdb")
            assert remote.query_chunks([hash_text("21")]).count == 1
            assert (remote.file.requests, remote.file.bytes) == (3, 248 + 9 * 16 + 8 * 96)
            remote = range_reads.RemoteShard(f"http://127.0.0.1:{port}/none.mdb")
            assert remote.find_file(hash_text("1000")) is None and remote.file.requests == 1


if __name__ == "__main__":
    sys.exit(main(dict(globals())))
