"""Runs scripts of vectors/ on the C library, and compares with what they have to print.

The shards of a script are written by examples/made_shards.py, from docs/FORMAT.md alone: so each byte that goes into
the library and each that is expected of it comes from the vectors and the format. The other commands call the library.
"""
import os
import sys

HERE = os.path.dirname(os.path.realpath(__file__))
VECTORS = os.path.join(os.path.dirname(os.path.dirname(os.path.dirname(HERE))), "vectors")
sys.dont_write_bytecode = True
sys.path[:0] = [os.path.dirname(HERE), os.path.join(os.path.dirname(HERE), "examples"), VECTORS]

import xet_shards  # noqa: E402
from made_shards import AUX, SHA256, VERIFICATION, Shard, hash_text, words_of  # noqa: E402, F401
from version3 import adapted  # noqa: E402

class Mismatch(AssertionError):
    """The library's answer is not what is printed."""


class Run:
    """Runs the commands of a script, and compares each answer with the lines that are to be printed."""

    def __init__(self, lines):
        self.lines, self.shards, self.buffers = list(lines), {}, {}
        self.at = ""

    def next_line(self):
        if not self.lines:
            raise Mismatch(f"{self.at}: more is answered than printed")
        return self.lines.pop(0)

    def compare(self, answer, printed):
        if answer != printed:
            raise Mismatch(f"{self.at}: wanted {str(printed)[:200]}, got {str(answer)[:200]}")

    def run(self, script):
        for number, line in enumerate(script.splitlines(), 1):
            words = line.replace("(", " ( ").replace(")", " ) ").split()
            if not words or line.startswith("#"):
                continue
            self.at = f"line {number}, {line[:60]}"
            try:
                getattr(self, words[0])(*words[1:])
            except xet_shards.XetError as error:
                self.compare(f"refused: {error.name}", " ".join(self.next_line().split()[:2]))
                break
        if self.lines:
            raise Mismatch(f"{self.at}: {len(self.lines)} lines are not answered")
        return self

    def shard(self, name):
        self.shards[name] = Shard()

    def xorb(self, name, *words):
        self.shards[name].add_xorb(*words)

    def file(self, name, *words):
        self.shards[name].add_file(*words)

    def write(self, name, into, expiry=2**64 - 1):
        self.buffers[into] = made = self.shards[name].written(int(expiry))
        # The program mdb, which takes the module's place for .ci/mdb, has no command for this.
        if not hasattr(xet_shards, "write"):
            return
        # The library writes the same of these records, whatever their order.
        files, xorbs = list(xet_shards.files(made)), list(xet_shards.xorbs(made))
        self.compare(xet_shards.write(files[::-1], xorbs[::-1], int(expiry)), made)

    def write2(self, name, into, expiry=2**64 - 1):
        self.buffers[into] = self.shards[name].written(int(expiry), 2)

    def union(self, first, second, into):
        self.buffers[into] = xet_shards.union(self.buffers[first], self.buffers[second])

    def diff(self, first, second, into):
        self.buffers[into] = xet_shards.difference(self.buffers[first], self.buffers[second])

    def merge(self, into, *words):
        left = list(words)

        def tree():
            word = left.pop(0)
            if word != "(":
                return self.buffers[word]
            first, second = tree(), tree()
            left.pop(0)
            return xet_shards.union(first, second)

        self.buffers[into] = tree()

    def export(self, name, into, key, now, valid, parts, aux=True):
        key = xet_shards.NO_KEY if key == "0" else hash_text(key)
        files, xorbs, chunks = (it != "-" for it in parts)
        self.buffers[into] = xet_shards.export(
            self.buffers[name], key, int(now), int(valid), files, aux, xorbs, chunks
        )

    def drop(self, *words):
        self.export(*words, aux=False)

    def minimal(self, name, into, now, parts, aux=True):
        self.buffers[into] = xet_shards.minimal(self.buffers[name], int(now), parts == "v", aux)

    def dropmin(self, *words):
        self.minimal(*words, aux=False)

    def subset(self, name, into, now, expiry, *words):
        listed = None if words == ("*",) else [hash_text(it) for it in words]
        expiry = None if expiry == "-" else int(expiry)
        self.buffers[into] = xet_shards.subset(self.buffers[name], int(now), expiry, listed)

    def eligible(self, name):
        for text in xet_shards.eligible(self.buffers[name]):
            self.compare(text, self.next_line())

    def query(self, name, *words):
        found = xet_shards.query_chunks(self.buffers[name], [hash_text(it) for it in words])
        answer = "none"
        if found:
            it = found.segment
            answer = f"run {found.count} {it.xorb} {it.start} {it.end} {it.bytes}"
        self.compare(answer, self.next_line())

    def find(self, name, text):
        found = xet_shards.find_file(self.buffers[name], hash_text(text))
        printed = self.next_line()
        if not found:
            return self.compare("none", printed)
        _, text_of, _, flags, _, count, _, size = printed.split()
        self.compare(hash_text(text), text_of)
        self.compare((len(found.segments), sum(it.bytes for it in found.segments)), (int(count), int(size)))
        for it in found.segments:
            self.compare(f"seg {it.xorb} {it.start} {it.end} {it.bytes}", self.next_line())
        if int(flags) & VERIFICATION:
            for it in found.segments:
                self.compare(f"ver {it.verification}", self.next_line())
        else:
            self.compare([None] * int(count), [it.verification for it in found.segments])
        for name, text_of, bit in (("sha", found.sha256, SHA256), ("aux", found.aux_hash, AUX)):
            self.compare(text_of is not None, bool(int(flags) & bit))
            if text_of is not None:
                self.compare(f"{name} {text_of}", self.next_line())
        return None

    def size(self, name):
        self.compare(str(len(self.buffers[name])), self.next_line())

    def hex(self, name, start=0, length=None):
        end = None if length is None else int(start) + int(length)
        self.compare(self.buffers[name][int(start) : end].hex(), self.next_line())


def read(folder, name):
    """Returns a script of a folder, and the lines that it has to print."""
    texts = []
    for ending in ("script", "stdout"):
        with open(f"{VECTORS}/{folder}/{name}.{ending}", encoding="ascii", newline="") as file:
            texts.append(file.read())
    script, output = texts
    return script, (adapted(script, output) if folder == "original" else output).splitlines()


def run(folder, name):
    """Runs a script of a folder, and returns the run."""
    script, lines = read(folder, name)
    return Run(lines).run(script)
