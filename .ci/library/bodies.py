"""The wrong bodies of must-fail/, as edits of a crate's sources. .ci/wrong_bodies says how a file of one is written."""
import glob
import os
import re

from .common import TOP, read
from .crates import texts

LINE = re.compile(r"(# function|file|old|new):(?: (.*))?")


class Unfit(Exception):
    """A wrong body cannot be made."""


class WrongBody:
    """The edit of files of src/: the functions that it changes, and the texts that take the place of others."""

    def __init__(self, path):
        self.name = os.path.basename(path).removesuffix(".edit")
        self.functions, self.edits, self.unread = [], [], []
        file = old = None
        for line in read(path).splitlines():
            word, text = found.groups("") if (found := LINE.fullmatch(line)) else ("", line)
            if word == "# function":
                self.functions.append(text)
            elif word == "file" and text.startswith("src/"):
                file = text
            elif word == "old":
                old = text
            elif word == "new" and file and old:
                self.edits.append((file, old, text))
                old = None
            else:
                self.unread.append(line)

    def make(self, texts):
        """Returns the texts of a crate's files with this body made, or raises `Unfit`."""
        if self.unread or not self.functions:
            raise Unfit(f"it names no function, or has a line that is not read: {self.unread}")
        made = dict(texts)
        for file, old, new in self.edits:
            if made.get(file, "").count(old) != 1:
                raise Unfit(f"{file} has this text {made.get(file, '').count(old)} times, and not once: {old}")
            made[file] = made[file].replace(old, new)
        if made == texts:
            raise Unfit("it changes nothing")
        return made


def wrong_bodies():
    """Returns the wrong bodies of each crate that has some, by its name."""
    found = {}
    for path in sorted(glob.glob(f"{TOP}/must-fail/*/*")):
        found.setdefault(path.split("/")[-2], []).append(WrongBody(path))
    return found


def check_fit():
    """Each wrong body of must-fail/ can be made of the sources that are here."""
    unfit = []
    for crate, bodies in wrong_bodies().items():
        there = texts(crate)
        for body in bodies:
            try:
                body.make(there)
            except Unfit as why:
                unfit.append(f"{crate}/{body.name}: {why}")
    return "; ".join(unfit) or None
