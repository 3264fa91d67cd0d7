#!/usr/bin/env python3
"""Opens pages of `mdb report` in headless Chromium, and looks for their texts, plots and what they load. Used by .ci/mdb.

Chromium is Debian's package `chromium`; `.ci/mdb` says so if it is missing. Alone: python3 .ci/mdb_report_page.py
PROGRAM FOLDER SCREENSHOT, which prints the page of a folder as Chromium has it, and writes a picture of it.
"""
import html.parser
import os
import shutil
import subprocess
import sys

from library.common import Skip
from mdb_system import wants

BROWSERS = ("chromium", "chromium-browser", "google-chrome")
# Elements that may load something, and attributes that do.
LOADING = {"script", "link", "img", "iframe", "object", "embed", "audio", "video", "source", "use", "image", "base"}
ADDRESSES = {"src", "href", "xlink:href", "srcset", "action", "data", "poster", "background"}


def browser():
    return next(filter(None, map(shutil.which, BROWSERS)), None)


def opened(page, folder, *words):
    """Returns what Chromium prints of a page."""
    command = [browser(), "--headless", "--no-sandbox", "--disable-gpu", "--hide-scrollbars"]
    command += [f"--user-data-dir={folder}/profile", *words, f"file://{page}"]
    run = subprocess.run(command, capture_output=True, timeout=60, check=True, cwd=folder)
    return run.stdout.decode()


class Page(html.parser.HTMLParser):
    """The elements of a page and its text."""

    def __init__(self, text):
        super().__init__()
        self.elements, self.words, self.open = [], [], []
        self.feed(text)

    def handle_starttag(self, tag, attrs):
        self.elements.append((tag, dict(attrs)))
        self.open.append(tag)

    def handle_data(self, data):
        if "style" not in self.open[-1:]:
            self.words.append(data)

    def handle_endtag(self, tag):
        if tag in self.open:
            while self.open.pop() != tag:
                pass

    def count(self, tag):
        return sum(it == tag for it, _ in self.elements)

    def text(self):
        return " ".join(" ".join(self.words).split())

    def loaded(self):
        """What may be loaded or run."""
        found = [it for it, _ in self.elements if it in LOADING]
        for _, attrs in self.elements:
            found += [f"{name}={value}" for name, value in attrs.items() if name in ADDRESSES or name.startswith("on")]
        return found


def page_is_shown(place):
    if not browser():
        raise Skip("chromium is not there")
    os.mkdir(place.path("in"))
    names = ("both.mdb", "left.mdb", "keyed.mdb", "minimal.mdb", "one_of_each.mdb", "text.mdb")
    for name in names:
        place.write(f"in/{name}", place.made[name])
    odd = '<b>"&"\x1b.mdb'
    place.write(f"in/{odd}", place.made["plain.mdb"])
    run = place.run("report", "in", "-o", "page.html", "--now", "1700000000")
    said = b"in/text.mdb: no shard: its first 32 bytes are no tag\n"
    wants("status", (run.returncode, run.stdout, run.stderr) == (1, b"", said))
    written = place.read("page.html").decode()
    wants("nothing else is addressed", "http:" not in written and "https:" not in written and "url(" not in written)
    page = Page(opened(place.path("page.html"), place.folder, "--dump-dom"))
    wants(f"nothing is loaded: {page.loaded()}", page.loaded() == [])
    wants("no element of a name", page.count("b") == 0)
    wants("plots", page.count("svg") == 3 and page.count("rect") > 7)
    wants("tables", page.count("table") == 2)
    wants("a title", "<title>Shards of in</title>" in written)
    # Records are counted, also of the shard without tables.
    for words in (
        "Shards of in", "Not counted: 1, which could not be read.", "Could not be read: 1",
        "no shard: its first 32 bytes are no tag 1 in/text.mdb", 'in/<b>"&"\\u{1b}.mdb', "Expiries by day",
        "Files 7", "512 B to 1 KiB", "2023-11-14", "no expiry", "At 2023-11-14T22:13:20Z (1700000000)",
        "Expired by then: 2.",
    ):
        wants(words, words in page.text())
    opened(place.path("page.html"), place.folder, f"--screenshot={place.path('page.png')}", "--window-size=1200,3000")
    wants("a picture", place.read("page.png").startswith(b"\x89PNG"))


def many_shards_are_grouped(place):
    os.mkdir(place.path("in"))
    for number in range(3000):
        os.symlink(place.path("one_file.mdb" if number else "both.mdb"), place.path(f"in/{number:04}.mdb"))
    run = place.run("report", "in", "-o", "page.html")
    wants("status", (run.returncode, run.stderr) == (0, b""))
    written = place.read("page.html")
    wants(f"size: {len(written)}", len(written) < 100_000)
    page = Page(written.decode())
    wants("rows of the plot", "256 B to 512 B, Shards: 2,999, Bytes together: 1.3 MiB" in page.text())
    wants("rows of the table", "all 2,800 smaller ones" in page.text())
    wants("shards", "Shards 3,000" in page.text())


def failures_are_grouped(place):
    os.mkdir(place.path("in"))
    place.write("in/0.mdb", place.made["one_file.mdb"])
    for number in range(1000):
        place.write(f"in/cut{number:04}.mdb", place.made["one_file.mdb"][:300])
    for number in range(4):
        place.write(f"in/text{number}.mdb", place.made["text.mdb"])
    for number in range(30):
        version = place.made["one_file.mdb"][:32] + bytes([9 + number]) + place.made["one_file.mdb"][33:]
        place.write(f"in/version{number:02}.mdb", version)
    run = place.run("report", "in", "-o", "page.html")
    wants("status", (run.returncode, run.stderr.count(b"\n")) == (1, 1034))
    written = place.read("page.html").decode()
    wants(f"size: {len(written)}", len(written) < 50_000)
    text = Page(written).text()
    cut = "its last 200 bytes are no footer: it was cut or lengthened 1,000 "
    cut += " ".join(f"in/cut{number:04}.mdb" for number in range(3)) + " 997 more in/cut0003.mdb"
    none = "no shard: its first 32 bytes are no tag 4 " + " ".join(f"in/text{number}.mdb" for number in range(3))
    for words in (
        "Could not be read: 1,034", "Not counted: 1,034, which could not be read.", cut, none, "1 more in/text3.mdb",
        "12 other reasons",
    ):
        wants(words, words in text)
    wants("others are counted", "in/cut0102.mdb and 897 more" in text and "in/cut0103" not in text)
    wants("the commonest comes first", text.index(cut) < text.index(none) < text.index("version 10: this program"))
    wants("behind the totals", text.index("Total") < text.index("Could not be read"))


ROWS = (page_is_shown, many_shards_are_grouped, failures_are_grouped)


def main(program, folder, screenshot):
    page = os.path.abspath("report.html")
    subprocess.run([program, "report", folder, "-o", page], check=False, timeout=60)
    where = os.path.dirname(page)
    print(opened(page, where, "--dump-dom"))
    opened(page, where, f"--screenshot={os.path.abspath(screenshot)}", "--window-size=1200,3000")


if __name__ == "__main__":
    if len(sys.argv) != 4 or not browser():
        sys.exit(__doc__)
    main(*sys.argv[1:])
