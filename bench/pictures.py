#!/usr/bin/python3
"""Draws what bench/run.sh wrote to standard error: pictures.py FILE [GROWTH-FILE [MERGES-FILE]].

The pictures are ratios.svg, growth.svg, and merges.svg of a run with --merges.

Needs Debian's python3-matplotlib. Lines of other forms are skipped.
"""

import re
import sys
from pathlib import Path

import matplotlib

matplotlib.use("svg")
matplotlib.rcParams["svg.hashsalt"] = "bench"  # the same numbers give the same file
import matplotlib.pyplot as plt

LINE = re.compile(r"N = (\d+): (.+): ([\d.]+) ns, the original ([\d.]+) ns")


def rows(path):
    """The times of a run in nanoseconds, by operation and by N: those of the port and of the original."""
    found = {}
    for line in Path(path).read_text().splitlines():
        if match := LINE.match(line):
            files, name, port, original = match.groups()
            found.setdefault(name, {})[int(files)] = (float(port), float(original))
    return found


def save(figure, name):
    figure.savefig(Path(__file__).parent / name, bbox_inches="tight", metadata={"Date": None})


def draw_ratios(times):
    names = list(times)
    sizes = sorted({files for row in times.values() for files in row})
    height = 0.8 / len(sizes)
    figure, axes = plt.subplots(figsize=(8, 0.42 * len(names) + 1))
    for place, files in enumerate(sizes):
        at = [index + place * height for index in range(len(names))]
        ratios = [times[name][files][0] / times[name][files][1] for name in names]
        axes.barh(at, ratios, height=height, label=f"N = {files}")
    axes.axvline(1, color="black", linewidth=1)
    axes.set_yticks([index + 0.4 - height / 2 for index in range(len(names))], names)
    axes.invert_yaxis()
    axes.set_xlabel("time of the port / time of the original")
    axes.legend()
    save(figure, "ratios.svg")


def draw_growth(times):
    figure, axes = plt.subplots(figsize=(8, 5))
    for index, (name, row) in enumerate(times.items()):
        sizes = sorted(row)
        color = f"C{index}"
        axes.plot(sizes, [row[files][0] for files in sizes], marker="o", color=color, label=name)
        axes.plot(sizes, [row[files][1] for files in sizes], linestyle="--", color=color)
    axes.set_xscale("log")
    axes.set_yscale("log")
    axes.set_xlabel("N, the files of a shard")
    axes.set_ylabel("nanoseconds an item; dashed: the original")
    axes.legend()
    save(figure, "growth.svg")


def draw_merges(path):
    """The port's time by that of the original's tree, and by that of a copy of the output, where this is no small part."""
    lines = [line for line in Path(path).read_text().splitlines() if re.match(r"\| \d+ x ", line)]
    table = [line.strip("| ").split(" | ") for line in lines]
    names = [f"{shards}, {shared}" for shards, shared, *_ in table]
    figure, (by_tree, by_copy) = plt.subplots(1, 2, sharey=True, figsize=(8, 0.42 * len(table) + 1))
    by_tree.barh(names, [float(row[9]) for row in table])
    by_tree.set_xlabel("port / tree of the original's unions")
    large = [row for row in table if float(row[3]) > float(row[2]) / 4]
    by_copy.barh([f"{row[0]}, {row[1]}" for row in large], [float(row[8]) for row in large])
    by_copy.set_xlabel("port / one copy of the output")
    for axes in (by_tree, by_copy):
        axes.axvline(1, color="black", linewidth=1)
    by_tree.invert_yaxis()
    save(figure, "merges.svg")


draw_ratios(rows(sys.argv[1]))
if len(sys.argv) > 2:
    draw_growth(rows(sys.argv[2]))
if len(sys.argv) > 3:
    draw_merges(sys.argv[3])
