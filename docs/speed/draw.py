#!/usr/bin/env python3
"""Draws what speed measured.

Usage: draw.py BESIDE_RUST.csv         draws a table that measure.py wrote: ratios.svg and growth.svg, beside this file
       draw.py --lines FILE.svg        draws the lines of a run of speed, which it reads on standard input

It needs matplotlib (python3-matplotlib of Debian). The gate doesn't run it.
"""
import collections
import csv
import math
import pathlib
import sys

import matplotlib

matplotlib.use("svg")
import matplotlib.pyplot as plot  # noqa: E402

HERE = pathlib.Path(__file__).resolve().parent
# A mark for each number of entries, which is told without a colour.
MARKS = {10: "o", 100: "v", 1_000: "s", 10_000: "P", 100_000: "^", 1_000_000: "D"}
# The calls of growth.svg: what a user asks for, of numbers (u32) and of keys (32 bytes).
GROWTH = {
    "set_dedup_random": ("build, numbers", "-", "o"),
    "wide_dedup": ("build, keys", "--", "o"),
    "set_position": ("look up, numbers", "-", "s"),
    "wide_position": ("look up, keys", "--", "s"),
    "set_read": ("read, numbers", "-", "^"),
    "wide_read": ("read, keys", "--", "^"),
    "set_write": ("write, numbers", "-", "D"),
    "wide_write": ("write, keys", "--", "D"),
}
# The same file for the same table, and text as text.
plot.rcParams.update({"svg.hashsalt": "speed", "svg.fonttype": "none", "font.size": 10})


def rows_of(path):
    """Returns the lines of a table by call and nearest power of ten: a set has fewer entries than its input repeats."""
    with open(path, encoding="utf-8") as file:
        rows = list(csv.DictReader(file))
    found = {}
    for row in rows:
        n = min(MARKS, key=lambda it: abs(it - int(row["n"])))
        found.setdefault(row["call"], {})[n] = {it: float(row[it]) for it in ("nanoseconds", "ratio", "low", "high")}
    return found


def curves_of(lines):
    """Returns the nanoseconds an entry by call and number of entries, of lines `CALL N SUM HUNDREDTHS`."""
    found = collections.defaultdict(list)
    for call, n, _, hundredths in (it.split() for it in lines):
        # What takes no hundredth of a nanosecond has no place on a logarithmic axis.
        found[call].append((int(n), max(int(hundredths), 1) / 100))
    return [(call, "-", "o", sorted(points)) for call, points in found.items()]


def save(figure, path):
    """Writes a figure on white, so that it can be read on a dark page too."""
    figure.savefig(path, facecolor="white", bbox_inches="tight", metadata={"Date": None})


def draw_ratios(calls):
    """Draws the ratio of each line to the Rust crate's, the greatest call last."""
    names = sorted(calls, key=lambda it: max(row["ratio"] for row in calls[it].values()), reverse=True)
    figure, axes = plot.subplots(figsize=(8, 0.29 * len(names) + 1.2))
    for place, name in enumerate(names):
        for n, row in calls[name].items():
            axes.hlines(place, row["low"], row["high"], color="0.6", linewidth=3)
            axes.plot(row["ratio"], place, MARKS[n], color="black", markersize=5, markerfacecolor="white")
    for n, mark in MARKS.items():
        if any(n in rows for rows in calls.values()):
            axes.plot([], [], mark, color="black", markerfacecolor="white", label=f"{n:,} entries")
    axes.axvline(1, color="black", linewidth=1)
    axes.set(xscale="log", xlabel="time an entry / that of the Rust crate, with quartiles (left of 1.0: faster)")
    ticks = [0.01, 0.03, 0.1, 0.3, 1, 3, 10]
    axes.set_xticks(ticks, [f"{it:g}" for it in ticks], minor=False)
    axes.xaxis.set_minor_locator(matplotlib.ticker.NullLocator())
    axes.set_yticks(range(len(names)), names)
    axes.grid(axis="both", color="0.9")
    axes.legend(loc="lower left", bbox_to_anchor=(0, 1), ncols=3, frameon=False)
    save(figure, HERE / "ratios.svg")


def apart(places, least):
    """Returns the places, lowest first, moved up where two are nearer than the least distance."""
    moved = []
    for place in places:
        moved.append(max(place, moved[-1] + least) if moved else place)
    return moved


def draw_curves(curves, height, path):
    """Draws nanoseconds an entry against the number of entries: curves of a name, a line, a mark and points, named at their end."""
    figure, axes = plot.subplots(figsize=(8, height))
    axes.set(xscale="log", yscale="log", xlabel="entries", ylabel="nanoseconds an entry")
    ends = []
    for name, line, mark, points in curves:
        axes.plot(*zip(*points), line, marker=mark, color="black", linewidth=1, markersize=5, markerfacecolor="white")
        ends.append((math.log10(points[-1][1]), name, points[-1][0]))
    ends.sort()
    # A name takes as much of the height as 0.16 of a decade did of 5.5 inches and 4 decades.
    decades = max(4, ends[-1][0] - ends[0][0])
    for place, (_, name, n) in zip(apart([end for end, _, _ in ends], 0.16 * decades / 4 * 5.5 / height), ends):
        axes.text(1.4 * n, 10**place, name, va="center")
    axes.grid(color="0.9")
    axes.set_xlim(7, 40_000_000)
    axes.set_xticks([10, 1_000, 100_000, 1_000_000], ["10", "1,000", "100,000", "1,000,000"])
    axes.xaxis.set_minor_locator(matplotlib.ticker.NullLocator())
    save(figure, path)


def draw_growth(calls):
    """Draws a few calls."""
    points = lambda call: sorted((n, row["nanoseconds"]) for n, row in calls[call].items())
    draw_curves([(*GROWTH[call], points(call)) for call in GROWTH], 5.5, HERE / "growth.svg")


if __name__ == "__main__":
    if sys.argv[1] == "--lines":
        draw_curves(curves_of(sys.stdin), 9, sys.argv[2])
    else:
        found = rows_of(sys.argv[1])
        draw_ratios(found)
        draw_growth(found)
