#!/usr/bin/env python3
"""Draws comparisons.csv as comparisons.svg: how many comparisons a look-up made at most, beside the proved bound.

Usage: comparisons.py

The table has, for sets of n items, the most comparisons of any look-up, of each item and of one beside each: of numbers (u32)
and of keys of 32 bytes, by a Counter that counts while the program runs. It needs matplotlib.
"""
import csv
import pathlib

import matplotlib

matplotlib.use("svg")
import matplotlib.pyplot as plot  # noqa: E402

HERE = pathlib.Path(__file__).resolve().parent
# The same file for the same table, and text as text.
plot.rcParams.update({"svg.hashsalt": "comparisons", "svg.fonttype": "none", "font.size": 10})


def main():
    with open(HERE / "comparisons.csv", encoding="utf-8") as file:
        rows = [{name: int(value) for name, value in row.items()} for row in csv.DictReader(file)]
    sizes = [row["n"] for row in rows]
    # 1 + 3k/2 for the least k with n below 2^k.
    bounds = [(3 * n.bit_length() + 2) // 2 for n in sizes]
    assert all(max(row["numbers"], row["keys"]) <= most for row, most in zip(rows, bounds))
    figure, axes = plot.subplots(figsize=(8, 4.2))
    axes.step(sizes, bounds, where="post", color="black", linewidth=1, label="the proved bound, 1 + 3k/2 for n < 2^k")
    axes.plot(sizes, [row["numbers"] for row in rows], "o", color="0.25", markersize=3, label="numbers of 4 bytes")
    axes.plot(sizes, [row["keys"] for row in rows], "x", color="0.5", markersize=4, label="keys of 32 bytes")
    axes.set_xscale("log", base=2)
    axes.set_xlabel("items of the set")
    axes.set_ylabel("comparisons of the worst look-up")
    axes.grid(color="0.9")
    axes.legend(loc="upper left", frameon=False)
    figure.savefig(HERE / "comparisons.svg", facecolor="white", bbox_inches="tight", metadata={"Date": None})


if __name__ == "__main__":
    main()
