#!/usr/bin/env python3
"""Times two programs by turns on one processor, and compares each line that both print.

Usage: measure.py RUNS COMMAND[,COMMAND..] COMMAND[,COMMAND..] >TABLE.csv

A command is a program and its words, and prints lines `CALL N SUM HUNDREDTHS`: a call, how many entries it was timed
over, a check sum, and the hundredths of a nanosecond that an entry took. Commands joined by commas are builds of one
program, as many of the first as of the second. Each run starts every build once, each beside its counterpart, and the
ratio is that of these two, so it does not depend on how fast the processor was at the time.

The table has for each line the call and N, the median nanoseconds of the first program, the median of the ratios with
their quartiles, and the least and the greatest of the medians of single builds. A line whose check sums differ is told
on standard error, with status 1.
"""
import collections
import csv
import os
import statistics
import subprocess
import sys


def lines_of(command, processor):
    """Returns what a program printed: for each call and number of entries, the check sum and the nanoseconds."""
    words = ["taskset", "-c", str(processor), *command.split()]
    said = subprocess.run(words, capture_output=True, text=True, check=True).stdout
    rows = (line.split() for line in said.splitlines())
    return {(call, int(entries)): (total, int(each) / 100) for call, entries, total, each in rows}


def main():
    runs, first, last = int(sys.argv[1]), sys.argv[2].split(","), sys.argv[3].split(",")
    processor = max(os.sched_getaffinity(0))
    times, ratios, differ = collections.defaultdict(list), collections.defaultdict(list), set()
    for _ in range(runs):
        for build, pair in enumerate(zip(first, last, strict=True)):
            ours, theirs = (lines_of(command, processor) for command in pair)
            for key in ours.keys() & theirs.keys():
                times[key].append(ours[key][1])
                # A line that takes no hundredth of a nanosecond has no ratio.
                ratios[key].append((build, ours[key][1] / max(theirs[key][1], 0.01)))
                differ.update([key] if ours[key][0] != theirs[key][0] else [])
    table = csv.writer(sys.stdout, lineterminator="\n")
    table.writerow(["call", "n", "nanoseconds", "ratio", "low", "high", "least_build", "greatest_build"])
    for key in sorted(times, key=lambda it: (it[0], it[1])):
        low, middle, high = statistics.quantiles([it for _, it in ratios[key]], n=4)
        builds = [statistics.median(it for at, it in ratios[key] if at == build) for build in range(len(first))]
        numbers = [statistics.median(times[key]), middle, low, high, min(builds), max(builds)]
        table.writerow([*key, *(f"{it:.2f}" for it in numbers)])
    for call, entries in sorted(differ):
        print(f"the check sums of {call} {entries} differ", file=sys.stderr)
    return 1 if differ else 0


if __name__ == "__main__":
    sys.exit(main())
