#!/usr/bin/env python3
"""Says how many proofs run side by side: one a processor, as far as memory allows at 4 GB each."""
import os
import pathlib
import re

# The megabytes that one check may want.
MEMORY = 4000


def lanes():
    free = int(re.search(r"MemAvailable: *(\d+) kB", pathlib.Path("/proc/meminfo").read_text())[1]) // 1000
    return max(1, min(len(os.sched_getaffinity(0)), free // MEMORY))


if __name__ == "__main__":
    print(lanes())
