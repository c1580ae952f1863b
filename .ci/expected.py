#!/usr/bin/env python3
"""Works out what programs have to print, by an arithmetic of its own, and lines to ask them.

Usage: .ci/expected.py numbers         2,000 numbers from 1 to 4294967295, spread over all of them, with the least and the greatest
       .ci/expected.py bounds          what committee reports on the bounds of each number that it reads, a line each
       .ci/expected.py set N           the encoding of the set of the N greatest bytes, as escapes for printf
       .ci/expected.py report N        what quickstart reports on that set
       .ci/expected.py lists           lines for the judge: lists of zeros of every length up to 300, of 5,000 and of 70,000
       .ci/expected.py answers         what the judge answers to them
"""
import sys

LENGTHS = (*range(301), 5_000, 70_000)


def numbers():
    for i in range(1000):
        yield i**3 * 4 + i + 1
        yield 4294967295 - i * 4290001


def refuted(model, n, first, second, number, needed):
    shared = max(first + second - n, 0)
    return f"{model} {number} first 0..{first} second {n - second}..{n} shared {shared} needed {needed}"


def bounds(n):
    f = (n - 1) // 3
    yield f"n {n}"
    yield f"N3f1 faults {f} quorum {n - f}"
    yield refuted("N3f1 refuted", n, n - f - 1, n - f - 1, f + 1, f + 2)
    f = (n - 1) // 5
    yield f"N5f1 faults {f} quorum {n - f} m-quorum {2 * f + 1}"
    yield refuted("N5f1 refuted", n, n - f - 1, n - f - 1, f + 1, 3 * f + 4)
    yield refuted("N5f1 m-refuted", n, n - f, 2 * f, 2 * f, f + 1)


def varint(n):
    groups = [n % 128]
    while n := n // 128:
        groups.append(n % 128)
    return bytes(it | 128 for it in groups[:-1]) + bytes(groups[-1:])


def set_of(n):
    return "".join(f"\\x{it:02x}" for it in varint(n) + bytes(range(256 - n, 256)))


def greatest(k, n):
    """Returns the greatest f with kf + 1 at most n, by counting."""
    return max(f for f in range(n) if k * f + 1 <= n)


def report(n):
    yield f"members {n}"
    yield from (f"{i} {256 - n + i}" for i in range(n))
    f = greatest(3, n)
    yield f"N3f1 faults {f} quorum {n - f}"
    f = greatest(5, n)
    yield f"N5f1 faults {f} quorum {n - f} m-quorum {2 * f + 1}"


WORDS = {
    "numbers": numbers,
    "bounds": lambda: (line for it in sys.stdin for line in bounds(int(it))),
    "set": lambda n: [set_of(int(n))],
    "report": lambda n: report(int(n)),
    "lists": lambda: (f"vec<u8> .. {varint(n).hex()}{'00' * n}" for n in LENGTHS),
    "answers": lambda: (f"accepted {n} 0" for n in LENGTHS),
}

if __name__ == "__main__":
    for it in WORDS[sys.argv[1]](*sys.argv[2:]):
        print(it)
