"""Writes out the long vectors of a file of recipes: python3 -B vectors/reference/recipes.py
questions|answers <long.recipes

A recipe is a question on one line and its answer on the next, with pieces in braces, which are
bytes in hexadecimal:

    {length N}      the number N as a varint
    {N times HEX}   the bytes HEX, N times
    {KIND A to B}   the numbers from A to B, both included, up or down, as u8, u32, u64, varint,
                    member or bytesN: the last two have the highest byte first too
"""

import re
import sys

from varints import write_varint

SIZES = {"u8": 1, "u32": 4, "u64": 8, "member": 32, **{f"bytes{it}": it for it in (20, 33, 48, 96)}}
LENGTH = re.compile(r"\{length (\d+)\}")
TIMES = re.compile(r"\{(\d+) times ([0-9a-f]+)\}")
NUMBERS = re.compile(r"\{(\w+) (\d+) to (\d+)\}")


def numbers(kind, first, last):
    """Returns the bytes of the numbers from the first to the last, up or down."""
    step = 1 if first <= last else -1
    fixed = lambda number: number.to_bytes(SIZES[kind], "big")
    write = write_varint if kind == "varint" else fixed
    return b"".join(map(write, range(first, last + step, step))).hex()


def expand(text):
    """Returns a question or an answer written out."""
    text = LENGTH.sub(lambda it: write_varint(int(it[1])).hex(), text)
    text = TIMES.sub(lambda it: it[2] * int(it[1]), text)
    return NUMBERS.sub(lambda it: numbers(it[1], int(it[2]), int(it[3])), text)


def read_recipes(text):
    """Returns each recipe's question and answer, written out."""
    lines = [expand(line) for line in text.splitlines() if line and not line.startswith("#")]
    return list(zip(lines[::2], lines[1::2]))


def main():
    """Writes the questions or the answers of standard input."""
    which = ["questions", "answers"].index(sys.argv[1])
    for recipe in read_recipes(sys.stdin.read()):
        print(recipe[which])


if __name__ == "__main__":
    main()
