"""Compares a program with the reference: python3 -B vectors/reference/differential.py [--seed N]
[--count N] PROGRAM [WORD]..

The program reads questions on standard input and writes an answer a line, as `judge` does. With
`--also OTHER` another program is compared on the same questions.
"""

import argparse
import subprocess
import sys

from answers import answers_to
from generate import questions

# How many differences are told.
TOLD = 10


def parse():
    """Returns what the words ask for."""
    parser = argparse.ArgumentParser(description="Compares a program with the reference.")
    parser.add_argument("--seed", type=int, default=1, help="makes other questions (1)")
    parser.add_argument("--count", type=int, default=200000, help="how many questions (200000)")
    parser.add_argument("--also", action="append", default=[], help="another program")
    parser.add_argument("program", nargs=argparse.REMAINDER, help="the program and its words")
    asked = parser.parse_args()
    if not asked.program:
        parser.error("no program")
    return asked


def differences(lines, expected, command):
    """Returns the questions that a program answers otherwise, with both answers."""
    text = "\n".join(lines).encode("latin-1") + b"\n"
    try:
        ran = subprocess.run(command, input=text, capture_output=True)
    except OSError as failure:
        sys.exit(f"differential: {command[0]}: {failure.strerror}")
    got = ran.stdout.decode("latin-1").splitlines()
    got += ["(no answer)"] * (len(expected) - len(got))
    found = [(number, right, it) for (number, right), it in zip(expected, got) if right != it]
    if len(got) > len(expected):
        found.append((len(lines), "(no answer)", got[len(expected)]))
    return found


def main():
    """Returns whether a program differs."""
    asked = parse()
    lines = questions(asked.seed, asked.count)
    expected = answers_to("\n".join(lines) + "\n")
    failed = False
    for command in [asked.program, *([it] for it in asked.also)]:
        found = differences(lines, expected, command)
        for number, right, got in found[:TOLD]:
            print(f"line {number}: {lines[number - 1]}")
            print(f"  the reference: {right}\n  {command[0]}: {got}")
        print(f"differential: {command[0]}, seed {asked.seed}:", end=" ")
        print(f"{len(expected)} questions, {len(found)} answered otherwise")
        failed |= bool(found)
    return failed


if __name__ == "__main__":
    sys.exit(main())
