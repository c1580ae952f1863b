"""Answers the questions of standard input, a line each, as `judge` does:

    python3 -B vectors/reference [--number]

Lines that can't be read are named on standard error, and then the status is 1.
"""

import sys

from answers import answers_to


def main():
    """Returns the status."""
    numbered = sys.argv[1:] == ["--number"]
    answers = answers_to(sys.stdin.buffer.read().decode("latin-1"))
    for number, answer in answers:
        print(f"{number}: {answer}" if numbered else answer)
    unreadable = [it for it in answers if it[1].startswith("unreadable")]
    for number, answer in unreadable:
        print(f"line {number}: {answer}", file=sys.stderr)
    return 1 if unreadable else 0


if __name__ == "__main__":
    sys.exit(main())
