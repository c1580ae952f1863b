#!/usr/bin/env python3
"""Compares what a script of the gate passed with the names that it has to pass.

Usage: .ci/floors.py [--update-floor] NAME PASSED [FAILED]    PASSED has what the script NAME passed, a name a line; FAILED
                                                              has what failed, which was said before

The names are in .ci/floors/NAME.txt: sorted, one a line. A name that is there twice has to pass twice. What needs a tool has it
at the end of its line, as in 'gofmt [needs go, gofmt]', and isn't looked for where that tool isn't there. A name of the list that
doesn't pass is a failure. So is a name that passes and isn't in the list, so that the list has them all, and so is a run in which
nothing passes. --update-floor, a word that each script with a list takes, writes the list, unless something has failed.
"""
import collections
import pathlib
import re
import sys

FOLDER = pathlib.Path(__file__).resolve().parent / "floors"
UPDATE = "--update-floor"


def line_of(name, needs=()):
    """Returns the line of a name that needs these tools. A name that isn't plain, or has a space at an end, is quoted."""
    plain = name if name and name == name.strip() and name.isprintable() else repr(name)
    return f"{plain} [needs {', '.join(sorted(set(needs)))}]" if needs else plain


def needs_of(line):
    """Returns the tools that a line names."""
    found = re.search(r" \[needs ([^]]+)\]$", line)
    return set(found[1].split(", ")) if found else set()


def read_floor(name):
    """Returns the lines of a list, none where it isn't there."""
    path = FOLDER / f"{name}.txt"
    return path.read_text().splitlines() if path.is_file() else []


def write_floor(name, passed, skipped=(), gone=()):
    """Writes a list of what passed, and of what it had before that was skipped or needs a tool which isn't there."""
    kept = [it for it in read_floor(name) if it in skipped or needs_of(it).intersection(gone)]
    FOLDER.mkdir(exist_ok=True)
    (FOLDER / f"{name}.txt").write_text("".join(f"{it}\n" for it in sorted([*passed, *kept])))


def faults(name, passed, told=(), gone=()):
    """Returns a sentence for each line that should have passed and hasn't, and wasn't told, or that has and isn't in the list."""
    wanted, found = collections.Counter(read_floor(name)), collections.Counter(passed)
    lacking = (it for it in wanted - found - collections.Counter(told) if not needs_of(it).intersection(gone))
    sentences = [] if passed else [f"{name}: nothing passed"]
    sentences += [f"{name}: .ci/floors/{name}.txt has this, and it didn't pass: {it}" for it in sorted(lacking)]
    new = sorted(found - wanted)
    return sentences + [f"{name}: this passed, and .ci/floors/{name}.txt lacks it ({UPDATE} adds it): {it}" for it in new]


def hold(name, passed, failed=(), skipped=(), gone=(), is_updated=False):
    """Compares what passed with the list, or writes that; says what is wrong, and returns how much is."""
    if is_updated and passed and not failed:
        write_floor(name, passed, skipped, gone)
    elif is_updated:
        print(f"{name}: the list of names isn't written, since {'something failed' if failed else 'nothing passed'}")
    found = faults(name, passed, [*failed, *skipped], gone)
    print("".join(f"{it}\n" for it in found), end="", flush=True)
    return len(found)


def main():
    words = [it for it in sys.argv[1:] if it != UPDATE]
    if len(words) not in (2, 3):
        sys.exit(__doc__)
    texts = [pathlib.Path(it).read_text(errors="backslashreplace") for it in words[1:]]
    return bool(hold(words[0], *([line_of(it) for it in text.splitlines()] for text in texts), is_updated=UPDATE in sys.argv))


if __name__ == "__main__":
    sys.exit(main())
