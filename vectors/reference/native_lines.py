"""Writes vectors of native calls out as lines, for programs that read no JSON.

Usage: python3 -B vectors/reference/native_lines.py [NAME..]    all calls without a name

A test is some lines, of words with one space between them; bytes are in hexadecimal.

    test NAME/NUMBER       its id
    bytes NAME BYTES       an argument, `-` where there are none
    numbers NAME NUMBER..  an argument that lists numbers
    number NAME NUMBER     any other argument
    room NUMBER            how many items the room has, where the call has one
    field NAME NUMBER      a field of the view; `result` is what a call without a view returns
    written-bytes BYTES    what is written, or
    written-numbers NUMBER..
    end
"""

import sys

from native_files import BYTES, LISTS, Call, names, tests_of, value_of


def words_of(kind, value):
    """Returns the words of a value."""
    if kind in BYTES:
        return [value.hex() or "-"]
    return [str(it) for it in (value if kind in LISTS else [value])]


def lines_of(call, test):
    """Yields the lines of a test."""
    yield f"test {call.name}/{test['tcId']}"
    for name, kind in call.arguments.items():
        word = "bytes" if kind in BYTES else "numbers" if kind in LISTS else "number"
        yield " ".join([word, name, *words_of(kind, value_of(kind, test["arguments"][name]))])
    if call.room:
        yield f"room {test['room']}"
    for name in call.fields:
        yield f"field {name} {test['view'][name]}"
    if not call.fields:
        yield f"field result {test['result']}"
    if call.room:
        word = "written-bytes" if call.room in BYTES else "written-numbers"
        yield " ".join([word, *words_of(call.room, value_of(call.room, test["written"]))])
    yield "end"


def main():
    for name in sys.argv[1:] or names():
        call = Call(name)
        for test in tests_of(name):
            sys.stdout.writelines(f"{it}\n" for it in lines_of(call, test))


if __name__ == "__main__":
    main()
