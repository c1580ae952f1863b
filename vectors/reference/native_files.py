"""The files of vectors of native calls, one for each call, and what their values stand for.

schema.json beside them says of each call of which kind each argument and each field is.
"""

import json
import pathlib

FOLDER = pathlib.Path(__file__).resolve().parent.parent / "native"
SCHEMA = json.loads((FOLDER / "schema.json").read_text(encoding="utf-8"))
# The kinds of arguments that are bytes.
BYTES = {"bytes", "members", "member"}
LISTS = {"indices", "weights"}


def names():
    """Returns the names of the calls, in the order of the header."""
    return SCHEMA["properties"]["name"]["enum"]


def path_of(name):
    return FOLDER / f"{name}.json"


def tests_of(name):
    """Returns the tests of a call."""
    return json.loads(path_of(name).read_text(encoding="utf-8"))["tests"]


def kind_of(schema):
    return schema["$ref"].rpartition("/")[2]


class Call:
    """What a call takes and returns, by the schema."""

    def __init__(self, name):
        said = SCHEMA["$defs"][name]["properties"]
        kinds = lambda part: {key: kind_of(it) for key, it in said[part]["properties"].items()}
        self.name = name
        self.arguments = kinds("arguments")
        # A call without a view returns one number.
        self.fields = kinds("view") if "view" in said else {}
        self.room = kind_of(said["written"]) if "written" in said else None


def numbers_in(part):
    """Returns the numbers of a part that names the first and the last of them."""
    first, last = int(part["from"]), int(part["to"])
    by = int(part.get("by", "1"))
    return range(first, last + 1, by) if first <= last else range(first, last - 1, -by)


def varint(number):
    """Returns the encoding of a number. It is the vectors' own, whatever the reference does."""
    low, rest = number % 128, number // 128
    return bytes([low + 128]) + varint(rest) if rest else bytes([low])


def bytes_of(part):
    """Returns the bytes that a text of hexadecimal, a part or a list of both stands for."""
    if isinstance(part, str):
        return bytes.fromhex(part)
    if isinstance(part, list):
        return b"".join(map(bytes_of, part))
    if "times" in part:
        return part["times"] * bytes.fromhex(part["of"])
    size = part.get("size")
    coded = lambda number: varint(number) if size is None else number.to_bytes(size, "big")
    return b"".join(map(coded, numbers_in(part)))


def list_of(parts):
    """Returns the numbers that a list of numbers and of parts stands for."""
    found = []
    for part in parts:
        if not isinstance(part, dict):
            found.append(int(part))
        else:
            found += part["times"] * [int(part["of"])] if "times" in part else numbers_in(part)
    return found


def value_of(kind, said):
    """Returns what a value of a test stands for: bytes, a list of numbers, or a number."""
    if kind in BYTES:
        return bytes_of(said)
    return list_of(said) if kind in LISTS else int(said)


def question_of(call, test):
    """Returns the arguments of a test in their order, and then how long the room is."""
    values = [value_of(kind, test["arguments"][it]) for it, kind in call.arguments.items()]
    return values + ([test["room"]] if call.room else [])


def answer_of(call, test):
    """Returns what a call has to return, and what it has to write, which is None for nothing."""
    if not call.fields:
        return test["result"], None
    view = {it: int(test["view"][it]) for it in call.fields}
    return view, value_of(call.room, test["written"]) or None if call.room else None


def answered(call, function, question):
    """Returns what a function of the reference returns and writes, with all fields of the view."""
    said = function(*question)
    if not call.fields:
        return said, None
    view, data = said if call.room else (said, None)
    return dict.fromkeys(call.fields, 0) | view, data or None


def text_of(name, tests):
    """Returns the text of a file: a line for each test, with its number."""
    head = {"name": name, "format": 1, "license": "Apache-2.0", "schema": "schema.json"}
    head["numberOfTests"] = len(tests)
    said = json.dumps
    lines = [f"  {said(key)}: {said(value)}," for key, value in head.items()]
    numbered = ({**it, "tcId": number} for number, it in enumerate(tests, 1))
    # Without a space, so that the files stay small.
    parts = ",\n".join(f"    {said(it, separators=(',', ':'))}" for it in numbered)
    return "\n".join(["{", *lines, '  "tests": [', parts, "  ]", "}"]) + "\n"
