"""The vectors of native calls: each is compared in every field of its view, in what is written, and in what is left of the room."""

import array
import ctypes
import pathlib
import sys
import unittest

from commonware import _calls

sys.path.append(str(pathlib.Path(__file__).resolve().parents[3] / "vectors/reference"))
import native_files

# What a place of the room is before a call.
BEFORE = {"bytes": ("B", 0xEE), "indices": ("I", 0xEEEEEEEE)}


def pointed(numbers):
    """Returns the pointer to an array, which is NULL where it has no items."""
    return numbers.buffer_info()[0] if len(numbers) else None


def passed(kind, value):
    """Returns the arguments that C has for one, and what has to stay as long as the call."""
    if kind in native_files.LISTS:
        items = array.array("I" if kind == "indices" else "Q", value)
        return [pointed(items), len(items)], items
    if kind in native_files.BYTES:
        length = {"bytes": [len(value)], "members": [len(value) // 32], "member": []}[kind]
        return [value or None, *length], value
    return [value], None


def called(call, question):
    """Returns what the library returns, and what its room is after that."""
    arguments, kept = [], []
    for kind, value in zip(call.arguments.values(), question):
        words, items = passed(kind, value)
        arguments += words
        kept.append(items)
    room = array.array(BEFORE[call.room][0], [BEFORE[call.room][1]]) * question[-1] if call.room else None
    arguments += [pointed(room), len(room)] if call.room else []
    result = getattr(_calls, call.name)(*arguments)
    if not isinstance(result, ctypes.Structure):
        return result, room
    return {name: getattr(result, name) for name, _ in result._fields_}, room


def room_of(call, length, data):
    """Returns a room that begins with what is written, and is as it was after that."""
    if not call.room:
        return None
    form, before = BEFORE[call.room]
    return array.array(form, data or []) + array.array(form, [before]) * (length - len(data or []))


class NativeVectors(unittest.TestCase):
    def test_each_call(self):
        for name in native_files.names():
            call = native_files.Call(name)
            for test in native_files.tests_of(name):
                with self.subTest(call=name, test=test["tcId"]):
                    question = native_files.question_of(call, test)
                    expected, data = native_files.answer_of(call, test)
                    said, room = called(call, question)
                    self.assertEqual(said, expected)
                    self.assertTrue(room == room_of(call, question[-1] if call.room else 0, data), "the room")


if __name__ == "__main__":
    unittest.main()
