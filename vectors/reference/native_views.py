"""What all native calls have in common: their statuses, and the views that they return.

The reference of the native calls is written from docs/NATIVE.md, docs/FORMAT.md and the words of
bindings/c/commonware.h alone. A call is a function of the arguments by their names and, where it
has one, of the length of its room. It returns a number; or its view, as the fields that aren't 0;
or both that and what is written to the room, which is None where nothing is.
"""

from varints import DecodingError, Source, read_varint

OK = 0
END_OF_INPUT = 1
INVALID_VARINT = 2
INVALID_LENGTH = 3
NOT_STRICT = 4
LEFT_OVER = 6
NO_MEMBERS = 7
SAME_VALUE = 8
OUTSIDE = 9
TOO_FEW = 10
ROOM = 11
ABSENT = 12
NO_MODEL = 13
NO_SLOT = 14
OTHER_SLOT = 15
NO_SIZE = 16
NOT_WHOLE = 17
REPEATED_VALUE = 18
REPEATED_KEY = 19
ZERO_WEIGHT = 20
WEIGHT_OVERFLOW = 21
TOO_LIGHT = 22

# What of the decoding errors the format has is what status.
FAULTS = {"EndOfBuffer": END_OF_INPUT, "InvalidVarint": INVALID_VARINT}


class Fault(Exception):
    """Why a call is refused: the fields of its view that aren't 0."""

    def __init__(self, status, **fields):
        super().__init__(status)
        self.fields = {"status": status, **fields}


def number_at(source):
    """Returns the number of a varint, or finds its fault."""
    try:
        return read_varint(source)
    except DecodingError as error:
        raise Fault(FAULTS[str(error)]) from None


def bytes_at(source, count):
    """Returns the next bytes, or finds that there are fewer."""
    if count > source.left():
        raise Fault(END_OF_INPUT)
    return source.take(count)


def length_at(source, lengths):
    """Returns a stated length, or finds that it isn't allowed."""
    length = number_at(source)
    if length not in lengths:
        raise Fault(INVALID_LENGTH, number=length)
    return length


def is_strict(items):
    """Tells whether each item is less than the next."""
    return all(item < following for item, following in zip(items, items[1:]))


def viewed(call, *arguments):
    """Returns the view of a call, or that of why it is refused."""
    try:
        return call(*arguments)
    except Fault as fault:
        return fault.fields


def written(call, *arguments):
    """Returns the view of a call and what it writes, which is nothing where it is refused."""
    try:
        return call(*arguments)
    except Fault as fault:
        return fault.fields, None


__all__ = [it for it in dir() if not it.startswith("_")]
