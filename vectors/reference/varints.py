"""Numbers, and the bytes that they are read from.

A kind of value has three methods: `read` takes a value off a source, `write` returns its
encoding, and `count` says how many items it has. Kinds without items count as one. Values of a
kind compare as Python compares them: numbers by size, bytes by the first that differs.
"""


class DecodingError(Exception):
    """The first fault of an input, in the words of an answer."""


class Source:
    """The bytes of an input, and how many of them are taken."""

    def __init__(self, data):
        self.data = data
        self.taken = 0

    def left(self):
        """Returns how many bytes are left."""
        return len(self.data) - self.taken

    def take(self, count):
        """Returns the next bytes, or finds that there are fewer."""
        if count > self.left():
            raise DecodingError("EndOfBuffer")
        self.taken += count
        return self.data[self.taken - count : self.taken]


def read_varint(source):
    """Returns a number up to 2^32 - 1: seven bits a byte, the lowest first, in the fewest bytes."""
    number = group = 0
    while True:
        byte = source.take(1)[0]
        if group == 4 and byte > 0x0F:
            raise DecodingError("InvalidVarint")
        if group > 0 and byte == 0:
            raise DecodingError("InvalidVarint")
        number += (byte & 0x7F) << (7 * group)
        if byte < 0x80:
            return number
        group += 1


def write_varint(number):
    """Returns the encoding of a number up to 2^32 - 1."""
    written = bytearray()
    while number > 0x7F:
        written.append(number & 0x7F | 0x80)
        number >>= 7
    written.append(number)
    return bytes(written)


def read_within(source, allowed):
    """Returns a number that a range allows."""
    number = read_varint(source)
    if number not in allowed:
        raise DecodingError(f"InvalidLength {number}")
    return number


class Number:
    """What all numbers have in common."""

    def count(self, value):
        return 1


class Byte(Number):
    """A `u8`."""

    def read(self, source):
        return source.take(1)[0]

    def write(self, value):
        return bytes([value])


class Word(Number):
    """A `u32`: four bytes, the highest first."""

    def read(self, source):
        return int.from_bytes(source.take(4), "big")

    def write(self, value):
        return value.to_bytes(4, "big")


class Long(Number):
    """A `u64`: eight bytes, the highest first."""

    def read(self, source):
        return int.from_bytes(source.take(8), "big")

    def write(self, value):
        return value.to_bytes(8, "big")


class Fixed(Number):
    """Bytes of one size, as they are: a `member` has 32."""

    def __init__(self, size):
        self.size = size

    def read(self, source):
        return source.take(self.size)

    def write(self, value):
        return value


class Varint(Number):
    """A number of 32 bits as a varint, as the index of a participant is."""

    def read(self, source):
        return read_varint(source)

    def write(self, value):
        return write_varint(value)


class Size(Varint):
    """A `usize`: a varint that a range allows."""

    def __init__(self, allowed):
        self.allowed = allowed

    def read(self, source):
        return read_within(source, self.allowed)
