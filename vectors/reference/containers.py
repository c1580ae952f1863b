"""Lists, and what is read as a list with rules: sets, non-empty lists, maps and bimaps.

Values are what Python has: a list of items, or of pairs. Items compare as Python compares:
numbers by size, lists by the first item that differs, and where none does the shorter one is
less.
"""

from varints import DecodingError, read_within, write_varint

# The lengths of a list where nothing bounds them.
ANY = range(2**64)


def exactly(length):
    """Returns the range that allows one length."""
    return range(length, length + 1)


class List:
    """A `vec`: a length, and as many items."""

    def __init__(self, item, lengths=ANY):
        self.item = item
        self.lengths = lengths

    def read(self, source):
        length = read_within(source, self.lengths)
        return [self.item.read(source) for _ in range(length)]

    def write(self, value):
        return write_varint(len(value)) + b"".join(map(self.item.write, value))

    def count(self, value):
        return len(value)


class Set(List):
    """A `set`: each item is less than the next."""

    def read(self, source):
        items = super().read(source)
        if any(item >= following for item, following in zip(items, items[1:])):
            raise DecodingError("Invalid Set: items must be sorted and unique")
        return items


class NonEmpty(List):
    """A `non-empty` list."""

    def read(self, source):
        items = super().read(source)
        if not items:
            raise DecodingError("Invalid NonEmptyVec: cannot decode empty vector")
        return items


class Map:
    """A `map`: the set of the keys, and a list of as many values."""

    def __init__(self, key, value, lengths=ANY):
        self.key = key
        self.value = value
        self.lengths = lengths

    def read(self, source):
        keys = Set(self.key, self.lengths).read(source)
        values = List(self.value, exactly(len(keys))).read(source)
        return list(zip(keys, values))

    def write(self, value):
        keys = List(self.key).write([pair[0] for pair in value])
        return keys + List(self.value).write([pair[1] for pair in value])

    def count(self, value):
        return len(value)


class BiMap(Map):
    """A `bimap`: a map without equal values."""

    def read(self, source):
        pairs = super().read(source)
        values = [pair[1] for pair in pairs]
        if has_equal(values):
            raise DecodingError("Invalid BiMap: duplicate value detected during deserialization")
        return pairs


def has_equal(items):
    """Says whether two items are equal, neighbours or not."""
    ordered = sorted(items)
    return any(item == following for item, following in zip(ordered, ordered[1:]))
