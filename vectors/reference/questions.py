"""The words of a question. A word that can't be read is Unreadable, which says what of the question
it is."""

import re

from certificates import Certificate
from containers import BiMap, List, Map, NonEmpty, Set
from varints import Byte, Fixed, Long, Size, Varint, Word

RANGE = re.compile(r"([0-9]*)\.\.(=?)([0-9]*)")
DIGITS = re.compile(r"[0-9]+")
BYTES = re.compile(r"-|([0-9a-fA-F][0-9a-fA-F])+")


class Unreadable(Exception):
    """The part of a question that can't be read: type, ranges, bytes, model or number."""


def read_number(word, part, least, most):
    """Returns a number within bounds. Zeros may lead."""
    if not DIGITS.fullmatch(word) or not least <= int(word) <= most:
        raise Unreadable(part)
    return int(word)


def read_bound(word, least):
    """Returns a bound of a range."""
    return read_number(word, "ranges", least, 2**64 - 1)


def read_range_from(word, least):
    """Returns the range that a word writes, whose bounds are at least so much and below 2^64."""
    parts = RANGE.fullmatch(word)
    if not parts or parts[2] and not parts[3]:
        raise Unreadable("ranges")
    start, end = (read_bound(it, least) if it else None for it in parts.group(1, 3))
    after = 2**64 if end is None else end + 1 if parts[2] else end
    return range(start or 0, after)


def read_range(word):
    """Returns a range of lengths, or of numbers."""
    return read_range_from(word, 0)


def read_positive_range(word):
    """Returns a range of the lengths of a non-empty list, which takes no bound 0."""
    return read_range_from(word, 1)


# For each type what reads its ranges, and what makes the kind of value of them.
ONE, TWO, THREE = [read_range], [read_range] * 2, [read_range] * 3
FILLED = [read_positive_range]
TYPES = {
    "u8": ([], lambda: Byte()),
    "u32": ([], lambda: Word()),
    "varint": ([], lambda: Varint()),
    "usize": (ONE, lambda a: Size(a)),
    "participant": ([], lambda: Varint()),
    "vec<u8>": (ONE, lambda a: List(Byte(), a)),
    "vec<u32>": (ONE, lambda a: List(Word(), a)),
    "vec<vec<u8>>": (TWO, lambda a, b: List(List(Byte(), b), a)),
    "vec<vec<vec<u8>>>": (THREE, lambda a, b, c: List(List(List(Byte(), c), b), a)),
    "set<u8>": (ONE, lambda a: Set(Byte(), a)),
    "set<u32>": (ONE, lambda a: Set(Word(), a)),
    "set<participant>": (ONE, lambda a: Set(Varint(), a)),
    "set<set<u8>>": (TWO, lambda a, b: Set(Set(Byte(), b), a)),
    "set<non-empty<u8>>": (ONE + FILLED, lambda a, b: Set(NonEmpty(Byte(), b), a)),
    "map<u8,u8>": (ONE, lambda a: Map(Byte(), Byte(), a)),
    "map<u8,set<u8>>": (TWO, lambda a, b: Map(Byte(), Set(Byte(), b), a)),
    "vec<map<u8,u8>>": (TWO, lambda a, b: List(Map(Byte(), Byte(), b), a)),
    "bimap<u8,u8>": (ONE, lambda a: BiMap(Byte(), Byte(), a)),
    "non-empty<u8>": (FILLED, lambda a: NonEmpty(Byte(), a)),
    "non-empty<non-empty<u8>>": (FILLED * 2, lambda a, b: NonEmpty(NonEmpty(Byte(), b), a)),
    "certificate": (TWO, lambda a, b: Certificate(a, b)),
    "u64": ([], lambda: Long()),
    "vec<u64>": (ONE, lambda a: List(Long(), a)),
    "member": ([], lambda: Fixed(32)),
    "set<member>": (ONE, lambda a: Set(Fixed(32), a)),
    "map<member,u8>": (ONE, lambda a: Map(Fixed(32), Byte(), a)),
    "map<member,u64>": (ONE, lambda a: Map(Fixed(32), Long(), a)),
    "bimap<member,member>": (ONE, lambda a: BiMap(Fixed(32), Fixed(32), a)),
    "set<bytes20>": (ONE, lambda a: Set(Fixed(20), a)),
    "set<bytes33>": (ONE, lambda a: Set(Fixed(33), a)),
    "set<bytes48>": (ONE, lambda a: Set(Fixed(48), a)),
    "set<bytes96>": (ONE, lambda a: Set(Fixed(96), a)),
}
MODELS = {"n3f1": 3, "n5f1": 5}


def read_type(word, allowed):
    """Returns what reads the ranges of a type that is allowed, and what makes its kind."""
    if word not in TYPES or not allowed(word):
        raise Unreadable("type")
    return TYPES[word]


def read_model(word):
    """Returns the resilience of a model."""
    if word in MODELS:
        return MODELS[word]
    if not word.startswith("k="):
        raise Unreadable("model")
    return read_number(word[2:], "model", 2, 2**32 - 1)


def read_members(word):
    """Returns how many members there are."""
    return read_number(word, "number", 1, 2**32 - 1)


def read_bytes(word):
    """Returns the bytes of a word in hexadecimal, or none for a dash."""
    if not BYTES.fullmatch(word):
        raise Unreadable("bytes")
    return b"" if word == "-" else bytes.fromhex(word)


def finish(words, part):
    """Finds a word after the last one."""
    if next(words, None) is not None:
        raise Unreadable(part)
