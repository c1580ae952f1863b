"""Random inputs that are right, nearly right and wrong, the same in each run, and what came of them."""

import collections
import os

from commonware import CommonwareError
from plain import varint

CASES = int(os.environ.get("COMMONWARE_CASES", "100000"))
"""How many cases each group of calls is tried with."""

SIZES = [32, 33, 48, 96]
"""Sizes of keys that are in use, beside those from 0 to 20."""

ALL = 2**64 - 1


def outcome(call, *arguments):
    """Returns what a call of the package returns, or the name of its error, its numbers, and which certificate it is
    about."""
    try:
        return call(*arguments)
    except CommonwareError as error:
        return (type(error).__name__, *error.args, error.which)


class Seen(collections.Counter):
    """How often each kind of outcome was seen."""

    def note(self, result):
        name = result[0] if isinstance(result, tuple) and result and isinstance(result[0], str) else "ok"
        self[name] += 1

    def assert_each(self, test, names, least):
        test.assertEqual(set(self), set(names.split()), self)
        test.assertGreaterEqual(min(self.values()), least, self)


def some_size(random):
    """Returns a size that is seldom a large one."""
    at = random.randrange(30)
    return at if at <= 20 else SIZES[at % 4] if at < 29 else some_large(random)


def some_large(random):
    """Returns a size of which few items have 2^64 bytes or more, about a small number where that wraps."""
    way = random.randrange(3)
    if way == 0:
        return min(ALL, ALL // random.randrange(1, 300) + random.randrange(3))
    if way == 1:
        return random.randrange(34) + (1 << random.randrange(60, 64))
    return random.getrandbits(64) >> random.randrange(32)


ENDS = [0, 7, 8, 15, 16, 23, 24, 31, 47, 95]


def some_key(random, size):
    """Returns a key that differs from others in a byte about the ends of words, or nowhere."""
    key = bytearray(b"\x5a" * size)
    for _ in range(min(random.randrange(3), size)):
        at = min(random.choice(ENDS), size - 1) if random.randrange(4) else random.randrange(size)
        key[at] = random.choice((0, 1, 0x59, 0x5B, 127, 128, 255))
    return bytes(key)


def some_keys(random, size):
    return [some_key(random, size) for _ in range(random.randrange(9))]


def some_set(random, size):
    """Returns keys that are nearly always in order and each once."""
    keys = some_keys(random, size)
    way = random.randrange(8)
    if way > 1:
        keys = list(set(keys))
    if way > 0:
        keys.sort()
    if way == 2 and len(keys) > 1:
        at = random.randrange(len(keys) - 1)
        keys[at], keys[at + 1] = keys[at + 1], keys[at]
    return keys


def list_bytes(items, count=None):
    return varint(len(items) if count is None else count) + b"".join(items)


def spoiled(random, data):
    """Returns bytes that are wrong in one of several ways, or as they are."""
    way = random.randrange(12)
    at = random.randrange(len(data)) if data else 0
    if way == 0:
        return data[:at]
    if way == 1:
        return data + random.randbytes(random.randrange(40))
    if way == 2:
        return data[:at] + random.randbytes(1) + data[at + 1 :]
    if way == 3 and data and data[0] < 128:
        return bytes([data[0] | 128, 0]) + data[1:]
    if way == 4:
        return varint(random.getrandbits(64) >> random.randrange(64)) + data[1:]
    return data


def some_limits(random):
    way = random.randrange(4)
    return (random.randrange(9), random.randrange(9)) if way == 0 else (0, 8) if way == 1 else (0, ALL)


KINDS = [
    bytes,
    bytearray,
    memoryview,
    lambda data: memoryview(bytearray(data)),
    lambda data: memoryview(b"\xee" + data + b"\xee")[1:-1],
    lambda data: memoryview(data[::-1])[::-1],
]


def some_kind(random, data):
    """Returns the bytes as one of the types that have bytes."""
    return random.choice(KINDS)(data)


def some_value(random):
    """Returns a value, which often is a decision for a slot."""
    if random.randrange(3) == 0:
        return bytes(random.randrange(3) for _ in range(random.randrange(4)))
    slot = bytes(random.randrange(2) for _ in range(random.randrange(2)))
    return bytes([len(slot)]) + slot + bytes(random.randrange(2) for _ in range(random.randrange(2)))


def some_signers(random, members):
    """Returns signers of a committee that are nearly always in order, members and a quorum."""
    keep = random.randrange(4)
    signers = [it for it in range(members) if random.randrange(9) >= keep]
    way = random.randrange(40)
    if way == 0:
        signers.append(members + random.randrange(200))
    elif way == 1:
        signers.append(signers[0] if signers else 0)
    elif way == 2 and len(signers) > 1:
        signers.reverse()
    elif way == 3:
        signers.append(random.randrange(2**32))
    return signers
