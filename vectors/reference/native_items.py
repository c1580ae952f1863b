"""Sets, committees, maps and bimaps of items of any size, as the native calls read, search and
write them."""

from bisect import bisect_left

from native_views import *
from varints import write_varint

MEMBER = 32


def items_of(data, size):
    """Returns the items of one size that bytes are."""
    return [data[at : at + size] for at in range(0, len(data), size)]


def items_at(source, count, size):
    """Returns the next items. Those of no bytes are the same, and two of them are enough."""
    data = bytes_at(source, count * size)
    return items_of(data, size) if size else [b""] * min(count, 2)


def keys_at(source, size, least, most):
    """Returns where the keys of a set are, and how many."""
    count = length_at(source, range(least, most + 1))
    start = source.taken
    if not is_strict(items_at(source, count, size)):
        raise Fault(NOT_STRICT)
    return start, count


def read_keys(size, data, least, most):
    source = Source(data)
    start, count = keys_at(source, size, least, most)
    return {"count": count, "start": start, "left": source.left()}


def set_read(size, input, least, most):
    return viewed(read_keys, size, input, least, most)


def committee_read(input, least, most):
    return viewed(read_keys, MEMBER, input, least, most)


def place_of(keys, key):
    """Returns the index of a key among keys in order, or that of the first greater one."""
    items = items_of(keys, len(key))
    index = bisect_left(items, key)
    if key not in items:
        raise Fault(ABSENT, index=index)
    return {"index": index}


def place_by_size(keys, key):
    """Returns the same for a key that may be of no bytes, or not of the size of the keys."""
    if not key:
        raise Fault(NO_SIZE)
    if len(keys) % len(key) > 0:
        raise Fault(NOT_WHOLE)
    return place_of(keys, key)


def set_position(keys, key):
    return viewed(place_by_size, keys, key)


def committee_position(members, key):
    return viewed(place_of, members, key)


def check_items(key_size, size, data):
    """Finds that keys have no bytes, or that bytes follow the last whole item."""
    if key_size == 0:
        raise Fault(NO_SIZE)
    if len(data) % size > 0:
        raise Fault(NOT_WHOLE, number=len(data) % size)


def put(data, room, **fields):
    """Returns the view of what is written, or finds that it takes more room."""
    view = {**fields, "size": len(data)}
    if len(data) > room:
        raise Fault(ROOM, **view)
    return view, data


def write_keys(size, keys, room):
    kept = sorted(set(items_of(keys, size)))
    return put(write_varint(len(kept)) + b"".join(kept), room, count=len(kept))


def write_by_size(size, keys, room):
    check_items(size, size, keys)
    return write_keys(size, keys, room)


def set_encode_dedup(size, keys, room):
    return written(write_by_size, size, keys, room)


def committee_encode_dedup(members, room):
    return written(write_keys, MEMBER, members, room)


def places(key_size, value_size, data, least, most):
    """Returns the view of a map, with where its last value ends."""
    source = Source(data)
    keys, count = keys_at(source, key_size, least, most)
    length_at(source, [count])
    values = source.taken
    bytes_at(source, count * value_size)
    return {"count": count, "keys": keys, "values": values, "left": source.left()}


def map_read(key_size, value_size, input, least, most):
    return viewed(places, key_size, value_size, input, least, most)


def read_bimap(key_size, value_size, data, least, most, room):
    view = places(key_size, value_size, data, least, most)
    count, start = view["count"], view["values"]
    if room < count:
        raise Fault(ROOM, number=count)
    values = [data[start + i * value_size : start + (i + 1) * value_size] for i in range(count)]
    order = sorted(range(count), key=lambda index: values[index])
    met = {}
    for index, value in enumerate(values):
        if value in met:
            return {"status": REPEATED_VALUE, "first": met[value], "second": index}, order
        met[value] = index
    return view, order


def bimap_read(key_size, value_size, input, least, most, room):
    return written(read_bimap, key_size, value_size, input, least, most, room)


def pairs_of(key_size, value_size, data):
    check_items(key_size, key_size + value_size, data)
    return items_of(data, key_size + value_size)


def check_keys(pairs, key_size):
    """Finds the first index whose key an earlier pair has."""
    met = set()
    for index, pair in enumerate(pairs):
        if pair[:key_size] in met:
            raise Fault(REPEATED_KEY, number=index)
        met.add(pair[:key_size])


def write_pairs(key_size, pairs, room):
    """Returns the map of the first pair with each key."""
    kept = {pair[:key_size]: pair[key_size:] for pair in reversed(pairs)}
    keys, length = sorted(kept), write_varint(len(kept))
    values = [kept[key] for key in keys]
    return put(length + b"".join(keys) + length + b"".join(values), room, count=len(kept))


def write_first(key_size, value_size, data, room):
    return write_pairs(key_size, pairs_of(key_size, value_size, data), room)


def write_unique(key_size, value_size, data, room):
    pairs = pairs_of(key_size, value_size, data)
    check_keys(pairs, key_size)
    return write_pairs(key_size, pairs, room)


def map_encode_dedup(key_size, value_size, pairs, room):
    return written(write_first, key_size, value_size, pairs, room)


def map_encode(key_size, value_size, pairs, room):
    return written(write_unique, key_size, value_size, pairs, room)
