"""What builders make of items in any order, and where an item is in a set."""

from containers import BiMap, List, Map, exactly, has_equal


class Refusal(Exception):
    """An answer that is no value, though all inputs are read."""


def read_listed(kind, source):
    """Returns the items of a set, or the pairs of a map, that are listed in any order."""
    if not isinstance(kind, Map):
        return List(kind.item).read(source)
    keys = List(kind.key).read(source)
    values = List(kind.value, exactly(len(keys))).read(source)
    return list(zip(keys, values))


def without_repeats(entries, key_of):
    """Returns entries in order; of those with equal keys the first listed stays."""
    kept = []
    for entry in sorted(entries, key=key_of):
        if not kept or key_of(kept[-1]) != key_of(entry):
            kept.append(entry)
    return kept


def build(kind, entries, drops_repeats):
    """Returns the set, map or bimap of listed entries, or finds two equal keys or values."""
    is_map = isinstance(kind, Map)
    key_of = (lambda pair: pair[0]) if is_map else (lambda item: item)
    built = without_repeats(entries, key_of)
    may_drop = drops_repeats and not isinstance(kind, BiMap)
    if len(built) < len(entries) and not may_drop:
        raise Refusal("DuplicateKey")
    if isinstance(kind, BiMap) and has_equal([pair[1] for pair in entries]):
        raise Refusal("DuplicateValue")
    return built


def position(items, item):
    """Returns where an equal item is in a set, counted from 0, or None."""
    return items.index(item) if item in items else None
