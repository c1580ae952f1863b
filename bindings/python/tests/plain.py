"""The encodings and the results once more, in plain Python and item by item: what the package is compared with. It is
written from `docs/FORMAT.md`. A fault is the name of an error and its numbers."""


class Fault(Exception):
    """Why there is no result: the name of the error, its numbers, and which certificate it is about."""

    def __init__(self, name, *numbers, which=None):
        super().__init__(name, *numbers, which)
        self.outcome = (name, *numbers, which)


def outcome(call, *arguments):
    """Returns what a call returns, or its fault."""
    try:
        return call(*arguments)
    except Fault as fault:
        return fault.outcome


def varint(number):
    groups = [number & 127]
    while number > 127:
        number >>= 7
        groups.append(number & 127)
    return bytes([it | 128 for it in groups[:-1]] + groups[-1:])


def read_varint(data, at):
    number = 0
    for i in range(5):
        if at + i >= len(data):
            raise Fault("EndOfInput")
        byte = data[at + i]
        number |= (byte & 127) << (7 * i)
        if byte < 128:
            if (byte == 0 and i > 0) or number > 0xFFFFFFFF:
                raise Fault("InvalidVarint")
            return number, at + i + 1
    raise Fault("InvalidVarint")


def read_length(data, at, least, most):
    length, at = read_varint(data, at)
    if not least <= length <= most:
        raise Fault("InvalidLength", length)
    return length, at


def read_items(size, count, data, at):
    if at + size * count > len(data):
        raise Fault("EndOfInput")
    return [data[at + i * size : at + (i + 1) * size] for i in range(count)], at + size * count


def read_set(size, data, least, most, at=0):
    count, at = read_length(data, at, least, most)
    # Of items of no bytes the first two are equal.
    keys, at = read_items(size, count if size > 0 else min(count, 2), data, at)
    for before, after in zip(keys, keys[1:]):
        if not before < after:
            raise Fault("NotStrict", None)
    return keys, at


def read_map(key_size, value_size, data, least, most):
    keys, at = read_set(key_size, data, least, most)
    count, at = read_length(data, at, len(keys), len(keys))
    values, at = read_items(value_size, count, data, at)
    return keys, values, at


def read_bimap(key_size, value_size, data, least, most):
    keys, values, at = read_map(key_size, value_size, data, least, most)
    seen = {}
    for index, value in enumerate(values):
        if value in seen:
            raise Fault("RepeatedValue", seen[value], index)
        seen[value] = index
    return keys, values, at


def whole(length, at, which=None):
    if at < length:
        raise Fault("LeftOver", length - at, which=which)


def whole_items(size, data):
    """Takes apart items, one after another."""
    if size == 0:
        raise Fault("NoSize")
    over = len(data) % size
    if over > 0:
        raise Fault("NotWhole", over)
    return [data[i : i + size] for i in range(0, len(data), size)]


def write_set(size, data):
    keys = sorted(set(whole_items(size, data)))
    return varint(len(keys)) + b"".join(keys)


def pairs_of(key_size, value_size, data):
    if key_size == 0:
        raise Fault("NoSize")
    return [(it[:key_size], it[key_size:]) for it in whole_items(key_size + value_size, data)]


def map_bytes(pairs):
    count = varint(len(pairs))
    keys = sorted(pairs)
    return count + b"".join(keys) + count + b"".join(pairs[key] for key in keys)


def write_map(key_size, value_size, data):
    first = {}
    for key, value in pairs_of(key_size, value_size, data):
        first.setdefault(key, value)
    return map_bytes(first)


def write_map_unique(key_size, value_size, data):
    first = {}
    for index, (key, value) in enumerate(pairs_of(key_size, value_size, data)):
        if key in first:
            raise Fault("RepeatedKey", index)
        first[key] = value
    return map_bytes(first)


def read_certificate(data, most_bytes, most_signers):
    length, at = read_length(data, 0, 0, most_bytes)
    [value], at = read_items(length, 1, data, at)
    count, at = read_length(data, at, 0, most_signers)
    signers = []
    for _ in range(count):
        signer, at = read_varint(data, at)
        signers.append(signer)
    if any(before >= after for before, after in zip(signers, signers[1:])):
        raise Fault("NotStrict", None)
    return value, tuple(signers), at


def certificate_bytes(value, signers):
    return varint(len(value)) + value + varint(len(signers)) + b"".join(map(varint, signers))


def write_certificate(value, signers):
    for index in range(1, len(signers)):
        if signers[index] <= signers[index - 1]:
            raise Fault("NotStrict", index)
    return certificate_bytes(value, signers)


def slot_of(value):
    """Returns the slot and the decision of a value, or None."""
    try:
        length, at = read_varint(value, 0)
    except Fault:
        return None
    return None if at + length > len(value) else (value[at : at + length], value[at + length :])


def max_faults(k, n):
    if k < 2:
        raise Fault("NoModel")
    if n == 0:
        raise Fault("NoMembers")
    faults = n // k
    while k * faults + 1 > n:
        faults -= 1
    return faults


def the_certificate(data, which=None):
    try:
        value, signers, at = read_certificate(data, 2**64, 2**64)
    except Fault as fault:
        raise Fault(*fault.outcome[:-1], which=which) from None
    whole(len(data), at, which)
    return value, signers


def are_quorum(k, members, *all_signers):
    ways = [(None, all_signers[0])] if len(all_signers) == 1 else enumerate(all_signers, 1)
    ways = list(ways)
    for which, signers in ways:
        if any(signer >= members for signer in signers):
            raise Fault("Outside", which=which)
    for which, signers in ways:
        if len(signers) < members - max_faults(k, members):
            raise Fault("TooFew", which=which)


def check(k, members, data):
    max_faults(k, members)
    value, signers = the_certificate(data)
    are_quorum(k, members, signers)
    slot, decision = slot_of(value) or (None, None)
    return value, slot, decision, len(signers)


def both(k, members, first, second, is_one_slot):
    """Returns those that signed both certificates."""
    max_faults(k, members)
    (value, signers), (other, others) = the_certificate(first, 1), the_certificate(second, 2)
    if is_one_slot:
        parts = slot_of(value), slot_of(other)
        for which, part in enumerate(parts, 1):
            if part is None:
                raise Fault("NoSlot", which=which)
        if parts[0][0] != parts[1][0]:
            raise Fault("OtherSlot")
    if value == other:
        raise Fault("SameValue")
    are_quorum(k, members, signers, others)
    return tuple(sorted(set(signers) & set(others)))
