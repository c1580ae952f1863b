"""Questions at random, most of them nasty: from a seed, so that they can be made again.

A value's bytes are made valid first, with numbers and lengths near the limits where mistakes
are; then some are spoiled: cut, with bytes changed, doubled or left over, with an overlong
varint, with items in another order.
"""

import random

from varints import write_varint

NUMBERS = [0, 1, 2, 3, 5, 7, 16, 100, 126, 127, 128, 129, 254, 255, 256, 257, 300, 16383, 16384]
NUMBERS += [32767, 32768, 65535, 65536, 65537, 2**21 - 1, 2**21, 2**24, 2**24 + 1, 2**28 - 1]
NUMBERS += [2**28, 2**31 - 1, 2**31, 2**32 - 2, 2**32 - 1]
LONGS = NUMBERS + [2**32, 2**32 + 1, 2**53 - 1, 2**53, 2**53 + 1, 2**56, 2**62, 2**63 - 1, 2**63]
LONGS += [2**63 + 1, 2**64 - 2, 2**64 - 1]
BYTES = [0, 1, 2, 3, 5, 127, 128, 129, 254, 255]
LENGTHS = [20, 40, 127, 128, 129, 255, 256, 257, 300, 1025]
SMALL_BOUNDS = [0, 0, 1, 1, 2, 3, 4, 5, 127]
BOUNDS = [128, 255, 256, 1024, 65536, 2**31, 2**32 - 1, 2**32, 2**63, 2**64 - 1, 2**64]
NO_LENGTHS = [b"", b"\x80\x00", b"\x09", b"\xff\xff\xff\xff\x0f", b"\xff\xff\xff\xff\x1f"]
MISTAKES = [b"\x80\x00", b"\x80", b"\x85\x00", b"\xff\xff\xff\xff\x10", b"\x80\x80\x04"]
NO_MODELS = ["n4f1", "n2f1", "k=1", "k=0", "k=", "k=4294967296", "k=4294967299", "K=3", "3"]
NO_MODELS += ["k=+3", "n3f1x"]
NO_RANGES = [".", "...", "..=", "2..=", "5", "", "+1..", "..-1", "0x1..", "a..", "=..5", "1..2..3"]
WORDS = ["", "-", "0", "0g", "0x07", "--", "..", "u8", "set<u8>", "n3f1", "k=3", "7", "00", "0100"]
WORDS += ["FF", "\u00e9", "\t"]


def some(maker):
    """Returns a maker of a list of values: of some items, in the order that they come in."""

    def make(dice):
        many = dice.choice([0, 1, 1, 2, 2, 3, 4, dice.randrange(1, 12)])
        if maker in (byte, word, long, varint, MEMBER) and dice.random() < 0.01:
            many = dice.choice(LENGTHS)
        return [maker(dice) for _ in range(many)]

    return make


def byte(dice):
    return bytes([dice.choice(BYTES) if dice.random() < 0.7 else dice.randrange(256)])


def word(dice):
    number = dice.choice(NUMBERS) if dice.random() < 0.8 else dice.randrange(2**32)
    return number.to_bytes(4, "big")


def long(dice):
    number = dice.choice(LONGS) if dice.random() < 0.8 else dice.randrange(2**64)
    return number.to_bytes(8, "big")


def fixed(size):
    """Returns a maker of bytes of one size: mostly near others, so that a byte or two decide."""
    places = [it for it in range(size) if it % 8 in (0, 7)] + [size - 1]

    def make(dice):
        if dice.random() < 0.1:
            return dice.randbytes(size)
        data = bytearray([dice.choice([0, 0xAA, 0xAA, 0xFF])] * size)
        for place in dice.sample(places, dice.choice([0, 1, 1, 1, 2])):
            data[place] = byte(dice)[0]
        return bytes(data)

    return make


MEMBER = fixed(32)


def varint(dice):
    return write_varint(dice.choice(NUMBERS) if dice.random() < 0.8 else dice.randrange(2**32))


def number_of(encoded):
    """Returns the number that a varint is."""
    return sum((byte & 0x7F) << 7 * place for place, byte in enumerate(encoded))


def listed(items):
    """Returns the encoding of a list of encoded items."""
    return write_varint(len(items)) + b"".join(items)


def list_of(maker):
    return lambda dice: listed(some(maker)(dice))


def filled(maker):
    """Returns a maker of a list that is hardly ever empty."""
    return lambda dice: listed(some(maker)(dice) or [maker(dice)] * (dice.random() < 0.9))


def set_of(maker, key=lambda item: item):
    """Returns a maker of the list of a set: in order most of the time."""

    def make(dice):
        items = some(maker)(dice)
        if dice.random() < 0.8:
            items = sorted(set(items), key=key)
        elif dice.random() < 0.5:
            items.sort(key=key)
        return listed(items)

    return make


def pairs_of(key, value):
    """Returns a maker of the two lists of a map: mostly keys in order, and as many values."""

    def make(dice):
        keys = some(key)(dice)
        keys = sorted(set(keys)) if dice.random() < 0.8 else keys
        count = len(keys) + (dice.random() < 0.05) - (dice.random() < 0.05)
        return listed(keys) + listed([value(dice) for _ in range(count)])

    return make


def value(dice):
    """Returns a certificate's value: mostly a decision for a slot."""
    slot = b"".join(some(byte)(dice))
    length = write_varint(len(slot)) if dice.random() < 0.9 else dice.choice(NO_LENGTHS)
    return length + slot + b"".join(some(byte)(dice))


def signers(dice, members):
    """Returns the signers of a certificate, near a quorum of this number of members."""
    most = min(members, 60)
    quorums = [members - (members - 1) // 3, members - (members - 1) // 5, members // 2 + 1, most]
    indices = sorted(dice.sample(range(most), min(most, dice.choice(quorums))))
    if dice.random() < 0.15:
        indices.append(dice.choice([members, members - 1, members + 256, 2**31, 2**32 - 1]))
    if dice.random() < 0.05:
        dice.shuffle(indices)
    if dice.random() < 0.1:
        indices = indices[:-1]
    return listed([write_varint(max(index, 0) % 2**32) for index in indices])


def certificate(dice, members=4, decided=None):
    decided = value(dice) if decided is None else decided
    return write_varint(len(decided)) + decided + signers(dice, members)


def weights(dice):
    """Returns weights: small ones, great ones, or some that are nearly 2^64 together."""
    many = dice.choice([1, 1, 2, 2, 3, 3, 4, 4, 5, 7, dice.randrange(8, 40)])
    kind = dice.random()
    if kind < 0.5:
        found = [dice.choice([1, 1, 1, 2, 3, 5, 10, 33, 34, 66, 67, 100]) for _ in range(many)]
    elif kind < 0.65:
        found = [dice.choice(LONGS) for _ in range(many)]
    else:
        total = dice.choice([2**32, 2**53, 2**63, 2**64 - 1]) + dice.choice([-2, -1, 0, 1])
        found = [dice.randrange(1, total // many) for _ in range(many - 1)]
        found.insert(dice.randrange(many), total - sum(found))
    if dice.random() < 0.04:
        found[dice.randrange(len(found))] = 0
    if dice.random() < 0.04:
        found.insert(dice.randrange(len(found) + 1), 2**64 - 1)
    if dice.random() < 0.02:
        found = []
    return [min(it, 2**64 - 1) for it in found]


def longs(numbers):
    """Returns the encoding of a list of numbers of eight bytes."""
    return listed([it.to_bytes(8, "big") for it in numbers])


def heavy_certificate(dice, weighed, decided):
    """Returns a certificate whose signers weigh about a quorum."""
    count, total = len(weighed), sum(weighed)
    order, chosen = dice.sample(range(count), count), []
    quorum = total - max(total - 1, 0) // dice.choice([2, 3, 3, 3, 5])
    while order and sum(weighed[it] for it in chosen) < quorum:
        chosen.append(order.pop())
    if dice.random() < 0.2:
        chosen = chosen[:-1]
    if dice.random() < 0.05:
        chosen.append(dice.choice([count, count + 256, 2**31, 2**32 - 1]))
    indices = [write_varint(it) for it in sorted(chosen)]
    return write_varint(len(decided)) + decided + listed(indices)


def body(encoded):
    """Returns an encoded list of bytes without its length: such lists are ordered by that."""
    return encoded[1:]


SET_U8, LIST_U8 = set_of(byte), list_of(byte)
MAP = pairs_of(byte, byte)
# For each type how many ranges it has, and what makes its bytes.
TYPES = {
    "u8": (0, byte),
    "u32": (0, word),
    "varint": (0, varint),
    "usize": (1, varint),
    "participant": (0, varint),
    "vec<u8>": (1, LIST_U8),
    "vec<u32>": (1, list_of(word)),
    "vec<vec<u8>>": (2, list_of(LIST_U8)),
    "vec<vec<vec<u8>>>": (3, list_of(list_of(LIST_U8))),
    "set<u8>": (1, SET_U8),
    "set<u32>": (1, set_of(word)),
    "set<participant>": (1, set_of(varint, number_of)),
    "set<set<u8>>": (2, set_of(SET_U8, body)),
    "set<non-empty<u8>>": (2, set_of(filled(byte), body)),
    "map<u8,u8>": (1, MAP),
    "map<u8,set<u8>>": (2, pairs_of(byte, SET_U8)),
    "vec<map<u8,u8>>": (2, list_of(MAP)),
    "bimap<u8,u8>": (1, MAP),
    "non-empty<u8>": (1, filled(byte)),
    "non-empty<non-empty<u8>>": (2, filled(filled(byte))),
    "certificate": (2, certificate),
    "u64": (0, long),
    "vec<u64>": (1, list_of(long)),
    "member": (0, MEMBER),
    "set<member>": (1, set_of(MEMBER)),
    "map<member,u8>": (1, pairs_of(MEMBER, byte)),
    "map<member,u64>": (1, pairs_of(MEMBER, long)),
    "bimap<member,member>": (1, pairs_of(MEMBER, MEMBER)),
    "set<bytes20>": (1, set_of(fixed(20))),
    "set<bytes33>": (1, set_of(fixed(33))),
    "set<bytes48>": (1, set_of(fixed(48))),
    "set<bytes96>": (1, set_of(fixed(96))),
}
# For each set what makes an item's bytes, and the key by which these are ordered.
SETS = {
    "set<u8>": (byte, bytes),
    "set<u32>": (word, bytes),
    "set<participant>": (varint, number_of),
    "set<set<u8>>": (SET_U8, body),
    "set<non-empty<u8>>": (filled(byte), body),
    "set<member>": (MEMBER, bytes),
    "set<bytes20>": (fixed(20), bytes),
    "set<bytes33>": (fixed(33), bytes),
    "set<bytes48>": (fixed(48), bytes),
    "set<bytes96>": (fixed(96), bytes),
}
# For each type that is built what makes the bytes of its listed items.
BUILT = {name: list_of(maker) for name, (maker, _) in SETS.items()}
BUILT.update({"map<u8,u8>": MAP, "map<u8,set<u8>>": pairs_of(byte, SET_U8), "bimap<u8,u8>": MAP})
BUILT.update({it: TYPES[it][1] for it in TYPES if it.startswith(("map<member", "bimap<member"))})


def spoiled(dice, data):
    """Returns bytes with a mistake."""
    place = dice.randrange(len(data) + 1)
    kind = dice.randrange(6)
    if kind == 0:
        return data[:place]
    if kind == 1:
        return data + bytes(dice.choice([1, 2, 3, 4, 255, 256, 257]))
    if kind == 2:
        return data[:place] + byte(dice) + data[place + 1 :]
    if kind == 3:
        return data[:place] + dice.choice(MISTAKES) + data[place:]
    if kind == 4:
        return data[:place] + data[place + 1 :]
    return write_varint(dice.choice(NUMBERS)) + data[1:]


def text(dice, data):
    """Returns the word of some bytes, spoiled at times, in digits of one case or of both."""
    if dice.random() < 0.3:
        data = spoiled(dice, data)
    digits = data.hex() or "-"
    if dice.random() < 0.9:
        return digits
    return "".join(map(dice.choice, zip(digits, digits.upper())))


def bound(dice):
    """Returns a bound at times, and nothing at others."""
    if dice.random() < 0.4:
        return ""
    number = dice.choice(SMALL_BOUNDS if dice.random() < 0.8 else BOUNDS)
    return "0" * dice.choice([0] * 8 + [1, 25]) + str(number)


def range_word(dice):
    kind = dice.random()
    if kind < 0.4:
        return ".."
    if kind < 0.43:
        return dice.choice(NO_RANGES)
    end = bound(dice)
    return bound(dice) + dice.choice(["..", "..="] if end else [".."]) + end


def model(dice):
    if dice.random() < 0.03:
        return dice.choice(NO_MODELS)
    resilience = dice.choice([2, 3, 4, 5, 6, 7, 100, 65536, 2**31, 2**32 - 1])
    return dice.choice(["n3f1", "n5f1", f"k={resilience}", f"k=00{resilience}"])


def count(dice):
    """Returns a number of members."""
    if dice.random() < 0.05:
        return dice.choice(NUMBERS)
    return dice.choice([1, 2, 3, 4, 5, 6, 7, 10, 11, 16, 20, 21, 22, dice.randrange(1, 60)])


def reading(dice):
    name = dice.choice(list(TYPES))
    ranges, maker = TYPES[name]
    return [name, *(range_word(dice) for _ in range(ranges)), text(dice, maker(dice))]


def building(dice):
    name = dice.choice(list(BUILT))
    return [dice.choice(["build", "build-unique"]), name, text(dice, BUILT[name](dice))]


def finding(dice):
    name = dice.choice(list(SETS))
    maker, key = SETS[name]
    items = sorted({maker(dice) for _ in range(dice.choice([0, 1, 2, 3, 8, 30, 300]))}, key=key)
    item = dice.choice(items) if items and dice.random() < 0.6 else maker(dice)
    return ["position", name, text(dice, listed(items)), text(dice, item)]


def numbers(dice):
    return ["faults", model(dice), str(count(dice))]


def refuting(dice):
    members = count(dice)
    bound = (members - 1) // 3
    near = [members // 5, bound, bound + 1, members // 2, members, members + 1]
    faults = dice.choice(near + [dice.choice(NUMBERS)])
    return ["refute", model(dice), str(members), str(faults)]


def checking(dice):
    members = count(dice)
    return ["quorum", model(dice), str(members), text(dice, certificate(dice, members))]


def two_values(dice):
    """Returns two values: at times one twice, or two for one slot."""
    one = value(dice)
    return one, dice.choice([one, one + b"\1", one[:-1], value(dice), one[:-1] + byte(dice)])


def comparing(dice):
    """Returns a question about two certificates."""
    members = count(dice)
    one, other = two_values(dice)
    pair = [text(dice, certificate(dice, members, it)) for it in (one, other)]
    return [dice.choice(["conflict", "equivocation"]), model(dice), str(members), *pair]


def weighing(dice):
    """Returns a question about weights alone, or about one certificate."""
    weighed = weights(dice)
    if dice.random() < 0.5:
        return ["weights", model(dice), text(dice, longs(weighed))]
    signed = heavy_certificate(dice, weighed, value(dice))
    return ["weighted-quorum", model(dice), text(dice, longs(weighed)), text(dice, signed)]


def outweighing(dice):
    """Returns a question about two certificates that are counted by weight."""
    weighed, values = weights(dice), two_values(dice)
    pair = [text(dice, heavy_certificate(dice, weighed, it)) for it in values]
    verb = dice.choice(["weighted-conflict", "weighted-equivocation"])
    return [verb, model(dice), text(dice, longs(weighed)), *pair]


def worded(dice, words):
    """Returns the line of some words, with a mistake in the words at times."""
    if dice.random() < 0.03:
        words[dice.randrange(len(words))] = dice.choice(WORDS)
    if dice.random() < 0.02:
        words.insert(dice.randrange(len(words) + 1), dice.choice(WORDS))
    if dice.random() < 0.02:
        del words[dice.randrange(len(words))]
    return " ".join(words) + ("\r" if dice.random() < 0.01 else "")


def questions(seed, many):
    """Returns so many questions, and some comments and empty lines between them."""
    dice = random.Random(seed)
    kinds = [reading] * 5 + [building] * 2 + [comparing] * 2
    kinds += [finding, numbers, refuting, checking, weighing, outweighing, outweighing]
    lines = []
    for _ in range(many):
        lines += dice.choices(["", "# set<u8> .. 00"]) if dice.random() < 0.01 else []
        lines.append(worded(dice, dice.choice(kinds)(dice)))
    return lines
