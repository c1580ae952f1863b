"""Each call beside the plain implementation: 100,000 random cases of each group of calls, or as many as
COMMONWARE_CASES says."""

import itertools
import random
import unittest

import cases
import plain
from cases import CASES, Seen, list_bytes, outcome, some_keys, some_kind, some_limits, some_set, some_size, spoiled
from commonware import (
    BiMapView,
    Certificate,
    Committee,
    MapView,
    SetView,
    check,
    conflict,
    equivocation,
    max_faults,
    quorum,
    slot_value,
    smaller_quorum,
)

outcome_of = plain.outcome
DECODED = "ok EndOfInput InvalidVarint InvalidLength NotStrict"


def rest_of(read, data):
    """Returns what a naive reader returns, with the bytes that follow in the place of their offset."""
    return (*read[:-1], data[read[-1] :]) if not isinstance(read[0], str) else read


class Random(unittest.TestCase):
    maxDiff = None

    def start(self, number):
        return random.Random(number), Seen()

    def test_sets_are_read(self):
        draw, seen = self.start(1)
        for _ in range(CASES):
            size = some_size(draw)
            stored = size if size < 100 else draw.randrange(4)
            data = spoiled(draw, list_bytes(some_set(draw, stored)))
            limits = some_limits(draw)
            wanted = rest_of(outcome_of(plain.read_set, size, data, *limits), data)
            result = outcome(SetView.read, size, some_kind(draw, data), *limits)
            seen.note(result)
            if wanted[0] != result[0]:
                keys, rest = result
                self.assertEqual((list(keys), bytes(rest)), wanted, (size, data, limits))
                self.assertEqual((keys.size, len(keys), keys.data), (size, len(wanted[0]), b"".join(wanted[0])))
                self.assertEqual(bytes(keys) + bytes(rest), data)
            else:
                self.assertEqual(result, wanted, (size, data, limits))
        seen.assert_each(self, DECODED, CASES // 100)

    def test_committees_are_read_and_written(self):
        draw, seen = self.start(2)
        for _ in range(CASES):
            keys = some_set(draw, 32)
            data, limits = spoiled(draw, list_bytes(keys)), some_limits(draw)
            wanted = rest_of(outcome_of(plain.read_set, 32, data, *limits), data)
            result = outcome(Committee.read, some_kind(draw, data), *limits)
            seen.note(result)
            if wanted[0] != result[0]:
                committee, rest = result
                self.assertEqual((list(committee), bytes(rest)), wanted, (data, limits))
                for key in some_keys(draw, 32) + keys:
                    place = wanted[0].index(key) if key in wanted[0] else None
                    self.assertEqual(committee.position(key), place)
            else:
                self.assertEqual(result, wanted, (data, limits))
            draw.shuffle(keys)
            joined = b"".join(keys)[: draw.choice((None, None, -1, -32))]
            self.assertEqual(outcome(Committee.encode_dedup, joined), outcome_of(plain.write_set, 32, joined))
            self.assertEqual(Committee.encode_dedup(keys), plain.write_set(32, b"".join(keys)))
        seen.assert_each(self, DECODED, CASES // 100)

    def test_keys_are_found(self):
        draw, seen = self.start(3)
        for _ in range(CASES // 4):
            size = draw.choice((*range(21), 32, 33, 48, 96))
            keys = sorted(set(some_keys(draw, size) + some_keys(draw, size)))
            view = SetView.decode(size, list_bytes(keys))
            for key in itertools.chain(some_keys(draw, size)[:2], draw.sample(keys, min(2, len(keys))), [b"other"]):
                place = keys.index(key) if key in keys else None
                self.assertEqual(view.position(some_kind(draw, key)), place, (keys, key))
                self.assertEqual((key in view, view.count(key)), (place is not None, int(place is not None)))
                seen["absent" if place is None else "found"] += 1
        seen.assert_each(self, "absent found", CASES // 4)

    def some_maps(self, draw, value_size):
        """Returns the sizes and the bytes of a map that is nearly right."""
        key_size = draw.choice((*range(21), *cases.SIZES))
        keys = some_set(draw, key_size)
        values = [bytes(draw.randrange(3) for _ in range(value_size)) for _ in keys]
        if draw.randrange(3) and value_size > 0:
            values = [bytes([i]) + it[1:] for i, it in enumerate(values)]
            draw.shuffle(values)
        count = draw.randrange(9) if draw.randrange(24) == 0 else None
        after = spoiled(draw, list_bytes(values, count))
        before = list_bytes(keys)
        data = (spoiled(draw, before) if draw.randrange(3) == 0 else before) + after
        way = draw.randrange(16)
        sizes = (some_size(draw), value_size) if way == 0 else (key_size, some_size(draw)) if way == 1 else None
        return sizes or (key_size, value_size), data

    def are_read(self, seed, view, plain_read, names):
        draw, seen = self.start(seed)
        for _ in range(CASES):
            sizes, data = self.some_maps(draw, draw.randrange(10))
            limits = some_limits(draw)
            wanted = rest_of(outcome_of(plain_read, *sizes, data, *limits), data)
            result = outcome(view.read, *sizes, some_kind(draw, data), *limits)
            seen.note(result)
            case = (sizes, data, limits)
            if wanted[0] == result[0]:
                self.assertEqual(result, wanted, case)
                continue
            pairs, rest = result
            self.assertEqual((list(pairs), list(pairs.values()), bytes(rest)), wanted, case)
            self.assertEqual((pairs.key_size, pairs.value_size, len(pairs)), (*sizes, len(wanted[0])))
            self.assertEqual(bytes(pairs) + bytes(rest), data)
            self.has_pairs(pairs, dict(zip(*wanted[:2])), some_keys(draw, sizes[0]) if sizes[0] < 100 else [])
        seen.assert_each(self, names, CASES // 200)

    def has_pairs(self, pairs, wanted, keys):
        self.assertEqual(dict(pairs.items()), wanted)
        for key in itertools.chain(wanted, keys):
            self.assertEqual(pairs.get(key), wanted.get(key))
        if isinstance(pairs, BiMapView):
            inverse = {value: key for key, value in wanted.items()}
            for value in itertools.chain(inverse, keys):
                self.assertEqual(pairs.get_key(value), inverse.get(value))

    def test_maps_are_read(self):
        self.are_read(4, MapView, plain.read_map, DECODED)

    def test_bimaps_are_read(self):
        self.are_read(5, BiMapView, plain.read_bimap, DECODED + " RepeatedValue")

    def test_sets_and_maps_are_written(self):
        draw, seen = self.start(6)
        for _ in range(CASES):
            key_size, value_size = draw.choice((*range(9), 20, 32, 33, 48, 96)), draw.randrange(5)
            keys = [draw.choice(some_keys(draw, key_size) or [b"\1" * key_size]) for _ in range(draw.randrange(7))]
            pairs = [(key, draw.randbytes(value_size)) for key in keys]
            over = draw.randbytes(draw.choice((0, 0, 0, 1, 3)))
            joined = some_kind(draw, b"".join(keys) + over)
            wanted = outcome_of(plain.write_set, key_size, bytes(joined))
            self.assertEqual(outcome(SetView.encode_dedup, key_size, joined), wanted, keys)
            flat = b"".join(itertools.chain.from_iterable(pairs)) + over
            joined = some_kind(draw, flat)
            ways = (MapView.encode_dedup, plain.write_map), (MapView.encode, plain.write_map_unique)
            for encode, write in ways:
                wanted = outcome_of(write, key_size, value_size, flat)
                self.assertEqual(outcome(encode, key_size, value_size, joined), wanted, (pairs, over))
                seen.note(wanted)
                if not over:
                    self.assertEqual(outcome(encode, key_size, value_size, iter(pairs)), wanted, pairs)
            if not over and key_size > 0:
                self.assertEqual(SetView.encode_dedup(key_size, iter(keys)), plain.write_set(key_size, b"".join(keys)))
                self.assertEqual(MapView.encode_dedup(key_size, value_size, dict(pairs)), plain.map_bytes(dict(pairs)))
        seen.assert_each(self, "ok NoSize NotWhole RepeatedKey", CASES // 100)

    def test_certificates_are_read_and_written(self):
        draw, seen = self.start(7)
        for _ in range(CASES):
            value, signers = cases.some_value(draw), cases.some_signers(draw, draw.randrange(1, 9))
            data = spoiled(draw, plain.certificate_bytes(value, signers))
            limits = draw.choice(((cases.ALL, cases.ALL), (draw.randrange(4), 8), (8, draw.randrange(8))))
            wanted = rest_of(outcome_of(plain.read_certificate, data, *limits), data)
            result = outcome(Certificate.read, some_kind(draw, data), *limits)
            seen.note(result)
            if wanted[0] == result[0]:
                self.assertEqual(result, wanted, (data, limits))
            else:
                read, rest = result
                self.assertEqual((read.value, read.signers, bytes(rest)), wanted, (data, limits))
                parts = plain.slot_of(wanted[0]) or (None, None)
                self.assertEqual((read.slot, read.decision), parts, wanted[0])
                self.assertEqual(bytes(read) + bytes(rest), data)
            written = outcome_of(plain.write_certificate, value, signers)
            self.assertEqual(outcome(Certificate.encode, some_kind(draw, value), signers), written)
        seen.assert_each(self, DECODED, CASES // 100)

    def test_certificates_are_checked(self):
        draw, seen = self.start(8)
        for _ in range(CASES):
            k, members = draw.randrange(1, 8), draw.randrange(9)
            data = plain.certificate_bytes(cases.some_value(draw), cases.some_signers(draw, members))
            data = spoiled(draw, data)
            wanted = outcome_of(plain.check, k, members, data)
            result = outcome(check, k, members, some_kind(draw, data))
            seen.note(wanted)
            self.assertEqual(result, wanted, (k, members, data))
        names = "ok NoModel NoMembers EndOfInput InvalidVarint NotStrict LeftOver Outside TooFew"
        seen.assert_each(self, names, CASES // 200)

    def test_conflicts_and_equivocations_are_named(self):
        for seed, call, is_one_slot in ((9, conflict, False), (10, equivocation, True)):
            draw, seen = self.start(seed)
            for _ in range(CASES):
                k, members = draw.choice((1, 2, 3, 3, 3, 4, 5, 6, 7)), draw.randrange(12)
                first, second = (
                    plain.certificate_bytes(cases.some_value(draw), cases.some_signers(draw, members))
                    for _ in range(2)
                )
                if draw.randrange(4) == 0:
                    first = spoiled(draw, first)
                if draw.randrange(4) == 0:
                    second = spoiled(draw, second)
                wanted = outcome_of(plain.both, k, members, first, second, is_one_slot)
                result = outcome(call, k, members, some_kind(draw, first), some_kind(draw, second))
                seen.note(wanted)
                self.assertEqual(result, wanted, (k, members, first, second))
            names = "ok NoModel NoMembers EndOfInput InvalidVarint NotStrict LeftOver Outside TooFew SameValue"
            seen.assert_each(self, names + (" NoSlot OtherSlot" if is_one_slot else ""), CASES // 200)

    def test_values_of_slots_are_written(self):
        draw, _ = self.start(11)
        for _ in range(CASES):
            slot, decision = (draw.randbytes(draw.choice((0, 1, 2, 127, 128, 300))) for _ in range(2))
            value = slot_value(some_kind(draw, slot), some_kind(draw, decision))
            self.assertEqual(value, plain.varint(len(slot)) + slot + decision)
            self.assertEqual(plain.slot_of(value), (slot, decision))

    def test_numbers_of_faults(self):
        draw, seen = self.start(12)
        for _ in range(CASES):
            k, n = (draw.getrandbits(32) >> draw.randrange(32) for _ in range(2))
            wanted = outcome_of(plain.max_faults, k, n)
            results = [outcome(call, k, n) for call in (max_faults, quorum, smaller_quorum)]
            seen.note(wanted)
            is_error = isinstance(wanted, tuple)
            self.assertEqual(results, 3 * [wanted] if is_error else [wanted, n - wanted, 2 * wanted + 1])
        seen.assert_each(self, "ok NoModel NoMembers", CASES // 200)


if __name__ == "__main__":
    unittest.main()
