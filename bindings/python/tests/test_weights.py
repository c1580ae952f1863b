"""Weights and certificates by weight beside the plain implementation, and what is refused."""

import copy
import pickle
import random
import unittest

import cases
import plain
from cases import CASES, Seen, outcome, some_kind, spoiled
from commonware import (
    Certificate,
    InvalidLength,
    NoModel,
    OutOfRange,
    TooLight,
    WeightOverflow,
    Weights,
    ZeroWeight,
    slot_value,
    weighted_check,
    weighted_conflict,
    weighted_equivocation,
)
from plain import Fault

outcome_of = plain.outcome
MOST = 2**64 - 1
STAKES = [40, 30, 20, 10]


def plain_numbers(k, weights):
    """Returns the total, f, and what a quorum and a smaller one weigh: f is the greatest with kf + 1 at most the
    total."""
    if k < 2:
        raise Fault("NoModel")
    if not weights:
        raise Fault("NoMembers")
    total = 0
    for index, weight in enumerate(weights):
        total += weight
        if weight == 0:
            raise Fault("ZeroWeight", index)
        if total > MOST:
            raise Fault("WeightOverflow", index)
    faulty = total // k
    if k * faulty + 1 > total:
        faulty -= 1
    return total, faulty, total - faulty, 2 * faulty + 1


def plain_weight(weights, members, which=None):
    if any(member >= len(weights) for member in members):
        raise Fault("Outside", which=which)
    return sum(weights[member] for member in members)


def plain_check(k, weights, data):
    quorum = plain_numbers(k, weights)[2]
    value, signers = plain.the_certificate(data)
    weight = plain_weight(weights, signers)
    if weight < quorum:
        raise Fault("TooLight")
    slot, decision = plain.slot_of(value) or (None, None)
    return value, slot, decision, len(signers), weight


def plain_both(k, weights, first, second, is_one_slot):
    quorum = plain_numbers(k, weights)[2]
    (value, signers), (other, others) = plain.the_certificate(first, 1), plain.the_certificate(second, 2)
    if is_one_slot:
        parts = plain.slot_of(value), plain.slot_of(other)
        for which, part in enumerate(parts, 1):
            if part is None:
                raise Fault("NoSlot", which=which)
        if parts[0][0] != parts[1][0]:
            raise Fault("OtherSlot")
    if value == other:
        raise Fault("SameValue")
    weigh = plain_weight(weights, signers, 1), plain_weight(weights, others, 2)
    for which, weight in enumerate(weigh, 1):
        if weight < quorum:
            raise Fault("TooLight", which=which)
    both = tuple(sorted(set(signers) & set(others)))
    return both, plain_weight(weights, both)


def some_weights(draw):
    """Returns weights of which one is seldom 0, and whose sum is seldom past 64 bits."""
    bits = draw.choice((1, 2, 4, 32, 60, 61, 62))
    weights = [1 + draw.getrandbits(bits) for _ in range(draw.randrange(12))]
    way = draw.randrange(24)
    if weights and way < 5:
        at = draw.randrange(len(weights))
        weights[at] = 0 if way == 0 else MOST - draw.randrange(3) if way == 1 else 2**62
    return weights


def some_form(draw, weights):
    """Returns weights as one of the things that have numbers."""
    way = draw.randrange(4)
    if way == 0 and weights and all(weights) and sum(weights) <= MOST:
        return Weights(weights)
    return (weights, tuple(weights), iter(weights))[way - 1]


class Random(unittest.TestCase):
    maxDiff = None

    def start(self, number):
        return random.Random(number), Seen()

    def test_numbers_of_weights(self):
        draw, seen = self.start(21)
        for _ in range(CASES):
            k, weights = draw.getrandbits(32) >> draw.randrange(32), some_weights(draw)
            wanted = outcome_of(plain_numbers, max(k, 2), weights)
            result = outcome(Weights, weights)
            if isinstance(result, Weights):
                numbers = outcome(lambda: (result.max_faulty_weight(k), result.quorum_weight(k)))
                smaller = outcome(result.smaller_quorum_weight, k)
                if k < 2:
                    wanted = outcome_of(plain_numbers, k, weights)
                    self.assertEqual((numbers, smaller), (wanted, wanted), (k, weights))
                else:
                    self.assertEqual((result.total, *numbers, smaller), wanted, (k, weights))
                self.assertEqual((list(result), len(result)), (weights, len(weights)))
            else:
                self.assertEqual(result, wanted, (k, weights))
            seen.note(wanted)
        seen.assert_each(self, "ok NoModel NoMembers ZeroWeight WeightOverflow", CASES // 200)

    def test_certificates_are_checked_by_weight(self):
        draw, seen = self.start(22)
        for _ in range(CASES):
            k, weights = draw.randrange(1, 8), some_weights(draw)
            data = plain.certificate_bytes(cases.some_value(draw), cases.some_signers(draw, len(weights)))
            data = spoiled(draw, data)
            wanted = outcome_of(plain_check, k, weights, data)
            result = outcome(weighted_check, k, some_form(draw, weights), some_kind(draw, data))
            seen.note(wanted)
            self.assertEqual(result, wanted, (k, weights, data))
        names = "ok NoModel NoMembers ZeroWeight WeightOverflow EndOfInput InvalidVarint NotStrict LeftOver"
        seen.assert_each(self, names + " Outside TooLight", CASES // 400)

    def test_conflicts_and_equivocations_by_weight(self):
        for seed, call, is_one_slot in ((23, weighted_conflict, False), (24, weighted_equivocation, True)):
            draw, seen = self.start(seed)
            for _ in range(CASES):
                k, weights = draw.choice((1, 2, 3, 3, 3, 4, 5, 6, 7)), some_weights(draw)
                inputs = [
                    plain.certificate_bytes(cases.some_value(draw), cases.some_signers(draw, len(weights)))
                    for _ in range(2)
                ]
                inputs = [spoiled(draw, it) if draw.randrange(4) == 0 else it for it in inputs]
                wanted = outcome_of(plain_both, k, weights, *inputs, is_one_slot)
                given = [some_kind(draw, it) for it in inputs]
                result = outcome(call, k, some_form(draw, weights), *given)
                seen.note(wanted)
                self.assertEqual(result, wanted, (k, weights, inputs))
                if isinstance(wanted[0], tuple):
                    self.assertGreater(wanted[1], (k - 2) * plain_numbers(k, weights)[1])
            names = "ok NoModel NoMembers ZeroWeight WeightOverflow EndOfInput InvalidVarint NotStrict LeftOver"
            names += " SameValue Outside TooLight" + (" NoSlot OtherSlot" if is_one_slot else "")
            seen.assert_each(self, names, CASES // 800)


class Edges(unittest.TestCase):
    def test_sums_at_the_edges_of_64_bits(self):
        half = 2**63
        self.assertEqual(Weights([half, half - 1]).total, MOST)
        with self.assertRaises(WeightOverflow) as caught:
            Weights([half, half - 1, 1])
        text = "with weight 2 the sum is past 18446744073709551615"
        self.assertEqual((caught.exception.index, str(caught.exception)), (2, text))
        with self.assertRaises(ZeroWeight) as caught:
            Weights([5, 0, 5])
        self.assertEqual((caught.exception.index, str(caught.exception)), (1, "weight 1 is 0"))

    def test_totals_at_the_edges(self):
        for total, k, faulty in (
            (MOST, 2, 9223372036854775807),
            (MOST, 3, 6148914691236517204),
            (MOST, 2**32 - 1, 4294967296),
            (2**63, 3, 3074457345618258602),
            (2**53 + 1, 2, 4503599627370496),
            (2**32, 3, 1431655765),
            (1, 2, 0),
        ):
            weights = Weights([total])
            self.assertEqual(weights.max_faulty_weight(k), faulty)
            self.assertEqual(weights.quorum_weight(k), total - faulty)
            self.assertEqual(weights.smaller_quorum_weight(k), 2 * faulty + 1)
        for k in (0, 1):
            for call in (weights.max_faulty_weight, weights.quorum_weight, weights.smaller_quorum_weight):
                with self.assertRaises(NoModel):
                    call(k)

    def test_weights_that_are_no_numbers_of_64_bits(self):
        first, second = (Certificate.encode(slot_value(b"7", it), [0]) for it in (b"A", b"B"))
        calls = [
            lambda it: Weights([5, it]),
            lambda it: weighted_check(3, [5, it], first),
            lambda it: weighted_conflict(3, [5, it], first, second),
            lambda it: weighted_equivocation(3, (5, it), first, second),
        ]
        for call in calls:
            for number in (-1, 2**64, -(2**64), 10**30):
                with self.assertRaises(OutOfRange) as caught:
                    call(number)
                error = caught.exception
                self.assertEqual((error.name, error.number, error.most), ("weight", number, MOST))
            for wrong in ("5", 5.0, None, [5]):
                with self.assertRaises(TypeError):
                    call(wrong)
        for wrong in (7, None, 2.5):
            with self.assertRaises(TypeError):
                Weights(wrong)
        weights = Weights(STAKES)
        for call in (weights.max_faulty_weight, lambda it: weighted_check(it, weights, first)):
            for number in (-1, 2**32):
                with self.assertRaises(OutOfRange) as caught:
                    call(number)
                self.assertEqual(caught.exception.name, "k")

    def test_weights_are_a_sequence_that_does_not_change(self):
        given = list(STAKES)
        weights = Weights(given)
        given[0] = 7
        self.assertEqual((list(weights), len(weights), weights.total), (STAKES, 4, 100))
        self.assertEqual((weights[0], weights[-1], weights[1:]), (40, 10, (30, 20, 10)))
        self.assertEqual(weights[::-1], (10, 20, 30, 40))
        self.assertEqual((30 in weights, weights.index(20), list(reversed(weights))), (True, 2, STAKES[::-1]))
        for index in (4, -5):
            with self.assertRaises(IndexError):
                weights[index]
        with self.assertRaises(TypeError):
            weights[0] = 1
        with self.assertRaises(AttributeError):
            weights.total = 1
        for again in (Weights(weights), copy.deepcopy(weights), pickle.loads(pickle.dumps(weights))):
            self.assertEqual((again, hash(again), again.total), (weights, hash(weights), 100))
        self.assertNotEqual(weights, Weights(STAKES[::-1]))
        self.assertNotEqual(weights, tuple(STAKES))
        self.assertEqual(repr(weights), "<Weights of 4 members, 100 in all>")
        error = pickle.loads(pickle.dumps(ZeroWeight(7)))
        self.assertEqual((error.index, str(error)), (7, "weight 7 is 0"))

    def test_certificates_that_are_decoded_already(self):
        first, second = (Certificate.encode(slot_value(b"7", it), [0, 1]) for it in (b"A", b"B"))
        one, two = Certificate.decode(first), Certificate.decode(second)
        self.assertEqual(weighted_check(3, STAKES, one), weighted_check(3, STAKES, first))
        self.assertEqual(weighted_conflict(3, STAKES, one, two), ((0, 1), 70))
        self.assertEqual(weighted_equivocation(3, STAKES, one, second), ((0, 1), 70))

    def test_many_weights(self):
        # The first 65,536 weigh 1, and the others 1,000: 4,529,536 in all, of which a quorum weighs 3,019,691.
        weights = Weights([1] * 65_536 + [1000] * 4464)
        self.assertEqual((weights.total, weights.quorum_weight(3)), (4_529_536, 3_019_691))
        rows = ((b"A", 0, 691, 65_536), (b"B", 691, 1382, 66_981), (b"B", 691, 1381, 66_981), (b"B", 0, 691, 66_982))
        first, second, light, outside = (
            Certificate.encode(slot_value(b"7", decision), [*range(start, end), *range(late, late + 3019)])
            for decision, start, end, late in rows
        )
        checked = weighted_check(3, weights, first)
        self.assertEqual((checked.signers, checked.weight), (3710, 3_019_691))
        for call in (weighted_conflict, weighted_equivocation):
            named = call(3, weights, first, second)
            self.assertEqual((named.members, named.weight), (tuple(range(66_981, 68_555)), 1_574_000))
            with self.assertRaises(TooLight) as caught:
                call(3, weights, light, first)
            self.assertEqual(caught.exception.which, 1)
            self.assertEqual(outcome(call, 3, weights, first, outside), ("Outside", 2))
        for index in (0, 65_535, 65_536, 69_999):
            numbers = list(weights)
            numbers[index] = 0
            self.assertEqual(outcome(Weights, numbers), ("ZeroWeight", index, None))

    def test_lengths_have_an_error_of_their_own(self):
        # More than 4294967295 weights don't fit the memory of a test; the error is that of other lengths.
        self.assertEqual(str(InvalidLength(2**32)), "length 4294967296 is out of range")


if __name__ == "__main__":
    unittest.main()
