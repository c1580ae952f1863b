"""Weights of participants, and certificates whose quorums are counted by weight."""

from builders import Refusal
from certificates import check_decisions, check_members, check_values, signers_of_both, slot_of
from models import quorum_of

# The greatest sum of weights.
MOST = 2**64 - 1


def total_of(weights):
    """Returns what all weigh together, or finds that these are no weights."""
    if not weights:
        raise Refusal("NoWeights")
    total = 0
    for place, weight in enumerate(weights):
        if weight == 0:
            raise Refusal(f"ZeroWeight {place}")
        total += weight
        if total > MOST:
            raise Refusal(f"WeightOverflow {place}")
    return total


def weight_of(weights, participants):
    """Returns what some participants weigh together."""
    return sum(weights[it] for it in participants)


def check_weight(resilience, weights, certificates):
    """Finds a signer who is no member, or else a certificate whose signers are too light."""
    check_members(len(weights), certificates)
    quorum = quorum_of(resilience, total_of(weights))
    for _, signers in certificates:
        if weight_of(weights, signers) < quorum:
            raise Refusal("TooLight")


def weighted_quorum(resilience, weights, certificate):
    """Returns how many signed, what they weigh, and the slot and decision if there is a slot."""
    check_weight(resilience, weights, [certificate])
    return len(certificate[1]), weight_of(weights, certificate[1]), slot_of(certificate[0])


def weigh_both(resilience, weights, first, second):
    """Returns who signed both of two certificates, each by a quorum, and what they weigh."""
    check_weight(resilience, weights, [first, second])
    both = signers_of_both(first, second)
    return both, weight_of(weights, both)


def weighted_conflict(resilience, weights, first, second):
    """Returns who signed both of two certificates for different values, and what they weigh."""
    check_values(first, second)
    return weigh_both(resilience, weights, first, second)


def weighted_equivocation(resilience, weights, first, second):
    """Returns who signed two different decisions of one slot, and what they weigh."""
    check_decisions(first, second)
    return weigh_both(resilience, weights, first, second)
