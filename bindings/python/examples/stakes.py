"""Prints what a quorum of stakes weighs, and which members signed two different values."""

from commonware import N3F1, Certificate, Weights, slot_value, weighted_equivocation

weights = Weights([40, 30, 20, 10])
faulty, quorum = weights.max_faulty_weight(N3F1), weights.quorum_weight(N3F1)
print(f"of {weights.total} in all {faulty} may be faulty, and a quorum weighs {quorum}")

first = Certificate.encode(slot_value(b"view 7", b"A"), [0, 1])
second = Certificate.encode(slot_value(b"view 7", b"B"), [0, 2, 3])
named = weighted_equivocation(N3F1, weights, first, second)
print(f"{list(named.members)} signed both, with a weight of {named.weight}")
