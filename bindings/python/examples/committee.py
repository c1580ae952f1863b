"""Prints the members of a committee, how many make a quorum, and which members signed two different values."""

from commonware import N3F1, Certificate, Committee, equivocation, slot_value

committee = Committee.from_keys_dedup([bytes([i]) * 32 for i in (3, 1, 0, 2)])
for member in committee:
    print(member.hex())
members, faults, quorum = len(committee), committee.max_faults(N3F1), committee.quorum(N3F1)
print(f"of {members} members {faults} may be faulty, and {quorum} are a quorum")

first = Certificate.encode(slot_value(b"view 7", b"A"), [0, 1, 2])
second = Certificate.encode(slot_value(b"view 7", b"B"), [1, 2, 3])
print(list(equivocation(N3F1, committee, first, second)), "signed both")
