"""Certificates: who signed a value, whether they are a quorum, and who signed two values."""

from builders import Refusal
from containers import ANY, List, Set
from models import quorum_of
from varints import Byte, DecodingError, Source, Varint, read_varint


class Certificate:
    """A value's bytes as a list, and the set of its signers: a pair."""

    def __init__(self, lengths=ANY, signers=ANY):
        self.value = List(Byte(), lengths)
        self.signers = Set(Varint(), signers)

    def read(self, source):
        value = bytes(self.value.read(source))
        return value, self.signers.read(source)

    def count(self, value):
        return len(value[1])


def slot_of(value):
    """Returns the slot of a value and its decision, or None where it has no slot."""
    source = Source(value)
    try:
        slot = source.take(read_varint(source))
    except DecodingError:
        return None
    return slot, source.take(source.left())


def check_members(members, certificates):
    """Finds a signer who is no member."""
    for _, signers in certificates:
        if signers and signers[-1] >= members:
            raise Refusal("Outside")


def check_signers(resilience, members, certificates):
    """Finds a signer who is no member, or else a certificate that no quorum signed."""
    check_members(members, certificates)
    for _, signers in certificates:
        if len(signers) < quorum_of(resilience, members):
            raise Refusal("TooFew")


def check_values(first, second):
    """Finds that two certificates are for one value."""
    if first[0] == second[0]:
        raise Refusal("EqualValues")


def check_decisions(first, second):
    """Finds why two certificates are not for different decisions of one slot."""
    one, other = slot_of(first[0]), slot_of(second[0])
    if one is None or other is None:
        raise Refusal("NoSlot")
    if one[0] != other[0]:
        raise Refusal("OtherSlot")
    if one[1] == other[1]:
        raise Refusal("SameDecision")


def signers_of_both(first, second):
    """Returns who signed both certificates, in order."""
    also = set(second[1])
    return [signer for signer in first[1] if signer in also]


def check_quorum(resilience, members, certificate):
    """Returns how many signed, and the slot and decision if there is a slot."""
    check_signers(resilience, members, [certificate])
    return len(certificate[1]), slot_of(certificate[0])


def conflict(resilience, members, first, second):
    """Returns who signed both of two certificates for different values."""
    check_values(first, second)
    check_signers(resilience, members, [first, second])
    return signers_of_both(first, second)


def equivocation(resilience, members, first, second):
    """Returns who signed both of two certificates for different decisions of one slot."""
    check_decisions(first, second)
    check_signers(resilience, members, [first, second])
    return signers_of_both(first, second)
