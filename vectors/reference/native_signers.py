"""Numbers of members, certificates, and who signed two of them, as the native calls have it, by
heads and by weight."""

from models import faults_of, quorum_of, small_quorum_of
from native_items import put
from native_views import *
from varints import write_varint

# Past every number of signers, and past every sum of weights.
NEVER = 2**32 - 1
TOO_MUCH = 2**64


def version():
    return 2_000_000


def max_faults(k, n):
    return faults_of(k, n) if k > 1 and n > 0 else 0


def quorum(k, n):
    return quorum_of(k, n) if k > 1 and n > 0 else NEVER


def smaller_quorum(k, n):
    return small_quorum_of(k, n) if k > 1 and n > 0 else NEVER


def value_at(source, length):
    """Returns where the value is that comes next."""
    start = source.taken
    bytes_at(source, length)
    return start


def signers_at(source, count):
    """Returns the signers that come next."""
    signers = [number_at(source) for _ in range(count)]
    if not is_strict(signers):
        raise Fault(NOT_STRICT)
    return signers


def read_certificate(data, most_bytes, most_signers, room):
    source = Source(data)
    length = length_at(source, range(most_bytes + 1))
    start = value_at(source, length)
    signers = signers_at(source, length_at(source, range(most_signers + 1)))
    view = {"signers": len(signers), "value_start": start, "value_length": length}
    view["left"] = source.left()
    if room < len(signers):
        raise Fault(ROOM, **view)
    return view, signers


def certificate_read(input, most_bytes, most_signers, room):
    return written(read_certificate, input, most_bytes, most_signers, room)


def write_certificate(value, signers, room):
    for index, (signer, following) in enumerate(zip(signers, signers[1:])):
        if signer >= following:
            raise Fault(NOT_STRICT, number=index + 1)
    body = b"".join(map(write_varint, signers))
    data = write_varint(len(value)) + value + write_varint(len(signers)) + body
    return put(data, room, count=len(signers))


def certificate_encode(value, signers, room):
    return written(write_certificate, value, signers, room)


def slot_value(slot, decision, room):
    return written(put, write_varint(len(slot)) + slot + decision, room)


def whole_certificate(data):
    """Returns where the value is, how long it is, and the signers; nothing follows."""
    source = Source(data)
    length = number_at(source)
    start = value_at(source, length)
    signers = signers_at(source, number_at(source))
    if source.left():
        raise Fault(LEFT_OVER, number=source.left())
    return start, length, signers


def slot_in(data, start, length):
    """Returns where the slot of a value is, and where its decision is, or None where there is no
    slot."""
    source = Source(data[start : start + length])
    try:
        size = number_at(source)
        begins = source.taken
        bytes_at(source, size)
    except Fault:
        return None
    return start + begins, start + begins + size


def check_model(k):
    if k < 2:
        raise Fault(NO_MODEL)


def check_outside(members, signers):
    if signers and signers[-1] >= members:
        raise Fault(OUTSIDE)


class Heads:
    """A committee whose members count as one each."""

    def __init__(self, k, members):
        check_model(k)
        if members == 0:
            raise Fault(NO_MEMBERS)
        self.members = members
        self.needed = quorum_of(k, members)

    def check_quorum(self, signers):
        if len(signers) < self.needed:
            raise Fault(TOO_FEW)

    def told(self, signers):
        """Returns what a view says of the weight of some signers."""
        return {}


def total_of(k, weights):
    """Returns what all members weigh together."""
    check_model(k)
    if not weights:
        raise Fault(NO_MEMBERS)
    total = 0
    for index, weight in enumerate(weights):
        if weight == 0:
            raise Fault(ZERO_WEIGHT, number=index)
        total += weight
        if total >= TOO_MUCH:
            raise Fault(WEIGHT_OVERFLOW, number=index)
    return total


class Stakes:
    """A committee whose members have weights."""

    def __init__(self, k, weights):
        self.needed = quorum_of(k, total_of(k, weights))
        self.weights, self.members = weights, len(weights)

    def weight_of(self, signers):
        return sum(self.weights[it] for it in signers)

    def check_quorum(self, signers):
        if self.weight_of(signers) < self.needed:
            raise Fault(TOO_LIGHT)

    def told(self, signers):
        """Returns what a view says of the weight of some signers."""
        return {"weight": self.weight_of(signers)}


def numbers_of(k, weights):
    total = total_of(k, weights)
    said = {"total": total, "tolerated": faults_of(k, total), "quorum": quorum_of(k, total)}
    return {**said, "smaller_quorum": small_quorum_of(k, total)}


def weights_quorum(k, weights):
    return viewed(numbers_of, k, weights)


def check_certificate(Committee, k, members, data):
    committee = Committee(k, members)
    start, length, signers = whole_certificate(data)
    check_outside(committee.members, signers)
    committee.check_quorum(signers)
    view = {"signers": len(signers), "value_start": start, "value_length": length}
    slot = slot_in(data, start, length)
    if slot:
        begins, ends = slot
        decision = {"decision_start": ends, "decision_length": start + length - ends}
        view |= {"slot_start": begins, "slot_length": ends - begins, **decision}
    return {**view, **committee.told(signers)}


def check(k, members, input):
    return viewed(check_certificate, Heads, k, members, input)


def weighted_check(k, weights, input):
    return viewed(check_certificate, Stakes, k, weights, input)


def about(which, call, *arguments):
    """Returns what a call does, or finds its fault in one of two inputs."""
    try:
        return call(*arguments)
    except Fault as fault:
        raise Fault(**fault.fields, which=which) from None


def value_and_signers(data):
    start, length, signers = whole_certificate(data)
    return data[start : start + length], signers


def check_values(one, other):
    if one == other:
        raise Fault(SAME_VALUE)


def slot_of(value):
    """Returns the slot of a value, or finds that it has none."""
    slot = slot_in(value, 0, len(value))
    if not slot:
        raise Fault(NO_SLOT)
    return value[slot[0] : slot[1]]


def check_decisions(one, other):
    if about(1, slot_of, one) != about(2, slot_of, other):
        raise Fault(OTHER_SLOT)
    check_values(one, other)


def name(Committee, differ, k, members, first, second, room):
    """Returns who signed both of two certificates whose values have to differ in some way."""
    committee = Committee(k, members)
    value, signers = about(1, value_and_signers, first)
    other_value, other_signers = about(2, value_and_signers, second)
    differ(value, other_value)
    about(1, check_outside, committee.members, signers)
    about(2, check_outside, committee.members, other_signers)
    about(1, committee.check_quorum, signers)
    about(2, committee.check_quorum, other_signers)
    both = sorted(set(signers) & set(other_signers))
    if room < len(both):
        raise Fault(ROOM, count=len(both))
    return {"count": len(both), **committee.told(both)}, both


def conflict(k, members, first, second, room):
    return written(name, Heads, check_values, k, members, first, second, room)


def equivocation(k, members, first, second, room):
    return written(name, Heads, check_decisions, k, members, first, second, room)


def weighted_conflict(k, weights, first, second, room):
    return written(name, Stakes, check_values, k, weights, first, second, room)


def weighted_equivocation(k, weights, first, second, room):
    return written(name, Stakes, check_decisions, k, weights, first, second, room)
