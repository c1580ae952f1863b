"""The answer to each question, and to each line of an input."""

import models
from builders import Refusal, build, position, read_listed
from certificates import Certificate, check_quorum, conflict, equivocation
from containers import ANY, List, Set
from questions import (
    Unreadable,
    finish,
    read_bytes,
    read_members,
    read_model,
    read_number,
    read_type,
)
from varints import DecodingError, Long, Source, Varint
from weights import total_of, weighted_conflict, weighted_equivocation, weighted_quorum


def whole(read, data):
    """Returns the value that all of the bytes are."""
    source = Source(data)
    value = read(source)
    if source.left():
        raise DecodingError(f"LeftOver {source.left()}")
    return value


def written(data):
    """Returns bytes as a word."""
    return data.hex() or "-"


def answer_read(words, name):
    """Says what the bytes are as a value of a type."""
    readers, make = read_type(name, lambda name: True)
    kind = make(*[read(next(words, "")) for read in readers])
    source = Source(read_bytes(next(words, "")))
    finish(words, "bytes")
    value = kind.read(source)
    return f"accepted {kind.count(value)} {source.left()}"


def read_collection(words, starts):
    """Returns the kind of a collection without bounds, whose name starts with such a word."""
    readers, make = read_type(next(words, ""), lambda name: name.startswith(starts))
    return make(*[ANY for _ in readers])


def answer_build(words, verb):
    """Says what a builder makes of the listed items."""
    kind = read_collection(words, ("set<", "map<", "bimap<"))
    data = read_bytes(next(words, ""))
    finish(words, "bytes")
    entries = whole(lambda source: read_listed(kind, source), data)
    built = build(kind, entries, verb == "build")
    return f"built {written(kind.write(built))}"


def answer_position(words, verb):
    """Says where an item is in a set."""
    kind = read_collection(words, ("set<",))
    data, item = read_bytes(next(words, "")), read_bytes(next(words, ""))
    finish(words, "bytes")
    place = position(whole(kind.read, data), whole(kind.item.read, item))
    return "none" if place is None else f"position {place}"


def answer_faults(words, verb):
    """Says the numbers of a fault model."""
    resilience, members = read_model(next(words, "")), read_members(next(words, ""))
    finish(words, "number")
    faults = models.faults_of(resilience, members)
    quorum = models.quorum_of(resilience, members)
    return f"faults {faults} quorum {quorum} m-quorum {models.small_quorum_of(resilience, members)}"


def answer_refute(words, verb):
    """Says why this number of members can't be faulty, or that it can."""
    resilience, members = read_model(next(words, "")), read_members(next(words, ""))
    faults = read_number(next(words, ""), "number", 0, members)
    finish(words, "number")
    found = models.counterexample(resilience, members, faults)
    if found is None:
        return "tolerated"
    first, second = f"0..{members - faults}", f"{faults}..{members}"
    return f"first {first} second {second} shared {found[0]} needed {found[1]}"


def read_certificates(words, count):
    """Returns the model, how many members there are, and so many certificates."""
    resilience, members = read_model(next(words, "")), read_members(next(words, ""))
    inputs = [read_bytes(next(words, "")) for _ in range(count)]
    finish(words, "bytes")
    return resilience, members, *[whole(Certificate().read, data) for data in inputs]


def said_of_slot(parts):
    """Says the slot and the decision of a value, or that it has no slot."""
    if parts is None:
        return "no slot"
    return f"slot {written(parts[0])} decision {written(parts[1])}"


def answer_quorum(words, verb):
    """Says whether a quorum signed a certificate, and what."""
    signers, parts = check_quorum(*read_certificates(words, 1))
    return f"quorum {signers} {said_of_slot(parts)}"


def answer_conflict(words, verb):
    """Says who signed both of two certificates for different values."""
    return f"members {written(Set(Varint()).write(conflict(*read_certificates(words, 2))))}"


def answer_equivocation(words, verb):
    """Says who signed both of two certificates for different decisions of a slot."""
    return f"members {written(Set(Varint()).write(equivocation(*read_certificates(words, 2))))}"


def read_weighted(words, count):
    """Returns the model, the weights, and `count` certificates."""
    resilience = read_model(next(words, ""))
    listed, *inputs = [read_bytes(next(words, "")) for _ in range(1 + count)]
    finish(words, "bytes")
    weights = whole(List(Long()).read, listed)
    total_of(weights)
    return resilience, weights, *[whole(Certificate().read, data) for data in inputs]


def answer_weights(words, verb):
    """Says the numbers of a fault model for the weights of participants."""
    resilience, weights = read_weighted(words, 0)
    total = total_of(weights)
    tolerated = models.faults_of(resilience, total)
    quorum, small = models.quorum_of(resilience, total), models.small_quorum_of(resilience, total)
    return f"total {total} tolerated {tolerated} quorum {quorum} m-quorum {small}"


def answer_weighted_quorum(words, verb):
    """Says whether those who signed a certificate weigh a quorum, and what they signed."""
    signers, weight, parts = weighted_quorum(*read_weighted(words, 1))
    return f"quorum {signers} weight {weight} {said_of_slot(parts)}"


def answer_weighted_conflict(words, verb):
    """Says who signed both of two certificates, and what they weigh."""
    find = weighted_conflict if verb == "weighted-conflict" else weighted_equivocation
    both, weight = find(*read_weighted(words, 2))
    return f"members {written(Set(Varint()).write(both))} weight {weight}"


VERBS = {
    "build": answer_build,
    "build-unique": answer_build,
    "position": answer_position,
    "faults": answer_faults,
    "refute": answer_refute,
    "quorum": answer_quorum,
    "conflict": answer_conflict,
    "equivocation": answer_equivocation,
    "weights": answer_weights,
    "weighted-quorum": answer_weighted_quorum,
    "weighted-conflict": answer_weighted_conflict,
    "weighted-equivocation": answer_weighted_conflict,
}


def answer_to(line):
    """Returns the answer to a line that is a question."""
    words = iter(line.split(" "))
    first = next(words)
    try:
        return VERBS.get(first, answer_read)(words, first)
    except Unreadable as part:
        return f"unreadable {part}"
    except (DecodingError, Refusal) as refusal:
        return str(refusal)


def lines_of(text):
    """Returns the lines of an input, each of which may end with a carriage return too."""
    *ended, last = text.split("\n")
    lines = [line[:-1] if line.endswith("\r") else line for line in ended]
    return lines + [last] if last else lines


def answers_to(text):
    """Returns each line's number and its answer, for the lines that are questions."""
    lines = enumerate(lines_of(text), 1)
    return [(number, answer_to(it)) for number, it in lines if it and not it.startswith("#")]
