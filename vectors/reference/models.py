"""The numbers of a fault model: n >= kf + 1 for n members, f of them faulty, at a resilience k of 2
or more. By weight n is what all weigh together, and f what those weigh that are faulty."""


def faults_of(resilience, members):
    """Returns the greatest number of faults."""
    return (members - 1) // resilience


def quorum_of(resilience, members):
    """Returns how many make a quorum."""
    return members - faults_of(resilience, members)


def small_quorum_of(resilience, members):
    """Returns the least size that shares one more than the faults with each quorum."""
    return 2 * faults_of(resilience, members) + 1


def counterexample(resilience, members, faults):
    """Returns how many the first and the last n - f members share, and how many they should.

    Where they share enough there is no counterexample, and the result is None.
    """
    shared = max(members - 2 * faults, 0)
    needed = (resilience - 2) * faults + 1
    return (shared, needed) if shared < needed else None
