"""How many of n participants may be faulty, and how many make a quorum."""

from . import _calls, _native, errors

__all__ = ["N3F1", "N5F1", "max_faults", "quorum", "smaller_quorum"]

N3F1 = 3
"""The k of `n >= 3f + 1`: any two quorums share f + 1 participants, so one that is outside any given f."""

N5F1 = 5
"""The k of `n >= 5f + 1`: any two quorums share 3f + 1 participants."""


def k_of(k: int) -> int:
    return _native.number_of("k", k, _native.U32_MAX)


def members_of(members: int) -> int:
    return _native.number_of("members", members, _native.U32_MAX)


def _model_of(k: int, n: int) -> "tuple[int, int]":
    """Returns k and n where k is a model's and there are participants."""
    k, n = k_of(k), _native.number_of("n", n, _native.U32_MAX)
    if k < 2:
        raise errors.NoModel()
    if n == 0:
        raise errors.NoMembers()
    return k, n


def max_faults(k: int, n: int) -> int:
    """Returns how many of `n` participants may be faulty at a resilience n >= kf + 1: the greatest f that
    fits. It is the greatest for which any two quorums share (k - 2)f + 1 participants.

    Raises `NoModel` where k is below 2, `NoMembers` where n is 0, and `OutOfRange`.

    >>> max_faults(N3F1, 100), max_faults(N5F1, 100), max_faults(7, 20)
    (33, 19, 2)
    >>> max_faults(1, 4)
    Traceback (most recent call last):
    commonware.errors.NoModel: k is below 2
    """
    return int(_calls.max_faults(*_model_of(k, n)))


def quorum(k: int, n: int) -> int:
    """Returns how many of `n` participants make a quorum, n - f.

    Raises what `max_faults` raises.

    >>> quorum(N3F1, 4), quorum(N5F1, 100)
    (3, 81)
    """
    return int(_calls.quorum(*_model_of(k, n)))


def smaller_quorum(k: int, n: int) -> int:
    """Returns the least size whose subsets share f + 1 participants with each quorum, 2f + 1.

    Raises what `max_faults` raises.

    >>> smaller_quorum(N5F1, 10)
    3
    """
    return int(_calls.smaller_quorum(*_model_of(k, n)))
