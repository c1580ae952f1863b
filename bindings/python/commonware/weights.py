"""What the members of a committee weigh, as their stake or voting power, and certificates by weight: whether members
that weigh a quorum signed one, and who signed two values.

Warning: no signature is looked at. Whoever doesn't verify them knows nothing of who signed, and may accuse an
innocent member.
"""

import array
from collections.abc import Sequence
from typing import Any, Callable, Iterable, Iterator, NamedTuple, Optional, Tuple, Union, overload

from . import _calls, _native
from ._calls import ROOM
from ._native import check_status, made
from .certificates import _certificate_of, _Given, found_in
from .faults import k_of

__all__ = [
    "Named",
    "WeightedChecked",
    "Weights",
    "weighted_check",
    "weighted_conflict",
    "weighted_equivocation",
]


class Weights(Sequence[int]):
    r"""What each member of a committee weighs: the weight at an index is that of the member there. There are 1 to
    4294967295 of them, each is positive, and their sum fits 64 bits. It is a sequence of numbers, and equal to one
    with the same weights. The calls below take any numbers; whoever calls often makes this of them once.

    An index is that of `Committee.position`: the place in the order of the keys, not that in which they were given.
    Weights in another order would accuse the wrong members, and no call can tell.

    >>> from commonware import Committee, Weights
    >>> stakes = {32 * b"\7": 10, 32 * b"\1": 40, 32 * b"\5": 20, 32 * b"\3": 30}
    >>> committee = Committee.from_keys_dedup(stakes)
    >>> list(Weights(stakes[key] for key in committee))
    [40, 30, 20, 10]

    Raises the first of these: `NoMembers` where there are none, `InvalidLength` where they are more, and `ZeroWeight`
    or `WeightOverflow`, whose index comes first; and before these `OutOfRange`, where a number isn't one of 64 bits,
    and `OutOfMemory`. A mapping, a set, bytes or a text is a `TypeError`: the weights of a mapping are its values.

    >>> from commonware import N3F1, Weights
    >>> weights = Weights([40, 30, 20, 10])
    >>> weights.total, weights.max_faulty_weight(N3F1), weights.quorum_weight(N3F1)
    (100, 33, 67)
    >>> Weights([40, 0, 20])
    Traceback (most recent call last):
    commonware.errors.ZeroWeight: weight 1 is 0
    """

    __slots__ = ("_items", "_total")
    _items: _native.Numbers
    _total: int

    def __init__(self, weights: Iterable[int]) -> None:
        self._items = _native.weights_of(weights)
        # The total and the errors are the same for every model.
        self._total = int(self._numbers(2).total)

    def _numbers(self, k: int) -> Any:
        """Returns what the library says of the weights in a model."""
        view = _calls.weights_quorum(k_of(k), *_native.pointed(self._items))
        check_status(view.status, view.number)
        return view

    @property
    def total(self) -> int:
        """What all members weigh together."""
        return self._total

    def max_faulty_weight(self, k: int) -> int:
        """Returns what faulty members may weigh together at a resilience k: f, the greatest number with kf + 1 at
        most the total. It is the greatest that is safe for all weights of this total: for which any two subsets
        that weigh all but f share members that weigh at least (k - 2)f + 1.

        Raises `NoModel` where k is below 2, and `OutOfRange`.

        >>> Weights([40, 30, 20, 10]).max_faulty_weight(5)
        19
        """
        return int(self._numbers(k).tolerated)

    def quorum_weight(self, k: int) -> int:
        """Returns what the members of a quorum weigh together at least: all but f.

        Raises what `max_faulty_weight` raises.

        >>> Weights([40, 30, 20, 10]).quorum_weight(5)
        81
        """
        return int(self._numbers(k).quorum)

    def smaller_quorum_weight(self, k: int) -> int:
        """Returns the least weight whose subsets share members that weigh at least f + 1 with each quorum, for all
        weights of this total: 2f + 1.

        Raises what `max_faulty_weight` raises.

        >>> Weights([40, 30, 20, 10]).smaller_quorum_weight(5)
        39
        """
        return int(self._numbers(k).smaller_quorum)

    def __len__(self) -> int:
        return len(self._items)

    @overload
    def __getitem__(self, index: int) -> int: ...

    @overload
    def __getitem__(self, index: slice) -> Tuple[int, ...]: ...

    def __getitem__(self, index: Union[int, slice]) -> Union[int, Tuple[int, ...]]:
        found = self._items[index]
        return tuple(found) if isinstance(found, array.array) else int(found)

    def __iter__(self) -> Iterator[int]:
        return iter(self._items)

    def __eq__(self, other: object) -> bool:
        if not isinstance(other, Weights):
            return NotImplemented
        return self._items == other._items

    def __hash__(self) -> int:
        return hash(self._items.tobytes())

    def __reduce__(self) -> Tuple[Any, ...]:
        return type(self), (tuple(self._items),)

    def __repr__(self) -> str:
        return f"<Weights of {len(self)} members, {self._total} in all>"


_Weights = Union[Weights, Iterable[int]]


def _pointed(weights: _Weights) -> Tuple[Any, int]:
    """Returns the pointer, which keeps the weights alive, and the length that the library gets."""
    return _native.pointed(weights._items if isinstance(weights, Weights) else _native.weights_of(weights))


class WeightedChecked(NamedTuple):
    """A certificate whose signers are members of a committee and weigh at least a quorum."""

    value: bytes
    """The bytes that were signed."""

    slot: Optional[bytes]
    """The slot that the value is for, or None where it is for none."""

    decision: Optional[bytes]
    """The decision that the value is for its slot, or None where it has none."""

    signers: int
    """How many members signed."""

    weight: int
    """What those that signed weigh together."""


class Named(NamedTuple):
    """The members that a call names."""

    members: Tuple[int, ...]
    """Their indices, in order."""

    weight: int
    """What they weigh together."""


def weighted_check(k: int, weights: _Weights, certificate: _Given) -> WeightedChecked:
    r"""Returns what the input says, where it is exactly one certificate whose signers are members with these weights,
    and weigh at least a quorum at a resilience k. It is encoded, or a `Certificate`.

    Warning: no signature is looked at. Whoever doesn't verify them knows nothing of who signed.

    Raises the first of these: `NoModel`, what `Weights` raises, a fault of the input (`EndOfInput`, `InvalidVarint`,
    `NotStrict`, `LeftOver`), `Outside`, `TooLight`; and before these `OutOfRange`, and `OutOfMemory`.

    >>> from commonware import N3F1, Certificate, slot_value, weighted_check
    >>> weights = [40, 30, 20, 10]
    >>> weighted_check(N3F1, weights, Certificate.encode(slot_value(b"view 7", b"A"), [0, 1]))
    WeightedChecked(value=b'\x06view 7A', slot=b'view 7', decision=b'A', signers=2, weight=70)
    >>> weighted_check(N3F1, weights, Certificate.encode(slot_value(b"view 7", b"A"), [1, 2, 3]))
    Traceback (most recent call last):
    commonware.errors.TooLight: the signers weigh less than a quorum
    """
    given = _certificate_of(certificate)
    view = _calls.weighted_check(k_of(k), *_pointed(weights), *given.arguments)
    check_status(view.status, view.number)
    return WeightedChecked(*found_in(given, view), view.weight)


def _named(call: Callable[..., Any], k: int, weights: _Weights, first: _Given, second: _Given) -> Named:
    """Returns the members that a call names, and what they weigh."""
    inputs = _certificate_of(first), _certificate_of(second)
    asked = (k_of(k), *_pointed(weights), *inputs[0].arguments, *inputs[1].arguments)
    # The first call tells how many indices it takes.
    members, room = _native.room_for(0)
    view = call(*asked, *room)
    if view.status == ROOM:
        members, room = _native.room_for(view.count)
        view = call(*asked, *room)
    check_status(view.status, view.number, view.which)
    return Named(made(tuple, members), view.weight)


def weighted_conflict(k: int, weights: _Weights, first: _Given, second: _Given) -> Named:
    r"""Returns the members that signed both of two certificates for different values, where quorums are by these
    weights at a resilience k, and what they weigh. With f the `max_faulty_weight` of the weights they weigh at least
    (k - 2)f + 1; where k is 3 or more, at least one of them is outside every subset that weighs at most f. Each input
    is exactly one certificate, encoded, or a `Certificate`.

    To sign two values is a fault only where both are for one slot (chain, committee, height, round and kind of vote,
    say), which `weighted_equivocation` asks: honest members sign many values, at most one a slot.

    Warning: no signature is looked at. Whoever doesn't verify them first may accuse an innocent member.

    Raises the first of these: `NoModel`, what `Weights` raises, a fault of the first input (`EndOfInput`,
    `InvalidVarint`, `NotStrict`, `LeftOver`), one of the second, `SameValue`, `Outside` of the first, of the second,
    `TooLight` of the first, of the second; and before these `OutOfRange`, and `OutOfMemory`. `which` tells which of
    both certificates an error is about.

    >>> from commonware import N3F1, Certificate, weighted_conflict
    >>> weights, first = [40, 30, 20, 10], Certificate.encode(b"view 7: A", [0, 1])
    >>> weighted_conflict(N3F1, weights, first, Certificate.encode(b"view 7: B", [0, 2, 3]))
    Named(members=(0,), weight=40)
    >>> weighted_conflict(N3F1, weights, first, Certificate.encode(b"view 7: B", [1, 2, 3]))
    Traceback (most recent call last):
    commonware.errors.TooLight: certificate 2: the signers weigh less than a quorum
    """
    return _named(_calls.weighted_conflict, k, weights, first, second)


def weighted_equivocation(k: int, weights: _Weights, first: _Given, second: _Given) -> Named:
    r"""Returns the members that equivocated, and what they weigh: those that signed both of two certificates for
    different decisions for one slot. All is as `weighted_conflict` has it, and no honest member is named where honest
    members sign at most one decision a slot.

    Warning: no signature is looked at. Whoever doesn't verify them first may accuse an innocent member.

    Raises the first of these: `NoModel`, what `Weights` raises, a fault of the first input, one of the second,
    `NoSlot` of the first value, of the second, `OtherSlot`, `SameValue` for one decision, `Outside` of the first, of
    the second, `TooLight` of the first, of the second; and before these `OutOfRange`, and `OutOfMemory`.

    >>> from commonware import N3F1, Certificate, slot_value, weighted_equivocation
    >>> weights, first = [40, 30, 20, 10], Certificate.encode(slot_value(b"view 7", b"A"), [0, 1])
    >>> weighted_equivocation(N3F1, weights, first, Certificate.encode(slot_value(b"view 7", b"B"), [0, 2, 3]))
    Named(members=(0,), weight=40)
    """
    return _named(_calls.weighted_equivocation, k, weights, first, second)
