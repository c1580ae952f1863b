"""Certificates: a value and those that signed it, whether they are a quorum, and who signed two values.

Warning: no signature is looked at. Whoever doesn't verify them knows nothing of who signed, and may accuse an
innocent member.
"""

from typing import Any, Callable, Iterable, NamedTuple, Optional, Tuple, Union

from . import _calls, _native
from ._calls import OK, ROOM
from ._items import whole
from ._native import SIZE_MAX, U32_MAX, BytesLike, Input, check_status, input_of, made, number_of, written
from .faults import k_of, members_of
from .sets import Committee

__all__ = ["Certificate", "Checked", "check", "conflict", "equivocation", "slot_value"]

_Parts = Optional[Tuple[bytes, bytes]]


def _limit_of(name: str, most: Optional[int]) -> int:
    return SIZE_MAX if most is None else number_of(name, most, SIZE_MAX)


class Certificate:
    r"""A value, and the indices of the members that signed it, strictly increasing. Whether a signature is
    genuine isn't tested. An index is that of `Committee.position`: the place in the order of the keys, not that in
    which they were given.

    >>> from commonware import Certificate, slot_value
    >>> certificate = Certificate.decode(Certificate.encode(b"block", [0, 2, 3]))
    >>> certificate.value, certificate.signers, certificate.slot
    (b'block', (0, 2, 3), None)
    >>> certificate = Certificate.decode(Certificate.encode(slot_value(b"view 7", b"A"), [0, 2, 3]))
    >>> certificate.slot, certificate.decision
    (b'view 7', b'A')
    """

    __slots__ = ("_encoding", "_parts", "_signers", "_value")
    _encoding: memoryview
    _parts: Tuple[_Parts, ...]
    _signers: Tuple[int, ...]
    _value: bytes

    def __init__(self) -> None:
        raise TypeError("a Certificate is made by its class methods")

    @classmethod
    def read(
        cls, data: BytesLike, most_bytes: Optional[int] = None, most_signers: Optional[int] = None
    ) -> Tuple["Certificate", memoryview]:
        r"""Decodes the certificate at the start of the input, with a value of up to `most_bytes` bytes and up to
        `most_signers` signers, and returns it with what follows, as a read-only view.

        Raises the first fault (decoding error) of the input: `EndOfInput`, `InvalidVarint`, `InvalidLength`
        or `NotStrict`; `OutOfRange` and `OutOfMemory`.

        >>> certificate, rest = Certificate.read(b"\1x\2\4\6more", 32, 256)
        >>> certificate.signers, bytes(rest)
        ((4, 6), b'more')
        >>> Certificate.read(b"\1x\2\4\6", most_signers=1)
        Traceback (most recent call last):
        commonware.errors.InvalidLength: length 2 is out of range
        """
        view = input_of(data)
        limits = _limit_of("most_bytes", most_bytes), _limit_of("most_signers", most_signers)
        # The first call tells how many indices it takes.
        signers, room = _native.room_for(0)
        found = _calls.certificate_read(*view.arguments, *limits, *room)
        if found.status == ROOM:
            signers, room = _native.room_for(found.signers)
            found = _calls.certificate_read(*view.arguments, *limits, *room)
        check_status(found.status, found.number)
        certificate = object.__new__(cls)
        end = len(view.data) - found.left
        certificate._encoding = view.data[:end]
        certificate._value = made(bytes, view.data[found.value_start :][: found.value_length])
        certificate._signers = made(tuple, signers)
        certificate._parts = ()
        return certificate, view.data[end:]

    @classmethod
    def decode(
        cls, data: BytesLike, most_bytes: Optional[int] = None, most_signers: Optional[int] = None
    ) -> "Certificate":
        r"""Decodes the certificate that the whole input is.

        Raises what `read` raises, and `LeftOver`.

        >>> Certificate.decode(b"\1x\2\4\4")
        Traceback (most recent call last):
        commonware.errors.NotStrict: items must be sorted and unique
        """
        return whole(cls.read(data, most_bytes, most_signers))

    @staticmethod
    def encode(value: BytesLike, signers: Iterable[int]) -> bytes:
        r"""Encodes the certificate of a value and of the indices of those that signed it, which are strictly
        increasing.

        Raises `InvalidLength` for a value or signers past 4294967295, `NotStrict` with the index of the first
        signer that isn't greater than the one before it, `OutOfRange` and `OutOfMemory`; and `TypeError` for signers
        that are bytes, a text, a mapping or a set, which have numbers of another meaning, or in no order.

        >>> Certificate.encode(b"x", [4, 200])
        b'\x01x\x02\x04\xc8\x01'
        >>> Certificate.encode(b"x", [4, 4])
        Traceback (most recent call last):
        commonware.errors.NotStrict: signer 1 isn't greater than the one before it
        """
        given = input_of(value)
        indices = _native.indices_of("signer", signers)
        most = 10 + len(given.data) + 5 * len(indices)
        return written(_calls.certificate_encode, most, *given.arguments, *_native.pointed(indices))

    @property
    def value(self) -> bytes:
        """The bytes that were signed."""
        return self._value

    @property
    def signers(self) -> Tuple[int, ...]:
        """The indices of those that signed, strictly increasing."""
        return self._signers

    @property
    def slot(self) -> Optional[bytes]:
        """The slot that the value is for, or None where it is for none. To tell it takes a copy of the value, once."""
        parts = self._slot_and_decision()
        return None if parts is None else parts[0]

    @property
    def decision(self) -> Optional[bytes]:
        """The decision that the value is for its slot, or None where it has none."""
        parts = self._slot_and_decision()
        return None if parts is None else parts[1]

    def _slot_and_decision(self) -> _Parts:
        if not self._parts:
            # The library tells them of certificates that a quorum signed, such as one by a committee of one.
            one = check(2, 1, Certificate.encode(self._value, [0]))
            parts = None if one.slot is None or one.decision is None else (one.slot, one.decision)
            self._parts = (parts,)
        return self._parts[0]

    def __eq__(self, other: object) -> bool:
        if not isinstance(other, Certificate):
            return NotImplemented
        return self._encoding == other._encoding

    def __hash__(self) -> int:
        return hash(self._encoding)

    def __bytes__(self) -> bytes:
        return bytes(self._encoding)

    def __reduce__(self) -> Tuple[Any, ...]:
        return type(self).decode, (bytes(self),)

    def __repr__(self) -> str:
        return f"<Certificate of {len(self._signers)} signers for a value of {len(self._value)} bytes>"


_Given = Union[BytesLike, Certificate]
_Members = Union[int, Committee]


def _certificate_of(certificate: _Given) -> Input:
    """Returns the bytes of a certificate, which may be decoded already."""
    return input_of(certificate._encoding if isinstance(certificate, Certificate) else certificate)


def _count_of(members: _Members) -> int:
    """Returns how many members there are, where their committee may be given for their number."""
    return members_of(len(members) if isinstance(members, Committee) else members)


class Checked(NamedTuple):
    """A certificate whose signers are members of a committee and at least a quorum."""

    value: bytes
    """The bytes that were signed."""

    slot: Optional[bytes]
    """The slot that the value is for, or None where it is for none."""

    decision: Optional[bytes]
    """The decision that the value is for its slot, or None where it has none."""

    signers: int
    """How many members signed."""


def check(k: int, members: _Members, certificate: _Given) -> Checked:
    r"""Reads the input as exactly one certificate and returns what it says, where its signers are members of a
    committee, and at least a quorum at a resilience k. The input is encoded, or a `Certificate`; `members` is the
    `Committee`, or the number of its members, whose keys may have any size.

    Warning: no signature is looked at. Whoever doesn't verify them knows nothing of who signed.

    Raises the first of these: `NoModel`, `NoMembers`, a fault of the input (`EndOfInput`, `InvalidVarint`,
    `NotStrict`, `LeftOver`), `Outside`, `TooFew`; and `OutOfRange` and `OutOfMemory`.

    >>> from commonware import N3F1, Certificate, check, slot_value
    >>> certificate = Certificate.encode(slot_value(b"view 7", b"A"), [0, 1, 2])
    >>> check(N3F1, 4, certificate)
    Checked(value=b'\x06view 7A', slot=b'view 7', decision=b'A', signers=3)
    >>> check(N3F1, 5, certificate)
    Traceback (most recent call last):
    commonware.errors.TooFew: fewer signers than a quorum
    """
    given = _certificate_of(certificate)
    view = _calls.check(k_of(k), _count_of(members), *given.arguments)
    check_status(view.status, view.number)
    return found_in(given, view)


def found_in(given: Input, view: Any) -> Checked:
    """Returns what was found in an input, which is a certificate of a quorum."""

    def part(start: int, length: int) -> bytes:
        return made(bytes, given.data[start : start + length])

    value = part(view.value_start, view.value_length)
    if view.slot_start == 0:
        return Checked(value, None, None, view.signers)
    slot = part(view.slot_start, view.slot_length)
    return Checked(value, slot, part(view.decision_start, view.decision_length), view.signers)


def _named(call: Callable[..., Any], k: int, members: _Members, first: _Given, second: _Given) -> Tuple[int, ...]:
    """Returns the members that a call names."""
    inputs = _certificate_of(first), _certificate_of(second)
    asked = (k_of(k), _count_of(members), *inputs[0].arguments, *inputs[1].arguments)
    # The first call tells how many indices it takes.
    named, room = _native.room_for(0)
    view = call(*asked, *room)
    if view.status == ROOM:
        named, room = _native.room_for(view.count)
        view = call(*asked, *room)
    check_status(view.status, view.number, view.which)
    return made(tuple, named)


def conflict(k: int, members: _Members, first: _Given, second: _Given) -> Tuple[int, ...]:
    r"""Returns the indices, in order, of the members that signed both of two certificates for different values,
    in a committee at a resilience k. With f of the members faulty at most, they are at least (k - 2)f + 1; where
    k is 3 or more, at least one of them is outside every set of f members. Each input is exactly one certificate,
    encoded, or a `Certificate`; `members` is the `Committee`, or the number of its members, whose keys may have any
    size.

    To sign two values is a fault only where both are for one slot (chain, committee, height, round and kind of vote,
    say), which `equivocation` asks: honest members sign many values, at most one a slot.

    Warning: no signature is looked at. Whoever doesn't verify them first may accuse an innocent member.

    Raises the first of these: `NoModel`, `NoMembers`, a fault of the first input (`EndOfInput`,
    `InvalidVarint`, `NotStrict`, `LeftOver`), one of the second, `SameValue`, `Outside` of the first, of the
    second, `TooFew` of the first, of the second; and `OutOfRange` and `OutOfMemory`. `which` tells which of
    both an error is about.

    >>> from commonware import N3F1, Certificate, conflict
    >>> first = Certificate.encode(b"view 7: A", [0, 1, 2])
    >>> conflict(N3F1, 4, first, Certificate.encode(b"view 7: B", [1, 2, 3]))
    (1, 2)
    >>> conflict(N3F1, 4, first, Certificate.encode(b"view 7: B", [2, 3]))
    Traceback (most recent call last):
    commonware.errors.TooFew: certificate 2: fewer signers than a quorum
    """
    return _named(_calls.conflict, k, members, first, second)


def equivocation(k: int, members: _Members, first: _Given, second: _Given) -> Tuple[int, ...]:
    r"""Returns the indices, in order, of the members that equivocated: those that signed both of two certificates
    for different decisions for one slot. All is as `conflict` has it, and no honest member is named where
    honest members sign at most one decision a slot.

    Warning: no signature is looked at. Whoever doesn't verify them first may accuse an innocent member.

    Raises the first of these: `NoModel`, `NoMembers`, a fault of the first input, one of the second, `NoSlot`
    of the first value, of the second, `OtherSlot`, `SameValue` for one decision, `Outside` of the first, of
    the second, `TooFew` of the first, of the second; and `OutOfRange` and `OutOfMemory`.

    >>> from commonware import N3F1, Certificate, Committee, equivocation, slot_value
    >>> committee = Committee.from_keys_dedup([bytes([i]) * 32 for i in (7, 1, 3, 5)])
    >>> first = Certificate.encode(slot_value(b"view 7", b"A"), [0, 1, 2])
    >>> second = Certificate.encode(slot_value(b"view 7", b"B"), [1, 2, 3])
    >>> named = equivocation(N3F1, committee, first, second)
    >>> named, [committee[index][:1] for index in named]
    ((1, 2), [b'\x03', b'\x05'])
    >>> equivocation(N3F1, 4, first, Certificate.encode(slot_value(b"view 8", b"B"), [1, 2, 3]))
    Traceback (most recent call last):
    commonware.errors.OtherSlot: two different slots
    """
    return _named(_calls.equivocation, k, members, first, second)


def slot_value(slot: BytesLike, decision: BytesLike) -> bytes:
    r"""Returns the value that a decision for a slot is, which members sign: the slot's length, the slot, and the
    decision. No other slot and decision have these bytes.

    Raises `InvalidLength` for a slot, a decision or a value past 4294967295, and `OutOfMemory`.

    >>> slot_value(b"7", b"A")
    b'\x017A'
    """
    given, decided = input_of(slot), input_of(decision)
    most = 5 + len(given.data) + len(decided.data)
    return written(_calls.slot_value, most, *given.arguments, *decided.arguments)
