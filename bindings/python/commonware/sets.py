"""Sets of keys of one size, in their encoding, and committees, whose keys have 32 bytes."""

from collections.abc import Sequence
from typing import Any, Iterable, Iterator, Optional, Tuple, Type, TypeVar, Union, cast, overload

from . import _calls, errors, faults
from ._calls import OK
from ._items import Items, items_at, one_after_another, whole
from ._native import SIZE_MAX, BytesLike, check_status, input_of, limits_of, number_of, written

__all__ = ["MEMBER_SIZE", "Committee", "SetView"]

MEMBER_SIZE = 32
"""How many bytes a member of a committee has."""

_Keys = TypeVar("_Keys", bound="_KeySequence")


class _KeySequence(Sequence[bytes]):
    """Keys of one size, strictly increasing, where their encoding has them."""

    __slots__ = ("_encoding", "_items")
    _encoding: memoryview
    _items: Items

    def __init__(self) -> None:
        raise TypeError(f"a {type(self).__name__} is made by its class methods")

    @classmethod
    def _of(cls: Type[_Keys], encoding: memoryview, items: Items) -> _Keys:
        keys = object.__new__(cls)
        keys._encoding, keys._items = encoding, items
        return keys

    @property
    def size(self) -> int:
        """How many bytes a key has."""
        return self._items.size

    @property
    def data(self) -> memoryview:
        """The bytes of all keys, one after another, as a read-only view. Nothing is copied."""
        return self._items.data[:]

    def position(self, key: BytesLike) -> Optional[int]:
        """Returns the index of a key, or None where it isn't there, as one of another size never is, in
        O(log n) comparisons."""
        raise NotImplementedError

    def index(self, value: BytesLike, start: int = 0, stop: Optional[int] = None) -> int:
        """Returns the index of a key as `position` does; raises `ValueError` where it isn't there, or not
        from `start` to `stop`."""
        index = self.position(value)
        if index is None or index not in range(len(self))[start:stop]:
            raise ValueError("the key isn't there")
        return index

    def count(self, value: BytesLike) -> int:
        """Returns 1 where the key is there, else 0."""
        return int(value in self)

    def __len__(self) -> int:
        return self._items.count

    @overload
    def __getitem__(self, index: int) -> bytes: ...

    @overload
    def __getitem__(self, index: slice) -> Tuple[bytes, ...]: ...

    def __getitem__(self, index: Union[int, slice]) -> Union[bytes, Tuple[bytes, ...]]:
        if isinstance(index, slice):
            return tuple(map(self._items.item, range(len(self))[index]))
        return self._items.item(self._items.place(index))

    def __iter__(self) -> Iterator[bytes]:
        return self._items.walk()

    def __reversed__(self) -> Iterator[bytes]:
        return map(self._items.item, reversed(range(len(self))))

    def __contains__(self, key: object) -> bool:
        return self.position(cast(BytesLike, key)) is not None

    def __eq__(self, other: object) -> bool:
        if not isinstance(other, _KeySequence) or type(other) is not type(self):
            return NotImplemented
        return self._items == other._items

    def __hash__(self) -> int:
        return hash(self._items)

    def __bytes__(self) -> bytes:
        return bytes(self._encoding)


class SetView(_KeySequence):
    r"""The keys of a set, strictly increasing, where its encoding has them, all of one size. Nothing is copied
    but what a caller could change: a `bytearray` is copied, `bytes` are kept. Every number is a size; keys of
    no bytes are all the same key, so a set has at most one of them.

    It is a sequence of `bytes`, in order, and equal to a set with the same keys.

    >>> from commonware import SetView
    >>> addresses = SetView.decode(20, b"\2" + 20 * b"\xaa" + 20 * b"\xbb")
    >>> len(addresses), addresses.size, addresses[1] == 20 * b"\xbb"
    (2, 20, True)
    >>> addresses.position(20 * b"\xbb"), 20 * b"\xcc" in addresses
    (1, False)
    """

    __slots__ = ()

    @classmethod
    def read(
        cls, size: int, data: BytesLike, least: int = 0, most: Optional[int] = None
    ) -> Tuple["SetView", memoryview]:
        r"""Decodes the set of `least` to `most` keys of `size` bytes at the start of the input, and returns
        it with what follows, as a read-only view.

        Raises the first fault (decoding error) of the input: `EndOfInput`, `InvalidVarint`, `InvalidLength`
        or `NotStrict`; and `OutOfRange`, and `OutOfMemory` where the input is copied.

        >>> keys, rest = SetView.read(2, b"\2\5\6\7\7more", 1, 256)
        >>> list(keys), bytes(rest)
        ([b'\x05\x06', b'\x07\x07'], b'more')
        >>> SetView.read(2, b"\2\5\6\7\7", most=1)
        Traceback (most recent call last):
        commonware.errors.InvalidLength: length 2 is out of range
        """
        view = input_of(data)
        size = number_of("size", size, SIZE_MAX)
        found = _calls.set_read(size, *view.arguments, *limits_of(least, most))
        check_status(found.status, found.number)
        items = items_at(size, found.count, view.data, found.start)
        end = len(view.data) - found.left
        return cls._of(view.data[:end], items), view.data[end:]

    @classmethod
    def decode(cls, size: int, data: BytesLike, least: int = 0, most: Optional[int] = None) -> "SetView":
        r"""Decodes the set that the whole input is.

        Raises what `read` raises, and `LeftOver`.

        >>> SetView.decode(1, b"\2\7\7")
        Traceback (most recent call last):
        commonware.errors.NotStrict: items must be sorted and unique
        """
        return whole(cls.read(size, data, least, most))

    @staticmethod
    def encode_dedup(size: int, keys: Union[BytesLike, Iterable[BytesLike]]) -> bytes:
        r"""Encodes the set of keys of `size` bytes: sorted, each key once. They are bytes-like objects of this
        size, or all in one, one after another; they may come in any order and repeat.

        Raises `WrongSize` for an object of another size, `NotWhole` for bytes after the last whole key,
        `NoSize` where the size is 0, `InvalidLength` where the keys are more than 4294967295, `OutOfRange` and
        `OutOfMemory`.

        >>> SetView.encode_dedup(2, [b"ok", b"am", b"ok"]), SetView.encode_dedup(2, b"okamok")
        (b'\x02amok', b'\x02amok')
        >>> SetView.encode_dedup(2, b"oka")
        Traceback (most recent call last):
        commonware.errors.NotWhole: 1 bytes after the last whole item
        """
        size = number_of("size", size, SIZE_MAX)
        given = input_of(one_after_another(size, keys))
        return written(_calls.set_encode_dedup, 5 + len(given.data), size, *given.arguments)

    def position(self, key: BytesLike) -> Optional[int]:
        r"""Returns the index of a key, or None where it isn't there, as one of another size never is, in
        O(log n) comparisons.

        >>> keys = SetView.decode(2, b"\2amok")
        >>> keys.position(b"ok"), keys.position(b"is"), keys.position(b"o")
        (1, None, None)
        """
        given = input_of(key)
        if len(given.data) != self.size:
            return None
        if self.size == 0:
            return 0 if len(self) > 0 else None
        keys = input_of(self._items.data)
        place = _calls.set_position(*keys.arguments, *given.arguments)
        return place.index if place.status == OK else None

    def __reduce__(self) -> Tuple[Any, ...]:
        return type(self).decode, (self.size, bytes(self))

    def __repr__(self) -> str:
        return f"<SetView of {len(self)} keys of {self.size} bytes>"


class Committee(_KeySequence):
    r"""The members of a committee, strictly increasing, where its encoding has them: keys of 32 bytes. Nothing
    is copied but what a caller could change: a `bytearray` is copied, `bytes` are kept.

    It is a sequence of `bytes`, in order, and equal to a committee with the same members.

    >>> from commonware import N3F1, Committee
    >>> committee = Committee.from_keys_dedup([bytes([i]) * 32 for i in (7, 1, 3, 5)])
    >>> len(committee), committee[0] == 32 * b"\1", committee.position(32 * b"\7")
    (4, True, 3)
    >>> committee.max_faults(N3F1), committee.quorum(N3F1)
    (1, 3)
    >>> Committee.decode(bytes(committee)) == committee
    True
    """

    __slots__ = ()

    @classmethod
    def from_keys_dedup(cls, keys: Union[BytesLike, Iterable[BytesLike]]) -> "Committee":
        """Returns the committee of these keys, which `encode_dedup` says more of.

        >>> Committee.from_keys_dedup([32 * b"b", 32 * b"a", 32 * b"b"])
        <Committee of 2 members>
        """
        return cls.decode(cls.encode_dedup(keys))

    @classmethod
    def read(
        cls, data: BytesLike, least: int = 0, most: Optional[int] = None
    ) -> Tuple["Committee", memoryview]:
        r"""Decodes the committee of `least` to `most` members at the start of the input, and returns it with
        what follows, as a read-only view.

        Raises the first fault (decoding error) of the input: `EndOfInput`, `InvalidVarint`, `InvalidLength`
        or `NotStrict`; and `OutOfRange`, and `OutOfMemory` where the input is copied.

        >>> committee, rest = Committee.read(b"\1" + 32 * b"\x09" + b"more", 1, 256)
        >>> len(committee), bytes(rest)
        (1, b'more')
        """
        view = input_of(data)
        found = _calls.committee_read(*view.arguments, *limits_of(least, most))
        check_status(found.status, found.number)
        items = items_at(MEMBER_SIZE, found.count, view.data, found.start)
        end = len(view.data) - found.left
        return cls._of(view.data[:end], items), view.data[end:]

    @classmethod
    def decode(cls, data: BytesLike, least: int = 0, most: Optional[int] = None) -> "Committee":
        r"""Decodes the committee that the whole input is.

        Raises what `read` raises, and `LeftOver`.

        >>> Committee.decode(b"\2")
        Traceback (most recent call last):
        commonware.errors.EndOfInput: unexpected end of input
        """
        return whole(cls.read(data, least, most))

    @staticmethod
    def encode_dedup(keys: Union[BytesLike, Iterable[BytesLike]]) -> bytes:
        r"""Encodes the committee of these keys: sorted, each key once. They are bytes-like objects of 32 bytes,
        or all in one, one after another; they may come in any order and repeat.

        Raises `WrongSize` for an object of another size, `NotWhole` for bytes after the last whole key,
        `InvalidLength` where the keys are more than 4294967295, and `OutOfMemory`.

        >>> Committee.encode_dedup([32 * b"b", 32 * b"a"]) == b"\2" + 32 * b"a" + 32 * b"b"
        True
        """
        given = input_of(one_after_another(MEMBER_SIZE, keys))
        length, over = divmod(len(given.data), MEMBER_SIZE)
        if over > 0:
            raise errors.NotWhole(over)
        return written(_calls.committee_encode_dedup, 5 + len(given.data), given.pointer, length)

    def position(self, key: BytesLike) -> Optional[int]:
        """Returns the index of a member, or None where there is no such, as one of another size never is, in
        O(log n) comparisons.

        >>> committee = Committee.from_keys_dedup([32 * b"b", 32 * b"a"])
        >>> committee.position(32 * b"b"), committee.position(32 * b"c")
        (1, None)
        """
        given = input_of(key)
        if len(given.data) != MEMBER_SIZE:
            return None
        members = input_of(self._items.data)
        place = _calls.committee_position(members.pointer, len(self), given.pointer)
        return place.index if place.status == OK else None

    def max_faults(self, k: int) -> int:
        """Returns how many of the members may be faulty at a resilience n >= kf + 1; raises what the function
        `max_faults` raises."""
        return faults.max_faults(k, len(self))

    def quorum(self, k: int) -> int:
        """Returns how many of the members make a quorum; raises what the function `quorum` raises."""
        return faults.quorum(k, len(self))

    def smaller_quorum(self, k: int) -> int:
        """Returns the least size whose subsets share f + 1 members with each quorum; raises what the function
        `smaller_quorum` raises."""
        return faults.smaller_quorum(k, len(self))

    def __reduce__(self) -> Tuple[Any, ...]:
        return type(self).decode, (bytes(self),)

    def __repr__(self) -> str:
        return f"<Committee of {len(self)} members>"
