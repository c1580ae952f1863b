"""Maps and bimaps of keys and values, each of one size, in their encoding."""

from collections.abc import ItemsView, Iterable, Iterator, Mapping, ValuesView
from typing import Any, Callable, Optional, Tuple, Type, TypeVar, Union

from . import _calls, _native, errors
from ._items import Items, item_of, items_at, whole
from ._native import SIZE_MAX, BytesLike, check_status, input_of, limits_of, made, number_of, written
from .sets import SetView

__all__ = ["BiMapView", "MapView"]

_Map = TypeVar("_Map", bound="_Pairs")


class _Values(ValuesView[bytes]):
    """The values of a map in the order of their keys."""

    _mapping: "_Pairs"

    def __iter__(self) -> Iterator[bytes]:
        return self._mapping._values.walk()


class _Items(ItemsView[bytes, bytes]):
    """The pairs of a map in the order of their keys."""

    _mapping: "_Pairs"

    def __iter__(self) -> Iterator[Tuple[bytes, bytes]]:
        return zip(self._mapping._keys, self._mapping._values.walk())


class _Pairs(Mapping[bytes, bytes]):
    """Pairs whose keys are strictly increasing, where their encoding has them."""

    __slots__ = ("_encoding", "_keys", "_values")
    _encoding: memoryview
    _keys: SetView
    _values: Items

    def __init__(self) -> None:
        raise TypeError(f"a {type(self).__name__} is made by its class methods")

    @classmethod
    def _of(cls: Type[_Map], sizes: Tuple[int, int], data: memoryview, found: Any) -> _Map:
        """Returns the pairs that were found in an input."""
        pairs = object.__new__(cls)
        pairs._encoding = data[: len(data) - found.left]
        keys = items_at(sizes[0], found.count, data, found.keys)
        pairs._keys = SetView._of(data[: found.keys + len(keys.data)], keys)
        pairs._values = items_at(sizes[1], found.count, data, found.values)
        return pairs

    @classmethod
    def decode(
        cls: Type[_Map], key_size: int, value_size: int, data: BytesLike, least: int = 0, most: Optional[int] = None
    ) -> _Map:
        """Decodes what the whole input is."""
        raise NotImplementedError

    @property
    def key_size(self) -> int:
        """How many bytes a key has."""
        return self._keys.size

    @property
    def value_size(self) -> int:
        """How many bytes a value has."""
        return self._values.size

    @property
    def key_set(self) -> SetView:
        """The keys, which are a set: by an index too, and in both directions."""
        return self._keys

    def value_at(self, index: int) -> bytes:
        """Returns the value of the key at an index; raises `IndexError` past the last."""
        return self._values.item(self._values.place(index))

    def values(self) -> ValuesView[bytes]:
        """Returns the values in the order of their keys."""
        return _Values(self)

    def items(self) -> ItemsView[bytes, bytes]:
        """Returns the pairs in the order of their keys."""
        return _Items(self)

    def __len__(self) -> int:
        return len(self._keys)

    def __iter__(self) -> Iterator[bytes]:
        return iter(self._keys)

    def __reversed__(self) -> Iterator[bytes]:
        return reversed(self._keys)

    def __getitem__(self, key: BytesLike) -> bytes:
        index = self._keys.position(key)
        if index is None:
            raise KeyError(key)
        return self._values.item(index)

    def __contains__(self, key: object) -> bool:
        return key in self._keys

    def __hash__(self) -> int:
        # Equal maps have the same bytes of keys and of values, one after another.
        return hash((self._keys._items.data, self._values.data))

    def __bytes__(self) -> bytes:
        return bytes(self._encoding)

    def __reduce__(self) -> Tuple[Any, ...]:
        return type(self).decode, (self.key_size, self.value_size, bytes(self))

    def __repr__(self) -> str:
        sizes = f"keys of {self.key_size} bytes and values of {self.value_size}"
        return f"<{type(self).__name__} of {len(self)} pairs, {sizes}>"


_Given = Union[BytesLike, "Mapping[bytes, BytesLike]", "Iterable[Tuple[BytesLike, BytesLike]]"]


def _pairs_of(key_size: int, value_size: int, pairs: _Given) -> BytesLike:
    """Returns the bytes of pairs; those that are all in one stay as they are."""
    if isinstance(pairs, (bytes, bytearray, memoryview)):
        return pairs
    given = pairs.items() if isinstance(pairs, Mapping) else pairs

    def parts() -> Iterator[memoryview]:
        for index, (key, value) in enumerate(given):
            yield item_of(index, key_size, key)
            yield item_of(index, value_size, value, "value")

    return made(b"".join, parts())


def _encoded(write: Callable[..., Any], key_size: int, value_size: int, pairs: _Given) -> bytes:
    """Returns what a call writes of these pairs."""
    key_size = number_of("key_size", key_size, SIZE_MAX)
    value_size = number_of("value_size", value_size, SIZE_MAX)
    given = input_of(_pairs_of(key_size, value_size, pairs))
    return written(write, 10 + len(given.data), key_size, value_size, *given.arguments)


class MapView(_Pairs):
    r"""The pairs of a map, whose keys are strictly increasing, where its encoding has them. Keys have one size
    and values another. Nothing is copied but what a caller could change: a `bytearray` is copied, `bytes` are
    kept. Every number is a size.

    It is a mapping of `bytes` to `bytes`, in the order of the keys, and equal to a mapping of the same pairs.

    >>> from commonware import MapView
    >>> weights = MapView.decode(48, 1, b"\2" + 48 * b"\xa0" + 48 * b"\xb0" + b"\2\x3c\x28")
    >>> weights[48 * b"\xb0"], weights.get(48 * b"\xc0")
    (b'(', None)
    >>> sum(value[0] for value in weights.values())
    100
    """

    __slots__ = ()

    @classmethod
    def read(
        cls, key_size: int, value_size: int, data: BytesLike, least: int = 0, most: Optional[int] = None
    ) -> Tuple["MapView", memoryview]:
        r"""Decodes the map of `least` to `most` pairs, of keys of `key_size` bytes and values of `value_size`,
        at the start of the input, and returns it with what follows, as a read-only view.

        Raises the first fault (decoding error) of the input, that of the keys and then that of the values, of
        which there are as many: `EndOfInput`, `InvalidVarint`, `InvalidLength` or `NotStrict`; and `OutOfRange`, and
        `OutOfMemory` where the input is copied.

        >>> pairs, rest = MapView.read(1, 2, b"\2ab\2c1c2more")
        >>> dict(pairs), bytes(rest)
        ({b'a': b'c1', b'b': b'c2'}, b'more')
        >>> MapView.read(1, 2, b"\2ab\1c1")
        Traceback (most recent call last):
        commonware.errors.InvalidLength: length 1 is out of range
        """
        view = input_of(data)
        sizes = number_of("key_size", key_size, SIZE_MAX), number_of("value_size", value_size, SIZE_MAX)
        found = _calls.map_read(*sizes, *view.arguments, *limits_of(least, most))
        check_status(found.status, found.number)
        return cls._of(sizes, view.data, found), view.data[len(view.data) - found.left :]

    @classmethod
    def decode(
        cls, key_size: int, value_size: int, data: BytesLike, least: int = 0, most: Optional[int] = None
    ) -> "MapView":
        r"""Decodes the map that the whole input is.

        Raises what `read` raises, and `LeftOver`.

        >>> MapView.decode(1, 1, b"\1a\1c1")
        Traceback (most recent call last):
        commonware.errors.LeftOver: 1 bytes left over
        """
        return whole(cls.read(key_size, value_size, data, least, most))

    @staticmethod
    def encode_dedup(key_size: int, value_size: int, pairs: _Given) -> bytes:
        r"""Encodes the map of these pairs in the order of their keys. They are a mapping, or keys and values of
        these sizes in tuples, or all in one: each key and then its value, one pair after another. They may
        come in any order. Of pairs with equal keys the first is written.

        Raises `WrongSize` for a key or a value of another size, `NotWhole` for bytes after the last whole pair,
        `NoSize` where the key size is 0, `InvalidLength` where the keys are more than 4294967295, `OutOfRange`
        and `OutOfMemory`.

        >>> MapView.encode_dedup(1, 2, {b"b": b"c2", b"a": b"c1"}), MapView.encode_dedup(1, 2, b"bc2ac1bc3")
        (b'\x02ab\x02c1c2', b'\x02ab\x02c1c2')
        """
        return _encoded(_calls.map_encode_dedup, key_size, value_size, pairs)

    @staticmethod
    def encode(key_size: int, value_size: int, pairs: _Given) -> bytes:
        r"""Encodes the map of these pairs as `encode_dedup` does, where no key repeats.

        Raises `RepeatedKey`, with the index of the first pair whose key an earlier pair has, and what
        `encode_dedup` raises.

        >>> MapView.encode(1, 2, [(b"b", b"c2"), (b"a", b"c1"), (b"b", b"c3")])
        Traceback (most recent call last):
        commonware.errors.RepeatedKey: pair 2 has the key of an earlier one
        """
        return _encoded(_calls.map_encode, key_size, value_size, pairs)


class BiMapView(_Pairs):
    r"""The pairs of a bimap, whose keys are strictly increasing and whose values all differ, where its encoding
    has them. It has the indices of the pairs in the order of their values, so that a key is found by its value
    too; else all is as with a `MapView`. `MapView.encode` writes it; whether a value repeats is what `decode`
    tells.

    >>> from commonware import BiMapView
    >>> members = BiMapView.decode(1, 2, b"\2ab\2idme")
    >>> members[b"a"], members.get_key(b"me"), members.get_key(b"no")
    (b'id', b'b', None)
    """

    __slots__ = ("_by_value",)
    _by_value: _native.Numbers

    @classmethod
    def read(
        cls, key_size: int, value_size: int, data: BytesLike, least: int = 0, most: Optional[int] = None
    ) -> Tuple["BiMapView", memoryview]:
        r"""Decodes the bimap of `least` to `most` pairs, of keys of `key_size` bytes and values of `value_size`,
        at the start of the input, and returns it with what follows, as a read-only view. It takes O(n log n)
        comparisons, and memory for an index of each pair.

        Raises what `MapView.read` raises, `OutOfMemory`, and else `RepeatedValue`.

        >>> BiMapView.read(1, 2, b"\3abc\3idmeid")
        Traceback (most recent call last):
        commonware.errors.RepeatedValue: pairs 0 and 2 have the same value
        """
        view = input_of(data)
        sizes = number_of("key_size", key_size, SIZE_MAX), number_of("value_size", value_size, SIZE_MAX)
        asked = (*sizes, *view.arguments, *limits_of(least, most))
        # The first call tells how many indices it takes.
        by_value, room = _native.room_for(0)
        found = _calls.bimap_read(*asked, *room)
        if found.status == _calls.ROOM:
            by_value, room = _native.room_for(found.number)
            found = _calls.bimap_read(*asked, *room)
        if found.status == _calls.REPEATED_VALUE:
            raise errors.RepeatedValue(found.first, found.second)
        check_status(found.status, found.number)
        bimap = cls._of(sizes, view.data, found)
        bimap._by_value = by_value
        return bimap, view.data[len(view.data) - found.left :]

    @classmethod
    def decode(
        cls, key_size: int, value_size: int, data: BytesLike, least: int = 0, most: Optional[int] = None
    ) -> "BiMapView":
        r"""Decodes the bimap that the whole input is.

        Raises what `read` raises, and `LeftOver`.

        >>> BiMapView.decode(1, 1, b"\1a\1c")
        <BiMapView of 1 pairs, keys of 1 bytes and values of 1>
        """
        return whole(cls.read(key_size, value_size, data, least, most))

    def position_of_value(self, value: BytesLike) -> Optional[int]:
        r"""Returns the index of the pair with a value, or None where there is none, in O(log n) comparisons.

        >>> BiMapView.decode(1, 1, b"\2ab\2yx").position_of_value(b"x")
        1
        """
        sought = made(bytes, input_of(value).data)
        low, high = 0, len(self)
        while low < high:
            middle = (low + high) // 2
            if self._values.item(self._by_value[middle]) < sought:
                low = middle + 1
            else:
                high = middle
        if low == len(self) or self._values.item(self._by_value[low]) != sought:
            return None
        return self._by_value[low]

    def get_key(self, value: BytesLike) -> Optional[bytes]:
        r"""Returns the key of a value, or None where the value isn't there, in O(log n) comparisons.

        >>> BiMapView.decode(1, 1, b"\2ab\2yx").get_key(b"x")
        b'b'
        """
        index = self.position_of_value(value)
        return None if index is None else self._keys[index]
