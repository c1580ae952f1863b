"""Byte sequences of one size, one after another."""

import operator
from typing import Iterable, Iterator, NamedTuple, Tuple, TypeVar, Union

from . import errors
from ._native import BytesLike, input_of, made

_Value = TypeVar("_Value")


class Items(NamedTuple):
    """`count` items of `size` bytes, which are the bytes of `data`. Where the size is 0, only `count` says how
    many there are."""

    size: int
    count: int
    data: memoryview

    def item(self, index: int) -> bytes:
        """Returns the item at an index below the count."""
        start = index * self.size
        return bytes(self.data[start : start + self.size])

    def place(self, index: int) -> int:
        """Returns the index that one of Python is, where -1 is the last item."""
        at = operator.index(index)
        at += self.count if at < 0 else 0
        if not 0 <= at < self.count:
            raise IndexError(f"index {index} of {self.count} items")
        return at

    def walk(self) -> Iterator[bytes]:
        return map(self.item, range(self.count))


def items_at(size: int, count: int, view: memoryview, start: int) -> Items:
    """Returns the items that begin at an offset of the input, which has them."""
    return Items(size, count, view[start : start + count * size])


def whole(read: Tuple[_Value, memoryview]) -> _Value:
    """Returns what was read, where nothing follows it."""
    value, rest = read
    if len(rest) > 0:
        raise errors.LeftOver(len(rest))
    return value


def item_of(index: int, size: int, item: BytesLike, part: str = "key") -> memoryview:
    """Returns the bytes of an item of a list, which has this size."""
    data = input_of(item).data
    if len(data) != size:
        raise errors.WrongSize(index, len(data), size, part)
    return data


def one_after_another(size: int, items: Union[BytesLike, Iterable[BytesLike]]) -> BytesLike:
    """Returns the bytes of items of this size; those that are all in one stay as they are."""
    if isinstance(items, (bytes, bytearray, memoryview)):
        return items
    return made(b"".join, (item_of(index, size, item) for index, item in enumerate(items)))
