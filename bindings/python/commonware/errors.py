"""Why an input is refused, why nothing can be written, and why two certificates name no one.

Each error is a class with a name, below one base class. Where one of two certificates is what it is about,
`which` is 1 or 2:

>>> from commonware import CommonwareError, conflict
>>> try:
...     conflict(3, 4, bytes([1, 0xAA, 3, 0, 1, 2]), bytes([1, 0xBB, 3, 1]))
... except CommonwareError as error:
...     print(type(error).__name__, error.which, error)
EndOfInput 2 certificate 2: unexpected end of input
"""

from typing import Optional

__all__ = [
    "CommonwareError",
    "EndOfInput",
    "InvalidLength",
    "InvalidVarint",
    "LeftOver",
    "NoMembers",
    "NoModel",
    "NoSize",
    "NoSlot",
    "NotStrict",
    "NotWhole",
    "OtherSlot",
    "OutOfMemory",
    "OutOfRange",
    "Outside",
    "RepeatedKey",
    "RepeatedValue",
    "SameValue",
    "TooFew",
    "TooLight",
    "WeightOverflow",
    "WrongSize",
    "ZeroWeight",
]


class CommonwareError(Exception):
    """The base of all errors of this package. `which` is 1 or 2 where the error is about the first or the
    second of two certificates, else None."""

    which: Optional[int] = None

    def _words(self) -> str:
        raise NotImplementedError

    def __str__(self) -> str:
        return self._words() if self.which is None else f"certificate {self.which}: {self._words()}"


class EndOfInput(CommonwareError, ValueError):
    """The input ends before the value does."""

    def _words(self) -> str:
        return "unexpected end of input"


class InvalidVarint(CommonwareError, ValueError):
    """A varint is longer than it has to be, or its number is past 4294967295."""

    def _words(self) -> str:
        return "invalid varint"


class InvalidLength(CommonwareError, ValueError):
    """This length is out of range: of an input the range that is allowed, of what is written, and of weights,
    4294967295."""

    def __init__(self, length: int) -> None:
        super().__init__(length)
        self.length = length

    def _words(self) -> str:
        return f"length {self.length} is out of range"


class NotStrict(CommonwareError, ValueError):
    """The items aren't strictly increasing. Where they were to be written, `index` is that of the first
    signer that isn't greater than the one before it; of an input it is None."""

    def __init__(self, index: Optional[int] = None) -> None:
        super().__init__(index)
        self.index = index

    def _words(self) -> str:
        if self.index is None:
            return "items must be sorted and unique"
        return f"signer {self.index} isn't greater than the one before it"


class LeftOver(CommonwareError, ValueError):
    """This number of bytes follows the value, and none may."""

    def __init__(self, count: int) -> None:
        super().__init__(count)
        self.count = count

    def _words(self) -> str:
        return f"{self.count} bytes left over"


class RepeatedValue(CommonwareError, ValueError):
    """Two pairs of a bimap have the same value: `second` is the least index of a pair whose value an earlier
    pair has, and `first` the index of that one."""

    def __init__(self, first: int, second: int) -> None:
        super().__init__(first, second)
        self.first, self.second = first, second

    def _words(self) -> str:
        return f"pairs {self.first} and {self.second} have the same value"


class RepeatedKey(CommonwareError, ValueError):
    """The pair at this index has the key of an earlier one."""

    def __init__(self, index: int) -> None:
        super().__init__(index)
        self.index = index

    def _words(self) -> str:
        return f"pair {self.index} has the key of an earlier one"


class NoSize(CommonwareError, ValueError):
    """Keys of no bytes: how many there are can't be told."""

    def _words(self) -> str:
        return "keys of no bytes"


class NotWhole(CommonwareError, ValueError):
    """This number of bytes follows the last whole key, or the last whole pair of a map."""

    def __init__(self, count: int) -> None:
        super().__init__(count)
        self.count = count

    def _words(self) -> str:
        return f"{self.count} bytes after the last whole item"


class WrongSize(CommonwareError, ValueError):
    """The key at this index of a list, or of the pair there the key or the value, has `length` bytes, and should have
    `size`. `part` is "key" or "value"."""

    def __init__(self, index: int, length: int, size: int, part: str = "key") -> None:
        super().__init__(index, length, size, part)
        self.index, self.length, self.size, self.part = index, length, size, part

    def _words(self) -> str:
        return f"{self.part} {self.index} has {self.length} bytes, and should have {self.size}"


class NoModel(CommonwareError, ValueError):
    """The k of a fault model is below 2."""

    def _words(self) -> str:
        return "k is below 2"


class NoMembers(CommonwareError, ValueError):
    """The committee has no members."""

    def _words(self) -> str:
        return "the committee has no members"


class Outside(CommonwareError, ValueError):
    """A signer is no member of the committee."""

    def _words(self) -> str:
        return "a signer is no member of the committee"


class TooFew(CommonwareError, ValueError):
    """All signers are members, and they are fewer than a quorum."""

    def _words(self) -> str:
        return "fewer signers than a quorum"


class TooLight(CommonwareError, ValueError):
    """All signers are members, and they weigh less than a quorum."""

    def _words(self) -> str:
        return "the signers weigh less than a quorum"


class ZeroWeight(CommonwareError, ValueError):
    """The weight at this index is 0."""

    def __init__(self, index: int) -> None:
        super().__init__(index)
        self.index = index

    def _words(self) -> str:
        return f"weight {self.index} is 0"


class WeightOverflow(CommonwareError, ValueError):
    """With the weight at this index the sum is past 18446744073709551615."""

    def __init__(self, index: int) -> None:
        super().__init__(index)
        self.index = index

    def _words(self) -> str:
        return f"with weight {self.index} the sum is past {2**64 - 1}"


class SameValue(CommonwareError, ValueError):
    """Both certificates are for the same value; of an equivocation, for the same decision for one slot."""

    def _words(self) -> str:
        return "both certificates are for the same value"


class NoSlot(CommonwareError, ValueError):
    """The value is no decision for a slot."""

    def _words(self) -> str:
        return "a value without a slot"


class OtherSlot(CommonwareError, ValueError):
    """The values are for two different slots: this rule allows both."""

    def _words(self) -> str:
        return "two different slots"


class OutOfRange(CommonwareError, OverflowError):
    """An argument with this name is negative, or greater than the library's type for it holds."""

    def __init__(self, name: str, number: int, most: int) -> None:
        super().__init__(name, number, most)
        self.name, self.number, self.most = name, number, most

    def _words(self) -> str:
        return f"{self.name} is from 0 to {self.most}, and not {self.number}"


class OutOfMemory(CommonwareError, MemoryError):
    """An allocation failed. This says nothing of the arguments."""

    def _words(self) -> str:
        return "out of memory"
