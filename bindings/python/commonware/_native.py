"""What the functions of the shared library get from Python, and the errors of their statuses."""

import array
import ctypes
import operator
from collections.abc import Mapping, Set
from ctypes import c_char, c_void_p
from typing import Any, Callable, Iterable, Iterator, NamedTuple, Optional, Tuple, TypeVar, Union

from . import _calls, errors

U32_MAX = 2**32 - 1
U64_MAX = SIZE_MAX = 2**64 - 1

BytesLike = Union[bytes, bytearray, memoryview]
"""What has bytes. Every other object with the buffer protocol is taken too."""

Numbers = array.array
"""Indices of 32 bits or weights of 64, as the library has them on the one machine that it is for."""

_Made = TypeVar("_Made")


def made(make: Callable[..., _Made], *arguments: Any) -> _Made:
    """Returns what a call of Python makes, whose size is that of an argument: where there is no memory for it, the
    error is the package's."""
    try:
        return make(*arguments)
    except MemoryError:
        raise errors.OutOfMemory() from None


class _Buffer(ctypes.Structure):
    """The `Py_buffer` of Python's C interface."""

    _fields_ = [
        ("buf", c_void_p),
        ("obj", c_void_p),
        ("len", ctypes.c_ssize_t),
        ("itemsize", ctypes.c_ssize_t),
        ("readonly", ctypes.c_int),
        ("ndim", ctypes.c_int),
        ("format", c_void_p),
        ("shape", c_void_p),
        ("strides", c_void_p),
        ("suboffsets", c_void_p),
        ("internal", c_void_p),
    ]


# Objects of this module's own: those that are attributes of pythonapi may be declared otherwise by another one.
_get_buffer = ctypes.PYFUNCTYPE(ctypes.c_int, ctypes.py_object, ctypes.POINTER(_Buffer), ctypes.c_int)(
    ("PyObject_GetBuffer", ctypes.pythonapi)
)
_release_buffer = ctypes.PYFUNCTYPE(None, ctypes.POINTER(_Buffer))(("PyBuffer_Release", ctypes.pythonapi))


def _address(view: memoryview) -> int:
    """Returns where the bytes of a view are, which stay there as long as there is a view of them."""
    buffer = _Buffer()
    _get_buffer(view, ctypes.byref(buffer), 0)
    address: int = buffer.buf
    _release_buffer(ctypes.byref(buffer))
    return address


class Input(NamedTuple):
    """Bytes that no one can change, and where they are."""

    data: memoryview
    pointer: Union[bytes, int]

    @property
    def arguments(self) -> Tuple[Union[bytes, int], int]:
        """The pointer and the length that the library gets."""
        return self.pointer, self.data.nbytes


def input_of(data: BytesLike) -> Input:
    """Returns the bytes of an argument. Bytes, and read-only views of bytes, are used where they are; what
    others may write to meanwhile is copied."""
    if type(data) is bytes:
        return Input(memoryview(data), data)
    try:
        view = memoryview(data)
    except TypeError:
        raise TypeError(f"a bytes-like object is required, not {type(data).__name__!r}") from None
    if type(view.obj) is bytes and view.c_contiguous and view.nbytes > 0:
        view = view.cast("B") if view.format != "B" or view.ndim != 1 else view
        return Input(view, _address(view))
    copy = made(view.tobytes)
    return Input(memoryview(copy), copy)


def number_of(name: str, number: int, most: int) -> int:
    """Returns an argument that is from 0 to `most`. A bool is a TypeError: where one stands for a number, the
    arguments are mixed up."""
    if isinstance(number, bool):
        raise TypeError(f"{name} is a number, not a bool")
    index = operator.index(number)
    if not 0 <= index <= most:
        raise errors.OutOfRange(name, index, most)
    return index


def limits_of(least: int, most: Optional[int]) -> Tuple[int, int]:
    """Returns the limits of a number of items, where None is no limit."""
    return (
        number_of("least", least, SIZE_MAX),
        SIZE_MAX if most is None else number_of("most", most, SIZE_MAX),
    )


def written(call: Callable[..., Any], most: int, *arguments: Any) -> bytes:
    """Returns what a call writes, which is at most `most` bytes and at least one."""
    out = made(bytearray, most)
    view = call(*arguments, ctypes.byref(c_char.from_buffer(out)), most)
    if view.status == _calls.NOT_STRICT:
        raise errors.NotStrict(view.number)
    check_status(view.status, view.number)
    with memoryview(out) as whole:
        return made(bytes, whole[: view.size])


def pointed(numbers: Numbers) -> Tuple[Any, int]:
    """Returns the pointer and the length of indices or weights that the library gets."""
    if len(numbers) == 0:
        return None, 0
    return ctypes.byref(c_char.from_buffer(numbers)), len(numbers)


def room_for(length: int) -> Tuple[Numbers, Tuple[Any, int]]:
    """Returns room for some indices, and the pointer and the length that the library gets."""
    room = made(operator.mul, array.array("I", [0]), length)
    return room, pointed(room)


def _listed(name: str, numbers: Iterable[int], most: int) -> Iterator[int]:
    """Returns the numbers that an argument lists, in its order. What has numbers of another meaning, or in no order, is
    a TypeError: the bytes of an encoding, a text, the keys of a mapping, the items of a set."""
    if isinstance(numbers, (bytes, bytearray, memoryview, str, Mapping, Set)):
        raise TypeError(f"a list of numbers is required, not {type(numbers).__name__!r}")
    return (number_of(name, number, most) for number in numbers)


def indices_of(name: str, numbers: Iterable[int]) -> Numbers:
    """Returns the indices that an argument lists."""
    return made(array.array, "I", _listed(name, numbers, U32_MAX))


def weights_of(numbers: Iterable[int]) -> Numbers:
    """Returns the weights that an argument lists."""
    return made(array.array, "Q", _listed("weight", numbers, U64_MAX))


_PLAIN = {
    _calls.END_OF_INPUT: errors.EndOfInput,
    _calls.INVALID_VARINT: errors.InvalidVarint,
    _calls.NOT_STRICT: errors.NotStrict,
    _calls.MEMORY: errors.OutOfMemory,
    _calls.NO_MEMBERS: errors.NoMembers,
    _calls.SAME_VALUE: errors.SameValue,
    _calls.OUTSIDE: errors.Outside,
    _calls.TOO_FEW: errors.TooFew,
    _calls.NO_MODEL: errors.NoModel,
    _calls.NO_SLOT: errors.NoSlot,
    _calls.OTHER_SLOT: errors.OtherSlot,
    _calls.NO_SIZE: errors.NoSize,
    _calls.TOO_LIGHT: errors.TooLight,
}
_NUMBERED = {
    _calls.INVALID_LENGTH: errors.InvalidLength,
    _calls.LEFT_OVER: errors.LeftOver,
    _calls.NOT_WHOLE: errors.NotWhole,
    _calls.REPEATED_KEY: errors.RepeatedKey,
    _calls.ZERO_WEIGHT: errors.ZeroWeight,
    _calls.WEIGHT_OVERFLOW: errors.WeightOverflow,
}


def check_status(status: int, number: int = 0, which: int = 0) -> None:
    """Raises the error of a status of the library, with its number, where it isn't OK."""
    if status == _calls.OK:
        return
    if status in _NUMBERED:
        error: errors.CommonwareError = _NUMBERED[status](number)
    else:
        error = _PLAIN[status]()
    if which:
        error.which = which
    raise error
