r"""Committees, certificates and quorums of consensus nodes: how many of n participants may be faulty, the encodings
of committees and of certificates, and of sets, maps and bimaps of keys of any size, and which members signed both
of two different values; all by the number of members or by what they weigh.

Each call is one or two calls of the shared library `libcommonware.so.2`, whose contracts are proved; nothing is
decided here, but that a key of another size than the keys of a set isn't there, and where one of no bytes is.
This package itself isn't proved, but tested.

>>> from commonware import N3F1, Certificate, Committee, check, equivocation, slot_value
>>> committee = Committee.from_keys_dedup([bytes([i]) * 32 for i in (7, 1, 3, 5)])
>>> committee.position(32 * b"\7"), committee.quorum(N3F1)
(3, 3)
>>> first = Certificate.encode(slot_value(b"view 7", b"A"), [0, 1, 2])
>>> second = Certificate.encode(slot_value(b"view 7", b"B"), [1, 2, 3])
>>> check(N3F1, committee, first).decision
b'A'
>>> equivocation(N3F1, committee, first, second)
(1, 2)

`decode` takes the whole input, and `read` returns what follows with the value. Whatever has bytes is an input:
`bytes` and read-only views of them are used where they are, and others copied, so no result ever changes. Results
are `bytes`, numbers, tuples of them, and `None` for what isn't there. Other failures are errors (`CommonwareError`
is the base of all), each a class with its numbers as fields. An object of a wrong type is a `TypeError`, and a
number that is negative or too large an `OutOfRange`, which is an `OverflowError`.

Calls may come from any number of threads at once; the interpreter's lock isn't held while the library runs.

The library is that of the folder in the environment variable COMMONWARE_C_LIB, else the one that
was installed with this package, else the one in `bindings/prebuilt/x86_64-linux` of the repository
that this package is in, else the system's. `version` returns its version. Where the major version
isn't that of `__version__`, which is this package's, the import raises ImportError. It is for Linux on
x86-64-v2 processors.
"""

from ._library import __version__ as __version__
from ._library import version
from ._native import BytesLike
from .certificates import Certificate, Checked, check, conflict, equivocation, slot_value
from .errors import (
    CommonwareError,
    EndOfInput,
    InvalidLength,
    InvalidVarint,
    LeftOver,
    NoMembers,
    NoModel,
    NoSize,
    NoSlot,
    NotStrict,
    NotWhole,
    OtherSlot,
    OutOfMemory,
    OutOfRange,
    Outside,
    RepeatedKey,
    RepeatedValue,
    SameValue,
    TooFew,
    TooLight,
    WeightOverflow,
    WrongSize,
    ZeroWeight,
)
from .faults import N3F1, N5F1, max_faults, quorum, smaller_quorum
from .maps import BiMapView, MapView
from .sets import MEMBER_SIZE, Committee, SetView
from .weights import (
    Named,
    WeightedChecked,
    Weights,
    weighted_check,
    weighted_conflict,
    weighted_equivocation,
)

__all__ = [
    "BiMapView",
    "BytesLike",
    "Certificate",
    "Checked",
    "Committee",
    "CommonwareError",
    "EndOfInput",
    "InvalidLength",
    "InvalidVarint",
    "LeftOver",
    "MEMBER_SIZE",
    "MapView",
    "N3F1",
    "N5F1",
    "Named",
    "NoMembers",
    "NoModel",
    "NoSize",
    "NoSlot",
    "NotStrict",
    "NotWhole",
    "OtherSlot",
    "OutOfMemory",
    "OutOfRange",
    "Outside",
    "RepeatedKey",
    "RepeatedValue",
    "SameValue",
    "SetView",
    "TooFew",
    "TooLight",
    "WeightOverflow",
    "WeightedChecked",
    "Weights",
    "WrongSize",
    "ZeroWeight",
    "check",
    "conflict",
    "equivocation",
    "max_faults",
    "quorum",
    "slot_value",
    "smaller_quorum",
    "version",
    "weighted_check",
    "weighted_conflict",
    "weighted_equivocation",
]
