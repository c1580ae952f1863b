"""The shared library: where it is, which version it has, and how a function of it is declared."""

import ctypes
import os
import pathlib
import sys
from ctypes import c_uint32
from typing import Any, Callable, Tuple

NAME = "libcommonware.so.2"

__version__ = "2.0.0"


def find() -> str:
    """Returns the path of the library, or its name where the system has to find it."""
    said = os.environ.get("COMMONWARE_C_LIB")
    if said:
        return str(pathlib.Path(said).absolute() / NAME)
    here = pathlib.Path(__file__).resolve().parent
    for folder in (here / "lib", here.parents[1] / "prebuilt" / "x86_64-linux"):
        if (folder / NAME).is_file():
            return str(folder / NAME)
    return NAME


def _load() -> ctypes.CDLL:
    if sys.maxsize != 2**63 - 1 or not sys.platform.startswith("linux"):
        raise ImportError("commonware needs a 64-bit Python on x86-64 Linux.")
    try:
        return ctypes.CDLL(find())
    except OSError as error:
        raise ImportError(
            f"commonware can't load its library ({error}): "
            f"set COMMONWARE_C_LIB to the folder that has {NAME}."
        ) from None


LIBRARY = _load()


def declare(name: str, result: Any, *arguments: Any) -> Callable[..., Any]:
    """Returns a function of the library, with the types that `commonware.h` declares."""
    try:
        function = getattr(LIBRARY, f"commonware_{name}")
    except AttributeError:
        raise ImportError(
            f"{LIBRARY._name} is another version of the library, without commonware_{name}: "
            f"this package needs version {__version__}."
        ) from None
    function.restype, function.argtypes = result, arguments
    declared: Callable[..., Any] = function
    return declared


version_number = declare("version", c_uint32)


def version() -> Tuple[int, int, int]:
    """Returns the version of the library that is loaded: major, minor and patch. `__version__` is
    that of this package, which loads no library of another major version.

    >>> version()
    (2, 0, 0)
    """
    major, rest = divmod(int(version_number()), 1_000_000)
    minor, patch = divmod(rest, 1000)
    return major, minor, patch


def _check_version() -> None:
    """Refuses a library of another major version, whose functions may say other things."""
    major = __version__.split(".")[0]
    if version()[0] != int(major):
        raise ImportError(
            f"{LIBRARY._name} is version {'.'.join(map(str, version()))} of the library: "
            f"this package needs version {major}."
        )


_check_version()
