"""The library itself, and bytes lent to a call."""

from __future__ import annotations

import contextlib
import ctypes
import operator
import os
from typing import Any, Iterator, Tuple

from ._interface import ABI, CALLS, Status

NAME = f"libprecopy.so.{ABI}"
# The statuses of what is wrong in streams.
NO_FRAME = range(Status.FRAME_SHORT, Status.FRAME_ZEROS + 1)
WRONG = (*NO_FRAME, Status.PAGE_MISSING, *range(Status.NO_VERSION, Status.PAGE_BEHIND + 1))
MOST_ROUNDS = 64
# No trace has a record of this number.
NO_RECORD = 0xFFFFFFFF
WRITABLE = 1  # CPython's PyBUF_WRITABLE


def _place() -> str:
    """Returns the path of the library, or its name alone if the system is to find it."""
    here = os.path.dirname(os.path.abspath(__file__))
    sources = os.path.dirname(os.path.dirname(os.path.dirname(here)))
    known = [os.path.join(here, NAME), os.path.join(sources, "out", "library", NAME)]
    asked = os.environ.get("PRECOPY_LIBRARY")
    return asked if asked else next((path for path in known if os.path.exists(path)), NAME)


def _load() -> ctypes.CDLL:
    loaded = ctypes.CDLL(_place())
    loaded.precopy_abi.argtypes, loaded.precopy_abi.restype = [], ctypes.c_uint32
    if (found := loaded.precopy_abi()) != ABI:
        raise ImportError(f"{loaded._name} has interface {found}, and this module calls interface {ABI}")
    for name, arguments in CALLS.items():
        call = getattr(loaded, f"precopy_{name}")
        call.argtypes, call.restype = arguments, ctypes.c_uint32
    loaded.precopy_is_zero.restype = ctypes.c_bool
    loaded.precopy_strerror.argtypes, loaded.precopy_strerror.restype = [ctypes.c_uint32], ctypes.c_char_p
    loaded.precopy_version.argtypes, loaded.precopy_version.restype = [], ctypes.c_char_p
    return loaded


LIBRARY = _load()


def number(name: str, value: int, bits: int) -> int:
    """Returns a number, or raises `OverflowError` if it has not so many bits, and `TypeError` if it is no integer."""
    found = operator.index(value)
    if not 0 <= found < 1 << bits:
        raise OverflowError(f"{name} is not from 0 to 2**{bits} - 1")
    return found


class _View(ctypes.Structure):
    """CPython's Py_buffer."""

    _fields_ = [
        ("start", ctypes.c_void_p),
        ("owner", ctypes.c_void_p),
        ("length", ctypes.c_ssize_t),
        ("item", ctypes.c_ssize_t),
        ("is_read_only", ctypes.c_int),
        ("dimensions", ctypes.c_int),
        ("format", ctypes.c_void_p),
        ("shape", ctypes.c_void_p),
        ("strides", ctypes.c_void_p),
        ("suboffsets", ctypes.c_void_p),
        ("internal", ctypes.c_void_p),
    ]


_lend, _give_back = ctypes.pythonapi.PyObject_GetBuffer, ctypes.pythonapi.PyBuffer_Release
_lend.argtypes, _lend.restype = [ctypes.py_object, ctypes.POINTER(_View), ctypes.c_int], ctypes.c_int
_give_back.argtypes, _give_back.restype = [ctypes.POINTER(_View)], None
_NO_BYTES = ctypes.create_string_buffer(1)


@contextlib.contextmanager
def lent(data: Any, flags: int = 0) -> Iterator[Tuple[int, int]]:
    """Gives the address and the length of the bytes of an object, which neither moves nor shrinks meanwhile. What is
    not bytes in one piece is a `TypeError` or a `BufferError`."""
    view = _View()
    try:
        _lend(data, view, flags)
    except ValueError as fault:  # so numpy says that an array is not in one piece, or cannot be written
        raise BufferError(str(fault)) from fault
    try:
        yield view.start or ctypes.addressof(_NO_BYTES), view.length
    finally:
        _give_back(view)
