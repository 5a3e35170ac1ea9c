"""Plans of pre-copy live migrations, memory of recorded guests, and frames of pages: the library libprecopy.so.6.

    import precopy

    with open("examples/gzip.pcwt", "rb") as file:
        trace = file.read()
    print(precopy.plan(trace, precopy.Settings(min=500, max=4000, threshold=10)))

A trace is the bytes of a recording of a guest's writes, with ticks as its unit of time. Rates are in pages per 1,000
ticks. More is asked of a trace that stays open, an `OpenTrace`. include/precopy.h says what each call does. A call that
refuses raises a `Refused`, of the kind named.

Bytes may be any object that has them in one piece, such as bytes, bytearray, memoryview, mmap or an array of numpy, and
are not copied, unless a call says so. No other thread may change them during a call, and what a call writes may not
overlap what it reads: that is an `Overlap`. A number that is negative or too large for its call is an `OverflowError`,
unless a `Refused` names it, and one that is no integer a `TypeError`.

The library is found through the variable PRECOPY_LIBRARY, in the folder of this package, beside the sources where
`make lib` puts it, or where the system looks for libraries.
"""

from __future__ import annotations

import ctypes
import threading
from dataclasses import dataclass, fields
from typing import Optional

from . import _calls, _interface
from ._calls import LIBRARY as _LIBRARY
from ._calls import lent as _lent
from ._calls import number as _number
from ._interface import Status
from ._open_checks import OpenCheck
from ._open_traces import OpenTrace, Write
from ._plans import Round, Settings, Sums, check_settings, plan, report
from ._predictions import (
    Agreement,
    Amounts,
    BestStart,
    Errors,
    Forecast,
    ForecastEnd,
    LinkShares,
    Prediction,
    Question,
    Reason,
    Verdict,
)
from ._recordings import Recording
from ._refusals import (
    BufferRefused,
    Bytes,
    FrameRefused,
    NoMemory,
    Overlap,
    PlaceRefused,
    QuestionRefused,
    Refused,
    SettingsRefused,
    TraceRefused,
)
from ._refusals import apart as _apart
from ._refusals import check as _check
from ._refusals import check_over as _check_over
from ._refusals import room as _room
from ._streams import Difference, Finding, Unstamped, check_streams

__all__ = [
    "Agreement", "Amounts", "BestStart", "BufferRefused", "Difference", "Errors", "Finding", "FlatMemory", "Forecast",
    "ForecastEnd", "Frame", "FrameRefused", "LinkShares", "NoMemory", "OpenCheck", "OpenTrace", "Overlap",
    "PlaceRefused", "Prediction", "Question", "QuestionRefused", "Reason", "Recording", "Refused", "Round", "Settings",
    "SettingsRefused", "Sizes", "Status", "Sums", "Taken", "TraceRefused", "Unstamped", "Verdict", "Write",
    "check_settings", "check_streams", "check_trace", "decode_frame", "encode_frame", "is_zero", "memory", "plan",
    "report", "version",
]  # fmt: skip


@dataclass(frozen=True)
class Sizes:
    """The sizes of a trace: pages of 2**shift bytes, how many pages, and how many writes. Sizes that no trace has are a
    `TraceRefused`."""

    shift: int
    pages: int
    writes: int

    def __post_init__(self) -> None:
        sizes, nothing, taken = self._as_c(), ctypes.create_string_buffer(1), _interface.Taken()
        # The sizes are tested first, and no memory of a guest has no bytes.
        status = _LIBRARY.precopy_accept(sizes, nothing, 0, nothing, 0, (_interface.Page * 1)(), 0, taken)
        if status != Status.MEMORY_LENGTH:
            _check(status)

    @property
    def page_length(self) -> int:
        return 1 << self.shift

    def _as_c(self) -> _interface.Sizes:
        return _interface.Sizes(*(_number(it.name, getattr(self, it.name), 32) for it in fields(self)))


@dataclass(frozen=True)
class Frame:
    """A page at a stamp. `size` is how many bytes its frame has."""

    page: int
    stamp: int
    size: int
    content: bytes


@dataclass(frozen=True)
class Taken:
    """How much of a stream was taken: how many frames, and how many bytes they have in total."""

    frames: int
    bytes: int


def version() -> str:
    """Returns the version of the library."""
    return str(_LIBRARY.precopy_version().decode())


def check_trace(trace: Bytes) -> Sizes:
    """Returns the sizes of a trace, or raises `TraceRefused`."""
    sizes = _interface.Sizes()
    _check_over(_LIBRARY.precopy_check_trace, trace, sizes)
    return Sizes(sizes.shift, sizes.pages, sizes.writes)


def memory(trace: Bytes) -> bytearray:
    """Returns the memory after all writes of a trace."""
    sizes, needed = check_trace(trace), ctypes.c_size_t()
    room: bytearray = _room(bytearray, sizes.pages << sizes.shift)
    with _lent(room, _calls.WRITABLE) as (start, length):
        _check_over(_LIBRARY.precopy_memory, trace, start, length, needed)
    return room


def encode_frame(sizes: Sizes, page: int, stamp: int, content: Bytes) -> bytes:
    """Returns the frame of a page at a stamp, with these bytes of the page."""
    room, needed = _room(ctypes.create_string_buffer, 9 + sizes.page_length), ctypes.c_size_t()
    where = _number("page", page, 32), _number("stamp", stamp, 32)
    with _lent(content) as (start, length):
        _check(_LIBRARY.precopy_encode_frame(sizes._as_c(), *where, start, length, room, len(room), needed))
    return ctypes.string_at(room, needed.value)


def decode_frame(sizes: Sizes, data: Bytes) -> Frame:
    """Returns the frame at the front of some bytes."""
    head, room = _interface.Frame(), _room(ctypes.create_string_buffer, sizes.page_length)
    with _lent(data) as (start, length):
        _check(_LIBRARY.precopy_decode_frame(sizes._as_c(), start, length, head, room, len(room)))
    return Frame(head.page, head.stamp, head.size, room.raw)


def is_zero(data: Bytes) -> bool:
    """Returns whether each byte is 0."""
    with _lent(data) as (start, length):
        return bool(_LIBRARY.precopy_is_zero(start, length))


class FlatMemory:
    """The memory of a guest, as frames come to it in any order: for each page the frame with the greatest stamp.
    Several threads may call at once, and wait for each other."""

    def __init__(self, sizes: Sizes) -> None:
        self.sizes = sizes
        #: the bytes of all pages, one page after the other; those of a page that did not come mean nothing
        self.memory: bytearray = _room(bytearray, sizes.pages << sizes.shift)
        self._pages = _room(_interface.Page * sizes.pages)
        self._only_call = threading.Lock()

    def accept(self, stream: Bytes) -> Taken:
        """Takes a stream of frames. `FrameRefused` says in `taken` what came before the bytes that are no frame. If the
        stream is a part of this memory, that is an `Overlap`."""
        taken, sizes = _interface.Taken(), self.sizes._as_c()
        with self._only_call, _lent(stream) as read, _lent(self.memory, _calls.WRITABLE) as written:
            _apart(written, read)
            status = _LIBRARY.precopy_accept(sizes, *read, *written, self._pages, len(self._pages), taken)
        so_far = Taken(taken.frames, taken.bytes)
        try:
            _check(status)
        except FrameRefused as refused:
            refused.taken = so_far
            raise
        return so_far

    def stamp(self, page: int) -> Optional[int]:
        """Returns the stamp of a page, or None if it did not come."""
        if _number("page", page, 32) >= len(self._pages):
            raise FrameRefused(Status.FRAME_PAGE)
        with self._only_call:
            state = self._pages[page]
            return state.stamp if state.came else None

    def missing(self) -> Optional[int]:
        """Returns the first page that did not come, or None if all did."""
        page = ctypes.c_size_t()
        with self._only_call:
            status = _LIBRARY.precopy_missing(self._pages, len(self._pages), page)
        return page.value if status == Status.PAGE_MISSING else None
