"""Streams of a migration, checked against a trace all at once, and what is wrong in them."""

from __future__ import annotations

import ctypes
from dataclasses import dataclass
from typing import Optional, Sequence, Type

from . import _calls, _interface
from ._calls import LIBRARY as _LIBRARY
from ._calls import lent as _lent
from ._calls import number as _number
from ._interface import Status
from ._refusals import Bytes, call_over, check, room


@dataclass(frozen=True)
class Finding:
    """What is wrong first in streams, as include/precopy.h says for its status. What does not apply is 0."""

    status: Status
    stream: int
    frame: int
    offset: int
    tick: int
    page: int
    stamp: int
    wanted: int
    missing: int

    @property
    def place(self) -> str:
        """Where it is in the streams."""
        if self.status in (Status.PAGE_MISSING, Status.PAGE_BEHIND):
            return "at the stop"
        return f"stream {self.stream}, frame {self.frame}, byte {self.offset}"

    def __str__(self) -> str:
        text = _LIBRARY.precopy_strerror(self.status).decode()
        if self.status in _calls.NO_FRAME:
            return text
        lacks = f"; it lacks write {self.missing}, at tick {self.tick}" if self.missing else ""
        return f"page {self.page} at {self.stamp} for {self.wanted}, {text}{lacks}"


@dataclass(frozen=True)
class Unstamped(Finding):
    """What is wrong with a page that came without a stamp: it has its bytes at no version of it from `stamp` to
    `wanted`, which are those that it had come at, or 0, and that at the stop."""

    @property
    def place(self) -> str:
        return f"page {self.page} without a stamp"

    def __str__(self) -> str:
        return f"its bytes are those of no version from {self.stamp} to {self.wanted}"


@dataclass(frozen=True)
class Difference(Finding):
    """Where memory differs first from that after some writes: `offset` is the byte of memory, `page` its page, `wanted`
    the page's version, and `missing` and `tick` are those of the last write to that byte, or 0 if none wrote it."""

    @property
    def place(self) -> str:
        return f"byte {self.offset} of memory"

    def __str__(self) -> str:
        wrote = f"which write {self.missing} wrote at tick {self.tick}" if self.missing else "which no write wrote"
        return f"it is not that of page {self.page} at {self.wanted}, {wrote}"


def told(status: int, found: _interface.Finding, kind: Type[Finding] = Finding) -> Optional[Finding]:
    """What a call with this status found, of some kind, or None."""
    if status not in _calls.WRONG:
        check(status)
        return None
    return kind(Status(status), *(getattr(found, name) for name, _ in _interface.Finding._fields_))


def check_streams(trace: Bytes, stop: int, streams: Sequence[Bytes]) -> Optional[Finding]:
    """Returns what is wrong first in the streams of a migration that stops its guest after the first `stop` writes of a
    trace, or None. It takes memory for a copy of the trace, and if there are several streams, of these."""
    sizes, where = (ctypes.c_size_t * len(streams))(), _number("stop", stop, 32)
    for place, stream in enumerate(streams):
        with _lent(stream) as (_, length):
            sizes[place] = length
    whole = streams[0] if len(streams) == 1 else room(b"".join, streams)
    found = _interface.Finding()
    with _lent(whole) as (start, total):
        words = where, start, total, sizes, len(sizes), found
        return told(call_over(_LIBRARY.precopy_check_streams, trace, *words), found)
