"""A trace that stays open between calls."""

from __future__ import annotations

import ctypes
from dataclasses import dataclass
from typing import Any, List, Optional

from . import _calls, _interface
from ._calls import LIBRARY as _LIBRARY
from ._calls import lent as _lent
from ._calls import number as _number
from ._interface import Status
from ._open_checks import OpenCheck, difference
from ._plans import Plans
from ._predictions import Predictions
from ._refusals import Bytes
from ._refusals import apart as _apart
from ._refusals import check as _check
from ._refusals import check_over as _check_over
from ._refusals import room as _room
from ._streams import Finding


@dataclass(frozen=True)
class Write:
    """A write to a page: its place in the trace, 1 for the first, its tick, and how many bytes it writes from which
    byte of the page on. With none it releases the page."""

    place: int
    tick: int
    offset: int
    size: int


class OpenTrace(Plans, Predictions):
    """A trace that stays open: each call over it costs what it answers, and not another test of the trace. Its bytes
    are not copied; they neither move nor shrink as long as it is there, and nothing may change them. Several threads
    may call at once."""

    def __init__(self, trace: Bytes) -> None:
        self._held = _lent(trace)
        self._read = _, length = self._held.__enter__()
        words = 3 * min(1 << 20, max(0, length - 16) // 16) + (1 << 16)
        self._words = _room(ctypes.c_uint32 * words)
        self._trace, needed = _interface.Trace(), ctypes.c_size_t()
        _check_over(_LIBRARY.precopy_trace_open, trace, self._words, words, self._trace, needed)

    @property
    def shift(self) -> int:
        """The page shift: a page has 2**shift bytes."""
        return int(self._trace.sizes.shift)

    @property
    def pages(self) -> int:
        """How many pages the guest has."""
        return int(self._trace.sizes.pages)

    @property
    def writes(self) -> int:
        """How many writes the trace has."""
        return int(self._trace.sizes.writes)

    def writes_before(self, tick: int) -> int:
        """Returns the number of writes before a tick."""
        count = ctypes.c_uint32()
        _check(_LIBRARY.precopy_trace_writes_before(self._trace, _number("tick", tick, 64), count))
        return count.value

    def memory_before(self, tick: int) -> bytearray:
        """Returns the memory before a tick: what a migration that stops the guest there must leave."""
        at, needed = _number("tick", tick, 64), ctypes.c_size_t()
        room: bytearray = _room(bytearray, self.pages << self.shift)
        with _lent(room, _calls.WRITABLE) as (start, length):
            _check(_LIBRARY.precopy_trace_memory_before(self._trace, at, start, length, needed))
        return room

    def memory_step(self, start: int, end: int, memory: Bytes) -> None:
        """Brings memory after the first `start` writes on to that after the first `end` writes, in place. Memory that
        overlaps the trace is an `Overlap`."""
        where = _number("start", start, 32), _number("end", end, 32)
        with _lent(memory, _calls.WRITABLE) as written:
            _apart(written, self._read)
            _check(_LIBRARY.precopy_trace_memory_step(self._trace, *where, *written))

    def page_writes(self, page: int) -> List[Write]:
        """Returns the writes to a page, in their order."""
        where, count, found = _number("page", page, 32), ctypes.c_size_t(), (_interface.Write * 0)()
        status = _LIBRARY.precopy_trace_page_writes(self._trace, where, found, 0, count)
        if status == Status.SHORT_BUFFER:
            found = _room(_interface.Write * count.value)
            status = _LIBRARY.precopy_trace_page_writes(self._trace, where, found, len(found), count)
        _check(status)
        return [Write(it.place, it.tick, it.offset, it.size) for it in found]

    def version_after(self, page: int, count: int) -> int:
        """Returns the version of a page after the first `count` writes: the place of the last of them that is to the
        page, or 0."""
        version, where = ctypes.c_uint32(), (_number("page", page, 32), _number("count", count, 32))
        _check(_LIBRARY.precopy_trace_version_after(self._trace, *where, version))
        return version.value

    def versions_after(self, count: int) -> List[int]:
        """Returns the versions of all pages after the first `count` writes."""
        return self._versions(_LIBRARY.precopy_trace_versions_after, _number("count", count, 32))

    def versions_before(self, tick: int) -> List[int]:
        """Returns the versions of all pages after the writes before a tick: those of a right migration that stops the
        guest there."""
        return self._versions(_LIBRARY.precopy_trace_versions_before, _number("tick", tick, 64))

    def page_at(self, page: int, stamp: int) -> bytes:
        """Returns the bytes of a page at a stamp: as the write to it with this place leaves them, or zeros for 0."""
        room = _room(ctypes.create_string_buffer, 1 << self.shift)
        where = _number("page", page, 32), _number("stamp", stamp, 32)
        _check(_LIBRARY.precopy_trace_page_at(self._trace, *where, ctypes.addressof(room), len(room)))
        return room.raw

    def difference(self, count: int, memory: Bytes) -> Optional[Finding]:
        """Returns the first byte of memory that is not as the first `count` writes leave it, as a `Difference`,
        or None. Memory that has not the bytes of all pages is a `BufferRefused`."""
        place = _number("count", count, 32)
        with _lent(memory) as lent:
            return difference(self._trace, place, *lent)

    def check(self, stop: int, base: Optional[int] = None) -> OpenCheck:
        """Returns a check of the streams of a migration that stops its guest after the first `stop` writes. With a base
        the destination has the memory before that tick, so a page that is not written from there to the stop need not
        come."""
        return OpenCheck(self, self._trace, stop, base)

    def _versions(self, call: Any, place: int) -> List[int]:
        found, needed = _room(ctypes.c_uint32 * self.pages), ctypes.c_size_t()
        _check(call(self._trace, place, found, len(found), needed))
        return list(found)
