"""Streams of a migration, checked over a trace that stays open, in any order."""

from __future__ import annotations

import contextlib
import ctypes
import mmap
import threading
from typing import Any, Dict, Optional, Tuple

from . import _interface
from ._calls import LIBRARY as _LIBRARY
from ._calls import lent as _lent
from ._calls import number as _number
from ._interface import Status
from ._refusals import Bytes
from ._refusals import check as _check
from ._refusals import room as _room
from ._streams import Difference, Finding, Unstamped, told


class _Stream:
    """What is known of one stream."""

    def __init__(self, number: int, stop: int, sizes: _interface.Sizes) -> None:
        self.progress = _interface.Progress(stream=number, stop=stop)
        self.last = _room(ctypes.c_uint32 * sizes.pages)
        # Room for the longest frame, and how many bytes of one are in it, whose end did not come.
        self.cut = _room(ctypes.create_string_buffer, 9 + (1 << sizes.shift))
        self.left = 0
        self.first: Optional[Finding] = None

    def end(self) -> Optional[Finding]:
        """What was found first, or a frame that is cut off at the end, or None."""
        if self.first is None:
            found = _interface.Finding()
            self.first = told(_LIBRARY.precopy_end_stream(self.progress, self.left, found), found)
            self.left = 0
        return self.first


def difference(handle: _interface.Trace, count: int, start: int, length: int) -> Optional[Finding]:
    """Where the memory at an address differs first from that after the first `count` writes, or None."""
    room, found = _room(ctypes.create_string_buffer, 1 << handle.sizes.shift), _interface.Finding()
    lent = ctypes.addressof(room), len(room)
    return told(_LIBRARY.precopy_trace_differs(handle, count, start, length, *lent, found), found, Difference)


def _zeros(length: int) -> Any:
    """Zeros that take memory only where they are written, and in large pages if the system has them. A process that
    forks keeps its own."""
    room = mmap.mmap(-1, length, mmap.MAP_PRIVATE | mmap.MAP_ANONYMOUS)
    with contextlib.suppress(AttributeError, OSError):
        room.madvise(mmap.MADV_HUGEPAGE)
    return (ctypes.c_char * length).from_buffer(room)


class OpenCheck:
    """A check of the streams of a migration as they come, whose pieces may come in any order. At the end it has found
    what `check_streams` finds in all of them at once. What is wrong first in a stream is what each later call for it
    returns, and no more of it is taken then. So it is with pages that come without stamps. With a base, in ticks, the
    destination begins with the memory before it. It takes memory as large as the guest's, and four bytes for each page
    and stream. Several threads may call at once, and wait for each other. `OpenTrace.check` makes it."""

    def __init__(self, trace: Any, handle: _interface.Trace, stop: int, base: Optional[int] = None) -> None:
        sizes, self._handle = handle.sizes, handle
        # What the handle points to.
        self._trace = trace
        self._stop = _number("stop", stop, 32)
        self._greatest = _room(ctypes.c_uint32 * sizes.pages)
        self._memory = _room(_zeros, sizes.pages << sizes.shift)
        self._streams: Dict[int, _Stream] = {}
        self._first_page: Optional[Finding] = None
        # Whether pages came without stamps, so that versions do not tell if memory is right.
        self._has_pages = False
        self._only_call = threading.Lock()
        if base is not None:
            _check(_LIBRARY.precopy_trace_check_base(handle, _number("base", base, 64), *self._lent()))

    def _lent(self) -> Tuple[Any, int, int, int]:
        """What each call is lent: the words of the greatest stamps, and the memory."""
        return self._greatest, len(self._greatest), ctypes.addressof(self._memory), len(self._memory)

    def _known(self, stream: int) -> _Stream:
        number = _number("stream", stream, 64)
        if number not in self._streams:
            self._streams[number] = _Stream(number, self._stop, self._handle.sizes)
        return self._streams[number]

    def take(self, stream: int, data: Bytes) -> Optional[Finding]:
        """Takes the next bytes of the stream with this number, and returns the first frame in it that is wrong, or
        None. It keeps the beginning of a frame at their end, and copies only what the frame at their front needs."""
        with self._only_call, _lent(data) as (start, length):
            known = self._known(stream)
            if known.first is None and known.left:
                count = self._take_cut(known, start, length)
                start, length = start + count, length - count
            if known.first is None and length:
                taken = self._take(known, start, length)
                ctypes.memmove(known.cut, start + taken, known.left)
            return known.first

    def _take_cut(self, known: _Stream, start: int, length: int) -> int:
        """Takes the frame whose beginning was kept, and returns how many of the next bytes that took."""
        began, room = known.left, ctypes.addressof(known.cut)
        count = min(length, len(known.cut) - began)
        ctypes.memmove(room + began, start, count)
        taken = self._take(known, room, began + count)
        if taken == 0:
            return count
        known.left = 0
        return taken - began

    def _take(self, known: _Stream, start: int, length: int) -> int:
        """Takes bytes of a stream, and returns how many the whole frames in them have."""
        before, found = known.progress.bytes, _interface.Finding()
        lent = known.last, len(known.last), *self._lent()
        status = _LIBRARY.precopy_trace_check_piece(self._handle, start, length, known.progress, *lent, found)
        known.first = told(status, found)
        taken = int(known.progress.bytes - before)
        known.left = 0 if known.first else length - taken
        return taken

    def end_stream(self, stream: int) -> Optional[Finding]:
        """Ends the stream with this number, and returns what was found in it before, or the frame that is cut off at
        its end, or None."""
        with self._only_call:
            return self._known(stream).end()

    def take_page(self, page: int, content: Bytes) -> Optional[Finding]:
        """Takes a page that comes without a stamp, as from an engine that knows its dirty pages alone. It is right if
        it has its bytes at a version of the page: none below the one that was taken last, and none after the stop. Then
        the least of these is taken. Returns an `Unstamped` of the first page that is not, or None. A page that
        the guest does not have is a `PlaceRefused`, and bytes that are not as many as a page has a `BufferRefused`."""
        number = _number("page", page, 32)
        with self._only_call, _lent(content) as lent:
            if self._first_page is None:
                where = self._handle, self._stop, number
                status = _LIBRARY.precopy_trace_check_bytes(*where, *lent, *self._lent())
                self._first_page = self._told(status, number)
                self._has_pages = True
            return self._first_page

    def _told(self, status: int, page: int) -> Optional[Finding]:
        """What was found of a page without a stamp."""
        found = _interface.Finding(page=page)
        if status == Status.OTHER_BYTES:
            version = ctypes.c_uint32()
            _check(_LIBRARY.precopy_trace_version_after(self._handle, page, self._stop, version))
            found.stamp, found.wanted = max(0, self._greatest[page] - 1), version.value
        return told(status, found, Unstamped)

    def finish(self) -> Optional[Finding]:
        """Ends all streams, and returns what was found in the first of them in which something is wrong, or else in
        the pages without stamps, or else the first page that is not at its version at the stop, or None. If pages came
        without stamps, it returns a `Difference` of memory and that at the stop in place of such a page."""
        with self._only_call:
            for _, known in sorted(self._streams.items()):
                if first := known.end():
                    return first
            return self._first_page or (self._differs() if self._has_pages else self._behind())

    def _differs(self) -> Optional[Finding]:
        return difference(self._handle, self._stop, ctypes.addressof(self._memory), len(self._memory))

    def _behind(self) -> Optional[Finding]:
        found, progress = _interface.Finding(), _interface.Progress(stop=self._stop)
        words = self._greatest, len(self._greatest)
        return told(_LIBRARY.precopy_trace_check_pages(self._handle, progress, *words, found), found)
