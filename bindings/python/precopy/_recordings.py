"""A trace that is written."""

from __future__ import annotations

import ctypes
import threading
from typing import Any

from . import _calls, _interface
from ._calls import LIBRARY as _LIBRARY
from ._calls import lent as _lent
from ._calls import number as _number
from ._interface import Status
from ._refusals import Bytes, TraceRefused
from ._refusals import check as _check
from ._refusals import room as _room

_HEAD, _LONGEST = 16, 1 << 28
_OF_A_RECORD = range(Status.TICK_ORDER, Status.OUT_OF_PAGE + 1)


class Recording:
    """A trace of a guest, written write after write. After each call, also one that refuses, `bytes` of it are a whole
    trace. Several threads may call at once, and wait for each other."""

    def __init__(self, shift: int, pages: int) -> None:
        self._state, self._only_call = _interface.Recording(), threading.Lock()
        self._room: bytearray = _room(bytearray, 4096)
        sizes = _number("shift", shift, 32), _number("pages", pages, 32)
        with _lent(self._room, _calls.WRITABLE) as (start, length):
            _check(_LIBRARY.precopy_record_begin(start, length, *sizes, self._state))

    def write(self, tick: int, page: int, offset: int, data: Bytes) -> None:
        """Appends a write of some bytes, from an offset of a page on. It may have no tick below that of the one before,
        and at least one byte."""
        where = _number("tick", tick, 64), _number("page", page, 32), _number("offset", offset, 32)
        with self._only_call, _lent(data) as (start, length):
            self._append(_LIBRARY.precopy_record_write, length, *where, start, length)

    def release(self, tick: int, page: int) -> None:
        """Appends a write that releases a page, which becomes zeros."""
        where = _number("tick", tick, 64), _number("page", page, 32)
        with self._only_call:
            self._append(_LIBRARY.precopy_record_release, 0, *where)

    def __bytes__(self) -> bytes:
        with self._only_call, _lent(self._room) as (start, _):
            return _room(ctypes.string_at, start, self._state.length)

    def _append(self, call: Any, size: int, *words: Any) -> None:
        """Makes a call in room that is long enough, if a trace may have so many bytes."""
        needed = self._state.length + _HEAD + size
        if len(self._room) < needed <= _LONGEST:
            more = min(max(needed, 2 * len(self._room)), _LONGEST) - len(self._room)
            _room(self._room.extend, _room(bytearray, more))
        with _lent(self._room, _calls.WRITABLE) as (start, length):
            status = call(start, length, self._state, *words)
        if status in _OF_A_RECORD:
            raise TraceRefused(status, self._state.writes)
        _check(status)
