"""Plans of migrations: settings, sums, rounds and reports, of the bytes of a trace or of one that stays open."""

from __future__ import annotations

import ctypes
import mmap
from dataclasses import dataclass, fields
from typing import Callable, List, Optional, Sequence, Tuple

from . import _calls, _interface
from ._calls import LIBRARY as _LIBRARY
from ._calls import lent as _lent
from ._calls import number as _number
from ._predictions import Reason
from ._refusals import Bytes
from ._refusals import check as _check
from ._refusals import check_over as _check_over
from ._refusals import room as _room


@dataclass(frozen=True)
class Settings:
    """The settings of a plan, with the values that the program precopy uses if no option is given. With a base the
    destination begins with the memory before that tick."""

    min: int = 1000
    max: int = 5000
    increment: int = 500
    threshold: int = 64
    rounds: int = 30
    start: int = 0
    window: int = 1000
    hot: int = 2
    base: Optional[int] = None
    skip: bool = False

    def __post_init__(self) -> None:
        self._as_c()

    def _as_c(self) -> _interface.Settings:
        asked = {it.name: getattr(self, it.name) for it in fields(self)}
        asked["base"] = 0 if self.base is None else self.base
        skip = _number("skip", asked.pop("skip"), 1)
        numbers = (_number(name, value, 64) for name, value in asked.items())
        return _interface.Settings(ctypes.sizeof(_interface.Settings), *numbers, self.base is not None, skip)


@dataclass(frozen=True)
class Sums:
    """The sums of a plan: rounds, why they end, the tick of the stop, the downtime in ticks, pages sent in all."""

    rounds: int
    reason: Reason
    stop: int
    down: int
    total: int


@dataclass(frozen=True)
class Round:
    """A round of a plan, from the tick `start` to before `end`: how many pages it has, sends and leaves dirty."""

    start: int
    end: int
    rate: int
    pages: int
    sent: int
    dirtied: int


def _sums(found: _interface.Sums) -> Sums:
    return Sums(found.rounds, Reason(found.reason), found.stop, found.down, found.total)


def longest_report(trace_length: int) -> int:
    """At least as many bytes as a report has: a line for each window with a write and for each hot page, and others. A
    write has at least 16 bytes in a trace."""
    writes = min(1 << 20, max(0, trace_length - 16) // 16)
    window, hot, other, others = _interface.REPORT_BOUND
    return window * writes + hot * min(writes, 1 << 16) + other * others


def _report(trace_length: int, write: Callable[[int, int, ctypes.c_size_t], None]) -> str:
    """The report on a trace of this length, as a call writes it into a buffer that is long enough for each."""
    needed = ctypes.c_size_t()
    # Of this memory the system gives only what the report fills.
    room = _room(mmap.mmap, -1, longest_report(trace_length), mmap.MAP_PRIVATE | mmap.MAP_ANONYMOUS)
    with room:
        with _lent(room, _calls.WRITABLE) as (text, text_length):
            write(text, text_length, needed)
            return _room(str, (ctypes.c_char * needed.value).from_address(text), "ascii")


def check_settings(settings: Settings) -> None:
    """Raises `SettingsRefused` if a setting is out of its range."""
    _check(_LIBRARY.precopy_check_settings(settings._as_c()))


def plan(trace: Bytes, settings: Settings) -> Sums:
    """Returns the sums of the plan of a trace."""
    found = _interface.Sums()
    _check_over(_LIBRARY.precopy_plan, trace, settings._as_c(), found)
    return _sums(found)


def report(trace: Bytes, settings: Settings) -> str:
    """Returns the report on a trace, as `precopy report` writes it."""
    with _lent(trace) as (_, length):
        asked = settings._as_c()
        return _report(length, lambda *room: _check_over(_LIBRARY.precopy_report, trace, asked, *room))


class Plans:
    """The plans of a trace that stays open."""

    _trace: _interface.Trace

    def plan(self, settings: Settings) -> Sums:
        """Returns the sums of the plan of the trace."""
        found = _interface.Sums()
        _check(_LIBRARY.precopy_trace_plan(self._trace, settings._as_c(), found))
        return _sums(found)

    def rounds(self, settings: Settings) -> List[Round]:
        """Returns the rounds of the plan of the trace, in order."""
        found, count = (_interface.Round * _calls.MOST_ROUNDS)(), ctypes.c_size_t()
        _check(_LIBRARY.precopy_trace_rounds(self._trace, settings._as_c(), found, _calls.MOST_ROUNDS, count))
        return [Round(*(getattr(it, name) for name, _ in _interface.Round._fields_)) for it in found[: count.value]]

    def report(self, settings: Settings) -> str:
        """Returns the report on the trace, as `precopy report` writes it."""
        asked = settings._as_c()
        length = self._trace.bytes_length
        return _report(length, lambda *room: _check(_LIBRARY.precopy_trace_report(self._trace, asked, *room)))

    def sweep(self, cases: Sequence[Settings]) -> Tuple[List[Sums], int]:
        """Returns the sums of the plan of each case, and the number of the best case."""
        asked, best = _room(_interface.Settings * len(cases), *(case._as_c() for case in cases)), ctypes.c_size_t()
        found = _room(_interface.Sums * len(cases))
        _check(_LIBRARY.precopy_trace_sweep(self._trace, asked, len(cases), found, len(cases), best))
        return [_sums(it) for it in found], best.value
