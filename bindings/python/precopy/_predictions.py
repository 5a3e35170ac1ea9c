"""Predictions: what a migration with given limits will be, in time and bytes, and what is enough for its limit."""

from __future__ import annotations

import ctypes
import enum
from dataclasses import dataclass, fields
from typing import Optional

from . import _interface
from ._calls import LIBRARY as _LIBRARY
from ._calls import number as _number
from ._refusals import check as _check


class Reason(enum.IntEnum):
    """Why pre-copying ends. A plan of rounds ends for one of the first three. One of looks ends since few pages are
    left, since 2,000 looks are done, or since the trace ends first: while the lists of pages get shorter (`CUT`), or
    not (`LEVEL`)."""

    FEW = 0
    FAST = 1
    ROUNDS = 2
    LOOKS = 3
    CUT = 4
    LEVEL = 5


class Verdict(enum.IntEnum):
    """Whether something is so. It is unknown if the trace ends before the migration does, and uncertain if chance, or
    the start, decides: only an agreement tells that."""

    YES = 0
    NO = 1
    UNKNOWN = 2
    UNCERTAIN = 3


@dataclass(frozen=True)
class Question:
    """What is asked of a migration: how much it may take, what ticks and pages of the trace stand for, where it begins,
    and by whose plan it goes: by a hypervisor's looks, or with `clark` by Clark's rounds. Rates are in bytes a second,
    times in microseconds. `page` is the bytes of a page, and `sampled` of the `guest`'s pages were recorded; if all
    were, any equal numbers do. `first`, `increment`, `rounds` and `skip` are of rounds alone. Without `first` the first
    round uses the whole link, without `increment` a tenth of what the link has above it is added to a rate."""

    link: int
    downtime: int
    first: Optional[int] = None
    reserve: int = 0
    tick: int = 1000
    page: int = 4096
    sampled: int = 1
    guest: int = 1
    increment: Optional[int] = None
    rounds: int = 30
    start: int = 0
    base: Optional[int] = None
    skip: bool = False
    clark: bool = False

    def __post_init__(self) -> None:
        self._as_c()

    def _as_c(self) -> _interface.Question:
        asked, flags = _interface.Question(size=ctypes.sizeof(_interface.Question)), ("skip", "clark")
        for name in (it.name for it in fields(self)):
            value = getattr(self, name)
            if name in ("first", "increment", "base"):
                setattr(asked, f"has_{name}", value is not None)
                value = 0 if value is None else value
            setattr(asked, name, _number(name, value, 1 if name in flags else 64))
        return asked


@dataclass(frozen=True)
class Errors:
    """Standard errors of a prediction: how far the draw of a sample moves its bytes, and its times in microseconds."""

    bytes: int
    time: int
    downtime: int


def _errors(found: _interface.Errors) -> Optional[Errors]:
    return Errors(found.bytes, found.time, found.downtime) if found.has_errors else None


@dataclass(frozen=True)
class Prediction:
    """What a migration will be: the sums of its plan in ticks and pages of the trace, with so many `rounds` or looks,
    and `left` pages after the stop, and times in microseconds. If the verdicts are unknown, only `recorded` tells
    something: how long the trace goes on after the start. There are `errors` if a part of the guest's pages was
    sampled, of two pages or more."""

    rounds: int
    reason: Reason
    stop: int
    down: int
    total: int
    left: int
    time: int
    bytes: int
    downtime: int
    recorded: int
    converges: Verdict
    kept: Verdict
    errors: Optional[Errors]


@dataclass(frozen=True)
class Agreement:
    """How sure a prediction is: in how many of the `draws` of a sample's pages, and from how many of the `starts` from
    which it ends within the trace, the migration converges and keeps its limit; and whether it surely does. There are
    no draws if there are no standard errors."""

    draws: int
    draws_known: int
    draws_converging: int
    draws_kept: int
    starts: int
    starts_converging: int
    starts_kept: int
    converges: Verdict
    kept: Verdict


@dataclass(frozen=True)
class Amounts:
    """What is enough for the downtime limit of a question, each amount by itself: a link in bytes a second, a downtime
    in microseconds, and to how many per cent of its speed the guest is slowed. What was not found is None; if the limit
    is kept there is no speed. If the trace ends before the migration does (`ends` is False), there are the least link
    and the latest start that end it within the trace, whether the limit is then kept or not."""

    is_kept: bool
    link: Optional[int]
    downtime: Optional[int]
    speed: Optional[int]
    ends: bool
    ending_link: Optional[int]
    ending_start: Optional[int]


class ForecastEnd(enum.IntEnum):
    """Why a migration ends whose hypervisor goes on as QEMU does: few pages are left, the trace ends first, or it has
    not begun, since its start is after the trace."""

    FEW_LEFT = 0
    TRACE_ENDS = 1
    NOT_BEGUN = 2


@dataclass(frozen=True)
class Forecast:
    """What a migration comes to if its hypervisor looks at its dirty bitmap again only when few pages are left, as QEMU
    does: after so many `looks`, with `left` of its bytes after the stop, and times in microseconds. If the trace ends
    first, these are of a guest that is stopped there, and `kept` is unknown."""

    end: ForecastEnd
    looks: int
    time: int
    bytes: int
    left: int
    downtime: int
    kept: Verdict


@dataclass(frozen=True)
class LinkShares:
    """Whether a migration converges at all of its link, and the least share, in per cent, from which on each whole one
    has that verdict; and the verdict at one per cent less, which is None below a half of the link."""

    converges: Verdict
    percent: int
    below: Optional[Verdict]


@dataclass(frozen=True)
class BestStart:
    """The best start of a migration, and what it costs from there, with times in microseconds. It is likely to keep its
    limit if it keeps it, and by rounds with two standard errors; there are `errors` as of a prediction."""

    start: int
    rounds: int
    time: int
    bytes: int
    downtime: int
    kept: Verdict
    is_likely: bool
    errors: Optional[Errors]


def _starts(to: Optional[int], every: Optional[int]) -> _interface.Starts:
    asked = _interface.Starts(size=ctypes.sizeof(_interface.Starts))
    for name, ticks in (("to", to), ("every", every)):
        setattr(asked, f"has_{name}", ticks is not None)
        setattr(asked, name, _number(name, 0 if ticks is None else ticks, 64))
    return asked


class Predictions:
    """The predictions over a trace that stays open."""

    _trace: _interface.Trace

    def predict(self, question: Question) -> Prediction:
        """Returns what the migration of the trace will be with the limits of a question."""
        found, errors = _interface.Prediction(), _interface.Errors()
        _check(_LIBRARY.precopy_trace_predict(self._trace, question._as_c(), found, errors))
        told = {name: getattr(found, name) for name, _ in _interface.Prediction._fields_}
        told |= {"reason": Reason(found.reason), "converges": Verdict(found.converges), "kept": Verdict(found.kept)}
        return Prediction(**told, errors=_errors(errors))

    def agreement(self, question: Question) -> Agreement:
        """Returns how sure the verdicts on the migration of the trace with the limits of a question are."""
        found = _interface.Agreement()
        _check(_LIBRARY.precopy_trace_agreement(self._trace, question._as_c(), found))
        told = {name: getattr(found, name) for name, _ in _interface.Agreement._fields_}
        return Agreement(**told | {"converges": Verdict(found.converges), "kept": Verdict(found.kept)})

    def enough(self, question: Question) -> Amounts:
        """Returns whether the migration of the trace keeps the limit of a question, and the least amounts that do: up
        from what is asked if it does not, and else down from it; and what ends it within the trace if it does not."""
        found = _interface.Amounts()
        _check(_LIBRARY.precopy_trace_enough(self._trace, question._as_c(), found))
        names = ("link", "downtime", "speed", "ending_link", "ending_start")
        told = {name: getattr(found, name) if getattr(found, f"has_{name}") else None for name in names}
        return Amounts(is_kept=found.is_kept != 0, ends=found.ends != 0, **told)

    def forecast(self, question: Question) -> Forecast:
        """Returns what the migration of the trace comes to like QEMU, with the limits of a question."""
        found = _interface.Forecast()
        _check(_LIBRARY.precopy_trace_forecast(self._trace, question._as_c(), found))
        told = {name: getattr(found, name) for name, _ in _interface.Forecast._fields_}
        return Forecast(**told | {"end": ForecastEnd(found.end), "kept": Verdict(found.kept)})

    def link_shares(self, question: Question) -> LinkShares:
        """Returns down to which share of its link the migration of the trace has the verdict that it has at all of
        it."""
        found = _interface.LinkShares()
        _check(_LIBRARY.precopy_trace_link_shares(self._trace, question._as_c(), found))
        below = Verdict(found.below) if found.below != found.converges else None
        return LinkShares(Verdict(found.converges), found.percent, below)

    def best_start(
        self, question: Question, to: Optional[int] = None, every: Optional[int] = None
    ) -> Optional[BestStart]:
        """Returns the best start of the migration of the trace, or None if it ends within the trace from no start. The
        first is that of the question, and `every` so many ticks there is another, up to the tick `to`. Without these
        there are at most 201, up to the last tick of the trace."""
        found, errors = _interface.BestStart(), _interface.Errors()
        asked = question._as_c(), _starts(to, every)
        _check(_LIBRARY.precopy_trace_best_start(self._trace, *asked, found, errors))
        told = {name: getattr(found, name) for name, _ in _interface.BestStart._fields_}
        told |= {"kept": Verdict(found.kept), "is_likely": found.is_likely != 0}
        return None if found.kept == Verdict.UNKNOWN else BestStart(**told, errors=_errors(errors))
