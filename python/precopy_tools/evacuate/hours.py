"""Records by the time of day: which segment of a series tells of an hour, on each day that it has one.

All of it assumes that a guest does today at that hour what it did then. Times are in UTC, as in the names of segments.
"""

import argparse
import datetime
import os
import re
import time
from typing import NamedTuple

from precopy_tools.evacuate import records
from precopy_tools.quantities import micros_of, time_text

UTC = datetime.timezone.utc
MINUTE, DAY = 60, 86_400
# What stands for the present second: it may have passed when it is asked for.
NOW = -1
# So many times of each segment are looked at, to know whether it is the newest of its time.
PARTS = 4
CLOCK = re.compile(r"([01]\d|2[0-3]):([0-5]\d)")


class Window(NamedTuple):
    """When guests may move: from a second of the day on, for so many seconds."""

    begin: int
    length: int


class Hour(NamedTuple):
    """When a schedule opens, in Unix time, or 0 for any time; and the window that it then has, if there is one."""

    opens: float = 0.0
    window: Window | None = None

    def of(self, micros: int) -> float:
        """The second of the day of a move so long after the opening. Without a window all are planned by one hour."""
        return (self.opens + (micros / 1e6 if self.window else 0)) % DAY


class Fit(NamedTuple):
    """A record of an hour: its file, how long after its first look that is, and when that was, in Unix time."""

    path: str
    start: float
    moment: float


class Segment(NamedTuple):
    """A segment of a series: when it began, in Unix time, and how long it is."""

    begin: float
    seconds: float
    path: str

    def fit(self, hour: float) -> Fit | None:
        """This record as one of a second of the day, if that is within it."""
        start = (hour - self.begin) % DAY
        return Fit(self.path, start, self.begin + start) if start < self.seconds else None

    def away(self, hour: float) -> float:
        """How far it is from a second of the day."""
        before, after = (self.begin - hour) % DAY, (hour - self.begin - self.seconds) % DAY
        return min(before, after)


class Series:
    """The segments of a guest, the newest first. What was named by a clock that was ahead comes last."""

    def __init__(self, paths: list[str]):
        now, found = time.time(), map(segment_of, paths)
        self.segments = sorted(found, key=lambda each: (each.begin <= now, each), reverse=True)

    def fits(self, hour: float) -> list[Fit]:
        """Its records of a second of the day, the newest first: one for each day."""
        found = filter(None, (segment.fit(hour) for segment in self.segments))
        days: dict[str, Fit] = {}
        for fit in found:
            days.setdefault(day_text(fit.moment), fit)
        return list(days.values())

    def newest(self, hour: float) -> str:
        """The file of its newest record of a second of the day; empty if there is none."""
        return next((segment.path for segment in self.segments if segment.fit(hour)), "")

    def within(self, window: Window) -> list[Segment]:
        """The segments that are the newest of some time in a window."""
        return [
            segment
            for segment in self.segments
            if any(
                is_within(window, hour) and self.newest(hour) == segment.path
                for hour in (segment.begin + segment.seconds * part / PARTS for part in range(PARTS))
            )
        ]

    def nearest(self, hour: float) -> tuple[Fit, float]:
        """The record that is nearest to a second of the day, from its first look on, and how far it is from it."""
        segment = min(self.segments, key=lambda each: (each.away(hour), -each.begin))
        return Fit(segment.path, 0.0, segment.begin), segment.away(hour)


def is_within(window: Window, hour: float) -> bool:
    return (hour - window.begin) % DAY < window.length


def opening(window: Window, now: float) -> tuple[float, Window]:
    """When guests may begin to move, in Unix time: now, or when the window opens next; and what is left of it, which is
    a second or more."""
    since = (now - window.begin) % DAY
    if left := max(0, int(window.length - since)):
        return now, Window(int(now % DAY), left)
    return now + DAY - since, window


def hour_of(at: int | None, window: Window | None, now: float) -> Hour:
    """What the words ask for."""
    if window:
        return Hour(*opening(window, now))
    if at == NOW:
        return Hour(now)
    return Hour(next_moment(at, now)) if at is not None else Hour()


def segment_of(path: str) -> Segment:
    begun = records.begun_at(path)
    assert begun, path
    return Segment(begun.timestamp(), records.seconds_of(path), path)


class Chosen(NamedTuple):
    """One record of each guest at an hour: the files, the series and the fits by the names of guests, and lines that
    say which segment stands for a guest."""

    paths: list[str]
    series: dict[str, Series]
    fits: dict[str, Fit]
    told: list[str]


def chosen(given: list[str], hour: float) -> Chosen:
    """The newest record of a second of the day, of each guest that has hours; others have one for every hour."""
    found = Chosen([], {}, {}, [])
    for paths in records.groups_of(given):
        if not records.is_segment(paths[0]):
            found.paths.append(paths[0])
            continue
        name, of_guest = records.name_of(paths[0]), Series(paths)
        fits = of_guest.fits(hour)
        fit, away = (fits[0], 0.0) if fits else of_guest.nearest(hour)
        found.paths.append(fit.path)
        found.series[name], found.fits[name] = of_guest, fit
        found.told.append(told_of(name, fit, away, len(paths), hour))
    return found


def told_of(name: str, fit: Fit, away: float, count: int, hour: float) -> str:
    """Which segment stands for a guest."""
    of_all = f"{os.path.basename(fit.path)} stands for {count:,} segment{'s' if count > 1 else ''}"
    if away:
        apart = f"{time_text(micros_of(away) // 1_000_000 * 1_000_000)} away"
        return f"{name}: no segment is of {clock_text(hour)} UTC; {of_all}, {apart}"
    return f"{name}: {of_all}, from {day_text(fit.moment)} {clock_text(fit.moment)} UTC on"


# ---- Words and texts.


def clock(word: str) -> int:
    """A second of the day, as 03:00, or NOW."""
    if word == "now":
        return NOW
    match = CLOCK.fullmatch(word)
    if not match:
        raise argparse.ArgumentTypeError(f"{word!r} is no time of day in UTC, as 03:00, and not now")
    return MINUTE * (60 * int(match[1]) + int(match[2]))


def window(word: str) -> Window:
    """Two times of day, as 22:00-06:00."""
    begin, mark, end = word.partition("-")
    if not mark or "now" in (begin, end):
        raise argparse.ArgumentTypeError(f"{word!r} is no window of two times of day in UTC, as 22:00-06:00")
    first, last = clock(begin), clock(end)
    if first == last:
        raise argparse.ArgumentTypeError(f"{word!r} ends when it begins")
    return Window(first, (last - first) % DAY)


def next_moment(hour: float, now: float) -> float:
    """When it is this second of the day next, in Unix time; now if it is that second."""
    return now + (hour - now) % DAY if (hour - now) % DAY < DAY - 1 else now


def moment_of(at: float) -> datetime.datetime:
    return datetime.datetime.fromtimestamp(at, UTC)


def day_text(at: float) -> str:
    return moment_of(at).strftime("%Y-%m-%d")


def clock_text(at: float) -> str:
    return moment_of(at).strftime("%H:%M:%S")


def iso_text(at: float) -> str:
    return moment_of(at).isoformat(timespec="seconds")
