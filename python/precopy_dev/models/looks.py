"""Plans of a hypervisor, as `crates/migration_model/specs/Looks.antt` defines them: page by page.

It shares no code with the crate `look_planner`. The numbers in that crate's rows come from here.
"""

from bisect import bisect_left
from typing import NamedTuple, Optional

# The ticks and the pages of what is written, in order.
Touches = list[tuple[int, int]]


class Settings(NamedTuple):
    """The rate in pages per 1,000 ticks, and the other settings of a plan."""

    rate: int
    window: int
    threshold: int
    end: int
    start: int = 0
    base: Optional[int] = None
    looks: Optional[int] = None


class Sent(NamedTuple):
    """From one tick to another: pages of a list, how many of them are sent, and the pages that are left then."""

    start: int
    end: int
    pages: list[int]
    sent: int
    left: list[int]


class Plan(NamedTuple):
    """The lists, why they end and at which tick, the pages that are left then, and the ticks of the downtime."""

    lists: list[Sent]
    reason: str
    stop: int
    last: list[int]
    down: int

    def sent(self) -> int:
        return sum(sent.sent for sent in self.lists)


def duration(pages: int, rate: int) -> int:
    """How many ticks pages take, rounded up."""
    return -(-1_000 * pages // rate)


def sent_in(pages: int, ticks: int, rate: int) -> int:
    """How many of some pages are sent in these ticks: a page counts when all of it is sent."""
    return min(pages, rate * ticks // 1_000)


def look_after(pages: int, settings: Settings) -> int:
    """How many ticks after a list began the hypervisor looks: the first time that it asks and few are left. It asks at
    the end of each window, and when all pages are sent."""
    whole = duration(pages, settings.rate)
    if not settings.window:
        return whole
    few = duration(max(0, pages - settings.threshold + 1), settings.rate)
    windows = max(1, -(-few // settings.window))
    return min(windows * settings.window, whole)


def written(touches: Touches, start: int, stop: int) -> set[int]:
    first, end = bisect_left(touches, (start,)), bisect_left(touches, (stop,))
    return {page for _, page in touches[first:end]}


def first_pages(pages: int, touches: Touches, settings: Settings) -> list[int]:
    if settings.base is None:
        return list(range(pages))
    return sorted(written(touches, settings.base, settings.start))


def reason_of(look: int, left: int, looks: int, settings: Settings) -> Optional[str]:
    """Why a plan ends with the look that is due at a tick, if it does."""
    if look > settings.end:
        return "record"
    if left < settings.threshold:
        return "few"
    return "looks" if looks == settings.looks else None


def plan(pages: int, touches: Touches, settings: Settings) -> Plan:
    lists: list[Sent] = []
    start, due = settings.start, first_pages(pages, touches, settings)
    while True:
        look = start + look_after(len(due), settings)
        end = min(look, settings.end)
        sent = sent_in(len(due), end - start, settings.rate)
        left = sorted(set(due[sent:]) | written(touches, start, end))
        lists.append(Sent(start, end, due, sent, left))
        reason = reason_of(look, len(left), len(lists), settings)
        if reason:
            return Plan(lists, reason, end, left, duration(len(left), settings.rate))
        start, due = end, left
