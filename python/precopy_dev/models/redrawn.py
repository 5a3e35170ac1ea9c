"""Plans of redrawn pages and their standard errors, as `crates/predictions/specs/Redrawn` defines them: page by page.

It shares no code with the crate. The numbers in the crate's tests come from here.
"""

import bisect
import math
from typing import NamedTuple, Protocol, Sequence

PLANS = 20
MULTIPLIER, INCREMENT = 6364136223846793005, 1442695040888963407


class Settings(NamedTuple):
    """Rates in pages per 1,000 ticks, and the other settings of a plan."""

    least: int
    greatest: int
    increment: int
    threshold: int
    rounds: int
    start: int = 0
    skip: bool = False
    base: int | None = None


class Round(NamedTuple):
    """From one tick to another, with a rate: pages that are due, those of them that are sent, and pages written."""

    start: int
    end: int
    rate: int
    pages: int
    sent: int
    dirtied: int


class Outcome(NamedTuple):
    """How many rounds there are, why they end and at which tick, the ticks of the downtime, the pages that are
    sent, and those of them that are left at the stop."""

    rounds: int
    reason: str
    stop: int
    down: int
    total: int
    left: int


class Scale(NamedTuple):
    """Microseconds of a tick, bytes of a page, and how many of the guest's pages were drawn."""

    tick: int
    page: int
    sampled: int
    guest: int


def by_page(pages: int, touches: list[tuple[int, int]]) -> list[list[int]]:
    """The ticks at which each page is written, in order."""
    ticks: list[list[int]] = [[] for _ in range(pages)]
    for tick, page in touches:
        ticks[page].append(tick)
    return ticks


def is_written(ticks: list[int], first: int, end: int) -> bool:
    place = bisect.bisect_left(ticks, first)
    return place < len(ticks) and ticks[place] < end


def rounds(guest: list[list[int]], asked: Settings) -> tuple[list[Round], str]:
    """The rounds of a guest, by the ticks at which each of its pages is written, and why they end."""
    tick, rate, found = asked.start, asked.least, []
    base = asked.base
    pages = [n for n, ticks in enumerate(guest) if base is None or is_written(ticks, base, tick)]
    while True:
        skips = asked.skip and found
        sent = 0 if skips else len(pages)
        for page in pages if skips else []:
            sent += not is_written(guest[page], tick, tick + 1000 * sent // rate)
        end = tick - -1000 * sent // rate if sent else tick
        dirtied = [n for n, ticks in enumerate(guest) if is_written(ticks, tick, end)]
        found.append(Round(tick, end, rate, len(pages), sent, len(dirtied)))
        following = -(-1000 * len(dirtied) // (end - tick)) + asked.increment if end > tick else 0
        reason = "few" if len(dirtied) < asked.threshold else "fast" if following > asked.greatest else "rounds"
        if reason != "rounds" or len(found) == asked.rounds:
            return found, reason
        tick, rate, pages = end, max(following, asked.least), dirtied


def planned(guest: list[list[int]], asked: Settings) -> Outcome:
    """The plan of a guest."""
    found, reason = rounds(guest, asked)
    left = found[-1].dirtied
    down, total = -(-1000 * left // asked.greatest), sum(each.sent for each in found) + left
    return Outcome(len(found), reason, found[-1].end, down, total, left)


def draws(sampled: int, pages: int) -> list[list[int]]:
    """The pages of each draw, of those that the trace has."""
    state, found = 0, []
    for _ in range(PLANS):
        drawn = []
        for _ in range(sampled):
            state = (MULTIPLIER * state + INCREMENT) % 2**64
            drawn.append((state >> 32) * sampled >> 32)
        found.append([page for page in drawn if page < pages])
    return found


def root_above(upper: int, lower: int) -> int:
    """The least number whose square is no less than this quotient."""
    root = math.isqrt(-(-upper // lower))
    return root + (root * root * lower < upper)


def spread(numbers: list[int]) -> int:
    return len(numbers) * sum(n * n for n in numbers) - sum(numbers) ** 2


class HasSums(Protocol):
    """What a plan comes to, by rounds or by looks."""

    stop: int
    down: int
    total: int


def errors_of(plans: Sequence[HasSums], start: int, scale: Scale) -> tuple[int, int, int]:
    """The standard errors of bytes, time and downtime of the plans of the draws, in bytes and microseconds."""
    weight, left = PLANS * (PLANS - 1), scale.guest - scale.sampled

    def micros(ticks: list[int]) -> int:
        return root_above(spread([scale.tick * n for n in ticks]) * left, weight * scale.guest)

    sent = root_above(spread([plan.total for plan in plans]) * left * scale.guest, weight * scale.sampled**2)
    time = micros([plan.stop - start + plan.down for plan in plans])
    return sent * scale.page, time, micros([plan.down for plan in plans])


def errors(guest: list[list[int]], asked: Settings, scale: Scale) -> tuple[int, int, int]:
    """The standard errors of a plan of rounds."""
    plans = [planned([guest[page] for page in drawn], asked) for drawn in draws(scale.sampled, len(guest))]
    return errors_of(plans, asked.start, scale)
