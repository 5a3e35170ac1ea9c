"""A plain model of an evacuation, for checks/evacuation: plans of one guest at one rate, schedules of several, and a
link that is shared by those that move."""

import math
from collections import deque
from typing import NamedTuple, Optional

from checks.lib import link_model
from precopy_dev.models import courses, redrawn
from precopy_dev.models.courses import Manner, Record


class Move(NamedTuple):
    """As a line of precopy-schedule has it."""

    time: int
    sent: int
    downtime: int
    kept: int
    group: int


def placed(slots: int, moves: list[Move]) -> list[tuple[int, int, int]]:
    """The start, end and slot of each move: all that was placed is looked at for each."""
    found: list[tuple[int, int, int]] = []
    for move in moves:
        free = {slot: max([end for _, end, taken in found if taken == slot], default=0) for slot in range(slots)}
        slot = min(free, key=lambda each: (free[each], each))
        others = [end for (_, end, _), other in zip(found, moves) if move.group and other.group == move.group]
        start = max([free[slot], *others])
        found.append((start, start + move.time, slot))
    return found


def cost(deadline: int, moves: list[Move], rows: list[tuple[int, int, int]]) -> tuple[int, int, int, int]:
    """0 if all limits are kept and else 1, and then the time, the bytes and the longest downtime."""
    time = max([end for _, end, _ in rows], default=0)
    kept = all(move.kept for move in moves) and (not deadline or time <= deadline)
    return int(not kept), time, sum(move.sent for move in moves), max([move.downtime for move in moves], default=0)


def answer(plans: list[tuple[int, int, list[Move]]]) -> str:
    """What precopy-schedule tells of some plans."""
    rows = [placed(slots, moves) for slots, _, moves in plans]
    costs = [cost(deadline, moves, each) for (_, deadline, moves), each in zip(plans, rows)]
    best = min(range(len(plans)), key=lambda number: costs[number][:3])
    lines = [
        f"time {time} bytes {sent} downtime {down} {'missed' if missed else 'kept'}\n"
        for missed, time, sent, down in costs
    ]
    lines.append(f"best {best}\n")
    return "".join([*lines, *(f"start {start} end {end} slot {slot}\n" for start, end, slot in rows[best])])


def table(plans: list[tuple[int, int, list[Move]]]) -> str:
    return "".join(
        " ".join(map(str, [slots, deadline, *(number for move in moves for number in move)])) + "\n"
        for slots, deadline, moves in plans
    )


class Guest(NamedTuple):
    """What a record says: the pages of the trace, of the sample and of the guest that these stand for, the first and
    the last tick, and the writes from the first tick on. A tick is 1 ms, and a page has 4,096 bytes."""

    pages: int
    sampled: int
    guest: int
    first: int
    last: int
    writes: list[tuple[int, int]]


def rate_in_words(bandwidth: float) -> float:
    """A rate as a word of precopy-view: exact if its bytes are whole, or else in Kbit, rounded."""
    return round(bandwidth / 125) * 125 if bandwidth % 1 else bandwidth


def tick_factor(guest: Guest, bandwidth: float, downtime: int) -> int:
    """By how much ticks are made longer: the least for a rate of 500, of those that divide the downtime."""
    rate = bandwidth * 1000 * guest.sampled / (1000 * 4096 * guest.guest)
    fitting = [factor for factor in (1, 2, 5, 10, 20) if downtime % (1000 * factor) == 0] or [1]
    return next((factor for factor in fitting if rate * factor >= 500), fitting[-1])


class Plan(NamedTuple):
    """Time, bytes and downtime; whether the record lasts to the stop, whether the plan ends since few pages are left,
    and whether the guest is stopped, and for no longer than the limit of the downtime."""

    time: int
    sent: int
    down: int
    is_known: bool
    converges: bool
    kept: bool

    def verdict(self) -> str:
        return ("yes" if self.converges else "no") if self.is_known else "unknown"


class Rates(NamedTuple):
    """A migration in longer ticks: by how much, pages in 1,000 of them, the limit of the downtime in microseconds, and
    the ticks at which each page is written."""

    factor: int
    rate: int
    limit: int
    written: list[list[int]]


def rates(guest: Guest, bandwidth: float, downtime: int) -> Rates | None:
    """Those of a migration at bytes a second, with the limit of the downtime in microseconds. None if no plan can have
    the rate. A write in the last tick says how long the record is."""
    factor = tick_factor(guest, bandwidth, downtime)
    tick, last = 1000 * factor, guest.last // factor
    rate = int(rate_in_words(bandwidth) * tick * guest.sampled) // (1000 * 4096 * guest.guest)
    if not 1 <= rate <= 1_000_000:
        return None
    written = {(at // factor, page) for at, page in guest.writes}
    if max((at for at, _ in written), default=-1) < last:
        written.add((last, 0))
    by_page = redrawn.by_page(guest.pages, sorted(written))
    return Rates(factor, rate, min(downtime, (1000 * 65_536 - 1) // rate * tick), by_page)


def planned(guest: Guest, rates: Rates, start: int, base: int | None, manner: Manner = Manner.LOOKS) -> Plan:
    """A migration that begins at a tick, to a destination with a copy of all that was written before another one. Tick
    0 is before all that the record found."""
    factor, rate, limit, written = rates
    tick, last = 1000 * factor, guest.last // factor
    threshold = limit // tick * rate // 1000 + 1
    settings = redrawn.Settings(rate, rate, 0, threshold, 64, start, base=base // factor if base else None)
    plan = Record(written, last).course(settings, redrawn.Scale(tick, 4096, guest.sampled, guest.guest), manner)
    down, size = plan.down * tick, plan.total * 4096 * guest.guest // guest.sampled
    kept = courses.stops(plan, manner) and down <= limit
    return Plan((plan.stop - start) * tick + down, size, down, plan.stop <= last, plan.ending == "few", kept)


def costs(guest: Guest, bandwidth: float, downtime: int, base: int | None, manner: Manner) -> tuple | None:
    """What a migration from the beginning of the record on costs: time, bytes and downtime, the shortest and the
    longest time and the fewest bytes over at most 21 starts, whether it converges, and whether the limit is kept. If
    the record ends first, the numbers are those of Clark's plan."""
    found = rates(guest, bandwidth, downtime)
    if found is None:
        return None
    first, last = guest.first // found.factor, guest.last // found.factor
    every = max(1, math.ceil((last - first) / 20))
    plans = [planned(guest, found, start, base, manner) for start in range(first, last + 1, every)]
    cold = plans[0]
    if not cold.is_known:
        cold = planned(guest, found, first, base, Manner.ROUNDS)._replace(is_known=False)
    known = [plan for plan in plans if plan.is_known] or [cold]
    times = [plan.time for plan in known]
    return (
        cold.time,
        cold.sent,
        cold.down,
        min(times),
        max(times),
        min(plan.sent for plan in known),
        cold.verdict(),
        cold.is_known and cold.kept,
    )


# ---- A link that is shared by those that move.


def even(link: int, most: dict[str, int]) -> dict[str, int]:
    """What each gets of a link if nobody gets more than is of use: those who want less than an even part have it, and
    the others divide the rest, until nobody wants less."""
    shares: dict[str, int] = {}
    while len(shares) < len(most):
        part = (link - sum(shares.values())) // (len(most) - len(shares))
        modest = {name: want for name, want in most.items() if name not in shares and want < part}
        shares |= modest or {name: part for name in most if name not in shares}
    return shares


class Sharer(NamedTuple):
    """A guest that shares a link: its record, its copy at the destination, its limit of the downtime in microseconds,
    the most of the link that it takes, and its group."""

    name: str
    guest: Guest
    base: Optional[int]
    downtime: int
    most: int
    group: int


class Flow(NamedTuple):
    """What a guest comes to: when it begins and ends, in which slot, its shares from microseconds of its own on, its
    bytes and downtime, and its verdict: yes, no or unknown, and whether it keeps its limit."""

    start: int
    end: int
    slot: int
    shares: list[tuple[int, int]]
    sent: int
    down: int
    converges: str
    kept: bool


class Mover:
    """A guest under way."""

    def __init__(self, sharer: Sharer, begun: int, slot: int, range_of_shares: tuple[int, int]):
        self.sharer, self.begun, self.slot = sharer, begun, slot
        self.range_of_shares = range_of_shares
        self.shares: list[tuple[int, int]] = []
        self.is_fixed = False
        self.found: tuple[int, int, int, str, bool] = (0, 0, 0, "", False)

    def give(self, now: int, part: int) -> None:
        """Takes less at once, and more if that is a tenth of what it has; then it is planned."""
        had = self.shares[-1][1] if self.shares else 0
        if not had or part < had or 10 * (part - had) >= had:
            self.shares.append((now - self.begun, part))
            self.plan()

    def plan(self) -> None:
        told = None if self.is_fixed else self.by_looks()
        if told:
            self.found = told
        elif len(self.shares) == 1:
            self.found, self.is_fixed = self.by_first_share(), True
        else:
            time, sent, down, *_ = self.found
            self.found, self.is_fixed = (time, sent, down, "unknown", False), True

    def by_looks(self) -> tuple[int, int, int, str, bool] | None:
        """Time, bytes, downtime, whether it converges and whether it keeps its limit, if its record tells."""
        guest, limit = self.sharer.guest, self.sharer.downtime
        scale = link_model.Scale(1000, 4096, guest.sampled, guest.guest)
        link = link_model.Link(
            [(1000 * guest.first + at, part) for at, part in self.shares], *self.range_of_shares, limit
        )
        asked = link_model.asked_of(scale, link)
        assert asked
        factor = asked.factor
        touches = sorted({(at // factor, page) for at, page in guest.writes})
        span = (guest.first // factor, guest.last // factor)
        base = self.sharer.base // factor if self.sharer.base else None
        it = link_model.course(guest.pages, touches, asked, 1000 * factor, span, base)
        if it.ending == "cut":
            return None
        tick, down = 1000 * factor, 1000 * factor * it.down
        time, sent = max(1, (it.stop - span[0]) * tick + down), it.total * 4096 * guest.guest // guest.sampled
        return time, sent, down, "yes" if it.ending == "few" else "no", it.ending == "few" and down <= limit

    def by_first_share(self) -> tuple[int, int, int, str, bool]:
        """The same of a record that does not tell: as if the first share stays, and if it does not tell then either, by
        Clark's rounds."""
        guest, limit = self.sharer.guest, self.sharer.downtime
        found = rates(guest, self.shares[0][1], limit)
        assert found
        start = guest.first // found.factor
        plans = (planned(guest, found, start, self.sharer.base, manner) for manner in (Manner.LOOKS, Manner.ROUNDS))
        looks, rounds = plans
        plan = looks if looks.is_known else rounds
        return max(1, plan.time), plan.sent, plan.down, "unknown", False

    @property
    def end(self) -> int:
        return self.begun + self.found[0]

    def flow(self) -> Flow:
        return Flow(self.begun, self.end, self.slot, self.shares, *self.found[1:])


def flows(order: list[Sharer], at_once: int, link: int) -> list[Flow]:
    """All guests of an order, by what happens one after the other: slots become free and are taken, a guest begins when
    no earlier one of its group is left, and all that is under way shares the link."""
    now, queue, free = 0, deque(order), set(range(at_once))
    held: list[tuple[int, Sharer]] = []
    under_way: list[Mover] = []
    over: dict[str, Flow] = {}
    while len(over) < len(order):
        while free and queue:
            slot = min(free)
            free.remove(slot)
            held.append((slot, queue.popleft()))
        for slot, sharer in sorted(held, key=lambda each: order.index(each[1])):
            before = [each for each in order[: order.index(sharer)] if each.group == sharer.group != 0]
            if all(each.name in over for each in before):
                held.remove((slot, sharer))
                under_way.append(Mover(sharer, now, slot, (sharer.most, min(sharer.most, link // at_once))))
        parts = even(link, {each.sharer.name: each.sharer.most for each in under_way})
        for each in under_way:
            each.give(now, parts[each.sharer.name])
        now = min(each.end for each in under_way)
        for each in [each for each in under_way if each.end == now]:
            over[each.sharer.name] = each.flow()
            free.add(each.slot)
            under_way.remove(each)
    return [over[sharer.name] for sharer in order]
