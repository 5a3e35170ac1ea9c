"""Schedules of a window: a guest may be held back in its slot until a calm that its records show.

What a migration costs is taken from starts within the newest records of the window. A guest begins when its slot is
free, or at the start after that from which it sends fewest bytes, if that is worth the wait. How long it may wait at
most is tried with several lengths. `precopy-schedule` then tells the times of the whole: a guest that is held takes its
slot for the wait too.
"""

import math
from typing import NamedTuple

from precopy_tools import version
from precopy_tools.evacuate import costs as host_costs
from precopy_tools.evacuate import hours
from precopy_tools.evacuate.costs import Asked, Cost, Guest, Wanted
from precopy_tools.evacuate.gathering import Gathered
from precopy_tools.evacuate.hours import DAY, Segment, Series, Window
from precopy_tools.evacuate.schedules import ORDERS, Answer, Schedule, answered
from precopy_tools.predict import plans
from precopy_tools.predict.forecast import Link
from precopy_tools.quantities import micros_of

# Of each record so many starts are tried, evenly.
STARTS = 12
# The most that a guest is held back, in seconds, beside the whole window.
HOLDS = (0, 900, 3600)
# Of a guest without hours so many starts are tried in a window.
FLAT = 96
# A wait is worth it if it leaves this part of the bytes, or less.
WORTH = 0.95
CALMEST = "calmest first"


class Start(NamedTuple):
    """A start in the window, in microseconds from its opening, and what a migration from there costs."""

    at: int
    cost: Cost


Starts = dict[int, list[Start]]  # by the number at once, rising


def cost_at(told: dict, at_once: int, share: float, limits: Wanted, path: str) -> Cost:
    """The cost of one start, as `json when` tells it."""
    time, sent, downtime = host_costs.numbers(told)
    found = []
    if told["kept"] == "unknown":
        found.append(host_costs.TOO_SHORT)
    if told["kept"] == "no" and told["down_seconds"] > limits.downtime:
        found.append(host_costs.over("downtime", told["down_seconds"], limits.downtime))
    elif told["kept"] == "no":
        found.append(host_costs.NO_STOP)
    if limits.time is not None and told["time_seconds"] > limits.time:
        found.append(host_costs.over("time", told["time_seconds"], limits.time))
    why, start = " and ".join(found), told["start_seconds"]
    return Cost(at_once, share, time, sent, downtime, time, time, sent, told["kept"], not why, why, 0, path, start)


def known_first(told: list[dict]) -> list[dict]:
    """The starts of one record that tell something. From a late one the migration may end after the record, and then
    the one before it stands for it; if there is none, nothing is known of that time."""
    found: list[dict] = []
    for each in told:
        if each["kept"] != "unknown" or not any(other["kept"] != "unknown" for other in found):
            found.append(each)
    return found


def of_segment(path: str, asked: Asked, limits: Wanted) -> dict[int, list[Cost]]:
    """What starts within one record cost, at each share that a plan can have. A record of a guest that stood still has
    none."""
    planner = host_costs.planner_of(path, asked, limits._replace(start=0.0))
    found: dict[int, list[Cost]] = {}
    if planner.sample.stood_still:
        return found
    for at_once in asked.numbers:
        share = asked.link / at_once
        link = Link(min(share, limits.link or share, planner.most_link()), limits.downtime)
        try:
            told = planner.starts(link, STARTS)["starts"]
        except plans.NoRate:
            continue
        found[at_once] = [cost_at(each, at_once, link.bandwidth, limits, path) for each in known_first(told)]
    return found


def within(series: Series, window: Window, found: list[tuple[Segment, dict[int, list[Cost]]]]) -> Starts:
    """The starts in a window, each of the newest record of its time."""
    starts: Starts = {}
    for segment, of_number in found:
        for at_once, each in of_number.items():
            for cost in each:
                hour = segment.begin + cost.start
                if hours.is_within(window, hour) and series.newest(hour) == segment.path:
                    at = micros_of((hour - window.begin) % DAY)
                    starts.setdefault(at_once, []).append(Start(at, cost))
    return {at_once: sorted(each, key=lambda start: start.at) for at_once, each in starts.items()}


def calmest(starts: list[Start]) -> Start:
    return min(starts, key=lambda start: (not start.cost.kept, start.cost.sent, start.at))


def calm_guest(guest: Guest, starts: Starts) -> Guest:
    """A guest whose costs are those of its calmest start, with the range of all of them."""
    found = dict(guest.costs)
    for at_once, each in starts.items():
        known = [start.cost for start in each if start.cost.converges != "unknown"] or [calmest(each).cost]
        times, quiet = [cost.time for cost in known], min(cost.sent for cost in known)
        found[at_once] = calmest(each).cost._replace(least=min(times), most=max(times), quiet=quiet)
    return guest._replace(costs=found)


def chosen(starts: list[Start], ready: int, most: int, end: int) -> tuple[int, Cost]:
    """When a guest begins that could do so at `ready`, and what it costs then: at once, or after a wait of at most so
    long that is worth it and leaves time to move before the end."""
    before = [start for start in starts if start.at <= ready]
    now = (before or starts[:1])[-1].cost
    later = [each for each in starts if ready < each.at <= ready + most and each.at + each.cost.time <= end]
    best = calmest(later) if later else None
    if best is None or best.cost.kept < now.kept:
        return ready, now
    is_worth = best.cost.kept > now.kept or best.cost.sent <= WORTH * now.sent
    return (best.at, best.cost) if is_worth else (ready, now)


class Held(NamedTuple):
    """What is scheduled: the guests with their starts, groups that move apart, and when all have to have moved, in
    microseconds from the opening: at the end of the window, or at a deadline before that."""

    guests: list[Guest]
    starts: dict[str, Starts]
    groups: dict[str, int]
    end: int

    def schedule(self, at_once: int, name: str, order: list[Guest], most: int) -> Schedule:
        """One order with one number at once, in which no guest is held for longer than so long."""
        free, costs = [0] * at_once, []
        of_group: dict[int, int] = {}
        for guest in order:
            slot = min(range(at_once), key=lambda each: (free[each], each))
            group = self.groups.get(guest.name, 0)
            ready = max(free[slot], of_group.get(group, 0) if group else 0)
            start, cost = chosen(self.starts[guest.name][at_once], ready, most, self.end)
            calm = guest.costs[at_once]
            costs.append(cost._replace(hold=start - ready, least=calm.least, most=calm.most))
            free[slot] = of_group[group] = start + cost.time
        return Schedule(at_once, name, order, own=tuple(costs))

    def orders(self, at_once: int) -> list[tuple[str, list[Guest]]]:
        """The orders that differ, by what guests cost at their calmest."""

        def calm(guest: Guest) -> int:
            return calmest(self.starts[guest.name][at_once]).at

        found = [(CALMEST, sorted(self.guests, key=calm))]
        for name, key in ORDERS:
            order = sorted(self.guests, key=lambda guest: key(guest.costs[at_once]))
            if all([each.name for each in order] != [each.name for each in other] for _, other in found):
                found.append((name, order))
        return found

    def schedules(self, numbers: list[int]) -> list[Schedule]:
        """For each number at once and each order one for each length of waiting."""
        holds = [*(micros_of(hold) for hold in HOLDS if micros_of(hold) < self.end), self.end]
        return [
            self.schedule(at_once, name, order, most)
            for at_once in numbers
            for name, order in self.orders(at_once)
            for most in holds
        ]


def rank(schedule: Schedule) -> tuple:
    """In a window there is time: what keeps all limits and ends in it comes first, then what sends fewest bytes."""
    return not schedule.kept, schedule.sent, schedule.time


def best_of_each(schedules: list[Schedule]) -> list[Schedule]:
    """Of the schedules of one number at once and one order, the best one."""
    found: dict[tuple[int, str], Schedule] = {}
    for each in schedules:
        other = found.setdefault((each.at_once, each.order), each)
        found[each.at_once, each.order] = min(other, each, key=rank)
    return list(found.values())


def planned(program: str, held: Held, numbers: list[int]) -> Answer:
    """The schedules of a window, and the best of them."""
    told = best_of_each(answered(program, held.schedules(numbers), held.end, held.groups).schedules)
    best = min(told, key=rank)
    moves = answered(program, [best], held.end, held.groups).moves
    return Answer(told, best, moves)


def flat(guest: Guest, window: Window) -> Starts:
    """The starts of a guest of which no record tells the time: it costs the same from each."""
    places = range(0, window.length, math.ceil(window.length / FLAT))
    return {at_once: [Start(micros_of(at), cost) for at in places] for at_once, cost in guest.costs.items()}


def gathered(
    found: Gathered, series: dict[str, Series], window: Window, jobs: int
) -> tuple[Gathered, dict[str, Starts]]:
    """The guests with what their calmest starts cost, and all starts. A record of the window that is refused is told,
    and left out."""
    asked = [
        (guest, segment)
        for guest in found.guests
        if guest.name in series
        for segment in series[guest.name].within(window)
    ]
    rows = [(of_segment, segment.path, found.asked, guest.limits) for guest, segment in asked]
    of_guest: dict[str, list] = {guest.name: [] for guest in found.guests}
    for (guest, segment), each in zip(asked, host_costs.side_by_side(jobs, host_costs.tried, rows)):
        if isinstance(each, str):
            version.complain("evacuate", each)
        else:
            of_guest[guest.name].append((segment, each))
    starts = {}
    for guest in found.guests:
        known = within(series[guest.name], window, of_guest[guest.name]) if guest.name in series else {}
        starts[guest.name] = {**flat(guest, window), **known}
    guests = [calm_guest(guest, starts[guest.name]) for guest in found.guests]
    return found._replace(guests=guests), starts
