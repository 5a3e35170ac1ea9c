"""Schedules in which those that move share the link, also while fewer do.

For each number at once the guests have the order that is best by shares that stay. Then all begins and ends are gone
through in time. At each the shares are made anew (`sharing`), and each guest whose share changed is planned over the
link that it had, and has from now on. `precopy-schedule` has to place all guests there by the times that result.
"""

import concurrent.futures
from collections.abc import Iterable
from typing import NamedTuple

from precopy_tools.evacuate import costs as host_costs
from precopy_tools.evacuate import schedules as host_schedules
from precopy_tools.evacuate import sharing
from precopy_tools.evacuate.costs import Asked, Cost, Guest, Wanted
from precopy_tools.evacuate.schedules import Answer, Placed, Schedule
from precopy_tools.evacuate.sharing import Share
from precopy_tools.predict import plans
from precopy_tools.predict.changing import Question, Step, Steps
from precopy_tools.predict.forecast import Forecast


def most_of(planner: Forecast, limits: Wanted, link: int) -> int:
    """The most bytes a second that a guest takes: all of the link, its own limit, or what a plan of its record has."""
    return int(min(link, limits.link or link, planner.most_link()))


def told_over(planner: Forecast, asked: Asked, limits: Wanted, at_once: int, shares: list[Share]) -> dict:
    """What is told of a guest that has these shares. Between its greatest share and the least that it can come to its
    plan is scaled and stops, whatever it has: so a change of its share changes nothing before."""
    link = int(asked.link)
    most = most_of(planner, limits, link)
    begin = planner.start * planner.tick()
    steps = tuple(Step(begin + share.micros, min(share.bandwidth, most)) for share in shares)
    return Question(planner, Steps(steps, limits.downtime, most, min(most, link // at_once))).told()


def cost_over(planner: Forecast, asked: Asked, limits: Wanted, at_once: int, shares: list[Share]) -> Cost | None:
    """What the migration of a guest costs that has these shares, or nothing if its record does not tell."""
    told = told_over(planner, asked, limits, at_once, shares)
    if planner.sample.stood_still or "migration" not in told:
        return None
    time, sent, downtime = host_costs.numbers(told["migration"])
    why, verdict = host_costs.missed(told, limits, planner.sample), host_costs.by_plan(told)
    found = Cost(at_once, shares[0].bandwidth, time, sent, downtime, time, time, sent, verdict, not why, why)
    return found._replace(start=limits.start, shares=list(shares))


class Moving:
    """A guest that moves: since when, its shares, what it costs by these, and when it ends, in microseconds."""

    def __init__(self, guest: Guest, begun: int, asked: Asked, at_once: int):
        self.guest, self.begun, self.asked, self.at_once = guest, begun, asked, at_once
        self.by_stays = guest.costs[at_once]
        self.limits = guest.limits._replace(start=self.by_stays.start)
        self.planner = host_costs.planner_of(self.by_stays.record or guest.record, asked, self.limits)
        self.most = most_of(self.planner, self.limits, int(asked.link))
        self.shares: list[Share] = []
        self.cost, self.is_known = self.by_stays, True

    @property
    def end(self) -> int:
        return self.begun + self.cost.time

    def take(self, now: int, bandwidth: int) -> bool:
        """Has a share from now on. Returns whether it is another one."""
        following = sharing.following(self.shares[-1].bandwidth, bandwidth) if self.shares else bandwidth
        if self.shares and following == self.shares[-1].bandwidth:
            return False
        self.shares.append(Share(now - self.begun, following))
        return True

    def plan(self) -> "Moving":
        """Plans it by its shares, with the range over starts that it has if its share stays. If its record does not
        tell, it costs what it does if its first share stays; if that is so of a later share only, what it does by those
        before."""
        if self.is_known:
            cost = cost_over(self.planner, self.asked, self.limits, self.at_once, self.shares)
            self.cost, self.is_known = cost or self._unknown(), cost is not None
        of_starts = {name: getattr(self.by_stays, name) for name in ("least", "most", "quiet", "record")}
        cost = self.cost._replace(shares=list(self.shares), most_share=self.most, **of_starts)
        self.cost = cost._replace(time=max(1, cost.time))
        return self

    def _unknown(self) -> Cost:
        """What it costs if its record does not tell."""
        if len(self.shares) > 1:
            cost = self.cost
        else:
            alone = self.asked._replace(link=float(self.shares[0].bandwidth * self.at_once))
            cost = host_costs.cost_of(self.planner, alone, self.limits, self.at_once)
        why = cost.why if self.planner.sample.stood_still else host_costs.TOO_SHORT
        return cost._replace(converges="unknown", kept=False, why=why)


class Host:
    """One number at once and one order, from the first begin to the last end."""

    def __init__(self, order: list[Guest], at_once: int, groups: dict[str, int], asked: Asked):
        self.order, self.groups, self.asked, self.at_once = order, groups, asked, at_once
        self.now, self.queue = 0, list(range(len(order)))
        self.slots: dict[int, int] = {}  # the guest in each slot that is taken, by its number
        self.moving: dict[int, Moving] = {}
        self.placed: dict[int, Placed] = {}

    def performed(self, pool: concurrent.futures.Executor) -> list[Placed]:
        """When each guest begins and ends, in the order, and what it costs."""
        while len(self.placed) < len(self.order):
            self._begin(pool)
            self._share(pool)
            self._end()
        return [self.placed[number] for number in range(len(self.order))]

    def _begin(self, pool: concurrent.futures.Executor) -> None:
        """The next guests of the order take the free slots, and begin if none of their group is before them."""
        for slot in range(self.at_once):
            if slot not in self.slots and self.queue:
                self.slots[slot] = self.queue.pop(0)
        ready = [each for each in self.slots.values() if each not in self.moving and not self._waits(each)]
        for number, moving in zip(ready, pool.map(self._moving, ready)):
            self.moving[number] = moving

    def _waits(self, number: int) -> bool:
        """Whether a guest waits for one of its group."""
        group = self.groups.get(self.order[number].name, 0)
        before = (each for each in range(number) if each not in self.placed)
        return bool(group) and any(self.groups.get(self.order[each].name, 0) == group for each in before)

    def _moving(self, number: int) -> Moving:
        return Moving(self.order[number], self.now, self.asked, self.at_once)

    def _share(self, pool: concurrent.futures.Executor) -> None:
        """Makes the shares anew, and plans those whose share is another one."""
        found = list(self.moving.values())
        shares = sharing.fair(int(self.asked.link), [each.most for each in found])
        changed = [each for each, share in zip(found, shares) if each.take(self.now, share)]
        for each in list(pool.map(Moving.plan, changed)):
            if each.end <= self.now:
                raise plans.Failed(f"{each.guest.name}: its plan over a changed link ends before the change")

    def _end(self) -> None:
        """Goes on to the next end."""
        self.now = min(each.end for each in self.moving.values())
        for slot, number in list(self.slots.items()):
            if number in self.moving and self.moving[number].end == self.now:
                each = self.moving.pop(number)
                self.placed[number] = Placed(each.guest, each.cost, each.begun, self.now, slot)
                del self.slots[slot]


def expect_same(found: list[Placed], told: list[Placed]) -> None:
    """precopy-schedule places each guest where it was by the shares."""
    for one, other in zip(found, told, strict=True):
        if one[2:] != other[2:]:
            name, (start, end, slot), (begun, ended, taken) = one.guest.name, one[2:], other[2:]
            by_shares = f"by the shares it is in slot {slot} from {start} to {end}"
            raise plans.Failed(f"{name}: {by_shares}, and by precopy-schedule in {taken} from {begun} to {ended}")


class Table(NamedTuple):
    """What schedules are made of: the program that makes them, the deadline in microseconds, and groups."""

    program: str
    deadline: int
    groups: dict[str, int]

    def answered(self, schedules: list[Schedule]) -> Answer:
        return host_schedules.answered(self.program, schedules, self.deadline, self.groups)


def scheduled(table: Table, guests: list[Guest], at_once: int, asked: Asked, jobs: int) -> Schedule:
    """The schedule of one number at once, which has the costs of all guests by their shares."""
    best = table.answered(host_schedules.orders_of(guests, at_once)).best
    with concurrent.futures.ThreadPoolExecutor(jobs) as pool:
        found = Host(best.guests, at_once, table.groups, asked).performed(pool)
    schedule = Schedule(at_once, best.order, best.guests, own=tuple(each.cost for each in found))
    expect_same(found, table.answered([schedule]).moves)
    return schedule


def answered(
    table: Table, guests: list[Guest], numbers: Iterable[int], asked: Asked, jobs: int
) -> tuple[list[Guest], Answer]:
    """The guests with what they cost at each number at once, and the best of the schedules."""
    answer = table.answered([scheduled(table, guests, at_once, asked, jobs) for at_once in numbers])
    costs: dict[str, dict[int, Cost]] = {guest.name: {} for guest in guests}
    for schedule in answer.schedules:
        for guest, cost in zip(schedule.guests, schedule.costs()):
            costs[guest.name][schedule.at_once] = cost
    return [guest._replace(costs=costs[guest.name]) for guest in guests], answer
