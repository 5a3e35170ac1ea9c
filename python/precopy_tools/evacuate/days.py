"""The spread over days: what a guest's migration costs at the hour of its move on each day that has a record of it."""

from collections.abc import Iterable
from typing import NamedTuple

from precopy_tools.evacuate import costs as host_costs
from precopy_tools.evacuate import fluid, hours
from precopy_tools.evacuate.costs import Asked, Cost, Wanted
from precopy_tools.evacuate.hours import Fit, Series
from precopy_tools.evacuate.schedules import Placed
from precopy_tools.predict import plans
from precopy_tools.quantities import size_text, time_text
from precopy_tools.refusals import Refused


class Day(NamedTuple):
    """One day: when it was, in Unix time, and time, bytes and downtime of the migration, and whether the limits are
    kept. A record that ends before the migration has none."""

    moment: float
    time: int
    sent: int
    downtime: int
    kept: bool

    def document(self) -> dict:
        return {
            "begin": hours.iso_text(self.moment),
            "time_seconds": self.time / 1e6,
            "sent_bytes": self.sent,
            "down_seconds": self.downtime / 1e6,
            "kept": self.kept,
        }


def day_of(fit: Fit, asked: Asked, cost: Cost, limits: Wanted) -> Day | None:
    """What a migration with the shares of a move costs on one day; None if its record does not tell."""
    limits = limits._replace(start=fit.start)
    try:
        planner = host_costs.planner_of(fit.path, asked, limits)
        if cost.shares:
            found = fluid.cost_over(planner, asked, limits, cost.at_once, cost.shares)
        else:
            found = host_costs.cost_of(planner, asked, limits, cost.at_once)
    except (OSError, Refused, plans.Failed):
        return None
    is_known = found is not None and found.converges != "unknown"
    return Day(fit.moment, found.time, found.sent, found.downtime, found.kept) if is_known else None


def of_moves(moves: Iterable[Placed], fits: dict[str, list[Fit]], asked: Asked, jobs: int) -> dict[str, list[Day]]:
    """The days of each guest that has hours, the newest first."""
    rows = [(move, fit) for move in moves for fit in fits.get(move.guest.name, [])]
    words = [(fit, asked, move.cost, move.guest.limits) for move, fit in rows]
    found: dict[str, list[Day]] = {}
    for (move, _), day in zip(rows, host_costs.side_by_side(jobs, day_of, words)):
        found.setdefault(move.guest.name, []).extend([day] if day else [])
    return found


def fits_of(series: dict[str, Series], moves: Iterable[Placed], hour_of) -> dict[str, list[Fit]]:
    """The records of each guest at the hour of its move."""
    return {move.guest.name: series[move.guest.name].fits(hour_of(move)) for move in moves if move.guest.name in series}


def spread(values: list[int], text) -> str:
    least, most = text(min(values)), text(max(values))
    return least if least == most else f"{least} to {most}"


def lines(found: dict[str, list[Day]]) -> list[str]:
    """A line for each guest that has hours."""
    if not found:
        return []
    told = ["by the records of each day at that hour, as if today is as those days:"]
    for name, days in found.items():
        if not days:
            told.append(f"{name}: no record tells")
            continue
        kept = sum(day.kept for day in days)
        parts = [
            spread([day.sent for day in days], size_text),
            spread([day.time for day in days], time_text),
            f"downtime {spread([day.downtime for day in days], time_text)}",
            f"limits kept on {kept} of {len(days)} day{'s' if len(days) > 1 else ''}",
        ]
        told.append(f"{name}: {', '.join(parts)}")
    return told
