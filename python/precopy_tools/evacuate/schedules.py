"""Schedules of an evacuation: for each number of guests at once and each order, by the proved precopy-schedule.

Of guests that run at once each has an even share of the link, also while fewer run. docs/EVACUATION.md says what that
leaves out.
"""

import subprocess
from typing import NamedTuple

from precopy_tools.evacuate.costs import Cost, Guest
from precopy_tools.predict import plans


class Limits(NamedTuple):
    """The link without its reserve, in bytes a second; the limit of each downtime, and that of the whole if there is
    one, in seconds."""

    link: float
    downtime: float
    deadline: float | None


class Placed(NamedTuple):
    """The move of a guest: when it begins and ends, in microseconds, and in which slot."""

    guest: Guest
    cost: Cost
    start: int
    end: int
    slot: int


class Schedule(NamedTuple):
    """One order with one number at once: what it costs, in microseconds and bytes. It may have costs of its own, as
    those of other starts."""

    at_once: int
    order: str
    guests: list[Guest]
    time: int = 0
    sent: int = 0
    downtime: int = 0
    kept: bool = False
    own: tuple[Cost, ...] = ()

    def costs(self) -> list[Cost]:
        """Those of its own, or those of the guests at its number at once."""
        return list(self.own) or [guest.costs[self.at_once] for guest in self.guests]


class Answer(NamedTuple):
    schedules: list[Schedule]
    best: Schedule
    moves: list[Placed]


def numbers_up_to(count: int) -> tuple[int, ...]:
    """1, 2, 4 and so on, and all."""
    return tuple(sorted({count, *(1 << power for power in range(count.bit_length()) if 1 << power <= count)}))


ORDERS = (
    ("as given", lambda cost: 0),
    ("least bytes first", lambda cost: cost.sent),
    ("most bytes first", lambda cost: -cost.sent),
    ("quietest first", lambda cost: cost.quiet),
)


def orders_of(guests: list[Guest], at_once: int) -> list[Schedule]:
    """The orders of some guests that differ. Guests with equal keys stay as given."""
    found = []
    for name, key in ORDERS:
        ordered = sorted(guests, key=lambda guest: key(guest.costs[at_once]))
        if all([guest.name for guest in ordered] != [guest.name for guest in each.guests] for each in found):
            found.append(Schedule(at_once, name, ordered))
    return found


def line(schedule: Schedule, deadline: int, groups: dict[str, int]) -> str:
    """A plan as precopy-schedule reads it. A guest that is held back has its slot meanwhile."""
    numbers = [schedule.at_once, deadline]
    for guest, cost in zip(schedule.guests, schedule.costs()):
        numbers += [cost.hold + cost.time, cost.sent, cost.downtime, int(cost.kept), groups.get(guest.name, 0)]
    return " ".join(map(str, numbers)) + "\n"


def numbers_in(text: str) -> list[int]:
    return [int(word) for word in text.split() if word.isdigit()]


def parsed(schedules: list[Schedule], text: str) -> Answer:
    """What precopy-schedule tells of them."""
    lines, told = text.splitlines(), []
    for schedule, words in zip(schedules, lines):
        time, sent, downtime = numbers_in(words)
        told.append(schedule._replace(time=time, sent=sent, downtime=downtime, kept=words.endswith(" kept")))
    best = told[numbers_in(lines[len(schedules)])[0]]
    rows = [numbers_in(words) for words in lines[len(schedules) + 1 :]]
    held = zip(best.guests, best.costs(), rows, strict=True)
    moves = [Placed(guest, cost, start + cost.hold, end, slot) for guest, cost, (start, end, slot) in held]
    return Answer(told, best, moves)


def answered(program: str, schedules: list[Schedule], deadline: int, groups: dict[str, int]) -> Answer:
    """What all of them cost, and which is the best. A deadline of 0 is none; a guest without a group is in none."""
    table = "".join(line(schedule, deadline, groups) for schedule in schedules)
    done = subprocess.run([program], input=table, capture_output=True, text=True)
    if done.returncode:
        raise plans.Failed(f"{program}: {done.stderr.strip()}")
    try:
        return parsed(schedules, done.stdout)
    except (ValueError, IndexError) as fault:
        raise plans.Failed(f"{program} answers no schedules: {done.stdout[:80]!r}") from fault
