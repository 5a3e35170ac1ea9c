"""What would keep the limit of a migration, as `specs/Remedies.antt` of `predictions` defines it, by plans page by
page.

It shares no code with the crate. The numbers in the crate's tests come from here.
"""

from typing import NamedTuple

from precopy_dev.models.courses import Course, Manner, Record, stops
from precopy_dev.models.redrawn import Scale, Settings

MOST = 2**64 - 1


class Limits(NamedTuple):
    """Bytes a second of the link and of the first round, and microseconds of the downtime and the reserve."""

    link: int
    downtime: int
    first: int | None = None
    reserve: int = 0


class Others(NamedTuple):
    """The settings that limits do not make, and the increment, if it is given."""

    rounds: int = 30
    start: int = 0
    skip: bool = False
    base: int | None = None
    increment: int | None = None


class Trial(NamedTuple):
    """A migration that is tried, and by whose plan it goes."""

    scale: Scale
    limits: Limits
    others: Others
    manner: Manner = Manner.ROUNDS


class Ending(NamedTuple):
    """Whether the migration ends within the trace, and Kbit of the link and the tick of the start that end it there."""

    ends: bool
    link: int | None = None
    start: int | None = None


class Remedies(NamedTuple):
    """Whether the limit is kept, and Kbit of the link, microseconds, and per cent of the guest's speed that keep it;
    and what ends the migration within the trace."""

    is_kept: bool
    link: int | None
    downtime: int | None
    speed: int | None
    ending: Ending


def rate(scale: Scale, link: int) -> int:
    return link * scale.tick * scale.sampled // (1_000 * scale.page * scale.guest)


def settings(trial: Trial) -> Settings | None:
    """The settings that limits make, if they are in range."""
    scale, limits, others, _ = trial
    if not (1 <= scale.tick <= 1_000_000 and limits.link <= MOST and limits.downtime <= MOST):
        return None
    most = rate(scale, limits.link)
    least = rate(scale, limits.link if limits.first is None else limits.first)
    if not 1 <= least <= most <= 1_000_000 or limits.reserve > limits.downtime:
        return None
    threshold = (limits.downtime - limits.reserve) // scale.tick * most // 1_000 + 1
    # A copy at the destination is no younger than the start.
    if threshold > 65_536 or (others.base is not None and others.start < others.base):
        return None
    increment = (most - least) // 10 if others.increment is None else others.increment
    return Settings(least, most, increment, threshold, others.rounds, others.start, others.skip, others.base)


def course(record: Record, trial: Trial) -> Course | None:
    """What the plan of a trial comes to, if its limits make settings."""
    made = settings(trial)
    return made and record.course(made, trial.scale, trial.manner)


def downtime(trial: Trial, plan: Course) -> int:
    return plan.down * trial.scale.tick + trial.limits.reserve


def is_kept(trial: Trial, plan: Course) -> bool:
    """Whether a plan keeps the limit of a trial: it stops the guest, which then does not stand still for longer."""
    return stops(plan, trial.manner) and downtime(trial, plan) <= trial.limits.downtime


def keeps(record: Record, trial: Trial) -> bool:
    """Whether a trial converges and keeps its limit, within the trace."""
    plan = course(record, trial)
    if plan is None or plan.stop > record.last:
        return False
    return plan.ending == "few" and is_kept(trial, plan)


def ends(record: Record, trial: Trial) -> bool:
    """Whether a trial ends within the trace."""
    plan = course(record, trial)
    return plan is not None and plan.stop <= record.last


def with_link(trial: Trial, kbit: int) -> Trial:
    return trial._replace(limits=trial.limits._replace(link=kbit * 125))


def with_downtime(trial: Trial, micros: int) -> Trial:
    return trial._replace(limits=trial.limits._replace(downtime=micros))


def with_start(trial: Trial, tick: int) -> Trial:
    return trial._replace(others=trial.others._replace(start=tick))


def slowed(trial: Trial, percent: int) -> Trial:
    return trial._replace(scale=trial.scale._replace(tick=trial.scale.tick * 100 // percent))


def turn(answers, is_kept: bool, amounts: list[int]) -> tuple[int, int] | None:
    """The first amount after the first of all with another answer, and the amount before it."""
    pairs = zip(amounts, amounts[1:])
    return next(((before, at) for before, at in pairs if answers(at) != is_kept), None)


def between(low: int, high: int) -> list[int]:
    """From an amount to another, by sixteenths."""
    return [(low * (16 - n) + high * n) // 16 for n in range(17)]


def near_turn(answers, is_kept: bool, amounts: list[int]) -> tuple[int, int] | None:
    """The turn among some amounts, then among those between the two, and once more."""
    found = turn(answers, is_kept, amounts)
    for _ in range(2):
        found = found and turn(answers, is_kept, between(*found))
    return found


def least(answers, start: int) -> int | None:
    """The least amount with a good answer, near a start."""
    is_kept = answers(start)
    way = [start >> n if is_kept else min(start << n, MOST) for n in range(7)]
    found = near_turn(answers, is_kept, way)
    if found is None:
        return way[-1] if is_kept else None
    return found[0] if is_kept else found[1]


def kbit_of(trial: Trial) -> int:
    """The link, rounded up to whole Kbit."""
    return -(-trial.limits.link // 125)


def ending_of(record: Record, trial: Trial) -> Ending:
    """What ends a migration within the trace, if it does not."""
    if ends(record, trial):
        return Ending(True)
    link = least(lambda n: ends(record, with_link(trial, n)), kbit_of(trial))
    back = between(min(trial.others.start, record.last), trial.others.base or 0)
    found = near_turn(lambda n: ends(record, with_start(trial, n)), False, back)
    return Ending(False, link, found and found[1])


def remedies(guest: list[list[int]], trial: Trial) -> Remedies:
    """What would keep the limit, over a guest of which it is known when each page is written."""
    record = Record(guest)
    is_kept = keeps(record, trial)
    slower = None if is_kept else turn(lambda n: keeps(record, slowed(trial, n)), False, list(range(100, 0, -5)))
    return Remedies(
        is_kept,
        least(lambda n: keeps(record, with_link(trial, n)), kbit_of(trial)),
        least(lambda n: keeps(record, with_downtime(trial, n)), trial.limits.downtime),
        slower[1] if slower else None,
        ending_of(record, trial),
    )
