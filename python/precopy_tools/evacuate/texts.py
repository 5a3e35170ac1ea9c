"""What tools/evacuate prints: a table of schedules, what is doubtful, and the best schedule."""

import math
from collections.abc import Iterable

from precopy_tools.evacuate.costs import STOOD, Asked, Cost, Guest
from precopy_tools.evacuate.hours import Hour, clock_text, day_text
from precopy_tools.evacuate.schedules import Answer, Limits, Placed, Schedule
from precopy_tools.quantities import micros_of, moment_text, size_text, time_text

# What stands below the table if shares change.
ONLY_RUN = "Only --run performs this schedule: it changes shares when guests begin and end."
# So many changes of a share are told.
CHANGES = 3


def gigabits(rate: float) -> str:
    return f"{rate * 8 / 1e9:.3g}"


def counted(guests: list) -> str:
    return f"{len(guests)} guest{'s' if len(guests) > 1 else ''}"


def some(guests: list[Guest]) -> list[str]:
    """The names of the first three, and how many more there are."""
    return [*(guest.name for guest in guests[:3]), *([f"{len(guests) - 3} more"] if len(guests) > 3 else [])]


def is_late(schedule: Schedule, deadline: float | None) -> bool:
    return deadline is not None and schedule.time > micros_of(deadline)


def misses(schedule: Schedule, deadline: float | None) -> str:
    """Which limits a schedule misses, and whose are not known."""
    of_verdict: dict[bool, list[Guest]] = {False: [], True: []}
    for guest, cost in zip(schedule.guests, schedule.costs()):
        if not cost.kept:
            of_verdict[cost.converges == "unknown"].append(guest)
    missed = [*some(of_verdict[False]), *(["the deadline"] if is_late(schedule, deadline) else [])]
    told = (("missed", missed), ("unknown", some(of_verdict[True])))
    return "; ".join(f"{what}: {', '.join(names)}" for what, names in told if names) or "kept"


def status_of(best: Schedule, deadline: float | None) -> int:
    """0 if all limits are kept, 3 if one is missed, and 4 if that is not known since records are too short, or their
    guests stood still."""
    if best.kept:
        return 0
    missed = [cost for cost in best.costs() if not cost.kept and cost.converges != "unknown"]
    return 3 if missed or is_late(best, deadline) else 4


def doubts(guests: list[Guest], numbers: Iterable[int]) -> list[str]:
    """For each number at once the guests that do not converge, and those whose records cannot tell."""
    found = []
    for at_once in numbers:
        costs = [(guest, guest.costs[at_once]) for guest in guests]
        unknown = [(guest, cost) for guest, cost in costs if cost.converges == "unknown"]
        for told, doubtful in (
            ("no convergence", [guest for guest, cost in costs if cost.converges == "no"]),
            ("records too short", [guest for guest, cost in unknown if STOOD not in cost.why]),
            ("recorded while standing still", [guest for guest, cost in unknown if STOOD in cost.why]),
        ):
            found += [f"{at_once} at once, {told}: {', '.join(some(doubtful))}"] if doubtful else []
    return found


def table(answer: Answer, deadline: float | None) -> list[str]:
    """A line for each schedule. Its time is that of the last move, with all that guests are held back."""
    names = {id(each): f"{each.order}{', held' * any(cost.hold for cost in each.costs())}" for each in answer.schedules}
    width = max(18, *(len(name) + 1 for name in names.values()))
    lines = [f"{'at once':>7}  {'order':<{width}}{'time':>13}{'sent':>13}{'downtime':>13}  limits"]
    for each in answer.schedules:
        mark = "  <- best" if each is answer.best else ""
        lines.append(
            f"{each.at_once:>7}  {names[id(each)]:<{width}}{time_text(each.time):>13}{size_text(each.sent):>13}"
            f"{time_text(each.downtime):>13}  {misses(each, deadline)}{mark}"
        )
    return lines


def slowed(move: Placed, asked: Asked) -> str:
    """A note of a guest that could have more of the link than a plan of its record has."""
    share = min(asked.link / move.cost.at_once, move.guest.limits.link or math.inf)
    return "  the most that a plan of its record has" if move.cost.share < share else ""


def held(move: Placed, hour: Hour) -> str:
    """A note of when a guest begins, and for how long it was held back for that."""
    at = f"  at {clock_text(hour.opens + move.start / 1e6)} UTC" if hour.opens else ""
    return f"{at}, held back for {time_text(move.cost.hold)}" if move.cost.hold else at


def later_shares(move: Placed) -> str:
    """A note of the shares that a guest gets later."""
    later = move.cost.shares[1:]
    told = [
        f"{gigabits(share.bandwidth)} after {moment_text(share.micros // 1000 * 1000)}" for share in later[:CHANGES]
    ]
    more = [f"{len(later) - CHANGES} more"] if len(later) > CHANGES else []
    return f"  then {', '.join([*told, *more])}" if told else ""


def best(answer: Answer, asked: Asked, hour: Hour) -> list[str]:
    """The best schedule: a line for each guest."""
    width = max(len("guest"), *(len(move.guest.name) for move in answer.moves))
    head = f"{'guest':<{width}}{'start':>15}{'end':>15}{'share, Gbit/s':>15}{'sent':>13}{'downtime':>13}"
    is_fluid = any(move.cost.shares for move in answer.moves)
    head += "" if is_fluid else "  time by start"
    lines = [f"best: {answer.best.at_once} at once, {answer.best.order}", head]
    for move in answer.moves:
        cost = move.cost
        range_of_starts = "" if is_fluid else f"  {time_text(cost.least)} to {time_text(cost.most)}"
        note = later_shares(move) + held(move, hour) + (f"  {cost.why}" if cost.why else "")
        lines.append(
            f"{move.guest.name:<{width}}{moment_text(move.start):>15}{moment_text(move.end):>15}"
            f"{gigabits(cost.share):>15}{size_text(cost.sent):>13}{time_text(cost.downtime):>13}"
            f"{range_of_starts}{note}{slowed(move, asked)}"
        )
    return lines


def like_qemu(cost: Cost) -> str:
    """What a move comes to if its hypervisor goes on as QEMU does."""
    told = cost.like_qemu
    if "left_bytes" in told:
        return f"the recording ends first, left {size_text(told['left_bytes'])}"
    time, down = (time_text(micros_of(told[name])) for name in ("time_seconds", "down_seconds"))
    return f"time {time}, sent {size_text(told['sent_bytes'])}, downtime {down}"


def of_qemu(answer: Answer) -> list[str]:
    """A line for each guest of which that is known, in the order of the schedule: by Clark's rounds beside each plan,
    and by looks only if its record ends first."""
    width = max(len("guest"), *(len(move.guest.name) for move in answer.moves))
    known = [move for move in answer.moves if move.cost.like_qemu]
    return [f"{move.guest.name:<{width}}  like QEMU: {like_qemu(move.cost)}" for move in known]


def of_all(guests: list[Guest], answer: Answer, asked: Asked, limits: Limits, hour: Hour) -> list[str]:
    """All of it."""
    within = f"; all within {time_text(micros_of(limits.deadline))}" if limits.deadline else ""
    limit = time_text(micros_of(limits.downtime))
    opens = f"; begins at {day_text(hour.opens)} {clock_text(hour.opens)} UTC" if hour.opens else ""
    plans = "; by Clark's rounds" if asked.pace else ""
    plans += "; shared by those that move" * any(move.cost.shares for move in answer.moves)
    return [
        f"{counted(guests)}; link {gigabits(limits.link)} Gbit/s; downtime limit {limit}{within}{opens}{plans}",
        *table(answer, limits.deadline),
        *doubts(guests, dict.fromkeys(each.at_once for each in answer.schedules)),
        "",
        *best(answer, asked, hour),
        *of_qemu(answer),
    ]
