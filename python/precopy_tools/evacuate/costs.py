"""What the migration of each of several guests costs at each share of a link, by the proved `precopy-view`.

It is what `json predict` tells, by a hypervisor's looks or by Clark's rounds; if a record ends before its migration
does, it is the plan of `json report`, which goes by Clark's rounds.

A record is a trace that tools/record has made, with NAME.json beside it, or a whole trace without that, whose guest is
named by the file. Times are whole microseconds, and sizes bytes.
"""

import concurrent.futures
import json
import math
import multiprocessing
import multiprocessing.connection
import os
import threading
from collections.abc import Callable
from typing import NamedTuple

from precopy_tools import refusals
from precopy_tools.evacuate.records import LIGHT, name_of
from precopy_tools.formats import samples, traces
from precopy_tools.predict import plans
from precopy_tools.predict.clark import Pace, plan_of
from precopy_tools.predict.forecast import Forecast, Link
from precopy_tools.quantities import micros_of, time_text
from precopy_tools.refusals import Refused

FORMAT = "precopy costs 2"
MOST_MICROS = 1 << 53
MOST_TOLD = 1e18
STOOD, TOO_SHORT = "the guest stood still for", "the recording ends before the migration"
NO_STOP = "the migration does not end"
VERDICTS = ("yes", "no", "unknown")
# What `json predict` tells of a migration like QEMU: what it costs, or what is left when the recording ends before.
ENDED, CUT = {"looks", "time_seconds", "sent_bytes", "down_seconds", "kept"}, {"looks", "sent_bytes", "left_bytes"}


class Wanted(NamedTuple):
    """What one guest may take: its limits, and its copy at the destination, if there is one: the tick of the record
    from which on it differs, or how old it is when the migration begins, in seconds. Its plans begin at `start`,
    so long after the first look."""

    downtime: float
    link: float | None = None
    time: float | None = None
    base: int | None = None
    domain: str | None = None
    age: float | None = None
    start: float = 0.0


class Cost(NamedTuple):
    """What the migration of one guest costs at one share, if it begins at `start` of its recording, or of `record`. The
    share is at most what a plan of its record can have.

    `least` and `most` are the shortest and the longest time over all starts whose migration ends within the recording,
    and `quiet` is the least bytes of them. `converges` is yes, no, or unknown if the recording ends before the
    migration does, or if the guest stood still meanwhile: then the cost is that of a guest that writes no more. It is
    kept if the guest's limits are, and `why` says what is not. `like_qemu` is what `json predict` tells of a hypervisor
    that goes on as QEMU does, beside Clark's plan or if the recording ends first: nothing if the guest stood still, or
    if the start is one of `json when`. If those that move share the link, `share` is the first of its `shares`, and
    `most_share` the most that it takes.
    """

    at_once: int
    share: float
    time: int
    sent: int
    downtime: int
    least: int
    most: int
    quiet: int
    converges: str
    kept: bool
    why: str
    hold: int = 0
    record: str = ""
    start: float = 0.0
    like_qemu: dict = {}
    shares: list = []
    most_share: int = 0


class Guest(NamedTuple):
    """A guest: its name, its record, what that was taken of, and its costs by the number at once.

    At a share that no plan can have there is no cost, but a reason.
    """

    name: str
    record: str
    taken_of: str
    digest: str
    limits: Wanted
    costs: dict[int, Cost]
    unplanned: dict[int, str]


class Asked(NamedTuple):
    """What is asked of each record: by Clark's rounds if these have a pace, and else by a hypervisor's looks."""

    program: str
    link: float
    numbers: tuple[int, ...]
    tick: float
    pace: Pace | None = None


def is_name(name: object) -> bool:
    """Whether this can be the name of a guest, also in a comment between commands."""
    return isinstance(name, str) and name != "" and name.isprintable()


def planner_of(path: str, asked: Asked, limits: Wanted) -> Forecast:
    """The plans of one record, to a destination with a copy if there is one. With an old copy they begin as long after
    the first look as the copy is old, and it differs by all that was written since the first look."""
    base = limits.base
    trace, records = traces.read_file(path)
    written = [record[:2] for record in records]
    if path.endswith(LIGHT) or os.path.exists(samples.path_beside(path)):
        sample = samples.read(path, trace, written)
    else:
        sample = samples.of_all_pages(path, trace, (0, written[-1][0] if written else 0), asked.tick)
    if base is not None and base > sample.first_tick:
        begins = f"which begins at tick {sample.first_tick:,}"
        raise Refused(f"{path}: a copy of tick {base:,} is newer than the record, {begins}")
    forecast = Forecast(asked.program, sample, trace.size, written, asked.pace)
    forecast.begin_with(base)
    if limits.age is not None:
        begin_with_old_copy(path, forecast, limits.age)
    elif limits.start:
        forecast.begin_after(limits.start)
    return forecast


def begin_with_old_copy(path: str, forecast: Forecast, age: float) -> None:
    if age > forecast.seconds():
        told, whole = (time_text(micros_of(each)) for each in (age, forecast.seconds()))
        raise Refused(f"{path}: a copy that is {told} old is older than the record, which has {whole}")
    forecast.begin_with(forecast.sample.first_tick)
    forecast.begin_after(age)


def micros(seconds: float) -> int:
    return min(micros_of(seconds), MOST_MICROS)


def over(name: str, seconds: float, limit: float) -> str:
    return f"{name} {time_text(micros_of(seconds))} over {time_text(micros_of(limit))}"


def missed(told: dict, limits: Wanted, sample: samples.Sample) -> str:
    """Which of a guest's limits a migration does not keep, and by what."""
    if sample.stood_still:
        return f"{STOOD} {sample.still_text()} of its recording"
    if told["converges"] == "unknown":
        return TOO_SHORT
    migration, found = told["migration"], []
    if migration["why"] not in plans.STOPS:
        found.append(NO_STOP)
    elif migration["down_seconds"] > told["limits"]["down_seconds"]:
        found.append(over("downtime", migration["down_seconds"], limits.downtime))
    if limits.time is not None and migration["time_seconds"] > limits.time:
        found.append(over("time", migration["time_seconds"], limits.time))
    return " and ".join(found)


def by_plan(told: dict) -> str:
    """Whether a migration converges by its plan alone."""
    migration = told.get("migration")
    return "unknown" if migration is None else "yes" if migration["why"] == "few" else "no"


def numbers(told: dict) -> tuple[int, int, int]:
    """Time, bytes and downtime."""
    return micros(told["time_seconds"]), told["sent_bytes"], micros(told["down_seconds"])


def numbers_of_plan(told: dict) -> tuple[int, int, int]:
    """The same of a plan."""
    stop = told["stop"]
    time = stop["at_seconds"] - told["rounds"][0]["from_seconds"] + stop["down_seconds"]
    return micros(time), stop["total_bytes"], micros(stop["down_seconds"])


def cost_of(planner: Forecast, asked: Asked, limits: Wanted, at_once: int) -> Cost:
    share = asked.link / at_once
    link = Link(min(share, limits.link or share, planner.most_link()), limits.downtime)
    told, start = planner.told(link), limits.start
    if told["converges"] == "unknown" and start:
        planner.begin_after(0.0)
        told, start = planner.told(link), 0.0
    cost = numbers(told["migration"]) if "migration" in told else numbers_of_plan(planner.plan(link))
    if start != limits.start:
        planner.begin_after(limits.start)
    ranges = told.get("starts")
    least, most = (numbers(ranges[end]) if ranges else cost for end in ("least", "greatest"))
    why = missed(told, limits, planner.sample)
    stood_still = planner.sample.stood_still
    verdict, like_qemu = ("unknown", {}) if stood_still else (by_plan(told), told.get("like_qemu", {}))
    found = Cost(at_once, link.bandwidth, *cost, least[0], most[0], least[1], verdict, not why, why)
    return found._replace(start=start, like_qemu=like_qemu)


def guest_of(path: str, asked: Asked, limits: Wanted) -> Guest:
    """The costs of one record."""
    name = name_of(path)
    if not is_name(name):
        raise Refused(f"{path!r}: the name of its guest is empty, or cannot be printed in a line")
    planner, costs, unplanned = planner_of(path, asked, limits), {}, {}
    for at_once in asked.numbers:
        try:
            costs[at_once] = cost_of(planner, asked, limits, at_once)
        except plans.NoRate as fault:
            unplanned[at_once] = str(fault)
    sample = planner.sample
    return Guest(name, path, sample.taken_of, sample.trace_sha256, limits, costs, unplanned)


def tried(function: Callable, path: str, asked: Asked, limits: Wanted):
    """What a function tells of one record, or why the record is refused."""
    try:
        return function(path, asked, limits)
    except plans.Failed as fault:
        return f"{path}: {fault}"
    except (OSError, Refused) as fault:
        return traces.told(fault)


def end_with_parent() -> None:
    """Has this process end as soon as the one that began it has, also if that is killed."""
    parent = multiprocessing.parent_process()
    assert parent

    def wait() -> None:
        multiprocessing.connection.wait([parent.sentinel])
        os._exit(1)

    threading.Thread(target=wait, daemon=True).start()


def side_by_side(jobs: int, function, rows: list[tuple]) -> list:
    """What a function makes of each row, by this many processes."""
    if min(jobs, len(rows)) < 2:
        return [function(*row) for row in rows]
    with concurrent.futures.ProcessPoolExecutor(min(jobs, len(rows)), initializer=end_with_parent) as pool:
        waiting = [pool.submit(function, *row) for row in rows]
        return [each.result() for each in waiting]


def guests_of(paths: list[str], asked: Asked, limits_of, jobs: int) -> list[Guest | str]:
    """The costs of each record, or why it is refused."""
    return side_by_side(jobs, tried, [(guest_of, path, asked, limits_of(name_of(path))) for path in paths])


def rounds_of(path: str, asked: Asked, cost: Cost, limits: Wanted) -> list[int]:
    """When the rounds of one guest end, in microseconds from its start on. A record that is elsewhere has none, and a
    plan of looks has no rounds."""
    if asked.pace is None or not os.path.exists(path):
        return []
    planner = planner_of(path, asked, limits._replace(start=cost.start))
    rounds = planner.plan(Link(cost.share, limits.downtime))["rounds"]
    return [micros(each["to_seconds"] - rounds[0]["from_seconds"]) for each in rounds]


def line(guest: Guest, asked: Asked) -> str:
    """The costs of a guest as one line of JSON, for another run of the tool."""
    fields = guest._asdict()
    fields["limits"] = guest.limits._asdict()
    fields["costs"] = [cost._asdict() for cost in guest.costs.values()]
    return json.dumps({"format": FORMAT, "link": asked.link, "plan": plan_of(asked.pace), **fields})


def lines_of(path: str, asked: Asked, limits_of) -> list[Guest | str]:
    """The guest of each line of such a file, or why the line is refused. All must be of the same link, plan, limits and
    numbers at once, or the file is refused."""
    found = []
    with open(path, "rb") as lines:
        for number, text in enumerate(lines, 1):
            where = f"{path}: line {number}"
            try:
                guest, rate, plan = parsed(refusals.json_of(where, text))
            except Refused as fault:
                found.append(str(fault))
            except (ValueError, KeyError, TypeError, AttributeError) as fault:
                found.append(f"{where} has no costs of a guest: {fault}")
            else:
                expect_same_plan(where, rate, plan, asked)
                expect_same(where, guest, asked, limits_of)
                found.append(guest)
    return found


def parsed(fields: dict) -> tuple[Guest, float, str]:
    """A guest, and the link and the plan of its costs; or a ValueError or another one that says what is wrong."""
    if fields["format"] != FORMAT:
        raise ValueError(f"format {fields['format']!r} is not {FORMAT!r}")
    costs = {cost.at_once: cost for cost in (Cost(**each) for each in fields["costs"])}
    unplanned = {int(number): str(why) for number, why in fields["unplanned"].items()}
    texts = [fields[name] for name in ("name", "record", "taken_of", "digest")]
    if not all(isinstance(text, str) for text in texts) or not is_name(texts[0]):
        raise ValueError("a name is none")
    for cost in costs.values():
        expect_kinds(cost)
    guest = Guest(*texts, Wanted(**fields["limits"]), costs, unplanned)
    return guest, float(fields["link"]), fields["plan"]


def expect_kinds(cost: Cost) -> None:
    """The fields of costs from elsewhere are of their kinds, and whole numbers are such as precopy-schedule reads."""
    for name, kind in Cost.__annotations__.items():
        value = getattr(cost, name)
        if type(value) is not kind or kind is int and not 0 <= value < 1 << 64:
            raise ValueError(f"{name} is {value!r}")
    if not 0 < cost.share < math.inf:
        raise ValueError(f"share is {cost.share!r}")
    if cost.converges not in VERDICTS:
        raise ValueError(f"converges is {cost.converges!r}")
    told = cost.like_qemu
    are_numbers = all(type(value) in (int, float, bool) and 0 <= value < MOST_TOLD for value in told.values())
    if set(told) not in (set(), ENDED, CUT) or not are_numbers:
        raise ValueError(f"like_qemu is {told!r}")


def expect_same_plan(where: str, rate: float, plan: object, asked: Asked) -> None:
    if rate != asked.link:
        raise Refused(f"{where}: its link is {rate:g} bytes a second, and not {asked.link:g}")
    if plan != plan_of(asked.pace):
        raise Refused(f"{where}: its plans go by {plan}, and not by {plan_of(asked.pace)}")


def expect_same(where: str, guest: Guest, asked: Asked, limits_of) -> None:
    if guest.limits._replace(start=0.0) != limits_of(guest.name)._replace(start=0.0):
        raise Refused(f"{where}: the limits of {guest.name} were other ones")
    left = [at_once for at_once in asked.numbers if at_once not in guest.costs and at_once not in guest.unplanned]
    if left:
        raise Refused(f"{where}: there are no costs with {left[0]} at once")
