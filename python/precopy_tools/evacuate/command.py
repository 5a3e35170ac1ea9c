"""Plans the evacuation of a host: its guests, over one link, some at a time; and performs it if asked.

    tools/evacuate guests/*.light.pcwt --link 25Gbit --downtime 300ms --deadline 20m --picture host.svg
    tools/evacuate guests/*.light.pcwt --link 25Gbit --to qemu+ssh://b/system --run

There is one record a guest: a trace that tools/record has made, with NAME.json beside it, a series of these, or a whole
trace. For each number at once (1, 2, 4 and so on up to all) and each of four orders it prints the time of the whole,
the bytes and the longest downtime. Each guest has an even share of the link, which stays; with --fluid those that move
share the link evenly at each moment. The best schedule comes last: one that keeps all limits, then the one that takes
less time, then fewer bytes. Costs are those of precopy-view, by a hypervisor's looks or with --clark by Clark's rounds,
and schedules those of precopy-schedule. docs/EVACUATION.md says what they leave out.

Then comes what performs it: a script of virsh, or with --lines qmp the commands for each guest's monitor. --dry-run
prints nothing but the script, and --run performs the schedule itself; only it does with --fluid. It shows each guest
that moves, begins no other one after a failure, and cancels those under way on SIGINT and SIGTERM. It never touches a
migration that it did not begin.

--at plans guests of series by their records of an hour, in UTC, and --window also holds them back until a calm: as if
today is as the day of the records. What each move costs at its hour on each day is told beside it.

--settings FILE has limits of single guests, guests that never move at once, a reserve of the link, copies at the
destination, and monitors and destinations of single guests. --costs prints what each guest costs, one line of JSON for
each, and no schedule; such a file is taken in place of records, so other hosts can do that part.

The status is 0 if the best schedule keeps all limits, 3 if it misses one or there is no schedule, 4 if that is not
known, since records are too short or their guests stood still, 1 if a file is refused (the others are planned all the
same), and 2 if the words are. With --run it is 0 if all guests have moved, and 5 if one has not.
"""

import argparse
import concurrent.futures
import json
import math
import sys
import time

from precopy_tools import printed, version
from precopy_tools.evacuate import calm, chart
from precopy_tools.evacuate import costs as host_costs
from precopy_tools.evacuate import days, documents, fluid, gathering, hours, lines, records, report_chart, run
from precopy_tools.evacuate import schedules as host_schedules
from precopy_tools.evacuate import settings as host_settings
from precopy_tools.evacuate import texts, ways
from precopy_tools.evacuate.costs import Wanted
from precopy_tools.evacuate.gathering import Gathered, NoSchedule
from precopy_tools.evacuate.hours import Chosen, Hour
from precopy_tools.evacuate.options import options_of
from precopy_tools.evacuate.schedules import Answer, Limits, Placed
from precopy_tools.evacuate.settings import Settings
from precopy_tools.formats import traces
from precopy_tools.predict import plans
from precopy_tools.quantities import micros_of, time_text
from precopy_tools.refusals import Refused


def settings_of(options: argparse.Namespace) -> Settings:
    settings = host_settings.read(options.settings) if options.settings else Settings()
    if settings.reserve >= options.link:
        raise Refused(f"{options.settings}: the reserve leaves nothing of the link")
    return settings


def gather(options: argparse.Namespace, settings: Settings, hour: Hour) -> tuple[Gathered, Chosen]:
    """The guests and their costs, and their series if an hour is asked for; the refused files are told."""
    if hour.opens:
        chosen = hours.chosen(options.records, hour.of(0))
    else:
        paths, told = records.chosen(options.records)
        chosen = Chosen(paths, {}, {}, told)
    if not (options.costs or options.dry_run or options.json == "-"):
        print("\n".join([*chosen.told, ""]), end="")
    link, numbers = options.link - settings.reserve, options.at_once or ()
    asked = host_costs.Asked(options.program, link, numbers, options.tick, options.pace)
    of_settings = settings.limits_of(options.downtime)

    def limits_of(name: str) -> Wanted:
        limits = of_settings(name)
        if name not in chosen.fits:
            return limits
        if limits.age is not None:
            raise Refused(f"{options.settings}: guests: {name}: a copy of some age goes without --at and --window")
        return limits._replace(start=chosen.fits[name].start)

    found = gathering.gathered(chosen.paths, asked, limits_of, options.jobs)
    found.told()
    gathering.expect_once(found.guests)
    return found, chosen


def expect_known(options: argparse.Namespace, settings: Settings, found: Gathered) -> None:
    """Each guest of the settings has a record. If a file is refused, that may be its own: then it is only told."""
    names = {guest.name for guest in found.guests}
    try:
        refused = {records.name_of(path) for path, _ in found.refused if not path.endswith(gathering.OF_COSTS)}
        host_settings.expect_known(options.settings, settings, names | refused)
    except Refused as fault:
        if not found.refused:
            raise
        version.complain("evacuate", fault)


def write(path: str, text: str, status: int = 0) -> int:
    with traces.Pending(path) as file:
        file.write(text.encode())
        file.finish()
    return status


def keep(path: str, text: str, status: int) -> int:
    """Writes what a run did, and returns its status. If that cannot be written, a guest that has not moved counts more,
    and nothing else is lost."""
    try:
        return write(path, text, status)
    except OSError as fault:
        version.complain("evacuate", traces.told(fault))
        return status or 1


def rounds_of(options: argparse.Namespace, found: Gathered, moves: list[Placed]) -> dict[str, list[int]]:
    """When the rounds of each guest end, in microseconds of the whole."""
    rows = [(move.cost.record or move.guest.record, found.asked, move.cost, move.guest.limits) for move in moves]
    ends_of = host_costs.side_by_side(options.jobs, host_costs.rounds_of, rows)
    return {move.guest.name: [move.start + end for end in ends] for move, ends in zip(moves, ends_of)}


def draw(options: argparse.Namespace, found: Gathered, answer: Answer, opens: float) -> None:
    best, deadline = answer.best, micros_of(options.deadline or 0)
    title = f"{texts.counted(answer.moves)} in {time_text(best.time)}: {best.at_once} at once, {best.order}"
    write(options.picture, chart.drawn(answer.moves, rounds_of(options, found, answer.moves), title, deadline, opens))


def answered(
    options: argparse.Namespace, settings: Settings, found: Gathered, starts: dict[str, calm.Starts], hour: Hour
) -> tuple[Gathered, Answer]:
    """The guests, with what they cost by their shares if these change; all schedules, and the best of them, in a window
    by the starts of each guest."""
    gathering.expect_planned(found.guests)
    deadline = micros_of(options.deadline) if options.deadline else 0
    # Of more numbers than guests only those make sense that were asked for.
    numbers = [number for number in found.asked.numbers if options.at_once or number <= len(found.guests)]
    if hour.window:
        numbers = gathering.numbers_of(found.guests, numbers)
        deadline = min(deadline or math.inf, micros_of(hour.window.length))
        held = calm.Held(found.guests, starts, settings.groups(), deadline)
        answer = calm.planned(options.scheduler, held, numbers)
    elif options.fluid:
        table = fluid.Table(options.scheduler, deadline, settings.groups())
        numbers = gathering.numbers_of(found.guests, numbers)
        guests, answer = fluid.answered(table, found.guests, numbers, found.asked, options.jobs)
        found = found._replace(guests=guests)
    else:
        schedules = gathering.schedules_of(found.guests, numbers)
        answer = host_schedules.answered(options.scheduler, schedules, deadline, settings.groups())
    shortest = min(schedule.time for schedule in answer.schedules)
    if deadline and shortest > deadline:
        told = f"no schedule ends within {time_text(deadline)}: the shortest takes {time_text(shortest)}"
        version.complain("evacuate", told)
    return found, answer


def performing(options: argparse.Namespace, settings: Settings, names: list[str], answer: Answer, hour: Hour):
    """The moves of the best schedule in order, and how each guest is reached."""
    found_ways = ways.ways_of(names, options.way, settings.ways, options.port)
    if options.lines == "qmp":
        ways.expect_apart(found_ways, answer.best.at_once)
    closes = hour.opens + hour.window.length if hour.window else 0.0
    return lines.steps_of(answer.moves, settings.groups(), hour.opens, closes), found_ways


def days_of(options: argparse.Namespace, found: Gathered, chosen: Chosen, answer: Answer, hour: Hour):
    """What each move costs on each day that has a record of its hour."""
    fits = days.fits_of(chosen.series, answer.moves, lambda move: hour.of(move.start))
    return days.of_moves(answer.moves, fits, found.asked, options.jobs)


def show(
    options: argparse.Namespace, settings: Settings, found: Gathered, chosen: Chosen, answer: Answer, hour: Hour
) -> int:
    """Prints and writes what was asked for, and performs it if asked. Returns the status."""
    length = float(hour.window.length) if hour.window else math.inf
    deadline = min(options.deadline or math.inf, length)
    limits = Limits(found.asked.link, options.downtime, None if math.isinf(deadline) else deadline)
    names = [guest.name for guest in found.guests]
    steps, found_ways = performing(options, settings, names, answer, hour)
    status = 1 if found.refused else texts.status_of(answer.best, limits.deadline)
    spread = days_of(options, found, chosen, answer, hour)
    told = documents.document(limits, found, answer, hour, spread, options.fluid)
    if options.dry_run:
        print(lines.script(options.lines, steps, found_ways), end="")
    elif options.json != "-":
        print("\n".join(texts.of_all(found.guests, answer, found.asked, limits, hour)))
        print("".join(f"{line}\n" for line in days.lines(spread)), end="")
        below = texts.ONLY_RUN if options.fluid else lines.printed(options.lines, steps, found_ways)
        print("" if options.run else f"\n{below}".rstrip("\n"), flush=True)
    if options.picture:
        draw(options, found, answer, hour.opens)
    if options.run:
        run.expect_ready(options, steps, found_ways, status)
        shared = int(found.asked.link) if options.fluid else 0
        outcome = run.performed(options, steps, found_ways, hour.opens, shared)
        told["run"], status = outcome.document(), outcome.status()
        if options.picture:
            status = keep(options.picture, report_chart.drawn(outcome, outcome.title(), hour.opens), status)
    if options.json:
        status = (keep if options.run else write)(options.json, json.dumps(told, indent=1) + "\n", status)
    return status


def evacuate(options: argparse.Namespace) -> int:
    settings = settings_of(options)
    hour = hours.hour_of(options.at, options.window, time.time())
    found, chosen = gather(options, settings, hour)
    if options.costs:
        for guest in found.guests:
            print(host_costs.line(guest, found.asked))
        return 1 if found.refused else 0
    if not found.guests:
        raise Refused("there is no guest to schedule")
    expect_known(options, settings, found)
    starts: dict[str, calm.Starts] = {}
    if hour.window:
        found, starts = calm.gathered(found, chosen.series, hour.window, options.jobs)
    try:
        found, answer = answered(options, settings, found, starts, hour)
    except NoSchedule as fault:
        version.complain("evacuate", fault)
        return 1 if found.refused else 3
    return show(options, settings, found, chosen, answer, hour)


def main(given: list[str]) -> int:
    options = options_of(given, __doc__)
    try:
        return evacuate(options)
    except (ways.Shared, run.Unready) as fault:
        version.complain("evacuate", fault)
        return 2 if isinstance(fault, ways.Shared) else fault.status
    except (OSError, Refused, plans.Failed, concurrent.futures.BrokenExecutor) as fault:
        version.complain("evacuate", traces.told(fault))
        return 1


if __name__ == "__main__":
    sys.exit(printed.run("evacuate", main, loses=True))
