"""The guests of an evacuation with their costs, from records and from files of costs; and which files are refused."""

from collections.abc import Callable, Iterable
from typing import NamedTuple

from precopy_tools import version
from precopy_tools.evacuate import costs as host_costs
from precopy_tools.evacuate import schedules as host_schedules
from precopy_tools.evacuate.costs import Asked, Guest, Wanted
from precopy_tools.evacuate.texts import gigabits
from precopy_tools.formats import traces
from precopy_tools.record.guests import SINCE
from precopy_tools.refusals import Refused

Refusal = tuple[str, str]  # a file, and why it is refused
OF_COSTS = ".jsonl"


class NoSchedule(Exception):
    """There is no schedule of all guests; the text says why."""


class Gathered(NamedTuple):
    """The guests, in the order given, what was asked of each, and the refused files."""

    guests: list[Guest]
    asked: Asked
    refused: list[Refusal]

    def told(self) -> None:
        """Says which files are refused, and why."""
        for _, why in self.refused:
            version.complain("evacuate", why)


def lines_in(path: str) -> int:
    try:
        with open(path, "rb") as file:
            return sum(1 for _ in file)
    except OSError:
        return 0


def costs_in(path: str, asked: Asked, limits_of: Callable[[str], Wanted]) -> list[Guest | str]:
    """The guests of a file of costs, or why it is refused."""
    try:
        return host_costs.lines_of(path, asked, limits_of)
    except (OSError, Refused) as fault:
        return [traces.told(fault)]


def gathered(paths: list[str], asked: Asked, limits_of: Callable[[str], Wanted], jobs: int) -> Gathered:
    """The guests of some records and files of costs. Without numbers at once these are 1, 2, 4 and so on, and all."""
    count = sum(lines_in(path) if path.endswith(OF_COSTS) else 1 for path in paths)
    numbers = asked.numbers or host_schedules.numbers_up_to(max(count, 1))
    now = asked._replace(numbers=numbers)
    records = [path for path in paths if not path.endswith(OF_COSTS)]
    of_record = dict(zip(records, host_costs.guests_of(records, now, limits_of, jobs)))
    found: list[tuple[str, Guest | str]] = []
    for path in paths:
        found += [(path, each) for each in costs_in(path, now, limits_of)] if path not in of_record else []
        found += [(path, of_record[path])] if path in of_record else []
    refused = [(path, each) for path, each in found if isinstance(each, str)]
    guests = [each for _, each in found if not isinstance(each, str)]
    if not asked.numbers and guests:
        guests, now = with_all(guests, now, limits_of, jobs)
    return Gathered(guests, now, refused)


def with_all(
    guests: list[Guest], asked: Asked, limits_of: Callable[[str], Wanted], jobs: int
) -> tuple[list[Guest], Asked]:
    """The same guests, with the costs of all at once too: files that were refused have made the number smaller."""
    every = len(guests)
    numbers = tuple(sorted({every, *(number for number in asked.numbers if number < every)}))
    missing = [guest for guest in guests if every not in guest.costs and every not in guest.unplanned]
    alone = asked._replace(numbers=(every,))
    more = host_costs.guests_of([guest.record for guest in missing], alone, limits_of, jobs)
    added = {guest.name: each for guest, each in zip(missing, more) if not isinstance(each, str)}
    if len(added) < len(missing):
        return guests, asked._replace(numbers=tuple(number for number in numbers if number != every))
    joined = [
        guest._replace(
            costs={**guest.costs, **added[guest.name].costs},
            unplanned={**guest.unplanned, **added[guest.name].unplanned},
        )
        if guest.name in added
        else guest
        for guest in guests
    ]
    return joined, asked._replace(numbers=numbers)


def process_of(taken_of: str) -> str:
    """The process that a record was taken of, if it says when that began."""
    name, since, rest = taken_of.partition(SINCE)
    return name + since + rest.partition(",")[0] if since else ""


def are_of_two(one: Guest, other: Guest) -> bool:
    """Whether two records are of two guests for sure. Those of guests that write nothing may have one text."""
    processes = {process_of(one.taken_of), process_of(other.taken_of)}
    return len(processes) == 2 and "" not in processes


def expect_once(guests: Iterable[Guest]) -> None:
    """Each guest has one record. Records are of one guest if they have one name or text, or were taken of one."""
    seen: dict[tuple[str, str], Guest] = {}
    for guest in guests:
        for kind, text in (("name", guest.name), ("digest", guest.digest), ("source", guest.taken_of)):
            other = seen.setdefault((kind, text), guest)
            if other is not guest and not (kind == "digest" and are_of_two(other, guest)):
                is_sure = kind != "source" or not text.startswith("process ") or SINCE in text
                note = "" if is_sure else "; or of two, since they do not say when that began"
                raise Refused(f"{other.record} and {guest.record} are two records of one guest: {text}{note}")


def expect_planned(guests: list[Guest]) -> None:
    """Each guest has a plan at some share, converges at some, and keeps its limits at some."""
    for guest in guests:
        if not guest.costs:
            raise NoSchedule(f"{guest.name} has no plan at any share: {next(iter(guest.unplanned.values()))}")
        costs = guest.costs.values()
        cost = max(costs, key=lambda cost: cost.share)
        told = f"at no share; with {gigabits(cost.share)} Gbit/s: {cost.why or 'its limits are kept'}"
        if cost.converges == "no" and not any(cost.converges == "yes" for cost in costs):
            version.complain("evacuate", f"{guest.name} converges {told}")
        elif not any(cost.kept for cost in costs):
            version.complain("evacuate", f"{guest.name} keeps its limits {told}")


def numbers_of(guests: list[Guest], numbers: Iterable[int]) -> list[int]:
    """Those numbers at which each guest has a plan."""
    found = []
    for at_once in numbers:
        without = next((guest for guest in guests if at_once not in guest.costs), None)
        if without:
            told = without.unplanned.get(at_once, "its file of costs has none")
            version.complain("evacuate", f"{at_once} at once: no plan of {without.name}: {told}")
        else:
            found.append(at_once)
    if not found:
        raise NoSchedule("there is no number at once at which each guest has a plan")
    return found


def schedules_of(guests: list[Guest], numbers: Iterable[int]) -> list[host_schedules.Schedule]:
    """The schedules of those numbers."""
    return [each for at_once in numbers_of(guests, numbers) for each in host_schedules.orders_of(guests, at_once)]
