"""What tools/evacuate answers as JSON, as docs/evacuation.schema.json has it."""

from precopy_tools.evacuate.costs import Cost
from precopy_tools.evacuate.days import Day
from precopy_tools.evacuate.gathering import Gathered
from precopy_tools.evacuate.hours import Hour, iso_text
from precopy_tools.evacuate.schedules import Answer, Limits, Placed, Schedule
from precopy_tools.evacuate.texts import misses
from precopy_tools.predict.clark import plan_of

FORMAT = "precopy evacuation 1"


def cost_document(cost: Cost) -> dict:
    return {
        "at_once": cost.at_once,
        "link_bytes_per_second": cost.share,
        "time_seconds": cost.time / 1e6,
        "least_time_seconds": cost.least / 1e6,
        "most_time_seconds": cost.most / 1e6,
        "sent_bytes": cost.sent,
        "down_seconds": cost.downtime / 1e6,
        "converges": cost.converges,
        "kept": cost.kept,
        "missed": cost.why,
        **({"like_qemu": cost.like_qemu} if cost.like_qemu else {}),
    }


def schedule_document(schedule: Schedule, deadline: float | None) -> dict:
    return {
        "at_once": schedule.at_once,
        "order": schedule.order,
        "time_seconds": schedule.time / 1e6,
        "sent_bytes": schedule.sent,
        "down_seconds": schedule.downtime / 1e6,
        "kept": schedule.kept,
        "limits": misses(schedule, deadline),
        "guests": [guest.name for guest in schedule.guests],
    }


def move_document(move: Placed, hour: Hour, days: dict[str, list[Day]]) -> dict:
    name, cost = move.guest.name, move.cost
    told = {"guest": name, "start_seconds": move.start / 1e6, "end_seconds": move.end / 1e6, "slot": move.slot}
    if cost.shares:
        told["shares"] = [
            {"after_seconds": share.micros / 1e6, "link_bytes_per_second": share.bandwidth} for share in cost.shares
        ]
    if hour.opens:
        told |= {
            "begin": iso_text(hour.opens + move.start / 1e6),
            "held_seconds": cost.hold / 1e6,
            "record": cost.record or move.guest.record,
            "record_seconds": cost.start,
            "cost": cost_document(cost),
            "days": [day.document() for day in days.get(name, [])],
        }
    return told


def document(
    limits: Limits, found: Gathered, answer: Answer, hour: Hour, days: dict[str, list[Day]], is_fluid: bool = False
) -> dict:
    """All answers. Of a schedule of an hour there is when it opens, and of each move what it costs on each day."""
    deadline = limits.deadline
    return {
        "format": FORMAT,
        "plan": plan_of(found.asked.pace),
        **({"fluid": True} if is_fluid else {}),
        "link_bytes_per_second": limits.link,
        "downtime_seconds": limits.downtime,
        **({"deadline_seconds": deadline} if deadline else {}),
        **({"opens": iso_text(hour.opens)} if hour.opens else {}),
        "guests": [
            {
                "name": guest.name,
                "record": guest.record,
                "downtime_seconds": guest.limits.downtime,
                "costs": [cost_document(cost) for cost in guest.costs.values()],
            }
            for guest in found.guests
        ],
        "schedules": [schedule_document(each, deadline) for each in answer.schedules],
        "best": {
            "schedule": answer.schedules.index(answer.best),
            "moves": [move_document(each, hour, days) for each in answer.moves],
        },
        "refused": [{"record": path, "why": why} for path, why in found.refused],
    }
