"""What `precopy-view predict` says of a migration whose hypervisor looks at its dirty bitmap as QEMU does, by
docs/COMMANDS.md. Plans are made page by page, by python/precopy_dev/models/looks.py."""

from fractions import Fraction
from typing import NamedTuple, Optional

from checks.lib.amount_texts import size_text, time_text
from precopy_dev.models import looks

WINDOW = 100_000  # how often QEMU asks how many pages are left, in microseconds


class Forecast(NamedTuple):
    """How many looks there are, whether the guest is stopped within the trace; times in microseconds, and bytes."""

    looks: int
    ends: bool
    time: int
    sent: int
    left: int
    downtime: int
    is_kept: bool

    def lines(self) -> list[str]:
        if not self.ends:
            amounts = f"sent {size_text(self.sent - self.left)}, left {size_text(self.left)}"
            return [f"like QEMU: the trace ends first, looks {self.looks}, {amounts}"]
        down = f"downtime {time_text(self.downtime)}, {'kept' if self.is_kept else 'not kept'}"
        return [f"like QEMU: looks {self.looks}, time {time_text(self.time)}, sent {size_text(self.sent)}, {down}"]

    def member(self) -> dict:
        if not self.ends:
            return {"looks": self.looks, "sent_bytes": self.sent - self.left, "left_bytes": self.left}
        time, down = Fraction(self.time, 1_000_000), Fraction(self.downtime, 1_000_000)
        costs = {"time_seconds": time, "sent_bytes": self.sent, "down_seconds": down}
        return {"looks": self.looks, **costs, "kept": self.is_kept}


def forecast(asked, trace) -> Optional[Forecast]:
    """What is said of a question about a trace, or nothing if it begins after its last tick."""
    if asked.start > trace.last:
        return None
    rate = asked.rates()[0]
    window, threshold = WINDOW // asked.tick, asked.threshold()
    settings = looks.Settings(rate, window, threshold, trace.last, asked.start, asked.base)
    plan = looks.plan(trace.pages, trace.writes, settings)
    left, ends = len(plan.last), plan.reason == "few"
    downtime = plan.down * asked.tick + asked.reserve
    time = (plan.stop - asked.start) * asked.tick + downtime
    sent = asked.bytes_of(plan.sent() + left)
    count = len(plan.lists) - (not ends)
    return Forecast(count, ends, time, sent, asked.bytes_of(left), downtime, downtime <= asked.downtime)


def beside(asked, trace) -> Optional[Forecast]:
    """What is said beside a plan. A plan of looks says the same, but for what is sent and left if the trace ends
    first."""
    told = forecast(asked, trace)
    return told if told and (asked.clark or not told.ends) else None


def look_lines(asked, trace) -> list[str]:
    told = beside(asked, trace)
    return told.lines() if told else []


def look_member(asked, trace) -> dict:
    told = beside(asked, trace)
    return {"like_qemu": told.member()} if told else {}
