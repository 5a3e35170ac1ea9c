"""What is told of the guests and of the service, in Prometheus' text format, for a textfile collector.

Names and units are as Prometheus has them: base units, `_total` of what only grows, and moments in place of ages. What
is not known has no line.
"""

import os
from collections.abc import Iterable, Iterator
from typing import NamedTuple

from precopy_tools.formats import traces
from precopy_tools.watch.guest import Guest
from precopy_tools.watch.predicting import UNKNOWN, VERDICTS, Prediction

METHODS = ("writes", "values")
PAGE_SIZE = os.sysconf("SC_PAGE_SIZE")
ESCAPES = str.maketrans({"\\": "\\\\", '"': '\\"', "\n": "\\n"})
# The name, the type and the help of each metric, in the order in which they are written.
METRICS = {
    "precopy_guest_dirtied_bytes_total": (
        "counter",
        "Estimate of the bytes of pages that the guest wrote; a page counts once for each interval of looks.",
    ),
    "precopy_guest_verdict": (
        "gauge",
        "Whether a migration from where the last record begins keeps the guest's limits: 1 for the one that holds.",
    ),
    "precopy_guest_predicted_duration_seconds": ("gauge", "Predicted time of that migration."),
    "precopy_guest_predicted_sent_bytes": ("gauge", "Predicted bytes of that migration."),
    "precopy_guest_predicted_downtime_seconds": ("gauge", "Predicted downtime of that migration."),
    "precopy_guest_kept_starts_ratio": (
        "gauge",
        "Of the starts within the last record whose migration ends within it, those that keep the limit of downtime.",
    ),
    "precopy_guest_converging_redraws_ratio": (
        "gauge",
        "Of the redraws of the last record's pages, those whose migration converges.",
    ),
    "precopy_guest_downtime_limit_seconds": ("gauge", "The longest downtime that the guest's limits allow."),
    "precopy_guest_duration_limit_seconds": ("gauge", "The longest time that the guest's limits allow."),
    "precopy_guest_link_bytes_per_second": ("gauge", "The rate at which the prediction sends the guest's pages."),
    "precopy_guest_ran_ratio": ("gauge", "The share of the last record in which the guest ran."),
    "precopy_guest_recording": ("gauge", "Whether the guest is recorded now."),
    "precopy_guest_method": ("gauge", "How the last record saw writes: 1 for the one that it was."),
    "precopy_guest_last_record_timestamp_seconds": ("gauge", "When the last whole record ended, in Unix time."),
    "precopy_guest_records_total": ("counter", "Whole records of the guest."),
    "precopy_guest_looks_total": ("counter", "Looks at the guest."),
    "precopy_guest_late_looks_total": ("counter", "Looks that began more than half an interval late."),
    "precopy_watch_guests": ("gauge", "Guests of the host that are watched."),
    "precopy_watch_host_up": ("gauge", "Whether the host told its guests when it was asked last."),
    "precopy_watch_look_interval_seconds": ("gauge", "The interval of looks that the next records have."),
    "precopy_watch_predictions_total": ("counter", "Predictions that were tried."),
    "precopy_watch_failed_predictions_total": ("counter", "Predictions that could not be made."),
    "precopy_watch_cpu_seconds_total": ("counter", "Processor time of the service, with what it runs."),
    "precopy_watch_resident_memory_bytes": ("gauge", "Memory of the service."),
    "precopy_watch_start_timestamp_seconds": ("gauge", "When the service began, in Unix time."),
    "precopy_watch_last_write_timestamp_seconds": ("gauge", "When these lines were written, in Unix time."),
}


class Line(NamedTuple):
    """A value of a metric, with the names and values of its labels."""

    metric: str
    value: float
    labels: tuple[tuple[str, str], ...] = ()

    def text(self) -> str:
        labels = ",".join(f'{name}="{value.translate(ESCAPES)}"' for name, value in self.labels)
        return f"{self.metric}{f'{{{labels}}}' if labels else ''} {number(self.value)}"


def number(value: float) -> str:
    return str(int(value)) if value == int(value) else repr(float(value))


def states(metric: str, name: str, known: Iterable[str], state: str) -> Iterator[Line]:
    label = metric.rpartition("_")[2]
    return (Line(metric, float(each == state), (("guest", name), (label, each))) for each in known)


def of_prediction(name: str, found: Prediction) -> Iterator[Line]:
    limits = found.limits
    for metric, value in (
        ("precopy_guest_predicted_duration_seconds", found.seconds),
        ("precopy_guest_predicted_sent_bytes", found.sent),
        ("precopy_guest_predicted_downtime_seconds", found.downtime),
        ("precopy_guest_kept_starts_ratio", found.kept_starts),
        ("precopy_guest_converging_redraws_ratio", found.converging_redraws),
        ("precopy_guest_downtime_limit_seconds", limits.downtime),
        ("precopy_guest_duration_limit_seconds", limits.time),
        ("precopy_guest_link_bytes_per_second", limits.link),
    ):
        if value is not None:
            yield Line(metric, value, (("guest", name),))


def of_guest(guest: Guest, found: Prediction | None) -> Iterator[Line]:
    """All that is known of a guest."""
    name, counts, record = guest.name, guest.told(), guest.record
    values = {
        "precopy_guest_dirtied_bytes_total": counts.dirtied,
        "precopy_guest_recording": float(guest.recorder is not None),
        "precopy_guest_records_total": counts.segments,
        "precopy_guest_looks_total": counts.looks,
        "precopy_guest_late_looks_total": counts.late,
    }
    if record is not None:
        values["precopy_guest_last_record_timestamp_seconds"] = record.ended_at
        yield from states("precopy_guest_method", name, METHODS, record.method)
    if record is not None and record.ran is not None:
        values["precopy_guest_ran_ratio"] = record.ran
    yield from (Line(metric, value, (("guest", name),)) for metric, value in values.items())
    yield from states("precopy_guest_verdict", name, VERDICTS, found.verdict if found else UNKNOWN)
    yield from of_prediction(name, found) if found else ()


def resident_bytes() -> int:
    with open("/proc/self/statm", encoding="ascii") as file:
        return int(file.read().split()[1]) * PAGE_SIZE


def cost() -> dict[str, float]:
    """What the service takes."""
    return {
        "precopy_watch_cpu_seconds_total": round(sum(os.times()[:4]), 6),
        "precopy_watch_resident_memory_bytes": resident_bytes(),
    }


def text_of(lines: Iterable[Line]) -> str:
    """The whole text: the lines of a metric together, below its help and its type."""
    of_metric: dict[str, list[Line]] = {name: [] for name in METRICS}
    for line in lines:
        of_metric[line.metric].append(line)
    found = []
    for name, (kind, told) in METRICS.items():
        if of_metric[name]:
            found += [f"# HELP {name} {told}", f"# TYPE {name} {kind}", *(line.text() for line in of_metric[name])]
    return "\n".join([*found, ""])


def write(path: str, text: str) -> None:
    """Puts the text in the place of the one before, in one step. Others may read it."""
    with traces.Pending(path) as file:
        os.fchmod(file.descriptor, 0o644)
        file.write(text.encode())
        file.finish()
