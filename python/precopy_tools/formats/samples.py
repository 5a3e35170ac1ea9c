"""Samples of a guest's pages: drawing them, and the file NAME.json beside the trace of a sample.

Pages are drawn once, without replacement. One page of the sample stands for `weight` pages of the guest: the pages of
the guest that are not zero, divided by those of the sample.
"""

import dataclasses
import datetime
import hashlib
import json
import os
import random

from precopy_tools import refusals, version
from precopy_tools.formats import traces
from precopy_tools.refusals import Refused

FORMAT = "precopy sample 1"
MOST_PAGES = traces.Limits().pages
DEFAULT_PAGES = 16_384
# At most this many pages of the guest are looked at, to know how many are not zero.
MOST_COUNTED = 1 << 18
MOST = 1 << 53
MOST_TEXT = 4096
METHODS = ("writes", "values", "trace")
# A guest that ran for less of the time than this was not recorded as it is.
LEAST_SHARE = 0.99


def draw(pages: int, wanted: int, seed: int) -> list[int]:
    """`wanted` of the pages 0 to pages - 1, drawn without replacement, in order."""
    return sorted(random.Random(seed).sample(range(pages), min(wanted, pages)))


def path_beside(trace_path: str) -> str:
    """NAME.json for a trace NAME.pcwt."""
    return trace_path.removesuffix(".pcwt") + ".json"


def digest(text: bytes) -> str:
    return hashlib.sha256(text).hexdigest()


def now(ago: float = 0.0) -> str:
    """What the clock says now, or so many seconds before."""
    moment = datetime.datetime.now(datetime.timezone.utc) - datetime.timedelta(seconds=ago)
    return moment.isoformat(timespec="seconds")


@dataclasses.dataclass(frozen=True)
class Sample:
    """What NAME.json says, in its order. Numbers are whole and below 2^53, but for two lengths of time and a share."""

    format: str
    trace_sha256: str
    trace_pages: int
    trace_writes: int
    first_tick: int  # sampling began there; earlier writes are the guest as it was found
    last_tick: int  # of the last sample
    tick_seconds: float
    interval_seconds: float
    guest_pages: int
    guest_nonzero: int  # estimated from the pages counted
    counted_pages: int
    sampled_pages: int
    sampled_nonzero: int
    seed: int
    method: str  # writes, values, or trace: pages of a whole trace
    samples: int
    late: int
    taken_at: str
    taken_of: str
    # The share of the time for which the guest ran. Recordings of earlier versions do not tell it.
    ran_share: float | None = None

    @property
    def stood_still(self) -> bool:
        """Whether the guest stood still for so long that nothing can be said of its migration."""
        return self.ran_share is not None and self.ran_share < LEAST_SHARE

    def still_text(self) -> str:
        """For how much of the time it stood still."""
        return f"{100 * (1 - (self.ran_share or 0.0)):.1f} per cent"

    @property
    def weight(self) -> float:
        """How many pages of the guest one page of the sample stands for."""
        if self.sampled_nonzero and self.guest_nonzero:
            return self.guest_nonzero / self.sampled_nonzero
        return self.guest_pages / self.sampled_pages

    def text(self) -> bytes:
        told = {name: value for name, value in dataclasses.asdict(self).items() if value is not None}
        return (json.dumps(told, indent=2) + "\n").encode()


def of_all_pages(path: str, trace: traces.Trace, ticks: tuple[int, int], length: float, seed: int = 0) -> Sample:
    """The sample of all pages of a trace that no file describes: its first and last tick, and the length of a tick."""
    pages = ("trace_pages", "guest_pages", "guest_nonzero", "counted_pages", "sampled_pages", "sampled_nonzero")
    return Sample(
        format=FORMAT,
        trace_sha256=digest(trace.text),
        trace_writes=trace.writes,
        first_tick=ticks[0],
        last_tick=ticks[1],
        tick_seconds=length,
        interval_seconds=length,
        seed=seed,
        method="trace",
        samples=1,
        late=0,
        taken_at=now(),
        taken_of=f"trace {os.path.basename(path)}",
        **dict.fromkeys(pages, trace.pages),
    )


def is_number(value: object, least: int) -> bool:
    return type(value) is int and least <= value < MOST


def is_time(value: object) -> bool:
    return type(value) in (int, float) and 0 < value < 1e9


def is_share(value: object) -> bool:
    return type(value) in (int, float) and 0 <= value <= 1


def is_moment(value: object) -> bool:
    try:
        return datetime.datetime.fromisoformat(value).tzinfo is not None
    except (TypeError, ValueError):
        return False


# What a field must be by itself.
FIELDS = {
    "format": ("precopy sample 1", lambda value: value == FORMAT),
    "trace_sha256": ("64 digits", lambda value: isinstance(value, str) and len(value) == 64),
    "trace_pages": ("a number from 1", lambda value: is_number(value, 1)),
    "trace_writes": ("a number", lambda value: is_number(value, 0)),
    "first_tick": ("a number", lambda value: is_number(value, 0)),
    "last_tick": ("a number", lambda value: is_number(value, 0)),
    "tick_seconds": ("a length of time", is_time),
    "interval_seconds": ("a length of time", is_time),
    "guest_pages": ("a number from 1", lambda value: is_number(value, 1)),
    "guest_nonzero": ("a number", lambda value: is_number(value, 0)),
    "counted_pages": ("a number from 1", lambda value: is_number(value, 1)),
    "sampled_pages": ("a number from 1", lambda value: is_number(value, 1)),
    "sampled_nonzero": ("a number", lambda value: is_number(value, 0)),
    "seed": ("a number", lambda value: is_number(value, 0)),
    "method": ("writes, values or trace", lambda value: value in METHODS),
    "samples": ("a number from 1", lambda value: is_number(value, 1)),
    "late": ("a number", lambda value: is_number(value, 0)),
    "taken_at": ("a time with its zone", is_moment),
    "taken_of": ("a text", lambda value: isinstance(value, str) and value != ""),
    "ran_share": ("a number from 0 to 1", is_share),
}
OPTIONAL = {"ran_share"}


def rules_of(sample: Sample, trace: traces.Trace, written: list[tuple[int, int]]) -> list[tuple[str, bool]]:
    """What fields must be, by one another and by the trace; each rule names its fields."""
    found = {page for tick, page in written if tick < sample.first_tick}
    last = written[-1][0] if written else 0
    is_recorded = sample.method != "trace"
    early = is_recorded and any(0 < tick < sample.first_tick for tick, _ in written)
    nonzero = len(found) if is_recorded else trace.pages
    digest_fits = sample.trace_sha256 == digest(trace.text)
    sampled, guest = sample.sampled_pages, sample.guest_pages
    return [
        ("trace_pages is the number of the trace", sample.trace_pages == trace.pages),
        ("trace_writes is the number of the trace", sample.trace_writes == trace.writes),
        ("trace_sha256 is the SHA-256 of the trace", digest_fits),
        (
            "first_tick is at most last_tick, and no write but those of tick 0 is before it",
            sample.first_tick <= sample.last_tick and not early,
        ),
        ("last_tick is not before the last write", last <= sample.last_tick),
        ("interval_seconds is tick_seconds or more", sample.interval_seconds >= sample.tick_seconds),
        ("sampled_pages is from trace_pages up to guest_pages", trace.pages <= sampled <= min(guest, MOST_PAGES)),
        ("counted_pages is from sampled_pages up to guest_pages", sampled <= sample.counted_pages <= guest),
        ("sampled_nonzero is the number of pages that the trace finds", sample.sampled_nonzero == nonzero),
        ("guest_nonzero is from sampled_nonzero up to guest_pages", nonzero <= sample.guest_nonzero <= guest),
        ("late is at most samples", sample.late <= sample.samples),
        ("samples is at most last_tick and one", sample.samples <= sample.last_tick + 1),
    ]


def parsed(path: str) -> Sample:
    """The fields of a file, each tested by itself."""
    fields = refusals.object_in(path, FIELDS, "field")
    for name, (wanted, holds) in FIELDS.items():
        if name not in fields and name in OPTIONAL:
            continue
        if name not in fields:
            raise Refused(f"{path}: the field {name} is missing")
        if not holds(fields[name]):
            raise Refused(f"{path}: {name} is not {wanted}: {fields[name]!r}")
    return Sample(**fields)


def read(trace_path: str, trace: traces.Trace, written: list[tuple[int, int]], elsewhere: str | None = None) -> Sample:
    """The sample in the file beside a trace, or elsewhere; the writes of the trace are these ticks and pages."""
    path = elsewhere or path_beside(trace_path)
    try:
        sample = parsed(path)
    except FileNotFoundError as fault:
        if elsewhere:
            raise
        told = f"{version.called('record')} writes one if it draws pages, and precopy-view predict plans without it"
        raise Refused(f"{trace_path}: there is no {path} beside it: {told}") from fault
    for rule, holds in rules_of(sample, trace, written):
        if not holds:
            named = [f"{name} = {getattr(sample, name)!r}" for name in FIELDS if name in rule.split(" ")]
            raise Refused(f"{path} does not fit: {', '.join(named)}, where {rule}")
    return sample


def thinned(base: Sample, records: list, one_in: int, seed: int) -> tuple[Sample, list]:
    """The sample of a sample, and its records. The digest is that of the old trace still."""
    drawn = draw(base.sampled_pages, max(1, base.sampled_pages // one_in), seed)
    number_of = {page: number for number, page in enumerate(page for page in drawn if page < base.trace_pages)}
    kept = [(tick, number_of[page], *rest) for tick, page, *rest in records if page in number_of]
    pages = max(1, len(number_of))
    found = {page for tick, page, *_ in kept if tick < base.first_tick}
    thin = dataclasses.replace(
        base,
        trace_pages=pages,
        trace_writes=len(kept),
        sampled_pages=len(drawn),
        seed=seed,
        sampled_nonzero=pages if base.method == "trace" else len(found),
    )
    return thin, kept


class Beside(traces.Pending):
    """NAME.json beside a trace, with room for its text from the beginning: a disk that fills up meanwhile has it."""

    def __init__(self, trace_path: str):
        super().__init__(path_beside(trace_path))
        try:
            os.posix_fallocate(self.descriptor, 0, MOST_TEXT)
        except OSError as fault:
            self.discard()
            raise OSError(fault.errno, fault.strerror, self.path) from fault

    def put(self, sample: Sample) -> None:
        """Its whole text. finish() gives it its name."""
        text = sample.text()
        self.write(text)
        os.ftruncate(self.descriptor, len(text))
