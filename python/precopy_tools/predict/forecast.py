"""What is asked of `precopy-view` about a recording: the trace that it plans, and the words of the limits.

The program works out all that is told of a migration; here a recording is only converted. Its ticks are counted from
the first look on, and the pages that this found are left out. Rates are whole numbers, rounded down, so ticks are made
longer if a rate would be small. A last write says how long the recording lasts.
"""

import datetime
import struct
from typing import NamedTuple

from precopy_tools.formats import samples, traces
from precopy_tools.predict import plans
from precopy_tools.predict.clark import Pace

FACTORS = (1, 2, 5, 10, 20)
LEAST_RATE = 500
LONGEST_TICK = 1_000_000
RECORD = struct.Struct("<QIHHB")
WORDS = ("precopy live ", "QEMU: ", "libvirt: ")
ALL_FIT = f"{plans.MOST_THRESHOLD - 1:,} pages of the sample go over the link in it"


class Link(NamedTuple):
    """Bytes a second that a migration reaches, and the limit of its downtime in seconds."""

    bandwidth: float
    downtime: float


def encoded(pages: int, writes: list[tuple[int, int]], page_size: int) -> bytes:
    """A light trace of so many pages, with these ticks and pages of writes."""
    header = traces.MAGIC + bytes([traces.PLAIN, page_size.bit_length() - 1, 0, 0])
    return header + struct.pack("<II", pages, len(writes)) + b"".join(RECORD.pack(*write, 0, 1, 1) for write in writes)


class Forecast:
    """The question about one recording, whose writes have these ticks and pages. It goes by Clark's rounds if these
    have a pace, and else by a hypervisor's looks."""

    def __init__(
        self,
        program: str,
        sample: samples.Sample,
        page_size: int,
        records: list[tuple[int, int]],
        pace: Pace | None = None,
    ):
        self.program, self.sample, self.page_size, self.pace = program, sample, page_size, pace
        self.writes = [(tick - sample.first_tick, page) for tick, page in records if tick >= sample.first_tick]
        self.start, self.base, self.texts = 0, None, {}

    def begin_after(self, seconds: float) -> None:
        """Plans begin so long after the first look."""
        self.start = round(seconds / self.sample.tick_seconds)

    def begin_with(self, base: int | None) -> None:
        """The destination has a copy of the guest, of a tick up to the first look. One of tick 0 is of before what a
        recorder finds, so it is none."""
        self.base = None if base == 0 < self.sample.first_tick else base

    def last(self, factor: int) -> int:
        """The tick of the last look, in longer ticks."""
        return (self.sample.last_tick - self.sample.first_tick) // factor

    def tick(self) -> int:
        """The length of a tick of the recording, in microseconds."""
        tick = round(1e6 * self.sample.tick_seconds)
        if abs(tick - 1e6 * self.sample.tick_seconds) > 1e-6 or not 1 <= tick <= LONGEST_TICK:
            raise plans.Failed(f"ticks of {self.sample.tick_seconds:g} s are not 1 to {LONGEST_TICK:,} microseconds")
        return tick

    def scale(self, factor: int) -> plans.Scale:
        """What a trace in longer ticks stands for. Its pages are drawn from those of the guest that are not zero, whose
        number NAME.json has from a larger count; so chance does not move how many of them there are."""
        pages = self.sample.trace_pages
        return plans.Scale(self.tick() * factor, self.page_size, pages, max(pages, round(pages * self.sample.weight)))

    def most_link(self) -> float:
        """The most bytes a second that a plan can have."""
        return float(self.scale(1).most())

    def fitting(self, downtime: float) -> list[int]:
        """By how much ticks may be made longer if a limit of the downtime has whole ones."""
        limit, tick = round(1e6 * downtime), self.tick()
        return [each for each in FACTORS if limit % (tick * each) == 0 and tick * each <= LONGEST_TICK] or [1]

    def longer(self, bandwidth: float, fitting: list[int]) -> int:
        """By how much ticks are made longer: for a rate of 500 or more, if one of these is enough."""
        rate = self.scale(1).rate(bandwidth)
        return next((factor for factor in fitting if rate * factor >= LEAST_RATE), fitting[-1])

    def factor(self, link: Link) -> int:
        """By how much ticks are made longer for a link."""
        return self.longer(link.bandwidth, self.fitting(link.downtime))

    def text(self, factor: int) -> bytes:
        """The trace in longer ticks. Of several writes to a page in a tick one stays. A write at the last look, which
        no plan that stops by then counts, says that the recording lasts so long."""
        if factor not in self.texts:
            last = self.last(factor)
            writes = list(dict.fromkeys((tick // factor, page) for tick, page in self.writes))
            if len(writes) < traces.Limits().writes and (not writes or writes[-1][0] < last):
                writes.append((last, 0))
            self.texts[factor] = encoded(self.sample.trace_pages, writes, self.page_size)
        return self.texts[factor]

    def limits(self, link: Link) -> tuple[int, list[str]]:
        """By how much ticks are made longer, and the words of the limits."""
        factor = self.factor(link)
        warm = [] if self.base is None else ["--base", "0"]
        return factor, [*plans.limits(*link, self.scale(factor)), *warm]

    def manner(self, link: Link, factor: int) -> list[str]:
        """The words that say by whose plan it goes."""
        return [] if self.pace is None else ["--clark", *self.pace.words(link.bandwidth, factor)]

    def words(self, link: Link) -> tuple[int, list[str]]:
        """By how much ticks are made longer, and the words of the limits, of the plan and of the start."""
        factor, words = self.limits(link)
        return factor, [*words, *self.manner(link, factor), "--start", str(self.start // factor)]

    def lines(self, link: Link) -> tuple[int, list[str]]:
        """The status and the lines of `precopy-view predict`, but for the words of a live run. If the downtime limit is
        longer than a plan takes, there are no words for hypervisors: they would have a shorter one."""
        factor, words = self.words(link)
        status, text = plans.answered(self.program, ["predict", *words], self.text(factor))
        is_whole = f"{round(1e6 * link.downtime)}us" in words
        others = ("precopy live ",) if is_whole else WORDS
        lines = [line for line in text.splitlines() if not line.startswith(others)]
        return status, lines if is_whole else [*lines, f"a plan takes no longer limit than that: {ALL_FIT}"]

    def told(self, link: Link) -> dict:
        """What `precopy-view json predict` tells."""
        factor, words = self.words(link)
        return plans.document(self.program, ["predict", *words], self.text(factor))

    def plan(self, link: Link) -> dict:
        """What `precopy-view json report` tells of Clark's rounds and the stop, also if the recording ends before."""
        factor, words = self.limits(link)
        words += [*(self.pace or Pace()).words(link.bandwidth, factor), "--start", str(self.start // factor)]
        return plans.document(self.program, ["report", *words, "--window", str(1 << 40)], self.text(factor))

    def words_of_starts(self, link: Link, most: int) -> tuple[int, list[str]]:
        """The words of at most so many starts, which are evenly apart."""
        factor, words = self.limits(link)
        last = self.last(factor)
        places = ["--to", str(last), "--every", str(-(-(last + 1) // most))]
        return factor, [*words, *self.manner(link, factor), *places]

    def starts(self, link: Link, most: int) -> dict:
        """What `precopy-view json when` tells of at most so many starts."""
        factor, words = self.words_of_starts(link, most)
        return plans.document(self.program, ["when", *words], self.text(factor))

    def when_text(self, link: Link, most: int) -> tuple[int, str]:
        """The status and the lines of `precopy-view when`, of the same starts."""
        factor, words = self.words_of_starts(link, most)
        return plans.answered(self.program, ["when", *words], self.text(factor))

    def seconds(self) -> float:
        """How long the recording is, from the first look to the last."""
        return (self.sample.last_tick - self.sample.first_tick) * self.sample.tick_seconds

    def moment(self, seconds: float) -> datetime.datetime:
        """When it is so long after the first look, in UTC."""
        taken = datetime.datetime.fromisoformat(self.sample.taken_at).astimezone(datetime.timezone.utc)
        return taken + datetime.timedelta(seconds=seconds)


def forecast_of(program: str, path: str, record: str | None = None, pace: Pace | None = None) -> Forecast:
    """The question about a recording in a file, with NAME.json beside it, or elsewhere."""
    trace, records = traces.read_file(path)
    written = [record[:2] for record in records]
    return Forecast(program, samples.read(path, trace, written, record), trace.size, written, pace)
