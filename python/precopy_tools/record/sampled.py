"""Recordings of a sample of a guest's pages: which pages were written in each interval, and none of their bytes."""

import contextlib
import os
import time

from precopy_tools.formats import samples, traces
from precopy_tools.record import mappings, page_values, pagemap, watching
from precopy_tools.record.memory import PAGE
from precopy_tools.record.ticks import FIRST, spread

WRITE = b"\x01"


class SampledGuest:
    """The pages of a guest that are watched: drawn from a file, or from the memory of a process."""

    def __init__(self, options, source):
        self.options, self.source, self.process, self.of = options, source, source.process, source.of
        self.most_counted = samples.MOST_COUNTED
        self.seed = options.seed if options.seed is not None else int.from_bytes(os.urandom(4), "little")
        if source.path:
            self._open_file(source.path)
        else:
            self.ranges = source.ranges or mappings.chosen(source.process, ["all"])
            self.pages = page_values.ProcessPages(source.process)
        with contextlib.ExitStack() as opened:
            opened.callback(self.pages.close)
            self.numbers = samples.draw(self.count, self._wanted(), self.seed)
            self.places = mappings.places_of(self.ranges, self.numbers)
            opened.pop_all()

    def _open_file(self, path):
        descriptor = os.open(path, os.O_RDONLY | os.O_CLOEXEC)
        size = os.fstat(descriptor).st_size
        if size == 0 or size % PAGE:
            raise ValueError(f"{path} has {size} bytes, which are no whole pages of {PAGE}")
        self.ranges, self.pages = [(0, size)], page_values.FilePages(descriptor, size)

    @property
    def count(self):
        return sum(end - begin for begin, end in self.ranges) // PAGE

    def _wanted(self):
        """How many pages are sampled: as asked, and by default all if they fit the default."""
        if not self.options.one_in:
            return self.options.pages or samples.DEFAULT_PAGES
        wanted = max(1, self.count // self.options.one_in)
        if wanted > samples.MOST_PAGES:
            least = -(-self.count // samples.MOST_PAGES)
            raise ValueError(f"one in {self.options.one_in} of {self.count:,} pages is too many: --one-in {least}")
        return wanted

    def tracker(self):
        """What finds out which sampled pages were written, the name of its method, and why it is not the other one."""
        if self.options.by == "values" or self.options.file:
            return page_values.ChangedPages(self.pages, self.places), "values", None
        try:
            tracker = pagemap.WrittenPages(self.process, self.ranges, self.places, self.options.scan)
            return tracker, "writes", None
        except pagemap.Unavailable as cause:
            if self.options.by == "writes":
                raise
            return page_values.ChangedPages(self.pages, self.places), "values", cause

    def is_set(self, place):
        """Whether a page has a byte that is not zero."""
        return self.pages.is_there(place) and self.pages.page(place) != page_values.ZERO_PAGE

    def nonzero(self):
        """About how many pages of the guest are not zero, and of how many pages that is known."""
        counted = samples.draw(self.count, max(self.most_counted, len(self.numbers)), self.seed + 1)
        found = sum(map(self.is_set, mappings.places_of(self.ranges, counted)))
        return round(self.count * found / len(counted)), len(counted)


class SampleRecorder:
    """Takes samples of the drawn pages into a writer. Pages are numbered by their first write."""

    def __init__(self, guest, writer, options, watch=None):
        """`watch` says whether the guest runs, if that is asked elsewhere."""
        self.guest, self.options = guest, options
        with contextlib.ExitStack() as opened:
            opened.callback(guest.pages.close)
            self.tracker, self.method, self.cause = guest.tracker()
            opened.callback(self.tracker.close)
            self.nonzero, self.counted = guest.nonzero()
            self.opened = opened.pop_all()
        self.first_nonzero, self.is_later = 0, False
        self.unwritten, self.carried = [], []
        self.looked_at = time.monotonic()
        self.watch = watch or watching.Watch(guest.process, watching.asking(options.qmp, options.domain))
        self._begin(writer)

    def _begin(self, writer):
        self.samples = self.last = self.late = 0
        self.writer, self.numbers, self.times = writer, {}, []
        self.begun, self.still, self.ran = time.clock_gettime(time.CLOCK_BOOTTIME), "", None
        self.watch.begin_anew()

    def begin_anew(self, writer):
        """Goes on in another trace, without losing a write. Returns when the last look was, where that one begins."""
        self.is_later, self.carried, self.unwritten = True, self.unwritten, []
        self._begin(writer)
        return self.looked_at

    def pages(self):
        """How many pages the trace has: at least one, even if none is ever written."""
        return max(1, len(self.numbers))

    def guest_pages(self):
        return self.guest.count

    def weight(self):
        """How many pages of the guest a page of the sample stands for."""
        return self.sample(b"").weight

    def look(self, tick):
        """Which pages were written since the last look; at tick 0 those that are not zero."""
        begun = time.monotonic()
        if tick >= traces.TICKS:
            raise traces.Full("ticks of a trace are below 2^40")
        if tick == 0 and (self.is_later or self.method == "writes"):
            if not self.is_later:
                self.tracker.look()
            return tick, begun, [n for n, place in enumerate(self.guest.places) if self.guest.is_set(place)]
        written = self.tracker.look()
        self.looked_at = time.monotonic()
        if self.carried:
            written, self.carried = sorted({*written, *self.carried}), []
        self.unwritten = written
        return tick, begun, written

    def take(self, tick, begun, written):
        """Writes what look() saw, at ticks that are spread over the interval."""
        fresh, records, numbers = {}, [], self.numbers
        for page in written:
            number = numbers.get(page)
            if number is None:
                number = fresh[page] = len(numbers) + len(fresh)
            records.append((spread(page, self.samples, self.last, tick), number, 0, WRITE))
        if len(numbers) + len(fresh) > self.writer.limits.pages:
            raise traces.Full(f"a trace has at most {self.writer.limits.pages:,} pages")
        records.sort()
        self.writer.append(records)
        numbers.update(fresh)
        if not self.samples:
            self._found(len(fresh))
        elif written is self.unwritten:
            self.unwritten = []
        self.samples += 1
        self.last = tick
        self.times.append(time.monotonic() - begun)

    def _found(self, nonzero):
        """How many pages of the sample are not zero at first. Those of the guest are counted once; later they are as
        many times those of the sample as then."""
        if self.is_later and self.first_nonzero:
            self.nonzero = min(self.guest.count, round(self.nonzero * nonzero / self.first_nonzero))
        self.first_nonzero = nonzero

    def places(self):
        """Pages as (number in the trace, how many, place in the source)."""
        return ((number, 1, self.guest.places[page]) for page, number in self.numbers.items())

    def ran_share(self):
        """The share of the time for which the guest ran, if it is known; `still` says what is to be said of it."""
        share = self.watch.share()
        self.still, self.ran = self.watch.told(share), None if share is None else round(share, 6)
        return self.ran

    def sample(self, text):
        """What is written beside the trace, whose bytes are `text`."""
        return samples.Sample(
            format=samples.FORMAT,
            trace_sha256=samples.digest(text),
            trace_pages=self.pages(),
            trace_writes=self.writer.writes,
            first_tick=FIRST,
            last_tick=max(FIRST, self.last),
            tick_seconds=self.options.tick,
            interval_seconds=self.options.every,
            guest_pages=self.guest.count,
            guest_nonzero=max(self.nonzero, self.first_nonzero),
            counted_pages=self.counted,
            sampled_pages=len(self.guest.numbers),
            sampled_nonzero=self.first_nonzero,
            seed=self.guest.seed,
            method=self.method,
            samples=self.samples,
            late=self.late,
            # By the clock as it is now: one that was wrong may be set meanwhile.
            taken_at=samples.now(time.clock_gettime(time.CLOCK_BOOTTIME) - self.begun),
            taken_of=self.guest.of,
            ran_share=self.ran_share() if text else None,
        )

    def close(self):
        self.watch.end()
        self.opened.close()
