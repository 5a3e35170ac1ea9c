"""One guest of a host: a thread that records it in segments, and what is known of it."""

import argparse
import math
import threading
import time
from collections.abc import Callable
from typing import NamedTuple

from precopy_tools import version
from precopy_tools.formats import traces
from precopy_tools.qemu import qmp
from precopy_tools.quantities import size_text
from precopy_tools.record import command as record_command
from precopy_tools.record import memory, series, sources, watching
from precopy_tools.record.pagemap import Unavailable
from precopy_tools.record.sampled import SampledGuest, SampleRecorder

FAULTS = (OSError, ValueError, MemoryError, Unavailable, traces.Full, traces.Busy, memory.Gone, qmp.Fault)
# Numbers of guests times this are spread evenly over a second, however many there are.
GOLDEN = (math.sqrt(5) - 1) / 2
# One guest after the other is set up, which takes a processor for a moment: most of it to count so many pages.
SETTING_UP, COUNTED = threading.Lock(), 1 << 15
# The first segment of a guest has this part of its length, or more: so segments end at different times.
LEAST_PART = 0.25


class Ending:
    """Ends a recording from another thread."""

    def __init__(self):
        self.event, self.by = threading.Event(), None

    def set(self, by: str) -> None:
        self.by = by
        self.event.set()

    def sleep(self, until: float) -> None:
        self.event.wait(max(0.0, until - time.monotonic()))


class Record(NamedTuple):
    """The last whole segment of a guest: its file, when it ended, for which share of it the guest ran, if that is
    known, and how its writes were seen."""

    path: str
    ended_at: float
    ran: float | None
    method: str


class Counts(NamedTuple):
    """What was recorded of a guest until now: segments, looks, late ones, and about how many bytes were written."""

    segments: int = 0
    looks: int = 0
    late: int = 0
    dirtied: float = 0.0

    def plus(self, recorder: SampleRecorder, segments: int) -> "Counts":
        """With what a recorder has of its segment."""
        written = max(0, recorder.writer.writes - recorder.first_nonzero) * memory.PAGE * recorder.weight()
        return Counts(
            self.segments + segments, self.looks + recorder.samples, self.late + recorder.late, self.dirtied + written
        )


class Pacing(NamedTuple):
    """How a guest is recorded: words of tools/record, how long segments are, how often it is asked whether it runs; and
    the interval that all guests have, by what looks cost."""

    words: list[str]
    segment: float
    ask_every: float
    interval: Callable[[], float]


class Guest:
    """A guest by its name and its number on this host. `runs` tells whether it runs now."""

    def __init__(self, name: str, number: int, pacing: Pacing, runs: Callable[[], bool | None], recorded: Callable):
        self.name, self.pacing, self.runs, self.recorded = name, pacing, runs, recorded
        self.phase = number * GOLDEN % 1
        self.counts = self.shown = Counts()
        self.record, self.recorder, self.counted = None, None, None
        self.look_seconds, self.fault, self.ended_at = None, None, -math.inf
        self.thread: threading.Thread | None = None
        self.ending = Ending()

    # ---- Called by the thread of the service.

    @property
    def is_recorded(self) -> bool:
        return self.thread is not None and self.thread.is_alive()

    def begin(self, source: list[str], output: str) -> None:
        """Records this guest, in a thread, until it ends or `end` is called."""
        self.ending = Ending()
        self.thread = threading.Thread(target=self._run, args=(source, output), name=self.name, daemon=True)
        self.thread.start()

    def end(self, by: str) -> None:
        self.ending.set(by)

    def told(self) -> Counts:
        """What was recorded until now, with the segment that is written. No number of it ever goes down."""
        now = self.counts.plus(self.recorder, 0) if self._is_open() else self.counts
        self.shown = Counts(*map(max, self.shown, now))
        return self.shown

    def _is_open(self) -> bool:
        """Whether there is a segment, with a first look, that `counts` does not have yet."""
        recorder = self.recorder
        return recorder is not None and recorder.samples > 0 and recorder.writer is not self.counted

    # ---- Called by the guest's own thread.

    def _run(self, source: list[str], output: str) -> None:
        options = record_command.options_of([*source, *self.pacing.words, output])
        options.every = self.pacing.interval()
        options.segment = self.pacing.segment * (LEAST_PART + (1 - LEAST_PART) * self.phase)
        recording = series.Recording(
            options, traces.Limits(), self.ending, self._recorder_of(options), self._tell(options)
        )
        try:
            fault = recording.run()
        except FAULTS as found:
            fault = found
        finally:
            self._stop()
        if self.ending.by is None:
            self._complain(fault)

    def _stop(self) -> None:
        if self._is_open():
            self._count(self.recorder, 0)
        self.recorder, self.ended_at = None, time.monotonic()

    def _count(self, recorder: SampleRecorder, segments: int) -> None:
        self.counted = recorder.writer
        self.counts = self.counts.plus(recorder, segments)

    def _complain(self, fault: BaseException | None) -> None:
        """Says why the recording ended, once for each kind of cause."""
        told = record_command.cause_of(fault) if fault is not None else "the recording ended"
        kind = f"{type(fault).__name__} {told.partition(':')[0]}"
        if kind != self.fault:
            version.complain("watch", f"{self.name}: {told}")
        self.fault = kind

    def _recorder_of(self, options: argparse.Namespace) -> Callable[[traces.Writer], SampleRecorder]:
        def made(writer: traces.Writer) -> SampleRecorder:
            source = sources.source_of(options)
            watch = watching.Watch(source.process, self.runs, self.pacing.ask_every)
            try:
                with SETTING_UP:
                    drawn = SampledGuest(options, source)
                    drawn.most_counted = COUNTED
                    recorder = SampleRecorder(drawn, writer, options, watch)
            except BaseException:
                watch.end()
                raise
            self.ending.sleep(self._moment(options.every))
            return recorder

        return made

    def _moment(self, interval: float) -> float:
        """When this guest's first look is due, so that those of all guests are spread over the interval."""
        now = time.monotonic()
        return now + (self.phase * interval - now) % interval

    def _tell(self, options: argparse.Namespace) -> Callable:
        spent = time.thread_time()

        def told(recorder: SampleRecorder, path: str | None = None, ended_by=None) -> None:
            nonlocal spent
            if path is None:
                self._begun(recorder)
            else:
                self.look_seconds = (time.thread_time() - spent) / max(1, recorder.samples)
                self._segment(recorder, path)
                options.every, options.segment = self.pacing.interval(), self.pacing.segment
            spent = time.thread_time()

        return told

    def _begun(self, recorder: SampleRecorder) -> None:
        self.recorder, self.fault = recorder, None
        size = size_text(recorder.guest.count * memory.PAGE)
        drawn = f"{len(recorder.guest.numbers):,} pages of {size} drawn, by {recorder.method}"
        cause = f", since writes cannot be followed: {recorder.cause}" if recorder.cause else ""
        print(f"{self.name}: {drawn}{cause}", flush=True)

    def _segment(self, recorder: SampleRecorder, path: str) -> None:
        """A segment is whole."""
        self._count(recorder, 1)
        self.record = Record(path, time.time(), recorder.ran, recorder.method)
        self.recorded(self)
