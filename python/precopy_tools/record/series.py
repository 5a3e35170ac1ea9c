"""A series: a recording over hours in segments. Each is a whole trace with its NAME.json, named by when it began.

The segments of NAME.light.pcwt are NAME.20261127T030000Z.light.pcwt and so on, in UTC. What is written between two
segments is in the later one. A recorder that is killed loses the segment that it was writing, and no other.
"""

import contextlib
import datetime
import math
import os
import re
import time
from collections.abc import Callable

from precopy_tools.formats import samples, traces
from precopy_tools.quantities import micros_of, time_text
from precopy_tools.record import looking, memory, sources

LIGHT = ".light.pcwt"
STAMP = "%Y%m%dT%H%M%SZ"
SECOND, HOUR = datetime.timedelta(seconds=1), datetime.timedelta(hours=1)


class Series:
    """The files of a series. At most `keep` segments are left, if that is given."""

    def __init__(self, path: str, keep: int | None = None):
        self.folder, name = os.path.split(os.path.abspath(path))
        self.base, self.keep, self.last = name.removesuffix(LIGHT), keep, datetime.datetime.min
        stamped = re.escape(self.base) + r"\.(\d{8}T\d{6}Z)\.light\.(?:pcwt|json)"
        self.named, self.part = re.compile(stamped), re.compile(rf"\.{stamped}\.\w+\.part")

    def stamps(self) -> list[str]:
        """When its segments began, as their names say."""
        found = map(self.named.fullmatch, os.listdir(self.folder))
        return sorted({match[1] for match in found if match})

    def path(self, stamp: str) -> str:
        return os.path.join(self.folder, f"{self.base}.{stamp}{LIGHT}")

    def paths(self) -> list[str]:
        """Its traces, the earliest first."""
        return [path for path in map(self.path, self.stamps()) if os.path.exists(path)]

    def path_for_now(self) -> str:
        """The name of a segment that begins now, for its unfinished file."""
        return self.path(datetime.datetime.now(datetime.timezone.utc).strftime(STAMP))

    def path_for(self, begun: str) -> str:
        """A name that no segment has, for one that began then. Two segments never begin in the same second. Names rise
        also if the clock is set back, but not if it was an hour ahead or more: until it has come so far again, they
        would tell wrong hours."""
        known = set(self.stamps())
        moment = datetime.datetime.fromisoformat(begun).astimezone(datetime.timezone.utc).replace(tzinfo=None)
        self.last = max(moment, self.last + SECOND) if self.last - moment < HOUR else moment
        while self.last.strftime(STAMP) in known:
            self.last += SECOND
        return self.path(self.last.strftime(STAMP))

    def prune(self) -> None:
        """Removes the earliest segments, so that the number that is kept is left. One with a later name than the newest
        one was named by a clock that was ahead, and goes first."""
        newest = self.last.strftime(STAMP)
        stamps = sorted(self.stamps(), key=lambda stamp: (stamp <= newest, stamp))
        for stamp in stamps[: -self.keep] if self.keep else []:
            for path in (self.path(stamp), samples.path_beside(self.path(stamp))):
                with contextlib.suppress(FileNotFoundError):
                    os.unlink(path)

    def clean(self) -> int:
        """Removes the unfinished files of recorders that were killed, and returns how many there were."""
        parts = [os.path.join(self.folder, name) for name in os.listdir(self.folder) if self.part.fullmatch(name)]
        for path in parts:
            if traces.is_locked(path):
                raise traces.Busy(f"another recorder writes this series: {path}")
            with contextlib.suppress(FileNotFoundError):
                os.unlink(path)
        return len(parts)


def named(words: list[str]) -> list[str]:
    """The traces of some words: a file by its name, and the segments of a series by that of the series."""
    found = []
    for word in words:
        is_series = not os.path.exists(word) and os.path.isdir(os.path.dirname(os.path.abspath(word)))
        found += (Series(word).paths() if is_series else []) or [word]
    return found


def told(path: str, recorder, seconds: float, ended_by) -> str:
    """One line of a segment that is whole."""
    writes = f"{recorder.writer.writes:,} writes in {time_text(micros_of(seconds))}"
    looks = f"{recorder.samples} looks, {recorder.late} late"
    early = f"; ended early: {traces.told(ended_by)}" if ended_by is not None else ""
    still = f"; {recorder.still}" if recorder.still else ""
    return f"segment {os.path.basename(path)}: {writes}, {looks}{early}{still}"


class Recording:
    """A recorder of drawn pages that writes one segment after another."""

    def __init__(self, options, limits: traces.Limits, stopping, recorder_of: Callable, tell: Callable):
        self.options, self.limits, self.stopping = options, limits, stopping
        self.recorder_of, self.tell, self.recorder = recorder_of, tell, None
        self.series = Series(options.output, options.keep)
        self.count, self.end = 0, math.inf

    def _begin(self, writer: traces.Writer) -> float:
        """The first look of a segment. Returns what time tick 1000 is: in later segments, when the one before ended."""
        if self.recorder is None:
            self.recorder = self.recorder_of(writer)
            begun = looking.first(self.recorder, self.options)[1]
            if self.count == 0:
                self.end = begun + (self.options.length or math.inf)
            self.tell(self.recorder)
            return begun
        begun = self.recorder.begin_anew(writer)
        self.recorder.take(*self.recorder.look(0))
        return begun

    def segment(self):
        """Records one segment. Returns why it ended before its time, or None."""
        hidden = self.series.path_for_now()
        with traces.Writer(hidden, self.limits) as writer, samples.Beside(hidden) as beside:
            begun = self._begin(writer)
            until = min(self.end, begun + self.options.segment)
            _, ended_by = looking.go_on(self.recorder, self.options, self.stopping, begun, until)
            sample = self.recorder.sample(writer.seal(memory.SHIFT, self.recorder.pages()))
            path = writer.path = self.series.path_for(sample.taken_at)
            beside.path = samples.path_beside(path)
            beside.put(sample)
            beside.finish()
            writer.finish(memory.SHIFT, self.recorder.pages())
        self.count += 1
        looking.hide()
        print(told(path, self.recorder, self.recorder.looked_at - begun, ended_by), flush=True)
        self.tell(self.recorder, path, ended_by)
        self.series.prune()
        self._follow_changes()
        return ended_by

    def _follow_changes(self) -> None:
        """If memory was plugged in or taken away, the next segment is of the memory that the guest has then."""
        if sources.has_changed(self.options, self.recorder.guest.source):
            print("memory: the guest has other memory now, and pages are drawn anew")
            self.recorder.close()
            self.recorder = None

    def goes_on(self, ended_by) -> bool:
        """A segment that is full is followed by the next one, if it had room for more than its first look."""
        is_full = isinstance(ended_by, traces.Full) and not isinstance(ended_by, traces.NoRoom)
        return ended_by is None or is_full and (self.recorder is None or self.recorder.samples > 1)

    def run(self):
        """Records segments until the time is over, a signal comes, or one ends for good. Returns why, or None."""
        if removed := self.series.clean():
            print(f"removed: {removed} unfinished files of a recorder that was killed")
        try:
            while True:
                ended_by = self.segment()
                if self.stopping.by or not self.goes_on(ended_by):
                    return None if self.stopping.by else ended_by
                if time.monotonic() >= self.end:
                    return None
        except (traces.Full, memory.Gone, OSError, MemoryError) as fault:
            if not self.count:
                raise
            return fault
        finally:
            if self.recorder is not None:
                self.recorder.close()
