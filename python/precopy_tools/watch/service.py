"""The service: looks for guests, begins and ends their recordings, and writes what is known of all."""

import math
import os
import time
from typing import NamedTuple

from precopy_tools import version
from precopy_tools.qemu import qmp
from precopy_tools.record.looking import Stopping
from precopy_tools.watch import metrics
from precopy_tools.watch.guest import Guest, Pacing
from precopy_tools.watch.limits import File
from precopy_tools.watch.predicting import Predictor

# Of what the service may take of a processor, looks and predictions have these parts.
OF_LOOKS, OF_PREDICTIONS = 0.8, 0.2
# What a look takes for each drawn page, until it is known, in seconds.
PAGE_SECONDS = 1e-6
STEP = 0.01
# A recording that ended is tried again after so long, in looks for guests.
REST = 3
# How long threads are waited for at the end: each takes its last look, and gives its record its name.
SECONDS_TO_END = 60


class Asked(NamedTuple):
    """What the words say: the program that predicts, the folder of records, the file for Prometheus, words of
    tools/record, and how many pages, how often, how long and how much."""

    program: str
    output: str
    textfile: str
    recorder_words: list[str]
    pages: int
    every: float
    segment: float
    look: float
    processor: float


class Service:
    """All guests of a host."""

    def __init__(self, host, limits: File, asked: Asked, stopping: Stopping):
        self.host, self.limits, self.asked, self.stopping = host, limits, asked, stopping
        self.guests: dict[str, Guest] = {}
        self.running: dict[str, bool | None] = {}
        self.count, self.begun, self.fault, self.unwritten = 0, time.time(), None, None
        self.is_asked = False  # whether the host was asked for its guests
        self.predictor = Predictor(asked.program, lambda name: limits.now().of(name), OF_PREDICTIONS * asked.processor)
        self.pacing = Pacing(asked.recorder_words, asked.segment, asked.look, self.interval)

    def run(self) -> None:
        """Until a signal comes. A look may take long, so what an earlier service told ends before the first."""
        try:
            self.write()
            while self.stopping.by is None:
                begun = time.monotonic()
                self.look()
                self.write()
                self.stopping.sleep(begun + self.asked.look)
        finally:
            self._end()

    def interval(self) -> float:
        """The interval of looks at which all guests together keep to their part of a processor."""
        known = [guest.look_seconds for guest in list(self.guests.values()) if guest.is_recorded]
        whole = sum(PAGE_SECONDS * self.asked.pages if each is None else each for each in known)
        least = whole / (OF_LOOKS * self.asked.processor)
        return min(max(self.asked.every, math.ceil(least / STEP) * STEP), self.asked.segment / 4)

    def look(self) -> None:
        """Looks for guests once: begins those that have come, and ends those that have gone."""
        host, self.is_asked = self.limits.now(), True
        try:
            found = self.host.look()
        except qmp.Fault as fault:
            self._complain(str(fault))
            return
        self._complain(None)
        self.running = {name: runs for name, runs in found.items() if host.of(name).is_watched}
        for name in [name for name in self.guests if name not in self.running]:
            self._forget(name)
        for name in self.running:
            self._follow(name)

    def _complain(self, told: str | None) -> None:
        if told and told != self.fault:
            version.complain("watch", f"the guests are not told: {told}")
        self.fault = told

    def _forget(self, name: str) -> None:
        """A guest has gone: shut down, moved, or not to be watched any more."""
        self.guests.pop(name).end("the guest has gone")
        self.predictor.forget(name)
        print(f"{name}: gone", flush=True)

    def _follow(self, name: str) -> None:
        """Records a guest that is not recorded yet, or whose recording ended some time ago."""
        guest = self.guests.get(name)
        if guest is None:
            guest = Guest(name, self.count, self.pacing, lambda: self.running.get(name), self._recorded)
            self.guests[name], self.count = guest, self.count + 1
        if not guest.is_recorded and time.monotonic() - guest.ended_at > REST * self.asked.look:
            guest.begin(self.host.words(name), os.path.join(self.asked.output, f"{name}.light.pcwt"))

    def _recorded(self, guest: Guest) -> None:
        """Called by the guest's thread: a record is whole."""
        if self.guests.get(guest.name) is guest and guest.record:
            self.predictor.ask(guest.name, guest.record.path)

    def lines(self) -> list[metrics.Line]:
        found = [
            line for guest in self.guests.values() for line in metrics.of_guest(guest, self.predictor.of(guest.name))
        ]
        of_host = {"precopy_watch_guests": len(self.guests), "precopy_watch_host_up": float(self.fault is None)}
        values = {
            **(of_host if self.is_asked else {}),
            "precopy_watch_look_interval_seconds": self.interval(),
            "precopy_watch_predictions_total": self.predictor.count,
            "precopy_watch_failed_predictions_total": self.predictor.failures,
            "precopy_watch_start_timestamp_seconds": self.begun,
            "precopy_watch_last_write_timestamp_seconds": time.time(),
            **metrics.cost(),
        }
        return [*found, *(metrics.Line(name, value) for name, value in values.items())]

    def write(self) -> None:
        told = None
        try:
            metrics.write(self.asked.textfile, metrics.text_of(self.lines()))
        except OSError as fault:
            told = f"{self.asked.textfile}: {fault.strerror}"
        if told and told != self.unwritten:
            version.complain("watch", told)
        self.unwritten = told

    def _end(self) -> None:
        """Every record that is written gets its name."""
        self.predictor.end()
        threads = [guest.thread for guest in self.guests.values() if guest.thread]
        for guest in self.guests.values():
            guest.end("the service")
        until = time.monotonic() + SECONDS_TO_END
        for thread in threads:
            thread.join(max(0.0, until - time.monotonic()))
        self.predictor.join()
        self.write()
