"""Looks at a guest at equal intervals, until the time is over, a signal comes, the guest ends or a trace is full."""

import contextlib
import os
import select
import signal
import sys
import threading
import time

from precopy_tools import version
from precopy_tools.formats import traces
from precopy_tools.qemu import qmp
from precopy_tools.record import memory
from precopy_tools.record.ticks import FIRST


class Stopping:
    """Is set by SIGINT and SIGTERM, and by others that are named, unless they are ignored, as after nohup. The trace is
    ended then; a sample that has begun is finished."""

    def __init__(self, *others):
        self.by = None
        self.woken, wakes = os.pipe2(os.O_CLOEXEC | os.O_NONBLOCK)
        signal.set_wakeup_fd(wakes)
        others = [number for number in others if signal.getsignal(number) != signal.SIG_IGN]
        for number in (signal.SIGINT, signal.SIGTERM, *others):
            signal.signal(number, self._set)

    def _set(self, number, _):
        self.by = signal.Signals(number).name

    def sleep(self, until):
        """Until that time, or until a signal comes."""
        while self.by is None and (left := until - time.monotonic()) > 0:
            select.select([self.woken], [], [], left)


def is_shown():
    """Whether there is a terminal, and one recording in this process, which its main thread makes."""
    return sys.stderr.isatty() and threading.current_thread() is threading.main_thread()


def show(recorder, begun):
    """Shows on a terminal how far the recording is."""
    if is_shown():
        writer = recorder.writer
        part = max(writer.writes / writer.limits.writes, writer.size / writer.limits.bytes)
        told = f"{time.monotonic() - begun:.1f} s, {recorder.samples} samples, {writer.writes:,} writes"
        print(f"\r\033[Krecord: {told}, {part:.0%} of a trace", end="", file=sys.stderr, flush=True)


def hide():
    if is_shown():
        print("\r\033[K", end="", file=sys.stderr, flush=True)


def pausing(options):
    """Recordings of all pages are of one moment at both ends, if there is a monitor to ask for it."""
    is_asked = options.qmp and not options.is_sampled
    return qmp.paused(options.qmp) if is_asked else contextlib.nullcontext(None)


def first(recorder, options):
    """The first sample, at tick 0. Returns how long the guest was paused, and what time tick 1000 is."""
    with pausing(options) as pause:
        looked = recorder.look(0)
    begun = time.monotonic()
    recorder.take(*looked)
    return pause.seconds if pause else 0.0, begun


def last(recorder, options, tick_now):
    """The last sample. If the guest cannot be paused for it, it is taken as the others are."""
    looked, stood = None, 0.0
    try:
        with pausing(options) as pause:
            looked = recorder.look(tick_now())
        stood = pause.seconds if pause else 0.0
    except qmp.Fault as fault:
        version.complain("record", f"the guest was not paused for the last sample, or did not go on: {fault}")
    recorder.take(*(looked or recorder.look(tick_now())))
    return stood


def go_on(recorder, options, stopping, begun, end):
    """Samples until the time is over. Returns how long the guest was paused at the end, and why it ended, or None."""

    def tick_now():
        return FIRST + int((time.monotonic() - begun) / options.tick)

    due = begun
    try:
        while True:
            # What is late is not made up for, or samples would keep the processor busy for good.
            late = time.monotonic() - (due + options.every)
            recorder.late += late > options.every / 2
            due += options.every + max(late, 0)
            stopping.sleep(min(due, end))
            if stopping.by or time.monotonic() >= end:
                return last(recorder, options, tick_now), None
            recorder.take(*recorder.look(tick_now()))
            show(recorder, begun)
    except (traces.Full, memory.Gone, OSError, MemoryError) as fault:
        return 0.0, fault
