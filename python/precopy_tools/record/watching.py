"""Whether a guest runs while it is recorded: asked at both ends and each second, by a thread of its own.

A process that is stopped does not run, and neither does a guest that QEMU or libvirt has paused, or that has moved
away. If nothing can be asked, nothing is known of that moment.
"""

import contextlib
import threading
import time
from collections.abc import Callable

from precopy_tools.qemu import qmp
from precopy_tools.quantities import micros_of, time_text
from precopy_tools.record import domains

EVERY, SECONDS, VIRSH_SECONDS, LAST_SECONDS = 1.0, 1.0, 5.0, 3.0
STOPPED, ENDED = frozenset("Tt"), frozenset("ZX")


def state_of(process: int) -> str:
    """The state of a process, as one letter; X if there is none."""
    try:
        with open(f"/proc/{process}/stat", encoding="utf-8", errors="replace") as file:
            return file.read().rpartition(")")[2].split()[0]
    except (OSError, IndexError):
        return "X"


def runs_by(client: qmp.Client) -> bool | None:
    """Whether QEMU says that the guest runs."""
    status = client.ask("query-status")
    return status.get("running") is True if qmp.is_object(status) else None


def told_by(socket: str | None, domain: str | None) -> bool | None:
    """Whether QEMU or libvirt says that the guest runs; None if neither is asked or answers."""
    with contextlib.suppress(qmp.Fault):
        if domain:
            return domains.virsh("domstate", "--domain", domain, seconds=VIRSH_SECONDS).strip() == "running"
        if socket:
            with qmp.Client(socket, SECONDS) as client:
                return runs_by(client)
    return None


def asking(socket: str | None, domain: str | None) -> Callable[[], bool | None] | None:
    """What asks QEMU or libvirt; None if there is neither."""
    called = domains.called_or_number(domain) if domain else None
    return (lambda: told_by(socket, called)) if socket or domain else None


class Watch:
    """Asks from when it is made until `end`. `share` is what it found since it was made or begun anew."""

    def __init__(self, process: int | None, ask: Callable[[], bool | None] | None, every: float = EVERY):
        self.process, self.ask, self.every = process, ask, every
        self.ran = self.stood = 0.0
        self.lock, self.is_over = threading.Lock(), threading.Event()
        self.at, self.running = time.monotonic(), self._runs()
        self.thread = threading.Thread(target=self._go_on, daemon=True)
        self.thread.start()

    def _runs(self) -> bool | None:
        """Whether the guest runs now. Of a process that has ended nothing is known."""
        state = state_of(self.process) if self.process is not None else "X"
        if state in STOPPED:
            return False
        if self.ask:
            return self.ask()
        return None if state in ENDED else True

    def _look(self) -> None:
        """Counts the time since the last look for what both looks say, or half and half."""
        running = self._runs()
        with self.lock:
            now = time.monotonic()
            looks = [each for each in (self.running, running) if each is not None]
            for each in looks:
                length = (now - self.at) / len(looks)
                self.ran, self.stood = self.ran + each * length, self.stood + (not each) * length
            self.at, self.running = now, running

    def _go_on(self) -> None:
        while not self.is_over.wait(self.every):
            self._look()

    def share(self) -> float | None:
        """For which share of the time the guest ran until now; None if nothing is known."""
        self._look()
        with self.lock:
            return self.ran / (self.ran + self.stood) if self.ran + self.stood else None

    def begin_anew(self) -> None:
        with self.lock:
            self.ran = self.stood = 0.0

    def told(self, share: float | None) -> str:
        """A line about a guest that did not run all the time; nothing of one that did."""
        if share is None or share >= 1:
            return ""
        stood, whole = (time_text(micros_of(each) // 1000 * 1000) for each in (self.stood, self.ran + self.stood))
        return f"stood still: the guest did not run for {stood} of {whole}; predictions of that time tell too little"

    def end(self) -> None:
        self.is_over.set()
        self.thread.join(LAST_SECONDS)
