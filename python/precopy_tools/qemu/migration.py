"""A migration by QEMU between two processes on this machine, and what QEMU reports about it."""

import time
from typing import NamedTuple

from precopy_tools.qemu import guest
from precopy_tools.record import memory

LOOK = 0.02


class Limits(NamedTuple):
    """Bytes a second, the limit of the downtime in seconds, and after how many seconds it is cancelled."""

    bandwidth: int
    downtime: float
    patience: float


class Migration:
    """What QEMU reports about a migration that has ended or was cancelled."""

    def __init__(self, told, expected, ended):
        self.ended = ended
        self.begun = 0.0
        ram = told.get("ram", {})
        # Compressed pages are counted apart.
        self.sent = ram.get("normal", 0) + told.get("compression", {}).get("pages", 0)
        self.rounds = ram.get("dirty-sync-count", 0)
        self.last = ram.get("downtime-bytes", 0) // memory.PAGE
        self.zeros = ram.get("duplicate", 0)
        self.setup = told.get("setup-time", 0)
        self.milliseconds = told.get("total-time", 0) - self.setup
        self.downtime = told.get("downtime", 0)
        self.expected = expected

    def document(self):
        """What it was, as JSON has it."""
        return {
            "ended": self.ended,
            "pages_sent": self.sent,
            "zero_pages": self.zeros,
            "rounds": self.rounds,
            "last_pages": self.last,
            "time_seconds": self.milliseconds / 1000,
            "setup_seconds": self.setup / 1000,
            "down_seconds": self.downtime / 1000,
            "expected_down_seconds": self.expected / 1000,
            "reached_bytes": round(self.reached()),
        }

    def reached(self):
        """Bytes a second while the guest ran."""
        return (self.sent - self.last) * memory.PAGE * 1000 / max(1, self.milliseconds - self.downtime)


def migrate(source, limits, to):
    """Migrates, and looks until it has ended or the patience is over."""
    with source.client() as client:
        told = {"max_bandwidth": int(limits.bandwidth), "downtime_limit": round(1000 * limits.downtime)}
        client.ask("migrate-set-parameters", **told)
        client.ask("migrate", uri=to)
        begun, expected = time.monotonic(), 0
        while True:
            told = client.ask("query-migrate")
            status = told.get("status")
            if status == "completed":
                real = Migration(told, expected, True)
                real.begun = begun + real.setup / 1000
                return real
            if status in ("failed", "cancelled"):
                raise guest.Failed(f"QEMU's migration {status}: {told.get('error-desc', '')}")
            expected = told.get("expected-downtime", expected)
            if time.monotonic() - begun > limits.patience:
                client.ask("migrate_cancel")
                return Migration(told, expected, False)
            time.sleep(LOOK)


def wait_until_arrived(client):
    """Until the destination has taken in all that was sent."""
    while client.ask("query-status")["status"] == "inmigrate":
        time.sleep(LOOK)


def differing(one, other):
    """How many pages of two memory files differ, and how many there are."""
    count, pages = 0, 0
    with open(one, "rb") as first, open(other, "rb") as second:
        while True:
            a, b = first.read(memory.CHUNK), second.read(memory.CHUNK)
            if not a and not b:
                return count, pages
            pages += max(len(a), len(b)) // memory.PAGE
            if a != b:
                places = range(0, max(len(a), len(b)), memory.PAGE)
                count += sum(a[at : at + memory.PAGE] != b[at : at + memory.PAGE] for at in places)


def differing_of(source, to):
    """The same of all nodes of two guests."""
    counts = [differing(*files) for files in zip(source.memories, to.memories)]
    return tuple(sum(column) for column in zip(*counts))
