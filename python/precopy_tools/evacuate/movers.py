"""How one guest is moved and watched: by QEMU's monitor, or by virsh. No mover touches what it did not begin."""

import math
import re
import subprocess
import tempfile
import time
from typing import NamedTuple

from precopy_tools.evacuate.lines import Step, mebibytes, milliseconds, qmp_commands
from precopy_tools.evacuate.schedules import Placed
from precopy_tools.evacuate.ways import Way
from precopy_tools.qemu import qmp
from precopy_tools.record import domains

SECONDS, SECONDS_TO_ANSWER = 10, 3
# Looks in a row that may stay without an answer.
MOST_SILENT = 10
# A guest in one of these states may move, and in one of those no other migration of it is under way.
MOVABLE, IDLE = ("running", "paused", "suspended"), ("none", "completed", "failed", "cancelled")
UNITS = {"B": 1, "KiB": 1 << 10, "MiB": 1 << 20, "GiB": 1 << 30, "TiB": 1 << 40}
JOB_LINE = re.compile(r"^([A-Z][a-z ]+): +(\S+)(?: +(\S+))? *$", re.M)


class Look(NamedTuple):
    """What is seen of a migration: `state` is moving, moved, failed, cancelled or lost; bytes sent and left, the
    downtime in microseconds if it is told, and why it did not move."""

    state: str
    sent: int = 0
    left: int = 0
    downtime: int | None = None
    why: str = ""


def expect_open(closes: float) -> None:
    """No guest begins from a time in Unix seconds on. What was asked before may have taken long."""
    if time.time() >= closes:
        raise qmp.Fault("the window has ended")


def with_share(move: Placed, share: int) -> Placed:
    """A move that begins with another share of the link."""
    return move._replace(cost=move.cost._replace(share=share))


class QmpMover:
    """A guest of QEMU by its monitor."""

    def __init__(self, step: Step, way: Way):
        self.move, self.way, self.client = step.move, way, None
        self.begun, self.is_told, self.silent, self.last = False, False, 0, Look("moving")
        self.doubt: qmp.Fault | None = None  # why it is not known whether QEMU has begun

    def why_not(self) -> str:
        """Why this guest must not be touched; nothing if it may."""
        try:
            with qmp.Client(self.way.monitor, SECONDS) as client:
                status, told = client.object_of("query-status"), client.object_of("query-migrate")
        except qmp.Fault as fault:
            return str(fault)
        if status.get("status") not in MOVABLE:
            return f"{self.way.monitor}: the guest does not run here: its state is {status.get('status')}"
        if told.get("status", "none") not in IDLE:
            return f"{self.way.monitor}: it moves already: its migration is {told['status']}"
        return ""

    def begin(self, closes: float = math.inf) -> None:
        """Begins before a time, or raises a Fault. If it is not known whether QEMU has begun, it is watched as if it
        has."""
        self.client = qmp.Client(self.way.monitor, SECONDS)
        self.client.ask("migrate-set-capabilities", capabilities=[{"capability": "events", "state": True}])
        _, parameters, migrate = qmp_commands(self.move, self.way.to)
        self.client.ask(parameters["execute"], **parameters["arguments"])
        expect_open(closes)
        try:
            self.client.ask(migrate["execute"], **migrate["arguments"])
        except qmp.Fault as fault:
            self.doubt = fault
            self._close()
            if self.look().state == "failed":
                raise
        self.begun = True
        if self.client:
            self.client.seconds = SECONDS_TO_ANSWER

    def take(self, share: int) -> bool:
        """Goes on with another share of the link, or begins with it. Returns whether the monitor has taken it."""
        self.move = with_share(self.move, share)
        if self.begun:
            try:
                self.client = self.client or qmp.Client(self.way.monitor, SECONDS_TO_ANSWER)
                self.client.ask("migrate-set-parameters", **{"max-bandwidth": share})
            except qmp.Fault:
                self._close()
                return False
        return True

    def look(self) -> Look:
        """How far it is. A monitor that answers no more is asked again for a while."""
        try:
            self.client = self.client or qmp.Client(self.way.monitor, SECONDS_TO_ANSWER)
            self.last, self.silent = self._seen(self.client.object_of("query-migrate")), 0
            self.doubt = None
        except qmp.Fault as fault:
            self._close()
            self.silent += 1
            if self.silent > MOST_SILENT:
                self.last = self.last._replace(state="lost", why=str(fault))
        return self.last

    def _seen(self, told: dict) -> Look:
        status, ram = told.get("status", "none"), told.get("ram", {})
        if self.doubt and not self._has_begun(status):
            return Look("failed", why=str(self.doubt))
        state = {"completed": "moved", "failed": "failed", "cancelled": "cancelled", "none": "failed"}.get(status)
        why = told.get("error-desc", "QEMU says no cause") if state == "failed" else ""
        downtime = 1000 * told["downtime"] if "downtime" in told else None
        sent = ram.get("transferred", self.last.sent)
        return Look(state or "moving", sent, ram.get("remaining", 0), downtime, why)

    def _has_begun(self, status: str) -> bool:
        """Whether QEMU has begun though that was not answered: it moves, or it has moved since, and not earlier."""
        has_left = status == "completed" and self.client.object_of("query-status").get("status") == "postmigrate"
        return has_left or status not in IDLE

    def cancel(self) -> None:
        """Tells it once to stay. A monitor that does not answer is told with the next look."""
        if not self.is_told and self.client:
            try:
                self.client.ask("migrate_cancel")
                self.is_told = True
            except qmp.Fault:
                self._close()

    def whereabouts(self) -> str:
        """Where a guest is that has not moved."""
        self._close()
        try:
            with qmp.Client(self.way.monitor, SECONDS_TO_ANSWER) as client:
                status = client.object_of("query-status").get("status")
                migration = client.object_of("query-migrate").get("status", "none")
        except qmp.Fault as fault:
            return f"nothing is known of it ({fault}): look at both hosts"
        if migration not in IDLE:
            return f"its migration is {migration}, and its state here is {status}: look at both hosts"
        return "it runs here" if status == "running" else f"it is here, and its state is {status}"

    def _close(self) -> None:
        if self.client:
            self.client.socket.close()
        self.client = None

    def end(self) -> None:
        self._close()


def sizes_of(text: str) -> dict[str, int]:
    """The bytes and milliseconds that `virsh domjobinfo` tells."""
    found = {}
    for name, number, unit in JOB_LINE.findall(text):
        if re.fullmatch(r"[\d.]+", number):
            found[name] = round(float(number) * UNITS.get(unit, 1))
    return found


class VirshMover:
    """A guest of libvirt by a process of virsh, in a session of its own: Ctrl-C is for this program."""

    def __init__(self, step: Step, way: Way):
        limits = step.move.guest.limits
        self.move, self.way, self.process = step.move, way, None
        self.domain = self.name = limits.domain or step.move.guest.name
        self.errors, self.is_told, self.last = None, False, Look("moving")

    def _state(self) -> tuple[str, bool]:
        """Its state here, and whether it has no job, as a migration is one."""
        state = domains.virsh("domstate", "--domain", self.domain).strip()
        kind = re.search(r"^Job type: +(.+?) *$", domains.virsh("domjobinfo", "--domain", self.domain), re.M)
        return state, kind is not None and kind[1] == "None"

    def why_not(self) -> str:
        try:
            self.domain = domains.called(self.name)
            state, is_idle = self._state()
        except qmp.Fault as fault:
            return str(fault)
        if state not in MOVABLE:
            return f"domain {self.name} does not run here: its state is {state}"
        return "" if is_idle else f"domain {self.name} has a job already"

    def begin(self, closes: float = math.inf) -> None:
        """Begins before a time, or raises a Fault."""
        downtime, speed = milliseconds(self.move.guest.limits.downtime), mebibytes(self.move.cost.share)
        domains.virsh("migrate-setmaxdowntime", "--domain", self.domain, "--downtime", str(downtime))
        command = ["virsh", "--quiet", "migrate", "--live", "--bandwidth", str(speed), "--domain", self.domain]
        expect_open(closes)
        try:
            self.errors = tempfile.TemporaryFile()
            how = {"stdin": subprocess.DEVNULL, "stdout": subprocess.DEVNULL, "stderr": self.errors}
            how["env"] = domains.environment()
            self.process = subprocess.Popen([*command, "--desturi", self.way.to], start_new_session=True, **how)
        except OSError as fault:
            raise qmp.Fault(f"virsh migrate: {fault.strerror}") from fault

    def take(self, share: int) -> bool:
        """The same, by virsh."""
        self.move = with_share(self.move, share)
        if self.process:
            try:
                speed = str(mebibytes(share))
                domains.virsh("migrate-setspeed", "--domain", self.domain, "--bandwidth", speed)
            except qmp.Fault:
                return False
        return True

    def look(self) -> Look:
        is_over = self.process.poll() is not None
        self.last = self._seen(["--completed"] if is_over else [])
        if is_over and self.process.returncode:
            state = "cancelled" if self.is_told else "failed"
            self.last = self.last._replace(state=state, why="" if self.is_told else self._complaint())
        elif is_over:
            self.last = self.last._replace(state="moved")
        return self.last

    def _complaint(self) -> str:
        self.errors.seek(0)
        said = self.errors.read().decode(errors="replace").strip().removeprefix("error: ")
        return said.replace("\n", " ") or f"virsh ended with status {self.process.returncode}"

    def _seen(self, words: list[str]) -> Look:
        """What libvirt tells of the job; what was seen last if it tells nothing."""
        try:
            told = sizes_of(domains.virsh("domjobinfo", "--domain", self.domain, *words))
        except qmp.Fault:
            return self.last
        sent = told.get("Memory processed", told.get("Data processed", self.last.sent))
        left = 0 if words else told.get("Memory remaining", told.get("Data remaining", self.last.left))
        downtime = 1000 * told["Total downtime"] if "Total downtime" in told else None
        return Look("moving", sent, left, downtime)

    def cancel(self) -> None:
        if not self.is_told and self.process.poll() is None:
            try:
                domains.virsh("domjobabort", "--domain", self.domain)
                self.is_told = True
            except qmp.Fault:
                pass

    def whereabouts(self) -> str:
        try:
            state, is_idle = self._state()
        except qmp.Fault as fault:
            return f"nothing is known of it ({fault}): look at both hosts"
        if not is_idle:
            return f"it has a job still, and its state here is {state}: look at both hosts"
        return "it runs here" if state == "running" else f"it is here, and its state is {state}"

    def end(self) -> None:
        if self.errors:
            self.errors.close()


MOVERS = {"qmp": QmpMover, "virsh": VirshMover}
