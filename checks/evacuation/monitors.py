"""Stand-ins for QEMU's monitor and for virsh, for checks/evacuation: guests that move in a known time, or do not."""

import contextlib
import json
import os
import shlex
import socket
import stat
import threading
import time
from typing import NamedTuple

from precopy_dev.files import write_file

VIRSH = """\
#!/bin/sh
[ "$1" = --quiet ] && shift
words=$* command=$1
while [ $# -gt 0 ]; do
    [ "$1" = --domain ] && domain=$2
    shift
done
tell() {{ echo "$(date +%s.%N) $1 $domain" >> {log}; }}
case $command in
domstate) echo running ;;
domjobinfo)
    case $words in
    *--completed*) printf 'Data processed:   12.000 MiB\\nTotal downtime:   7            ms\\n' ;;
    *) echo 'Job type:         None' ;;
    esac ;;
migrate)
    tell begins
    case " {failing} " in
    *" $domain "*) sleep 0.5; tell fails; echo 'error: operation failed: no such host' >&2; exit 1 ;;
    esac
    sleep {seconds}
    tell ends ;;
*) tell "$words" ;;
esac
"""


class Event(NamedTuple):
    """What a stand-in was told, and when."""

    time: float
    guest: str
    what: str


class Monitor(threading.Thread):
    """A guest of QEMU: it takes so many seconds to move, or fails then. `state` is what query-status tells."""

    def __init__(self, folder: str, name: str, log: list[Event], seconds: float = 0.5, **how):
        super().__init__(daemon=True)
        os.makedirs(folder, exist_ok=True)
        self.path, self.name_of_guest, self.log, self.seconds = os.path.join(folder, f"{name}.qmp"), name, log, seconds
        self.fails, self.state, self.migration = how.get("fails"), how.get("state", "running"), how.get("migration")
        self.begun, self.ended, self.asked, self.parameters = 0.0, 0.0, [], []
        self.loses = how.get("loses")  # at the command to migrate: this, its answer, or all from then on
        self.hangs = how.get("hangs", 0.0)  # so many seconds before it takes the command to migrate
        self.refuses = 0  # so many times it closes in place of taking parameters of a migration under way
        self.server = socket.socket(socket.AF_UNIX)
        self.server.bind(self.path)
        self.server.listen()
        self.start()

    def run(self) -> None:
        while self.server.fileno() >= 0:
            client, _ = self.server.accept()
            with contextlib.suppress(OSError), client, client.makefile("rw") as stream:
                self.say(stream, {"QMP": {"version": {}}})
                for line in stream:
                    asked = json.loads(line)
                    if self.refuses and self.begun and asked["execute"] == "migrate-set-parameters":
                        self.refuses -= 1
                        break
                    if self.loses and asked["execute"] == "migrate":
                        self.lose()
                        break
                    if asked["execute"] == "migrate":
                        time.sleep(self.hangs)
                    self.say(stream, {"event": "RTC_CHANGE"})
                    self.say(stream, self.answer(asked["execute"], asked.get("arguments", {})))

    def lose(self) -> None:
        """The connection ends in place of an answer, and with `all` no other one comes."""
        if self.loses != "command":
            self.answer("migrate", {})
        if self.loses == "all":
            self.server.close()

    @staticmethod
    def say(stream, message: dict) -> None:
        stream.write(json.dumps(message) + "\r\n")
        stream.flush()

    def tell(self, what: str) -> None:
        self.log.append(Event(time.time(), self.name_of_guest, what))

    def answer(self, command: str, arguments: dict) -> dict:
        if command not in ("qmp_capabilities", "query-status", "query-migrate"):
            self.asked.append((command, arguments))
        if command == "migrate-set-parameters":
            self.parameters.append((time.time(), arguments))
        if command == "query-status":
            return {"return": {"status": self.state, "running": self.state == "running"}}
        if command == "query-migrate":
            return {"return": self.told()}
        if command == "migrate":
            self.begun, self.migration = time.time(), "active"
            self.tell("begins")
        if command == "migrate_cancel" and self.migration == "active":
            self.migration = "cancelled"
            self.tell("cancelled")
        return {"return": {}}

    def told(self) -> dict:
        """The migration as it is now."""
        if self.migration == "active" and self.begun and time.time() - self.begun >= self.seconds:
            self.migration = "failed" if self.fails else "completed"
            self.state = self.state if self.fails else "postmigrate"
            self.ended = time.time()
            self.tell("fails" if self.fails else "ends")
        if self.migration is None:
            return {}
        told = {"status": self.migration, "ram": {"transferred": 7 << 20, "remaining": 1 << 20}}
        return {**told, **({"error-desc": self.fails} if self.migration == "failed" else {"downtime": 9})}


def virsh_in(folder: str, seconds: float | str, failing: tuple[str, ...] = ()) -> tuple[dict, str]:
    """An environment with a `virsh` whose migrations take so long, or what a shell makes of that, and the file of what
    it did."""
    programs, log = os.path.join(folder, "programs"), os.path.join(folder, "virsh.log")
    os.makedirs(programs, exist_ok=True)
    path = write_file(VIRSH.format(log=shlex.quote(log), seconds=seconds, failing=" ".join(failing)), programs, "virsh")
    os.chmod(path, stat.S_IRWXU)
    if os.path.exists(log):
        os.unlink(log)
    return {**os.environ, "PATH": f"{programs}:{os.environ['PATH']}"}, log


def events_in(path: str) -> list[Event]:
    """What a stand-in of virsh did."""
    with open(path, encoding="utf-8") as file:
        rows = [line.rstrip("\n").split(" ", 2) for line in file]
    return [Event(float(at), domain, what) for at, what, domain in rows if what in ("begins", "ends", "fails")]


def most_at_once(events: list[Event]) -> int:
    """How many guests were under way at once."""
    count = most = 0
    for event in sorted(events):
        count += {"begins": 1, "ends": -1, "fails": -1, "cancelled": -1}[event.what]
        most = max(most, count)
    return most
