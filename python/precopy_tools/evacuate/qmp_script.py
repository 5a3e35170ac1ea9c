#!/usr/bin/env python3
"""Moves guests of QEMU by their monitors. The guests of one slot go one after the other, and the slots side by side.

If a guest fails, or at Ctrl-C, no other one begins; those under way are cancelled at Ctrl-C, and stay where they are.
A monitor that does not answer is asked again for a while. The status is 1 if a guest has not moved, or if that is not
known.
"""

import contextlib
import json
import os
import socket
import sys
import threading
import time

PLAN: list = []
MOVED = {row["number"]: threading.Event() for row in PLAN}
NO_MORE, CANCELLED = threading.Event(), threading.Event()
LOOK, SECONDS = 0.2, 20
# Looks in a row that may stay without an answer.
MOST_SILENT = 10
# A guest in one of these states may move, and in one of those no other migration of it is under way.
MOVABLE, IDLE = ("running", "paused", "suspended"), ("none", "completed", "failed", "cancelled")
FAULTS = (OSError, ValueError)


class Unknown(Exception):
    """It is not known whether a guest has moved; the text says why."""


class Monitor:
    """A monitor of QEMU by its machine protocol. After a fault the connection is made anew."""

    def __init__(self, path):
        self.path, self.socket, self.lines = path, None, None

    def ask(self, command, **arguments):
        """What a command returns, or one of FAULTS."""
        try:
            if self.socket is None:
                self._connect()
            return self._returned({"execute": command, **({"arguments": arguments} if arguments else {})})
        except FAULTS:
            self.close()
            raise

    def _connect(self):
        self.socket = socket.socket(socket.AF_UNIX)
        self.socket.settimeout(SECONDS)
        self._queue(time.monotonic() + SECONDS)
        self.lines = self.socket.makefile("r", encoding="utf-8")
        self._returned({"execute": "qmp_capabilities"})

    def _queue(self, end):
        """Has a place in the queue of the socket, before a time."""
        while True:
            try:
                return self.socket.connect(self.path)
            except BlockingIOError:
                if time.monotonic() > end:
                    raise
            time.sleep(LOOK)

    def _returned(self, command):
        self.socket.sendall(json.dumps(command).encode() + b"\n")
        for line in self.lines:
            answer = json.loads(line)
            if "error" in answer:
                raise OSError(answer["error"]["desc"])
            if "return" in answer:
                return answer["return"]
        raise OSError("the monitor is closed")

    def told(self, command):
        """What a question is answered, also if that takes several tries; or Unknown."""
        for number in range(MOST_SILENT + 1):
            try:
                return self.ask(command)
            except FAULTS as fault:
                if number == MOST_SILENT:
                    raise Unknown(str(fault)) from fault
            time.sleep(LOOK)

    def status(self):
        return self.told("query-migrate").get("status", "none")

    def close(self):
        if self.socket is not None:
            self.socket.close()
        self.socket = None


def tell(text, file):
    """Says something, if anybody reads it."""
    try:
        print(text, file=file, flush=True)
    except OSError:
        os.dup2(os.open(os.devnull, os.O_WRONLY), file.fileno())


def expect_movable(monitor):
    state = monitor.ask("query-status").get("status")
    status = monitor.ask("query-migrate").get("status", "none")
    if state not in MOVABLE or status not in IDLE:
        raise OSError(f"it has moved, or moves already: its state is {state}, and its migration {status}")


def expect_open(closes):
    """No guest begins from a time on, if there is one. What was asked before may have taken long."""
    if 0 < closes <= time.time():
        raise OSError("the window has ended")


def begin(monitor, commands, closes):
    """Begins before a time. If QEMU does not say so, it is asked whether it has: it moves, or it has moved since."""
    *parameters, migrate = commands
    for command in parameters:
        monitor.ask(command["execute"], **command["arguments"])
    expect_open(closes)
    try:
        monitor.ask(migrate["execute"], **migrate["arguments"])
    except FAULTS as fault:
        status = monitor.status()
        has_left = status == "completed" and monitor.told("query-status").get("status") == "postmigrate"
        if status in IDLE and not has_left:
            raise OSError(str(fault)) from fault


def watch(monitor):
    """Until the guest has moved; returns its downtime in milliseconds. At Ctrl-C it is told to stay."""
    is_told = False
    while (told := monitor.told("query-migrate")).get("status") != "completed":
        if told.get("status", "none") in IDLE:
            raise OSError(told.get("error-desc", f"its migration is {told.get('status', 'none')}"))
        if CANCELLED.is_set() and not is_told:
            with contextlib.suppress(*FAULTS):
                monitor.ask("migrate_cancel")
                is_told = True
        time.sleep(LOOK)
    return told.get("downtime", 0)


def move(row):
    """Moves one guest, or raises one of FAULTS if it has not moved, or Unknown."""
    with contextlib.closing(Monitor(row["monitor"])) as monitor:
        expect_movable(monitor)
        expect_open(row["closes"])
        begin(monitor, row["commands"], row["closes"])
        tell(f"{row['guest']} begins", sys.stdout)
        tell(f"{row['guest']} has moved, with a downtime of {watch(monitor)} ms", sys.stdout)


def move_slot(rows):
    """Moves the guests of a slot, each when that of its group before it has moved, and not before its time."""
    for row in rows:
        while row["before"] and not MOVED[row["before"]].wait(LOOK) and not NO_MORE.is_set():
            pass
        while time.time() < row["not_before"] and not NO_MORE.wait(LOOK):
            pass
        if NO_MORE.is_set():
            return
        try:
            move(row)
            MOVED[row["number"]].set()
        except FAULTS as fault:
            tell(f"{row['guest']} has not moved: {fault}", sys.stderr)
        except Unknown as fault:
            tell(f"{row['guest']}: not known whether it has moved: {fault}: look at both hosts", sys.stderr)
        finally:
            if not MOVED[row["number"]].is_set():
                NO_MORE.set()


def main():
    slots = {row["slot"]: [each for each in PLAN if each["slot"] == row["slot"]] for row in PLAN}
    threads = [threading.Thread(target=move_slot, args=(rows,)) for rows in slots.values()]
    for thread in threads:
        thread.start()
    while any(thread.is_alive() for thread in threads):
        try:
            time.sleep(LOOK)
        except KeyboardInterrupt:
            NO_MORE.set()
            CANCELLED.set()
    return 0 if all(event.is_set() for event in MOVED.values()) else 1


if __name__ == "__main__":
    sys.exit(main())
