"""Predictions of the newest segments, by tools/predict: one at a time, in a process of its own, and with rests between
them, so that they take no more than a share of a processor."""

import json
import os
import resource
import runpy
import signal
import subprocess
import sys
import threading
import time
from collections.abc import Callable
from typing import NamedTuple

from precopy_tools import version, words
from precopy_tools.watch.limits import Limits

# Where the package of these tools is.
FOLDER = os.path.dirname(os.path.dirname(os.path.dirname(os.path.realpath(__file__))))
SECONDS, SECONDS_TO_END = 600, 2
# How often a prediction under way looks whether the service is over.
STEP = 0.2
NICE = 10
KEPT, MISSED, UNCERTAIN, UNKNOWN = VERDICTS = ("kept", "missed", "uncertain", "unknown")


class Prediction(NamedTuple):
    """What is predicted of a migration that begins where a segment does: time, bytes and downtime, if it ends within
    the segment; whether it keeps its limits; of how many starts within the segment, of those known, it does; and in how
    many of the redraws it converges."""

    limits: Limits
    verdict: str
    seconds: float | None = None
    sent: int | None = None
    downtime: float | None = None
    kept_starts: float | None = None
    converging_redraws: float | None = None


def is_over(migration: dict, limits: Limits) -> bool:
    return limits.time is not None and migration["time_seconds"] > limits.time


def of_document(document: dict, limits: Limits) -> Prediction:
    """What tools/predict tells of a trace. Nothing is known of a guest that stood still."""
    told = document["prediction"]
    migration, starts = told.get("migration"), told.get("starts")
    if not document["certain"] or migration is None or told["kept"] == "unknown":
        return Prediction(limits, UNKNOWN)
    verdict = {"no": MISSED, "uncertain": UNCERTAIN}.get(told["kept"], KEPT)
    verdict = MISSED if is_over(migration, limits) else verdict
    part = starts["kept"] / starts["known"] if starts else None
    redraws = told.get("redraws")
    converging = redraws["converging"] / redraws["count"] if redraws else None
    numbers = (migration[name] for name in ("time_seconds", "sent_bytes", "down_seconds"))
    return Prediction(limits, verdict, *numbers, part, converging)


def command_of(program: str, path: str, limits: Limits) -> list[str]:
    module = [sys.executable, "-B", "-m", "precopy_tools.watch.predicting"]
    asked = ["--link", words.given_rate(limits.link), "--downtime", words.given_time(limits.downtime)]
    return [*module, "--json", "--starts", "1", "--program", program, *asked, path]


class Failed(Exception):
    """A prediction could not be made; the text says why."""


def finished(process: subprocess.Popen, is_over: threading.Event) -> tuple[str, str]:
    """What a process prints until it ends. If that takes too long, or the service is over, it is ended, and a Failed
    says so."""
    until = time.monotonic() + SECONDS
    while True:
        try:
            return process.communicate(timeout=STEP)
        except subprocess.TimeoutExpired as fault:
            if is_over.is_set() or time.monotonic() > until:
                end_group(process)
                why = "the service ends" if is_over.is_set() else f"no prediction within {SECONDS} s"
                raise Failed(why) from fault


def end_group(process: subprocess.Popen) -> None:
    """Ends a process that leads a group, with all that it has begun. Until it is waited for, no other group has its
    number."""
    os.killpg(process.pid, signal.SIGTERM)
    until = time.monotonic() + SECONDS_TO_END
    ended = os.WEXITED | os.WNOHANG | os.WNOWAIT
    while os.waitid(os.P_PID, process.pid, ended) is None and time.monotonic() < until:
        time.sleep(0.01)
    os.killpg(process.pid, signal.SIGKILL)
    process.communicate()


def predicted(program: str, path: str, limits: Limits, is_over: threading.Event) -> Prediction:
    """What tools/predict tells of a segment, or Failed."""
    reader, writer = os.pipe()
    how = {"stdin": reader, "stdout": subprocess.PIPE, "stderr": subprocess.PIPE, "text": True}
    how |= {"env": {**os.environ, "PYTHONPATH": FOLDER}, "process_group": 0}
    # In a group of its own, so that what it begins ends with it, and all of that when nobody can write to it any more.
    with open(reader, "rb"), open(writer, "wb"), subprocess.Popen(command_of(program, path, limits), **how) as process:
        os.setpriority(os.PRIO_PROCESS, process.pid, NICE)
        try:
            text, faults = finished(process, is_over)
        except Failed as fault:
            raise Failed(f"{path}: {fault}") from fault
    if process.returncode not in (0, 3, 4, 5):
        raise Failed(faults.strip() or f"{path}: the prediction ended with status {process.returncode}")
    try:
        return of_document(json.loads(text), limits)
    except (ValueError, KeyError, TypeError, ZeroDivisionError) as fault:
        raise Failed(f"{path}: the prediction is no JSON as it should be: {text[:80]!r}") from fault


def children_seconds() -> float:
    """What the processes took that this one has begun, and that have ended."""
    used = resource.getrusage(resource.RUSAGE_CHILDREN)
    return used.ru_utime + used.ru_stime


class Predictor:
    """Predicts what is asked for, by name: if a guest has a newer segment before its turn, the older one is left out.
    `share` is the most of a processor that it takes."""

    def __init__(self, program: str, limits_of: Callable[[str], Limits], share: float):
        self.program, self.limits_of, self.share = program, limits_of, share
        self.waiting: dict[str, str] = {}
        self.found: dict[str, Prediction] = {}
        self.current: str | None = None
        self.changed, self.is_over = threading.Condition(), threading.Event()
        self.count = self.failures = 0
        self.thread = threading.Thread(target=self._go_on, name="predictor", daemon=True)
        self.thread.start()

    def ask(self, name: str, path: str) -> None:
        with self.changed:
            self.waiting[name] = path
            self.changed.notify()

    def of(self, name: str) -> Prediction | None:
        return self.found.get(name)

    def forget(self, name: str) -> None:
        """Nothing is told of a guest that has gone, not even what is predicted just now."""
        with self.changed:
            self.waiting.pop(name, None)
            self.found.pop(name, None)
            self.current = None if self.current == name else self.current

    def end(self) -> None:
        self.is_over.set()
        with self.changed:
            self.changed.notify()

    def join(self) -> None:
        """Until the prediction under way has ended too."""
        self.thread.join(2 * SECONDS_TO_END)

    def _next(self) -> tuple[str, str] | None:
        with self.changed:
            while not self.waiting and not self.is_over.is_set():
                self.changed.wait()
            if self.is_over.is_set():
                return None
            self.current = next(iter(self.waiting))
            return self.current, self.waiting.pop(self.current)

    def _go_on(self) -> None:
        while (asked := self._next()) is not None:
            spent = children_seconds()
            self._predict(*asked)
            # A rest as long as that took, and longer by the share.
            self.is_over.wait((children_seconds() - spent) / self.share)

    def _predict(self, name: str, path: str) -> None:
        limits = self.limits_of(name)
        try:
            found = predicted(self.program, path, limits, self.is_over)
        except (Failed, OSError) as fault:
            if self.is_over.is_set():
                return
            found = Prediction(limits, UNKNOWN)
            self.failures += 1
            version.complain("watch", f"{name}: {fault}")
        with self.changed:
            self.count += 1
            if self.current == name:
                self.found[name] = found


if __name__ == "__main__":
    # As soon as the service has ended, even if that is killed, so does this process with all that it has begun.
    threading.Thread(target=lambda: os.read(0, 1) or os.killpg(0, signal.SIGKILL), daemon=True).start()
    runpy.run_module("precopy_tools.predict.command", run_name="__main__", alter_sys=True)
