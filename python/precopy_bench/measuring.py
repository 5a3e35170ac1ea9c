"""Runs of programs: what one takes, whether its output equals another's, and how busy the machine is otherwise."""

import json
import os
import signal
import statistics
import sys
import tempfile
import threading
import time
from dataclasses import dataclass

PIECE = 1 << 20
TICKS = os.sysconf("SC_CLK_TCK")


class Fault(Exception):
    """What ends the benchmark with a line."""


def memory_folder():
    """Where outputs go: memory, if the system has a folder for that."""
    return "/dev/shm" if os.access("/dev/shm", os.W_OK) else tempfile.gettempdir()


class Output:
    """A file without a name, which programs write over again, so that only the first run waits for its memory."""

    def __init__(self, folder):
        self.file = tempfile.TemporaryFile(dir=folder, buffering=0)
        self.number = self.file.fileno()
        self.size = 0

    def rewind(self):
        os.lseek(self.number, 0, os.SEEK_SET)

    def ended(self):
        self.size = os.lseek(self.number, 0, os.SEEK_CUR)

    def equals(self, other):
        if self.size != other.size:
            return False
        for at in range(0, self.size, PIECE):
            count = min(PIECE, self.size - at)
            if os.pread(self.number, count, at) != os.pread(other.number, count, at):
                return False
        return True


class Nowhere:
    """Where output is not kept."""

    def __init__(self):
        self.number = os.open(os.devnull, os.O_WRONLY)

    def rewind(self):
        pass

    def ended(self):
        os.close(self.number)


@dataclass
class Run:
    """Times in seconds, memory in bytes."""

    wall: float
    processor: float
    memory: int
    status: int
    message: str


def run(words, env, trace, output, limit):
    """Runs a program over a trace; it is killed after a number of seconds."""
    output.rewind()
    with tempfile.TemporaryFile() as errors:
        files = [
            (os.POSIX_SPAWN_OPEN, 0, trace, os.O_RDONLY, 0),
            (os.POSIX_SPAWN_DUP2, output.number, 1),
            (os.POSIX_SPAWN_DUP2, errors.fileno(), 2),
        ]
        began = time.perf_counter()
        child = os.posix_spawn(words[0], words, env, file_actions=files)
        timer = threading.Timer(limit, os.kill, (child, signal.SIGKILL))
        timer.start()
        _, status, usage = os.wait4(child, 0)
        wall = time.perf_counter() - began
        timer.cancel()
        output.ended()
        errors.seek(0)
        message = errors.read(400).decode(errors="replace").strip()
    # Linux gives this in units of 1,024 bytes, others in bytes.
    memory = usage.ru_maxrss * (1 if sys.platform == "darwin" else 1024)
    processor = usage.ru_utime + usage.ru_stime
    return Run(wall, processor, memory, os.waitstatus_to_exitcode(status), message)


def least_memory():
    """The least that a run's memory can read: a new process begins with what this one has."""
    with tempfile.TemporaryFile(buffering=0) as file:
        output = type("Nowhere", (), {"number": file.fileno(), "rewind": lambda: None, "ended": lambda: None})
        return run(["/bin/sh", "-c", ":"], {}, os.devnull, output, 10).memory


def figures_of(runs):
    """What the measured runs of one program over one trace took."""
    return {
        "least": min(it.wall for it in runs),
        "median": statistics.median(it.wall for it in runs),
        "processor": min(it.processor for it in runs),
        "memory": max(it.memory for it in runs),
    }


def write_json(path, **figures):
    """Writes what was measured for bench/summary, if a file is named."""
    if path:
        with open(path, "w", encoding="utf-8") as file:
            json.dump(figures, file, indent=1)


class Others:
    """How many processors were busy with other things, on average since this was made."""

    def __init__(self):
        self.at_first = self.look()

    @staticmethod
    def look():
        try:
            with open("/proc/stat", encoding="ascii") as file:
                fields = [int(it) for it in file.readline().split()[1:9]]
        except OSError:
            return None
        busy = (sum(fields) - fields[3] - fields[4]) / TICKS
        own = sum(os.times()[:4])
        return time.monotonic(), busy - own

    def average(self):
        now = self.look()
        if not now or not self.at_first:
            return None
        return max(0.0, (now[1] - self.at_first[1]) / max(now[0] - self.at_first[0], 0.001))
