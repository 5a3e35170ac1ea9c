"""A process whose pages are written on demand, and runs of tools/record over it, for the cases of checks/recording."""

import os
import subprocess
import sys
import time

from checks.lib.harness import expect, waited
from checks.recording.recorder_runs import RECORD, SECONDS, TOP, Started, Watched, recorder
from precopy_dev.files import read_bytes
from precopy_tools.formats import samples, traces

PAGE = 4096
PAGES = 2048


class Pages(Watched):
    """The process of checks/recording/known_pages.py, and what of it must be the same after a recording as before."""

    def __init__(self, kind, pages=PAGES, *more):
        command = [sys.executable, os.path.join(TOP, "checks", "recording", "known_pages.py"), kind, str(pages), *more]
        self.process = subprocess.Popen(command, stdin=subprocess.PIPE, stdout=subprocess.PIPE, text=True)
        self.pages, self.address = pages, int(self.process.stdout.readline())
        self.range = f"{self.address:x}-{self.address + pages * PAGE:x}"
        self.source = ["--pid", str(self.process.pid), "--mapping", self.range]
        self.before = self.state()

    def write(self, pages):
        """Writes these pages. Returns how many system calls of the process were disturbed."""
        return self.ask(" ".join(map(str, pages)))

    def map_anew(self, first, last):
        expect(self.ask(f"anew {first} {last}") == 0, "a system call of the process was disturbed")

    def ask(self, line):
        self.process.stdin.write(line + "\n")
        self.process.stdin.flush()
        answer = self.process.stdout.readline()
        expect(answer, f"the process ended with status {self.process.poll()}")
        return int(answer)

    def state(self):
        folder = f"/proc/{self.process.pid}"
        with open(f"{folder}/status", encoding="utf-8") as lines:
            status = dict(line.split(":\t", 1) for line in lines if ":\t" in line)
        with open(f"{folder}/smaps", encoding="utf-8") as lines:
            watched = sum(" uw" in line for line in lines if line.startswith("VmFlags"))
        names = ("TracerPid", "SigBlk", "SigPnd", "Seccomp")
        return [status[name].strip() for name in names], sorted(os.listdir(f"{folder}/fd")), watched

    def expect_as_before(self):
        waited(lambda: self.state() == self.before, SECONDS)
        expect(self.state() == self.before, f"{self.state()} was {self.before}")
        expect(self.write(range(0, self.pages, 7)) == 0, "a system call of the process was disturbed")

    def huge_bytes(self):
        with open(f"/proc/{self.process.pid}/smaps_rollup", encoding="utf-8") as lines:
            return sum(int(line.split()[1]) << 10 for line in lines if line.startswith("AnonHugePages"))


class Drawn(Started):
    """A run of tools/record over drawn pages."""

    MAY_BE_LEFT = ("memory", "map")

    def __init__(self, folder, source, words=(), cause=None, tool=RECORD, **more):
        self.trace_path, self.map_path = os.path.join(folder, "guest.light.pcwt"), os.path.join(folder, "map")
        words = [*(recorder(cause) if cause else [tool]), *source, "--every", "50ms", "--map", self.map_path, *words]
        super().__init__(folder, words, self.trace_path, **more)

    def bytes(self):
        """How much of the trace is written so far."""
        names = [name for name in os.listdir(self.folder) if name.endswith(".part")]
        return sum(os.path.getsize(os.path.join(self.folder, name)) for name in names)

    def wait_for_more_than(self, size):
        """Until a look has seen something. It has seen all of a step then, or the rest comes with the next one."""
        expect(waited(lambda: self.bytes() > size, 2 * SECONDS, 0.01), "the recorder does not look")
        time.sleep(0.1)

    def read(self):
        """The trace, its writes as (tick, page), and its sample."""
        trace = traces.read(read_bytes(self.trace_path))
        written = [record[:2] for record in trace.records()]
        return trace, written, samples.read(self.trace_path, trace, written)

    def places(self):
        """The place in the source of each page of the trace."""
        with open(self.map_path, encoding="ascii") as lines:
            return [int(line.split()[2], 0) for line in lines]

    def expect_whole(self, status=0):
        expect(self.status == status, f"status {self.status}, {self.output!r}, {self.faults!r}")
        left = [name for name in os.listdir(self.folder) if name.endswith(".part")]
        expect(not left, f"left: {left}")
        return self.read()
