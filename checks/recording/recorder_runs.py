"""Runs of tools/record over a process that writes known pages, and what holds of each, for checks/recording."""

import json
import os
import signal
import stat
import subprocess
import sys
import time

from checks.lib.harness import expect
from checks.lib.tally import Late
from checks.recording.known_writes import PAGE, PAGES
from precopy_dev.files import read_bytes, write_file
from precopy_dev.tree import TOP
from precopy_tools.formats import traces

RECORD = os.path.join(TOP, "tools", "record")

SECONDS = 15


def recorder(cause=None):
    """The words of tools/record, as it is, or as it is on a system that differs from this one."""
    stand_in = [sys.executable, "-B", "-m", "checks.recording.stand_in", cause, "precopy_tools.record.command"]
    return stand_in if cause else [RECORD]


class Watched:
    """A process of its own that ends with the block that watches it."""

    def __enter__(self):
        return self

    def __exit__(self, *_):
        self.process.kill()
        self.process.communicate()


class Writing(Watched):
    """The process that writes, in a folder of its own."""

    def __init__(self, folder, private):
        self.path = "-" if private else write_file(bytes(PAGES * PAGE), folder, "memory")
        words = [sys.executable, os.path.join(TOP, "checks", "recording", "known_writes.py"), self.path]
        self.process = subprocess.Popen(words, stdin=subprocess.PIPE, stdout=subprocess.PIPE, text=True)
        self.address = int(self.process.stdout.readline())
        self.source = ["--pid", str(self.process.pid)] if private else ["--file", self.path]

    def go(self):
        self.process.stdin.write("go\n")
        self.process.stdin.flush()

    def wait(self):
        self.later, self.times = json.loads(self.process.stdout.readline())


class Started:
    """One run of a recorder into a folder, from its first sample on."""

    MAY_BE_LEFT = ("memory", "socket")

    def __init__(self, folder, words, path, errors=subprocess.PIPE, **more):
        self.folder = folder
        command = [*words, path]
        self.process = subprocess.Popen(command, stdout=subprocess.PIPE, stderr=errors, text=True, **more)
        self.began = ""
        for line in self.process.stdout:
            self.began += line
            if line.startswith("recording"):
                break

    def end(self, number=None, seconds=2 * SECONDS):
        if number:
            self.process.send_signal(number)
        try:
            rest, self.faults = self.process.communicate(timeout=seconds)
        except subprocess.TimeoutExpired as late:
            self.process.kill()
            raise Late(f"the recorder does not end: {late}") from late
        self.output, self.status = self.began + rest, self.process.returncode

    def expect_nothing(self, status, *words):
        """A recorder that was refused says these words, and leaves nothing of its own."""
        expect(self.status == status, f"status {self.status}, {self.output!r}, {self.faults!r}")
        for word in words:
            expect(word in self.faults, f"{word!r} is not in {self.faults!r}")
        left = [name for name in os.listdir(self.folder) if name not in self.MAY_BE_LEFT]
        expect(not left, f"left: {left}")


class Recording(Started):
    """A run of tools/record that writes all of a trace."""

    def __init__(self, folder, source, words, name="guest.pcwt", errors=subprocess.PIPE):
        self.trace_path, self.image_path, self.map_path = (os.path.join(folder, n) for n in (name, "image", "map"))
        beside = ["--map", self.map_path] + ([] if "--light" in words else ["--image", self.image_path])
        super().__init__(folder, [RECORD, *source, "--every", "50ms", *beside, *words], self.trace_path, errors)
        self.known_begin = time.monotonic()

    def trace(self):
        return traces.read(read_bytes(self.trace_path))

    def image(self):
        return read_bytes(self.image_path)

    def places(self):
        """The place in the source of each page of the trace."""
        found = []
        with open(self.map_path, encoding="ascii") as lines:
            for line in lines:
                first, count, place = (int(word, 0) for word in line.split())
                expect(first == len(found), f"the map goes on at page {first} after {len(found)} pages")
                found += range(place, place + count * PAGE, PAGE)
        return found


def expect_whole(program, recording, status=0):
    """What holds of each recording that leaves a trace. Returns the trace and its writes after the first sample."""
    told = f"status {recording.status}, {recording.output!r}, {recording.faults!r}"
    expect(recording.status == status, told)
    with open(recording.trace_path, "rb") as file:
        made = subprocess.run([program, "image"], stdin=file, capture_output=True, timeout=SECONDS)
    expect(made.returncode == 0, f"image: {made.stderr!r}")
    trace = recording.trace()
    records = list(trace.records())
    if os.path.exists(recording.image_path):
        expect(made.stdout == recording.image(), "the image of the trace is not the last memory")
    expect(len(made.stdout) == trace.pages * PAGE, f"the image has {len(made.stdout)} bytes")
    for name in os.listdir(recording.folder):
        expect(not name.endswith(".part"), f"{name} is left")
    expect(stat.S_IMODE(os.stat(recording.trace_path).st_mode) == 0o600, "others may read the trace")
    behind = [record for record in records if record[0] > 0]
    expect(all(record[0] > 1000 for record in behind), "a write stands before tick 1000 and is not of the first sample")
    return trace, behind


def recorded(folder, private, *words, name="guest.pcwt", end=signal.SIGINT):
    """A recording of all steps, ended by a signal."""
    with Writing(folder, private) as writing:
        recording = Recording(folder, writing.source, words, name)
        writing.go()
        writing.wait()
        recording.end(end)
    return writing, recording
