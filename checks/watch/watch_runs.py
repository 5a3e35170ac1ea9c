"""Runs of tools/watch over stand-ins for QEMU, and what it tells of them, for checks/watch."""

import os
import re
import signal
import subprocess
import time

from checks.lib.harness import expect
from checks.lib.tally import Failure, Late
from checks.recording.memory_cases import Known
from precopy_dev.files import read_text, write_file
from precopy_dev.tree import TOP

WATCH = os.path.join(TOP, "tools", "watch")
SECONDS = 90
LINE = re.compile(r'([a-z_]+)(?:\{((?:[a-z_]+="(?:[^"\\]|\\.)*",?)+)\})? (\S+)')
LABEL = re.compile(r'([a-z_]+)="((?:[^"\\]|\\.)*)"')
WRITTEN = ("precopy_watch_last_write_timestamp_seconds",)
LIMITS = '[default]\nlink = "64MiB"\ndowntime = "300ms"\n'


def metrics_in(text: str) -> dict[tuple, float]:
    """The values of a text of Prometheus, by metric and labels. Each has one value, and each metric its type."""
    found, types = {}, {}
    expect(text.endswith("\n"), f"the text does not end with a line: {text[-80:]!r}")
    for line in text.splitlines():
        if line.startswith("# TYPE "):
            _, _, name, kind = line.split(" ")
            expect(name not in types, f"two types: {line}")
            types[name] = kind
            continue
        if line.startswith("# HELP "):
            continue
        match = LINE.fullmatch(line)
        expect(match and match[1] in types, f"no line of a metric: {line!r}")
        key = (match[1], *sorted(LABEL.findall(match[2] or "")))
        expect(key not in found, f"told twice: {line}")
        found[key] = float(match[3])
    return found


def of_guest(metric: str, guest: str, **labels: str) -> tuple:
    return (metric, *sorted([("guest", guest), *labels.items()]))


class Watching:
    """One run of tools/watch, in a folder with the sockets of its guests."""

    def __init__(self, program, folder, *words, limits=LIMITS, segment="1500ms", is_libvirt=False, **more):
        self.folder, self.textfile = folder, os.path.join(folder, more.pop("textfile", "precopy.prom"))
        self.output, self.limits = os.path.join(folder, "records"), os.path.join(folder, "limits.toml")
        os.makedirs(self.output, exist_ok=True)
        self.put_limits(limits)
        source = [] if is_libvirt else ["--monitors", os.path.join(folder, "*.qmp")]
        asked = ["--textfile", self.textfile, "--output", self.output, "--limits", self.limits, "--segment", segment]
        command = [WATCH, *source, *asked, "--look", "300ms", "--every", "50ms", "--program", program]
        # Predictions wait for one another, and rest, by what they may take of a processor.
        command += ["--processor", "16", *words]
        self.process = subprocess.Popen(command, stdout=subprocess.PIPE, stderr=subprocess.PIPE, text=True, **more)
        self.told = self.faults = ""

    def put_limits(self, text: str) -> None:
        write_file(text, f"{self.limits}.new")
        os.rename(f"{self.limits}.new", self.limits)

    def metrics(self) -> dict[tuple, float]:
        """What it tells now; nothing before its first text."""
        try:
            return metrics_in(read_text(self.textfile))
        except FileNotFoundError:
            return {}

    def wait_for(self, holds, what: str, seconds: float = SECONDS) -> dict[tuple, float]:
        """What it tells as soon as that holds of it."""
        end = time.monotonic() + seconds
        while not holds(found := self.metrics()):
            if self.process.poll() is not None:
                raise Failure(f"{what}: it ended with status {self.process.returncode}: {self.rest()}")
            if time.monotonic() > end:
                raise Late(f"{what}: not within {seconds} s; it tells {found}; {self.logs()}")
            time.sleep(0.05)
        return found

    def wait_for_value(self, metric: str, guest: str, least: float, **labels: str) -> dict[tuple, float]:
        key = of_guest(metric, guest, **labels)
        return self.wait_for(lambda found: found.get(key, -1.0) >= least, f"{key} from {least} on")

    def wait_for_looks(self, count: int) -> None:
        """Until it has looked for guests and limits so often."""
        for _ in range(count + 1):
            before = self.metrics().get(WRITTEN, 0.0)
            self.wait_for(lambda found: found.get(WRITTEN, 0.0) > before, "it writes on")

    def rest(self) -> str:
        told, faults = self.process.communicate(timeout=SECONDS)
        self.told, self.faults = self.told + told, self.faults + faults
        return self.faults

    def logs(self) -> str:
        """What it says, of a run that is at its end anyhow."""
        self.process.send_signal(signal.SIGKILL)
        return f"{self.rest()[-500:]!r}"

    def end(self, number: int = signal.SIGTERM) -> None:
        self.process.send_signal(number)
        self.rest()

    def end_well(self, is_alone: bool = True) -> None:
        self.end()
        expect(self.process.returncode == 0, f"status {self.process.returncode}: {self.faults!r}")
        left = [name for name in os.listdir(self.output) if name.endswith(".part")]
        expect(not left or not is_alone, f"left: {left}")
        expect("Traceback" not in self.faults, self.faults)

    def records_of(self, guest: str) -> list[str]:
        """The traces of a guest, the earliest first."""
        stamped = re.compile(rf"{re.escape(guest)}\.\d{{8}}T\d{{6}}Z\.light\.pcwt")
        return [os.path.join(self.output, name) for name in sorted(os.listdir(self.output)) if stamped.fullmatch(name)]

    def __enter__(self):
        return self

    def __exit__(self, *_):
        if self.process.poll() is None:
            self.process.kill()
            self.process.communicate()


def known(folder: str, name: str, *words: str, **layout) -> Known:
    """A stand-in for QEMU with 1,000 pages, none of which is zero; or with another layout."""
    return Known(folder, {"nodes": [["a", "private", 1000]], "code": 100, **layout}, *words, name=name)
