"""Cases of checks/evacuation: the tool is ended from outside."""

import contextlib
import os
import signal
import subprocess

from checks.evacuation.cases import EVACUATE, LINK, Programs, expect, steady_guest, write_record
from checks.lib.harness import cases_of, waited
from checks.lib.tally import expect_in_time
from precopy_dev.files import write_file

SECONDS = 60
# A program that plans nothing, and takes its time for that.
SLOW = """\
#!/bin/sh
: > {folder}/begun
sleep 0.5
exit 1
"""


def processes_of(folder: str) -> list[str]:
    """The processes whose words name a folder."""
    found = []
    for number in filter(str.isdigit, os.listdir("/proc")):
        with contextlib.suppress(OSError), open(f"/proc/{number}/cmdline", "rb") as file:
            found += [number] if folder.encode() in file.read() else []
    return found


def ended_while_it_plans(programs: Programs, folder: str) -> None:
    """Whatever ends the tool while it plans, none of its processes goes on."""
    records = [write_record(folder, f"guest{number}", steady_guest(100, 3, 1)) for number in range(9)]
    program = write_file(SLOW.format(folder=folder), folder, "view")
    os.chmod(program, 0o700)
    command = [EVACUATE, "--program", program, "--scheduler", programs.scheduler, *records, "--link", LINK]
    for number in signal.SIGTERM, signal.SIGKILL:
        with subprocess.Popen([*command, "--jobs", "3"], stderr=subprocess.DEVNULL) as process:
            expect_in_time(waited(lambda: os.path.exists(f"{folder}/begun"), SECONDS), "it does not begin")
            count = len(processes_of(folder))
            process.send_signal(number)
        expect_in_time(count > 3, f"only {count} processes had begun")
        os.unlink(f"{folder}/begun")
        expect(waited(lambda: not processes_of(folder), SECONDS), f"{number.name}: {processes_of(folder)} go on")


CASES = cases_of(__name__)
