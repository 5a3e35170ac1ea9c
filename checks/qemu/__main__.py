"""Records a guest of QEMU, plans its migration, migrates it, and compares the memory of both sides.

    checks/run qemu [PRECOPY]

The guest has 128 MiB and is emulated. All of that is one run of tools/compare-qemu. Its plan must be that of precopy,
and the migration near the plan for the bandwidth that QEMU reached: the guest writes at a steady pace. The trace that
it keeps is one that precopy takes, and has as many pages as the guest. It takes about a minute and a half; QEMU, a
kernel and busybox are installed if they can be, or else all of it is left out.
"""

import glob
import os
import re
from typing import NamedTuple

from checks.lib.harness import expect, run, run_cases, run_main
from checks.lib.tally import LeftOut, expect_in_time, need
from checks.lib.traces import Trace
from precopy_dev.tree import TOP

COMPARE = os.path.join(TOP, "tools", "compare-qemu")
SECONDS = 400
# How far, in per cent, a plan may be from what QEMU does with a guest that nothing else disturbs.
MOST_APART, MOST_APART_AGAIN = 20, 30


def migrated(program, folder):
    need("cc", "busybox", "qemu-system-x86_64")
    if not glob.glob("/boot/vmlinuz-*"):
        raise LeftOut("there is no kernel in /boot")
    path = os.path.join(folder, "guest.light.pcwt")
    words = ["slow", "--light", "--for", "8s", "--keep", path, "--program", program]
    done = run([COMPARE, *words], seconds=SECONDS)
    told = done.output.decode()
    expect(done.status == 0, f"{done.ended()}, {told[-1500:]} {done.faults[-1500:]!r}")
    memory = re.search(r"^memory: 0 of ([\d,]+) pages differ at the destination$", told, re.M)
    expect(memory, told)
    trace = Trace.at(path)
    settings = settings_of(re.search(r"^plan: (--start .*)$", told, re.M)[1])
    (sent, sent_by_qemu), (time, time_of_qemu) = numbers(told, "pages sent"), numbers(told, "time, ms")
    plan = planned(program, trace, settings)
    expect((sent, time) == (plan.sent, plan.time), f"the tool tells {sent} pages in {time} ms, and the plan is {plan}")
    expect(abs(plan.rate() / settings["--min"] - 1) < 0.05, f"{plan} does not use the link of {settings}")
    # A busy machine does not give QEMU all of the bandwidth. What it reached is planned too.
    reached = min(settings["--min"], round(1000 * sent_by_qemu / time_of_qemu))
    limit = settings["--threshold"] * reached // settings["--min"] + 1
    again = planned(program, trace, {**settings, "--min": reached, "--max": reached, "--threshold": limit})
    print(f"  {plan}; with what QEMU reached, {100 * reached // settings['--min']} per cent, {again}", flush=True)
    expect_near("pages sent", again.sent, sent_by_qemu, MOST_APART, told)
    expect_near("time, ms", again.time, time_of_qemu, MOST_APART, told)
    # Most pages go in the first round, whatever the guest writes meanwhile.
    expect_near("pages sent again", again.sent - again.first, sent_by_qemu - again.first, MOST_APART_AGAIN, told)
    expect(trace.records and trace.last > 5_000, f"{len(trace.records)} writes up to tick {trace.last}")
    image = run([program, "image"], trace.text)
    expect(image.status == 0 and image.output == trace.memory(), f"the image of the recorded trace: {image}")
    print("\n".join(f"  {line}" for line in told.splitlines()[-12:]), flush=True)


class Plan(NamedTuple):
    """Pages of the first round, all that are sent, and the ticks from the start until the guest runs again."""

    first: int
    sent: int
    time: int

    def rate(self):
        return 1000 * self.sent / self.time


def settings_of(line):
    """The options of a plan by their names."""
    words = line.split()
    return dict(zip(words[::2], map(int, words[1::2])))


def planned(program, trace, settings):
    done = run([program, "report", *(f"{name}={value}" for name, value in settings.items())], trace.text)
    expect(done.status == 0, f"{settings}: {done}")
    first = re.search(rb"^round 0 .* sent (\d+) ", done.output, re.M)
    stop = re.search(rb"^stop \w+ at (\d+) pages \d+ down (\d+) total (\d+)$", done.output, re.M)
    at, down, total = map(int, stop.groups())
    return Plan(int(first[1]), total, at - settings["--start"] + down)


def numbers(told, name):
    """What a line tells: as it was planned, and of QEMU."""
    found = re.search(rf"^{name} +([\d,]+) +([\d,]+)", told, re.M)
    return tuple(int(number.replace(",", "")) for number in found.groups())


def expect_near(name, planned, real, most, told):
    apart = f"{name}: planned {planned:,}, QEMU {real:,}"
    print(f"  {apart}", flush=True)
    expect_in_time(real > 0 and abs(planned / real - 1) <= most / 100, f"{apart}\n{told}")


def check(tally, given):
    run_cases(tally, [migrated], given.precopy, only=given.only)


if __name__ == "__main__":
    run_main(check, __doc__, "precopy")
