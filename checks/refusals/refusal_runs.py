"""Runs a built program with refuse.c between it and the C library, and counts what passed and failed."""

import os
import struct
import tempfile
import threading
import time
from collections import Counter
from concurrent.futures import ThreadPoolExecutor
from dataclasses import dataclass, field

from checks.lib import harness
from checks.lib.tally import Tally, expect, left_out, why_not
from checks.refusals.refused_growths import Functions, Growth
from precopy_dev.tree import TOP

AT_ONCE = 2
SECONDS = 60
# A part ends after this many failures, and all of them after this many runs that did not end.
MOST_FAILURES = 20
MOST_HANGS = 4
# If threads run side by side, the number of growths varies. This many runs in a row must end without a refusal.
LAST_RUNS = 3
# A program that asks so often has run away.
MOST = 20000
# All up to this one are refused, each in a run of its own; after it only some.
ALL_UP_TO = 2000
STRIDE = 7

COUNTS = "growths threads inner reads writes faults refused".split()
GROWTH = 1 + COUNTS.index("growths")


@dataclass
class Run(harness.Run):
    """What came of a run, and its counts. Of what was refused first: the growth, the next growth of the same thread if
    that was granted, and the function of the thread that would have been started."""

    counts: dict = field(default_factory=lambda: dict.fromkeys(COUNTS, 0))
    refused: Growth | None = None
    again: Growth | None = None
    function: str = ""

    def __str__(self):
        growth = f"; refused were {self.refused}" if self.refused else ""
        return super().__str__() + growth + (f"; no thread runs {self.function}" if self.function else "")


# After the counts: the kind of what was refused first, the function of the thread that was being started, whether the
# next growth is told, whether that was granted; then of both growths the size, whether it moves an older room, and six
# addresses; the program that was run; and how many starts of threads differ, with the two addresses of each.
TOLD = struct.Struct("<8Q4Q8Q8Q1024sQ128Q")
SHARED = 4096


class Runner:
    def __init__(self, program, folder, shim):
        self.program = program
        self.folder = folder
        self.shim = shim
        self.local = threading.local()
        self.runs = Counter()
        self.functions = {}
        # Of each program, the function of the thread that starts after a growth at a place.
        self.starts = {}

    def gives_up(self, tally):
        """Whether so much failed that more runs would show nothing new."""
        if tally.failed < MOST_FAILURES and self.runs["hung"] < MOST_HANGS:
            return False
        if not tally.gave_up:
            tally.gave_up = True
            tally.add(False, f"{tally.title}: given up")
        return True

    def trace(self, name):
        return os.path.join(self.folder, name + ".pcwt")

    def counts_file(self):
        if not hasattr(self.local, "file"):
            self.local.path = os.path.join(self.folder, f"counts.{threading.get_ident()}")
            self.local.file = open(self.local.path, "w+b", buffering=0)
        os.pwrite(self.local.file.fileno(), bytes(SHARED), 0)
        return self.local.path

    def functions_of(self, program):
        if program not in self.functions:
            self.functions[program] = Functions(program)
        return self.functions[program]

    def tell(self, run):
        """Reads what the shim reported about the run that has just ended."""
        numbers = TOLD.unpack(os.pread(self.local.file.fileno(), TOLD.size, 0))
        run.counts = dict(zip(COUNTS, numbers))
        kind, function, is_next, is_granted = numbers[8:12]
        program = numbers[28].split(b"\0")[0].decode("utf-8", "surrogateescape")
        starts = self.starts.setdefault(program, {})
        starts.update(zip(numbers[30::2], numbers[31::2]))
        if not kind:
            return
        functions = self.functions_of(program)
        if kind == GROWTH:
            run.refused = Growth(numbers[12:20], functions)
            function = starts.get(run.refused.place)
            if is_next and is_granted:
                run.again = Growth(numbers[20:28], functions)
        if function:
            run.function = functions.at(function + 1)

    def run(self, job, **refused):
        """Runs a job with what is refused; with nothing named, nothing is between it and the C library."""
        environment = {"PATH": os.environ.get("PATH", "")}
        if refused:
            environment.update({name: str(value) for name, value in refused.items()})
            environment["LD_PRELOAD"] = self.shim
            environment["REFUSE_COUNTS"] = self.counts_file()
        with open(self.trace(job.trace) if job.trace else os.devnull, "rb") as trace:
            how = {"executable": self.program, "env": environment, "close_fds": False}
            done = harness.run(["precopy", *job.words], stdin=trace, seconds=SECONDS, **how)
        self.runs["refused" if refused else "plain"] += 1
        self.runs["hung"] += done.status is None
        run = Run(done.status, done.output, done.faults)
        if refused:
            self.tell(run)
        return run


class Part(Tally):
    """A part of the check, with how often each kind of a right answer came. It says in one line what came of it."""

    def __init__(self, title):
        super().__init__()
        self.title, self.kinds, self.last, self.gave_up, self.told = title, Counter(), 0, False, []

    def seen(self, good, kind, told):
        if good:
            self.kinds[str(kind)] += 1
        self.add(good, told)

    def __str__(self):
        kinds = ", ".join(f"{kind} {count}" for kind, count in sorted(self.kinds.items()))
        return f"{self.title}: {self.passed} passed, {self.failed} failed ({kinds})"


def count_up(runner, tally, job, variable, is_refused):
    """Refuses the first, the second and so on, each by a run that says whether it was refused something, until runs end
    without a refusal."""
    number, without, refused = 1, 0, 0
    while without < LAST_RUNS and not runner.gives_up(tally):
        if number > MOST:
            tally.add(False, f"{job.name}: {variable}={number} is refused still")
            break
        if is_refused(number):
            without, refused, tally.last = 0, refused + 1, number
        else:
            without += 1
        number += 1 if number < ALL_UP_TO or without else STRIDE
    if not refused:
        tally.add(False, f"{job.name}: {variable} refused nothing, so nothing was tried")


def compile_shim(folder):
    shim, source = os.path.join(folder, "refuse.so"), os.path.join(TOP, "checks", "refusals", "refuse.c")
    done = harness.run(["cc", "-shared", "-fPIC", "-O2", "-o", shim, source])
    expect(done.status == 0, f"cc does not compile checks/refusals/refuse.c: {done}")
    return shim


def run_parts(tally, program, prepare, parts_of):
    """Runs the parts of a check, some at a time. Without the tools that they need, all are left out."""
    if why := why_not("cc") or why_not("nm"):
        left_out("all that is refused", why)
        return
    begun = time.monotonic()
    with tempfile.TemporaryDirectory() as folder, ThreadPoolExecutor(AT_ONCE) as pool:
        runner = Runner(program, folder, compile_shim(folder))
        prepare(runner)
        for begun_part in [pool.submit(part, runner, *rest) for part, *rest in parts_of(runner)]:
            part = begun_part.result()
            print(part, flush=True)
            for line in part.told:
                print(f"  whole output, {line}")
            tally.add_all(part)
    counts = f"{runner.runs['refused']} runs that could be refused something, {runner.runs['plain']} after them"
    print(f"{counts}, {time.monotonic() - begun:.0f} s")
