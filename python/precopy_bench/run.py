"""Times precopy beside two other programs, compares all outputs, and prints the tables of docs/MEASUREMENTS.md.

    bench/run [-n RUNS] [--only REGEX] [--recorded] [--program PATH]
    bench/run --quick

It builds the other programs and makes missing traces: 1.1 GB. Programs run in turn, each once unmeasured and then RUNS
times. --quick runs all jobs once over small traces and prints no times. bench/README.md says what the tables mean. The
status is 1 if an output differs or a program fails.
"""

import glob
import os
import platform
import re
import sys
import time

from precopy_bench import jobs as work
from precopy_bench.measuring import Fault, Others, Output, figures_of, least_memory, memory_folder, run, write_json
from precopy_bench.programs import built, large_pages, made, timing_parser
from precopy_bench.tables import Tables
from precopy_dev.tree import TOP
from precopy_tools.formats.traces import read_file

MAIN = ("uniform", "zipf", "seq", "phase", "big", "full", "tiny")
RECORDED = ("gzip", "sort")
RELEASED = ("released", "kept")
SWEPT = ("uniform", "zipf")
# Reports by four workers.
SHARED = ("uniform", "zipf", "phase")
WARMED = ("uniform", "zipf", "phase", "big", "tiny")
WRITES = [(f"writes-{k}", 1 << k) for k in (14, 16, 18, 20)]
PAGES = [(f"pages-{k}", 1 << k) for k in (10, 12, 14, 16)]
SHORT = "short"
STARTED = (work.IMAGE, work.REPORT, work.SWEEPS[16, 1], work.LIVE_1)
# A start takes so little time that it needs more runs, by this factor.
MORE_STARTS = 40
GROWN = (work.IMAGE, work.REPORT, work.SWEEPS[16, 1], work.LIVE_1)
# A program that took longer than this in its first run is measured twice at most.
LONG = 4.0
# A job is named if others kept more processors busy during it.
BUSY = 0.3


def asked_for():
    parser = timing_parser("run", __doc__, 5, "uniform image$")
    add = parser.add_argument
    add("--quick", action="store_true", help="only compare outputs, over small traces")
    add("--recorded", action="store_true", help="make gzip and sort too, which needs valgrind")
    add("--limit", type=float, default=300, metavar="SECONDS", help="for one run, 300 by default")
    return parser.parse_args()


def example(path):
    """A trace of examples/, for which no manifest has the sizes."""
    trace, records = read_file(path)
    name = "example-" + os.path.basename(path).removesuffix(".pcwt")
    last = records[-1][0] if records else 0
    return work.Trace(name, path, trace.size, trace.pages, trace.writes, last, len(trace.text))


# ---- Runs


def processors():
    """On how many processors this process and those that it starts may run."""
    return len(os.sched_getaffinity(0)) if hasattr(os, "sched_getaffinity") else os.cpu_count()


class Bench:
    def __init__(self, asked):
        self.asked = asked
        if not os.access(asked.program, os.X_OK):
            raise Fault(f"{asked.program} is not built: ./precopy --help builds it, or name one by --program")
        others = built()
        self.programs = {"precopy": os.path.abspath(asked.program), **others, "peer": others["fast"]}
        self.envs = {name: dict(os.environ) for name in self.programs}
        self.envs["precopy"]["GLIBC_TUNABLES"] = large_pages()
        self.output, self.wanted = Output(memory_folder()), Output(memory_folder())
        self.taken, self.faults, self.compared = {}, [], 0
        self.allowed = set()

    def once(self, program, words, trace, output):
        self.allowed.add(processors())
        words = [self.programs[program], *words, *work.MORE_WORDS.get(program, ())]
        return run(words, self.envs[program], trace.path, output, self.asked.limit)

    def checked(self, program, words, trace, job):
        """One run, whose output must be the one that is wanted; else None."""
        result = self.once(program, words, trace, self.output)
        if result.status:
            self.fail(trace, job, f"{program} ends with status {result.status}: {result.message}")
        elif not self.output.equals(self.wanted):
            wanted = " ".join(["precopy", *job.same_as])
            self.fail(trace, job, f"{program} writes something else than {wanted}: {' '.join(words)[:300]}")
        else:
            self.compared += 1
            return result
        return None

    def fail(self, trace, job, what):
        self.faults.append(f"{trace.name} {job.name}: {what}")
        print(f"FAILED {self.faults[-1]}", file=sys.stderr, flush=True)

    def measure(self, trace, job, runs):
        """Runs all programs of a job: each once to compare, and then `runs` times in turn."""
        words = job.words(trace)
        first = self.once("precopy", list(job.same_as) or words, trace, self.wanted)
        if first.status:
            self.fail(trace, job, f"precopy ends with status {first.status}: {first.message}")
            return
        left = {}
        for program in job.programs:
            result = self.checked(program, words, trace, job)
            if result:
                left[program] = runs if result.wall < LONG else min(runs, 2)
        taken = {program: [] for program in left}
        for number in range(runs):
            order = list(left)
            order = order[number % max(1, len(order)) :] + order[: number % max(1, len(order))]
            for program in order:
                result = self.checked(program, words, trace, job) if left[program] > number else None
                if result:
                    taken[program].append(result)
        self.taken.update({(trace.name, job.name, it): figures_of(runs) for it, runs in taken.items() if runs})
        print(".", end="", file=sys.stderr, flush=True)


def is_asked(asked, trace, job):
    return re.search(asked.only, f"{trace} {job.name}")


def plan(asked):
    """The pairs of a trace's name and a job, as the tables need them."""
    pairs = []
    recorded = RECORDED if asked.recorded else ()
    for trace in (*MAIN, *recorded):
        pairs += [(trace, job) for job in (work.IMAGE, work.REPORT, work.LIVE_1, work.LIVE_2)]
    pairs += [(trace, work.REPORT_4) for trace in SHARED]
    for trace in SWEPT:
        pairs += [(trace, job) for job in (work.SWEEP_1, *work.SWEEPS.values())]
    pairs += [(trace, job) for trace in RELEASED for job in (work.IMAGE, work.LIVE_1, work.LIVE_2)]
    pairs += [(trace, job) for trace in (*WARMED, *recorded) for job in (work.COLD, work.WARM)]
    pairs += [(trace, job) for trace, _ in WRITES + PAGES for job in GROWN]
    pairs += [(SHORT, job) for job in STARTED]
    return [pair for pair in pairs if is_asked(asked, *pair)]


def print_machine(bench, others):
    """Date, machine, and what else ran."""
    model = ""
    if os.path.exists("/proc/cpuinfo"):
        with open("/proc/cpuinfo", encoding="utf-8", errors="replace") as file:
            found = re.search(r"^model name\s*:\s*(.*)$", file.read(), re.MULTILINE)
            model = f" ({found[1]})" if found else ""
    allowed = " or ".join(str(it) for it in sorted(bench.allowed))
    average = others.average()
    busy = "how busy others were is not known" if average is None else f"others kept {average:.1f} processors busy"
    date = time.strftime("%d %B %Y, %H:%M UTC", time.gmtime()).lstrip("0")
    system = f"{platform.system()} {platform.release()}"
    print(f"{date}; {allowed} of {os.cpu_count()} processors{model}; {system}; {busy} on average.")
    runs = f"{bench.asked.n} runs"
    print(f"Least and, in brackets, median of {runs}; processor time is the least, memory the greatest.\n")
    if len(bench.allowed) > 1:
        print("**The number of processors that runs might use changed meanwhile: these times are not comparable.**\n")


def print_busy(busy):
    """During which jobs others had processors."""
    if busy:
        shown = ", ".join(f"{trace} {job} ({average:.1f})" for (trace, job), average in busy.items())
        print(f"Processors that others kept busy during a job, if more than {BUSY}: {shown}.\n")


def print_tables(bench, least):
    tables = Tables(bench.taken, least)
    names = (*MAIN, *RECORDED)
    tables.of_command("`precopy image`", "image", names, work.ALL)
    tables.of_command("`precopy report`", "report", names, work.ALL)
    tables.of_command("`precopy report --workers 4`", work.REPORT_4.name, SHARED, work.BOTH)
    tables.of_sweeps(work.SWEEPS, work.SWEEP_1, SWEPT)
    one = "One replayer, one copier, one stream; the memory at the end."
    two = "Two of each; pages are skipped; the memory at the stop."
    tables.of_command("`precopy live`", "live", names, work.BOTH, one)
    tables.of_command("`precopy live`, two of each", "live-2", names, work.BOTH, two)
    tables.of_released(RELEASED, (work.IMAGE, work.LIVE_1, work.LIVE_2))
    tables.of_warm((*WARMED, *RECORDED), work.COLD, work.WARM)
    tables.of_growth("Growth with writes, 1,024 pages", WRITES, GROWN, "write")
    tables.of_growth("Growth with pages, 262,144 writes", PAGES, GROWN, "page")
    tables.of_starts(SHORT, STARTED, f"A trace of 16 writes, {bench.asked.n * MORE_STARTS} runs.")


def quick(bench):
    names = [f"small-{name}" for name in (*MAIN, *RELEASED)]
    made_traces = made(names, bench.asked.traces)
    traces = [made_traces[name] for name in names]
    traces += [example(path) for path in sorted(glob.glob(os.path.join(TOP, "examples", "*.pcwt")))]
    for trace in traces:
        for job in work.quick_jobs():
            if is_asked(bench.asked, trace.name, job):
                bench.measure(trace, job, 0)


def measured(bench):
    pairs = plan(bench.asked)
    traces = made(sorted({trace for trace, _ in pairs}), bench.asked.traces)
    others, at_first, busy = Others(), least_memory(), {}
    for trace, job in pairs:
        beside = Others()
        bench.measure(traces[trace], job, bench.asked.n * (MORE_STARTS if trace == SHORT else 1))
        average = beside.average()
        if average and average > BUSY:
            busy[trace, job.name] = average
    print(file=sys.stderr)
    print_machine(bench, others)
    print_busy(busy)
    least = max(at_first, least_memory())
    print_tables(bench, least)
    write_json(bench.asked.json, least_memory=least, taken=[[*key, it] for key, it in bench.taken.items()])


def main():
    asked = asked_for()
    try:
        bench = Bench(asked)
        (quick if asked.quick else measured)(bench)
    except (Fault, OSError, ValueError, KeyError) as fault:
        print(f"run: {fault}", file=sys.stderr)
        return 1
    if not bench.compared and not bench.faults:
        print(f"run: no trace and job match {asked.only.pattern}", file=sys.stderr)
        return 1
    print(f"{bench.compared} outputs compared and equal, {len(bench.faults)} faults", flush=True)
    for fault in bench.faults:
        print(f"FAILED {fault}")
    return 1 if bench.faults else 0


if __name__ == "__main__":
    sys.exit(main())
