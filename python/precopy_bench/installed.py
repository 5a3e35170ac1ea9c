"""Times the program as it is installed, beside ./precopy, the program without a launcher, and fast.

    bench/installed [-n RUNS] [--only REGEX] [--traces DIR] [--program PATH]

Prints the table "As installed" of bench/results: wall ms, processor ms and MB, the least of RUNS, 4 by default,
but of memory the most. Output goes nowhere, and programs run in turn. An installation of the launcher and the program
is made in a temporary folder. It needs cargo and a C compiler; build the program first with `./precopy --help`.
"""

import os
import re
import shutil
import subprocess
import sys
import tempfile

from precopy_bench import jobs as work
from precopy_bench.measuring import Fault, Nowhere, Others, run, write_json
from precopy_bench.programs import built, made, timing_parser
from precopy_dev.files import write_file
from precopy_dev.packaging import compilers, launcher
from precopy_dev.tree import TOP

LIMIT = 300


def live(count, lane=65_536):
    return work.live(workers=count, streams=count, replayers=count, lane=lane)


IMAGE, REPORT, SWEEP = lambda _: ["image"], work.report(), work.sweep(16, 1)
OTHERS = (("`image`", IMAGE), ("`live`, 1", live(1)), ("`live`, 4", live(4)))
ROWS = [
    ("uniform", "`image`", IMAGE),
    ("uniform", "`report`", REPORT),
    ("uniform", "`sweep`, 16 cases", SWEEP),
    ("uniform", "`live`, 1 of each", live(1)),
    ("uniform", "`live`, 4 of each", live(4)),
    ("uniform", "`live`, 16 of each", live(16)),
    ("uniform", "`live`, 1, short", live(1, 1024)),
    *[(trace, *row) for trace in ("zipf", "phase", "big", "full") for row in OTHERS],
]


def install(program, folder):
    """Puts a launcher and the program into a folder, as an installation has them. Returns the launcher's path."""
    proper, called = (os.path.join(folder, name, "precopy") for name in ("lib", "bin"))
    for path in (proper, called):
        os.mkdir(os.path.dirname(path))
    shutil.copy(program, proper)
    write_file(launcher.launcher(os.path.relpath(proper, os.path.dirname(called))), called)
    os.chmod(called, 0o755)
    return called


def figures_of(runs):
    """The least wall ms and processor ms, and the most MB."""
    least = (min(getattr(it, name) for it in runs) for name in ("wall", "processor"))
    return [*(1000 * it for it in least), max(it.memory for it in runs) / 1e6]


def main():
    asked = timing_parser("installed", __doc__, 4, "uniform").parse_args()
    if not os.access(asked.program, os.X_OK):
        raise Fault(f"{asked.program} is not built: ./precopy --help builds it")
    rows = [row for row in ROWS if re.search(asked.only, f"{row[0]} {row[1]}")]
    plain = {name: value for name, value in os.environ.items() if name != "GLIBC_TUNABLES"}
    traces, others = made(sorted({trace for trace, *_ in rows}), asked.traces), Others()
    with tempfile.TemporaryDirectory() as folder:
        script, called = os.path.join(TOP, "precopy"), install(asked.program, folder)
        # A script whose program is older than a source would build it while it is timed.
        subprocess.run([script, "--help"], stdout=subprocess.DEVNULL, check=True)
        programs = {"`./precopy`": script, "Installed": called, "Bare": asked.program, "Fast": built()["fast"]}
        print(f"| Trace, command | {' | '.join(programs)} |\n|---|---|---|---|---|")
        found = []
        for trace, name, words in rows:
            taken = {program: [] for program in programs}
            for _ in range(asked.n):
                for program, runs in taken.items():
                    path = traces[trace].path
                    once = run([programs[program], *words(traces[trace])], plain, path, Nowhere(), LIMIT)
                    if once.status:
                        raise Fault(f"{program} over {trace} ends with status {once.status}: {once.message}")
                    runs.append(once)
            figures = [figures_of(runs) for runs in taken.values()]
            cells = " | ".join(", ".join(f"{it:,.0f}" for it in each) for each in figures)
            print(f"| {trace} {name} | {cells} |", flush=True)
            found.append([trace, name.replace("`", ""), figures[1], figures[3]])
    write_json(asked.json, installed=found)
    busy = others.average()
    print(f"\nOthers kept {busy:.2f} processors busy on average." if busy is not None else "")


if __name__ == "__main__":
    try:
        main()
    except (Fault, compilers.Lacks, subprocess.CalledProcessError, OSError, ValueError, KeyError, re.error) as fault:
        print(f"bench/installed: {fault}", file=sys.stderr)
        sys.exit(1)
