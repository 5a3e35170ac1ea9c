"""Times live runs by the page: processor time of the whole process for each page that is sent.

    bench/pages [-n RUNS] [--lane N] [--traces DIR] [--only REGEX]

How many pages a run sends depends on how its threads run, so times of whole runs compare different work. Here
`live_counts` does what `precopy live` does, and tells how many frames its receivers took. Fast hands over pages by
pointer, and the peer is fast with frames of bytes, as precopy has them. Both also count the pages of the final copy,
which lanes do not carry; with long lanes these are few. Output goes nowhere. Programs run in turn; each figure is the
least of RUNS, 6 by default, but of memory the most. It needs cargo, and `live_counts`, which `rt run` in its folder
builds.
"""

import os
import re
import sys

from precopy_bench import jobs as work
from precopy_bench.measuring import Fault, Nowhere, Others, run, write_json
from precopy_bench.programs import built, large_pages, made, timing_parser

TRACES = ("uniform", "zipf", "seq", "phase", "big", "full", "tiny")
COUNTS = (1, 4)
LIMIT = 300


def asked_for():
    parser = timing_parser("pages", __doc__, 6, "uniform 4$", "live_counts")
    parser.add_argument("--lane", type=int, default=65_536, metavar="N", help="frames of a lane, 65536 by default")
    return parser.parse_args()


class Programs:
    """Each program by its name: its path, the words that follow those of the job, and its environment."""

    def __init__(self, counting):
        if not os.access(counting, os.X_OK):
            raise Fault(f"{counting} is not built: `rt run` in crates/live_counts builds it")
        fast = built()["fast"]
        large = {**os.environ, "GLIBC_TUNABLES": large_pages()}
        counted = {**os.environ, "FAST_COUNTS": "1"}
        self.of = {"precopy": (counting, [], large), "fast": (fast, [], counted)}
        self.of["peer"] = (fast, work.MORE_WORDS["peer"], counted)

    def once(self, name, words, trace):
        """One run, and how many pages it sent."""
        path, more, env = self.of[name]
        taken = run([path, *words, *more], env, trace.path, Nowhere(), LIMIT)
        told = re.search(r"^sent (\d+)$", taken.message, re.MULTILINE)
        if taken.status or not told or not int(told[1]):
            raise Fault(f"{name} over {trace.name} ends with status {taken.status}: {taken.message}")
        return taken, int(told[1])


def figures_of(runs):
    """Least wall ms; processor ms, pages sent and processor ns a page of the run with the least of these; most MB."""
    taken, sent = min(runs, key=lambda it: it[0].processor / it[1])
    wall, most = min(it[0].wall for it in runs), max(it[0].memory for it in runs)
    return 1000 * wall, 1000 * taken.processor, sent, 1e9 * taken.processor / sent, most / 1e6


def main():
    asked = asked_for()
    programs, others = Programs(asked.program), Others()
    pairs = [(trace, count) for trace in TRACES for count in COUNTS if re.search(asked.only, f"{trace} {count}")]
    traces = made(sorted({trace for trace, _ in pairs}), asked.traces)
    print(f"Lanes of {asked.lane:,} frames. Wall ms, processor ms, pages sent, processor ns a page, MB.\n")
    print("| Trace, of each | Precopy | Fast | Peer | Precopy / peer, a page |\n|---|---|---|---|---|")
    found = []
    for trace, count in pairs:
        words = work.live(workers=count, streams=count, replayers=count, lane=asked.lane)(traces[trace])
        taken = {name: [] for name in programs.of}
        for _ in range(asked.n):
            for name, runs in taken.items():
                runs.append(programs.once(name, words, traces[trace]))
        figures = {name: figures_of(runs) for name, runs in taken.items()}
        cells = " | ".join(", ".join(f"{it:,.0f}" for it in each) for each in figures.values())
        print(f"| {trace}, {count} | {cells} | {figures['precopy'][3] / figures['peer'][3]:.2f} |", flush=True)
        found.append([trace, count, figures])
    write_json(asked.json, lane=asked.lane, pages=found)
    busy = others.average()
    print(f"\nOthers kept {busy:.1f} processors busy on average." if busy is not None else "")


if __name__ == "__main__":
    try:
        main()
    except (Fault, OSError, ValueError, KeyError, re.error) as fault:
        print(f"bench/pages: {fault}", file=sys.stderr)
        sys.exit(1)
