"""Prints the tables of docs/MEASUREMENTS.md, ready to paste, from the figures that other programs of this folder wrote.

    bench/run --recorded --json run.json; bench/installed --json installed.json
    bench/pages --json long.json; bench/pages --lane 1024 --json short.json
    bench/summary run.json installed.json long.json short.json

Any of the files may be left out: then the tables and bars that it gives are too. The last table has all bars.
"""

import math
import re
import sys

from precopy_bench import jobs as work
from precopy_bench.run import GROWN, MAIN, PAGES, RECORDED, SHARED, SWEPT, WARMED, WRITES
from precopy_bench.tables import Tables, table
from precopy_dev.files import read_json

GIB, PAGE = 1 << 30, 4096
# The bars. Memory is that of one of each over uniform before copies of writes, in MB.
MOST_WALL, MOST_FAST, MOST_PEER, MOST_MORE, MOST_GIB = 0.65, 2, 1.3, 1.15, 1.31
MOST_IMAGE, MOST_PLAN, MOST_WARM, MOST_MEMORY = 1.7, 1.3, 1.25, 371
# Those of the main job and of plans, of which some are for four processors or workers.
MOST_IMAGE_WALL, MOST_SHARED, MOST_RECORDED = 1.2, 1.0, 1.2
TRACES = ("uniform", "zipf", "phase", "big", "full", "seq", "tiny", "gzip", "sort")
# The titles of the tables by trace.
PLANS = {"image": "image`", "report": "report`", work.REPORT_4.name: "report --workers 4`"}
LIVE = {"live": "live`", "live-2": "live`, two of each"}


def shown(head, rows, title):
    if rows:
        print(f"### {title}\n")
        table(head, rows)


# ---- bench/run


def of_command(tables, job, title):
    """A table by trace; of live runs with the quotient of processor times, of reports without the memory of fast."""
    is_live, programs = "live" in job, work.BOTH[: 1 if "report" in job else 2]
    rows, plain = [], []
    for trace in (it for it in MAIN + RECORDED if tables.has(it, job)):
        row = [trace, *(tables.time(trace, job, it) for it in work.BOTH), tables.ratio(trace, job, *work.BOTH)]
        row += [tables.ratio(trace, job, *work.BOTH, "processor")] * is_live
        rows.append(row + [tables.memory(trace, job, it) for it in programs])
        plain += [tables.quotient(trace, job, "plain", "precopy")]
    head = ["Trace", "Precopy, ms", "Fast, ms", "Precopy / fast", *["Processor"] * is_live]
    shown([*head, "Precopy, MB", "Fast, MB"][: len(head) + len(programs)], rows, f"`precopy {title}")
    if known := sorted(it for it in plain if not math.isnan(it)):
        print(f"Plain takes {known[0]:.1f} to {known[-1]:.1f} times as long as precopy.\n")


def of_sweeps(tables):
    rows = []
    for trace in SWEPT:
        for cases in (16, 256):
            one, four = (work.SWEEPS[cases, workers].name for workers in (1, 4))
            if tables.has(trace, one) and tables.has(trace, four):
                row = [f"{trace}, {cases}"]
                for job in (one, four):
                    row += [*(tables.time(trace, job, it) for it in work.BOTH), tables.ratio(trace, job, *work.BOTH)]
                rows.append([*row, ", ".join(tables.memory(trace, job, "precopy") for job in (one, four))])
    head = ["Trace, cases", "1 worker, ms", "Fast, ms", "Ratio", "4 workers, ms", "Fast, ms", "Ratio", "MB, 1 and 4"]
    shown(head, rows, "`precopy sweep`")


def of_warm(tables):
    """Returns the ratios of warm starts and cold ones of both programs, by trace."""
    rows, found, both = [], {}, (work.COLD.name, work.WARM.name)
    for trace in (it for it in WARMED + RECORDED if tables.has(it, work.COLD.name) and tables.has(it, work.WARM.name)):
        cold, warm = ([tables.figure(trace, job, it) for it in work.BOTH] for job in both)
        mine, theirs = found[trace] = [later / first for first, later in zip(cold, warm)]
        times, sizes = ([show(trace, job, "precopy") for job in both] for show in (tables.time, tables.memory))
        rows.append([trace, *times, f"{mine:.2f}", f"{theirs:.2f}", ", ".join(sizes)])
    head = ["Trace", "Cold, ms", "Warm, ms", "Warm / cold", "Fast, warm / cold", "MB, cold and warm"]
    shown(head, rows, "Warm starts")
    return found


def of_growth(tables):
    """Of each command the exponent and the ns of each more, with those of fast in brackets."""
    rows = []
    for job in GROWN:
        found = [[tables.growth(series, job.name, it) for it in work.BOTH] for series in (WRITES, PAGES)]
        if all(map(all, found)):
            cells = [
                [f"{mine[0]:.2f} ({theirs[0]:.2f})", f"{1e9 * mine[1]:.0f} ({1e9 * theirs[1]:.0f})"]
                for mine, theirs in found
            ]
            rows.append([f"`{job.name}`", *cells[0], *cells[1]])
    shown(["Command", "Writes: exponent", "ns each", "Pages: exponent", "ns each"], rows, "Growth")


def of_run(told):
    """Prints the tables of bench/run. Returns them, with the ratios of warm starts."""
    tables = Tables({tuple(key): figures for *key, figures in told["taken"]}, told["least_memory"])
    for job, title in PLANS.items():
        of_command(tables, job, title)
    of_sweeps(tables)
    for job, title in LIVE.items():
        of_command(tables, job, title)
    warm = of_warm(tables)
    of_growth(tables)
    return tables, warm


# ---- The bars


class Bars:
    """The rows of the last table: a bar, and what was measured over each trace."""

    def __init__(self):
        self.rows = []

    def add(self, name, most, values, of_fast=None, decimals=2):
        if values:
            cells = {trace: f"{value:.{decimals}f}" for trace, value in values.items()}
            missed = {trace: f"**{cells[trace]}**" for trace, value in values.items() if value > most}
            self.rows.append((f"{name}: {most}", {**cells, **missed}))
        if of_fast:
            self.rows.append(("the same of fast", {trace: f"{value:.2f}" for trace, value in of_fast.items()}))

    def show(self):
        names = [trace for trace in TRACES if any(trace in cells for _, cells in self.rows)]
        rows = [[name, *(cells.get(it, "") for it in names)] for name, cells in self.rows]
        shown(["Bar, at most", *names], rows, "Bars")


def of_count(installed, count):
    """The live runs with so many threads of each kind, by trace: those of the program and those of fast."""
    rows = [row for row in installed if re.search(rf"live, {count}( of each)?$", row[1])]
    return {trace: it for trace, _, it, _ in rows}, {trace: it for trace, _, _, it in rows}


def quotients(above, below, column, names=None):
    return {it: above[it][column] / below[it][column] for it in above if it in below and (not names or it in names)}


def add_live(bars, installed, pages):
    (ones, fast_ones), (fours, fast_fours) = of_count(installed, 1), of_count(installed, 4)
    asked = ("uniform", "zipf", "phase")
    wall, fast_wall = quotients(fours, ones, 0, asked), quotients(fast_fours, fast_ones, 0, asked)
    bars.add("wall, four of each / one", MOST_WALL, wall, fast_wall)
    bars.add("wall, four / fast with four", MOST_FAST, quotients(fours, fast_fours, 0))
    by_page = [(trace, count, each["precopy"][3], each["peer"][3]) for trace, count, each in pages]
    peer = {trace: mine / theirs for trace, count, mine, theirs in by_page if count == 1}
    bars.add("processor a page, one / peer", MOST_PEER, peer)
    more, fast_more = quotients(fours, ones, 1), quotients(fast_fours, fast_ones, 1)
    bars.add("processor, four of each / one", MOST_MORE, more, fast_more)
    (most, fast_most), name = of_count(installed, 16), "wall, sixteen of each / four"
    bars.add(name, MOST_MORE, quotients(most, fours, 0), quotients(fast_most, fast_fours, 0))
    for count, word in ((1, "one"), (4, "four")):
        sent = {trace: mine for trace, many, mine, _ in by_page if many == count and trace in ("uniform", "big")}
        bars.add(f"processor s a GiB, {word}", MOST_GIB, {trace: it / 1e9 * GIB / PAGE for trace, it in sent.items()})


def add_run(bars, tables, warm):
    def ratios(job, names, figure="least"):
        return {it: tables.quotient(it, job, *work.BOTH, figure) for it in names if tables.has(it, job)}

    def beside_one(trace, program):
        """A report by four workers of a program, beside that of fast by one."""
        return tables.figure(trace, work.REPORT_4.name, program) / tables.figure(trace, "report", "fast")

    bars.add("`image`, processor / fast", MOST_IMAGE, ratios("image", TRACES, "processor"))
    bars.add("`image`, wall / fast", MOST_IMAGE_WALL, ratios("image", TRACES))
    bars.add("`report`, wall / fast", MOST_PLAN, ratios("report", MAIN))
    bars.add("`report`, wall / fast", MOST_RECORDED, ratios("report", RECORDED))
    fours = [{it: beside_one(it, name) for it in SHARED if tables.has(it, work.REPORT_4.name)} for name in work.BOTH]
    bars.add("`report`, four workers / fast with one", MOST_SHARED, *fours)
    for (cases, workers), job in work.SWEEPS.items():
        bars.add(f"`sweep`, {cases} cases, {workers} / fast", MOST_PLAN, ratios(job.name, SWEPT))
    mine, theirs = ({name: it[at] for name, it in warm.items()} for at in (0, 1))
    bars.add("wall, warm / cold start", MOST_WARM, mine, theirs)
    kept = tables.taken.get(("uniform", "live", "precopy"))
    bars.add("MB, one of each", MOST_MEMORY, {"uniform": kept["memory"] / 1e6} if kept else {}, decimals=0)


def main():
    tables, warm, pages, installed = None, {}, [], []
    for path in sys.argv[1:]:
        told = read_json(path)
        if "taken" in told:
            tables, warm = of_run(told)
        pages = told["pages"] if told.get("lane") == 65_536 else pages
        installed = told.get("installed", installed)
    bars = Bars()
    add_live(bars, installed, pages)
    if tables:
        add_run(bars, tables, warm)
    bars.show()


if __name__ == "__main__":
    if len(sys.argv) < 2 or sys.argv[1].startswith("-"):
        print(__doc__)
        sys.exit(0 if sys.argv[1:] in (["-h"], ["--help"]) else 2)
    main()
