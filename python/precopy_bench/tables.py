"""The tables of what was measured, in Markdown."""

import math
import statistics

TITLES = {"precopy": "Precopy", "fast": "Fast", "plain": "Plain"}


def ms(seconds):
    value = 1000 * seconds
    return f"{value:,.0f}" if value >= 100 else f"{value:.1f}" if value >= 10 else f"{value:.2f}"


def table(head, rows):
    print("| " + " | ".join(head) + " |")
    print("|" + "---|" * len(head))
    for row in rows:
        print("| " + " | ".join(str(it) for it in row) + " |")
    print(flush=True)


class Tables:
    """`taken` has, by names of trace, job and program, the figures of the runs."""

    def __init__(self, taken, least_memory):
        self.taken = taken
        self.least_memory = least_memory

    def cell(self, trace, job, program, show):
        taken = self.taken.get((trace, job, program))
        return show(taken) if taken else "-"

    def time(self, trace, job, program):
        return self.cell(trace, job, program, lambda it: f"{ms(it['least'])} ({ms(it['median'])})")

    def processor(self, trace, job, program):
        return self.cell(trace, job, program, lambda it: ms(it["processor"]))

    def memory(self, trace, job, program):
        def show(taken):
            memory = taken["memory"]
            sign = "" if memory > self.least_memory * 1.03 else "at most "
            return f"{sign}{memory / 1e6:.0f}"

        return self.cell(trace, job, program, show)

    def figure(self, trace, job, program, name="least"):
        return self.taken.get((trace, job, program), {}).get(name, math.nan)

    def quotient(self, trace, job, above, below, name="least"):
        return self.figure(trace, job, above, name) / self.figure(trace, job, below, name)

    def ratio(self, *words):
        value = self.quotient(*words)
        return "-" if math.isnan(value) else f"{value:.1f}"

    def growth(self, series, job, program):
        """Over traces and their counts the exponent of the growth of times, and the seconds of each more at its end."""
        counts = [count for _, count in series]
        times = [self.figure(trace, job, program) for trace, _ in series]
        if any(map(math.isnan, times)):
            return None
        # The k of the line `time = c * count ** k` with the least squares of logarithms.
        slope = statistics.linear_regression(list(map(math.log, counts)), list(map(math.log, times))).slope
        return slope, (times[-1] - times[-2]) / (counts[-1] - counts[-2])

    def has(self, trace, job):
        return (trace, job, "precopy") in self.taken

    def of_command(self, title, job, traces, programs, notes=""):
        """One row a trace: times, ratios, processor time and memory of each program."""
        traces = [it for it in traces if self.has(it, job)]
        if not traces:
            return
        print(f"### {title}\n")
        if notes:
            print(f"{notes}\n")
        names = [TITLES[it] for it in programs]
        head = ["Trace", *(f"{it}, ms" for it in names), "Precopy / fast"]
        head += ["Plain / precopy"] if "plain" in programs else []
        head += [f"{it}, processor" for it in names] + [f"{it}, MB" for it in names]
        rows = []
        for trace in traces:
            row = [trace, *(self.time(trace, job, it) for it in programs), self.ratio(trace, job, "precopy", "fast")]
            row += [self.ratio(trace, job, "plain", "precopy")] if "plain" in programs else []
            row += [self.processor(trace, job, it) for it in programs]
            rows.append(row + [self.memory(trace, job, it) for it in programs])
        table(head, rows)

    def of_sweeps(self, jobs, alone, traces):
        """One row for each trace and sweep. The last ratio leaves out what a sweep of one short case takes."""
        rows = []
        for trace in traces:
            for (cases, workers), job in jobs.items():
                if not self.has(trace, job.name):
                    continue
                least = {it: self.figure(trace, job.name, it) for it in TITLES}
                beside = {it: least[it] - self.figure(trace, alone.name, it) for it in ("precopy", "fast")}
                is_known = beside["fast"] > 0 and beside["precopy"] > 0
                row = [trace, cases, workers, *(self.time(trace, job.name, it) for it in TITLES)]
                row += [self.ratio(trace, job.name, "precopy", "fast")]
                row += [f"{beside['precopy'] / beside['fast']:.1f}" if is_known else "-"]
                row += [self.ratio(trace, job.name, "plain", "precopy")]
                rows.append(row + [self.memory(trace, job.name, it) for it in TITLES])
        if rows:
            print("### `precopy sweep`\n")
            times = [f"{it}, ms" for it in TITLES.values()]
            ratios = ["Precopy / fast", "Beside one case", "Plain / precopy"]
            table(["Trace", "Cases", "Workers", *times, *ratios, *(f"{it}, MB" for it in TITLES.values())], rows)

    def of_released(self, traces, jobs):
        """One row for each command and program: a trace with releases beside the same trace without them."""
        rows = []
        for job in jobs:
            for program in job.programs:
                least = [self.figure(trace, job.name, program) for trace in traces]
                if any(math.isnan(it) for it in least):
                    continue
                shown = [self.time(trace, job.name, program) for trace in traces]
                rows.append([job.name, TITLES[program], *shown, f"{least[0] / least[1]:.2f}"])
        if rows:
            print("### Released pages\n")
            print("Half of the writes are releases; in the other trace a write of one byte stands for each.\n")
            names = [it.capitalize() for it in traces]
            table(["Command", "Program", *(f"{it}, ms" for it in names), " / ".join(names)], rows)

    def of_warm(self, traces, cold, warm):
        """One row for each trace and program: a warm start beside a cold one with the same first tick."""
        rows = []
        for trace in traces:
            for program in warm.programs:
                ratio = self.figure(trace, warm.name, program) / self.figure(trace, cold.name, program)
                if math.isnan(ratio):
                    continue
                row = [trace, TITLES[program], *(self.time(trace, it.name, program) for it in (cold, warm))]
                rows.append([*row, f"{ratio:.2f}", *(self.memory(trace, it.name, program) for it in (cold, warm))])
        if rows:
            print("### Warm starts, `precopy live`\n")
            print("The first round begins at six tenths of the ticks; the base of a warm start is at half of them.\n")
            table(["Trace", "Program", "Cold, ms", "Warm, ms", "Warm / cold", "Cold, MB", "Warm, MB"], rows)

    def of_growth(self, title, series, jobs, unit):
        """`series` is a list of traces and counts. One row for each command and program."""
        rows = []
        for job in jobs:
            for program in job.programs:
                if found := self.growth(series, job.name, program):
                    shown = [ms(self.figure(trace, job.name, program)) for trace, _ in series]
                    rows.append([job.name, TITLES[program], *shown, f"{found[0]:.2f}", f"{found[1] * 1e9:.0f}"])
        if rows:
            print(f"### {title}\n")
            table(["Command", "Program", *(f"{it:,}" for _, it in series), "Exponent", f"ns a {unit}"], rows)

    def of_starts(self, trace, jobs, notes):
        """One row a command: a trace so short that a program does little more than start."""
        rows = []
        for job in (it for it in jobs if self.has(trace, it.name)):
            precopy, fast = (self.figure(trace, job.name, it) for it in ("precopy", "fast"))
            more = f"{1000 * (precopy - fast):.2f}"
            rows.append([job.name, *(self.time(trace, job.name, it) for it in ("precopy", "fast")), more])
        if rows:
            print(f"### Starts\n\n{notes}\n")
            table(["Command", "Precopy, ms", "Fast, ms", "More, ms"], rows)
