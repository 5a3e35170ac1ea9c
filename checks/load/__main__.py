"""Runs the built program under load: live runs with up to 48 threads, and runs with little room for addresses.

    checks/run load [--seed N] [PRECOPY]

Live runs are over examples/*.pcwt, with settings drawn at random; each is compared with a fold of the writes that is
made here, for --at-stop of those before the stop tick of `precopy report`, which is that of a model. Of each way to
end, and of each kind of start, there must be a number. With little room for addresses a job gives its whole output or
one of the refusals that it may have, and the whole output if it has enough room. A run is a case.
"""

import bisect
import re
from collections import Counter
from concurrent.futures import ThreadPoolExecutor

from checks.lib.harness import drawn, expect, run, run_main
from checks.lib.tally import drawn_from
from checks.lib.traces import EXAMPLES, Trace
from precopy_dev.models import redrawn

AT_ONCE, LIVE_RUNS = 2, 1000
# How often each must be seen, at least, in all live runs.
SEEN = {"rounds": 1500, "warm starts": 150, "stop few": 40, "stop fast": 40, "stop rounds": 40}
SEEN |= {"memory at the stop unlike that at the end": 100}


def is_whole(done, output):
    return done.status == 0 and done.output == output and done.faults == b""


# ---- Live runs.


def threads(draw):
    """1 to 16, the ends often."""
    return draw.choice([1, 2, 16, draw.randint(1, 16), draw.randint(1, 16), draw.randint(1, 16)])


def settings(draw, trace):
    """Settings of a live run: the plan's, which a report takes too, and the others."""
    # Round 0 takes 1000 * pages / min ticks: from a hundredth of the trace to a little more than all of it.
    ticks = max(1.0, (trace.last + 1) * 10 ** draw.uniform(-2, 0.05))
    least = min(1_000_000, max(1, int(1000 * trace.pages / ticks)))
    greatest = min(1_000_000, max(least, int(least * draw.choice([1, 1.5, 3, 20, 1000]))))
    plan = {
        "--min": least,
        "--max": greatest,
        "--inc": draw.choice([0, 1, draw.randint(0, least)]),
        "--threshold": draw.choice([1, 2, 4]),
        "--rounds": draw.choice([1, 2, 8, 64]),
        "--start": draw.choice([0, 0, 0, draw.randint(0, trace.last)]),
    }
    if draw.random() < 0.4:
        # A warm start, often from a base shortly before the first tick.
        start = draw.randint(0, trace.last)
        bases = [0, start, draw.randint(0, start), max(0, start - draw.randint(0, 1 + trace.last // 50))]
        plan |= {"--start": start, "--base": draw.choice(bases)}
    crew = {
        "--workers": threads(draw),
        "--streams": threads(draw),
        "--replayers": threads(draw),
        "--lane": draw.choice([1, 2, 65536, int(2 ** draw.uniform(0, 16))]),
    }

    def words_of(chosen):
        return [word for name, value in chosen.items() for word in (name, str(value))]

    skip = ["--skip"] if draw.random() < 0.5 else []
    return words_of(plan) + skip, words_of(crew)


def stop_by_model(trace, plan):
    """The tick at which a plan stops the guest."""
    given = {name.removeprefix("--"): int(number) for name, number in zip(plan[::2], plan[1::2])}
    numbers = [given[name] for name in ("min", "max", "inc", "threshold", "rounds", "start")]
    return redrawn.planned(trace.guest, redrawn.Settings(*numbers, "--skip" in plan, given.get("base"))).stop


def live_run(program, trace, words, at_stop, seen):
    """One live run, and what is seen in it."""
    plan, crew = words
    report = run([program, "report", *plan], trace.text)
    stop = re.search(rb"^stop (\w+) at (\d+) ", report.output, re.M)
    expect(report.status == 0 and stop, f"report {' '.join(plan)}: {report}")
    seen["rounds"] += report.output.count(b"\nround ")
    seen["warm starts"] += "--base" in plan
    seen["stop " + stop[1].decode()] += 1
    expect(int(stop[2]) == stop_by_model(trace, plan), f"report {' '.join(plan)}: not the stop of the model: {report}")
    wanted = trace.memory(int(stop[2])) if at_stop else trace.whole
    if at_stop:
        image = run([program, "image"], trace.cut(int(stop[2])))
        expect(is_whole(image, wanted), f"image of the trace cut at tick {int(stop[2])}: {image}")
        seen["memory at the stop unlike that at the end"] += wanted != trace.whole
    done = run([program, "live", *plan, *crew, *["--at-stop"] * at_stop], trace.text)
    expect(is_whole(done, wanted), done)


def expect_seen(seen):
    """Each kind of run was tried often enough."""
    few = {name: seen[name] for name, least in SEEN.items() if seen[name] < least}
    expect(not few, f"seen only {few}, of at least {SEEN}")


def live_runs(tally, program, traces):
    seen = Counter()

    def one(draw):
        # The recorded trace of a real program more often than the short ones.
        trace = draw.choices(traces, [8 if len(it.records) > 100 else 1 for it in traces])[0]
        words, at_stop = settings(draw, trace), draw.number % 2 == 1
        told = f"live {' '.join(words[0] + words[1] + ['--at-stop'] * at_stop)} < examples/{trace}"
        with drawn_from(draw):
            tally.tries(told, live_run, program, trace, words, at_stop, seen)

    with ThreadPoolExecutor(AT_ONCE) as pool:
        for each in [pool.submit(one, draw) for draw in drawn("live runs", range(LIVE_RUNS))]:
            each.result()
    print(f"live runs: {dict(seen)}", flush=True)
    tally.tries("what was seen in live runs", expect_seen, seen)


# ---- Limits on the room for addresses.

REFUSALS = [b"precopy: memory\n", b"precopy: trace E16\n"]
OF_LIVE = [b"precopy: live L1\n", b"precopy: live L2\n"]
# With so much more room than the program needs to start, in KiB, each job has its output: each thread of a live run of
# 48 has a stack of 8 MiB, and may have an arena of 64 MiB.
ENOUGH, ENOUGH_FOR_LIVE = 512 << 10, 48 * (72 << 10)
# How many runs must end whole, and by each refusal.
LEAST_WHOLE, LEAST_REFUSED = 200, 5


def limited(kilobytes, command):
    """The command with so much room for addresses: that of its code, stacks and memory together."""
    return ["sh", "-c", 'ulimit -v "$0" && exec "$@"', str(kilobytes), *command]


MOST_ROOM = 1 << 20


def least_room(program):
    """The least room, in KiB, with which the program gets to read its words."""

    def is_enough(room):
        done = run(limited(room, [program, "sweep"]), b"")
        return done.status in (1, 2) and b"error while loading" not in done.faults

    rooms = range(64, MOST_ROOM, 16)
    return rooms[bisect.bisect_left(rooms, True, key=is_enough)]


def jobs_of(program, trace):
    """What is run with little room over a trace, what each must write, and how it may be refused."""
    yield ["image"], trace.memory(), REFUSALS
    for words in [["report"], ["sweep", "1000,5000,500,64,30,0", "--workers", "4"]]:
        done = run([program, *words], trace.text)
        expect(done.status == 0 and done.output and not done.faults, f"{words} < {trace}, with all room: {done}")
        yield words, done.output, REFUSALS
    for count in ["1", "2", "4", "16"]:
        words = ["live", "--workers", count, "--streams", count, "--replayers", count]
        yield words, trace.memory(), REFUSALS + OF_LIVE


def short_run(program, size, more, trace, job, by_size):
    """One run with little room: all of the output, or a refusal that the job may have if it has not enough room."""
    words, wanted, refusals = job
    done = run(limited(size, [program, *words]), trace.text)
    kind = "right output" if is_whole(done, wanted) else done.faults.decode("ascii", "replace").strip()
    by_size.setdefault(kind, []).append(size)
    is_refused = done.status == 1 and done.output == b"" and done.faults in refusals
    has_enough = more >= (ENOUGH_FOR_LIVE if words[0] == "live" else ENOUGH)
    expect(is_whole(done, wanted) or (is_refused and not has_enough), done)


def expect_kinds(by_size):
    """Many runs were whole, and each refusal was seen."""
    counts = {kind: len(sizes) for kind, sizes in by_size.items()}
    told = [line.decode().strip() for line in REFUSALS + OF_LIVE]
    few = [kind for kind in told if counts.get(kind, 0) < LEAST_REFUSED]
    expect(counts.get("right output", 0) >= LEAST_WHOLE and not few, f"{few} are seldom: {counts}")


def short_of_room(tally, program, traces):
    least = least_room(program)
    if not tally.add(least < MOST_ROOM, f"the program does not come to read its words with {least} KiB"):
        return
    more = (
        {64 + 16 * i for i in range(40)} | {256 * 2**i // 2 for i in range(17)} | {8192 * i for i in range(1, 33, 2)}
    )
    by_size, begun = {}, []
    with ThreadPoolExecutor(AT_ONCE) as pool:
        for trace in traces:
            for job in jobs_of(program, trace):
                for each in sorted(more):
                    told = f"ulimit -v {least + each}; {' '.join(job[0])} < examples/{trace}"
                    work = short_run, program, least + each, each, trace, job, by_size
                    begun.append(pool.submit(tally.tries, told, *work))
        for each in begun:
            each.result()
    print(f"room for addresses: {len(more)} sizes from {least + min(more)} KiB; the program starts with {least}")
    for kind, at in sorted(by_size.items()):
        print(f"  {kind}: {len(at)} runs, with {min(at)} to {max(at)} KiB")
    tally.tries("what was seen with little room", expect_kinds, by_size)


def check(tally, given):
    traces = [Trace.at(path) for path in EXAMPLES]
    for trace in traces:
        image = run([given.precopy, "image"], trace.text)
        tally.add(is_whole(image, trace.memory()), f"image < examples/{trace}: {image}")
    live_runs(tally, given.precopy, traces)
    short_of_room(tally, given.precopy, traces)


if __name__ == "__main__":
    run_main(check, __doc__, "precopy")
