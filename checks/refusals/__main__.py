"""Runs the built program with its growths, thread starts, reads and writes refused, one after another.

    checks/run refusals [PRECOPY]

checks/refusals/refuse.c is put between the program and the C library. It is compiled here, so a C compiler `cc` is
needed, and `nm` for names of functions. docs/RELIABILITY.md says what is promised, and checks/README.md what is tried.
A run that is refused something is a case.
"""

import os
import re
import subprocess
from functools import partial

from checks.lib.harness import closed_pipe
from checks.lib.harness import run as run_plainly
from checks.lib.harness import run_main
from checks.lib.worked import A
from checks.refusals import refusal_jobs as jobs
from checks.refusals.refusal_runs import MOST, SECONDS, Part, count_up, run_parts
from checks.refusals.refused_growths import SAVED, Harmless, is_for_pieces, told_of_live
from checks.refusals.threads import PIECES, is_needed, saver_of
from precopy_dev.files import write_file

# Which thread starts as the Nth may differ from run to run, so N counts up again if one was never the Nth.
TURNS = 8

# Whoever asks for the ring of a lane, which no start of a thread needs.
MIGRATES = re.compile(r"live_engine::migration::migrate\b.*")

# ---- What is wanted of a run.


def is_whole(job, run):
    return run.status == job.status and run.output == job.output and run.faults == job.faults


def is_refusal(run, lines, output=b""):
    return run.status == 1 and run.output == output and run.faults in lines


def name_of(run):
    return run.faults.decode("ascii", "replace").strip().removeprefix("precopy: ")


def try_one(runner, tally, job, refused, lines, output=b"", may_answer=None):
    """One run that is refused something, and one right after it that is not. Answers whether something was refused.

    A run that was refused nothing must give its whole output. One that was refused must end with one of `lines`, or of
    those that `lines` gives for the run; or, if `may_answer` of the run says why that is right, with the whole output.
    """
    run = runner.run(job, **refused)
    was_refused = run.counts["refused"] > 0
    told = " ".join(f"{name}={value}" for name, value in refused.items())
    if not was_refused:
        tally.seen(is_whole(job, run), "nothing refused", f"{job.name}, {told}, nothing was refused: {run}")
        return False
    kind = may_answer(run) if may_answer else None
    if is_whole(job, run):
        good = kind is not None
    else:
        # What is refused by name is not to be what would pass: else more would pass than the program answers.
        due = lines(run) if callable(lines) else lines
        good, told = is_refusal(run, due, output) and not kind, told + (f", would pass as {kind}" if kind else "")
        kind = name_of(run)
    after = runner.run(job)
    if not is_whole(job, after):
        good, run = False, after
        told += ", and then with nothing refused"
    tally.seen(good, kind, f"{job.name}, {told}: {run}")
    return True


def count_refused(runner, tally, job, variable, lines, may_answer=None, **more):
    """Refuses a job the first, the second and so on."""

    def is_refused(number):
        return try_one(runner, tally, job, {variable: number, **more}, lines, may_answer=may_answer)

    count_up(runner, tally, job, variable, is_refused)


# ---- The parts.


def lines_of_live(run):
    """What a live run may tell of one refused growth."""
    return told_of_live(run, [jobs.MEMORY, jobs.NO_ROOM_FOR_TRACE, jobs.LIVE_MEMORY], [jobs.LIVE_THREAD])


def saved_by_caller(job, run):
    return SAVED if is_for_pieces(job, run) else None


def growths(runner, job, refuse_on):
    # A job without a trace has no room to ask for one.
    lines = [jobs.MEMORY, jobs.NO_ROOM_FOR_TRACE] if job.reads else [jobs.MEMORY]
    if job.is_live:
        lines = [*lines, jobs.LIVE_MEMORY, jobs.LIVE_THREAD] if refuse_on else lines_of_live
    # This run tells which places ask for room for threads.
    runner.run(job, REFUSE_GROWTH=1 << 62)
    if refuse_on:
        tally = Part(f"{job.name}: the Nth growth and all after it refused")
        count_refused(runner, tally, job, "REFUSE_GROWTH", lines, may_answer=partial(saved_by_caller, job), REFUSE_ON=1)
    else:
        tally = Part(f"{job.name}: the Nth growth refused")
        harmless = Harmless(job)
        count_refused(runner, tally, job, "REFUSE_GROWTH", lines, may_answer=harmless.kind)
        tally.told = harmless.told()
    tally.title += f", N to {tally.last}"
    return tally


def threads(runner, job, variable, title):
    """The work of a thread that only saves time, and is not started, is done by its caller; the others are needed. Each
    kind of thread that the job starts must be refused at least once. But the C library asks for nothing if it has the
    room of a thread that has ended, so by its growths only those must be that save time and start at first."""
    tally, met = Part(f"{job.name}: {title}"), set()
    is_start = variable == "REFUSE_THREAD"
    wanted, needs = ({*job.savers}, job.needs) if is_start else ({*job.savers} - {PIECES}, 0)

    def lines(run):
        return [jobs.LIVE_THREAD] if job.is_live and is_needed(run.function) else []

    def kind(run):
        met.add(saver_of(run.function) or run.function)
        return SAVED if saver_of(run.function) in job.savers else None

    for _ in range(TURNS):
        count_refused(runner, tally, job, variable, lines, may_answer=kind)
        missed = *sorted(wanted - met), *["one that is needed"] * (needs - sum(map(is_needed, met)))
        if not missed:
            break
    for thread in missed:
        tally.add(False, f"{job.name}: in {TURNS} turns, {variable} never refused {thread}")
    tally.title += f", N to {tally.last}"
    return tally


def of_migration(runner, job):
    """The run that is refused the first growth that a migration asks for itself, or the last run that was tried. The
    planner asks at the same time, so that none may be met while N counts up once."""
    for _ in range(TURNS):
        for number in range(1, MOST):
            run = runner.run(job, REFUSE_GROWTH=number)
            allocating, asking = (*(run.refused.callers if run.refused else []), "", "")[:2]
            if allocating == "rattle_alloc" and MIGRATES.fullmatch(asking):
                return run
            if not run.refused:
                break
    return run


def named(runner, job):
    """A refused growth of a live run is L1, and a refused start of its first thread, which it needs, is L2."""
    tally = Part(f"{job.name}: L1 for a growth of its own, L2 for a thread that is needed")
    for run, line in [
        (of_migration(runner, job), jobs.LIVE_MEMORY),
        (runner.run(job, REFUSE_THREAD=1), jobs.LIVE_THREAD),
    ]:
        good = run.counts["refused"] == 1 and is_refusal(run, [line])
        tally.seen(good, name_of(run), f"{job.name}, {line!r} is due: {run}")
    return tally


def reads(runner, job):
    # One byte a call: call 103 of 102 bytes is the one that would find the end.
    tally = Part(f"{job.name}: the Nth read of one byte refused, N to {len(A) + 1}")
    for number in range(1, len(A) + 2):
        if runner.gives_up(tally):
            break
        if not try_one(runner, tally, job, {"REFUSE_READ": number, "ONE_BYTE": 1}, [jobs.READ_FAILED]):
            tally.add(False, f"{job.name}: read {number} was not refused")
    return tally


def writes(runner, job, variable, title):
    tally = Part(f"{job.name}: {title}, N to {len(job.output)}")
    for number in range(1, len(job.output) + 1):
        if runner.gives_up(tally):
            return tally
        refused = {variable: number, "ONE_BYTE": 1}
        if not try_one(runner, tally, job, refused, [jobs.WRITE_FAILED], job.output[: number - 1]):
            tally.add(False, f"{job.name}: write {number} was not refused")
    try_one(runner, tally, job, {variable: len(job.output) + 1, "ONE_BYTE": 1}, [])
    return tally


def broken(runner, job):
    """A read or a write that a signal interrupts is tried again."""
    tally = Part(f"{job.name}: the Nth read or write interrupted once")
    for variable, last in [("BREAK_READ", len(A) + 1), ("BREAK_WRITE", len(job.output))]:
        for number in sorted({1, 2, last // 2, last - 1, last}):
            if runner.gives_up(tally):
                return tally
            run = runner.run(job, ONE_BYTE=1, **{variable: number})
            good = run.counts["refused"] == 1 and is_whole(job, run)
            tally.seen(good, "answered in full", f"{job.name}, {variable}={number}: {run}")
    return tally


def untold(runner, job):
    """A fault line that can't be written changes nothing else."""
    tally = Part(f"{job.name}: a refused read, and a fault line that can't be written")
    if runner.gives_up(tally):
        return tally
    run = runner.run(job, REFUSE_READ=1, REFUSE_FAULTS=1, REFUSE_ON=1)
    good = run.counts["refused"] >= 2 and is_refusal(run, [b""])
    tally.seen(good, "only status 1", f"{job.name}, REFUSE_READ=1 REFUSE_FAULTS=1: {run}")
    return tally


def unsaid(runner, job):
    """If what is wrong with words can't be written, only the status says it."""
    tally = Part(f"{job.name}: what is wrong with the words can't be written")
    run = runner.run(job, REFUSE_FAULTS=1, REFUSE_ON=1)
    good = run.counts["refused"] >= 1 and (run.status, run.output, run.faults) == (2, b"", b"")
    tally.seen(good, "only status 2", f"{job.name}, REFUSE_FAULTS=1: {run}")
    return tally


def plainly(runner, job):
    """What a system refuses by itself: no call is changed in these runs."""
    tally = Part(f"{job.name}: a full disk, a closed pipe, a folder to read from")
    program = [runner.program, *job.words]
    if runner.gives_up(tally):
        return tally

    def ended(stdin, stdout, line):
        run = run_plainly(program, stdin=stdin, stdout=stdout, seconds=SECONDS)
        tally.seen(is_refusal(run, [line]), name_of(run), f"{job.name}, {line!r} is due: {run}")

    with open(runner.trace(job.trace), "rb") as trace, open("/dev/full", "wb") as full:
        ended(trace, full, jobs.WRITE_FAILED)
    with open(runner.trace(job.trace), "rb") as trace, closed_pipe() as writer:
        ended(trace, writer, jobs.WRITE_FAILED)
    folder = os.open(runner.folder, os.O_RDONLY)
    ended(folder, subprocess.PIPE, jobs.READ_FAILED)
    os.close(folder)
    return tally


def parts(runner):
    start, inner = "the Nth thread start refused", "the Nth growth of the C library itself refused"
    for job in [jobs.WIDE_SWEEP, jobs.WIDE_REPORT, jobs.LARGE_IMAGE, *jobs.JOBS[::-1], *jobs.HELPS, *jobs.MISUSES]:
        yield growths, job, False
        yield growths, job, True
    for job in [jobs.REPORT, jobs.SWEEP, jobs.WARM, jobs.EARLY, jobs.AT_STOP, jobs.LIVE, jobs.IMAGE, jobs.HELPS[0]]:
        yield writes, job, "REFUSE_WRITE", "the Nth write of one byte refused"
        yield writes, job, "ZERO_WRITE", "the Nth write takes no byte"
    for job in jobs.JOBS:
        yield reads, job
    for job in [jobs.LARGE_LIVE, jobs.WIDE_REPORT, jobs.WIDE_SWEEP, jobs.LIVE, jobs.AT_STOP, jobs.EARLY, jobs.WARM]:
        yield threads, job, "REFUSE_THREAD", start
        yield threads, job, "REFUSE_INNER", inner
    for job in [jobs.LIVE, jobs.WARM]:
        yield named, job
    for job in jobs.MISUSES:
        yield unsaid, job
    for job in jobs.JOBS:
        yield broken, job
        yield untold, job
        yield plainly, job


def prepare(runner):
    for name, trace in [("a", A), ("many", jobs.MANY), ("large", jobs.LARGE)]:
        write_file(trace, runner.trace(name))
    for job in jobs.HELPS:
        job.output = runner.run(job).output


def check(tally, given):
    run_parts(tally, given.precopy, prepare, parts)


if __name__ == "__main__":
    run_main(check, __doc__, "precopy")
