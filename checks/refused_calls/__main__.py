"""Refuses single calls the growths that they ask for, one after another, and looks at what remains after each refusal.

    checks/run refused_calls [REFUSED_CALLS]

The program of crates/refused_calls makes one call between two lines of output, and only what is asked for in between is
refused (checks/refusals/refuse.c). So a C compiler `cc` is needed, and `nm` for names of functions. What must be
printed is in checks/refused_calls/jobs.py. docs/RELIABILITY.md says what is promised, and checks/README.md what is
tried. A run that is refused something is a case.
"""

import re

from checks.lib.harness import run_main
from checks.refusals.refusal_runs import Part, count_up, run_parts
from checks.refusals.refused_growths import FOUR, GROWING
from checks.refused_calls.jobs import CALLS

# Once a thread runs, its own growths come between those of the caller in another order in each run. So all is tried
# again if one that only starts threads was never met.
TURNS = 8
WHAT = {"REFUSE_GROWTH": "growth", "REFUSE_THREAD": "thread start", "REFUSE_INNER": "growth of the C library itself"}
ROOM, HANDLES = "what a thread is handed", "the list of handles"
COPYING = re.compile(r"stop_copy::copying::final_copy\b.*")


def is_whole(call, run):
    return (run.status, run.output, run.faults) == (0, call.output, b"")


def for_threads(run):
    """What was refused that only serves to start threads, or None. Of handles, which are addresses, the list has at
    first room for four."""
    if run.function:
        return ROOM
    _, growing, asking = (*(run.refused.callers if run.refused else ()), "", "", "")[:3]
    is_list = GROWING.fullmatch(growing) and COPYING.fullmatch(asking) and run.refused.size == FOUR
    return HANDLES if is_list else None


def refusal(call, run, variable, refuse_on, whole):
    """Which refusal came, if it is due and all that is promised after it remains; else None.

    A refused start of a thread is reported as that. So is a refused growth that only serves to start one, and no other:
    of several that are refused, only if fewer threads were started."""
    kind = call.refusal(run.output) if (run.status, run.faults) == (0, b"") else None
    if variable != "REFUSE_GROWTH":
        return kind if kind == "Thread" else None
    if refuse_on or not call.has_threads:
        return None if kind == "Thread" and run.counts["threads"] >= whole.counts["threads"] else kind
    return kind if (kind == "Thread") == bool(for_threads(run)) else None


def refuse_each(runner, tally, call, variable, refuse_on):
    """Refuses a call the first, the second and so on, until runs end without a refusal. Answers what only serves to
    start threads, and was refused."""
    on = {"REFUSE_ON": 1} if refuse_on else {}
    whole = runner.run(call, REFUSE_WITHIN=1)
    met = set()

    def is_refused(number):
        run = runner.run(call, REFUSE_WITHIN=1, **{variable: number}, **on)
        good, kind = is_whole(call, run), "nothing refused"
        if run.counts["refused"]:
            kind = refusal(call, run, variable, refuse_on, whole)
            good = kind is not None
            met.add(for_threads(run))
        tally.seen(good, kind, f"{call.name}, {variable}={number}: {run}")
        return run.counts["refused"]

    count_up(runner, tally, call, variable, is_refused)
    return met


def refuse(runner, call, variable, refuse_on):
    """Refuses a call each of these in turn, and each growth that only serves to start threads at least once."""
    tally = Part(f"{call.name}: the Nth {WHAT[variable]}{' and all after it' if refuse_on else ''} refused")
    wanted = {ROOM, HANDLES} if call.has_threads and variable == "REFUSE_GROWTH" and not refuse_on else set()
    for _ in range(TURNS):
        wanted -= refuse_each(runner, tally, call, variable, refuse_on)
        if not wanted:
            break
    for missed in sorted(wanted):
        tally.add(False, f"{call.name}: in {TURNS} turns, {missed} was never refused")
    tally.title += f", N to {tally.last}"
    return tally


def plainly(runner, call):
    """A run with nothing between it and the C library."""
    tally = Part(f"{call.name}: nothing refused")
    run = runner.run(call)
    tally.seen(is_whole(call, run), "whole", f"{call.name}: {run}")
    return tally


def parts(_):
    for call in CALLS:
        yield plainly, call
        for variable in WHAT if call.has_threads else ["REFUSE_GROWTH"]:
            yield refuse, call, variable, False
            yield refuse, call, variable, True


def check(tally, given):
    run_parts(tally, given.refused_calls, lambda _: None, parts)


if __name__ == "__main__":
    run_main(check, __doc__, "refused_calls")
