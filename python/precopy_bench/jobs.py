"""What is run: the programs, and the words of each job for a trace."""

import math
from dataclasses import dataclass

MOST_RATE = 1_000_000
ALL = ("precopy", "fast", "plain")
BOTH = ("precopy", "fast")
# The peer is fast with frames of bytes.
PEER = ("precopy", "fast", "peer")
MORE_WORDS = {"peer": ["--encoded"]}


@dataclass(frozen=True)
class Trace:
    name: str
    path: str
    page_size: int
    pages: int
    writes: int
    last_tick: int
    bytes: int


@dataclass(frozen=True)
class Job:
    """A job has the words that `words` makes of a trace. Its output must be that of `same_as`, if given."""

    name: str
    words: object
    programs: tuple = ALL
    same_as: tuple = ()


def settings_of(trace):
    """Rates by which the first round takes a third of the trace; later ones may be five times as fast."""
    least = max(1, min(MOST_RATE // 5, math.ceil(3000 * trace.pages / (trace.last_tick + 1))))
    return {"min": least, "max": 5 * least, "inc": max(1, least // 2), "threshold": max(1, trace.pages // 1024)}


def options(**settings):
    words = []
    for name, value in settings.items():
        if value is True:
            words.append(f"--{name.replace('_', '-')}")
        elif value is not False:
            words.append(f"--{name.replace('_', '-')}={value}")
    return words


def report(**more):
    return lambda trace: ["report", *options(**{**settings_of(trace), "window": 1000, **more})]


def live(**more):
    return lambda trace: ["live", *options(**{**settings_of(trace), "lane": 65_536, **more})]


def base_of(trace):
    return trace.last_tick // 2


def live_late(**more):
    """A live run whose first tick comes a tenth of the ticks after the base."""
    return lambda trace: live(start=base_of(trace) + trace.last_tick // 10, **more)(trace)


def live_warm(**more):
    return lambda trace: live_late(base=base_of(trace), **more)(trace)


def case(settings, number):
    """Rates up to twenty times apart; every second case skips."""
    least = min(MOST_RATE, settings["min"] << number // 2 % 3)
    greatest = min(MOST_RATE, least * (20, 10, 5)[number // 6 % 3])
    more = min(MOST_RATE, least // (2, 4, 8)[number // 18 % 3])
    numbers = (least, greatest, more, settings["threshold"] * (1 + number // 54), 30, number % 2)
    return ",".join(str(it) for it in numbers)


def sweep(cases, workers):
    def words(trace):
        settings = settings_of(trace)
        return ["sweep", f"--workers={workers}", *(case(settings, number) for number in range(cases))]

    return words


def sweep_of_one(_):
    """One case, of one short round: little more than reading and decoding."""
    return ["sweep", f"{MOST_RATE},{MOST_RATE},0,65536,1,0"]


IMAGE = Job("image", lambda _: ["image"])
REPORT = Job("report", report())
REPORT_4 = Job("report-4-workers", report(workers=4), BOTH)
SWEEP_1 = Job("sweep-of-one", sweep_of_one, BOTH)
SWEEPS = {
    (16, 1): Job("sweep-16", sweep(16, 1)),
    (16, 4): Job("sweep-16-4-workers", sweep(16, 4), BOTH),
    (256, 1): Job("sweep-256", sweep(256, 1), BOTH),
    (256, 4): Job("sweep-256-4-workers", sweep(256, 4), BOTH),
}
LIVE_1 = Job("live", live(), BOTH, ("image",))
TWO = {"workers": 2, "streams": 2, "replayers": 2}
LIVE_2 = Job("live-2", live(**TWO, skip=True, at_stop=True), BOTH)
# From the same first tick on, to a destination without a page and to one with the memory before the base.
COLD = Job("live-cold", live_late(), BOTH, ("image",))
WARM = Job("live-warm", live_warm(), BOTH, ("image",))


def odd_sweep(trace):
    """Cases that end in each way, after the first tick."""
    settings = settings_of(trace)
    least = settings["min"]
    cases = [f"{least},{least},0,1,64,1", f"{least},{40 * least},1,1,3,1", f"{least},{9 * least},7,65536,64,0"]
    return ["sweep", f"--start={trace.last_tick // 5}", "--workers=3", *cases, case(settings, 3)]


def quick_jobs():
    """Jobs for small traces, in which all settings change."""
    start = {"start": 700, "skip": True, "inc": 3, "rounds": 9}
    base = {"base": 650, "start": 700}
    after = ("image",)
    return [
        IMAGE,
        REPORT,
        Job("report-skip", report(skip=True, window=37, hot=5)),
        Job("report-start", report(**start, threshold=1, workers=4, window=1)),
        Job("sweep-16", sweep(16, 1)),
        Job("sweep-4-workers", sweep(40, 4)),
        Job("sweep-odd", odd_sweep),
        Job("report-warm", lambda trace: ["report", *options(**settings_of(trace), **base)]),
        Job("sweep-warm", lambda trace: [*sweep(16, 2)(trace), *options(**base)]),
        SWEEP_1,
        Job("live", live(), PEER, ("image",)),
        LIVE_2,
        Job("live-many", live(workers=3, streams=4, replayers=2, lane=7), PEER, after),
        Job("live-lane-of-one", live(workers=2, streams=1, replayers=3, lane=1, skip=True), PEER, after),
        Job("live-start", live(workers=4, streams=2, replayers=5, lane=64, at_stop=True, **start), PEER),
        Job("live-start-on", live(streams=3, **start), BOTH, after),
        COLD,
        WARM,
        Job("live-warm-stop", live_warm(workers=3, streams=2, replayers=2, skip=True, at_stop=True), PEER),
        Job("live-warm-empty", live(base=700, start=700, streams=2, threshold=1, at_stop=True), BOTH),
    ]
