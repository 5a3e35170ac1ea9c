"""Trials of the library in Python and of the program precopy, over the same traces and settings: each must answer what
a plain model does (checks/lib/migration_model.py), and refuse what docs/FORMATS.md refuses."""

import os

import precopy
from checks.lib import migration_model
from checks.lib import traces as all_traces
from checks.lib.harness import drawn
from checks.lib.library_runs import program_says
from checks.lib.traces import EXAMPLES, Trace
from checks.lib.view_texts import report_text, sweep_text
from checks.library import traces
from precopy_dev.files import read_bytes
from precopy_dev.models import redrawn

GENERATED = 500
# The refusals of settings, by the names that the library has for them.
REFUSED = {
    "min": 1,
    "max": 2,
    "increment": 3,
    "threshold": 4,
    "rounds": 5,
    "window": 6,
    "hot": 7,
    "start": 8,
    "base": 10,
}


def refusal_by_library(call, *words):
    """The line of the program for what the library refuses, or nothing."""
    try:
        call(*words)
    except precopy.TraceRefused as refused:
        record = f" record {refused.record}" if refused.record is not None else ""
        return f"precopy: {str(refused).split(':')[0]}{record}"
    except precopy.SettingsRefused as refused:
        return f"precopy: {str(refused).split(':')[0]}"
    return ""


def options_of(settings):
    words = [f"--min={settings.min}", f"--max={settings.max}", f"--inc={settings.increment}"]
    words += [f"--threshold={settings.threshold}", f"--rounds={settings.rounds}"]
    words += [f"--window={settings.window}", f"--hot={settings.hot}"]
    words += [f"--start={settings.start}", *(["--skip"] if settings.skip else [])]
    return words + ([f"--base={settings.base}"] if settings.base is not None else [])


def settings_of(it):
    """Settings as the model has them."""
    numbers = it.min, it.max, it.increment, it.threshold, it.rounds, it.start
    return redrawn.Settings(*numbers, bool(it.skip), it.base)


def report_of(trace, settings):
    """The report of the model."""
    return migration_model.report_of(trace, settings_of(settings), settings.window, settings.hot)


# ---- A trace with some settings.


def expect_all(case, what, wanted, **found):
    """What is told at each door is what the model tells."""
    for door, told in found.items():
        case.add(told == wanted, f"{what} by the {door}: {told!r:.300}, and the model {wanted!r:.300}")


def compare(case, program, text, settings):
    """A trace with some settings at both doors."""
    if why := all_traces.refusal(text):
        check_refused(case, program, text, settings, f"precopy: trace {why}")
        return
    trace = Trace(text)
    opened = precopy.OpenTrace(text)
    check_report(case, program, trace, opened, settings)
    check_sweep(case, program, trace, opened, settings)
    check_memory(case, program, trace, opened)


def check_refused(case, program, text, settings, line):
    for words in (["report", *options_of(settings)], ["image"]):
        expect_all(case, words[0], line, program=program_says(program, words, text))
    for call in (precopy.report, precopy.plan):
        expect_all(case, call.__name__, line, library=refusal_by_library(call, text, settings))
    expect_all(case, "streams", line, library=refusal_by_library(precopy.check_streams, text, 0, []))
    for call in (precopy.memory, precopy.OpenTrace):
        expect_all(case, call.__name__, line, library=refusal_by_library(call, text))


def check_report(case, program, trace, opened, settings):
    model = report_of(trace, settings)
    told = program_says(program, ["report", *options_of(settings)], trace.text)
    wanted = report_text(model)
    expect_all(case, "report", wanted.encode(), program=told, library=precopy.report(trace.text, settings).encode())
    expect_all(case, "report of an open trace", wanted.encode(), library=opened.report(settings).encode())
    names = {"start": "from", "end": "to"}
    rounds = [{names.get(name, name): number for name, number in vars(it).items()} for it in opened.rounds(settings)]
    numbered = [{"round": number, **it} for number, it in enumerate(rounds)]
    expect_all(case, "rounds", model["rounds"], library=numbered)
    plan = redrawn.planned(trace.guest, settings_of(settings))
    expect_all(case, "plan", sums_of(plan), library=sums_of(precopy.plan(trace.text, settings)))
    expect_all(case, "plan of an open trace", sums_of(plan), library=sums_of(opened.plan(settings)))


def sums_of(it):
    """A plan's sums, as the model or the library has them."""
    reason = it.reason if isinstance(it.reason, str) else it.reason.name.lower()
    return it.rounds, reason, it.stop, it.down, it.total


def check_sweep(case, program, trace, opened, settings):
    asked = traces.cases_like(settings)
    model = migration_model.sweep_of(trace, list(map(settings_of, asked)))
    base = [f"--base={settings.base}"] if settings.base is not None else []
    words = [*map(migration_model.case_word, map(settings_of, asked)), f"--start={settings.start}", *base]
    told = program_says(program, ["sweep", *words], trace.text)
    expect_all(case, "sweep", sweep_text(model).encode(), program=told)
    sums, best = opened.sweep(asked)
    plans = [redrawn.planned(trace.guest, settings_of(it)) for it in asked]
    wanted = list(map(sums_of, plans)), model["best"]
    expect_all(case, "sweep", wanted, library=(list(map(sums_of, sums)), best))


def check_memory(case, program, trace, opened):
    whole = trace.memory()
    told = program_says(program, ["image"], trace.text)
    expect_all(case, "memory", whole, program=told, library=precopy.memory(trace.text))
    if len(trace.text) < 4096:
        for tick in {0, 1, trace.last, trace.last + 1, *(tick + 1 for tick, _ in trace.writes[:2])}:
            found = opened.memory_before(tick)
            expect_all(case, f"memory before tick {tick}", trace.memory(tick), library=found)


# ---- All of it.


def check_ends(case, program, name, low, high):
    """A setting at both ends of its range and one beyond them."""
    for value in {low, high, low - 1, high + 1} - {-1}:
        settings = precopy.Settings(**{"min": 1, "max": 1_000_000, name: value})
        wanted = "" if low <= value <= high else f"precopy: settings S{REFUSED[name]}"
        told = program_says(program, ["report", *options_of(settings)], read_bytes(EXAMPLES[0]))
        found = refusal_by_library(precopy.check_settings, settings)
        expect_all(case, f"{name} {value}", wanted, program=told if isinstance(told, str) else "", library=found)


def check(tally, program):
    few = precopy.Settings(min=500, max=4000, threshold=10, window=1200, hot=3)
    for path in EXAMPLES:
        for settings in (precopy.Settings(), few, precopy.Settings(min=2, max=4, increment=1, threshold=1, rounds=8)):
            with tally.case(f"{os.path.basename(path)} with {settings}") as case:
                compare(case, program, read_bytes(path), settings)
    for chosen in drawn("traces beside the program", range(GENERATED)):
        text = all_traces.generated(chosen)
        if chosen.number % 2:
            text = all_traces.damaged(chosen, text)
        with tally.case(str(chosen)) as case:
            compare(case, program, text, traces.settings(chosen))
    for name, low, high in traces.RANGES:
        with tally.case(f"the ends of {name}") as case:
            check_ends(case, program, name, low, high)
    # Where a plan stops the guest, a live run leaves what is written before that tick.
    for path in EXAMPLES:
        trace = Trace.at(path)
        stop = redrawn.planned(trace.guest, settings_of(few)).stop
        told = program_says(program, ["live", "--at-stop", *options_of(few)[:5]], trace.text)
        tally.add(told == trace.memory(stop), f"{path}: memory at the stop of a live run")
