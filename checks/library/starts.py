"""The best start of random migrations: what the library tells must be what a plain model does, and what
`precopy-view json when` does."""

import collections
import json
import os
from dataclasses import replace

import precopy
from checks.lib import migration_model
from checks.lib.harness import drawn, expect
from checks.lib.migration_model import STATUSES, Cost
from checks.lib.traces import Trace, generated
from checks.lib.view_texts import parsed, ran
from checks.predictions.questions import random_question
from precopy_dev.files import write_file
from precopy_dev.models.courses import Course

TRIES, SELDOM = 1500, 20
TOO_MANY, BAD_START, LAST_START = 90, 28, (1 << 40) - 1
LEAST = {"likely": 300, "kept": 2, "not kept": 20, "unknown": 200, "refused": 100, "with errors": 250}


def drawn_starts(chosen, first, last):
    """The tick after which there is no start, and the ticks between two: seldom too many, or a start too late."""
    to = chosen.choice([None, first, chosen.randrange(2 * last + 2)])
    end = max(first, last if to is None else to)
    every = max(1, (end - first) // chosen.randrange(1, 8))
    if chosen.randrange(SELDOM) == 0:
        return chosen.choice([(first + 4096, 1), (first + 4096, 0), ((1 << 40) + first, 1 << 36), ((1 << 64) - 1, 1)])
    return to, None if end - first < 20 else every


def question(chosen, trace):
    """A question about a trace, often with a downtime and rounds that few starts are likely to keep."""
    asked = random_question(chosen, trace)
    for_pages = max(0, asked.downtime - asked.reserve) // chosen.choice([1, 1, 4, 16])
    rounds = chosen.choice([asked.rounds, asked.rounds, 1, 2])
    return replace(asked, downtime=min(asked.reserve, asked.downtime) + for_pages, rounds=rounds)


def ticks_of(first, last, to, every):
    """The starts, by what include/precopy.h says."""
    end = max(first, last if to is None else to)
    spacing = -(-(end - first) // 200) if every is None else every
    return range(first, end + 1, max(1, spacing))


def refusal_of(asked, trace, ticks):
    """The status for which the question or its starts are refused, or 0."""
    if refusal := asked.refusal(trace, by_library=True):
        return refusal.number
    # There may be more of them than len() tells.
    most = (ticks.stop - 1 - ticks.start) // ticks.step
    return TOO_MANY if most >= 4096 else BAD_START if ticks[most] > LAST_START else 0


def told_by_library(trace, asked, starts):
    """The best start in the form of a member of the document, and whether it is likely to keep the limit."""
    it = precopy.OpenTrace(trace.text).best_start(precopy.Question(**vars(asked)), *starts)
    if it is None:
        return None, False
    errors = it.errors and (it.errors.bytes, it.errors.time, it.errors.downtime)
    is_kept = {precopy.Verdict.YES: True, precopy.Verdict.NO: False}[it.kept]
    plan = Course("", it.rounds, 0, 0, 0)
    cost = Cost(it.start, plan, asked.manner(), it.time, it.bytes, it.downtime, is_kept, True, errors)
    return cost.member(asked.tick), it.is_likely


def document_of(view, path, asked, starts):
    """The status and the document of `precopy-view json when`."""
    numbers = {"from": asked.start, "base": asked.base, "to": starts[0], "every": starts[1]}
    words = [*asked.limits(), *asked.pace(), *(f"--{name}={it}" for name, it in numbers.items() if it is not None)]
    words += ["--clark"] * asked.clark
    status, text, faults = ran(view, ["json", "when", *words], path)
    expect(status in STATUSES.values() and not faults, f"{words}: status {status}, {faults}")
    return status, parsed("when", text)


def kinds_of(best, limit):
    if best is None:
        return ["unknown"]
    kind = "not kept" if not best.is_kept else "likely" if best.is_likely(limit) else "kept"
    return [kind, "with errors"] if best.errors else [kind]


def check_starts(case, view, path, asked, trace, starts):
    """Returns of which kinds the answer is."""
    ticks = ticks_of(asked.start, trace.last, *starts)
    if number := refusal_of(asked, trace, ticks):
        try:
            case.add(False, f"{asked}, {starts}: {told_by_library(trace, asked, starts)}, and not status {number}")
        except precopy.Refused as refused:
            case.add(refused.status == number, f"{asked}, {starts}: {refused.status}, and not status {number}")
        return ["refused"]
    best, _ = migration_model.chosen([Cost.of(asked, trace, tick) for tick in ticks], asked, trace)
    wanted = (best.member(asked.tick), best.is_likely(asked.downtime)) if best else (None, False)
    found = told_by_library(trace, asked, starts)
    case.add(found == wanted, f"{asked}, {starts}: {found}, and the model {wanted}")
    if starts[0] is None or starts[0] >= asked.start:
        status, document = document_of(view, path, asked, starts)
        same = document.get("best") == found[0] and status == STATUSES[best.verdict() if best else "unknown"]
        case.add(same, f"{asked}, {starts}: {found}, and precopy-view {status}, {json.dumps(document, default=str)}")
    return kinds_of(best, asked.downtime)


def check(tally, folder, view):
    path, kinds = os.path.join(folder, "starts.pcwt"), collections.Counter()
    for chosen in drawn("starts", range(TRIES)):
        text = generated(chosen)
        write_file(text, path)
        trace = Trace(text)
        asked = question(chosen, trace)
        with tally.case(str(chosen)) as case:
            kinds.update(check_starts(case, view, path, asked, trace, drawn_starts(chosen, asked.start, trace.last)))
    told = ", ".join(f"{kind} {count}" for kind, count in sorted(kinds.items()))
    tally.add(all(kinds[kind] >= least for kind, least in LEAST.items()), f"fewer than {LEAST}: {told}")
    print(f"best starts: {told}", flush=True)
