"""What the package for Node answers: plans, rounds, windows and predictions are those of the models of checks/lib, and
of the types that the package tells, or are refused by the status that the model has."""

import itertools
from typing import NamedTuple

from checks.lib.harness import drawn
from checks.lib.migration_model import Answer, Question, answer_of, report_of
from checks.lib.tally import drawn_from
from checks.lib.traces import Trace, generated
from checks.page import cases, shapes
from checks.page.node import asked_of_package
from checks.page.package_types import Types
from checks.predictions.doors import Package, whole
from checks.predictions.questions import in_range
from precopy_dev.files import write_file

OF_SETTINGS, OF_QUESTIONS = ("plan", "rounds", "windows"), Package.CALLS
# How many settings are drawn over each trace, how many shapes of traces, and how many questions over small ones.
SETTINGS, SHAPES, SMALL = 8, 8, 8
# How many writes decide something.
LEAST_WRITES = 50
VERDICTS = ("yes", "no", "unknown", "uncertain")
# Of the settings over traces, how many must be planned, by rounds and by looks, and how many refused.
LEAST = {"rounds": 15, "looks": 15, "refused": 5}


class Small(NamedTuple):
    """A question about a small trace, of which the model tells all that can be asked."""

    known: Trace
    question: Question
    answer: Answer

    def __str__(self):
        return f"{self.known}, {' '.join(self.question.words())}"


# ---- What is asked.


def put(folder, name, text):
    path = write_file(text, folder, name)
    return Trace.at(path)


def is_tried(text):
    """Whether a trace has a write, and no more pages than a model plans in little time."""
    return shapes.has_write(text) and int.from_bytes(text[8:12], "little") <= cases.SMALL


def tries(folder):
    """Random settings over the examples and over traces of other shapes. Chance or the start may decide half."""
    for name in cases.TRACES:
        known = Trace.at(cases.example(name))
        for draw in drawn(f"the package over {name}", range(SETTINGS)):
            yield draw.choice([cases.Asked, cases.Near])(draw, known)
    for draw in drawn("the package over a shape", range(SHAPES)):
        known = put(folder, f"shape-{draw.number}.pcwt", shapes.fit_shape(draw, is_tried))
        for _ in range(SETTINGS):
            yield draw.choice([cases.Asked, cases.Near])(draw, known)


def small_tries(folder):
    """Questions about small traces, as many of each verdict."""
    for draw in drawn("the package over a small trace", range(SMALL)):
        for _ in itertools.count():
            text = next(it for it in iter(lambda: generated(draw), None) if it[12] >= LEAST_WRITES)
            known = put(folder, f"small-{draw.number}.pcwt", text)
            asked = in_range(draw, known)
            answer = answer_of(asked, known)
            if answer.sure_kept == VERDICTS[draw.number % len(VERDICTS)]:
                break
        yield draw, Small(known, asked, answer)


def worded(draw, fields):
    """The fields of settings or of a question for JSON: some numbers are bigints, words that end in n."""
    is_wide = [type(it) is int and (it >= 1 << 53 or draw.randrange(4) == 0) for it in fields.values()]
    return {name: f"{it}n" if wide else it for (name, it), wide in zip(fields.items(), is_wide)}


def settings_of(draw, settings, length):
    names = ("min", "max", "increment", "threshold", "rounds", "start", "skip", "base")
    return worded(draw, {**dict(zip(names, settings)), "skip": bool(settings.skip), "window": length})


def job_of(known, calls, given):
    return {"trace": known.path, "calls": [[call, given] for call in calls]}


# ---- What the models tell.


def planned(report):
    """What the calls of settings tell by a report."""
    names, stop = ("from", "to", "rate", "pages", "sent", "dirtied"), report["stop"]
    windows = [{"number" if name == "window" else name: it for name, it in row.items()} for row in report["windows"]]
    rounds = [{name: row[name] for name in names} for row in report["rounds"]]
    sums = {"rounds": len(rounds), "reason": stop["why"], "stop": stop["at"], "down": stop["down"]}
    return [{**sums, "total": stop["total"]}, rounds, windows]


def foretold(asked, report):
    """What is predicted, without standard errors, by a report or by a hypervisor's looks."""
    plan = {**report, "steps": len(report["rounds"]), **({} if asked.clark else cases.looked(asked))}
    stop, found = plan["stop"], cases.figures(asked, plan)
    told = {"rounds": plan["steps"], "reason": stop["why"], "stop": stop["at"], "left": stop["pages"]}
    told |= {name: stop[name] for name in ("down", "total")}
    told |= {name: found[name] for name in ("time", "recorded", "converges", "kept")}
    return {**told, "bytes": found["sent"], "downtime": found["down"]}


# ---- Both, side by side.


def check_sizes(case, types, known, sizes):
    wanted = (known.size, known.pages, len(known.records), known.last)
    found = tuple(sizes[name] for name in ("pageLength", "pages", "writes", "last"))
    is_right = found == wanted and 1 << sizes["shift"] == known.size
    case.add(is_right and types.is_of("Sizes", sizes), f"{sizes} in place of {wanted}")


def check_types(case, types, calls, told):
    wrong = [it for call, answer in zip(calls, told, strict=True) for it in types.wrong(call, answer)]
    case.add(not wrong, f"not of the types of index.d.ts: {wrong[:1]}")


def compare(case, types, asked, told):
    """Compares what is told of settings and of a question that are not refused."""
    check_types(case, types, [*OF_SETTINGS, "predict"], told)
    report = report_of(asked.known, asked.settings(), max(1, asked.window))
    for call, found, wanted in zip(OF_SETTINGS, told, planned(report)):
        case.add(found == wanted, f"{call}: {found} in place of {wanted}")
    found, wanted = whole(told[-1]), foretold(asked, report)
    case.add({name: found[name] for name in wanted} == wanted, f"predict: {found} in place of {wanted}")


def check_tries(tally, types, asking, folder):
    every, jobs = list(tries(folder)), []
    refusals = [asked.question().refusal(asked.known, True) for asked in every]
    for asked, refusal in zip(every, refusals):
        question = job_of(
            asked.known, OF_QUESTIONS if refusal else ["predict"], worded(asked.draw, vars(asked.question()))
        )
        if not refusal:
            given = settings_of(asked.draw, asked.settings(), max(1, asked.window))
            question["calls"] = [*job_of(asked.known, OF_SETTINGS, given)["calls"], *question["calls"]]
        jobs.append(question)
    kinds = []
    for asked, refusal, (sizes, *told) in zip(every, refusals, asking(jobs), strict=True):
        with drawn_from(asked.draw), tally.case(f"the package over {asked.known}, {asked.fragment()}") as case:
            check_sizes(case, types, asked.known, sizes)
            kinds.append("refused" if refusal else "rounds" if asked.clark else "looks")
            if refusal:
                statuses = [answer.get("status") for answer in told]
                case.add(statuses == [refusal.number] * len(OF_QUESTIONS), f"{statuses} in place of {refusal}")
            else:
                compare(case, types, asked, told)
    counts = {kind: kinds.count(kind) for kind in LEAST}
    tally.add(all(counts[kind] >= count for kind, count in LEAST.items()), f"{counts}, of {LEAST} at least")


def check_small(tally, types, asking, folder):
    every = list(small_tries(folder))
    jobs = [job_of(it.known, OF_QUESTIONS, worded(draw, vars(it.question))) for draw, it in every]
    for (draw, it), (sizes, *told) in zip(every, asking(jobs), strict=True):
        with drawn_from(draw), tally.case(f"the package over {it}") as case:
            check_sizes(case, types, it.known, sizes)
            check_types(case, types, OF_QUESTIONS, told)
            found, wanted = Package.answer(told), Package.told_by(it.answer)
            case.add(found == wanted, f"{found} in place of {wanted}")


def check(tally, command, place, folder):
    """Asks the package in a folder."""
    types = Types()

    def asking(jobs):
        return asked_of_package(command, place, jobs)["answers"]

    check_tries(tally, types, asking, folder)
    check_small(tally, types, asking, folder)
