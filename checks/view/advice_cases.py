"""Cases of checks/view about advice, in ticks and in time, and about sweeps: worked out again by a plain model."""

import functools
import itertools
from dataclasses import replace

from checks.lib import migration_model
from checks.lib.amount_texts import error_text, size_text, time_text
from checks.lib.harness import drawn
from checks.lib.migration_model import Question
from checks.lib.tally import expect
from checks.lib.traces import Trace, made
from checks.lib.view_texts import facts, parsed, ran, words_of
from checks.view.limit_cases import SEEN, in_range, is_refused, some
from precopy_dev.files import write_file
from precopy_dev.models import redrawn

BUDGETS = [
    ["--down=0", "--max=4"],
    ["--down=3", "--max=4000"],
    ["--down=0", "--total=5", "--max=4"],
    ["--down=100000", "--total=1", "--start=5"],
    ["--down=3", "--max=4000", "--base=1200", "--start=1500"],
]
ADVICE, SAMPLES, SWEEPS = 60, 40, 60
UNKNOWN = 4  # the status of advice if no case ends within the trace


def part(whole, count):
    return max(whole // count, 1)


def grid_of(asked, down):
    """The values that are combined round some settings, for a most downtime: the rule of docs/COMMANDS.md."""
    most = asked.greatest
    allowed = min(down * most // 1_000, 65_535) + 1
    return {
        "max": [most],
        "min": [most, part(most, 2), part(most, 4), part(most, 8)],
        "inc": [most // 20, most // 5],
        "threshold": [allowed, part(allowed, 2), part(allowed, 4), part(allowed, 8), 1],
        "limit": [2, 8, 30],
        "skip": [0, 1],
    }


def cases_round(asked, grid):
    _, *values = grid.values()
    cases = itertools.product(*values)
    made = [
        redrawn.Settings(least, asked.greatest, *it, asked.start, bool(skip), asked.base) for least, *it, skip in cases
    ]
    return [asked, *made]


class Plans:
    """The plans of some cases over a trace, and which of them are likely to keep a downtime: those that end within the
    trace, and do with two standard errors more, if a question in time and bytes has any."""

    def __init__(self, trace, cases, down, question):
        self.trace, self.cases, self.down, self.question = trace, cases, down, question
        self.outcomes = [redrawn.planned(trace.guest, it) for it in cases]
        self.facts = [migration_model.case_of(number, *it) for number, it in enumerate(zip(cases, self.outcomes))]
        self.known = [it for it in self.facts if it["at"] <= trace.last]
        self.has_errors = question is not None and question.has_errors()

    def cost(self, number):
        return self.question.cost(self.cases[number].start, self.outcomes[number])

    @functools.cache
    def error(self, number):
        """One standard error of the downtime of a case."""
        return redrawn.errors(self.trace.guest, self.cases[number], self.question.scale())[2]

    def is_likely(self, number):
        return not self.has_errors or self.cost(number)[1] + 2 * self.error(number) <= self.question.downtime

    def planned_within(self, total=None):
        """The known cases that keep the downtime, and send no more pages than these, by their plans: the cheapest
        first."""
        within = [it for it in self.known if it["down"] <= self.down and (total is None or it["total"] <= total)]
        return [it["case"] for it in sorted(within, key=lambda it: (it["total"], it["down"], it["case"]))]

    def cheapest(self, total=None):
        """The cheapest case that is likely to keep the downtime, and sends no more pages than these, or none."""
        return next(filter(self.is_likely, self.planned_within(total)), None)

    def choice(self, total):
        """Returns the advised case, if there is one, and the line that says why."""
        head, within = f"cases {len(self.facts)} ", f"{'likely ' * self.has_errors}within down {self.down}"
        if not self.known:
            return None, f"{head}none ends within the trace"
        nearest = min(self.known, key=lambda case: (case["down"], case["total"], case["case"]))["case"]
        fitting, cheapest = self.cheapest(total), self.cheapest()
        if fitting is not None:
            return fitting, f"{head}fits {fitting}"
        if cheapest is not None:
            reason = f"none within total {total} of those {within} cheapest {cheapest}"
            return nearest, f"{head}{reason} nearest {nearest}"
        return nearest, f"{head}none {within} nearest {nearest}"

    def cost_line(self, number):
        """What a case costs in time and bytes, and one standard error of the downtime."""
        time, downtime, sent = self.cost(number)
        error = f" +- {error_text(self.error(number))}" if self.has_errors else ""
        return f"time {time_text(time)}, sent {size_text(sent)}, downtime {time_text(downtime)}{error}"

    def kind(self, total):
        """What came of a budget: whether errors change what the plans alone say."""
        if not self.known:
            return "unknown"
        fitting, planned = self.cheapest(total), self.planned_within(total)
        if fitting is None:
            return "unlikely" if planned else "none"
        return "fits" if fitting == planned[0] else "another"


def advised(trace, asked, down, total, question=None):
    """The status and all lines of advice round some settings: budget, grid, why, what it costs in time, the case, and
    its words."""
    grid = grid_of(asked, down)
    plans = Plans(trace, cases_round(asked, grid), down, question)
    chosen, reason = plans.choice(total)
    shared = {"start": [asked.start], **grid}
    lines = [f"budget down {down}" + ("" if total is None else f" total {total}")]
    lines += [" ".join(map(str, ["grid", name, *values])) for name, values in shared.items()]
    lines.append(reason)
    if question:
        SEEN["advise", plans.kind(total)] += 1
    if chosen is None:
        return UNKNOWN, lines
    if question:
        lines.append(plans.cost_line(chosen))
    return 0, [*lines, words_of(plans.facts[chosen]), migration_model.live_line(plans.cases[chosen])]


def expect_advice(view, words, trace, wanted):
    status, text, faults = ran(view, ["advise", *words], trace.path)
    found = status, text.splitlines(), faults
    expect(found == (*wanted, ""), f"{words}: {found} in place of {wanted}")


def check_advice(view, _, words, trace):
    given = facts([part for word in words for part in word[2:].split("=")])
    most = given.get("max", 5000)
    asked = redrawn.Settings(min(1000, most), most, 500, 64, 30, given.get("start", 0), False, given.get("base"))
    expect_advice(view, words, trace, advised(trace, asked, given["down"], given.get("total")))


def check_measured_advice(view, _, asked, total, trace):
    words = [*asked.limits(), f"--start={asked.start}"] + ([] if asked.base is None else [f"--base={asked.base}"])
    words += [] if total is None else [f"--total={total}"]
    if not is_refused(view, ["advise"], asked, words, trace):
        down = (asked.downtime - asked.reserve) // asked.tick
        expect_advice(view, words, trace, advised(trace, asked.settings(), down, total, asked))


def check_refused_advice(view, _, words, line, trace):
    found = ran(view, ["advise", *words], trace.path)
    expect(found == (2, "", f"precopy-view: {line}\n"), f"{words}: {found}")


def check_measured_sweep(view, _, asked, cases, trace):
    """A document of a sweep that has times and bytes."""
    words = [*asked.units(), *map(migration_model.case_word, cases)]
    status, text, faults = ran(view, ["json", "sweep", *words], trace.path)
    expect(status == 0 and not faults, f"{words}: status {status}, {faults!r}")
    wanted = {**migration_model.sweep_of(trace, cases), "units": migration_model.units_member(asked)}
    for case in wanted["cases"]:
        for name in ("at", "down"):
            case[f"{name}_seconds"] = migration_model.seconds(case[name] * asked.tick)
        case["total_bytes"] = asked.bytes_of(case["total"])
    found = parsed("sweep", text)
    expect(found == wanted, f"{words}: {found} in place of {wanted}")


def random_case(draw):
    least = draw.randrange(1, 5000)
    most, increment, threshold = draw.randrange(least, 10_000), draw.randrange(1000), draw.randrange(1, 100)
    return redrawn.Settings(least, most, increment, threshold, draw.randrange(1, 31), skip=bool(draw.randrange(2)))


def graded_trace(folder):
    """Writes a trace of 40 pages, of which each is written less often than those before it."""
    path = write_file(
        made(40, sorted((tick, page) for page in range(40) for tick in range(page, 2_000, 1 + page * page))),
        folder,
        "graded.pcwt",
    )
    return Trace.at(path)


def of_a_sample(draw, trace):
    """A question about a part of a guest, with a downtime in which some pages go over the link."""
    sampled, tick = draw.randrange(trace.pages, 60), draw.choice([1, 100, 1_000])
    guest, reserve = sampled * draw.choice([2, 9, 300]), draw.choice([0, 0, 7 * tick + 1])
    scale, start = (tick, trace.size, sampled, guest), draw.randrange(300)
    asked = Question(1, None, 0, reserve, *scale, None, 30, start, None, False, clark=True)
    bytes_of_kbit, rate = 125, draw.randrange(200, 3_000)
    link = -(-rate * 1_000 * asked.bytes_of(sampled) // (sampled * tick * bytes_of_kbit)) * bytes_of_kbit
    ticks = draw.randrange(1, 20) * 1_000 // replace(asked, link=link).rates()[0] + 1
    return replace(asked, link=link, downtime=reserve + ticks * tick + draw.randrange(tick))


REFUSED = [
    ([], "--down is needed, or --link and --downtime, as in --link 10Gbit --downtime 300ms"),
    (["--max=4"], "--down is needed, or --link and --downtime, as in --link 10Gbit --downtime 300ms"),
    (["--down=3", "--link"], "--down cannot be used with --link and --downtime"),
    (["--max=3", "--link"], "--min, --max and --threshold cannot be used with --link and --downtime"),
    (["--tick=1ms"], "--link and --downtime are needed, as in --link 10Gbit --downtime 300ms"),
    (["--down=3", "--tick=1ms"], "--down cannot be used with --link and --downtime"),
    (["--link=10Gbit"], "--link and --downtime go together, and --first and --reserve need them"),
]


def advice_tries(examples, traces, folder):
    """The tries of advice, and of sweeps in times and bytes."""
    yield from ((check_advice, words, trace) for trace in examples for words in BUDGETS)
    for draw, trace, asked in some("advice", traces, ADVICE, clark=True, rounds=30, skip=False, increment=None):
        yield check_measured_advice, asked, draw.choice([None, None, draw.randrange(200)]), trace
    graded = graded_trace(folder)
    for draw in drawn("advice of samples", range(SAMPLES)):
        total = draw.choice([None, None, draw.randrange(60, 200)])
        yield check_measured_advice, of_a_sample(draw, graded), total, graded
    for draw in drawn("sweeps", range(SWEEPS)):
        trace = draw.choice(traces)
        cases = [random_case(draw) for _ in range(draw.randrange(1, 6))]
        yield check_measured_sweep, in_range(draw, trace), cases, trace
    for words, line in REFUSED:
        words = [
            more for word in words for more in (["--link=10Gbit", "--downtime=300ms"] if word == "--link" else [word])
        ]
        yield check_refused_advice, words, line, traces[0]
