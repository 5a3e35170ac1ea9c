"""Cases of checks/view about limits in time and bytes: reports and starts, worked out again by a plain model."""

from collections import Counter
from collections.abc import Iterator
from dataclasses import replace
from fractions import Fraction

from checks.lib import migration_model
from checks.lib.harness import Draw, drawn
from checks.lib.migration_model import STATUSES, Cost, Question
from checks.lib.tally import expect
from checks.lib.traces import Trace
from checks.lib.view_texts import parsed, ran
from checks.predictions.questions import in_range

TIMES = {"us": 1, "ms": 1_000, "s": 1_000_000}
RATES = {
    "Kbit": 125,
    "Mbit": 125_000,
    "Gbit": 125_000_000,
    "KB": 1_000,
    "MB": 10**6,
    "GB": 10**9,
    "KiB": 1 << 10,
    "MiB": 1 << 20,
    "GiB": 1 << 30,
}
REPORTS, STARTS, SELDOM = 200, 200, 8
# What came of the questions, by what was asked for, as the model has it.
SEEN: Counter = Counter()
# A trace in a file.
Known = Trace.at


def some(kind: str, traces: list[Trace], count: int, **changed) -> Iterator[tuple[Draw, Trace, Question]]:
    """So many draws of a kind, each with a trace and a question about it, of which one in SELDOM is refused. They go by
    both plans in turn, if none is said."""
    for draw in drawn(kind, range(count)):
        trace = draw.choice(traces)
        plan = {"clark": draw.number // SELDOM % 2 == 0}
        yield draw, trace, in_range(draw, trace, draw.number % SELDOM == 0, **{**plan, **changed})


def is_refused(view, command: list[str], asked: Question, words: list[str], trace: Trace, kind: str = "") -> bool:
    """Whether the question is refused; then the program must say so in the words of the model. It is counted as one of
    the kind, or of the command."""
    refusal = asked.refusal(trace)
    if refusal:
        SEEN[kind or command[-1], "refused"] += 1
        found = list(ran(view, [*command, *words], trace.path))
        expect(found == refusal.of_view(), f"{command} {words}: {found} in place of {refusal}")
    return refusal is not None


# ---- Reports in times and bytes.


def measured_report(asked: Question, trace: Trace, length: int, hot: int) -> dict:
    """The document of a report that has times and bytes."""
    report = migration_model.report_of(trace, asked.settings(), length, hot)
    most, stop = asked.rates()[0], report["stop"]

    def time(ticks: int) -> Fraction:
        return migration_model.seconds(ticks * asked.tick)

    rounds = [
        {
            **it,
            "from_seconds": time(it["from"]),
            "to_seconds": time(it["to"]),
            "sent_bytes": asked.bytes_of(it["sent"]),
            "dirtied_bytes": asked.bytes_of(it["dirtied"]),
            "link_share": Fraction(it["rate"] * 1_000_000 // most, 1_000_000),
        }
        for it in report["rounds"]
    ]
    ends = {"at_seconds": time(stop["at"]), "bytes": asked.bytes_of(stop["pages"])}
    ends |= {"down_seconds": time(stop["down"]), "total_bytes": asked.bytes_of(stop["total"])}
    return {
        **report,
        "units": {**migration_model.units_member(asked), "window_seconds": time(length)},
        "windows": [{**it, "bytes": asked.bytes_of(it["pages"])} for it in report["windows"]],
        "rounds": rounds,
        "stop": {**stop, **ends},
    }


def check_measured(view, _, asked, length, hot, trace):
    words = [*asked.words_of_rounds(), f"--window={length}", f"--hot={hot}"]
    if not is_refused(view, ["json", "report"], asked, words, trace):
        status, text, faults = ran(view, ["json", "report", *words], trace.path)
        expect(status == 0 and not faults, f"{words}: status {status}, {faults!r}")
        found, wanted = parsed("report", text), measured_report(asked, trace, length, hot)
        expect(found == wanted, f"{words}: {found} in place of {wanted}")
        SEEN["report", Cost.of(asked, trace, asked.start).verdict()] += 1


def report_tries(traces):
    """The tries of random limits over some traces."""
    for draw, trace, asked in some("reports", traces, REPORTS, clark=True):
        length = max(1, (trace.last + 1) // draw.choice([1, 7, 60, 400]))
        yield check_measured, asked, length, draw.randrange(1, 4), trace


# ---- Starts.


def start_ticks(draw, last):
    """Draws words of starts, and returns them with the ticks that they ask for."""
    first = draw.randrange(last + 2)
    to = draw.choice([None, first + draw.randrange(last + 2)])
    end = max(first, last if to is None else to)
    every = max(1, (end - first) // draw.randrange(1, 6))
    if draw.randrange(8) == 0 and end - first < 20:
        every = None
    words = [f"--from={first}"]
    words += ([] if to is None else [f"--to={to}"]) + ([] if every is None else [f"--every={every}"])
    step = every or max(1, -(-(end - first) // 200))
    return words, list(range(first, end + 1, step))


def told_of(asked: Question, costs: list[Cost], trace) -> tuple[int, str, dict]:
    """The status, the table and the document of `precopy-view when`."""
    best, worst = migration_model.chosen(costs, asked, trace)
    heading = "".join(name.rjust(14) for name in ("tick", "start", "time", "sent", "downtime"))
    lines = [heading, *(cost.row(asked.tick) for cost in costs)]
    document = {
        "limit_seconds": migration_model.seconds(asked.downtime),
        "plan": asked.manner().value,
        "starts": [cost.member(asked.tick) for cost in costs],
    }
    for name, title, cost in (("best", "best: ", best), ("worst", "worst:", worst)):
        if cost:
            lines.append(cost.choice(title, asked))
            document[name] = cost.member(asked.tick)
        else:
            lines.append(f"{title} none, since no migration ends within the trace; record longer")
    status = STATUSES["unknown" if best is None else best.verdict()]
    return status, "".join(f"{line}\n" for line in lines), document


def check_starts(view, _, asked, starts, workers, trace):
    words, ticks = starts
    words = [*asked.limits(), *asked.pace(), *["--clark"] * asked.clark, *words, f"--workers={workers}"]
    kind = f"when by {asked.manner().value}"
    if is_refused(view, ["when"], asked, words, trace, kind):
        return
    status, table, document = told_of(asked, [Cost.of(asked, trace, tick) for tick in ticks], trace)
    found = ran(view, ["when", *words], trace.path)
    expect(found == (status, table, ""), f"{words}: {found} in place of {status}, {table}")
    found, text, faults = ran(view, ["json", "when", *words], trace.path)
    expect(found == status and not faults, f"{words}: status {found}, {faults!r}")
    expect(parsed("when", text) == document, f"{words}: {text} in place of {document}")
    SEEN[kind, next(verdict for verdict, number in STATUSES.items() if number == status)] += 1


def start_tries(traces):
    """The tries of random starts over some traces. The first start is the one of the words, and there is no copy."""
    for draw, trace, asked in some("starts", traces, STARTS, start=0, base=None):
        yield check_starts, asked, start_ticks(draw, trace.last), draw.choice([1, 4]), trace


# ---- Words at the ends of their ranges.

TAKEN = [
    "--tick=1us",
    "--tick=1s",
    "--tick=1.5ms",
    "--tick=1000000us",
    "--sampled=1/1",
    "--sampled=+25/0100",
    "--sampled=4294967296/4294967296",
    "--sampled=65536/4294967296",
    "--page=4096",
]
A_TICK, A_SAMPLE = "a tick is 1us to 1s; the nearest is", "1 to P of P pages, P at most 2^32; the nearest is"
NO_TIME, NO_RATE = (
    "a number and its unit, us, ms, s, m or h, as in",
    "a number and its unit, Kbit, Mbit, Gbit, KB, MB, GB",
)
NO_SAMPLE = "--sampled: two whole numbers with a slash between them, as in 16384/16777216"
TOGETHER = "--link and --downtime go together, and --first and --reserve need them"
REFUSED = [
    ("--tick=0us", f"--tick 0us: {A_TICK} 1us"),
    ("--tick=0.9us", f"--tick 0us: {A_TICK} 1us"),
    ("--tick=1000001us", f"--tick 1000001us: {A_TICK} 1s"),
    ("--tick=1.000001s", f"--tick 1000001us: {A_TICK} 1s"),
    ("--tick=2s", f"--tick 2s: {A_TICK} 1s"),
    ("--tick=1m", f"--tick 60s: {A_TICK} 1s"),
    ("--tick=1", f"--tick: {NO_TIME} 1ms"),
    ("--reserve=1", f"--reserve: {NO_TIME} 50ms"),
    ("--first=1", f"--first: {NO_RATE}, KiB, MiB or GiB, per second, as in 1.5GB"),
    ("--sampled=0/1", f"--sampled 0/1: {A_SAMPLE} 1/1"),
    ("--sampled=2/1", f"--sampled 2/1: {A_SAMPLE} 1/1"),
    ("--sampled=1/4294967297", f"--sampled 1/4294967297: {A_SAMPLE} 1/4294967296"),
    *((f"--sampled={word}", NO_SAMPLE) for word in ("1", "1/", "/1", "1/2/3", "1:2", "1.5/2")),
    ("--page=15", "--page 15: a page has 16 to 4,096 bytes; the nearest is 16"),
    ("--page=4097", "--page 4097: a page has 16 to 4,096 bytes; the nearest is 4096"),
    *((word, TOGETHER) for word in ("--link=1GB", "--downtime=1s", "--first=1GB", "--reserve=1s")),
]
NO_SETTINGS = "--min, --max and --threshold cannot be used with --link and --downtime"
PLAIN = Question(10**9, None, 1_000, 0, 1_000, 4_096, 1, 1, None, 30, 0, None, False, clark=True)


def check_words(view, _, words, refused, trace):
    """Words that are taken, or refused with a line."""
    status, text, faults = ran(view, ["show", *words], trace.path)
    if refused:
        wanted = (2, "", f"precopy-view: {refused}\n")
        expect((status, text, faults) == wanted, f"{words}: status {status}, {faults!r} in place of {refused}")
    else:
        expect(status == 0 and text and not faults, f"{words}: status {status}, {faults!r}")


def word_tries(trace):
    yield from ((check_words, [word], None, trace) for word in TAKEN)
    yield from ((check_words, [word], line, trace) for word, line in REFUSED)
    for changed in (
        *({"link": RATES["KiB"] * link, "downtime": 0} for link in (3, 4, 4_000_000, 4_000_004)),
        {"reserve": 1_000},
        {"reserve": 2_000},
        {"first": 10**9},
        {"first": 2 * 10**9},
        {"increment": 1_000_000},
    ):
        asked = replace(PLAIN, **changed)
        refusal = asked.limit_refusal()
        words = [word for word in asked.words_of_rounds() if not word.startswith(("--rounds", "--start", "--sampled"))]
        yield check_words, words, refusal and refusal.told, trace
    for word in ("--max=5", "--min=5", "--threshold=5"):
        yield check_words, ["--link=1GB", "--downtime=1ms", word], NO_SETTINGS, trace
