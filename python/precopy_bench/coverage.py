"""Measures how often the plan of a whole trace lies within one standard error of a sample's plan.

    bench/coverage [--traces DIR] [--seeds N] [--sampled M] [--plans N] [NAME..]

For each trace and five kinds of limits it draws M of the trace's pages many times, plans for them, and compares bytes,
time and downtime with the plan of all pages. Errors that are right for a normal spread cover 68 per cent, and a share
outside 60 to 76 has a star. By chance alone 200 samples have it once in 60 times. "alike" is the share of samples whose
plan ends for the same reason and after as many rounds as that of all pages. Below the cells are the means of each kind,
and those of all kinds but `even`, in which the guest writes as fast as the link sends. The last lines say how many
cells and which means are outside; the status is 0 only if none is. It plans by `redrawn.py`, and makes missing traces
by `workloads`.
"""

import multiprocessing
import random
import sys
from typing import NamedTuple

from precopy_bench.programs import made, sampling_parser
from precopy_dev.models import redrawn
from precopy_tools.formats.traces import read_file

NAMES = ("uniform", "zipf", "seq", "phase", "full", "released")
PAGE, TICK = 4096, 1000
LOW, HIGH = 0.60, 0.76
# Rates of a sample are whole numbers, so ticks are made longer until the first round's is no less than this.
LEAST_RATE = 500
# The rates of the first and of the last rounds, as multiples of the guest's writes, the share of its pages that the
# downtime has room for, and the most rounds.
KINDS = {
    "fast": (4, 4, 0.05, 30),
    "near": (1.6, 1.6, 0.1, 30),
    "rising": (0.8, 5, 0.05, 30),
    "3 rounds": (1, 4, 0, 3),
    "even": (1, 1, 0.05, 30),
}
ON_AN_EDGE = "even"
WHAT = ("bytes", "time", "downtime")


class Case(NamedTuple):
    name: str
    kind: str
    path: str
    seeds: int
    sampled: int


class Shares(NamedTuple):
    """The shares of samples within their errors, and of those that end as the whole trace does."""

    bytes: float
    time: float
    downtime: float
    alike: float


def settings(kind: str, writes: float, pages: int, sampled: int) -> redrawn.Settings:
    """The settings for some of the guest's pages, by how many writes there are a tick."""
    first, last, downtime, rounds = KINDS[kind]
    least, greatest = (int(1000 * rate * writes * sampled / pages) for rate in (first, last))
    return redrawn.Settings(least, greatest, (greatest - least) // 10, int(downtime * sampled) + 1, rounds)


def costs(outcome: redrawn.Outcome, scale: redrawn.Scale) -> tuple[int, int, int]:
    """Bytes, time and downtime, in bytes and microseconds."""
    sent = outcome.total * scale.page * scale.guest // scale.sampled
    return sent, (outcome.stop + outcome.down) * scale.tick, outcome.down * scale.tick


def measured(case: Case) -> tuple[Case, Shares]:
    """In which share of the samples each of the three is within its error."""
    trace, records = read_file(case.path)
    guest = redrawn.by_page(trace.pages, [record[:2] for record in records])
    pages, last = len(guest), max(ticks[-1] for ticks in guest if ticks)
    writes = sum(map(len, guest)) / last
    factor = max(1, int(LEAST_RATE / (1000 * KINDS[case.kind][0] * writes * case.sampled / pages)) + 1)
    guest = [[tick // factor for tick in ticks] for ticks in guest]
    whole = redrawn.planned(guest, settings(case.kind, writes * factor, pages, pages))
    true = costs(whole, redrawn.Scale(TICK, PAGE, pages, pages))
    scale, within, alike = redrawn.Scale(TICK, PAGE, case.sampled, pages), [0, 0, 0], 0
    some = settings(case.kind, writes * factor, pages, case.sampled)
    for seed in range(case.seeds):
        drawn = sorted(random.Random(f"{seed} {case.name}").sample(range(pages), case.sampled))
        sample = [guest[page] for page in drawn]
        plan, errors = redrawn.planned(sample, some), redrawn.errors(sample, some, scale)
        told, alike = costs(plan, scale), alike + (plan[:2] == whole[:2])
        within = [count + (abs(a - b) <= error) for count, a, b, error in zip(within, told, true, errors)]
    return case, Shares(*(count / case.seeds for count in (*within, alike)))


def is_outside(share: float) -> bool:
    return not LOW <= share <= HIGH


def row(name: str, kind: str, shares: Shares) -> str:
    cells = "".join(f"{share:9.0%}{'*' if is_outside(share) else ' '}" for share in shares[:3])
    return f"{name:13}{kind:10}{cells}{shares.alike:9.0%}"


def mean(some: list[Shares]) -> Shares:
    return Shares(*(sum(each) / len(some) for each in zip(*some)))


def means(found: dict[tuple[str, str], Shares]) -> dict[str, Shares]:
    """The mean of each kind, and that of all kinds but one."""
    kinds = {kind: mean([shares for (_, its), shares in found.items() if its == kind]) for kind in KINDS}
    usual = mean([shares for (_, kind), shares in found.items() if kind != ON_AN_EDGE])
    return {**kinds, f"all but {ON_AN_EDGE}": usual}


def outside(some: dict[str, Shares]) -> list[str]:
    """The shares that are outside, in words."""
    pairs = [(name, what, share) for name, shares in some.items() for what, share in zip(WHAT, shares)]
    return [f"{name}, {what} {share:.0%}" for name, what, share in pairs if is_outside(share)]


def main() -> int:
    parser = sampling_parser("coverage", __doc__, NAMES, "seeds", "")
    parser.add_argument("--plans", type=int, default=redrawn.PLANS, metavar="N", help="of redrawn pages (20)")
    asked = parser.parse_args()
    redrawn.PLANS = asked.plans
    traces = made(asked.names, asked.traces)
    cases = [Case(name, kind, traces[name].path, asked.seeds, asked.sampled) for name in asked.names for kind in KINDS]
    print(f"{asked.seeds} samples of {asked.sampled} pages, {asked.plans} plans each: within one standard error")
    print(f"{'trace':13}{'limits':10}{'bytes':>9} {'time':>9} {'downtime':>9} {'alike':>9}")
    found = {}
    with multiprocessing.Pool(2) as pool:
        for case, shares in pool.imap(measured, cases):
            found[case.name, case.kind] = shares
            print(row(case.name, case.kind, shares), flush=True)
    of_kinds = means(found)
    for name, shares in of_kinds.items():
        print(row("all", name, shares) if name in KINDS else row(name, "", shares))
    cells = outside({f"{name} {kind}": shares for (name, kind), shares in found.items()})
    at_means = outside(of_kinds)
    print(
        f"outside {LOW:.0%} to {HIGH:.0%}: {len(cells)} of {len(WHAT) * len(cases)} cells; means: "
        + ("; ".join(at_means) or "none")
    )
    return 1 if cells or at_means else 0


if __name__ == "__main__":
    sys.exit(main())
