"""Measures how often a verdict that `precopy-view predict` tells of a sample is that of all pages.

    bench/verdicts [--traces DIR] [--samples N] [--sampled M] [--clark] [--program PATH] [NAME..]

Plans are those of precopy-view, by a hypervisor's looks or with --clark by Clark's rounds. For each trace it finds the
link at which the plan of all pages turns: the last at which it converges, going down by hundredths from four times what
the guest writes. Over links of 0.7 to 1.3 times that it draws M pages many times and asks what `converges` is. A line
for each link has how many answers are yes, no, uncertain and unknown, and how many are wrong: a yes where the plan of
all pages does not converge within the trace, or a no where it does. The limit of the downtime is what a twentieth of
the guest's pages take.

The status is 0 if at most 2 per cent of the answers yes and no are wrong, and at most a third of those outside 0.9 to
1.1 are uncertain. It makes missing traces by `workloads`; a NAME that is a path is taken as it is.
"""

import json
import multiprocessing
import os
import random
import struct
import subprocess
import sys
from typing import NamedTuple

from precopy_bench.programs import made, sampling_parser
from precopy_dev.models import redrawn
from precopy_dev.tree import TOP
from precopy_tools.formats.traces import MAGIC, PLAIN, RECORD, read_file

PROGRAM = os.path.join(TOP, "crates", "precopy_view", "out", "precopy_view")
SQLITE = os.path.join(TOP, "examples", "guests", "sqlite.light.pcwt")
NAMES = ("uniform", "zipf", "seq", "phase", "released", SQLITE)
SHARES = (0.7, 0.8, 0.9, 0.95, 1.0, 1.05, 1.1, 1.2, 1.3)
NEAR_LOW, NEAR_HIGH = 0.9, 1.1
WRONG, UNCERTAIN = 0.02, 1 / 3
PAGE, SHIFT = 4096, 12
# A link must have more of the sample's pages than this in 1,000 ticks, so that whole rates are near to exact ones.
LEAST_RATE = 500
ANSWERS = ("yes", "no", "uncertain", "unknown")


class Case(NamedTuple):
    """A guest by the ticks at which its pages are written, and the link at which its plan turns, in bytes a second."""

    name: str
    guest: list[list[int]]
    turn: int


class Told(NamedTuple):
    """At a share of that link: the answer of all pages, how often each is told of a sample, and how many are wrong."""

    truth: str
    answers: dict[str, int]
    wrong: int


def trace_of(guest: list[list[int]]) -> bytes:
    """The trace of some pages, whose writes have one byte."""
    touches = sorted((tick, page) for page, ticks in enumerate(guest) for tick in ticks)
    header = MAGIC + bytes([PLAIN, SHIFT, 0, 0]) + struct.pack("<II", len(guest), len(touches))
    return header + b"".join(RECORD.pack(tick, page, 0, 1) + b"\1" for tick, page in touches)


def downtime(pages: int, link: int) -> int:
    """How long a twentieth of the pages takes, in microseconds."""
    return pages * PAGE * 1_000_000 // (20 * link)


class Asker(NamedTuple):
    """What answers: precopy-view, with the words of the plan."""

    program: str
    plan: list[str]

    def told(self, trace: bytes, link: int, sampled: int, pages: int) -> dict:
        """The JSON document of `predict` for a link in bytes a second."""
        limits = ["--link", f"{link // 1000}.{link % 1000:03}KB", "--downtime", f"{downtime(pages, link)}us"]
        words = [self.program, "json", "predict", *limits, "--sampled", f"{sampled}/{pages}", *self.plan]
        done = subprocess.run(words, input=trace, stdout=subprocess.PIPE, check=False)
        return json.loads(done.stdout)

    def whole_answer(self, trace: bytes, link: int, pages: int) -> str:
        """Whether the plan of all pages converges, by itself."""
        migration = self.told(trace, link, pages, pages).get("migration")
        if migration is None:
            return "unknown"
        return "yes" if migration["why"] == "few" else "no"


def turn_of(asker: Asker, guest: list[list[int]], rate: float) -> int:
    """The last link at which the plan converges, going down."""
    trace, link = trace_of(guest), int(4 * rate)
    while asker.whole_answer(trace, link * 99 // 100, len(guest)) == "yes":
        link = link * 99 // 100
    return link


def case_of(asker: Asker, path: str, sampled: int) -> Case:
    """A guest whose ticks are made longer until a sample's rates are no less than a least one."""
    trace, records = read_file(path)
    guest = redrawn.by_page(trace.pages, [record[:2] for record in records])
    writes = sum(map(len, guest)) / max(ticks[-1] for ticks in guest if ticks)
    factor = int(LEAST_RATE / (700 * writes * sampled / len(guest))) + 1
    guest = [[tick // factor for tick in ticks] for ticks in guest]
    turn = turn_of(asker, guest, writes * factor * 1000 * PAGE)
    return Case(os.path.basename(path).partition(".")[0], guest, turn)


def truths_of(asker: Asker, case: Case) -> list[str]:
    """The answers of all pages, at each share of the link."""
    trace = trace_of(case.guest)
    return [asker.whole_answer(trace, int(case.turn * share), len(case.guest)) for share in SHARES]


def answers(job: tuple[Case, Asker, int, int]) -> list[str]:
    """What is told of one sample, at each share of the link."""
    case, asker, sampled, seed = job
    pages = len(case.guest)
    drawn = sorted(random.Random(f"{seed} {case.name}").sample(range(pages), sampled))
    trace, found = trace_of([case.guest[page] for page in drawn]), []
    for share in SHARES:
        found.append(asker.told(trace, int(case.turn * share), sampled, pages)["converges"])
    return found


def is_wrong(truth: str, answer: str) -> bool:
    return (answer == "yes" and truth != "yes") or (answer == "no" and truth == "yes")


def told(truths: list[str], found: list[list[str]]) -> list[Told]:
    """For each share, what was told of the samples."""
    return [
        Told(truth, {a: some.count(a) for a in ANSWERS}, sum(is_wrong(truth, a) for a in some))
        for truth, some in zip(truths, zip(*found))
    ]


def is_near(share: float) -> bool:
    return NEAR_LOW <= share <= NEAR_HIGH


def main() -> int:
    parser = sampling_parser("verdicts", __doc__, NAMES, "samples", ", or paths")
    parser.add_argument("--program", default=PROGRAM, metavar="PATH", help="the built precopy-view")
    parser.add_argument("--clark", action="store_true", help="plan by Clark's rounds, in place of a hypervisor's looks")
    options = parser.parse_args()
    asker = Asker(options.program, ["--clark"] * options.clark)
    traces = made([name for name in options.names if os.sep not in name], options.traces)
    plan = "Clark's rounds" if options.clark else "looks"
    about = f"{options.samples} samples of {options.sampled} pages, by {plan}"
    print(f"{about}; links are shares of that at which the plan turns")
    print(
        f"{'trace':12}{'link':>6} {'all pages':>10}" + "".join(f"{answer:>11}" for answer in ANSWERS) + f"{'wrong':>8}"
    )
    sure, wrong, far, uncertain = 0, 0, 0, 0
    with multiprocessing.Pool(2) as pool:
        for name in options.names:
            case = case_of(asker, name if os.sep in name else traces[name].path, options.sampled)
            jobs = [(case, asker, options.sampled, seed) for seed in range(options.samples)]
            for share, it in zip(SHARES, told(truths_of(asker, case), pool.map(answers, jobs))):
                counts = "".join(f"{it.answers[answer]:11}" for answer in ANSWERS)
                print(f"{case.name:12}{share:6.2f} {it.truth:>10}{counts}{it.wrong:8}", flush=True)
                sure, wrong = sure + it.answers["yes"] + it.answers["no"], wrong + it.wrong
                if not is_near(share):
                    far, uncertain = far + options.samples, uncertain + it.answers["uncertain"]
    print(f"wrong: {wrong} of {sure} answers yes and no; uncertain outside 0.9 to 1.1: {uncertain} of {far}")
    return 0 if wrong <= WRONG * sure and uncertain <= UNCERTAIN * far else 1


if __name__ == "__main__":
    sys.exit(main())
