"""Random questions for checks/predictions, over traces and records whose shapes come from elsewhere.

Traces are examples, or from `page_shapes` and `traces`. Records are an example, one of tools/thin, and traces
of `page_shapes` with a NAME.json of random numbers.
"""

import itertools
import math
import os
import random
import struct
import subprocess
from dataclasses import replace
from fractions import Fraction
from typing import NamedTuple, Optional

from checks.lib import traces
from checks.lib.harness import Draw, drawn
from checks.lib.migration_model import Question
from checks.lib.traces import Trace
from checks.page import shapes as page_shapes
from checks.predictions.model import in_longer_ticks
from precopy_dev.files import read_bytes, read_json, write_file
from precopy_dev.tree import TOP
from precopy_tools.formats import samples

EXAMPLES = os.path.join(TOP, "examples")
SMALL, SHAPES, RECORDS = 2, 4, 2
# How many questions there are at least, and of these about each trace and about each record.
LEAST, OF_TRACE, OF_RECORD = 200, 17, 16
# One of so many questions about a trace is refused, and one of so many begins after it.
SELDOM, AFTER = 8, 10
# More pages than these take the model too long, and fewer writes decide nothing.
MOST_PAGES, LEAST_WRITES = 5_000, 50


class Asked(NamedTuple):
    """A question about a trace; if that is a record's, also the words of tools/predict that ask the same."""

    question: Question
    trace: Trace
    words: Optional[list[str]] = None
    draw: Optional[Draw] = None

    def __str__(self) -> str:
        return f"{os.path.basename(self.trace.path)}, {' '.join(self.words or self.question.words())}"


# ---- Traces and records.


def is_fit(text: bytes) -> bool:
    pages, writes = struct.unpack_from("<II", text, 8)
    return writes >= LEAST_WRITES and pages <= MOST_PAGES


def small(draw: random.Random, folder: str) -> str:
    """A small trace, in one of the versions of the format."""
    found = filter(is_fit, (traces.generated(draw) for _ in range(100)))
    return write_file(next(found), folder, f"{name_of(draw)}.pcwt")


def shape(draw: random.Random, folder: str) -> str:
    return write_file(page_shapes.fit_shape(draw, is_fit), folder, f"{name_of(draw)}.pcwt")


def name_of(draw: random.Random) -> str:
    return f"{draw}".replace(" ", "-")


def thinned(folder: str) -> str:
    path = os.path.join(folder, "thin.light.pcwt")
    words = [os.path.join(EXAMPLES, "guests", "mid.light.pcwt"), path, "--one-in", "16", "--start", "1000"]
    command = [os.path.join(TOP, "tools", "thin"), *words]
    subprocess.run(command, check=True, stdout=subprocess.DEVNULL)
    return path


def recorded(draw: random.Random, path: str) -> str:
    """Writes a NAME.json of random numbers beside a trace, which is a record then."""
    trace = Trace.at(path)
    text = read_bytes(path)
    pages = trace.pages
    sampled = draw.randrange(pages, 2 * pages + 1)
    guest = sampled * draw.choice([1, draw.randrange(1, 300)])
    last, tick = trace.last + draw.choice([0, draw.randrange(2_000)]), draw.choice([0.0001, 0.001, 0.001, 0.02])
    told = samples.Sample(
        format=samples.FORMAT,
        trace_sha256=samples.digest(text),
        trace_pages=pages,
        trace_writes=struct.unpack_from("<I", text, 12)[0],
        first_tick=draw.randrange(trace.last // 4 + 1),
        last_tick=last,
        tick_seconds=tick,
        interval_seconds=1.0,
        guest_pages=guest,
        guest_nonzero=draw.randrange(pages, guest + 1),
        counted_pages=guest,
        sampled_pages=sampled,
        sampled_nonzero=pages,
        seed=0,
        method="trace",
        samples=1,
        late=0,
        taken_at=samples.now(),
        taken_of="no guest",
    )
    write_file(told.text(), samples.path_beside(path))
    return path


# ---- Questions.


def of_looks(asked: Question) -> Question:
    """The same by a hypervisor's looks, without what is of Clark's rounds alone; the most rounds are the default."""
    return replace(asked, first=None, increment=None, rounds=30, skip=False, clark=False)


def random_question(draw: random.Random, trace: Trace) -> Question:
    """A question about a trace, most of the time one that is not refused; half of them go by a hypervisor's looks."""
    pages, sampled = trace.pages, trace.pages
    if draw.randrange(2):
        sampled = draw.randrange(max(1, pages - draw.choice([0] * 9 + [1])), 2 * pages + 2)
    guest = sampled * draw.choice([1, draw.randrange(1, 50), draw.randrange(1, 10_000)]) + draw.choice([0, 0, 17])
    tick = draw.choice([1, 10, 100, 1_000, 1_000, 10_000, 1_000_000])
    rounds, skips = draw.choice([30, 1, 2, draw.randrange(66)]), bool(draw.randrange(2))
    asked = Question(1, None, 0, 0, tick, trace.size, sampled, guest, None, rounds, 0, None, skips)
    asked = limited(draw, asked, trace)
    start = draw.choice([0, draw.randrange(trace.last + 1), draw.randrange(trace.last + 5)])
    if draw.randrange(AFTER) == 0:
        start = trace.last + draw.randrange(1, 9)
    base = draw.choice([None, None, draw.randrange(start + 1), start + draw.choice([0, 0, 0, 0, 1])])
    first = draw.choice([None, None, max(125, asked.link * draw.randrange(10, 101) // 100 // 125 * 125)])
    increment = draw.choice([None, None, draw.randrange(1 + min(1_000_000, asked.rate(asked.link)))])
    reserve = draw.choice([0, 0, draw.randrange(1 + 2 * asked.downtime)])
    made = replace(
        asked,
        start=start,
        base=base,
        first=first,
        increment=increment,
        reserve=reserve,
        downtime=asked.downtime + reserve * draw.choice([0, 1, 1, 1, 1, 1]),
        clark=True,
    )
    return draw.choice([made, of_looks(made)])


def in_range(
    draw: random.Random, trace: Trace, is_refused: bool = False, clark: Optional[bool] = None, **changed
) -> Question:
    """A question about a trace that is not refused, or one that is, with some of its numbers changed. It goes by
    Clark's rounds, or does not: that is drawn too, if it is not said."""
    clark = bool(draw.randrange(2)) if clark is None else clark
    drawn = (random_question(draw, trace) for _ in itertools.count())
    asked = (replace(it, **changed) for it in drawn if it.clark == clark)
    return next(it for it in asked if (it.refusal(trace) is not None) == is_refused)


def limited(draw: random.Random, asked: Question, trace: Trace) -> Question:
    """With a link that moves all pages in about the time of the trace or less, and a downtime for some of them."""
    pages = trace.pages
    rate = min(1_010_000, max(1.2, 1_000 * pages / (trace.last + 1) * 10 ** draw.uniform(-0.3, 2)))
    link = max(1, math.ceil(rate * 1_000 * asked.page * asked.guest / asked.sampled / asked.tick / 125)) * 125
    most = max(1, asked.rate(link))
    ticks = draw.choice([0, 1, 1, 1]) * int(min(65_600, pages * 10 ** draw.uniform(-3, 0.2)) * 1_000 / most)
    return replace(asked, link=link, downtime=ticks * asked.tick)


def paced(draw: random.Random, asked: Question) -> tuple[Question, list[str]]:
    """The same with a pace of Clark's rounds, and the words of tools/predict for that."""
    first = draw.choice([None, asked.link * draw.randrange(10, 101) // 100 // 125 * 125])
    made = replace(
        asked,
        first=first if first and asked.rate(first) else None,
        increment=draw.choice([None, draw.randrange(1 + min(1_000, asked.rate(asked.link)))]),
        rounds=draw.choice([64, 64, draw.randrange(1, 65)]),
        skip=bool(draw.randrange(2)),
        clark=True,
    )
    first_word = [] if made.first is None else [f"--first={made.first // 125}Kbit"]
    return made, ["--clark", *first_word, *made.pace()]


def of_record(draw: random.Random, folder: str, trace: Trace, told: dict) -> Asked:
    """What tools/predict may be asked about a record, and the same in its longer ticks."""
    sampled, length = told["trace_pages"], told["last_tick"] - told["first_tick"]
    guest = max(sampled, round(Fraction(sampled * told["guest_nonzero"], told["sampled_nonzero"])))
    tick = round(1e6 * told["tick_seconds"])
    asked = Question(1, None, 0, 0, tick, trace.size, sampled, guest, None, 30, 0, None, False)
    asked = limited(draw, asked, trace)
    asked = replace(asked, downtime=max(1, asked.downtime - asked.downtime % draw.choice([1, 10 * tick, 20 * tick])))
    asked, pace = paced(draw, asked) if draw.randrange(2) else (asked, [])
    words = [trace.path, f"--link={asked.link // 125}Kbit", f"--downtime={asked.downtime}us", *pace]
    if draw.randrange(3) == 0:
        later = draw.randrange(1, 2 + length // 2)
        asked, words = replace(asked, start=later), [*words, f"--start={later * tick}us"]
    longer, writes = in_longer_ticks(asked, told, trace)
    text = page_shapes.trace(trace.size.bit_length() - 1, trace.pages, [(*write, 1) for write in writes])
    name = f"{os.path.basename(trace.path)}-{longer.tick}.pcwt"
    return Asked(longer, Trace.at(write_file(text, folder, name)), words)


def asked_of_trace(draw: Draw, path: str, count: int) -> list[Asked]:
    trace = Trace.at(path)
    return [Asked(in_range(draw, trace, number % SELDOM == 0), trace, draw=draw) for number in range(count)]


def asked_of_record(draw: Draw, folder: str, path: str, count: int) -> list[Asked]:
    trace, told = Trace.at(path), read_json(samples.path_beside(path))
    return [of_record(draw, folder, trace, told)._replace(draw=draw) for _ in range(count)]


def all_asked(folder: str, least: int) -> list[Asked]:
    """At least so many questions about eight traces and four records. Each draw makes its trace and what is asked."""
    found = []
    of_trace, of_record = (math.ceil(count * max(least, LEAST) / LEAST) for count in (OF_TRACE, OF_RECORD))
    for name in ("gzip.pcwt", "released.pcwt"):
        for draw in drawn(f"questions about {name}", range(1)):
            found += asked_of_trace(draw, os.path.join(EXAMPLES, name), of_trace)
    for make, count in ((small, SMALL), (shape, SHAPES)):
        for draw in drawn(f"questions about a {make.__name__} trace", range(count)):
            found += asked_of_trace(draw, make(draw, folder), of_trace)
    for path in (os.path.join(EXAMPLES, "guests", "sqlite.light.pcwt"), thinned(folder)):
        for draw in drawn(f"questions about {os.path.basename(path)}", range(1)):
            found += asked_of_record(draw, folder, path, of_record)
    for draw in drawn("questions about a record", range(RECORDS)):
        found += asked_of_record(draw, folder, recorded(draw, shape(draw, folder)), of_record)
    return found
