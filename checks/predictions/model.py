"""What tools/predict asks about a record, by docs/REAL-GUESTS.md. It shares no code with the tool."""

from dataclasses import replace
from fractions import Fraction

from checks.lib.migration_model import Question
from checks.lib.traces import Trace


def in_longer_ticks(asked: Question, record: dict, trace: Trace) -> tuple[Question, list[tuple[int, int]]]:
    """The question that docs/REAL-GUESTS.md says is asked about a record, and the writes of its trace.

    Ticks are longer by the least of 1, 2, 5, 10 and 20 that makes a rate of 500, of those that divide the downtime.
    They are counted from the first look on. The trace has no write from before it, and one at the last. A downtime in
    which more than 65,535 pages go is the longest in which no more do. What is added to a rate grows with the ticks.
    """
    rate = Fraction(asked.link * asked.tick * asked.sampled, 1000 * asked.page * asked.guest)
    fitting = [
        each
        for each in (1, 2, 5, 10, 20)
        if asked.downtime % (asked.tick * each) == 0 and asked.tick * each <= 1_000_000
    ] or [1]
    factor = next((each for each in fitting if rate * each >= 500), fitting[-1])
    increment = None if asked.increment is None else min(1_000_000, asked.increment * factor)
    longer = replace(asked, tick=asked.tick * factor, start=asked.start // factor, increment=increment)
    most = (1000 * 65_536 - 1) // max(1, longer.rate(asked.link)) * longer.tick
    longer = replace(longer, downtime=min(asked.downtime, most))
    first = record["first_tick"]
    writes = sorted(
        {((tick - first) // factor, page) for page, ticks in enumerate(trace.guest) for tick in ticks if tick >= first}
    )
    last = (record["last_tick"] - first) // factor
    return longer, writes + [(last, 0)] * (not writes or writes[-1][0] < last)
