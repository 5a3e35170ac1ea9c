"""Times, rates and sizes as words: those of quantities.tsv, and random decimals. Each door makes the same of them.

And amounts as texts: the tools and the page write them as checks/lib/amount_texts.py does."""

import math
import os
from dataclasses import replace
from fractions import Fraction

from checks.lib.amount_texts import error_text, moment_text, size_text, time_text
from checks.lib.harness import drawn
from checks.lib.tally import Failure, expect
from checks.lib.view_texts import parsed, ran
from checks.view.limit_cases import PLAIN, RATES, TIMES
from precopy_dev.tree import TOP
from precopy_tools import quantities as tool_texts
from precopy_tools import words as tool_words

UNITS = {"time": {**TIMES, "m": 60 * TIMES["s"], "h": 3_600 * TIMES["s"]}, "rate": RATES}
DRAWN = 60
PAGE_BYTES = 4_096
UNITS_OF_RATES = "Kbit, Mbit, Gbit, KB, MB, GB, KiB, MiB or GiB, per second, as in 10Gbit"
MISSPELLED = {
    "time": (2, "", "precopy-view: --downtime: a number and its unit, us, ms, s, m or h, as in 300ms or 0.3s\n"),
    "rate": (2, "", f"precopy-view: --link: a number and its unit, {UNITS_OF_RATES}\n"),
}


def table():
    """The rows of the table: the kind, the word, and the amount or None."""
    with open(os.path.join(TOP, "checks", "view", "quantities.tsv"), encoding="utf-8") as file:
        lines = [line.rstrip("\n") for line in file if not line.startswith("#")]
    rows = [line.split("\t") for line in lines]
    return [(kind, word, None if amount == "-" else int(amount)) for kind, word, amount in rows]


def quantities():
    """The rows of the table, and random decimals in each unit: what they come to is worked out by fractions."""
    yield from table()
    for draw in drawn("quantities", range(DRAWN)):
        for kind, units in UNITS.items():
            unit, places = draw.choice(sorted(units)), draw.randrange(7)
            whole = str(int(10 ** (draw.random() * 4)))
            word = whole + (f".{draw.randrange(10**places):0{places}}" if places else "")
            yield kind, f"{word}{unit}", math.floor(Fraction(word) * units[unit])


def amounts():
    """Amounts on both sides of those at which a form changes, and random ones."""
    edges = [*(10**power for power in range(10)), *(1 << power for power in (10, 20, 30, 40))]
    yield from sorted({edge + step for edge in edges for step in (-1, 0, 1)})
    yield from (int(10 ** (draw.random() * 13)) for draw in drawn("amounts", range(DRAWN)))


def texts_of(amount):
    """As how long something takes, as the error of that, as when something is, and as a size."""
    return [time_text(amount), error_text(amount), moment_text(amount), size_text(amount)]


def asked_for(kind, word, amount):
    """Options that say a word, where its amount is in its range if there is such a place; and the question that they
    ask."""
    if kind == "time":
        return ["--link=0.005KB", f"--downtime={word}", "--tick=1s"], replace(
            PLAIN, link=5, downtime=amount or 0, tick=10**6
        )
    fits = (name for name, tick in TIMES.items() if 1 <= (amount or 0) * tick // (1_000 * PAGE_BYTES) <= 1_000_000)
    unit = next(fits, "ms")
    asked = replace(PLAIN, link=amount or 0, downtime=0, tick=TIMES[unit])
    return [f"--link={word}", "--downtime=0s", f"--tick=1{unit}"], asked


def check_program(view, _, kind, word, amount, trace):
    words, asked = asked_for(kind, word, amount)
    found = status, text, faults = ran(view, ["json", "predict", *words], trace.path)
    if amount is None:
        expect(found == MISSPELLED[kind], f"{word!r}: {found}")
        return
    if refusal := asked.limit_refusal():
        expect(list(found) == refusal.of_view(), f"{word!r}: {found} in place of {refusal}")
        return
    expect(status in (0, 3, 4, 5) and not faults, f"{word!r}: status {status}, {faults!r}")
    limits = parsed("predict", text)["limits"]
    amounts_told = limits["link_bytes"], limits["down_seconds"] * 1_000_000
    expect(amounts_told == (asked.link, asked.downtime), f"{word!r}: {amounts_told} in place of {amount}")


def check_tool(_, __, kind, word, amount):
    units = {"time": tool_words.TIMES, "rate": tool_words.RATES, "size": tool_words.SIZES}[kind]
    found = tool_words.amount(word, units)
    if found != amount:
        raise Failure(f"a tool takes {word!r} as {found} in place of {amount}")


def check_texts(_, __, amount):
    tool = tool_texts
    found = [tool.time_text(amount), tool.error_text(amount), tool.moment_text(amount), tool.size_text(amount)]
    if found != texts_of(amount):
        raise Failure(f"a tool writes {amount} as {found} in place of {texts_of(amount)}")


def quantity_tries(trace):
    """The tries of amounts, and those of words over a trace with pages of 4,096 bytes."""
    yield from ((check_texts, amount) for amount in amounts())
    yield from ((check_tool, *row) for row in quantities())
    yield from ((check_program, *row, trace) for row in quantities() if row[0] != "size")
