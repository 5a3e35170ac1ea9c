"""The tables of the planner's page, as it writes them: each column has one number of digits behind its points."""

import math
import re
from fractions import Fraction

from checks.view.limit_cases import RATES

ROWS_SHOWN = 100
# How many digits of a second moments have at least; and rates at most, unless one is less than that.
LEAST_DIGITS, MOST_DIGITS = 3, 3


def fixed(share, digits):
    """A number with so many digits behind its point, rounded."""
    whole, rest = divmod(math.floor(share * 10**digits + Fraction(1, 2)), 10**digits)
    return f"{whole}.{rest:0{digits}}" if digits else str(whole)


def digits_for(share, least):
    """How many digits behind its point a number needs so that without the point it is no less than this."""
    return next((digits for digits in range(9) if share * 10**digits >= least), 9)


def few_digits(share):
    """A number as the page writes it with about three digits; of a great one no digit before its point is left out."""
    text = fixed(share, digits_for(share, 100))
    return text.rstrip("0").rstrip(".") if "." in text else text


def behind(text):
    """How many digits a decimal number has behind its point."""
    return len(text.partition(".")[2])


def rate_texts(shares):
    """Rates as a column: with as many digits as one of them needs, within a bound."""
    needed, seen = max(behind(few_digits(share)) for share in shares), max(digits_for(share, 1) for share in shares)
    return [fixed(share, min(needed, max(MOST_DIGITS, seen))) for share in shares]


def moment_texts(moments):
    """Moments as a column, in seconds: with as many digits as one of them has."""
    digits = max([LEAST_DIGITS, *(len(f"{micros % 1_000_000:06}".rstrip("0")) for micros in moments)])
    return [f"{micros // 1_000_000:,}.{f'{micros % 1_000_000:06}'[:digits]}" for micros in moments]


def round_texts(asked, rounds):
    """The table of rounds or lists, of the first of many, as the page writes it: rates are in a unit of the link's
    family that the link with about three digits has one of."""

    def share(rate):
        return Fraction(rate * asked.page * asked.guest * 1_000, asked.sampled * asked.tick)

    unit = re.sub(r"[\d.]", "", asked.link[1])
    family = [name for name in RATES if name[1:] == unit[1:]]
    fitting = [name for name in family if float(few_digits(Fraction(asked.link[0], RATES[name]))) >= 1]
    unit = max(fitting, key=RATES.get, default=unit)
    numbers, begins, ends, rates, *counts = zip(*(some.values() for some in rounds[:ROWS_SHOWN]))
    columns = [moment_texts([(tick - asked.start) * asked.tick for tick in ticks]) for ticks in (begins, ends)]
    columns.append(rate_texts([share(rate) / RATES[unit] for rate in rates]))
    if asked.ticks:
        columns = [
            [f"{text} {count:,}" for text, count in zip(texts, others)]
            for texts, others in zip(columns, (begins, ends, rates))
        ]
    plain = [[f"{count:,}" for count in column] for column in (numbers, *counts)]
    return [list(row) for row in zip(plain[0], *columns, *plain[1:])]


def window_texts(asked, windows):
    """The table of windows, as the page writes it."""
    rows = [list(some.values()) for some in windows[:ROWS_SHOWN]]
    moments = moment_texts([number * asked.window * asked.tick for number, *_ in rows])
    return [
        [f"{number:,}", moment, *(f"{count:,}" for count in counts)] for (number, *counts), moment in zip(rows, moments)
    ]
