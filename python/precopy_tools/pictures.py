"""What the pictures in SVG share: the outside of a file, and round numbers and times of day for their axes."""

import math
import time

# So many seconds may be between two lines of an axis of times of day.
CLOCK_STEPS = (1, 2, 5, 10, 15, 30, 60, 120, 300, 600, 900, 1800, 3600, 7200, 10_800)


def round_above(number: float) -> float:
    """The least of 1, 2 and 5 times a power of ten that is not below a number above 0."""
    power = 10.0 ** math.floor(math.log10(number))
    return next(times * power for times in (1, 2, 5, 10) if times * power >= number * (1 - 1e-9))


def clock_marks(begin: float, seconds: float, most: int) -> list[tuple[float, str]]:
    """The round times of day, in UTC, within so many seconds from a begin in Unix seconds: how long after it each is.
    The steps between them are such that the seconds have at most so many."""
    step = next((each for each in CLOCK_STEPS if seconds <= most * each), CLOCK_STEPS[-1])
    first, form = math.ceil(begin / step) * step, "%H:%M:%S" if step < 60 else "%H:%M"
    times = range(first, math.floor(begin + seconds) + 1, step)
    return [(at - begin, time.strftime(form, time.gmtime(at))) for at in times]


def picture(width: int, height: int, lines: list[str]) -> str:
    size = f'width="{width}" height="{height}" viewBox="0 0 {width} {height}"'
    head = f'<svg xmlns="http://www.w3.org/2000/svg" {size} font-family="sans-serif" font-size="12">'
    return "\n".join([head, *lines, "</svg>", ""])
