"""The ticks of a recording."""

# The tick at which sampling begins: one window of the report by default, so the first sample has window 0 to itself.
FIRST = 1000


def spread(page: int, sample: int, last: int, tick: int) -> int:
    """A tick after `last` and up to `tick`, by page and sample: evenly over the interval, and the same each time."""
    interval = tick - max(last, FIRST)
    if interval <= 1:
        return tick
    mixed = (page * 0x9E3779B1 ^ sample * 0x85EBCA77) & 0xFFFFFFFF
    mixed = ((mixed ^ mixed >> 15) * 0x2C1B3C6D) & 0xFFFFFFFF
    return tick - (mixed ^ mixed >> 13) % interval
