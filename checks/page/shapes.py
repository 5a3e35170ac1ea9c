"""Traces of all shapes for checks/page: few and many pages and writes, small pages, long and short times, releases."""

import itertools

from checks.lib.traces import LAST_TICK, MOST_PAGES, header, record


def trace(shift, pages, writes):
    """A trace of writes, which are a tick, a page and a length; a length of 0 releases the page, in version 2."""
    version = 1 if all(length for _, _, length in writes) else 2
    records = [record(tick, page, 0, bytes(length)) for tick, page, length in writes]
    return header(pages, len(writes), shift, version=version) + b"".join(records)


def written_at_random(draw, shift, pages, count, last):
    """A trace of random writes up to a tick; a few pages take most of them."""
    hot, least = max(1, pages // 20), draw.choice([0, 1, 1, 1])
    ticks = sorted(draw.randrange(last + 1) for _ in range(count))
    return trace(
        shift,
        pages,
        [
            (
                tick,
                draw.randrange(hot if draw.randrange(4) else pages),
                draw.randrange(least, (1 << shift) + 1) if draw.randrange(2) else 1,
            )
            for tick in ticks
        ],
    )


def corners():
    """Traces at the ends of what may be."""
    whole = [(tick, tick % MOST_PAGES, 1) for tick in range(3_000)]
    return [
        trace(4, 1, []),
        trace(12, MOST_PAGES, []),
        trace(12, 1, [(0, 0, 1)]),
        trace(4, 1, [(LAST_TICK, 0, 16)]),
        trace(12, MOST_PAGES, [(LAST_TICK, MOST_PAGES - 1, 4096)]),
        trace(4, MOST_PAGES, whole),
        trace(12, 3, [(0, 0, 1), (LAST_TICK, 2, 1)]),
        trace(12, 100, [(0, page, 4096) for page in range(100)]),
        trace(12, 100, [(tick, tick % 100, 1) for tick in range(10_000)]),
        trace(8, 2, [(1, 1, 256)] * 2_000),
        trace(12, MOST_PAGES, [(1, page, 1) for page in range(0, MOST_PAGES, 3)]),
        trace(5, 17, [(7, 16, 32)]),
    ]


def random_shape(draw):
    shift = draw.choice([4, 6, 8, 10, 12, 12, 12])
    pages = min(MOST_PAGES, max(1, round(2 ** draw.uniform(0, 16.2))))
    last = min(LAST_TICK, round(10 ** draw.uniform(0, 12)))
    return written_at_random(draw, shift, pages, draw.choice([0, 1, 2, 50, 1_000, 6_000]), last)


def fit_shape(draw, is_fit):
    """A random trace of a shape that is fit."""
    return next(filter(is_fit, (random_shape(draw) for _ in itertools.count())))


def has_write(text):
    return text[12:16] != bytes(4)
