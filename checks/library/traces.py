"""Traces, settings and frames for checks/library, and what they come to, worked out here by docs/FORMATS.md."""

import precopy
from checks.lib import stream_model
from checks.lib.stream_rows import frame as frame_text

# Each setting with the ends of its range; the base may be as late as the start, which is 0.
RANGES = [
    ("min", 1, 1_000_000),
    ("max", 1, 1_000_000),
    ("increment", 0, 1_000_000),
    ("threshold", 1, 65_536),
    ("rounds", 1, 64),
    ("window", 1, 1 << 40),
    ("hot", 1, 1_048_576),
    ("start", 0, (1 << 40) - 1),
    ("base", 0, 0),
]


# ---- Settings.


def settings(chosen):
    """Settings under which small guests have some rounds."""
    low, start = chosen.choice([1, 2, 50]), chosen.choice([0, 0, 7, 100])
    return precopy.Settings(
        min=low,
        max=low + chosen.choice([0, 3, 4000]),
        increment=chosen.choice([0, 1, 500]),
        threshold=chosen.choice([1, 3, 64]),
        rounds=chosen.choice([1, 3, 64]),
        start=start,
        window=chosen.choice([1, 100, 1 << 40]),
        hot=chosen.choice([1, 2]),
        base=chosen.choice([None, None, 0, start]),
        skip=chosen.random() < 0.5,
    )


def cases_like(first):
    """Cases of a sweep with the start and the base of some settings."""
    more = {"start": first.start, "base": first.base, "window": first.window, "hot": first.hot}
    others = [precopy.Settings(min=2, max=4, increment=1, threshold=3, rounds=8, **more)]
    others.append(precopy.Settings(min=50, max=5000, increment=500, threshold=2, rounds=30, skip=True, **more))
    return [*others, first, first]


# ---- Frames.


def frames(chosen):
    """Sizes of a guest, and frames of it: page, stamp and content, equal wherever page and stamp are."""
    sizes = precopy.Sizes(4, chosen.choice([1, 3, 6]), 20)
    known, made = {}, []
    for _ in range(chosen.randint(1, 12)):
        page, stamp = chosen.randrange(sizes.pages), chosen.choice([0, 1, 2, 19, 20])
        content = known.setdefault((page, stamp), chosen.choice([bytes(16), chosen.randbytes(16)]))
        made.append((page, stamp, content))
    return sizes, made


def ends_of(frames):
    """The places in a stream at which a frame ends, and its beginning."""
    ends = [0]
    for frame in frames:
        ends.append(ends[-1] + len(frame_text(*frame)))
    return ends


class Sized:
    """A guest of which only the sizes are known, as the model of streams takes it."""

    def __init__(self, sizes):
        self.size, self.pages, self.write_count = sizes.page_length, range(sizes.pages), sizes.writes


def decoded(sizes, text):
    """The frames at the front of a stream, the bytes after them, and why those are no frame."""
    whole, cause = stream_model.whole_frames(Sized(sizes), text)
    found = [tuple(it[1:]) for it in stream_model.frames(Sized(sizes), whole)]
    return found, text[len(whole) :], cause and f"frame {cause}"


def joined(_sizes, frames):
    """Of each page the stamp and content of the frame with the greatest stamp, and the first of these."""
    kept = {}
    for page, stamp, content in frames:
        if page not in kept or kept[page][0] < stamp:
            kept[page] = stamp, content
    return kept


def state(flat):
    """What flat memory has, in the same form. The bytes of a page that did not come are zeros still."""
    size, found = flat.sizes.page_length, {}
    for page in range(flat.sizes.pages):
        content = bytes(flat.memory[page * size : (page + 1) * size])
        if flat.stamp(page) is not None:
            found[page] = flat.stamp(page), content
        elif any(content):
            found[page] = None, content
    return found


def first_missing(sizes, kept):
    return next((page for page in range(sizes.pages) if page not in kept), None)


def taken_of(flat, data):
    """Takes the frames of some bytes, the last of which may be cut off. Returns how many bytes the others have."""
    try:
        return flat.accept(data).bytes
    except precopy.FrameRefused as refused:
        if refused.status != 41:
            raise
        return refused.taken.bytes
