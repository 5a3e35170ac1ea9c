"""Worked examples for checks/lib/stream_model.py: right streams, and one for each thing that can be wrong."""

import struct

from checks.lib.stream_model import Guest, WrongFrame, WrongPage, first_wrong
from precopy_dev.files import read_bytes
from precopy_dev.tree import TOP

# The guest of examples/a.pcwt is stopped at tick 2000, after three of its five writes. Then page 0 is at version 1 and
# page 1 at version 3; pages 2 and 3 were not written.
STOP = 3
ZEROS, ONE, OLD, NEW = bytes(16), b"\1" + bytes(15), bytes(15) + b"\2", b"\3" + bytes(14) + b"\2"
RIGHT = [(0, 1, ONE), (1, 2, OLD), (2, 0, ZEROS), (3, 0, ZEROS), (1, 3, NEW)]
# Where the fifth frame begins, and the sixth.
FIFTH, SIXTH = 25 + 25 + 9 + 9, 25 + 25 + 9 + 9 + 25


# The statuses of the library for pages that did not come, or not as they must, and for frames.
OF_PAGES = PAGE_MISSING, PAGE_BEHIND = 65, 75
STATUSES = {"F1": 41, "F2": 42, "F3": 43, "F4": 44, "F5": 45}
STATUSES |= {"no version": 71, "after the stop": 72, "older": 73, "bytes": 74}


def told_by_model(wrong):
    """What the library is to tell where the model finds this."""
    if wrong is None:
        return None
    if isinstance(wrong, WrongPage):
        status = PAGE_MISSING if wrong.stamp is None else PAGE_BEHIND
        return status, 0, 0, 0, wrong.page, wrong.stamp or 0, wrong.wanted, wrong.missing, wrong.tick
    place = wrong.stream, wrong.number, wrong.offset
    return STATUSES[wrong.cause], *place, wrong.page, wrong.stamp, wrong.wanted, 0, 0


def told_by_library(found):
    if found is None:
        return None
    place = found.stream, found.frame, found.offset
    return found.status, *place, found.page, found.stamp, found.wanted, found.missing, found.tick


def frame(page, stamp, content):
    kind = b"\1" + content if any(content) else b"\0"
    return struct.pack("<II", page, stamp) + kind


def stream(frames):
    return b"".join(frame(*it) for it in frames)


def rows():
    """Streams, and what is wrong first."""
    right = stream(RIGHT)
    yield [right], None
    yield [right, b"", right], None
    yield [stream(RIGHT[2:]), stream(RIGHT[:2])], None
    yield [right + frame(1, 2, OLD)], WrongFrame(0, 5, SIXTH, "older", 1, 2, 3)
    yield [b"", right + frame(1, 3, NEW) + frame(1, 0, ZEROS)], WrongFrame(1, 6, SIXTH + 25, "older", 1, 0, 3)
    yield [stream([*RIGHT[:4], (1, 3, OLD)])], WrongFrame(0, 4, FIFTH, "bytes", 1, 3, 3)
    yield [stream([*RIGHT[:4], (1, 3, ZEROS)])], WrongFrame(0, 4, FIFTH, "bytes", 1, 3, 3)
    yield [right, frame(2, 0, ONE)], WrongFrame(1, 0, 0, "bytes", 2, 0, 0)
    yield [stream([*RIGHT[:4], (1, 4, NEW)])], WrongFrame(0, 4, FIFTH, "no version", 1, 4, 3)
    yield [right + frame(0, 3, ONE)], WrongFrame(0, 5, SIXTH, "no version", 0, 3, 1)
    yield [right + frame(3, 4, b"\0\0\4\5" + bytes(12))], WrongFrame(0, 5, SIXTH, "after the stop", 3, 4, 0)
    yield [right + frame(1, 5, OLD)], WrongFrame(0, 5, SIXTH, "after the stop", 1, 5, 3)
    yield [stream(RIGHT[:4])], WrongPage(1, 2, 3, 3, 1200)
    yield [stream([*RIGHT[:1], *RIGHT[2:4], (1, 0, ZEROS)])], WrongPage(1, 0, 3, 2, 5)
    yield [stream(RIGHT[1:])], WrongPage(0, None, 1, 1, 0)
    yield [stream([*RIGHT[:2], *RIGHT[3:]])], WrongPage(2, None, 0, 0, 0)
    yield [], WrongPage(0, None, 1, 1, 0)
    yield [right + b"\0" * 8], WrongFrame(0, 5, SIXTH, "F1")
    yield [right[:-1]], WrongFrame(0, 4, FIFTH, "F1")
    yield [right + frame(4, 9, ZEROS)], WrongFrame(0, 5, SIXTH, "F2")
    yield [right + frame(3, 6, ZEROS)], WrongFrame(0, 5, SIXTH, "F3")
    yield [right + frame(3, 0, ZEROS)[:8] + b"\2"], WrongFrame(0, 5, SIXTH, "F4")
    yield [right + frame(3, 0, ZEROS)[:8] + b"\1" + ZEROS], WrongFrame(0, 5, SIXTH, "F5")
    yield [right, frame(4, 0, ZEROS), frame(5, 0, ZEROS)], WrongFrame(1, 0, 0, "F2")


def check(tally):
    guest = Guest(read_bytes(TOP, "examples/a.pcwt"))
    for streams, wanted in rows():
        found = first_wrong(guest, STOP, streams)
        tally.add(found == wanted, f"the model says {found} in place of {wanted}: {[it.hex() for it in streams]}")
    tally.add(guest.writes_before(2000) == guest.writes_before(1201) == STOP, "writes before tick 2000")
    tally.add(guest.writes_before(1200) == 2 and guest.writes_before(2500) == STOP, "writes before a write")
    tally.add(guest.memory_after(STOP) == ONE + NEW + ZEROS + ZEROS, "memory at the stop")
    # In examples/c.pcwt the last write releases page 1.
    guest, last = Guest(read_bytes(TOP, "examples/c.pcwt")), [(3, 4, b"\0\0\4\5" + bytes(12)), (1, 5, ZEROS)]
    found = first_wrong(guest, 5, [stream([*RIGHT, *last])])
    tally.add(found is None, f"the model says {found} of a released page")
    found = first_wrong(guest, 5, [stream([*RIGHT, last[0], (1, 5, NEW)])])
    tally.add(found == WrongFrame(0, 6, SIXTH + 25, "bytes", 1, 5, 5), f"the model says {found} of a page not released")
