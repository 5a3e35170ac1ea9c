"""What the streams of a migration must be, worked out frame by frame from the bytes of its trace (docs/FORMATS.md).

It takes nothing from the library, so that it is a second opinion on what that says.
"""

import bisect
import struct
from typing import Iterator, NamedTuple, Optional, Union

from checks.lib.traces import Trace

HEAD = 9


class WrongFrame(NamedTuple):
    """The first frame that is wrong. `wanted` is the stamp that was to be, as far as there is one."""

    stream: int
    number: int
    offset: int
    cause: str
    page: int = 0
    stamp: int = 0
    wanted: int = 0


class WrongPage(NamedTuple):
    """A page that did not come at its version at the stop. `missing` is the place of the first write that it lacks and
    `tick` the tick of that; both are 0 if it lacks none. `stamp` is None if the page never came."""

    page: int
    stamp: Optional[int]
    wanted: int
    missing: int
    tick: int


Wrong = Union[WrongFrame, WrongPage]


class Page:
    """A page with its writes: their places, ticks, offsets and bytes."""

    def __init__(self, size: int):
        self.places, self.writes = [], []
        self.content, self.done = bytearray(size), 0

    def add(self, place: int, tick: int, offset: int, data: bytes) -> None:
        self.places.append(place)
        self.writes.append((tick, offset, data))

    def version(self, count: int) -> int:
        """The place of the last write among the first ones of the trace, or 0."""
        number = bisect.bisect_right(self.places, count)
        return self.places[number - 1] if number else 0

    def after(self, stamp: int) -> bytearray:
        """The bytes after the write with this place. Later stamps are found faster than earlier ones."""
        number = bisect.bisect_right(self.places, stamp)
        if number < self.done:
            self.content, self.done = bytearray(len(self.content)), 0
        for _, offset, data in self.writes[self.done : number]:
            data = data or bytes(len(self.content))  # a release
            self.content[offset : offset + len(data)] = data
        self.done = number
        return self.content

    def first_after(self, stamp: int) -> tuple[int, int]:
        """Place and tick of the first write after this stamp."""
        number = bisect.bisect_right(self.places, stamp)
        return self.places[number], self.writes[number][0]


class Guest:
    """The pages of a trace that the library accepts."""

    def __init__(self, trace: bytes):
        it = Trace(trace)
        self.size, self.write_count, self.ticks = it.size, len(it.records), [tick for tick, _ in it.writes]
        self.pages = [Page(self.size) for _ in range(it.pages)]
        for place, (tick, page, offset, data) in enumerate(it.records, 1):
            self.pages[page].add(place, tick, offset, data)

    def writes_before(self, tick: int) -> int:
        return bisect.bisect_left(self.ticks, tick)

    def memory_after(self, count: int) -> bytes:
        """The memory after the first writes."""
        return b"".join(bytes(page.after(page.version(count))) for page in self.pages)


def refusal(guest: Guest, data: bytes, at: int) -> Optional[str]:
    """Why the bytes from there on do not begin with a frame, or None."""
    if len(data) - at < HEAD:
        return "F1"
    page, stamp, kind = struct.unpack_from("<IIB", data, at)
    content = data[at + HEAD : at + HEAD + guest.size] if kind == 1 else b""
    causes = {
        "F2": page >= len(guest.pages),
        "F3": stamp > guest.write_count,
        "F4": kind > 1,
        "F1": kind == 1 and len(content) < guest.size,
        "F5": kind == 1 and not any(content),
    }
    return next((name for name, holds in causes.items() if holds), None)


def frames(guest: Guest, data: bytes) -> Iterator[tuple[int, int, int, bytes]]:
    """Offset, page, stamp and bytes of each frame of a stream that has no other bytes."""
    at = 0
    while at < len(data):
        page, stamp, kind = struct.unpack_from("<IIB", data, at)
        size = HEAD + kind * guest.size
        yield at, page, stamp, data[at + HEAD : at + size] or bytes(guest.size)
        at += size


def whole_frames(guest: Guest, data: bytes) -> tuple[bytes, Optional[str]]:
    """The frames at the front of a stream, and why the bytes after them are no frame, or None if none follow."""
    at = 0
    while at < len(data):
        if why := refusal(guest, data, at):
            return data[:at], why
        at += HEAD + data[at + 8] * guest.size
    return data, None


def wrong_stamp(guest: Guest, stop: int, last: int, page: int, stamp: int) -> Optional[tuple[str, int]]:
    """What is wrong with a stamp, and the one that was to be. `last` is the stamp before it, or 0."""
    version = guest.pages[page].version(stamp)
    if version != stamp:
        return "no version", version
    if stamp > stop:
        return "after the stop", guest.pages[page].version(stop)
    return ("older", last) if stamp < last else None


def wrong_frame(guest: Guest, stop: int, number: int, data: bytes, greatest: dict[int, int]) -> Optional[WrongFrame]:
    """The first wrong frame of a stream. Its stamps go into those that are known to have come."""
    last: dict[int, int] = {}
    whole, why = whole_frames(guest, data)
    count = 0
    for offset, page, stamp, content in frames(guest, whole):
        wrong = wrong_stamp(guest, stop, last.get(page, 0), page, stamp)
        if wrong is None and guest.pages[page].after(stamp) != content:
            wrong = "bytes", stamp
        if wrong:
            return WrongFrame(number, count, offset, wrong[0], page, stamp, wrong[1])
        last[page] = stamp
        greatest[page] = max(stamp, greatest.get(page, 0))
        count += 1
    return WrongFrame(number, count, len(whole), why) if why else None


def wrong_page(guest: Guest, stop: int, greatest: dict[int, int]) -> Optional[WrongPage]:
    """The first page that is not at its version at the stop, of the stamps that came."""
    for number, page in enumerate(guest.pages):
        wanted, stamp = page.version(stop), greatest.get(number)
        if stamp != wanted:
            return WrongPage(number, stamp, wanted, *(page.first_after(stamp or 0) if wanted else (0, 0)))
    return None


def first_wrong(guest: Guest, stop: int, streams: list[bytes], base: Optional[int] = None) -> Optional[Wrong]:
    """What is wrong first: in the streams, one after the other, and then at the stop, after so many writes. With a base
    the destination has each page as it is before that tick."""
    greatest: dict[int, int] = {}
    if base is not None:
        count = guest.writes_before(base)
        greatest = {number: page.version(count) for number, page in enumerate(guest.pages)}
    for number, data in enumerate(streams):
        if wrong := wrong_frame(guest, stop, number, data, greatest):
            return wrong
    return wrong_page(guest, stop, greatest)
