"""What a destination may be given of pages without stamps, and where memory differs, worked out from the bytes of a
trace (docs/FORMATS.md).

It takes nothing from the library, so that it is a second opinion on what that says.
"""

from typing import NamedTuple, Optional

from checks.lib.traces import Trace


class Different(NamedTuple):
    """The first byte of memory that differs, its page and what that is at, and place and tick of the last write that
    covers the byte, or zeros."""

    offset: int
    page: int
    wanted: int
    missing: int
    tick: int


class Pages:
    """What each page has been: a list of versions, each a place and the bytes there."""

    def __init__(self, trace: bytes):
        it = Trace(trace)
        self.size, self.records = it.size, it.records
        self.versions = [[(0, bytes(it.size))] for _ in range(it.pages)]
        for place, (_, page, offset, data) in enumerate(it.records, 1):
            content = bytearray(self.versions[page][-1][1])
            data = data or bytes(it.size)  # a release
            content[offset : offset + len(data)] = data
            self.versions[page].append((place, bytes(content)))

    def at(self, page: int, count: int) -> tuple[int, bytes]:
        """The last version of a page after the first writes."""
        return [it for it in self.versions[page] if it[0] <= count][-1]

    def writes_before(self, tick: int) -> int:
        return sum(at < tick for at, *_ in self.records)

    def memory(self, count: int) -> bytes:
        return b"".join(self.at(page, count)[1] for page in range(len(self.versions)))


class Destination:
    """What was taken of each page: the place of its version, or None, and its bytes. With a base that is what the
    writes before this tick leave."""

    def __init__(self, pages: Pages, stop: int, base: Optional[int] = None):
        self.pages, self.stop = pages, stop
        numbers = range(len(pages.versions))
        if base is None:
            self.taken = [(None, bytes(pages.size)) for _ in numbers]
        else:
            self.taken = [pages.at(page, pages.writes_before(base)) for page in numbers]

    def take(self, page: int, content: bytes) -> bool:
        """Takes the least version of a page that has these bytes, of those from the one that it has to the last before
        the stop. Says whether there is one."""
        least = self.taken[page][0] or 0
        fitting = [it for it in self.pages.versions[page] if least <= it[0] <= self.stop and it[1] == content]
        if fitting:
            self.taken[page] = fitting[0]
        return bool(fitting)

    def words(self) -> list[int]:
        """For each page the place of its version, plus 1, or 0 if none was taken."""
        return [0 if place is None else place + 1 for place, _ in self.taken]

    def memory(self) -> bytes:
        return b"".join(content for _, content in self.taken)


def difference(pages: Pages, count: int, memory: bytes) -> Optional[Different]:
    """The first byte of memory that is not as the first writes leave it."""
    wanted = pages.memory(count)
    offset = next((at for at, both in enumerate(zip(memory, wanted)) if both[0] != both[1]), None)
    if offset is None:
        return None
    number, inside = divmod(offset, pages.size)
    covering = [
        (place, tick)
        for place, (tick, page, start, data) in enumerate(pages.records[:count], 1)
        if page == number and (not data or start <= inside < start + len(data))
    ]
    return Different(offset, number, pages.at(number, count)[0], *(covering[-1] if covering else (0, 0)))
