"""The memory of a running guest, read from outside: sources of pages, and a copy that finds what has changed."""

import bisect
import os
from typing import NamedTuple

SHIFT = 12
PAGE = 1 << SHIFT
# The bytes read and compared at once. Larger buffers come from the kernel anew each time, and cost more.
CHUNK = 16 * PAGE
ZEROS = bytes(CHUNK)


class Gone(Exception):
    """The guest's memory cannot be read any more."""


class FileSource:
    """A file that is the memory of a guest, as of QEMU's memory-backend-file with share=on."""

    def __init__(self, path):
        self.descriptor = os.open(path, os.O_RDONLY)
        self.size = os.fstat(self.descriptor).st_size
        if self.size == 0 or self.size % PAGE:
            raise ValueError(f"{path} has {self.size} bytes, which are no whole pages of {PAGE}")

    def ranges(self):
        return [(0, self.size)]

    def read(self, place, length):
        # A read of a hole gives zeros and allocates nothing, other than a look through a mapping.
        data = os.pread(self.descriptor, length, place)
        if len(data) < length:
            raise Gone("the file became shorter")
        return data


class Chunk:
    """Some pages one after the other, as they were last seen. Memory that was never looked at is zero."""

    __slots__ = ("place", "first", "seen")

    def __init__(self, place, first, seen):
        self.place = place
        self.first = first
        self.seen = seen


class Change(NamedTuple):
    page: int
    offset: int
    data: bytes


def any_set(page):
    return page != ZEROS[: len(page)]


def changed_range(old, new):
    """The least range of bytes that holds all differences of two pages that are not equal: its offset and new bytes."""
    if not any_set(old):
        return len(new) - len(new.lstrip(b"\0")), new.strip(b"\0")
    differs = int.from_bytes(old, "little") ^ int.from_bytes(new, "little")
    first = ((differs & -differs).bit_length() - 1) // 8
    return first, new[first : (differs.bit_length() + 7) // 8]


def joined(ranges):
    """The same places in as few ranges as can be, sorted."""
    apart = []
    for begin, end in sorted(ranges):
        if apart and begin <= apart[-1][1]:
            apart[-1] = apart[-1][0], max(end, apart[-1][1])
        else:
            apart.append((begin, end))
    return apart


def without(ranges, known):
    """The parts of `ranges` that no range of `known` covers. Both are sorted and apart."""
    for begin, end in ranges:
        for low, high in known:
            if high <= begin or end <= low:
                continue
            if begin < low:
                yield begin, low
            begin = max(begin, high)
        if begin < end:
            yield begin, end


def pages_of(chunks):
    return sum(len(chunk.seen) for chunk in chunks) // PAGE


class Copy:
    """A private copy of a source's memory. Pages are numbered in order; new mappings get the next numbers."""

    def __init__(self, source):
        self.source = source
        self.known = []
        self.chunks = []
        self.pages = 0

    def added(self):
        """Chunks of zeros for the memory of the source that has none yet."""
        chunks, page = [], self.pages
        for begin, end in without(self.source.ranges(), self.known):
            for place in range(begin, end, CHUNK):
                length = min(CHUNK, end - place)
                chunks.append(Chunk(place, page, ZEROS if length == CHUNK else bytes(length)))
                page += length // PAGE
        return chunks

    def _bytes(self, chunk):
        """The bytes of a chunk as they are now, with those last seen if there are none to read."""
        new = self.source.read(chunk.place, len(chunk.seen))
        if new is not None and len(new) == len(chunk.seen):
            return new
        pages = []
        for at in range(0, len(chunk.seen), PAGE):
            page = self.source.read(chunk.place + at, PAGE)
            pages.append(page if page is not None and len(page) == PAGE else chunk.seen[at : at + PAGE])
        return b"".join(pages)

    def look(self, added):
        """Looks once at all memory, then at the chunks of added(): those that have changed, and their bytes."""
        looked = ((chunk, self._bytes(chunk)) for chunk in self.chunks + added)
        return [(chunk, new) for chunk, new in looked if new != chunk.seen]

    @staticmethod
    def changes(chunk, new, light=False):
        """Yields what has changed in a chunk, page by page. A light change is one byte, 1."""
        for at in range(0, len(new), PAGE):
            old_page, new_page = chunk.seen[at : at + PAGE], new[at : at + PAGE]
            if old_page != new_page:
                least = (0, b"\x01") if light else changed_range(old_page, new_page)
                yield Change(chunk.first + at // PAGE, *least)

    def grow(self, chunks):
        """Takes chunks that added() gave."""
        self.chunks += chunks
        self.pages += pages_of(chunks)
        self.known = joined(self.known + [(chunk.place, chunk.place + len(chunk.seen)) for chunk in chunks])

    def page(self, number):
        """Where a page is in the source, and its bytes."""
        chunk = self.chunks[bisect.bisect_right(self.chunks, number, key=lambda it: it.first) - 1]
        at = (number - chunk.first) * PAGE
        return chunk.place + at, chunk.seen[at : at + PAGE]
