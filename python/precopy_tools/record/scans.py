"""Looks at the pages of a process: which of them were written since the last one, by the kernel's PAGEMAP_SCAN.

Pages near one another are a group: one call surveys it, and shows which are still protected, and only the others are
asked for. A page with no other near is asked for by itself, which costs the same for a guest of any size. The library
of scan.c makes all calls of a look, if it is there; else they are made here, one by one.
"""

import array
import bisect
import contextlib
import ctypes
import fcntl
import os
import struct
from collections.abc import Iterable, Iterator
from typing import NamedTuple

from precopy_tools.record.memory import PAGE
from precopy_tools.version import TOP

SCAN = 0xC0606610
PROTECTING, ONLY_WATCHED = 1, 2
WRITTEN, PRESENT, SWAPPED = 1 << 1, 1 << 3, 1 << 4
REQUEST = struct.Struct("=12Q")
REGION = struct.Struct("=3Q")
# A survey takes some 4 nanoseconds for each page that it passes, and a call takes 500. Its pages may be this far apart.
NEAR = 144 * PAGE
REACH = {None: NEAR, "whole": 1 << 64, "pages": 0}
# The most pages of a group: few enough that in most groups none was written since the last look.
PART = 32
# Where the library is: beside the tools where they are installed, and built by `make scan` in the sources.
PATHS = (os.path.join(TOP, "scan.so"), os.path.join(TOP, "out", "scan.so"))
SOURCE = os.path.join(os.path.dirname(os.path.realpath(__file__)), "scan.c")

ioctl = fcntl.ioctl


def library():
    """The call of the library, or None if it is not built, or older than its source, or not for this machine."""
    for path in PATHS:
        with contextlib.suppress(OSError, AttributeError):
            if os.path.getmtime(path) < os.path.getmtime(SOURCE):
                continue
            call = ctypes.CDLL(path).precopy_look
            call.restype = ctypes.c_size_t
            pointer, number = ctypes.c_void_p, ctypes.c_int
            call.argtypes = [number, pointer, pointer, ctypes.c_size_t, pointer, ctypes.POINTER(number)]
            return call
    return None


LIBRARY = library()


def address_of(buffer) -> int:
    return ctypes.addressof(ctypes.c_char.from_buffer(buffer))


def groups_of(ranges: list[tuple[int, int]], places: list[int], reach: int) -> Iterator[tuple[int, int]]:
    """Pages of one call, as the first number and the one after the last: none is farther than that from the one before.
    None goes beyond a range, where nothing is watched."""
    for begin, end in ranges:
        low, last = bisect.bisect_left(places, begin), bisect.bisect_left(places, end)
        for high in range(low + 1, last + 1):
            if high == last or high == low + PART or places[high] - places[high - 1] > reach:
                yield low, high
                low = high


class LibraryLook:
    """Looks by the library."""

    def __init__(self, places: list[int], groups: list[tuple[int, int]]):
        self.places, self.ends = array.array("Q", places), array.array("I", (high for _, high in groups))
        self.written = array.array("I", bytes(4 * len(places)))
        self.words = address_of(self.places), address_of(self.ends), len(groups), address_of(self.written)

    def look(self, pagemap: int) -> tuple[list[int], int]:
        """The numbers of the pages that were written since the last look, and the fault that ended this one, or 0."""
        fault = ctypes.c_int()
        count = LIBRARY(pagemap, *self.words, fault)
        return self.written[:count].tolist(), fault.value


# ---- The same without the library.


def asking(place: int, into: int, protecting: int) -> bytes:
    """Whether a page was written. With PROTECTING it is protected again, in the same step."""
    flags = protecting | ONLY_WATCHED
    return REQUEST.pack(REQUEST.size, flags, place, place + PAGE, 0, into, 1, 0, 0, WRITTEN, 0, WRITTEN)


def surveying(begin: int, end: int, into: int, regions: int) -> bytes:
    """Which pages are protected: they have an entry in a page table, and were not written. Nothing changes."""
    categories = WRITTEN, WRITTEN, PRESENT | SWAPPED, 0
    return REQUEST.pack(REQUEST.size, ONLY_WATCHED, begin, end, 0, into, regions, 0, *categories)


def regions_of(places: list[int]) -> Iterator[bytes]:
    """The regions that the kernel names if only these pages are protected: neighbours are one region."""
    begin = places[0]
    for place, following in zip(places, [*places[1:], 0]):
        if following != place + PAGE:
            yield REGION.pack(begin, place + PAGE, 0)
            begin = following


class Requests:
    """Some requests of equal size, numbered in their order."""

    def __init__(self, requests: Iterable[bytes]):
        view = memoryview(bytearray(b"".join(requests)))
        self.parts = [view[at : at + REQUEST.size] for at in range(0, len(view), REQUEST.size)]

    def make(self, pagemap: int, numbers: Iterable[int]) -> tuple[list[int], int]:
        """Makes some requests. Returns the numbers of those that found something, and the fault of the next, or 0."""
        call, parts, found = ioctl, self.parts, []
        for number in numbers:
            try:
                if call(pagemap, SCAN, parts[number]):
                    found.append(number)
            except OSError as fault:
                return found, fault.errno
        return found, 0


class Part(NamedTuple):
    """Some pages, where in the buffer their regions come, and what is there if none was written."""

    number_at: dict[int, int]
    slot: slice
    unwritten: bytes


class Survey:
    """Looks over groups of pages for those that may have been written, and changes nothing."""

    def __init__(self, places: list[int], groups: list[tuple[int, int]]):
        self.told = bytearray(REGION.size * len(places))
        self.parts: list[Part] = []
        requests = []
        into = address_of(self.told)
        for low, high in groups:
            of, slot = places[low:high], slice(REGION.size * low, REGION.size * high)
            unwritten = b"".join(regions_of(of)).ljust(slot.stop - slot.start, b"\0")
            self.parts.append(Part(dict(zip(of, range(low, high))), slot, unwritten))
            requests.append(surveying(of[0], of[-1] + PAGE, into + slot.start, len(of)))
        self.requests = Requests(requests)

    def look(self, pagemap: int) -> tuple[list[int], int]:
        """The numbers of the pages that are not known to be protected, and a fault, or 0. There may be more than were
        written."""
        self.told[:] = bytes(len(self.told))
        _, fault = self.requests.make(pagemap, range(len(self.parts)))
        numbers, told = [], bytes(self.told)
        for part in self.parts if not fault else ():
            regions = told[part.slot]
            if regions != part.unwritten:
                begins = set(memoryview(regions).cast("Q")[::3])
                numbers += [number for place, number in part.number_at.items() if place not in begins]
        return numbers, fault


class CallsLook:
    """Looks by single calls."""

    def __init__(self, places: list[int], groups: list[tuple[int, int]]):
        self.alone = [low for low, high in groups if high == low + 1]
        self.survey = Survey(places, [group for group in groups if group[1] > group[0] + 1])
        self.region = bytearray(REGION.size)
        into = address_of(self.region)
        self.asking = Requests(asking(place, into, 0) for place in places)
        self.protecting = Requests(asking(place, into, PROTECTING) for place in places)

    def look(self, pagemap: int) -> tuple[list[int], int]:
        """As that of LibraryLook, in any order."""
        near, fault = self.survey.look(pagemap)
        alone, later = self.asking.make(pagemap, self.alone)
        if fault or later:
            return [], fault or later
        return self.protecting.make(pagemap, alone + near)


def look_of(ranges: list[tuple[int, int]], places: list[int], scan: str | None) -> "LibraryLook | CallsLook":
    """Looks at the pages with these places, in order, in these ranges."""
    groups = list(groups_of(ranges, places, REACH[scan]))
    return CallsLook(places, groups) if LIBRARY is None else LibraryLook(places, groups)
