"""Which pages of a process were written since the last look, by the kernel's PAGEMAP_SCAN (Linux 6.7).

A userfaultfd protects pages from writes. A write to a protected page takes the protection away, and the writer goes on
at once. The scan reports pages without protection and protects them again, in one step for each page: no write is
lost, and nobody waits. Only the pages that are followed are protected. The kernel takes all of it back when the
descriptor is closed, or its owner dies.
"""

import contextlib
import errno
import fcntl
import os
import struct
from collections.abc import Iterable

from precopy_tools.record import remote, scans
from precopy_tools.record.memory import Gone
from precopy_tools.record.remote import Unavailable

API, REGISTER = 0xC018AA3F, 0xC020AA00
VERSION, WP_MODE = 0xAA, 2
# Write protection, also of shared memory and of pages that are not there yet; a write goes on at once.
FEATURES = 1 << 0 | 1 << 12 | 1 << 13 | 1 << 15
ZEROPAGE = 1 << 4
# Memory may be mapped anew while a look goes on, so often at most.
TRIES = 16

ioctl = fcntl.ioctl


class WrittenPages:
    """Follows the writes to some pages of a process, named by their addresses. The first look shows all of them."""

    def __init__(self, process: int, ranges: Iterable[tuple[int, int]], places: list[int], scan: str | None = None):
        self.process, self.ranges, self.places = process, list(ranges), places
        self.userfaultfd = self.pagemap = self.memory = None
        try:
            self.userfaultfd = remote.open_userfaultfd(process)
            self._agree()
            self.register()
            self.pagemap = os.open(f"/proc/{process}/pagemap", os.O_RDONLY | os.O_CLOEXEC)
            self.memory = os.open(f"/proc/{process}/mem", os.O_RDONLY | os.O_CLOEXEC)
            self.looks = scans.look_of(self.ranges, places, scan)
            self.look()
        except BaseException:
            self.close()
            raise

    def _agree(self) -> None:
        try:
            ioctl(self.userfaultfd, API, bytearray(struct.pack("=3Q", VERSION, FEATURES, 0)))
        except OSError as fault:
            release = os.uname().release
            raise Unavailable(
                f"the kernel ({release}) is older than 6.7, or has no CONFIG_PTE_MARKER_UFFD_WP: {fault.strerror}"
            ) from fault

    def register(self) -> None:
        """Watches all ranges that are mapped, also those that were mapped anew."""
        for begin, end in self.ranges:
            asked = bytearray(struct.pack("=4Q", begin, end - begin, WP_MODE, 0))
            try:
                ioctl(self.userfaultfd, REGISTER, asked)
            except OSError as fault:
                raise Unavailable(self._cause(fault, begin, end)) from fault
            if not struct.unpack("=4Q", asked)[3] & ZEROPAGE:
                raise Unavailable(f"the memory at {begin:#x} is of huge pages (hugetlb), told only as a whole")

    @staticmethod
    def _cause(fault: OSError, begin: int, end: int) -> str:
        if fault.errno == errno.EBUSY:
            whose = "another recorder, a post-copy migration, or a background snapshot"
            return f"another userfaultfd watches {begin:#x}-{end:#x}: {whose}"
        if fault.errno == errno.ESRCH:
            return "the process ended"
        return f"the kernel does not watch {begin:#x}-{end:#x}: {fault.strerror}"

    def look(self) -> list[int]:
        """The numbers of the places that were written since the last look, in order."""
        try:
            written = self._written()
        except ProcessLookupError as fault:
            raise Gone("the process ended") from fault
        except OSError as fault:
            raise Gone(f"the writes of the process cannot be read: {fault.strerror}") from fault
        except Unavailable as fault:
            raise Gone(f"memory was mapped anew, and cannot be watched: {fault}") from fault
        self._is_there()
        return written

    def _written(self) -> list[int]:
        """A look, and further ones if memory was mapped anew: it is watched from then on."""
        written, fault = self.looks.look(self.pagemap)
        for _ in range(TRIES):
            if fault != errno.EPERM:
                break
            self.register()
            more, fault = self.looks.look(self.pagemap)
            written += more
        if fault:
            raise OSError(fault, os.strerror(fault))
        return sorted(set(written))

    def _is_there(self) -> None:
        """A process that ended, or runs another program, has no memory to read any more."""
        with contextlib.suppress(OSError):
            if not os.pread(self.memory, 1, self.places[0]):
                raise Gone("the process ended, or runs another program")

    def close(self) -> None:
        """Ends it; the kernel gives the process back the memory as it was."""
        for descriptor in (self.userfaultfd, self.pagemap, self.memory):
            if descriptor is not None:
                os.close(descriptor)
        self.userfaultfd = self.pagemap = self.memory = None
