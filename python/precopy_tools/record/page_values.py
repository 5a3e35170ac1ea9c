"""The bytes of single pages of a guest, of a file or a process, and which of some pages have changed.

One call of process_vm_readv reads many pages; those of a file through a mapping of this process. It reports a page that
is gone, while a look through the mapping itself would end this process. A page without memory is not read, since that
would give it some.
"""

import contextlib
import ctypes
import errno
import mmap
import os

from precopy_tools.record.memory import PAGE, ZEROS, Gone

# How many pages are read at once: they stay in a processor's cache until they are compared.
BLOCK = 64
ZERO_PAGE = ZEROS[:PAGE]
# In the last byte of an entry of /proc/PID/pagemap.
PRESENT_OR_SWAPPED = 0xC0
# Their places in /proc/PID/stat, after the name.
MINOR_FAULTS, MAJOR_FAULTS, RESIDENT = 7, 9, 21


class Part(ctypes.Structure):
    _fields_ = [("base", ctypes.c_void_p), ("length", ctypes.c_size_t)]


LIBRARY = ctypes.CDLL(None, use_errno=True)
LIBRARY.process_vm_readv.restype = ctypes.c_ssize_t
LIBRARY.process_vm_readv.argtypes = [ctypes.c_int, ctypes.c_void_p, ctypes.c_ulong, ctypes.c_void_p] + [
    ctypes.c_ulong
] * 2


class FilePages:
    """The pages of a file that is the memory of a guest. A place is an offset."""

    def __init__(self, descriptor: int, size: int):
        self.descriptor = descriptor
        self.process = os.getpid()
        self.mapping = mmap.mmap(descriptor, size, mmap.MAP_PRIVATE, mmap.PROT_READ | mmap.PROT_WRITE)
        self.base = ctypes.addressof(ctypes.c_char.from_buffer(self.mapping))
        self.blocks = -1

    def page(self, place: int) -> bytes:
        data = os.pread(self.descriptor, PAGE, place)
        if len(data) < PAGE:
            raise Gone("the file became shorter")
        return data

    def has_grown(self) -> bool:
        """Whether pages may have got memory since this was asked last."""
        before, self.blocks = self.blocks, os.fstat(self.descriptor).st_blocks
        return before != self.blocks

    def is_there(self, place: int) -> bool:
        """Whether the page has memory. Else it is a hole of the file, and zeros."""
        try:
            return os.lseek(self.descriptor, place, os.SEEK_DATA) == place
        except OSError:
            return False

    def close(self) -> None:
        os.close(self.descriptor)


class ProcessPages:
    """The pages of a process. A place is an address. What cannot be read counts as zeros."""

    base = 0

    def __init__(self, process: int):
        self.process = process
        with contextlib.ExitStack() as opened:
            self.descriptor, self.pagemap, self.stat = (self._open(name, opened) for name in ("mem", "pagemap", "stat"))
            self.opened = opened.pop_all()
        self.faults: tuple[bytes, ...] = ()

    def _open(self, name: str, opened: contextlib.ExitStack) -> int:
        descriptor = os.open(f"/proc/{self.process}/{name}", os.O_RDONLY | os.O_CLOEXEC)
        opened.callback(os.close, descriptor)
        return descriptor

    def page(self, place: int) -> bytes:
        try:
            data = os.pread(self.descriptor, PAGE, place)
        except OSError:
            return ZERO_PAGE
        if not data:
            raise Gone("the process ended, or runs another program")
        return data

    def has_grown(self) -> bool:
        """Whether pages may have got memory since this was asked last: not without a page fault, or more memory."""
        try:
            fields = os.pread(self.stat, PAGE, 0).rpartition(b")")[2].split()
        except ProcessLookupError as fault:
            raise Gone("the process ended") from fault
        before, self.faults = self.faults, (fields[MINOR_FAULTS], fields[MAJOR_FAULTS], fields[RESIDENT])
        return before != self.faults

    def is_there(self, place: int) -> bool:
        """Whether the process has touched the page. Else it counts as zeros."""
        entry = os.pread(self.pagemap, 8, place // PAGE * 8)
        if not entry:
            raise Gone("the process ended, or runs another program")
        return bool(entry[7] & PRESENT_OR_SWAPPED)

    def close(self) -> None:
        self.opened.close()


class Block:
    """Some pages: those that have memory are read in one call, into a buffer that all blocks share."""

    def __init__(self, numbers: range, places: list[int], pages, buffer: bytearray):
        self.pages, self.places, self.buffer = pages, places, buffer
        self.absent = list(numbers)
        self.live: list[int] = []
        self.seen: list[memoryview] = []

    def _grow(self, fresh: list[int]) -> None:
        """Takes pages that have memory now."""
        self.absent = sorted(set(self.absent).difference(fresh))
        self.live += fresh
        count, base = len(self.live), self.pages.base
        self.offsets = range(0, count * PAGE, PAGE)
        seen = memoryview(bytearray(b"".join(self.seen).ljust(count * PAGE, b"\0")))
        self.seen = [seen[at : at + PAGE] for at in self.offsets]
        self.into = Part(ctypes.addressof(ctypes.c_char.from_buffer(self.buffer)), count * PAGE)
        self.parts = (Part * count)(*((base + self.places[number], PAGE) for number in self.live))

    def look(self, has_grown: bool) -> list[int]:
        """The numbers of the pages that have changed since the last look."""
        if has_grown:
            is_there, places = self.pages.is_there, self.places
            fresh = [number for number in self.absent if is_there(places[number])]
            if fresh:
                self._grow(fresh)
        return self._changed() if self.live else []

    def _changed(self) -> list[int]:
        self._read()
        # A comparison in place, which copies nothing.
        is_at = self.buffer.startswith
        changed = [at for at, page in zip(self.offsets, self.seen) if not is_at(page, at)]
        for at in changed:
            self.seen[at // PAGE][:] = self.buffer[at : at + PAGE]
        return [self.live[at // PAGE] for at in changed]

    def _read(self) -> None:
        count = len(self.live)
        done = LIBRARY.process_vm_readv(self.pages.process, ctypes.byref(self.into), 1, self.parts, count, 0)
        if done < 0:
            if ctypes.get_errno() == errno.ESRCH:
                raise Gone("the process ended")
            done = 0
        for at in range(done // PAGE, count):
            self.buffer[at * PAGE : (at + 1) * PAGE] = self.pages.page(self.places[self.live[at]])


class ChangedPages:
    """Compares some pages with what they were at the last look. The first look shows those that are not zero."""

    def __init__(self, pages, places: list[int]):
        numbers, buffer = range(len(places)), bytearray(BLOCK * PAGE)
        self.pages = pages
        self.blocks = [Block(numbers[at : at + BLOCK], places, pages, buffer) for at in numbers[::BLOCK]]

    def look(self) -> list[int]:
        has_grown = self.pages.has_grown()
        return sorted(number for block in self.blocks for number in block.look(has_grown))

    def close(self) -> None:
        self.blocks = []
