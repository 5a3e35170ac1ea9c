"""The memory of a process that a recording takes: which of its mappings.

What can be executed, stacks, and the data of programs and libraries are never a guest's memory.
"""

import contextlib
import os
import re
from collections.abc import Iterable
from typing import NamedTuple

from precopy_tools.quantities import size_text
from precopy_tools.record.memory import PAGE, Gone, joined

DELETED = " (deleted)"
HEAP = "[heap]"
SHARED_MEMORY = ("/dev/shm/", "/dev/zero", "/dev/hugepages/")
# A stack is at most as large as this, and so is what a library has behind its data without a name.
LARGEST_STACK, LARGEST_BSS = 64 << 20, 16 << 20
# `largest` is refused if another mapping is at least this part of it.
PART = 8
SHOWN = 8
RANGE = re.compile(r"(?:0x)?([0-9a-f]{1,16})-(?:0x)?([0-9a-f]{1,16})")


class Mapping(NamedTuple):
    begin: int
    end: int
    rights: str
    offset: int
    device: str
    inode: int
    name: str

    @property
    def size(self) -> int:
        return self.end - self.begin

    @property
    def is_memory(self) -> bool:
        """Whether the process writes there as to memory: private, or shared in a file system without a device."""
        if self.rights[1] != "w" or self.rights[2] == "x" or self.name.startswith("[stack"):
            return False
        if self.rights[3] == "p":
            return True
        if self.name.startswith("/dev/"):
            return self.name.startswith(SHARED_MEMORY)
        return self.name.startswith("/") and self.device.startswith("00:")

    def follows(self, before: "Mapping") -> bool:
        """Whether it goes on where another one ends, in the same memory."""
        if (before.end, before.rights, before.device, before.inode) != (
            self.begin,
            self.rights,
            self.device,
            self.inode,
        ) or before.name != self.name:
            return False
        return not self.inode or self.offset == before.offset + before.size

    def told(self) -> str:
        kind = "shared" if self.rights[3] == "s" else "private"
        return f"{self.begin:x}-{self.end:x}  {size_text(self.size):>10}  {kind} {self.name}".rstrip()


def mappings_of(process: int) -> list[Mapping]:
    found = []
    try:
        with open(f"/proc/{process}/maps", encoding="utf-8", errors="replace") as lines:
            for line in lines:
                place, rights, offset, device, inode, *name = line.rstrip("\n").split(maxsplit=5)
                begin, end = (int(word, 16) for word in place.split("-"))
                told = name[0].removesuffix(DELETED) if name else ""
                found.append(Mapping(begin, end, rights, int(offset, 16), device, int(inode), told))
    except FileNotFoundError as fault:
        raise ValueError(f"there is no process {process}") from fault
    except ProcessLookupError as fault:
        raise Gone("the process ended") from fault
    return found


def stack_pointers(process: int) -> list[int]:
    """Where the stacks of its threads are. Of a thread that is running this moment the kernel does not tell."""
    found = []
    with contextlib.suppress(OSError):
        for thread in os.listdir(f"/proc/{process}/task"):
            with contextlib.suppress(OSError, ValueError, IndexError):
                with open(f"/proc/{process}/task/{thread}/syscall", encoding="ascii") as file:
                    found.append(int(file.read().split()[-2], 16))
    return found


def without_libraries(mappings: list[Mapping]) -> Iterable[Mapping]:
    """All but the data of files that are executed too, and what follows it without a name."""
    executed = {(it.device, it.inode) for it in mappings if it.rights[2] == "x" and it.inode}
    end = 0
    for it in mappings:
        if it.inode and ((it.device, it.inode) in executed or re.search(r"\.so(\.|$)", it.name)):
            end = it.end
        elif it.begin != end or it.inode or it.name or it.size > LARGEST_BSS:
            yield it


def memory_of(process: int, stacks: set[int] | None = None) -> list[Mapping]:
    """The mappings that may be a guest's memory; what goes on in the same memory is one of them. `stacks` has a place
    in each stack that was ever seen, and is added to."""
    stacks = set() if stacks is None else stacks
    pointers = [*stacks, *stack_pointers(process)]
    found: list[Mapping] = []
    for it in without_libraries(mappings_of(process)):
        if it.size <= LARGEST_STACK and any(it.begin <= pointer < it.end for pointer in pointers):
            stacks.add(it.end - 1)
        elif not it.is_memory:
            continue
        elif found and it.follows(found[-1]):
            found[-1] = found[-1]._replace(end=it.end)
        else:
            found.append(it)
    return found


def listed(mappings: Iterable[Mapping]) -> str:
    """Lines of mappings, the largest first."""
    by_size = sorted(mappings, key=lambda it: -it.size)
    lines = [f"  {it.told()}" for it in by_size[:SHOWN]]
    left = by_size[SHOWN:]
    if left:
        count = f"{len(left)} smaller ones" if len(left) > 1 else "a smaller one"
        lines.append(f"  and {count}, {size_text(sum(it.size for it in left))}{' together' if len(left) > 1 else ''}")
    return "\n".join(lines)


def listed_ranges(process: int, ranges: list[tuple[int, int]]) -> str:
    """Lines of the mappings, as far as they are in the ranges."""
    parts = [
        it._replace(begin=max(it.begin, begin), end=min(it.end, end))
        for it in memory_of(process)
        for begin, end in ranges
        if it.begin < end and begin < it.end
    ]
    return listed(parts)


def nearly_largest(memory: list[Mapping]) -> list[Mapping]:
    """The largest mapping, and those that are nearly as large, as the nodes of a guest are. A heap is none of them."""
    by_size = sorted((it for it in memory if it.name != HEAP), key=lambda it: -it.size)
    return [it for it in by_size if it.size * PART >= by_size[0].size]


def largest(memory: list[Mapping]) -> list[Mapping]:
    """The largest mapping, if none of the others is nearly as large."""
    near = nearly_largest(memory)
    if len(near) > 1:
        raise ValueError(
            f"--mapping largest: {len(near)} mappings may be the guest's memory\n{listed(near)}\n"
            "say which by --mapping BEGIN-END or --mapping FILE, as often as needed; or ask QEMU by --qmp SOCKET"
        )
    return near


def within(process: int, memory: list[Mapping], begin: int, end: int, called: str) -> tuple[int, int]:
    """A range of addresses, if all of it is memory of the process."""
    if begin % PAGE or end % PAGE or begin >= end:
        raise ValueError(f"{called} is no range of whole pages")
    at = begin
    for it in memory:
        if it.begin <= at < it.end:
            at = it.end
    if at < end:
        raise ValueError(f"{called}: process {process} has no memory of a guest at {at:x}")
    return begin, end


def matching(process: int, memory: list[Mapping], which: str) -> list[tuple[int, int]]:
    """The ranges that one word names: all memory, the largest mapping, a range of addresses, or those of a file."""
    found = []
    if which == "all":
        found = memory
    elif which == "largest":
        found = largest(memory)
    elif match := RANGE.fullmatch(which):
        return [within(process, memory, int(match[1], 16), int(match[2], 16), f"--mapping {which}")]
    else:
        found = [it for it in memory if it.name == which]
    if not found:
        raise ValueError(f"process {process} has no such writable memory: --mapping {which}\n{listed(memory)}".rstrip())
    return [(it.begin, it.end) for it in found]


def chosen(process: int, words: Iterable[str]) -> list[tuple[int, int]]:
    """The ranges that some words name, together."""
    memory = memory_of(process)
    return joined(one for which in words for one in matching(process, memory, which))


def writable(process: int) -> int:
    """How many bytes the process can write, in all."""
    return sum(it.size for it in mappings_of(process) if it.rights[1] == "w")


class ProcessSource:
    """Memory of a process, in the order of its addresses: these ranges, or all that may be a guest's."""

    def __init__(self, number: int, ranges: list[tuple[int, int]] | None = None):
        self.number, self.fixed = number, ranges
        self.stacks: set[int] = set()
        self.descriptor = os.open(f"/proc/{number}/mem", os.O_RDONLY)
        if not self.ranges():
            raise ValueError(f"process {number} has no memory that may be a guest's")

    def ranges(self) -> list[tuple[int, int]]:
        if self.fixed is not None:
            return self.fixed
        try:
            return joined((it.begin, it.end) for it in memory_of(self.number, self.stacks))
        except ValueError as fault:
            raise Gone("the process ended") from fault

    def read(self, place: int, length: int) -> bytes | None:
        """The bytes there; None if none can be read, and fewer if the rest cannot."""
        try:
            data = os.pread(self.descriptor, length, place)
        except OSError:
            return None
        if not data:
            raise Gone("the process ended, or runs another program")
        return data


def places_of(ranges: list[tuple[int, int]], numbers: list[int]) -> list[int]:
    """The addresses of pages that are counted through the ranges. Both lists are sorted."""
    places, before, at = [], 0, 0
    for begin, end in ranges:
        pages = (end - begin) // PAGE
        while at < len(numbers) and numbers[at] < before + pages:
            places.append(begin + (numbers[at] - before) * PAGE)
            at += 1
        before += pages
    return places
