"""Where the memory of a guest is in the process of QEMU, by asking QEMU: its nodes, and what was plugged in.

The memory backends of a guest are named with their sizes, the view of its processors shows at which of its addresses
each of them is, and QEMU tells the address in its own process. All of it is compared with what QEMU says the guest has,
and with the mappings of the process. ROM, video memory and firmware are blocks of their own, and are left out.
"""

import re
from typing import NamedTuple

from precopy_tools.qemu import qmp
from precopy_tools.quantities import size_text
from precopy_tools.record import mappings
from precopy_tools.record.memory import PAGE

OBJECTS = "/objects/"
VIEW = re.compile(r'^ AS "memory", root: ', re.M)
REGION = re.compile(
    r"^\s+([0-9a-f]{1,16})-([0-9a-f]{1,16}) \(prio -?\d+, ram\): (\S.*?)(?: @([0-9a-f]{1,16}))?(?: KVM)?$", re.M
)
HOST = re.compile(r"^Host virtual address for 0x[0-9a-f]+ \((.*)\) is 0x([0-9a-f]{1,16})\s*$")
RAM_BLOCK = re.compile(r"^ *(\S+) +\d+ \S+ +0x[0-9a-f]+ +0x[0-9a-f]+ +0x([0-9a-f]{1,16})\b", re.M)
KINDS = (("video memory", ("vram", "vga.ram", "qxl")), ("firmware", ("bios", "flash", "fw", "uefi")), ("ROM", ("rom",)))
MOST = 1 << 56


class Place(NamedTuple):
    """A page of a region: where the guest has it, and where it is in the region."""

    address: int
    offset: int


class Block(NamedTuple):
    """A block of memory in the process."""

    name: str
    begin: int
    size: int


class Memory(NamedTuple):
    """The guest's memory, the other blocks with their sizes, and what QEMU says that the guest has in all."""

    blocks: list[Block]
    left_out: list[tuple[str, int]]
    summary: dict

    @property
    def ranges(self) -> list[tuple[int, int]]:
        return sorted((block.begin, block.begin + block.size) for block in self.blocks)

    def told(self) -> list[str]:
        """Lines of what was taken and what was not."""
        lines = [f"memory: {block.name}, {size_text(block.size)} at {block.begin:x}" for block in self.blocks]
        if self.left_out:
            names = ", ".join(f"{name} ({size_text(size)}{kind_of(name)})" for name, size in self.left_out)
            lines.append(f"left out: {names}")
        return lines


def kind_of(name: str) -> str:
    """What a block is for, by its name."""
    for kind, parts in KINDS:
        if any(part in name.lower() for part in parts):
            return f", {kind}"
    return ""


def number(value: object, what: str) -> int:
    """A number of bytes, in whole pages."""
    if type(value) is not int or not 0 <= value < MOST or value % PAGE:
        raise qmp.Fault(f"QEMU tells no number of bytes in whole pages for {what}: {str(value)[:80]!r}")
    return value


def objects(value: object, what: str) -> list[dict]:
    if not isinstance(value, list) or not all(isinstance(it, dict) for it in value):
        raise qmp.Fault(f"QEMU tells no list of {what}")
    return value


def plain(name: object) -> str:
    """The name of a backend, without its path and without what a terminal would obey."""
    if not isinstance(name, str):
        return ""
    return "".join(letter if letter.isprintable() else "?" for letter in name.removeprefix(OBJECTS))


def told_by(monitor, words: str) -> str:
    text = monitor.ask("human-monitor-command", command_line=words)
    if not isinstance(text, str):
        raise qmp.Fault(f"QEMU answers {words!r} with no text")
    return text.replace("\r", "")


def backends_of(monitor) -> dict[str, int]:
    """The sizes of memory backends by their names, also of those that no guest has."""
    told = objects(monitor.ask("query-memdev"), "memory backends")
    return {plain(it["id"]): number(it.get("size"), f"backend {plain(it['id'])}") for it in told if plain(it.get("id"))}


def plugged_backends(monitor) -> list[str]:
    """The backends of memory devices. Not all QEMUs have such."""
    told = objects(monitor.ask("query-memory-devices"), "memory devices")
    data = [it.get("data") for it in told]
    return [plain(it.get("memdev")) for it in data if isinstance(it, dict) and plain(it.get("memdev"))]


def places_in(view: str) -> dict[str, list[Place]]:
    """The first and the last page of each part of a region that the processors see as memory, from the text of `info
    mtree -f`."""
    parts = [part for part in view.split("FlatView #") if VIEW.search(part)]
    found: dict[str, list[Place]] = {}
    for begin, end, name, offset in REGION.findall(parts[0] if parts else ""):
        first, at = int(begin, 16), int(offset or "0", 16)
        last = int(end, 16) + 1 - PAGE
        found.setdefault(plain(name), []).extend([Place(first, at), Place(last, at + last - first)])
    return found


def begin_of(monitor, name: str, places: list[Place], size: int) -> int:
    """Where a region begins in the process; it is the same by its first and its last page."""
    begins = set()
    if places[0].offset or places[-1].offset + PAGE != size:
        raise qmp.Fault(f"QEMU shows to the guest only a part of {name}, which has {size_text(size)}")
    for place in (places[0], places[-1]):
        answer = told_by(monitor, f"gpa2hva {place.address:#x}")
        match = HOST.match(answer)
        if not match or plain(match[1]) != name:
            raise qmp.Fault(f"QEMU does not tell where {name} is: {answer.strip()[:80]!r}")
        begins.add(number(int(match[2], 16) - place.offset, f"the place of {name}"))
    if len(begins) > 1:
        raise qmp.Fault(f"QEMU tells two places of {name}: {', '.join(f'{begin:#x}' for begin in sorted(begins))}")
    return begins.pop()


def summary_of(monitor) -> dict:
    """What the guest began with, and what is plugged in, as QEMU tells it. It changes if memory comes or goes."""
    summary = monitor.ask("query-memory-size-summary")
    if not isinstance(summary, dict):
        raise qmp.Fault("QEMU does not tell how much memory the guest has")
    return summary


def expected(monitor, summary: dict, backends: dict[str, int]) -> int:
    """How much memory the guest has: what it began with, and all of the backends of its memory devices."""
    plugged = plugged_backends(monitor)
    unknown = [name for name in plugged if name not in backends]
    if unknown:
        raise qmp.Fault(f"QEMU names no backend {unknown[0]}")
    return number(summary.get("base-memory"), "base-memory") + sum(backends[name] for name in set(plugged))


def asked(monitor) -> Memory:
    """The memory of the guest that a monitor is of. Its parts sum to what QEMU says that the guest has."""
    backends = backends_of(monitor)
    summary = summary_of(monitor)
    size = expected(monitor, summary, backends)
    places = places_in(told_by(monitor, "info mtree -f"))
    names = [name for name in places if name in backends]
    blocks = [Block(name, begin_of(monitor, name, places[name], backends[name]), backends[name]) for name in names]
    found = sum(block.size for block in blocks)
    if found != size or not blocks:
        raise qmp.Fault(
            f"QEMU says that the guest has {size_text(size)}, and the backends that it names for it sum to "
            f"{size_text(found)} ({', '.join(names) or 'none'}): say which memory is the guest's by --pid and --mapping"
        )
    others = [(plain(name), int(total, 16)) for name, total in RAM_BLOCK.findall(told_by(monitor, "info ramblock"))]
    return Memory(blocks, [(name, total) for name, total in others if name not in backends], summary)


def checked(process: int, memory: Memory) -> list[tuple[int, int]]:
    """The ranges of the guest's memory, if they are memory of the process, and apart from one another."""
    of_process = mappings.memory_of(process)
    for block in memory.blocks:
        mappings.within(process, of_process, block.begin, block.begin + block.size, f"QEMU's block {block.name}")
    ranges = memory.ranges
    for (_, end), (begin, _) in zip(ranges, ranges[1:]):
        if begin < end:
            raise ValueError(f"QEMU tells two blocks at {begin:x}")
    return ranges
