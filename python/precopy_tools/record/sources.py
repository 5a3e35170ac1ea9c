"""What a recording takes: a file, or which memory of which process, by words, by QEMU's monitor, or by libvirt."""

import os
from typing import NamedTuple

from precopy_tools.qemu import qmp
from precopy_tools.quantities import size_text
from precopy_tools.record import domains, guest_memory, mappings
from precopy_tools.record.guests import identity_of, name_of
from precopy_tools.record.memory import PAGE, FileSource

# How long a monitor is waited for while the guest is recorded.
SECONDS = 2
OTHERS = "ROM, video memory, firmware"
MAY_BE_TAKEN = f"taken too, if they are there: {OTHERS}, the process's own data; --qmp and --domain leave them out"
LEFT_OUT = f"left out: {OTHERS} and other memory of the process, which have mappings of their own"


class Source(NamedTuple):
    """A file, or a process and the ranges of its memory. Without ranges it is all that may be a guest's, at any time.
    `told` has lines that say what is taken, `summary` what QEMU says that the guest has."""

    path: str | None
    process: int | None
    ranges: list[tuple[int, int]] | None
    of: str
    told: list[str]
    summary: dict | None = None

    def opened(self):
        """All of it, to be read."""
        return FileSource(self.path) if self.path else mappings.ProcessSource(self.process, self.ranges)


def total(ranges: list[tuple[int, int]]) -> int:
    return sum(end - begin for begin, end in ranges)


def share(process: int, ranges: list[tuple[int, int]]) -> str:
    taken, whole = total(ranges), max(1, mappings.writable(process))
    part = f"{100 * taken / whole:.1f} % of the {size_text(whole)} that it can write"
    count = f"{len(ranges)} range{'s' if len(ranges) > 1 else ''}"
    return f"memory: {size_text(taken)} of process {process} {name_of(process)}, in {count}: {part}"


def of_file(path: str) -> Source:
    size = os.stat(path).st_size
    told = [f"memory: the file {path}, {size_text(size)}"]
    return Source(path, None, [(0, size - size % PAGE)], f"file {os.path.abspath(path)}", told)


def of_words(process: int, words: list[str] | None, is_sampled: bool) -> Source:
    """The mappings that are named, or all that may be a guest's."""
    named = words or ["all"]
    ranges = mappings.chosen(process, named)
    note = MAY_BE_TAKEN if "all" in named else LEFT_OUT
    told = [share(process, ranges), mappings.listed_ranges(process, ranges), note]
    fixed = ranges if is_sampled or words else None
    return Source(None, process, fixed, f"{identity_of(process)}, mapping {' '.join(named)}", told)


def of_monitor(process: int, monitor, called: str) -> Source:
    """The memory that QEMU tells."""
    memory = guest_memory.asked(monitor)
    ranges = guest_memory.checked(process, memory)
    names = " ".join(sorted(block.name for block in memory.blocks))
    told = [share(process, ranges), *memory.told()]
    of = f"{identity_of(process)}, {called}: {names}"
    return Source(None, process, ranges, of, told, memory.summary)


def has_changed(options, source: Source) -> bool:
    """Whether the guest has other memory now than when it was asked. A monitor that does not answer tells nothing."""
    if source.summary is None:
        return False
    try:
        monitor = domains.Domain(options.domain) if options.domain else qmp.Client(options.qmp, SECONDS)
        with monitor:
            return guest_memory.summary_of(monitor) != source.summary
    except qmp.Fault:
        return False


def of_socket(path: str, process: int | None) -> Source:
    with qmp.Client(path) as client:
        if process is not None:
            return of_monitor(process, client, "memory by QMP")
        maker = client.process()
        if maker is None:
            raise qmp.Fault(f"{path}: the process that has made it is not in sight: --pid says which is QEMU")
        try:
            return of_monitor(maker, client, "memory by QMP")
        except ValueError as fault:
            raise ValueError(f"{path}, made by process {maker}: {fault}; --pid says which process is QEMU") from fault


def source_of(options) -> Source:
    """What the words ask for. With --memory it has to sum to that."""
    if options.file:
        source = of_file(options.file)
    elif options.domain:
        with domains.Domain(options.domain) as domain:
            source = of_monitor(domain.process(), domain, f"domain {options.domain}")
    elif options.qmp:
        source = of_socket(options.qmp, options.pid)
    else:
        source = of_words(options.pid, options.mapping, options.is_sampled)
    if options.memory is not None:
        expect_size(options, source)
    return source


def expect_size(options, source: Source) -> None:
    ranges = source.ranges or mappings.chosen(source.process, ["all"])
    if total(ranges) != options.memory:
        known = source.told[0].partition(": ")[2]
        asked = f"{size_text(options.memory)} ({options.memory:,} bytes)"
        raise ValueError(f"--memory {asked} does not fit: {total(ranges):,} bytes would be taken, which are {known}")
