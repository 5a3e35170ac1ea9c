"""The guests that run on this machine: processes of hypervisors, their memory, and how tools/record is told of one."""

import contextlib
import os
import re
import shlex
from typing import NamedTuple

from precopy_tools.quantities import size_text
from precopy_tools.record import mappings
from precopy_tools.record.domains import command_words
from precopy_tools.record.memory import Gone

HYPERVISORS = re.compile(r"qemu-(system|kvm)|kvm$|cloud-hyperviso|firecracker|crosvm|lkvm|VBoxHeadless|bhyve")
MACHINE = "anon_inode:kvm-vm"
BOOT, SINCE = "/proc/sys/kernel/random/boot_id", " since tick "
UNIX, LIBVIRT = "unix:", {"guest", "debug-threads"}
# A part of a word of QEMU, in which a comma is written twice.
PART = re.compile(r"(?:[^,]|,,)+")


def parts_of(word: str) -> list[str]:
    """The parts of a word of QEMU, as they are meant."""
    return [part.replace(",,", ",") for part in PART.findall(word)]


def fields_of(word: str) -> dict[str, str]:
    """The fields of a word of QEMU. The first part may be a value alone, and is a name here."""
    return dict(part.partition("=")[::2] for part in parts_of(word))


class Guest(NamedTuple):
    """A process, what it is called, its words, and the mappings that seem to be its guest's memory."""

    process: int
    name: str
    words: list[str]
    memory: list[mappings.Mapping]

    def after(self, option: str) -> list[str]:
        return [value for name, value in zip(self.words, self.words[1:]) if name == option]

    def monitors(self) -> list[str]:
        """The sockets of its monitors of the machine protocol: no others, such as those of consoles."""
        found = [
            part[len(UNIX) :] for word in self.after("-qmp") for part in parts_of(word)[:1] if part.startswith(UNIX)
        ]
        sockets = [fields for fields in map(fields_of, self.after("-chardev")) if "socket" in fields]
        paths = {fields.get("id"): fields.get("path") for fields in sockets}
        controls = [fields for fields in map(fields_of, self.after("-mon")) if fields.get("mode") == "control"]
        named = [paths.get(fields.get("chardev", next(iter(fields)))) for fields in controls]
        return found + [path for path in named if path]

    def how(self) -> str:
        """The options that say this guest."""
        domains = [fields["guest"] for fields in map(fields_of, self.after("-name")) if LIBVIRT <= fields.keys()]
        monitors = self.monitors()
        if domains:
            return f"--domain {shlex.quote(domains[0])}"
        if monitors:
            return f"--qmp {shlex.quote(monitors[0])}"
        return f"--pid {self.process} " + " ".join(f"--mapping {it.begin:x}-{it.end:x}" for it in self.memory)

    def told(self) -> str:
        count, size = len(self.memory), size_text(sum(it.size for it in self.memory))
        head = f"process {self.process}  {self.name}  {size} in {count} mapping{'s' if count > 1 else ''}"
        return f"{head}\n{mappings.listed(self.memory)}\n  say it by: {self.how()}"


def name_of(process: int) -> str:
    with open(f"/proc/{process}/comm", encoding="utf-8", errors="replace") as name:
        return name.read().strip()


def identity_of(process: int) -> str:
    """A process as no other one is called: its number may be given to another one, so it says when it began."""
    with open(f"/proc/{process}/stat", "rb") as stat, open(BOOT, encoding="ascii") as boot:
        tick = int(stat.read().rpartition(b")")[2].split()[19])
        return f"process {process} {name_of(process)}{SINCE}{tick} of boot {boot.read()[:8]}"


def is_hypervisor(process: int, name: str) -> bool:
    """By the name of the process or of its program, or since it has a virtual machine of KVM open."""
    with contextlib.suppress(OSError):
        if HYPERVISORS.match(os.path.basename(os.readlink(f"/proc/{process}/exe"))):
            return True
    with contextlib.suppress(OSError):
        for number in os.listdir(f"/proc/{process}/fd"):
            with contextlib.suppress(OSError):
                if os.readlink(f"/proc/{process}/fd/{number}") == MACHINE:
                    return True
    return bool(HYPERVISORS.match(name))


def guests() -> list[Guest]:
    """The guests that this user may look at. Processes that end meanwhile are none."""
    found = []
    for process in sorted(int(name) for name in os.listdir("/proc") if name.isdigit()):
        with contextlib.suppress(OSError, ValueError, Gone):
            name = name_of(process)
            if not is_hypervisor(process, name):
                continue
            memory = mappings.nearly_largest(mappings.memory_of(process))
            if memory:
                found.append(Guest(process, name, command_words(process), memory))
    return found


def listed() -> str:
    """All of them, as lines to read."""
    found = guests()
    if not found:
        return "no guest is seen: no process of a hypervisor that this user may look at"
    return "\n".join(guest.told() for guest in found)
