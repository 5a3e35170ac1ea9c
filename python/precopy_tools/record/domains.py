"""Guests of libvirt: their process and their monitor, by `virsh`.

libvirt keeps the monitor of a guest to itself, so its questions go through `virsh qemu-monitor-command`. libvirt marks
a domain that was asked so as tainted (custom-monitor) until it ends, and does nothing else. The environment variable
LIBVIRT_DEFAULT_URI says which libvirt it is, as for all of virsh.
"""

import json
import os
import re
import subprocess
import uuid

from precopy_tools.qemu import qmp

SECONDS = 60
# A name that virsh takes for the number of a guest first.
NUMBER = re.compile(r"\s*\+?[0-9]+")


def environment() -> dict[str, str]:
    """That of virsh: its words are read here, so it says them in English, whatever the user's language is."""
    return {**os.environ, "LC_ALL": "C.UTF-8", "LANGUAGE": "C"}


def virsh(*words: str, seconds: float = SECONDS) -> str:
    """What virsh prints, or its complaint."""
    command = ["virsh", "--quiet", *words]
    how = {"stdin": subprocess.DEVNULL, "capture_output": True, "text": True, "errors": "replace"}
    try:
        done = subprocess.run(command, env=environment(), timeout=seconds, **how)
    except FileNotFoundError as fault:
        raise qmp.Fault("there is no virsh on the path: the package libvirt-clients has it") from fault
    except OSError as fault:
        raise qmp.Fault(f"virsh {words[0]}: {fault.strerror}") from fault
    except subprocess.TimeoutExpired as fault:
        raise qmp.Fault(f"virsh {words[0]}: no answer within {seconds:g} s") from fault
    if done.returncode:
        told = done.stderr.strip().removeprefix("error: ").replace("\nerror: ", ": ") or f"status {done.returncode}"
        raise qmp.Fault(f"virsh {words[0]}: {told}")
    return done.stdout


def called(name: str) -> str:
    """What virsh is told of the guest of this name: its UUID if the name is a number, and else the name. Only `domid`
    looks for no number."""
    if not NUMBER.fullmatch(name):
        return name
    return virsh("domuuid", "--domain", virsh("domid", "--domain", name).strip()).strip()


def called_or_number(name: str) -> str:
    """The same, or the number of a guest if none has this name."""
    try:
        return called(name)
    except qmp.Fault:
        return name


def command_words(process: int) -> list[str]:
    try:
        with open(f"/proc/{process}/cmdline", "rb") as file:
            return file.read().decode(errors="replace").split("\0")
    except OSError:
        return []


def processes_of(identity: uuid.UUID) -> list[int]:
    """The processes whose words name this guest. libvirt starts each QEMU with `-uuid`."""
    found = []
    for process in (int(name) for name in os.listdir("/proc") if name.isdigit()):
        words = command_words(process)
        if ("-uuid", str(identity)) in zip(words, words[1:]):
            found.append(process)
    return sorted(found)


class Domain:
    """A guest of libvirt by its name, number or UUID. It answers what a monitor does."""

    def __init__(self, name: str):
        self.name, self.called = name, called_or_number(name)
        told = virsh("domuuid", "--domain", name).strip() if self.called == name else self.called
        try:
            self.identity = uuid.UUID(told)
        except ValueError as fault:
            raise qmp.Fault(f"virsh domuuid: no UUID: {told[:80]!r}") from fault

    def process(self) -> int:
        found = processes_of(self.identity)
        if not found:
            raise qmp.Fault(f"domain {self.name}: no process of {self.identity} is here; is it running, on this host?")
        if len(found) > 1:
            raise qmp.Fault(f"domain {self.name}: processes {', '.join(map(str, found))} are of {self.identity}")
        return found[0]

    def ask(self, command: str, **arguments):
        told = virsh("qemu-monitor-command", "--domain", self.called, "--cmd", qmp.command_line(command, arguments))
        try:
            answer = json.loads(told)
        except (ValueError, RecursionError) as fault:
            raise qmp.Fault(f"domain {self.name}: {command}: no JSON: {told[:80]!r}") from fault
        return qmp.returned(f"domain {self.name}", command, answer)

    def __enter__(self):
        return self

    def __exit__(self, *_):
        """Nothing is held."""
