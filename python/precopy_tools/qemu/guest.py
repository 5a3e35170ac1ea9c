"""A guest in QEMU: its initial file system, made here, and its processes."""

import glob
import os
import re
import shutil
import subprocess
import time
from typing import NamedTuple

from precopy_tools.qemu import qmp

MEMORY = 128 << 20
# If memory is a multiple of this many bytes, QEMU 7.2 loses pages in migrations under TCG.
UNSAFE, LESS = 256 << 10, 128 << 10
SECONDS_TO_BOOT = 300
SECONDS_TO_END = 10
SECONDS_TO_ANSWER = 60
INIT = """\
#!/bin/busybox sh
/bin/busybox mount -t proc proc /proc
/bin/busybox mount -t devtmpfs dev /dev
/bin/busybox mount -t tmpfs -o size=SIZE tmp /tmp
/bin/busybox --install -s /bin
exec /bin/busybox sh /workload
"""


class Missing(Exception):
    """Something that a guest needs is not here; the text says what, and which package has it."""


class Failed(Exception):
    """A guest does not boot, or a process ended."""


def found(path, what, package):
    if not path or not os.path.exists(path):
        raise Missing(f"there is no {what}: the package {package} has it")
    return path


def kernel():
    paths = sorted(glob.glob("/boot/vmlinuz-*"), key=os.path.getmtime)
    return found(paths[-1] if paths else None, "kernel in /boot", "linux-image-amd64")


def qemu():
    return found(shutil.which("qemu-system-x86_64"), "qemu-system-x86_64", "qemu-system-x86")


def safe_size(memory):
    """The bytes of memory that a guest gets, in whole pages."""
    memory -= memory % 4096
    return memory if memory % UNSAFE else memory - LESS


def program_files(name, package):
    """A program and the libraries that it needs, as (name in the guest, path here)."""
    return added_files(found(shutil.which(name), name, package))


def added_files(path):
    """A file of the user's, in the guest's /bin, and the libraries that it needs if it is a program."""
    if not os.path.isfile(path):
        raise Missing(f"there is no file {path}: --add names files")
    listed = subprocess.run(["ldd", path], capture_output=True, text=True).stdout
    libraries = re.findall(r"(/\S+) \(0x", listed)
    return [(f"bin/{os.path.basename(path)}", path)] + [(library.lstrip("/"), library) for library in libraries]


def entry(name, mode, data=b"", device=(0, 0)):
    """One entry of a cpio archive, in the form that kernels read."""
    name = name.encode() + b"\0"
    fields = [0, mode, 0, 0, 1, 0, len(data), 0, 0, *device, len(name), 0]
    head = b"070701" + b"".join(b"%08X" % field for field in fields) + name
    return head + bytes(-len(head) % 4) + data + bytes(-len(data) % 4)


def file_system(path, workload, folder, files=(), temporary="16m"):
    """Writes an initial file system with busybox, the program that writes, and a shell script of the workload.

    `files` are more files, by their names there and paths here; `temporary` is the size of /tmp, in memory.
    """
    busybox = found(shutil.which("busybox"), "busybox", "busybox-static")
    program = os.path.join(folder, "guest-writer")
    source = os.path.join(os.path.dirname(os.path.abspath(__file__)), "guest-writer.c")
    subprocess.run(["cc", "-O2", "-Wall", "-static", "-o", program, source], check=True)
    files = [("bin/busybox", busybox), ("bin/guest-writer", program), *files]
    names = {name.rsplit("/", depth)[0] for name, _ in files for depth in range(1, name.count("/") + 1)}
    with open(path, "wb") as archive:
        for name in sorted(names | {"bin", "dev", "proc", "tmp"}):
            archive.write(entry(name, 0o040755))
        archive.write(entry("dev/console", 0o020600, device=(5, 1)))
        for name, source in files:
            with open(source, "rb") as file:
                archive.write(entry(name, 0o100755, file.read()))
        archive.write(entry("init", 0o100755, INIT.replace("SIZE", temporary).encode()))
        archive.write(entry("workload", 0o100644, workload.encode()))
        archive.write(entry("TRAILER!!!", 0))


class Machine(NamedTuple):
    """What both processes of QEMU have: the sizes of the guest's nodes, an accelerator, and more options."""

    nodes: list[int]
    accelerator: str
    options: list[str]

    def words(self, files):
        """The options of QEMU, with the memory of each node in a file."""
        words = ["-smp", "1", "-accel", self.accelerator, "-m", f"{sum(self.nodes) >> 10}K"]
        for number, (size, path) in enumerate(zip(self.nodes, files)):
            words += ["-object", f"memory-backend-file,id=node{number},size={size},mem-path={path},share=on"]
            if len(self.nodes) > 1:
                words += ["-numa", f"node,nodeid={number},memdev=node{number}{',cpus=0' if number == 0 else ''}"]
        return [*words, "-machine", "pc" if len(self.nodes) > 1 else "pc,memory-backend=node0", *self.options]


def nodes_of(memory, count):
    """The sizes of the nodes of a guest, each of which QEMU migrates without losing pages."""
    return [safe_size(memory // count) for _ in range(count)]


class Guest:
    """One process of QEMU. The memory of each of its nodes is a file, and its console another one."""

    def __init__(self, name, folder, memory_folder, machine, file_system_path, incoming=False):
        self.name = name
        self.memories = [os.path.join(memory_folder, f"{name}.memory{n}") for n in range(len(machine.nodes))]
        self.console = os.path.join(folder, f"{name}.console")
        self.socket = os.path.join(folder, f"{name}.qmp")
        self.errors = open(os.path.join(folder, f"{name}.errors"), "w+b")
        command = [qemu(), "-nodefaults", "-no-user-config", "-no-reboot", "-display", "none"]
        command += [*machine.words(self.memories), "-serial", f"file:{self.console}"]
        command += ["-qmp", f"unix:{self.socket},server=on,wait=off", "-kernel", kernel(), "-initrd", file_system_path]
        # If the host is busy, the kernel takes its timer for broken, and panics.
        command += ["-append", "console=ttyS0 quiet panic=-1 no_timer_check"]
        if incoming:
            command += ["-S", "-incoming", "defer"]
        self.process = subprocess.Popen(command, stdin=subprocess.DEVNULL, stdout=self.errors, stderr=self.errors)

    def _wait(self, seconds, holds, what):
        end = time.monotonic() + seconds
        while not holds():
            if self.process.poll() is not None:
                raise Failed(f"{self.name}: QEMU ended: {self._last_words()}")
            if time.monotonic() > end:
                raise Failed(f"{self.name}: {what} after {seconds} s: {self._last_words()}")
            time.sleep(0.05)

    def _last_words(self):
        """What QEMU said, else the end of what the guest did: a guest that panics ends QEMU."""
        self.errors.seek(0)
        said = self.errors.read().decode(errors="replace").strip()
        if not said and os.path.exists(self.console):
            with open(self.console, encoding="utf-8", errors="replace") as file:
                said = " ".join(file.read().split("\n")[-4:]).strip()
        return said

    def wait_for_socket(self, *others):
        for path in (self.socket, *others):
            self._wait(SECONDS_TO_BOOT, lambda: os.path.exists(path), f"there is no socket {path}")

    def wait_until_ready(self):
        self.wait_for_socket()
        self._wait(SECONDS_TO_BOOT, self._is_ready, "the guest does not say READY")

    def _is_ready(self):
        if not os.path.exists(self.console):
            return False
        with open(self.console, "rb") as file:
            return b"READY" in file.read()

    def client(self):
        return qmp.Client(self.socket, SECONDS_TO_ANSWER)

    def end(self):
        if self.process.poll() is None:
            self.process.terminate()
            try:
                self.process.wait(SECONDS_TO_END)
            except subprocess.TimeoutExpired:
                self.process.kill()
                self.process.wait()
        self.errors.close()
        for path in (*self.memories, self.socket):
            if os.path.exists(path):
                os.unlink(path)
