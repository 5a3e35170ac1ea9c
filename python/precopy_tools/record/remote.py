"""Opens a userfaultfd in another process, only for this one, by one short stop of its main thread.

A userfaultfd watches the memory of the process that opens it. So its main thread is stopped by ptrace, makes the system
call, and goes on with the registers, the signal mask and the interrupted call that it had. The descriptor is copied to
this process and closed there within the same stop. A process of its own does that, in a session of its own and with its
signals blocked: whoever ends the recorder does not end it in the middle.
"""

import contextlib
import ctypes
import errno
import os
import platform
import signal
import socket
import time

SEIZE, INTERRUPT, SINGLESTEP, CONT, DETACH = 0x4206, 0x4207, 9, 7, 17
GETREGS, SETREGS, GETSIGMASK, SETSIGMASK = 12, 13, 0x420A, 0x420B
SUSPEND_SECCOMP = 1 << 21
EVENT_STOP = 128
WALL = 0x40000000
CALL_USERFAULTFD, CALL_CLOSE, CALL_PIDFD_GETFD = 323, 3, 438
USER_MODE_ONLY = 1
INSTRUCTION = b"\x0f\x05"
LONG_MODE = 0x33
SECONDS = 2.0
STEPS = 100


class Unavailable(Exception):
    """Writes of a process cannot be followed; the text names the cause."""


class Registers(ctypes.Structure):
    """The registers of a thread on x86-64, in the order of the kernel's user_regs_struct."""

    _fields_ = [
        (name, ctypes.c_ulonglong)
        for name in (
            "r15 r14 r13 r12 rbp rbx r11 r10 r9 r8 rax rcx rdx rsi rdi orig_rax rip cs eflags rsp ss "
            "fs_base gs_base ds es fs gs"
        ).split()
    ]


LIBRARY = ctypes.CDLL(None, use_errno=True)
LIBRARY.ptrace.restype = ctypes.c_long
LIBRARY.ptrace.argtypes = [ctypes.c_long, ctypes.c_long, ctypes.c_void_p, ctypes.c_void_p]
LIBRARY.syscall.restype = ctypes.c_long


def ptrace(request: int, process: int, place: int = 0, data=None) -> None:
    if LIBRARY.ptrace(request, process, place, data) < 0:
        number = ctypes.get_errno()
        raise OSError(number, os.strerror(number))


def status_of(process: int) -> dict[str, str]:
    """The lines of /proc/PID/status by their names."""
    try:
        with open(f"/proc/{process}/status", encoding="utf-8", errors="replace") as lines:
            return {name: rest.strip() for name, _, rest in (line.partition(":") for line in lines)}
    except OSError as fault:
        raise Unavailable(f"there is no process {process}") from fault


def instruction_of(process: int) -> int:
    """The place of an instruction `syscall` in the process: first in what the kernel maps into every process."""
    with open(f"/proc/{process}/maps", encoding="utf-8", errors="replace") as lines:
        rows = [line.split() for line in lines]
    code = [row for row in rows if "x" in row[1] and row[-1] != "[vsyscall]"]
    with open(f"/proc/{process}/mem", "rb", buffering=0) as memory:
        for row in sorted(code, key=lambda row: row[-1] != "[vdso]"):
            begin, end = (int(word, 16) for word in row[0].split("-"))
            with contextlib.suppress(OSError):
                at = os.pread(memory.fileno(), min(end - begin, 1 << 22), begin).find(INSTRUCTION)
                if at >= 0:
                    return begin + at
    raise Unavailable("no system call instruction is found in the process")


class StoppedThread:
    """The main thread of a process while it is stopped. It makes system calls, and goes on as it was."""

    def __init__(self, process: int, instruction: int, filtered: bool):
        self.process, self.instruction = process, instruction
        self.before, self.now = Registers(), Registers()
        self.mask, self.all_blocked = ctypes.c_uint64(), ctypes.c_uint64(2**64 - 1)
        self.is_changed = False
        self._seize(filtered)

    def _seize(self, filtered: bool) -> None:
        try:
            ptrace(SEIZE, self.process, 0, SUSPEND_SECCOMP if filtered else None)
        except OSError as fault:
            if filtered and fault.errno in (errno.EPERM, errno.EINVAL):
                raise Unavailable("its seccomp filter cannot be suspended: that needs CAP_SYS_ADMIN") from fault
            raise Unavailable(
                f"no permission to trace process {self.process}: run as root, or as its user where "
                "/proc/sys/kernel/yama/ptrace_scope is 0"
            ) from fault

    def _wait(self) -> int:
        """Waits for the next stop: its signal, and above it its event."""
        end = time.monotonic() + SECONDS
        while True:
            found, status = os.waitpid(self.process, os.WNOHANG | WALL)
            if found and not os.WIFSTOPPED(status):
                raise Unavailable("the process ended")
            if found:
                return status >> 8
            if time.monotonic() > end:
                raise Unavailable(f"its main thread did not stop within {SECONDS:g} s")
            time.sleep(0.00005)

    def stop(self) -> None:
        ptrace(INTERRUPT, self.process)
        for _ in range(STEPS):
            stopped_by = self._wait()
            if stopped_by == signal.SIGTRAP | EVENT_STOP << 8:
                break
            if stopped_by >> 8 == EVENT_STOP:
                raise Unavailable("a signal has stopped the process")
            ptrace(CONT, self.process, 0, stopped_by & 0xFF)
        else:
            raise Unavailable("its main thread gets signals without end")
        ptrace(GETREGS, self.process, 0, ctypes.addressof(self.before))
        if self.before.cs != LONG_MODE:
            raise Unavailable("it is no process of 64 bits")
        ptrace(GETSIGMASK, self.process, 8, ctypes.addressof(self.mask))

    def call(self, number: int, argument: int) -> int:
        """Makes one system call in the thread, and returns what it returns."""
        ctypes.memmove(ctypes.byref(self.now), ctypes.byref(self.before), ctypes.sizeof(Registers))
        self.now.rip, self.now.rax, self.now.rdi = self.instruction, number, argument
        self.now.orig_rax = 2**64 - 1
        self.is_changed = True
        ptrace(SETSIGMASK, self.process, 8, ctypes.addressof(self.all_blocked))
        ptrace(SETREGS, self.process, 0, ctypes.addressof(self.now))
        for _ in range(STEPS):
            ptrace(SINGLESTEP, self.process)
            self._wait()
            ptrace(GETREGS, self.process, 0, ctypes.addressof(self.now))
            if self.now.rip != self.instruction:
                return ctypes.c_longlong(self.now.rax).value
        raise Unavailable("a system call in the process does not end")

    def go_on(self) -> None:
        """Gives back registers and signal mask. A process that has ended meanwhile needs neither."""
        with contextlib.suppress(OSError):
            if self.is_changed:
                ptrace(SETREGS, self.process, 0, ctypes.addressof(self.before))
                ptrace(SETSIGMASK, self.process, 8, ctypes.addressof(self.mask))
            ptrace(DETACH, self.process)


def copied(process: int, descriptor: int) -> int:
    """A descriptor of another process, in this one."""
    holder = os.pidfd_open(process)
    try:
        copy = LIBRARY.syscall(CALL_PIDFD_GETFD, holder, descriptor, 0)
    finally:
        os.close(holder)
    if copy < 0:
        raise Unavailable(f"its descriptor cannot be copied: {os.strerror(ctypes.get_errno())}")
    return copy


def opened_in(thread: StoppedThread) -> int:
    there = thread.call(CALL_USERFAULTFD, os.O_CLOEXEC | USER_MODE_ONLY)
    if there == -errno.ENOSYS:
        raise Unavailable("the kernel has no userfaultfd (CONFIG_USERFAULTFD)")
    if there < 0:
        raise Unavailable(f"userfaultfd in the process: {os.strerror(-there)}")
    try:
        return copied(thread.process, there)
    finally:
        thread.call(CALL_CLOSE, there)


def open_once(process: int) -> int:
    """Opens a userfaultfd in a process; its descriptor here. Only this process has one afterwards."""
    status = status_of(process)
    if status.get("TracerPid", "0") != "0":
        raise Unavailable(f"process {status['TracerPid']} traces it already, as a debugger does")
    if status["State"][0] in "TtZX":
        raise Unavailable(f"its main thread is not running: {status['State']}")
    try:
        instruction = instruction_of(process)
    except PermissionError as fault:
        raise Unavailable(f"no permission to trace process {process}: run as root, or as its user") from fault
    thread = StoppedThread(process, instruction, status.get("Seccomp", "0") != "0")
    try:
        thread.stop()
        return opened_in(thread)
    finally:
        thread.go_on()


def serve(process: int, answers: socket.socket) -> None:
    """What the process of its own does: one answer, with a descriptor or the text of a cause."""
    try:
        socket.send_fds(answers, [b"opened"], [open_once(process)])
    except Unavailable as cause:
        answers.sendall(b"no " + str(cause).encode())
    except OSError as fault:
        answers.sendall(f"no {fault}".encode())


def open_userfaultfd(process: int) -> int:
    """The descriptor of a userfaultfd over the memory of another process, or Unavailable."""
    if platform.machine() != "x86_64":
        raise Unavailable(f"it is made for x86-64, and this is {platform.machine()}")
    ours, theirs = socket.socketpair()
    with ours, theirs:
        helper = os.fork()
        if helper == 0:
            try:
                os.setsid()
                signal.pthread_sigmask(signal.SIG_BLOCK, signal.valid_signals())
                ours.close()
                serve(process, theirs)
            finally:
                os._exit(0)
        theirs.close()
        try:
            text, found, _, _ = socket.recv_fds(ours, 4096, 1)
        finally:
            os.waitpid(helper, 0)
    if found:
        return found[0]
    raise Unavailable(text.decode().removeprefix("no ") or "the helper that opens it was killed")
