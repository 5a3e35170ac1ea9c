"""Runs a tool as on a system that differs from this one, for checks/recording.

    python3 -m checks.recording.stand_in CAUSE MODULE WORD..
"""

import errno
import os
import platform
import runpy
import struct
import sys
import time

from precopy_tools.formats import samples
from precopy_tools.record import pagemap, remote, sampled, scans

IOCTL, PTRACE, CALL = pagemap.ioctl, remote.ptrace, remote.StoppedThread.call


def fails(number):
    raise OSError(number, os.strerror(number))


def old_kernel():
    """The features that are asked for are unknown."""
    pagemap.ioctl = lambda *words: fails(errno.EINVAL) if words[1] == pagemap.API else IOCTL(*words)


def no_userfaultfd():
    def call(thread, number, argument):
        return -errno.ENOSYS if number == remote.CALL_USERFAULTFD else CALL(thread, number, argument)

    remote.StoppedThread.call = call


def huge_pages():
    """The kernel watches the memory, and says that it is of huge pages: it cannot be filled with zeros."""

    def ioctl(descriptor, request, argument):
        answer = IOCTL(descriptor, request, argument)
        if request == pagemap.REGISTER:
            *asked, offered = struct.unpack("=4Q", argument)
            argument[:] = struct.pack("=4Q", *asked, offered & ~pagemap.ZEROPAGE)
        return answer

    pagemap.ioctl = ioctl


def no_permission():
    remote.ptrace = lambda *words: fails(errno.EPERM) if words[0] == remote.SEIZE else PTRACE(*words)


def other_machine():
    platform.machine = lambda: "aarch64"


def process_ends():
    """From the ninth look on the kernel knows no such process."""
    looks, look = [], scans.CallsLook.look

    def counted(self, descriptor):
        looks.append(descriptor)
        return look(self, descriptor)

    scans.LIBRARY, scans.CallsLook.look = None, counted
    scans.ioctl = lambda *words: fails(errno.ESRCH) if len(looks) > 8 else IOCTL(*words)


def slow_count():
    """The pages of the guest are counted for some seconds."""
    counted = sampled.SampledGuest.nonzero

    def slowly(guest):
        time.sleep(2.5)
        return counted(guest)

    sampled.SampledGuest.nonzero = slowly


def clock_ahead():
    """The clock is days ahead, and is set after some seconds."""
    until, now = time.monotonic() + 3.5, samples.now
    samples.now = lambda ago=0.0: now(ago - 345_600 * (time.monotonic() < until))


STOOD_IN = (old_kernel, no_userfaultfd, huge_pages, no_permission, other_machine, process_ends, slow_count, clock_ahead)
CAUSES = {cause.__name__: cause for cause in STOOD_IN}


if __name__ == "__main__":
    CAUSES[sys.argv[1]]()
    module, sys.argv[1:] = sys.argv[2], sys.argv[3:]
    runpy.run_module(module, run_name="__main__", alter_sys=True)
