"""A process whose pages are written on demand, for checks/recording. It says so if one of its calls was disturbed.

    python3 checks/recording/known_pages.py private|shared|huge PAGES [filtered|watched|changing]

It prints the address of its pages, one of which in three is zero. For each line of numbers it writes the bytes that
are there again, on these pages, and prints how many of its calls of poll(2) ended with anything but one ready file.
A line `anew N M` maps pages N to M - 1 anew. With `filtered` a userfaultfd of its own would kill it, by seccomp; with
`watched` it has one over its pages already; with `changing` it writes other bytes than are there. A write is one byte,
in another place of each page.
"""

import ctypes
import errno
import fcntl
import mmap
import os
import struct
import sys

PAGE = 4096
ALIGNED = 2 << 20
KINDS = {"private": mmap.MAP_PRIVATE, "shared": mmap.MAP_SHARED, "huge": mmap.MAP_PRIVATE}
CALL_USERFAULTFD, API, REGISTER = 323, 0xC018AA3F, 0xC020AA00
NO_NEW_PRIVILEGES, SECCOMP, FILTER = 38, 22, 2
# The effect of a filtered system call: it kills the process, or fails as one that the kernel does not have.
KILLS, IS_NONE = 0x80000000, 0x00050000 | errno.ENOSYS
MAP_FIXED = 0x10
LIBRARY = ctypes.CDLL(None, use_errno=True)
LIBRARY.mmap.restype = ctypes.c_size_t
LIBRARY.mmap.argtypes = [ctypes.c_size_t, ctypes.c_size_t, ctypes.c_int, ctypes.c_int, ctypes.c_int, ctypes.c_long]


class Poll(ctypes.Structure):
    _fields_ = [("file", ctypes.c_int), ("wanted", ctypes.c_short), ("found", ctypes.c_short)]


def is_filled(page):
    return page % 3 != 0


def mapped(kind, pages):
    """The pages, and the address of the first one."""
    memory = mmap.mmap(-1, pages * PAGE + ALIGNED, flags=KINDS[kind] | mmap.MAP_ANONYMOUS)
    address = ctypes.addressof(ctypes.c_char.from_buffer(memory))
    begin = -address % ALIGNED
    if kind == "huge":
        memory.madvise(mmap.MADV_HUGEPAGE)
    for page in filter(is_filled, range(pages)):
        memory[begin + page * PAGE] = page % 255 + 1
    return memory, begin, address + begin


def filtered(effect=KILLS):
    """From now on the system call userfaultfd has this effect: a filter of four instructions."""
    program = struct.pack("=HBBI", 0x20, 0, 0, 0) + struct.pack("=HBBI", 0x15, 0, 1, CALL_USERFAULTFD)
    program += struct.pack("=HBBI", 0x06, 0, 0, effect) + struct.pack("=HBBI", 0x06, 0, 0, 0x7FFF0000)
    text = ctypes.create_string_buffer(program, len(program))
    head = ctypes.create_string_buffer(struct.pack("@HP", 4, ctypes.addressof(text)))
    if LIBRARY.prctl(NO_NEW_PRIVILEGES, 1, 0, 0, 0) or LIBRARY.prctl(SECCOMP, FILTER, head, 0, 0):
        raise OSError(ctypes.get_errno(), "no filter")
    return text, head


def watched(address, length):
    descriptor = LIBRARY.syscall(CALL_USERFAULTFD, os.O_CLOEXEC | 1)
    fcntl.ioctl(descriptor, API, bytearray(struct.pack("=3Q", 0xAA, 1, 0)))
    fcntl.ioctl(descriptor, REGISTER, bytearray(struct.pack("=4Q", address, length, 2, 0)))


def map_anew(address, first, last):
    """Other memory in the place of some pages."""
    flags = mmap.MAP_PRIVATE | mmap.MAP_ANONYMOUS | MAP_FIXED
    length = (last - first) * PAGE
    made = LIBRARY.mmap(address + first * PAGE, length, mmap.PROT_READ | mmap.PROT_WRITE, flags, -1, 0)
    if made != address + first * PAGE:
        raise OSError(ctypes.get_errno(), "no memory")


def serve(memory, begin, address, change):
    disturbed, rest, waiting = 0, b"", Poll(0, 1, 0)
    while True:
        while LIBRARY.poll(ctypes.byref(waiting), 1, -1) != 1:
            disturbed += 1
        text = os.read(0, 1 << 20)
        if not text:
            return
        *lines, rest = (rest + text).split(b"\n")
        for line in lines:
            if line.startswith(b"anew"):
                map_anew(address, *map(int, line.split()[1:]))
                line = b""
            for page in map(int, line.split()):
                at = begin + page * PAGE + page * 997 % PAGE
                memory[at] = (memory[at] + change) % 256
            print(disturbed, flush=True)


def main(kind, count, *more):
    pages = int(count)
    memory, begin, address = mapped(kind, pages)
    kept = filtered() if "filtered" in more else ()
    if "watched" in more:
        watched(address, pages * PAGE)
    print(address, flush=True)
    serve(memory, begin, address, "changing" in more)
    del kept


if __name__ == "__main__":
    main(*sys.argv[1:])
