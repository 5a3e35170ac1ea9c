"""A process that writes known pages at a known pace, for checks/recording, and what its memory must be.

    python3 checks/recording/known_writes.py FILE        FILE is its memory; - is memory of its own
"""

import ctypes
import json
import mmap
import sys
import time

PAGE = 4096
# The memory that comes later is no size that fits between two libraries: behind one it would be taken for its data.
PAGES, LATER_PAGES = 96, 80
HOT = 64
STEPS, PACE = 60, 0.010


def filled():
    """The memory before any step: every third page is zero."""
    return bytearray(b"".join(bytes([n % 255 + 1]) * PAGE if n % 3 else bytes(PAGE) for n in range(PAGES)))


def step(number):
    """Page, offset and bytes of one step. A page comes again after 64 steps, with other bytes."""
    page = number * 7 % HOT
    return page, number * 13 % 4000, bytes([number * 3 % 250 + 1]) * (1 + number % 90)


def put(into, number):
    page, offset, data = step(number)
    into[page * PAGE + offset : page * PAGE + offset + len(data)] = data


def ended(steps=STEPS):
    memory = filled()
    for number in range(steps):
        put(memory, number)
    return bytes(memory)


def address_of(mapping):
    return ctypes.addressof(ctypes.c_char.from_buffer(mapping))


def writer(path):
    """Prints where its memory is, waits for a line, and makes its steps."""
    if path == "-":
        mapping = mmap.mmap(-1, PAGES * PAGE, flags=mmap.MAP_PRIVATE | mmap.MAP_ANONYMOUS)
    else:
        with open(path, "r+b") as file:
            mapping = mmap.mmap(file.fileno(), PAGES * PAGE)
    mapping[:] = bytes(filled())
    print(address_of(mapping), flush=True)
    if not sys.stdin.readline():
        return 0
    later = mmap.mmap(-1, LATER_PAGES * PAGE, flags=mmap.MAP_PRIVATE | mmap.MAP_ANONYMOUS)
    later[:] = b"\x77" * len(later)
    begun, times = time.monotonic(), []
    for number in range(STEPS):
        time.sleep(max(0.0, begun + number * PACE - time.monotonic()))
        put(mapping, number)
        times.append(time.monotonic())
    print(json.dumps([address_of(later), times]), flush=True)
    sys.stdin.readline()
    return 0


if __name__ == "__main__":
    sys.exit(writer(sys.argv[1]))
