"""Traces by docs/FORMATS.md: made, taken apart, drawn at random, and damaged. It shares no code with the programs."""

import glob
import os
import struct
from functools import cached_property

from precopy_dev.files import read_bytes
from precopy_dev.models import redrawn
from precopy_dev.models.courses import Record
from precopy_dev.tree import TOP

MAGIC = b"PCWT"
MOST_BYTES, MOST_PAGES, MOST_WRITES, LAST_TICK = 1 << 28, 1 << 16, 1 << 20, (1 << 40) - 1
EXAMPLES = sorted(glob.glob(os.path.join(TOP, "examples", "*.pcwt")))


def header(pages, writes, shift=4, magic=MAGIC, version=1, reserved=b"\0\0"):
    return magic + bytes([version, shift]) + reserved + struct.pack("<II", pages, writes)


def record(tick, page, offset, data, length=None):
    return struct.pack("<QIHH", tick, page, offset, len(data) if length is None else length) + data


def made(pages, writes, shift=4, version=1):
    """A trace of writes of one byte, or of releases, by their ticks and pages."""
    data = b"\1" if version == 1 else b""
    return header(pages, len(writes), shift, version=version) + b"".join(record(*it, 0, data) for it in writes)


class Trace:
    """A trace that is accepted: the bytes of a page, the pages, the writes as (tick, page, offset, bytes), and the last
    tick. A write without bytes releases its page, which becomes zeros."""

    def __init__(self, text: bytes, path: str = ""):
        self.text, self.path, self.size = text, path, 1 << text[5]
        self.pages, count = struct.unpack_from("<II", text, 8)
        self.records, at = [], 16
        for _ in range(count):
            tick, page, offset, length = struct.unpack_from("<QIHH", text, at)
            self.records.append((tick, page, offset, text[at + 16 : at + 16 + length]))
            at += 16 + length
        self.last = self.records[-1][0] if self.records else 0

    @classmethod
    def at(cls, path: str) -> "Trace":
        return cls(read_bytes(path), path)

    def __repr__(self):
        return os.path.basename(self.path)

    @cached_property
    def writes(self) -> list[tuple[int, int]]:
        return [it[:2] for it in self.records]

    @cached_property
    def guest(self) -> list[list[int]]:
        """The ticks at which each page is written."""
        return redrawn.by_page(self.pages, self.writes)

    @cached_property
    def record(self) -> Record:
        """The same, as what is planned."""
        return Record(self.guest, self.last)

    @cached_property
    def whole(self) -> bytes:
        """The memory that all writes leave."""
        return self.memory()

    def memory(self, before: int | None = None) -> bytes:
        """The memory that the writes leave, or those before a tick."""
        memory = bytearray(self.pages * self.size)
        for tick, page, offset, data in self.records:
            if before is None or tick < before:
                data, at = data or bytes(self.size), page * self.size + offset
                memory[at : at + len(data)] = data
        return bytes(memory)

    def cut(self, before: int) -> bytes:
        """The trace without the writes from a tick on."""
        kept = [record(*it) for it in self.records if it[0] < before]
        return self.text[:12] + struct.pack("<I", len(kept)) + b"".join(kept)


# ---- Refusals, in the order of their table.


def refusal(text: bytes) -> str:
    """Why a text is no trace, with the record where one is named; or nothing."""
    pages, writes = struct.unpack_from("<II", text.ljust(16, b"\0"), 8)
    causes = {
        "E15": len(text) > MOST_BYTES,
        "E1": len(text) < 16,
        "E2": text[:4] != MAGIC,
        "E3": text[4:5] not in (b"\1", b"\2"),
        "E4": not 4 <= text[5:6].ljust(1, b"\0")[0] <= 12,
        "E5": text[6:8] != b"\0\0",
        "E6": not 1 <= pages <= MOST_PAGES,
        "E7": writes > MOST_WRITES,
    }
    return next((name for name, holds in causes.items() if holds), "") or refusal_of_records(text, pages, writes)


def refusal_of_records(text: bytes, pages: int, writes: int) -> str:
    at, before, size = 16, 0, 1 << text[5]
    for number in range(writes):
        if len(text) - at < 16:
            return f"E8 record {number}"
        tick, page, offset, length = struct.unpack_from("<QIHH", text, at)
        at += 16 + length
        causes = {
            "E8": at > len(text),
            "E9": tick < before,
            "E10": tick > LAST_TICK,
            "E11": page >= pages,
            "E12": length == 0 and (text[4] == 1 or offset > 0),
            "E13": offset + length > size,
        }
        if why := next((name for name, holds in causes.items() if holds), ""):
            return f"{why} record {number}"
        before = tick
    return "E14" if at < len(text) else ""


# ---- Random traces.


def generated(chosen) -> bytes:
    """A trace of a small guest, in both versions of the format."""
    version, shift, pages = chosen.choice([1, 2]), chosen.randint(4, 6), chosen.choice([1, 2, 5, 64, 65, 70])
    ticks = sorted(chosen.randrange(chosen.choice([3, 500, 5000])) for _ in range(chosen.choice([0, 1, 10, 60])))
    text = header(pages, len(ticks), shift, version=version)
    for tick in ticks:
        offset = chosen.randrange(1 << shift)
        data = chosen.randbytes(chosen.randint(1, (1 << shift) - offset))
        if version == 2 and chosen.random() < 0.2:
            offset, data = 0, b""
        text += record(tick, chosen.randrange(pages), offset, data)
    return text


def damaged(chosen, trace: bytes) -> bytes:
    """A trace with some bytes changed, cut off, or with more bytes after it; some of these are still traces."""
    text = bytearray(trace)
    for _ in range(chosen.randint(1, 3)):
        kind = chosen.randrange(4)
        if kind == 0 and text:
            text[chosen.randrange(len(text))] = chosen.choice([0, 1, 3, 255])
        elif kind == 1 and text:
            text[chosen.randrange(min(16, len(text)))] = chosen.randrange(256)
        elif kind == 2:
            del text[chosen.randint(0, len(text)) :]
        elif kind == 3:
            text += bytes(chosen.randint(1, 20))
    return bytes(text)
