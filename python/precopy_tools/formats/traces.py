"""Traces, as docs/FORMATS.md defines them: their limits, reading with all refusals, and writing.

A write with no bytes releases its page: the whole page becomes zeros. Only traces of version 2 have such writes.
"""

import contextlib
import errno
import fcntl
import os
import re
import shutil
import struct
import sys
import tempfile
from typing import NamedTuple

from precopy_tools.formats.causes import CAUSES
from precopy_tools.refusals import Refused

MAGIC = b"PCWT"
PLAIN, WITH_RELEASES = 1, 2
HEADER = 16
RECORD = struct.Struct("<QIHH")
TICKS = 1 << 40
LEAST_SHIFT, GREATEST_SHIFT = 4, 12


class Limits(NamedTuple):
    """What a trace has at most."""

    writes: int = 1 << 20
    bytes: int = 1 << 28
    pages: int = 1 << 16


class Full(Exception):
    """Some writes do not fit the trace any more; the text says which limit they pass."""


class Busy(Exception):
    """Another process writes what this one was to write."""


class NoRoom(Full):
    """Some writes do not fit the disk."""


def told(fault):
    """The text of a fault; of one of the system the file and the cause."""
    if isinstance(fault, OSError) and fault.filename:
        return f"{fault.filename}: {fault.strerror}"
    return str(fault)


class Trace(NamedTuple):
    """What a header says, and all bytes of the trace."""

    version: int
    shift: int
    pages: int
    writes: int
    text: bytes

    @property
    def size(self):
        return 1 << self.shift

    def records(self):
        """Yields tick, page, offset and data of each write, or raises the first cause of a refusal.

        A release has offset 0 and no data.
        """
        at, last, end = HEADER, 0, len(self.text)
        for number in range(self.writes):
            if end - at < RECORD.size:
                raise Refused(f"E8 record {number}")
            tick, page, offset, length = RECORD.unpack_from(self.text, at)
            at += RECORD.size
            if end - at < length:
                raise Refused(f"E8 record {number}")
            wrong = self._wrong(tick, last, page, offset, length)
            if wrong:
                raise Refused(f"{wrong} record {number}")
            yield tick, page, offset, self.text[at : at + length]
            at, last = at + length, tick
        if at != end:
            raise Refused("E14")

    def _wrong(self, tick, last, page, offset, length):
        if tick < last:
            return "E9"
        if tick >= TICKS:
            return "E10"
        if page >= self.pages:
            return "E11"
        if length == 0 and (self.version == PLAIN or offset):
            return "E12"
        return "E13" if offset + length > self.size else None

    def memory(self):
        """The bytes of all pages after all writes."""
        memory = bytearray(self.pages << self.shift)
        for _, page, offset, data in self.records():
            at, data = (page << self.shift) + offset, data or bytes(self.size)
            memory[at : at + len(data)] = data
        return memory


def read(text):
    """Reads the header of a trace. Its records are tested as they are read."""
    if len(text) > Limits().bytes:
        raise Refused("E15")
    if len(text) < HEADER:
        raise Refused("E1")
    pages, writes = struct.unpack_from("<II", text, 8)
    for name, holds in (
        ("E2", text[:4] == MAGIC),
        ("E3", text[4] in (PLAIN, WITH_RELEASES)),
        ("E4", LEAST_SHIFT <= text[5] <= GREATEST_SHIFT),
        ("E5", text[6:8] == b"\0\0"),
        ("E6", 1 <= pages <= Limits().pages),
        ("E7", writes <= Limits().writes),
    ):
        if not holds:
            raise Refused(name)
    return Trace(text[4], text[5], pages, writes, text)


def bytes_of(stream):
    """The bytes below a standard stream. One that was closed before this began is none."""
    if stream is None:
        raise OSError(errno.EBADF, os.strerror(errno.EBADF), "-")
    return stream.buffer


def text_of(path, is_input=False):
    """The bytes of a file, or of standard input, but no more than a byte beyond those of the greatest trace."""
    with bytes_of(sys.stdin) if is_input else open(path, "rb") as file:
        return file.read(Limits().bytes + 1)


def read_file(path):
    """A trace in a file, and its records. A refusal names the file and the cause."""
    text = text_of(path)
    try:
        trace = read(text)
        return trace, list(trace.records())
    except Refused as refused:
        name = str(refused)
        raise Refused(f"{path}: {name}: {CAUSES[name.partition(' ')[0]]}") from refused


def is_locked(path):
    """Whether another process has this file locked. One that is not there is not."""
    with contextlib.suppress(FileNotFoundError), open(path, "rb") as file:
        try:
            fcntl.flock(file, fcntl.LOCK_EX | fcntl.LOCK_NB)
        except BlockingIOError:
            return True
    return False


class Pending:
    """A file that is written under another name, only for its owner, and takes its own name when it is whole and on the
    disk: not even a crash of the host leaves a part under that name.

    The path - is standard output, to which all is copied when it is whole. So it is to what is there and is no file, as
    a pipe or /dev/null: a file with its name would be in its place. A link stays one. What can be no name of a file is
    refused at once, and not when all is written.
    """

    def __init__(self, path):
        if not path:
            raise FileNotFoundError(errno.ENOENT, os.strerror(errno.ENOENT), path)
        if os.path.isdir(path) or path.endswith("/"):
            raise IsADirectoryError(errno.EISDIR, os.strerror(errno.EISDIR), path)
        self.path = path
        self.is_copied = path == "-" or os.path.exists(path) and not os.path.isfile(path)
        folder, name = (None, "trace") if self.is_copied else os.path.split(os.path.realpath(path))
        try:
            self.descriptor, self.hidden = tempfile.mkstemp(prefix=f".{name}.", suffix=".part", dir=folder)
        except OSError as fault:
            raise OSError(fault.errno, fault.strerror, path) from fault
        # While it is locked, it is not left over.
        fcntl.flock(self.descriptor, fcntl.LOCK_EX | fcntl.LOCK_NB)

    def expect_alone(self):
        """Raises Busy if another process writes a file of the same name; an unfinished file that is left is none."""
        folder, own = os.path.split(self.hidden)
        part = re.compile(rf"\.{re.escape(os.path.basename(self.path))}\.\w+\.part")
        for name in os.listdir(folder):
            if name != own and part.fullmatch(name) and is_locked(os.path.join(folder, name)):
                raise Busy(f"another process writes {self.path}")

    def write(self, data):
        left = memoryview(data)
        while left:
            left = left[os.write(self.descriptor, left) :]

    def finish(self):
        if self.is_copied:
            is_output = self.path == "-"
            to = contextlib.nullcontext(bytes_of(sys.stdout)) if is_output else open(self.path, "wb", buffering=0)
            with open(self.hidden, "rb") as file, to as stream:
                shutil.copyfileobj(file, stream)
                stream.flush()
        else:
            try:
                os.fsync(self.descriptor)
            except OSError as fault:
                raise OSError(fault.errno, fault.strerror, self.path) from fault
            os.rename(self.hidden, os.path.realpath(self.path))
            with contextlib.suppress(OSError), contextlib.ExitStack() as opened:
                folder = os.open(os.path.dirname(self.hidden), os.O_RDONLY)
                opened.callback(os.close, folder)
                os.fsync(folder)

    def discard(self):
        """Takes the unfinished file away. After finish() it does nothing."""
        if self.descriptor is not None:
            os.close(self.descriptor)
            self.descriptor = None
        if os.path.exists(self.hidden):
            os.unlink(self.hidden)

    def __enter__(self):
        return self

    def __exit__(self, *_):
        self.discard()


class Writer(Pending):
    """Writes a trace. Some writes are taken together, or none of them is; so the trace is valid after each call.

    It has version 1 if no write is a release, unless finish() is given another.
    """

    def __init__(self, path, limits=Limits()):
        super().__init__(path)
        self.limits = limits
        self.writes = 0
        self.size = HEADER
        self.version = PLAIN
        try:
            self.write(bytes(HEADER))
        except OSError:
            self.discard()
            raise

    def room(self):
        """How many more writes and bytes of records the trace takes."""
        return self.limits.writes - self.writes, self.limits.bytes - self.size

    def append(self, records):
        """Appends (tick, page, offset, data) in this order; raises Full, and appends none, if they do not fit.

        No data, at offset 0, is a release.
        """
        parts, version = [], self.version
        for tick, page, offset, data in records:
            parts += RECORD.pack(tick, page, offset, len(data)), data
            version = version if data else WITH_RELEASES
        text, (writes, room) = b"".join(parts), self.room()
        if len(parts) // 2 > writes:
            raise Full(f"a trace has at most {self.limits.writes:,} writes")
        if len(text) > room:
            raise Full(f"a trace has at most {self.limits.bytes:,} bytes")
        try:
            self.write(text)
        except OSError as fault:
            os.ftruncate(self.descriptor, self.size)
            os.lseek(self.descriptor, self.size, os.SEEK_SET)
            raise NoRoom(f"{self.path}: {fault.strerror}") from fault
        self.version = version
        self.writes += len(parts) // 2
        self.size += len(text)

    def seal(self, shift, pages, version=None):
        """Writes the header. The trace is whole then, and has its hidden name still; returns its bytes."""
        header = MAGIC + bytes([version or self.version, shift, 0, 0]) + struct.pack("<II", pages, self.writes)
        os.pwrite(self.descriptor, header, 0)
        return os.pread(self.descriptor, self.size, 0)

    def finish(self, shift, pages, version=None):
        self.seal(shift, pages, version)
        super().finish()
