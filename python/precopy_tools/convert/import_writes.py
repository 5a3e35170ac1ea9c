"""Makes a trace from text lines, or from the stores that valgrind's lackey reports.

    tools/import [--pages N] [--size Z] TEXT TRACE
    tools/import --lackey [--instructions N] [--first N] TEXT TRACE

A line is `tick page offset hexbytes`, such as `1200 1 0 03ff`: three decimal numbers, and two hexadecimal digits a
byte. A line `tick page release` releases a page: all of it becomes zeros. The first line may be `pages N size Z`, and
`version V` may follow in it. Empty lines and lines that begin with # are ignored. Without that line and without
options, pages are counted up to the last one named, and have the least size that holds all writes. The version is then
2 if a page is released, and 1 if not.

With --lackey the text is what `valgrind --tool=lackey --trace-mem=yes` writes. Its stores and modifies are the writes.
Pages of 4,096 bytes are numbered by their first store. Lackey reports no data, so it is made from addresses and places:
it is not what the program wrote. A store across the end of a page is two writes.

TEXT and TRACE may be -. A bad line is refused by its number with status 1, and then there is no trace.
"""

import itertools
import re
import struct
import sys

from precopy_tools import printed, version
from precopy_tools.formats import traces

# How many writes are handed over together.
BATCH = 4096
LACKEY_SHIFT = 12
SHAPE = re.compile(rb"pages (\d{1,20}) size (\d{1,20})(?: version ([12]))?\s*")
ACCESS = re.compile(rb" ([SLM]) ([0-9a-fA-F]{1,16}),(\d{1,6})\s*")
FETCH = re.compile(rb"I  [0-9a-fA-F]{1,16},\d{1,6}\s*")


class BadLine(Exception):
    """A line is refused; the text says why."""


class Shape:
    """How many pages there are, and how large they are: as asked, or as the writes need. And the version, if given. Of
    the text the number of the line."""

    def __init__(self, pages, size):
        self.pages = pages
        self.size = size
        self.version = None
        self.tick = 0
        self.most_page = -1
        self.most_end = 0
        self.number = 0

    def come_to(self, tick):
        if tick < self.tick:
            raise BadLine(f"tick {tick} is below {self.tick}")
        if tick >= traces.TICKS:
            raise BadLine(f"tick {tick} is not below 2^40")
        self.tick = tick

    def hold(self, tick, page, end):
        self.come_to(tick)
        if page >= (self.pages or traces.Limits().pages):
            raise BadLine(f"page {page} is not below {self.pages or traces.Limits().pages}")
        if end > (self.size or 1 << traces.GREATEST_SHIFT):
            raise BadLine(f"it ends at byte {end} of a page of {self.size or 1 << traces.GREATEST_SHIFT}")
        self.most_page = max(self.most_page, page)
        self.most_end = max(self.most_end, end)

    def shift(self):
        least = max(self.most_end - 1, 0).bit_length()
        return self.size.bit_length() - 1 if self.size else max(least, traces.LEAST_SHIFT)

    def count(self):
        return self.pages or max(self.most_page + 1, 1)

    def release(self, tick, page):
        self.come_to(tick)
        if self.version == traces.PLAIN:
            raise BadLine("a trace of version 1 releases no page")
        self.hold(tick, page, 0)

    def take_line(self, pages, size, version):
        """The line `pages N size Z`. An option overrides it if they differ."""
        for name, wrong in (("pages", bad_pages(pages)), ("size", bad_size(size))):
            if wrong:
                raise BadLine(f"{name} {wrong}")
        self.pages = self.pages or pages
        self.size = self.size or size
        self.version = version


def bad_pages(number):
    return None if 1 <= number <= traces.Limits().pages else f"are not 1 to {traces.Limits().pages}"


def bad_size(number):
    sizes = [1 << shift for shift in range(traces.LEAST_SHIFT, traces.GREATEST_SHIFT + 1)]
    return None if number in sizes else f"is not a power of two from {sizes[0]} to {sizes[-1]}"


def are_numbers(words):
    return all(word.isdigit() and len(word) <= 20 for word in words)


def write_of(words):
    """Tick, page, offset and data of a line's words; of a release offset 0 and no data."""
    if len(words) == 3 and words[2] == b"release" and are_numbers(words[:2]):
        return int(words[0]), int(words[1]), 0, b""
    if len(words) == 4 and are_numbers(words[:3]):
        try:
            data = bytes.fromhex(words[3].decode("ascii"))
        except ValueError:
            data = b""
        # Blanks between digits are no digits.
        if data and 2 * len(data) == len(words[3]):
            return *(int(word) for word in words[:3]), data
    raise BadLine("it is not `tick page offset hexbytes` or `tick page release`")


def plain_writes(lines, shape):
    """Yields the writes of text lines."""
    begun = False
    for shape.number, line in enumerate(lines, 1):
        if not line.strip() or line.startswith(b"#"):
            continue
        named = SHAPE.fullmatch(line)
        if named and not begun:
            shape.take_line(int(named[1]), int(named[2]), int(named[3]) if named[3] else None)
            begun = True
            continue
        begun = True
        tick, page, offset, data = write_of(line.rstrip().split(b" "))
        if data:
            shape.hold(tick, page, offset + len(data))
        else:
            shape.release(tick, page)
        yield tick, page, offset, data


def made_data(address, number, length):
    """Bytes for a store, as lackey shows none: different for each store, and not all of them zero."""
    mixed = ((address ^ number * 0x9E3779B97F4A7C15) * 0xBF58476D1CE4E5B9) & (1 << 64) - 1
    data = struct.pack("<Q", mixed ^ mixed >> 29)
    data = bytes([data[0] or 1]) + data[1:]
    return (data * (length // 8 + 1))[:length]


def lackey_writes(lines, shape, instructions):
    """Yields the stores that lackey reports. A tick is a number of instructions."""
    fetched, number, numbers, size = 0, 0, {}, 1 << LACKEY_SHIFT
    for shape.number, line in enumerate(lines, 1):
        if FETCH.fullmatch(line):
            fetched += 1
            continue
        access = ACCESS.fullmatch(line)
        if not access:
            if line.startswith((b"==", b"--")) or not line.strip():
                continue
            raise BadLine("it is no line of lackey's")
        address, length = int(access[2], 16), int(access[3])
        if length == 0 or address + length > 1 << 64:
            raise BadLine("no bytes have this place and length")
        tick = fetched // instructions
        while access[1] != b"L" and length:
            offset = address % size
            part = min(length, size - offset)
            page = numbers.setdefault(address // size, len(numbers))
            shape.hold(tick, page, offset + part)
            yield tick, page, offset, made_data(address, number, part)
            address, length, number = address + part, length - part, number + 1


def write_all(writes, writer, most):
    """Hands writes over in order, up to a number of them if one is given."""
    batch, length = [], 0
    for write in writes if most is None else itertools.islice(writes, min(most, sys.maxsize)):
        batch.append(write)
        length += traces.RECORD.size + len(write[3])
        # A write that does not fit is handed over at once, so that its own line is named.
        if len(batch) == BATCH or len(batch) > writer.room()[0] or length > writer.room()[1]:
            writer.append(batch)
            batch, length = [], 0
    writer.append(batch)


def options_of(words):
    parser = version.parser("import", __doc__)
    add = parser.add_argument
    add("text", metavar="TEXT")
    add("trace", metavar="TRACE")
    add("--pages", metavar="N", type=int, help="the number of pages")
    add("--size", metavar="Z", type=int, help="the bytes of a page")
    add("--lackey", action="store_true", help="the text is what valgrind's lackey writes")
    add("--instructions", metavar="N", type=int, help="how many instructions a tick is (64); with --lackey")
    add("--first", metavar="N", type=int, help="take the first N writes, and end there")
    add("--json", action="store_true", help=printed.JSON_HELP)
    options = parser.parse_args(words)
    if options.json and options.trace == "-":
        parser.error("--json goes with a file as TRACE")
    if options.pages is not None and bad_pages(options.pages):
        parser.error(f"--pages {bad_pages(options.pages)}")
    if options.size is not None and bad_size(options.size):
        parser.error(f"--size {bad_size(options.size)}")
    if options.lackey and options.size not in (None, 1 << LACKEY_SHIFT):
        parser.error("with --lackey a page has 4096 bytes")
    if options.instructions is not None and (not options.lackey or options.instructions < 1):
        parser.error("--instructions is 1 or more, and goes with --lackey")
    if options.first is not None and options.first < 1:
        parser.error("--first is 1 or more")
    if options.lackey:
        options.size = 1 << LACKEY_SHIFT
    return options


def run(options, source, writer):
    shape = Shape(options.pages, options.size)
    if options.lackey:
        writes = lackey_writes(source, shape, options.instructions or 64)
    else:
        writes = plain_writes(source, shape)
    try:
        write_all(writes, writer, options.first)
    except (BadLine, traces.Full) as fault:
        version.complain("import", f"line {shape.number}: {fault}")
        return 1
    writer.finish(shape.shift(), shape.count(), shape.version)
    if options.json:
        told = {"pages": shape.count(), "page_bytes": 1 << shape.shift(), "version": shape.version or writer.version}
        printed.document("precopy imported 1", trace=options.trace, **told, writes=writer.writes)
    return 0


def main(words):
    options = options_of(words)
    try:
        source = traces.bytes_of(sys.stdin) if options.text == "-" else open(options.text, "rb")
        with source, traces.Writer(options.trace) as writer:
            return run(options, source, writer)
    except OSError as fault:
        version.complain("import", traces.told(fault))
        return 1


if __name__ == "__main__":
    sys.exit(main(sys.argv[1:]))
