"""Adds releases to a trace, for each page that is not written for some time.

    tools/release --after TICKS TRACE OUTPUT

A page that is not written for TICKS ticks after a write is released then, if the trace goes on longer. A guest gives
back what it has not used for a while; but no trace shows reads, so a page that the guest still reads may be released
here. OUTPUT has version 2 if a page is released. TRACE and OUTPUT may be -. A refusal of the trace has the program's
name for it (docs/FORMATS.md) and status 1; then there is no output.
"""

import argparse
import heapq
import sys

from precopy_tools import printed, version
from precopy_tools.formats import traces
from precopy_tools.refusals import Refused

# How many writes are handed over together.
BATCH = 4096


def with_releases(records, after):
    """Yields the writes, and in between the releases. Of equal ticks releases come last, by page."""
    last, due = {}, []
    for record in records:
        tick, page, _, data = record
        while due and due[0][0] < tick:
            then, idle = heapq.heappop(due)
            # A page that was written since is due later. One that was released is not due any more.
            if last.get(idle) == then - after:
                del last[idle]
                yield then, idle, 0, b""
        if data and last.get(page) != tick:
            last[page] = tick
            heapq.heappush(due, (tick + after, page))
        elif not data:
            last.pop(page, None)
        yield record


def write_all(records, writer):
    """Hands the writes over in order. Returns how many are releases, and of how many pages."""
    batch, count, pages = [], 0, set()
    for record in records:
        batch.append(record)
        if not record[3]:
            count += 1
            pages.add(record[1])
        if len(batch) == BATCH:
            writer.append(batch)
            batch = []
    writer.append(batch)
    return count, len(pages)


def ticks(word):
    if not word.isdecimal() or not 1 <= int(word) < traces.TICKS:
        raise argparse.ArgumentTypeError(f"{word!r} is not 1 to 2^40 - 1")
    return int(word)


def main(words):
    parser = version.parser("release", __doc__)
    parser.add_argument("trace", metavar="TRACE")
    parser.add_argument("output", metavar="OUTPUT")
    parser.add_argument("--after", metavar="TICKS", type=ticks, required=True, help="how long a page is not written")
    parser.add_argument("--json", action="store_true", help=printed.JSON_HELP)
    options = parser.parse_args(words)
    if options.json and options.output == "-":
        parser.error("--json goes with a file as OUTPUT")
    try:
        trace = traces.read(traces.text_of(options.trace, options.trace == "-"))
        with traces.Writer(options.output) as writer:
            count, pages = write_all(with_releases(trace.records(), options.after), writer)
            writer.finish(trace.shift, trace.pages, max(trace.version, writer.version))
        if options.json:
            told = {"releases": count, "pages": pages, "writes": writer.writes}
            printed.document("precopy releases 1", trace=options.output, **told)
    except Refused as refusal:
        version.complain("release", f"trace {refusal}")
        return 1
    except (traces.Full, OSError) as fault:
        version.complain("release", traces.told(fault))
        return 1
    if not options.json and sys.stderr:
        print(f"{count:,} releases of {pages:,} pages", file=sys.stderr)
    return 0


if __name__ == "__main__":
    sys.exit(main(sys.argv[1:]))
