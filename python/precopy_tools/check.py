"""Checks the streams of a migration against the trace of its guest, and tells what is wrong first.

    tools/check TRACE STREAM.. [--tick TICK | --after WRITES]

A STREAM is a file of the frames that came over one connection, in order (docs/FORMATS.md). The guest was stopped before
TICK, or after so many writes of TRACE, or else after all of them. Each frame must have the bytes of its page at its
stamp, and no frame of a page may follow a newer one in its stream. At the end each page must have come as it was at the
stop. Of a page that lacks a write the first such write is told. It needs the library for Python (docs/LIBRARY.md).

The status is 0 if all is right, 3 if something is wrong, 1 if TRACE is refused or a file cannot be read, and 2 if the
words are refused or the library is not there.
"""

import argparse
import sys

from precopy_tools import printed, version, words
from precopy_tools.formats import traces

WRONG, PIECE = 3, 1 << 20


def options_of(given: list[str]) -> argparse.Namespace:
    parser = version.parser("check", __doc__)
    parser.add_argument("trace", metavar="TRACE")
    parser.add_argument("streams", metavar="STREAM", nargs="+")
    stops = parser.add_mutually_exclusive_group()
    stops.add_argument("--tick", metavar="TICK", type=words.seed, help="the tick of the stop")
    stops.add_argument("--after", metavar="WRITES", type=words.seed, help="how many writes come before the stop")
    return parser.parse_args(given)


def checked(check, paths: list[str]):
    """What is wrong first in the streams, which may be longer than memory: each is read in pieces, until it is over or
    something is wrong in it."""
    for number, path in enumerate(paths):
        with open(path, "rb") as file:
            while (piece := file.read(PIECE)) and not check.take(number, piece):
                pass
        check.end_stream(number)
    return check.finish()


def main(given: list[str]) -> int:
    options = options_of(given)
    try:
        import precopy  # noqa: PLC0415
    except (ImportError, OSError) as fault:
        version.complain("check", f"the library for Python is not there: {fault}")
        return 2
    try:
        opened = precopy.OpenTrace(traces.text_of(options.trace))
        writes = opened.writes
        after = writes if options.after is None else min(options.after, writes)
        stop = after if options.tick is None else opened.writes_before(options.tick)
        found = checked(opened.check(stop), options.streams)
    except (OSError, precopy.Refused) as fault:
        version.complain("check", str(fault))
        return 1
    if found:
        print(f"{found.place}: {found}")
        return WRONG
    print(f"all is right at the stop, after {stop:,} of {writes:,} writes")
    return 0


if __name__ == "__main__":
    sys.exit(printed.run("check", main, loses=False))
