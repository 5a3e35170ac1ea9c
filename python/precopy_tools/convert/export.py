"""Writes a trace as text: a line `pages N size Z`, and a line `tick page offset hexbytes` for each write.

    tools/export TRACE TEXT

For a trace of version 2 the first line ends in `version 2`, and a line `tick page release` is a released page. TRACE
and TEXT may be -. tools/import makes the same trace from the text again, byte for byte. A refusal of the trace has the
program's name for it (docs/FORMATS.md) and status 1; then there is no text.
"""

import itertools
import sys

from precopy_tools import printed, version
from precopy_tools.formats import traces
from precopy_tools.refusals import Refused

BATCH = 1024


def lines_of(text):
    trace = traces.read(text)
    version = "" if trace.version == traces.PLAIN else f" version {trace.version}"
    yield f"pages {trace.pages} size {trace.size}{version}\n"
    for tick, page, offset, data in trace.records():
        yield f"{tick} {page} {offset} {data.hex()}\n" if data else f"{tick} {page} release\n"


def write_all(lines, file):
    while batch := "".join(itertools.islice(lines, BATCH)):
        file.write(batch.encode())
    file.finish()


def main(words):
    parser = version.parser("export", __doc__)
    parser.add_argument("trace", metavar="TRACE")
    parser.add_argument("text", metavar="TEXT")
    parser.add_argument("--json", action="store_true", help=printed.JSON_HELP)
    options = parser.parse_args(words)
    if options.json and options.text == "-":
        parser.error("--json goes with a file as TEXT")
    try:
        text = traces.text_of(options.trace, options.trace == "-")
        with traces.Pending(options.text) as file:
            write_all(lines_of(text), file)
        if options.json:
            trace = traces.read(text)
            told = {"pages": trace.pages, "page_bytes": trace.size, "version": trace.version, "writes": trace.writes}
            printed.document("precopy exported 1", text=options.text, **told)
    except Refused as refusal:
        version.complain("export", f"trace {refusal}")
        return 1
    except OSError as fault:
        version.complain("export", traces.told(fault))
        return 1
    return 0


if __name__ == "__main__":
    sys.exit(main(sys.argv[1:]))
