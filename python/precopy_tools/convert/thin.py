"""Draws pages of a trace, and writes the trace of only these, with NAME.json beside it for tools/predict.

    tools/thin TRACE OUTPUT --one-in 16 [--seed N] [--times COUNT] [--tick 1ms] [--start TICK]

It shows whether a sample plans as the whole does. Pages are drawn without replacement, and numbered in the order that
they had. Bytes and releases stay. If the trace is a sample itself, its unnumbered pages that stay zero are drawn with
the others. OUTPUT ends in .light.pcwt if TRACE does. With --times it draws COUNT times, with one seed after another,
and {} in OUTPUT is replaced by the seed.

The status is 0, 1 if a trace is refused or a file cannot be written, and 2 if the words are refused.
"""

import argparse
import dataclasses
import os
import sys

from precopy_tools import printed, version, words
from precopy_tools.formats import samples, traces
from precopy_tools.refusals import Refused

LIGHT = ".light.pcwt"


def base_of(path: str, trace: traces.Trace, records: list, options: argparse.Namespace) -> samples.Sample:
    """What the trace is a sample of: as NAME.json says, else of itself."""
    if options.record or os.path.exists(samples.path_beside(path)):
        return samples.read(path, trace, [record[:2] for record in records], options.record)
    last = max([options.start, *(record[0] for record in records[-1:])])
    return samples.of_all_pages(path, trace, (options.start, last), options.tick, options.seed)


def write(path: str, trace: traces.Trace, sample: samples.Sample, records: list) -> None:
    with traces.Writer(path) as writer:
        writer.append(records)
        text = writer.seal(trace.shift, sample.trace_pages, trace.version)
        sample = dataclasses.replace(sample, trace_sha256=samples.digest(text))
        with samples.Beside(path) as beside:
            beside.put(sample)
            writer.finish(trace.shift, sample.trace_pages, trace.version)
            beside.finish()


def options_of(given: list[str]) -> argparse.Namespace:
    parser = version.parser("thin", __doc__)
    add = parser.add_argument
    add("trace", metavar="TRACE")
    add("output", metavar="OUTPUT")
    add("--one-in", metavar="N", type=words.count, required=True, help="draw one page in N")
    add("--seed", metavar="N", type=words.seed, default=0, help="of the draw (0)")
    add("--times", metavar="COUNT", type=words.count, default=1, help="draw so often (1)")
    add("--tick", metavar="TIME", type=words.seconds, default=0.001, help="the length of a tick of TRACE (1ms)")
    add("--start", metavar="TICK", type=words.seed, default=0, help="where plans of TRACE begin (0)")
    add("--record", metavar="NAME.json", help="of TRACE, if it is not beside it")
    add("--json", action="store_true", help=printed.JSON_HELP)
    options = parser.parse_args(given)
    if options.trace.endswith(LIGHT) != options.output.endswith(LIGHT):
        parser.error(f"OUTPUT ends in {LIGHT} exactly if TRACE does")
    if options.times > 1 and "{}" not in os.path.basename(options.output):
        parser.error("--times: the name of OUTPUT needs a {} for the seed")
    if "-" in (options.trace, options.output):
        parser.error("both traces are files with a name")
    return options


def main(given: list[str]) -> int:
    options = options_of(given)
    try:
        trace, records = traces.read_file(options.trace)
        base = base_of(options.trace, trace, records, options)
        for seed in range(options.seed, options.seed + options.times):
            sample, kept = samples.thinned(base, records, options.one_in, seed)
            path = options.output.replace("{}", str(seed))
            write(path, trace, sample, kept)
            if options.json:
                drawn = {"sampled_pages": sample.sampled_pages, "trace_writes": len(kept), "seed": seed}
                printed.document("precopy thinned 1", trace=path, of=options.trace, **drawn)
    except (OSError, Refused, traces.Full) as fault:
        version.complain("thin", traces.told(fault))
        return 1
    if options.json:
        return 0
    print(f"{sample.sampled_pages:,} of {base.sampled_pages:,} pages, {len(kept):,} of {trace.writes:,} writes")
    return 0


if __name__ == "__main__":
    sys.exit(printed.run("thin", main, loses=False))
