"""Records the memory of a running guest as a trace: of all its pages, or of a sample of them.

    tools/record                                                        the guests that it sees, and how to say one
    tools/record --qmp SOCKET --pages 16384 --for 60s NAME.light.pcwt   which of 16,384 drawn pages are written
    tools/record --domain NAME --pages 16384 --for 60s NAME.light.pcwt  the same of a guest of libvirt
    tools/record --file PATH --for 12s [options] OUTPUT                 all pages of a file, with their bytes
    tools/record --pid PID --for 12s [options] OUTPUT                   all pages of a process
    tools/record --qmp SOCKET --for 24h --segment 10m --keep 6 NAME.light.pcwt      a series, over hours

--qmp asks QEMU where the guest's memory is: all of its nodes, what was plugged in, and nothing else. --domain does so
through virsh, with the environment of virsh (LIBVIRT_DEFAULT_URI). Both refuse what does not sum to what QEMU says.
--pid alone takes what may be a guest's memory. What can be executed, stacks and libraries never are. --mapping says
which mappings, as often as needed: all, largest, a file, or BEGIN-END as in /proc/PID/maps. The largest is refused if
another one is an eighth of it or more. --memory refuses what does not sum to it.

Each interval has one record for each page that was written. Tick 0 is the guest as it was found, and the intervals
begin at tick 1000. Without --for it goes on until SIGINT, SIGTERM, SIGHUP, the end of the guest or a limit of traces.
Any of --pages, --one-in, --by, --scan, --mapping and --seed makes it record drawn pages, and so does an OUTPUT that
ends in .light.pcwt, without --light and --compact. Then NAME.json is written beside the trace, for tools/predict.

With --segment each such time has a trace of its own, NAME.20261127T030000Z.light.pcwt by when it began in UTC, with
its .json. One that is full is followed by the next at once; what is written between two is in the later one. --keep
keeps the last ones. A recorder that is killed loses the segment that it was writing, and the next one removes its
unfinished files. docs/REAL-GUESTS.md has the recipes.

The status is 0 if the trace is as long as asked, and 3 if a limit of traces ended it, or a full disk ended a series: it
is whole in these cases. It is 1 if there is no trace, or no file that --image or --map names, and 2 if the words are
refused.
"""

import argparse
import contextlib
import itertools
import math
import resource
import shlex
import signal
import sys
import time

from precopy_tools import printed, version, words
from precopy_tools.formats import samples, traces
from precopy_tools.predict import plans
from precopy_tools.qemu import qmp
from precopy_tools.quantities import micros_of, size_text, time_text
from precopy_tools.record import documents, guests, looking, memory, series, sources
from precopy_tools.record.pagemap import Unavailable
from precopy_tools.record.sampled import SampledGuest, SampleRecorder
from precopy_tools.record.ticks import FIRST
from precopy_tools.record.whole import WholeRecorder

SEEN_ONCE = "not seen: all but one of several writes to a page within an interval"
NOT_SEEN = f"""{SEEN_ONCE}
not seen: a write of the value that stood there already, and a value that is back at the next sample
not seen, and yet sent by a hypervisor: the plan predicts too little for a guest that writes so"""
PREDICT = version.called("predict")
LIGHT_NAME = "the name of a light trace ends in .light.pcwt, and that of no other does"
SAMPLING = ("pages", "one_in", "by", "scan", "mapping", "seed", "segment")


class WordsRefused(Exception):
    """The words do not fit the guest."""


def write_beside(path, parts):
    with traces.Pending(path) as file:
        for part in parts:
            file.write(part)
        file.finish()


def map_lines(recorder):
    for number, count, place in recorder.places():
        yield f"{number} {count} {place:#x}\n".encode()


def told_time(seconds):
    return time_text(micros_of(seconds))


def tell(recorder, options, standing, share):
    """What was recorded, what it cost, what was not seen, and the options that go with it."""
    used = resource.getrusage(resource.RUSAGE_SELF)
    writer, times = recorder.writer, recorder.times[1:] or recorder.times
    sizes = f"{recorder.pages():,} pages, {writer.writes:,} writes, {writer.size:,} bytes"
    print(f"trace: {sizes}, ticks 0 to {recorder.last}")
    each = f"{told_time(sum(times) / len(times))} each, {told_time(max(times))} the longest"
    size = size_text(used.ru_maxrss << 10)
    print(f"cost: {recorder.samples} samples, {each}; {share:.2f} of a processor, {size}")
    if recorder.late:
        print(f"late: {recorder.late} of them began more than half an interval after their time: take a longer --every")
    if options.qmp and not options.is_sampled:
        first, last = map(told_time, standing)
        print(f"the guest stood still for {first} at first and {last} at last")
    if options.light:
        print("light: each write has one byte of its own. The image of this trace is not the guest's memory.")
    print(SEEN_ONCE if options.is_sampled and recorder.method == "writes" else NOT_SEEN)
    tell_plan(recorder, options)


def tell_sample(recorder):
    """Of what a sample is taken, and how."""
    guest = recorder.guest
    print(f"sample: {len(guest.numbers):,} of {guest.count:,} pages, by {recorder.method}, seed {guest.seed}")
    part = f"of {recorder.counted:,} pages counted"
    print(f"guest: about {recorder.nonzero:,} pages are not zero, {part}; {recorder.first_nonzero:,} of the sample")
    if recorder.cause:
        print(f"by values, since writes cannot be followed: {recorder.cause}", flush=True)


def tell_if_short(recorder, options, rate):
    """A plan that goes on after the end of its recording is no prediction."""
    first = (plans.end_of_first_round(FIRST, recorder.pages(), rate) - FIRST) * options.tick
    length = (recorder.last - FIRST) * options.tick
    if first > length:
        at = f"at {words.given_rate(options.bandwidth)} a second the first round takes {told_time(first)}"
        print(f"short: {at}, and this recording took {told_time(length)}: record longer")


def tell_plan(recorder, options):
    """How to go on: the options of a plan, or of drawn pages the command that predicts."""
    weight = recorder.weight() if options.is_sampled else 1.0
    plan = plans.settings_of(options.bandwidth, options.downtime, options.tick, weight)
    if options.is_sampled:
        limits = f"--link {words.given_rate(options.bandwidth)} --downtime {words.given_time(options.downtime)}"
        print(f"next: {PREDICT} {shlex.quote(options.output)} {limits}, or what the migration will have")
    elif 1 <= plan.rate <= plans.MOST_RATE:
        if not options.compact:
            print("plan: pages that were never written count in full; --compact leaves them out")
        print(f"plan: {' '.join(plan.words(FIRST))}")
    else:
        print(f"plan: none, since {plan.rate} pages per 1,000 ticks are no rate: take a longer --tick")
    if plan.rate:
        tell_if_short(recorder, options, plan.rate)


def parser_of():
    parser = version.parser("record", __doc__)
    source = parser.add_mutually_exclusive_group()
    source.add_argument("--file", metavar="PATH", help="record this file, a guest's shared memory")
    source.add_argument("--pid", metavar="PID", type=words.process, help="record this process")
    source.add_argument("--domain", metavar="NAME", help="record this guest of libvirt")
    drawn = parser.add_mutually_exclusive_group()
    drawn.add_argument("--pages", metavar="M", type=words.count, help="draw M pages (16384)")
    drawn.add_argument("--one-in", metavar="N", type=words.count, help="draw one page in N")
    add = parser.add_argument
    add("output", metavar="OUTPUT", help="the trace; it gets this name when it is whole")
    add("--by", choices=("writes", "values"), help="ask the kernel for writes, or compare values (writes if it can be)")
    add("--scan", choices=("whole", "pages"), help="survey all memory, or ask for each drawn page (survey near ones)")
    add("--mapping", metavar="WHICH", action="append", help="of a process: all, largest, a file, or BEGIN-END (all)")
    add("--memory", metavar="SIZE", type=words.memory, help="what is taken has to sum to this, as 64G or 512M")
    add("--seed", metavar="N", type=words.seed, help="of the draw, to have the same pages again")
    add("--every", metavar="TIME", type=words.seconds, default=0.1, help="the interval of samples (100ms)")
    add("--for", metavar="TIME", type=words.seconds, dest="length", help="how long to record")
    add("--segment", metavar="TIME", type=words.seconds, help="write a series, a trace for each such time (from 1s)")
    add("--keep", metavar="N", type=words.count, help="of a series, keep the last N traces")
    add("--tick", metavar="TIME", type=words.seconds, default=0.001, help="the length of a tick (1ms)")
    add("--spread", action="store_true", help="spread the ticks of a sample over its interval")
    add("--compact", action="store_true", help="leave out pages that are never written; others by their first write")
    add("--light", action="store_true", help="one byte a write, only for reports; OUTPUT ends in .light.pcwt")
    add("--image", metavar="PATH", help="the last memory of the trace's pages, beside the trace")
    add("--map", metavar="PATH", help="lines of a page, how many follow on, and where they are in the source")
    add("--qmp", metavar="SOCKET", help="ask this QEMU for its memory; if all is recorded, pause it at first and last")
    add("--json", action="store_true", help="print a line of JSON for the trace, or for each segment, in place of text")
    add("--bandwidth", metavar="RATE", type=words.rate, default=128 << 20, help="a second (128MiB)")
    add("--downtime", metavar="TIME", type=words.seconds, default=0.3, help="limit (300ms)")
    for name, most in zip(("--limit-writes", "--limit-bytes", "--limit-pages"), traces.Limits()):
        add(name, type=int, default=most, help=argparse.SUPPRESS)
    return parser


def expect_one_process(given, refuse):
    """`--pid $(pidof NAME)` has no number if there is no process, and several if there are more."""
    for at, word in enumerate(given):
        if word == "--pid":
            numbers = list(itertools.takewhile(str.isdigit, given[at + 1 :]))
            following = given[at + 1 : at + 2]
            if len(numbers) > 1 or following == [""] or following and following[0].startswith("--"):
                refuse(f"--pid: {len(numbers) or 'no'} processes, and it takes one")


def refuse_source(text):
    """Ends with the guests that could be said."""
    version.complain("record", f"{text}\n{guests.listed()}")
    sys.exit(2)


def options_of(given):
    parser = parser_of()
    expect_one_process(given, refuse_source)
    options = parser.parse_args(given)
    if not (options.file or options.pid or options.domain or options.qmp):
        refuse_source("say what to record: --qmp SOCKET, --domain NAME, --pid PID or --file PATH")
    if options.mapping and (options.file or options.domain or options.qmp):
        parser.error("--mapping goes with --pid alone: a file has no mappings, and QEMU tells which ones they are")
    if options.domain and options.qmp:
        parser.error("--domain has the monitor of libvirt: leave out --qmp")
    if "-" in (options.output, options.image, options.map):
        parser.error("a trace, an image and a map are files with a name")
    is_named = is_light_name(options) and not options.light and not options.compact
    options.is_sampled = is_named or any(getattr(options, name) is not None for name in SAMPLING)
    if options.is_sampled:
        sampled_options(options, parser.error)
    if options.segment and (options.segment < max(1, 2 * options.every) or options.map):
        parser.error("--segment is 1s or more, and two intervals, and goes without --map")
    if options.keep and not options.segment:
        parser.error("--keep goes with --segment")
    if options.light and options.image:
        parser.error("a light trace has no image: leave out --image or --light")
    if options.light and not is_light_name(options):
        parser.error(LIGHT_NAME)
    rate = plans.settings_of(options.bandwidth, options.downtime, options.tick).rate
    if not options.is_sampled and not 1 <= rate <= plans.MOST_RATE:
        parser.error(f"--bandwidth: {rate} pages per 1,000 ticks are not 1 to {plans.MOST_RATE}: change --tick")
    return options


def is_light_name(options):
    return options.output.endswith(".light.pcwt")


def sampled_options(options, refuse):
    """What a recording of drawn pages is always: light, of the pages written, with ticks over the interval."""
    options.light = options.compact = options.spread = True
    if options.qmp and options.file:
        refuse("drawn pages of a file need no pause of the guest: leave out --qmp")
    if options.image:
        refuse("drawn pages have no image: leave out --image")
    if options.pages and options.pages > samples.MOST_PAGES:
        refuse(f"--pages: a trace has at most {samples.MOST_PAGES:,} pages")
    if options.file and options.by == "writes":
        refuse("--by writes needs a process: a file does not tell who writes to it")


def recorder_of(options, writer):
    """The recorder of drawn pages or of all. It draws if all pages are more than a trace has."""
    source = sources.source_of(options)
    print("\n".join(source.told), flush=True)
    if options.is_sampled:
        return SampleRecorder(SampledGuest(options, source), writer, options)
    whole = source.opened()
    pages = sum(end - begin for begin, end in whole.ranges()) // memory.PAGE
    if options.compact or pages <= samples.MOST_PAGES:
        if is_light_name(options) and not options.light:
            raise WordsRefused(f"{LIGHT_NAME}: --light leaves bytes out, and without --compact pages are drawn")
        return WholeRecorder(whole, writer, options)
    if not is_light_name(options):
        raise WordsRefused(
            f"{pages:,} pages are more than the {samples.MOST_PAGES:,} of a trace, so pages are drawn. "
            f"{LIGHT_NAME}. --compact tries all pages that are not zero"
        )
    options.is_sampled = True
    sampled_options(options, refused)
    return SampleRecorder(SampledGuest(options, source), writer, options)


def refused(text):
    raise WordsRefused(text)


def record(options, writer, stopping, told):
    recorder = recorder_of(options, writer)
    with contextlib.ExitStack() as stack:
        stack.enter_context(contextlib.closing(recorder))
        beside = stack.enter_context(samples.Beside(options.output)) if options.is_sampled else None
        standing, begun = looking.first(recorder, options)
        tell_first(recorder)
        spent = time.process_time()
        end = begun + options.length if options.length else math.inf
        stood, ended_by = looking.go_on(recorder, options, stopping, begun, end)
        share = (time.process_time() - spent) / max(time.monotonic() - begun, 1e-9)
        finish(recorder, writer, beside)
    looking.hide()
    tell(recorder, options, (standing, stood), share)
    if options.is_sampled and recorder.still:
        print(recorder.still)
    if options.is_sampled and sources.has_changed(options, recorder.guest.source):
        print("memory: the guest has other memory now than when it was asked: what was plugged in is not recorded")
    told(**documents.of_recording(options.output, recorder, ended_by))
    if ended_by is not None:
        version.complain("record", f"ended with the sample at tick {recorder.last}: {cause_of(ended_by)}")
    if options.image:
        write_beside(options.image, recorder.image())
    if options.map:
        write_beside(options.map, map_lines(recorder))
    return 3 if isinstance(ended_by, traces.Full) else 0


def finish(recorder, writer, beside):
    """Gives the trace its name, and with drawn pages the file beside it, which is there first."""
    if beside is not None:
        beside.put(recorder.sample(writer.seal(memory.SHIFT, recorder.pages())))
        beside.finish()
    writer.finish(memory.SHIFT, recorder.pages())


def record_series(options, limits, stopping, told):
    """Segments until the time is over, or one cannot be followed by another."""

    def tell(recorder, path=None, ended_by=None):
        """What is known after the first look, or of a segment that is whole."""
        if path is None:
            tell_first(recorder)
        else:
            told(**documents.of_recording(path, recorder, ended_by))

    recording = series.Recording(options, limits, stopping, lambda writer: recorder_of(options, writer), tell)
    ended_by = recording.run()
    looking.hide()
    if ended_by is not None:
        version.complain("record", f"the series ended after {recording.count} segments: {cause_of(ended_by)}")
    return 3 if isinstance(ended_by, (traces.Full, OSError, MemoryError)) else 0


def tell_first(recorder):
    """What is known after the first look."""
    if isinstance(recorder, SampleRecorder):
        tell_sample(recorder)
    print(f"recording {recorder.guest_pages():,} pages", flush=True)


def cause_of(fault):
    return "memory ran out" if isinstance(fault, MemoryError) else traces.told(fault)


def recorded(options, limits, told):
    """Records a series, or one trace."""
    stopping = looking.Stopping(signal.SIGHUP)
    if options.segment:
        return record_series(options, limits, stopping, told)
    with traces.Writer(options.output, limits) as writer:
        writer.expect_alone()
        return record(options, writer, stopping, told)


def main(given):
    if not given:
        print(guests.listed())
        return 0
    options = options_of(given)
    try:
        limits = traces.Limits(options.limit_writes, options.limit_bytes, options.limit_pages)
        with printed.silent(options.json) as told:
            return recorded(options, limits, told)
    except WordsRefused as fault:
        version.complain("record", fault)
        return 2
    except (OSError, ValueError, MemoryError, Unavailable, traces.Full, traces.Busy, memory.Gone, qmp.Fault) as fault:
        version.complain("record", cause_of(fault))
        return 1


if __name__ == "__main__":
    sys.exit(printed.run("record", main, loses=False))
