"""Watches all guests of a host: records each of them in segments, and predicts after each what its migration will be.

    tools/watch --textfile /var/lib/prometheus/node-exporter/precopy.prom
    tools/watch --monitors '/run/qemu/*.qmp' --limits limits.toml --textfile precopy.prom --output guests

The guests are those of libvirt, or with --monitors those of QEMU whose monitors have sockets of such names; each is
called as its socket, and as FOLDER-NAME if others have its NAME. Each guest is a series, NAME.light.pcwt in the folder
of --output, as tools/record --segment writes it, for tools/predict and tools/evacuate. Guests that come are recorded
from then on, and those that go are told no more. What is known of all of them is written to --textfile, for the
textfile collector of Prometheus' node exporter.

The limits are a file of TOML, which is read again when it changes:

    [default]
    link = "10Gbit"
    downtime = "300ms"

    [guests.db-a]
    downtime = "100ms"
    time = "2m"

    [guests.scratch]
    watch = false

`link` is the rate at which pages of a guest are sent, `downtime` and `time` are the most that its migration may take,
and a guest with `watch = false` is left alone. What a guest does not say is that of `default`, which needs a link.

Looks and predictions take at most --processor of a processor: if looks cost more, by the last records, their interval
becomes longer, and the next records say so. Setting a guest up takes a moment more. While a guest is recorded, no
post-copy migration and no background snapshot of it can begin.

The status is 0 if SIGINT, SIGTERM or SIGHUP ends it, 1 if it cannot begin, and 2 if the words are refused.
"""

import argparse
import os
import signal
import sys

from precopy_tools import places, printed, version, words
from precopy_tools.formats import samples, traces
from precopy_tools.record.looking import Stopping
from precopy_tools.refusals import Refused
from precopy_tools.watch import limits as host_limits
from precopy_tools.watch.hosts import Libvirt, Monitors
from precopy_tools.watch.service import Asked, Service

PROGRAM = places.program("precopy-view")
LIMITS, OUTPUT = "/etc/precopy/limits.toml", "/var/lib/precopy"


def share(word: str) -> float:
    """A share of a processor, from 0.01 to 64."""
    try:
        found = float(word)
    except ValueError:
        found = 0.0
    if not 0.01 <= found <= 64:
        raise argparse.ArgumentTypeError(f"{word!r} is no number of processors from 0.01 to 64")
    return found


def parser_of() -> argparse.ArgumentParser:
    parser = argparse.ArgumentParser(
        prog="watch", description=__doc__, formatter_class=argparse.RawDescriptionHelpFormatter, allow_abbrev=False
    )
    version.add_to(parser)
    add = parser.add_argument
    add("--textfile", metavar="PATH", required=True, help="what is known of all guests, for Prometheus")
    add("--limits", metavar="FILE", default=LIMITS, help=f"limits of all guests and of single ones ({LIMITS})")
    add("--output", metavar="FOLDER", default=OUTPUT, help=f"where the records are ({OUTPUT})")
    add("--monitors", metavar="PATTERN", help="sockets of QEMU's monitors, as '/run/qemu/*.qmp', in place of libvirt")
    add("--pages", metavar="M", type=words.count, default=4096, help="draw M pages of each guest (4096)")
    add("--by", choices=("writes", "values"), help="ask the kernel for writes, or compare values (writes if it can be)")
    add("--every", metavar="TIME", type=words.seconds, default=0.2, help="the least interval of looks (200ms)")
    add("--segment", metavar="TIME", type=words.seconds, default=600.0, help="how long a record is (10m)")
    add("--keep", metavar="N", type=words.count, default=144, help="of each guest, keep the last N records (144)")
    add("--look", metavar="TIME", type=words.seconds, default=10.0, help="look for guests and write so often (10s)")
    add("--processor", metavar="SHARE", type=share, default=0.5, help="of a processor, take at most so much (0.5)")
    add("--program", metavar="PATH", default=PROGRAM, help="the built precopy-view")
    return parser


def options_of(given: list[str]) -> argparse.Namespace:
    parser = parser_of()
    options = parser.parse_args(given)
    if options.pages > samples.MOST_PAGES:
        parser.error(f"--pages: a trace has at most {samples.MOST_PAGES:,} pages")
    if options.segment < max(1.0, 4 * options.every):
        parser.error("--segment is 1s or more, and four intervals")
    if not options.textfile.endswith(".prom"):
        parser.error("--textfile: a collector reads only names that end in .prom")
    if not os.path.isdir(options.output):
        parser.error(f"--output: there is no folder {options.output}")
    if not os.access(options.program, os.X_OK):
        parser.error(f"there is no program {options.program}; {version.whence('precopy-view')}")
    return options


def asked_of(options: argparse.Namespace) -> Asked:
    drawn = ["--pages", str(options.pages), "--segment", words.given_time(options.segment), "--keep", str(options.keep)]
    return Asked(
        options.program,
        os.path.abspath(options.output),
        options.textfile,
        [*drawn, *(["--by", options.by] if options.by else [])],
        options.pages,
        options.every,
        options.segment,
        options.look,
        options.processor,
    )


def watch(options: argparse.Namespace) -> int:
    limits = host_limits.File(options.limits)
    host = Monitors(options.monitors) if options.monitors else Libvirt()
    Service(host, limits, asked_of(options), Stopping(signal.SIGHUP)).run()
    return 0


def main(given: list[str]) -> int:
    options = options_of(given)
    try:
        return watch(options)
    except (OSError, Refused) as fault:
        version.complain("watch", traces.told(fault))
        return 1


if __name__ == "__main__":
    sys.exit(printed.run("watch", main, loses=False))
