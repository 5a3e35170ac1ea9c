"""The words of tools/evacuate."""

import argparse
import os

from precopy_tools import places, version, words
from precopy_tools.evacuate import hours, ways
from precopy_tools.evacuate.gathering import OF_COSTS
from precopy_tools.evacuate.ways import Way
from precopy_tools.predict import clark

PROGRAM, SCHEDULER = places.program("precopy-view"), places.helper("precopy-schedule")
PROCESSORS = len(os.sched_getaffinity(0))
KINDS = ("qmp", "virsh")
# What stands for a destination that is not known.
NOWHERE = {"virsh": "DESTINATION", "qmp": "tcp:DESTINATION:{port}"}


def numbers(word: str) -> tuple[int, ...]:
    """How many guests at once: one number, or several with commas."""
    found = tuple(sorted({words.count(part) for part in word.split(",")}))
    if found[-1] > 65_536:
        raise argparse.ArgumentTypeError(f"{word!r}: at most 65,536 at once")
    return found


def add_plan(parser: argparse.ArgumentParser) -> None:
    add = parser.add_argument
    add("records", metavar="RECORD", nargs="+", help="a trace, one a guest, the name of a series, or a file of --costs")
    add("--link", metavar="RATE", type=words.link, required=True, help="of all: 25Gbit, 3GB, 128MiB a second")
    add("--downtime", metavar="TIME", type=words.seconds, default=0.3, help="limit of each guest (300ms)")
    add("--at-once", metavar="K", type=numbers, help="how many at once, and no other numbers; several with commas")
    add("--fluid", action="store_true", help="share the link by those that move, also while fewer do")
    add("--deadline", metavar="TIME", type=words.seconds, help="limit of the whole, as 20m")
    add("--at", metavar="HH:MM", type=hours.clock, help="of series, by the records of this hour in UTC, or of now")
    add("--window", metavar="HH:MM-HH:MM", type=hours.window, help="move within it, and hold guests back until a calm")
    add("--settings", metavar="FILE", help="limits of single guests, in JSON")
    add("--jobs", metavar="N", type=words.count, default=PROCESSORS, help="processes at a time (one a processor)")
    add("--tick", metavar="TIME", type=words.seconds, default=0.001, help="of traces without NAME.json (1ms)")
    add("--program", metavar="PATH", default=PROGRAM, help="the built precopy-view")
    add("--scheduler", metavar="PATH", default=SCHEDULER, help="the built precopy-schedule")


def add_answers(parser: argparse.ArgumentParser) -> None:
    add = parser.add_argument
    add("--costs", action="store_true", help="print the costs of each guest, one line of JSON for each")
    add("--json", metavar="PATH", help="write all answers as JSON; - is standard output, in place of the table")
    add("--picture", metavar="PATH", help="write the best schedule as SVG, and with --run what was beside it")
    add("--lines", choices=KINDS, default="virsh", help="what performs it: libvirt's virsh, or QEMU's monitors (virsh)")
    add("--to", metavar="URI", type=ways.template, help="the destination; {name}, {n} and {port} are each guest's own")
    add("--monitor", metavar="SOCKET", type=ways.template, help="QEMU's monitor of each guest, with the same parts")
    add("--port", metavar="N", type=ways.port, default=ways.FIRST_PORT, help="{port} of the first guest (49152)")


def add_run(parser: argparse.ArgumentParser) -> None:
    add = parser.add_argument
    add("--dry-run", action="store_true", help="print only an executable script, for sh with virsh or for python3")
    add("--run", action="store_true", help="perform the best schedule, and print what was beside what was planned")
    add("--force", action="store_true", help="perform it also if it misses a limit, or if that is not known")
    add("--patience", metavar="TIME", type=words.seconds, help="cancel a guest after so long (3 times planned and 30s)")


def options_of(given: list[str], description: str | None) -> argparse.Namespace:
    parser = version.parser("evacuate", description)
    for add in (add_plan, clark.add_to, add_answers, add_run):
        add(parser)
    options = parser.parse_args(given)
    options.pace = clark.pace_of(parser, options)
    expect_fitting(parser, options)
    for name, path in (("precopy-view", options.program), ("precopy-schedule", options.scheduler)):
        if not os.access(path, os.X_OK):
            parser.error(f"there is no program {path}; {whence(name)}")
    options.way = Way(options.monitor or "", options.to or ("" if options.run else NOWHERE[options.lines]))
    return options


def expect_fitting(parser: argparse.ArgumentParser, options: argparse.Namespace) -> None:
    """Refuses words that do not go together."""
    if options.costs and not options.at_once:
        parser.error("--costs needs --at-once: the numbers at once whose costs are wanted")
    if options.at is not None and options.window:
        parser.error("--at and --window are two things: take one")
    if options.costs and options.window:
        parser.error("--costs goes without --window: what is held back is not known of costs alone")
    if options.fluid:
        expect_fluid(parser, options)
    if options.costs + options.dry_run + options.run > 1:
        parser.error("--costs, --dry-run and --run are three things: take one")
    if options.run and options.json == "-":
        parser.error("--run prints what it does: --json needs the name of a file")
    if (options.force or options.patience) and not options.run:
        parser.error("--force and --patience go with --run")
    if options.monitor and options.lines != "qmp":
        parser.error("--monitor goes with --lines qmp: libvirt has the monitors of its guests")


def expect_fluid(parser: argparse.ArgumentParser, options: argparse.Namespace) -> None:
    """Refuses words that do not go with shares that change."""
    for name, why in (
        ("clark", "rounds go over a link that does not change"),
        ("window", "waits are planned by shares that stay"),
        ("costs", "a share hangs on all guests, and costs are of one"),
        ("dry_run", "a script does not change shares; --run does"),
    ):
        if getattr(options, name):
            parser.error(f"--fluid goes without --{name.replace('_', '-')}: {why}")
    if files := [path for path in options.records if path.endswith(OF_COSTS)]:
        parser.error(f"--fluid needs records, and {files[0]} has costs of shares that stay")


def whence(name: str) -> str:
    built = "dev/build precopy_schedule builds it"
    return built if name == "precopy-schedule" and not version.IS_INSTALLED else version.whence(name)
