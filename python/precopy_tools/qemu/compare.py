"""Predicts the migration of a guest from its recorded memory, migrates it with QEMU, and shows both.

    tools/compare-qemu [options] WORKLOAD                     a guest of 128 MiB, of which all pages are recorded
    tools/compare-qemu --memory 2G [options] WORKLOAD         a larger one, of which 16,384 pages are recorded
    tools/compare-qemu --memory 2G --workload SCRIPT --add FILE ..         the same with a workload of your own

It boots a guest, records it by tools/record, and plans a migration with a bandwidth and a downtime limit: by the rounds
of `precopy report`, or for a larger guest by a hypervisor's looks, as `precopy-view` does. Then QEMU migrates the same
guest to a second process of QEMU over a local socket, with the same two limits. The memory of both is compared. A
larger guest is planned twice: with the bandwidth that was asked for, and with the one that QEMU reached. With
--hindsight the guest is recorded again while QEMU migrates it, and a third plan is made of that: the difference is what
the guest itself changed.
docs/REAL-GUESTS.md says which packages it needs, and where the model and QEMU differ.

Workloads grow with memory and bandwidth:

    idle      fills memory, and rests
    slow      800 writes a second to 1,024 hot pages in random order, 100 to 12,288 others in turn
    mid       4,000 a second to the hot pages, 2,000 to the others; same writes the bytes that are already there
    fast      16,000 a second to 4,096 hot pages, 8,000 to 8,192 others
    shell     dd, gzip and sort over and over, on files in memory
    sqlite    updates of random rows of a database in memory

--workload names a shell script for the guest's busybox. It prints READY when it has begun, and does not end. --add, as
often as needed, puts a file into the guest's /bin, a program with the libraries that it needs. --numa gives the guest
several nodes, --qemu-options are for both processes of QEMU, and --multifd, --compress and --auto-converge are QEMU's
capabilities.

The status is 0 if the migration ended and both memories are equal, 3 if it did not end and was cancelled, 1 if
something failed, and 2 if the words are refused.
"""

import dataclasses
import os
import re
import shlex
import signal
import subprocess
import sys
import tempfile
import time

from precopy_tools import places, printed, version, words
from precopy_tools.formats import samples, traces
from precopy_tools.predict import plans
from precopy_tools.predict.forecast import Link, forecast_of
from precopy_tools.qemu import guest, migration, qmp
from precopy_tools.quantities import micros_of, time_text
from precopy_tools.record import memory
from precopy_tools.record.ticks import FIRST

RECORD = os.path.join(version.TOP, "tools", "record")
PROGRAM, VIEW = places.program(), places.program("precopy-view")
SHELL = """\
echo READY
while :; do
    dd if=/dev/urandom of=/tmp/data bs=1k count=1024 2> /dev/null
    gzip -c /tmp/data > /tmp/data.gz
    od -An -x /tmp/data | head -n 20000 | sort > /tmp/sorted
done
"""
SQLITE = """\
sqlite3 /tmp/db 'PRAGMA synchronous=OFF; CREATE TABLE t(id INTEGER PRIMARY KEY, value BLOB);
    WITH RECURSIVE n(i) AS (SELECT 1 UNION ALL SELECT i + 1 FROM n WHERE i < ROWS)
    INSERT INTO t SELECT i, randomblob(1000) FROM n;'
echo READY
while :; do
    echo 'WITH RECURSIVE n(i) AS (SELECT 1 UNION ALL SELECT i + 1 FROM n WHERE i < 40)
        UPDATE t SET value = randomblob(1000) WHERE id IN (SELECT 1 + abs(random()) % ROWS FROM n);'
    usleep 20000
done | sqlite3 -cmd 'PRAGMA synchronous=OFF; PRAGMA journal_mode=MEMORY' /tmp/db
"""
# A program's words are: hot pages, writes a second to them, cold pages, writes a second to them.
WRITERS = {
    "idle": (0, 0, 12288, 0),
    "slow": (1024, 800, 12288, 100),
    "mid": (1024, 4000, 12288, 2000),
    "fast": (4096, 16000, 8192, 8000),
    "same": (1024, 4000, 12288, 2000),
}
WORKLOADS = [*WRITERS, "shell", "sqlite"]
# Without KVM, QEMU's software TLB becomes smaller only when another process of the guest runs. A large one is searched
# for each dirty page, and the guest stands still.
OTHER_PROCESS = "while :; do sleep 0.2; done &\n"
FULLER = 5 / 3


def workload_of(options):
    """The shell script of a workload: of a larger guest more cold pages, and with a faster link more writes."""
    if options.script:
        with open(options.script, encoding="utf-8") as file:
            return file.read()
    larger, faster = 1.0, 1.0
    if options.is_sampled:
        larger, faster = options.memory / guest.MEMORY, options.bandwidth / (32 << 20)
    if options.workload == "sqlite":
        return SQLITE.replace("ROWS", str(int(25_000 * larger)))
    if options.workload == "shell":
        return SHELL
    hot, hot_rate, cold, cold_rate = WRITERS[options.workload]
    # A larger guest is fuller: its kernel takes a smaller part of it.
    numbers = hot * faster, hot_rate * faster, cold * larger * FULLER ** (larger > 1), cold_rate * faster
    same = " same" if options.workload == "same" else ""
    other = OTHER_PROCESS if options.is_sampled else ""
    return f"{other}exec guest-writer {' '.join(str(int(number)) for number in numbers)}{same}\n"


def set_capabilities(client, options):
    """What both processes are to do alike: how pages are sent."""
    wanted = {
        "multifd": bool(options.multifd),
        "compress": options.compress and not options.multifd,
        "auto-converge": options.auto_converge,
    }
    asked = [{"capability": name, "state": True} for name, is_wanted in wanted.items() if is_wanted]
    if asked:
        client.ask("migrate-set-capabilities", capabilities=asked)
    if options.multifd:
        method = "zlib" if options.compress else "none"
        client.ask("migrate-set-parameters", multifd_channels=options.multifd, multifd_compression=method)


def recorder(source, options, trace, length):
    """The command that records the guest."""
    if options.is_sampled:
        command = [RECORD, "--qmp", source.socket, "--by", options.by, "--pages", str(options.pages)]
    else:
        command = [RECORD, "--file", source.memories[0], "--qmp", source.socket, "--compact", "--spread"]
        command += ["--light"] if options.light else []
    command += ["--every", words.given_time(options.every), "--for", words.given_time(length)]
    limits = ["--bandwidth", words.given_rate(options.bandwidth), "--downtime", words.given_time(options.downtime)]
    return [*command, *limits, trace]


def record(source, options, folder):
    """Records the guest. Returns the trace, and what the recorder said."""
    trace = options.keep or os.path.join(folder, "guest.light.pcwt" if options.light else "guest.pcwt")
    done = subprocess.run(recorder(source, options, trace, options.length), stdout=subprocess.PIPE, text=True)
    if done.returncode not in (0, 3):
        raise guest.Failed("the guest was not recorded")
    print(done.stdout, end="", flush=True)
    return trace, done.stdout


class Again:
    """A second recording, while QEMU migrates the guest."""

    def __init__(self, source, options, folder):
        self.trace = os.path.join(folder, "again.light.pcwt")
        command = recorder(source, options, self.trace, options.patience + 60)
        self.process = subprocess.Popen(command, stdout=subprocess.PIPE, text=True)
        for line in self.process.stdout:
            if line.startswith("recording "):
                break
        self.begun = time.monotonic()

    def end(self):
        self.process.send_signal(signal.SIGINT)
        self.process.communicate()
        if self.process.returncode not in (0, 3):
            raise guest.Failed("the guest was not recorded while it was migrated")

    def forecast(self, options, begun):
        """Of the migration, from where it began in the recording. The guest that has moved stands still, so its
        recording goes on without a write."""
        forecast = forecast_of(options.view, self.trace)
        forecast.sample = dataclasses.replace(forecast.sample, last_tick=2 * forecast.sample.last_tick)
        forecast.begin_after(begun - self.begun)
        return forecast


def whole_plan(options, trace, said):
    """What the recorder's line of options plans, and the last tick of the trace."""
    words_of_plan = re.search(r"^plan: (--start .*)$", said, re.M)[1].split()
    settings = plans.Settings(*(int(words_of_plan[words_of_plan.index(name) + 1]) for name in ("--min", "--threshold")))
    with open(trace, "rb") as file:
        plan = plans.report(options.program, file.read(), settings, FIRST)
    return plan, int(re.search(r"ticks 0 to (\d+)", said)[1])


def row(name, predicted, real, compared=True):
    apart = ""
    if compared and predicted and real:
        apart = f"{100 * (predicted - real) / real:+.1f} %"
    print(f"{name:24}{cell(predicted):>12}{cell(real):>12}{apart:>10}")


def called(options):
    """The workload, and what differs from QEMU's defaults."""
    told = [options.workload or os.path.basename(options.script)]
    told += [f"{options.numa} nodes"] if options.numa > 1 else []
    told += [f"multifd {options.multifd}"] if options.multifd else []
    told += ["compressed"] if options.compress else []
    told += ["auto-converge"] if options.auto_converge else []
    return ", ".join(told)


def cell(value):
    return "-" if value is None else f"{value:,}" if isinstance(value, int) else value


def show_whole(options, plan, real, last_tick):
    limits = f"{options.bandwidth / (1 << 20):g} MiB/s, downtime limit {time_text(micros_of(options.downtime))}"
    print(f"{called(options)}: {limits}")
    row("", "predicted", "QEMU", False)
    row("pages sent", plan.sent, real.sent, real.ended)
    row("time, ms", round(1000 * plan.seconds(FIRST, 0.001)), real.milliseconds, real.ended)
    row("pages in stop-and-copy", plan.last, real.last if real.ended else None, False)
    row("downtime, ms", plan.down, real.downtime if real.ended else None, False)
    row("expected downtime, ms", None, real.expected)
    row("set-up, ms", None, real.setup)
    row("rounds, not compared", plan.rounds, real.rounds, False)
    row("end", plan.why, "completed" if real.ended else "cancelled", False)
    if plan.tick > last_tick:
        ends = f"the plan stops at tick {plan.tick}, and the trace ends at {last_tick}"
        print(f"no prediction: {ends}; record longer (--for)")
    if plan.why == "fast":
        print("the plan stops since the guest writes faster than the bandwidth; QEMU goes on then")


def plans_of(options, forecast, again, real):
    """The plan of the bandwidth that was asked for, that of the one reached, and with hindsight a third."""
    link = Link(real.reached() if real.ended else options.bandwidth, options.downtime)
    told = [forecast.told(Link(options.bandwidth, options.downtime)), forecast.told(link)]
    return told + ([again.forecast(options, real.begun).told(link)] if again and real.ended else [])


def show_sampled(options, sample, told, real, load):
    """The plans beside QEMU's migration."""
    rate = real.reached() if real.ended else options.bandwidth
    limits = f"{options.bandwidth / (1 << 20):g} MiB/s, limit {time_text(micros_of(options.downtime))}"
    drawn = f"{sample.sampled_pages:,} of {sample.guest_pages:,} pages by {sample.method}"
    print(f"{called(options)}: {limits}; {drawn}; load {load[0]:.0f} to {load[1]:.0f}")
    names = ["planned", "reached", "hindsight"][: len(told)]
    head = "".join(f"{name:>12}" for name in names)
    print(f"{'':24}{head}{'error':>9}{'QEMU':>12}{''.join(f'{name:>10}' for name in names)}")
    planned = [each.get("migration", {}) for each in told]
    errors, none = planned[1].get("errors", {}), [None] * len(told)
    rates = [options.bandwidth, *[rate] * (len(told) - 1)]
    wide_row("bandwidth, MiB/s", [round(each / (1 << 20), 1) for each in rates], None, None)
    for name, member, unit, counted, is_compared in (
        ("pages sent", "sent_bytes", memory.PAGE, real.sent, real.ended),
        ("time, ms", "time_seconds", 0.001, real.milliseconds, real.ended),
        ("downtime, ms", "down_seconds", 0.001, real.downtime if real.ended else None, False),
    ):
        error = f"{errors[member] / unit:,.0f}" if errors else None
        wide_row(name, [round(each[member] / unit) if each else None for each in planned], error, counted, is_compared)
    wide_row("expected downtime, ms", none, None, real.expected)
    wide_row("set-up, ms", none, None, real.setup)
    wide_row("end", [each.get("why") for each in planned], None, "completed" if real.ended else "cancelled")
    if not all(planned[:2]):
        print("no prediction: the recording ends before a planned migration does; record longer (--for)")


def wide_row(name, predicted, error, real, compared=False):
    apart = [f"{100 * (each - real) / real:+.1f} %" if compared and each and real else "" for each in predicted]
    cells = "".join(f"{cell(each):>12}" for each in predicted)
    print(f"{name:24}{cells}{error or '':>9}{cell(real):>12}{''.join(f'{each:>10}' for each in apart)}".rstrip())


def booted(options, folder, memory_folder, guests):
    """The guest that is migrated, its file system, and what its machine is."""
    system, nodes = os.path.join(folder, "file-system"), guest.nodes_of(options.memory, options.numa)
    machine = guest.Machine(nodes, options.accelerator, shlex.split(options.qemu_options))
    files = guest.program_files("sqlite3", "sqlite3") if options.workload == "sqlite" else []
    files = list(dict(files + [each for path in options.add for each in guest.added_files(path)]).items())
    temporary = f"{sum(nodes) >> 21}m" if options.is_sampled else "16m"
    guest.file_system(system, workload_of(options), folder, files, temporary)
    source = guest.Guest("source", folder, memory_folder, machine, system)
    guests.append(source)
    source.wait_until_ready()
    time.sleep(options.settle)
    return source, system, machine


def migrated(options, folder, memory_folder, guests, source, system, machine):
    """QEMU's migration, where the guest arrived, and the recording of it if there is one."""
    socket = os.path.join(folder, "migration")
    to = guest.Guest("destination", folder, memory_folder, machine, system, incoming=True)
    guests.append(to)
    to.wait_for_socket()
    again = Again(source, options, folder) if options.hindsight else None
    with source.client() as client:
        set_capabilities(client, options)
    with to.client() as client:
        set_capabilities(client, options)
        client.ask("migrate-incoming", uri=f"unix:{socket}")
        to.wait_for_socket(socket)
        limits = migration.Limits(options.bandwidth, options.downtime, options.patience)
        real = migration.migrate(source, limits, f"unix:{socket}")
        if real.ended:
            migration.wait_until_arrived(client)
    if again:
        again.end()
    return real, to, again


def compare(options, folder, memory_folder, guests):
    source, system, machine = booted(options, folder, memory_folder, guests)
    load = [os.getloadavg()[0]]
    trace, said = record(source, options, folder)
    planned = None if options.is_sampled else whole_plan(options, trace, said)
    real, to, again = migrated(options, folder, memory_folder, guests, source, system, machine)
    load.append(os.getloadavg()[0])
    if options.is_sampled:
        forecast = forecast_of(options.view, trace)
        told = plans_of(options, forecast, again, real)
        show_sampled(options, forecast.sample, told, real, load)
    else:
        told = [planned[0]._asdict()]
        show_whole(options, planned[0], real, planned[1])
    options.answers = {"plans": told, "qemu": real.document(), "load": load}
    if not real.ended:
        print(f"QEMU's migration did not end in {options.patience:g} s, and was cancelled: memory is not compared")
        return 3
    differ, pages = migration.differing_of(source, to)
    options.answers |= {"differing_pages": differ, "pages": pages}
    print(f"memory: {differ:,} of {pages:,} pages differ at the destination")
    return 1 if differ else 0


def parser_of():
    parser = version.parser("compare-qemu", __doc__)
    add = parser.add_argument
    add("workload", metavar="WORKLOAD", choices=WORKLOADS, nargs="?", help=", ".join(WORKLOADS))
    add("--workload", metavar="SCRIPT", dest="script", help="a workload of your own: a shell script")
    add("--add", metavar="FILE", action="append", default=[], help="a file that it needs, in the guest's /bin")
    add("--numa", metavar="N", type=words.count, default=1, help="how many nodes a larger guest has (1)")
    add("--qemu-options", metavar="WORDS", default="", help="further options of QEMU")
    add("--multifd", metavar="N", type=words.count, help="send over N channels")
    add("--compress", action="store_true", help="send compressed pages")
    add("--auto-converge", action="store_true", help="let QEMU slow the guest down")
    add("--memory", type=words.memory, default=guest.MEMORY, metavar="SIZE", help="of the guest (128M)")
    add("--pages", type=words.count, default=samples.DEFAULT_PAGES, metavar="M", help="drawn of a larger guest (16384)")
    add("--by", choices=("writes", "values"), default="writes", help="how a larger guest is recorded (writes)")
    add("--bandwidth", type=words.rate, default=32 << 20, metavar="RATE", help="a second (32MiB)")
    add("--downtime", type=words.seconds, default=0.1, metavar="TIME", help="limit (100ms)")
    add("--for", type=words.seconds, dest="length", default=12.0, metavar="TIME", help="how long to record (12s)")
    add("--every", type=words.seconds, default=0.1, metavar="TIME", help="the interval of samples (100ms)")
    add("--settle", type=words.seconds, default=2.0, metavar="TIME", help="how long the guest runs before that (2s)")
    add("--patience", type=words.seconds, default=20.0, metavar="TIME", help="when QEMU is cancelled (20s)")
    add("--light", action="store_true", help="record one byte a write")
    add("--keep", metavar="PATH", help="keep the trace under this name")
    add("--accelerator", default="tcg", metavar="NAME", help="QEMU's (tcg)")
    add("--json", action="store_true", help=printed.JSON_HELP)
    add("--hindsight", action="store_true", help="record a larger guest again while it is migrated")
    add("--program", default=PROGRAM, metavar="PATH", help="the built precopy, for 128 MiB")
    add("--view", default=VIEW, metavar="PATH", help="the built precopy-view, for larger guests")
    return parser


def options_of(given):
    parser = parser_of()
    options = parser.parse_args(given)
    options.is_sampled = options.memory // memory.PAGE > samples.MOST_PAGES
    options.light |= options.is_sampled
    options.hindsight &= options.is_sampled
    if bool(options.workload) == bool(options.script):
        parser.error("name one workload, or a script by --workload")
    if options.numa > 1 and not options.is_sampled:
        parser.error("--numa needs a guest of more than 256 MiB: --memory 2G")
    for path in [*([options.script] if options.script else []), *options.add]:
        if not os.path.isfile(path):
            parser.error(f"there is no file {path}")
    if not os.access(options.view if options.is_sampled else options.program, os.X_OK):
        program = "precopy-view" if options.is_sampled else "precopy"
        parser.error(f"there is no program {program}; {version.whence(program)}")
    return options


def main(given):
    options, guests = options_of(given), []
    signal.signal(signal.SIGTERM, lambda *_: sys.exit(1))
    # Memory of guests is not written to a disk if there is a file system in memory.
    where = "/dev/shm" if os.path.isdir("/dev/shm") else None
    if where is None:
        version.complain("compare-qemu", f"there is no /dev/shm: the guest's memory is in {tempfile.gettempdir()}")
    with tempfile.TemporaryDirectory() as folder, tempfile.TemporaryDirectory(dir=where) as memory_folder:
        try:
            with printed.silent(options.json) as told:
                status = compare(options, folder, memory_folder, guests)
                limits = {"bandwidth_bytes": options.bandwidth, "down_seconds": options.downtime}
                told("precopy comparison 1", workload=called(options), **limits, **options.answers)
            return status
        except (guest.Failed, guest.Missing, qmp.Fault, plans.Failed, OSError, subprocess.SubprocessError) as fault:
            version.complain("compare-qemu", traces.told(fault))
            return 1
        finally:
            for each in guests:
                each.end()


if __name__ == "__main__":
    sys.exit(main(sys.argv[1:]))
