"""What checks/refusals runs, and what it must write. That is worked out by hand from docs/FORMATS.md and the rules of
the plan, not by the program; except for help, which is what the program writes if nothing is refused."""

from checks.lib.traces import header, record
from checks.lib.worked import A_AT_2000, A_IMAGE, A_REPORT
from checks.refusals import threads

A_SWEEP = b"""\
case 0 min 2 max 4 inc 1 threshold 1 limit 8 skip 0 rounds 3 stop few at 3667 down 0 total 8
case 1 min 2 max 2 inc 1 threshold 1 limit 8 skip 0 rounds 2 stop fast at 3000 down 1000 total 8
case 2 min 2 max 4 inc 1 threshold 3 limit 8 skip 0 rounds 1 stop few at 2000 down 500 total 6
best 0
"""

# 2^18 writes of one byte to page 1 at tick 7: enough for a report, and a sweep of eight cases, to use a second thread.
MANY_WRITES = 1 << 18
MANY = header(4, MANY_WRITES) + record(7, 1, 0, b"\x09") * MANY_WRITES
MANY_REPORT = b"""\
trace pages 4 size 16 writes 262144
window 0 writes 262144 pages 1 again 0 fresh 1
hot 2 pages 0
round 0 from 0 to 2000 rate 2 pages 4 sent 4 dirtied 1
round 1 from 2000 to 2500 rate 2 pages 1 sent 1 dirtied 0
stop few at 2500 pages 0 down 0 total 5
"""

MANY_CASES = "2,4,1,1,8,0 2,4,1,2,8,0 2,2,1,1,8,0 2,4,1,1,1,0 1,1,5,1,8,0 2,4,1,1,8,1 4,4,1,1,8,0 2,4,2,1,8,0"
MANY_SWEEP = b"""\
case 0 min 2 max 4 inc 1 threshold 1 limit 8 skip 0 rounds 2 stop few at 2500 down 0 total 5
case 1 min 2 max 4 inc 1 threshold 2 limit 8 skip 0 rounds 1 stop few at 2000 down 250 total 5
case 2 min 2 max 2 inc 1 threshold 1 limit 8 skip 0 rounds 2 stop few at 2500 down 0 total 5
case 3 min 2 max 4 inc 1 threshold 1 limit 1 skip 0 rounds 1 stop rounds at 2000 down 250 total 5
case 4 min 1 max 1 inc 5 threshold 1 limit 8 skip 0 rounds 1 stop fast at 4000 down 1000 total 5
case 5 min 2 max 4 inc 1 threshold 1 limit 8 skip 1 rounds 2 stop few at 2500 down 0 total 5
case 6 min 4 max 4 inc 1 threshold 1 limit 8 skip 0 rounds 2 stop few at 1250 down 0 total 5
case 7 min 2 max 4 inc 2 threshold 1 limit 8 skip 0 rounds 2 stop few at 2334 down 0 total 5
best 0
"""

# 8,193 pages of 4,096 bytes: one page more than memory that `image` makes whole.
LARGE_PAGES = 8193
LARGE = header(LARGE_PAGES, 3, shift=12) + b"".join(
    [record(0, 0, 0, b"\x01"), record(4, 5000, 16, b"\x02\x03"), record(9, 8192, 4095, b"\x04")]
)
LARGE_MEMORY = b"\x01" + bytes(20480015) + b"\x02\x03" + bytes(13078509) + b"\x04"
assert len(LARGE_MEMORY) == LARGE_PAGES * 4096

PLAN = "--min 2 --max 4 --inc 1 --threshold 1 --rounds 8".split()
TABLES = "--window 1000 --hot 2".split()
THREADS = "--workers 2 --streams 2 --replayers 2".split()
CASES = "2,4,1,1,8,0 2,2,1,1,8,0 2,4,1,3,8,0".split()

MEMORY = b"precopy: memory\n"
NO_ROOM_FOR_TRACE = b"precopy: trace E16\n"
READ_FAILED = b"precopy: trace E17\n"
LIVE_MEMORY = b"precopy: live L1\n"
LIVE_THREAD = b"precopy: live L2\n"
WRITE_FAILED = b"precopy: write\n"


class Job:
    """A command over a trace, what it must write, and which threads it starts: those that only save time, `savers`, and
    how many kinds of those that it needs."""

    status, faults = 0, b""
    # Whether a trace is read, and not only words.
    reads = True

    def __init__(self, name, words, output, trace="a", is_live=False, savers=(), needs=0):
        self.name = name
        self.words = words
        self.output = output
        self.trace = trace
        self.is_live = is_live
        self.savers = (threads.INDEX, *savers) if is_live else savers
        self.needs = needs or (threads.OF_LIVE if is_live else 0)


class Misuse(Job):
    """Words that the command line does not have, and what is said of them."""

    status, reads = 2, False

    def __init__(self, words, message, usage=""):
        super().__init__(words, words.split(), b"")
        usage = f"\n\nUsage: precopy {usage}" if usage else ""
        self.faults = f"error: {message}{usage}\n\nFor more information, try '--help'.\n".encode()


IMAGE = Job("image", ["image"], A_IMAGE)
LARGE_IMAGE = Job("image, 8,193 pages", ["image"], LARGE_MEMORY, "large")
LARGE_WORDS = ["live", *PLAN, "--workers", "4"]
LARGE_LIVE = Job("live, 8,193 pages", LARGE_WORDS, LARGE_MEMORY, "large", is_live=True, savers=(threads.PIECES,))
REPORT = Job("report", ["report", *PLAN, *TABLES], A_REPORT)
SWEEP = Job("sweep", ["sweep", *CASES], A_SWEEP)
LIVE = Job("live", ["live", *PLAN, *THREADS], A_IMAGE, is_live=True)
AT_STOP = Job("live --at-stop", ["live", *PLAN, *THREADS, "--at-stop"], A_IMAGE, is_live=True)
# Of these settings the guest stops at tick 2000, so that its memory is another one than at the end.
EARLY = Job(
    "live --at-stop, stop at 2000",
    ["live", *"--min 2 --max 2 --inc 1 --threshold 1 --rounds 1".split(), *THREADS, "--at-stop"],
    A_AT_2000,
    is_live=True,
)
# The destination begins with the memory before tick 1200, and the guest stops at tick 1701.
WARM = Job(
    "live --at-stop, base 1200",
    ["live", *PLAN, *THREADS, "--base", "1200", "--start", "1201", "--at-stop"],
    A_AT_2000,
    is_live=True,
    needs=threads.OF_LIVE + 1,
)
WIDE = "2 workers, 2^18 writes"
WIDE_SWEEP_WORDS = ["sweep", "--workers", "2", *MANY_CASES.split()]
WIDE_REPORT_WORDS = ["report", *PLAN, *TABLES, "--workers", "2"]
WIDE_REPORT_SAVERS = (threads.TABLES, threads.CALLS)
WIDE_REPORT = Job(f"report, {WIDE}", WIDE_REPORT_WORDS, MANY_REPORT, "many", savers=WIDE_REPORT_SAVERS)
WIDE_SWEEP = Job(f"sweep, {WIDE}", WIDE_SWEEP_WORDS, MANY_SWEEP, "many", savers=(threads.CALLS,))


class Help(Job):
    """What help must write is None here: checks/words looks at it."""

    reads = False


HELPS = [Help("--help", ["--help"], None), Help("live --help", ["live", "--help"], None)]
MISUSES = [
    Misuse("guess", "unrecognized subcommand 'guess'", "<COMMAND>"),
    Misuse("report --min x", "invalid value 'x' for '--min <N>': invalid digit found in string"),
    Misuse(
        "report --ski",
        "unexpected argument '--ski' found\n\n  tip: a similar argument exists: '--skip'",
        "report --skip",
    ),
]
JOBS = [IMAGE, REPORT, SWEEP, LIVE, AT_STOP, EARLY, WARM]
