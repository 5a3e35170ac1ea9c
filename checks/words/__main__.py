"""Tries the command line of the built program from outside: words in; output, standard error and status out.

    checks/run words [PRECOPY]

What each run must write is from docs/COMMANDS.md and docs/FORMATS.md by hand, and in clap's form if the words
themselves are wrong. Standard input is the trace of 102 bytes in docs/FORMATS.md, one that releases a page, or a
damaged one; how far it was read is tested too. A run is a case.
"""

import os
import re
import subprocess
import tempfile
from dataclasses import dataclass

from checks.lib import harness
from checks.lib.traces import header, record
from checks.lib.worked import A_AT_2000, A_IMAGE, A_REPORT, RECORDS, A, C, damaged
from precopy_dev.files import read_text
from precopy_dev.tree import TOP

SECONDS = 20

C_IMAGE = b"\x01" + bytes(15) + bytes(16) + bytes(16) + b"\x00\x00\x04\x05" + bytes(12)

HELP_HINT = "\n\nFor more information, try '--help'.\n"
USAGE = {
    "": "precopy <COMMAND>",
    "image": "precopy image",
    "report": "precopy report [OPTIONS]",
    "live": "precopy live [OPTIONS]",
    "sweep": "precopy sweep [OPTIONS] <CASE>...",
}

# ---- One run.


@dataclass
class Run(harness.Run):
    """What came of a run, and how many bytes of standard input it took."""

    taken: int | None = None

    def __str__(self):
        return f"{super().__str__()}, {self.taken} bytes read"


class Words:
    def __init__(self, tally, program, folder):
        self.tally, self.program, self.folder = tally, program, folder
        self.traces = {}

    def file_of(self, trace):
        """The trace in a file, so that how far it was read is known afterwards; for a number, that many zeros."""
        if trace not in self.traces:
            self.traces[trace] = os.path.join(self.folder, f"{len(self.traces)}.pcwt")
            with open(self.traces[trace], "wb") as file:
                if isinstance(trace, int):
                    file.truncate(trace)
                else:
                    file.write(trace)
        return open(self.traces[trace], "rb")

    def run(self, words, trace=A, stdout=subprocess.PIPE, closed=None):
        """Runs the program; `closed` is a descriptor that it does not have."""
        # Usages have the name that the program is called by.
        command, program = ["precopy", *words], self.program
        if closed is not None:
            close = f'exec "$@" {closed}{"<" if closed == 0 else ">"}&-'
            command, program = ["sh", "-c", close, "sh", self.program, *words], None
        with self.file_of(trace) as stdin:
            done = harness.run(command, executable=program, stdin=stdin, stdout=stdout, seconds=SECONDS)
            return Run(done.status, done.output, done.faults, os.lseek(stdin.fileno(), 0, os.SEEK_CUR))

    def add(self, good, told):
        self.tally.add(good, told)

    def wants(self, words, status, output, faults, trace=A, taken=None, **how):
        """One run, and what must come of it. Of what may be taken of the trace, None says nothing."""
        done = self.run(words, trace, **how)
        good = (done.status, done.output, done.faults) == (status, output, faults)
        if taken is not None:
            good = good and done.taken == taken
        shown = " ".join(word if isinstance(word, str) else repr(word) for word in words)
        due = f"status {status}, output {output[:80]!r}, standard error {faults[:300]!r}, {taken} bytes read"
        self.add(good, f"{shown[:200]!r}: {due} are due; it is {done}")

    def refuses(self, words, line):
        """Words that are refused with a line of docs/COMMANDS.md, and of the trace nothing is read."""
        words = words.split(" ") if isinstance(words, str) else words
        self.wants(words, 2, b"", f"precopy: {line}\n".encode(), taken=0)

    def misuses(self, words, message, usage=None, tip=""):
        """Words that the command line does not have: clap's message, a tip, the usage and a hint."""
        text = f"error: {message}" + (f"\n\n  tip: {tip}" if tip else "")
        text += f"\n\nUsage: {usage}" if usage else ""
        words = words.split(" ") if isinstance(words, str) else words
        self.wants(words, 2, b"", (text + HELP_HINT).encode(), taken=0)

    def takes(self, words, output=None):
        """Words that are taken: the trace is read to its end, and `output`, if given, comes."""
        done = self.run(words.split(" ") if isinstance(words, str) else words)
        good = done.status == 0 and done.faults == b"" and done.output and done.taken == len(A)
        self.add(bool(good) and output in (None, done.output), f"{words!r} has to be taken; it is {done}")


# ---- The groups of cases.


def documented_options():
    """The options in the table of docs/COMMANDS.md: name, default, and the only command that has it, if one does."""
    rows = re.findall(r"^\| `--([a-z-]+)( N)?` \| (\S+) \|(.*)\|$", read_text(TOP, "docs", "COMMANDS.md"), re.M)
    found = []
    for name, number, default, rest in rows:
        only = re.search(r"`(\w+)` only", rest)
        found.append((name, default if number else None, only[1] if only else None))
    return found


def options_of(command):
    """The options of a command, each with its default, by the documents."""
    found = documented_options()
    if command == "sweep":
        return {name: default for name, default, _ in found if name in ("start", "base", "workers")}
    if command in ("report", "live"):
        return {name: default for name, default, only in found if only in (None, command)}
    return {}


def help_of(check, command):
    """The same text by each way to ask, with the options that the documents name, and no byte of the trace read."""
    told = f"help of {command or 'precopy'}"
    ways = [["--help"], ["-h"], ["help"]]
    if command:
        ways = [[command, "--help"], [command, "-h"], ["help", command]]
    text = check.run(ways[0]).output
    for way in ways:
        check.wants(way, 0, text, b"", taken=0)
    lines = text.decode().splitlines() or [""]
    check.add(f"Usage: {USAGE[command]}" in lines, f"{told} has no usage {USAGE[command]!r}")
    check.add(text.endswith(b"\n") and len(lines[0]) > 20, f"{told} does not say what it does")
    shown = {found[1]: line for line in lines if (found := re.match(r" +(?:-h, )?--([a-z-]+)", line))}
    wanted = options_of(command)
    check.add({*shown} == {*wanted, "help"}, f"{told} has the options {sorted(shown)}")
    for name, default in wanted.items():
        good = default is None or f"[default: {default}]" in shown.get(name, "")
        check.add(good, f"{told} does not say that --{name} is {default} by default")


def help_texts(check):
    count = len(documented_options())
    check.add(count == 15, f"docs/COMMANDS.md tells {count} options, and not 15")
    for command in USAGE:
        help_of(check, command)
    lines = check.run(["--help"]).output.decode().splitlines()
    commands = [line.split()[0] for line in lines if re.match("  [a-z]", line)]
    check.add(commands == ["image", "report", "live", "sweep", "help"], f"the help tells the commands {commands}")


def wrong_words(check):
    main = USAGE[""]
    none = "'precopy' requires a subcommand but one was not provided"
    check.misuses([], f"{none}\n  [subcommands: image, report, live, sweep, help]", main)
    check.misuses("guess", "unrecognized subcommand 'guess'", main)
    check.misuses([""], "unrecognized subcommand ''", main)
    check.misuses("IMAGE", "unrecognized subcommand 'IMAGE'", main)
    for words, word in [("--version", "--version"), ("-V", "-V"), ("--min 5 image", "--min"), ("-x", "-x")]:
        check.misuses(words, f"unexpected argument '{word}' found", main)
    for command in ["image", "report", "live"]:
        check.misuses(f"{command} more", "unexpected argument 'more' found", USAGE[command])
        check.misuses(f"{command} --version", "unexpected argument '--version' found", USAGE[command])
        check.misuses(f"{command} --speed 5", "unexpected argument '--speed' found", USAGE[command])
    check.misuses("image --hot 2", "unexpected argument '--hot' found", USAGE["image"])
    check.misuses("image --base 0", "unexpected argument '--base' found", USAGE["image"])
    check.misuses("live --window 5", "unexpected argument '--window' found", USAGE["live"])
    for name in ["min", "lane", "workers", "start", "base"]:
        check.misuses(f"live --{name}", f"a value is required for '--{name} <N>' but none was supplied")
    twice = "the argument '--{}' cannot be used multiple times"
    check.misuses("report --min 5 --min 5", twice.format("min <N>"), USAGE["report"])
    check.misuses("live --base 0 --base 0", twice.format("base <N>"), USAGE["live"])
    check.misuses("report --skip --skip", twice.format("skip"), USAGE["report"])
    check.misuses("live --at-stop --at-stop", twice.format("at-stop"), USAGE["live"])


def numbers(check):
    """What is a number, and what is none."""
    for word in ["1000", "0001000", "+1000", "+0001000"]:
        check.takes(["report", "--min", word], None)
        check.takes(["report", f"--min={word}"], None)
    digit, large = "invalid digit found in string", "number too large to fit in target type"
    wrong = [("x", digit), ("1.5", digit), ("0x10", digit), (" 5", digit), ("5 ", digit), ("1e3", digit), ("+", digit)]
    wrong += [("5_000", digit), ("\u0665", digit), ("18446744073709551616", large), ("9" * 40, large)]
    for word, why in wrong:
        message = f"invalid value '{word}' for '--min <N>': {why}"
        check.misuses(["report", "--min", word], message)
        check.misuses(["report", f"--min={word}"], message)
    check.misuses(["live", "--lane=-5"], f"invalid value '-5' for '--lane <N>': {digit}")
    check.misuses("report --base none", f"invalid value 'none' for '--base <N>': {digit}")
    message = f"invalid value '18446744073709551616' for '--base <N>': {large}"
    check.misuses(["sweep", "--base=18446744073709551616", CASE], message)
    check.refuses("report --min 18446744073709551615", "settings S1")
    check.refuses("report --start 18446744073709551615", "settings S8")
    check.refuses("report --base 18446744073709551615", "settings S10")


BOTH = ["report", "live"]
RANGES = [
    ("min", 1, 5000, "S1", BOTH),
    ("max", 1000, 1_000_000, "S2", BOTH),
    ("inc", 0, 1_000_000, "S3", BOTH),
    ("threshold", 1, 65_536, "S4", BOTH),
    ("rounds", 1, 64, "S5", BOTH),
    ("window", 1, 1 << 40, "S6", ["report"]),
    ("hot", 1, 1_048_576, "S7", ["report"]),
    ("start", 0, (1 << 40) - 1, "S8", BOTH),
    ("workers", 1, 16, "S9", BOTH),
    ("streams", 1, 16, "S9", ["live"]),
    ("replayers", 1, 16, "S9", ["live"]),
    ("lane", 1, 65_536, "S9", ["live"]),
    ("base", 0, 0, "S10", BOTH),
]


def ranges(check):
    """The ends of each range, and what lies beside them, by the table of docs/COMMANDS.md."""
    for name, least, greatest, refusal, commands in RANGES:
        for command in commands:
            wanted = A_IMAGE if command == "live" else None
            check.takes(f"{command} --{name} {least}", wanted)
            check.takes(f"{command} --{name}={greatest}", wanted)
            # A least rate above the greatest of 5000 is refused for the greatest.
            above = "S2" if name == "min" else refusal
            check.refuses(f"{command} --{name} {greatest + 1}", f"settings {above}")
            if least:
                check.refuses(f"{command} --{name} {least - 1}", f"settings {refusal}")
    check.refuses("report --max 500", "settings S2")
    check.takes("report --min 500 --max 500")
    check.takes("report --min 1000000 --max 1000000")
    check.refuses("report --min 1000001 --max 1000001", "settings S1")
    # The first setting that is out of its range is named, whatever the order of the options.
    check.refuses("report --workers 0 --start 1099511627776 --hot 0 --window 0 --rounds 0", "settings S5")
    check.refuses("report --hot 0 --window 0 --workers 17", "settings S6")
    check.refuses("live --lane 0 --inc 1000001", "settings S3")
    check.refuses("live --base 6 --start 5", "settings S10")
    check.refuses("report --base 6 --start 5 --workers 17", "settings S9")
    check.refuses("report --base 1099511627777 --start 1099511627776", "settings S8")
    check.refuses("live --base 1099511627776 --start 1099511627775", "settings S10")
    check.takes("live --start 1099511627775 --base 1099511627775", A_IMAGE)
    check.takes("report --skip")
    check.takes("live --skip --at-stop")


CASE = "2,4,1,1,8,0"
CASE_LINE = b"case %d min 2 max 4 inc 1 threshold 1 limit 8 skip 0 rounds 3 stop few at 3667 down 0 total 8\n"


def case_words(check):
    """What is a case, and what is none."""
    missing = "the following required arguments were not provided:\n  <CASE>..."
    check.misuses("sweep", missing, "precopy sweep <CASE>...")
    check.misuses("sweep --start 5", missing, "precopy sweep --start <N> <CASE>...")
    for word in ["", ",", "1,2,3,4,5", CASE + ",", "," + CASE, CASE + ",0", "2,4,1,1,8,2", "2,4,1,1,8,0x"]:
        check.refuses(["sweep", word], "case 0")
    for word in ["2, 4,1,1,8,0", "2,4,1,1,8,0 ", "2;4;1;1;8;0", "+2,4,1,1,8,0", "2,4,1,,8,0", "0x2,4,1,1,8,0", "two"]:
        check.refuses(["sweep", CASE, word], "case 1")
    check.refuses(["sweep", "00000000000002,4,1,1,8,0"], "case 0")
    check.refuses(["sweep", "\u0662,4,1,1,8,0"], "case 0")
    check.takes(["sweep", "0000000000002,4,1,1,8,0"], CASE_LINE % 0 + b"best 0\n")
    check.refuses(["sweep", "--", "-2,4,1,1,8,0"], "case 0")
    tip = "to pass '-2' as a value, use '-- -2'"
    check.misuses(["sweep", "-2,4,1,1,8,0"], "unexpected argument '-2' found", USAGE["sweep"], tip)


def cases(check):
    """Which case is refused for what, and how many there may be."""
    case_words(check)
    wrong = [("0,4,1,1,8,0", 1), ("1000001,1000001,1,1,8,0", 1), ("4,3,1,1,8,0", 2), ("2,1000001,1,1,8,0", 2)]
    wrong += [("2,4,1000001,1,8,0", 3), ("2,4,1,0,8,0", 4), ("2,4,1,65537,8,0", 4)]
    wrong += [("2,4,1,1,0,0", 5), ("2,4,1,1,65,0", 5)]
    for word, number in wrong:
        check.refuses(["sweep", word], f"case 0 S{number}")
        check.refuses(["sweep", CASE, CASE, word, "x"], f"case 2 S{number}")
    check.refuses(["sweep", CASE, "x", "0,4,1,1,8,0"], "case 1")
    for option, number in [("--start=1099511627776", 8), ("--workers=0", 9), ("--workers=17", 9)]:
        check.refuses(["sweep", option, CASE], f"case 0 S{number}")
        check.refuses(["sweep", CASE, option], f"case 0 S{number}")
    check.refuses(["sweep", "--base=6", "--start=5", CASE], "case 0 S10")
    check.refuses(["sweep", CASE, "--start=5", "x", "--base=6"], "case 0 S10")
    check.refuses(["sweep", "--base=6", "--start=5", "x", CASE], "case 0")
    check.refuses(["sweep", "--base=6", "--start=5", "--workers=17", CASE], "case 0 S9")
    whole = b"".join(CASE_LINE % number for number in range(256)) + b"best 0\n"
    for workers in ["1", "16"]:
        check.takes(["sweep", *[CASE] * 255, "--workers", workers, CASE], whole)
    for words in [[CASE] * 257, ["x"] * 257, ["--workers=0", *[CASE] * 300]]:
        check.refuses(["sweep", *words], "cases")


def bytes_for_words(check):
    line = b"error: an argument is not UTF-8\n"
    words = [[b"\xff"], [b"image", b"\xff"], [b"report", b"--min", b"\xc3"], [b"report", b"--min=\xed\xa0\x80"]]
    words += [[b"sweep", CASE.encode(), b"\xf5"], [b"--help", b"\x80"], [b"image", b"\xc0\x80"]]
    for each in words:
        check.wants(each, 2, b"", line, taken=0)
    # A long word: the room for it must grow more than once.
    for size in [255, 256, 257, 100_000]:
        check.refuses(["sweep", CASE, "2" * size], "case 1")
        check.misuses(["x" * size], f"unrecognized subcommand '{'x' * size}'", USAGE[""])


LONGEST = 1 << 28


def traces(check):
    for words in [["image"], ["report"], ["sweep", CASE], ["live"]]:
        for trace, name in damaged():
            check.wants(words, 1, b"", f"precopy: trace {name}\n".encode(), trace, len(trace))
        check.wants(words, 1, b"", b"precopy: trace E15\n", LONGEST + 1)
    check.wants(["report"], 1, b"", b"precopy: trace E2\n", LONGEST, LONGEST)


def releases(check):
    """Traces of version 2. A released page is zeros, and a release counts as a write does."""
    plan = "--min 2 --max 4 --inc 1 --threshold 1 --rounds 8".split()
    early = "--min 2 --max 2 --inc 1 --threshold 1 --rounds 1 --at-stop".split()
    threads = "--workers 3 --streams 2 --replayers 4".split()
    plain = header(4, 5, version=2) + b"".join(RECORDS)
    again = header(4, 2, version=2) + record(7, 1, 0, b"") + record(7, 1, 15, b"\x09")
    for words, trace, output in [
        (["image"], plain, A_IMAGE),
        (["report", *plan], plain, A_REPORT),
        (["live", *plan], plain, A_IMAGE),
        (["image"], C, C_IMAGE),
        (["report", *plan], C, A_REPORT),
        (["report", *plan, "--workers", "2"], C, A_REPORT),
        (["sweep", CASE], C, CASE_LINE % 0 + b"best 0\n"),
        (["live", *plan], C, C_IMAGE),
        (["live", *plan, "--at-stop"], C, C_IMAGE),
        (["live", *plan, *threads], C, C_IMAGE),
        (["live", *early, *threads], C, A_AT_2000),
        (["image"], again, bytes(31) + b"\x09" + bytes(32)),
        (["live", *plan], again, bytes(31) + b"\x09" + bytes(32)),
        (["image"], header(4, 1, version=2) + record(7, 3, 0, b""), bytes(64)),
    ]:
        check.wants(words, 0, output, b"", trace, len(trace))


WARM = [
    # The base, the first tick, the plan, and the memory at the stop.
    (
        "0 1000",
        b"""\
round 0 from 1000 to 2000 rate 2 pages 2 sent 2 dirtied 1
round 1 from 2000 to 2500 rate 2 pages 1 sent 1 dirtied 0
stop few at 2500 pages 0 down 0 total 3
""",
        b"\x01" + bytes(15) + b"\x03" + bytes(14) + b"\x02" + bytes(32),
    ),
    (
        "6 1200",
        b"""\
round 0 from 1200 to 1200 rate 2 pages 0 sent 0 dirtied 0
stop few at 1200 pages 0 down 0 total 0
""",
        b"\x01" + bytes(30) + b"\x02" + bytes(32),
    ),
    (
        "1200 1201",
        b"""\
round 0 from 1201 to 1701 rate 2 pages 1 sent 1 dirtied 0
stop few at 1701 pages 0 down 0 total 1
""",
        b"\x01" + bytes(15) + b"\x03" + bytes(14) + b"\x02" + bytes(32),
    ),
    (
        "5 5",
        b"""\
round 0 from 5 to 5 rate 2 pages 0 sent 0 dirtied 0
stop few at 5 pages 0 down 0 total 0
""",
        b"\x01" + bytes(63),
    ),
    (
        "0 0",
        b"""\
round 0 from 0 to 0 rate 2 pages 0 sent 0 dirtied 0
stop few at 0 pages 0 down 0 total 0
""",
        bytes(64),
    ),
]


def warm_starts(check):
    """A destination that begins with the memory before a base: plans, sweeps and live runs."""
    plan = "--min 2 --max 4 --inc 1 --threshold 1 --rounds 8".split()
    tables = b"".join(line for line in A_REPORT.splitlines(True) if not line.startswith((b"round", b"stop")))
    for ticks, rounds, stopped in WARM:
        base, start = ticks.split()
        options = [*plan, "--base", base, f"--start={start}"]
        for workers in ["1", "3"]:
            threads = ["--workers", workers, "--streams", "2", "--replayers", "4"]
            check.takes(["report", *options, "--workers", workers], tables + rounds)
            check.takes(["live", *options, "--workers", workers, "--at-stop"], stopped)
            check.takes(["live", *options, *threads, "--lane=1", "--skip", "--at-stop"], stopped)
            check.takes(["live", *options, *threads], A_IMAGE)
    sweep = b"case 0 min 2 max 4 inc 1 threshold 1 limit 8 skip 0 rounds 2 stop few at 2500 down 0 total 3\nbest 0\n"
    check.takes(["sweep", "--base", "0", "--start", "1000", CASE], sweep)
    check.takes(["sweep", CASE, "--base=0", "--start=1000", "--workers=3"], sweep)
    # With a release in place of the last write: the page that is released is written from the base on.
    late = [*plan, "--base", "2500", "--start", "2501"]
    round_0 = b"round 0 from 2501 to 3501 rate 2 pages 2 sent 2 dirtied 0\n"
    check.wants(["report", *late], 0, tables + round_0 + b"stop few at 3501 pages 0 down 0 total 2\n", b"", C, len(C))
    check.wants(["live", *late, "--at-stop"], 0, C_IMAGE, b"", C, len(C))


def descriptors(check):
    """A full disk, a pipe whose reader is gone, and descriptors that are closed."""
    jobs = [["image"], ["report"], ["sweep", CASE], ["live"], ["--help"], ["report", "-h"]]
    for words in jobs:
        with open("/dev/full", "wb") as full:
            check.wants(words, 1, b"", b"precopy: write\n", stdout=full)
        with harness.closed_pipe() as writer:
            check.wants(words, 1, b"", b"precopy: write\n", stdout=writer)
        check.wants(words, 1, b"", b"precopy: write\n", closed=1)
    for words in jobs[:4]:
        check.wants(words, 1, b"", b"precopy: trace E17\n", closed=0)
        check.wants(words, 1, b"", b"", trace=A[:-1], closed=2)
    check.wants(["guess"], 2, b"", b"", closed=2)
    check.wants(["image"], 0, A_IMAGE, b"", closed=2)


GROUPS = [help_texts, wrong_words, numbers, ranges, cases, bytes_for_words, traces, releases, warm_starts, descriptors]


def check(tally, given):
    with tempfile.TemporaryDirectory() as folder:
        for group in GROUPS:
            part = harness.Tally()
            group(Words(part, given.precopy, folder))
            print(f"{group.__name__}: {part}", flush=True)
            tally.add_all(part)


if __name__ == "__main__":
    harness.run_main(check, __doc__, "precopy")
