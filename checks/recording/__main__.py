"""Records a process that writes known pages at a known pace, and looks at the traces that tools/record makes.

    checks/run recording [--seed N] [--only CASE] [PRECOPY [PRECOPY_VIEW]]

precopy makes the image of each trace, which must be the memory that was recorded; precopy-view plans. The process that
writes is checks/recording/known_writes.py. It takes two to five minutes. If the kernel reports no writes, or root is
needed for it, cases that need them are left out. A case in which something was late beside others is tried once
more, alone.
"""

import contextlib
import functools
import json
import os
import pty
import re
import shutil
import signal
import socket
import subprocess
import sys
import threading
import time

from checks.lib.harness import cases_of, expect, run_cases, run_main
from checks.lib.tally import LeftOut, expect_in_time
from checks.lib.traces import Trace
from checks.recording import (
    compare_cases,
    forecast_cases,
    link_cases,
    memory_cases,
    running_cases,
    sample_cases,
    scan_cases,
    series_cases,
)
from checks.recording.known_writes import LATER_PAGES, PACE, PAGE, PAGES, STEPS, ended, step
from checks.recording.recorder_runs import RECORD, TOP, Recording, Writing, expect_whole, recorded
from precopy_dev.files import write_file
from precopy_tools.qemu import qmp

# The ticks by which the recorder's clock may begin earlier than is known here, and by which a look may be late.
SLACK, LATE = 300, 60
# Looks that see no step: the first one, and some before the steps and after them.
IDLE_LOOKS = 6
AT_ONCE = 4


# ---- The cases. Each has a folder of its own, and raises if something is wrong.


def a_file(program, folder):
    writing, recording = recorded(folder, False, "--bandwidth", "8MiB", "--downtime", "100ms")
    trace, behind = expect_whole(program, recording)
    expect(recording.image() == ended(), "the last memory is not what was written")
    expect(trace.pages == PAGES, f"{trace.pages} pages")
    expect([record[1] for record in behind].count(7) == 1, "page 7 is not written once")
    pages = sorted(record[1] for record in behind)
    expect(pages == sorted(step(n)[0] for n in range(STEPS)), f"other pages than written: {pages}")
    ticks = {record[1]: record[0] for record in behind}
    known = [1000 + 1000 * (written - recording.known_begin) for written in writing.times]
    looks = int(re.search(r"(\d+) samples", recording.output)[1])
    expect_times(known, [ticks[step(number)[0]] for number in range(STEPS)], looks)
    planned = re.search(r"^plan: (--start .*)$", recording.output, re.M)[1]
    expect(planned == "--start 1000 --threshold 205 --min 2048 --max 2048 --inc 0", planned)
    with open(recording.trace_path, "rb") as file:
        report = subprocess.run([program, "report", *planned.split()], stdin=file, capture_output=True, text=True)
    expect(report.returncode == 0 and "round 0 from 1000 to 1047 rate 2048" in report.stdout, report.stdout)
    expect("not seen" in recording.output and "of a processor" in recording.output, recording.output)


def expect_times(known, found, looks):
    """Each change stands at the first look after it: not before it was written, and behind no look that could have seen
    it. All may be apart by one shift, since the recorder's clock is not known exactly."""
    ticks = sorted(set(found))
    expect_in_time(len(ticks) >= looks - IDLE_LOOKS, f"the steps stand at {len(ticks)} ticks of {looks} looks")
    before = dict(zip(ticks, [1000, *ticks]))
    least = max(before[tick] - written for written, tick in zip(known, found)) - LATE
    most = min(tick - written for written, tick in zip(known, found)) + LATE
    told = f"written at {[round(it) for it in known]}, found at {found}"
    expect_in_time(max(least, -SLACK) <= min(most, SLACK), f"shifts from {least:.0f} to {most:.0f}: {told}")


def a_file_compact(program, folder):
    _, recording = recorded(folder, False, "--compact", "--spread", end=signal.SIGTERM)
    trace, behind = expect_whole(program, recording)
    memory, places = ended(), recording.places()
    expect(len(places) == trace.pages < PAGES, f"{trace.pages} pages, {len(places)} places")
    for number, place in enumerate(places):
        page = trace_page(recording, number)
        expect(page == memory[place : place + PAGE], f"page {number} is not that at {place}")
    for place in set(range(0, PAGES * PAGE, PAGE)) - set(places):
        expect(not any(memory[place : place + PAGE]), f"the page at {place} is left out, and is not zero")
    ticks = [record[0] for record in behind]
    samples = int(re.search(r"(\d+) samples", recording.output)[1])
    expect(len(set(ticks)) > samples, f"{len(set(ticks))} ticks in {samples} samples: they are not spread")


def trace_page(recording, number):
    return recording.image()[number * PAGE : (number + 1) * PAGE]


def a_process(program, folder, *words):
    writing, recording = recorded(folder, True, *words)
    expect_whole(program, recording)
    place_of = {place: number for number, place in enumerate(recording.places())}
    memory, zero = ended(), 0
    for number in range(PAGES):
        known = place_of.get(writing.address + number * PAGE)
        page = memory[number * PAGE : (number + 1) * PAGE]
        if known is None:
            expect("--compact" in words and not any(page), f"page {number} of the process is not recorded")
            zero += 1
        else:
            expect(trace_page(recording, known) == page, f"page {number} of the process has other bytes in the trace")
    expect(not words or zero, "no page was left out")
    for number in range(LATER_PAGES):
        known = place_of.get(writing.later + number * PAGE)
        expect(known is not None, "a mapping that was made later is not recorded")
        expect(trace_page(recording, known) == b"\x77" * PAGE, "a mapping that was made later has other bytes")


def a_process_compact(program, folder):
    a_process(program, folder, "--compact")


def light(program, folder):
    _, recording = recorded(folder, False, "--light", "--spread", name="guest.light.pcwt")
    trace, behind = expect_whole(program, recording)
    expect("light:" in recording.output and "not the guest's memory" in recording.output, recording.output)
    expect(all(len(record[3]) == 1 for record in trace.records()), "a write has more than a byte")
    expect(len(behind) == STEPS, f"{len(behind)} writes for {STEPS} steps")


def signal_in_the_middle(program, folder, number=signal.SIGINT):
    with Writing(folder, False) as writing:
        recording = Recording(folder, writing.source, ["--for", "30s"])
        writing.go()
        time.sleep(STEPS * PACE / 2)
        recording.end(number)
    _, behind = expect_whole(program, recording)
    expect_in_time(0 < len(behind) < STEPS, f"{len(behind)} of {STEPS} steps")


def terminated_in_the_middle(program, folder):
    signal_in_the_middle(program, folder, signal.SIGTERM)


def given_length(program, folder):
    with Writing(folder, False) as writing:
        recording = Recording(folder, writing.source, ["--for", "300ms", "--tick", "100us"])
        writing.go()
        recording.end()
    trace, _ = expect_whole(program, recording)
    last = int(re.search(r"ticks 0 to (\d+)", recording.output)[1])
    expect_in_time(4000 <= last < 4000 + 10 * SLACK, f"300 ms end at tick {last} of 100 us")
    expect(trace.writes > 0, "nothing was recorded")


def shown_on_a_terminal(program, folder):
    terminal, end = pty.openpty()
    with Writing(folder, False) as writing:
        recording = Recording(folder, writing.source, ["--for", "300ms"], errors=end)
        recording.end()
    os.close(end)
    recording.faults = os.read(terminal, 1 << 16).decode()
    os.close(terminal)
    expect_whole(program, recording)
    shown = re.findall(r"\rrecord: [0-9.]+ s, (\d+) samples, \d+ writes", recording.faults.replace("\033[K", ""))
    expect(shown == sorted(shown, key=int), recording.faults)
    expect_in_time(len(shown) > 1, recording.faults)


def nobody_reads(program, folder):
    """If what it prints cannot be written any more, the recording goes on, and says so in the end."""
    path = os.path.join(folder, "guest.pcwt")
    for into, cause in (
        ("| head -n 1", "Broken pipe"),
        ("| true", "Broken pipe"),
        ("> /dev/full", "No space left on device"),
    ):
        with Writing(folder, False) as writing:
            words = [RECORD, *writing.source, "--every", "50ms", "--for", "400ms", path]
            command = ["sh", "-c", f'{{ "$@"; echo "status $?" >&2; }} {into}', "sh", *words]
            done = subprocess.run(command, capture_output=True, text=True, timeout=60)
        said = f"record: what it prints could not be written: {cause}\nstatus 0\n"
        # A reader that is late may take all that is printed.
        expect_in_time(done.stderr == said, f"{into}: {done.stderr!r}")
        with open(path, "rb") as file:
            made = subprocess.run([program, "image"], stdin=file, capture_output=True, timeout=60)
        expect(made.returncode == 0 and len(made.stdout) == PAGES * PAGE, f"{made.stderr!r}")
        os.unlink(path)


def named_as_called(_, folder):
    """A tool calls itself and others by the names that they have in the sources, or where they are installed."""
    for here, prefix in ((TOP, ""), (os.path.join(folder, "lib", "precopy"), "precopy-")):
        if prefix:
            for part in ("tools", "python"):
                shutil.copytree(os.path.join(TOP, part), os.path.join(here, part))
        for name, words in (
            ("record", ["--file", "none", "a.pcwt"]),
            ("thin", ["none", "a.pcwt", "--one-in", "2"]),
            ("export", ["none", "a.text"]),
            ("import", ["none", "a.pcwt"]),
            ("release", ["--after", "5", "none", "a.pcwt"]),
        ):
            command = [os.path.join(here, "tools", name), *words]
            done = subprocess.run(command, cwd=folder, capture_output=True, text=True, timeout=60)
            expect(done.returncode == 1 and done.stderr.startswith(f"{prefix}{name}: "), f"{name}: {done.stderr!r}")
        told = "from precopy_tools import version; print(version.called('record'), version.whence('precopy'))"
        environment = {**os.environ, "PYTHONPATH": os.path.join(here, "python")}
        command = [sys.executable, "-Bc", told]
        told = subprocess.run(command, env=environment, capture_output=True, text=True, timeout=60).stdout
        wanted = "precopy-record the package precopy has precopy\n" if prefix else "tools/record ./precopy builds it\n"
        expect(told == wanted, told)


def limited(program, folder, option, most, said, *words):
    """A limit that is reached in the middle of the steps."""
    with Writing(folder, False) as writing:
        recording = Recording(folder, writing.source, [option, str(most), *words])
        writing.go()
        recording.end()
    trace, behind = expect_whole(program, recording, 3)
    expect(said in recording.faults, recording.faults)
    expect_in_time(0 < len(behind) < STEPS, f"{len(behind)} of {STEPS} steps")
    return trace


# The first sample has 64 pages that are not zero: whole pages, each in a record.
FIRST_WRITES = sum(1 for number in range(PAGES) if number % 3)
FIRST_BYTES = 16 + FIRST_WRITES * (16 + PAGE)


def most_writes(program, folder):
    trace = limited(program, folder, "--limit-writes", FIRST_WRITES + STEPS // 2, f"{FIRST_WRITES + STEPS // 2} writes")
    expect(trace.writes <= FIRST_WRITES + STEPS // 2, f"{trace.writes} writes")


def most_bytes(program, folder):
    trace = limited(program, folder, "--limit-bytes", FIRST_BYTES + 1200, "bytes")
    expect(len(trace.text) <= FIRST_BYTES + 1200, f"{len(trace.text)} bytes")


def most_pages(program, folder):
    trace = limited(program, folder, "--limit-pages", FIRST_WRITES + 8, "pages", "--compact")
    expect(trace.pages <= FIRST_WRITES + 8, f"{trace.pages} pages")


def first_too_large(_, folder):
    for words in (
        ["--limit-writes", str(FIRST_WRITES - 1)],
        ["--limit-bytes", str(FIRST_BYTES - 1)],
        ["--limit-pages", str(PAGES - 1)],
        ["--compact", "--limit-pages", str(FIRST_WRITES - 1)],
    ):
        with Writing(folder, False) as writing:
            recording = Recording(folder, writing.source, words)
            recording.end()
        recording.expect_nothing(1, "record: ", "at most")


def guest_too_large(_, folder):
    path = os.path.join(folder, "memory")
    with open(path, "wb") as file:
        file.truncate(65_537 * PAGE)
    recording = Recording(folder, ["--file", path], [])
    recording.end()
    recording.expect_nothing(2, "65,537 pages", "pages are drawn", ".light.pcwt")


def process_ends(program, folder):
    with Writing(folder, True) as writing:
        recording = Recording(folder, writing.source, [])
        writing.go()
        time.sleep(0.3)
        writing.process.kill()
        writing.process.wait()
        recording.end()
    expect_whole(program, recording)
    expect("the process ended" in recording.faults, recording.faults)


def file_ends(program, folder):
    with Writing(folder, False) as writing:
        recording = Recording(folder, writing.source, [])
        time.sleep(0.2)
        os.truncate(writing.path, PAGE)
        recording.end()
    trace, _ = expect_whole(program, recording)
    expect(trace.pages == PAGES and "shorter" in recording.faults, recording.faults)


def bad_sources(_, folder):
    short, memory = write_file(b"123", folder, "socket"), write_file(bytes(PAGE), folder, "memory")
    for source, status, word in (
        (["--file", short], 1, "whole pages"),
        (["--file", folder], 1, "record: "),
        (["--file", os.path.join(folder, "none")], 1, "No such file"),
        (["--pid", "999999999"], 1, "there is no process 999999999"),
        (["--file", memory, "--pid", "1"], 2, "not allowed"),
        (["--file", memory, "--light"], 2, "image"),
        (["--file", memory, "--every", "5"], 2, "us, ms, s, m or h"),
        (["--file", memory, "--bandwidth", "1"], 2, "--bandwidth"),
        (["--file", memory, "--qmp", os.path.join(folder, "none")], 1, "none"),
    ):
        recording = Recording(folder, source, ["--image", os.path.join(folder, "image")])
        recording.end()
        recording.expect_nothing(status, word)
    for words, name, word in (
        (["--image", "-"], "guest.pcwt", "with a name"),
        (["--light"], "guest.pcwt", ".light.pcwt"),
        ([], "guest.light.pcwt", "drawn pages have no image"),
    ):
        recording = Recording(folder, ["--file", memory], words, name)
        recording.end()
        recording.expect_nothing(2, word)


# ---- A stand-in for QEMU's machine protocol.

# Where in a page the stand-in counts.
COUNTED = 4090


class Machine(threading.Thread):
    """Serves a number of connections on a socket, and notes each command. With each `stop` and `cont` the memory of the
    guest changes at once: a byte of each page counts them."""

    def __init__(self, path, memory, running, connections=2):
        super().__init__(daemon=True)
        self.asked, self.running, self.connections = [], running, connections
        self.memory, self.turns = memory, 0
        self.socket = socket.socket(socket.AF_UNIX)
        self.socket.bind(path)
        self.socket.listen()
        self.start()

    def run(self):
        for _ in range(self.connections):
            client, _ = self.socket.accept()
            with client, client.makefile("rw") as stream:
                self.say(stream, {"QMP": {}})
                for line in stream:
                    self.serve(stream, json.loads(line)["execute"])
        self.socket.close()

    def serve(self, stream, command):
        answer = {}
        if command == "query-status":
            answer = {"running": self.running}
        elif command in ("stop", "cont"):
            self.running = command == "cont"
            self.turn()
            self.say(stream, {"event": command.upper()})
        if command != "qmp_capabilities":
            self.asked.append(command)
        self.say(stream, {"return": answer})

    def turn(self):
        self.turns += 1
        with open(self.memory, "r+b", buffering=0) as file:
            for page in range(PAGES):
                os.pwrite(file.fileno(), bytes([self.turns]), page * PAGE + COUNTED)

    @staticmethod
    def say(stream, message):
        stream.write(json.dumps(message) + "\n")
        stream.flush()


def counted(memory):
    """The counts that stand in the pages of a memory, without those that were zero from the first on."""
    return {memory[page * PAGE + COUNTED] for page in range(PAGES)}


def paused(program, folder, running=True, connections=2):
    """The first and the last look see the guest while it is paused, and it runs in between."""
    path = os.path.join(folder, "socket")
    with Writing(folder, False) as writing:
        before = counted(ended(0))
        machine = Machine(path, writing.path, running, connections)
        recording = Recording(folder, writing.source, ["--qmp", path, "--for", "300ms"])
        recording.end()
    expect_whole(program, recording)
    once = ["query-status", "stop", "cont"] if running else ["query-status"]
    expect(machine.asked == once * connections, f"asked: {machine.asked}")
    expect(machine.running == running, "the guest's state is another one than before")
    first = counted(Trace.at(recording.trace_path).memory(1000))
    expect(first == ({1} if running else before), f"the first look sees the counts {first}")
    last = counted(recording.image())
    expect(last == ({2 * connections - 1 if connections > 1 else 2} if running else before), f"the last look: {last}")
    return recording


def paused_before(program, folder):
    paused(program, folder, running=False)


def machine_gone(program, folder):
    recording = paused(program, folder, connections=1)
    expect("was not paused for the last sample" in recording.faults, recording.faults)


class LateMachine(Machine):
    """One that answers `stop` when nobody waits for it any more."""

    def run(self):
        with contextlib.suppress(OSError):
            super().run()

    def serve(self, stream, command):
        time.sleep(1 if command == "stop" else 0)
        self.asked.append(command)
        with contextlib.suppress(OSError):
            self.say(stream, {"return": {"running": True}})


def stopped_late(_, folder):
    """A guest that is not stopped in time may be stopped later: it is told to go on."""
    path = os.path.join(folder, "socket")
    machine = LateMachine(path, "", True, connections=1)
    try:
        with qmp.paused(path, 0.3):
            raise AssertionError("it is stopped in time")
    except qmp.Fault as fault:
        expect("stop: no answer within 0.3 s" in str(fault), str(fault))
    machine.join(10)
    expect(machine.asked == ["qmp_capabilities", "query-status", "stop", "cont"], f"asked: {machine.asked}")


CASES = [
    *cases_of(__name__),
    *sample_cases.CASES,
    *memory_cases.CASES,
    *series_cases.CASES,
    *scan_cases.CASES,
    *compare_cases.CASES,
    *forecast_cases.CASES,
    *link_cases.CASES,
    *running_cases.CASES,
]


def check(tally, given):
    forecast_cases.VIEW[:] = [given.precopy_view]
    parts = sample_cases, memory_cases, series_cases, scan_cases
    need_writes, cause = set().union(*(part.NEED_WRITES for part in parts)), sample_cases.cause_of_no_writes()

    def case_of(case):
        """The case, or one that is left out since the kernel reports no writes."""

        @functools.wraps(case)
        def instead(*_):
            raise LeftOut(f"writes cannot be followed here: {cause}")

        return instead if cause and case in need_writes else case

    cases = list(map(case_of, CASES))
    run_cases(tally, cases, given.precopy, at_once=AT_ONCE, only=given.only)


if __name__ == "__main__":
    run_main(check, __doc__, "precopy", "precopy_view")
