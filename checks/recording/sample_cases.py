"""Cases of checks/recording: recordings of drawn pages, by writes and by values, and what may go wrong with them."""

import os
import resource
import signal
import subprocess
import sys
import tempfile
import time

from checks.lib import harness
from checks.lib.harness import cases_of, expect
from checks.lib.tally import expect_in_time
from checks.recording.recorder_runs import RECORD
from checks.recording.sample_runs import PAGE, PAGES, Drawn, Pages
from precopy_dev.files import write_file
from precopy_tools.formats import samples
from precopy_tools.record import mappings

STEPS, WRITES = 5, 60
# What a recorder of too little memory may take; one that ends takes half a second.
SECONDS_OF_A_PROCESSOR = 6


def written_again(drawn, pages, places, draws):
    """Writes pages in steps, most of them drawn: each page once, and those of the first step once more at the end."""
    inside = [page for page in range(pages.pages) if pages.address + page * PAGE in places]
    apart = draws.sample(inside, min(len(inside), STEPS * WRITES) // 2)
    apart = list(dict.fromkeys(apart + draws.sample(range(pages.pages), STEPS * WRITES - len(apart))))
    draws.shuffle(apart)
    steps = [apart[at : at + WRITES] for at in range(0, len(apart), WRITES)]
    for step in [*steps, steps[0]]:
        before = drawn.bytes()
        expect(pages.write(step) == 0, "a system call of the process was disturbed")
        if any(pages.address + page * PAGE in places for page in step):
            drawn.wait_for_more_than(before)
    return steps


def times_written(drawn):
    """How often each page of the source was written from tick 1000 on, by its place."""
    _, written, _ = drawn.read()
    places, times = drawn.places(), {}
    for tick, page in written:
        if tick > 1000:
            times[places[page]] = times.get(places[page], 0) + 1
    return times


def drawn_places(pages, wanted, seed):
    """The addresses of the pages that a recorder draws."""
    ranges = mappings.chosen(pages.process.pid, [pages.range])
    count = sum(end - begin for begin, end in ranges) // PAGE
    return set(mappings.places_of(ranges, samples.draw(count, wanted, seed)))


def expect_exact(known, found):
    missed = sum(max(0, count - found.get(place, 0)) for place, count in known.items())
    false = sum(max(0, count - known.get(place, 0)) for place, count in found.items())
    expect(not missed and not false, f"{missed} missed and {false} false of {sum(known.values())} writes")
    expect(sum(known.values()) >= 20, f"only {sum(known.values())} writes were of drawn pages")


def exact(folder, kind, pages_of_it, wanted, method="writes", words=(), tool=RECORD):
    """No write is missed, and none is there that was not made: of all pages, or of those that are drawn."""
    with Pages(kind, pages_of_it, *(["changing"] if method == "values" else [])) as pages:
        expect(kind != "huge" or pages.huge_bytes(), "the process has no huge pages")
        places = drawn_places(pages, wanted, 5)
        words = ["--pages", str(wanted), "--seed", "5", "--by", method, *words]
        drawn = Drawn(folder, pages.source, words, tool=tool)
        steps = written_again(drawn, pages, places, harness.draws(kind))
        drawn.end(signal.SIGINT)
        pages.expect_as_before()
    _, _, sample = drawn.expect_whole()
    expect(sample.method == method and sample.guest_pages >= pages_of_it, f"{sample}")
    expect(sample.sampled_pages == min(wanted, sample.guest_pages), f"{sample}")
    known = {}
    for page in [page for step in steps for page in step] + steps[0]:
        place = pages.address + page * PAGE
        if place in places:
            known[place] = known.get(place, 0) + 1
    expect_exact(known, times_written(drawn))


def exact_private(_, folder):
    exact(folder, "private", PAGES, 16_384)


def exact_shared(_, folder):
    exact(folder, "shared", PAGES, 16_384)


def exact_huge(_, folder):
    exact(folder, "huge", PAGES, 16_384)


def exact_of_few(_, folder):
    """Each drawn page asked for by itself, found by a survey of all memory, or of those that are near one another."""
    for kind in ("private", "shared", "huge"):
        for words in (["--scan", "pages"], ["--scan", "whole"], []):
            exact(folder, kind, 1 << 14, 200, words=words)


def exact_by_values(_, folder):
    """Also of pages that have no memory at first."""
    for kind in ("private", "shared"):
        exact(folder, kind, PAGES, 16_384, "values")


def mapped_anew(_, folder, tool=RECORD):
    """Memory that is mapped anew is watched from then on, and nothing of the other is lost."""
    for scan in ("pages", "whole"):
        with Pages("private", PAGES) as pages:
            places = drawn_places(pages, 700, 5)
            words = ["--pages", "700", "--seed", "5", "--by", "writes", "--scan", scan]
            drawn = Drawn(folder, pages.source, words, tool=tool)
            before = drawn.bytes()
            pages.write(range(0, PAGES // 4, 5))
            pages.map_anew(PAGES // 2, PAGES)
            drawn.wait_for_more_than(before)
            before = drawn.bytes()
            written = [*range(1, PAGES // 4, 5), *range(PAGES // 2, PAGES, 7)]
            pages.write(written)
            drawn.wait_for_more_than(before)
            drawn.end(signal.SIGINT)
        drawn.expect_whole()
        known = {pages.address + page * PAGE: 1 for page in [*range(0, PAGES // 4, 5), *written]}
        known, anew = {place: 1 for place in known if place in places}, pages.address + PAGES // 2 * PAGE
        found = times_written(drawn)
        expect_exact({place: 1 for place in known if place < anew}, {p: n for p, n in found.items() if p < anew})
        later = {place for place in known if place >= anew}
        # Other pages than before, so all of them may be reported once more.
        once = max((times for place, times in found.items() if place >= anew and place not in later), default=0)
        missed = sum(found.get(place, 0) <= once for place in later)
        expect(not missed and len(later) >= 20, f"{missed} of {len(later)} writes missed")
        expect(once <= 1, f"pages that were not written are told {once} times")
        for name in os.listdir(folder):
            os.unlink(os.path.join(folder, name))


# ---- What may end a recording.


def killed_recorder(_, folder):
    """Killed at any moment, the process goes on as it was, and there is no trace."""
    draws = harness.draws("kills")
    with Pages("private") as pages:
        for _ in range(30):
            command = [RECORD, *pages.source, "--by", "writes", os.path.join(folder, "a.light.pcwt")]
            recorder = subprocess.Popen(command, stdout=subprocess.PIPE, stderr=subprocess.DEVNULL)
            end = time.monotonic() + draws.uniform(0.05, 1.2)
            while time.monotonic() < end:
                expect(pages.write(draws.sample(range(PAGES), 20)) == 0, "a system call was disturbed")
            recorder.kill()
            # Until its helper has ended too, which may stop the process a moment later.
            recorder.communicate()
            pages.expect_as_before()
    left = [name for name in os.listdir(folder) if not name.endswith(".part")]
    expect(not left, f"left: {left}")


def killed_recorder_while_opening(_, folder):
    """As before, in the milliseconds in which the process is stopped for its system call."""
    with Pages("shared") as pages:
        for number in range(30):
            waiting = (
                "import time; from precopy_tools.record import remote; print(flush=True); time.sleep(0.001); "
                f"remote.open_userfaultfd({pages.process.pid})"
            )
            opener = subprocess.Popen([sys.executable, "-c", waiting], stdout=subprocess.PIPE)
            opener.stdout.readline()
            time.sleep(0.0002 * number)
            opener.kill()
            opener.communicate()
            pages.expect_as_before()


def killed_process(_, folder):
    with Pages("private") as pages:
        drawn = Drawn(folder, pages.source, ["--by", "writes"])
        pages.write(range(100))
        time.sleep(0.3)
        pages.process.kill()
        pages.process.wait()
        drawn.end()
    _, written, _ = drawn.expect_whole()
    expect("the process ended" in drawn.faults, drawn.faults)
    expect_in_time(len([1 for tick, _ in written if tick > 1000]) == 100, f"{len(written)} writes")


def process_ends_during_a_look(_, folder):
    with Pages("private") as pages:
        drawn = Drawn(folder, pages.source, ["--by", "writes"], "process_ends")
        drawn.end()
        pages.expect_as_before()
    drawn.expect_whole()
    expect("the process ended" in drawn.faults, drawn.faults)


def signals(_, folder):
    for number in (signal.SIGINT, signal.SIGTERM):
        with Pages("huge") as pages:
            drawn = Drawn(folder, pages.source, ["--by", "writes", "--for", "30s"])
            pages.write(range(50))
            drawn.end(number)
            pages.expect_as_before()
        drawn.expect_whole()


def memory_runs_out(_, folder):
    """With less and less memory there is a whole trace, or none and a cause, and the process goes on as it was."""
    statuses = set()
    with Pages("private", 1 << 14) as pages:
        for limit in (400, 64, 48, 40, 36, 34, 32, 30, 28):

            def limited(most=limit << 20):
                resource.setrlimit(resource.RLIMIT_AS, (most, most))
                # Python 3.11 unwinds for ever if it lacks the memory for a number meanwhile: then the kernel ends it.
                resource.setrlimit(resource.RLIMIT_CPU, (SECONDS_OF_A_PROCESSOR, SECONDS_OF_A_PROCESSOR))

            drawn = Drawn(folder, pages.source, ["--by", "writes", "--for", "200ms"], preexec_fn=limited)
            drawn.end(seconds=20 * SECONDS_OF_A_PROCESSOR)
            pages.expect_as_before()
            statuses.add(drawn.status)
            if drawn.status == 0:
                drawn.expect_whole()
            names = os.listdir(folder)
            expect(drawn.status == 0 or "guest.light.pcwt" not in names, f"status {drawn.status}, {names}")
            for name in names:
                os.unlink(os.path.join(folder, name))
    expect(0 in statuses and statuses - {0}, f"statuses {statuses}")


# ---- Causes for which writes cannot be followed.


def falls_back(folder, pages, told, cause=None):
    """Without --by the recorder compares values and says why; with --by writes it refuses."""
    drawn = Drawn(folder, pages.source, ["--for", "200ms"], cause)
    drawn.end()
    _, _, sample = drawn.expect_whole()
    expect(sample.method == "values", f"by {sample.method}")
    line = [line for line in drawn.output.split("\n") if line.startswith("by values, since")]
    expect(len(line) == 1 and told in line[0], f"{told!r} is not in {drawn.output!r}")
    for name in os.listdir(folder):
        os.unlink(os.path.join(folder, name))
    drawn = Drawn(folder, pages.source, ["--for", "200ms", "--by", "writes"], cause)
    drawn.end()
    drawn.expect_nothing(1, "record: ", told)


def causes_stood_in(_, folder):
    for cause, said in (
        ("old_kernel", "older than 6.7"),
        ("no_userfaultfd", "CONFIG_USERFAULTFD"),
        ("huge_pages", "hugetlb"),
        ("no_permission", "no permission to trace"),
        ("other_machine", "made for x86-64"),
    ):
        with Pages("private") as pages:
            falls_back(folder, pages, said, cause)
            pages.expect_as_before()


def other_userfaultfd(_, folder):
    with Pages("shared", PAGES, "watched") as pages:
        falls_back(folder, pages, "another userfaultfd")
        expect(pages.write(range(40)) == 0, "a system call of the process was disturbed")


def beside_another_recorder(_, folder):
    """A second recorder of the same memory says what may watch it, and the first one goes on by writes."""
    places = [os.path.join(folder, name) for name in ("first", "second")]
    for place in places:
        os.makedirs(place)
    with Pages("private") as pages:
        first = Drawn(places[0], pages.source, ["--by", "writes"])
        falls_back(places[1], pages, ": another recorder, a post-copy migration, or a background snapshot")
        pages.write(range(100))
        first.end(signal.SIGINT)
        _, written, sample = first.expect_whole()
        pages.expect_as_before()
    later = {page for tick, page in written if tick > 1000}
    expect(sample.method == "writes" and len(later) > 50, f"by {sample.method}, {len(later)} pages")


def traced_already(_, folder):
    with Pages("private") as pages:
        trace = (
            "import ctypes, sys, time; ctypes.CDLL(None).ptrace(0x4206, int(sys.argv[1]), None, None); "
            "print(flush=True); time.sleep(60)"
        )
        tracer = subprocess.Popen([sys.executable, "-c", trace, str(pages.process.pid)], stdout=subprocess.PIPE)
        tracer.stdout.readline()
        falls_back(folder, pages, f"process {tracer.pid} traces it")
        tracer.kill()
        tracer.communicate()
        pages.expect_as_before()


def stopped_process(_, folder):
    with Pages("private") as pages:
        pages.process.send_signal(signal.SIGSTOP)
        time.sleep(0.1)
        falls_back(folder, pages, "is not running")
        pages.process.send_signal(signal.SIGCONT)
        time.sleep(0.1)
        expect(pages.write(range(40)) <= 1, "more than the stop disturbed the process")


def filtered_process(_, folder):
    """A process that the system call would kill: its filter is suspended, or it is left alone."""
    with Pages("private", PAGES, "filtered") as pages:
        drawn = Drawn(folder, pages.source, ["--for", "300ms"])
        pages.write(range(100))
        drawn.end()
        _, _, sample = drawn.expect_whole()
        refused = "seccomp filter cannot be suspended" in drawn.output
        expect(sample.method == ("values" if refused else "writes"), drawn.output)
        pages.expect_as_before()


# ---- Larger guests, files, and words.


def larger_than_a_trace(_, folder):
    with Pages("private", 70_000) as pages:
        drawn = Drawn(folder, ["--pid", str(pages.process.pid)], ["--seed", "9"])
        pages.write(range(0, 70_000, 5))
        drawn.end(signal.SIGINT)
        pages.expect_as_before()
    trace, written, sample = drawn.expect_whole()
    expect(sample.guest_pages > 70_000 and sample.sampled_pages == samples.DEFAULT_PAGES, f"{sample}")
    expect(sample.seed == 9 and abs(sample.guest_nonzero / 46_667 - 1) < 0.1, f"{sample}")
    mine = {(place - pages.address) // PAGE for place in drawn.places()} & set(range(70_000))
    found = {(place - pages.address) // PAGE for place in times_written(drawn)}
    expect(len(mine) > 8_000 and {page for page in mine if page % 5 == 0} <= found, "writes are missed")
    expect(trace.pages >= sample.sampled_nonzero > 8_000, f"{sample}")


def a_sparse_file(_, folder):
    """By values: what changes is seen, and what has no memory gets none."""
    where = "/dev/shm" if os.path.isdir("/dev/shm") else folder
    count = 1 << 18
    with tempfile.NamedTemporaryFile(dir=where) as file:
        file.truncate(count * PAGE)
        for page in range(0, count, 64):
            os.pwrite(file.fileno(), b"\x07", page * PAGE)
        blocks = os.fstat(file.fileno()).st_blocks
        drawn = Drawn(folder, ["--file", file.name], ["--pages", "8192", "--seed", "3"])
        numbers = samples.draw(count, 8192, 3)
        there = [page for page in numbers if page % 64 == 0]
        absent = [page for page in numbers if page % 64 == 1]
        for page in there[::2] + absent:
            os.pwrite(file.fileno(), b"\x09", page * PAGE + 100)
        time.sleep(0.4)
        drawn.end(signal.SIGTERM)
        grown = os.fstat(file.fileno()).st_blocks - blocks
    _, _, sample = drawn.expect_whole()
    expect(sample.method == "values" and sample.sampled_nonzero == len(there), f"{sample}")
    expect(grown <= len(absent) * PAGE // 512, f"{grown} blocks more in the file")
    expect_exact({page * PAGE: 1 for page in there[::2] + absent}, times_written(drawn))


def a_file_that_ends(_, folder):
    path = write_file(b"\x01" * (4000 * PAGE), folder, "memory")
    drawn = Drawn(folder, ["--file", path], ["--one-in", "4"])
    time.sleep(0.2)
    os.truncate(path, PAGE)
    drawn.end()
    _, _, sample = drawn.expect_whole()
    expect("shorter" in drawn.faults and sample.sampled_pages == 1000, drawn.faults)


def most_writes_drawn(_, folder):
    with Pages("private") as pages:
        drawn = Drawn(folder, pages.source, ["--limit-writes", str(PAGES)])
        for _ in range(6):
            pages.write(range(0, PAGES, 3))
            time.sleep(0.15)
        drawn.end()
        pages.expect_as_before()
    trace, _, _ = drawn.expect_whole(3)
    expect(PAGES * 2 // 3 < trace.writes <= PAGES and "at most 2,048 writes" in drawn.faults, drawn.faults)


def bad_words(_, folder):
    memory = os.path.join(folder, "memory")
    with open(memory, "wb") as file:
        file.truncate(70_000 * PAGE)
    for words, status, said in (
        (["--pages", "65537"], 2, "at most 65,536"),
        (["--pages", "0"], 2, "whole number from 1"),
        (["--one-in", "x"], 2, "whole number from 1"),
        (["--one-in", "1"], 1, "--one-in 2"),
        (["--pages", "5", "--one-in", "5"], 2, "not allowed with"),
        (["--by", "writes"], 2, "needs a process"),
        (["--by", "magic"], 2, "invalid choice"),
        (["--pages", "5", "--qmp", "socket"], 2, "leave out --qmp"),
        (["--pages", "5", "--image", "image"], 2, "leave out --image"),
        (["--seed", "-1"], 2, "--seed"),
    ):
        drawn = Drawn(folder, ["--file", memory], words)
        drawn.end()
        drawn.expect_nothing(status, said)
    drawn = Drawn(folder, ["--pid", str(os.getpid()), "--mapping", "/no/file"])
    drawn.end()
    drawn.expect_nothing(1, "--mapping /no/file")


def cause_of_no_writes():
    """Why this machine reports no writes, or None if it does."""
    with tempfile.TemporaryDirectory() as folder, Pages("private") as pages:
        drawn = Drawn(folder, pages.source, ["--for", "50ms"])
        drawn.end()
        causes = [line for line in drawn.output.split("\n") if line.startswith("by values, since")]
    return causes[0].partition(": ")[2] if causes else None


CASES = cases_of(__name__)
NEED_WRITES = {*CASES} - {exact_by_values, a_sparse_file, a_file_that_ends, bad_words}
