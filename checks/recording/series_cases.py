"""Cases of checks/recording: series, which are recordings in segments, and what may end one."""

import os
import re
import resource
import signal
import subprocess
import tempfile
import time
import uuid

from checks.lib import harness
from checks.lib.harness import cases_of, expect, waited
from checks.lib.tally import LeftOut, expect_in_time
from checks.recording.memory_cases import Known, virsh_in
from checks.recording.recorder_runs import RECORD, SECONDS, TOP, Started, recorder
from checks.recording.sample_runs import PAGE, PAGES, Pages
from precopy_dev.files import read_text, write_file
from precopy_tools.evacuate import records
from precopy_tools.formats import samples, traces
from precopy_tools.record import series

NAME = "guest.light.pcwt"
SEGMENT = re.compile(
    r"^segment (guest\.\d{8}T\d{6}Z\.light\.pcwt): [\d,]+ writes in [\d.]+ (?:us|ms|s), \d+ looks, \d+ late"
)
STEPS, STEP = 14, 40
PAUSES = 0.06, 0.5
OTHERS = (
    "guest.light.json",
    "guest.20260101T000000Z.light.pcwt.old",
    "guest2.20260101T000000Z.light.pcwt",
    "xguest.20260101T000000Z.light.pcwt",
    "guest.2026.light.pcwt",
    ".guest.20260101T000000Z.light.pcwt.part",
)


class Segments(Started):
    """A run of tools/record that writes a series into a folder."""

    def __init__(self, folder, source, *words, cause=None, **more):
        words = [*recorder(cause), *source, "--every", "50ms", "--segment", "1s", *words]
        super().__init__(folder, words, os.path.join(folder, NAME), **more)

    def bytes(self):
        """How much of the segment that is written is there."""
        names = [name for name in os.listdir(self.folder) if name.endswith(".part") and ".pcwt." in name]
        return sum(os.path.getsize(os.path.join(self.folder, name)) for name in names)

    @staticmethod
    def wait_for(holds):
        expect(waited(holds, 2 * SECONDS), "the recorder does not go on")

    def told(self):
        """The names of the segments that it has told."""
        return [match[1] for match in map(SEGMENT.match, self.output.split("\n")) if match]


def segments_in(folder):
    """Each segment of a folder as (path, trace, writes as tick and page, sample); all of them are whole."""
    found = []
    for path in series.Series(os.path.join(folder, NAME)).paths():
        trace, records = traces.read_file(path)
        written = [record[:2] for record in records]
        found.append((path, trace, written, samples.read(path, trace, written)))
    return found


def expect_no_parts(folder):
    left = [name for name in os.listdir(folder) if name.endswith(".part") and name not in OTHERS]
    expect(not left, f"left: {left}")


def filled_of(count):
    """The pages that are not zero at first, of so many."""
    return [page for page in range(count) if page % 3]


def written_in(found, count):
    """How often each page was written in all segments. Pages that are not zero at first are numbered in their order."""
    filled = filled_of(count)
    times = {}
    for _, _, written, _ in found:
        for tick, number in written:
            if tick > 1000:
                page = filled[number]
                times[page] = times.get(page, 0) + 1
    return times


def exact_series(folder, draws, *words, steps=STEPS, size=STEP, pauses=PAUSES, count=PAGES):
    """Whenever a page is written, it is in one segment, once. Each is written once, in one of the steps."""
    with Pages("private", count) as pages:
        run = Segments(folder, pages.source, *words)
        to_write = draws.sample(filled_of(count), steps * size)
        for at in range(0, len(to_write), size):
            pages.write(to_write[at : at + size])
            time.sleep(draws.uniform(*pauses))
        time.sleep(0.2)
        run.end(signal.SIGINT)
        pages.expect_as_before()
    # If looks are late, one interval may have more than a segment takes.
    expect_in_time("the series ended after" not in run.faults, run.faults)
    expect(run.status == 0, f"status {run.status}, {run.output!r}, {run.faults!r}")
    found = segments_in(folder)
    times = written_in(found, count)
    expect(len(times) == steps * size, f"{len(times)} pages")
    # A store whose fault is served just before a look may be stored after it, and then the next look tells it too.
    twice = sum(times.values()) - len(times)
    expect(twice <= 1, f"{twice} more than one write of each page")
    expect(run.told() == [os.path.basename(path) for path, *_ in found], run.output)
    expect_no_parts(folder)
    for (_, _, _, before), (_, _, _, after) in zip(found, found[1:]):
        expect((before.seed, before.counted_pages) == (after.seed, after.counted_pages), "other pages are drawn")
        expect(before.taken_at <= after.taken_at, f"{before.taken_at}, {after.taken_at}")
    return run, found


def nothing_lost(_, folder):
    """Over several segments."""
    for draws in harness.drawn("series", range(2)):
        with tempfile.TemporaryDirectory(dir=folder) as each:
            _, found = exact_series(each, draws)
            expect_in_time(len(found) >= 3, f"{len(found)} segments")
    # Also in the milliseconds in which one segment ends and the next one begins.
    with tempfile.TemporaryDirectory(dir=folder) as each:
        one_by_one = {"steps": 6000, "size": 1, "pauses": (0.0004, 0.0006), "count": 1 << 14}
        _, found = exact_series(each, harness.draws("one by one"), **one_by_one)
        expect_in_time(len(found) >= 4, f"{len(found)} segments")


def full_segments(_, folder):
    """A segment that is full is followed by the next one, which has what found no room."""
    filled = len(filled_of(PAGES))
    words = ["--segment", "60s", "--limit-writes", str(filled + 8 * STEP)]
    run, found = exact_series(folder, harness.draws("full"), *words)
    expect(len(found) >= 2, f"{len(found)} segments")
    expect(run.output.count("; ended early: a trace has at most") == len(found) - 1, run.output)


def full_from_the_first(_, folder):
    """If even one interval does not fit, the series ends by words, and what there is is whole."""
    filled = len(filled_of(PAGES))
    with Pages("private") as pages:
        run = Segments(folder, pages.source, "--limit-writes", str(filled + 5))
        for _ in range(8):
            pages.write(range(0, PAGES, 2))
            time.sleep(0.06)
        run.end()
    expect(run.status == 3 and "the series ended after" in run.faults, f"{run.status}, {run.faults!r}")
    expect_in_time(1 <= len(segments_in(folder)) <= 3, f"{os.listdir(folder)}")
    expect_no_parts(folder)


def killed_twice(_, folder):
    """A recorder that is killed loses the segment that it was writing, and no other; the next one cleans up."""
    draws = harness.draws("killed")
    with Pages("private") as pages:
        told, before = [], set()
        for _ in range(2):
            run = Segments(folder, pages.source)
            for _ in range(draws.randrange(15, 30)):
                pages.write(draws.sample(range(PAGES), 50))
                time.sleep(0.1)
            run.end(signal.SIGKILL)
            told += run.told()
            names = {os.path.basename(path) for path, *_ in segments_in(folder)}
            expect(set(run.told()) <= names - before, f"{run.output!r}, {names}")
            expect(len(names - before) - len(run.told()) <= 1, f"{names} are more than told: {told}")
            before = names
            pages.expect_as_before()
        parts = [name for name in os.listdir(folder) if name.endswith(".part")]
        expect(len(parts) <= 2, f"parts: {parts}")
        run = Segments(folder, pages.source, "--for", "2200ms")
        run.end()
        pages.expect_as_before()
    said = f"removed: {len(parts)} unfinished files" if parts else "recording"
    expect(run.status == 0 and said in run.output, f"{run.output!r}, {run.faults!r}")
    expect_in_time(len(segments_in(folder)) >= len(before) + 2, f"{os.listdir(folder)}")
    expect_no_parts(folder)


def kept_segments(_, folder):
    """The last ones are kept. No other file is touched, whatever it is called."""
    for name in OTHERS:
        write_file(name, folder, name)
    with Pages("private") as pages:
        run = Segments(folder, pages.source, "--keep", "2", "--for", "5200ms")
        run.end()
    expect(run.status == 0, f"{run.status}, {run.faults!r}")
    expect_in_time(len(run.told()) >= 3, run.output)
    wanted = {*OTHERS}
    for name in run.told()[-2:]:
        wanted |= {name, samples.path_beside(name)}
    expect(set(os.listdir(folder)) == wanted, f"{sorted(os.listdir(folder))}")


def clocks_that_were_ahead(_, folder):
    """Of segments that are kept the newest is one, also beside others that were named by a clock that was ahead."""
    ahead = [f"guest.2099010{day}T000000Z.light.pcwt" for day in (1, 2, 3)]
    for name in ahead:
        write_file(name, folder, name)
    with Pages("private") as pages:
        run = Segments(folder, pages.source, "--keep", "2", "--for", "1200ms")
        run.end()
    expect(run.status == 0 and run.told(), f"{run.status}, {run.faults!r}")
    kept = {name for name in os.listdir(folder) if name.endswith(".pcwt")}
    expect(kept == {*ahead[2:], *run.told()} if len(run.told()) == 1 else kept == {*run.told()[-2:]}, f"{kept}")


def clocks_that_are_set(_, folder):
    """A segment in which a clock is set that was days ahead has its right name, and so have those after it, in order.
    The last whole one stands for the guest, and no name is given twice."""
    memory = write_file(bytes(PAGES * PAGE), folder, "memory")
    run = Segments(folder, ["--file", memory], "--for", "5200ms", cause="clock_ahead")
    run.end()
    told, now = run.told(), f"guest.{time.strftime(series.STAMP, time.gmtime())}.z"
    ahead = [name for name in told if name > now]
    expect(told == sorted(ahead) + sorted({*told} - {*ahead}), f"{now}: {run.output}")
    expect_in_time(len(ahead) == 3 and len(told) > 4, f"{now}: {run.output}")
    paths = [path for path, *_ in segments_in(folder)]
    expect(len(paths) == len(told) and records.last_of(paths[::-1]).endswith(told[-2]), f"{paths}")
    write_file("", folder, "other.20261201T110000Z.light.pcwt")
    other, moments = series.Series(os.path.join(folder, "other.light.pcwt")), ("09T12:00", "09T11:30", "09T11:00")
    names = [other.path_for(f"2026-12-{at}:00+00:00") for at in (*moments, "01T11:00", "01T10:30")]
    names = [os.path.basename(name)[6:-11] for name in names]
    wanted = ["20261209T120000Z", "20261209T120001Z", "20261209T110000Z", "20261201T110001Z", "20261201T110002Z"]
    expect(names == wanted, f"{names}")


def closed_terminals(_, folder):
    """A terminal that is closed ends a series as SIGTERM does, but for one that nohup has begun."""
    memory = write_file(bytes(PAGES * PAGE), folder, "memory")
    for by in signal.SIG_DFL, signal.SIG_IGN:
        before = {"preexec_fn": lambda by=by: signal.signal(signal.SIGHUP, by)}
        run = Segments(folder, ["--file", memory], "--for", "2200ms", **before)
        run.end(signal.SIGHUP)
        expect(run.status == 0 and not run.faults, f"{by!r}: {run.status}, {run.faults!r}")
        expect((len(run.told()) > 1) == (by == signal.SIG_IGN), f"{by!r}: {run.output!r}")
    expect_no_parts(folder)


def guest_of_a_series_ends(_, folder):
    with Pages("private") as pages:
        run = Segments(folder, pages.source)
        run.wait_for(lambda: segments_in(folder))
        before = run.bytes()
        pages.write(range(100))
        run.wait_for(lambda: run.bytes() > before)
        time.sleep(0.1)
        pages.process.kill()
        pages.process.wait()
        run.end()
    expect(run.status == 0 and "the process ended" in run.faults, f"{run.status}, {run.faults!r}")
    found = segments_in(folder)
    # Beside other work a segment may end between the writes and the end of the guest.
    later = [sum(tick > 1000 for tick, _ in written) for _, _, written, _ in found]
    expect_in_time(len(found) > 1 and sum(later) == 100, f"writes in the segments: {later}")
    expect_no_parts(folder)


def values_of_a_series(_, folder):
    """By values each segment begins with the pages that are not zero then."""
    path = write_file(bytes(PAGES * PAGE), folder, "memory")
    run = Segments(folder, ["--file", path])
    for number in range(30):
        with open(path, "r+b") as file:
            file.seek(number * PAGE)
            file.write(bytes([number + 1]))
        time.sleep(0.1)
    run.end(signal.SIGINT)
    expect(run.status == 0, f"{run.status}, {run.faults!r}")
    found = segments_in(folder)
    counts = [sample.sampled_nonzero for *_, sample in found]
    expect(counts == sorted(counts), f"{counts}")
    expect_in_time(counts[0] <= 1 and counts[-1] >= 20, f"{counts}")
    later = sum(1 for _, _, written, _ in found for tick, _ in written if tick > 1000)
    expect_in_time(later == 30, f"{later} changes of 30")


def no_room_left(_, folder):
    """A file that cannot grow: the segment is whole, with its NAME.json, and words."""
    with Pages("private") as pages:

        def limit():
            resource.setrlimit(resource.RLIMIT_FSIZE, (40_000, 40_000))

        run = Segments(folder, pages.source, preexec_fn=limit)
        for _ in range(12):
            pages.write(range(PAGES))
            time.sleep(0.06)
        run.end()
        expect(run.status == 3 and "File too large" in run.faults, f"{run.status}, {run.faults!r}")
        expect(len(segments_in(folder)) == 1, f"{os.listdir(folder)}")
        expect_no_parts(folder)


def a_full_disk(_, folder):
    """A disk of its own that is full: the segments are whole, with words."""
    disk = os.path.join(folder, "disk")
    os.mkdir(disk)
    mounted = subprocess.run(["mount", "-t", "tmpfs", "-o", "size=160k", "none", disk], capture_output=True)
    if mounted.returncode:
        raise LeftOut(f"no disk can be mounted: {mounted.stderr.decode()}")
    try:
        with Pages("private") as pages:
            run = Segments(disk, pages.source)
            for _ in range(40):
                pages.write(range(PAGES))
                time.sleep(0.06)
            run.end()
        expect(run.status == 3 and "No space left on device" in run.faults, f"{run.status}, {run.faults!r}")
        found = segments_in(disk)
        expect(found and found[-1][2], f"{os.listdir(disk)}")
        expect(run.told() == [os.path.basename(path) for path, *_ in found], run.output)
        expect_no_parts(disk)
    finally:
        subprocess.run(["umount", disk], check=True)


def words_of_a_series(_, folder):
    with Pages("private") as pages:
        first = Segments(folder, pages.source)
        second = Segments(folder, pages.source)
        second.end()
        expect(second.status == 1 and "another recorder writes this series" in second.faults, second.faults)
        first.end(signal.SIGTERM)
        expect(first.status == 0 and first.told(), f"{first.status}, {first.faults!r}")
        before = sorted(os.listdir(folder))
        for words, said in (
            (["--segment", "900ms"], "--segment is 1s or more"),
            (["--segment", "1s", "--every", "600ms"], "--segment is 1s or more"),
            (["--segment", "1s", "--map", "map"], "--segment is 1s or more"),
            (["--segment", "1x"], "us, ms, s, m or h"),
            (["--segment", "1s", "--keep", "0"], "whole number from 1"),
            (["--segment", "1s", "--image", "image"], "leave out --image"),
        ):
            run = Segments(folder, pages.source, *words)
            run.end()
            expect(run.status == 2 and said in run.faults, f"{words}: {run.status}, {run.faults!r}")
        command = [RECORD, *pages.source, "--keep", "2", os.path.join(folder, NAME)]
        done = subprocess.run(command, capture_output=True, text=True, timeout=4 * SECONDS)
        expect(done.returncode == 2 and "--keep goes with --segment" in done.stderr, done.stderr)
        expect(sorted(os.listdir(folder)) == before, f"{os.listdir(folder)}")


def service_of_a_guest(_, folder):
    """What the service file says is run, with a guest of libvirt: it is accepted, and a stop ends it well."""
    identity = uuid.uuid4()
    unit = read_text(TOP, "packaging", "precopy-record@.service")
    words = re.search(r"^ExecStart=precopy-record (.*)$", unit, re.M)[1].split()
    expect("$OPTIONS" in words, f"{words}")
    *words, path = [word.replace("%I", "known") for word in words if word != "$OPTIONS"]
    path = path.replace("known", "guest")
    layout = {"nodes": [["a", "private", 600], ["b", "memfd", 500]], "code": 5000}
    with Known(folder, layout, "-uuid", str(identity)) as known:
        path, environment = os.path.join(folder, os.path.basename(path)), virsh_in(folder, known, identity)
        run = Started(folder, [RECORD, *words], path, env=environment)
        time.sleep(0.3)
        known.ask("write")
        time.sleep(0.3)
        run.end(signal.SIGTERM, 4 * SECONDS)
        expect(run.status == 0 and not run.faults, f"{run.status}, {run.faults!r}")
    found = segments_in(folder)
    expect(len(found) == 1 and found[0][3].guest_pages == 1100, f"{found[0][3] if found else os.listdir(folder)}")
    expect_in_time(sum(tick > 1000 for tick, _ in found[0][2]) == 1100, f"{len(found[0][2])} writes")


NEED_WRITES = {
    nothing_lost,
    full_segments,
    full_from_the_first,
    guest_of_a_series_ends,
    killed_twice,
    no_room_left,
    a_full_disk,
    words_of_a_series,
}
CASES = cases_of(__name__)
