"""Migrates a process by an engine that is not precopy's, examples/c/sender.c, and checks its migrations under load.

    checks/run sending [PRECOPY]

The memory that the sender had at the stop shows that its trace is true: the library and the program make the same of
it. The destination must have this memory
too, and nothing is wrong in its streams by checks/lib/stream_model.py. Then five bugs are planted in the engine
(checks/sending/bugs.py), and each must be found by its own sign, in every run. Four migrations run at a time, with up
to eight threads that write.

Protections of pages are taken away by the kernel, or by a thread. What this kernel does not offer is left out. It needs
`cc`; `make lib` builds the library if need be. A migration is a case.
"""

import errno
import multiprocessing
import os
import re
import subprocess
import tempfile
import traceback
from concurrent.futures import ProcessPoolExecutor
from dataclasses import dataclass
from typing import NamedTuple

from checks.lib import stream_rows
from checks.lib.harness import run_main
from checks.lib.library_runs import is_done, program_says, run
from checks.lib.stream_model import Guest, first_wrong, frames
from checks.lib.tally import left_out, why_not
from checks.sending import bugs
from precopy_dev.files import read_bytes, read_text, write_file
from precopy_dev.tree import TOP

WARNINGS = ["-std=c11", "-Wall", "-Wextra", "-pedantic", "-Werror", "-pthread"]
SANITIZERS = ["-fsanitize=address,undefined", "-fno-sanitize-recover=all", "-g", "-O1"]
PAGE, AT_ONCE, AGAIN, SECONDS = 4096, 4, 3, 120
# Who takes protections away, and the status of a sender on a kernel that does not offer that.
WAYS, NOT_OFFERED = ("kernel", "thread"), 3
CANNOT = "pages cannot be watched so that the {} takes protections away"
TOLD = re.compile(r"stopped at tick (\d+), after (\d+) of (\d+) writes and (\d+) rounds; the (\w+) takes .*\n")


class Load(NamedTuple):
    """How large a migration is."""

    pages: int
    streams: int
    writers: int

    def words(self):
        return [str(number) for number in self]


LOADS = [Load(1024, 2, 4), Load(64, 1, 8), Load(4096, 4, 4), Load(300, 3, 1), Load(1500, 16, 8)]


@dataclass
class Migration:
    """What a migration left behind."""

    tick: int
    stop: int
    writes: int
    rounds: int
    way: str
    trace: bytes
    source: bytes
    memory: bytes
    streams: list


class Failed(Exception):
    """A process of a migration that failed, or took too long."""

    def __init__(self, who, status, told):
        super().__init__(f"{who}: status {status}, {told}")
        self.status = status


# ---- Migrations.


def build(tally, folder, how, edits=()):
    """Builds both processes in a folder, the engine with some edits. Tells whether that was done."""
    os.makedirs(folder)
    for name in ("sender", "destination"):
        source = read_text(TOP, f"examples/c/{name}.c")
        path = write_file(bugs.planted(source, edits) if name == "sender" else source, folder, f"{name}.c")
        done = run("cc", *WARNINGS, *how, "-o", os.path.join(folder, name), path)
        if done.returncode:
            return is_done(tally, done, f"{name}.c is compiled with {' '.join(how)} and {edits}")
    return True


def migrate(programs, load, way):
    """Performs a migration, and returns what it left."""
    with tempfile.TemporaryDirectory() as folder:
        pages, streams, writers = load.words()
        how = {"stdin": subprocess.DEVNULL, "stdout": subprocess.PIPE, "stderr": subprocess.PIPE}
        started = subprocess.Popen([os.path.join(programs, "destination"), folder, pages, streams], **how)
        try:
            sent = run(os.path.join(programs, "sender"), folder, pages, streams, writers, way, timeout=SECONDS)
            if sent.returncode:
                raise Failed("sender", sent.returncode, sent.stderr.decode())
            _, told = started.communicate(timeout=SECONDS)
        except subprocess.TimeoutExpired as late:
            raise Failed("migration", None, str(late)) from late
        finally:
            started.kill()
            started.communicate()
        found = TOLD.fullmatch(sent.stdout.decode())
        if started.returncode or not found:
            raise Failed("destination", started.returncode, f"{told.decode()}, and the sender told {sent.stdout!r}")
        files = [read_bytes(folder, name) for name in ("trace.pcwt", "source", "memory")]
        streams = [read_bytes(folder, f"stream.{number}") for number in range(load.streams)]
        return Migration(*map(int, found.groups()[:4]), found[5], *files, streams)


def ways_offered(programs):
    """Who can take protections away on this kernel. Says who cannot, which is left out."""
    for way in WAYS:
        try:
            migrate(programs, Load(64, 1, 1), way)
        except Failed as failure:
            if failure.status == NOT_OFFERED:
                left_out(f"migrations in which the {way} takes protections away", failure)
                continue
        yield way


# ---- What must hold of a migration. Each trial is whether it holds, and what is told if not.


def trials_of_trace(done, load, guest, program):
    """The trace is that of the run, and leaves the memory that the sender had at the stop."""
    import precopy

    sizes = precopy.check_trace(done.trace)
    yield (sizes.page_length, sizes.pages, sizes.writes) == (PAGE, load.pages, done.writes), f"{sizes}"
    yield guest.writes_before(done.tick) == done.stop, f"{guest.writes_before(done.tick)} writes before the stop"
    found = precopy.OpenTrace(done.trace).memory_before(done.tick)
    yield found == done.source, "memory before the stop by the library"
    yield guest.memory_after(done.stop) == done.source, "memory after the writes before the stop"
    yield program_says(program, ["image"], done.trace) == guest.memory_after(done.writes), "memory by the program"
    # The engine worked under load: pages came again, but not all in each round, and the sender went on after the stop.
    count = sum(1 for data in done.streams for _ in frames(guest, data))
    yield load.pages < count < load.pages * (done.rounds + 1), f"{count} frames came in {done.rounds} rounds"
    yield 0 < done.stop < done.writes, "nothing was written before the stop, or after it"


def taken(done):
    """What the library takes of all streams: memory, and the stamp of each page."""
    import precopy

    flat = precopy.FlatMemory(precopy.check_trace(done.trace))
    for data in done.streams:
        flat.accept(data)
    return flat.memory, [flat.stamp(page) for page in range(flat.sizes.pages)]


def trials_of_check(done, wrong):
    """The library's own check of the streams tells the same as the model."""
    import precopy

    found = precopy.check_streams(done.trace, done.stop, done.streams)
    yield stream_rows.told_by_library(found) == stream_rows.told_by_model(
        wrong
    ), f"the library tells {found}, and the model {wrong}"


def trials_of_right(done, guest):
    """A migration of the engine as it is."""
    wrong = first_wrong(guest, done.stop, done.streams)
    yield wrong is None, f"{wrong} is wrong"
    yield from trials_of_check(done, wrong)
    yield done.memory == done.source, "memory of the destination"
    memory, stamps = taken(done)
    yield memory == done.source, "memory that the library takes"
    yield stamps == [page.version(done.stop) for page in guest.pages], "stamps that the library takes"


def trials_of_bug(done, guest, bug):
    """A migration with a bug: its sign is found, and the destination has the bytes that it tells of."""
    wrong = first_wrong(guest, done.stop, done.streams)
    if not bugs.BUGS[bug].is_sign(wrong, done.streams):
        yield False, f"{wrong} is wrong, which is no sign of the bug"
        return
    yield from trials_of_check(done, wrong)
    page = slice(wrong.page * PAGE, (wrong.page + 1) * PAGE)
    if bug == "cached":
        yield done.memory[page] != done.source[page], f"{wrong}, and the bytes came right"
    else:
        stale = guest.pages[wrong.page].after(wrong.stamp or 0)
        yield done.memory[page] == stale, f"{wrong}, and the destination has other bytes"
    # The library keeps the frame with the greatest stamp, so it shows no old frame.
    wanted = done.source if bug == "late" else done.memory
    yield taken(done)[0] == wanted, f"{wrong}: memory that the library takes"


def trials(programs, load, way, bug, program):
    """What one migration was, and what of it does not hold, of how much that must."""
    what = f"{load}, the {way} takes protections away, bug {bug}"
    try:
        done = migrate(programs, load, way)
        guest = Guest(done.trace)
        found = [(done.way == way, f"the {done.way} does"), *trials_of_trace(done, load, guest, program)]
        found += trials_of_bug(done, guest, bug) if bug else trials_of_right(done, guest)
        return what, [told for good, told in found if not good]
    except Exception:
        return what, [traceback.format_exc()]


def runs(tally, folder, ways, program):
    """The migrations to try: the engine optimized, with sanitizers, and with each bug."""
    kinds = [("plain", ["-O2"], None), ("sanitized", SANITIZERS, None)]
    kinds += [(f"bug{number}", ["-O2"], bug) for number, bug in enumerate(bugs.BUGS)]
    for name, how, bug in kinds:
        programs = os.path.join(folder, name)
        if build(tally, programs, how, bugs.BUGS[bug].edits if bug else ()):
            for load in LOADS if name == "plain" else LOADS[:AGAIN]:
                for way in ways:
                    yield programs, load, way, bug, program


def check_not_offered(tally, folder):
    """A kernel that offers no userfaultfd: the sender says so before it looks for a destination, with a status of its
    own."""
    programs = os.path.join(folder, "without")
    if build(tally, programs, ["-O2"], bugs.WITHOUT_USERFAULTFD):
        for asked, told in (([], WAYS), (["kernel"], WAYS[:1]), (["thread"], WAYS[1:])):
            done = run(os.path.join(programs, "sender"), folder, "64", "1", "1", *asked)
            lines = [f"sender: {CANNOT.format(way)}: {os.strerror(errno.ENOSYS)}\n" for way in told]
            good = (done.returncode, done.stderr.decode()) == (NOT_OFFERED, "".join(lines))
            tally.add(good, f"without userfaultfd: {done}")


def migrations(tally, folder, program):
    check_not_offered(tally, folder)
    first = os.path.join(folder, "first")
    ways = list(ways_offered(first)) if build(tally, first, ["-O2"]) else []
    asked = list(zip(*runs(tally, folder, ways, program)))
    with ProcessPoolExecutor(AT_ONCE, multiprocessing.get_context("fork")) as processes:
        for what, wrong in processes.map(trials, *asked) if asked else ():
            tally.add(not wrong, f"{what}: {wrong}")


def check(tally, given):
    with tally.case("the model of streams, by worked examples") as case:
        stream_rows.check(case)
    if why := why_not("cc"):
        left_out("all migrations", why)
    elif is_done(tally, run("make", "-s", "-C", TOP, "lib", timeout=3 * 3600), "make lib"):
        with tempfile.TemporaryDirectory() as folder:
            migrations(tally, folder, given.precopy)


if __name__ == "__main__":
    run_main(check, __doc__, "precopy")
