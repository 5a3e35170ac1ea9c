"""Proves and builds a program or a library for C: independent crates side by side, lowest first.

    dev/build [--if-needed] [--proved] [--below] [NAME]

NAME is precopy if none is given, another program below crates/, or a crate that crates.txt marks as staticlib. What is
proved stays in crates/*/out, so a build that was stopped goes on with the crates that are left. Messages go to standard
error. The status is 0 if all is built, 1 if not, 2 if the words are refused, and 128 and the number of the signal if
one stopped the build.

The toolchain has no command that builds a program and does not run it. So each program is run once it is built, with
`--help` and no input. What it answers is not judged, since a program may have no such word: the build fails only if a
signal stops it.

With --if-needed nothing is done if no source is newer than what is built. --proved is for a tree that `rt ci` has just
passed: it takes the libraries that this left, and does not prove them once more. With --below only the libraries below
NAME are built, as for a build of it for another machine.

The toolchain locks a crate and all below it during a run. So each lane works in a copy of the sources, with the built
libraries linked into it. The copies are outside the tree, in the user's cache, where no search of the tree finds them.
If the cache is on another file system, they are in the program's out/.
"""
import contextlib
import fcntl
import glob
import hashlib
import os
import shutil
import signal
import subprocess
import sys
import tempfile
import time

from precopy_dev.tree import TOP, crates
from precopy_dev.words import parser_of

MEMORY_OF_A_CRATE = 2 << 30  # bytes; the largest proof takes less
DISK_OF_A_BUILD = 3 << 30  # bytes
SILENCE = 60  # seconds, after which a build says what it works on
# Seconds of a processor that the slower proofs take, and each of the others, as `dev/measured rt ci` tells them.
SLOWER = {
    "trace_views": 287,
    "live_engine": 280,
    "page_versions": 262,
    "predictions": 256,
    "view_commands": 256,
    "report_pictures": 251,
    "c_answers": 236,
    "trace_codec": 185,
    "round_planner": 154,
    "trace_readers": 148,
    "job_commands": 140,
    "sweep_report": 128,
    "dirty_core": 104,
    "live_tasks": 103,
    "move_schedules": 103,
    "precopy_c": 100,
    "precopy_view": 95,
    "dirty_words": 88,
    "browser_planner": 88,
    "migration_jobs": 79,
    "stream_lanes": 78,
    "precopy": 77,
}
OTHERS = 45
RUNS = b"rt: running out/"  # what rt says when a program is built, before it runs it
SIGNALS = 128  # what rt adds to the number of a signal that stopped the program
# What a shell or Python makes of a process that was killed, which the kernel does when memory runs out.
KILLED = (-signal.SIGKILL, 128 + signal.SIGKILL, 256 - signal.SIGKILL)


class Stopped(Exception):
    """A signal stopped the build."""

    def __init__(self, number):
        super().__init__(signal.Signals(number).name)
        self.status = 128 + number


class Voice:
    """Says how far a build is."""

    def __init__(self):
        self.began = self.spoke = time.monotonic()

    def say(self, text):
        self.spoke = time.monotonic()
        print(f"precopy: {text}", file=sys.stderr, flush=True)

    def seconds(self):
        return time.monotonic() - self.began

    def clock(self):
        minutes, seconds = divmod(int(self.seconds()), 60)
        return f"{minutes} min {seconds:02} s"

    def say_after_silence(self, names):
        if time.monotonic() - self.spoke >= SILENCE:
            self.say(f"still proving {', '.join(names)}, {self.clock()}")


VOICE = Voice()
say = VOICE.say


def programs():
    return sorted(name for name in os.listdir(f"{TOP}/crates") if os.path.isfile(f"{TOP}/crates/{name}/src/main.rt"))


def libraries_for_c():
    return sorted(name for name, crate in crates().items() if crate.words == ["staticlib"])


def file_of(name):
    """Returns the file that a build of this name makes."""
    file = f"lib{name}.a" if name in libraries_for_c() else name
    return f"{TOP}/crates/{name}/out/{file}"


def lanes_folder(program):
    """Returns the folder of the lanes. Libraries are linked and moved there and back, so it is on the tree's own file
    system."""
    cache = os.environ.get("XDG_CACHE_HOME") or os.path.expanduser("~/.cache")
    folder = f"{cache}/precopy/build/{hashlib.sha256(TOP.encode()).hexdigest()[:16]}"
    with contextlib.suppress(OSError):
        os.makedirs(folder, exist_ok=True)
        if os.stat(folder).st_dev == os.stat(TOP).st_dev:
            return folder
    return f"{TOP}/crates/{program}/out/lanes"


def libraries_below(program):
    """Returns each library of the repository that a program needs, with those that the library itself needs."""
    uses, needed = {name: crate.uses for name, crate in crates().items()}, {}

    def visit(name):
        if name not in needed:
            needed[name] = set()
            for library in uses[name]:
                if library in uses:
                    needed[name] |= {library} | visit(library)
        return needed[name]

    visit(program)
    del needed[program]
    return needed


def lane_count():
    """Returns how many crates to prove at once, as processors and free memory allow."""
    free = MEMORY_OF_A_CRATE
    with open("/proc/meminfo", encoding="utf-8") as lines:
        for line in lines:
            if line.startswith("MemAvailable:"):
                free = int(line.split()[1]) * 1024
    return max(1, min(len(os.sched_getaffinity(0)), free // MEMORY_OF_A_CRATE))


def most_jobs():
    """Returns how many processes work on a crate if nothing else is in work."""
    return min(4, lane_count())


def jobs_for(urgent, busy):
    """Returns how many processes work on a crate while so many others are in work: two take half as much again of
    processors as one. So only the crate that others wait for gets two, or all that are free."""
    most = most_jobs()
    return max(min(2, most), most - busy) if urgent else 1


def copy_sources(lane):
    os.makedirs(f"{lane}/crates", exist_ok=True)
    for file in ("crates.txt", "HANDLES"):
        shutil.copy2(f"{TOP}/{file}", lane)
    skip = shutil.ignore_patterns("out", "must-fail")
    for name in os.listdir(f"{TOP}/crates"):
        shutil.copytree(f"{TOP}/crates/{name}", f"{lane}/crates/{name}", ignore=skip)


def link_built(name, source, target):
    """Links the built library of a crate from one tree into another."""
    old, new = f"{source}/crates/{name}/out/rlib", f"{target}/crates/{name}/out/rlib"
    if os.path.isdir(old) and not os.path.isdir(new):
        shutil.copytree(old, new, copy_function=os.link)


def start(name, lane, libraries, jobs, waits):
    """Starts the proof and build of one library in a lane; one that can wait gives way to the others.

    All processes stay in one session: a kernel that groups processes by session would give each lane the same share,
    however many processes work for it."""
    for library in libraries:
        link_built(library, TOP, lane)
    folder = f"{lane}/crates/{name}"
    kept = f"{TOP}/crates/{name}/out"
    if os.path.isdir(kept):
        shutil.copytree(kept, f"{folder}/out", copy_function=os.link, dirs_exist_ok=True)
    os.makedirs(f"{folder}/out", exist_ok=True)
    with contextlib.suppress(FileNotFoundError):
        os.unlink(f"{folder}/out/build.log")  # a link to the log of the build before
    with open(f"{folder}/out/build.log", "w", encoding="utf-8") as log:
        how = {"cwd": folder, "stdin": subprocess.DEVNULL, "stdout": log, "stderr": log, "preexec_fn": os.setpgrp}
        return subprocess.Popen(["nice", "-n", "10" if waits else "0", f"{TOP}/dev/library", str(jobs)], **how)


def keep(name, lane):
    """Moves what a lane built of a library to where later builds look for it."""
    shutil.rmtree(f"{TOP}/crates/{name}/out", ignore_errors=True)
    os.rename(f"{lane}/crates/{name}/out", f"{TOP}/crates/{name}/out")
    link_built(name, TOP, lane)


def show_failure(name, folder, status):
    """Shows the end of a failed build, and says what to do."""
    log = f"{TOP}/crates/{name}/out/build.log"
    os.makedirs(os.path.dirname(log), exist_ok=True)
    shutil.copy(f"{folder}/out/build.log", log)
    with open(log, encoding="utf-8", errors="replace") as lines:
        for line in lines.read().rstrip("\n").split("\n")[-20:]:
            print(line, file=sys.stderr)
    say(f"the crate {name} could not be built; crates/{name}/out/build.log has all that was said")
    tell_what_to_do(name, status)


def tell_what_to_do(name, status):
    if status in KILLED:
        say("a process was killed, as happens when memory runs out: each crate takes up to 2 GiB")
        say("the next run goes on from here; 'taskset -c 0' in front of it proves one crate at a time")
    else:
        say(f"'rt check' in crates/{name} tells more; mended, the next run goes on from here")


def chains_of(needed):
    """Returns for each library how long its proof takes, and those of the libraries above it on the longest way up."""
    chains = {}
    for name in sorted(needed, key=lambda it: -len(needed[it])):
        chains[name] = seconds_of(name) + max((chains[it] for it in needed if name in needed[it]), default=0)
    return chains


def seconds_of(name):
    """Returns how long a processor works on the proof of a crate."""
    return SLOWER.get(name, OTHERS)


def next_library(left, built, needed, chains):
    """Returns a library all of whose own are built, that with the longest way up first, or None."""
    return max((name for name in left if needed[name] <= built), key=chains.get, default=None)


def is_urgent(name, left, chains):
    """Returns whether no library that is left or in work has a longer way up."""
    return all(chains[name] >= chains[other] for other in left)


def newest(name):
    """Returns when a source of a crate was changed last."""
    parts = [f"{TOP}/crates/{name}/{part}" for part in ("src", "specs", "proofs")]
    return max(os.path.getmtime(f"{at}/{file}") for part in parts for at, _, files in os.walk(part) for file in files)


def is_kept(name, needed):
    """Returns whether a library is built, and no source of it or of one below it is newer. The toolchain tests more."""
    stamp = f"{TOP}/crates/{name}/out/rlib/stamp"
    return os.path.exists(stamp) and all(newest(it) <= os.path.getmtime(stamp) for it in (name, *needed[name]))


def told_time(names):
    """Returns how long the proofs of some crates take, in words."""
    minutes = round(sum(map(seconds_of, names)) / 60)
    return f"some {minutes} minutes of a processor" if minutes > 1 else "a minute of a processor"


def told_rest(to_prove, built):
    """Returns how long the rest takes on this machine if it goes on as it went until now, in words."""
    done = sum(map(seconds_of, to_prove & built))
    minutes = round(sum(map(seconds_of, to_prove - built)) * VOICE.seconds() / done / 60)
    return f"some {minutes} minutes" if minutes > 1 else "a minute"


def build_libraries(program, needed, running, folder, taken):
    """Builds all libraries but those that are taken as they are, at most as many at once as there are lanes. Returns
    whether all went well."""
    left, built, chains = set(needed) - taken, set(taken), chains_of(needed)
    to_prove = {name for name in left if not is_kept(name, needed)} | {program}
    lanes = [f"{folder}/{number}" for number in range(lane_count())] if left else []
    if left:
        count = f"{len(left)} libraries, up to {len(lanes)} at once"
        say(f"proving and building {count}; {told_time(to_prove)}; later runs start at once")
        say("a program is built from its proofs, so the first build waits for them; a package needs none of it")
    for lane in lanes:
        copy_sources(lane)
    while left or running:
        while lanes and (name := next_library(left, built, needed, chains)):
            left.remove(name)
            lane = lanes.pop()
            urgent = is_urgent(name, left | set(running), chains)
            running[name] = lane, start(name, lane, needed[name], jobs_for(urgent, len(running)), not urgent)
        time.sleep(0.2)
        VOICE.say_after_silence(running)
        for name in [name for name, (_, it) in running.items() if it.poll() is not None]:
            lane, ended = running.pop(name)
            if ended.returncode:
                show_failure(name, f"{lane}/crates/{name}", ended.returncode)
                return False
            keep(name, lane)
            lanes.append(lane)
            built.add(name)
            rest = f"; left here: {told_rest(to_prove, built)}" if name in to_prove else ""
            say(f"{len(built)} of {len(needed)} libraries, {VOICE.clock()}: {name}{rest}")
    return True


def build_top(name, began):
    """Builds a program or a library for C over its libraries. It gets the time at which its sources were read: what is
    edited during the build is newer."""
    words = ["lib", "--jobs", str(most_jobs())]
    if name in programs():
        words = ["run", "--jobs", str(most_jobs()), "--", "--help"]
    say(f"proving and building {name}, the last part")
    with tempfile.TemporaryFile() as log:
        how = {"cwd": f"{TOP}/crates/{name}", "stdin": subprocess.DEVNULL, "stdout": log, "stderr": subprocess.STDOUT}
        status = ended(subprocess.Popen(["rt", *words], **how), name)
        log.seek(0)
        told = log.read()
        if not is_well(status, told):
            sys.stderr.write(told.decode(errors="replace"))
            say(f"the crate {name} could not be built")
            tell_what_to_do(name, status)
            return False
    os.utime(file_of(name), (began, began))
    say(f"{name} is built, {VOICE.clock()}")
    return True


def is_well(status, told):
    """Returns whether rt built what it was asked for, by its status and what was told. A program that it ran may have
    answered with any status, but no signal may have stopped it."""
    return status == 0 or (RUNS in told and 0 < status < SIGNALS)


def ended(process, name):
    """Waits for the proof of a crate, and returns its status. It does not outlive this process."""
    try:
        while process.poll() is None:
            with contextlib.suppress(subprocess.TimeoutExpired):
                process.wait(timeout=1)
            VOICE.say_after_silence([name])
    finally:
        process.kill()
        process.wait()
    return process.returncode


def build(name, taken, is_below):
    running, lanes, began = {}, lanes_folder(name), time.time()
    shutil.rmtree(lanes, ignore_errors=True)
    try:
        is_built = build_libraries(name, libraries_below(name), running, lanes, taken)
        return is_built and (is_below or build_top(name, began))
    finally:
        for _, process in running.values():
            os.killpg(process.pid, signal.SIGTERM)
        shutil.rmtree(lanes, ignore_errors=True)


def is_current(name):
    """Returns whether no source is newer than what is built, by the rule of dev/start."""
    built = file_of(name)
    sources = [f"{TOP}/crates.txt"]
    for pattern in ("src", "src/*", "src/*/*.rt", "specs/*.antt", "specs/*/*.antt"):
        sources += glob.glob(f"{glob.escape(TOP)}/crates/*/{pattern}")
    return os.path.isfile(built) and all(os.stat(it).st_mtime_ns <= os.stat(built).st_mtime_ns for it in sources)


def take_proved(name):
    """Takes the libraries that `rt ci` left below a crate for what they are, and returns them."""
    taken = set()
    for library in libraries_below(name):
        ran = subprocess.run([f"{TOP}/dev/library", "--proved"], cwd=f"{TOP}/crates/{library}", check=False)
        taken |= {library} if ran.returncode == 0 else set()
    return taken


@contextlib.contextmanager
def only_build():
    """Waits until no other build works in this tree, and keeps others out. Gives whether it had to wait."""
    folder = os.open(f"{TOP}/crates", os.O_RDONLY)
    waits = False
    try:
        fcntl.flock(folder, fcntl.LOCK_EX | fcntl.LOCK_NB)
    except BlockingIOError:
        say("another build works here; this one waits for it")
        waits = True
        fcntl.flock(folder, fcntl.LOCK_EX)
    try:
        yield waits
    finally:
        os.close(folder)


def stop_by(number, _):
    raise Stopped(number)


def lacks():
    """Returns what the build lacks, or None."""
    if not shutil.which("rt"):
        return (
            "the Rattle toolchain is not here: its command rt is not on the path. CONTRIBUTING.md says what to install."
            " A package of precopy needs no toolchain (README.md)"
        )
    if not os.access(f"{TOP}/crates", os.W_OK):
        return f"{TOP}/crates cannot be written, and the build keeps in crates/*/out what it has proved"
    free = shutil.disk_usage(TOP).free
    if free < DISK_OF_A_BUILD:
        return f"{free >> 20:,} MiB are free on the disk of {TOP}, and a build needs {DISK_OF_A_BUILD >> 20:,} MiB"
    return None


def main():
    parser = parser_of("build", __doc__)
    parser.add_argument("--if-needed", action="store_true", help="do nothing if no source is newer")
    parser.add_argument("--proved", action="store_true", help="take the libraries that rt ci left")
    parser.add_argument("--below", action="store_true", help="build only the libraries below it")
    all_names = [*programs(), *libraries_for_c()]
    parser.add_argument("name", metavar="NAME", nargs="?", default="precopy", choices=all_names)
    asked = parser.parse_args()
    name = asked.name
    if asked.if_needed and is_current(name):
        return 0
    if why := lacks():
        say(why)
        return 1
    for number in (signal.SIGINT, signal.SIGTERM, signal.SIGHUP):
        signal.signal(number, stop_by)
    try:
        with only_build() as waited:
            taken = take_proved(name) if asked.proved else set()
            return 0 if (waited and is_current(name)) or build(name, taken, asked.below) else 1
    except Stopped as stopped:
        say(f"stopped by {stopped}; what is built is kept, and the next run goes on from here")
        return stopped.status
    except OSError as fault:
        say(f"{fault}; the next run goes on from here")
        return 1


if __name__ == "__main__":
    sys.exit(main())
