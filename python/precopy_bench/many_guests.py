"""Times tools/evacuate over many small records, on this machine and over two hosts, and prints a table.

    bench/many-guests [--records 10000] [--at-once 1,2,4,8] [--link 400Gbit] [--folder DIR] [--hosts]

Each record has one in 16 of the pages of examples/guests/sqlite.light.pcwt, drawn with a seed of its own, and so stands
for a guest of 2 GiB. They are made once, in folders of 250, and stay if DIR is named. Three are damaged: one is cut
off, one has other first bytes, and one has no NAME.json. All of them must be named, and all others planned.

--hosts does the costs by GNU parallel over the hosts of dev/two-hosts, and once more while one of them is lost after
a third of that time. Both must be what this machine finds. It needs root and the packages of that tool, and parallel
and rsync. Memory is the greatest sum over all processes of the tool; shared pages count once. The status is 0 if all of
it is so.
"""

import concurrent.futures
import json
import os
import resource
import shlex
import shutil
import signal
import subprocess
import sys
import tempfile
import threading
import time
from typing import NamedTuple

from precopy_dev.files import read_json, write_file
from precopy_dev.tree import TOP
from precopy_dev.words import parser_of
from precopy_tools.formats.samples import path_beside

TOOLS = {name: os.path.join(TOP, "tools", name) for name in ("thin", "evacuate")}
WHOLE = os.path.join(TOP, "examples", "guests", "sqlite.light.pcwt")
OF_A_FOLDER, ONE_IN = 250, 16
LOOK = 0.2


class Fault(Exception):
    """What ends the program with a line."""


class Run(NamedTuple):
    seconds: float
    processor: float
    memory: int
    status: int
    output: str
    errors: str


# ---- Records.


def make_folder(folder, first, count):
    """Records of so many guests, each of another one."""
    os.makedirs(folder)
    words = ["--one-in", str(ONE_IN), "--times", str(count), "--seed", str(first)]
    subprocess.run([TOOLS["thin"], WHOLE, f"{folder}/guest{{}}.light.pcwt", *words], check=True, capture_output=True)
    for number in range(first, first + count):
        path = f"{folder}/guest{number}.light.json"
        fields = read_json(path)
        write_file(json.dumps({**fields, "taken_of": f"domain guest{number}"}), path)


def make(folder, count):
    """The records below a folder, made if they are not there, and damaged. Returns what holds them, and the damaged."""
    holders = [os.path.join("guests", f"{number:03}") for number in range(-(-count // OF_A_FOLDER))]
    if not os.path.isdir(os.path.join(folder, holders[-1])):
        shutil.rmtree(os.path.join(folder, "guests"), ignore_errors=True)
        firsts = range(0, count, OF_A_FOLDER)
        rows = [(os.path.join(folder, holder), at, min(OF_A_FOLDER, count - at)) for holder, at in zip(holders, firsts)]
        with concurrent.futures.ThreadPoolExecutor(len(os.sched_getaffinity(0))) as pool:
            list(pool.map(make_folder, *zip(*rows)))
    return holders, damage(folder, [os.path.join(holders[0], f"guest{number}.light.pcwt") for number in range(3)])


def damage(folder, paths):
    cut, other, alone = (os.path.join(folder, path) for path in paths)
    os.truncate(cut, os.path.getsize(cut) // 2)
    with open(other, "r+b") as file:
        file.write(b"????")
    if os.path.exists(path_beside(alone)):
        os.unlink(path_beside(alone))
    return paths


# ---- Runs.


def memory_of(session):
    """The sum over all processes of a session, in bytes; shared pages count once."""
    total = 0
    for process in filter(str.isdigit, os.listdir("/proc")):
        try:
            if os.getsid(int(process)) == session:
                with open(f"/proc/{process}/smaps_rollup", encoding="ascii") as lines:
                    total += sum(int(line.split()[1]) << 10 for line in lines if line.startswith("Pss:"))
        except OSError:
            continue
    return total


def watch(process, seen):
    while process.poll() is None:
        seen.append(memory_of(process.pid))
        time.sleep(LOOK)


def run(folder, *command):
    """Runs a command in a folder, and looks at its memory meanwhile."""
    before, began = resource.getrusage(resource.RUSAGE_CHILDREN), time.monotonic()
    seen = [0]
    with subprocess.Popen(
        command,
        cwd=folder,
        stdout=subprocess.PIPE,
        stderr=subprocess.PIPE,
        text=True,
        start_new_session=True,
        env=environment(folder),
    ) as process:
        watcher = threading.Thread(target=watch, args=(process, seen))
        watcher.start()
        try:
            output, errors = process.communicate()
        finally:
            if process.poll() is None:
                os.killpg(process.pid, signal.SIGKILL)
            watcher.join()
    after, seconds = resource.getrusage(resource.RUSAGE_CHILDREN), time.monotonic() - began
    processor = after.ru_utime + after.ru_stime - before.ru_utime - before.ru_stime
    return Run(seconds, processor, max(seen), process.returncode, output, errors)


def environment(folder):
    """The tool by the name that it has when it is installed."""
    place = os.path.join(folder, "bin")
    os.makedirs(place, exist_ok=True)
    if not os.path.exists(os.path.join(place, "precopy-evacuate")):
        os.symlink(TOOLS["evacuate"], os.path.join(place, "precopy-evacuate"))
    return {**os.environ, "PATH": f"{place}{os.pathsep}{os.environ['PATH']}"}


def show(what, done):
    memory = f"{done.memory / 1e6:,.0f}" if done.memory else "-"
    print(f"| {what} | {done.seconds:.1f} | {done.processor:.1f} | {memory} |", flush=True)


def expect(done, statuses, damaged, what):
    """A run has one of these statuses, and has named the damaged records."""
    unnamed = [path for path in damaged if path not in done.errors]
    if done.status not in statuses or unnamed:
        raise Fault(f"{what}: status {done.status}, {unnamed} not named: {done.errors[-500:]}")


def over_hosts(folder, holders, options, *more):
    """The costs by GNU parallel over two hosts. A refused record is no reason to try its folder again."""
    costs = f"precopy-evacuate {{}}/*.light.pcwt --costs {shlex.join(options.words)} --jobs 2 || test $? = 1"
    spread = ["--sshlogin", "1/one,1/two", "--transferfile", "{}", "--cleanup", "--retries", "3", "--joblog", "log"]
    command = [
        os.path.join(TOP, "dev", "two-hosts"),
        "--for",
        "1h",
        *more,
        "parallel",
        "--will-cite",
        *spread,
        costs,
        ":::",
        *holders,
    ]
    return run(folder, *command)


def by_hosts(folder):
    """How many folders each host has done."""
    with open(os.path.join(folder, "log"), encoding="utf-8") as lines:
        hosts = [line.split("\t")[1] for line in lines][1:]
    return ", ".join(f"{name} {hosts.count(name)}" for name in sorted(set(hosts)))


def try_hosts(folder, holders, options, damaged, here):
    done = over_hosts(folder, holders, options)
    show(f"costs over two hosts, folders: {by_hosts(folder)}", done)
    expect(done, [0], damaged, "two hosts")
    lost = over_hosts(folder, holders, options, "--lose", f"one={done.seconds / 3:.0f}s")
    show(f"costs over two hosts, one lost after {done.seconds / 3:.0f} s: {by_hosts(folder)}", lost)
    expect(lost, [0], damaged, "a lost host")
    for each in done, lost:
        if sorted(each.output.splitlines()) != sorted(here.output.splitlines()):
            raise Fault("two hosts find other costs than this machine")


def measure(folder, options):
    holders, damaged = make(folder, options.records)
    records = [
        os.path.join(holder, name)
        for holder in holders
        for name in sorted(os.listdir(os.path.join(folder, holder)))
        if name.endswith(".pcwt")
    ]
    print(f"{options.records:,} records; {' '.join(options.words)}; load {os.getloadavg()[0]:.1f}\n")
    print("| What | Seconds | Processor s | MB |\n|---|---|---|---|")
    here = run(folder, TOOLS["evacuate"], *records, "--costs", *options.words)
    show("costs, by all processors", here)
    expect(here, [1], damaged, "costs")
    write_file(here.output, folder, "host.jsonl")
    done = run(folder, TOOLS["evacuate"], "host.jsonl", *options.words, "--json", "told.json")
    show("schedules of these costs", done)
    expect(done, [0, 3, 4], [], "schedules")
    if not done.output.startswith(f"{options.records - len(damaged)} guests"):
        raise Fault(f"not all guests are planned: {done.output[:100]!r}")
    write_file(
        json.dumps({"apart": [[json.loads(line)["name"] for line in here.output.splitlines()]]}), folder, "apart.json"
    )
    done = run(folder, TOOLS["evacuate"], "host.jsonl", *options.words, "--settings", "apart.json")
    show("the same, if no two guests may move at once", done)
    expect(done, [0, 3, 4], [], "guests apart")
    if options.hosts:
        try_hosts(folder, holders, options, damaged, here)


def main():
    parser = parser_of("bench/many-guests", __doc__)
    parser.add_argument("--records", type=int, default=10_000, metavar="N", help="at least 250 (10000)")
    parser.add_argument("--at-once", default="1,2,4,8", metavar="K,K..", help="numbers at once (1,2,4,8)")
    parser.add_argument("--link", default="400Gbit", metavar="RATE", help="of all (400Gbit)")
    parser.add_argument("--folder", metavar="DIR", help="where the records are made, and stay")
    parser.add_argument("--hosts", action="store_true", help="over two hosts, too")
    options = parser.parse_args()
    signal.signal(signal.SIGTERM, lambda *_: sys.exit(1))
    options.words = ["--at-once", options.at_once, "--link", options.link]
    if options.records < OF_A_FOLDER:
        parser.error(f"--records: at least {OF_A_FOLDER}")
    with tempfile.TemporaryDirectory() as folder:
        try:
            measure(os.path.abspath(options.folder or folder), options)
        except (Fault, OSError, subprocess.SubprocessError) as fault:
            print(f"bench/many-guests: {fault}", file=sys.stderr)
            return 1
    return 0


if __name__ == "__main__":
    sys.exit(main())
