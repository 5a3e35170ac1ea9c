"""Runs a command of the toolchain, and then prints what proof, tests and must-fail edits of each crate took.

    dev/measured rt ci

The command's output passes through as it comes, and its status is this program's. Times are processor seconds of the
prover's processes, sampled twice a second; the command itself says how many edits it tried.
"""
import collections
import os
import re
import subprocess
import sys
import threading
import time

from precopy_dev.files import read_bytes

TICKS = os.sysconf("SC_CLK_TCK")
PHASES = ("proof", "tests", "edits")


def read(path):
    try:
        return read_bytes(path)
    except OSError:
        return b""


def phase_of(pid, words):
    """Returns what a process of the prover works on: an edit is checked in a copy of the crate."""
    try:
        folder = os.readlink(f"/proc/{pid}/cwd")
    except OSError:
        folder = ""
    if "/rt-edit-" in folder:
        return "edits"
    return "tests" if "--test" in words else "proof"


def look(below, taken):
    """Notes the processor time of each process of the prover below the command."""
    parents = {}
    for name in os.listdir("/proc"):
        if name.isdigit():
            fields = read(f"/proc/{name}/stat").rpartition(b")")[2].split()
            if fields:
                parents[int(name)] = int(fields[1]), (int(fields[11]) + int(fields[12])) / TICKS
    for pid, (parent, seconds) in parents.items():
        while parent not in (below, 0) and parent in parents:
            parent = parents[parent][0]
        words = read(f"/proc/{pid}/cmdline").decode(errors="replace").split("\0")
        if parent == below and "--crate-name" in words:
            crate = words[words.index("--crate-name") + 1]
            taken[crate, phase_of(pid, words), pid] = seconds


def watch(command, taken, ended):
    while not ended.wait(0.5):
        look(command.pid, taken)


def show(taken, edits, began):
    sums = collections.Counter()
    for (crate, phase, _), seconds in taken.items():
        sums[crate, phase] += seconds
    crates = sorted({crate for crate, _ in sums}, key=lambda it: -sum(sums[it, phase] for phase in PHASES))
    print(f"\n{'processor seconds':20} {'proof':>7} {'tests':>7} {'edits':>7} {'tried':>7}")
    for crate in crates:
        row = "".join(f" {sums[crate, phase]:7.0f}" for phase in PHASES)
        print(f"{crate:20}{row} {edits[crate]:7}")
    row = "".join(f" {sum(sums[crate, phase] for crate in crates):7.0f}" for phase in PHASES)
    print(f"{'all':20}{row} {sum(edits.values()):7}")
    minutes, seconds = divmod(int(time.monotonic() - began), 60)
    print(f"{minutes} min {seconds:02} s on {len(os.sched_getaffinity(0))} processors", flush=True)


def main():
    began, taken, edits, ended = time.monotonic(), {}, collections.Counter(), threading.Event()
    command = subprocess.Popen(sys.argv[1:], stdout=subprocess.PIPE, text=True, errors="replace")
    watcher = threading.Thread(target=watch, args=(command, taken, ended))
    watcher.start()
    for line in command.stdout:
        print(line, end="", flush=True)
        told = re.match(r"(?:rt: )?must-fail (\w+)/\S+: ", line)
        if told:
            edits[told[1]] += 1
    status = command.wait()
    ended.set()
    watcher.join()
    show(taken, edits, began)
    return status


if __name__ == "__main__":
    sys.exit(main())
