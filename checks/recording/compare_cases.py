"""Cases of checks/recording: the words of tools/compare-qemu, and what it gives to QEMU; without QEMU."""

import os
import subprocess
import sys

from checks.lib import harness
from checks.lib.harness import cases_of, expect
from checks.recording.recorder_runs import SECONDS, TOP
from precopy_dev.files import write_file
from precopy_tools.qemu import guest, migration

COMPARE = os.path.join(TOP, "tools", "compare-qemu")
PAGE = 4096


def nodes_of_any_size(_, __):
    """Each node has whole pages, as many as asked but for a few, and a size at which QEMU 7.2 loses none."""
    for draws in harness.drawn("nodes", range(500)):
        memory, count = draws.randrange(1 << 27, 1 << 37), draws.randrange(1, 9)
        nodes = guest.nodes_of(memory, count)
        expect(len(nodes) == count and all(size % PAGE == 0 and size % guest.UNSAFE for size in nodes), f"{nodes}")
        expect(0 <= memory - sum(nodes) <= count * (guest.LESS + PAGE), f"{memory}: {nodes}")
        files = [f"file{number}" for number in range(count)]
        words = guest.Machine(nodes, "tcg", ["-foo", "a b"]).words(files)
        backends = [word for word in words if word.startswith("memory-backend-file")]
        expect(len(backends) == count and words[words.index("-m") + 1] == f"{sum(nodes) >> 10}K", f"{words}")
        for number, (size, backend) in enumerate(zip(nodes, backends)):
            expect(f"id=node{number},size={size},mem-path=file{number}," in backend, backend)
            used = [word for word in words if f"memdev=node{number}" in word or f"memory-backend=node{number}" in word]
            expect(len(used) == 1, f"node {number} is used {len(used)} times: {words}")
        expect(words[-2:] == ["-foo", "a b"], f"{words}")


def added_to_a_guest(_, folder):
    """A file keeps its name, a program has its libraries with it, and what is no file is refused."""
    script = write_file("echo hello\n", folder, "a script")
    expect(guest.added_files(script) == [("bin/a script", script)], f"{guest.added_files(script)}")
    found = guest.added_files(sys.executable)
    expect(found[0] == (f"bin/{os.path.basename(sys.executable)}", sys.executable), f"{found}")
    expect(all(os.path.isfile(path) for _, path in found), f"{found}")
    expect(any("libc.so" in name and not name.startswith("/") for name, _ in found), f"{found}")
    for path in (folder, os.path.join(folder, "none")):
        try:
            guest.added_files(path)
        except guest.Missing as fault:
            expect(path in str(fault), str(fault))
        else:
            raise AssertionError(f"{path} is added")


def words_of_a_comparison(_, folder):
    for words, said in (
        ([], "name one workload"),
        (["mid", "--workload", "script"], "name one workload"),
        (["mid", "--numa", "2"], "--numa needs a guest of more than 256 MiB"),
        (["mid", "--numa", "0", "--memory", "2G"], "whole number from 1"),
        (["mid", "--multifd", "x"], "whole number from 1"),
        (["slower"], "invalid choice"),
        (["--workload", "none", "--memory", "2G"], "there is no file none"),
        (["mid", "--add", "none"], "there is no file none"),
    ):
        command = [COMPARE, *words, "--program", "/bin/true", "--view", "/bin/true"]
        done = subprocess.run(command, cwd=folder, capture_output=True, text=True, timeout=4 * SECONDS)
        expect(done.returncode == 2 and said in done.stderr, f"{words}: {done.returncode}, {done.stderr!r}")


def pages_that_were_sent(_, __):
    """Pages are counted whole, compressed or not, and the bandwidth is that while the guest ran."""
    times = {"total-time": 2500, "downtime": 400, "setup-time": 100}
    told = {"ram": {"normal": 3000, "downtime-bytes": 1000 * PAGE}, **times}
    real = migration.Migration(told, 0, True)
    expect((real.sent, real.last, real.milliseconds) == (3000, 1000, 2400), f"{vars(real)}")
    expect(real.reached() == 1000 * PAGE, f"{real.reached()}")
    real = migration.Migration({**told, "compression": {"pages": 500, "compressed-size": 7}}, 0, True)
    expect(real.sent == 3500 and real.reached() == 1250 * PAGE, f"{vars(real)}")


CASES = cases_of(__name__)
