"""Times how QEMU moves a stopped guest that is full of data over a local socket, and prints a table.

    bench/qemu [--size MIB] [--channels N,N..] [-n RUNS]

The guest never runs: its memory is a file of random bytes. So QEMU sends each page once, and what is timed is reading,
sending and taking in pages. 0 channels is one plain stream; more are multifd channels. The processor time is that of
both ends. It needs qemu-system-x86_64, and three times the guest's memory. docs/MEASUREMENTS.md says what this has in
common with `precopy live`, and what not.
"""

import os
import shutil
import subprocess
import sys
import tempfile
import time

from precopy_bench.measuring import memory_folder
from precopy_dev.files import read_text
from precopy_dev.words import parser_of
from precopy_tools.qemu.qmp import Client, Fault

QEMU = "qemu-system-x86_64"
TICK = os.sysconf("SC_CLK_TCK")
SECONDS = 120
# More than any local socket has.
UNLIMITED = 1 << 40


def asked_for():
    parser = parser_of("bench/qemu", __doc__)
    parser.add_argument("--size", type=int, default=2048, metavar="MIB", help="the guest's memory, 2048 by default")
    parser.add_argument("--channels", default="0,4", metavar="N,N..", help="0 is one plain stream; 0,4 by default")
    parser.add_argument("-n", type=int, default=5, metavar="RUNS", help="runs of each, 5 by default")
    asked = parser.parse_args()
    try:
        asked.channels = [int(word) for word in asked.channels.split(",")]
    except ValueError:
        parser.error("--channels wants whole numbers with commas between them")
    if asked.size < 1 or asked.n < 1 or not all(0 <= count <= 255 for count in asked.channels):
        parser.error("--size and -n have to be at least 1, and --channels 0 to 255")
    return asked


def fill(path, mib):
    """Writes random bytes, which no page repeats."""
    with open(path, "wb") as file:
        for _ in range(mib):
            file.write(os.urandom(1 << 20))


class End:
    """One end of a migration: a QEMU that does not run its guest."""

    def __init__(self, room, name, memory, words):
        self.path = os.path.join(room, f"{name}.qmp")
        machine = ["-machine", "pc,accel=tcg,memory-backend=ram", "-m", f"{memory.mib}M", "-object", memory.words(name)]
        line = [QEMU, "-nodefaults", "-nographic", "-S", *machine, "-qmp", f"unix:{self.path},server,nowait", *words]
        self.process = subprocess.Popen(line, stdin=subprocess.DEVNULL)
        end = time.monotonic() + SECONDS
        while not os.path.exists(self.path):
            if self.process.poll() is not None or time.monotonic() > end:
                raise Fault(f"{QEMU} does not start")
            time.sleep(0.01)
        self.client = Client(self.path)

    def set_channels(self, count):
        if count:
            self.client.ask("migrate-set-capabilities", capabilities=[{"capability": "multifd", "state": True}])
            self.client.ask("migrate-set-parameters", multifd_channels=count)

    def processor(self):
        """Returns the processor seconds that this end has taken."""
        fields = read_text(f"/proc/{self.process.pid}/stat").rpartition(")")[2].split()
        return (int(fields[11]) + int(fields[12])) / TICK

    def stop(self):
        self.client.socket.close()
        self.process.kill()
        self.process.wait()


class Memory:
    """The memory of the guest: a file at the source, and fresh memory at the destination."""

    def __init__(self, room, mib):
        self.path, self.mib = os.path.join(room, "memory"), mib
        fill(self.path, mib)

    def words(self, name):
        if name == "source":
            return f"memory-backend-file,id=ram,size={self.mib}M,mem-path={self.path},share=on"
        return f"memory-backend-ram,id=ram,size={self.mib}M"


def moved(source):
    """Waits for the end of a migration, and returns what QEMU says of it."""
    end = time.monotonic() + SECONDS
    while time.monotonic() < end:
        state = source.client.ask("query-migrate")
        if state.get("status") == "completed":
            return state
        if state.get("status") in ("failed", "cancelled"):
            raise Fault(f"the migration {state['status']}: {state.get('error-desc', 'QEMU says no more')}")
        time.sleep(0.005)
    raise Fault(f"the migration takes more than {SECONDS} s")


def sent_bytes(told, mib):
    """Returns the bytes of the pages that were sent whole, which are at least the guest's memory."""
    count = told["normal"] * told["page-size"]
    if count < mib << 20:
        raise Fault(f"{count >> 20} MiB of pages were sent, and the guest has {mib} MiB")
    return count


def migrated(room, memory, channels):
    """Moves the guest once. Returns seconds, processor seconds of both ends, and the bytes of pages sent."""
    lane = os.path.join(room, "lane")
    source, target = End(room, "source", memory, []), None
    try:
        target = End(room, "target", memory, ["-incoming", "defer"])
        for end in (source, target):
            end.set_channels(channels)
        source.client.ask("migrate-set-parameters", max_bandwidth=UNLIMITED)
        target.client.ask("migrate-incoming", uri=f"unix:{lane}")
        before = source.processor() + target.processor()
        source.client.ask("migrate", uri=f"unix:{lane}")
        state = moved(source)
        taken = source.processor() + target.processor() - before
        return state["total-time"] / 1000, taken, sent_bytes(state["ram"], memory.mib)
    finally:
        for end in (source, target):
            if end:
                end.stop()
        for name in ("source.qmp", "target.qmp", "lane"):
            if os.path.exists(os.path.join(room, name)):
                os.unlink(os.path.join(room, name))


def line_of(channels, runs):
    seconds, taken, sent = min(runs)
    name = f"{channels} multifd channels" if channels else "one stream"
    gib = sent / (1 << 30)
    least = min(run[1] for run in runs)
    return f"| {name} | {gib:.2f} | {1000 * seconds:.0f} | {sent / 1e9 / seconds:.1f} | {least / gib:.2f} |"


def main():
    asked = asked_for()
    if not shutil.which(QEMU):
        raise Fault(f"{QEMU} is not on the path")
    with tempfile.TemporaryDirectory(dir=memory_folder()) as room:
        memory = Memory(room, asked.size)
        print("| QEMU | GiB sent | ms | GB/s | Processor s a GiB, both ends |\n|---|---|---|---|---|")
        for channels in asked.channels:
            runs = [migrated(room, memory, channels) for _ in range(asked.n)]
            print(line_of(channels, runs), flush=True)


if __name__ == "__main__":
    try:
        main()
    except (Fault, OSError) as fault:
        print(f"bench/qemu: {fault}", file=sys.stderr)
        sys.exit(1)
