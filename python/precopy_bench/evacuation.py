"""Evacuates guests of QEMU as tools/evacuate plans it, and prints the plan beside what QEMU did.

    bench/evacuation [--guests N] [--memory 512M] [--link 64MiB] [--downtime 300ms] [--for 60s] [-n RUNS]

Up to six guests run at once, each with another workload. In each run all are recorded by tools/record, and then moved
twice: by the best schedule of tools/evacuate, and by the slowest of those that keep all limits. Each slot moves the
next guest of the order as soon as it is free, to a second QEMU that waits for it, at the share of the link as
`max-bandwidth`. A guest that has moved stops here, its memory is compared with that at its destination, and goes on
here when all have moved.

Bytes are those of pages sent whole, and times are without QEMU's set-up, but for the whole: that is from the first
command to the last end. --keep leaves the records and the plans in a folder for each run.

With --at-once 2,3 `tools/evacuate --run` itself moves all by each of these numbers at once, with shares that stay and
with --fluid. Then the times of guests are with the set-up of QEMU, and bytes are all that it sends.

It needs what tools/compare-qemu needs, and 5 GiB of memory for six guests of 512 MiB. On a busy machine it shows how
busy that is. The status is 0 if all guests have arrived whole.
"""

import concurrent.futures
import os
import signal
import subprocess
import sys
import tempfile
import time
from typing import NamedTuple

from precopy_bench.measuring import memory_folder
from precopy_dev.files import read_json, write_file
from precopy_dev.tree import TOP
from precopy_dev.words import parser_of
from precopy_tools import words
from precopy_tools.evacuate.options import numbers
from precopy_tools.formats import traces
from precopy_tools.qemu import guest, migration, qmp

RECORD, EVACUATE = os.path.join(TOP, "tools", "record"), os.path.join(TOP, "tools", "evacuate")
STORE = os.path.join(TOP, "examples", "guests", "store.c")
PAGES = 16_384
MIB = 1 << 20
# A second process makes the TLB of QEMU without KVM smaller: see docs/REAL-GUESTS.md.
OTHER_PROCESS = "while :; do sleep 0.2; done &\n"
# Of a guest of 512 MiB: pages that are hot, writes a second to them, other pages, writes a second to these in turn.
WRITERS = {
    "idle": (0, 0, 81_920, 0),
    "slow": (1024, 400, 61_440, 50),
    "mid": (1024, 800, 40_960, 200),
    "sweep": (0, 0, 65_536, 700),
    "busy": (4096, 1500, 16_384, 300),
}
STORE_MIB, LOG_MIB, UPDATES = 192, 64, 500
WORKLOADS = ("idle", "slow", "mid", "store", "sweep", "busy")
SIZE, OF_KERNEL = 512 * MIB, 64 * MIB


class Failed(Exception):
    """A program of this repository does not do what it was asked."""


class Move(NamedTuple):
    """What was planned of a guest, what QEMU did, and how many pages differ at the destination."""

    name: str
    planned: dict
    real: migration.Migration
    differ: int

    def apart(self):
        """By how many per cent the plan is above QEMU: bytes, and time."""
        sent, seconds = self.real.sent * 4096, self.real.milliseconds / 1000
        return (100 * (self.planned["sent_bytes"] / sent - 1), 100 * (self.planned["time_seconds"] / seconds - 1))


def workload(name, memory):
    """The script of a guest, smaller if its memory is: the guest's kernel takes its part of that."""
    part = max(0.0, (memory - OF_KERNEL) / (SIZE - OF_KERNEL))
    if name == "store":
        return f"{OTHER_PROCESS}exec store {int((STORE_MIB + LOG_MIB) * part) - LOG_MIB} {UPDATES}\n"
    hot, hot_rate, cold, cold_rate = WRITERS[name]
    return f"{OTHER_PROCESS}exec guest-writer {hot} {hot_rate} {int(cold * part)} {cold_rate}\n"


class Host:
    """Guests that run here, and where they go."""

    def __init__(self, options, folder, memory_folder_path):
        self.options, self.folder, self.memory_folder = options, folder, memory_folder_path
        self.machine = guest.Machine(guest.nodes_of(options.memory, 1), options.accelerator, [])
        self.names, self.systems, self.guests = WORKLOADS[: options.guests], {}, {}

    def boot(self):
        store = os.path.join(self.folder, "store")
        subprocess.run(["cc", "-O2", "-static", "-o", store, STORE], check=True)
        for name in self.names:
            self.systems[name] = os.path.join(self.folder, f"{name}.cpio")
            files = guest.added_files(store) if name == "store" else []
            guest.file_system(self.systems[name], workload(name, self.options.memory), self.folder, files)
            self.start(name, name)
        for name in self.names:
            self.guests[name].wait_until_ready()

    def start(self, key, name, incoming=False):
        place = os.path.join(self.memory_folder, key)
        os.makedirs(place, exist_ok=True)
        self.guests[key] = guest.Guest(key, self.folder, place, self.machine, self.systems[name], incoming)
        return self.guests[key]

    def record(self, folder):
        """A record of each guest, all in the same time."""
        records = {name: os.path.join(folder, f"{name}.light.pcwt") for name in self.names}
        running = []
        for name, path in records.items():
            command = [RECORD, "--qmp", self.guests[name].socket, "--by", "writes", "--pages", str(PAGES)]
            command += ["--for", words.given_time(self.options.length), path]
            running.append(subprocess.Popen(command, stdout=subprocess.DEVNULL))
        for name, process in zip(records, running):
            if process.wait():
                raise Failed(f"{name} was not recorded")
        return list(records.values())

    def move(self, name, share):
        source, to = self.guests[name], self.guests[f"{name}-to"]
        socket = os.path.join(self.folder, f"{name}.migration")
        with to.client() as client:
            client.ask("migrate-incoming", uri=f"unix:{socket}")
            to.wait_for_socket(socket)
            limits = migration.Limits(share, self.options.downtime, self.options.patience)
            real = migration.migrate(source, limits, f"unix:{socket}")
            if not real.ended:
                raise Failed(f"{name} did not move within {self.options.patience:g} s")
            migration.wait_until_arrived(client)
        return real

    def evacuate(self, schedule, costs):
        """Moves all guests by a schedule. Returns the moves, and the seconds of the whole."""
        for name in self.names:
            self.start(f"{name}-to", name, incoming=True).wait_for_socket()
        waiting, share = list(schedule["guests"]), self.options.link / schedule["at_once"]
        moved = {}

        def slot():
            while waiting:
                name = waiting.pop(0)
                moved[name] = self.move(name, share)

        begun = time.monotonic()
        with concurrent.futures.ThreadPoolExecutor(schedule["at_once"]) as slots:
            for each in [slots.submit(slot) for _ in range(schedule["at_once"])]:
                each.result()
        seconds = time.monotonic() - begun
        return [self.arrived(name, costs[name], moved[name]) for name in schedule["guests"]], seconds

    def arrived(self, name, planned, real):
        return Move(name, planned, real, self.compared(name))

    def compared(self, name):
        """Compares the memory of a guest that has moved, ends it at the destination, and lets it go on here."""
        differ, _ = migration.differing_of(self.guests[name], self.guests[f"{name}-to"])
        self.guests.pop(f"{name}-to").end()
        with self.guests[name].client() as client:
            client.ask("cont")
        return differ

    def evacuate_by_tool(self, records, words, path):
        """Moves all guests by `tools/evacuate --run`. Returns what it tells, and how many pages differ."""
        for name in self.names:
            to = self.start(f"{name}-to", name, incoming=True)
            to.wait_for_socket()
            with to.client() as client:
                client.ask("migrate-incoming", uri=f"unix:{self.folder}/{name}.migration")
        ways = ["--monitor", f"{self.folder}/{{name}}.qmp", "--to", f"unix:{self.folder}/{{name}}.migration"]
        command = [EVACUATE, *records, *limits_of(self.options), *words, "--lines", "qmp", *ways]
        done = subprocess.run([*command, "--run", "--force", "--json", path], capture_output=True, text=True)
        if done.returncode:
            raise Failed(done.stderr.strip() or done.stdout[-300:])
        write_file(done.stdout, path.replace(".json", ".text"))
        for name in self.names:
            with self.guests[f"{name}-to"].client() as client:
                migration.wait_until_arrived(client)
        return read_json(path), sum(self.compared(name) for name in self.names)

    def end(self):
        for each in self.guests.values():
            each.end()


def limits_of(options):
    return ["--link", words.given_rate(options.link), "--downtime", words.given_time(options.downtime)]


def planned(options, records, folder):
    """All answers of tools/evacuate."""
    path = os.path.join(folder, "plan.json")
    command = [EVACUATE, *records, *limits_of(options)]
    done = subprocess.run([*command, "--json", path], capture_output=True, text=True)
    if done.returncode not in (0, 3, 4):
        raise Failed(done.stderr.strip())
    return read_json(path)


def schedules_of(told):
    """The best schedule, and the slowest one of those that keep all limits, if that is another one."""
    best = told["schedules"][told["best"]["schedule"]]
    kept = [each for each in told["schedules"] if each["kept"]]
    worst = max(kept or [best], key=lambda each: each["time_seconds"])
    return [("best", best)] + ([("slowest", worst)] if worst is not best else [])


def costs_at(told, at_once):
    return {each["name"]: next(cost for cost in each["costs"] if cost["at_once"] == at_once) for each in told["guests"]}


def show(number, kind, schedule, moves, seconds):
    """A row of the whole, and one of each guest."""
    sent = sum(move.real.sent for move in moves) * 4096 / MIB
    setup = sum(move.real.setup for move in moves) / 1000
    plan_sent, plan = schedule["sent_bytes"] / MIB, schedule["time_seconds"]
    how = f"{kind}: {schedule['at_once']} at once, {schedule['order']}"
    print(
        f"| {number} | {how} | **all** | {plan_sent:,.0f} | {sent:,.0f} | {100 * (plan_sent / sent - 1):+.1f} "
        f"| {plan:.1f} | {seconds:.1f} | {100 * (plan / seconds - 1):+.1f} | {setup:.1f} s of set-up |"
    )
    for move in moves:
        sent_apart, time_apart = move.apart()
        real, cost = move.real, move.planned
        note = f"{real.reached() / MIB:.1f} of {cost['link_bytes_per_second'] / MIB:.1f} MiB/s, {real.downtime} ms down"
        note += f", {move.differ:,} pages differ" if move.differ else ""
        print(
            f"| {number} | | `{move.name}` | {cost['sent_bytes'] / MIB:,.0f} | {real.sent * 4096 / MIB:,.0f} "
            f"| {sent_apart:+.1f} | {cost['time_seconds']:.1f} | {real.milliseconds / 1000:.1f} "
            f"| {time_apart:+.1f} | {note} |"
        )
    sys.stdout.flush()


def show_told(number, kind, told):
    """The same of what `tools/evacuate --run` tells."""
    moves = {move["guest"]: move for move in told["best"]["moves"]}
    schedule = told["schedules"][told["best"]["schedule"]]
    costs = costs_at(told, schedule["at_once"])
    sent = sum(each["sent_bytes"] for each in told["run"]["guests"])
    rows = [("**all**", schedule["sent_bytes"], schedule["time_seconds"], sent, told["run"]["time_seconds"])]
    for each in told["run"]["guests"]:
        name, taken = each["guest"], each["end_seconds"] - each["start_seconds"]
        length = moves[name]["end_seconds"] - moves[name]["start_seconds"]
        rows.append((f"`{name}`", costs[name]["sent_bytes"], length, each["sent_bytes"], taken))
    for name, plan_sent, plan, sent, taken in rows:
        how = kind if name == "**all**" else ""
        print(
            f"| {number} | {how} | {name} | {plan_sent / MIB:,.0f} | {sent / MIB:,.0f} "
            f"| {100 * (plan_sent / sent - 1):+.1f} | {plan:.2f} | {taken:.2f} | {100 * (plan / taken - 1):+.1f} | |"
        )
    sys.stdout.flush()


def one_run(number, host, options, folder):
    """Records all guests, and moves them by two schedules, or by the tool with shares that stay and that change.
    Returns how many pages differ at destinations."""
    place, differ = os.path.join(options.keep or folder, f"run{number}"), 0
    os.makedirs(place)
    records = host.record(place)
    for at_once in options.at_once:
        for kind, more in (("stay", []), ("fluid", ["--fluid"])):
            words_of_tool = ["--at-once", str(at_once), *more]
            path = os.path.join(place, f"{kind}{at_once}.json")
            told, apart = host.evacuate_by_tool(records, words_of_tool, path)
            show_told(number, f"{kind}: {at_once} at once", told)
            differ += apart
    if options.at_once:
        return differ
    told = planned(options, records, place)
    for kind, schedule in schedules_of(told):
        moves, seconds = host.evacuate(schedule, costs_at(told, schedule["at_once"]))
        show(number, kind, schedule, moves, seconds)
        differ += sum(move.differ for move in moves)
    return differ


def options_of(given):
    parser = parser_of("bench/evacuation", __doc__)
    add = parser.add_argument
    add("--guests", type=int, choices=range(2, len(WORKLOADS) + 1), default=len(WORKLOADS), help="2 to 6 (6)")
    add("--memory", type=words.memory, default=SIZE, metavar="SIZE", help="of each guest (512M)")
    add("--link", type=words.rate, default=64 * MIB, metavar="RATE", help="a second, of all (64MiB)")
    add("--downtime", type=words.seconds, default=0.3, metavar="TIME", help="limit of each guest (300ms)")
    add("--for", type=words.seconds, dest="length", default=60.0, metavar="TIME", help="how long to record (60s)")
    add("--patience", type=words.seconds, default=180.0, metavar="TIME", help="with one migration (180s)")
    add("--at-once", type=numbers, default=(), metavar="K", help="move by tools/evacuate --run; several with commas")
    add("--accelerator", choices=("tcg", "kvm"), default="tcg", help="of QEMU (tcg)")
    add("--keep", metavar="DIR", help="where records and plans stay")
    add("-n", dest="runs", type=words.count, default=3, metavar="RUNS", help="3 if none is given")
    options = parser.parse_args(given)
    if "store" in WORKLOADS[: options.guests] and options.memory < SIZE // 2:
        parser.error(f"--memory: the guest of the store needs {SIZE // 2 // MIB}M")
    return options


def main(given):
    options = options_of(given)
    signal.signal(signal.SIGTERM, lambda *_: sys.exit(1))
    with tempfile.TemporaryDirectory() as folder, tempfile.TemporaryDirectory(dir=memory_folder()) as memory_path:
        host = Host(options, folder, memory_path)
        try:
            host.boot()
            print(
                f"{options.guests} guests of {options.memory // MIB} MiB, {options.link / MIB:g} MiB/s, limit "
                f"{1000 * options.downtime:g} ms; load {os.getloadavg()[0]:.1f}\n"
            )
            print("| Run | Schedule | Guest | MiB planned | sent | off, % | s planned | taken | off, % | |")
            print("|---|---|---|---|---|---|---|---|---|---|", flush=True)
            differ = sum(one_run(number, host, options, folder) for number in range(1, options.runs + 1))
            print(f"\nload {os.getloadavg()[0]:.1f}; {differ:,} pages differ at destinations")
            return 1 if differ else 0
        except (guest.Failed, guest.Missing, qmp.Fault, Failed, OSError, subprocess.SubprocessError) as fault:
            print(f"bench/evacuation: {traces.told(fault)}", file=sys.stderr)
            return 1
        finally:
            host.end()


if __name__ == "__main__":
    sys.exit(main(sys.argv[1:]))
