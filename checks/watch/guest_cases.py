"""Cases of checks/watch: what is recorded, predicted and told of guests that write, pause, come, go, and have names."""

import contextlib
import io
import json
import os
import signal
import socket
import subprocess
import sys
import threading
import time
import types
import uuid

from checks.lib.harness import cases_of, expect, waited
from checks.lib.tally import expect_in_time
from checks.recording.memory_cases import programs_in
from checks.watch.watch_runs import LIMITS, SECONDS, Watching, known, of_guest
from precopy_dev.files import read_json, read_text, write_file
from precopy_dev.tree import TOP
from precopy_tools.formats import samples, traces
from precopy_tools.watch import hosts
from precopy_tools.watch.names import Names

PREDICT = os.path.join(TOP, "tools", "predict")
PAGE = 4096
ODD = 'an "odd\\ name'
# A program that predicts nothing, takes its time for that, and ignores to be ended.
SLOW = """\
#!{python}
import os, signal, time
signal.signal(signal.SIGTERM, signal.SIG_IGN)
with open("{place}/new", "w") as file:
    file.write(str(os.getpid()))
os.rename("{place}/new", "{place}/begun")
time.sleep(60)
"""
# A process whose table of open files is full for a while.
FULL = """\
import os, sys
from checks.lib.harness import all_files_held
from precopy_tools.qemu import qmp
from precopy_tools.watch import hosts
host = hosts.Monitors(sys.argv[1])
print([*host.look()])
held = all_files_held()
try:
    print([*host.look()])
except qmp.Fault as fault:
    print(fault)
for each in held:
    os.close(each)
print([*host.look()])
"""
ODDLY_CALLED = "not watched: a record cannot have this name"
UNNAMED = "not watched: no part of its path is a name that no other guest has"
NUMBERS = {"time_seconds": "duration_seconds", "sent_bytes": "sent_bytes", "down_seconds": "downtime_seconds"}
VIRSH = """\
#!{python}
import json, sys
from precopy_tools.qemu import qmp
with open({path!r}) as file:
    domains = json.load(file)
words = [word for word in sys.argv[1:] if word != "--quiet"]
if domains is None:
    sys.exit("error: failed to connect to the hypervisor")
if words[0] == "list":
    print("\\n".join(name for name, each in domains.items() if each["runs"] or "--state-running" not in words))
    sys.exit()
domain = domains[words[2]]
if words[0] == "domuuid":
    print(domain["uuid"])
else:
    with qmp.Client(domain["socket"]) as client:
        client.socket.sendall(words[4].encode() + b"\\n")
        print(json.dumps(client._next("return", "error")))
"""


class Beside:
    """Something that goes on in a thread of its own, in the block."""

    def __init__(self):
        self.is_over, self.thread = threading.Event(), threading.Thread(target=self.go_on)

    def go_on(self):
        raise NotImplementedError

    def __enter__(self):
        self.thread.start()
        return self

    def __exit__(self, *_):
        self.is_over.set()
        self.thread.join()


class Writing(Beside):
    """Writes to all pages of a guest again and again."""

    def __init__(self, guest, pause=0.06):
        super().__init__()
        self.guest, self.pause = guest, pause

    def go_on(self):
        while not self.is_over.wait(self.pause):
            self.guest.ask("write")


class Reading(Beside):
    """Reads the text again and again: it is always whole, and what only grows never becomes less."""

    def __init__(self, run):
        super().__init__()
        self.run, self.count, self.fault = run, 0, None

    def go_on(self):
        before = {}
        try:
            while not self.is_over.wait(0.01):
                now = self.run.metrics()
                less = [key for key, value in now.items() if key[0].endswith("_total") and value < before.get(key, 0)]
                expect(not less, f"less than before: {[(key, before[key], now[key]) for key in less]}")
                before, self.count = now, self.count + bool(now)
        except Exception as fault:
            self.fault = fault

    def __exit__(self, *_):
        super().__exit__()
        expect(self.fault is None, self.fault)
        expect_in_time(self.count > 10, f"the text was read {self.count} times")


def predicted(program, path, *limits):
    done = subprocess.run([PREDICT, path, "--json", "--program", program, *limits], capture_output=True, text=True)
    expect(done.returncode in (0, 3, 4, 5), f"{done.returncode}, {done.stderr!r}")
    return json.loads(done.stdout)["prediction"]


def told_of(metrics, guest):
    """The numbers of a prediction and the verdict, as they are told."""
    numbers = {name: metrics.get(of_guest(f"precopy_guest_predicted_{each}", guest)) for name, each in NUMBERS.items()}
    verdicts = [
        each
        for each in ("kept", "missed", "uncertain", "unknown")
        if metrics[of_guest("precopy_guest_verdict", guest, verdict=each)]
    ]
    expect(len(verdicts) == 1, f"{guest}: verdicts {verdicts}")
    return numbers, verdicts[0]


def expect_predicted(program, run, metrics, guest, *limits):
    """What is told of a guest is what tools/predict tells of one of its last ten records. Returns the verdict."""
    numbers, verdict = told_of(metrics, guest)
    found = []
    for path in run.records_of(guest)[-10:]:
        told = predicted(program, path, *limits)
        migration = told.get("migration", {})
        known_verdict = {"yes": "kept", "no": "missed"}.get(told["kept"], told["kept"])
        found.append(({name: migration.get(name) for name in NUMBERS}, known_verdict))
    expect((numbers, verdict) in found, f"{guest}: {numbers}, {verdict} are told, and predicted are {found}")
    return verdict


def expect_counted(run, metrics, guest):
    """What is counted of a guest is what its records have."""
    records, looks, late, dirtied = run.records_of(guest), 0, 0, 0.0
    for path in records:
        trace, written = traces.read_file(path)
        sample = samples.read(path, trace, [record[:2] for record in written])
        looks, late = looks + sample.samples, late + sample.late
        dirtied += sum(record[0] >= sample.first_tick for record in written) * PAGE * sample.weight
    for metric, wanted in (
        ("precopy_guest_records_total", len(records)),
        ("precopy_guest_looks_total", looks),
        ("precopy_guest_late_looks_total", late),
        ("precopy_guest_dirtied_bytes_total", dirtied),
    ):
        found = metrics[of_guest(metric, guest)]
        expect(abs(found - wanted) <= 1e-9 * wanted, f"{guest}: {metric} is {found}, and the records have {wanted}")


# ---- The cases.


def told_as_recorded(program, folder):
    """Guests that write and some that do not: what is told is what the records have, and tools/predict says."""
    limits = f'{LIMITS}[guests.busy]\nlink = "1GB"\ndowntime = "100us"\n'
    with known(folder, "idle.qmp"), known(folder, "busy.qmp") as busy, known(folder, f"{ODD}.qmp"):
        with Watching(program, folder, limits=limits) as run, Writing(busy, 0.02):
            with Reading(run):
                for name, verdict in (
                    ("idle", "kept"),
                    ("busy", "missed"),
                    (ODD.translate({92: "\\\\", 34: '\\"'}), "kept"),
                ):
                    run.wait_for_value("precopy_guest_verdict", name, 1, verdict=verdict)
                run.wait_for_value("precopy_guest_records_total", "busy", 3)
            run.end_well()
            metrics = run.metrics()
    expect(expect_predicted(program, run, metrics, "idle", "--link", "64MiB") == "kept", "idle")
    expect(expect_predicted(program, run, metrics, "busy", "--link", "1GB", "--downtime", "100us") == "missed", "busy")
    for name in ("idle", "busy"):
        expect_counted(run, metrics, name)
    expect(metrics[of_guest("precopy_guest_dirtied_bytes_total", "idle")] == 0, "idle has written")
    expect_in_time(metrics[of_guest("precopy_guest_dirtied_bytes_total", "busy")] > 20 * 1000 * PAGE, f"{metrics}")
    expect(metrics[of_guest("precopy_guest_ran_ratio", "busy")] == 1, f"{metrics}")
    expect(metrics[of_guest("precopy_guest_kept_starts_ratio", "idle")] == 1, f"{metrics}")
    expect_in_time(metrics[of_guest("precopy_guest_kept_starts_ratio", "busy")] < 0.5, f"{metrics}")
    for name in ("precopy_watch_cpu_seconds_total", "precopy_watch_resident_memory_bytes"):
        expect(metrics[(name,)] > 0, f"{name}: {metrics}")
    age = time.time() - metrics[of_guest("precopy_guest_last_record_timestamp_seconds", "idle")]
    expect(0 <= age < SECONDS, f"the last record is {age} s old")


def come_pause_and_go(program, folder):
    """Guests that come are recorded, of those that go nothing is told, and of one that stood still nothing is known."""
    with known(folder, "a.qmp") as first, Watching(program, folder) as run:
        run.wait_for_value("precopy_guest_verdict", "a", 1, verdict="kept")
        with known(folder, "b.qmp") as second:
            run.wait_for_value("precopy_guest_verdict", "b", 1, verdict="kept")
            first.process.kill()
            run.wait_for(lambda found: not any(("guest", "a") in key for key in found), "a has gone")
            second.ask("stop")
            found = run.wait_for_value("precopy_guest_verdict", "b", 1, verdict="unknown")
            expect(found[of_guest("precopy_guest_ran_ratio", "b")] < 0.99, f"{found}")
            expect(told_of(found, "b")[0] == dict.fromkeys(NUMBERS), f"{found}")
            second.ask("cont")
            run.wait_for_value("precopy_guest_verdict", "b", 1, verdict="kept")
        run.wait_for(lambda found: found.get(("precopy_watch_guests",)) == 0, "both have gone")
        run.end_well()
    expect("a: gone" in run.told and "b: gone" in run.told, run.told)


def guests_of_one_name(program, folder):
    """Guests whose sockets have one name are watched by names of their own, which they keep while they are there."""
    for each in ("x", "y", "z"):
        os.makedirs(os.path.join(folder, "sockets", each))
    place = os.path.join(folder, "sockets")
    with known(place, "x/m.qmp"), known(place, "y/m.qmp"), known(place, "z/n.qmp"):
        os.symlink(os.path.join(place, "z"), os.path.join(place, "zz"))
        with Watching(program, folder, "--monitors", os.path.join(place, "*", "*.qmp")) as run:
            for name in ("x-m", "y-m", "n"):
                run.wait_for_value("precopy_guest_verdict", name, 1, verdict="kept")
            with known(place, "z/m.qmp"):
                found = run.wait_for_value("precopy_guest_records_total", "z-m", 1)
            expect(found[("precopy_watch_guests",)] == 4, f"{found}")
            run.end_well()
    expect(all(run.records_of(name) for name in ("x-m", "y-m", "z-m", "n")), f"{os.listdir(run.output)}")
    expect(f"x-m: the guest of {place}/x/m.qmp" in run.told and "n: the guest" not in run.told, run.told)
    # The last guest may go while a record of it begins.
    expect(run.faults in ("", "watch: z-m: the process ended\n"), run.faults)


def names_of_sockets(_, folder):
    """Names are the shortest parts of paths that tell guests apart; what has none is refused once, and in words."""
    for paths, wanted in (
        (["/r/a.qmp", "/r/b.c.qmp", "/s/d"], ["a", "b.c", "d"]),
        (["/r/a/m.qmp", "/r/b/m.qmp", "/r/b/n.qmp"], ["a-m", "b-m", "n"]),
        (["/q/c/m.qmp", "/r/c/m.qmp", "/r/d/m.qmp"], ["q-c-m", "r-c-m", "d-m"]),
        (["/m.qmp", "/r/m.qmp", "/r/m.sock"], ["m", "r-m.qmp", "m.sock"]),
        (["/r/m.qmp", "/r/m.sock"], ["m.qmp", "m.sock"]),
        (["/r/a-b/m.qmp", "/r/a/b/m.qmp", "/r/c/b/m.qmp"], ["a-b-m", "a-b-m.qmp", "c-b-m"]),
        (["/r/a/m.qmp", "/r/b/m.qmp", "/s/a-m.qmp"], ["r-a-m", "b-m", "a-m"]),
        (["/r/.a/m.qmp", "/r/\n/m.qmp", "/r/b/m.qmp"], ["r-.a-m", None, "b-m"]),
        (["/r/" + "a" * 200 + "/m.qmp", "/r/b/m.qmp"], [None, "b-m"]),
    ):
        named, faults = Names(), io.StringIO()
        with contextlib.redirect_stderr(faults), contextlib.redirect_stdout(io.StringIO()):
            found = [named.of(paths) for _ in range(3)]
        expect(found == [{name: path for name, path in zip(wanted, paths) if name}] * 3, f"{paths}: {found}")
        refused = [path for name, path in zip(wanted, paths) if not name]
        expect(faults.getvalue() == "".join(f"watch: {path}: {UNNAMED}\n" for path in refused), faults.getvalue())
    odd_names(folder)
    named, both = Names(), ["/r/a/m.qmp", "/r/b/m.qmp"]
    with contextlib.redirect_stdout(io.StringIO()):
        found = [named.of(paths) for paths in (both[:1], both, both[1:], both)]
    first, second = both
    alone = {"b-m": second}
    expect(found == [{"m": first}, {"m": first, **alone}, alone, {"a-m": first, **alone}], f"{found}")


def odd_names(folder):
    """Guests whose names no record can have are told once while they are there, whatever is in these names."""
    names = ["a\nb.qmp", os.fsdecode(b"\xff.qmp"), "c.qmp"]
    paths = [os.path.join(folder, name) for name in names]
    domains = ["a", ".b", "c\td"]
    of_libvirt, of_sockets = hosts.Libvirt(), hosts.Monitors(os.path.join(folder, "*.qmp"))
    faults, own = io.StringIO(), hosts.domains
    hosts.domains = types.SimpleNamespace(virsh=lambda *_, **__: "\n".join([*domains, ""]))
    with contextlib.redirect_stderr(faults), contextlib.ExitStack() as stack:
        stack.callback(setattr, hosts, "domains", own)
        servers = [stack.enter_context(socket.socket(socket.AF_UNIX)) for _ in paths]
        for server, path in zip(servers, paths):
            server.bind(path)
        for _ in range(3):
            expect(not of_sockets.look() and of_libvirt.look() == {"a": True}, f"{of_sockets.look()}")
        os.unlink(paths[0])
        of_sockets.look()
        stack.enter_context(socket.socket(socket.AF_UNIX)).bind(paths[0])
        of_sockets.look()
    told = [*paths[:2], *domains[1:], paths[0]]
    expect(faults.getvalue() == "".join(f"watch: {each!r}: {ODDLY_CALLED}\n" for each in told), faults.getvalue())


def folders_that_cannot_be_read(_, folder):
    """If the folder of the monitors cannot be read now, as when too many files are open, that is told, and no guest has
    gone. One that is not there yet has none."""
    environment = {**os.environ, "PYTHONPATH": f"{TOP}:{TOP}/python"}
    command = [sys.executable, "-B", "-c", FULL, os.path.join(folder, "*.qmp")]
    with known(folder, "a.qmp"):
        done = subprocess.run(command, env=environment, capture_output=True, text=True, timeout=SECONDS)
    expect(done.stdout == f"['a']\n{folder}: Too many open files\n['a']\n", f"{done}")
    expect(not hosts.Monitors(os.path.join(folder, "none", "*.qmp")).look(), "a guest without a folder")


def memory_that_is_plugged_in(program, folder):
    """The next record is of the memory that the guest has then, and nothing that is counted becomes less."""
    with known(folder, "a.qmp", plugged=["dimm", "private", 500]) as guest:
        with Watching(program, folder) as run:
            with Reading(run):
                run.wait_for_value("precopy_guest_records_total", "a", 1)
                guest.ask("plug")
                before = run.metrics()[of_guest("precopy_guest_records_total", "a")]
                run.wait_for_value("precopy_guest_records_total", "a", before + 2)
            run.end_well()
    expect(read_json(samples.path_beside(run.records_of("a")[-2]))["guest_pages"] == 1500, f"{run.told}")


class Domains:
    """A stand-in for virsh, and the guests that it tells, each with a monitor of its own."""

    def __init__(self, folder):
        self.path, self.programs = os.path.join(folder, "domains"), programs_in(folder)
        write_file(VIRSH.format(python=sys.executable, path=self.path), self.programs, "virsh")
        os.chmod(os.path.join(self.programs, "virsh"), 0o700)
        self.environment = {**os.environ, "PATH": self.programs, "PYTHONDONTWRITEBYTECODE": "1"}

    def tell(self, domains):
        """From now on virsh tells these; of None it has no connection."""
        write_file(json.dumps(domains), f"{self.path}.new")
        os.rename(f"{self.path}.new", self.path)


def guests_of_libvirt(program, folder):
    """The guests of libvirt by their names, but for those that are left alone; its silence ends no recording."""
    domains, names = Domains(folder), ("db-a", "-x y", "scratch")
    limits = f"{LIMITS}[guests.scratch]\nwatch = false\n"
    with contextlib.ExitStack() as stack:
        told = {}
        for number, name in enumerate(names):
            identity = str(uuid.uuid4())
            guest = stack.enter_context(known(folder, f"monitor{number}", "-uuid", identity))
            told[name] = {"socket": guest.socket, "uuid": identity, "runs": True}
        domains.tell(told)
        run = stack.enter_context(Watching(program, folder, limits=limits, is_libvirt=True, env=domains.environment))
        for name in names[:2]:
            run.wait_for_value("precopy_guest_verdict", name, 1, verdict="kept")
        domains.tell(None)
        found = run.wait_for(lambda found: found[("precopy_watch_host_up",)] == 0, "virsh tells nothing")
        before = found[of_guest("precopy_guest_records_total", "db-a")]
        run.wait_for_value("precopy_guest_records_total", "db-a", before + 2)
        told["db-a"]["runs"] = False
        domains.tell(told)
        run.wait_for_value("precopy_guest_verdict", "db-a", 1, verdict="unknown")
        found = run.metrics()
        expect(told_of(found, "-x y")[1] == "kept" and found[("precopy_watch_guests",)] == 2, f"{found}")
        run.end_well()
    expect(run.faults.count("the guests are not told: virsh list: failed to connect") == 1, run.faults)
    expect(not run.records_of("scratch") and run.records_of("-x y"), f"{os.listdir(run.output)}")


def a_libvirt_that_hangs(_, folder):
    """virsh is waited for but a moment, so that the service can end, and each record gets its name."""
    path = write_file("#!/bin/sh\nexec /bin/sleep 60\n", programs_in(folder), "virsh")
    os.chmod(path, 0o700)
    code = "from precopy_tools.watch import hosts; hosts.LIST_SECONDS /= 20; hosts.Libvirt().look()"
    environment = {**os.environ, "PATH": os.path.dirname(path), "PYTHONPATH": os.path.join(TOP, "python")}
    command = [sys.executable, "-B", "-c", code]
    done = subprocess.run(command, env=environment, capture_output=True, text=True, timeout=SECONDS)
    expect("Fault: virsh list: no answer within 0.5 s" in done.stderr, f"{done}")


def ended_while_it_predicts(_, folder):
    """At a signal the prediction under way ends, and what it has begun, even if that ignores its end."""
    for number, status in (signal.SIGINT, 0), (signal.SIGTERM, 0), (signal.SIGKILL, -signal.SIGKILL):
        place = os.path.join(folder, number.name)
        os.makedirs(place)
        slow = write_file(SLOW.format(python=sys.executable, place=place), place, "slow")
        os.chmod(slow, 0o700)
        with known(place, "a.qmp"), Watching(slow, place) as run:
            expect_in_time(waited(lambda: os.path.exists(f"{place}/begun"), SECONDS), f"it predicts nothing: {place}")
            process = int(read_text(f"{place}/begun"))
            begun = time.monotonic()
            run.end(number)
            expect(run.process.returncode == status and not run.faults, f"{run.process.returncode}, {run.faults}")
            expect_in_time(time.monotonic() - begun < 10, f"it took {time.monotonic() - begun} s to end")
        expect(waited(lambda: not is_there(process), 1), f"{number.name}: what it began goes on")


def is_there(process):
    """Whether a process runs. One that has ended, and that nobody has waited for yet, does not."""
    try:
        return "\nState:\tZ" not in read_text(f"/proc/{process}/status")
    except (FileNotFoundError, ProcessLookupError):
        return False


def killed_and_begun_again(program, folder):
    """One that is killed leaves a whole text and whole records; the next one goes on, and removes what was left."""
    with known(folder, "a.qmp"):
        with Watching(program, folder) as first:
            first.wait_for_value("precopy_guest_records_total", "a", 2)
            first.end(signal.SIGKILL)
        expect(first.metrics(), "there is no text")
        before = first.records_of("a")
        with Watching(program, folder) as second:
            # What the first one told stands until the second one writes.
            second.wait_for_looks(1)
            second.wait_for_value("precopy_guest_verdict", "a", 1, verdict="kept")
            second.end_well()
        expect(set(before) < set(second.records_of("a")), f"{before}, {second.records_of('a')}")
    expect("removed: " in second.told, second.told)


def one_recorder_a_guest(program, folder):
    """A guest that another one records is told as not recorded, and the other one goes on."""
    with known(folder, "a.qmp"), Watching(program, folder) as first:
        first.wait_for_value("precopy_guest_recording", "a", 1)
        os.makedirs(os.path.join(folder, "other"))
        with Watching(program, folder, textfile="other/precopy.prom") as second:
            second.wait_for(lambda found: found.get(of_guest("precopy_guest_recording", "a")) == 0, "a is not recorded")
            time.sleep(2)
            second.end_well(is_alone=False)
        first.wait_for_value("precopy_guest_records_total", "a", 2)
        first.end_well()
    said = "watch: a: another recorder writes this series"
    expect(second.faults.count(said) == 1 and not first.faults, f"{first.faults}, {second.faults}")


def within_its_processor(program, folder):
    """If looks cost more than they may, the next records have a longer interval, and say so."""
    names = [f"g{number}" for number in range(4)]
    with contextlib.ExitStack() as stack:
        for name in names:
            stack.enter_context(known(folder, f"{name}.qmp"))
        run = stack.enter_context(Watching(program, folder, "--processor", "0.01", segment="2s"))
        run.wait_for(lambda found: found.get(("precopy_watch_look_interval_seconds",), 0) > 0.05, "a longer interval")
        for name in names:
            run.wait_for_value("precopy_guest_records_total", name, 3)
        run.end_well()
    intervals = set()
    for path in [path for name in names for path in run.records_of(name)[1:]]:
        told = read_json(samples.path_beside(path))
        intervals.add(told["interval_seconds"])
        length = (told["last_tick"] - told["first_tick"]) * told["tick_seconds"]
        most = length / told["interval_seconds"] + 3
        expect_in_time(
            told["samples"] <= most, f"{told['samples']} looks in {length} s of {told['interval_seconds']} s"
        )
    expect_in_time(all(0.05 < each <= 0.5 for each in intervals), f"intervals: {intervals}")


def spread_over_the_interval(program, folder):
    """The first looks of all guests, and the ends of their first records, are apart."""
    names = [f"g{number}" for number in range(5)]
    with contextlib.ExitStack() as stack:
        for name in names:
            stack.enter_context(known(folder, f"{name}.qmp"))
        run = stack.enter_context(Watching(program, folder, segment="4s"))
        for name in names:
            run.wait_for_value("precopy_guest_records_total", name, 1)
        run.end_well()
    lengths = []
    for name in names:
        told = read_json(samples.path_beside(run.records_of(name)[0]))
        lengths.append((told["last_tick"] - told["first_tick"]) / 1000)
    apart = min(after - before for before, after in zip(sorted(lengths), sorted(lengths)[1:]))
    expect_in_time(all(0.9 <= length < 4.5 for length in lengths), f"first records of {lengths} s")
    expect_in_time(apart > 0.2, f"first records of {lengths} s")


CASES = cases_of(__name__)
