"""Cases of checks/evacuation: monitors that hang, lose answers or lie, virsh in other languages, and what is told."""

import ast
import contextlib
import io
import os
import socket
import stat
import subprocess
import sys
import threading
import time
import types
import uuid

from checks.evacuation import monitors
from checks.evacuation.calm_cases import Waiting
from checks.evacuation.cases import LINK, Programs, expect, four_guests, run_tool, steady_guest, write_record
from checks.evacuation.moving_cases import SECONDS, by_qmp, four_monitors, run_of, script_of
from checks.lib.harness import cases_of
from checks.lib.tally import expect_in_time
from precopy_dev.files import read_text, write_file
from precopy_dev.tree import TOP
from precopy_tools.evacuate import gathering, lines, movers, run, ways
from precopy_tools.evacuate.costs import Cost, Guest, Wanted
from precopy_tools.evacuate.schedules import Placed
from precopy_tools.qemu import qmp
from precopy_tools.refusals import Refused

UNKNOWN = "idle: not known whether it has moved: "
# A virsh whose user reads German.
GERMAN = """\
#!/bin/sh
case $LC_ALL in C*) state=running ;; *) state=laufend ;; esac
case "$*" in
*domstate*) echo "$state" ;;
*domjobinfo*) echo 'Job type:         {job}' ;;
esac
"""
# A virsh of a guest that is called 2 and has the number 1. Another guest has the number 2.
NUMBERED = """\
#!/bin/sh
[ "$1" = --quiet ] && shift
case "$1 $3" in
"domid 2") echo 1 ;;
"domuuid 1") echo {own} ;;
"domstate {own}" | "domstate 2") echo running ;;
"domjobinfo {own}" | "domjobinfo 2") echo 'Job type:         None' ;;
domid*) echo "error: failed to get domain '$3'" >&2; exit 1 ;;
*) echo "$*" >> {log} ;;
esac
"""
OF_NUMBERED = """\
import sys
from checks.evacuation import silent_cases
from precopy_tools.evacuate import movers, ways
from precopy_tools.record import domains
for name in "2", "3":
    mover = movers.VirshMover(silent_cases.moving(sys.argv[1], [], name, 1).step, ways.Way("", "b"))
    print(why := mover.why_not())
    if not why:
        mover.begin()
        mover.process.wait()
print(domains.Domain("2").identity, domains.called_or_number("3"))
"""
# A process whose table of open files is full.
FULL = """\
import os, sys, types
from checks.lib.harness import all_files_held
from precopy_tools.evacuate import movers, ways
from precopy_tools.qemu import qmp
from precopy_tools.record import domains
mover = movers.QmpMover(types.SimpleNamespace(move=None), ways.Way(sys.argv[1]))
held = all_files_held()
try:
    told = mover.why_not()
    domains.virsh("list")
except qmp.Fault as fault:
    os.close(held.pop())
    print(told, fault, sep="\\n")
"""


def step_of(name: str):
    """A step of which only the guest is known."""
    guest = types.SimpleNamespace(name=name, limits=types.SimpleNamespace(domain=None))
    return types.SimpleNamespace(move=types.SimpleNamespace(guest=guest))


def scripts_without_answers(programs: Programs, folder: str) -> None:
    """A script says of a guest whose monitor loses the answer to `migrate` what is known: it moves, it does not, or
    nothing. A guest that came by a migration goes on by another one."""
    records = four_guests(folder)
    for number, (how, said) in enumerate(
        (
            ({"migration": "completed"}, ""),
            ({"loses": "answer"}, ""),
            ({"loses": "answer", "migration": "completed"}, ""),
            ({"loses": "answer", "fails": "no room"}, "idle has not moved: no room\n"),
            ({"loses": "command"}, "idle has not moved: the monitor is closed\n"),
            ({"loses": "all"}, UNKNOWN),
        )
    ):
        place = os.path.join(folder, str(number))
        log, _ = four_monitors(place, idle=how)
        path = script_of(programs, place, *records, *by_qmp(place))
        done = subprocess.run([path], cwd="/", capture_output=True, text=True, timeout=SECONDS)
        expect(done.returncode == (1 if said else 0) and said in done.stderr, f"{how}: {done}")
        expect(("idle has moved" in done.stdout) == (not said), f"{how}: {done}")
        expect(said != UNKNOWN or "has not moved" not in done.stderr, f"{how}: {done}")
        begun = [event.guest for event in log if event.what == "begins"].count("idle")
        expect(begun == (how.get("loses") != "command"), f"{how}: {log}")


def scripts_that_nobody_reads(programs: Programs, folder: str) -> None:
    """A script whose output nobody reads moves its guests all the same."""
    records, (log, _) = four_guests(folder), four_monitors(folder)
    path = script_of(programs, folder, *records, *by_qmp(folder))
    reader, writer = os.pipe()
    os.close(reader)
    with os.fdopen(writer, "wb") as nowhere:
        done = subprocess.run([path], cwd="/", stdout=nowhere, stderr=subprocess.PIPE, text=True, timeout=SECONDS)
    expect(done.returncode == 0 and not done.stderr, f"{done}")
    expect([event.what for event in log].count("ends") == 4, f"{log}")


def moving(folder: str, log: list, name: str, number: int, of_slot: int = 0, **how) -> run.Moving:
    """The move of a guest with a monitor of its own."""
    cost = Cost(2, 1e8, 1_000_000, 1, 1, 1, 1, 1, "yes", True, "")
    placed = Placed(Guest(name, "", "", "", Wanted(0.3), {2: cost}, {}), cost, 0, 1_000_000, number)
    step = lines.Step(number, placed, of_slot, 0, "at once")
    return run.Moving(step, movers.QmpMover(step, ways.Way(monitors.Monitor(folder, name, log, 0.3, **how).path)), None)


def a_monitor_that_hangs(_, folder: str) -> None:
    """While one monitor takes its time, others begin and end; the slow one has moved in the end as they have."""
    log: list[monitors.Event] = []
    moves = [moving(folder, log, "slow", 1, hangs=6.0), moving(folder, log, "a", 2), moving(folder, log, "b", 3, 2)]
    going = run.Run(moves, Waiting(), 0.0)
    with contextlib.redirect_stdout(io.StringIO()):
        going.perform()
    states = {move.planned.guest.name: move.state for move in going.outcome().moves}
    expect(states == dict.fromkeys(("slow", "a", "b"), "moved"), f"{states}")
    events = [(event.guest, event.what) for event in sorted(log)]
    expect_in_time(events.index(("b", "ends")) < events.index(("slow", "begins")), f"others wait: {log}")


def monitors_that_are_free_again(_, folder: str) -> None:
    """The monitor of a guest that has not moved is there for others, also while the run goes on."""
    move = moving(folder, [], "web", 1, fails="no room")
    move.begin()
    while move.is_under_way:
        move.look()
        move.wait()
    expect(move.seen.state == "failed", f"{move.seen}")
    with qmp.Client(move.mover.way.monitor, SECONDS / 10) as client:
        expect(client.object_of("query-status")["running"], "it does not run")


def reports_that_cannot_be_written(programs: Programs, folder: str) -> None:
    """A run whose report cannot be written says so. That a guest has not moved is told by the status all the same."""
    records = four_guests(folder)
    for number, (how, status) in enumerate((({}, 1), ({"fails": "no room"}, 5))):
        place = os.path.join(folder, str(number))
        four_monitors(place, idle=how)
        _, fault = run_of(programs, *records, *by_qmp(place), "--json", f"{place}/none/told.json", status=status)
        expect(f"{place}/none/told.json: No such file or directory" in fault, fault)


def monitors_that_lie(_, folder: str) -> None:
    """An answer that is no object is a fault, as none is."""
    for wrong in [], "running", 5, None:
        monitor = monitors.Monitor(folder, f"lies{type(wrong).__name__}", [])
        monitor.answer = lambda *_, told=wrong: {"return": told}
        mover = movers.QmpMover(step_of("web"), ways.Way(monitor.path))
        expect(mover.why_not().endswith("query-status: an answer that is no object"), mover.why_not())
        expect(mover.whereabouts().startswith("nothing is known of it ("), mover.whereabouts())
        expect(mover.look().state == "moving" and mover.silent == 1, f"{mover.last}")


def full_queues(_, folder: str) -> None:
    """A monitor whose queue is full is waited for as one that does not answer, and asked as soon as there is room."""
    path = os.path.join(folder, "full.qmp")
    with contextlib.ExitStack() as stack:
        server = stack.enter_context(socket.socket(socket.AF_UNIX))
        server.bind(path)
        server.listen(0)
        stack.enter_context(socket.socket(socket.AF_UNIX)).connect(path)
        begun = time.monotonic()
        try:
            qmp.Client(path, 0.5)
        except qmp.Fault as fault:
            expect("no answer within 0.5 s" in str(fault), f"{fault}")
        expect(time.monotonic() - begun >= 0.5, f"it waits for {time.monotonic() - begun} s")
        answering = threading.Timer(0.5, answer_two, [server])
        stack.callback(answering.join)
        answering.start()
        with qmp.Client(path, SECONDS) as client:
            expect(client.object_of("query-status") == {"status": "running"}, "another answer")


def answer_two(server: socket.socket) -> None:
    """Takes one client from a queue, which has gone, and answers another one."""
    server.accept()[0].close()
    client, _ = server.accept()
    with client, client.makefile("rw") as stream:
        monitors.Monitor.say(stream, {"QMP": {}})
        for told in {}, {"status": "running"}:
            stream.readline()
            monitors.Monitor.say(stream, {"return": told})


def full_tables_of_files(_, folder: str) -> None:
    """A monitor or a virsh that cannot be asked now, since too many files are open, is a fault that is told."""
    environment = {**os.environ, "PYTHONPATH": f"{TOP}:{TOP}/python"}
    path = monitors.Monitor(folder, "web", []).path
    command = [sys.executable, "-B", "-c", FULL, path]
    done = subprocess.run(command, env=environment, capture_output=True, text=True, timeout=SECONDS)
    told = f"{path}: Too many open files\nvirsh list: Too many open files\n"
    expect((done.returncode, done.stdout) == (0, told), f"{done}")


def virsh_in_other_languages(_, folder: str) -> None:
    """virsh is asked in English. Of a guest that has a job still it is not said that it runs here."""
    code = "import types, sys; from precopy_tools.evacuate import movers, ways\n"
    code += "from checks.evacuation.silent_cases import step_of\n"
    code += "mover = movers.VirshMover(step_of('web'), ways.Way('', 'b'))\nprint(mover.why_not(), mover.whereabouts())"
    for job, told in (
        ("None", " it runs here\n"),
        (
            "Unbounded",
            "domain web has a job already it has a job still, and its state here is running: look at both hosts\n",
        ),
    ):
        os.makedirs(os.path.join(folder, job))
        os.chmod(write_file(GERMAN.format(job=job), folder, job, "virsh"), stat.S_IRWXU)
        environment = {**os.environ, "PATH": f"{folder}/{job}:{os.environ['PATH']}", "LC_ALL": "de_DE.UTF-8"}
        environment["PYTHONPATH"] = f"{TOP}:{TOP}/python"
        command = [sys.executable, "-B", "-c", code]
        done = subprocess.run(command, env=environment, capture_output=True, text=True, timeout=SECONDS)
        expect(done.stdout == told, f"{job}: {done}")


def names_that_are_numbers(_, folder: str) -> None:
    """A guest whose name is a number is moved, and not another one that has this number, as virsh would."""
    own, log = uuid.uuid4(), os.path.join(folder, "log")
    os.chmod(write_file(NUMBERED.format(own=own, log=log), folder, "virsh"), stat.S_IRWXU)
    environment = {**os.environ, "PATH": f"{folder}:{os.environ['PATH']}", "PYTHONPATH": f"{TOP}:{TOP}/python"}
    command = [sys.executable, "-B", "-c", OF_NUMBERED, os.path.join(folder, "run")]
    done = subprocess.run(command, env=environment, capture_output=True, text=True, timeout=SECONDS)
    expect(done.stdout == f"\nvirsh domid: failed to get domain '3'\n{own} 3\n", f"{done}")
    moved = f"migrate-setmaxdowntime --domain {own} --downtime 300\n"
    moved += f"migrate --live --bandwidth 95 --domain {own} --desturi b\n"
    expect(read_text(log) == moved, read_text(log))
    step = moving(folder, [], "2", 1).step
    script = lines.script("virsh", [step], {"2": ways.Way("", "b")})
    done = subprocess.run(["sh", "-c", script], env=environment, capture_output=True, text=True, timeout=SECONDS)
    expect(done.returncode == 0 and read_text(log) == 2 * moved, f"{done}, {read_text(log)}")


def answers_of_virsh(_, folder: str) -> None:
    """What virsh tells of a job is read as it prints it, with blanks between a number and its unit, and so is the
    downtime of a guest that has moved."""
    code = "import types; from precopy_tools.evacuate import movers, ways\n"
    code += "from checks.evacuation.silent_cases import step_of\n"
    code += "mover = movers.VirshMover(step_of('web'), ways.Way('', 'b'))\n"
    code += "mover.process = types.SimpleNamespace(poll=lambda: 0, returncode=0)\nprint(*mover.look()[:4])"
    environment = {**monitors.virsh_in(folder, 0)[0], "PYTHONPATH": f"{TOP}:{TOP}/python"}
    command = [sys.executable, "-B", "-c", code]
    done = subprocess.run(command, env=environment, capture_output=True, text=True, timeout=SECONDS)
    expect(done.stdout == f"moved {12 << 20} 0 7000\n", f"{done}")
    text = f"{'Iteration:':17} {3:<12}\n{'Memory processed:':17} 0.500 KiB\n{'Memory bandwidth:':17} 1.500 MiB/s\n"
    told = movers.sizes_of(f"{'Job type:':17} {'Unbounded':12}\n{'Time elapsed:':17} {90:<12} ms\n{text}")
    expect(told == {"Time elapsed": 90, "Iteration": 3, "Memory processed": 512, "Memory bandwidth": 2}, f"{told}")


def names_that_are_no_moments(programs: Programs, folder: str) -> None:
    """A record whose name ends in a moment that never was is no segment, and refuses nothing."""
    web, *_ = four_guests(folder)
    odd = write_record(folder, "db.20261399T250000Z", steady_guest(4097, 10))
    for words in [], ["--at", "03:00"], ["--window", "22:00-06:00"]:
        text, fault = run_tool(programs, web, odd, "--link", LINK, "--at-once", "1", *words)
        expect("\ndb " in text and not fault, f"{words}: {text}, {fault}")


def records_of_one_text(_, __) -> None:
    """Records of one text are of one guest, unless they say that they were taken of two processes: so are those of two
    guests that are paused."""
    first = "process 7 qemu since tick 50 of boot 01234567, mapping all"
    fault = "a.pcwt and b.pcwt are two records of one guest: text"
    for second, told in (
        (first.replace("50", "51"), ""),
        (first.replace("mapping all", "domain a: pc.ram"), fault),
        (first.replace(" since tick 50 of boot 01234567", ""), fault),
        ("file /dev/shm/b", fault),
    ):
        guests = [Guest(name, f"{name}.pcwt", of, "text", Wanted(1), {}, {}) for name, of in zip("ab", (first, second))]
        refused = ""
        try:
            gathering.expect_once(guests)
        except Refused as found:
            refused = str(found)
        expect(refused == told, f"{second}: {refused!r}")


def names_in_scripts(_, folder: str) -> None:
    """A script for python3 has the names of guests as they are, whatever letters are in them."""
    for name in ("web", "d\u00e9-\U0001f600", "'\\ \"{x}\u2028"):
        step = moving(folder, [], f"m{ord(name[-1])}", 1).step
        step = step._replace(move=step.move._replace(guest=step.move.guest._replace(name=name)))
        text = lines.qmp_script([step], {name: ways.Way(f"/run/{name}", f"unix:/run/{name}")})
        tree = next(each for each in ast.parse(text).body if getattr(each, "target", None) and each.target.id == "PLAN")
        (row,) = ast.literal_eval(tree.value)
        found = (row["guest"], row["monitor"], row["commands"][-1]["arguments"]["uri"])
        expect(found == (name, f"/run/{name}", f"unix:/run/{name}"), f"{found} in place of {name!r}")


def limits_in_milliseconds(_, __) -> None:
    """A limit of whole milliseconds is told as it is, and others are rounded down."""
    for limit in range(1, 5000):
        found = lines.milliseconds(limit * 1_000 / 1_000_000)
        expect(found == limit, f"{limit} ms are told as {found}")
    expect((lines.milliseconds(0.0015), lines.milliseconds(0.000001)) == (1, 1), "not rounded down")


CASES = cases_of(__name__)
