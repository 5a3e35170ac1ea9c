"""Cases of checks/recording: which memory is recorded, by asking QEMU or libvirt, by mappings, or by no words."""

import itertools
import json
import os
import re
import shutil
import signal
import socket
import stat
import subprocess
import sys
import tempfile
import threading
import time
import uuid

from checks.lib import harness
from checks.lib.amount_texts import size_text
from checks.lib.harness import cases_of, expect
from checks.lib.tally import expect_in_time
from checks.recording import known_guest
from checks.recording.recorder_runs import RECORD, SECONDS, TOP, Started, Watched
from checks.recording.sample_runs import Drawn, Pages
from precopy_dev.files import write_file
from precopy_tools.evacuate import gathering
from precopy_tools.evacuate.costs import Guest, Wanted
from precopy_tools.formats import samples, traces
from precopy_tools.qemu import qmp
from precopy_tools.record import guest_memory, mappings, series, sources
from precopy_tools.refusals import Refused

PAGE = 4096
KINDS = ("private", "memfd", "file")
LAYOUTS, MUTATIONS, KILLED = 10, 1500, 10
# How often a process is looked at again for stacks of threads that were running.
RESTS = 50
VIRSH = """\
#!{python}
import json, sys
from precopy_tools.qemu import qmp
words = [word for word in sys.argv[1:] if word != "--quiet"]
if words[2] != "known":
    sys.exit(f"error: failed to get domain '{{words[2]}}'")
if words[0] == "domuuid":
    print({identity!r})
elif {garbled!r}:
    print("no JSON")
else:
    with qmp.Client({socket!r}) as client:
        client.socket.sendall(words[4].encode() + b"\\n")
        print(json.dumps({{**client._next("return", "error"), "id": "libvirt-7"}}))
"""


def layout_of(draws):
    """One to four nodes, a code buffer larger than all of them, video memory, and something to plug in. No node begins
    or ends in the hole for devices below 1 MiB, as in no machine."""
    nodes = [[f"node{number}", draws.choice(KINDS), draws.randrange(1, 800)] for number in range(draws.randrange(1, 5))]
    ends = list(itertools.accumulate(node[2] for node in nodes))
    if any(160 <= end <= 256 for end in ends):
        return layout_of(draws)
    pages = ends[-1]
    plugged = ["dimm", draws.choice(KINDS), draws.randrange(1, 500)]
    return {"nodes": nodes, "code": 2 * pages + 9, "video": draws.randrange(1, 300), "plugged": plugged}


class Known(Watched):
    """One stand-in for QEMU."""

    def __init__(self, folder, layout, *words, name="monitor"):
        self.socket = os.path.join(folder, name)
        words = ["-qmp", f"unix:{self.socket},server=on", *words]
        command = [
            sys.executable,
            os.path.join(TOP, "checks", "recording", "known_guest.py"),
            self.socket,
            json.dumps(layout),
        ]
        self.process = subprocess.Popen([*command, *words], stdin=subprocess.PIPE, stdout=subprocess.PIPE, text=True)
        self.pid = self.process.pid
        self.told = json.loads(self.process.stdout.readline())

    def ask(self, line):
        self.process.stdin.write(f"{line}\n")
        self.process.stdin.flush()
        self.told = json.loads(self.process.stdout.readline())

    def ranges(self):
        return {name: (at, at + pages * PAGE) for name, (at, pages) in self.told["nodes"].items()}

    def pages(self):
        return {at for begin, end in self.ranges().values() for at in range(begin, end, PAGE)}

    def other(self, name):
        at, pages = self.told["others"][name]
        return at, at + pages * PAGE

    def __exit__(self, *_):
        super().__exit__()
        if os.path.exists(self.socket):
            os.unlink(self.socket)


def expect_recorded(folder, source, known, *said, **more):
    """All pages of the guest, and no other, are in the trace, when all are drawn. None of them is zero."""
    drawn = Drawn(folder, source, ["--pages", "65536", "--for", "200ms"], **more)
    drawn.end()
    _, _, sample = drawn.expect_whole()
    found, wanted = drawn.places(), known.pages()
    expect(len(found) == len(set(found)) and set(found) == wanted, f"{len(found)} pages, {len(wanted)} of the guest")
    expect(sample.guest_pages == len(wanted), f"{sample}")
    expect(all(word in drawn.output for word in said), f"{said} in {drawn.output!r}")
    for name in ("guest.light.pcwt", "guest.light.json", "map"):
        os.unlink(os.path.join(folder, name))
    return drawn


def asked_by_monitor(_, folder):
    """Layouts at random, also after memory was plugged in: exactly the nodes are recorded."""
    for draws in harness.drawn("layouts", range(LAYOUTS)):
        with Known(folder, layout_of(draws)) as known:
            if draws.random() < 0.5:
                known.ask("plug")
            said = [f"memory: {name}, " for name in known.ranges()]
            others = ["left out: 0000:00:02.0/vga.vram", ", video memory)", "pc.bios (256.00 KiB, firmware)"]
            source = ["--qmp", known.socket, *(["--pid", str(known.pid)] if draws.random() < 0.5 else [])]
            drawn = expect_recorded(folder, source, known, *said, *others)
            share = len(known.pages()) * PAGE / mappings.writable(known.pid)
            told = float(drawn.output.split(" % of the ")[0].split()[-1])
            expect(abs(told - 100 * share) < 1, f"{drawn.output!r}, {share:.1%} of the process")


def writes_of_two_nodes(_, folder):
    """What the guest writes to any of its nodes is seen, also to one that was plugged in."""
    layout = {"nodes": [["a", "private", 300], ["b", "memfd", 200]], "plugged": ["c", "file", 100], "code": 1500}
    with Known(folder, layout) as known:
        known.ask("plug")
        drawn = Drawn(folder, ["--qmp", known.socket], ["--pages", "65536", "--by", "writes"])
        before = drawn.bytes()
        known.ask("write")
        drawn.wait_for_more_than(before)
        drawn.end(signal.SIGINT)
        trace, written, _ = drawn.expect_whole()
        places = drawn.places()
        found = [places[page] for tick, page in written if tick > 1000]
        expect(sorted(found) == sorted(known.pages()), f"{len(found)} writes, {len(known.pages())} pages")
        expect(trace.pages == 600, f"{trace.pages} pages")


def plugged_in_meanwhile(_, folder):
    """A recording says that there is memory now which it has not; a series has it from the next segment on."""
    layout = {"nodes": [["a", "private", 300], ["b", "memfd", 200]], "plugged": ["c", "file", 100], "code": 1500}
    for is_series in (False, True):
        with Known(folder, layout) as known:
            words = ["--pages", "65536", "--every", "50ms", "--qmp", known.socket]
            words += ["--segment", "1s", "--for", "2500ms"] if is_series else ["--for", "900ms"]
            path = os.path.join(folder, "guest.light.pcwt")
            run = Started(folder, [RECORD, *words], path)
            known.ask("plug")
            run.end()
        expect(run.status == 0 and not run.faults, f"{run.status}, {run.faults!r}")
        expect_in_time("memory: the guest has other memory now" in run.output, run.output)
        paths = series.Series(path).paths() if is_series else [path]
        pages = []
        for each in paths:
            trace, records = traces.read_file(each)
            pages.append(samples.read(each, trace, [record[:2] for record in records]).guest_pages)
        expect(pages[0] == 500 and set(pages[2:]) <= {600}, f"{pages}")
        expect_in_time(set(pages[1:]) == ({600} if is_series else set()), f"{pages}")
        for each in paths:
            os.unlink(each)
            os.unlink(samples.path_beside(each))


def processes_of_one_number(_, __):
    """A record says when its process began, as after a restart another guest may have its number. Two records that do
    not are refused as of one guest, or of two."""
    now = time.clock_gettime(time.CLOCK_BOOTTIME)
    with Pages("private") as pages:
        of = sources.of_words(pages.process.pid, [pages.range], True).of
    begun = re.search(r" since tick (\d+) of boot [0-9a-f]{8}(?=, mapping )", of)
    expect(begun and -0.02 < int(begun[1]) / os.sysconf("SC_CLK_TCK") - now < SECONDS, f"{of} after {now} s")
    old, head, fault = of.replace(begun[0], ""), "0 and 1 are two records of one guest: ", ""
    for texts, told in (
        ((of, of.replace(f" {begun[1]} ", " 1 ")), ""),
        ((of, of), f"{head}{of}"),
        ((old, old), f"{head}{old}; or of two, since they do not say when that began"),
    ):
        try:
            gathering.expect_once(Guest(*f"{n}{n}", text, f"{n}", Wanted(1), {}, {}) for n, text in enumerate(texts))
        except Refused as refused:
            fault = str(refused)
        expect(fault == told, f"{fault!r} in place of {told!r}")


def never_the_guest(_, folder):
    """All nodes may be the guest's memory; code, stacks, and the data of libraries never are."""
    for draws in harness.drawn("layouts of mappings", range(LAYOUTS)):
        with Known(folder, layout_of(draws)) as known:
            taken = []

            def overlap(begin, end):
                return sum(max(0, min(end, high) - max(begin, low)) for low, high in taken)

            # Of a thread that is running this moment the kernel does not tell where its stack is, so look again.
            for _ in range(RESTS):
                taken = mappings.chosen(known.pid, ["all"])
                stacks = [it for it in mappings.stack_pointers(known.pid) if overlap(it, it + 1)]
                if not stacks:
                    break
                time.sleep(0.01)
            expect(not stacks, f"the stacks at {[hex(it) for it in stacks]} are taken")
            # Memory of a node that the kernel puts beside a stack, or behind a library, is one mapping with it.
            stacks = mappings.stack_pointers(known.pid)
            every = mappings.mappings_of(known.pid)
            ends = {it.end for it in every if it.inode}
            joined = [it for it in every if it.begin in ends or any(it.begin <= at < it.end for at in stacks)]
            for begin, end in known.ranges().values():
                left = end - begin - overlap(begin, end)
                is_joined = any(it.begin <= begin < it.end for it in joined)
                expect(not left or is_joined, f"{left} bytes are left out")
            expect(not overlap(*known.other("code")), "the code buffer is taken")
            for it in mappings.mappings_of(known.pid):
                is_library = it.inode and it.rights[3] == "p"
                if is_library or it.name == "[stack]" or "x" in it.rights or "w" not in it.rights:
                    expect(not overlap(it.begin, it.end), f"{it.told()} is taken")


def largest_or_refused(_, folder):
    """The largest is taken if no other is an eighth of it; else all of them are told with their sizes."""
    # An eighth is more than a stack of 8 MiB, which is not known to be one while its thread runs.
    code = {"code": 40_000}
    with Known(folder, {"nodes": [["a", "memfd", 32_768], ["b", "file", 4095]], **code}) as known:
        expect(mappings.chosen(known.pid, ["largest"]) == [known.ranges()["a"]], "not the largest")
        drawn = Drawn(folder, ["--pid", str(known.pid), "--mapping", "largest"], ["--pages", "200", "--for", "100ms"])
        drawn.end()
        _, _, sample = drawn.expect_whole()
        expect(sample.guest_pages == 32_768 and "left out: ROM, video memory, firmware" in drawn.output, drawn.output)
        for name in ("guest.light.pcwt", "guest.light.json", "map"):
            os.unlink(os.path.join(folder, name))
    for second in (4096, 32_768):
        with Known(folder, {"nodes": [["a", "memfd", 32_768], ["b", "file", second]], **code}) as known:
            drawn = Drawn(folder, ["--pid", str(known.pid), "--mapping", "largest"])
            drawn.end()
            ranges = known.ranges().values()
            told = [f"{begin:x}-{end:x}  {size_text(end - begin):>10}" for begin, end in ranges]
            expect("2 mappings may be" in drawn.faults and all(line in drawn.faults for line in told), drawn.faults)
            os.unlink(known.socket)
            drawn.expect_nothing(1, "--qmp SOCKET", "--mapping BEGIN-END")


def named_mappings(_, folder):
    """Several words name several mappings, by addresses or by a file. What is no memory is refused."""
    nodes = [["a", "private", 300], ["b", "memfd", 200], ["c", "file", 100]]
    with Known(folder, {"nodes": nodes, "code": 900}) as known:
        ranges, pid = known.ranges(), ["--pid", str(known.pid)]
        words = [f"--mapping={begin:x}-{end:x}" for begin, end in ranges.values()]
        expect_recorded(folder, [*pid, *words], known, "800.00 KiB  shared")
        known_file = words[:1] + ["--mapping=/memfd:node", words[2], words[2]]
        expect_recorded(folder, [*pid, *known_file], known, "400.00 KiB  shared")
        size = sum(end - begin for begin, end in ranges.values())
        expect_recorded(folder, [*pid, *words, "--memory", f"{size >> 10}K"], known)
        begin, end = known.other("code")
        over = ranges["c"][1] + (1 << 30)
        bad = [
            ([*pid, *words, "--memory", "64G"], 1, "--memory 64.00 GiB", f"{size:,} bytes"),
            (["--qmp", known.socket, "--memory", f"{(size + PAGE) >> 10}K"], 1, f"{size:,} bytes"),
            ([*pid, *words, "--memory", "64X"], 2, "K, M, G or T"),
            ([*pid, "--mapping", f"{begin:x}-{end:x}"], 1, "no memory of a guest"),
            ([*pid, "--mapping", f"{ranges['c'][0]:x}-{over:x}"], 1, "no memory of a guest"),
            ([*pid, "--mapping", f"{begin + 1:x}-{end:x}"], 1, "no range of whole pages"),
            ([*pid, "--mapping", "[stack]"], 1, "no such writable memory"),
            ([*pid, "--qmp", known.socket, "--mapping", "all"], 2, "--mapping goes with --pid alone"),
            (["--domain", "x", "--qmp", known.socket], 2, "leave out --qmp"),
            (["--qmp", known.socket, "--pid", str(os.getpid())], 1, "no memory of a guest"),
        ]
        for source, status, *said in bad:
            drawn = Drawn(folder, source, ["--pages", "9"])
            drawn.end()
            told = f"{source}: {drawn.status}, {drawn.output!r}, {drawn.faults!r}"
            expect(drawn.status == status and all(word in drawn.faults for word in said), told)
            expect(os.listdir(folder) == ["monitor"], f"{os.listdir(folder)}")


# ---- Monitors that lie, hang or close.


def mutated(value, draws):
    """A value with one change in it, at random."""
    if isinstance(value, dict) and value and draws.random() < 0.8:
        name = draws.choice(list(value))
        if draws.random() < 0.2:
            return {other: it for other, it in value.items() if other != name}
        return {**value, name: mutated(value[name], draws)}
    if isinstance(value, list) and value and draws.random() < 0.8:
        at = draws.randrange(len(value))
        if draws.random() < 0.3:
            return value[:at] + value[at:][draws.randrange(2) :] + value[at : at + 1] * draws.randrange(3)
        return value[:at] + [mutated(value[at], draws)] + value[at + 1 :]
    if isinstance(value, str) and value and draws.random() < 0.9:
        at = draws.randrange(len(value))
        if draws.random() < 0.3:
            lines = value.split("\n")
            draws.shuffle(lines)
            return "\n".join(lines[: draws.randrange(len(lines) + 1)])
        letter = draws.choice("0123456789abcdef-@() \n\0\x1b\u00e9x")
        return value[:at] + letter * draws.randrange(3) + value[at + draws.randrange(3) :]
    if type(value) is int and draws.random() < 0.8:
        return draws.choice([0, -1, 1, value + 1, value - PAGE, value + PAGE, value * 2, 1 << 63, 1 << 900])
    return draws.choice([None, True, [], {}, "", "x" * 99, 0, -5, 1.5, float("inf"), [[]], [None], {"id": None}])


class Lying:
    """A monitor of which one answer is another than QEMU would give."""

    def __init__(self, guest, draws):
        self.guest, self.draws, self.left = guest, draws, draws.randrange(8)

    def ask(self, command, **arguments):
        answer = self.guest.answers(command, {name.replace("_", "-"): it for name, it in arguments.items()})
        self.left -= 1
        return mutated(answer, self.draws) if self.left == -1 else answer


def lying_monitors(_, __):
    """Whatever one of QEMU's answers is, it is refused by words, or the guest's memory is taken all the same."""
    layout = {"nodes": [["a", "private", 400], ["b", "memfd", 200]], "plugged": ["c", "memfd", 100], "code": 2000}
    guest = known_guest.Guest(layout)
    guest.plug()
    true = sorted((node.address, node.address + node.size) for node in guest.all_nodes())
    refused = right = other = 0
    for draws in harness.drawn("lies", range(MUTATIONS)):
        try:
            ranges = guest_memory.checked(os.getpid(), guest_memory.asked(Lying(guest, draws)))
        except (qmp.Fault, ValueError) as fault:
            refused += 1
            expect(str(fault).strip(), "refused without a word")
            continue
        right += ranges == true
        other += ranges != true
        for begin, end in ranges:
            mappings.within(os.getpid(), mappings.memory_of(os.getpid()), begin, end, f"{draws}")
        expect(sum(end - begin for begin, end in ranges) % PAGE == 0, f"{ranges}")
    print(f"  lying monitors: {refused} refused, {right} harmless, {other} of other memory of {MUTATIONS}", flush=True)
    expect(refused > MUTATIONS // 4 and right > 100 and not other, f"{refused}, {right}, {other}")


GREETING = b'{"QMP": {}}\r\n'
AGREED = GREETING + b'{"return": {}}\r\n'
HOSTILE = {
    "closed": b"",
    "greeting, closed": GREETING,
    "half a line, closed": GREETING + b'{"retu',
    "silent": None,
    "greeting, silent": (GREETING, None),
    "agreed, silent": (AGREED, None),
    "no end of a line": (AGREED, b"x"),
    "events without end": (AGREED, b'{"event": "X"}\n'),
    "a line without end": (AGREED, b"[" * (1 << 20)),
    "lists without end": AGREED + b"[" * 200_000 + b"\n",
    "no JSON": AGREED + b"\x00\xff\xfe\n",
    "no object": AGREED + b'[]\n7\nnull\n"return"\n',
    "an error": AGREED + b'{"error": {"class": "X", "desc": "not today"}}\n',
    "no error": AGREED + b'{"error": 5}\n',
    "no greeting": b'{"return": {}}\n',
    "a number": AGREED + b'{"return": 5}\n' * 9,
    "texts": AGREED + b'{"return": "x"}\n' * 9,
}


def hostile_server(path, says):
    """A server of one connection. What is without end goes on until the client is gone."""
    server = socket.socket(socket.AF_UNIX)
    server.bind(path)
    server.listen()

    def serve():
        client, _ = server.accept()
        first, forever = says if isinstance(says, tuple) else (says, b"")
        with client, server:
            try:
                client.sendall(first or b"")
                while says is None or forever is None:
                    if not client.recv(1 << 16):
                        return
                while forever:
                    client.sendall(forever)
                    time.sleep(0.01)
                client.shutdown(socket.SHUT_WR)
                while client.recv(1 << 16):
                    pass
            except OSError:
                return

    threading.Thread(target=serve, daemon=True).start()


def hostile_sockets(_, folder):
    """Sockets that close, hang, or say what no monitor says: all are refused by words, and in time."""
    for number, (name, says) in enumerate(HOSTILE.items()):
        path = os.path.join(folder, f"socket{number}")
        hostile_server(path, says)
        begun, said = time.monotonic(), None
        try:
            with qmp.Client(path, 0.5) as client:
                guest_memory.asked(client)
        except qmp.Fault as fault:
            said = str(fault)
        expect(said, f"{name}: not refused")
        expect_in_time(time.monotonic() - begun < 5, f"{name}: {time.monotonic() - begun:.1f} s")
        os.unlink(path)
        if says is not None and not isinstance(says, tuple):
            hostile_server(path, says)
            drawn = Drawn(folder, ["--qmp", path], ["--pages", "5"])
            drawn.end()
            expect(drawn.status == 1 and drawn.faults.startswith("record: "), f"{name}: {drawn.faults!r}")
            expect("Traceback" not in drawn.faults and len(drawn.faults) < 400, f"{name}: {drawn.faults!r}")
            os.unlink(path)
    expect(not os.listdir(folder), f"left: {os.listdir(folder)}")


def guests_that_end(_, folder):
    """Killed at any moment while it is asked and recorded: a whole trace, or none and words."""
    statuses = set()
    for draws in harness.drawn("guests that end", range(KILLED)):
        with Known(folder, layout_of(draws)) as known:
            timer = threading.Timer(draws.uniform(0, 0.9), known.process.kill)
            timer.start()
            drawn = Drawn(folder, ["--qmp", known.socket], ["--pages", "300", "--for", "5s"])
            drawn.end()
            timer.join()
        statuses.add(drawn.status)
        if drawn.status == 0:
            drawn.expect_whole()
        whole = {"guest.light.pcwt", "guest.light.json", "map"}
        left = set(os.listdir(folder)) - (whole if drawn.status == 0 else set())
        expect(not left and drawn.status in (0, 1), f"status {drawn.status}, {left}, {drawn.faults!r}")
        expect(drawn.faults.startswith("record: ") and "Traceback" not in drawn.faults, drawn.faults)
        for name in os.listdir(folder):
            os.unlink(os.path.join(folder, name))
    expect(statuses, "nothing was tried")


# ---- Guests of libvirt, and guests that are listed.


def programs_in(folder):
    """A folder with what a tool begins with, and nothing else."""
    programs = tempfile.mkdtemp(prefix="programs", dir=folder)
    for name in ("sh", "dirname", "readlink", "python3"):
        found = sys.executable if name == "python3" else shutil.which(name)
        os.symlink(os.path.realpath(found), os.path.join(programs, name))
    return programs


def virsh_in(folder, known, identity, garbled=False):
    """An environment with a `virsh` that speaks to the monitor of the stand-in."""
    programs = programs_in(folder)
    text = VIRSH.format(python=sys.executable, identity=str(identity), socket=known.socket, garbled=garbled)
    path = write_file(text, programs, "virsh")
    os.chmod(path, stat.S_IRWXU)
    return {**os.environ, "PATH": programs, "PYTHONDONTWRITEBYTECODE": "1"}


def asked_by_domain(_, folder):
    identity = uuid.uuid4()
    with Known(folder, layout_of(harness.draws("domain")), "-uuid", str(identity)) as known:
        known.ask("plug")
        environment = virsh_in(folder, known, identity)
        expect_recorded(folder, ["--domain", "known"], known, "memory: dimm, ", "left out: ", env=environment)
        for name, said, other in (
            ("other", "virsh domuuid: failed to get domain 'other'", environment),
            ("known", "is it running, on this host?", virsh_in(folder, known, uuid.uuid4())),
            ("known", "no UUID", virsh_in(folder, known, "nothing")),
            ("known", "no JSON: 'no JSON", virsh_in(folder, known, identity, garbled=True)),
            ("known", "libvirt-clients has it", {**environment, "PATH": programs_in(folder)}),
        ):
            drawn = Drawn(folder, ["--domain", name], ["--pages", "9"], env=other)
            drawn.end()
            expect(drawn.status == 1 and said in drawn.faults, f"{said}: {drawn.status}, {drawn.faults!r}")
        with Known(folder, {"nodes": [["a", "private", 9]]}, "-uuid", str(identity), name="second") as second:
            drawn = Drawn(folder, ["--domain", "known"], ["--pages", "9"], env=environment)
            drawn.end()
            both = ", ".join(map(str, sorted((known.pid, second.pid))))
            expect(drawn.status == 1 and f"processes {both} are of" in drawn.faults, drawn.faults)
        left = [name for name in os.listdir(folder) if not name.startswith("programs")]
        expect(left == ["monitor"], f"left: {left}")


def listed_guests(_, folder):
    """Without a source, and with `--pid` of none or of several, it lists the guests and how to say each."""
    with Known(folder, {"nodes": [["a", "memfd", 2000], ["b", "file", 1900]], "code": 9000}) as known:
        output = os.path.join(folder, "a.light.pcwt")
        pid = str(known.pid)
        sizes = [size_text(end - begin) for begin, end in known.ranges().values()]
        for words, status, said in (
            ([], 0, ""),
            ([output], 2, "say what to record"),
            (["--for", "1s", output], 2, "say what to record"),
            (["--pid", "--for", "1s", output], 2, "--pid: no processes"),
            (["--pid", pid, "1", "--for", "1s", output], 2, "--pid: 2 processes"),
            (["--pid", f"{pid} 1", output], 2, "not the number of one process"),
        ):
            done = subprocess.run([RECORD, *words], capture_output=True, text=True, timeout=4 * SECONDS)
            printed = done.stderr if status else done.stdout
            expect(done.returncode == status and said in printed, f"{words}: {done.returncode}, {printed!r}")
            if "number" not in said:
                expect(f"process {pid}  qemu-system-x86" in printed, printed)
                expect(all(size in printed for size in sizes), printed)
                expect(f"say it by: --qmp {known.socket}" in printed, printed)
        expect(os.listdir(folder) == ["monitor"], f"{os.listdir(folder)}")


NEED_WRITES = {writes_of_two_nodes}
CASES = cases_of(__name__)
