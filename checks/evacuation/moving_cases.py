"""Cases of checks/evacuation: how each guest is reached, scripts that move guests, and runs."""

import json
import os
import random
import re
import signal
import subprocess
import time
import types
import xml.etree.ElementTree

from checks.evacuation import model, monitors
from checks.evacuation.cases import (
    EVACUATE,
    SVG,
    Programs,
    document_of,
    expect,
    four_guests,
    run_tool,
    steady_guest,
    write_record,
)
from checks.lib.harness import cases_of
from checks.lib.tally import expect_in_time
from precopy_dev.files import read_text, write_file
from precopy_tools.evacuate import movers, ways

SECONDS, LINK = 120, "64MiB"
NAMES = ("web", "db", "idle", "cache")
TWO = ["--link", LINK, "--at-once", "2"]


def write_settings(folder: str, fields: object) -> list[str]:
    """The words for a file of settings."""
    path = write_file(fields if isinstance(fields, str) else json.dumps(fields), folder, "settings.json")
    return ["--settings", path]


def commands_in(text: str) -> dict[str, list[dict]]:
    """The commands for each guest's monitor, by the line above them; each line of a block is JSON."""
    blocks = [block.splitlines() for block in text.split("\n\n") if '{"execute"' in block]
    return {block[0].split(",")[0]: [json.loads(line) for line in block[1:]] for block in blocks}


def uris_in(text: str) -> dict[str, str]:
    return {name: lines[-1]["arguments"]["uri"] for name, lines in commands_in(text).items()}


def each_its_own_way(programs: Programs, folder: str) -> None:
    """Each guest has its own destination and monitor; guests that move at once never share one."""
    records = four_guests(folder)
    qmp = ["--lines", "qmp"]
    _, fault = run_tool(programs, *records, *TWO, *qmp, "--to", "unix:/run/socket", status=2)
    expect("have one destination, unix:/run/socket" in fault and "{port}" in fault, fault)
    run_tool(programs, *records, "--link", LINK, "--at-once", "1", *qmp, "--to", "unix:/run/socket")
    for to, wanted in (
        ("unix:/run/{name}", "unix:/run/idle"),
        ("unix:/run/{n}-{name}", "unix:/run/3-idle"),
        ("tcp:[::1]:{port}", "tcp:[::1]:49154"),
    ):
        uris = uris_in(run_tool(programs, *records, *TWO, *qmp, "--to", to)[0])
        expect(uris["idle"] == wanted and len(set(uris.values())) == 4, f"{uris}")
    uris = uris_in(run_tool(programs, *records, *TWO, *qmp, "--to", "tcp:b:{port}", "--port", "4444")[0])
    expect(uris == {name: f"tcp:b:{4444 + number}" for number, name in enumerate(NAMES)}, f"{uris}")
    own = write_settings(folder, {"guests": {"db": {"to": "exec:{name}", "monitor": "/run/own"}}})
    text, _ = run_tool(programs, *records, *TWO, *qmp, "--to", "tcp:b:{port}", "--monitor", "/run/{name}.qmp", *own)
    expect(uris_in(text)["db"] == "exec:db" and uris_in(text)["web"] == "tcp:b:49152", f"{uris_in(text)}")
    expect(re.search(r"^db, .*, to /run/own:$", text, re.M) and ", to /run/web.qmp:\n" in text, text)
    for name, lines in commands_in(text).items():
        asked = [line["execute"] for line in lines]
        expect(asked == ["qmp_capabilities", "migrate-set-parameters", "migrate"], f"{name}: {asked}")
    refused_ways(programs, records, folder)


def refused_ways(programs: Programs, records: list[str], folder: str) -> None:
    qmp = [*TWO, "--lines", "qmp", "--to", "tcp:b:{port}"]
    for words, told in (
        (["--to", "tcp:b:{pot}"], "{pot} is none of {name}, {n}, {port}"),
        (["--to", "a\nb"], "is no word for a line"),
        (["--port", "70000"], "is no port"),
        (["--port", "65534"], "there is no port 65536"),
        (["--monitor", "/run/qmp"], "have one monitor, /run/qmp"),
    ):
        _, fault = run_tool(programs, *records, *qmp, *words, status=2)
        expect(told in fault, f"{words}: {fault!r}")
    _, fault = run_tool(programs, *records, *TWO, "--monitor", "/run/{name}", status=2)
    expect("--monitor goes with --lines qmp" in fault, fault)
    for fields, told in (
        ({"guests": {"web": {"to": "{x}"}}}, "guests: web: to: '{x}'"),
        ({"guests": {"web": {"monitor": 5}}}, "guests: web: monitor is no text"),
        ({"guests": {"web": {"domain": "a\nb"}}}, "guests: web: domain is no name"),
        ('{"reserve": "1MiB", "reserve": "2MiB"}', "the name 'reserve' stands there twice"),
        ('{"guests": {"web": {}, "web": {}}}', "the name 'web' stands there twice"),
    ):
        _, fault = run_tool(programs, *records, *qmp, *write_settings(folder, fields), status=1)
        expect(told in fault, f"{fields}: {fault!r}")


def script_of(built: Programs, folder: str, *words: str, status: int = 0) -> str:
    """The script of --dry-run, as a file that can be run."""
    text, _ = run_tool(built, *words, "--dry-run", status=status)
    path = write_file(text, folder, "move")
    os.chmod(path, 0o700)
    return path


def expect_two_at_once(events: list[monitors.Event]) -> None:
    """Never more than two are under way, and, if the machine is not slower than the guests, two are once."""
    most = monitors.most_at_once(events)
    expect(most <= 2, f"{most} at once: {events}")
    expect_in_time(most == 2, f"{most} at once: {events}")


def expect_order(events: list[monitors.Event], apart: tuple[str, ...] = ()) -> None:
    """No guest of some begins before the one of these that began before has ended."""
    under_way = set()
    for event in sorted(events):
        if event.guest in apart:
            expect(event.what != "begins" or not under_way, f"{event} beside {under_way}")
            (under_way.add if event.what == "begins" else under_way.discard)(event.guest)


def scripts_of_virsh(programs: Programs, folder: str) -> None:
    """The script moves two at once, and those apart one after the other; after a failure no other one begins."""
    records = four_guests(folder)
    apart = write_settings(folder, {"apart": [["web", "cache"]], "guests": {"db": {"domain": "-db one"}}})
    words = [*records, *TWO, *apart, "--to", "qemu+ssh://b/system"]
    path = script_of(programs, folder, *words)
    environment, log = monitors.virsh_in(folder, 0.6)
    done = subprocess.run([path], env=environment, capture_output=True, text=True, timeout=SECONDS)
    events = monitors.events_in(log)
    expect(done.returncode == 0 and not done.stderr, f"{done}")
    expect(
        sorted(event.guest for event in events if event.what == "ends") == ["-db one", "cache", "idle", "web"],
        f"{events}",
    )
    expect_two_at_once(events)
    expect_order(events, ("web", "cache"))
    expect("migrate-setmaxdowntime --domain -db one --downtime 300" in read_text(log), "another limit")
    text, _ = run_tool(programs, *words)
    expect(text.endswith(read_text(path)), "the lines below the table are another script")
    environment, log = monitors.virsh_in(folder, 2, ("web", "-db one"))
    done = subprocess.run([path], env=environment, capture_output=True, text=True, timeout=SECONDS)
    begun = [event.guest for event in monitors.events_in(log) if event.what == "begins"]
    expect(done.returncode == 1 and len(begun) <= 2 and "has not moved" in done.stderr, f"{done}, {begun}")
    expect_in_time(len(begun) == 2, f"{begun}")


def four_monitors(folder: str, seconds: float = 0.5, **how) -> tuple[list[monitors.Event], dict[str, monitors.Monitor]]:
    log: list[monitors.Event] = []
    return log, {name: monitors.Monitor(folder, name, log, seconds, **how.get(name, {})) for name in NAMES}


def by_qmp(folder: str) -> list[str]:
    return [*TWO, "--lines", "qmp", "--to", f"unix:{folder}/{{name}}", "--monitor", f"{folder}/{{name}}.qmp"]


def scripts_of_qmp(programs: Programs, folder: str) -> None:
    """The script needs python3 alone; two at once; and after a failure no other one begins."""
    records, (log, guests) = four_guests(folder), four_monitors(folder)
    apart = write_settings(folder, {"apart": [["web", "cache"]]})
    path = script_of(programs, folder, *records, *by_qmp(folder), *apart)
    done = subprocess.run([path], cwd="/", capture_output=True, text=True, timeout=SECONDS)
    expect(done.returncode == 0 and done.stdout.count("has moved") == 4, f"{done}")
    expect_two_at_once(log)
    expect_order(log, ("web", "cache"))
    for name, guest in guests.items():
        asked = [command for command, _ in guest.asked]
        expect(asked == ["migrate-set-parameters", "migrate"], f"{name}: {asked}")
        expect(guest.asked[1][1] == {"uri": f"unix:{folder}/{name}"}, f"{name}: {guest.asked}")
    done = subprocess.run([path], cwd="/", capture_output=True, text=True, timeout=SECONDS)
    expect(done.returncode == 1 and "it has moved, or moves already" in done.stderr, f"{done}")


def run_of(programs: Programs, *words: str, kill=None, status: int = 0) -> tuple[str, str]:
    """A run of the schedule; `kill` is a signal that it gets when two guests have begun."""
    command = [EVACUATE, "--program", programs.view, "--scheduler", programs.scheduler, *words, "--run"]
    process = subprocess.Popen(command, stdout=subprocess.PIPE, stderr=subprocess.PIPE, text=True)
    begun = ""
    while kill and begun.count(" begins\n") < 2:
        line = process.stdout.readline()
        expect(line, f"it ended: {begun}")
        begun += line
    if kill:
        time.sleep(0.3)
        process.send_signal(kill)
    text, fault = process.communicate(timeout=SECONDS)
    expect(process.returncode == status, f"{words}: status {process.returncode}, {begun}{text}, {fault}")
    return begun + text, fault


def runs_that_end_well(programs: Programs, folder: str) -> None:
    """All move, two at once; the report has what was beside what was planned, as text, as JSON and as a picture."""
    records, (log, guests) = four_guests(folder), four_monitors(folder)
    words = [*by_qmp(folder), "--json", f"{folder}/told.json", "--picture", f"{folder}/run.svg"]
    text, fault = run_of(programs, *records, *words)
    expect(not fault, f"{fault}, {log}")
    expect_two_at_once(log)
    expect(text.count(" has moved\n") == 4 and "the whole" in text, text)
    told = document_of(folder)
    states = {each["guest"]: each for each in told["run"]["guests"]}
    expect(told["run"]["is_complete"] and set(states) == set(NAMES), f"{told['run']}")
    for name, each in states.items():
        took = each["end_seconds"] - each["start_seconds"]
        expect(each["state"] == "moved" and 0.4 < took and each["sent_bytes"] == 7 << 20, f"{name}: {each}")
        expect_in_time(took < 3, f"{name}: {each}")
        expect(each["down_seconds"] == 0.009, f"{name}: {each}")
        parameters = dict(guests[name].asked)["migrate-set-parameters"]
        expect(parameters == {"max-bandwidth": 32 << 20, "downtime-limit": 300}, f"{name}: {parameters}")
    title = expect_report(f"{folder}/run.svg", told)
    expect(re.match(r"4 of 4 guests have moved, in [\d.]+ s; planned [\d.]+ (?:s|ms)$", title), title)


def bars_in(group: xml.etree.ElementTree.Element, scale: float) -> list[tuple[str, float, float, float]]:
    """The bars of a guest as (kind, begin and end in seconds, place from above)."""
    found = []
    for bar in group.findall(f"{SVG}rect"):
        x, y, width = (float(bar.get(name)) for name in ("x", "y", "width"))
        found.append((bar.get("class"), (x - 170) / scale, (x + width - 170) / scale, y))
    return found


def expect_report(path: str, told: dict) -> str:
    """The picture of a run has for each guest a bar of what was planned, and below it one of what was. Returns its
    title."""
    root = xml.etree.ElementTree.parse(path).getroot()
    runs = {each["guest"]: each for each in told["run"]["guests"]}
    moves, groups = told["best"]["moves"], root.findall(f"{SVG}g")
    ends = [move["end_seconds"] for move in moves] + [each.get("end_seconds", 0) for each in runs.values()]
    scale = 640 / max(ends)
    near = 2.1 / scale
    expect(len(groups) == len(moves), f"{len(groups)} rows")
    for group, move in zip(groups, moves):
        was, bars = runs[move["guest"]], bars_in(group, scale)
        kinds = [bar[0] for bar in bars]
        real = {"moved": ["moving", "down"], "not begun": [], "lost": ["lost"]}.get(was["state"], ["missed"])
        expect(kinds == ["planned", "down", *real], f"{was}: {bars}")
        pairs = [(bars[0], move)] + ([(bars[2], was)] if real else [])
        for (_, begin, end, _), wanted in pairs:
            apart = abs(begin - wanted["start_seconds"]), abs(end - wanted["end_seconds"])
            expect(max(apart) < near, f"{wanted}: a bar from {begin} to {end}")
        expect(all(bar[3] > bars[0][3] for bar in bars[2:]), f"{was}: what was is not below what was planned")
        title = group.find(f"{SVG}title").text
        expect(title.startswith(f"{move['guest']}: planned ") and f"; {was['state']}" in title, title)
        expect(was.get("why", "") in title or was["state"] == "not begun", title)
    return root.findall(f"{SVG}text")[0].text


def runs_that_do_not(programs: Programs, folder: str) -> None:
    """After a failure no other guest begins, and those under way end as they do."""
    records, words = four_guests(folder), by_qmp(folder)
    first, other, *_ = re.findall(r"^(\w+), at once, ", run_tool(programs, *records, *words)[0], re.M)
    log, guests = four_monitors(folder, **{first: {"fails": "the destination refuses"}})
    guests[other].seconds = 4.0
    written = ["--json", f"{folder}/told.json", "--picture", f"{folder}/run.svg"]
    text, fault = run_of(programs, *records, *by_qmp(folder), *written, status=5)
    begun = [event.guest for event in log if event.what == "begins"]
    expect(first in begun and set(begun) <= {first, other}, f"{log}")
    expect_in_time(other in begun, f"{log}")
    expect(f"{first} has not moved: the destination refuses; it runs here" in fault, fault)
    states = {each["guest"]: each["state"] for each in document_of(folder)["run"]["guests"]}
    waiting = {name: "not begun" for name in NAMES if name not in begun}
    expect(states == {first: "failed", other: "moved", **waiting}, f"{states}")
    title = expect_report(f"{folder}/run.svg", document_of(folder))
    expect(title.startswith("1 of 4 guests have moved, in "), title)


def stopped_runs(programs: Programs, folder: str) -> None:
    """At SIGINT and SIGTERM those under way are told to stay, and no other one begins."""
    records = four_guests(folder)
    for number in signal.SIGINT, signal.SIGTERM:
        place = os.path.join(folder, number.name)
        log, guests = four_monitors(place, seconds=30)
        text, fault = run_of(programs, *records, *by_qmp(place), kill=number, status=5)
        expect(sorted(event.what for event in log) == ["begins", "begins", "cancelled", "cancelled"], f"{log}")
        expect(f"{number.name}: no other guest begins" in text, text)
        expect(fault.count("it was cancelled; it runs here") == 2 and fault.count("has not begun\n") == 2, fault)
        expect(all(guest.state == "running" for guest in guests.values()), "a guest does not run")


def lost_answers(programs: Programs, folder: str) -> None:
    """If the answer to `migrate` is lost, the guest is watched if it moves, runs here if it does not, and else nothing
    is known of it."""
    records = four_guests(folder)
    for number, (how, state, said) in enumerate(
        (
            ({"loses": "answer"}, "moved", ""),
            ({"loses": "answer", "migration": "completed"}, "moved", ""),
            ({"loses": "answer", "fails": "no room"}, "failed", "idle has not moved: no room; it runs here"),
            ({"loses": "command"}, "failed", "idle.qmp: the connection is closed; it runs here"),
            ({"loses": "command", "migration": "completed"}, "failed", "the connection is closed; it runs here"),
            ({"loses": "all"}, "lost", "nothing is known of it ("),
        )
    ):
        place = os.path.join(folder, str(number))
        log, guests = four_monitors(place, idle=how)
        words = [*by_qmp(place), "--json", f"{folder}/told.json", "--picture", f"{folder}/run.svg"]
        text, fault = run_of(programs, *records, *words, status=0 if state == "moved" else 5)
        expect_report(f"{folder}/run.svg", document_of(folder))
        expect((">not known<" in read_text(folder, "run.svg")) == (state == "lost"), f"{how}: another key")
        told = {each["guest"]: each["state"] for each in document_of(folder)["run"]["guests"]}
        expect(told["idle"] == state and said in fault, f"{how}: {told}, {fault}")
        expect(state != "lost" or "it runs here" not in fault and ": look at both hosts" in fault, fault)
        expect(state != "lost" or "idle has not moved" not in text + fault, f"{text}, {fault}")
        begun = [event.guest for event in log if event.what == "begins"].count("idle")
        expect(begun == (how["loses"] != "command"), f"{how}: {log}")


def moves_of_which_nothing_is_known(_, folder: str) -> None:
    """Where a guest is whose migration is under way is not told as if it were not."""
    path = monitors.Monitor(folder, "web", [], migration="active").path
    mover = movers.QmpMover(types.SimpleNamespace(move=None), ways.Way(path))
    where = mover.whereabouts()
    expect(where == "its migration is active, and its state here is running: look at both hosts", where)


def what_it_did_not_begin(programs: Programs, folder: str) -> None:
    """A guest that moves already, or is not there, is not touched, and nothing is begun; what takes too long is told to
    stay."""
    records = four_guests(folder)
    for number, (how, told) in enumerate(
        (
            ({"migration": "active"}, "it moves already"),
            ({"state": "postmigrate"}, "its state is postmigrate"),
            ({"state": "inmigrate"}, "its state is inmigrate"),
        )
    ):
        place = os.path.join(folder, str(number))
        log, guests = four_monitors(place, idle=how)
        _, fault = run_of(programs, *records, *by_qmp(place), status=1)
        expect("nothing was begun" in fault and f"idle: {place}/idle.qmp: " in fault and told in fault, fault)
        expect(not log and not any(guest.asked for guest in guests.values()), f"{log}")
    log, _ = four_monitors(folder, db={})
    words = [*by_qmp(folder), "--patience", "100ms"]
    _, fault = run_of(programs, *records, *words, status=5)
    expect("it took more than 100 ms, and was cancelled" in fault, fault)
    for words, told, status in (
        ([*TWO, "--lines", "qmp", "--monitor", "/run/{name}"], "has no destination", 2),
        ([*TWO, "--lines", "qmp", "--to", "tcp:b:{port}"], "has no monitor", 2),
        ([*by_qmp(folder), "--deadline", "1ms"], "--force performs it", 3),
        ([*by_qmp(folder), "--dry-run"], "take one", 2),
    ):
        _, fault = run_of(programs, *records, *words, status=status)
        expect(told in fault, f"{words}: {fault}")


def runs_of_virsh(programs: Programs, folder: str) -> None:
    """A run by virsh: all move, two at once; and after a failure no other one begins."""
    records = four_guests(folder)
    words = [*records, *TWO, "--to", "qemu+ssh://b/system", "--json", f"{folder}/told.json", "--run"]
    command = [EVACUATE, "--program", programs.view, "--scheduler", programs.scheduler, *words]
    for failing, status in (((), 0), (("web", "db", "cache"), 5)):
        environment, log = monitors.virsh_in(folder, 2 if failing else 0.7, failing)
        done = subprocess.run(command, env=environment, capture_output=True, text=True, timeout=SECONDS)
        expect(done.returncode == status, f"{done}")
        events = monitors.events_in(log)
        expect_two_at_once(events)
        guests = document_of(folder)["run"]["guests"]
        states = [each["state"] for each in guests]
        told = [each.get("down_seconds") for each in guests if each["state"] == "moved"]
        expect(set(told) <= {0.007}, f"{guests}")
        expect(set(states) == {"moved"} if not failing else {"failed", "not begun"} <= set(states), f"{states}")
        expect(not failing or "no such host" in done.stderr, done.stderr)


# ---- Records.


def series_of_guests(programs: Programs, folder: str) -> None:
    """A series is one record of its guest: its last segment, unless that is much shorter than the others."""
    web, *_ = four_guests(folder)
    for stamp, seconds in (("20261127T030000Z", 40), ("20261127T031000Z", 40), ("20261127T032000Z", 3)):
        write_record(folder, f"db-a.{stamp}", steady_guest(4096, 10, seconds), taken_of="domain db-a")
    paths = [f"{folder}/db-a.{stamp}.light.pcwt" for stamp in ("20261127T030000Z", "20261127T031000Z")]
    short = f"{folder}/db-a.20261127T032000Z.light.pcwt"
    for words, stands, count in (
        ([f"{folder}/db-a.light.pcwt"], paths[1], 3),
        ([*paths, short], paths[1], 3),
        ([short, paths[0]], paths[0], 2),
        ([short], short, 1),
    ):
        text, _ = run_tool(programs, web, *words, "--link", LINK, "--json", f"{folder}/told.json")
        record = document_of(folder)["guests"][1]
        expect((record["name"], record["record"]) == ("db-a", stands), f"{words}: {record['record']}")
        told = f"db-a: {os.path.basename(stands)} stands for {count} segments\n"
        expect((told in text) == (count > 1), f"{words}: {text[:200]}")


def some_refused(programs: Programs, folder: str) -> None:
    """Beside a refused record all others are tried at once, and a wrong name in the settings is told."""
    records = four_guests(folder)
    write_file(b"PCWU", f"{folder}/old.light.pcwt")
    wrong = write_settings(folder, {"guests": {"mail": {}, "old": {}}})
    words = [*records[:3], f"{folder}/old.light.pcwt", "--link", LINK, *wrong]
    text, fault = run_tool(programs, *words, status=1)
    numbers = set(re.findall(r"^ +(\d+)  \w", text, re.M))
    expect(numbers == {"1", "2", "3"}, f"{numbers} at once of three guests")
    expect("there is no record of the guest mail" in fault and "guest old" not in fault, fault)


def small_guests_on_fast_links(programs: Programs, folder: str) -> None:
    """A plan that a record cannot have at so fast a link is that of the fastest one that it can have."""
    web, *_ = four_guests(folder)
    small = write_record(folder, "small", model.Guest(200, 200, 200, 1000, 61_000, [(2000, 3)]))
    os.unlink(f"{folder}/small.light.json")
    whole = os.path.join(folder, "small.pcwt")
    os.rename(small, whole)
    text, fault = run_tool(programs, web, whole, "--link", "100Gbit", "--json", f"{folder}/told.json")
    expect(not fault and re.search(r"^ +1  ", text, re.M), f"{fault!r}, {text}")
    shares = {each["name"]: each["costs"][0]["link_bytes_per_second"] for each in document_of(folder)["guests"]}
    expect(shares["small"] == 4_096_000_000 and "the most that a plan of its record has" in text, f"{shares}, {text}")


def old_copies(programs: Programs, folder: str) -> None:
    """A migration to a copy that is some time old sends at first what was written in that time."""
    draw, link, downtime = random.Random("old copies"), 8 << 20, 100_000
    writes = sorted((draw.randrange(1000, 31_000), draw.randrange(600)) for _ in range(4000))
    guest = model.Guest(3000, 3000, 3000, 1000, 31_000, writes)
    path = write_record(folder, "old", guest)
    for age, text in ((1, "1s"), (3, "3000ms"), (12, "0.2m")):
        words = ["--link", "8MiB", "--downtime", "100ms", "--at-once", "1", "--json", f"{folder}/told.json"]
        run_tool(programs, path, *words, *write_settings(folder, {"guests": {"old": {"copy": text}}}))
        (cost,) = document_of(folder)["guests"][0]["costs"]
        rates = model.rates(guest, link, downtime)
        plan = model.planned(guest, rates, (1000 + 1000 * age) // rates.factor, 1000)
        found = (round(1e6 * cost["time_seconds"]), cost["sent_bytes"], round(1e6 * cost["down_seconds"]))
        expect(found == plan[:3] and plan.sent > 0, f"{text}: {found} in place of {plan}")
    for copy, told in (("31s", "31.000 s old is older than the record, which has 30.000 s"), ("0s", "too little")):
        settings = write_settings(folder, {"guests": {"old": {"copy": copy}}})
        _, fault = run_tool(programs, path, "--link", "8MiB", *settings, status=1)
        expect(told in fault, f"{copy}: {fault}")


def guests_that_stood_still(programs: Programs, folder: str) -> None:
    """A record of a guest that did not run for more than a hundredth of the time tells nothing."""
    web, *_ = four_guests(folder)
    for share, status in ((0.995, 0), (0.5, 4)):
        still = write_record(folder, "still", steady_guest(4097, 10), ran_share=share)
        text, _ = run_tool(programs, web, still, "--link", LINK, "--at-once", "1", status=status)
        told = "recorded while standing still: still\n" in text and "stood still for 50.0 per cent of its" in text
        expect(told == (status == 4), f"{share}: {text}")


CASES = cases_of(__name__)
