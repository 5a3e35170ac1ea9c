"""Cases of checks/evacuation: records of hours, by the hour that is asked for, and windows with guests that are held
back until their calm."""

import contextlib
import datetime
import io
import math
import os
import re
import signal
import subprocess
import sys
import time
import xml.etree.ElementTree

from checks.evacuation import model, monitors
from checks.evacuation.cases import SVG, Programs, document_of, expect, micros, run_tool, write_record
from checks.evacuation.moving_cases import write_settings
from checks.lib.harness import cases_of, draws
from checks.lib.tally import expect_in_time
from precopy_dev.files import read_text, write_file
from precopy_dev.tree import TOP
from precopy_tools.evacuate import hours, lines, movers, run
from precopy_tools.evacuate.costs import Cost, Guest, Wanted
from precopy_tools.evacuate.schedules import Placed
from precopy_tools.evacuate.ways import Way

LINK, RATE, DOWNTIME = "4MiB", 4 << 20, 300_000
DAY, UTC = 86_400, datetime.timezone.utc
# When the records of the cases begin: midnight of a day.
FIRST = int(datetime.datetime(2026, 11, 20, tzinfo=UTC).timestamp())


def guest_of(pages: int, hot: int, seconds: int, pace: int = 10) -> model.Guest:
    """A guest that writes its hot pages in turn, one each so many ticks."""
    written = [(1000 + at, at // pace % hot) for at in range(0, 1000 * seconds, pace)] if hot else []
    return model.Guest(pages, pages, pages, 1000, 1000 + 1000 * seconds, written)


def segment(folder: str, name: str, begin: int, guest: model.Guest, **changed) -> str:
    """A segment of a series that begins then, in seconds from FIRST on."""
    moment = datetime.datetime.fromtimestamp(FIRST + begin, UTC)
    stamped = f"{name}.{moment:%Y%m%dT%H%M%SZ}"
    taken = {"taken_at": moment.isoformat(), "taken_of": f"domain {name}"}
    return write_record(folder, stamped, guest, **{**taken, **changed})


def clock(seconds: int) -> str:
    return f"{seconds // 3600 % 24:02}:{seconds // 60 % 60:02}"


def planned_at(guest: model.Guest, seconds: float, link: float = RATE) -> model.Plan:
    """The plan of a model that begins so long after the first look."""
    rates = model.rates(guest, link, DOWNTIME)
    return model.planned(guest, rates, (1000 + round(1000 * seconds)) // rates.factor, None)


def told_at(built: Programs, folder: str, *words: str, status: int = 0) -> tuple[dict, str]:
    """What the tool tells, as a document and as text."""
    text, fault = run_tool(built, *words, "--link", LINK, "--json", f"{folder}/told.json", status=status)
    expect(not fault or status, fault)
    return document_of(folder), text


# ---- The cases.


def opened_as_it_ends(_, __) -> None:
    """A window of which less than a second is left opens the next day."""
    window, opens = hours.Window(23 * 3_600, 7_200), FIRST + 23 * 3_600.0
    for since, wanted in (
        (0.25, (opens + 0.25, hours.Window(82_800, 7_199))),
        (7_199, (opens + 7_199, hours.Window(3_599, 1))),
        (7_199.5, (opens + DAY, window)),
        (7_200, (opens + DAY, window)),
    ):
        found = hours.opening(window, opens + since)
        expect(found == wanted, f"{since} s after it opens: {found} in place of {wanted}")


def by_the_hour(programs: Programs, folder: str) -> None:
    """A plan begins in the newest record of the hour, as far after its first look as the hour is; the other days that
    have this hour are told beside it."""
    draw, guests = draws("hours"), {}
    for day, hot in enumerate((800, 400, 200)):
        for number in range(4):
            begin = DAY * day + 3 * 3600 + 60 * number
            guests[begin] = guest_of(2048, hot + 10 * number, 60, 2)
            segment(folder, "db", begin, guests[begin])
    for begin in (3 * 3600, 3 * 3600 + 60 * draw.randrange(1, 4)):
        told, text = told_at(programs, folder, f"{folder}/db.light.pcwt", "--at", clock(begin))
        (move,) = told["best"]["moves"]
        newest = DAY * 2 + begin
        plan = planned_at(guests[newest], 0)
        found = tuple(micros(move["cost"][name]) for name in ("time_seconds", "down_seconds"))
        expect(found == (plan.time, plan.down) and move["cost"]["sent_bytes"] == plan.sent, f"{move} is not {plan}")
        expect(f"T{clock(begin).replace(':', '')}00Z" in move["record"] and "20261122" in move["record"], f"{move}")
        days = [(day["begin"][:10], day["sent_bytes"]) for day in move["days"]]
        wanted = [planned_at(guests[DAY * day + begin], 0).sent for day in (2, 1, 0)]
        expect(days == list(zip(("2026-11-22", "2026-11-21", "2026-11-20"), wanted)), f"{days}, {wanted}")
        expect(len(set(wanted)) == 3, f"{wanted}: the days do not differ")
        expect("stands for 12 segments, from 2026-11-22 " in text and "limits kept on 3 of 3 days" in text, text)
        expect("as if today is as those days" in text, text)


def within_a_record(programs: Programs, folder: str) -> None:
    """An hour within a record, whose guest becomes busy in the middle; and records that end too soon after the hour."""
    busy = [(1000 + at, at // 4 % 1500) for at in range(120_000, 240_000, 4)]
    guest = model.Guest(2048, 2048, 2048, 1000, 301_000, busy)
    segment(folder, "db", 3 * 3600, guest)
    sent = []
    for seconds in (60, 120, 180):
        told, _ = told_at(programs, folder, f"{folder}/db.light.pcwt", "--at", clock(3 * 3600 + seconds))
        (move,) = told["best"]["moves"]
        plan = planned_at(guest, seconds)
        expect(move["cost"]["sent_bytes"] == plan.sent and move["record_seconds"] == seconds, f"{move} is not {plan}")
        sent.append(plan.sent)
    expect(sent[0] < sent[1], f"{sent}: the guest is not busier later")
    short = guest_of(40_000, 0, 60)
    for begin in (0, 60):
        segment(folder, "short", 3 * 3600 + begin, short)
    told, _ = told_at(programs, folder, f"{folder}/short.light.pcwt", "--at", "03:00", status=0)
    expect(told["best"]["moves"][0]["cost"]["converges"] == "yes", f"{told['best']}")
    long = guest_of(60_000, 0, 75)
    segment(folder, "long", 3 * 3600 - 30, long)
    told, _ = told_at(programs, folder, f"{folder}/long.light.pcwt", "--at", "03:00")
    (move,) = told["best"]["moves"]
    # From 30 s on, it would end after its record: it begins with the first look.
    expect((move["record_seconds"], move["cost"]["sent_bytes"]) == (0, planned_at(long, 0).sent), f"{move}")


def without_that_hour(programs: Programs, folder: str) -> None:
    """The nearest record stands for an hour that no record has; a record that is no segment stands for all."""
    segment(folder, "db", 3 * 3600, guest_of(2048, 100, 60))
    segment(folder, "db", 9 * 3600, guest_of(2048, 200, 60))
    plain = write_record(folder, "web", guest_of(1024, 50, 60))
    told, text = told_at(programs, folder, f"{folder}/db.light.pcwt", plain, "--at", "08:00")
    moves = {move["guest"]: move for move in told["best"]["moves"]}
    expect("T090000Z" in moves["db"]["record"] and moves["web"]["record"] == plain, f"{moves}")
    expect("db: no segment is of 08:00:00 UTC; " in text and ", 3600.000 s away" in text, text)
    expect(moves["db"]["days"] == [] and "db: no record tells" not in text, text)
    told, text = told_at(programs, folder, f"{folder}/db.light.pcwt", "--at", "now")
    opens = datetime.datetime.fromisoformat(told["opens"]).timestamp()
    expect_in_time(abs(opens - time.time()) < 20, f"{told['opens']}")


def nights(folder: str) -> tuple[int, dict[str, dict[int, model.Guest]], list[str]]:
    """Two guests in a night of eight minutes, some hours from now: one is busy in the first half, and the other in the
    second. When it begins, the guests, and the words of their records and of the window."""
    begin = int(time.time() // 60 * 60 + 7200) % DAY
    found: dict[str, dict[int, model.Guest]] = {"early": {}, "late": {}}
    for number in range(8):
        for name, is_busy in (("early", number < 4), ("late", number >= 4)):
            guest = guest_of(2048, 1600 if is_busy else 20, 60, 2)
            found[name][60 * number] = guest
            segment(folder, name, begin + 60 * number, guest)
    window = f"{clock(begin)}-{clock(begin + 480)}"
    return begin, found, [*(f"{folder}/{name}.light.pcwt" for name in found), "--window", window]


def held_until_calm(programs: Programs, folder: str) -> None:
    """In a window a guest that is busy waits for its calm, and one that is calm does not; without the wait it costs
    more. All of it is what precopy-schedule tells of the costs and the waits."""
    (begin, known, words), picture = nights(folder), f"{folder}/window.svg"
    told, text = told_at(programs, folder, *words, "--at-once", "1,2", "--picture", picture)
    expect_clocks(picture, told)
    moves = {move["guest"]: move for move in told["best"]["moves"]}
    opens = datetime.datetime.fromisoformat(told["opens"]).timestamp()
    expect(opens % DAY == begin and 0 < opens - time.time() < 7300, f"{told['opens']}")
    expect(moves["late"]["start_seconds"] < 240 <= moves["early"]["start_seconds"], f"{moves}")
    expect(moves["early"]["held_seconds"] > 100 and "held back for " in text and ", held " in text, text)
    for name, move in moves.items():
        at = move["start_seconds"]
        guest = known[name][int(at // 60 * 60)]
        plan = planned_at(guest, move["record_seconds"], move["cost"]["link_bytes_per_second"])
        expect((move["cost"]["sent_bytes"], micros(move["cost"]["time_seconds"])) == (plan.sent, plan.time), f"{move}")
        expect(micros(move["end_seconds"]) == micros(at) + plan.time, f"{move}")
        expect(abs(datetime.datetime.fromisoformat(move["begin"]).timestamp() - opens - at) <= 1, f"{move}")
    expect_as_scheduled(told)
    now, _ = told_at(programs, folder, *words[:-2], "--at", clock(begin), "--at-once", "1,2")
    sent = [sum(move["cost"]["sent_bytes"] for move in each["best"]["moves"]) for each in (told, now)]
    expect(sent[0] < 0.8 * sent[1], f"{sent}: nothing is saved")
    expect(re.search(rf"not before \d{{4}}-\d\d-\d\d {clock(begin + 240)[:3]}", text), text)
    expect(all(each["time_seconds"] <= 480 for each in told["schedules"] if each["kept"]), f"{told['schedules']}")


def expect_clocks(path: str, told: dict) -> None:
    """The picture has times of day below it and behind each bar, and a bar for how long a guest is held back."""
    root = xml.etree.ElementTree.parse(path).getroot()
    opens, moves = datetime.datetime.fromisoformat(told["opens"]), told["best"]["moves"]
    scale = 640 / max(move["end_seconds"] for move in moves)
    labels = [(part.text, float(part.get("x"))) for part in root.findall(f"{SVG}text[@class='note']")]
    marks = [(text, x) for text, x in labels if re.fullmatch(r"\d\d:\d\d", text)]
    expect(len(marks) > 2 and labels[-1][0] == "UTC", f"{labels}")
    for text, x in marks:
        wanted = 170 + scale * (60 * (60 * int(text[:2]) + int(text[3:])) - opens.timestamp() % DAY)
        expect(abs(x - wanted) < 1, f"{text} is at {x}, and not at {wanted}")
    for move, group in zip(moves, root.findall(f"{SVG}g"), strict=True):
        end = (opens + datetime.timedelta(seconds=move["end_seconds"])).strftime("%H:%M:%S")
        expect(group.find(f"{SVG}text[@class='end']").text == end, f"{move}: it does not end at {end}")
        held = [(float(bar.get("x")), float(bar.get("width"))) for bar in group.findall(f"{SVG}rect[@class='held']")]
        wait, start = scale * move["held_seconds"], 170 + scale * move["start_seconds"]
        expect(len(held) == bool(wait), f"{move}: {held}")
        expect(all(abs(x + width - start) < 1 and abs(width - wait) < 1 for x, width in held), f"{move}: {held}")


def expect_as_scheduled(told: dict) -> None:
    """The ends of the best schedule are those of the model, if a guest has its slot while it waits."""
    best = told["schedules"][told["best"]["schedule"]]
    moves = [
        model.Move(micros(move["held_seconds"] + move["cost"]["time_seconds"]), move["cost"]["sent_bytes"], 0, 1, 0)
        for move in told["best"]["moves"]
    ]
    rows = model.placed(best["at_once"], moves)
    found = [(micros(move["end_seconds"]), move["slot"]) for move in told["best"]["moves"]]
    expect(found == [(end, slot) for _, end, slot in rows], f"{found}, {rows}")


def guests_apart_in_a_window(programs: Programs, folder: str) -> None:
    """Of guests that move apart one waits for the other, also if that is held back."""
    apart = write_settings(folder, {"apart": [["early", "late"]]})
    told, _ = told_at(programs, folder, *nights(folder)[2], "--at-once", "2", *apart)
    one, other = sorted(told["best"]["moves"], key=lambda move: move["start_seconds"])
    expect(one["end_seconds"] <= other["start_seconds"], f"{told['best']}")
    expect(told["schedules"][told["best"]["schedule"]]["kept"], f"{told['schedules']}")


def held_up_to_a_deadline(programs: Programs, folder: str) -> None:
    """A deadline within the window bounds how long a guest waits: it moves in a calm before it, and not in the calmest
    part of the window."""
    begin = int(time.time() // 60 * 60 + 7200) % DAY
    for number, hot in enumerate((1600, 1600, 1600, 100, 100, 20, 20, 20)):
        segment(folder, "db", begin + 60 * number, guest_of(2048, hot, 60, 2))
    words = [f"{folder}/db.light.pcwt", "--window", f"{clock(begin)}-{clock(begin + 480)}", "--at-once", "1"]
    for deadline, first in (("5m", 180), ("7m", 300), (None, 300)):
        told, _ = told_at(programs, folder, *words, *(["--deadline", deadline] if deadline else []))
        (move,) = told["best"]["moves"]
        last = told.get("deadline_seconds", 480)
        is_calm = first <= move["start_seconds"] < first + 60 and move["end_seconds"] <= last
        expect(is_calm and move["cost"]["kept"], f"{deadline}: {move}")


def seconds_that_pass(_: Programs, __) -> None:
    """What begins now does so also if a second or more has passed since the words were read, and not a day later."""
    for passed in 0, 0.9, 1.0, 1.5, 30:
        now = time.time() + passed
        expect(hours.hour_of(hours.clock("now"), None, now) == hours.Hour(now), f"{passed} s later")
    for now, opens in ((FIRST + 60.0, FIRST + 60.0), (FIRST + 60.9, FIRST + 60.9), (FIRST + 61.5, FIRST + DAY + 60.0)):
        expect(hours.hour_of(hours.clock("00:01"), None, now).opens == opens, f"00:01 at {now}")


def windows_too_short(programs: Programs, folder: str) -> None:
    """A window in which not all guests have room is told, with status 3."""
    begin = int(time.time() // 60 * 60 + 7200) % DAY
    for number in range(2):
        segment(folder, "db", begin + 60 * number, guest_of(30_000, 10, 60))
        segment(folder, "web", begin + 60 * number, guest_of(30_000, 20, 60))
    words = [f"{folder}/db.light.pcwt", f"{folder}/web.light.pcwt", "--link", "2MiB"]
    text, fault = run_tool(programs, *words, "--window", f"{clock(begin)}-{clock(begin + 60)}", status=3)
    expect("no schedule ends within 60.000 s: the shortest takes " in fault, fault)
    expect("missed: the deadline" in text or "the deadline" in text, text)


def refused_hours(programs: Programs, folder: str) -> None:
    path = segment(folder, "db", 3 * 3600, guest_of(2048, 100, 60))
    for words, said in (
        (["--at", "24:00"], "'24:00' is no time of day in UTC"),
        (["--at", "3:00"], "'3:00' is no time of day"),
        (["--at", "noon"], "'noon' is no time of day"),
        (["--window", "22:00"], "'22:00' is no window"),
        (["--window", "22:00-22:00"], "ends when it begins"),
        (["--window", "now-22:00"], "is no window"),
        (["--window", "22:00-25:00"], "'25:00' is no time of day"),
        (["--at", "03:00", "--window", "22:00-06:00"], "take one"),
        (["--costs", "--at-once", "1", "--window", "22:00-06:00"], "--costs goes without --window"),
    ):
        _, fault = run_tool(programs, path, "--link", LINK, *words, status=2)
        expect(said in fault, f"{words}: {fault!r}")
    copy = write_settings(folder, {"guests": {"db": {"copy": "1s"}}})
    _, fault = run_tool(programs, path, "--link", LINK, "--at", "03:00", *copy, status=1)
    expect("guests: db: a copy of some age goes without --at and --window" in fault, fault)
    lines, _ = run_tool(programs, path, "--link", LINK, "--at", "03:00", "--at-once", "1", "--costs")
    write_file(lines, f"{folder}/db.jsonl")
    text, _ = run_tool(programs, f"{folder}/db.jsonl", "--link", LINK, "--at-once", "1")
    expect("1 guest;" in text, text)


def damaged_segments(programs: Programs, folder: str) -> None:
    """Of a window whose records are damaged in part, the others tell."""
    _, _, words = nights(folder)
    paths = sorted(name for name in os.listdir(folder) if name.startswith("early.") and name.endswith(".pcwt"))
    with open(os.path.join(folder, paths[-1]), "ab") as file:
        file.write(b"more")
    _, fault = run_tool(programs, *words, "--link", LINK, "--json", f"{folder}/told.json")
    expect(fault.count("\n") == 1 and f"{paths[-1]}: E14" in fault, fault)
    moves = {move["guest"]: move for move in document_of(folder)["best"]["moves"]}
    expect(240 <= moves["early"]["start_seconds"] < 420, f"{moves}")


# A virsh that takes two seconds to set the limit of downtime.
SLOW = """\
#!/bin/sh
case "$*" in
*migrate-setmaxdowntime*) sleep 2 ;;
*) echo "$*" >> {log} ;;
esac
"""


class Waiting:
    """What stops a run, by hand."""

    by = None

    def sleep(self, until: float) -> None:
        time.sleep(max(0.0, until - time.time()) if until > 1e9 else 0.05)


def steps_in(seconds: float, length: float = 60) -> tuple[list[lines.Step], float]:
    """The steps of a schedule that opens in a second, for so long: two guests in one slot, of which the second one is
    held back."""
    opens = time.time() + 1
    cost = Cost(1, float(RATE), 500_000, 1 << 20, 5000, 500_000, 500_000, 1 << 20, "yes", True, "")
    wait = micros(seconds)
    rows = (("web", 0, 0), ("db", 500_000 + wait, wait))
    moves = [
        Placed(Guest(name, "", "", "", Wanted(0.3), {}, {}), cost._replace(hold=hold), start, start + 500_000, 0)
        for name, start, hold in rows
    ]
    return lines.steps_of(moves, {}, opens, opens + length), opens


def expect_begun(log: list[monitors.Event], opens: float, hold: float) -> None:
    begun = {event.guest: event.time for event in log if event.what == "begins"}
    expect(set(begun) == {"web", "db"}, f"{begun}")
    late = begun["web"] - opens, begun["db"] - opens - 0.5 - hold
    expect(min(late) >= 0, f"{begun} after {opens}")
    expect_in_time(max(late) < 4, f"{begun} after {opens}")


def held_in_scripts(_: Programs, folder: str) -> None:
    """Scripts hold guests back until their times, and so does a run; a signal ends the wait."""
    for kind in ("qmp", "virsh"):
        place = os.path.join(folder, kind)
        log: list[monitors.Event] = []
        guests = [monitors.Monitor(place, name, log, 0.2) for name in ("web", "db")]
        own = {guest.name_of_guest: Way(guest.path, "tcp:b:4444") for guest in guests}
        environment, path = monitors.virsh_in(place, 0.2)
        steps, opens = steps_in(2)
        script = write_file(lines.script(kind, steps, own), place, "move")
        os.chmod(script, 0o700)
        done = subprocess.run([script], env=environment, capture_output=True, text=True, timeout=60)
        expect(done.returncode == 0, f"{done}")
        expect_begun(log if kind == "qmp" else monitors.events_in(path), opens, 2)
        text = read_text(script)
        expect_stopped(script, text, steps[0].not_before, environment)
        for guest in guests:
            guest.state, guest.migration = "running", None
        write_file(text.replace(str(steps[0].closes), "1").replace(str(int(steps[0].closes)), "1"), script)
        done = subprocess.run([script], env=environment, capture_output=True, text=True, timeout=60)
        expect(
            done.returncode == 1 and "the window has ended" in done.stderr and "begins" not in done.stdout, f"{done}"
        )


def expect_stopped(script: str, text: str, time_of_first: int, environment: dict) -> None:
    """A script that waits for its first time begins none if it is stopped."""
    write_file(text.replace(str(time_of_first), "9999999999"), script)
    process = subprocess.Popen(
        [script],
        env=environment,
        stdout=subprocess.PIPE,
        stderr=subprocess.PIPE,
        text=True,
        # A check that a shell runs in the background ignores this signal, and so would the script.
        preexec_fn=lambda: signal.signal(signal.SIGINT, signal.SIG_DFL),
    )
    time.sleep(0.7)
    process.send_signal(signal.SIGINT)
    told, fault = process.communicate(timeout=60)
    expect("begins" not in told, f"{told}, {fault}")
    # A script that has not begun to wait yet is ended by the signal itself.
    expect_in_time(process.returncode == 1, f"{process.returncode}, {told}, {fault}")


def held_in_runs(_: Programs, folder: str) -> None:
    """A run holds guests back until their times; one that is stopped meanwhile begins none, and neither does one from
    the end of its window on."""
    for is_stopped, length in ((False, 60), (True, 60), (False, 2.4)):
        place = os.path.join(folder, f"{is_stopped}{length}")
        log: list[monitors.Event] = []
        own = {name: Way(monitors.Monitor(place, name, log, 0.2).path, "tcp:b:4444") for name in ("web", "db")}
        steps, opens = steps_in(2, length)
        moves = [run.Moving(step, movers.QmpMover(step, own[step.move.guest.name]), None) for step in steps]
        stopping = Waiting()
        going = run.Run(moves, stopping, opens)
        stopping.by = "SIGTERM" if is_stopped else None
        with contextlib.redirect_stdout(io.StringIO()) as told:
            going.perform()
        outcome = going.outcome()
        states = [move.state for move in outcome.moves]
        if length < 60:
            expect((states, outcome.status()) == (["moved", "not begun"], 5), f"{states}, {log}")
            expect("\nthe window has ended: no other guest begins\n" in told.getvalue(), told.getvalue())
            expect(outcome.moves[1].document()["why"] == "the window had ended", f"{outcome.moves[1]}")
            # Nor does a guest whose window ends while its monitor is asked.
            moves[1].begin()
            expect(moves[1].seen.why == "the window has ended" and len(log) == 2, f"{moves[1].seen}, {log}")
            # A signal is told then, too, and once.
            stopping.by = "SIGTERM"
            with contextlib.redirect_stdout(io.StringIO()) as told:
                going._cancel()
                going._cancel()
            expect(told.getvalue().count("SIGTERM: no other guest begins") == 1, told.getvalue())
            continue
        if is_stopped:
            expect(states == ["not begun"] * 2 and not log, f"{states}, {log}")
            expect(outcome.time == 0 and ", in 0 s; " in outcome.title(), outcome.title())
            continue
        expect(states == ["moved"] * 2, f"{states}")
        expect_begun(log, opens, 2)
        starts = [move.start / 1e6 for move in outcome.moves]
        expect(-0.1 < starts[0] and 2.4 < starts[1], f"{starts}: not from the opening on")
        expect_in_time(starts[0] < 3 and starts[1] < 6, f"{starts}: not from the opening on")


def slow_monitor(folder: str, name: str, log: list[monitors.Event], until: float) -> monitors.Monitor:
    """A guest whose monitor takes parameters at a time in Unix seconds, and not before."""
    monitor = monitors.Monitor(folder, name, log, 0.2)
    answer = monitor.answer

    def slowly(command: str, arguments: dict) -> dict:
        if command == "migrate-set-parameters":
            time.sleep(max(0.0, until - time.time()))
        return answer(command, arguments)

    monitor.answer = slowly
    return monitor


def windows_that_end_meanwhile(_: Programs, folder: str) -> None:
    """A guest does not begin whose monitor or virsh takes the parameters only after the end of the window."""
    (step, _), _ = steps_in(0)
    step, log = step._replace(not_before=0, closes=time.time() + 3), []
    own = {"web": Way(slow_monitor(folder, "web", log, step.closes + 0.1).path, "tcp:b:4444")}
    move = run.Moving(step, movers.QmpMover(step, own["web"]), None)
    script = write_file(lines.script("qmp", [step], own), folder, "move")
    os.chmod(script, 0o700)
    with subprocess.Popen([script], stdout=subprocess.PIPE, stderr=subprocess.PIPE, text=True) as process:
        told = process.communicate(timeout=60)
    expect(process.returncode == 1 and told == ("", "web has not moved: the window has ended\n"), f"{told}, {log}")
    move.closes = time.time() + 3
    move.mover.way = Way(slow_monitor(folder, "db", log, move.closes + 0.1).path, "tcp:b:4444")
    move.begin()
    while not move.is_free():
        move.wait()
    expect(move.seen.why == "the window has ended" and not log, f"{move.seen}, {log}")
    os.chmod(write_file(SLOW.format(log=f"{folder}/log"), folder, "virsh"), 0o700)
    code = "import time; from checks.evacuation import calm_cases; from precopy_tools.evacuate import movers, ways\n"
    code += "(step, _), _ = calm_cases.steps_in(0)\n"
    code += "movers.VirshMover(step, ways.Way('', 'b')).begin(time.time() + 0.9)"
    environment = {**os.environ, "PATH": f"{folder}:{os.environ['PATH']}", "PYTHONPATH": f"{TOP}:{TOP}/python"}
    step = step._replace(closes=math.ceil(time.time()) + 1)
    for command in ["sh", "-c", lines.script("virsh", [step], own)], [sys.executable, "-B", "-c", code]:
        done = subprocess.run(command, env=environment, capture_output=True, text=True, timeout=60)
        expect(done.returncode == 1 and not os.path.exists(f"{folder}/log"), f"{done}")


CASES = cases_of(__name__)
