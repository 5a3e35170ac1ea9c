"""Cases of checks/evacuation: a link that is shared by those that move, as planned and as performed."""

import random
import re
import subprocess
from typing import NamedTuple

from checks.evacuation import model, monitors
from checks.evacuation.cases import EVACUATE, Programs, document_of, four_guests, run_tool, steady_guest, write_record
from checks.evacuation.moving_cases import by_qmp, four_monitors, run_of, write_settings
from checks.lib.harness import cases_of, drawn, expect
from checks.lib.tally import expect_in_time
from precopy_dev.files import read_text, write_file
from precopy_tools.evacuate import costs as host_costs
from precopy_tools.evacuate import fluid, sharing

SETS, HOSTS = 2000, 120
LINK = "64MiB"
RATE = 64 << 20


def even_shares(_: Programs, __: str) -> None:
    """Shares are those of the model; none is above what a guest takes, and all of the link is used if all take it."""
    for draw in drawn("shares of a link", range(SETS)):
        link, count = draw.choice([7, 100, 10**9]), draw.randrange(1, 8)
        most = [draw.choice([draw.randint(1, link), link, max(1, link // count)]) for _ in range(count)]
        shares = sharing.fair(link, most)
        found = model.even(link, {str(number): each for number, each in enumerate(most)})
        expect(shares == [found[str(number)] for number in range(count)], f"{most}: {shares} in place of {found}")
        expect(all(share <= each for share, each in zip(shares, most)) and sum(shares) <= link, f"{most}: {shares}")
        expect(sum(most) < link or link - sum(shares) < count, f"{most}: {shares} of {link}")
        now, fair = draw.randint(1, 100), draw.randint(1, 130)
        wanted = fair if fair < now or fair >= 1.1 * now - 1e-9 else now
        expect(sharing.following(now, fair) == wanted, f"{now} and then {fair}")


class Drawn(NamedTuple):
    """A host that is drawn: its guests with what else is asked of each, the link, and the groups."""

    guests: dict[str, model.Guest]
    limits: dict[str, host_costs.Wanted]
    link: int
    groups: dict[str, int]


def drawn_guest(draw: random.Random) -> model.Guest:
    """A guest whose pages are written at random, mostly in a hot part, at any pace."""
    pages, last = draw.randrange(20, 400), 1000 + draw.randrange(500, 4000)
    hot, count = max(1, pages // draw.choice([1, 4, 16])), draw.choice([10, 300, 3000])
    written = sorted((draw.randrange(1000, last + 1), draw.randrange(hot)) for _ in range(draw.randrange(count)))
    return model.Guest(pages, pages, pages * draw.choice([1, 1, 5, 30]), 1000, last, written)


def drawn_host(draw: random.Random) -> Drawn:
    """Two to five guests, over a link that moves them all in a tenth of a second to three, if they do not write."""
    guests = {f"guest{number}": drawn_guest(draw) for number in range(draw.randrange(2, 6))}
    size = sum(4096 * guest.guest for guest in guests.values())
    link, downtime, limits = int(size / draw.choice([0.1, 0.5, 1, 3])), draw.choice([0.01, 0.1, 0.3, 0.335, 2.0]), {}
    for name, guest in guests.items():
        own = draw.choice([None, None, float(draw.randint(link // 20, link))])
        base = draw.choice([None, None, None, 0, draw.randint(0, guest.first)])
        limits[name] = host_costs.Wanted(downtime, own, base=base)
    return Drawn(guests, limits, link, {name: draw.choice([0, 0, 1]) for name in guests})


def random_hosts(programs: Programs, folder: str) -> None:
    """Each guest begins and ends where the model has it, with its shares, bytes, downtime and verdict, at each number
    at once; and precopy-schedule, which the tool asks, places it there too."""
    compared, changed, verdicts = 0, 0, set()
    for draw in drawn("hosts whose guests share a link", range(HOSTS)):
        host, paths = drawn_host(draw), []
        for name, guest in host.guests.items():
            paths.append(write_record(folder, name, guest))
        numbers = tuple(range(1, len(paths) + 1))
        asked = host_costs.Asked(programs.view, float(host.link), numbers, 0.001)
        found = [host_costs.guest_of(path, asked, host.limits[name]) for path, name in zip(paths, host.guests)]
        planned = [number for number in numbers if all(number in guest.costs for guest in found)]
        if not planned:
            continue
        table = fluid.Table(programs.scheduler, 0, host.groups)
        guests, answer = fluid.answered(table, found, planned, asked, 2)
        for schedule in answer.schedules:
            rows = table.answered([schedule]).moves
            order = [sharer_of(host, guest.name) for guest in schedule.guests]
            wanted = model.flows(order, schedule.at_once, host.link)
            for move, flow in zip(rows, wanted, strict=True):
                cost, where = move.cost, f"{move.guest.name}, {schedule.at_once} at once, {draw}"
                told = model.Flow(
                    *move[2:], list(map(tuple, cost.shares)), cost.sent, cost.downtime, cost.converges, cost.kept
                )
                expect(told == flow, f"{where}: {told} in place of {flow}")
                expect(cost.share == cost.shares[0].bandwidth, f"{where}: {cost.share}, {cost.shares}")
                compared, changed = compared + 1, changed + (len(cost.shares) > 1)
                verdicts.add(cost.converges)
    expect(compared > 3 * HOSTS and changed > HOSTS and len(verdicts) == 3, f"{compared}, {changed}, {verdicts}")


def sharer_of(host: Drawn, name: str) -> model.Sharer:
    limits, guest = host.limits[name], host.guests[name]
    most = 10**9 * 4096 * guest.guest // (1000 * guest.sampled) // 125 * 125
    most = min(host.link, most, int(limits.link or host.link))
    return model.Sharer(name, guest, limits.base, round(1e6 * limits.downtime), most, host.groups[name])


def shares_in(text: str) -> dict[str, list[tuple[str, str]]]:
    """The later shares of each guest, as the table tells them."""
    notes = re.findall(r"^(\w+) .*  then (.*)$", text, re.M)
    return {name: re.findall(r"([\d.]+) after ([\d.]+ s)", note) for name, note in notes}


def moves_of(told: dict) -> dict[str, dict]:
    return {move["guest"]: move for move in told["best"]["moves"]}


def whole_fluid_runs(programs: Programs, folder: str) -> None:
    """The table and the document tell the same shares; no schedule takes longer than with shares that stay."""
    records = four_guests(folder)
    settings = write_settings(folder, {"apart": [["web", "cache"]], "guests": {"db": {"link": "30MiB"}}})
    words = [*records, "--link", LINK, *settings, "--json", f"{folder}/told.json"]
    run_tool(programs, *words)
    stays = document_of(folder)
    expect("fluid" not in stays and not any("shares" in move for move in stays["best"]["moves"]), f"{stays['best']}")
    text, fault = run_tool(programs, *words, "--fluid")
    told = document_of(folder)
    expect(not fault and told["fluid"] and "; shared by those that move\n" in text, text)
    expect("Only --run performs this schedule" in text and "virsh" not in text and "time by start" not in text, text)
    least = {each["at_once"]: each["time_seconds"] for each in reversed(stays["schedules"])}
    for schedule in told["schedules"]:
        expect(schedule["time_seconds"] <= least[schedule["at_once"]] + 0.02, f"{schedule} beside {least}")
    later = {
        move["guest"]: [
            (f"{8e-9 * share['link_bytes_per_second']:.3g}", f"{share['after_seconds']:.3f} s")
            for share in move["shares"][1:]
        ]
        for move in told["best"]["moves"]
    }
    expect(shares_in(text) == {name: shares for name, shares in later.items() if shares} != {}, f"{text}, {later}")
    most = [share["link_bytes_per_second"] for move in told["best"]["moves"] for share in move["shares"]]
    own = [share["link_bytes_per_second"] for share in moves_of(told)["db"]["shares"]]
    expect(max(own) == 30 << 20 and max(most) == RATE, f"{told['best']}")


def refused_fluid_words(programs: Programs, folder: str) -> None:
    web, *_ = four_guests(folder)
    words = ["--link", LINK, "--fluid"]
    costs = write_file("", folder, "web.jsonl")
    for more, told in (
        (["--window", "22:00-06:00"], "--fluid goes without --window"),
        (["--costs", "--at-once", "1"], "--fluid goes without --costs"),
        (["--dry-run"], "--fluid goes without --dry-run"),
        (["--clark"], "--fluid goes without --clark"),
        ([costs], "--fluid needs records, and"),
    ):
        _, fault = run_tool(programs, web, *more, *words, status=2)
        expect(told in fault, f"{more}: {fault}")


def guests_whose_records_do_not_tell(programs: Programs, folder: str) -> None:
    """A guest that stood still has the numbers of its first share, and so has one whose record is too short."""
    web, *_ = four_guests(folder)
    still = write_record(folder, "still", steady_guest(4097, 10), ran_share=0.5)
    short = write_record(folder, "short", model.Guest(9000, 9000, 9000, 1000, 1010, [(1005, 3)]))
    words = ["--link", LINK, "--at-once", "2", "--json", f"{folder}/told.json", "--fluid"]
    text, _ = run_tool(programs, web, still, short, *words, status=4)
    expect("2 at once, records too short: short\n" in text and "recorded while standing still: still\n" in text, text)
    costs = {guest["name"]: guest["costs"][0] for guest in document_of(folder)["guests"]}
    for name, pages in ("still", 4097), ("short", 9000):
        took, share = costs[name]["time_seconds"], costs[name]["link_bytes_per_second"]
        expect(abs(took - 4096 * pages / share) < 0.02 and costs[name]["converges"] == "unknown", f"{costs[name]}")


def hours_of_fluid_guests(programs: Programs, folder: str) -> None:
    """By the records of an hour the day of the record has what is planned, since its move has the same shares then."""
    paths = []
    for name, pages in ("web", 4096), ("db", 16384):
        for day in 26, 27:
            guest = steady_guest(pages + 100 * day, 10, 40)
            moment = {"taken_of": f"domain {name}", "taken_at": f"2026-11-{day}T03:00:00+00:00"}
            paths.append(write_record(folder, f"{name}.202611{day}T030000Z", guest, **moment))
    words = ["--link", LINK, "--at-once", "2", "--at", "03:00", "--json", f"{folder}/told.json", "--fluid"]
    text, fault = run_tool(programs, *paths, *words)
    moves = moves_of(document_of(folder))
    expect(not fault and len(moves["db"]["shares"]) == 2 and "limits kept on 2 of 2 days" in text, f"{fault}, {text}")
    for move in moves.values():
        newest, other = move["days"]
        names = ("time_seconds", "sent_bytes", "down_seconds")
        expect([newest[name] for name in names] == [move["cost"][name] for name in names], f"{move}")
        expect(other["sent_bytes"] < newest["sent_bytes"], f"{move}")


# ---- Runs.


def bandwidths(guest: monitors.Monitor) -> list[int]:
    """What a monitor was told of its share, in order."""
    return [told["max-bandwidth"] for command, told in guest.asked if command == "migrate-set-parameters"]


def fluid_runs(programs: Programs, folder: str) -> None:
    """A guest begins with its share of that moment, and the others are told theirs when one begins or ends."""
    records = four_guests(folder)
    log, guests = four_monitors(folder, 0.6)
    guests["db"].seconds = 2.5
    words = [*records, *by_qmp(folder), "--fluid", "--json", f"{folder}/told.json"]
    text, fault = run_of(programs, *words)
    expect(not fault and text.count(" has moved\n") == 4, f"{fault}, {text}")
    expect(document_of(folder)["run"]["is_complete"], text)
    for name, guest in guests.items():
        told = bandwidths(guest)
        expect(told and set(told) <= {RATE, RATE // 2}, f"{name}: {told}")
        expect(
            "downtime-limit" in guest.asked[1][1] and guest.asked[1][0] == "migrate-set-parameters", f"{guest.asked}"
        )
    expect_in_time(bandwidths(guests["db"])[0] == RATE // 2 and RATE in bandwidths(guests["db"]), f"{log}")
    expect(text.count(" goes on with 0.537 Gbit/s\n") >= 1, text)
    expect_within_link(guests)


def expect_within_link(guests: dict[str, monitors.Monitor]) -> None:
    """Whatever monitors were told, what moves at once never had more than the link, since shares are lowered first."""
    events = sorted(
        [(at, name, told["max-bandwidth"]) for name, guest in guests.items() for at, told in guest.parameters]
        + [(guest.ended, name, 0) for name, guest in guests.items()]
    )
    now = dict.fromkeys(guests, 0)
    for at, name, share in events:
        now[name] = share
        expect(sum(now.values()) <= RATE, f"{now} at {at}")


def silent_monitors(programs: Programs, folder: str) -> None:
    """A monitor that does not take its share is told again; until then no other one gets more."""
    records = four_guests(folder)
    log, guests = four_monitors(folder, 0.6)
    guests["db"].seconds, guests["db"].refuses = 3.0, 2
    text, fault = run_of(programs, *records, *by_qmp(folder), "--fluid")
    expect(not fault and text.count(" has moved\n") == 4, f"{fault}, {text}")
    expect_in_time(guests["db"].refuses == 0 and RATE in bandwidths(guests["db"]), f"{bandwidths(guests['db'])}")


def fluid_runs_of_virsh(programs: Programs, folder: str) -> None:
    """virsh is told a speed in whole MiB a second: of the one that takes longest as soon as no other one is left."""
    records = four_guests(folder)
    environment, log = monitors.virsh_in(folder, '"$([ "$domain" = db ] && echo 4 || echo 0.7)"')
    words = [*records, "--link", LINK, "--at-once", "3", "--to", "qemu+ssh://b/system", "--fluid", "--run"]
    command = [EVACUATE, "--program", programs.view, "--scheduler", programs.scheduler, *words]
    done = subprocess.run(command, env=environment, capture_output=True, text=True, timeout=120)
    expect(done.returncode == 0 and not done.stderr, f"{done}")
    told = re.findall(r"migrate-setspeed --domain (\S+) --bandwidth (\d+) ", read_text(log))
    expect({int(speed) for _, speed in told} <= {21, 32, 64}, f"{told}")
    expect_in_time(("db", "64") in told, f"{told}")


CASES = cases_of(__name__)
