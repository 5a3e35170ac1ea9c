"""Cases of checks/evacuation."""

import json
import os
import random
import re
import resource
import time
import xml.etree.ElementTree
from typing import NamedTuple

from checks.evacuation import model
from checks.lib.amount_texts import size_text, time_text
from checks.lib.harness import cases_of, drawn, draws, expect, run
from checks.lib.tally import expect_in_time
from checks.lib.view_texts import keeps_schema
from precopy_dev.files import read_bytes, read_json, read_text, write_file
from precopy_dev.models.courses import Manner
from precopy_dev.tree import TOP
from precopy_tools.evacuate import costs as host_costs
from precopy_tools.evacuate import schedules
from precopy_tools.formats import samples, traces
from precopy_tools.predict.clark import NEEDED, Pace, plan_of

EVACUATE = os.path.join(TOP, "tools", "evacuate")
SVG = "{http://www.w3.org/2000/svg}"
SETS, GUESTS, LIMIT = 500, 100, 5.0
LINK = "64MiB"
RATE = 64 << 20


class Programs(NamedTuple):
    scheduler: str
    view: str


# ---- Tables.


def answered(program: str, text: bytes | str) -> tuple[int, str, str]:
    done = run([program], text.encode() if isinstance(text, str) else text)
    return done.status, done.output.decode(), done.faults.decode()


def random_plans(draw: random.Random) -> list[tuple[int, int, list[model.Move]]]:
    """Plans of one set of guests: small numbers, so that many are equal, or great ones."""
    most = draw.choice([3, 50, (1 << 64) - 1])
    guests = [
        model.Move(
            draw.randint(0, most),
            draw.randint(0, most),
            draw.randint(0, most),
            int(draw.random() < 0.9),
            draw.choice([0, 0, 0, 1, 2]),
        )
        for _ in range(draw.randrange(0, 12))
    ]
    found = []
    for _ in range(draw.randrange(1, 8)):
        draw.shuffle(guests)
        found.append((draw.randrange(1, 9), draw.choice([0, draw.randint(1, 3 * min(most, 1 << 62))]), guests[:]))
    return found


def random_tables(programs: Programs, _: str) -> None:
    for draw in drawn("tables of plans", range(SETS)):
        plans = random_plans(draw)
        status, told, fault = answered(programs.scheduler, model.table(plans))
        wanted = model.answer(plans)
        expect((status, told, fault) == (0, wanted, ""), f"{told!r} in place of {wanted!r}, {fault!r}")


def tables_that_are_none(programs: Programs, _: str) -> None:
    good = "2 0 3 30 1 1 0\n"
    line = "is no plan: slots, a deadline, and five numbers for each guest"
    cases = [
        (wrong, f"line 2 {line}")
        for wrong in (
            "0 0",
            "65537 0",
            "1",
            "1 0 2",
            "1 0 2 3 4 5 x",
            "1  0",
            "",
            "a",
            "1 0 -1 1 1 1 1",
            " 1 0",
            "1 0 ",
            "1 0 18446744073709551616 1 1 1 1",
            "1 0 1.5 1 1 1 1",
            "1\t0",
            "1 0 1 2 3 4 5 6",
        )
    ]
    for wrong, told in cases:
        for text in f"{good}{wrong}\n", f"{good}{wrong}\n{good}":
            status, output, fault = answered(programs.scheduler, text)
            expect((status, output, fault) == (1, "", f"precopy-schedule: {told}\n"), f"{wrong!r}: {fault!r}")
    for text, told in ((b"", "there is no plan"), (b"\xff", "the table is no text")):
        expect(answered(programs.scheduler, text) == (1, "", f"precopy-schedule: {told}\n"), f"{text!r}")
    for text in "+1 0\n", "01 0", "1 0\r\n":
        expect(answered(programs.scheduler, text)[:2] == (0, "time 0 bytes 0 downtime 0 kept\nbest 0\n"), f"{text!r}")


def a_lost_reader(programs: Programs, _: str) -> None:
    """An answer that cannot be written is told, with status 1."""
    with open("/dev/full", "wb") as full:
        done = run([programs.scheduler], b"1 0\n", stdout=full)
    expect((done.status, done.faults) == (1, b"precopy-schedule: write\n"), f"{done.faults!r}")


# ---- Records.


def random_guest(draw: random.Random) -> model.Guest:
    """A guest with a hot set, of which all pages or a part were drawn."""
    pages, first = draw.randrange(1, 400), 1000
    last = first + draw.randrange(200, 4000)
    sampled = pages + draw.choice([0, draw.randrange(400)])
    hot = range(max(1, pages // draw.choice([2, 8, 32])))
    count = draw.randrange(0, 600)
    written = sorted((draw.randrange(first, last + 1), draw.choice(hot)) for _ in range(count))
    return model.Guest(pages, sampled, sampled * draw.randrange(1, 200), first, last, written)


def write_record(folder: str, name: str, guest: model.Guest, **changed) -> str:
    """A light trace of drawn pages, with its NAME.json. All pages of the trace are not zero."""
    path = os.path.join(folder, f"{name}.light.pcwt")
    with traces.Writer(path) as writer:
        writer.append([(0, page, 0, b"\x01") for page in range(guest.pages)])
        writer.append([(at, page, 0, b"\x01") for at, page in guest.writes])
        writer.finish(12, guest.pages)
    text = read_bytes(path)
    fields = {
        "format": samples.FORMAT,
        "trace_sha256": samples.digest(text),
        "trace_pages": guest.pages,
        "trace_writes": guest.pages + len(guest.writes),
        "first_tick": guest.first,
        "last_tick": guest.last,
        "tick_seconds": 0.001,
        "interval_seconds": 0.1,
        "guest_pages": guest.guest,
        "guest_nonzero": guest.pages * (guest.guest // guest.sampled),
        "counted_pages": guest.sampled,
        "sampled_pages": guest.sampled,
        "sampled_nonzero": guest.pages,
        "seed": 1,
        "method": "writes",
        "samples": 10,
        "late": 0,
        "taken_at": "2026-11-27T05:00:00+00:00",
        "taken_of": f"domain {name}",
        **changed,
    }
    write_file(json.dumps(fields), samples.path_beside(path))
    return path


def random_costs(programs: Programs, folder: str) -> None:
    """The costs of each guest at each share, and the range over starts, are those of a plain planner, by both plans."""
    compared = 0
    for draw in drawn("records of guests", range(SETS)):
        guests = [random_guest(draw) for _ in range(draw.randrange(1, 4))]
        link, downtime = draw.choice([1, 4, 16, 64, 1000]) * (1 << 20), draw.choice([0.01, 0.1, 0.3, 0.335, 2.0])
        pace, numbers = draw.choice([None, Pace()]), schedules.numbers_up_to(len(guests))
        asked = host_costs.Asked(programs.view, float(link), numbers, 0.001, pace)
        for place, guest in enumerate(guests):
            path = write_record(folder, f"guest{place}", guest)
            base = draw.choice([None, None, 0, draw.randint(0, guest.first)])
            told = host_costs.guest_of(path, asked, host_costs.Wanted(downtime, base=base))
            for at_once in asked.numbers:
                wanted = model.costs(guest, link / at_once, round(1e6 * downtime), base, Manner(plan_of(pace)))
                cost = told.costs.get(at_once)
                compared += wanted is not None
                where = f"{guest._replace(writes=[])}, {base}, {at_once} at once by {plan_of(pace)}"
                expect((cost and cost[2:10]) == wanted, f"{where}: {cost} in place of {wanted}")
    expect(compared > SETS, f"only {compared} costs were compared")


# ---- The tool.


def run_tool(programs: Programs, *words: str, status: int = 0) -> tuple[str, str]:
    command = [EVACUATE, "--program", programs.view, "--scheduler", programs.scheduler, *words]
    done = run(command)
    expect(done.status == status, f"{words}: {done.ended()}, {done.output[-300:]!r}, {done.faults!r}")
    return done.output.decode(), done.faults.decode()


def steady_guest(pages: int, hot: int, seconds: int = 60) -> model.Guest:
    """A guest that writes its hot pages in turn, one each 10 ms, and is recorded as long as its migration takes."""
    written = [(1000 + 10 * number, number % hot) for number in range(100 * seconds)] if hot else []
    return model.Guest(pages, pages, pages, 1000, 1000 + 1000 * seconds, written)


def four_guests(folder: str) -> list[str]:
    sizes = {"web": (4096, 10), "db": (16384, 40), "idle": (8192, 0), "cache": (12288, 20)}
    return [write_record(folder, name, steady_guest(*size)) for name, size in sizes.items()]


def expected_schedules(told: dict, groups: dict[str, int], deadline: int) -> list[tuple]:
    """What the model makes of the costs that a document tells."""
    costs = {guest["name"]: {cost["at_once"]: cost for cost in guest["costs"]} for guest in told["guests"]}
    found = []
    for schedule in told["schedules"]:
        moves = [
            model.Move(
                round(1e6 * cost["time_seconds"]),
                cost["sent_bytes"],
                round(1e6 * cost["down_seconds"]),
                int(cost["kept"]),
                groups.get(name, 0),
            )
            for name, cost in ((name, costs[name][schedule["at_once"]]) for name in schedule["guests"])
        ]
        rows = model.placed(schedule["at_once"], moves)
        found.append((model.cost(deadline, moves, rows), rows))
    return found


def document_of(folder: str) -> dict:
    told = read_json(folder, "told.json")
    keeps_schema("evacuation", told)
    return told


def micros(seconds: float) -> int:
    return round(1e6 * seconds)


def whole_runs(programs: Programs, folder: str) -> None:
    """Each schedule, the best of them and its moves are those of the model; the table tells the same."""
    for clark in False, True:
        whole_run(programs, folder, ["--clark"] * clark)


def whole_run(programs: Programs, folder: str, plan: list[str]) -> None:
    records = four_guests(folder)
    write_file(
        json.dumps({"apart": [["web", "cache"]], "guests": {"db": {"downtime": "200ms", "domain": "db one"}}}),
        f"{folder}/settings.json",
    )
    text, fault = run_tool(
        programs,
        *records,
        "--link",
        LINK,
        "--json",
        f"{folder}/told.json",
        "--settings",
        f"{folder}/settings.json",
        "--picture",
        f"{folder}/host.svg",
        "--to",
        "qemu+ssh://b/system",
        *plan,
    )
    expect(fault == "", fault)
    told = document_of(folder)
    is_by_rounds = bool(plan)
    expect((told["plan"] == "rounds", "; by Clark's rounds\n" in text) == (is_by_rounds, is_by_rounds), text)
    expected = expected_schedules(told, {"web": 1, "cache": 1}, 0)
    for schedule, (cost, _) in zip(told["schedules"], expected, strict=True):
        found = (
            int(not schedule["kept"]),
            micros(schedule["time_seconds"]),
            schedule["sent_bytes"],
            micros(schedule["down_seconds"]),
        )
        expect(found == cost, f"{schedule}: {found} in place of {cost}")
    best = min(range(len(expected)), key=lambda number: expected[number][0][:3])
    expect(told["best"]["schedule"] == best, f"best is {told['best']['schedule']} in place of {best}")
    moves = told["best"]["moves"]
    rows = [(micros(move["start_seconds"]), micros(move["end_seconds"]), move["slot"]) for move in moves]
    expect(rows == expected[best][1], f"{rows} in place of {expected[best][1]}")
    expect({schedule["at_once"] for schedule in told["schedules"]} == {1, 2, 4}, "other numbers at once")
    expect(text.count("<- best") == 1 and re.search(r"^    move \d 0 'db one' 200 ", text, re.M), text)
    expect_waits(text, told)
    expect_like_qemu(text, told)
    lines = [line.removesuffix(" &&") for line in text.splitlines() if line.startswith("    move ")]
    expect(len(lines) == 4 and all(line.endswith("qemu+ssh://b/system") for line in lines), f"{lines}")
    expect_picture(f"{folder}/host.svg", told)
    picture = read_text(f"{folder}/host.svg")
    expect(("lines end rounds" in picture) == is_by_rounds, "the picture speaks of rounds, or does not")
    expect(is_by_rounds or 'class="round"' not in picture, "a plan of looks has rounds in the picture")


def expect_waits(text: str, told: dict) -> None:
    """Each guest begins at once, or when one has moved that ends just then: that of its slot, if it does."""
    moves = {move["guest"]: move for move in told["best"]["moves"]}
    waits = re.findall(r"^    # (\w+): (?:at once|when (\w+) has moved, after about ([\d.]+ \w+))$", text, re.M)
    expect(sorted(name for name, _, _ in waits) == sorted(moves), f"{waits}")
    for name, before, after in waits:
        start = moves[name]["start_seconds"]
        expect(bool(before) == bool(start), f"{name} begins at {start}, after {before!r}")
        if before:
            slot_ends = [move["end_seconds"] for move in moves.values() if move["slot"] == moves[name]["slot"]]
            is_of_slot = moves[before]["slot"] == moves[name]["slot"]
            is_then = moves[before]["end_seconds"] == start and after == time_text(round(1e6 * start))
            expect(is_then, f"{name} after {before}")
            expect(is_of_slot or start not in slot_ends, f"{name} waits for its slot, and not for {before}")


def like_qemu_words(found: dict) -> str:
    if "left_bytes" in found:
        return f"the recording ends first, left {size_text(found['left_bytes'])}"
    time, down = (time_text(micros(found[name])) for name in ("time_seconds", "down_seconds"))
    return f"time {time}, sent {size_text(found['sent_bytes'])}, downtime {down}"


def expect_like_qemu(text: str, told: dict) -> None:
    """What each guest of the schedule comes to like QEMU is told in its order, as the document has it: of plans of
    looks nothing, since all end within their records."""
    at_once = told["schedules"][told["best"]["schedule"]]["at_once"]
    costs = {guest["name"]: cost for guest in told["guests"] for cost in guest["costs"] if cost["at_once"] == at_once}
    known = [it["guest"] for it in told["best"]["moves"] if "like_qemu" in costs[it["guest"]]]
    expect(len(known) == (len(costs) if told["plan"] == "rounds" else 0), f"like QEMU: {known}")
    wanted = [(name, like_qemu_words(costs[name]["like_qemu"])) for name in known]
    found = re.findall(r"^(\w+) +like QEMU: (.*)$", text, re.M)
    expect(found == wanted, f"like QEMU: {found} in place of {wanted}")


def expect_picture(path: str, told: dict) -> None:
    """A bar a guest, where its times are; none beyond the picture."""
    root = xml.etree.ElementTree.parse(path).getroot()
    width, groups = float(root.get("width")), root.findall(f"{SVG}g")
    expect(len(groups) == len(told["best"]["moves"]), f"{len(groups)} bars")
    end = max(move["end_seconds"] for move in told["best"]["moves"])
    for group, move in zip(groups, told["best"]["moves"]):
        bar, down = group.findall(f"{SVG}rect")
        begin, long = float(bar.get("x")), float(bar.get("width"))
        expect(abs(begin - 170 - 640 * move["start_seconds"] / end) < 0.1, f"{move}: begins at {begin}")
        expect(abs(begin + long - 170 - 640 * move["end_seconds"] / end) < 0.2, f"{move}: ends at {begin + long}")
        expect(float(down.get("x")) + float(down.get("width")) <= width, "a downtime beyond the picture")
        expect((bar.get("class"), down.get("class")) == ("moving", "down"), f"{move}: is drawn as {bar.get('class')}")
        expect(move["guest"] in group.find(f"{SVG}title").text, "another title")


def deadlines(programs: Programs, folder: str) -> None:
    """A deadline that no schedule keeps gives status 3, and one that some keep status 0; QMP lines tell the rate."""
    records = four_guests(folder)
    picture = f"{folder}/host.svg"
    written = ["--picture", picture, "--json", f"{folder}/told.json"]
    text, fault = run_tool(programs, *records, "--link", LINK, "--deadline", "1s", *written, status=3)
    expect("missed: the deadline  <- best" in text, text)
    line = xml.etree.ElementTree.parse(picture).getroot().find(f"{SVG}line[@class='limit']")
    expect(abs(float(line.get("x1")) - 170 - 640 * 1.0 / 2.5) < 1, f"the deadline is at {line.get('x1')}")
    shortest = min(schedule["time_seconds"] for schedule in document_of(folder)["schedules"])
    told = f"no schedule ends within 1.000 s: the shortest takes {time_text(round(1e6 * shortest))}\n"
    expect(abs(shortest - 2.5) < 0.05 and told in fault, fault)
    text, _ = run_tool(programs, *records, "--link", LINK, "--deadline", "20m", "--at-once", "2", "--lines", "qmp")
    expect('"max-bandwidth": 33554432, "downtime-limit": 300' in text and "kept  <- best" in text, text)
    expect(not re.search(r"^ +[14]  ", text, re.M), "another number at once")


def refusals(programs: Programs, folder: str) -> None:
    """What the tool refuses, by words and status; what is right is planned beside a record that is not."""
    web, db, *_ = four_guests(folder)
    link = ["--link", LINK]
    with open(f"{folder}/old.light.pcwt", "wb") as file, open(web, "rb") as good:
        file.write(b"PCWU" + good.read()[4:])
    for name, other in (("web.20261127T030000Z", db), ("twin", web)):
        for suffix in "pcwt", "json":
            with open(other[:-4] + suffix, "rb") as old, open(f"{folder}/{name}.light.{suffix}", "wb") as new:
                new.write(old.read())
    text, fault = run_tool(programs, web, f"{folder}/old.light.pcwt", db, *link, status=1)
    expect("old.light.pcwt: E2: it does not begin with PCWT" in fault and "2 guests" in text, f"{fault!r} {text!r}")
    expect(not re.search(r"^ +3  ", text, re.M), f"three at once of two guests: {text!r}")
    twice = "two records of one guest"
    for second, told in (("web.20261127T030000Z", f"{twice}: web"), ("twin", twice)):
        _, fault = run_tool(programs, web, f"{folder}/{second}.light.pcwt", *link, status=1)
        expect(told in fault, fault)
    _, fault = run_tool(programs, f"{folder}/none.light.pcwt", *link, status=1)
    expect("none.light.pcwt: No such file" in fault and "no guest to schedule" in fault, fault)
    for name in b"a\nb.light.pcwt", b"\xff.light.pcwt", b".light.pcwt":
        path = os.path.join(os.fsencode(folder), name)
        with open(path, "wb") as new, open(db, "rb") as old:
            new.write(old.read())
        text, fault = run_tool(programs, web, os.fsdecode(path), *link, status=1)
        expect("the name of its guest is empty, or cannot be printed" in fault and "1 guest;" in text, f"{fault!r}")
    os.unlink(f"{folder}/twin.light.json")
    _, fault = run_tool(programs, web, f"{folder}/twin.light.pcwt", *link, status=1)
    expect("there is no" in fault and "twin.light.json beside it" in fault, fault)
    fast = model.Guest(2000, 2000, 2000, 1000, 10_000, [(1000 + n // 20, n % 2000) for n in range(180_000)])
    for plan, why in (["--clark"], "downtime"), ([], "the migration does not end"):
        words = [web, write_record(folder, "fast", fast), *link, "--downtime", "50ms", *plan]
        text, fault = run_tool(programs, *words, status=3)
        expect(f"fast converges at no share; with 0.537 Gbit/s: {why}" in fault, fault)
        expect("missed: fast" in text and "1 at once, no convergence: fast\n" in text, text)
    short = write_record(folder, "short", model.Guest(9000, 9000, 9000, 1000, 1010, [(1005, 3)]))
    text, fault = run_tool(programs, web, short, *link, status=4)
    expect("unknown: short  <- best" in text and "1 at once, records too short: short\n" in text, text)
    run_tool(programs, web, short, *link, "--deadline", "10ms", status=3)
    expect("short keeps its limits at no share" in fault and "the recording ends before the migration" in fault, fault)
    _, fault = run_tool(programs, web, "--link", "0.01KB", status=3)
    expect("web has no plan at any share" in fault, fault)


def settings(programs: Programs, folder: str) -> None:
    """Settings that are none are refused by name; limits, a reserve and a copy change what they should."""
    web, db, *_ = four_guests(folder)
    path = f"{folder}/settings.json"

    def with_settings(fields: object, status: int) -> tuple[str, str]:
        write_file(fields if isinstance(fields, str) else json.dumps(fields), path)
        return run_tool(
            programs, web, db, "--link", LINK, "--settings", path, "--json", f"{folder}/told.json", status=status
        )

    for fields, told in (
        ("{", "is no JSON"),
        ("[" * 100_000, "is no JSON"),
        ("[]", "is no JSON object"),
        ({"reserv": "1Gbit"}, "there is no setting reserv"),
        ({"reserve": "1Gbit"}, "the reserve leaves nothing of the link"),
        ({"apart": [["web"]]}, "apart is no list of lists"),
        ({"apart": [["web", "web"]]}, "web stands there twice"),
        ({"apart": [["web", "mail"]]}, "there is no record of the guest mail"),
        ({"guests": []}, "guests is no JSON"),
        ({"guests": {"mail": {}}}, "there is no record of the guest mail"),
        ({"guests": {"web": {"size": 1}}}, "web: there is no setting size"),
        ({"guests": {"web": {"downtime": "1"}}}, "web: downtime"),
        ({"guests": {"web": {"copy": -1}}}, "web: copy"),
        ({"guests": {"web": {"domain": ""}}}, "web: domain"),
        ({"guests": {"web": {"time": 3}}}, "web: time"),
        ({"guests": {"web": {"copy": 1001}}}, "web.light.pcwt: a copy of tick 1,001 is newer than the"),
    ):
        _, fault = with_settings(fields, 1)
        expect(told in fault, f"{fields}: {fault!r}")
    with_settings({}, 0)
    cold = document_of(folder)["guests"][0]["costs"][0]
    with_settings({"guests": {"web": {"copy": 1}}}, 0)
    warm = document_of(folder)["guests"][0]["costs"][0]
    expect(warm["sent_bytes"] < cold["sent_bytes"] / 2, f"{warm} after {cold}")
    with_settings({"reserve": "32MiB"}, 0)
    half = document_of(folder)["guests"][0]["costs"][0]
    expect(half["link_bytes_per_second"] == RATE / 2 and half["time_seconds"] > 1.9 * cold["time_seconds"], f"{half}")
    text, fault = with_settings({"guests": {"db": {"time": "100ms"}}}, 3)
    least = min(cost["time_seconds"] for cost in document_of(folder)["guests"][1]["costs"])
    told = f"time {time_text(round(1e6 * least))} over 100 ms"
    expect("db keeps its limits at no share" in fault and abs(least - 1) < 0.05 and told in fault, fault)
    with_settings({"guests": {"db": {"link": "16MiB"}}}, 0)
    expect(document_of(folder)["guests"][1]["costs"][0]["link_bytes_per_second"] == RATE / 4, "its own link")


def costs_of_other_hosts(programs: Programs, folder: str) -> None:
    """Lines of costs give what the records give. Costs of another link or plan, or of other limits are refused."""
    records = four_guests(folder)
    words = ["--link", LINK, "--at-once", "1,2"]
    table, _ = run_tool(programs, *records, *words)
    for number, some in enumerate((records[:1], records[1:])):
        lines, _ = run_tool(programs, *some, *words, "--costs")
        write_file(lines, f"{folder}/{number}.jsonl")
    files = [f"{folder}/0.jsonl", f"{folder}/1.jsonl"]
    again, _ = run_tool(programs, *files, *words)
    expect(again == table, f"{again!r} in place of {table!r}")
    for others, told in (
        (["--link", "32MiB", "--at-once", "1,2"], "its link is"),
        (["--link", LINK, "--at-once", "4"], "no costs with 4"),
        ([*words, "--downtime", "100ms"], "the limits of web were other ones"),
        ([*words, "--clark"], "its plans go by looks, and not by rounds"),
    ):
        _, fault = run_tool(programs, *files, *others, status=1)
        expect(told in fault, fault)
    damaged_lines(programs, folder, records, words)


def damaged_lines(programs: Programs, folder: str, records: list[str], words: list[str]) -> None:
    """A line that is damaged is named, and the guests of all others are planned."""
    lines, _ = run_tool(programs, *records, *words, "--jobs", "1", "--costs")
    good, *others = lines.splitlines()
    fields = json.loads(good)

    def with_cost(**changed: object) -> str:
        first, *rest = fields["costs"]
        return json.dumps({**fields, "costs": [{**first, **changed}, *rest]})

    for wrong, told in (
        (json.dumps({**fields, "format": "precopy costs 1"}), "has no costs of a guest"),
        (good[: len(good) // 2], "is no JSON"),
        ("[" * 100_000, "is no JSON"),
        ("[]", "has no costs"),
        (with_cost(time="1"), "time is '1'"),
        (with_cost(sent=-1), "sent is -1"),
        (with_cost(kept=1), "kept is 1"),
        (with_cost(more=1), "more"),
        (with_cost(share=1e999), "share is inf"),
        (with_cost(downtime=1 << 64), "downtime is"),
        (with_cost(converges="so"), "converges is 'so'"),
        (json.dumps({**fields, "name": 1}), "name"),
        (json.dumps({**fields, "name": "a\nb"}), "name"),
    ):
        write_file("\n".join([others[0], wrong, *others[1:], ""]), f"{folder}/some.jsonl")
        text, fault = run_tool(programs, f"{folder}/some.jsonl", *words, status=1)
        expect("some.jsonl: line 2 " in fault and told in fault and "3 guests" in text, f"{wrong[:80]}: {fault!r}")


def refused_words(programs: Programs, folder: str) -> None:
    web, *_ = four_guests(folder)
    link = ["--link", LINK]
    for words in (
        ["--link", "fast"],
        [],
        [*link, "--at-once", "0"],
        [*link, "--downtime", "300"],
        [*link, "--costs"],
        [*link, "--lines", "ssh"],
        [*link, "--program", "none"],
        [*link, "--clark", "--rounds", "65"],
    ):
        run_tool(programs, web, *words, status=2)
    for option in (["--first", "1MiB"], ["--inc", "5"], ["--rounds", "5"], ["--skip"]):
        _, fault = run_tool(programs, web, *link, *option, status=2)
        expect(fault.endswith(f"error: {NEEDED}\n"), fault)
        run_tool(programs, web, *link, *option, "--clark")


def a_hundred_guests(programs: Programs, folder: str) -> None:
    """The answer is there within 5 seconds; or, if other work is in the way, within 5 seconds of a processor."""
    draw = draws("a hundred guests")
    guests = [steady_guest(draw.randrange(1000, 4000), draw.randrange(1, 50), 30) for _ in range(GUESTS)]
    records = [write_record(folder, f"guest{number:03}", guest) for number, guest in enumerate(guests)]
    before, began = spent(), time.monotonic()
    text, _ = run_tool(programs, *records, "--link", "10Gbit")
    took, processor = time.monotonic() - began, spent() - before
    print(f"  {GUESTS} guests: {took:.1f} s, {processor:.1f} s of a processor", flush=True)
    expect(f"{GUESTS} guests" in text, text)
    expect_in_time(min(took, processor) <= LIMIT, f"{GUESTS} guests took {took:.1f} s")


def spent() -> float:
    """Seconds of processors that all children have taken."""
    used = resource.getrusage(resource.RUSAGE_CHILDREN)
    return used.ru_utime + used.ru_stime


CASES = cases_of(__name__)
