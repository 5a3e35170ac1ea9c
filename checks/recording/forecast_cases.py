"""Cases of checks/recording: NAME.json beside a trace, tools/thin and tools/predict."""

import datetime
import json
import os
import random
import re
import statistics
import subprocess
import xml.etree.ElementTree
from concurrent.futures import ThreadPoolExecutor

from checks.lib import harness
from checks.lib.amount_texts import size_text
from checks.lib.harness import cases_of, expect
from checks.recording.recorder_runs import SECONDS, TOP
from precopy_dev.files import read_bytes, read_json, read_text, write_file
from precopy_tools import places, refusals
from precopy_tools.convert import thin
from precopy_tools.formats import samples, traces
from precopy_tools.predict import clark, day_chart, forecast, plans
from precopy_tools.predict.texts import CONVERGES

# The built precopy-view, by which tools/predict plans.
VIEW = [places.program("precopy-view")]
THIN, PREDICT = (os.path.join(TOP, "tools", name) for name in ("thin", "predict"))
RECORDED = os.path.join(TOP, "examples", "guests", "mid.light.pcwt")
LINK = ["--link", "32MiB", "--downtime", "100ms"]
SEEDS, ONE_IN = 200, 16
AT_ONCE = 2


def run_thin(*words, status=0):
    return run(THIN, *words, status=status)


def run_predict(*words, status=0):
    return run(PREDICT, *words, "--program", VIEW[0], status=status)


def run(tool, *words, status=0):
    done = subprocess.run([tool, *words], capture_output=True, text=True, timeout=12 * SECONDS)
    is_wanted = status is None or done.returncode == status
    expect(is_wanted, f"{words}: status {done.returncode}, {done.stdout!r}, {done.stderr!r}")
    return done.stdout, done.stderr


def read_trace(path):
    return traces.read(read_bytes(path))


def made_trace(path, pages=4096, ticks=8000, rate=2):
    """A trace as tools/record makes them: all pages at tick 0, then writes, mostly to hot pages that lie together."""
    draws = random.Random("a trace, not a draw of its pages")
    with traces.Writer(path) as writer:
        writer.append([(0, page, 0, b"\x01") for page in range(pages)])
        hot = range(pages // 2, pages // 2 + pages // 16)
        chosen = (draws.choice(hot) if draws.random() < 0.8 else draws.randrange(pages) for _ in range(ticks * rate))
        writer.append([(1000 + number // rate, page, 0, b"\x01") for number, page in enumerate(chosen)])
        writer.finish(12, pages)


def damaged(fields, trace_pages):
    """Values that a field must not have: of another kind, out of its range, or not those of this trace."""
    wrong = [None, [], {}, True, "", "x", -1, 1.5, 1 << 60, float("nan")]
    at = {
        "format": ["precopy sample 2"],
        "trace_sha256": ["0" * 64, fields["trace_sha256"].upper()],
        "trace_pages": [0, trace_pages + 1],
        "trace_writes": [fields["trace_writes"] + 1],
        "first_tick": [fields["last_tick"] + 1],
        "last_tick": [0, fields["first_tick"]],
        "tick_seconds": [0, 2e9],
        "interval_seconds": [0, fields["tick_seconds"] / 2],
        "guest_pages": [0, fields["sampled_pages"] - 1],
        "guest_nonzero": [fields["sampled_nonzero"] - 1, fields["guest_pages"] + 1],
        "counted_pages": [0, fields["sampled_pages"] - 1, fields["guest_pages"] + 1],
        "sampled_pages": [0, trace_pages - 1, fields["guest_pages"] + 1],
        "sampled_nonzero": [fields["sampled_nonzero"] - 1, fields["sampled_nonzero"] + 1],
        "method": ["magic"],
        "samples": [0, fields["last_tick"] + 2],
        "late": [fields["samples"] + 1],
        "taken_at": ["2026-11-26", "yesterday"],
    }
    kept = {"tick_seconds": (1.5,), "interval_seconds": (1.5,), "taken_of": ("x",)}
    for name in fields:
        for value in [*wrong, *at.get(name, [])]:
            if value not in kept.get(name, ()) or isinstance(value, bool):
                yield name, value


def damaged_fields(_, folder):
    """Each field that is missing, of another kind, out of its range or not of this trace is refused by its name."""
    path = os.path.join(folder, "guest.pcwt")
    beside = samples.path_beside(path)
    made_trace(os.path.join(folder, "whole.pcwt"))
    run_thin(os.path.join(folder, "whole.pcwt"), path, "--one-in", "4", "--start", "1000")
    fields = read_json(beside)
    fields.update(method="values", counted_pages=4000, samples=80)
    trace = read_trace(path)
    written = [record[:2] for record in trace.records()]

    def refusal(text):
        write_file(text, beside)
        try:
            samples.read(path, trace, written)
        except refusals.Refused as refused:
            return str(refused)
        return ""

    expect(refusal(json.dumps(fields)) == "", "the file as it should be is refused")
    count = 0
    for name, value in damaged(fields, trace.pages):
        count += 1
        expect(name in refusal(json.dumps({**fields, name: value})), f"{name} = {value!r} is not refused by its name")
    for name in fields:
        said = refusal(json.dumps({other: fields[other] for other in fields if other != name}))
        expect(f"{name} is missing" in said, f"without {name}: {said!r}")
    for text, said in (
        ("", "no JSON"),
        ("[1]", "no JSON object"),
        ('{"a": 1}', "no field a"),
        ("{", "no JSON"),
        ("[" * 100_000, "no JSON"),
    ):
        expect(said in refusal(text), f"{text!r} is not refused")
    expect(count > 180, f"{count} damages")


def damaged_beside_tools(_, folder):
    """All readers refuse it, and write nothing."""
    whole, path, other = (os.path.join(folder, name) for name in ("whole.pcwt", "guest.pcwt", "other.pcwt"))
    made_trace(whole)
    run_thin(whole, path, "--one-in", "4", "--start", "1000")
    beside = samples.path_beside(path)
    text = read_text(beside)
    write_file(text.replace('"seed": 0', '"seed": -1'), beside)
    for tool, words in ((run_predict, [path, *LINK]), (run_thin, [path, other, "--one-in", "2"])):
        printed, refused = tool(*words, status=1)
        expect(not printed and "seed is not a number" in refused, refused)
    os.unlink(beside)
    printed, refused = run_predict(path, *LINK, status=1)
    expect(not printed and "there is no" in refused and "guest.json" in refused, refused)
    expect(not os.path.exists(other), "a trace was written")


def refused_traces(_, folder):
    """A trace that is damaged at random is refused by file, name and cause, or it has another SHA-256."""
    path = os.path.join(folder, "guest.pcwt")
    made_trace(os.path.join(folder, "whole.pcwt"), pages=64, ticks=200)
    run_thin(os.path.join(folder, "whole.pcwt"), path, "--one-in", "1", "--start", "1000")
    text = read_bytes(path)
    names = set()
    for draws in harness.drawn("damaged records", range(60)):
        damaged = bytearray(text)
        for _ in range(draws.randrange(1, 3)):
            damaged[draws.choice((draws.randrange(16), draws.randrange(len(text))))] ^= draws.randrange(1, 256)
        damaged = damaged[: draws.choice((len(text), draws.randrange(len(text)), len(text)))] + b"x" * (
            draws.number % 5 == 4
        )
        write_file(damaged, path)
        printed, refused = run_predict(path, *LINK, status=1)
        name = re.match(rf"predict: {re.escape(path)}: (E\d+)(?: record \d+)?: \w", refused)
        expect(not printed and (name or "trace_sha256" in refused or "does not fit" in refused), refused)
        expect(refused.count("\n") == 1, refused)
        names.add(name and name[1])
    expect(len(names) > 6, f"{names}")


def thinned_pages(_, folder):
    """A thinned trace has the writes of the drawn pages, with their bytes, and can be thinned again."""
    whole, path, again = (os.path.join(folder, f"{name}.pcwt") for name in ("whole", "part", "less"))
    text = os.path.join(folder, "text")
    with open(text, "w", encoding="ascii") as file:
        file.write("pages 64 size 4096 version 2\n")
        for tick in range(400):
            page = tick * 7 % 64
            file.write(f"{tick} {page} release\n" if tick % 9 == 8 else f"{tick} {page} {tick} {tick % 250 + 1:02x}\n")
    run(os.path.join(TOP, "tools", "import"), text, whole)
    run_thin(whole, path, "--one-in", "4", "--seed", "3", "--tick", "2ms")
    numbers = {page: number for number, page in enumerate(samples.draw(64, 16, 3))}
    wanted = [(t, numbers[p], o, d) for t, p, o, d in read_trace(whole).records() if p in numbers]
    trace = read_trace(path)
    records = list(trace.records())
    expect(records == wanted and trace.version == 2 and trace.pages == 16, "other writes than those of the pages drawn")
    sample = samples.read(path, trace, [record[:2] for record in records])
    expect((sample.weight, sample.tick_seconds, sample.seed, sample.method) == (4, 0.002, 3, "trace"), f"{sample}")
    run_thin(path, again, "--one-in", "4", "--seed", "1")
    less = read_trace(again)
    sample = samples.read(again, less, [record[:2] for record in less.records()])
    expect((sample.weight, less.pages, sample.guest_pages) == (16, 4, 64), f"{sample}")
    for words, status, said in (
        ([whole, os.path.join(folder, "a.light.pcwt"), "--one-in", "2"], 2, ".light.pcwt"),
        ([whole, os.path.join(folder, "a.pcwt")], 2, "--one-in"),
        ([whole, os.path.join(folder, "none", "a.pcwt"), "--one-in", "2"], 1, "No such file"),
        ([text, os.path.join(folder, "a.pcwt"), "--one-in", "2"], 1, f"{text}: E2: it does not begin with PCWT"),
        (["/dev/zero", os.path.join(folder, "a.pcwt"), "--one-in", "2"], 1, "/dev/zero: E15: it has more than 2^28 "),
    ):
        _, refused = run_thin(*words, status=status)
        expect(said in refused, refused)
    left = sorted(os.listdir(folder))
    expect(left == ["less.json", "less.pcwt", "part.json", "part.pcwt", "text", "whole.pcwt"], f"left: {left}")


def answers_in(printed):
    """Whether a migration converges and keeps its limit, as lines tell it."""
    found = (re.search(rf"^{words}(\w+)", printed, re.M) for words in ("converges: ", "downtime: .* kept: "))
    return [it[1] if it else "unknown" for it in found]


def over_shares(path):
    """An answer over a range of the link is that of both its ends, or uncertain, or unknown if one of them is."""
    statuses, verdicts = {"yes": 0, "no": 3, "unknown": 4, "uncertain": 5}, set()
    for link, low in ((32 << 10, 0.5), (32 << 10, 1.0), (4 << 10, 0.25), (1 << 10, 0.1)):
        low_end, whole = (
            answers_in(run_predict(path, "--link", f"{int(link * share)}KiB", "--downtime", "100ms", status=None)[0])
            for share in (low, 1.0)
        )
        converges, kept = (
            a if a == b else "unknown" if "unknown" in (a, b) else "uncertain" for a, b in zip(low_end, whole)
        )
        words = ["--link", f"{link}KiB", "--downtime", "100ms", "--reached", f"{low:g}..1"]
        printed, _ = run_predict(path, *words, status=statuses[kept])
        expect(f"\nat all that may be reached: converges: {converges}, kept: {kept}\n" in printed, printed)
        verdicts.add(kept)
    expect(len(verdicts) > 1, f"each range has the same answer: {verdicts}")
    for word, said in (("1..0.5", "the lower one first"), ("0.85", "two points"), ("0..1", "above 0")):
        _, faults = run_predict(path, "--link", "1GiB", "--reached", word, status=2)
        expect(said in faults, faults)


def predicted(_, folder):
    """The status says whether the limit is kept. What the lines say of a migration is tested by checks/predictions."""
    path = os.path.join(folder, "guest.light.pcwt")
    run_thin(RECORDED, path, "--one-in", "4", "--start", "1000")
    # By Clark's rounds all redraws keep the limit, but two standard errors more of the downtime do not. By looks the
    # record ends before redraws do that have a tenth less of 32 MiB.
    rows = ([], 40, "yes", 0, "looks"), (["--clark"], 32, "uncertain", 5, "rounds")
    for plan, link, kept, status, steps in rows:
        words = ["--link", f"{link}MiB", *LINK[2:], *plan]
        printed, _ = run_predict(path, *words, status=status)
        expect(re.search(rf"^converges: yes, .*; {steps}: \d+$", printed, re.M), printed)
        expect("at half the link: " in printed and ("like QEMU" in printed) == bool(plan), printed)
        expect(f"kept: {kept}, in 20 of 20 redraws" in printed, printed)
        limits = ["downtime-limit 100", "setmaxdowntime DOMAIN 100"]
        hosts = [f"max-bandwidth {link << 20}B", f"setspeed DOMAIN {link}", *limits]
        expect(all(f"{host}\n" in printed for host in hosts) and "precopy live" not in printed, printed)
        again, _ = run_predict(path, *words, status=status)
        expect(again == printed, "the same words print other lines")
    printed, _ = run_predict(path, *LINK, status=5)
    expect("kept: uncertain, in 0 of 20 redraws" in printed, printed)
    over_shares(path)
    busy, part = os.path.join(folder, "busy.pcwt"), os.path.join(folder, "part.pcwt")
    made_trace(busy, rate=12)
    run_thin(busy, part, "--one-in", "2", "--start", "1000")
    for plan in [], ["--clark"]:
        expect_statuses(path, part, plan)
    for option in (["--first", "1MiB"], ["--inc", "5"], ["--rounds", "5"], ["--skip"]):
        _, refused = run_predict(path, *LINK, *option, status=2)
        expect(refused.endswith(f"error: {clark.NEEDED}\n"), refused)
        run_predict(path, *LINK, *option, "--clark", status=None)


def expect_statuses(path, part, plan):
    """What is told of two records by one plan, with what status."""
    for name, words, status, said in (
        (part, ["--link", "16MiB", "--downtime", "10ms"], 3, "converges: no"),
        (part, ["--link", "64MiB", "--downtime", "3ms"], 0, "decided the stop"),
        (part, ["--link", "64MiB", "--downtime", "9s"], 0, "converges: yes"),
        (path, ["--link", "100Mbit", "--downtime", "2s"], 4, "converges: unknown"),
        (
            path,
            ["--link", "32MiB", "--downtime", "100ms", "--start", "1h"],
            1,
            "is after the end of the recording, which has 5.591 s",
        ),
        (path, ["--link", "1Kbit"], 1, "too slow for this sample"),
        (path, ["--link", "128Gbit"], 0, "at twice the link: no plan"),
        (path, ["--link", "1"], 2, "Kbit, Mbit, Gbit"),
    ):
        printed, refused = run_predict(name, *words, *plan, status=status)
        expect(said in printed + refused, printed + refused)
        is_cut = "a plan takes no longer limit than that: 65,535 pages of the sample" in printed
        expect(is_cut == ("9s" in words or "128Gbit" in words), printed)
        expect(("\nQEMU: " in printed) == (status not in (1, 2) and not is_cut), printed)


def converted(_, folder):
    """The trace that is planned: from the first look on, with a write at the last, in longer ticks."""
    path = os.path.join(folder, "guest.light.pcwt")
    found = [(0, page) for page in range(3)]
    later = [(1000, 2), (1003, 2), (1004, 1), (1004, 1), (1012, 1), (1019, 0)]
    numbers, told = (3, 9, 1000, 1050, 0.001, 0.1, 900, 30, 90, 30, 3, 0), (
        "writes",
        10,
        0,
        "2026-11-26T00:00:00+00:00",
    )
    sample = samples.Sample(samples.FORMAT, "", *numbers, *told, "a process")
    thin.write(path, traces.Trace(traces.PLAIN, 12, 3, 9, b""), sample, [(*at, 0, b"\x01") for at in found + later])
    asked = forecast.forecast_of(VIEW[0], path)
    for factor, wanted in (
        (1, [(0, 2), (3, 2), (4, 1), (12, 1), (19, 0), (50, 0)]),
        (5, [(0, 2), (0, 1), (2, 1), (3, 0), (10, 0)]),
        (20, [(0, 2), (0, 1), (0, 0), (2, 0)]),
    ):
        trace = traces.read(asked.text(factor))
        expect([record[:2] for record in trace.records()] == wanted, f"{factor}: {list(trace.records())}")
        expect(trace.pages == 3 and trace.shift == 12, f"{trace}")
    expect(asked.scale(5) == (5000, 4096, 3, 30), f"{asked.scale(5)}")
    asked.begin_after(0.025)
    for bandwidth, downtime, factor in ((1 << 30, 0.1, 1), (8 << 20, 0.1, 5), (8 << 20, 0.003, 1), (1 << 20, 0.1, 20)):
        found, words = asked.limits(forecast.Link(bandwidth, downtime))
        expect(found == factor and f"{1000 * factor}us" in words and "3/30" in words, f"{found}, {words}")
    expect(asked.start == 25 and asked.moment(0.025).isoformat() == "2026-11-26T00:00:00.025000+00:00", "the start")
    by_rounds, skipping = clark.Pace(), clark.Pace(1 << 20, 7, 5, True)
    for base, pace, wanted in (
        (0, None, "--sampled 3/30 --start 0"),
        (700, None, "--base 0 --start 0"),
        (0, by_rounds, "--sampled 3/30 --clark --rounds 64 --start 0"),
        (0, skipping, "--sampled 3/30 --clark --first 1MiB --inc 35 --rounds 5 --skip --start 0"),
    ):
        warm = forecast.forecast_of(VIEW[0], path, pace=pace)
        warm.begin_with(base)
        _, words = warm.words(forecast.Link(8 << 20, 0.1))
        expect(" ".join(words).endswith(wanted), f"{words}")
        expect(warm.text(5) == asked.text(5), f"{base}: {list(traces.read(warm.text(5)).records())}")


def limits_in_pages(_, __):
    """Below the threshold are as many pages as the link sends within the limit, and the rate is the nearest one."""
    for draw in harness.drawn("limits in pages", range(2000)):
        tick, downtime = draw.choice([100, 1000, draw.randrange(1, 5000)]), 1000 * draw.randrange(1, 3000)
        bandwidth = draw.randrange(1, 300) * draw.choice([4_096_000, 1 << 20, 125_000])
        rate, threshold = plans.settings_of(bandwidth, downtime / 1e6, tick / 1e6)
        expect(2 * abs(4_096_000 * rate - bandwidth * tick) <= 4_096_000, f"{bandwidth} by {tick} us: rate {rate}")
        more = downtime * rate - 1000 * tick * (threshold - 1)
        good = 0 <= more < 1000 * tick or threshold == plans.MOST_THRESHOLD and more > 0
        expect(good, f"{threshold} is not what {bandwidth} bytes a second send in {downtime} us, by {tick} us, and one")


def bias_over_seeds(program, folder):
    """The mean of the plans of 200 samples is that of the whole trace, within two of its standard errors."""
    path = os.path.join(folder, "whole.pcwt")
    made_trace(path, pages=1 << 15, ticks=12_000, rate=6)
    run_thin(path, os.path.join(folder, "all.pcwt"), "--one-in", "1", "--start", "1000")
    trace = read_trace(os.path.join(folder, "all.pcwt"))
    records = [record[:2] for record in trace.records()]
    whole = samples.read(os.path.join(folder, "all.pcwt"), trace, records)
    plan = plans.report(program, trace.text, plans.settings_of(64 << 20, 0.05, 0.001), 1000)
    expect(plan.why == "few" and plan.rounds > 2, f"{plan}")
    settings = plans.settings_of(64 << 20, 0.05, 0.001, ONE_IN)

    def sent(seed):
        sample, kept = samples.thinned(whole, records, ONE_IN, seed)
        text = forecast.encoded(sample.trace_pages, kept, 4096)
        return plans.report(program, text, settings, 1000).sent * sample.weight

    with ThreadPoolExecutor(AT_ONCE) as pool:
        found = list(pool.map(sent, range(SEEDS)))
    apart, error = statistics.mean(found) - plan.sent, statistics.stdev(found) / SEEDS**0.5
    told = f"mean {statistics.mean(found):.0f}, whole {plan.sent}, standard error {error:.1f}"
    expect(abs(apart) <= 2 * error, told)
    expect(statistics.stdev(found) < 0.05 * plan.sent, told)
    print(f"  bias of {SEEDS} samples, one page in {ONE_IN}: {told}", flush=True)


# ---- Series.


def made_series(folder, moments):
    """A series of recordings that begin at some moments, and what is sent by each, in the order of their names."""
    whole, part = os.path.join(folder, "whole.light.pcwt"), os.path.join(folder, "part.light.pcwt")
    paths = []
    for number, moment in enumerate(moments):
        made_trace(whole, pages=512, ticks=4000, rate=1 + number)
        run_thin(whole, part, "--one-in", "2", "--seed", str(number), "--start", "1000")
        path = os.path.join(folder, f"guest.{moment:%Y%m%dT%H%M%SZ}.light.pcwt")
        os.rename(part, path)
        fields = read_json(samples.path_beside(part))
        fields["taken_at"] = moment.isoformat()
        write_file(json.dumps(fields), samples.path_beside(path))
        os.unlink(samples.path_beside(part))
        paths.append(path)
    os.unlink(whole)
    return paths


def starts_of(path, link, downtime, plan):
    """What `precopy-view json when` tells of a trace, by words that are made here: of each 50th tick or so."""
    trace = read_trace(path)
    writes = [(tick, page) for tick, page, *_ in trace.records() if tick >= 1000]
    text = forecast.encoded(trace.pages, writes + [(4999, 0)], 4096)
    words = ["--link", link, "--downtime", downtime, "--tick", "1ms", "--page", "4096", "--sampled", "256/512"]
    sides = ["--from", "1000", "--to", "4999", "--every", "67", *plan, *["--rounds", "64"] * bool(plan)]
    done = subprocess.run([VIEW[0], "json", "when", *words, *sides], input=text, capture_output=True, timeout=SECONDS)
    return json.loads(done.stdout)


def pictured(path):
    """The dots of a picture: their places and colours, by what they are told to be."""
    tree = xml.etree.ElementTree.parse(path).getroot()
    space = "{http://www.w3.org/2000/svg}"
    dots = tree.findall(f"{space}circle")
    return [(float(dot.get("cx")), float(dot.get("cy")), dot.get("fill"), dot[0].text) for dot in dots]


def predicted_series(_, folder):
    """A line for each segment, and a picture of all by time of day; a damaged one is refused, and the others stay."""
    begin = datetime.datetime(2026, 11, 26, 22, 0, tzinfo=datetime.timezone.utc)
    moments = [begin + datetime.timedelta(hours=hours) for hours in (0, 1, 9, 25, 30)]
    paths, link = made_series(folder, moments), ["--link", "20MiB", "--downtime", "2ms"]
    name = os.path.join(folder, "guest.light.pcwt")
    expect_series(folder, paths, moments, ["--link", "16MiB", "--downtime", "2ms", "--clark"], 5)
    lines = expect_series(folder, paths, moments, link, 0)
    with open(paths[2], "r+b") as file:
        file.write(b"XXXX")
    printed, refused = run_predict(name, *link, status=1)
    expect(printed.strip().split("\n") == lines[:2] + lines[3:], printed)
    expect(refused == f"predict: {paths[2]}: E2: {traces.CAUSES['E2']}\n", refused)
    printed, refused = run_predict(os.path.join(folder, "other.light.pcwt"), *link, status=1)
    expect("other.light.pcwt: No such file" in refused, refused)
    run_predict(*paths[:2], *link, "--picture", os.path.join(folder, "none", "a.svg"), status=1)
    expect(not [name for name in os.listdir(folder) if name.endswith(".part")], f"{os.listdir(folder)}")


def expect_series(folder, paths, moments, words, status):
    """The lines and the picture of a series by one plan tell what is told of each segment alone. Returns the lines."""
    name, picture = os.path.join(folder, "guest.light.pcwt"), os.path.join(folder, "day.svg")
    printed, refused = run_predict(name, *words, "--picture", picture, status=status)
    lines = printed.strip().split("\n")
    expect(len(lines) == 5 and not refused, f"{printed!r}, {refused!r}")
    told = [expect_segment(path, moment, line, words) for path, moment, line in zip(paths, moments, lines)]
    starts = [start for each in told for start in each["starts"] if start["kept"] != "unknown"]
    dots, kept = pictured(picture), {start["kept"] == "yes" for start in starts}
    expect(len(dots) == 3 * len(starts) > 100, f"{len(dots)} dots, {len(starts)} starts")
    expect({dot[2] == day_chart.KEPT for dot in dots} == kept, "other colours")
    # By Clark's rounds some are kept and some are not.
    expect("--clark" not in words or len({dot[2] for dot in dots}) == 2, "one colour")
    for place, _, _, text in dots:
        moment = datetime.datetime.fromisoformat(text[:19])
        of_day = (moment - moment.replace(hour=0, minute=0, second=0)).total_seconds() / 86400
        wanted = day_chart.LEFT + of_day * (day_chart.WIDTH - day_chart.LEFT - day_chart.RIGHT)
        expect(abs(place - wanted) < 0.1, f"{text} stands at {place}")
    return lines


def expect_segment(path, moment, line, words):
    """The line of a segment has what is told of it alone. Returns what `when` tells of it."""
    alone, _ = run_predict(path, *words, status=None)
    converges = re.search(r"^converges: (\w+)", alone, re.M)[1]
    expect(f"  {CONVERGES[converges]}  " in line, f"{converges} is not in {line!r}")
    expect(line.startswith(f"{moment:%Y-%m-%d %H:%M:%S}  "), line)
    for said in ("sent", "total time", "downtime"):
        value = re.search(rf"^{said}: ([^,\n]+)", alone, re.M)[1]
        error = re.search(rf"^standard errors: .*\b{said.split()[-1]} ([^,\n]+)", alone, re.M)[1]
        expect(f"  {value} +- {error}  " in line, f"{value!r} +- {error} is not in {line!r}")
    told = starts_of(path, words[1], words[3], words[4:])
    for which in ("best", "worst"):
        start = told[which]
        at = moment + datetime.timedelta(seconds=start["start_seconds"] - 1)
        expect(f"  {which} {at:%H:%M:%S} {size_text(start['sent_bytes'])}" in line, f"{which}: {line}")
    return told


def pictures_of_any_starts(_, folder):
    """Whatever the costs are, the picture is well formed, and no dot is outside of its panel."""
    path = os.path.join(folder, "any.svg")
    for draws in harness.drawn("pictures of starts", range(200)):
        begin = datetime.datetime.fromtimestamp(1_800_000_000 + draws.random() * 1e8, datetime.timezone.utc)
        span = draws.choice((0, 1, 50, 4000, 86_399, 86_400, 900_000))
        starts = [
            day_chart.Start(
                begin + datetime.timedelta(seconds=draws.uniform(0, span)),
                draws.choice((0, 1, 1e6, 1e13)) * draws.random(),
                draws.choice((0, 1e-6, 1e6)),
                draws.random() * draws.choice((0, 1, 1000)),
                draws.random() < 0.5,
            )
            for _ in range(draws.randrange(1, 40))
        ]
        write_file(day_chart.drawn(starts, f'<{draws}> & "others"'), path)
        dots = pictured(path)
        expect(len(dots) == 3 * len(starts), f"{len(dots)} dots")
        for number, (x, y, _, text) in enumerate(dots):
            top = day_chart.TOP + 20 + number // len(starts) * (day_chart.HEIGHT + day_chart.GAP)
            inside = day_chart.LEFT - 0.1 <= x <= day_chart.WIDTH - day_chart.RIGHT + 0.1
            expect(inside and top - 0.1 <= y <= top + day_chart.HEIGHT + 0.1, f"{text} at {x}, {y}")


CASES = cases_of(__name__)
