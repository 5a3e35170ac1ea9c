"""Cases of checks/recording: tools/predict over a link that changes by the time of day, beside a model of all pages."""

import datetime
import json
import os
from fractions import Fraction
from typing import NamedTuple

from checks.lib import link_model
from checks.lib.harness import cases_of, drawn, expect
from checks.lib.tally import module
from checks.lib.view_texts import schema_of
from checks.recording.forecast_cases import VIEW, run_predict
from precopy_dev.files import read_text
from precopy_dev.models import courses, redrawn
from precopy_dev.tree import TOP
from precopy_tools.convert import thin
from precopy_tools.formats import samples, traces
from precopy_tools.predict import forecast, link_clock, plans, texts

SQLITE = os.path.join(TOP, "examples", "guests", "sqlite.light.pcwt")
BEGUN = datetime.datetime(2026, 11, 26, 23, 59, 58, tzinfo=datetime.timezone.utc)
NOON = BEGUN.replace(hour=12, minute=0, second=0)
LINKS, RECORDS, WORDS = 2000, 150, 60
ENDINGS = {"few", "level", "unknown"}


class Record(NamedTuple):
    """A record: its pages, of which each stands for so many of the guest, its ticks after the first look, its writes,
    and when the first look was."""

    pages: int
    weight: int
    last: int
    writes: list[tuple[int, int]]
    begun: datetime.datetime

    def write(self, folder: str, name: str = "guest.light.pcwt") -> str:
        path = os.path.join(folder, name)
        first, count = [(0, page) for page in range(self.pages)], self.pages + len(self.writes)
        later = [(1000 + tick, page) for tick, page in self.writes]
        counts = [self.pages * self.weight] * 2 + [self.pages] * 3
        numbers = (self.pages, count, 1000, 1000 + self.last, 0.001, 0.1, *counts)
        sample = samples.Sample(samples.FORMAT, "", *numbers, 3, "writes", 10, 0, self.begun.isoformat(), "a process")
        trace = traces.Trace(traces.PLAIN, 12, self.pages, count, b"")
        thin.write(path, trace, sample, [(*at, 0, b"\x01") for at in first + later])
        return path


def clocks_of_links(_, __):
    """The clock of a link, when it shows what, and what it refuses, are those of a model that counts each tick."""
    for draw in drawn("links that change", range(LINKS)):
        rate = draw.randrange(1, 12)
        ticks = sorted(draw.randrange(30) for _ in range(draw.randrange(6)))
        changes = [(tick, draw.randrange(1, rate + 1)) for tick in ticks]
        link = link_clock.ChangingLink(rate, tuple(link_clock.Change(*change) for change in changes))
        wanted = link_model.Clock(rate, changes)
        shown = [wanted.shows(tick) for tick in range(60)]
        expect(link.refusal() is None and [link.clock(tick) for tick in range(60)] == shown, f"{link}")
        expect([link.sent_before(tick) for tick in range(60)] == wanted.sent[:60], f"{link}")
        expect(list(link.clocks([each for tick in range(60) for each in (tick, tick)]))[::2] == shown, f"{link}")
        amounts = range(0, 12 * rate)
        expect([link.when_sent(each) for each in amounts] == [wanted.first(each) for each in amounts], f"{link}")
        expect([link.tick_of(each) for each in range(12)] == [wanted.first(rate * it) for it in range(12)], f"{link}")
    for rate, changes, why in (
        (0, [], "rate"),
        (1_000_001, [(0, 0)], "rate"),
        (5, [(3, 6)], "change 0"),
        (5, [(3, 5), (2, 5)], "change 1"),
        (5, [(3, 5), (3, 0)], "change 1"),
        (5, [((1 << 40) + 1, 1)], "change 0"),
        (1_000_000, [(1 << 40, 1), (1 << 40, 1_000_000)], None),
    ):
        link = link_clock.ChangingLink(rate, tuple(link_clock.Change(*change) for change in changes))
        expect(link.refusal() == why, f"{link}: {link.refusal()}")


def wrong_links(_, __):
    """Words that make no link are refused."""
    for words, said in (
        (["1MiB", "2MiB"], "one plain RATE is needed, and there are 2"),
        (["02:00=2MiB"], "one plain RATE is needed, and there is none"),
        (["1MiB", "24:00=2MiB"], "'24:00' is no time of day"),
        (["1MiB", "2:00=2MiB"], "'2:00' is no time of day"),
        (["1MiB", "02:00:60=2MiB"], "'02:00:60' is no time of day"),
        (["1MiB", "=2MiB"], "'' is no time of day"),
        (["1MiB", "02:00=2"], "a number and its unit"),
        (["1MiB", "02:00=2MiB", "02:00:00=3MiB"], "two rates are from 02:00:00 on"),
        (["1MiB", "00:00=2MiB"], "two rates are from 00:00:00 on; the plain RATE is from then on"),
    ):
        _, refused = run_predict(SQLITE, *[part for word in words for part in ("--link", word)], status=2)
        expect(said in refused, f"{words}: {refused}")


def links_that_do_not_change(_, __):
    """If the link stays within a record, all is as with the plain link in force: the record begins at 05:38:50."""
    for more in ([], ["--json"], ["--when"], ["--clark"], ["--reached", "0.5..1"], ["--start", "10s"]):
        plain = run_predict(SQLITE, "--link", "64MiB", *more, status=None)
        for others in (
            ["1MiB", "05:38:50=64MiB"],
            ["1MiB", "05:00=64MiB", "05:39:27=2MiB", "04:59:59=3MiB"],
            ["64MiB", "05:38:49=1MiB", "05:38:50=64MiB"],
            ["64MiB", "05:38:55=64MiB"],
        ):
            words = [part for word in others for part in ("--link", word)]
            expect(run_predict(SQLITE, *words, *more, status=None) == plain, f"{others}, {more}")
    late = ["--link", "1MiB", "--link", "05:39=64MiB", "--start", "10s"]
    expect(run_predict(SQLITE, *late, status=None) == run_predict(SQLITE, "--link", "64MiB", "--start", "10s"), "late")


def what_goes_without(_, folder):
    """What is told of one rate alone is refused, and so is a picture, for the record within which the link changes."""
    words = ["--link", "64MiB", "--link", "05:38:55=32MiB"]
    for more in (["--when"], ["--clark"], ["--reached", "0.5..1"]):
        _, refused = run_predict(SQLITE, *words, *more, status=1)
        said = f"changes within this record, at 05:38:55 UTC: {more[0]} needs a link that stays"
        expect(said in refused, f"{more}: {refused}")
    still = Record(300, 1, 4000, [(10, 3)], NOON).write(folder, "still.light.pcwt")
    picture = os.path.join(folder, "day.svg")
    printed, refused = run_predict(SQLITE, still, *words, "--picture", picture, status=1)
    expect("--picture needs a link that stays" in refused and printed.count("\n") == 1, f"{printed}, {refused}")
    expect("64.00 MiB a second, from 05:38:55 UTC 32.00, downtime limit 300 ms" in read_text(picture), "another title")


def drawn_record(draw):
    """A record with a hot set, and a link that changes within it: its rates in KiB, and when it has the later ones."""
    pages, last = draw.randrange(2, 300), draw.randrange(1500, 5000)
    hot = max(1, pages // draw.choice([2, 8, 32]))
    writes = sorted((draw.randrange(last + 1), draw.randrange(hot)) for _ in range(draw.randrange(800)))
    begun = BEGUN + datetime.timedelta(milliseconds=draw.choice([0, 0, 250, 999]))
    record = Record(pages, draw.choice([1, 1, 7, 40]), last, writes, begun)
    rates = [draw.choice([1, 10, 60, 400, 3000]) * draw.randrange(1, 40) for _ in range(draw.randrange(2, 5))]
    seconds = sorted(draw.sample(range(-1, 4), len(rates) - 1))
    moments = [BEGUN + datetime.timedelta(seconds=1 + second) for second in seconds]
    return record, rates, moments


def steps_of(record, rates, moments, start):
    """The steps of a link, as the tool counts them: after the start and up to the last look. The day begins within some
    records, and the plain rate then."""
    plain, *later = rates
    midnight = datetime.datetime(2026, 11, 27, tzinfo=datetime.timezone.utc)
    of_day = {(moment - moment.replace(hour=0, minute=0, second=0)): rate for moment, rate in zip(moments, later)}
    of_day[datetime.timedelta()] = plain
    events = sorted(
        (day + since, rate << 10)
        for since, rate in of_day.items()
        for day in (midnight - datetime.timedelta(1), midnight)
    )
    steps, now = [], 0
    for moment, rate in events:
        at = (moment - record.begun) // datetime.timedelta(microseconds=1)
        if at <= 1000 * start:
            now = rate
        elif at <= 1000 * record.last and rate != (steps[-1][1] if steps else now):
            steps.append((at, rate))
    return [(0, now), *steps]


class Wanted(NamedTuple):
    """A prediction by the model: times in microseconds."""

    ending: str
    looks: int
    time: int
    sent: int
    down: int
    left: int
    errors: tuple[int, int, int] | None


def real(clock, tick, micros):
    """When the clock of a link shows so many microseconds: the first microsecond, by the pieces between changes."""
    sent, at, rate = Fraction(0), 0, clock.rate
    for change, following in [*sorted(clock.changes.items()), (None, 0)]:
        there = None if change is None else sent + rate * (change * tick - at)
        if there is None or clock.rate * micros <= there:
            return at + -(-(clock.rate * micros - sent) // rate)
        sent, at, rate = there, change * tick, following


def wanted_of(record, steps, start, downtime):
    """What the model tells of a record over some steps, or nothing if no plan can have a rate."""
    scale = link_model.Scale(1000, 4096, record.pages, record.pages * record.weight)
    found = [rate for _, rate in steps]
    asked = link_model.asked_of(scale, link_model.Link(steps, max(found), min(found), downtime))
    if asked is None:
        return None
    factor, clock = asked.factor, asked.clock
    tick, span = 1000 * factor, (start // factor, record.last // factor)
    touches = sorted({(at // factor, page) for at, page in record.writes})
    it = link_model.course(record.pages, touches, asked, tick, span)
    time, down, errors = (it.stop - span[0] + it.down) * tick, it.down * tick, None
    if record.weight > 1:
        by_clock = sorted((clock.shows(at), page) for at, page in touches)
        guest = courses.Record(redrawn.by_page(record.pages, by_clock), clock.shows(span[1]))
        settings = redrawn.Settings(clock.rate, clock.rate, 0, asked.threshold, 64, clock.shows(span[0]))
        of_clock = redrawn.Scale(tick, 4096, record.pages, record.pages * record.weight)
        plans = guest.redrawn(settings, of_clock, courses.Manner.LOOKS)
        own = guest.course(settings, of_clock, courses.Manner.LOOKS)
        sent, *times = redrawn.errors_of(plans, clock.shows(span[0]), of_clock)
        end = (own.stop + own.down) * tick
        moved = [
            max(abs(real(clock, tick, max(0, end + way * each)) - real(clock, tick, end)) for way in (1, -1))
            for each in times
        ]
        errors = (sent, *moved)
    sent = it.total * 4096 * record.weight
    return Wanted(it.ending, it.looks, time, sent, down, it.left, errors)


def changing_links(_, folder):
    """Over a link that changes at random moments a prediction is that of the model, with its errors; so is the link."""
    compared, endings = 0, set()
    for draw in drawn("records over links that change", range(RECORDS)):
        record, rates, moments = drawn_record(draw)
        path, start = record.write(folder), draw.choice([0, 0, 0, draw.randrange(1000)])
        downtime = draw.choice([10_000, 100_000, 300_000, 335_000])
        steps = steps_of(record, rates, moments, start)
        if len(steps) == 1 or len({moment.time() for moment in moments} | {datetime.time()}) <= len(moments):
            continue
        words = ["--link", f"{rates[0]}KiB", "--downtime", f"{downtime}us", "--json"]
        words += [part for at, rate in zip(moments, rates[1:]) for part in ("--link", f"{at:%H:%M:%S}={rate}KiB")]
        words += ["--start", f"{start}ms"] if start else []
        wanted = wanted_of(record, steps, start, downtime)
        printed, refused = run_predict(path, *words, status=None)
        if wanted is None:
            expect("a plan has 1 to 1,000,000" in refused, f"{draw}: {refused}")
            continue
        told = json.loads(printed)
        expect_told(told, wanted, steps, f"{draw}, {words}")
        compared += 1
        endings.add(wanted.ending)
    expect(compared > RECORDS // 3 and {"few", "cut"} <= endings, f"{compared} records, {endings}")


def expect_told(told, wanted, steps, where):
    """A document tells what the model does."""
    prediction, link = told["prediction"], told["link"]
    changes = [(each["after_seconds"], each["link_bytes_per_second"]) for each in link["changes"]]
    rows = [(0.0, link["link_bytes_per_second"]), *changes]
    expect(rows == [(at / 1e6, float(rate)) for at, rate in steps], f"{where}: {rows} in place of {steps}")
    expect("when" not in told and not {"enough", "hosts"} & set(prediction), f"{where}: {sorted(prediction)}")
    expect_members(prediction)
    if wanted.ending == "cut":
        is_unknown = prediction["converges"] == prediction["kept"] == "unknown"
        expect(is_unknown and "migration" not in prediction, f"{where}: {prediction}")
        return
    it = prediction["migration"]
    errors = it.get("errors")
    found = Wanted(
        it["why"],
        it["looks"],
        round(1e6 * it["time_seconds"]),
        it["sent_bytes"],
        round(1e6 * it["down_seconds"]),
        it["left_pages"],
        errors and (errors["sent_bytes"], *(round(1e6 * errors[name]) for name in ("time_seconds", "down_seconds"))),
    )
    expect(found == wanted, f"{where}: {found} in place of {wanted}")
    verdict = "yes" if wanted.ending == "few" else "no"
    expect(prediction["converges"] in (verdict, "uncertain"), f"{where}: {prediction['converges']}")


def expect_members(prediction):
    """Each member keeps the schema of `precopy-view json predict`; those of all starts have counts alone."""
    schema, jsonschema = schema_of("view-predict"), module("jsonschema")
    for name, value in prediction.items():
        part = {**schema["properties"][name], "$defs": schema["$defs"]}
        part |= {"required": ["count", "known", "converging", "kept"]} if name == "starts" else {}
        fault = next(jsonschema.Draft202012Validator(part).iter_errors(value), None)
        expect(fault is None, f"{name}: {fault and fault.message}")


def words_of_answers(_, folder):
    """Over a link that stays, the lines that the tool makes of a document are those of `precopy-view predict`."""
    heads, endings = ("converges: ", "total time: ", "sent: ", "downtime: ", "standard errors: ", "like QEMU: "), set()
    for number, draw in enumerate(drawn("words of answers", range(8 * WORDS))):
        if number >= WORDS and ENDINGS <= endings:
            break
        record, rates, _ = drawn_record(draw)
        asked = forecast.forecast_of(VIEW[0], record.write(folder))
        link = forecast.Link(rates[0] << 10, draw.choice([0.01, 0.1, 0.3]))
        try:
            told, (_, lines) = asked.told(link), asked.lines(link)
        except plans.NoRate:
            continue
        wanted = [line for line in lines if line.startswith((*heads, "warning: "))]
        expect(texts.of_told(told) == wanted, f"{draw}: {texts.of_told(told)} in place of {wanted}")
        endings.add(told.get("migration", {"why": "unknown"})["why"])
    expect(ENDINGS <= endings, f"{endings}")


def a_tenth_midway(_, folder):
    """A quiet guest of 8,000 pages that has sent half of them when its link drops to a tenth."""
    path = Record(8000, 1, 20_000, [(10, 3), (19_000, 4)], NOON).write(folder)
    rate = 8000 * 4096 // 2
    words = ["--link", f"{rate / 1000:.3f}KB", "--link", f"12:00:01={rate / 10_000:.3f}KB", "--downtime", "100ms"]
    printed, _ = run_predict(path, *words)
    told = json.loads(run_predict(path, *words, "--json")[0])["prediction"]["migration"]
    expect(abs(told["time_seconds"] - 11) < 0.1 and told["sent_bytes"] < 8010 * 4096, f"{told}")
    expect("\nlink: 0.131 Gbit/s, from 12:00:01 UTC 0.0131 Gbit/s\n" in printed, printed)
    expect(f"\ntotal time: {told['time_seconds']:.3f} s\n" in printed, printed)
    times = [float(line.split(", ")[1].split(" ")[0]) for line in printed.splitlines() if line.startswith("at twice")]
    expect(len(times) == 1 and abs(times[0] - 1) < 0.1 and "\nat half the link: " in printed, printed)


def changes_at_the_edges(_, folder):
    """A change exactly at the start is none, and one at the last look is one that moves at most the downtime."""
    path = Record(2000, 1, 4000, [(10, 3)], NOON).write(folder)
    words = ["--link", "8MiB", "--downtime", "100ms"]
    plain = run_predict(path, *words)
    expect(run_predict(path, "--link", "1MiB", "--link", "12:00=8MiB", *words[2:]) == plain, "at the start")
    expect(run_predict(path, *words, "--link", "12:00:05=4MiB") == plain, "after the last look")
    last, _ = run_predict(path, *words, "--link", "12:00:04=7MiB")
    expect("link: 0.0671 Gbit/s, from 12:00:04 UTC 0.0587 Gbit/s\n" in last, last)
    begins = "link: 0.00839 Gbit/s, from 12:00:00 UTC 0.0671 Gbit/s\n"
    before = Record(2000, 1, 4000, [(10, 3)], NOON - datetime.timedelta(milliseconds=1)).write(folder, "b.light.pcwt")
    early, _ = run_predict(before, "--link", "1MiB", "--link", "12:00=8MiB", *words[2:])
    expect(begins in early, early)
    times = [time_in(printed) for printed in (plain[0], last, early)]
    expect(max(times) - min(times) < 0.11, f"{times}")


def time_in(printed):
    """The total time in seconds."""
    number, unit = printed.split("\ntotal time: ")[1].split("\n")[0].split(" ")
    return float(number) / (1 if unit == "s" else 1000)


def series_over_changes(_, folder):
    """Each segment is planned by its own moments, and has the line of what is told of it alone."""
    words = ["--link", "8MiB", "--link", "03:00=2MiB", "--downtime", "100ms"]
    paths = []
    for hour, minute, second in (2, 59, 58), (3, 10, 0):
        begun = BEGUN.replace(hour=hour, minute=minute, second=second)
        name = f"guest.{begun:%Y%m%dT%H%M%SZ}.light.pcwt"
        paths.append(Record(6000, 1, 16_000, [(10, 3)], begun).write(folder, name))
    printed, refused = run_predict(os.path.join(folder, "guest.light.pcwt"), *words)
    lines = printed.strip().split("\n")
    expect(len(lines) == 2 and not refused, f"{printed}, {refused}")
    for path, line, has_starts in zip(paths, lines, (False, True)):
        alone, _ = run_predict(path, *words)
        time = alone.split("\ntotal time: ")[1].split("\n")[0]
        expect(f"  {time}  " in line and ("  best " in line) == has_starts, f"{line}, {alone}")
    expect("from 03:00:00 UTC" in run_predict(paths[0], *words)[0], "no change is told")


CASES = cases_of(__name__)
