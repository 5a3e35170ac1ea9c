"""Cases of checks/view about pictures: each mark of random ones is read back to the numbers that it may stand for."""

import bisect
import collections
import os
import xml.etree.ElementTree
from dataclasses import replace

from checks.lib.amount_texts import moment_text, size_text, time_text
from checks.lib.harness import drawn
from checks.lib.migration_model import Cost, chosen, options_of, report_of, windows_of
from checks.lib.tally import expect
from checks.lib.traces import Trace, made
from checks.lib.view_texts import ran, told
from checks.view.limit_cases import in_range, told_of
from precopy_dev.files import write_file
from precopy_dev.models import redrawn

SVG = "{http://www.w3.org/2000/svg}"
LEFT, SPAN = 90, 800
REPORTS, STARTS = 120, 80
UNITS = {"us": 1, "ms": 1_000, "s": 1_000_000}

Mark = collections.namedtuple("Mark", "x y width height")
Label = collections.namedtuple("Label", "x y words")


class Scale:
    """How a range of numbers fills some units: a unit stands for the numbers from one to another, both included."""

    def __init__(self, first, last, units):
        self.first, self.span, self.units = first, max(1, last - first), units

    def numbers_at(self, unit):
        low, high = (-(-some * self.span // self.units) for some in (unit, unit + 1))
        return self.first + low, self.first + high - 1 if unit < self.units else float("inf")

    def has(self, unit, number):
        low, high = self.numbers_at(unit)
        return 0 <= unit <= self.units and low <= number <= high


class Axis(Scale):
    """The axis from a tick to another."""

    def __init__(self, first, last):
        super().__init__(first, last, SPAN)

    def shows(self, x, tick):
        return self.has(x - LEFT, max(tick, self.first))

    def place(self, tick):
        """Where a tick belongs: the only unit that may stand for it."""
        return LEFT + bisect.bisect_right(range(1, SPAN + 1), tick, key=lambda unit: self.numbers_at(unit)[0])


def axis_over(ticks, length, windows):
    """The axis that covers some ticks and all windows."""
    firsts = [window["window"] * length for window in windows]
    return Axis(min([*ticks, *firsts]), max([*ticks, *(first + length for first in firsts)]))


class Picture:
    """The marks and the texts of a picture, by class, in their order."""

    def __init__(self, text):
        root = xml.etree.ElementTree.fromstring(text)
        self.marks, self.labels, self.lines = (collections.defaultdict(list) for _ in range(3))
        for rect in root.iter(SVG + "rect"):
            mark = Mark(*(int(rect.get(name)) for name in ("x", "y", "width", "height")))
            self.marks[rect.get("class")].append(mark)
        for some in root.iter(SVG + "text"):
            self.labels[some.get("class")].append(Label(int(some.get("x")), int(some.get("y")), some.text))
        for line in root.iter(SVG + "polyline"):
            points = [tuple(map(int, point.split(","))) for point in line.get("points").split()]
            self.lines[line.get("class")].append(points)
        tops = [mark.y for mark in self.marks["grid"]]
        bottoms = [mark.y for mark in self.marks["line"] if mark.width == SPAN]
        ends = [int(label.words) for label in self.labels["end"]]
        expect(len(tops) == len(bottoms) and len(ends) == 2 * len(tops) and not any(ends[1::2]), "frames of panels")
        self.panels = [Panel(self, *some) for some in zip(tops, bottoms, ends[::2])]

    def texts(self, name):
        return [label.words for label in self.labels[name]]


class Panel:
    """A panel, whose numbers go up to that at its top line."""

    def __init__(self, picture, top, bottom, most):
        self.picture, self.top, self.bottom, self.most = picture, top, bottom, most
        self.scale = Scale(0, most, bottom - top)

    def marks(self, name):
        """The marks of a class in this panel; those of a key lie above it."""
        return [mark for mark in self.picture.marks[name] if self.top - 1 <= mark.y < self.bottom]

    def whole(self, name):
        """Where the areas of a class over the whole panel begin and end."""
        marks = self.marks(name)
        expect(all((mark.y, mark.height) == (self.top, self.bottom - self.top) for mark in marks), f"height of {name}")
        return [(mark.x, mark.x + mark.width) for mark in marks]

    def is_bar(self, height, number):
        return self.scale.has(height, number) or (height == 1 and self.scale.has(0, number))


def read_stacks(panel, columns):
    """Reads the bars of columns, each with where it begins and ends, and a number for each class from the bottom up."""
    left = {name: panel.marks(name) for _, _, numbers in columns for name in numbers}
    for begin, end, numbers in columns:
        floor = panel.bottom
        for name, number in numbers.items():
            if not number:
                continue
            expect(left[name], f"no bar for {name} {number}")
            mark = left[name].pop(0)
            expect(mark.x == begin and mark.x + mark.width == max(end, begin + 1), f"{name} {number} at {mark}")
            expect(mark.y + mark.height == floor or mark.y == 0, f"{name} {number} stands at {mark}, not on {floor}")
            expect(panel.is_bar(mark.height, number), f"{name} {number} is drawn by {mark} up to {panel.most}")
            floor = mark.y
    expect(not any(left.values()), f"more bars: {left}")


def parted(begin, end):
    """A bar wider than three units leaves one free."""
    return begin, end - 1 if end - begin > 3 else end


def window_columns(axis, length, windows):
    """The windows that are drawn: of those that begin in a unit that is taken, the one with the most pages."""
    columns = []
    for window in windows:
        begin = axis.place(window["window"] * length)
        end = max(axis.place((window["window"] + 1) * length), begin + 1)
        if columns and begin < columns[-1][1]:
            first, taken, drawn = columns[-1]
            columns[-1] = first, max(taken, end), max(drawn, window, key=lambda some: some["pages"])
        else:
            columns.append((begin, end, window))
    for begin, end, window in columns:
        earlier = window["pages"] - window["fresh"] - window["again"]
        yield *parted(begin, end), {"again": window["again"], "earlier": earlier, "fresh": window["fresh"]}


def read_windows(panel, axis, length, windows):
    expect(panel.most == max([1, *(window["pages"] for window in windows)]), f"{panel.most} at the top of the windows")
    read_stacks(panel, list(window_columns(axis, length, windows)))


def read_axis(picture, axis, bottom, tick):
    """Reads the labels below a panel: each stands below its mark, at the tick that it names."""
    marks = [mark.x for mark in picture.marks["line"] if mark.y == bottom + 1]
    labels = [label for label in picture.labels["middle"] if label.y == bottom + 22]
    titles = [label.words for label in picture.labels["middle"] if label.y == bottom + 44]
    expect(titles == ["time" if tick else "tick"], f"the axis is named {titles}")
    expect(marks == [label.x for label in labels] and len(marks) <= 8, f"labels {labels} at the marks {marks}")
    ticks = []
    for label in labels:
        number, _, unit = label.words.partition(" ")
        at = int(number) * UNITS[unit] / tick if tick else int(number)
        expect(at == int(at) and axis.shows(label.x, int(at)), f"the label {label}")
        ticks.append(int(at))
    steps = {after - before for before, after in zip(ticks, ticks[1:])}
    expect(len(steps) < 2 and all(str(step).rstrip("0") in ("1", "2", "5") for step in steps), f"labels at {ticks}")
    span = axis.span // (min(steps) if steps else axis.span)
    expect(len(ticks) >= span, f"{len(ticks)} labels for a span of {span} steps")


# ---- Reports.


def read_rounds(pages, rates, axis, report):
    rounds, stop = report["rounds"], report["stop"]
    expect(pages.most == max([1, *(max(some["pages"], some["dirtied"]) for some in rounds)]), "the most pages")
    expect(rates.most == max([1, *(some["rate"] for some in rounds)]), "the greatest rate")
    columns = [parted(axis.place(some["from"]), axis.place(some["to"])) for some in rounds]
    read_stacks(
        pages,
        [(*at, {"sent": some["sent"], "skipped": some["pages"] - some["sent"]}) for at, some in zip(columns, rounds)],
    )
    read_stacks(rates, [(*at, {"rate": some["rate"]}) for at, some in zip(columns, rounds)])
    marks = pages.marks("dirtied")
    expect(len(marks) == len(rounds), f"{len(marks)} marks of dirtied pages")
    for mark, (begin, end), some in zip(marks, columns, rounds):
        expect(mark.x == begin and mark.width == max(end - begin, 2) and mark.height == 2, f"dirtied at {mark}")
        expect(pages.scale.has(pages.bottom - mark.y - 1, some["dirtied"]), f"{some['dirtied']} dirtied at {mark}")
    for panel in pages, rates:
        [(begin, end)], [(at, _)] = panel.whole("down"), panel.whole("stop")
        expect(axis.shows(begin, stop["at"]) and at == begin, f"the downtime begins at {begin}, the stop is at {at}")
        expect(axis.shows(end, stop["at"] + stop["down"]), f"the downtime ends at {end}")


def report_lines(report, length, limits):
    trace, stop = report["trace"], report["stop"]
    head = (
        f"A trace of {trace['pages']} pages of {trace['size']} bytes, {trace['writes']} writes; "
        f"windows of {length} ticks"
    )
    feet = [
        f"Stop ({stop['why']}) at tick {stop['at']}; downtime {stop['down']} ticks for {stop['pages']} pages; "
        f"{stop['total']} pages sent in all"
    ]
    if limits:
        at, down = moment_text(stop["at"] * limits.tick), time_text(stop["down"] * limits.tick)
        feet.append(
            f"Stop at {at}; downtime {down} for {size_text(limits.bytes_of(stop['pages']))}; "
            f"{size_text(limits.bytes_of(stop['total']))} sent in all"
        )
    return [head], feet


def check_report_marks(view, _, limits, settings, length, trace):
    """Reads the picture of a report back, and compares it with the report of the model."""
    report = report_of(trace, settings, length)
    words = limits.words_of_rounds() if limits else options_of(settings)
    picture = Picture(told(view, ["chart", *words, f"--window={length}"], trace.path))
    windows, pages, rates = picture.panels
    stop = report["stop"]
    ends = settings.start, stop["at"] + stop["down"]
    axis, rounds_axis = axis_over(ends, length, report["windows"]), Axis(*ends)
    read_windows(windows, axis, length, report["windows"])
    [(begin, end)], [(at, _)] = windows.whole("span"), windows.whole("stop")
    expect(axis.shows(begin, ends[0]) and end == max(axis.place(ends[1]), begin + 2), f"rounds from {begin} to {end}")
    expect(axis.shows(at, stop["at"]), f"the stop at {at}")
    read_rounds(pages, rates, rounds_axis, report)
    tick = limits.tick if limits else None
    read_axis(picture, axis, windows.bottom, tick)
    read_axis(picture, rounds_axis, rates.bottom, tick)
    found = picture.texts("head"), picture.texts("foot")
    expect(found == report_lines(report, length, limits), f"the lines {found}")


# ---- Starts.


QUANTITIES = [lambda cost: cost.down // 1_000, lambda cost: cost.time // 1_000, lambda cost: cost.sent >> 20]


def read_curve(panel, axis, points, starts, number_of):
    """Reads the points of a curve for the starts that are within the trace, or for the others."""
    expect(len(points) == len(starts), f"{len(points)} points for {len(starts)} starts")
    for (x, y), cost in zip(points, starts):
        expect(axis.shows(x, cost.start), f"the start {cost.start} at {x}")
        expect(panel.scale.has(panel.bottom - y, number_of(cost)), f"{number_of(cost)} of start {cost.start} at {y}")


def start_line(name, cost, tick):
    down, time = cost.downtime(), time_text(cost.time)
    return (
        f"{name} start at {moment_text(cost.start * tick)}: downtime {down}, time {time}, {size_text(cost.sent)} sent"
    )


def read_starts(picture, axis, costs, chosen, limit):
    for number, (panel, number_of) in enumerate(zip(picture.panels[1:], QUANTITIES)):
        least = limit if number == 0 else 1
        expect(panel.most == max([1, least, *map(number_of, costs)]), f"{panel.most} at the top of panel {number}")
        for name, is_known in (("late", False), ("known", True)):
            some = [cost for cost in costs if cost.is_known == is_known]
            read_curve(panel, axis, picture.lines[name][number], some, number_of)
        for name in ("best", "worst"):
            wanted = [chosen[name]["start"]] if name in chosen else []
            found = [begin for begin, _ in panel.whole(name)]
            expect(len(found) == len(wanted), f"{name} starts at {found}")
            expect(all(map(axis.shows, found, wanted)), f"the {name} start at {found} in place of {wanted}")
    [line] = [mark for mark in picture.marks["limit"] if mark.width == SPAN]
    panel = picture.panels[1]
    expect(line.x == LEFT and panel.scale.has(panel.bottom - line.y, limit), f"the limit {limit} at {line}")


def check_start_marks(view, _, limits, ticks, length, trace):
    """Reads the picture of some starts back, and compares it with what the model makes of them."""
    starts = [f"--from={ticks[0]}", f"--to={ticks.stop - 1}", f"--every={ticks.step}"]
    plan = [*limits.pace(), *["--clark"] * limits.clark]
    costs = [Cost.of(limits, trace, tick) for tick in ticks]
    status, _, document = told_of(limits, costs, trace)
    found, text, _ = ran(view, ["when", "--chart", *limits.limits(), *plan, *starts, f"--window={length}"], trace.path)
    expect(found == status, f"status {found} in place of {status}")
    picture, (windows, _) = Picture(text), windows_of(trace, length, 2)
    axis = axis_over(list(ticks), length, windows)
    read_windows(picture.panels[0], axis, length, windows)
    read_starts(picture, axis, costs, document, limits.downtime // 1_000)
    read_axis(picture, axis, picture.panels[-1].bottom, limits.tick)
    pairs = zip(("Best", "Worst"), chosen(costs, limits, trace))
    feet = [start_line(name, cost, limits.tick) for name, cost in pairs if cost]
    texts = picture.texts("head"), picture.texts("foot")
    expect(texts == (["When to migrate"], feet), f"the lines {texts} in place of {feet}")


# ---- Random traces and words.


def random_trace(draw, folder):
    """Writes a trace of random writes: few or many, in bursts, some at its first and some at its last tick."""
    path = os.path.join(folder, f"random-{draw.number}.pcwt")
    pages = draw.choice([1, 3, 64, 700])
    last = draw.choice([0, 5, 900, 10**5, 10**9])
    hot = draw.randrange(pages)
    writes = sorted(
        (draw.choice([0, last, draw.randrange(last + 1)]), draw.choice([hot, draw.randrange(pages)]))
        for _ in range(draw.choice([1, 2, 40, 1_500]))
    )
    write_file(made(pages, writes, 12), path)
    return Trace.at(path)


def random_window(draw, last):
    return max(1, (last + 1) // draw.choice([1, 7, 60, 1_000]), last // 3_000)


def random_settings(draw, last):
    least = draw.choice([1, 20, 700, 40_000])
    most = draw.choice([least, min(1_000_000, least * draw.choice([2, 9, 100]))])
    start = draw.choice([0, last, draw.randrange(last + 2)])
    increment, threshold, rounds = draw.randrange(most), draw.randrange(1, 80), draw.choice([1, 2, 8, 64])
    return redrawn.Settings(least, most, increment, threshold, rounds, start, bool(draw.randrange(2)))


def picture_tries(folder):
    """The tries of 200 random pictures, each over a random trace."""
    for draw in drawn("pictures", range(REPORTS + STARTS)):
        trace = random_trace(draw, folder)
        clark = True if draw.number < REPORTS else None
        limits, length = in_range(draw, trace, clark=clark), random_window(draw, trace.last)
        if draw.number < REPORTS:
            limits = draw.choice([None, limits])
            settings = limits.settings() if limits else random_settings(draw, trace.last)
            yield check_report_marks, limits, settings, length, trace
        else:
            first = draw.randrange(trace.last + 2)
            every = max(1, (trace.last - first) // draw.choice([1, 5, 90]))
            limits = replace(limits, start=0, base=None)
            yield check_start_marks, limits, range(first, max(first, trace.last) + 1, every), length, trace
