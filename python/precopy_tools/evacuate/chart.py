"""A picture, in SVG, of the schedule of an evacuation: a bar a guest over time, with its rounds and its downtime."""

import html
import math

from precopy_tools.evacuate import hours
from precopy_tools.evacuate.schedules import Placed
from precopy_tools.pictures import clock_marks, picture, round_above
from precopy_tools.quantities import moment_text, size_text, time_text

WIDTH, LEFT, RIGHT, TOP, BELOW = 900, 170, 90, 76, 44
# Rows are lower if there are many guests, and have no texts if those would touch.
ROW, ROWS, LEAST_ROW, LEAST_TEXT = 26, 3000, 2, 13
LEAST_DOWN = 2.0
# The most lines of an axis of times of day.
CLOCK_LINES = 8
STYLE = """<style>
.paper { fill: #ffffff } text { fill: #1f2328 } .note { fill: #57606a } .grid { stroke: #d8dee4 }
.moving { fill: #54aeff } .planned { fill: #b6bfc9 } .missed { fill: #e3a008 }
.unknown { fill: #b6bfc9 } .lost { fill: #8250df } .down { fill: #cf222e }
.round { stroke: #ffffff } .limit { stroke: #cf222e; stroke-dasharray: 5 3 } .held { fill: #d8dee4 }
.end { fill: #57606a; stroke: #ffffff; stroke-width: 3; paint-order: stroke }
@media (prefers-color-scheme: dark) {
.paper { fill: #0d1117 } text { fill: #e6edf3 } .note { fill: #8b949e } .grid { stroke: #30363d }
.moving { fill: #388bfd } .planned { fill: #6e7681 } .missed { fill: #d29922 }
.unknown { fill: #6e7681 } .lost { fill: #a371f7 } .down { fill: #ff7b72 }
.round { stroke: #0d1117 } .limit { stroke: #ff7b72 } .held { fill: #30363d } .end { fill: #8b949e; stroke: #0d1117 }
}
</style>"""
KEYS = {
    "held": ("held back", 95),
    "moving": ("moves; lines end rounds", 190),
    "missed": ("misses a limit", 110),
    "unknown": ("its record is too short", 155),
    "down": ("downtime, drawn at least two dots wide", 0),
}
# Plans of looks have no rounds.
WITHOUT_ROUNDS = {**KEYS, "moving": ("moves", 75)}


def ellipsis(name: str) -> str:
    return name if len(name) <= 22 else f"{name[:21]}…"


def kind_of(move: Placed) -> str:
    """How a guest's bar is drawn."""
    if move.cost.converges == "unknown":
        return "unknown"
    return "moving" if move.cost.kept else "missed"


class Rows:
    """Where things are: the times of so many rows, of which the last one ends then, and their height."""

    def __init__(self, end: int, count: int, height: int = ROW):
        self.end = end or 1
        self.height = min(height, max(LEAST_ROW, ROWS / count))
        self.bar = max(1, self.height * 0.62 if self.height >= LEAST_TEXT else self.height - 1)
        self.bottom = TOP + self.height * count

    def x_of(self, at: float) -> float:
        return LEFT + at / self.end * (WIDTH - LEFT - RIGHT)

    def y_of(self, number: int) -> float:
        return TOP + self.height * number + (self.height - self.bar) / 2


def upright(kind: str, x: float, top: float, bottom: float) -> str:
    return f'<line class="{kind}" x1="{x:.1f}" x2="{x:.1f}" y1="{top:.1f}" y2="{bottom:.1f}"/>'


def rectangle(kind: str, x: float, y: float, width: float, height: float) -> str:
    return f'<rect class="{kind}" x="{x:.1f}" y="{y:.1f}" width="{width:.1f}" height="{height:.1f}"/>'


def moment(at: int, opens: float) -> str:
    """A moment of a schedule: its time of day, if it opens at a time in Unix seconds."""
    return hours.clock_text(opens + at / 1e6) if opens else moment_text(at)


def told(move: Placed, opens: float) -> str:
    """What is told of a guest where it is pointed at."""
    cost = move.cost
    begin, end = moment(move.start, opens), moment(move.end, opens)
    held = f", held back for {time_text(cost.hold)}" if cost.hold else ""
    down = f"downtime {time_text(cost.downtime)}" + (f"; {cost.why}" if cost.why else "")
    return f"{move.guest.name}: {begin} to {end}{held}, {size_text(cost.sent)}, {down}"


def bar(move: Placed, ends: list[int], rows: Rows, y: float, opens: float) -> list[str]:
    """One guest: its name, how long it is held back, its bar with a line at the end of each round, its downtime, and
    when it ends."""
    cost = move.cost
    free, begin, end = (rows.x_of(at) for at in (move.start - cost.hold, move.start, move.end))
    stop = rows.x_of(move.end - cost.downtime)
    down = min(stop, end - LEAST_DOWN)
    lines = [
        f"<g><title>{html.escape(told(move, opens))}</title>",
        *([rectangle("held", free, y + rows.bar / 3, begin - free, rows.bar / 3)] if cost.hold else []),
        rectangle(kind_of(move), begin, y, max(end - begin, LEAST_DOWN), rows.bar),
        *(upright("round", rows.x_of(at), y, y + rows.bar) for at in ends if begin < rows.x_of(at) < stop),
        rectangle("down", down, y, end - down, rows.bar),
    ]
    return [*lines, *names(move.guest.name, end, moment(move.end, opens), rows, y), "</g>"]


def names(name: str, end: float, told: str, rows: Rows, y: float) -> list[str]:
    """The name before the bar of a guest, and what is told behind it."""
    if rows.height < LEAST_TEXT:
        return []
    at = y + rows.bar / 2 + 4
    return [
        f'<text x="{LEFT - 8}" y="{at:.1f}" text-anchor="end">{html.escape(ellipsis(name))}</text>',
        f'<text class="end" x="{end + 5:.1f}" y="{at:.1f}">{told}</text>',
    ]


def keys(kinds: set[str], known: dict[str, tuple[str, int]]) -> list[str]:
    """What the colors mean, of those that are there."""
    lines, x = [], float(LEFT)
    for kind, (told, width) in known.items():
        if kind in kinds:
            lines += [rectangle(kind, x, 36, 10, 10), f'<text class="note" x="{x + 15:g}" y="45">{told}</text>']
            x += width
    return lines


def marks(seconds: float) -> list[tuple[float, str]]:
    """The round numbers of seconds, at most ten of them."""
    step, at, found = round_above(max(seconds, 1e-3) / 10), 0.0, []
    while at <= seconds * (1 + 1e-9):
        found.append((at, f"{at:g}"))
        at = round(at + step, 9)
    return found


def axis(rows: Rows, opens: float) -> list[str]:
    """A line for each round number of seconds, or for each round time of day if the schedule opens at one."""
    lines, seconds = [], rows.end / 1e6
    for at, words in clock_marks(opens, seconds, CLOCK_LINES) if opens else marks(seconds):
        x = rows.x_of(at * 1e6)
        lines.append(upright("grid", x, TOP - 6, rows.bottom))
        lines.append(f'<text class="note" x="{x:.1f}" y="{rows.bottom + 18:g}" text-anchor="middle">{words}</text>')
    end = f'x="{WIDTH - RIGHT:g}" y="{rows.bottom + 36:g}" text-anchor="end"'
    return [*lines, f'<text class="note" {end}>{"UTC" if opens else "seconds"}</text>']


def limit(rows: Rows, deadline: int) -> list[str]:
    """The deadline, if there is one and it is within the picture."""
    if not 0 < deadline <= rows.end:
        return []
    x = rows.x_of(deadline)
    told = f'<text class="note" x="{x:.1f}" y="{TOP - 9}" text-anchor="middle">deadline</text>'
    return [upright("limit", x, TOP - 6, rows.bottom), told]


def page(rows: Rows, title: str, parts: list[str]) -> str:
    """A whole picture."""
    height = math.ceil(rows.bottom + BELOW)
    head = [STYLE, '<rect class="paper" width="100%" height="100%"/>']
    text = f'<text x="{LEFT}" y="24" font-size="15">{html.escape(title)}</text>'
    return picture(WIDTH, height, [*head, text, *parts])


def drawn(moves: list[Placed], ends: dict[str, list[int]], title: str, deadline: int, opens: float) -> str:
    """The picture of some moves: at least one. `ends` are those of each guest's rounds, in microseconds; a deadline of
    0 is none. If they open at a time in Unix seconds, times are those of the day."""
    rows = Rows(max(move.end for move in moves), len(moves))
    of_guests = [(move, ends.get(move.guest.name, []), rows.y_of(number)) for number, move in enumerate(moves)]
    bars = [bar(move, of_guest, rows, y, opens) for move, of_guest, y in of_guests]
    kinds = {"down", *map(kind_of, moves), *("held" for move in moves if move.cost.hold)}
    known = KEYS if any(ends.values()) else WITHOUT_ROUNDS
    parts = [*keys(kinds, known), *axis(rows, opens), *limit(rows, deadline)]
    return page(rows, title, [*parts, *(line for each in bars for line in each)])
