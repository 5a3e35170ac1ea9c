"""A picture, in SVG, of a run: for each guest what was planned, and below it what was."""

import html

from precopy_tools.evacuate import chart
from precopy_tools.evacuate.chart import Rows, rectangle
from precopy_tools.evacuate.outcome import Moved, Outcome, apart
from precopy_tools.quantities import size_text, time_text

ROW = 36
KEYS = {
    "planned": ("planned", 80),
    "moving": ("moved", 75),
    "missed": ("has not moved", 115),
    "lost": ("not known", 90),
    "down": ("downtime, drawn at least two dots wide", 0),
}


def kind_of(move: Moved) -> str:
    return {"moved": "moving", "lost": "lost"}.get(move.state, "missed")


def bar_of(kind: str, begin: float, end: float, y: float, height: float) -> str:
    return rectangle(kind, begin, y, max(end - begin, chart.LEAST_DOWN), height)


def downtime_of(rows: Rows, end: int, downtime: int, y: float, height: float) -> str:
    """The downtime at the end of a bar."""
    x = rows.x_of(end)
    begin = min(rows.x_of(end - downtime), x - chart.LEAST_DOWN)
    return rectangle("down", begin, y, x - begin, height)


def told(move: Moved, opens: float) -> str:
    """What is told of a guest where it is pointed at."""
    name, planned = move.planned.guest.name, move.planned
    times = [chart.moment(at, opens) for at in (planned.start, planned.end, move.start, move.end)]
    plan = f"planned {times[0]} to {times[1]}, {size_text(planned.cost.sent)}"
    if move.state == "not begun":
        return f"{name}: {plan}; not begun"
    was = f"{times[2]} to {times[3]}, {size_text(move.sent)}"
    down = "" if move.downtime is None else f", downtime {time_text(move.downtime)}"
    return f"{name}: {plan}; {move.state}, {was}{down}" + (f"; {move.why}" if move.why else "")


def behind(move: Moved) -> str:
    """What stands behind the bars of a guest: by how much the plan is above what was, or how it ended."""
    planned = move.planned
    return f"plan {apart(planned.cost.time, move.end - move.start)}" if move.is_moved else move.state


def pair(move: Moved, rows: Rows, y: float, opens: float) -> list[str]:
    """The two bars of a guest: the upper one is planned, and the lower one is what was."""
    planned, half = move.planned, rows.bar / 2
    begin, end = rows.x_of(planned.start), rows.x_of(planned.end)
    lines = [
        f"<g><title>{html.escape(told(move, opens))}</title>",
        bar_of("planned", begin, end, y, half),
        downtime_of(rows, planned.end, planned.cost.downtime, y, half),
    ]
    if move.state != "not begun":
        lines.append(bar_of(kind_of(move), rows.x_of(move.start), rows.x_of(move.end), y + half, half))
        end = max(end, rows.x_of(move.end))
    if move.is_moved and move.downtime is not None:
        lines.append(downtime_of(rows, move.end, move.downtime, y + half, half))
    return [*lines, *chart.names(planned.guest.name, end, behind(move), rows, y), "</g>"]


def drawn(outcome: Outcome, title: str, opens: float) -> str:
    """The picture of a run. If it opened at a time in Unix seconds, times are those of the day."""
    moves = outcome.moves
    rows = Rows(max(max(move.planned.end, move.end) for move in moves), len(moves), ROW)
    pairs = [pair(move, rows, rows.y_of(number), opens) for number, move in enumerate(moves)]
    kinds = {"planned", "down", *(kind_of(move) for move in moves if move.state != "not begun")}
    return chart.page(
        rows, title, [*chart.keys(kinds, KEYS), *chart.axis(rows, opens), *(line for each in pairs for line in each)]
    )
