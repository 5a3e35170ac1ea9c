"""A picture, in SVG, of what a migration costs by the time of day at which it begins."""

import datetime
import html
from typing import NamedTuple

from precopy_tools.pictures import clock_marks, picture, round_above

WIDTH, LEFT, RIGHT, TOP = 900, 90, 20, 50
HEIGHT, GAP, BELOW = 150, 45, 40
KEPT, NOT_KEPT, AXIS = "#2166ac", "#b2182b", "#666"
DAY = datetime.timedelta(days=1)
CLOCK_LINES = 12


class Start(NamedTuple):
    """A migration that begins at a moment, in UTC: its bytes, its time and downtime in seconds, and whether it keeps
    its limit."""

    moment: datetime.datetime
    sent: float
    seconds: float
    downtime: float
    kept: bool


PANELS = (
    ("sent, MiB", lambda start: start.sent / (1 << 20)),
    ("time, s", lambda start: start.seconds),
    ("downtime, ms", lambda start: 1000 * start.downtime),
)


class Axis(NamedTuple):
    """The times that are shown: of one day, from midnight on, if the starts are of more than a day."""

    begin: datetime.datetime
    end: datetime.datetime
    is_of_day: bool

    def place(self, moment: datetime.datetime) -> float:
        if self.is_of_day:
            moment = self.begin + (moment - moment.replace(hour=0, minute=0, second=0, microsecond=0))
        return LEFT + (moment - self.begin) / (self.end - self.begin) * (WIDTH - LEFT - RIGHT)

    def labels(self) -> list[tuple[float, str]]:
        seconds = (self.end - self.begin).total_seconds()
        return [
            (LEFT + at / seconds * (WIDTH - LEFT - RIGHT), "24:00" if self.is_of_day and at == seconds else text)
            for at, text in clock_marks(self.begin.timestamp(), seconds, CLOCK_LINES)
        ]


def axis_of(starts: list[Start]) -> Axis:
    begin, end = min(start.moment for start in starts), max(start.moment for start in starts)
    if end - begin >= DAY:
        midnight = begin.replace(hour=0, minute=0, second=0, microsecond=0)
        return Axis(midnight, midnight + DAY, True)
    return Axis(begin, max(end, begin + datetime.timedelta(seconds=1)), False)


def panel(title: str, places: list[float], values: list[float], starts: list[Start], y: int) -> list[str]:
    """One value by time: a dot for each start, and a scale."""
    top, right = round_above(max(values)) if max(values) > 0 else 1.0, WIDTH - RIGHT
    lines = [f'<text x="{LEFT}" y="{y - 8}" font-weight="bold">{html.escape(title)}</text>']
    for part in (0, 0.5, 1):
        at = y + HEIGHT * (1 - part)
        lines.append(f'<line x1="{LEFT}" x2="{right}" y1="{at:g}" y2="{at:g}" stroke="#ddd"/>')
        lines.append(f'<text x="{LEFT - 6}" y="{at + 4:g}" text-anchor="end" fill="{AXIS}">{top * part:g}</text>')
    for place, value, start in zip(places, values, starts):
        told = f"{start.moment:%Y-%m-%d %H:%M:%S}: {value:.1f}"
        color, at = KEPT if start.kept else NOT_KEPT, y + HEIGHT * (1 - value / top)
        lines.append(f'<circle cx="{place:.1f}" cy="{at:.1f}" r="2.5" fill="{color}"><title>{told}</title></circle>')
    return lines


def drawn(starts: list[Start], title: str) -> str:
    """The picture of some starts: at least one."""
    axis, y = axis_of(starts), TOP + 20
    places = [axis.place(start.moment) for start in starts]
    lines = [f'<text x="{LEFT}" y="22" font-size="15">{html.escape(title)}</text>']
    days = "time of day" if axis.is_of_day else f"{axis.begin:%Y-%m-%d}"
    note = f"{days}, UTC; a dot is a migration that begins then; red ones do not keep the limit"
    lines.append(f'<text x="{LEFT}" y="40" fill="{AXIS}">{note}</text>')
    for name, value_of in PANELS:
        lines += panel(name, places, [value_of(start) for start in starts], starts, y)
        y += HEIGHT + GAP
    bottom = y - GAP
    for place, text in axis.labels():
        lines.append(f'<line x1="{place:.1f}" x2="{place:.1f}" y1="{TOP + 20}" y2="{bottom}" stroke="#eee"/>')
        lines.append(f'<text x="{place:.1f}" y="{bottom + 18}" text-anchor="middle" fill="{AXIS}">{text}</text>')
    return picture(WIDTH, bottom + BELOW, ['<rect width="100%" height="100%" fill="white"/>', *lines])
