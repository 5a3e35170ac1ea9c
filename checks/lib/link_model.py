"""A plain model of a link whose rate changes, as `crates/link_clock/specs` defines it: what it sends is added up by
ticks, and plans go page by page over writes by its clock. It shares no code with the tools."""

from bisect import bisect_left
from fractions import Fraction
from typing import NamedTuple, Optional

from precopy_dev.models import courses, looks

FACTORS, MOST_RATE, MOST_LOOKS = (1, 2, 5, 10, 20), 1_000_000, 2_000


class Clock:
    """A link by the thousandths of a page that it has sent before each tick."""

    def __init__(self, rate: int, changes: list[tuple[int, int]]):
        self.rate, self.sent = rate, [0]
        self.changes, self.now = dict(changes), rate

    def _go_on(self) -> None:
        self.now = self.changes.get(len(self.sent) - 1, self.now)
        self.sent.append(self.sent[-1] + self.now)

    def before(self, tick: int) -> int:
        while len(self.sent) <= tick:
            self._go_on()
        return self.sent[tick]

    def shows(self, tick: int) -> int:
        return self.before(tick) // self.rate

    def first(self, amount: int) -> int:
        """The first tick before which so much is sent."""
        while self.sent[-1] < amount:
            self._go_on()
        return bisect_left(self.sent, amount)


class Scale(NamedTuple):
    """Microseconds of a tick of the record, bytes of a page, and how many pages of the guest's were drawn."""

    tick: int
    page: int
    sampled: int
    guest: int

    def pages(self, bandwidth: int, factor: int) -> Fraction:
        """Pages in 1,000 ticks that are longer by a factor."""
        return Fraction(bandwidth * self.tick * factor * self.sampled, 1000 * self.page * self.guest)


class Link(NamedTuple):
    """Bytes a second from so many microseconds after the first look on; the greatest and the lowest that it can have;
    and the limit of the downtime in microseconds."""

    steps: list[tuple[int, int]]
    greatest: int
    lowest: int
    downtime: int


def fitting(scale: Scale, link: Link) -> list[int]:
    """By how much ticks may be made longer: the limit has whole ones. If rates differ, the limit at the greatest has at
    least four, or the lowest rate is a hundred at most; and no rate is above a million."""
    whole = [
        each for each in FACTORS if not link.downtime % (scale.tick * each) and scale.tick * each <= 1_000_000
    ] or [1]
    if link.greatest == link.lowest:
        return whole

    def is_fine(factor: int) -> bool:
        most = int(MOST_RATE / scale.pages(125, factor)) * 125
        ticks = Fraction(link.downtime * link.lowest, link.greatest * scale.tick * factor)
        return link.greatest <= most and (ticks >= 4 or int(scale.pages(link.lowest, factor)) <= 100)

    return [each for each in whole if is_fine(each)] or whole[:1]


class Asked(NamedTuple):
    """A question in longer ticks: by how much, the clock of the link, and the threshold."""

    factor: int
    clock: Clock
    threshold: int


def asked_of(scale: Scale, link: Link) -> Optional[Asked]:
    """The question about a link, or nothing if no plan can have a rate."""
    factors = fitting(scale, link)
    lowest = scale.pages(link.lowest, 1)
    factor = next((each for each in factors if lowest * each >= 500), factors[-1])
    tick, rate = scale.tick * factor, int(scale.pages(link.greatest, factor))
    if not 1 <= int(lowest * factor) or rate > MOST_RATE:
        return None
    changes = [(at // tick, int(scale.pages(bandwidth, factor))) for at, bandwidth in link.steps]
    limit = max(1, link.downtime * int(lowest * factor) // (rate * tick))
    limit = min(limit, (1000 * 65_536 - 1) // rate)
    return Asked(factor, Clock(rate, changes), limit * rate // 1000 + 1)


class Course(NamedTuple):
    """Why a plan ends, after how many looks, at which tick; the ticks of the downtime, pages left then, and sent."""

    ending: str
    looks: int
    stop: int
    down: int
    left: int
    total: int


def course(pages: int, touches: looks.Touches, asked: Asked, tick: int, span: tuple[int, int], base=None) -> Course:
    """The plan from one tick of a record to its last look, of touches in longer ticks of so many microseconds."""
    clock, (start, last) = asked.clock, span
    by_clock = [(clock.shows(at), page) for at, page in touches]
    window = 100_000 // tick
    base = None if base is None else clock.shows(base)
    settings = looks.Settings(
        clock.rate, window, asked.threshold, clock.shows(last), clock.shows(start), base, MOST_LOOKS
    )
    plan = looks.plan(pages, by_clock, settings)
    stop, left = clock.first(clock.rate * plan.stop), len(plan.last)
    down = clock.first(clock.before(stop) + 1000 * left) - stop
    count = len(plan.lists) - (plan.reason == "record")
    return Course(courses.ending_of(plan), count, stop, down, left, plan.sent() + left)
