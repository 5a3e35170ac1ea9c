"""What plans come to, by a hypervisor's looks or by Clark's rounds, as `specs/Courses.antt` of `predictions` defines
it, by plans page by page.

It shares no code with the crate. The numbers in the crate's tests come from here.
"""

from enum import Enum
from functools import cached_property
from typing import NamedTuple

from precopy_dev.models import looks, redrawn
from precopy_dev.models.redrawn import Outcome, Scale, Settings

MOST_LOOKS = 2_000
LONGEST = 4_194_303_999  # ticks, of the record of a plan of looks
WINDOW = 100_000  # how often a hypervisor asks how many pages are left, in microseconds


class Manner(Enum):
    """By whose plan a migration goes: a hypervisor's, which looks at its dirty bitmap, or Clark's, round by round."""

    LOOKS = "looks"
    ROUNDS = "rounds"


class Course(NamedTuple):
    """Why a plan ends, how many rounds or looks there are, the tick of the stop, the ticks of the downtime, and the
    pages that are sent. It ends with `few`, `fast` or `most`; or the record ends first: `cut` if the list under way
    then has fewer pages than each list before it but the first, and else `level`."""

    ending: str
    steps: int
    stop: int
    down: int
    total: int


def of_outcome(plan: Outcome) -> Course:
    ending = "most" if plan.reason == "rounds" else plan.reason
    return Course(ending, plan.rounds, plan.stop, plan.down, plan.total)


def ending_of(plan: looks.Plan) -> str:
    if plan.reason == "record":
        under_way = plan.lists[-1]
        shortens = all(len(under_way.pages) < len(sent.pages) for sent in plan.lists[1:-1])
        return "cut" if shortens else "level"
    return "most" if plan.reason == "looks" else plan.reason


def of_plan(plan: looks.Plan) -> Course:
    """What a plan of looks comes to. One that the record cuts stops after it."""
    ending = ending_of(plan)
    steps = len(plan.lists) - (plan.reason == "record")
    return Course(ending, steps, plan.stop + (ending == "cut"), plan.down, plan.sent() + len(plan.last))


def stops(course: Course, manner: Manner) -> bool:
    """Whether the guest is stopped by a plan that comes to this. A hypervisor that has no look left has not stopped it,
    nor has one whose plan the record ends: such a plan keeps no limit."""
    return course.ending in ("few", "fast") or (course.ending == "most" and manner is Manner.ROUNDS)


def word_of(course: Course, manner: Manner) -> str:
    """Why a plan ends, as programs tell it: `most` is `rounds` or `looks`."""
    return manner.value if course.ending == "most" else course.ending


def look_settings(asked: Settings, scale: Scale, last: int) -> looks.Settings:
    """The settings of a hypervisor, which sends with the whole link from the first list on."""
    end = max(asked.start, min(last, asked.start + LONGEST))
    return looks.Settings(
        asked.greatest, WINDOW // scale.tick, asked.threshold, end, asked.start, asked.base, MOST_LOOKS
    )


class Record:
    """A guest by the ticks at which each of its pages is written, and the last tick of all that was recorded."""

    def __init__(self, guest: list[list[int]], last: int | None = None):
        self.guest = guest
        self.last = max((ticks[-1] for ticks in guest if ticks), default=0) if last is None else last

    @cached_property
    def touches(self) -> looks.Touches:
        return sorted((tick, page) for page, ticks in enumerate(self.guest) for tick in ticks)

    def drawn(self, pages: list[int]) -> "Record":
        """The guest that consists of some of the pages, over the same record."""
        return Record([self.guest[page] for page in pages], self.last)

    def course(self, asked: Settings, scale: Scale, manner: Manner) -> Course:
        if manner is Manner.ROUNDS:
            return of_outcome(redrawn.planned(self.guest, asked))
        return of_plan(looks.plan(len(self.guest), self.touches, look_settings(asked, scale, self.last)))

    def left(self, asked: Settings, scale: Scale, manner: Manner) -> int:
        """How many pages are left when a plan ends."""
        if manner is Manner.ROUNDS:
            return redrawn.planned(self.guest, asked).left
        return len(looks.plan(len(self.guest), self.touches, look_settings(asked, scale, self.last)).last)

    def redrawn(self, asked: Settings, scale: Scale, manner: Manner) -> list[Course]:
        """What the plans of the guests come to whose pages are drawn again."""
        draws = redrawn.draws(scale.sampled, len(self.guest))
        return [self.drawn(pages).course(asked, scale, manner) for pages in draws]

    def verdict(self, course: Course) -> str:
        """Whether a plan converges that comes to this."""
        if course.stop > self.last:
            return "unknown"
        return "yes" if course.ending == "few" else "no"


def errors(guest: list[list[int]], asked: Settings, scale: Scale, manner: Manner) -> tuple[int, int, int]:
    """The standard errors of bytes, time and downtime, in bytes and microseconds."""
    return redrawn.errors_of(Record(guest).redrawn(asked, scale, manner), asked.start, scale)
