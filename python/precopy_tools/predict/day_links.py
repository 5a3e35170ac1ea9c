"""A link by the time of day: a rate from midnight UTC on, and others from times of day on, each day again."""

import argparse
import datetime
import re
from collections.abc import Iterator
from typing import NamedTuple

from precopy_tools import words
from precopy_tools.predict.changing import Step

CLOCK = re.compile(r"([01]\d|2[0-3]):([0-5]\d)(?::([0-5]\d))?")
DAY = datetime.timedelta(days=1)
MICRO = datetime.timedelta(microseconds=1)


class Part(NamedTuple):
    """From a second of the day on, a link has so many bytes a second. Without a second it is a plain rate."""

    second: int | None
    bandwidth: float


class DayLink(NamedTuple):
    """The parts of a day, of which the first begins at midnight."""

    parts: tuple[Part, ...]

    def at(self, moment: datetime.datetime) -> float:
        """Its bytes a second at a moment."""
        since = moment - midnight_of(moment)
        return [part.bandwidth for part in self.parts if datetime.timedelta(seconds=part.second) <= since][-1]

    def moments(self, begin: datetime.datetime, end: datetime.datetime) -> Iterator[tuple[datetime.datetime, float]]:
        """When parts of a day begin, after one moment and up to another, and their bytes a second."""
        day = midnight_of(begin)
        while day <= end:
            for part in self.parts:
                moment = day + datetime.timedelta(seconds=part.second)
                if begin < moment <= end:
                    yield moment, part.bandwidth
            day += DAY

    def steps(self, looked: datetime.datetime, begin: datetime.datetime, end: datetime.datetime) -> list[Step]:
        """The steps of the link for a recording whose first look was at a moment, from its begin to its last look: one
        if it does not change meanwhile. What it is at the begin counts before that."""
        found = [Step(0, self.at(begin))]
        for moment, bandwidth in self.moments(begin, end):
            if bandwidth != found[-1].bandwidth:
                found.append(Step((moment - looked) // MICRO, bandwidth))
        return found


def midnight_of(moment: datetime.datetime) -> datetime.datetime:
    return moment.replace(hour=0, minute=0, second=0, microsecond=0)


def clock_text(second: int) -> str:
    return f"{second // 3600:02}:{second // 60 % 60:02}:{second % 60:02}"


def part(word: str) -> Part:
    """A rate, or a time of day in UTC and the rate from then on, as 02:00=2Gbit."""
    clock, equals, rate = word.rpartition("=")
    if not equals:
        return Part(None, words.link(word))
    match = CLOCK.fullmatch(clock)
    if not match:
        raise argparse.ArgumentTypeError(f"{clock!r} is no time of day, as 02:00 or 02:00:30")
    hours, minutes, seconds = (int(group or 0) for group in match.groups())
    return Part(3600 * hours + 60 * minutes + seconds, words.link(rate))


def link_of(parser: argparse.ArgumentParser, parts: list[Part]) -> DayLink:
    """The link of all words of --link: one plain rate, and times of day that differ."""
    plain = [each for each in parts if each.second is None]
    if len(plain) != 1:
        parser.error(f"--link: one plain RATE is needed, and there {'are ' + str(len(plain)) if plain else 'is none'}")
    ordered = sorted(each._replace(second=each.second or 0) for each in parts)
    for one, other in zip(ordered, ordered[1:]):
        if one.second == other.second:
            has_plain = "; the plain RATE is from then on" if not one.second else ""
            parser.error(f"--link: two rates are from {clock_text(one.second)} on{has_plain}")
    return DayLink(tuple(ordered))
