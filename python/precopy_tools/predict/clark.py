"""By whose plan a migration goes: a hypervisor's looks, or with --clark Clark's rounds, and the options of these."""

import argparse
from typing import NamedTuple

from precopy_tools import words
from precopy_tools.predict.plans import MOST_RATE, ROUNDS

NEEDED = "--first, --inc, --rounds and --skip are of Clark's rounds, and need --clark"
LOOKS, OF_ROUNDS = "looks", "rounds"  # the plans, as precopy-view calls them


class Pace(NamedTuple):
    """How Clark's rounds go: bytes a second of the first one, what is added to a rate, in pages of the trace in 1,000
    of its ticks, the most rounds, and whether pages that are written again are skipped."""

    first: float | None = None
    increment: int | None = None
    rounds: int = ROUNDS
    skips: bool = False

    def words(self, bandwidth: float, factor: int = 1) -> list[str]:
        """The words of precopy-view over a link of so many bytes a second, which no round exceeds, if ticks are longer
        by a factor."""
        found = [] if self.first is None else ["--first", words.given_rate(min(self.first, bandwidth))]
        found += [] if self.increment is None else ["--inc", str(min(self.increment * factor, MOST_RATE))]
        return [*found, "--rounds", str(self.rounds), *["--skip"] * self.skips]


def add_to(parser: argparse.ArgumentParser) -> None:
    add = parser.add_argument
    add("--clark", action="store_true", help="plan by Clark's rounds, in place of a hypervisor's looks")
    add("--first", metavar="RATE", type=words.link, help="of --clark: the rate of the first round (--link)")
    add("--inc", metavar="N", type=increment, help="of --clark: what is added to a rate, in pages per 1,000 ticks")
    add("--rounds", metavar="N", type=rounds, help=f"of --clark: the most rounds ({ROUNDS})")
    add("--skip", action="store_true", help="of --clark: skip pages that are written again in their round")


def increment(word: str) -> int:
    return at_most(words.seed(word), MOST_RATE)


def rounds(word: str) -> int:
    return at_most(words.count(word), ROUNDS)


def at_most(number: int, most: int) -> int:
    if number > most:
        raise argparse.ArgumentTypeError(f"{number:,} is more than {most:,}")
    return number


def pace_of(parser: argparse.ArgumentParser, options: argparse.Namespace) -> Pace | None:
    """How Clark's rounds go, or nothing if a hypervisor's looks are asked for."""
    given = (options.first, options.inc, options.rounds)
    if options.clark:
        return Pace(options.first, options.inc, options.rounds or ROUNDS, options.skip)
    if options.skip or given != (None, None, None):
        parser.error(NEEDED)
    return None


def plan_of(pace: Pace | None) -> str:
    """The name of a plan."""
    return LOOKS if pace is None else OF_ROUNDS
