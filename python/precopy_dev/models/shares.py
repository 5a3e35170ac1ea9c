"""At which shares of its link a migration has one verdict, as `specs/Shares.antt` of `predictions` defines it, by plans
page by page.

It shares no code with the crate. The numbers in the crate's tests come from here.
"""

from typing import NamedTuple

from precopy_dev.models.courses import Record
from precopy_dev.models.remedies import Trial, course


class LinkShare(NamedTuple):
    """The verdict at all of the link, the least share from which on it is that, and the verdict below, if one is
    tried."""

    verdict: str
    share: int
    below: str | None


def over_share(trial: Trial, percent: int) -> Trial:
    limits = trial.limits
    link = limits.link * percent // 100
    first = None if limits.first is None else min(limits.first, link)
    return trial._replace(limits=limits._replace(link=link, first=first))


def verdict(record: Record, trial: Trial) -> str:
    """Whether a trial converges."""
    plan = course(record, trial)
    return "no" if plan is None else record.verdict(plan)


def link_share(guest: list[list[int]], trial: Trial) -> LinkShare:
    """The shares, over a guest of which it is known when each page is written."""
    record = Record(guest)
    whole = verdict(record, over_share(trial, 100))
    tried = ((percent, verdict(record, over_share(trial, percent))) for percent in range(99, 49, -1))
    turned = next(((percent, told) for percent, told in tried if told != whole), None)
    return LinkShare(whole, turned[0] + 1, turned[1]) if turned else LinkShare(whole, 50, None)
