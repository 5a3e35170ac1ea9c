"""What is enough for the limit of a migration, by the model of python/precopy_dev/models/remedies.py, which makes plans
page by page."""

from fractions import Fraction

from precopy_dev.models.remedies import Remedies

LINES = {
    "asked": "enough: what is asked; by its plan alone also one of these, changed alone",
    "other": "enough: by its plan alone, one of these, changed alone",
    "nothing": "enough: nothing that was tried",
    "unknown": "enough: unknown, since the trace ends before the migration does",
    "uncertain": "enough: uncertain; give more of the link, or a longer downtime",
}


def answer_of(found: Remedies, sure: bool) -> str:
    """What is enough; `sure` says whether what is asked surely is."""
    if sure:
        return "asked"
    if not found.ending.ends:
        return "unknown"
    if found.is_kept:
        return "uncertain"
    return "nothing" if found[1:4] == (None, None, None) else "other"


def amounts(found: Remedies) -> list[tuple[int, str, str, int | Fraction]]:
    """The amounts that were found, each with its line, its member, and how much of that it comes to."""
    ending = found.ending
    some = [
        (found.link, "enough: --link {}Kbit", "link_bytes", 125),
        (found.downtime, "enough: --downtime {}us", "down_seconds", Fraction(1, 1_000_000)),
        (found.speed, "enough: the guest slowed to {} per cent of its speed", "guest_percent", 1),
        (ending.link, "enough to end within the trace: --link {}Kbit", "ending_link_bytes", 125),
        (ending.start, "enough to end within the trace: --start {}", "ending_start", 1),
    ]
    return [each for each in some if each[0] is not None]


def enough_lines(found: Remedies, sure: bool) -> list[str]:
    """The lines of `precopy-view predict`."""
    answer = answer_of(found, sure)
    some = [] if answer == "uncertain" else amounts(found)
    return [LINES[answer], *(line.format(amount) for amount, line, *_ in some)]


def enough_member(found: Remedies, sure: bool) -> dict:
    """The member of `precopy-view json predict`."""
    answer = answer_of(found, sure)
    some = [] if answer == "uncertain" else amounts(found)
    return {"answer": answer, **{name: each * amount for amount, _, name, each in some}}
