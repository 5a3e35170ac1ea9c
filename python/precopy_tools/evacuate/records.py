"""Which record stands for each guest: a file of its own, or one of the segments of a series.

A guest whose recording goes on has many segments. The last of them stands for it, unless it is less than half as long
as the longest: a recorder that has just begun, or was ended, leaves such a one.
"""

import datetime
import json
import os
import re

from precopy_tools.formats import samples
from precopy_tools.record import series

STAMP = re.compile(r"\.\d{8}T\d{6}Z$")
LIGHT, LEAST_PART = ".light.pcwt", 0.5


def name_of(path: str) -> str:
    """The guest of a record: the name of the file, without the time of a segment."""
    return STAMP.sub("", os.path.basename(path).removesuffix(".pcwt").removesuffix(".light"))


def begun_at(path: str) -> datetime.datetime | None:
    """When a segment began, as its name says; None of a file that is no segment."""
    stamp = STAMP.search(path.removesuffix(LIGHT)) if path.endswith(LIGHT) else None
    try:
        return datetime.datetime.strptime(stamp[0][1:] + "+0000", series.STAMP + "%z") if stamp else None
    except ValueError:
        return None


def is_segment(path: str) -> bool:
    return begun_at(path) is not None


def seconds_of(path: str) -> float:
    """How long a segment is, as its NAME.json says; 0 if that cannot be read."""
    try:
        with open(samples.path_beside(path), "rb") as file:
            fields = json.load(file)
        return float((fields["last_tick"] - fields["first_tick"]) * fields["tick_seconds"])
    except (OSError, ValueError, TypeError, KeyError, RecursionError):
        return 0.0


def last_of(paths: list[str]) -> str:
    """The segment that stands for a guest."""
    if len(paths) == 1:
        return paths[0]
    # What was named by a clock that was ahead goes first.
    now = datetime.datetime.now(datetime.timezone.utc)
    in_order = sorted(paths, key=lambda path: ((begun_at(path) or now) <= now, path))
    lengths = [seconds_of(path) for path in in_order]
    return next(
        (path for path, length in reversed([*zip(in_order, lengths)]) if length >= LEAST_PART * max(lengths)), ""
    )


def groups_of(given: list[str]) -> list[list[str]]:
    """The records and the files of costs among some words, in their order: the name of a series is that of its
    segments, and the segments of one series are one group."""
    groups: dict[str, list[str]] = {}
    for path in series.named(given):
        folder = os.path.dirname(os.path.abspath(path))
        groups.setdefault(os.path.join(folder, name_of(path)) if is_segment(path) else path, []).append(path)
    return [list(dict.fromkeys(paths)) for paths in groups.values()]


def chosen(given: list[str]) -> tuple[list[str], list[str]]:
    """One record of each guest. Lines say which segment stands for a guest."""
    groups = groups_of(given)
    found = list(map(last_of, groups))
    told = [
        f"{name_of(path)}: {os.path.basename(path)} stands for {len(paths):,} segments"
        for path, paths in zip(found, groups)
        if len(paths) > 1
    ]
    return found, told
