"""The settings of an evacuation, as a small file of JSON:

    {"reserve": "1Gbit", "apart": [["db-a", "db-b"]],
     "guests": {"db-a": {"downtime": "100ms", "time": "2m", "link": "5Gbit", "copy": 1, "domain": "db",
                         "monitor": "/run/db-a.qmp", "to": "tcp:b:4444"}}}

`reserve` of the link is left to others. Of the guests of a list in `apart` one moves at a time. A guest may have its
own limits; a copy at the destination, by how old it is when the migration begins, as "10s", or by the tick of the
record from which on it differs; another name as a domain; and its own monitor and destination.
"""

from collections.abc import Callable
from typing import NamedTuple

from precopy_tools import refusals, words
from precopy_tools.evacuate import ways
from precopy_tools.evacuate.costs import Wanted, is_name
from precopy_tools.evacuate.ways import Way
from precopy_tools.refusals import Refused

WHOLE = {"reserve", "apart", "guests"}
GUEST = {"downtime", "time", "link", "copy", "domain", "monitor", "to"}


class Settings(NamedTuple):
    reserve: float = 0.0
    apart: tuple[tuple[str, ...], ...] = ()
    guests: dict[str, dict] = {}
    ways: dict[str, Way] = {}

    def limits_of(self, downtime: float) -> Callable[[str], Wanted]:
        return lambda name: Wanted(**{"downtime": downtime, **self.guests.get(name, {})})

    def groups(self) -> dict[str, int]:
        """The numbers, from 1 on, of the lists in which guests are."""
        return {name: number for number, names in enumerate(self.apart, 1) for name in names}


def quantity(path: str, name: str, value: object, parse: Callable[[str], float]) -> float:
    return text(path, name, value if isinstance(value, str) else repr(value), parse)


def text(path: str, name: str, value: object, parse: Callable):
    """What a word of the settings says."""
    return refusals.expect_word(f"{path}: {name}", value, parse)


def guest_of(path: str, name: str, value: object) -> dict:
    fields = refusals.expect_object(f"{path}: guests: {name}", value, GUEST, "setting")
    found = {}
    for field, parse in (("downtime", words.seconds), ("time", words.seconds), ("link", words.link)):
        if field in fields:
            found[field] = quantity(path, f"guests: {name}: {field}", fields[field], parse)
    copy = fields.get("copy")
    if isinstance(copy, str):
        found["age"] = quantity(path, f"guests: {name}: copy", copy, words.seconds)
    elif copy is not None:
        if type(copy) is not int or not 0 <= copy < 1 << 40:
            raise Refused(f"{path}: guests: {name}: copy is no tick: {copy!r}")
        found["base"] = copy
    domain = fields.get("domain")
    if domain is not None:
        if not is_name(domain):
            raise Refused(f"{path}: guests: {name}: domain is no name: {domain!r}")
        found["domain"] = domain
    return found


def way_of(path: str, name: str, fields: dict) -> Way:
    """The monitor and the destination of a guest, as far as they are its own."""
    found = {}
    for field in Way._fields:
        if field in fields:
            value = fields[field]
            found[field] = text(path, f"guests: {name}: {field}", value, ways.template)
    return Way(**found)


def apart_of(path: str, lists: object) -> tuple[tuple[str, ...], ...]:
    is_lists = isinstance(lists, list) and all(isinstance(names, list) and len(names) > 1 for names in lists)
    if not is_lists or not all(isinstance(name, str) for names in lists for name in names):
        raise Refused(f"{path}: apart is no list of lists of two or more guests")
    seen = set()
    for name in (name for names in lists for name in names):
        if name in seen:
            raise Refused(f"{path}: apart: {name} stands there twice; join the lists")
        seen.add(name)
    return tuple(map(tuple, lists))


def read(path: str) -> Settings:
    fields = refusals.object_in(path, WHOLE, "setting")
    guests = fields.get("guests", {})
    if not isinstance(guests, dict):
        raise Refused(f"{path}: guests is no JSON object")
    reserve = quantity(path, "reserve", fields["reserve"], words.link) if "reserve" in fields else 0.0
    return Settings(
        reserve,
        apart_of(path, fields.get("apart", [])),
        {name: guest_of(path, name, each) for name, each in guests.items()},
        {name: way_of(path, name, each) for name, each in guests.items()},
    )


def expect_known(path: str, settings: Settings, names: set[str]) -> None:
    """Every guest that the settings name has a record."""
    for name in [*settings.guests, *(name for names in settings.apart for name in names)]:
        if name not in names:
            raise Refused(f"{path}: there is no record of the guest {name}")
