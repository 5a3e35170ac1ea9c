"""The limits of tools/watch: a file of TOML, as its help shows one."""

import os
from typing import NamedTuple

try:
    import tomllib
except ModuleNotFoundError:  # before Python 3.11
    tomllib = None

from precopy_tools import refusals, version, words
from precopy_tools.formats import traces
from precopy_tools.refusals import Refused

WHOLE = {"default", "guests"}
QUANTITIES = {"link": words.link, "downtime": words.seconds, "time": words.seconds}
GUEST = {*QUANTITIES, "watch"}


class Limits(NamedTuple):
    """Of one guest: bytes a second, the longest downtime and the longest time in seconds, and whether it is watched."""

    link: float
    downtime: float = 0.3
    time: float | None = None
    is_watched: bool = True


class Host(NamedTuple):
    """The limits of all guests of a host."""

    default: Limits
    guests: dict[str, Limits]

    def of(self, name: str) -> Limits:
        return self.guests.get(name, self.default)


def limits_of(where: str, value: object) -> dict:
    """The fields of one table."""
    if not isinstance(value, dict):
        raise Refused(f"{where} is no table")
    fields = refusals.expect_object(where, value, GUEST, "limit")
    found: dict = {
        name: refusals.expect_word(f"{where}: {name}", fields[name], QUANTITIES[name])
        for name in QUANTITIES
        if name in fields
    }
    if "watch" in fields:
        if not isinstance(fields["watch"], bool):
            raise Refused(f"{where}: watch is neither true nor false: {fields['watch']!r}")
        found["is_watched"] = fields["watch"]
    return found


def parsed(path: str, text: bytes) -> Host:
    if tomllib is None:
        raise Refused(f"{path}: TOML is read from Python 3.11 on")
    try:
        fields = tomllib.loads(text.decode())
    except (ValueError, RecursionError) as fault:
        raise Refused(f"{path} is no TOML: {fault}") from fault
    refusals.expect_object(path, fields, WHOLE, "table")
    default = limits_of(f"{path}: default", fields.get("default", {}))
    if "link" not in default:
        raise Refused(f'{path}: default has no link: the rate at which pages are sent, as link = "10Gbit"')
    guests = fields.get("guests", {})
    if not isinstance(guests, dict):
        raise Refused(f"{path}: guests is no table")
    named = {name: Limits(**{**default, **limits_of(f"{path}: guests: {name}", each)}) for name, each in guests.items()}
    return Host(Limits(**default), named)


class File:
    """A file of limits, which is read again when it has changed. One that is refused then leaves those before."""

    def __init__(self, path: str):
        self.path, self.fault = path, ""
        self.seen, self.host = self._state(), self._read()

    def _state(self) -> tuple[int, int, int]:
        found = os.stat(self.path)
        return found.st_mtime_ns, found.st_ino, found.st_size

    def _read(self) -> Host:
        return parsed(self.path, refusals.read(self.path))

    def now(self) -> Host:
        try:
            state = self._state()
            if state != self.seen:
                self._read_again(state)
            self.fault = ""
        except (OSError, Refused) as fault:
            self._complain(traces.told(fault))
        return self.host

    def _read_again(self, state: tuple[int, int, int]) -> None:
        """What is refused is not read twice; what could not be read is tried again."""
        try:
            self.host = self._read()
        except Refused:
            self.seen = state
            raise
        self.seen = state
        print(f"limits: {self.path} is read again", flush=True)

    def _complain(self, told: str) -> None:
        if told != self.fault:
            version.complain("watch", f"the limits stay as they were: {told}")
        self.fault = told
