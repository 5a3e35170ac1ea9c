"""How each guest is reached, and where it goes: words in which {name}, {n} and {port} stand for its own.

{name} is the guest's name, {n} its number from 1 on in the order given, and {port} the first port for the first guest,
the next one for the second, and so on.
"""

import argparse
import re
from collections.abc import Iterable
from typing import NamedTuple

PARTS = ("name", "n", "port")
PART = re.compile(r"\{(\w*)\}")
# From here on ports are for what is short-lived, as libvirt has them for migrations.
FIRST_PORT, LAST_PORT = 49_152, 65_535


class Shared(Exception):
    """Two guests have one destination or one monitor; the text says which and what helps."""


class Way(NamedTuple):
    """QEMU's monitor of a guest, and the address to which it goes. An empty word is not known."""

    monitor: str = ""
    to: str = ""


def template(word: str) -> str:
    """A word whose parts in braces are known, and which can stand in a line."""
    if not word or not word.isprintable():
        raise argparse.ArgumentTypeError(f"{word!r} is no word for a line")
    for part in PART.findall(word):
        if part not in PARTS:
            known = ", ".join(f"{{{name}}}" for name in PARTS)
            raise argparse.ArgumentTypeError(f"{word!r}: {{{part}}} is none of {known}")
    return word


def port(word: str) -> int:
    if not word.isdecimal() or not 1 <= int(word) <= LAST_PORT:
        raise argparse.ArgumentTypeError(f"{word!r} is no port from 1 to {LAST_PORT}")
    return int(word)


def filled(word: str, name: str, number: int, first_port: int) -> str:
    """A template with what is the guest's own."""
    if "{port}" in word and first_port + number - 1 > LAST_PORT:
        raise Shared(f"{name}: there is no port {first_port + number - 1}: --port is too high for so many guests")
    own = {"name": name, "n": str(number), "port": str(first_port + number - 1)}
    return PART.sub(lambda match: own[match[1]], word)


def ways_of(names: list[str], default: Way, own: dict[str, Way], first_port: int) -> dict[str, Way]:
    """The way of each guest: its own as far as the settings have one, or else the default."""
    found = {}
    for number, name in enumerate(names, 1):
        words = zip(own.get(name, Way()), default)
        found[name] = Way(*(filled(word or other, name, number, first_port) for word, other in words))
    return found


def expect_apart(ways: dict[str, Way], at_once: int) -> None:
    """No two guests have one monitor; if several move at once, no two have one destination."""
    expect_once("monitor", ((way.monitor, name) for name, way in ways.items()))
    if at_once > 1:
        expect_once("to", ((way.to, name) for name, way in ways.items()))


def expect_once(field: str, words: Iterable[tuple[str, str]]) -> None:
    seen: dict[str, str] = {}
    for word, name in words:
        if word and (other := seen.setdefault(word, name)) != name:
            raise Shared(
                f"{other} and {name} have one {'destination' if field == 'to' else 'monitor'}, {word}: {{name}}, {{n}} "
                f"or {{port}} in --{field} gives each its own, and so does `{field}` of a guest in the settings"
            )
