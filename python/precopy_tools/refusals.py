"""What a tool is given and refuses: one exception for all of it, and the tests that every file of JSON has."""

import argparse
import json
from collections.abc import Callable, Collection

# Files of JSON and TOML that people write, and NAME.json, have a few KiB.
MOST_BYTES = 16 << 20


class Refused(Exception):
    """A file is refused; the text says which and why. Of a trace it is the name of the cause, as the program prints
    it."""


def object_of(pairs: list[tuple[str, object]]) -> dict:
    """A JSON object, in which each name stands once."""
    found = dict(pairs)
    if len(found) < len(pairs):
        names = [name for name, _ in pairs]
        raise ValueError(f"the name {next(name for name in names if names.count(name) > 1)!r} stands there twice")
    return found


def json_of(where: str, text: bytes | str) -> object:
    """What a text of JSON says."""
    try:
        return json.loads(text, object_pairs_hook=object_of)
    except (ValueError, RecursionError) as fault:
        raise Refused(f"{where} is no JSON: {fault}") from fault


def expect_object(where: str, value: object, names: Collection[str], kind: str) -> dict:
    """A value that is a JSON object, and has fields of these names and no others; `kind` is what they are called."""
    if not isinstance(value, dict):
        raise Refused(f"{where} is no JSON object")
    for name in value.keys() - set(names):
        raise Refused(f"{where}: there is no {kind} {name}")
    return value


def expect_word(where: str, value: object, parse: Callable):
    """What a text says, by what reads such words on a command line."""
    if not isinstance(value, str):
        raise Refused(f"{where} is no text: {value!r}")
    try:
        return parse(value)
    except argparse.ArgumentTypeError as fault:
        raise Refused(f"{where}: {fault}") from fault


def read(path: str) -> bytes:
    """A file of settings or of what was recorded, of which no more is read than a byte beyond the most."""
    with open(path, "rb") as file:
        text = file.read(MOST_BYTES + 1)
    if len(text) > MOST_BYTES:
        raise Refused(f"{path} has more than {MOST_BYTES >> 20} MiB")
    return text


def object_in(path: str, names: Collection[str], kind: str) -> dict:
    """The JSON object in a file, with fields of these names and no others."""
    return expect_object(path, json_of(path, read(path)), names, kind)
