"""Whole files, read and written in one step. A path may be given in parts."""

import json
import os


def read_bytes(*path: str) -> bytes:
    with open(os.path.join(*path), "rb") as file:
        return file.read()


def read_text(*path: str) -> str:
    with open(os.path.join(*path), encoding="utf-8") as file:
        return file.read()


def read_json(*path: str):
    return json.loads(read_text(*path))


def write_file(content: bytes | str, *path: str) -> str:
    """Writes a file, and returns its path."""
    place = os.path.join(*path)
    with open(place, "wb") as file:
        file.write(content.encode() if isinstance(content, str) else content)
    return place
