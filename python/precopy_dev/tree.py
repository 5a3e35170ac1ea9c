"""The tree of the sources."""

import os
from typing import NamedTuple

from precopy_dev.files import read_text

# Its top.
TOP = os.path.dirname(os.path.dirname(os.path.dirname(os.path.abspath(__file__))))


class Crate(NamedTuple):
    """A line of crates.txt: the words behind the crate's name, and the libraries that it stands on."""

    words: list[str]
    uses: list[str]


def read(path: str) -> str:
    """A text by its path from the top."""
    return read_text(TOP, path)


def crates() -> dict[str, Crate]:
    """The crates by their names, in the order of crates.txt."""
    lines = [line.partition("#")[0].partition(":") for line in read("crates.txt").splitlines()]
    heads = [(head.split(), uses.split()) for head, colon, uses in lines if colon]
    return {name: Crate(words, uses) for (name, *words), uses in heads}


def program(crate: str) -> str:
    """The path of a program of the tree, or the one that it will have when it is built."""
    return os.path.join(TOP, "crates", crate, "out", crate)
