"""The wrong products of checks/wrongs: at least three for each check that it tries, as faults.tsv has them."""

import os
from typing import NamedTuple


class Fault(NamedTuple):
    """A text that is wrong in a source, or in what a program does by a wrong of wrong.c, with what stands there
    otherwise; or a wrong call of the library, by a wrong of wrong_library.c. `sign` is what the failure of a check, or
    of some of its cases, must tell of. What is wrong in two places alike has both places, words and texts, and two
    wrongs if they have other names, between them &."""

    check: str
    cases: str
    sign: str
    where: str
    name: str
    when: str
    old: str
    new: str

    def is_alike(self) -> bool:
        return "&" in self.where

    def parts(self) -> "list[Fault]":
        """The fault, place by place."""
        if not self.is_alike():
            return [self]
        names = self.name if "&" in self.name else f"{self.name}&{self.name}"
        places = zip(*(text.split("&") for text in (self.where, names, self.when, self.old)))
        return [self._replace(where=where, name=name, when=when, old=old) for where, name, when, old in places]

    def __str__(self):
        return f"{self.check}: {' '.join(filter(None, (self.where, self.name, self.when)))} {self.old!r} {self.new!r}"


def read() -> list[Fault]:
    with open(os.path.join(os.path.dirname(__file__), "faults.tsv"), encoding="utf-8") as file:
        rows = [line.rstrip("\n").split("\t") for line in file if not line.startswith("#")]
    return [Fault(*(text.replace("\\n", "\n") for text in row)) for row in rows]
