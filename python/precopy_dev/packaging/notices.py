"""The notices of the libraries whose code is in the programs, the library and the page.

The toolchain has these libraries with their licences beside their sources. Which are linked is read from crates.txt,
and from what the sources of each library use of others.
"""

import functools
import os
import re
import shutil
import subprocess

from precopy_dev import tree
from precopy_dev.files import read_text, write_file
from precopy_dev.tree import TOP

USE = re.compile(r"^\s*(?:pub )?use ([a-z_0-9]+)::", re.M)
# Programs and libraries that users get, by the crates that they are built from.
PLANNER = ("browser_planner",)
SHIPPED = ("precopy", "precopy_view", "precopy_schedule", "precopy_c", *PLANNER)
# Where the notices are kept: of all that is shipped, and of the planner's page alone.
KEPT = {SHIPPED: os.path.join(TOP, "out", "NOTICES"), PLANNER: os.path.join(TOP, "out", "NOTICES.planner")}
HEAD = """\
The programs, the library and the planner of precopy hold code of the libraries below, which the toolchain's authors
have ported. Their licences ask that these notices go with it.
"""


class Lacks(Exception):
    """The toolchain is not there, or is laid out otherwise; the text says in what."""


@functools.cache
def libraries() -> str:
    """The folder of the toolchain's libraries."""
    try:
        told = subprocess.run(["rt", "doc"], capture_output=True, text=True, check=True).stdout.strip()
    except (OSError, subprocess.CalledProcessError) as fault:
        raise Lacks(
            "the toolchain's command rt is not there, and the notices of its libraries stand beside it"
        ) from fault
    folder = os.path.join(os.path.dirname(told), "rattle")
    if not os.path.isdir(folder):
        raise Lacks(f"the toolchain has no folder {folder}")
    return folder


def used_by(library: str) -> set[str]:
    """The other libraries of the toolchain that this one uses."""
    used = set()
    for folder, _, names in os.walk(os.path.join(libraries(), library, "src")):
        for name in names:
            used |= set(USE.findall(read_text(folder, name)))
    return {name for name in used - {library, "std"} if os.path.isdir(os.path.join(libraries(), name, "src"))}


def linked(crates: tuple[str, ...]) -> list[str]:
    """The libraries of the toolchain that these crates stand on."""
    ours, found, left = tree.crates(), set(), list(crates)
    while left:
        name = left.pop()
        more = ours[name].uses if name in ours else used_by(name)
        left += [it for it in more if it not in found]
        found |= set(more)
    return sorted(name for name in found if name not in ours)


def notices_of(library: str) -> list[str]:
    """The texts of a library's licences."""
    folder = os.path.join(libraries(), library)
    texts = []
    for name in sorted(os.listdir(folder)):
        if name.startswith(("LICENSE", "NOTICE", "COPYRIGHT")):
            texts.append(read_text(folder, name).strip())
    return texts


def told_by_toolchain(crates: tuple[str, ...]) -> str:
    """The notices of what these crates hold, once for each text, with the libraries that it is of."""
    texts: dict[str, list[str]] = {}
    for library in linked(crates):
        for text in notices_of(library):
            texts.setdefault(text, []).append(library)
    parts = (f"{', '.join(names)}\n{'=' * 78}\n\n{text}\n" for text, names in texts.items())
    return HEAD + "\n" + "\n\n".join(parts)


def make(_) -> None:
    """Writes the notices to KEPT, so that an installation of what is built needs no toolchain."""
    for crates, path in KEPT.items() if shutil.which("rt") else ():
        os.makedirs(os.path.dirname(path), exist_ok=True)
        write_file(told_by_toolchain(crates), path)


def notices(crates: tuple[str, ...] = SHIPPED) -> str:
    """The notices as `make` has kept them."""
    try:
        return read_text(KEPT[crates])
    except FileNotFoundError as fault:
        raise Lacks("the notices of the toolchain's libraries are not there: make writes them") from fault
