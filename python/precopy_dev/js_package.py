"""Makes the package for Node, a folder that npm installs without a network.

    dev/js-package MODULE FOLDER

MODULE is the WebAssembly module of the proved planner, and FOLDER what is made. It gets bindings/js with the version of
precopy, the files of web/ that this imports, the module, the license, and the notices of the libraries whose code the
module holds. A FOLDER that has an earlier package is made anew, and any other that is not empty is refused. The same
inputs give the same bytes. The status is 0 if the package is made, and 1 if not.
"""

import json
import os
import posixpath
import shutil
import sys

from precopy_dev.files import read_text, write_file
from precopy_dev.join_page import IMPORT, of_module, scripts_below
from precopy_dev.packaging import notices
from precopy_dev.tree import read
from precopy_tools.refusals import Refused
from precopy_tools.version import VERSION

SOURCES = "bindings/js"
OWN = ("README.md", "index.d.ts", "index.js", "statuses.js")
MODULE = "planner.wasm"


def manifest() -> dict[str, object]:
    """What package.json tells, with the version behind the name."""
    told = json.loads(read(f"{SOURCES}/package.json"))
    return {"name": told.pop("name"), "version": VERSION, **told}


def engine() -> dict[str, str]:
    """The files of web/ that the package imports, and those that these import."""
    found: dict[str, tuple[str, set[str]]] = {}
    for _, path in IMPORT.findall(read(f"{SOURCES}/index.js")):
        name = posixpath.normpath(path)
        if name not in OWN:
            scripts_below(name, found)
    return {name: text for name, (text, _) in found.items()}


def package_of(module: bytes) -> dict[str, bytes]:
    """The files of the package by their paths in it."""
    texts = {name: read(f"{SOURCES}/{name}") for name in OWN}
    texts |= engine()
    texts |= {"package.json": json.dumps(manifest(), indent=2) + "\n", "LICENSE": read("LICENSE")}
    texts["NOTICES"] = notices.notices(notices.PLANNER)
    return {**{name: text.encode() for name, text in texts.items()}, MODULE: module}


def is_earlier(folder: str) -> bool:
    """Whether a folder is empty, or has a package of this name."""
    names = os.listdir(folder)
    if "package.json" in names:
        return f'"name": "{manifest()["name"]}",' in read_text(folder, "package.json")
    return not names


def make(folder: str, files: dict[str, bytes]) -> None:
    """Writes the files into a folder of their own beside FOLDER, which then takes its place."""
    folder = os.path.realpath(folder)
    part = f"{folder}.part"
    if os.path.exists(folder) and not is_earlier(folder):
        raise Refused(f"{folder} is there, and has no earlier package")
    shutil.rmtree(part, ignore_errors=True)
    for name, data in sorted(files.items()):
        path = os.path.join(part, name)
        os.makedirs(os.path.dirname(path), exist_ok=True)
        write_file(data, path)
    shutil.rmtree(folder, ignore_errors=True)
    os.replace(part, folder)


def main(words: list[str]) -> int:
    return of_module("dev/js-package", "FOLDER", words, lambda module, folder: make(folder, package_of(module)))


if __name__ == "__main__":
    sys.exit(main(sys.argv[1:]))
